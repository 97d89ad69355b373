// The rows of translators' lists as changes of a translation.

import type { DiscFile } from '../disc/index.js';
import { Fault, type Remark } from '../faults.js';
import { codesLeftOut, controlsTyped, type ListedText } from '../texts/index.js';
import { isTurnDue, letOthersIn } from '../turns.js';
import { encodingsOfRows, fittedRows, placeInImage, type LeftRow, type RowEncodings } from './list_fitting.js';
import { rowsOfLists, type ListRow } from './list_rows.js';
import type { OpenedTrack, Watch } from './opened.js';
import type { Placed, Translation } from './translation.js';

/**
 * What rows of lists say: the places with new texts, those whose text the rows leave `empty`, and the rows that belong to no place, or
 * contradict another row.
 */
type RowChanges = { changes: Map<Placed, ListRow>, empty: Set<Placed>, left: LeftRow[] };

/** How a row is listed, which says whether two are the same one. */
function listedAs({ list, number, block, offset }: ListRow) {
    return `${list} ${number} ${block} ${offset}`;
}

/** Whether a row says of the place of its text what is known of it. */
function agreesWith({ encoding, unit, room, fill }: ListRow, { as }: Placed) {
    return (encoding === '' || encoding === as.encoding) && (unit === 'line' || room < 0 || room === as.room) && fill === (as.fill || '');
}

/**
 * Finds rows in the image that belong to no known place, or say something else of it, and gives them places. Returns those whose old texts
 * are not there.
 */
async function placesOfRows(opened: Pick<OpenedTrack, 'contents'>, translation: Translation, rows: ListRow[], options: RowEncodings,
    watch: Watch) {
    if (rows.length === 0) return [];
    const { part } = await opened.contents();
    const found: ListedText[] = [];
    const place = placeInImage(part, null, () => {}, (row, it) => {
        const { block, offset, isInFile, text, fill } = row;
        const { known: bytes, encoding: { name: encoding } } = it;
        const room = row.unit === 'line' || row.room < 0 ? it.room : row.room;
        found.push({ block: isInFile ? '-' : block, offset, bytes, room, encoding, file: '-', text, ...fill !== '' && { fill } });
        return 1; // old texts may overlap, new ones may not
    });
    const { left } = await fittedRows(rows.map(row => ({ ...row, fresh: row.text })), place, options, watch);
    if (found.length > 0) translation.define(found, options);
    // Whether the new text is there instead is known only with it.
    const names = new Map(left.map(({ text, why }) => [listedAs(text), why]));
    const others = rows.filter(row => names.has(listedAs(row)));
    const again = await fittedRows(others, place, options, { signal: watch.signal });
    const whys = new Map([...names, ...again.left.map(({ text, why }) => [listedAs(text), why] as const)]);
    return others.map(text => ({ text, why: whys.get(listedAs(text)) as Remark }));
}

/**
 * The places of rows. Rows that belong to no listed text get places of their own.
 * @param isAlso selects rows without a new text that are looked for in the image too, because the script may have one for them
 */
export async function changesOfRows(opened: Pick<OpenedTrack, 'contents'>, translation: Translation, rows: ListRow[],
    options: RowEncodings, watch: Watch = {}, isAlso: (row: ListRow) => boolean = () => false): Promise<RowChanges> {
    const others: ListRow[] = [];
    for (const row of rows) {
        if (isTurnDue()) await letOthersIn(watch.signal);
        const place = row.fault === null ? translation.at(row) : undefined;
        if (place === undefined ? row.fresh !== '' || row.fault !== null || isAlso(row) : row.fresh !== '' && !agreesWith(row, place)) {
            others.push(row);
        }
    }
    const isNotThere = new Map((await placesOfRows(opened, translation, others, options, watch)).map(it => [listedAs(it.text), it]));
    const made: RowChanges = { changes: new Map(), empty: new Set(), left: [] };
    for (const row of rows) {
        const left = isNotThere.get(listedAs(row));
        const place = left === undefined ? translation.at(row) : undefined;
        if (left !== undefined && (row.fresh !== '' || row.fault !== null)) made.left.push(left);
        if (place !== undefined) noteRow(made, place, row, translation.unread.has(place));
    }
    for (const place of made.changes.keys()) made.empty.delete(place);
    return made;
}

/** @param mayHave whether the script may have a new text there that was not read */
function noteRow({ changes, empty, left }: RowChanges, place: Placed, row: ListRow, mayHave: boolean) {
    const known = changes.get(place);
    if (row.fresh === '' && (place.fresh !== '' || mayHave)) empty.add(place);
    if (row.fresh === '') return;
    if (known === undefined) changes.set(place, row);
    else if (known.fresh !== row.fresh) left.push({ text: row, why: { code: 'list/overlaps', facts: { row: known } } });
}

/**
 * Like changesOfRows, for lists, with the remarks on them. Throws a Fault if no row of them has a new text.
 * @param isAlso as for changesOfRows
 */
export async function changesOfLists(opened: Pick<OpenedTrack, 'contents'>, translation: Translation, lists: DiscFile[],
    options: RowEncodings, watch: Watch = {}, isAlso?: (row: ListRow) => boolean) {
    const { signal } = watch;
    const { rows, fuzzy, glyphs } = await rowsOfLists(lists, () => true, signal);
    const made = await changesOfRows(opened, translation, rows, options, watch, isAlso);
    if (made.changes.size + made.empty.size + made.left.length === 0 && fuzzy === 0) throw new Fault('list/no-new-text', {});
    const each = [...made.changes.values(), ...made.left.map(({ text }) => text)];
    const encodingsFor = encodingsOfRows(options);
    return {
        ...made, fuzzy, codes: await codesLeftOut(each, encodingsFor, signal),
        glyphs: [...glyphs, ...await controlsTyped(each, encodingsFor, signal)],
    };
}
