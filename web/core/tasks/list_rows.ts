// Reads the rows of a translator's lists: tables and PO files.

import { kindOfEnds, type DiscFile } from '../disc/index.js';
import { SEARCHED } from '../encodings/index.js';
import { Fault, failedBy, remark, type Remark, type RowName } from '../faults.js';
import { Glyphs, KeptTexts, MARKS, NO_BLOCK, Table, entriesOfPo, isPo, longTextOf } from '../texts/index.js';
import { isTurnDue, letOthersIn, type Signal } from '../turns.js';

/**
 * A row of a table, or a place of an entry of a PO file: its name, the place of the old text, the room there that the row names, or -1, and
 * the encoding, or ''. `fault` is the reason why the row cannot be read as it was meant, or null. A fuzzy entry has no new text. `isInFile`
 * is whether the offset counts from the beginning of a plain file: then the block is 0. `fill` is the code of the filler of a record of
 * fixed width, '' for other texts. `kept` has what was computed of the texts, if other rows have the same.
 */
export type ListRow = RowName & { block: number, offset: number, room: number, encoding: string, text: string, fresh: string,
    fault: Remark<'list/cell-runs-on' | 'po/plural' | 'po/no-place'> | null, isFuzzy: boolean, isInFile: boolean, fill: string,
    kept?: KeptTexts };
/**
 * The rows of some lists: those with a new text, and those without one that were asked for; the number of fuzzy entries, which are left
 * out; and the characters of new texts that no old text has.
 */
export type ReadLists = { rows: ListRow[], fuzzy: number, glyphs: string[] };

const LIST_COLUMNS = ['block', 'offset', 'text', 'new', 'room', 'encoding', 'fill'];
const NEEDED = LIST_COLUMNS.slice(0, 4);

/** The most rows with new texts. */
const MOST_ROWS = 1000000;

/** How many rows at the start may name the columns. Other rows, such as a title, may come first. */
const MOST_HEADS = 20;

/** The most bytes of a list; and the most characters of the texts of all rows, counted once for each encoding that a row may be in. */
const MOST_LISTED = 1 << 28;

class RowCollector {
    rows: ListRow[] = [];
    glyphs = new Glyphs();
    fuzzy = 0;
    count = 0;
    characters = 0;

    /** @param isAlso selects rows without a new text that are returned too */
    constructor(readonly isAlso: (row: ListRow) => boolean) {}

    add(row: ListRow) {
        this.fuzzy += Number(row.isFuzzy);
        this.count += Number(row.fresh !== '');
        // An entry of a PO file may have a long text and many places, and a row that names no encoding is tried in all usual ones.
        this.characters += (row.text.length + row.fresh.length) * (row.encoding === '' ? SEARCHED.length : 1);
        if (this.count > MOST_ROWS) throw new Fault('list/too-many-rows', { most: MOST_ROWS });
        if (this.characters > MOST_LISTED) throw new Fault('list/too-many-characters', { most: MOST_LISTED });
        this.glyphs.add(row);
        if (row.fresh !== '' || row.fault !== null || this.isAlso(row)) this.rows.push(row);
    }
}

/**
 * Reads the rows with a new text of some lists in files. Throws a Fault if there are none, or if a list cannot be read.
 * @param isAlso selects rows without a new text that are returned too
 */
export async function rowsOfLists(lists: DiscFile[], isAlso: (row: ListRow) => boolean = () => false, signal?: Signal): Promise<ReadLists> {
    const read = new RowCollector(isAlso);
    for (const { name, reader } of lists) {
        if (reader.size > MOST_LISTED) throw new Fault('list/too-large', { name, size: reader.size, most: MOST_LISTED });
        const kind = await kindOfEnds(reader);
        if (kind) throw new Fault('disc/other-file', { name, kind });
        const own = lists.length > 1 ? name : '';
        try {
            const list = await longTextOf(reader, signal);
            for (const row of isPo(list) ? poRows(list, own) : tableRows(list, own)) {
                if (isTurnDue()) await letOthersIn(signal);
                if (row !== null) read.add(row); // null only gives other work a turn
            }
        } catch (error) {
            if (own === '' || !failedBy(error, 'list', 'po')) throw error;
            throw new Fault('list/invalid', { list: own, why: remark(error.code, error.facts) });
        }
    }
    const { rows, fuzzy, glyphs } = read;
    if (rows.length === 0 && fuzzy === 0) throw new Fault('list/no-new-text', {});
    return { rows, fuzzy, glyphs: glyphs.missing() };
}

/**
 * Finds the mark between the cells of a list, and the row that names the columns, which may be in quotes. Null if the list has no row.
 * Throws a Fault if none of the first rows names the columns, or if a name occurs twice.
 */
function headOf(list: string) {
    let nearest: { number: number, missing: string[] } | null = null;
    for (const mark of MARKS) {
        for (const { number, cells, isQuoted } of new Table(list, mark).rows()) {
            if (number > MOST_HEADS) break;
            const names = cells.map(it => it.trim().replace(/^"(.*)"$/, '$1').toLowerCase());
            const missing = NEEDED.filter(name => !names.includes(name));
            const twice = LIST_COLUMNS.find(name => names.indexOf(name) !== names.lastIndexOf(name));
            if (missing.length === 0 && twice) throw new Fault('list/column-twice', { row: number, column: twice });
            if (missing.length === 0) return { mark, number, names, isQuoted };
            if (nearest === null || missing.length < nearest.missing.length) nearest = { number, missing };
        }
    }
    if (nearest === null) return null;
    throw new Fault('list/no-column', { row: nearest.number, columns: nearest.missing });
}

function wholeIn(cell: string | undefined) {
    return cell !== undefined && /^\d{1,12}$/.test(cell) ? Number(cell) : -1;
}

/** @param cell the number of a block, or NO_BLOCK for block 0, with which the offsets of plain files begin */
function blockIn(cell: string | undefined) {
    return cell === NO_BLOCK ? 0 : wholeIn(cell);
}

/** A comment in a PO file about the places of an entry in one encoding: their smallest room, the encoding, and the filler. */
const PO_FACTS = /^room (\d{1,9}) bytes?(?:, ([^,]+))?(?:, fill (\S+))?/;

/** The name of a place in a PO file, with its encoding if there are several. */
const PO_PLACE = /^(\d{1,9}|-)\+(\d{1,12})(?::(\S+))?$/;

/**
 * What the comments of an entry say of its places, by their encodings. If msgcat has joined entries, this is the smallest room, and the
 * filler if all name the same.
 */
function factsIn(comments: string[]) {
    const facts: Map<string, { room: number, fill: string }> = new Map();
    for (const comment of comments) {
        const [, digits = '', encoding = '', fill = ''] = PO_FACTS.exec(comment) || [];
        if (digits === '') continue;
        const { room, fill: other } = facts.get(encoding) || { room: Infinity, fill };
        facts.set(encoding, { room: Math.min(Number(digits), room), fill: fill === other ? fill : '' });
    }
    return facts;
}

/** After how many references `placedRows` yields null, so that other work gets a turn. */
const PLACES_AT_ONCE = 1000;

/**
 * Yields the rows of a PO file, one for each place of an entry, and null now and then. A fuzzy entry, and one without a place, has one row.
 */
function* poRows(list: string, name: string): Generator<ListRow | null> {
    const kept = new KeptTexts();
    for (const found of entriesOfPo(list)) {
        if (found === null) {
            yield null;
            continue;
        }
        const { line, text, fresh, isFuzzy, isPlural, places, comments } = found;
        const entry = {
            list: name, unit: 'line' as 'line', number: line, place: '', block: -1, offset: -1, room: -1, encoding: '',
            fill: '', text, fresh: isFuzzy ? '' : fresh, fault: isPlural && fresh !== '' ? remark('po/plural', {}) : null,
            isFuzzy: isFuzzy && fresh !== '', isInFile: false, ...places.length > 1 && { kept },
        };
        yield* placedRows(entry, isFuzzy ? [] : places, factsIn(comments));
    }
}

/**
 * The rows of the places of an entry. A place without an encoding has that of the comment. If there are several comments, as after msgcat
 * has joined entries, its encoding is not known.
 */
function* placedRows(entry: ListRow, references: string[], facts: ReturnType<typeof factsIn>): Generator<ListRow | null> {
    const [only = ''] = facts.size === 1 ? facts.keys() : [];
    let isPlaced = false;
    for (const [i, reference] of references.entries()) {
        if (i % PLACES_AT_ONCE === 0) yield null;
        const found = PO_PLACE.exec(reference);
        if (found === null) continue;
        const [, block, offset, encoding = only] = found;
        isPlaced = true;
        const place = { place: `${block}+${offset}`, block: blockIn(block), isInFile: block === NO_BLOCK, offset: Number(offset) };
        yield { ...entry, ...place, encoding, ...facts.get(encoding) };
    }
    if (isPlaced) return;
    yield entry.fresh === '' || entry.fault !== null ? entry : { ...entry, fault: remark('po/no-place', {}) };
}

function* tableRows(list: string, name: string): Generator<ListRow> {
    const head = headOf(list);
    if (head === null) return;
    const table = new Table(list, head.mark);
    const [block, offset, text, fresh, room, encoding, fill] = LIST_COLUMNS.map(it => head.names.indexOf(it));
    const isPlace = (cells: string[]) => blockIn(cells[block]) >= 0 && wholeIn(cells[offset]) >= 0;
    table.isQuoted = table.isQuoted || head.isQuoted;
    table.isRow = line => isPlace(line.split(head.mark, Math.max(block, offset) + 1));
    for (const { number, cells, overrun } of table.rows()) {
        if (number <= head.number) continue;
        yield {
            list: name, unit: 'row', number, place: '', block: blockIn(cells[block]), offset: wholeIn(cells[offset]),
            isInFile: cells[block] === NO_BLOCK, room: wholeIn(cells[room]), encoding: cells[encoding] || '', fill: cells[fill] || '',
            text: cells[text] || '', fresh: cells[fresh] || '',
            fault: overrun === 0 ? null : remark('list/cell-runs-on', { row: number + overrun }), isFuzzy: false,
        };
    }
}
