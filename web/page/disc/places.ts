// Groups findings into places, and guesses the cause of each.

import { SECTOR_SIZE, USER_SIZE, type Calls } from '../../core/module/index.js';
import { HEADER_OFFSET, isSound } from '../../core/sectors/views.js';
import { MARK, type SurveyMarks } from '../app/index.js';
import { format } from '../texts/index.js';
import * as texts from '../texts/index.js';

// Finds the bytes of a sector that lie in a broken P column and in a broken Q diagonal. The rules of these codes are not repeated here:
// each byte of a sound sector is changed, and the module says which column and which diagonal that breaks.

let codePlaces: { columns: Int16Array, diagonals: Int16Array } | null = null;

/** The column and the diagonal of each byte of a sector, -1 for none. */
function placesInCodes(calls: Calls) {
    if (codePlaces !== null) return codePlaces;
    const columns = new Int16Array(SECTOR_SIZE).fill(-1);
    const diagonals = new Int16Array(SECTOR_SIZE).fill(-1);
    const address = calls.address(0);
    const sector = calls.encode(address || new Uint8Array(3), new Uint8Array(USER_SIZE));
    for (let at = HEADER_OFFSET; at < SECTOR_SIZE; at++) {
        if (at === HEADER_OFFSET + 3) continue;
        sector[at] ^= 255;
        const broken = calls.findBroken(sector);
        columns[at] = broken.columns.indexOf(1);
        diagonals[at] = broken.diagonals.indexOf(1);
        sector[at] ^= 255;
    }
    codePlaces = { columns, diagonals };
    return codePlaces;
}

/** The bytes of a Mode 1 sector at which its broken columns and diagonals cross. */
export function crossingsOf(calls: Calls, sector: Uint8Array) {
    const broken = calls.findBroken(sector);
    const { columns, diagonals } = placesInCodes(calls);
    const crossings = [];
    for (let at = 0; at < SECTOR_SIZE; at++) {
        if (columns[at] >= 0 && diagonals[at] >= 0 && broken.columns[columns[at]] && broken.diagonals[diagonals[at]]) crossings.push(at);
    }
    const count = (marks: Uint8Array) => marks.reduce((sum, mark) => sum + Number(mark !== 0), 0);
    return {
        crossings,
        columns: count(broken.columns), ofColumns: broken.columns.length,
        diagonals: count(broken.diagonals), ofDiagonals: broken.diagonals.length,
    };
}

/**
 * The byte that P and Q give for a sector with a single broken column and a single broken diagonal: its place, and the value with which the
 * module finds the sector sound. Null if there is none. The module judges at most 255 values for each byte at which the two cross.
 * @param found in it
 */
export function byteOfCodes(calls: Calls, sector: Uint8Array, { crossings, columns, diagonals }: ReturnType<typeof crossingsOf>) {
    if (columns !== 1 || diagonals !== 1) return null;
    const tried = sector.slice();
    for (const at of crossings) {
        for (let change = 1; change < 256; change++) {
            tried[at] = sector[at] ^ change;
            if (isSound(calls.survey(tried, 0), 0)) return { at, fresh: tried[at] };
        }
        tried[at] = sector[at];
    }
    return null;
}

/** Sectors by their number in the image. */
export type Place = { first: number, last: number, sectors: number[], counts: Uint32Array };

/** Findings this many sectors apart, or more, are in different places. */
const PLACE_GAP = 700;

/** A place is all over the disc if it spans at least this many sectors, and half of all. */
const ALL_OVER = 10 * PLACE_GAP;

/** The spiral of a disc in millimetres: its first radius, its pitch, and the length of a sector at 1.3 m/s. */
const FIRST_RADIUS = 25;
const PITCH = 0.0016;
const SECTOR_LENGTH = 1300 / 75;

const ordinals = new Intl.PluralRules(texts.LANGUAGE, { type: 'ordinal' });

/** The places of all findings, in the order of their first sectors. Lost sectors in a row are a place of their own. */
export function placesOf({ marks, known }: SurveyMarks): Place[] {
    const places: Place[] = [];
    const before: Partial<Record<'row' | 'others', Place>> = {};
    const isLost = (i: number) => i < known && marks[i] === MARK.LOST;
    for (let i = 0; i < known; i++) {
        if (marks[i] < MARK.ADDRESS) continue;
        const kind = isLost(i) && (isLost(i - 1) || isLost(i + 1)) ? 'row' : 'others';
        const last = before[kind];
        const joined = last !== undefined && i - last.last < (kind === 'row' ? 2 : PLACE_GAP);
        const place = joined ? last : { first: i, last: i, sectors: [], counts: new Uint32Array(MARK.EDC + 1) };
        if (!joined) places.push(place);
        before[kind] = place;
        place.last = i;
        place.sectors.push(i);
        place.counts[marks[i]] += 1;
    }
    return places;
}

/** The findings of a place in a few words, with the mark that represents it. */
export function placeWords({ counts }: Place) {
    const damage = counts[MARK.EDC] + counts[MARK.PARITY];
    const words = [];
    if (counts[MARK.EDC] > 0) words.push(counts[MARK.PARITY] > 0 ? 'data and parity' : 'data');
    else if (counts[MARK.PARITY] > 0) words.push('only parity');
    if (counts[MARK.LOST] > 0) words.push(format('{count} × sync or mode lost', { count: String(counts[MARK.LOST]) }));
    const count = String(counts[MARK.ADDRESS]);
    if (counts[MARK.ADDRESS] > 0) words.push(damage + counts[MARK.LOST] > 0 ? format('{count} × address', { count })
        : 'address');
    const mark = [MARK.EDC, MARK.PARITY, MARK.LOST, MARK.ADDRESS].find(it => counts[it] > 0) || MARK.ADDRESS;
    return { mark, words: words.join(', ') };
}

/** The base given by the addresses, if with the present base no sector of Mode 1 has the address of its block; else null. */
export function otherBase({ base, addressed }: { base: number, addressed: number | null }, marks: SurveyMarks) {
    return marks.isElsewhere() && addressed !== null && addressed >= 0 && addressed !== base ? addressed : null;
}

/** Whether a place extends all over the disc. `known` is how many sectors were read. */
export function isAllOver({ first, last }: Place, known: number) {
    return last - first >= Math.max(ALL_OVER, known / 2);
}

/**
 * A guess at the cause of a place, from the distances of its sectors, in words.
 * @param isElsewhere whether no sector has the address of its block
 * @param known how many sectors were read
 */
export function placeGuess(place: Place, isElsewhere: boolean, known: number) {
    const { counts, sectors, first, last } = place;
    const count = sectors.length;
    const inRow = count === last - first + 1;
    const row = { count: String(count) };
    if (isElsewhere) return 'another base?';
    if (counts[MARK.ADDRESS] === count) return inRow && count > 1
        ? format('{count} in a row: sectors before them are missing or extra', row) : 'not damage';
    if (count === 1) return counts[MARK.PARITY] === 1 ? 'a single sector; its user data match their EDC' : 'a single sector';
    if (inRow && count >= 8) return format(counts[MARK.LOST] === count ? '{count} in a row: perhaps not read by the drive'
        : '{count} in a row: perhaps on purpose (copy protection)', row);
    const allOver = isAllOver(place, known);
    const single = allOver ? 'single sectors all over the disc' : 'single sectors';
    const what = inRow ? format('{count} sectors in a row', row) : single;
    return distanceGuess(place, allOver) || (counts[MARK.PARITY] === count ? format('{what}; the user data match their EDC', { what })
        : what);
}

/**
 * A guess from the distances, or ''. A scratch crosses each turn of the spiral once, so that its sectors are about a turn apart. Sectors at
 * a different regular distance are not a scratch.
 * @param allOver whether the place is all over the disc
 */
function distanceGuess({ sectors, first }: Place, allOver: boolean) {
    if (sectors.length < 8) return '';
    const turn = sectorsATurn(sectors[sectors.length >> 1]);
    const distances = sectors.slice(1).map((sector, i) => sector - sectors[i]).sort((a, b) => a - b);
    const median = distances[distances.length >> 1];
    const alike = distances.filter(it => Math.abs(it - median) <= 1).length;
    if (median > 3 && 2 * alike > distances.length) {
        const isTurn = median > 0.75 * turn && median < 1.5 * turn;
        const what = format(allOver ? 'every {ordinal} sector all over the disc' : 'every {ordinal} sector', { ordinal: ordinal(median) });
        return isTurn ? format('a scratch: {what}', { what }) : what;
    }
    const turns = (sectors[sectors.length - 1] - first) / turn;
    const perTurn = sectors.length / turns;
    return perTurn > 0.5 && perTurn < 1.5 && turns > 8 ? 'a scratch: about one sector per revolution' : '';
}

function sectorsATurn(sector: number) {
    const radius = Math.sqrt(FIRST_RADIUS ** 2 + PITCH * SECTOR_LENGTH * sector / Math.PI);
    return 2 * Math.PI * radius / SECTOR_LENGTH;
}

function ordinal(number: number) {
    const forms = texts.discOrdinals.split('|');
    const form = ['one', 'two', 'few', 'other'].indexOf(ordinals.select(number));
    return format(forms[Math.min(form, forms.length - 1)] as '{n}', { n: String(number) });
}
