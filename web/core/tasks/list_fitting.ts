// Fits the rows of lists into an image: finds the place of each row, and what becomes of the rows that do not fit.

import type { DiscFile, OrderedImage } from '../disc/index.js';
import {
    ENCODINGS, encodingOf, endOfFilling, fillerOf, fillingAfter, usualBytes, withEnd, type Encoding, type Filler,
} from '../encodings/index.js';
import { Fault, failedBy, type Remark } from '../faults.js';
import { USER_SIZE } from '../module/index.js';
import { ReadAhead } from '../readers/index.js';
import {
    LONGEST_TEXT, assertMeant, bytesAround, bytesBefore, bytesOfCode, codesLeftOut, controlsTyped, endOfMatchInTurns, newBytesOf,
    unitsOfCell, unitsOfRow, type LeftCode,
} from '../texts/index.js';
import { sortedInTurns, type Signal } from '../turns.js';
import { rowsOfLists, type ListRow, type ReadLists } from './list_rows.js';
import type { Watch } from './opened.js';
import { assertHasRoom, filledUp, fittedEach } from './replace.js';

// Fits the new texts of a translator's lists in a place: an image, a plain file, or none, if the lists are only checked.

/** A row that does not fit, and why. */
export type LeftRow = { text: ListRow, why: Remark };
/** The place that rows are to fit. */
export interface ListPlace {
    /** Separates rows that cannot overlap, because they belong to different files. */
    apart: (rows: ListRow[]) => ListRow[][];
    /** Where the text of a row is, in bytes. */
    startOf: (row: ListRow) => number;
    /** Throws a Fault if a row does not name a position in the place. */
    assertHas: (row: ListRow) => void;
    /** Returns how many bytes a row replaces. It throws a Fault if the row does not fit. */
    fit: (row: ListRow, encodings: Encoding[], signal?: Signal) => Promise<number>;
}
/** The encodings that texts of rows may have, which replace the names in rows if they were requested (`isAsked`). */
export type RowEncodings = { encodings: Encoding[], isAsked: boolean };
/**
 * The number of new texts, repeated ones counted once; the rows that do not fit; the codes that new texts leave out; the characters that
 * only new texts have; the number of fuzzy entries; and the rows without a new text that were selected, unless others have one at the same
 * place.
 */
export type FittedLists = { count: number, left: LeftRow[], codes: LeftCode[], glyphs: ReadLists['glyphs'], fuzzy: ReadLists['fuzzy'],
    others: ListRow[] };

/**
 * Returns a function that chooses the encodings for a row by the name in it: the named one, or else the given ones. The byte that ends
 * texts in the given ones also does in the named one.
 */
export function encodingsOfRows({ encodings, isAsked }: RowEncodings) {
    const [{ end }] = encodings;
    const known: Map<string, Encoding[]> = new Map();
    return (name: string) => {
        const named = isAsked || name === '' ? null : encodingOf(name);
        if (named === null) return encodings;
        const found = known.get(named.name) || [withEnd(named, end || undefined)];
        known.set(named.name, found);
        return found;
    };
}

/** Throws a Fault if the name of an encoding in a row is not known. */
function assertKnown(name: string) {
    if (name === '' || encodingOf(name) !== null) return;
    throw new Fault('list/no-encoding', { name, known: ENCODINGS.map(it => it.name) });
}

/**
 * Fits the new texts of lists in a place. Throws a Fault if the lists have no row with a new text or cannot be read, or `cancelled`.
 * @param options `isAlso` selects rows without a new text; `counted` receives the number of places with new texts before they are fitted
 * @param watch receives the number of rows
 */
export async function fittedLists(lists: DiscFile[], place: ListPlace, options: RowEncodings & { isAlso?: (row: ListRow) => boolean,
    counted?: (places: number) => void }, watch: Watch = {}): Promise<FittedLists> {
    const { rows, fuzzy, glyphs } = await rowsOfLists(lists, options.isAlso, watch.signal);
    const isNew = ({ fresh, fault }: ListRow) => fresh !== '' || fault !== null;
    const fresh = rows.filter(isNew);
    const keyOf = ({ block, offset, isInFile }: ListRow) => `${isInFile} ${block} ${offset}`;
    const known = new Set(fresh.map(keyOf));
    options.counted?.(known.size);
    const fitted = await fittedRows(fresh, place, options, watch);
    const others = rows.filter(row => !isNew(row) && !known.has(keyOf(row)));
    return { ...fitted, fuzzy, glyphs: [...glyphs, ...fitted.glyphs], others };
}

/**
 * Fits rows in a place, in the order of their positions. Rows that repeat another one count once.
 * @param rows in the order of their lists
 * @param watch receives the number of rows
 * @returns in which all rows are in the order of their lists
 */
export async function fittedRows(rows: ListRow[], place: ListPlace, options: RowEncodings, watch: Watch = {}): Promise<Omit<FittedLists,
    'fuzzy' | 'others'>> {
    const { signal } = watch;
    const encodingsFor = encodingsOfRows(options);
    const joined: ListRow[][] = [];
    const left: LeftRow[][] = [];
    for (const some of place.apart(rows)) {
        const inOrder = withoutRepeats(await sortedInTurns(some, place.startOf, signal));
        joined.push(inOrder);
        left.push(await fittedEach(inOrder, place.startOf, watch, async (row, before) => {
            if (row.fault) throw new Fault(row.fault.code, row.fault.facts);
            place.assertHas(row);
            if (!options.isAsked) assertKnown(row.encoding);
            if (before !== null) throw new Fault('list/overlaps', { row: before });
            return place.fit(row, encodingsFor(row.encoding), signal);
        }));
    }
    const lists = [...new Set(rows.map(({ list }) => list))];
    const placeInLists = ({ list, number }: ListRow) => lists.indexOf(list) * 2 ** 32 + number;
    const each = await sortedInTurns(joined.flat(), placeInLists, signal);
    return {
        count: each.length, left: await sortedInTurns(left.flat(), ({ text }) => placeInLists(text), signal),
        codes: await codesLeftOut(each, encodingsFor, signal), glyphs: await controlsTyped(each, encodingsFor, signal),
    };
}

/** Joins each of the sorted rows that repeats the row before it to that row: the lists of two translators may have the same rows. */
function withoutRepeats(sorted: ListRow[]) {
    const rows: ListRow[] = [];
    for (const row of sorted) {
        const before = rows[rows.length - 1];
        if (before !== undefined && isRepeat(before, row)) rows[rows.length - 1] = joinedRow(before, row);
        else rows.push(row);
    }
    return rows;
}

/** Whether two rows have the same place, texts, and filler, which only rows of records name. */
function isRepeat(before: ListRow, row: ListRow) {
    const isPlace = row.block === before.block && row.offset === before.offset && row.isInFile === before.isInFile;
    return isPlace && row.text === before.text && row.fresh === before.fresh && (row.fill === before.fill || !row.fill || !before.fill);
}

/** A row with what either of two rows names: the filler, and the smaller room. */
function joinedRow(before: ListRow, row: ListRow): ListRow {
    const rooms = [before.room, row.room].filter(room => room >= 0);
    return { ...before, room: rooms.length > 0 ? Math.min(...rooms) : -1, fill: before.fill || row.fill, fault: before.fault || row.fault };
}

// An image, or the plain file that it presents, as the place of the rows of lists.

type TakeRow = (row: ListRow, image: OrderedImage, old: Uint8Array, bytes: Uint8Array) => unknown;
/** Where the old text of a row is. */
export type FoundRow = Awaited<ReturnType<typeof foundRow>>;
/**
 * Takes over a row with its new bytes, so that it is not fitted here. Returns how many bytes it replaces at least, or 0 for a row that is
 * to be fitted.
 */
export type ClaimRow = (row: ListRow, found: FoundRow, fresh: Uint8Array) => number | Promise<number>;

/** An image, or the plain file that it presents, as the place of rows. `take` receives the old and the new bytes of each row that fits. */
export function placeInImage(image: OrderedImage, fill: Filler | undefined = null, take: TakeRow, claim: ClaimRow = () => 0): ListPlace {
    const { reader } = image;
    const ahead = new ReadAhead(reader);
    const read = (at: number, length: number) => ahead.bytesAt(at, Math.min(length, reader.size - at));
    const window = { ...image, reader: { size: reader.size, read } };
    return {
        apart: rows => [rows],
        startOf: row => bytesBefore(image, row),
        assertHas: row => assertHasPlace(image, row),
        async fit(row, encodings, signal) {
            const found = await foundRow(window, row, encodings, signal);
            const bytes = await newBytesOf(row, found.encoding, signal);
            const claimed = await claim(row, found, bytes);
            if (claimed > 0) return claimed;
            const { old, fresh } = fittedRow(found, bytes, fill);
            await take(row, window, old, fresh);
            return old.length;
        },
    };
}

/**
 * Throws a Fault if a row names no place, or one in a plain file instead of in an image, or the reverse, or one after the end of the file.
 */
function assertHasPlace({ fileSize }: OrderedImage, { block, offset, isInFile }: ListRow) {
    if (block < 0 || offset < 0) throw new Fault('list/no-place', {});
    if (isInFile && fileSize === undefined) throw new Fault('list/place-in-file', {});
    if (fileSize === undefined) return;
    if (!isInFile) throw new Fault('list/place-in-image', {});
    if (offset >= fileSize) throw new Fault('list/after-file', { size: fileSize });
}

/**
 * The old bytes that a row's new text replaces, and the new bytes with their padding. Throws a Fault if the new text does not fit.
 * @param fresh the bytes of the new text
 */
function fittedRow({ bytes, at, encoding, known, size, own, filled, room }: FoundRow, fresh: Uint8Array, fill: Filler) {
    assertHasRoom(encoding, fresh, room);
    const filler = fillerOf(encoding, fill || own);
    if (fresh.length < size && filler === null) throw new Fault('list/no-space', { name: encoding.name });
    // A new text that ends within a filler of a record replaces all of it.
    const unitEnd = own !== null && fresh.length > known ? endOfFilling(encoding, bytes, at + known, filled, at + fresh.length) : 0;
    const old = bytes.slice(at, Math.max(at + size, at + fresh.length, unitEnd));
    return { old, fresh: filledUp(fresh, old.length, filler, encoding) };
}

/**
 * Finds the old text of a row: the bytes around it and the index of the text in them; its encoding; how many bytes it has (`known`), and
 * how many of these are replaced (`size`); the filler of a record, or null; the end of the filling after the text; and the most bytes that
 * a new text may have (`room`). Throws a Fault if the old text is not there.
 */
async function foundRow(image: OrderedImage, row: ListRow, encodings: Encoding[], signal?: Signal) {
    const [first, last] = [image.base, image.base + image.sectors - 1];
    if (Math.max(row.text.length, row.fresh.length) > LONGEST_TEXT) throw new Fault('list/long-text', { most: LONGEST_TEXT });
    if (row.block < first || row.block > last) throw new Fault('replace/no-block', { first, last });
    const longest = 4 * Math.max(row.text.length, row.fresh.length) + Math.max(row.room, 0) + 4;
    const { bytes, at } = await bytesAround(image, row, 0, Math.min(longest, LONGEST_TEXT));
    const { encoding, size: known } = await encodingAt(encodings, row, bytes.subarray(at), signal);
    const size = replacedSize(row, known);
    const own = fillOf(row);
    const end = at + known;
    const filled = own === null ? end + fillingAfter(encoding, bytes, end, bytes.length, true)
        : endOfFilling(encoding, bytes, end, at + row.room);
    const room = Math.max(Math.min(filled - at, row.room), size);
    return { bytes, at, encoding, known, size, own, filled, room };
}

/** The bytes of a new text. Throws a Fault if it must be a mistake, or has a character that the encoding lacks. */
function cellBytes(encoding: Encoding, cell: string) {
    assertMeant(encoding, cell);
    return usualBytes(unitsOfCell(encoding, cell));
}

/**
 * The room for the new text of a row: the most bytes that it may have, and a function that encodes it. Throws a Fault if a different new
 * text cannot make the row fit.
 */
export async function roomOfRow(image: OrderedImage, row: ListRow, options: RowEncodings) {
    if (row.fault) throw new Fault(row.fault.code, row.fault.facts);
    assertHasPlace(image, row);
    const { encoding, room } = await foundRow(image, { ...row, fresh: '' }, encodingsOfRows(options)(row.encoding));
    return { room, bytesOf: (cell: string) => cellBytes(encoding, cell) };
}

/** The filler that a row of a record names, or null. Throws a Fault if it is not a code. */
function fillOf({ fill = '' }: ListRow) {
    if (fill === '') return null;
    const bytes = bytesOfCode(fill);
    if (bytes === null) throw new Fault('list/no-fill', { cell: fill });
    return bytes;
}

/**
 * How many bytes of a row's old text are replaced. A row of a table may name less room than that text has, if it was read too far, into
 * other data. The room of an entry in a PO file is that of its smallest place.
 * @param known how many bytes the old text has
 */
function replacedSize({ unit, room }: Pick<ListRow, 'unit' | 'room'>, known: number) {
    return unit === 'line' || room < 0 ? known : Math.min(known, room);
}

/** The first encoding in which the old text of a row is at the beginning of bytes, and its size there. Throws a Fault if there is none. */
async function encodingAt(encodings: Encoding[], row: ListRow, bytes: Uint8Array, signal?: Signal) {
    const { found, lacking } = await standing(encodings, row, row.text, bytes, signal);
    if (found !== null) return found;
    if (lacking.length > 0 && lacking.length === encodings.length) throw lacking[0];
    const isOther = (await standing(encodings, row, row.fresh, bytes, signal)).found === null;
    throw new Fault(isOther ? 'list/other-text' : 'list/new-text-there', {});
}

/**
 * The first encoding in which one of the texts of a row is at the beginning of bytes, with its size there, or null; and the failures of the
 * encodings that cannot express it.
 */
async function standing(encodings: Encoding[], row: ListRow, text: string, bytes: Uint8Array, signal?: Signal) {
    const lacking = [];
    for (const encoding of encodings) {
        try {
            const units = await unitsOfRow(row, encoding, text, signal);
            const size = await endOfMatchInTurns(units, bytes, 0, signal);
            if (size > 0) return { found: { encoding, size }, lacking };
        } catch (error) {
            if (!failedBy(error, 'text')) throw error;
            lacking.push(error);
        }
    }
    return { found: null, lacking };
}

// Checks lists with new texts without an image.

/**
 * The result of an import, and how many of the rows that fit were not tested, because the list does not name their room or their encoding.
 */
type CheckedLists = FittedLists & { untested: number };

/** How many bytes a row's old and new text have at most, and whether both were tested. Throws a Fault if the new text does not fit. */
async function testedRow(row: ListRow, encoding: Encoding | undefined, signal?: Signal) {
    if (Math.max(row.text.length, row.fresh.length) > LONGEST_TEXT) throw new Fault('list/long-text', { most: LONGEST_TEXT });
    if (encoding === undefined) return { size: 0, isTested: false };
    const fresh = await newBytesOf(row, encoding, signal);
    const units = await unitsOfRow(row, encoding, row.text, signal);
    const old = units.reduce((size, [usual]) => size + usual.length, 0);
    if (row.room >= 0) assertHasRoom(encoding, fresh, row.room);
    return { size: Math.max(fresh.length, replacedSize(row, old)), isTested: row.room >= 0 };
}

/**
 * Separates rows by what holds their texts: the image, or a plain file, which lists do not name. Those of two lists are assumed to be
 * different.
 */
function rowsByFile(rows: ListRow[]) {
    const files: Map<string | null, ListRow[]> = new Map();
    for (const row of rows) {
        const file = row.isInFile ? row.list : null;
        const known = files.get(file);
        if (known === undefined) files.set(file, [row]);
        else known.push(row);
    }
    return [...files.values()];
}

/**
 * Checks the new texts of lists as far as this is possible without their image: their characters, their lengths in the rooms that the rows
 * name, and whether they overlap. Whether the old texts are there is not tested. Throws a Fault as `importTable` does.
 */
export async function checkLists({ lists, ...options }: RowEncodings & { lists: DiscFile[] }, signal?: Signal): Promise<CheckedLists> {
    let untested = 0;
    const place: ListPlace = {
        apart: rowsByFile,
        startOf: ({ block, offset }) => block * USER_SIZE + offset,
        assertHas({ block, offset }) {
            if (block < 0 || offset < 0) throw new Fault('list/no-place', {});
        },
        async fit(row, [encoding], turns) {
            const isNamed = options.isAsked || encodingOf(row.encoding) !== null;
            const { size, isTested } = await testedRow(row, isNamed ? encoding : undefined, turns);
            untested += Number(!isTested);
            return size;
        },
    };
    const fitted = await fittedLists(lists, place, options, { signal });
    return { ...fitted, untested };
}
