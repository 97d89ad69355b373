// Numbers beside tables of pointers, and elsewhere, that are or may be pointers although no table has them.

import { areAddresses, placesOf, storedAt, targetOf, type ListedTable } from '../pointers/index.js';
import { isTurnDue, letOthersIn, type Signal } from '../turns.js';
import type { PointedFile, Pointer } from './moving_pointers.js';

// The blocks of a file with texts, and whether the pointers to a block rise, so that its texts have an order.

/** A table rises if it has this many pointers or more to a block, and this share of the steps between them go up. */
const LEAST_RISING = 3;
const SHARE_OF_STEPS = 0.9;

/** The texts of a block have an order if tables that rise lead to this share of them. */
const SHARE_IN_ORDER = 0.7;

/** Groups pointers by a key, in their order. */
export function groupedBy<K>(pointers: Pointer[], keyOf: (pointer: Pointer) => K) {
    const groups: Map<K, Pointer[]> = new Map();
    for (const pointer of pointers) {
        const key = keyOf(pointer);
        const known = groups.get(key);
        if (known === undefined) groups.set(key, [pointer]);
        else known.push(pointer);
    }
    return groups;
}

/** The pointers of each table, in the order of their places. */
function byTable(pointers: Pointer[]) {
    const tables = [...groupedBy(pointers, ({ table }) => table).values()];
    for (const own of tables) own.sort((a, b) => a.at - b.at);
    return tables;
}

/**
 * The pointers to a file by blocks, such as banks, scenes, or segments, of which a game may see only one at a time. A block is the range to
 * which pointers lead that count from the same place; ranges that overlap are one block.
 */
export function blocksOf({ leading }: PointedFile): Pointer[][] {
    const groups = groupedBy(leading, ({ table: { path, base, own, unit } }) => own ? `${path} self` : `${base} ${unit}`);
    const blocks: { after: number, pointers: Pointer[] }[] = [];
    for (const pointers of [...groups.values()].sort((a, b) => a[0].target - b[0].target)) {
        const before = blocks[blocks.length - 1];
        const texts = pointers.filter(({ isEnd }) => !isEnd);
        const after = (texts[texts.length - 1] ?? pointers[pointers.length - 1]).target + 1;
        if (before !== undefined && pointers[0].target < before.after) {
            before.after = Math.max(before.after, after);
            before.pointers = [...before.pointers, ...pointers].sort((a, b) => a.target - b.target);
        } else {
            blocks.push({ after, pointers });
        }
    }
    return blocks.map(({ pointers }) => pointers);
}

/** Whether the texts of a block have an order. */
export function hasOrder(pointers: Pointer[]) {
    const rising = byTable(pointers).filter(own => {
        const up = own.filter(({ target }, i) => i > 0 && target >= own[i - 1].target).length;
        return own.length >= LEAST_RISING && up >= SHARE_OF_STEPS * (own.length - 1);
    });
    const targets = (some: Pointer[]) => new Set(some.map(({ target }) => target)).size;
    return targets(rising.flat()) >= SHARE_IN_ORDER * targets(pointers);
}

/** The pointers that break the order of a table that otherwise rises. One at an end of the table may belong to a different table. */
export function pointersAgainstOrder(pointers: Pointer[]) {
    const strange: Set<Pointer> = new Set();
    for (const own of byTable(pointers)) {
        const falls = own.flatMap(({ target }, i) => i > 0 && target < own[i - 1].target ? [i] : []);
        if (falls.length > (1 - SHARE_OF_STEPS) * (own.length - 1)) continue;
        for (const i of falls) strange.add(own[i - 1].target > (own[i + 1] ?? own[i]).target ? own[i - 1] : own[i]);
    }
    return strange;
}

/**
 * Whether some pointers to a text and to the next one are neighbours in a table, and no number between them leads to a place between these
 * texts.
 */
export function areNeighbours(some: Pointer[], others: Pointer[]) {
    return some.some(it => others.some(other => {
        const { table, file, at, target } = it;
        const { distance, base } = table;
        const isOfRow = file === other.file && distance === other.table.distance && base === other.table.base;
        if (!isOfRow || other.at - at !== distance) return false;
        for (let place = at + 1; place < other.at; place++) {
            const between = targetOf(table, place, storedAt(file.bytes, place, table));
            if (between > target && between < other.target) return false;
        }
        return true;
    }));
}

/** The file of a path that a table names. */
type FileOf = (path: string) => PointedFile;

/** How many numbers beside each end of a table are looked at. */
const NEARBY = 8;

/** A table of fewer pointers implies no others. */
const LEAST_IMPLYING = 3;

/** The most bytes that fill up the last text of a table, and the most bytes of that text. */
const MOST_END_FILLING = 3;
const MOST_LAST_TEXT = 1024;

/** Addresses are searched for that count from at most so many places, since a game is loaded at few. */
const MOST_BASES = 64;

/** How many bytes are searched for addresses before other tasks get a turn. */
const SEARCHED_IN_TURN = 1 << 16;

/** The pointer at a place, in the form of a table. */
export function pointerAt(table: ListedTable, file: PointedFile, at: number): Pointer {
    return { table, file, at, target: targetOf(table, at, storedAt(file.bytes, at, table)) };
}

/**
 * Pointers that no table has, but that are in a row with those of tables: between two tables of one form if all of them rise, and behind a
 * table, to the end of its last text, from which games know the length of that text.
 */
export async function impliedPointers(tables: ListedTable[], fileOf: FileOf, signal?: Signal) {
    const rows: Map<string, ListedTable[]> = new Map();
    for (const table of tables) {
        const { path, texts, width, big, base, own, unit, mask, distance, at, count } = table;
        if (count <= 1) continue;
        const key = [path, texts, width, big, base, own, unit, mask, distance, at % distance].join();
        const known = rows.get(key);
        if (known === undefined) rows.set(key, [table]);
        else known.push(table);
    }
    const implied: Pointer[] = [];
    /** The bytes of implied pointers. */
    const taken: Set<string> = new Set();
    const ends = new TextEnds();
    for (const row of rows.values()) {
        row.sort((a, b) => a.at - b.at);
        for (const [i, table] of row.entries()) {
            if (isTurnDue()) await letOthersIn(signal);
            const file = fileOf(table.path);
            const found = pointersAfter(table, row[i + 1], file, pointer => ends.isEnd(fileOf(table.texts), pointer));
            const keys = found.flatMap(({ at }) => Array.from({ length: table.width }, (_, k) => `${at + k} ${file.path}`));
            if (keys.some(key => taken.has(key))) continue;
            keys.forEach(key => taken.add(key));
            implied.push(...found);
        }
    }
    return implied;
}

/**
 * The pointers that are implied between a table and the next one of its form, or behind it.
 * @param file of the table
 * @param isEnd whether a number leads to the end of the last text
 */
function pointersAfter(table: ListedTable, following: ListedTable | undefined, file: PointedFile,
    isEnd: (pointers: { last: Pointer, end: Pointer }) => boolean): Pointer[] {
    const { at, count, distance, width } = table;
    const next = at + count * distance;
    const between = following === undefined ? Infinity : (following.at - next) / distance;
    const isFree = (place: number) => place + width <= file.size && !file.hasPointer(place, place + width);
    const last = pointerAt(table, file, next - distance);
    if (following !== undefined && between <= NEARBY) {
        const places = Array.from({ length: Math.max(between, 0) }, (_, k) => next + k * distance);
        const some = places.map(place => pointerAt(table, file, place));
        const all = [last, ...some, pointerAt(table, file, following.at)];
        return places.every(isFree) && all.every(({ target }, k) => k === 0 || target > all[k - 1].target) ? some : [];
    }
    if (count < LEAST_IMPLYING || !isFree(next)) return [];
    const end = pointerAt(table, file, next);
    const isLast = placesOf(table).every(place => pointerAt(table, file, place).target <= last.target);
    return isLast && isEnd({ last, end }) ? [{ ...end, isEnd: true }] : [];
}

/** Where the last texts of tables end. */
class TextEnds {
    /** The byte before most texts of a file to which pointers lead. */
    marks = new Map<PointedFile, number>();

    markIn(file: PointedFile) {
        const known = this.marks.get(file);
        if (known !== undefined) return known;
        const counts = new Uint32Array(256);
        for (const target of file.targets) counts[file.bytes[target - 1] || 0] += 1;
        const mark = counts.indexOf(Math.max(...counts));
        this.marks.set(file, mark);
        return mark;
    }

    /**
     * Whether a pointer leads to the end of a text.
     * @param pointers to the text, and to its end
     */
    isEnd(file: PointedFile, { last: { target: first }, end: { target: end } }: { last: Pointer, end: Pointer }) {
        const { bytes, size } = file;
        if (end <= first || end > size || end - first > MOST_LAST_TEXT) return false;
        const mark = this.markIn(file);
        const after = bytes.indexOf(mark, first) + 1;
        return after > first && after <= end && end <= after + MOST_END_FILLING
            && bytes.subarray(after, end).every(byte => byte === 0 || byte === mark);
    }
}

/**
 * Adds to files of texts the places to which numbers lead that may be pointers: those beside tables, and addresses anywhere in the files of
 * tables of addresses.
 */
export async function addUncertain(tables: ListedTable[], fileOf: FileOf, signal?: Signal) {
    /** The bases from which addresses count, by the file of the tables. */
    const bases: Map<string, Set<string>> = new Map();
    for (const table of tables) {
        await letOthersIn(signal);
        const [file, texts] = [fileOf(table.path), fileOf(table.texts)];
        const beside = targetsBeside(table, file);
        texts.doubtful.push(...beside);
        // Numbers of 16 bits lead to some text by chance.
        if (table.width > 2) texts.inner.push(...beside);
        if (!areAddresses(table)) continue;
        const known = bases.get(table.path) || new Set();
        bases.set(table.path, known);
        const key = [table.texts, table.big, table.base].join();
        if (known.has(key) || known.size === MOST_BASES) continue;
        known.add(key);
        for await (const target of strayTargets(table, file, texts, signal)) texts.stray.push(target);
    }
    for (const path of new Set(tables.map(({ texts }) => texts))) {
        const file = fileOf(path);
        file.doubtful.sort((a, b) => a - b);
        file.inner.sort((a, b) => a - b);
        file.stray.sort((a, b) => a - b);
    }
}

/** Yields the places in a file of texts to which numbers anywhere in a file lead, as addresses of a table do, but that are in no table. */
async function* strayTargets(table: ListedTable, file: PointedFile, texts: PointedFile, signal?: Signal) {
    const { targets } = texts;
    const [low, high] = [targets[0], targets[targets.length - 1] + MOST_LAST_TEXT];
    for (let at = 0; at + table.width <= file.size; at++) {
        if (at % SEARCHED_IN_TURN === 0 && isTurnDue()) await letOthersIn(signal);
        const target = targetOf(table, at, storedAt(file.bytes, at, table));
        if (target >= low && target < high && !file.hasPointer(at, at + table.width)) yield target;
    }
}

/** The places to which the numbers before and after a table lead that are not pointers themselves. Zeros are too frequent. */
function targetsBeside(table: ListedTable, file: PointedFile) {
    const { at, count, distance, width } = table;
    if (count <= 1) return [];
    const before = Array.from({ length: NEARBY }, (_, i) => at - (i + 1) * distance);
    const after = Array.from({ length: NEARBY }, (_, i) => at + (count + i) * distance);
    const places = [...before, ...after].filter(it => it >= 0 && it + width <= file.size && !file.hasPointer(it, it + width));
    return places.filter(it => storedAt(file.bytes, it, table) > 0).map(it => pointerAt(table, file, it).target);
}
