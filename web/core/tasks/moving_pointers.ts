// Finds the pointers to the listed texts, file by file.

import { firstAfter, readBytes, wholeOf } from '../bytes.js';
import type { OrderedImage } from '../disc/index.js';
import { Fault, failedBy, remark } from '../faults.js';
import { readerOfFile, wholeFile, type FileEntry, type WholeFile } from '../iso/index.js';
import { USER_SIZE } from '../module/index.js';
import {
    TextStarts, findPointerTables, joinedSpans, placesOf, pointerList, type ListedTable, type Searched, type Span,
} from '../pointers/index.js';
import type { Place } from '../sectors/index.js';
import { visible, type ListedText } from '../texts/index.js';
import { letOthersIn, type Signal } from '../turns.js';
import { addUncertain, impliedPointers, pointerAt } from './moving_implied.js';
import type { OpenedTrack, Watch } from './opened.js';
import { extentRoom } from './replace.js';

// Finds the tables of pointers to the listed texts of a track.

/** The fewest texts of a file to which pointers are searched. */
const LEAST_POINTED_TEXTS = 4;

/**
 * The most bytes that are searched in a file with texts; of a larger one, what is around its texts is. And the largest program and the
 * largest other file without texts that are searched: larger ones are mostly sound and pictures.
 */
const MOST_SEARCHED = 1 << 25;
const AROUND_TEXTS = 1 << 16;
const MOST_PROGRAM = 1 << 22;
const MOST_SEARCHED_WITHOUT_TEXTS = 1 << 20;

/** Matches the paths of programs, as computers and consoles name them. */
const PROGRAM = /(?:\.(?:exe|dll|com|prg|elf|ovl|bin)|\/s[a-z]{3}_\d{3}\.\d\d)$/i;

/** Collects the ranges of listed texts by their files. */
export class ListedSpans {
    /** By the path of the file, as it is listed. */
    spans = new Map<string, Span[]>();

    add(texts: ListedText[]) {
        for (const { file, bytes } of texts) {
            const cut = file.lastIndexOf('+');
            if (cut < 0) continue;
            const [path, first] = [file.slice(0, cut), Number(file.slice(cut + 1))];
            const spans = this.spans.get(path) || [];
            this.spans.set(path, spans);
            spans.push({ first, after: first + bytes });
        }
    }
}

/**
 * The files of a track by their paths as they are listed, without those that cannot be read as a whole, and those that share such a path.
 */
function filesByPath(entries: FileEntry[]) {
    const named: Map<string, FileEntry[]> = new Map();
    for (const entry of entries) {
        const path = visible(entry.path);
        const known = named.get(path) || [];
        named.set(path, known);
        known.push(entry);
    }
    const files: Map<string, WholeFile> = new Map();
    for (const [path, some] of named) {
        if (some.some(it => it.path !== some[0].path)) continue;
        try {
            files.set(path, wholeFile(some));
        } catch (error) {
            if (!failedBy(error, 'path', 'extents')) throw error;
        }
    }
    return files;
}

/** The ranges of a file in which pointers are searched. `spans` has its texts, none if there are few. */
function searchedRanges({ path, size }: WholeFile, spans: Span[]): Span[] {
    const most = PROGRAM.test(path) ? MOST_PROGRAM : MOST_SEARCHED_WITHOUT_TEXTS;
    if (size <= (spans.length > 0 ? MOST_SEARCHED : most)) return [{ first: 0, after: size }];
    const around = joinedSpans(spans.map(({ first, after }) =>
        ({ first: Math.max(first - AROUND_TEXTS, 0), after: Math.min(after + AROUND_TEXTS, size) })));
    return around.reduce((sum, { first, after }) => sum + after - first, 0) <= MOST_SEARCHED ? around : [];
}

/** The texts of a range of a file, as places in the range. */
async function startsIn(part: OrderedImage, file: WholeFile, { first, after }: Span, spans: Span[]) {
    const bytes = await readBytes(readerOfFile(part, file).reader, first, after - first);
    const own = spans.filter(it => it.first >= first && it.after <= after);
    const inRange = own.map(it => ({ first: it.first - first, after: it.after - first }));
    return new TextStarts(visible(file.path), bytes, inRange, first);
}

/**
 * One file for each range of the disc that files name, in their order: that with texts, if any has, or else the first one. A disc may have
 * thousands of records with one extent.
 * @param files by their paths
 */
function filesByExtents(files: Map<string, WholeFile>, hasTexts: (path: string) => boolean) {
    const paths: Map<string, string> = new Map();
    for (const [path, { extents }] of files) {
        const key = extents.map(({ block, size }) => `${block} ${size}`).join();
        const known = paths.get(key);
        if (known === undefined || (hasTexts(path) && !hasTexts(known))) paths.set(key, path);
    }
    const chosen = new Set(paths.values());
    return [...files.values()].filter(({ path }) => chosen.has(visible(path)));
}

/**
 * A remark on the files in which pointers are not searched, or null. It names one with texts, or else the smallest one, because sound and
 * pictures are larger.
 */
function unsearchedAmong(files: WholeFile[], hasTexts: (path: string) => boolean) {
    const [named] = [...files].sort((a, b) => Number(hasTexts(visible(b.path))) - Number(hasTexts(visible(a.path))) || a.size - b.size);
    if (named === undefined) return null;
    return remark('pointers/unsearched', { path: visible(named.path), size: named.size, more: files.length - 1 });
}

/** Yields the ranges of files in which pointers are searched. */
async function* searchedFiles(part: OrderedImage, searched: { file: WholeFile, range: Span, own: TextStarts | null }[],
    { signal, progress }: Watch): AsyncGenerator<Searched> {
    const sectors = (bytes: number) => Math.ceil(bytes / USER_SIZE);
    const all = searched.reduce((sum, { range }) => sum + range.after - range.first, 0);
    let before = 0;
    for (const { file, range: { first, after }, own } of searched) {
        await letOthersIn(signal);
        const [from, size] = [before, after - first];
        const note = (share: number) => progress?.(sectors(from + share * size), sectors(all));
        note(0);
        yield { path: visible(file.path), first, bytes: await readBytes(readerOfFile(part, file).reader, first, size), own, note };
        before += size;
    }
}

/**
 * Finds the tables of pointers to listed texts. Returns them as a list that a person may correct, how many there are, and a remark on the
 * files that are too large to be searched, or null. Throws a Fault, `cancelled`, and what the reader throws.
 * @param watch receives the number of sectors of files
 */
export async function findPointers(opened: Pick<OpenedTrack, 'contents'>, { spans }: ListedSpans, watch: Watch = {}) {
    const { part, files: entries } = await opened.contents();
    await letOthersIn(watch.signal);
    const files = filesByPath(entries);
    const textsOf = (path: string) => {
        const texts = spans.get(path) || [];
        return texts.length >= LEAST_POINTED_TEXTS ? texts : [];
    };
    const hasTexts = (path: string) => textsOf(path).length > 0;
    const all = [...spans.keys()].some(hasTexts) ? filesByExtents(files, hasTexts) : [];
    const searched: { file: WholeFile, range: Span, own: TextStarts | null }[] = [];
    const unsearched: WholeFile[] = [];
    for (const file of all) {
        await letOthersIn(watch.signal);
        const own = textsOf(visible(file.path));
        const ranges = searchedRanges(file, own);
        if (ranges.length === 0) unsearched.push(file);
        for (const range of ranges) searched.push({ file, range, own: own.length === 0 ? null : await startsIn(part, file, range, own) });
    }
    const starts = searched.flatMap(({ own }) => own ?? []);
    const tables = await findPointerTables(starts, searchedFiles(part, searched, watch), watch.signal);
    return { text: pointerList(tables), count: tables.length, unsearched: unsearchedAmong(unsearched, hasTexts) };
}

// The files that a list of pointer tables names, with their pointers.

/** A pointer: its file and place there, and where it leads. `isEnd` is whether it leads to the end of the last text of its table. */
export type Pointer = { table: ListedTable, file: PointedFile, at: number, target: number, isEnd?: boolean };

/** The largest file that is read. */
const MOST_POINTED = 1 << 26;

/** A file that has pointers, or texts to which pointers lead. */
export class PointedFile {
    /** Those in the file, in order. */
    own: Pointer[] = [];
    /** Those that lead to its texts, in the order of the places to which they lead. */
    leading: Pointer[] = [];
    ownPlaces: number[] = [];
    targets: number[] = [];
    /** The places to which numbers beside tables lead, in order. */
    doubtful: number[] = [];
    /** The places to which addresses anywhere in files lead that are not pointers of a table, in order. */
    stray: number[] = [];
    /** The places to which wide numbers beside tables lead, in order. */
    inner: number[] = [];
    /** The ranges that a person names as free. */
    free: Span[] = [];
    path; size;

    /** @param bytes of its sectors, also those after its end */
    constructor(readonly file: WholeFile, readonly bytes: Uint8Array, readonly placeOf: (at: number) => Place) {
        this.path = file.path;
        this.size = file.size;
    }

    /** Whether an address that is in no table leads to a place of a range. */
    isStray(first: number, after: number) {
        return this.stray[firstAfter(this.stray, first - 1)] < after;
    }

    /** Whether a pointer, or a number that is probably one, leads to a place of a range. */
    isPointed(first: number, after: number) {
        const isInner = this.inner[firstAfter(this.inner, first - 1)] < after;
        return isInner || this.isStray(first, after) || this.leadingTo(first, after).length > 0;
    }

    /** Whether a number beside a table leads to a place of a range. */
    isDoubtful(first: number, after: number) {
        return this.doubtful[firstAfter(this.doubtful, first - 1)] < after;
    }

    /** The pointers that lead to a place of a range. */
    leadingTo(first: number, after: number) {
        return this.leading.slice(firstAfter(this.targets, first - 1), firstAfter(this.targets, after - 1));
    }

    /** Whether a range has bytes of a pointer. */
    hasPointer(first: number, after: number) {
        const i = firstAfter(this.ownPlaces, after - 1) - 1;
        return i >= 0 && this.own[i].at + this.own[i].table.width > first;
    }

    /** Puts the pointers in order. Throws a Fault if two overlap. */
    sortPointers() {
        this.own.sort((a, b) => a.at - b.at);
        this.leading.sort((a, b) => a.target - b.target);
        this.ownPlaces = this.own.map(({ at }) => at);
        this.targets = this.leading.map(({ target }) => target);
        const i = this.own.findIndex(({ at }, k) => k > 0 && at < this.own[k - 1].at + this.own[k - 1].table.width);
        if (i < 0) return;
        const [row, other] = [this.own[i].table.row, this.own[i - 1].table.row].sort((a, b) => b - a);
        throw new Fault('pointers/over', { row, other, path: this.path, at: this.own[i].at });
    }
}

/** The files that tables name. */
export class PointedFiles {
    files; extents; blocks;

    /** @param files by their paths as they are listed */
    constructor(files: Map<string, PointedFile>) {
        this.files = [...files.values()];
        this.extents = this.files.flatMap(file => file.file.extents.map(extent => ({ file, extent })))
            .sort((a, b) => a.extent.block - b.extent.block);
        this.blocks = this.extents.map(({ extent }) => extent.block);
    }

    /** The file in which a place of the disc is, and how many bytes of the file come before it; null if it is in none of these files. */
    spotOf({ block, offset }: Place) {
        const found = this.extents[firstAfter(this.blocks, block) - 1];
        if (found === undefined) return null;
        const { file, extent } = found;
        const inside = (block - extent.block) * USER_SIZE + offset;
        return inside < extent.size ? { file, at: extent.before + inside } : null;
    }
}

/** Reads a file with the bytes after its end in its last sector. */
async function sectorsOfWholeFile(part: OrderedImage, file: WholeFile) {
    const last = file.extents[file.extents.length - 1];
    const size = last.before + extentRoom(last);
    const extents = [...file.extents.slice(0, -1), { ...last, size: size - last.before }];
    const { reader, placeOf } = readerOfFile(part, { ...file, extents, size });
    return { bytes: await wholeOf(reader), placeOf };
}

/** Opens the files that tables name. Throws a Fault if a table names no file of the disc. */
async function filesOfTables(opened: Pick<OpenedTrack, 'contents'>, tables: ListedTable[], signal?: Signal) {
    const { part, files: entries } = await opened.contents();
    const named = filesByPath(entries);
    const files: Map<string, PointedFile> = new Map();
    for (const { row, path, texts } of tables) {
        for (const name of [path, texts]) {
            await letOthersIn(signal);
            if (files.has(name)) continue;
            const file = named.get(name);
            if (file === undefined || file.size > MOST_POINTED) {
                throw new Fault('pointers/no-file', { row, path: name, most: MOST_POINTED });
            }
            const { bytes, placeOf } = await sectorsOfWholeFile(part, file);
            files.set(name, new PointedFile(file, bytes, placeOf));
        }
    }
    return files;
}

/**
 * Opens the files that tables name, and reads the pointers. Throws a Fault, `pointers`, if a table names no file of the disc, or pointers
 * that are not in it or overlap.
 */
export async function openPointedFiles(opened: Pick<OpenedTrack, 'contents'>, tables: ListedTable[], signal?: Signal) {
    const files = await filesOfTables(opened, tables, signal);
    const fileOf = (path: string) => (files.get(path) as PointedFile);
    const add = (pointers: Pointer[]) => {
        for (const pointer of pointers) {
            pointer.file.own.push(pointer);
            fileOf(pointer.table.texts).leading.push(pointer);
        }
        for (const file of files.values()) file.sortPointers();
    };
    for (const { path, at, free = 0 } of tables) if (free > 0) fileOf(path).free.push({ first: at, after: at + free });
    add(tables.flatMap(table => pointersIn(table, fileOf(table.path))));
    add(await impliedPointers(tables, fileOf, signal));
    await addUncertain(tables, fileOf, signal);
    return new PointedFiles(files);
}

/** The pointers of a table. Throws a Fault if its file does not have them all. */
function pointersIn(table: ListedTable, file: PointedFile): Pointer[] {
    const { row, at, count, distance, width, free = 0 } = table;
    const after = free > 0 ? at + free : at + (count - 1) * distance + width;
    if (after > file.size) throw new Fault('pointers/after-file', { row, path: file.path, size: file.size, after });
    return placesOf(table).map(place => pointerAt(table, file, place));
}
