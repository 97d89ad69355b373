// All texts of a track.

import { hexText, readBytes } from '../bytes.js';
import type { OrderedImage } from '../disc/index.js';
import { FULL, encodingOf, type Encoding } from '../encodings/index.js';
import { cancelled, remark, type Remark } from '../faults.js';
import { filesAt, type FileEntry } from '../iso/index.js';
import { SECTOR_SIZE, USER_SIZE } from '../module/index.js';
import type { Sharer, Sharing } from '../pool/index.js';
import { sliceOf } from '../readers/index.js';
import { joinedUser, type Place } from '../sectors/index.js';
import { letOthersIn } from '../turns.js';
import { BEYOND, keptOf } from './candidates.js';
import { LONGEST_CHARACTER, LOOKED_BACK, bytesInside, charactersFrom } from './codes.js';
import type { Hit } from './find.js';
import type { FoundText, TextOptions } from './recognising.js';

// Reads the user bytes around a place of a data track, and the text there.

/** The bytes of a hit; `doubt`, if it may begin in the middle of a character; and the characters before it, in it, and after it. */
export type Context = { bytes: Uint8Array, doubt: Remark<'find/inside'> | null, before: string[], hit: string, after: string[] };

/** How many bytes are decoded as text before a hit, and after it. */
const AROUND = 24;

/** How many bytes are read from the image before a hit, and after it. */
const BEFORE = LOOKED_BACK + AROUND;
const AFTER = AROUND + LONGEST_CHARACTER;

/** Hits that begin within this many bytes share one read. */
const READ_TOGETHER = 1 << 19;

/** How many user bytes come before a place, in the order of files if the image has one. */
export function bytesBefore({ base, order }: Pick<OrderedImage, 'base' | 'order'>, { block, offset }: Place) {
    return (order ? order.indexOf(block) : block - base) * USER_SIZE + offset;
}

/**
 * Reads `before` user bytes before a place and `after` from it on, or as many as there are, in the order of files; `at` is the place in
 * them.
 */
export async function bytesAround(image: OrderedImage, place: Place, before: number, after: number) {
    const { reader, sectors, order, fileSize = sectors * USER_SIZE } = image;
    const end = bytesBefore(image, place);
    const at = Math.min(before, end);
    const first = Math.floor((end - at) / USER_SIZE);
    const last = Math.min(end + after, fileSize);
    const count = Math.ceil(last / USER_SIZE) - first;
    const bytes = await readBytes(order ? order.reader : reader, first * SECTOR_SIZE, count * SECTOR_SIZE);
    const from = end - at - first * USER_SIZE;
    return { at, bytes: joinedUser(bytes).subarray(from, last - first * USER_SIZE) };
}

/**
 * The text around a hit in user bytes, and whether it may begin in the middle of a character.
 * @param bytes those from BEFORE bytes before the hit, or from the image's beginning
 * @param at where the hit begins in them
 * @param around how many bytes after it are read as text
 */
function contextIn(encoding: Encoding, bytes: Uint8Array, at: number, size: number, around: number): Context {
    const end = at + size;
    const near = Math.max(at - AROUND, 0);
    const before = [];
    for (const it of charactersFrom(encoding, bytes, near + bytesInside(encoding, bytes, near))) {
        if (it.at + it.size > at) break;
        before.push(it.text);
    }
    const after = [];
    for (const it of charactersFrom(encoding, bytes, end)) {
        if (it.at >= end + around) break;
        after.push(it.text);
    }
    const doubt = bytesInside(encoding, bytes, at) > 0 ? remark('find/inside', { before: bytes[at - 1] }) : null;
    return { bytes: bytes.slice(at, end), doubt, before, hit: encoding.text(bytes.subarray(at, end)), after };
}

/** Reads the context of a hit in an image. */
export async function contextOf(image: OrderedImage, encoding: Encoding, hit: Hit, around: number = AROUND) {
    const { at, bytes } = await bytesAround(image, hit, BEFORE, hit.size + around + LONGEST_CHARACTER);
    return contextIn(encoding, bytes, at, hit.size, around);
}

/** Reads the contexts of many hits, in their order. Hits that are near one another form a group that shares one read. */
export async function* contextsOf(image: OrderedImage, encoding: Encoding, hits: Hit[]): AsyncGenerator<Iterable<{ hit: Hit,
    context: Context }>> {
    for (let from = 0, to = 0; from < hits.length; from = to) {
        const start = bytesBefore(image, hits[from]);
        let end = start;
        for (; to < hits.length && bytesBefore(image, hits[to]) < start + READ_TOGETHER; to++) {
            end = Math.max(end, bytesBefore(image, hits[to]) + hits[to].size);
        }
        const { at, bytes } = await bytesAround(image, hits[from], BEFORE, end - start + AFTER);
        yield contextsIn(image, encoding, { start: start - at, bytes }, hits.slice(from, to));
    }
}

/**
 * The contexts of hits, each decoded from the same bytes as if it were the only hit.
 * @param read user bytes, and how many come before them
 */
function* contextsIn(image: OrderedImage, encoding: Encoding, { start, bytes }: { start: number, bytes: Uint8Array }, hits: Hit[]) {
    for (const hit of hits) {
        const at = bytesBefore(image, hit) - start;
        const from = Math.max(at - BEFORE, 0);
        yield { hit, context: contextIn(encoding, bytes.subarray(from, at + hit.size + AFTER), at - from, hit.size, AROUND) };
    }
}

/** Whether at least one of several hits does not begin in the middle of a character. */
export async function anyBegins(image: OrderedImage, encoding: Encoding, hits: Hit[]) {
    for await (const near of contextsOf(image, encoding, hits)) {
        for (const { context } of near) {
            if (context.doubt === null) return true;
        }
    }
    return false;
}

/** The most files that are listed for one place, because in a stranger's volume any number of files may have the same sectors. */
const MOST_TOGETHER = 16;

/** Finds the files at places in ascending order, without searching all files each time. */
export class FilesAlong {
    begin = -1;
    next = 0;
    /** That have begun and not ended. */
    open: FileEntry[] = [];

    /** @param files sorted by block */
    constructor(readonly files: FileEntry[]) {}

    /** Returns `filesWith` of all files and a place, but not more than MOST_TOGETHER. */
    with(place: Place) {
        if (place.block < this.begin) {
            this.next = 0;
            this.open = [];
        }
        this.begin = place.block;
        while (this.next < this.files.length && this.files[this.next].block <= place.block) this.open.push(this.files[this.next++]);
        this.open = this.open.filter(({ block, size }) => place.block < block + Math.ceil(size / USER_SIZE)).slice(0, MOST_TOGETHER);
        return filesWith(this.open, place);
    }
}

/** The files in which a place lies, each with how many of its bytes are before the place. */
export function filesWith(files: FileEntry[], { block, offset }: Place) {
    return filesAt(files, block, offset).map(it => ({ path: it.path, at: it.before + (block - it.block) * USER_SIZE + offset }));
}

// Prepares texts and names of a disc for printing.

/** Replaces control and invalid characters by dots. */
export function visible(text: string) {
    return text.replace(/[\p{C}\uFFFD\u2028\u2029]/gu, '.');
}

/**
 * A stretch of user bytes: a file, or the sectors between files. `first` is its first sector in the part, in the order of files; `before`
 * is how many bytes of the file come before it.
 */
export type Stretch = { path: string, before: number, first: number, size: number };
/**
 * Options of `allTexts`: `options` is the encoding, whether each line is a separate text, and the byte that ends texts; `least` is the
 * fewest characters of a text. `signal` ends the job; `progress` is called with numbers of sectors, and `ended` with the path of a file, or
 * '', and the byte that was found to end its texts.
 */
export type TextsHow = { options: TextOptions, least?: number, signal?: { aborted: boolean }, progress?: (done: number, all: number) =>
    void, ended?: (path: string, end: number) => void };
/**
 * A text of a disc, or of a plain file: its place, how many bytes it has, and how many its room, the name of its encoding, its file with
 * the place in it, or `-`, and the text. `fill` is the code of the filler of a record of fixed width.
 */
export type ListedText = { block: number | '-', offset: number, bytes: number, room: number, encoding: string, file: string, text: string,
    fill?: string };

/** The block of a text whose offset is a place in a plain file. */
export const NO_BLOCK = '-';

/** The fewest characters of a row. A row for one line may have a single one. */
const LEAST_CHARACTERS = 2;
const LEAST_OF_LINES = 1;

/**
 * A byte that follows at least ENDED texts, and more than half of all in a file, ends its texts. Texts with a control code between them may
 * have been joined: then each of these codes counts too.
 */
const ENDED = 6;

/** The sign that ends texts of DOS, before a text in Japanese or a code. */
const DOLLAR = 0x24;
const ENDED_BY_DOLLAR = /\$(?=[\u0080-\uFFFF]|\{)/g;

/** A given byte does not end the texts of a file if 00 follows more than this many times as many. */
const MORE_ZEROS = 5;

/** What a text begins with, other than a small letter, after a byte that ends texts. */
const BEGINS_ENDED = '[\\p{Lu}\\p{N}\\p{Ps}\\p{Pi}"\'¿¡]';

/** How many sectors are searched in a worker at a time, so that those full of texts give a short answer; and how many texts are listed. */
const SEARCHED_SECTORS = 256;
const LISTED_AT_ONCE = 1024;

/** How many stretches are searched at the same time. */
const STRETCHES_AT_ONCE = 64;

function sectorsOf({ size }: Stretch) {
    return Math.ceil(size / USER_SIZE);
}

/** The stretches of a part, in the order of its files. */
export function stretchesOf(part: OrderedImage, files: FileEntry[]): Stretch[] {
    const stretches: Stretch[] = [];
    let next = 0;
    const between = (end: number) => {
        if (end > next) stretches.push({ path: '', before: 0, first: next, size: (end - next) * USER_SIZE });
    };
    const placed = files.map(it => ({ ...it, first: bytesBefore(part, { block: it.block, offset: 0 }) / USER_SIZE }));
    for (const { path, before, first, size } of placed.sort((a, b) => a.first - b.first)) {
        const count = Math.min(Math.ceil(size / USER_SIZE), part.sectors - first);
        if (first < next || count <= 0) continue;
        between(first);
        const [last] = stretches.slice(-1);
        const own = Math.min(size, count * USER_SIZE);
        const goesOn = last && last.path === path && last.size === before && (first - last.first) * USER_SIZE === before;
        if (goesOn) last.size += own;
        else stretches.push({ path, before, first, size: own });
        next = first + count;
    }
    between(part.sectors);
    return stretches;
}

/** How many texts are followed by each byte. */
function countsAfter(texts: FoundText[]) {
    const counts = new Uint32Array(256);
    for (const { after } of texts) if (after >= 0) counts[after] += 1;
    return counts;
}

/** How many texts are joined with the next one by FF, as a character of an encoding of Europe. */
function countJoined(texts: FoundText[], { encoding: name, table }: TextOptions) {
    const encoding = name === undefined || table !== undefined ? null : encodingOf(name);
    if (encoding === null || !encoding.isSingle) return 0;
    const joint = new RegExp(`${encoding.text(Uint8Array.of(FULL))}(?=${BEGINS_ENDED})`, 'u');
    return texts.reduce((count, { text }) => count + text.split(joint).length - 1, 0);
}

/** How many texts in a row end with $, as in programs for DOS. A sign of money has a number after it, and not a letter of two bytes. */
function countDollars(texts: FoundText[]) {
    const count = texts.reduce((sum, { text }) => sum + (text.match(ENDED_BY_DOLLAR) || []).length, 0);
    return count > texts.length ? count : 0;
}

/** The byte that ends most texts of a file, if it is not 00; or undefined. */
function usualEnd(texts: FoundText[], options: TextOptions) {
    const counts = countsAfter(texts);
    const joined = countJoined(texts, options);
    counts[FULL] += joined;
    counts[DOLLAR] += countDollars(texts);
    const end = counts.indexOf(Math.max(...counts));
    if (end === 0 || 2 * counts[end] <= texts.length + joined) return undefined;
    const code = `{${hexText(Uint8Array.of(end))}}`;
    const codes = texts.reduce((count, { text }) => count + text.split(code).length - 1, 0);
    return counts[end] + codes >= ENDED ? end : undefined;
}

/**
 * The texts of a stretch. If a byte other than 00 ends most of them, they are recognised again by it; and if 00 ends most of them, although
 * another byte was given for the whole disc, by 00.
 */
async function textsOf(pool: Sharer, part: OrderedImage, stretch: Stretch, { options, signal, ended }: Pick<TextsHow, 'options' | 'signal'
    | 'ended'>, watch: Sharing): Promise<FoundText[]> {
    const { any, ...usual } = options;
    const texts = await recognisedIn(pool, part, stretch, usual, watch);
    if (any) {
        const end = options.end ?? usualEnd(texts, usual);
        if (ended && end !== options.end && end !== undefined) ended(stretch.path, end);
        return recognisedIn(pool, part, stretch, { ...options, end }, { signal });
    }
    const counts = countsAfter(texts);
    if (options.end !== undefined) {
        if (counts[0] <= MORE_ZEROS * counts[options.end]) return texts;
        return textsOf(pool, part, stretch, { options: { ...options, end: undefined }, signal, ended }, { signal });
    }
    const end = usualEnd(texts, options);
    if (end === undefined) return texts;
    const others = await recognisedIn(pool, part, stretch, { ...options, end }, { signal });
    if (countsAfter(others)[end] < counts[end]) return texts;
    if (ended) ended(stretch.path, end);
    return others;
}

async function recognisedIn(pool: Sharer, { reader, order }: OrderedImage, stretch: Stretch, options: TextOptions, watch: Sharing) {
    /** One list for each range. */
    const found: FoundText[][] = [];
    const { first, size } = stretch;
    const sectors = sliceOf(order ? order.reader : reader, first * SECTOR_SIZE, (first + sectorsOf(stretch)) * SECTOR_SIZE);
    const take = (texts: FoundText[]) => void found.push(texts);
    await pool.share('texts', [sectors], { ...options, size }, { ...watch, step: SEARCHED_SECTORS, beyond: BEYOND }, take);
    await letOthersIn(watch.signal);
    return keptOf(found.flat());
}

function listedText(part: OrderedImage, { path, before, first }: Stretch, { start, end, room, scores, text }: FoundText): ListedText {
    const { base, order } = part;
    const index = first + Math.floor(start / USER_SIZE);
    const block = order ? order.blockOf(index) : base + index;
    const file = path === '' ? '-' : `${visible(path)}+${before + start}`;
    return { ...shownPlace(part, { block, offset: start % USER_SIZE }), bytes: end - start, room, encoding: scores, file, text };
}

/** The place of a text: block and offset, or in a plain file NO_BLOCK and the offset from its beginning. */
export function shownPlace({ fileSize }: Pick<OrderedImage, 'fileSize'>, { block, offset }: Place): { block: number | '-',
    offset: number } {
    return fileSize === undefined ? { block, offset } : { block: NO_BLOCK, offset: block * USER_SIZE + offset };
}

/**
 * Yields the texts of some stretches, in their order.
 * @param part whose `order` is that of its files
 */
export async function* allTexts(pool: Sharer, part: OrderedImage, stretches: Stretch[], how: TextsHow): AsyncGenerator<ListedText[]> {
    const { options, least = options.lines ? LEAST_OF_LINES : LEAST_CHARACTERS, signal, progress } = how;
    const all = stretches.reduce((sum, stretch) => sum + sectorsOf(stretch), 0);
    // A character has at most two UTF-16 units.
    const isLong = ({ text }: FoundText) => text.length >= 2 * least || [...text].length >= least;
    let done = 0;
    const watchOne = () => {
        let own = 0;
        return { signal, progress: (sectors: number) => {
            done += sectors - own;
            own = sectors;
            if (progress) progress(done, all);
        } };
    };
    for (let i = 0; i < stretches.length; i += STRETCHES_AT_ONCE) {
        if (signal && signal.aborted) throw cancelled();
        const some = stretches.slice(i, i + STRETCHES_AT_ONCE);
        const found = await Promise.all(some.map(stretch => textsOf(pool, part, stretch, how, watchOne())));
        yield* listedInParts(part, some, found, isLong, signal);
    }
}

/** Yields the texts that were found in stretches, in parts. Other tasks get turns in between. */
async function* listedInParts(part: OrderedImage, stretches: Stretch[], found: FoundText[][], isLong: (text: FoundText) => boolean,
    signal: TextsHow['signal']) {
    let listed = [];
    for (const [k, texts] of found.entries()) {
        for (const it of texts) {
            if (isLong(it)) listed.push(listedText(part, stretches[k], it));
            if (listed.length < LISTED_AT_ONCE) continue;
            yield listed;
            listed = [];
            await letOthersIn(signal);
        }
    }
    yield listed;
}
