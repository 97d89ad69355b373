// Searches the user data of sectors of any kind. A hit may cross the borders of sectors, and of the ranges that workers share.

import { joinedBytes } from '../bytes.js';
import type { OrderedImage } from '../disc/index.js';
import type { Encoding } from '../encodings/index.js';
import { failedBy } from '../faults.js';
import { USER_SIZE } from '../module/index.js';
import type { Sharer, Sharing } from '../pool/index.js';
import { asWords, userOfRange } from '../sectors/index.js';
import { anyBegins } from './all_texts.js';
import { Matching, unitsAlike } from './matching.js';

/** How many bytes of a range are counted to find rare values. */
const SAMPLES = 4000;

/** The parts of a wanted text, in order, each with its spellings, as `Encoding.units` returns them. */
export type Wanted = Uint8Array[][];
/** The user byte at which it begins, and its size in bytes. */
export type Hit = { block: number, offset: number, size: number };
/** How many hits there are, and the first of them. */
export type Found = { count: number, hits: Hit[] };
/**
 * In how many sectors hits may begin, and how many are kept; and the bytes of a plain file, whose last sector may be in part after its end.
 */
export type Limits = { count: number, limit: number, fileSize?: number };

/** The most bytes of a hit. */
export function longestOf(wanted: Wanted) {
    return wanted.reduce((sum, unit) => sum + unit.reduce((most, { length }) => Math.max(most, length), 0), 0);
}

/** How many sectors after a range the search must read to find each hit that begins in the range. */
export function sectorsBeyond(wanted: Wanted) {
    const longest = longestOf(wanted);
    return Math.ceil(Math.max(longest - 1, 0) / USER_SIZE);
}

/**
 * Finds the hits of each text that begin in the first `count` sectors of raw bytes: all are counted, and the first `limit` are kept. The
 * bytes have `sectorsBeyond` more sectors, or as many as the image has. Hits may overlap; a place counts once.
 * @param bytes of whole raw sectors
 */
export function findIn(bytes: Uint8Array, firstBlock: number, { texts, ...limits }: { texts: Wanted[] } & Limits) {
    const user = userOfRange(bytes);
    return texts.map(wanted => findInUser(user, firstBlock, joinedParts(wanted), limits));
}

/** @param user of whole sectors */
function findInUser(user: Uint8Array, firstBlock: number, parts: Wanted, { count, limit, fileSize = Infinity }: Limits): Found {
    const own = user.subarray(0, Math.max(fileSize - firstBlock * USER_SIZE, 0));
    const end = parts.length > 0 ? Math.min(own.length, count * USER_SIZE) : 0;
    const anchor = anchorOf(parts, user);
    const matching = new Matching(parts, own);
    const found: Found = { count: 0, hits: [] };
    for (let at = nextStart(anchor, user, 0); at < end; at = nextStart(anchor, user, at + 1)) {
        const stop = matching.end(at);
        if (stop < 0) continue;
        found.count += 1;
        if (found.hits.length === limit) continue;
        found.hits.push({ block: firstBlock + Math.floor(at / USER_SIZE), offset: at % USER_SIZE, size: stop - at });
    }
    return found;
}

/**
 * Joins the hits of several ranges.
 * @param parts in the order of their blocks
 */
export function joinFound(parts: Found[], limit: number): Found {
    return { count: parts.reduce((sum, part) => sum + part.count, 0), hits: parts.flatMap(part => part.hits).slice(0, limit) };
}

/** Joins adjacent parts that have one spelling each. */
function joinedParts(wanted: Wanted) {
    const parts: Uint8Array[][] = [];
    for (let i = 0; i < wanted.length;) {
        let next = i + 1;
        while (wanted[i].length === 1 && next < wanted.length && wanted[next].length === 1) next += 1;
        parts.push(next > i + 1 ? [joinedBytes(wanted.slice(i, next).map(([only]) => only))] : wanted[i]);
        i = next;
    }
    return parts;
}

/**
 * Chooses the byte to look for first: the values that it may have, and its distance from the beginning of a hit. Of the bytes at a fixed
 * distance, it is the rarest here. If it is rare and has one value, `only` is this value, which is found fastest, in `words`; else -1.
 */
function anchorOf(parts: Wanted, user: Uint8Array) {
    const counts = new Float64Array(256);
    const step = Math.floor(user.length / SAMPLES) + 1;
    for (let at = 0; at < user.length; at += step) counts[user[at]] += 1;
    const fixed = openings(parts);
    const rarity = fixed.map(values => values.reduce((sum, value) => sum + counts[value], 0));
    const distance = rarity.indexOf(rarity.reduce((least, it) => Math.min(least, it), Infinity));
    const values = fixed[distance] || [];
    const rare = rarity[distance] * step < user.length / 32;
    return {
        distance,
        only: rare && values.length === 1 ? values[0] : -1,
        words: asWords(user),
        values: Uint8Array.from(counts, (_, value) => Number(values.includes(value))),
    };
}

/** The values that each byte of a hit may have whose distance from its beginning is fixed. */
function openings(parts: Wanted) {
    const values: number[][] = [];
    for (const part of parts) {
        const shortest = part.reduce((least, { length }) => Math.min(least, length), Infinity);
        for (let k = 0; k < shortest; k++) values.push([...new Set(part.map(bytes => bytes[k]))]);
        if (part.some(({ length }) => length !== shortest)) break;
    }
    return values;
}

/** The next place from `at` on where a hit may begin, or a place so near the end that no hit fits. */
function nextStart({ distance, only, values, words }: ReturnType<typeof anchorOf>, user: Uint8Array, at: number) {
    let found = at + distance;
    if (only >= 0) return placeOf(user, words, only, found) - distance;
    while (found < user.length && values[user[found]] === 0) found += 1;
    return found - distance;
}

/**
 * The first place of a value from a place on, or a place that is not before the end. Comparing 16 bytes at a time is faster than `indexOf`.
 * @param user of whole sectors
 * @param words the same bytes
 */
function placeOf(user: Uint8Array, words: Int32Array, value: number, from: number) {
    const four = Math.imul(value, 0x01010101);
    let at = from;
    while (at < user.length) {
        for (const border = (at | 15) + 1; at < border; at++) {
            if (user[at] === value) return at;
        }
        for (; at < user.length; at += 16) {
            const i = at >> 2;
            const found = zeroByte(words[i] ^ four) | zeroByte(words[i + 1] ^ four);
            if ((found | zeroByte(words[i + 2] ^ four) | zeroByte(words[i + 3] ^ four)) !== 0) break;
        }
    }
    return at;
}

/** 0 if no byte of a word is 0, else a different number. */
function zeroByte(word: number) {
    return (word - 0x01010101) & ~word & 0x80808080;
}

// Searches the user data of a data track for a text, in one encoding or in several.

/** Whether one of them does not begin in the middle of a character. */
export type Hits = Found & { encoding: Encoding, begins: boolean };

/**
 * The encodings that have a text, only the first of those in which it has the same bytes; the names of all that have it; and the Faults of
 * those that lack it. Throws a Fault, `text`, if all lack it.
 * @param loose as in `unitsAlike`
 */
export function encodingsWith(encodings: Encoding[], text: string, loose?: boolean) {
    /** By the bytes of the text. */
    const spelled: Map<string, Encoding> = new Map();
    const names = [];
    const faults = [];
    for (const encoding of encodings) {
        try {
            const bytes = unitsAlike(encoding, text, loose).map(unit => unit.join('|')).join();
            names.push(encoding.name);
            if (!spelled.has(bytes)) spelled.set(bytes, encoding);
        } catch (error) {
            if (!failedBy(error, 'text')) throw error;
            faults.push(error);
        }
    }
    if (names.length === 0) throw faults[0];
    return { encodings: [...spelled.values()], names, faults };
}

/**
 * The hits of a text in each encoding in which it occurs. Encodings in which it occurs only in the middle of characters come last: these
 * hits may be parts of other characters.
 * @param asked `limit` is how many hits are kept in each encoding, at least one
 */
export async function searchText(pool: Sharer, image: OrderedImage,
    { text, encodings, limit, loose }: { text: string, encodings: Encoding[], limit: number, loose?: boolean }, watch?: Sharing) {
    const texts = encodings.map(encoding => unitsAlike(encoding, text, loose));
    /** For each encoding. */
    const parts: Found[][] = texts.map(() => []);
    const how = { base: image.base, beyond: Math.max(...texts.map(sectorsBeyond)), ...watch };
    const { order, fileSize } = image;
    await pool.share('find', [order ? order.reader : image.reader], { texts, limit, fileSize }, how, (answer: Found[]) => {
        answer.forEach((found, i) => addFound(parts[i], found, limit));
        if (order) answer.forEach(({ hits }) => hits.forEach(hit => { hit.block = order.blockOf(hit.block - image.base); }));
    });
    const all: Hits[] = [];
    for (const [i, encoding] of encodings.entries()) {
        const found = joinFound(parts[i], limit);
        if (found.count > 0) all.push({ encoding, ...found, begins: await anyBegins(image, encoding, found.hits) });
    }
    return all.sort((a, b) => Number(b.begins) - Number(a.begins));
}

/** Adds the hits of a range. From the limit on they are only counted. */
function addFound(parts: Found[], found: Found, limit: number) {
    const last = parts[parts.length - 1];
    const kept = parts.reduce((sum, { hits }) => sum + hits.length, 0);
    if (kept < limit) parts.push(found);
    else last.count += found.count;
}
