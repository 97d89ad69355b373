// Recognises texts with a length before each, which is a number of 1, 2, or 4 bytes.

import { readTo, type Candidate } from './candidates.js';
import { plainTo } from './runs.js';
import type { Scores } from './scores.js';

export type ReadLength = (bytes: Uint8Array, at: number) => number;

/**
 * The fewest texts, each directly after the one before it, that prove lengths: if more than CONTROL_SHARE of the lengths are control codes,
 * or if they have several bytes; if the last one ends with the whole text, or near the end of the bytes; and otherwise, since letters may
 * look like lengths.
 */
const LEAST_CHAINED = 3;
const LEAST_TO_END = 6;
const LEAST_OF_LETTERS = 24;
const CONTROL_SHARE = 0.1;

/** The least and the greatest length of a text, in bytes. */
const LEAST_LENGTH = 2;
const MOST_LENGTH = 1024;

/**
 * The most empty texts between two of a chain in UTF-16: the string tables of Windows have 16 strings in a block, many of them empty.
 */
const MOST_EMPTY = 64;

/** The greatest length of a text that is looked for before a chain: below the second bytes of characters, which could look like lengths. */
const MOST_LENGTH_BACK = 0x3F;

/** The first length is at most MOST_BEFORE bytes before the first scored character, or MOST_AFTER after the beginning of a long text. */
const MOST_BEFORE = 12;
const MOST_AFTER = 256;

/** The most bytes that are read for a text and a form of lengths: this many times its size, plus READ_FOR_ALL. */
const READ_FOR_EACH = 8;
const READ_FOR_ALL = 256;

/** How many bytes a length has, and how it is read. */
const FORMS: [number, ReadLength][] = [
    [1, (bytes, at) => bytes[at]],
    [2, (bytes, at) => bytes[at] | bytes[at + 1] << 8],
    [2, (bytes, at) => bytes[at] << 8 | bytes[at + 1]],
    [4, (bytes, at) => bytes[at + 2] === 0 && bytes[at + 3] === 0 ? bytes[at] | bytes[at + 1] << 8 : 0],
    [4, (bytes, at) => bytes[at] === 0 && bytes[at + 1] === 0 ? bytes[at + 2] << 8 | bytes[at + 3] : 0],
];

/** The forms for UTF-16, in which a length may be a number of characters. */
const WIDE_FORMS = FORMS.flatMap(([width, read]) => ([
    [width, read], [width, (bytes, at) => 2 * read(bytes, at)],
] as [number, ReadLength][]));

/**
 * Corrects texts that have lengths before them: each ends as its length says.
 * @param texts in order
 */
export function withLengths(bytes: Uint8Array, texts: Candidate[]) {
    const all: Candidate[] = [];
    let low = 0;
    for (const it of texts) {
        if (it.end <= low) continue;
        let rest = it.start < low ? { ...it, start: low, from: Math.max(low, it.from), text: '' } : it;
        for (let chain = chainOf(bytes, rest, low); chain !== null; chain = chainOf(bytes, rest, low)) {
            const { at, texts: found } = chain;
            const last = all[all.length - 1];
            // The text before it may include bytes of the first length, if that has several.
            if (last && last.start >= at) all.pop();
            else if (last && last.end > at) all[all.length - 1] = { ...last, end: at, to: Math.min(last.to, at), text: '' };
            for (const [start, end] of found) all.push({ ...it, start, end, from: start, to: end, text: '', limit: end });
            [, low] = found[found.length - 1];
            if (low >= it.end || !hasWide(bytes, low, it.end)) break;
            rest = { ...it, start: low, from: Math.min(low + MOST_BEFORE, it.end), text: '' };
        }
        if (low > it.start && !hasWide(bytes, low, it.end)) continue;
        all.push(rest);
        low = rest.end;
    }
    return all;
}

/**
 * Finds a chain of texts with a length before each that begins near the beginning of a text; null if there is none.
 * @param low where the text before it ends
 */
function chainOf(bytes: Uint8Array, { start, end, from, scores }: Candidate, low: number) {
    if (scores.own) return null;
    for (const [width, read] of scores.wide ? WIDE_FORMS : FORMS) {
        const left = { bytes: READ_FOR_EACH * (end - start) + READ_FOR_ALL };
        const least = Math.max(low - width + 1, 0);
        const last = lastPlace(start, end, from - width, least);
        // The nearest places before the first scored character are tried first, and then those after the beginning.
        for (let k = 0, at = from - width; at <= last; k++) {
            if (at >= least && areLengths(bytes, scores, at, width, read)) {
                const chain = chainFrom(bytes, scores, at, width, read, left);
                const isOver = chain.length > 0 && chain[chain.length - 1][1] > from;
                if (isOver && isChain(bytes, chain, width, at, { start, end, scores })) {
                    return withFirstTexts(bytes, scores, width, read, least, { at, texts: chain });
                }
            }
            if (k < MOST_BEFORE) at -= 1;
            else if (k === MOST_BEFORE) at = Math.max(least, start, from - width + 1);
            else at += 1;
        }
    }
    return null;
}

/**
 * The last place at which the first length may be. In a long text, of which perhaps only the end is known, it may be up to MOST_AFTER bytes
 * after its beginning.
 */
function lastPlace(start: number, end: number, nearest: number, least: number) {
    if (end - start > 2 * MOST_AFTER) return start + MOST_AFTER;
    return Math.max(nearest, nearest < least ? least + MOST_BEFORE : start);
}

/** Whether texts follow one another because of lengths, and not by chance. `at` is where the first length is. */
function isChain(bytes: Uint8Array, chain: [number, number][], width: number, at: number, { start, end, scores }: Pick<Candidate, 'start'
    | 'end' | 'scores'>) {
    const last = chain[chain.length - 1][1];
    const toEnd = last === end || last + MOST_LENGTH > bytes.length;
    if (width === 1 && last === end && chain.length > 1 && (at === start || at === start - 1)) return true;
    // A length of several bytes has a 00, which no text has except in UTF-16.
    const isByte = width === 1 || (scores.wide && width === 2);
    const codes = isByte ? chain.filter(([from]) => isCodeByte(bytes[from - 1] || bytes[from - 2])).length : chain.length;
    const isSure = codes > CONTROL_SHARE * chain.length && codes > 1;
    if (isSure) return chain.length >= LEAST_CHAINED;
    return chain.length >= (toEnd ? LEAST_TO_END : LEAST_OF_LETTERS);
}

/** @param byte whether it is a control code other than a tab or a line end */
export function isCodeByte(byte: number) {
    return byte < 0x20 && byte !== 0x09 && byte !== 0x0A && byte !== 0x0D;
}

/** Whether the first numbers from a place on may be lengths of texts. */
function areLengths(bytes: Uint8Array, scores: Scores, from: number, width: number, read: ReadLength) {
    let at = from;
    for (let count = 0; count < LEAST_CHAINED; count++) {
        const length = at + width <= bytes.length ? read(bytes, at) : 0;
        if (length < LEAST_LENGTH || length > MOST_LENGTH) return count > 1 && at === bytes.length;
        at = afterEmpty(bytes, scores, at + width + length, width);
    }
    return true;
}

/** The place after the empty texts at a place, each of which is a length of 0. Only those in UTF-16 can be told from the end of a text. */
function afterEmpty(bytes: Uint8Array, { wide }: Scores, from: number, width: number) {
    if (!wide || width !== 2) return from;
    let at = from;
    while (at + 2 < bytes.length && at - from < 2 * MOST_EMPTY && bytes[at] === 0 && bytes[at + 1] === 0) at += 2;
    return at;
}

/**
 * The chain of texts from a place on, with a length before each.
 * @param left how many more bytes may be read until a chain is long enough
 */
function chainFrom(bytes: Uint8Array, scores: Scores, from: number, width: number, read: ReadLength, left: { bytes: number }) {
    const chain: [number, number][] = [];
    for (let at = from; at + width < bytes.length && left.bytes > 0;) {
        const start = at + width;
        const length = read(bytes, at);
        const end = start + length;
        left.bytes -= chain.length < (width > 1 ? LEAST_CHAINED : LEAST_OF_LETTERS) ? length : 0;
        if (length < LEAST_LENGTH || length > MOST_LENGTH || end > bytes.length || !isText(bytes, scores, at, start, end)) break;
        chain.push([start, end]);
        at = afterEmpty(bytes, scores, end, width);
    }
    return chain;
}

/** A chain with the short texts directly before it, which too few frequent characters may hide. `least` is the first place of a length. */
function withFirstTexts(bytes: Uint8Array, scores: Scores, width: number, read: ReadLength, least: number,
    { at, texts }: { at: number, texts: [number, number][] }) {
    const before: [number, number][] = [];
    let first = at;
    for (let place = at - width - LEAST_LENGTH; place >= Math.max(least, first - width - MOST_LENGTH_BACK); place--) {
        const start = place + width;
        if (start + read(bytes, place) !== first || !isText(bytes, scores, place, start, first)) continue;
        before.unshift([start, first]);
        first = place;
        place = first - width - LEAST_LENGTH + 1;
    }
    return { at: first, texts: [...before, ...texts] };
}

/** Whether the bytes after a length are a text of whole characters. `at` is where the length begins. */
function isText(bytes: Uint8Array, scores: Scores, at: number, start: number, end: number) {
    const { size, wide, pair } = scores;
    if (wide) return readTo(scores, bytes, start, end) === end;
    // If a length and the first byte after it form a common character, they are that character.
    if (size === 2 && start === at + 1 && pair[bytes[at] << 8 | bytes[start]] > 0) return false;
    for (let from = start; from < end;) {
        const read = readTo(scores, bytes, from, end);
        from = read === end ? end : plainTo(scores, bytes, read, end);
        if (from === read && from < end) return false;
    }
    return hasWide(bytes, start, end) && !bytes.subarray(start, end - 1).includes(0);
}

/** Whether any of some bytes is not ASCII. */
function hasWide(bytes: Uint8Array, start: number, end: number) {
    for (let at = start; at < end; at++) if (bytes[at] >= 0x80) return true;
    return false;
}
