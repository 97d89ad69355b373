// Finds where texts begin and end exactly: by the byte that ends the texts of a file, or by the letters and marks beside their scored part.
// This comes after a text is accepted, so that it adds no row without a text.

import { FULL } from '../encodings/index.js';
import { MOST_EXTENSION, isZero, readTo, type Candidate } from './candidates.js';
import { ASCII, BAD, CONTROL, HALF_WIDTH, type Scores } from './scores.js';

/** A byte that follows at least this many texts, and this share of all, is the one that ends the texts of a file. */
const LEAST_ENDED = 6;
const LEAST_SHARE = 0.2;

/** The fewest letters, or half-width kana, by which a text is extended to its left: a single one may be a length or a code. */
const LEAST_LETTERS = 2;

const BEGINS = /[A-Za-z0-9([<"'`]/;

/** A letter, a digit, or an opening mark, with which a text in a language of Europe may begin. */
const BEGINS_SINGLE = /[\p{L}\p{N}\p{Ps}\p{Pi}<"'`¿¡]/u;

/** The kinds of small letters of Europe beyond ASCII: a byte of this kind beside a text is a code rather than a letter of it. */
const SMALL = [1, 3];

/** Marks that end a sentence in a language with spaces. */
const EDGE_MARKS = Array.from('.!?)"\'', mark => mark.charCodeAt(0));

/**
 * For each encoding in which 00 ends texts, the byte that ends the most texts without a 00, and is not part of a character; -1 if there is
 * none.
 */
function endsOf(bytes: Uint8Array, texts: Candidate[]) {
    const counts: Map<Scores, { all: number, after: Uint32Array }> = new Map();
    for (const { end, to, scores } of texts.filter(it => it.scores.end[0] === 0)) {
        const count = counts.get(scores) || { all: 0, after: new Uint32Array(256) };
        counts.set(scores, count);
        count.all += 1;
        const read = scores.wide ? end : readTo(scores, bytes, to, Math.min(bytes.length, to + MOST_EXTENSION));
        if (!scores.wide && read < bytes.length) count.after[bytes[read]] += 1;
    }
    return new Map(Array.from(counts, ([scores, { all, after }]) => {
        after.fill(0, 0, 0x80);
        const most = after.indexOf(Math.max(...after));
        const isEnd = after[most] >= Math.max(LEAST_ENDED, LEAST_SHARE * all) && scores.one[most] === BAD && !isLead(scores, most);
        return [scores, isEnd ? most : -1];
    }));
}

/** Whether a byte begins a character of several bytes. */
function isLead({ size, pair }: Scores, byte: number) {
    return size === 3 ? byte < 0xF8 : pair.subarray(byte << 8, (byte + 1) << 8).some(score => score !== BAD);
}

/**
 * The byte after a text if it may be the one that ends texts: 00, FF, a control code other than tabs and line ends, or a byte that is not
 * part of a character. Else, in UTF-16, and at the end of the bytes it is -1. A control code before a 00 counts instead if it is in the
 * text so often that it may be the end of several texts.
 */
export function byteAfter({ scores, start, end }: Pick<Candidate, 'scores' | 'start' | 'end'>, bytes: Uint8Array) {
    if (scores.wide || end >= bytes.length) return -1;
    const { [end]: byte, [end - 1]: last } = bytes;
    if (byte === 0 && last !== 0 && scores.oneKind[last] === CONTROL) {
        const count = bytes.subarray(start, end).reduce((sum, it) => sum + Number(it === last), 0);
        if (count >= LEAST_ENDED) return last;
    }
    const isNoCharacter = scores.one[byte] === BAD && !isLead(scores, byte);
    const isUsual = byte === 0 || byte === scores.end[0] || (byte === FULL && scores.encoding.isSingle);
    return isUsual || scores.oneKind[byte] === CONTROL || isNoCharacter ? byte : -1;
}

/**
 * Extends texts to all that belongs to them at both ends.
 * @param texts in order
 */
export function withEdges(bytes: Uint8Array, texts: Candidate[]) {
    const ends = endsOf(bytes, texts);
    return texts.map((it, i) => {
        const low = i > 0 ? texts[i - 1].end : 0;
        const high = i + 1 < texts.length ? texts[i + 1].start : bytes.length;
        const last = ends.get(it.scores) ?? it.scores.end[0];
        const [start, end] = [startWithMarks(bytes, it, low, last), endWithMarks(bytes, it, high, last)];
        return start === it.start && end === it.end ? it : { ...it, start, end, text: '' };
    });
}

/**
 * @param high where the next text begins
 * @param last what ends texts
 */
function endWithMarks(bytes: Uint8Array, { end, scores }: Candidate, high: number, last: number) {
    if (isZero(scores, bytes, end)) return end;
    const limit = Math.min(high, end + MOST_EXTENSION);
    const words = scores.encoding.isSingle ? endOfWords(scores, bytes, end, limit) : end;
    if (words > end || (scores.own && !scores.encoding.isSingle)) return words;
    const read = readTo(scores, bytes, end, limit);
    if (read < bytes.length && bytes[read] === last) return read;
    let at = end;
    while ((scores.encoding.usual || scores.own) && at < limit && EDGE_MARKS.includes(bytes[at])) at += 1;
    return at;
}

/**
 * @param low where the text before it ends
 * @param last what ends texts
 */
function startWithMarks(bytes: Uint8Array, { start, from, scores }: Candidate, low: number, last: number) {
    const least = Math.max(low, from - MOST_EXTENSION);
    if (scores.encoding.isSingle) return Math.min(start, startOfWords(scores, bytes, from, least));
    if (scores.own || scores.wide) return start;
    let begin = from;
    while (begin > least && bytes[begin - 1] !== 0 && bytes[begin - 1] !== last) begin -= 1;
    const isBound = begin === 0 || (begin > 0 && (bytes[begin - 1] === 0 || bytes[begin - 1] === last)) || begin === low;
    let code = from;
    while (code > begin && isPrinted(scores, bytes[code - 1])) code -= 1;
    if (isBound && code === begin && readTo(scores, bytes, begin, from) === from) return begin;
    return Math.max(begin, from - lettersBefore(scores, bytes, from, begin));
}

/**
 * Whether a byte beside the scored part of a text in a language of Europe belongs to it: a sign, a digit, or a letter. A small letter
 * beyond ASCII belongs to it only after another letter, since otherwise it may be a code.
 */
function isBesideText(oneKind: Uint8Array, bytes: Uint8Array, at: number) {
    const kind = oneKind[bytes[at]];
    const mayBeCode = bytes[at] >= 0x80 && SMALL.includes(kind) && !isLetter(oneKind[bytes[at - 1]]);
    return kind > 0 && kind <= ASCII && !mayBeCode;
}

/** Where the words, numbers, and marks begin that are directly before a text in a language of Europe. */
function startOfWords({ oneKind, encoding }: Scores, bytes: Uint8Array, from: number, low: number) {
    let at = from;
    while (at > low && SMALL.includes(oneKind[bytes[at]]) && SMALL.includes(oneKind[bytes[at - 1]])) at -= 1;
    // If a letter before a letter is a part of the text, the text begins with it already.
    if (at > low && isLetter(oneKind[bytes[at]]) && isLetter(oneKind[bytes[at - 1]])) return at;
    while (at > low && isBesideText(oneKind, bytes, at - 1)) at -= 1;
    if (from - at === MOST_EXTENSION) return from;
    while (at < from && !BEGINS_SINGLE.test(encoding.text(bytes.subarray(at, at + 1)))) at += 1;
    return at;
}

/** Where the words, numbers, and marks end that are directly after a text in a language of Europe. */
function endOfWords({ oneKind }: Scores, bytes: Uint8Array, end: number, limit: number) {
    let at = end;
    while (at < limit && isBesideText(oneKind, bytes, at)) at += 1;
    return at - end === MOST_EXTENSION ? end : at;
}

/** @param kind of a character in an encoding of Europe */
function isLetter(kind: number) {
    return kind > 0 && kind <= 4;
}

/** Whether a byte is not a control code. */
function isPrinted({ oneKind }: Scores, byte: number) {
    return oneKind[byte] <= ASCII + 1 || oneKind[byte] === HALF_WIDTH;
}

/** How many bytes directly before a text are one-byte letters and signs, or half-width kana, that belong to it. */
function lettersBefore({ oneKind }: Scores, bytes: Uint8Array, from: number, low: number) {
    let at = from;
    while (at > low && oneKind[bytes[at - 1]] === ASCII) at -= 1;
    while (at < from && !BEGINS.test(String.fromCharCode(bytes[at]))) at += 1;
    if (at === from) while (at > low && oneKind[bytes[at - 1]] === HALF_WIDTH) at -= 1;
    return from - at < LEAST_LETTERS ? 0 : from - at;
}
