// Joins the parts of a text, and cuts a text that is too long for a row where a reader would.

import type { Candidate } from './candidates.js';
import { ASCII, CONTROL, HALF_WIDTH, LINE_END, codeAt, type Scores } from './scores.js';

// Reads bytes as the characters of a plain text.

/** Characters that are not text: control codes except tabs and line ends, user-defined ones, and bytes without a character. */
const NOT_PLAIN = /(?![\t\n\r])[\p{Cc}\uE000-\uF8FF\uFFFD]/u;

/** The size in bytes of the character at a place; if there is none, 1, or 2 in UTF-16. */
export function sizeAt(scores: Scores, bytes: Uint8Array, at: number) {
    const { wide, size, own, encoding } = scores;
    if (!wide && !own && bytes[at] < 0x80) return 1;
    return !own && codeAt(scores, bytes, at, bytes.length) > 0 ? size : encoding.characterAt(bytes, at).size;
}

/** The size in bytes of the character at a place if it is one of a plain text, else 0. */
function plainSizeAt(scores: Scores, bytes: Uint8Array, at: number, end: number) {
    const { wide, size, oneKind, pairKind, encoding, end: [last] } = scores;
    const kind = wide ? 0 : oneKind[bytes[at]];
    if (!wide && last !== 0 && bytes[at] === last) return 0;
    if (encoding.isSingle) return kind > 0 ? 1 : 0;
    if (!wide && bytes[at] < 0x80) return kind === ASCII || kind === LINE_END ? 1 : 0;
    const code = codeAt(scores, bytes, at, end);
    if (code > 0 && pairKind[code] > 0) return pairKind[code] === CONTROL ? 0 : size;
    if (kind === HALF_WIDTH && code === 0) return 1;
    if (at + 1 >= end || (wide && bytes[at] === 0 && bytes[at + 1] === 0)) return 0;
    const { size: whole, text } = encoding.characterAt(bytes, at);
    return at + whole > end || NOT_PLAIN.test(text) ? 0 : whole;
}

/** The end of the plain text that begins at a place. */
export function plainTo(scores: Scores, bytes: Uint8Array, from: number, end: number) {
    let at = from;
    for (let size = -1; at < end && size !== 0; at += size) size = plainSizeAt(scores, bytes, at, end);
    return at;
}

/** How many bytes are not ASCII; in UTF-16, how many belong to characters that are not ASCII; and in an encoding of Europe, all bytes. */
function countOthers({ wide, pairKind, encoding }: Scores, bytes: Uint8Array) {
    if (encoding.isSingle) return bytes.length;
    let count = 0;
    for (let at = 0; at + 1 < bytes.length && wide; at += 2) count += pairKind[bytes[at] << 8 | bytes[at + 1]] < ASCII ? 2 : 0;
    for (let at = 0; at < bytes.length && !wide; at++) count += bytes[at] >> 7;
    return count;
}

/** Bytes that may fill up a file after its text: 00, and the end-of-file character of DOS. */
const AFTER_TEXT = [0x00, 0x1A];

/** The most bytes of a partial character at either end of the bytes, and of a byte order mark. */
const MOST_BESIDE = 3;

/**
 * The bounds of plain text if the bytes are nothing else, or null. A byte order mark may come before it, and filling after it.
 * @param begins places at which a character may begin, the likeliest one first
 * @param covered how many bytes are known to be text
 * @param isFirst whether the first byte is the first one of a file
 */
export function plainBounds(scores: Scores, bytes: Uint8Array, begins: number[], covered: number, isFirst: boolean) {
    let last = bytes.length;
    while (last > 0 && AFTER_TEXT.includes(bytes[last - 1])) last -= 1;
    for (const from of begins) {
        const end = Math.min(bytes.length, scores.wide ? last + (last - from & 1) : last);
        const read = plainTo(scores, bytes, from, end);
        if (read !== end && (end < bytes.length || read < end - MOST_BESIDE)) continue;
        const start = firstPlain(scores, bytes, from, isFirst);
        if (start >= 0 && 2 * covered >= countOthers(scores, bytes.subarray(start, read))) return { start, end: read };
    }
    return null;
}

/** The beginning of the plain text before a place: the first byte, or after a byte order mark or a partial character; or -1. */
function firstPlain(scores: Scores, bytes: Uint8Array, from: number, isFirst: boolean) {
    const hasMark = isFirst && scores.encoding.text(bytes.subarray(0, MOST_BESIDE)).startsWith('\uFEFF');
    const first = hasMark ? sizeAt(scores, bytes, 0) : 0;
    for (let start = first; start <= (isFirst ? first : Math.min(MOST_BESIDE, from)); start++) {
        if (start <= from && plainTo(scores, bytes, start, from) === from) return start;
    }
    return -1;
}

/**
 * A row has at most LONGEST_ROW bytes. A longer text is cut before places that are GRID bytes apart in the file, so that all ranges with
 * parts of it cut it alike: at the last line end within WINDOW bytes before such a place, or else at the end of a sentence.
 */
const LONGEST_ROW = 4096;
const WINDOW = 1024;
const GRID = LONGEST_ROW - WINDOW;

/**
 * The most bytes between two parts of one text, such as a line in a language that is not scored; fewer in an encoding of Europe, in which
 * most bytes are characters.
 */
const MOST_BETWEEN = 512;
const MOST_BETWEEN_SINGLE = 32;

const SENTENCE_END = /[。．！？.!?…」』]/;
const CR = '\r';
const LF = '\n';

/**
 * Joins texts with nothing but plain text between them. If the bytes are nothing but text, they are one text.
 * @param texts in order
 * @param shift how many bytes of the file come before them
 */
export function joinedTexts(bytes: Uint8Array, texts: Candidate[], shift: number) {
    const whole = allText(bytes, texts, shift);
    if (whole !== null) return [whole];
    const joined: Candidate[] = [];
    for (const it of texts) {
        const last = joined[joined.length - 1];
        const before = last && last.scores !== it.scores ? joined[joined.length - 2] : last;
        if (before && isOneWith(bytes, before, it) && (before === last || last.score < Math.max(before.score, it.score))) {
            // A text between them in a different encoding is a misread part of them.
            if (before !== last) joined.pop();
            const score = Math.max(before.score, it.score);
            joined[joined.length - 1] = { ...before, end: it.end, to: it.to, text: '', score, isBeside: before.isBeside && it.isBeside };
        } else joined.push(it);
    }
    return joined;
}

function isOneWith(bytes: Uint8Array, { end, scores }: Candidate, next: Candidate) {
    const most = scores.encoding.isSingle ? MOST_BETWEEN_SINGLE : MOST_BETWEEN;
    if (next.scores !== scores || next.from - end > most) return false;
    return isOwn(scores) ? next.from <= end : plainTo(scores, bytes, end, next.from) >= next.from;
}

/** Whether an encoding is a game's own table, in which any byte may be a character. */
function isOwn({ own, encoding }: Scores) {
    return own && !encoding.isSingle;
}

/** All bytes as one text in the encoding that most of them have, if they are nothing but text; or null. */
function allText(bytes: Uint8Array, texts: Candidate[], shift: number) {
    const covered: Map<Scores, number> = new Map();
    for (const { start, end, scores } of texts) covered.set(scores, (covered.get(scores) || 0) + end - start);
    const [most] = [...covered].sort(([, a], [, b]) => b - a);
    if (most === undefined || isOwn(most[0])) return null;
    const [scores, count] = most;
    const own = texts.filter(it => it.scores === scores);
    const longest = own.reduce((last, it) => it.to - it.from > last.to - last.from ? it : last);
    // The longest text most likely begins at the right byte. At the beginning of a file there is no doubt.
    const bounds = plainBounds(scores, bytes, shift === 0 ? [0, longest.from] : [longest.from], count, shift === 0);
    if (bounds === null) return null;
    const score = own.reduce((best, it) => Math.max(best, it.score), 0);
    return { ...longest, ...bounds, from: bounds.start, to: bounds.end, score, isBeside: false, text: '' };
}

/**
 * Cuts a text into the pieces that are rows.
 * @param shift how many bytes of the file come before the bytes
 * @param byLines whether each of its lines is a row
 */
export function piecesOf(bytes: Uint8Array, text: Candidate, shift: number, byLines: boolean) {
    const pieces: Candidate[] = [];
    for (const { start, end } of byLines ? linesOf(bytes, text) : [text]) {
        const cuts = end - start > LONGEST_ROW ? cutsOf(bytes, text.scores, start, end, shift) : [];
        [start, ...cuts].forEach((from, i) => {
            const to = cuts[i] ?? end;
            const isWhole = from === text.start && to === text.end;
            pieces.push(isWhole ? text : { ...text, start: from, end: to, from, to, text: '' });
        });
    }
    return pieces;
}

/** The CR or LF at a place, or '' for other characters. */
function lineEndAt({ wide, own, encoding }: Scores, bytes: Uint8Array, at: number) {
    if (!wide && !own) {
        if (bytes[at] === 0x0A) return LF;
        return bytes[at] === 0x0D ? CR : '';
    }
    if (wide && bytes[at] !== 0 && bytes[at + 1] !== 0) return '';
    const { text } = encoding.characterAt(bytes, at);
    return text === LF || text === CR ? text : '';
}

/** The lines of a text that are not empty, without their ends. */
function linesOf(bytes: Uint8Array, { start, end, scores }: Candidate) {
    const lines = [];
    let from = start;
    for (let at = start, size = 0; at < end; at += size) {
        size = sizeAt(scores, bytes, at);
        if (lineEndAt(scores, bytes, at) === '') continue;
        if (at > from) lines.push({ start: from, end: at });
        from = at + size;
    }
    if (end > from) lines.push({ start: from, end });
    return lines;
}

/** Where to cut a text that is too long for a row. */
function cutsOf(bytes: Uint8Array, scores: Scores, start: number, end: number, shift: number) {
    const cuts: number[] = [];
    let at = start;
    for (let line = nextLine(start + WINDOW, shift); line < end; line = nextLine(line + 1, shift)) {
        const cut = cutBefore(bytes, scores, at, line);
        cuts.push(cut);
        at = cut;
    }
    return cuts;
}

/** The first place of the grid from `from` on. */
function nextLine(from: number, shift: number) {
    return Math.ceil((from + shift) / GRID) * GRID - shift;
}

/**
 * The last place up to `last` at which to cut a text: at the end of a line, else of a sentence, else of a character.
 * @param from where a character begins
 */
function cutBefore(bytes: Uint8Array, scores: Scores, from: number, last: number) {
    let [line, sentence, character] = [0, 0, from];
    for (let at = from; ;) {
        const next = at + sizeAt(scores, bytes, at);
        if (next > last) break;
        if (next > last - WINDOW) {
            const end = lineEndAt(scores, bytes, at);
            if (end === LF || (end === CR && lineEndAt(scores, bytes, next) !== LF)) line = next;
            else if (SENTENCE_END.test(scores.encoding.characterAt(bytes, at).text)) sentence = next;
        }
        character = next;
        at = next;
    }
    return line || sentence || character;
}
