// Finds bytes that may be texts, each in one encoding and with a score.

import { asWords } from '../sectors/index.js';
import { ASCII, BAD, HALF_WIDTH, KANJI, allScores, codeAt, seedBits, strengthOf, type Scores } from './scores.js';

// Finds the best way to read the bytes around a place as characters of one encoding.

/** The most bytes before a place at which a path may begin, and the most bytes of a path. */
const BACK = 32;
const MOST = 4096;

/** A text ends where its score has fallen by this many quarter bits. */
const FALL = 56;

/** The score of a UTF-16 character that begins with 00 after a 00: the two bytes end a text in the other byte order. */
const ZEROS = -FALL - 4;

/** Only this many kanji in a row count, and a character that repeats one of the last LAST_ONES does not. */
const KANJI_IN_A_ROW = 6;
const LAST_ONES = 3;

/** The score of a kanji that does not count; nothing is added for its order either. */
const MUTE = -2;

/** The most bytes of a character. */
const LONGEST = 3;

/** Finds one path after the other, in the same arrays. */
export class PathFinder {
    score = new Int32Array(MOST + LONGEST);
    start = new Int32Array(MOST + LONGEST);
    kind = new Uint8Array(MOST + LONGEST);
    row = new Uint16Array(MOST + LONGEST);

    constructor() {
        // For each place after the first one, the best path that ends there: its score, its start, the kind of its last character, and how
        // many kanji in a row it ends with.
    }

    /**
     * The best path that ends after a place, and begins at most BACK bytes before it.
     * @param low the earliest place at which it may begin
     */
    find(scores: Scores, bytes: Uint8Array, low: number, place: number) {
        const { score, start, kind } = this;
        const { one, oneKind, pairKind, size, after } = scores;
        const [atFirst] = after;
        const origin = Math.max(low, place - BACK);
        const last = Math.min(bytes.length, origin + MOST) - origin;
        for (let k = 0; k < LONGEST; k++) this.put(k, k, 0, 0, 0);
        let best = 0;
        for (let k = 0; k < last; k++) {
            const at = origin + k;
            this.put(k + LONGEST, k + LONGEST, 0, 0, 0);
            if (at > place + LONGEST && this.isOver(k, Math.max(score[best] - FALL, 0))) break;
            const byte = bytes[at];
            const going = score[k] + after[kind[k]][oneKind[byte]];
            const first = atFirst[oneKind[byte]];
            const oneSum = one[byte] === BAD ? 0 : one[byte] + (going < first ? first : going);
            if (oneSum > score[k + 1]) {
                this.put(k + 1, going < first ? k : start[k], oneSum, oneKind[byte], 0);
                if (oneSum > score[best] && at >= place) best = k + 1;
            }
            const code = codeAt(scores, bytes, at, bytes.length);
            if (code === 0) continue;
            const before = score[k] > 0 ? this.row[k] : 0;
            const row = pairKind[code] === KANJI ? before + 1 : 0;
            const sum = score[k] + this.added(scores, bytes, at, k, code, row);
            if (sum <= score[k + size]) continue;
            this.put(k + size, start[k], sum, pairKind[code], row);
            if (sum > score[best] && at >= place) best = k + size;
        }
        return { start: origin + start[best], end: origin + best, score: score[best] };
    }

    /** @param k the place at which a path ends */
    put(k: number, start: number, score: number, kind: number, row: number) {
        this.score[k] = score;
        this.start[k] = start;
        this.kind[k] = kind;
        this.row[k] = row;
    }

    isOver(k: number, least: number) {
        const { score } = this;
        return score[k] <= least && score[k + 1] <= least && score[k + 2] <= least;
    }

    /**
     * The score that a character of several bytes adds to the best path before it.
     * @param row the number of kanji in a row, with this one; 0 for other characters
     */
    added({ size, wide, pair, pairKind, after }: Scores, bytes: Uint8Array, at: number, k: number, code: number, row: number) {
        const isEnd = wide && bytes[at] === 0 && at > 0 && bytes[at - 1] === 0;
        const score = isEnd ? ZEROS : pair[code];
        const seen = Math.max(at - k + this.start[k], at - LAST_ONES * size);
        if (score > 0 && row > KANJI_IN_A_ROW) return MUTE;
        const counted = score > 0 && stoodBefore(bytes, at, size, seen) ? 0 : score;
        return counted === 0 || counted === MUTE ? counted : counted + after[this.kind[k]][pairKind[code]];
    }
}

/** Whether the character at a place also occurs before it. `from` is the lowest place that is searched. */
function stoodBefore(bytes: Uint8Array, at: number, size: number, from: number) {
    for (let before = at - size; before >= from; before -= size) {
        let k = 0;
        while (k < size && bytes[before + k] === bytes[at + k]) k += 1;
        if (k === size) return true;
    }
    return false;
}

// The overlap of ranges of a file in which texts are recognised, and the choice of the texts to keep when all ranges are done.

/** From this many bits on a text is accepted by itself. */
export const SURE = 27;

/** Texts cross the borders of ranges: so each range also reads this many sectors before it, and as many after it. */
export const BESIDE = 4;
export const BEYOND = 2 * BESIDE;

/** A text in a different encoding than most of its file needs this many bits more. Most is at least MAIN_SHARE. */
const FOREIGN = 8;
const MAIN_SHARE = 0.8;

/** The texts of a file to keep: those in the encoding of most of it, and others only if they are surer. */
export function keptOf<T extends { score: number, scores: unknown, isBeside: boolean }>(texts: T[]) {
    const strong = texts.filter(it => it.score >= SURE + FOREIGN);
    const shares: Map<unknown, number> = new Map();
    for (const it of strong) shares.set(it.scores, (shares.get(it.scores) || 0) + it.score);
    const whole = strong.reduce((sum, it) => sum + it.score, 0);
    const [main] = [...shares.keys()].filter(it => (shares.get(it) || 0) >= MAIN_SHARE * whole);
    if (main === undefined) return texts;
    return texts.filter(it => it.scores === main || (!it.isBeside && it.score >= SURE + FOREIGN));
}

/**
 * A text from `start` to `end`, whose characters from `from` to `to` are scored: its score in bits, its encoding, on how many sides it has
 * a 00, whether it is accepted only because of its neighbours, and its characters, '' if they are not decoded yet. `limit` is where its
 * room ends at the latest, if it has a length or is in a table; `isField` is whether it is in a field of fixed width.
 */
export type Candidate = { start: number, end: number, from: number, to: number, score: number, scores: Scores, zeros: number,
    isBeside: boolean, text: string, limit?: number, isField?: boolean };
/** How far an encoding has been searched, and where its last text ended. */
export type Known = { covered: number, end: number };

/** Near a text that is accepted by itself, this many bits less are enough. */
export const LESS = 10;

/** A UTF-16 text at an odd place needs this many bits more: most characters of one byte order can be read there in the other. */
const ODD = 14;

/** A text in capitals needs this many bits more, since the bytes are looked at a second time for it. */
const CAPITALS = 6;

/** A text is extended over at most this many bytes to a 00, and a 00 on one of its sides adds this many bits. */
export const MOST_EXTENSION = 40;
const ZERO = 6;

/**
 * The least average difference of neighbouring bytes in a text, unlike in a picture, also in a character set of one byte; the least share
 * of distinct characters in a text, and in one of an alphabet; and how many of its characters are compared, at most and at least.
 */
const SMOOTH = 14;
const SMOOTH_SINGLE = 6;
const DISTINCT = 0.55;
const DISTINCT_LETTERS = 0.3;
const MOST_COMPARED = 24;
const LEAST_COMPARED = 5;

/** In a character table, at most one of this many steps from a character to the next one goes the other way in Unicode. */
const STEPS = 8;
const LEAST_STEPS = 3;

/** A text is not extended over characters with this score or less, such as user-defined ones. */
const RAREST = -28;

/** Finds the candidates in bytes. Creating its tables takes a while. */
export class CandidateFinder {
    paths = new PathFinder();
    threes; seeds;

    /** @param all the encodings */
    constructor(readonly all: Scores[] = allScores()) {
        this.threes = all.reduce((bits, { size }, i) => size === 3 ? bits | 1 << i : bits, 0);
        this.seeds = seedBits(all);
    }

    /** The candidates; those of each encoding are in order. */
    find(bytes: Uint8Array) {
        const found: Candidate[] = [];
        const known = this.all.map(() => ({ covered: 0, end: 0 }));
        const words = asWords(bytes);
        for (let at = 3; at < bytes.length; at++) {
            if (at % 4 === 0) at = 4 * this.nextWord(words, at / 4);
            const bits = at < bytes.length ? this.bitsAt(bytes, at) : 0;
            for (let i = 0; bits >> i > 0; i++) {
                const candidate = bits >> i & 1 && at >= known[i].covered ? this.candidateAt(this.all[i], bytes, at, known[i]) : null;
                if (candidate !== null) found.push(candidate);
            }
        }
        return found;
    }

    /** The encodings, as bits, in which two strong characters end at a place. */
    bitsAt(bytes: Uint8Array, at: number) {
        const { seeds, threes } = this;
        const last = seeds[bytes[at] << 8 | bytes[at - 1]];
        const two = last & seeds[bytes[at - 2] << 8 | bytes[at - 3]] & ~threes;
        return at < 4 ? two : two | last & seeds[bytes[at - 3] << 8 | bytes[at - 4]] & threes;
    }

    /** The first word from `from` on in which two strong characters end, or the number of words. */
    nextWord(words: Int32Array, from: number) {
        const { seeds, threes } = this;
        let last = words[from - 1];
        let [two, three, four] = [seeds[last & 0xFFFF], seeds[last >>> 8 & 0xFFFF], seeds[last >>> 16]];
        for (let i = from; i < words.length; i++) {
            const word = words[i];
            const first = seeds[(last >>> 24 | word << 8) & 0xFFFF];
            const [second, third, fourth] = [seeds[word & 0xFFFF], seeds[word >>> 8 & 0xFFFF], seeds[word >>> 16]];
            const pairs = first & three | second & four | third & first | fourth & second;
            if ((pairs & ~threes | (first & two | second & three | third & four | fourth & first) & threes) !== 0) return i;
            last = word;
            two = second;
            three = third;
            four = fourth;
        }
        return words.length;
    }

    candidateAt(scores: Scores, bytes: Uint8Array, at: number, known: Known): Candidate | null {
        const { size, wide, own, least, encoding: { isSingle }, usual = scores } = scores;
        const last = bytes[at - 1] << 8 | bytes[at];
        const first = bytes[at - 3] << 8 | bytes[at - 2];
        // The same character twice counts once.
        if (size === 2 && (last === first || strengthOf(scores, last) + strengthOf(scores, first) < least)) return null;
        const place = Math.max(at - size - 1, Math.min(known.end, at - 1));
        const { start, end, score } = this.paths.find(scores, bytes, Math.min(known.end, place), place);
        known.covered = Math.max(end, at + 1);
        if (score / 4 + 2 * ZERO < SURE - LESS) return null;
        const isSmooth = size < 3 && !own && isPicture(bytes, start, end, SMOOTH);
        // UTF-8 needs no check of its characters: few other bytes can be read as UTF-8.
        const text = size === 3 || isSmooth ? '' : scores.encoding.text(bytes.subarray(start, end));
        if (isSmooth || isRepeated(text, isSingle ? DISTINCT_LETTERS : DISTINCT)) {
            // A text may follow a picture.
            known.covered = Math.min(known.covered, at + MOST_EXTENSION);
            return null;
        }
        const reached = extended(scores, bytes, start, end, known.end);
        const whole = reached.end - reached.start === end - start ? text : '';
        known.covered = Math.max(known.covered, reached.end);
        known.end = reached.end;
        const before = reached.start === 0 || isZero(scores, bytes, reached.start - (wide ? 2 : 1));
        const zeros = Number(before) + Number(isZero(scores, bytes, reached.end));
        const bits = score / 4 + ZERO * zeros - (wide && reached.start % 2 === 1 ? ODD : 0) - (usual === scores ? 0 : CAPITALS);
        const isOther = zeros < 2 && (own ? isSingle && isPicture(bytes, start, end, SMOOTH_SINGLE) : goesOneWay(text));
        const isText = bits >= SURE - LESS && !isOther;
        if (!isText) return null;
        const bounds = { start: reached.start, end: reached.end, from: start, to: end };
        return { ...bounds, score: bits, scores: usual, zeros, isBeside: false, text: whole };
    }
}

/** Whether a text may end before a place: at the byte that ends texts, mostly 00, or at the end of the bytes. */
export function isZero({ wide, end }: Scores, bytes: Uint8Array, at: number) {
    return at >= bytes.length || (at >= 0 && bytes[at] === end[0] && (!wide || bytes[at + 1] === end[1]));
}

/** Whether bytes differ as little from their neighbours as in a picture. `least` is the least average difference in a text. */
function isPicture(bytes: Uint8Array, start: number, end: number, least: number) {
    let steps = 0;
    for (let at = start + 1; at < end; at++) steps += Math.abs(bytes[at] - bytes[at - 1]);
    return steps < least * (end - start - 1);
}

/**
 * Whether a text repeats few characters. Counting them with a set would take three times as long.
 * @param least the least share of distinct ones
 */
function isRepeated(text: string, least: number) {
    const compared = text.slice(0, MOST_COMPARED);
    let different = 0;
    for (let at = 0; at < compared.length; at++) different += Number(compared.indexOf(compared[at]) === at);
    return compared.length >= LEAST_COMPARED && different < least * compared.length;
}

/** @param text whether its characters ascend in Unicode, or descend, as in a character table */
function goesOneWay(text: string) {
    const ups = Array.from(text).filter((character, i) => i > 0 && character > text[i - 1]).length;
    const steps = text.length - 1;
    return steps >= LEAST_STEPS && Math.min(ups, steps - ups) <= Math.floor(steps / STEPS);
}

/** Extends a text to the 00 on each side, if all characters up to it can be read. `low` is where the text before it ended. */
function extended(scores: Scores, bytes: Uint8Array, start: number, end: number, low: number) {
    const step = scores.wide ? 2 : 1;
    let from = start;
    while (from - step >= low && start - from < MOST_EXTENSION && !isZero(scores, bytes, from - step)) from -= step;
    const isBound = from === low || isZero(scores, bytes, from - step);
    const last = readTo(scores, bytes, end, Math.min(bytes.length, end + MOST_EXTENSION));
    return {
        start: isBound && readTo(scores, bytes, from, start) === start ? from : start,
        end: last > end && isZero(scores, bytes, last) ? last : end,
    };
}

/**
 * Where the bytes end that can be read as characters from a place on: at a 00, at a limit, or at a byte that is not a character. A single
 * half-width kana does not count as one.
 */
export function readTo(scores: Scores, bytes: Uint8Array, from: number, limit: number) {
    const { wide, size, own, one, oneKind, pair } = scores;
    const isHalf = (at: number) => at >= from && at < limit && oneKind[bytes[at]] === HALF_WIDTH;
    for (let at = from; ; ) {
        const code = codeAt(scores, bytes, at, limit);
        const isOne = at < limit && !wide && one[bytes[at]] !== BAD &&
            (bytes[at] < 0x80 || own || oneKind[bytes[at]] < ASCII || (isHalf(at) && (isHalf(at - 1) || isHalf(at + 1))));
        if (code > 0 && pair[code] > RAREST) at += size;
        else if (isOne) at += 1;
        else return at;
    }
}
