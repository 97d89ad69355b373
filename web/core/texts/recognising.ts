// Recognises texts in a stretch of a disc, among code, pictures, and sound, by how likely the bytes are Japanese.

import { encodingOf, fillingAfter, sizeBeforeFilling, tableEncoding, type TableEncoding } from '../encodings/index.js';
import { USER_SIZE } from '../module/index.js';
import { userOfRange } from '../sectors/index.js';
import { letOthersIn, type Signal } from '../turns.js';
import { BESIDE, CandidateFinder, LESS, SURE, isZero, type Candidate } from './candidates.js';
import { cellOf } from './codes.js';
import { byteAfter, withEdges } from './edges.js';
import { withLengths } from './lengths.js';
import { withRecords } from './records.js';
import { joinedTexts, piecesOf } from './runs.js';
import {
    ASCII, BAD, KANJI, USUAL_KANJI, allScores, codeAt, endedScores, tableScores, usualScores, withCapitals, type Scores,
} from './scores.js';

/** A weaker text is accepted within this many bytes of an accepted one, or within a few if no 00 adjoins it. */
const REACH = 64;
const REACH_WITHOUT_ZERO = 4;

/**
 * LISTED texts with 00 on both sides, each at most APART bytes from the next one, are sure together, such as a list of short words. At
 * least DIFFERENT of them must begin with different characters, and as many end with different ones, unlike addresses.
 */
const LISTED = 10;
const APART = 8;
const DIFFERENT = 6;

/** If a smaller share of the candidates has LESS bits more, they are texts only by chance. */
const MOST_BY_CHANCE = 0.4;

/**
 * Beside a text, over this many units of filling, weaker texts up to a 00 are accepted from a few bits on, in a game's own table from 0.
 */
const BETWEEN = 8;
const LEAST_BESIDE = 4;
const LONGEST_BESIDE = 256;

/** The least scores of usual and of rare kanji there, in quarter bits: a table of names has many that no sentence has. */
const KANJI_BESIDE = 8;
const RARE_BESIDE = -8;

/** Recognises the texts of a stretch, in their order. */
export class TextRecogniser extends CandidateFinder {
    /**
     * @param shift how many bytes of the file come before them
     * @param byLines whether each line is a text
     */
    recognise(bytes: Uint8Array, shift: number = 0, byLines: boolean = false) {
        const sure = acceptedOf(bytes, withoutOverlaps(this.find(bytes)));
        const whole = joinedTexts(bytes, withEdges(bytes, withNeighbours(bytes, sure)), shift);
        return withRecords(bytes, withLengths(bytes, whole)).flatMap(it => piecesOf(bytes, it, shift, byLines));
    }
}

/** Adds the texts that are beside sure ones. */
function withNeighbours(bytes: Uint8Array, sure: Candidate[]) {
    const all: Candidate[] = [];
    sure.forEach((it, i) => {
        const low = all.length > 0 ? all[all.length - 1].end : 0;
        const high = i + 1 < sure.length ? sure[i + 1].start : bytes.length;
        for (const before of textsBeside(bytes, it, low, false).reverse()) all.push(before);
        all.push(it);
        for (const after of textsBeside(bytes, it, high, true)) all.push(after);
    });
    return all;
}

/** A sentence with words in capitals, of which two candidates in one encoding have a part each. */
function joinedCandidate(one: Candidate, other: Candidate): Candidate {
    const [better, { start, end, from, to, zeros }] = one.score < other.score ? [other, one] : [one, other];
    return {
        ...better, start: Math.min(better.start, start), end: Math.max(better.end, end), from: Math.min(better.from, from),
        to: Math.max(better.to, to), zeros: Math.max(better.zeros, zeros), text: '',
    };
}

/** Keeps the one with the higher score of candidates that overlap; those in one encoding become one. */
function withoutOverlaps(candidates: Candidate[]) {
    const left: Candidate[] = [];
    for (const it of joinedByEncoding(candidates)) {
        while (left.length > 0 && left[left.length - 1].end > it.start && left[left.length - 1].score < it.score) left.pop();
        if (left.length === 0 || left[left.length - 1].end <= it.start) left.push(it);
    }
    return left;
}

/** Candidates in order, in which those that overlap in one encoding are one. */
function joinedByEncoding(candidates: Candidate[]) {
    const last: Map<Scores, number> = new Map();
    const joined: Candidate[] = [];
    for (const it of [...candidates].sort((a, b) => a.start - b.start || b.score - a.score)) {
        const i = last.get(it.scores) ?? -1;
        if (i >= 0 && joined[i].end > it.start) joined[i] = joinedCandidate(joined[i], it);
        else last.set(it.scores, joined.push(it) - 1);
    }
    return joined;
}

/**
 * For each encoding, the score from which a text is sure that does not have 00 on both sides. In sound many bytes are characters by chance:
 * then each step of LESS bits leaves only a small share of the candidates. The score is raised by as many steps as leave none.
 */
function sureWithoutZeros(candidates: Candidate[]) {
    const bare = candidates.filter(({ zeros }) => zeros < 2);
    return new Map(Array.from(new Set(bare.map(({ scores }) => scores)), scores => {
        const all = bare.filter(it => it.scores === scores);
        const [sure, surer] = [SURE, SURE + LESS].map(least => Math.max(all.filter(({ score }) => score >= least).length, 1));
        const share = Math.max(sure / all.length, sure > 1 ? surer / sure : 0);
        const steps = share < MOST_BY_CHANCE ? Math.log(2 * all.length) / -Math.log(share) - 1 : 0;
        return [scores, SURE + LESS * steps];
    }));
}

/**
 * The candidates with 00 on both sides that follow one another in a list.
 * @param candidates in order
 */
function listedOf(bytes: Uint8Array, candidates: Candidate[]) {
    /** For each encoding, the last ones that follow one another. */
    const lists: Map<Scores, Candidate[]> = new Map();
    const listed: Set<Candidate> = new Set();
    for (const it of candidates) {
        if (it.zeros < 2) continue;
        const before = lists.get(it.scores) || [];
        const list = before.length > 0 && it.start - before[before.length - 1].end <= APART ? before : [];
        list.push(it);
        lists.set(it.scores, list.slice(-LISTED));
        const isUnsure = list.length >= LISTED && list.some(({ score }) => score < SURE);
        if (isUnsure && areDifferent(bytes, list)) list.forEach(other => listed.add(other));
    }
    return listed;
}

/** Whether enough texts begin with different characters, and end with different ones. */
function areDifferent(bytes: Uint8Array, texts: Candidate[]) {
    const first = new Set(texts.map(({ start }) => bytes[start] << 8 | bytes[start + 1]));
    const last = new Set(texts.map(({ end }) => bytes[end - 2] << 8 | bytes[end - 1]));
    return Math.min(first.size, last.size) >= DIFFERENT;
}

/**
 * The candidates that are sure, and those of the same encoding near them.
 * @param candidates in order
 */
function acceptedOf(bytes: Uint8Array, candidates: Candidate[]) {
    const least = sureWithoutZeros(candidates);
    const listed = listedOf(bytes, candidates);
    const accepted = candidates.map(it => listed.has(it) || it.score >= (it.zeros === 2 ? SURE : least.get(it.scores) || SURE));
    for (const step of [1, -1]) {
        /** For each encoding, the one that was accepted last. */
        const last: Map<Scores, Candidate> = new Map();
        for (let i = step > 0 ? 0 : candidates.length - 1; i >= 0 && i < candidates.length; i += step) {
            const { start, end, scores, zeros } = candidates[i];
            const isBeside = last.get(scores);
            const distance = isBeside ? Math.max(start - isBeside.end, isBeside.start - end) : Infinity;
            accepted[i] = accepted[i] || distance <= (zeros > 0 ? REACH : REACH_WITHOUT_ZERO);
            if (accepted[i]) last.set(scores, candidates[i]);
        }
    }
    return candidates.filter((_, i) => accepted[i]);
}

/** The score in bits of bytes as a text beside another one, or -1 if they are not a text or have no wide character. */
function bitsOf(scores: Scores, bytes: Uint8Array, start: number, end: number) {
    const { wide, size, one, oneKind, pair, pairKind } = scores;
    let sum = 0;
    let isText = false;
    for (let at = start; at < end;) {
        const code = codeAt(scores, bytes, at, end);
        const kind = code > 0 ? pairKind[code] : oneKind[bytes[at]];
        if (code === 0 && (wide || one[bytes[at]] === BAD)) return -1;
        if (code > 0) sum += kind === KANJI ? Math.max(pair[code], pair[code] < USUAL_KANJI ? RARE_BESIDE : KANJI_BESIDE) : pair[code];
        else sum += kind <= ASCII ? one[bytes[at]] : -4;
        isText = isText || kind < ASCII;
        at += code > 0 ? size : 1;
    }
    return isText ? sum / 4 : -1;
}

/**
 * The texts on one side of a text, in the same encoding, with filling between them.
 * @param limit where the text on that side ends or begins
 */
function textsBeside(bytes: Uint8Array, { start, end, scores }: Candidate, limit: number, isAfter: boolean) {
    const unit = scores.wide ? 2 : 1;
    const step = isAfter ? unit : -unit;
    const isIn = (at: number) => isAfter ? at < limit : at - unit >= limit;
    const isFilling = (at: number) => isIn(at) && isZero(scores, bytes, isAfter ? at : at - unit);
    const found: Candidate[] = [];
    for (let edge = isAfter ? end : start; ;) {
        let isBeside = edge;
        while (isFilling(isBeside) && Math.abs(isBeside - edge) <= BETWEEN * unit) isBeside += step;
        let far = isBeside;
        while (isIn(far) && !isFilling(far) && Math.abs(far - isBeside) < LONGEST_BESIDE) far += step;
        const isBound = isBeside !== edge && Math.abs(isBeside - edge) <= BETWEEN * unit && (isFilling(far) || (!isAfter && !isIn(far)));
        const from = Math.min(isBeside, far);
        const to = Math.max(isBeside, far);
        const score = isBound ? bitsOf(scores, bytes, from, to) : -1;
        if (score < (scores.own ? 0 : LEAST_BESIDE)) return found;
        found.push({ start: from, end: to, from, to, score, scores, zeros: 2, isBeside: true, text: '' });
        edge = far;
    }
}

// Recognises the texts in a range of sectors, which is a part of a file.

/**
 * The name of an encoding, or the text of a `.tbl` file, or neither for the usual encodings; whether each line is a separate text; the
 * byte that ends texts, if it is known; and whether any run of characters of the encoding is listed (`any`).
 */
export type TextOptions = { encoding?: string, table?: string, lines?: boolean, end?: number, any?: boolean };
/**
 * A recognised text, in a form that can be posted to a thread: its bounds in its file, how many bytes its room has, the name of its
 * encoding, its score in bits, whether it is accepted only because of its neighbours, the text itself, and the byte after it if that may be
 * the one that ends texts, else -1.
 */
export type FoundText = { start: number, end: number, room: number, scores: string, score: number, isBeside: boolean, text: string,
    after: number };

const BEYOND_ASCII = /[\u0080-\uFFFF]/;

/** The last scores, and the last recogniser for each byte that ends texts, since creating them takes a while. */
let held = { key: '', all: [] as Scores[], recognisers: new Map() as Map<number | undefined, TextRecogniser> };

/** The recogniser for an encoding, a table, or the usual encodings, and for a byte that ends texts. */
function recogniserOf({ encoding, table, end }: TextOptions) {
    const key = `${encoding} ${table}`;
    if (held.key !== key) {
        const named = encoding === undefined ? null : encodingOf(encoding);
        const other = table === undefined ? named : tableEncoding(table);
        const usual = other === null ? allScores() : allScores().filter(it => it.encoding === other);
        const all = usual.length > 0 ? usual : [tableScores(other as TableEncoding)];
        held = { key, all, recognisers: new Map() };
    }
    const known = held.recognisers.get(end);
    if (known !== undefined) return known;
    const made = new TextRecogniser(withCapitals(end === undefined ? held.all : held.all.map(it => endedScores(it, end))));
    held.recognisers.set(end, made);
    return made;
}

const NOT_PRINTED = /[\p{C}\uFFFD]/u;
const CONTROL_BYTE = /^\p{Cc}/u;

/**
 * The runs of characters that end as texts do. Control codes belong to the run in which they are.
 * @param isLast whether the file ends with these bytes
 */
function* runsOfCharacters(scores: Scores, bytes: Uint8Array, isLast: boolean): Generator<Candidate> {
    const { encoding, end } = scores;
    let start = -1;
    for (let at = 0; at <= bytes.length;) {
        const isEnd = at < bytes.length ? isZero(scores, bytes, at) : isLast;
        if (isEnd && start >= 0) yield { start, end: at, from: start, to: at, score: SURE, scores, zeros: 2, isBeside: false, text: '' };
        const { size, text } = isEnd || at === bytes.length ? { size: end.length, text: '\uFFFD' } : encoding.characterAt(bytes, at);
        const isCharacter = !NOT_PRINTED.test(text);
        if (isCharacter && start < 0) start = at;
        else if (!isCharacter && !CONTROL_BYTE.test(text)) start = -1;
        at += size;
    }
}

/**
 * Recognises the texts that begin in a range. A job for a worker.
 * @param sectors of the range, and BEYOND more, or as many as the file has
 * @param first the index in the file of the first of these sectors
 * @param args how many sectors the range has, and how many bytes the file has
 */
export function textsOfRange(sectors: Uint8Array, first: number,
    { count, size, lines, any, ...options }: { count: number, size: number } & TextOptions): FoundText[] {
    const shift = first * USER_SIZE;
    const bytes = userOfRange(sectors).subarray(0, size - shift);
    const [from, to] = [first === 0 ? 0 : BESIDE * USER_SIZE, (count + BESIDE) * USER_SIZE];
    const recogniser = recogniserOf(options);
    const runs = any ? [...runsOfCharacters(recogniser.all[0], bytes, shift + bytes.length === size)] : null;
    const texts = runs?.flatMap(it => piecesOf(bytes, it, shift, lines || false)) ?? recogniser.recognise(bytes, shift, lines);
    const isUsual = options.encoding === undefined && options.table === undefined;
    const found: FoundText[] = [];
    /** For each encoding, where the next text begins. */
    const next: Map<Scores, number> = new Map();
    for (const { start, end, scores, score, isBeside, text: known, limit = bytes.length, isField } of texts.reverse()) {
        const { encoding } = scores;
        const room = end - start + fillingAfter(encoding, bytes, end, Math.min(next.get(scores) || bytes.length, limit), isField);
        next.set(scores, start);
        if (start < from || start >= to) continue;
        const text = cellOf(encoding, bytes.subarray(start, end), known);
        // Lines without a character beyond ASCII are mostly the commands of a script.
        if (lines && isUsual && !BEYOND_ASCII.test(text)) continue;
        const more = { room, scores: encoding.name, score, isBeside, text, after: byteAfter({ scores, start, end }, bytes) };
        found.push({ start: start + shift, end: end + shift, ...more });
    }
    return found.reverse();
}

// Chooses the encoding in which bytes that are known to be texts read best.

/** The sum of the scores of the characters in a field. */
function scoreOf(scores: Scores, field: Uint8Array) {
    const end = sizeBeforeFilling(scores.encoding, field);
    const least = scores.wide ? 2 : 1;
    let sum = 0;
    for (let at = 0; at < end;) {
        const code = codeAt(scores, field, at, end);
        sum += code > 0 ? scores.pair[code] : scores.one[field[at]];
        at += code > 0 ? scores.size : least;
    }
    return sum;
}

/** Compares the usual encodings on one field after another. */
export class EncodingChooser {
    all: { scores: Scores, sum: number }[] = [];

    /** Prepares the scores. Other tasks get turns in between. Throws a Fault, `cancelled`. */
    async prepare(signal?: Signal) {
        for (const scores of usualScores()) {
            this.all.push({ scores, sum: 0 });
            await letOthersIn(signal);
        }
    }

    add(field: Uint8Array) {
        for (const it of this.all) it.sum += scoreOf(it.scores, field);
    }

    /** The encoding with the highest score; the first of several equal ones. */
    best() {
        return this.all.reduce((best, it) => it.sum > best.sum ? it : best).scores.encoding;
    }
}
