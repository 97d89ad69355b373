// Scores how likely bytes are Japanese text: each character of each encoding has a score in quarter bits.

import { CP932, SEARCHED, TableEncoding, encodeText, endOf, withEnd, type Encoding } from '../encodings/index.js';
import { AFTER_KINDS, CHARACTERS_BY_BITS } from './frequencies.js';

/**
 * An encoding whose texts can be recognised among other bytes: for each byte and each pair of bytes, its score and its kind as a character;
 * whether all characters have two bytes; how many bytes longer characters have, two, or in UTF-8 three; whether it is a game's own table;
 * the least score of two neighbours together; by the kinds of two neighbours, what is added; and the bytes that end texts, mostly 00.
 * `usual` is the scores of ordinary text if these are those of text in capitals.
 */
export type Scores = { encoding: Encoding, wide: boolean, size: number, own: boolean, one: Int8Array, oneKind: Uint8Array, pair: Int8Array,
    pairKind: Uint8Array, least: number, after: number[][], end: Uint8Array, usual?: Scores };
/** Bytes that are a character. */
export type Scored = { bytes: Uint8Array, score: number, kind: number };

/** The score of bytes that are not a character. */
export const BAD = -128;

/** Kinds of characters: indices into AFTER_KINDS, of which 0 is not a character. */
export const KANJI = 3;
export const ASCII = 6;
export const LINE_END = 7;
export const CONTROL = 8;
export const HALF_WIDTH = 9;
const WIDE_LETTER = 5;

/** The scores of one-byte characters, by their kinds. */
const ONES = { [ASCII]: -1, [LINE_END]: -16, [CONTROL]: -32, [HALF_WIDTH]: -1 };

/** Scores of characters that CHARACTERS_BY_BITS lacks, by rows of CP932: signs, usual kanji, others, NEC's, user-defined ones, IBM's. */
export const USUAL_KANJI = 3;
const RARE = [[0x8900, -24], [0x9873, USUAL_KANJI], [0xED00, -20], [0xF000, -27], [0xFA00, -28], [0x10000, -27]];

/** The scores of signs that are rare in man pages and frequent in games: those that end a sentence, and others. */
const SIGNS = [[24, '！？…'], [16, '『』♪～']] as [number, string][];

/** The score of wide letters and digits, which menus have, except in UTF-16: there they are small negative numbers, as in quiet sound. */
const WIDE_LETTERS = 12;

/** The least score of each of two neighbours in a text, and of both together. */
const STRONG = 8;
const STRONG_PAIR = 24;

/** The bonus of a three-byte character: random bytes are more often a two-byte one. */
const THREE = 24;

/** The first two bytes of three-byte characters that are frequent in texts: of kana and signs, of kanji, and of wide letters. */
const FIRST_OF_THREE = [[0xE380, 0xE383], [0xE480, 0xE9BF], [0xEFBC, 0xEFBD]];

/** The bonus of a control code after another one: in many games two of them begin a new line, and do not end a text. */
const SECOND_CONTROL = 20;

/** AFTER_KINDS, with the control codes of games. */
const AFTER_JAPANESE = AFTER_KINDS.map(after => after.slice());
AFTER_JAPANESE[CONTROL][CONTROL] = SECOND_CONTROL;
AFTER_JAPANESE[CONTROL][ASCII] = 0;
AFTER_JAPANESE[0][WIDE_LETTER] = 0;
AFTER_JAPANESE[WIDE_LETTER][WIDE_LETTER] = 8;

/** @param code of a wide character */
function kindOf(code: number) {
    if (code >= 0x3041 && code <= 0x309F) return 1;
    if (code >= 0x30A0 && code <= 0x30FF) return 2;
    if ((code >= 0x4E00 && code < 0xA000) || code === 0x3005) return KANJI;
    return /[０-９Ａ-Ｚａ-ｚ]/.test(String.fromCharCode(code)) ? WIDE_LETTER : 4;
}

/** @param byte the only one of a character */
function kindOfOne(byte: number) {
    if ([0x09, 0x0A, 0x0D].includes(byte)) return LINE_END;
    if (byte >= 0x80) return HALF_WIDTH;
    return byte >= 0x20 && byte < 0x7F ? ASCII : CONTROL;
}

function scoredOne(byte: number) {
    const kind = kindOfOne(byte);
    return { score: ONES[kind], kind };
}

/** The scores and kinds of characters. Kanji that are rare in the table score more than there: games use different words. */
function knownCharacters() {
    const known = new Map(Array.from(CP932.table.spellings, ([text, [[first, second]]]) => {
        const [, score] = RARE.find(([end]) => (first << 8 | second) < end) || [];
        return [text, second === undefined ? scoredOne(first) : { score: Number(score), kind: kindOf(text.charCodeAt(0)) }];
    }));
    CHARACTERS_BY_BITS.forEach((characters, bits) => {
        for (const it of characters) {
            const isUsual = known.get(it)?.score === USUAL_KANJI;
            const rare = bits === 0 ? -2 : 4 * bits;
            const score = isUsual ? Math.max(4 * bits, 6 + 2 * bits) : rare;
            known.set(it, { score, kind: kindOf(it.charCodeAt(0)) });
        }
    });
    for (const [score, signs] of SIGNS) for (const it of signs) known.set(it, { score, kind: kindOf(it.charCodeAt(0)) });
    return known;
}

/**
 * The scores of an encoding by those of its characters. If several have the same bytes, the first one counts.
 * @param more its other properties
 */
function scoresOf(encoding: Encoding, scored: Iterable<Scored>,
    { size = 2, wide = false, own = false, least = STRONG_PAIR, after = AFTER_JAPANESE, usual }: Partial<Scores>): Scores {
    const [one, pair] = [256, 65536].map(count => new Int8Array(count).fill(BAD));
    const [oneKind, pairKind] = [256, 65536].map(count => new Uint8Array(count));
    for (const { bytes, score, kind } of scored) {
        const isOne = bytes.length === 1;
        if (!isOne && bytes.length !== size) continue;
        const [scores, kinds] = isOne ? [one, oneKind] : [pair, pairKind];
        const code = isOne ? bytes[0] : codeOf(size, bytes, 0);
        if (code === 0 || scores[code] !== BAD) continue;
        scores[code] = score;
        kinds[code] = kind;
    }
    return { encoding, wide, size, own, one, oneKind, pair, pairKind, least, after, end: endOf(encoding), usual };
}

/** The scores of an encoding whose texts end with a byte: it is not a character, and no character begins with it. */
export function endedScores(scores: Scores, byte: number): Scores {
    const encoding = withEnd(scores.encoding, byte);
    const made = { ...scores, encoding, one: scores.one.slice(), oneKind: scores.oneKind.slice(), end: endOf(encoding) };
    made.one[byte] = BAD;
    made.oneKind[byte] = 0;
    const [first, second] = made.end;
    const [from, to] = scores.wide ? [first << 8 | second, (first << 8 | second) + 1] : [byte << 8, (byte + 1) << 8];
    if (byte === 0 || scores.size === 3 || scores.pair.subarray(from, to).every(score => score === BAD)) return made;
    return { ...made, pair: scores.pair.slice().fill(BAD, from, to), pairKind: scores.pairKind.slice().fill(0, from, to) };
}

/** The known characters that an encoding has. */
function* scoredIn(encoding: Encoding, known: ReturnType<typeof knownCharacters>, wide: boolean): Generator<Scored> {
    for (const [text, { score: usual, kind }] of known) {
        const score = kind === WIDE_LETTER && !wide ? WIDE_LETTERS : usual;
        const spellings = encoding instanceof TableEncoding ? encoding.table.spellings.get(text) : encoding.units(text)[0];
        for (const bytes of spellings || []) {
            if (bytes.length === 1 || kind !== HALF_WIDTH) yield { bytes, score: bytes.length === 3 ? score + THREE : score, kind };
        }
    }
}

/** The scores of the encodings whose texts can be recognised without naming them: those that are searched. Each of them takes a while. */
export function* usualScores(): Generator<Scores> {
    const known = knownCharacters();
    for (const encoding of SEARCHED) {
        const size = encodeText(encoding, 'あ').length;
        const wide = encodeText(encoding, 'a').length === 2;
        yield scoresOf(encoding, scoredIn(encoding, known, wide), { size, wide });
    }
}

/** All usual scores at once. */
export function allScores() {
    return [...usualScores()];
}

/** The score of rare pairs of bytes of a language other than Japanese, and its signs, which are as frequent as its usual characters. */
const SELDOM = -16;
const USUAL_SIGNS = '、。，．！？：；…—・·「」『』《》〈〉（）“”‘’';

/** Scores in a game's own table: of small Latin letters and the space, as in English texts, and of characters that have no score. */
const LATIN = 45;
const OTHER = 16;

/** A single byte scores less than a pair, as one of 256 and not of 65536, but at least LEAST_ONE; two neighbours at least STRONG_BYTES. */
const ONE_BYTE = -32;
const LEAST_ONE = -8;
const STRONG_BYTES = 20;

/** The scores of a game's own table. Its one-byte characters are scored as if there were no others. */
function ownScores(encoding: TableEncoding, spelled: { text: string, bytes: Uint8Array }[]) {
    const known = knownCharacters();
    const scored = spelled.filter(({ bytes: [first, second] }) => second !== undefined || first !== encoding.end).map(({ text, bytes }) => {
        const it = known.get(text[0]);
        const other = it && it.kind < ASCII ? it.score : OTHER;
        const score = /^[a-z ]/.test(text) ? LATIN : other;
        return { bytes, score, kind: text.length > 1 || text < '\x80' ? 0 : kindOf(text.charCodeAt(0)) };
    });
    const singles = scored.filter(({ bytes }) => bytes.length === 1);
    const share = singles.reduce((sum, { score }) => sum + 2 ** (score / 4 - 16), 0);
    for (const it of singles) it.score = Math.max(it.score + ONE_BYTE - 4 * Math.log2(share), LEAST_ONE);
    return scoresOf(encoding, scored, { own: true, least: STRONG_BYTES });
}

/**
 * The kinds of characters of sets of one byte for the languages of Europe, each with its score in quarter bits: small and large letters of
 * Latin and of other alphabets, signs, and punctuation, spaces, and digits. Frequent are only small letters and spaces.
 */
const SINGLES: [RegExp, number, number][] = [
    [/[\t\n\r]/, LINE_END, -16], [/\p{C}/u, 0, BAD], [/[a-z]/, 1, 13], [/[а-я]/, 3, 13], [/ /, ASCII, 13],
    [/\p{Script=Cyrillic}/u, 4, -16], [/\p{Ll}/u, 1, -2], [/\p{L}/u, 2, -12], [/[\p{P}\p{Zs}\d]/u, ASCII, -12], [/./u, 5, -24],
];

/** By the kind of a text's first character, what is added for it: a large letter scores a little more than nothing there. */
const FIRST_LETTERS = [0, 0, 16, 0, 20];

/** By the kinds of two such characters, in quarter bits: two alphabets, a large letter after a small one, and signs beside letters. */
const AFTER_SINGLES = Array.from({ length: AFTER_KINDS.length }, (_, before) => AFTER_KINDS.map((__, after) => {
    const [first, second] = [Math.min(before, after), Math.max(before, after)];
    if (before === 0) return FIRST_LETTERS[after] || 0;
    if (first === 0 || second > 5) return 0;
    if (second === 5) return -10;
    if (first <= 2 && second >= 3) return -24;
    return after === before + 1 ? -12 : 0;
}));

function spellingsIn({ table }: TableEncoding) {
    return [...table.spellings].flatMap(([text, all]) => all.map(bytes => ({ text, bytes })));
}

/** The scores of a set of one byte. @param asScored returns the character whose score a character has */
function singleScores(encoding: TableEncoding, asScored: (character: string) => string, usual?: Scores) {
    const scored = spellingsIn(encoding).map(({ text, bytes }) => {
        const [, kind, score] = SINGLES.find(([form]) => form.test(asScored(text))) as [RegExp, number, number];
        return { bytes, score, kind };
    });
    return scoresOf(encoding, scored, { own: true, least: STRONG_BYTES, after: AFTER_SINGLES, usual });
}

/**
 * Adds scores in which large and small letters are exchanged, since the font of a game may lack small letters. A text in capitals that is
 * found by them is handled by the usual scores.
 */
export function withCapitals(all: Scores[]) {
    const exchanged = (character: string) => character === character.toUpperCase() ? character.toLowerCase() : character.toUpperCase();
    const singles = all.filter(({ encoding }) => encoding.isSingle);
    return [...all, ...singles.map(it => endedScores(singleScores(it.encoding as TableEncoding, exchanged, it), it.end[0]))];
}

/**
 * The scores of a game's own table, or of a character set for a language other than Japanese. The pairs of bytes that are frequent in its
 * texts score as if all of them were equally frequent.
 */
export function tableScores(encoding: TableEncoding) {
    const { usual } = encoding;
    if (encoding.isSingle) return singleScores(encoding, character => character);
    const spelled = spellingsIn(encoding);
    if (!usual) return ownScores(encoding, spelled);
    const scored = spelled.map(({ text, bytes }) => {
        const code = codeOf(2, bytes, 0);
        const isUsual = (code >= usual.first && code <= usual.last) || USUAL_SIGNS.includes(text);
        const score = isUsual ? usual.score : SELDOM;
        return { bytes, ...bytes.length === 1 ? scoredOne(bytes[0]) : { score, kind: 0 } };
    });
    return scoresOf(encoding, scored, { least: 2 * usual.score });
}

/** The score of two bytes as one character or as two, whichever is more. */
export function strengthOf({ one, pair }: Scores, code: number) {
    return Math.max(pair[code], one[code >> 8] + one[code & 0xFF]);
}

/** The code of the character of several bytes at a place, 0 if there is none. */
export function codeAt({ size, pair }: Scores, bytes: Uint8Array, at: number, end: number) {
    const code = at + size > end ? 0 : codeOf(size, bytes, at);
    return pair[code] === BAD ? 0 : code;
}

/** The code of two bytes, or of a three-byte character of UTF-8, 0 if there is none. */
function codeOf(size: number, bytes: Uint8Array, at: number) {
    const first = bytes[at];
    const second = bytes[at + 1];
    if (size === 2) return first << 8 | second;
    const third = bytes[at + 2];
    const isOne = first >= 0xE2 && first < 0xF0 && (second & 0xC0) === 0x80 && (third & 0xC0) === 0x80;
    return isOne ? (first & 15) << 12 | (second & 63) << 6 | third & 63 : 0;
}

/**
 * For each pair of bytes, as a number with the second byte first, a bit for each encoding in which it is, or begins, a frequent character.
 */
export function seedBits(all: Scores[]) {
    const bits = new Uint8Array(65536);
    for (let code = 0; code < 65536; code++) {
        const begins = (code & 0xC0) === 0x80 && FIRST_OF_THREE.some(([first, last]) => code >= first && code <= last);
        for (const [i, scores] of all.entries()) {
            if (scores.size === 3 ? begins : strengthOf(scores, code) >= STRONG) bits[(code & 0xFF) << 8 | code >> 8] |= 1 << i;
        }
    }
    return bits;
}
