// Two-byte character sets. Engines decode some pairs differently, so each set is the pairs that all decode alike, and others by their
// codes.

import { addAscii, addCodes, addPairs, numbersOf, pairsOf, type CharacterTable } from './characters.js';
import { TableEncoding } from './encoding.js';
import { PAIRS } from './pairs.js';

// Two-byte character sets that engines decode differently: first the pairs that all decode alike, then others as in the Encoding Standard.

/**
 * Adds ASCII and a character set.
 * @param label of the Encoding Standard
 * @param codes all that the set has room for; of several for one character, the first is the usual one
 */
function addStandard(table: CharacterTable, label: string, codes: number[]) {
    const { same, own } = PAIRS[label];
    addAscii(table);
    addPairs(table, label, codes.filter(code => same.some(([first, last]) => code >= first && code <= last)));
    for (const [first, characters] of own) addCodes(table, codes.filter(code => code >= first).sort((a, b) => a - b), characters);
}

// Big5 as used in Taiwan, with the rows that ETEN added. The rows that Hong Kong has before A1 and after F9 are not included.

/** Of a character with two codes, the first is the usual one, except for these numerals, which are kanji too. */
const NUMERALS = [0xA2CC, 0xA2CE];
const CODES = pairsOf(numbersOf([0xA1, 0xF9]), numbersOf([0x40, 0x7E], [0xA1, 0xFE]));

export const BIG5 = new TableEncoding({
    name: 'Big5', aliases: ['CP950', 'MS950'], usual: { first: 0xA440, last: 0xC67E, score: 14 },
}, table => {
    addStandard(table, 'big5', [...CODES.filter(code => !NUMERALS.includes(code)), ...NUMERALS]);
});

// The characters that Japanese character sets share.

/** Signs with two code points in Unicode: the one that people type, and the one that decoders return. */
const ALIKE = { '—': '―', '〜': '～', '−': '－', '‖': '∥', '¢': '￠', '£': '￡', '¬': '￢' };

/**
 * Adds the half-width katakana.
 * @param before bytes before each
 */
function addHalfWidth(table: CharacterTable, before: number[]) {
    for (const code of numbersOf([0xA1, 0xDF])) {
        table.add(Uint8Array.of(...before, code), String.fromCharCode(0xFF61 + code - 0xA1));
    }
}

function addAlike(table: CharacterTable) {
    for (const [text, other] of Object.entries(ALIKE)) table.addAlike(text, other);
}

// Shift-JIS as Windows defines it.

/** Of two spellings of a kanji, Windows writes IBM's, in rows FA to FC. NEC's, in ED and EE, therefore come last. */
const LEADS = numbersOf([0x81, 0x9F], [0xE0, 0xEC], [0xEF, 0xFC], [0xED, 0xEE]);
const NAMES = {
    name: 'CP932', label: 'Shift-JIS (CP932)', aliases: ['Shift-JIS', 'SJIS', 'MS932', 'Windows-31J'], searched: true,
};

export const CP932 = new TableEncoding(NAMES, table => {
    addAscii(table);
    addHalfWidth(table, []);
    addPairs(table, 'shift_jis', pairsOf(LEADS, numbersOf([0x40, 0x7E], [0x80, 0xFC])));
    addAlike(table);
});

// EUC-JP.

const PAIR_CODES = pairsOf(numbersOf([0xA1, 0xFE]), numbersOf([0xA1, 0xFE]));

/** EUC-JP: spellings of two bytes come before those of three (8F, JIS X 0212). */
export const EUC_JP = new TableEncoding({ name: 'EUC-JP', searched: true }, table => {
    addAscii(table);
    addHalfWidth(table, [0x8E]);
    addPairs(table, 'euc-jp', PAIR_CODES);
    addPairs(table, 'euc-jp', PAIR_CODES, [0x8F]);
    addAlike(table);
});

// EUC-KR, with the syllables that Windows added in CP949.

const TRAILS = numbersOf([0x41, 0x5A], [0x61, 0x7A], [0x81, 0xFE]);
const SYLLABLES = [0xAC00, 0xD7A3];

export const EUC_KR = new TableEncoding({
    name: 'EUC-KR', aliases: ['CP949', 'UHC', 'KS X 1001'], usual: { first: 0xB0A1, last: 0xC8FE, score: 19 },
}, table => {
    addStandard(table, 'euc-kr', pairsOf(numbersOf([0xA1, 0xFE]), numbersOf([0xA1, 0xFE])));
    // The syllables that KS X 1001 lacks are in order, at codes that it does not use.
    const free = [...pairsOf(numbersOf([0x81, 0xA0]), TRAILS), ...pairsOf(numbersOf([0xA1, 0xC6]), TRAILS.filter(trail => trail < 0xA1))];
    addCodes(table, free, numbersOf(SYLLABLES).map(code => String.fromCharCode(code)).filter(text => !table.spellings.has(text)));
});

// GBK, with the two-byte characters that GB 18030 added.

export const GBK = new TableEncoding({
    name: 'GBK', aliases: ['CP936', 'MS936', 'GB2312', 'EUC-CN'], usual: { first: 0xB0A1, last: 0xD7F9, score: 16 },
}, table => {
    addStandard(table, 'gb18030', pairsOf(numbersOf([0x81, 0xFE]), numbersOf([0x40, 0x7E], [0x80, 0xFE])));
});
