// Texts in the cells of a table, in which bytes that are not a plain character are written as codes, such as {00}.

import { bytesOfHex, hexText, sameBytes } from '../bytes.js';
import { encodeText, usualBytes, type Encoding } from '../encodings/index.js';
import { Fault, failedBy, type RowName } from '../faults.js';
import { collectedInTurns, isTurnDue, letOthersIn, type Signal } from '../turns.js';
import { partsAlike } from './matching.js';

// Finds where characters begin in bytes of a disc.

/** How far back to look for a character boundary, in bytes. */
export const LOOKED_BACK = 2048;

/** The most bytes of a character. */
export const LONGEST_CHARACTER = 4;

/**
 * How many bytes from a place on belong to a character that begins before it; 0 if a character begins there. Characters are read from after
 * the last byte before the place that must end a character. If LOOKED_BACK bytes have no such byte, this is unknown, and the result is 0.
 * @param at the place, with LOOKED_BACK or more bytes before it, or as many as there are
 */
export function bytesInside(encoding: Encoding, bytes: Uint8Array, at: number) {
    let from = at;
    while (from > 0 && at - from < LOOKED_BACK && encoding.goesOn(bytes[from - 1])) from -= 1;
    if (at - from === LOOKED_BACK) return 0;
    while (from < at) from += encoding.characterAt(bytes, from).size;
    return from - at;
}

/** The characters of bytes as texts, each with its place and its size in bytes. `from` is the place of the first one. */
export function* charactersFrom(encoding: Encoding, bytes: Uint8Array, from: number = 0) {
    for (let at = from; at < bytes.length;) {
        const found = encoding.characterAt(bytes, at);
        yield { at, ...found };
        at += found.size;
    }
}

// Keeps what was computed of the texts of a PO file: the places of an entry have the same texts.

/** The most characters of texts with kept results. If there are more, all results are dropped, and computed again if needed. */
const MOST_REMEMBERED = 1 << 21;

/** What was computed of texts. */
export class KeptTexts {
    /** By text, and by what it is. */
    texts = new Map<string, Map<string, Promise<any>>>();
    characters = 0;

    /** What was computed of a text, or what `make` computes now. */
    of<T>(text: string, what: string, make: () => Promise<T>): Promise<T> {
        const known = this.texts.get(text)?.get(what);
        if (known !== undefined) return known;
        if (this.characters > MOST_REMEMBERED) {
            this.texts.clear();
            this.characters = 0;
        }
        const all = this.texts.get(text) || new Map();
        const made = make();
        this.texts.set(text, all.set(what, made));
        this.characters += text.length;
        return made;
    }
}

/** What `make` computes of a text of a row. It is computed once if other rows have the same text. */
export function keptForRow<T>({ kept }: { kept?: KeptTexts }, text: string, what: string, make: () => Promise<T>) {
    return kept ? kept.of(text, what, make) : make();
}

/**
 * A row with its texts. `fill` is the code of the filler if it is a record of fixed width, and `kept` what was computed of its texts if
 * other rows have the same.
 */
export type CodedRow = RowName & { encoding: string, text: string, fresh: string, fill?: string, kept?: KeptTexts };
/**
 * A code that new texts leave out, as its digits; how often it is left out in all, in how many rows, and the names of the first of these.
 */
export type LeftCode = { code: string, count: number, rows: number, first: RowName[] };

/** Characters that are written as codes: invisible ones, braces, and bytes without a character. */
const CODED = /[\p{C}\u2028\u2029\uFFFD{}]/u;

/** Characters that are written as codes at the beginning of a cell: a spreadsheet would remove a quote, and run the others as a formula. */
const CODED_FIRST = /^["=+\-@]/;

/** The code of such a character at the beginning of a cell, which also may be one of UTF-16. */
const CODE_FIRST = /^\{(?:00)?(22|2[BD]|3D|40)(?:00)?\}/i;

/** The most bytes of one of these characters: two in UTF-16. */
const LONGEST_SIGN = 2;

/** Matches most texts without such characters in a tenth of the time. */
const PLAIN = /^(?![=+@-])[\x20!\x23-\x7A|~\u3001-\u3003\u300C-\u300F\u3041-\u3096\u30A1-\u30FC\u4E00-\u9FA5\uFF01-\uFF5E]*$/;

const CODE = /\{((?:[0-9A-Fa-f]{2})+)\}/;

/** Text that may be meant as a code, also with spaces. It is a code only if it has pairs of hexadecimal digits. */
const LIKE_CODE = /\{(?:[0-9A-Za-z]{1,16}|[0-9A-Fa-f]{2}(?: +[0-9A-Fa-f]{1,2}){1,15} *)\}/g;

/** The error values that spreadsheets write for a formula that they cannot evaluate. */
const FORMULA_ERROR = /^(Err:\d{3}|#(NAME\?|(REF|VALUE|DIV\/0|NUM|NULL|ERROR|SPILL|CALC|FIELD|BLOCKED|CONNECT|UNKNOWN|BUSY)!|N\/A))$/;

const CONTROLS = /\p{Cc}/gu;

/** The most characters of a cell that is read as a text, and whose codes are counted. */
export const LONGEST_TEXT = 1 << 16;

/** How many of the rows that leave out a code are listed. */
const FIRST_ROWS = 5;

/**
 * The parts of a cell, as `Encoding.units` returns them; a code is read as its bytes. Throws a Fault, `text`, that names a character
 * without bytes.
 */
export function unitsOfCell(encoding: Encoding, cell: string) {
    return [...partsOfCell(encoding, cell)];
}

/** Returns what unitsOfCell does for one of the texts of a row, computed once for all rows with the same texts. Other work gets turns. */
export function unitsOfRow(row: CodedRow, encoding: Encoding, cell: string, signal?: Signal) {
    return keptForRow(row, cell, `units ${encoding.name}`, () => collectedInTurns(partsOfCell(encoding, cell), signal));
}

/**
 * The bytes of the new text of a row, computed once for all rows with the same texts. Other work gets turns in between. Throws a Fault if
 * the text must be a mistake, or has a character that the encoding lacks.
 */
export function newBytesOf(row: CodedRow, encoding: Encoding, signal?: Signal) {
    return keptForRow(row, row.fresh, `bytes ${encoding.name}`, async () => {
        assertMeant(encoding, row.fresh);
        return usualBytes(await unitsOfRow(row, encoding, row.fresh, signal));
    });
}

function* partsOfCell(encoding: Encoding, cell: string): Generator<Uint8Array[], void, undefined> {
    for (const [i, part] of cell.split(CODE).entries()) {
        if (i % 2 === 1) yield [bytesOfHex(part)];
        else yield* partsAlike(encoding, part);
    }
}

/** The parts of a cell: every second one, from the second on, is a code. */
export function partsWithCodes(cell: string) {
    return cell.split(CODE).map((part, i) => i % 2 === 1 ? `{${part}}` : part);
}

/** The bytes of a cell that is one code, or null. */
export function bytesOfCode(cell: string) {
    const [before, digits, after] = cell.split(CODE, 3);
    return digits !== undefined && before === '' && after === '' ? bytesOfHex(digits) : null;
}

/** Whether two cells have the same text. In tables of version 1.3 a first character is not a code. */
export function haveSameText(a: string, b: string) {
    const [plainA, plainB] = [a, b].map(cell => cell.replace(CODE_FIRST, (_, digits) => String.fromCharCode(parseInt(digits, 16))));
    return plainA === plainB;
}

/**
 * Throws a Fault if a new text must be a mistake: the error value of a formula, or braces that look like a mistyped code and are not a sign
 * of the game's own table.
 */
export function assertMeant(encoding: Encoding, cell: string) {
    if (FORMULA_ERROR.test(cell)) throw new Fault('list/formula', { cell });
    for (const [code] of cell.matchAll(LIKE_CODE)) {
        if (CODE.test(code) || bytesOfSign(encoding, code, 1) !== null) continue;
        throw new Fault('list/no-code', { code });
    }
}

/** The bytes of a sign in an encoding, null if it has none, or more than `most` parts. */
function bytesOfSign(encoding: Encoding, sign: string, most: number) {
    try {
        const units = encoding.units(sign);
        return units.length > most ? null : usualBytes(units);
    } catch (error) {
        if (!failedBy(error, 'text')) throw error;
        return null;
    }
}

/** Yields the control characters of a part of a cell that has no codes, each as a code. */
function* controlsOf(encoding: Encoding, part: string) {
    for (const it of part.match(CONTROLS) || []) yield hexText(bytesOfSign(encoding, it, 1) || new Uint8Array(0));
}

/**
 * Yields the codes of a cell, and its control characters, which were typed or pasted instead of codes. A code at its beginning does not
 * count if it is a character that is written as a code only there.
 * @param encodings that the cell may be in; the first one decides how many bytes a code has
 */
function* codesOf(encodings: Encoding[], cell: string): Generator<string> {
    const [encoding] = encodings;
    const parts = cell.split(CODE);
    for (const [i, part] of parts.entries()) {
        if (i % 2 === 0) yield* controlsOf(encoding, part);
        else {
            const bytes = bytesOfHex(part);
            const isFirst = i === 1 && parts[0] === '' && bytes.length <= LONGEST_SIGN;
            if (isFirst && encodings.some(it => CODED_FIRST.test(it.text(bytes)))) continue;
            for (const { at, size } of charactersFrom(encoding, bytes)) yield hexText(bytes.subarray(at, at + size));
        }
    }
}

/** How often each code occurs in one of the texts of a row. */
function codeCounts(encodings: Encoding[], row: CodedRow, cell: string, signal?: Signal) {
    return keptForRow(row, cell, `codes ${encodings.map(({ name }) => name).join()}`, async () => {
        const counts: Map<string, number> = new Map();
        for (const code of codesOf(encodings, cell)) {
            counts.set(code, (counts.get(code) || 0) + 1);
            if (isTurnDue()) await letOthersIn(signal);
        }
        return counts;
    });
}

/** How often a row's new text leaves out each code of its old one. */
async function codesMissing(encodings: Encoding[], row: CodedRow, signal?: Signal) {
    const { text, fresh, fill = '' } = row;
    const isEmptyRecord = fill !== '' && bytesOfCode(text) !== null;
    if (isEmptyRecord || Math.max(text.length, fresh.length) > LONGEST_TEXT) return [];
    const old = await codeCounts(encodings, row, text, signal);
    const left = old.size > 0 ? await codeCounts(encodings, row, fresh, signal) : old;
    return Array.from(old, ([code, count]) => ({ code, count: count - (left.get(code) || 0) }));
}

/**
 * The codes that the new texts of rows leave out, each once, in the order of their first rows.
 * @param encodingsFor the encodings that a row may be in, by the encoding name in the row, or ''
 */
export async function codesLeftOut(rows: CodedRow[], encodingsFor: (name: string) => Encoding[], signal?: Signal): Promise<LeftCode[]> {
    const left: Map<string, LeftCode> = new Map();
    for (const row of rows) {
        if (isTurnDue()) await letOthersIn(signal);
        if (!row.kept && !CODED.test(row.text)) continue;
        for (const { code, count } of await codesMissing(encodingsFor(row.encoding), row, signal)) {
            if (count <= 0) continue;
            const known = left.get(code) || { code, count: 0, rows: 0, first: [] };
            left.set(code, known);
            known.count += count;
            known.rows += 1;
            if (known.rows <= FIRST_ROWS) known.first.push(nameOf(row));
        }
    }
    return [...left.values()];
}

function nameOf({ list, unit, number, place }: CodedRow) {
    return { list, unit, number, place };
}

/**
 * The control characters that were typed into new texts although no old text has their codes, such as a line feed in a PO editor.
 * @param encodingsFor the encodings that a row may be in, by the encoding name in the row, or ''
 */
export async function controlsTyped(rows: CodedRow[], encodingsFor: (name: string) => Encoding[], signal?: Signal) {
    /** Their codes. */
    const typed: Set<string> = new Set();
    for (const row of rows) {
        if (isTurnDue()) await letOthersIn(signal);
        if (row.fresh.length > LONGEST_TEXT || (!row.kept && row.fresh.search(CONTROLS) < 0)) continue;
        const [encoding] = encodingsFor(row.encoding);
        const controls = await keptForRow(row, row.fresh, 'controls', async () => [...new Set(row.fresh.match(CONTROLS))].join(''));
        for (const code of controlsOf(encoding, controls)) typed.add(code);
    }
    for (const row of typed.size === 0 ? [] : rows) {
        if (isTurnDue()) await letOthersIn(signal);
        if (row.text.length > LONGEST_TEXT || (!row.kept && !CODED.test(row.text))) continue;
        for (const code of (await codeCounts(encodingsFor(row.encoding), row, row.text, signal)).keys()) typed.delete(code);
    }
    return Array.from(typed, code => `{${code}}`);
}

/**
 * Formats bytes as a cell. A brace is written as a code too, and so is a first character that a spreadsheet would remove or run, and a
 * character after a code that would come back with other bytes, which could form a different character with it.
 * @param known their text, if it is known
 */
export function cellOf(encoding: Encoding, bytes: Uint8Array, known?: string) {
    const whole = known || encoding.text(bytes);
    if (PLAIN.test(whole) || (!CODED.test(whole) && !CODED_FIRST.test(whole))) return whole;
    const parts = [];
    let isAfterCode = false as boolean;
    for (const { at, size, text, isCell } of charactersFrom(encoding, bytes)) {
        const own = bytes.subarray(at, at + size);
        const isSpecial = (!isCell && CODED.test(text)) || (at === 0 && CODED_FIRST.test(text));
        isAfterCode = isSpecial || (isAfterCode && !isCell && !sameBytes(encodeText(encoding, text), own));
        parts.push(isAfterCode ? `{${hexText(own)}}` : text);
    }
    return parts.join('');
}

/** The first character, and the first byte in all encodings but a game's own table, that is not a control code. */
const LEAST_SHOWN = 0x20;

/** How many bytes the control codes have that end a text. Other bytes without a character may be signs that the game shows. */
export function closingCodesIn(encoding: Encoding, bytes: Uint8Array) {
    let codes = 0;
    for (const { at, size, text, isCell } of charactersFrom(encoding, bytes)) {
        const isUnknown = text === '\uFFFD' && size === 1 && bytes[at] < LEAST_SHOWN;
        codes = !isCell && (isUnknown || text.charCodeAt(0) < LEAST_SHOWN) ? codes + size : 0;
    }
    return codes;
}

/**
 * Formats a text that is only displayed, such as a hit, as a cell: its first character is written as a code if a spreadsheet would run it.
 */
export function shownCell(text: string) {
    return /^[=+\-@\t\r]/.test(text) ? `{${hexText(Uint8Array.of(text.charCodeAt(0)))}}${text.slice(1)}` : text;
}

// Finds characters of new texts that no old text has: the font of a game may lack them.

const CODE_IN_TEXT = /\{(?:[0-9A-Fa-f]{2})+\}/g;

/** Characters without a picture: spaces, controls, and marks that belong to the character before them. */
const WITHOUT_PICTURE = /^[\s\p{C}\p{M}]$/u;

function besideCodes(cell: string) {
    return cell.includes('{') ? cell.replace(CODE_IN_TEXT, '') : cell;
}

/** Collects the characters of old and new texts. */
export class Glyphs {
    /** The characters of old texts. */
    old = new Set<string>();
    /** The characters of new texts. */
    fresh = new Set<string>();
    /** The texts of the last row: the places of an entry of a PO file have the same ones. */
    last = { text: '', fresh: '' };

    add(row: { text: string, fresh: string }) {
        const { text, fresh } = row;
        if (Math.max(text.length, fresh.length) > LONGEST_TEXT || (text === this.last.text && fresh === this.last.fresh)) return;
        this.last = { text, fresh };
        for (const character of besideCodes(text)) this.old.add(character);
        for (const character of besideCodes(fresh)) this.fresh.add(character);
    }

    /** The characters that only new texts have, in the order in which they occur. */
    missing() {
        return this.newIn(this.fresh);
    }

    /** The characters of a new text that no old text has, each once, in the order in which they occur. */
    missingIn(fresh: string) {
        return fresh.length > LONGEST_TEXT ? [] : this.newIn(new Set(besideCodes(fresh)));
    }

    /** @param characters of new texts */
    newIn(characters: Set<string>) {
        return [...characters].filter(character => !this.old.has(character) && !WITHOUT_PICTURE.test(character));
    }
}
