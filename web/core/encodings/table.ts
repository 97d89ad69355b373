// Reads a game's own table of characters (.tbl).

import { bytesOfHex } from '../bytes.js';
import { Fault, remark } from '../faults.js';
import { isTurnDue, letOthersIn } from '../turns.js';
import { TableEncoding, spaceIn, wideSpaceIn, type Encoding } from './encoding.js';

// The filling of a field of fixed width: the bytes after its text that readers do not see.

/** Matches text that readers do not see. */
const UNSEEN = /^[\p{C}\uFFFD]*$/u;

/** Bytes that fill fields, unless they are a visible character of the encoding. */
const UNSEEN_FILLERS = [0x00, 0xFF];

/** A cache: a table of records needs the fillers for each record. */
const known: WeakMap<Encoding, Uint8Array[]> = new WeakMap();

/** The fillers of an encoding, each with the bytes of one character: its spaces, the byte that ends texts, and 00 and FF. */
function fillersOf(encoding: Encoding) {
    const cached = known.get(encoding);
    if (cached) return cached;
    const fillers = [spaceIn(encoding), wideSpaceIn(encoding)].flatMap(bytes => bytes || []);
    if (encoding.end) fillers.push(Uint8Array.of(encoding.end));
    for (const byte of UNSEEN_FILLERS) {
        const bytes = Uint8Array.of(byte, byte);
        const { size, text } = encoding.characterAt(bytes, 0);
        if (UNSEEN.test(text)) fillers.push(bytes.subarray(0, size));
    }
    known.set(encoding, fillers);
    return fillers;
}

/** The size of the filler at a place, 0 if there is none. `to` is where the field ends. */
export function fillerSizeAt(encoding: Encoding, bytes: Uint8Array, at: number, to: number) {
    for (const filler of fillersOf(encoding)) {
        if (filler[0] !== bytes[at] || at + filler.length > to) continue;
        if (filler.every((byte, k) => bytes[at + k] === byte)) return filler.length;
    }
    return 0;
}

/** How many bytes of a field come before its filling. */
export function sizeBeforeFilling(encoding: Encoding, field: Uint8Array) {
    let size = 0;
    for (let at = 0; at < field.length;) {
        const filler = fillerSizeAt(encoding, field, at, field.length);
        at += filler || encoding.characterAt(field, at).size;
        if (filler === 0) size = Math.min(at, field.length);
    }
    return size;
}

/**
 * The end of the first fillers after a text that reach a place; the end of all if they do not reach it.
 * @param from where the text ends
 * @param to where the field ends
 * @param wanted the place
 */
export function endOfFilling(encoding: Encoding, bytes: Uint8Array, from: number, to: number, wanted: number = to) {
    let end = from;
    for (let size = 1; size > 0 && end < wanted; end += size) size = fillerSizeAt(encoding, bytes, end, to);
    return end;
}

/** The most bytes and characters of an entry, so that the cost of a line is bounded. */
const LONGEST_KEY = 8;
const LONGEST_VALUE = 64;

/** How many characters of a line are read: more than a valid entry has. */
const LONGEST_LINE = 4 * (LONGEST_KEY + LONGEST_VALUE);

/** The most bytes of parameters of an entry. */
const MOST_PARAMETERS = 8;

/** Blank lines and comments. */
const SILENT = /^(\s*$|[;#]|\/\/)/;

/**
 * Lines for tools that dump and insert scripts, which are ignored here: the name of a table, a change to another table, the marks of
 * Thingy, bytes without a text, and parameters with formats.
 */
const OTHER_TOOLS = /^([@!([{]|[$*/]?([0-9A-Fa-f]{2})+=$|\$[0-9A-Fa-f]+=.*,%)/;

/**
 * The encoding that the text of a `.tbl` file defines, in lines HEX=TEXT. `*HEX` is a line end, `/HEX=TEXT` or `/HEX` ends a text, and in
 * `$HEX=TEXT,N` the N bytes after it are its parameters. Blank lines and comments after `;`, `#`, or `//` are skipped; `leftOut` has the
 * numbers of lines for other tools, which are ignored. A line has at most 8 bytes and a text of 64 characters. Throws a Fault that names
 * the line.
 */
export function tableEncoding(file: string) {
    const made = emptyTable();
    for (const [line, number] of numberedLines(file)) readLine(made, line, number);
    return whole(made);
}

/** As `tableEncoding`, with turns for others in between. */
export async function tableInTurns(file: string) {
    const made = emptyTable();
    for (const [line, number] of numberedLines(file)) {
        if (isTurnDue()) await letOthersIn();
        readLine(made, line, number);
    }
    return whole(made);
}

function emptyTable() {
    return new TableEncoding({ name: 'the table' }, () => {});
}

/** The beginnings of the lines of a table, and their numbers. */
function* numberedLines(file: string): Generator<[string, number]> {
    for (let at = 0, number = 1, end = 0; end >= 0; at = end + 1, number++) {
        end = file.indexOf('\n', at);
        const line = file.slice(at, Math.min(end < 0 ? file.length : end, at + LONGEST_LINE));
        yield [line.endsWith('\r') ? line.slice(0, -1) : line, number];
    }
}

function readLine(made: TableEncoding, line: string, number: number) {
    if (SILENT.test(line)) return;
    if (OTHER_TOOLS.test(line)) made.leftOut.push(number);
    else addLine(made, line, number);
}

/** @param made of all lines */
function whole(made: TableEncoding) {
    if (made.leftOut.length > 0 && made.table.spellings.size === 0) throw new Fault('text/empty-table', {});
    return made;
}

/** Adds a line of a table. Throws a Fault if it is invalid. `line` is its number. */
function addLine(made: TableEncoding, written: string, line: number) {
    const [, sign, digits, given] = /^([*/$]?)((?:[0-9A-Fa-f]{2})+)(?:=(.+))?$/u.exec(written) || [];
    const [, named = given, number = 0] = sign === '$' && /^(.+),(\d{1,2})$/u.exec(given || '') || [];
    const text = named || (sign === '*' ? '\n' : '');
    if (digits && digits.length > 2 * LONGEST_KEY) throw new Fault('text/long-bytes', { line, most: LONGEST_KEY });
    if (!digits || (!text && sign !== '/')) throw new Fault('text/no-pair', { line });
    if (text.length > LONGEST_VALUE) throw new Fault('text/long-text', { line, most: LONGEST_VALUE });
    if (Number(number) > MOST_PARAMETERS) throw new Fault('text/many-parameters', { line, most: MOST_PARAMETERS });
    const bytes = bytesOfHex(digits);
    if (sign === '/' && bytes.length === 1) [made.end] = bytes;
    if (text !== '' && !made.table.add(bytes, text, Number(number))) throw new Fault('text/twice', { line, digits });
}

/** A remark on the ignored lines of a table, null if there are none. */
export function linesLeftOut({ leftOut = [] }: Encoding) {
    return leftOut.length === 0 ? null : remark('text/lines-left-out', { lines: leftOut });
}
