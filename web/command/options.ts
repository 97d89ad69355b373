// The options of the command line, a row for each. Help, the man page, and the completions are generated from these rows.

import { bytesOfHex } from '../core/bytes.js';
import { LAST_TRACK } from '../core/disc/views.js';
import { ENCODINGS, encodingOf } from '../core/encodings/views.js';
import { Fault } from '../core/faults.js';
import { LAST_BASE, LAST_BLOCK, USER_SIZE } from '../core/module/index.js';
import { LAYOUT_LIMITS } from '../core/tasks/index.js';
import { ownFault } from '../sentences/index.js';

// Parses numbers of the command line.

/**
 * Returns the parser of a decimal number, which throws a Fault if the number is not within its limits.
 * @param name of the value, for the message
 */
function numberFrom(name: string, least: number, most: number) {
    return (text: string) => {
        const number = /^[0-9]+$/.test(text) ? Number(text) : NaN;
        if (number >= least && number <= most) return number;
        throw ownFault(`${name} must be a number from ${least} to ${most}, not '${text}'`);
    };
}

/** Parses the place of a user byte. Throws a Fault. */
export function placeGiven(block: string, offset: string) {
    return { block: numberFrom('a block', 0, LAST_BLOCK)(block), offset: numberFrom('an offset', 0, USER_SIZE - 1)(offset) };
}

// Suggests a known word for a word that is not known.

/** The maximum number of letters that may be wrong, missing, or too many. */
const MOST_WRONG = 2;

/** Longer words are not compared: that would take too long, and they are not mistyped words. */
const LONGEST_COMPARED = 256;

/** The edit distance of two words: the number of letters to change, remove, insert, or exchange with the next letter. */
function distance(one: string, other: string) {
    let before = [] as number[];
    let last = Array.from({ length: other.length + 1 }, (_, k) => k);
    for (let i = 1; i <= one.length; i++) {
        const row = [i];
        for (let k = 1; k <= other.length; k++) {
            const changed = last[k - 1] + Number(one[i - 1] !== other[k - 1]);
            const isExchanged = i > 1 && k > 1 && one[i - 1] === other[k - 2] && one[i - 2] === other[k - 1];
            row[k] = Math.min(changed, last[k] + 1, row[k - 1] + 1, isExchanged ? before[k - 2] + 1 : Infinity);
        }
        before = last;
        last = row;
    }
    return last[other.length];
}

/** The known word that was probably meant, or null. It is the same regardless of capitals, or has one or two wrong letters. */
export function nearest(word: string, known: Iterable<string>) {
    const plain = word.toLowerCase();
    let best = null as string | null;
    let least = Math.min(MOST_WRONG, Math.floor(word.length / 2)) + 1;
    for (const it of known) {
        if (Math.abs(it.length - word.length) > MOST_WRONG || word.length > LONGEST_COMPARED) continue;
        const wrong = it.toLowerCase() === plain ? 0 : distance(plain, it.toLowerCase());
        if (wrong >= least) continue;
        best = it;
        least = wrong;
    }
    return best;
}

/** Other words for what jobs do. */
const OTHER_WORDS = new Map([['rebuild', 'merge'], ['fix', 'merge'], ['verify', 'info'], ['hash', 'info'],
    ['patch', 'apply'], ['compare', 'diff'], ['search', 'find'], ['dump', 'texts'], ['collection', 'scan']]);

/** A question at the end of a message, '' if there is no suggestion. */
export function didYouMean(word: string, known: Iterable<string>) {
    const other = OTHER_WORDS.get(word.toLowerCase()) || '';
    const meant = [...known].includes(other) ? other : nearest(word, known);
    return meant === null ? '' : `; did you mean ${meant}?`;
}

/**
 * An option: its words; the name of its value, '' if it takes none, and the parser of it, which returns a text by default; what it does;
 * the values that exist; whether it may be given several times; the options that it excludes; and those that it needs, by the job.
 */
type OptionRow = { word: string, short?: string, value: string, does: string, parse?: (text: string) => unknown,
    values?: readonly string[], repeated?: boolean, excludes?: readonly string[], needs?: Readonly<Record<string, string>> };

const NAMES = ENCODINGS.map(({ name }) => name);

function fillOf(text: string): Uint8Array | 'end' {
    if (text === 'end') return text;
    if (!/^([0-9A-Fa-f]{2})+$/.test(text)) throw ownFault(`--fill needs two hexadecimal digits for each byte, or end, not '${text}'`);
    return bytesOfHex(text);
}

function endOf(text: string) {
    if (!/^[0-9A-Fa-f]{2}$/.test(text)) throw ownFault(`--end needs two hexadecimal digits, such as FF, not '${text}'`);
    return parseInt(text, 16);
}

function knownEncoding(name: string) {
    if (encodingOf(name) === null) throw new Fault('list/no-encoding', { name, known: NAMES });
    return name;
}

const ROWS = {
    base: {
        word: '--base', value: 'N', does: `the block number of the first sector, 0 to ${LAST_BASE}`, excludes: ['first'],
        parse: (text: string) => numberFrom('--base', 0, LAST_BASE)(text.replace(/^\+(?=\d)/, '')),
    },
    track: {
        word: '--track', value: 'N', does: 'use track N, a data track, instead of the first data track',
        parse: numberFrom('--track', 1, LAST_TRACK),
    },
    encoding: {
        word: '--encoding', value: 'NAME', does: `the encoding of text: ${NAMES.join(', ')}`, values: NAMES, excludes: ['table'],
        parse: knownEncoding,
    },
    table: { word: '--table', value: 'FILE', does: "a game's own character table (.tbl)" },
    end: {
        word: '--end', value: 'HH', does: 'the byte that ends each text; the default is what ends most texts of a file',
        parse: endOf,
    },
    fill: {
        word: '--fill', value: 'HEX', does: 'pad with these bytes, such as 20 or 8140, or with `end`, the byte that ends a text',
        parse: fillOf,
    },
    all: { word: '--all', value: '', does: 'replace every occurrence (at most 1000000)' },
    inside: { word: '--inside', value: '', does: 'also replace hits that may begin in the middle of a character' },
    loose: { word: '--loose', value: '', does: 'ignore case and the width of characters' },
    list: {
        word: '--list', value: 'FILE', does: 'read translations from this table or PO file; may be repeated', repeated: true,
        excludes: ['all', 'inside', 'loose'],
    },
    pointers: {
        word: '--pointers', value: 'FILE', does: 'write the tables of pointers that were found to this new file',
        excludes: ['file', 'check', 'every', 'lines'], needs: { replace: 'list' },
    },
    keep: {
        word: '--keep', value: 'ROW', does: 'leave the text of this row of the table in place; may be repeated', repeated: true,
        parse: numberFrom('--keep', 1, LAST_BLOCK), needs: { replace: 'pointers' },
    },
    file: {
        word: '--file', value: 'FILE', does: 'use this ordinary file instead of an image', excludes: ['base', 'track', 'in'],
        needs: { replace: 'list' },
    },
    check: {
        word: '--check', value: '', does: 'check tables of translations without an image',
        excludes: ['list', 'file', 'all', 'inside', 'loose', 'end', 'fill', 'partial', 'track', 'base', 'output'],
    },
    po: { word: '--po', value: '', does: 'print a gettext PO file instead of TSV' },
    csv: { word: '--csv', value: '', does: 'print CSV, for spreadsheets, instead of TSV', excludes: ['po'] },
    lines: { word: '--lines', value: '', does: 'print a row for each line of text, without its line ending' },
    any: { word: '--any', value: '', does: 'print any run of characters in the file of --in or --file', excludes: ['every'] },
    in: { word: '--in', value: 'PATH', does: 'search only this file or directory; may be repeated', repeated: true },
    every: {
        word: '--every', value: 'N', does: 'print a row for each record; the distance of records is N bytes',
        parse: numberFrom('--every', ...LAYOUT_LIMITS.every), excludes: ['lines', 'min'], needs: { texts: 'length' },
    },
    length: {
        word: '--length', value: 'N', does: 'the size in bytes of the text field that begins each record',
        parse: numberFrom('--length', ...LAYOUT_LIMITS.length), needs: { texts: 'every' },
    },
    skip: {
        word: '--skip', value: 'N', does: 'how many bytes precede the first record; the default is 0',
        parse: numberFrom('--skip', ...LAYOUT_LIMITS.skip), needs: { texts: 'every' },
    },
    min: {
        word: '--min', value: 'N', does: 'print text of N characters or more; the default is 2', parse: numberFrom('--min', 1, LAST_BLOCK),
    },
    limit: {
        word: '--limit', value: 'N', does: 'print the first N hits; the default is 1000', parse: numberFrom('--limit', 0, LAST_BLOCK),
        needs: { texts: 'every' },
    },
    first: { word: '--first', value: 'BLOCK', does: 'another name for --base', parse: numberFrom('--first', 0, LAST_BASE) },
    parity: { word: '--parity', value: '', does: 'first correct Mode 1 sectors by their own P and Q, if their EDC confirms it' },
    carry: { word: '--carry', value: '', does: 'patch damaged sectors too, and keep their damage' },
    long: { word: '--long', value: '', does: 'accept a script with more patches or bytes than cdpatch does' },
    skipDamaged: { word: '--skip-damaged', value: '', does: 'leave out blocks that are damaged in NEW', excludes: ['partial'] },
    partial: { word: '--partial', value: '', does: 'leave out differences that a script cannot express', needs: { replace: 'list' } },
    fields: {
        word: '--fields', value: '', does: 'print the fields that differ instead of a script', excludes: ['skipDamaged', 'partial'],
    },
    output: { word: '-o', value: 'FILE', does: 'write to this new file; - is standard output' },
    missing: {
        word: '--missing', value: '', does: 'list the games of the DAT that are missing or incomplete', needs: { scan: 'dat' },
    },
    dat: { word: '--dat', value: 'FILE', does: 'a DAT of known dumps (Logiqx XML); may be repeated', repeated: true },
    json: { word: '--json', value: '', does: 'print one JSON object per line, with all hashes; see cdscript(1)', excludes: ['resume'] },
    resume: { word: '--resume', value: 'FILE', does: 'append to this list; check only files that are new or changed' },
    help: { word: '--help', short: '-h', value: '', does: 'print help' },
    version: { word: '--version', short: '-V', value: '', does: 'print the version' },
    notices: { word: '--notices', value: '', does: 'print the licences of third-party code' },
    forms: { word: '--forms', value: '', does: 'print all jobs and options as JSON' },
} as const;

export type OptionName = keyof typeof ROWS;
type ValueOf<Row> = Row extends { repeated: true, parse: (text: string) => infer Value } ? Value[] : Row extends { repeated: true }
    ? string[] : Row extends { parse: (text: string) => infer Value } ? Value : Row extends { value: '' } ? boolean : string;
/** The options that were given. */
export type Options = { -readonly [Name in OptionName]?: ValueOf<(typeof ROWS)[Name]> };

export const OPTIONS: Record<OptionName, OptionRow> = ROWS;

/** The options without a job. */
export const OWN_OPTIONS: OptionName[] = ['help', 'version', 'notices', 'forms'];
