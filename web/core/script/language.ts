// The script language: its versions and verbs, the words of a line, and how a script begins.

import { CONTENT, MOST_SCRIPT_BYTES, type Calls } from '../module/index.js';
import type { Script } from './script_writer.js';

export type Verb = keyof typeof VERBS;

/** The versions, from the first on: the name in head lines, and the CONTENT of a head line, by which calls identify the version. */
export const VERSIONS = Object.freeze([{ name: '1', content: CONTENT.VERSION_1 }, { name: '2', content: CONTENT.VERSION_2 }]);
export const NEWEST_VERSION = VERSIONS[VERSIONS.length - 1];

/** For each verb the version that it needs, an example of a valid line, and the forms of its lines. */
export const VERBS = Object.freeze({
    set: { version: 1, line: 'set 0 0 00 was 00', forms: ['set BLOCK OFFSET NEW', 'set BLOCK OFFSET NEW was OLD'] },
    fill: { version: 1, line: 'fill 0 0 1 00', forms: ['fill BLOCK OFFSET COUNT BYTE'] },
    rebuild: { version: 1, line: 'rebuild 0', forms: ['rebuild BLOCK'] },
    address: { version: 2, line: 'address 0 00:02:00', forms: ['address BLOCK MM:SS:FF'] },
});

/** The head line of a version, without its end. `version` is its name, by default that of the first version. */
export function headLine(version: string | number = VERSIONS[0].name) {
    return `cdpatch ${version}`;
}

// Splits scripts into lines and lines into words, and finds the wrong word of a line.

/** The byte that ends a line. A CR before it belongs to the line end. */
export const LINE_FEED = 0x0A;

/** The end of a line, and the gap between words. */
const ENDS = /\r?\n/;
const GAPS = /([ \t]+)/;

/** The faults of a single word, which would be just as wrong in any other line with the same verb. */
const FAULTS_OF_A_WORD = [CONTENT.BAD_NUMBER, CONTENT.BAD_HEX, CONTENT.BAD_OFFSET, CONTENT.BAD_ADDRESS];

/** Counts the line ends in a range of a text. */
export function endsOfLines(text: Uint8Array, from: number, to: number) {
    let count = 0;
    for (let at = from; at < to; at++) count += Number(text[at] === LINE_FEED);
    return count;
}

export function linesOfText(text: string) {
    return text.split(ENDS);
}

/** Splits a line into parts: at even indices its words, of which the first and the last may be empty, and at odd ones the gaps. */
export function lineParts(line: string) {
    return line.split(GAPS);
}

export function wordsOf(line: string) {
    return lineParts(line).filter((part, i) => i % 2 === 0 && part !== '');
}

/** The index of a word among the parts of a line. `word` is its index among the words. */
export function partOfWord(parts: string[], word: number) {
    return 2 * word + (parts[0] === '' ? 2 : 0);
}

/** The CONTENT of a line that no patch precedes. */
export function contentOf(calls: Calls, version: number, line: string) {
    const bytes = new TextEncoder().encode(line);
    calls.hold(bytes);
    return calls.readLine(version, 0, 0, bytes.length);
}

/** The index of the word that makes a line faulty, -1 if no single word does. `fault` is a CONTENT. */
export function faultyWord(calls: Calls, line: string, fault: number) {
    const words = wordsOf(line);
    if (fault === CONTENT.UNKNOWN_VERB) return 0;
    if (!FAULTS_OF_A_WORD.includes(fault)) return -1;
    const sound = wordsOf(VERBS[(words[0] as Verb)].line).slice(0, words.length);
    const { content } = NEWEST_VERSION;
    return words.findIndex((word, k) => contentOf(calls, content, sound.map((it, i) => i === k ? word : it).join(' ')) === fault);
}

/** The program's message about a line of a script, without the prefix that names the line. `text` is the line that the program prints. */
export function wordsOn(text: Uint8Array, number: number) {
    const message = new TextDecoder().decode(text).trimEnd();
    const prefix = `line ${number}: `;
    return message.slice(message.indexOf(prefix) + prefix.length);
}

/** The part of a program's line after the first colon, which follows the name of the program or the outcome of a patch. */
export function afterColon(line: string) {
    return line.slice(line.indexOf(': ') + 2);
}

/** Whether a word that is not valid as bytes would be valid with one more digit. */
export function lacksDigit(calls: Calls, word: string) {
    return contentOf(calls, CONTENT.VERSION_1, `set 0 0 ${word}0`) === CONTENT.PATCH;
}

// Recognises a script, or a text that is meant as one, by its first line that is neither blank nor a comment.

/** The first line of a text that is neither blank nor a comment, and its CONTENT in a script of a version; null if there is none. */
function firstLineSaying(calls: Calls, text: Uint8Array, version: number) {
    calls.hold(text);
    for (let from = 0; ;) {
        const line = calls.firstLine(from);
        if (line === null) return null;
        const content = calls.readLine(version, 0, from, line.size);
        if (content !== CONTENT.NOTHING) return { content, line: text.subarray(from, from + line.size) };
        from += line.taken;
    }
}

/** Whether a text is a script: its first line that is neither blank nor a comment is a head line. */
export function isScript(calls: Calls, text: Uint8Array) {
    const first = firstLineSaying(calls, text, 0);
    return first !== null && VERSIONS.some(({ content }) => content === first.content);
}

/**
 * Whether a text is meant as a script: its first line that is neither blank nor a comment has several words. The first one is a word of
 * scripts, or cdpatch in any case.
 */
export function isMeantAsScript(calls: Calls, text: Uint8Array) {
    const first = firstLineSaying(calls, text, NEWEST_VERSION.content);
    if (first === null) return false;
    const words = wordsOf(new TextDecoder().decode(first.line));
    return words.length > 1 && (/^cdpatch$/i.test(words[0]) || first.content !== CONTENT.UNKNOWN_VERB);
}

// Writes the comment that names the base of a script.

/** The comment that names the base of a script, with its line end; '' for base 0. */
export function baseComment(base: number) {
    return base === 0 ? '' : `# base ${base}\n`;
}

/**
 * Finishes a script by adding the comment that names its base after the first line. Every script that is written passes through here.
 * @param script whose first piece is its first line
 */
export function scriptForBase({ pieces: [head, ...lines], ...script }: Script, base: number): Script {
    const comment = new TextEncoder().encode(baseComment(base));
    const size = script.size + comment.length;
    return { ...script, pieces: [head, comment, ...lines], size, long: script.long || size > MOST_SCRIPT_BYTES };
}
