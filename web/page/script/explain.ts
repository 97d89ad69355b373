// The strip under the editor: the line with the caret in plain words, with its old and new bytes as text.

import { filesAt } from '../../core/iso/views.js';
import { CONTENT, MOST_PATCHES, PATCH_SIZE, RESULT, USER_SIZE, VERB, isFault, type Calls } from '../../core/module/index.js';
import {
    NEWEST_VERSION, VERBS, VERSIONS, contentOf, faultyWord, headLine, lacksDigit, lastBlockOf, wordsOf, type ScriptLine,
} from '../../core/script/views.js';
import { addressText } from '../../core/sectors/views.js';
import type { App, ScriptLines } from '../app/index.js';
import { chosenEncoding, encodingLabel } from '../text/index.js';
import { format, say } from '../texts/index.js';
import { element, fill, shownPaths, shownText, term, type Child } from '../ui/index.js';
import * as texts from '../texts/index.js';

// Explains a line of a script, and how to correct an error or a refused patch. [block] and [offset] mark words that open a note.

type PatchFields = ReturnType<Calls['patchRead']>;
/** A faulty line: its words, and the version of its script. */
type Faulty = { words: string[], version: number, line: string, calls: Calls };
/** A sentence; and the lines with which a button replaces the line, or the head line, and its label, or null without a button. */
type Help = { text: string, fix: { says: string, lines: string[], head?: true } | null };

const KNOWN_VERBS: Map<string, { version: number, forms: string[] }> = new Map(Object.entries(VERBS));
const HEADS = VERSIONS.map(({ name }) => headLine(name));

/** Joins alternatives. */
function either(forms: string[]) {
    const [last] = forms.slice(-1);
    return forms.length === 1 ? last : format('{some}, or {last}', { some: forms.slice(0, -1).join(', '), last });
}

/** The forms of a line, by its first word. */
const FORMS: Map<string, string> = new Map([...[...KNOWN_VERBS].map(([verb, { forms }]) => ([verb, either(forms)] as [string, string])),
    ['cdpatch', either(HEADS)]]);

/** All verbs, with the version of those that the first one lacks. */
function allVerbs() {
    const verbs = [...KNOWN_VERBS].map(([verb, { version }]) =>
        version === 1 ? verb : format('{verb} (from version {version} on)', { verb, version: String(version) }));
    return format('The verbs are {verbs}, in lower case.', { verbs: verbs.join(', ') });
}

/** Describes a patch. `where` is the file that it writes to, or ''. */
export function patchInWords({ verb, block, offset, size, value, address, old }: PatchFields, where: string) {
    const at = { block: String(block), offset: String(offset) };
    if (verb === VERB.REBUILD) return format('recalculate EDC and parity of [block] {block} from its current bytes.', at);
    if (verb === VERB.ADDRESS) return format('write the address {address} in the header of [block] {block}.',
        { ...at, address: addressText(address) });
    const last = lastBlockOf({ block, offset, size });
    const inBlock = format('at [offset] {offset} of [block] {block}', at);
    const inBlocks = last > block ? format('{place}, continuing into block {last}', { place: inBlock, last: String(last) }) : inBlock;
    // The size is shown as in a script, without separators. The number n is not shown, but selects the plural form.
    const parts = { n: size, size: String(size), place: where ? format('{place}, in {file}', { place: inBlocks, file: where }) : inBlocks };
    if (verb === VERB.FILL) return format('write {size} byte {byte} {place}.|write {size} bytes {byte} {place}.',
        { ...parts, byte: value.toString(16).toUpperCase().padStart(2, '0') });
    return format(old ? 'write {size} byte {place}, if the old byte is there.|write {size} bytes {place}, if the old bytes are there.'
        : 'write {size} byte {place}, whatever is there.|write {size} bytes {place}, whatever is there.', parts);
}

/** A cache for faulty lines, as each key press needs the help. */
const knownHelp: WeakMap<ScriptLine, Help> = new WeakMap();

/** Explains how to correct a faulty line. */
export function helpOfFault({ lines, version, calls }: ScriptLines, i: number) {
    const { text, content } = lines[i];
    const find = FAULT_HELP[content];
    const help = knownHelp.get(lines[i]) || (find ? find({ words: wordsOf(text), version, line: text, calls }) : helped(''));
    knownHelp.set(lines[i], help);
    return help;
}

function helped(text: string, says: string = '', ...lines: string[]): Help {
    return { text, fix: says ? { says, lines } : null };
}

const FAULT_HELP: Record<number, (faulty: Faulty) => Help> = {
    [CONTENT.NO_HEAD]: helpOfHead,
    [CONTENT.UNKNOWN_VERB]: helpOfVerb,
    [CONTENT.WORD_COUNT]: ({ words: [verb] }) =>
        helped(format('The line has this form: {form}.', { form: FORMS.get(verb) || [...FORMS.values()].slice(0, -1).join('; ') })),
    [CONTENT.BAD_NUMBER]: () => helped('Blocks, offsets and counts are decimal, with 1 to 9 digits: no 0x, no separators.'),
    [CONTENT.BAD_HEX]: helpOfHex,
    [CONTENT.BAD_LENGTH]: helpOfLength,
    [CONTENT.BAD_OFFSET]: helpOfOffset,
    [CONTENT.BAD_ADDRESS]: () => helped('An address is MM:SS:FF with two digits each: SS to 59, FF to 74.'),
    [CONTENT.TOO_MANY]: () => helped(format('A script has at most {most} patches. Cut it into two scripts.',
        { most: String(MOST_PATCHES) })),
};

function helpOfHead({ words: [first, version], line }: Faulty) {
    const begins = format('A script begins with the line {head}.', { head: headLine() });
    if (first.toLowerCase() !== 'cdpatch') return helped(begins, 'Add it', headLine(), line);
    const head = headLine(VERSIONS.some(({ name }) => name === version) ? version : NEWEST_VERSION.name);
    const text = format('A script begins with the line {heads}. Nothing else may be on that line.', { heads: either(HEADS) });
    return helped(text, format(texts.scriptMakeIt, { head }), head);
}

function helpOfVerb({ words: [verb, ...rest], line, calls }: Faulty): Help {
    const isKnown = (text: string) => contentOf(calls, NEWEST_VERSION.content, text) !== CONTENT.UNKNOWN_VERB;
    if (isKnown(line)) {
        const { version = NEWEST_VERSION.name } = KNOWN_VERBS.get(verb) || {};
        const head = headLine(version);
        const fix = { says: format(texts.scriptMakeIt, { head }), lines: [head], head: true as const };
        return { text: format('The verb {verb} needs the head line {head}.', { verb, head }), fix };
    }
    const small = verb.toLowerCase();
    if (small === 'cdpatch') return helped('A script has one head line, and it is the first.');
    const smallLine = [small, ...rest].join(' ');
    if (isKnown(smallLine)) return helped('Verbs are written in lower case.', format('{verb}?', { verb: small }), smallLine);
    return helped(allVerbs());
}

function helpOfHex({ words, line, calls }: Faulty) {
    const odd = words[faultyWord(calls, line, CONTENT.BAD_HEX)];
    if (odd && lacksDigit(calls, odd)) return helped(format('An odd number of digits: {digits}. Two digits make one byte.',
        { digits: String(odd.length) }));
    return helped('Bytes are hexadecimal digits, two for each byte: no 0x, no quotes, no spaces between them.');
}

function helpOfLength({ words: [verb, , , fresh, , old] }: Faulty) {
    const most = { most: String(PATCH_SIZE) };
    if (verb === 'fill') return helped(format('fill needs a count of 1 to {most}, and one byte: two digits.', most));
    if (!old || fresh.length === old.length) return helped(format('A patch writes 1 to {most} bytes. Cut longer ones into several lines.',
        most));
    return helped(format('New bytes: {fresh}, old bytes: {old}. There must be as many of each.',
        { fresh: String(fresh.length / 2), old: String(old.length / 2) }));
}

function helpOfOffset({ words }: Faulty) {
    const [block, offset] = [Number(words[1]), Number(words[2])];
    const [there, left] = [block + Math.floor(offset / USER_SIZE), offset % USER_SIZE];
    const line = [words[0], there, left, ...words.slice(3)].join(' ');
    return helped(format('An offset counts the {size} user bytes of one block.', { size: String(USER_SIZE) }),
        format('Block {block} offset {offset}?', { block: String(there), offset: String(left) }), line);
}

/**
 * Explains what to do about a refused patch. `says` is the label of the button beside it, or ''.
 * @param writer the earlier line that has written where the old bytes differ, or 0
 */
export function helpOfRefusal(result: number, { base, sectors }: { base: number, sectors: number }, writer: number): { text: string,
    says: string } {
    const help: Record<number, [string, string]> = {
        [RESULT.NOT_MODE1]: ['Only Mode 1 sectors are patched: this is audio, has another mode, or lost its sync field.',
            texts.textOpenTheSector],
        [RESULT.DAMAGED]: ['Repair the sector first, or tick “Patch damaged sectors too”.', texts.textOpenTheSector],
        [RESULT.NO_BLOCK]: [format('This image has the blocks {first} to {last}. Another track, or a wrong block?',
            { first: String(base), last: String(base + sectors - 1) }), ''],
        [RESULT.DIFFERS]: [writer > 0 ? format('Line {line} has already changed these bytes.', { line: String(writer) })
            : 'Another release of the game, or a wrong block or offset.',
            'Show the place'],
    };
    const [text, says] = help[result] || ['', ''];
    return { text, says };
}

const MOST_BYTES_SHOWN = 400;
const EXAMPLE = 'set 4711 26 5374617274202020 was 8358835E815B8367';

/** Words in texts that open a note. */
const NOTED: Record<string, string> = { block: 'block', offset: texts.sectorOffsetWord };

/** Fills the strip. */
export function explainLine(app: App, lines: ScriptLines, i: number, strip: Element) {
    fill(strip, element('b', {}, `${format('Line {line}:', { line: String(i + 1) })} `), ...meaningOf(app, lines, i));
}

function meaningOf(app: App, lines: ScriptLines, i: number): Child[] {
    const { content, text } = lines.lines[i];
    if (isFault(content)) return withTerms(helpOfFault(lines, i).text);
    if (content === CONTENT.NOTHING) return [wordsOf(text).length === 0 ? 'an empty line.' : 'a comment. It changes nothing.'];
    const patch = lines.patchAt(i);
    if (patch === null) {
        const example = element('span', { class: 'mono' }, EXAMPLE);
        return [...say('the version of the script. Then one patch per line, for example {example}', { example }), element('br'),
            ...withTerms('which writes 8 bytes at [offset] 26 of [block] 4711, if the old bytes are there.')];
    }
    const files = app.files ? filesAt(app.files.files, patch.block, patch.offset) : [];
    return [...withTerms(patchInWords(patch, shownPaths(files, ' and '))),
        lines.isWrong(i) && element('b', { class: 'bad-ink' }, ` ${format('It is {words}.', { words: lines.wordsAt(i) })}`),
        pairOf(app, patch)];
}

/** Replaces [block] and [offset] in a text with words that open a note. */
function withTerms(text: string): Child[] {
    return text.split(/\[(block|offset)\]/).map((part, k) => k % 2 === 1 ? term(part, NOTED[part]) : part);
}

/** The new and the old bytes as text. The script does not say its encoding, so it is that of the panel Text. */
function pairOf(app: App, { fresh, old }: { fresh: Uint8Array, old: Uint8Array | null }) {
    if (fresh.length === 0) return null;
    const encoding = chosenEncoding(app);
    const row = (name: string, bytes: Uint8Array) => [element('span', { class: 'quiet' }, name),
        element('span', { class: 'mono' }, shownText(encoding.text(bytes.subarray(0, MOST_BYTES_SHOWN))))];
    const pair = element('div', { class: 'pair' }, ...row('new', fresh), ...old ? row('old', old) : []);
    const remark = format('Read in {encoding}. The tab Text has other encodings.', { encoding: encodingLabel(encoding.name) });
    return element('div', {}, pair, element('span', { class: 'quiet' }, remark));
}
