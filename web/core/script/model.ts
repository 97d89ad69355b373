// A model of a script: the content of each line as the calls read it, updated when lines are added or removed, and the bytes they write.

import { hexText } from '../bytes.js';
import { CONTENT, PATCH_SIZE, USER_SIZE, VERB, isFault, type Calls, type PatchRange } from '../module/index.js';
import { VERSIONS, contentOf, headLine, lineParts, linesOfText, partOfWord, wordsOf } from './language.js';

/** A line: its number, from 1, its text, its CONTENT, and its patch, null if it has none. */
export type ScriptLine = { number: number, text: string, content: number, patch: PatchRange | null };
/** User bytes, from an offset in a block on. */
export type UserRange = { block: number, offset: number, size: number };
/** A line, and the user byte whose writer is looked up for it. */
type Queried = { number: number, block: number, offset: number };

/** If more lines are removed, all others are read again, because each removed line is searched among all lines of its block. */
const MANY = 256;
/** How many lines are read between two turns. They take some ten milliseconds. */
const READ_AT_ONCE = 5000;

/** The last block that a patch meets. */
export function lastBlockOf({ block, offset, size }: UserRange) {
    return block + Math.floor(Math.max(offset + size - 1, 0) / USER_SIZE);
}

/** How many blocks after its first one a patch can meet: the longest patch, if it begins with the last byte of a block. */
const BLOCKS_AFTER = lastBlockOf({ block: 0, offset: USER_SIZE - 1, size: PATCH_SIZE });

/** The index of a user byte, counted from the first one of block 0. */
export function userPlace({ block, offset }: { block: number, offset: number }) {
    return block * USER_SIZE + offset;
}

export function byNumber(a: ScriptLine, b: ScriptLine) {
    return a.number - b.number;
}

/**
 * For each of several lines that ask for a byte of one block, finds the last line before it that writes the byte, or 0.
 * @param lines those that write in the block, in order
 * @param queried the lines, in order, with their bytes
 */
export function writersIn(block: number, lines: ScriptLine[], queried: Queried[]) {
    const writers = new Uint32Array(USER_SIZE);
    const start = block * USER_SIZE;
    let next = 0;
    return queried.map(({ number, offset }) => {
        for (; next < lines.length && lines[next].number < number; next++) {
            const patch = lines[next].patch as PatchRange;
            const from = userPlace(patch) - start;
            writers.fill(lines[next].number, Math.max(from, 0), Math.max(from + patch.size, 0));
        }
        return writers[offset];
    });
}

/** What a model has read of its script. */
export type ScriptState = Pick<ScriptModel, 'joined' | 'lines' | 'head' | 'version' | 'patches' | 'faults' | 'size' | 'blocks' | 'tooMany'>;

/** The lines of a script, at least one. */
export class ScriptModel {
    /** The index of the head line, or of the line in its place; -1 if all lines are blank or comments. */
    head = -1;
    version = 0;
    patches = 0;
    faults = 0;
    /** The number of characters of the text, or one more. */
    size = 0;
    /** The lines with a patch, by its first block, in any order. */
    blocks = new Map<number, ScriptLine[]>();
    /** Whether there are too many patches. Then the content of a line depends on the lines before it. */
    tooMany = false;
    lines: ScriptLine[];
    joined;

    /** @param texts those of its lines that are read now */
    constructor(readonly calls: Calls, text: string, texts: string[] = linesOfText(text)) {
        /** The whole text, null if it has to be joined again. */
        this.joined = text as string | null;
        this.lines = this.entered(texts, 1);
    }

    /** The whole text. It is joined again only after a change. */
    text() {
        if (this.joined === null) this.joined = this.lines.map(({ text }) => text).join('\n');
        return this.joined;
    }

    /** The name of the version in the head line, '' without one. For later versions, the calls use a different number. */
    versionName() {
        return this.version === 0 ? '' : wordsOf(this.lines[this.head].text)[1] || '';
    }

    /** Reads a whole text. If its first line is not a head line, the lines after that are read as version 1. */
    readText(text: string) {
        this.adopt(new ScriptModel(this.calls, text));
    }

    /** @param other whose lines are moved to this one */
    adopt(other: ScriptState) {
        this.joined = other.joined;
        this.lines = other.lines;
        this.head = other.head;
        this.version = other.version;
        this.patches = other.patches;
        this.faults = other.faults;
        this.size = other.size;
        this.blocks = other.blocks;
        this.tooMany = other.tooMany;
    }

    /** Reads lines, and adds them to the counts. `first` is the number of the first one. */
    entered(texts: string[], first: number) {
        const { calls } = this;
        let at = 0;
        calls.hold(new TextEncoder().encode(texts.join('\n')));
        return texts.map((own, i) => {
            const { size, taken } = calls.firstLine(at) || { size: 0, taken: 0 };
            const content = calls.readLine(this.version, this.patches, at, size);
            at += taken;
            if (this.head < 0 && content !== CONTENT.NOTHING) {
                this.head = first + i - 1;
                this.version = content === CONTENT.NO_HEAD ? VERSIONS[0].content : content;
            }
            const patch = content === CONTENT.PATCH ? calls.patchRange() : null;
            const line = { number: first + i, text: own, content, patch };
            this.count(line, 1);
            this.tooMany = this.tooMany || content === CONTENT.TOO_MANY;
            return line;
        });
    }

    /** @param line the line that is added (1) or removed (-1) */
    count(line: ScriptLine, step: 1 | -1) {
        this.size += step * (line.text.length + 1);
        this.faults += step * Number(isFault(line.content));
        if (line.patch === null) return;
        this.patches += step;
        const there = this.blocks.get(line.patch.block) || [];
        if (step < 0) there.splice(there.indexOf(line), 1);
        else if (there.push(line) === 1) this.blocks.set(line.patch.block, there);
    }

    /** Replaces lines. Only the new ones are read, unless the version changes, many lines are removed, or there are too many patches. */
    put(at: number, count: number, texts: string[]) {
        const { head, version } = this;
        const isMany = count > MANY;
        if (!isMany) for (const line of this.lines.slice(at, at + count)) this.count(line, -1);
        if (at <= head) {
            this.head = -1;
            this.version = 0;
        }
        const incoming = this.entered(texts, at + 1);
        this.lines = this.lines.slice(0, at).concat(incoming, this.lines.slice(at + count));
        this.joined = null;
        const stays = at + count <= head;
        const found = this.head >= 0;
        if (stays && !found) {
            this.head = head + incoming.length - count;
            this.version = version;
        }
        const isOther = at <= head && (stays === found || this.version !== version);
        if (isOther || this.tooMany || isMany || this.lines.length === 0) this.readText(this.text());
        else if (incoming.length !== count) this.lines.forEach((line, i) => { line.number = i + 1; });
    }

    /** The patch of a line with its bytes, or null. */
    patchAt(i: number) {
        const { patch, text } = this.lines[i];
        if (patch === null) return null;
        contentOf(this.calls, this.version, text);
        return this.calls.patchRead();
    }

    /** The lines whose patch may meet a block of a range. */
    linesNear(first: number, last: number) {
        let lines: ScriptLine[] = [];
        for (let block = first - BLOCKS_AFTER; block <= last; block++) lines = lines.concat(this.blocks.get(block) || []);
        return lines;
    }

    /** The lines that write a byte of a range, in any order. */
    linesWriting(range: UserRange) {
        const [from, to] = [userPlace(range), userPlace(range) + range.size];
        return this.linesNear(range.block, lastBlockOf(range)).filter(({ patch }) =>
            patch !== null && patch.size > 0 && userPlace(patch) < to && userPlace(patch) + patch.size > from);
    }

    /** The number of the last line that writes a byte of a range, or 0. */
    lineAt(range: UserRange) {
        return this.linesWriting(range).reduce((last, { number }) => Math.max(last, number), 0);
    }

    /** For each asking line, by its number, the last applied line before it that writes the byte it asks for, or 0. */
    writersBefore(asking: Queried[], isApplied: (number: number) => boolean) {
        const blocks: Map<number, Queried[]> = new Map();
        for (const it of asking) {
            const queried = blocks.get(it.block) || [];
            if (queried.push(it) === 1) blocks.set(it.block, queried);
        }
        const writers: Map<number, number> = new Map();
        for (const [block, queried] of blocks) {
            const lines = this.linesNear(block, block).filter(({ number, patch }) => patch && patch.size > 0 && isApplied(number));
            queried.sort((a, b) => a.number - b.number);
            writersIn(block, lines.sort(byNumber), queried).forEach((writer, i) => writers.set(queried[i].number, writer));
        }
        return writers;
    }

    /** A script with only the patches that may change a block; '' if there are none. Lines with a fault are left out. */
    scriptNear(block: number) {
        const lines = this.linesNear(block, block).sort(byNumber);
        if (lines.length === 0 || isFault(this.lines[this.head].content)) return '';
        return [this.lines[this.head], ...lines].map(({ text }) => `${text}\n`).join('');
    }

    /**
     * The text of a line with different new bytes, if it sets exactly a range; '' otherwise.
     * @param number of the line, or 0
     */
    rewritten(number: number, { block, offset, size }: UserRange, fresh: Uint8Array) {
        const { text, patch } = this.lines[number - 1] || { text: '', patch: null };
        if (patch === null || patch.verb !== VERB.SET || patch.size !== size) return '';
        if (patch.block !== block || patch.offset !== offset) return '';
        const parts = lineParts(text);
        parts[partOfWord(parts, 3)] = hexText(fresh);
        return parts.join('');
    }
}

/**
 * Builds the model of a text, a part at a time.
 * @param turn is awaited between two parts
 */
export async function modelInParts(calls: Calls, text: string, turn: () => Promise<unknown>) {
    const texts = linesOfText(text);
    const model = new ScriptModel(calls, text, texts.slice(0, READ_AT_ONCE));
    for (let at = READ_AT_ONCE; at < texts.length; at += READ_AT_ONCE) {
        await turn();
        model.lines = model.lines.concat(model.entered(texts.slice(at, at + READ_AT_ONCE), at + 1));
    }
    return model;
}

/** How many lines are new, how many replaced others, and how many were there already. */
export type Merged = { added: number, replaced: number, same: number };

/** The lines of a script, in order, that write some of the bytes of new lines. */
export function linesUnder(script: ScriptModel, incoming: string[]) {
    const read = new ScriptModel(script.calls, [headLine(), ...incoming].join('\n')).lines.flatMap(({ patch }) => patch || []);
    return [...new Set(read.flatMap(patch => script.linesWriting(patch)))].sort(byNumber);
}

// Finds the lines of a script that rebuild a block or write in it. A rebuild repairs a damaged sector for the changes after it.

/** @param lines the lines of which the least number is returned, 0 if there are none */
function firstOf(lines: ScriptLine[]) {
    return lines.reduce((least, { number }) => least === 0 ? number : Math.min(least, number), 0);
}

/** The numbers of the first line that rebuilds a block, and of the first line that writes in it otherwise, each 0 if there is none. */
export function firstLinesOf(script: ScriptModel, block: number) {
    const own = (verb: number) => script.linesNear(block, block)
        .filter(({ patch }) => patch !== null && patch.block === block && patch.verb === verb);
    return { rebuilds: firstOf(own(VERB.REBUILD)),
        writes: firstOf([...script.linesWriting({ block, offset: 0, size: USER_SIZE }), ...own(VERB.ADDRESS)]) };
}
