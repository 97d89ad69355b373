// Reads a script whose bytes arrive in pieces.

import { joinedBytes, type Reader } from '../bytes.js';
import { kindOfEnds } from '../disc/index.js';
import { Fault, type FileKind } from '../faults.js';
import {
    CONTENT, MOST_PATCHES, MOST_SCRIPT_BYTES, STATUS, isFault, type Calls, type PatchRange, type ScriptJob,
} from '../module/index.js';
import { LINE_FEED, endsOfLines, headLine } from './language.js';
import { passPatched } from './patches.js';
import type { Script } from './script_writer.js';

// Reads the patches of a script. Splits a script that exceeds the limits of a run into parts, each of which is run separately.

/** A line with a patch: its number, its bytes, and its range. */
type PatchLine = PatchRange & { number: number, line: Uint8Array };
/** The head line, and the patches in the order of application. */
export type Lines = { head: Uint8Array, patches: PatchLine[] };

/** How many bytes of a text are read at a time. Lines of this size have no more patches than a run accepts. */
const TEXT_WINDOW = 1 << 19;
const END_OF_LINE = Uint8Array.of(LINE_FEED);

/** The head line that is used until the head line of the script is found. */
const ANY_HEAD = new TextEncoder().encode(headLine());

/** Yields the lines of a text, as many whole lines at a time as fit into a window, or one line that is longer. */
function* windowsOf(text: Uint8Array) {
    for (let at = 0, end = 0; at < text.length; at = end) {
        const last = text.lastIndexOf(LINE_FEED, at + TEXT_WINDOW - 1);
        const next = last < at ? text.indexOf(LINE_FEED, at) : last;
        end = at + TEXT_WINDOW >= text.length || next < 0 ? text.length : next + 1;
        yield text.subarray(at, end);
    }
}

/** The line that refuses a script, or the result of `read` for it. `script` is in pieces. */
function faultOr<T>(calls: Calls, script: Uint8Array[], read: (job: ScriptJob) => T) {
    const job = calls.jobBegin(script);
    try {
        return job.refusal || read(job);
    } finally {
        calls.jobEnd(job);
    }
}

/** The comment's line, and the base that it names. */
type NamedBase = { line: number, base: number };

/** A number that is not a base. */
const NO_BASE = 2 ** 32 - 1;

/** The first base that a comment of a text names, and the first one that differs from it: one of them differs from any other base. */
export function basesNamed(calls: Calls, text: Uint8Array) {
    const found: NamedBase[] = [];
    for (const lines of windowsOf(text)) {
        calls.hold(lines);
        const before = lines.byteOffset - text.byteOffset;
        while (found.length < 2) {
            const other = calls.otherBase(found.length === 0 ? NO_BASE : found[0].base);
            if (other === null) break;
            found.push({ line: endsOfLines(text, 0, before) + other.line, base: other.base });
        }
    }
    return found;
}

/** Reads the lines of a script. One call skips all lines of a window that are blank or comments. */
class LineReader {
    version = 0;
    head = ANY_HEAD;
    /** The number of lines read so far. */
    number = 0;
    patches: PatchLine[] = [];

    constructor(readonly calls: Calls) {}

    /** Reads whole lines. Returns the program's line for their first fault, null if they have none. */
    read(lines: Uint8Array): Uint8Array | null {
        const found = faultOr(this.calls, [this.head, END_OF_LINE, lines], job => this.calls.jobLines(job));
        this.calls.hold(lines);
        if (found instanceof Uint8Array || (this.version === 0 && found.length > 0)) return this.readEach(lines);
        for (const { number, start, size } of found) {
            const from = start - this.head.length - 1;
            this.calls.readLine(this.version, 0, from, size);
            const patch = this.calls.patchRange();
            this.patches.push({ ...patch, number: this.number + number - 1, line: lines.subarray(from, from + size) });
        }
        const hasEnd = lines.length === 0 || lines[lines.length - 1] === LINE_FEED;
        this.number += endsOfLines(lines, 0, lines.length) + Number(!hasEnd);
        return null;
    }

    /**
     * Reads lines one by one, to find the first fault, or the head line if that was not found yet. Returns as `read` does.
     * @param lines the held ones
     */
    readEach(lines: Uint8Array): Uint8Array | null {
        let from = 0;
        for (let line = this.calls.firstLine(0); line !== null; line = this.calls.firstLine(from)) {
            this.number += 1;
            const content = this.calls.readLine(this.version, 0, from, line.size);
            if (isFault(content)) return this.calls.faultLine(this.number, content);
            if (content !== CONTENT.PATCH && content !== CONTENT.NOTHING) {
                this.version = content;
                this.head = lines.subarray(from, from + line.size);
                return this.read(lines.subarray(from + line.taken));
            }
            from += line.taken;
        }
        return null;
    }
}

/** Reads the patches of a script with any number of bytes and patches. Returns the program's line if the script has a fault. */
export function readLines(calls: Calls, text: Uint8Array): Lines | Uint8Array {
    const reader = new LineReader(calls);
    for (const lines of windowsOf(text)) {
        const fault = reader.read(lines);
        if (fault !== null) return fault;
    }
    const { version, number, head, patches } = reader;
    if (version === 0) return calls.faultLine(number + 1, CONTENT.NO_HEAD);
    return { head, patches: patches.sort((a, b) => a.block - b.block) };
}

/** Counts the patches without old bytes, for which nothing shows whether they fit the image, and the old bytes that the others name. */
export function countOld(patches: { old: number | null }[]) {
    const named = patches.flatMap(({ old }) => old === null ? [] : [old]);
    return { without: patches.length - named.length, old: named.reduce((sum, size) => sum + size, 0) };
}

/** The patches of a script, none if it has a fault. */
export function patchesOf(calls: Calls, script: string) {
    const lines = readLines(calls, new TextEncoder().encode(script));
    return lines instanceof Uint8Array ? [] : lines.patches;
}

/** Counts the patches of a script that name no old bytes, and the old bytes that the others name. */
export function oldBytesOf(calls: Calls, script: string) {
    return countOld(patchesOf(calls, script));
}

/** A part of a script: patches in the order of application, as a script that is not too long for a run. */
export class Part {
    constructor(readonly head: Uint8Array, readonly patches: PatchLine[]) {}

    pieces() {
        return [this.head, ...this.patches.map(({ line }) => line)].flatMap(line => [line, END_OF_LINE]);
    }

    /** The number that a line of this part has in the long script. */
    numberOf(number: number) {
        return this.patches[number - 2].number;
    }
}

/** Splits a script into parts, at least one. */
export function scriptParts({ head, patches }: Lines) {
    const parts = [];
    for (let from = 0, to = 0; from < patches.length || parts.length === 0; from = to) {
        for (let size = head.length + 1; to < patches.length && to - from < MOST_PATCHES; to++) {
            size += patches[to].line.length + 1;
            if (size > MOST_SCRIPT_BYTES && to > from) break;
        }
        parts.push(new Part(head, patches.slice(from, to)));
    }
    return parts;
}

export type Pieces = Iterable<Uint8Array> | AsyncIterable<Uint8Array>;
/** A valid script; a long one in parts. */
export type ReadScript = { bases: NamedBase[] } & ({ text: Uint8Array } | { parts: Part[] });

/** The refusal of a script, with the program's line for it, and what it is instead, if its first and last bytes show that. */
export class Refusal {
    constructor(readonly text: Uint8Array, readonly tooLong: boolean, readonly kind: FileKind | null) {}
}

/** The bytes of a script. If it has more than `most`, only as many as are needed to show this. */
async function wholeText(pieces: Pieces, most: number) {
    const parts = [];
    let size = 0;
    for await (const piece of pieces) {
        parts.push(piece);
        size += piece.length;
        if (size > most) break;
    }
    return joinedBytes(parts);
}

/** @param long whether the script may have more bytes and patches than the program accepts */
export async function readScript(calls: Calls, pieces: Pieces, long: boolean = false): Promise<ReadScript | Refusal> {
    const text = await wholeText(pieces, long ? Infinity : MOST_SCRIPT_BYTES);
    const lines = long ? readLines(calls, text) : faultOr(calls, [text], () => null);
    if (lines instanceof Uint8Array) {
        const kind = await kindOfEnds({ size: text.length, read: async (at, length) => text.subarray(at, at + length) });
        return new Refusal(lines, !long && text.length > MOST_SCRIPT_BYTES, kind || null);
    }
    return { bases: basesNamed(calls, text), ...lines ? { parts: scriptParts(lines) } : { text } };
}

// Checks that a script written by this core fits its image.

/** Throws a Fault, `script/conflict`, if a script or a patch of it is refused. */
export async function assertFits(calls: Calls, image: { reader: Reader, base: number }, script: Script) {
    const read = await readScript(calls, script.pieces, script.long);
    const made = read instanceof Refusal ? null : await passPatched(calls, image.reader, read, { base: image.base });
    if (made === null || made.status !== STATUS.DONE) throw new Fault('script/conflict', {});
}
