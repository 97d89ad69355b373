// The changes of the files of a disc that texts with new places need, and their lines.

import { wholeOf } from '../bytes.js';
import type { OrderedImage } from '../disc/index.js';
import { Fault, newBytes } from '../faults.js';
import { filesOf, readerOfFile, wholeFile } from '../iso/index.js';
import { PATCH_SIZE, type Calls } from '../module/index.js';
import { numberFor, putNumber, storedAt, targetOf, type Span } from '../pointers/index.js';
import { pieceReader, sliceOf } from '../readers/index.js';
import type { Script, ScriptParts, UserRange } from '../script/index.js';
import { isTurnDue, letOthersIn, type Signal } from '../turns.js';
import type { PointedFile } from './moving_pointers.js';
import type { MovedText } from './moving_texts.js';
import type { OpenedTrack } from './opened.js';
import { extentKey, pushSize, recordsByKey, replaceBytes, type VolumeNames } from './replace.js';
import { applyInMemory, validScript } from './scripts.js';

// Checks a script that moves texts: applies it in memory, and reads the files, the pointers, and the texts again.

export type FileLayout = { file: PointedFile, texts: { movable: MovedText[] }, layout: TextLayout };
/** What was planned: the files with pointers, the layouts of texts, and the ranges that rows in place replace. */
type Planned = { files: { files: PointedFile[] }, layouts: FileLayout[], inPlace: ({ file: PointedFile } & Span)[] };

/** How many bytes are compared before other tasks get a turn. */
const CHECKED_AT_ONCE = 1 << 16;

/** The bytes of files on the patched disc, as its own directories name them. */
async function patchedFiles(calls: Calls, opened: OpenedTrack, script: Script, files: PointedFile[]) {
    const { image, part } = await opened.contents();
    const { pieces } = await applyInMemory({ calls }, image, await validScript(calls, script.pieces, script.long));
    const shift = (part.base - image.base) * (image.reader.size / image.sectors);
    const reader = sliceOf(pieceReader(image.reader, pieces), shift, shift + part.reader.size);
    const { files: entries } = await filesOf(reader, part.base);
    const patched: Map<PointedFile, Uint8Array> = new Map();
    for (const file of files) {
        const named = wholeFile(entries.filter(({ path }) => path === file.path));
        patched.set(file, await wholeOf(readerOfFile({ ...part, reader }, named).reader));
    }
    return patched;
}

/** Throws a Fault at the first place that is not as it should be. */
function assertRight(isRight: boolean, { path }: PointedFile, at: number) {
    if (!isRight) throw new Fault('pointers/unproved', { path, at });
}

/** What may differ in a file, and where its texts are. */
class Expected {
    /** The new place of each place to which a pointer leads, if it is a different one. */
    places = new Map<number, number>();
    free;

    constructor(readonly file: PointedFile) {
        /** 1 for each byte that may differ. */
        this.free = new Uint8Array(file.bytes.length);
    }
}

/** What the plan expects of each file. */
function expectedOf({ files: { files }, layouts, inPlace }: Planned) {
    const expected = new Map(files.map(file => [file, new Expected(file)]));
    const of = (file: PointedFile) => (expected.get(file) as Expected);
    for (const { file, first, after } of inPlace) of(file).free.fill(1, first, after);
    for (const { file, texts: { movable }, layout: { places, left } } of layouts) {
        const own = of(file);
        own.free.fill(1, file.size);
        for (const { first, after } of [...left, ...file.free]) own.free.fill(1, first, after);
        for (const text of movable) {
            own.free.fill(1, text.first, text.after);
            const place = places.get(text) ?? -1;
            for (const { file: holder, table, at, target } of text.pointers) {
                of(holder).free.fill(1, at, at + table.width);
                own.places.set(target, place + target - text.first);
            }
            for (const { file: holder, at, width } of text.lengths) of(holder).free.fill(1, at, at + width);
        }
    }
    return expected;
}

/**
 * Throws a Fault, `pointers/unproved`, unless a script does what was planned: each pointer leads to its old text before it and to its new
 * one after it, the texts are there, and no byte of the files differs except in pointers, texts, and free room.
 */
export async function checkMoved(calls: Calls, opened: OpenedTrack, script: Script, planned: Planned, signal?: Signal) {
    if (planned.layouts.length === 0) return;
    const patched = await patchedFiles(calls, opened, script, planned.files.files);
    const expected = expectedOf(planned);
    for (const [file, { free, places }] of expected) {
        const bytes = patched.get(file) as Uint8Array;
        const size = Math.max(bytes.length, file.size);
        for (let from = 0; from < size; from += CHECKED_AT_ONCE) {
            if (isTurnDue()) await letOthersIn(signal);
            const end = Math.min(from + CHECKED_AT_ONCE, size);
            for (let at = from; at < end; at++) if (free[at] !== 1) assertRight(bytes[at] === file.bytes[at], file, at);
        }
        for (const { table, file: holder, at, target } of file.leading) {
            if (isTurnDue()) await letOthersIn(signal);
            const now = targetOf(table, at, storedAt(patched.get(holder) as Uint8Array, at, table));
            assertRight(now === (places.get(target) ?? target), holder, at);
        }
    }
    for (const { texts: { movable } } of planned.layouts) {
        for (const { file, at, number, ...form } of movable.flatMap(({ lengths }) => lengths)) {
            assertRight(storedAt(patched.get(file) as Uint8Array, at, form) === number, file, at);
        }
    }
    for (const { file, layout } of planned.layouts) await assertTexts(file, patched.get(file) as Uint8Array, layout, signal);
}

/**
 * Throws a Fault unless each text is at its new place.
 * @param bytes of the patched file
 */
async function assertTexts(file: PointedFile, bytes: Uint8Array, { places }: FileLayout['layout'], signal?: Signal) {
    for (const [text, place] of places) {
        if (isTurnDue()) await letOthersIn(signal);
        const isThere = place + text.bytes.length <= bytes.length && text.bytes.every((byte, i) => byte === bytes[place + i]);
        assertRight(isThere && text.pointers.length > 0, file, place);
    }
}

/** The new places of texts, the ranges that are left free, and the new end of the file, 0 if it is the old one. */
type TextLayout = { places: Map<MovedText, number>, left: Span[], end: number };

/** Differing bytes with at most this many equal ones between them are replaced together. */
const JOINED = 8;

/** How many bytes are compared before other tasks get a turn. */
const COMPARED_AT_ONCE = 1 << 16;

/** The byte that fills ranges that no text has any more. */
const FILLER = 0x00;

/** The ranges of texts that move, each with those directly behind it; and of the other new texts, each by itself. */
function runsOf(places: TextLayout['places']) {
    const runs: Span[] = [];
    const spans = [...places].map(([{ first: old, bytes, rows }, first]) =>
        ({ first, after: first + bytes.length, isMoved: first !== old, isNew: rows.length > 0 }));
    let isBeforeMoved = false;
    for (const { first, after, isMoved, isNew } of spans.sort((a, b) => a.first - b.first)) {
        const last = runs[runs.length - 1];
        if (isMoved && isBeforeMoved && first - last.after <= JOINED) last.after = Math.max(last.after, after);
        else if (isMoved || isNew) runs.push({ first, after });
        isBeforeMoved = isMoved;
    }
    return runs;
}

/** The new bytes of files. */
export class FreshFiles {
    /**
     * The bytes of the sectors, and the new size of the file; the ranges that lines write already; and those whose differences are written
     * together.
     */
    files = new Map<PointedFile, { bytes: Uint8Array, size: number, written: Span[], runs: Span[] }>();

    of(file: PointedFile) {
        const known = this.files.get(file);
        if (known !== undefined) return known;
        const bytes = newBytes(file.bytes.length);
        bytes.set(file.bytes);
        const made = { bytes, size: file.size, written: [], runs: [] };
        this.files.set(file, made);
        return made;
    }

    /** Notes bytes that a line writes already. */
    note(file: PointedFile, at: number, bytes: Uint8Array) {
        const own = this.of(file);
        own.bytes.set(bytes, at);
        own.written.push({ first: at, after: at + bytes.length });
    }

    /**
     * Writes texts at their new places, and these places into their pointers. What is left free is filled, but not what a person names as
     * free.
     * @param end the byte that ends the texts of the file
     */
    async write(file: PointedFile, { places, left, end: size }: TextLayout, end: number, signal?: Signal) {
        const own = this.of(file);
        own.size = Math.max(own.size, size);
        own.runs.push(...runsOf(places));
        for (const { first, after } of left) {
            own.bytes.fill(end || FILLER, first, after);
            for (const free of file.free) {
                const [from, to] = [Math.max(first, free.first), Math.min(after, free.after)];
                if (from < to) own.bytes.set(file.bytes.subarray(from, to), from);
            }
        }
        for (const [text, place] of places) {
            if (isTurnDue()) await letOthersIn(signal);
            own.bytes.set(text.bytes, place);
            for (const { table, file: holder, at, target } of text.pointers) {
                const { bytes } = this.of(holder);
                putNumber(bytes, at, table, numberFor(table, at, target + place - text.first, storedAt(bytes, at, table)));
            }
            for (const { file: holder, at, number, ...form } of text.lengths) putNumber(this.of(holder).bytes, at, form, number);
        }
    }
}

/** Finds the ranges in which places are. The places have to rise, and the ranges must not overlap. */
class RisingSpans {
    spans;
    index = 0;

    constructor(spans: Span[]) {
        this.spans = [...spans].sort((a, b) => a.first - b.first);
    }

    /** The range with a place, or null. */
    around(place: number) {
        const { spans } = this;
        while (this.index < spans.length && spans[this.index].after <= place) this.index += 1;
        return this.index < spans.length && spans[this.index].first <= place ? spans[this.index] : null;
    }

    /** The end of the last range before the last place. */
    get passed() {
        return this.index > 0 ? this.spans[this.index - 1].after : 0;
    }
}

/**
 * The ranges of bytes that differ, without those that lines write already. All differences of a run are in one, and others that are close
 * together are joined.
 * @param fresh as many bytes
 * @param mayJoin whether the equal bytes of a range may be between joined ones
 */
async function differingSpans(old: Uint8Array, { bytes: fresh, ...ranges }: { bytes: Uint8Array, written: Span[], runs: Span[] },
    mayJoin: (first: number, after: number) => boolean, signal?: Signal) {
    const spans: Span[] = [];
    const [written, runs] = [new RisingSpans(ranges.written), new RisingSpans(ranges.runs)];
    let run = null as Span | null;
    for (let from = 0; from < old.length; from += COMPARED_AT_ONCE) {
        if (isTurnDue()) await letOthersIn(signal);
        const end = Math.min(from + COMPARED_AT_ONCE, old.length);
        for (let at = from; at < end; at++) {
            if (old[at] === fresh[at] || written.around(at) !== null) continue;
            const last = spans[spans.length - 1];
            const own = runs.around(at);
            const isFree = last !== undefined && own === null && run === null && written.passed <= last.after;
            if ((own !== null && own === run) || (isFree && at - last.after <= JOINED && mayJoin(last.after, at))) last.after = at + 1;
            else spans.push({ first: at, after: at + 1 });
            run = own;
        }
    }
    return spans;
}

/**
 * Adds the lines that give files their new bytes and sizes. Throws a Fault if a sector is not consistent.
 * @param image whose reader may read ahead
 * @param options the names of the volume; whether other lines write in a range, which is then not written again; and a function that
 *     receives the number of patches before the lines are made
 */
export async function pushFreshFiles(calls: Calls, image: OrderedImage, { names, isKept = () => false, counted }: { names: VolumeNames,
    isKept?: (range: UserRange) => boolean, counted?: (patches: number) => void }, { files }: FreshFiles, parts: ScriptParts,
    signal?: Signal) {
    const changes: { file: PointedFile, fresh: { bytes: Uint8Array, size: number }, spans: Span[] }[] = [];
    for (const [file, fresh] of files) {
        const mayJoin = (first: number, after: number) =>
            first === after || !isKept({ ...file.placeOf(first), size: after - first });
        changes.push({ file, fresh, spans: await differingSpans(file.bytes, fresh, mayJoin, signal) });
    }
    const sizes = changes.flatMap(({ spans }) => spans.map(({ first, after }) => after - first));
    counted?.(parts.patches + sizes.reduce((sum, size) => sum + Math.ceil(size / PATCH_SIZE), 0));
    for (const { file: { file, bytes, size, placeOf }, fresh, spans } of changes) {
        for (const { first, after } of spans) {
            await letOthersIn(signal);
            const [old, own] = [bytes, fresh.bytes].map(it => it.subarray(first, after));
            parts.push(await replaceBytes(calls, image, placeOf(first), old, own, true));
        }
        if (fresh.size === size) continue;
        const last = file.extents[file.extents.length - 1];
        const records = recordsByKey(names.entries, [last]).get(extentKey(last)) || [];
        await pushSize(calls, image, parts, records, fresh.size - last.before);
    }
}
