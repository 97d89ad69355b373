// Applies and generates scripts for whole images: by comparing two of them, from rebuilds, and to undo a script.

import { ByteList, readBytes, sameBytes, type Piece, type Reader } from '../bytes.js';
import type { DiscImage } from '../disc/index.js';
import { Fault, cancelled } from '../faults.js';
import { RECORD, RECORD_SIZE, RESULT, SECTOR_KIND, SECTOR_SIZE, sectorCount, type Calls } from '../module/index.js';
import type { Pool, Sharing } from '../pool/index.js';
import { readerForTwo } from '../readers/index.js';
import {
    Refusal, ScriptParts, applyPatches, assertFits, baseComment, headLine, linesBetween, passPatched, readScript, scriptForBase, type Left,
    type Lines, type Patched, type Pieces, type ReadScript, type Script, type Take,
} from '../script/index.js';
import type { How } from '../script/patches.js';
import { FIELDS, differingSectors, edcOfMode2, isSound, sectorOf, sectorsAt } from '../sectors/index.js';
import { watchedSectors, type Engine, type OpenedTrack, type Watch } from './opened.js';

// Compares two images, and creates the script that turns one into the other.

/**
 * The result of a comparison: the script, null if it would not produce the other image; the number of its patches, also if it is null; the
 * blocks that a script cannot express; and whether the bytes after the last sector differ.
 */
export type Comparison = { script: Script | null, patches: number, left: Left[], tail: boolean };
/** How many sectors differ; how many of these only in EDC, zeros, or parity; and whether the bytes after the last sector differ. */
export type Differences = { sectors: number, onlyCodes: number, tail: boolean };

/**
 * For each sector that differs: its block; the number of differing bytes in each of the FIELDS; and the SECOND_STATE of the second sector.
 */
export type Differing = { blocks: Uint32Array, fields: Uint16Array, states: Uint8Array };

/** Sectors per range. Their lines may have four times as many bytes. */
const COMPARED_STEP = 256;

/** The lines that turn one range of sectors into another. A job for a worker. */
export function diffRange(calls: Calls, old: Uint8Array, fresh: Uint8Array, first: number): Lines {
    const differing = differingSectors(old, fresh);
    const pairs = { blocks: differing.map(i => first + i), old: sectorsAt(old, differing), fresh: sectorsAt(fresh, differing) };
    return linesBetween(calls, pairs);
}

/**
 * Creates the script that turns the image of a track into another one of the same size. It is null if a script cannot express all
 * differences. With `skipDamaged` it may leave out blocks that are damaged in the other image, with `skipMode2` those that are Mode 2 there
 * unless it would be empty, and with `partial` everything that it cannot express. Throws what the readers throw, and a Fault, `cancelled`.
 * @param options `take` receives the text as it is generated, before it is known whether there is a script. The returned script then has
 *     only the start, which overwrites the start of the text
 */
export async function compareTrack({ calls, pool }: Engine, { image }: Pick<OpenedTrack, 'image'>, fresh: Reader,
    options: { skipDamaged?: boolean, skipMode2?: boolean, partial?: boolean, take?: (text: Uint8Array) => Promise<void> } = {},
    watch: Sharing = {}): Promise<Comparison> {
    const { skipDamaged, skipMode2, partial, take } = options;
    const parts = new ScriptParts();
    if (take !== undefined) await take(new TextEncoder().encode(`${headLine()}\n${baseComment(image.base)}`));
    await pool.share('diff', [image.reader, fresh], {}, { step: COMPARED_STEP, ...watch, base: image.base }, async lines => {
        if (take === undefined) return parts.push(lines);
        parts.count(lines);
        return take(lines.text);
    });
    const { patches, left } = parts;
    const tail = await tailsDiffer(image.reader, fresh);
    const isSkipped = (run: Left) => isToMode2(run) ? skipMode2 : skipDamaged && run.why === 'damaged';
    const isEmpty = patches === 0 && left.some(isToMode2);
    const isWanted = partial || (!tail && !isEmpty && left.every(isSkipped));
    return { script: isWanted ? scriptForBase(parts.script(calls), image.base) : null, patches, left, tail };
}

/** Whether blocks are left out of a script because they become Mode 2. */
export function isToMode2({ why, kinds }: Left) {
    return why === 'kind' && kinds[1] === SECTOR_KIND.MODE2;
}

/** Finds the sectors in which the image of a track and another one of the same size differ. They are passed to `take` in order. */
export async function findDifferences({ pool }: Pick<Engine, 'pool'>, { image }: Pick<OpenedTrack, 'image'>, fresh: Reader,
    take: (differing: Differing) => void | Promise<void>, watch?: Sharing): Promise<Differences> {
    const found = { sectors: 0, onlyCodes: 0 };
    await pool.share('differ', [image.reader, fresh], {}, { ...watch, base: image.base }, differing => {
        found.sectors += differing.blocks.length;
        found.onlyCodes += onlyCodesIn(differing);
        return take(differing);
    });
    return { ...found, tail: await tailsDiffer(image.reader, fresh) };
}

/** Counts the sectors in which only the codes differ, and not the address or the data. */
function onlyCodesIn({ blocks, fields }: Differing) {
    return blocks.filter((_, i) => fields.subarray(i * FIELD_COUNT, i * FIELD_COUNT + CODES_FROM).every(count => count === 0)).length;
}

/** Whether the bytes after the last sector differ. */
export async function tailsDiffer(old: Reader, fresh: Reader) {
    const [one, other] = await Promise.all([old, fresh].map(reader => {
        const at = sectorCount(reader.size) * SECTOR_SIZE;
        return readBytes(reader, at, reader.size - at);
    }));
    return one.length !== other.length || !sameBytes(one, other);
}

export const FIELD_COUNT = Object.keys(FIELDS).length;
/** The index of the EDC among the fields, after which there are only codes. */
const CODES_FROM = Object.keys(FIELDS).indexOf('edc');
export const SECOND_STATE = Object.freeze({ SOUND: 0, DAMAGED: 1, NOT_MODE1: 2 });

/** Finds the sectors that differ, and how they differ. A job for a worker. */
export function differRange(calls: Calls, old: Uint8Array, fresh: Uint8Array, first: number): Differing {
    const places = differingSectors(old, fresh);
    const records = calls.survey(sectorsAt(fresh, places), 0);
    const kindOf = (i: number) => records[RECORD_SIZE * i + RECORD.KIND];
    const fields = places.flatMap((place, i) => {
        const [one, other] = [old, fresh].map(it => sectorOf(it, place));
        return differingBytes(one, other, kindOf(i) === SECTOR_KIND.MODE2 ? fieldsOfMode2(other) : FIELDS);
    });
    const states = places.map((_, i) => {
        if (isSound(records, RECORD_SIZE * i)) return SECOND_STATE.SOUND;
        return kindOf(i) === SECTOR_KIND.MODE1 ? SECOND_STATE.DAMAGED : SECOND_STATE.NOT_MODE1;
    });
    return { blocks: Uint32Array.from(places, place => first + place), fields: Uint16Array.from(fields), states: Uint8Array.from(states) };
}

/** The fields of a Mode 2 sector. Its user data begins with the subheader, and ends where its form has the EDC. */
function fieldsOfMode2(sector: Uint8Array): Record<keyof typeof FIELDS, number> {
    const edc = edcOfMode2(sector);
    const parity = edc + FIELDS.zeros - FIELDS.edc;
    return { ...FIELDS, edc, zeros: parity, parity };
}

/** Counts the differing bytes of two sectors in each field. */
function differingBytes(old: Uint8Array, fresh: Uint8Array, fields: Record<keyof typeof FIELDS, number>) {
    const starts = Object.values(fields);
    return starts.map((start, i) => {
        let count = 0;
        for (let at = start; at < (starts[i + 1] || SECTOR_SIZE); at++) count += Number(old[at] !== fresh[at]);
        return count;
    });
}

// Checks that a script that is read has no faults and the right base, and that a generated script fits its image.

/**
 * Reads a script. Throws a Fault, `script/refused`, with the program's line, if the script has a fault, and what its reader throws.
 * @param long whether the script may have more bytes and patches than the program accepts
 */
export async function validScript(calls: Calls, pieces: Pieces, long?: boolean): Promise<ReadScript> {
    const read = await readScript(calls, pieces, long);
    if (!(read instanceof Refusal)) return read;
    const { text, tooLong, kind } = read;
    throw new Fault('script/refused', { line: new TextDecoder().decode(text).trimEnd(), tooLong, kind });
}

/** Throws a Fault, `script/other-base`, if a script names a base that is not its image's. */
export function assertBase({ bases }: ReadScript, base: number) {
    const other = bases.find(it => it.base !== base);
    if (other) throw new Fault('script/other-base', { ...other, begins: base });
}

/**
 * Finishes the script of some lines, and checks that it fits its image; null if there are no lines. Throws a Fault if its patches conflict.
 */
export async function fittingScript(calls: Calls, image: DiscImage, parts: ScriptParts): Promise<Script | null> {
    if (parts.patches === 0) return null;
    const script = scriptForBase(parts.script(calls), image.base);
    await assertFits(calls, image, script);
    return script;
}

// Applies a script to an image, or only tries its patches.

/**
 * Applies a script to an image, and returns the outcomes. The pieces of the patched image are passed to `take` in order, as soon as no
 * later patch can meet them. Their bytes may change after that. Without `take` the patches are only tried. Throws a Fault,
 * `script/other-base` or `cancelled`, and what the reader throws.
 * @param watch receives the number of the sector that is read
 */
export async function applyScript({ calls }: Pick<Engine, 'calls'>, { reader, base }: Pick<DiscImage, 'reader' | 'base'>,
    script: ReadScript, options: Omit<How, 'base'> & { take?: Take | null } = {}, watch: Watch = {}): Promise<Patched> {
    const { take = null, ...how } = options;
    assertBase(script, base);
    return passPatched(calls, watchedSectors(reader, watch), script, { ...how, base }, take);
}

/** Like applyScript, but returns the pieces of the patched image, which are kept in memory. */
export async function applyInMemory({ calls }: Pick<Engine, 'calls'>, { reader, base }: Pick<DiscImage, 'reader' | 'base'>,
    script: ReadScript, how: Omit<How, 'base'> = {}): Promise<Patched & { pieces: Piece[] }> {
    assertBase(script, base);
    return applyPatches(calls, reader, script, { ...how, base });
}

// Builds the script that reverts another one.

export type Given = (pieces: Uint8Array[], blocks: number[]) => Promise<Lines>;
/**
 * The script that reverts another one; how many patches of that one the image refuses, which are not reverted; and the blocks whose damage
 * cannot be restored, but only their address and user data.
 */
export type Undo = { script: Script, refused: number, left: Left[] };
/**
 * The reason why there is no such script: the image refuses patches of the other script, and those that it does not refuse change nothing;
 * or the other script changes nothing, for example because the image is patched already.
 */
export type NoUndo = { script: null } & ({ why: 'refused', refused: number } | { why: 'unchanged' });

/** How many sectors a comparison has, and how many comparisons may run at the same time. */
const COMPARE_SIZE = 256;
const AT_ONCE = 16;

/** Collects the lines that revert patched sectors, of which many are compared at a time. */
class TakenBack {
    parts = new ScriptParts();
    /** The blocks of the sectors that are compared next; their bytes are in `patched` and `before`. */
    blocks: number[] = [];
    patched = new ByteList();
    before = new ByteList();
    coming: Promise<Lines>[] = [];

    /**
     * @param reader of the image before the script is applied
     * @param given compares sectors
     */
    constructor(readonly reader: Reader, readonly base: number, readonly given: Given) {}

    /** @param piece of the patched image */
    async take(piece: Piece) {
        if (!('bytes' in piece)) return;
        const before = await readBytes(this.reader, piece.at, piece.bytes.length);
        for (const i of differingSectors(piece.bytes, before)) {
            this.blocks.push(this.base + piece.at / SECTOR_SIZE + i);
            this.patched.push(sectorOf(piece.bytes, i));
            this.before.push(sectorOf(before, i));
            if (this.blocks.length === COMPARE_SIZE) await this.compare();
        }
    }

    async compare() {
        const lines = this.given([this.patched.bytes().slice(), this.before.bytes().slice()], this.blocks);
        this.blocks = [];
        this.patched.size = 0;
        this.before.size = 0;
        lines.catch(() => {}); // the failure is thrown when these lines are awaited
        this.coming.push(lines);
        if (this.coming.length >= AT_ONCE) this.parts.push(await (this.coming.shift() as typeof lines));
    }

    /** Compares the remaining sectors, and returns all lines. */
    async end() {
        await this.compare();
        for (const lines of this.coming) this.parts.push(await lines);
        return this.parts;
    }
}

/**
 * Builds the script that restores the image of the track after another script was applied to it. Throws what the reader throws, and a
 * Fault: `script/refused`, `script/other-base`, or `cancelled`.
 * @param opened before the script is applied
 * @param options how the script is applied
 */
export async function undoScript({ calls, pool }: Pick<Engine, 'calls'> & { pool: Pick<Pool, 'given'> }, { image }: Pick<OpenedTrack,
    'image'>, script: Pieces, options: { carry?: boolean, long?: boolean } = {}, watch: Watch = {}): Promise<Undo | NoUndo> {
    const { base } = image;
    const { carry = false, long = false } = options;
    const read = await validScript(calls, script, long);
    const both = readerForTwo(watchedSectors(image.reader, watch));
    const back = new TakenBack(both, base, (pieces, blocks) => pool.given('lines', pieces, { blocks, how: { carry, heal: true } }));
    const take = (piece: Piece) => back.take(piece);
    const { outcomes } = await applyScript({ calls }, { reader: both, base }, read, { carry, mostBetween: 0, take });
    const parts = await back.end();
    if (watch.signal?.aborted) throw cancelled();
    const refused = outcomes.filter(({ result }) => result !== RESULT.OK).length;
    const isEmpty = parts.patches === 0 && parts.left.length === 0;
    if (isEmpty && refused > 0) return { script: null, why: 'refused', refused };
    if (isEmpty && outcomes.length > 0) return { script: null, why: 'unchanged' };
    return { script: scriptForBase(parts.script(calls), base), refused, left: parts.left };
}
