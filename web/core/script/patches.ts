// Applies the patches of a script to an image, of which only the sectors that they meet are read.

import { ByteList, PieceCutter, PieceKeeper, type Piece, type Reader } from '../bytes.js';
import {
    FAILURE, FLAG, MOST_SECTORS, RESULT, SECTOR_SIZE, STATUS, STOP, sectorCount, type Answer, type Calls, type ScriptJob,
} from '../module/index.js';
import { ReadAhead } from '../readers/index.js';
import { imageTooLong } from '../sectors/index.js';
import { isTurnDue, letOthersIn } from '../turns.js';
import type { ScriptModel } from './model.js';
import type { ReadScript } from './script.js';

// Runs a script on an image. The calls decide what the patches do, and this file reads the image, and passes it on.

export type Take = (piece: Piece) => void | Promise<void>;

/**
 * Options of a run. `base`: the block of the image's first sector. `carry`: whether damaged sectors are patched too. `withoutOld`: whether
 * old bytes are not compared. `mostBetween`: up to how many bytes between patched sectors are passed on with them, if they were read too.
 */
export type How = { base: number, carry?: boolean, withoutOld?: boolean, mostBetween?: number };

/** The size in bytes from which joined bytes of adjacent sectors are passed on. */
const JOINED_SIZE = 1 << 19;
/** Values of `mostBetween`: if pieces are held, and if they are written at once, where reading a slice again takes longer. */
export const BETWEEN_HELD = 1 << 14;
export const BETWEEN_WRITTEN = 1 << 17;

/** Joins the bytes of adjacent pieces. */
class JoinedPieces extends PieceCutter {
    at; bytes;

    constructor(take: Take) {
        super(take);
        this.at = 0;
        this.bytes = new ByteList();
    }

    /** @param bytes the bytes there, which follow those not passed on yet. They are copied before anything is awaited. */
    async join(at: number, bytes: Uint8Array) {
        if (this.bytes.size === 0) this.at = at;
        this.bytes.push(bytes);
        if (this.bytes.size >= JOINED_SIZE) await this.giveBytes();
    }

    /** Passes the joined bytes on. Their memory is then used for the next ones. */
    async giveBytes() {
        if (this.bytes.size > 0) await this.put(this.at, this.bytes.bytes());
        this.bytes.size = 0;
    }
}

/** How many sectors are patched at a time, if adjacent patches touch them: copying others costs more than a further call. */
const PATCHED_AT_ONCE = 64;

/**
 * What the caller of `stepsOf` does next with the bytes of the image from `at` on. `read`: it puts `size` bytes at the address `place`.
 * `write`: the bytes at that address are those of the patched image. `copy`: no patch changes these bytes. `log`: it notes the answers.
 * `fail`: it prints the line, and no step follows.
 */
export type Step = { kind: 'read' | 'write', at: number, size: number, place: number } | { kind: 'copy', at: number, size: number }
    | { kind: 'log', answers: Answer[] } | { kind: 'fail', line: Uint8Array };
/** A script in pieces; for a part of a long script, also the numbers that its lines have there. */
type ScriptText = { pieces(): Uint8Array[], numberOf?(number: number): number };

/**
 * The sectors of an image that the next patches touch, at an address in the module's memory. Sectors stay there as long as a patch may
 * touch them: they are not read again, because the patches before it may have changed them.
 */
class PatchedSectors {
    place; first; end; isTooLong;
    held = 0;

    constructor(readonly calls: Calls, readonly base: number, readonly size: number) {
        this.place = calls.lend(PATCHED_AT_ONCE * SECTOR_SIZE);
        this.first = base;
        this.end = base + Math.min(sectorCount(size), MOST_SECTORS);
        this.isTooLong = imageTooLong(size);
    }

    /** The place of a block in the image. */
    placeOf(block: number) {
        return (block - this.base) * SECTOR_SIZE;
    }

    /** A block, or the first or the last place of the image if it is outside. */
    within(block: number) {
        return Math.min(Math.max(block, this.base), this.end);
    }

    /** The step that passes on the sectors before a block, or null if there are none. */
    written(block: number): Step | null {
        const size = this.placeOf(Math.min(block, this.first + this.held)) - this.placeOf(this.first);
        return size > 0 ? { kind: 'write', at: this.placeOf(this.first), size, place: this.place } : null;
    }

    /** The step that passes on the image between the sectors and a later place, or null if nothing is between them. */
    copied(to: number): Step | null {
        const at = this.placeOf(this.first + this.held);
        return to > at ? { kind: 'copy', at, size: to - at } : null;
    }

    /** Gives up the sectors before a block. */
    moveTo(block: number) {
        const place = this.place + this.placeOf(block) - this.placeOf(this.first);
        const end = this.place + this.held * SECTOR_SIZE;
        if (place < end) this.calls.memory.copyWithin(this.place, place, end);
        this.held = Math.max(this.first + this.held - block, 0);
        this.first = block;
    }

    /** The step that reads the sectors that the next patches touch, up to the first patch that touches sectors elsewhere. */
    missing(job: ScriptJob): Step {
        const from = this.first + this.held;
        let last = from;
        for (let i = 0; i < job.left; i++) {
            const block = this.calls.jobBlock(job, i);
            // A patch that begins before the image touches no sector.
            const end = block < this.base ? last : this.within(block + this.calls.jobBlocksMet(job, i));
            if (this.within(block) > last || end - this.first > PATCHED_AT_ONCE) break;
            last = Math.max(last, end);
        }
        this.held = last - this.first;
        return { kind: 'read', at: this.placeOf(from), size: (last - from) * SECTOR_SIZE,
            place: this.place + (from - this.first) * SECTOR_SIZE };
    }

    /** Applies the next patches. The image ends with the sectors if it is not too long, and they are its last ones. */
    apply(job: ScriptJob): Answer[] {
        const isLast = this.first + this.held === this.end && !this.isTooLong;
        return this.calls.jobApply(job, this.place, this.held, this.first, isLast);
    }
}

/** The steps by which a script is applied. Some of its patches are left if the image is too long for them. */
function* stepsOfPart(sectors: PatchedSectors, job: ScriptJob, script: ScriptText): Generator<Step> {
    for (let left = -1; job.left > 0 && job.left !== left;) {
        left = job.left;
        const next = sectors.within(sectors.calls.jobBlock(job, 0));
        const [write, copy] = [sectors.written(next), sectors.copied(sectors.placeOf(next))];
        if (write !== null) yield write;
        if (copy !== null) yield copy;
        sectors.moveTo(next);
        yield sectors.missing(job);
        do {
            const answers = sectors.apply(job);
            if (script.numberOf) for (const it of answers) it.number = script.numberOf(it.number);
            yield { kind: 'log', answers };
        } while (job.stop === STOP.CAPACITY);
    }
}

/**
 * Yields the steps by which the parts of a script, in order, are applied to an image of `size` bytes whose first sector is block `base`.
 * The caller does each step before it requests the next one.
 */
export function* stepsOf(calls: Calls, parts: Iterable<ScriptText>, base: number, size: number, flags: number): Generator<Step> {
    const sectors = new PatchedSectors(calls, base, size);
    let isDone = true;
    try {
        for (const part of parts) {
            const job = calls.jobBegin(part.pieces(), base, flags);
            try {
                if (job.refusal === null) yield* stepsOfPart(sectors, job, part);
                else return yield { kind: 'fail', line: job.refusal };
                isDone = job.left === 0;
            } finally {
                calls.jobEnd(job);
            }
            if (!isDone) break;
        }
        const [write, copy] = [sectors.written(sectors.end), sectors.copied(sectors.isTooLong ? sectors.placeOf(sectors.end) : size)];
        if (isDone && write !== null) yield write;
        if (isDone && copy !== null) yield copy;
        if (!isDone || sectors.isTooLong) yield { kind: 'fail', line: calls.failureLine(FAILURE.LONG_IMAGE) };
    } finally {
        calls.giveBack(sectors.place);
    }
}

/** The steps of a whole script. */
export function stepsOfScript(calls: Calls, script: Uint8Array[], base: number, size: number, flags: number) {
    return stepsOf(calls, [{ pieces: () => script }], base, size, flags);
}

/** The outcome of a patch. */
export type Outcome = Answer;

/** The result of all patches: the status of the command, its output, and the outcomes in the order of application. */
export type Patched = { status: number, text: Uint8Array, outcomes: Outcome[] };

/** The log of a script, and the outcomes of its patches. */
class PatchLog {
    text = new ByteList();
    outcomes: Outcome[] = [];

    constructor(readonly calls: Calls) {}

    add(answers: Answer[]) {
        for (const it of answers) {
            this.text.push(this.calls.outcomeLine(it.number, it.result, it.block, it.offset));
            this.outcomes.push(it);
        }
    }

    /** @param failure the line of a failure, or null */
    patched(failure: Uint8Array | null): Patched {
        const { text, outcomes } = this;
        const refused = outcomes.filter(({ result }) => result !== RESULT.OK).length;
        text.push(failure || this.calls.lastLine(outcomes.length - refused, refused));
        const status = refused > 0 ? STATUS.FOUND : STATUS.DONE;
        return { status: failure === null ? status : STATUS.FAILED, text: text.bytes(), outcomes };
    }
}

/**
 * Applies a script to an image, and returns the outcomes. The pieces of the patched image are passed to `take` in order, as soon as no
 * later patch can meet them. Their bytes may be overwritten once `take` is done.
 * @param take null if the image is not needed
 */
export async function passPatched(calls: Calls, reader: Reader, script: ReadScript, how: How, take: Take | null = null): Promise<Patched> {
    const { base, carry = false, withoutOld = false, mostBetween = BETWEEN_HELD } = how;
    const ahead = new ReadAhead(reader);
    const out = take && new JoinedPieces(take);
    const log = new PatchLog(calls);
    const flags = (carry ? FLAG.CARRY : 0) + (withoutOld ? FLAG.WITHOUT_OLD : 0);
    const steps = 'parts' in script ? stepsOf(calls, script.parts, base, reader.size, flags)
        : stepsOfScript(calls, [script.text], base, reader.size, flags);
    let failure: Uint8Array | null = null;
    for (const step of steps) {
        if (step.kind === 'read') {
            for (let done = 0; done < step.size;) {
                const at = step.at + done;
                const bytes = ahead.units(at, step.size - done, SECTOR_SIZE) || await ahead.read(at, SECTOR_SIZE);
                calls.memory.set(bytes, step.place + done);
                done += bytes.length;
            }
        } else if (step.kind === 'log') log.add(step.answers);
        else if (step.kind === 'fail') failure = step.line;
        else if (out !== null) {
            const { at, size } = step;
            const isNear = step.kind === 'copy' && size <= mostBetween;
            const between = isNear ? ahead.here(at, size) || await ahead.bytesOn(at, size) : null;
            const bytes = step.kind === 'write' ? calls.memory.subarray(step.place, step.place + size) : between;
            await (bytes === null ? out.giveBytes() : out.join(at, bytes));
        }
        if (isTurnDue()) await letOthersIn();
    }
    if (out !== null) await out.giveBytes();
    if (out !== null && failure === null) await out.keep(reader.size);
    return log.patched(failure);
}

/** Applies a script to an image, and returns the outcomes and the pieces of the patched image. */
export async function applyPatches(calls: Calls, reader: Reader, script: ReadScript, how: How): Promise<Patched & { pieces: Piece[] }> {
    const pieces: Piece[] = [];
    const keeper = new PieceKeeper();
    return { ...await passPatched(calls, reader, script, how, piece => void pieces.push(keeper.kept(piece))), pieces };
}

// Reads an image as a script patches it, without applying the whole script: only the lines near the sectors that are read.

/** The image after a script. The module decides what the lines do. It is valid until the script changes. */
export class PatchedReader {
    /** The sectors that were patched, null if no line is near. */
    sectors = new Map<number, Uint8Array | null>();
    reader; base; size;

    constructor(readonly calls: Calls, { reader, base }: { reader: Reader, base: number }, readonly script: ScriptModel) {
        const ahead = new ReadAhead(reader);
        const read = (at: number, length: number) => ahead.bytesAt(at, length);
        this.reader = { size: reader.size, read };
        this.base = base;
        this.size = reader.size;
    }

    async read(at: number, length: number) {
        const bytes = (await this.reader.read(at, length)).slice();
        const end = Math.floor((at + length - 1) / SECTOR_SIZE);
        for (let i = Math.floor(at / SECTOR_SIZE); i <= end; i++) {
            const sector = await this.sector(i);
            if (sector === null) continue;
            const from = Math.max(i * SECTOR_SIZE, at);
            const to = Math.min((i + 1) * SECTOR_SIZE, at + length);
            bytes.set(sector.subarray(from - i * SECTOR_SIZE, to - i * SECTOR_SIZE), from - at);
        }
        return bytes;
    }

    /** A sector as the script patches it; null if no line is near. */
    async sector(i: number) {
        const known = this.sectors.get(i);
        if (known !== undefined) return known;
        const text = this.script.scriptNear(this.base + i);
        const sector = text === '' ? null : await this.patched(i, text);
        this.sectors.set(i, sector);
        return sector;
    }

    async patched(i: number, text: string) {
        const read = { text: new TextEncoder().encode(text), bases: [] };
        const { pieces } = await applyPatches(this.calls, this.reader, read, { base: this.base, carry: true });
        const at = i * SECTOR_SIZE;
        for (const piece of pieces) {
            if (!('bytes' in piece) || at < piece.at || at >= piece.at + piece.bytes.length) continue;
            return piece.bytes.slice(at - piece.at, at - piece.at + SECTOR_SIZE);
        }
        return null;
    }
}
