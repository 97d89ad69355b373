// The jobs of the package, which use the core.

import { PieceKeeper, READ_SIZE, bytesOfPieces, readBytes, type Piece } from '../core/bytes.js';
import { FAILURE, LAST_BASE, RECORD_SIZE, SECTOR_SIZE, STATUS, sectorCount, type Calls } from '../core/module/index.js';
import { watchedReader } from '../core/readers/views.js';
import { readLines } from '../core/script/views.js';
import { imageTooLong, type listText } from '../core/sectors/views.js';
import { applyScript, validScript } from '../core/tasks/index.js';
import type { Input, Patched, Report, ScriptInput, Settings, Source, Watch } from './cdpatch.js';
import { ScriptError } from './errors.js';

// Checks the arguments of the package: converts images and scripts of several types to sources, and ends their reads by a signal.

const KINDS = 'a Blob, a Uint8Array, an ArrayBuffer, the result of openFile, or another object with size and read(at, length)';

function assertSource(input: any, kinds: string) {
    const { size, read } = Object(input);
    if (Number.isSafeInteger(size) && size >= 0 && typeof read === 'function') return;
    throw new TypeError(`${kinds}, not ${input?.constructor?.name ?? input}`);
}

/**
 * Checks the result of a source's `read`. With more bytes than requested, the image would silently become wrong.
 * @param length how many bytes were requested
 */
function bytesGiven(given: any, length: number): Uint8Array {
    // Bytes of another realm, such as a frame, are instances of a different Uint8Array.
    const isBytes = Object.prototype.toString.call(given) === '[object Uint8Array]';
    if (!isBytes) throw new TypeError(`read(at, length) must return a Uint8Array, not ${given?.constructor?.name ?? given}`);
    if (given.length > length) throw new RangeError(`read(at, length) must return at most ${length} bytes, not ${given.length}`);
    return given;
}

/** @param kinds the allowed types, for the message */
export function sourceOf(input: Input, kinds: string = `an image must be ${KINDS}`): Source {
    const bytes = input instanceof ArrayBuffer ? new Uint8Array(input) : input;
    if (bytes instanceof Uint8Array) return { size: bytes.length, read: async (at, length) => bytes.subarray(at, at + length) };
    if (bytes instanceof Blob) {
        return { size: bytes.size, read: async (at, length) => new Uint8Array(await bytes.slice(at, at + length).arrayBuffer()) };
    }
    assertSource(bytes, kinds);
    return { size: bytes.size, read: async (at, length) => bytesGiven(await bytes.read(at, length), length) };
}

function scriptSource(script: ScriptInput): Source {
    return sourceOf(typeof script === 'string' ? new TextEncoder().encode(script) : script, `a script must be a string, ${KINDS}`);
}

/** Throws a RangeError if a block cannot be the first one of an image. */
function assertBase(base: unknown) {
    if (Number.isInteger(base) && Number(base) >= 0 && Number(base) <= LAST_BASE) return;
    const found = typeof base === 'number' ? base : `the ${typeof base} ${String(base)}`;
    throw new RangeError(`a base must be a whole number from 0 to ${LAST_BASE}, not ${found}`);
}

/** For each setting but the base, whether a value has its type, and that type. */
const SETTINGS: Record<string, [(value: any) => boolean, string]> = {
    carry: [value => typeof value === 'boolean', 'true or false'],
    progress: [value => typeof value === 'function', 'a function'],
    signal: [value => typeof Object(value).aborted === 'boolean', 'an AbortSignal'],
};

/**
 * The settings of a job, with their defaults. Throws a TypeError for a different type and for an unknown name, since with a mistyped `base`
 * the report would silently have wrong blocks.
 */
function settingsOf(settings: Settings) {
    if (typeof settings !== 'object' || settings === null) throw new TypeError(`settings must be an object, not ${settings}`);
    for (const [name, value] of Object.entries(settings)) {
        if (name === 'base' || value === undefined) continue;
        const [isRight, type] = Object.hasOwn(SETTINGS, name) ? SETTINGS[name] : [];
        if (!isRight) throw new TypeError(`unknown setting ${name}; the settings are base, ${Object.keys(SETTINGS).join(', ')}`);
        if (!isRight(value)) throw new TypeError(`the setting ${name} must be ${type}, not ${value?.constructor?.name ?? value}`);
    }
    const { base = 0, carry = false, progress = () => {}, signal } = settings;
    assertBase(base);
    return { base, carry, progress, signal };
}

export async function* piecesOf(source: Source) {
    for (let at = 0; at < source.size; at += READ_SIZE) yield readBytes(source, at, Math.min(READ_SIZE, source.size - at));
}

/** Throws the reason of a signal that ends a job. */
function assertWanted(signal: Watch['signal']) {
    if (signal && signal.aborted) throw signal.reason;
}

/** Wraps a source so that its reads throw as soon as a signal ends the job. `onRead` receives the place where each read begins. */
function watchedSource(source: Source, signal: Watch['signal'], onRead?: (at: number) => void): Source {
    return watchedReader(source, at => {
        assertWanted(signal);
        if (onRead) onRead(at);
    });
}

export function textOf(bytes: Uint8Array) {
    return new TextDecoder().decode(bytes);
}

function reportOf({ status, text }: { status: number, text: Uint8Array }): Report {
    return { status: status as 0 | 1 | 2, text: textOf(text) };
}

/**
 * Surveys an image: the records of its sectors, and how many bytes follow the last sector.
 * @param survey returns the records of some sectors
 */
export async function surveyed(calls: Calls, image: Input, settings: Settings, survey = (bytes: Uint8Array, block: number) =>
    calls.survey(bytes, block)) {
    const { base, signal, progress } = settingsOf(settings);
    const source = watchedSource(sourceOf(image), signal);
    const count = sectorCount(source.size);
    const records = new Uint8Array(RECORD_SIZE * count);
    const step = Math.floor(READ_SIZE / SECTOR_SIZE);
    for (let i = 0; i < count; i += step) {
        progress(i * SECTOR_SIZE, source.size);
        const bytes = await readBytes(source, i * SECTOR_SIZE, Math.min(step, count - i) * SECTOR_SIZE);
        records.set(survey(bytes, base + i), RECORD_SIZE * i);
    }
    progress(source.size, source.size);
    return { survey: { block: base, records }, tail: source.size - count * SECTOR_SIZE };
}

/** The report of a command on an image's sectors. If the image is too long, it is only the line that says so, and nothing is read. */
export async function reported(calls: Calls, image: Input, settings: Settings, made: typeof listText,
    records?: (bytes: Uint8Array, block: number) => Uint8Array): Promise<Report> {
    settingsOf(settings);
    if (imageTooLong(sourceOf(image).size)) return reportOf({ status: STATUS.FAILED, text: calls.failureLine(FAILURE.LONG_IMAGE) });
    const { survey, tail } = await surveyed(calls, image, settings, records);
    return reportOf(made(calls, survey, tail));
}

/** The lines of a script with patches. Throws ScriptError. */
export async function patchLines(calls: Calls, script: ScriptInput) {
    const valid = await validScript(calls, piecesOf(scriptSource(script)));
    const read = readLines(calls, (valid as { text: Uint8Array }).text);
    if (read instanceof Uint8Array) throw new ScriptError(textOf(read).trimEnd());
    return read.patches;
}

/** Applies a script, and returns the outcomes. The patched image is passed to `write`, unless that is null. */
export async function patched(calls: Calls, image: Input, script: ScriptInput, settings: Settings,
    write: ((bytes: Uint8Array) => void | Promise<void>) | null): Promise<Patched> {
    const { base, carry, signal, progress } = settingsOf(settings);
    const source = watchedSource(sourceOf(image), signal, at => write || progress(at, source.size));
    const read = await validScript(calls, piecesOf(scriptSource(script)));
    let done = 0;
    const keeper = new PieceKeeper();
    const take = write && (async (piece: Piece) => {
        for await (const bytes of bytesOfPieces(source, [keeper.kept(piece)])) {
            assertWanted(signal);
            await write(bytes);
            done += bytes.length;
            progress(done, source.size);
        }
    });
    const made = await applyScript({ calls }, { reader: source, base }, read, { carry, take });
    if (write === null) progress(source.size, source.size);
    return { ...reportOf(made), outcomes: made.outcomes };
}
