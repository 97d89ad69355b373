// The interface of the npm package, for JavaScript programs in node and in browsers.

import { Fault as CoreFault } from '../core/faults.js';
import { Calls, RECORD, RECORD_SIZE, STATUS, hasVectors, kindName } from '../core/module/index.js';
import { auditText, listText } from '../core/sectors/views.js';
import { sentenceOf } from '../sentences/index.js';
import { Fault, spoken } from './errors.js';
import { patchLines, patched, reported, surveyed, textOf } from './jobs.js';

export { RESULT } from '../core/module/index.js';
export { Fault, ScriptError } from './errors.js';

/** Reads a file. `read` returns at most `length` bytes from `at` on, and none only at the end. More bytes are refused. */
export type Source = { size: number, read(at: number, length: number): Promise<Uint8Array> };
/** A raw image, of 2352 bytes per sector. */
export type Input = Blob | Uint8Array | ArrayBuffer | Source;
/** A script: its bytes, or its text. */
export type ScriptInput = Input | string;
/** A signal that ends a job, which then throws its reason; and a callback for the number of bytes of the image that are done, of all. */
export type Watch = { signal?: AbortSignal, progress?: (done: number, all: number) => void };
/** `base` is the block of the first sector, by default 0. */
export type SurveySettings = { base?: number } & Watch;
/** `carry`: whether damaged sectors are patched. */
export type Settings = SurveySettings & { carry?: boolean };
/** The status of the command, and its output. */
export type Report = { status: 0 | 1 | 2, text: string };
/**
 * The outcome of a patch: its line; a RESULT, which is 0 if it was applied, or the reason why it is refused; and the block and the offset
 * of the user byte that refuses it.
 */
export type Outcome = { number: number, result: number, block: number, offset: number };
export type Patched = Report & { outcomes: Outcome[] };
/**
 * A sector: its block; its kind; and whether its address is that of a different block. For a Mode 1 sector also: whether bytes that have to
 * be 0 are not (`zeros`), whether its EDC is wrong, and how many words of its P and Q parity are wrong.
 */
export type Sector = { block: number, kind: 'nosync' | 'mode0' | 'mode1' | 'mode2' | 'other', address: boolean, zeros: boolean,
    edc: boolean, p: number, q: number };
/** A line with a patch: its number, the patch's first block, and how many old bytes it names, null if it names none. */
export type PatchLine = { line: number, block: number, old: number | null, text: string };

/** The library. */
export class Cdpatch {
    private calls;

    /** @param module `cdpatch.wasm` of this package */
    constructor(module: WebAssembly.Module) {
        const isOurs = WebAssembly.Module.exports(module).some(({ name }) => name === 'cdpatch_apply_entries');
        if (!isOurs) throw new TypeError('the module is not cdpatch.wasm of this package');
        /** @private */
        this.calls = new Calls(module);
    }

    /** The version of the library, for example '2.0.0'. */
    get version() {
        return this.calls.version();
    }

    /** Surveys an image: the kind and the errors of each sector. */
    async survey(image: Input, settings: SurveySettings = {}): Promise<Sector[]> {
        const { survey: { block, records } } = await spoken(surveyed(this.calls, image, settings));
        return Array.from({ length: records.length / RECORD_SIZE }, (_, i) => {
            const record = records.subarray(RECORD_SIZE * i);
            const kind = kindName(record[RECORD.KIND]) as Sector['kind'];
            const [address, zeros, edc] = [RECORD.ADDRESS, RECORD.ZEROS, RECORD.EDC].map(at => record[at] !== 0);
            return { block: block + i, kind, address, zeros, edc, p: record[RECORD.P], q: record[RECORD.Q] };
        });
    }

    /** The output of `cdpatch list`. For an image of more than 1000000 sectors, it is only the line that says so. */
    async list(image: Input, settings: SurveySettings = {}): Promise<Report> {
        return spoken(reported(this.calls, image, settings, listText, bytes => this.calls.kinds(bytes)));
    }

    /** The output of `cdpatch audit`. For an image of more than 1000000 sectors, it is only the line that says so. */
    async audit(image: Input, settings: SurveySettings = {}): Promise<Report> {
        return spoken(reported(this.calls, image, settings, auditText));
    }

    /** The lines with patches, in the order in which they are applied. Throws ScriptError. */
    async patches(script: ScriptInput): Promise<PatchLine[]> {
        const lines = await spoken(patchLines(this.calls, script));
        return lines.map(({ number, block, old, line }) => ({ line: number, block, old, text: textOf(line) }));
    }

    /**
     * Tries the patches of a script, and reports as `cdpatch check` does. Throws ScriptError, also if the script names a different base.
     */
    async check(image: Input, script: ScriptInput, settings: Settings = {}): Promise<Patched> {
        return spoken(patched(this.calls, image, script, settings, null));
    }

    /**
     * Creates the patched image, and passes it to `write` in order, each piece when `write` is done with the one before. A piece may be
     * kept, but it may share memory with the image, with what its `read` returned, and with other pieces: copy it before you change or
     * transfer it. `write` has to write all bytes of a piece. `writeFile` of a FileHandle does so, but its `write` does not. Throws what
     * check throws, and then nothing was written.
     */
    async apply(image: Input, script: ScriptInput, write: (bytes: Uint8Array) => void | Promise<void>, settings: Settings =
        {}): Promise<Patched> {
        if (typeof write !== 'function') throw new TypeError('write must be a function that accepts bytes');
        return spoken(patched(this.calls, image, script, settings, write));
    }
}

/** The patched image as a stream. `report` resolves when that has ended. The stream fails if `apply` throws, and also with status 2. */
export function patchedStream(cdpatch: Cdpatch, image: Input, script: ScriptInput,
    settings?: Settings): { stream: ReadableStream<Uint8Array>, report: Promise<Patched> } {
    const { readable, writable } = new TransformStream();
    const writer = writable.getWriter();
    const report = cdpatch.apply(image, script, bytes => writer.write(bytes.slice()), settings)
        .catch(error => { throw error ?? new DOMException('the stream was cancelled', 'AbortError'); });
    const end = ({ status, text }: Report) => status === STATUS.FAILED
        ? writer.abort(new Fault(text.trimEnd().split('\n').slice(-1)[0])) : writer.close();
    report.then(end, error => writer.abort(error)).catch(() => {});
    report.catch(() => {});
    return { stream: readable, report };
}

/**
 * Loads the library: `cdpatch.wasm` beside this file, or a given module or its bytes. Throws a Fault if that file is missing, or if the
 * engine has no WebAssembly SIMD.
 */
export async function load(module?: WebAssembly.Module | BufferSource): Promise<Cdpatch> {
    if (!hasVectors()) throw new Fault(sentenceOf(new CoreFault('no-vectors', {})));
    const given = module || await ownModule(new URL('./cdpatch.wasm', import.meta.url));
    return new Cdpatch(given instanceof WebAssembly.Module ? given : await WebAssembly.compile(given));
}

/** Opens a regular file in node. Throws a Fault for any other file, such as a pipe, whose size is not known. */
export async function openFile(path: string): Promise<Source & { close(): Promise<void> }> {
    const { open, stat } = await import('node:fs/promises');
    // Opening a pipe would wait for its writer.
    if (!(await stat(path)).isFile()) throw new Fault(`${path} is not a regular file`);
    const file = await open(path);
    const { size } = await file.stat();
    return {
        size,
        async read(at, length) {
            const bytes = new Uint8Array(length);
            const { bytesRead } = await file.read(bytes, 0, length, at);
            return bytes.subarray(0, bytesRead);
        },
        close: () => file.close(),
    };
}

/** The bytes of the module at a place. */
async function ownModule(place: URL): Promise<BufferSource> {
    const missing = new Fault(`cdpatch.wasm is not at ${place}; put it there, or pass its bytes to load`);
    if (place.protocol === 'file:') {
        const { readFile } = await import('node:fs/promises');
        return readFile(place).catch(error => { throw error.code === 'ENOENT' ? missing : error; });
    }
    const response = await fetch(place);
    // Some servers answer with a page instead of a file that they lack.
    const isPage = /^text\//.test(response.headers.get('content-type') || '');
    if (response.ok && !isPage) return response.arrayBuffer();
    throw missing;
}
