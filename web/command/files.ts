// The files of a run: images as readers, scripts in pieces, and new files.

import { constants, fstatSync, open, openSync, read, readFileSync, readSync, statSync, type BigIntStats } from 'node:fs';
import type { Reader } from '../core/bytes.js';
import type { DiscFile } from '../core/disc/views.js';
import { inMemory } from '../core/faults.js';
import { MOST_SECTORS, SECTOR_SIZE } from '../core/module/index.js';
import { ownFault } from '../sentences/index.js';
import { NewFile, closeFile, pathOf, writeFully, type Warn } from './new_file.js';
import { fileFault, hasCode, later, letSignalsIn, pause, tryFile } from './system.js';

// Reads the bytes of a pipe in any order, although a pipe can be read only once.

/** The number of bytes of a stream that are read at a time. */
const STREAM_STEP = 1 << 20;

/**
 * A reader of the bytes of a pipe.
 * @param pieces of STREAM_STEP bytes, the last one shorter
 */
function readerOfPieces(pieces: Uint8Array[]): Reader {
    return {
        size: pieces.reduce((sum, piece) => sum + piece.length, 0),
        async read(at, length) {
            const piece = pieces[Math.floor(at / STREAM_STEP)] || new Uint8Array(0);
            return piece.slice(at % STREAM_STEP, at % STREAM_STEP + length);
        },
    };
}

/** The most bytes of a stream, which is held in memory: those of the longest image. */
const LONGEST_STREAM = MOST_SECTORS * SECTOR_SIZE;

/**
 * Reads once from where the last read ended, and returns the number of bytes read. A pipe that is empty for the moment is tried again. On
 * Windows, the end of a pipe is an error.
 * @param done the index at which the bytes are stored
 */
async function readSome(descriptor: number, bytes: Uint8Array, done: number) {
    for (;;) {
        try {
            return await later(callback => read(descriptor, bytes, done, bytes.length - done, null, callback));
        } catch (error) {
            if (hasCode(error, 'EOF')) return 0;
            if (!hasCode(error, 'EAGAIN')) throw error;
            pause();
        }
    }
}

/**
 * Reads `length` bytes of a file, or fewer if it ends before.
 * @param readMore reads bytes to an index, and returns their number
 * @param room for at least that many bytes
 */
async function readFully(length: number, readMore: (bytes: Uint8Array, done: number) => number | Promise<number>, room?: Uint8Array) {
    const bytes = room ? room.subarray(0, length) : new Uint8Array(inMemory(() => Buffer.allocUnsafeSlow(length)).buffer);
    for (let done = 0; done < length;) {
        const count = await readMore(bytes, done);
        if (count === 0) return bytes.subarray(0, done);
        done += count;
    }
    return bytes;
}

/** A reader of a file that can be read in any order. `start` is the position in the file at which the reader begins. */
function diskReader(name: string, descriptor: number, size: number, start: number): Reader {
    return {
        size,
        async read(at, length, room) {
            await letSignalsIn();
            const found = await tryFile('read', name, () => readFully(length, (bytes, done) =>
                readSync(descriptor, bytes, done, length - done, start + at + done), room));
            if (found.length > 0 || length === 0 || at >= size) return found;
            throw fileFault('read', name, `it has become shorter, and ends at byte ${at}`);
        },
        lent: (at, length) => ({ descriptor, at: start + at, length }),
    };
}

/** The position up to which a descriptor has been read, or null if the system does not report it. */
function readSoFar(descriptor: number) {
    try {
        const found = /^pos:\s*(\d+)/m.exec(readFileSync(`/proc/self/fdinfo/${descriptor}`, 'latin1'));
        return found && Number(found[1]);
    } catch {
        return null;
    }
}

/** The time at which a file was changed, or '' if it is not a valid date. It is always from a BigIntStats: others round it. */
export function timeText({ mtime }: BigIntStats) {
    return Number.isNaN(mtime.getTime()) ? '' : mtime.toISOString();
}

/** The files of one run. */
export class Files {
    /** The names of the files that are read, by descriptor. */
    open = new Map<number, string>();
    warn: Warn = () => {};
    images = new Map<string, DiscFile>();
    /** The descriptors of images of which nothing was read yet. */
    begun = new Map<string, number>();
    unfinished = new Set<{ finish(): unknown, remove(): void }>();
    /** When each image was changed, as far as that is known. */
    changed = new Map<string, string>();

    /**
     * @param input the descriptor of standard input
     * @param onmake called before a file is made
     */
    constructor(readonly input: number, readonly onmake: () => void = () => {}) {}

    /**
     * Opens a file to read.
     * @param flags with which it is opened
     */
    async opened(name: string, flags: number = constants.O_RDONLY) {
        const descriptor = await tryFile('open', name, () => later(callback => open(pathOf(name), flags, callback)));
        this.open.set(descriptor, name);
        return descriptor;
    }

    /** Opens an image; `-` is standard input. Each image is opened once, and the bytes of a pipe are kept. */
    async image(name: string): Promise<DiscFile> {
        const known = this.images.get(name);
        const file = known || { name, reader: await this.readerOf(name, await this.begin(name)) };
        this.images.set(name, file);
        return file;
    }

    /** Opens an image without reading it. Returns its descriptor. */
    async begin(name: string) {
        const descriptor = this.begun.get(name) ?? (name === '-' ? this.input : await this.opened(name));
        this.begun.set(name, descriptor);
        return descriptor;
    }

    /**
     * Opens an image that only a cue sheet names. Throws a Fault if it is not a regular file, which could be endless or wait for a writer.
     */
    async imageOfSheet(name: string): Promise<DiscFile> {
        if (!this.begun.has(name)) {
            const descriptor = await this.opened(name, constants.O_RDONLY | (constants.O_NONBLOCK || 0));
            const stat = await tryFile('read', name, () => fstatSync(descriptor, { bigint: true }));
            if (!stat.isFile()) throw ownFault(`${name} is not a regular file, and only the cue sheet names it: give its name as IMAGE`);
            this.begun.set(name, descriptor);
        }
        return this.image(name);
    }

    /** The reader of an open file. A regular file that seems to be empty is read too: it may have bytes, for example in procfs. */
    async readerOf(name: string, descriptor: number): Promise<Reader> {
        const stat = await tryFile('read', name, () => fstatSync(descriptor, { bigint: true }));
        const start = descriptor === this.input ? readSoFar(descriptor) : 0;
        if (stat.isFile()) this.changed.set(name, timeText(stat));
        const size = Number(stat.size);
        if (stat.isFile() && size > 0 && start !== null) return diskReader(name, descriptor, Math.max(size - start, 0), start);
        const pieces = [];
        let taken = 0;
        for await (const piece of this.piecesOf(name, descriptor)) {
            pieces.push(piece);
            taken += piece.length;
            if (taken > LONGEST_STREAM) throw ownFault(`${name} is too long for a pipe: write it to a file first`, { file: name });
        }
        return readerOfPieces(pieces);
    }

    /** The bytes of a file in pieces of STREAM_STEP bytes, the last one shorter. `opened` is its descriptor, if it is open. */
    async *piecesOf(name: string, opened?: number) {
        const descriptor = opened === undefined ? await this.opened(name) : opened;
        for (let going = true; going;) {
            const piece = await tryFile('read', name, () => readFully(STREAM_STEP, (bytes, done) => readSome(descriptor, bytes, done)));
            going = piece.length === STREAM_STEP;
            if (piece.length > 0) yield piece;
        }
    }

    /** @param name of a file that must not exist */
    async make(name: string) {
        this.onmake();
        const file = await tryFile('create', name, () => new NewFile(name, it => this.unfinished.delete(it), text => this.warn(text)));
        this.unfinished.add(file);
        return file;
    }

    /** Opens a device such as /dev/null for writing; null if the name is not that of a device. Nothing in it can be lost. */
    async device(name: string) {
        const stat = await tryFile('create', name, () => statSync(pathOf(name), { bigint: true, throwIfNoEntry: false }));
        if (!stat?.isCharacterDevice()) return null;
        const descriptor = await tryFile('open', name, () => openSync(name, 'w'));
        this.open.set(descriptor, name);
        const write = (bytes: Uint8Array) => tryFile('write', name, () => writeFully(descriptor, bytes));
        return { descriptor, write };
    }

    /** Completes the new files. */
    async finish() {
        for (const file of this.unfinished) await file.finish();
    }

    removeUnfinished() {
        this.unfinished.forEach(file => file.remove());
        this.unfinished.clear();
    }

    /** Removes unfinished files, and closes all files. */
    close() {
        this.removeUnfinished();
        this.open.forEach((name, descriptor) => closeFile(descriptor, name, this.warn));
        this.open.clear();
    }
}
