// Creates new files. A file gets its name only when it is complete. Until then it has a temporary name in the same directory. If the file
// system has no hard links, the file has its own name from the start, and is removed on failure.

import { randomBytes } from 'node:crypto';
import {
    closeSync, fchmodSync, fstatSync, fsync, fsyncSync, linkSync, lstatSync, openSync, readFileSync, realpathSync, renameSync, statSync,
    unlinkSync, writeSync,
} from 'node:fs';
import { basename, dirname, join, win32 } from 'node:path';
import { READ_SIZE, bytesOfPieces, type Piece, type Reader } from '../core/bytes.js';
import { ESCAPED_BYTE, SURROGATE_OF_BYTE } from '../core/tasks/index.js';
import { fileFault, hasCode, later, letSignalsIn, reasonOf, tryFile } from './system.js';

// Converts names of files. To the system they are bytes, usually UTF-8. Here, a byte that is not UTF-8 is a lone surrogate.

/** Matches valid UTF-8, or a byte that is not valid, in a text in which each byte is a character. */
const PARTS = new RegExp(`((?:${[
    '[\\0-\\x7F]', '[\\xC2-\\xDF][\\x80-\\xBF]', '\\xE0[\\xA0-\\xBF][\\x80-\\xBF]', '[\\xE1-\\xEC\\xEE\\xEF][\\x80-\\xBF]{2}',
    '\\xED[\\x80-\\x9F][\\x80-\\xBF]', '\\xF0[\\x90-\\xBF][\\x80-\\xBF]{2}', '[\\xF1-\\xF3][\\x80-\\xBF]{3}',
    '\\xF4[\\x80-\\x8F][\\x80-\\xBF]{2}',
].join('|')})+)|[^]`, 'g');

/** Converts the bytes of a name to text. */
export function nameOfBytes(bytes: Buffer) {
    return bytes.toString('latin1').replace(PARTS, (it, valid) =>
        valid ? Buffer.from(valid, 'latin1').toString() : String.fromCharCode(SURROGATE_OF_BYTE + it.charCodeAt(0)));
}

/** Converts a name to a path that system calls accept: to bytes if it is not UTF-8. */
export function pathOf(name: string) {
    if (!ESCAPED_BYTE.test(name)) return name;
    const bytesOf = (part: string, i: number) =>
        i % 2 === 0 ? Buffer.from(part) : Buffer.of(part.charCodeAt(0) - SURROGATE_OF_BYTE);
    return Buffer.concat(name.split(ESCAPED_BYTE).map(bytesOf));
}

export function hasOddBytes(name: string) {
    return ESCAPED_BYTE.test(name);
}

/** The arguments of the process with their original bytes: node reads bytes that are not UTF-8 as U+FFFD. */
export function wordsOfProcess() {
    const words = process.argv.slice(2);
    if (!words.some(word => word.includes('\uFFFD'))) return words;
    try {
        return nameOfBytes(readFileSync('/proc/self/cmdline')).split('\0').slice(0, -1).slice(-words.length);
    } catch {
        return words;
    }
}

/** Matches the name of a Windows device, which may have any extension. */
const DEVICE = /^(?:con|prn|aux|nul|conin\$|conout\$|(?:com|lpt)[0-9\xB9\xB2\xB3])(?:[ .]|$)/i;

/**
 * Whether this path is not a file on Windows, but a device, or a stream beside a file's bytes. Node would make a file that no other program
 * could open.
 */
export function isNoFileOfWindows(path: string) {
    const { root, base } = win32.parse(path);
    return DEVICE.test(base) || path.slice(root.length).includes(':') || /^[\\/]{2}\.[\\/]/.test(path);
}

/** The path of a file in a directory. On Windows, `D:` is the current directory of that drive, but `join` makes it the drive's root. */
export function pathIn(directory: string, name: string) {
    const isDrive = process.platform === 'win32' && /^[a-z]:$/i.test(directory);
    return isDrive ? `${directory}.\\${name}` : join(directory, name);
}

/** The number of bytes after which a sync to the disk is started. */
const SYNC_SIZE = 1 << 26;

/** Writes all bytes, with more writes if the first are short. */
export function writeFully(descriptor: number, bytes: Uint8Array) {
    for (let done = 0; done < bytes.length;) done += writeSync(descriptor, bytes, done);
}

/** Prints a message about a failure that leaves the result of the job as it is. */
export type Warn = (text: string) => void;

/** Removes a temporary file, which may be gone already. */
function forget(place: string, warn: Warn) {
    try {
        unlinkSync(place);
    } catch (error) {
        if (!hasCode(error, 'ENOENT')) warn(`cannot remove ${place}: ${reasonOf(error)}`);
    }
}

/** Closes a file whose bytes no longer matter, or which was only read. */
export function closeFile(descriptor: number, name: string, warn: Warn) {
    try {
        closeSync(descriptor);
    } catch (error) {
        warn(`cannot close ${name}: ${reasonOf(error)}`);
    }
}

function placeBeside(name: string) {
    return pathIn(dirname(name), `.cdscript-${randomBytes(8).toString('hex')}`);
}

/**
 * Replaces the bytes of a file. Whatever happens, it has the old bytes or the new bytes, and a symbolic link still leads to it.
 * @param isKnown whether the old bytes are still those that the new ones replace. If they are not, nothing changes
 * @returns whether they were
 */
export function replaceFile(name: string, bytes: Uint8Array, warn: Warn, isKnown: () => boolean) {
    const real = realpathSync(name);
    const place = placeBeside(real);
    const descriptor = openSync(place, 'wx');
    try {
        try {
            fchmodSync(descriptor, Number(statSync(real, { bigint: true }).mode) & 0o7777);
            writeFully(descriptor, bytes);
            syncFile(descriptor);
        } finally {
            closeSync(descriptor);
        }
        const isReplaced = isKnown();
        if (isReplaced) renameSync(place, real);
        return isReplaced;
    } finally {
        forget(place, warn);
    }
}

/** Waits until a file is on the disk. Ignores a file system that does not support this (EINVAL). */
function syncFile(descriptor: number) {
    try {
        fsyncSync(descriptor);
    } catch (error) {
        if (!hasCode(error, 'EINVAL')) throw error;
    }
}

/** Opens a file with a temporary name beside its own name. Returns null if the file system has no hard links. */
function openedBeside(name: string, warn: Warn) {
    const place = placeBeside(name);
    const descriptor = openSync(place, 'wx');
    try {
        linkSync(place, `${place}-`);
    } catch {
        closeFile(descriptor, place, warn);
        forget(place, warn);
        return null;
    }
    forget(`${place}-`, warn);
    return { place, descriptor };
}

/** Opens a file that must not exist. */
function openedNew(name: string, warn: Warn) {
    if (process.platform === 'win32' && isNoFileOfWindows(name)) throw Object.assign(new Error(), { code: 'ENXIO' });
    if (lstatSync(name, { bigint: true, throwIfNoEntry: false })) throw Object.assign(new Error(), { code: 'EEXIST' });
    const isName = basename(name) !== '' && !/[/\\]$/.test(name);
    return isName && openedBeside(name, warn) || { place: name, descriptor: openSync(name, 'wx') };
}

/** A new output file; it is deleted on failure unless it was finished. */
export class NewFile {
    /** What identifies the file once it is closed. */
    closed: { dev: bigint, ino: bigint } | null = null;
    unsynced = 0;
    room = new Uint8Array(READ_SIZE);
    /** The last sync: resolves to null, or to the error. */
    syncing: Promise<unknown> | null = null;
    place; descriptor;

    /** @param name of a file that must not exist */
    constructor(readonly name: string, readonly finished: (file: NewFile) => void, readonly warn: Warn) {
        const { place, descriptor } = openedNew(name, warn);
        this.place = place;
        this.descriptor = descriptor;
    }

    async write(bytes: Uint8Array) {
        await letSignalsIn();
        await tryFile('write', this.name, () => writeFully(this.descriptor, bytes));
        this.unsynced += bytes.length;
        if (this.unsynced < SYNC_SIZE) return;
        await this.synced();
        this.sync();
    }

    /** Overwrites bytes at the beginning of the file. */
    async writeFirst(bytes: Uint8Array) {
        await tryFile('write', this.name, () => {
            for (let done = 0; done < bytes.length;) done += writeSync(this.descriptor, bytes, done, bytes.length - done, done);
        });
    }

    /**
     * @param reader of the image that the piece refers to
     * @param seen receives the bytes that are written
     */
    async writePiece(reader: Reader, piece: Piece, seen?: (bytes: Uint8Array) => void) {
        for await (const bytes of bytesOfPieces(reader, [piece], this.room)) {
            if (seen) seen(bytes);
            await this.write(bytes);
        }
    }

    /** Starts to write the file to the disk, while more bytes are added. */
    sync() {
        this.unsynced = 0;
        this.syncing = later(done => fsync(this.descriptor, done)).then(() => null, error => error);
    }

    /** Waits for the last `sync`, whose failure the system reports only once. Ignores a file system that does not support it (EINVAL). */
    async synced() {
        const error = await this.syncing;
        if (error && !hasCode(error, 'EINVAL')) throw fileFault('write', this.name, error);
    }

    /** Closes the complete file. On a network disk, only this may report that bytes were not written. */
    close() {
        const { dev, ino } = fstatSync(this.descriptor, { bigint: true });
        this.closed = { dev, ino };
        closeSync(this.descriptor);
    }

    /** Waits until the complete file is on the disk, and gives it its name. Throws a Fault if another file has got that name meanwhile. */
    async finish() {
        await this.synced();
        this.sync();
        await this.synced();
        await tryFile('write', this.name, () => this.close());
        if (this.place !== this.name) {
            await tryFile('create', this.name, () => linkSync(this.place, this.name));
            forget(this.place, this.warn);
        }
        this.finished(this);
    }

    /** Closes and removes the file, unless the name with which it was opened now belongs to a different file. */
    remove() {
        try {
            const own = this.closed || fstatSync(this.descriptor, { bigint: true });
            const found = lstatSync(this.place, { bigint: true });
            if (own.dev === found?.dev && own.ino === found.ino) forget(this.place, this.warn);
        } catch {
            // It is gone already.
        }
        if (this.closed === null) closeFile(this.descriptor, this.name, this.warn);
    }
}
