// The system's side: writes output to standard output, and messages and progress to standard error, waits for signals, and knows the
// system's error codes.

import { writeSync } from 'node:fs';
import { isatty } from 'node:tty';
import { ByteList } from '../core/bytes.js';
import { Fault, failedBy, type Subject } from '../core/faults.js';
import { ownFault, sentenceOf } from '../sentences/index.js';

// Waits for signals, for calls of node, and before a pipe that is full or empty is tried again.

/** How often to yield so that pending signals run, in milliseconds. */
const YIELD_INTERVAL = 50;

let lastTurn = 0;

/** Lets node handle signals, if it could not for a while. Synchronous calls would delay the signals until the end of the job. */
export async function letSignalsIn() {
    if (Date.now() - lastTurn < YIELD_INTERVAL) return;
    lastTurn = Date.now();
    await turn();
}

/** Lets node handle everything that is pending: signals, and messages of threads. */
export function turn() {
    return new Promise(resolve => setImmediate(resolve));
}

/** The promise of a call of node with a callback. Signals are handled while it waits, for example for a pipe that nobody writes to. */
export function later(begin: (done: (error: unknown, value: number) => void) => void): Promise<number> {
    return new Promise((resolve, reject) => begin((error, value) => error ? reject(error) : resolve(value)));
}

/** In milliseconds. */
const PAUSE = 2;

const pausing = new Int32Array(new SharedArrayBuffer(4));

export function pause() {
    Atomics.wait(pausing, 0, 0, PAUSE);
}

// Errors of files, and the meanings of the system's error codes. The status after any error is 2.

const REASONS: Record<string, string> = {
    EACCES: 'no permission',
    EBADF: 'it is not open',
    EEXIST: 'it already exists',
    EFTYPE: 'it is not a regular file',
    EINTR: 'interrupted',
    EIO: 'the disk or the drive has an error',
    EISDIR: 'it is a directory',
    ELOOP: 'too many levels of symbolic links',
    EMFILE: 'too many files are open',
    ENOENT: 'there is no such file or directory',
    ENOMEM: 'no memory',
    ENOSPC: 'the disk is full',
    ENOTDIR: 'a part of the path is not a directory',
    ENXIO: 'it cannot be the name of a file',
    EDQUOT: 'the quota is used up',
    EPERM: 'no permission',
    EROFS: 'the disk is read-only',
};

type Attempt = 'open' | 'read' | 'create' | 'write';

function codeOf(error: any) {
    return error instanceof Error && 'code' in error ? String((error as any).code) : '';
}

export function reasonOf(error: unknown) {
    return REASONS[codeOf(error)] || codeOf(error) || String(error);
}

/** Whether an error has a code of the system. */
export function hasCode(error: unknown, code: string) {
    return codeOf(error) === code;
}

/** The Fault of a file operation that failed. */
export function fileFault(attempt: Attempt, name: string, error: unknown) {
    return new Fault('file', { sentence: `cannot ${attempt} ${name}: ${reasonOf(error)}`, file: name });
}

/** Runs a file operation. Throws a Fault if it fails: its own, or else `file`. */
export async function tryFile<T>(attempt: Attempt, name: string, tried: () => T | Promise<T>): Promise<T> {
    try {
        return await tried();
    } catch (error) {
        throw error instanceof Fault ? error : fileFault(attempt, name, error);
    }
}

/** Waits for what is read from a file. A failure with one of the subjects is about its contents, and its message then names the file. */
export async function inFile<T>(name: string, reading: () => Promise<T>, ...subjects: Subject[]) {
    try {
        return await reading();
    } catch (error) {
        if (!failedBy(error, ...subjects)) throw error;
        const sentence = sentenceOf(error);
        throw ownFault(sentence.startsWith(name) ? sentence : `${name}: ${sentence}`);
    }
}

// Writes output to standard output, and messages and progress to standard error.

/** The number of bytes that are collected before they are written. */
const BUFFER_SIZE = 1 << 16;

/** Minimum time between updates of the progress, in milliseconds. */
const SHOWN_EACH = 100;

/** Writes all bytes. Tries again if a pipe is full for the moment: once there are threads, node does not wait for the pipe. */
function writeToStream(descriptor: number, bytes: Uint8Array) {
    for (let done = 0; done < bytes.length;) {
        try {
            done += writeSync(descriptor, bytes, done);
        } catch (error) {
            // The reader has ended, for example `head`. Nobody is left to read a message.
            if (hasCode(error, 'EPIPE')) throw new Fault('reader-ended', { sentence: '' });
            if (!hasCode(error, 'EAGAIN')) throw ownFault(`cannot write to standard output: ${reasonOf(error)}`);
            pause();
        }
    }
}

/** Collects bytes for standard output. A job writes to it, or to a new file, with `write`. */
export class Output {
    collected = new ByteList();

    /** @param before is called before bytes are written */
    constructor(readonly descriptor: number, readonly before: () => void) {}

    async write(bytes: Uint8Array) {
        this.collected.push(bytes);
        if (this.collected.size >= BUFFER_SIZE) this.flush();
    }

    /** Writes what was collected. */
    flush() {
        const bytes = this.collected.bytes();
        this.collected = new ByteList();
        this.before();
        writeToStream(this.descriptor, bytes);
    }
}

/** Prints messages and progress. A job does not fail if they cannot be written. */
export class Messages {
    shownAt = 0;
    isShown = false;
    shows;

    constructor(readonly descriptor: number) {
        this.shows = isatty(descriptor);
    }

    write(text: string) {
        try {
            writeToStream(this.descriptor, new TextEncoder().encode(text));
        } catch {
            // There is nowhere left to report it.
        }
    }

    say(line: string) {
        this.hideProgress();
        this.write(`cdscript: ${line}\n`);
    }

    /**
     * @param done in sectors
     * @param all in sectors
     */
    progress(done: number, all: number) {
        if (!this.shows || Date.now() - this.shownAt < SHOWN_EACH) return;
        this.shownAt = Date.now();
        this.isShown = true;
        this.write(`\r${Math.floor(100 * done / all)} % of ${all} sectors`);
    }

    hideProgress() {
        if (this.isShown) this.write('\r\x1b[K');
        this.isShown = false;
    }
}
