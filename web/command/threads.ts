// The threads of node that work for a pool.

import { spawn } from 'node:child_process';
import { once } from 'node:events';
import { readFileSync, readSync } from 'node:fs';
import { cpus } from 'node:os';
import { Worker, parentPort, workerData } from 'node:worker_threads';
import { gunzipSync } from 'node:zlib';
import type { Reader } from '../core/bytes.js';
import { Fault } from '../core/faults.js';
import { JOBS } from '../core/jobs/index.js';
import { Calls, hasVectors, sectorCount } from '../core/module/index.js';
import {
    Pool, UNREAD, localWorker, serving, transfersOf, type JobName, type Jobs, type Message as AnyMessage, type PoolWorker, type Shared,
    type Sharing,
} from '../core/pool/index.js';

// Runs the command again if the address space is limited (`ulimit -v`). Node reserves gigabytes for the memory of a module, so that it need
// not test each access. With a flag at its start, node tests each access, and reserves only the memory that it needs.

const TESTED = '--disable-wasm-trap-handler';
/** Bytes of addresses that are enough for the memories of all threads. */
const ENOUGH = 1e12;

/** Whether this process was started with the flag. Each thread would reserve as much again, and node ends if it gets no memory. */
function isTested() {
    return process.execArgv.includes(TESTED);
}

/** Whether the address space is limited, and the command can be run again with the flag. */
export function isLimited() {
    if (isTested() || !process.allowedNodeEnvironmentFlags.has(TESTED)) return false;
    try {
        const limit = /^Max address space +(\d+)/m.exec(readFileSync('/proc/self/limits', 'latin1'));
        return limit !== null && Number(limit[1]) < ENOUGH;
    } catch {
        return false;
    }
}

/**
 * Runs the command in a child process with the flag, and ends with its status or signal. Signals are passed to the child.
 * @param failed is called if the child cannot be started
 */
export function runAgain(signals: string[], failed: (error: unknown) => void) {
    const child = spawn(process.execPath, [TESTED, ...process.execArgv, ...process.argv.slice(1)], { stdio: 'inherit' });
    const pass = (signal: string) => void child.kill(signal);
    signals.forEach(signal => process.on(signal, pass));
    child.on('error', failed);
    child.on('exit', (status, signal) => {
        signals.forEach(it => process.off(it, pass));
        if (signal === null) process.exit(status);
        process.kill(process.pid, signal);
    });
}

/** Bytes, or a range of a file that the thread reads. */
type Piece = Uint8Array | { descriptor: number, at: number, length: number };
type Message = AnyMessage<JobName, Piece>;
/** The data of a new thread; whether it is a thread of `scan`. */
export type ThreadData = { module: WebAssembly.Module, scans: boolean };

let own: { module: WebAssembly.Module, calls: Calls } | null = null;

/**
 * The module of libcdpatch, which the main thread compiles, and its calls in this thread. All jobs use one instance of the module, since
 * nothing is awaited while it holds bytes.
 */
export function library() {
    if (own !== null) return own;
    if (!hasVectors()) throw new Fault('no-vectors', {});
    const given = workerData as ThreadData | null;
    const module = given ? given.module : new WebAssembly.Module(gunzipSync(Buffer.from(JOINED.module, 'base64')));
    own = { module, calls: new Calls(module) };
    return own;
}

/** Fewer sectors are tested, hashed, or searched before threads have started, each of which evaluates the whole program. */
const SECTORS_FOR_THREADS = 150000;
/** The same number for texts, because a sector of texts takes much longer. */
const SECTORS_OF_TEXTS_FOR_THREADS = 8000;
const MOST_THREADS = 8;
/** Sectors per range if the current thread does all work. So the bytes stay in its cache while they are read, tested, and hashed. */
const STEP_ALONE = 256;

/** The buffers of a thread. Nothing of a range is kept for the next one. */
const rooms: Uint8Array[] = [];

/**
 * The bytes of a piece, which are read here if it is a range of a file. Throws if the file has become shorter or cannot be read.
 * @param i its index among the pieces of a message
 */
function readPiece(piece: Piece, i: number) {
    if (piece instanceof Uint8Array) return piece;
    const { descriptor, at, length } = piece;
    if (!rooms[i] || rooms[i].length < length) rooms[i] = new Uint8Array(length);
    if (readSync(descriptor, rooms[i], 0, length, at) < length) throw new Error('fewer bytes');
    return rooms[i].subarray(0, length);
}

/** The reply to a message, whose job is done in this thread. */
function replyTo(message: Message) {
    const serve = serving(library().calls, JOBS);
    try {
        return serve({ ...message, pieces: message.pieces.map(readPiece) });
    } catch {
        return { number: message.number, fault: UNREAD };
    }
}

/** Starts a thread. Returns it, and a promise of whether it has started; null if it cannot be created. */
export function begunThread(scans: boolean) {
    if (isTested()) return null;
    try {
        const worker = new Worker(JOINED.file, { workerData: { module: library().module, scans } });
        const thread = { worker, begun: once(worker, 'online').then(() => true, () => false), isGone: false };
        worker.on('error', () => { thread.isGone = true; });
        return thread;
    } catch {
        return null;
    }
}

/** A thread that works for a pool. If it does not start, the current thread does its work. */
function threadWorker() {
    const thread = begunThread(false);
    const poolWorker: PoolWorker & { close(): void } = {
        async post(message: Message, transfer) {
            if (thread !== null && await thread.begun) thread.worker.postMessage(message, transfer);
            else setImmediate(() => poolWorker.onreply(replyTo(message)));
        },
        onreply() {},
        onfault() {},
        close: () => void (thread && thread.worker.terminate()),
    };
    if (thread === null) return poolWorker;
    thread.worker.on('message', reply => poolWorker.onreply(reply));
    thread.worker.on('error', error => void thread.begun.then(isBegun => isBegun && poolWorker.onfault(error)));
    return poolWorker;
}

/** Runs in a thread: serves the main thread, and reads ranges of files itself. */
export function serveThread() {
    parentPort?.on('message', (message: Message) => {
        const reply = replyTo(message);
        parentPort?.postMessage(reply, transfersOf(reply));
    });
}

/** Shares out a job among threads if it has many sectors. Else the current thread does it. */
export class Threads {
    /** Whether the current thread does all work. */
    isAlone = false;
    threads: ReturnType<typeof threadWorker>[] = [];

    constructor(readonly progress: (done: number, all: number) => void) {}

    /** Like Pool.share. */
    share<Name extends JobName>(job: Name, readers: Reader[], args: Shared<Name>, how: Sharing, take: (answer: Jobs[Name]['answer']) =>
        void | Promise<void>) {
        const pool = this.pool(sectorCount(readers[0].size));
        const step = this.isAlone ? { step: STEP_ALONE } : {};
        return pool.share(job, readers, args, { progress: this.progress, ...step, ...how }, take);
    }

    /**
     * @param sectors how many there are to do
     * @param least how many are enough for threads
     */
    hasThreads(sectors: number, least: number = SECTORS_FOR_THREADS) {
        return !this.isAlone && sectors >= least;
    }

    /** @param sectors whose texts are listed */
    poolForTexts(sectors: number) {
        return this.pool(sectors, MOST_THREADS, SECTORS_OF_TEXTS_FOR_THREADS);
    }

    /**
     * @param sectors how many there are to do
     * @param most how many threads at most
     * @param least how many sectors are enough for threads
     */
    pool(sectors: number, most: number = MOST_THREADS, least: number = SECTORS_FOR_THREADS) {
        if (!this.hasThreads(sectors, least)) return new Pool([localWorker(library().calls, JOBS)]);
        const count = Math.min(cpus().length || 1, most); // cpus() is empty where the system does not report them
        while (this.threads.length < count) this.threads.push(threadWorker());
        return new Pool(this.threads, true);
    }

    close() {
        this.threads.splice(0).forEach(thread => thread.close());
    }
}
