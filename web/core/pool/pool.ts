// Distributes jobs over ranges of sectors among workers.

import { readBytes, type Reader } from '../bytes.js';
import { Fault, cancelled, newBytes, type Remark } from '../faults.js';
import { SECTOR_SIZE, type Calls } from '../module/index.js';

// The types of jobs over ranges of sectors, and of the messages between a pool and its workers.

/** The arguments beside bytes and the answer of each job, by its name. The room `jobs` adds the jobs of its table. */
export interface Jobs {
    read: { args: {}; answer: Uint8Array };
}
export type JobName = keyof Jobs;

/** The arguments that the caller of `share` passes. `share` adds `count`, the number of sectors in a range. */
export type Shared<Name extends JobName> = Omit<Jobs[Name]['args'], 'count'>;

/**
 * A function of a range of sectors, whose answer depends on nothing else. It gets the range of each image, its first block, and plain
 * data. The bytes may extend beyond the range (`beyond` of `share`). Its answer can be posted.
 */
export type Job<Name extends JobName> =
    (calls: Calls, pieces: Uint8Array[], first: number, args: Jobs[Name]['args']) => Jobs[Name]['answer'];

/** The jobs that a worker can do. */
export type JobTable = { readonly [Name in JobName]?: Job<Name> };

/** A range of a job for a worker, which reads the pieces that are lent. `own` is the interface's mark of the call of `share`. */
export interface Message<Name extends JobName = JobName, Piece = unknown> {
    number: number;
    job: Name;
    pieces: Piece[];
    first: number;
    args: Jobs[Name]['args'];
    own?: number;
}

/** A failure of a job. Without a code it is a bug. */
export type ReplyFault = Remark | { message: string };

/** The answer to the message with this number, or a failure. */
export type Reply = { number: number; answer: unknown; fault?: undefined } | { number: number; answer?: undefined; fault: ReplyFault };

/** The bytes of a range in an image. */
export type Slice = { reader: Reader, at: number, length: number };
/**
 * A worker of a pool: a worker thread, or this thread. The interface calls `onreply` with the reply of `serving`, and `onfault` if the
 * worker itself fails. With `isHere` the job is done when `post` returns, and the worker keeps no bytes.
 */
export type PoolWorker = { post(message: Message, transfer: ArrayBuffer[]): void, onreply: (reply: Reply) => void,
    onfault: (error: Error) => void, isHere?: boolean };
/** Distributes a job. */
export type Sharer = Pick<Pool, 'share'>;
/**
 * Options of `share`. `base`: the block of the first sector. `step`: sectors per range. `beyond`: how many sectors after its range a job
 * also gets. `units`: the bytes of a sector in each image, if not 2352 in all. `progress` is called with the number of sectors done.
 * `signal` ends the job. `own`: the mark of its messages.
 */
export type Sharing = { base?: number, step?: number, beyond?: number, units?: number[], progress?: (done: number, all: number) => void,
    signal?: { aborted: boolean }, own?: number };

/** Sectors per range, unless the caller passes a different number. */
const SHARED_STEP = 1024;

/** The most ranges in flight per worker. */
const RANGES_PER_WORKER = 2;

/** The fault of a reply if the worker cannot read the bytes that it is lent. */
export const UNREAD = Object.freeze({ code: 'unread' as const, facts: {} });

/** The function by which a worker answers messages. It does not throw: a failure is part of the reply. */
export function serving(calls: Calls, table: JobTable): <Name extends JobName>(message: Message<Name, Uint8Array>) => Reply {
    return ({ number, job, pieces, first, args }) => {
        try {
            const work = table[job];
            if (work === undefined) throw new TypeError(`no job ${job}`);
            return { number, answer: work(calls, pieces, first, args) };
        } catch (error) {
            return { number, fault: errorFault(error) };
        }
    };
}

/** Converts an error to an object that can be posted. */
function errorFault(error: unknown): ReplyFault {
    return error instanceof Fault ? { code: error.code, facts: error.facts } : { message: String(error) };
}

/** Whether a worker could not read the bytes that it was lent. */
function isUnread(fault: ReplyFault | undefined) {
    return fault !== undefined && 'code' in fault && fault.code === UNREAD.code;
}

/** The buffers of a reply that are transferred: those of byte arrays in the answer, or in lists of the answer. */
export function transfersOf({ answer }: Reply) {
    const held = new Set<ArrayBuffer>();
    for (const value of ArrayBuffer.isView(answer) ? [answer] : Object.values(answer || {})) {
        for (const view of Array.isArray(value) ? value : [value]) {
            if (!ArrayBuffer.isView(view)) break;
            held.add(view.buffer);
        }
    }
    return [...held];
}

/** A worker that works at once, in this thread. */
export function localWorker(calls: Calls, table: JobTable): PoolWorker {
    const serve = serving(calls, table);
    const worker: PoolWorker = {
        post: (message: Message<JobName, Uint8Array>) => worker.onreply(serve(message)),
        onreply() {},
        onfault() {},
        isHere: true,
    };
    return worker;
}

/** @param rooms memory to read into, instead of new memory */
function readSlices(slices: Slice[], rooms?: Uint8Array[] | null): Promise<Uint8Array[]> {
    return Promise.all(slices.map(({ reader, at, length }, i) => {
        if (rooms && (!rooms[i] || rooms[i].length < length)) rooms[i] = newBytes(length);
        return readBytes(reader, at, length, rooms ? rooms[i].subarray(0, length) : undefined);
    }));
}

/** The bytes in a buffer of their own, copied if necessary. */
function ownBytes(bytes: Uint8Array) {
    return bytes.length === bytes.buffer.byteLength ? bytes : bytes.slice();
}

/**
 * Distributes ranges of sectors among workers. Several jobs may run at the same time. Workers may read lent bytes themselves, each its next
 * range while it works on the last one.
 */
export class Pool {
    number = 0;
    fault: Error | null = null;
    /** The number of ranges in flight of each worker. */
    loads: Map<PoolWorker, number>;
    /** Callbacks by the number of the expected reply. */
    waiting = new Map<number, (reply: Reply) => void>();

    /**
     * @param workers one at least
     * @param lends whether workers read lent bytes. If one replies UNREAD, this thread reads for all workers from then on.
     */
    constructor(workers: PoolWorker[], public lends: boolean = false) {
        this.loads = new Map(workers.map(worker => [worker, 0]));
        for (const worker of workers) {
            worker.onreply = reply => this.settle(worker, reply);
            worker.onfault = error => this.fail(error);
        }
    }

    settle(worker: PoolWorker, reply: Reply) {
        this.loads.set(worker, (this.loads.get(worker) || 0) - 1);
        const settle = this.waiting.get(reply.number);
        this.waiting.delete(reply.number);
        if (settle) settle(reply);
    }

    /** @param error the failure of a worker, with which all expected replies and later ones fail */
    fail(error: Error) {
        this.fault = error;
        for (const [number, settle] of this.waiting) settle({ number, fault: error });
        this.waiting.clear();
    }

    /** Posts a range to the least busy worker, and returns its reply. */
    reply(range: Omit<Message, 'number'>): Promise<Reply> {
        const number = this.number++;
        if (this.fault) return Promise.resolve({ number, fault: this.fault });
        const [[worker, load]] = [...this.loads].sort(([, a], [, b]) => a - b);
        this.loads.set(worker, load + 1);
        const pieces = range.pieces.map(piece => piece instanceof Uint8Array && !worker.isHere ? ownBytes(piece) : piece);
        return new Promise(resolve => {
            this.waiting.set(number, resolve);
            try {
                worker.post({ ...range, number, pieces }, pieces.flatMap(piece => piece instanceof Uint8Array ? piece.buffer : []));
            } catch (error) {
                this.settle(worker, { number, fault: errorFault(error) });
            }
        });
    }

    /** The reply of a worker that reads the bytes itself. If it cannot, this thread reads them. */
    async lentReply(range: Omit<Message, 'number' | 'pieces'>, slices: Slice[]): Promise<Reply> {
        const reply = await this.reply({ ...range, pieces: slices.map(({ reader, at, length }) => reader.lent?.(at, length)) });
        if (!isUnread(reply.fault)) return reply;
        this.lends = false;
        try {
            return await this.reply({ ...range, pieces: await readSlices(slices) });
        } catch (error) {
            return { number: reply.number, fault: error as Error };
        }
    }

    /** Lets an idle worker read lent bytes, which saves work in this thread. Null if no worker is idle, or if it cannot read them. */
    async readLent(lent: unknown): Promise<Uint8Array | null> {
        if (!this.lends || Math.min(...this.loads.values()) > 0) return null;
        const { answer, fault } = await this.reply({ job: 'read', pieces: [lent], first: 0, args: {} });
        if (isUnread(fault)) this.lends = false;
        return fault ? null : (answer as Uint8Array);
    }

    /** Does a job on bytes in memory, which are given away. Throws a Fault that the job throws, and an Error for a bug. */
    async given<Name extends JobName>(job: Name, pieces: Uint8Array[], args: Jobs[Name]['args']) {
        return answerOf(job, await this.reply({ job, pieces, first: 0, args }));
    }

    /**
     * Does a job on images that have the same number of sectors, and passes its answers to `take` in the order of the ranges. Throws what a
     * reader throws, a Fault if an image shrinks (`image-ended`) or `signal` ends it (`cancelled`), and what `given` throws.
     * @param readers the bytes that they return are given away
     */
    async share<Name extends JobName>(job: Name, readers: Reader[], args: Shared<Name>,
        { base = 0, step = SHARED_STEP, beyond = 0, units, progress, signal, own }: Sharing, take: (answer: Jobs[Name]['answer']) => void
        | Promise<void>) {
        const sizes = units || readers.map(() => SECTOR_SIZE);
        const [all, ...others] = readers.map(({ size }, i) => Math.floor(size / sizes[i]));
        if (others.some(count => count !== all)) throw new Error('images of different lengths');
        const most = RANGES_PER_WORKER * this.loads.size;
        const rooms: Uint8Array[] | null = [...this.loads.keys()].every(({ isHere }) => isHere) ? [] : null;
        const replies: Promise<Reply>[] = [];
        let done = 0;
        const takeNext = async () => {
            await take(answerOf(job, await replies[0], signal));
            replies.shift();
            done = Math.min(done + step, all);
            if (progress) progress(done, all);
        };
        for (let first = 0; first < all; first += step) {
            if (replies.length === most) await takeNext();
            assertWanted(signal);
            const count = Math.min(step, all - first);
            const seen = Math.min(count + beyond, all - first);
            const slices = readers.map((reader, i) => ({ reader, at: first * sizes[i], length: seen * sizes[i] }));
            const range = { job, first: base + first, args: { ...args, count } as Jobs[Name]['args'], own };
            const isLent = this.lends && readers.every(reader => reader.lent);
            replies.push(isLent ? this.lentReply(range, slices) : this.reply({ ...range, pieces: await readSlices(slices, rooms) }));
        }
        while (replies.length > 0) await takeNext();
    }
}

/** @param _ the job that was done */
function answerOf<Name extends JobName>(_: Name, { answer, fault }: Reply, signal?: { aborted: boolean }) {
    assertWanted(signal);
    if (!fault) return answer as Jobs[Name]['answer'];
    if (fault instanceof Error) throw fault;
    throw 'code' in fault ? new Fault(fault.code, fault.facts) : new Error(fault.message);
}

function assertWanted(signal?: { aborted: boolean }) {
    if (signal && signal.aborted) throw cancelled();
}
