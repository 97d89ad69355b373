// The workers of the page, each of which is started with its first job.

import type { Reader } from '../../core/bytes.js';
import { cancelled } from '../../core/faults.js';
import { Pool, type JobName, type Jobs, type Message, type Reply, type Shared, type Sharing } from '../../core/pool/index.js';
import { ownFault } from '../../sentences/index.js';
import { format, playerTexts } from '../texts/index.js';
import type { Parts } from './state.js';

// Unpacks the parts of the joined page: its module, and its script, which its workers run too.

/** Decodes base64. */
export function bytesOfBase64(text: string): Uint8Array {
    const known = (Uint8Array as unknown) as { fromBase64?: (text: string) => Uint8Array };
    if (known.fromBase64) return known.fromBase64(text);
    const characters = atob(text);
    const bytes = new Uint8Array(characters.length);
    for (let i = 0; i < bytes.length; i++) bytes[i] = characters.charCodeAt(i);
    return bytes;
}

/** Decompresses gzipped data that was written as base64. */
function inflated(text: string) {
    const packed = new Blob([bytesOfBase64(text)]).stream();
    return new Response(packed.pipeThrough(new DecompressionStream('gzip')));
}

/** Decompresses a text that was gzipped and written as base64; '' stays ''. */
export async function inflatedText(text: string) {
    return text === '' ? '' : inflated(text).text();
}

/**
 * The parts from which the joined page rebuilds its own text: `html` before, between, and after its policy, style, and loader; `policy`
 * before and after the hashes of loader and script; size and SHA-1 of `style`. `made` lists the names and versions of the tools that built
 * the page; `licensed` says whether its sources have a licence.
 */
export const OWN: { html: string[], policy: string[], style: { size: number, sha1: string }, made: string[], licensed: boolean } =
    { html: [], policy: [], style: { size: 0, sha1: '' }, made: [], licensed: false };

/** Compiles the module of the joined page, and prepares its workers. */
export async function packedParts(): Promise<Parts> {
    const bytes = await inflated(JOINED.module).arrayBuffer();
    const url = workerUrl(new Blob([JOINED.script], { type: 'text/javascript' }));
    Object.assign(OWN, JSON.parse(await inflatedText(JOINED.own)));
    return { module: await WebAssembly.compile(bytes), newWorker: () => new Worker(url), made: OWN.made };
}

/** Returns a URL of the workers' program that the page's policy accepts. */
function workerUrl(program: Blob): string {
    const url = URL.createObjectURL(program);
    if (!('trustedTypes' in globalThis)) return url;
    return trustedTypes.createPolicy('cdpatch', { createScriptURL: given => given }).createScriptURL(url);
}

const MOST_WORKERS = 8;
/** Milliseconds after Cancel until a worker that is still busy is terminated. */
const MOMENT = 1000;

/** A worker thread as a `PoolWorker` of the core's pool. */
class PageWorker {
    worker: Worker | null = null;
    /** Messages without a reply, by their numbers. */
    held = new Map<number, Message>();
    onreply: (reply: Reply) => void = () => {};
    onfault: (error: Error) => void = () => {};

    constructor(readonly parts: Parts) {}

    post(message: Message, transfer: ArrayBuffer[]) {
        if (this.worker === null) this.worker = startedWorker(this.parts, event => this.heard(event.data), error => this.onfault(error));
        this.worker.postMessage(message, transfer);
        this.held.set(message.number, message);
    }

    heard(reply: Reply) {
        this.held.delete(reply.number);
        this.onreply(reply);
    }

    /** Terminates the worker, and returns its messages without a reply. The next `post` starts a new worker. */
    end() {
        const had = [...this.held.values()];
        this.held.clear();
        if (this.worker === null) return had;
        this.worker.onmessage = this.worker.onerror = this.worker.onmessageerror = null;
        this.worker.terminate();
        this.worker = null;
        return had;
    }
}

/** Starts a worker and sends it the module. */
export function startedWorker({ module, newWorker }: Parts, heard: (event: MessageEvent) => void, failed: (error: Error) => void) {
    const worker = newWorker();
    worker.onmessage = heard;
    worker.onerror = ({ message }) =>
        failed(ownFault(message ? format(playerTexts.workerStoppedFor, { why: message }) : playerTexts.workerStopped));
    worker.onmessageerror = () => failed(ownFault(playerTexts.workerStopped));
    worker.postMessage({ module });
    return worker;
}

/** A pool whose workers read files themselves, if the browser permits it: WebKit does not on a page opened from a file. */
class ReadingPool extends Pool {
    workers; shared;

    constructor(workers: PageWorker[]) {
        super(workers, true);
        this.workers = workers;
        this.shared = 0;
    }

    /** Like Pool.share, but Cancel terminates workers that are still busy: a stranger's table or text can make a job slow. */
    async share<Name extends JobName>(job: Name, readers: Reader[], args: Shared<Name>, how: Sharing,
        take: (answer: Jobs[Name]['answer']) => void | Promise<void>) {
        const own = ++this.shared;
        const signal = how.signal as AbortSignal | undefined;
        const stop = () => { setTimeout(() => this.endShared(own), MOMENT); };
        if (signal && signal.addEventListener) signal.addEventListener('abort', stop, { once: true });
        try {
            return await super.share(job, readers, args, { ...how, own }, take);
        } finally {
            if (signal && signal.removeEventListener && !signal.aborted) signal.removeEventListener('abort', stop);
        }
    }

    /**
     * Terminates the workers that have ranges of a job. Their ranges of other jobs are posted to new workers.
     * @param own the job's number
     */
    endShared(own: number) {
        for (const worker of this.workers) {
            if (![...worker.held.values()].some(message => message.own === own)) continue;
            for (const message of worker.end()) {
                if (message.own === own) this.settle(worker, { number: message.number, fault: cancelled() });
                else this.postAgain(worker, message);
            }
        }
    }

    /** @param message whose bytes may already have been transferred */
    postAgain(worker: PageWorker, message: Message) {
        try {
            worker.post(message, []);
        } catch (error) {
            this.settle(worker, { number: message.number, fault: error as Error });
        }
    }

    /** Ends the running jobs; later jobs get new workers. */
    fail(error: Error) {
        super.fail(error);
        this.fault = null;
        for (const worker of this.workers) {
            worker.end();
            this.loads.set(worker, 0);
        }
    }
}

/** Creates a pool with one worker per processor, at most MOST_WORKERS. */
export function poolOf(parts: Parts) {
    const count = Math.min(navigator.hardwareConcurrency || 2, MOST_WORKERS);
    return new ReadingPool(Array.from({ length: count }, () => new PageWorker(parts)));
}
