// Program of the page's workers: ranges of jobs, and one running hash. The joined page and its workers share one script.

import { UNREAD, serving, transfersOf, type JobName, type Message as AnyMessage } from '../core/pool/index.js';
import { JOBS } from '../core/jobs/index.js';
import { Calls } from '../core/module/index.js';
import { Md5, Sha1 } from './app/hashing.js';

/** Bytes, or a slice of a file that the worker reads itself. */
type Piece = Uint8Array | { file: File, from: number, size: number };
type Message = AnyMessage<JobName, Piece>;
/**
 * A message to a worker: the module, which comes first; a range of a job; or the next bytes of the running SHA-1, null at its end, and
 * whether their MD5 is needed too.
 */
type Order = { module: WebAssembly.Module } | Message | { sum: Uint8Array | null, needsMd5: boolean };

/** Reads the bytes of a piece. */
async function readPiece(piece: Piece) {
    if (piece instanceof Uint8Array) return piece;
    const bytes = new Uint8Array(await piece.file.slice(piece.from, piece.from + piece.size).arrayBuffer());
    if (bytes.length < piece.size) throw new Error('the file has become shorter');
    return bytes;
}

/** The jobs and the hashes of a worker that has the module. */
class Bench {
    md5 = new Md5();
    serve; sha1;

    constructor(module: WebAssembly.Module) {
        const calls = new Calls(module);
        this.serve = serving(calls, JOBS);
        this.sha1 = new Sha1(calls);
    }

    async work(message: Message) {
        const pieces = await Promise.all(message.pieces.map(readPiece)).catch(() => null);
        if (pieces === null) return self.postMessage({ number: message.number, fault: UNREAD });
        const reply = this.serve({ ...message, pieces });
        return self.postMessage(reply, { transfer: transfersOf(reply) });
    }

    add(bytes: Uint8Array | null, needsMd5: boolean) {
        if (bytes === null) return self.postMessage({ digest: this.sha1.digest(), md5: this.md5.digest() });
        this.sha1.add(bytes);
        if (needsMd5) this.md5.add(bytes);
        return self.postMessage({});
    }
}

const bench = { at: null as Bench | null };

function heard({ data }: MessageEvent<Order>) {
    if ('module' in data) bench.at = new Bench(data.module);
    else if (bench.at === null) throw new Error('a worker was told to work before it had the module');
    else if ('sum' in data) bench.at.add(data.sum, data.needsMd5);
    else bench.at.work(data);
}

/** Reports an unreadable message to the page as an error of the worker, so that nothing waits for its answer. */
function unheard() {
    throw new Error('a message could not be read');
}

if (typeof document === 'undefined') Object.assign(self, { onmessage: heard, onmessageerror: unheard });
