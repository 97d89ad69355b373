// The page's workers: the error of a job whose worker has stopped, and new workers for the next job.

import assert from 'node:assert/strict';
import { test } from 'node:test';
import { page } from './page.mjs';

globalThis.navigator ??= { hardwareConcurrency: 2 };
const { poolOf } = await page('app/pool.js');

/** A worker that echoes each message, or stops. */
class TestWorker {
    constructor(given) {
        Object.assign(this, { given, ended: false });
        given.workers.push(this);
    }

    postMessage(message) {
        if (message.module) return;
        if (message.job === this.given.stuck || (this.given.slow && this === this.given.workers[0])) return;
        const heard = this.onmessage;
        if (this.given.unread) setImmediate(() => this.onmessageerror && this.onmessageerror({}));
        else if (this.given.stops) setImmediate(() => this.onerror && this.onerror({ message: 'out of memory' }));
        else setImmediate(() => heard({ data: { number: message.number, answer: message.first } }));
    }

    terminate() {
        this.ended = true;
    }
}

test('a worker that stops ends the job, which says so, and the next job has new workers', async () => {
    const given = { workers: [], stops: true };
    const pool = poolOf({ module: true, newWorker: () => new TestWorker(given) });
    const reader = { size: 10 * 2352, read: async (at, length) => new Uint8Array(length) };
    const taken = [];
    const job = () => pool.share('survey', [reader], {}, { step: 1 }, first => { taken.push(first); });
    await assert.rejects(job(), { message: 'A background task of this page has crashed (out of memory). Try again: it will be restarted.' });
    assert.ok(given.workers.length > 0 && given.workers.every(it => it.ended));
    given.stops = false;
    await job();
    assert.deepEqual(taken, [0, 1, 2, 3, 4, 5, 6, 7, 8, 9]);
});

test('a reply that cannot be read ends the job, and the next one has new workers', async () => {
    const given = { workers: [], unread: true };
    const pool = poolOf({ module: true, newWorker: () => new TestWorker(given) });
    const reader = { size: 10 * 2352, read: async (at, length) => new Uint8Array(length) };
    const job = () => pool.share('survey', [reader], {}, { step: 1 }, () => {});
    await assert.rejects(job(), { message: /^A background task of this page has crashed/ });
    given.unread = false;
    await job();
});

test('Cancel ends a worker that does not come to its end, and what it has of another job goes to a new one', async () => {
    const given = { workers: [], stops: false, stuck: 'find' };
    const pool = poolOf({ module: true, newWorker: () => new TestWorker(given) });
    const reader = { size: 40 * 2352, read: async (at, length) => new Uint8Array(length), lent: (from, size) => ({ from, size }) };
    const cancelling = new AbortController();
    const began = performance.now();
    const searching = pool.share('find', [reader], {}, { step: 1, signal: cancelling.signal }, () => {});
    setTimeout(() => cancelling.abort(), 50);
    await assert.rejects(searching, { code: 'cancelled' });
    assert.ok(performance.now() - began < 30000);
    const before = given.workers.length;
    assert.ok(given.workers.every(it => it.ended));
    const taken = [];
    await pool.share('survey', [reader], {}, { step: 1 }, first => { taken.push(first); });
    assert.equal(taken.length, 40);
    assert.ok(given.workers.length > before);
});

test('Cancel of one job leaves another one, which a stuck worker also has', async () => {
    const given = { workers: [], stops: false, stuck: 'find' };
    const workers = { hardwareConcurrency: 1 };
    const known = Object.getOwnPropertyDescriptor(globalThis, 'navigator');
    Object.defineProperty(globalThis, 'navigator', { value: workers, configurable: true });
    const pool = poolOf({ module: true, newWorker: () => new TestWorker(given) });
    Object.defineProperty(globalThis, 'navigator', known);
    const reader = { size: 4 * 2352, read: async (at, length) => new Uint8Array(length), lent: (from, size) => ({ from, size }) };
    const cancelling = new AbortController();
    const searching = pool.share('find', [reader], {}, { step: 1, signal: cancelling.signal }, () => {});
    given.slow = true;
    const taken = [];
    const surveying = pool.share('survey', [reader], {}, { step: 1 }, first => { taken.push(first); });
    cancelling.abort();
    await assert.rejects(searching, { code: 'cancelled' });
    given.slow = false;
    await surveying;
    assert.deepEqual(taken, [0, 1, 2, 3]);
    assert.equal(given.workers.length, 2);
});
