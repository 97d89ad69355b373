// The distribution of jobs: ranges, workers, threads, order, and the events that end a job.

import assert from 'node:assert/strict';
import { test } from 'node:test';
import { calls, core, diceOf, joinSurveys, readerOf, sameBytes, someImage, surveyed } from './common.mjs';
import { answersOf, localPool, withThreads } from './pools.mjs';

const { Fault } = await core('faults.js');
const { passUser } = await core('tasks/convert.js');
const { Pool, UNREAD, localWorker, serving, transfersOf } = await core('pool/pool.js');
const { JOBS } = await core('jobs/jobs.js');
const { addToRuns } = await core('sectors/sector.js');
const { findIn, joinFound, sectorsBeyond } = await core('texts/find.js');

const BASE = 40;
const image = someImage(diceOf(21), 4200, BASE, 9);
const small = image.subarray(0, 50 * 2352 + 9);
const bytesOf = digits => Uint8Array.from(Buffer.from(digits, 'hex'));
const wanted = [[bytesOf('07'), bytesOf('ff')], [bytesOf('ff'), bytesOf('00')]];

/** The joined results of all jobs, by ranges of `step` sectors. */
async function joined(pool, bytes, step) {
    const how = { base: BASE, step };
    const parts = await answersOf(pool, 'user', [readerOf(bytes)], {}, how);
    const user = parts.flatMap(part => [...part.user]);
    const others = [];
    for (const run of parts.flatMap(part => part.others)) addToRuns(others, run);
    const iso = readerOf(Uint8Array.from(user));
    const found = await answersOf(pool, 'find', [readerOf(bytes)], { texts: [wanted], limit: 50 }, { ...how, beyond: sectorsBeyond(wanted) });
    return {
        survey: joinSurveys(await answersOf(pool, 'survey', [readerOf(bytes)], {}, how), BASE),
        found: joinFound(found.map(([answer]) => answer), 50),
        user,
        others,
        raw: (await answersOf(pool, 'raw', [iso], {}, { ...how, units: [2048] })).flatMap(part => [...part]),
    };
}

test('ranges of 1 to 4096 sectors agree in every job', async () => {
    const due = await joined(localPool(), small, 50);
    assert.deepEqual(due.survey, surveyed(small, BASE, 50));
    assert.deepEqual([due.found], findIn(small, BASE, { texts: [wanted], count: 50, limit: 50 }));
    assert.ok(due.found.count > 3);
    for (const step of [1, 2, 7, 49, 51, 4096]) assert.deepEqual(await joined(localPool(), small, step), due, `${step}`);
    const [whole, ...parts] = await Promise.all([4096, 1, 1024].map(step => answersOf(localPool(), 'survey', [readerOf(image)], {}, { base: BASE, step })));
    for (const part of parts) sameBytes(joinSurveys(part, BASE).records, joinSurveys(whole, BASE).records, 'records');
});

test('threads agree with one process', async () => {
    const due = await joined(localPool(), small, 50);
    await withThreads(3, async pool => {
        for (const step of [1, 3, 16, 4096]) assert.deepEqual(await joined(pool, small, step), due, `${step}`);
        const found = await Promise.all([2, 5].map(step => joined(pool, small, step)));
        assert.deepEqual(found, [due, due], 'two jobs at the same time');
    });
});

test('user data and raw sectors are those of the program', async () => {
    const [{ user, others }] = await answersOf(localPool(), 'user', [readerOf(small)], {}, { base: BASE, step: 50 });
    for (let i = 0; i < 50; i++) sameBytes(user.subarray(2048 * i, 2048 * i + 2048), small.subarray(2352 * i + 16, 2352 * i + 2064), `${i}`);
    const kinds = Array.from({ length: 50 }, (_, i) => calls.kind(small.subarray(2352 * i, 2352 * i + 2352)));
    const due = kinds.flatMap((kind, i) => kind === 2 ? [] : [[BASE + i, kind]]);
    assert.ok(due.length > 1);
    assert.deepEqual(others.flatMap(({ first, last, kind }) => Array.from({ length: last - first + 1 }, (_, i) => [first + i, kind])), due);
    const [raw] = await answersOf(localPool(), 'raw', [readerOf(user)], {}, { base: 4300, units: [2048] });
    for (let i = 0; i < 50; i++) {
        const sector = calls.encode(calls.address(4300 + i), user.subarray(2048 * i, 2048 * i + 2048));
        sameBytes(raw.subarray(2352 * i, 2352 * i + 2352), sector, `sector ${i}`);
    }
    await assert.rejects(answersOf(localPool(), 'raw', [readerOf(user)], {}, { base: 449849, units: [2048] }), /block 449850 has no address/);
});

test('of user data as many bytes are passed on as are asked for, by ranges of any size', async () => {
    const [{ user }] = await answersOf(localPool(), 'user', [readerOf(small)], {}, { base: BASE, step: 50 });
    for (const step of [1, 7, 50]) for (const size of [1, 2048, 2048 * 7 + 1, 2048 * 50 - 5]) {
        const parts = [];
        await passUser(localPool(), readerOf(small), size, { base: BASE, step }, bytes => { parts.push(bytes); });
        sameBytes(Buffer.concat(parts), user.subarray(0, size), `${size} bytes by ${step}`);
    }
});

/** A worker that replies on demand, to the last of its messages. */
class SlowWorker {
    constructor() {
        this.messages = [];
        this.serve = serving(calls, JOBS);
    }

    post(message) {
        this.messages.push(message);
    }

    reply() {
        this.onreply(this.serve(this.messages.pop()));
    }
}

const turn = () => new Promise(resolve => { setImmediate(resolve); });

test('answers are taken in the order of the ranges, and at most two ranges a worker are on their way', async () => {
    const workers = [new SlowWorker(), new SlowWorker()];
    const dice = diceOf(22);
    const [taken, done] = [[], []];
    let most = 0;
    const job = new Pool(workers).share('survey', [readerOf(small)], {}, { base: BASE, step: 3, progress: (n, all) => done.push([n, all]) },
        async answer => { taken.push(answer.block); await turn(); });
    let ended = false;
    job.then(() => { ended = true; });
    for (let i = 0; !ended; i++) {
        assert.ok(i < 10000);
        await turn();
        most = Math.max(most, ...workers.map(worker => worker.messages.length));
        const busy = workers.filter(worker => worker.messages.length > 0);
        if (busy.length > 0 && dice(3) > 0) busy[dice(busy.length)].reply();
    }
    assert.equal(most, 2);
    assert.deepEqual(taken, Array.from({ length: 17 }, (_, i) => BASE + 3 * i));
    assert.deepEqual(done, Array.from({ length: 17 }, (_, i) => [Math.min(3 * i + 3, 50), 50]));
});

test('a job that is ended says so, and the pool goes on with the next one', async () => {
    const pool = localPool();
    const signal = { aborted: false };
    const taken = [];
    const job = pool.share('survey', [readerOf(small)], {}, { step: 2, signal }, answer => { signal.aborted = taken.push(answer) === 3; });
    await assert.rejects(job, { code: 'cancelled' });
    assert.equal(taken.length, 3);
    await withThreads(2, async threads => {
        const first = threads.share('survey', [readerOf(small)], {}, { step: 1, signal: { get aborted() { return taken.length > 5; } } }, it => { taken.push(it); });
        await assert.rejects(first, { code: 'cancelled' });
        assert.deepEqual(joinSurveys(await answersOf(threads, 'survey', [readerOf(small)], {}, { base: BASE, step: 4 }), BASE), surveyed(small, BASE, 50));
    });
});

test('a read that fails ends the job, whichever it is', async () => {
    const reads = 17;
    for (let fault = 0; fault < reads; fault++) {
        const reader = readerOf(small);
        const failing = { size: small.length, read: (at, length) => {
            if (reader.reads.length === fault) throw new Error(`no read ${fault}`);
            return reader.read(at, length);
        } };
        let taken = 0;
        await assert.rejects(localPool().share('survey', [failing], {}, { step: 3 }, () => { taken += 1; }), { message: `no read ${fault}` });
        assert.ok(taken <= fault);
    }
});

test('an image that is shorter than its size is an error, and short reads are none', async () => {
    const due = await answersOf(localPool(), 'survey', [readerOf(small)], {}, { step: 9 });
    assert.deepEqual(await answersOf(localPool(), 'survey', [readerOf(small, 1000)], {}, { step: 9 }), due);
    for (const end of [0, 1, 2352 * 9, 2352 * 50 - 1]) {
        const shrunk = { ...readerOf(small.subarray(0, end)), size: small.length };
        await assert.rejects(answersOf(localPool(), 'survey', [shrunk], {}, { step: 9 }), { code: 'image-ended', facts: { at: end } });
    }
    await assert.rejects(answersOf(localPool(), 'survey', [readerOf(small), readerOf(image)], {}, {}), /different lengths/);
});

test('what a job or its taker throws ends it', async () => {
    const throwing = (_, [bytes], first) => { if (first === 6) throw new RangeError(`at ${first}, ${bytes.length}`); };
    await assert.rejects(answersOf(localPool({ throwing }), 'throwing', [readerOf(small)], {}, { step: 3 }), { name: 'Error', message: 'RangeError: at 6, 7056' });
    await assert.rejects(answersOf(localPool(), 'throwing', [readerOf(small)], {}, {}), /TypeError/);
    await withThreads(1, async pool => {
        await assert.rejects(answersOf(pool, 'throwing', [readerOf(small)], {}, {}), /TypeError/);
        await assert.rejects(pool.share('user', [readerOf(small)], {}, { step: 1 }, () => Promise.reject(new Error('disk full'))), /disk full/);
    });
});

test('a fault that a worker meets comes with its code and what is known', async () => {
    const table = { throwing: () => { throw new Fault('image-ended', { at: 7 }); } };
    const due = { name: 'Fault', code: 'image-ended', facts: { at: 7 } };
    await assert.rejects(answersOf(localPool(table), 'throwing', [readerOf(small)], {}, {}), due);
    const worker = { post: message => setImmediate(() => worker.onreply(structuredClone(serving(calls, table)(message)))) };
    await assert.rejects(answersOf(new Pool([worker]), 'throwing', [readerOf(small)], {}, {}), due);
});

test('a worker that ends is an error of this job and of the next', async () => {
    const worker = new SlowWorker();
    const pool = new Pool([worker, localWorker(calls, JOBS)]);
    const job = answersOf(pool, 'user', [readerOf(small)], {}, { step: 3 });
    await turn();
    worker.onfault(new Error('the worker has ended'));
    await assert.rejects(job, /the worker has ended/);
    await assert.rejects(answersOf(pool, 'user', [readerOf(small)], {}, {}), /the worker has ended/);
});

test('ranges that can not be posted are an error of the job', async () => {
    const worker = { post: () => { throw new TypeError('no such memory'); } };
    await assert.rejects(answersOf(new Pool([worker]), 'user', [readerOf(small)], {}, { step: 3 }), /TypeError: no such memory/);
    await turn();
});

test('bytes are given to a worker with their memory, or else copied', async () => {
    const given = [];
    const worker = { post: (message, transfer) => { given.push([message.pieces[0], ...transfer]); worker.onreply({ number: message.number, answer: 1 }); } };
    const own = image.slice(0, 2352);
    await answersOf(new Pool([worker]), 'user', [{ size: own.length, read: async () => own }], {}, {});
    await answersOf(new Pool([worker]), 'user', [readerOf(small)], {}, { step: 50 });
    assert.equal(given[0][1], own.buffer);
    assert.equal(given[1][1], given[1][0].buffer);
    assert.notEqual(given[1][1], small.buffer);
    sameBytes(given[1][0], small.subarray(0, 50 * 2352), 'the copy');
    const views = [new Uint8Array(3), new Float64Array(2)];
    assert.deepEqual(transfersOf({ answer: views[0] }), [views[0].buffer]);
    assert.deepEqual(transfersOf({ answer: { a: views, b: views[0], c: 5, d: [{ e: views[1] }] } }), views.map(it => it.buffer));
    assert.deepEqual(transfersOf({ fault: { name: 'Error', message: '' } }), []);
});

/** A worker that can read lent pieces itself `most` times. */
function readingHand(most) {
    const serve = serving(calls, JOBS);
    let reads = 0;
    const piecesOf = pieces => pieces.map(piece => piece instanceof Uint8Array ? piece : piece.bytes.slice(piece.at, piece.at + piece.length));
    const replyTo = message => {
        const isLent = message.pieces.some(piece => !(piece instanceof Uint8Array));
        reads += Number(isLent);
        return isLent && reads > most ? { number: message.number, fault: UNREAD } : serve({ ...message, pieces: piecesOf(message.pieces) });
    };
    const worker = { post: message => void setImmediate(() => worker.onreply(replyTo(message))) };
    return worker;
}

const lendingReader = bytes => ({ ...readerOf(bytes), lent: (at, length) => ({ bytes, at, length }) });

test('what readers lend is read by workers, and if one can not read it, by this thread', async () => {
    const survey = (pool, readers, step = 3) => answersOf(pool, 'diff', readers, {}, { base: BASE, step });
    const other = small.slice();
    for (const i of [4, 30, 49]) other[2352 * i + 99] ^= 1;
    const due = await survey(localPool(), [small, other].map(bytes => readerOf(bytes)));
    for (const most of [0, 1, 5, 17]) {
        const readers = [small, other].map(lendingReader);
        assert.deepEqual(await survey(new Pool([readingHand(most), readingHand(99)], true), readers), due, `${most}`);
        assert.equal(readers[0].reads.length === 0, most === 17);
        const [lends, lendsNot] = [lendingReader(small), readerOf(other)];
        assert.deepEqual(await survey(new Pool([readingHand(99)], true), [lends, lendsNot]), due);
        assert.equal(lends.reads.length, lendsNot.reads.length);
    }
    class Gone extends Error {}
    const gone = { ...lendingReader(small), read: async () => { throw new Gone('the file is gone'); } };
    await assert.rejects(survey(new Pool([readingHand(2)], true), [gone, gone]), Gone);
    const late = { number: 0, fault: new Gone('the worker is gone') };
    const worker = { post: message => worker.onreply({ ...late, number: message.number }) };
    await assert.rejects(survey(new Pool([worker]), [readerOf(small), readerOf(small)]), Gone);
});

test('bytes are read by a worker that has nothing to do, and by none if all work, or if one can not read', async () => {
    const { lent } = lendingReader(small);
    const pool = new Pool([readingHand(9), readingHand(9)], true);
    const [one, two, three] = await Promise.all([0, 3000, 6000].map(at => pool.readLent(lent(at, 3000))));
    sameBytes(one, small.subarray(0, 3000), 'the first worker');
    sameBytes(two, small.subarray(3000, 6000), 'the second worker');
    assert.equal(three, null, 'all workers work');
    sameBytes(await pool.readLent(lent(9, 5)), small.subarray(9, 14), 'a worker that is free again');
    const unable = new Pool([readingHand(0)], true);
    assert.equal(await unable.readLent(lent(0, 5)), null, 'the worker can not read');
    assert.equal(unable.lends, false);
    assert.equal(await new Pool([readingHand(9)]).readLent(lent(0, 5)), null, 'a pool that lends nothing');
    const worker = { post: message => worker.onreply({ number: message.number, fault: new Error('gone') }) };
    const failing = new Pool([worker], true);
    assert.equal(await failing.readLent(lent(0, 5)), null, 'the worker is gone');
    assert.equal(failing.lends, true);
});

test('an image without sectors has no answer', async () => {
    assert.deepEqual(await answersOf(localPool(), 'survey', [readerOf(small.subarray(0, 2351))], {}, {}), []);
});
