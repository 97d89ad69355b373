// Saving: the bytes that go to a sink or into a Blob, and the state after an error or a cancel.

import assert from 'node:assert/strict';
import { test } from 'node:test';
import { page, writtenBy } from './page.mjs';

const { Pace } = await page('ui/progress.js');
const { blobOfPieces, patchedName, saveToSink } = await page('save/save.js');

const old = Uint8Array.from({ length: 50 }, (_, i) => i);
const pieces = [{ from: 0, to: 10 }, { at: 10, bytes: Uint8Array.of(200, 201, 202) }, { from: 13, to: 40 }, { at: 40, bytes: new Uint8Array(10) }];
const wanted = Uint8Array.from(old, (byte, i) => i >= 10 && i < 13 ? 190 + i : i >= 40 ? 0 : byte);
const reader = { size: old.length, read: async (at, length) => old.slice(at, at + length) };

const MiB = 2 ** 20;

/** A file of three regions: the second has patches close together and far apart, the third is almost completely patched. */
const long = new Blob([Uint8Array.from({ length: 34 * MiB }, (_, i) => i % 251)]);
const longReader = { size: long.size, file: long, read: async (at, length) => new Uint8Array(await long.slice(at, at + length).arrayBuffer()) };
const patchAt = (at, size) => ({ at: Math.floor(at * MiB), bytes: new Uint8Array(size).fill(255) });
const [first, near, apart, last] = [patchAt(20, 7), patchAt(20.1, 9), patchAt(24, 3), patchAt(32.5, 1.5 * MiB)];
const longPieces = [first, near, apart, last].flatMap((it, i, all) =>
    [{ from: i === 0 ? 0 : all[i - 1].at + all[i - 1].bytes.length, to: it.at }, it]);
const DONE = [16 * MiB, 32 * MiB, 34 * MiB];
const patched = Buffer.from(await long.arrayBuffer());
for (const { at, bytes } of [first, near, apart, last]) patched.set(bytes, at);

/** Copies a write, since its bytes may change later. A Blob cannot change, and node 18 loses bytes in a slice of a joined Blob. */
const kept = write => ({ ...write, data: write.data instanceof Blob ? write.data : write.data.slice() });

/** A file that fails at a write (counted from 0), at the end (`close`), or never. */
function sinkOf(failing) {
    const sink = { written: [], state: 'open', writes: 0 };
    sink.write = async write => {
        if (sink.writes++ === failing) throw Object.assign(new Error('no room'), { name: 'QuotaExceededError' });
        sink.written.push(kept(write));
    };
    sink.close = async () => {
        if (failing === 'close') throw new Error('not closed');
        sink.state = 'closed';
    };
    sink.abort = async () => { sink.state = 'aborted'; };
    return sink;
}

/** Saves pieces whose bytes are overwritten once accepted, and returns the progress after each write. */
async function saved(sink, watch = {}, source = longReader, parts = longPieces) {
    const done = [];
    const make = async take => {
        for (const piece of parts) {
            const given = piece.bytes ? { ...piece, bytes: piece.bytes.slice() } : piece;
            await take(given);
            if (given.bytes) given.bytes.fill(77);
        }
    };
    await saveToSink(sink, source, make, { signal: { aborted: false }, progress: size => done.push(size), ...watch });
    return done;
}

test('all pieces are written, and the sink is closed', async () => {
    const sink = sinkOf();
    assert.deepEqual(await saved(sink, {}, reader, pieces), [50]);
    assert.deepEqual([...await writtenBy(sink.written)], [...wanted]);
    assert.equal(sink.state, 'closed');
});

test('a region goes out by one write, of parts of the file and what is patched between them', async t => {
    const sink = sinkOf();
    const slices = t.mock.method(long, 'slice');
    assert.deepEqual(await saved(sink), DONE);
    assert.deepEqual(sink.written.map(({ data }) => data.size ?? `${data.length} bytes`), [16 * MiB, 16 * MiB, `${2 * MiB} bytes`]);
    const parts = [0, 16 * MiB, 16 * MiB, first.at, near.at + 9, apart.at, apart.at + 3, 32 * MiB];
    const read = [first.at + 7, near.at, 32 * MiB, last.at];
    // `kept` makes one more slice of each write.
    assert.deepEqual(slices.mock.calls.flatMap(({ arguments: its }) => its).sort((a, b) => a - b), [...parts, ...read].sort((a, b) => a - b));
    assert.ok(patched.equals(await writtenBy(sink.written)));
    assert.equal(sink.state, 'closed');
});

test('bytes that pieces have are not read again', async () => {
    const sink = sinkOf();
    const unread = { size: 50, file: new Blob([old]), read: () => Promise.reject(new Error('read again')) };
    const parts = [0, 10, 20, 30, 40].map(at => ({ at, bytes: wanted.slice(at, at + 10) }));
    await saved(sink, {}, unread, parts);
    assert.deepEqual([...await writtenBy(sink.written)], [...wanted]);
});

test('bytes of a region stay while they are written', async () => {
    const sink = sinkOf();
    const write = sink.write;
    let last = Promise.resolve();
    sink.write = it => {
        last = new Promise(done => { setTimeout(done, 20); }).then(() => write(it));
        return last;
    };
    const parts = Array.from({ length: 34 }, (_, i) => ({ at: i * MiB, bytes: new Uint8Array(MiB).fill(i + 1) }));
    await saved(sink, {}, longReader, parts);
    const written = await writtenBy(sink.written);
    assert.deepEqual(parts.map(({ at }) => written[at + 7]), parts.map((_, i) => i + 1));
});

test('slices of a region that are far apart are read each, and near ones together', async () => {
    const lengths = async sizes => {
        const [reads, parts] = [[], []];
        let at = 0;
        for (const [i, size] of sizes.entries()) {
            parts.push(i % 2 ? { at, bytes: new Uint8Array(size) } : { from: at, to: at + size });
            at += size;
        }
        const source = { size: at, read: async (_, length) => { reads.push(length); return new Uint8Array(length); } };
        await saved(sinkOf(), {}, source, parts);
        return reads;
    };
    assert.deepEqual(await lengths([1000, MiB, 2000]), [1000, 2000]);
    assert.deepEqual(await lengths([1000, 2352, 2000, 2352, 3000]), [10704]);
});

test('the next region is made while one is written', async () => {
    const sink = sinkOf();
    const order = [];
    const write = sink.write;
    sink.write = async it => {
        order.push(`write at ${it.position / MiB}`);
        await new Promise(done => setTimeout(done, 50));
        order.push(`written`);
        await write(it);
    };
    const watched = { ...reader, size: 40 * MiB, read: async (at, length) => {
        order.push(`read at ${at / MiB}`);
        return new Uint8Array(length);
    } };
    await saved(sink, {}, watched, [{ from: 0, to: 40 * MiB }]);
    assert.deepEqual(order, ['read at 0', 'write at 0', 'read at 16', 'written', 'write at 16', 'read at 32', 'written', 'write at 32', 'written']);
});

test('an image that is not a file is written as bytes', async () => {
    const sink = sinkOf();
    const { file, ...source } = longReader;
    assert.deepEqual([file, await saved(sink, {}, source)], [long, DONE]);
    assert.deepEqual(sink.written.map(({ data }) => data.length), [16 * MiB, 16 * MiB, 2 * MiB]);
    assert.ok(patched.equals(await writtenBy(sink.written)));
});

test('a failure at each write aborts the sink and says how much was written', async () => {
    for (const [failing, done] of [[0, 0], [1, DONE[0]], [2, DONE[1]], ['close', DONE[2]]]) {
        const sink = sinkOf(failing);
        await assert.rejects(saved(sink), ({ code, facts }) => code === 'unwritten' && facts.done === done && facts.full === (failing !== 'close'));
        assert.equal(sink.state, 'aborted', `failing at ${failing}`);
    }
});

test('a cancel ends the saving at the next region, and the sink is aborted', async () => {
    const signal = { aborted: false };
    const sink = sinkOf();
    await assert.rejects(saved(sink, { signal, progress: () => { signal.aborted = true; } }), { code: 'cancelled' });
    assert.deepEqual([sink.state, sink.written.length], ['aborted', 1]);
});

test('what is not accepted is aborted after all was written', async () => {
    const sink = sinkOf();
    const accept = async () => { throw new Error(`${sink.written.length} writes are not it`); };
    await assert.rejects(saved(sink, { accept }), { message: '3 writes are not it' });
    assert.equal(sink.state, 'aborted');
});

test('a file that shrinks aborts the sink', async () => {
    const whole = [{ from: 0, to: long.size }];
    for (const [source, parts, failing] of [[reader, pieces, -1], [longReader, longPieces, 1], [longReader, whole, 1]]) {
        const sink = sinkOf(failing);
        const most = source.size / 2;
        const short = { ...source, read: async (at, length) => (await source.read(at, length)).slice(0, Math.max(most - at, 0)) };
        await assert.rejects(saved(sink, {}, short, parts), { code: 'image-ended' });
        assert.equal(sink.state, 'aborted');
    }
});

test('who looks on sees all bytes that are written', async () => {
    const seen = [];
    await saved(sinkOf(), { seen: async bytes => { seen.push(bytes.slice()); } });
    assert.ok(patched.equals(Buffer.concat(seen)));
});

test('a Blob has slices of the file and the patched bytes between them', async () => {
    const slices = [];
    const file = new Blob([old]);
    const slice = file.slice.bind(file);
    file.slice = (from, to) => { slices.push([from, to]); return slice(from, to); };
    const blob = await blobOfPieces(file, pieces);
    assert.deepEqual(new Uint8Array(await blob.arrayBuffer()), wanted);
    assert.deepEqual(slices, [[0, 10], [13, 40]]);
});

test('while a Blob is made of many pieces, others get their turn', async () => {
    const many = Array.from({ length: 1000 }, (_, i) => i % 2 ? { at: 3 * i, bytes: Uint8Array.of(1, 2, 3) } : { from: 3 * i, to: 3 * i + 3 });
    const file = new Blob([Uint8Array.from({ length: 3000 }, (_, i) => 100 + i % 3)]);
    const slice = file.slice.bind(file);
    let [together, most] = [0, 0];
    file.slice = (from, to) => { most = Math.max(most, ++together); return slice(from, to); };
    const turns = setInterval(() => { together = 0; });
    const blob = await blobOfPieces(file, many);
    clearInterval(turns);
    assert.deepEqual([...new Uint8Array(await blob.arrayBuffer())], many.flatMap(it => it.bytes ? [1, 2, 3] : [100, 101, 102]));
    assert.ok(most <= 250, `${most} slices at once`);
});

test('in Firefox an image that is downloaded comes from a file of its own, if that can be written', async t => {
    const asked = [];
    const own = t.mock.method(Response.prototype, 'blob', async function () {
        asked.push(this);
        return new Blob(['own']);
    });
    const textOf = async () => (await blobOfPieces(new Blob([old]), [{ from: 0, to: 3 }])).text();
    assert.equal(await textOf(), '\0\x01\x02');
    globalThis.mozInnerScreenX = 0;
    t.after(() => { delete globalThis.mozInnerScreenX; });
    assert.equal(await textOf(), 'own');
    assert.equal(asked.length, 1);
    own.mock.mockImplementation(async () => { throw new Error('no room'); });
    assert.equal(await textOf(), '\0\x01\x02');
});

test('the pace says percent, rate and time left', () => {
    const pace = new Pace(1000, 5000);
    assert.deepEqual(pace.at(250, 7000), { percent: 25, rate: 125, left: 6 });
    assert.deepEqual(pace.at(0, 5000), { percent: 0, rate: 0, left: 0 });
    assert.equal(pace.at(1000, 9000).percent, 100);
});

test('the patched image has a name of its own', () => {
    assert.deepEqual(['game.bin', 'game', 'a.b (x).img', '.bin'].map(name => patchedName(name)),
        ['game (patched).bin', 'game (patched).bin', 'a.b (x) (patched).img', ' (patched).bin']);
    assert.equal(patchedName('game.bin', 'repair', '.txt'), 'game (repair).txt');
});
