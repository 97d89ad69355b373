// Patches on an image that is read only near them, compared with the same patches on the image in memory.

import assert from 'node:assert/strict';
import { test } from 'node:test';
import { calls, core, decoded, diceOf, encoded, joinedPieces, newCalls, readerOf, sameBytes, someBytes, someImage } from './common.mjs';

const { Refusal, readScript, Part, readLines } = await core('script/script.js');
const { BETWEEN_WRITTEN, applyPatches, passPatched } = await core('script/patches.js');
const { PieceKeeper, bytesOfPieces } = await core('bytes.js');
const { ReadAhead, pieceReader } = await core('readers/index.js');
const { MOST_SECTORS } = await core('module/numbers.js');

const BASE = 30;
const image = someImage(diceOf(5), 2600, BASE, 123);

/** A script of patches close together, some of them on blocks beyond the image. */
function someScript(dice, count, first, blocks) {
    const hex = size => Buffer.from(Uint8Array.from({ length: size }, () => dice(256))).toString('hex');
    const lines = Array.from({ length: count }, () => {
        const [block, offset] = [first + dice(blocks), dice(2048)];
        const verb = dice(6);
        if (verb === 0) return `rebuild ${block}`;
        if (verb === 1) return `address ${block} 00:02:0${dice(10)}`;
        if (verb === 2) return `fill ${block} ${offset} ${1 + dice(4096)} ${hex(1)}`;
        return `set ${block} ${offset} ${hex(1 + dice(dice(4) === 0 ? 4096 : 20))}`;
    });
    return encoded(`cdpatch 2\n${lines.join('\n')}\n`);
}

/** Applies the patches one after the other to the whole image in memory, by the calls for single lines. */
async function plainly(script, whole, base, carry) {
    const { patches } = readLines(calls, script);
    const out = whole.slice();
    const count = Math.floor(out.length / 2352);
    const log = patches.map(({ number, block: begin, line }) => {
        const first = begin - base;
        const there = first >= 0 && first < count ? Math.min(3, count - first) : 0;
        calls.hold(line);
        calls.readLine(2, 0, 0, line.length);
        calls.hold(out.subarray(first * 2352, there && (first + there) * 2352));
        const { result, block, offset } = calls.applyPatch(0, there, carry);
        if (there > 0) out.set(calls.held(0, there * 2352), first * 2352);
        return decoded(calls.outcomeLine(number, result, block, offset));
    });
    const applied = log.filter(line => line.endsWith(': applied\n')).length;
    return { out, text: log.join('') + decoded(calls.lastLine(applied, log.length - applied)), status: Number(applied < log.length) };
}

async function agrees(text, whole, base, carry, most) {
    const script = await readScript(calls, [text]);
    const due = await plainly(text, whole, base, carry);
    const came = await applyPatches(calls, readerOf(whole, most), script, { base, carry });
    assert.equal(decoded(came.text), due.text);
    assert.equal(came.status, due.status);
    sameBytes(joinedPieces(whole, came.pieces), due.out, 'the image');
    const checked = await passPatched(calls, readerOf(whole), script, { base, carry });
    assert.deepEqual([decoded(checked.text), checked.status, checked.outcomes], [due.text, due.status, came.outcomes]);
    return came;
}

test('patches all over an image, dense and far apart', async () => {
    await agrees(someScript(diceOf(6), 2000, BASE - 2, 2604), image, BASE, false);
    await agrees(someScript(diceOf(7), 2000, BASE - 2, 2604), image, BASE, true);
    await agrees(someScript(diceOf(8), 40, BASE, 2600), image, BASE, true);
    await agrees(someScript(diceOf(9), 200, BASE + 2590, 60), image, BASE, true);
    await agrees(someScript(diceOf(10), 20, 0, BASE), image, BASE, false);
    await agrees(encoded('cdpatch 1\n'), image, BASE, false);
});

test('each patch finds what the one before it left', async () => {
    const lines = Array.from({ length: 1100 }, (_, i) => {
        const [now, before] = [i, i - 1].map(k => Buffer.alloc(1, 1 + (k + 7) % 251).toString('hex'));
        return [`set ${i} 2047 ${now.repeat(4096)}`, i > 0 && `set ${i} 2046 ${before}${now} was ${before}${now}`];
    });
    const good = new Uint8Array(2352 * 1102);
    const sector = calls.encode(calls.address(0), new Uint8Array(2048));
    for (let i = 0; i < 1102; i++) good.set(sector, i * 2352);
    const came = await agrees(encoded(`cdpatch 1\n${lines.flat().filter(Boolean).join('\n')}\n`), good, 0, false);
    assert.equal(came.outcomes.length, 2199);
    assert.equal(came.status, 0);
});

test('the tail and the image around the patches are slices', async () => {
    const script = await readScript(calls, [encoded(`cdpatch 1\nrebuild ${BASE + 3}\nrebuild ${BASE + 4}\nrebuild ${BASE + 2000}\nrebuild ${BASE + 2004}\n`)]);
    const whole = image.slice();
    for (const i of [3, 4, 2000, 2004]) whole.set(calls.encode(calls.address(1), new Uint8Array(2048)), i * 2352);
    const reader = readerOf(whole);
    const { pieces } = await applyPatches(calls, reader, script, { base: BASE });
    assert.deepEqual(pieces.map(piece => piece.bytes?.length ?? [piece.from, piece.to]),
        [[0, 3 * 2352], 2 * 2352, [5 * 2352, 2000 * 2352], 5 * 2352, [2005 * 2352, whole.length]]);
    assert.deepEqual(reader.reads.map(({ at }) => at), [3 * 2352, 2000 * 2352]);
    sameBytes(joinedPieces(whole, pieces), whole, 'the image');
});

test('sectors are passed on as soon as no later patch meets them', async () => {
    const script = await readScript(calls, [encoded(`cdpatch 1\n${Array.from({ length: 2600 }, (_, i) => `fill ${BASE + i} 0 1 07\n`).join('')}`)]);
    const reader = readerOf(image);
    let most = 0;
    await passPatched(calls, reader, script, { base: BASE, carry: true }, piece => {
        const { at, length } = reader.reads[reader.reads.length - 1];
        if (piece.bytes) most = Math.max(most, (at + length - piece.at) / 2352);
    });
    assert.ok(most > 0 && most <= 2100, `${most} sectors behind`);
});

test('patches near one another are read together, and no more where they are far apart', async () => {
    const size = 300 * 1024 * 2352;
    const asked = async places => {
        const reads = [];
        const reader = { size, read: async (at, length) => { reads.push({ at, length }); return new Uint8Array(length); } };
        const script = await readScript(calls, [encoded(`cdpatch 1\n${places.map(place => `fill ${place} 0 1 07\n`).join('')}`)]);
        assert.equal((await passPatched(calls, reader, script, { base: 0 })).outcomes.length, places.length);
        assert.ok(reads.every(({ at, length }) => length <= 1 << 22 && (at % 2352 === 0 || length < 2352)), 'much is moved at a border of reads');
        return { reads: reads.length, bytes: reads.reduce((sum, { length }) => sum + length, 0) };
    };
    const dense = await asked(Array.from({ length: 20000 }, (_, i) => i));
    assert.ok(dense.reads < 30 && dense.bytes < 20000 * 2352 + 5e6, JSON.stringify(dense));
    const scattered = await asked(Array.from({ length: 20000 }, (_, i) => 14 * i + (i * 7) % 13));
    assert.ok(scattered.reads < 320, JSON.stringify(scattered)); // with a short read at each border of two reads
    const apart = await asked(Array.from({ length: 150 }, (_, i) => 2000 * i + 500));
    assert.ok(apart.reads === 150 && apart.bytes < 150 * 70000, JSON.stringify(apart));
});

test('of a short read that has what a patch needs no more is read', async () => {
    const reader = readerOf(image, 5000);
    const script = await readScript(calls, [encoded(`cdpatch 1\n${[0, 1000, 2000].map(i => `fill ${BASE + i} 0 1 07\n`).join('')}`)]);
    await passPatched(calls, reader, script, { base: BASE, carry: true });
    assert.deepEqual(reader.reads.map(({ at }) => at / 2352), [0, 1000, 2000]);
});

test('what was read between patches goes out with them as far as is asked for', async () => {
    const text = encoded(`cdpatch 1\n${Array.from({ length: 180 }, (_, i) => `fill ${BASE + 14 * i} 0 1 07\n`).join('')}`);
    const script = await readScript(calls, [text]);
    const due = await plainly(text, image, BASE, true);
    const sizes = async near => {
        const [pieces, reader] = [[], readerOf(image)];
        await passPatched(calls, reader, script, { base: BASE, carry: true, ...near }, piece => { pieces.push(kept(piece)); });
        sameBytes(joinedPieces(image, pieces), due.out, 'the image');
        assert.ok(reader.reads.every(({ at, length }, i, all) => i === 0 || at >= all[i - 1].at + all[i - 1].length), 'a byte read twice');
        return { slices: pieces.filter(it => !it.bytes).length, pieces: pieces.length };
    };
    const [few, all] = [await sizes({}), await sizes({ mostBetween: BETWEEN_WRITTEN })];
    assert.ok(few.slices > 170 && all.slices <= 2 && all.pieces < 40, JSON.stringify({ few, all }));
});

test('pieces that are kept stand side by side in large memory', async () => {
    const dice = diceOf(12);
    const [keeper, given] = [new PieceKeeper(), new Uint8Array(3000000)];
    const due = Array.from({ length: 200 }, (_, i) => ({ at: i, bytes: someBytes(dice, i === 7 ? 3000000 : dice(9000)) }));
    const pieces = due.map(({ at, bytes }) => {
        given.set(bytes);
        return keeper.kept({ at, bytes: given.subarray(0, bytes.length) });
    });
    given.fill(0);
    pieces.forEach(({ at, bytes }, i) => {
        assert.equal(at, i);
        sameBytes(bytes, due[i].bytes, `piece ${i}`);
    });
    assert.deepEqual(keeper.kept({ from: 5, to: 9 }), { from: 5, to: 9 });
    assert.equal(new Set(pieces.map(({ bytes }) => bytes.buffer)).size, 3);
});

test('what is read on is what begins in the last read, or where that ends, and nothing before the first', async () => {
    const reader = readerOf(image);
    const ahead = new ReadAhead(reader);
    assert.equal(await ahead.bytesOn(0, 10), null);
    await ahead.bytesAt(5000, 10);
    const [{ at, length }] = reader.reads;
    sameBytes(ahead.here(5000, length), image.subarray(5000, 5000 + length), 'what is here');
    assert.deepEqual([ahead.here(4999, 10), ahead.here(5000, length + 1)], [null, null]);
    assert.deepEqual([await ahead.bytesOn(4999, 10), await ahead.bytesOn(at + length + 1, 10)], [null, null]);
    sameBytes(await ahead.bytesOn(5000, 20), image.subarray(5000, 5020), 'the beginning');
    sameBytes(await ahead.bytesOn(at + length, 30), image.subarray(at + length, at + length + 30), 'the end');
});

test('a slice comes in reads of four megabytes, of which none is empty', async () => {
    const size = 1 << 23;
    const sizes = [];
    const reader = { size, read: async (at, length) => new Uint8Array(length) };
    for await (const { length } of bytesOfPieces(reader, [{ from: 0, to: size }, { from: 0, to: size + 1 }])) sizes.push(length);
    assert.deepEqual(sizes, [size / 2, size / 2, size / 2, size / 2, 1]);
});

test('of an image in pieces only what slices have is read, to the byte', async () => {
    const dice = diceOf(14);
    const [bytes, fresh] = [someBytes(dice, 300), someBytes(dice, 50)];
    const reader = readerOf(bytes);
    const inPieces = pieceReader(reader, [{ from: 0, to: 100 }, { at: 100, bytes: fresh.subarray(0, 20) },
        { at: 120, bytes: fresh.subarray(20) }, { from: 150, to: 300 }]);
    const due = Uint8Array.from([...bytes.subarray(0, 100), ...fresh, ...bytes.subarray(150)]);
    const asked = [[100, 50, 0], [120, 1, 0], [119, 31, 0], [99, 2, 1], [149, 2, 1], [0, 300, 1], [290, 50, 1], [300, 5, 0]];
    for (const [at, length, reads] of asked) {
        reader.reads.length = 0;
        sameBytes(await inPieces.read(at, length), due.subarray(at, at + length), `${length} bytes from ${at} on`);
        assert.equal(reader.reads.length, reads, `${length} bytes from ${at} on`);
    }
});

test('old bytes are not compared if that is asked for', async () => {
    const good = calls.encode(calls.address(0), new Uint8Array(2048));
    const script = await readScript(calls, [encoded('cdpatch 1\nset 0 0 41 was 99\nset 0 5 42 was 00\n')]);
    const results = async how => (await passPatched(calls, readerOf(good), script, { base: 0, ...how })).outcomes.map(it => it.result);
    assert.deepEqual([await results({}), await results({ withoutOld: true })], [[5, 0], [0, 0]]);
});

/** Splits patches into parts of these sizes in turn, each with its own run. */
function partsOf({ head, patches }, sizes) {
    const parts = [];
    for (let from = 0; from < patches.length; from += parts[parts.length - 1].patches.length) {
        parts.push(new Part(head, patches.slice(from, from + sizes[parts.length % sizes.length])));
    }
    return { parts, bases: [] };
}

test('a long script in parts, cut anywhere, makes what it makes as a whole', async () => {
    for (let seed = 0; seed < 40; seed++) {
        const dice = diceOf(600 + seed);
        const whole = someImage(dice, 12, BASE, dice(2) * 99);
        const text = someScript(dice, 30, BASE - 2, 16);
        const lines = readLines(calls, text);
        for (const carry of [false, true]) {
            const due = await plainly(text, whole, BASE, carry);
            for (const sizes of [[1], [2], [7], [1, 5, 2], [29], [99]]) {
                const came = await applyPatches(calls, readerOf(whole, 5000), partsOf(lines, sizes), { base: BASE, carry });
                assert.equal(decoded(came.text), due.text);
                assert.equal(came.status, due.status);
                sameBytes(joinedPieces(whole, came.pieces), due.out, `seed ${seed}, parts of ${sizes}`);
            }
        }
    }
});

test('a long script on an image that is too long ends as one that is not long', async () => {
    const text = encoded('cdpatch 1\nrebuild 1\nrebuild 5\nrebuild 1000000\n');
    const tooLong = { size: MOST_SECTORS * 2352 + 1, read: async (at, length) => new Uint8Array(length) };
    const due = 'line 2: refused: block 1 is not mode 1\nline 3: refused: block 5 is not mode 1\ncdpatch: the image has more than 1000000 sectors\n';
    for (const long of [false, true]) {
        const { status, text: log } = await passPatched(calls, tooLong, await readScript(calls, [text], long), { base: 0 });
        assert.deepEqual([status, decoded(log)], [2, due]);
    }
});

test('short reads of an interface', async () => {
    for (const most of [1, 1000, 2353]) await agrees(someScript(diceOf(11), 3, BASE, 30), image, BASE, true, most);
});

/** A copy of a piece: the bytes of a delivered piece change later. */
const kept = piece => piece.bytes ? { ...piece, bytes: piece.bytes.slice() } : piece;

test('a read that fails, at any place, reaches the caller', async () => {
    const text = someScript(diceOf(12), 60, BASE, 2600);
    const script = await readScript(calls, [text]);
    const due = await plainly(text, image, BASE, true);
    const { reads } = await (async () => { const it = readerOf(image, 300000); await applyPatches(calls, it, script, { base: BASE, carry: true }); return it; })();
    assert.ok(reads.length > 10);
    for (let fault = 0; fault < reads.length; fault++) {
        const reader = readerOf(image, 300000);
        const { read } = reader;
        const failing = { size: reader.size, read: async (at, length) => {
            if (reader.reads.length === fault) throw new Error(`no read ${fault}`);
            return read(at, length);
        } };
        const taken = [];
        await assert.rejects(passPatched(calls, failing, script, { base: BASE, carry: true }, piece => { taken.push(kept(piece)); }), { message: `no read ${fault}` });
        const begun = joinedPieces(image, taken);
        sameBytes(begun, due.out.subarray(0, begun.length), 'what was passed on before');
        await assert.rejects(applyPatches(calls, { ...failing, read: () => Promise.reject(new Error('none')) }, script, { base: BASE, carry: true }), /none/);
    }
});

test('an image that shrinks is no shorter image', async () => {
    const script = await readScript(calls, [encoded(`cdpatch 1\nfill ${BASE + 2400} 0 1 07\n`)]);
    const shrunk = { ...readerOf(image.subarray(0, 2400 * 2352 + 100)), size: image.length };
    const ended = { code: 'image-ended', facts: { at: 2400 * 2352 + 100 } };
    await assert.rejects(applyPatches(calls, shrunk, script, { base: BASE, carry: true }), ended);
    await assert.rejects(passPatched(calls, shrunk, script, { base: BASE, carry: true }), ended);
    await assert.rejects(async () => { for await (const bytes of bytesOfPieces(shrunk, [{ from: 0, to: image.length }])) assert.ok(bytes); }, ended);
});

test('an image that is too long has no outcome of a patch that needs what is too much', async () => {
    const size = (MOST_SECTORS + 2) * 2352;
    const line = 'cdpatch: the image has more than 1000000 sectors\n';
    const blank = block => `refused: block ${block} is not mode 1\n`;
    const sector = calls.encode(calls.address(0), new Uint8Array(2048));
    for (const [lines, kept, due] of [
        ['', 0, line], ['set 999999 2047 41\nset 1000000 0 42\n', 1, `line 2: applied\n${line}`],
        ['rebuild 999998\nset 999999 2047 4142\n', 0, `line 2: ${blank(999998)}${line}`],
    ]) {
        const reader = { size, read: async (at, length) => kept ? sector.slice(0, length) : new Uint8Array(length) };
        const pieces = [];
        const made = await passPatched(calls, reader, await readScript(calls, [encoded(`cdpatch 1\n${lines}`)]), { base: 0 }, it => { pieces.push(it); });
        assert.deepEqual([made.status, decoded(made.text), made.outcomes.length], [2, due, due.split('\n').length - 2]);
        const ends = pieces.map(it => it.to ?? it.at + it.bytes.length);
        assert.ok(ends.every(end => end <= MOST_SECTORS * 2352), `${ends}`);
    }
});

test('a piece that cannot be written reaches the caller', async () => {
    const script = await readScript(calls, [someScript(diceOf(13), 5, BASE, 2600)]);
    for (let fault = 0; fault < 3; fault++) {
        let left = fault;
        const take = async () => { if (left-- === 0) throw new Error('disk full'); };
        await assert.rejects(passPatched(calls, readerOf(image), script, { base: BASE, carry: true }, take), /disk full/);
    }
});

test('an image of as many sectors as the program takes, and a script without patches', async () => {
    const reader = readerOf(image);
    assert.equal((await passPatched(calls, { ...reader, size: MOST_SECTORS * 2352 }, await readScript(calls, [encoded('cdpatch 1\n')]), { base: 0 })).status, 0);
    assert.equal(reader.reads.length, 0);
});

test('the bytes of pieces', async () => {
    const script = await readScript(calls, [someScript(diceOf(14), 30, BASE, 2600)]);
    const { pieces } = await applyPatches(calls, readerOf(image), script, { base: BASE, carry: true });
    const passed = [];
    await passPatched(calls, readerOf(image), script, { base: BASE, carry: true }, piece => { passed.push(kept(piece)); });
    assert.ok(pieces.filter(it => it.bytes).length > 10);
    assert.deepEqual(pieces, passed);
    const parts = [];
    for await (const bytes of bytesOfPieces(readerOf(image, 1e6), pieces)) parts.push(bytes);
    sameBytes(Buffer.concat(parts), joinedPieces(image, pieces), 'the image');
    assert.ok(parts.every(bytes => bytes.length <= 1 << 22));
});

test('several patchings at the same time by the same calls', async () => {
    const texts = [300, 30, 150].map((count, i) => someScript(diceOf(20 + i), count, BASE, 2600));
    const scripts = await Promise.all(texts.map(text => readScript(calls, [text])));
    const due = await Promise.all(texts.map(text => plainly(text, image, BASE, true)));
    const own = newCalls();
    const came = await Promise.all(scripts.map(async script => {
        const pieces = [];
        const { text } = await passPatched(own, readerOf(image), script, { base: BASE, carry: true }, async piece => {
            if (pieces.length % 20 === 0) own.exports.memory.grow(1); // replaces the memory's buffer
            own.reserve(0);
            own.hold(new Uint8Array(5000).fill(99));
            await null;
            pieces.push(kept(piece));
        });
        return { text, pieces };
    }));
    came.forEach(({ text, pieces }, i) => {
        assert.equal(decoded(text), due[i].text);
        sameBytes(joinedPieces(image, pieces), due[i].out, 'the image');
    });
});

test('a run gives back its memory, however it ends', async () => {
    const own = newCalls();
    const { arena } = own;
    const script = await readScript(own, [someScript(diceOf(15), 5, BASE, 2600)]);
    const how = { base: BASE, carry: true };
    const failing = { size: image.length, read: async () => { throw new Error('no read'); } };
    await passPatched(own, readerOf(image), script, how);
    await assert.rejects(passPatched(own, failing, script, how), /no read/);
    await assert.rejects(passPatched(own, readerOf(image), script, how, () => { throw new Error('disk full'); }), /disk full/);
    assert.ok(await readScript(own, [encoded('faulty')]) instanceof Refusal);
    assert.deepEqual([own.arena, own.lent], [arena, []]);
});
