// The repair of an image from other dumps.

import assert from 'node:assert/strict';
import { test } from 'node:test';
import { calls, core, diceOf, joinedPieces, readerOf, sameBytes, someBytes } from './common.mjs';
import { localPool, withThreads } from './pools.mjs';
import { FORM1, WITHOUT_EDC, addressOf, at, dueOf, someDumps } from './dumps.mjs';
import { CHANGES, RAW, blocksOf, changedImage, imageOf as imageWith, sectorAt, sound, soundImage, trackIn } from './pairs.mjs';

const { baseByAddresses } = await core('disc/disc.js');
const { RECORD, RECORD_SIZE, SECTOR_KIND } = await core('module/index.js');
const { blocksIn, runsWithout, surveyRange } = await core('sectors/index.js');
const { applyInMemory } = await core('tasks/scripts.js');
const { correctionOf, repairTrack } = await core('tasks/repair.js');
const { commonPart, firstBlock, isSameRange, rangesOf } = await core('tasks/inform.js');

/** The number of random merges. */
const CASES = Number(process.env.MERGE_CASES ?? 200);
const BASE = 500;
const imageOf = (bytes, base = BASE) => imageWith(bytes, base);

/** The result of a repair, and its pieces. */
async function repaired(pool, old, others, how = {}) {
    const pieces = [];
    const [opened, ...dumps] = [old, ...others].map(trackIn);
    return { ...await repairTrack({ calls, pool }, opened, dumps, piece => { pieces.push(piece); }, how), pieces };
}

const merged = (images, how = {}, pool = localPool()) => repaired(pool, imageOf(images[0]), images.slice(1).map(it => imageOf(it)), how);

/** The findings of a repair that the model has too. */
function foundOf({ taken, doubtful, damaged, disputed, wrongAddress, different, differingUntested, unlike, refused }) {
    const runs = { taken, doubtful, damaged, disputed, wrongAddress, kept: unlike.filter(({ kind }) => kind === SECTOR_KIND.MODE2) };
    const blocks = Object.fromEntries(Object.entries(runs).map(([name, all]) => [name, blocksOf(all).map(({ kind: _, ...it }) => it)]));
    return { ...blocks, kept: refused ? null : blocks.kept, different, untested: differingUntested.map(blocksIn) };
}

const bytesOf = dump => Uint8Array.from(Buffer.concat(dump.map(it => it.bytes)));

test('merge replaces damaged and lost sectors by sound copies with the right address, and no others', async () => {
    const counts = { taken: 0, doubtful: 0, damaged: 0, disputed: 0, wrongAddress: 0, kept: 0, refused: 0, pause: 0 };
    for (let seed = 0; seed < CASES; seed++) {
        const dice = diceOf(seed + 400);
        const first = [BASE, BASE, -150][dice(3)];
        const base = Math.max(first, 0);
        const dumps = someDumps(dice, 2 + dice(3), 24, first);
        const [old, ...others] = dumps.map(dump => ({ ...imageOf(bytesOf(dump), base), addressed: first }));
        const { pieces, refused, sectors, ...rest } = await repaired(localPool(), old, others, { step: 1 + dice(30) });
        const { bytes, ...due } = dueOf(dumps, base);
        const isUntested = !dumps[0].some(it => it.mode === 1 || (it.mode === 2 && it.state === 'sound'));
        const isDifferent = due.different.some((count, i) => count + due.untested[i] > 0);
        assert.deepEqual([refused && refused.why, sectors], [isUntested ? 'untested' : isDifferent ? 'different' : null, 24], `seed ${seed}`);
        assert.deepEqual(foundOf({ ...rest, refused }), { ...due, kept: refused ? null : due.kept }, `seed ${seed}`);
        sameBytes(joinedPieces(bytesOf(dumps[0]), pieces), Uint8Array.from(Buffer.concat(bytes)), `seed ${seed}`);
        for (const name of Object.keys(due)) if (name in counts) counts[name] += due[name].length;
        counts.refused += Number(refused !== null);
        counts.pause += first < 0 ? due.taken.length : 0;
    }
    assert.ok(Object.values(counts).every(count => count > 0) && counts.taken > CASES && counts.damaged > CASES / 4, JSON.stringify(counts));
});

test('a sector that is consistent but has the address of another block is not taken', async () => {
    const image = soundImage(diceOf(50), 4, BASE);
    const old = image.slice();
    for (const i of [1, 2]) old.set(CHANGES.damaged(sectorAt(image, i), diceOf(i)), RAW * i);
    const other = image.slice();
    other.set(sound(BASE + 1, new Uint8Array(2048)), RAW * 2);
    const { pieces, taken, damaged } = await merged([old, other]);
    assert.deepEqual([blocksOf(taken), blocksOf(damaged)], [[{ block: BASE + 1, other: 0 }], [{ block: BASE + 2, elsewhere: true }]]);
    const due2 = old.slice();
    due2.set(sectorAt(image, 1), RAW);
    sameBytes(joinedPieces(old, pieces), due2, 'the repaired image');
});

test('a sound sector with the address of a different block stays, and is named', async () => {
    const image = soundImage(diceOf(53), 400, BASE);
    const old = image.slice();
    [[200, 201], [201, 200]].forEach(([to, from]) => old.set(sectorAt(image, from), RAW * to));
    for (const other of [image, old]) {
        const { pieces, taken, different, wrongAddress } = await merged([old, other]);
        assert.deepEqual([taken, different, wrongAddress], [[], [other === old ? 0 : 2], [{ first: BASE + 200, last: BASE + 201 }]]);
        sameBytes(joinedPieces(old, pieces), old, 'the repaired image');
    }
});

test('no sector of a damaged other image is taken, and the same damage in all is counted', async () => {
    const image = soundImage(diceOf(51), 6, BASE);
    const old = image.slice();
    for (const i of [1, 3, 4]) old.set(CHANGES.damaged(sectorAt(image, i), diceOf(i)), RAW * i);
    const other = old.slice();
    other.set(CHANGES.damaged(sectorAt(image, 3), diceOf(99)), RAW * 3);
    const { pieces, taken, damaged, alike } = await merged([old, other]);
    const runOf = (first, last) => ({ first: BASE + first, last: BASE + last });
    assert.deepEqual([taken, damaged], [[], [{ ...runOf(1, 1), elsewhere: false }, { ...runOf(3, 4), elsewhere: false }]]);
    assert.deepEqual(alike, [runOf(1, 1), runOf(4, 4)]);
    assert.deepEqual([(await merged([old, old, other], { step: 1 })).alike, (await merged([old])).alike], [[runOf(1, 1), runOf(4, 4)], []]);
    assert.deepEqual(pieces, [{ from: 0, to: old.length }]);
});

test('two other images that are sound and differ: the first is taken, and the block named', async () => {
    const image = soundImage(diceOf(52), 3, BASE);
    const old = image.slice();
    old.set(CHANGES.damaged(sectorAt(image, 1), diceOf(1)), RAW);
    const [one, two] = [1, 2].map(value => { const it = image.slice(); it.set(sound(BASE + 1, new Uint8Array(2048).fill(value)), RAW); return it; });
    const { pieces, taken, disputed } = await merged([old, one, two, one]);
    assert.deepEqual([taken, disputed], [[{ first: BASE + 1, last: BASE + 1, other: 0 }], [{ first: BASE + 1, last: BASE + 1 }]]);
    sameBytes(joinedPieces(old, pieces), one, 'the first');
    assert.deepEqual((await merged([old, one, one])).disputed, []);
});

test('of sound sectors that differ that one is taken whose EDC stands in the damaged one', async () => {
    const image = soundImage(diceOf(62), 6, BASE);
    const old = image.slice();
    for (const i of [1, 3]) old[RAW * i + 100] ^= 1;
    old[RAW * 2 + 2065] ^= 1;
    old.fill(0x55, RAW * 4, RAW * 5);
    const other = image.slice();
    for (const i of [1, 2, 3, 4]) other.set(sound(BASE + i, new Uint8Array(2048).fill(i)), RAW * i);
    const one = await merged([old, other, image]);
    assert.deepEqual(blocksOf(one.taken), [1, 2, 3, 4].map(i => ({ block: BASE + i, other: Number(i < 4) })));
    assert.deepEqual([blocksOf(one.doubtful), blocksOf(one.disputed).length], [[{ block: BASE + 4, other: 0 }], 4]);
    const odd = await merged([old, other]);
    assert.deepEqual(blocksOf(odd.doubtful), [1, 2, 3, 4].map(i => ({ block: BASE + i, other: 0 })));
    // Nothing in a filled sector confirms its copy, although no other dump disputes it; and nothing in it could.
    const unread = [{ block: BASE + 4, other: 0 }];
    assert.deepEqual([await merged([old, image]), one, odd].map(it => blocksOf(it.unread)), [unread, unread, unread]);
    assert.deepEqual(blocksOf((await merged([old, image])).doubtful), unread);
});

/** The result of a repair that may correct sectors by their own parity, or not. */
const parityOf = (images, parity) => merged(images, { parity });

test('with parity, a damaged sector or sync field is first corrected if its own EDC confirms it, and only if it is asked for', async () => {
    const image = soundImage(diceOf(90), 8, BASE);
    const old = image.slice();
    for (const place of [20, 800, 2080, 2300]) old[RAW + place] ^= 0x41; // block 1: user data, P, and Q
    old.fill(0x41, RAW * 2 + 500, RAW * 2 + 800);
    old[RAW * 3 + 2064] ^= 1;
    old[RAW * 4 + 14] ^= 1;
    for (const i of [5, 6]) old[RAW * i + 100] ^= 1;
    old[RAW * 7 + 3] ^= 1;
    const other = old.slice();
    other.set(sectorAt(image, 5), RAW * 5);
    const [runOf, due] = [(first, last = first) => ({ first: BASE + first, last: BASE + last }), old.slice()];
    other.set(sectorAt(image, 2), RAW * 2);
    for (const i of [1, 2, 5, 6, 7]) due.set(sectorAt(image, i), RAW * i);
    const { pieces, taken, corrected, damaged, alike, lost } = await parityOf([old, other], true);
    assert.deepEqual([taken, corrected, lost], [[{ ...runOf(2), other: 0 }], [runOf(1), runOf(5, 7)], []]);
    assert.deepEqual([damaged, alike], [[{ ...runOf(3, 4), elsewhere: false }], [runOf(3, 4)]]);
    sameBytes(joinedPieces(old, pieces), due, 'the repaired image');
    const unasked = await parityOf([old, other], false);
    assert.deepEqual([unasked.corrected, blocksIn(unasked.damaged), blocksOf(unasked.taken).map(({ block }) => block - BASE)], [[], 4, [2, 5]]);
    due.set(sectorAt(old, 2), RAW * 2);
    sameBytes(joinedPieces(old, (await parityOf([old], true)).pieces), due, 'without another dump');
    // A lost sync field is restored only if nothing else is wrong, and a mode byte never is.
    const worn = old.slice();
    worn[RAW * 7 + 100] ^= 1;
    worn[RAW * 6 + 15] ^= 3;
    assert.deepEqual((await parityOf([worn], true)).corrected, [runOf(1), runOf(5)]);
});

test('a sector that parity corrects keeps its address, which is named if it is that of a different block', async () => {
    const image = soundImage(diceOf(91), 400, BASE);
    const swapped = image.slice();
    [[200, 201], [201, 200]].forEach(([to, from]) => swapped.set(sectorAt(image, from), RAW * to));
    const old = swapped.slice();
    old[RAW * 200 + 16] ^= 1;
    const { pieces, corrected, wrongAddress } = await parityOf([old], true);
    assert.deepEqual([blocksOf(corrected), blocksIn(wrongAddress)], [[{ block: BASE + 200 }], 2]);
    sameBytes(joinedPieces(old, pieces), swapped, 'the corrected image');
});

test('parity changes nothing of a merge but damaged or lost Mode 1 sectors, which become sound with the header and the EDC that they had', async () => {
    let [count, doubtful, confirmed] = [0, 0, 0];
    for (let seed = 0; seed < CASES / 2; seed++) {
        const dice = diceOf(seed + 9000);
        const dumps = someDumps(dice, 1 + dice(3), 24, BASE, dice(2) === 0).map(bytesOf);
        for (let left = dice(9); left > 0; left--) dumps[0][RAW * dice(24) + dice(RAW)] ^= 1 + dice(255);
        const [one, two] = [await parityOf(dumps, true), await parityOf(dumps, false)];
        const corrected = new Set(blocksOf(one.corrected).map(({ block }) => block));
        const others = name => [one, two].map(it => blocksOf(it[name]).filter(({ block }) => !corrected.has(block)));
        for (const name of ['taken', 'doubtful', 'damaged', 'disputed', 'wrongAddress']) assert.deepEqual(...others(name), `seed ${seed} ${name}`);
        const left = new Set(blocksOf([...two.damaged, ...two.taken, ...two.lost, ...two.untested]).map(({ block }) => block));
        assert.deepEqual([two.corrected, [...corrected].filter(block => !left.has(block))], [[], []], `seed ${seed}`);
        const sure = new Set(blocksOf(runsWithout(two.taken, two.doubtful)).map(({ block }) => block));
        const made = joinedPieces(dumps[0], one.pieces);
        const due = joinedPieces(dumps[0], two.pieces);
        for (const block of corrected) {
            const [sector, old] = [made, dumps[0]].map(bytes => sectorAt(bytes, block - BASE));
            assert.ok(calls.isConsistent(sector) && !calls.isConsistent(old), `seed ${seed}`);
            if (sure.has(block)) sameBytes(sector, sectorAt(due, block - BASE), `seed ${seed}: another dump confirms it`);
            for (const [from, to] of [[12, 16], [2064, 2068]]) sameBytes(sector.subarray(from, to), old.subarray(from, to), `seed ${seed}`);
            due.set(sector, RAW * (block - BASE));
        }
        sameBytes(made, due, `seed ${seed}`);
        count += corrected.size;
        confirmed += [...corrected].filter(block => sure.has(block)).length;
        doubtful += blocksOf(two.doubtful).filter(({ block }) => corrected.has(block)).length;
    }
    assert.ok(count > CASES / 4 && doubtful > 0 && confirmed > 0, `${count} ${doubtful} ${confirmed}`);
});

test('the lines that correct a sector make it as its parity does, and there are none if the parity cannot', async () => {
    const counts = [0, 0];
    for (let seed = 0; seed < CASES; seed++) {
        const dice = diceOf(seed + 7000);
        const image = soundImage(dice, 3, BASE);
        const old = image.slice();
        const [first, most] = [dice(RAW), [1, 4, 24, 80, 200][dice(5)]];
        for (let k = 0; k < most; k++) old[RAW + (dice(2) === 0 ? dice(RAW) : Math.min(first + k, RAW - 1))] ^= 1 + dice(255);
        const sector = sectorAt(old, 1);
        const due = calls.correctedSector(sector);
        const correction = correctionOf(calls, BASE + 1, sector);
        counts[Number(due !== null)] += 1;
        assert.equal(correction === null, due === null, `seed ${seed}`);
        if (correction === null) continue;
        sameBytes(correction.fresh, sectorAt(image, 1), `seed ${seed}`);
        if (calls.kind(sector) !== SECTOR_KIND.MODE1) {
            assert.deepEqual(correction.lines, [], `seed ${seed}`);
            continue;
        }
        const text = new TextEncoder().encode(`cdpatch 1\n${correction.lines.join('\n')}\n`);
        const { pieces } = await applyInMemory({ calls, pool: localPool() }, imageOf(old), { text, bases: [] });
        sameBytes(joinedPieces(old, pieces), image, `seed ${seed}`);
    }
    assert.ok(counts.every(count => count > CASES / 10), counts.join(' '));
});

test('sound sectors that differ are named by their blocks, of each image', async () => {
    const image = soundImage(diceOf(63), 1200, BASE);
    const [one, two] = [[3, 4, 700], [4, 5]].map(places => {
        const it = image.slice();
        for (const i of places) it.set(CHANGES.bytes(sectorAt(image, i), diceOf(i)), RAW * i);
        return it;
    });
    const { differing } = await merged([image, one, two], { step: 4 });
    const runOf = (first, last) => ({ first: BASE + first, last: BASE + last });
    assert.deepEqual(differing, [[runOf(3, 4), runOf(700, 700)], [runOf(4, 5)]]);
});

test('sound sectors that differ are counted, and above a hundredth of all the image is refused', async () => {
    const image = soundImage(diceOf(53), 300, BASE);
    const other = image.slice();
    for (let i = 0; i < 3; i++) other.set(CHANGES.bytes(sectorAt(image, 50 * i), diceOf(i)), RAW * 50 * i);
    const few = await merged([image, image, other], { step: 100 });
    assert.deepEqual([few.different, few.refused], [[0, 3], null]);
    sameBytes(joinedPieces(image, few.pieces), image, 'the image');
    other.set(CHANGES.bytes(sectorAt(image, 299), diceOf(9)), RAW * 299);
    const many = await merged([image, image, other], { step: 100 });
    assert.deepEqual([many.different, many.refused, many.sectors], [[0, 4], { why: 'different', other: 1, common: 300, sound: 4, untested: 0, shift: null }, 300]);
    assert.deepEqual([few.same, many.same], [[300, 297], [300, 296]]);
});

test('a shifted dump is refused', async () => {
    const image = soundImage(diceOf(54), 301, BASE);
    const old = changedImage(diceOf(55), image.slice(0, 300 * RAW), ['damaged'], 9);
    const { refused, taken, different } = await merged([old, image.slice(RAW)]);
    assert.deepEqual([refused.why, taken], ['different', []]);
    assert.ok(different[0] > 200);
});

test('of a dump in which sectors are missing, or too many, it is said where, from either side', async () => {
    const disc = soundImage(diceOf(54), 300, BASE);
    const [missing, more] = [[disc.slice(0, 100 * RAW), disc.slice(107 * RAW)], [disc.slice(0, 60 * RAW), disc.slice(0, 5 * RAW), disc.slice(60 * RAW)]];
    for (const [parts, by, first] of [[missing, 7, BASE + 100], [more, -5, BASE + 65]]) {
        const [whole, cut] = [disc, new Uint8Array(Buffer.concat(parts))].map(bytes => imageOf(bytes));
        for (const [old, other] of [[whole, cut], [cut, whole]]) {
            const { refused } = await repaired(localPool(), old, [other]);
            assert.deepEqual([refused.why, refused.other, refused.shift], ['different', 0, { by, first, isOther: other === cut }]);
        }
    }
});

test('tails that differ are said, and the tail stays as it is', async () => {
    const image = soundImage(diceOf(61), 3, BASE, 20);
    const old = image.slice();
    old.set(CHANGES.damaged(sectorAt(image, 1), diceOf(1)), RAW);
    const other = image.slice();
    other[3 * RAW + 19] ^= 1;
    const { pieces, tails } = await merged([old, image, other]);
    assert.deepEqual(tails, [false, true]);
    sameBytes(joinedPieces(old, pieces), image, 'the repaired image');
});

test('another part of a disc is refused', async () => {
    const image = soundImage(diceOf(56), 5, BASE);
    const { refused, pieces } = await repaired(localPool(), imageOf(image), [imageOf(image), imageOf(image, BASE + 5)]);
    assert.deepEqual([refused, pieces], [{ why: 'apart', other: 1, first: [BASE, BASE + 5] }, []]);
});

test('images are counted from the blocks that their addresses say, before block 0 too, or else their cue sheets', () => {
    const image = soundImage(diceOf(63), 5, BASE);
    const [named, early] = [{ ...imageOf(image), addressed: null }, { ...imageOf(image, 0), addressed: -2 }];
    assert.deepEqual([named, early, imageOf(image)].map(firstBlock), [BASE, -2, BASE]);
    assert.deepEqual(commonPart(named, imageOf(image, BASE + 2)), { from: 2, to: 5, later: 2 });
    assert.deepEqual(commonPart(imageOf(image, 1), early), { from: 0, to: 2, later: -3 });
});

test('the blocks that only one of two images has', () => {
    const image = (first, count) => imageOf(new Uint8Array(count * RAW), first);
    const runs = given => given.map(([first, last]) => ({ first, last }));
    const cases = [[[30, 10], [30, 10], [[30, 39]], [], []], [[30, 10], [33, 4], [[33, 36]], [[30, 32], [37, 39]], []],
        [[30, 10], [28, 20], [[30, 39]], [], [[28, 29], [40, 47]]], [[30, 10], [35, 10], [[35, 39]], [[30, 34]], [[40, 44]]],
        [[30, 10], [25, 8], [[30, 32]], [[33, 39]], [[25, 29]]]];
    for (const [old, other, common, missing, beyond] of cases) {
        assert.deepEqual(rangesOf(image(...old), image(...other)), { common: runs(common), missing: runs(missing), beyond: runs(beyond) });
    }
});

test('a base that is set by hand is that of all dumps, whatever their addresses say', async () => {
    const [old, other] = someDumps(diceOf(70), 2, 60, BASE, false).map(bytesOf);
    const due = await repaired(localPool(), imageOf(old), [imageOf(other)]);
    const pieces = [];
    const moved = trackIn(imageOf(old, 7)).withBase(BASE);
    for (const first of [7, BASE, BASE + 3]) {
        const found = await repairTrack({ calls, pool: localPool() }, moved, [trackIn(imageOf(other, first))], piece => { pieces.push(piece); });
        assert.deepEqual({ ...found, pieces: pieces.splice(0) }, due, `the other one begins with block ${first}`);
    }
});

test('dumps that begin or end elsewhere repair what they have', async () => {
    const ranges = [[0, 60], [0, 55], [7, 60], [-3, 70], [20, 90]];
    for (let seed = 0; seed < 20; seed++) {
        const dumps = someDumps(diceOf(seed), ranges.length, 60, BASE, false);
        const [old, ...others] = dumps.map((dump, k) => {
            const [from, to] = ranges[k];
            const around = Buffer.concat([new Uint8Array(3 * RAW), bytesOf(dump), new Uint8Array(30 * RAW)]);
            return imageOf(Uint8Array.from(around.subarray((from + 3) * RAW, (to + 3) * RAW + (k === 0 ? 50 : 0))), BASE + from);
        });
        const told = [];
        const how = { step: 1 + seed, progress: (done, all) => { told.push(done); assert.equal(all, 60); } };
        const { pieces, tails, refused, sectors, ...rest } = await repaired(localPool(), old, others, how);
        const { bytes, ...due } = dueOf(dumps.map((dump, k) => dump.map((it, i) => i >= ranges[k][0] && i < ranges[k][1] ? it : null)), BASE);
        assert.deepEqual(foundOf({ ...rest, refused }), { ...due, kept: refused ? null : due.kept }, `seed ${seed}`);
        sameBytes(joinedPieces(await old.reader.read(0, old.reader.size), pieces), Uint8Array.from(Buffer.concat([...bytes, new Uint8Array(50)])), `seed ${seed}`);
        const due2 = [[0, 55, 0], [7, 60, 7], [0, 60, -3], [20, 60, 20]].map(([from, to, later]) => ({ from, to, later }));
        assert.deepEqual(others.map(other => commonPart(old, other)), due2);
        assert.deepEqual([sectors, told.at(-1), [...told].sort((a, b) => a - b)], [60, 60, told]);
        if (refused === null) assert.deepEqual(tails, [false, true, false, false]);
    }
});

test('a dump in which sectors are missing or too many is refused, and it is found by how many and where', async () => {
    const image = soundImage(diceOf(62), 120, BASE);
    const gone = Buffer.concat([image.subarray(0, 70 * RAW), image.subarray(73 * RAW), new Uint8Array(3 * RAW)]);
    const more = Buffer.concat([image.subarray(0, 65 * RAW), image.subarray(64 * RAW, 119 * RAW)]);
    const both = Buffer.concat([image.subarray(0, 20 * RAW), image.subarray(21 * RAW, 26 * RAW), image.subarray(25 * RAW, 70 * RAW),
        gone.subarray(70 * RAW)]);
    const edited = image.slice();
    for (let i = 30; i < 90; i++) edited.set(sound(BASE + i, new Uint8Array(2048).fill(i)), RAW * i);
    const due = [{ by: 3, first: BASE + 70 }, { by: 3, first: BASE + 70 }, { by: -1, first: BASE + 65 }, null];
    for (const [i, bytes] of [gone, both, more, edited].entries()) {
        const [old, other] = [imageOf(image), imageOf(Uint8Array.from(bytes))];
        const { refused } = await repaired(localPool(), old, [other]);
        assert.deepEqual([refused.why, refused.other, refused.shift], ['different', 0, due[i] && { ...due[i], isOther: true }]);
        assert.ok(isSameRange(old, other) && !isSameRange(old, imageOf(image, BASE + 1)));
    }
});

test('merge by ranges of 1 to 4096 sectors, and by threads, is the same', async () => {
    const dumps = someDumps(diceOf(62), 3, 200, BASE, false);
    const tail = new Uint8Array(1); // so that no thread is given the whole memory of an image
    const images = dumps.map(dump => Uint8Array.from([...bytesOf(dump), ...tail]));
    const shown = ({ pieces, ...rest }) => ({ ...rest, out: joinedPieces(images[0], pieces).toString('latin1') });
    const one = shown(await merged(images));
    assert.deepEqual([one.refused, one.out], [null, Buffer.concat([...dueOf(dumps, BASE).bytes, tail]).toString('latin1')]);
    for (const step of [1, 2, 13, 199, 4096]) assert.deepEqual(shown(await merged(images, { step })), one);
    await withThreads(3, async pool => {
        for (const step of [1, 30, 4096]) assert.deepEqual(shown(await merged(images, { step }, pool)), one);
    });
});

test('blocks above the last address are not repaired', async () => {
    const image = soundImage(diceOf(58), 2, 449849);
    const old = image.slice();
    for (const i of [0, 1]) old.set(CHANGES.damaged(sectorAt(image, i), diceOf(i)), RAW * i);
    const { taken, damaged } = await repaired(localPool(), imageOf(old, 449849), [imageOf(image, 449849)]);
    assert.deepEqual([taken, damaged], [[{ first: 449849, last: 449849, other: 0 }], [{ first: 449850, last: 449850, elsewhere: true }]]);
    assert.deepEqual((await repaired(localPool(), imageOf(image, 449849), [imageOf(image, 449849)])).wrongAddress, []);
});

test('the first pause is tested and repaired, and a sector of it with the address of a different block is named', async () => {
    const image = Uint8Array.from(Buffer.concat(Array.from({ length: 160 }, (_, i) => calls.encode(addressOf(i - 150), new Uint8Array(2048).fill(i)))));
    const old = image.slice();
    for (const i of [0, 149, 155]) old.set(CHANGES.damaged(sectorAt(image, i), diceOf(i)), RAW * i);
    old.set(sectorAt(image, 21), RAW * 20);
    assert.equal(await baseByAddresses(calls, readerOf(old.subarray(0, 100 * RAW))), -150);
    const { records } = surveyRange(calls, old, 0, { shift: -150 });
    assert.deepEqual([...records.keys()].filter(at => at % RECORD_SIZE === RECORD.ADDRESS && records[at] !== 0), [20 * RECORD_SIZE + RECORD.ADDRESS]);
    const early = (bytes, addressed = -150) => ({ ...imageOf(bytes, 0), addressed });
    const { pieces, taken, damaged, wrongAddress } = await repaired(localPool(), early(old), [early(image)]);
    assert.deepEqual([blocksOf(taken).map(({ block }) => block), damaged, wrongAddress], [[0, 149, 155], [], [{ first: 20, last: 20 }]]);
    const due = image.slice();
    due.set(sectorAt(image, 21), RAW * 20);
    sameBytes(joinedPieces(old, pieces), due, 'the repaired image');
    const tooEarly = await repaired(localPool(), early(old, -151), [early(image, -151)]);
    assert.deepEqual([tooEarly.taken, tooEarly.damaged[0]], [[], { first: 0, last: 0, elsewhere: true }]);
});

/** Images of Mode 2: one with Form 2 without EDC, of which one sector in eight is Form 1, and the same with other EDC or data. */
function withoutEdc(change) {
    return Uint8Array.from(Buffer.concat(Array.from({ length: 400 }, (_, i) => {
        if (i % 8 === 0) return at(BASE + i, FORM1[i % FORM1.length]);
        const sector = at(BASE + i, WITHOUT_EDC[i % WITHOUT_EDC.length]);
        change(sector, i);
        return sector;
    })));
}

/** Fills in the EDC of a Form 2 sector. */
const withEdc = sector => new DataView(sector.buffer).setUint32(2348, calls.edc(sector.subarray(16, 2348)), true);

test('a Mode 2 sector that was not tested stays, and counts as different only if its data are', async () => {
    const disc = withoutEdc(() => {});
    const old = disc.slice();
    old[RAW * 80 + 500] ^= 1;
    const same = await merged([old, withoutEdc(withEdc)]);
    assert.deepEqual([same.refused, same.taken, same.unlike], [null, [{ first: BASE + 80, last: BASE + 80, other: 0 }], []]);
    sameBytes(joinedPieces(old, same.pieces), disc, 'the repaired image');
    const patchedUpTo = end => withoutEdc((sector, i) => { if (i < end) sector.set(someBytes(diceOf(i), 99), 100); withEdc(sector); });
    const few = await merged([old, patchedUpTo(5)]);
    assert.deepEqual([few.refused, few.unlike, few.differingUntested], [null, [{ first: BASE + 1, last: BASE + 4, kind: 3 }], [[{ first: BASE + 1, last: BASE + 4 }]]]);
    sameBytes(joinedPieces(old, few.pieces), disc, 'the repaired image');
    const { refused } = await merged([old, disc, patchedUpTo(6)]);
    assert.deepEqual(refused, { why: 'different', other: 1, common: 400, sound: 0, untested: 5, shift: null });
});

test('a Mode 2 sector of zeros is filled, which is doubtful, and one that only lacks its EDC is not', async () => {
    const image = withoutEdc(withEdc);
    const old = image.slice();
    old.fill(0, RAW * 9 + 16, RAW * 10);
    old.fill(0, RAW * 10 + 2348, RAW * 11);
    const { pieces, taken, doubtful, untested } = await merged([old, image]);
    const run = { first: BASE + 9, last: BASE + 9, other: 0 };
    assert.deepEqual([taken, doubtful, untested], [[run], [run], [{ first: BASE + 10, last: BASE + 10, kind: 3 }]]);
    assert.equal(joinedPieces(old, pieces).readUInt32LE(RAW * 10 + 2348), 0);
});

test('an image in which nothing was ever tested is not repaired', async () => {
    const data = soundImage(diceOf(80), 30, BASE);
    const formless = withoutEdc(() => {}).subarray(0, 30 * RAW).map((byte, i) => i % RAW < 16 ? byte : i * 7 % 251);
    for (const old of [Uint8Array.from(someBytes(diceOf(81), 30 * RAW)), new Uint8Array(30 * RAW), formless]) {
        const { refused, unlike } = await merged([old, data]);
        assert.deepEqual([refused, unlike], [{ why: 'untested' }, []]);
    }
    const one = formless.slice();
    one.set(sectorAt(data, 4), RAW * 4);
    assert.equal((await merged([one, one])).refused, null);
});

test('without a sound Mode 2 sector none was tested, and sectors that are unlike are counted', async () => {
    const [one, two] = [0, 1].map(which => {
        const image = soundImage(diceOf(82), 6, BASE);
        for (const i of [1, 2, 3, 4]) {
            image.set(at(BASE + i, FORM1[0]), RAW * i);
            image.fill(i === 2 ? 1 + which : i === 4 ? which : 3, RAW * i + 16, RAW * (i + 1));
        }
        return image;
    });
    const runOf = (first, last) => ({ first: BASE + first, last: BASE + last, kind: 3 });
    for (const images of [[one, two], [two, one]]) {
        const { damaged, alike, lost, unlike, taken } = await merged(images);
        assert.deepEqual([damaged, alike, taken, lost.map(({ first, last }) => [first, last]), unlike], [[], [], [], [[BASE + 1, BASE + 4]], []]);
    }
    const ends = images => images.map(image => image.subarray(0, 5 * RAW));
    const { untested, unlike } = await merged(ends([one, two]));
    assert.deepEqual([untested, unlike], [[runOf(1, 4)], [runOf(2, 2), runOf(4, 4)]]);
});
