// The script that undoes another script.

import assert from 'node:assert/strict';
import { test } from 'node:test';
import { MESSAGES } from '../lib/messages.mjs';
import { calls, core, decoded, diceOf, encoded, joinedPieces, readerOf, sameBytes, someImage } from './common.mjs';
import { localPool } from './pools.mjs';
import { RAW, blocksOf, changedImage, countOf, patchedBy, sectorAt, sound, soundImage, textOf, trackOf } from './pairs.mjs';

const { undoScript, compareTrack } = await core('tasks/scripts.js');
const { readScript } = await core('script/script.js');
const { applyPatches } = await core('script/patches.js');

const BASE = 60;
const ENGINE = { calls, pool: localPool() };
const undone = (image, script, options = {}, watch = {}, track = trackOf(image, BASE)) =>
    undoScript(ENGINE, track, Array.isArray(script) ? script : [encoded(script)], options, watch);
/** The lines before the patches in a script for this base. */
const head = version => `cdpatch ${version}\n# base ${BASE}\n`;

/** The image after a script, and the log. */
async function after(image, script, carry) {
    const made = await applyPatches(calls, readerOf(image), await readScript(calls, [encoded(script)]), { base: BASE, carry });
    return { image: joinedPieces(image, made.pieces), text: decoded(made.text) };
}

/** Overlapping patches with every verb, with and without `was`, on blocks inside and outside the image. */
function someScript(dice, count, blocks) {
    const hex = size => Buffer.from(Uint8Array.from({ length: size }, () => dice(256))).toString('hex');
    const lines = Array.from({ length: count }, () => {
        const [block, offset] = [BASE - 1 + dice(blocks + 2), dice(2048)];
        const verb = dice(8);
        if (verb % 7 === 0) return `rebuild ${block}`;
        if (verb === 1) return `address ${block} 0${dice(10)}:${dice(6)}${dice(10)}:0${dice(10)}`;
        if (verb === 2) return `fill ${block} ${offset} ${1 + dice(4096)} ${hex(1)}`;
        if (verb === 3) return `set ${block} ${offset} ${hex(2)} was 0000`;
        return `set ${block} ${offset} ${hex(1 + dice(dice(4) === 0 ? 4096 : 20))}`;
    });
    return `cdpatch 2\n${lines.join('\n')}\n`;
}

/** The blocks in which images differ. */
const differing = (a, b) => Array.from({ length: countOf(a) }, (_, i) => i)
    .filter(i => Buffer.compare(sectorAt(a, i), sectorAt(b, i)) !== 0).map(i => BASE + i);

for (const carry of [false, true]) {
    test(`any script on any image ${carry ? 'with' : 'without'} carry: undo gives the image back, but for the damage that it names`, async () => {
        let [back, named] = [0, 0];
        for (let seed = 0; seed < 60; seed++) {
            const dice = diceOf(seed);
            const image = someImage(dice, 25, BASE, 7);
            const script = someScript(dice, 12, 25);
            const patched = await after(image, script, carry);
            const made = await undone(image, script, { carry });
            const refused = Number(/ refused (\d+)\n$/.exec(patched.text)[1]);
            if (made.script === null) {
                assert.deepEqual([made, differing(image, patched.image)], [{ script: null, why: 'refused', refused }, []]);
                continue;
            }
            const { script: undo, left } = made;
            assert.equal(made.refused, refused);
            const restored = await patchedBy(undo, patched.image, BASE, carry);
            const lost = differing(image, restored);
            assert.deepEqual(blocksOf(left).map(it => it.block), lost);
            for (const { block, why } of blocksOf(left)) {
                const [before, now] = [image, restored].map(it => sectorAt(it, block - BASE));
                assert.ok(!calls.isConsistent(before) && why === 'damaged');
                sameBytes(now.subarray(0, 2064), before.subarray(0, 2064), `header and user data of block ${block}`);
            }
            back += differing(image, patched.image).length;
            named += lost.length;
        }
        assert.ok(back > 200 && named >= 8, `${back} ${named}`);
    });
}

test('carried damage comes back to the byte', async () => {
    const image = sound(BASE, new Uint8Array(2048).fill(3));
    image[700] ^= 4;
    image[2200] ^= 9;
    const script = `cdpatch 2\nset ${BASE} 10 414243\naddress ${BASE} 00:00:01\nfill ${BASE} 2000 48 FF\n`;
    const patched = await after(image, script, true);
    assert.equal(patched.text.split('\n')[3], 'applied 3 refused 0');
    const { script: undo, left } = await undone(image, script, { carry: true });
    assert.deepEqual([left, undo.carry], [[], true]);
    sameBytes(await patchedBy(undo, patched.image, BASE, true), image, 'the image');
});

test('a rebuild of damage is named, and one of a sound sector is nothing', async () => {
    const image = soundImage(diceOf(3), 3, BASE);
    image[2300] ^= 1;
    const { script, left } = await undone(image, `cdpatch 1\nrebuild ${BASE}\nrebuild ${BASE + 1}\nset ${BASE} 0 55\n`);
    assert.deepEqual(left, [{ first: BASE, last: BASE, why: 'damaged', kinds: [] }]);
    assert.equal(textOf(script), `${head(1)}set ${BASE} 0 ${Buffer.from(image.subarray(16, 17)).toString('hex').toUpperCase()} was 55\n`);
});

test('patches of one byte after the other are taken back to the first old byte', async () => {
    const image = Buffer.concat([0, 1].map(i => sound(BASE + i, new Uint8Array(2048).fill(0x10 + i))));
    const script = `cdpatch 1\nset ${BASE} 2047 AABB\nset ${BASE} 2047 CC was AA\nset ${BASE + 1} 0 DD\nset ${BASE} 2046 EE\nset ${BASE} 2046 EF\n`;
    const { script: undo, refused } = await undone(image, script);
    assert.equal(textOf(undo), `${head(1)}set ${BASE} 2046 1010 was EFCC\nset ${BASE + 1} 0 11 was DD\n`);
    assert.equal(refused, 0);
});

test('patches that overlap are taken back from the last to the first', async () => {
    const image = sound(BASE, new Uint8Array(2048));
    const script = `cdpatch 1\nset ${BASE} 0 AAAA was 0000\nset ${BASE} 1 BBBB was AA00\nset ${BASE} 0 CC was AA\n`;
    const patched = await after(image, script, false);
    const { script: undo, left } = await undone(image, script);
    assert.deepEqual([left, undo.carry], [[], false]);
    sameBytes(await patchedBy(undo, patched.image, BASE), image, 'the image');
});

test('undo takes back only what was applied', async () => {
    const image = soundImage(diceOf(4), 2, BASE);
    const { script, refused } = await undone(image, `cdpatch 1\nset ${BASE} 0 01 was 77\nset ${BASE + 9} 0 01\nset ${BASE + 1} 7 99\n`);
    assert.deepEqual([script.patches, refused], [1, 2]);
});

test('a script that changes nothing can not be taken back, but for one without patches', async () => {
    const image = soundImage(diceOf(6), 2, BASE);
    const nothing = { script: null, why: 'unchanged' };
    const script = `cdpatch 2\nset ${BASE} 7 0102\nset ${BASE + 1} 2047 AA\nfill ${BASE} 9 3 04\naddress ${BASE} 00:00:09\nrebuild ${BASE}\n`;
    const patched = await after(image, script, false);
    assert.deepEqual(await undone(patched.image, script), nothing);
    assert.deepEqual(await undone(image, `cdpatch 1\nrebuild ${BASE}\n`), nothing);
    assert.equal((await undone(patched.image, `${script}set ${BASE} 8 FF\n`)).script.patches, 1);
    assert.deepEqual(await undone(patched.image, `cdpatch 1\nset ${BASE} 7 01 was 77\n`), { script: null, why: 'refused', refused: 1 });
    assert.equal(textOf((await undone(image, 'cdpatch 1\n')).script), head(1));
    const hurt = image.slice();
    hurt[2300] ^= 1;
    const { script: undo, left } = await undone(hurt, `cdpatch 1\nrebuild ${BASE}\n`);
    assert.deepEqual([undo.patches, blocksOf(left).length], [0, 1]);
});

test('undo reads the image once, forward, be patches near one another or not', async () => {
    const image = soundImage(diceOf(8), 3000, BASE);
    for (const step of [1, 7]) {
        const lines = Array.from({ length: 3000 / step }, (_, i) => `set ${BASE + step * i} 0 ${Buffer.of(~image[RAW * step * i + 16]).toString('hex')}\n`);
        const reader = readerOf(image);
        const { script } = await undone(image, `cdpatch 1\n${lines.join('')}`, {}, {}, trackOf(image, BASE, reader));
        assert.equal(script.patches, lines.length);
        reader.reads.slice(1).forEach(({ at }, i) => assert.ok(at >= reader.reads[i].at + reader.reads[i].length, `a read at ${at}, ${step} blocks`));
    }
});

test('undo of diff gives OLD', async () => {
    for (let seed = 0; seed < 20; seed++) {
        const dice = diceOf(700 + seed);
        const old = soundImage(dice, 40, BASE);
        const fresh = changedImage(dice, old, ['bytes', 'run', 'whole', 'address', 'both']);
        const { script } = await compareTrack(ENGINE, trackOf(old, BASE), readerOf(fresh));
        const { script: undo, left } = await undone(old, script.pieces, { long: true });
        assert.deepEqual(left, []);
        sameBytes(await patchedBy(undo, fresh, BASE), old, `seed ${seed}`);
    }
});

test('a script with a fault, one of a different base, a long one, and a read that fails', async () => {
    const image = soundImage(diceOf(5), 4, BASE);
    await assert.rejects(undone(image, 'cdpatch 1\nput 1\n'), { code: 'script/refused', facts: { line: `script line 2: ${MESSAGES.unknown_verb}`, tooLong: false, kind: null } });
    const facts = { line: 3, base: BASE + 1, begins: BASE };
    await assert.rejects(undone(image, `${head(1)}# base ${BASE + 1}\nset ${BASE} 0 01\n`), { code: 'script/other-base', facts });
    const long = `cdpatch 1\n${`rebuild ${BASE}\n`.repeat(65536)}`;
    await assert.rejects(undone(image, long), { code: 'script/refused' });
    const short = `cdpatch 1\nset ${BASE} 0 ${Buffer.of(~image[16]).toString('hex')}\n`;
    assert.equal(textOf((await undone(image, `${long}${short.slice(10)}`, { long: true })).script), textOf((await undone(image, short)).script));
    const script = `cdpatch 1\nset ${BASE} 0 01\nset ${BASE + 3} 0 01\n`;
    const whole = readerOf(image);
    await undone(image, script, {}, {}, trackOf(image, BASE, whole));
    for (let fault = 0; fault < whole.reads.length; fault++) {
        const reader = readerOf(image);
        const failing = { size: image.length, read: async (at, length) => {
            if (reader.reads.length === fault) throw new Error(`no read ${fault}`);
            return reader.read(at, length);
        } };
        await assert.rejects(undone(image, script, {}, {}, trackOf(image, BASE, failing)), { message: `no read ${fault}` });
    }
    const shrunk = { ...readerOf(image.subarray(0, 3 * RAW)), size: image.length };
    await assert.rejects(undone(image, script, {}, {}, trackOf(image, BASE, shrunk)), { code: 'image-ended' });
});

test('an undo says how many sectors it has come to, and one that is cancelled gives no script', async () => {
    const image = soundImage(diceOf(9), 3000, BASE);
    const script = `cdpatch 1\n${Array.from({ length: 3000 }, (_, i) => `set ${BASE + i} 0 ${Buffer.of(~image[RAW * i + 16]).toString('hex')}\n`).join('')}`;
    const told = [];
    await undone(image, script, {}, { progress: (done, all) => { told.push(done); assert.equal(all, 3000); } });
    assert.deepEqual([told[0], [...told].sort((a, b) => a - b), told.at(-1) > 2000], [0, told, true]);
    const signal = { aborted: false };
    const ended = undone(image, script, {}, { signal, progress: done => { signal.aborted = done > 0; } });
    await assert.rejects(ended, { code: 'cancelled' });
    const late = { aborted: false };
    const pool = { given: async (...given) => { late.aborted = true; return ENGINE.pool.given(...given); } };
    await assert.rejects(undoScript({ calls, pool }, trackOf(image, BASE), [encoded(script.split('\n').slice(0, 2).join('\n'))], {}, { signal: late }), { code: 'cancelled' });
});
