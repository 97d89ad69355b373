// Scripts that replace bytes at a place, or a file.

import assert from 'node:assert/strict';
import { test } from 'node:test';
import { calls, core, diceOf, encoded, readerOf, sameBytes, someBytes } from './common.mjs';
import { localPool, withThreads } from './pools.mjs';
import { isoOf } from './discs.mjs';
import { CHANGES, RAW, countOf, patchedBy, sectorAt, sound, soundImage, textOf } from './pairs.mjs';

const { filledUp, replaceBytes, replaceFile } = await core('tasks/replace.js');
const { filesOf, wholeFile } = await core('iso/files.js');

const BASE = 70;
const imageOf = (bytes, base = BASE) => ({ name: 'image.bin', reader: readerOf(bytes), base, addressed: base, sectors: countOf(bytes), tail: bytes.length % RAW });
const userOf = image => Buffer.concat(Array.from({ length: countOf(image) }, (_, i) => sectorAt(image, i).subarray(16, 2064)));

/** The image with this user data. */
function withUser(image, user) {
    const made = image.slice();
    for (let i = 0; i < countOf(image); i++) {
        made.set(calls.encode(sectorAt(image, i).subarray(12, 15), user.subarray(2048 * i, 2048 * i + 2048)), RAW * i);
    }
    return made;
}

/** The script that replaces bytes at a place. */
async function replacedAt(image, place, old, fresh) {
    const { text, patches } = await replaceBytes(calls, imageOf(image), place, old, fresh);
    return { pieces: [encoded('cdpatch 1\n'), text], patches };
}

test('bytes at any place, over borders of blocks too, and of any size', async () => {
    for (let seed = 0; seed < 30; seed++) {
        const dice = diceOf(seed);
        const image = soundImage(dice, 8, BASE, 5);
        const user = userOf(image);
        const size = 1 + dice([3, 30, 2048, 4096, 9000][seed % 5]);
        const at = dice(user.length - size);
        const [old, fresh] = [Uint8Array.from(user.subarray(at, at + size)), someBytes(dice, size)];
        const place = { block: BASE + Math.floor(at / 2048), offset: at % 2048 };
        const script = await replacedAt(image, place, old, fresh);
        user.set(fresh, at);
        sameBytes(await patchedBy(script, image, BASE), withUser(image, user), `seed ${seed}`);
        assert.equal(script.patches, Math.ceil(size / 4096));
        const [line] = textOf(script).split('\n').slice(1);
        const [first, before] = [fresh, old].map(it => Buffer.from(it.subarray(0, 4096)).toString('hex').toUpperCase());
        assert.equal(line, `set ${place.block} ${place.offset} ${first} was ${before}`);
    }
});

test('old bytes that differ are refused with the place of the first', async () => {
    const image = soundImage(diceOf(1), 3, BASE);
    for (const [at, facts] of [[12, { block: BASE + 1, offset: 4 }], [0, { block: BASE, offset: 2040 }]]) {
        const old = Uint8Array.from(userOf(image).subarray(2040, 2060));
        old[at] ^= 1;
        await assert.rejects(replaceBytes(calls, imageOf(image), { block: BASE, offset: 2040 }, old, old), { code: 'replace/other-bytes', facts });
    }
});

test('bytes that a run would not replace so are not given out, unless they are tried with others later', async () => {
    const image = soundImage(diceOf(1), 3, BASE);
    const [place, old] = [{ block: BASE, offset: 7 }, Uint8Array.from(userOf(image).subarray(7, 9))];
    const broken = Object.assign(Object.create(calls), { jobBegin(...given) { return { ...calls.jobBegin.apply(this, given), refusal: new Uint8Array(1) }; } });
    await assert.rejects(replaceBytes(broken, imageOf(image), place, old, old.map(byte => byte ^ 1)), { code: 'script/wrong-sector', facts: { block: BASE } });
    const later = await replaceBytes(broken, imageOf(image), place, old, old.map(byte => byte ^ 1), true);
    assert.equal(later.patches, 1);
});

test('damaged sectors, sectors of another kind, and places that are not there', async () => {
    const image = soundImage(diceOf(2), 3, BASE);
    image.set(CHANGES.damaged(sectorAt(image, 1), diceOf(1)), RAW);
    image.set(CHANGES.sync(sectorAt(image, 2), diceOf(1)), RAW * 2);
    const at = (block, offset, size = 4) => replaceBytes(calls, imageOf(image), { block, offset }, new Uint8Array(size), new Uint8Array(size));
    await assert.rejects(at(BASE, 2045), { code: 'replace/damaged', facts: { block: BASE + 1 } });
    await assert.rejects(at(BASE + 2, 0), { code: 'replace/not-mode1', facts: { block: BASE + 2 } });
    for (const [block, offset] of [[BASE - 1, 0], [BASE + 3, 0], [BASE + 2, 2045]]) {
        await assert.rejects(at(block, offset), { code: 'replace/no-block', facts: { first: BASE, last: BASE + 2 } });
    }
    for (const offset of [-1, 2048]) await assert.rejects(at(BASE, offset), { code: 'replace/no-offset', facts: { last: 2047 } });
    await assert.rejects(at(BASE, 0, 0), { code: 'replace/no-bytes' });
});

test('another length is refused with both, and fewer bytes are filled up', async () => {
    const image = soundImage(diceOf(3), 3, BASE);
    const old = Uint8Array.from(userOf(image).subarray(0, 6));
    const due = { name: 'Fault', code: 'replace/other-size', facts: { fresh: 5, old: 6 } };
    await assert.rejects(replaceBytes(calls, imageOf(image), { block: BASE, offset: 0 }, old, old.subarray(0, 5)), due);
    assert.throws(() => filledUp(new Uint8Array(5), 6, null), due);
    assert.throws(() => filledUp(new Uint8Array(7), 6, Uint8Array.of(0x20)), { facts: { fresh: 7, old: 6 } });
    assert.deepEqual(filledUp(Uint8Array.of(1, 2), 6, Uint8Array.of(0x81, 0x40)), Uint8Array.of(1, 2, 0x81, 0x40, 0x81, 0x40));
    assert.deepEqual(filledUp(Uint8Array.of(1, 2), 2, Uint8Array.of(0x81, 0x40)), Uint8Array.of(1, 2));
    assert.throws(() => filledUp(new Uint8Array(3), 6, Uint8Array.of(0x81, 0x40)), { code: 'replace/filler', facts: { missing: 3, filler: Uint8Array.of(0x81, 0x40) } });
});

/** A raw image of a volume with files, and one of these files. */
async function disc(t, path) {
    const iso = isoOf({ 'GAME.DAT': 'data '.repeat(3000), 'OTHER.TXT': 'x'.repeat(2048), 'EMPTY': '' }, [], []);
    if (!iso) return t.skip('no genisoimage');
    const bytes = calls.encodeBlocks(0, iso.bytes);
    const names = await filesOf(readerOf(bytes), 0);
    const extent = names.files.find(it => it.path === path);
    return { bytes, file: { ...wholeFile([extent]), block: extent.block, names }, image: imageOf(bytes, 0) };
}

/** The script that replaces a file. */
const replaced = (it, fresh, how = {}, pool = localPool()) => replacedBy(it, readerOf(fresh, how.most ?? Infinity), how, pool);
const replacedBy = ({ image, file: { names, extents } }, contents, { fill, ...how }, pool = localPool()) =>
    replaceFile({ calls, pool }, { image, part: image, contents: async () => ({ volume: names }) }, { entries: extents, newFile: contents, fill }, how);

test('a file becomes another of its length, and nothing else changes', async t => {
    const it = await disc(t, '/GAME.DAT');
    if (!it) return;
    const fresh = Uint8Array.from(Buffer.from('DATA '.repeat(3000)));
    fresh.fill(0x61, 5000, 5100);
    const { script, left } = await replaced(it, fresh);
    const user = userOf(it.bytes);
    assert.equal(user.toString('latin1', it.file.block * 2048, it.file.block * 2048 + 15000), 'data '.repeat(3000));
    user.set(fresh, it.file.block * 2048);
    const due = withUser(it.bytes, user);
    sameBytes(await patchedBy(script, it.bytes, 0), due, 'the image');
    assert.deepEqual(left, []);
    for (const step of [1, 3, 4096]) assert.equal(textOf((await replaced(it, fresh, { step, most: 700 })).script), textOf(script), `${step}`);
    await withThreads(2, async pool => { assert.equal(textOf((await replaced(it, fresh, { step: 2 }, pool)).script), textOf(script)); });
    assert.equal(textOf((await replaced(it, Uint8Array.from(Buffer.from('data '.repeat(3000))))).script), 'cdpatch 1\n');
});

test('a shorter file is filled up to the old length and not further', async t => {
    const it = await disc(t, '/GAME.DAT');
    if (!it) return;
    const { script } = await replaced(it, Uint8Array.from(Buffer.from('data'.repeat(10))), { fill: 0x2E });
    const user = userOf(it.bytes);
    user.fill(0x2E, it.file.block * 2048, it.file.block * 2048 + 15000);
    user.write('data'.repeat(10), it.file.block * 2048, 'latin1');
    sameBytes(await patchedBy(script, it.bytes, 0), withUser(it.bytes, user), 'the image');
    const { script: empty } = await replaced(it, new Uint8Array(0), { fill: 0 });
    user.fill(0, it.file.block * 2048, it.file.block * 2048 + 15000);
    sameBytes(await patchedBy(empty, it.bytes, 0), withUser(it.bytes, user), 'the image without the file\'s data');
    const none = { ...it, file: { ...it.file, size: 0, extents: [{ ...it.file.extents[0], size: 0 }] } };
    assert.equal(textOf((await replaced(none, new Uint8Array(0))).script), 'cdpatch 1\n');
});

test('a longer file, and one whose extent is not just its bytes', async t => {
    const it = await disc(t, '/GAME.DAT');
    if (!it) return;
    await assert.rejects(replaced(it, new Uint8Array(15001), { fill: 0 }), { code: 'replace/long-file', facts: { path: '/GAME.DAT', size: 15000, room: null, wanted: 15001 } });
    await assert.rejects(replaced(it, new Uint8Array(16385)), { code: 'replace/long-file', facts: { path: '/GAME.DAT', size: 15000, room: 16384, wanted: 16385 } });
    const [extent] = it.file.extents;
    const fault = { code: 'extent/interleaved', facts: {} };
    assert.throws(() => wholeFile([{ ...extent, fault }]), { code: 'path', facts: { path: '/GAME.DAT', why: fault } });
});

test('sectors of a file that are not consistent are named, if they have to change', async t => {
    const it = await disc(t, '/GAME.DAT');
    if (!it) return;
    const at = (it.file.block + 2) * RAW;
    it.bytes[at + 2100] ^= 1;
    it.bytes[at + RAW + 3] ^= 1;
    const { script, left } = await replaced(it, new Uint8Array(15000));
    const block = it.file.block + 2;
    assert.deepEqual([script, left], [null, [{ first: block, last: block, why: 'damaged', kinds: [2] }, { first: block + 1, last: block + 1, why: 'kind', kinds: [0] }]]);
    const fresh = Buffer.from('data '.repeat(3000));
    fresh[0] = 0x44;
    assert.equal(textOf((await replaced(it, Uint8Array.from(fresh))).script), `cdpatch 1\nset ${it.file.block} 0 44 was 64\n`);
});

test('a file that shrinks while it is read', async t => {
    const it = await disc(t, '/GAME.DAT');
    if (!it) return;
    const shrunk = { size: 15000, read: async (at, length) => new Uint8Array(Math.max(Math.min(length, 9000 - at), 0)) };
    await assert.rejects(replacedBy(it, shrunk, {}), { code: 'image-ended' });
});

test('bytes of sectors with addresses of other blocks keep them', async () => {
    const image = sound(5, new Uint8Array(2048));
    const script = await replacedAt(image, { block: BASE, offset: 0 }, Uint8Array.of(0), Uint8Array.of(1));
    const user = new Uint8Array(2048);
    user[0] = 1;
    sameBytes(await patchedBy(script, image, BASE), sound(5, user), 'the sector');
});
