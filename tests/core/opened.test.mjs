// An opened track: its files and their order, which are read only once, and its base.

import assert from 'node:assert/strict';
import { test } from 'node:test';
import { calls, core, decoded, encoded, readerOf } from './common.mjs';
import { openedDisc } from './opened.mjs';
import { recordOf } from './strangers.mjs';

const { OpenedTrack, openTrack } = await core('tasks/index.js');
const { openDisc } = await core('disc/disc.js');
const { scriptForBase } = await core('script/language.js');
const { basesNamed } = await core('script/script.js');
const { MOST_SCRIPT_BYTES } = await core('module/index.js');

const USER = 2048;

test('a track has the order of its files, none if their extents do not lie apart, and the failure to list a volume', async () => {
    const { part, files, volume, fault } = await (await openedDisc()).opened.contents();
    assert.deepEqual([part.order.indexOf(20) - part.order.indexOf(31), files.length, volume.files === files, fault], [1, 2, true, null]);
    const { opened } = await openedDisc([recordOf('BIG', 30, 2 * USER, { flags: 0 })]);
    assert.equal((await opened.contents()).image.order, undefined);
    const reader = readerOf(calls.encodeBlocks(0, new Uint8Array(20 * USER)));
    const none = await openTrack(await openDisc(calls, [{ name: 'game.bin', reader }])).contents();
    assert.deepEqual([none.volume, none.files, none.fault.code, none.part.order], [null, [], 'volume/no-descriptor', undefined]);
});

test('the contents of a track are read once, and again only after a reader has failed', async () => {
    const { reader, opened } = await openedDisc();
    const first = await opened.contents();
    const { length } = reader.reads;
    assert.equal(await opened.contents(), first);
    assert.equal(reader.reads.length, length);
    const broken = new OpenedTrack(opened.disc, { ...opened.track, image: opened.image, part: { ...opened.part, reader: {
        size: reader.size, isBroken: true, read(...given) { return this.isBroken ? Promise.reject(new Error('gone')) : reader.read(...given); } } } });
    await assert.rejects(broken.contents(), { message: 'gone' });
    broken.part.reader.isBroken = false;
    assert.equal((await broken.contents()).files.length, 2);
});

test('with another base the blocks of a track, of its files and of their order are others', async () => {
    const { opened } = await openedDisc();
    const moved = opened.withBase(150);
    assert.deepEqual([moved.image.base, moved.part.base, moved.image.addressed], [150, 150, null]);
    const [was, is] = [await opened.contents(), await moved.contents()];
    assert.deepEqual(is.files.map(it => it.block), was.files.map(it => it.block + 150));
    assert.equal(is.part.order.indexOf(181), was.part.order.indexOf(31));
    assert.deepEqual(openTrack(opened.disc, { base: 150 }).image, moved.image);
});

test('a script is finished with the comment that says its base, which can make it too long', () => {
    const script = { pieces: [encoded('cdpatch 2\n'), encoded('rebuild 7\n')], size: 20, patches: 1, long: false, carry: false };
    const finished = scriptForBase(script, 7);
    const text = Buffer.concat(finished.pieces);
    assert.deepEqual([decoded(text), finished.size], ['cdpatch 2\n# base 7\nrebuild 7\n', text.length]);
    assert.deepEqual(basesNamed(calls, text), [{ line: 2, base: 7 }]);
    assert.deepEqual([decoded(Buffer.concat(scriptForBase(script, 0).pieces)), scriptForBase(script, 0).size], ['cdpatch 2\nrebuild 7\n', 20]);
    for (const [size, long] of [[MOST_SCRIPT_BYTES - 9, false], [MOST_SCRIPT_BYTES - 8, true]]) {
        assert.equal(scriptForBase({ ...script, size }, 7).long, long);
    }
});
