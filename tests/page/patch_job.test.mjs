// Checking and saving a patched image, with and without a file to choose, and saving a repaired image.

import assert from 'node:assert/strict';
import { createHash } from 'node:crypto';
import { beforeEach, test } from 'node:test';
import { MESSAGES } from '../lib/messages.mjs';
import { calls, imageOf, page, parts, writtenBy } from './page.mjs';

const { checkWork, saveWork } = await page('save/patch_job.js');
const { saveImage } = await page('save/save.js');
const { fileReader } = await page('open/reading.js');

const game = imageOf([new Uint8Array(4), Uint8Array.of(1, 2, 3)]);
const file = Object.assign(new Blob([game.bytes]), { name: 'game.bin', lastModified: 7 });
const reader = { ...game.reader, file };
const script = 'cdpatch 1\nset 0 0 41 was 00\nset 1 0 42 was 01\n';
const watch = { signal: { aborted: false }, progress() {} };
const shaOf = bytes => createHash('sha1').update(bytes).digest('hex');

const app = { calls, parts };
const given = { downloads: [], chosen: null };

const anchor = () => ({ setAttribute() {}, append() {}, click() { given.downloads.push(this); }, remove() {} });

/** A chosen file. `before` has the properties of an existing one. */
function chosenFile(before = {}) {
    const chosen = { name: 'out.bin', written: [], state: 'none', removed: false, lost: 0 };
    const sink = {
        write: async write => { chosen.written.push(write); },
        close: async () => { chosen.state = 'closed'; },
        abort: async () => { chosen.state = 'aborted'; },
    };
    return Object.assign(chosen, {
        getFile: async () => ({ name: 'out.bin', size: 0, lastModified: 1, ...before, ...chosen.state === 'closed' && { size: (await writtenBy(chosen.written)).length - chosen.lost } }),
        createWritable: async () => sink, remove: async () => { chosen.removed = true; },
    });
}

/** Emulates a browser that lets a page write to a file. */
function choosing(chosen) {
    given.chosen = chosen;
    globalThis.window.showSaveFilePicker = async () => chosen;
    return chosen;
}

beforeEach(() => {
    given.downloads = [];
    globalThis.window = {};
    globalThis.document = { createElement: anchor, body: { append() {} } };
});

/** A maker of these pieces, called after the file is chosen. */
const making = pieces => async () => async take => { for (const piece of pieces) await take(piece); };

const work = (more = {}) => ({ reader, base: 0, script, carry: false, ...more });

test('a check counts blocks from the base of the image', async () => {
    const { outcomes } = await checkWork(app, work({ base: 1, script: 'cdpatch 1\nset 1 0 41 was 00\nset 0 0 41\n' }), watch);
    assert.deepEqual(outcomes.map(it => it.result), [4, 0]);
});

test('a check of a file says how far it has come, and can be cancelled', async () => {
    const reported = [];
    const ask = signal => checkWork(app, work({ reader: fileReader(file) }), { signal, progress: (...given) => reported.push(given) });
    assert.equal((await ask({ aborted: false })).status, 0);
    assert.deepEqual(reported[0], [0, game.sectors]);
    await assert.rejects(ask({ aborted: true }), { name: 'Fault', code: 'cancelled' });
});

test('a script that says another base is refused', async () => {
    const said = work({ base: 1, script: 'cdpatch 1\n# base 150\nset 1 0 41 was 00\n' });
    await assert.rejects(checkWork(app, said, watch), { name: 'Fault', message: 'Line 2 of the script says base 150, but the image begins with block 1.' });
    assert.equal((await checkWork(app, { ...said, script: said.script.replace('150', '1') }, watch)).status, 0);
});

test('what is downloaded is the patched image, with carry as it was chosen', async () => {
    const damaged = game.bytes.slice();
    damaged[500] ^= 1;
    const blob = Object.assign(new Blob([damaged]), { name: 'game.bin' });
    const hurt = { size: damaged.length, read: async (at, length) => damaged.slice(at, at + length), file: blob };
    for (const [carry, bytes] of [[false, [0, 0x42]], [true, [0x41, 0x42]]]) {
        const saved = await saveWork(app, work({ reader: hurt, carry }), 'out.bin', '', watch);
        const made = new Uint8Array(await saved.file.arrayBuffer());
        assert.deepEqual([made[16], made[2352 + 16]], bytes);
    }
    assert.equal(given.downloads.length, 2);
});

test('an image that is not the one that is wanted is neither downloaded nor kept', async () => {
    await assert.rejects(saveWork(app, work(), 'out.bin', '0'.repeat(40), watch), { message: /its SHA-1 does not match/ });
    assert.equal(given.downloads.length, 0);
    const { file: made } = await saveWork(app, work(), 'out.bin', '', watch);
    const right = shaOf(new Uint8Array(await made.arrayBuffer()));
    assert.equal((await saveWork(app, work(), 'out.bin', right, watch)).sha1, right);
    const chosen = choosing(chosenFile());
    await assert.rejects(saveWork(app, work(), 'out.bin', '0'.repeat(40), watch), { message: /its SHA-1 does not match/ });
    assert.deepEqual([chosen.state, chosen.removed], ['aborted', true]);
    await saveWork(app, work(), 'out.bin', right, watch);
    assert.equal(chosen.state, 'closed');
});

test('the open image is never written over', async () => {
    const chosen = choosing(chosenFile({ name: 'game.bin', size: file.size, lastModified: 7 }));
    await assert.rejects(saveWork(app, work(), 'out.bin', '', watch), { message: /is the open image itself/ });
    await assert.rejects(saveImage([reader], making([]), 'out.bin', [], watch), { message: /is the open image itself/ });
    assert.deepEqual([chosen.state, chosen.written, chosen.removed], ['none', [], false]);
});

test('a chosen file that has the name of another open one is refused, and a new one of that name is taken away', async () => {
    const opened = [{ name: 'game.bin', size: 7 }, { name: 'OUT.bin', size: 7 }];
    const refused = { message: 'Another open file has this name: out.bin' };
    const fresh = choosing(chosenFile());
    await assert.rejects(saveWork(app, work({ opened }), 'out.bin', '', watch), refused);
    await assert.rejects(saveImage([reader], making([]), 'out.bin', opened, watch), refused);
    assert.deepEqual([fresh.state, fresh.written, fresh.removed], ['none', [], true]);
    const old = choosing(chosenFile({ size: 7 }));
    await assert.rejects(saveWork(app, work({ opened }), 'out.bin', '', watch), refused);
    assert.deepEqual([old.state, old.removed], ['none', false]);
    const empty = choosing(chosenFile());
    await assert.rejects(saveWork(app, work({ opened: [{ name: 'out.bin', size: 0 }] }), 'out.bin', '', watch), refused);
    assert.equal(empty.removed, false);
    choosing(chosenFile({ name: 'game.bin', size: 1 })).name = 'game.bin';
    assert.equal((await saveWork(app, work({ opened }), 'game.bin', '', watch)).streamed, true);
});

test('the file is asked for before the script is read, and is not kept if the script has a fault', async () => {
    const asked = [];
    const chosen = choosing(chosenFile());
    globalThis.window.showSaveFilePicker = async () => { asked.push('file'); return chosen; };
    const saving = saveWork(app, work({ script: 'cdpatch 1\nset\n' }), 'out.bin', '', watch);
    assert.deepEqual(asked, ['file']);
    await assert.rejects(saving, { message: new RegExp(MESSAGES.word_count) });
    assert.deepEqual([chosen.state, chosen.removed], ['none', true]);
});

test('a file that cannot be read again after it was closed is saved', async () => {
    const chosen = choosing(chosenFile());
    const first = chosen.getFile;
    chosen.getFile = async () => { if (chosen.state === 'closed') throw new Error('gone'); return first(); };
    const saved = await saveWork(app, work(), 'out.bin', '', watch);
    assert.deepEqual([saved.streamed, saved.file, chosen.state], [true, null, 'closed']);
    assert.equal((await writtenBy(chosen.written)).length, game.bytes.length);
});

test('a file of another length than was written is no saved image', async () => {
    for (const size of [0, 7]) {
        const chosen = Object.assign(choosing(chosenFile({ size })), { lost: 1 });
        const message = `The saved file has ${game.bytes.length - 1} bytes instead of ${game.bytes.length}: saving did not finish.`;
        await assert.rejects(saveWork(app, work(), 'out.bin', '', watch), { message: message.replace(/\d+/g, it => Number(it).toLocaleString('en')) });
        assert.deepEqual([chosen.state, chosen.removed], ['closed', true]);
    }
});

test('a browser that wants a fresh click says so', async () => {
    globalThis.window.showSaveFilePicker = async () => { throw new DOMException('gesture', 'SecurityError'); };
    await assert.rejects(saveWork(app, work(), 'out.bin', '', watch), { message: /right after a click\. Press the button again/ });
});

test('a repaired image is saved whole', async () => {
    const pieces = [{ from: 0, to: 2352 }, { at: 2352, bytes: new Uint8Array(2352).fill(9) }];
    const blobs = [];
    const { createObjectURL } = URL;
    URL.createObjectURL = blob => { blobs.push(blob); return 'blob:x'; };
    await saveImage([reader], making(pieces), 'out.bin', [], watch);
    URL.createObjectURL = createObjectURL;
    const wanted = [...game.bytes.slice(0, 2352), ...pieces[1].bytes];
    assert.deepEqual([...new Uint8Array(await blobs[0].arrayBuffer())], wanted);
    const chosen = choosing(chosenFile());
    await saveImage([reader], making(pieces), 'out.bin', [], watch);
    assert.deepEqual([...await writtenBy(chosen.written)], wanted);
});
