// The page's state: typed bytes, the script's lines, and the events that end its jobs.

import assert from 'node:assert/strict';
import { test } from 'node:test';
import { calls, imageOf, page } from './page.mjs';

const { App } = await page('app/state.js');
const { Typing } = await page('disc/sector_edit.js');

test('a byte that is typed twice keeps what was there first', () => {
    const app = new App(calls, null, null);
    const typing = new Typing(app);
    const types = (offset, byte, before) => typing.type(9, offset, Uint8Array.of(byte), Uint8Array.of(before));
    for (const [offset, byte, before] of [[5, 0x41, 1], [6, 0x42, 2], [5, 0x43, 0x41], [7, 0x44, 3]]) types(offset, byte, before);
    assert.equal(app.script.text(), 'cdpatch 1\nset 9 5 434244 was 010203\n');
    types(100, 0x45, 4);
    assert.equal(app.script.text(), 'cdpatch 1\nset 9 5 434244 was 010203\nset 9 100 45 was 04\n');
    app.script.edit(0, 1, ['cdpatch 1', '# first']);
    types(101, 0x46, 5);
    assert.equal(app.script.text(), 'cdpatch 1\n# first\nset 9 5 434244 was 010203\nset 9 100 4546 was 0405\n');
    app.script.edit(3, 1, ['set 9 100 4546 was 0405 ']);
    types(102, 0x47, 6);
    assert.equal(app.script.text(), 'cdpatch 1\n# first\nset 9 5 434244 was 010203\nset 9 100 4546 was 0405 \nset 9 102 47 was 06\n');
});

test('bytes that are pasted are one line, which grows with what is typed after them', () => {
    const app = new App(calls, null, null);
    const reported = [];
    app.on('script', () => { reported.push(app.script.text()); });
    const typing = new Typing(app);
    typing.type(9, 5, Uint8Array.of(0x41, 0x42, 0x43), Uint8Array.of(1, 2, 3));
    typing.type(9, 7, Uint8Array.of(0x44, 0x45), Uint8Array.of(0x43, 4));
    assert.deepEqual(reported, ['cdpatch 1\nset 9 5 414243 was 010203\n', 'cdpatch 1\nset 9 5 41424445 was 01020304\n']);
});

test('bytes that are typed after an undo or a redo belong to the line that it left', () => {
    const app = new App(calls, null, null);
    const typing = new Typing(app);
    const { script } = app;
    const types = (offset, ...bytes) => typing.type(9, offset, Uint8Array.from(bytes), Uint8Array.from(bytes, (_, i) => offset + i));
    const turned = way => {
        const edit = (way === 'undo' ? script.done : script.undone).slice(-1)[0];
        script[way]();
        return typing.continueFrom(edit, way);
    };
    const place = (first, end) => ({ block: 9, first, end });
    for (const [offset, ...bytes] of [[5, 0x41], [6, 0x42, 0x43], [6, 0x44]]) types(offset, ...bytes);
    assert.deepEqual([turned('undo'), turned('undo')], [place(6, 7), place(6, 8)]);
    types(6, 0x45);
    assert.equal(script.text(), 'cdpatch 1\nset 9 5 4145 was 0506\n');
    assert.deepEqual([turned('undo'), turned('undo'), script.text()], [place(6, 7), place(5, 6), 'cdpatch 1\n']);
    assert.deepEqual([turned('redo'), turned('redo')], [place(5, 6), place(6, 7)]);
    types(7, 0x46);
    assert.equal(script.text(), 'cdpatch 1\nset 9 5 414546 was 050607\n');
});

test('who takes another script is given back the one that was in no file', () => {
    const app = new App(calls, null, null);
    const backs = [];
    app.on('script', change => { backs.push(change.back); });
    app.setScript('cdpatch 1\nrebuild 1\n', 'a.txt', true);
    app.addLines(['rebuild 2']);
    app.setScript('cdpatch 1\nrebuild 3\n', 'b.txt', true);
    assert.deepEqual(backs.map(back => back !== null), [false, false, true]);
    app.script.edit(1, 1, ['rebuild 4']);
    assert.equal(backs[2](), 1);
    assert.deepEqual([app.script.name, app.script.text()], ['a.txt', 'cdpatch 1\nrebuild 1\nrebuild 2\n']);
});

test('a job with the second image ends with it, and the next one goes on', async () => {
    const app = new App(calls, null, null);
    const ended = [];
    const begin = () => app.run({ of: 'pair' }, async ({ signal }) => new Promise(done => {
        signal.addEventListener('abort', () => { ended.push(signal); done(); });
    }));
    const jobs = [begin(), begin()];
    app.endPairing();
    await Promise.all(jobs);
    assert.equal(ended.length, 2);
    begin();
    assert.equal(ended.length, 2);
});

test('saves are counted until they end, and nothing but their Cancel ends them', async () => {
    const app = new App(calls, null, null);
    const ends = [];
    const save = () => app.run({ saves: true }, ({ signal, cancel }) => new Promise((done, fail) => {
        signal.addEventListener('abort', () => fail(new Error('cancelled')));
        ends.push({ signal, cancel, done });
    }));
    const saves = [save(), save()];
    assert.equal(app.saves, 2);
    app.endPairing();
    app.closing.abort();
    assert.deepEqual(ends.map(({ signal }) => signal.aborted), [false, false]);
    ends[0].cancel();
    await assert.rejects(saves[0], /cancelled/);
    assert.equal(app.saves, 1);
    ends[1].done();
    await saves[1];
    assert.equal(app.saves, 0);
});

test('each change is told to who listens, after it', () => {
    const app = new App(calls, null, null);
    const reported = [];
    const names = ['image', 'second', 'survey', 'surveyed', 'hash', 'files', 'place', 'script', 'line', 'encoding', 'panel', 'patcher'];
    for (const name of names) app.on(name, detail => reported.push([name, detail, app.image, app.second, app.files, app.encoding, app.panel]));
    const after = change => {
        reported.length = 0;
        change();
        return reported.map(([name]) => name).join(' ');
    };
    const [image, second] = [imageOf([Uint8Array.of(1)]), imageOf([Uint8Array.of(2)])];
    const signal = app.setImage(image);
    assert.equal(after(() => app.setImage(image)), 'image second');
    assert.deepEqual([reported[0][2], signal.aborted, app.reading.signal.aborted], [image, true, false]);
    assert.equal(after(() => app.setSecond(second)), 'second');
    assert.equal(reported[0][3], second);
    let survey = null;
    assert.equal(after(() => { survey = app.beginSurvey(0, 1); }), 'survey');
    app.addToSurvey(survey, { block: 0, records: calls.survey(image.bytes, 0) });
    assert.deepEqual([survey.known, survey.marks.mode1(), app.survey === survey], [1, 1, true]);
    assert.equal(after(() => app.endSurvey(survey, true)), 'survey surveyed');
    assert.ok(survey.over && survey.ended > 0);
    assert.equal(after(() => app.setFiles({ files: [] })), 'files');
    assert.deepEqual(reported[0][4], { files: [] });
    assert.equal(after(() => app.setSums(image, { sha1: 'ab', crc32: 'cd' })), 'hash');
    assert.deepEqual([reported[0][1], image.sha1, image.crc32], [2352, 'ab', 'cd']);
    assert.equal(after(() => app.addTable('game.tbl', {})), 'encoding');
    assert.deepEqual([reported[0][5], app.tables.has('game.tbl')], ['game.tbl', true]);
    assert.equal(after(() => app.goToLine(4)), 'panel line');
    assert.deepEqual([reported[0][6], reported[1][1]], ['script', 4]);
    assert.equal(after(() => app.goTo(5, 6, true)), 'panel place');
    assert.deepEqual([reported[1][1], app.place], [{ show: true, wasHidden: true }, { block: 5, offset: 6 }]);
    app.setImage(null);
    assert.deepEqual([app.image, app.second, app.survey, app.files, app.place], [null, null, null, null, { block: -1, offset: -1 }]);
});

test('a service is given back to who had it', async () => {
    const app = new App(calls, null, null);
    const opened = [];
    app.serve({ open: async files => void opened.push('page', ...files) });
    const giveBack = app.serve({ open: async files => void opened.push('player', ...files) });
    await app.open([1]);
    giveBack();
    await app.open([2]);
    assert.deepEqual(opened, ['player', 1, 'page', 2]);
});
