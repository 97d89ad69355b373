// The page's logic, cdscript as a process, and the npm package give the same data for the same inputs.

import assert from 'node:assert/strict';
import { spawnSync } from 'node:child_process';
import { createHash } from 'node:crypto';
import { mkdtempSync, readFileSync, rmSync, writeFileSync } from 'node:fs';
import { tmpdir } from 'node:os';
import { join } from 'node:path';
import { after, test } from 'node:test';
import { recordOf, volumeOf } from '../core/strangers.mjs';
import { downloads, withDocument } from './document.mjs';
import { calls, core, page, pageFile, summing, top } from './page.mjs';

const { openDisc } = await core('disc/index.js');
const { kindOfFile } = await core('disc/views.js');
const { encodeText, encodingOf } = await core('encodings/index.js');
const { App } = await page('app/state.js');
const { SecondRepair } = await page('second/repair.js');
const { SearchJob, linesForAll } = await page('text/search.js');
const { FilesList } = await page('disc/files_list.js');
const { TextsTable } = await page('text/texts_table.js');
const { makeUndo } = await page('script/panel.js');
const { writeScript } = await page('second/compare.js');
const { filledUp } = await core('tasks/index.js');
const { imageOfTrack } = await page('open/open.js');
const { countedAs, readImage } = await page('open/reading.js');
const { judgeImage } = await page('player/verdict.js');
const { saveWork, tryWork } = await page('save/patch_job.js');
const { remarkText } = await page('texts/index.js');
const { KINDS } = await page('../sentences/english.js');
const { Cdpatch, ScriptError } = await page('../npm/cdpatch.js');

const [RAW, USER] = [2352, 2048];
const room = mkdtempSync(join(tmpdir(), 'interfaces-'));
after(() => rmSync(room, { recursive: true }));

const skip = spawnSync('esbuild', ['--version']).error ? 'no esbuild' : false;
const module = join(top, 'library/cdpatch.wasm');
if (!skip) {
    const packing = ['-B', join(top, 'tools/pack.py'), 'command', module, join(room, 'cdscript'), '--web', pageFile('..')];
    assert.equal(spawnSync('python3', packing).status, 0, 'cdscript is packed');
}

/** Runs cdscript on files of the room, and returns its status, output, and errors. */
function cdscript(...words) {
    const { status, stdout, stderr } = spawnSync(process.execPath, [join(room, 'cdscript'), ...words], { cwd: room });
    return { status, out: stdout.toString(), errors: stderr.toString() };
}

const write = files => Object.entries(files).forEach(([name, bytes]) => writeFileSync(join(room, name), bytes));
const read = name => readFileSync(join(room, name));
const ascii = text => Uint8Array.from(Buffer.from(text, 'latin1'));
const sumOf = bytes => createHash('sha1').update(bytes).digest('hex');
const linesOf = text => text.split('\n').filter(line => line !== '');

/** A file as the page gets it. */
const fileOf = (name, bytes) => Object.assign(new Blob([bytes]), { name, lastModified: 1 });

/** A page with an open image that has been surveyed. */
async function opened(files, { base } = {}) {
    const all = Object.entries(files).map(([name, bytes]) => {
        const file = fileOf(name, bytes);
        return { name, reader: { size: bytes.length, read: async (at, length) => Uint8Array.from(bytes.subarray(at, at + length)), file } };
    });
    const app = new App(calls, summing.pool, summing.parts);
    const image = imageOfTrack(await openDisc(calls, all), null);
    await readImage(app, base === undefined ? image : countedAs(image, image.opened.withBase(base)));
    return app;
}

/** The arguments with which cdscript opens the same files. */
function words(files, { base } = {}) {
    write(files);
    return [...base === undefined ? [] : ['--base', String(base)], Object.keys(files)[0]];
}

const TEXT = 'press start';
const SIZE = 60;

/**
 * A disc whose file /BIG continues after block 31 in block 20, with a text over that border, over the border of two sectors of /END, and
 * in the system area.
 */
function user(sectors = SIZE) {
    const made = volumeOf(sectors, sector => sector !== 18 ? [] : [recordOf('BIG', 30, 2 * USER, { flags: 128 }),
        recordOf('BIG', 20, USER, { flags: 0 }), recordOf('END', 40, 3 * USER - 100, { flags: 0 })]);
    const texts = { [32 * USER - 5]: TEXT.slice(0, 5), [20 * USER]: TEXT.slice(5), [41 * USER - 3]: TEXT, [5 * USER]: TEXT,
        [42 * USER + 7]: `${TEXT}\0` };
    for (const [at, text] of Object.entries(texts)) made.set(ascii(text), Number(at));
    made.set([0x8A, 0x6B, 0x7A, 0, 0x6B, 0x7A, 0], 42 * USER + 500); // 6B7A is half of a character of CP932 first
    return made;
}

const raw = (base = 0, sectors = SIZE) => Buffer.from(calls.encodeBlocks(base, user(sectors)));

/** A disc with these bytes changed: `[block, byte of the sector]`. */
function changed(...places) {
    const made = raw();
    for (const [block, at] of places) made[RAW * block + at] ^= 0x55;
    return made;
}

const volumeSize = sectors => {
    const made = user();
    const size = new DataView(made.buffer, 16 * USER + 80);
    size.setUint32(0, sectors, true);
    size.setUint32(4, sectors);
    return Buffer.from(calls.encodeBlocks(0, made));
};
const SHEET = ascii('FILE "d.bin" BINARY\n TRACK 01 MODE1/2352\n  INDEX 01 00:00:00\n');

/** The message about a refused script without the text that an interface adds. */
const refusal = text => text.replace(/^cdscript: /, '').replace(/(: use --base .*|\.)?\n?$/, '').toLowerCase();

const WAS = 'was 7072657373';
/** Scripts, each with its image and base. */
const SCRIPTS = {
    'one that fits': { script: `cdpatch 1\nset 5 0 5052455353 ${WAS}\n` },
    'other old bytes': { script: 'cdpatch 1\nset 5 0 5052455353 was 0000000000\nset 7 0 41\n' },
    'a block that is not there': { script: 'cdpatch 1\nset 60 0 41\nset 59 2047 4142\nset 8 1 41\n' },
    'a damaged sector': { script: 'cdpatch 1\nset 9 0 41\nset 10 0 41\n', image: changed([9, 500]) },
    'a damaged sector with carry': { script: 'cdpatch 1\nset 9 0 41\nset 10 0 41\n', image: changed([9, 500]), carry: true },
    'a sector that is not Mode 1': { script: 'cdpatch 1\nset 9 0 41\n', image: changed([9, 15]), carry: true },
    'comments': { script: 'cdpatch 1\n\n# nothing\n   \n# base zero\n' },
    'no patch': { script: 'cdpatch 2\n' },
    'an address': { script: 'cdpatch 2\naddress 7 00:02:09\nset 7 0 41\n' },
    'a rebuild': { script: 'cdpatch 1\nrebuild 9\n', image: changed([9, 2100]) },
    'a fill over two sectors': { script: 'cdpatch 1\nfill 11 2000 100 20\n' },
    'lines that overlap, not in order': { script: 'cdpatch 1\nset 7 1 4243 was 0000\nset 5 0 41\nset 7 2 44 was 43\n' },
    'a script for its base': { script: 'cdpatch 1\n# base 150\nset 155 0 41\n', image: raw(150), base: 150 },
    'a script for another base': { script: 'cdpatch 1\n# base 150\nset 5 0 41\n' },
    'a script for two bases': { script: 'cdpatch 1\n# base 0\n# base 7\nset 5 0 41\n' },
    'an unknown verb': { script: 'cdpatch 1\nset 5 0 41\nput 5 0 41\n' },
    'no head': { script: 'set 5 0 41\n' },
    'an image with a tail': { script: 'cdpatch 1\nset 59 0 41\n', image: Buffer.concat([raw(), Buffer.alloc(77, 7)]) },
};

/** The image as the page patches it. */
async function patchedByPage({ script, image, base, carry }) {
    const reader = { size: image.length, read: async (at, length) => image.subarray(at, at + length), file: fileOf('d.bin', image) };
    const work = { reader, base, script, carry };
    try {
        const { status, text } = await tryWork({ calls }, work);
        const saved = await saveWork({ calls, parts: summing.parts }, work, 'o.bin', '', { signal: { aborted: false }, progress() {} });
        return { status, text: new TextDecoder().decode(text), sum: sumOf(Buffer.from(await saved.file.arrayBuffer())) };
    } catch (error) {
        return { refused: refusal(error.message) };
    }
}

function patchedByCdscript({ script, image, base, carry }) {
    write({ 'd.bin': image, script: ascii(script) });
    rmSync(join(room, 'o.bin'), { force: true });
    const more = ['--base', String(base), ...carry ? ['--carry'] : []];
    const [tried, made] = [cdscript('check', 'd.bin', 'script', ...more), cdscript('apply', 'd.bin', 'script', 'o.bin', ...more)];
    assert.deepEqual(made, tried);
    if (tried.status === 2) return { refused: refusal(tried.out || tried.errors) };
    return { status: tried.status, text: tried.out, sum: sumOf(read('o.bin')) };
}

async function patchedByPackage({ script, image, base, carry }) {
    const cdpatch = await loaded;
    const parts = [];
    try {
        const { status, text } = await cdpatch.check(image, script, { base, carry });
        const made = await cdpatch.apply(image, script, bytes => { parts.push(bytes.slice()); }, { base, carry });
        assert.deepEqual([made.status, made.text], [status, text]);
        return { status, text, sum: sumOf(Buffer.concat(parts)) };
    } catch (error) {
        assert.ok(error instanceof ScriptError, String(error));
        return { refused: refusal(error.message) };
    }
}

const loaded = WebAssembly.compile(readFileSync(module)).then(compiled => new Cdpatch(compiled));

test('scripts: check and apply', { skip }, async t => {
    withDocument(t);
    for (const [name, { image = raw(), base = 0, carry = false, script }] of Object.entries(SCRIPTS)) {
        const given = { script, image, base, carry };
        const due = patchedByCdscript(given);
        assert.deepEqual(await patchedByPage(given), due, name);
        assert.deepEqual(await patchedByPackage(given), due, name);
    }
});

const PLACES = [[32 - 1, USER - 5], [41 - 1, USER - 3], [5, 0], [42, 7]];
const inOrder = places => [...places].sort((a, b) => a[0] - b[0] || a[1] - b[1]);
const FOUND = {
    'a text over the extents of its file': { text: TEXT, due: inOrder(PLACES) },
    'at another base': { text: TEXT, base: 150, due: inOrder(PLACES).map(([block, offset]) => [block + 150, offset]) },
    'bytes': { text: '70 72 65 73 73 20', encoding: 'hex', due: inOrder(PLACES) },
    'the middle of a character': { text: 'kz', encoding: 'CP932', due: [[42, 501], [42, 504]] },
    'an encoding that has not the text': { text: TEXT, encoding: 'UTF-16LE', due: [] },
    'part of a text': { text: 'art', due: inOrder([[20, 3], [41, 5], [5, 8], [42, 15]]) },
};

test('a text: find', { skip }, async t => {
    withDocument(t);
    for (const [name, { text, encoding = 'UTF-8', base, due }] of Object.entries(FOUND)) {
        const app = await opened({ 'd.bin': raw() }, { base });
        const { hits } = await new SearchJob(app).find(app.image, { text, encoding: encodingOf(encoding) });
        assert.deepEqual(inOrder(hits.map(it => [it.block, it.offset])), due, name);
        const [given, ...more] = [words({ 'd.bin': raw() }, { base }), text, '--encoding', encoding];
        const printed = linesOf(cdscript('find', ...given, ...more).out).map(line => line.split('\t').slice(0, 3).map(Number));
        assert.deepEqual(printed, hits.map(it => [it.block, it.offset, it.size]), name);
    }
});

const REPLACED = {
    'places over extents and sectors': { old: TEXT, fresh: 'PRESS START' },
    'for a base': { old: TEXT, fresh: 'PRESS START', base: 150 },
    'a shorter text, filled': { old: TEXT, fresh: 'go' },
    'the middle of a character left out': { old: 'kz', fresh: 'xx', encoding: 'CP932' },
    'a damaged sector left out': { old: TEXT, fresh: 'PRESS START', image: changed([5, 500]) },
};

test('a text: replace all', { skip }, async t => {
    withDocument(t);
    for (const [name, { old, fresh, encoding = 'UTF-8', base, image = raw() }] of Object.entries(REPLACED)) {
        const app = await opened({ 'd.bin': image }, { base });
        const search = await new SearchJob(app).find(app.image, { text: old, encoding: encodingOf(encoding) });
        const places = { image: search.image, encoding: encodingOf(encoding), hits: search.hits };
        const made = await linesForAll(app, app.image.opened, places, size => filledUp(ascii(fresh), size, ascii(' ')), {});
        app.addLines(made.lines);
        const { out, errors } = cdscript('replace', ...words({ 'd.bin': image }, { base }), old, fresh, '--all', '--encoding', encoding);
        assert.equal(app.script.text(), out, name);
        assert.deepEqual(linesOf(errors).filter(line => line.includes(' offset ')).map(line => line.replace('cdscript: ', '')), made.left, name);
        if (base === 150) assert.equal(linesOf(out)[1], '# base 150');
    }
});

/** Sectors of Mode 2 from block 0, encoded by tests/lib/mode2_sectors.py; of each eight, the last one has no code. */
const mode2 = spawnSync('python3', ['-B', join(top, 'tests/lib/mode2_sectors.py'), '40', '5']).stdout;
for (let i = 0; i < 40; i++) mode2.set(calls.address(i), RAW * i + 12);

/** A disc of Mode 2 with these bytes changed. */
function changedMode2(...places) {
    const made = Buffer.from(mode2);
    for (const [block, at] of places) made[RAW * block + at] ^= 0x55;
    return made;
}

const cut = sectors => volumeSize(SIZE).subarray(0, RAW * sectors);
const hole = (from, to, byte = 0) => raw().fill(byte, RAW * from, RAW * to);
const SURVEYED = {
    'a sound image': { files: { 'd.bin': raw() }, due: [60, 0, 0, [], null] },
    'damage and addresses': { files: { 'd.bin': changed([9, 500], [11, 13], [12, 13], [12, 700], [13, 2100]) }, due: [60, 4, 2, [], null] },
    'another base': { files: { 'd.bin': raw(150) }, base: 0, due: [60, 0, 60, [], null] },
    'an image that begins before block 0': { files: { 'd.bin': Buffer.concat([Buffer.alloc(RAW * 150), changed([9, 13])]) }, due: [60, 1, 1, [], null] },
    'a hole in a track of Mode 1': { files: { 'd.cue': SHEET, 'd.bin': hole(45, 55) }, due: [50, 0, 0, [[45, 54]], null] },
    'a long hole in a track of Mode 1': { files: { 'd.cue': SHEET, 'd.bin': Buffer.concat([raw(), Buffer.alloc(RAW * 400, 1), raw(460)]) }, due: [120, 0, 0, [[60, 459]], null] },
    'a hole in a file without a sheet': { files: { 'd.bin': hole(40, 42) }, due: [58, 0, 0, [[40, 41]], null] },
    'sectors filled with one byte': { files: { 'd.bin': hole(50, 52, 0x55) }, due: [58, 0, 0, [[50, 51]], null] },
    'a volume that goes on after the end of the image': { files: { 'd.bin': cut(42) }, due: [42, 0, 0, [], [42, 59]] },
    'by its sheet': { files: { 'd.cue': SHEET, 'd.bin': cut(50) }, due: [50, 0, 0, [], [50, 59]] },
    'an image that is cut within a sector': { files: { 'd.bin': raw().subarray(0, RAW * SIZE - 100) }, due: [59, 0, 0, [], null] },
    'damage and addresses of Mode 2': { files: { 'd.bin': changedMode2([3, 500], [4, 14], [5, 100], [7, 100], [11, 2100], [12, 21]) },
        due: [0, 4, 1, [], null] },
    'holes in a track of Mode 2': { files: { 'd.bin': changedMode2([3, 5], [20, 0]) }, due: [0, 0, 0, [[3, 3], [20, 20]], null] },
    'both modes': { files: { 'd.bin': Buffer.concat([changedMode2([3, 500]), Buffer.from(calls.encodeBlocks(40, Buffer.alloc(USER * 9)))]) }, due: [9, 1, 0, [], null] },
    'Mode 2 without subheaders': { files: { 'd.bin': changedMode2().map((byte, at) => at % RAW >= 16 ? at * at % 251 : byte) }, due: [0, 0, 0, [], null] },
    'a byte of the mode': { files: { 'd.bin': changed([50, 15]) }, due: [59, 0, 0, [[50, 50]], null] },
};

/** The counts that `info` prints: Mode 1, damage in both modes, wrong addresses, lost blocks, and blocks that the image lacks. */
function counted(out) {
    const [, mode1, damaged, elsewhere] = /mode1 (\d+) damaged (\d+) address (\d+)/.exec(out).map(Number);
    const [, hurt, moved] = (/mode2 \d+ damaged (\d+) address (\d+)/.exec(out) || [0, 0, 0]).map(Number);
    const lost = [...out.matchAll(/^(\d+)-(\d+) not mode[12]/gm)].map(([, first, last]) => [Number(first), Number(last)]);
    const lack = /^(\d+)-(\d+) not in the image/m.exec(out);
    return [mode1, damaged + hurt, elsewhere + moved, lost, lack && lack.slice(1, 3).map(Number)];
}

/** The findings that a player is told. The script writes one byte near the end of the image, without its old value. */
async function toldToPlayer(app) {
    const { base, sectors, opened: track } = app.image;
    const data = { base, carry: false, script: `cdpatch 1\nset ${base + sectors - 3} 2047 41\n`, image: { size: 0, sha1: '' }, result: '' };
    const { verdict, findings } = await judgeImage(app, data, track, { signal: new AbortController().signal, progress() {} });
    return verdict === 'unknown' ? findings : null;
}

test('an image: survey', { skip }, async t => {
    withDocument(t);
    for (const [name, { files, base, due }] of Object.entries(SURVEYED)) {
        const app = await opened(files, { base });
        const { survey: { marks, lacks: [lack = null], verdict } } = app;
        const missing = lack && [lack.missing.first, lack.missing.last];
        assert.deepEqual([marks.mode1(), marks.damaged(), marks.elsewhere, marks.lost.map(it => [it.first, it.last]), missing], due, name);
        const { out, status } = cdscript('info', ...words(files, { base }));
        assert.deepEqual(counted(out), due, name);
        assert.equal(verdict.status, status, name);
        // A patch writes only Mode 1.
        if (due[0] > 0) assert.deepEqual(await toldToPlayer(app), verdict.findings, name);
    }
});

const half = raw();
half.set(calls.encodeBlocks(7, Buffer.alloc(USER, 0x41)), RAW * 7);
const UNDONE = {
    'a script': { script: `cdpatch 1\nset 5 0 5052455353 ${WAS}\nset 7 9 41\nset 5 2 78\n` },
    'of a base': { script: '# first\ncdpatch 1\n# base 150\nset 157 0 41\n', image: raw(150), base: 150 },
    'damage with carry': { script: 'cdpatch 1\nset 9 0 41\nset 10 0 41\n', image: changed([9, 500]), carry: true },
    'patches that are refused': { script: 'cdpatch 1\nset 9 0 41\nset 10 0 41 was 42\n' },
    'what is there already': { script: 'cdpatch 1\nfill 7 0 2048 41\n', image: half, isRefused: true },
    'a script for another base': { script: 'cdpatch 1\n# base 150\nset 5 0 41\n', isRefused: true },
};

/** The content of the only download; null if there is none. */
async function downloaded() {
    const blobs = downloads.splice(0);
    assert.ok(blobs.length < 2);
    return blobs.length === 0 ? null : Buffer.from(await blobs[0].arrayBuffer());
}

/** An element for a part of the page. */
const part = () => document.createElement('div');

test('a script: undo', { skip }, async t => {
    withDocument(t);
    for (const [name, { script, image = raw(), base, carry = false, isRefused = false }] of Object.entries(UNDONE)) {
        const app = await opened({ 'd.bin': image }, { base });
        app.setScript(script, 'a.txt', true);
        await makeUndo(app, { bar: part(), message: part() }, app.script, carry);
        write({ 'a.txt': ascii(script) });
        const { out, status } = cdscript('undo', ...words({ 'd.bin': image }, { base }), 'a.txt', ...carry ? ['--carry'] : []);
        const made = await downloaded();
        assert.equal(made === null ? '' : made.toString(), out, name);
        assert.deepEqual([made === null, status === 2], [isRefused, isRefused], name);
    }
});

const other = (base = 0) => {
    const made = user();
    made.set(ascii('PRESS START'), 42 * USER + 7);
    made.fill(0x20, 50 * USER, 52 * USER);
    return Buffer.from(calls.encodeBlocks(base, made));
};
const COMPARED = {
    'two images': { image: raw(), fresh: other() },
    'of a base': { image: raw(150), fresh: other(150) },
    'the same': { image: raw(), fresh: raw() },
    'damage in the second one': { image: raw(), fresh: changed([9, 500], [42, 17]), isRefused: true },
};

test('two images: compare', { skip }, async t => {
    withDocument(t);
    for (const [name, { image, fresh, isRefused = false }] of Object.entries(COMPARED)) {
        const app = await opened({ 'd.bin': image });
        const second = await opened({ 'e.bin': fresh });
        app.setSecond(second.image);
        await writeScript(app, part(), { image: app.image, fresh: second.image.reader, goal: '', name: 'a.txt' }, 'save');
        write({ 'e.bin': fresh });
        const { out, status } = cdscript('diff', ...words({ 'd.bin': image }), 'e.bin');
        const made = await downloaded();
        assert.equal(made === null ? '' : made.toString(), out, name);
        assert.deepEqual([made === null, status === 2], [isRefused, isRefused], name);
    }
});

/** The disc of Mode 2 with the EDC of all sectors of Form 2. */
function withEdc() {
    const made = changedMode2();
    for (let i = 7; i < 40; i += 8) {
        calls.hold(made.subarray(RAW * i, RAW * (i + 1)));
        made.writeUInt32LE(calls.heldEdc(16, 2348), RAW * i + 2348);
    }
    return made;
}

/** Bytes without a sync field, as many as those of a disc. */
const noise = () => raw().map((_, at) => at * at % 251);

const REPAIRED = {
    'what parity confirms, and what the other dump has': { image: changed([9, 500], [11, 2100], [20, 13], [21, 2066], [30, 5], [50, 17], [51, 13]),
        fresh: changed([11, 400], [51, 400]), corrected: [[9, 9], [11, 11], [30, 30], [50, 50]], due: [[20, 21]] },
    'an image that begins before block 0': { image: Buffer.concat([Buffer.alloc(RAW * 150), changed([9, 500])]),
        fresh: Buffer.concat([Buffer.alloc(RAW * 150), raw()]), corrected: [[159, 159]], due: [] },
    'sectors of Mode 2': { image: changedMode2([3, 500], [7, 100], [9, 2], [12, 14], [17, 2200]), fresh: changedMode2([7, 100], [17, 300], [20, 14]),
        due: [[3, 3], [9, 9], [12, 12]] },
    'Form 2 without EDC, which a tool has filled in': { image: changedMode2([3, 500]), fresh: withEdc(), due: [[3, 3]] },
    'music': { image: noise(), fresh: raw(), due: null },
    'another part of a disc': { image: changed([9, 500]), fresh: raw(700), due: null },
    'another disc': { image: changed([9, 500]), fresh: Buffer.from(calls.encodeBlocks(0, Buffer.alloc(USER * SIZE, 9))), due: null },
};

test('two images: repair', { skip }, async t => {
    withDocument(t);
    for (const [name, { image, fresh, corrected = [], due }] of Object.entries(REPAIRED)) {
        const app = await opened({ 'd.bin': image });
        app.setSecond((await opened({ 'e.bin': fresh })).image, 'repair');
        const job = new SecondRepair(app, () => {});
        await job.begin();
        const { repair, pieces } = job.found;
        write({ 'e.bin': fresh });
        rmSync(join(room, 'o.bin'), { force: true });
        const { out, status } = cdscript('merge', '--parity', ...words({ 'd.bin': image }), 'e.bin', 'o.bin');
        assert.deepEqual([repair.refused !== null, status === 2], [due === null, due === null], name);
        if (due === null) continue;
        const listed = form => [...out.matchAll(form)].map(([, first, last]) => [Number(first), Number(last)]);
        const planned = [repair.corrected, repair.taken].map(runs => runs.map(({ first, last }) => [first, last]));
        assert.deepEqual([planned, [listed(/^(\d+)-(\d+) from its own parity$/gm), listed(/^(\d+)-(\d+) from e.bin$/gm)]],
            [[corrected, due], [corrected, due]], name);
        const whole = pieces.map(it => 'bytes' in it ? it.bytes : image.subarray(it.from, it.to));
        assert.equal(sumOf(Buffer.concat(whole)), sumOf(read('o.bin')), name);
    }
});

/** The page's list of files, with one of them selected. */
async function listOf(app, path = '/BIG') {
    app.serve({ showPanel() {} });
    const list = new FilesList(app);
    list.take(true);
    list.choose(list.all.find(it => it.path === path));
    return list;
}

test('files: list and extract', { skip }, async t => {
    withDocument(t);
    for (const [name, base] of [['of block 0', undefined], ['of block 150', 150]]) {
        const app = await opened({ 'd.bin': raw() }, { base });
        const list = await listOf(app);
        const given = words({ 'd.bin': raw() }, { base });
        assert.equal(list.text(), cdscript('files', ...given).out, name);
        for (const path of ['/BIG', '/END']) {
            await list.jobs.extract(list.all.find(it => it.path === path), false);
            rmSync(join(room, 'o.bin'), { force: true });
            assert.equal(cdscript('extract', ...given, path, 'o.bin').status, 0);
            assert.equal(sumOf(await downloaded()), sumOf(read('o.bin')), `${path} ${name}`);
        }
    }
});

const NEW_FILES = {
    'of the same length': { path: '/END', fresh: ascii('fresh'.repeat(2000)).subarray(0, 3 * USER - 100) },
    'a longer one': { path: '/END', fresh: Buffer.alloc(3 * USER, 0x41) },
    'a shorter one over extents': { path: '/BIG', fresh: Buffer.alloc(2 * USER + 7, 0x42) },
    'for a base': { path: '/BIG', fresh: Buffer.alloc(3 * USER, 0x43), base: 150 },
    'one that is too long': { path: '/END', fresh: Buffer.alloc(3 * USER + 1), isRefused: true },
    'over a damaged sector': { path: '/END', fresh: Buffer.alloc(3 * USER, 0x44), image: changed([41, 500]), isRefused: true },
};

test('a file: replace, extract as patched, and take back', { skip }, async t => {
    withDocument(t);
    for (const [name, { path, fresh, base, image = raw(), isRefused = false }] of Object.entries(NEW_FILES)) {
        const app = await opened({ 'd.bin': image }, { base });
        const list = await listOf(app, path);
        list.jobs.input.files = [fileOf('fresh', fresh)];
        await list.jobs.replace();
        write({ fresh });
        const { out, status } = cdscript('replace-file', ...words({ 'd.bin': image }, { base }), path, 'fresh');
        const made = app.script.text();
        assert.deepEqual(linesOf(made).slice(1), linesOf(out).slice(1), name);
        assert.deepEqual([linesOf(made).length === 1, status === 2], [isRefused, isRefused], name);
        if (isRefused) continue;
        await list.jobs.extract(list.chosen, true);
        assert.equal(sumOf(await downloaded()), sumOf(fresh), `as patched: ${name}`);
        await list.jobs.takeBack(list.chosen);
        assert.equal(linesOf(app.script.text()).filter(line => line.startsWith('set ')).length, 0, name);
    }
});

/** A table with new texts for some of its texts. */
function withNew(table, texts) {
    return Object.entries(texts).reduce((made, [text, fresh]) => {
        assert.ok(made.includes(`,${text},`), text);
        return made.replace(`,${text},`, `,${text},${fresh}`);
    }, table);
}

const TABLES = {
    'new texts, one over the extents of its file': { texts: { はじめから: 'つづきから', セーブしますか: 'ロードします' }, due: 3 },
    'for a base': { texts: { はじめから: 'はじめ' }, base: 150, due: 2 },
    'a text that is too long': { texts: { セーブしますか: 'セーブしますか'.repeat(200), はじめから: 'つづきから' }, due: 2 },
};

/** The disc with Japanese texts. The first text crosses two extents of its file. */
function japanese(base = 0) {
    const made = user();
    const text = encodeText(encodingOf('CP932'), 'はじめから');
    made.set(text.subarray(0, 5), 32 * USER - 5);
    made.set([...text.subarray(5), 0, 0, 0], 20 * USER);
    made.set([...encodeText(encodingOf('CP932'), 'セーブしますか'), 0, 0], 42 * USER + 700);
    return Buffer.from(calls.encodeBlocks(base, made));
}

test('a table of texts: export and import', { skip }, async t => {
    withDocument(t);
    for (const [name, { texts, base, due }] of Object.entries(TABLES)) {
        const app = await opened({ 'd.bin': japanese() }, { base });
        const table = new TextsTable(app);
        await table.save('csv');
        const given = words({ 'd.bin': japanese() }, { base });
        const printed = cdscript('texts', ...given, '--csv').out;
        assert.equal((await downloaded()).toString(), printed, name);
        const list = withNew(printed, texts);
        await table.takeAny(fileOf('list.csv', Buffer.from(list)));
        write({ 'list.csv': list });
        assert.equal(app.script.text(), cdscript('replace', ...given, '--list', 'list.csv', '--partial').out, name);
        assert.equal(linesOf(app.script.text()).filter(line => line.startsWith('set ')).length, due, name);
    }
});

/** Files that are neither images, nor scripts, nor lists. */
const OF_OTHER_TOOLS = {
    'a.ppf': Buffer.from('PPF30\x02'), 'a.xdelta': Buffer.from([0xD6, 0xC3, 0xC4, 0, 1]), 'a.ips': Buffer.from('PATCH\0\0\x01\0\x01xEOF'),
    'a.bps': Buffer.from('BPS1'), 'a.ups': Buffer.from('UPS1'), 'a.chd': Buffer.from('MComprHD'),
    'a.xlsx': Buffer.from('PK\x03\x04[Content_Types].xmlPK\x01\x02xl/workbook.xml'), 'a.gdi': Buffer.from('1\n1 0 4 2352 track01.bin 0\n'),
};

test('a file of another tool: as an image, as a script, and as a list', { skip }, async t => {
    withDocument(t);
    const app = await opened({ 'd.bin': raw() });
    for (const [name, bytes] of Object.entries(OF_OTHER_TOOLS)) {
        const [what, advice] = KINDS[await kindOfFile(calls, { size: bytes.length, read: async (at, length) => bytes.subarray(at, at + length) })];
        const due = `${name} is ${what}. ${advice}`;
        await assert.rejects(opened({ [name]: bytes }), error => remarkText(error) === due);
        write({ [name]: bytes, 'd.bin': raw(), script: ascii('cdpatch 1\n') });
        const isBinary = name !== 'a.gdi';
        if (isBinary) {
            const table = new TextsTable(app);
            await table.takeAny(fileOf(name, bytes));
            assert.ok(table.message.textContent.includes(due), name);
        }
        assert.equal(cdscript('info', name).out, `${name}: ${what}\n${advice}\n`);
        assert.ok(cdscript('scan', name).out.includes(what), name);
        const asImage = [['check', name, 'script'], ['apply', name, 'script', 'o.bin']];
        const asOther = [['check', 'd.bin', name], ['apply', 'd.bin', name, 'o.bin'], ['undo', 'd.bin', name], ['replace', 'd.bin', '--list', name]];
        for (const job of isBinary ? [...asImage, ...asOther] : asImage) {
            rmSync(join(room, 'o.bin'), { force: true });
            const { status, errors } = cdscript(...job);
            assert.deepEqual([status, errors], [2, `cdscript: ${due}\n`], job.join(' '));
        }
    }
});
