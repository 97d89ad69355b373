// Findings that must not be missed: holes in a track, files in only one tree of a volume, misleading records, and files that only seem
// empty; and conditions that must not end a job: a sector that no script can write, and a system without threads.

import assert from 'node:assert/strict';
import { spawnSync } from 'node:child_process';
import { mkdirSync, readdirSync, truncateSync, writeFileSync } from 'node:fs';
import { join } from 'node:path';
import { test } from 'node:test';
import { harmlessVolume, recordOf, volumeOf } from '../core/strangers.mjs';
import { MESSAGES } from '../lib/messages.mjs';
import { command, damaged, earlyCommand, imageOf, inDirectory, program, read, run, runProcess, sameFile, tool, write } from './common.mjs';
import { skip } from './discs.mjs';

/** A copy of an image with blocks that a dumper has filled with one byte. */
function filled(image, blocks, byte) {
    const copy = Buffer.from(image);
    for (const block of blocks) copy.fill(byte, 2352 * block, 2352 * (block + 1));
    return copy;
}

test('a hole between Mode 1 sectors is a finding of merge and info', () => inDirectory(async room => {
    const image = imageOf(room, 300);
    write(room, { zeros: filled(image, [100, 101], 0), fives: filled(image, [100, 101], 0x55), end: filled(image, [299], 0) });
    const merged = await run(['merge', 'zeros', 'fives', 'out'], { cwd: room });
    assert.deepEqual([merged.status, merged.out], [1, '100-101 lost, without a sound copy\ntaken 0 damaged 0 disputed 0 different 0\n']);
    const info = await run(['info', 'zeros'], { cwd: room });
    assert.equal(info.status, 1);
    assert.match(info.out, /\nmode1 298 damaged 0 address 0\n100-101 not mode1 in a track of mode1\n$/);
    // Sectors after the last Mode 1 sector may be audio, unless a sheet says otherwise.
    assert.equal((await run(['info', 'end'], { cwd: room })).status, 0);
    write(room, { 'end.cue': 'FILE "end" BINARY\n TRACK 01 MODE1/2352\n INDEX 01 00:00:00\n' });
    const sheet = await run(['info', 'end.cue'], { cwd: room });
    assert.equal(sheet.status, 1);
    assert.match(sheet.out, /\n299-299 not mode1 in a track of mode1\n$/);
}));

test('a track of audio between tracks of data is no hole', () => inDirectory(async room => {
    const image = filled(imageOf(room, 700), Array.from({ length: 400 }, (_, i) => 200 + i), 0);
    const sheet = 'FILE "image" BINARY\n TRACK 01 MODE1/2352\n INDEX 01 00:00:00\n TRACK 02 AUDIO\n INDEX 01 00:02:50\n' +
        ' TRACK 03 MODE1/2352\n INDEX 01 00:08:00\n';
    write(room, { image, 'image.cue': sheet });
    const alone = await run(['info', 'image'], { cwd: room });
    const untested = 'not tested 400: blocks 200 to 599 are';
    assert.deepEqual([alone.status, alone.out.split('\n').at(-2)], [0, `${untested} not mode1; a cue sheet would say whether they are audio`]);
    const info = await run(['info', 'image.cue'], { cwd: room });
    assert.deepEqual([info.status, info.out.split('\n').at(-2), info.errors], [0, `${untested} audio`, '']);
    assert.equal((await run(['merge', 'image.cue', 'image', 'out'], { cwd: room })).status, 0);
}));

test('a file that the sheet names and that is not there is a finding of info and scan', () => inDirectory(async room => {
    write(room, { 'one.bin': imageOf(room, 20), 'set.cue': 'FILE "one.bin" BINARY\n TRACK 01 MODE1/2352\n INDEX 01 00:00:00\n' +
        'FILE "two.bin" BINARY\n TRACK 02 AUDIO\n INDEX 01 00:00:00\n' });
    const { status, out } = await run(['info', 'set.cue'], { cwd: room });
    assert.equal(status, 1);
    assert.match(out, /\ntrack 2 AUDIO in the missing file two.bin\n/);
    write(room, { 'gone.cue': 'FILE "gone.bin" BINARY\n TRACK 01 MODE1/2352\n INDEX 01 00:00:00\n' });
    const due = ['cdscript: gone.cue names gone.bin, which is not in the directory of the cue sheet.', 'cdscript: track 2 of set.cue is in the missing file two.bin'];
    const scan = await run(['scan', 'set.cue', 'gone.cue'], { cwd: room });
    assert.deepEqual([scan.status, scan.errors.split('\n').filter(Boolean).sort()], [1, due]);
}));

test('diff --partial leaves out what no script can make', () => inDirectory(async room => {
    const [image, wanted] = [imageOf(room, 60), imageOf(room, 60)];
    const old = Buffer.concat([damaged(image, 0, [3, 100], [10, 500], [20, 5], [40, 100]), Buffer.from('a')]);
    const fresh = Buffer.concat([damaged(wanted, 0, [50, 100]), Buffer.from('b')]);
    write(room, { old, fresh });
    const refused = await run(['diff', 'old', 'fresh'], { cwd: room });
    assert.match(refused.errors, /\ncdscript: no script can produce fresh, so none was written; use --partial to leave out these differences\n$/);
    const { status, out, errors } = await run(['diff', 'old', 'fresh', '--partial'], { cwd: room });
    assert.deepEqual([status, errors], [1, 'cdscript: nosync and mode1 in block 20, and a script changes only mode1\n' +
        'cdscript: fresh is damaged in block 50\ncdscript: the incomplete last sectors differ, and a script cannot change them\n' +
        'cdscript: blocks left out: 2\n']);
    write(room, { script: out });
    tool(program, ['apply', 'old', 'script', 'made'], { cwd: room });
    const due = Buffer.from(old);
    for (const block of [3, 10, 40]) fresh.copy(due, 2352 * block, 2352 * block, 2352 * (block + 1));
    sameFile(read(room, 'made'), due, 'all that a script can make');
    write(room, { whole: fresh.subarray(0, 2352 * 20), same: fresh.subarray(0, 2352 * 20) });
    assert.equal((await run(['diff', 'whole', 'same', '--partial'], { cwd: room })).status, 0);
}));

/** Lists an ISO image that was converted to a raw one. */
async function listed(room, user) {
    write(room, { 'made.iso': user });
    tool('rm', ['-f', 'made.raw'], { cwd: room });
    assert.equal((await run(['raw', 'made.iso', 'made.raw'], { cwd: room })).status, 0);
    return run(['files', 'made.raw'], { cwd: room });
}

test('a file that only one tree of names has is listed', { skip }, () => inDirectory(async room => {
    mkdirSync(join(room, 'tree'));
    for (const name of ['seen.txt', 'hidden.txt', 'only long names.txt']) writeFileSync(join(room, 'tree', name), name);
    tool('genisoimage', ['-quiet', '-J', '-hide-joliet', 'hidden.txt', '-hide', 'ONLY*', '-o', 'disc.iso', 'tree'], { cwd: room });
    const plain = await listed(room, read(room, 'disc.iso'));
    assert.deepEqual([plain.status, plain.out.split('\n').map(line => line.split('\t')[2]).filter(Boolean).sort()],
        [0, ['/HIDDEN.TXT', '/only long names.txt', '/seen.txt']]);
    assert.equal((await run(['extract', 'made.raw', '/HIDDEN.TXT', 'out'], { cwd: room })).status, 0);
    assert.equal(read(room, 'out').toString(), 'hidden.txt');
    tool('genisoimage', ['-quiet', '-R', '-J', '-hide', 'seen.txt', '-o', 'rock.iso', 'tree'], { cwd: room });
    assert.match((await listed(room, read(room, 'rock.iso'))).out, /\t\/seen\.txt\n/);
}));

test('a record of another volume, or in one byte order only, is not what it seems', () => inDirectory(async room => {
    const big = recordOf('BIG', 22, 1000, { flags: 0 });
    const other = recordOf('DIFFERS', 22, 1000, { flags: 0 });
    new DataView(big.buffer).setUint32(10, 0, true);
    new DataView(big.buffer).setUint32(2, 0, true);
    new DataView(other.buffer).setUint32(14, 999, false);
    const user = volumeOf(30, sector => sector !== 18 ? [] : [recordOf('AWAY', 20, 1000, { flags: 0, volume: 2 }), big, other,
        recordOf('DIR', 21, 2048, { volume: 3 }), recordOf('HERE', 23, 1000, { flags: 0 })]);
    const { status, out, errors } = await listed(room, user);
    const differ = 'its numbers in the two byte orders differ';
    assert.deepEqual([status, out.split('\n').sort().filter(Boolean), errors], [1, [`0\t0\t/BIG\t${differ}`,
        '20\t1000\t/AWAY\tit is on volume 2 of the set, and this is volume 1', `22\t1000\t/DIFFERS\t${differ}`, '23\t1000\t/HERE'],
    'cdscript: /: the directory /DIR is not read: it is on volume 3 of the set, and this is volume 1\n']);
    for (const [path, why] of [['/AWAY', 'it is on volume 2 of the set, and this is volume 1'], ['/BIG', differ]]) {
        const taken = await run(['extract', 'made.raw', path, 'out'], { cwd: room });
        assert.deepEqual([taken.status, taken.errors, read(room, 'out')], [2, `cdscript: ${path}: ${why}\n`, null]);
    }
    assert.equal((await listed(room, harmlessVolume(30))).status, 0);
}));

test('a file that only seems to be empty is read', () => inDirectory(async room => {
    const { kind, bytes } = JSON.parse((await run(['info', '--json', '/proc/self/maps'])).out);
    assert.deepEqual([kind, bytes > 0], ['text', true]);
    write(room, { empty: '' });
    assert.match((await run(['info', 'empty'], { cwd: room })).out, /^empty: an empty file\n/);
}));

/** Runs a job with this class in place of node's threads. */
function withThreads(room, name, maker, words, { input, file = command } = {}) {
    write(room, { [name]: `require('node:worker_threads').Worker = ${maker};` });
    const { status, stdout, stderr } = spawnSync(process.execPath, ['-r', `./${name}`, file, ...words], { cwd: room, encoding: 'utf8', timeout: 90000, input });
    return [status, stdout, stderr];
}

test('without threads a job is done all the same', () => inDirectory(room => {
    const sector = imageOf(room, 1);
    write(room, { image: damaged(Buffer.concat(Array.from({ length: 9000 }, () => sector)), 0, [3, 2200], [8999, 2200]) });
    const why = "Object.assign(new Error('EAGAIN'), { code: 'ERR_WORKER_INIT_FAILED' })";
    const MAKERS = { 'throws.cjs': `class { constructor() { throw ${why}; } }`, 'fails.cjs': `class extends require('node:events') {
        constructor() { super(); setTimeout(() => this.emit('error', ${why}), 20); }
        terminate() {} postMessage() {} }` };
    const due = [0, 'cdpatch 1\nrebuild 3\nrebuild 8999\n'];
    const file = earlyCommand(room);
    for (const [name, maker] of Object.entries(MAKERS)) {
        assert.deepEqual(withThreads(room, name, maker, ['rebuilds', 'image', '--base', '0'], { file }), [...due, ''], name);
        assert.deepEqual(withThreads(room, name, maker, ['rebuilds', '-', '--base', '0'], { input: read(room, 'image'), file }), [...due, ''], name);
    }
}));

test('a job that waits for what never comes fails, and leaves no file', () => inDirectory(room => {
    const sector = imageOf(room, 1);
    write(room, { image: Buffer.concat(Array.from({ length: 9000 }, () => sector)) });
    const file = earlyCommand(room);
    const there = readdirSync(room);
    const maker = "class extends require('node:events') { terminate() {} postMessage() {} }";
    const due = [2, '', 'cdscript: internal error: the job has not ended\n'];
    assert.deepEqual(withThreads(room, 'silent.cjs', maker, ['rebuilds', 'image', '--base', '0', '-o', 'out'], { file }), due);
    assert.deepEqual(readdirSync(room).sort(), [...there, 'silent.cjs'].sort());
}));

test('only a long image begins threads', () => inDirectory(room => {
    for (const [name, sectors] of [['image', 160000], ['short', 60000]]) {
        write(room, { [name]: imageOf(room, 1) });
        truncateSync(join(room, name), 2352 * sectors);
    }
    const maker = "class { constructor() { console.log('a thread'); throw new Error('EAGAIN'); } }";
    assert.match(withThreads(room, 'counts.cjs', maker, ['rebuilds', 'short'])[1], /^cdpatch 1\n/);
    assert.match(withThreads(room, 'counts.cjs', maker, ['rebuilds', 'image'])[1], /^a thread\n/);
}));

test('an undo names the block whose damage is gone, also if nothing else is taken back', () => inDirectory(async room => {
    write(room, { image: damaged(imageOf(room, 20), 0, [3, 2200]), script: 'cdpatch 1\nrebuild 3\nset 5 0 00 was 00\n' });
    const { status, out, errors } = await run(['undo', 'image', 'script'], { cwd: room });
    assert.deepEqual([status, out], [1, 'cdpatch 1\n']);
    assert.equal(errors, 'cdscript: 1 patch is refused on image: is image the unpatched image?\n' +
        'cdscript: block 3: the damage is not restored; the address and the user data are\ncdscript: the script has no patch\n');
}));

test('apply makes its output before it reads the image, as the program does', () => inDirectory(room => {
    write(room, { out: 'there', script: 'cdpatch 1\n' });
    mkdirSync(join(room, 'folder'));
    const [opened, made] = ['open nothing: there is no such file or directory', 'create out: it already exists'];
    for (const [name, first] of [['folder', made], ['-', made], ['nothing', opened]]) {
        const due = spawnSync(program, ['apply', name, 'script', 'out'], { cwd: room, encoding: 'utf8', input: '' });
        const came = runProcess(['apply', name, 'script', 'out'], { cwd: room, input: '' });
        assert.deepEqual([due.stdout, came.status, came.errors], [`${first === opened ? MESSAGES.no_image : MESSAGES.no_output}\n`, due.status,
            `cdscript: cannot ${first}\n`], name);
    }
    const based = ['check', '--base', '+7', 'script', 'script'];
    const base = runProcess(based, { cwd: room });
    assert.deepEqual([base.status, base.out], [0, tool(program, based, { cwd: room }).toString()]);
}));
