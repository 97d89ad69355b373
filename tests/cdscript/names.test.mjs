// Names from a disc or a cue sheet: none of them moves the cursor of a terminal or begins a line.

import assert from 'node:assert/strict';
import { test } from 'node:test';
import { inDirectory, read, run, sameFile, write } from './common.mjs';
import { files, makeDisc, skip } from './discs.mjs';

test('control characters in names of a disc are not printed', { skip }, () => inDirectory(async room => {
    await makeDisc(room);
    const odd = 'TW\x1B\nE.DAT';
    write(room, { 'odd.iso': Buffer.from(read(room, 'disc.iso').toString('latin1').replaceAll('TWICE.DAT', odd), 'latin1') });
    assert.equal((await run(['raw', 'odd.iso', 'odd.bin'], { cwd: room })).status, 0);
    const listed = await run(['files', 'odd.bin'], { cwd: room });
    assert.match(listed.out, /\t5000\t\/DATA\/TW\.\.E\.DAT\n/);
    assert.match((await run(['find', 'odd.bin', '魔王の城'], { cwd: room })).out, /\t\/DATA\/TW\.\.E\.DAT\+100\t/);
    const [block] = listed.out.split('\n').find(line => line.includes('TW..E')).split('\t');
    assert.match((await run(['show', 'odd.bin', block, '100'], { cwd: room })).out, /\nfile \/DATA\/TW\.\.E\.DAT\+100\n/);
    for (const [i, path] of [`/DATA/${odd}`, 'DATA/TW..E.DAT'].entries()) {
        assert.equal((await run(['extract', 'odd.bin', path, `out${i}`], { cwd: room })).status, 0, path);
        sameFile(read(room, `out${i}`), files()['DATA/TWICE.DAT'], path);
    }
}));

test('control characters in messages are not printed', () => inDirectory(async room => {
    write(room, { 'game.cue': 'FILE "a\x1B[2J\x07.bin" BINARY\n  TRACK 01 MODE1/2352\n    INDEX 01 00:00:00\n' });
    const { status, errors } = await run(['files', 'game.cue'], { cwd: room });
    assert.equal(status, 2);
    assert.match(errors, /^cdscript: game\.cue names a\.\[2J\.\.bin, .*\n$/);
}));
