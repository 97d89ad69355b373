// Cue sheets with several data tracks: the tracks that a job uses, and its messages about the others.

import assert from 'node:assert/strict';
import { test } from 'node:test';
import { damaged, imageOf, inDirectory, program, read, run, sameFile, tool, write } from './common.mjs';
import { noise } from './discs.mjs';

const TRACK_3 = 'cdscript: track 3 also has data, but was not examined: use --track 3\n';

/** A sheet of tracks with these types, each in its own file. */
function sheetOf(...tracks) {
    return tracks.map(([name, type], i) => `FILE "${name}" BINARY\n  TRACK ${String(i + 1).padStart(2, '0')} ${type}\n    INDEX 01 00:00:00\n`).join('');
}

/** Writes a set of tracks: data, audio, and data from block 180 on, with block 185 damaged. Returns its last image before the damage. */
function writeSet(room) {
    const last = imageOf(room, 20, 180);
    write(room, { 'one.bin': imageOf(room, 30), 'two.bin': noise(2352 * 150, 5), 'three.bin': damaged(last, 180, [185, 100]) });
    write(room, { 'game.cue': sheetOf(['one.bin', 'MODE1/2352'], ['two.bin', 'AUDIO'], ['three.bin', 'MODE1/2352']) });
    return last;
}

test('damage in a later data track is not passed off as none', () => inDirectory(async room => {
    writeSet(room);
    const info = await run(['info', 'game.cue'], { cwd: room });
    assert.deepEqual([info.status, info.errors], [1, '']);
    assert.ok(info.out.endsWith(['track 1 base 0', '0-29 mode1', 'sectors 30 tail 0', 'mode1 30 damaged 0 address 0',
        'track 2 base 30', '30-179 nosync', 'sectors 150 tail 0', 'mode1 0 damaged 0 address 0', 'not tested 150: blocks 30 to 179 are audio',
        'track 3 base 180', '180-199 mode1', 'sectors 20 tail 0', 'mode1 20 damaged 1 address 0', '185-185 mode1 damaged: edc p=1 q=1', ''].join('\n')), info.out);
    write(room, { script: 'cdpatch 1\nset 185 0 00\n' });
    const first = await run(['check', 'game.cue', 'script'], { cwd: room });
    assert.deepEqual([first.status, first.out, first.errors], [1, 'line 2: refused: no block 185\napplied 0 refused 1\n', TRACK_3]);
    const third = await run(['check', '--track', '3', 'game.cue', 'script'], { cwd: room });
    assert.deepEqual([third.status, third.out, third.errors], [1, 'line 2: refused: block 185 is damaged\napplied 0 refused 1\n', '']);
    assert.match((await run(['info', 'game.cue', '--track=3'], { cwd: room })).out, /\nbase 180\n180-199 mode1\nsectors 20 tail 0\n/);
}));

test('info says which track does not give its first block', () => inDirectory(async room => {
    const last = writeSet(room);
    write(room, { 'three.bin': Buffer.concat(Array(10).fill(last.subarray(0, 2352 * 2))) });
    const { errors } = await run(['info', 'game.cue'], { cwd: room });
    assert.equal(errors, 'cdscript: the addresses in three.bin do not give its first block, so its first sector counts as block 180; see --base\n');
}));

test('jobs that look at one of several data tracks say so, once', () => inDirectory(async room => {
    writeSet(room);
    write(room, { script: 'cdpatch 1\n', 'other.cue': read(room, 'game.cue') });
    for (const words of [['check', 'game.cue', 'script'], ['rebuilds', 'game.cue'], ['merge', 'game.cue', 'other.cue', 'out'],
        ['find', 'game.cue', 'no such text'], ['files', 'game.cue'], ['replace', 'game.cue', 'no such text', 'x'], ['undo', 'game.cue', 'script']]) {
        const { errors } = await run(words, { cwd: room });
        assert.equal(errors.split(TRACK_3).length, 2, words.join(' '));
    }
    const { errors } = await run(['merge', 'game.cue', 'other.cue', 'second'], { cwd: room });
    assert.ok(errors.includes('only one.bin is repaired: the 2 other files of the cue sheet were not compared'), errors);
    assert.equal((await run(['rebuilds', 'game.cue', '--track', '3'], { cwd: room })).out, 'cdpatch 1\n# base 180\nrebuild 185\n');
}));

test('tracks in one file are looked at together by what takes the whole image', () => inDirectory(async room => {
    const image = Buffer.concat([imageOf(room, 30), noise(2352 * 75, 5), imageOf(room, 20, 105)]);
    const cue = 'FILE "game.bin" BINARY\n  TRACK 01 MODE1/2352\n    INDEX 01 00:00:00\n  TRACK 02 AUDIO\n    INDEX 01 00:00:30\n' +
        '  TRACK 03 MODE1/2352\n    INDEX 01 00:01:30\n';
    write(room, { 'game.bin': damaged(image, 0, [110, 100]), 'game.cue': cue });
    const { status, out, errors } = await run(['rebuilds', 'game.cue'], { cwd: room });
    assert.deepEqual([status, out, errors], [0, 'cdpatch 1\nrebuild 110\n', '']);
    assert.match((await run(['info', 'game.cue'], { cwd: room })).out, /\nbase 0\n(.*\n)+mode1 50 damaged 1 address 0\n110-110 mode1 damaged: edc p=1 q=1\nnot tested 75: blocks 30 to 104 are audio\n$/);
    // A place may be in any of them; a text is searched in one.
    const said = async (...words) => (await run(['replace', 'game.cue', ...words, '--encoding', 'hex'], { cwd: room })).errors.includes(TRACK_3);
    assert.deepEqual([await said('106', '0', '00', '01'), await said('0123456789ABCDEF', '00')], [false, true]);
    assert.equal((await run(['user', 'game.cue', 'out'], { cwd: room })).errors, TRACK_3);
    assert.ok(!(await run(['show', 'game.cue', '110'], { cwd: room })).errors.includes(TRACK_3));
    // A gap that is not in the file: the later track begins at a later block.
    imageOf(room, 20, 255).copy(image, 2352 * 105);
    write(room, { 'game.bin': image });
    const gap = await run(['info', 'game.cue'], { cwd: room });
    assert.match(gap.out, /\ntrack 1 base 0\n0-29 mode1\n.*\n.*\nmode1 30 .*\n.*\ntrack 3 base 255\n255-274 mode1\n.*\nmode1 20 damaged 0 address 0\n$/);
    assert.equal(gap.status, 0);
}));

test('a script for a later track, by the cue sheet and by its BIN', () => inDirectory(async room => {
    const last = writeSet(room);
    write(room, { script: 'cdpatch 1\nrebuild 185\nset 185 84 00\n', sound: last });
    const { status, out, errors } = await run(['apply', '--track', '3', 'game.cue', 'script', 'new.bin'], { cwd: room });
    assert.deepEqual([status, out, errors], [0, 'line 2: applied\nline 3: applied\napplied 2 refused 0\n', '']);
    tool(program, ['apply', '--base', '180', 'three.bin', 'script', 'due.bin'], { cwd: room });
    sameFile(read(room, 'new.bin'), read(room, 'due.bin'), 'the patched track');
    const alone = await run(['check', 'three.bin', 'script'], { cwd: room });
    assert.deepEqual([alone.status, alone.out], [2, '']);
    for (const words of [['check', '--base', '180', 'three.bin', 'script'], ['check', 'one.bin', 'script']]) assert.equal((await run(words, { cwd: room })).errors, '');
    // Addresses that do not agree are not reported.
    write(room, { odd: Buffer.concat([last.subarray(0, 2352 * 9), last.subarray(0, 2352 * 6)]) });
    assert.equal((await run(['check', 'odd', 'script'], { cwd: room })).errors, '');
}));

test('an image without a cue sheet is the track that is asked for', () => inDirectory(async room => {
    writeSet(room);
    write(room, { 'sea.bin': imageOf(room, 20, 180), 'short.cue': sheetOf(['one.bin', 'MODE1/2352']) });
    const { status, out, errors } = await run(['diff', '--track', '3', 'game.cue', 'sea.bin'], { cwd: room });
    assert.deepEqual([status, errors], [0, '']);
    assert.match(out, /^cdpatch 1\n# base 180\nrebuild 185\nset 185 84 .. was ..\n$/);
    const merged = await run(['repair', '--track', '3', 'game.cue', 'sea.bin', 'out'], { cwd: room });
    assert.deepEqual([merged.status, merged.errors], [0, 'cdscript: only three.bin is repaired: the 2 other files of the cue sheet were not compared\n']);
    sameFile(read(room, 'out'), read(room, 'sea.bin'), 'the repaired track');
    const none = await run(['diff', '--track', '3', 'game.cue', 'short.cue'], { cwd: room });
    assert.equal(none.status, 2);
    assert.match(none.errors, /^cdscript: short\.cue has no track 3\./);
}));
