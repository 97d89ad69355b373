// Cue sheets whose files get new names.

import assert from 'node:assert/strict';
import { test } from 'node:test';
import { page } from './page.mjs';

const { otherFiles, sheetNaming } = await page('save/sheet.js');

test('a file is named anew in the lines that name it, and all else stays', () => {
    const rows = {
        'FILE "game.bin" BINARY': 'FILE "new.bin" BINARY', '  file game.bin  BINARY \r': '  file "new.bin"  BINARY \r',
        'FILE "C:\\x\\GAME.BIN" BINARY': 'FILE "new.bin" BINARY', 'FILE my/game.bin MOTOROLA': 'FILE "new.bin" MOTOROLA',
    };
    for (const [line, wanted] of Object.entries(rows)) assert.equal(sheetNaming(`REM\n${line}\nREM`, [['game.bin', 'new.bin']]), `REM\n${wanted}\nREM`);
    const spaces = 'FILE a b.bin BINARY\nFILE "a b.bin" WAVE';
    assert.equal(sheetNaming(spaces, [['a b.bin', 'x.bin']]), 'FILE "x.bin" BINARY\nFILE "x.bin" WAVE');
});

test('the other files of a sheet are those of its names, each once, but for the image in capitals or not', () => {
    const sheet = ['FILE "GAME.BIN" BINARY', 'TRACK 01', 'FILE a\\two.wav WAVE', 'FILE "two.wav" WAVE', 'FILE "three.bin" BINARY'].join('\n');
    assert.deepEqual(otherFiles(sheet, 'game.bin'), ['two.wav', 'three.bin']);
});

test('a sheet that does not name the file is none', () => {
    for (const line of ['FILE "other.bin" BINARY', 'FILE game.bin', 'FILE "game.bin BINARY', 'FILE', 'PROFILE game.bin BINARY', 'REM FILE "game.bin" BINARY',
        'FILE "game.bin"BINARY', 'FILE "game.bin" BINARY MORE']) assert.equal(sheetNaming(line, [['game.bin', 'new.bin']]), '', line);
});

test('a long line with many gaps takes no longer than any other', () => {
    const gaps = ' '.repeat(40000);
    const lines = [`FILE a${gaps}b${gaps}\u2028x y`, `FILE a${' '.repeat(50000)}b${' '.repeat(50000)}`, `FILE ${'a '.repeat(50000)}`, ' '.repeat(100000), `FILE "${'" '.repeat(50000)}`,
        `${'FILE a b\n'.repeat(12500)}`, `FILE a${'\u2028 '.repeat(50000)}`];
    const began = process.cpuUsage();
    for (const line of lines) assert.equal(sheetNaming(line, [['game.bin', 'new.bin']]), '');
    const { user, system } = process.cpuUsage(began);
    assert.ok(user + system < 1e6, `${user + system} microseconds`);
});
