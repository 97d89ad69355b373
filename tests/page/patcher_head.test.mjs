// The parts of a foreign patcher's head that the page accepts.

import assert from 'node:assert/strict';
import { test } from 'node:test';
import { page } from './page.mjs';

const { isImageName, plainSheet, takenHead } = await page('player/patcher.js');

const sheet = (...names) => names.map((name, i) => `FILE "${name}" BINARY\n  TRACK 0${i + 1} MODE1/2352\n    INDEX 01 00:00:00\n`).join('');

const NO_NAMES = ['Play.html', 'a.hta', 'a.lnk', 'a.bat', 'a.js', 'a.vbs', 'a.scr', 'a.exe', 'a.url', 'a.desktop', 'a.command', 'a.dll', 'desktop.ini',
    'autorun.inf', '.bashrc', 'game', 'game.bin.html', 'game.bin.', 'game.bin ', 'game.cue', '.bin', '.game.bin', ' game.bin', 'CON.bin', 'nul.iso',
    'com1.img', 'LPT9.bin', 'COM\u00b9.bin', 'aux .bin', 'Con.x.bin', 'CONIN$.bin', 'a\u202enib.bin', 'a\u200b.bin', 'a\u2028.bin', 'a\ud800.bin', 'a\u00ad.bin',
    'a\nb.bin', 'a\u007f.bin', 'a/b.bin', 'a\\b.bin', 'a:b.bin', 'a*.bin', 'a?.bin', 'a"b.bin', '<a>.bin', 'a|b.bin', 'game.b\u0131n', 'game.i\u017fo',
    `${'x'.repeat(121)}.bin`, '', 'a\ue000.bin', 'a\ufeff.bin',
    'a\u115f.bin', 'a\u3164.bin', 'a\u3000.bin', 'a\u2800.bin', 'a\u00a0.bin', 'a\uffa0.bin'];
const NAMES = ['game.bin', 'Game (USA).BIN', 'Starlit (English).img', '日本語 [T+En].iso', 'contest.bin', 'Console.bin', 'com10.bin', 'a.b.c.bin',
    `${'x'.repeat(120)}.bin`, '-game-.bin', 'Game\uff0f2.bin'];

test('an image is called as an image, and as nothing that a system runs or takes for a device', () => {
    for (const name of NO_NAMES) assert.equal(isImageName(name), false, JSON.stringify(name));
    for (const name of NAMES) assert.equal(isImageName(name), true, JSON.stringify(name));
});

test('an image whose name is none of an image gets another one, in its cue sheet too', () => {
    const head = { title: 'x', name: 'Play the game.html', cue: sheet('Play the game.html', 'track2.bin') };
    assert.deepEqual(takenHead(head), { title: 'x', name: 'patched.bin', cue: sheet('patched.bin', 'track2.bin') });
    const right = { title: 'x', name: 'game.bin', cue: sheet('game.bin') };
    assert.deepEqual(takenHead(right), right);
});

test('a cue sheet is offered only if it can be read and names files beside it', () => {
    const wrong = [sheet('\\\\evil.example\\share\\track2.bin'), sheet('game.bin', '/etc/passwd'), sheet('..'), sheet('a:b.bin'), sheet('nul'), sheet('a\u202eb.bin'),
        'FILE game', sheet('game.bin').replace('INDEX 01', 'INDEX 00'), '',
        sheet('game.bin').replace('\n', '\n\0'), sheet('game.bin').replaceAll('\n', '\v'), sheet('game.bin').replace('BINARY', '../BINARY'),
        `FILE\u00a0"../x" BINARY\n${sheet('game.bin')}`, `\ufeffFILE "../x" BINARY\n${sheet('game.bin')}`];
    for (const text of wrong) assert.equal(plainSheet(text), '', JSON.stringify(text));
});

test('a cue sheet has nothing that was not read', () => {
    const good = sheet('game.bin');
    const others = ['FILE"C:\\x\\secret.wav" WAVE', '"FILE" "../x" BINARY', 'X FILE "../x" BINARY', 'CDTEXTFILE "\\\\evil\\x.cdt"', 'CDTEXTFILE"../x"', 'TITLE "a',
        'REM \u001b[31m', 'INDEX"01" 00:00:00', 'CATALOG 1', '\0'];
    for (const line of others) {
        for (const text of [`${line}\n${good}`, `${good}${line}\n`]) assert.equal(plainSheet(text), good, JSON.stringify(text));
    }
    const whole = 'FILE "a.bin" BINARY\n  TRACK 01 MODE1/2352\n    INDEX 01 00:00:00\n    POSTGAP 00:00:10\n  TRACK 02 AUDIO\n    FLAGS DCP PRE\n    PREGAP 00:02:00\n' +
        '    INDEX 00 10:00:00\nFILE "日本語.wav" WAVE\n    INDEX 01 00:00:00\n    INDEX 02 100:59:74\n';
    assert.equal(plainSheet(whole), whole);
    assert.equal(plainSheet(whole.toLowerCase().replaceAll('\n', '\r\n').replaceAll(' "', '  "')), whole);
});
