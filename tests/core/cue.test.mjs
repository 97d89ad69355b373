// Cue sheets: their tracks, and the errors that are refused.
import assert from 'node:assert';
import { test } from 'node:test';
import { core } from './common.mjs';

const { sheetOf, tracksOf } = await core('disc/cue.js');

const RAW = 2352;

/** A sheet of one file. @param {...string} lines */
const sheet = (...lines) => `FILE "game.bin" BINARY\r\n${lines.join('\r\n')}\r\n`;

/** The main properties of each track. @param {string} text @param {...number} sizes */
function tracks(text, ...sizes) {
    return tracksOf(sheetOf(text), sizes).map(({ number, file, at, end, block }) => ({ number, file, at, end, block }));
}

test('one file of one track', () => {
    const text = sheet('  TRACK 01 MODE1/2352', '    INDEX 01 00:00:00');
    assert.deepStrictEqual(sheetOf(text).files, [{ name: 'game.bin', format: 'BINARY', raw: true }]);
    assert.deepStrictEqual(tracksOf(sheetOf(text), [100 * RAW]), [{
        number: 1, type: 'MODE1/2352', sectorSize: RAW, pregap: 0, file: 0, at: 0, end: 100 * RAW, block: 0 }]);
});

test('one file of three tracks: a track begins at its INDEX 01', () => {
    const text = sheet('TRACK 01 MODE1/2352', 'INDEX 01 00:00:00', 'TRACK 02 AUDIO', 'INDEX 00 00:02:00', 'INDEX 01 00:04:00',
        'TRACK 03 AUDIO', 'INDEX 01 00:06:10', 'INDEX 02 00:07:00');
    assert.deepStrictEqual(tracks(text, 1000 * RAW), [
        { number: 1, file: 0, at: 0, end: 150 * RAW, block: 0 },
        { number: 2, file: 0, at: 300 * RAW, end: 460 * RAW, block: 300 },
        { number: 3, file: 0, at: 460 * RAW, end: 1000 * RAW, block: 460 },
    ]);
    assert.deepStrictEqual(tracksOf(sheetOf(text), [1000 * RAW]).map(({ pregap }) => pregap), [0, 150 * RAW, 0]);
});

test('a file for each track: blocks go on from file to file', () => {
    const text = `REM a comment
        CATALOG 1234567890123
        FILE "Game (Track 1).bin" BINARY
          TRACK 01 AUDIO
            FLAGS DCP
            INDEX 01 00:00:00
        FILE "Game (Track 2).bin" binary
          track 02 mode1/2352
            INDEX 00 00:00:00
            INDEX 01 00:02:00
        FILE Game Three.bin MOTOROLA
          TRACK 03 AUDIO
            INDEX 01 00:00:00`;
    assert.deepStrictEqual(sheetOf(text).files.map(file => file.name), ['Game (Track 1).bin', 'Game (Track 2).bin', 'Game Three.bin']);
    assert.deepStrictEqual(tracks(text, 500 * RAW, 700 * RAW, 20 * RAW), [
        { number: 1, file: 0, at: 0, end: 500 * RAW, block: 0 },
        { number: 2, file: 1, at: 150 * RAW, end: 700 * RAW, block: 650 },
        { number: 3, file: 2, at: 0, end: 20 * RAW, block: 1200 },
    ]);
});

test('pauses that are in no file count as blocks; the first two seconds do not', () => {
    const text = sheet('TRACK 01 MODE1/2352', 'PREGAP 00:02:00', 'INDEX 01 00:00:00', 'POSTGAP 00:00:10', 'TRACK 02 AUDIO', 'PREGAP 00:02:00',
        'INDEX 01 00:01:00');
    assert.deepStrictEqual(tracks(text, 100 * RAW).map(it => [it.at, it.end, it.block]),
        [[0, 75 * RAW, 0], [75 * RAW, 100 * RAW, 75 + 10 + 150]]);
    assert.strictEqual(tracks(text.replace('00:02:00', '00:03:00'), 100 * RAW)[0].block, 75);
});

test('a gap in the file before, as some programs write it', () => {
    const text = `FILE "1.bin" BINARY\nTRACK 01 MODE1/2352\nINDEX 01 00:00:00\nTRACK 02 AUDIO\nINDEX 00 00:01:00
FILE "2.bin" BINARY\nINDEX 01 00:00:00`;
    assert.deepStrictEqual(tracks(text, 100 * RAW, 50 * RAW), [
        { number: 1, file: 0, at: 0, end: 75 * RAW, block: 0 },
        { number: 2, file: 1, at: 0, end: 50 * RAW, block: 100 },
    ]);
});

test('a file whose tracks have sectors of several sizes', () => {
    const text = sheet('TRACK 01 MODE1/2048', 'INDEX 01 00:00:00', 'TRACK 02 AUDIO', 'INDEX 00 00:00:10', 'INDEX 01 00:00:20');
    assert.deepStrictEqual(tracks(text, 10 * 2048 + 30 * RAW).map(it => [it.at, it.end, it.block]),
        [[0, 10 * 2048, 0], [10 * 2048 + 10 * RAW, 10 * 2048 + 30 * RAW, 20]]);
});

test('what a sheet does not say of audio files is null', () => {
    const text = `FILE "1.bin" BINARY\nTRACK 01 MODE1/2352\nINDEX 01 00:00:00\nFILE "2.wav" WAVE\nTRACK 02 AUDIO\nINDEX 01 00:00:00
FILE "3.bin" BINARY\nTRACK 03 AUDIO\nINDEX 01 00:00:00`;
    assert.deepStrictEqual(tracks(text, 9 * RAW, 5000, 4 * RAW).map(it => [it.at, it.end, it.block]),
        [[0, 9 * RAW, 0], [null, null, 9], [0, 4 * RAW, null]]);
});

test('a sheet that can\'t be used names its line', () => {
    const refused = (/** @type {string} */ text, /** @type {number} */ line, /** @type {string} */ what, facts = {}) =>
        assert.throws(() => tracks(text, 100 * RAW), { code: `cue/${what}`, facts: { ...line > 0 && { line }, ...facts } });
    refused('', 0, 'no-track');
    refused('TRACK 01 AUDIO', 1, 'no-file');
    refused('FILE x', 1, 'file-words');
    refused(sheet('INDEX 01 00:00:00'), 2, 'before-track');
    refused(sheet('TRACK 01 MODE1'), 2, 'track-type', { type: 'MODE1' });
    refused(sheet('TRACK one AUDIO'), 2, 'track-words');
    refused(sheet('TRACK 00 AUDIO'), 2, 'track-order', { track: 0, before: 0 });
    refused(sheet('TRACK 01 AUDIO', 'INDEX 00 00:00:00'), 2, 'no-index', { track: 1 });
    refused(sheet('TRACK 01 AUDIO', 'INDEX 01 00:00:00', 'TRACK 01 AUDIO', 'INDEX 01 00:00:01'), 4, 'track-order', { track: 1, before: 1 });
    refused(sheet('TRACK 01 AUDIO', 'INDEX 01 00:00:75'), 3, 'time', { time: '00:00:75' });
    refused(sheet('TRACK 01 AUDIO', 'INDEX 01 00:60:00'), 3, 'time', { time: '00:60:00' });
    refused(sheet('TRACK 01 AUDIO', 'INDEX 01'), 3, 'index-words');
    refused(sheet('TRACK 01 AUDIO', 'INDEX 01 00:00:09', 'INDEX 02 00:00:08'), 4, 'index-back', { index: '02' });
    refused(sheet('TRACK 01 AUDIO', 'INDEX 01 00:00:00', 'INDEX 00 00:00:08'), 4, 'index-late', { index: '00' });
    refused(sheet('TRACK 01 AUDIO', 'INDEX 01 00:02:00'), 2, 'after-end', { track: 1, name: 'game.bin' });
    refused(`${sheet('TRACK 01 AUDIO', 'INDEX 01 00:00:00')}FILE b BINARY\nINDEX 02 00:00:00`, 2, 'two-files', { track: 1 });
});
