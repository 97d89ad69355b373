// Opened discs: images, cue sheets, tracks, and the blocks at which they begin.

import assert from 'node:assert/strict';
import { test } from 'node:test';
import { calls, core, diceOf, encoded, readerOf, sameBytes } from './common.mjs';
import { CHANGES, RAW, changedImage, sectorAt, soundImage } from './pairs.mjs';

const { dataTrack, openChosen, openDisc } = await core('disc/disc.js');

const file = (name, bytes) => ({ name, reader: readerOf(bytes) });
const opened = (...files) => openDisc(calls, files);
const sheet = (...lines) => file('game.cue', encoded(`${lines.join('\r\n')}\r\n`));
const audio = (count, seed = 1) => { const dice = diceOf(seed); return Uint8Array.from({ length: RAW * count }, () => dice(256)); };
const shown = ({ image, part, at: _, pregap: __, fileName: ___, ...track }) => ({ ...track, image: image && [image.base, image.addressed, image.sectors, image.tail, image.reader.size],
    part: part && [part.base, part.addressed, part.sectors, part.tail, part.reader.size] });

test('one raw image is a disc of one track, whose base its addresses give', async () => {
    const image = soundImage(diceOf(1), 900, 5150, 100);
    const disc = await opened(file('a.bin', image));
    assert.deepEqual([disc.sheet, disc.files.length, disc.tracks.length], [null, 1, 1]);
    const sizes = [5150, 5150, 900, 100, image.length];
    assert.deepEqual(shown(disc.tracks[0]), { number: 1, type: '', file: 0, block: 5150, sectors: 900, image: sizes, part: sizes });
    assert.equal(dataTrack(disc).part.base, 5150);
    assert.equal(dataTrack(disc, 1).number, 1);
    const hurt = changedImage(diceOf(2), image, ['damaged', 'sync', 'audio', 'address'], 3);
    assert.equal(dataTrack(await opened(file('a.bin', hurt))).image.base, 5150);
});

test('an image without a base by its addresses, or with one before block 0', async () => {
    const image = soundImage(diceOf(3), 200, 300);
    const lost = changedImage(diceOf(4), image, ['address'], 1);
    const { image: without } = dataTrack(await opened(file('a.bin', lost)));
    assert.deepEqual([without.base, without.addressed], [0, null]);
    const before = Uint8Array.from(Buffer.concat([new Uint8Array(RAW * 10), soundImage(diceOf(5), 200, 0)]));
    const { image: early } = dataTrack(await opened(file('a.bin', before)));
    assert.deepEqual([early.base, early.addressed], [0, -10]);
});

test('each file is recognised once, and a cue sheet is read once', async () => {
    const bin = file('game.bin', soundImage(diceOf(40), 20, 0));
    const cue = sheet('FILE "game.bin" BINARY', ' TRACK 01 MODE1/2352', '  INDEX 01 00:00:00', `REM ${'longer than a beginning '.repeat(5)}`);
    const { kinds, disc } = await openChosen(calls, [cue], async ({ name }, [{ files }]) => {
        assert.deepEqual([name, files.map(it => it.name)], ['game.cue', ['game.bin']]);
        return [bin];
    });
    assert.deepEqual([kinds, disc.sheetText.split('\r\n')[0], dataTrack(disc).number], [['cue'], 'FILE "game.bin" BINARY', 1]);
    const begins = ({ reader: { reads } }) => reads.filter(({ at, length }) => at === 0 && length === 96).length;
    assert.deepEqual([begins(cue), begins(bin), cue.reader.reads.filter(({ length }) => length === cue.reader.size).length], [1, 1, 1]);
    const other = await openChosen(calls, [file('a.7z', encoded('7z\xBC\xAF\x27\x1C'))]);
    assert.deepEqual([other.kinds.length, other.disc], [1, null]);
});

test('a file of several tracks is one image, and each data track a part of it', async () => {
    const [first, music, last] = [soundImage(diceOf(6), 100, 0), audio(50), soundImage(diceOf(7), 80, 300)];
    const whole = Uint8Array.from(Buffer.concat([first, music, last]));
    const cue = sheet('FILE "GAME.BIN" BINARY', ' TRACK 01 MODE1/2352', '  INDEX 01 00:00:00', ' TRACK 02 AUDIO', '  PREGAP 00:02:00',
        '  INDEX 01 00:01:25', ' TRACK 03 MODE1/2352', '  INDEX 01 00:02:00');
    const disc = await opened(cue, file('dir/game.bin', whole));
    assert.equal(disc.sheet, 'game.cue');
    assert.deepEqual(disc.tracks.map(shown), [
        { number: 1, type: 'MODE1/2352', file: 0, block: 0, sectors: 100, image: [0, 0, 230, 0, whole.length], part: [0, 0, 100, 0, 100 * RAW] },
        { number: 2, type: 'AUDIO', file: 0, block: 250, sectors: 50, image: null, part: null },
        { number: 3, type: 'MODE1/2352', file: 0, block: 300, sectors: 80, image: [150, 150, 230, 0, whole.length], part: [300, 300, 80, 0, 80 * RAW] },
    ]);
    sameBytes(await dataTrack(disc, 3).part.reader.read(0, RAW), last.subarray(0, RAW), 'its first sector');
    assert.equal(dataTrack(disc).number, 1);
    assert.throws(() => dataTrack(disc, 2), { code: 'disc/other-track', facts: { track: 2 } });
    assert.throws(() => dataTrack(disc, 4), { code: 'disc/no-track', facts: { sheet: 'game.cue', track: 4, tracks: [1, 2, 3] } });
});

test('a file for each track, of which those of audio need not be open', async () => {
    const [music, data] = [audio(40), soundImage(diceOf(8), 90, 190)];
    const cue = sheet('FILE "disc (Track 1).bin" BINARY', ' TRACK 01 AUDIO', '  INDEX 01 00:00:00', 'FILE "disc (Track 2).bin" BINARY',
        ' TRACK 02 MODE1/2352', '  PREGAP 00:02:00', '  INDEX 01 00:00:00');
    const both = await opened(file('disc (Track 2).bin', data), file('disc (Track 1).bin', music), cue);
    const one = await opened(file('disc (Track 2).bin', data), cue);
    const track = { number: 2, type: 'MODE1/2352', block: 190, sectors: 90, image: [190, 190, 90, 0, data.length], part: [190, 190, 90, 0, data.length] };
    assert.deepEqual(both.tracks.map(shown), [
        { number: 1, type: 'AUDIO', file: 0, block: 0, sectors: 40, image: null, part: null }, { ...track, file: 1 }]);
    assert.deepEqual(one.tracks.map(shown), [
        { number: 1, type: 'AUDIO', file: -1, block: 0, sectors: null, image: null, part: null }, { ...track, file: 0 }]);
    assert.equal(dataTrack(both).number, 2);
    const missing = file => ({ code: 'disc/missing-files', facts: { sheet: 'game.cue', file, names: [file] } });
    await assert.rejects(opened(cue, file('disc (Track 1).bin', music)), missing('disc (Track 2).bin'));
    await assert.rejects(opened(sheet('FILE game.cue BINARY', 'TRACK 1 MODE1/2352', 'INDEX 1 0:0:0')), missing('game.cue'));
});

test('a sheet in Windows-1252 names files, and one in CP932 too; a file that it names often is one file', async () => {
    const image = soundImage(diceOf(30), 20, 0);
    const bytes = (...parts) => ({ name: 'game.cue', reader: readerOf(Uint8Array.from(Buffer.concat(parts.map(it => Buffer.from(it, 'latin1'))))) });
    const tracks = '" BINARY\n TRACK 01 MODE1/2352\n  INDEX 01 00:00:00\n';
    for (const [name, written] of [['Caf\u00E9.bin', 'Caf\xE9.bin'], ['Pok\u00E9mon \u2013 2.bin', 'Pok\xE9mon \x96 2.bin'], ['\u9B54.bin', '\x96\x82.bin']]) {
        const disc = await opened(bytes('FILE "', written, tracks), file(`dir/${name}`, image));
        assert.deepEqual([disc.files.map(it => it.name), disc.tracks.length], [[`dir/${name}`], 1]);
    }
    const often = await opened(bytes('FILE "a.bin" BINARY\n'.repeat(150), 'FILE "a.bin', tracks), file('a.bin', image));
    assert.deepEqual([often.files.length, often.tracks[0].file], [1, 0]);
    await assert.rejects(opened(bytes('FILE a B\n'.repeat(13000), 'FILE "a.bin', tracks), file('a.bin', image)),
        { code: 'cue/too-many-files', facts: { line: 199, most: 198 } });
});

test('a sheet tells files of one name in different directories apart', async () => {
    const [one, two] = [soundImage(diceOf(31), 20, 0), soundImage(diceOf(32), 30, 20)];
    const cue = sheet('FILE "a/t.bin" BINARY', 'TRACK 1 MODE1/2352', 'INDEX 1 0:0:0', 'FILE "b\\T.BIN" BINARY', 'TRACK 2 MODE1/2352', 'INDEX 1 0:0:0');
    const disc = await opened(cue, file('set/b/t.bin', two), file('set/a/t.bin', one));
    assert.deepEqual(disc.tracks.map(it => [it.sectors, disc.files[it.file].name]), [[20, 'set/a/t.bin'], [30, 'set/b/t.bin']]);
    const again = await opened(cue, file('b/t.bin', soundImage(diceOf(33), 30, 0)), file('a/t.bin', one));
    assert.deepEqual(again.tracks.map(it => it.image.base), [0, 0], 'addresses that begin at block 0 again decide');
});

test('a track after a gap in its file begins at its INDEX 01', async () => {
    const whole = Uint8Array.from(Buffer.concat([audio(30), soundImage(diceOf(9), 70, 30 + 20)]));
    const cue = sheet('FILE a.bin BINARY', 'TRACK 1 AUDIO', 'INDEX 1 0:0:0', 'TRACK 2 MODE1/2352', 'INDEX 0 0:0:30', 'INDEX 1 0:0:50');
    const { part, image, block } = dataTrack(await opened(cue, file('a.bin', whole)));
    assert.deepEqual([block, part.base, part.sectors, image.base], [70, 70, 50, 20]);
    const lost = whole.slice();
    for (let i = 30; i < 100; i++) lost.set(CHANGES.address(sectorAt(lost, i), diceOf(i)), RAW * i);
    const without = dataTrack(await opened(cue, file('a.bin', lost)));
    assert.deepEqual([without.block, without.part.base, without.part.addressed, without.image.base, without.image.addressed], [50, 50, null, 0, null]);
});

test('an image with the pause before block 0: its blocks count from its first sector, in the whole and in the part', async () => {
    const whole = Uint8Array.from(Buffer.concat([new Uint8Array(150 * RAW), soundImage(diceOf(12), 60, 0)]));
    const cue = sheet('FILE a.bin BINARY', 'TRACK 1 MODE1/2352', 'INDEX 0 0:0:0', 'INDEX 1 0:2:0');
    const { part, image, block } = dataTrack(await opened(cue, file('a.bin', whole)));
    assert.deepEqual([image.base, image.addressed, part.base, part.addressed, block], [0, -150, 150, 0, 150]);
});

test('what is no raw image is named, with what to do', async () => {
    const iso = new Uint8Array(20 * 2048);
    iso.set(encoded('\x01CD001'), 16 * 2048);
    const other = (name, kind) => ({ code: 'disc/other-file', facts: { name, kind } });
    await assert.rejects(opened(file('game.iso', iso)), other('game.iso', 'iso'));
    await assert.rejects(opened(file('a.zip', encoded('PK\x03\x04 and so on'))), other('a.zip', 'archive'));
    await assert.rejects(opened(file('a.bin', new Uint8Array(0))), other('a.bin', 'empty'));
    const cue = sheet('FILE game.iso BINARY', 'TRACK 01 MODE1/2352', 'INDEX 01 00:00:00');
    await assert.rejects(opened(cue, file('game.iso', iso)), other('game.iso', 'iso'));
    for (const disc of [await opened(file('music.bin', audio(5))), await opened(sheet('FILE a.iso BINARY', 'TRACK 1 MODE1/2048', 'INDEX 1 0:0:0'), file('a.iso', iso))]) {
        assert.throws(() => dataTrack(disc), { code: 'disc/no-data' });
    }
});

test('tracks of several sizes of sectors in one file, and files that do not belong together', async () => {
    const whole = soundImage(diceOf(10), 40, 0);
    const cue = sheet('FILE a.bin BINARY', 'TRACK 1 MODE1/2352', 'INDEX 1 0:0:0', 'TRACK 2 MODE1/2048', 'INDEX 1 0:0:20');
    const sizes = { code: 'disc/sector-size', facts: { track: 2, name: 'a.bin', size: 2048 } };
    await assert.rejects(opened(cue, file('a.bin', whole)), sizes);
    await assert.rejects(opened(file('a.bin', whole), file('b.bin', whole)), { code: 'disc/no-image' });
    const patch = file('a.ppf', encoded('PPF30\x02'));
    await assert.rejects(opened(file('a.bin', whole), patch), { code: 'disc/other-file', facts: { name: 'a.ppf', kind: 'patch' } });
    await assert.rejects(opened(file('a.bin', whole), file('read.me', encoded('a line\n'.repeat(20)))), { code: 'disc/no-image' });
    await assert.rejects(opened(), { code: 'disc/no-image' });
    await assert.rejects(opened(cue, { ...cue, name: 'b.cue' }), { code: 'disc/two-sheets', facts: { one: 'game.cue', other: 'b.cue' } });
});

test('a read that fails, whichever it is', async () => {
    const whole = soundImage(diceOf(11), 300, 0);
    const cue = sheet('FILE a.bin BINARY', 'TRACK 1 MODE1/2352', 'INDEX 1 0:0:0');
    const counted = file('a.bin', whole);
    await opened(cue, counted);
    for (let fault = 0; fault < counted.reader.reads.length; fault++) {
        const reader = readerOf(whole);
        const failing = { size: whole.length, read: async (at, length) => {
            if (reader.reads.length === fault) throw new Error(`no read ${fault}`);
            return reader.read(at, length);
        } };
        await assert.rejects(opened(cue, { name: 'a.bin', reader: failing }), { message: `no read ${fault}` });
    }
});
