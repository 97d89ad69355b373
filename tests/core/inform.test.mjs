// The survey of a disc: the tracks that are surveyed, their lost sectors, and the part of its volume that a cut image lacks.

import assert from 'node:assert/strict';
import { test } from 'node:test';
import { calls, core, encoded, readerOf } from './common.mjs';
import { recordOf, volumeOf } from './strangers.mjs';

const { foundInFile, foundInSurvey, openTrack, shiftAt, surveyedTracks, surveyedWith, verdictOf } = await core('tasks/index.js');
const { openDisc } = await core('disc/disc.js');
const { surveyRange } = await core('sectors/survey.js');

const [RAW, USER, SECTORS, BIG] = [2352, 2048, 700, 100];
const BASE = 150;

/** A track from a block on, whose file /BIG fills all sectors from the 100th on, and whose volume states its own number of sectors. */
function image(first = 0) {
    const user = volumeOf(SECTORS, sector => sector === 18 ? [recordOf('BIG', first + BIG, USER * (SECTORS - BIG), { flags: 0 })] : []);
    const view = new DataView(user.buffer);
    for (const [at, number] of [[16 * USER + 80, SECTORS], [16 * USER + 158, first + 18], [18 * USER + 2, first + 18]]) {
        view.setUint32(at, number, true);
        view.setUint32(at + 4, number);
    }
    return calls.encodeBlocks(first, user);
}

const sheetOf = (...tracks) => encoded(tracks.map(([file, ...points], i) => `FILE "${file}" BINARY\n${points.map(([type, at], k) =>
    ` TRACK 0${i + k + 1} ${type}\n  INDEX 01 ${at}\n`).join('')}`).join(''));

const open = files => openDisc(calls, Object.entries(files).map(([name, bytes]) => ({ name, reader: readerOf(bytes) })));

/** The findings in the only surveyed track of a disc. */
async function found(files) {
    const disc = await open(files);
    const [track, ...others] = surveyedTracks(disc);
    assert.ok(others.every(({ isAudio }) => isAudio));
    const { reader, base, tail } = track.image;
    const made = await foundInSurvey(track, surveyRange(calls, await reader.read(0, RAW * track.image.sectors), base));
    return { ...made, findings: verdictOf({ surveys: [made], tail }).total };
}

test('a cut image lacks the rest of its volume, which is a finding if a file or the cue sheet says so', async () => {
    const bytes = image();
    const cut = sectors => bytes.subarray(0, RAW * sectors);
    const lackOf = async files => { const { lack, findings } = await found(files); return [lack, findings]; };
    const missing = first => ({ missing: { first, last: SECTORS - 1 }, blocks: SECTORS });
    assert.deepEqual(await lackOf({ 'game.bin': bytes }), [null, 0]);
    assert.deepEqual(await lackOf({ 'game.bin': cut(400) }), [{ ...missing(400), file: '/BIG', isSure: true }, 1]);
    assert.deepEqual(await lackOf({ 'game.bin': cut(400.5) }), [{ ...missing(400), file: '/BIG', isSure: true }, 2]);
    assert.deepEqual(await lackOf({ 'game.bin': cut(BIG) }), [{ ...missing(BIG), file: '', isSure: false }, 0]);
    const one = sheetOf(['game.bin', ['MODE1/2352', '00:00:00']]);
    assert.deepEqual(await lackOf({ 'one.cue': one, 'game.bin': cut(BIG) }), [{ ...missing(BIG), file: '', isSure: true }, 1]);
    const two = sheetOf(['game.bin', ['MODE1/2352', '00:00:00']], ['audio.bin', ['AUDIO', '00:00:00']]);
    const audio = new Uint8Array(RAW * 300);
    assert.deepEqual(await lackOf({ 'two.cue': two, 'game.bin': cut(BIG), 'audio.bin': audio }),
        [{ ...missing(BIG), file: '', isSure: false }, 0]);
    // The volume of a later session counts its blocks from the start of the disc, but states only how many there are.
    for (const [sectors, file, isSure] of [[400, '/BIG', true], [BIG, '', false]]) {
        assert.deepEqual(await lackOf({ 'game.bin': image(5000).subarray(0, RAW * sectors) }),
            [{ missing: { first: 5000 + sectors, last: 5000 + SECTORS - 1 }, blocks: SECTORS, file, isSure }, Number(isSure)]);
    }
});

test('a long hole is lost by the cue sheet or by a file, and each block of it is a finding', async () => {
    const bytes = image();
    bytes.fill(0, RAW * 200, RAW * 600);
    const one = sheetOf(['game.bin', ['MODE1/2352', '00:00:00']]);
    for (const [files, why] of [[{ 'one.cue': one, 'game.bin': bytes }, 'track'], [{ 'game.bin': bytes }, 'volume']]) {
        const { lost, findings, mode1 } = await found(files);
        assert.deepEqual([lost, findings, mode1], [[{ first: 200, last: 599, why }], 400, 300]);
    }
});

test('damage and another address in one sector are one finding', async () => {
    const bytes = image();
    bytes[RAW * 300 + 14] ^= 1;
    bytes[RAW * 300 + 500] ^= 1;
    const { damaged, elsewhere, findings } = await found({ 'game.bin': bytes });
    assert.deepEqual([damaged, elsewhere, findings], [1, 1, 1]);
});

test('tracks of one file are surveyed together, and each by itself if their addresses count from different blocks', async () => {
    const sector = (block, count) => calls.encodeBlocks(block, new Uint8Array(USER * count));
    const sheet = encoded('FILE "game.bin" BINARY\n TRACK 01 MODE1/2352\n  INDEX 01 00:00:00\n TRACK 02 MODE1/2352\n  INDEX 01 00:04:00\n');
    const seen = async (...parts) => surveyedTracks(await open({ 'game.cue': sheet, 'game.bin': Buffer.concat(parts) }))
        .map(({ number, before, image: { base, sectors }, sheetTracks }) => ({ number, before, base, sectors, sheetTracks }));
    const [first, second] = [{ first: 0, last: 299 }, { first: 300, last: 349 }];
    assert.deepEqual(await seen(sector(0, 300), sector(300, 50)),
        [{ number: 1, before: 0, base: 0, sectors: 350, sheetTracks: { mode1: [first, second], mode2: [], audio: [] } }]);
    const own = { first: 300 + BASE, last: 349 + BASE };
    assert.deepEqual(await seen(sector(0, 300), sector(300 + BASE, 50)),
        [{ number: 1, before: 0, base: 0, sectors: 300, sheetTracks: { mode1: [first, second], mode2: [], audio: [] } },
            { number: 2, before: 300, base: 300 + BASE, sectors: 50, sheetTracks: { mode1: [{ first: BASE, last: 299 + BASE }, own], mode2: [], audio: [] } }]);
});

test('the tracks of the cue sheet are where another base puts them', async () => {
    const one = sheetOf(['game.bin', ['MODE1/2352', '00:00:00']]);
    const disc = await open({ 'one.cue': one, 'game.bin': image() });
    const [{ sheetTracks, isAlone }, ...others] = surveyedWith(openTrack(disc, { base: BASE }));
    assert.deepEqual(others, []);
    assert.deepEqual([sheetTracks, isAlone], [{ mode1: [{ first: BASE, last: BASE + SECTORS - 1 }], mode2: [], audio: [] }, true]);
});

/** A disc of two data tracks in one file: 300 sectors from block 0 on, and 200 whose addresses are BASE blocks later than their places. */
async function twoTracks(change) {
    const [first, second] = [[0, 300], [300 + BASE, 200]].map(([block, count]) => calls.encodeBlocks(block, new Uint8Array(USER * count).fill(7)));
    const bytes = Buffer.concat([first, second]);
    change(at => bytes.subarray(RAW * at, RAW * (at + 1)));
    const sheet = 'FILE "game.bin" BINARY\n TRACK 01 MODE1/2352\n  INDEX 01 00:00:00\n TRACK 02 MODE1/2352\n  PREGAP 00:02:00\n  INDEX 01 00:04:00\n';
    return { bytes, disc: await open({ 'game.cue': encoded(sheet), 'game.bin': bytes }) };
}

/** The findings in the tracks of a file that are surveyed with a track, by the blocks of the file as this track counts them. */
async function foundWith({ bytes, disc }, options) {
    const opened = openTrack(disc, options);
    const { base } = opened.image;
    const tracks = surveyedWith(opened);
    const parts = tracks.map(({ before, image: { sectors } }) => surveyRange(calls, bytes.subarray(RAW * before, RAW * (before + sectors)), base + before,
        { shift: shiftAt(tracks, base, base + before), mode2: true }));
    const all = { block: base, ...Object.fromEntries(['filled', 'moved'].map(name => [name, parts.flatMap(it => it[name])])),
        ...Object.fromEntries(['records', 'mode2'].map(name => [name, Buffer.concat(parts.map(it => it[name]))])) };
    return foundInFile(tracks, all);
}

test('each track of one file is judged by the addresses of its own, whichever is opened', async () => {
    const kinds = surveys => verdictOf({ surveys, tail: 0 }).findings.map(({ code, count, gaps }) => [code, count, gaps]);
    const sound = await twoTracks(() => {});
    const hurt = await twoTracks(sector => {
        sector(320).fill(0x55);
        sector(340).set(calls.encode(calls.address(7), new Uint8Array(USER)));
        sector(400).set(calls.encodeBlocks(400 + BASE + 10, new Uint8Array(USER)));
        for (let i = 401; i < 500; i++) sector(i).set(calls.encodeBlocks(i + BASE + 10, new Uint8Array(USER)));
    });
    for (const track of [1, 2]) {
        const base = track === 1 ? 0 : BASE;
        assert.deepEqual(kinds(await foundWith(sound, { track })), []);
        const surveys = await foundWith(hurt, { track });
        const gaps = [{ first: 400 + base, last: 499 + base, by: 10, isAtStart: false }];
        assert.deepEqual(kinds(surveys), [['lost', 1, gaps], ['gap', 1, gaps], ['address', 101, gaps]]);
        assert.deepEqual(surveys.map(({ lost, survey: { block } }) => [block, lost.map(({ first, last }) => [first, last])]),
            [[base, []], [300 + base, [[320 + base, 320 + base]]]]);
    }
    const [found, ...others] = await foundWith(sound, { base: 0 });
    assert.deepEqual([others, found.elsewhere], [[], 200], 'a base that was set by hand is that of the whole file');
});
