// Lost and untested sectors: what `info`, `scan`, and `merge` report, and when they are findings.

import assert from 'node:assert/strict';
import { test } from 'node:test';
import { recordOf, volumeOf } from '../core/strangers.mjs';
import { damaged, imageOf, inDirectory, read, run, write } from './common.mjs';
import { noise } from './discs.mjs';

const RAW = 2352;
const sheet = (...tracks) => `FILE "disc.bin" BINARY\n${tracks.map(([type, time], i) => ` TRACK 0${i + 1} ${type}\n INDEX 01 ${time}\n`).join('')}`;
const TRACK_AT_400 = '00:05:25';
const TRACK_AT_710 = '00:09:35';

/** A raw image of a volume with files, each with its name, its first block, and its number of blocks. */
async function discOf(room, sectors, files) {
    const user = Buffer.from(volumeOf(sectors, sector => sector !== 18 ? [] :
        files.map(([name, block, count]) => recordOf(name, block, 2048 * count, { flags: 0 }))));
    user.writeUInt32LE(sectors, 16 * 2048 + 80);
    user.writeUInt32BE(sectors, 16 * 2048 + 84);
    noise(2048 * (sectors - 19), 5).copy(user, 2048 * 19);
    write(room, { 'disc.iso': user });
    const { status, errors } = await run(['raw', 'disc.iso', `raw ${sectors}`], { cwd: room });
    assert.equal(status, 0, errors);
    return read(room, `raw ${sectors}`);
}

/** A copy of an image in which sectors from a block on have other bytes: one byte repeated, or these bytes. */
function changed(image, first, count, bytes) {
    const copy = Buffer.from(image);
    if (typeof bytes === 'number') copy.fill(bytes, RAW * first, RAW * (first + count));
    else bytes.copy(copy, RAW * first, 0, RAW * count);
    return copy;
}

/** A copy of an image in which all sectors from a block on have the mode byte of Mode 2. */
function mode2From(image, first) {
    const copy = Buffer.from(image);
    for (let at = RAW * first + 15; at < copy.length; at += RAW) copy[at] = 2;
    return copy;
}

/** The statuses of `info` and, unless the image is a cue sheet, of `scan`; the lines of `info` after the counts; and the findings. */
async function said(room, name) {
    const info = await run(['info', name], { cwd: room });
    const scan = await run(['scan', name], { cwd: room });
    const findings = scan.out.split('\n').filter(Boolean).map(row => row.split('\t')[3]);
    const lines = info.out.split('\n').filter(Boolean);
    return { status: [info.status, scan.status], lines: lines.slice(1 + lines.findIndex(line => /^mode1 \d+ damaged/.test(line))), findings };
}

const COUNTS = 'taken 0 damaged 0 disputed 0 different 0';
const untested = (count, blocks) => `not tested ${count}: blocks ${blocks} are not mode1`;
const WHAT = '; a cue sheet would say whether they are audio';
const MODE2 = 'mode2 without codes that show damage';

test('blocks that the volume uses and that are not Mode 1 are lost, at an edge and in any number', () => inDirectory(async room => {
    const disc = await discOf(room, 1000, [['A.BIN', 20, 480], ['B.BIN', 500, 500]]);
    const cases = [['end', 995, 5, 0, '/B.BIN'], ['end55', 995, 5, 0x55, '/B.BIN'], ['most', 300, 700, 0, '/A.BIN'], ['hole', 200, 600, 0, '/A.BIN'],
        ['noise', 490, 510, noise(RAW * 510, 9), '/A.BIN'], ['start', 0, 5, 0, 'the volume itself']];
    for (const [name, first, count, bytes, file] of cases) {
        write(room, { [`${name}.bin`]: changed(disc, first, count, bytes), [`${name}.2.bin`]: changed(disc, first, count, bytes) });
        const due = name === 'noise' ? [untested(500, '500 to 999') + WHAT, `490-499 not mode1, though ${file} is stored there`]
            : [`${first}-${first + count - 1} not mode1, though ${file} is stored there`];
        assert.deepEqual(await said(room, `${name}.bin`), { status: [1, 1], lines: due, findings: [name === 'noise' ? '10' : String(count)] }, name);
        const { status, out } = await run(['merge', `${name}.bin`, `${name}.2.bin`, `${name}.out`], { cwd: room });
        const last = name === 'noise' ? 499 : first + count - 1;
        assert.deepEqual([status, out], [1, `${first}-${last} lost, without a sound copy\n${COUNTS}\n`], name);
    }
    // Filled by two dumpers in different ways; and a volume that only one dump has.
    assert.deepEqual((await run(['merge', 'end.bin', 'end55.bin', 'both'], { cwd: room })).out, `995-999 lost, without a sound copy\n${COUNTS}\n`);
    write(room, { 'blind.bin': changed(disc, 0, 30, 0), 'blind.2.bin': changed(changed(disc, 0, 16, 0), 995, 5, 0) });
    assert.deepEqual((await said(room, 'blind.bin')).status, [0, 0]);
    write(room, { 'blind.end.bin': changed(changed(disc, 16, 3, noise(RAW * 3, 3)), 995, 5, 0) });
    const { out } = await run(['merge', 'blind.end.bin', 'blind.2.bin', 'seen'], { cwd: room });
    assert.match(out, /^16-18 from blind\.2\.bin\n995-999 lost, without a sound copy\n/);
}));

test('without a volume what one byte other than 00 fills is lost, and no other edge or long run', () => inDirectory(async room => {
    const image = imageOf(room, 1000);
    const cases = [['zeros', 995, 5, 0, false], ['fives', 995, 5, 0x55, true], ['start', 0, 3, 0xFF, true], ['long', 300, 400, 0x55, true],
        ['silence', 300, 400, 0, false], ['shortest', 300, 300, 0, false], ['sound', 300, 400, noise(RAW * 400, 7), false]];
    for (const [name, first, count, bytes, isLost] of cases) {
        write(room, { [name]: changed(image, first, count, bytes) });
        const last = first + count - 1;
        const due = isLost ? `${first}-${last} not mode1, and filled with the same byte, unlike audio` : untested(count, `${first} to ${last}`) + WHAT;
        assert.deepEqual(await said(room, name), { status: isLost ? [1, 1] : [0, 0], lines: [due], findings: [isLost ? String(count) : '0'] }, name);
        const scan = await run(['scan', name], { cwd: room });
        assert.equal(scan.errors, isLost ? '' : `cdscript: ${name}: ${untested(count, `${first} to ${last}`)}${WHAT}\n`);
    }
}));

test('tracks that a cue sheet calls audio or Mode 2, and what is Mode 2 throughout, are not tested and not lost', () => inDirectory(async room => {
    const disc = await discOf(room, 1020, [['ALL.BIN', 20, 1000]]);
    write(room, { 'disc.bin': changed(mode2From(disc, 710), 400, 310, noise(RAW * 310, 7)),
        'disc.cue': sheet(['MODE1/2352', '00:00:00'], ['AUDIO', TRACK_AT_400], ['MODE2/2352', TRACK_AT_710]) });
    const three = await said(room, 'disc.cue');
    assert.deepEqual([three.status, three.lines.at(-1), three.findings], [[1, 1], 'not tested 310: blocks 400 to 709 are audio', ['1']]);
    assert.match(three.lines[0], /^mode2 310: Mode 2 sectors cannot be audited/);
    assert.deepEqual((await said(room, 'disc.bin')).findings, ['620']);
    const alone = await run(['merge', 'disc.cue', 'disc.bin', 'out'], { cwd: room });
    assert.deepEqual([alone.status, alone.out, alone.errors], [0, `${COUNTS}\n`,
        `cdscript: not tested 310: blocks 400 to 709 are audio\ncdscript: not tested 310: blocks 710 to 1019 are ${MODE2}\n`]);
    write(room, { 'disc.bin': mode2From(disc, 0), 'ps.cue': sheet(['MODE1/2352', '00:00:00']) });
    for (const name of ['disc.bin', 'ps.cue']) {
        const { status, lines, findings } = await said(room, name);
        assert.deepEqual([status, lines.length, findings], [[1, 1], 1, ['1']], name);
    }
}));

test('a file that a directory lists and that is a track of audio is not lost', () => inDirectory(async room => {
    const disc = await discOf(room, 1000, [['A.BIN', 20, 380], ['TRACK.CDA', 400, 400], ['B.BIN', 800, 200]]);
    const audio = changed(changed(disc, 400, 400, noise(RAW * 400, 8)), 400, 100, 0);
    write(room, { audio, 'one less': changed(audio, 399, 1, 0), hollow: changed(audio, 400, 300, 0), short: changed(disc, 400, 290, noise(RAW * 290, 8)) });
    assert.deepEqual(await said(room, 'audio'), { status: [0, 0], lines: [untested(400, '400 to 799') + WHAT], findings: ['0'] });
    assert.deepEqual(await said(room, 'one less'), { status: [1, 1], findings: ['1'],
        lines: [untested(400, '400 to 799') + WHAT, '399-399 not mode1, though /A.BIN is stored there'] });
    assert.deepEqual(await said(room, 'hollow'), { status: [1, 1], lines: ['400-799 not mode1, though /TRACK.CDA is stored there'], findings: ['400'] });
    assert.deepEqual(await said(room, 'short'), { status: [1, 1], lines: ['400-689 not mode1 in a track of mode1'], findings: ['290'] });
}));

test('merge names what it did not test and what is not the same in all dumps', () => inDirectory(async room => {
    const image = imageOf(room, 60);
    const mode2 = mode2From(image, 1);
    write(room, { ps: mode2, 'ps.2': changed(damaged(mode2, 0, [30, 500]), 31, 1, 0) });
    const ps = await run(['merge', 'ps.2', 'ps', 'out'], { cwd: room });
    assert.deepEqual([ps.status, ps.out], [1, ['30-30 mode2, not tested, and not the same in all dumps',
        '31-31 audio, not tested, and not the same in all dumps', 'untested 2, not the same in all dumps: mode2 1, audio 1',
        COUNTS, ''].join('\n')]);
    assert.ok(ps.errors.endsWith(`cdscript: not tested 1: block 31 is not mode1${WHAT}\ncdscript: not tested 58: blocks 1 to 30 and 32 to 59 are ${MODE2}\n`), ps.errors);
    const same = await run(['merge', 'ps', 'ps', 'same'], { cwd: room });
    assert.deepEqual([same.status, same.out], [0, `${COUNTS}\n`]);
    write(room, { 'no code': mode2From(image, 0) });
    const none = await run(['merge', 'no code', 'ps', 'none'], { cwd: room });
    assert.deepEqual([none.status, none.out, none.errors], [2, '', 'cdscript: no code has no sector whose codes can show damage, so it cannot be repaired\n']);
    const mixed = Buffer.concat([image, noise(RAW * 100, 6)]);
    const places = Array.from({ length: 23 }, (_, i) => [62 + 4 * i, 9]);
    write(room, { mixed, 'mixed.2': damaged(mixed, 0, ...places) });
    const { status, out } = await run(['merge', 'mixed.2', 'mixed', 'm'], { cwd: room });
    const lines = places.slice(0, 20).map(([block]) => `${block}-${block} audio, not tested, and not the same in all dumps`);
    assert.deepEqual([status, out.split('\n')], [1, [...lines, 'and 3 others', 'untested 23, not the same in all dumps: audio 23', COUNTS, '']]);
}));

test('a finding is a block, and the blocks of an image that begins before block 0 have the addresses that they say', () => inDirectory(async room => {
    const image = imageOf(room, 60);
    const wrong = damaged(image, 0, [10, 13], [20, 500]);
    write(room, { head: wrong, pause: Buffer.concat([Buffer.alloc(RAW * 150), image]), 'pause.2': Buffer.concat([Buffer.alloc(RAW * 150), wrong]) });
    const rows = async (...names) => (await run(['scan', ...names], { cwd: room })).out.split('\n').filter(Boolean).map(row => row.split('\t').slice(0, 5).join(' ')).sort();
    assert.deepEqual(await rows('head', 'pause', 'pause.2'), ['head mode1 60 2 2 1', 'pause mode1 60,nosync 150 0 0 0', 'pause.2 mode1 60,nosync 150 2 2 1']);
    const { status, errors } = await run(['scan', 'pause'], { cwd: room });
    assert.deepEqual([status, errors.split('\n')[0]],
        [0, 'cdscript: the addresses in pause begin before block 0, so its first sector counts as block 0; see --base']);
    const info = await run(['info', 'pause.2'], { cwd: room });
    assert.match(info.out, /\nmode1 60 damaged 2 address 1\n160-160 mode1 damaged: edc p=1 q=1\n170-170 mode1 damaged: edc p=1 q=1\n160-160 mode1 with a wrong address\n/);
    assert.deepEqual([info.status, (await run(['info', 'pause'], { cwd: room })).status], [1, 0]);
}));

test('info and scan agree on an image that is cut within a sector', () => inDirectory(async room => {
    const image = imageOf(room, 30);
    const mode2 = mode2From(image, 0);
    write(room, { tail: Buffer.concat([image, Buffer.alloc(1000)]), ps: mode2.subarray(0, RAW * 29 + 5) });
    for (const [name, tail] of [['tail', 1000], ['ps', 5]]) {
        const info = await run(['info', name], { cwd: room });
        assert.deepEqual([info.status, (await run(['scan', name], { cwd: room })).status], [1, 1]);
        assert.ok(info.out.includes(`\ntail ${tail}: the last sector of ${name} is incomplete\n`));
    }
}));
