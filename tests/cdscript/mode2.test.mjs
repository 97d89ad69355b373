// Mode 2, and the output of --json, which jq reads. The sectors are encoded by tests/lib/mode2_sectors.py, and tested by mode2_checker.py.

import assert from 'node:assert/strict';
import { spawnSync } from 'node:child_process';
import { join } from 'node:path';
import { test } from 'node:test';
import { diceOf } from '../lib/dice.mjs';
import { damaged, imageOf, inDirectory, read, run, runProcess, sameFile, tool, top, write } from './common.mjs';

const RAW = 2352;
const skip = spawnSync('jq', ['--version']).error ? 'no jq' : false;
const python = (name, ...words) => tool('python3', ['-B', join(top, 'tests/lib', name), ...words]);
const made = python('mode2_sectors.py', '48', '3');
const POOL = Array.from({ length: 48 }, (_, i) => made.subarray(RAW * i, RAW * (i + 1)));
/** Numbers of sectors in the pool: of each eight, five are Form 1, two are Form 2, and the last one is Form 2 without EDC. */
const [FORM1, FORM2, WITHOUT_EDC] = [it => it % 8 < 5, it => it % 8 === 5 || it % 8 === 6, it => it % 8 === 7].map(is => POOL.filter((_, i) => is(i)));

const bcd = number => Number(String(number), 10) + 6 * Math.floor(number / 10);

/** A sector with the address of a block. */
function at(block, sector) {
    const moved = Buffer.from(sector);
    const frame = block + 150;
    moved.set([Math.floor(frame / 4500), Math.floor(frame / 75) % 60, frame % 75].map(bcd), 12);
    return moved;
}

const track = (sectors, base = 0) => Buffer.concat(sectors.map((sector, i) => at(base + i, sector)));
const some = (dice, sectors, count) => Array.from({ length: count }, () => sectors[dice(sectors.length)]);
const noise = (dice, size) => Buffer.from(Uint8Array.from({ length: size }, () => dice(256)));

/** Images of every kind, by a name that says what they are. Each has the block with which it begins. */
const KINDS = {
    'form 1': dice => track(some(dice, FORM1, 24)),
    'form 2': dice => track(some(dice, FORM2, 24)),
    'all forms': dice => track(some(dice, POOL, 24)),
    'without EDC': dice => track(some(dice, WITHOUT_EDC, 24)),
    'one sound': dice => track([FORM1[0], ...some(dice, WITHOUT_EDC, 20)]),
    'bits': dice => { const image = track(some(dice, POOL, 24)); for (let i = 0; i < 24; i += 1 + dice(4)) image[RAW * i + 16 + dice(2336)] ^= 1 << dice(8); return image; },
    'headers': dice => { const image = track(some(dice, POOL, 24)); for (let i = 8; i < 24; i += 1 + dice(9)) image[RAW * i + 14] ^= 1; return image; },
    'empty': dice => { const image = track(some(dice, FORM1, 24)); for (let i = 0; i < 24; i += 1 + dice(9)) image.fill(0, RAW * i + 16, RAW * (i + 1)); return image; },
    'formless': dice => track(Array.from({ length: 20 }, () => { const sector = Buffer.from(POOL[0]); sector.set(noise(dice, 2336), 16); return sector; })),
    'filled': dice => { const image = track(some(dice, FORM1, 24)); image.fill(0x55, RAW * 9 + 16, RAW * 10); return image; },
    'mode 1': (_, room) => imageOf(room, 24),
    'mode 1 damaged': (dice, room) => damaged(imageOf(room, 24), 0, [dice(24), 16 + dice(2336)], [7, 13]),
    'both modes': (dice, room) => Buffer.concat([imageOf(room, 12), track(some(dice, POOL, 12), 12)]),
    'tail': dice => Buffer.concat([track(some(dice, FORM1, 20)), noise(dice, 1 + dice(2000))]),
    'audio after it': dice => Buffer.concat([track(some(dice, FORM1, 20)), noise(dice, RAW * 310)]),
    'audio': dice => noise(dice, RAW * 30),
};

/** The counts of `scan --json` that the checker has too. */
function countsOf({ sectors, damaged: count, wrongAddress, tail, crc32 }) {
    const sorted = object => Object.fromEntries(Object.entries(object || {}).sort());
    return { sectors: sorted(sectors), damaged: count || 0, wrongAddress: wrongAddress || 0, tail, crc32 };
}

test('scan --json agrees with an independent checker and with the hashes of other tools on images of every kind', { skip }, () => inDirectory(async room => {
    const files = {};
    for (let i = 0; i < 4 * Object.keys(KINDS).length; i++) {
        const kind = Object.keys(KINDS)[i % Object.keys(KINDS).length];
        files[`${kind} ${i}.bin`] = KINDS[kind](diceOf(i), room);
    }
    write(room, files);
    const { status, out } = runProcess(['scan', '--json', ...Object.keys(files)], { cwd: room });
    assert.equal(status, 1);
    const objects = JSON.parse(tool('jq', ['-s', 'sort_by(.name)'], { input: out }));
    const names = Object.keys(files).sort((a, b) => a < b ? -1 : 1);
    assert.deepEqual(objects.map(it => it.name), names);
    const checked = python('mode2_checker.py', ...names.map(name => `${join(room, name)}@0`)).toString().trim().split('\n').map(line => JSON.parse(line));
    const sums = command => tool(command, ['--', ...names], { cwd: room }).toString().trim().split('\n').map(line => line.split(' ')[0]);
    assert.deepEqual(objects.map(it => it.sha1), sums('sha1sum'));
    assert.deepEqual(objects.map(it => it.md5), sums('md5sum'));
    objects.forEach((object, i) => {
        if (object.sectors === null) return assert.match(object.name, /^audio \d/);
        assert.deepEqual(countsOf(object), countsOf(checked[i]), object.name);
        const untested = checked[i].untestedMode2 + (checked[i].sectors.nosync || 0);
        assert.equal(object.untested, untested, object.name);
        assert.equal(object.damaged === null, !checked[i].verdicts.includes('sound'), object.name);
        assert.equal(object.bytes, files[object.name].length);
    });
    const text = runProcess(['scan', ...names], { cwd: room }).out.trim().split('\n').map(line => line.split('\t')).sort((a, b) => a[0] < b[0] ? -1 : 1);
    assert.deepEqual(text.map(row => [row[0], row[2], row[4], row[5]]),
        objects.map(it => [it.name, `${it.damaged ?? '-'}`, `${it.wrongAddress ?? '-'}`, it.sha1]));
}));

test('info and merge --json say where damage is, and merge repairs it', { skip }, () => inDirectory(async room => {
    const disc = track(some(diceOf(1), POOL, 40));
    const [old, other] = [Buffer.from(disc), Buffer.from(disc)];
    old[RAW * 8 + 500] ^= 1;
    old.fill(0, RAW * 16, RAW * 17);
    old[RAW * 24 + 14] ^= 1;
    const [sound] = FORM1;
    for (const image of [disc, old, other]) for (const i of [8, 16, 24, 32]) if (image !== old) at(i, sound).copy(image, RAW * i);
    at(8, sound).copy(old, RAW * 8);
    old[RAW * 8 + 20] ^= 1;
    at(24, sound).copy(old, RAW * 24);
    old[RAW * 24 + 14] ^= 1;
    at(32, sound).copy(old, RAW * 32);
    [old, other].forEach(image => { image[RAW * 32 + 600] ^= 1; });
    write(room, { 'old.bin': old, 'other.bin': other });
    const jq = (filter, words) => {
        const done = runProcess(words, { cwd: room });
        return [done.status, JSON.parse(tool('jq', ['-c', filter], { input: done.out }))];
    };
    assert.deepEqual(jq('[.damaged, .wrongAddress, .lost, .findings, .dat, .parts[0].damaged, .parts[0].wrongAddress, .parts[0].lost]', ['info', '--json', 'old.bin']),
        [1, [2, 1, 1, 4, null, [[8, 8], [32, 32]], [[24, 24]], [[16, 16]]]]);
    assert.deepEqual(jq('[.name, .taken, .damaged, .alike, .lost, .blocks.taken, .blocks.damaged]', ['merge', '--json', 'old.bin', 'other.bin', 'out']),
        [1, ['out', 3, 1, 1, 0, [[8, 8, 'other.bin'], [16, 16, 'other.bin'], [24, 24, 'other.bin']], [[32, 32]]]]);
    const due = Buffer.from(disc);
    due[RAW * 32 + 600] ^= 1;
    sameFile(read(room, 'out'), due, 'the repaired image');
    const text = await run(['info', 'old.bin'], { cwd: room });
    assert.match(text.out, /\nmode2 39 damaged 2 address 1\n8-8 mode2 damaged: subheader edc parity\n32-32 mode2 damaged: edc parity\n24-24 mode2 with a wrong address\n/);
    assert.ok(text.out.includes('\n16-16 not mode2 in a track of mode2'));
}));

test('the first sound sectors of Mode 2 decide the base, and jobs that read no Mode 2 say so', () => inDirectory(async room => {
    const sectors = FORM1.slice(0, 24).map((sector, i) => at(i, sector));
    write(room, { image: Buffer.concat(sectors.filter((_, i) => i !== 8)), list: '' });
    assert.match((await run(['info', 'image'], { cwd: room })).out, /\nbase 0\n/);
    for (const words of [['find', 'image', 'a'], ['texts', 'image'], ['files', 'image'], ['extract', 'image', '/A', 'out'], ['replace', 'image', 'a', 'b']]) {
        const { errors } = await run(words, { cwd: room });
        assert.equal(errors.split('cdscript: block 16 is Mode 2: texts and files in Mode 2 sectors are not found').length, 2, words.join(' '));
    }
}));

test('--json gives the name in the DAT, and is refused together with --resume', { skip }, () => inDirectory(async room => {
    const image = track(FORM1);
    const [size, sha1] = [image.length, tool('sha1sum', [], { input: image }).toString().slice(0, 40)];
    write(room, { 'mine.bin': image, 'a.zip': 'PK\x03\x04', 'x.dat': `<datafile><rom name="Game (Japan).bin" size="${size}" sha1="${sha1}"/></datafile>` });
    const { out } = runProcess(['scan', '--json', '--dat', 'x.dat', 'mine.bin', 'a.zip'], { cwd: room });
    const objects = JSON.parse(tool('jq', ['-s', 'sort_by(.name) | map({name, kind, dat, damaged, findings, sectors})'], { input: out }));
    assert.deepEqual(objects, [{ name: 'a.zip', kind: 'archive', dat: { verdict: 'unknown', name: null, game: null, others: 0 }, damaged: null, findings: null, sectors: null },
        { name: 'mine.bin', kind: 'image', dat: { verdict: 'verified', name: 'Game (Japan).bin', game: null, others: 0 }, damaged: 0, findings: 0, sectors: { mode2: FORM1.length } }]);
    const odd = 'Game\u202E\u009B.bin';
    write(room, { 'odd.dat': `<datafile><rom name="${odd}" size="${size}" sha1="${sha1}"/></datafile>` });
    const escaped = await run(['scan', '--json', '--dat', 'odd.dat', 'mine.bin'], { cwd: room });
    assert.match(escaped.out, /^[\x20-\x7E]+\n$/);
    assert.equal(JSON.parse(escaped.out).dat.name, odd);
    const both = await run(['scan', '--json', '--resume', 'list', 'mine.bin'], { cwd: room });
    assert.deepEqual([both.status, both.out, both.errors], [2, '', 'cdscript: --json and --resume cannot be used together\n']);
}));

test('rebuilds says that it does not test Mode 2 sectors', () => inDirectory(async room => {
    const [one, two] = [damaged(imageOf(room, 24), 0, [3, 99]), imageOf(room, 24)];
    for (let i = 0; i < 24; i++) two[2352 * i + 15] = 2;
    write(room, { one, two, both: Buffer.concat([one, two.subarray(0, 2352 * 5)]) });
    const said = async name => {
        const { out, errors } = await run(['rebuilds', name, '--base', '0'], { cwd: room });
        return [out, errors.match(/^cdscript: not tested, .*: Mode 2 sectors, (\d+) in all/)?.[1]];
    };
    const script = 'cdpatch 1\nrebuild 3\n';
    assert.deepEqual([await said('one'), await said('both'), await said('two')], [[script, undefined], [script, '5'], ['cdpatch 1\n', '24']]);
}));
