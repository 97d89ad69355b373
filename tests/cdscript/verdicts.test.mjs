// The verdict on an image: one table (tests/lib/verdict_images.py), which `info` and `scan` give, and the page in test_verdicts.py.

import assert from 'node:assert/strict';
import { spawnSync } from 'node:child_process';
import { createHash } from 'node:crypto';
import { join } from 'node:path';
import { test } from 'node:test';
import { inDirectory, read, run, top, write } from './common.mjs';

/** What the line of the verdict has for a kind of finding. Wrong addresses after a gap are not counted again. */
const SAYS = { damaged: /damaged/, lost: /lost/, short: /missing at the end/, cut: /the last sector is incomplete/, gap: /before block \d|in \d+ places/,
    untested: /could not be tested/, missing: /in a missing file/, address: /wrong address|before block|in \d+ places/ };

const IS_WRONG = { damage: 1, doubt: 1, sound: 0, nothing: 0 };

const objects = out => out.split('\n').filter(Boolean).map(line => JSON.parse(line));

/** The findings of the files of a disc, summed up. */
function findings(files) {
    const counts = {};
    for (const [code, count] of files.flatMap(it => Object.entries(it.reasons))) counts[code] = (counts[code] || 0) + count;
    return counts;
}

test('info and scan give the verdict of the table', () => inDirectory(async room => {
    const made = spawnSync('python3', ['-B', join(top, 'tests/lib/verdict_images.py'), room], { maxBuffer: 1 << 24 });
    assert.equal(made.status, 0, `${made.stderr}`);
    const { verdicts, others } = JSON.parse(made.stdout);
    for (const [name, level, due] of verdicts) {
        const text = await run(['info', name], { cwd: room });
        const json = await run(['info', '--json', name], { cwd: room });
        const scan = await run(['scan', '--json', name], { cwd: room });
        const files = objects(json.out);
        assert.deepEqual(findings(files), due, name);
        assert.ok(files.some(it => it.verdict === level), `${name}: ${files.map(it => it.verdict)}`);
        assert.deepEqual([text.status, json.status, scan.status], Array(3).fill(IS_WRONG[level]), name);
        assert.deepEqual(objects(scan.out).map(it => it.verdict), files.filter(it => it.kind !== 'missing').map(it => it.verdict), name);
        for (const code of Object.keys(due)) assert.match(text.out.split('\n').filter(line => line.startsWith('verdict')).join(), SAYS[code], name);
    }
    assert.match((await run(['info', 'twice-start.bin'], { cwd: room })).out, /^verdict: 3 extra sectors are before block 3$/m);
    assert.match((await run(['info', 'late-start.bin'], { cwd: room })).out, /^verdict: 3 sectors are missing before block 3$/m);
    assert.match((await run(['info', 'early-hole.bin'], { cwd: room })).out, /^verdict: 5 sectors are missing before block 8$/m);
    assert.match((await run(['info', 'swapped.bin'], { cwd: room })).out, /^verdict: .* in 2 places: before blocks 19 and 139$/m);
    const withBase = async name => run(['info', '--base', '100', name], { cwd: room });
    assert.doesNotMatch((await withBase('sound.bin')).out, SAYS.gap, 'a wrong base is not a gap');
    assert.match((await withBase('hole.bin')).out, SAYS.gap, 'a gap is found with a wrong base');
    for (const name of others) assert.equal((await run(['info', name], { cwd: room })).status, 1, name);
}));

test('merge gives the verdict of info on an image that begins too late or ends too early', () => inDirectory(async room => {
    spawnSync('python3', ['-B', join(top, 'tests/lib/verdict_images.py'), room]);
    const SHORT = '40 blocks of the volume are missing at the end';
    for (const [name, due, reasons, tail] of [['short.bin', SHORT, { short: 40 }, 0], ['short.cue', SHORT, { short: 40 }, 0],
        ['cut.bin', '1 block of the volume is missing at the end; the last sector is incomplete', { short: 1, cut: 1 }, 1352],
        ['late-start.bin', '3 sectors are missing before block 3', { gap: 1 }, 0], ['sound.bin', '', {}, 0]]) {
        for (const words of [[name, '--parity'], [name, 'sound.bin']]) {
            const { status, out, errors } = await run(['merge', ...words, `${words.join()}.out`, '--json'], { cwd: room });
            const said = errors.split('\n').filter(line => line.startsWith(`cdscript: ${words.join()}.out: `));
            assert.deepEqual([status, said], [due === '' ? 0 : 1, due === '' ? [] : [`cdscript: ${words.join()}.out: ${due}`]], words.join());
            const object = JSON.parse(out);
            assert.deepEqual([object.reasons, object.short, object.tail], [reasons, reasons.short || 0, tail], words.join());
        }
    }
}));

test('info of one track has the verdict on its file, whichever track that is', () => inDirectory(async room => {
    spawnSync('python3', ['-B', join(top, 'tests/lib/verdict_images.py'), room]);
    const tracks = [['MODE1/2352', '00:00:00'], ['MODE1/2352', '00:04:30']].map(([type, at], i) =>
        ` TRACK 0${i + 1} ${type}\n${i > 0 ? '  PREGAP 00:02:00\n' : ''}  INDEX 01 ${at}\n`);
    write(room, { 'both.cue': `FILE "both.bin" BINARY\n${tracks.join('')}`,
        'both.bin': Buffer.concat(['sound.bin', 'track2.bin'].map(name => read(room, name))) });
    const verdictOf = async (...words) => {
        const { status, out } = await run(['info', ...words], { cwd: room });
        return [status, ...out.split('\n').filter(line => line.startsWith('verdict'))];
    };
    for (const [name, numbers, due] of [['gaps.cue', [1, 3], 1], ['both.cue', [1, 2], 0]]) {
        const whole = await verdictOf(name);
        assert.equal(whole[0], due, name);
        for (const track of numbers) assert.deepEqual(await verdictOf(name, '--track', String(track)), whole, `${name} ${track}`);
    }
    // A base that is given is that of the whole file.
    assert.match((await verdictOf('gaps.cue', '--base', '0')).join(), SAYS.gap);
}));

test('info of a file that a DAT verifies has status 0 if nothing is wrong with it, whatever it is', () => inDirectory(async room => {
    spawnSync('python3', ['-B', join(top, 'tests/lib/verdict_images.py'), room]);
    const rom = bytes => `<rom name="a" size="${bytes.length}" sha1="${createHash('sha1').update(bytes).digest('hex')}"/>`;
    for (const [name, due] of [['disc.iso', 0], ['audio.bin', 0], ['subchannels.bin', 0], ['unproven.bin', 0], ['data.bin', 1]]) {
        write(room, { dat: `<datafile><game name="a">${rom(read(room, name))}</game></datafile>` });
        assert.equal((await run(['info', name, '--dat', 'dat'], { cwd: room })).status, due, name);
        assert.equal((await run(['info', name, '--dat', 'dat', '--json'], { cwd: room })).status, due, name);
    }
}));
