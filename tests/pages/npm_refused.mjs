// Input that the npm package must refuse as the program does: `node npm_refused.mjs PROGRAM`, in a directory with the installed package and
// disc.bin.

import assert from 'node:assert/strict';
import { spawn, spawnSync } from 'node:child_process';
import { readFileSync, truncateSync, writeFileSync } from 'node:fs';
import { Fault, ScriptError, load, openFile } from 'cdpatch';

const program = process.argv[2];
const cdpatch = await load();
const sound = Uint8Array.from(readFileSync('disc.bin'));
const script = 'cdpatch 1\nset 1 0 41\nset 2999 0 41\n';

/** The output of the program. */
const printed = (...words) => spawnSync(program, words).stdout.toString();

// A source that returns something other than the requested bytes gives no image.
const image = new Uint8Array(2352 * 3000);
for (let at = 0; at < image.length; at += sound.length) image.set(sound.subarray(0, image.length - at), at);
const jobs = {
    survey: source => cdpatch.survey(source), list: source => cdpatch.list(source), audit: source => cdpatch.audit(source),
    check: source => cdpatch.check(source, script), apply: source => cdpatch.apply(source, 'cdpatch 1\n', () => {}),
};
const others = [
    [async at => image.subarray(at), { name: 'RangeError', message: /^read\(at, length\) must return at most \d+ bytes, not \d+$/ }],
    [async (at, length) => image.slice(at, at + length + 1), { name: 'RangeError' }],
    [async (at, length) => 'a'.repeat(length), { name: 'TypeError', message: 'read(at, length) must return a Uint8Array, not String' }],
    [async (at, length) => Array.from(image.subarray(at, at + length)), { name: 'TypeError' }],
    [async (at, length) => image.slice(at, at + length).buffer, { name: 'TypeError' }],
    [async () => undefined, { name: 'TypeError', message: 'read(at, length) must return a Uint8Array, not undefined' }],
];
for (const [name, job] of Object.entries(jobs)) {
    // The size is one byte less than the image, so that the last read can return too much.
    for (const [read, error] of others) await assert.rejects(job({ size: image.length - 1, read }), error, name);
    await job({ size: image.length, read: async (at, length) => Buffer.from(image.subarray(at, at + length)) });
}
const source = { size: script.length, read: async () => new TextEncoder().encode(`${script}# more`) };
for (const job of [cdpatch.check(image, source), cdpatch.patches(source)]) await assert.rejects(job, { name: 'RangeError' });

// Files that are not regular: a device, a directory, and a pipe to which a process writes an image.
spawnSync('mkfifo', ['pipe']);
const writer = spawn('sh', ['-c', 'exec cat disc.bin > pipe']);
for (const name of ['/dev/zero', '.', 'pipe']) {
    await assert.rejects(openFile(name), error => error instanceof Fault && error.message === `${name} is not a regular file`);
}
writer.kill();
await assert.rejects(openFile('nothing'), { code: 'ENOENT' });

// An image that is too long, and one of the maximum length.
const blank = size => ({ size, read: async (at, length) => new Uint8Array(length) });
writeFileSync('long.bin', '');
truncateSync('long.bin', 2352000001);
const [line] = /[^\n]*\n$/.exec(printed('list', 'long.bin'));
for (const job of ['list', 'audit']) {
    assert.deepEqual(await cdpatch[job]({ size: 2352000001, read: () => assert.fail() }), { status: 2, text: line });
}
assert.equal((await cdpatch.check(blank(2352000001), 'cdpatch 1\n')).text, line);
const { status, text } = await cdpatch.list(blank(2352000000));
assert.deepEqual([status, text], [0, '0-999999 nosync\nsectors 1000000 tail 0\n']);

// A base that no image has.
for (const base of [449850, 500000, -1, 0.5, NaN, '5', null, 5n, 2 ** 32]) {
    const found = typeof base === 'number' ? base : `the ${typeof base} ${base}`;
    const isNamed = { name: 'RangeError', message: `a base must be a whole number from 0 to 449849, not ${found}` };
    for (const job of ['survey', 'list', 'audit']) await assert.rejects(cdpatch[job](sound, { base }), isNamed);
    await assert.rejects(cdpatch.check(sound, script, { base }), isNamed);
    await assert.rejects(cdpatch.apply(sound, script, () => assert.fail(), { base }), isNamed);
}
for (const job of ['list', 'audit']) {
    assert.equal((await cdpatch[job](sound, { base: 449849 })).text, printed(job, '--base', '449849', 'disc.bin'));
}

// Settings of a wrong type or name; those that a call does not use are accepted.
const wrongSettings = [[null, 'settings must be an object, not null'], [150, 'settings must be an object, not 150'],
    [{ bsae: 150 }, 'unknown setting bsae; the settings are base, carry, progress, signal'],
    [{ toString: 1 }, /^unknown setting toString;/], [{ signal: 5 }, 'the setting signal must be an AbortSignal, not Number'],
    [{ carry: 'no' }, 'the setting carry must be true or false, not String'], [{ progress: {} }, 'the setting progress must be a function, not Object']];
for (const [settings, message] of wrongSettings) {
    for (const job of ['survey', 'list', 'audit']) await assert.rejects(cdpatch[job](sound, settings), { name: 'TypeError', message });
    await assert.rejects(cdpatch.check(sound, script, settings), { name: 'TypeError', message });
    await assert.rejects(cdpatch.apply(sound, script, () => assert.fail(), settings), { name: 'TypeError', message });
}
await cdpatch.audit(sound, { base: undefined, carry: true, signal: undefined, progress: undefined });

// A module of something else.
const emptyModule = Uint8Array.of(0, 0x61, 0x73, 0x6D, 1, 0, 0, 0);
await assert.rejects(load(emptyModule), { name: 'TypeError', message: 'the module is not cdpatch.wasm of this package' });

// Scripts with more patches or bytes than the program accepts.
const rebuilds = count => `cdpatch 1\n${'rebuild 1\n'.repeat(count)}`;
const long = [[rebuilds(65536), 'script line 65537: more than 65535 patches'],
    [new Uint8Array(67108865).fill(10), 'cdpatch: the script is longer than 67108864 bytes']];
for (const [given, message] of long) {
    for (const job of [cdpatch.patches(given), cdpatch.check(sound, given)]) {
        await assert.rejects(job, error => error instanceof ScriptError && error.message === message);
    }
}
assert.equal((await cdpatch.patches(rebuilds(65535))).length, 65535);
