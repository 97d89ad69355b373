// Compares the npm package with the program: `node npm.mjs PROGRAM`, in a directory with the installed package and disc.bin.

import assert from 'node:assert/strict';
import { spawnSync } from 'node:child_process';
import { readFileSync, writeFileSync } from 'node:fs';
import { open } from 'node:fs/promises';
import { Fault, RESULT, ScriptError, load, openFile, patchedStream } from 'cdpatch';

const program = process.argv[2];
const sound = Uint8Array.from(readFileSync('disc.bin'));
const damaged = sound.slice();
damaged[2352 * 3 + 2070] ^= 1;
damaged[2352 * 5 + 12] ^= 1;
writeFileSync('damaged.bin', damaged);

/** Runs the program, and returns its output and its status. */
function programs(job, ...more) {
    const { status, stdout } = spawnSync(program, [job, ...more]);
    return { status, text: stdout.toString() };
}

/** A source of bytes with many short reads. */
const short = bytes => ({ size: bytes.length, read: async (at, length) => bytes.slice(at, at + Math.min(length, 1 + at % 5000)) });

const cdpatch = await load();
assert.equal(`cdpatch ${cdpatch.version}`, programs('--help').text.trimEnd().split('\n').pop());
for (const [name, bytes] of [['disc.bin', sound], ['damaged.bin', damaged]]) {
    const file = await openFile(name);
    for (const image of [bytes, bytes.buffer, new Blob([bytes]), short(bytes), file]) {
        assert.deepEqual(await cdpatch.list(image), programs('list', name));
        assert.deepEqual(await cdpatch.audit(image, { base: 150 }), programs('audit', '--base', '150', name));
    }
    await file.close();
}
const odd = new Uint8Array(2352 * 9 + 7);
odd.set(sound);
[0, 1, 3, 4, 5].forEach((mode, i) => { odd[2352 * (i + 1) + 15] = mode; });
writeFileSync('odd.bin', odd);
assert.deepEqual(await cdpatch.list(short(odd), { base: 5 }), programs('list', '--base', '5', 'odd.bin'));
const sectors = await cdpatch.survey(damaged, { base: 7 });
assert.equal(sectors.length, 8);
assert.deepEqual(sectors[3], { block: 10, kind: 'mode1', address: true, zeros: true, edc: false, p: 1, q: 1 });
assert.notEqual(sectors[5].p, 0);

const script = 'cdpatch 1\nfill 7 2000 40 AA\nset 3 5 0102\nset 1 5 0102 was 0505\n# end\nset 0 2047 FFFF\n';
writeFileSync('script2', script);
const bytes = new TextEncoder().encode(script);
assert.deepEqual((await cdpatch.patches(bytes)).map(({ line, block, old }) => [line, block, old]),
    [[6, 0, null], [4, 1, 2], [3, 3, null], [2, 7, null]]);
for (const carry of [false, true]) {
    const wanted = programs('apply', ...carry ? ['--carry'] : [], 'damaged.bin', 'script2', `out-${carry}`);
    const made = [];
    const two = [cdpatch.apply(short(damaged), bytes, piece => void made.push(piece.slice()), { carry }), cdpatch.check(damaged, bytes, { carry })];
    for (const { outcomes, ...report } of await Promise.all(two)) {
        assert.deepEqual(report, wanted);
        assert.deepEqual(outcomes.map(({ number }) => number), [6, 4, 3, 2]);
    }
    assert.deepEqual(Buffer.concat(made), readFileSync(`out-${carry}`));
    const { stream, report } = patchedStream(cdpatch, new Blob([damaged]), bytes, { carry });
    assert.deepEqual(new Uint8Array(await new Response(stream).arrayBuffer()), new Uint8Array(readFileSync(`out-${carry}`)));
    assert.equal((await report).status, 1);
}

writeFileSync('faulty', 'cdpatch 1\nset 0 0 XY\n');
const faulty = readFileSync('faulty');
const refused = error => error instanceof ScriptError && `${error.message}\n` === programs('check', 'disc.bin', 'faulty').text;
await assert.rejects(cdpatch.check(sound, faulty), refused);
await assert.rejects(cdpatch.patches(faulty), refused);
await assert.rejects(cdpatch.apply(sound, faulty, () => assert.fail()), refused);
await assert.rejects(patchedStream(cdpatch, sound, faulty).report, refused);

// Arguments of wrong types, and a script in all its types.
const handle = await open('disc.bin');
const read = async () => new Uint8Array(0);
const others = [handle, new DataView(sound.buffer), new Uint16Array(sound.buffer), null, undefined, 7, { size: 7 }, { size: '7', read },
    { size: NaN, read }];
for (const other of others) {
    const isNamed = what => error => error instanceof TypeError
        && error.message.startsWith(`${what} a Blob, a Uint8Array, an ArrayBuffer, the result of openFile`);
    for (const job of ['survey', 'list', 'audit']) await assert.rejects(cdpatch[job](other), isNamed('an image must be'));
    for (const job of ['check', 'apply']) {
        await assert.rejects(cdpatch[job](other, bytes, job === 'apply' ? () => assert.fail() : {}), isNamed('an image must be'));
    }
    await assert.rejects(cdpatch.check(sound, other), isNamed('a script must be a string,'));
    await assert.rejects(cdpatch.patches(other), isNamed('a script must be a string,'));
    await assert.rejects(new Response(patchedStream(cdpatch, other, script).stream).arrayBuffer(), isNamed('an image must be'));
}
await handle.close();
await assert.rejects(cdpatch.audit('disc.bin'), /^TypeError: an image must be .*, not String$/);
await assert.rejects(cdpatch.apply(sound, script), TypeError);
for (const kind of [script, bytes.slice().buffer, new Blob([script]), short(bytes)]) {
    assert.deepEqual(await cdpatch.check(damaged, kind), await cdpatch.check(damaged, bytes));
    assert.equal((await cdpatch.patches(kind)).length, 4);
}
class Slow {
    get size() { return damaged.length; }
    async read(at, length) { return damaged.slice(at, at + length); }
}
assert.deepEqual(await cdpatch.check(new Slow(), script), await cdpatch.check(damaged, script));

// The names of errors and results.
assert.deepEqual([Fault, ScriptError].map(({ name }) => name), ['Fault', 'ScriptError']);
const { outcomes } = await cdpatch.check(damaged, script);
assert.deepEqual(outcomes.map(({ result }) => result), [RESULT.OK, RESULT.DIFFERS, RESULT.DAMAGED, RESULT.OK]);
await assert.rejects(cdpatch.check(sound, 'cdpatch 1\n\nset 0 0 XY\n'), { name: 'ScriptError', line: 3 });
await assert.rejects(cdpatch.patches('# no head\n'), { name: 'ScriptError', line: 2 });
await assert.rejects(cdpatch.check(sound, new Uint8Array(67108865)), error => error instanceof ScriptError && error.line === null);
const early = { size: sound.length, read: async (at, length) => sound.slice(at, Math.min(at + length, 2352)) };
for (const job of [() => cdpatch.survey(early), () => cdpatch.apply(early, script, () => {})]) {
    await assert.rejects(job(), error => error instanceof Fault && error.code === 'image ended');
}

// A script for a different base is refused with cdscript's message.
const based = 'cdpatch 1\n# base 100\nset 101 5 0102\n';
writeFileSync('based', based);
const { stderr } = spawnSync(process.execPath, ['node_modules/cdpatch/cdscript.cjs', 'check', 'disc.bin', 'based']);
const [, words] = /^cdscript: (.*): use --base 100/m.exec(stderr);
await assert.rejects(cdpatch.check(sound, based), error => error instanceof ScriptError && error.message === words && error.line === 2);
await assert.rejects(cdpatch.apply(sound, based, () => assert.fail(), { base: 150 }), ScriptError);
assert.equal((await cdpatch.check(sound, based, { base: 100 })).status, 0);

// A stream succeeds only if the whole image was written.
const long = { size: 2352 * 1000001, read: async (_, length) => new Uint8Array(length) };
const cut = patchedStream(cdpatch, long, script);
const tooLong = { name: 'Fault', message: 'cdpatch: the image has more than 1000000 sectors' };
await assert.rejects(new Response(cut.stream).arrayBuffer(), tooLong);
assert.equal((await cut.report).status, 2);

const ended = patchedStream(cdpatch, sound, script, { signal: AbortSignal.abort() });
await assert.rejects(new Response(ended.stream).arrayBuffer(), { name: 'AbortError' });
const dropped = patchedStream(cdpatch, sound, script);
await dropped.stream.cancel();
await assert.rejects(dropped.report, { name: 'AbortError', message: 'the stream was cancelled' });
const withReason = patchedStream(cdpatch, sound, script);
await withReason.stream.cancel(new Error('enough'));
await assert.rejects(withReason.report, /^Error: enough$/);

// Progress of a job, and its cancellation.
const many = new Uint8Array(2352 * 4000);
for (let at = 0; at < many.length; at += sound.length) many.set(sound, at);
const far = 'cdpatch 1\nset 0 5 01\nset 2000 5 01\nset 3999 5 01\n';
const jobs = {
    survey: settings => cdpatch.survey(many, settings), audit: settings => cdpatch.audit(many, settings),
    check: settings => cdpatch.check(many, far, settings), apply: settings => cdpatch.apply(many, far, () => {}, settings),
};
for (const [name, job] of Object.entries(jobs)) {
    const heard = [];
    await job({ progress: (done, all) => heard.push([done, all]) });
    assert.ok(heard.length > 1, name);
    assert.ok(heard.every(([done, all], i) => all === many.length && (i === 0 || done >= heard[i - 1][0])), name);
    assert.equal(heard.pop()[0], many.length, name);
    const ending = new AbortController();
    const progress = done => done > 0 && ending.abort(new Error('enough'));
    await assert.rejects(job({ signal: ending.signal, progress }), /^Error: enough$/, name);
    await assert.rejects(job({ signal: AbortSignal.abort() }), { name: 'AbortError' }, name);
}

// The bytes of a piece that is kept do not change later.
const each = `cdpatch 1\n${Array.from({ length: 4000 }, (_, block) => `set ${block} 5 0102\n`).join('')}`;
const [kept, copied] = [[], []];
await cdpatch.apply(many, each, piece => {
    kept.push(piece);
    copied.push(piece.slice());
});
assert.ok(Buffer.concat(kept).equals(Buffer.concat(copied)));
