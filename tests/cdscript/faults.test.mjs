// Fault injection: each read, write, and other call fails once, is short, or finds a truncated image; full disks, closed streams, and
// signals. Whatever fails, the status is 2 with a message, no file is left behind, and no printed result is wrong.

import assert from 'node:assert/strict';
import { spawn, spawnSync } from 'node:child_process';
import { existsSync, readdirSync, readlinkSync, rmSync, truncateSync } from 'node:fs';
import { createRequire } from 'node:module';
import { join } from 'node:path';
import { test } from 'node:test';
import { fileURLToPath } from 'node:url';

// Must run before cdscript is loaded, which binds the calls.
const faults = createRequire(import.meta.url)('./faulty.cjs');
const { call, command, damaged, earlyCommand, imageOf, inDirectory, program, read, run, sameFile, tool, write } = await import('./common.mjs');
const { makeDisc, skip } = await import('./discs.mjs');

const preload = fileURLToPath(new URL('./faulty.cjs', import.meta.url));

/** The jobs, with their files in a room. OUT stands for the name of a file to be written. */
const JOBS = [
    ['info', 'disc.cue'], ['info', 'hurt.bin', '--json'], ['check', 'disc.bin', 'script'], ['apply', 'disc.bin', 'script', 'OUT'],
    ['files', 'disc.bin'], ['find', 'disc.bin', 'HELLO', '-o', 'OUT'], ['show', 'disc.bin', '16', '0'],
    ['extract', 'disc.bin', '/BIG.BIN', 'OUT'], ['replace', 'disc.bin', 'HELLO', 'WORLD'], ['replace-file', 'disc.bin', '/BIG.BIN', 'script'],
    ['diff', 'disc.bin', 'other.bin', '-o', 'OUT'], ['diff', 'disc.bin', 'other.bin', '--fields'], ['merge', 'hurt.bin', 'disc.bin', 'OUT'],
    ['rebuilds', 'hurt.bin'], ['undo', 'disc.bin', 'script', '-o', 'OUT'], ['raw', 'disc.iso', 'OUT'], ['user', 'disc.cue', 'OUT'],
];

async function makeRoom(room) {
    await makeDisc(room);
    const image = read(room, 'disc.bin');
    write(room, { 'hurt.bin': damaged(image, 0, [18, 100]), 'disc.cue': 'FILE "disc.bin" BINARY\n TRACK 01 MODE1/2352\n INDEX 01 00:00:00\n',
        'script': 'cdpatch 1\nset 20 5 414243\nfill 100 0 4096 00\nset 16 1 00 was 00\n' });
    tool('sh', ['-c', `"${program}" apply disc.bin script other.bin > log || true; rm log`], { cwd: room });
}

/** Calls `main` with the files of a room. `hit` decides which calls fail. */
async function faultyCall(room, streams, words, hit, copy = undefined) {
    const named = words.map(word => existsSync(join(room, word)) && word !== '' ? join(room, word) : word === 'OUT' ? join(room, 'out') : word);
    const there = new Set(readdirSync(room));
    const came = await call(streams, named, () => { faults.hit = hit; }, () => { faults.hit = () => null; }, copy);
    const left = readdirSync(room).filter(name => !there.has(name));
    const file = read(room, 'out');
    rmSync(join(room, 'out'), { force: true });
    return { ...came, left, file };
}

/** A job's calls on files, in order, without those on its own streams. */
async function callsOf(room, streams, words) {
    const made = [];
    const right = await faultyCall(room, streams, words, (name, given) => { made.push([name, given[0]]); return null; });
    return { made, right };
}

/** The message about a failure after which a job has the same result: a file that was read, or a temporary one. */
const LATE = /^cdscript: cannot (close|remove) .+: the disk or the drive has an error$/m;

/** All jobs begin with the reads that identify an image. For the first job each of them fails, for the others every `SPARSELY`-th. */
const SPARSELY = process.env.GATE ? 12 : 24;

test('each call that fails once is a message and status 2', { skip }, () => inDirectory(room =>
    inDirectory(async streams => {
        await makeRoom(room);
        for (const words of JOBS) {
            const { made, right } = await callsOf(room, streams, words);
            assert.ok(made.length > 3 && right.status < 2, `${words.join(' ')}: ${right.errors}`);
            const every = words === JOBS[0] ? 1 : SPARSELY;
            const chosen = made.map((_, at) => at).filter(at => at % every === 0 || made[at][0] !== 'readSync' || at >= made.length - 4);
            for (const at of chosen) {
                let number = 0;
                const came = await faultyCall(room, streams, words, () => number++ === at ? faults.errorOf('EIO') : null);
                const what = `${words.join(' ')}: call ${at} (${made[at].join()})`;
                // If the message itself cannot be written, there is only the status. Without links, files are created by name.
                const silent = made[at][0] === 'writeSync' || (made[at][0] === 'linkSync' && made.findIndex(([it]) => it === 'linkSync') === at);
                if (silent && came.status === right.status) continue;
                if (LATE.test(came.errors) && came.status === right.status) continue;
                assert.equal(came.status, 2, `${what}: ${came.out}${came.errors}`);
                assert.ok(/^(cdscript|cdpatch): .+$/m.test(came.errors + came.out), `${what}: ${came.out}${came.errors}`);
                assert.ok(!came.errors.includes('a fault in cdscript'), `${what}: ${came.errors}`);
                assert.deepEqual(came.left, [], what);
            }
        }
    })));

test('short reads and writes change nothing', { skip }, () => inDirectory(room =>
    inDirectory(async streams => {
        await makeRoom(room);
        for (const words of JOBS) {
            const due = await faultyCall(room, streams, words, () => null);
            const came = await faultyCall(room, streams, words, (name, [descriptor]) =>
                ['read', 'readSync', 'writeSync'].includes(name) && descriptor > 2 ? 'short' : null);
            assert.deepEqual([came.status, came.out, came.errors], [due.status, due.out, due.errors], words.join(' '));
            if (due.file !== null) sameFile(came.file, due.file, words.join(' '));
        }
    })));

test('an image that shrinks is no shorter answer', { skip }, () => inDirectory(room =>
    inDirectory(async streams => {
        await makeRoom(room);
        const whole = read(room, 'disc.bin');
        const last = Math.floor(whole.length / 2352) - 1;
        const jobs = [['find', 'disc.bin', 'HELLO'], ['info', 'disc.bin'], ['user', 'disc.bin', 'OUT'],
            ['apply', 'disc.bin', 'script', 'OUT'], ['merge', 'disc.bin', 'hurt.bin', 'OUT'], ['diff', 'disc.bin', 'other.bin']];
        for (const words of jobs) {
            write(room, { 'disc.bin': whole });
            let [isSized, isCut] = [false, false];
            const hit = name => {
                if (isSized && !isCut && name === 'readSync') {
                    isCut = true;
                    truncateSync(join(room, 'disc.bin'), last * 2352 + 100);
                }
                isSized = isSized || name === 'fstatSync';
                return null;
            };
            const came = await faultyCall(room, streams, words, hit);
            assert.equal(came.status, 2, `${words.join(' ')}: ${came.out}`);
            assert.deepEqual(came.left, []);
            assert.match(came.errors, /^cdscript: cannot read \S+disc\.bin: it has become shorter, and ends at byte \d+\n$/);
        }
    })));

/** Runs a shell command with COMMAND and its arguments. */
const shell = (text, cwd, env = {}) => spawnSync('sh', ['-c', text], { cwd, env: { ...process.env, ...env }, encoding: 'utf8' });

test('a full or closed output is a message and status 2', () => inDirectory(room => {
    const sector = damaged(imageOf(room, 1), 0, [0, 100]);
    write(room, { image: imageOf(room, 30), script: 'cdpatch 1\nset 3 0 00\n', many: Buffer.concat(Array.from({ length: 20000 }, () => sector)) });
    for (const words of ['check image script', 'apply image script out', 'info image', '--help', 'find image A --encoding hex']) {
        const full = shell(`"$COMMAND" ${words.replace('find image A', 'find image 00')} > /dev/full`, room);
        assert.deepEqual([full.status, full.stderr.split('\n').at(-2)], [2, 'cdscript: cannot write to standard output: the disk is full'], words);
        const closed = shell(`"$COMMAND" ${words} >&-`, room);
        assert.deepEqual([closed.status, closed.stderr], [2, 'cdscript: standard output is closed\n'], words);
        assert.equal(existsSync(join(room, 'out')), false);
    }
    const pipe = shell('{ "$COMMAND" rebuilds --base 0 many; echo $? > status; } | head -n 1', room);
    assert.deepEqual([pipe.stdout, pipe.stderr, read(room, 'status').toString()], ['cdpatch 1\n', '', '2\n']);
    assert.equal(shell('"$COMMAND" check - script <&-', room).stderr, 'cdscript: cannot read -: it is a directory\n');
    assert.equal(shell('"$COMMAND" raw image out 2>&-', room).status, 2);
}));

test('a full pipe is waited for', () => inDirectory(room => {
    const sector = damaged(imageOf(room, 1), 0, [0, 100]);
    write(room, { image: Buffer.concat(Array.from({ length: 8000 }, () => sector)) });
    const { status, stdout } = shell('{ "$COMMAND" rebuilds --base 0 image; echo $? > status; } | { sleep 5; cat; }', room);
    assert.equal(status, 0);
    assert.equal(read(room, 'status').toString(), '0\n');
    assert.equal(stdout, `cdpatch 1\n${Array.from({ length: 8000 }, (_, i) => `rebuild ${i}\n`).join('')}`);
}));

test('a file system that can not sync is no failure, and a sync that fails is one', () => inDirectory(room => inDirectory(async streams => {
    write(room, { image: imageOf(room, 3) });
    for (const [code, status] of [['EINVAL', 0], ['EIO', 2], ['ENOSPC', 2]]) {
        const came = await faultyCall(room, streams, ['user', 'image', 'OUT'], name => name === 'fsync' ? faults.errorOf(code) : null);
        assert.deepEqual([came.status, came.file === null], [status, status === 2], `${code}: ${came.errors}`);
    }
})));

test('a new file that can not be closed is none', { skip: process.platform !== 'linux' && 'no procfs' }, () => inDirectory(room => inDirectory(async streams => {
    write(room, { image: imageOf(room, 3) });
    for (const hasLinks of [true, false]) {
        const isNew = place => place === join(room, 'out') || place.includes('.cdscript-');
        const came = await faultyCall(room, streams, ['user', 'image', 'OUT'], (name, [of]) =>
            name === 'linkSync' && !hasLinks || name === 'closeSync' && isNew(readlinkSync(`/proc/self/fd/${of}`)) ? faults.errorOf('EDQUOT') : null);
        assert.deepEqual([came.status, came.left], [2, []], came.errors);
        assert.match(came.errors, /^cdscript: cannot write .*\/out: the quota is used up$/m);
    }
})));

test('a list that can not be closed is a message and status 2', () => inDirectory(room => inDirectory(async streams => {
    write(room, { image: imageOf(room, 3), list: '' });
    const { status, errors } = await faultyCall(room, streams, ['scan', 'image', '--resume', 'list'], (name, [of]) =>
        name === 'closeSync' && readlinkSync(`/proc/self/fd/${of}`).endsWith('list') ? faults.errorOf('EDQUOT') : null);
    assert.equal(status, 2);
    assert.match(errors, /^cdscript: cannot write .*\/list: the quota is used up$/m);
})));

test('want of memory is said so, in a thread too', () => inDirectory(room => {
    const sector = imageOf(room, 1);
    write(room, { image: Buffer.concat(Array.from({ length: 9000 }, () => sector)) });
    const env = { ...process.env, NO_MEMORY: '1' };
    const { status, stderr } = spawnSync(process.execPath, ['-r', preload, earlyCommand(room), 'rebuilds', '--base', '0', 'image'], { cwd: room, env, encoding: 'utf8' });
    assert.deepEqual([status, stderr], [2, 'cdscript: no memory\n']);
}));

const canBeLimited = process.platform === 'linux' && process.allowedNodeEnvironmentFlags.has('--disable-wasm-trap-handler');
const LIMITED = ['-c', 'ulimit -v 3000000; exec "$@"', 'bash', process.execPath, command];

test('a limited address space is enough', { skip: !canBeLimited && 'no node 20' }, () => inDirectory(async room => {
    const image = imageOf(room, 9000);
    write(room, { image, hurt: damaged(image, 0, [7, 100]), script: 'cdpatch 1\nset 3 0 41\n' });
    for (const words of [['info', 'hurt'], ['scan', 'hurt'], ['diff', 'image', 'none'], ['apply', 'image', 'script', 'out']]) {
        const due = await run(words, { cwd: room });
        const file = read(room, 'out');
        rmSync(join(room, 'out'), { force: true });
        const came = spawnSync('bash', [...LIMITED, ...words], { cwd: room, encoding: 'utf8' });
        assert.deepEqual([came.status, came.stdout, came.stderr, read(room, 'out')], [due.status, due.out, due.errors, file], words.join(' '));
    }
    tool('mkfifo', ['pipe'], { cwd: room });
    const there = readdirSync(room).filter(name => name !== 'new');
    const child = spawn('bash', [...LIMITED, 'user', 'pipe', 'new'], { cwd: room, stdio: 'ignore', detached: true });
    const ended = new Promise(resolve => child.on('exit', (_, by) => resolve(by)));
    const isBegun = await begun(room, there, 0);
    child.kill('SIGTERM');
    const late = setTimeout(() => process.kill(-child.pid, 'SIGKILL'), 30000); // with the processes that it has started
    assert.deepEqual([isBegun, await ended], [true, 'SIGTERM']);
    clearTimeout(late);
    assert.deepEqual(readdirSync(room), there);
}));

test('threads read for themselves, and what they can not read is read without them', () => inDirectory(room => inDirectory(async streams => {
    const image = imageOf(room, 9000);
    const hurt = damaged(image, 0, [3, 100], [8999, 2300]);
    write(room, { image, hurt });
    const early = earlyCommand(room);
    const lengths = [];
    const due = await faultyCall(room, streams, ['rebuilds', 'hurt'], (name, given) => void (name === 'readSync' && lengths.push(given[3])), early);
    assert.equal(due.out, 'cdpatch 1\nrebuild 3\nrebuild 8999\n');
    assert.ok(Math.max(...lengths) < 100000, 'large reads are for threads');
    const withPreload = (words, env) => {
        const { status, stdout, stderr } = spawnSync(process.execPath, ['-r', preload, early, ...words],
            { cwd: room, env: { ...process.env, ...env }, encoding: 'utf8' });
        return [status, stdout + stderr];
    };
    assert.deepEqual(withPreload(['rebuilds', 'hurt'], { NO_READS: '1' }), [0, due.out]);
    assert.deepEqual(withPreload(['merge', 'hurt', 'image', 'out'], { NO_READS: '1' }),
        [0, '3-3 from image\n8999-8999 from image\ntaken 2 damaged 0 disputed 0 different 0\n']);
    sameFile(read(room, 'out'), image, 'the repaired image');
    const ended = name => [2, `cdscript: cannot read ${name}: it has become shorter, and ends at byte ${8500 * 2352 + 100}\n`];
    assert.deepEqual(withPreload(['rebuilds', 'hurt'], { CUT: join(room, 'hurt') }), ended('hurt'));
    assert.deepEqual(withPreload(['user', 'image', 'new'], { CUT: join(room, 'image') }), ended('image'));
    assert.equal(existsSync(join(room, 'new')), false);
})));

test('a full disk leaves no file', t => inDirectory(room => {
    const made = shell('mkdir small && mount -t tmpfs -o size=200k none small', room);
    if (made.status !== 0) return t.skip('no right to mount');
    try {
        write(room, { image: imageOf(room, 300), script: 'cdpatch 1\nset 3 0 00\n' });
        for (const words of [['apply', 'image', 'script', 'small/out'], ['user', 'image', 'small/out'], ['merge', 'image', 'image', 'small/out']]) {
            const { status, stdout, stderr } = shell(`"$COMMAND" ${words.join(' ')}`, room);
            assert.equal(status, 2);
            assert.match(stdout + stderr, /^(cdpatch: writing the output failed|cdscript: cannot write small\/out: the disk is full)\n$/);
            assert.deepEqual(readdirSync(join(room, 'small')), []);
        }
    } finally {
        shell('umount small', room);
    }
}));

/** Waits until a file in a room has at least this many bytes. */
async function begun(room, there, size) {
    for (let i = 0; i < 3000; i++) {
        if (readdirSync(room).some(name => !there.includes(name) && read(room, name)?.length >= size)) return true;
        await new Promise(resolve => setTimeout(resolve, 20));
    }
    return false;
}

test('a signal leaves no half file', () => inDirectory(async room => {
    const image = imageOf(room, 3000);
    write(room, { image: Buffer.concat([image, image, image, image]), script: 'cdpatch 1\n' });
    for (const [signal, words] of [['SIGINT', ['apply', 'image', 'script', 'out']], ['SIGTERM', ['user', 'image', 'out']],
        ['SIGHUP', ['merge', 'image', 'image', 'out']]]) {
        const there = readdirSync(room);
        const child = spawn(process.execPath, ['-r', preload, command, ...words], { cwd: room, env: { ...process.env, SLOW: '3000' }, stdio: 'ignore' });
        const ended = new Promise(resolve => child.on('exit', (_, by) => resolve(by)));
        const isBegun = await begun(room, there, 1);
        child.kill(signal);
        const late = setTimeout(() => child.kill('SIGKILL'), 20000); // Writing the rest would take longer.
        assert.deepEqual([isBegun, await ended], [true, signal]);
        clearTimeout(late);
        assert.deepEqual(readdirSync(room), there, signal);
    }
}));

test('a signal ends what waits for its input, and leaves no file', () => inDirectory(async room => {
    tool('mkfifo', ['pipe'], { cwd: room });
    for (const [name, stdin] of [['-', 'pipe'], ['pipe', 'ignore']]) {
        const there = readdirSync(room);
        const child = spawn(process.execPath, [command, 'user', name, 'out'], { cwd: room, stdio: [stdin, 'ignore', 'ignore'] });
        const ended = new Promise(resolve => child.on('exit', (_, by) => resolve(by)));
        const isBegun = await begun(room, there, 0);
        await new Promise(resolve => setTimeout(resolve, 300));
        child.kill('SIGINT');
        const late = setTimeout(() => child.kill('SIGKILL'), 30000);
        assert.deepEqual([isBegun, await ended], [true, 'SIGINT'], name);
        clearTimeout(late);
        assert.deepEqual(readdirSync(room), there, name);
    }
}));
