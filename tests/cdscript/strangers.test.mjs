// Hostile files: their cost compared with harmless files of the same size, their output, and where their links lead.

import assert from 'node:assert/strict';
import { spawnSync } from 'node:child_process';
import { existsSync, mkdirSync, readdirSync, renameSync, symlinkSync } from 'node:fs';
import { createRequire } from 'node:module';
import { join } from 'node:path';
import { test } from 'node:test';
import { fileURLToPath } from 'node:url';
import { SHEETS, TABLES, crowded, harmlessSheet, harmlessTable, harmlessVolume, nested, overlapping } from '../core/strangers.mjs';

// Must run before cdscript is loaded, which binds the calls.
const faults = createRequire(import.meta.url)('./faulty.cjs');
const { call, command, damaged, imageOf, inDirectory, read, run, tool, write } = await import('./common.mjs');

const preload = fileURLToPath(new URL('./measure.cjs', import.meta.url));

/** Runs cdscript, and returns its output, its status, and its cost. */
function measured(room, words) {
    const env = { ...process.env, MEASURED: join(room, 'measured') };
    const done = spawnSync(process.execPath, ['-r', preload, command, ...words], { cwd: room, env, encoding: 'utf8', timeout: 90000, maxBuffer: 1 << 28 });
    assert.equal(done.signal, null, `${words.join(' ')}: ${done.signal}`);
    return { status: done.status, out: done.stdout, errors: done.stderr, ...JSON.parse(read(room, 'measured')) };
}

/** Asserts that a run costs little more than a harmless one, and what it prints. */
function costsAsMuch(room, words, due, seconds, said) {
    const came = measured(room, words);
    assert.ok(came.seconds < due.seconds + seconds, `${words.join(' ')}: ${came.seconds} s, ${due.seconds} s`);
    assert.ok(came.memory < due.memory + 300, `${words.join(' ')}: ${came.memory} MB, ${due.memory} MB`);
    assert.match(`${came.status} ${came.out}${came.errors}`, said);
}

test('a cue sheet costs as much as a harmless one', () => inDirectory(room => {
    write(room, { 'game.bin': imageOf(room, 20), 'harmless.cue': harmlessSheet(12000) });
    const due = measured(room, ['info', 'harmless.cue']);
    for (const [what, sheet] of Object.entries(SHEETS)) {
        write(room, { 'sheet.cue': sheet });
        costsAsMuch(room, ['info', 'sheet.cue'], due, 2, what.startsWith('nothing') ? /^1 .*a text file/ : /^[012] /);
    }
}));

test('a table costs as much as a harmless one', () => inDirectory(async room => {
    write(room, { zeros: Buffer.alloc(100 * 2048), 'harmless.tbl': harmlessTable(4096) });
    assert.equal((await run(['raw', 'zeros', 'image'], { cwd: room })).status, 0);
    const due = measured(room, ['find', 'image', '一', '--table', 'harmless.tbl']);
    for (const { table, text } of Object.values(TABLES)) {
        write(room, { 'game.tbl': table });
        costsAsMuch(room, ['find', 'image', text, '--table', 'game.tbl'], due, 6, /^([01] |2 cdscript: game\.tbl: line 2 of the table has )/);
    }
}));

test('a volume costs as much as a harmless one', () => inDirectory(async room => {
    const volumes = [harmlessVolume(400), overlapping(400), nested(2000, 200), crowded(1300)];
    for (const [i, user] of volumes.entries()) {
        write(room, { [`${i}.iso`]: user });
        assert.equal((await run(['raw', `${i}.iso`, `${i}.bin`], { cwd: room })).status, 0);
    }
    const due = measured(room, ['files', '0.bin']);
    for (const i of [1, 2, 3]) {
        costsAsMuch(room, ['files', `${i}.bin`], due, 2, /^1 [^]*: (its directories are not read|the directory|from here on)/);
        costsAsMuch(room, ['find', `${i}.bin`, 'FILE'], due, 2, /^[01] /);
    }
}));

test('a difference costs no more memory if there is more of it', () => inDirectory(async room => {
    const [few, many] = [4000, 16000];
    const lines = Array.from({ length: many }, (_, block) => `fill ${block} 0 2048 41`);
    write(room, { old: imageOf(room, many), script: ['cdpatch 1', ...lines, ''].join('\n') });
    tool(process.env.PROGRAM, ['apply', 'old', 'script', 'new'], { cwd: room });
    const changed = read(room, 'new').subarray(0, 2352 * few);
    write(room, { some: Buffer.concat([changed, read(room, 'old').subarray(2352 * few)]) });
    const due = measured(room, ['diff', 'old', 'some', '-o', 'short']);
    const came = measured(room, ['diff', 'old', 'new', '-o', 'long']);
    const size = read(room, 'long').length;
    assert.deepEqual([due.status, came.status], [0, 0]);
    assert.ok(came.memory < due.memory + 0.8 * size / 1e6, `${came.memory} MB, ${due.memory} MB for ${size} bytes`);
}));

test('what is no regular file is refused if only a cue sheet names it', () => inDirectory(async room => {
    const sheet = name => `FILE "${name}" BINARY\n TRACK 01 MODE1/2352\n INDEX 01 00:00:00\n`;
    write(room, { 'zero.cue': sheet('zero.bin'), 'pipe.cue': sheet('pipe.bin'), 'folder.cue': sheet('folder'), 'link.cue': sheet('link.bin') });
    symlinkSync('/dev/zero', join(room, 'zero.bin'));
    mkdirSync(join(room, 'folder'));
    tool('mkfifo', ['pipe.bin'], { cwd: room });
    write(room, { 'image.bin': imageOf(room, 3) });
    symlinkSync('image.bin', join(room, 'link.bin'));
    for (const [name, file] of [['zero.cue', 'zero.bin'], ['pipe.cue', 'pipe.bin'], ['folder.cue', 'folder']]) {
        const { status, out, errors } = measured(room, ['info', name]);
        assert.deepEqual([status, out, errors], [2, '', `cdscript: ${file} is not a regular file, and only the cue sheet names it: give its name as IMAGE\n`]);
    }
    assert.equal((await run(['info', 'link.cue'], { cwd: room })).status, 0);
}));

/** Each job, with names that contain a terminal's control code, written `E`. */
const JOBS = [
    ['info', 'Egame.cue'], ['info', 'Ehurt.bin'], ['check', 'Egame.bin', 'Escript'], ['apply', 'Egame.bin', 'Escript', 'Eapplied'],
    ['files', 'Egame.cue'], ['find', 'Egame.cue', 'E'], ['find', 'Egame.cue', '00', '--table', 'Etable'], ['show', 'Egame.bin', '16'],
    ['extract', 'Egame.bin', '/E', 'Eextracted'], ['extract', 'Enone', '/E', 'Eextracted'], ['replace', 'Egame.bin', 'E', 'E'],
    ['replace-file', 'Egame.bin', '/E', 'Escript'], ['diff', 'Egame.bin', 'Ehurt.bin'], ['diff', 'Egame.bin', 'Eother.bin', '--fields'],
    ['merge', 'Ehurt.bin', 'Egame.cue', 'Emerged'], ['merge', 'Ehurt.bin', 'Eother.bin', 'Eagain'], ['rebuilds', 'Ehurt.bin'],
    ['undo', 'Egame.bin', 'Escript'], ['undo', 'Egame.bin', 'Ehurt.bin'], ['raw', 'Egame.iso', 'Eraw'], ['raw', 'Egame.bin', 'Eraw2'],
    ['user', 'Egame.bin', 'Euser'], ['user', 'Enone.cue', 'Euser2'], ['E'], ['info', '--E'], ['find', 'Egame.bin', 'A', '--encoding', 'E'],
];

test('no job prints a control character of a name', () => inDirectory(async room => {
    const codes = 'x\x1b]0;PWNED\x07\x1b[31m\x9b\u202e';
    const sheet = name => `FILE "${name}" BINARY\n TRACK 01 MODE1/2352\n INDEX 01 00:00:00\n`;
    const [game, other] = [imageOf(room, 200), imageOf(room, 199)];
    const named = { 'game.bin': game, 'hurt.bin': damaged(game, 0, [3, 100], [5, 100]), 'other.bin': other, 'script': `cdpatch 1\nset 3 ${codes}\n`,
        'table': `00=${codes}\n${codes}`, 'game.iso': Buffer.alloc(40 * 2048), 'game.cue': sheet(`${codes}game.bin`), 'none.cue': sheet(`${codes}gone.bin`) };
    for (const [name, bytes] of Object.entries(named)) write(room, { [`${codes}${name}`]: bytes });
    for (const words of JOBS) {
        const came = await run(words.map(word => word.replaceAll('E', codes)), { cwd: room });
        assert.doesNotMatch(came.out + came.errors, /[^\P{Cc}\n\t]|\u202e/u, words.join(' '));
    }
    const { out } = await run(['merge', `${codes}hurt.bin`, `${codes}game.cue`, 'out'], { cwd: room });
    assert.match(out, /^3-3 from x\.\]0;PWNED\.\.\[31m\.\.game\.bin\n/);
}));

/** Calls `main` with files of a room. `hit` decides which calls fail. */
const faultyCall = (streams, words, hit) => call(streams, words, () => { faults.hit = hit; }, () => { faults.hit = () => null; });

for (const [what, code] of [['with links', null], ['without links', 'EPERM']]) {
    test(`another file that stands under the name of the output is not removed, on a file system ${what}`, () => inDirectory(room =>
        inDirectory(async streams => {
            write(room, { image: imageOf(room, 5) });
            ['own', 'other'].forEach(name => mkdirSync(join(room, name)));
            write(join(room, 'other'), { out: 'kept' });
            symlinkSync('own', join(room, 'to'));
            const before = readdirSync(join(room, 'own'));
            const { status } = await faultyCall(streams, ['user', join(room, 'image'), join(room, 'to/out')], (name, [given]) => {
                if (name === 'linkSync' && code !== null) return faults.errorOf(code);
                if (name !== 'writeSync' || given <= 2) return null;
                symlinkSync('other', join(room, 'swapped'));
                renameSync(join(room, 'swapped'), join(room, 'to'));
                return faults.errorOf('EIO');
            });
            assert.deepEqual([status, before, `${read(join(room, 'other'), 'out')}`, readdirSync(join(room, 'other'))], [2, [], 'kept', ['out']]);
        })));

    test(`a file that gets the name of the output meanwhile is not overwritten, on a file system ${what}`, () => inDirectory(room =>
        inDirectory(async streams => {
            write(room, { image: imageOf(room, 5) });
            const { status, errors } = await faultyCall(streams, ['user', join(room, 'image'), join(room, 'out')], (name, [given]) => {
                if (name === 'linkSync' && code !== null) return faults.errorOf(code);
                if (name === 'writeSync' && given > 2 && code === null && !existsSync(join(room, 'out'))) write(room, { out: 'kept' });
                return null;
            });
            const size = read(room, 'out').length;
            if (code === null) assert.deepEqual([status, size, errors], [2, 4, `cdscript: cannot create ${join(room, 'out')}: it already exists\n`]);
            else assert.deepEqual([status, size, errors], [0, 5 * 2048, '']);
            assert.deepEqual(readdirSync(room).filter(name => name.startsWith('.')), []);
        })));
}

test('an output stands under its name only when it is whole', () => inDirectory(room => inDirectory(async streams => {
    write(room, { image: imageOf(room, 5), script: 'cdpatch 1\nset 3 0 00\n' });
    for (const words of [['user', 'image', 'out'], ['apply', 'image', 'script', 'out'], ['rebuilds', 'image', '-o', 'out']]) {
        const seen = [];
        const named = words.map(word => ['image', 'script', 'out'].includes(word) ? join(room, word) : word);
        const { status } = await faultyCall(streams, named, name => {
            if (name === 'writeSync' || name === 'fsync') seen.push(readdirSync(room).includes('out'));
            return null;
        });
        assert.deepEqual([status, seen.some(it => it), readdirSync(room).includes('out')], [0, false, true], words.join(' '));
        tool('rm', [join(room, 'out')]);
    }
})));
