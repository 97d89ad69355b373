// Collections and known dumps: `scan`, `info`, and `merge` with a list of dumps, and the list that an interrupted scan leaves.

import assert from 'node:assert/strict';
import { spawn, spawnSync } from 'node:child_process';
import { createHash } from 'node:crypto';
import { chmodSync, existsSync, lstatSync, mkdirSync, readdirSync, statSync, symlinkSync, unlinkSync, utimesSync } from 'node:fs';
import { createRequire } from 'node:module';
import { join } from 'node:path';
import { test } from 'node:test';
import { fileURLToPath } from 'node:url';
import { gzipSync } from 'node:zlib';

// Must run before cdscript is loaded, which binds the calls.
const faults = createRequire(import.meta.url)('./faulty.cjs');
const { call, command, damaged, earlyCommand, imageOf, inDirectory, read, run, sameFile, tool, write } = await import('./common.mjs');
const { noise } = await import('./discs.mjs');

const preload = fileURLToPath(new URL('./faulty.cjs', import.meta.url));
const shaOf = bytes => createHash('sha1').update(bytes).digest('hex');
const sheet = name => `FILE "${name}" BINARY\n TRACK 01 MODE1/2352\n INDEX 01 00:00:00\n`;

/** A DAT that lists these files by name. */
const datOf = files => `<?xml version="1.0"?>\n<datafile>${Object.entries(files).map(([name, bytes]) =>
    `<game name="G"><rom name="${name}" size="${bytes.length}" sha1="${shaOf(bytes)}"/></game>`).join('\n')}</datafile>\n`;

/** The summary for a collection of `writeCollection`. */
const COUNTED = 'cdscript: games: complete 0, incomplete 1, missing 0\ncdscript: verified 20, known as bad 0, not in the DAT 20\n';

/** The remark about a file that is not in a DAT. */
const ONLY_SIZE = 'the DAT has a dump of this size, but none with this SHA-1: perhaps another dump of the disc repairs it';
const NOT_EVEN_SIZE = 'the DAT has no dump of this size: perhaps the file is cut short, or is of a different disc';

/** A row as it is without a list of dumps. */
const withoutDat = row => row.split('\t').map((cell, i) => i === 6 ? '-' : cell).join('\t');

/** The first seven columns. */
const seven = row => row.split('\t').slice(0, 7).join('\t');

/** A row with the later columns: bytes and time, and no hashes, which no DAT needs here. */
function dated(room, row) {
    const { size, mtime } = statSync(join(room, row.split('\t')[0]), { bigint: true });
    return [row, size, mtime.toISOString(), '-', '-'].join('\t');
}

/** The row of a file that is not an image. */
const otherRow = (room, name, what, bytes, said) => dated(room, [name, `none: ${what}`, '-', '-', '-', shaOf(bytes), said].join('\t'));

/**
 * Writes forty images, some of them damaged, in two directories, half of them with cue sheets; a file that is not an image; and a DAT of
 * the undamaged images. Returns the expected rows.
 */
function writeCollection(room) {
    const image = imageOf(room, 60);
    const [whole, rows] = [{}, []];
    ['one', 'two'].forEach(name => mkdirSync(join(room, name)));
    for (let i = 0; i < 40; i++) {
        const name = `game ${String(i).padStart(2, '0')}.bin`;
        const sound = image.subarray(0, 2352 * (20 + i));
        const places = i % 4 === 1 ? [[3, 100], [9, 2000]] : i % 4 === 2 ? [[5, 13]] : [];
        const dumped = damaged(sound, 0, ...places);
        const directory = i < 20 ? 'one' : 'two';
        whole[name] = sound;
        write(join(room, directory), { [name]: dumped });
        if (i % 2 === 0) write(join(room, directory), { [name.replace('.bin', '.cue')]: sheet(name) });
        const [damage, elsewhere] = i % 4 === 1 ? [2, 0] : i % 4 === 2 ? [1, 1] : [0, 0];
        rows.push([`${directory}/${name}`, `mode1 ${20 + i}`, damage, damage, elsewhere, shaOf(dumped), places.length > 0 ? 'not in the DAT' : `verified ${name}`].join('\t'));
        rows.push(dated(room, rows.pop()));
    }
    write(room, { 'all.dat': datOf(whole), 'two/notes.txt': 'no image' });
    return [...rows, otherRow(room, 'two/notes.txt', 'not recognised', 'no image', 'not in the DAT')];
}

test('a scan tells each image of a collection once, with what a list of dumps knows of it', () => inDirectory(async room => {
    const rows = writeCollection(room);
    symlinkSync('..', join(room, 'two', 'up'));
    write(join(room, 'one'), { 'again.cue': sheet('game 04.bin') });
    const { status, out, errors } = await run(['scan', 'one', 'two', 'one/game 00.bin', '--dat', 'all.dat'], { cwd: room });
    assert.deepEqual([status, out.split('\n').filter(Boolean).sort(), errors], [1, rows, `cdscript: 1 file is not a raw image\n${COUNTED}`]);
    const some = await run(['scan', 'one/game 00.cue', 'two/game 23.bin', '-o', 'list'], { cwd: room });
    assert.deepEqual([some.status, some.out], [0, '']);
    assert.deepEqual(read(room, 'list').toString(), [rows[0], rows[23]].map(row => `${withoutDat(row)}\n`).join(''));
    assert.equal((await run(['scan', 'one/game 01.bin'], { cwd: room })).status, 1);
}));

test('in a directory what is called like a raw image, and is none, is named', () => inDirectory(async room => {
    mkdirSync(join(room, 'set'));
    write(join(room, 'set'), { 'a.bin': imageOf(room, 20), 'b.IMG': '', 'c.bin': 'no image', 'd.txt': 'notes' });
    const { status, out, errors } = await run(['scan', 'set'], { cwd: room });
    assert.deepEqual([status, out.split('\n').length], [0, 5]);
    assert.equal(errors, ['3 files are not raw images', 'set/b.IMG has the extension of a raw image, but is an empty file',
        'set/c.bin has the extension of a raw image, but is not recognised', ''].join('\n').replace(/^(?=.)/gm, 'cdscript: '));
}));

/** An image of Mode 2 sectors from block 0. */
function mode2Of(room, count) {
    const image = imageOf(room, count);
    for (let i = 0; i < count; i++) image[2352 * i + 15] = 2;
    return image;
}

test('each file that is looked at has a row, which names what info names and what a DAT knows', () => inDirectory(async room => {
    const iso = Buffer.alloc(2048 * 20, 7);
    iso.write('CD001', 16 * 2048 + 1);
    const longer = Buffer.concat(Array.from({ length: 9 }, (_, i) => Buffer.concat([imageOf(room, 1, i), Buffer.alloc(96, 0x40)])));
    const others = { 'disc.iso': iso, 'game.zip': Buffer.from('PK\x03\x04 and more'), 'nothing.bin': Buffer.alloc(0), 'sub.bin': longer, 'notes.txt': Buffer.from('notes') };
    const images = { 'audio only.bin': noise(2352 * 30, 7), 'ps.bin': mode2Of(room, 40) };
    mkdirSync(join(room, 'set'));
    write(join(room, 'set'), { ...others, ...images });
    write(room, { 'all.dat': datOf({ 'Audio (Japan).bin': images['audio only.bin'], 'Disc.iso': iso, 'PS.bin': images['ps.bin'] }) });
    const known = { 'disc.iso': 'verified Disc.iso', 'audio only.bin': 'verified Audio (Japan).bin', 'ps.bin': 'verified PS.bin' };
    const kinds = { 'audio only.bin': 'audio', 'ps.bin': 'mode2 40' };
    for (const [name, bytes] of Object.entries(others)) {
        const [what] = (await run(['info', `set/${name}`], { cwd: room })).out.split('\n');
        kinds[name] = what.replace(`set/${name}: `, 'none: ');
        assert.equal(what.split(': ').length, 2, bytes);
    }
    const due = Object.entries({ ...others, ...images }).map(([name, bytes]) =>
        dated(room, [`set/${name}`, kinds[name], '-', '-', name === 'ps.bin' ? '0' : '-', shaOf(bytes), known[name] || 'not in the DAT'].join('\t'))).sort();
    for (const path of ['set', 'set/']) {
        const { status, out } = await run(['scan', path, '--dat', 'all.dat'], { cwd: room });
        assert.deepEqual([status, out.split('\n').filter(Boolean).sort()], [0, due]);
    }
    // A file that is named explicitly and is not an image is reported each time, although the list has it.
    const words = ['scan', 'set/disc.iso', 'set/audio only.bin', '--dat', 'all.dat', '--resume', 'set/list'];
    for (let i = 0; i < 2; i++) {
        const { status, errors } = await run(words, { cwd: room });
        assert.deepEqual([status, errors], [2, 'cdscript: set/disc.iso is an ISO image, 2048 bytes per sector\ncdscript: games: complete 0, incomplete 1, missing 0\ncdscript: verified 2, known as bad 0, not in the DAT 0\n']);
    }
    // The list is not a part of the collection that contains it.
    const all = await run(['scan', 'set', '--dat', 'all.dat', '--resume', 'set/list'], { cwd: room });
    assert.deepEqual([all.status, read(room, 'set/list').toString().split('\n').filter(Boolean).sort()], [0, due]);
}));

test('a column of what was not tested has no number', () => inDirectory(async room => {
    const others = 'FILE "data.iso" BINARY\n TRACK 01 MODE1/2048\n INDEX 01 00:00:00\nFILE "sound.wav" WAVE\n TRACK 02 AUDIO\n INDEX 01 00:00:00\n';
    const hole = Buffer.alloc(2352 * 8, 1);
    hole.set(mode2Of(room, 1));
    write(room, { 'ps.bin': Buffer.concat([mode2Of(room, 20), Buffer.alloc(5)]), 'data.iso': Buffer.alloc(2048 * 20, 1), 'sound.wav': 'RIFF', 'data.cue': others, 'hole.bin': hole,
        'hole.cue': sheet('hole.bin'), 'a.bin': Buffer.concat([imageOf(room, 20), mode2Of(room, 9)]) });
    const { status, out } = await run(['scan', 'ps.bin', 'data.cue', 'hole.cue', 'a.bin'], { cwd: room });
    const rows = out.split('\n').filter(Boolean).map(row => row.split('\t').slice(0, 5).join(' ')).sort();
    assert.deepEqual([status, rows], [1, ['a.bin mode2 9,mode1 20 0 10 9', 'data.iso mode1/2048 - 1 -', 'hole.bin mode2 1,nosync 7 - 8 0',
        'ps.bin mode2 20,tail 5 - 2 0', 'sound.wav audio - - -']]);
}));

test('a list that goes on with a DAT says of each line what that knows', () => inDirectory(async room => {
    const rows = writeCollection(room);
    const lines = () => read(room, 'list').toString().split('\n').filter(Boolean);
    write(room, { list: rows.slice(0, 30).map(row => `${withoutDat(row)}\n`).join('') + rows[35].slice(0, 20) });
    symlinkSync('list', join(room, 'link'));
    chmodSync(join(room, 'list'), 0o640);
    const said = 'cdscript: link: the seventh column was updated from the DAT; 30 lines changed\n';
    const { status, errors } = await run(['scan', 'one', 'two', '--dat', 'all.dat', '--resume', 'link'], { cwd: room });
    assert.deepEqual([status, errors, lines().sort()], [1, `${said}cdscript: 1 file is not a raw image\n${COUNTED}`, rows]);
    assert.deepEqual([lines().slice(0, 30), statSync(join(room, 'list')).mode & 0o777, lstatSync(join(room, 'link')).isSymbolicLink()],
        [rows.slice(0, 30), 0o640, true]);
    const before = statSync(join(room, 'list')).ino;
    const again = await run(['scan', 'one', 'two', '--dat', 'all.dat', '--resume', 'list'], { cwd: room });
    assert.deepEqual([again.status, again.errors, lines().sort(), statSync(join(room, 'list')).ino], [1, COUNTED, rows, before]);
    // Without a DAT nothing is looked up. With a different DAT each row gets its verdict.
    assert.deepEqual([(await run(['scan', 'one', '--resume', 'list'], { cwd: room })).errors, lines().sort()], ['', rows]);
    write(room, { 'other.dat': datOf({ 'Other.bin': Buffer.from('x') }) });
    await run(['scan', 'one', '--resume', 'list', '--dat', 'other.dat'], { cwd: room });
    assert.deepEqual(lines().map(line => line.split('\t')[6]), rows.map(() => 'not in the DAT'));
    assert.deepEqual(readdirSync(room).filter(name => name.startsWith('.')), []);
}));

test('a list whose lines cannot be written anew stays as it is', () => inDirectory(room => inDirectory(async streams => {
    const rows = writeCollection(room);
    const list = rows.slice(0, 30).map(row => `${join(room, withoutDat(row))}\n`).join('');
    write(room, { list });
    for (const [call_, fault] of [['openSync', 'EACCES'], ['writeSync', 'ENOSPC'], ['fsyncSync', 'EIO'], ['renameSync', 'EPERM']]) {
        const isOther = (name, [of, bytes]) => name === 'openSync' ? !String(of).includes('.cdscript-') : name === 'writeSync' && !bytes.includes(0x09);
        const hit = (name, given) => name === call_ && !isOther(name, given) ? faults.errorOf(fault) : null;
        const { status, errors } = await call(streams, ['scan', join(room, 'one'), '--dat', join(room, 'all.dat'), '--resume', join(room, 'list')],
            () => { faults.hit = hit; }, () => { faults.hit = () => null; });
        assert.equal(status, 2, call_);
        assert.match(errors, /^cdscript: cannot write .*\/list: /, call_);
        assert.deepEqual([read(room, 'list').toString(), readdirSync(room).filter(name => name.startsWith('.'))], [list, []], call_);
    }
    // The next row, of which only half was written, is removed again.
    let writes = 0;
    const full = await call(streams, ['scan', join(room, 'two'), '--dat', join(room, 'all.dat'), '--resume', join(room, 'list')], () => {
        faults.hit = (name, [, bytes]) => {
            writes += Number(name === 'writeSync' && bytes.includes(0x09));
            return name !== 'writeSync' || writes < 2 ? null : writes === 2 ? 'short' : faults.errorOf('ENOSPC');
        };
    }, () => { faults.hit = () => null; });
    assert.deepEqual([full.status, read(room, 'list').toString()], [2, rows.slice(0, 30).map(row => `${join(room, row)}\n`).join('')]);
})));

test('what could not be read is named, and the status is 2', () => inDirectory(async room => {
    const set = join(room, 'set');
    mkdirSync(set);
    write(set, { 'good.bin': imageOf(room, 20), 'gone.cue': sheet('nothing.bin'), 'text.txt': 'no image' });
    symlinkSync('nowhere', join(set, 'broken.bin'));
    const { status, out, errors } = await run(['scan', 'good.bin', 'gone.cue', 'text.txt', 'missing.bin', '.'], { cwd: set });
    assert.deepEqual([status, out.split('\n').filter(Boolean).map(row => row.split('\t')[0]).sort()], [2, ['good.bin', 'text.txt']]);
    for (const text of ['gone.cue names nothing.bin, which is not in the directory of the cue sheet.', 'text.txt is not recognised',
        'cannot read missing.bin: there is no such file or directory', 'cannot read broken.bin: there is no such file or directory']) {
        assert.equal(errors.split(`cdscript: ${text}\n`).length, 2, text);
    }
}));

test('a list goes on where it was interrupted, and tells nothing twice', () => inDirectory(async room => {
    const rows = writeCollection(room).map(withoutDat);
    // A killed run has left complete rows and the beginning of one.
    write(room, { list: `${rows[30]}\n${rows[3]}\n${rows[7].slice(0, 20)}` });
    const { status, out } = await run(['scan', 'one', 'two', '--resume', 'list'], { cwd: room });
    assert.deepEqual([status, out], [1, '']);
    const lines = () => read(room, 'list').toString().split('\n').filter(Boolean);
    assert.deepEqual(lines(), rows);
    const again = await run(['scan', 'one', 'two', '--resume', 'list'], { cwd: room });
    assert.deepEqual([again.status, lines()], [1, rows]);
}));

test('an image that is cut is marked, and the last column says whether there was a list of dumps', () => inDirectory(async room => {
    const [image, track] = [imageOf(room, 20), noise(2352 * 4 + 7, 3)];
    write(room, { 'a.bin': image, 'cut.bin': image.subarray(0, -1000), 'hurt.bin': damaged(image.subarray(0, -1), 0, [3, 100]), 'track.bin': track,
        'disc.cue': 'FILE "track.bin" BINARY\n TRACK 01 AUDIO\n INDEX 01 00:00:00\n', 'a.dat': datOf({ 'A.bin': image }) });
    const names = ['a.bin', 'cut.bin', 'hurt.bin', 'disc.cue'];
    const columns = async words => {
        const { status, out } = await run(['scan', ...names, ...words], { cwd: room });
        const rows = out.split('\n').filter(Boolean).sort().map(row => seven(row).split('\t'));
        return [status, rows.map(row => row.filter((_, i) => i !== 0 && i !== 5))];
    };
    const kinds = [['mode1 20', '0', '0', '0'], ['mode1 19,tail 1352', '0', '1', '0'], ['mode1 19,tail 2351', '1', '2', '0'], ['audio,tail 7', '-', '1', '-']];
    assert.deepEqual(await columns([]), [1, kinds.map(row => [...row, '-'])]);
    const known = ['verified A.bin', 'not in the DAT', 'not in the DAT', 'not in the DAT'];
    assert.deepEqual(await columns(['--dat', 'a.dat']), [1, kinds.map((row, i) => [...row, known[i]])]);
    // The row of a file that has changed is replaced; the row of a deleted file stays.
    const [row] = (await run(['scan', 'cut.bin'], { cwd: room })).out.split('\n');
    const longer = row.replace(',tail 1352\t0\t1', '\t0\t0').replace(`\t${image.length - 1000}\t`, `\t${image.length}\t`);
    write(room, { list: `${longer}\ngone.bin\taudio\t-\t1\t-\t${shaOf(track)}\t-\t${track.length}\t-\t-\t-\n` });
    const mended = await run(['scan', 'a.bin', 'cut.bin', '--dat', 'a.dat', '--resume', 'list'], { cwd: room });
    assert.deepEqual([mended.status, mended.errors.split('\n')[0]], [1, 'cdscript: list: 1 file no longer exists, but its line is kept']);
    assert.deepEqual(read(room, 'list').toString().split('\n').map(row => row.split('\t').slice(0, 7)).map(row => `${row[0]} ${row[1]} ${row[6]}`).sort(),
        [' undefined undefined', 'a.bin mode1 20 verified A.bin', 'cut.bin mode1 19,tail 1352 not in the DAT', 'gone.bin audio not in the DAT']);
    for (let i = 0; i < 2; i++) assert.equal((await run(['scan', ...names, '--dat', 'a.dat', '--resume', 'list'], { cwd: room })).status, 1);
    assert.equal(read(room, 'list').toString().split('\n').length, 6);
}));

test('a file that is no list is not gone on with, and stays as it is', () => inDirectory(async room => {
    const image = imageOf(room, 20);
    write(room, { 'a.bin': image, 'b.bin': damaged(image, 0, [3, 100]) });
    const row = dated(room, `a.bin\tmode1 20\t0\t0\t0\t${shaOf(image)}\t-`);
    const others = { 'x.bin': damaged(image, 0, [2, 9]), note: 'no list, and no end of a line', 'k.dat': datOf({ 'a.bin': image }), lines: `${row}\nmine\n`,
        columns: `${row}\n${row}\tmore\n`, half: row, some: `${seven(row)}\t5\n`, few: `${seven(row)}\n` };
    write(room, others);
    for (const [name, bytes] of Object.entries(others)) {
        const { status, errors } = await run(['scan', '--resume', name, 'a.bin', 'b.bin'], { cwd: room });
        assert.deepEqual([status, errors], [2, `cdscript: ${name} was not written by cdscript scan, and was left unchanged; give --resume a list that scan wrote, or a new file\n`]);
        assert.deepEqual(read(room, name), Buffer.from(bytes), name);
    }
    write(room, { empty: '' });
    assert.equal((await run(['scan', '--resume', 'empty', 'a.bin'], { cwd: room })).status, 0);
    assert.equal(read(room, 'empty').toString(), `${row}\n`);
}));

test('of a sheet of which the list has some files the others are told', () => inDirectory(async room => {
    const two = 'FILE "b.bin" BINARY\n TRACK 02 MODE1/2352\n INDEX 01 00:00:00\n';
    write(room, { 'a.bin': imageOf(room, 20), 'b.bin': imageOf(room, 20, 20), 'both.cue': sheet('a.bin') + two });
    const { out } = await run(['scan', 'both.cue'], { cwd: room });
    const rows = out.split('\n').filter(Boolean);
    write(room, { list: `${rows[0]}\n` });
    assert.equal((await run(['scan', 'both.cue', '--resume', 'list'], { cwd: room })).status, 0);
    assert.deepEqual([rows.length, read(room, 'list').toString()], [2, out]);
}));

test('a killed scan goes on', () => inDirectory(async room => {
    const rows = writeCollection(room).map(withoutDat);
    const listed = () => (read(room, 'list') || '').toString().split('\n').filter(Boolean);
    for (const most of [5, 15, Infinity]) {
        const child = spawn(process.execPath, ['-r', preload, command, 'scan', 'one', 'two', '--resume', 'list'],
            { cwd: room, env: { ...process.env, SLOW: most === Infinity ? '0' : '150' }, stdio: 'ignore' });
        const ended = new Promise(resolve => child.on('exit', (status, signal) => resolve(signal || status)));
        const watch = setInterval(() => listed().length >= most && child.kill('SIGKILL'), 5);
        assert.equal(await ended, most === Infinity ? 1 : 'SIGKILL');
        clearInterval(watch);
    }
    assert.deepEqual(listed().sort(), rows);
}));

test('an image that vanishes is named, and a full disk leaves whole lines', () => inDirectory(room => inDirectory(async streams => {
    const rows = writeCollection(room);
    const calling = (hit, words) => call(streams, words, () => { faults.hit = hit; }, () => { faults.hit = () => null; });
    let writes = 0;
    const full = await calling((name, [, bytes]) => {
        if (name !== 'writeSync' || !bytes.includes(0x09)) return null;
        writes += 1;
        return writes === 6 ? 'short' : writes > 6 ? faults.errorOf('ENOSPC') : null;
    }, ['scan', join(room, 'one'), join(room, 'two'), '--resume', join(room, 'list')]);
    assert.deepEqual([full.status, full.errors], [2, `cdscript: cannot write ${join(room, 'list')}: the disk is full\n`]);
    const kept = read(room, 'list').toString();
    assert.deepEqual([kept.split('\n').length, kept.endsWith('\n')], [6, true]);
    mkdirSync(join(room, 'three'));
    const vanished = await calling((name, [path]) => {
        if (name === 'readdirSync' && `${path}`.endsWith('three')) unlinkSync(join(room, 'two', 'game 39.bin'));
        return null;
    }, ['scan', ...['one', 'two', 'three'].map(it => join(room, it)), '--resume', join(room, 'list')]);
    assert.equal(vanished.status, 2);
    assert.match(vanished.errors, /^cdscript: cannot open .*two\/game 39\.bin: there is no such file or directory\n/);
    const lines = read(room, 'list').toString().split('\n').filter(Boolean).map(line => line.split('\t')[0]);
    assert.deepEqual([...lines].sort(), rows.filter((_, i) => i !== 39).map(row => join(room, row.split('\t')[0])));
})));

test('without threads a scan is the same', () => inDirectory(async room => {
    const rows = writeCollection(room);
    write(room, { 'none.cjs': "require('node:worker_threads').Worker = class { constructor() { throw new Error('EAGAIN'); } };" });
    const { status, stdout } = spawnSync(process.execPath, ['-r', './none.cjs', earlyCommand(room), 'scan', 'one', 'two', '--dat', 'all.dat'], { cwd: room, encoding: 'utf8' });
    assert.deepEqual([status, stdout.split('\n').filter(Boolean).sort()], [1, rows]);
}));

test('a thread that fails ends no scan', () => inDirectory(async room => {
    const rows = writeCollection(room);
    const scanWith = posted => {
        write(room, { 'fails.cjs': `require('node:worker_threads').Worker = class extends require('node:events') {
            constructor() { super(); setImmediate(() => { this.emit('online'); ${posted ? '' : 'this.fail()'} }); }
            fail() { this.emit('error', new Error('gone')); }
            postMessage() { ${posted ? 'setImmediate(() => this.fail())' : ''} }
            terminate() {} }` });
        const { status, stdout, stderr } = spawnSync(process.execPath, ['-r', './fails.cjs', earlyCommand(room), 'scan', 'one', 'two', '--dat', 'all.dat'],
            { cwd: room, encoding: 'utf8' });
        return { status, lines: stdout.split('\n').filter(Boolean).sort(), faults: stderr.split('\n').filter(it => it.endsWith(': Error: gone')) };
    };
    assert.deepEqual(scanWith(false), { status: 1, lines: rows, faults: [] });
    const { status, lines, faults } = scanWith(true);
    const named = faults.map(it => it.replace(/^cdscript: (.*): Error: gone$/, '$1'));
    assert.deepEqual([status, named.length > 0, lines], [2, true, rows.filter(row => !named.includes(row.split('\t')[0]))]);
}));

test('names of a collection are one line each, and no two are alike', () => inDirectory(async room => {
    const image = imageOf(room, 20);
    const names = ['a\tb.bin', 'a\nb.bin', 'a\\u{9}b.bin', 'a\x1b[2Jb.bin'];
    mkdirSync(join(room, 'odd'));
    for (const name of names) write(join(room, 'odd'), { [name]: image });
    const { out } = await run(['scan', 'odd'], { cwd: room });
    const told = out.split('\n').filter(Boolean).map(line => line.split('\t')[0]).sort();
    assert.deepEqual(told, ['odd/a\\\\u{9}b.bin', 'odd/a\\u{1b}[2Jb.bin', 'odd/a\\u{9}b.bin', 'odd/a\\u{a}b.bin'].sort());
}));

test('info and merge say whether a dump is known', () => inDirectory(async room => {
    const image = imageOf(room, 30);
    write(room, { 'a.bin': damaged(image, 0, [3, 100]), 'b.bin': damaged(image, 0, [9, 100]), 'good.bin': image, 'one.dat': datOf({ 'Other.bin': Buffer.from('x') }),
        'two.dat': datOf({ 'The Game (Japan).bin': image }) });
    const dats = ['--dat', 'one.dat', '--dat=two.dat'];
    assert.match((await run(['info', 'good.bin', ...dats], { cwd: room })).out, /\nfile good\.bin .*\nverified The Game \(Japan\)\.bin\ntrack /);
    assert.match((await run(['info', 'a.bin', ...dats], { cwd: room })).out, new RegExp(`\n${ONLY_SIZE}\n`));
    write(room, { 'cut.bin': image.subarray(0, -1000) });
    assert.match((await run(['info', 'cut.bin', ...dats], { cwd: room })).out, new RegExp(`\n${NOT_EVEN_SIZE}\n`));
    const merged = await run(['merge', 'a.bin', 'b.bin', 'out', ...dats], { cwd: room });
    assert.deepEqual([merged.status, merged.errors], [0, 'cdscript: out: verified The Game (Japan).bin\n']);
    sameFile(read(room, 'out'), image, 'the repaired image');
    const other = await run(['merge', 'a.bin', 'b.bin', 'new', '--dat', 'one.dat'], { cwd: room });
    assert.deepEqual([other.status, other.errors], [1, `cdscript: new: ${NOT_EVEN_SIZE}; its SHA-1 is ${shaOf(image)}\n`]);
    const hurt = damaged(image, 0, [3, 100]);
    const same = await run(['merge', 'a.bin', 'a.bin', 'same', ...dats], { cwd: room });
    assert.deepEqual([same.status, same.errors], [1, `cdscript: same: ${ONLY_SIZE}; its SHA-1 is ${shaOf(hurt)}\n`]);
    write(room, { 'bad.dat': '<datafile><x>&y;</x><rom name="&y;"/></datafile>' });
    const bad = await run(['merge', 'a.bin', 'b.bin', 'third', '--dat', 'bad.dat'], { cwd: room });
    assert.deepEqual([bad.status, existsSync(join(room, 'third'))], [2, false]);
    assert.match(bad.errors, /^cdscript: bad\.dat: it has the entity &y;/);
}));

/** The rows of a list, by their names. */
const linesOf = (room, name) => new Map(read(room, name).toString().split('\n').filter(Boolean).map(line => [line.split('\t')[0], line]));

test('a list goes on with files that were replaced, and names how many are gone', () => inDirectory(async room => {
    mkdirSync(join(room, 'set'));
    const image = imageOf(room, 20);
    write(join(room, 'set'), { 'a.bin': image, 'b.bin': image, 'c.bin': image, 'd.bin': image, 'e.bin': image, 'e.cue': sheet('e.bin') });
    const scan = async (...words) => (await run(['scan', 'set', '--resume', 'list', ...words], { cwd: room }));
    assert.equal((await scan()).status, 0);
    const before = linesOf(room, 'list');
    // A different time, a different size, a deleted file, and a file that only a sheet names.
    write(join(room, 'set'), { 'a.bin': damaged(image, 0, [3, 100]), 'b.bin': image.subarray(0, 2352 * 19), 'e.bin': damaged(image, 0, [5, 100]) });
    for (const name of ['a.bin', 'e.bin']) utimesSync(join(room, 'set', name), 1e9, 1e9);
    unlinkSync(join(room, 'set', 'c.bin'));
    const { status, errors } = await scan();
    const after = linesOf(room, 'list');
    const damages = ['a', 'b', 'c', 'd', 'e'].map(name => after.get(`set/${name}.bin`).split('\t').slice(1, 4).join(' '));
    assert.deepEqual([status, errors, after.size], [1, 'cdscript: list: 1 file no longer exists, but its line is kept\n', 5]);
    assert.deepEqual(damages, ['mode1 20 1 1', 'mode1 19 0 0', 'mode1 20 0 0', 'mode1 20 0 0', 'mode1 20 1 1']);
    assert.deepEqual(['c', 'd'].map(name => after.get(`set/${name}.bin`)), ['c', 'd'].map(name => before.get(`set/${name}.bin`)));
    // A file that is not examined keeps its row.
    utimesSync(join(room, 'set', 'd.bin'), 1e9, 1e9);
    await run(['scan', 'set/a.bin', '--resume', 'list'], { cwd: room });
    assert.deepEqual(linesOf(room, 'list'), after);
}));

test('a list that is no regular file is refused, and what is beside the list does not matter', () => inDirectory(async room => {
    write(room, { 'a.bin': imageOf(room, 20), list: '' });
    tool('mkfifo', ['pipe'], { cwd: room });
    symlinkSync('/dev/zero', join(room, 'endless'));
    for (const name of ['pipe', 'endless']) {
        const { status, stderr } = spawnSync(process.execPath, [command, 'scan', '--resume', name, 'a.bin'], { cwd: room, encoding: 'utf8', timeout: 30000 });
        assert.deepEqual([status, stderr], [2, `cdscript: cannot open ${name}: it is not a regular file\n`]);
    }
    write(room, { 'list.lock': `${process.ppid}\n` });
    const there = readdirSync(room);
    assert.equal((await run(['scan', 'a.bin', '--resume', 'list'], { cwd: room })).status, 0);
    assert.deepEqual(readdirSync(room), there);
}));

/** A row of a DAT without a SHA-1. */
const romWithoutSha = (name, bytes, hashes) => {
    const sums = { crc: crc32Of(bytes), md5: createHash('md5').update(bytes).digest('hex') };
    return `<game name="G"><rom name="${name}" size="${bytes.length}" ${hashes.map(it => `${it}="${sums[it]}"`).join(' ')}/></game>`;
};

/** The CRC-32 that gzip computes. */
const crc32Of = bytes => gzipSync(bytes).readUInt32LE(gzipSync(bytes).length - 8).toString(16).padStart(8, '0');

test('a DAT without SHA-1 is looked up by CRC32 and MD5, also for a list that lacks them', () => inDirectory(async room => {
    const image = imageOf(room, 20);
    const files = { 'a.bin': image, 'b.bin': damaged(image, 0, [3, 100]), 'c.bin': damaged(image, 0, [4, 100]) };
    write(room, { ...files, 'a.dat': `<datafile>${romWithoutSha('A.bin', image, ['crc', 'md5'])}${romWithoutSha('B.bin', files['b.bin'], ['md5'])}
        <game name="x"><rom name="x" size="1"/></game></datafile>` });
    const names = Object.keys(files);
    await run(['scan', ...names, '--resume', 'list'], { cwd: room });
    assert.match([...linesOf(room, 'list').values()].join('\n'), /^(a|b|c)\.bin\t.*\t-\t-$/m);
    const { status, errors } = await run(['scan', ...names, '--resume', 'list', '--dat', 'a.dat'], { cwd: room });
    const said = [...linesOf(room, 'list').values()].sort().map(line => line.split('\t')).map(row => [row[6], row[9], row[10].length]);
    assert.deepEqual(said, [['verified A.bin', crc32Of(image), 32], ['verified B.bin', crc32Of(files['b.bin']), 32], ['not in the DAT', crc32Of(files['c.bin']), 32]]);
    assert.deepEqual([status, errors], [1, 'cdscript: 1 entry of the DAT has no size or no hash, and cannot match a file\ncdscript: games: complete 1, incomplete 0, missing 0\ncdscript: verified 2, known as bad 0, not in the DAT 1\n']);
    const info = await run(['info', 'a.bin', '--dat', 'a.dat'], { cwd: room });
    assert.match(info.out, /\nverified A\.bin\n/);
    // Only one of the two hashes, and a CRC-32 that begins with 0.
    const short = Array.from({ length: 1000 }, (_, i) => Buffer.from(`text ${i}`)).find(bytes => crc32Of(bytes).startsWith('0'));
    write(room, { 'short.txt': short, 'md5.dat': `<datafile>${romWithoutSha('A.bin', image, ['md5'])}</datafile>`,
        'crc.dat': `<datafile>${romWithoutSha('S.txt', short, ['crc'])}</datafile>` });
    assert.match((await run(['scan', 'a.bin', '--dat', 'md5.dat'], { cwd: room })).out, /\tverified A\.bin\t/);
    assert.match((await run(['scan', 'short.txt', '--dat', 'crc.dat'], { cwd: room })).out, /\tverified S\.txt\t/);
    const merged = await run(['merge', 'b.bin', 'a.bin', 'out', '--dat', 'a.dat'], { cwd: room });
    assert.match(merged.errors, /cdscript: out: verified A\.bin\n/);
}));

test('the status and the last line say what a DAT knows', () => inDirectory(async room => {
    const image = imageOf(room, 20);
    const iso = Buffer.alloc(2048 * 20, 7);
    iso.write('CD001', 16 * 2048 + 1);
    const badDat = `<datafile><game name="G"><rom name="Bad.bin" size="${image.length}" sha1="${shaOf(image)}" status="baddump"/></game></datafile>`;
    write(room, { 'a.bin': image, 'b.bin': damaged(image, 0, [3, 100]), 'g.iso': iso, 'notes.txt': 'notes', 'other.txt': 'seven77', 'bad.dat': badDat,
        'two.dat': datOf({ 'Disc (Japan).bin': image, 'a.bin': image, 'I.iso': iso, 'seven': Buffer.from('sevens!') }), 'none.dat': datOf({ x: Buffer.from('x') }) });
    mkdirSync(join(room, 'set'));
    write(join(room, 'set'), { 'notes.txt': 'notes', 'other.txt': 'seven77' });
    const said = async (...words) => {
        const { status, out, errors } = await run(words, { cwd: room });
        return [status, out.split('\n').filter(Boolean).map(row => row.split('\t')[6]), errors.split('\n').slice(-2)[0]];
    };
    const counts = (verified, bad, unknown) => `cdscript: verified ${verified}, known as bad ${bad}, not in the DAT ${unknown}`;
    assert.deepEqual(await said('scan', 'a.bin', '--dat', 'two.dat'), [0, ['verified a.bin, and 1 other'], counts(1, 0, 0)]);
    assert.deepEqual(await said('scan', 'a.bin', '--dat', 'none.dat'), [1, ['not in the DAT'], counts(0, 0, 1)]);
    assert.deepEqual(await said('scan', 'a.bin', '--dat', 'bad.dat'), [1, ['known as a bad dump: Bad.bin'], counts(0, 1, 0)]);
    // Files that are not images count only if a dump has their size.
    assert.deepEqual(await said('scan', 'set', '--dat', 'none.dat'), [0, ['not in the DAT', 'not in the DAT'], counts(0, 0, 0)]);
    assert.deepEqual(await said('scan', 'set', '--dat', 'two.dat'), [1, ['not in the DAT', 'not in the DAT'], counts(0, 0, 1)]);
    const info = async (...words) => {
        const { status, out, errors } = await run(['info', ...words], { cwd: room });
        return [status, out.split('\n').find(line => /^(verified|known|the DAT)/.test(line)), errors.split('\n').slice(-2)[0]];
    };
    assert.deepEqual(await info('a.bin', '--dat', 'two.dat'), [0, 'verified a.bin, and 1 other', counts(1, 0, 0)]);
    assert.deepEqual(await info('a.bin', '--dat', 'none.dat'), [1, NOT_EVEN_SIZE, counts(0, 0, 1)]);
    assert.deepEqual(await info('a.bin', '--dat', 'bad.dat'), [1, 'known as a bad dump: Bad.bin', counts(0, 1, 0)]);
    assert.deepEqual(await info('g.iso', '--dat', 'two.dat'), [0, 'verified I.iso', counts(1, 0, 0)]);
    for (const [dat, due] of [['bad.dat', 1], ['none.dat', 1], ['two.dat', 0]]) {
        assert.equal((await run(['merge', 'b.bin', 'a.bin', `out ${dat}`, '--dat', dat], { cwd: room })).status, due, dat);
    }
}));

test('a cue sheet may have 128 KiB', () => inDirectory(async room => {
    const sheet = 'FILE "disc.bin" BINARY\n TRACK 01 MODE1/2352\n INDEX 01 00:00:00\n';
    for (const [size, kinds] of [[1 << 17, ['nosync 10']], [(1 << 17) + 1, ['audio', 'none: a text file']]]) {
        write(room, { 'disc.bin': Buffer.alloc(2352 * 10), 'disc.cue': sheet.padEnd(size) });
        const { out } = await run(['scan', '.'], { cwd: room });
        assert.deepEqual(out.split('\n').filter(Boolean).map(row => row.split('\t')[1]), kinds, `${size}`);
    }
}));
