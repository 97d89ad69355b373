// The files of a collection that are examined: names as bytes, links, and the files named by cue sheets.

import assert from 'node:assert/strict';
import { spawnSync } from 'node:child_process';
import { createHash } from 'node:crypto';
import { linkSync, mkdirSync, rmSync, symlinkSync, writeFileSync } from 'node:fs';
import { createRequire } from 'node:module';
import { join } from 'node:path';
import { test } from 'node:test';
import { recordOf, volumeOf } from '../core/strangers.mjs';

// Must run before cdscript is loaded, which binds the calls.
const faults = createRequire(import.meta.url)('./faulty.cjs');
const { READING, command, imageOf, inDirectory, read, run, write } = await import('./common.mjs');

const sheet = name => `FILE "${name}" BINARY\n TRACK 01 MODE1/2352\n INDEX 01 00:00:00\n`;
const namesIn = text => text.split('\n').filter(Boolean).map(line => line.split('\t')[0]).sort();

/** The result of a scan: its status, the names in its rows, and its messages. */
async function scanned(room, ...words) {
    const { status, out, errors } = await run(['scan', ...words], { cwd: room });
    return [status, namesIn(out), errors];
}

test('names that are not UTF-8 are read, and no two are alike in a list', () => inDirectory(async room => {
    const image = imageOf(room, 20);
    const names = ['caf\xE9.bin', 'caf\xE8.bin', 'two \xC3.bin', 'gut \xC3\xA9.bin', 'a\\xe9.bin'];
    mkdirSync(join(room, 'set'));
    mkdirSync(Buffer.from(join(room, 'set/d\xF6dd'), 'latin1'));
    for (const name of names) writeFileSync(Buffer.from(join(room, 'set/d\xF6dd', name), 'latin1'), image);
    writeFileSync(Buffer.from(join(room, 'set/d\xF6dd', 'a.cue'), 'latin1'), sheet('gut é.bin'));
    const due = ['set/d\\xf6dd/a\\\\xe9.bin', 'set/d\\xf6dd/caf\\xe8.bin', 'set/d\\xf6dd/caf\\xe9.bin', 'set/d\\xf6dd/gut é.bin', 'set/d\\xf6dd/two \\xc3.bin'];
    assert.deepEqual(await scanned(room, 'set', '--resume', 'list'), [0, [], '']);
    assert.deepEqual(namesIn(read(room, 'list').toString()), due.sort());
    // The list's names are found again.
    assert.deepEqual(await scanned(room, 'set', '--resume', 'list'), [0, [], '']);
    assert.equal(read(room, 'list').toString().split('\n').length, 6);
}));

test('a name that is not UTF-8 may be an argument of what only reads', () => inDirectory(async room => {
    writeFileSync(Buffer.from(join(room, 'caf\xE9.bin'), 'latin1'), imageOf(room, 20));
    const shell = words => {
        const { status, stdout, stderr } = spawnSync('bash', ['-c', `"$0" "$1" ${words}`, process.execPath, command], { cwd: room, encoding: 'utf8' });
        return [status, stdout.split('\n')[0].split('\t')[0], stderr];
    };
    assert.deepEqual(shell("scan $'caf\\xe9.bin'"), [0, 'caf\\xe9.bin', '']);
    assert.deepEqual(shell("info $'caf\\xe9.bin'"), [0, 'caf..bin: a raw image, 2352 bytes per sector', '']);
    for (const words of ["scan $'caf\\xe9.bin' -o $'\\xe9'", "find made.bin $'\\xe9'", "raw made.bin $'\\xe9'", "scan '\uFFFD'"]) {
        assert.deepEqual(shell(words), [2, '', 'cdscript: the words are not text\n'], words);
    }
}));

test('links to directories are followed once, but not round', () => inDirectory(async room => {
    const image = imageOf(room, 20);
    for (const name of ['shelf', 'shelf/own', 'real', 'far', 'far/deep']) mkdirSync(join(room, name));
    for (const name of ['shelf/own/a.bin', 'real/r.bin', 'far/f.bin', 'far/deep/d.bin']) write(room, { [name]: image });
    const links = { 'shelf/disc': '../real', 'shelf/again': '../real', 'shelf/a own': 'own', 'shelf/up': '..', 'shelf/own/self': '.', 'real/far': '../far',
        'far/deep/back': '../../shelf', 'far/deep/round': '../deep' };
    for (const [name, target] of Object.entries(links)) symlinkSync(target, join(room, name));
    const due = ['shelf/again/far/deep/d.bin', 'shelf/again/far/f.bin', 'shelf/again/r.bin', 'shelf/own/a.bin'];
    assert.deepEqual(await scanned(room, 'shelf'), [0, due, '']);
    // A file in the collection itself is listed by its own name.
    assert.deepEqual((await scanned(room, 'shelf', 'real'))[1], ['real/far/deep/d.bin', 'real/far/f.bin', 'real/r.bin', 'shelf/own/a.bin']);
}));

test('a cue sheet in Windows-1252 finds its files, and so does one in CP932', () => inDirectory(async room => {
    const image = imageOf(room, 20);
    const names = ['Café’s – 2.bin', 'Pokémon.bin'];
    const bytes = { 'é': 0xE9, '’': 0x92, '–': 0x96 };
    for (const [i, name] of names.entries()) {
        write(room, { [name]: image, [`${i}.cue`]: Buffer.from(sheet(name).split('').map(it => bytes[it] || it.charCodeAt(0))) });
    }
    const kanji = Buffer.concat([Buffer.from('FILE "'), Buffer.from('968289A4', 'hex'), Buffer.from(sheet('.bin').slice(6))]);
    write(room, { '魔王.bin': image, 'kanji.cue': kanji });
    const due = ['Café’s – 2.bin', 'Pokémon.bin', '魔王.bin'];
    assert.deepEqual(await scanned(room, '0.cue', '1.cue', 'kanji.cue'), [0, due.sort(), '']);
    assert.equal((await run(['info', '0.cue'], { cwd: room })).status, 0);
}));

test('a cue sheet finds files in directories below it, and never outside', () => inDirectory(async room => {
    const image = imageOf(room, 20);
    for (const name of ['set', 'set/Sub', 'set/b', 'out']) mkdirSync(join(room, name));
    write(room, { 'set/Sub/t.bin': image, 'set/b/t.bin': imageOf(room, 30), 'out/o.bin': image, 'set/beside.bin': image,
        'set/one.cue': sheet('sub/T.BIN'), 'set/two.cue': `${sheet('sub\\t.bin')}FILE "b/t.bin" BINARY\n TRACK 02 MODE1/2352\n INDEX 01 00:00:00\n`,
        'set/out.cue': sheet('../out/o.bin'), 'set/link.cue': sheet('link/o.bin'), 'set/whole.cue': sheet(join(room, 'out/o.bin')),
        'set/old.cue': sheet('C:\\rips\\beside.bin') });
    symlinkSync('../out', join(room, 'set', 'link'));
    assert.deepEqual(await scanned(room, 'set/one.cue'), [0, ['set/Sub/t.bin'], '']);
    const { out } = await run(['scan', 'set/two.cue'], { cwd: room });
    assert.deepEqual(out.split('\n').filter(Boolean).map(row => row.split('\t').slice(0, 2).join(' ')).sort(),
        ['set/Sub/t.bin mode1 20', 'set/b/t.bin mode1 30']);
    assert.deepEqual((await scanned(room, 'set/old.cue'))[1], ['set/beside.bin']);
    for (const name of ['out', 'link', 'whole']) {
        const [status, names, errors] = await scanned(room, `set/${name}.cue`);
        assert.deepEqual([status, names], [1, []]);
        assert.match(errors, /, which is not in the directory of the cue sheet\.\n$/);
    }
}));

test('a file that a sheet names often is looked at once', () => inDirectory(async room => {
    write(room, { 'a.bin': imageOf(room, 20), 'often.cue': `${'FILE "a.bin" BINARY\n'.repeat(190)}${sheet('a.bin')}`, 'bomb.cue': `${'FILE a B\n'.repeat(13000)}${sheet('a.bin')}` });
    assert.deepEqual(await scanned(room, 'often.cue'), [0, ['a.bin'], '']);
    assert.equal((await run(['info', 'often.cue'], { cwd: room })).out.match(/^file /gm).length, 1);
    assert.deepEqual(await scanned(room, 'bomb.cue'), [2, [], 'cdscript: bomb.cue: line 199 of the cue sheet: more than 198 files\n']);
}));

test('- is standard input for scan too', () => inDirectory(async room => {
    const image = imageOf(room, 20);
    const { status, stdout } = spawnSync(process.execPath, [command, 'scan', '-'], { input: image, cwd: room, encoding: 'utf8' });
    assert.deepEqual([status, stdout.split('\t').slice(0, 2), stdout.split('\t').slice(7)], [0, ['-', 'mode1 20'], [`${image.length}`, '-', '-', '-\n']]);
}));

/** Runs cdscript in this process. Returns its status, and how many bytes of files it read by their places. */
async function bytesRead(room, words) {
    let bytes = 0;
    faults.hit = (name, [, , , length, place]) => {
        if (name === 'readSync' && typeof place === 'number') bytes += length;
        return null;
    };
    const { status, out, errors } = await run(words, { cwd: room });
    faults.hit = () => null;
    return { status, bytes, out, errors };
}

test('an image is tested and hashed once, however many sheets, links, and hard links lead to it', () => inDirectory(async room => {
    const image = imageOf(room, 8000);
    const shapes = {
        sheets: (set, count) => Array.from({ length: count }, (_, i) => write(set, { [`${i}.cue`]: sheet('z.bin') })),
        links: (set, count) => Array.from({ length: count }, (_, i) => symlinkSync('z.bin', join(set, `${i}.bin`))),
        'hard links': (set, count) => Array.from({ length: count }, (_, i) => linkSync(join(set, 'z.bin'), join(set, `${i}.bin`))),
        'a sheet for each hard link': (set, count) => Array.from({ length: count }, (_, i) => {
            linkSync(join(set, 'z.bin'), join(set, `${i}.bin`));
            write(set, { [`${i}.cue`]: sheet(`${i}.bin`) });
        }),
    };
    for (const [shape, make] of Object.entries(shapes)) {
        const runs = [];
        for (const count of [1, 8]) {
            const set = join(room, `${shape}${count}`);
            mkdirSync(set);
            write(set, { 'z.bin': image });
            make(set, count);
            const { status, bytes, out } = await bytesRead(room, ['scan', `${shape}${count}`]);
            // Each hard link has its line, and all lines say the same.
            const lines = out.split('\n').filter(Boolean).map(line => line.split('\t').slice(1).join('\t'));
            assert.deepEqual([status, lines.length, new Set(lines).size], [0, shape.includes('hard') ? count + 1 : 1, 1], shape);
            runs.push(bytes);
        }
        // To open a sheet reads samples of the image.
        assert.ok(runs[0] >= image.length && runs[1] < 3 * image.length, `${shape}: ${runs}`);
    }
}));

/** The bytes of files that jobs read may grow by this factor if eight times as many names lead to the same bytes. */
const MOST_GROWTH = 1.5;

test('no job reads the same bytes again for each directory record, track, name in a sheet, or entry of a DAT', () => inDirectory(async room => {
    const [extent, first] = [100000, 28];
    const user = count => {
        const made = volumeOf(first + 100, sector => sector === 18 ? Array.from({ length: count }, (_, i) => recordOf(`FILE${i === 0 ? '' : i}`, first, extent, { flags: 0 })) : []);
        for (let i = 0; i < 100; i++) made.set(new TextEncoder().encode(`Text number ${i} of the game.`), (first + i) * 2048);
        return made;
    };
    const names = count => Array.from({ length: count }, (_, i) => i);
    const hash = bytes => createHash('sha1').update(bytes).digest('hex');
    write(room, { script: `cdpatch 1\nset ${first} 0 55\n`, table: '54=T\n41=A\n', list: `block\toffset\ttext\tnew\n${first}\t0\tText\tTEXT\n`, file: 'x' });
    const shapes = {
        records: async count => { write(room, { iso: user(count) }); return 'image'; },
        tracks: async count => {
            write(room, { iso: user(1), 'tracks.cue': `FILE "image" BINARY\n${names(count).map(i =>
                ` TRACK ${String(i + 1).padStart(2, '0')} MODE1/2352\n INDEX 01 00:0${i === 0 ? '0:00' : `1:${15 + 2 * i}`}\n`).join('')}` });
            return 'tracks.cue';
        },
        'names in a sheet': async count => {
            write(room, { iso: user(1), 'names.cue': `${'FILE "image" BINARY\n'.repeat(count - 1)}${sheet('image')}` });
            return 'names.cue';
        },
        'entries of a DAT': async count => { write(room, { iso: user(1), entries: String(count) }); return 'image'; },
    };
    const others = { check: 'script', apply: 'script', undo: 'script', find: 'table', show: 'table', texts: 'list', replace: 'list', 'replace-file': 'file',
        diff: 'image', merge: 'other' };
    for (const [shape, make] of Object.entries(shapes)) {
        const costs = {};
        for (const count of [1, 8]) {
            const image = await make(count);
            await inDirectory(async made => {
                await run(['raw', join(room, 'iso'), join(made, 'image')], { cwd: room });
                write(room, { image: read(made, 'image'), other: read(made, 'image') });
            });
            const entries = shape === 'entries of a DAT' ? count : 1;
            const [size, sha1] = [read(room, 'image').length, hash(read(room, 'image'))];
            write(room, { dat: `<datafile>${names(entries).map(i => `<game name="${i}"><rom name="${i}" size="${size}" sha1="${sha1}"/></game>`).join('')}</datafile>` });
            for (const [job, form] of [...Object.entries(READING), ['texts', 'texts IMAGE --encoding Windows-1252 --pointers NEW']]) {
                if (job === 'raw') continue;
                const words = form.replace('IMAGE', image).replace('OTHER', others[job] ?? 'dat').replace('NEW', 'new').split(' ');
                const { status, bytes, errors } = await bytesRead(room, words);
                assert.ok(status < 2, `${words.join(' ')}: ${errors}`);
                costs[form] = [...costs[form] ?? [], bytes];
                rmSync(join(room, 'new'), { force: true });
            }
        }
        for (const [form, [one, eight]] of Object.entries(costs)) {
            assert.ok(one > 0 && eight < MOST_GROWTH * one, `${shape}, ${form}: ${one} and ${eight} bytes`);
        }
    }
}));
