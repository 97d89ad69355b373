// Files of a disc that change their length, and files of several extents: `replace-file`, `extract`, and texts that cross extents.

import assert from 'node:assert/strict';
import { test } from 'node:test';
import { recordOf, volumeOf } from '../core/strangers.mjs';
import { discOf, encoded, noise, skip } from './discs.mjs';
import { damaged, inDirectory, program, read, run, sameFile, tool, write } from './common.mjs';

const USER = 2048;

/** Creates `disc.bin` from user data. */
async function makeRaw(room, user) {
    write(room, { 'disc.iso': user });
    assert.equal((await run(['raw', 'disc.iso', 'disc.bin'], { cwd: room })).status, 0);
}

/** The user data after the program has applied a script. */
async function patched(room, script) {
    tool('rm', ['-f', 'new.bin', 'new.iso'], { cwd: room });
    write(room, { script });
    tool(program, ['apply', 'disc.bin', 'script', 'new.bin'], { cwd: room });
    assert.equal(tool(program, ['audit', 'new.bin'], { cwd: room }).toString().split('damaged ')[1], '0 tail 0\n');
    assert.equal((await run(['user', 'new.bin', 'new.iso'], { cwd: room })).status, 0);
    return read(room, 'new.iso');
}

/** Runs `replace-file` with new bytes. */
function replaced(room, path, fresh, ...words) {
    write(room, { fresh });
    return run(['replace-file', 'disc.bin', path, 'fresh', ...words], { cwd: room });
}

/** Extracts a file with isoinfo, using the names that an option selects. */
const isoFile = (room, path, ...options) => tool('isoinfo', [...options, '-x', path, '-i', 'new.iso'], { cwd: room });

test('a file of another length gets it in each record that names it, and zeros after it', { skip }, () => inDirectory(async room => {
    const files = { 'DATA/TEXT.DAT': noise(5000, 1), 'DATA/MORE.DAT': noise(3 * USER, 2), 'OTHER.BIN': noise(7000, 3) };
    await discOf(room, files, { options: ['-R', '-J'] });
    const before = read(room, 'disc.iso');
    const at = before.indexOf(files['DATA/TEXT.DAT']);
    for (const size of [6144, 5001, 4999, 2048, 1, 0]) {
        const fresh = noise(size, 9);
        const made = await replaced(room, '/DATA/TEXT.DAT', fresh);
        assert.deepEqual([made.status, made.errors], [0, `cdscript: /DATA/TEXT.DAT: 5000 bytes, now ${size}\n`]);
        const after = await patched(room, made.bytes);
        for (const [path, ...options] of [['/DATA/TEXT.DAT', '-R'], ['/DATA/TEXT.DAT', '-J'], ['/DATA/TEXT.DAT;1']]) {
            sameFile(isoFile(room, path, ...options), fresh, `${size} ${options}`);
        }
        sameFile(after.subarray(at, at + 6144), Buffer.concat([fresh, Buffer.alloc(6144 - size)]), 'the file and zeros');
        const others = before.map((byte, i) => Number(byte !== after[i] && (i < at || i >= at + 6144))).reduce((sum, is) => sum + is, 0);
        assert.ok(others > 0 && others <= 12, `${others} bytes of two records`);
        assert.equal((await run(['extract', 'new.bin', '/DATA/TEXT.DAT', `out${size}`], { cwd: room })).status, 0);
        sameFile(read(room, `out${size}`), fresh, 'what cdscript reads');
        sameFile(isoFile(room, '/DATA/MORE.DAT', '-R'), files['DATA/MORE.DAT'], 'another file');
    }
}));

test('a file of an image that begins with another block is replaced there', { skip }, () => inDirectory(async room => {
    const fresh = noise(4000, 9);
    await discOf(room, { 'A.BIN': noise(5000, 1), 'B.BIN': noise(100, 2) }, { options: [] });
    assert.equal((await run(['raw', 'disc.iso', 'later.bin', '--first', '300'], { cwd: room })).status, 0);
    write(room, { fresh });
    assert.equal((await run(['replace-file', 'later.bin', '/A.BIN', 'fresh', '-o', 'script'], { cwd: room })).status, 0);
    assert.match(read(room, 'script').toString(), /^cdpatch \d\n# base 300\n/);
    tool(program, ['apply', '--base', '300', 'later.bin', 'script', 'new.bin'], { cwd: room });
    assert.equal((await run(['user', 'new.bin', 'new.iso'], { cwd: room })).status, 0);
    sameFile(isoFile(room, '/A.BIN;1'), fresh, 'the new file');
}));

test('a file that is longer than its sectors is refused with both lengths', { skip }, () => inDirectory(async room => {
    await discOf(room, { 'A.DAT': noise(5000, 1), 'EMPTY': '' }, { options: ['-R'] });
    const said = async (...given) => (await replaced(room, ...given)).errors;
    assert.equal(await said('/A.DAT', noise(6145, 2)), 'cdscript: /A.DAT has 5000 bytes and room for 6144, but the new file has 6145\n');
    assert.equal(await said('/EMPTY', noise(1, 2)), 'cdscript: /EMPTY has 0 bytes and room for 0, but the new file has 1\n');
    assert.equal(await said('/A.DAT', noise(5001, 2), '--fill', '20'), 'cdscript: /A.DAT has 5000 bytes, but the new file has 5001\n');
    const none = await replaced(room, '/EMPTY', '');
    assert.deepEqual([none.status, none.out], [0, 'cdpatch 1\n']);
}));

test('with --fill the length stays, and nothing but the file changes', { skip }, () => inDirectory(async room => {
    await discOf(room, { 'A.DAT': noise(5000, 1) }, { options: ['-R', '-J'] });
    const made = await replaced(room, '/A.DAT', noise(4990, 2), '--fill', '2E');
    assert.deepEqual([made.status, made.errors], [0, 'cdscript: padded with 10 bytes (2E)\n']);
    const due = read(room, 'disc.iso');
    Buffer.concat([noise(4990, 2), Buffer.alloc(10, 0x2E)]).copy(due, due.indexOf(noise(5000, 1)));
    sameFile(await patched(room, made.bytes), due, 'the disc');
}));

test('on a disc with UDF a file keeps its length', { skip }, () => inDirectory(async room => {
    await discOf(room, { 'A.DAT': noise(5000, 1) }, { options: ['-R', '-J', '-udf'] });
    const why = 'the UDF file system of the disc would keep the old length of /A.DAT: use --fill to keep the length';
    for (const size of [5001, 4999]) {
        const { status, out, errors } = await replaced(room, '/A.DAT', noise(size, 2));
        assert.deepEqual([status, out, errors], [2, '', `cdscript: ${why}\n`]);
    }
    assert.equal((await replaced(room, '/A.DAT', noise(5000, 2))).status, 0);
    assert.equal((await replaced(room, '/A.DAT', noise(4999, 2), '--fill', '00')).status, 0);
}));

const ROOT = 18;
const file = (name, extent, size, flags = 0) => recordOf(name, extent, size, { flags });

test('two names of one file both get its length, and what has some of its blocks is named', () => inDirectory(async room => {
    const records = { one: [file('A', 20, 3000), file('B', 20, 3000), file('EMPTY', 20, 0), file('C', 22, 2048)],
        more: [file('A', 20, 3000), file('B', 21, 100)], above: [file('A', 19, 3000), file('B', 20, 9000)] };
    const disc = name => makeRaw(room, volumeOf(30, sector => sector === ROOT ? records[name] : []));
    await disc('one');
    const made = await replaced(room, '/A', noise(4096, 1));
    const listed = async () => (await run(['files', 'new.bin'], { cwd: room })).out;
    await patched(room, made.bytes);
    assert.equal(await listed(), '20\t4096\t/A\n20\t4096\t/B\n20\t0\t/EMPTY\n22\t2048\t/C\n');
    for (const name of ['more', 'above']) {
        tool('rm', ['-f', 'disc.bin'], { cwd: room });
        await disc(name);
        const { status, out, errors } = await replaced(room, '/A', noise(2999, 1));
        assert.deepEqual([status, out, errors], [2, '', 'cdscript: the length of /A cannot change: /B has some of its blocks\n']);
        const kept = await replaced(room, '/A', noise(3000, 1));
        assert.deepEqual([kept.status, kept.errors], [0, 'cdscript: /B shares blocks with /A, and changes too\n']);
    }
}));

test('a file that has blocks of the volume itself is not replaced, whatever its length', () => inDirectory(async room => {
    const records = [file('VD', 16, 2048), file('ROOT', 18, 2048), file('OVER', 17, 9000), file('TABLE', 25, 100), file('A', 26, 100)];
    const user = volumeOf(30, sector => sector === ROOT ? records : []);
    user.set([10, 0, 0, 0, 0, 0, 0, 10, 25, 0, 0, 0], 16 * USER + 132);
    await makeRaw(room, user);
    const why = { '/VD': [2048, 'block 16 of /VD contains a descriptor'], '/ROOT': [2048, 'block 18 of /ROOT contains a directory'],
        '/OVER': [9000, 'block 18 of /OVER contains a directory'], '/TABLE': [100, 'block 25 of /TABLE contains a path table'] };
    for (const [path, [size, text]] of Object.entries(why)) {
        for (const words of [[noise(size, 1)], [noise(size - 1, 1)], [noise(size - 1, 1), '--fill', '00']]) {
            const { status, out, errors } = await replaced(room, path, ...words);
            assert.deepEqual([status, out, errors], [2, '', `cdscript: ${text} of the volume, which cannot be replaced\n`]);
        }
    }
    assert.equal((await replaced(room, '/A', noise(99, 1))).status, 0);
}));

test('a directory in a damaged sector is named, and no script is written', () => inDirectory(async room => {
    await makeRaw(room, volumeOf(30, sector => sector === ROOT ? [file('A', 20, 3000)] : []));
    write(room, { 'disc.bin': damaged(read(room, 'disc.bin'), 0, [ROOT, 2100]) });
    const { status, out, errors } = await replaced(room, '/A', noise(2999, 1));
    assert.deepEqual([status, out, errors], [2, '', `cdscript: block ${ROOT} is damaged: repair it first\n`]);
}));

/** A disc whose file /BIG has three extents, the second before the first. Its user data are noise, with a text across each border. */
async function makeParts(room) {
    const user = volumeOf(40, sector => sector === ROOT ? [file('BIG', 30, 4096, 128), file('BIG', 20, 2048, 128), file('BIG', 25, 1000),
        file('NEXT', 32, 2048), file('SOON', 21, 2048)] : []);
    const whole = noise(7144, 5);
    const texts = [encoded('城の地下に宝がある', 'CP932'), encoded('魔法使いは古い塔から帰ってきた', 'CP932')];
    texts.forEach((text, i) => {
        whole.fill(0, [4096, 6144][i] - 12, [4096, 6144][i] + 40);
        text.copy(whole, [4096, 6144][i] - 7);
    });
    [[30, 0, 4096], [20, 4096, 2048], [25, 6144, 1000]].forEach(([block, from, size]) => user.set(whole.subarray(from, from + size), block * USER));
    await makeRaw(room, user);
    return whole;
}

test('extract joins the parts of a file in their order', () => inDirectory(async room => {
    const whole = await makeParts(room);
    const { status, errors } = await run(['extract', 'disc.bin', '/BIG', 'out'], { cwd: room });
    assert.deepEqual([status, errors], [0, '']);
    sameFile(read(room, 'out'), whole, 'the file');
    const listed = await run(['files', 'disc.bin'], { cwd: room });
    assert.deepEqual([listed.status, listed.out], [1, ['20\t2048\t/BIG\tit has several extents', '21\t2048\t/SOON',
        '25\t1000\t/BIG\tit has several extents', '30\t4096\t/BIG\tit has several extents', '32\t2048\t/NEXT', ''].join('\n')]);
}));

test('a file of several parts gets other bytes and another length, part by part', () => inDirectory(async room => {
    await makeParts(room);
    for (const size of [8192, 7144, 7000, 5000, 100]) {
        const fresh = noise(size, 7);
        const made = await replaced(room, '/BIG', fresh);
        assert.equal(made.status, 0, made.errors);
        await patched(room, made.bytes);
        tool('rm', ['-f', 'out'], { cwd: room });
        await run(['extract', 'new.bin', '/BIG', 'out'], { cwd: room });
        sameFile(read(room, 'out'), fresh, `${size}`);
        for (const other of ['/NEXT', '/SOON']) {
            tool('rm', ['-f', 'old', 'new'], { cwd: room });
            await run(['extract', 'disc.bin', other, 'old'], { cwd: room });
            await run(['extract', 'new.bin', other, 'new'], { cwd: room });
            sameFile(read(room, 'new'), read(room, 'old'), other);
        }
    }
    assert.equal((await replaced(room, '/BIG', noise(8193, 7))).errors, 'cdscript: /BIG has 7144 bytes and room for 8192, but the new file has 8193\n');
}));

test('parts that are no file, and a part of which the image has not all, are refused by name', () => inDirectory(async room => {
    const records = [file('HALF', 20, 2048, 128), file('HALF', 39, 4096), file('TWICE', 21, 100), file('TWICE', 22, 100),
        file('OVER', 24, 4096, 128), file('OVER', 25, 4096)];
    await makeRaw(room, volumeOf(40, sector => sector === ROOT ? records : []));
    const why = { '/HALF': '/HALF: the image does not contain all of it', '/TWICE': '/TWICE has 2 directory records that do not form one file',
        '/OVER': 'the parts of /OVER overlap' };
    for (const [path, text] of Object.entries(why)) {
        const { status, errors } = await run(['extract', 'disc.bin', path, 'out'], { cwd: room });
        assert.deepEqual([status, errors, read(room, 'out')], [2, `cdscript: ${text}\n`, null]);
    }
}));

test('a text over extents that lie apart is found, listed and replaced', () => inDirectory(async room => {
    const whole = await makeParts(room);
    const found = await run(['find', 'disc.bin', '地下に宝', '--encoding', 'CP932'], { cwd: room });
    assert.deepEqual(found.out.split('\t').slice(0, 4), ['31', '2045', '8', '/BIG+4093']);
    assert.ok(found.out.includes('城の地下に宝がある'), found.out);
    const later = await run(['find', 'disc.bin', '古い塔', '--encoding', 'CP932'], { cwd: room });
    assert.deepEqual(later.out.split('\t').slice(0, 4), ['25', '3', '6', '/BIG+6147']);
    const all = await run(['texts', 'disc.bin'], { cwd: room });
    const rows = all.out.split('\n').slice(1, -1).map(line => line.split('\t'));
    assert.deepEqual(rows.map(row => [row[0], row[1], row[5], row[6]]), [['31', '2041', '/BIG+4089', '城の地下に宝がある'],
        ['20', '2041', '/BIG+6137', '魔法使いは古い塔から帰ってきた']]);
    const texts = ['塔', '魔法使いは新しい城から'];
    const list = [all.out.split('\n')[0], ...rows.map((row, i) => [...row.slice(0, 7), texts[i]].join('\t'))].join('\n');
    const due = Buffer.from(whole);
    [[4089, 18, '塔'], [6137, 30, '魔法使いは新しい城から']].forEach(([at, size, text]) => {
        due.fill(0x20, at, at + size);
        encoded(text, 'CP932').copy(due, at);
    });
    write(room, { list });
    const made = await run(['replace', 'disc.bin', '--list', 'list'], { cwd: room });
    const characters = 'cdscript: 2 characters are in no old text: し 新. Does the font of the game have them?\n';
    assert.deepEqual([made.status, made.errors, made.out.split('\n').length], [0, characters, 6]);
    await patched(room, made.bytes);
    await run(['extract', 'new.bin', '/BIG', 'out'], { cwd: room });
    sameFile(read(room, 'out'), due, 'the file');
    const one = await run(['replace', 'disc.bin', '城の地下に宝がある', '塔'], { cwd: room });
    const placed = await run(['replace', 'disc.bin', '31', '2041', '城の地下に宝がある', '塔'], { cwd: room });
    assert.deepEqual([one.status, placed.status, one.out], [0, 0, placed.out]);
    assert.equal(one.out, made.out.split('\n').filter(line => !/^set (20 2041|25)/.test(line)).join('\n'));
}));
