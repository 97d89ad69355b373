// Complete translations: `replace --list`.

import assert from 'node:assert/strict';
import { spawn, spawnSync } from 'node:child_process';
import { readdirSync, truncateSync } from 'node:fs';
import { join } from 'node:path';
import { test } from 'node:test';
import { command, imageOf, inDirectory, program, read, run, tool, write, writeImage } from './common.mjs';

/** Messages without the one about characters that only new texts have. */
const withoutGlyphs = errors => errors.replace(/^(?:cdscript: )?\d+ characters? \w+ in no old text.*\n/m, '');

/** Runs `replace --list` with these rows below the head. */
const listed = async (room, head, rows, ...more) => {
    write(room, { list: [head, ...rows, ''].join('\n') });
    const done = await run(['replace', 'image', '--list', 'list', ...more], { cwd: room });
    return { ...done, errors: withoutGlyphs(done.errors) };
};

// アイ is 8341 8343 in CP932 and A5A2 A5A4 in EUC-JP, 王様 is 8B73 D869 in UTF-16LE.
const PLACES = [[2, 100, '83418343'], [2, 200, '8341000083418343'], [3, 2046, '8341'], [4, 0, '8343'], [4, 50, 'A5A2A5A4'], [5, 0, '8B73D869'], [5, 300, '4142434420202020']];
const HEAD = 'block\toffset\tbytes\troom\tencoding\tfile\ttext\tnew';

test('each row of a list with a new text is replaced, in the order of places', () => inDirectory(async room => {
    writeImage(room, ...PLACES);
    const done = await listed(room, HEAD, ['5\t0\t4\t4\tUTF-16LE\t-\t王様\tgo', '3\t2046\t4\t4\t\t-\tアイ\tok', '2\t100\t4\t4\tCP932\t-\tアイ\t',
        '4\t50\t4\t4\t\t-\tアイ\tウ', '2\t200\t8\t8\t\t-\tア{0000}アイ\t{41}{00}BC{0A}']);
    assert.deepEqual([done.status, done.errors], [0, 'cdscript: translations leave out {00} once: row 6\n']);
    assert.equal(done.out, ['cdpatch 1', 'set 2 200 410042432020200A was 8341000083418343', 'set 3 2046 6F6B2020 was 83418343',
        'set 4 50 A5A62020 was A5A2A5A4', 'set 5 0 67006F00 was 8B73D869', ''].join('\n'));
    const other = await listed(room, HEAD, ['4\t50\t4\t4\tCP932\t-\tアイ\tウ']);
    assert.deepEqual([other.status, other.errors.split('\n')[0]], [2, 'cdscript: row 2: the old text is not there']);
    write(room, { english: done.out });
    tool(program, ['apply', 'image', 'english', 'out'], { cwd: room });
    assert.equal(read(room, 'out').length, read(room, 'image').length);
}));

test('the codes that new texts leave out are named, each once', () => inDirectory(async room => {
    writeImage(room, [2, 0, '0341424341'], [2, 100, '410D0A0342'], [2, 200, '0341'], [2, 300, '4103']);
    const rows = ['2\t0\t{03}ABCA\tx', '2\t100\tA{0D0A}{03}B\t{0A}x{0d}{41}', '2\t200\t{03}A\t{0003}', '2\t300\tA{03}\t{{03'];
    const done = await listed(room, 'block\toffset\ttext\tnew', rows, '--encoding', 'CP932', '--partial');
    assert.deepEqual(done.errors.split('\n'), ['cdscript: row 5: the new text has 4 bytes in CP932, and there is room for 2: 2 too many',
        'cdscript: translations leave out {03} 3 times: rows 2, 3, 5', '']);
    assert.equal(done.out, 'cdpatch 1\nset 2 0 7820202020 was 0341424341\nset 2 100 0A780D4120 was 410D0A0342\nset 2 200 0003 was 0341\n');
}));

test('on an image that has the new texts already, that is said of each row', () => inDirectory(async room => {
    writeImage(room, [2, 0, '4F4B2020'], [2, 100, '73746172']);
    const rows = ['2\t0\tアイ\tOK', '2\t100\tア\tstar', '2\t100\tアイ\té', '2\t100\tアイ\tstay'];
    const done = await listed(room, 'block\toffset\ttext\tnew', rows, '--encoding', 'CP932');
    assert.deepEqual(done.errors.split('\n').slice(0, 4), ['row 2: the new text is already there', 'row 3: the new text is already there',
        'row 4: the old text is not there', 'row 5: the old text is not there'].map(line => `cdscript: ${line}`));
}));

test('a new text may take the room of the filling after the old one, and no byte more', () => inDirectory(async room => {
    writeImage(room, ...PLACES);
    const row = (place, size, text, fresh) => `${place}\t4\t${size}\t\t-\t${text}\t${fresh}`;
    const done = await listed(room, HEAD, [row('5\t300', 8, 'ABCD', 'ABCDEFGH'), row('2\t100', 6, 'アイ', 'abcdef')]);
    assert.equal(done.out, 'cdpatch 1\nset 2 100 616263646566 was 834183430000\nset 5 300 4142434445464748 was 4142434420202020\n');
    const long = await listed(room, HEAD, [row('5\t300', 99, 'ABCD', 'ABCDEFGHI'), row('2\t100', 5, 'アイ', 'abcdef'), row('4\t50', 4, 'アイ', 'ウエ')]);
    assert.deepEqual([long.status, long.out, long.errors.split('\n')], [2, '', [
        'cdscript: row 2: the new text has 9 bytes in CP932, and there is room for 8: 1 too many',
        'cdscript: row 3: the new text has 6 bytes in CP932, and there is room for 5: 1 too many',
        'cdscript: 2 rows do not fit, so no script was written; use --partial to leave them out', '']]);
    const without = await listed(room, 'block\toffset\ttext\tnew', ['5\t300\tABCD\tABCDE']);
    assert.equal(without.errors.split('\n')[0], 'cdscript: row 2: the new text has 5 bytes in CP932, and there is room for 4: 1 too many');
}));

test('a 00 after a text stays, since it ends it', () => inDirectory(async room => {
    writeImage(room, [2, 100, '414243'], [2, 106, '44'], [3, 100, '8B73D869'], [3, 110, '0030']);
    const row = (place, encoding, text, fresh) => `${place}\t99\t${encoding}\t${text}\t${fresh}`;
    const head = 'block\toffset\troom\tencoding\ttext\tnew';
    const done = await listed(room, head, [row('2\t100', 'CP932', 'ABC', 'ABCde'), row('3\t100', 'UTF-16LE', '王様', 'abcd')]);
    assert.equal(done.out, 'cdpatch 1\nset 2 100 4142436465 was 4142430000\nset 3 100 6100620063006400 was 8B73D86900000000\n');
    const long = await listed(room, head, [row('2\t100', 'CP932', 'ABC', 'ABCdef'), row('3\t100', 'UTF-16LE', '王様', 'abcde')]);
    assert.deepEqual([long.status, long.errors.match(/room for \d/g)], [2, ['room for 5', 'room for 8']]);
}));

test('all rows that do not fit are named, and left out only if that is asked for', () => inDirectory(async room => {
    writeImage(room, ...PLACES);
    write(room, { damaged: 'cdpatch 1\n' });
    const rows = ['2\t100\tアイ\té', '2\t101\tアイ\ta', '9999\t0\tアイ\ta', 'x\t0\tアイ\ta', '3\t2046\tアイ\tok', '4\t0\tイ\tno', '4\t50\tアイ\tok', '5\t0\té\ta'];
    const head = 'block\toffset\ttext\tnew';
    const refused = await listed(room, head, rows, '--encoding', 'CP932');
    const why = ['row 2: CP932 cannot encode \'é\' (U+00E9), character 1 of the text', 'row 3: the old text is not there',
        'row 4: the image has only the blocks 0 to 7', 'row 5: block or offset is not a number', 'row 7: it overlaps the text of row 6',
        'row 8: the old text is not there', 'row 9: CP932 cannot encode \'é\' (U+00E9), character 1 of the text',
        'if the font of the game can show a character that the encoding lacks, a character table (--table) gives it a code'];
    assert.deepEqual([refused.status, refused.out, refused.errors.split('\n').slice(0, -2)], [2, '', why.map(line => `cdscript: ${line}`)]);
    const partial = await listed(room, head, rows, '--encoding', 'CP932', '--partial');
    assert.deepEqual([partial.status, partial.out], [1, 'cdpatch 1\nset 3 2046 6F6B2020 was 83418343\n']);
    assert.deepEqual(partial.errors.split('\n').slice(0, -1), why.map(line => `cdscript: ${line}`));
}));

test('a list is TSV or CSV, in UTF-8 or UTF-16, and has to name its columns', () => inDirectory(async room => {
    writeImage(room, ...PLACES);
    const wanted = 'cdpatch 1\nset 2 100 6F6B2020 was 83418343\n';
    for (const text of ['block,offset,text,new\r\n2,100,"アイ",ok\r\n', '\uFEFFnew;text;offset;block\r\nok;アイ;100;2', 'BLOCK\tOffset\ttext\tnew\n2\t100\tアイ\tok']) {
        write(room, { list: text, wide: Buffer.from(`\uFEFF${text.replace('\uFEFF', '')}`, 'utf16le') });
        for (const name of ['list', 'wide']) assert.equal((await run(['replace', 'image', '--list', name], { cwd: room })).out, wanted);
    }
    const said = async words => (await run(words, { cwd: room })).errors;
    write(room, { none: 'block\toffset\ttext\tnew\n2\t100\tアイ\t\n', headless: '2\t100\tアイ\tok\n' });
    assert.equal(await said(['replace', 'image', '--list', 'none']), 'cdscript: none: no row of the list has a translation\n');
    assert.match(await said(['replace', 'image', '--list', 'headless']), /^cdscript: headless: the header in row 1 of the list lacks the columns /);
    assert.match(await said(['replace', 'image', '--list', 'none', 'アイ', 'ok']), /^cdscript: replace needs IMAGE; /);
    assert.match(await said(['replace', 'image', '--list', 'none', '--all']), /cannot be used together/);
    assert.match(await said(['replace', 'image', 'a', 'b', '--partial']), /--partial needs --list/);
    const fill = await run(['replace', 'image', '--list', 'list', '--fill', '00'], { cwd: room });
    assert.equal(fill.out, wanted.replace('2020', '0000'));
}));

test('a row may name less room than its old text has, and what lies after that room stays', () => inDirectory(async room => {
    writeImage(room, [2, 0, '41424320202B01']);
    const row = (size, fresh) => listed(room, 'block\toffset\troom\ttext\tnew', [`2\t0\t${size}\tABC  +{01}\t${fresh}`], '--encoding', 'CP932', '--partial');
    assert.equal((await row(5, 'Herb')).out, 'cdpatch 1\nset 2 0 4865726220 was 4142432020\n');
    assert.match((await row(5, 'Herbs!')).errors, /row 2: the new text has 6 bytes in CP932, and there is room for 5: 1 too many/);
    assert.match((await row(0, 'H')).errors, /there is room for 0: 1 too many/);
    assert.equal((await row(7, 'Herb')).out, 'cdpatch 1\nset 2 0 48657262202020 was 41424320202B01\n');
}));

test('--fill end fills up with the byte that ends texts, which a table may name', () => inDirectory(async room => {
    writeImage(room, [2, 0, '414141FF'], [2, 100, '414141']);
    write(room, { table: '41=A\n8140= \n/FF=[end]\n' });
    const rows = head => listed(room, 'block\toffset\ttext\tnew', ['2\t0\tAAA\tAA'], ...head);
    assert.equal((await rows(['--table', 'table', '--fill', 'end'])).out, 'cdpatch 1\nset 2 0 4141FF was 414141\n');
    const odd = 'cannot pad 1 byte with the 2-byte filler 81 40; use --fill with one byte';
    assert.equal((await rows(['--table', 'table'])).errors.split('\n')[0], `cdscript: row 2: ${odd}`);
    assert.equal((await rows(['--encoding', 'CP932', '--fill', 'end'])).out, 'cdpatch 1\nset 2 0 414100 was 414141\n');
    const placed = await run(['replace', 'image', '2', '100', 'AAA', 'A', '--encoding', 'CP932', '--fill', 'end'], { cwd: room });
    assert.equal(placed.out, 'cdpatch 1\nset 2 100 410000 was 414141\n');
    assert.match((await run(['replace', 'image', '2', '100', 'AAA', 'A', '--fill', 'ends'], { cwd: room })).errors, /^cdscript: --fill needs two hexadecimal digits/);
}));

test('a table of another tool is read, and the lines that mean nothing here are named once', () => inDirectory(async room => {
    writeImage(room, [2, 0, '41FE0141FF']);
    write(room, { table: '@JP\n41=A\n42=B\n20= \n$FE=[WAIT],1\n/FF\n!FD=KANJI,1\n' });
    const note = 'cdscript: lines 1, 7 of the table have no meaning here, and are ignored\n';
    const done = await listed(room, 'block\toffset\ttext\tnew', ['2\t0\tA[WAIT]{01}A\tB[WAIT]{02}'], '--table', 'table');
    assert.deepEqual([done.out, done.errors], ['cdpatch 1\nset 2 0 42FE0220 was 41FE0141\n', `${note}cdscript: translations leave out {01} once: row 2\n`]);
    const found = await run(['find', 'image', 'A[WAIT]', '--table', 'table'], { cwd: room });
    assert.match(found.errors, /^cdscript: lines 1, 7 of the table have no meaning here, and are ignored\n/);
    assert.ok((await run(['texts', 'image', '--table', 'table'], { cwd: room })).errors.includes(note));
}));

test('what a spreadsheet wrote for a formula, and a mistyped code, are rows that do not fit', () => inDirectory(async room => {
    writeImage(room, [2, 0, '3D41'], [2, 100, '4141'], [2, 200, '41414141'], [3, 0, `3D${'42'.repeat(23)}484954`]);
    const rows = ['2\t0\t{3D}A\t{3D}B', '2\t100\tAA\t#REF!', '2\t200\tAAAA\t{O1}'];
    const done = await listed(room, 'block\toffset\ttext\tnew', rows, '--encoding', 'CP932', '--partial');
    assert.deepEqual(done.errors.split('\n').slice(0, -1), ['cdscript: row 3: a spreadsheet wrote #REF! in place of a formula: write the text, with {3D} for =',
        'cdscript: row 4: {O1} is not a code: a code has two digits 0 to F for each byte; to write a brace, use {7B}']);
    assert.equal(done.out, 'cdpatch 1\nset 2 0 3D42 was 3D41\n');
    const plain = await listed(room, 'block\toffset\ttext\tnew', ['2\t0\t=A\t=B'], '--encoding', 'CP932');
    assert.deepEqual([plain.errors, plain.out], ['', done.out]);
    const found = await run(['find', 'image', 'HIT', '--encoding', 'CP932'], { cwd: room });
    assert.match(found.out, /^3\t24\t3\t-\t\{3D\}B{23}HIT\.+\n$/);
}));

test('a signal ends the replacing of a long list, and nothing is left of its script', () => inDirectory(async room => {
    writeImage(room, ...PLACES);
    write(room, { list: `block\toffset\ttext\tnew\n${Array.from({ length: 400000 }, (_, i) => `2\t0\tアイ\t${i}\n`).join('')}` });
    const child = spawn(process.execPath, [command, 'replace', 'image', '--list', 'list', '-o', 'out'], { cwd: room, stdio: 'ignore' });
    const ended = new Promise(resolve => { child.on('exit', (_, signal) => resolve(signal)); });
    await new Promise(resolve => { setTimeout(resolve, 700); });
    child.kill('SIGTERM');
    assert.equal(await ended, 'SIGTERM');
    assert.deepEqual(readdirSync(room).filter(name => name.startsWith('.') || name === 'out'), []);
}));

test('as many rows as a script has lines are replaced', () => inDirectory(async room => {
    const blocks = 640;
    const lines = Array.from({ length: blocks }, (_, block) => `fill ${block} 0 2048 41`);
    write(room, { plain: imageOf(room, blocks), edit: ['cdpatch 1', ...lines, ''].join('\n') });
    tool(program, ['apply', 'plain', 'edit', 'image'], { cwd: room });
    const rows = Array.from({ length: 65534 }, (_, i) => `${Math.floor(i / 103)}\t${i % 103 * 19}\tAAAA\tBB`);
    const done = await listed(room, 'block\toffset\ttext\tnew', rows, '--encoding', 'CP932');
    assert.deepEqual([done.status, done.out.split('\n').length], [0, 65536]);
    write(room, { english: done.out });
    tool(program, ['apply', 'image', 'english', 'out'], { cwd: room });
}));

test('a large list is read in bounded memory, and a longer one is refused by its size', () => inDirectory(room => {
    writeImage(room, ...PLACES);
    const head = 'block\toffset\ttext\tnew\n';
    // Only the rows of the gate would exceed the memory if they were kept.
    const rows = process.env.GATE ? 1e7 : 1e6;
    const lists = { rows: `${head}${'2\t100\t\t\n'.repeat(rows)}2\t100\tアイ\tok\n`, row: `${head}2\t100\tアイ\t${'a'.repeat(50 << 20)}\n`,
        cell: `${head}2\t100\t"${'""'.repeat(25 << 20)}"\tok\n`, nul: `${head}2\t100\t${'\0'.repeat(50 << 20)}\tok\n2\t100\tアイ\tok\n` };
    const said = Object.entries(lists).map(([name, list]) => {
        write(room, { [name]: list });
        const words = ['--max-old-space-size=600', command, 'replace', 'image', '--list', name, '--partial', '--encoding', 'CP932'];
        const { status, stdout, stderr } = spawnSync(process.execPath, words, { cwd: room, encoding: 'utf8', maxBuffer: 1 << 26 });
        return [status, stdout, withoutGlyphs(stderr).split('\n').slice(0, -1).map(line => line.replace('cdscript: ', '')).filter(line => !line.startsWith('file names are unknown: '))];
    });
    const [ok, why] = ['cdpatch 1\nset 2 100 6F6B2020 was 83418343\n', 'row 2: a text has more than 65536 characters'];
    const none = [why, 'no row fits, so no script was written'];
    assert.deepEqual(said, [[0, ok, []], [2, '', none], [2, '', none], [1, ok, [why]]]);
    truncateSync(join(room, 'rows'), 2 ** 28 + 1);
    const { status, stderr } = spawnSync(process.execPath, [command, 'replace', 'image', '--list', 'rows'], { cwd: room, encoding: 'utf8' });
    assert.deepEqual([status, stderr.split('\n').slice(-2)[0]], [2, 'cdscript: rows has 268435457 bytes, but a list may have at most 268435456']);
}));

test('a script with more patches than cdpatch accepts is reported with their number, before the rows are fitted', () => inDirectory(async room => {
    writeImage(room, ...PLACES);
    const said = 'cdscript: the script will have about 65,536 patches, and cdpatch accepts 65,535 at most: it will need cdscript apply --long';
    const rows = Array.from({ length: 65536 }, (_, i) => `99\t${i}\tア\tx`);
    const done = await listed(room, 'block\toffset\ttext\tnew', rows, '--encoding', 'CP932');
    assert.deepEqual([done.status, done.errors.split('\n')[0]], [2, said]);
    const fewer = await listed(room, 'block\toffset\ttext\tnew', [...rows.slice(1), rows[1]], '--encoding', 'CP932');
    assert.equal(fewer.errors.includes('patches'), false);
}));
