// The jobs that read a disc or write scripts: their results compared with other software and a naive search, and their scripts applied by
// the program.

import assert from 'node:assert/strict';
import { existsSync } from 'node:fs';
import { join } from 'node:path';
import { test } from 'node:test';
import { MESSAGES } from '../lib/messages.mjs';
import { damaged, imageOf, inDirectory, program, read, run, sameFile, tool, write } from './common.mjs';
import { TEXTS, encoded, files, makeDisc, noise, skip } from './discs.mjs';

/** The output of a job: its lines, split at tabs. */
const rows = text => text.split('\n').slice(0, -1).map(line => line.split('\t'));

/** The user data of a raw image. */
const userOf = image => Buffer.concat(Array.from({ length: image.length / 2352 }, (_, i) => image.subarray(2352 * i + 16, 2352 * i + 2064)));

/** The places of a text in the user data by a naive search, each as block and offset. */
function places(image, wanted, base = 0) {
    const user = userOf(image);
    const found = [];
    for (let at = user.indexOf(wanted); at >= 0; at = user.indexOf(wanted, at + 1)) found.push([base + Math.floor(at / 2048), at % 2048]);
    return found;
}

/** The image after the program has applied a script, all of whose patches must fit. */
function applied(room, image, script, ...options) {
    tool('rm', ['-f', 'applied.bin'], { cwd: room });
    tool(program, ['apply', ...options, image, script, 'applied.bin'], { cwd: room });
    return read(room, 'applied.bin');
}

/** Asserts that a job fails with this message as its last one, prints nothing, and creates no file. */
async function refuses(room, words, message) {
    const { status, out, errors } = await run([...words, '-o', 'refused'], { cwd: room });
    assert.deepEqual([status, out], [2, ''], words.join(' '));
    assert.ok(errors.endsWith(`cdscript: ${message}\n`), errors);
    assert.equal(existsSync(join(room, 'refused')), false);
    assert.equal((await run(words, { cwd: room })).out, '', 'nothing is printed');
}

test('files as isoinfo lists them', { skip }, () => inDirectory(async room => {
    await makeDisc(room);
    const { status, out, errors } = await run(['files', 'disc.bin'], { cwd: room });
    assert.deepEqual([status, errors], [0, '']);
    let directory = '';
    const due = [];
    for (const line of tool('isoinfo', ['-R', '-l', '-i', 'disc.iso'], { cwd: room }).toString().split('\n')) {
        const found = /^-.{9}(?: +\d+){3} +(\d+) .*\[ *(\d+) [0-9a-fA-F]+\] +(.*?) *$/.exec(line);
        if (line.startsWith('Directory listing of ')) directory = line.slice(21);
        else if (found) due.push(`${found[2]}\t${found[1]}\t${directory}${found[3]}`);
    }
    assert.equal(due.length, Object.keys(files()).length);
    assert.deepEqual(out.trim().split('\n').sort(), due.sort());
}));

test('texts are found in their encodings, over borders of blocks too', { skip }, () => inDirectory(async room => {
    await makeDisc(room, { first: 300 });
    const image = read(room, 'disc.bin');
    for (const [encoding, text] of Object.entries(TEXTS)) {
        const due = places(image, encoded(text, encoding), 300);
        assert.equal(due.length, encoding === 'EUC-JP' ? 2 : 1);
        for (const words of [['--encoding', encoding], []]) {
            const { status, out, errors } = await run(['find', 'disc.bin', text, ...words], { cwd: room });
            assert.equal(status, 0);
            assert.deepEqual(rows(out).map(row => [Number(row[0]), Number(row[1])]), due, encoding);
            assert.match(errors, new RegExp(`${words.length === 0 ? `^cdscript: found in ${encoding}\n` : '^'}` +
                `cdscript: hits ${due.length} printed ${due.length}\n$`));
        }
    }
    const [block, offset, size, place, around] = rows((await run(['find', 'disc.bin', TEXTS.CP932], { cwd: room })).out)[0];
    assert.deepEqual([Number(offset), Number(size), place], [2043, 14, '/DATA/BORDER.DAT+2043']);
    assert.ok(around.includes(TEXTS.CP932));
    assert.match((await run(['show', 'disc.bin', block, offset], { cwd: room })).out, /^block \d+ address \S+ mode1 edc \w{8}\nfile \/DATA\/BORDER.DAT\+2043\n/);
}));

test('what is not found, and more hits than are printed', { skip }, () => inDirectory(async room => {
    await makeDisc(room);
    const none = await run(['find', 'disc.bin', 'ABSENT TEXT'], { cwd: room });
    assert.deepEqual([none.status, none.out, none.errors], [1, '', 'cdscript: searched disc.bin in these encodings: CP932, EUC-JP, UTF-8, ' +
        'UTF-16LE, UTF-16BE\ncdscript: hits 0 printed 0\n']);
    write(room, { 'game.cue': 'FILE "disc.bin" BINARY\n  TRACK 02 MODE1/2352\n    INDEX 01 00:00:00\n' });
    assert.equal((await run(['find', 'game.cue', '亀', '--encoding', 'EUC-JP'], { cwd: room })).errors,
        'cdscript: searched track 2 in disc.bin in these encodings: EUC-JP\ncdscript: hits 0 printed 0\n');
    const zeros = places(read(room, 'disc.bin'), Buffer.alloc(1)).length;
    for (const most of [7, 0]) {
        const { status, out, errors } = await run(['find', 'disc.bin', '00', '--encoding', 'hex', '--limit', String(most)], { cwd: room });
        assert.deepEqual([status, rows(out).length, errors], [0, most, `cdscript: hits ${zeros} printed ${most}\n`]);
    }
}));

test('a table of characters', { skip }, () => inDirectory(async room => {
    await makeDisc(room);
    write(room, { 'game.tbl': '48=A\n454C=B\n' });
    const { out } = await run(['find', 'disc.bin', 'AB', '--table', 'game.tbl'], { cwd: room });
    assert.deepEqual(rows(out).map(row => row[3].replace(/\+.*/, '')), ['/DATA/DEEP/PLAIN.TXT']);
}));

test('a text is replaced at its place, filled up', { skip }, () => inDirectory(async room => {
    await makeDisc(room);
    const image = read(room, 'disc.bin');
    const old = encoded(TEXTS.CP932, 'CP932');
    const [[block, offset]] = places(image, old);
    const fresh = encoded('姫は旅', 'CP932');
    for (const [words, fill] of [[[], '20'], [['--fill', '8140'], '8140']]) {
        const due = Buffer.concat([fresh, Buffer.from(fill.repeat((old.length - fresh.length) * 2 / fill.length), 'hex')]);
        const found = await run(['replace', 'disc.bin', TEXTS.CP932, '姫は旅', ...words], { cwd: room });
        const placed = await run(['replace', 'disc.bin', String(block), String(offset), TEXTS.CP932, '姫は旅', ...words], { cwd: room });
        assert.deepEqual([found.status, found.out], [0, placed.out]);
        assert.equal(found.out, `cdpatch 1\nset ${block} ${offset} ${due.toString('hex').toUpperCase()} was ${old.toString('hex').toUpperCase()}\n`);
        write(room, { script: found.bytes });
        const user = userOf(image);
        due.copy(user, block * 2048 + offset);
        sameFile(userOf(applied(room, 'disc.bin', 'script')), user, 'the user data');
    }
    await refuses(room, ['replace', 'disc.bin', '村人', '村人たち'], 'the new text has 12 bytes in UTF-8, and there is room for 6: 6 too many');
    await refuses(room, ['replace', 'disc.bin', '16', '1', 'CD002', 'CD003'], 'old bytes differ at block 16 offset 5');
    await refuses(room, ['replace', 'disc.bin', 'ABSENT TEXT', 'X'], 'text not found');
}));

test('a text that stands at several places', { skip }, () => inDirectory(async room => {
    await makeDisc(room);
    const old = encoded(TEXTS['EUC-JP'], 'EUC-JP');
    const due = places(read(room, 'disc.bin'), old);
    await refuses(room, ['replace', 'disc.bin', TEXTS['EUC-JP'], '城'], 'the text occurs 2 times: give BLOCK and OFFSET of one, or --all');
    assert.equal((await run(['replace', 'disc.bin', TEXTS['EUC-JP'], '神の国の城', '--all', '-o', 'all'], { cwd: room })).status, 2);
    assert.equal((await run(['replace', 'disc.bin', TEXTS['EUC-JP'], '神の城', '--all', '-o', 'all'], { cwd: room })).status, 0);
    assert.equal(read(room, 'all').toString().split('\n').length, 4);
    assert.deepEqual(places(applied(room, 'disc.bin', 'all'), encoded('神の城', 'EUC-JP')), due);
}));

test('a file is replaced', { skip }, () => inDirectory(async room => {
    await makeDisc(room);
    const fresh = noise(299000, 9);
    write(room, { fresh, longer: Buffer.alloc(301057) });
    const { status, errors } = await run(['replace-file', 'disc.bin', '/BIG.BIN', 'fresh', '--fill', '00', '-o', 'script'], { cwd: room });
    assert.deepEqual([status, errors], [0, 'cdscript: padded with 1000 bytes (00)\n']);
    write(room, { 'new.bin': applied(room, 'disc.bin', 'script') });
    tool('sh', ['-c', `"${process.execPath}" "${process.env.COMMAND}" user new.bin new.iso`], { cwd: room });
    sameFile(tool('isoinfo', ['-R', '-x', '/BIG.BIN', '-i', 'new.iso'], { cwd: room }), Buffer.concat([fresh, Buffer.alloc(1000)]), 'the file');
    await refuses(room, ['replace-file', 'disc.bin', '/BIG.BIN', 'longer'], '/BIG.BIN has 300000 bytes and room for 301056, but the new file has 301057');
    write(room, { 'hurt.bin': damaged(read(room, 'disc.bin'), 0, [read(room, 'disc.bin').length / 2352 - 170, 2100]) });
}));

/** Two images that differ in sectors: in user bytes, in addresses, and in damage that the new one does not have. */
function twoImages(room, base) {
    const fresh = imageOf(room, 400, base);
    const old = damaged(fresh, base, [base + 7, 2100], [base + 8, 30]);
    write(room, { 'old.bin': fresh, 'edit.txt': `cdpatch 2\nset ${base + 3} 2040 ${'41'.repeat(16)}\nfill ${base + 100} 0 2048 00\n` +
        `address ${base + 200} 00:02:00\nfill ${base + 200} 5 1 07\n` });
    write(room, { 'edited.bin': applied(room, 'old.bin', 'edit.txt', '--base', String(base)), 'old.bin': old });
}

test('a script of the difference leads from the one image to the other, and its undo back', () => inDirectory(async room => {
    twoImages(room, 5000);
    const made = await run(['diff', 'old.bin', 'edited.bin', '-o', 'diff.txt'], { cwd: room });
    assert.deepEqual([made.status, made.errors], [0, '']);
    assert.match(read(room, 'diff.txt').toString(), /^cdpatch 2\n# base 5000\nset 5003 /);
    sameFile(applied(room, 'old.bin', 'diff.txt', '--base', '5000'), read(room, 'edited.bin'), 'the new image');
    const undo = await run(['undo', 'old.bin', 'diff.txt', '-o', 'undo.txt'], { cwd: room });
    assert.equal(undo.status, 1);
    assert.equal(undo.errors, 'cdscript: blocks 5007 to 5008: the damage is not restored; the address and the user data are\n');
    assert.equal((await run(['undo', 'edited.bin', 'edit.txt'], { cwd: room })).status, 2);
    write(room, { 'sound.bin': imageOf(room, 400, 5000) });
    assert.equal((await run(['undo', 'sound.bin', 'edit.txt', '-o', 'back.txt'], { cwd: room })).status, 0);
    sameFile(applied(room, 'edited.bin', 'back.txt', '--base', '5000'), read(room, 'sound.bin'), 'the image before');
    const fields = await run(['diff', '--fields', 'sound.bin', 'edited.bin'], { cwd: room });
    assert.equal(fields.status, 1);
    assert.match(fields.out, /^5003 user=\d+ edc=4 parity=\d+\n5004 .*\n5100 .*\n5200 header=3 user=1 edc=4 parity=\d+\nsectors 400 differ 4\n$/);
}));

test('undo on an image that is patched already writes nothing', () => inDirectory(async room => {
    const image = imageOf(room, 8);
    const was = (block, at) => image.subarray(2352 * block + 16 + at, 2352 * block + 17 + at).toString('hex');
    const other = (block, at) => Buffer.of(~image[2352 * block + 16 + at]).toString('hex');
    const line = (block, at) => `set ${block} ${at} ${other(block, at)} was ${was(block, at)}\n`;
    write(room, { image, one: `cdpatch 1\n${line(2, 0)}`, two: `cdpatch 1\n${line(2, 0)}${line(3, 7)}`, three: `cdpatch 1\n${line(2, 0)}${line(4, 7)}` });
    write(room, { patched: applied(room, 'image', 'two') });
    const why = 'refused on patched: is patched the unpatched image?';
    await refuses(room, ['undo', 'patched', 'one'], `1 patch is ${why}`);
    await refuses(room, ['undo', 'patched', 'two'], `2 patches are ${why}`);
    const some = await run(['undo', 'patched', 'three'], { cwd: room });
    assert.deepEqual([some.status, some.errors], [1, `cdscript: 1 patch is ${why}\n`]);
    assert.match(some.out, /^cdpatch 1\nset 4 7 /);
    write(room, { unconditional: read(room, 'two').toString().replace(/ was .*/g, ''), empty: 'cdpatch 1\n' });
    await refuses(room, ['undo', 'patched', 'unconditional'],
        'the image already has what the script writes, so nothing can be undone: give the unpatched image');
    const none = await run(['undo', 'patched', 'empty'], { cwd: room });
    assert.deepEqual([none.status, none.out, none.errors], [0, 'cdpatch 1\n', 'cdscript: the script has no patch\n']);
}));

test('undo says of a script with a fault what the program says, and names the script', () => inDirectory(async room => {
    write(room, { image: imageOf(room, 8), number: 'cdpatch 1\nset 0 0 41\nset x 0 41\n', many: `cdpatch 1\n${'set 0 0 41\n'.repeat(65536)}` });
    await refuses(room, ['undo', 'image', 'number'], `number: script line 3: ${MESSAGES.bad_number}`);
    await refuses(room, ['undo', 'image', 'many'], 'many: script line 65537: more than 65535 patches');
    write(room, { long: Buffer.alloc((64 << 20) + 1, '#') });
    await refuses(room, ['undo', 'image', 'long'], 'long: the script is longer than 67108864 bytes');
}));

test('undo says that its script needs --carry', () => inDirectory(async room => {
    const image = damaged(imageOf(room, 8), 0, [3, 2100]);
    write(room, { image, edit: 'cdpatch 1\nset 3 0 41\n', other: 'cdpatch 1\nset 4 0 41\n' });
    const { status, errors } = await run(['undo', '--carry', 'image', 'edit', '-o', 'back'], { cwd: room });
    assert.deepEqual([status, errors], [0, 'cdscript: the script patches damaged sectors: it needs --carry\n']);
    write(room, { edited: applied(room, 'image', 'edit', '--carry') });
    sameFile(applied(room, 'edited', 'back', '--carry'), image, 'the image before');
    assert.equal((await run(['undo', '--carry', 'image', 'other'], { cwd: room })).errors, '');
}));

test('what no script can say is named, and nothing is written', () => inDirectory(async room => {
    const image = imageOf(room, 20);
    const other = damaged(image, 0, [3, 100], [4, 2000], [9, 15], [11, 5]);
    write(room, { image, other, tail: Buffer.concat([image, Buffer.from('a')]), tail2: Buffer.concat([image, Buffer.from('b')]) });
    const named = 'cdscript: other is damaged in blocks 3 to 4\ncdscript: mode1 and other in block 9, and a script changes only mode1\n' +
        'cdscript: mode1 and nosync in block 11, and a script changes only mode1\n';
    await refuses(room, ['diff', 'image', 'other'], 'no script can produce other, so none was written; use --partial to leave out these differences');
    assert.ok((await run(['diff', 'image', 'other'], { cwd: room })).errors.startsWith(named));
    assert.equal((await run(['diff', 'image', 'other', '--skip-damaged'], { cwd: room })).status, 2);
    await refuses(room, ['diff', 'tail', 'tail2'], 'no script can produce tail2, so none was written; use --partial to leave out this difference');
    await refuses(room, ['diff', 'image', 'tail'], `the images have ${image.length} and ${image.length + 1} bytes, and a script cannot change the length`);
    write(room, { hurt: damaged(image, 0, [3, 100]) });
    const left = await run(['diff', 'image', 'hurt', '--skip-damaged'], { cwd: room });
    assert.deepEqual([left.status, left.out], [1, 'cdpatch 1\n']);
    assert.equal(left.errors, 'cdscript: hurt is damaged in block 3\ncdscript: the script has no patch\ncdscript: damaged blocks left out: 1\n');
    await refuses(room, ['diff', 'image', 'hurt'],
        'no script can produce hurt, so none was written; repair hurt first, for example with merge, or use --skip-damaged');
}));

test('of many damaged blocks the first runs are named, and all are counted', () => inDirectory(async room => {
    const image = imageOf(room, 3200);
    write(room, { image, hurt: damaged(image, 0, ...Array.from({ length: 1050 }, (_, i) => [[3 * i, 100], [3 * i + 1, 100]]).flat()) });
    const { status, errors } = await run(['diff', 'image', 'hurt', '--skip-damaged'], { cwd: room });
    const due = Array.from({ length: 1000 }, (_, i) => `hurt is damaged in blocks ${3 * i} to ${3 * i + 1}`);
    const said = [...due, 'and so on: 1050 places in all', 'the script has no patch', 'damaged blocks left out: 2100'];
    assert.deepEqual([status, errors], [1, said.map(line => `cdscript: ${line}\n`).join('')]);
}));

test('a script of more patches than cdpatch takes', () => inDirectory(async room => {
    const lines = Array.from({ length: 65536 }, (_, i) => `set ${i % 300} ${i % 2048} ${(i % 251 + 1).toString(16).padStart(2, '0')}`);
    write(room, { image: imageOf(room, 300), script: `cdpatch 1\n${lines.join('\n')}\n` });
    const short = await run(['apply', 'image', 'script', 'out'], { cwd: room });
    assert.deepEqual([short.status, short.out], [2, 'script line 65537: more than 65535 patches\n']);
    assert.equal((await run(['apply', '--long', 'image', 'script', 'out'], { cwd: room })).status, 0);
    write(room, { one: `cdpatch 1\n${lines.slice(0, 40000).join('\n')}\n`, two: `cdpatch 1\n${lines.slice(40000).join('\n')}\n` });
    write(room, { half: applied(room, 'image', 'one') });
    // In the order of blocks, and within a block in the order of lines, as both halves have them.
    sameFile(read(room, 'out'), applied(room, 'half', 'two'), 'the image');
}));

test('replace names a damaged block', () => inDirectory(async room => {
    write(room, { image: damaged(imageOf(room, 10), 0, [4, 2100]) });
    await refuses(room, ['replace', 'image', '4', '0', '00', '01', '--encoding', 'hex'], 'block 4 is damaged: repair it first');
}));
