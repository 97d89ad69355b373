// The jobs that write images, `info`, and cue sheets, compared with other software.

import assert from 'node:assert/strict';
import { createHash } from 'node:crypto';
import { existsSync } from 'node:fs';
import { join } from 'node:path';
import { test } from 'node:test';
import { ENCODINGS_KNOWN, damaged, earlyCommand, imageOf, inDirectory, program, read, run, runProcess, sameFile, tool, top, write } from './common.mjs';
import { files, makeDisc, noise, skip } from './discs.mjs';

const TRY_PARITY = 'cdscript: with --parity, such a sector is corrected by its own P and Q instead, if its EDC confirms the result\n';
const NOT_CONVERTED = 'expected an image of 2048, 2336, or 2448 bytes per sector, but';
const sheet = (name, type = 'MODE1/2352') => `FILE "${name}" BINARY\n  TRACK 01 ${type}\n    INDEX 01 00:00:00\n`;

/** Asserts that a run fails with exactly this message and creates no file. */
async function fails(words, message, cwd, out = 'out') {
    const { status, out: printed, errors } = await run(words, { cwd });
    assert.deepEqual([status, printed, errors], [2, '', `cdscript: ${message}\n`], words.join(' '));
    assert.equal(existsSync(join(cwd, out)), false, `${words.join(' ')} left a file`);
}

test('an ISO image made raw is sound, and its user data are the ISO image', { skip }, () => inDirectory(async room => {
    await makeDisc(room);
    const count = read(room, 'disc.iso').length / 2048;
    assert.equal(tool(program, ['audit', 'disc.bin'], { cwd: room }).toString(), `sectors ${count} mode1 ${count} damaged 0 tail 0\n`);
    assert.deepEqual((await run(['user', 'disc.bin', 'user.iso'], { cwd: room })).status, 0);
    sameFile(read(room, 'user.iso'), read(room, 'disc.iso'), 'the user data');
    write(room, { 'disc.cue': sheet('disc.bin') });
    if (tool('bchunk', ['disc.bin', 'disc.cue', 'track'], { cwd: room }) === null) return;
    sameFile(read(room, 'track01.iso'), read(room, 'disc.iso'), 'what bchunk finds');
}));

test('a raw image that begins with another block', { skip }, () => inDirectory(async room => {
    await makeDisc(room, { first: 4500 });
    assert.match(tool(program, ['audit', '--base', '4500', 'disc.bin'], { cwd: room }).toString(), / damaged 0 tail 0\n$/);
    assert.match((await run(['info', 'disc.bin'], { cwd: room })).out, /^base 4500$/m);
    await fails(['raw', 'disc.iso', 'out', '--first', '449800'], 'disc.iso continues after block 449849, the last one with an address', room);
}));

test('a raw image goes on to the last block with an address', () => inDirectory(async room => {
    write(room, { 'two.iso': Buffer.alloc(2 * 2048) });
    assert.equal((await run(['raw', 'two.iso', 'last.bin', '--base', '449848'], { cwd: room })).status, 0);
    assert.match(tool(program, ['audit', '--base', '449848', 'last.bin'], { cwd: room }).toString(), /^sectors 2 mode1 2 damaged 0 tail 0\n$/);
    await fails(['raw', 'two.iso', 'out', '--first', '449849'], 'two.iso continues after block 449849, the last one with an address', room);
    await fails(['raw', 'two.iso', 'out', '--first', '1', '--base', '1'], '--base and --first cannot be used together', room);
}));

test('an image with subchannels is made raw, by its sync fields and not by its size', () => inDirectory(async room => {
    // More sectors than are copied at a time; and images of 2352 bytes per sector whose size is a multiple of 2448.
    for (const count of [1, 2, 51, 700]) {
        const image = imageOf(room, count);
        const longer = Buffer.concat(Array.from({ length: count }, (_, i) => Buffer.concat([image.subarray(2352 * i, 2352 * (i + 1)), Buffer.alloc(96, i)])));
        write(room, { 'longer.bin': longer });
        assert.deepEqual(await run(['raw', 'longer.bin', `raw ${count}`], { cwd: room }).then(it => [it.status, it.errors]), [0, '']);
        sameFile(read(room, `raw ${count}`), image, `${count} sectors`);
    }
    write(room, { 'plain.bin': imageOf(room, 51), 'cut.bin': read(room, 'longer.bin').subarray(0, -1) });
    assert.equal(read(room, 'plain.bin').length % 2448, 0);
    await fails(['raw', 'plain.bin', 'out'], `${NOT_CONVERTED} plain.bin is a raw image, 2352 bytes per sector`, room);
    await fails(['raw', 'cut.bin', 'out'], `cut.bin has ${2448 * 700 - 1} bytes, which is not a multiple of 2448`, room);
    await fails(['raw', 'longer.bin', 'out', '--base', '0'], 'longer.bin has addresses, so it needs no --base', room);
    assert.equal(read(room, 'out'), null);
}));

test('Mode 2 sectors without sync field and header get both, and the raw image is sound', () => inDirectory(async room => {
    const image = tool('python3', ['-B', `${top}/tests/lib/mode2_sectors.py`, '700', '3']);
    const sectors = Array.from({ length: 700 }, (_, i) => image.subarray(2352 * i, 2352 * (i + 1)));
    write(room, { 'image.2336': Buffer.concat(sectors.map(it => it.subarray(16))) });
    const { out } = await run(['info', 'image.2336'], { cwd: room });
    assert.equal(out, 'image.2336: an image of 2336 bytes per sector, Mode 2 without sync fields and headers\n' +
        'Convert it to a raw image with `cdscript raw`, which adds them.\n');
    assert.match((await run(['scan', 'image.2336'], { cwd: room })).out, /^image.2336\tnone: an image of 2336 bytes per sector, /);
    for (const [words, base] of [[[], 0], [['--base', '45000'], 45000]]) {
        assert.deepEqual(await run(['raw', 'image.2336', `${base}.bin`, ...words], { cwd: room }).then(it => [it.status, it.errors]), [0, '']);
        const found = JSON.parse((await run(['info', '--json', `${base}.bin`], { cwd: room })).out);
        assert.deepEqual([found.parts[0].base, found.sectors, found.findings], [base, { mode2: 700 }, 0]);
        sameFile(Buffer.concat(sectors.map((_, i) => read(room, `${base}.bin`).subarray(2352 * i + 16, 2352 * (i + 1)))), read(room, 'image.2336'), 'from the subheaders on');
    }
    sameFile(read(room, '0.bin').subarray(0, 2352), sectors[0], 'the first sector');
    await fails(['raw', 'image.2336', 'out', '--base', '449849'], 'image.2336 continues after block 449849, the last one with an address', room);
}));

test('what can not be made raw, or has no user data', { skip }, () => inDirectory(async room => {
    await makeDisc(room);
    await fails(['raw', 'disc.bin', 'out'], `${NOT_CONVERTED} disc.bin is a raw image, 2352 bytes per sector`, room);
    write(room, { 'cut.iso': read(room, 'disc.iso').subarray(0, 100000), 'a.chd': Buffer.from('MComprHD'.padEnd(3000)) });
    await fails(['raw', 'a.chd', 'out'], `${NOT_CONVERTED} a.chd is a CHD file`, room);
    await fails(['raw', 'cut.iso', 'out'], 'cut.iso has 100000 bytes, which is not a multiple of 2048', room);
    await fails(['user', 'disc.iso', 'out'], 'disc.iso is an ISO image, 2048 bytes per sector. Convert it to a raw image with cdscript raw. ' +
        'Then merge that with a dump, or patch it and extract its user data as an ISO image.', room);
    await fails(['raw', 'nothing.iso', 'out'], 'cannot open nothing.iso: there is no such file or directory', room);
}));

test('the user data of sectors that are not Mode 1 are named, and a tail is', () => inDirectory(async room => {
    const image = imageOf(room, 8);
    image[3 * 2352 + 15] = 2;
    write(room, { 'image.bin': Buffer.concat([image, Buffer.from('tail')]) });
    const { status, errors } = await run(['user', 'image.bin', 'out'], { cwd: room });
    assert.deepEqual([status, errors], [1, 'cdscript: block 3: mode2, so the bytes written may not be user data\n' +
        'cdscript: the incomplete last sector is left out\n']);
    const user = Buffer.concat(Array.from({ length: 8 }, (_, i) => image.subarray(2352 * i + 16, 2352 * i + 2064)));
    sameFile(read(room, 'out'), user, 'user data');
    for (const [tail, due] of [[0, [0, '']], [1, [1, 'cdscript: the incomplete last sector is left out\n']]]) {
        write(room, { [`${tail}.bin`]: Buffer.concat([imageOf(room, 8), Buffer.alloc(tail)]) });
        const came = await run(['user', `${tail}.bin`, `${tail}.iso`], { cwd: room });
        assert.deepEqual([came.status, came.errors], due);
        sameFile(read(room, `${tail}.iso`), user, 'user data');
    }
}));

test('damage and gaps of an image are reported when its user data are extracted, since nothing in them shows it', () => inDirectory(async room => {
    const image = imageOf(room, 300);
    write(room, { hurt: damaged(image, 0, [100, 500]), gap: Buffer.concat([image.subarray(0, 2352 * 200), image.subarray(2352 * 205)]),
        pause: Buffer.concat([Buffer.alloc(2352 * 150), image]) });
    const cases = [['hurt', 1, 'cdscript: block 100: damaged, so hurt.iso may have wrong bytes there, and will not show them\n'],
        ['gap', 1, 'cdscript: blocks 200 to 294: with the address of a different block, so gap.iso may lack blocks\n']];
    for (const [name, ...due] of cases) {
        const { status, errors } = await run(['user', name, `${name}.iso`], { cwd: room });
        assert.deepEqual([status, errors, read(room, `${name}.iso`).length], [...due, name === 'gap' ? 2048 * 295 : 2048 * 300]);
    }
    assert.doesNotMatch((await run(['user', 'pause', 'pause.iso'], { cwd: room })).errors, /different block|damaged/);
}));

test('files of a disc are taken out', { skip }, () => inDirectory(async room => {
    await makeDisc(room);
    for (const [path, bytes] of Object.entries(files())) {
        const { status } = await run(['extract', 'disc.bin', `/${path}`, 'out'], { cwd: room });
        assert.equal(status, 0, path);
        sameFile(read(room, 'out'), bytes, path);
        tool('rm', ['out'], { cwd: room });
    }
    await fails(['extract', 'disc.bin', '/NO.BIN', 'out'], 'no file /NO.BIN on the disc; cdscript files lists the files', room);
}));

test('info of a disc', () => inDirectory(async room => {
    const image = damaged(imageOf(room, 40, 75), 75, [80, 100], [81, 2200]);
    image[2352 * 20] = 1;
    write(room, { 'image.bin': image });
    const hash = createHash('sha1').update(image).digest('hex');
    const { status, out, errors } = await run(['info', 'image.bin'], { cwd: room });
    assert.deepEqual([status, errors], [1, '']);
    assert.equal(out, ['image.bin: a raw image, 2352 bytes per sector', 'verdict: 2 of 39 data sectors are damaged; 1 data sector is lost', `file image.bin bytes ${image.length} sha1 ${hash}`,
        'track 1 data blocks 75-114 in image.bin', 'base 75', '75-94 mode1', '95-95 nosync', '96-114 mode1', 'sectors 40 tail 0',
        'mode1 39 damaged 2 address 0', '80-80 mode1 damaged: edc p=1 q=1', '81-81 mode1 damaged: p=1 q=1', '95-95 not mode1 in a track of mode1', ''].join('\n'));
}));

test('info of what is no raw image', () => inDirectory(async room => {
    write(room, { 'a.zip': Buffer.from('PK\x03\x04 and so on'), 'a.chd': Buffer.from('MComprHD'.padEnd(3000)), empty: '' });
    for (const [name, what] of [['a.zip', 'an archive'], ['a.chd', 'a CHD file'], ['empty', 'an empty file']]) {
        const { status, out } = await run(['info', name], { cwd: room });
        assert.equal(status, 1);
        assert.ok(out.startsWith(`${name}: ${what}\n`) && out.split('\n').length === 3, out);
    }
}));

test('info of what can not be patched as it is', { skip }, () => inDirectory(async room => {
    await makeDisc(room);
    assert.ok((await run(['info', 'disc.iso'], { cwd: room })).out.endsWith('\n`cdscript raw` writes the raw image, and `cdscript user` the ISO image.\n'));
    const mode2 = imageOf(room, 20);
    for (let i = 0; i < 20; i++) mode2[2352 * i + 15] = 2;
    write(room, { mode2, 'audio.bin': noise(2352 * 3, 7), 'cooked.cue': 'FILE "disc.iso" BINARY\n  TRACK 01 MODE1/2048\n    INDEX 01 00:00:00\n',
        'audio.cue': 'FILE "audio.bin" BINARY\n  TRACK 01 AUDIO\n    INDEX 01 00:00:00\n' });
    const untested = 'not tested 3: blocks 0 to 2 are';
    const cases = { mode2: [1, 'mode2 20: Mode 2 sectors cannot be audited or patched; PlayStation discs have them'],
        'cooked.cue': [1, 'track 1 has 2048 bytes per sector: it cannot be audited or patched'],
        'audio.cue': [0, `${untested} audio`], 'audio.bin': [0, `${untested} not mode1; a cue sheet would say whether they are audio`] };
    for (const [name, [due, line]] of Object.entries(cases)) {
        const { status, out, errors } = await run(['info', name], { cwd: room });
        assert.deepEqual([status, out.split('\n').at(-2), errors], [due, line, ''], name);
    }
}));

test('the jobs of the program refuse what is recognised as something else', { skip }, () => inDirectory(async room => {
    await makeDisc(room);
    write(room, { 'disc.chd': Buffer.from('MComprHD'.padEnd(3000)), 'read.me': 'It is a text,\r\nand no disc.\r\n'.repeat(200), script: 'cdpatch 1\n',
        'mode2.bin': tool('python3', ['-B', `${top}/tests/lib/mode2_sectors.py`, '40', '3']) });
    for (const [name, what] of [['disc.iso', 'is an ISO image'], ['disc.chd', 'is a CHD file'], ['read.me', 'is a text file'],
        ['mode2.bin', 'is an image of Mode 2']]) {
        for (const words of [['check', name, 'script'], ['apply', name, 'script', 'out'], ['check', name, 'script', '--base', '0']]) {
            const { status, out, errors } = await run(words, { cwd: room });
            assert.deepEqual([status, out, errors.startsWith(`cdscript: ${name} ${what}`), read(room, 'out')], [2, '', true, null], words.join(' '));
        }
    }
}));

test('check and apply say that no sector is Mode 1, also with a cue sheet, and give the result of the program', { skip }, () => inDirectory(async room => {
    const mode2 = tool('python3', ['-B', `${top}/tests/lib/mode2_sectors.py`, '40', '3']);
    const [unsound, audio] = [Buffer.from(mode2), noise(2352 * 1000, 5)];
    for (let i = 0; i < 40; i++) unsound[2352 * i + 16] ^= 1;
    imageOf(room, 1, 500).copy(audio, 2352 * 500);
    write(room, { unsound, words: 'a text without lines '.repeat(1000), empty: '', 'audio': noise(2352 * 20, 5), mostly: audio, 'mode2.bin': mode2,
        script: 'cdpatch 1\nset 3 0 00\nset 500 0 00\n', 'mode2.cue': sheet('mode2.bin').replace('MODE1', 'MODE2') });
    for (const [name, said] of [['unsound', true], ['words', true], ['empty', true], ['audio', true], ['mostly', false]]) {
        const due = tool('sh', ['-c', `"${program}" check ${name} script; true`], { cwd: room }).toString();
        for (const words of [['check', name, 'script'], ['apply', name, 'script', `${name}.new`]]) {
            const { status, out, errors } = await run(words, { cwd: room });
            assert.deepEqual([status, out, errors], [1, due, said ? `cdscript: no sector of ${name} is Mode 1, and scripts patch no others\n` : ''], words.join(' '));
        }
        assert.equal(read(room, `${name}.new`).length, read(room, name).length);
    }
    const { status, out, errors } = await run(['apply', 'mode2.cue', 'script', 'new'], { cwd: room });
    assert.deepEqual([status, out, read(room, 'new')], [2, '', null]);
    assert.match(errors, /^cdscript: mode2.bin is an image of Mode 2, /m);
}));

test('user says how the way back goes', () => inDirectory(async room => {
    const image = imageOf(room, 20, 180);
    write(room, { 'one.bin': imageOf(room, 30), 'two.bin': image, 'game.cue': `${sheet('one.bin')}${sheet('two.bin').replace('01', '02')}` });
    const { status, errors } = await run(['user', '--track', '2', 'game.cue', 'two.iso'], { cwd: room });
    assert.deepEqual([status, errors], [0, 'cdscript: to convert it back: cdscript raw --base 180\n']);
    await run(['raw', '--first', '180', 'two.iso', 'back.bin'], { cwd: room });
    sameFile(read(room, 'back.bin'), image, 'the raw image');
    assert.equal((await run(['user', 'one.bin', 'one.iso'], { cwd: room })).errors, '');
    write(room, { 'later.bin': imageOf(room, 30, 1) });
    assert.equal((await run(['user', 'later.bin', 'later.iso'], { cwd: room })).errors, 'cdscript: to convert it back: cdscript raw --base 1\n');
}));

test('a cue sheet gives tracks, files and bases', () => inDirectory(async room => {
    write(room, { 'one.bin': imageOf(room, 30), 'Two.BIN': Buffer.alloc(2352 * 150, 5), 'three.bin': imageOf(room, 20, 180) });
    write(room, { 'disc.cue': `${sheet('one.bin')}FILE "two.bin" BINARY\n  TRACK 02 AUDIO\n    INDEX 01 00:00:00\n` +
        'FILE "C:\\discs\\three.bin" BINARY\n  TRACK 03 MODE1/2352\n    INDEX 01 00:00:00\n' });
    const { status, out } = await run(['info', 'disc.cue', '--track', '3'], { cwd: room });
    assert.equal(status, 0);
    assert.match(out, /^track 2 AUDIO blocks 30-179 in Two.BIN\ntrack 3 MODE1\/2352 blocks 180-199 in three.bin\nbase 180\n180-199 mode1$/m);
    assert.match((await run(['info', 'disc.cue'], { cwd: room })).out, /\ntrack 1 base 0\n0-29 mode1\nsectors 30 tail 0\nmode1 30 damaged 0 address 0\n/);
    await fails(['user', 'disc.cue', 'out', '--track', '2'], 'Track 2 is not a data track with 2352-byte sectors. Choose a different track.', room);
    tool('rm', ['three.bin'], { cwd: room });
    assert.match((await run(['info', 'disc.cue'], { cwd: room })).errors, /^cdscript: disc.cue names C:\\discs\\three.bin, which is not in the directory of the cue sheet\.\n$/);
}));

test('a repair takes sound sectors only, of the first image that has one', () => inDirectory(async room => {
    const good = imageOf(room, 60, 30);
    const tail = Buffer.from('the tail');
    const withTail = image => Buffer.concat([image, tail]);
    write(room, {
        old: withTail(damaged(good, 30, [31, 500], [40, 16], [41, 2100], [50, 1000])),
        first: withTail(damaged(good, 30, [40, 17], [50, 77])), second: withTail(damaged(good, 30, [50, 2300], [60, 100])),
    });
    const { status, out, errors } = await run(['merge', 'old', 'first', 'second', 'out'], { cwd: room });
    assert.deepEqual([status, errors], [1, 'cdscript: out: the last sector is incomplete\n']);
    assert.equal(out, '31-31 from first\n40-40 from second\n41-41 from first\n50-50 damaged, without a sound copy\ntaken 3 damaged 1 disputed 0 different 0\n');
    sameFile(read(room, 'out'), withTail(damaged(good, 30, [50, 1000])), 'the repaired image');
    write(room, { sound: withTail(good), plain: damaged(good, 30, [31, 500]), good });
    const whole = await run(['merge', 'old', 'sound', 'whole', '--json'], { cwd: room });
    assert.deepEqual([whole.status, whole.errors, JSON.parse(whole.out).tail], [1, 'cdscript: whole: the last sector is incomplete\n', tail.length]);
    sameFile(read(room, 'whole'), withTail(good), 'the repaired image');
    assert.deepEqual([(await run(['merge', 'plain', 'good', 'all'], { cwd: room })).status, read(room, 'all')], [0, good]);
}));

test('a repair takes what the EDC of the damaged sector fits, and names what it fits nowhere', () => inDirectory(async room => {
    const good = imageOf(room, 300);
    write(room, { good, old: damaged(good, 0, [17, 500], [20, 16]), edit: 'cdpatch 1\nset 17 0 4142\nfill 33 0 3 44\nset 35 0 45\n' });
    tool(program, ['apply', 'good', 'edit', 'door.bin'], { cwd: room });
    const both = await run(['merge', 'old', 'door.bin', 'good', 'one'], { cwd: room });
    assert.deepEqual([both.status, both.errors], [0, '']);
    assert.equal(both.out, ['17-17 from good', '20-20 from door.bin', '17-17 sound in several dumps, but with different contents',
        '33-33 also sound in door.bin, but with different contents', '35-35 also sound in door.bin, but with different contents',
        'taken 2 damaged 0 disputed 1 different 2', ''].join('\n'));
    sameFile(read(room, 'one'), good, 'the repaired image');
    const other = await run(['merge', 'old', 'door.bin', 'two'], { cwd: room });
    assert.deepEqual([other.status, other.errors],
        [1, `cdscript: block 17: copied from door.bin, but old has neither its data nor its EDC: perhaps the dumps are of different versions\n${TRY_PARITY}`]);
    // A sector of zeros confirms nothing, although no other dump disputes its copy, and it has no parity to correct it.
    const empty = Buffer.from(good).fill(0, 2352 * 17, 2352 * 18);
    write(room, { empty });
    for (const parity of [[], ['--parity']]) {
        const filled = await run(['merge', 'empty', 'door.bin', `filled${parity}`, '--json', ...parity], { cwd: room });
        assert.deepEqual([filled.status, JSON.parse(filled.out).doubtful, filled.errors], [1, 1,
            'cdscript: block 17: copied from door.bin; empty was not read there, so it cannot confirm the copy, but 297 of 300 sectors are the same in both\n']);
    }
}));

test('merge --parity first corrects what the own codes of a sector confirm, and needs no other dump', () => inDirectory(async room => {
    const good = imageOf(room, 300);
    const old = damaged(good, 0, [3, 500], [17, 500], [17, 2100], [20, 2064], [30, 16], [40, 5]); // 5 is in the sync field
    write(room, { good, old, edit: 'cdpatch 1\nset 17 0 4142\n' });
    tool(program, ['apply', 'good', 'edit', 'door.bin'], { cwd: room });
    write(room, { 'door.bin': damaged(read(room, 'door.bin'), 0, [3, 100]) });
    const both = await run(['merge', 'old', 'door.bin', 'one', '--parity'], { cwd: room });
    assert.deepEqual([both.status, both.errors], [0, '']);
    assert.equal(both.out, ['20-20 from door.bin', '3-3 from its own parity', '17-17 from its own parity', '30-30 from its own parity',
        '40-40 from its own parity', 'taken 1 damaged 0 disputed 0 different 0', ''].join('\n'));
    sameFile(read(room, 'one'), good, 'the repaired image');
    const alone = await run(['merge', '--parity', 'old', 'two', '--json'], { cwd: room });
    const { corrected, damaged: left, blocks } = JSON.parse(alone.out);
    assert.deepEqual([alone.status, corrected, left, blocks.corrected, blocks.damaged], [1, 4, 1, [[3, 3], [17, 17], [30, 30], [40, 40]], [[20, 20]]]);
    sameFile(read(room, 'two'), damaged(good, 0, [20, 2064]), 'the corrected image');
    await fails(['merge', 'old', 'three'], 'merge needs OLD OTHER.. OUT; see cdscript merge --help', room);
    await fails(['merge', '--parity', 'old'], 'merge needs OLD [OTHER..] OUT; see cdscript merge --help', room);
}));

test('a repair of many places names the first of them', () => inDirectory(async room => {
    const good = imageOf(room, 2500);
    const odd = Array.from({ length: 1200 }, (_, i) => [2 * i + 1, 100 + i]);
    const other = Buffer.concat([good, Buffer.from('b')]);
    good.copy(other, 2352 * 11, 2352 * 12, 2352 * 13);
    write(room, { old: Buffer.concat([damaged(good, 0, ...odd), Buffer.from('a')]), other });
    const { status, out, errors } = await run(['merge', 'old', 'other', 'out'], { cwd: room });
    assert.deepEqual([status, errors], [1, 'cdscript: the incomplete last sector is different in other; that of old is kept\n' +
        'cdscript: out: the last sector is incomplete\n']);
    const lines = out.split('\n');
    const due = odd.map(([block]) => block).filter(block => block !== 11).slice(0, 1000).map(block => `${block}-${block} from other`);
    assert.deepEqual(lines, [...due, 'and so on: 1199 places in all', '11-11 sound, but only with the address of a different block',
        'taken 1199 damaged 1 disputed 0 different 0', '']);
    const due2 = Buffer.concat([damaged(good, 0, odd[5]), Buffer.from('a')]);
    sameFile(read(room, 'out'), due2, 'the repaired image');
}));

test('dumps that begin or end elsewhere repair the blocks that both have', () => inDirectory(async room => {
    const good = imageOf(room, 300, 30);
    write(room, { old: damaged(good, 30, [40, 100], [320, 100], [327, 100]), short: good.subarray(0, 2352 * 295), later: good.subarray(2352 * 20),
        long: Buffer.concat([good, Buffer.alloc(2352)]) });
    const short = await run(['merge', 'old', 'short', 'out'], { cwd: room });
    assert.deepEqual([short.status, short.errors], [1, 'cdscript: short has only blocks 30 to 324 of old\n']);
    assert.equal(short.out, '40-40 from short\n320-320 from short\n327-327 damaged, without a sound copy\ntaken 2 damaged 1 disputed 0 different 0\n');
    const later = await run(['merge', 'old', 'later', 'long', 'all'], { cwd: room });
    const beyond = 'cdscript: block 330 is in long but not in old, so all lacks it too; to include it, name long first\n';
    assert.deepEqual([later.status, later.errors], [0, `cdscript: later has only blocks 50 to 329 of old\n${beyond}`]);
    assert.equal(later.out, '40-40 from long\n320-320 from later\n327-327 from later\ntaken 3 damaged 0 disputed 0 different 0\n');
    sameFile(read(room, 'all'), good, 'the repaired image');
}));

test('merge lists sound sectors that keep a wrong address', () => inDirectory(async room => {
    const image = imageOf(room, 300);
    const swapped = Buffer.concat([image.subarray(0, 2352 * 8), image.subarray(2352 * 9, 2352 * 10), image.subarray(2352 * 8, 2352 * 9), image.subarray(2352 * 10)]);
    write(room, { swapped, image });
    const text = await run(['merge', 'swapped', 'image', 'out'], { cwd: room });
    assert.deepEqual([text.status, text.out.split('\n')[0]], [1, '8-9 also sound in image, but with different contents']);
    assert.ok(text.out.includes('\n8-9 sound, but with the address of a different block\n'), text.out);
    const { wrongAddress, blocks } = JSON.parse((await run(['merge', '--json', 'swapped', 'swapped', 'out2'], { cwd: room })).out);
    assert.deepEqual([wrongAddress, blocks.wrongAddress], [2, [[8, 9]]]);
}));

test('merge says which blocks only another dump has, and which dump to name first', () => inDirectory(async room => {
    const good = imageOf(room, 300, 30);
    const part = (from, to) => good.subarray(2352 * from, 2352 * to);
    write(room, { good, cut: part(0, 200), begin: part(0, 250), end: part(100, 300) });
    const none = 'taken 0 damaged 0 disputed 0 different 0\n';
    const cases = [
        ['cut', 'good', 'blocks 230 to 329 are in good but not in cut, so out1 lacks them too; to include them, name good first'],
        ['good', 'cut', 'cut has only blocks 30 to 229 of good'],
        ['begin', 'end', 'end has only blocks 130 to 279 of begin', 'blocks 280 to 329 are in end but not in begin, so out3 lacks them too'],
        ['good', 'good'],
    ];
    for (const [i, [old, other, ...said]] of cases.entries()) {
        const { status, out, errors } = await run(['merge', old, other, `out${i + 1}`], { cwd: room });
        assert.deepEqual([status, out, errors], [0, none, said.map(text => `cdscript: ${text}\n`).join('')], `${old} ${other}`);
        sameFile(read(room, `out${i + 1}`), read(room, old), old);
    }
}));

test('damage with the same bytes in all dumps is named, as far as they have the block', () => inDirectory(async room => {
    const good = imageOf(room, 300, 30);
    const shared = [[40, 500], [41, 100], [60, 77], [327, 100], ...Array.from({ length: 12 }, (_, i) => [100 + 3 * i, 50])];
    write(room, { old: damaged(good, 30, ...shared, [31, 100]), first: damaged(good, 30, ...shared, [60, 78]),
        second: damaged(good, 30, ...shared).subarray(0, 2352 * 295), other: damaged(good, 30, [40, 500], [327, 101]).subarray(0, 2352 * 200) });
    const { status, out, errors } = await run(['merge', 'old', 'first', 'second', 'out'], { cwd: room });
    assert.deepEqual([status, errors], [1, 'cdscript: second has only blocks 30 to 324 of old\n']);
    assert.deepEqual(out.split('\n').slice(-3), ['alike 15, damaged with the same bytes in all dumps: ' +
        'blocks 40 to 41, 100, 103, 106, 109, 112, 115, 118, 121, 124 and 4 more', 'taken 1 damaged 16 disputed 0 different 0', '']);
    const less = await run(['merge', 'old', 'other', 'less'], { cwd: room });
    assert.deepEqual(less.out.split('\n').slice(-3), ['alike 1, damaged with the same bytes in all dumps: block 40', 'taken 15 damaged 2 disputed 0 different 0', '']);
}));

test('what no repair takes', () => inDirectory(async room => {
    const good = imageOf(room, 300, 30);
    write(room, { old: damaged(good, 30, [40, 100]), later: imageOf(room, 300, 330) });
    await fails(['merge', 'old', 'later', 'out'], 'old begins with block 30, later with block 330: they are not the same part of a disc', room);
    write(room, { 'sheet.cue': 'FILE "old" BINARY\n TRACK 01 MODE1/2352\n  INDEX 01 00:00:00\n' });
    await fails(['merge', 'sheet.cue', 'later', 'out'], 'sheet.cue begins with block 30, later with block 330: they are not the same part of a disc', room);
    const other = Buffer.concat([good.subarray(2352 * 8), good.subarray(0, 2352 * 8)]);
    write(room, { other, edited: Buffer.concat([other.subarray(0, 3 * 2352), good.subarray(3 * 2352)]) });
    const { status, errors } = await run(['merge', 'old', 'other', 'out', '--base', '30'], { cwd: room });
    assert.equal(status, 2);
    assert.match(errors, /^cdscript: 29\d of 300 sectors are sound in old and in other, and differ: other is shifted from block 30 on, because 8 sectors before that block are missing\n$/);
    write(room, { more: Buffer.concat([good.subarray(0, 2352), good.subarray(0, 2352 * 299)]) });
    await fails(['merge', 'old', 'more', 'out', '--base', '30'],
        '298 of 300 sectors are sound in old and in more, and differ: more is shifted from block 31 on, because there is 1 sector too many before that block', room);
    write(room, { strange: imageOf(room, 301, 29).subarray(2352) });
    await fails(['merge', 'old', 'strange', 'out'], '299 of 300 sectors are sound in old and in strange, and differ: one of them is patched, shifted, or of a different disc', room);
    // The last of these sectors has no code.
    const mode2 = tool('python3', ['-B', `${top}/tests/lib/mode2_sectors.py`, '8', '3']);
    const changed = Buffer.from(mode2);
    changed[7 * 2352 + 500] ^= 1;
    write(room, { mode2, changed });
    assert.match((await run(['merge', 'mode2', 'changed', 'out'], { cwd: room })).errors,
        /^cdscript: 1 of 8 sectors were not tested in mode2, and are different in changed: /m);
    assert.equal(existsSync(join(room, 'out')), false);
    assert.match((await run(['merge', 'old', 'edited', 'out'], { cwd: room })).out, /\ntaken 1 damaged 0 disputed 0 different 3\n$/);
}));

test('threads give what one thread gives', () => inDirectory(room => {
    const file = earlyCommand(room);
    const early = words => runProcess(words, { cwd: room, file });
    const image = imageOf(room, 9000);
    const hurt = damaged(image, 0, [3, 100], [1023, 2000], [1024, 2200], [4500, 77], [8999, 2300]);
    write(room, { image, hurt });
    const audit = tool('sh', ['-c', `"${program}" audit hurt || true`], { cwd: room }).toString().split('\n').slice(0, -2);
    const due = audit.map(line => line.replace(/^(\d+) (.*)$/, '$1-$1 mode1 damaged: $2\n')).join('');
    assert.ok(early(['info', 'hurt']).out.endsWith(`\nmode1 9000 damaged 5 address 0\n${due}`));
    assert.equal(early(['merge', 'hurt', 'image', 'out']).status, 0);
    sameFile(read(room, 'out'), image, 'the repaired image');
    assert.equal(early(['rebuilds', 'hurt']).out, 'cdpatch 1\nrebuild 3\nrebuild 1023\nrebuild 1024\nrebuild 4500\nrebuild 8999\n');
}));

test('a file that exists stays', () => inDirectory(async room => {
    write(room, { image: imageOf(room, 10), out: 'kept', script: 'cdpatch 1\n' });
    for (const words of [['user', 'image', 'out'], ['merge', 'image', 'image', 'out'], ['diff', 'image', 'image', '-o', 'out'],
        ['apply', 'image', 'script', 'out']]) {
        const { status, out, errors } = await run(words, { cwd: room });
        assert.deepEqual([status, out, errors, read(room, 'out').toString()], [2, '', 'cdscript: cannot create out: it already exists\n', 'kept']);
    }
}));

/** Wrong command lines and their messages. */
const WRONG_WORDS = {
    '': 'no job given; see cdscript --help',
    'frob': "unknown job 'frob'; see cdscript --help",
    'list': "unknown job 'list'; use cdscript info or cdpatch list",
    'help audit': "unknown job 'audit'; use cdscript info or cdpatch audit",
    'info': 'info needs IMAGE; see cdscript info --help',
    'apply a b': 'apply needs IMAGE SCRIPT OUT; see cdscript apply --help',
    'info a b': 'info needs IMAGE; see cdscript info --help',
    'replace a 1 b c': 'replace needs IMAGE [BLOCK OFFSET] OLD NEW; see cdscript replace --help',
    'merge a b': 'merge needs OLD OTHER.. OUT; see cdscript merge --help',
    'info --frob a': 'unknown option --frob; put names that begin with - after --',
    'info --carry a': 'info has no option --carry; see cdscript info --help',
    'info --base': '--base needs N',
    'info --base 449850 a': "--base must be a number from 0 to 449849, not '449850'",
    'info --base=x a': "--base must be a number from 0 to 449849, not 'x'",
    'info --base 1 --base 1 a': '--base was given twice',
    'check --carry=1 a b': '--carry does not accept a value',
    'find a b --encoding latin': "unknown encoding 'latin'; known encodings: " +
        ENCODINGS_KNOWN.map(({ name }) => name).join(', '),
    'find a b --encoding hex --table t': '--encoding and --table cannot be used together',
    'diff a b --skip-damaged --fields': '--fields and --skip-damaged cannot be used together',
    'replace a 1 0 b c --all': '--all cannot be used together with BLOCK and OFFSET',
    'replace a --list b --all': '--list and --all cannot be used together',
    'replace a --list b --inside': '--list and --inside cannot be used together',
    'replace a --list b --loose': '--list and --loose cannot be used together',
    'replace a b c --fill 2': "--fill needs two hexadecimal digits for each byte, or end, not '2'",
    'show a x': "a block must be a number from 0 to 999999999, not 'x'",
    'show a 1 2048': "an offset must be a number from 0 to 2047, not '2048'",
};

test('wrong arguments are one line and status 2', () => inDirectory(async room => {
    for (const [words, message] of Object.entries(WRONG_WORDS)) {
        const { status, out, errors } = await run(words.split(' ').filter(Boolean), { cwd: room });
        assert.deepEqual([status, out, errors], [2, '', `cdscript: ${message}\n`], words);
    }
}));

test('options in any place, and names that begin with -', () => inDirectory(async room => {
    write(room, { '-image': imageOf(room, 3, 75), image: imageOf(room, 3, 75) });
    for (const words of [['--base', '80', 'info', 'image'], ['info', 'image', '--base=80'], ['info', '--base=80', '--', '-image']]) {
        assert.match((await run(words, { cwd: room })).out, /\nbase 80\n80-82 mode1\nsectors 3 tail 0\nmode1 3 damaged 0 address 3\n/);
    }
    assert.match((await run(['--version'])).out, /^cdscript \d+\.\d+\.\d+\n$/);
    assert.match((await run(['--notices'])).out, /\n/);
    assert.equal((await run(['info', '-h'])).out, (await run(['info', '--help'])).out);
}));
