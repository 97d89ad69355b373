// The base, which is the block of an image's first sector: as recorded in a script by cdscript, and as given by the addresses.

import assert from 'node:assert/strict';
import { test } from 'node:test';
import { damaged, imageOf, inDirectory, program, read, run, sameFile, tool, write } from './common.mjs';

/** Writes a later track of 40 sectors from block 150, once undamaged and once with two damaged sectors. */
function writeLater(room) {
    const later = imageOf(room, 40, 150);
    const hurt = damaged(later, 150, [158, 100], [170, 2000]);
    write(room, { 'later.bin': later, 'hurt.bin': hurt, 'few.bin': hurt.subarray(0, 15 * 2352) });
    return { later, hurt };
}

const WAYS = 'most addresses in hurt.bin say that it begins with block 150: use --base 150, or --base 0 to count from 0 anyway';

test('each script says for which base it is written, and is applied at no other one', () => inDirectory(async room => {
    const { later } = writeLater(room);
    const text = later.toString('hex', 16 + 2352 * 3, 26 + 2352 * 3).toUpperCase();
    const JOBS = [['rebuilds', 'hurt.bin'], ['diff', 'hurt.bin', 'later.bin'], ['replace', 'later.bin', '153', '0', text, 'FF'.repeat(10), '--encoding', 'hex'],
        ['undo', 'later.bin', 'edit']];
    write(room, { edit: 'cdpatch 1\nset 153 0 00\n' });
    for (const words of JOBS) {
        const { status, out } = await run(words, { cwd: room });
        assert.match(`${status} ${out}`, /^0 cdpatch [12]\n# base 150\n(rebuild|set) 15/, words.join(' '));
    }
    assert.match((await run(['rebuilds', 'hurt.bin', '--base', '7'], { cwd: room })).out, /^cdpatch 1\n# base 7\nrebuild 15\n/);
    write(room, { 'sound.bin': imageOf(room, 20), 'odd.bin': damaged(imageOf(room, 20), 0, [3, 100]) });
    assert.equal((await run(['rebuilds', 'odd.bin'], { cwd: room })).out, 'cdpatch 1\nrebuild 3\n');
    await run(['diff', 'hurt.bin', 'later.bin', '-o', 'repair'], { cwd: room });
    const said = base => `cdscript: line 2 of the script says base 150, but the image begins with block ${base}: use --base 150, or delete that line\n`;
    for (const [words, base] of [[['apply', 'hurt.bin', 'repair', 'out', '--base', '0'], 0], [['check', 'hurt.bin', 'repair', '--base', '151'], 151],
        [['check', 'odd.bin', 'repair'], 0]]) {
        const { status, out, errors } = await run(words, { cwd: room });
        assert.deepEqual([status, out, errors, read(room, 'out')], [2, '', said(base), null], words.join(' '));
    }
    assert.equal((await run(['apply', 'hurt.bin', 'repair', 'out', '--base', '150'], { cwd: room })).status, 0);
    sameFile(read(room, 'out'), later, 'the repaired track');
    tool(program, ['apply', '--base', '150', 'hurt.bin', 'repair', 'due'], { cwd: room });
    sameFile(read(room, 'due'), later, 'what the program makes of the script');
}));

test('addresses of Mode 2 say the base of an image, but check counts from 0', () => inDirectory(async room => {
    const image = imageOf(room, 40, 150);
    for (let i = 0; i < 40; i++) image[2352 * i + 15] = 2;
    write(room, { 'ps.bin': image, script: 'cdpatch 1\nset 39 0 00\n' });
    const info = await run(['info', 'ps.bin'], { cwd: room });
    assert.deepEqual([info.status, info.errors], [1, '']);
    assert.match(info.out, /\ntrack 1 data blocks 150-189 in ps\.bin\nbase 150\n150-189 mode2\n/);
    const check = await run(['check', 'ps.bin', 'script'], { cwd: room });
    assert.deepEqual([check.status, check.out], [1, 'line 2: refused: block 39 is not mode 1\napplied 0 refused 1\n']);
}));

test('an undo of a script for another base is refused', () => inDirectory(async room => {
    writeLater(room);
    write(room, { edit: 'cdpatch 1\n# a comment\n# base 140\nset 153 0 00\n' });
    const { status, out, errors } = await run(['undo', 'later.bin', 'edit'], { cwd: room });
    assert.deepEqual([status, out, errors], [2, '', 'cdscript: line 3 of the script says base 140, but the image begins with block 150\n']);
    write(room, { edit: 'cdpatch 1\n# base 150 or so\n#base 1\n# base 150\r\nset 153 0 00\n' });
    assert.equal((await run(['undo', 'later.bin', 'edit'], { cwd: room })).status, 0);
}));

test('what most addresses say is not passed over without --base', () => inDirectory(async room => {
    writeLater(room);
    write(room, { script: 'cdpatch 1\nrebuild 8\n' });
    for (const words of [['check', 'hurt.bin', 'script'], ['apply', 'hurt.bin', 'script', 'out']]) {
        const { status, out, errors } = await run(words, { cwd: room });
        assert.deepEqual([status, out, errors, read(room, 'out')], [2, '', `cdscript: ${WAYS}\n`, null], words.join(' '));
    }
    // With --base the result is that of the program.
    for (const base of ['0', '150']) {
        const due = tool('sh', ['-c', `"${program}" check --base ${base} hurt.bin script; echo $?`], { cwd: room }).toString();
        const { status, out, errors } = await run(['check', 'hurt.bin', 'script', '--base', base], { cwd: room });
        assert.deepEqual([`${out}${status}\n`, errors], [due, '']);
    }
    // Most addresses agree, but some do not.
    const some = Buffer.concat([read(room, 'later.bin'), imageOf(room, 30, 900)]);
    write(room, { some, half: Buffer.concat([some, imageOf(room, 20, 500)]) });
    assert.match((await run(['check', 'some', 'script'], { cwd: room })).errors, /^cdscript: most addresses in some say that it begins with block 150: /);
    assert.equal((await run(['check', 'half', 'script'], { cwd: room })).status, 0);
    // A few addresses are not enough.
    const few = await run(['check', 'few.bin', 'script'], { cwd: room });
    assert.deepEqual([few.status, few.errors], [0, 'cdscript: this image begins with block 150: use --base 150\n']);
}));
