// Borderline input and output of the jobs: a terminal, a cue sheet from a pipe, and texts that a table or a disc spells differently.

import assert from 'node:assert/strict';
import { spawn, spawnSync } from 'node:child_process';
import { existsSync, truncateSync } from 'node:fs';
import { join } from 'node:path';
import { test } from 'node:test';
import { command, damaged, imageOf, inDirectory, program, read, run, tool, write } from './common.mjs';
import { files, makeDisc, skip } from './discs.mjs';

const hasTerminal = tool('script', ['--version']) !== null;

/** The output of a job on a terminal, without the lines that it has erased again. */
function shownOnTerminal(room, words) {
    const shown = tool('script', ['-qec', `"${process.execPath}" "${command}" ${words.join(' ')}`, '/dev/null'], { cwd: room });
    return shown.toString().replaceAll('\r\n', '\n').replace(/\r[^\r\n]*\r\x1b\[K/g, '');
}

test('progress on a terminal is gone before anything else is shown', { skip: !hasTerminal && 'no terminal' }, () => inDirectory(room => {
    write(room, { image: imageOf(room, 16), none: 'cdpatch 1\n' });
    for (const [words, due] of [[['check', 'image', 'none'], 'applied 0 refused 0\n'], [['user', 'image', 'out'], ''],
        [['diff', '--fields', 'image', 'image'], 'sectors 16 differ 0\n'], [['rebuilds', 'image', '-o', 'script'], 'cdscript: the script has no patch\n']]) {
        assert.equal(shownOnTerminal(room, words), due, words.join(' '));
    }
    assert.equal(read(room, 'out').length, 16 * 2048);
}));

test('an engine without vectors is refused by a sentence, here and in the npm package', () => inDirectory(room => {
    write(room, { image: imageOf(room, 1) });
    const withoutVectors = words => spawnSync(process.execPath, ['--no-enable-sse4-1', ...words], { cwd: room, encoding: 'utf8' });
    const due = 'this JavaScript engine has no WebAssembly SIMD, which cdpatch needs, or the processor has no SSE4.1\n';
    const { status, stdout, stderr } = withoutVectors([command, 'info', 'image']);
    assert.deepEqual([status, stdout, stderr], [2, '', `cdscript: ${due}`]);
    const load = `import(${JSON.stringify(new URL('../../out/web/npm/cdpatch.js', import.meta.url).href)}).then(({ load }) => load())`;
    assert.equal(withoutVectors(['-e', `${load}.catch(error => console.log(error.name, error.message))`]).stdout, `Fault ${due}`);
}));

test('a cue sheet comes from standard input too', () => inDirectory(room => {
    const sheet = 'FILE "image" BINARY\n  TRACK 01 MODE1/2352\n    INDEX 01 00:00:00\n';
    write(room, { image: imageOf(room, 3, 75), sheet });
    const out = tool(process.execPath, [command, 'info', '-'], { cwd: room, input: sheet }).toString();
    assert.match(out, /^-: a cue sheet\n.*\n.*\ntrack 1 MODE1\/2352 blocks 75-77 in image\n/);
    assert.equal(tool('sh', ['-c', `"${process.execPath}" "${command}" info - < sheet`], { cwd: room }).toString(), out);
}));

test('a standard input of which something was read begins where that ended', () => inDirectory(room => {
    write(room, { file: Buffer.concat([Buffer.alloc(2352 * 4), imageOf(room, 12)]) });
    const both = `dd bs=2352 count=4 of=rest status=none; "${process.execPath}" "${command}" info -`;
    const out = tool('sh', ['-c', `{ ${both}; } < file`], { cwd: room }).toString();
    assert.match(out, /\nbase 0\n0-11 mode1\nsectors 12 tail 0\nmode1 12 damaged 0 address 0\n$/);
}));

test('info says what is wrong with a standard input that is closed', () => inDirectory(room => {
    const { status, stdout } = spawnSync('sh', ['-c', `"${process.execPath}" "${command}" info - <&-`], { cwd: room, encoding: 'utf8' });
    assert.deepEqual([status, stdout.split('\n').slice(0, 2)], [1, ['-: an empty file',
        'Standard input is empty or closed: give the name of a file, or the image on standard input.']]);
}));

test('an address that no script can write is reported by undo, and does not count as damage', () => inDirectory(async room => {
    write(room, { hurt: damaged(imageOf(room, 8), 0, [3, 14]), fix: 'cdpatch 1\nrebuild 3\n', edit: 'cdpatch 2\naddress 3 00:02:03\n' });
    tool(program, ['apply', 'hurt', 'fix', 'odd'], { cwd: room });
    const { status, out, errors } = await run(['undo', 'odd', 'edit'], { cwd: room });
    assert.deepEqual([status, out], [1, 'cdpatch 1\n']);
    assert.match(errors, /^cdscript: a script cannot write the address of block 3 in odd\n/);
}));

test('a signal ends what waits for its reader', () => inDirectory(async room => {
    write(room, { image: imageOf(room, 60), zeros: `cdpatch 1\n${Array.from({ length: 60 }, (_, i) => `fill ${i} 0 2048 00\n`).join('')}` });
    tool(program, ['apply', 'image', 'zeros', 'empty'], { cwd: room });
    const words = ['find', 'empty', '00', '--encoding', 'hex', '--limit', '100000'];
    const child = spawn(process.execPath, [command, ...words], { cwd: room, stdio: ['ignore', 'pipe', 'ignore'] });
    const ended = new Promise(resolve => child.on('exit', (_, by) => resolve(by)));
    await new Promise(resolve => child.stdout.once('readable', resolve));
    // Nobody reads any more, so the pipe is full soon.
    await new Promise(resolve => setTimeout(resolve, 1500));
    child.kill('SIGTERM');
    const late = setTimeout(() => child.kill('SIGKILL'), 30000);
    assert.equal(await ended, 'SIGTERM');
    clearTimeout(late);
}));

test('a text is replaced in the spelling that the disc has, at its place and at all', () => inDirectory(async room => {
    // Row 13 of NEC and the rows of IBM contain some kanji twice: ED40 and FA5C are both 纊.
    write(room, { plain: imageOf(room, 8), edit: 'cdpatch 1\nset 2 10 ED408261\nset 3 2047 FA5C8261\n' });
    tool(program, ['apply', 'plain', 'edit', 'image'], { cwd: room });
    const [one, two] = ['set 2 10 889F8261 was ED408261', 'set 3 2047 889F8261 was FA5C8261'];
    for (const [words, lines] of [[['2', '10', '纊Ｂ', '亜Ｂ'], [one]], [['3', '2047', '纊Ｂ', '亜Ｂ'], [two]], [['纊Ｂ', '亜Ｂ', '--all'], [one, two]]]) {
        const { status, out } = await run(['replace', 'image', ...words], { cwd: room });
        assert.deepEqual([status, out], [0, ['cdpatch 1', ...lines, ''].join('\n')], words.join(' '));
    }
    const other = await run(['replace', 'image', '2', '12', '纊', '亜'], { cwd: room });
    assert.deepEqual([other.status, other.out, other.errors], [2, '', 'cdscript: old bytes differ at block 2 offset 12\n']);
}));

test('a table without a space asks for --fill', () => inDirectory(async room => {
    write(room, { plain: imageOf(room, 8), edit: 'cdpatch 1\nset 2 10 414243\n', table: '41=a\n4243=b\n' });
    tool(program, ['apply', 'plain', 'edit', 'image'], { cwd: room });
    const words = ['replace', 'image', '2', '10', 'ab', 'a', '--table', 'table'];
    const { status, out, errors } = await run(words, { cwd: room });
    assert.deepEqual([status, out, errors], [2, '', 'cdscript: the table has no space character to pad with: give --fill\n']);
    assert.equal((await run([...words, '--fill', '41'], { cwd: room })).out, 'cdpatch 1\nset 2 10 414141 was 414243\n');
    const same = await run(['replace', 'image', '2', '10', 'ab', 'ba', '--table', 'table'], { cwd: room });
    assert.deepEqual([same.status, same.out, same.errors], [0, 'cdpatch 1\nset 2 10 424341 was 414243\n', '']);
}));

test('a pipe that has nothing yet, and does not wait, is waited for', () => inDirectory(room => {
    write(room, { image: imageOf(room, 3) });
    const unblock = 'python3 -c "import os; os.set_blocking(0, False)"';
    const came = tool('sh', ['-c', `{ sleep 5; cat image; } | { ${unblock}; "${process.execPath}" "${command}" info -; }`], { cwd: room });
    assert.match(came.toString(), /\n0-2 mode1\nsectors 3 tail 0\n/);
}));

test('a file that is taken out with sectors that are not Mode 1 is not passed off as whole', { skip }, () =>
    inDirectory(async room => {
        await makeDisc(room);
        const [place] = (await run(['files', 'disc.bin'], { cwd: room })).out.split('\n').filter(line => line.endsWith('\t/BIG.BIN'));
        const block = Number(place.split('\t')[0]);
        write(room, { hurt: damaged(read(room, 'disc.bin'), 0, [block + 3, 15], [block + 4, 0]) });
        const { status, errors } = await run(['extract', 'hurt', '/BIG.BIN', 'out'], { cwd: room });
        const text = 'so the bytes written may not be user data';
        assert.deepEqual([status, errors], [1, `cdscript: block ${block + 3}: other, ${text}\ncdscript: block ${block + 4}: nosync, ${text}\n`]);
        assert.equal(Buffer.compare(read(room, 'out'), files()['BIG.BIN']), 0);
    }));

test('fields that differ, and a tail that does', () => inDirectory(async room => {
    const image = imageOf(room, 4);
    write(room, { one: Buffer.concat([image, Buffer.from('a')]), two: Buffer.concat([image, Buffer.from('b')]) });
    const { status, out, errors } = await run(['diff', '--fields', 'one', 'two'], { cwd: room });
    assert.deepEqual([status, out, errors], [1, 'sectors 4 differ 0\n', 'cdscript: the incomplete last sectors differ\n']);
    assert.equal((await run(['diff', '--fields', 'one', 'one'], { cwd: room })).status, 0);
}));

test('an image of more sectors than the program takes is refused at once', () => inDirectory(async room => {
    write(room, { long: '', script: 'cdpatch 1\n' });
    truncateSync(join(room, 'long'), 1000001 * 2352);
    const [what, advice] = ['an image that is larger than a CD', 'A CD has at most 449850 sectors. Choose the image of a CD.'];
    for (const words of [['check', 'script'], ['apply', 'script', 'out'], ['files'], ['undo', 'script'], ['rebuilds']]) {
        const { status, out, errors } = await run([words[0], 'long', ...words.slice(1)], { cwd: room });
        assert.deepEqual([status, out, errors], [2, '', `cdscript: long is ${what}. ${advice}\n`], words[0]);
    }
    const info = await run(['info', 'long'], { cwd: room });
    assert.deepEqual([info.status, info.out, info.errors], [1, `long: ${what}\n${advice}\n`, '']);
    const scan = await run(['scan', 'long', '-o', 'list'], { cwd: room });
    assert.deepEqual([scan.status, scan.errors, `${read(room, 'list')}`.split('\t').slice(0, 2)], [2, `cdscript: long is ${what}\n`, ['long', `none: ${what}`]]);
    assert.equal(existsSync(join(room, 'out')), false);
}));

test('a failed close of the image is a message, and no finding', () => inDirectory(room => {
    // Only closing the image fails: node 18 closes the modules that it loads by the same call.
    const preload = `const fs = require('node:fs');
        const [open, closeSync] = [fs.open, fs.closeSync];
        let image = -1;
        fs.open = (name, flags, done) => open(name, flags, (error, descriptor) => { image = descriptor; done(error, descriptor); });
        fs.closeSync = descriptor => { if (descriptor === image) throw new Error('EIO'); closeSync(descriptor); };`;
    write(room, { image: imageOf(room, 3), 'close.cjs': preload });
    const { status, stderr } = spawnSync(process.execPath, ['-r', './close.cjs', command, 'info', 'image'], { cwd: room, encoding: 'utf8' });
    assert.deepEqual([status, stderr.split('\n')[0].startsWith('cdscript: cannot close image: ')], [0, true]);
}));
