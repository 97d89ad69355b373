// The interface of cdscript: suggestions for mistyped words, help, versions, standard output, and progress.

import assert from 'node:assert/strict';
import { mkdirSync, readdirSync } from 'node:fs';
import { join } from 'node:path';
import { test } from 'node:test';
import { harmlessVolume } from '../core/strangers.mjs';
import { ENCODINGS_KNOWN, READING, command, damaged, imageOf, inDirectory, read, run, runProcess, tool, write } from './common.mjs';
import { makeDisc, skip } from './discs.mjs';

const hasTerminal = tool('script', ['--version']) !== null;

test('a mistyped job, option or encoding is answered by what was meant', async () => {
    const SAID = {
        'fnd x': "unknown job 'fnd'; did you mean find?; see cdscript --help",
        'Info x': "unknown job 'Info'; did you mean info?; see cdscript --help",
        'rebuild x': "unknown job 'rebuild'; did you mean merge?; see cdscript --help",
        'Verify x': "unknown job 'Verify'; did you mean info?; see cdscript --help",
        'aplpy x': "unknown job 'aplpy'; did you mean apply?; see cdscript --help",
        'applyxx x': "unknown job 'applyxx'; did you mean apply?; see cdscript --help",
        'rwa x': "unknown job 'rwa'; did you mean raw?; see cdscript --help",
        'arw x': "unknown job 'arw'; did you mean raw?; see cdscript --help",
        'wra x': "unknown job 'wra'; see cdscript --help",
        'frobnicate x': "unknown job 'frobnicate'; see cdscript --help",
        'info --bsae 0 x': 'unknown option --bsae; did you mean --base?',
        'info --frobnicate x': 'unknown option --frobnicate; put names that begin with - after --',
        'find x y --encoding latin1': "unknown encoding 'latin1'; known encodings: " +
        ENCODINGS_KNOWN.map(({ name }) => name).join(', '),
        'help fnd': "unknown job 'fnd'; did you mean find?; see cdscript --help",
    };
    for (const [words, said] of Object.entries(SAID)) {
        const { status, out, errors } = await run(words.split(' '));
        assert.deepEqual([status, out, errors], [2, '', `cdscript: ${said}\n`]);
    }
});

test('a mistyped path is answered by the one that was meant', { skip }, () => inDirectory(async room => {
    await makeDisc(room);
    const SAID = { 'data/border.dat': 'did you mean /DATA/BORDER.DAT?', '/DATA/BODER.DAT': 'did you mean /DATA/BORDER.DAT?', '/nothing/like/it': 'cdscript files lists the files' };
    for (const [path, said] of Object.entries(SAID)) {
        const { status, errors } = await run(['extract', 'disc.bin', path, 'out'], { cwd: room });
        assert.deepEqual([status, errors], [2, `cdscript: no file ${path} on the disc; ${said}\n`]);
    }
}));

test('help, version and -V are taken as words', async () => {
    for (const [words, same] of [[['help'], ['--help']], [['help', 'find'], ['find', '--help']], [['version'], ['--version']], [['-V'], ['--version']]]) {
        const [came, due] = [await run(words), await run(same)];
        assert.deepEqual([came.status, came.out, came.errors], [0, due.out, ''], words.join(' '));
    }
});

/** Asserts that the options in a help are aligned, long ones also without a letter, and that all descriptions begin in one column. */
function assertAligned(help) {
    assert.ok(help.split('\n').every(line => line.length <= 79), help);
    const rows = help.split('\nOptions:\n')[1].split('\n\n')[0].trimEnd().split('\n');
    const options = rows.map(row => /^(?: {2}-o FILE| {2}-[hV], --\w+| {6}--[a-z-]+(?: [A-Z]+)?)? {2,}(?=\S)/.exec(row));
    assert.equal(new Set(options.map(found => found && found[0].length)).size, 1, help);
}

test('help of each job has an example that is right, and says all of the program\'s jobs', async () => {
    const { out } = await run(['help']);
    const jobs = [...out.split('Options:')[0].matchAll(/^ {2}([a-z-]+) {2,}/gm)].map(([, job]) => job);
    assert.ok(jobs.length >= 17);
    assertAligned(out);
    await inDirectory(async room => {
        for (const job of jobs) {
            const help = (await run(['help', job])).out;
            const [, example] = /\nExample:\n {2}cdscript (.*)\n/.exec(help) ?? [];
            assert.ok(example?.startsWith(`${job} `), help);
            assertAligned(help);
            const words = tool('sh', ['-c', `printf '%s\\n' ${example}`]).toString().split('\n').slice(0, -1);
            const { out, errors } = await run(words, { cwd: room });
            assert.match(out + errors, /^cdscript: cannot (open|read) /, example);
        }
    });
    for (const job of ['check', 'apply']) {
        assert.match((await run(['help', job])).out, /like\s+cdpatch\s.*The\s+first\s+sector\s+is\s+block\s+0\s/s, job);
    }
    assert.match((await run(['help', 'replace-file'])).out, /--fill HEX +pad with this byte, such as 20\n/);
});

test('a dash after -o is standard output', () => inDirectory(async room => {
    write(room, { image: damaged(imageOf(room, 20), 0, [3, 100]) });
    const due = await run(['rebuilds', 'image'], { cwd: room });
    const came = await run(['rebuilds', 'image', '-o', '-'], { cwd: room });
    assert.deepEqual([came.status, came.out, read(room, '-')], [due.status, due.out, null]);
}));

test('every job names the file that cannot be read, and the reason, and makes no file', () => inDirectory(async room => {
    assert.deepEqual(Object.keys(READING).sort(), JSON.parse((await run(['--forms'])).out).jobs.map(it => it.name).sort());
    write(room, { iso: harmlessVolume(30), script: 'cdpatch 1\n', 'list.dat': `<datafile><game name="a"><rom name="a" size="9" sha1="${'0'.repeat(40)}"/></game></datafile>`, list: 'block\toffset\ttext\tnew\n', table: '41=A\n' });
    await run(['raw', 'iso', 'image'], { cwd: room });
    mkdirSync(join(room, 'folder'));
    const there = readdirSync(room);
    const fits = { check: 'script', apply: 'script', undo: 'script', 'replace-file': 'script', find: 'table', show: 'table', texts: 'list', replace: 'list',
        diff: 'image', merge: 'image' };
    for (const [job, form] of Object.entries(READING)) {
        for (const [name, reason] of [['none', 'there is no such file or directory'], ['folder', 'it is a directory']]) {
            const other = fits[job] ?? 'list.dat';
            const isFolder = job === 'scan' && name === 'folder'; // it scans the directory
            for (const [image, second] of [...isFolder ? [] : [[name, other]], ...form.includes('OTHER') ? [['image', name]] : []]) {
                const words = form.replace('IMAGE', image).replace('OTHER', second).replace('NEW', 'new');
                const { status, out, errors } = await run(words.split(' '), { cwd: room });
                assert.deepEqual([status, out], [2, ''], words);
                assert.match(errors, new RegExp(`^cdscript: cannot (open|read) ${name}: ${reason}$`, 'm'), words);
            }
        }
    }
    assert.deepEqual(readdirSync(room), there);
}));

test('every job that makes a file names the one that it cannot make, and the reason', () => inDirectory(async room => {
    write(room, { image: imageOf(room, 30), script: 'cdpatch 1\n', there: 'x', iso: harmlessVolume(30) });
    const FORMS = ['apply image script NEW', 'merge image image NEW', 'raw iso NEW', 'user image NEW', 'extract image /A NEW', 'files image -o NEW',
        'find image A -o NEW', 'texts image -o NEW', 'replace image A B -o NEW', 'diff image image -o NEW', 'rebuilds image -o NEW', 'undo image script -o NEW',
        'scan image -o NEW', 'replace-file image /A script -o NEW'];
    for (const [name, why] of [['there', 'it already exists'], ['nowhere/out', 'there is no such file or directory'], ['image/out', 'a part of the path is not a directory']]) {
        for (const form of FORMS) {
            const { status, out, errors } = await run(form.replace('NEW', name).split(' '), { cwd: room });
            assert.deepEqual([status, out, errors], [2, '', `cdscript: cannot create ${name}: ${why}\n`], form);
        }
    }
}));

test('apply, check and undo show how far they are', { skip: !hasTerminal && 'no terminal' }, () => inDirectory(room => {
    const lines = Array.from({ length: 3000 }, (_, i) => `set ${i} 7 41`);
    write(room, { image: imageOf(room, 3000), script: `cdpatch 1\n${lines.join('\n')}\n` });
    for (const words of ['apply image script out', 'check image script', 'undo image script -o back']) {
        const shown = tool('script', ['-qec', `"${process.execPath}" "${command}" ${words}`, '/dev/null'], { cwd: room }).toString();
        assert.match(shown, /\r\d+ % of 3000 sectors[^\n]*\r\x1b\[K/, words);
    }
}));

test('a device such as /dev/null is an output, and a file that exists is not', () => inDirectory(async room => {
    imageOf(room, 20);
    const [printed, none, refused] = await Promise.all(['-', '/dev/null', 'made.txt'].map(name =>
        runProcess(['diff', 'made.bin', 'made.out', '-o', name], { cwd: room })));
    assert.match(printed.out, /^cdpatch 2\n/);
    assert.deepEqual([printed.status, none.status, none.out, refused.status], [0, 0, '', 2]);
    assert.match(refused.errors, /already exists/);
}));

test('--forms prints each job and option of help as JSON', async () => {
    const { status, out } = await run(['--forms']);
    const { name, jobs } = JSON.parse(out);
    assert.deepEqual([status, name], [0, 'cdscript']);
    const whole = (await run(['--help'])).out;
    assert.deepEqual(jobs.map(job => job.name), [...whole.matchAll(/^ {2}([a-z-]+) {2,}[A-Z]/gm)].map(([, it]) => it));
    for (const job of jobs) {
        const help = (await run([job.name, '--help'])).out;
        const options = [...help.matchAll(/^ {2}(?:(-\w)(?:, )?| {4})(--[a-z-]+)? *([A-Z]*)(?: {2}|$)/gm)].filter(([, short, long]) => short || long);
        assert.deepEqual(job.options.map(it => [it.short, it.long, it.value]), options.map(([, short = '', long = '', value]) => [short, long, value]), job.name);
        assert.deepEqual(job.forms.map(form => `cdscript ${job.name} [OPTIONS] ${form}`), help.match(/cdscript \S+ \[OPTIONS\] .*/g), job.name);
        assert.equal(help.replace(/\s+/g, ' ').includes(`1 ${job.found}; 2 `), job.found !== '', job.name);
    }
});
