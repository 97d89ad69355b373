// The order of the lines of `scan`: that of their names, whatever is examined first.

import assert from 'node:assert/strict';
import { mkdirSync } from 'node:fs';
import { createRequire } from 'node:module';
import { join } from 'node:path';
import { test } from 'node:test';

// Must run before cdscript is loaded, which binds the calls.
const faults = createRequire(import.meta.url)('./faulty.cjs');
const { damaged, earlyCommand, imageOf, inDirectory, read, run, runProcess, write } = await import('./common.mjs');

const track = (number, name) => `FILE "${name}" BINARY\n TRACK ${String(number).padStart(2, '0')} MODE1/2352\n INDEX 01 00:00:00\n`;
const linesIn = text => text.toString().split('\n').filter(Boolean);
const namesIn = text => linesIn(text).map(line => line.split('\t')[0]);

/** Images of so many sectors. */
const sized = (...counts) => inDirectory(room => counts.map(count => imageOf(room, count)));

/**
 * Writes a collection whose first files take the longest, with cue sheets that name files before and after other files. Returns the names of
 * its files in their order.
 */
async function writeShelf(room) {
    const [large, small] = await sized(4000, 20);
    for (const name of ['b', 'b/c', 'b.d']) mkdirSync(join(room, name));
    const files = { 'a.bin': large, 'b/a.bin': large, 'b/c/a.bin': small, 'b.d/z.bin': damaged(small, 0, [3, 100]), 'b/f.bin': small, 'b/x.bin': small, 'c.bin': small,
        'notes.txt': 'notes', 'z\t.bin': small };
    write(room, { ...files, 'b/d.cue': track(1, 'a.bin') + track(2, 'x.bin'), 'b/z.cue': track(1, 'f.bin'), 'again.cue': track(1, 'b/f.bin') });
    return ['a.bin', 'b.d/z.bin', 'b/a.bin', 'b/c/a.bin', 'b/f.bin', 'b/x.bin', 'c.bin', 'notes.txt', 'z\\u{9}.bin'];
}

test('lines come in the order of names, with threads and without, in text and in JSON', () => inDirectory(async room => {
    const names = await writeShelf(room);
    const due = linesIn(runProcess(['scan', '.'], { cwd: room }).out);
    assert.deepEqual(namesIn(due.join('\n')), names);
    const early = await inDirectory(elsewhere => linesIn(runProcess(['scan', '.'], { cwd: room, file: earlyCommand(elsewhere) }).out));
    assert.deepEqual(early, due, 'with threads');
    for (const words of [['c.bin', 'z\t.bin', 'b', 'b.d', '.'], ['.']]) {
        assert.deepEqual(linesIn((await run(['scan', ...words], { cwd: room })).out), due);
        const objects = linesIn(runProcess(['scan', '--json', ...words], { cwd: room }).out).map(line => JSON.parse(line));
        assert.deepEqual(objects.map(it => it.name.replace('\t', '\\u{9}')), names);
    }
}));

test('a list that is continued is put in order, and is the list of one run', () => inDirectory(async room => {
    await writeShelf(room);
    const due = linesIn((await run(['scan', 'a.bin', 'b', 'b.d', 'c.bin', 'notes.txt', 'z\t.bin'], { cwd: room })).out);
    for (const words of [['z\t.bin', 'c.bin', 'notes.txt'], ['b/x.bin', 'b.d'], ['b', 'a.bin'], ['b']]) await run(['scan', ...words, '--resume', 'list'], { cwd: room });
    assert.deepEqual(linesIn(read(room, 'list')), due);
}));

test('two runs on one list keep the lines of both', () => inDirectory(async room => {
    const [image, other] = await sized(20, 8);
    const names = ['0.bin', 'a.bin', 'b.bin', 'c.bin', 'm.bin'];
    const due = async () => linesIn((await run(['scan', ...names], { cwd: room })).out);
    const isOf = { writeSync: ([, bytes]) => bytes.includes(0x09), fsyncSync: () => true };
    // If a.bin has changed, the first write and the first replacement are those of the list without its old line.
    for (const [call, at, more, changed] of [['writeSync', 2, [], true], ['writeSync', 1, [], false], ['fsyncSync', 1, ['b.bin', 'a.bin'], true], ['fsyncSync', 2, [], true]]) {
        write(room, Object.fromEntries(names.map(name => [name, image])));
        write(room, { list: (await run(['scan', 'a.bin', 'b.bin'], { cwd: room })).out, ...changed && { 'a.bin': other } });
        let [left, atEnd] = [at, []];
        // Before this call of a run that examines a.bin and c.bin, a second run examines 0.bin and m.bin.
        faults.hit = (name, given) => {
            if (name === 'fsyncSync') atEnd = namesIn(read(room, 'list'));
            if (name === call && isOf[call](given) && (left -= 1) === 0) assert.equal(runProcess(['scan', ...more, 'm.bin', '0.bin', '--resume', 'list'], { cwd: room }).errors, '');
            return null;
        };
        const { status, errors } = await run(['scan', 'c.bin', 'a.bin', '--resume', 'list'], { cwd: room });
        faults.hit = () => null;
        assert.deepEqual([left <= 0, status, errors, linesIn(read(room, 'list'))], [true, 0, '', await due()], `${call} ${at}`);
        if (changed) assert.ok(atEnd.includes('c.bin'), `${call} ${at}: the next line is in the list before the end`);
    }
}));

test('a file that its sheets leave out has its own line, in its place', () => inDirectory(async room => {
    const [image] = await sized(20);
    const [whole, faulty] = [track(1, 'a.bin'), `${track(1, 'a.bin')}${track(2, 'gone.bin')}`.replace('INDEX 01 00', 'INDEX 01 99')];
    write(room, { 'a.bin': image, 'b.bin': image, 'c.bin': image });
    for (const [sheets, faults] of [[[whole, faulty], 1], [[faulty, whole], 1], [[faulty, faulty], 2]]) {
        write(room, { 'a.cue': sheets[0], 'b.cue': sheets[1] });
        const { status, out, errors } = await run(['scan', './b.cue', './a.cue', 'c.bin', 'b.bin', 'a.bin'], { cwd: room });
        assert.deepEqual([status, namesIn(out).map(name => name.replace('./', '')), linesIn(errors).length], [2, ['a.bin', 'b.bin', 'c.bin'], faults], errors);
    }
    // A file has its line by the sheet, also if its own name comes before the sheet's.
    write(room, { 'b.cue': whole });
    assert.deepEqual(namesIn((await run(['scan', './a.bin', 'b.cue'], { cwd: room })).out), ['a.bin']);
    // Sheets that name each other, and themselves.
    write(room, { 'a.cue': track(1, 'b.cue'), 'b.cue': track(1, 'a.cue') + track(2, 'b.cue') });
    const { out } = await run(['scan', '.'], { cwd: room });
    assert.deepEqual(namesIn(out).filter(name => name.endsWith('.bin')), ['a.bin', 'b.bin', 'c.bin']);
}));
