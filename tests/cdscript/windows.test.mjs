// cdscript on Windows, as far as node emulates it on Linux: names that Windows forbids, paths with backslashes, and scripts with its line
// ends.

import assert from 'node:assert/strict';
import fs, { mkdirSync, readdirSync } from 'node:fs';
import path from 'node:path';
import { test } from 'node:test';
import { inDirectory, read, run, vectors, write } from './common.mjs';

/** Runs cdscript as on Windows, with node's functions for Windows paths. */
async function runOnWindows(words, given) {
    const kept = Object.getOwnPropertyDescriptor(process, 'platform');
    const { basename, dirname, join } = path;
    Object.defineProperty(process, 'platform', { ...kept, value: 'win32' });
    Object.assign(path, { basename: path.win32.basename, dirname: path.win32.dirname, join: path.win32.join });
    try {
        return await run(words, given);
    } finally {
        Object.assign(path, { basename, dirname, join });
        Object.defineProperty(process, 'platform', kept);
    }
}

test('on Windows no device and no stream beside a file is made', () => inDirectory(async room => {
    write(room, { 'disc.bin': vectors });
    for (const name of ['AUX.TXT', 'nul', 'Con', 'prn .x', 'COM1.bin', 'lpt9', 'com¹', 'CONIN$', 'C:\\games\\aux.bin', 'disc.bin:new', 'C:disc.bin:new',
        '\\\\.\\C:', '//./pipe/new']) {
        const { status, out, errors } = await runOnWindows(['user', 'disc.bin', name], { cwd: room });
        assert.deepEqual([status, out, errors], [2, '', `cdscript: cannot create ${name}: it cannot be the name of a file\n`], name);
    }
    assert.deepEqual(readdirSync(room), ['disc.bin']);
}));

test('on Windows other names are those of files', () => inDirectory(async room => {
    write(room, { 'disc.bin': vectors });
    for (const name of ['auxiliary.txt', 'COM10', 'my aux', 'nul-1.bin', 'C:new.bin', 'lpt']) {
        assert.equal((await runOnWindows(['user', 'disc.bin', name], { cwd: room })).status, 0, name);
        assert.equal(read(room, name).length, 8 * 2048, name);
    }
    assert.equal((await run(['user', 'disc.bin', 'AUX.TXT'], { cwd: room })).status, 0);
}));

/** The names of the links created during a call, each with its target. */
async function linksMade(use) {
    const { linkSync } = fs;
    const made = [];
    fs.linkSync = (file, name) => {
        made.push([file, name]);
        linkSync(file, name);
    };
    try {
        await use();
    } finally {
        fs.linkSync = linkSync;
    }
    return made;
}

// For Linux, a path with backslashes is the name of one file, so only jobs that list a directory need a real one.
test('on Windows a sheet and its file, and a new file and the one that it was, are in one directory', () => inDirectory(async room => {
    mkdirSync(`${room}/games`);
    write(room, {
        'games/game.bin': '', 'games\\game.bin': vectors,
        'games\\game.cue': 'FILE "GAME.BIN" BINARY\r\n  TRACK 01 MODE1/2352\r\n    INDEX 01 00:00:00\r\n',
    });
    const links = await linksMade(async () => {
        for (const name of ['D:\\made\\user.bin', 'D:user.bin', 'made\\user.bin']) {
            assert.equal((await runOnWindows(['user', 'games\\game.cue', name], { cwd: room })).status, 0, name);
            assert.equal(read(room, name).length, 8 * 2048, name);
        }
    });
    const directory = name => path.win32.normalize(path.win32.dirname(name));
    assert.equal(links.length, 6);
    for (const [file, name] of links) assert.equal(directory(file), directory(name), name);
}));

test('on Windows a drive is the directory where one is on it', () => inDirectory(async room => {
    mkdirSync(`${room}/D:`);
    write(room, {
        'D:/game.bin': '', 'D:.\\game.bin': vectors,
        'D:game.cue': 'FILE "GAME.BIN" BINARY\r\n  TRACK 01 MODE1/2352\r\n    INDEX 01 00:00:00\r\n',
    });
    assert.equal((await runOnWindows(['user', 'D:game.cue', 'user.bin'], { cwd: room })).status, 0);
    assert.equal(read(room, 'user.bin').length, 8 * 2048);
    const { status, out } = await runOnWindows(['scan', 'D:'], { cwd: room });
    assert.deepEqual([status, out.split('\t')[0]], [0, 'D:.\\\\game.bin']);
    assert.match((await run(['scan', 'D:'], { cwd: room })).out, /^D:\/game\.bin\t/);
}));

test('a cue sheet of Windows finds its file, and a script of Windows is the same script', () => inDirectory(async room => {
    write(room, {
        'game.bin': vectors, 'game.cue': 'FILE "D:\\Dumps\\GAME.BIN" BINARY\r\n  TRACK 01 MODE1/2352\r\n    INDEX 01 00:00:00\r\n',
        'unix.txt': 'cdpatch 1\nset 1 0 48656C6C6F\n# end\n', 'windows.txt': 'cdpatch 1\r\nset 1 0 48656C6C6F\r\n# end\r\n',
    });
    for (const name of ['unix', 'windows']) {
        assert.equal((await runOnWindows(['apply', 'game.cue', `${name}.txt`, `${name}.bin`], { cwd: room })).status, 0, name);
    }
    assert.deepEqual(read(room, 'windows.bin'), read(room, 'unix.bin'));
}));
