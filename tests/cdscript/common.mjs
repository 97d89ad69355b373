// Shared by the tests of cdscript: the packed command (COMMAND) as a process and in this one, directories, and images.

import assert from 'node:assert/strict';
import { spawnSync } from 'node:child_process';
import { closeSync, mkdtempSync, openSync, readFileSync, rmSync, writeFileSync } from 'node:fs';
import { createRequire } from 'node:module';
import { tmpdir } from 'node:os';
import { join } from 'node:path';
import { fileURLToPath } from 'node:url';

export const top = fileURLToPath(new URL('../..', import.meta.url));
export const command = process.env.COMMAND ?? join(top, 'cdscript');
export const program = process.env.PROGRAM ?? join(top, 'cdpatch');
export const vectors = readFileSync(join(top, 'crates/cd_low_tests/data/cdrkit-8.bin'));

// Loaded before a test replaces functions of node: in node 18, a module that is required later gives all importers those of that moment.
const load = createRequire(import.meta.url);
load(command);

/** The table of encodings, in the order of their list; tests/core/common.mjs explains it. */
export const ENCODINGS_KNOWN = JSON.parse(readFileSync(join(top, 'tests/encodings.json'), 'utf8'));

/** The result of a process or a call: its status, and its standard streams as text and as bytes. */
const ended = (status, out, errors) => ({ status, out: out.toString(), errors: errors.toString(), bytes: out });

/** Writes a copy of cdscript whose threads begin at 8000 sectors, or for each file of a scan: images that are long enough for them are too large. */
export function earlyCommand(directory) {
    let early = readFileSync(command, 'utf8');
    for (const [name, least] of [['SECTORS_FOR_THREADS', '8000'], ['BYTES_FOR_THREAD', '1']]) {
        const found = new RegExp(`\\b${name} ?= ?[\\de]+`);
        assert.match(early, found);
        early = early.replace(found, `${name}=${least}`);
    }
    write(directory, { early });
    return join(directory, 'early');
}

/** Runs cdscript as a process. */
export function runProcess(words, { cwd = '.', input, file = command } = {}) {
    const done = spawnSync(process.execPath, [file, ...words], { cwd, input, maxBuffer: 1 << 28 });
    return ended(done.signal ?? done.status, done.stdout, done.stderr);
}

/** Runs another command, which must succeed. Null if it is not installed. */
export function tool(name, words, { cwd = '.', input } = {}) {
    const done = spawnSync(name, words, { cwd, input, maxBuffer: 1 << 28, env: { ...process.env, LC_ALL: 'C.UTF-8' } });
    if (done.error) return null;
    assert.equal(done.status, 0, `${name} ${words.join(' ')}: ${done.stderr}`);
    return done.stdout;
}

/** Calls `main` in this process, with files of a directory as its standard streams. Calls `before` first and `after` last. */
export async function call(directory, words, before = () => {}, after = () => {}, file = command) {
    const { main } = load(file);
    const names = ['stdout', 'stderr'].map(name => join(directory, name));
    const streams = { input: openSync('/dev/null', 'r'), output: openSync(names[0], 'w'), errors: openSync(names[1], 'w') };
    before();
    const status = await main(words, streams);
    after();
    // Pending reads of the closed files end before other files are opened.
    for (let i = 0; i < 3; i++) await new Promise(resolve => setImmediate(resolve));
    Object.values(streams).forEach(closeSync);
    return ended(status, ...names.map(name => readFileSync(name)));
}

/** Runs cdscript in a directory by a call in this process. */
export async function run(words, { cwd = '.' } = {}) {
    const home = process.cwd();
    process.chdir(cwd);
    try {
        return await inDirectory(streams => call(streams, words));
    } finally {
        process.chdir(home);
    }
}

/** Creates a directory, and deletes it after use. */
export async function inDirectory(use) {
    const directory = mkdtempSync(join(tmpdir(), 'cdscript-'));
    try {
        return await use(directory);
    } finally {
        rmSync(directory, { recursive: true, force: true });
    }
}

/** Writes files to a directory. */
export function write(directory, files) {
    for (const [name, bytes] of Object.entries(files)) writeFileSync(join(directory, name), bytes);
}

/** The bytes of a file, or null if it does not exist. */
export function read(directory, name) {
    try {
        return readFileSync(join(directory, name));
    } catch {
        return null;
    }
}

/** Asserts that two files have the same bytes, or reports where they differ. */
export function sameFile(came, due, name) {
    assert.ok(came !== null && due !== null, `${name}: came ${came && came.length}, due ${due && due.length}`);
    assert.equal(came.length, due.length, `${name}: sizes`);
    assert.equal(Buffer.compare(came, due), 0, `${name}: bytes`);
}

/** Every job that reads an image, with its name and that of another file that is read. NEW is the name of a new file. */
export const READING = { info: 'info IMAGE --dat OTHER', scan: 'scan IMAGE --dat OTHER', check: 'check IMAGE OTHER', apply: 'apply IMAGE OTHER NEW',
    files: 'files IMAGE', find: 'find IMAGE A --table OTHER', texts: 'texts IMAGE --list OTHER', show: 'show IMAGE 1 0 --table OTHER',
    extract: 'extract IMAGE /FILE NEW', replace: 'replace IMAGE --list OTHER', 'replace-file': 'replace-file IMAGE /FILE OTHER', diff: 'diff IMAGE OTHER',
    merge: 'merge IMAGE OTHER NEW', rebuilds: 'rebuilds IMAGE', undo: 'undo IMAGE OTHER', raw: 'raw IMAGE NEW', user: 'user IMAGE NEW' };

/** An image that repeats the eight sectors of other software. The program sets the addresses of the blocks from `base` on. */
export function imageOf(directory, count, base = 0) {
    const image = Buffer.concat(Array.from({ length: count }, (_, i) => vectors.subarray(2352 * (i % 8), 2352 * (i % 8 + 1))));
    const digits = number => String(number).padStart(2, '0');
    const lines = Array.from({ length: count }, (_, i) => {
        const frame = base + i + 150;
        return `address ${base + i} ${digits(Math.floor(frame / 4500))}:${digits(Math.floor(frame / 75) % 60)}:${digits(frame % 75)}`;
    });
    write(directory, { 'made.bin': image, 'made.txt': `cdpatch 2\n${lines.join('\n')}\n` });
    rmSync(join(directory, 'made.out'), { force: true });
    tool(program, ['apply', '--base', String(base), 'made.bin', 'made.txt', 'made.out'], { cwd: directory });
    return read(directory, 'made.out');
}

/** Writes `image`: blocks 2 to 5 are zeros except for these bytes at these places. */
export function writeImage(room, ...places) {
    write(room, { plain: imageOf(room, 8), edit: ['cdpatch 1', ...[2, 3, 4, 5].map(block => `fill ${block} 0 2048 00`),
        ...places.map(([block, offset, bytes]) => `set ${block} ${offset} ${bytes}`), ''].join('\n') });
    tool(program, ['apply', 'plain', 'edit', 'image'], { cwd: room });
}

/** A copy of an image with changed bytes: `[block, byte of the sector]`. */
export function damaged(image, base, ...places) {
    const copy = Buffer.from(image);
    for (const [block, at] of places) copy[2352 * (block - base) + at] ^= 0xA5;
    return copy;
}
