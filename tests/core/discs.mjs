// Shared by the tests of discs: raw sectors with user data, ISO images, and other commands.

import { spawnSync } from 'node:child_process';
import { mkdirSync, mkdtempSync, readFileSync, rmSync, writeFileSync } from 'node:fs';
import { tmpdir } from 'node:os';
import { dirname, join } from 'node:path';

const RAW = 2352;
const USER = 2048;

/**
 * Sectors of 2352 bytes with this user data in place, and 77 everywhere else.
 * @param {Uint8Array} user
 */
export function rawOf(user) {
    const count = Math.ceil(user.length / USER);
    const raw = new Uint8Array(RAW * count).fill(0x77);
    for (let i = 0; i < count; i++) {
        raw.fill(0, RAW * i + 16, RAW * i + 16 + USER);
        raw.set(user.subarray(USER * i, USER * (i + 1)), RAW * i + 16);
    }
    return raw;
}

/**
 * Runs a command and returns its output, or null if it is not installed.
 * @param {string} command
 * @param {...string} given
 */
export function output(command, ...given) {
    const run = spawnSync(command, given, { maxBuffer: 1 << 28, env: { ...process.env, LC_ALL: 'C.UTF-8' } });
    if (run.error) return null;
    if (run.status !== 0) throw new Error(`${command} ${given.join(' ')}: ${run.stderr}`);
    return run.stdout;
}

/**
 * Calls `use` with a new directory that is deleted afterwards.
 * @template T
 * @param {(directory: string) => T} use
 */
export function inDirectory(use) {
    const directory = mkdtempSync(join(tmpdir(), 'core-'));
    try {
        return use(directory);
    } finally {
        rmSync(directory, { recursive: true, force: true });
    }
}

/**
 * Creates an ISO image of these files, and lists it with isoinfo. Null if genisoimage is not installed.
 * @param {Record<string, string>} files path and content
 * @param {string[]} options of genisoimage
 * @param {string[]} listing options of isoinfo
 */
export function isoOf(files, options, listing) {
    return inDirectory(directory => {
        for (const [path, content] of Object.entries(files)) {
            mkdirSync(dirname(join(directory, 'tree', path)), { recursive: true });
            writeFileSync(join(directory, 'tree', path), content);
        }
        const image = join(directory, 'image.iso');
        const charset = ['-input-charset', 'utf-8'];
        const made = output('genisoimage', '-quiet', ...charset, ...options, '-o', image, join(directory, 'tree'));
        const text = made && output('isoinfo', '-l', ...listing, '-i', image);
        return made && text ? { bytes: new Uint8Array(readFileSync(image)), listed: listed(text.toString()) } : null;
    });
}

/**
 * Parses the list of files that isoinfo prints.
 * @param {string} text
 */
function listed(text) {
    const files = [];
    let directory = '';
    for (const line of text.split('\n')) {
        const found = /^-.{9}(?: +\d+){3} +(\d+) .*\[ *(\d+) [0-9a-fA-F]+\] +(.*?) *$/.exec(line);
        if (line.startsWith('Directory listing of ')) directory = line.slice(21);
        else if (found) files.push({ path: directory + found[3].replace(/\.?;1$/, ''), block: Number(found[2]), size: Number(found[1]) });
    }
    return files.sort((a, b) => a.block - b.block || Number(a.path > b.path) - Number(a.path < b.path));
}
