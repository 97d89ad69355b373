// A disc of files with texts, created by genisoimage: its ISO image and its raw image.

import assert from 'node:assert/strict';
import { mkdirSync, writeFileSync } from 'node:fs';
import { join } from 'node:path';
import { run, tool } from './common.mjs';

/** The texts of the disc, by their encodings as iconv names them. */
export const TEXTS = { CP932: '勇者は旅に出た', 'EUC-JP': '魔王の城', 'UTF-16LE': '王様', 'UTF-8': '村人' };

/** A text in an encoding, converted by iconv. */
export const encoded = (text, encoding) => tool('iconv', ['-t', encoding], { input: text });

/** Bytes without any text of the disc, the same for the same seed. */
export function noise(size, seed) {
    let state = seed;
    return Buffer.from(Uint8Array.from({ length: size }, () => {
        state = (Math.imul(state, 1103515245) + 12345) >>> 0;
        return state >>> 24 & 0x7F;
    }));
}

/** The files of the disc. One text crosses the border of two blocks, one occurs twice. */
export function files() {
    const border = noise(3 * 2048, 2);
    encoded(TEXTS.CP932, 'CP932').copy(border, 2048 - 5);
    const twice = noise(5000, 3);
    [100, 3000].forEach(at => encoded(TEXTS['EUC-JP'], 'EUC-JP').copy(twice, at));
    return {
        'DATA/BORDER.DAT': border, 'DATA/TWICE.DAT': twice, 'DATA/WIDE.TXT': encoded(TEXTS['UTF-16LE'], 'UTF-16LE'),
        'DATA/DEEP/PLAIN.TXT': Buffer.from(`${TEXTS['UTF-8']} HELLO`), 'BIG.BIN': noise(300000, 4), 'EMPTY.DAT': Buffer.alloc(0),
    };
}

/** Why tests that need a disc of files are skipped, or false. */
export const skip = tool('genisoimage', ['--version']) === null && 'no genisoimage';

/** Creates `disc.iso` with files, and its raw image, whose first sector is block `first`. False if genisoimage is not installed. */
export async function discOf(directory, contents, { options = ['-R'], name = 'disc.bin', first = 0 } = {}) {
    for (const [path, bytes] of Object.entries(contents)) {
        mkdirSync(join(directory, 'tree', path, '..'), { recursive: true });
        writeFileSync(join(directory, 'tree', path), bytes);
    }
    if (tool('genisoimage', ['-quiet', ...options, '-o', 'disc.iso', 'tree'], { cwd: directory }) === null) return false;
    const made = await run(['raw', 'disc.iso', name, '--first', String(first)], { cwd: directory });
    assert.equal(made.status, 0, made.errors);
    return true;
}

/** Creates the disc with these files. */
export const makeDisc = (directory, { first, options = [] } = {}) => discOf(directory, files(), { options: ['-R', '-J', ...options], first });
