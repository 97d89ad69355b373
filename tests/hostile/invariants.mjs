// Kinds of generated input with more conditions than a Fault: volumes, lists with the rows that they replace, and cells of tables. `made`
// generates random bytes of a kind; `read` throws an Error if a condition does not hold.

import assert from 'node:assert/strict';
import { tableOf } from '../core/common.mjs';
import { listedRows, replacedRows } from '../core/lists.mjs';
import { recordOf, volumeOf } from '../core/strangers.mjs';
import { calls, core } from '../page/page.mjs';

const { fileOrder } = await core('iso/file_order.js');
const { filesOf, wholeFile } = await core('iso/files.js');
const { Fault } = await core('faults.js');
const { stretchesOf } = await core('texts/all_texts.js');
const { rowText } = await core('texts/cells.js');
const { cellOf, unitsOfCell } = await core('texts/codes.js');
const { ENCODINGS, SEARCHED } = await core('encodings/encodings.js');

const USER = 2048;
const SECTORS = 40;
const ROOT = 18;
const encoded = text => new TextEncoder().encode(text);
const decoded = bytes => new TextDecoder().decode(bytes);
const sectorsIn = size => Math.ceil(size / USER);

/** A reader of an image with this user data from block 0. */
export function readerOfUser(user) {
    const whole = new Uint8Array(sectorsIn(user.length) * USER);
    whole.set(user);
    const image = calls.encodeBlocks(0, whole);
    return { size: image.length, read: async (at, length) => image.slice(at, at + length) };
}

/** A volume with one directory, whose files have several extents, some of them overlapping or beyond the end. */
function madeVolume(dice) {
    const records = Array.from({ length: 1 + dice(9) }, () => {
        const size = [USER, USER, 2 * USER, 3 * USER, 1 + dice(3 * USER), 0][dice(6)];
        return recordOf(['A', 'A', 'B', 'C'][dice(4)], dice(12) === 0 ? dice(60) : ROOT + 1 + dice(SECTORS - ROOT - 1), size, { flags: dice(2) * 128 });
    });
    return volumeOf(SECTORS, sector => sector === ROOT ? records : []);
}

/** Checks that the extents of a whole file are distinct, and that each later extent continues one of the same file. */
function checkExtents(files) {
    for (const { path, before } of files.filter(it => it.before > 0)) {
        assert.ok(files.some(it => it.path === path && it.before + it.size === before), `no extent of ${path} ends at its byte ${before}`);
    }
    for (const path of new Set(files.map(it => it.path))) {
        const blocks = new Set();
        let count = 0;
        try {
            for (const { block, size } of wholeFile(files.filter(it => it.path === path)).extents) {
                for (let i = 0; i < sectorsIn(size); i++) blocks.add(block + i);
                count += sectorsIn(size);
            }
        } catch (error) {
            if (!(error instanceof Fault)) throw error;
            continue;
        }
        assert.equal(blocks.size, count, `extents of ${path} lie over each other`);
    }
}

/** Checks that an order of files has each sector once and that its reader reads them, and that the searched stretches tile the track. */
async function checkOrder(reader, files) {
    const order = fileOrder({ reader, base: 0, sectors: SECTORS }, files);
    const blocks = Array.from({ length: order ? SECTORS : 0 }, (_, index) => order.blockOf(index));
    assert.deepEqual([...blocks].sort((a, b) => a - b), Array.from(blocks, (_, i) => i), 'the order is no order');
    for (const [index, block] of blocks.entries()) assert.equal(order.indexOf(block), index, `block ${block}`);
    for (let at = 0; order && at < reader.size;) {
        const { length } = await order.reader.read(at, reader.size - at);
        assert.ok(length > 0, `the order reads nothing at byte ${at}`);
        at += length;
    }
    let next = 0;
    for (const { first, size } of stretchesOf({ base: 0, sectors: SECTORS, reader, order }, files)) {
        assert.equal(first, next, 'a stretch does not begin where the one before it ends');
        next += sectorsIn(size);
    }
    assert.equal(next, SECTORS, 'the stretches do not end with the track');
}

async function readVolume(user) {
    const reader = readerOfUser(user.subarray(0, SECTORS * USER));
    const { files } = await filesOf(reader, 0);
    checkExtents(files);
    await checkOrder(reader, files);
}

const PARTS = ['A', 'AB', 'ABAB', 'ｱ', '{41}', '{4142}', '"', '"A"', '{zz}', '=', '\t', '', '\n', 'A\r', '{00}', 'Err:509', 'B'.repeat(30)];
const SPREAD = encoded('AB'.repeat(2 * USER));

/** A list whose rows are close together in an image that repeats AB. */
function madeList(dice) {
    const rows = Array.from({ length: 1 + dice(30) }, () => {
        const part = () => Array.from({ length: dice(3) }, () => PARTS[dice(PARTS.length)]).join('');
        return [dice(9) === 0 ? dice(9999) : dice(2), dice(3) === 0 ? 2044 + dice(6) : 2 * dice(60), dice(4) === 0 ? '' : dice(12), dice(3) > 0 ? 'ABAB' : part(), part()];
    });
    return encoded(['block\toffset\troom\ttext\tnew', ...rows.map(row => row.join('\t')), ''].join('\n'));
}

/** Checks that each row is replaced or left, of repeated ones one, that no two lines write the same byte, and that the old bytes of each line are the image's. */
async function readList(bytes) {
    const rows = await listedRows(decoded(bytes));
    const reader = readerOfUser(SPREAD);
    const { parts, left } = await replacedRows({ base: 0, sectors: 2, reader }, rows, SEARCHED);
    const lines = parts.pieces.map(decoded).join('').split('\n').filter(line => line !== '');
    const written = new Set();
    for (const line of lines) {
        const [, block, offset, fresh, , old] = line.split(' ');
        const at = USER * Number(block) + Number(offset);
        assert.equal(old, Buffer.from(SPREAD.subarray(at, at + old.length / 2)).toString('hex').toUpperCase(), line);
        assert.equal(fresh.length, old.length, line);
        for (let i = 0; i < old.length / 2; i++) {
            assert.ok(!written.has(at + i), `two rows write byte ${at + i}: ${line}`);
            written.add(at + i);
        }
    }
    const { size } = new Set(rows.map(({ block, offset, text, fresh }) => [block, offset, text, fresh].join('\t')));
    assert.ok(lines.length + left.length >= size, `${size} rows, ${lines.length} lines, ${left.length} left`);
}

const OWN = tableOf(encoded('41=A\n3D==\n8140= \n/FF=[end]\n$FE=[wait],1\nF0={name}\n'));
const READ = [...ENCODINGS.filter(it => it.hasCharacters), OWN];

/** Bytes as on a disc: signs, characters of two bytes, and codes. */
function madeBytes(dice) {
    const signs = encoded('=+-@"\t\r\n{}AZ09 ,;');
    return Uint8Array.from({ length: 1 + dice(12) }, () => dice(2) === 0 ? signs[dice(signs.length)] : dice(256));
}

/** Checks that a cell gives the same bytes again, also from each format of table, and that no spreadsheet runs it. */
async function readCell(bytes) {
    for (const encoding of READ) {
        const cell = cellOf(encoding, bytes);
        assert.doesNotMatch(cell, /^[=+\-@\t\r]/, `a spreadsheet runs the cell ${JSON.stringify(cell)} in ${encoding.name}`);
        const back = Buffer.concat(unitsOfCell(encoding, cell).map(([usual]) => usual));
        // A character with two spellings returns in its usual one, and a character of two parts may return as one.
        const [found, due] = [back, bytes].map(it => encoding.text(it).normalize());
        assert.equal(found, due, `${JSON.stringify(cell)} in ${encoding.name}`);
        for (const mark of ['\t', ',']) {
            const list = rowText(['block', 'offset', 'text', 'new'], mark) + rowText([0, 0, cell, 'x'], mark);
            for (const { text } of await listedRows(list)) assert.equal(text, cell, JSON.stringify(list));
        }
    }
}

export const INVARIANTS = {
    volumes: { made: madeVolume, read: readVolume },
    rows: { made: madeList, read: readList },
    cells: { made: madeBytes, read: readCell },
};
