// A client that builds the four commands on an image from the calls that allocate no memory.

import { KEPT, Lent, Room, Size, UNWRITTEN, same } from './calls.mjs';
import { sameInPieces } from './pieces.mjs';

/** @typedef {import('./calls.mjs').Calls} Calls */
/** @typedef {import('./pieces.mjs').Answer} Answer */
/** @typedef {{ number: number, block: number, record: Uint8Array, fresh: Uint8Array, old: Uint8Array }} Patch */

export const SECTOR = 2352;
const PATCH_SIZE = 4096;
const LINE_SIZE = 96;
const LINE_RECORD = 16;
const PATCH_RECORD = 16;
const RECORD_SIZE = 6;
const MOST_IN_HAND = 3;
const [KIND, DEFECT] = [0, 2]; // the places of the kind and of the defect in a record
const MODE1 = 2;
const PATCH = 3;
const SET = 0;
const NO_HEAD = 4;
const NO_VERSION = 14;

/** @param {Uint8Array} bytes the memory of a record */
const fields = bytes => new DataView(bytes.buffer, bytes.byteOffset, bytes.length);

/**
 * The line that a call writes.
 * @param {Calls} calls
 * @param {string} name
 * @param {...(number | Uint8Array)} given
 */
function lineBy(calls, name, ...given) {
    const room = new Room(LINE_SIZE);
    const size = Number(calls.call(name, ...given, room));
    if (room.bytes.subarray(size).some(byte => byte !== UNWRITTEN)) throw new Error('bytes changed after a line');
    return room.bytes.subarray(0, size);
}

/** Iterates over the lines of a script. The arguments of the calls stay in the module's memory from the first line to the last. */
class Lines {
    /**
     * @param {Calls} calls
     * @param {Uint8Array} text
     */
    constructor(calls, text) {
        this.exports = calls.exports;
        this.text = text;
        this.lent = new Lent(calls, [text, LINE_RECORD, text.length, PATCH_RECORD, PATCH_SIZE, PATCH_SIZE]);
        [, this.found, this.line, this.record, this.fresh, this.old] = this.lent.places.map((_, i) => this.lent.piece(i));
        this.places = this.lent.places;
        [this.number, this.size, this.end] = [0, 0, 0];
    }

    /** Moves to the next line, if there is one, and copies it without the rest of the script. */
    next() {
        const [text, found] = this.places;
        this.found.fill(UNWRITTEN);
        const isLine = this.exports.cdpatch_first_line(text + this.end, BigInt(this.text.length - this.end), found);
        this.lent.seeBetween();
        if (!isLine) return false;
        const [size, taken] = [0, 8].map(at => Number(fields(this.found).getBigUint64(at, true)));
        this.line.set(this.text.subarray(this.end, this.end + size));
        this.line.fill(KEPT, size, Math.max(size, this.size));
        [this.number, this.size, this.end] = [this.number + 1, size, this.end + taken];
        return true;
    }

    /**
     * Reads this line, and returns the kind of its content.
     * @param {number} version
     * @param {number} count of the patches so far
     */
    read(version, count) {
        const [, , line, ...rooms] = this.places;
        const given = this.line.slice(0, this.size);
        const content = this.exports.cdpatch_read_line(version, BigInt(count), line, BigInt(this.size), ...rooms);
        this.lent.seeBetween();
        same(this.line.subarray(0, this.size), given);
        return content;
    }

    /** The patch in this line. @returns {Patch} */
    patch() {
        const count = fields(this.record).getUint16(6, true);
        const [set, hasOld] = [this.record[8] === SET, this.record[9] === 1];
        return { number: this.number, block: fields(this.record).getUint32(0, true), record: this.record.slice(),
            fresh: this.fresh.slice(0, set ? count : 0), old: this.old.slice(0, hasOld ? count : 0) };
    }
}

/**
 * The patches of a script in the order of application, or the line of its fault.
 * @param {Calls} calls
 * @param {Uint8Array} text
 * @returns {Patch[] | Uint8Array}
 */
export function script(calls, text) {
    const lines = new Lines(calls, text);
    const patches = [];
    let [version, fault] = [0, 0];
    while (fault === 0 && lines.next()) {
        const content = lines.read(version, patches.length);
        if (content >= NO_HEAD && content <= NO_VERSION) fault = content;
        else if (content === PATCH) patches.push(lines.patch());
        else version = content || version;
    }
    same(lines.lent.piece(0), text);
    if (fault !== 0) return lineBy(calls, 'cdpatch_fault_line', lines.number, fault);
    if (version === 0) return lineBy(calls, 'cdpatch_fault_line', lines.number + 1, NO_HEAD);
    return patches.sort((a, b) => a.block - b.block);
}

/**
 * `check` and `apply`.
 * @param {Calls} calls
 * @param {{ image: Uint8Array, base: number, carry: boolean, script: Uint8Array }} given
 * @returns {Answer}
 */
export function apply(calls, { image, base, carry, script: text }) {
    const given = { image, script: text, base, flags: Number(carry) };
    const patches = script(calls, text);
    if (patches instanceof Uint8Array) return sameInPieces(calls, given, { status: 2, text: patches, out: null });
    const out = image.slice();
    const end = image.length - image.length % SECTOR;
    const [fresh, old] = [new Uint8Array(PATCH_SIZE), new Uint8Array(PATCH_SIZE)];
    const log = [];
    let applied = 0;
    for (const patch of patches) {
        const first = (patch.block - base) * SECTOR;
        const last = Math.min(first + MOST_IN_HAND * SECTOR, end);
        const there = first >= 0 && first < last;
        const hand = new Room(there ? out.subarray(first, last) : 0);
        const place = new Room(8);
        fresh.set(patch.fresh);
        old.set(patch.old);
        const outcome = Number(calls.call('cdpatch_apply_patch', patch.record, fresh, old, hand,
            new Size(hand.bytes.length / SECTOR), carry, place));
        const where = fields(place.bytes);
        log.push(lineBy(calls, 'cdpatch_outcome_line', patch.number, outcome, where.getUint32(0, true), where.getUint16(4, true)));
        applied += Number(outcome === 0);
        if (there) out.set(hand.bytes, first);
    }
    log.push(lineBy(calls, 'cdpatch_last_line', applied, patches.length - applied));
    return sameInPieces(calls, given, { status: Number(applied < patches.length), text: Buffer.concat(log), out });
}

/**
 * The record of each sector of an image.
 * @param {Calls} calls
 * @param {Uint8Array} image
 * @param {number} base
 */
function survey(calls, image, base) {
    const count = Math.floor(image.length / SECTOR);
    const records = new Room(RECORD_SIZE * count);
    const sectors = image.subarray(0, SECTOR * count);
    if (!calls.call('cdpatch_survey', sectors, new Size(count), base, records, new Size(count))) throw new Error('no survey');
    return Array.from({ length: count }, (_, i) => records.bytes.subarray(RECORD_SIZE * i, RECORD_SIZE * (i + 1)));
}

/**
 * `list`.
 * @param {Calls} calls
 * @param {{ image: Uint8Array, base: number }} given
 */
export function list(calls, { image, base }) {
    const lines = [];
    const kinds = survey(calls, image, base).map(record => record[KIND]);
    for (let first = 0, i = 1; i <= kinds.length; i++) {
        if (kinds[i] === kinds[first]) continue;
        lines.push(lineBy(calls, 'cdpatch_list_line', base + first, base + i - 1, kinds[first]));
        first = i;
    }
    lines.push(lineBy(calls, 'cdpatch_list_end', kinds.length, image.length % SECTOR));
    return { status: 0, text: Buffer.concat(lines), out: null };
}

/**
 * `audit`.
 * @param {Calls} calls
 * @param {{ image: Uint8Array, base: number }} given
 */
export function audit(calls, { image, base }) {
    const records = survey(calls, image, base);
    const lines = records.map((record, i) => lineBy(calls, 'cdpatch_audit_line', base + i, record));
    const mode1 = records.filter(record => record[KIND] === MODE1).length;
    const damaged = records.filter(record => record.subarray(DEFECT).some(value => value !== 0)).length;
    const status = Number(lines.some(line => line.length > 0));
    lines.push(lineBy(calls, 'cdpatch_audit_end', records.length, mode1, damaged, image.length % SECTOR));
    return { status, text: Buffer.concat(lines), out: null };
}
