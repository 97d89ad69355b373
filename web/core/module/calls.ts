// The calls of libcdpatch on scripts, with JavaScript bytes and numbers. cdpatch.h documents each call.

import { Arena } from './arena.js';
import {
    ADDRESS_SIZE, ANSWER_STRUCT, COLUMNS, DIAGONALS, DIGEST_SIZE, ENTRY_STRUCT, FAILURE, FIT, FLAG, INDEX_STRUCT, JOB_STRUCT, LAST_BASE,
    LINE_STRUCT, NAMED_BASE_STRUCT, PATCH_STRUCT, SCRIPT, SECTOR_SIZE, SHA1_STRUCT, STOP, USER_SIZE,
} from './numbers.js';
import { MOST_PATCHES, RECORD, RECORD_SIZE, VERB, sectorCount } from './records.js';

// The calls of libcdpatch on sectors and images, with JavaScript bytes and numbers. cdpatch.h documents each call.

/** The place of the header in a sector, and its size. */
const HEADER_AT = 12;
const HEADER_SIZE = 4;

/** The size of a block's number. */
const BLOCK_SIZE = 4;

/** Returns the bytes if they have the size that a call relies on. Throws a RangeError if they do not. */
export function sized(bytes: Uint8Array, size: number) {
    if (bytes.length !== size) throw new RangeError(`${bytes.length} bytes instead of ${size}`);
    return bytes;
}

/** Has a method for each of these calls. Arguments are copied to the arena, or held there, and answers are copies. */
export class SectorCalls extends Arena {
    /** The version of the library, for example '2.0.0'. */
    version() {
        const number = this.exports.cdpatch_version();
        return [10000, 100, 1].map(unit => Math.floor(number / unit) % 100).join('.');
    }

    kind(sector: Uint8Array): number {
        return this.exports.cdpatch_kind(this.put(sized(sector, SECTOR_SIZE))[0]);
    }

    /** The address of a block, or null if it has none. */
    address(block: number) {
        const made = block === block >>> 0 && this.exports.cdpatch_address(block, this.answer);
        return made ? this.copied(this.answer, ADDRESS_SIZE) : null;
    }

    /** The block that has an address, or null if none has. */
    block(address: Uint8Array) {
        const place = this.answer + BLOCK_SIZE;
        this.memory.set(sized(address, ADDRESS_SIZE), place);
        return this.exports.cdpatch_block(place, this.answer) ? this.view.getUint32(this.answer, true) : null;
    }

    encode(address: Uint8Array, user: Uint8Array) {
        const [sector, data, from] = this.put(SECTOR_SIZE, sized(user, USER_SIZE), sized(address, ADDRESS_SIZE));
        this.exports.cdpatch_encode(from, data, sector);
        return this.copied(sector, SECTOR_SIZE);
    }

    /**
     * The consistent sectors of neighbouring blocks.
     * @param block the first one
     * @param user 2048 bytes for each block
     */
    encodeBlocks(block: number, user: Uint8Array) {
        const count = Math.floor(user.length / USER_SIZE);
        const [from, sectors] = this.put(sized(user, count * USER_SIZE), count * SECTOR_SIZE);
        for (let i = 0; i < count; i++) {
            if (!this.exports.cdpatch_address(block + i, this.answer)) throw new RangeError(`block ${block + i} has no address`);
            this.exports.cdpatch_encode(this.answer, from + i * USER_SIZE, sectors + i * SECTOR_SIZE);
        }
        return this.copied(sectors, count * SECTOR_SIZE);
    }

    /** The records of whole sectors, RECORD_SIZE bytes each. `block` is the block of the first sector. */
    survey(sectors: Uint8Array, block: number) {
        const count = sectorCount(sectors.length);
        const [from, records] = this.put(sized(sectors, count * SECTOR_SIZE), RECORD_SIZE * count);
        const known = block === block >>> 0 && this.exports.cdpatch_survey(from, BigInt(count), block, records, BigInt(count));
        if (!known) throw new RangeError(`${count} sectors from block ${block} on`);
        return this.copied(records, RECORD_SIZE * count);
    }

    /** Records of whole sectors that have only their kinds. They take far less time than `survey`. */
    kinds(sectors: Uint8Array) {
        const records = new Uint8Array(RECORD_SIZE * sectorCount(sectors.length));
        let [at] = this.put(sized(sectors, sectorCount(sectors.length) * SECTOR_SIZE));
        for (let i = RECORD.KIND; i < records.length; i += RECORD_SIZE, at += SECTOR_SIZE) records[i] = this.exports.cdpatch_kind(at);
        return records;
    }

    /** The line of `list` for a run of blocks of one kind. It is empty if the run has no block, or if the kind does not exist. */
    listLine(first: number, last: number, kind: number) {
        return this.line('cdpatch_list_line', first, last, kind);
    }

    /** The last line of `list`. `tail` is how many bytes follow the last sector. */
    listEnd(sectors: number, tail: number) {
        return this.line('cdpatch_list_end', sectors, tail);
    }

    /**
     * The line of `audit` for a block with a record. It is empty if the record has no finding.
     * @param record RECORD_SIZE bytes
     */
    auditLine(block: number, record: Uint8Array) {
        return this.line('cdpatch_audit_line', block, this.put(sized(record, RECORD_SIZE))[0]);
    }

    /** The last line of `audit`. `tail` is how many bytes follow the last sector. */
    auditEnd(sectors: number, mode1: number, damaged: number, tail: number) {
        return this.line('cdpatch_audit_end', sectors, mode1, damaged, tail);
    }

    /** Finds the broken P columns and Q diagonals of a Mode 1 sector, with one byte for each column and diagonal. */
    findBroken(sector: Uint8Array) {
        const [at, columns, diagonals] = this.put(sized(sector, SECTOR_SIZE), COLUMNS, DIAGONALS);
        this.exports.cdpatch_find_broken(at, columns, diagonals);
        return { columns: this.copied(columns, COLUMNS), diagonals: this.copied(diagonals, DIAGONALS) };
    }

    /**
     * The place of the copy that replaces a damaged sector, and its FIT. Null if none of the copies is a consistent Mode 1 sector with this
     * address, or if the sector is consistent itself.
     */
    mergeSector(address: Uint8Array, sector: Uint8Array, copies: Uint8Array[]) {
        const sectors = [...copies, sector].map(bytes => sized(bytes, SECTOR_SIZE));
        const places = this.put(...sectors, sized(address, ADDRESS_SIZE));
        const [own, from] = places.slice(copies.length);
        const fit = this.exports.cdpatch_merge_sector(from, own, places[0], BigInt(copies.length), this.answer);
        return fit === FIT.NONE ? null : { place: this.view.getUint32(this.answer, true), fit };
    }

    /** A damaged Mode 1 sector as its own P and Q parity corrects it, confirmed by the EDC that it has. Null if that is not possible. */
    correctedSector(sector: Uint8Array) {
        const [at] = this.put(sized(sector, SECTOR_SIZE));
        return this.exports.cdpatch_correct_sector(at) ? this.copied(at, SECTOR_SIZE) : null;
    }

    /** The EDC of a range of held bytes. */
    heldEdc(from: number, end: number): number {
        return this.exports.cdpatch_edc(this.arena + from, BigInt(this.within(end) - from)) >>> 0;
    }

    /**
     * Whether all P columns and Q diagonals of a held sector are code words with a header of four bytes 00, which is written to the held
     * bytes.
     * @param at the place of the sector
     */
    hasHeldParity(at: number) {
        const sector = this.arena + this.within(at + SECTOR_SIZE) - SECTOR_SIZE;
        const marks = this.answer;
        this.memory.fill(0, sector + HEADER_AT, sector + HEADER_AT + HEADER_SIZE);
        this.exports.cdpatch_find_broken(sector, marks, marks + COLUMNS);
        for (let i = marks; i < marks + COLUMNS + DIAGONALS; i++) if (this.memory[i] !== 0) return false;
        return true;
    }

    /** The state of a SHA-1 of no bytes. */
    sha1Begin() {
        const [state] = this.put(SHA1_STRUCT.BYTES);
        this.exports.cdpatch_sha1_begin(state);
        return this.copied(state, SHA1_STRUCT.BYTES);
    }

    /** The state of a SHA-1 after more bytes. */
    sha1Add(state: Uint8Array, bytes: Uint8Array) {
        const [at, from] = this.put(sized(state, SHA1_STRUCT.BYTES), bytes);
        this.exports.cdpatch_sha1_add(at, from, BigInt(bytes.length));
        return this.copied(at, SHA1_STRUCT.BYTES);
    }

    /** The digest of a SHA-1. */
    sha1End(state: Uint8Array) {
        const [at, digest] = this.put(sized(state, SHA1_STRUCT.BYTES), DIGEST_SIZE);
        this.exports.cdpatch_sha1_end(at, digest);
        return this.copied(digest, DIGEST_SIZE);
    }
}

/**
 * A script that is applied, with addresses of the memory that is lent to it: `at` is the first, and `next` that of the first entry whose
 * patch is not done. `left` is the number of such entries, `stop` the STOP of the last call, and `refusal` the program's line if the script
 * is refused, else null.
 */
export type ScriptJob = { at: number, answers: number, next: number, left: number, flags: number, stop: number,
    refusal: Uint8Array | null };
/** What was done with a patch: the number of its line, its RESULT, and the block and the offset of the user byte that refuses it. */
export type Answer = { number: number, result: number, block: number, offset: number };
/** A line's number, and the range of its bytes in the script. */
type LinePlace = { number: number, start: number, size: number };
/**
 * The range that a patch writes: its VERB, the block and the offset at which it begins, how many user bytes it writes (0 if none), and how
 * many old bytes it names (null if none).
 */
export type PatchRange = { verb: number, block: number, offset: number, size: number, old: number | null };
/** How many patches a call applies at most, which is a few milliseconds of work. */
const MOST_ANSWERS = 256;
const MOST_ANSWERS_64 = BigInt(MOST_ANSWERS);

/** Has a method for each call that the core makes. Arguments are copied to the arena, or held there, and answers are copies. */
export class Calls extends SectorCalls {
    /**
     * The size in bytes of the first line of the held text from a place on, without its end (`size`) and with it (`taken`). Null if there
     * is no line.
     */
    firstLine(from: number) {
        const size = BigInt(this.heldSize - this.within(from));
        if (!this.exports.cdpatch_first_line(this.arena + from, size, this.answer)) return null;
        const number = (place: number) => this.view.getUint32(this.answer + place, true);
        return { size: number(LINE_STRUCT.SIZE), taken: number(LINE_STRUCT.TAKEN) };
    }

    /** Reads a line of the held text, and returns its CONTENT. If that is a patch, `patchRead` returns it. */
    readLine(version: number, earlier: number, from: number, size: number): number {
        const at = this.arena + this.within(from + size) - size;
        return this.exports.cdpatch_read_line(version, BigInt(earlier), at, BigInt(size), this.patch, this.fresh, this.old);
    }

    /** The range that the patch of the last read line writes. */
    patchRange(): PatchRange {
        const { view, memory, patch } = this;
        const { BLOCK, OFFSET, COUNT, VERB: VERB_AT, HAS_OLD } = PATCH_STRUCT;
        const size = view.getUint16(patch + COUNT, true);
        return { verb: memory[patch + VERB_AT], block: view.getUint32(patch + BLOCK, true), offset: view.getUint16(patch + OFFSET, true),
            size, old: memory[patch + HAS_OLD] ? size : null };
    }

    /** The patch of the last read line. `fresh` is empty unless its verb is `set`, and `old` is null if it names no old bytes. */
    patchRead() {
        const { memory, patch } = this;
        const range = this.patchRange();
        const count = range.verb === VERB.SET ? range.size : 0;
        return { ...range, value: memory[patch + PATCH_STRUCT.VALUE], address: this.copied(patch + PATCH_STRUCT.ADDRESS, ADDRESS_SIZE),
            fresh: this.copied(this.fresh, count), old: range.old === null ? null : this.copied(this.old, count) };
    }

    outcomeLine(number: number, result: number, block: number, offset: number) {
        return this.line('cdpatch_outcome_line', number, result, block, offset);
    }

    lastLine(applied: number, refused: number) {
        return this.line('cdpatch_last_line', applied, refused);
    }

    faultLine(number: number, fault: number) {
        return this.line('cdpatch_fault_line', number, fault);
    }

    /** The program's line for a FAILURE. */
    failureLine(failure: number) {
        return this.line('cdpatch_failure_line', failure);
    }

    /** The first line of the held text that names a base other than `base`, or null. */
    otherBase(base: number) {
        if (!this.exports.cdpatch_script_base(this.arena, BigInt(this.heldSize), base, this.answer)) return null;
        const number = (place: number) => this.view.getUint32(this.answer + place, true);
        return { line: number(NAMED_BASE_STRUCT.LINE), base: number(NAMED_BASE_STRUCT.BASE) };
    }

    /**
     * Reads a script that is to be applied, and lends memory to it until `jobEnd`.
     * @param script in pieces
     * @param flags of FLAG
     */
    jobBegin(script: Uint8Array[], base: number = 0, flags: number = 0): ScriptJob {
        if (base !== base >>> 0 || base > LAST_BASE) throw new RangeError(`no image begins with block ${base}`);
        const size = script.reduce((sum, piece) => sum + piece.length, 0);
        const most = Math.min(size, MOST_PATCHES);
        const sizes = [JOB_STRUCT.BYTES, MOST_ANSWERS * ANSWER_STRUCT.BYTES, most * ENTRY_STRUCT.BYTES, size];
        const at = this.lend(sizes.reduce((sum, it) => sum + it, 0));
        let end = at;
        const [, answers, next, text] = sizes.map(it => (end += it) - it);
        let filled = text;
        for (const piece of script) {
            this.memory.set(piece, filled);
            filled += piece.length;
        }
        const found = this.exports.cdpatch_index_script(text, BigInt(size), next, BigInt(most), this.answer);
        const number = (place: number) => this.view.getUint32(this.answer + place, true);
        const { COUNT, VERSION, FAULT, LINE } = INDEX_STRUCT;
        const [left, version, fault, line] = [COUNT, VERSION, FAULT, LINE].map(number);
        // The patch bytes are the arena's own: each call writes them anew.
        const fields = [[JOB_STRUCT.SCRIPT, text], [JOB_STRUCT.SCRIPT_SIZE, size], [JOB_STRUCT.PATCH_BYTES, this.fresh],
            [JOB_STRUCT.VERSION, version], [JOB_STRUCT.BASE, base]];
        this.memory.fill(0, at, answers);
        for (const [place, value] of fields) this.view.setUint32(at + place, value, true);
        let refusal = null;
        if (found === SCRIPT.TOO_LONG) refusal = this.failureLine(FAILURE.LONG_SCRIPT);
        else if (found !== SCRIPT.VALID) refusal = this.faultLine(line, fault);
        return { at, answers, next, left, flags, stop: STOP.ALL, refusal };
    }

    /** The lines of the patches that are left, in the order of application. */
    jobLines({ next, left }: ScriptJob): LinePlace[] {
        const { BYTES, NUMBER, START, SIZE } = ENTRY_STRUCT;
        return Array.from({ length: left }, (_, i) => {
            const number = (place: number) => this.view.getUint32(next + i * BYTES + place, true);
            return { number: number(NUMBER), start: number(START), size: number(SIZE) };
        });
    }

    /** The block in which the i-th of the patches that are left begins. */
    jobBlock({ next }: ScriptJob, i: number) {
        return this.view.getUint32(next + i * ENTRY_STRUCT.BYTES + ENTRY_STRUCT.BLOCK, true);
    }

    /** How many blocks the i-th of the patches that are left touches. */
    jobBlocksMet({ next }: ScriptJob, i: number) {
        return this.view.getUint32(next + i * ENTRY_STRUCT.BYTES + ENTRY_STRUCT.BLOCKS_MET, true);
    }

    /**
     * Applies the next patches to sectors in the module's memory, in place, and returns what was done. If `stop` is CAPACITY then, more of
     * them belong to these sectors.
     * @param at the address of `count` sectors, of which the first is block `first`
     * @param isLast whether the image ends with them
     */
    jobApply(job: ScriptJob, at: number, count: number, first: number, isLast: boolean): Answer[] {
        const { NUMBER, RESULT, BLOCK, OFFSET, BYTES } = ANSWER_STRUCT;
        const { view, answer } = this;
        view.setUint32(job.at + JOB_STRUCT.ENTRIES, job.next, true);
        view.setUint32(job.at + JOB_STRUCT.COUNT, job.left, true);
        view.setUint32(job.at + JOB_STRUCT.FIRST, first, true);
        view.setUint32(job.at + JOB_STRUCT.FLAGS, job.flags | (isLast ? FLAG.LAST : 0), true);
        job.stop = this.exports.cdpatch_apply_entries(job.at, at, BigInt(count), job.answers, MOST_ANSWERS_64, answer);
        if (job.stop > STOP.CAPACITY || isLast && job.stop === STOP.PIECE) throw new RangeError(`patches stopped for reason ${job.stop}`);
        const made: Answer[] = [];
        const done = view.getUint32(answer, true);
        for (let place = job.answers; made.length < done; place += BYTES) {
            made.push({ number: view.getUint32(place + NUMBER, true), result: view.getUint32(place + RESULT, true),
                block: view.getUint32(place + BLOCK, true), offset: view.getUint32(place + OFFSET, true) });
        }
        job.next += done * ENTRY_STRUCT.BYTES;
        job.left -= done;
        return made;
    }

    jobEnd({ at }: ScriptJob) {
        this.giveBack(at);
    }
}
