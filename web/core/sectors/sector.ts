// The layout of sectors and images (ECMA-130), and their addresses.

import { joinedBytes, sameBytes } from '../bytes.js';
import { newBytes } from '../faults.js';
import { MOST_SECTORS, SECTOR_SIZE, USER_SIZE, sectorCount, type Calls } from '../module/index.js';

// Runs of adjacent blocks with the same properties.

export type Run = { first: number, last: number };

/** Appends a run to runs of earlier blocks. If it is adjacent to the last run, and equal in all other members, that run is extended. */
export function addToRuns<R extends Run>(runs: R[], run: R) {
    const before = runs[runs.length - 1];
    if (before && before.last === run.first - 1 && saysTheSame(before, run)) before.last = run.last;
    else runs.push({ ...run });
}

/**
 * Whether two runs are equal in all members except their blocks.
 * @param run with the same members
 */
function saysTheSame(before: Record<string, any>, run: Record<string, any>) {
    for (const key in run) {
        if (key === 'first' || key === 'last' || before[key] === run[key]) continue;
        if (JSON.stringify(before[key]) !== JSON.stringify(run[key])) return false;
    }
    return true;
}

/** The run of one block. */
export function runOf(block: number) {
    return { first: block, last: block };
}

/** The first blocks of runs. `most` is how many blocks are listed at most. */
export function firstBlocks(runs: Run[], most: number) {
    const blocks = [];
    for (const { first, last } of runs) {
        for (let block = first; block <= last && blocks.length < most; block++) blocks.push(block);
    }
    return blocks;
}

/** The number of blocks in runs. */
export function blocksIn(runs: Run[]) {
    return runs.reduce((sum, { first, last }) => sum + last - first + 1, 0);
}

/**
 * The blocks that two lists of runs have in common, with the other members of the first list's runs.
 * @param runs in order, without overlaps
 * @param others in order, without overlaps
 */
export function commonRuns<R extends Run>(runs: R[], others: Run[]) {
    const common: R[] = [];
    let at = 0;
    for (const run of runs) {
        while (at < others.length && others[at].last < run.first) at += 1;
        for (let i = at; i < others.length && others[i].first <= run.last; i++) {
            common.push({ ...run, first: Math.max(run.first, others[i].first), last: Math.min(run.last, others[i].last) });
        }
    }
    return common;
}

/**
 * The blocks of runs that are in none of other runs, with the other members of the first list's runs.
 * @param runs in order, without overlaps
 * @param others in order, without overlaps
 */
export function runsWithout<R extends Run>(runs: R[], others: Run[]) {
    const rest: R[] = [];
    let at = 0;
    for (const run of runs) {
        let { first } = run;
        while (at < others.length && others[at].last < first) at += 1;
        for (let i = at; i < others.length && others[i].first <= run.last; i++) {
            if (others[i].first > first) rest.push({ ...run, first, last: others[i].first - 1 });
            first = others[i].last + 1;
        }
        if (first <= run.last) rest.push({ ...run, first });
    }
    return rest;
}

/** Sorts runs, and joins those that overlap or are adjacent. */
export function joinedRuns(runs: Run[]) {
    const joined: Run[] = [];
    for (const { first, last } of [...runs].sort((a, b) => a.first - b.first)) {
        const before = joined[joined.length - 1];
        if (before && first <= before.last + 1) before.last = Math.max(before.last, last);
        else joined.push({ first, last });
    }
    return joined;
}

/** Runs with the same other members, whose blocks are `later`. */
export function laterRuns<R extends Run>(runs: R[], later: number) {
    return runs.map(run => ({ ...run, first: run.first + later, last: run.last + later }));
}

/** A user byte. */
export type Place = { block: number, offset: number };

/** The offsets of the fields of a sector, in order. */
export const FIELDS = Object.freeze({ sync: 0, header: 12, user: 16, edc: 2064, zeros: 2068, parity: 2076 });
export const HEADER_OFFSET = FIELDS.header;
export const USER_OFFSET = FIELDS.user;
const FORM1_OFFSET = 24;
const WORDS = SECTOR_SIZE / 4;

/** The first pause, before block 0: its sectors, and its length in seconds. */
const PAUSE = 150;
const PAUSE_SECONDS = 2;

/**
 * Whether an image has more bytes than cdpatch accepts.
 * @param size of the image in bytes
 */
export function imageTooLong(size: number) {
    return size > MOST_SECTORS * SECTOR_SIZE;
}

/** The i-th sector of some bytes, not copied. */
export function sectorOf(bytes: Uint8Array, i: number) {
    return bytes.subarray(i * SECTOR_SIZE, (i + 1) * SECTOR_SIZE);
}

/** Copies selected sectors of a range, one after the other. `places` are the indices of the sectors. */
export function sectorsAt(bytes: Uint8Array, places: number[]) {
    return joinedBytes(places.map(place => sectorOf(bytes, place)));
}

/** The 2048 bytes of user data of the i-th sector, not copied. */
export function userOf(bytes: Uint8Array, i: number) {
    const at = i * SECTOR_SIZE + USER_OFFSET;
    return bytes.subarray(at, at + USER_SIZE);
}

/** Converts bytes to 32-bit words, which compare four times as fast. Only unaligned bytes are copied. */
export function asWords(bytes: Uint8Array) {
    const { buffer, byteOffset } = bytes.byteOffset % 4 === 0 ? bytes : bytes.slice();
    return new Int32Array(buffer, byteOffset, bytes.length >> 2);
}

/** Whether one of the four bytes of a word is 0. */
export function hasZeroByte(word: number) {
    return ((word - 0x01010101) & ~word & 0x80808080) !== 0;
}

/** Whether a sector's words are equal in two images. Compares four words at a time. */
function sameWords(a: Int32Array, b: Int32Array, from: number) {
    for (let at = from; at < from + WORDS; at += 4) {
        const differing = (a[at] ^ b[at]) | (a[at + 1] ^ b[at + 1]) | (a[at + 2] ^ b[at + 2]) | (a[at + 3] ^ b[at + 3]);
        if (differing !== 0) return false;
    }
    return true;
}

/**
 * Whether the i-th sector consists of one repeated byte. Compares four words at a time.
 * @param words of sectors
 */
export function isFilled(words: Int32Array, i: number) {
    const from = i * WORDS;
    const wanted = Math.imul(words[from] & 0xFF, 0x01010101);
    for (let at = from; at < from + WORDS; at += 4) {
        if (((words[at] ^ wanted) | (words[at + 1] ^ wanted) | (words[at + 2] ^ wanted) | (words[at + 3] ^ wanted)) !== 0) return false;
    }
    return true;
}

/** The indices of the sectors that differ between two buffers of the same length. */
export function differingSectors(old: Uint8Array, fresh: Uint8Array) {
    const [before, after] = [asWords(old), asWords(fresh)];
    const found = [];
    for (let i = 0; i < sectorCount(old.length); i++) {
        if (!sameWords(before, after, i * WORDS)) found.push(i);
    }
    return found;
}

/**
 * Concatenates the user data of whole sectors.
 * @param user memory for the result, of exactly its size
 */
export function joinedUser(bytes: Uint8Array, user: Uint8Array = newBytes(sectorCount(bytes.length) * USER_SIZE)) {
    for (let i = 0; i < sectorCount(bytes.length); i++) user.set(userOf(bytes, i), i * USER_SIZE);
    return user;
}

/** Concatenates the user data of whole Mode 2 sectors of Form 1 (CD-ROM XA). */
export function joinedForm1(bytes: Uint8Array) {
    const user = newBytes(sectorCount(bytes.length) * USER_SIZE);
    for (let i = 0; i < sectorCount(bytes.length); i++) {
        const at = i * SECTOR_SIZE + FORM1_OFFSET;
        user.set(bytes.subarray(at, at + USER_SIZE), i * USER_SIZE);
    }
    return user;
}

/** Memory for the user data of a range. It is reused, because an allocation costs more than the copy. */
let userRoom = new Uint8Array(0);

/** Concatenates the user data of whole sectors in reused memory. The result is valid until the next call. */
export function userOfRange(bytes: Uint8Array) {
    const size = sectorCount(bytes.length) * USER_SIZE;
    if (userRoom.length < size) userRoom = newBytes(size);
    return joinedUser(bytes, userRoom.subarray(0, size));
}

/** The three bytes of the address in the header of the i-th sector, not copied. */
export function addressIn(bytes: Uint8Array, i: number) {
    const at = i * SECTOR_SIZE + HEADER_OFFSET;
    return bytes.subarray(at, at + 3);
}

/** Whether the i-th sector has the same address in two images. */
export function sameAddress(a: Uint8Array, b: Uint8Array, i: number) {
    const at = i * SECTOR_SIZE + HEADER_OFFSET;
    return a[at] === b[at] && a[at + 1] === b[at + 1] && a[at + 2] === b[at + 2];
}

/**
 * Formats an address as scripts do, for example 00:02:00.
 * @param address three bytes in BCD
 */
export function addressText(address: Uint8Array) {
    return Array.from(address, byte => byte.toString(16).padStart(2, '0')).join(':');
}

/**
 * The address of a block, or null if it has none. The first pause is the blocks from -150 to -1, with the addresses 00:00:00 to 00:01:74.
 */
export function addressOf(calls: Calls, block: number) {
    if (block < -PAUSE || block >= 0) return calls.address(block);
    const address = calls.address(block + PAUSE);
    if (address !== null) address[1] -= PAUSE_SECONDS;
    return address;
}

/** Whether an address is not that of a block. False if the block has no address. */
export function hasOtherAddress(calls: Calls, address: Uint8Array, block: number) {
    const own = addressOf(calls, block);
    return own !== null && !sameBytes(own, address);
}

/**
 * The block that has an address, or null if none has.
 * @param address three bytes in BCD
 */
export function blockAt(calls: Calls, address: Uint8Array) {
    const [minute, second, frame] = address;
    const isInPause = minute === 0 && second < PAUSE_SECONDS;
    const block = calls.block(isInPause ? Uint8Array.of(minute, second + PAUSE_SECONDS, frame) : address);
    return isInPause && block !== null ? block - PAUSE : block;
}
