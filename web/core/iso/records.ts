// Reads the directory records of ISO 9660, and the Rock Ridge entries in them.

import { joinedBytes, sameBytes } from '../bytes.js';
import { textOfFile } from '../encodings/index.js';
import { remark, type CodesOf, type Remark } from '../faults.js';
import { USER_SIZE } from '../module/index.js';

export type ExtentFault = Remark<CodesOf<'extent'>>;
/**
 * A directory record: its place in the bytes, where its extent begins, how many bytes that has, whether both are the same with the most
 * significant byte first, its volume in the set, its flags, its undecoded name, and its System Use field.
 */
type DirectoryRecord = { at: number, extent: number, size: number, agrees: boolean, volume: number, flags: number,
    interleaved: boolean, name: Uint8Array, system: Uint8Array, length: number };
export type Entry = { kind: 'file' | 'directory', path: string, extent: number, size: number, fault: ExtentFault | null };
/** Where a record is, and how many bytes of its file come before it. */
export type RecordPlace = { entry: Entry, at: number, before: number };
/** The sectors of a volume, and how many areas were read in which records are continued. */
type Blocks = { user(extent: number, count: number): Promise<Uint8Array>, available(extent: number, count: number): number,
    areas: number };
type Selves = { ownRecord(extent: number): Promise<DirectoryRecord | null> } & Blocks;
export type Reading = { path: string, joliet: boolean, skip: number | null, number: number, fault: (why: Remark) => void };

const SMALLEST_RECORD = 34;
const NAME = 33;
const DIRECTORY = 2;
const ASSOCIATED = 4;
const MORE_EXTENTS = 128;
const MOST_CONTINUATIONS = 64;

/** Where a record has the size of its extent, and how many bytes that field has: the size in each byte order. */
export const SIZE_FIELD = Object.freeze({ offset: 10, length: 8 });

function numberAt(bytes: Uint8Array, at: number) {
    return new DataView(bytes.buffer, bytes.byteOffset, bytes.length).getUint32(at, true);
}

/** Whether a number in both byte orders is the same in both. Some writers leave 0 for the one with the most significant byte first. */
function agreesAt(bytes: Uint8Array, at: number) {
    const other = new DataView(bytes.buffer, bytes.byteOffset, bytes.length).getUint32(at + 4, false);
    return other === 0 || other === numberAt(bytes, at);
}

/** A number in both byte orders, or null if it is not the same in both. */
export function numberInBoth(bytes: Uint8Array, at: number) {
    return agreesAt(bytes, at) ? numberAt(bytes, at) : null;
}

/** The record at a place, or null if none can be there. */
export function recordAt(bytes: Uint8Array, at: number): DirectoryRecord | null {
    const length = bytes[at];
    const left = Math.min(bytes.length - at, USER_SIZE - at % USER_SIZE);
    if (length < SMALLEST_RECORD || length > left || NAME + bytes[at + 32] > length) return null;
    const record = bytes.subarray(at, at + length);
    const end = NAME + record[32];
    return {
        at,
        extent: numberAt(record, 2) + record[1],
        size: numberAt(record, SIZE_FIELD.offset),
        agrees: agreesAt(record, 2) && agreesAt(record, SIZE_FIELD.offset),
        volume: record[28] + 256 * record[29],
        flags: record[25],
        interleaved: record[26] > 0 || record[27] > 0,
        name: record.subarray(NAME, end),
        system: record.subarray(end + (1 - record[32] % 2)),
        length,
    };
}

/** Whether a record is the one of a directory for itself. */
export function isSelf({ name }: DirectoryRecord) {
    return name.length === 1 && name[0] === 0;
}

function isParent({ name }: DirectoryRecord) {
    return name.length === 1 && name[0] === 1;
}

/**
 * How many bytes of each System Use field come before Rock Ridge's entries, or null if the volume has none.
 * @param own the root's record for itself
 */
export async function sharingSkip(blocks: Blocks, { system }: DirectoryRecord) {
    // CD-ROM XA has 14 bytes of its own there.
    for (const skip of [0, 14]) {
        const entry = system.subarray(skip);
        if (!(entry.length >= 7 && signatureAt(entry, 0) === 'SP' && entry[4] === 0xBE && entry[5] === 0xEF)) continue;
        const entries = await systemEntries(blocks, system.subarray(skip));
        return entries.some(({ signature }) => signature === 'PX' || signature === 'RR') ? entry[6] : null;
    }
    return null;
}

function signatureAt(bytes: Uint8Array, at: number) {
    return String.fromCharCode(bytes[at], bytes[at + 1]);
}

/** The entries of a System Use field, and of the areas in which it is continued. */
async function systemEntries(blocks: Blocks, area: Uint8Array) {
    const entries = [];
    let rest: Uint8Array | null = area;
    for (let i = 0; rest !== null && i < MOST_CONTINUATIONS; i++) {
        let next: Uint8Array | null = null;
        for (let at = 0; at + 4 <= rest.length;) {
            const length = rest[at + 2];
            const signature = signatureAt(rest, at);
            const data: Uint8Array = rest.subarray(at + 4, at + length);
            if (length < 4 || at + length > rest.length || signature === 'ST') break;
            if (signature === 'CE' && data.length >= 24) next = await continuation(blocks, data);
            entries.push({ signature, data });
            at += length;
        }
        rest = next;
    }
    return entries;
}

/** @param data of an entry CE */
async function continuation(blocks: Blocks, data: Uint8Array) {
    const [extent, offset, length] = [numberAt(data, 0), numberAt(data, 8), numberAt(data, 16)];
    if (blocks.available(extent, 1) === 0) return null;
    blocks.areas += 1;
    return (await blocks.user(extent, 1)).subarray(offset, offset + length);
}

/**
 * The Rock Ridge data of a record: its name, '' if it has none; whether it is a link, or a directory that belongs elsewhere; and the extent
 * of a directory that is elsewhere and belongs here.
 */
async function rockRidge(blocks: Blocks, area: Uint8Array) {
    const entries = await systemEntries(blocks, area);
    const parts = entries.filter(it => it.signature === 'NM').map(it => it.data.subarray(1));
    const child = entries.find(it => it.signature === 'CL' && it.data.length >= 4);
    return {
        name: textOfFile(joinedBytes(parts)),
        link: entries.some(it => it.signature === 'SL'),
        moved: entries.some(it => it.signature === 'RE'),
        child: child ? numberAt(child.data, 0) : null,
    };
}

/**
 * The files and directories that the records of a directory name, in order. The record of a file with more extents is continued by the next
 * one, if that has the same name.
 * @param user of the whole directory
 */
export async function* entriesOfDirectory(blocks: Selves, user: Uint8Array, reading: Reading): AsyncGenerator<RecordPlace> {
    let before = 0;
    let name = null as Uint8Array | null;
    for (const record of recordsOf(user, reading.fault)) {
        if (isSelf(record) || isParent(record)) continue;
        const goesOn = name !== null && name.length === record.name.length && sameBytes(name, record.name);
        if (!goesOn) before = 0;
        const entry = await entryOf(blocks, record, reading);
        if (entry && goesOn && entry.fault === null) entry.fault = remark('extent/several', {});
        if (entry) yield { entry, at: record.at, before };
        name = record.flags & MORE_EXTENTS ? record.name : null;
        before += record.size;
    }
}

function* recordsOf(user: Uint8Array, fault: Reading['fault']) {
    for (let at = 0; at < user.length;) {
        const record = recordAt(user, at);
        if (record === null && user[at] !== 0) fault(remark('tree/no-record', { at }));
        if (record !== null) yield record;
        // A record is in one sector. Zeros follow the last one.
        at = record === null ? (Math.floor(at / USER_SIZE) + 1) * USER_SIZE : at + record.length;
    }
}

/** @returns null for a link, and for a directory that is listed elsewhere */
async function entryOf(blocks: Selves, record: DirectoryRecord, reading: Reading): Promise<Entry | null> {
    const more = reading.skip === null ? null : await rockRidge(blocks, record.system.subarray(reading.skip));
    if (more && (more.link || more.moved)) return null;
    const path = `${reading.path}/${more && more.name || plainName(record.name, reading.joliet)}`;
    if (more && more.child !== null) return childOf(blocks, more.child, path, reading.fault);
    const fault = faultOf(record, reading.number);
    const { extent, size, flags } = record;
    if ((flags & DIRECTORY) === 0) return { kind: 'file', path, extent, size, fault };
    if (fault) reading.fault(remark('tree/unread', { path, why: fault }));
    return fault ? null : { kind: 'directory', path, extent, size, fault: null };
}

/** A directory that Rock Ridge moved: the record that names it has no size. */
async function childOf(blocks: Selves, extent: number, path: string, fault: Reading['fault']): Promise<Entry | null> {
    const own = await blocks.ownRecord(extent);
    if (own === null) fault(remark('tree/not-in-image', { path }));
    return own && { kind: 'directory', path, extent, size: own.size, fault: null };
}

/** @param number of the volume in its set */
function faultOf({ flags, interleaved, agrees, volume }: DirectoryRecord, number: number): ExtentFault | null {
    if (!agrees) return remark('extent/byte-orders', {});
    if (volume !== number) return remark('extent/other-volume', { volume, number });
    if (interleaved) return remark('extent/interleaved', {});
    if (flags & ASSOCIATED) return remark('extent/associated', {});
    return flags & MORE_EXTENTS ? remark('extent/several', {}) : null;
}

/** A name without its version, if that is 1. */
function plainName(name: Uint8Array, joliet: boolean) {
    const text = joliet ? new TextDecoder('utf-16be').decode(name) : textOfFile(name);
    return text.replace(/\.?;1$/, '');
}
