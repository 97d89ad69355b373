// Converts images: extracts the user data of sectors, for an ISO image of a track or for the bytes of a file; and converts other images to
// raw ones.

import { readBytes, type Reader } from '../bytes.js';
import { SUBCHANNEL_SIZE, type DiscFile } from '../disc/index.js';
import { Fault, cancelled, newBytes } from '../faults.js';
import { LAST_BASE, SECTOR_KIND, SECTOR_SIZE, USER_SIZE, sectorCount, type Calls } from '../module/index.js';
import { sliceOf } from '../readers/index.js';
import { HEADERLESS_SIZE, addToRuns, joinedUser, sectorOf, surveyRange, withHeaders, wrongRuns, type Run } from '../sectors/index.js';
import { fileOfTrack, type Engine, type OpenedTrack } from './opened.js';
import type { FileEntry } from '../iso/index.js';
import type { Sharer, Sharing } from '../pool/index.js';

export type KindRun = Run & { kind: number };
export type TakeBytes = (bytes: Uint8Array) => void | Promise<void>;
/**
 * The user data of a range, the sectors that are not of Mode 1, those of Mode 1 whose codes do not match (`damaged`), and those with the
 * address of a different block (`elsewhere`).
 */
export type UserRange = { user: Uint8Array, others: KindRun[], damaged: Run[], elsewhere: Run[] };
export type Wrong = { damaged: Run[], elsewhere: Run[] };

/** The kinds of files that can be converted to raw images, and the bytes of a sector of each. */
export const CONVERTIBLE = Object.freeze({ iso: USER_SIZE, subchannels: SUBCHANNEL_SIZE, headerless: HEADERLESS_SIZE });

export type ConvertibleKind = keyof typeof CONVERTIBLE;

/** The most sectors that a reader converts at a time. */
const SECTORS_AT_ONCE = 512;

/**
 * The user data of sectors, read from the same place in each, whatever its kind; and the runs of sectors that are not Mode 1, which may
 * have other bytes at that place.
 * @param bytes of whole raw sectors
 * @param block the block of the first sector
 * @param args how many blocks later the sectors are by their addresses
 */
export function userRange(calls: Calls, bytes: Uint8Array, block: number, { shift = 0 }: { shift?: number } = {}): UserRange {
    const others: KindRun[] = [];
    for (let i = 0; i < sectorCount(bytes.length); i++) {
        const kind = calls.kind(sectorOf(bytes, i));
        if (kind !== SECTOR_KIND.MODE1) addToRuns(others, { first: block + i, last: block + i, kind });
    }
    return { user: joinedUser(bytes), others, ...wrongRuns(surveyRange(calls, bytes, block, { shift }), new Uint8Array(0)) };
}

/**
 * Passes the user data of sectors to `take`, in order. Returns the runs of sectors that are not Mode 1.
 * @param reader of the sectors
 * @param size how many bytes are passed at most
 * @param wrong to which the runs of damaged sectors, and of those with a wrong address, are added
 */
export async function passUser(pool: Sharer, reader: Reader, size: number, { shift = 0, ...how }: Sharing & { shift?: number },
    take: TakeBytes, wrong?: Wrong) {
    const others: KindRun[] = [];
    let left = size;
    await pool.share('user', [reader], { shift }, how, async answer => {
        for (const it of answer.others) addToRuns(others, it);
        for (const it of answer.damaged) addToRuns(wrong?.damaged || [], it);
        for (const it of answer.elsewhere) addToRuns(wrong?.elsewhere || [], it);
        const user = answer.user.subarray(0, Math.max(left, 0));
        left -= answer.user.length;
        await take(user);
    });
    return others;
}

/**
 * Extracts a file of a track, and passes its bytes to `take`, in order. Returns the runs of its sectors that are not Mode 1. Throws what
 * fileOfTrack and the reader throw, and a Fault, `cancelled`.
 * @param entries of its path
 */
export async function extractFile({ pool }: Pick<Engine, 'pool'>, opened: Pick<OpenedTrack, 'part' | 'contents'>, entries: FileEntry[],
    take: TakeBytes, how: Sharing = {}) {
    const { part } = opened;
    const { extents } = await fileOfTrack(opened, entries);
    const others: KindRun[] = [];
    for (const { block, size } of extents) {
        const first = block - part.base;
        const sectors = sliceOf(part.reader, first * SECTOR_SIZE, (first + Math.ceil(size / USER_SIZE)) * SECTOR_SIZE);
        for (const it of await passUser(pool, sectors, size, { ...how, base: block }, take)) addToRuns(others, it);
    }
    return others;
}

/** Whether a file of some kind can be converted to a raw image. */
export function isConvertible(kind: string): kind is ConvertibleKind {
    return Object.keys(CONVERTIBLE).includes(kind);
}

/**
 * A file as the raw image that it is converted to, sector by sector as it is read, without an incomplete last sector. The blocks of sectors
 * that have no address are counted from `base`.
 * @param kind of the file
 */
export function rawReader(calls: Calls, reader: Reader, kind: ConvertibleKind, base: number = 0): Reader {
    const unit = CONVERTIBLE[kind];
    const count = Math.floor(reader.size / unit);
    return {
        size: count * SECTOR_SIZE,
        async read(at, length) {
            const first = Math.floor(at / SECTOR_SIZE);
            const end = Math.min(Math.ceil((at + length) / SECTOR_SIZE), first + SECTORS_AT_ONCE, count);
            if (first >= end) return new Uint8Array(0);
            const bytes = await readBytes(reader, first * unit, (end - first) * unit);
            const from = at - first * SECTOR_SIZE;
            return rawSectors(calls, bytes, kind, base + first).subarray(from, from + length);
        },
    };
}

function rawSectors(calls: Calls, bytes: Uint8Array, kind: ConvertibleKind, first: number) {
    if (kind === 'iso') return calls.encodeBlocks(first, bytes);
    return kind === 'headerless' ? withHeaders(calls, bytes, first) : withoutSubchannels(bytes);
}

/** Whether the last block of an image that is converted would be after the last block of a disc. */
export function endsAfterLast({ size }: Reader, kind: ConvertibleKind, base: number = 0) {
    return kind !== 'subchannels' && base + size / CONVERTIBLE[kind] > LAST_BASE + 1;
}

/**
 * Converts an image to a raw image, and passes its sectors to `take`, in order. The blocks of sectors that have no address are counted from
 * `base`. Throws a Fault, `convert` or `cancelled`, and what the reader throws.
 * @param kind of the file
 */
export async function convertToRaw({ calls, pool }: Engine, { name, reader }: DiscFile, kind: ConvertibleKind, take: TakeBytes,
    how: Sharing = {}) {
    const unit = CONVERTIBLE[kind];
    const { base = 0, progress, signal } = how;
    if (reader.size % unit !== 0) throw new Fault('convert/cut', { name, size: reader.size, unit });
    if (endsAfterLast(reader, kind, base)) throw new Fault('convert/after-last', { name });
    if (kind === 'iso') return pool.share('raw', [reader], {}, { ...how, base, units: [unit] }, take);
    const raw = rawReader(calls, reader, kind, base);
    for (let at = 0; at < raw.size;) {
        if (signal && signal.aborted) throw cancelled();
        const sectors = await raw.read(at, SECTORS_AT_ONCE * SECTOR_SIZE);
        at += sectors.length;
        await take(sectors);
        if (progress) progress(sectorCount(at), sectorCount(raw.size));
    }
    return undefined;
}

/**
 * Sectors without the subchannels that follow each.
 * @param bytes of whole sectors with subchannels
 */
function withoutSubchannels(bytes: Uint8Array) {
    const count = bytes.length / SUBCHANNEL_SIZE;
    const sectors = newBytes(count * SECTOR_SIZE);
    for (let i = 0; i < count; i++) {
        const at = i * SUBCHANNEL_SIZE;
        sectors.set(bytes.subarray(at, at + SECTOR_SIZE), i * SECTOR_SIZE);
    }
    return sectors;
}
