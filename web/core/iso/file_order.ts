// The sectors of a track in the order of its files: the extents of a file may be apart.

import { firstAfter, type Reader } from '../bytes.js';
import { SECTOR_SIZE, USER_SIZE } from '../module/index.js';
import type { FileEntry, VolumeReader } from './files.js';

// The blocks of a volume that belong to no file: descriptors, directories, and path tables.

export type OwnBlock = 'descriptor' | 'directory';

export const FIRST_DESCRIPTOR = 16;

/** Where a descriptor has the size of a path table in bytes, and the sectors of four path tables, the last two with the high byte first. */
const TABLE_SIZE = 132;
const PATH_TABLES = 140;

/** The most sectors of a path table that are used: 8 MiB. */
const MOST_TABLE = 4096;

/**
 * The blocks of descriptors and directories.
 * @param descriptors how many there are
 * @param directories their sectors, as the volume numbers them
 */
export function ownBlocks(volume: VolumeReader, descriptors: number, directories: number[]) {
    const own = new Map(directories.map(extent => [volume.blockOf(extent), 'directory' as OwnBlock]));
    for (let i = 0; i < descriptors; i++) own.set(volume.base + FIRST_DESCRIPTOR + i, 'descriptor');
    return own;
}

/** The blocks of the path tables that descriptors name. */
export function tableBlocks(volume: VolumeReader, descriptors: Uint8Array[]) {
    return descriptors.flatMap(it => pathTablesOf(volume, it));
}

function pathTablesOf(volume: VolumeReader, descriptor: Uint8Array) {
    const view = new DataView(descriptor.buffer, descriptor.byteOffset, descriptor.length);
    const count = Math.min(Math.ceil(view.getUint32(TABLE_SIZE, true) / USER_SIZE), MOST_TABLE);
    return [0, 1, 2, 3].flatMap(i => {
        const extent = view.getUint32(PATH_TABLES + 4 * i, i < 2);
        const there = extent === 0 ? 0 : volume.available(extent, count);
        return Array.from({ length: there }, (_, k) => volume.blockOf(extent + k));
    });
}

export type RawTrack = { reader: Reader, base: number, sectors: number };
/** A run of sectors, by the index of the first one in the track. */
export type Sectors = { from: number, count: number };

/** The last run that begins at a place or before it; the first run if none does. `begins` is where each begins, in order. */
function runAt<T>(runs: T[], begins: number[], place: number) {
    return runs[Math.max(firstAfter(begins, place) - 1, 0)];
}

/** The sectors of a track, reordered so that those of each file are consecutive; all others keep their order. */
export class FileOrder {
    /** In this order. */
    reader: Reader;
    base; runs; ats; byPlace; froms;

    /** @param runs all sectors of the track, in this order */
    constructor({ reader, base, sectors }: RawTrack, runs: Sectors[]) {
        let next = 0;
        const placed = runs.map(({ from, count }) => ({ from, count, at: (next += count) - count }));
        this.base = base;
        this.runs = placed;
        this.ats = placed.map(({ at }) => at);
        this.byPlace = [...placed].sort((a, b) => a.from - b.from);
        this.froms = this.byPlace.map(({ from }) => from);
        this.reader = {
            size: sectors * SECTOR_SIZE,
            read: (place, length, room) => {
                const { from, at, count } = runAt(placed, this.ats, place / SECTOR_SIZE);
                return reader.read(place + (from - at) * SECTOR_SIZE, Math.min(length, (at + count) * SECTOR_SIZE - place), room);
            },
        };
    }

    /** @param index in this order */
    blockOf(index: number) {
        const { from, at } = runAt(this.runs, this.ats, index);
        return this.base + from + index - at;
    }

    indexOf(block: number) {
        const { from, at } = runAt(this.byPlace, this.froms, block - this.base);
        return block - this.base + at - from;
    }
}

/** The extents of files that are not directly after the extent before them, by the place at which that one ends. */
function laterExtents({ base }: RawTrack, files: FileEntry[]) {
    const [ends, later] = [new Map(), new Map()];
    const key = (path: string, before: number) => `${before} ${path}`;
    for (const { path, block, size, before } of files) {
        if (size > 0 && size % USER_SIZE === 0) ends.set(key(path, before + size), block - base + size / USER_SIZE);
    }
    for (const { path, block, size, before } of files) {
        const end = before > 0 && ends.get(key(path, before));
        if (end && end !== block - base) later.set(end, { from: block - base, count: Math.ceil(size / USER_SIZE) });
    }
    return later;
}

/** The order of a track's files; undefined if it is the order of the sectors, or if extents overlap. */
export function fileOrder(track: RawTrack, files: FileEntry[]) {
    const later = laterExtents(track, files);
    const moved = new Map([...later.values()].map(it => [it.from, it.from + it.count]));
    const cuts = [...new Set([0, track.sectors, ...later.keys(), ...moved.keys(), ...moved.values()])].sort((a, b) => a - b);
    const runs: Sectors[] = [];
    let taken = 0;
    for (const [i, from] of cuts.entries()) {
        taken = Math.max(taken, moved.get(from) || 0);
        if (from < taken || i + 1 === cuts.length) continue;
        runs.push({ from, count: cuts[i + 1] - from });
        for (let end = cuts[i + 1]; later.has(end);) {
            const next = later.get(end);
            later.delete(end);
            runs.push(next);
            end = next.from + next.count;
        }
    }
    return moved.size > 0 && areTiles(runs, track.sectors) ? new FileOrder(track, runs) : undefined;
}

/** Whether each sector of a track is in exactly one run. */
function areTiles(runs: Sectors[], sectors: number) {
    let end = 0;
    for (const { from, count } of [...runs].sort((a, b) => a.from - b.from)) {
        if (from !== end) return false;
        end += count;
    }
    return end === sectors;
}
