// Calculates the hashes of files, and looks them up in DATs.

import { createHash } from 'node:crypto';
import { basename } from 'node:path';
import { crc32, readBytes, type Reader } from '../core/bytes.js';
import type { Dump, Found, Hashes, KnownDumps } from '../core/disc/views.js';
import { SECTOR_SIZE, sectorCount } from '../core/module/index.js';
import { sliceOf } from '../core/readers/views.js';
import type { ReadFile } from '../core/tasks/index.js';
import { sentenceOf } from '../sentences/index.js';
import type { Job } from './job.js';
import { turn } from './system.js';
import * as zlib from 'node:zlib';

/** Which hashes are computed beside SHA-1. */
export type Needs = KnownDumps['needs'];

/** The hashes that a job prints, or needs to find a file in DATs. */
export function needsOf({ options: { json = false } }: Job, known: KnownDumps | null): Needs {
    return json || known === null ? { crc32: json, md5: json } : known.needs;
}

/** Continues a CRC-32. Node has had a call for it since 20.15, which takes a fifth of the time. */
const addToCrc: (before: number, bytes: Uint8Array) => number = zlib.crc32 === undefined ? crc32 : (before, bytes) =>
    Number(zlib.crc32?.(bytes, before));

/** Hashes that are calculated while bytes are added. */
export class RunningHashes {
    sha1 = createHash('sha1');
    md5; crc;

    constructor(needs: Needs) {
        this.md5 = needs.md5 ? createHash('md5') : null;
        this.crc = needs.crc32 ? 0 : null;
    }

    update(bytes: Uint8Array) {
        this.sha1.update(bytes);
        if (this.md5 !== null) this.md5.update(bytes);
        if (this.crc !== null) this.crc = addToCrc(this.crc, bytes);
    }

    /** @returns '' for a hash that was not computed */
    digest(): Required<Hashes> {
        return {
            sha1: this.sha1.digest('hex'), md5: this.md5 === null ? '' : this.md5.digest('hex'),
            crc32: this.crc === null ? '' : this.crc.toString(16).padStart(8, '0'),
        };
    }
}

/** The verdict of DATs on a file, such as 'verified NAME'. `found` is its dump in them, or null. */
export function datText(known: KnownDumps, found: Found | null, size: number) {
    return sentenceOf(found ? { code: 'dat/dump', facts: found } : known.remarkOfOther(size));
}

/** Prints the verdict of DATs on a new file. Returns its dump, null if the DATs do not have it. */
export function sayKnown(job: Job, known: KnownDumps, name: string, size: number, hashes: Hashes) {
    const found = known.find(size, hashes, basename(name));
    job.say(`${name}: ${datText(known, found, size)}${found ? '' : `; its SHA-1 is ${hashes.sha1}`}`);
    return found;
}

/** A game, the number of its files, and those that are missing. */
type GameFound = { game: string, files: number, missing: string[] };

/** Counts the files that are verified, are bad dumps, and are not in the DAT, and the games of the DAT that they are. */
export class Verdicts {
    verified = 0;
    bad = 0;
    unknown = 0;
    /** The dumps of the collection. */
    there = new Set<Dump | null>();

    constructor(readonly known: KnownDumps) {}

    /** Counts a file. `found` is its dump in the DAT, or null. `isExpected` says whether the DAT should have it. */
    add(found: { isBad: boolean } | null, isExpected: boolean) {
        if (found === null) this.unknown += Number(isExpected);
        else if (found.isBad) this.bad += 1;
        else this.verified += 1;
    }

    /** The status of the job: 1 if a file is a bad dump or unknown, else 0. */
    get status() {
        return Number(this.bad + this.unknown > 0);
    }

    text() {
        return `verified ${this.verified}, known as bad ${this.bad}, not in the DAT ${this.unknown}`;
    }

    /** Adds a file of the collection. */
    addFile(size: number, hashes: Hashes) {
        this.there.add(this.known.dumpOf(size, hashes));
    }

    /** The games in the order of the DATs: those of which all files were found, whatever the names, and those that lack some or all. */
    games() {
        const all = this.known.games.map(({ name, dumps }): GameFound => {
            const missing = [...dumps].filter(([dump]) => !this.there.has(dump)).map(([, file]) => file);
            return { game: name, files: dumps.size, missing };
        });
        const isMissing = ({ files, missing }: GameFound) => missing.length === files;
        return {
            whole: all.filter(it => it.missing.length === 0),
            inPart: all.filter(it => it.missing.length > 0 && !isMissing(it)),
            missing: all.filter(isMissing),
        };
    }
}

// Surveys tracks, and calculates the hashes of their files, which are read once.

/** The number of bytes that are hashed at a time. Threads are busy for longer than that takes. */
const HASH_STEP = 1 << 20;

/** A reader that hashes the bytes that are read, which must be in order. `digest` reads the rest first, and returns the hashes. */
function hashing(reader: Reader, needs: Needs): Reader & { digest(): Promise<Required<Hashes>> } {
    const { size } = reader;
    const hash = new RunningHashes(needs);
    let hashed = 0;
    return {
        size,
        async read(at, length, room) {
            const bytes = await reader.read(at, length, room);
            if (at !== hashed) throw new Error(`byte ${at} after ${hashed} bytes`);
            hash.update(bytes);
            hashed += bytes.length;
            return bytes;
        },
        async digest() {
            const room = new Uint8Array(Math.min(HASH_STEP, size - hashed));
            while (hashed < size) {
                await readBytes(this, hashed, Math.min(HASH_STEP, size - hashed), room);
                await turn();
            }
            return hash.digest();
        },
    };
}

/** Returns a function that surveys and hashes files. */
export function readingOnce(job: Job, needs: Needs): ReadFile {
    return async ({ reader }, tracks) => {
        const hashed = hashing(reader, needs);
        const isBeside = tracks.length > 0 && reader.lent !== undefined && job.pool.hasThreads(sectorCount(reader.size));
        const beside = isBeside ? hashed.digest() : null;
        if (beside !== null) beside.catch(() => {}); // it is thrown when its turn comes
        const surveys = [];
        for (const { image: { reader: own, base, sectors }, before, shift } of tracks) {
            const read = isBeside ? own : sliceOf(hashed, before * SECTOR_SIZE, (before + sectors) * SECTOR_SIZE);
            surveys.push(await job.survey(read, base, { shift, mode2: true }));
        }
        return { surveys, hashes: await (beside || hashed.digest()) };
    };
}

/** The lines about games: the missing and the incomplete ones if they are to be listed, and how many there are. */
export function gameLines({ whole, inPart, missing }: ReturnType<Verdicts['games']>, listsMissing: boolean) {
    const more = (files: string[]) => files.length > 1 ? `, and ${files.length - 1} more` : '';
    const parts = inPart.map(it => `incomplete: ${it.game} lacks ${it.missing[0]}${more(it.missing)}`);
    const listed = [...missing.map(it => `missing: ${it.game}`), ...parts];
    return [...listsMissing ? listed : [], `games: complete ${whole.length}, incomplete ${inPart.length}, missing ${missing.length}`];
}

/** The object about games, the last one of `scan --json`. */
export function gamesObject({ whole, inPart, missing }: ReturnType<Verdicts['games']>, listsMissing: boolean) {
    const counts = { kind: 'games', whole: whole.length, inPart: inPart.length, missing: missing.length };
    return listsMissing ? { ...counts, games: [...missing, ...inPart] } : counts;
}
