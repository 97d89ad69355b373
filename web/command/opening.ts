// Opens the first argument of a job: a raw image, or a cue sheet and the files that it names.

import { existsSync, readdirSync, realpathSync } from 'node:fs';
import { dirname, join } from 'node:path';
import { readBytes } from '../core/bytes.js';
import { openDisc, type Disc, type DiscImage, type Sheet, type Siblings } from '../core/disc/views.js';
import { failedBy, type Fault } from '../core/faults.js';
import { SECTOR_KIND, SECTOR_SIZE } from '../core/module/index.js';
import { openTrack, surveyedTracks, surveyedWith } from '../core/tasks/index.js';
import { ownFault } from '../sentences/index.js';
import type { Job } from './job.js';
import { isNoFileOfWindows, nameOfBytes, pathIn, pathOf } from './new_file.js';
import { tryFile } from './system.js';

// Finds the files that a cue sheet names, only in the directory of the sheet and below it.

/** Directories. Each is read at most once. */
class Directories {
    names = new Map<string, string[]>();

    /** @param top the directory that contains all others */
    constructor(readonly top: string, readonly exists: (path: string) => boolean) {}

    /** Whether a directory is not a link that leads out of the top directory. */
    isInside(directory: string) {
        const [real, top] = [directory, this.top].map(path => join(nameOfBytes(realpathSync.native(pathOf(path), 'buffer')), '/'));
        return real.startsWith(top);
    }

    /** The name in a directory that differs from a name at most in its capitals; undefined if there is none. */
    nameIn(directory: string, name: string) {
        const names = this.names.get(directory) || readdirSync(pathOf(directory), 'buffer').map(nameOfBytes);
        this.names.set(directory, names);
        return names.includes(name) ? name : names.find(it => it.toLowerCase() === name.toLowerCase());
    }

    /**
     * Finds a file by the parts of its path, regardless of capitals. Returns its path, or null if there is none. A directory is read only
     * if a name in it does not exist as it is written: a collection may have thousands of sheets in one directory.
     */
    pathOfParts(parts: string[]) {
        let path = this.top;
        for (const part of parts) {
            if (path !== this.top && !this.isInside(path)) return null;
            const isThere = !isNoFileOfWindows(part) && this.exists(pathIn(path, part));
            const found = isThere ? part : this.nameIn(path, part);
            if (found === undefined) return null;
            path = pathIn(path, found);
        }
        return parts.length === 0 ? null : path;
    }

    /** The path of a file that a sheet names: at that place below the sheet, or else beside the sheet; null if it is missing. */
    placeOf(name: string) {
        const parts = name.split(/[/\\]/).filter(it => it !== '' && it !== '.');
        const isBelow = !/^(?:[/\\]|[A-Za-z]:)/.test(name) && !parts.includes('..');
        return (isBelow && this.tried(parts)) || this.tried(parts.slice(-1));
    }

    /** @param parts of a path, some of which may not be directories */
    tried(parts: string[]) {
        try {
            return this.pathOfParts(parts);
        } catch (error) {
            if (parts.length > 1) return null;
            throw error;
        }
    }
}

/**
 * The paths of the files that a sheet names, for each of its readings; null for a missing file. Throws any error of reading the sheet's
 * directory.
 * @param name of the sheet
 * @param sheets its readings
 */
export function pathsOfSheet(name: string, sheets: Sheet[], exists: (path: string) => boolean = path => existsSync(pathOf(path))) {
    const directories = new Directories(dirname(name), exists);
    return sheets.map(sheet => sheet.files.map(file => directories.placeOf(file.name)));
}

/** The first block of a track that describes an ISO 9660 volume. */
const VOLUME_BLOCK = 16;

/** Opens the disc of a raw image or of a cue sheet. Throws any error of `openDisc`. */
export async function openDiscOf(job: Job, name: string) {
    const file = await job.files.image(name);
    return namingSheet(openDisc(job.calls, [file], siblingsOf(job)));
}

/** The message about a missing file. It names the cue sheet, as the user gave only its name. */
export function missingText({ facts: { sheet, file } }: Fault<'disc/missing-files'>) {
    return `${sheet} names ${file}, which is not in the directory of the cue sheet.`;
}

/** Waits for the opening of a disc. */
export function namingSheet<T>(opening: Promise<T>) {
    return opening.catch(error => {
        throw failedBy(error, 'disc/missing-files') ? ownFault(missingText(error), { file: error.facts.sheet }) : error;
    });
}

/** Returns a function that opens the existing files that a cue sheet names. */
export function siblingsOf(job: Job): Siblings {
    return async ({ name }, readings) => {
        const paths = await tryFile('read', dirname(name), () => pathsOfSheet(name, readings));
        const opened = [];
        for (const path of new Set(paths.flat())) if (path !== null) opened.push(await job.files.imageOfSheet(path));
        return opened;
    };
}

/**
 * Reports the other data tracks, if no option selects a track.
 * @param track the track that is examined
 * @param whole whether the other tracks in its file are examined too
 */
function sayOtherTracks(job: Job, { tracks }: Disc, track: { number: number, file: number }, whole: boolean) {
    const others = tracks.filter(it => it.image !== null && it.number !== track.number && !(whole && it.file === track.file));
    const numbers = others.map(({ number }) => number);
    if (job.options.track !== undefined || numbers.length === 0) return;
    const [which, seen] = numbers.length === 1 ? ['track', 'also has data, but was'] : ['tracks', 'also have data, but were'];
    job.sayOnce(`${which} ${numbers.join(', ')} ${seen} not examined: use --track ${numbers[0]}`);
}

/** Reports the base that is used for an image whose addresses do not give it. */
function sayUnknownBase(job: Job, { name, base, addressed }: DiscImage) {
    if (addressed === base) return;
    const why = addressed === null ? 'do not give its first block' : 'begin before block 0';
    job.say(`the addresses in ${name} ${why}, so its first sector counts as block ${base}; see --base`);
}

/** Reports a track whose user data is not where the jobs for texts and files read it. */
async function sayMode2(job: Job, { reader, base, sectors }: DiscImage) {
    if (sectors <= VOLUME_BLOCK) return;
    const sector = await readBytes(reader, VOLUME_BLOCK * SECTOR_SIZE, SECTOR_SIZE);
    if (job.calls.kind(sector) !== SECTOR_KIND.MODE2) return;
    const what = 'texts and files in Mode 2 sectors are not found, or are cut, and cannot be patched; see docs/FAQ.md';
    job.sayOnce(`block ${base + VOLUME_BLOCK} is Mode 2: ${what}`);
}

/**
 * Opens the data track of a job. Reports the data tracks that are not examined, and an unknown base.
 * @param whole whether the job examines the whole image, not only the track
 */
export async function openTrackOf(job: Job, name: string, whole: boolean = false) {
    return openTrackIn(job, await openDiscOf(job, name), whole);
}

/** The data track of a job in an open disc, with the same reports. */
async function openTrackIn(job: Job, disc: Disc, whole: boolean = false) {
    const opened = openTrack(disc, job.options);
    sayOtherTracks(job, opened.disc, opened.track, whole);
    if (!whole) await sayMode2(job, opened.part);
    if (job.options.base === undefined) sayUnknownBase(job, opened.image);
    return opened;
}

/** The tracks of a disc to survey: those in the file of the one that an option selects, or all. Reports an unknown base. */
export async function surveyedIn(job: Job, disc: Disc) {
    const { track, base } = job.options;
    const isChosen = (track !== undefined || base !== undefined) && disc.tracks.some(({ image }) => image !== null);
    if (isChosen) return surveyedWith(await openTrackIn(job, disc, true));
    const surveyed = surveyedTracks(disc);
    surveyed.filter(({ isAudio }) => !isAudio).forEach(({ image }) => sayUnknownBase(job, image));
    return surveyed;
}
