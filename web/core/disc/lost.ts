// Lost sectors: blocks of a data track that are not of its mode, such as those that a drive could not read and a dumper filled.

import { failedBy } from '../faults.js';
import { VolumeReader, descriptorsOf, endOfExtent, filesOf, numberInBoth, type FileEntry } from '../iso/index.js';
import { LAST_BASE, SECTOR_KIND, SECTOR_SIZE } from '../module/index.js';
import { sliceOf } from '../readers/index.js';
import {
    addToRuns, commonRuns, isTestedMode2, joinedForm1, joinedRuns, joinedUser, kindRuns, laterRuns, mode2Runs, runsWithout, type FilledRun,
    type Run, type Survey,
} from '../sectors/index.js';
import type { Disc, DiscImage } from './disc.js';

// Determines which blocks a volume uses, and whether an image lacks blocks of its volume at the start or at the end.

/**
 * The blocks of a volume that its image lacks, the number of blocks of the volume, and the path of a file that begins in the image and
 * continues after its end, '' if there is none. With `isSure` the image is cut. Otherwise the volume may count other tracks, or a pause
 * after its own track.
 */
export type Lack = { missing: Run, blocks: number, file: string, isSure: boolean };

/** The blocks of files with their paths, and the volume's own with the path ''. */
type UsedBlocks = (Run & { path: string })[];
/** An image of a disc, and the track in it. `later` is added to its blocks to get the same blocks of the examined image. */
export type Dump = { image: DiscImage, part: DiscImage, later: number };

/** The number of sectors before the descriptors, which belong to the volume too (ECMA-119, 6.2.1). */
const SYSTEM_AREA = 16;

/** Faults of files whose bytes are nevertheless those from their block on. */
const READ = ['extent/several', 'extent/cut'];

/** The offset of the volume's number of blocks in the primary descriptor. */
const VOLUME_BLOCKS = 80;

/** The sectors of the two-second pause after the data, which writing programs count, but not every drive returns. */
const LONGEST_PAUSE = 150;

/** Awaits a result. Returns null in place of the failure that a track has no volume. */
async function ifVolume<T>(reading: Promise<T>) {
    try {
        return await reading;
    } catch (error) {
        if (!failedBy(error, 'volume')) throw error;
        return null;
    }
}

/**
 * The volume of a Mode 1 or Mode 2 track, which may be longer than the track, and its descriptors; null if there is none. It is read with
 * the layout of each mode, because the mode byte of a sector may be what is damaged.
 * @param part the track in it
 * @param first the number that the volume gives the track's first sector
 */
async function volumeIn(image: DiscImage, part: DiscImage, first: number = 0) {
    const reader = sliceOf(image.reader, (part.base - image.base) * SECTOR_SIZE, image.reader.size);
    for (const userIn of [joinedUser, joinedForm1]) {
        const volume = new VolumeReader(reader, part.base, userIn);
        volume.first = first;
        const descriptors = await ifVolume(descriptorsOf(volume));
        if (descriptors !== null) return { volume, descriptors };
    }
    return null;
}

/** The files of a volume; null if it cannot be read. */
function filesIn({ reader, base, userIn }: VolumeReader) {
    return ifVolume(filesOf(reader, base, userIn));
}

/**
 * The blocks that the volume of a track uses; null if it has no volume. A file that ends after the volume is ignored, because some discs
 * list such files as a copy protection.
 */
async function blocksOfVolume({ image, part, later }: Dump): Promise<UsedBlocks | null> {
    const found = await volumeIn(image, part);
    if (found === null) return null;
    const { volume, descriptors } = found;
    const end = part.base + (numberInBoth(descriptors.primary, VOLUME_BLOCKS) || Infinity);
    const { files, own } = await filesIn(volume) || { files: [], own: new Map() };
    const isBelieved = (file: FileEntry) =>
        file.size > 0 && (file.fault === null || READ.includes(file.fault.code)) && endOfExtent(file) <= end;
    return laterRuns([
        { first: part.base, last: part.base + SYSTEM_AREA + descriptors.count - 1, path: '' },
        ...Array.from(own.keys(), block => ({ first: block, last: block, path: '' })),
        ...files.filter(isBelieved).map(file => ({ first: file.block, last: endOfExtent(file) - 1, path: file.path })),
    ], later);
}

/**
 * How many sectors are missing before a track that begins after block 0, although the descriptors in block 16 show that its volume begins
 * there (ECMA-119, 6.2.1); 0 if they do not.
 * @param part the track in it
 */
export async function missingBefore(image: DiscImage, part: DiscImage) {
    if (part.base === 0 || part.base > SYSTEM_AREA || await volumeIn(image, part) !== null) return 0;
    return await volumeIn(image, part, part.base) === null ? 0 : part.base;
}

/**
 * Determines which blocks of a track's volume an image lacks at the end; null if it has all of them, or if the track has no volume.
 * @param part the track in it
 * @param isAlone whether a cue sheet says that the disc has no other track
 */
export async function lackOf(image: DiscImage, part: DiscImage, isAlone: boolean): Promise<Lack | null> {
    const own = await volumeIn(image, part);
    const said = own === null ? null : numberInBoth(own.descriptors.primary, VOLUME_BLOCKS);
    if (own === null || said === null || said <= own.volume.sectors) return null;
    const { volume } = own;
    const found = await filesIn(volume);
    const [first, files] = found === null ? [part.base, []] : [found.first, found.files];
    const [from, most] = [volume.sectors, said].map(count => part.base + count);
    const cut = files.find(it => it.fault?.code === 'extent/cut' && it.block < from && endOfExtent(it) <= most);
    // The number counts the blocks of the volume, or all from the disc's start. The smaller result that still has the cut file is used.
    const isUpTo = said > first && (cut === undefined || endOfExtent(cut) <= most - first);
    const blocks = isUpTo ? said - first : said;
    if (blocks <= volume.sectors) return null;
    const last = part.base + blocks - 1;
    const isLonger = isAlone && blocks - volume.sectors > LONGEST_PAUSE;
    const isSure = last <= LAST_BASE && (cut !== undefined || isLonger);
    return { missing: { first: from, last }, blocks, file: isSure && cut ? cut.path : '', isSure };
}

export type KindRun = Run & { kind: number };
/**
 * The sectors that are neither Mode 1 nor tested Mode 2, and those of them that one byte fills. `mode2` lists all Mode 2 sectors if some
 * were tested; else it is empty.
 */
export type OtherSectors = { others: KindRun[], filled: FilledRun[], mode2: Run[] };
/** The tracks of an image that are Mode 1, Mode 2, and audio according to the cue sheet. Only those of audio include their pregaps. */
export type SheetTracks = { mode1: Run[], mode2: Run[], audio: Run[] };
/** Why blocks count as lost: by their place, in a track of Mode 1 or of Mode 2, or in a file, or by their bytes. */
type LostIn = 'track' | 'mode2' | 'volume' | 'filled';
/**
 * The sectors of an image that are neither Mode 1 nor tested Mode 2: those that are lost, and those that are not tested. `used` lists the
 * blocks that the volume uses, null if they were not read.
 */
export type Lost = { lost: (Run & { why: LostIn })[], untested: KindRun[], used: UsedBlocks | null };

/** How a cue sheet names tracks of raw Mode 1 and of raw Mode 2 sectors. */
const MODE1 = 'MODE1/2352';
const MODE2_TRACKS = ['MODE2/2352', 'CDI/2352'];

/** The number of sectors of the shortest track (ECMA-130 and the Red Book: four seconds). */
const SHORTEST_TRACK = 300;

/** The byte that fills a silence of the constant -1, which audio may have. */
const SILENCE = 0xFF;

/** By the mark of a block, which counts from 1. */
const REASONS: LostIn[] = ['filled', 'volume', 'track', 'mode2'];

/** The sectors of a whole survey that are neither Mode 1 nor tested Mode 2. `mode2` is the settled findings in its Mode 2 sectors. */
export function otherSectors(survey: Survey, filled: FilledRun[], mode2: Uint8Array = new Uint8Array(0)): OtherSectors {
    const others = [...kindRuns(survey)].filter(({ kind }) => kind !== SECTOR_KIND.MODE1);
    const tested = mode2Runs(mode2, survey.block, isTestedMode2);
    const all = tested.length === 0 ? [] : others.filter(({ kind }) => kind === SECTOR_KIND.MODE2);
    return { others: runsWithout(others, tested), filled, mode2: all };
}

/**
 * The tracks of a file according to the cue sheet, as runs of blocks; null without a sheet.
 * @param base the block of the file's first sector
 */
export function sheetTracks({ sheet, tracks }: Disc, file: number, base: number): SheetTracks | null {
    if (sheet === null) return null;
    const own = tracks.filter(it => it.file === file);
    const ofTypes = (types: string[], hasPregap = false) => own.filter(it => types.includes(it.type)).flatMap(track => {
        const before = hasPregap ? track.pregap / SECTOR_SIZE : 0;
        const first = base + Number(track.at) / SECTOR_SIZE - before;
        const count = Number(track.sectors) + before;
        return count === 0 || !Number.isInteger(first) ? [] : [{ first, last: first + count - 1 }];
    });
    return { mode1: ofTypes([MODE1]), mode2: ofTypes(MODE2_TRACKS), audio: ofTypes(['AUDIO'], true) };
}

/**
 * Finds the lost sectors of an image: those that one byte other than 00 fills, which audio never has, and, if there is data, those that the
 * volume uses, and runs between data sectors that are shorter than any track. With a sheet these two rules leave out its audio tracks, in
 * which a constant silence of FF is possible too, and Mode 2 sectors in its Mode 2 tracks. All sectors of other modes in its data tracks
 * count then, except in Mode 1 tracks that are Mode 2 throughout. Throws what the readers of the dumps throw.
 * @param tracks null without a sheet
 * @param dumps of the disc, whose volumes are read
 */
export async function lostSectors({ base, sectors }: { base: number, sectors: number }, { others, filled, mode2 }: OtherSectors,
    tracks: SheetTracks | null, dumps: Dump[]): Promise<Lost> {
    const range = { first: base, last: base + sectors - 1 };
    const notMode2 = others.filter(it => !isMode2(it));
    const runs = joinedRuns(mode2.length > 0 ? notMode2 : others);
    const audio = tracks === null ? [] : joinedRuns(tracks.audio);
    const asInSheet = joinedRuns([...audio, ...tracks === null ? [] : commonRuns(others.filter(isMode2), joinedRuns(tracks.mode2))]);
    const marks = new LostMarks(range);
    const ofOneByte = (isIt: (byte: number) => boolean) => joinedRuns(filled.filter(({ byte }) => isIt(byte)));
    marks.add(ofOneByte(byte => byte !== 0 && byte !== SILENCE), 'filled');
    marks.add(runsWithout(ofOneByte(byte => byte === SILENCE), audio), 'filled');
    const used = runs.length > 0 && !isWithin(range, runs[0]) ? await usedByAll(dumps) : null;
    const hollow = others.filter(({ kind }) => kind === SECTOR_KIND.MODE0 || kind === SECTOR_KIND.OTHER);
    const inUse = used === null ? [] : commonRuns(runs, blocksInUse(used, range, runs, [...filled, ...hollow]));
    marks.add(runsWithout(inUse, asInSheet), 'volume');
    const ends = new Set(mode2.map(({ last }) => last + 1));
    const holes = runs.filter(it => isHole(it, range));
    marks.add(runsWithout(holes.filter(({ first }) => !ends.has(first)), asInSheet), 'track');
    marks.add(runsWithout(holes.filter(({ first }) => ends.has(first)), asInSheet), 'mode2');
    if (tracks !== null) {
        const isOther = (track: Run) => others.some(it => isMode2(it) && isWithin(track, it));
        marks.add(commonRuns(runs, joinedRuns(tracks.mode1.filter(it => !isOther(it)))), 'track');
        marks.add(commonRuns(joinedRuns(notMode2), joinedRuns(tracks.mode2)), 'mode2');
    }
    return { ...byReasons(others, base, marks.reasons), used };
}

function isMode2({ kind }: KindRun) {
    return kind === SECTOR_KIND.MODE2;
}

/** For each sector of an image, why it is lost. */
class LostMarks {
    first; reasons;

    /** @param range of the image */
    constructor({ first, last }: Run) {
        this.first = first;
        /** The place of the reason in REASONS, from 1 on; 0 if the sector is not lost. */
        this.reasons = new Uint8Array(last - first + 1);
    }

    add(runs: Run[], why: LostIn) {
        for (const { first, last } of runs) this.reasons.fill(REASONS.indexOf(why) + 1, first - this.first, last - this.first + 1);
    }
}

/**
 * Whether a run lies inside an image and is shorter than any track.
 * @param range of the image
 */
function isHole({ first, last }: Run, range: Run) {
    return first > range.first && last < range.last && last - first + 1 < SHORTEST_TRACK;
}

function isWithin(run: Run, other: Run) {
    return other.first <= run.first && run.last <= other.last;
}

/** The blocks that the volumes of dumps use; null if no dump has a volume. */
async function usedByAll(dumps: Dump[]) {
    const all = [];
    for (const dump of dumps) all.push(...await blocksOfVolume(dump) || []);
    return all.length > 0 ? all : null;
}

/**
 * The blocks that a volume uses and that have to be Mode 1. A directory may list an audio track as a file. Therefore a file is excluded if
 * it lies within a run that is as long as a track, and at most half of its sectors are hollow.
 * @param range of the image
 * @param runs of sectors that are not Mode 1, each as long as possible
 * @param hollow sectors without audio and without Mode 2 data
 */
function blocksInUse(used: UsedBlocks, range: Run, runs: Run[], hollow: Run[]) {
    const long = runs.filter(({ first, last }) => last - first + 1 >= SHORTEST_TRACK);
    const before = new Uint32Array(range.last - range.first + 2); // how many hollow sectors there are before each
    for (const { first, last } of hollow) before.fill(1, first - range.first + 1, last - range.first + 2);
    for (let i = 1; i < before.length; i++) before[i] += before[i - 1];
    const isTrack = (run: Run) => {
        const count = before[run.last - range.first + 1] - before[run.first - range.first];
        return 2 * count <= run.last - run.first + 1 && isInOne(long, run);
    };
    const there = used.flatMap(({ first, last, path }) => {
        const part = { first: Math.max(first, range.first), last: Math.min(last, range.last) };
        return part.first > part.last || (path !== '' && isTrack(part)) ? [] : [part];
    });
    return joinedRuns(there);
}

/**
 * Whether a run lies within one of several others.
 * @param others in order
 */
function isInOne(others: Run[], run: Run) {
    let [from, to] = [0, others.length];
    while (from < to) {
        const middle = (from + to) >> 1;
        if (others[middle].last < run.first) from = middle + 1;
        else to = middle;
    }
    return from < others.length && isWithin(run, others[from]);
}

/**
 * Splits runs into those that are lost, each for one reason, and those that are not.
 * @param reasons of each sector, 0 if it is not lost
 */
function byReasons(others: KindRun[], base: number, reasons: Uint8Array) {
    const lost: Lost['lost'] = [];
    const untested: KindRun[] = [];
    for (const { first: begin, last: end, kind } of others) {
        for (let first = begin; first <= end;) {
            const reason = reasons[first - base];
            let last = first;
            while (last < end && reasons[last + 1 - base] === reason) last += 1;
            if (reason === 0) untested.push({ first, last, kind });
            else addToRuns(lost, { first, last, why: REASONS[reason - 1] });
            first = last + 1;
        }
    }
    return { lost, untested };
}

/** The path of a file with blocks in a run; '' if there is none. */
export function fileIn(used: UsedBlocks | null, { first, last }: Run) {
    const file = (used || []).find(it => it.path !== '' && it.first <= last && first <= it.last);
    return file ? file.path : '';
}
