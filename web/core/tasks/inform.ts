// Determines which tracks of a disc are surveyed, and the findings of each survey.

import { joinedBytes, readBytes } from '../bytes.js';
import {
    imageAround, lackOf, lostSectors, missingBefore, otherSectors, sheetTracks, type Disc, type DiscImage, type Lack, type Lost,
    type SheetTracks,
} from '../disc/index.js';
import { LAST_BASE, RECORD_SIZE, SECTOR_SIZE, sectorCount, type Calls } from '../module/index.js';
import { sliceOf } from '../readers/index.js';
import {
    addToRuns, addressIn, blockAt, blocksIn, commonRuns, gapsIn, isTestedMode2, joinedRuns, laterRuns, mode2Counts, mode2Runs, settledMode2,
    surveyCounts, type FilledRun, type Gap, type RangeSurvey, type Run, type Survey,
} from '../sectors/index.js';
import type { OpenedTrack } from './opened.js';

// Determines which part of a disc two images have in common, and whether one of them is shifted.

/** The sectors of an image that another image also has, from `from` up to `to`, and how many sectors later the other image begins. */
export type CommonPart = { from: number, to: number, later: number };

/** The blocks that two images both have, that only the first one has, and that only the other one has. */
export type Ranges = { common: Run[], missing: Run[], beyond: Run[] };
/**
 * By how many blocks an image is shifted, below 0 if it has extra sectors; from which block on; and whether it is the second of two images
 * (`isOther`).
 */
export type Shift = { by: number, first: number, isOther: boolean };

/** The most sectors that are sampled to find out whether an image is shifted. */
const MOST_SHIFTS_READ = 64;

/** The block of an image's first sector according to its addresses, or else its base. It may be below 0. */
export function firstBlock({ addressed, base }: DiscImage) {
    return addressed === null ? base : addressed;
}

/**
 * How many blocks later the sectors of an image are by their addresses. It is below 0 for an image that begins before block 0, whose blocks
 * nevertheless count from 0.
 */
export function addressShift({ base, addressed }: DiscImage) {
    return addressed !== null && addressed < 0 ? addressed - base : 0;
}

/** The sectors of an image that another image also has, which are those of the same blocks. */
export function commonPart(old: DiscImage, other: DiscImage): CommonPart {
    const later = firstBlock(other) - firstBlock(old);
    const from = Math.max(later, 0);
    return { from, to: Math.max(from, Math.min(later + other.sectors, old.sectors)), later };
}

/** The blocks of two images, as the first one counts them. */
export function rangesOf(old: DiscImage, other: DiscImage): Ranges {
    const { base, sectors } = old;
    const { from, to, later } = commonPart(old, other);
    const run = (begin: number, end: number) =>
        begin < end ? [{ first: base + begin, last: base + end - 1 }] : [];
    return {
        common: run(from, to),
        missing: [...run(0, from), ...run(to, sectors)],
        beyond: [...run(later, Math.min(0, later + other.sectors)), ...run(Math.max(sectors, later), later + other.sectors)],
    };
}

/** Whether two images have the same blocks and the same size. */
export function isSameRange(old: DiscImage, other: DiscImage) {
    return old.reader.size === other.reader.size && firstBlock(old) === firstBlock(other);
}

/**
 * Determines which of two images is shifted, from the addresses of sampled sound sectors that differ. Null if these do not show a shift.
 */
export async function shiftOf(calls: Calls, old: DiscImage, other: DiscImage, differing: Run[]): Promise<Shift | null> {
    const blocks = someBlocks(differing);
    for (const image of [other, old]) {
        const shift = await shiftIn(calls, image, blocks, firstBlock(old) - old.base);
        if (shift !== null) return { ...shift, isOther: image === other };
    }
    return null;
}

/**
 * By how many blocks the addresses of most sampled sectors are later than the image's first block implies, and the first of their blocks.
 * @param before is added to a block to get its number on the disc: it is below 0 if the image begins before block 0
 */
async function shiftIn(calls: Calls, image: DiscImage, blocks: number[], before: number): Promise<Omit<Shift, 'isOther'> | null> {
    const shiftAt = async (block: number) => {
        const sector = await readBytes(image.reader, (block + before - firstBlock(image)) * SECTOR_SIZE, SECTOR_SIZE);
        return (blockAt(calls, addressIn(sector, 0)) ?? NaN) - block - before;
    };
    const shifts: number[] = [];
    for (const block of blocks) shifts.push(await shiftAt(block));
    const by = shifts.find(it => it !== 0 && 2 * shifts.filter(other => other === it).length > blocks.length);
    if (by === undefined) return null;
    let [low, first] = [shifts.indexOf(by) - 1, shifts.indexOf(by)].map(i => blocks[Math.max(i, 0)]);
    while (first - low > 1) {
        const middle = (low + first) >> 1;
        if (await shiftAt(middle) === by) first = middle;
        else low = middle;
    }
    return { by, first };
}

/** Samples blocks of runs: the first one, and others at equal distances. */
function someBlocks(runs: Run[]) {
    const step = Math.ceil(blocksIn(runs) / MOST_SHIFTS_READ);
    const blocks = [];
    let next = 0;
    for (const { first, last } of runs) {
        for (; next <= last - first; next += step) blocks.push(first + next);
        next -= last - first + 1;
    }
    return blocks;
}

export type Opened = Pick<OpenedTrack, 'disc' | 'track' | 'image' | 'part'>;
/**
 * A track that is surveyed, as the `part` of an `image`, whose sectors are `shift` blocks later by their addresses. The image is a file, or
 * a part of one, and `before` is how many sectors of the file precede it. `isAlone` means that the disc has no other track according to the
 * cue sheet. `sheetTracks` lists the tracks of the file according to the cue sheet, null without a sheet. `isAudio`: nothing but the survey
 * can show that there is data.
 */
export type SurveyedTrack = { number: number, file: number, image: DiscImage, part: DiscImage, shift: number, before: number,
    isAlone: boolean, sheetTracks: SheetTracks | null, isAudio: boolean };
/**
 * The findings of an image: the counts of its Mode 1 and Mode 2 sectors, and the settled findings in the latter (`mode2Found`); how many of
 * them are `unproven`, because no code matches, so that the codes show nothing; how many sectors of both are `wrong`; the sectors that are
 * lost or not tested, and the bytes that fill all lost ones (`fillers`); the blocks of its volume that it lacks; and the places before
 * which sectors are missing or extra.
 */
export type Found = ReturnType<typeof surveyCounts> & { survey: Survey, mode2: ReturnType<typeof mode2Counts>, mode2Found: Uint8Array,
    unproven: number, fillers: number[], lack: Lack | null, gaps: Gap[] } & Lost;

/** The data tracks that are not surveyed, because their sectors have a different size. */
export function unsurveyedTracks({ tracks }: Disc) {
    return tracks.filter(({ type, image }) => image === null && !['', 'AUDIO', 'CDG'].includes(type));
}

function hasOneTrack({ sheet, tracks }: Disc) {
    return sheet !== null && tracks.length === 1;
}

/** A track that is surveyed with the whole image in which it lies. */
function surveyedTrack({ disc, track: { number, file }, image, part }: Opened): SurveyedTrack {
    const tracks = sheetTracks(disc, file, image.base);
    const whole = { before: 0, isAlone: hasOneTrack(disc), isAudio: false, sheetTracks: tracks };
    return { number, file, image, part, shift: addressShift(image), ...whole };
}

/**
 * The tracks that are surveyed of the file in which an opened track lies. A base that was set by hand is used for the whole file, despite
 * its addresses.
 */
export function surveyedWith(opened: OpenedTrack) {
    const all = opened.byAddresses === opened ? surveyedInFile(opened.disc, opened.track.file) : [];
    return all.length > 1 ? all : [surveyedTrack(opened)];
}

/**
 * The tracks of a disc that are surveyed, each with the image in which it lies. Together these images are all sectors of their files: one
 * for each file, or, if the addresses of several data tracks in a file imply different bases, one for each of these tracks, with its pregap
 * and with the audio up to the next one.
 */
export function surveyedTracks(disc: Disc) {
    return disc.files.flatMap((_, file) => surveyedInFile(disc, file));
}

function surveyedInFile(disc: Disc, file: number): SurveyedTrack[] {
    const data = disc.tracks.filter(it => it.file === file).flatMap(track => {
        const { image, part } = track;
        return image === null || part === null ? [] : [{ disc, track, image, part }];
    });
    if (data.length === 0) return surveyedAudio(disc, file);
    if (data.every(it => it.image.base === data[0].image.base)) return [surveyedTrack(data[0])];
    const begin = ({ track: { at, pregap } }: Opened) => Number(at) - pregap;
    data.sort((a, b) => begin(a) - begin(b)); // a sheet may name a file twice
    const starts = data.map((it, i) => i === 0 ? 0 : begin(it));
    return data.map(({ track: { number, at }, image, part }, i) => {
        const reader = sliceOf(image.reader, starts[i], i + 1 < starts.length ? starts[i + 1] : image.reader.size);
        const around = imageAround(part, reader, (Number(at) - starts[i]) / SECTOR_SIZE);
        const before = starts[i] / SECTOR_SIZE;
        const places = { before, isAlone: false, isAudio: false, sheetTracks: sheetTracks(disc, file, around.base - before) };
        return { number, file, image: around, part, shift: addressShift(around), ...places };
    });
}

/** The sectors of a file that has only audio according to its samples or the cue sheet; none if their places in it are not known. */
function surveyedAudio(disc: Disc, file: number): SurveyedTrack[] {
    const own = disc.tracks.filter(it => it.file === file);
    if (own.some(({ type, at }) => at === null || !['', 'AUDIO'].includes(type))) return [];
    const [{ name, reader }, [{ number, block, pregap }]] = [disc.files[file], own];
    const base = Math.max(Number(block) - pregap / SECTOR_SIZE, 0);
    const image = { name, reader, base: base > LAST_BASE ? 0 : base, addressed: null, sectors: sectorCount(reader.size), tail: 0 };
    const places = { before: 0, isAlone: false, isAudio: true, sheetTracks: sheetTracks(disc, file, image.base) };
    return image.sectors === 0 ? [] : [{ number, file, image, part: image, shift: 0, ...places }];
}

/** A track that was taken for audio, with the base that the addresses of most of its data show; null if it has no data elsewhere. */
export function trackWithData(track: SurveyedTrack, { moved }: RangeSurvey): SurveyedTrack | null {
    if (!track.isAudio || moved.length === 0) return null;
    const { by } = moved.reduce((most, run) => run.last - run.first > most.last - most.first ? run : most);
    const addressed = track.image.base + by;
    const image = { ...track.image, base: Math.max(addressed, 0), addressed };
    const later = image.base - track.image.base;
    const { sheetTracks: own } = track;
    const tracks = own && { mode1: laterRuns(own.mode1, later), mode2: laterRuns(own.mode2, later), audio: laterRuns(own.audio, later) };
    return { ...track, image, part: image, shift: addressShift(image), sheetTracks: tracks };
}

/** Collects the surveys of the ranges of an image, which are added in order. */
export class CollectedSurvey {
    records: Uint8Array[] = [];
    mode2: Uint8Array[] = [];
    filled: RangeSurvey['filled'] = [];
    moved: RangeSurvey['moved'] = [];

    /** @param block of the first sector */
    constructor(readonly block: number) {}

    add({ records, mode2, filled, moved }: RangeSurvey) {
        this.records.push(records);
        this.mode2.push(mode2);
        filled.forEach(run => addToRuns(this.filled, run));
        moved.forEach(run => addToRuns(this.moved, run));
    }

    whole(): RangeSurvey {
        const [records, mode2] = [this.records, this.mode2].map(parts => joinedBytes(parts));
        return { block: this.block, records, mode2, filled: this.filled, moved: this.moved };
    }
}

/**
 * The findings of the survey of a track's image. Throws what its reader throws.
 * @param survey of the whole image
 */
export async function foundInSurvey({ image, part, isAlone, sheetTracks: tracks }: SurveyedTrack,
    { filled, moved, mode2, ...survey }: RangeSurvey): Promise<Found> {
    const lack = await lackOf(image, part, isAlone);
    const mode2Found = settledMode2(mode2);
    const lost = await lostSectors(image, otherSectors(survey, filled, mode2Found), tracks, [{ image, part, later: 0 }]);
    const counts = surveyCounts(survey);
    const ofMode2 = mode2Counts(survey.records, mode2Found);
    const unproven = ofMode2.tested > 0 ? [] : commonRuns(lost.untested, mode2Runs(mode2, survey.block, isTestedMode2));
    return { survey, ...counts, wrong: counts.wrong + ofMode2.wrong, mode2: ofMode2, mode2Found, unproven: blocksIn(unproven), ...lost,
        fillers: bytesOfLost(lost.lost, filled), lack, gaps: await gapsOf(image, part, gapsIn({ ...survey, moved }, mode2Found)) };
}

/** Whether a volume continues after the end of its image because sectors are missing earlier: the image lacks no more than these. */
export function endsEarlyByGaps({ missing }: Lack, gaps: Gap[]) {
    return blocksIn([missing]) <= gaps.reduce((sum, { by, isAtStart }) => isAtStart ? sum : sum + by, 0);
}

/** The gap before a track that lacks the first sectors of its volume, an empty run; or none. */
async function gapBefore(image: DiscImage, part: DiscImage): Promise<Gap[]> {
    const by = await missingBefore(image, part);
    return by === 0 ? [] : [{ first: part.base, last: part.base - 1, by, isAtStart: false }];
}

/**
 * All gaps of a track. Sectors at its start with earlier addresses, after which the first sectors of the volume are missing, are one gap.
 * @param found in the survey
 */
async function gapsOf(image: DiscImage, part: DiscImage, found: Gap[]) {
    return found.some(({ isAtStart, by }) => isAtStart && by < 0) ? found : [...await gapBefore(image, part), ...found];
}

/**
 * The blocks of its volume that the image of a track lacks: before its first sector (`before`), and at the end, null if none; and the
 * number of bytes after the file's last whole sector. Throws what the reader throws.
 */
export async function endsOfImage({ disc, track: { file }, image, part }: OpenedTrack) {
    return { before: await gapBefore(image, part), lack: await lackOf(image, part, hasOneTrack(disc)), tail: tailOf(disc, file) };
}

/** How many blocks later the sectors of a track are by their addresses, if its file counts them from block `base` on. */
export function shiftInFile({ image, before, shift }: SurveyedTrack, base: number) {
    return shift + image.base - base - before;
}

/**
 * How many blocks later a sector of a file is by its address, if it belongs to one of its tracks.
 * @param base of the file
 */
export function shiftAt(tracks: SurveyedTrack[], base: number, block: number) {
    const own = tracks.find(({ before, image }) => block < base + before + image.sectors);
    return own === undefined ? 0 : shiftInFile(own, base);
}

/**
 * The findings in the tracks of a file. Their blocks are those of the file's survey, for which the sectors of each track were surveyed with
 * `shiftInFile`. Throws what the readers throw.
 * @param survey of the whole file
 */
export function foundInFile(tracks: SurveyedTrack[], { block, records, mode2, filled, moved }: RangeSurvey): Promise<Found[]> {
    return Promise.all(tracks.map(async track => {
        const { before, image: { base, sectors } } = track;
        const [from, end] = [before, before + sectors];
        const later = base - block - before;
        const own = [{ first: block + from, last: block + end - 1 }];
        const found = await foundInSurvey(track, {
            block: base, records: records.subarray(from * RECORD_SIZE, end * RECORD_SIZE), mode2: mode2.subarray(from, end),
            filled: laterRuns(commonRuns(filled, own), later), moved: laterRuns(commonRuns(moved, own), later),
        });
        return laterFound(found, -later);
    }));
}

/** Findings whose blocks are `later`. */
function laterFound(found: Found, later: number): Found {
    const { survey, lost, untested, used, lack, gaps } = found;
    const moves = (((runs => laterRuns(runs, later)) as <R extends Run>(runs: R[]) => R[]));
    return { ...found, survey: { ...survey, block: survey.block + later }, lost: moves(lost), untested: moves(untested),
        used: used && moves(used), lack: lack && { ...lack, missing: moves([lack.missing])[0] }, gaps: moves(gaps) };
}

/** The bytes that fill lost sectors; none unless each of these is filled with one byte. */
function bytesOfLost(lost: Run[], filled: FilledRun[]) {
    const own = commonRuns(filled, joinedRuns(lost));
    return blocksIn(own) === blocksIn(lost) ? [...new Set(own.map(({ byte }) => byte))] : [];
}

/** The number of bytes after the last whole sector of a file; 0 unless all of its sectors have 2352 bytes. */
export function tailOf({ files, tracks }: Disc, file: number) {
    const isOfSectors = tracks.every(it => it.file !== file || (it.sectors !== null && /^(AUDIO)?$|\/2352$/.test(it.type)));
    return isOfSectors ? files[file].reader.size % SECTOR_SIZE : 0;
}
