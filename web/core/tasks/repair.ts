// Repairs the image of a track with other dumps of the same disc.

import { PieceCutter, type Piece } from '../bytes.js';
import { lostSectors, sheetTracks, type DiscImage, type KindRun, type Lack, type Lost } from '../disc/index.js';
import { SECTOR_KIND, SECTOR_SIZE, sectorCount, type Calls } from '../module/index.js';
import type { Sharer, Sharing } from '../pool/index.js';
import { sliceOf } from '../readers/index.js';
import { linesBetween } from '../script/index.js';
import { addToRuns, blocksIn, commonRuns, joinedRuns, runsWithout, type Gap, type Run } from '../sectors/index.js';
import {
    addressShift, commonPart, endsOfImage, firstBlock, rangesOf, shiftOf, type CommonPart, type Ranges, type Shift,
} from './inform.js';
import { correctedSector, nothingFound, type Found, type Merged } from './merge.js';
import { trackBeside, type Engine, type OpenedTrack } from './opened.js';
import { tailsDiffer } from './scripts.js';

// Corrects one sector from its own parity, by lines of a script.

/** A sector, before and after it, and the lines that do it; none for a sync field, which no line of a script writes. */
export type Correction = { old: Uint8Array, fresh: Uint8Array, lines: string[] };

/**
 * The correction of a damaged or lost sector from its own codes, which the EDC that was read confirms. Null if there is none. The lines
 * were applied to the sector before they are returned, so they make the bytes that a repair with `parity` makes.
 */
export function correctionOf(calls: Calls, block: number, old: Uint8Array): Correction | null {
    const fresh = correctedSector(calls, old);
    if (fresh === null) return null;
    if (calls.kind(old) !== SECTOR_KIND.MODE1) return { old, fresh, lines: [] };
    const { text } = linesBetween(calls, { blocks: [block], old, fresh });
    return { old, fresh, lines: new TextDecoder().decode(text).trimEnd().split('\n') };
}

type LostRun = Lost['lost'][0];
/** `parity`: whether sectors are also corrected by their own codes. */
type RepairOptions = Sharing & { parity?: boolean };
/**
 * The reason why a repair is refused. `untested`: the image has no sector with codes, so that nothing shows damage. The others have the
 * index of a dump. `apart`: it has no block in common with the image, and `first` lists the first blocks of both. `different`: more than a
 * hundredth of the `common` blocks are different: `sound` blocks are sound in both, and `untested` ones were not tested in the image.
 * `shift` is the shift that the addresses show, or null.
 */
export type Refusal = { why: 'untested' } | { why: 'apart', other: number, first: number[] }
    | { why: 'different', other: number, common: number, sound: number, untested: number, shift: Shift | null };
/**
 * The findings of a repair. If it is `refused`, the repaired image must be discarded. Sectors that are neither Mode 1 nor tested Mode 2 in
 * any dump are `lost` or `untested`, and the `unlike` ones among the latter are different in some dump. For each other dump, `different` is
 * the number of the sectors in `differing`, `ranges` lists its blocks, and `tails` tells whether the bytes after the last sector differ, if
 * that is the same sector. A repair does not change which blocks of the volume the image lacks at the start (`before`) and at the end
 * (`lack`), nor its `tail`.
 */
export type Repair = Omit<Found, 'others' | 'filled' | 'unsound' | 'unclear' | 'sound'
    | 'unlike'> & { refused: Refusal | null, sectors: number, different: number[], lost: LostRun[], untested: KindRun[], unlike: KindRun[],
    ranges: Ranges[], tails: boolean[], before: Gap[], lack: Lack | null, tail: number };

/** A dump is refused if more than one in this many sectors is sound or untested in the image, and different in the dump. */
const MOST_DIFFERENT = 100;

/** The findings that are runs of blocks copied from one other image. */
const COPIED = ['taken', 'doubtful', 'unread'] as const;

/** The findings that are runs of blocks of the image alone. */
const RUNS = ['corrected', 'damaged', 'unsound', 'alike', 'disputed', 'wrongAddress', 'others', 'filled', 'unlike',
    'unclear', 'mode2'] as const;

/**
 * Repairs the image of a track with other dumps, in the blocks that both have. A damaged or lost sector is copied whole from a dump in
 * which it is sound and has the address of its block. With `parity`, a damaged Mode 1 sector is first corrected by its own P and Q, and a
 * lost one gets back its sync field, if the EDC that it has confirms the result. The tail is not changed. The pieces of the repaired image
 * are passed to `take` at once, before it is known whether the repair is refused. Throws what the readers throw, and a Fault, `cancelled`.
 */
export async function repairTrack({ calls, pool }: Engine, opened: OpenedTrack, dumps: OpenedTrack[], take: (piece: Piece) => void
    | Promise<void>, options: RepairOptions = {}): Promise<Repair> {
    const { image } = opened;
    const tracks = dumps.map(dump => trackBeside(opened, dump));
    const others = tracks.map(track => track.image);
    const parts = others.map(other => commonPart(image, other));
    const isApart = parts.some(({ from, to }) => from === to);
    const all = isApart ? nothingFound(others.length) : await mergeImages(pool, image, others, parts, take, options);
    const { others: notTested, filled, ...found } = settled(all);
    const refused = await refusalOf(calls, image, others, parts, all);
    const ranges = others.map(other => rangesOf(image, other));
    const shared = { ...found, ...await endsOfImage(opened), refused, sectors: sectorCount(image.reader.size),
        different: found.differing.map(blocksIn), ranges };
    if (refused !== null) return { ...shared, unlike: [], lost: [], untested: [], tails: others.map(() => false) };
    const dumpsOfAll = [{ ...opened, later: 0 }, ...tracks.map((track, i) =>
        ({ ...track, later: parts[i].later + image.base - track.image.base }))];
    const tracksOfSheet = sheetTracks(opened.disc, opened.track.file, image.base);
    const other = { others: notTested, filled, mode2: found.mode2 };
    const { lost, untested } = await lostSectors(image, other, tracksOfSheet, dumpsOfAll);
    const unlike = commonRuns(untested, joinedRuns(found.unlike));
    return { ...shared, unlike, lost, untested, tails: await tailsOf(image, others, parts) };
}

/**
 * The findings after all ranges. If an image has a sound Mode 2 sector, the unsound ones are damaged. Otherwise nothing shows that the Mode
 * 2 sectors have codes, and they were not tested.
 */
function settled({ unsound, unclear, sound, ...found }: Found) {
    if (sound === 0) {
        const alike = commonRuns(found.alike, joinedRuns(found.damaged));
        return { ...found, mode2: [], alike, unlike: joinedRuns([...found.unlike, ...unclear]) };
    }
    const damaged = [...found.damaged, ...unsound].sort((a, b) => a.first - b.first);
    return { ...found, damaged, others: runsWithout(found.others, joinedRuns(unsound)) };
}

/** @param parts of the image that each dump has */
async function mergeImages(pool: Sharer, old: DiscImage, others: DiscImage[], parts: CommonPart[], take: (piece: Piece) => void
    | Promise<void>, { parity = false, ...how }: RepairOptions) {
    const found = nothingFound(others.length);
    const sectors = sectorCount(old.reader.size);
    const pieces = new PieceCutter(take);
    const shift = addressShift(old);
    const stops = [...new Set([0, ...parts.flatMap(({ from, to }) => [from, to]), sectors])].sort((a, b) => a - b);
    for (const [i, from] of stops.slice(0, -1).entries()) {
        const present = others.map((_, other) => other).filter(other => parts[other].from <= from && from < parts[other].to);
        const progress = how.progress && ((done: number) => how.progress?.(from + done, sectors));
        const readers = [partReader(old, from, stops[i + 1], 0),
            ...present.map(other => partReader(others[other], from, stops[i + 1], parts[other].later))];
        await pool.share('merge', readers, { shift, parity }, { ...how, progress, base: old.base + from }, async answer => {
            addAnswer(found, answer, present);
            await cutAnswer(pieces, answer, old.base);
        });
    }
    await pieces.keep(old.reader.size);
    return found;
}

/** The reason to refuse a repair, or null. Of the dumps that are too different, it names the one that differs most. */
async function refusalOf(calls: Calls, image: DiscImage, others: DiscImage[], parts: CommonPart[],
    { tested, differing, differingUntested }: Found): Promise<Refusal | null> {
    const apart = parts.findIndex(({ from, to }) => from === to);
    if (apart >= 0) return { why: 'apart', other: apart, first: [image, others[apart]].map(firstBlock) };
    if (tested === 0) return { why: 'untested' };
    const counts = parts.map(({ from, to }, other) => {
        const [sound, untested] = [differing, differingUntested].map(runs => blocksIn(runs[other]));
        return { other, common: to - from, sound, untested };
    });
    const [most] = counts.filter(it => (it.sound + it.untested) * MOST_DIFFERENT > it.common)
        .sort((a, b) => b.sound + b.untested - a.sound - a.untested);
    if (most === undefined) return null;
    const runs = [differing, differingUntested].flatMap(all => all[most.other]);
    return { why: 'different', ...most, shift: await shiftOf(calls, image, others[most.other], joinedRuns(runs)) };
}

/** For each other image, whether the bytes after the last sector differ, if that is the same sector. */
async function tailsOf(image: DiscImage, others: DiscImage[], parts: CommonPart[]) {
    const tails = [];
    for (const [i, other] of others.entries()) {
        tails.push(parts[i].later + other.sectors === image.sectors && await tailsDiffer(image.reader, other.reader));
    }
    return tails;
}

/** @param later how many sectors later it begins than the image in which `from` and `to` count */
function partReader({ reader }: DiscImage, from: number, to: number, later: number) {
    return sliceOf(reader, (from - later) * SECTOR_SIZE, (to - later) * SECTOR_SIZE);
}

/** @param present the indices of the other images that have the range */
function addAnswer(found: Found, answer: Merged, present: number[]) {
    for (const name of COPIED) for (const run of answer[name]) addToRuns(found[name], { ...run, other: present[run.other] });
    for (const name of RUNS) for (const run of answer[name]) addToRuns(found[name] as Run[], run);
    found.tested += answer.tested;
    found.sound += answer.sound;
    present.forEach((other, i) => {
        found.same[other] += answer.same[i];
        for (const run of answer.differing[i]) addToRuns(found.differing[other], run);
        for (const run of answer.differingUntested[i]) addToRuns(found.differingUntested[other], run);
    });
}

async function cutAnswer(pieces: PieceCutter, { taken, corrected, sectors, end }: Merged, base: number) {
    let done = 0;
    for (const { first, last } of [...taken, ...corrected].sort((a, b) => a.first - b.first)) {
        const size = (last - first + 1) * SECTOR_SIZE;
        await pieces.put((first - base) * SECTOR_SIZE, sectors.subarray(done, done + size));
        done += size;
    }
    await pieces.keep((end - base) * SECTOR_SIZE);
}
