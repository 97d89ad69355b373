// Selects the sectors of other dumps that repair a range of an image.

import { joinedBytes, sameBytes } from '../bytes.js';
import type { OtherSectors } from '../disc/index.js';
import { FIT, RECORD, RECORD_SIZE, SECTOR_KIND, SECTOR_SIZE, sectorCount, type Calls } from '../module/index.js';
import {
    FIELDS, addToRuns, addressIn, addressOf, asWords, differingSectors, edcOfMode2, isFilled, isSound, isSoundMode2, isTestedMode2, runOf,
    sectorOf, sectorsAt, testMode2, type Run,
} from '../sectors/index.js';

// Decides one sector by its copies in other images: whether it is replaced, and by which of them. The module chooses among copies of
// Mode 1, by a proved call. The rules of Mode 2 are here.

/**
 * What the codes of a sector show. LOST: the sector is neither Mode 1 nor Mode 2, for example because its sync field or its mode byte was
 * lost. UNTESTED: it is Mode 2 without a code that can show damage.
 */
export const STATE = Object.freeze({ LOST: 0, DAMAGED: 1, UNTESTED: 2, SOUND: 3 });

/** A sector of an image; `isHome`: it has the address of its block. */
type SectorCopy = { bytes: Uint8Array, state: number, isHome: boolean };
/**
 * The copy that replaces a sector. `isDisputed`: other copies would replace it too, but are different. `isDoubtful`: nothing in the sector
 * confirms the copy, since neither its data nor its EDC is that of the copy, as in an empty or lost sector.
 */
type Replacement<C extends SectorCopy> = { copy: C, isDisputed: boolean, isDoubtful: boolean };

/** The place of the mode byte, the size of the EDC, and where the EDC of Form 2 begins. */
const MODE_OFFSET = 15;
const EDC_SIZE = 4;
const END_OF_CONTENTS = 2348;

/**
 * Selects the copy that replaces a sector: of the sound ones with the address of the block, the first of those that fit best. Null if the
 * sector is kept.
 * @param address of the block, null if it has none
 */
function replacementOf<C extends SectorCopy>(calls: Calls, address: Uint8Array | null, own: SectorCopy,
    copies: C[]): Replacement<C> | null {
    const possible = copies.filter(copy => copy.state === STATE.SOUND && copy.isHome && canReplace(own, copy));
    if (address === null || possible.length === 0) return null; // as for nearly all sectors
    const fitting = fittingCopies(calls, address, own, possible);
    if (fitting.length === 0) return null;
    const { copy, fit } = fitting.reduce((best, it) => it.fit > best.fit ? it : best);
    const isDisputed = possible.some(({ bytes }) => !sameBytes(copy.bytes, bytes));
    return { copy, isDisputed, isDoubtful: fit === FIT.NEITHER };
}

/**
 * Whether a sound copy with the right address may replace a sector. A damaged or lost sector is replaced by any such copy. A sound one only
 * gets its address from a copy with the same contents, as is possible in Mode 2, whose codes do not include the header. One that was not
 * tested is kept, unless it is 00 from its subheader on, as a lost sector may be.
 */
function canReplace(own: SectorCopy, copy: SectorCopy) {
    if (own.state === STATE.SOUND) return !own.isHome && hasSameContents(own, copy);
    return own.state !== STATE.UNTESTED || isFilledAfterHeader(own.bytes);
}

/**
 * Whether two sectors have the same contents, which are the bytes after the header, except the EDC of Form 2, which may be missing. Every
 * other code lies before that EDC, or follows from the contents.
 */
function hasSameContents(own: SectorCopy, copy: SectorCopy) {
    return hasSame(own.bytes, copy.bytes, FIELDS.user, END_OF_CONTENTS);
}

/**
 * The copies that may be the best one, with how well they fit: those of Mode 2, and of those of Mode 1 the one that the module chooses.
 * @param copies sound ones with this address
 */
function fittingCopies<C extends SectorCopy>(calls: Calls, address: Uint8Array, own: SectorCopy, copies: C[]) {
    const mode1 = copies.filter(({ bytes }) => !isOfMode2(bytes));
    const choice = mode1.length > 0 ? calls.mergeSector(address, own.bytes, mode1.map(({ bytes }) => bytes)) : null;
    const chosen = choice && mode1[choice.place];
    return copies.flatMap(copy => {
        if (isOfMode2(copy.bytes)) return [{ copy, fit: fitOfMode2(own.bytes, copy.bytes) }];
        return choice && copy === chosen ? [{ copy, fit: choice.fit }] : [];
    });
}

/** @param sector a sound one */
function isOfMode2(sector: Uint8Array) {
    return sector[MODE_OFFSET] === 2;
}

/** The FIT of a sound Mode 2 sector. Its EDC follows the subheader and the data. */
function fitOfMode2(sector: Uint8Array, copy: Uint8Array) {
    const edc = edcOfMode2(copy);
    if (hasSame(sector, copy, edc, edc + EDC_SIZE)) return FIT.EDC;
    return hasSame(sector, copy, FIELDS.user, edc) ? FIT.DATA : FIT.NEITHER;
}

/** Whether a sector consists of one repeated byte after its header. A Mode 2 sector that was not tested then consists of 00. */
function isFilledAfterHeader(sector: Uint8Array) {
    return sector.subarray(FIELDS.user).every(byte => byte === sector[FIELDS.user]);
}

function hasSame(a: Uint8Array, b: Uint8Array, from: number, end: number) {
    return sameBytes(a.subarray(from, end), b.subarray(from, end));
}

/** Blocks of another image. */
type RunOf = Run & { other: number };
/**
 * How many blocks later the sectors are by their addresses, and whether a sector is first corrected by its own codes, if these confirm it.
 */
export type MergeArgs = { shift: number, parity: boolean };
/** `elsewhere` if an image has a sound sector with the address of a different block. */
type DamagedRun = Run & { elsewhere: boolean };
/**
 * The findings of a repair, as runs of blocks. `taken`: blocks copied from one other image for each run. `doubtful`: those of them whose
 * copy nothing in the replaced sector confirms. `unread`: those of the doubtful blocks that one byte fills, which could confirm no copy.
 * `corrected`: blocks that their own codes corrected. `damaged`: blocks that nothing repaired. `alike`: those of them with the same bytes
 * in all images that have the block. `disputed`: taken blocks in which other images are also sound, but different. `wrongAddress`: sound
 * blocks that keep the address of a different block. `others`: blocks that were not repaired, are neither sound nor Mode 1 in any image,
 * and are not tested Mode 2, with their kinds in the repaired image. `filled`: those of them that one byte fills there. `unlike`: those of
 * them that are different in some image. For each other image, `same` is the number of blocks with the same bytes, `differing` lists the
 * blocks in which both are sound, but different, and `differingUntested` the Mode 2 blocks that were not tested in the repaired image, and
 * are different in the other one, where they are not damaged. `mode2`: blocks that are Mode 2 after the repair. `tested`: how many blocks
 * of the repaired image have codes, which are those of Mode 1 and of sound Mode 2. `sound`: how many blocks are sound Mode 2 in any image.
 * If there are any, then `unsound`, some of `others`, are damaged. If there are none, no Mode 2 sector was tested, and `unclear`, some of
 * `others`, are also `unlike`.
 */
type FoundRuns = { taken: RunOf[], corrected: Run[], doubtful: RunOf[], unread: RunOf[], damaged: DamagedRun[], alike: Run[],
    disputed: Run[], wrongAddress: Run[], unlike: Run[], unsound: DamagedRun[], unclear: Run[] } & OtherSectors;
export type Found = FoundRuns & { differing: Run[][], differingUntested: Run[][], same: number[], tested: number, sound: number };
/** With the copied and corrected sectors, and the block after the range. */
export type Merged = Found & { sectors: Uint8Array, end: number };
/** The records of sectors, and the findings in those of Mode 2. */
type Tested = { records: Uint8Array, mode2: Uint8Array };
/** A sector of one of the images, and its SECTOR_KIND. */
export type Copy = SectorCopy & { image: number, kind: number };

/**
 * Selects the sectors of other images that repair a range of sectors. A job for a worker.
 * @param pieces the range of the image, and of each other image
 */
export function mergeRange(calls: Calls, pieces: Uint8Array[], first: number, args: MergeArgs): Merged {
    const range = new RangeMerge(calls, pieces, first, args);
    const count = sectorCount(pieces[0].length);
    for (let i = 0; i < count; i++) range.merge(i);
    return { ...range.found, sectors: joinedBytes(range.sectors), end: first + count };
}

/** A range of an image and of other images, and what was found in the sectors so far. */
class RangeMerge {
    /** The sectors that were copied or corrected. */
    sectors: Uint8Array[] = [];
    words; tested; unlike; found;

    constructor(readonly calls: Calls, readonly images: Uint8Array[], readonly first: number, readonly args: MergeArgs) {
        const [old, ...others] = images;
        const count = sectorCount(old.length);
        const places = others.map(other => differingSectors(old, other));
        this.words = asWords(old);
        this.tested = [testedSectors(calls, old), ...others.map((other, i) => testedAt(calls, other, places[i]))];
        this.unlike = new Uint8Array(count); // 1 where some image has different bytes
        places.forEach(some => some.forEach(i => { this.unlike[i] = 1; }));
        this.found = { ...nothingFound(others.length), same: places.map(({ length }) => count - length) };
    }

    /** @param i the index of a sector in the range */
    merge(i: number) {
        const { found } = this;
        const block = this.first + i;
        const address = addressOf(this.calls, block + this.args.shift);
        if (this.isSettled(i, address)) {
            found.tested += 1;
            return;
        }
        const copies = this.images.map((_, image) => this.copyIn(image, i, address));
        const [own, ...others] = copies;
        const isSoundIn = ({ state }: Copy) => state === STATE.SOUND;
        found.tested += Number(own.kind === SECTOR_KIND.MODE1 || isSoundIn(own));
        found.sound += Number(copies.some(it => it.kind === SECTOR_KIND.MODE2 && isSoundIn(it)));
        if (this.correct(block, own)) {
            this.noteAddress(block, address, own);
            return;
        }
        const replacement = replacementOf(this.calls, address, own, others);
        const { kind } = replacement === null ? own : replacement.copy;
        if (kind === SECTOR_KIND.MODE2) addToRuns(found.mode2, runOf(block));
        if (replacement !== null) this.take(block, own, replacement);
        else if (own.state === STATE.UNTESTED) this.keepUntested(block, own, others);
        else if (!isSoundIn(own)) this.leave(i, copies);
        else {
            this.noteAddress(block, address, own);
            const differing = others.filter(it => isSoundIn(it) && !hasSameContents(own, it));
            for (const { image } of differing) addToRuns(found.differing[image - 1], runOf(block));
        }
    }

    /**
     * Whether a sector is sound Mode 1 with the address of its block, and has the same bytes in all images. Nearly all sectors are, so that
     * this decides the time of a merge.
     * @param address of the block, null if it has none
     */
    isSettled(i: number, address: Uint8Array | null) {
        return this.unlike[i] === 0 && isSound(this.tested[0].records, i * RECORD_SIZE) && address !== null
            && sameBytes(address, addressIn(this.images[0], i));
    }

    /** @param address of the block, null if it has none */
    copyIn(image: number, i: number, address: Uint8Array | null): Copy {
        const { [image]: bytes } = this.images;
        const isHome = address !== null && sameBytes(address, addressIn(bytes, i));
        return { image, bytes: sectorOf(bytes, i), isHome, ...stateAt(this.tested[image], i) };
    }

    take(block: number, own: Copy, { copy, isDisputed, isDoubtful }: Replacement<Copy>) {
        const { found } = this;
        const run = { ...runOf(block), other: copy.image - 1 };
        this.sectors.push(copy.bytes);
        addToRuns(found.taken, run);
        if (isDisputed) addToRuns(found.disputed, runOf(block));
        if (isDoubtful) addToRuns(found.doubtful, run);
        if (isDoubtful && isFilledAfterHeader(own.bytes)) addToRuns(found.unread, run);
    }

    /** Corrects a damaged or lost sector by its own codes, if this is allowed. Returns whether it was possible. */
    correct(block: number, { bytes, state }: Copy) {
        const corrected = this.args.parity && state !== STATE.SOUND ? correctedSector(this.calls, bytes) : null;
        if (corrected === null) return false;
        this.sectors.push(corrected);
        addToRuns(this.found.corrected, runOf(block));
        return true;
    }

    /**
     * Notes a sound sector with the address of a different block.
     * @param address of the block, null if it has none
     */
    noteAddress(block: number, address: Uint8Array | null, { isHome }: Copy) {
        if (address !== null && !isHome) addToRuns(this.found.wrongAddress, runOf(block));
    }

    /** Notes a Mode 2 sector that was not tested, and the images in which it is different. A damaged or lost copy says nothing. */
    keepUntested(block: number, own: Copy, others: Copy[]) {
        const { found } = this;
        const unlike = others.filter(it => it.state !== STATE.LOST && !hasSameContents(own, it));
        const known = unlike.filter(({ state }) => state !== STATE.DAMAGED);
        addToRuns(found.others, { ...runOf(block), kind: own.kind });
        for (const { image } of known) addToRuns(found.differingUntested[image - 1], runOf(block));
        if (known.length > 0) addToRuns(found.unlike, runOf(block));
        else if (unlike.some(({ kind }) => kind === SECTOR_KIND.MODE2)) addToRuns(found.unclear, runOf(block));
    }

    /** Notes a damaged or lost sector that no image repairs. */
    leave(i: number, copies: Copy[]) {
        const { found, images: [old], unlike } = this;
        const block = this.first + i;
        const elsewhere = copies.some(({ state }) => state === STATE.SOUND);
        const isMode1 = copies.some(({ kind }) => kind === SECTOR_KIND.MODE1);
        const isUnsound = elsewhere || copies.some(({ state }) => state === STATE.DAMAGED);
        if (isMode1) addToRuns(found.damaged, { ...runOf(block), elsewhere });
        else if (isUnsound) addToRuns(found.unsound, { ...runOf(block), elsewhere });
        if ((isMode1 || isUnsound) && copies.length > 1 && unlike[i] === 0) addToRuns(found.alike, runOf(block));
        if (isMode1) return;
        const [{ kind }] = copies;
        addToRuns(found.others, { ...runOf(block), kind });
        const isOneByte = kind === SECTOR_KIND.NOSYNC && isFilled(this.words, i);
        if (isOneByte) addToRuns(found.filled, { ...runOf(block), byte: old[i * SECTOR_SIZE] });
        if (unlike[i] !== 0) addToRuns(found.unlike, runOf(block));
    }
}

/**
 * A damaged sector that its own codes correct: Mode 1 by its parity, if the EDC that was read confirms it, or one that lacks only its sync
 * field. Null for any other. The mode byte excludes nearly all audio, which would take long.
 */
export function correctedSector(calls: Calls, sector: Uint8Array) {
    return sector[MODE_OFFSET] === 1 ? calls.correctedSector(sector) : null;
}

/** What the codes of a sector show, as a STATE, and its SECTOR_KIND. */
function stateAt({ records, mode2 }: Tested, i: number) {
    const kind = records[i * RECORD_SIZE + RECORD.KIND];
    if (isSound(records, i * RECORD_SIZE) || isSoundMode2(mode2[i])) return { kind, state: STATE.SOUND };
    if (kind === SECTOR_KIND.MODE1 || isTestedMode2(mode2[i])) return { kind, state: STATE.DAMAGED };
    return { kind, state: kind === SECTOR_KIND.MODE2 ? STATE.UNTESTED : STATE.LOST };
}

/** @param others how many other images there are */
export function nothingFound(others: number): Found {
    const [differing, differingUntested] = [0, 1].map(() => Array.from({ length: others }, () => []));
    const runs = { taken: [], corrected: [], doubtful: [], unread: [], damaged: [], alike: [], disputed: [], wrongAddress: [] };
    const same = new Array(others).fill(0);
    const notTested = { others: [], filled: [], unlike: [], unsound: [], unclear: [] };
    return { ...runs, ...notTested, mode2: [], differing, differingUntested, same, tested: 0, sound: 0 };
}

/** Tests sectors, except their addresses. */
function testedSectors(calls: Calls, bytes: Uint8Array): Tested {
    const records = calls.survey(bytes, 0);
    return { records, mode2: testMode2(calls, bytes, records, null) };
}

/**
 * Tests another image only where its sectors differ. The other records are those of a sector without a sync field.
 * @param places of those that differ
 */
function testedAt(calls: Calls, other: Uint8Array, places: number[]): Tested {
    const records = new Uint8Array(RECORD_SIZE * sectorCount(other.length));
    const mode2 = new Uint8Array(sectorCount(other.length));
    const found = testedSectors(calls, sectorsAt(other, places));
    places.forEach((place, i) => {
        records.set(found.records.subarray(RECORD_SIZE * i, RECORD_SIZE * (i + 1)), RECORD_SIZE * place);
        mode2[place] = found.mode2[i];
    });
    return { records, mode2 };
}
