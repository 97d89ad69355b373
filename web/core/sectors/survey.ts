// Surveys of sectors: their records, and the reports of `list` and `audit`.

import { ByteList, crc32, joinedBytes } from '../bytes.js';
import { newBytes } from '../faults.js';
import { RECORD, RECORD_SIZE, SECTOR_KIND, SECTOR_SIZE, STATUS, sectorCount, type Calls } from '../module/index.js';
import { MODE2, isDamagedMode2, isTestedMode2, testMode2 } from './mode2.js';
import { addToRuns, addressIn, asWords, blockAt, hasOtherAddress, isFilled, runOf, type Run } from './sector.js';

// Gaps: places from which on the sectors of an image have the addresses of other blocks, because sectors before them are missing or extra.

/**
 * A run with the addresses of the blocks that are `by` later. The place of the gap is before it, or, if `isAtStart`, after it, since no
 * sector before it has the address of its block: then the sectors are missing if `by` is below 0, or else extra. Before an image that lacks
 * the first sectors of its volume, the run is empty.
 */
export type Gap = MovedRun & { isAtStart: boolean };

/**
 * The runs of at least two sectors with the addresses of the blocks that are `by` later: that many sectors are missing before the run, or,
 * if `by` is below 0, extra. Sectors without an address of their own may lie between. A single sector with a wrong address is not a gap:
 * some discs have one on purpose. If no sector has the address of its block, the base is wrong, and gaps are counted from the first run.
 * Before a run at the start of the image nothing is missing: the gap is where it ends.
 * @param mode2 the settled findings in its Mode 2 sectors
 */
export function gapsIn({ block, records, moved }: { block: number, records: Uint8Array, moved: MovedRun[] }, mode2: Uint8Array) {
    const isBaseWrong = moved.length > 0 && !isHomeIn(records, mode2, 0, records.length / RECORD_SIZE);
    const shift = isBaseWrong ? moved[0].by : 0;
    const gaps: (Gap & { sectors: number })[] = [];
    for (const { first, last, by } of moved) {
        const before = gaps[gaps.length - 1];
        const sectors = last - first + 1;
        if (before && before.by === by - shift && !isHomeIn(records, mode2, before.last + 1 - block, first - block)) {
            before.last = last;
            before.sectors += sectors;
        } else {
            const isAtStart = gaps.length === 0 && !isBaseWrong && !isHomeIn(records, mode2, 0, first - block);
            gaps.push({ first, last, by: by - shift, isAtStart, sectors });
        }
    }
    return gaps.filter(it => it.sectors > 1 && it.by !== 0)
        .map(({ first, last, by, isAtStart }) => ({ first, last, by, isAtStart }));
}

/** Whether there is a sector with the address of its block among some sectors of a survey. */
function isHomeIn(records: Uint8Array, mode2: Uint8Array, from: number, end: number) {
    for (let i = from; i < end; i++) {
        const at = i * RECORD_SIZE;
        if (records[at + RECORD.KIND] === SECTOR_KIND.MODE1 && records[at + RECORD.ADDRESS] === 0) return true;
        if (isTestedMode2(mode2[i]) && (mode2[i] & MODE2.ADDRESS) === 0) return true;
    }
    return false;
}

/** Sectors that consist of one repeated byte. */
export type FilledRun = Run & { byte: number };

/** The records of adjacent sectors, RECORD_SIZE bytes each. `block` is the block of the first one. */
export type Survey = { block: number, records: Uint8Array };

/** Sectors with the addresses of the blocks that are `by` later. */
type MovedRun = Run & { by: number };

/**
 * With the runs that one byte fills, those with the addresses of other blocks, and the findings in Mode 2 sectors, which are empty if these
 * were not tested.
 */
export type RangeSurvey = Survey & { filled: FilledRun[], moved: MovedRun[], mode2: Uint8Array };

/** How many blocks later the sectors are by their addresses, and whether Mode 2 sectors are tested, as cdpatch does not. */
export type SurveyArgs = { shift?: number, mode2?: boolean };

/** The output of a command, and its status. */
export type Report = { status: number, text: Uint8Array };

/** Surveys a range of sectors, and finds those that one byte fills. A job for a worker. */
export function surveyRange(calls: Calls, bytes: Uint8Array, block: number, { shift = 0, mode2 = false }: SurveyArgs = {}): RangeSurvey {
    const records = shift === 0 ? calls.survey(bytes, block) : shiftedSurvey(calls, bytes, block + shift);
    const found = mode2 ? testMode2(calls, bytes, records, block + shift) : newBytes(0);
    const moved = movedRuns(calls, bytes, records, { block, shift, mode2: found });
    return { block, records, filled: filledRuns(bytes, records, block), moved, mode2: found };
}

/**
 * The runs of sectors with the addresses of other blocks.
 * @param records of the same sectors
 * @param range its first block, and the findings in Mode 2 sectors
 */
function movedRuns(calls: Calls, bytes: Uint8Array, records: Uint8Array,
    { block, shift, mode2 }: { block: number, shift: number, mode2: Uint8Array }) {
    const moved: MovedRun[] = [];
    for (let i = 0; i < sectorCount(bytes.length); i++) {
        if (records[i * RECORD_SIZE + RECORD.ADDRESS] === 0 && (mode2[i] & MODE2.ADDRESS) === 0) continue;
        const own = blockAt(calls, addressIn(bytes, i));
        if (own !== null) addToRuns(moved, { ...runOf(block + i), by: own - (block + i + shift) });
    }
    return moved;
}

/** The records of sectors whose first block may be below 0, such as those of the first pause. */
function shiftedSurvey(calls: Calls, bytes: Uint8Array, block: number) {
    const at = SECTOR_SIZE * Math.min(Math.max(-block, 0), sectorCount(bytes.length));
    const before = calls.survey(bytes.subarray(0, at), 0);
    for (let i = 0; i * RECORD_SIZE < before.length; i++) {
        const isMode1 = before[i * RECORD_SIZE + RECORD.KIND] === SECTOR_KIND.MODE1;
        before[i * RECORD_SIZE + RECORD.ADDRESS] = Number(isMode1 && hasOtherAddress(calls, addressIn(bytes, i), block + i));
    }
    return joinedBytes([before, calls.survey(bytes.subarray(at), Math.max(block, 0))]);
}

/**
 * The runs of sectors that one byte fills.
 * @param records of the same sectors
 * @param block the block of the first sector
 */
function filledRuns(bytes: Uint8Array, records: Uint8Array, block: number) {
    const filled: FilledRun[] = [];
    const words = asWords(bytes);
    for (let i = 0; i < sectorCount(bytes.length); i++) {
        if (records[i * RECORD_SIZE + RECORD.KIND] !== SECTOR_KIND.NOSYNC || !isFilled(words, i)) continue;
        // Most sectors of silence follow another one. Creating a run for each would cost more than everything else.
        const before = filled[filled.length - 1];
        const byte = bytes[i * SECTOR_SIZE];
        if (before && before.last === block + i - 1 && before.byte === byte) before.last = block + i;
        else filled.push({ ...runOf(block + i), byte });
    }
    return filled;
}

/** Whether the record at a place belongs to a damaged Mode 1 sector. */
export function isDamaged(records: Uint8Array, at: number) {
    return (records[at + RECORD.ZEROS] | records[at + RECORD.EDC] | records[at + RECORD.P] | records[at + RECORD.Q]) !== 0;
}

/** Whether the record at a place belongs to a consistent sector. */
export function isSound(records: Uint8Array, at: number) {
    return records[at + RECORD.KIND] === SECTOR_KIND.MODE1 && !isDamaged(records, at);
}

/**
 * Counts the sectors of a survey: all of them, those of Mode 1, and of these the damaged ones, those with a wrong address (`elsewhere`),
 * and the `wrong` ones, which are damaged, or have a wrong address, or both.
 */
export function surveyCounts({ records }: Survey) {
    let [mode1, damaged, elsewhere, wrong] = [0, 0, 0, 0];
    for (let at = 0; at < records.length; at += RECORD_SIZE) {
        const isBroken = isDamaged(records, at);
        mode1 += Number(records[at + RECORD.KIND] === SECTOR_KIND.MODE1);
        damaged += Number(isBroken);
        elsewhere += records[at + RECORD.ADDRESS];
        wrong += Number(isBroken || records[at + RECORD.ADDRESS] !== 0);
    }
    return { sectors: records.length / RECORD_SIZE, mode1, damaged, elsewhere, wrong };
}

/** The runs of damaged sectors of a survey, and of those with a wrong address. `mode2` is the settled findings in its Mode 2 sectors. */
export function wrongRuns({ block, records }: Survey, mode2: Uint8Array) {
    const runs: { damaged: Run[], elsewhere: Run[] } = { damaged: [], elsewhere: [] };
    for (let i = 0, at = 0; at < records.length; i++, at += RECORD_SIZE) {
        if (isDamaged(records, at) || isDamagedMode2(mode2[i])) addToRuns(runs.damaged, runOf(block + i));
        if (records[at + RECORD.ADDRESS] !== 0 || (mode2[i] & MODE2.ADDRESS) !== 0) addToRuns(runs.elsewhere, runOf(block + i));
    }
    return runs;
}

/** Yields the longest runs of adjacent sectors of one kind, with their first and last blocks. */
export function* kindRuns({ block, records }: Survey) {
    let first = 0;
    for (let at = RECORD_SIZE; at <= records.length; at += RECORD_SIZE) {
        const kind = records[first + RECORD.KIND];
        if (at < records.length && records[at + RECORD.KIND] === kind) continue;
        yield { first: block + first / RECORD_SIZE, last: block + at / RECORD_SIZE - 1, kind };
        first = at;
    }
}

/**
 * The report of `list`.
 * @param survey of the whole image
 * @param tail how many bytes follow the last sector
 */
export function listText(calls: Calls, survey: Survey, tail: number): Report {
    const text = new ByteList();
    for (const { first, last, kind } of kindRuns(survey)) text.push(calls.listLine(first, last, kind));
    text.push(calls.listEnd(surveyCounts(survey).sectors, tail));
    return { status: STATUS.DONE, text: text.bytes() };
}

/**
 * The report of `audit`.
 * @param survey of the whole image
 * @param tail how many bytes follow the last sector
 */
export function auditText(calls: Calls, survey: Survey, tail: number): Report {
    const { block, records } = survey;
    const text = new ByteList();
    for (let at = 0; at < records.length; at += RECORD_SIZE) {
        const isFound = isDamaged(records, at) || records[at + RECORD.ADDRESS] !== 0;
        if (isFound) text.push(calls.auditLine(block + at / RECORD_SIZE, records.subarray(at, at + RECORD_SIZE)));
    }
    const status = text.size > 0 ? STATUS.FOUND : STATUS.DONE;
    const { sectors, mode1, damaged } = surveyCounts(survey);
    text.push(calls.auditEnd(sectors, mode1, damaged, tail));
    return { status, text: text.bytes() };
}

/** The finding that `audit` prints after the block of a sector; '' if the sector has none. */
export function findingOf(calls: Calls, block: number, record: Uint8Array) {
    return new TextDecoder().decode(calls.auditLine(block, record)).slice(`${block} `.length).trimEnd();
}

// Computes the checksum and the survey of a range of an image.

/** `survey` is null if it was not requested. */
export type Summed = { bytes: Uint8Array, crc: number, survey: RangeSurvey | null };

/**
 * The CRC-32 of a range and, on request, its survey. A job for a worker. The bytes are returned too, because another hash needs them.
 * @param args including those of surveyRange
 */
export function sumsOfRange(calls: Calls, bytes: Uint8Array, block: number,
    { surveys, ...args }: { surveys: boolean } & SurveyArgs): Summed {
    return { bytes, crc: crc32(0, bytes), survey: surveys ? surveyRange(calls, bytes, block, args) : null };
}
