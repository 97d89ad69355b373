// Texts that several jobs print, and the output of --json.

import { basename } from 'node:path';
import { bytesOfLines } from '../core/bytes.js';
import type { DiscTrack, Hashes, KindRun, KnownDumps } from '../core/disc/views.js';
import { SECTOR_KIND, kindName } from '../core/module/index.js';
import { blocksIn, joinedRuns, wrongRuns, type Run as BlockRun } from '../core/sectors/views.js';
import { verdictOfRepair, type FileFound, type FileSummary, type Repair, type Verdict } from '../core/tasks/index.js';
import { blocksText } from '../sentences/index.js';
import type { Job } from './job.js';

export { visible } from '../core/texts/views.js';

/** The maximum number of listed runs of blocks. If there are more, their number is printed. */
const MOST_NAMED = 1000;

/** A line for each of the first runs and, if there are more, one with the number of all. */
export function linesOfRuns<R>(runs: R[], textOf: (run: R) => string) {
    const lines = runs.slice(0, MOST_NAMED).map(textOf);
    return runs.length > MOST_NAMED ? [...lines, `and so on: ${runs.length} places in all`] : lines;
}

/** Prints a message for each of the first runs and, if there are more, the number of all. */
export function sayOfRuns<R>(job: Job, runs: R[], textOf: (run: R) => string) {
    linesOfRuns(runs, textOf).forEach(line => job.say(line));
}

/** The maximum number of listed runs of sectors that were not tested. */
export const MOST_UNTESTED = 20;

/**
 * Lists the sectors that were not tested: those without a code, and Mode 2 sectors whose codes show nothing.
 * @param hasSheet whether a cue sheet says what they are
 */
export function untestedTexts(runs: KindRun[], hasSheet: boolean) {
    const isMode2 = ({ kind }: KindRun) => kind === SECTOR_KIND.MODE2;
    const [mode2, others] = [runs.filter(isMode2), runs.filter(it => !isMode2(it))];
    const isAudio = hasSheet && others.every(({ kind }) => kind === SECTOR_KIND.NOSYNC);
    const what = isAudio ? 'audio' : `not mode1${hasSheet ? '' : '; a cue sheet would say whether they are audio'}`;
    return [untestedText(others, what), untestedText(mode2, 'mode2 without codes that show damage')].filter(it => it !== '');
}

/** The name of a kind of sectors that were not tested. */
export function nameOfUntested(kind: number) {
    return kind === SECTOR_KIND.NOSYNC ? 'audio' : kindName(kind);
}

/** @param what the sectors are */
function untestedText(runs: BlockRun[], what: string) {
    const count = blocksIn(runs);
    return count === 0 ? '' : `not tested ${count}: ${blocksText(joinedRuns(runs), MOST_UNTESTED)} ${count === 1 ? 'is' : 'are'} ${what}`;
}

// The output of --json: one JSON object a line. The man page documents the keys, which stay.

/** An object as a line, in which invisible characters are escaped, so that no terminal obeys a name. */
export function jsonLine(object: object) {
    const escaped = (character: string) =>
        Array.from({ length: character.length }, (_, i) => `\\u${character.charCodeAt(i).toString(16).padStart(4, '0')}`).join('');
    return bytesOfLines([JSON.stringify(object).replace(/[\p{C}\u2028\u2029]/gu, escaped)]);
}

/** The name, the hashes, and the verdict of a DAT, null without a DAT. */
function hashKeys({ name, size, hashes: { crc32, md5, sha1 } }: { name: string, size: number, hashes: Required<Hashes> },
    known: KnownDumps | null) {
    const found = known && known.find(size, { crc32, md5, sha1 }, basename(name));
    const quality = found && found.isBad ? 'bad' : 'verified';
    const verdict = found === null ? 'unknown' : quality;
    const dat = known === null ? null
        : { verdict, name: found && found.name, game: found && (found.game || null), others: found ? found.others : 0 };
    return { name, bytes: size, crc32, md5, sha1, dat };
}

/** The number of each kind of finding in a verdict. */
function reasonsOf({ findings }: Verdict) {
    return Object.fromEntries(findings.map(({ code, count }) => [code, count]));
}

/** The object of a file, for `scan` and `info`. What was not tested is null. */
export function fileObject(file: FileSummary, known: KnownDumps | null) {
    const { changed, kind, sectors, tail, short, tested, addressed, damaged, elsewhere, lost, untested, verdict } = file;
    const isSurveyed = sectors !== null;
    return {
        ...hashKeys(file, known), changed: changed || null, kind, sectors: isSurveyed ? Object.fromEntries(sectors) : null, tail, short,
        damaged: tested > 0 ? damaged : null, wrongAddress: addressed > 0 ? elsewhere : null, lost: isSurveyed ? lost : null,
        untested: isSurveyed ? untested : null, findings: tested + verdict.total > 0 ? verdict.total : null, verdict: verdict.level,
        reasons: reasonsOf(verdict),
    };
}

function pairs(runs: BlockRun[]) {
    return runs.map(({ first, last }) => [first, last]);
}

function kindTriples(runs: KindRun[]) {
    return runs.map(({ first, last, kind }) => [first, last, nameOfUntested(kind)]);
}

/**
 * The object of a file with the places of its findings, for `info`.
 * @param tracks those in the file
 */
export function infoObject(file: FileSummary, surveys: FileFound['surveys'], tracks: DiscTrack[], known: KnownDumps | null) {
    const parts = surveys.map(({ number, image: { base }, survey, mode2Found, lost, untested, lack }) => {
        const { damaged, elsewhere } = wrongRuns(survey, mode2Found);
        const missing = lack === null ? null : [lack.missing.first, lack.missing.last];
        return { track: number, base, damaged: pairs(damaged), wrongAddress: pairs(elsewhere), lost: pairs(lost),
            untested: kindTriples(untested), missing };
    });
    return { ...fileObject(file, known), tracks: tracks.map(trackObject), parts };
}

function trackObject({ number, type, block, sectors }: DiscTrack) {
    return { number, type: type || null, block, sectors };
}

/** The object of a track in a missing file, for `info`. */
export function missingObject(track: DiscTrack) {
    const tracks = [{ ...trackObject(track), sectors: null }];
    return { name: track.fileName, kind: 'missing', tracks, findings: 1, verdict: 'damage', reasons: { missing: 1 } };
}

/** The object of a merge: of each finding, the number of sectors and their runs. */
export function mergeObject(out: { name: string, size: number, hashes: Required<Hashes> }, known: KnownDumps | null, repair: Repair,
    others: { name: string }[]) {
    const { sectors, tail, lack, taken, corrected, doubtful, damaged, alike, disputed, wrongAddress, different, differing, lost, untested,
        unlike } = repair;
    const named = (runs: (BlockRun & { other: number })[]) =>
        runs.map(({ first, last, other }) => [first, last, others[other].name]);
    const audio = (runs: KindRun[]) => blocksIn(runs.filter(({ kind }) => kind === SECTOR_KIND.NOSYNC));
    const unequal = differing.flatMap((runs, other) => runs.map(run => ({ ...run, other })));
    return {
        ...hashKeys(out, known), sectors, tail, short: lack ? blocksIn([lack.missing]) : 0,
        reasons: reasonsOf(verdictOfRepair(repair)), taken: blocksIn(taken), corrected: blocksIn(corrected), doubtful: blocksIn(doubtful),
        damaged: blocksIn(damaged), alike: blocksIn(alike), lost: blocksIn(lost), disputed: blocksIn(disputed),
        wrongAddress: blocksIn(wrongAddress), different: different.reduce((sum, it) => sum + it, 0),
        untested: blocksIn(untested), untestedDifferent: blocksIn(unlike), audio: audio(untested), audioDifferent: audio(unlike),
        blocks: { taken: named(taken), corrected: pairs(corrected), doubtful: named(doubtful), damaged: pairs(damaged), lost: pairs(lost),
            disputed: pairs(disputed), wrongAddress: pairs(wrongAddress), different: named(unequal),
            untestedDifferent: kindTriples(unlike) },
    };
}
