// The verdict on a file: what was tested, what was found, and what follows from it. Every interface shows this one.

import { openChosen, type Disc, type DiscFile, type Hashes, type KnownDumps, type Siblings } from '../disc/index.js';
import { remark, type FileKind, type Remark } from '../faults.js';
import { SECTOR_KIND, kindName, type Calls } from '../module/index.js';
import { blocksIn, kindRuns, type Gap, type RangeSurvey } from '../sectors/index.js';
import { foundInSurvey, surveyedTracks, tailOf, trackWithData, unsurveyedTracks, type Found, type SurveyedTrack } from './inform.js';
import type { Repair } from './repair.js';

type SurveyFound = Pick<Found, 'mode1' | 'damaged' | 'elsewhere' | 'wrong' | 'mode2' | 'unproven' | 'lost' | 'fillers' | 'untested'
    | 'lack' | 'gaps'>;
/**
 * The kinds of findings, the worst first. `damaged`: sectors whose codes do not match. `lost`: sectors that are not of the mode that they
 * must have. `short`: blocks of the volume after the end of the image. `cut`: files that end within a sector. `gap`: places before which
 * sectors are missing or extra. `missing`: tracks in missing files. `untested`: Mode 2 sectors whose codes show nothing, because none of
 * them is sound. `unread`: data tracks whose sectors do not have 2352 bytes. `address`: sectors with a wrong address.
 */
export type FindingCode = 'damaged' | 'lost' | 'short' | 'cut' | 'gap' | 'missing' | 'untested' | 'unread' | 'address';
/**
 * A kind of finding, and how often it occurs. `bytes` fill lost sectors, all of them; and `gaps` are the places where sectors are missing
 * or extra.
 */
export type Finding = { code: FindingCode, count: number, bytes: number[], gaps: Gap[] };
/**
 * A verdict. `level`: something is damaged or missing; something is in doubt, since it is unusual, or was not tested although it must be;
 * all that must be tested is sound; or nothing had to be tested, as in audio. `tested` is how many sectors were tested by their codes,
 * `without` how many data sectors have no codes, and `total` how many blocks and other things are wrong. `status` is that of a command,
 * `canRepair` tells whether another dump can help, and `canPublish` whether the file is whole, so that others can compare theirs with it.
 */
export type Verdict = { level: 'damage' | 'doubt' | 'sound' | 'nothing', findings: Finding[], tested: number, without: number,
    total: number, status: 0 | 1, canRepair: boolean, canPublish: boolean };

/** Those that put a file in doubt, and do not show damage. */
const DOUBTS: FindingCode[] = ['untested', 'unread', 'address'];
/** Those that a file has no longer if a DAT verifies it. */
const NEEDS_A_TEST: FindingCode[] = ['untested', 'unread'];

/** How many blocks of its volume an image surely lacks at the end. */
function blocksShort(lack: SurveyFound['lack']) {
    return lack !== null && lack.isSure ? blocksIn([lack.missing]) : 0;
}

/**
 * The verdict on a repaired image. Its findings are those at the start and the end of the image, which no repair changes; its status also
 * counts what is left or not confirmed. A DAT that has the image decides alone.
 * @param dump that the DAT has of the image, null if it has none; undefined without a DAT
 */
export function verdictOfRepair({ damaged, doubtful, wrongAddress, lost, unlike, before, lack, tail }: Pick<Repair, 'damaged' | 'doubtful'
    | 'wrongAddress' | 'lost' | 'unlike' | 'before' | 'lack' | 'tail'>, dump?: { isBad: boolean } | null): Verdict {
    const short = blocksShort(lack);
    const counts = [['short', short], ['cut', Number(tail > 0)], ['gap', before.length]] as [FindingCode, number][];
    const findings = counts.filter(([, count]) => count > 0).map(([code, count]) => ({ code, count, bytes: [], gaps: before }));
    const isLeft = [damaged, doubtful, wrongAddress, lost, unlike, findings].some(it => it.length > 0);
    const status = dump ? dump.isBad : dump === null || isLeft;
    return { ...judged(findings, { tested: 0, without: 0 }, findings.length), status: status ? 1 : 0 };
}

/**
 * The verdict on a file.
 * @param found the surveys of the file, the bytes after its last sector, and how many of its tracks are missing or were not read
 */
export function verdictOf({ surveys, tail, missing = 0, unread = 0 }: { surveys: SurveyFound[], tail: number, missing?: number,
    unread?: number }): Verdict {
    const sum = (of: (it: SurveyFound) => number) => surveys.reduce((all, it) => all + of(it), 0);
    const counts: Record<FindingCode, number> = {
        damaged: sum(it => it.damaged + it.mode2.damaged),
        lost: sum(it => blocksIn(it.lost)),
        short: sum(({ lack }) => blocksShort(lack)),
        cut: Number(tail > 0),
        gap: sum(it => it.gaps.length),
        missing,
        untested: sum(it => it.unproven),
        unread,
        address: sum(it => it.elsewhere + it.mode2.elsewhere),
    };
    const known = surveys.filter(it => it.lost.length > 0).map(it => it.fillers);
    const more = { bytes: known.every(it => it.length > 0) ? [...new Set(known.flat())] : [], gaps: surveys.flatMap(it => it.gaps) };
    const findings = (Object.keys(counts) as FindingCode[]).filter(code => counts[code] > 0)
        .map(code => ({ code, count: counts[code], ...more }));
    // After any other gap, addresses are wrong, and count.
    const atStart = sum(it => it.gaps.filter(({ first, last }) => last < first).length);
    const single = counts.cut + missing + unread + atStart
        + sum(it => Number(it.lack !== null && it.lack.isSure) + Number(it.unproven > 0));
    const sectors = { tested: sum(it => it.mode1 + it.mode2.tested), without: sum(withoutCodes) };
    return judged(findings, sectors, sum(it => it.wrong + blocksIn(it.lost)) + single);
}

/** The number of sectors that have a mode, and no codes that were tested, such as Form 2 without EDC. Audio has no mode. */
function withoutCodes({ untested, unproven }: SurveyFound) {
    return blocksIn(untested.filter(({ kind }) => kind !== SECTOR_KIND.NOSYNC)) - unproven;
}

/** The verdict on a file without sectors that could be tested. */
function noVerdict() {
    return judged([], { tested: 0, without: 0 }, 0);
}

/** The verdict on a file that a DAT verifies, which counts as tested. */
function ifVerified({ findings, tested, total }: Verdict) {
    const left = findings.filter(({ code }) => !NEEDS_A_TEST.includes(code));
    return judged(left, { tested: Math.max(tested, 1), without: 0 }, left.length > 0 ? total : 0);
}

function levelOf(findings: Finding[], tested: number) {
    if (findings.some(({ code }) => !DOUBTS.includes(code))) return 'damage';
    if (findings.length > 0) return 'doubt';
    return tested > 0 ? 'sound' : 'nothing';
}

function judged(findings: Finding[], { tested, without }: Pick<Verdict, 'tested' | 'without'>, total: number): Verdict {
    const has = (...codes: FindingCode[]) => findings.some(({ code }) => codes.includes(code));
    return {
        level: levelOf(findings, tested), findings, tested, without, total, status: findings.length > 0 ? 1 : 0,
        canRepair: has('damaged', 'lost'), canPublish: !has('short', 'cut', 'gap'),
    };
}

// Summarises what was found in a file, as numbers.

/** A file of a disc, its hashes and findings, and the number of bytes after its last whole sector. */
export type FileFound = { file: DiscFile, hashes: Required<Hashes>, surveys: (SurveyedTrack & Found)[], tail: number };
type HashedFile = { name: string, size: number, changed: string, hashes: Required<Hashes> };
/**
 * A file and the numbers of its sectors. `changed` is the time at which it was changed, '' if unknown. `kind` is `image` for a file of a
 * disc. `kinds` is the column of the list. `sectors` has the number of sectors of each kind, null if not surveyed. `tail` is the number of
 * bytes after the last whole sector, and `short` the number of blocks of the volume after the end. The codes of `tested` sectors were
 * tested, and the addresses of `addressed` ones. `untested` sectors have no codes that show damage.
 */
export type FileSummary = HashedFile & { kind: 'image' | FileKind, kinds: string, sectors: [string, number][] | null, tail: number,
    short: number, tested: number, addressed: number, damaged: number, elsewhere: number, lost: number, untested: number,
    verdict: Verdict };

/** Begins the column of kinds for a file that is not part of a disc. The description of the file follows. */
export const NO_IMAGE = 'none: ';

/** The number of sectors of each kind, the largest first. */
function kindCounts(surveys: FileFound['surveys']): [string, number][] {
    const counts: Map<number, number> = new Map();
    for (const { survey } of surveys) {
        for (const { first, last, kind } of kindRuns(survey)) counts.set(kind, (counts.get(kind) || 0) + last - first + 1);
    }
    return [...counts].sort(([a], [b]) => b - a).map(([kind, count]) => [kindName(kind), count]);
}

/**
 * The column of kinds, for example 'mode2 20,nosync 3'; the number of Mode 2 sectors whose codes show nothing, ',untested 5'; of bytes
 * after the last whole sector, ',tail 100'; and of blocks of the volume after the end, ',short 100'.
 * @param unsurveyed the kinds if nothing was surveyed
 */
function kindsText(sectors: [string, number][], unsurveyed: string[], more: { untested: number, tail: number, short: number }) {
    const kinds = sectors.length > 0 ? sectors.map(([kind, count]) => `${kind} ${count}`) : unsurveyed;
    return [...kinds, ...Object.entries(more).filter(([, count]) => count > 0).map(([name, count]) => `${name} ${count}`)].join(',');
}

/** The summary of a file of a disc. `changed` is the time at which it was changed, '' if unknown. */
export function summaryOf(disc: Disc, found: FileFound, changed: string): FileSummary {
    const { file: { name, reader }, hashes, surveys, tail } = found;
    const sum = (of: (it: FileFound['surveys'][0]) => number) => surveys.reduce((all, it) => all + of(it), 0);
    const [mode1, mode2] = [sum(it => it.mode1), sum(it => it.mode2.sectors)];
    const tested = sum(it => it.mode2.tested);
    const short = blocksIn(surveys.flatMap(({ lack }) => lack ? [lack.missing] : []));
    const sectors = kindCounts(surveys);
    const left = tested > 0 ? mode2 - tested : 0;
    const unsurveyed = unsurveyedKinds(disc, disc.files.indexOf(found.file));
    const named = surveys.every(it => it.isAudio) && mode1 + mode2 === 0 ? [] : sectors;
    return {
        name, size: reader.size, changed, hashes, kind: 'image', kinds: kindsText(named, unsurveyed, { untested: left, tail, short }),
        sectors: surveys.length > 0 ? sectors : null, tail, short, tested: mode1 + tested, addressed: mode1 + mode2,
        damaged: sum(it => it.damaged + it.mode2.damaged), elsewhere: sum(it => it.elsewhere + it.mode2.elsewhere),
        lost: sum(it => blocksIn(it.lost)), untested: sum(it => blocksIn(it.untested)),
        verdict: verdictOf({ ...found, unread: unsurveyedTracks(disc).filter(it => disc.files[it.file] === found.file).length }),
    };
}

/** The summary of a file that a DAT may verify. `own` is the file's name without its directory. */
export function summaryByDat(file: FileSummary, known: KnownDumps | null, own: string) {
    const found = known && known.find(file.size, file.hashes, own);
    return found && !found.isBad ? { ...file, verdict: ifVerified(file.verdict) } : file;
}

/** The types of the tracks of a file that are not surveyed, such as 'mode1/2048' or 'audio'. */
function unsurveyedKinds(disc: Disc, file: number) {
    const types = unsurveyedTracks(disc).filter(it => it.file === file).map(it => it.type.toLowerCase());
    return types.length > 0 ? [...new Set(types)] : ['audio'];
}

/** The summary of a file that is not part of a disc. `what` is the kind in words. */
export function otherSummary(file: HashedFile, kind: FileKind, what: string): FileSummary {
    const none = { tail: 0, short: 0, tested: 0, addressed: 0, damaged: 0, elsewhere: 0, lost: 0, untested: 0 };
    return { ...file, kind, kinds: `${NO_IMAGE}${what}`, sectors: null, ...none, verdict: noVerdict() };
}

// Examines files: surveys the tracks of a disc and hashes its files. Each file is read once.

/** Surveys the images of tracks, all in one file, and hashes that file, which it reads once if there is one image. */
export type ReadFile = (file: DiscFile, tracks: SurveyedTrack[]) => Promise<{ surveys: RangeSurvey[], hashes: Required<Hashes> }>;
/**
 * How an interface examines files: the files beside a cue sheet; how files are read; the time at which a file was changed, '' if that is
 * not known; the words for a kind of files; which tracks are surveyed, by default all; and which files are known already.
 */
type Examining = { siblings: Siblings, read: ReadFile, changeOf: (file: DiscFile) => string, whatIs: (kind: FileKind) => string,
    tracksOf?: (disc: Disc) => SurveyedTrack[] | Promise<SurveyedTrack[]>, isDone?: (name: string) => boolean };
/**
 * The summaries of a file or, if it is a cue sheet, of the files that it names. The disc is null if the file is not part of one. `missing`
 * has the tracks in missing files.
 */
type Examined = { disc: Disc | null, found: FileFound[], summaries: FileSummary[], missing: Disc['tracks'] };

/** Examines an image, the files of a cue sheet, or any other file. Throws a Fault, and what a reader throws. */
export async function examineFile(calls: Calls, file: DiscFile,
    { siblings, read, changeOf, whatIs, tracksOf = surveyedTracks, isDone }: Examining): Promise<Examined> {
    const { kinds: [kind], disc } = await openChosen(calls, [file], siblings);
    if (disc === null) {
        const { hashes } = await read(file, []);
        const hashed = { name: file.name, size: file.reader.size, changed: changeOf(file), hashes };
        return { disc, found: [], summaries: [otherSummary(hashed, kind, whatIs(kind))], missing: [] };
    }
    const found = await examineDisc(disc, await tracksOf(disc), read, isDone);
    const missing = disc.tracks.filter(track => track.file < 0);
    return { disc, found, summaries: found.map(it => summaryOf(disc, it, changeOf(it.file))), missing };
}

/**
 * Examines the files of a disc. Throws what a reader throws.
 * @param tracks to survey
 * @param isDone selects files that are not examined
 */
export async function examineDisc(disc: Disc, tracks: SurveyedTrack[], read: ReadFile, isDone: (name: string) => boolean = () => false) {
    const found: FileFound[] = [];
    for (const [i, file] of disc.files.entries()) {
        if (isDone(file.name)) continue;
        const { own, surveys, hashes } = await readWithData(file, tracks.filter(it => it.file === i), read);
        const findings = own.map(async (track, k) => ({ ...track, ...await foundInSurvey(track, surveys[k]) }));
        found.push({ file, hashes, surveys: await Promise.all(findings), tail: tailOf(disc, i) });
    }
    return found;
}

/** Reads a file. If data was found in what was taken for audio, its addresses show the base of the image, and it is read again. */
async function readWithData(file: DiscFile, tracks: SurveyedTrack[], read: ReadFile) {
    const { surveys, hashes } = await read(file, tracks);
    const own = tracks.map((track, i) => trackWithData(track, surveys[i]) || track);
    if (own.every((track, i) => track === tracks[i])) return { own, surveys, hashes };
    return { own, ...await read(file, own) };
}

// Escapes names of files for a list.

/** A byte of a name that is not UTF-8 is a lone surrogate: this number plus the byte. */
export const SURROGATE_OF_BYTE = 0xDC00;

/** Matches a byte that is not UTF-8. */
export const ESCAPED_BYTE = /([\uDC80-\uDCFF])/u;

/** Escapes a name for a list: different names stay different, and none has a tab or a line end. */
export function listedName(name: string) {
    const digits = (it: string) => (it.codePointAt(0) || 0).toString(16);
    const byte = (it: string) => (it.charCodeAt(0) - SURROGATE_OF_BYTE).toString(16);
    return name.replace(/[\p{C}\p{Zl}\p{Zp}\\]/gu, it => {
        if (it === '\\') return '\\\\';
        return ESCAPED_BYTE.test(it) ? `\\x${byte(it)}` : `\\u{${digits(it)}}`;
    });
}

/** Reverses `listedName`. */
export function nameOfListed(listed: string) {
    return listed.replace(/\\(?:\\|u\{([0-9a-f]{1,6})\}|x([89a-f][0-9a-f]))/g, (it, code, byte) => {
        if (code) return String.fromCodePoint(Math.min(parseInt(code, 16), 0x10FFFF));
        return byte ? String.fromCharCode(SURROGATE_OF_BYTE + parseInt(byte, 16)) : '\\';
    });
}

// The lines of the list of a collection, one for each file, with columns separated by tabs.

/** The sentence for a remark. */
type TextOf = (remark: Remark) => string;

/** The value of a column that was not tested or not computed. */
export const NOT_TESTED = '-';

/** The value of the column of the DAT if none was given, and if none of its dumps is the file. */
export const NO_DAT = '-';
const NOT_IN_DAT = 'not in the DAT';

/** The indices of columns. SAID is that of the DAT. */
export const COLUMN = Object.freeze({ NAME: 0, KINDS: 1, DAMAGED: 2, FINDINGS: 3, ELSEWHERE: 4, SHA1: 5, SAID: 6, BYTES: 7, CHANGED: 8,
    CRC32: 9, MD5: 10 });

/**
 * Whether a hash that a DAT needs was not computed.
 * @param hashes '' for one that was not computed
 */
export function lacksHash(needs: KnownDumps['needs'], { crc32, md5 }: Required<Hashes>) {
    return (needs.crc32 && crc32 === '') || (needs.md5 && md5 === '');
}

/**
 * The column of a DAT for a file of a known size. A file that is not found is only called unknown if all hashes were computed.
 * @param file with its name, without directories
 */
export function saidOfFile(known: KnownDumps, { size, hashes, own }: { size: number, hashes: Required<Hashes>, own: string },
    textOf: TextOf) {
    const found = known.find(size, hashes, own);
    if (found !== null) return listedName(textOf(remark('dat/dump', found)));
    return lacksHash(known.needs, hashes) ? NO_DAT : NOT_IN_DAT;
}

/** The columns of the line of a file. `own` is its name, without directories. */
export function listedColumns(file: FileSummary, known: KnownDumps | null, own: string, textOf: TextOf) {
    const { name, kinds, tested, damaged, verdict: { total }, addressed, elsewhere, size, changed, hashes } = file;
    const numbers = [tested > 0 && damaged, tested + total > 0 && total, addressed > 0 && elsewhere];
    const said = known === null ? NO_DAT : saidOfFile(known, { size, hashes, own }, textOf);
    return [listedName(name), kinds, ...numbers.map(it => it === false ? NOT_TESTED : String(it)), hashes.sha1, said, String(size),
        ...[changed, hashes.crc32, hashes.md5].map(it => it || NOT_TESTED)];
}
