// The job `info`: identifies a file, and reports all findings in it.

import { basename } from 'node:path';
import { bytesOfLines, joinedBytes } from '../core/bytes.js';
import { fileIn, openChosen, type Disc, type DiscFile, type DiscTrack, type Hashes, type Lack, type Lost } from '../core/disc/views.js';
import { RECORD, RECORD_SIZE, SECTOR_KIND } from '../core/module/index.js';
import { MODE2, addToRuns, findingOf, isDamaged, isDamagedMode2, listText, mode2Runs, wrongRuns, type Run } from '../core/sectors/views.js';
import {
    endsEarlyByGaps, examineDisc, otherSummary, summaryByDat, summaryOf, unsurveyedTracks, verdictOf, type FileFound, type FileSummary,
} from '../core/tasks/index.js';
import { sentenceOf, verdictText } from '../sentences/index.js';
import { Verdicts, datText, needsOf, readingOnce } from './hashes.js';
import { fileObject, infoObject, jsonLine, linesOfRuns, missingObject, untestedTexts, visible } from './printed.js';
import { namingSheet, siblingsOf, surveyedIn } from './opening.js';
import type { FileKind } from '../core/faults.js';
import type { Job } from './job.js';

/** Whether something is wrong, and the lines to print. */
type Informed = { found: boolean, lines: string[], objects: Uint8Array[] };

const WITH_CDSCRIPT = '`cdscript raw` writes the raw image, and `cdscript user` the ISO image.';

/** The message about an empty standard input. Node replaces a closed one with an empty file. */
const NOTHING_PIPED = 'Standard input is empty or closed: give the name of a file, or the image on standard input.';

function trackText(disc: Disc, { number, type, file, fileName, block, sectors, part }: DiscTrack) {
    const blocks = block === null || sectors === null ? '' : ` blocks ${block}-${block + sectors - 1}`;
    const kind = type || (part === null ? 'no data' : 'data');
    return `track ${number} ${kind}${blocks} in ${file < 0 ? `the missing file ${fileName}` : disc.files[file].name}`;
}

/** Describes the blocks of the volume that the image lacks. `gaps` are the places before which sectors are missing or extra. */
function lackText(lack: Lack, gaps: FileFound['surveys'][0]['gaps']) {
    const { missing: { first, last }, blocks, file, isSure } = lack;
    const what = `${first}-${last} not in the image`;
    if (endsEarlyByGaps(lack, gaps)) return `${what}, because the sectors after the missing ones are at earlier blocks`;
    if (file !== '') return `${what}: ${file} continues there`;
    if (isSure) return `${what}: the volume has ${blocks} blocks, and the cue sheet has no other track`;
    const why = 'either the image is cut short, or the volume also counts other tracks or a pause';
    return `${what}, though the volume has ${blocks} blocks: ${why}`;
}

/** Describes lost sectors. */
function lostText({ first, last, why }: Lost['lost'][0], used: Lost['used']) {
    const what = `${first}-${last} not mode1`;
    if (why === 'track') return `${what} in a track of mode1`;
    if (why === 'mode2') return `${first}-${last} not mode2 in a track of mode2`;
    if (why === 'filled') return `${what}, and filled with the same byte, unlike audio`;
    const file = fileIn(used, { first, last });
    return `${what}, though ${file === '' ? 'the volume itself' : file} is stored there`;
}

/** What is damaged in a Mode 1 sector, as `cdpatch audit` prints it; '' if nothing is. */
function damageOfMode1({ calls }: Job, record: Uint8Array) {
    if (!isDamaged(record, 0)) return '';
    const codes = Uint8Array.from(record);
    codes[RECORD.ADDRESS] = 0;
    return findingOf(calls, 0, codes);
}

/** What is damaged in a Mode 2 sector; '' if nothing is. */
function damageOfMode2(found: number) {
    if (!isDamagedMode2(found)) return '';
    const codes = Object.entries({ subheader: MODE2.SUBHEADER, edc: MODE2.EDC, parity: MODE2.PARITY });
    return codes.filter(([, code]) => (found & code) !== 0).map(([name]) => name).join(' ');
}

/** The lines about the Mode 2 sectors of an image. */
function mode2Lines({ survey: { block }, mode2: { sectors, tested, damaged, elsewhere }, mode2Found }: FileFound['surveys'][0]) {
    const moved = mode2Runs(mode2Found, block, it => (it & MODE2.ADDRESS) !== 0);
    return [
        tested > 0 ? `mode2 ${sectors} damaged ${damaged} address ${elsewhere}`
            : `mode2 ${sectors}: Mode 2 sectors cannot be audited or patched; PlayStation discs have them`,
        ...wrongLines('mode2', Array.from(mode2Found, damageOfMode2), moved, block),
    ];
}

/**
 * The lines that list sectors of a kind.
 * @param damage what is damaged in each sector, '' in others
 * @param elsewhere those with a wrong address
 * @param block of the first sector
 */
function wrongLines(kind: string, damage: string[], elsewhere: Run[], block: number) {
    const damaged: (Run & { what: string })[] = [];
    damage.forEach((what, i) => what !== '' && addToRuns(damaged, { first: block + i, last: block + i, what }));
    return [
        ...linesOfRuns(damaged, ({ first, last, what }) => `${first}-${last} ${kind} damaged: ${what}`),
        ...linesOfRuns(elsewhere, ({ first, last }) => `${first}-${last} ${kind} with a wrong address`),
    ];
}

/** The lines about the findings in an image. */
function surveyLines(job: Job, disc: Disc, found: FileFound['surveys'][0]): string[] {
    const { image, survey, mode1, damaged, elsewhere, mode2, lost, untested, used, lack, gaps } = found;
    const list = new TextDecoder().decode(listText(job.calls, survey, image.tail).text).trimEnd();
    const { block, records } = survey;
    const damage = Array.from({ length: records.length / RECORD_SIZE }, (_, i) =>
        damageOfMode1(job, records.subarray(i * RECORD_SIZE, (i + 1) * RECORD_SIZE)));
    const lines = [`base ${image.base}`, ...list.split('\n'), `mode1 ${mode1} damaged ${damaged} address ${elsewhere}`,
        ...wrongLines('mode1', damage, wrongRuns(survey, new Uint8Array(0)).elsewhere, block)];
    if (mode2.sectors > 0) lines.push(...mode2Lines(found));
    const others = mode2.tested > 0 ? untested : untested.filter(({ kind }) => kind !== SECTOR_KIND.MODE2);
    lines.push(...untestedTexts(others, disc.sheet !== null));
    lines.push(...linesOfRuns(lost, it => lostText(it, used)));
    return lack === null ? lines : [...lines, lackText(lack, gaps)];
}

/** The lines about data that is not surveyed. */
function unsurveyedLines(disc: Disc) {
    const sizes = unsurveyedTracks(disc).map(({ number, type }) => `track ${number} has ${type.replace(/.*\//, '')} bytes per sector`);
    return sizes.map(it => `${it}: it cannot be audited or patched`);
}

/** The lines of the verdicts on the files of a disc, and on missing ones. `missing` is how many tracks are in missing files. */
function verdictLines(files: FileSummary[], missing: number) {
    const lines = files.map(({ name, verdict }) => `verdict${files.length > 1 ? ` ${name}` : ''}: ${verdictText(verdict)}`);
    return missing === 0 ? lines : [...lines, `verdict: ${verdictText(verdictOf({ surveys: [], tail: 0, missing }))}`];
}

/** The line of a file and, if there is a DAT, its verdict, which is counted. */
function fileLines({ name, reader: { size } }: DiscFile, hashes: Hashes, verdicts: Verdicts | null, isImage: boolean) {
    const line = `file ${name} bytes ${size} sha1 ${hashes.sha1}`;
    if (verdicts === null) return [line];
    const found = verdicts.known.find(size, hashes, basename(name));
    verdicts.add(found, isImage || verdicts.known.hasSize(size));
    return [line, datText(verdicts.known, found, size)];
}

/** The lines of a disc, and whether something is wrong with it. */
async function discLines(job: Job, disc: Disc, verdicts: Verdicts | null): Promise<Informed> {
    const tracks = disc.tracks.map(track => trackText(disc, track));
    const found = await examineDisc(disc, await surveyedIn(job, disc), readingOnce(job, needsOf(job, verdicts && verdicts.known)));
    const files = found.flatMap(({ file, hashes, tail }) => [
        ...fileLines(file, hashes, verdicts, true), ...tail > 0 ? [`tail ${tail}: the last sector of ${file.name} is incomplete`] : []]);
    const surveys = found.flatMap(it => it.surveys);
    const lines = surveys.flatMap(it => {
        const [first, ...more] = surveyLines(job, disc, it);
        return [surveys.length > 1 ? `track ${it.number} ${first}` : first, ...more];
    });
    const known = verdicts && verdicts.known;
    const summaries = found.map(it => summaryByDat(summaryOf(disc, it, job.files.changed.get(it.file.name) || ''), known,
        basename(it.file.name)));
    const objects = found.map((it, i) => infoObject(summaries[i], it.surveys, disc.tracks.filter(({ file }) => file === i), known));
    const missing = disc.tracks.filter(({ file }) => file < 0);
    const isFound = missing.length > 0 || summaries.some(({ verdict }) => verdict.status > 0);
    return { found: isFound, lines: [...verdictLines(summaries, missing.length), ...files, ...tracks, ...lines, ...unsurveyedLines(disc)],
        objects: [...objects, ...missing.map(missingObject)].map(jsonLine) };
}

/** The advice about a file that is not a disc. */
function advicesFor(name: string, kind: FileKind) {
    if (kind === 'empty' && name === '-') return [NOTHING_PIPED];
    return [sentenceOf({ code: 'kind/advice', facts: { kind } }), kind === 'iso' ? WITH_CDSCRIPT : ''].filter(it => it !== '');
}

/** The lines of a file that is not a disc. `what` is the kind in words. */
async function otherLines(job: Job, file: DiscFile, kind: FileKind, what: string, verdicts: Verdicts | null): Promise<Informed> {
    const advices = advicesFor(job.names[0], kind);
    if (verdicts === null && !job.options.json) return { found: true, lines: advices, objects: [] };
    const { hashes } = await readingOnce(job, needsOf(job, verdicts && verdicts.known))(file, []);
    const lines = verdicts === null ? [] : fileLines(file, hashes, verdicts, false);
    const { name, reader: { size } } = file;
    const other = otherSummary({ name, size, changed: job.files.changed.get(name) || '', hashes }, kind, what);
    const summary = summaryByDat(other, verdicts && verdicts.known, basename(name));
    const object = { ...fileObject(summary, verdicts && verdicts.known), tracks: [], parts: [] };
    return { found: summary.verdict.level !== 'sound', lines: [...lines, ...advices], objects: [jsonLine(object)] };
}

export async function infoJob(job: Job) {
    const file = await job.files.image(job.names[0]);
    const { kinds: [kind], disc } = await namingSheet(openChosen(job.calls, [file], siblingsOf(job)));
    const known = await job.knownDumps();
    const verdicts = known && new Verdicts(known);
    const what = sentenceOf({ code: 'kind/what', facts: { kind } });
    const { found, lines, objects } = await (disc ? discLines(job, disc, verdicts) : otherLines(job, file, kind, what, verdicts));
    await job.output.write(job.options.json ? joinedBytes(objects) : bytesOfLines([`${job.names[0]}: ${what}`, ...lines].map(visible)));
    if (verdicts) job.say(verdicts.text());
    return Number(found || (verdicts !== null && verdicts.status > 0));
}
