// The jobs that write images: `merge`, `raw`, `user`, and `extract`.

import { bytesOfLines } from '../core/bytes.js';
import { kindOfFile, type DiscFile, type DiscImage } from '../core/disc/views.js';
import { USER_SIZE, kindName } from '../core/module/index.js';
import { blocksIn, runsWithout, type Run } from '../core/sectors/views.js';
import {
    CONVERTIBLE, addressShift, convertToRaw, extractFile, isConvertible, passUser, repairTrack, verdictOfRepair, type KindRun,
    type OpenedTrack, type Ranges, type Refusal, type Repair, type Shift,
} from '../core/tasks/index.js';
import { blocksText, ownFault, sentenceOf, verdictText } from '../sentences/index.js';
import { RunningHashes, needsOf, sayKnown } from './hashes.js';
import { MOST_UNTESTED, jsonLine, linesOfRuns, mergeObject, nameOfUntested, sayOfRuns, untestedTexts, visible } from './printed.js';
import { entriesAtPath } from './looking.js';
import { openTrackOf } from './opening.js';
import type { Job } from './job.js';

const NOT_CONFIRMED = 'has neither its data nor its EDC: perhaps the dumps are of different versions';
const TRY_PARITY = 'with --parity, such a sector is corrected by its own P and Q instead, if its EDC confirms the result';

/** At most this many places with the same damage in all dumps are listed, since each is also listed as damaged. */
const MOST_ALIKE = 10;

/** The lines about the sectors that were repaired, and those that could not be. */
function repairLines({ taken, corrected, damaged, alike, disputed, wrongAddress, differing, different, lost, unlike }: Repair,
    others: DiscImage[]) {
    const numbers = [taken, damaged, disputed].map(blocksIn).concat(different.reduce((sum, count) => sum + count, 0));
    const inBoth = differing.flatMap((runs, other) => runs.map(run => ({ ...run, other })));
    const sameDamage = `alike ${blocksIn(alike)}, damaged with the same bytes in all dumps:`;
    const notTaken = { true: 'sound, but only with the address of a different block', false: 'damaged, without a sound copy' };
    return [
        ...linesOfRuns(taken, ({ first, last, other }) => `${first}-${last} from ${others[other].name}`),
        ...linesOfRuns(corrected, ({ first, last }) => `${first}-${last} from its own parity`),
        ...linesOfRuns(damaged, ({ first, last, elsewhere }) => `${first}-${last} ${notTaken[`${elsewhere}`]}`),
        ...linesOfRuns(lost, ({ first, last }) => `${first}-${last} lost, without a sound copy`),
        ...unlikeLines(unlike),
        ...linesOfRuns(disputed, ({ first, last }) => `${first}-${last} sound in several dumps, but with different contents`),
        ...linesOfRuns(inBoth, ({ first, last, other }) =>
            `${first}-${last} also sound in ${others[other].name}, but with different contents`),
        ...linesOfRuns(wrongAddress, ({ first, last }) => `${first}-${last} sound, but with the address of a different block`),
        ...alike.length > 0 ? [`${sameDamage} ${blocksText(alike, MOST_ALIKE)}`] : [],
        `taken ${numbers[0]} damaged ${numbers[1]} disputed ${numbers[2]} different ${numbers[3]}`,
    ];
}

/** @param unlike sectors that were not tested and are not the same in all dumps */
function unlikeLines(unlike: KindRun[]) {
    if (unlike.length === 0) return [];
    const lines = unlike.slice(0, MOST_UNTESTED).map(({ first, last, kind }) =>
        `${first}-${last} ${nameOfUntested(kind)}, not tested, and not the same in all dumps`);
    const left = unlike.length - lines.length;
    const all = `untested ${blocksIn(unlike)}, not the same in all dumps: ${kindsOf(unlike)}`;
    return [...lines, ...left > 0 ? [`and ${left} others`] : [], all];
}

/** The number of sectors of each kind, for example 'audio 20, mode2 3'. */
function kindsOf(runs: KindRun[]) {
    const kinds = [...new Set(runs.map(({ kind }) => kind))];
    return kinds.map(kind => `${nameOfUntested(kind)} ${blocksIn(runs.filter(it => it.kind === kind))}`).join(', ');
}

/** Reports the blocks of an image that another image lacks, and those that only the other image has, which the result lacks. */
function sayOtherRange(job: Job, image: DiscImage, other: DiscImage, { common, missing, beyond }: Ranges, out: string) {
    if (missing.length > 0) job.say(`${other.name} has only ${blocksText(common)} of ${image.name}`);
    if (beyond.length === 0) return;
    const [are, them] = blocksIn(beyond) === 1 ? ['is', 'it'] : ['are', 'them'];
    const what = `${blocksText(beyond)} ${are} in ${other.name} but not in ${image.name}, so ${out} lacks ${them} too`;
    job.say(missing.length > 0 ? what : `${what}; to include ${them}, name ${other.name} first`);
}

/**
 * Explains why nothing is repaired.
 * @param names of the image and of the others, as given
 */
function refusedText(refused: Refusal, [name, ...others]: string[]) {
    if (refused.why === 'untested') return `${name} has no sector whose codes can show damage, so it cannot be repaired`;
    const other = others[refused.other];
    if (refused.why === 'apart') {
        const [own, first] = refused.first;
        return `${name} begins with block ${own}, ${other} with block ${first}: they are not the same part of a disc`;
    }
    const { shift, sound, untested, common } = refused;
    const soundText = `${sound} of ${common} sectors are sound in ${name} and in ${other}, and differ`;
    const untestedText = `${untested} of ${common} sectors were not tested in ${name}, and are different in ${other}`;
    const counts = [...sound > 0 ? [soundText] : [], ...untested > 0 ? [untestedText] : []].join('; ');
    const why = shift ? shiftText(shift, shift.isOther ? other : name) : 'one of them is patched, shifted, or of a different disc';
    return `${counts}: ${why}`;
}

/** @param name of the image that is shifted */
function shiftText({ by, first }: Shift, name: string) {
    const count = Math.abs(by);
    const [sectors, are] = count === 1 ? ['1 sector', 'is'] : [`${count} sectors`, 'are'];
    const why = by > 0 ? `${sectors} before that block ${are} missing` : `there ${are} ${sectors} too many before that block`;
    return `${name} is shifted from block ${first} on, because ${why}`;
}

/** Reports the other files of a cue sheet, which are not compared with those of the other dumps. */
function sayOtherFiles(job: Job, { disc, image, track }: OpenedTrack) {
    const count = new Set(disc.tracks.map(({ file }) => file).filter(file => file !== track.file)).size;
    if (count === 0) return;
    const [files, were] = count === 1 ? ['other file', 'was'] : [`${count} other files`, 'were'];
    job.say(`only ${image.name} is repaired: the ${files} of the cue sheet ${were} not compared`);
}

export async function mergeJob(job: Job) {
    const [name, ...more] = job.names;
    const known = await job.knownDumps();
    const out = await job.files.make(more.pop() || '');
    const hash = job.options.json || known ? new RunningHashes(needsOf(job, known)) : null;
    const opened = await openTrackOf(job, name, true);
    const dumps = [];
    for (const other of more) dumps.push(await openTrackOf(job, other, true));
    const [image, ...others] = [opened, ...dumps].map(it => it.image);
    const seen = (bytes: Uint8Array) => void (hash && hash.update(bytes));
    const repair = await repairTrack(job, opened, dumps, piece => out.writePiece(image.reader, piece, seen),
        { ...job.watch, parity: job.options.parity });
    const { refused, unread, untested } = repair;
    if (refused) throw ownFault(refusedText(refused, [name, ...more]));
    sayOtherFiles(job, opened);
    repair.ranges.forEach((ranges, i) => sayOtherRange(job, image, others[i], ranges, out.name));
    others.filter((_, i) => repair.tails[i]).forEach(other =>
        job.say(`the incomplete last sector is different in ${other.name}; that of ${name} is kept`));
    const made = { name: out.name, size: image.reader.size, hashes: hash && hash.digest() };
    await job.output.write(job.options.json && made.hashes ? jsonLine(mergeObject({ ...made, hashes: made.hashes }, known, repair, others))
        : bytesOfLines(repairLines(repair, others).map(visible)));
    untestedTexts(untested, opened.disc.sheet !== null).forEach(text => job.say(text));
    const dump = known && made.hashes ? sayKnown(job, known, made.name, made.size, made.hashes) : undefined;
    const doubtful = runsWithout(repair.doubtful, unread);
    sayOfRuns(job, doubtful, it => `${blocksText([it])}: copied from ${others[it.other].name}, but ${name} ${NOT_CONFIRMED}`);
    sayOfRuns(job, unread, it => `${blocksText([it])}: copied from ${others[it.other].name}; ${name} was not read there, so it cannot `
        + `confirm the copy, but ${repair.same[it.other]} of ${blocksIn(repair.ranges[it.other].common)} sectors are the same in both`);
    if (doubtful.length > 0 && !job.options.parity) job.say(TRY_PARITY);
    const verdict = verdictOfRepair(repair, dump);
    if (verdict.findings.length > 0) job.say(`${out.name}: ${verdictText(verdict)}`);
    return verdict.status;
}

/** The form of a file that `raw` converts. A file whose kind its bytes do not show may be an ISO image without a volume. Throws a Fault. */
async function convertibleKind(job: Job, { name, reader }: DiscFile) {
    const kind = await kindOfFile(job.calls, reader);
    if (isConvertible(kind)) return kind;
    if (kind === 'audio' || kind === 'unknown') return 'iso';
    const sizes = Object.values(CONVERTIBLE).sort((a, b) => a - b).join(', ').replace(/, (?=\d+$)/, ', or ');
    throw ownFault(`expected an image of ${sizes} bytes per sector, but ${name} is ${sentenceOf({ code: 'kind/what', facts: { kind } })}`);
}

export async function rawJob(job: Job) {
    const { first, base = first } = job.options;
    const out = await job.files.make(job.names[1]);
    const image = await job.files.image(job.names[0]);
    const kind = await convertibleKind(job, image);
    if (kind === 'subchannels' && base !== undefined) throw ownFault(`${image.name} has addresses, so it needs no --base`);
    await convertToRaw(job, image, kind, bytes => out.write(bytes), { ...job.watch, base });
    return 0;
}

/** Reports the sectors that are not Mode 1, although their user data was written. Returns whether there are any. */
function sayOthers(job: Job, others: KindRun[]) {
    sayOfRuns(job, others, it => `${blocksText([it])}: ${kindName(it.kind)}, so the bytes written may not be user data`);
    return others.length > 0;
}

export async function userJob(job: Job) {
    const out = await job.files.make(job.names[1]);
    const { part, image } = await openTrackOf(job, job.names[0]);
    const how = { base: part.base, shift: addressShift(image) };
    const wrong: Record<'damaged' | 'elsewhere', Run[]> = { damaged: [], elsewhere: [] };
    const others = await passUser(job.pool, part.reader, part.sectors * USER_SIZE, how, user => out.write(user), wrong);
    sayOthers(job, others);
    sayOfRuns(job, wrong.damaged, it => `${blocksText([it])}: damaged, so ${out.name} may have wrong bytes there, and will not show them`);
    sayOfRuns(job, wrong.elsewhere, it => `${blocksText([it])}: with the address of a different block, so ${out.name} may lack blocks`);
    if (part.base > 0) job.say(`to convert it back: cdscript raw --base ${part.base}`);
    if (part.tail > 0) job.say('the incomplete last sector is left out');
    return Number([others, wrong.damaged, wrong.elsewhere].some(runs => runs.length > 0) || part.tail > 0);
}

export async function extractJob(job: Job) {
    const out = await job.files.make(job.names[2]);
    const opened = await openTrackOf(job, job.names[0]);
    const entries = await entriesAtPath(opened, job.names[1]);
    return Number(sayOthers(job, await extractFile(job, opened, entries, user => out.write(user))));
}
