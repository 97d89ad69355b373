// The jobs that write scripts for whole images (`diff`, `rebuilds`, and `undo`), and those that the program cdpatch has too: `check` and
// `apply`.

import { bytesOfLines, type Piece, type Reader } from '../core/bytes.js';
import { kindOfFile, sampledBase, type DiscFile, type DiscImage } from '../core/disc/views.js';
import { Fault, failedBy } from '../core/faults.js';
import { RECORD_SIZE, SECTOR_KIND, STATUS } from '../core/module/index.js';
import { BETWEEN_WRITTEN, LineList, ScriptParts, scriptForBase, type Left, type ReadScript, type Script } from '../core/script/views.js';
import { FIELDS, blocksIn, imageTooLong, isDamaged, kindRuns } from '../core/sectors/views.js';
import {
    FIELD_COUNT, applyScript, compareTrack, findDifferences, openTrack, undoScript, validScript, type Comparison, type Differing,
    type OpenedTrack,
} from '../core/tasks/index.js';
import { blocksText, ownFault, sentenceOf } from '../sentences/index.js';
import type { Job, Target } from './job.js';
import { NewFile } from './new_file.js';
import { openDiscOf, openTrackOf } from './opening.js';
import { sayOfRuns } from './printed.js';

// Prints how many bytes of each field differ between two images: `diff --fields`.

function fieldLines({ blocks, fields }: Differing) {
    return Array.from(blocks, (block, i) => {
        const counts = fields.subarray(FIELD_COUNT * i, FIELD_COUNT * (i + 1));
        return [block, ...Object.keys(FIELDS).map((name, k) => `${name}=${counts[k]}`).filter((_, k) => counts[k] > 0)].join(' ');
    });
}

/** @param fresh of the same size */
async function differingFields(job: Job, target: Target, opened: OpenedTrack, fresh: Reader) {
    const print = (lines: string[]) => target.write(bytesOfLines(lines));
    const { sectors, tail } = await findDifferences(job, opened, fresh, differing => print(fieldLines(differing)));
    if (tail) job.say('the incomplete last sectors differ');
    await print([`sectors ${opened.image.sectors} differ ${sectors}`]);
    return Number(sectors > 0 || tail);
}

// The jobs that the program cdpatch has too: `check` and `apply`, with the program's output, statuses, and limits.

export type Image = Pick<DiscImage, 'name' | 'reader' | 'base'>;

/** The job that reads its script first, and prints an error of the script on standard output, as the program does. */
function withScript(task: (job: Job, script: ReadScript) => Promise<number>): (job: Job) => Promise<number> {
    return async job => {
        let script;
        try {
            script = await validScript(job.calls, job.files.piecesOf(job.names[1]), job.options.long);
        } catch (error) {
            if (!failedBy(error, 'script/refused')) throw error;
            const { kind } = error.facts;
            await job.output.write(bytesOfLines([sentenceOf(error)]));
            if (kind !== null) job.say(sentenceOf({ code: 'disc/other-file', facts: { name: job.names[1], kind } }));
            return STATUS.FAILED;
        }
        return task(job, script);
    };
}

/** The kinds of files that are read as the program reads them: images, and files in which nothing else was recognised. */
const AS_SECTORS = ['raw', 'audio', 'unknown', 'empty'];

/** Throws a Fault if a file cannot be patched: it is too long, or recognised as something else than an image of 2352-byte sectors. */
async function assertSectors(job: Job, { name, reader }: DiscFile) {
    if (imageTooLong(reader.size)) throw new Fault('disc/other-file', { name, kind: 'long' });
    const kind = await kindOfFile(job.calls, reader);
    if (!AS_SECTORS.includes(kind)) throw new Fault('disc/other-file', { name, kind });
}

/** What can be done with an image of Mode 2. */
const ONLY_MODE_1 = 'scripts do not patch: cdscript info tests it, and cdscript merge repairs it';

/** The minimum number of addresses whose majority decides. */
const FEWEST_ADDRESSES = 16;

/**
 * Checks an image without Mode 1 among its sampled sectors. If it has no Mode 1 sector at all, throws a Fault for an image of Mode 2, and
 * prints a message for anything else.
 * @param soundMode2 how many sampled sectors of Mode 2 are sound
 */
async function checkWithoutMode1(job: Job, { name, reader, base }: Image, soundMode2: number) {
    if ([...kindRuns(await job.survey(reader, base))].some(({ kind }) => kind === SECTOR_KIND.MODE1)) return;
    if (soundMode2 > 0) throw ownFault(`${name} is an image of Mode 2, which ${ONLY_MODE_1}`);
    job.say(`no sector of ${name} is Mode 1, and scripts patch no others`);
}

/**
 * Checks that blocks can be counted from 0 without `--base`, as the program counts them. Throws a Fault otherwise. If there are only a few
 * addresses, and all give a different base, prints a message.
 */
function checkBase(job: Job, name: string, { base, agreeing, mode1 }: Awaited<ReturnType<typeof sampledBase>>) {
    if (job.options.base !== undefined || base <= 0 || 2 * agreeing <= mode1) return;
    const found = `most addresses in ${name} say that it begins with block ${base}`;
    if (mode1 >= FEWEST_ADDRESSES) throw ownFault(`${found}: use --base ${base}, or --base 0 to count from 0 anyway`);
    if (agreeing === mode1) job.say(`this image begins with block ${base}: use --base ${base}`);
}

/** Opens the image of a job: a file as the program reads it, or the image of a cue sheet. */
async function openImage(job: Job): Promise<Image> {
    const [name] = job.names;
    const isSheet = /\.cue$/i.test(name);
    const image = isSheet ? (await openTrackOf(job, name, true)).image : { ...await job.files.image(name), base: job.options.base || 0 };
    if (!isSheet) await assertSectors(job, image);
    const addresses = await sampledBase(job.calls, image.reader);
    if (addresses.mode1 === 0) await checkWithoutMode1(job, image, addresses.soundMode2);
    if (!isSheet) checkBase(job, name, addresses);
    return image;
}

/** Throws the error that a script is for a different base, with advice; any other error as it is. */
function adviseBase(error: unknown): never {
    if (!failedBy(error, 'script/other-base')) throw error;
    throw ownFault(`${sentenceOf(error)}: use --base ${error.facts.base}, or delete that line`);
}

/** Applies the patches of the script, and prints their outcomes. Returns the status. */
async function patch(job: Job, image: Image, script: ReadScript, take?: (piece: Piece) => void | Promise<void>) {
    const how = { carry: job.options.carry, near: BETWEEN_WRITTEN, take };
    const { status, text } = await applyScript(job, image, script, how, job.watch).catch(adviseBase);
    await job.output.write(text);
    job.output.flush();
    return status;
}

export const checkJob = withScript(async (job, script) => patch(job, await openImage(job), script));

export const applyJob = withScript(async (job, script) => {
    // The program makes OUT before it reads the image, which may be a pipe.
    await job.files.begin(job.names[0]);
    const out = await job.files.make(job.names[2]);
    const image = await openImage(job);
    return patch(job, image, script, piece => out.writePiece(job.watched(image.reader), piece));
});

/** The status if blocks or patches were left out, and were reported. */
const SOME_LEFT_OUT = 1;

/** The number of threads that compare the sectors that this thread patches. More threads would wait for it. */
const UNDOING_THREADS = 2;

const NOTHING_TO_TAKE_BACK = 'the image already has what the script writes, so nothing can be undone: give the unpatched image';
const DAMAGE_STAYS_OUT = 'the damage is not restored; the address and the user data are';

/** Writes a finished script, which states its base. */
export async function writeFinished(job: Job, target: Target, script: Script) {
    for (const piece of script.pieces) await target.write(piece);
    sayOfScript(job, script);
}

/** Reports the options that are needed to apply a finished script, and whether it has no patch. */
function sayOfScript(job: Job, { patches, long, carry }: Script) {
    if (patches === 0) job.say('the script has no patch');
    if (carry) job.say('the script patches damaged sectors: it needs --carry');
    if (long) job.say('the script is too long for cdpatch: use cdscript apply --long');
}

/** The advice if there is no script: to repair or skip sectors that are damaged in NEW, or to leave out the other differences. */
function remedyOf({ left, tail }: Comparison, newName: string) {
    const them = left.length > 0 ? 'these differences' : 'this difference';
    if (tail || left.some(({ why }) => why !== 'damaged')) return `; use --partial to leave out ${them}`;
    return `; repair ${newName} first, for example with merge, or use --skip-damaged`;
}

/**
 * Writes lines to a file as soon as they are ready. That is safe, since the file gets its name only when it is complete. The head line is
 * known only after the lines.
 */
function takingLines(target: Target) {
    if (!(target instanceof NewFile)) return {};
    return { take: (text: Uint8Array) => target.write(text) };
}

/** Explains why sectors of an image are left out. */
function leftText(left: Left, image: string) {
    return sentenceOf({ code: 'script/left', facts: { runs: [left], image } });
}

export async function diffJob(job: Job) {
    const { skipDamaged, partial = false, track, fields = false } = job.options;
    const [oldName, newName] = job.names;
    const target = await job.target();
    const opened = await openTrackOf(job, oldName, true);
    const { image } = opened;
    const fresh = openTrack(await openDiscOf(job, newName), { track }).image.reader;
    if (image.reader.size !== fresh.size) {
        const sizes = `the images have ${image.reader.size} and ${fresh.size} bytes`;
        throw ownFault(fields ? sizes : `${sizes}, and a script cannot change the length`);
    }
    if (fields) return differingFields(job, target, opened, fresh);
    const made = await compareTrack(job, opened, fresh, { skipDamaged, partial, ...takingLines(target) });
    sayOfRuns(job, made.left, left => leftText(left, newName));
    if (made.tail) job.say('the incomplete last sectors differ, and a script cannot change them');
    if (made.script === null) throw ownFault(`no script can produce ${newName}, so none was written${remedyOf(made, newName)}`);
    if (target instanceof NewFile) {
        await target.writeFirst(made.script.pieces[0]);
        sayOfScript(job, made.script);
    } else await writeFinished(job, target, made.script);
    const left = blocksIn(made.left);
    if (left > 0) job.say(`${partial ? '' : 'damaged '}blocks left out: ${left}`);
    return left > 0 || made.tail ? SOME_LEFT_OUT : 0;
}

export async function rebuildsJob(job: Job) {
    const target = await job.target();
    const { image } = await openTrackOf(job, job.names[0], true);
    const survey = await job.survey(image.reader, image.base);
    const { block, records } = survey;
    const mode2 = blocksIn([...kindRuns(survey)].filter(({ kind }) => kind === SECTOR_KIND.MODE2));
    if (mode2 > 0) job.say(`not tested, since a script cannot rebuild them: Mode 2 sectors, ${mode2} in all; cdscript merge repairs them`);
    const script = new ScriptParts();
    const lines = new LineList();
    for (let at = 0; at < records.length; at += RECORD_SIZE) {
        if (isDamaged(records, at)) lines.rebuild(block + at / RECORD_SIZE);
    }
    script.push(lines.lines());
    await writeFinished(job, target, scriptForBase(script.script(job.calls), image.base));
    return 0;
}

/**
 * The message about refused patches, which asks whether the image is the right one.
 * @param name of the image
 */
function refusedText(refused: number, name: string) {
    return `${refused === 1 ? '1 patch is' : `${refused} patches are`} refused on ${name}: is ${name} the unpatched image?`;
}

/** Throws the error of a script with the prefix of this command, and not that of the program. `name` is that of the script. */
function scriptFailed(error: unknown, name: string): never {
    if (!failedBy(error, 'script/refused')) throw error;
    const { kind } = error.facts;
    if (kind !== null) throw new Fault('disc/other-file', { name, kind });
    throw ownFault(`${name}: ${error.facts.line.replace(/^cdpatch: /, '')}`);
}

export async function undoJob(job: Job) {
    const target = await job.target();
    const opened = await openTrackOf(job, job.names[0], true);
    const { image } = opened;
    const script = job.files.piecesOf(job.names[1]);
    const engine = { calls: job.calls, pool: job.pool.pool(image.sectors, UNDOING_THREADS) };
    const made = await undoScript(engine, opened, script, job.options, job.watch)
        .catch(error => scriptFailed(error, job.names[1]));
    if (made.script === null) throw ownFault(made.why === 'refused' ? refusedText(made.refused, image.name) : NOTHING_TO_TAKE_BACK);
    if (made.refused > 0) job.say(refusedText(made.refused, image.name));
    sayOfRuns(job, made.left, left => left.why === 'damaged' ? `${blocksText([left])}: ${DAMAGE_STAYS_OUT}` : leftText(left, image.name));
    await writeFinished(job, target, made.script);
    return made.refused > 0 || made.left.length > 0 ? SOME_LEFT_OUT : 0;
}
