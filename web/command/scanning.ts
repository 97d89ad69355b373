// The job `scan`: examines each image of a collection, and writes its lines in the order of the names.

import { once } from 'node:events';
import { cpus } from 'node:os';
import { basename } from 'node:path';
import { parentPort } from 'node:worker_threads';
import { bytesOfLines, joinedBytes } from '../core/bytes.js';
import type { Disc, KnownDumps } from '../core/disc/views.js';
import { Fault, failedBy } from '../core/faults.js';
import {
    NO_IMAGE, examineFile, listedColumns, listedName, otherSummary, summaryByDat, type FileFound, type FileSummary,
} from '../core/tasks/index.js';
import { sentenceOf } from '../sentences/index.js';
import { Collection } from './collection.js';
import { Files } from './files.js';
import { RunningHashes, Verdicts, gameLines, gamesObject, needsOf, readingOnce, type Needs } from './hashes.js';
import { Job, type Target } from './job.js';
import { missingText, siblingsOf, surveyedIn } from './opening.js';
import { fileObject, jsonLine, untestedTexts } from './printed.js';
import { LinesInOrder, resumedList, unitsOf, type FileState, type ResumedList, type Unit } from './scan_list.js';
import { begunThread } from './threads.js';

// A thread of `scan`, which examines one image after the other without the help of other threads.

/**
 * The findings in the files of an image or a sheet; the messages about them, and about missing files; and the error if the files cannot be
 * examined, else ''.
 */
export type Answer = { files: FileSummary[], notes: string[], missing: string[], fault: string };

/** Reports the sectors that were not tested in a file with tested sectors, if there is no cue sheet that gives their kind. */
function sayUntested(job: Job, { sheet }: Disc, { file: { name }, surveys }: FileFound) {
    if (sheet !== null) return;
    for (const { mode1, mode2, untested } of surveys) {
        if (mode1 + mode2.tested > 0) untestedTexts(untested, false).forEach(text => job.say(`${name}: ${text}`));
    }
}

/** The answer if a file cannot be examined. */
function failedAnswer(fault: string, notes: string[] = []): Answer {
    return { files: [], notes, missing: [], fault };
}

/** An image to examine, or a sheet, and the files of the sheet that were examined before. */
type Asked = { name: string, needs: Needs, done: string[] };

async function scanOne({ name, needs, done }: Asked): Promise<Answer> {
    const files = new Files(0);
    const notes: string[] = [];
    const messages = { say: (note: string) => void notes.push(note), progress() {}, hideProgress() {} };
    const job = new Job({ job: 'scan', names: [name], options: {} }, { input: 0, output: 1, errors: 2 }, files, messages);
    job.pool.isAlone = true;
    files.warn = text => job.say(text);
    try {
        const { disc, found, summaries, missing } = await examineFile(job.calls, await files.image(name), {
            siblings: siblingsOf(job), read: readingOnce(job, needs), tracksOf: it => surveyedIn(job, it),
            changeOf: it => files.changed.get(it.name) || '', isDone: it => done.includes(it),
            whatIs: kind => sentenceOf({ code: 'kind/what', facts: { kind } }),
        });
        if (disc !== null) found.forEach(it => sayUntested(job, disc, it));
        const absent = missing.map(({ number, fileName }) => `track ${number} of ${name} is in the missing file ${fileName}`);
        return { files: summaries, notes, missing: absent, fault: '' };
    } catch (error) {
        if (!(error instanceof Fault)) throw error;
        if (failedBy(error, 'disc/missing-files')) return { ...failedAnswer('', notes), missing: [missingText(error)] };
        const sentence = sentenceOf(error);
        return failedAnswer(error.facts.file === name ? sentence : `${name}: ${sentence}`, notes);
    } finally {
        files.close();
    }
}

/** Runs in a thread of `scan`: receives names, and replies with answers. */
export function serveScan() {
    parentPort?.on('message', (asked: Asked) => {
        scanOne(asked).catch(error => failedAnswer(`${asked.name}: ${error}`)).then(answer => parentPort?.postMessage(answer, []));
    });
}

// The threads of `scan`: each examines one file after the other.

/** Threads that examine files, several at a time, in the order in which they are asked for. */
class Scanners {
    /** Those that wait for a thread, in order. */
    waiting: ((thread: ReturnType<typeof begunThread>) => void)[] = [];
    threads; free;

    /** @param count of threads; the current thread is the only one of one */
    constructor(count: number) {
        this.threads = Array.from({ length: count }, () => count === 1 ? null : begunThread(true));
        this.free = [...this.threads];
    }

    async scan(asked: Asked) {
        const [thread] = this.free.length > 0 ? this.free.splice(-1)
            : [await new Promise<ReturnType<typeof begunThread>>(resolve => this.waiting.push(resolve))];
        const answer = await this.answer(thread, asked);
        const next = this.waiting.shift();
        if (next) next(thread);
        else this.free.push(thread);
        return answer;
    }

    /** The answer of a thread. Without threads, and after the thread has failed, the current thread examines the file. */
    async answer(thread: ReturnType<typeof begunThread>, asked: Asked): Promise<Answer> {
        if (thread === null || !await thread.begun || thread.isGone) return scanOne(asked);
        thread.worker.postMessage(asked, []);
        return once(thread.worker, 'message').then(([answer]) => answer, error => failedAnswer(`${asked.name}: ${error}`));
    }

    close() {
        for (const thread of this.threads) if (thread !== null) void thread.worker.terminate();
    }
}

/** How many files are begun before the first of them is done. The answers of the others are kept until then. */
const AHEAD = 256;

/** The words of the line of a cue sheet. */
const SHEET = sentenceOf({ code: 'kind/what', facts: { kind: 'cue' } });

/** The results for a collection so far. */
class Scan {
    /** Null for a list that is continued, which is put in order at the end. */
    order: LinesInOrder | null = null;
    /** The names in a list that is continued. */
    done = new Set<string>();
    /** The names of cue sheets in it, whose lines say nothing of the files that they name. */
    doneSheets = new Set<string>();
    /** Files in directories that are not part of a disc. */
    others: { name: string, what: string }[] = [];
    status = 0;
    /** The real paths of files that were reported. */
    told = new Set();
    collection; needs; verdicts;

    constructor(readonly job: Job, readonly target: Target, readonly known: KnownDumps | null) {
        this.collection = new Collection(text => this.fault(text), target);
        this.needs = needsOf(job, known);
        this.verdicts = known && new Verdicts(known);
    }

    fault(text: string) {
        this.status = 2;
        this.job.say(text);
    }

    /**
     * Reports what was found in a unit, and writes the lines whose turn it is.
     * @param answer null if it was reported before
     */
    async take(unit: Unit, answer: Answer | null) {
        const lines = this.linesOf([...answer === null ? [] : this.report(unit, answer), ...this.sheetOf(unit)]);
        const bytes = joinedBytes(this.order === null ? [...lines.values()] : this.order.add(unit, lines));
        if (bytes.length > 0) await this.target.write(bytes);
        this.job.output.flush();
    }

    /** Prints the messages about a unit, and returns the files that were found in it. */
    report({ wanted: { isNamed } }: Unit, { files, notes, missing, fault }: Answer) {
        notes.forEach(note => this.job.say(note));
        files.forEach(file => this.tellOther(file, isNamed));
        if (fault !== '') this.fault(fault);
        missing.forEach(text => this.job.say(text));
        if (missing.length > 0) this.status = Math.max(this.status, 1);
        return files;
    }

    /** A cue sheet itself, if the DAT lists it by its name or by its bytes. */
    sheetOf({ wanted }: Unit) {
        const bytes = this.known === null ? null : this.collection.bytesOfSheet(wanted);
        if (bytes === null || this.known === null) return [];
        const hash = new RunningHashes(this.needs);
        hash.update(bytes);
        const { name, state } = wanted;
        const file = { name, size: bytes.length, changed: state ? state.changed : '', hashes: hash.digest() };
        const isListed = this.known.sheets.has(basename(name)) || this.known.dumpOf(file.size, file.hashes) !== null;
        return isListed ? [otherSummary(file, 'cue', SHEET)] : [];
    }

    /** The lines of those files that were not reported before, by their names in the list. */
    linesOf(files: FileSummary[]): Map<string, Uint8Array> {
        const fresh = files.filter(({ name }) => !this.told.has(this.collection.fileNamed(name).real))
            .map(it => summaryByDat(it, this.known, basename(it.name)));
        fresh.forEach(({ name }) => this.told.add(this.collection.fileNamed(name).real));
        this.status = Math.max(this.status, ...fresh.map(({ verdict }) => verdict.status));
        const unlisted = fresh.filter(({ name }) => !this.done.has(listedName(name)));
        unlisted.forEach(it => this.count(it));
        return new Map(unlisted.map(it => [listedName(it.name), this.lineOf(it)]));
    }

    lineOf(file: FileSummary) {
        if (this.job.options.json) return jsonLine(fileObject(file, this.known));
        return bytesOfLines([listedColumns(file, this.known, basename(file.name), sentenceOf).join('\t')]);
    }

    /**
     * Counts a file that a DAT may know. A file that is not an image is counted as unknown only if a dump has its size, or its name and it
     * is a cue sheet.
     * @param isThere whether it still exists
     */
    count({ name, size, hashes, kinds }: Pick<FileSummary, 'name' | 'size' | 'hashes' | 'kinds'>, isThere: boolean = true) {
        if (this.known === null || this.verdicts === null) return;
        const own = basename(name);
        const isExpected = !kinds.startsWith(NO_IMAGE) || this.known.hasSize(size) || this.known.sheets.has(own);
        this.verdicts.add(this.known.find(size, hashes, own), isExpected);
        if (isThere) this.verdicts.addFile(size, hashes);
    }

    /** Reports a file if it is not part of a disc: at once if it was given by its name, or else at the end. */
    tellOther({ name, kinds }: Pick<FileSummary, 'name' | 'kinds'>, isNamed: boolean) {
        if (!kinds.startsWith(NO_IMAGE) || kinds === NO_IMAGE + SHEET) return;
        const what = kinds.slice(NO_IMAGE.length);
        if (isNamed) this.fault(`${name} is ${what}`);
        else this.others.push({ name, what });
    }

    /**
     * Whether a file has been reported: it is in the list, or it was examined as a file of a sheet; or all files that a sheet names are in
     * the list, which then count as reported, as in a run that was not interrupted.
     */
    isTold({ wanted: { name, real }, named, isWhole }: Unit) {
        const own = listedName(name);
        if ((this.done.has(own) && !this.doneSheets.has(own)) || this.told.has(real)) return true;
        if (named.length === 0 || !isWhole || !named.every(it => this.done.has(listedName(it)))) return false;
        named.forEach(it => this.told.add(this.collection.fileNamed(it).real));
        return true;
    }
}

/** The files to examine, and those that sheets among them name, by their names in a list, with their states, as far as they are known. */
function statesOf(units: Unit[]) {
    const named = units.flatMap(it => it.named).map((name): [string, FileState | null] => [listedName(name), null]);
    return new Map([...named, ...units.map(({ wanted: { name, state } }): [string, FileState | null] => [listedName(name), state])]);
}

/** A thread examines at least so many bytes, since its start takes as long as some of them. To open a file takes as long as FOR_OPENING. */
const BYTES_FOR_THREAD = 3e8;
const FOR_OPENING = 5e5;

/** How many threads examine files: at most one for each sheet or file, as sheets that name the same file wait for each other. */
function threadCount(collection: Collection, units: Unit[]) {
    const files = units.map(({ wanted, named }) => named.length > 0 ? named.map(it => collection.fileNamed(it)) : [wanted]);
    const sizes = new Map(files.flat().map(({ id, state }) => [id, FOR_OPENING + (state ? state.size : 0)]));
    const work = [...sizes.values()].reduce((sum, size) => sum + size, 0);
    return Math.min(cpus().length || 1, new Set(files.map(([first]) => first.id)).size, Math.ceil(work / BYTES_FOR_THREAD));
}

export async function scanJob(job: Job) {
    const known = await job.knownDumps();
    const list = await resumedList(job);
    const scan = new Scan(job, list || await job.target(), known);
    await scan.collection.addPaths(job.names);
    const units = unitsOf(scan.collection);
    const scanners = new Scanners(threadCount(scan.collection, units));
    try {
        if (list) goOn(scan, list, units, await list.bringUpToDate(statesOf(units), scan.needs, known));
        else scan.order = new LinesInOrder(units);
        await scanAll(scan, units, scanners);
        if (list) await list.sort();
    } finally {
        scanners.close();
        if (list) await list.close();
    }
    sayOthers(job, scan.others);
    const { verdicts } = scan;
    if (verdicts === null) return scan.status;
    if (verdicts.known.games.length > 0) {
        const { json, missing = false } = job.options;
        const games = verdicts.games();
        if (json) await scan.target.write(jsonLine(gamesObject(games, missing)));
        else gameLines(games, missing).forEach(line => job.say(line));
    }
    job.say(verdicts.text());
    return Math.max(scan.status, verdicts.status);
}

/**
 * Continues a list, and reports its contents as a run that was not interrupted: the verdict of the DAT on each line, and the files that
 * were given by their names and are not images.
 * @param changed how many lines the DAT has changed
 */
function goOn(scan: Scan, list: ResumedList, units: Unit[], changed: number) {
    const lines = [...list.lines.values()];
    const absent = lines.filter(({ isThere }) => !isThere).length;
    const [files, theirs] =
        absent === 1 ? ['1 file no longer exists', 'its line is'] : [`${absent} files no longer exist`, 'their lines are'];
    if (absent > 0) scan.job.say(`${list.name}: ${files}, but ${theirs} kept`);
    if (changed > 0) {
        const rows = changed === 1 ? '1 line' : `${changed} lines`;
        scan.job.say(`${list.name}: the seventh column was updated from the DAT; ${rows} changed`);
    }
    scan.done = new Set(lines.map(({ listed }) => listed));
    scan.doneSheets = new Set(lines.flatMap(({ listed, kinds }) => kinds === NO_IMAGE + SHEET ? [listed] : []));
    if (lines.some(({ hasFindings }) => hasFindings)) scan.status = Math.max(scan.status, 1);
    for (const line of lines) if (line.isLookedUp) scan.count(line, line.isThere);
    const named = new Set(units.flatMap(({ wanted: { name, isNamed } }) => isNamed ? [name] : []));
    lines.filter(({ name }) => named.has(name)).forEach(line => scan.tellOther(line, true));
}

/** Reports the number of files that are not raw images, and lists those that are named like one, for example an empty or damaged image. */
function sayOthers(job: Job, others: { name: string, what: string }[]) {
    if (others.length === 0) return;
    job.say(others.length === 1 ? '1 file is not a raw image' : `${others.length} files are not raw images`);
    const alike = others.filter(({ name }) => /\.(bin|img)$/i.test(name));
    const lines = alike.map(({ name, what }) => `${name} has the extension of a raw image, but is ${what}`);
    for (const line of lines.sort()) job.say(line);
}

/** The files of a unit that other units may have too: those that a sheet names, and a file with several names. */
function sharedOf({ wanted: { name, real, id }, named }: Unit) {
    return named.length > 0 || id === real ? named : [name];
}

/**
 * Examines all files, each once: a sheet waits for those before it that name the same files, and so does a file with several names. A file
 * that cue sheets name is examined by itself if they have left it out.
 */
async function scanAll(scan: Scan, units: Unit[], scanners: Scanners) {
    const idOf = (name: string) => scan.collection.fileNamed(name).id;
    const examined = new Map<string, FileSummary>();
    const last = new Map<string, Promise<Answer | null>>();
    const examine = async (unit: Unit) => {
        const shared = sharedOf(unit);
        await Promise.all(shared.map(it => last.get(idOf(it))));
        const known = shared.flatMap(name => {
            const file = examined.get(idOf(name));
            return file ? { ...file, name } : [];
        });
        const { wanted: { name }, named } = unit;
        const answer = named.length === 0 && known.length > 0 ? failedAnswer('')
            : await scanners.scan({ name, needs: scan.needs, done: known.map(it => it.name) });
        if (shared.length > 0) answer.files.forEach(it => examined.set(idOf(it.name), it));
        return { ...answer, files: [...answer.files, ...known] };
    };
    const begin = (unit: Unit) => {
        const answer = scan.isTold(unit) ? Promise.resolve(null) : examine(unit);
        answer.catch(() => {}); // it is thrown when its turn comes
        sharedOf(unit).forEach(it => last.set(idOf(it), answer));
        return answer;
    };
    const takeAll = async (some: Unit[]) => {
        const begun: Promise<Answer | null>[] = [];
        for (const [i, unit] of some.entries()) {
            while (begun.length < AHEAD && i + begun.length < some.length) begun.push(begin(some[i + begun.length]));
            await scan.take(unit, await begun.shift() || null);
            unit.files.forEach(it => void (it.sheets -= 1));
            await takeAll(unit.files.filter(it => it.sheets === 0));
        }
    };
    await takeAll(units.filter(it => it.sheets === 0));
}
