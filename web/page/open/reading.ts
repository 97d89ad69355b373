// Reads the files that were opened: surveys the sectors of an image, lists its files, and hashes it.

import { joinedBytes, type Reader } from '../../core/bytes.js';
import { cancelled } from '../../core/faults.js';
import type { Pool } from '../../core/pool/index.js';
import type { RangeSurvey } from '../../core/sectors/views.js';
import { foundInFile, shiftInFile, surveyedWith, verdictOf, type OpenedTrack, type SurveyedTrack } from '../../core/tasks/index.js';
import { ownFault } from '../../sentences/index.js';
import { Summing, type App, type Image } from '../app/index.js';
import { format, playerTexts, say } from '../texts/index.js';
import { askUser, isCancelled, lostWithImage, nameOf, refuseWhileSaving, showFailure, shownName, type Child } from '../ui/index.js';
import * as texts from '../texts/index.js';

// Reads the files that were opened.

/** Bytes of a slice if reads follow one another, and how many slices are requested while one is used. */
const SLICE_SIZE = 1 << 24;
const SLICES_AHEAD = 2;

/** Up to this many bytes between two reads are read with them: a separate slice would take longer. */
const PASSED_OVER = 1 << 20;

/** A reader of a file's bytes. */
export function fileReader(file: File): Reader & { file: File } {
    const { size } = file;
    const read = cutting(file);
    return { file, size, lent: (from, length) => ({ file, from, size: length }), read: readingOf(file, read),
        forward: () => forwardReader(file, read) };
}

/** A file with its reader, for the tasks of the core. */
export function discFileOf(file: File) {
    return { name: file.name, reader: fileReader(file) };
}

/**
 * The same reader, except that idle workers of the pool read whole slices when it is read forward.
 * @param signal which ends a read even if no worker answers
 */
export function readByWorkers(reader: Reader, pool: Pick<Pool, 'readLent'>, signal: { aborted: boolean }): Reader {
    const { lent } = reader;
    const file = fileOf(reader);
    if (file === null || lent === undefined) return reader;
    const read = cutting(file);
    return { ...reader, forward: () => forwardReader(file, async (at, length) => {
        if (length < SLICE_SIZE || at + length > file.size) return read(at, length);
        return await unlessEnded(signal as AbortSignal, pool.readLent(lent(at, length))) || read(at, length);
    }) };
}

/** Returns a function that reads a slice of a file. */
function cutting(file: File): Reader['read'] {
    return async (at, length) => new Uint8Array(await file.slice(at, at + length).arrayBuffer());
}

/** A reader of a file for reading it forward. */
function forwardReader(file: File, cut: Reader['read']): Reader {
    const slices = new SlicesAhead(file.size, cut);
    return { size: file.size, read: readingOf(file, (at, length) => slices.read(at, length)) };
}

/** Waits for work, but rejects with `cancelled` as soon as the signal is aborted. */
export function unlessEnded<T>(signal: AbortSignal, work: Promise<T>): Promise<T> {
    if (signal.aborted) return Promise.reject(cancelled());
    if (!signal.addEventListener) return work;
    return new Promise((resolve, reject) => {
        const stop = () => reject(cancelled());
        signal.addEventListener('abort', stop, { once: true });
        void work.then(resolve, reject).then(() => signal.removeEventListener('abort', stop));
    });
}

type Slice = { from: number, to: number, bytes: Promise<Uint8Array> };

/** Reads a file forward, in slices requested ahead. The bytes of a slice are not copied. */
class SlicesAhead {
    /** The one that is used, and those after it. */
    slices: Slice[] = [];
    /** How many slices were begun by reads that follow one another, and where the last read ended. */
    row = 0;
    end = -Infinity;

    /**
     * @param size of the file
     * @param cut reads a slice
     */
    constructor(readonly size: number, readonly cut: Reader['read']) {}

    async read(at: number, length: number) {
        while (this.slices.length > 0 && (at < this.slices[0].from || at >= this.slices[0].to)) this.slices.shift();
        if (this.slices.length === 0) this.begin(at, length);
        while (this.row > 1 && this.slices.length <= SLICES_AHEAD && this.last().to < this.size) this.request(this.last().to, SLICE_SIZE);
        const [{ from, bytes }] = this.slices;
        const part = (await bytes).subarray(at - from, at - from + length);
        this.end = at + part.length;
        return part;
    }

    begin(at: number, length: number) {
        const isOn = at >= this.end && at - this.end <= PASSED_OVER;
        this.row = isOn ? this.row + 1 : 0;
        this.request(at, isOn ? Math.max(length, SLICE_SIZE) : length);
    }

    request(from: number, length: number) {
        const bytes = this.cut(from, length);
        bytes.catch(() => {}); // the error is thrown when the slice is used
        this.slices.push({ from, to: Math.min(from + length, this.size), bytes });
    }

    last() {
        return this.slices[this.slices.length - 1];
    }
}

/** Wraps a read function: its failure is reported as a file that is gone, unless it was cancelled. */
function readingOf(file: File, read: Reader['read']): Reader['read'] {
    return async (at, length, room) => {
        try {
            return await read(at, length, room);
        } catch (error) {
            throw isCancelled(error) ? error : ownFault(format(playerTexts.openFileIsGone, { name: shownName(file.name) }));
        }
    };
}

/** The file that a reader reads, or null. */
export function fileOf(reader: Reader) {
    return 'file' in reader ? (reader as Reader & { file: File }).file : null;
}

/** Whether two files are the same, as far as a page can see. */
export function isSameFile(one: File, other: File) {
    return one.name === other.name && one.size === other.size && one.lastModified === other.lastModified;
}

// Asks before work on the open image is lost.

export type Lost = ReturnType<typeof lostWithImage>;

/**
 * Asks whether unsaved work is to be saved or lost.
 * @param labels of the buttons
 */
function askAbout(title: Child[], lost: Lost, { save, close }: { save: string, close: string }) {
    const answers: ['save' | 'close', string[]][] = [['save', [save]], ['close', [close]]];
    const canSave = lost.some(it => it.save !== null);
    return askUser(title, [lost.map(({ what }) => what).join(' ')], canSave ? answers : answers.slice(1), canSave ? 'save' : '');
}

/** Asks before an image or file is closed. */
export function askToClose(name: string, lost: Lost) {
    const labels = { save: 'Save and close', close: 'Close it anyway' };
    return askAbout(say('Close {name}?', { name: nameOf(name) }), lost, labels);
}

/** Whether the open image may be replaced. If work on it would be lost, the user decides. */
async function mayLeave(app: App, lost: Lost): Promise<boolean> {
    const { opened } = app;
    if (opened === null || lost.length === 0) return true;
    const labels = { save: 'Save a list, then continue', close: texts.textShowAnyway };
    const answer = await askAbout([texts.imageDiscardTexts], lost, labels);
    if (answer === '' || app.opened !== opened) return false;
    if (answer === 'close') return true;
    for (const { save } of lost) await save?.();
    return app.opened === opened && mayLeave(app, lostWithImage());
}

// Reads an image that was opened: surveys its sectors, lists its files, and hashes it.

/**
 * Reads a track that is surveyed: the block of its first sector, how many blocks later its sectors are by their addresses (`shift`), and
 * what receives the survey of each range.
 */
type ReadTrack = (track: SurveyedTrack, how: { base: number, shift: number }, take: (answer: RangeSurvey) => void) => Promise<void>;

/**
 * Opens an image in place of the open one and reads it, or with null closes the open one. This is the only way to do it: if work on the
 * open image would be lost, the user is asked first. If not, the image is open when this returns.
 * @param then is called as soon as it is open
 */
export async function readImage(app: App, image: Image | null, then: () => void = () => {}) {
    if (refuseWhileSaving(app)) return;
    const lost = app.isOpen(image) ? [] : lostWithImage();
    if (lost.length > 0 && !await mayLeave(app, lost)) return;
    const signal = app.setImage(image);
    then();
    if (image === null) return;
    try {
        await (image.sha1 === '' ? surveyAndHash(app, image, signal) : surveyOnly(app, image, signal));
    } catch (error) {
        if (!isCancelled(error) && app.image === image) showFailure(error);
    }
}

/** Surveys an image, possibly again. The survey ends when its reading does, complete or not. */
async function surveyBy(app: App, image: Image, signal: AbortSignal, read: ReadTrack) {
    const { base, tail } = image;
    const tracks = surveyedWith(image.opened);
    const survey = app.beginSurvey(base, image.sectors, tracks);
    let isWhole = false;
    try {
        for (const track of tracks) {
            const how = { base: base + track.before, shift: shiftInFile(track, base) };
            await read(track, how, answer => app.addToSurvey(survey, answer));
        }
        const surveys = await foundInFile(tracks, survey);
        survey.mode2 = joinedBytes(surveys.map(({ mode2Found }) => mode2Found));
        survey.marks.addMode2(survey.mode2);
        survey.marks.lose(surveys.flatMap(({ lost }) => lost));
        survey.lacks = surveys.flatMap(({ lack }) => lack || []);
        survey.verdict = verdictOf({ surveys, tail });
        if (signal.aborted) throw cancelled();
        isWhole = true;
    } finally {
        app.endSurvey(survey, isWhole);
    }
}

/** Surveys an image whose hashes are known. */
async function surveyOnly(app: App, image: Image, signal: AbortSignal) {
    await surveyBy(app, image, signal, (track, { base, shift }, take) =>
        app.pool.share('survey', [track.image.reader], { shift, mode2: true }, { base, signal }, take));
    await listFiles(app, image, signal);
}

/** Surveys and hashes an image, reading it once. */
async function surveyAndHash(app: App, image: Image, signal: AbortSignal) {
    const sums = new Summing(app, image.reader, done => app.noteHashed(done));
    try {
        await surveyBy(app, image, signal, ({ before, image: { sectors } }, { base, shift }, take) =>
            sums.read({ base, signal }, take, shift, { before, sectors }));
        const [known] = await Promise.all([sums.end(), listFiles(app, image, signal)]);
        if (signal.aborted) throw cancelled();
        app.setSums(image, known);
    } catch (error) {
        if (app.image === image) app.noteHashed(-1);
        throw error;
    } finally {
        sums.close();
    }
}

/** Lists the files of the image's volume, if it has one. */
async function listFiles(app: App, { opened }: Image, signal: AbortSignal) {
    const contents = await opened.contents().catch(() => null);
    if (signal.aborted) throw cancelled();
    app.setFiles(contents && contents.volume);
}

/** Changes the base of the image, and surveys it again. */
export function changeBase(app: App, base: number) {
    const { image } = app;
    if (image === null) return;
    const { byAddresses } = image.opened;
    readImage(app, countedAs(image, base === byAddresses.image.base ? byAddresses : byAddresses.withBase(base)));
}

/** Returns an image with the blocks of its track numbered as in `opened`. */
export function countedAs(image: Image, opened: OpenedTrack) {
    return { ...image, ...opened.image, opened, part: opened.part };
}
