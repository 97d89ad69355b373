// The state of the page: the disc, the findings in it, the script, and the second image.

import type { KnownDumps } from '../../core/disc/views.js';
import { USUAL_ENCODING, type Encoding } from '../../core/encodings/views.js';
import { newBytes } from '../../core/faults.js';
import type { VolumeFiles } from '../../core/iso/views.js';
import { RECORD_SIZE, type Calls } from '../../core/module/index.js';
import type { Pool } from '../../core/pool/index.js';
import type { ScriptModel } from '../../core/script/views.js';
import { addToRuns, type RangeSurvey, type Survey } from '../../core/sectors/views.js';
import type { Repair, SurveyedTrack, Translation } from '../../core/tasks/index.js';
import { SurveyMarks } from './marks.js';
import { ScriptLines } from './script_lines.js';
import type { Happening, Image, PairJob, PanelName, Parts, PlainFile, Services, Surveyed, Taker } from './state.js';

// What connects the parts of the page: events, services, takers of opened files, and the jobs that run.

/**
 * A job that runs: its name; the place of its bar, null without one; whether it saves an image, so that no image may be opened or closed;
 * whether leaving the page would lose what it saves; when it began, in milliseconds; how much is done, in percent; what ends it; and
 * whether its result is not needed any more.
 */
export type RunningJob = { name: string, place: Element | null, saves: boolean, isLost: boolean, began: number, percent: number,
    signal: AbortSignal, cancel: () => void, isReplaced: boolean };

/** The connections between the parts of the page. */
class Hub {
    listeners = new Map<string, ((detail: any) => void)[]>();
    jobs = new Set<RunningJob>();
    services: Services = { open: async () => {}, choose: () => {}, dropSays: () => [], turnBytes: () => null, saveScript: () =>
        {},
            list: () => {}, convert: () => {}, close: async () => {}, showLeft: () => {} };
    takers: Taker[] = [];

    on(name: Happening, listener: (detail: any) => void) {
        this.listeners.set(name, [...this.listeners.get(name) || [], listener]);
    }

    notify(name: Happening, detail?: unknown) {
        for (const listener of this.listeners.get(name) || []) listener(detail);
    }

    /** Replaces services. Returns a function that restores them. */
    serve(services: Partial<Services>) {
        const before = this.services;
        this.services = { ...before, ...services };
        return () => { this.services = before; };
    }

    /** @param taker is called with each file that is opened */
    addTaker(taker: Taker) {
        this.takers.push(taker);
    }

    /** How many images are being saved. Meanwhile no image is opened or closed. */
    get saves() {
        return [...this.jobs].filter(({ saves }) => saves).length;
    }

    /** The job whose bar is at a place; undefined if none runs there. */
    jobAt(place: Element) {
        return [...this.jobs].find(job => job.place === place);
    }

    /** Notes that a job runs. */
    beginJob(job: Pick<RunningJob, 'name'> & Partial<RunningJob>) {
        const running: RunningJob = {
            place: null, saves: false, isLost: false, began: performance.now(), percent: 0, signal: new AbortController().signal,
            cancel() {}, isReplaced: false, ...job,
        };
        this.jobs.add(running);
        this.notify('jobs');
        return running;
    }

    /** @param name which may have changed with the language */
    noteJob(job: RunningJob, percent: number, name: string = job.name) {
        job.percent = percent;
        job.name = name;
        this.notify('jobs');
    }

    endJob(job: RunningJob | null) {
        if (job === null || !this.jobs.delete(job)) return;
        this.notify('jobs');
        if (job.saves && this.saves === 0) this.notify('saved');
    }
}

/** Milliseconds between the `survey` events while an image is read. */
const TOLD_EVERY = 150;

/** The state of the page. Only its methods change it, and they notify the listeners. */
export class Store extends Hub {
    /** The tables that were loaded, by their files' names. */
    tables: Map<string, Encoding>;
    /** The lists of known dumps that were opened. */
    dumps: KnownDumps[];
    calls; pool; parts; image; second; plain; repair; survey; files; place; script; translation; encoding; panel; reading; closing; pairing;
    told;

    /**
     * @param calls of a module, for short work in the page's own thread
     * @param pool of workers, for longer work
     * @param parts to start workers that are not of the pool
     */
    constructor(calls: Calls, pool: Pool, parts: Parts) {
        super();
        this.calls = calls;
        this.pool = pool;
        this.parts = parts;
        this.image = null as Image | null;
        this.second = null as Image | null;
        this.plain = null as PlainFile | null;
        /** The repair from the second image, if it was determined. */
        this.repair = null as Repair | null;
        this.survey = null as Surveyed | null;
        this.files = null as VolumeFiles | null;
        /** The block and the offset of the user byte that the sector view shows; -1 for none. */
        this.place = { block: -1, offset: -1 };
        this.script = new ScriptLines(calls);
        /** The new texts of the open image or file, null before its texts were listed or imported. */
        this.translation = null as Translation | null;
        this.encoding = USUAL_ENCODING.name;
        this.tables = new Map();
        this.dumps = [];
        this.panel = 'disc' as PanelName;
        /** Ends the reading of the open image. */
        this.reading = new AbortController();
        /** Ends the jobs with the open image, except its reading. */
        this.closing = new AbortController();
        /** Ends the jobs with the second image. */
        this.pairing = new AbortController();
        /** The time of the last `survey` event, in milliseconds. */
        this.told = 0;
    }

    /** Whether an image is the open one, perhaps with another base. */
    isOpen(image: Image | null) {
        return image !== null && this.image !== null && image.disc === this.image.disc && image.number === this.image.number;
    }

    /**
     * Opens an image, or with null closes the open one. The translations of an image that is opened again are kept. Returns the signal that
     * ends its reading.
     */
    setImage(image: Image | null) {
        if (!this.isOpen(image)) this.translation = null;
        this.reading.abort();
        this.closing.abort();
        this.reading = new AbortController();
        this.closing = new AbortController();
        this.image = image;
        this.plain = null;
        this.second = null;
        this.repair = null;
        this.survey = null;
        this.files = null;
        this.script.base = image === null ? 0 : image.base;
        this.place = { block: -1, offset: -1 };
        this.notify('image');
        this.notify('second');
        return this.reading.signal;
    }

    /** @param plain an ordinary file, which is open in place of an image */
    openPlain(plain: PlainFile) {
        this.setImage(null);
        this.plain = plain;
        this.notify('plain');
    }

    /** What is open: an image, or an ordinary file. */
    get opened() {
        return this.image || this.plain;
    }

    /** @param job the first job for it */
    setSecond(second: Image | null, job: PairJob = 'compare') {
        this.second = second;
        this.repair = null;
        this.notify('second', job);
    }

    /** @param repair from the second image */
    setRepair(repair: Repair) {
        this.repair = repair;
        this.notify('repair');
    }

    /**
     * Begins the survey of an image. `addToSurvey` adds to it as the image is read.
     * @param tracks with these sectors
     */
    beginSurvey(base: number, sectors: number, tracks: SurveyedTrack[] = []) {
        const began = performance.now();
        const survey: Surveyed = {
            tracks, block: base, records: newBytes(sectors * RECORD_SIZE), mode2: newBytes(sectors), filled: [], moved: [], known: 0,
            marks: new SurveyMarks(base, sectors), verdict: null, lacks: [], began, ended: 0, over: false,
        };
        this.survey = survey;
        this.told = began;
        this.notify('survey');
        return survey;
    }

    /** @param more of the next sectors */
    addToSurvey(survey: Surveyed, { block, records, filled = [], moved = [], mode2 = newBytes(0) }: Survey & Partial<RangeSurvey>) {
        survey.mode2.set(mode2, block - survey.block);
        survey.records.set(records, (block - survey.block) * RECORD_SIZE);
        for (const run of filled) addToRuns(survey.filled, run);
        for (const run of moved) addToRuns(survey.moved, run);
        survey.known += records.length / RECORD_SIZE;
        survey.marks.add(survey.records, survey.known);
        const now = performance.now();
        if (now - this.told < TOLD_EVERY) return;
        this.told = now;
        this.notify('survey');
    }

    endSurvey(survey: Surveyed, isWhole: boolean) {
        if (isWhole) survey.ended = performance.now();
        survey.over = true;
        this.notify('survey');
        if (isWhole) this.notify('surveyed');
    }

    setFiles(files: VolumeFiles | null) {
        this.files = files;
        this.notify('files');
    }

    /** @param done how many bytes of the image were hashed, or -1 if hashing has stopped */
    noteHashed(done: number) {
        this.notify('hash', done);
    }

    setSums(image: Image, { sha1, crc32 }: { sha1: string, crc32: string }) {
        image.sha1 = sha1;
        image.crc32 = crc32;
        this.noteHashed(image.reader.size);
    }

    /** Notes under which name the patched image was saved. */
    noteSaved(image: Image, name: string) {
        image.renamed.set(image.name, name);
    }

    /** @param translation the document with the new texts of what is open */
    setTranslation(translation: Translation) {
        this.translation = translation;
        return translation;
    }

    /** @param name of an encoding or of a table */
    chooseEncoding(name: string) {
        this.encoding = name;
        this.notify('encoding');
    }

    /**
     * Adds a table, and makes it the current encoding.
     * @param name of its file
     */
    addTable(name: string, table: Encoding) {
        this.tables.set(name, table);
        this.chooseEncoding(name);
    }

    /** @param dumps a list of them, kept as long as the page is open */
    addDumps(dumps: KnownDumps) {
        this.dumps.push(dumps);
        this.notify('dumps');
    }

    /** @param data of a patcher, to be edited */
    workOn(data: unknown) {
        this.notify('patcher', data);
    }

    /** Notes that a line was typed in the panel Script. */
    noteTyped() {
        this.notify('script', null);
    }

    /**
     * Replaces the text of the script.
     * @param name of its file
     * @param saved whether it is in that file
     * @param known of the text, if it was read already
     */
    setScript(text: string, name: string, saved: boolean, known: ScriptModel | null = null) {
        const back = this.script.take(text, name, known);
        if (saved) this.script.noteSaved();
        this.notify('script', { back });
    }

    /**
     * Adds patches at the end of the script, or before one of its lines. Returns the number of the last line added. Throws what
     * ScriptLines.add throws.
     * @param typed 'bytes' if they were typed as bytes of a sector
     */
    addLines(lines: string[], typed: '' | 'bytes' = '', before: number = 0) {
        const number = this.script.add(lines, typed, before);
        this.notify('script', { back: null });
        return number;
    }

    /**
     * Replaces a line.
     * @param typed as for addLines
     */
    replaceLine(number: number, line: string, typed: '' | 'bytes' = '') {
        this.script.edit(number - 1, 1, [line], typed);
        if (typed === '') this.script.made.add(line);
        this.notify('script', { back: null });
    }

    /**
     * Chooses a place of the image, and shows the Disc panel if `show` is set.
     * @param offset of a user byte
     */
    goTo(block: number, offset: number = -1, show: boolean = false) {
        const wasHidden = show && this.panel !== 'disc';
        this.place = { block, offset };
        if (show) this.showPanel('disc');
        this.notify('place', { show, wasHidden });
    }

    /** @param line of the script, from 0, to be shown in its panel */
    goToLine(line: number) {
        this.showPanel('script');
        this.notify('line', line);
    }

    showPanel(name: PanelName) {
        this.panel = name;
        this.notify('panel');
    }
}
