// The state of the page, and the jobs that it runs, for all panels.

import type { Disc, DiscFile, DiscImage, Lack } from '../../core/disc/views.js';
import type { RangeSurvey } from '../../core/sectors/views.js';
import type { ConvertibleKind, OpenedTrack, SurveyedTrack, Verdict, openPlainFile } from '../../core/tasks/index.js';
import { askBeforeLeaving, drawLongJobs, fill, jobBar, sayBusy, type Child } from '../ui/index.js';
import type { SurveyMarks } from './marks.js';
import type { Edit, ScriptLines } from './script_lines.js';
import { Store, type RunningJob } from './store.js';

// Runs jobs with a progress bar. The store lists all jobs that run.

export type Bar = Omit<ReturnType<typeof jobBar>, 'parts'>;
/**
 * A job: its name; what ends it when that is closed (`of`), beside Cancel; the name of the things that it counts, in the plural; whether it
 * saves an image; and whether it replaces a job at the same place, which otherwise refuses it. The bar is shown alone at the place, or with
 * what `around` adds, or as `show` does. `run` does the work. Then `done` receives its result, or `failed` the error, unless what the job
 * is about was closed or replaced meanwhile.
 */
type Job<Result> = { name: string, of?: 'page' | 'image' | 'pair', noun?: string, saves?: boolean, replaces?: boolean,
    around?: (parts: HTMLElement[]) => Child[], show?: (job: RunningJob) => Bar, run: (bar: Bar, signal: AbortSignal) => Promise<Result>,
    done: (result: Result) => unknown, failed: (error: unknown) => unknown };

/** Runs a job with its progress bar at a place. If a job is already running there, shows that instead. */
export async function jobAt<Result>(app: App, place: HTMLElement, job: Job<Result>) {
    const { name, of = 'page', saves = false } = job;
    if (job.replaces) app.endJobAt(place);
    if (app.jobAt(place) !== undefined) return sayBusy(place);
    const { opened, second } = app;
    const shown: HTMLElement[] = [];
    const showAlone = (running: RunningJob) => {
        const note = (percent: number) => app.noteJob(running, percent);
        const bar = jobBar(name, running.cancel, { saves, noun: job.noun, note });
        shown.push(...bar.parts);
        fill(place, ...job.around ? job.around(bar.parts) : bar.parts);
        return bar;
    };
    let isReplaced = false;
    const isCurrent = () => !isReplaced && (of === 'page' || app.opened === opened) && (of !== 'pair' || app.second === second);
    try {
        const result = await app.run({ name, place, of, saves }, async running => {
            try {
                return await job.run((job.show || showAlone)(running), running.signal);
            } finally {
                ({ isReplaced } = running);
            }
        });
        if (isCurrent()) await job.done(result);
    } catch (error) {
        if (isCurrent()) await job.failed(error);
    } finally {
        if (shown.some(part => place.contains(part))) fill(place);
        place.querySelector('.is-busy')?.remove();
    }
    return undefined;
}

/** Shows the long jobs in the bar of the page, and makes the browser ask before the page is left while an image is being saved. */
export function mountJobs(app: App) {
    for (const name of (['jobs', 'panel'] as const)) app.on(name, () => drawLongJobs(app.jobs));
    askBeforeLeaving(() => [...app.jobs].some(({ isLost }) => isLost));
}

/** The module, the workers, and the build tools of the page. The joined page and a served one load them in different ways. */
export type Parts = { module: WebAssembly.Module, newWorker: () => Worker, made: string[] };

/**
 * An open image. `from` is the name of the cue sheet and `sheet` its text, or both are ''. `number` is the number of the chosen track,
 * `part` has only that track, and tasks use `opened`. `sha1` and `crc32` are '' until they are known. `renamed` has the files of the disc
 * that were saved patched, with their new names.
 */
export type Image = DiscImage & { opened: OpenedTrack, part: DiscImage, from: string, sheet: string, disc: Disc, number: number,
    sha1: string, crc32: string, renamed: Map<string, string> };

/** An ordinary file whose texts are translated without an image. */
export type PlainFile = DiscFile & { opened: ReturnType<typeof openPlainFile> };

/**
 * The survey of an image: `records` of RECORD_SIZE bytes for its sectors, of which the first `known` are read so far; what was found in its
 * Mode 2 sectors (`mode2`), settled when all is read; the runs of sectors `filled` with one byte, and of those `moved` to other blocks; the
 * `tracks` that are judged by themselves; the `marks` for the map; and the `verdict` and what its volumes lack (`lacks`), known when all is
 * read. Reading `began` and `ended` at these times in milliseconds; `ended` is 0 if not all was read. `over` says that reading has stopped.
 */
export type Surveyed = RangeSurvey & { known: number, tracks: SurveyedTrack[], marks: SurveyMarks, verdict: Verdict | null, lacks: Lack[],
    began: number, ended: number, over: boolean };

/**
 * An event. An image was opened or closed (`image`), or closed with all work on it (`closed`). An ordinary file was opened (`plain`). More
 * of the image was surveyed (`survey`), or all of it (`surveyed`). More of it was hashed (`hash`, with the number of bytes, or -1 if
 * hashing has stopped). Its files are known (`files`). The second image was opened or closed (`second`, with the first job for it). The
 * repair from it is known (`repair`). All sectors are to be corrected from their own parity (`correct`). A place was chosen (`place`). The
 * script has changed (`script`, with a function `back` that restores the last one if that is not saved, or with null if a line was typed in
 * the panel Script), or is to be checked (`check`). One of its lines was chosen (`line`, from 0). The encoding was chosen, or a table was
 * loaded (`encoding`). A job began, has done more, or ended (`jobs`). No image is being saved any more (`saved`). A list of known dumps was
 * loaded (`dumps`). A different panel is shown (`panel`). The list of files was shown or closed (`listed`). The data of a patcher are to be
 * edited (`patcher`).
 */
export type Happening = 'image' | 'closed' | 'plain' | 'survey' | 'surveyed' | 'hash' | 'files' | 'second' | 'repair' | 'correct'
    | 'place' | 'script' | 'line' | 'check' | 'encoding' | 'jobs' | 'saved' | 'dumps' | 'panel' | 'listed' | 'patcher';

/**
 * The purpose of opening files: a job of the start, `look` to inspect them, `compare` to compare them with the open image, or '' if none
 * was chosen.
 */
export type Aim = '' | 'play' | 'translate' | 'repair' | 'look' | 'compare';

/**
 * Services of parts of the page for all others: `open` opens files, as if they were dropped; `choose` lets the user choose them; `dropSays`
 * returns the text on what happens to files that are dropped; `turnBytes` undoes the last edit of the script, or redoes the one that was
 * undone last, if bytes of a sector were typed by it, and returns it; `saveScript` saves the script in a file; `list` lists what is found
 * in files with different names; `convert` offers to convert a file to a raw image; `close` closes what is open, after a question if work
 * would be lost; `showLeft` shows the first new text that the script lacks.
 */
export type Services = { open: (files: File[], aim: Aim) => Promise<void>, choose: (aim: Aim) => void, dropSays: () => Child[],
    turnBytes: (way: 'undo' | 'redo') => Edit | null, saveScript: () => void, list: (files: File[]) => void,
    convert: (file: DiscFile, kind: ConvertibleKind) => void, close: () => Promise<unknown>, showLeft: () => void };

/** An accepted file: `use` is called when the images opened with it are open, or, if it needs an image, as soon as there is one. */
export type Taken = { needsImage: boolean, use: () => unknown };
/** Is called with each file that is opened, and says whether it accepts it. */
export type Taker = (file: File) => Promise<boolean | Taken>;

export type PanelName = 'disc' | 'text' | 'script' | 'publish';

/** A job with two images. */
export type PairJob = 'repair' | 'compare';

export const PANELS = Object.freeze(['disc', 'text', 'script', 'publish'] as PanelName[]);

/** The state of the page, and its jobs, which end when the images they work on are closed. */
export class App extends Store {
    /** @param files to be opened, as if they were dropped */
    open(files: File[], aim: Aim = '') {
        return this.services.open(files, aim);
    }

    /** @param aim the purpose for which the user chooses files */
    choose(aim: Aim) {
        this.services.choose(aim);
    }

    /**
     * Undoes the bytes typed last in a sector, or redoes those that were undone last. Returns the edit; null if the last edit of the script
     * was a different one.
     */
    turnBytes(way: 'undo' | 'redo') {
        return this.services.turnBytes(way);
    }

    /**
     * Runs a job, which must check its signal. Beside its Cancel, closing the image ends it (`of` is `image`), or also closing or replacing
     * the second image (`pair`).
     */
    async run<Result>({ name = '', place = null, of = 'page', saves = false }: { name?: string, place?: Element | null, of?: 'page'
        | 'image' | 'pair', saves?: boolean }, work: (job: RunningJob) => Promise<Result>) {
        const controller = new AbortController();
        const cancel = () => controller.abort();
        if (of === 'image') this.closing.signal.addEventListener('abort', cancel);
        if (of === 'pair') this.pairing.signal.addEventListener('abort', cancel);
        const job = this.beginJob({ name, place, saves, isLost: saves, signal: controller.signal, cancel });
        try {
            return await work(job);
        } finally {
            this.endJob(job);
        }
    }

    /**
     * Ends a job whose result is not needed any more.
     * @param place of its bar
     */
    endJobAt(place: Element) {
        const job = this.jobAt(place);
        if (job === undefined) return;
        job.isReplaced = true;
        job.cancel();
        this.endJob(job);
    }

    /** The open files: those of the disc and of the second image, with their cue sheets. */
    openFiles() {
        const images = [this.image, this.second].flatMap(image => image || []);
        return images.flatMap(({ disc, from, sheet }) => [...disc.files.map(({ name, reader }) => ({ name, size: reader.size })),
            ...from === '' ? [] : [{ name: from, size: sheet.length }]]);
    }

    /** Closes the image and discards all work on it, so that the page is as at its start. */
    close() {
        this.setImage(null);
        this.script.clear();
        this.notify('script', { back: null });
        this.notify('closed');
        this.showPanel('disc');
    }

    /** Changes the script from outside its panel. */
    changeScript<Result>(change: (script: ScriptLines) => Result) {
        const result = change(this.script);
        this.notify('script', { back: null });
        return result;
    }

    /** Shows the script, and checks it on the open image. */
    checkScript() {
        if (this.panel !== 'script') this.showPanel('script');
        this.notify('check');
    }

    /** Checks a script on the open image after a change by another panel, which stays. The panel Script has the result when it is shown. */
    checkAfterChange() {
        if (this.script.patches > 0 || this.script.long !== null) this.notify('check');
    }

    /** Begins the correction of all damaged sectors from their own parity. Its result replaces the open sector. */
    correctAll() {
        this.goTo(-1);
        this.notify('correct');
    }

    /** Ends the jobs with the second image. */
    endPairing() {
        this.pairing.abort();
        this.pairing = new AbortController();
    }
}
