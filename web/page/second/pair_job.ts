// What repair and comparison share: the job with a second image, its marks on the map, and its sectors.

import { readBytes } from '../../core/bytes.js';
import { filesAt, type VolumeFiles } from '../../core/iso/views.js';
import { SECTOR_SIZE, USER_SIZE } from '../../core/module/index.js';
import type { Run } from '../../core/sectors/views.js';
import { commonPart, type Differing } from '../../core/tasks/index.js';
import { MARK, SURVEY_LOOKS, jobAt, type App, type Look, type SurveyMarks } from '../app/index.js';
import { element, fill, shownName, type MenuItem } from '../ui/index.js';
import * as texts from '../texts/index.js';

// The marks of two images on the map: the sectors that can be repaired, or those that differ.

const FIRST_LOUD = MARK.ADDRESS;
const LOUD_COLOURS = ['--f-address', '--f-edc', '--f-lost'];

/**
 * @param quiet the name of Mode 1 sectors that are not loud
 * @param names of the loud looks: good, bad, other
 */
function looksOf(quiet: string, names: string[]): Look[] {
    const kinds = SURVEY_LOOKS.filter(look => !look.loud).map(look => look.mark === MARK.MODE1 ? { ...look, name: quiet } : look);
    return [...kinds, ...names.map((name, i) => ({ mark: FIRST_LOUD + i, name, colour: LOUD_COLOURS[i], letter: '', loud: true }))];
}

/** The marks of two images, which are all known from the start. */
export class PairMarks {
    counts = new Uint32Array(16);
    base; known; marks;

    /** @param survey of the open image, whose kinds stay visible */
    constructor(survey: SurveyMarks, readonly looks: Look[]) {
        this.base = survey.base;
        this.known = survey.marks.length;
        this.marks = survey.marks.map(mark => mark > MARK.MODE1 && mark < MARK.ADDRESS ? mark : MARK.MODE1);
        for (const mark of this.marks) this.counts[mark] += 1;
    }

    /** @param which of the loud looks */
    set(block: number, which: number) {
        const i = block - this.base;
        this.counts[this.marks[i]] -= 1;
        this.marks[i] = FIRST_LOUD + which;
        this.counts[FIRST_LOUD + which] += 1;
    }

    setRuns(runs: Run[], which: number) {
        for (const { first, last } of runs) {
            for (let block = first; block <= last; block++) this.set(block, which);
        }
    }

    /** The number of sectors with a loud look. */
    count(which: number) {
        return this.counts[FIRST_LOUD + which];
    }
}

export function repairMarks(survey: SurveyMarks, repaired: Run[], unrepaired: Run[]) {
    const marks = new PairMarks(survey, looksOf('no repair needed', [texts.secondCanBeRepaired, texts.secondHaveNoCopy]));
    marks.setRuns(repaired, 0);
    marks.setRuns(unrepaired, 1);
    return marks;
}

/** The loud looks are those of SECOND_STATE, in its order. */
export function compareMarks(survey: SurveyMarks) {
    return new PairMarks(survey, looksOf('same in both', ['differ, sound in the second', texts.secondDamagedInSecond,
        'differ, not Mode 1']));
}

/** Adds the differences of a range. */
export function addDiffering(marks: PairMarks, { blocks, states }: Differing) {
    blocks.forEach((block, i) => marks.set(block, states[i]));
}

// Finds the file of the open image that contains a block, for the tables of two images.

const OWN = { descriptor: 'volume descriptor', directory: 'in a directory' };

/**
 * Returns a function that names the file of a block. It searches the files again only if a block is outside the range of the last search.
 * @param volume null if its files are not known
 */
export function fileSayer(volume: VolumeFiles | null): (block: number) => string {
    if (volume === null) return () => '–';
    const { files, own } = volume;
    let [from, end] = [0, 0];
    let name = '';
    return block => {
        if (block < from || block >= end) {
            const [file] = filesAt(files, block, 0);
            const next = files.find(it => it.block > block);
            from = block;
            const after = next ? next.block : Infinity;
            end = file ? file.block + Math.ceil(file.size / USER_SIZE) : after;
            name = file ? shownName(file.path) : '';
        }
        if (name !== '') return name;
        const kind = own.get(block);
        return kind ? OWN[kind] : texts.sectorInNoFile;
    };
}

// Reads a sector of the second image, and finds out whether a repair uses it.

/** The sector of a block in the second image; null if there is none. */
export async function sectorOfSecond({ image, second }: App, block: number) {
    if (image === null || second === null) return null;
    const { from, to, later } = commonPart(image, second);
    const place = block - image.base;
    return place < from || place >= to ? null : readBytes(second.reader, (place - later) * SECTOR_SIZE, SECTOR_SIZE);
}

/**
 * Whether a repair copies the sector of a block from the second image: '' while that is not known, if the repair is refused, or if it
 * corrects the sector without a copy.
 */
export function repairOf({ repair }: App, block: number): '' | 'taken' | 'doubtful' | 'none' {
    if (repair === null || repair.refused) return '';
    const has = (runs: Run[]) => runs.some(({ first, last }) => first <= block && block <= last);
    if (has(repair.corrected)) return '';
    if (has(repair.doubtful) && !has(repair.unread)) return 'doubtful';
    return has(repair.taken) ? 'taken' : 'none';
}

type Watch = { signal: AbortSignal, progress: (done: number, all: number) => void };

/** A job with two images, or a repair of one. It shows its result in `body` and `table`, and on the map. */
export class PairJob {
    body = element('div', { class: 'stack' });
    table = element('div');
    /** The place of the progress and the result of saving a file or writing a script. */
    place = element('div', { class: 'stack' });
    marks: PairMarks | null = null;
    begun = false;

    /** @param changed is called when the map has to be redrawn */
    constructor(readonly app: App, readonly changed: () => void) {}

    /** The marks of the map if it shows both images, else null. */
    model() {
        return this.marks;
    }

    /** The further actions with the result. */
    actions(): MenuItem[] {
        return [];
    }

    forget() {
        this.begun = false;
        this.marks = null;
        for (const part of [this.body, this.table, this.place]) fill(part);
    }

    /** Compares both images, and shows the result unless the second image has been replaced. After an error it can be started again. */
    async once<Found>(compare: (watch: Watch) => Promise<Found>, show: (found: Found) => Promise<void>) {
        this.begun = true;
        await jobAt(this.app, this.body, {
            name: this.app.second === null ? 'Correcting all damaged sectors' : 'Comparing both images', of: 'pair', replaces: true,
            run: (bar, signal) => compare({ signal, progress: bar.sectors }),
            done: show, failed: error => {
                this.begun = false;
                throw error;
            },
        });
    }
}
