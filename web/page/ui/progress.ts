// The progress bar of a job, with the amount done, the rate, the time left, and Cancel, which Escape presses in the job's card.

import { SECTOR_SIZE } from '../../core/module/index.js';
import type { RunningJob } from '../app/index.js';
import { counted, format, playerTexts, say } from '../texts/index.js';
import { button, byId, element, fill, type Child } from './dom.js';

// Calculates the progress, the rate, and the remaining time of a job.

/** The pace of a job: its percentage, its rate per second, and the seconds left. */
export class Pace {
    began;

    /** @param now in milliseconds */
    constructor(readonly all: number, now: number) {
        this.began = now;
    }

    at(done: number, now: number) {
        const seconds = Math.max(now - this.began, 1) / 1000;
        const rate = done / seconds;
        return {
            percent: this.all === 0 ? 100 : Math.floor(100 * done / this.all),
            rate,
            left: rate === 0 ? 0 : Math.ceil((this.all - done) / rate),
        };
    }
}

// A line that screen readers speak after a pause.

/** The milliseconds after the last change of a line until it is spoken. */
const SPOKEN_AFTER = 1000;

/** A hidden copy (`part`) of a line that changes often, for screen readers. `changed` is called after each change. */
export function spokenLine(line: HTMLElement) {
    const part = element('p', { class: 'hide', 'aria-live': 'polite' });
    let waiting = 0;
    const changed = () => {
        window.clearTimeout(waiting);
        waiting = window.setTimeout(() => { part.textContent = line.textContent; }, SPOKEN_AFTER);
    };
    return { part, changed };
}

// Splits long work into parts, so that the browser stays responsive.

/** Waits between two parts of long work, so that the browser can handle events such as a key press. */
export function nextTurn() {
    return new Promise(resolve => { setTimeout(() => resolve(undefined)); });
}

/** Milliseconds after which a job is long. */
const LONG_AFTER = 500;

let waiting = 0;

/** Shows in the bar of the page the long jobs that the visible panel does not show, or else the one that began first. */
export function drawLongJobs(jobs: Set<RunningJob>) {
    clearTimeout(waiting);
    const now = performance.now();
    const withBars = [...jobs].filter(({ place }) => place !== null);
    const long = withBars.filter(({ began }) => now - began >= LONG_AFTER);
    if (long.length < withBars.length) waiting = window.setTimeout(drawLongJobs, LONG_AFTER, jobs);
    const elsewhere = long.filter(({ place }) => place !== null && place.closest('[hidden]') !== null);
    const shown = elsewhere.length > 0 ? elsewhere : long.slice(0, 1);
    byId('long-job').hidden = shown.length === 0;
    fill(byId('long-job'), ...shown.map(longJobLine));
}

function longJobLine({ name, percent }: RunningJob) {
    const line = element('i');
    line.style.width = `${percent}%`;
    const values = { 'aria-valuemin': 0, 'aria-valuemax': 100, 'aria-valuenow': percent };
    return element('div', { role: 'progressbar', 'aria-label': name, ...values }, line,
        element('span', {}, `${name} ${format(playerTexts.inPercent, { n: percent })}`));
}

/**
 * Creates a progress bar. Each of its functions receives the amount done and the total: `at` in bytes, `sectors` in sectors, `things` in
 * other things.
 * @param name what the job does, for screen readers
 * @param how whether an image is saved; the name of the `things`, in the plural; and a function that receives how much is done
 */
export function jobBar(name: string, cancel: () => void,
    { saves = false, noun = '', note }: { saves?: boolean, noun?: string, note: (percent: number) => void }) {
    const bar = element('i');
    const progress = element('div', { class: 'progress', role: 'progressbar', 'aria-label': name, 'aria-valuemin': 0,
        'aria-valuemax': 100 }, bar);
    const facts = element('p', { class: 'facts' });
    const pace = { now: null as Pace | null, drawn: 0 };
    const draw = (done: number, all: number, amounts: (rate: number) => Child[]) => {
        const now = performance.now();
        if (pace.now === null || pace.now.all !== all) pace.now = new Pace(all, now);
        if (all > 0 && now - pace.drawn < 100 && done < all) return;
        pace.drawn = all > 0 ? now : 0;
        const { percent, rate, left } = all === 0 ? { percent: 0, rate: 0, left: 0 } : pace.now.at(done, now);
        bar.style.width = `${percent}%`;
        progress.setAttribute('aria-valuenow', String(percent));
        note(percent);
        fill(facts, element('span', {}, bold(format(playerTexts.inPercent, { n: percent }))),
            ...all === 0 ? [] : [...amounts(rate), timeLeft(left)]);
    };
    const at = (done: number, all: number) => draw(done, all, rate => megabytesDone(done, all, rate));
    const things = (done: number, all: number) => draw(done, all, () =>
        [element('span', {}, ...say('{done} of {all} {things}', { done: bold(counted(done)), all, things: noun }))]);
    const sectors = (done: number, all: number) => at(done * SECTOR_SIZE, all * SECTOR_SIZE);
    at(0, 0);
    return { at, sectors, things, parts: [progress, facts, jobEnd(cancel, saves)] };
}

function bold(text: string) {
    return element('b', {}, text);
}

/**
 * The bytes done, the total, and the rate, in megabytes.
 * @param rate bytes a second
 */
export function megabytesDone(done: number, all: number, rate: number) {
    return [element('span', {}, ...say(playerTexts.megabytesOf, { done: bold(megabytes(done)), all: megabytes(all) })),
        element('span', {}, ...say(playerTexts.megabytesASecond, { rate: bold(megabytes(rate)) }))];
}

/** @param seconds that a job still takes */
export function timeLeft(seconds: number) {
    return element('span', {}, ...say(playerTexts.timeLeft, { time: bold(format(playerTexts.inSeconds, { seconds: String(seconds) })) }));
}

/** The button that ends a job. Escape in its card presses it, but asks first if an image is being saved. */
export function jobEnd(cancel: () => void, saves: boolean) {
    const row = element('div', { class: 'row' }, button('', cancel, playerTexts.cancel));
    const show = (part: HTMLElement) => {
        fill(end, part);
        (part.querySelector('.btn') as HTMLElement).focus();
    };
    const question = element('div', { class: 'say warn', role: 'alert' }, bold(playerTexts.endTheSaving), playerTexts.noImageIsKept,
        element('div', { class: 'row' }, button('', () => show(row), playerTexts.goOnSaving), button('away', cancel, playerTexts.endIt)));
    const escaped = () => saves ? show(question.isConnected ? row : question) : cancel();
    const end = element('div', { class: 'job-end', escape: escaped }, row);
    return end;
}

/**
 * Shows that a job is already running, until it ends.
 * @param place of its bar
 */
export function sayBusy(place: Element) {
    place.querySelector('.is-busy')?.remove();
    place.append(element('p', { class: 'is-busy', role: 'status' }, playerTexts.anotherJobRuns));
}

/** Handles Escape for the job of the card that has the focus. Returns whether there is one. */
export function escapeJob(focused: Element | null) {
    const card = focused && focused.closest('.card, .step');
    const end = card && card.querySelector('.job-end');
    if (end) end.dispatchEvent(new Event('escape'));
    return Boolean(end);
}

/** Formats a size in megabytes, with one decimal if it is less than 100. */
export function megabytes(bytes: number) {
    const tenths = Math.round(bytes / 1e5);
    return counted(tenths < 1000 ? tenths / 10 : Math.round(bytes / 1e6));
}
