// The card that shows the saving of a patched image: its progress, the saved file, and the remains after a cancel or a failure.

import { PieceCutter, type Piece } from '../../core/bytes.js';
import type { DiscFile } from '../../core/disc/views.js';
import { failedBy } from '../../core/faults.js';
import { RESULT, SECTOR_SIZE } from '../../core/module/index.js';
import type { Patched } from '../../core/script/views.js';
import { CONVERTIBLE, convertToRaw, type ConvertibleKind, type TakeBytes } from '../../core/tasks/index.js';
import { jobAt, sha1Of, sumsOf, type App, type Image, type RunningJob } from '../app/index.js';
import { fileReader, readImage } from '../open/index.js';
import { counted, format, playerTexts, remarkText, say } from '../texts/index.js';
import { button, element, fill, hashParts, isCancelled, messageOf, nameOf, notice, showNotice, type Child } from '../ui/index.js';
import { adviceOf, canStream, downloadMade } from './files_out.js';
import { saveWork, type PatchWork, type Saved } from './patch_job.js';
import { patchedName, saveImage, type SavedFile } from './save.js';
import { isDiscOfOneTrack, otherFiles, sheetNaming, sheetParts } from './sheet.js';
import * as texts from '../texts/index.js';

// Opens a saved image in place of the one that it was made from.

/**
 * Opens a saved image, with the cue sheet of the old one if that names no other file.
 * @param image that it was made from
 * @param then is called as soon as the old one is closed
 */
export function openSaved(app: App, image: Image, file: File, then: () => void = () => {}) {
    const sheet = sheetNaming(image.sheet, image.renamed);
    const isWhole = sheet !== '' && otherFiles(sheet, file.name).length === 0;
    const files = [file, ...isWhole ? [new File([sheet], file.name.replace(/(\.[^.]*)?$/, '.cue'))] : []];
    readImage(app, null, () => {
        then();
        void app.open(files, 'look');
    });
}

/** Replaces the card Check while an image is being saved, and after that until it is closed. */
export class SaveCard {
    title: Child[] = [];
    head = element('header');
    box = element('div', { class: 'pad stack' });
    /** The browser's own saving of a file, which ends when the user says so, null if there is none. */
    kept: RunningJob | null = null;
    saved: Saved | null = null;
    /** The SHA-1 of the image that was saved last. */
    sum = Promise.resolve('');
    checked = element('div', { role: 'status' });
    message = element('div');
    /** Shows that the file was written to its end. */
    sayWhole = () => {};

    constructor(readonly app: App, readonly redraw: () => void) {
        app.addTaker(file => this.isSaved(file));
    }

    /** Whether an image is being saved. */
    get running() {
        return this.app.jobAt(this.box) !== undefined;
    }

    shown() {
        return this.title.length > 0;
    }

    parts() {
        return [this.head, this.box];
    }

    drawTitle() {
        fill(this.head, element('h2', {}, ...this.title));
    }

    /** Closes the card, so that Check is shown again, unless an image is being saved. */
    leave() {
        if (this.shown() && !this.running) this.close();
    }

    close() {
        this.title = [];
        this.app.endJob(this.kept);
        this.redraw();
    }

    show(title: Child | Child[], ...body: Child[]) {
        fill(this.box, ...body);
        this.entitle(title);
    }

    entitle(title: Child | Child[]) {
        this.title = [title].flat();
        this.drawTitle();
        this.redraw();
    }

    /** Saves the patched image. Returns the outcomes of the patches, or null if nothing was saved. */
    async save(image: Image, work: PatchWork): Promise<Patched | null> {
        const name = patchedName(image.name);
        const oneTrack = isDiscOfOneTrack(this.app.calls, image);
        let made = null as Patched | null;
        await jobAt(this.app, this.box, {
            name: playerTexts.saveSavingImage, saves: true,
            around: parts => [...parts, element('p', { class: 'small quiet' }, 'If you cancel, the browser deletes the unfinished file.')],
            run: (bar, signal) => {
                // The focus goes to Cancel, which is in the box by now.
                this.entitle(say(playerTexts.saveSavingFile, { name: nameOf(name) }));
                const watch = { signal, progress: bar.at, accept: async () => void await oneTrack };
                return saveWork(this.app, { ...work, opened: this.app.openFiles() }, name, '', watch);
            },
            done: async saved => {
                if (saved === null) return this.close();
                ({ made } = saved);
                return this.showSaved(image, saved, await oneTrack);
            },
            failed: error => this.show('Not saved', failureOfSaving(error, work.reader.size),
                element('div', { class: 'row' }, button('back next', () => this.close(), 'Back'))),
        });
        return made;
    }

    /** @param oneTrack whether an image without a cue sheet looks like a whole disc of one track */
    showSaved(image: Image, saved: Saved, oneTrack: boolean) {
        const { made, name, size, streamed, file } = saved;
        this.saved = saved;
        this.app.endJob(this.kept);
        this.kept = streamed ? null : this.app.beginJob({ name, isLost: true });
        const refused = made.outcomes.filter(it => it.result !== RESULT.OK).length;
        const what = () => refused === 0 ? nameOf(name)
            : say('{name}, without {refused} of {n} patch|{name}, without {refused} of {n} patches',
                { name: nameOf(name), refused: String(refused), n: made.outcomes.length });
        const tone = refused === 0 ? 'good' : 'warn';
        this.sayWhole = () => fill(this.message, notice(tone, say(texts.discFileSaved, { name: what() }),
            'All other bytes are as before.'));
        if (streamed) this.sayWhole();
        else fill(this.message, notice(tone, say(playerTexts.saveBrowserIsSaving, { name: what() }), texts.saveKeepPageOpenOnly,
            element('div', { class: 'row' }, button('slim', () => this.noteWhole(), texts.saveIsComplete))));
        this.app.noteSaved(image, name);
        const sheet = sheetParts(image, name, oneTrack);
        fill(this.checked, !streamed && element('p', { class: 'small quiet' }, 'To check what was saved, drop the file on this page.'));
        this.show(streamed ? texts.saveImageSaved : 'Saving by your browser', this.message,
            element('dl', { class: 'hashes' }, element('dt', {}, 'size'), element('dd', {}, counted(size)),
                ...this.sumsOf(saved)),
            this.checked, ...sheet.words,
            element('div', { class: 'row' },
                sheet.save && button('main next', sheet.save, playerTexts.saveCueSheet),
                file && button('away', () => this.openNew(image, file), texts.saveOpenNewImage),
                button(sheet.save ? '' : 'next', () => this.close(), 'Back to Check')), sheet.saved);
    }

    /** Opens the saved file in place of the open image. */
    openNew(image: Image, file: File) {
        openSaved(this.app, image, file, () => this.close());
    }

    /** Shows the SHA-1 and CRC-32 of the saved image as soon as they are calculated. */
    sumsOf(saved: Saved) {
        const [sha1, crc32] = ['saved-sha1', 'saved-crc32'].map(id => element('dd', { id }, '…'));
        const { file } = saved;
        if (file === null) {
            sha1.textContent = 'not available: the browser does not read the file back';
            return [element('dt', {}, 'SHA-1'), sha1];
        }
        const sums = sumsOf(this.app, fileReader(file), { aborted: false }, done => {
            sha1.textContent = format(texts.saveHashPercent, { percent: Math.floor(100 * done / saved.size) });
        });
        this.sum = sums.then(it => it.sha1);
        sums.then(it => {
            fill(sha1, ...hashParts(it.sha1));
            crc32.textContent = it.crc32;
        }, error => {
            sha1.textContent = messageOf(error);
            crc32.textContent = texts.imageHashNotKnown;
        });
        return [element('dt', {}, 'SHA-1'), sha1, element('dt', {}, 'CRC-32'), crc32];
    }

    /** Returns whether a dropped file has the name of the file that was saved last. If so, compares its size and SHA-1. */
    async isSaved(file: File) {
        const { saved } = this;
        if (saved === null || !this.shown() || file.name.replace(/ ?\(\d+\)(?=\.|$)/, '') !== saved.name) return false;
        const wrong = file.size === saved.size ? ''
            : format(playerTexts.saveNotSavedToEnd, { size: file.size, wanted: saved.size });
        const sha1 = wrong ? '' : await sha1Of(this.app.parts, fileReader(file), { aborted: false }, () => {});
        const right = sha1 !== '' && sha1 === await this.sum;
        if (this.saved !== saved) return true;
        const open = button('slim away', () => {
            this.close();
            this.app.open([file]);
        }, 'Open it');
        const name = nameOf(file.name);
        fill(this.checked, right
            ? notice('good', say('Correct: {name}', { name }), 'Its size and SHA-1 are those of the patched image.',
                element('div', { class: 'row' }, open))
            : notice('bad', say('Wrong contents: {name}', { name }), wrong || 'Its SHA-1 does not match. Save it again.'));
        if (right) this.noteWhole();
        return true;
    }

    /** Notes that the browser has saved the whole file. */
    noteWhole() {
        this.app.endJob(this.kept);
        this.sayWhole();
        this.title = [texts.saveImageSaved];
        this.drawTitle();
    }
}

/** A notice on a save that ended early. It says that no image was kept. */
export function failureOfSaving(error: unknown, size: number) {
    if (isCancelled(error)) return notice('plain', playerTexts.saveCancelled, playerTexts.saveNoImageKept);
    if (failedBy(error, 'unwritten')) {
        const { full, done = 0 } = error.facts;
        const percent = size === 0 ? 0 : Math.floor(100 * done / size);
        return notice('bad', full ? format(playerTexts.saveDiskIsFull, { percent }) : format(playerTexts.saveWritingFailed, { percent,
            why: messageOf(error) }),
            playerTexts.saveNoImageKept);
    }
    return notice('bad', messageOf(error), adviceOf(error, playerTexts.saveNoImageKept));
}

// Offers to convert a file, such as an ISO image, to a raw image, and saves that.

/** Why each kind of file is converted, and what is lost. */
const REASONS = { iso: 'Convert it to a raw image, which can be patched, or from which a dump can be repaired.',
    subchannels: 'Convert it to a raw image without subchannels. Keep the file: some copy protections need them.',
    headerless: 'Convert it to a raw image, with sync fields and headers.' };

/** The remark in the names of raw images that are saved, and their extension. */
const RAW = 'raw';
const ENDING = '.bin';

export function mountConversion(app: App) {
    app.serve({ convert: (file, kind) => offerConversion(app, file, kind) });
}

function offerConversion(app: App, file: DiscFile, kind: ConvertibleKind) {
    const place = element('div', { class: 'stack' });
    fill(place, beginRow(app, file, kind, place));
    const what = remarkText({ code: 'kind/what', facts: { kind } });
    showNotice('bad', say('{name} is {what}.', { name: nameOf(file.name), what }), REASONS[kind], place);
}

/** @param place of the progress bar */
function beginRow(app: App, file: DiscFile, kind: ConvertibleKind, place: HTMLElement) {
    return element('div', { class: 'row' }, button('main', () => saveRaw(app, file, kind, place), 'Convert and save…'));
}

/** @param place of the progress bar */
async function saveRaw(app: App, file: DiscFile, kind: ConvertibleKind, place: HTMLElement): Promise<void> {
    const name = patchedName(file.name, RAW, ENDING);
    await jobAt(app, place, {
        name: playerTexts.saveSavingImage, saves: true, run: (bar, signal) => {
            const make = (take: TakeBytes) => convertToRaw(app, file, kind, take, { signal, progress: bar.sectors });
            if (!canStream()) return downloadMade(make, name);
            const pieces = async () => async (take: (piece: Piece) => Promise<void>) => {
                const cutter = new PieceCutter(take);
                await make(bytes => cutter.put(cutter.end, bytes));
            };
            return saveImage([file.reader], pieces, name, app.openFiles(), { signal, progress() {} });
        },
        done: saved => {
            fill(place, beginRow(app, file, kind, place));
            if (saved !== null) showSaved(app, saved);
        },
        failed: error => fill(place, failureOfSaving(error, file.reader.size / CONVERTIBLE[kind] * SECTOR_SIZE),
            beginRow(app, file, kind, place)),
    });
}

/** Shows the notice about the saved image. A download may still be running. */
function showSaved(app: App, { name, streamed, file }: SavedFile) {
    const kept = streamed ? null : app.beginJob({ name, isLost: true });
    const open = file && button('', () => app.open([file]), texts.saveOpenNewImage);
    const whole = () => showNotice('good', say(texts.discFileSaved, { name: nameOf(name) }), element('div', { class: 'row' }, open));
    const isComplete = () => {
        app.endJob(kept);
        whole();
    };
    if (streamed) return whole();
    return showNotice('good', say(playerTexts.saveBrowserIsSaving, { name: nameOf(name) }), texts.saveKeepPageOpenOnly,
        element('div', { class: 'row' }, button('slim', isComplete, texts.saveIsComplete), open));
}
