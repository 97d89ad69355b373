// Saves a repaired image, and shows its hash if the page can read the file.

import { blocksIn, type Run } from '../../core/sectors/views.js';
import { blocksText } from '../../sentences/index.js';
import { jobAt, sha1Of, type App, type Image, type RunningJob } from '../app/index.js';
import { fileReader } from '../open/index.js';
import {
    failureOfSaving, givingAll, isDiscOfOneTrack, openSaved, patchedName, saveImage, sheetParts, type SavedFile,
} from '../save/index.js';
import { format, playerTexts, say } from '../texts/index.js';
import { button, element, fill, hashParts, megabytes, messageOf, nameOf, notice, type Child } from '../ui/index.js';
import type { Piece } from '../../core/bytes.js';
import * as texts from '../texts/index.js';

/** What was repaired, a warning if not all sectors are sound and confirmed. */
type Done = { words: string, tone: 'good' | 'warn' };

const MOST_RUNS_NAMED = 8;
/** The remark in the names of files that are saved. */
const REPAIRED = 'repaired';

export class RepairSaver {
    /** The browser's own saving of a file, which ends when the user says so, null if there is none. */
    kept: RunningJob | null = null;

    /**
     * @param place of the progress bar and of the result
     * @param id of the part that shows the SHA-1
     */
    constructor(readonly app: App, readonly place: HTMLElement, readonly id: string) {}

    forget() {
        this.app.endJob(this.kept);
    }

    /**
     * @param pieces of the repaired image
     * @param repaired the number of repaired sectors
     * @param second from which sectors were copied
     * @param doubtful copied sectors that nothing confirms
     */
    async save(pieces: Piece[], repaired: number, unrepaired: Run[], second: Image | null = null, doubtful: Run[] = []) {
        const { app, place, app: { image } } = this;
        if (image === null) return;
        const { size } = image.reader;
        const { signal: ends } = second === null ? app.closing : app.pairing;
        const oneTrack = isDiscOfOneTrack(app.calls, image);
        await jobAt(app, place, {
            name: playerTexts.saveSavingImage, saves: true, run: (bar, signal) => {
                this.forget();
                const watch = { signal, progress: (at: number) => bar.at(at, size) };
                const name = patchedName(image.name, REPAIRED);
                const readers = [image, second].flatMap(it => it === null ? [] : [it.reader]);
                return saveImage(readers, async () => givingAll(pieces), name, app.openFiles(), watch);
            },
            done: async saved => {
                if (saved === null) return fill(place);
                app.noteSaved(image, saved.name);
                if (!saved.streamed) this.kept = app.beginJob({ name: saved.name, isLost: true });
                const hash = saved.file && hashOf(app, saved.file, size, this.id, ends);
                return fill(place, ...this.savedWords(saved, image, await oneTrack, doneWords(repaired, unrepaired, doubtful), hash));
            },
            failed: error => fill(place, failureOfSaving(error, size)),
        });
    }

    /**
     * @param oneTrack whether the image has no cue sheet, and looks like a whole disc of one track
     * @param hash of the saved file
     */
    savedWords({ name, streamed, file }: SavedFile, image: Image, oneTrack: boolean, done: Done, hash: Child): Child[] {
        const { app } = this;
        const { size } = image.reader;
        const what = element('p', {}, done.words);
        const whole = () => notice(done.tone, say(texts.discFileSaved, { name: nameOf(name) }), what,
            'All sectors that were not repaired are as before.');
        const isComplete = () => {
            this.forget();
            fill(message, whole());
        };
        const isSaving = say(playerTexts.saveBrowserIsSaving, { name: nameOf(name) });
        const message = element('div', {}, streamed ? whole() : notice(done.tone, isSaving, what,
            format(playerTexts.secondKeepPageOpen, { size: megabytes(size) }),
            element('div', { class: 'row' }, button('slim', isComplete, texts.saveIsComplete))));
        const sheet = sheetParts(image, name, oneTrack, REPAIRED);
        const open = file && button('away', () => openSaved(app, image, file), texts.saveOpenNewImage);
        return [message, file && element('dl', { class: 'hashes' }, element('dt', {}, 'SHA-1'), hash), ...sheet.words,
            (sheet.save || open) && element('div', { class: 'row' }, sheet.save && button('', sheet.save, playerTexts.saveCueSheet), open),
            sheet.saved];
    }
}

/** Shows the SHA-1 of a saved file as soon as it is calculated. */
function hashOf(app: App, file: File, size: number, id: string, signal: AbortSignal) {
    const sum = element('dd', { id }, '…');
    const progress = (done: number) => {
        sum.textContent = format(texts.saveHashPercent, { percent: Math.floor(100 * done / size) });
    };
    sha1Of(app.parts, fileReader(file), signal, progress).then(sha1 => fill(sum, ...hashParts(sha1)),
        error => { sum.textContent = messageOf(error); });
    return sum;
}

/** Says how many sectors were repaired, which are still damaged, and which copies nothing confirms. */
function doneWords(repaired: number, unrepaired: Run[], doubtful: Run[]): Done {
    const parts = (runs: Run[]) => ({ n: blocksIn(runs), blocks: blocksText(runs, MOST_RUNS_NAMED) });
    const left = [...unrepaired.length > 0 ? [format('{n} is still damaged: {blocks}.|{n} are still damaged: {blocks}.',
        parts(unrepaired))] : [],
        ...doubtful.length > 0 ? [format(
            'Nothing confirms the copy of {n} sector: {blocks}.|Nothing confirms the copies of {n} sectors: {blocks}.', parts(doubtful))]
            : []];
    const words = [format('{n} sector repaired.|{n} sectors repaired.', { n: repaired }), ...left.length > 0 ? left : [
        'None is damaged any more.']];
    return { words: words.join(' '), tone: left.length === 0 ? 'good' : 'warn' };
}
