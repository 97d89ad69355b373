// The page of a patcher, for players: three steps with one button each.

import { isOneTrack, sheetOfOneTrack, type DiscImage } from '../../core/disc/views.js';
import { RESULT } from '../../core/module/index.js';
import type { OpenedTrack } from '../../core/tasks/index.js';
import { jobAt, type App, type Bar, type RunningJob } from '../app/index.js';
import { downloadText, failureOfSaving, saveWork, type Saved } from '../save/index.js';
import { current, format, playerTexts as texts, say } from '../texts/index.js';
import {
    button, clearNotices, element, fill, hashParts, icon, isCancelled, jobBar, megabytes, nameOf, notice, refuseWhileSaving, seenLines,
    seenTitle, verdictLine, type Child,
} from '../ui/index.js';
import { ChosenDisc, convertedWords, playWords, sheetFor, wordsWithoutSheet, type ConvertedKind } from './disc.js';
import type { PatcherData } from './patcher.js';
import { damageParts, hasMusic, judgeImage, reasonForPlayer, refusalForPlayer, trackOfSize, verdictWords, type Judged } from './verdict.js';

// The parts from which the page of a patcher is drawn.

type StepState = 'now' | 'done' | 'later';

export function step(number: string, state: StepState, title: Child | Child[], ...body: Child[]) {
    const isNow = state === 'now';
    const made = element('li', { class: `step ${state}${isNow ? ' next' : ''}`, 'aria-current': isNow ? 'step' : null },
        element('span', { class: 'no', 'aria-hidden': 'true' }, state === 'done' ? '✓' : number), element('h2', {}, ...[title].flat()));
    if (body.length > 0) made.append(element('div', { class: 'stack' }, ...body.filter(it => it !== null && it !== false).map(it =>
        it instanceof Node ? it : String(it))));
    return made;
}

/** Returns a function that returns the same part until the language changes, and then makes a new one. */
export function inLanguage<Part>(make: () => Part): () => Part {
    let { tag } = current;
    let made = make();
    return () => {
        if (tag === current.tag) return made;
        ({ tag } = current);
        made = make();
        return made;
    };
}

/**
 * The hashes and sizes of the author's image and of the player's, and the program's line on the first place that does not match.
 * @param size of the player's image
 */
function detailsOf(wanted: PatcherData['image'], size: number, { sha1, words }: Pick<Judged, 'sha1' | 'words'>) {
    const row = (name: string, ...value: Child[]) => value.length === 0 || value[0] === '' ? []
        : [element('dt', {}, name), element('dd', {}, ...value)];
    const sizes = size === wanted.size ? format(texts.playerSizeAsExpected, { n: size })
        : format(texts.playerSizeNotAuthors, { n: size, wanted: wanted.size });
    return element('details', {}, element('summary', {}, texts.playerDetailsOfImage),
        element('dl', { class: 'hashes' }, ...row(texts.playerMadeFor, ...hashParts(wanted.sha1)),
        ...row(texts.playerYourImage, ...hashParts(sha1)), ...row(texts.playerSizeOfImage, sizes),
        ...words === '' ? [] : row(texts.playerFirstPlace,
            ...say(texts.playerProgramReports, { line: element('samp', { lang: 'en' }, words) }))));
}

// The texts above and below the steps of a patcher: the author's words, its script, and how to check whether it can be trusted.

const MOST_SCRIPT_SHOWN = 200000;
/** Attributes of a text whose language and direction are the author's, not those of the page. */
const OWN_LANGUAGE = { dir: 'auto', lang: '' };

/** The author's own words, in a frame that separates them from the page's. */
function authorsWords({ title, author, note }: PatcherData) {
    return element('section', { class: 'authors stack tight', 'aria-label': texts.playerWhatAuthorWrites },
        element('p', { class: 'small quiet' }, texts.playerAuthorWrites),
        element('div', {}, element('h1', OWN_LANGUAGE, seenTitle(title)),
            element('p', { class: 'by', dir: 'auto' }, author === '' ? '' : format(texts.playerByAuthor, { author: seenTitle(author) }))),
        note.trim() === '' ? null : element('p', { class: 'author', ...OWN_LANGUAGE }, seenLines(note)));
}

function moreOf({ script }: PatcherData) {
    const shown = element('pre', { class: 'log', tabindex: 0, 'aria-label': texts.playerTheScriptItself },
        seenLines(script.slice(0, MOST_SCRIPT_SHOWN)));
    return element('div', { class: 'stack' }, element('details', { id: 'player-script' }, element('summary', {}, texts.playerReadTheScript),
        shown,
        script.length > MOST_SCRIPT_SHOWN && element('p', {}, texts.playerOnlyItsBeginning),
        button('slim', () => downloadText(script, 'script.txt'), texts.saveTheScript)),
    element('details', {}, element('summary', {}, texts.playerCanITrustIt), element('p', { class: 'small' }, texts.playerHowToTrustIt)));
}

/** Returns a step in the current language. */
type MakeStep = () => HTMLElement;

/** The page of a patcher. */
export class Player {
    image: DiscImage | null = null;
    files: File[] = [];
    sheet = '';
    /** The kind of the image if it is converted while it is read, else null. */
    kind: ConvertedKind | null = null;
    /** Whether the image looks like a whole disc of one track. */
    oneTrack = false;
    /** The browser's own saving of a file, which ends with the page, null if there is none. */
    kept: RunningJob | null = null;
    number = 0;
    /** The block of the image's first sector, or null if it is not known. */
    base: number | null = null;
    input: HTMLInputElement;
    steps = element('ol', { class: 'steps' });
    chosen; draw;

    constructor(readonly app: App, readonly data: PatcherData) {
        this.chosen = new ChosenDisc(app, data.base);
        this.input = element('input', { type: 'file', id: 'player-files', class: 'hide', multiple: true, tabindex: -1,
            change: () => this.open([...this.input.files || []]) });
        /** Draws the steps in the current language. */
        this.draw = () => this.start();
    }

    /** The page, drawn in the current language. */
    parts() {
        this.draw();
        this.input.setAttribute('aria-label', texts.playerYourDiscImage);
        return [authorsWords(this.data), this.steps, element('p', { class: 'safe left' }, icon('lock'),
            element('span', {}, element('b', {}, texts.playerNothingLeaves), ' ', texts.playerNewFileIsSaved)),
        moreOf(this.data), this.input];
    }

    /** Draws the steps, and again if the language changes. */
    become(draw: () => void) {
        this.draw = draw;
        draw();
    }

    show(first: HTMLElement, second: HTMLElement = step('2', 'later', texts.playerPatchIt), third: HTMLElement =
        step('3', 'later', texts.playerStepPlay)) {
        fill(this.steps, first, second, third);
    }

    start(fault: () => Child = () => null) {
        const choose = button('main big', () => this.input.click(), texts.playerChooseTheImage);
        this.show(step('1', 'now', texts.playerYourDisc, fault(), element('div', { class: 'drop' }, icon('disc'),
            element('p', { class: 'what if-mouse' }, texts.playerDropDiscImage), choose,
            element('p', { class: 'small quiet' }, texts.playerBinOrCueAndBins))));
    }

    async open(files: File[]) {
        this.input.value = '';
        if (files.length === 0) return;
        if (refuseWhileSaving(this.app, files.map(file => file.name))) return;
        this.stop();
        const number = ++this.number;
        try {
            const opened = await this.chosen.open(files);
            if (number !== this.number) return;
            const { disc, files: all, kind } = opened;
            this.sheet = disc.sheetText;
            this.files = all;
            this.kind = kind;
            const track = trackOfSize(disc, this.data.image.size);
            this.image = track.image;
            await this.judge(track);
        } catch (error) {
            const fault = isCancelled(error) ? undefined : this.chosen.faultOf(error, files);
            if (number === this.number) this.become(() => this.start(fault));
        }
    }

    async judge(track: OpenedTrack) {
        const { image } = track;
        await jobAt(this.app, this.steps, {
            name: texts.playerCheckingYourImage, replaces: true,
            show: job => this.barOf(job, () => texts.playerCheckingYourImage, parts => [step('1', 'now', texts.playerCheckingYourImage,
                element('p', { class: 'mono' }, nameOf(image.name)), ...parts)]),
            run: (bar, signal) => judgeImage(this.app, this.data, track, { signal, progress: bar.at }),
            done: async judged => {
                this.base = judged.work.base;
                this.oneTrack = this.sheet === '' && await isOneTrack(this.app.calls, image);
                const first = inLanguage(() => this.doneStep(image, judged));
                this.become(() => this.judged(image, judged, first));
                (this.steps.querySelector('#patch') as HTMLElement | null)?.focus();
            },
            failed: error => { throw error; },
        });
    }

    /** Shows the bar of a job in the steps, in the current language. */
    barOf(job: RunningJob, name: () => string, steps: (parts: HTMLElement[]) => HTMLElement[]): Bar {
        const note = (percent: number) => this.app.noteJob(job, percent, name());
        const bar = inLanguage(() => jobBar(name(), job.cancel, { saves: job.saves, note }));
        this.become(() => {
            const [first, ...more] = steps(bar().parts);
            this.show(first, ...more);
        });
        return { at: (done, all) => bar().at(done, all), sectors: (done, all) => bar().sectors(done, all), things: (done, all) =>
            bar().things(done, all) };
    }

    /** Ends the running job. */
    stop() {
        this.app.endJobAt(this.steps);
    }

    /** Whether an image is being saved. */
    get saving() {
        return this.app.jobAt(this.steps)?.saves === true;
    }

    /** The name of the image, what is converted, and if the player is likely to patch it, a button that replaces it. */
    nameLine(image: DiscImage, isChosen: boolean) {
        const { kind, data } = this;
        const lacking = kind === 'iso' && hasMusic(data, true) ? ` ${texts.playerIsoLacksMusic}` : '';
        return element('div', {}, element('p', {}, element('span', { class: 'mono' }, nameOf(image.name)), ' ',
            isChosen && button('slim bare tiny', () => this.input.click(), texts.playerChooseAnother)),
        kind && element('p', { class: 'small' }, `${convertedWords(kind)}${lacking}`));
    }

    /** Whether the image is an ISO image, which lacks the music that the author's image has. */
    get lacksMusic() {
        return this.kind === 'iso' && hasMusic(this.data);
    }

    /** The first step of an image that is patched. */
    doneStep(image: DiscImage, judged: Judged) {
        const { verdict } = judged;
        const isDoubted = verdict === 'unknown' || verdict === 'hurt';
        const { tone, words } = verdictWords(verdict, isDoubted ? null : 'verdict');
        const name = this.nameLine(image, tone !== 'bad' && !isDoubted);
        const { size } = image.reader;
        const rest = isDoubted ? [words] : [words, reasonForPlayer(judged, size, this.data, this.lacksMusic),
            detailsOf(this.data.image, size, judged)];
        return step('1', isDoubted ? 'later' : 'done', texts.playerYourDisc, name, ...tone === 'bad' && !isDoubted ? [] : rest);
    }

    judged(image: DiscImage, judged: Judged, first: MakeStep) {
        if (['other', 'damaged'].includes(judged.verdict)) return this.showOther(image, judged, first);
        if (['unknown', 'hurt', 'changed'].includes(judged.verdict)) return this.showUnknown(image, judged, first);
        if (judged.verdict === 'patched') return this.show(first(),
            step('2', 'done', texts.playerStepPatched, texts.playerNothingLeftToDo), this.playStep(image.name));
        const patch = button('main big', () => this.patch(image, judged, first), texts.playerPatchAndSave);
        patch.id = 'patch';
        const space = megabytes(image.reader.size);
        return this.show(first(), step('2', 'now', texts.playerPatchIt,
            element('p', {}, format(texts.playerPatchesNeedSpace, { n: judged.patches, space })),
            this.data.carry && element('p', {}, texts.playerAuthorPatchesDamaged), patch));
    }

    showOther(image: DiscImage, judged: Judged, first: MakeStep) {
        const { patches, refused, verdict } = judged;
        const carries = this.data.carry ? [texts.playerAuthorPatchesDamaged] : [];
        const reasons = refusalForPlayer(judged, image.reader.size, this.data.image.size);
        const why = [...reasons, ...carries, texts.playerNothingWasSaved].map(text => element('p', {}, text));
        const box = element('div', { class: 'say bad' }, verdictWords(verdict, 'verdict').words, ...why, ...damageParts(judged),
            element('div', { class: 'row' }, button('main', () => this.input.click(), texts.playerChooseAnotherImage)));
        const fitting = patches - refused.length;
        const some = button('slim bare', () => this.patch(image, judged, first), format(texts.playerSaveWithOthers, { n: fitting }));
        const details = detailsOf(this.data.image, image.reader.size, judged);
        if (fitting > 0) details.append(element('p', { class: 'small' }, some, ' ', texts.playerGameMayStop));
        this.show(step('1', 'now', texts.playerYourDisc, this.nameLine(image, false), box, details));
    }

    /**
     * Shows an image that may be the wrong one for the patch or that is damaged, or that may not be the author's result. The main button
     * replaces a damaged image; otherwise there is none.
     */
    showUnknown(image: DiscImage, judged: Judged, first: MakeStep) {
        const isOpen = judged.verdict !== 'changed';
        const isHurt = judged.damage.runs.length > 0;
        const { size } = image.reader;
        const { tone, words } = verdictWords(judged.verdict, 'verdict');
        const box = element('div', { class: `say ${tone}` }, words,
            reasonForPlayer(judged, size, this.data, this.lacksMusic),
            isOpen && this.data.carry && element('p', {}, texts.playerAuthorPatchesDamaged),
            ...damageParts(judged),
            element('div', { class: 'row' }, button(isHurt ? 'main' : '', () => this.input.click(), texts.playerChooseAnotherImage),
                isOpen && button('', () => this.patch(image, judged, first), texts.playerPatchAllTheSame)),
            isHurt && isOpen && element('p', { class: 'small' }, texts.playerDamageStays));
        this.show(step('1', 'now', texts.playerYourDisc, this.nameLine(image, false), box, detailsOf(this.data.image, size, judged)));
    }

    async patch(image: DiscImage, judged: Judged, first: MakeStep): Promise<void> {
        const { app, data } = this;
        const { work, verdict } = judged;
        const isFit = verdict === 'right' || verdict === 'fits';
        const again = (message: () => Child) => this.become(() => this.show(first(),
            step('2', 'now', texts.playerPatchIt, message(),
                button(isFit ? 'main big' : '', () => void this.patch(image, judged, first), texts.playerPatchAndSave))));
        await jobAt(app, this.steps, {
            name: texts.saveSavingImage, saves: true,
            show: job => this.barOf(job, () => texts.saveSavingImage, parts => [first(), step('2', 'now',
                say(texts.saveSavingFile, { name: nameOf(data.name) }), ...parts)]),
            run: (bar, signal) => {
                const wanted = verdict === 'right' ? data.result : '';
                return saveWork(app, { ...work, opened: this.files }, data.name, wanted, { signal, progress: bar.at });
            },
            done: saved => {
                clearNotices();
                app.endJob(this.kept);
                if (saved === null) return again(() => notice('plain', texts.playerNoFileChosen, texts.playerNothingWasSaved));
                if (!saved.streamed) this.kept = app.beginJob({ name: data.name, isLost: true });
                this.become(() => this.saved(saved, judged, first()));
                return this.goToLast();
            },
            failed: error => {
                clearNotices();
                again(() => failureOfSaving(error, work.reader.size));
            },
        });
    }

    saved({ made, name, size, streamed, sha1 }: Saved, judged: Judged, first: HTMLElement) {
        const refused = made.outcomes.filter(it => it.result !== RESULT.OK).length;
        const head = say(streamed ? texts.saveSaved : texts.saveBrowserIsSaving, { name: nameOf(name) });
        const same = sha1 !== '' && texts.playerExactlyAuthorsImage;
        const wait = !streamed && format(texts.secondKeepPageOpen, { size: megabytes(size) });
        const left = refused > 0 && `${format(texts.playerPatchesLeftOut, { n: refused })} ${texts.playerGameMayStop}`;
        const isSafe = ['right', 'fits'].includes(judged.verdict);
        const doubt = !isSafe && reasonForPlayer(judged, judged.work.reader.size, this.data, this.lacksMusic);
        const tone = refused > 0 || doubt ? 'warn' : 'good';
        const message = verdictLine(tone, head, 'saved');
        const rest = [same, wait, left].map(text => text && element('p', {}, text));
        this.show(first, step('2', 'done', texts.playerStepPatched, message, ...rest, doubt), this.playStep(name));
    }

    /** Shows the last step. Without a main button it gets the focus itself, which would otherwise return to the first step. */
    goToLast() {
        const last = this.steps.lastElementChild as HTMLElement;
        if (!last.querySelector('.main') && this.steps.contains(document.activeElement)) {
            last.tabIndex = -1;
            last.focus({ preventScroll: true });
        }
        last.scrollIntoView({ block: 'nearest', behavior: matchMedia('(prefers-reduced-motion)').matches ? 'auto' : 'smooth' });
    }

    /** @param name of the image to play */
    playStep(name: string): HTMLElement {
        const data = { ...this.data, ...this.lacksMusic && { cue: '' } };
        // A sheet of an image that was converted describes other sectors.
        const takesOwn = this.kind === null;
        const sheet = () => sheetFor(name, takesOwn ? this.sheet : '', this.image ? this.image.name : '', data);
        const take = async (file: File) => {
            this.sheet = await this.chosen.sheetText(file).catch(() => '');
            if (sheet() === '') return false;
            const fresh = this.playStep(name);
            made.replaceWith(fresh);
            (fresh.querySelector('.btn') as HTMLElement).focus();
            return true;
        };
        const words = sheet() !== '' ? playWords(name, sheet())
            : wordsWithoutSheet(name, this.oneTrack ? sheetOfOneTrack(name) : '', takesOwn ? take : null);
        const made = step('3', 'now', texts.playerStepPlay, ...words);
        return made;
    }
}
