// The card beside the editor: Check and its results, the option carry, and Apply and save.

import { MOST_PATCHES, RESULT, type Calls } from '../../core/module/index.js';
import { patchesOf, type Outcome, type Patched } from '../../core/script/views.js';
import { jobAt, type App, type Image, type ScriptLines } from '../app/index.js';
import { reasonsOf } from '../player/index.js';
import { SaveCard, adviceOf, canStream, checkWork, isPatched } from '../save/index.js';
import { leftWordsOf } from '../text/index.js';
import { format, playerTexts, say } from '../texts/index.js';
import {
    announce, button, element, fill, isCancelled, messageOf, nameOf, nextTurn, notice, setDisabled, term, verdictLine, type Child,
    type Tone,
} from '../ui/index.js';
import * as texts from '../texts/index.js';

// Describes how a script matches an image.

/** The result of refused patches, why it is theirs, and what to do. */
type Reason = { result: number, words: string };

/**
 * The result of Check: the number of patches, and the results of refused patches; the number of patches that name old bytes, and of those
 * that are refused among them; and whether the image already holds everything that the patches write.
 */
export type Fit = { all: number, refused: number[], named: number, namedRefused: number, already?: boolean };

/**
 * The numbers of the lines that name old bytes.
 * @param script without faults
 */
export function namingOld(calls: Calls, { lines, long }: ScriptLines) {
    const patches = long ? patchesOf(calls, long.text) : lines.flatMap(({ number, patch }) => patch ? [{ number, old: patch.old }] : []);
    return new Set(patches.flatMap(({ number, old }) => old === null ? [] : [number]));
}

/**
 * Counts the patches of a script that match, and those that are refused.
 * @param naming the numbers of the lines that name old bytes
 * @param already whether the image already holds everything that they write
 */
export function fitOf(outcomes: Outcome[], naming: Set<number>, already: boolean): Fit {
    const refused = outcomes.filter(({ result }) => result !== RESULT.OK);
    const [named, namedRefused] = [outcomes, refused].map(some => some.filter(({ number }) => naming.has(number)).length);
    return { all: outcomes.length, refused: refused.map(({ result }) => result), named, namedRefused, already };
}

/** Whether bytes of the image show that the script is for it. A patch that names no old bytes can be applied to any disc. */
function isShownToFit({ named, namedRefused }: Fit) {
    return named > namedRefused;
}

/** The results of refused patches, in the order in which they are explained. */
const REFUSALS = [RESULT.DIFFERS, RESULT.DAMAGED, RESULT.NOT_MODE1, RESULT.NO_BLOCK];

/**
 * Explains why patches do not match an image, and what to do, for each result. If any patch that names old bytes matches, different bytes
 * do not mean a different release: an earlier line may have written there.
 */
function whyNot(fit: Fit): Reason[] {
    const advices = {
        [RESULT.DIFFERS]: isShownToFit(fit) ? '' : 'Another release, another disc, or another base?',
        [RESULT.DAMAGED]: 'Repair the image first, or tick “Patch damaged sectors too”.',
        [RESULT.NOT_MODE1]: 'Only Mode 1 sectors are patched. Another track, or another disc?',
        [RESULT.NO_BLOCK]: 'Another track, or another base?',
    };
    return REFUSALS.flatMap(result => reasonsOf(fit.all, fit.refused.filter(it => it === result), advices)
        .map(words => ({ result, words })));
}

/**
 * The message about a script that was checked.
 * @param name of the script's file, or ''
 * @param image the name of the image
 */
export function fitWords(name: string, image: string, fit: Fit): { tone: Tone, head: Child[], reasons?: Reason[], rest: Child[] } {
    const { all, refused: { length: left }, named, namedRefused, already } = fit;
    const [parts, within] = ['The script', 'the script']
        .map(unnamed => ({ script: name === '' ? unnamed : nameOf(name), image: nameOf(image) }));
    if (all === 0) return { tone: 'plain', head: say('{script} has no patches.', parts), rest: [
        'The saved image would be an unchanged copy.'] };
    if (already) {
        return { tone: 'good', head: say('{image} is patched already.', { image: parts.image }),
            rest: say('It already contains what the patch of {script} writes.|It already contains what all {n} patches of {script} write.',
                { script: within.script, n: all }) };
    }
    const reasons = whyNot(fit);
    if (left === all) {
        return { tone: 'bad', head: say(
            '{script}: {n} patch, which does not match {image}.|{script}: {n} patches, which do not match {image}.', { ...parts, n: all }),
            reasons, rest: [texts.scriptNothingToSave] };
    }
    const without = left === 0 ? []
        : [format('A new image can be saved without that patch.|A new image can be saved without those patches.', { n: left })];
    if (named === 0) {
        return { tone: 'warn', head: say(texts.scriptNothingShowsFit, { ...within, n: all }), reasons,
            rest: [[format('It has no old bytes to compare.|None of them has old bytes to compare.', { n: all }), ...without].join(' ')] };
    }
    if (!isShownToFit(fit)) {
        return { tone: 'bad', head: say(texts.scriptNoNamedFits, { ...within, n: named }), reasons,
            rest: [format(texts.scriptOthersNameNone, { n: all - named })] };
    }
    const fitting = named - namedRefused;
    const others = all - left - fitting;
    if (left === 0) {
        const head = others === 0 ? say('{script}: {n} patch, which matches {image}.|{script}: {n} patches, which all match {image}.',
            { ...parts, n: all })
            : say(texts.scriptSomeNotCompared, { ...parts, fitting, all, n: others });
        return { tone: 'good', head, rest: [] };
    }
    const unsure = others === 0 ? [] : [format(texts.scriptOthersNameNone, { n: others })];
    return { tone: 'warn', head: say('{script}: {fitting} of {all} patches match {image}, {n} does not.|\
{script}: {fitting} of {all} patches match {image}, {n} do not.', { ...parts, fitting, all, n: left }), reasons,
        rest: [[...without, ...unsure].join(' ')] };
}

/** The parts of the panel that the card uses: the lines, redrawing them, going to a line, and showing the log (null hides it). */
type CheckOwner = { lines: ScriptLines, redraw: () => void, goTo: (line: number) => void,
    log: (text: Uint8Array | null, verb?: string) => void };

const MOST_NAMED = 12;

/** The card. `patched` is the result of Check, null if outdated; `already`: the image holds everything that the script writes. */
export class CheckCard {
    patched: Patched | null = null;
    already = false;
    /** The numbers of the lines that name old bytes in the script that was checked. */
    naming = new Set<number>();
    seconds = 0;
    /** The current or last check. */
    running = Promise.resolve();
    failure: Child = null;
    body = element('div', { class: 'pad stack' });
    head = element('header', {}, element('h2', {}, texts.scriptCheckScript));
    card; carry; carryRow; saving;

    constructor(readonly app: App, readonly owner: CheckOwner) {
        this.card = element('section', { class: 'card', 'aria-label': texts.scriptCheckScript }, this.head, this.body);
        this.carry = element('input', { type: 'checkbox', change: () => this.forget() });
        this.carryRow = element('label', { class: 'check' }, this.carry, element('span', {},
            ...say('Patch damaged sectors too ({carry})', { carry: term('carry', 'carry') }), element('br'),
            element('span', { class: 'small quiet' }, 'Their damage is kept, not repaired.')));
        this.saving = new SaveCard(app, () => this.draw());
    }

    /** Whether Check runs. */
    get busy() {
        return this.app.jobAt(this.body) !== undefined;
    }

    /** Cancels Check, and discards the results of Check and of the save, since the script, the image, or carry has changed. */
    outdate() {
        this.app.jobAt(this.body)?.cancel();
        this.patched = null;
        this.already = false;
        this.failure = null;
        this.saving.leave();
    }

    /** Discards the results of Check, its log, and its marks after a change of the image or carry. */
    forget() {
        this.outdate();
        this.owner.lines.setOutcomes([]);
        this.owner.log(null);
        this.owner.redraw();
        this.draw();
    }

    draw() {
        if (!this.busy) this.drawCard();
    }

    drawCard() {
        if (this.saving.shown()) return fill(this.card, ...this.saving.parts());
        const { lines } = this.owner;
        const took = this.patched !== null && this.seconds >= 0.05
            && element('span', { class: 'tag' }, format(playerTexts.inSeconds, { seconds: this.seconds.toFixed(1) }));
        fill(this.head, element('h2', {}, texts.scriptCheckScript), took);
        fill(this.card, this.head, this.body);
        if (lines.tooMany) return fill(this.body, tooManyPatches());
        if (this.app.image === null) return fill(this.body, lines.faults > 0 && this.faults(),
            element('p', {}, 'Open the image that this script patches.'),
            element('div', { class: 'row' }, button('main', () => this.app.choose('play'), texts.scriptOpenTheImage)));
        const ready = lines.faults === 0 && lines.head >= 0;
        const check = button(this.patched ? 'next' : 'main', () => this.check(), this.patched ? 'Check again'
            : texts.scriptCheckScript);
        const apply = this.applyButton();
        for (const it of [check, apply]) setDisabled(it, !ready);
        const parts = lines.faults > 0 ? [this.faults()] : this.outcomes(apply);
        const row = element('div', { class: 'row' }, check, !this.patched && apply);
        const left = leftWordsOf(this.app);
        return fill(this.body, this.failure, ...parts, left.length > 0 && notice('warn', left), this.isCarryAsked() && this.carryRow, row,
            element('p', { class: 'small quiet' }, ...this.footnote(ready)));
    }

    /** Whether damaged sectors can be patched too: Check has found that some refuse a patch, or it is chosen. */
    isCarryAsked() {
        return this.carry.checked || (this.patched !== null && this.patched.outcomes.some(({ result }) => result === RESULT.DAMAGED));
    }

    /** The button that saves. It is the main button only if all patches match, and old bytes of the image show that. */
    applyButton() {
        const fit = this.patched && this.fit(this.patched);
        const apply = () => this.apply();
        if (fit === null || fit.refused.length === fit.all) return button('', apply, texts.scriptApplyAndSave);
        const n = fit.all - fit.refused.length;
        if (n === fit.all) return button(isShownToFit(fit) ? 'main next' : '', apply, texts.scriptApplyAndSave);
        return button('', apply, format(playerTexts.playerSaveWithOthers, { n }));
    }

    faults() {
        const { lines, goTo } = this.owner;
        const wrong: number[] = [];
        for (let i = lines.nextWrong(-1, 1); wrong.length < Math.min(MOST_NAMED, lines.faults); i = lines.nextWrong(i, 1)) wrong.push(i);
        const named = wrong.map(i => String(i + 1));
        const more = lines.faults - wrong.length;
        const list = new Intl.ListFormat(texts.LANGUAGE).format(more > 0 ? [...named, format('{n} more', { n: more })] : named);
        const parts = { n: lines.faults, lines: list };
        return notice('bad', format('A line has an error|{n} lines have an error', parts),
            `A script with an error is not applied at all. ${format('The line is {lines}.|The lines are {lines}.', parts)}`,
            element('div', { class: 'row' }, button('slim', () => goTo(wrong[0]), format(texts.scriptGoToLine, { line: named[0] }))));
    }

    /** @param apply the button beside the results of Check */
    outcomes(apply: HTMLElement): Child[] {
        const { lines } = this.owner;
        if (this.patched === null) {
            if (lines.patches === 0 && !lines.long) return [element('p', {}, 'The script has no patches yet.')];
            return [element('p', {}, lines.long ? 'Check tries its patches on this image, and writes nothing.' : format(
                'Check tries its patch on this image, and writes nothing.|Check tries its {n} patches on this image, and writes nothing.',
                { n: lines.patches }))];
        }
        const fit = this.fit(this.patched);
        const [refused, applied] = [fit.refused.length, fit.all - fit.refused.length];
        const first = lines.nextWrong(lines.lines.length - 1, 1);
        const { tone, head, reasons = [], rest } = this.fitWords(fit);
        const line = { line: String(first + 1) };
        const go = first >= 0 && button('main next', () => this.owner.goTo(first), format(texts.scriptGoToLine, line));
        const buttons = this.already ? [] : [go, (applied > 0 || refused === 0) && apply];
        return [element('div', { class: `say stack tight ${tone}`, role: 'status' }, verdictLine(tone, head),
            reasons.length > 0 && element('ul', { class: 'reasons' }, ...reasons.map(reason => this.reasonRow(reason))),
            rest.length > 0 && element('p', {}, ...rest), buttons.length > 0 && element('div', { class: 'row' }, ...buttons))];
    }

    /** Why patches are refused, and a button that goes to the first of them. */
    reasonRow({ result, words }: Reason) {
        const first = this.patched?.outcomes.find(it => it.result === result);
        const go = first && !this.owner.lines.long && button('tiny bare', () => this.owner.goTo(first.number - 1),
            format('line {line}', { line: String(first.number) }));
        return element('li', {}, element('span', {}, words), go || null);
    }

    footnote(ready: boolean): Child[] {
        if (!ready) return ['Fix the errors to continue.'];
        const outcomes = this.patched ? this.patched.outcomes : [];
        const applied = outcomes.filter(it => it.result === RESULT.OK).length;
        if (this.already || (applied === 0 && outcomes.length > 0)) return [];
        const name = this.app.image ? this.app.image.name : '';
        return ['Saves a new image. ', ...say('{name} is not changed.', { name: element('b', {}, nameOf(name)) })];
    }

    /** Whether the script can be checked and saved: it has no error, and no check or save is running. */
    isFree() {
        const { faults, head, tooMany } = this.owner.lines;
        return !this.busy && !this.saving.running && faults === 0 && !tooMany && head >= 0;
    }

    /** Whether the checked script has a patch that matches, and the browser still opens its dialog, as it does shortly after a click. */
    canSave() {
        const matches = this.patched !== null && this.patched.outcomes.some(({ result }) => result === RESULT.OK);
        return matches && (!canStream() || navigator.userActivation.isActive);
    }

    fit({ outcomes }: Patched) {
        return fitOf(outcomes, this.naming, this.already);
    }

    /** Describes how the script matches the image. */
    fitWords(fit: Fit) {
        return fitWords(this.owner.lines.name, this.app.image ? this.app.image.name : '', fit);
    }

    /** Checks the script on the image. */
    check() {
        const { image } = this.app;
        if (image !== null && this.isFree()) this.running = this.checkOn(image);
        return this.running;
    }

    /**
     * Checks a script that was just opened, once the check before has ended and the script is drawn. Then focuses the next button if
     * nothing has the focus.
     */
    async checkAtOnce() {
        await this.running;
        await nextTurn();
        await this.check();
        const { card } = this;
        const next = card.querySelector('.btn.next');
        if (next && document.activeElement === document.body) (next as HTMLElement).focus({ preventScroll: true });
    }

    async checkOn(image: Image) {
        const { lines } = this.owner;
        const began = performance.now();
        const work = { reader: image.reader, base: image.base, script: lines.text(), carry: this.carry.checked };
        await jobAt(this.app, this.body, {
            name: 'Checking', of: 'image', run: async (bar, signal) => {
                const patched = await checkWork(this.app, work, { signal, progress: bar.sectors });
                return { patched, already: patched.outcomes.some(it => it.result !== RESULT.OK) && await isPatched(this.app, work) };
            },
            done: ({ patched, already }) => {
                if (work.script === lines.text()) {
                    this.already = already;
                    this.take(patched, (performance.now() - began) / 1000);
                }
                this.draw(); // before the bar goes, so that the focus passes to what takes its place
            },
            failed: error => {
                this.failure = isCancelled(error) ? null
                    : notice('bad', messageOf(error), adviceOf(error, 'Nothing was saved. Open it again.'));
                this.draw();
            },
        });
        this.draw();
    }

    /** @param verb the command of cdpatch that prints the same log */
    take(patched: Patched, seconds: number, verb: 'check' | 'apply' = 'check') {
        this.patched = patched;
        this.naming = namingOld(this.app.calls, this.owner.lines);
        this.seconds = seconds;
        this.failure = null;
        this.owner.lines.setOutcomes(patched.outcomes);
        this.owner.log(patched.text, verb);
        this.owner.redraw();
        const { head, reasons = [], rest } = this.fitWords(this.fit(patched));
        announce(`${element('p', {}, ...head, ' ', ...reasons.flatMap(({ words }) => [words, ' ']), ...rest).textContent}`.trim());
    }

    /** Saves the patched image. A script that was not checked yet is checked first, because nothing is saved if no patch matches. */
    async apply() {
        const { image } = this.app;
        const { lines } = this.owner;
        if (image === null || !this.isFree()) return;
        if (this.patched === null) {
            await this.check();
            if (this.app.image !== image || !this.canSave()) return;
        }
        const work = { reader: image.reader, base: image.base, script: lines.text(), carry: this.carry.checked };
        const made = await this.saving.save(image, work);
        if (made && this.app.image === image && work.script === lines.text()) this.take(made, this.seconds, 'apply');
        this.draw();
    }
}

/** The notice about a script that only cdscript can apply. */
function tooManyPatches() {
    const command = element('span', { class: 'mono' }, 'cdscript apply --long');
    return notice('bad', format('This script has more than {n} patches, the most that this page applies.', { n: MOST_PATCHES }), ...say(
        'Apply it with {command}.', { command }));
}
