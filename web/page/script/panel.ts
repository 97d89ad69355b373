// The panel Script: the editor, an explanation of the line with the caret, Check and Apply, and the log.

import { failedBy } from '../../core/faults.js';
import { MOST_PATCHES } from '../../core/module/index.js';
import { undoScript, type NoUndo, type Undo } from '../../core/tasks/index.js';
import { blocksText } from '../../sentences/index.js';
import { LONG, MOST_DRAWN, jobAt, type App, type ScriptLines } from '../app/index.js';
import { downloadBytes, downloadText } from '../save/index.js';
import { chosenEncoding } from '../text/index.js';
import { format, playerTexts, say } from '../texts/index.js';
import {
    askBeforeLeaving, button, byId, clearNotices, copyButton, crossButton, element, failureNotice, fill, focusAgain, keyed, menuButton,
    messageArea, nameOf, notice, showMessageAt, showNotice,
} from '../ui/index.js';
import { CheckCard } from './check_card.js';
import { ScriptEditor, textsOfLine, type LineHelp } from './editor.js';
import { listenToEditor, turnBack, turnBytes } from './editor_input.js';
import { explainLine, helpOfFault, helpOfRefusal } from './explain.js';
import * as texts from '../texts/index.js';

// The card with the log of the program, which is shown on request: the log says “applied” for a trial too.

/** The maximum number of characters shown. Copy and Save have all. */
const MOST_SHOWN = 200000;

class LogCard {
    card = element('section', { class: 'card', 'aria-label': texts.scriptLogOfCheck, hidden: true });
    /** The title of the log, or '' if nothing was logged yet. */
    title = '';

    /** @param closed is called when the user has closed the card */
    constructor(readonly closed: () => void) {}

    open() {
        this.card.hidden = false;
        this.card.scrollIntoView({ block: 'nearest' });
        (this.card.querySelector('.log') as HTMLElement).focus({ preventScroll: true });
    }

    close() {
        this.card.hidden = true;
        this.closed();
    }

    /**
     * Notes the log of the last run, or that there is none any more.
     * @param verb of cdpatch
     */
    note(bytes: Uint8Array | null, verb: string = 'check') {
        this.card.hidden = this.card.hidden || bytes === null;
        this.title = '';
        if (bytes === null) return;
        const text = new TextDecoder().decode(bytes);
        const shown = text.length > MOST_SHOWN ? `${text.slice(0, text.lastIndexOf('\n', MOST_SHOWN))}\n…\n` : text;
        const command = `cdpatch ${verb}`;
        this.title = format(verb === 'check' ? 'Output of {command} (dry run: nothing is saved)' : texts.discWhatProgramPrints,
            { command });
        const rest = say('The same text as {command} prints, in the order of application: by block, then by line.', { command: element(
            'span', { class: 'mono' }, command) });
        fill(this.card, element('header', {}, element('h2', {}, this.title),
            copyButton('slim bare', () => text, texts.copy, texts.scriptWhichLog),
            button('slim bare', () => downloadText(text, 'log.txt'), texts.discSaveReport,
                element('span', { class: 'hide' }, texts.scriptWhichLog)),
            crossButton(playerTexts.close, () => this.close())),
        element('div', { class: 'pad stack tight' }, element('pre', { class: 'log', tabindex: 0, 'aria-label': texts.scriptLogOfCheck },
            shown), element('p', { class: 'small quiet' }, ...rest)));
    }
}

// Saves a script that undoes the open script.

/** The places of the progress bar and of the result. */
type UndoPlaces = { bar: HTMLElement, message: HTMLElement };

/** Saves a script that undoes this one. */
export async function makeUndo(app: App, places: UndoPlaces, lines: ScriptLines, carry: boolean) {
    const { image } = app;
    if (image === null) return;
    const name = format('{script} (undo).txt', { script: (app.script.name || texts.scriptFile).replace(/\.[^.]*$/, '') });
    await jobAt(app, places.bar, {
        name: 'Making the undo script',
        around: parts => [element('h3', {}, ...say('Making {name}', { name: nameOf(name) })), ...parts],
        run: (bar, signal) => {
            const script = [new TextEncoder().encode(lines.text())];
            return undoScript(app, image.opened, script, { carry }, { signal, progress: bar.sectors });
        },
        done: made => {
            if (made.script !== null) downloadBytes(made.script.pieces, name);
            showMessageAt(places.message, made.script === null ? noUndoWords(made) : savedWords(made, name, carry));
        },
        failed: error => showMessageAt(places.message, failedBy(error, 'script/refused')
            ? notice('bad', texts.scriptNoUndoMade, 'The script has an error.') : failureNotice(error, texts.scriptNoUndoMade)),
    });
}

function savedWords({ left, refused, script: { long } }: Undo, name: string, carry: boolean) {
    const words = [refused > 0 && format(
        '{n} patch does not match this image, and is not undone.|{n} patches do not match this image, and are not undone.', { n: refused }),
        left.length > 0 ? format('Apply it to the patched image to get the original back, except for the damage in {blocks}, of which only \
address and user data are restored.', { blocks: blocksText(left, 8) }) : 'Apply it to the patched image to get the original back.',
        carry && 'Apply it with carry, like this script.', long &&
            'It is longer than cdpatch and this page accept: apply it with cdscript and --long.'];
    return notice(left.length > 0 || refused > 0 || long ? 'warn' : 'good', say(texts.discFileSaved, { name: nameOf(name) }),
        words.filter(it => it).join(' '));
}

/** Explains why there is no undo script. */
function noUndoWords(made: NoUndo) {
    const why = made.why === 'refused' ? format('{n} patch does not match this image.|{n} patches do not match this image.',
        { n: made.refused }) : 'The image already has what the script writes.';
    return notice('bad', why, 'No undo script was made. Open the image as it was before the script.');
}

export class ScriptPanel {
    /** Whether the script has changed since it was drawn. */
    isOld = false;
    strip = element('div', { class: 'explain', 'aria-live': 'off' });
    unshown = element('div');
    undoing = { bar: element('div', { class: 'pad stack' }), message: messageArea('pad') };
    head = element('header', {});
    side = element('div', { class: 'side' });
    lines; editor; check; log; opening;

    constructor(readonly app: App, panel: HTMLElement) {
        this.lines = app.script;
        this.editor = new ScriptEditor(this.lines, {
            help: line => this.help(line),
            helpButton: line => this.helpButton(line),
            texts: line => textsOfLine(chosenEncoding(app), this.lines, line),
            hasTexts: () => chosenEncoding(app).hasCharacters,
            moved: () => this.explain(),
            changed: () => this.changed(),
            check: () => void this.check.check(),
        });
        this.check = new CheckCard(app, {
            lines: this.lines,
            redraw: () => {
                this.editor.draw();
                this.explain();
            },
            goTo: line => this.goTo(line),
            log: (text, verb) => this.log.note(text, verb),
        });
        this.log = new LogCard(() => (this.head.querySelector('[data-menu=save]') as HTMLElement).focus());
        this.opening = element('input', { type: 'file', class: 'hide', tabindex: -1, 'aria-label': 'A script to open',
            change: () => this.open() });
        listenToEditor(this.editor);
        panel.append(element('div', { class: 'two script' }, element('section', { class: 'card', 'aria-label': 'Script' },
            this.head, this.undoing.bar, this.undoing.message, this.unshown, this.editor.box, this.strip), this.side), this.opening);
        panel.addEventListener('keydown', event => this.pressed(event));
        this.load(null);
        this.listen();
    }

    listen() {
        const { app } = this;
        askBeforeLeaving(() => this.isLost(), 'Your script is not saved.', () => this.save());
        app.serve({ turnBytes: way => turnBytes(this.editor, way), saveScript: () => this.save() });
        app.on('line', line => this.goTo(line));
        app.on('check', () => void this.check.checkAtOnce());
        app.on('script', change => change && this.load(change.back));
        app.on('image', () => {
            this.check.forget();
            this.drawHead();
            this.drawSide();
        });
        for (const name of (['files', 'encoding'] as const)) app.on(name, () => this.explain());
        app.on('panel', () => {
            if (app.panel !== 'script') return;
            if (this.isOld) this.drawAll();
            else this.editor.draw();
            this.check.draw();
            this.editor.goTo(this.editor.current);
            this.explain();
        });
    }

    /** Whether there is a script that is not saved. */
    isLost() {
        return !this.lines.isSaved() && !this.lines.isNew();
    }

    /**
     * Shows the script after a change from outside the editor. While a different panel is shown, only the head is redrawn.
     * @param back restores the replaced script if it was not saved, and returns the line to go to
     */
    load(back: (() => number) | null) {
        this.editor.current = Math.min(this.editor.current, this.lines.lines.length - 1);
        this.check.outdate();
        this.log.note(null);
        this.drawHead();
        this.isOld = true;
        if (this.app.panel === 'script') this.drawAll();
        if (back) queueMicrotask(() => this.offerBack(back));
    }

    offerBack(bringBack: () => number) {
        const back = () => {
            const line = bringBack();
            clearNotices();
            this.load(null);
            turnBack(this.editor, line);
            focusAgain(this.editor.area);
        };
        showNotice('warn', texts.scriptReplacedYours, element('div', { class: 'row' }, button('slim away', back, 'Bring it back')));
    }

    changed() {
        this.check.outdate();
        this.log.note(null);
        this.drawHead();
        this.drawSide();
        this.app.noteTyped();
    }

    drawAll() {
        this.isOld = false;
        const { long, tooMany } = this.lines;
        const isUndrawn = long !== null || this.lines.size > MOST_DRAWN;
        this.editor.box.hidden = this.strip.hidden = isUndrawn;
        fill(this.unshown, isUndrawn && notice('plain', 'This script is too long: its lines are not shown.', long && !tooMany && LONG));
        if (!isUndrawn) this.editor.draw();
        this.drawSide();
        this.explain();
    }

    drawHead() {
        const { lines } = this;
        const { name } = lines;
        const fault = lines.faults > 0 || lines.tooMany;
        fill(this.head, element('h2', { class: name ? 'mono' : '' }, name ? nameOf(name) : 'New script'),
            element('span', { class: `tag${fault ? ' bad' : ''}` }, this.amount()),
            this.isLost() && element('span', { class: 'tag warn' }, 'not saved'),
            button('slim', () => this.opening.click(), texts.frameOpenOther), keyed('save', this.saveButton()));
        const count = byId('count-script');
        count.hidden = lines.faults === 0 && lines.patches === 0;
        count.className = `count${fault ? ' bad' : ''}`;
        const [before, n, after] = say(fault ? texts.scriptFaultsOfScript : texts.scriptPatchCount, { n: lines.faults ||
            lines.patches });
        fill(count, before, n, element('span', { class: fault ? 'long' : 'hide' }, after));
    }

    /** The number of errors in the script, or its length. */
    amount() {
        const { faults, long, patches, tooMany, version } = this.lines;
        if (tooMany) return format('more than {n} patches', { n: MOST_PATCHES });
        if (faults > 0) return format(texts.scriptFaultsOfScript, { n: faults });
        if (long) return format('{n} character|{n} characters', { n: long.text.length });
        const words = format(texts.scriptPatchCount, { n: patches });
        return version ? format('{changes}, script version {version}', { changes: words, version: this.lines.versionName() }) : words;
    }

    drawSide() {
        const works = this.check.busy || this.check.saving.shown();
        const none = this.lines.patches === 0 && this.lines.faults === 0 && !this.lines.long && !works;
        if (none) return fill(this.side, this.emptyCard());
        this.check.draw();
        return fill(this.side, this.check.card, this.log.card);
    }

    /** The card with the next steps while the script has no changes. If an image is open, the first one is to open its patch. */
    emptyCard() {
        const { app } = this;
        const open = (looks: string, words: string) => button(looks, () => this.opening.click(), words);
        const own = [button('', () => app.showPanel('text'), 'Find and replace a text'),
            button('', () => app.showPanel('disc'), 'Change bytes of a sector')];
        const hasImage = app.image !== null;
        const next = hasImage && [element('p', {}, 'Now open the patch: its script (a text file), or its patcher (a page, .html).'),
            element('div', { class: 'row next' }, open('main', 'Open the patch…'))];
        return element('section', { class: 'card pad stack' }, element('h2', {}, 'No patches yet'), ...next || [],
            element('p', {}, hasImage ? 'Or make your own changes. A script lists them as patches, which you rarely type yourself:'
                : 'A script lists your changes as patches. You rarely type it yourself:'),
            element('div', { class: 'stack tight start' }, ...own, !hasImage && open('', 'Open a script…')));
    }

    explain() {
        explainLine(this.app, this.lines, this.editor.current, this.strip);
    }

    help(line: number): LineHelp {
        const { app: { image }, lines } = this;
        const outcome = lines.outcomes.get(line + 1);
        if (outcome !== undefined && image) return helpOfRefusal(outcome.result, image, lines.writerBefore(outcome));
        const { text, fix } = helpOfFault(lines, line);
        return { text, says: fix ? fix.says : '' };
    }

    /** The button that shows the place of a refused patch, or corrects a faulty line; null if there is none. */
    helpButton(line: number) {
        const { says } = this.help(line);
        const outcome = this.lines.outcomes.get(line + 1);
        const press = () => {
            if (outcome) return this.app.goTo(outcome.block, outcome.offset, true);
            const { fix } = helpOfFault(this.lines, line);
            const at = fix && fix.head ? this.lines.head : line;
            this.editor.edit(at, 1, fix ? fix.lines : [], line, 0);
            return this.editor.focus();
        };
        return says === '' ? null : button('slim bare', press, says);
    }

    goTo(line: number) {
        this.editor.anchor = -1;
        this.editor.goTo(line, 0);
        this.editor.focus();
    }

    pressed(event: KeyboardEvent) {
        const control = event.ctrlKey || event.metaKey;
        if (event.key === 'Enter' && control) this.check.check();
        else if (event.key === 's' && control) this.save();
        else if (event.key === 'F8') {
            const line = this.lines.nextWrong(this.editor.current, event.shiftKey ? -1 : 1);
            if (line >= 0) this.goTo(line);
        } else return;
        event.preventDefault();
    }

    /** The button that saves the script, with a menu if there can be an undo script, or a log. */
    saveButton() {
        const { app, lines } = this;
        const { faults, tooMany, patches, long } = lines;
        if (faults > 0 || tooMany || app.image === null || (patches === 0 && !long)) {
            return button('slim', () => this.save(), texts.discSaveReport);
        }
        return menuButton('slim', 'save', texts.discSaveReport, () => [
            { label: texts.scriptSaveScript, press: () => this.save() },
            { label: texts.scriptUndoScript, press: () => void makeUndo(app, this.undoing, lines, this.check.carry.checked) },
            this.log.title !== '' && { label: this.log.title, press: () => this.log.open() }]);
    }

    save() {
        downloadText(this.lines.text(), this.lines.name || texts.scriptFile);
        this.lines.noteSaved();
        this.drawHead();
    }

    open() {
        const files = [...this.opening.files || []];
        this.opening.value = '';
        this.app.open(files);
    }
}
