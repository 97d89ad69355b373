// The editor of a script: lines with numbers, marks, and messages. Only the visible lines are drawn, and only the line with the caret is a
// text field.

import type { Encoding } from '../../core/encodings/views.js';
import { CONTENT, VERB, isFault } from '../../core/module/index.js';
import { faultyWord, lineParts, partOfWord, type ScriptLine } from '../../core/script/views.js';
import type { ScriptLines } from '../app/index.js';
import { format } from '../texts/index.js';
import { element, seenLines, showNotice, shownText, type Child } from '../ui/index.js';
import * as texts from '../texts/index.js';

// Chooses the lines of the editor that have help under them.

/** Help is shown for this many wrong lines at most: the strip under the editor shows the help for any line. */
export const MOST_HELPED = 1000;

/** The help for each line. A wrong line has none if the help for the wrong line before is the same. */
export function chosenHelps(lines: ScriptLines, helpOf: (line: number) => LineHelp) {
    const helps: Map<number, LineHelp> = new Map();
    if (lines.faults === 0 && lines.outcomes.size === 0) return helps;
    let before = '';
    let wrong = 0;
    for (let i = 0; i < lines.lines.length && wrong < MOST_HELPED; i++) {
        if (!lines.isWrong(i)) continue;
        wrong += 1;
        const help = helpOf(i);
        if (help.text !== '' && help.text !== before) helps.set(i, help);
        before = help.text || before;
    }
    return helps;
}

// The parts of a line in the editor: its words in colours, and the texts that its patch writes.

/** The maximum number of characters of a line that are drawn, and of bytes of a patch that are shown as a text beside its line. */
const MOST_DRAWN = 600;
const MOST_BYTES = 120;

/** The words of a line in colours. The faulty word is underlined. */
function colored({ calls, lines }: ScriptLines, i: number): Child[] {
    const { text, content } = lines[i];
    const drawn = text.slice(0, MOST_DRAWN);
    if (content === CONTENT.NOTHING) return [element('span', { class: 'c' }, seenLines(drawn))];
    const parts = lineParts(drawn);
    const wrong = isFault(content) ? faultyWord(calls, text, content) : -1;
    return parts.map((part, k) => {
        const seen = seenLines(part);
        if (wrong >= 0 && k === partOfWord(parts, wrong)) return element('span', { class: 'e' }, seen);
        if (k === partOfWord(parts, 0)) return element('span', { class: 'v' }, seen);
        return part === 'was' ? element('span', { class: 'w' }, seen) : seen;
    });
}

/** A cache, as each key press needs them. */
const known: WeakMap<ScriptLine, { encoding: Encoding, old: string | null, fresh: string }> = new WeakMap();

/**
 * The new text of a line's patch, after the old text if the line names old bytes. Empty if its verb is not set, or if the encoding has no
 * characters.
 */
export function textsOfLine(encoding: Encoding, lines: ScriptLines, i: number): Child[] {
    const { patch } = lines.lines[i];
    if (patch === null || patch.verb !== VERB.SET || !encoding.hasCharacters) return [];
    const { old, fresh } = readTexts(encoding, lines, i);
    return [old === null ? null : element('span', {}, old), ' → ', element('span', {}, fresh)];
}

function readTexts(encoding: Encoding, lines: ScriptLines, i: number) {
    const line = lines.lines[i];
    const before = known.get(line);
    if (before && before.encoding === encoding) return before;
    const patch = lines.patchAt(i);
    const text = (bytes: Uint8Array) =>
        `${shownText(encoding.text(bytes.subarray(0, MOST_BYTES)))}${bytes.length > MOST_BYTES ? '…' : ''}`;
    const texts = { encoding, old: patch && patch.old && text(patch.old), fresh: patch ? text(patch.fresh) : '' };
    known.set(line, texts);
    return texts;
}

/** The help for a line: a text, '' if there is none; and the label of the button after it, or ''. */
export type LineHelp = { text: string, says: string };
/**
 * The callbacks to the panel: the help for a wrong line, and its button; the texts that a line writes, if the encoding has characters; and
 * the events that the caret has moved to a different line, that the text has changed, and that a check is requested.
 */
type EditorOwner = { help: (line: number) => LineHelp, helpButton: (line: number) => Child, texts: (line: number) => Child[],
    hasTexts: () => boolean, moved: () => void, changed: () => void, check: () => void };

export const ROW_HEIGHT = 24;
const WORDS_HEIGHT = 16;
const HELP_HEIGHT = 19;
const MARGIN = 90;
const WORDS_WIDTH = 7.6;
const HELP_WIDTH = 6.6;
const MOST_COLUMNS = 84;
const NARROW_EDITOR = 728;
const ABOVE_AND_BELOW = 6;

export class ScriptEditor {
    current = 0;
    /** The line at the other end of the selection, or -1. */
    anchor = -1;
    tops = new Float64Array(2);
    helps = new Map<number, LineHelp>();
    area = element('textarea', { rows: 1, spellcheck: 'false', autocomplete: 'off', autocapitalize: 'off', wrap: 'soft' });
    now = element('li', { class: 'now' });
    list = element('ol', {});
    width = 0;
    box;

    constructor(readonly lines: ScriptLines, readonly owner: EditorOwner) {
        this.box = element('div', { class: 'editor' }, this.list);
        this.box.addEventListener('scroll', () => this.drawRows());
        new ResizeObserver(() => requestAnimationFrame(() => this.resized())).observe(this.box);
    }

    /** Draws everything if the width has changed, since the heights of lines depend only on the width; else only the rows. */
    resized() {
        if (this.box.clientWidth === this.width) return this.drawRows();
        this.width = this.box.clientWidth;
        return this.draw();
    }

    /** Redraws everything after a change of the text or of its messages. */
    draw() {
        this.current = Math.min(this.current, this.lines.lines.length - 1);
        this.helps = chosenHelps(this.lines, line => this.owner.help(line));
        this.drawCurrent();
        this.place();
        this.drawRows();
    }

    /** Calculates where each line begins. */
    place() {
        const { lines } = this.lines;
        const typed = Math.max(this.area.scrollHeight, ROW_HEIGHT) - ROW_HEIGHT;
        const { clientWidth: width } = this.box;
        const [isNarrow, hasHelp, hasTexts] = [width < NARROW_EDITOR, this.helps.size > 0, this.owner.hasTexts()];
        this.tops = new Float64Array(lines.length + 1);
        for (let i = 0; i < lines.length; i++) {
            const extra = (isNarrow ? this.messagesHeight(i, width, hasTexts) : 0) + (hasHelp ? this.helpHeight(i) : 0);
            this.tops[i + 1] = this.tops[i] + ROW_HEIGHT + extra + (i === this.current ? typed : 0);
        }
        this.list.style.height = `${this.tops[lines.length]}px`;
    }

    /**
     * The additional height of a line in a narrow editor, where its texts and its message are under it. The message that a patch matches is
     * beside its texts.
     * @param width of the editor
     * @param hasTexts whether the texts that lines write are shown
     */
    messagesHeight(i: number, width: number, hasTexts: boolean) {
        const { patch } = this.lines.lines[i];
        const wrong = this.lines.isWrong(i);
        const beside = (hasTexts && patch !== null && patch.verb === VERB.SET) || (!wrong && this.lines.outcomes.has(i + 1));
        const words = wrong ? WORDS_HEIGHT * Math.ceil(this.lines.wordsAt(i).length * WORDS_WIDTH / (width - MARGIN)) + 6 : 0;
        return (beside ? WORDS_HEIGHT + 6 : 0) + words;
    }

    /** The height of the help under a line, 0 if there is none. */
    helpHeight(i: number) {
        const help = this.helps.get(i);
        if (help === undefined) return 0;
        const size = help.text.length + (help.says === '' ? 0 : help.says.length + 4);
        const columns = Math.min((this.box.clientWidth - MARGIN) / HELP_WIDTH, MOST_COLUMNS);
        return 11 + HELP_HEIGHT * Math.ceil(size / columns) + (help.says === '' ? 0 : 4);
    }

    /** The first line that ends below a y coordinate. */
    lineAt(y: number) {
        let [low, high] = [0, this.lines.lines.length - 1];
        while (low < high) {
            const middle = (low + high) >> 1;
            if (this.tops[middle + 1] > y) high = middle;
            else low = middle + 1;
        }
        return low;
    }

    /** Draws the visible lines around the line with the caret, whose element is not moved so that it keeps the focus. */
    drawRows() {
        const { scrollTop, clientHeight } = this.box;
        const first = Math.max(this.lineAt(scrollTop) - ABOVE_AND_BELOW, 0);
        const last = Math.min(this.lineAt(scrollTop + clientHeight) + ABOVE_AND_BELOW, this.lines.lines.length - 1);
        const [before, after] = [[] as Node[], [] as Node[]];
        for (let i = first; i <= last; i++) {
            const side = i < this.current ? before : after;
            if (i !== this.current) side.push(this.row(i));
            if (this.helps.has(i)) (i < this.current ? before : after).push(this.helpRow(i));
        }
        this.now.style.top = `${this.tops[this.current]}px`;
        if (this.now.parentNode === null) this.list.append(this.now);
        while (this.now.previousSibling) this.now.previousSibling.remove();
        while (this.now.nextSibling) this.now.nextSibling.remove();
        this.now.before(...before);
        this.now.after(...after);
    }

    row(i: number) {
        const chosen = this.isChosen(i) ? ' chosen' : '';
        const made = element('li', { class: (this.lines.isWrong(i) ? 'bad' : '') + chosen }, ...this.margin(i),
            element('span', { class: 'src' }, ...colored(this.lines, i)), ...this.messagesAt(i));
        made.dataset.line = String(i);
        made.style.top = `${this.tops[i]}px`;
        made.style.minHeight = `${this.tops[i + 1] - this.tops[i] - this.helpHeight(i)}px`;
        return made;
    }

    margin(i: number) {
        return [element('span', { class: 'ln' }, i + 1),
            element('span', { class: `mk ${this.ink(i)}`, 'aria-hidden': 'true' }, this.signOf(i))];
    }

    /** The sign for a line whose patch matches or is refused, or that has a fault. */
    signOf(i: number) {
        if (this.lines.isMatched(i)) return '✓';
        if (!this.lines.isWrong(i)) return '';
        return this.lines.outcomes.has(i + 1) ? '✕' : '!';
    }

    /** The class for the colour of a line's message. */
    ink(i: number) {
        if (this.lines.isWrong(i)) return 'bad-ink';
        return this.lines.isMatched(i) ? 'good-ink' : 'quiet';
    }

    /** The right side of a line: the texts that it writes, and its message. */
    messagesAt(i: number) {
        const words = this.lines.wordsAt(i);
        return [element('span', { class: 'texts' }, ...this.owner.texts(i)),
            element('span', { class: `out ${this.ink(i)}`, title: words || null }, words)];
    }

    helpRow(i: number) {
        const help = this.helps.get(i);
        const made = element('li', { class: 'why' }, element('p', {}, help ? help.text : '', ' ', this.owner.helpButton(i)));
        const height = this.helpHeight(i);
        made.style.top = `${this.tops[i + 1] - height}px`;
        made.style.height = `${height}px`;
        return made;
    }

    drawCurrent() {
        const i = this.current;
        const { text } = this.lines.lines[i];
        const wrong = this.lines.isWrong(i);
        const words = this.lines.wordsAt(i);
        if (this.area.value !== text) this.area.value = text;
        const where = format('Script, line {line} of {all}', { line: String(i + 1), all: String(this.lines.lines.length) });
        this.area.setAttribute('aria-label', words ? format('{where}: {words}', { where, words }) : where);
        this.now.className = `now${wrong ? ' bad' : ''}${this.isChosen(i) ? ' chosen' : ''}`;
        if (this.area.parentNode === null) this.now.append(element('span', { class: 'src' }, this.area));
        const source = this.area.parentNode as Element;
        while (source.previousSibling) source.previousSibling.remove();
        while (source.nextSibling) source.nextSibling.remove();
        source.before(...this.margin(i));
        source.after(...this.messagesAt(i));
        this.area.style.height = `${ROW_HEIGHT}px`;
        this.area.style.height = `${Math.max(this.area.scrollHeight, ROW_HEIGHT)}px`;
    }

    isChosen(i: number) {
        return this.anchor >= 0 && i >= Math.min(this.anchor, this.current) && i <= Math.max(this.anchor, this.current);
    }

    /** Moves the caret to a line, and shows it. */
    goTo(line: number, column: number = this.area.selectionStart) {
        const count = this.lines.lines.length;
        const target = Math.min(Math.max(line, 0), count - 1);
        const other = target !== this.current;
        this.current = target;
        this.drawCurrent();
        const at = Math.min(column, this.area.value.length);
        this.area.setSelectionRange(at, at);
        this.place();
        this.reveal();
        this.drawRows();
        if (other) this.owner.moved();
    }

    /** Scrolls so that the line with the caret and its help are visible. */
    reveal() {
        const [top, end] = [this.tops[this.current], this.tops[this.current + 1]];
        const { scrollTop, clientHeight } = this.box;
        if (top < scrollTop) this.box.scrollTop = top;
        else if (end > scrollTop + clientHeight) this.box.scrollTop = Math.min(end - clientHeight, top);
    }

    /** Puts the focus on the line with the caret. */
    focus() {
        this.area.focus({ preventScroll: true });
        this.reveal();
    }

    /** Replaces lines, and moves the caret. Lines that would make the script too long are refused. */
    edit(at: number, count: number, inserted: string[], line: number, column: number) {
        this.anchor = -1;
        if (!this.hasRoom(at, count, inserted)) return;
        this.lines.edit(at, count, inserted);
        this.current = Math.min(line, this.lines.lines.length - 1);
        this.draw();
        this.goTo(line, column);
        this.owner.changed();
        this.owner.moved();
    }

    /** Whether lines can be replaced by others. If that makes the script too long, the line with the caret is shown as it was. */
    hasRoom(at: number, count: number, inserted: string[]) {
        if (this.lines.hasRoom(at, count, inserted)) return true;
        this.draw();
        showNotice('bad', texts.scriptWouldBeTooLong);
        return false;
    }

    /** The width of a character, in pixels. */
    characterWidth() {
        const context = document.createElement('canvas').getContext('2d') as CanvasRenderingContext2D;
        context.font = getComputedStyle(this.area).font;
        return context.measureText('0').width || 8;
    }
}
