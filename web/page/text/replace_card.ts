// The card that replaces a hit: the new text, its length compared with the old text, and the line that is added to the script.

import { encodeText, fillsOf, spaceIn, type Encoding } from '../../core/encodings/views.js';
import { bytesOfHex, hexText } from '../../core/bytes.js';
import { filledUp, untriedLines } from '../../core/tasks/index.js';
import { format, say } from '../texts/index.js';
import {
    button, element, fill, isDisabled, messageArea, messageOf, notice, setDisabled, showMessageAt, shownText, type Child,
} from '../ui/index.js';
import { chosenEncoding, textLines } from './search.js';
import { gauge, sizeWords } from './text_row.js';
import type { App } from '../app/index.js';
import type { Hit } from '../../core/texts/views.js';
import type { OrderedImage } from '../../core/disc/views.js';
import * as texts from '../texts/index.js';

/**
 * A hit to replace in the searched image: its number, from 1, of `of` hits; its old bytes; why no script can replace it, or '' (`refusal`);
 * the number of hits that the script does not write yet; and the line of the script that writes this hit, or 0.
 */
export type Target = { image: OrderedImage, hit: Hit, number: number, of: number, old: Uint8Array, refusal: string, left: number,
    line: number };
type ReplaceOwner = { add: (hit: Hit, fresh: Uint8Array, old: Uint8Array) => void,
    addAll: (fresh: Uint8Array, fill: Uint8Array | null) => void, skip: () => Promise<void>, choose: (index: number) => Promise<void> };

const SPACES = { '': '', space: 'space', 'wide-space': 'wide space' };

/** The initial choice of a fill if the encoding has no space. */
const NO_FILL = 'none';
const OTHER_FILL = '';

export class ReplaceCard {
    target: Target | null = null;
    /** The encoding to which the choices belong. */
    filled: Encoding | null = null;
    head = element('header', {});
    old = element('div', {});
    length = element('span', { class: 'small', id: 'new-length', role: 'status' });
    rest = element('div', { class: 'stack' });
    job = element('div', { class: 'stack' });
    message = messageArea();
    refusal = element('p', { class: 'say warn', role: 'status' });
    keys = element('p', { class: 'small quiet' },
            ...say('{key} replaces and goes to the next hit.',
        { key: element('kbd', {}, texts.sectorEnterKey) }));
    input; fill; other; add; all; form; card;

    constructor(readonly app: App, readonly owner: ReplaceOwner) {
        this.input = element('input', { type: 'text', class: 'mono', id: 'new-text', autocomplete: 'off', spellcheck: 'false',
            'aria-describedby': 'new-length', input: () => this.draw(), keydown: event => this.pressed(event) });
        this.fill = element('select', { class: 'short', 'aria-label': texts.textFillWith, change: () => this.draw() });
        this.other = element('input', { type: 'text', class: 'short mono', 'aria-label': 'The byte to pad with, two digits',
            maxlength: 2, value: 'FF', hidden: true, input: () => this.draw() });
        this.add = button('main', () => this.addLine(), texts.textReplaceText);
        this.all = button('', () => { if (!isDisabled(this.all)) owner.addAll(this.fresh().bytes, this.filling()); }, '');
        const filling = element('span', { class: 'row small quiet' }, texts.textFillWith, this.fill, this.other);
        const buttons = element('div', { class: 'row' }, this.add, this.all, button('slim bare', () => owner.skip(), texts.textSkipHit));
        this.form = element('div', { class: 'stack' },
            element('div', {}, element('label', { for: 'new-text' }, texts.textNewText), this.input),
            element('div', { class: 'row spread' }, this.length, filling), this.rest);
        this.card = element('section', { class: 'card', 'aria-label': texts.textReplaceText, hidden: true }, this.head,
            element('div', { class: 'pad stack' }, this.old, this.refusal, this.form, buttons, this.job, this.message, this.keys));
    }

    show(target: Target | null) {
        this.target = target;
        this.card.hidden = target === null;
        this.draw();
    }

    /** The new bytes, or the error if the text cannot be encoded. */
    fresh() {
        try {
            return { bytes: encodeText(chosenEncoding(this.app), this.input.value), fault: '' };
        } catch (error) {
            return { bytes: new Uint8Array(0), fault: messageOf(error) };
        }
    }

    /** Offers the fills of the encoding, its space first. */
    drawFills() {
        const encoding = chosenEncoding(this.app);
        if (this.filled === encoding) return;
        this.filled = encoding;
        const choices = fillsOf(encoding).map(({ bytes, name }) => [hexText(bytes), `${hexText(bytes, ' ')} ${SPACES[name]}`.trim()]);
        if (spaceIn(encoding) === null) choices.unshift([NO_FILL, 'choose…']);
        fill(this.fill, ...[...choices, [OTHER_FILL, 'another byte…']].map(([value, label]) => element('option', { value }, label)));
    }

    /** The bytes to fill with, or null if they are not valid hexadecimal digits. */
    filling() {
        const digits = this.fill.value || this.other.value;
        return /^([0-9A-Fa-f]{2})+$/.test(digits) ? bytesOfHex(digits) : null;
    }

    draw() {
        const { target } = this;
        if (target === null) return;
        const { hit, number, of, old, refusal, left, line } = target;
        this.drawFills();
        this.other.hidden = this.fill.value !== OTHER_FILL;
        fill(this.head, element('h2', {}, format('Replace: block {block} offset {offset}',
            { block: String(hit.block), offset: String(hit.offset) })),
            element('span', { class: 'small quiet' }, format('hit {number} of {count}', { number, count: of })));
        fill(this.old, element('span', { class: 'label' }, format('Old text: {n} byte|Old text: {n} bytes', { n: old.length })),
            element('p', { class: 'mono old-text' }, shownText(chosenEncoding(this.app).text(old))));
        const { bytes, fault } = this.fresh();
        const filling = this.filling();
        const filled = filledTo(bytes, old.length, filling);
        fill(this.refusal, refusal);
        this.refusal.hidden = refusal === '';
        for (const part of [this.form, this.add, this.keys]) part.hidden = refusal !== '';
        const ready = refusal === '' && filled !== null && fault === '' && this.input.value !== '';
        const replaces = this.rewritten(target, old) !== '';
        fill(this.add, replaces ? format('Update line {line}', { line: String(line) }) : texts.textReplaceText);
        this.add.classList.toggle('main', line === 0 || replaces);
        fill(this.length, ...this.lengthWords(bytes, old.length, fault));
        this.input.setAttribute('aria-invalid', String(fault !== '' || bytes.length > old.length));
        fill(this.rest, gauge(bytes, old.length, filling), ...this.advice(bytes, old, filled, fault, line));
        fill(this.all, format(left < of ? 'Replace the other {n}' : 'Replace all {n}', { n: left }));
        const had = document.activeElement === this.all;
        this.all.hidden = left < 2 || refusal !== '';
        if (had && this.all.hidden) this.input.focus();
        for (const it of [this.add, this.all]) setDisabled(it, !ready);
    }

    lengthWords(bytes: Uint8Array, size: number, fault: string): Child[] {
        if (fault !== '') return [element('b', { class: 'bad-ink' }, fault)];
        const more = bytes.length - size;
        const facts = { bytes: sizeWords(bytes.length, size), size: String(size) };
        if (more < 0) return say('{bytes} of {size}, {more} to pad', { ...facts, more: String(-more) });
        return say(more > 0 ? '{bytes} for the {size} of the old text' : '{bytes} of {size}, exact fit', facts);
    }

    /**
     * Shows the line that is added to the script, or why there is none.
     * @param line of the script that already writes the hit, or 0
     */
    advice(bytes: Uint8Array, old: Uint8Array, filled: Uint8Array | null, fault: string, line: number): Child[] {
        const more = bytes.length - old.length;
        const bad = (text: string) => [element('p', { class: 'say bad' }, text)];
        if (fault !== '' || this.target === null) return [];
        if (more > 0) return bad(format('Too long by {n} byte. Shorten it, or press Show all texts and then Find pointers.|\
Too long by {n} bytes. Shorten it, or press Show all texts and then Find pointers.', { n: more }));
        if (this.input.value === '') return [element('p', { class: 'say plain' }, 'Type the new text.')];
        if (filled === null) return bad(`${format(
            '{n} byte cannot be padded evenly with that filler.|{n} bytes cannot be padded evenly with that filler.',
            { n: -more })} Choose a different filler.`);
        const { image, hit } = this.target;
        const rewritten = this.rewritten(this.target, filled);
        const out = rewritten === '' ? textLines(untriedLines(image, { place: hit, old, fresh: filled })) : [rewritten];
        const its = { line: String(line) };
        const label = rewritten ? format('This line replaces line {line}', its) : 'This line goes into the script';
        return [element('div', {}, element('span', { class: 'label' }, label),
            ...out.map(text => element('p', { class: 'line-out' }, text))),
        line > 0 && rewritten === '' && element('p', { class: 'say warn' }, format(texts.textLineWritesHere, its))];
    }

    /** The replacement for the line of the script that writes exactly this hit; '' if no line does. */
    rewritten({ hit, line }: Target, fresh: Uint8Array) {
        return this.app.script.rewritten(line, hit, fresh);
    }

    pressed(event: KeyboardEvent) {
        if (event.key !== 'Enter' || event.isComposing) return;
        event.preventDefault();
        this.addLine();
    }

    addLine() {
        const { target } = this;
        if (target === null || isDisabled(this.add)) return;
        const filled = filledTo(this.fresh().bytes, target.old.length, this.filling());
        if (filled === null) return;
        const line = this.rewritten(target, filled);
        if (line === '') return this.owner.add(target.hit, filled, target.old);
        this.app.replaceLine(target.line, line);
        return void this.changed(notice('good', format('Line {line} is updated.', { line: String(target.line) })));
    }

    /**
     * Goes to the next hit after a change of the script, and reports the change there, with a button that undoes it. A script that is too
     * long to be shown has no undo.
     */
    async changed(words: HTMLElement) {
        const { app, owner, target } = this;
        const undo = async () => {
            app.changeScript(script => script.undo());
            if (target !== null) await owner.choose(target.number - 1);
            showMessageAt(this.message, notice('plain', 'The script is as it was before.'));
            this.input.focus();
        };
        if (!app.script.long) words.append(element('div', { class: 'row' }, button('slim', () => void undo(), texts.undo)));
        await owner.skip();
        showMessageAt(this.message, words);
    }
}

/** New bytes filled up to the size of the old ones, or null if they do not fit. */
function filledTo(fresh: Uint8Array, size: number, filling: Uint8Array | null) {
    try {
        return filledUp(fresh, size, filling);
    } catch {
        return null;
    }
}
