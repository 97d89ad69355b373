// A row of the table of texts: its file and places, the old text, the field for the new one, and a bar that compares it with its room.

import type { Remark } from '../../core/faults.js';
import type { Placed } from '../../core/tasks/index.js';
import { partsWithCodes, type ListedText } from '../../core/texts/views.js';
import { format, remarkText } from '../texts/index.js';
import { capital, element, fill, hexOf, seen, sentence, setAttribute, shownText, turnBackKey, type Child } from '../ui/index.js';
import type { KnownText } from './known_texts.js';
import * as texts from '../texts/index.js';

// A table of any number of rows of the same height, of which only the rows on the screen are in the document.

/** How many rows are drawn above and below those that are visible. */
const BESIDE = 6;

/** The maximum height of all rows in pixels: browsers limit that of an element. More rows are scrolled faster. */
const MOST_HEIGHT = 8000000;

export class VirtualRows {
    count = 0;
    /** The row that is always drawn, since it has the focus or gets it by the Tab key. */
    kept = 0;
    height = 64;
    gaps = [0, 1, 2].map(() => element('tr', { class: 'gap', 'aria-hidden': 'true' }, element('td', { colspan: 4 })));

    /**
     * @param box that scrolls
     * @param rowAt returns the row with an index, the same element as long as it is drawn
     */
    constructor(readonly box: HTMLElement, readonly body: HTMLTableSectionElement, readonly rowAt: (index: number) => HTMLElement) {
        box.addEventListener('scroll', () => this.draw());
        new ResizeObserver(() => requestAnimationFrame(() => this.draw())).observe(box);
    }

    /** The height of all rows, as far as the box scrolls. */
    get whole() {
        return Math.min(this.count * this.height, MOST_HEIGHT);
    }

    /** How many pixels of the box show rows: its head stays at its top. */
    get view() {
        return this.box.clientHeight - (this.box.querySelector('thead')?.getBoundingClientRect().height || 0);
    }

    /** How many pixels of rows the box scrolls by for each pixel of its scroll bar. */
    get scale() {
        const scrolled = this.whole - this.view;
        return scrolled <= 0 ? 1 : (this.count * this.height - this.view) / scrolled;
    }

    /** Draws the visible rows, and those near them. `isMeasured` says whether the height of the rows is known. */
    draw(isMeasured: boolean = false) {
        const { box: { clientHeight, scrollTop }, count, height, kept, whole } = this;
        const above = scrollTop * this.scale;
        const first = Math.max(Math.floor(above / height) - BESIDE, 0);
        const end = Math.min(Math.ceil((above + clientHeight) / height) + BESIDE, count);
        const rows = Array.from({ length: Math.max(end - first, 0) }, (_, i) => this.rowAt(first + i));
        const before = Math.max(Math.min(scrollTop - above + first * height, whole - rows.length * height), 0);
        const after = Math.max(whole - before - rows.length * height, 0);
        if (kept >= count || (kept >= first && kept < end)) fill(this.body, this.gap(0, before), ...rows, this.gap(1, after));
        else if (kept < first) this.drawWith(kept, before, gaps => [...gaps, ...rows, this.gap(2, after)]);
        else this.drawWith(kept - end, after, gaps => [this.gap(2, before), ...rows, ...gaps]);
        if (!isMeasured) this.measure(rows[0]);
    }

    /**
     * Draws the kept row within a gap.
     * @param rowsBefore how many rows of the gap are before it
     * @param gap its height
     * @param all returns all rows
     */
    drawWith(rowsBefore: number, gap: number, all: (gap: HTMLElement[]) => HTMLElement[]) {
        const left = Math.max(gap - this.height, 0);
        const before = Math.min(rowsBefore * this.height, left);
        fill(this.body, ...all([this.gap(0, before), this.rowAt(this.kept), this.gap(1, left - before)]));
    }

    gap(which: number, height: number) {
        this.gaps[which].hidden = height === 0;
        this.gaps[which].style.height = `${height}px`;
        return this.gaps[which];
    }

    /** Draws again if the rows have a different height than was assumed, for example in a narrow window. */
    measure(row: HTMLElement | undefined) {
        const height = row === undefined ? 0 : row.getBoundingClientRect().height;
        if (height === 0 || Math.abs(height - this.height) < 0.01) return;
        this.height = height;
        this.draw(true);
    }

    /** Draws a row, and scrolls so that it is visible. */
    reveal(index: number) {
        const { box, height, scale, view } = this;
        const [above, top] = [box.scrollTop * scale, index * height];
        this.kept = index;
        if (top < above) box.scrollTop = top / scale;
        else if (top + height > above + view) box.scrollTop = (top + height - view) / scale;
        this.draw();
        this.rowAt(index).scrollIntoView({ block: 'nearest' });
    }

    /** Shows a number of rows from the first one on. */
    show(count: number) {
        this.count = count;
        this.kept = 0;
        this.box.scrollTop = 0;
        this.draw();
    }
}

// Compares the length of a new text with its room: in words, and as a box for each byte.

const MOST_BOXES = 40;

/**
 * The number of bytes of a new text, and how many of them are too many.
 * @param size of the room
 */
export function sizeWords(n: number, size: number) {
    const more = n - size;
    const has = more > 0 ? format('{n} byte, {more} too many|{n} bytes, {more} too many', { n, more: String(more) }) : format(
        '{n} byte|{n} bytes', { n });
    return element('b', { class: more > 0 ? 'bad-ink' : 'good-ink' }, has);
}

/**
 * A box for each byte, which shows whether it fits, is a fill, or is too much; null if there are too many bytes.
 * @param filling null if it is not known
 */
export function gauge(bytes: Uint8Array, size: number, filling: Uint8Array | null) {
    const count = Math.max(bytes.length, size);
    if (count > MOST_BOXES) return null;
    const made = element('div', { class: 'gauge', 'aria-hidden': 'true' });
    made.style.setProperty('--n', String(count));
    for (let i = 0; i < count; i++) {
        const fill = filling ? filling[(i - bytes.length) % filling.length] : -1;
        const byte = i < bytes.length ? bytes[i] : fill;
        const within = i < bytes.length ? '' : 'pad-byte';
        made.append(element('i', { class: i < size ? within : 'over' },
            count <= 24 && byte >= 0 ? hexOf(Uint8Array.of(byte)) : ''));
    }
    return made;
}

// Words about new texts that do not fit.

/** The sentence on why the script cannot have a new text. */
export function whyLeft(why: Remark) {
    return why.code === 'list/line-across' ? format(texts.textLineWritesHere, { line: String(why.facts.line) })
        : `${capital(remarkText(why))}.`;
}

/** The sentence on why the script does not have the new text of a place. */
export function leftSentence({ why, written }: Placed) {
    if (why === null) return '';
    return written === '' || why.code === 'list/line-across' ? whyLeft(why) : `${whyLeft(why)} ${texts.textScriptKeeps}`;
}

/**
 * The callbacks to the table: the field got the focus; a new text was typed, and the field was left; a key moves to a different row, or
 * undoes or redoes a change; the room is to be read; and the comparison with it was drawn.
 */
type RowOwner = { focused: () => void, typed: (fresh: string) => void, move: (step: number) => void,
    turnBack: (way: 'undo' | 'redo') => void, readFit: () => Promise<void>, drawn: () => void };

/** The keys that move to a different row, by how many rows. */
const STEPS = { ArrowDown: 1, ArrowUp: -1, Enter: 1 } as Record<string, number>;

/** A text with its codes in a different colour. */
export function withCodes(cell: string): Child[] {
    return partsWithCodes(cell).map((part, i) => i % 2 === 1 ? element('span', { class: 'code' }, part) : shownText(part));
}

/** The place of a text in a script, or in an ordinary file. */
export function placeWords({ block, offset }: Pick<ListedText, 'block' | 'offset'>) {
    return block === '-' ? String(offset) : `${block}, ${offset}`;
}

/**
 * The file of a text, without its folders.
 * @param file with its folders and the place of the text in it, or `-`
 */
function ownName(file: string) {
    return file === '-' ? texts.sectorInNoFile : seen(file.replace(/\+\d+$/, '').replace(/^.*\//, ''));
}

/** How many rows were made, from which their ids come. */
const made = { count: 0 };

/** Makes a remark the description of a field for screen readers. */
function describe(field: HTMLElement, remark: HTMLElement) {
    made.count += 1;
    remark.id = `text-remark-${made.count}`;
    field.setAttribute('aria-describedby', remark.id);
}

/** The row of a text, for as long as it is drawn. */
export class TextRow {
    input: HTMLInputElement;
    words = element('p', { class: 'small words' });
    size = element('span', {});
    bar = element('i');
    room; row; shown;

    constructor(readonly known: KnownText, readonly owner: RowOwner) {
        const [{ file }] = known.places;
        const count = known.places.length;
        const place = count === 1 ? placeWords(known.places[0]) : format('{n} time|{n} times', { n: count });
        this.input = element('input', { type: 'text', autocomplete: 'off', spellcheck: 'false', tabindex: -1, placeholder: '—',
            'aria-label': format('New text for {text}', { text: shownText(known.text) }), focus: () => owner.focused(),
            input: () => this.drawSize(), change: () => owner.typed(this.input.value), keydown: event => this.pressed(event) });
        describe(this.input, this.words);
        this.room = element('td', { class: 'room' }, this.size, element('span', { class: 'filled', 'aria-hidden': 'true' }, this.bar));
        this.row = element('tr', {}, element('td', { class: 'small quiet' }, element('p', { title: seen(file) }, ownName(file)),
            element('p', { class: 'num' }, place)), element('td', {}, element('p', { class: 'old' }, ...withCodes(known.text))),
        element('td', {}, this.input, this.words), this.room);
        this.row.addEventListener('click', event => { if (event.target !== this.input) this.input.focus(); });
        /** The new text when the row was last drawn. */
        this.shown = known.fresh;
        this.input.value = known.fresh;
    }

    /** Draws the row after a change of the text. */
    draw(index: number, isChosen: boolean) {
        // The first row of the table has the names of the columns.
        this.row.setAttribute('aria-rowindex', String(index + 2));
        setAttribute(this.row, 'aria-current', isChosen ? 'true' : null);
        this.input.tabIndex = isChosen ? 0 : -1;
        if (document.activeElement !== this.input || this.input.value === this.shown) this.input.value = this.known.fresh;
        this.shown = this.known.fresh;
        this.drawSize();
        if (this.known.fit === undefined && (isChosen || this.known.fresh !== '')) void this.owner.readFit();
    }

    /** Compares the typed text with its room. */
    drawSize() {
        const { known: { fit, tightest, mayMove }, input } = this;
        const room = fit === undefined || fit instanceof Error ? tightest.room : fit.room;
        const { n, fault } = this.sizeOf(input.value);
        const isWrong = fault !== '' || (n > room && !mayMove) || (this.isKept() && this.known.why !== '');
        const needed = `${n < 0 ? '…' : n}`;
        fill(this.size, element(isWrong ? 'b' : 'span', {}, format('{n} of {room}', { n: needed, room: String(room) })));
        this.room.className = `room${isWrong ? ' bad-ink' : ''}${input.value === '' ? ' quiet' : ''}`;
        this.bar.className = isWrong ? 'over' : '';
        this.bar.style.width = `${room === 0 ? 100 : Math.min(Math.max(n, 0) * 100 / room, 100)}%`;
        input.setAttribute('aria-invalid', String(isWrong));
        const words = this.remark(fault, n - room);
        this.words.className = `small words${isWrong ? ' bad-ink' : ' quiet'}`;
        fill(this.words, words);
        this.words.title = words;
        this.owner.drawn();
    }

    /** Whether the field has the text that the table keeps. */
    isKept() {
        return this.input.value === this.known.fresh;
    }

    /** How many bytes a new text has, -1 if that is not known yet, and why it has none. */
    sizeOf(fresh: string) {
        const { fit } = this.known;
        if (fresh === '') return { n: 0, fault: '' };
        if (fit === undefined) return { n: -1, fault: '' };
        if (fit instanceof Error) return { n: -1, fault: `${sentence(fit)}.` };
        try {
            return { n: fit.bytesOf(fresh).length, fault: '' };
        } catch (error) {
            return { n: -1, fault: `${sentence(error)}.` };
        }
    }

    /** The sentence under the field. `fault` is why the typed text cannot be encoded, or ''. `more` is how many bytes it has too many. */
    remark(fault: string, more: number) {
        const { known: { places, why, written, waits, mayMove } } = this;
        if (fault !== '') return fault;
        const keeps = this.isKept() && why.endsWith(texts.textScriptKeeps) ? ` ${texts.textScriptKeeps}` : '';
        if (more > 0 && !mayMove) return `${format('{n} byte too many.|{n} bytes too many.', { n: more })}${keeps}`;
        const later = waits && this.isKept() ? 'Not in the script yet.' : '';
        if (more > 0 && (why === '' || !this.isKept())) return `${format(
            '{n} byte longer than its room, so it has to move.|{n} bytes longer than its room, so it has to move.', { n: more })} ${later}`;
        if (later !== '') return later;
        if (!this.isKept()) return places.length === 1 ? '' : format('Enter puts it in all {n} places.', { n: places.length });
        if (why !== '') return why;
        return this.input.value === '' || written === places.length ? ''
            : format('In {written} of {n} places.', { n: places.length, written });
    }

    pressed(event: KeyboardEvent) {
        const { key } = event;
        const way = turnBackKey(event);
        if (event.isComposing || event.altKey || (event.ctrlKey || event.metaKey) && way === '') return;
        if (way !== '' && this.isKept()) this.owner.turnBack(way);
        else if (key === 'Escape' && !this.isKept()) {
            this.input.value = this.known.fresh;
            this.drawSize();
        } else if (STEPS[key]) {
            if (key === 'Enter') this.owner.typed(this.input.value);
            this.owner.move(key === 'Enter' && event.shiftKey ? -1 : STEPS[key]);
        } else return;
        event.preventDefault();
        event.stopPropagation();
    }
}
