// The view of the bytes of a sector: in hex and as text, with the selection, and a strip of the whole sector beside them.

import type { Encoding } from '../../core/encodings/views.js';
import { SECTOR_SIZE, USER_SIZE } from '../../core/module/index.js';
import { USER_OFFSET } from '../../core/sectors/views.js';
import { charactersFrom } from '../../core/texts/views.js';
import { columnLabel, signOf } from '../text/index.js';
import { format } from '../texts/index.js';
import { element, fill, styleValue } from '../ui/index.js';
import * as texts from '../texts/index.js';

// Draws the bytes of a sector: lines of hexadecimal digits, with their text beside them.

export type Field = { name: string, label: string, from: number, to: number };
/**
 * The sector that is shown: its `bytes` after the script, the `old` ones before it, and the `other` ones of the second image, or null; its
 * fields; and the `crossings`, which are outlined.
 */
type Shown = { block: number, bytes: Uint8Array, old: Uint8Array, other: Uint8Array | null, mode1: boolean, fields: Field[],
    crossings: Set<number>, encoding: Encoding, label: string };
/** How lines are drawn: the number of bytes in each, and whether offsets are hexadecimal. */
type LineHow = { columns: number, hexadecimal: boolean };

/** The offset after the last byte of user data. */
export const USER_END = USER_OFFSET + USER_SIZE;

/** The titles of the parts of a Mode 1 sector, by the offset where each begins. */
const CUTS: Record<number, string> = {
    0: 'Sync field and header',
    [USER_OFFSET]: format('User data: offset 0 to {last}, which are bytes {first} to {end} of the sector',
        { last: String(USER_SIZE - 1), first: String(USER_OFFSET),
        end: String(USER_END - 1) }),
    [USER_END]: 'EDC, zeros and parity',
};

/** The line over the columns. */
function headLine({ label }: Shown, { columns, hexadecimal }: LineHow) {
    const numbers = Array.from({ length: columns }, (_, i) => element('i', {}, hexadecimal ? i.toString(16).toUpperCase() : i));
    return element('div', { class: 'head', 'aria-hidden': 'true' }, element('span', { class: 'o' }, texts.sectorOffsetWord),
        element('span', { class: 'b' }, ...numbers), element('span', { class: 't' }, columnLabel(label, columns)));
}

function hexLines(shown: Shown, how: LineHow) {
    const letters = textCells(shown);
    const lines = [];
    const stops = shown.mode1 ? [0, USER_OFFSET, USER_END, SECTOR_SIZE] : [0, SECTOR_SIZE];
    for (let part = 0; part + 1 < stops.length; part++) {
        if (shown.mode1) lines.push(element('div', { class: 'cut', role: 'presentation' }, CUTS[stops[part]]));
        for (let at = stops[part]; at < stops[part + 1]; at += how.columns) {
            const end = Math.min(at + how.columns, stops[part + 1]);
            lines.push(hexLine(shown, at, end, letters, how), ...otherLine(shown, at, end));
        }
    }
    return lines;
}

function hexLine(shown: Shown, from: number, to: number, letters: (Node | string)[], { hexadecimal }: LineHow) {
    const isUser = shown.mode1 && from >= USER_OFFSET && from < USER_END;
    const offset = isUser ? from - USER_OFFSET : from;
    const digits = hexadecimal ? offset.toString(16).toUpperCase().padStart(3, '0') : offset;
    const cells = [];
    for (let at = from; at < to; at++) cells.push(byteCell(shown, at));
    return element('div', { class: 'line', role: 'row' },
        element('span', { class: 'o', role: 'rowheader' }, shown.mode1 && !isUser ? `·${digits}` : digits),
        element('span', { class: 'b', role: 'presentation' }, ...cells),
        element('span', { class: 't', role: 'gridcell' }, ...letters.slice(from, to)));
}

/** The name of a byte's place: its offset in the user data, as in scripts, or else in the sector. */
export function placeName({ mode1 }: Shown, at: number) {
    return mode1 && at >= USER_OFFSET && at < USER_END ? format(texts.sectorOffsetIs, { offset: texts.sectorOffsetWord,
        at: String(at - USER_OFFSET) })
        : byteWords(at);
}

export function byteWords(at: number) {
    return format(texts.sectorByteOfSector, { at: String(at) });
}

function byteCell({ bytes, old, other, fields, crossings }: Shown, at: number) {
    const field = fields.find(it => at >= it.from && at < it.to);
    const names = [`x-${field ? field.name : 'user'}`];
    if (crossings.has(at)) names.push('sus');
    if (other !== null && other[at] !== old[at]) names.push('dif');
    if (bytes[at] !== old[at]) names.push('new');
    else if (bytes[at] === 0) names.push('zero');
    return element('i', { class: names.join(' '), role: 'gridcell', id: `byte-${at}`, 'data-at': at }, digitsOf(bytes[at]));
}

/** The line below a line, with the bytes of the second image that differ. None if all are the same. */
function otherLine({ old, other }: Shown, from: number, to: number) {
    if (other === null || old.subarray(from, to).every((byte, i) => byte === other[from + i])) return [];
    const cells = Array.from(other.subarray(from, to), (byte, i) => element('i', {}, byte === old[from + i] ? '' : digitsOf(byte)));
    return [element('div', { class: 'line second', 'aria-hidden': 'true' }, element('span', { class: 'o' }, 'second'),
        element('span', { class: 'b' }, ...cells))];
}

export function digitsOf(byte: number) {
    return byte.toString(16).toUpperCase().padStart(2, '0');
}

/** The text column for each byte: a character at its first byte, or a dot where there is no visible character. */
function textCells({ bytes, mode1, crossings, encoding }: Shown): (Node | string)[] {
    const cells: (Node | string)[] = new Array(SECTOR_SIZE).fill('');
    const stops = mode1 ? [0, USER_OFFSET, USER_END, SECTOR_SIZE] : [0, SECTOR_SIZE];
    for (let part = 0; part + 1 < stops.length; part++) {
        for (const { at, size, text } of charactersFrom(encoding, bytes.subarray(stops[part], stops[part + 1]))) {
            const place = stops[part] + at;
            const isSeen = signOf(text) === text;
            cells[place] = textCell(place, isSeen ? text : '·', isSeen, crossings.has(place));
            for (let i = 1; i < size && !isSeen; i++) cells[place + i] = textCell(place + i, '·', false, false);
        }
    }
    return cells;
}

function textCell(at: number, text: string, isSeen: boolean, suspect: boolean) {
    const seen = suspect ? 'u' : 'span';
    return element(isSeen ? seen : 'em', { 'data-at': at }, text);
}

const NARROW_HEX = 560;
const HEX_LINE_HEIGHT = 21;

export class HexView {
    shown: Shown | null = null;
    at = 0;
    /** The other end of the selection; the same as `at` if it is one byte. */
    from = 0;
    /** The column in which the user types. */
    column: 'hex' | 'text' = 'hex';
    hexadecimal = false;
    /** Whether the user is selecting with the mouse. */
    dragging = false;
    columns = 16;
    hex = element('div', { class: 'hex', tabindex: 0, role: 'grid',
        'aria-label': 'Bytes of the sector',
            'aria-multiselectable': 'true' });
    strip = element('canvas', { width: 16, height: SECTOR_SIZE / 16 });
    frame = element('span');
    mini; part;

    /** @param pressed handles the keys that do not move the selection */
    constructor(readonly pressed: (at: number, key: KeyboardEvent) => void) {
        this.mini = element('div', { class: 'mini', 'aria-hidden': 'true' }, this.strip, this.frame);
        this.part = element('div', { class: 'sector' }, this.hex, this.mini);
        this.listen();
    }

    listen() {
        this.hex.addEventListener('keydown', event => this.key(event));
        this.hex.addEventListener('click', event => this.pointed(event, event.shiftKey));
        this.hex.addEventListener('pointerdown', event => {
            this.dragging = event.pointerType === 'mouse' && this.pointed(event, event.shiftKey);
        });
        this.hex.addEventListener('pointerover', event => {
            this.dragging = this.dragging && event.buttons === 1;
            if (this.dragging) this.pointed(event, true);
        });
        this.hex.addEventListener('scroll', () => this.drawFrame());
        this.mini.addEventListener('click', event => {
            const { top, height } = this.strip.getBoundingClientRect();
            this.reveal(Math.floor((event.clientY - top) / height * SECTOR_SIZE), true);
        });
        matchMedia('(prefers-color-scheme: dark)').addEventListener('change', () => this.drawStrip());
        new ResizeObserver(() => {
            const columns = this.hex.clientWidth < NARROW_HEX ? 8 : 16;
            if (columns !== this.columns && this.hex.clientWidth > 0) this.show(this.shown, columns);
            this.drawFrame();
        }).observe(this.hex);
    }

    /** Chooses the byte that the mouse points at. Returns whether there is one. */
    pointed(event: MouseEvent, extend: boolean) {
        const cell = event.target as HTMLElement;
        const at = Number(cell.dataset.at ?? NaN);
        if (!Number.isInteger(at)) return false;
        this.column = cell.closest('.t') ? 'text' : 'hex';
        this.moveTo(at, extend);
        return true;
    }

    show(shown: Shown | null, columns: number = this.hex.clientWidth > 0 && this.hex.clientWidth < NARROW_HEX ? 8 : 16) {
        const top = this.hex.scrollTop;
        this.shown = shown;
        this.columns = columns;
        if (shown === null) return;
        this.hex.classList.toggle('cols8', columns === 8);
        fill(this.hex, headLine(shown, this), ...hexLines(shown, this));
        this.hex.scrollTop = top;
        this.drawStrip();
        this.mark();
    }

    /** @param hexadecimal whether offsets are shown in hexadecimal */
    setOffsets(hexadecimal: boolean) {
        this.hexadecimal = hexadecimal;
        this.show(this.shown, this.columns);
    }

    /** The first selected byte, and the one after the last. */
    selection() {
        return { first: Math.min(this.at, this.from), end: Math.max(this.at, this.from) + 1 };
    }

    /** Marks the chosen byte, and the selected ones. */
    mark() {
        for (const cell of this.hex.querySelectorAll('.at, .sel')) {
            cell.classList.remove('at', 'sel');
            cell.removeAttribute('aria-selected');
        }
        const cell = this.hex.querySelector(`#byte-${this.at}`);
        if (cell === null || this.shown === null) return;
        const { first, end } = this.selection();
        for (const other of end - first > 1 ? this.hex.querySelectorAll('[data-at]') : []) {
            const at = Number((other as HTMLElement).dataset.at);
            if (at < first || at >= end) continue;
            other.classList.add('sel');
            if (other.id) other.setAttribute('aria-selected', 'true');
        }
        this.hex.classList.toggle('texts', this.column === 'text');
        for (const it of this.hex.querySelectorAll(`[data-at="${this.at}"]`)) it.classList.add('at');
        const place = placeName(this.shown, this.at);
        cell.setAttribute('aria-label', format('{place}: {digits}', { place, digits: String(cell.textContent) }));
        this.hex.setAttribute('aria-activedescendant', cell.id);
    }

    /** @param middle whether the byte is scrolled to the middle */
    reveal(at: number, middle: boolean = false) {
        const cell = this.hex.querySelector(`#byte-${Math.min(Math.max(at, 0), SECTOR_SIZE - 1)}`);
        const line = (cell && cell.closest('.line')) as HTMLElement | null;
        if (line === null) return;
        const top = line.offsetTop;
        const [first, last] = [this.hex.scrollTop + HEX_LINE_HEIGHT, this.hex.scrollTop + this.hex.clientHeight - HEX_LINE_HEIGHT];
        if (middle) this.hex.scrollTop = top - this.hex.clientHeight / 2;
        else if (top < first) this.hex.scrollTop = top - 2 * HEX_LINE_HEIGHT;
        else if (top > last - HEX_LINE_HEIGHT) this.hex.scrollTop = top - this.hex.clientHeight + 2 * HEX_LINE_HEIGHT;
    }

    /** Chooses a byte. `extend` says whether the selection is extended or reduced to it. */
    moveTo(at: number, extend: boolean = false) {
        if (this.shown === null) return;
        this.at = Math.min(Math.max(at, 0), SECTOR_SIZE - 1);
        if (!extend) this.from = this.at;
        this.mark();
        this.reveal(this.at);
        this.hex.dispatchEvent(new CustomEvent('moved', { detail: this.at }));
    }

    /** Selects the user data, or all bytes of a sector that has none. */
    selectAll() {
        if (this.shown === null) return;
        const [first, end] = this.shown.mode1 ? [USER_OFFSET, USER_END] : [0, SECTOR_SIZE];
        this.from = first;
        this.moveTo(end - 1, true);
    }

    /** @param column in which the user types from now on; bytes are copied in its form */
    typeIn(column: 'hex' | 'text') {
        this.column = column;
        this.moveTo(this.at, true);
    }

    key(event: KeyboardEvent) {
        if (this.shown === null || event.altKey) return undefined;
        if (event.ctrlKey || event.metaKey) return this.pressed(this.at, event);
        const row = this.columns;
        const moves: Record<string, number> = { ArrowLeft: this.at - 1, ArrowRight: this.at + 1, ArrowUp: this.at - row,
            ArrowDown: this.at + row,
            Home: this.at - this.at % row, End: this.at - this.at % row + row - 1 };
        if (moves[event.key] === undefined) return this.pressed(this.at, event);
        event.preventDefault();
        return this.moveTo(moves[event.key], event.shiftKey);
    }

    /** How many bytes fit on a screen. */
    screen() {
        return Math.max(1, Math.floor(this.hex.clientHeight / HEX_LINE_HEIGHT) - 2) * this.columns;
    }

    drawStrip() {
        const context = this.strip.getContext('2d');
        if (context === null || this.shown === null) return;
        const { bytes, old, fields, crossings } = this.shown;
        const colours: Record<string, string> = { user: styleValue('--line'), empty: styleValue('--panel') };
        const [suspect, changed] = [styleValue('--f-edc'), styleValue('--good')];
        for (const { name } of fields) colours[name] = name === 'user' ? colours.user : styleValue(`--h-${name}`) || colours.user;
        for (const { name, from, to } of fields) {
            for (let at = from; at < to; at++) {
                const plain = name === 'user' && bytes[at] === 0 ? colours.empty : colours[name];
                const own = bytes[at] !== old[at] ? changed : plain;
                context.fillStyle = crossings.has(at) ? suspect : own;
                context.fillRect(at % 16, Math.floor(at / 16), 1, 1);
            }
        }
        this.drawFrame();
    }

    drawFrame() {
        const { scrollTop, clientHeight, scrollHeight } = this.hex;
        const height = this.strip.clientHeight;
        if (scrollHeight === 0) return;
        this.frame.style.top = `${this.strip.offsetTop - 2 + height * scrollTop / scrollHeight}px`;
        this.frame.style.height = `${height * clientHeight / scrollHeight + 4}px`;
    }
}
