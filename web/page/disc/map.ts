// The map of a disc: the canvas with its ruler, the tip at the pointer, the loupe under it, and the keys.

import { MARK, loudMarks, nextFinding, nextRun, type MapModel } from '../app/index.js';
import { format } from '../texts/index.js';
import { element, fill, styleValue } from '../ui/index.js';
import * as texts from '../texts/index.js';

// Lays out and draws a map: the place of each sector, and the pixels.

/** How sectors are laid out: `per` of them share a cell, which is `cell` pixels wide and high; `columns` cells form a row. */
type MapLayout = { per: number, cell: number, columns: number, rows: number, width: number, height: number };

/** The colour of Mode 1 sectors in the second shade, and its place among those of the marks. */
const SHADE = '--k-shade';
const SHADED = 15;

const LARGEST_CELL = 14;
const HIGHEST_OF_CELLS = 280;
const HIGHEST = 520;
const PART_OF_WINDOW = 0.62;

/** The layout of sectors: one pixel per sector if they fit, several sectors per pixel if not, and larger cells if there are few. */
function layoutOf(count: number, width: number, windowHeight: number): MapLayout {
    const highest = Math.max(Math.min(windowHeight * PART_OF_WINDOW, HIGHEST), 1);
    const per = Math.max(1, Math.ceil(count / (width * highest)));
    let cell = 1;
    while (cell < LARGEST_CELL && Math.ceil(count / Math.floor(width / (cell + 1))) * (cell + 1) <= HIGHEST_OF_CELLS) cell += 1;
    const columns = Math.max(1, Math.floor(width / cell));
    const rows = Math.max(1, Math.ceil(Math.ceil(count / per) / columns));
    return { per, cell, columns, rows, width: columns * cell, height: rows * cell };
}

/** Where the cell of a sector begins. */
function cellAt({ per, cell, columns }: MapLayout, sector: number) {
    const place = Math.floor(sector / per);
    return { x: place % columns * cell, y: Math.floor(place / columns) * cell };
}

/** The sector at a point in pixels: the worst of those that share its cell, or a finding beside it whose mark extends there. */
export function sectorAt({ per, cell, columns, rows }: MapLayout, { marks, looks }: MapModel, x: number, y: number) {
    const column = Math.min(Math.max(Math.floor(x / cell), 0), columns - 1);
    const row = Math.min(Math.max(Math.floor(y / cell), 0), rows - 1);
    const loud = loudMarks(looks);
    const around = cell > 1 ? [[0, 0]] : [[0, 0], [1, 0], [0, 1], [1, 1]];
    let best = Math.min((row * columns + column) * per, marks.length - 1);
    for (const [left, up] of around) {
        if (left > column || up > row) continue;
        const worst = worstOf(marks, ((row - up) * columns + column - left) * per, per);
        if (worst >= 0 && loud[marks[worst]] && !loud[marks[best]]) best = worst;
    }
    return best;
}

/** The sector with the greatest mark in a range, or -1 past the last sector. */
function worstOf(marks: Uint8Array, first: number, count: number) {
    if (first >= marks.length) return -1;
    let worst = first;
    for (let i = first + 1; i < Math.min(first + count, marks.length); i++) {
        if (marks[i] > marks[worst]) worst = i;
    }
    return worst;
}

/** @param colour as #rrggbb */
function pixelOf(colour: string) {
    const [red, green, blue] = [1, 3, 5].map(at => parseInt(colour.slice(at, at + 2), 16));
    return (255 << 24 | blue << 16 | green << 8 | red) >>> 0;
}

/**
 * Draws a map.
 * @param alone the mark that is shown alone, or -1
 * @param shades of Mode 1 sectors
 */
function paintMap(canvas: HTMLCanvasElement, model: MapModel, layout: MapLayout, alone: number, shades: Uint8Array) {
    Object.assign(canvas, { width: layout.width, height: layout.height });
    const context = canvas.getContext('2d');
    if (context === null) return;
    const image = context.createImageData(layout.width, layout.height);
    const pixels = new Uint32Array(image.data.buffer);
    const colours = coloursOf(model, alone);
    const worst = cellMarks(model, layout);
    for (let place = 0; place < worst.length; place++) {
        paintCell(pixels, layout, place, worst[place] === MARK.MODE1 && shades[place * layout.per] ? SHADED : worst[place], colours);
    }
    if (layout.cell === 1) widenFindings(pixels, layout, worst, model, colours, alone);
    context.putImageData(image, 0, 0);
}

/** The colour of each mark, and the two colours of unread sectors. */
function coloursOf({ looks }: MapModel, alone: number) {
    const sunk = pixelOf(styleValue('--sunk'));
    const colours = new Uint32Array(16).fill(sunk);
    for (const { mark, colour } of looks) {
        if (alone < 0 || alone === mark) colours[mark] = pixelOf(styleValue(colour));
    }
    colours[SHADED] = colours[MARK.MODE1] === sunk ? sunk : pixelOf(styleValue(SHADE));
    return { colours, sunk, line: pixelOf(styleValue('--line')) };
}

/** The mark of each cell: the greatest of its sectors. */
function cellMarks({ marks }: MapModel, { per }: MapLayout) {
    if (per === 1) return marks;
    const worst = new Uint8Array(Math.ceil(marks.length / per));
    for (let i = 0; i < marks.length; i++) {
        const place = Math.floor(i / per);
        if (marks[i] > worst[place]) worst[place] = marks[i];
    }
    return worst;
}

function paintCell(pixels: Uint32Array, { cell, columns, width }: MapLayout, place: number, mark: number,
    { colours, sunk, line }: ReturnType<typeof coloursOf>) {
    const [left, top] = [place % columns * cell, Math.floor(place / columns) * cell];
    const gap = cell > 6 ? 1 : 0;
    for (let y = top; y < top + cell - gap; y++) {
        for (let x = left; x < left + cell - gap; x++) {
            const unread = (x + y) % 6 === 0 ? line : sunk;
            pixels[y * width + x] = mark !== MARK.UNREAD ? colours[mark] : unread;
        }
    }
}

/** Draws each finding two pixels wide and high, the worst ones last. */
function widenFindings(pixels: Uint32Array, { width, rows }: MapLayout, worst: Uint8Array, { looks }: MapModel,
    { colours }: ReturnType<typeof coloursOf>, alone: number) {
    const loud = looks.filter(look => look.loud && (alone < 0 || alone === look.mark)).map(look => look.mark).sort((a, b) => a - b);
    for (const mark of loud) {
        for (let place = worst.indexOf(mark); place >= 0; place = worst.indexOf(mark, place + 1)) {
            const right = place % width + 1 < width ? 1 : 0;
            const down = Math.floor(place / width) + 1 < rows ? width : 0;
            for (const next of [place, place + right, place + down, place + down + right]) pixels[next] = colours[mark];
        }
    }
}

/**
 * Functions that the owner of a map provides: `spoken` and `tip` return the text of a sector for the slider and the lines of its tip.
 * `choose` is called when a sector is chosen (`open` if it is to be opened, `focus` if it gets the focus), and `goTo` when the number of a
 * block is to be typed.
 */
type MapOwner = { spoken: (sector: number) => string, tip: (sector: number) => string[],
    choose: (sector: number, how: { open: boolean, focus: boolean }) => void, goTo: () => void };

const SECTORS_A_MINUTE = 4500;
const LEAST_RULER_STEP = 26;
const LOUPE_CELL = 19;

export class DiscMap {
    model: MapModel | null = null;
    at = -1;
    alone = -1;
    /** The shade of each Mode 1 sector, none until the files are known. */
    shades = new Uint8Array(0);
    layout = layoutOf(1, 1, 1);
    waiting = 0;
    canvas = element('canvas', { id: 'map', tabindex: 0, role: 'slider', 'aria-label': texts.discMapOfDisc });
    ring = element('div', { class: 'ring', 'aria-hidden': 'true', hidden: true });
    tip = element('div', { class: 'tip', 'aria-hidden': 'true', hidden: true });
    ruler = element('div', { class: 'ruler', 'aria-hidden': 'true' });
    loupe = element('ol');
    per = element('span', { class: 'small quiet' });
    box; part;

    constructor(readonly owner: MapOwner) {
        this.box = element('div', { class: 'map-box' }, this.canvas, this.ring, this.tip);
        this.part = element('div', { class: 'stack none' }, element('div', { class: 'map' }, this.ruler, this.box),
            element('div', { class: 'loupe', 'aria-hidden': 'true' }, this.loupe));
        this.listen();
    }

    listen() {
        const { canvas } = this;
        canvas.addEventListener('pointermove', event => this.hover(event));
        canvas.addEventListener('pointerleave', () => { this.tip.hidden = true; });
        canvas.addEventListener('click', event => this.choose(this.pointed(event), { open: true, focus: false }));
        canvas.addEventListener('keydown', event => this.pressed(event));
        this.loupe.addEventListener('click', event => {
            const sector = Number((event.target as HTMLElement).dataset.sector);
            if (sector >= 0) this.choose(sector, { open: true, focus: false });
        });
        new ResizeObserver(() => this.draw()).observe(this.box);
        matchMedia('(prefers-color-scheme: dark)').addEventListener('change', () => this.draw());
    }

    /** Shows a different model, or the same one after it has changed. `alone` is the only mark that is drawn, or -1. */
    show(model: MapModel | null, alone: number = -1) {
        this.alone = alone;
        if (model === null || this.model === null || model.marks.length !== this.model.marks.length) this.at = -1;
        this.model = model;
        // A disc of less than a minute has no ruler. The labels of the ruler cannot decide this: they depend on the room that it takes.
        this.part.classList.toggle('short', model !== null && model.marks.length < SECTORS_A_MINUTE);
        this.draw();
    }

    /** Draws with the next frame, once for all calls until then. */
    draw() {
        if (this.waiting !== 0) return;
        this.waiting = requestAnimationFrame(() => {
            this.waiting = 0;
            this.drawNow();
        });
    }

    drawNow() {
        const { model, canvas, box } = this;
        const width = Math.floor(box.clientWidth);
        if (model === null || width === 0) return;
        const layout = layoutOf(model.marks.length, width, innerHeight);
        this.layout = layout;
        canvas.style.width = `${layout.width}px`;
        canvas.style.height = `${layout.height}px`;
        paintMap(canvas, model, layout, this.alone, this.shades);
        const shared = layout.per > 1 ? format('1 pixel = {n} sectors, the worst shown', { n: layout.per }) : '1 pixel = 1 sector';
        const per = layout.cell > 1 ? '1 square = 1 sector' : shared;
        this.per.textContent = this.shades.includes(1) ? format('{per}; files in two shades', { per }) : per;
        this.drawRuler(model, layout);
        this.drawPlace();
    }

    drawRuler({ base, marks }: MapModel, layout: MapLayout) {
        const rowsOf = (minutes: number) => minutes * SECTORS_A_MINUTE / layout.per / layout.columns * layout.cell;
        const step = [1, 2, 5, 10, 20, 50].find(minutes => rowsOf(minutes) >= LEAST_RULER_STEP) || 100;
        const labels = [];
        for (let minute = Math.ceil(base / SECTORS_A_MINUTE / step) * step; layout.height > 60; minute += step) {
            const sector = minute * SECTORS_A_MINUTE - base;
            if (sector >= marks.length) break;
            const label = element('span', {}, format('{minute} min', { minute: String(minute) }));
            label.style.top = `${Math.min(layout.height - 4, Math.max(6, rowsOf(sector / SECTORS_A_MINUTE)))}px`;
            labels.push(label);
        }
        fill(this.ruler, ...labels.length > 1 ? labels : []);
    }

    /** Shows where the chosen sector is, also to screen readers. */
    drawPlace() {
        const { model, canvas, ring, layout, at } = this;
        if (model === null) return;
        const { base, marks } = model;
        canvas.setAttribute('aria-valuemin', String(base));
        canvas.setAttribute('aria-valuemax', String(base + marks.length - 1));
        canvas.setAttribute('aria-valuenow', String(base + Math.max(at, 0)));
        canvas.setAttribute('aria-valuetext', at < 0 ? 'No sector is chosen.' : this.owner.spoken(at));
        ring.hidden = at < 0;
        if (at < 0) return fill(this.loupe);
        const size = layout.cell > 1 ? layout.cell + 3 : 18;
        const { x, y } = cellAt(layout, at);
        const middle = layout.cell > 1 ? (layout.cell - 1) / 2 : 1;
        ring.style.width = ring.style.height = `${size}px`;
        ring.style.borderRadius = layout.cell > 1 ? '4px' : '50%';
        ring.style.transform = `translate(${x + middle - size / 2}px, ${y + middle - size / 2}px)`;
        return this.drawLoupe(model);
    }

    drawLoupe({ marks, looks }: MapModel) {
        const room = this.loupe.parentElement ? this.loupe.clientWidth : 0;
        const count = Math.min(Math.max(15, Math.floor(room / LOUPE_CELL)), 41, marks.length);
        const from = Math.max(0, Math.min(this.at - (count >> 1), marks.length - count));
        const cells = Array.from({ length: count }, (_, i) => {
            const look = looks.find(it => it.mark === marks[from + i]);
            const cell = element('li', { class: from + i === this.at ? 'here' : null, 'data-sector': from + i }, look ? look.letter : '');
            const isShaded = marks[from + i] === MARK.MODE1 && this.shades[from + i] === 1;
            const colour = look ? look.colour : '--sunk';
            cell.style.background = `var(${isShaded ? SHADE : colour})`;
            return cell;
        });
        fill(this.loupe, ...cells);
    }

    /** The sector under the pointer. The canvas is drawn from a whole pixel on, even if the layout places it between two. */
    pointed(event: MouseEvent) {
        const { left, top } = this.canvas.getBoundingClientRect();
        const [x, y] = [event.clientX - Math.round(left), event.clientY - Math.round(top)];
        return this.model === null ? -1 : sectorAt(this.layout, this.model, x, y);
    }

    hover(event: PointerEvent) {
        const { tip, layout } = this;
        const sector = event.pointerType === 'touch' ? -1 : this.pointed(event);
        tip.hidden = sector < 0;
        if (sector < 0) return;
        const [head, ...rest] = this.owner.tip(sector);
        fill(tip, element('b', {}, head), ...rest.flatMap((line, i) => i === 0 ? [line] : [element('br'), line]));
        const { left, top } = this.canvas.getBoundingClientRect();
        const [x, y] = [event.clientX - left, event.clientY - top];
        tip.style.left = x < layout.width / 2 ? `${x + 14}px` : 'auto';
        tip.style.right = x < layout.width / 2 ? 'auto' : `${this.box.clientWidth - x + 14}px`;
        tip.style.top = y < layout.height / 2 ? `${y + 14}px` : 'auto';
        tip.style.bottom = y < layout.height / 2 ? 'auto' : `${this.box.clientHeight - y + 14}px`;
    }

    choose(sector: number, how: { open: boolean, focus: boolean }) {
        if (sector < 0 || this.model === null) return;
        this.at = Math.min(sector, this.model.marks.length - 1);
        this.drawPlace();
        this.owner.choose(this.at, how);
    }

    /** Moves to a sector that was chosen elsewhere. */
    moveTo(sector: number) {
        if (this.model === null || sector >= this.model.marks.length) return;
        this.at = sector;
        this.drawPlace();
    }

    /** Moves to the next finding, or to the previous one. Returns whether there is one. */
    chooseFinding(step: number) {
        const found = this.model === null ? -1 : nextFinding(this.model, this.at < 0 && step < 0 ? 0 : this.at, step);
        this.choose(found, { open: true, focus: false });
        return found >= 0;
    }

    pressed(event: KeyboardEvent) {
        if (this.model === null || event.ctrlKey || event.altKey || event.metaKey) return;
        const { at, model, layout } = this;
        const last = model.marks.length - 1;
        const row = layout.per * layout.columns;
        const step = event.shiftKey ? -1 : 1;
        const moves: Record<string, () => number> = {
            ArrowLeft: () => at - 1, ArrowRight: () => at + 1, ArrowUp: () => at - row, ArrowDown: () => at + row,
            PageUp: () => at - SECTORS_A_MINUTE, PageDown: () => at + SECTORS_A_MINUTE, Home: () => 0, End: () => last,
            n: () => nextFinding(model, at, 1), p: () => nextFinding(model, Math.max(at, 0), -1),
            r: () => nextRun(model, Math.max(at, 0), step),
        };
        const key = event.key.length === 1 ? event.key.toLowerCase() : event.key;
        if (key === 'g') this.owner.goTo();
        else if (key === 'Enter') this.choose(Math.max(at, 0), { open: true, focus: true });
        else if (!moves[key]) return;
        else this.moveBy(key, moves[key](), last);
        event.preventDefault();
    }

    moveBy(key: string, to: number, last: number) {
        if (key.length === 1 && to < 0) return;
        this.choose(Math.min(Math.max(to, 0), last), { open: false, focus: false });
    }
}
