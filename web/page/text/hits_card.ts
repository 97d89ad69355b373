// The table of hits, with the file and the context of each.

import type { OrderedImage } from '../../core/disc/views.js';
import type { Encoding } from '../../core/encodings/views.js';
import { USER_SIZE } from '../../core/module/index.js';
import type { OpenedTrack } from '../../core/tasks/index.js';
import {
    FilesAlong, bytesAround, bytesInside, charactersFrom, contextOf, contextsOf, filesWith, shownCell, type Context, type Hit,
} from '../../core/texts/views.js';
import type { App } from '../app/index.js';
import { format, remarkText } from '../texts/index.js';
import { button, copyButton, element, fill, hexOf, keyed, oneTabStop, seen, shownPaths, term, type Child } from '../ui/index.js';
import { chosenEncoding, columnLabel, encodingLabel, signOf } from './search.js';
import * as texts from '../texts/index.js';

// The card with the bytes around a hit, in hexadecimal and as text.

/** User data from the first byte of a block, and the index at which the hit begins. */
type Around = { bytes: Uint8Array, at: number };

const NARROW_CARD = 560;
const ROWS_BEFORE = 4;
const ROWS = 9;

/** The maximum number of bytes shown before a hit and after it. */
const BYTES_BEFORE = 64;
const BYTES_AFTER = 160;

/** Reads the bytes that the card shows for a hit. */
export async function readAround(opened: OpenedTrack, hit: Hit): Promise<Around> {
    const { image } = await opened.contents();
    return bytesAround(image, hit, hit.offset + (hit.offset < BYTES_BEFORE ? USER_SIZE : 0), hit.size + BYTES_AFTER);
}

/** The card. It is redrawn if rows of a different length fit after its width has changed. */
export class AroundCard {
    columns = 0;
    shown: { hit: Hit, around: Around } | null = null;
    card = element('section', { class: 'card', 'aria-label': texts.textBytesAround, hidden: true });

    constructor(readonly app: App) {
        new ResizeObserver(() => {
            if (this.shown !== null && this.columns !== this.fitting()) this.draw(this.shown);
        }).observe(this.card);
    }

    /** The number of bytes per row for which the card has room. */
    fitting() {
        const { clientWidth } = this.card;
        if (clientWidth === 0) return this.columns;
        return clientWidth < NARROW_CARD ? 8 : 16;
    }

    show(hit: Hit, around: Around) {
        this.shown = { hit, around };
        this.card.hidden = false;
        this.draw(this.shown);
    }

    draw({ hit, around }: { hit: Hit, around: Around }) {
        this.columns = this.fitting() || 16;
        const label = columnLabel(encodingLabel(this.app.encoding), this.columns);
        const numbers = Array.from({ length: this.columns }, (_, i) => element('i', {}, i));
        fill(this.card, element('header', {}, element('h2', {}, texts.textBytesAround),
            button('slim bare', () => this.app.goTo(hit.block, hit.offset, true), texts.textOpenTheSector)),
        element('div', { class: `hex around${this.columns === 8 ? ' cols8' : ''}`, tabindex: 0, role: 'group',
            'aria-label': format('The bytes around block {block} offset {offset}',
                { block: String(hit.block), offset: String(hit.offset) }) },
        element('div', { class: 'head', 'aria-hidden': 'true' }, element('span', { class: 'o' }, texts.textOffsetLabel),
            element('span', { class: 'b' }, ...numbers),
            element('span', { class: 't' }, label)), ...hexRows(this.app, hit, around, this.columns)));
    }
}

function hexRows(app: App, hit: Hit, { bytes: user, at }: Around, columns: number) {
    const from = Math.max(Math.floor(at / columns) - ROWS_BEFORE, 0) * columns;
    const to = Math.min(from + ROWS * columns, user.length);
    const shownTexts = rowTexts(chosenEncoding(app), user, [from, at, Math.min(at + hit.size, to), to]);
    const rows = [];
    for (let row = from; row < to; row += columns) {
        const cells = [];
        for (let i = row; i < row + columns; i++) cells.push(byteBox(user[i], i >= at && i < at + hit.size));
        const shown = shownTexts.slice(row - from, row - from + columns)
            .map((text, k) => row + k >= at && row + k < at + hit.size && text !== '' ? element('mark', {}, text) : text);
        rows.push(element('div', { class: 'line' }, element('span', { class: 'o' }, row % USER_SIZE),
            element('span', { class: 'b' }, ...cells),
            element('span', { class: 't' }, ...shown)));
    }
    return rows;
}

function byteBox(byte: number, hit: boolean) {
    const plain = byte === 0 ? 'zero' : '';
    return element('i', { class: hit ? 'hit' : plain }, hexOf(Uint8Array.of(byte)));
}

/**
 * Returns for each byte the character that begins at it: '' inside a character, '·' if it is not visible. The bytes before the hit, the
 * hit, and the bytes after it are decoded separately, since a hit may begin inside a character of the bytes before it.
 * @param ends the start of the first of these three parts, and the end of each
 */
function rowTexts(encoding: Encoding, user: Uint8Array, ends: number[]): string[] {
    const [from] = ends;
    const signs = Array.from({ length: ends[ends.length - 1] - from }, () => '');
    ends.slice(1).forEach((end, i) => {
        const begin = ends[i] + (i === 0 ? Math.min(bytesInside(encoding, user, from), end - from) : 0);
        for (const { at, text } of charactersFrom(encoding, user.subarray(0, end), begin)) signs[at - from] = signOf(text);
    });
    return signs;
}

/** The result of a search in `image`: `count` is the number of all hits, and `hits` are those that are kept. */
export type Search = { text: string, encoding: Encoding, image: OrderedImage, count: number, hits: Hit[], seconds: number };

const ROWS_SHOWN = 200;

/** The number of characters shown before a hit and after it, and of bytes read after it. */
const CHARACTERS_BEFORE = 14;
const CHARACTERS_AFTER = 24;
const CONTEXT_BYTES = 48;
/** The number of hits whose contexts are read at a time. */
const HITS_AT_ONCE = 25;

function shownCharacters(characters: string[]) {
    return characters.map(signOf).join('');
}

export class HitsCard {
    search: Search | null = null;
    chosen = -1;
    shown = ROWS_SHOWN;
    contexts = new Map<number, Context>();
    /** The number of the last call of `readContexts`: earlier calls end early. */
    reader = 0;
    body = element('tbody', {});
    card = element('section', { class: 'card', 'aria-label': 'Hits' });

    constructor(readonly app: App, readonly choose: (index: number) => void) {
        oneTabStop(this.body, 'button');
    }

    take(search: Search) {
        this.search = search;
        this.shown = ROWS_SHOWN;
        this.contexts = new Map();
        const title = format(texts.textHitsFound, { n: search.count });
        const head = element('header', {}, element('h2', {}, title),
            element('span', { class: 'small quiet' }, format('in {seconds} s', { seconds: search.seconds.toFixed(1) })),
            search.count > search.hits.length && element('span', { class: 'tag warn' },
                format('only the first {n} are listed', { n: search.hits.length })),
            copyButton('slim bare', () => this.table(), texts.textCopyAsTable, ' with file and text'));
        const column = (name: string, shown: Child) => element('th',
            { scope: 'col', class: name === 'n' ? 'n' : '' }, shown);
        const columns = element('tr', {}, column('n', term('block', texts.textColumnBlock)), column('n', term('offset',
            texts.textColumnOffset)),
            column('', texts.textColumnFile), column('', 'Context'));
        const table = element('table', { class: 'hits', 'aria-label': title }, element('thead', {}, columns), this.body);
        fill(this.card, head, element('div', { class: 'scroll fit' }, table), this.more());
        this.draw();
    }

    more() {
        const { search } = this;
        if (search === null || search.hits.length <= this.shown) return null;
        const next = button('', () => {
            this.shown += ROWS_SHOWN;
            next.remove();
            this.draw();
            this.card.append(...[this.more()].filter(it => it !== null).map(it => (it as Node)));
        }, format('Show {n} more', { n: Math.min(ROWS_SHOWN, search.hits.length - this.shown) }));
        return element('div', { class: 'pad' }, next);
    }

    /** Draws the rows. A hit that the script replaces has a tag with the line. */
    draw() {
        const { search, app: { script } } = this;
        if (search === null) return;
        fill(this.body, ...search.hits.slice(0, this.shown).map((hit, i) => this.row(hit, i, script.lineAt(hit))));
        this.readContexts(search);
    }

    /** @param line of the script, or 0 */
    row(hit: Hit, i: number, line: number) {
        const { app } = this;
        const files = app.files ? filesWith(app.files.files, hit) : [];
        const tags = [line > 0 && element('span', { class: 'tag good' }, format('in the script, line {line}', { line: String(line) })),
            hit.offset + hit.size > USER_SIZE && element('span', { class: 'tag' }, 'continues in the next block'),
            app.files !== null && files.length === 0 && element('span', { class: 'tag' }, texts.sectorInNoFile)];
        const place = element('td', { class: 'wide' }, ...this.context(i), ...tags);
        const choose = button('plain', () => this.choose(i), hit.block,
            element('span', { class: 'hide' }, `, ${format('hit {number}', { number: String(i + 1) })}`));
        const made = element('tr', { class: i === this.chosen ? 'on' : '', click: () => this.choose(i) },
            element('td', { class: 'n', 'data-l': texts.discBlockLabel }, choose),
            element('td', { class: 'n', 'data-l': texts.textOffsetLabel }, hit.offset),
            element('td', { class: 'mono small' }, element('bdi', {}, shownPaths(files, ' ') || '–')), place);
        if (i === this.chosen) made.setAttribute('aria-current', 'true');
        return keyed(String(i), made);
    }

    context(i: number): Child[] {
        const context = this.contexts.get(i);
        if (context === undefined) return [element('span', { class: 'ctx' }, '…')];
        const { before, hit, after, doubt } = context;
        const parts = [element('em', {}, shownCharacters(before.slice(-CHARACTERS_BEFORE))), element('mark', {}, shownCharacters([...hit])),
            element('em', {}, shownCharacters(after.slice(0, CHARACTERS_AFTER)))];
        return [element('span', { class: 'ctx' }, ...parts), doubt !== null && element('span', { class: 'tag warn' }, remarkText(doubt))];
    }

    /** Reads the contexts of the hits that are shown, and puts them into their rows. */
    async readContexts({ image, hits }: Search) {
        const number = ++this.reader;
        const encoding = chosenEncoding(this.app);
        const wanted = hits.slice(0, this.shown).map((_, i) => i).filter(i => !this.contexts.has(i));
        for (let at = 0; at < wanted.length; at += HITS_AT_ONCE) {
            const part = wanted.slice(at, at + HITS_AT_ONCE);
            const read = await Promise.all(part.map(i => contextOf(image, encoding, hits[i], CONTEXT_BYTES)));
            if (number !== this.reader) return;
            part.forEach((i, k) => this.showContext(i, read[k]));
        }
    }

    showContext(i: number, context: Context) {
        this.contexts.set(i, context);
        const row = this.body.rows[i];
        const waiting = row && row.cells[3].querySelector('.ctx');
        if (waiting) waiting.replaceWith(...this.context(i).filter(it => it instanceof Node).map(it => (it as Node)));
    }

    /** Discards the contexts after a change of the encoding. */
    forgetContexts() {
        this.contexts.clear();
        this.reader += 1;
    }

    /** The hits as a table for a spreadsheet: block, offset, file, and the text around each hit. */
    async table() {
        const { search, app: { image, files } } = this;
        if (search === null || image === null) return '';
        const rows = ['block\toffset\tfile\ttext\n'];
        const along = new FilesAlong(files ? files.files : []);
        for await (const group of contextsOf(search.image, chosenEncoding(this.app), search.hits)) {
            for (const { hit, context: { before, hit: text, after } } of group) {
                const paths = along.with(hit).map(({ path }) => seen(path));
                const shown = shownCell(shownCharacters([...before, ...text, ...after]));
                rows.push(`${hit.block}\t${hit.offset}\t${paths.join(' ')}\t${shown}\n`);
            }
        }
        return rows.join('');
    }
}
