// The search of the panel Text: its field, the encodings that the user can choose, its job, and the lines of a script that replace its
// hits.

import type { OrderedImage } from '../../core/disc/views.js';
import {
    ENCODINGS, SEARCHED, USUAL_ENCODING, encodingOf, linesLeftOut, tableInTurns, tableTextOf, withEnd, type Encoding,
} from '../../core/encodings/views.js';
import { failedBy, type Fault } from '../../core/faults.js';
import { MOST_PATCHES, SECTOR_KIND, type Calls } from '../../core/module/index.js';
import { linesMade, type Lines } from '../../core/script/views.js';
import {
    findText, replaceBytes, replaceHits, sectorsOfRange, type Engine, type OpenedTrack, type Places, type Watch,
} from '../../core/tasks/index.js';
import type { Hit } from '../../core/texts/views.js';
import { jobAt, type App, type Image, type Taker } from '../app/index.js';
import { remarkText, say } from '../texts/index.js';
import { capital, element, fill, messageOf, nameOf, notice, sentence, showNotice, shownName, type Child } from '../ui/index.js';
import type { Search } from './hits_card.js';
import * as texts from '../texts/index.js';

// Generates the lines of a script that replace the hits of a search.

/** The maximum number of hits that are kept: a script cannot have more patches. */
const MOST_HITS = MOST_PATCHES;

export function textLines({ text }: Lines) {
    return new TextDecoder().decode(text).trimEnd().split('\n');
}

/**
 * Generates the lines that replace several hits, and the reasons why hits are left out.
 * @param freshFor returns the new bytes for a number of old bytes; throws a Fault if they do not fit
 */
export async function linesForAll(engine: Engine, opened: OpenedTrack, places: Places, freshFor: (size: number) => Uint8Array,
    watch: Watch) {
    const { script, left } = await replaceHits(engine, opened, { ...places, freshFor }, watch);
    return { lines: script === null ? [] : linesMade(script), left: left.map(facts => remarkText({ code: 'replace/hit-left', facts })) };
}

/** Why no script can replace a hit: it is in a sector that is not Mode 1. '' for other hits. */
export async function refusalOf(calls: Calls, image: OrderedImage, hit: Hit, old: Uint8Array) {
    try {
        await replaceBytes(calls, image, hit, old, old, true);
    } catch (error) {
        if (!failedBy(error, 'replace/not-mode1')) return '';
        const { block } = (error as Fault<'replace/not-mode1'>).facts;
        const isMode2 = calls.kind(await sectorsOfRange(image, { block, offset: 0 }, 1)) === SECTOR_KIND.MODE2;
        return isMode2 ? texts.textModeTwoNotPatched : `${sentence(error)} ${texts.sectorOnlyLookedAt}`;
    }
    return '';
}

// The field for the text to search for. It shows an example, offers the last searches, and Ctrl+F goes to it.

/** How many of the last searches are offered. */
const MOST_SEARCHED = 12;

/**
 * Creates the field, and the list of the last searches, which only this page keeps.
 * @param find is called when Enter is pressed
 */
export function findField(changed: () => void, find: () => void): [HTMLInputElement, HTMLDataListElement] {
    const pressed = (event: KeyboardEvent) => {
        if (event.key === 'Enter' && !event.isComposing) find();
    };
    const field = element('input', { type: 'text', id: 'find-text', autocomplete: 'off', spellcheck: 'false', list: 'searched',
        input: changed, keydown: pressed });
    document.addEventListener('keydown', event => goToField(field, event));
    return [field, element('datalist', { id: 'searched' })];
}

/** Goes to the field on Ctrl+F while its panel is shown. If it has the focus already, the browser's own search opens. */
function goToField(field: HTMLInputElement, event: KeyboardEvent) {
    const isFind = event.key === 'f' && (event.ctrlKey || event.metaKey) && !event.shiftKey && !event.altKey;
    if (!isFind || field.offsetParent === null || document.activeElement === field) return;
    event.preventDefault();
    field.focus();
    field.select();
}

/** Shows an example in the field. `hasCharacters` says whether the encoding has characters. */
export function showExample(field: HTMLInputElement, hasCharacters: boolean) {
    field.placeholder = hasCharacters ? 'for example スタート' : 'for example 83 58 81 5B';
}

/** Offers a text for the next searches. */
export function rememberSearch(searched: HTMLDataListElement, text: string) {
    const last = new Set([text, ...[...searched.options].map(({ value }) => value)]);
    fill(searched, ...[...last].slice(0, MOST_SEARCHED).map(value => element('option', { value })));
}

// The encodings that the user can choose, and the tables that add to them.

/** The source texts of tables. */
const sources: WeakMap<Encoding, string> = new WeakMap();

export function chosenEncoding({ encoding, tables }: App): Encoding {
    const found = tables.get(encoding) || encodingOf(encoding);
    if (found === null) throw new Error(`there is no encoding ${encoding}`);
    return found;
}

/**
 * The encoding of the texts to be listed: the usual ones ({}) if one of these is chosen, or one without characters; else the chosen one.
 */
export function textOptionsOf(app: App) {
    const encoding = chosenEncoding(app);
    const table = sources.get(encoding);
    if (table !== undefined) return { table };
    return SEARCHED.includes(encoding) || !encoding.hasCharacters ? {} : { encoding: encoding.name };
}

/**
 * In which encodings the rows of lists are read: in the game's own table, if one is chosen; else in the chosen and the usual ones.
 * @param end the byte that ends texts, if it is known
 */
export function rowOptionsOf(app: App, end?: number) {
    const encoding = chosenEncoding(app);
    const isAsked = app.tables.has(app.encoding);
    const encodings = isAsked ? [encoding] : [...new Set([...encoding.hasCharacters ? [encoding] : [], ...SEARCHED])];
    return { encodings: encodings.map(it => withEnd(it, end)), isAsked };
}

/** The displayed name of an encoding or a table. */
export function encodingLabel(name: string) {
    const known = encodingOf(name);
    if (known === null) return shownName(name);
    return known.hasCharacters ? known.label : 'Bytes in hex';
}

/** The name of an encoding above a column of texts. Beside 8 bytes there is no room for the part in brackets. */
export function columnLabel(label: string, columns: number) {
    return columns === 8 ? label.replace(/ \(.*/, '') : label;
}

/** A character as it is displayed: a dot if it is not visible. */
export function signOf(text: string) {
    return /^[\p{C}\p{Z}\uFFFD]*$/u.test(text) && text !== ' ' && text !== '\u3000' ? '·' : text;
}

/** Fills a select element with the encodings, and keeps it and the chosen encoding in step. */
export function bindEncodings(app: App, choice: HTMLSelectElement, isOffered: (encoding: Encoding) => boolean = () => true) {
    const draw = () => {
        const names = [...ENCODINGS.filter(isOffered).map(({ name }) => name), ...app.tables.keys()];
        names.sort((a, b) => Number(b === USUAL_ENCODING.name) - Number(a === USUAL_ENCODING.name));
        fill(choice, ...names.map(name => element('option', { value: name, selected: name === app.encoding }, encodingLabel(name))));
    };
    draw();
    app.on('encoding', draw);
    choice.addEventListener('change', () => app.chooseEncoding(choice.value));
}

/** Reads a table from a file, and makes it the chosen encoding. Returns the parts of a notice about it. */
export async function takeTable(app: App, file: File): Promise<['good' | 'bad', Child[], string]> {
    try {
        const text = tableTextOf(new Uint8Array(await file.arrayBuffer()));
        const table = await tableInTurns(text);
        sources.set(table, text);
        app.addTable(file.name, table);
        const leftOut = linesLeftOut(table);
        const rest = leftOut === null ? texts.textIsEncodingNow : `${texts.textIsEncodingNow} ${capital(remarkText(leftOut))}.`;
        return ['good', say(texts.discFileLoaded, { name: nameOf(file.name) }), rest];
    } catch (error) {
        return ['bad', say('This table cannot be read: {name}', { name: nameOf(file.name) }), messageOf(error)];
    }
}

/**
 * Returns the handler of opened character tables. A table is used at once, so that a script is shown in its encoding before an image is
 * open.
 * @param show on the panel
 */
export function tableTaker(app: App, show: (words: HTMLElement) => void): Taker {
    return async file => {
        if (!/\.tbl$/i.test(file.name)) return false;
        const words = await takeTable(app, file);
        const use = () => {
            if (app.opened === null) return showNotice(...words);
            app.showPanel('text');
            return show(notice(...words));
        };
        return { needsImage: words[0] === 'good', use };
    };
}

// The search of the panel Text. One search runs at a time, with a progress bar.

/** The current search, if any. Its progress bar is at `place`. */
export class SearchJob {
    place = element('div', { class: 'stack' });

    constructor(readonly app: App) {}

    /** Cancels the current search, whose hits are no longer needed. */
    end() {
        this.app.endJobAt(this.place);
        fill(this.place);
    }

    /** Whether a search runs. */
    get running() {
        return this.app.jobAt(this.place) !== undefined;
    }

    /**
     * Searches an image. Returns null if a new search has replaced this one, or the image was closed. Throws a Fault, `cancelled`, if it
     * was cancelled.
     */
    async find(image: Image, query: Pick<Search, 'text' | 'encoding'>) {
        const { app } = this;
        let ended = null as Search | null;
        await jobAt(app, this.place, {
            name: 'Searching', of: 'image', replaces: true, run: async (bar, signal) => {
                const began = performance.now();
                const wanted = { text: query.text, encodings: [query.encoding], limit: MOST_HITS };
                const found = await findText(app, image.opened, wanted, { signal, progress: bar.sectors });
                const { count, hits } = found.best || { count: 0, hits: [] };
                return { ...query, image: found.image, count, hits, seconds: (performance.now() - began) / 1000 };
            },
            done: found => { ended = found; },
            failed: error => { throw error; },
        });
        return ended;
    }
}
