// The fold "What to list": whether texts, lines, or the names in records are listed, and in which file.

import { hexText } from '../../core/bytes.js';
import type { Encoding } from '../../core/encodings/views.js';
import type { FileEntry } from '../../core/iso/views.js';
import { LAST_BLOCK } from '../../core/module/index.js';
import {
    LAYOUT_LIMITS, entriesNamed, exportedPieces, listRecords, listTexts, recordsOverlap, type ExportOptions, type FreshOf, type ListOptions,
    type OpenedTrack,
} from '../../core/tasks/index.js';
import { visible, type ListedText } from '../../core/texts/views.js';
import type { Signal } from '../../core/turns.js';
import { ownFault } from '../../sentences/index.js';
import type { App, Bar } from '../app/index.js';
import { counted, format } from '../texts/index.js';
import { element, fill, shownName } from '../ui/index.js';
import { chosenEncoding, encodingLabel, textOptionsOf } from './search.js';
import * as texts from '../texts/index.js';

// The lists of texts that are saved in files, and the sentences about them.

/**
 * The name of the file with a list.
 * @param name of the image
 */
export function listName(name: string, areRecords: boolean, form: string) {
    return `${name.replace(/\.[^.]*$/, '')} (${areRecords ? 'names' : 'texts'}).${form}`;
}

/** How many texts are exported at a time: more would be joined to a text for too long. */
const AT_ONCE = 1024;

/** Yields listed texts in parts. */
export async function* inParts(listed: ListedText[]) {
    for (let at = 0; at < listed.length; at += AT_ONCE) yield listed.slice(at, at + AT_ONCE);
}

/** The pieces of a list, how many texts it has (`all`), and how many new ones (`news`). */
export async function exportedList(listed: AsyncIterable<ListedText[]>, { form, areRecords, newTextOf, signal }: { form: ExportOptions[
    'form'], areRecords: boolean, newTextOf: FreshOf | null, signal?: Signal }) {
    const pieces: string[] = [];
    let [all, news] = [0, 0];
    const freshOf = async (it: ListedText) => {
        const fresh = newTextOf === null ? '' : await newTextOf(it);
        news += Number(fresh !== '');
        return fresh;
    };
    for await (const { text, count } of exportedPieces(listed, { form, freshOf, signal }, areRecords)) {
        pieces.push(text);
        all += count;
    }
    return { pieces, all, news };
}

/**
 * The sentences about an exported list.
 * @param exported `best` is the encoding in which names read best, or ''
 */
export function exportedWords({ all, news, best, ends, form }: { all: number, news: number, best: string, ends: Set<string>,
    form: ExportOptions['form'] }) {
    return [format('It has {n} row, one for each place of a text.|It has {n} rows, one for each place of a text.', { n: all }),
        ...news > 0 ? [format('It has {n} translation.|It has {n} translations.', { n: news })] : [],
        ...bestWords(best), ...ends.size > 0 ? [format(texts.textEndsFound, { bytes: [...ends].join(', ') })] : [],
        form === 'po' ? 'Translate it with a PO editor, then import it.'
            : 'Put your translations in the column “new”, then import it here.'].join(' ');
}

/** @param best the encoding in which names read best, or '' */
export function bestWords(best: string) {
    return best === '' ? [] : [format('The names read best in {encoding}. If they are wrong, choose a different encoding.',
        { encoding: encodingLabel(best) })];
}

type Listed = 'texts' | 'names' | 'lines';
/**
 * The texts that are listed, in pieces; whether they are the names in records, or lines; and the encoding in which the names read best, ''
 * if one was chosen.
 */
type Listing = { pieces: AsyncGenerator<ListedText[]>, areRecords: boolean, areLines: boolean, best: string };

/** What is listed, its name, and an explanation. */
const LISTED: [Listed, string, string][] = [['texts', 'texts',
    'Text is recognised by its Japanese characters, or by those of the chosen encoding. For English and other European languages choose ' +
    'Windows-1252, CP850, or a similar encoding.'],
    ['names', 'names in records', 'For tables of names, which are often too short to be recognised. Each record of the file begins with ' +
        'a name, which is padded to a fixed size.'],
    ['lines', 'lines of a text file', 'Each line is a row of its own. Lines in ASCII are mostly commands of the game, so they are listed ' +
        'only if you choose their encoding.']];

/** The numbers of a layout, each with its label, its limits, and whether it may be left out. */
const NUMBERS = [['every', 'Bytes from one record to the next', LAYOUT_LIMITS.every, false],
    ['length', 'Bytes of each name', LAYOUT_LIMITS.length, false], ['skip', 'Bytes before the first record', LAYOUT_LIMITS.skip, true],
    ['limit', 'Number of records (leave empty for all)', [1, LAST_BLOCK], true]] as const;

/** The controls. */
export class WhatToList {
    paths = element('datalist', { id: 'list-paths' });
    file: HTMLInputElement;
    summary = element('summary');
    hint = element('p', { class: 'small quiet hint' });
    kind; only; fields; layout; part;

    constructor(readonly app: App) {
        this.kind = element('select', { class: 'slim', id: 'list-kind', change: () => this.draw() },
            ...LISTED.map(([value, label]) => element('option', { value }, label)));
        this.file = element('input', { type: 'text', class: 'slim', id: 'list-file', list: 'list-paths', autocomplete: 'off',
            spellcheck: 'false', placeholder: 'all files', input: () => this.drawSummary() });
        this.only = element('label', { class: 'row small' }, 'Only in file', this.file, this.paths);
        this.fields = NUMBERS.map(([name, label, [min, max]]) => ({ label, min, max, input: element('input',
            { type: 'number', class: 'slim num', id: `list-${name}`, min, max, step: 1, input: () => this.drawSummary() }) }));
        this.layout = element('div', { class: 'row small' }, ...this.fields.map(({ label, input }) =>
            element('label', { class: 'row small' }, label, input)));
        this.part = element('details', { class: 'what-to-list' }, this.summary, element('div', { class: 'stack tight' },
            element('div', { class: 'row' }, element('label', { class: 'row small' }, 'List', this.kind), this.only),
            this.layout));
        for (const name of (['files', 'plain'] as const)) app.on(name, () => this.drawFiles());
        this.draw();
    }

    get listed() {
        return this.kind.value as Listed;
    }

    /** Offers the files of the disc. */
    drawFiles() {
        const { files, plain } = this.app;
        this.only.hidden = plain !== null;
        const paths = new Set(files === null ? [] : files.files.map(({ path }) => visible(path)));
        fill(this.paths, ...Array.from(paths, value => element('option', { value })));
        this.file.value = '';
        this.drawSummary();
    }

    draw() {
        this.layout.hidden = this.listed !== 'names';
        fill(this.hint, LISTED.filter(([value]) => value === this.listed).map(([, , words]) => words).join(''));
        this.drawSummary();
    }

    /** Names what is listed, so that it is known while the controls are folded. */
    drawSummary() {
        const [, name] = LISTED.find(([value]) => value === this.listed) || LISTED[0];
        const every = this.listed === 'names' ? Number(this.fields[0].input.value) : 0;
        const what = every > 0 ? format('names in records of {n} byte|names in records of {n} bytes', { n: every }) : name;
        const path = this.file.value.trim();
        const listed = path === '' ? what : format('{what}, only in {file}', { what, file: shownName(path) });
        fill(this.summary, `What to list: ${listed}`);
    }

    /**
     * Lists what was chosen, and collects the bytes that were found to end texts, in hexadecimal digits. Throws what `list` throws.
     * @param end the byte that ends texts, if one was entered
     */
    async listing(opened: Pick<OpenedTrack, 'contents'>, end: number | undefined, bar: Bar, signal: AbortSignal) {
        const options = textOptionsOf(this.app);
        const ends: Set<string> = new Set();
        const ended = (_: string, byte: number) => void ends.add(hexText(Uint8Array.of(byte)));
        const own = Object.keys(options).length > 0 ? chosenEncoding(this.app) : null;
        return { ends, ...await this.list(opened, { ...options, end, ended, own }, bar, signal) };
    }

    /**
     * Lists the texts, names, or lines that the user has selected. Throws a Fault if a number is missing, or the disc has no such file.
     * @param options the encoding of texts, and the byte that ends them; `own` is the encoding of names, null for the usual one in which
     *     they read best
     */
    async list(opened: Pick<OpenedTrack, 'contents'>, { own, ...options }: ListOptions & { own: Encoding | null }, bar: Bar,
        signal: AbortSignal): Promise<Listing> {
        const { files } = await opened.contents();
        const [areRecords, lines] = [this.listed === 'names', this.listed === 'lines'];
        if (!areRecords) {
            const listed = { ...options, lines, paths: this.chosenPaths(files) };
            const pieces = listTexts(this.app, opened, listed, { signal, progress: bar.sectors });
            return { pieces, areRecords, areLines: lines, best: '' };
        }
        const records = { ...this.records(files), encoding: own, end: options.end };
        const { texts: pieces, encoding } = await listRecords(opened, records, { signal, progress: bar.things });
        return { pieces, areRecords, areLines: false, best: own === null ? encoding.name : '' };
    }

    /** The files or directories that were chosen; none for all. */
    chosenPaths(files: FileEntry[]) {
        const path = this.file.value.trim();
        const [entry] = path === '' ? [] : entriesNamed(files, path);
        return path === '' ? [] : [entry === undefined ? path : entry.path];
    }

    /** The file and the layout of the names. Throws a Fault if a number is missing, or no file was chosen. */
    records(files: FileEntry[]) {
        const path = this.file.value.trim();
        const entries = this.app.plain === null ? entriesNamed(files, path) : files;
        if (entries.length === 0) throw ownFault(path === '' ? 'Choose the file that contains the names, under “Only in file”.' : format(
            'The disc has no file {path}.', { path }));
        const [every, length, skip, limit] = NUMBERS.map((_, i) => this.numberOf(i));
        const layout = { every: every || 0, length: length || 0, skip, limit };
        if (recordsOverlap(layout)) throw ownFault(format(
            'From one record to the next, there must be at least as many bytes as the name has: {length}.',
            { length: counted(layout.length) }));
        return { entries, ...layout };
    }

    /** @param i the index of a number that was entered; undefined if it was left out */
    numberOf(i: number) {
        const [, label, , isOptional] = NUMBERS[i];
        const { input, min, max } = this.fields[i];
        if (input.value === '' && input.validity.valid && isOptional) return undefined;
        if (input.value !== '' && input.validity.valid) return Number(input.value);
        input.focus();
        throw ownFault(format('{label}: type a number from {least} to {most}.', { label, least: counted(min), most: counted(max) }));
    }
}
