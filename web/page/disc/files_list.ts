// The tab Files, which lists the files of the disc in their folders, and which of them the script patches.

import { filesLines, type FileEntry } from '../../core/iso/views.js';
import { patchedExtents, placeOfLength } from '../../core/tasks/index.js';
import { visible } from '../../core/texts/views.js';
import { writesOf, type App } from '../app/index.js';
import { counted, format, remarkText } from '../texts/index.js';
import { button, element, fill, keyed, seen, showFailure } from '../ui/index.js';
import { FileJobs } from './file_jobs.js';
import { sectorBytes } from './sector_edit.js';
import * as texts from '../texts/index.js';

// The rows of the tab Files: the files of a disc, sorted by one of the columns. Sorted by name, they are in folders.

/** A file of the disc. */
export type Listed = { path: string, shown: string, size: number, block: number, fault: FileEntry['fault'], entries: FileEntry[] };
/** A folder, with the number of its listed files. */
type Folder = { folder: string, count: number };
/** The column by which files are sorted, in ascending (1) or descending (-1) order. */
type Order = { by: 'path' | 'size' | 'block', step: number };

/**
 * The files of a volume, each with all its extents.
 * @param entries by their blocks
 */
export function listed(entries: FileEntry[]) {
    const files: Map<string, Listed> = new Map();
    for (const entry of entries) {
        const { path, block, size, fault } = entry;
        const file = files.get(path);
        if (file === undefined) files.set(path, { path, shown: seen(path), size, block, fault, entries: [entry] });
        else {
            file.entries.push(entry);
            file.size += size;
        }
    }
    return [...files.values()];
}

/** The path of the folder that contains a file, with a slash at its end. */
function folderOf({ path }: { path: string }) {
    return path.slice(0, path.lastIndexOf('/') + 1);
}

/** The rows in an order. Sorted by path, each folder has a row, which its files follow if it is open. */
export function rowsOf(files: Listed[], { by, step }: Order, isOpen: (folder: string) => boolean): (Listed | Folder)[] {
    if (by !== 'path') return [...files].sort((a, b) => step * (a[by] - b[by]));
    const folders: Map<string, Listed[]> = new Map();
    for (const file of files) {
        const there = folders.get(folderOf(file)) || [];
        if (there.push(file) === 1) folders.set(folderOf(file), there);
    }
    const compare = (a: string, b: string) => step * (a < b ? -1 : Number(a > b));
    return [...folders].sort(([a], [b]) => compare(a, b)).flatMap(([folder, own]) => [{ folder, count: own.length },
        ...isOpen(folder) ? own.sort((a, b) => compare(a.path, b.path)) : []]);
}

/** The most rows in the document at a time. */
const ROWS = 200;

const COLUMNS: [Order['by'], string][] = [['path', 'Name'], ['size', texts.discBytesColumn],
    ['block', 'Block']];

export class FilesList {
    all: Listed[] = [];
    /** Whether the files of the open image were looked for, and whether they were found. */
    looked = false;
    known = false;
    from = 0;
    chosen: Listed | null = null;
    order: Order = { by: 'path', step: 1 };
    /** The folders whose files are listed. */
    opened = new Set<string>();
    /** The lengths of files as the script patches them, by their paths. */
    sizes = new Map<string, number>();
    measured = 0;
    pages = element('span', { class: 'row small quiet to-end' });
    table = element('tbody');
    head = element('tr');
    jobs; writes; filter; tools; part;

    constructor(readonly app: App) {
        this.jobs = new FileJobs(app);
        this.writes = writesOf(app.script);
        this.filter = element('input', { type: 'text', class: 'slim', id: 'files-filter', autocomplete: 'off', spellcheck: 'false',
            input: () => this.filtered() });
        this.tools = element('div', { class: 'pad stack tight', hidden: true },
            element('div', { class: 'row' }, element('label', { class: 'row small' }, 'Filter', this.filter), this.pages),
            ...this.jobs.parts);
        this.part = element('table', { class: 'files', 'aria-label': texts.discFilesTab }, element('thead', {}, this.head), this.table);
    }

    /** @param looked whether the files of the open image were looked for */
    take(looked: boolean) {
        const { files } = this.app;
        this.looked = looked;
        this.known = files !== null;
        this.all = files === null ? [] : listed(files.files);
        this.from = 0;
        this.chosen = null;
        this.filter.value = '';
        this.opened = new Set(this.all.length > ROWS ? [] : this.all.map(folderOf));
        this.jobs.forget();
        this.noteScript();
        this.draw();
    }

    /** Notes that the script has changed. */
    noteScript() {
        this.writes = writesOf(this.app.script);
        this.sizes.clear();
    }

    /** The output of `cdscript files`. */
    text() {
        const { files } = this.app;
        return files === null ? '' : filesLines(files.files, visible, remarkText).map(line => `${line}\n`).join('');
    }

    /** The number of files, for the tab. */
    count() {
        return this.known ? counted(this.all.length) : '';
    }

    filtered() {
        this.from = 0;
        this.draw();
    }

    /** The files whose names contain the text of the filter. */
    wanted() {
        const words = this.filter.value.toLowerCase();
        return words === '' ? this.all : this.all.filter(({ shown }) => shown.toLowerCase().includes(words));
    }

    draw() {
        const wanted = this.wanted();
        const rows = rowsOf(wanted, this.order, folder => this.isOpen(folder));
        const shown = rows.slice(this.from, this.from + ROWS);
        this.drawHead();
        this.drawPages(wanted.length, rows.length);
        this.jobs.draw(this.chosen, this.chosen !== null && this.isPatched(this.chosen), this.all.length > 0);
        const none = element('tr', {}, element('td', { colspan: 3, class: 'wide' }, this.noneText()));
        fill(this.table, ...shown.length > 0 ? shown.map(it => 'folder' in it ? this.folderRow(it) : this.row(it)) : [none]);
        this.measure(shown.flatMap(it => 'folder' in it ? [] : it)).catch(showFailure);
    }

    /** The headings, which sort the files. */
    drawHead() {
        const { by, step } = this.order;
        const [order, arrow] = step > 0 ? ['ascending', ' ▴'] : ['descending', ' ▾'];
        fill(this.head, ...COLUMNS.map(([column, name]) => keyed(column, element('th', { class: column === 'path' ? null : 'n',
            'aria-sort': column === by ? order : null },
        element('button', { type: 'button', class: 'fold', click: () => this.sort(column) }, name,
            element('span', { 'aria-hidden': 'true' }, column === by ? arrow : ''))))));
    }

    /** @param by the column whose heading was pressed */
    sort(by: Order['by']) {
        this.order = { by, step: this.order.by === by ? -this.order.step : 1 };
        this.filtered();
    }

    /** Finds out the lengths of listed files as the script patches them, and shows those that change. */
    async measure(files: Listed[]) {
        const { app, app: { image }, sizes } = this;
        const number = ++this.measured;
        const resized = files.filter(({ path, entries }) => !sizes.has(path) && entries.some(it => this.writes(placeOfLength(it))));
        if (image === null || resized.length === 0) return;
        const found = await Promise.all(resized.map(({ entries }) => patchedExtents(entries,
            async block => (await sectorBytes(app, image, block)).fresh)));
        if (number !== this.measured) return;
        resized.forEach(({ path }, i) => sizes.set(path, found[i].reduce((sum, { size }) => sum + size, 0)));
        this.draw();
    }

    /** Whether the script writes in a file, or in its length. */
    isPatched({ entries }: Listed) {
        const placeOf = ({ block, size }: FileEntry) => ({ block, offset: 0, size });
        return entries.some(it => (it.size > 0 && this.writes(placeOf(it))) || this.writes(placeOfLength(it)));
    }

    /** Why no file is listed. */
    noneText() {
        if (!this.looked) return 'The files are being listed.';
        if (!this.known) return 'No ISO 9660 file system was found, so files cannot be listed.';
        return this.all.length === 0 ? 'The volume has no files.' : 'No matching files.';
    }

    isOpen(folder: string) {
        return this.filter.value !== '' || this.opened.has(folder);
    }

    folderRow({ folder, count }: Folder) {
        const isOpen = this.isOpen(folder);
        const press = () => {
            if (!this.opened.delete(folder)) this.opened.add(folder);
            this.draw();
        };
        const fold = element('button', { type: 'button', class: 'fold', 'aria-expanded': String(isOpen), click: press },
            isOpen ? '▾ ' : '▸ ', element('bdi', {}, seen(folder)));
        return keyed(folder, element('tr', {}, element('td', { class: 'wide path' }, fold),
            element('td', { colspan: 2, class: 'n quiet' }, format(texts.discFilesCounted, { n: count }))));
    }

    row(file: Listed) {
        const { path, shown, size, block, fault } = file;
        const open = element('button', { type: 'button', class: 'fold', click: () => this.choose(file) }, element('bdi', {}, shown));
        const now = this.sizes.get(path);
        const length = now === undefined || now === size ? counted(size) : `${counted(size)} → ${counted(now)}`;
        return keyed(path, element('tr', { 'aria-selected': file === this.chosen ? 'true' : null,
            class: this.order.by === 'path' ? 'in' : null },
        element('td', { class: 'wide path' }, open, fault !== null && element('span', { class: 'tag warn' }, seen(remarkText(fault))),
            this.isPatched(file) && element('span', { class: 'tag good' }, 'in the script')),
        element('td', { class: 'n', 'data-l': texts.discBytesLabel }, length),
        element('td', { class: 'n', 'data-l': texts.discBlockLabel }, block)));
    }

    /**
     * @param count how many files are listed
     * @param rows of these files, and of their folders
     */
    drawPages(count: number, rows: number) {
        const { from } = this;
        const turn = (to: number) => {
            this.from = to;
            this.draw();
            const body = this.part.parentElement;
            if (body) body.scrollTop = 0;
        };
        const to = Math.min(from + ROWS, rows);
        const all = format(texts.discFilesCounted, { n: this.all.length });
        const shown = count === this.all.length ? all : format('{count} of {all}', { count, all });
        const isNumbered = this.order.by !== 'path' && rows > ROWS;
        fill(this.pages, element('span', {}, isNumbered ? format('{from}–{to} of {all}', { from: from + 1, to, all: shown }) : shown),
            from > 0 && keyed('back', button('slim', () => turn(Math.max(from - ROWS, 0)), '◂ Previous')),
            to < rows && keyed('on', button('slim', () => turn(to), 'Next ▸')));
    }

    choose(file: Listed) {
        this.chosen = file;
        this.jobs.forget();
        this.draw();
        this.app.goTo(file.block);
    }
}
