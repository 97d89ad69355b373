// Lists all texts of a track or of an ordinary file as a table or a PO file, and reads such lists again.

import { readBytes, type Reader } from '../bytes.js';
import type { DiscFile } from '../disc/index.js';
import type { Filler } from '../encodings/index.js';
import { Fault, newBytes } from '../faults.js';
import type { FileEntry } from '../iso/index.js';
import { SECTOR_SIZE, USER_SIZE } from '../module/index.js';
import { ScriptParts, type Script, type UserRange } from '../script/index.js';
import { USER_OFFSET } from '../sectors/index.js';
import {
    NO_BLOCK, PoFile, allTexts, haveSameText, rowText, stretchesOf, visible, type ListedText, type Stretch, type TextOptions,
} from '../texts/index.js';
import { letOthersIn } from '../turns.js';
import { fittedLists, fittedRows, placeInImage, roomOfRow, type FittedLists, type LeftRow, type RowEncodings } from './list_fitting.js';
import { rangeOfRow } from './list_patched.js';
import { rowsOfLists, type ListRow } from './list_rows.js';
import type { Engine, OpenedTrack, TrackContents, Watch } from './opened.js';
import { replaceBytes } from './replace.js';
import { fittingScript } from './scripts.js';

// Finds files by the paths that users give.

/** A path with one slash at its beginning. */
export function pathFromRoot(path: string) {
    return `/${path}`.replace(/^\/+/, '/');
}

/** The entries of the file with a path, which may be given as it is printed. There are none if no file has it. */
export function entriesNamed(files: FileEntry[], path: string) {
    return files.filter(file => [file.path, visible(file.path)].map(pathFromRoot).includes(pathFromRoot(path)));
}

// A plain file: its texts are listed, found, and replaced as if its bytes were the user data of an image.

/** New bytes at a place in a plain file, and their row. */
type FileChange = { at: number, bytes: Uint8Array, row: ListRow };
type FileImportOptions = Omit<ImportOptions, 'isAlso'>;
/** The changes of the file in the order of their places, null if some rows do not fit and all are needed. */
type FileImport = FittedLists & { changes: FileChange[] | null };

/** A reader of raw sectors whose user data are the bytes of a file. All other bytes are 00, also those after the end of the file. */
export function sectorsOfFile(reader: Reader): Reader {
    const sectors = Math.ceil(reader.size / USER_SIZE);
    return {
        size: sectors * SECTOR_SIZE,
        async read(at, length) {
            const first = Math.floor(at / SECTOR_SIZE);
            const end = Math.min(Math.ceil((at + length) / SECTOR_SIZE), sectors);
            const from = first * USER_SIZE;
            const user = await readBytes(reader, from, Math.max(Math.min(end * USER_SIZE, reader.size) - from, 0));
            const bytes = newBytes(Math.max(end - first, 0) * SECTOR_SIZE);
            for (let i = 0; i < end - first; i++) {
                bytes.set(user.subarray(i * USER_SIZE, (i + 1) * USER_SIZE), i * SECTOR_SIZE + USER_OFFSET);
            }
            return bytes.subarray(at - first * SECTOR_SIZE).subarray(0, length);
        },
    };
}

/** Opens a plain file. The tasks that only read user data accept it in place of a track. */
export function openPlainFile({ name, reader }: DiscFile): Pick<OpenedTrack, 'part' | 'contents'> {
    const { size } = reader;
    const sectors = Math.ceil(size / USER_SIZE);
    const part = { name, reader: sectorsOfFile(reader), base: 0, addressed: 0, sectors, tail: 0, order: undefined, fileSize: size };
    const files = [{ path: name, block: 0, size, fault: null, before: 0, record: { block: 0, offset: 0 } }];
    const contents: TrackContents = { volume: null, fault: null, files, image: part, part };
    return { part, contents: async () => contents };
}

/**
 * Finds the changes of a plain file that write the new texts of lists. Throws a Fault if they have no row with a new text or cannot be
 * read, or `cancelled`.
 * @param watch receives the number of rows
 */
export async function importIntoFile(opened: Pick<OpenedTrack, 'contents'>, { lists, fill, partial, ...options }: FileImportOptions,
    watch: Watch = {}): Promise<FileImport> {
    const { changes, place } = await changesInFile(opened, fill);
    const fitted = await fittedLists(lists, place, options, watch);
    return { ...fitted, changes: partial || fitted.left.length === 0 ? changes : null };
}

/**
 * Finds the changes of a plain file that write the new texts of rows, in the order of their places, and the rows that do not fit. Throws a
 * Fault, `cancelled`.
 * @param watch receives the number of rows
 */
export async function importRowsIntoFile(opened: Pick<OpenedTrack, 'contents'>, rows: ListRow[], { fill, ...options }: RowOptions,
    watch: Watch = {}) {
    const { changes, place } = await changesInFile(opened, fill);
    const { left } = await fittedRows(rows, place, options, watch);
    return { changes, left };
}

/** A plain file as the place of rows, and the changes of those that fit. */
async function changesInFile(opened: Pick<OpenedTrack, 'contents'>, fill?: Filler) {
    const { part } = await opened.contents();
    const changes: FileChange[] = [];
    const place = placeInImage(part, fill, (row, _, __, bytes) => changes.push({ at: row.offset, bytes, row }));
    return { changes, place };
}

// Exports the texts of a track as a table or a PO file for translators, and imports their lists with new texts.

/**
 * What is listed: the texts of files or directories (`paths`), or all of them; with at least a number of characters. `ended` is called as
 * by allTexts.
 */
export type ListOptions = TextOptions & { paths?: string[], least?: number, ended?: (path: string, end: number) => void };
/**
 * What is exported: the listed texts, as a table with tabs, a table with commas and a byte order mark, for spreadsheets, or a PO file; with
 * the new text that `freshOf` finds, or ''. `seen` is called with the texts.
 */
export type ExportOptions = ListOptions & { form?: 'tsv' | 'csv' | 'po', freshOf?: FreshOf, seen?: (texts: ListedText[]) => void };
export type FreshOf = (listed: ListedText) => string | Promise<string>;
/** How rows are fitted. */
export type RowOptions = RowEncodings & { fill?: Filler };
/**
 * The files with the lists, which rows without a new text are read too, and whether a script is created from the rows that fit if others do
 * not. `counted` receives the number of patches before the script is made: of texts in place before they are fitted.
 */
export type ImportOptions = RowOptions & { lists: DiscFile[], isAlso?: (row: ListRow) => boolean, partial: boolean,
    counted?: (patches: number) => void };
/** The finished script, null if no row fits or some do not and all are needed; and the bytes of the rows without a new text. */
export type ImportedTable = FittedLists & { script: Script | null, empty: UserRange[] };

const COLUMN_NAMES = ['block', 'offset', 'bytes', 'room', 'encoding', 'file', 'text', 'new'];

/** The column of the filler, which only tables of records have. */
const FILL_COLUMN = 'fill';

/**
 * The stretches in some files or directories. Throws a Fault, `no-file`, if there are none for a path.
 * @param paths of files or directories; if there are none, all stretches are returned
 */
function stretchesIn(stretches: Stretch[], paths: string[]) {
    const rooted = (path: string) => pathFromRoot(path).replace(/\/+$/, '');
    const isIn = ({ path }: Stretch, below: string) =>
        path !== '' && `${rooted(path)}/`.startsWith(`${rooted(below)}/`);
    const missing = paths.find(path => !stretches.some(it => isIn(it, path)));
    if (missing !== undefined) throw new Fault('no-file', { path: missing });
    return stretches.filter(it => paths.length === 0 || paths.some(path => isIn(it, path)));
}

/** The new texts of lists, by the places and texts to which they belong. */
export class NewTexts {
    rows = new Map<string, ListRow>();
    /** How many rows of records met a text without a filler. They stay in their own list, since they would be padded differently. */
    records = 0;
    unused;

    /** @param rows of which those that cannot be read as they were meant are not used */
    constructor(rows: ListRow[]) {
        for (const row of rows) if (row.fault === null) this.rows.set(`${row.isInFile ? NO_BLOCK : row.block}+${row.offset}`, row);
        /** The rows that have not been used. */
        this.unused = new Set([...rows.filter(row => row.fault !== null), ...this.rows.values()]);
    }

    /** Whether there is a new text at the place of a text. */
    has({ block, offset }: Pick<ListedText, 'block' | 'offset'>) {
        return this.rows.has(`${block}+${offset}`);
    }

    /** The new text of a text, or ''. */
    of({ block, offset, text, fill }: ListedText) {
        const row = this.rows.get(`${block}+${offset}`);
        if (row === undefined || !haveSameText(row.text, text)) return '';
        this.unused.delete(row);
        const isKept = row.fill !== '' && !fill;
        this.records += Number(isKept);
        return isKept ? '' : row.fresh;
    }
}

/** Reads the new texts of some lists for an export. Throws a Fault if there are none. */
export async function newTextsOf(lists: DiscFile[], watch: Watch = {}) {
    const { rows, fuzzy } = await rowsOfLists(lists, () => false, watch.signal);
    return { news: new NewTexts(rows.filter(row => row.fresh !== '')), fuzzy };
}

/** Lists the texts of a track. Throws a Fault, `no-file` or `cancelled`. */
export async function* listTexts({ pool }: Pick<Engine, 'pool'>, opened: Pick<OpenedTrack, 'contents'>,
    { paths = [], least, ended, ...options }: ListOptions, watch?: Watch): AsyncGenerator<ListedText[]> {
    const { part, files } = await opened.contents();
    yield* allTexts(pool, part, stretchesIn(stretchesOf(part, files), paths), { options, least, ended, ...watch });
}

/** Exports the texts of a track, in pieces, each with its number of texts. Throws a Fault, `no-file` or `cancelled`. */
export function exportTable(engine: Pick<Engine, 'pool'>, opened: Pick<OpenedTrack, 'contents'>,
    { form = 'tsv', freshOf, seen, ...listed }: ExportOptions, watch: Watch = {}) {
    const listing = listTexts(engine, opened, listed, watch);
    return exportedPieces(seen === undefined ? listing : shownTo(seen, listing), { form, freshOf, signal: watch.signal });
}

/** Yields listed texts after a function has received them. */
async function* shownTo(seen: (texts: ListedText[]) => void, texts: AsyncGenerator<ListedText[]>): AsyncGenerator<ListedText[]> {
    for await (const some of texts) {
        seen(some);
        yield some;
    }
}

/**
 * Yields listed texts as a table or a PO file, in pieces, each with its number of texts. Other tasks get turns between new texts.
 * @param areRecords whether a table has the column of the filler
 */
export function exportedPieces(texts: AsyncIterable<ListedText[]>, { form, freshOf = () => '', signal }: Pick<ExportOptions, 'form'
    | 'freshOf'> & Pick<Watch, 'signal'>, areRecords: boolean = false) {
    const inTurns = async (listed: ListedText) => {
        await letOthersIn(signal);
        return freshOf(listed);
    };
    return form === 'po' ? poPieces(texts, inTurns, signal) : tablePieces(texts, inTurns, form === 'csv', areRecords);
}

async function* tablePieces(texts: AsyncIterable<ListedText[]>, freshOf: FreshOf, isCsv: boolean,
    areRecords: boolean): AsyncGenerator<{ text: string, count: number }> {
    const mark = isCsv ? ',' : '\t';
    const columns = areRecords ? [...COLUMN_NAMES, FILL_COLUMN] : COLUMN_NAMES;
    yield { text: `${isCsv ? '\uFEFF' : ''}${rowText(columns, mark)}`, count: 0 };
    for await (const some of texts) {
        const rows = [];
        for (const it of some) {
            const cells = [it.block, it.offset, it.bytes, it.room, it.encoding, it.file, it.text, await freshOf(it)];
            rows.push(rowText(areRecords ? [...cells, it.fill || ''] : cells, mark));
        }
        yield { text: rows.join(''), count: rows.length };
    }
}

/** The entries of a PO file come when all texts are known. */
async function* poPieces(texts: AsyncIterable<ListedText[]>, freshOf: FreshOf, signal: Watch['signal']): AsyncGenerator<{ text: string,
    count: number }> {
    const file = new PoFile();
    let count = 0;
    for await (const some of texts) {
        for (const it of some) file.add({ ...it, fresh: await freshOf(it), fill: it.fill || '' });
        count += some.length;
    }
    for (const text of file.pieces()) {
        await letOthersIn(signal);
        yield { text, count };
        count = 0;
    }
}

/** A track as the place of rows, and the lines that write those that fit. */
async function linesInTrack({ calls }: Pick<Engine, 'calls'>, opened: OpenedTrack, fill?: Filler) {
    const { image, part } = await opened.contents();
    const parts = new ScriptParts();
    const place = placeInImage(part, fill, async (row, window, old, fresh) =>
        parts.push(await replaceBytes(calls, window, row, old, fresh, true)));
    return { place, script: () => fittingScript(calls, image, parts) };
}

/** The bytes of the old texts of rows without a new one, with the room after them. Rows whose texts are not there have none. */
async function rangesOfOthers(opened: OpenedTrack, rows: ListRow[], options: RowEncodings, signal: Watch['signal']) {
    const ranges: UserRange[] = [];
    const { part } = await opened.contents();
    const place = placeInImage(part, null, () => {}, (row, found) => {
        ranges.push(rangeOfRow(row, found));
        return found.known;
    });
    await fittedRows(rows.map(row => ({ ...row, fresh: row.text })), place, options, { signal });
    return ranges;
}

/**
 * Creates the script of lists with new texts, which fits the image. Throws a Fault if the lists have no row with a new text or cannot be
 * read, or `cancelled`.
 * @param watch receives the number of rows
 */
export async function importTable(engine: Pick<Engine, 'calls'>, opened: OpenedTrack,
    { lists, fill, partial, ...options }: ImportOptions, watch: Watch = {}): Promise<ImportedTable> {
    const made = await linesInTrack(engine, opened, fill);
    const fitted = await fittedLists(lists, made.place, options, watch);
    const script = partial || fitted.left.length === 0 ? await made.script() : null;
    return { ...fitted, script, empty: await rangesOfOthers(opened, fitted.others, options, watch.signal) };
}

/** The room for the new text of a row in a track, as roomOfRow returns it. */
export async function roomInTrack(opened: Pick<OpenedTrack, 'contents'>, row: ListRow, options: RowEncodings) {
    return roomOfRow((await opened.contents()).part, row, options);
}

/** The columns of a table of rows that do not fit. Imports ignore the last one. */
const LEFT_COLUMNS = ['block', 'offset', 'room', 'encoding', FILL_COLUMN, 'text', 'new', 'why'];

/** Rows that do not fit, as a table with commas that can be corrected and imported. A number that is not known is left out. */
export function leftTable(left: LeftRow[], sentence: (why: LeftRow['why']) => string) {
    const whole = (number: number) => number < 0 ? '' : number;
    const rows = left.map(({ text: { block, offset, isInFile, room, encoding, fill, text, fresh }, why }) =>
        [isInFile ? NO_BLOCK : whole(block), whole(offset), whole(room), encoding, fill, text, fresh, sentence(why)]);
    return `\uFEFF${[LEFT_COLUMNS, ...rows].map(cells => rowText(cells, ',')).join('')}`;
}
