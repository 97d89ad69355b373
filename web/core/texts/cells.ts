// Tables as spreadsheets save them, with tabs, commas, or semicolons between cells.

import { joinedBytes, readBytes, type Reader } from '../bytes.js';
import { markOf } from '../encodings/index.js';
import { Fault } from '../faults.js';
import { letOthersIn, type Signal } from '../turns.js';
import { isPo } from './po.js';

// Reads and decodes a long text file in parts, so that other work gets turns in between.

/** How many bytes are decoded at a time. */
const PART = 1 << 20;

/**
 * The text of a file in UTF-16 with a byte order mark, or in UTF-8. Throws a Fault if it is in neither.
 * @param size of a part, in bytes
 */
export async function longTextOf(reader: Reader, signal?: Signal, size: number = PART) {
    const parts: Uint8Array[] = [];
    for (let at = 0; at < reader.size; at += size) {
        await letOthersIn(signal);
        parts.push(await readBytes(reader, at, Math.min(size, reader.size - at)));
    }
    const mark = markOf(joinedBytes(parts.slice(0, 2)).subarray(0, 2));
    if (mark) return decodedBy(new TextDecoder(mark.name), parts, signal);
    try {
        return await decodedBy(new TextDecoder('utf-8', { fatal: true }), parts, signal);
    } catch (error) {
        if (!(error instanceof TypeError)) throw error;
        throw new Fault('list/not-unicode', { isPo: isPo(new TextDecoder('latin1').decode(parts[0])) });
    }
}

async function decodedBy(decoder: TextDecoder, parts: Uint8Array[], signal?: Signal) {
    const texts = [];
    for (const part of parts) {
        await letOthersIn(signal);
        texts.push(decoder.decode(part, { stream: true }));
    }
    texts.push(decoder.decode());
    return texts.join('');
}

/** See Table.rows. */
export type TableRow = { number: number, cells: string[], isQuoted: boolean, overrun: number };

/** The most cells of a row, and the most characters of a cell in which two quotes are read as one. Longer ones are not used as texts. */
const MOST_CELLS = 1000;
const LONGEST_CELL = 1 << 20;

/** The possible separators of cells: the first line of a table shows which one it uses. */
export const MARKS = ['\t', ',', ';'];

/** Cells that need quotes. Spreadsheets quote others only if they quote all cells. */
const NEEDS_QUOTES = /[\t\r\n"]/;

/**
 * A table. A quoted cell may have line ends, and has two quotes for one. With tabs between cells, quotes that are not needed are kept,
 * since they were typed; otherwise they are removed.
 */
export class Table {
    /** Whether a line in a cell of several lines is a separate row: see `rows`. */
    isRow: (line: string) => boolean = () => false;
    hasLineFeeds; plain; isQuoted;

    /** @param mark the separator of cells */
    constructor(readonly text: string, readonly mark: string) {
        this.hasLineFeeds = text.includes('\n');
        this.plain = new RegExp(`[^${mark}\\r\\n]*`, 'y');
        /** Whether quotes are always removed, since a program wrote them around all cells. */
        this.isQuoted = mark !== '\t';
    }

    /**
     * The length of the line end at a place, 0 if there is none. Python's csv writes \r\r\n on Windows. A \r elsewhere is part of a cell,
     * unless the table has no other line ends.
     */
    lineEndAt(at: number) {
        const { text } = this;
        if (text[at] === '\n') return 1;
        if (text[at] !== '\r') return 0;
        if (!this.hasLineFeeds || at + 1 === text.length) return 1;
        const end = at + (text[at + 1] === '\r' ? 2 : 1);
        return text[end] === '\n' ? end + 1 - at : 0;
    }

    /**
     * The end of a quoted cell, after its last quote, or -1 if it is not quoted: then its quotes are part of it.
     * @param at its first quote
     */
    endOfQuoted(at: number) {
        const { text, mark } = this;
        let end = text.indexOf('"', at + 1);
        while (end >= 0 && text[end + 1] === '"') end = text.indexOf('"', end + 2);
        if (end < 0) return -1;
        const isEnd = end + 1 === text.length || text[end + 1] === mark || this.lineEndAt(end + 1) > 0;
        if (!isEnd || this.isQuoted) return isEnd ? end + 1 : -1;
        return NEEDS_QUOTES.test(text.slice(at + 1, end)) ? end + 1 : -1;
    }

    /** The end of a cell without quotes. */
    endOfPlain(at: number) {
        const { text, plain } = this;
        for (let end = at;; end++) {
            plain.lastIndex = end;
            end += (plain.exec(text) || [''])[0].length;
            if (text[end] !== '\r' || this.lineEndAt(end) > 0) return end;
        }
    }

    /**
     * How many rows after this one a quoted cell has a line that is a separate row; 0 if it has none.
     * @param at its first quote
     * @param end after its last quote
     */
    overrunOf(at: number, end: number) {
        const lines = this.text.slice(at, end).split('\n');
        if (lines.length === 1) return 0;
        const next = this.text.indexOf('\n', end);
        lines[lines.length - 1] += this.text.slice(end, next < 0 ? this.text.length : next);
        return Math.max(lines.findIndex((line, i) => i > 0 && this.isRow(line)), 0);
    }

    /**
     * The rows, each with its number from 1, its cells, and whether all of them are quoted. Empty rows have no cells. If a quoted cell
     * extends to a separate row, it ends like a cell without quotes, and `overrun` is how many rows after this one that row is.
     */
    *rows(): Generator<TableRow> {
        const { text, mark } = this;
        for (let at = 0, number = 1; at < text.length; number++) {
            const row: TableRow = { number, cells: [], isQuoted: true, overrun: 0 };
            let size = this.lineEndAt(at);
            for (let isMore = size === 0; isMore;) {
                at = this.readCell(at, row);
                isMore = text[at] === mark;
                at += Number(isMore);
                size = this.lineEndAt(at);
                if (isMore && (size > 0 || at === text.length)) row.cells.push('');
                isMore = isMore && size === 0 && at < text.length;
            }
            at += size;
            yield row;
        }
    }

    /** Adds the cell at a place to a row, and returns where it ends. */
    readCell(at: number, row: TableRow) {
        const { text } = this;
        if (row.cells.length === MOST_CELLS) throw new Fault('list/too-many-cells', { row: row.number, most: MOST_CELLS });
        const quoted = text[at] === '"' ? this.endOfQuoted(at) : -1;
        const overrun = quoted < 0 || this.isQuoted ? 0 : this.overrunOf(at, quoted);
        if (overrun > 0 && row.overrun === 0) row.overrun = overrun;
        if (quoted >= 0 && overrun === 0) {
            const cell = text.slice(at + 1, quoted - 1);
            row.cells.push(cell.length > LONGEST_CELL ? cell : cell.replace(/""/g, '"'));
            return quoted;
        }
        const end = this.endOfPlain(at);
        const cell = text.slice(at, end);
        row.cells.push(cell);
        row.isQuoted = row.isQuoted && /^".*"$/.test(cell);
        return end;
    }
}

/** Formats a row of a table, with a line end. Cells are quoted if necessary. `mark` is their separator, a tab or a comma. */
export function rowText(cells: (string | number)[], mark: string) {
    const quoted = mark === ',' ? /[",\r\n]/ : /^"|[\t\r\n]/;
    const shown = cells.map(cell => quoted.test(String(cell)) ? `"${String(cell).replace(/"/g, '""')}"` : cell);
    return `${shown.join(mark)}${mark === ',' ? '\r\n' : '\n'}`;
}
