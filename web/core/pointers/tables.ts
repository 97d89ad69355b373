// Tables of pointers: the numbers in a file, the places to which they lead, and the list of tables that a person may correct.

import { readBytes, type Reader } from '../bytes.js';
import { textOfFile } from '../encodings/index.js';
import { Fault } from '../faults.js';
import { MARKS, Table, longTextOf, rowText, visible } from '../texts/index.js';
import { letOthersIn, type Signal } from '../turns.js';

// Reads and writes a table of pointer tables, which a person may correct.

/**
 * A table with the number of its row. A range that a person names as free has no pointers: `free` is how many bytes it has from `at` on.
 */
export type ListedTable = PointerTable & { row: number, free?: number };

const TABLE_COLUMNS = ['file', 'offset', 'count', 'distance', 'width', 'order', 'base', 'unit', 'texts', 'begins'];
/** A column that only a person adds. */
const MASK = 'mask';
/** Columns that need not be there. */
const OPTIONAL = ['begins', MASK];

/** The word in place of a width for a free range: its `count` is a number of bytes. */
const FREE = 'free';

const LISTED_UNITS = [1, 2, 4, 8, 16, 2048];

const ORDERS = ['little', 'big'];

/** The word for a base that is the place of the pointer. */
const SELF = 'self';
const BASE = /^(self)?(?:([+-]?)(0x[0-9a-f]{1,12}|\d{1,15}))?$/i;

/** The most bytes of the list and of its first row, and the most pointers of all its tables. */
const MOST_LIST_BYTES = 1 << 24;
const MOST_HEAD_BYTES = 1 << 10;
const MOST_POINTERS = 1 << 18;

/** A base in the notation of the list. */
export function baseText({ base, own }: Pick<PointerTable, 'base' | 'own'>) {
    const number = `0x${Math.abs(base).toString(16).toUpperCase()}`;
    if (!own) return `${base < 0 ? '-' : ''}${number}`;
    return base === 0 ? SELF : `${SELF}${base < 0 ? '-' : '+'}${number}`;
}

/** A mask in the notation of the list. */
function maskText({ mask }: Pick<PointerTable, 'mask'>) {
    return mask === undefined ? '' : `0x${mask.toString(16).toUpperCase()}`;
}

/** The list of tables as a text. */
export function pointerList(tables: (PointerTable & Pick<ListedTable, 'free'>)[]) {
    const masks = tables.some(({ mask }) => mask !== undefined) ? [MASK] : [];
    const rows = tables.map(it => {
        const more = masks.map(() => maskText(it));
        if (it.free !== undefined) return [visible(it.path), it.at, it.free, '', FREE, '', '', '', '', '', ...more];
        const form = [8 * it.width, ORDERS[Number(it.big)], baseText(it), it.unit];
        return [visible(it.path), it.at, it.count, it.distance, ...form, visible(it.texts), it.begins, ...more];
    });
    return [[...TABLE_COLUMNS, ...masks], ...rows].map(cells => rowText(cells, '\t')).join('');
}

/** The first row of a list, the mark between its cells, and the columns that it does not name. */
function tableHeadOf(text: string) {
    const heads = MARKS.map(mark => {
        const [first] = new Table(text, mark).rows();
        const names = first === undefined ? [] : first.cells.map(it => it.trim().toLowerCase());
        return { mark, names, missing: TABLE_COLUMNS.filter(name => !OPTIONAL.includes(name) && !names.includes(name)) };
    });
    return heads.sort((a, b) => a.missing.length - b.missing.length)[0];
}

/** Whether the first row of a file names the columns of a list of tables. */
export async function isTableList(reader: Reader) {
    const start = await readBytes(reader, 0, Math.min(reader.size, MOST_HEAD_BYTES));
    return tableHeadOf(textOfFile(start)).missing.length === 0;
}

/** Reads the cells of a row. */
class Cells {
    cell;

    /** @param names of the columns */
    constructor(readonly row: number, names: string[], cells: string[]) {
        this.cell = (name: string) => (cells[names.indexOf(name)] || '').trim();
    }

    fault(column: string) {
        return new Fault('pointers/cell', { row: this.row, column, cell: this.cell(column) });
    }

    /** A whole number in a range. */
    whole(column: string, least: number, most: number) {
        const cell = this.cell(column);
        const number = /^(0x[0-9a-f]{1,12}|\d{1,12})$/i.test(cell) ? Number(cell) : -1;
        if (number < least || number > most) throw this.fault(column);
        return number;
    }

    /** One of some values. */
    oneOf<T>(column: string, values: T[]) {
        const found = values.find(it => String(it) === this.cell(column).toLowerCase());
        if (found === undefined) throw this.fault(column);
        return found;
    }

    base() {
        const found = BASE.exec(this.cell('base'));
        const [, self = '', sign = '', digits = ''] = found || [];
        const isRunTogether = self !== '' && digits !== '' && sign === '';
        if (found === null || `${self}${digits}` === '' || isRunTogether) throw this.fault('base');
        return { own: self !== '', base: (sign === '-' ? -1 : 1) * Number(digits) };
    }

    /** The bits of a number that are a pointer, from its lowest one on. */
    mask(width: number) {
        if (this.cell(MASK) === '') return {};
        const mask = this.whole(MASK, 1, 256 ** width - 1);
        if (!Number.isInteger(Math.log2(mask + 1))) throw this.fault(MASK);
        return { mask };
    }

    /** A range that is free, as a table without pointers. */
    freeRange(): ListedTable {
        const most = Number.MAX_SAFE_INTEGER;
        const [at, free, path] = [this.whole('offset', 0, most), this.whole('count', 1, most), this.cell('file')];
        const form = { width: 1, big: false, base: 0, own: false, unit: 1 };
        return { ...form, row: this.row, path, texts: path, at, count: 0, distance: 1, begins: 0, free };
    }

    table(): ListedTable {
        if (this.cell('width').toLowerCase() === FREE) return this.freeRange();
        const most = Number.MAX_SAFE_INTEGER;
        const width = this.oneOf('width', [8 * 2, 8 * 3, 8 * 4]) / 8;
        return {
            row: this.row, path: this.cell('file'), texts: this.cell('texts'), at: this.whole('offset', 0, most),
            count: this.whole('count', 1, MOST_POINTERS), distance: this.whole('distance', width, MOST_LIST_BYTES), width,
            big: this.oneOf('order', ORDERS) === ORDERS[1], ...this.base(), unit: this.oneOf('unit', LISTED_UNITS), ...this.mask(width),
            begins: this.cell('begins') === '' ? 0 : this.whole('begins', 0, MOST_POINTERS),
        };
    }
}

/** Reads a list of tables. Throws a Fault, `pointers` or `list`, if it cannot be read as it was meant. */
export async function tablesOfList(reader: Reader, signal?: Signal): Promise<ListedTable[]> {
    if (reader.size > MOST_LIST_BYTES) throw new Fault('pointers/too-large', { size: reader.size, most: MOST_LIST_BYTES });
    const text = await longTextOf(reader, signal);
    const { mark, names, missing } = tableHeadOf(text);
    if (missing.length > 0) throw new Fault('pointers/no-column', { columns: missing });
    const tables: ListedTable[] = [];
    let pointers = 0;
    for (const { number, cells } of new Table(text, mark).rows()) {
        await letOthersIn(signal);
        if (number === 1 || cells.every(it => it.trim() === '')) continue;
        const table = new Cells(number, names, cells).table();
        pointers += table.count;
        if (pointers > MOST_POINTERS) throw new Fault('pointers/too-many', { most: MOST_POINTERS });
        tables.push(table);
    }
    return tables;
}

// Tables of pointers: the numbers in a file, and the places to which they lead.

/**
 * How a pointer is written, and what it means. It has `width` bytes, the most significant one first if it is `big`. It leads to the byte
 * `unit` times its number after `base`, in a file of texts; `base` counts from the beginning of that file, or, if the form is `own`, from
 * the place of the pointer. With a `mask`, such as 0x7FFF, only these lowest bits of the number count, and the others stay as they are.
 */
export type PointerForm = { width: number, big: boolean, base: number, own: boolean, unit: number, mask?: number };
/**
 * A table of pointers: its file (`path`), the place of its first pointer (`at`), how many it has (`count`), the distance in bytes from one
 * to the next, the file of the texts, and how many of its pointers lead to the beginning of a text.
 */
export type PointerTable = PointerForm & { path: string, at: number, count: number, distance: number, texts: string, begins: number };
/** A range of bytes: its first one, and the one after its last. */
export type Span = { first: number, after: number };

/** The most bytes of the codes before a text that a pointer may lead to, because `texts` leaves them out. */
export const MOST_CODES = 8;

/** Numbers that count from less are frequent, and lead to texts by chance. */
export const LEAST_ADDRESS = 1 << 16;

/** Whether pointers are addresses in memory. */
export function areAddresses({ width, base }: Pick<PointerForm, 'width' | 'base'>) {
    return width === 4 && Math.abs(base) >= LEAST_ADDRESS;
}

/** The number at a place. */
export function storedAt(bytes: Uint8Array, at: number, { width, big }: Pick<PointerForm, 'width' | 'big'>) {
    let number = 0;
    for (let i = 0; i < width; i++) number = number * 256 + bytes[at + (big ? i : width - 1 - i)];
    return number;
}

/** The greatest number of a pointer. */
export function greatestOf({ width, mask }: Pick<PointerForm, 'width' | 'mask'>) {
    return mask ?? 256 ** width - 1;
}

/** Where a pointer with a number leads. `at` is the place of the pointer. */
export function targetOf(form: PointerForm, at: number, number: number) {
    return form.unit * (number % (greatestOf(form) + 1)) + form.base + (form.own ? at : 0);
}

/**
 * The number of a pointer that leads to a place, or -1 if none does.
 * @param at the place of the pointer
 * @param old its number before, whose bits outside the mask stay
 */
export function numberFor(form: PointerForm, at: number, target: number, old: number = 0) {
    const number = (target - form.base - (form.own ? at : 0)) / form.unit;
    const greatest = greatestOf(form);
    return Number.isInteger(number) && number >= 0 && number <= greatest ? number + old - old % (greatest + 1) : -1;
}

/** Writes a number at a place. */
export function putNumber(bytes: Uint8Array, at: number, { width, big }: Pick<PointerForm, 'width' | 'big'>, number: number) {
    let left = number;
    for (let i = 0; i < width; i++) {
        bytes[at + (big ? width - 1 - i : i)] = left % 256;
        left = Math.floor(left / 256);
    }
}

/** The places of the pointers of a table, in order. */
export function placesOf({ at, count, distance }: PointerTable) {
    return Array.from({ length: count }, (_, i) => at + i * distance);
}
