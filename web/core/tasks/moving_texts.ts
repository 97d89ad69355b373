// Decides which texts of a file may move, and which ranges they leave free.

import { firstAfter, sameBytes } from '../bytes.js';
import { FULL, endOf, fillingAfter, withEnd, type Encoding } from '../encodings/index.js';
import type { StayReason } from '../faults.js';
import { MOST_CODES, greatestOf, storedAt, type ListedTable, type Movable, type Span } from '../pointers/index.js';
import { isCodeByte } from '../texts/index.js';
import { isTurnDue, letOthersIn, type Signal } from '../turns.js';
import type { ListRow } from './list_rows.js';
import type { PointedFile, Pointer } from './moving_pointers.js';

/**
 * A row with a new text in a file to which pointers lead: the place of its old text in the file, how many bytes that has (`known`), the
 * room for a new text in place, the bytes of the new text, and the encoding.
 */
export type PointedRow = { row: ListRow, at: number, known: number, room: number, fresh: Uint8Array, encoding: Encoding };
/** A new length, and where it is. */
type LengthWrite = { file: PointedFile, at: number, width: number, big: boolean, number: number };
/** A range of a file that may move with its pointers: its new bytes, the rows with new texts in it, and the lengths that are written. */
export type MovedText = Span & { bytes: Uint8Array, rows: PointedRow[], pointers: Pointer[], lengths: LengthWrite[] };
/** A text that may move anywhere in its file. */
type MovableText = Movable & MovedText;
/** A text that stays in place, and why. */
export type StayingText = { text: PointedRow, reason: StayReason };

/** A byte that follows at least this many texts, and more than half of all in a file, ends them. */
const LEAST_ENDED_ALIKE = 6;

/** A control code does not end texts if it is before a 00 in more than this share of them. */
const SHARE_BEFORE_ZERO = 0.1;

/** The numbers beside pointers are lengths if this share of them is that of their texts; numbers of a byte only with this many texts. */
const SHARE_OF_LENGTHS = 0.6;
const LEAST_LENGTHS = 3;

/** If this share of the rows have pointers, one without a pointer may be a part of the text before it. */
const SHARE_WITH_POINTERS = 0.7;

/** The most bytes of a text whose length is looked for. */
const MOST_MEASURED = 1024;

/**
 * The byte that ends most texts of a file, 0 if none does. If there are few texts, it is the byte before most places to which pointers
 * lead.
 */
export function usualEndOf({ bytes, targets }: PointedFile, texts: PointedRow[]) {
    const places = texts.length < LEAST_ENDED_ALIKE ? targets.map(target => target - 1) : texts.map(({ at, known }) => at + known);
    const counts = new Uint32Array(256);
    for (const at of places) counts[bytes[at] || 0] += 1;
    const most = counts.indexOf(Math.max(...counts));
    if (counts[most] < LEAST_ENDED_ALIKE || 2 * counts[most] <= places.length) return 0;
    // A code before a 00 belongs to the text, as the end of a line does.
    const beforeZero = places.filter(at => bytes[at] === most && bytes[at + 1] === 0).length;
    return most === FULL || isCodeByte(most) && beforeZero <= SHARE_BEFORE_ZERO * places.length ? most : 0;
}

/**
 * The end of a text with its filling and the bytes that end it, and these; -1 if it has no such bytes.
 * @param usual the byte that ends most texts of the file
 */
export function endWithMark({ bytes, size }: PointedFile, { at, known, row, encoding }: Pick<PointedRow, 'at' | 'known'
    | 'encoding'> & { row: Pick<ListRow, 'room'> }, usual: number) {
    const ended = withEnd(encoding, encoding.end || usual);
    const mark = endOf(ended);
    const from = at + known;
    const most = row.room < 0 ? Infinity : Math.max(row.room - known, 0);
    const filled = from + Math.min(fillingAfter(ended, bytes, from, size), most);
    const isMarked = filled + mark.length <= size && sameBytes(mark, bytes.subarray(filled, filled + mark.length));
    return { mark, after: isMarked && (row.room < 0 || row.room >= known) ? filled + mark.length : -1 };
}

/**
 * The place of the first code before a text to which a pointer leads, or the place of the text. No byte that ends texts is between them,
 * because a different text, which has no row, begins after it.
 * @param at the place of the text
 * @param mark the bytes that end texts
 */
export function firstPointed(file: PointedFile, at: number, low: number, mark: Uint8Array) {
    const { bytes } = file;
    let first = at;
    while (first > Math.max(low, at - MOST_CODES) && bytes[first - 1] !== 0 && bytes[first - 1] !== mark[0]) first -= 1;
    const [pointer] = file.leadingTo(first, at + 1);
    return pointer === undefined ? at : pointer.target;
}

/** The texts of a file, which move or stay. */
export class MovedTexts {
    /** The share of the rows that have pointers. */
    share: number | undefined = undefined;
    movable: MovableText[] = [];
    staying: StayingText[] = [];
    firsts; isKept; usual;

    /**
     * @param texts in the order of their places
     * @param others the places of rows without a new text, and whether a row is to stay
     */
    constructor(readonly file: PointedFile, readonly texts: PointedRow[],
        { firsts, isKept }: { firsts: number[], isKept: (row: ListRow) => boolean }) {
        this.firsts = [...new Set([...firsts, ...texts.map(({ at }) => at)])].sort((a, b) => a - b);
        this.isKept = isKept;
        this.usual = usualEndOf(file, texts);
    }

    /** Sorts the texts into those that may move and those that stay. */
    async sort(signal?: Signal) {
        const lengths = new LengthTables(this.file);
        await lengths.read(this.end, signal);
        let low = 0;
        for (const text of this.texts) {
            if (isTurnDue()) await letOthersIn(signal);
            const i = firstAfter(this.firsts, text.at);
            const [before = -1, next = this.file.size] = [this.firsts[i - 2], this.firsts[i]];
            const sorted = this.sortOne(text, Math.max(low, before + 1), next, lengths);
            if (typeof sorted === 'string') this.staying.push({ text, reason: sorted });
            else this.movable.push(sorted);
            low = typeof sorted === 'string' ? text.at + text.known : sorted.after;
        }
        this.align();
    }

    /**
     * A text as one that may move, or the reason why it stays.
     * @param low the first byte that does not belong to the text before it
     * @param next where the next row begins
     */
    sortOne(text: PointedRow, low: number, next: number, lengths: LengthTables): MovableText | StayReason {
        const { file } = this;
        const { at, known, row, fresh } = text;
        const { mark, after: marked } = endWithMark(file, text, this.usual);
        const first = firstPointed(file, at, low, mark);
        const pointers = file.leadingTo(first, at + 1);
        if (this.isKept(row)) return 'kept';
        if (pointers.length === 0) return 'no-pointer';
        if (marked < 0) return 'no-end';
        const end = at + known + mark.length;
        if (next < end || file.leadingTo(at + 1, end).length > 0) return 'pointed-inside';
        if (lengths.have(pointers)) return 'length';
        if (this.goesOn(end, next)) return 'doubtful';
        if (file.isDoubtful(first, at + 1) || file.isStray(first, end)) return 'doubtful';
        // An empty text in the filling has a pointer or a row of its own.
        const [inside] = file.leadingTo(end, marked);
        const after = Math.min(marked, next, inside === undefined ? marked : inside.target);
        if (file.hasPointer(first, after)) return 'overlap';
        const bytes = new Uint8Array(at - first + fresh.length + mark.length);
        bytes.set(file.bytes.subarray(first, at));
        bytes.set(fresh, at - first);
        bytes.set(mark, at - first + fresh.length);
        return { first, after, bytes, rows: [text], pointers, lengths: [], ...limitsOf(pointers, first) };
    }

    /**
     * Whether a text may go on after the byte that seems to end it, for example because this byte belongs to a code: a row directly behind
     * it has no pointer, although nearly all rows have one.
     * @param next where the next row begins
     */
    goesOn(end: number, next: number) {
        if (next >= this.file.size || next - end > MOST_CODES || this.file.leadingTo(end, next + 1).length > 0) return false;
        const isPointed = (at: number) => this.file.leadingTo(Math.max(at - MOST_CODES, 0), at + 1).length > 0;
        const share = this.share ?? this.firsts.filter(isPointed).length / this.firsts.length;
        this.share = share;
        return share >= SHARE_WITH_POINTERS;
    }

    /** The byte that ends the texts. */
    get end() {
        const [first] = this.texts;
        return first.encoding.end || this.usual;
    }

    /** Texts whose places are all multiples of 2 or 4 stay so. */
    align() {
        const usual = [4, 2].find(unit => this.movable.every(({ first }) => first % unit === 0)) || 1;
        for (const text of this.movable) text.align = Math.max(text.align, usual);
    }
}

/** The step, and the first and the last place, that pointers can express for a text. `first` is where the text begins now. */
function limitsOf(pointers: Pointer[], first: number) {
    let [align, least, most] = [1, 0, Infinity];
    for (const { table, at, target } of pointers) {
        const { base, own, unit } = table;
        const from = base + (own ? at : 0) - (target - first);
        align = Math.max(align, unit);
        least = Math.max(least, from);
        most = Math.min(most, from + unit * greatestOf(table));
    }
    return { align, least, most };
}

/** The widths of lengths in bytes, and how much more than the text they may count: the bytes that end it. */
const LENGTH_WIDTHS = [1, 2, 4];
const MOST_MORE = 2;

/** How far from a pointer its length may be, in bytes: within the distance of the pointers of its table, but not less or more. */
const LEAST_LENGTH_BESIDE = 8;
const MOST_LENGTH_BESIDE = 32;

/** Lengths count units of this many bytes. */
const LENGTH_UNITS = [1, 2];

/** A length is written anew if this share of the texts of a table have it in the same field. */
const SHARE_TO_WRITE = 0.9;

/**
 * A field that may have the length of a text: its place, beside a pointer or before a text, its form, the bytes that it counts as one, and
 * how many more than the text has; `found` is for how many texts it is right.
 */
type LengthField = { isBefore: boolean, shift: number, width: number, big: boolean, unit: number, more: number, found: number };

/** Tables that have the length of each text beside its pointer, or before the text. */
export class LengthTables {
    counts = new Map<ListedTable, { count: number, equal: Map<string, LengthField> }>();
    fields = new Map<ListedTable, (LengthField & { isSure: boolean })[]>();

    constructor(readonly file: PointedFile) {}

    /** Reads the texts of all pointers. `end` is the byte that ends texts. */
    async read(end: number, signal?: Signal) {
        const { bytes, size, leading } = this.file;
        for (const pointer of leading) {
            if (isTurnDue()) await letOthersIn(signal);
            const { target, isEnd = false } = pointer;
            const length = target < 0 || isEnd ? -1 : bytes.subarray(target, Math.min(target + MOST_MEASURED, size)).indexOf(end);
            if (length > 0) this.add(pointer, length);
        }
    }

    /** @param size of its text */
    add({ table, file: { bytes }, at, target }: Pointer, size: number) {
        const counts = this.counts.get(table) || { count: 0, equal: new Map() };
        this.counts.set(table, counts);
        counts.count += 1;
        const { distance, width: own } = table;
        for (const width of LENGTH_WIDTHS) {
            this.addIfEqual(counts.equal, this.file.bytes, target - width, size, { isBefore: true, shift: -width, width });
            const near = Math.max(Math.min(distance, MOST_LENGTH_BESIDE), LEAST_LENGTH_BESIDE);
            for (let shift = own - near; shift + width <= near; shift++) {
                const isBeside = shift + width <= 0 || shift >= own;
                if (isBeside) this.addIfEqual(counts.equal, bytes, at + shift, size, { isBefore: false, shift, width });
            }
        }
    }

    /** Counts a field if it is the length of a text. */
    addIfEqual(equal: Map<string, LengthField>, bytes: Uint8Array, at: number, size: number, { isBefore, shift, width }: Pick<LengthField,
        'isBefore' | 'shift' | 'width'>) {
        if (at < 0 || at + width > bytes.length) return;
        for (const big of width === 1 ? [false] : [false, true]) {
            const stored = storedAt(bytes, at, { width, big });
            for (const unit of LENGTH_UNITS) {
                const more = unit * stored - size;
                if (more < 0 || more > MOST_MORE) continue;
                const key = [isBefore, shift, width, big, unit, more].join();
                const field = equal.get(key) || { isBefore, shift, width, big, unit, more, found: 0 };
                field.found += 1;
                equal.set(key, field);
            }
        }
    }

    /** The fields that are probably lengths of the texts of a table. */
    fieldsOf(table: ListedTable) {
        const known = this.fields.get(table);
        if (known !== undefined) return known;
        const { count, equal } = this.counts.get(table) || { count: 0, equal: new Map() };
        // One byte may be equal by chance.
        const isLikely = ({ width, found }: LengthField) =>
            (count >= LEAST_LENGTHS || width > 1) && found >= SHARE_OF_LENGTHS * count;
        const isSure = ({ found }: LengthField) => count >= LEAST_LENGTHS && found >= SHARE_TO_WRITE * count;
        const fields = [...equal.values()].filter(isLikely).map(field => ({ ...field, isSure: isSure(field) }));
        this.fields.set(table, fields);
        return fields;
    }

    have(pointers: Pointer[]) {
        return pointers.some(({ table }) => this.fieldsOf(table).length > 0);
    }

    /** The lengths to write for a text with a new size, or null if it is not known which bytes they are, or if they cannot express it. */
    writesFor(pointers: Pointer[], size: number, fresh: number) {
        const writes: LengthWrite[] = [];
        for (const { table, file, at } of pointers) {
            const fields = this.fieldsOf(table);
            const most = Math.max(...fields.map(({ found }) => found));
            for (const { isBefore, isSure, shift, width, big, unit, more, found } of fields) {
                if (isBefore) return null;
                if (found < most) continue;
                const place = at + shift;
                const number = (fresh + more) / unit;
                const isKnown = isSure && unit * storedAt(file.bytes, place, { width, big }) === size + more;
                if (!isKnown || !Number.isInteger(number) || number >= 256 ** width || file.hasPointer(place, place + width)) return null;
                writes.push({ file, at: place, width, big, number });
            }
        }
        return writes;
    }
}
