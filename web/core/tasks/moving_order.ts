// Texts whose pointers rise: pieces of a file that keep their order and stay in their block when they move. Games rely on the order: they
// read lengths as differences of pointers, count texts from the first one, or see one bank at a time.

import { firstAfter, joinedBytes } from '../bytes.js';
import { FULL, endOf, fillerOf, isSpaceIn, withEnd, type Filler } from '../encodings/index.js';
import { MOST_CODES, areAddresses, greatestOf, numberFor } from '../pointers/index.js';
import { closingCodesIn, isCodeByte } from '../texts/index.js';
import { isTurnDue, letOthersIn, type Signal } from '../turns.js';
import { areNeighbours, blocksOf, groupedBy, hasOrder, pointersAgainstOrder } from './moving_implied.js';
import type { PointedFile, Pointer } from './moving_pointers.js';
import { LengthTables, endWithMark, usualEndOf, type MovedText, type PointedRow, type StayingText } from './moving_texts.js';
import { filledUp } from './replace.js';

// Lays out texts in their order.

/** By how many bytes a pointer cannot reach the new place of its piece: 0 if it can. */
function beyondReach({ pointers, first }: Piece, place: number) {
    return pointers.reduce((most, { table, at, target }) => {
        const now = target + place - first;
        if (numberFor(table, at, now) >= 0) return most;
        const last = table.base + (table.own ? at : 0) + table.unit * greatestOf(table);
        return Math.max(most, now - last, 1);
    }, 0);
}

/**
 * The places of pieces, each behind the one before it.
 * @param limit where their room ends
 * @param isKeeping whether a piece keeps its place if the pieces before it leave it there; otherwise it is directly behind them
 */
function placesFor(pieces: Piece[], limit: number, isKeeping: boolean) {
    const [{ first: start }] = pieces;
    const align = [4, 2].find(unit => pieces.every(({ first }) => (first - start) % unit === 0)) || 1;
    const shift = (from: number, to: number) => ((to - from) % align + align) % align;
    // The last place of each piece from which all pieces behind it still fit.
    const latest = pieces.map(() => 0);
    for (let [i, at] = [pieces.length - 1, limit]; isKeeping && i >= 0; i--) {
        at -= pieces[i].bytes.length;
        at -= shift(pieces[i].first, at);
        latest[i] = at;
    }
    let [end, missing] = [start, 0];
    const places = pieces.map((piece, i) => {
        const next = end + shift(end, piece.first);
        const place = piece.first >= next && piece.first <= latest[i] ? piece.first : next;
        end = place + piece.bytes.length;
        missing = Math.max(missing, beyondReach(piece, place));
        return place;
    });
    return { places, align, end, missing: Math.max(missing, end - limit) };
}

/** Pads the last new text of a piece, as in place, so that the piece behind it follows directly. */
function pad(piece: Piece, missing: number) {
    const { bytes, padding } = piece;
    if (padding === null || missing % padding.filler.length !== 0) return;
    const { at, filler } = padding;
    piece.bytes = joinedBytes([filledUp(bytes.subarray(0, at), at + missing, filler), bytes.subarray(at)]);
}

/**
 * The places of pieces in their order. As many as possible keep their places, since each piece that moves costs if a pointer to it is
 * unknown.
 * @param limit where their room ends
 */
export function placesInOrder(pieces: Piece[], limit: number) {
    const kept = placesFor(pieces, limit, true);
    return kept.missing === 0 ? kept : placesFor(pieces, limit, false);
}

/**
 * Lays out pieces in their order, and pads their texts.
 * @param limit where their room ends
 */
export function laidInOrder(pieces: Piece[], limit: number) {
    const { places, align, end, missing } = placesInOrder(pieces, limit);
    for (const [i, piece] of missing === 0 ? pieces.slice(0, -1).entries() : []) {
        const gap = places[i + 1] - places[i] - piece.bytes.length;
        if (gap >= align) pad(piece, gap);
    }
    const { after } = pieces[pieces.length - 1];
    const left = [{ first: pieces[0].first, after: Math.min(Math.max(after, end), limit) }];
    return { places: new Map(pieces.map((piece, i) => [piece, places[i]])), left, end, missing };
}

/**
 * The bytes from a place to which pointers lead to the next such place: a text with everything behind it, such as texts that are not
 * listed, which moves with it. `old` has its bytes without new texts. `isFixed` is whether it must not move, and `isOpen` whether it is
 * fixed because its end was not found. `padding` is the place in its bytes where its last new text may be padded, and the filler, or null.
 */
export type Piece = MovedText & { old: Uint8Array, isFixed: boolean, isOpen: boolean, padding: { at: number, filler: Uint8Array } | null };
/** The range of a file that a new text replaces. */
type RowChange = { from: number, to: number, text: PointedRow };
/**
 * The texts of a piece: where rows begin, the new texts, where the last text ends, and where the piece ends. `isFixed` is whether it is
 * unknown what belongs to the piece.
 */
type FoundTexts = { starts: number[], changes: RowChange[], end: number, after: number, isFixed: boolean };
/**
 * Pieces between two that must not move, and where their room ends. `isLast` is whether nothing but the end of the file limits it, and
 * `areAddresses` whether all pointers to them are addresses, which need no order.
 */
export type Segment = { pieces: Piece[], limit: number, isLast: boolean, areAddresses: boolean };

/** Filling at the end of a block ends at a multiple of this, or at something known, and has this many bytes at least. */
const FILLED_UNIT = 2048;
const LEAST_FILLING = 16;

/** The most bytes of a text that is not listed. */
const MOST_UNLISTED = 64;

/** Matches characters that no reader sees. */
const NOT_SHOWN = /^[\p{C}\uFFFD]*$/u;

/** The blocks of a file whose texts keep their order. */
export class OrderedTexts {
    staying: StayingText[] = [];
    segments: Segment[] = [];
    /** The pointers of the block that break its order. */
    strange = new Set<Pointer>();
    /** The places of rows with new texts that are in blocks with an order. */
    inBlocks = new Set<number>();
    rows; firsts; isKept; fill; usual; encoding; end; mark; lengths;

    /**
     * @param rows with new texts, in the order of their places
     * @param others the places of rows without a new text; and whether a row is to stay
     */
    constructor(readonly file: PointedFile, rows: PointedRow[],
        { firsts, isKept, fill }: { firsts: number[], isKept: (row: PointedRow['row']) => boolean, fill: Filler | undefined }) {
        this.rows = new Map(rows.map(row => [row.at, row]));
        this.firsts = [...new Set([...firsts, ...rows.map(({ at }) => at)])].sort((a, b) => a - b);
        this.isKept = isKept;
        this.fill = fill ?? null;
        this.usual = usualEndOf(file, rows);
        this.encoding = rows[0].encoding;
        this.end = this.encoding.end || this.usual;
        this.mark = endOf(withEnd(this.encoding, this.end));
        this.lengths = new LengthTables(file);
    }

    async read(signal?: Signal) {
        await this.lengths.read(this.end, signal);
        const blocks = blocksOf(this.file);
        for (const [i, pointers] of blocks.entries()) {
            if (!hasOrder(pointers)) continue;
            const next = blocks[i + 1] === undefined ? this.file.size : blocks[i + 1][0].target;
            const pieces = await this.piecesOf(pointers, next, signal);
            this.noteRows(pieces);
            this.addSegments(pieces, next, blocks.length === 1);
        }
    }

    /**
     * The pieces of a block.
     * @param pointers by the places to which they lead
     * @param next where the next block begins
     */
    async piecesOf(pointers: Pointer[], next: number, signal?: Signal) {
        const byTarget = [...groupedBy(pointers, ({ target }) => target)];
        this.strange = pointersAgainstOrder(pointers);
        const pieces: Piece[] = [];
        for (const [i, [target, own]] of byTarget.entries()) {
            if (isTurnDue()) await letOthersIn(signal);
            const [after, behind] = byTarget[i + 1] ?? [Math.max(next, target), null];
            pieces.push(this.pieceAt(target, own, behind, after));
        }
        // The end of an open piece is a part of the next one: neither may change.
        for (const [i, { isOpen }] of pieces.slice(0, -1).entries()) if (isOpen) pieces[i + 1].isFixed = true;
        return pieces;
    }

    /** Notes the rows of pieces, and those that stay. */
    noteRows(pieces: Piece[]) {
        for (const { rows, isFixed } of pieces) {
            for (const text of rows) {
                this.inBlocks.add(text.at);
                if (isFixed) this.staying.push({ text, reason: this.isKept(text.row) ? 'kept' : 'doubtful' });
            }
        }
    }

    /**
     * Splits the pieces of a block at those that must not move.
     * @param next where the next block begins
     * @param isOnly whether the file has one block
     */
    addSegments(pieces: Piece[], next: number, isOnly: boolean) {
        const ofAddresses = pieces.every(({ pointers }) => pointers.every(({ table }) => areAddresses(table)));
        let some: Piece[] = [];
        const close = (limit: number, isLast = false) => {
            if (some.some(({ rows }) => rows.length > 0)) this.segments.push({ pieces: some, limit, isLast, areAddresses: ofAddresses });
            some = [];
        };
        for (const piece of pieces) {
            if (piece.isFixed) close(piece.first);
            else some.push(piece);
        }
        const limit = this.filledTo(pieces[pieces.length - 1].after, next);
        close(limit, isOnly && limit === this.file.size);
    }

    /**
     * The piece at a place to which pointers lead.
     * @param behind the pointers to the next place, null if there is none
     * @param next the next place, or where the next block begins
     */
    pieceAt(first: number, pointers: Pointer[], behind: Pointer[] | null, next: number): Piece {
        const { file } = this;
        const bytes = new Uint8Array(0);
        const rows = this.rowsIn(first, next);
        const fixed = { first, after: next, bytes, old: bytes, pointers, rows, lengths: [], padding: null, isFixed: true, isOpen: false };
        if (behind === null && pointers.every(({ isEnd }) => isEnd) && (first >= next || this.rowFrom(first, file.size) < 0)) {
            return { ...fixed, after: first, rows: [], isFixed: !this.isFirmEnd(first, next) };
        }
        const found = this.textsFrom(first, pointers, behind, next);
        if (found === null) return { ...fixed, isOpen: true };
        const { starts, changes, end, after } = found;
        const [start = first] = starts;
        const isKept = changes.some(({ text }) => this.isKept(text.row));
        const isDoubtful = found.isFixed || pointers.some(it => this.strange.has(it)) || this.isInRow(first)
            || file.isDoubtful(first, Math.max(start, first) + 1) || file.isStray(first, end) || file.hasPointer(first, after);
        const piece = { ...fixed, after, rows: this.rowsIn(first, after) };
        const old = file.bytes.slice(first, end);
        return isKept || isDoubtful ? piece : this.changed({ ...piece, old, isFixed: false }, changes, end);
    }

    /**
     * The texts from a place to which pointers lead, null if one has no end. Rows without a pointer, and what is not listed, belong to the
     * text before them only if no pointer can be missing: one table leads to that text and to the next place.
     */
    textsFrom(first: number, pointers: Pointer[], behind: Pointer[] | null, next: number): FoundTexts | null {
        const { file } = this;
        const starts: number[] = [];
        const changes: RowChange[] = [];
        for (let at = first;;) {
            const row = this.rowFrom(at, next);
            const text = this.rows.get(row);
            if (row >= 0) starts.push(row);
            const { mark, after: marked } = text === undefined ? { mark: this.mark, after: this.markFrom(Math.max(row, at), next) }
                : endWithMark(file, text, this.usual);
            if (marked < 0 || (text !== undefined && text.at + text.known + mark.length > next)) return null;
            const end = Math.min(marked, next);
            const isClosed = behind === null || this.filledFrom(end, next) === next;
            // What fills up the last text of a piece is dropped.
            if (text !== undefined) changes.push({ from: text.at, to: isClosed ? end - mark.length : text.at + text.known, text });
            // The last text of a block may go on in a row behind it.
            const goesOn = starts.length === 0 || (this.rowFrom(end, file.size) >= 0 && end < next);
            if (behind === null) return { starts, changes, end, after: end, isFixed: goesOn };
            if (isClosed) return { starts, changes, end, after: next, isFixed: false };
            const isFixed = !areNeighbours(pointers, behind);
            if (isFixed || this.rowFrom(end, next) < 0) return { starts, changes, end: next, after: next, isFixed };
            at = end;
        }
    }

    /** A piece with its new bytes. `end` is where its last text ends. */
    changed(piece: Piece, changes: RowChange[], end: number): Piece {
        const { bytes } = this.file;
        if (changes.length === 0) return { ...piece, bytes: piece.old };
        if (!this.lengths.have(piece.pointers)) return this.joined(piece, changes, changes.map(({ text }) => text.fresh), end);
        const measured = this.measured(piece, changes, end);
        if (measured !== null) return { ...this.joined(piece, changes, [measured.fresh], end), lengths: measured.lengths, padding: null };
        // The texts keep their sizes; then the piece may move.
        const sized = changes.map(({ text }) => this.padded(text, text.known));
        const fresh = changes.map(({ text: { at, known } }, i) => sized[i] ?? bytes.slice(at, at + known));
        const rows = changes.flatMap(({ text }, i) => sized[i] === null ? [] : [text]);
        for (const { text } of changes) {
            if (rows.includes(text)) continue;
            this.staying.push({ text, reason: 'length' });
            this.inBlocks.add(text.at);
        }
        return { ...this.joined({ ...piece, rows }, changes, fresh, end), padding: null };
    }

    /**
     * The new text of a piece and the lengths that are written with it; null if these are unknown. A text of an odd number of bytes gets a
     * space if the length counts units of two.
     */
    measured({ first, pointers }: Piece, changes: RowChange[], end: number) {
        const [{ text, from, to }] = changes;
        if (changes.length > 1 || to + this.mark.length < end) return null;
        const size = this.file.bytes.indexOf(this.end, first) - first;
        for (const more of [0, 1]) {
            const fresh = this.padded(text, text.fresh.length + more);
            const lengths = fresh === null ? null : this.lengths.writesFor(pointers, size, from - first + fresh.length);
            if (fresh !== null && lengths !== null) return { fresh, lengths };
        }
        return null;
    }

    /** A piece with some bytes replaced. */
    joined(piece: Piece, changes: RowChange[], fresh: Uint8Array[], end: number): Piece {
        const { bytes } = this.file;
        const parts: Uint8Array[] = [];
        let at = piece.first;
        for (const [i, { from, to }] of changes.entries()) {
            parts.push(bytes.subarray(at, from), fresh[i]);
            at = to;
        }
        const { text: { encoding } } = changes[changes.length - 1];
        const filler = fillerOf(encoding, this.fill);
        const codes = filler !== null && isSpaceIn(encoding, filler) ? closingCodesIn(encoding, fresh[fresh.length - 1]) : 0;
        const size = parts.reduce((sum, { length }) => sum + length, 0);
        const padding = filler === null ? null : { at: size - codes, filler };
        return { ...piece, bytes: joinedBytes([...parts, bytes.subarray(at, end)]), padding };
    }

    /** The new bytes of a row with a size, or null if they cannot have it. */
    padded({ fresh, encoding }: PointedRow, size: number) {
        const filler = fillerOf(encoding, this.fill);
        const missing = size - fresh.length;
        const isPossible = missing === 0 || (missing > 0 && filler !== null && missing % filler.length === 0);
        return isPossible ? filledUp(fresh, size, filler, encoding) : null;
    }

    /** The rows with new texts in a range. */
    rowsIn(first: number, after: number) {
        const places = this.firsts.slice(firstAfter(this.firsts, first - 1), firstAfter(this.firsts, after - 1));
        return places.flatMap(at => this.rows.get(at) || []);
    }

    /** Whether a place is in a row with a new text, after its first byte. */
    isInRow(at: number) {
        const row = this.rows.get(this.firsts[firstAfter(this.firsts, at - 1) - 1]);
        return row !== undefined && row.at + row.known > at;
    }

    /** The row that begins at a place, or after codes there; -1 if there is none. */
    rowFrom(at: number, next: number) {
        const row = this.firsts[firstAfter(this.firsts, at - 1)];
        if (row === undefined || row >= next || row - at > MOST_CODES) return -1;
        return this.file.bytes.subarray(at, row).some(byte => byte === 0 || byte === this.mark[0]) ? -1 : row;
    }

    /** The place after the bytes that end a text, -1 if it has none. */
    markFrom(first: number, next: number) {
        const { mark, file: { bytes } } = this;
        for (let at = first; at + mark.length <= next; at += mark.length) {
            if (mark.every((byte, k) => bytes[at + k] === byte)) return at + mark.length;
        }
        return -1;
    }

    /**
     * Whether nothing can begin at the end of a block to which a pointer leads, so that this pointer may follow the end. If a short text
     * that is not listed may be there, the pointer stays.
     * @param next where the next block begins
     */
    isFirmEnd(end: number, next: number) {
        const { bytes, size } = this.file;
        if (end >= Math.min(next, size) || this.file.hasPointer(end, end + 1) || this.filledTo(end, next) > end) return true;
        const after = this.markFrom(end, Math.min(end + MOST_UNLISTED, size));
        if (after < 0 || after === end + this.mark.length) return true;
        for (let at = end; at < after - this.mark.length;) {
            const { size: step, text } = this.encoding.characterAt(bytes, at);
            if (!isCodeByte(bytes[at]) && NOT_SHOWN.test(text)) return true;
            at += step;
        }
        return false;
    }

    /** The end of what fills up a text. */
    filledFrom(from: number, next: number) {
        const { bytes } = this.file;
        let at = from;
        while (at < next && (bytes[at] === 0 || bytes[at] === this.mark[0])) at += 1;
        return at;
    }

    /**
     * The end of the free room after the last text of a block: that of a range that a person names as free, or of its filling, if it
     * certainly is one, or the end of the text.
     * @param next where the next block begins
     */
    filledTo(from: number, next: number) {
        const { bytes, size, ownPlaces } = this.file;
        const known = Math.min(next, size, ownPlaces[firstAfter(ownPlaces, from - 1)] ?? Infinity);
        const free = this.file.free.find(it => it.first <= this.filledFrom(from, known) && it.after > from);
        if (free !== undefined) return Math.min(free.after, known);
        const value = bytes[from];
        let at = from;
        while (at < known && bytes[at] === value) at += 1;
        if (at === from || (value !== 0 && value !== FULL)) return from;
        const isLong = at - from >= LEAST_FILLING;
        if (value === FULL) return at === known || (isLong && at % FILLED_UNIT === 0) ? at : from;
        return at === size && at - from < FILLED_UNIT || at === known && at < size && at - from < MOST_CODES ? at : from;
    }
}
