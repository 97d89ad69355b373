// Lays out texts in the ranges that they have now, and in the free end of their file.

import { hexText } from '../bytes.js';
import { isTurnDue, letOthersIn, type Signal } from '../turns.js';
import type { Span } from './tables.js';

// Free ranges of a file, by their sizes.

/** Ranges of this many bytes or more are in one list. */
const LARGE = 1 << 12;

/** How many ranges of one size are tried for a text, which may have to be aligned; and how many of the large ones. */
const MOST_TRIED = 8;
const MOST_LARGE_TRIED = 256;

/** The free ranges of a file. */
class FreeRanges {
    /** The ranges of each size; the last list has the large ones. */
    lists = Array.from({ length: LARGE + 1 }, () => ([] as Span[]));

    constructor(spans: Span[]) {
        spans.forEach(span => this.add(span));
    }

    add({ first, after }: Span) {
        if (after > first) this.lists[Math.min(after - first, LARGE)].push({ first, after });
    }

    /**
     * Uses a part of the smallest range in which a text has a place. Returns that place, or -1.
     * @param size of the text
     * @param placeIn returns its place in a range, or -1
     */
    use(size: number, placeIn: (span: Span) => number) {
        for (let length = Math.min(size, LARGE); length <= LARGE; length++) {
            const list = this.lists[length];
            const least = Math.max(list.length - (length === LARGE ? MOST_LARGE_TRIED : MOST_TRIED), 0);
            for (let i = list.length - 1; i >= least; i--) {
                const place = placeIn(list[i]);
                if (place < 0) continue;
                const [{ first, after }] = list.splice(i, 1);
                this.add({ first, after: place });
                this.add({ first: place + size, after });
                return place;
            }
        }
        return -1;
    }

    /** The ranges that are left. */
    left() {
        return this.lists.flat();
    }
}

/**
 * A text that may move: its range, its new bytes, the number of bytes by a multiple of which it may move, and the first and the last place
 * that its pointers can express.
 */
export type Movable = Span & { bytes: Uint8Array, align: number, least: number, most: number };
/**
 * The new places of texts; the free ranges that are left; the end of the last text in the free end of the file, 0 if there is none; and how
 * many bytes are missing: then the other values are of no use.
 */
export type Layout<T extends Movable> = { places: Map<T, number>, left: Span[], end: number, missing: number };

/** The ranges, in order. Ranges that meet become one. */
export function joinedSpans(spans: Span[]) {
    const joined: Span[] = [];
    for (const { first, after } of [...spans].sort((a, b) => a.first - b.first)) {
        const last = joined[joined.length - 1];
        if (last !== undefined && first <= last.after) last.after = Math.max(last.after, after);
        else joined.push({ first, after });
    }
    return joined;
}

/** The first place in a range for a text, or -1. */
function placeIn({ first, after }: Span, { first: old, bytes, align, least, most }: Movable) {
    const from = Math.max(first, least);
    const place = from + ((old - from) % align + align) % align;
    return place <= most && place + bytes.length <= after ? place : -1;
}

/** A key that texts with the same bytes share. */
function layoutKeyOf({ bytes, align, first }: Movable) {
    return `${first % align} ${align} ${hexText(bytes)}`;
}

function sizeOf(spans: Span[]) {
    return spans.reduce((sum, { first, after }) => sum + after - first, 0);
}

/** The free end of the file, which may be empty, and other free ranges in it. */
type FreeRoom = { end: Span, ranges: Span[] };

/** Lays out texts: some stay at their places, and the others are placed in the free ranges, the longest first. */
async function laidOut<T extends Movable>(staying: T[], moving: T[], { end, ranges: free }: FreeRoom, signal?: Signal): Promise<Layout<T>> {
    const places = new Map(staying.map(it => [it, it.first]));
    const shared = new Map(staying.map(it => [layoutKeyOf(it), it.first]));
    const beside = staying.map(({ first, bytes, after }) => ({ first: first + bytes.length, after }));
    const spans = joinedSpans([...moving, ...beside, ...free]);
    const ranges = new FreeRanges(spans);
    let [used, needed, unplaced] = [end.first, 0, 0];
    for (const text of [...moving].sort((a, b) => b.bytes.length - a.bytes.length)) {
        if (isTurnDue()) await letOthersIn(signal);
        const { bytes, least, most } = text;
        const key = layoutKeyOf(text);
        const known = shared.get(key);
        if (known !== undefined && known >= least && known <= most) {
            places.set(text, known);
            continue;
        }
        needed += bytes.length;
        let place = ranges.use(bytes.length, span => placeIn(span, text));
        if (place < 0) {
            place = placeIn({ first: used, after: end.after }, text);
            used = place < 0 ? used : place + bytes.length;
        }
        if (place < 0) unplaced += bytes.length;
        places.set(text, place);
        if (place >= 0) shared.set(key, place);
    }
    const lacking = needed - sizeOf(spans) - (end.after - end.first);
    const missing = unplaced > 0 && lacking > 0 ? lacking : unplaced;
    return { places, left: ranges.left(), end: used > end.first ? used : 0, missing };
}

/**
 * Lays out the texts of a file in their ranges, and then in the free end of the file. Equal texts have one place. As many as possible stay
 * where they are; only if the others do not fit then, all are laid out anew.
 * @param texts in the order of their places, which do not overlap
 */
export async function layOut<T extends Movable>(texts: T[], free: FreeRoom, signal?: Signal) {
    const fits = ({ first, after, bytes }: T) => bytes.length <= after - first;
    const some = await laidOut(texts.filter(fits), texts.filter(it => !fits(it)), free, signal);
    if (some.missing === 0) return some;
    const all = await laidOut([], texts, free, signal);
    return all.missing === 0 || all.missing < some.missing ? all : some;
}
