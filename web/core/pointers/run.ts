// A run of pointers: from one that is known, as far as the numbers at equal distances before and after it lead to texts.

import { firstAfter } from '../bytes.js';
import { isTurnDue, letOthersIn, type Signal } from '../turns.js';
import { MOST_CODES, storedAt, targetOf, type PointerForm, type Span } from './tables.js';

// The listed texts of a file, as the places to which pointers may lead.

/** The place of the first code directly before a text. A 00 is not one, because it ends a text. `first` is the place of the text. */
function firstCode(bytes: Uint8Array, first: number, low: number) {
    let at = first;
    while (at > Math.max(low, first - MOST_CODES) && bytes[at - 1] !== 0) at -= 1;
    return at;
}

/** The texts of a file, in order. */
export class TextStarts {
    size; firsts; afters; codes; near;

    /**
     * @param bytes of the file, which are not kept, or of a range of it
     * @param offset where this range begins in the file: all places count from there
     */
    constructor(readonly path: string, bytes: Uint8Array, texts: Span[], readonly offset: number = 0) {
        const inOrder = [...texts].sort((a, b) => a.first - b.first);
        const size = bytes.length;
        this.size = size;
        this.firsts = inOrder.map(({ first }) => first);
        this.afters = inOrder.map(({ after }) => after);
        /** The places of the first codes before the texts. */
        this.codes = inOrder.map(({ first }, i) => firstCode(bytes, first, i > 0 ? this.afters[i - 1] + 1 : 0));
        /** A bit for each place that a text may begin, so that most numbers are told from pointers at once. */
        this.near = new Uint8Array((size >> 3) + 1);
        for (const [i, first] of this.firsts.entries()) {
            for (let at = this.codes[i]; at <= Math.min(first, size); at++) this.near[at >> 3] |= 1 << (at & 7);
        }
    }

    /** Whether a place is the first byte of a text, or one of the codes before it. */
    isNear(place: number) {
        return place >= 0 && place <= this.size && (this.near[place >> 3] >> (place & 7) & 1) === 1;
    }

    /** How many texts there are. */
    get count() {
        return this.firsts.length;
    }

    /** The index of the text that a place may begin: that of its first byte, or of the codes directly before it; -1 if there is none. */
    begunBy(place: number) {
        if (!this.isNear(place)) return -1;
        return firstAfter(this.firsts, place - 1);
    }

    isFirst(place: number) {
        return this.firsts[firstAfter(this.firsts, place - 1)] === place;
    }

    /** The first byte of the text in which a place lies, or -1. */
    firstAround(place: number) {
        const i = firstAfter(this.firsts, place) - 1;
        return i >= 0 && place < this.afters[i] ? this.firsts[i] : -1;
    }
}

// An index of the distances between neighbouring texts. Three in a row hardly occur by chance, so numbers with the same differences are
// pointers, whatever place they count from.

/** Four texts in a row, from the index `text` on. */
type Neighbours = { texts: TextStarts, text: number, unit: number };

const UNITS = [1, 2, 4];

/** The most entries that have the same place in the index: texts at equal distances identify nothing. */
const MOST_ALIKE = 8;

/** The fewest and the most bits of a place in the filter, and how many places it has for each entry. */
const LEAST_BITS = 10;
const MOST_BITS = 24;
const SPARSE = 16;

/** Distances from this one on have one place in the table of known ones. */
export const FAR = (1 << 16) - 1;

/** A number of 32 bits for three differences. */
export function mixed(a: number, b: number, c: number) {
    const hash = Math.imul(a, 0x9E3779B1) ^ Math.imul(b, 0x85EBCA6B) ^ Math.imul(c, 0xC2B2AE35);
    return Math.imul(hash ^ hash >>> 15, 0x2C1B3C6D) >>> 0;
}

/** The distances of the texts of some files. */
export class Differences {
    /** Whether any entry begins with a distance. */
    known = new Uint8Array(FAR + 1);
    files: TextStarts[] = [];
    /** How many entries there are. */
    size = 0;
    shift; filter; hashes; heads; entries;

    /** @param count how many texts the files have */
    constructor(count: number) {
        const bits = Math.ceil(Math.log2(UNITS.length * Math.max(count, 1) * SPARSE));
        this.shift = 32 - Math.min(Math.max(bits, LEAST_BITS), MOST_BITS);
        /** Whether any entry has a hash that begins with these bits. */
        this.filter = new Uint8Array(2 ** (32 - this.shift));
        /**
         * The hashes of the entries, each at the first free place from that of its own bits on; and the first entry with it, counted from
         * 1, so that 0 is a free place.
         */
        const places = 2 ** Math.ceil(Math.log2(2 * UNITS.length * Math.max(count, 1)));
        this.hashes = new Uint32Array(places);
        this.heads = new Uint32Array(places);
        /** Of each entry: the indexes of its file, its first text, and its unit; and the next entry with its hash, 0 if it is the last. */
        const each = () => new Uint32Array(UNITS.length * count + 1);
        this.entries = { file: each(), text: each(), unit: each(), next: each() };
    }

    /** The place of a hash, or the free one where it would be. */
    placeOf(hash: number) {
        const mask = this.hashes.length - 1;
        let at = hash & mask;
        while (this.heads[at] > 0 && this.hashes[at] !== hash) at = at + 1 & mask;
        return at;
    }

    /** Whether any entry has a hash. */
    hasHash(hash: number) {
        return this.heads[this.placeOf(hash)] > 0;
    }

    /** Adds the texts of a file. Other tasks get turns in between. */
    async add(texts: TextStarts, signal?: Signal) {
        this.files.push(texts);
        for (const [unit] of UNITS.entries()) await this.addByUnit(texts, unit, signal);
    }

    /** @param unit its index */
    async addByUnit({ firsts }: TextStarts, unit: number, signal?: Signal) {
        if (firsts.some(it => (it - firsts[0]) % UNITS[unit] !== 0)) return;
        for (let i = 0; i + 3 < firsts.length; i++) {
            if (isTurnDue()) await letOthersIn(signal);
            const [a, b, c] = differencesFrom(firsts, i, UNITS[unit]);
            if (a === b && b === c) continue;
            const hash = mixed(a, b, c);
            if (!this.addEntry(hash, i, unit)) continue;
            this.known[Math.min(a, FAR)] = 1;
            this.filter[hash >>> this.shift] = 1;
        }
    }

    /** Adds an entry behind those with the same hash, unless there are enough of them. Returns whether it was added. */
    addEntry(hash: number, text: number, unit: number) {
        const { hashes, heads, entries } = this;
        const place = this.placeOf(hash);
        let [last, alike] = [0, 0];
        for (let at = heads[place]; at > 0; at = entries.next[at]) [last, alike] = [at, alike + 1];
        if (alike >= MOST_ALIKE) return false;
        this.size += 1;
        entries.file[this.size] = this.files.length - 1;
        entries.text[this.size] = text;
        entries.unit[this.size] = unit;
        if (last > 0) entries.next[last] = this.size;
        else heads[place] = this.size;
        hashes[place] = hash;
        return true;
    }

    /** The texts that have three differences. */
    having([a, b, c]: number[]) {
        const { entries, files } = this;
        const found: Neighbours[] = [];
        for (let at = this.heads[this.placeOf(mixed(a, b, c))]; at > 0; at = entries.next[at]) {
            const [{ firsts }, text, unit] = [files[entries.file[at]], entries.text[at], UNITS[entries.unit[at]]];
            const isAlike = firsts[text + 1] - firsts[text] === a * unit && firsts[text + 2] - firsts[text + 1] === b * unit
                && firsts[text + 3] - firsts[text + 2] === c * unit;
            if (isAlike) found.push({ texts: files[entries.file[at]], text, unit });
        }
        return found;
    }
}

function differencesFrom(firsts: number[], i: number, unit: number) {
    return [0, 1, 2].map(k => (firsts[i + k + 1] - firsts[i + k]) / unit);
}

/**
 * The bytes of a file that may have pointers, or of a range that begins at the place `first` of the file; and its own texts, if it has any:
 * no pointer begins in one. `note` receives which share of the search is done.
 */
export type Searched = { path: string, first?: number, bytes: Uint8Array, own: TextStarts | null, note?: (share: number) => void };
/** A pointer, and the index of the text that it leads to. */
export type Hit = { at: number, target: number, text: number, isFirst: boolean };
/**
 * A table that may be one: its form, the distance of its pointers (0 for single ones), and the pointers that lead to texts. `steps` is how
 * many places were looked at.
 */
export type Run = { form: PointerForm, distance: number, texts: TextStarts, hits: Hit[], steps: number };

/** After this many numbers in a row that lead to no text, a table has ended. */
const MOST_MISSES = 2;

/** How many texts apart two neighbouring pointers of a table in order may lead. */
const NEAR_TEXTS = 2;

/** A table has no order if more than this share of its pointers lead back. */
const SHARE_MIXED = 0.2;

/** The pointer at a place, or null if its number leads to no text, or if it begins in a text. */
export function pointerHitAt(file: Searched, form: PointerForm, texts: TextStarts, at: number): Hit | null {
    if (at < 0 || at + form.width > file.bytes.length) return null;
    const target = targetOf(form, at, storedAt(file.bytes, at, form));
    const text = texts.begunBy(target);
    return text < 0 ? null : { at, target, text, isFirst: texts.firsts[text] === target };
}

/**
 * The pointers of a table in one direction from a place, without that one.
 * @param step the distance to the next pointer, negative towards the beginning
 */
function hitsFrom(file: Searched, form: PointerForm, texts: TextStarts, from: number, step: number) {
    const hits: Hit[] = [];
    const { own } = file;
    // A table ends before the first of its texts. Until then it may go on in a row that begins within the table, because the bytes of
    // a pointer look like letters.
    const isBefore = own === texts && step > 0;
    let lowest = isBefore ? lowestAfter(file, form, from) : Infinity;
    let entered = -1;
    let steps = 0;
    for (let at = from + step, misses = 0; misses < MOST_MISSES; at += step, steps++) {
        if (at < 0 || at + form.width > file.bytes.length || at + form.width > lowest) break;
        const around = own === null ? -1 : own.firstAround(at);
        if (around >= 0 && step < 0) break;
        if (around >= 0 && around !== entered && (around <= at - step || misses > 0)) break;
        const hit = pointerHitAt(file, form, texts, at);
        if (around >= 0 && (hit === null || !hit.isFirst)) break;
        entered = around >= 0 ? around : entered;
        misses = hit === null ? misses + 1 : 0;
        if (hit === null) continue;
        hits.push(hit);
        if (isBefore && hit.target > from) lowest = Math.min(lowest, hit.target);
    }
    return { hits, steps };
}

/** Where the text of a pointer begins if it is after the pointer, else Infinity. */
function lowestAfter({ bytes }: Searched, form: PointerForm, at: number) {
    const target = targetOf(form, at, storedAt(bytes, at, form));
    return target > at ? target : Infinity;
}

/** Whether the pointers of a table are not in the order of their texts. */
function areMixed(hits: Hit[]) {
    const back = hits.filter(({ text }, i) => i > 0 && text < hits[i - 1].text).length;
    return back > SHARE_MIXED * hits.length;
}

/**
 * Whether the pointer at an end of a table is likely to be one. It leads to one of the texts beside that of its neighbour. Otherwise it
 * leads to the first byte of a text, and either is wide, or the table has no order.
 * @param isSure whether the first byte is enough
 */
function isLikelyLast(last: Hit, neighbour: Hit | undefined, isSure: boolean) {
    if (neighbour !== undefined && Math.abs(last.text - neighbour.text) <= NEAR_TEXTS) return true;
    return last.isFirst && (isSure || neighbour === undefined);
}

/** The pointers without those at the beginning whose number is 0 if others lead to the same text: most zeros are not pointers. */
function withoutZeros({ bytes }: Searched, form: PointerForm, hits: Hit[]) {
    let first = 0;
    const isRepeated = (i: number) => hits.some(({ text }, k) => k > i && text === hits[i].text);
    while (first < hits.length && storedAt(bytes, hits[first].at, form) === 0 && isRepeated(first)) first += 1;
    return hits.slice(first);
}

/**
 * The pointers of a table without an order, without the first and the last one if they have few bits: a number beside the table may lead to
 * a text by chance. The first one is sure if the pointers count from it.
 */
function withoutEnds(hits: Hit[], { width, base, own }: PointerForm) {
    if (width > 2 || !areMixed(hits)) return hits;
    const first = own ? -1 : hits.findIndex(({ at }) => at === base);
    return hits.slice(first < 0 ? 1 : first, -1);
}

/** The pointers without the unlikely ones at both ends. */
function trimmed(hits: Hit[], width: number) {
    const isSure = width > 2 || areMixed(hits);
    let [first, after] = [0, hits.length];
    while (after > first && !isLikelyLast(hits[after - 1], after - 1 > first ? hits[after - 2] : undefined, isSure)) after -= 1;
    while (first < after && !isLikelyLast(hits[first], first + 1 < after ? hits[first + 1] : undefined, isSure)) first += 1;
    return hits.slice(first, after);
}

/** The pointers without those that lead into their own table. */
function leadingOut(hits: Hit[], width: number) {
    if (hits.length === 0) return hits;
    const [first, after] = [hits[0].at, hits[hits.length - 1].at + width];
    return hits.filter(({ target }) => target < first || target >= after);
}

/** The run of pointers around one. `at` is a place where a pointer is. */
export function runAround(file: Searched, form: PointerForm, texts: TextStarts, at: number, distance: number): Run {
    const [before, after] = [-distance, distance].map(step => hitsFrom(file, form, texts, at, step));
    const known = pointerHitAt(file, form, texts, at);
    const all = [...before.hits.reverse(), ...known === null ? [] : [known], ...after.hits];
    const out = file.own === texts ? leadingOut(all, form.width) : all;
    const afterZeros = withoutZeros(file, form, out);
    const hits = withoutEnds(trimmed(withoutZeros(file, form, afterZeros.reverse()).reverse(), form.width), form);
    return { form, distance, texts, hits, steps: before.steps + after.steps + 1 };
}
