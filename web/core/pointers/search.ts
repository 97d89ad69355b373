// Searches a file for runs of numbers that have the differences of texts, and for mixed tables and single pointers.

import { isTurnDue, letOthersIn, type Signal } from '../turns.js';
import { FAR, mixed, pointerHitAt, runAround, type Differences, type Run, type Searched, type TextStarts } from './run.js';
import { greatestOf, storedAt, type PointerForm, type Span } from './tables.js';

// Finds single pointers of 32 bits, for example in code, by votes: the place from which they count is the one for which most numbers of the
// file lead to texts.

/** The largest file that is searched for single pointers: code is not larger. */
const MOST_VOTING_BYTES = 1 << 22;

/** How many texts vote, how many of their votes a place needs, and how many places are tried. */
const VOTERS = 16;
const LEAST_VOTES = 6;
const SHARE = 0.5;
const MOST_VOTES_TRIED = 3;

/** The share of all texts that have to have a single pointer. */
const SHARE_OF_TEXTS = 0.4;

/** Repeated numbers are found by these many bits of a hash. Votes are first counted by as many, or by more if there are more votes. */
const COUNTER_BITS = 22;
const MOST_COUNTER_BITS = 26;
const VOTED_AT_ONCE = 1 << 12;
const MOST_COUNTED = 255;

/** @param number of 32 bits */
function counterOf(number: number, bits: number) {
    return Math.imul(number, 0x9E3779B1) >>> 32 - bits;
}

/** The numbers of a file without repeated ones, and without a few more: numbers with the same hash count once. */
async function distinctOf(numbers: Uint32Array, signal?: Signal) {
    const known = new Uint8Array(2 ** COUNTER_BITS);
    const distinct = new Uint32Array(numbers.length);
    let count = 0;
    for (let i = 0; i < numbers.length; i++) {
        if (i % VOTED_AT_ONCE === 0 && isTurnDue()) await letOthersIn(signal);
        const counter = counterOf(numbers[i], COUNTER_BITS);
        if (known[counter] === 1) continue;
        known[counter] = 1;
        distinct[count++] = numbers[i];
    }
    return distinct.subarray(0, count);
}

/** Texts at equal distances in their list. */
function votersOf({ firsts }: TextStarts) {
    const count = Math.min(VOTERS, firsts.length);
    return Int32Array.from({ length: count }, (_, i) => firsts[Math.floor(i * (firsts.length - 1) / Math.max(count - 1, 1))]);
}

/** Calls a function with parts of a list. Other tasks get turns in between. */
async function eachPart(numbers: Uint32Array, take: (part: Uint32Array) => void, signal?: Signal) {
    for (let at = 0; at < numbers.length; at += VOTED_AT_ONCE) {
        if (isTurnDue()) await letOthersIn(signal);
        take(numbers.subarray(at, at + VOTED_AT_ONCE));
    }
}

/** Counts the votes of texts for the places from which numbers may count, by the hashes of these places. */
function countVotes(counters: Uint8Array, bits: number, voters: Int32Array, numbers: Uint32Array) {
    for (let i = 0; i < numbers.length; i++) {
        for (let k = 0; k < voters.length; k++) {
            const counter = counterOf(voters[k] - numbers[i], bits);
            if (counters[counter] < MOST_COUNTED) counters[counter] += 1;
        }
    }
}

/** Counts the votes exactly for the places whose hashes have enough. */
function collectVotes(votes: Map<number, number>, { counters, bits, least }: { counters: Uint8Array, bits: number, least: number },
    voters: Int32Array, numbers: Uint32Array) {
    for (let i = 0; i < numbers.length; i++) {
        for (let k = 0; k < voters.length; k++) {
            const base = voters[k] - numbers[i] | 0;
            if (counters[counterOf(base, bits)] >= least) votes.set(base, (votes.get(base) || 0) + 1);
        }
    }
}

/** The places from which most numbers count, each as a number of 32 bits. `numbers` are each once. */
async function basesOf(numbers: Uint32Array, voters: Int32Array, signal?: Signal) {
    const least = Math.max(LEAST_VOTES, SHARE * voters.length);
    const bits = Math.min(Math.max(Math.ceil(Math.log2(numbers.length * voters.length + 1)), COUNTER_BITS), MOST_COUNTER_BITS);
    const counters = new Uint8Array(2 ** bits);
    const votes: Map<number, number> = new Map();
    await eachPart(numbers, part => countVotes(counters, bits, voters, part), signal);
    await eachPart(numbers, part => collectVotes(votes, { counters, bits, least }, voters, part), signal);
    const found = [...votes].filter(([, count]) => count >= least);
    return found.sort((a, b) => b[1] - a[1]).slice(0, MOST_VOTES_TRIED).map(([base]) => base);
}

/**
 * The single pointers of a file to its own texts, for each place from which many of its numbers count.
 * @param numbers at each place of the file
 */
async function runsByVotes(file: Searched, numbers: Uint32Array, big: boolean, texts: TextStarts, signal?: Signal) {
    const runs: Run[] = [];
    if (file.bytes.length > MOST_VOTING_BYTES || texts.count < LEAST_VOTES) return runs;
    const distinct = await distinctOf(numbers, signal);
    for (const voted of await basesOf(distinct, votersOf(texts), signal)) {
        // The address at which the file is loaded may have the highest bit.
        for (const base of voted > 0 ? [voted, voted - 2 ** 32] : [voted]) {
            const hits = await hitsOf(file, numbers, base, texts, signal);
            const met = new Set(hits.map(({ text }) => text)).size;
            const form = { width: 4, big, base, own: false, unit: 1 };
            if (met >= SHARE_OF_TEXTS * texts.count) runs.push({ form, distance: 0, texts, hits, steps: 0 });
        }
    }
    return runs;
}

/** The numbers of a file that lead to texts, without those in texts. */
async function hitsOf({ own }: Searched, numbers: Uint32Array, base: number, texts: TextStarts, signal?: Signal) {
    const hits = [];
    for (let at = 0; at < numbers.length; at++) {
        if (at % VOTED_AT_ONCE === 0 && isTurnDue()) await letOthersIn(signal);
        const target = numbers[at] + base;
        const text = target < 0 || target > texts.size ? -1 : texts.begunBy(target);
        if (text < 0 || (own !== null && own.firstAround(at) >= 0)) continue;
        hits.push({ at, target, text, isFirst: texts.firsts[text] === target });
    }
    return hits;
}

/** For each width, in the order of preference, the distances in bytes from one pointer of a table to the next. */
const DISTANCES = [
    [4, [4, 8, 12, 16, 6, 20, 24, 5, 10]], [2, [2, 4, 6, 8, 12, 16, 3, 10]], [3, [3, 4, 6]],
] as [number, number[]][];

/** How often a file is searched: for each distance, in both orders of bytes. */
const PASSES = 2 * DISTANCES.reduce((sum, [, distances]) => sum + distances.length, 0);

/** How many numbers are looked at before other tasks get a turn. */
const SEARCHED_AT_ONCE = 1 << 15;

/** How many places runs may look at for each byte of a file: many runs over the same bytes are no tables. */
const STEPS_A_BYTE = 4;
const LEAST_RUN_STEPS = 1 << 16;

/** A run of fewer pointers is not a table. */
const LEAST_HITS = 4;

/** The highest bit of 16 may be a flag: then at least this share of a table's numbers have it. */
const WITHOUT_FLAG = 0x7FFF;
const SHARE_FLAGGED = 0.1;

/** A mixed table: this many pointers in a row, of which some lead to the first byte of a text. */
const MIXED_POINTERS = 8;
const MIXED_FIRSTS = 5;

/** The ranges of a file outside its own texts: no pointer begins in a text. */
function openSpans({ bytes, own }: Searched) {
    const spans: Span[] = [];
    let first = 0;
    for (let i = 0; own !== null && i < own.count; i++) {
        if (own.firsts[i] > first) spans.push({ first, after: own.firsts[i] });
        first = Math.max(first, own.afters[i]);
    }
    if (first < bytes.length) spans.push({ first, after: bytes.length });
    return spans;
}

/** Units are less than this. */
const UNIT_KEYS = 8;

/** The search of one file. */
class Search {
    runs: Run[] = [];
    /** Where the last runs of a kind end, by their bases. */
    ends = new Map<TextStarts, Map<number, number>>();
    kind = -1;
    steps; open;

    /** @param differences of the texts of all files */
    constructor(readonly file: Searched, readonly differences: Differences, readonly signal?: Signal) {
        this.steps = STEPS_A_BYTE * file.bytes.length + LEAST_RUN_STEPS;
        this.open = openSpans(file);
    }

    /** All numbers of a width in an order of bytes. */
    async numbers(width: number, big: boolean) {
        const { bytes } = this.file;
        const numbers = new Uint32Array(Math.max(bytes.length - width + 1, 0));
        const shifts = Array.from({ length: width }, (_, i) => 8 * (big ? width - 1 - i : i));
        for (let from = 0; from < numbers.length; from += SEARCHED_AT_ONCE) {
            if (isTurnDue()) await letOthersIn(this.signal);
            const end = Math.min(from + SEARCHED_AT_ONCE, numbers.length);
            for (const [i, shift] of shifts.entries()) for (let at = from; at < end; at++) numbers[at] |= bytes[at + i] << shift;
        }
        return numbers;
    }

    /** Finds the runs of numbers that have the differences of texts. `own` says whether the pointers count from their own places. */
    async byDifferences(numbers: Uint32Array, form: { width: number, big: boolean }, distance: number, own: boolean) {
        const last = numbers.length - 3 * distance;
        for (const { from, end } of this.parts(last)) {
            if (isTurnDue()) await letOthersIn(this.signal);
            for (let at = this.nextAlike(numbers, distance, own, from, end); at < end;) {
                this.addRuns(numbers, form, distance, own, at);
                at = this.nextAlike(numbers, distance, own, at + 1, end);
            }
        }
    }

    /** Yields the ranges before a place in which pointers may begin, in parts after which other tasks get a turn. */
    *parts(last: number) {
        for (const { first, after } of this.open) {
            for (let from = first; from < Math.min(after, last); from += SEARCHED_AT_ONCE) {
                yield { from, end: Math.min(from + SEARCHED_AT_ONCE, after, last) };
            }
        }
    }

    /** The next number from which on three differences may be those of texts, or `end`. */
    nextAlike(numbers: Uint32Array, distance: number, own: boolean, from: number, end: number) {
        const { known, filter, shift } = this.differences;
        const more = own ? distance : 0;
        for (let at = from; at < end; at++) {
            const second = numbers[at + distance];
            const a = second - numbers[at] + more | 0;
            // Most numbers of a file have no difference of texts, which this small table tells at once.
            if (a < 0 || known[a < FAR ? a : FAR] === 0) continue;
            const third = numbers[at + 2 * distance];
            const b = third - second + more | 0;
            const c = numbers[at + 3 * distance] - third + more | 0;
            const hash = mixed(a, b, c);
            if (filter[hash >>> shift] === 1 && this.differences.hasHash(hash)) return at;
        }
        return end;
    }

    /** Adds the runs around a number that has the differences of texts. */
    addRuns(numbers: Uint32Array, form: { width: number, big: boolean }, distance: number, own: boolean, at: number) {
        const { file } = this;
        if (this.steps < 0 || file.own !== null && file.own.firstAround(at) >= 0) return;
        const three = [0, 1, 2].map(i => numbers[at + (i + 1) * distance] - numbers[at + i * distance] + (own ? distance : 0));
        for (const { texts, text, unit } of this.differences.having(three)) {
            if (own && (unit > 1 || texts !== file.own)) continue;
            const base = texts.firsts[text] - unit * numbers[at] - (own ? at : 0);
            const isPointer = (place: number) => place >= 0 && place < numbers.length
                && texts.isNear(unit * numbers[place] + base + (own ? place : 0));
            // A table has five pointers or more, of which at most one between two others leads to no text.
            if (![-2, -1, 4, 5].some(i => isPointer(at + i * distance))) continue;
            this.addRun({ ...form, base, own, unit }, texts, at, distance);
        }
    }

    /** Adds the run around a place, unless it is in one already. */
    addRun(form: PointerForm, texts: TextStarts, at: number, distance: number) {
        const ends = this.endsOf(form, texts, distance);
        const key = (form.base * UNIT_KEYS + form.unit) * distance + at % distance;
        this.steps -= 1;
        if ((ends.get(key) ?? -1) >= at || this.steps < 0) return;
        const run = runAround(this.file, form, texts, at, distance);
        this.steps -= run.steps;
        ends.set(key, run.hits.reduce((end, hit) => Math.max(end, hit.at), at));
        if (run.hits.length >= LEAST_HITS && (form.mask === undefined || this.hasFlags(run))) this.runs.push(run);
    }

    /** Whether enough numbers of a run have bits beyond the mask. */
    hasFlags({ form, hits }: Run) {
        const flagged = hits.filter(({ at }) => storedAt(this.file.bytes, at, form) > greatestOf(form));
        return flagged.length >= SHARE_FLAGGED * hits.length;
    }

    /** Where the last runs of a kind end. Only those of the last kind are kept, because a file is searched for one after the other. */
    endsOf({ width, big, own, mask }: PointerForm, texts: TextStarts, distance: number) {
        const kind = 8 * (4 * distance + width) + 4 * Number(mask !== undefined) + 2 * Number(big) + Number(own);
        if (kind !== this.kind) this.ends.clear();
        this.kind = kind;
        let ends = this.ends.get(texts);
        if (ends === undefined) this.ends.set(texts, ends = new Map());
        return ends;
    }

    /**
     * Finds tables of 16-bit pointers in any order, which count from the beginning of the file or of the table. Their highest bit may be a
     * flag.
     */
    async byRows(numbers: Uint32Array, form: { width: number, big: boolean }, texts: TextStarts) {
        for (const more of [{}, { mask: WITHOUT_FLAG }]) {
            for (const fromTable of [false, true]) await this.byRow(numbers, { ...form, ...more, own: false, unit: 1 }, texts, fromTable);
        }
    }

    /** @param fromTable whether the pointers count from the table */
    async byRow(numbers: Uint32Array, form: Omit<PointerForm, 'base'>, texts: TextStarts, fromTable: boolean) {
        const mask = greatestOf(form);
        for (const { from, end } of this.parts(numbers.length)) {
            if (isTurnDue()) await letOthersIn(this.signal);
            for (let at = from; at < end; at++) {
                const base = fromTable ? at : -texts.offset;
                if (!texts.isNear((numbers[at] & mask) + base)) continue;
                const wanted = { ...form, base };
                if (this.areMixed(wanted, texts, at)) this.addRun(wanted, texts, at, form.width);
            }
        }
    }

    /** Finds tables of offsets of 32 bits in a file without texts. They may lead to only some of the texts of a file, in any order. */
    async byOffsets(numbers: Uint32Array, form: { width: number, big: boolean }) {
        const { files } = this.differences;
        const most = Math.max(0, ...files.map(({ offset, size }) => offset + size));
        for (const { from, end } of this.parts(numbers.length)) {
            if (isTurnDue()) await letOthersIn(this.signal);
            for (let at = from; at < end; at++) {
                if (numbers[at] > most || numbers[at] === 0) continue;
                for (const texts of files) {
                    const wanted = { ...form, base: -texts.offset, own: false, unit: 1 };
                    const isNear = texts.isNear(numbers[at] - texts.offset);
                    if (isNear && this.areMixed(wanted, texts, at)) this.addRun(wanted, texts, at, form.width);
                }
            }
        }
    }

    /** Whether the numbers from a place on are a mixed table. */
    areMixed(form: PointerForm, texts: TextStarts, from: number) {
        if (texts === this.file.own && texts.firstAround(from) >= 0) return false;
        let firsts = 0;
        for (let i = 0; i < MIXED_POINTERS; i++) {
            const hit = pointerHitAt(this.file, form, texts, from + i * form.width);
            if (hit === null) return false;
            firsts += Number(hit.isFirst);
        }
        return firsts >= MIXED_FIRSTS;
    }

    /** Finds all runs. */
    async all() {
        const { own, note } = this.file;
        let done = 0;
        for (const [width, distances] of DISTANCES) {
            for (const big of [false, true]) {
                const numbers = await this.numbers(width, big);
                for (const distance of distances) {
                    note?.(done / PASSES);
                    done += 1;
                    await this.byDifferences(numbers, { width, big }, distance, false);
                    const isEven = distance % 2 === 0 && width % 2 === 0;
                    if (own !== null && isEven) await this.byDifferences(numbers, { width, big }, distance, true);
                }
                if (own === null && width === 4) await this.byOffsets(numbers, { width, big });
                if (own === null) continue;
                if (width === 2) await this.byRows(numbers, { width, big }, own);
                if (width === 4) this.runs.push(...await runsByVotes(this.file, numbers, big, own, this.signal));
            }
        }
        return this.runs;
    }
}

/**
 * The runs of numbers in a file that may be tables of pointers.
 * @param differences of the texts of all files
 */
export function runsIn(file: Searched, differences: Differences, signal?: Signal) {
    return new Search(file, differences, signal).all();
}
