// Matches the parts of a text, each with its spellings, at places in bytes.

import { joinedBytes } from '../bytes.js';
import { lacks, numbersOf, type Encoding } from '../encodings/index.js';
import { failedBy } from '../faults.js';
import { letOthersIn, type Signal } from '../turns.js';
import type { Wanted } from './find.js';

// Spellings of a text that count as the same: composed or decomposed, with a yen sign or a backslash. A loose search also ignores the width
// and the case of characters. They are spellings of a part, like two codes of one kanji, so the search needs no special case, and the bytes
// that are replaced are those that were found.

/** Sequences that compose one character: a character with combining marks, or the letters of a Korean syllable. */
const COMPOSING = /\P{M}\p{M}+|[\u1100-\u1112][\u1161-\u1175][\u11A8-\u11C2]?/gu;
const HALF_WIDTH_KANA = /[\uFF61-\uFF9F]+/g;

/** Japanese character sets have both at one code. */
const SAME_SIGN: Record<string, string> = { '\\': '¥', '¥': '\\' };

/** Maps half-width forms to full-width ones, and vice versa. */
const OTHER_WIDTHS = new Map();
for (const code of numbersOf([0x3000, 0x3000], [0xFF01, 0xFF5E], [0xFF61, 0xFF9F], [0xFFE5, 0xFFE5])) {
    for (const mark of ['', 'ﾞ', 'ﾟ']) {
        const form = String.fromCharCode(code) + mark;
        const other = form.normalize('NFKC');
        if (other.length === 1) OTHER_WIDTHS.set(form, other).set(other, form);
    }
}

/** Caches the results of `spelledAlike`: for each encoding, a strict and a loose map from characters. */
const spellingsAsked: WeakMap<Encoding, Map<string, Uint8Array[]>[]> = new WeakMap();

/** The equivalent forms of a character, itself first. */
function formsOf(character: string, loose: boolean) {
    const forms = new Set([character]);
    for (const it of forms) {
        const apart = it.normalize('NFD');
        if ([...apart].length > 1) forms.add(apart);
        if (it in SAME_SIGN) forms.add(SAME_SIGN[it]);
        if (loose) for (const other of [it.toLowerCase(), it.toUpperCase(), OTHER_WIDTHS.get(it)]) forms.add(other || it);
    }
    return [...forms];
}

/** The spellings of a form; empty if the encoding lacks it. */
function spellingsOf(encoding: Encoding, form: string) {
    try {
        const units = encoding.units(form);
        return units.length === 1 ? units[0] : [joinedBytes(units.map(([usual]) => usual))].filter(({ length }) => length > 0);
    } catch (error) {
        if (!failedBy(error, 'text')) throw error;
        return [];
    }
}

/** The spellings of a character and of its other forms; empty if the encoding has no other form. */
function spelledAlike(encoding: Encoding, character: string, loose: boolean) {
    const [own, ...others] = formsOf(character, loose).map(form => spellingsOf(encoding, form));
    return others.some(({ length }) => length > 0) ? [...own, ...others.flat()] : [];
}

/**
 * The parts of a text as `Encoding.units` returns them, with all equivalent spellings. Throws a Fault, `text`, that names the first
 * character without a spelling.
 */
export function unitsAlike(encoding: Encoding, text: string, loose?: boolean) {
    return [...partsAlike(encoding, text, loose)];
}

/** Characters of which none composes one with those beside it, so that each has its parts wherever it is. */
const ORDINARY = /^[\x20-\u02FF\u3000-\u3029\u3030-\u3098\u309B-\u9FFF\uFF01-\uFF60]*$/;

/** A cache: the parts of ordinary characters, null for those that it lacks. */
const ordinaryAsked: WeakMap<Encoding, Map<string, Uint8Array[][] | null>> = new WeakMap();

/** Whether each spelling of an encoding is that of one character, as in all but a game's own tables. */
function hasSingleCharacters({ table }: Encoding & { table?: { longestText: number } }) {
    return table === undefined || table.longestText === 1;
}

/** The parts of an ordinary character, null if the encoding lacks it. */
function partsOfOrdinary(encoding: Encoding, character: string) {
    const spellings = spelledAlike(encoding, character, false);
    if (spellings.length > 0) return [spellings];
    try {
        return encoding.units(character);
    } catch (error) {
        if (!failedBy(error, 'text')) throw error;
        return null;
    }
}

/** The parts of a text of ordinary characters, null if the encoding lacks one of them. */
function ordinaryParts(encoding: Encoding, text: string) {
    const known = ordinaryAsked.get(encoding) || new Map();
    ordinaryAsked.set(encoding, known);
    const all: Uint8Array[][] = [];
    for (const character of text) {
        let parts = known.get(character);
        if (parts === undefined) known.set(character, parts = partsOfOrdinary(encoding, character));
        if (parts === null) return null;
        for (const part of parts) all.push(part);
    }
    return all;
}

/** Yields what unitsAlike returns. For a long text, other work can get turns in between. */
export function* partsAlike(encoding: Encoding, text: string, loose: boolean = false): Generator<Uint8Array[], void, undefined> {
    const ordinary = !loose && hasSingleCharacters(encoding) && ORDINARY.test(text) ? ordinaryParts(encoding, text) : null;
    if (ordinary !== null) return yield* ordinary;
    const wide = loose ? text.replace(HALF_WIDTH_KANA, it => it.normalize('NFKC')) : text;
    const whole = wide.replace(COMPOSING, it => it.normalize('NFC'));
    const found = spellingsAsked.get(encoding) || [new Map(), new Map()];
    spellingsAsked.set(encoding, found);
    const alike = found[Number(loose)];
    let [from, at] = [0, 0];
    for (const character of whole) {
        const spellings = alike.get(character) || spelledAlike(encoding, character, loose);
        alike.set(character, spellings);
        if (spellings.length > 0) {
            yield* plainParts(encoding, whole, from, at);
            yield spellings;
            from = at + character.length;
        }
        at += character.length;
    }
    yield* plainParts(encoding, whole, from, at);
}

/** The parts of a stretch of a text. A Fault counts the place of a character from the beginning of the text. */
function* plainParts(encoding: Encoding, whole: string, from: number, to: number): Generator<Uint8Array[], void, undefined> {
    const stretch = whole.slice(from, to);
    try {
        yield* encoding.parts ? encoding.parts(stretch) : encoding.units(stretch);
    } catch (error) {
        throw failedBy(error, 'text/no-character') ? lacks(encoding.name, whole, from + error.facts.at) : error;
    }
}

/** How many failed attempts are remembered. */
const KEPT_TRIES = 1 << 16;

/** The most spellings of a part that are compared one by one; more are looked up in an index. */
const FEW_SPELLINGS = 16;

/**
 * How many parts are tried at a place at most: this many for each part, and TRIES more. Only a table whose codes are the beginnings of
 * other codes for the same text needs more, and then a text of many parts could need more than any computer can do.
 */
const TRIES_OF_PART = 8;
const TRIES = 1 << 12;

/** How many parts are tried before other work may get a turn. */
const TRIES_AT_ONCE = 1 << 10;

/** The end of parts that match at a place, or -1. */
export function endOfMatch(parts: Wanted, bytes: Uint8Array, at: number) {
    return new Matching(parts, bytes).end(at);
}

/** Returns the same as endOfMatch. Other work gets turns in between. */
export async function endOfMatchInTurns(parts: Wanted, bytes: Uint8Array, at: number, signal?: Signal) {
    const matching = new Matching(parts, bytes);
    matching.begin(at);
    while (!matching.isDone(TRIES_AT_ONCE)) await letOthersIn(signal);
    return matching.at;
}

/** What is known of a part: its index if it has many spellings, and how many bytes each of them has, 0 if they have different lengths. */
export type Known = { index: ReturnType<typeof indexOf> | null, size: number };
/** A cache: the same character has the same part wherever it occurs in a text. */
const knownParts: WeakMap<Uint8Array[], Known> = new WeakMap();

/** A cache: whether each part of a text has spellings of one length. */
const ofOneLength: WeakMap<Wanted, boolean> = new WeakMap();

function knownOf(part: Uint8Array[]) {
    const known = knownParts.get(part);
    if (known) return known;
    const [{ length: size }] = part;
    const made = {
        index: part.length > FEW_SPELLINGS ? indexOf(part) : null,
        size: part.every(({ length }) => length === size) ? size : 0,
    };
    knownParts.set(part, made);
    return made;
}

function areOfOneLength(parts: Wanted) {
    const known = ofOneLength.get(parts) ?? parts.every(part => part.length === 1 || knownOf(part).size > 0);
    ofOneLength.set(parts, known);
    return known;
}

/** Matches parts at places. A failed attempt is not repeated, so that spellings of several lengths do not take longer. */
export class Matching {
    /** The last failed attempts, part and place as one number; null until one failed whose spellings have several lengths. */
    failed: Float64Array | null = null;
    /** For each part so far, the spellings that match there; the last one is being tried. */
    tried: Uint8Array[][] = [];
    at = -1;
    left = 0;

    constructor(readonly parts: Wanted, readonly user: Uint8Array) {}

    /** The end of the parts if they match at a place, or -1. */
    end(from: number) {
        const [first = []] = this.parts;
        if (first.length === 1 && !standsAt(first[0], this.user, from)) return -1;
        this.begin(from);
        this.isDone(Infinity);
        return this.at;
    }

    /** Begins to try the parts at a place. */
    begin(from: number) {
        this.at = from;
        this.tried = [];
        this.left = TRIES_OF_PART * this.parts.length + TRIES;
    }

    /** Tries up to some parts. Returns whether it is known if they match: then `at` is their end, or -1. */
    isDone(most: number) {
        const { parts, tried } = this;
        for (let count = 0; tried.length < parts.length; count++) {
            if (count === most) return false;
            this.left -= 1;
            const left = this.left < 0 ? [] : this.before(this.standingAt(tried.length, this.at));
            if (left.length === 0) {
                this.at = -1;
                return true;
            }
            tried.push(left);
            this.at += left[left.length - 1].length;
        }
        return true;
    }

    /** The given spellings of the next part; if there are none, those that are left of the last part before it that has any. */
    before(given: Uint8Array[]) {
        const { parts, tried } = this;
        let left = given;
        while (left.length === 0 && tried.length > 0) {
            left = tried.pop() as Uint8Array[];
            this.at -= (left.pop() as Uint8Array).length;
            if (left.length === 0) this.remember(this.at * parts.length + tried.length + 1);
        }
        return left;
    }

    /** Remembers a failed attempt. That is of no use if each part has spellings of one length, since only one of them matches. */
    remember(attempt: number) {
        if (this.failed === null && !areOfOneLength(this.parts)) this.failed = new Float64Array(KEPT_TRIES);
        if (this.failed !== null) this.failed[attempt % KEPT_TRIES] = attempt;
    }

    /** The spellings of a part that match at a place, the first one last; empty if all have failed there before. */
    standingAt(i: number, at: number) {
        const { parts: { [i]: part, length }, user, failed } = this;
        const attempt = at * length + i + 1;
        if (failed !== null && failed[attempt % KEPT_TRIES] === attempt) return [];
        const index = part.length > FEW_SPELLINGS ? knownOf(part).index : null;
        return index === null ? part.filter(bytes => standsAt(bytes, user, at)).reverse() : lookedUp(index, user, at).reverse();
    }
}

function keyOf(bytes: Uint8Array) {
    return String.fromCharCode(...bytes);
}

/** Indexes the spellings of a part, and their order, by their bytes; and lists their lengths. */
function indexOf(part: Uint8Array[]) {
    const entries = new Map(part.map((bytes, place) => [keyOf(bytes), { bytes, place }]));
    return { entries, lengths: [...new Set(part.map(bytes => bytes.length))] };
}

/** The spellings that match at a place, in their order. */
function lookedUp({ entries, lengths }: ReturnType<typeof indexOf>, user: Uint8Array, at: number) {
    const found = lengths.flatMap(length => entries.get(keyOf(user.subarray(at, at + length))) || []);
    return found.sort((a, b) => a.place - b.place).map(({ bytes }) => bytes);
}

function standsAt(bytes: Uint8Array, user: Uint8Array, at: number) {
    if (at + bytes.length > user.length) return false;
    for (let k = 0; k < bytes.length; k++) {
        if (user[at + k] !== bytes[k]) return false;
    }
    return true;
}
