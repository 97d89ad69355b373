// The interface of encodings, and functions for any encoding.

import { joinedBytes, sameBytes } from '../bytes.js';
import { failedBy } from '../faults.js';
import { CharacterTable } from './characters.js';

/**
 * An encoding of texts. Options accept `name` and `aliases`, in capitals or not; lists show `label`; and `find` searches in it by default
 * if it is `searched`. `hasCharacters` is false if it only spells bytes. `space` and `wideSpace` are the texts that may fill up a shorter
 * one, '' if it has none. `units` cuts a text into parts and returns the spellings of each, the usual one first; `parts`, if there is one,
 * yields the same. `text` decodes bytes, with U+FFFD for a byte that begins no character. `characterAt` decodes the character at a place,
 * and returns how many bytes it has; `goesOn` is whether a character may continue after a byte. `end` is the byte that ends a text, 0 or
 * undefined if that is 00 or not known. `usual` is how its texts are recognised, if it is a character set of two bytes for a language other
 * than Japanese, and `isSingle` whether it is one of one byte for the languages of Europe.
 */
export type Encoding = { name: string, label: string, aliases: string[], searched: boolean, hasCharacters: boolean, space: string,
    wideSpace: string, units: (text: string) => Uint8Array[][], parts?: (text: string) => Iterable<Uint8Array[]>,
    text: (bytes: Uint8Array) => string, characterAt: (bytes: Uint8Array, at: number) => Character, goesOn: (byte: number) => boolean,
    end?: number, usual?: Usual, isSingle?: boolean, leftOut?: number[] };
/** How many bytes a character has, and their text; `isCell` if the text already has parameters as codes. */
type Character = { size: number, text: string, isCell?: boolean };
/** Pairs of bytes that are frequent in texts, and the score of each. */
type Usual = { first: number, last: number, score: number };
/** What fills up a shorter text: bytes, the byte that ends texts, or the encoding's space. */
export type Filler = Uint8Array | 'end' | null;
/** Properties of an encoding. */
export type Names = { name: string, label?: string, aliases?: string[], searched?: boolean, usual?: Usual, isSingle?: boolean };

export const SPACES = { space: ' ', wideSpace: '\u3000' };

/** An encoding with a table of characters, which is created when it is first needed. */
export class TableEncoding {
    hasCharacters = true;
    space = SPACES.space;
    wideSpace = SPACES.wideSpace;
    end = 0;
    /** The numbers of the ignored lines of a game's own table. */
    leftOut: number[] = [];
    made: CharacterTable | null = null;
    name; label; aliases; searched; usual; isSingle;

    constructor({ name, label = name, aliases = [], searched = false, usual, isSingle = false }: Names,
        readonly fill: (table: CharacterTable) => void) {
        this.name = name;
        this.label = label;
        this.aliases = aliases;
        this.searched = searched;
        this.usual = usual;
        this.isSingle = isSingle;
    }

    get table() {
        if (this.made === null) {
            this.made = new CharacterTable(this.name);
            this.fill(this.made);
        }
        return this.made;
    }

    units(text: string) {
        return [...this.parts(text)];
    }

    parts(text: string) {
        return this.table.units(text);
    }

    text(bytes: Uint8Array) {
        return this.table.text(bytes);
    }

    characterAt(bytes: Uint8Array, at: number) {
        return this.table.characterAt(bytes, at);
    }

    goesOn(byte: number) {
        return this.table.goesOn(byte);
    }
}

/** The bytes of parts of a text, each in its usual spelling. */
export function usualBytes(units: Uint8Array[][]) {
    return joinedBytes(units.map(([usual]) => usual));
}

/** The bytes of a text, each part in its usual spelling. Throws a Fault, `text`, that names the first character without bytes. */
export function encodeText(encoding: Encoding, text: string) {
    return usualBytes(encoding.units(text));
}

/** The bytes of a text, or null if it is empty or a character has none. */
function bytesIfAny(encoding: Encoding, text: string) {
    try {
        return text === '' ? null : encodeText(encoding, text);
    } catch (error) {
        if (failedBy(error, 'text')) return null;
        throw error;
    }
}

/** A cache of spaces: a table of texts needs them for each text. */
const spaces: WeakMap<Encoding, (Uint8Array | null)[]> = new WeakMap();

function spacesIn(encoding: Encoding) {
    const known = spaces.get(encoding) || [bytesIfAny(encoding, encoding.space), bytesIfAny(encoding, encoding.wideSpace)];
    spaces.set(encoding, known);
    return known;
}

/** The bytes that fill up a shorter text by default, or null if the encoding has no space. */
export function spaceIn(encoding: Encoding) {
    return spacesIn(encoding)[0];
}

/** The wide space of an encoding, or null if it has none. */
export function wideSpaceIn(encoding: Encoding) {
    return spacesIn(encoding)[1];
}

/** Whether bytes are one of the spaces of an encoding. */
export function isSpaceIn(encoding: Encoding, bytes: Uint8Array) {
    return spacesIn(encoding).some(space => space !== null && sameBytes(space, bytes));
}

/**
 * The same encoding for texts that end with a byte.
 * @param end if it is undefined, the encoding is returned as it is
 */
export function withEnd(encoding: Encoding, end: number | undefined): Encoding {
    return end === undefined ? encoding : Object.assign(Object.create(encoding), { end });
}

/** The bytes that end a text: one byte, or in UTF-16 one unit, FFFF for FF. */
export function endOf(encoding: Encoding) {
    const { end = 0 } = encoding;
    const { length: unit } = spaceIn(encoding) || [0];
    if (!encoding.hasCharacters || unit !== 2 || encoding instanceof TableEncoding) return Uint8Array.of(end);
    return end === 0xFF ? Uint8Array.of(end, end) : encodeText(encoding, String.fromCharCode(end));
}

/** The bytes that fill up a shorter text, or null if the encoding has no space. */
export function fillerOf(encoding: Encoding, filler: Filler) {
    return filler === 'end' ? endOf(encoding) : filler || spaceIn(encoding);
}

/** The fillers that a shorter text may have: the spaces of the encoding, and 00. */
export function fillsOf(encoding: Encoding) {
    const fills: { bytes: Uint8Array, name: '' | 'space' | 'wide-space' }[] = [];
    for (const [text, name] of ([[encoding.space, 'space'], [encoding.wideSpace, 'wide-space']] as const)) {
        const bytes = bytesIfAny(encoding, text);
        if (bytes !== null) fills.push({ bytes, name: /\S/.test(text) ? '' : name });
    }
    if (!fills.some(({ bytes }) => bytes.every(byte => byte === 0))) fills.push({ bytes: Uint8Array.of(0), name: '' });
    return fills;
}

/**
 * Bytes that may fill up the room after a text, besides the wide space. FF also ends texts in many games, even if it is a character of
 * their encoding, such as ÿ.
 */
const NUL = 0x00;
const BLANK = 0x20;
export const FULL = 0xFF;

/**
 * How many bytes after a text only fill up its room. The last 00 and the last byte that ends texts do not belong to it. In a field of fixed
 * width all others do; elsewhere FF only if texts end with a different byte, and a single space only before such a byte.
 * @param from where the text ends in them
 * @param to where the next text begins
 */
export function fillingAfter(encoding: Encoding, bytes: Uint8Array, from: number, to: number = bytes.length, isField: boolean = false) {
    const wide = wideSpaceIn(encoding);
    if (wide !== null && from < to && bytes[from] === wide[0] && wide[0] !== 0) return repeatedAfter(wide, bytes, from, to);
    const value = bytes[from];
    if (from >= to || ![NUL, BLANK, FULL].includes(value)) return 0;
    const last = encoding.end || 0;
    if (value === FULL && last === NUL && !isField) return 0;
    const { length: unit } = spaceIn(encoding) || [0];
    let end = from;
    while (end < to && bytes[end] === value) end += 1;
    const count = end - from - (value === NUL || value === last ? unit : 0);
    if (value === BLANK && count === unit && !isField && ![NUL, last].includes(bytes[end])) return 0;
    return Math.max(count - count % unit, 0);
}

/** How many bytes from a place on repeat some given ones. */
function repeatedAfter(repeated: Uint8Array, bytes: Uint8Array, from: number, to: number) {
    let end = from;
    while (end + repeated.length <= to && repeated.every((byte, k) => bytes[end + k] === byte)) end += repeated.length;
    return end - from;
}
