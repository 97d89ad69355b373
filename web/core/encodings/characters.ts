// Tables of characters and their bytes, and the functions that fill them.

import { Fault } from '../faults.js';
import { hexText } from '../bytes.js';

const NO_CHARACTER = '\uFFFD';

/** How many characters of a long text are joined at a time: separate ones need more memory. */
const PIECE = 1 << 12;

/**
 * @param name of an encoding
 * @param at the place in the text of the character that it lacks
 */
export function lacks(name: string, text: string, at: number) {
    const place = [...text.slice(0, at)].length + 1;
    const character = String.fromCodePoint(text.codePointAt(at) || 0);
    return new Fault('text/no-character', { name, character, place, at });
}

/**
 * A node of the tree of spellings, for some bytes: the text that they mean, '' if they mean none; how many bytes after them are its
 * parameters; and the nodes for one byte more.
 */
type Branch = { text: string, parameters: number, next: Map<number, Branch> | null };

const newBranch = (): Branch => ({ text: '', parameters: 0, next: null });

/** The characters of a character set or a game's table, and their bytes. The longest match is used in both directions. */
export class CharacterTable {
    spellings = new Map<string, Uint8Array[]>();
    /** The root of the tree of spellings, which has a level for each byte. */
    root = newBranch();
    /** 1 for each byte after which a spelling may continue. */
    inner = new Uint8Array(256);
    longestText = 0;
    /** Caches the characters that two bytes determine, by these bytes. */
    known: ({ size: number, text: string } | undefined)[] = new Array(65536);

    constructor(readonly name: string) {}

    /**
     * Adds bytes and the text that they mean. Its usual spelling is the one that was added first. Returns whether the bytes were new.
     * @param parameters how many bytes after these are their parameters
     */
    add(bytes: Uint8Array, text: string, parameters: number = 0) {
        const branch = this.branchOf(bytes);
        if (branch.text !== '') return false;
        Object.assign(branch, { text, parameters });
        bytes.subarray(0, -1).forEach(byte => { this.inner[byte] = 1; });
        if (parameters > 0) this.inner[bytes[bytes.length - 1]] = 1;
        const spellings = this.spellings.get(text);
        if (spellings) spellings.push(bytes);
        else this.spellings.set(text, [bytes]);
        this.longestText = Math.max(this.longestText, text.length);
        return true;
    }

    /** The node for some bytes, which is added if there is none. */
    branchOf(bytes: Uint8Array) {
        let branch = this.root;
        for (const byte of bytes) {
            if (branch.next === null) branch.next = new Map();
            const next = branch.next.get(byte) || newBranch();
            branch.next.set(byte, next);
            branch = next;
        }
        return branch;
    }

    /** Gives a text without spellings those of another text. */
    addAlike(text: string, other: string) {
        const spellings = this.spellings.get(other);
        if (spellings && !this.spellings.has(text)) this.spellings.set(text, spellings);
    }

    /** Yields the parts of a text, each with its spellings. */
    *units(text: string): Generator<Uint8Array[]> {
        for (let at = 0; at < text.length;) {
            const length = longestIn(this.spellings, text, at, this.longestText);
            if (length === 0) throw lacks(this.name, text, at);
            yield this.spellings.get(text.substr(at, length)) || [];
            at += length;
        }
    }

    /** Whether a character may continue after a byte. */
    goesOn(byte: number) {
        return this.inner[byte] === 1;
    }

    /**
     * The character at a place, with the longest match; one byte if none begins there. Its parameters are written as codes after its text,
     * and then `isCell` is true.
     */
    characterAt(bytes: Uint8Array, at: number): { size: number, text: string, isCell?: boolean } {
        const code = bytes[at] << 8 | bytes[at + 1];
        const known = at + 1 < bytes.length ? this.known[code] : undefined;
        if (known !== undefined) return known;
        let size = 1;
        let text = NO_CHARACTER;
        let parameters = 0;
        let branch = this.root;
        let end = at;
        for (; end < bytes.length && branch.next !== null; end++) {
            const next = branch.next.get(bytes[end]);
            if (next === undefined) break;
            branch = next;
            if (branch.text === '') continue;
            size = end + 1 - at;
            ({ text, parameters } = branch);
        }
        const given = bytes.subarray(at + size, at + size + parameters);
        if (given.length > 0) return { size: size + given.length, text: `${text}{${hexText(given)}}`, isCell: true };
        if (parameters > 0) return { size, text };
        const found = { size, text };
        if (at + 1 < bytes.length && (end < at + 2 || (end === at + 2 && branch.next === null))) this.known[code] = found;
        return found;
    }

    text(bytes: Uint8Array) {
        const pieces: string[] = [];
        const units: number[] = [];
        for (let at = 0; at < bytes.length;) {
            const { size, text } = this.characterAt(bytes, at);
            for (let k = 0; k < text.length; k++) units.push(text.charCodeAt(k));
            at += size;
            if (units.length >= PIECE) pieces.push(String.fromCharCode(...units.splice(0)));
        }
        return pieces.join('') + String.fromCharCode(...units);
    }
}

/** The length of the longest key of a map at a place of a text, 0 if there is none. */
function longestIn(map: Map<string, unknown>, text: string, at: number, longest: number) {
    let length = Math.min(longest, text.length - at);
    while (length > 0 && !map.has(text.substr(at, length))) length -= 1;
    return length;
}

/** All numbers of some runs, in order. `runs` are the first and the last number of each. */
export function numbersOf(...runs: number[][]) {
    return runs.flatMap(([first, last]) => Array.from({ length: last - first + 1 }, (_, i) => first + i));
}

/** The codes of all pairs of a lead byte and a trail byte. */
export function pairsOf(leads: number[], trails: number[]) {
    return leads.flatMap(lead => trails.map(trail => lead << 8 | trail));
}

const bytesOfPair = (code: number) => Uint8Array.of(code >> 8, code & 0xFF);

/**
 * Adds each pair of bytes that a decoder reads as one character.
 * @param label of the decoder
 * @param before bytes before each pair
 */
export function addPairs(table: CharacterTable, label: string, codes: number[], before: number[] = []) {
    const bytes = Uint8Array.from(codes.flatMap(code => [...before, ...bytesOfPair(code), 0x0A]));
    new TextDecoder(label).decode(bytes).split('\n').forEach((text, i) => {
        if (text.length === 1 && text !== NO_CHARACTER) table.add(Uint8Array.of(...before, ...bytesOfPair(codes[i])), text);
    });
}

/** Adds characters, each with its pair of bytes. */
export function addCodes(table: CharacterTable, codes: number[], characters: Iterable<string>) {
    [...characters].forEach((text, i) => table.add(bytesOfPair(codes[i]), text));
}

/** Adds ASCII, without a decoder: decoders differ in 1A, 1C, 7F, and 80. */
export function addAscii(table: CharacterTable) {
    for (const code of numbersOf([0x00, 0x7F])) table.add(Uint8Array.of(code), String.fromCharCode(code));
}
