// Reads the texts of a patched image where they were listed, or where pointers lead now.

import { firstAfter, sameBytes, type Reader } from '../bytes.js';
import type { OrderedImage } from '../disc/index.js';
import { encodingOf, sizeBeforeFilling, withEnd, type Encoding } from '../encodings/index.js';
import { fileOrder } from '../iso/index.js';
import { VERB } from '../module/index.js';
import { MOST_CODES, joinedSpans, storedAt, targetOf, type Span } from '../pointers/index.js';
import { byNumber, userPlace, type ScriptLine, type ScriptModel, type UserRange } from '../script/index.js';
import { LONGEST_TEXT, bytesAround, cellOf, charactersFrom, partsWithCodes, type ListedText } from '../texts/index.js';
import { isTurnDue, letOthersIn, sortedInTurns, type Signal } from '../turns.js';
import type { FoundRow } from './list_fitting.js';
import type { ListRow } from './list_rows.js';
import type { PointedFile, PointedFiles, Pointer } from './moving_pointers.js';
import { endWithMark, firstPointed, usualEndOf } from './moving_texts.js';
import type { OpenedTrack } from './opened.js';
import { extentKey, placeOfLength, rangesInOrder, recordsByKey, type VolumeNames } from './replace.js';

// The listed texts to which pointers lead, and their bytes on a patched disc.

/** A text to which a pointer leads: its file, its place there, the pointer, and the bytes that end the text. */
type PointedText = { file: PointedFile, at: number, pointer: Pointer, mark: Uint8Array };

/** How many bytes of a text are read at first, and how many times more if it does not end in them. */
const READ_FIRST = 256;
const READ_MORE = 4;

/** How many bytes come before the mark that ends a text, -1 if there is none. */
function lengthBefore(encoding: Encoding, bytes: Uint8Array, mark: Uint8Array) {
    for (const { at } of charactersFrom(encoding, bytes)) {
        if (sameBytes(bytes.subarray(at, at + mark.length), mark)) return at;
    }
    return -1;
}

/** The texts to which the pointers of some tables lead. */
export class PointedTexts {
    /** The byte that ends most texts of a file. */
    ends = new Map<PointedFile, number>();

    /** @param files of the unpatched track */
    constructor(readonly files: PointedFiles) {}

    /** Whether any of the pointers is in a range that `isIn` selects. */
    hasPointerIn(isIn: (range: UserRange) => boolean) {
        return this.files.files.some(({ own, placeOf }) => own.some(({ at, table }) => isIn({ ...placeOf(at), size: table.width })));
    }

    endIn(file: PointedFile) {
        const known = this.ends.get(file) ?? usualEndOf(file, []);
        this.ends.set(file, known);
        return known;
    }

    /** A listed text as one to which a pointer leads, or null. */
    of({ block, offset, bytes: known, room }: Pick<ListedText, 'block' | 'offset' | 'bytes' | 'room'>, encoding: Encoding): PointedText
        | null {
        const spot = block === '-' ? null : this.files.spotOf({ block, offset });
        if (spot === null) return null;
        const { file, at } = spot;
        if (file.leading.length === 0) return null;
        const { mark: usual, after } = endWithMark(file, { at, known, row: { room }, encoding }, this.endIn(file));
        const mark = after >= 0 ? usual : file.bytes.subarray(at + known, at + known + usual.length);
        const own = file.leadingTo(at, at + 1);
        const [pointer] = own.length > 0 ? own : file.leadingTo(firstPointed(file, at, 0, mark), at + 1);
        return pointer === undefined ? null : { file, at, pointer, mark };
    }
}

/** Where the pointer of a text is. */
function placeOfPointer({ pointer: { table, file, at } }: PointedText) {
    return { ...file.placeOf(at), size: table.width };
}

/** The bytes of a text where its pointer leads on a patched disc, without those that end it. */
export async function bytesOn(patched: OrderedImage, { file, at, pointer: { table, file: holder, at: place, target }, mark }: PointedText,
    encoding: Encoding) {
    const { bytes: stored } = await bytesAround(patched, holder.placeOf(place), 0, table.width);
    const now = at + targetOf(table, place, storedAt(stored, 0, table)) - target;
    const most = Math.min(file.bytes.length - now, LONGEST_TEXT);
    if (now < 0 || most <= 0) return new Uint8Array(0);
    for (let size = READ_FIRST;; size *= READ_MORE) {
        const { bytes } = await bytesAround(patched, file.placeOf(now), 0, Math.min(size, most));
        const end = lengthBefore(encoding, bytes, mark);
        if (end >= 0 || size >= most) return end < 0 ? bytes : bytes.subarray(0, end);
    }
}

// The rule by which lines of a script are those of a text: they lie within its bytes and room. All others belong to something else.

/** The most bytes that end a text after its room. */
const MOST_ENDING = 4;

/**
 * What a script that moves the texts of a file writes beside them: pointers, the free end of its last sector, and its length in records.
 */
function rangesBeside({ file, own, leading, size, bytes, placeOf }: PointedFile, names: VolumeNames | null): UserRange[] {
    const pointers = own.map(({ at, table }) => ({ ...placeOf(at), size: table.width }));
    if (leading.length === 0 || names === null) return pointers;
    const last = file.extents[file.extents.length - 1];
    const records = recordsByKey(names.entries, [last]).get(extentKey(last)) || [];
    return [...pointers, { ...placeOf(size), size: bytes.length - size }, ...records.map(placeOfLength)];
}

/** The range of user bytes of a text, with the codes before it and the bytes that end it if it may move. */
function rangeOf({ block, offset, bytes, room }: ListedText & { block: number }, mayMove: boolean): UserRange {
    const size = Math.max(bytes, room);
    return mayMove ? { block, offset: offset - MOST_CODES, size: MOST_CODES + size + MOST_ENDING } : { block, offset, size };
}

/** The lines of a script that write texts. A line belongs to a text only if it lies within the text's own bytes and room. */
export class TextLines {
    /** What isOfMoved has found. */
    ofMoved = new Map<ScriptLine, boolean>();
    firsts;

    /**
     * @param script which may change later
     * @param moved the ranges of texts and pointers, in order, in their files
     */
    constructor(readonly script: ScriptModel, readonly image: Pick<OrderedImage, 'order'>, readonly moved: Span[]) {
        this.firsts = moved.map(({ first }) => first);
    }

    /**
     * The lines that write bytes of a text with its room, in order: its own, which lie within it, and others, which write more or something
     * else, such as a name in a record.
     */
    at({ block, offset, size }: UserRange) {
        const ranges = rangesInOrder(this.image, { block, offset }, size);
        const lines = [...new Set(ranges.flatMap(range => this.script.linesWriting(range)))].sort(byNumber);
        const isOwn = ({ patch }: ScriptLine) => patch !== null && patch.verb === VERB.SET && ranges.some(range =>
            userPlace(patch) >= userPlace(range) && userPlace(patch) + patch.size <= userPlace(range) + range.size);
        return { own: lines.filter(isOwn), others: lines.filter(line => !isOwn(line)) };
    }

    /**
     * Whether lines write a text, and none of them belongs to something else.
     * @param range of the text with its room
     */
    haveText(range: UserRange) {
        const { own, others } = this.at(range);
        return own.length + others.length > 0 && others.every(line => this.isOfMoved(line));
    }

    /** Whether a line changes only texts and pointers of files whose texts move. It may then write several of them. */
    isOfMoved(line: ScriptLine) {
        const { script, moved, ofMoved } = this;
        if (moved.length === 0 || line.patch === null || line.patch.verb !== VERB.SET) return false;
        const known = ofMoved.get(line);
        if (known !== undefined) return known;
        const { fresh, old } = script.patchAt(line.number - 1) || { fresh: new Uint8Array(0), old: null };
        const first = userPlace(line.patch);
        const changed = [...fresh.keys()].filter(i => old === null || old[i] !== fresh[i]);
        const isOf = changed.length > 0 && changed.every(i => this.isMoved(first + i));
        ofMoved.set(line, isOf);
        return isOf;
    }

    /** @param place of a user byte */
    isMoved(place: number) {
        const i = firstAfter(this.firsts, place) - 1;
        return i >= 0 && this.moved[i].after > place;
    }
}

/**
 * The lines of a script by the texts of a disc that they write.
 * @param options the texts that may move by some tables; all texts; and the encoding of those whose encoding has no name
 */
export async function textLines(opened: OpenedTrack, script: ScriptModel,
    { pointed, listed, own }: { pointed: PointedTexts[], listed: ListedText[], own: Encoding }, signal?: Signal) {
    const { volume, part } = await opened.contents();
    const spans: Span[] = [];
    const add = (range: UserRange) => spans.push({ first: userPlace(range), after: userPlace(range) + range.size });
    for (const { files: { files } } of pointed) for (const file of files) for (const range of rangesBeside(file, volume)) add(range);
    for (const it of pointed.length === 0 ? [] : listed) {
        if (isTurnDue()) await letOthersIn(signal);
        const { block } = it;
        if (block === '-' || !pointed.some(({ files }) => files.spotOf({ ...it, block }) !== null)) continue;
        add(rangeOf({ ...it, block }, pointed.some(texts => texts.of(it, encodingOf(it.encoding) || own) !== null)));
    }
    const some = spans.filter(({ first, after }) => after > first);
    return new TextLines(script, part, joinedSpans(await sortedInTurns(some, ({ first }) => first, signal)));
}

// The new texts that a script writes: what a patched image has at the places of the old texts, or where their pointers lead.

/** Characters that fill up a text at its end. */
const FILLER_CHARACTER = /^[ \u3000\0]$/;

/** The end of a text in bytes that may be filled up. */
function endOfText(encoding: Encoding, bytes: Uint8Array) {
    let end = 0;
    for (const { at, size, text } of charactersFrom(encoding, bytes)) {
        if (!FILLER_CHARACTER.test(text)) end = at + size;
    }
    return end;
}

/** Matches a control code in a cell. */
const CONTROL_CODE = /^\{(?:[01][0-9A-Fa-f])+\}$/;

/** A cell without the spaces before the control codes that end it, because a text may be padded there. */
function withoutPadding(cell: string) {
    const parts = cell.endsWith('}') ? partsWithCodes(cell) : [cell];
    let last = parts.length - 1;
    while (last > 0 && parts[last] === '' && CONTROL_CODE.test(parts[last - 1])) last -= 2;
    return last === parts.length - 1 ? cell : [...parts.slice(0, last), parts[last].trimEnd(), ...parts.slice(last + 1)].join('');
}

/**
 * A text in bytes that may be filled up, as a cell of a list.
 * @param record the encoding with the byte that ends texts, for a text in a record
 */
function filledCell(encoding: Encoding, bytes: Uint8Array, record: Encoding | null) {
    const size = record === null ? endOfText(encoding, bytes) : sizeBeforeFilling(record, bytes);
    return withoutPadding(cellOf(encoding, bytes.subarray(0, size)));
}

/**
 * Returns a function that finds the new text of a listed text, or '' if it has none.
 * @param opened the unpatched track
 * @param reader of the patched image
 * @param options a game's own encoding, which no name finds; the byte that ends texts, if it is known; the lines of the script; and the
 *     texts that may have moved
 */
export async function patchedTexts(opened: Pick<OpenedTrack, 'contents'>, reader: Reader,
    { own, end, lines, pointed = null }: { own?: Encoding, end?: number, lines: TextLines, pointed?: PointedTexts
    | null }): Promise<(listed: Pick<ListedText, 'block' | 'offset' | 'bytes' | 'room' | 'encoding' | 'text' | 'fill'>) =>
    Promise<string>> {
    const { image, files } = await opened.contents();
    const patched = { ...image, reader };
    const ordered = { ...patched, order: fileOrder(patched, files) };
    const ended: Map<Encoding, Encoding> = new Map();
    const recordIn = (encoding: Encoding) => {
        const known = ended.get(encoding) || withEnd(encoding, end);
        ended.set(encoding, known);
        return known;
    };
    return async listed => {
        const { block, offset, room, encoding: name, text, fill } = listed;
        const encoding = encodingOf(name) || own;
        if (block === '-' || encoding === undefined) return '';
        const known = pointed === null || fill !== undefined ? null : pointed.of({ ...listed, block }, encoding);
        const isMoved = known !== null && lines.script.lineAt(placeOfPointer(known)) > 0;
        if (!isMoved && !lines.haveText({ block, offset, size: Math.max(listed.bytes, room) })) return '';
        const bytes = known === null ? (await bytesAround(ordered, { block, offset }, 0, room)).bytes
            : await bytesOn(ordered, known, encoding);
        const fresh = filledCell(encoding, bytes, fill === undefined ? null : recordIn(encoding));
        return fresh === withoutPadding(text) ? '' : fresh;
    };
}

/** The bytes of a row's old text with the room after it. A row without a room, and one of a PO file, has that of its place. */
export function rangeOfRow({ block, offset, room, unit }: ListRow, { known, filled, at }: FoundRow) {
    return { block, offset, size: Math.max(known, unit === 'line' || room < 0 ? filled - at : room) };
}
