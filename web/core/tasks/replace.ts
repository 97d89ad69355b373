// Replaces texts and files of a track: finds their bytes, and generates the lines of a script that replace these.

import { firstAfter, joinedBytes, readBytes, sameBytes, type Reader } from '../bytes.js';
import type { DiscImage, OrderedImage } from '../disc/index.js';
import { isSpaceIn, type Encoding } from '../encodings/index.js';
import { Fault, newBytes, remark, type Remark } from '../faults.js';
import { FileOrder, SIZE_FIELD, endOfExtent, type FileEntry, type VolumeFiles, type WholeFile } from '../iso/index.js';
import { PATCH_SIZE, RECORD, RECORD_SIZE, SECTOR_KIND, SECTOR_SIZE, USER_SIZE, sectorCount, type Calls } from '../module/index.js';
import type { Sharing } from '../pool/index.js';
import { ReadAhead, filledReader, sliceOf } from '../readers/index.js';
import {
    LineList, ScriptParts, assertLeads, linesBetween, scriptForBase, type Left, type Lines, type Script, type UserRange,
} from '../script/index.js';
import { USER_OFFSET, addToRuns, addressIn, isSound, joinedUser, runOf, sectorsAt, userOf, type Place } from '../sectors/index.js';
import { bytesAround, bytesBefore, closingCodesIn, contextOf } from '../texts/index.js';
import { letOthersIn } from '../turns.js';
import type { Places } from './find.js';
import { fileOfTrack, type Engine, type OpenedTrack, type Watch } from './opened.js';
import { fittingScript } from './scripts.js';

// Generates the lines that replace bytes at a place, or the sectors of a file.

/** Old bytes, and as many new ones that replace them. */
export type Change = { place: Place, old: Uint8Array, fresh: Uint8Array };

/**
 * Pads bytes to a size with a repeated filler. Throws a Fault if that is not possible.
 * @param fill null if the bytes must have the size already
 * @param encoding of a text, whose spaces are inserted before the codes that end it: a game shows what is behind "new page" on the next
 *     page, and the last code may have an argument behind the text
 */
export function filledUp(bytes: Uint8Array, size: number, fill: Uint8Array | null, encoding?: Encoding) {
    const missing = size - bytes.length;
    if (missing === 0) return bytes;
    if (missing < 0 || fill === null) throw new Fault('replace/other-size', { fresh: bytes.length, old: size });
    if (missing % fill.length !== 0) throw new Fault('replace/filler', { missing, filler: fill });
    const from = bytes.length - (encoding !== undefined && isSpaceIn(encoding, fill) ? closingCodesIn(encoding, bytes) : 0);
    const filled = new Uint8Array(size);
    filled.set(bytes.subarray(0, from));
    for (let at = from; at < from + missing; at += fill.length) filled.set(fill, at);
    filled.set(bytes.subarray(from), from + missing);
    return filled;
}

/**
 * Generates the lines that replace user bytes from a place on. Throws a Fault if the old bytes are not there, or if a sector is not
 * consistent.
 * @param fresh as many bytes
 * @param isTriedLater whether the lines are tried later together with others, and not here
 */
export async function replaceBytes(calls: Calls, image: OrderedImage, place: Place, old: Uint8Array, fresh: Uint8Array,
    isTriedLater: boolean = false): Promise<Lines> {
    const lines = new LineList();
    for (const change of cutAtExtents(image, { place, old, fresh })) await addChange(calls, image, lines, change, isTriedLater);
    return lines.lines();
}

/** The lines of a change, which are not tried. */
export function untriedLines(image: OrderedImage, change: Change) {
    const lines = new LineList();
    for (const { place, old, fresh } of cutAtExtents(image, change)) setLines(lines, place, old, fresh);
    return lines.lines();
}

/** Splits a change where the next sector in the order of files is not that of the next block. */
function cutAtExtents({ order }: Pick<OrderedImage, 'order'>, change: Change): Change[] {
    const { place, old, fresh } = change;
    for (let size = USER_SIZE - place.offset; order && size < old.length; size += USER_SIZE) {
        const { block } = placeAfter(place, size);
        const next = { block: order.blockOf(order.indexOf(block - 1) + 1), offset: 0 };
        if (next.block === block) continue;
        const rest = { place: next, old: old.subarray(size), fresh: fresh.subarray(size) };
        return [{ place, old: old.subarray(0, size), fresh: fresh.subarray(0, size) }, ...cutAtExtents({ order }, rest)];
    }
    return [change];
}

/** The ranges of a number of user bytes from a place on, split as their lines are. */
export function rangesInOrder(image: Pick<OrderedImage, 'order'>, place: Place, size: number) {
    const bytes = new Uint8Array(size);
    return cutAtExtents(image, { place, old: bytes, fresh: bytes }).map(it => ({ ...it.place, size: it.old.length }));
}

/** Adds the lines of a change of adjacent sectors. */
async function addChange(calls: Calls, image: DiscImage, lines: LineList, { place, old, fresh }: Change, isTriedLater: boolean) {
    const sectors = await sectorsOfRange(image, place, old.length);
    const blocks = Array.from({ length: sectorCount(sectors.length) }, (_, i) => place.block + i);
    const user = joinedUser(sectors);
    assertSound(calls.survey(sectors, 0), blocks);
    const other = old.findIndex((byte, i) => byte !== user[place.offset + i]);
    const { block, offset } = placeAfter(place, Math.max(other, 0));
    if (other >= 0) throw new Fault('replace/other-bytes', { block, offset });
    user.set(filledUp(fresh, old.length, null), place.offset);
    const { size } = lines;
    setLines(lines, place, old, fresh);
    if (isTriedLater) return;
    assertLeads(calls, lines.textFrom(size), { blocks, old: sectors, fresh: encodedUser(calls, sectors, user) }, false);
}

function placeAfter({ block, offset }: Place, count: number) {
    return { block: block + Math.floor((offset + count) / USER_SIZE), offset: (offset + count) % USER_SIZE };
}

/** Reads the sectors of a range of user bytes. Throws a Fault if the range is empty or invalid, or if the image does not have all of it. */
export function sectorsOfRange({ reader, base }: DiscImage, { block, offset }: Place, size: number) {
    const first = block - base;
    const count = Math.ceil((offset + size) / USER_SIZE);
    const end = base + sectorCount(reader.size);
    if (size === 0) throw new Fault('replace/no-bytes', {});
    if (offset < 0 || offset >= USER_SIZE) throw new Fault('replace/no-offset', { last: USER_SIZE - 1 });
    if (first < 0 || block + count > end) throw new Fault('replace/no-block', { first: base, last: end - 1 });
    return readBytes(reader, first * SECTOR_SIZE, count * SECTOR_SIZE);
}

/** Encodes consistent sectors with the addresses of given sectors, and with new user data. */
function encodedUser(calls: Calls, sectors: Uint8Array, user: Uint8Array) {
    const encoded = newBytes(sectors.length);
    for (let i = 0; i < sectorCount(sectors.length); i++) {
        encoded.set(calls.encode(addressIn(sectors, i), user.subarray(USER_SIZE * i, USER_SIZE * (i + 1))), SECTOR_SIZE * i);
    }
    return encoded;
}

/** Throws a Fault if a sector is not consistent. */
function assertSound(records: Uint8Array, blocks: number[]) {
    const other = blocks.findIndex((_, i) => !isSound(records, RECORD_SIZE * i));
    if (other < 0) return;
    const isMode1 = records[RECORD_SIZE * other + RECORD.KIND] === SECTOR_KIND.MODE1;
    throw new Fault(isMode1 ? 'replace/damaged' : 'replace/not-mode1', { block: blocks[other] });
}

function setLines(lines: LineList, place: Place, old: Uint8Array, fresh: Uint8Array) {
    for (let done = 0; done < old.length; done += PATCH_SIZE) {
        const { block, offset } = placeAfter(place, done);
        const [from, to] = [old, fresh].map(bytes => bytes.subarray(done, done + PATCH_SIZE));
        lines.set(block, offset, to, from);
    }
}

/**
 * Generates the lines that change the user data of a range of a file's sectors. A job for a worker. A sector that is not consistent is left
 * out.
 * @param contents 2048 bytes for each sector
 * @param args the end of the file, as a number of user bytes from block 0 on
 */
export function replaceRange(calls: Calls, sectors: Uint8Array, contents: Uint8Array, first: number, { end }: { end: number }): Lines {
    const user = joinedUser(sectors);
    user.set(contents.subarray(0, Math.max(end - first * USER_SIZE, 0)));
    const left: Left[] = [];
    const userAt = (i: number) => user.subarray(USER_SIZE * i, USER_SIZE * (i + 1));
    const all = Array.from({ length: sectorCount(sectors.length) }, (_, i) => i);
    const differing = all.filter(i => !sameBytes(userOf(sectors, i), userAt(i)));
    const records = calls.survey(sectorsAt(sectors, differing), 0);
    const changed = differing.filter((i, k) => {
        const kind = records[RECORD_SIZE * k + RECORD.KIND];
        if (isSound(records, RECORD_SIZE * k)) return true;
        addToRuns(left, { ...runOf(first + i), why: kind === SECTOR_KIND.MODE1 ? 'damaged' : 'kind', kinds: [kind] });
        return false;
    });
    const old = sectorsAt(sectors, changed);
    const fresh = encodedUser(calls, old, joinedBytes(changed.map(userAt)));
    return { ...linesBetween(calls, { blocks: changed.map(i => first + i), old, fresh }), left };
}

// Creates the script that replaces a file of a disc.

/** The entries of a volume, and its own blocks. */
export type VolumeNames = Pick<VolumeFiles, 'entries' | 'udf' | 'own' | 'tables' | 'files'>;
/**
 * The finished script, null if a sector is left out because it is not consistent; the file that it replaces; and the paths of other files
 * that have some of the blocks, and change too.
 */
type Replacement = { script: Script | null, left: Left[], file: WholeFile, sharing: string[] };

/** @param extent the extent whose sectors' size in bytes is returned */
export function extentRoom({ size }: { size: number }) {
    return Math.ceil(size / USER_SIZE) * USER_SIZE;
}

export function extentKey({ block, size }: FileEntry) {
    return `${block} ${size}`;
}

/** The range of an extent's length in its directory record. */
export function placeOfLength({ record: { block, offset } }: FileEntry): UserRange {
    return { block, offset: offset + SIZE_FIELD.offset, size: SIZE_FIELD.length };
}

/**
 * The extents of a file, in the order of its bytes, with the lengths that their records have on a patched disc.
 * @param patchedSector returns a sector of that disc
 */
export async function patchedExtents(entries: FileEntry[], patchedSector: (block: number) => Promise<Uint8Array>): Promise<FileEntry[]> {
    const found = [];
    let before = 0;
    for (const entry of [...entries].sort((a, b) => a.before - b.before)) {
        const { block, offset } = placeOfLength(entry);
        const { buffer, byteOffset, length } = await patchedSector(block);
        const size = new DataView(buffer, byteOffset, length).getUint32(USER_OFFSET + offset, true);
        found.push({ ...entry, size, before });
        before += size;
    }
    return found;
}

/**
 * The ranges in which the lines that replace a file write: its sectors, and the lengths in its records.
 * @param extents of the file
 */
export function placesOfFile(names: Pick<VolumeNames, 'entries'>, extents: FileEntry[]): UserRange[] {
    const records = [...recordsByKey(names.entries, extents).values()].flat();
    return [...extents.map(extent => ({ block: extent.block, offset: 0, size: extentRoom(extent) })),
        ...records.map(placeOfLength)];
}

/**
 * Returns a function that tells whether a range of blocks has some of a file's.
 * @param extents of the file
 */
function meetingOf(extents: FileEntry[]) {
    const inOrder = extents.filter(({ size }) => size > 0).sort((a, b) => a.block - b.block);
    const begins = inOrder.map(({ block }) => block);
    return (first: number, end: number) => {
        const i = firstAfter(begins, end - 1) - 1;
        return i >= 0 && endOfExtent(inOrder[i]) > first;
    };
}

/**
 * The other files that have some of a file's blocks. Throws a Fault if some are the volume's own. Also throws if the length changes but
 * must not, because the disc also has UDF, or because a different extent has some of the blocks.
 * @param keeps whether the file keeps its length
 */
export function sharingWith({ path, extents }: WholeFile, { udf, own, tables, entries, files }: VolumeNames, keeps: boolean) {
    const meets = meetingOf(extents);
    const mine = [...own.keys(), ...tables].find(block => meets(block, block + 1));
    if (mine !== undefined) throw new Fault('replace/own-block', { path, block: mine, kind: own.get(mine) || 'path table' });
    if (!keeps && udf) throw new Fault('replace/udf', { path });
    const same = new Set(extents.map(extentKey));
    const isIn = (it: FileEntry) => it.size > 0 && meets(it.block, endOfExtent(it));
    const other = keeps ? undefined : entries.find(it => !same.has(extentKey(it)) && isIn(it));
    if (other) throw new Fault('replace/shared-length', { path, other: other.path });
    return [...new Set(files.filter(it => it.path !== path && isIn(it)).map(it => it.path))];
}

/** Adds the lines that change the size in records, in both byte orders. */
export async function pushSize(calls: Calls, image: DiscImage, parts: ScriptParts, records: FileEntry[], size: number) {
    const fresh = new Uint8Array(SIZE_FIELD.length);
    const inSectorOrder = { ...image, order: undefined };
    [true, false].forEach((little, i) => new DataView(fresh.buffer).setUint32(4 * i, size, little));
    for (const { record: { block, offset } } of records) {
        const place = { block, offset: offset + SIZE_FIELD.offset };
        const { bytes } = await bytesAround(inSectorOrder, place, 0, SIZE_FIELD.length);
        parts.push(await replaceBytes(calls, inSectorOrder, place, bytes, fresh));
    }
}

/** The entries of extents in all trees of names, by extentKey. */
export function recordsByKey(entries: FileEntry[], extents: FileEntry[]) {
    const records: Map<string, FileEntry[]> = new Map(extents.map(it => [extentKey(it), []]));
    for (const it of entries) records.get(extentKey(it))?.push(it);
    return records;
}

/**
 * Creates the script that replaces the bytes of a file. Without `fill` the new file may be as long as the sectors of the old one. Then its
 * records get the new length, and the rest becomes 00. With `fill` the length does not change. Throws a Fault.
 * @param options the entries of the file's path, the new file, and the byte of the padding
 */
export async function replaceFile({ calls, pool }: Engine, opened: Pick<OpenedTrack, 'image' | 'part' | 'contents'>,
    { entries, newFile, fill }: { entries: FileEntry[], newFile: Reader, fill?: number }, how: Sharing = {}): Promise<Replacement> {
    const { names, ...file } = await fileOfTrack(opened, entries);
    const { path, size, extents } = file;
    const { part: image } = opened;
    const keeps = fill !== undefined || newFile.size === size;
    const lengths = extents.map(extent => keeps ? extent.size : extentRoom(extent));
    const room = lengths.reduce((sum, length) => sum + length, 0);
    if (newFile.size > room) throw new Fault('replace/long-file', { path, size, room: keeps ? null : room, wanted: newFile.size });
    const sharing = sharingWith(file, names, keeps);
    const records = recordsByKey(names.entries, extents);
    const parts = new ScriptParts();
    const filled = filledReader(newFile, room + USER_SIZE, fill);
    let before = 0;
    for (const [i, extent] of extents.entries()) {
        const count = extentRoom(extent) / USER_SIZE;
        const fresh = Math.max(Math.min(newFile.size - before, lengths[i]), 0);
        if (!keeps && fresh !== extent.size) await pushSize(calls, image, parts, records.get(extentKey(extent)) || [], fresh);
        const first = extent.block - image.base;
        const old = sliceOf(image.reader, first * SECTOR_SIZE, (first + count) * SECTOR_SIZE);
        const readers = [old, sliceOf(filled, before, before + count * USER_SIZE)];
        const shared = { ...how, base: extent.block, units: [SECTOR_SIZE, USER_SIZE] };
        await pool.share('replace', readers, { end: extent.block * USER_SIZE + lengths[i] }, shared, lines => parts.push(lines));
        before += lengths[i];
    }
    const script = parts.left.length > 0 ? null : scriptForBase(parts.script(calls), opened.image.base);
    return { script, left: parts.left, file, sharing };
}

/** Throws a Fault if a new text has more bytes than its room. */
export function assertHasRoom({ name }: Encoding, fresh: Uint8Array, room: number) {
    if (fresh.length > room) throw new Fault('replace/no-room', { name, size: fresh.length, room });
}

/**
 * Fits texts, in the order of their places, and returns those that are left out, with the reasons.
 * @param placeOf the place of a text, in bytes
 * @param fit returns how many bytes are replaced. It throws a Fault if the text does not fit, for example if it overlaps `before`, the text
 *     before it
 */
export async function fittedEach<T>(texts: T[], placeOf: (text: T) => number, { signal, progress }: Watch,
    fit: (text: T, before: T | null) => Promise<number>) {
    const left: { text: T, why: Remark }[] = [];
    let last = null as T | null;
    let end = 0;
    for (const [i, text] of texts.entries()) {
        await letOthersIn(signal);
        if (progress) progress(i, texts.length);
        const at = placeOf(text);
        try {
            const size = await fit(text, at < end ? last : null);
            last = text;
            end = at + size;
        } catch (error) {
            if (!(error instanceof Fault)) throw error;
            left.push({ text, why: remark(error.code, error.facts) });
        }
    }
    return left;
}

/** A reader for places in their order. Those that are near one another share a read: many short reads of a file are slow in a browser. */
function nearReader(reader: Reader): Reader {
    const ahead = new ReadAhead(reader);
    return { size: reader.size, read: async (at, length) => (await ahead.bytesAt(at, length)).slice() };
}

/**
 * Creates the script that replaces the hits of a text, and fits the image; null if no hit can be replaced. Also returns the hits that are
 * left out, each with the reason: a hit may begin in the middle of a character, overlap the one before it, have no room for the text, or
 * lie in a sector that is damaged or not Mode 1.
 * @param options `freshFor` returns the new bytes for a number of old ones, or throws a Fault if they do not fit. `inside`: whether hits
 *     are replaced that may begin in the middle of a character
 */
export async function replaceHits({ calls }: Pick<Engine, 'calls'>, opened: Pick<OpenedTrack, 'image'>,
    { image, encoding, hits, freshFor, inside = false }: Places & { freshFor: (size: number) => Uint8Array, inside?: boolean },
    watch: Watch = {}) {
    const parts = new ScriptParts();
    const window = { ...image, reader: nearReader(image.reader) };
    const near = { ...window, order: image.order && new FileOrder(window, image.order.runs) };
    const left = await fittedEach(hits, hit => bytesBefore(image, hit), watch, async (hit, before) => {
        const { bytes, doubt } = await contextOf(near, encoding, hit, 0);
        if (before !== null) throw new Fault('replace/overlaps', {});
        if (doubt !== null && !inside) throw new Fault(doubt.code, doubt.facts);
        parts.push(await replaceBytes(calls, near, hit, bytes, freshFor(hit.size), true));
        return hit.size;
    });
    return { script: await fittingScript(calls, opened.image, parts), left };
}
