// Opens a disc, which is one raw image, or a cue sheet and the files that it names. Determines its tracks, and the image and the first
// block of each.

import type { Reader } from '../bytes.js';
import { textOfFile } from '../encodings/index.js';
import { Fault, type FileKind } from '../faults.js';
import type { FileOrder } from '../iso/index.js';
import { SECTOR_KIND, SECTOR_SIZE, sectorCount, type Calls } from '../module/index.js';
import { sliceOf } from '../readers/index.js';
import { addressIn, blockAt, imageTooLong, isSound, isSoundMode2, testMode2 } from '../sectors/index.js';
import { sheetsOf, tracksOf, type Sheet, type Track } from './cue.js';
import { recognised, sampledSectors } from './file_type.js';

// Determines the first block of a raw image from the addresses of its sectors. A cue sheet is used only if these do not show it, because
// the gaps in the sheet may be missing in the file.

const SAMPLES_OF_ADDRESSES = 64;
const SAMPLED_TOGETHER = 8;
/** The fewest sound sectors at the beginning of an image that decide its base. */
const FEWEST_FIRST = 4;

/** Of `count` sectors: how many of them fit each base. */
export type Addresses = { bases: Map<number, number>, count: number };

/**
 * Counts the bases that the addresses of sampled sectors imply, separately for Mode 1 and Mode 2, which have the same header. `first` lists
 * the bases of the sound sectors at the beginning of the image, and `soundMode2` is how many Mode 2 sectors are sound.
 */
async function sampledBases(calls: Calls, reader: Reader) {
    const [mode1, mode2]: Addresses[] = [0, 0].map(count => ({ bases: new Map(), count }));
    const first: number[] = [];
    let soundMode2 = 0;
    const byKind = new Map([[SECTOR_KIND.MODE1, mode1], [SECTOR_KIND.MODE2, mode2]]);
    for await (const { number, sector } of sampledSectors(reader, SECTOR_SIZE, SAMPLED_TOGETHER, SAMPLES_OF_ADDRESSES)) {
        const own = byKind.get(calls.kind(sector));
        if (own === undefined) continue;
        own.count += 1;
        soundMode2 += Number(own === mode2 && isSoundSector(calls, sector));
        const block = blockAt(calls, addressIn(sector, 0));
        if (block === null) continue;
        own.bases.set(block - number, (own.bases.get(block - number) || 0) + 1);
        if (number < SAMPLED_TOGETHER && isSoundSector(calls, sector)) first.push(block - number);
    }
    return { mode1, mode2, first, soundMode2 };
}

/** Whether a sector was tested and is sound, except its address. */
function isSoundSector(calls: Calls, sector: Uint8Array) {
    const records = calls.survey(sector, 0);
    return isSound(records, 0) || isSoundMode2(testMode2(calls, sector, records, null)[0]);
}

/** The base that the most addresses fit, and how many of them fit it. */
function mostSaid({ bases, count }: Addresses) {
    const [[base, agreeing]] = [...[...bases].sort(([, a], [, b]) => b - a), [0, 0]];
    return { base, agreeing, count };
}

/**
 * The base that the most sampled Mode 1 sectors imply, below 0 if the image begins before block 0; how many sectors imply it (`agreeing`);
 * how many were sampled (`mode1`); and how many sampled Mode 2 sectors are sound.
 */
export async function sampledBase(calls: Calls, reader: Reader) {
    const { mode1, soundMode2 } = await sampledBases(calls, reader);
    const { base, agreeing, count } = mostSaid(mode1);
    return { base, agreeing, mode1: count, soundMode2 };
}

/**
 * The base of an image according to its addresses, or null if they do not show it. It is below 0 if the image begins before block 0. If the
 * sound sectors at the beginning agree, their base counts: the addresses of most sectors may imply a different base, because some sectors
 * are missing or extra. Otherwise the base counts that more than half of the sampled Mode 1 sectors imply, or of the Mode 2 sectors if
 * there is no Mode 1.
 */
export async function baseByAddresses(calls: Calls, reader: Reader) {
    const { mode1, mode2, first } = await sampledBases(calls, reader);
    if (first.length >= FEWEST_FIRST && first.every(base => base === first[0])) return first[0];
    const { base, agreeing, count } = mostSaid(mode1.count > 0 ? mode1 : mode2);
    return 2 * agreeing > count ? base : null;
}

export type DiscFile = { name: string, reader: Reader };
/**
 * An image of sectors. `base` is the block of its first sector. `addressed` is that block according to the addresses of the sectors. If it
 * is null or below 0, `base` is from the cue sheet, or 0.
 */
export type DiscImage = { name: string, reader: Reader, base: number, addressed: number | null, sectors: number, tail: number };
/**
 * An image whose texts are read in the order of its files, or of its sectors if `order` is undefined. The functions on texts accept only
 * this type, so that no caller forgets the order. `fileSize` is how many bytes a plain file has, if its bytes are presented as sectors.
 */
export type OrderedImage = DiscImage & { order: FileOrder | undefined, fileSize?: number };
/**
 * A track. Without a cue sheet there is one. `file` is the index of its file in the disc's files, or -1 if that file is not open, and
 * `fileName` is its name in the cue sheet. `at` is the byte of its INDEX 01 in that file, null if unknown, and `pregap` is how many bytes
 * of its pregap precede it there. `image` is the whole file, and `part` is the track in it, from its INDEX 01 on. Both are null if it is
 * not data with 2352 bytes per sector.
 */
export type DiscTrack = { number: number, type: string, file: number, fileName: string, block: number | null, at: number | null,
    pregap: number, sectors: number | null, image: DiscImage | null, part: DiscImage | null };
/** A disc: the name and the text of its cue sheet, null and '' without one; its open files; and its tracks. */
export type Disc = { sheet: string | null, sheetText: string, files: DiscFile[], tracks: DiscTrack[] };
/** A file, its kind, and the bytes of a cue sheet. */
export type KnownFile = { file: DiscFile, kind: FileKind, sheet: Uint8Array | null };
/** Returns the files beside a cue sheet that its readings name. The core chooses among them. */
export type Siblings = (sheet: DiscFile, readings: Sheet[]) => Promise<DiscFile[]>;

/** The kinds of files that are, or describe, a disc. */
const IN_DISCS = ['raw', 'audio', 'cue'];
/** The kinds of files whose bytes do not show what they are for. */
const UNSHOWN_KINDS = ['unknown', 'text'];

const RAW_TYPES = ['MODE1/2352', 'MODE2/2352', 'CDI/2352'];

/** The kinds of files, and the bytes of those that are cue sheets. */
export function knownFiles(calls: Calls, files: DiscFile[]): Promise<KnownFile[]> {
    return Promise.all(files.map(async file => ({ file, ...await recognised(calls, file.reader) })));
}

/**
 * Opens the disc that files are: a raw image, or a cue sheet and the files that it names. Each file is recognised once, and the sheet is
 * read once. Returns the kinds of the files, and the disc; null if there is one file, and it is neither an image nor a cue sheet. Throws a
 * Fault, and what a reader throws.
 * @param files that were chosen
 */
export async function openChosen(calls: Calls, files: DiscFile[], siblings?: Siblings) {
    const known = await knownFiles(calls, files);
    const isOther = known.length === 1 && !IN_DISCS.includes(known[0].kind);
    return { kinds: known.map(({ kind }) => kind), disc: isOther ? null : await openKnown(calls, known, siblings) };
}

/**
 * Opens the disc that files are. Throws a Fault, also if it is none, and what a reader throws.
 * @param files that were chosen
 */
export async function openDisc(calls: Calls, files: DiscFile[], siblings?: Siblings) {
    return openKnown(calls, await knownFiles(calls, files), siblings);
}

/** Opens the disc that files are whose kinds are known. Throws a Fault, also if it is none, and what a reader throws. */
export async function openKnown(calls: Calls, chosen: KnownFile[], siblings: Siblings = async () => []): Promise<Disc> {
    const [first] = chosen.filter(({ kind }) => kind === 'cue');
    const readings = first && first.sheet ? sheetsOf(first.sheet) : [];
    const known = first ? [...chosen, ...await knownFiles(calls, await siblings(first.file, readings))] : chosen;
    const others = known.filter(it => it !== first);
    const second = others.find(({ kind }) => kind === 'cue');
    if (second) throw new Fault('disc/two-sheets', { one: first.file.name, other: second.file.name });
    const disc = first ? await openSheet(calls, first, readings, others) : await openImage(calls, known);
    const long = disc.files.find(({ reader }) => imageTooLong(reader.size));
    if (long) throw new Fault('disc/other-file', { name: long.name, kind: 'long' });
    return disc;
}

async function openImage(calls: Calls, known: KnownFile[]): Promise<Disc> {
    if (known.length !== 1) {
        const other = known.find(({ kind }) => !IN_DISCS.includes(kind) && !UNSHOWN_KINDS.includes(kind));
        throw other ? otherFile(other) : new Fault('disc/no-image', {});
    }
    const [{ file }] = known;
    const image = assertSectors(known[0]) === 'raw' ? await imageOf(calls, file, 0) : null;
    const place = { file: 0, fileName: file.name, block: image && image.base, at: 0, pregap: 0, sectors: sectorCount(file.reader.size) };
    return { sheet: null, sheetText: '', files: [file], tracks: [{ number: 1, type: '', ...place, image, part: image }] };
}

/** The kind of a file of sectors, `raw` or `audio`. Throws a Fault, `disc`, for any other kind. */
function assertSectors(known: KnownFile) {
    const { kind } = known;
    if (kind !== 'raw' && kind !== 'audio') throw otherFile(known);
    return kind;
}

function otherFile({ file: { name }, kind }: KnownFile) {
    return new Fault('disc/other-file', { name, kind });
}

/**
 * The data track with a number, or the first data track. An image without a cue sheet is the track of any number. Throws a Fault, `disc`,
 * if there is none.
 */
export function dataTrack({ sheet, tracks }: Disc, number: number | null = null): DiscTrack & { image: DiscImage, part: DiscImage } {
    const named = number === null || sheet === null ? tracks : tracks.filter(track => track.number === number);
    if (named.length === 0) {
        throw new Fault('disc/no-track', { sheet: String(sheet), track: Number(number), tracks: tracks.map(it => it.number) });
    }
    const track = named.find(it => it.image !== null);
    if (track && track.image && track.part) return { ...track, image: track.image, part: track.part };
    throw number === null || sheet === null ? new Fault('disc/no-data', {}) : new Fault('disc/other-track', { track: number });
}

/**
 * @param first the sheet
 * @param readings of it
 */
async function openSheet(calls: Calls, { file: { name: sheetName }, sheet: bytes }: KnownFile, readings: Sheet[],
    others: KnownFile[]): Promise<Disc> {
    const sheet = sheetOfFiles(readings, others);
    const files = sheet.files.map(({ name }) => fileNamed(name, others));
    const known = { ...sheet, files: sheet.files.map((file, i) => ({ ...file, raw: file.raw && files[i] !== null })) };
    const open = [...new Set(files.flatMap(it => it === null ? [] : it.file))];
    const tracks = [];
    for (const track of tracksOf(known, files.map(it => it ? it.file.reader.size : 0))) {
        const file = files[track.file];
        if (file === null && isData(track)) {
            const missing = sheet.files.map(it => it.name).filter((_, i) => files[i] === null);
            throw new Fault('disc/missing-files', { sheet: sheetName, file: sheet.files[track.file].name, names: missing });
        }
        if (file !== null && isRaw(track)) assertOneSize(file, known, track);
        const place = { file: file === null ? -1 : open.indexOf(file.file), fileName: sheet.files[track.file].name };
        tracks.push(await trackOf(calls, track, file && file.file, place));
    }
    return { sheet: sheetName, sheetText: bytes === null ? '' : textOfFile(bytes), files: open, tracks };
}

/** Chooses the reading of a sheet that names the most files. */
function sheetOfFiles(sheets: Sheet[], files: KnownFile[]) {
    const named = (sheet: Sheet) => sheet.files.filter(({ name }) => fileNamed(name, files) !== null).length;
    return sheets.reduce((best, sheet) => named(sheet) > named(best) ? sheet : best);
}

function isData({ type }: { type: string }) {
    return type !== 'AUDIO' && type !== 'CDG';
}

function isRaw({ type }: { type: string }) {
    return RAW_TYPES.includes(type);
}

/**
 * Finds the file that a sheet names, by its path below the sheet, or else by its last name, each first in the exact case and then in any
 * case. Null if there is none.
 */
function fileNamed(name: string, files: KnownFile[]) {
    const path = (it: string) => `/${it.replace(/\\/g, '/')}`;
    const last = (it: string) => path(it).replace(/^.*\//, '/');
    for (const end of new Set([path(name), last(name)])) {
        const found = files.find(({ file }) => path(file.name).endsWith(end))
            || files.find(({ file }) => path(file.name).toLowerCase().endsWith(end.toLowerCase()));
        if (found) return found;
    }
    return null;
}

async function trackOf(calls: Calls, track: Track, file: DiscFile | null, place: Pick<DiscTrack, 'file' | 'fileName'>): Promise<DiscTrack> {
    const { number, type, at, end, block, pregap, sectorSize } = track;
    const sectors = at === null || end === null ? null : Math.floor((end - at) / sectorSize);
    const shared = { number, type, ...place, block, at, pregap, sectors };
    if (!isRaw(track) || file === null || at === null || end === null) return { ...shared, image: null, part: null };
    const part = await imageOf(calls, { name: file.name, reader: sliceOf(file.reader, at, end) }, block);
    const before = at / SECTOR_SIZE;
    const image = imageAround(part, file.reader, before);
    // In both, blocks are counted from the base of the whole image, even if the addresses disagree.
    const own = { ...part, base: image.base + before };
    return { ...shared, block: own.base, image, part: own };
}

/** The image that contains a part, as a whole file or as a longer part. `before` is how many sectors precede the part. */
export function imageAround({ name, base, addressed }: DiscImage, reader: Reader, before: number): DiscImage {
    const first = addressed === null ? null : addressed - before;
    return { name, reader, base: Math.max(base - before, 0), addressed: first, ...sizesOf(reader) };
}

/** Throws a Fault, `disc`, if the file of a track also has sectors of a size other than 2352 bytes, or is not a file of sectors. */
function assertOneSize(known: KnownFile, sheet: Sheet, track: Track) {
    const others = sheet.points.filter(point => point.file === track.file && point.track.sectorSize !== SECTOR_SIZE);
    if (others.length > 0) {
        const { number, sectorSize: size } = others[0].track;
        throw new Fault('disc/sector-size', { track: number, name: known.file.name, size });
    }
    assertSectors(known);
}

function sizesOf({ size }: Reader) {
    return { sectors: sectorCount(size), tail: size % SECTOR_SIZE };
}

/** @param block the block of its first sector according to a cue sheet */
async function imageOf(calls: Calls, { name, reader }: DiscFile, block: number | null): Promise<DiscImage> {
    const base = await baseByAddresses(calls, reader);
    const said = block !== null && calls.address(block) !== null ? block : 0;
    return { name, reader, base: base !== null && base >= 0 ? base : said, addressed: base, ...sizesOf(reader) };
}
