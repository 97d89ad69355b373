// The files of an ISO 9660 volume in a track of raw sectors, with Rock Ridge's or Joliet's names if it has them.

import { firstAfter, readBytes, type Reader } from '../bytes.js';
import { Fault, remark, type Remark } from '../faults.js';
import { SECTOR_SIZE, USER_SIZE, sectorCount } from '../module/index.js';
import { joinedUser, type Place } from '../sectors/index.js';
import { isTurnDue, letOthersIn } from '../turns.js';
import { FIRST_DESCRIPTOR, ownBlocks, tableBlocks, type OwnBlock, type RawTrack } from './file_order.js';
import { entriesOfDirectory, isSelf, recordAt, sharingSkip, type ExtentFault, type RecordPlace } from './records.js';

// Reads the directories of a volume. Its data may be hostile, so sectors are read only once, and the size of the image limits the results.

/** `visited` are the sectors of its directories. */
type TreeFiles = { files: FileEntry[], faults: Remark[], visited: Set<number> };
export type Directory = { path: string, extent: number, size: number, depth: number };
type Tree = { joliet: boolean, skip: number | null, number: number };

const LARGEST_DIRECTORY = 1 << 24;
const DEEPEST = 255;

/**
 * The limits of a volume: as many entries as its image has sectors, or FEWEST_ENTRIES if that is more; CHARACTERS_AN_ENTRY characters of
 * paths for each of them; and for every two, one area in which Rock Ridge continues records.
 */
const FEWEST_ENTRIES = 1 << 16;
const CHARACTERS_AN_ENTRY = 128;

const MOST_FAULTS = 1000;

/** Reads the directories of one tree of a volume. */
class Walk {
    found: TreeFiles = { files: [], faults: [], visited: new Set() };
    faults = 0;
    entries = 0;
    characters = 0;
    met; most; areas;

    constructor(readonly volume: VolumeReader, readonly tree: Tree) {
        /** The sectors of directories that were read. */
        this.met = this.found.visited;
        this.most = Math.max(volume.sectors, FEWEST_ENTRIES);
        this.areas = volume.areas;
    }

    fault(path: string, why: Remark) {
        this.faults += 1;
        if (this.faults > MOST_FAULTS) return;
        this.found.faults.push(remark('path', { path: path || '/', why }));
        this.characters += path.length + JSON.stringify(why).length;
    }

    /** Why nothing more is read, null if no limit is exceeded. */
    excess() {
        const characters = CHARACTERS_AN_ENTRY * this.most;
        if (this.entries > this.most) return remark('tree/many-entries', { most: this.most });
        if (this.characters > characters) return remark('tree/long-paths', { most: characters });
        const areas = this.most / 2;
        return this.volume.areas - this.areas > areas ? remark('tree/many-areas', { most: areas }) : null;
    }

    async walk(root: { extent: number, size: number }) {
        const directories: Directory[] = [{ path: '', depth: 0, extent: root.extent, size: root.size }];
        for (const directory of directories) {
            await this.read(directory, directories);
            const why = this.excess();
            if (why === null) continue;
            this.fault(directory.path, remark('tree/ends', { why }));
            break;
        }
        const { faults } = this.found;
        if (this.faults > faults.length) faults.push(remark('tree/more', { count: this.faults }));
        return this.found;
    }

    /** Adds the entries of a directory. `directories` are the directories to read, to which its own are added. */
    async read(directory: Directory, directories: Directory[]) {
        const { path, depth } = directory;
        const fault = (why: Remark) => this.fault(path, why);
        const user = await this.userOf(directory, fault);
        let isDeep = false;
        for await (const part of entriesOfDirectory(this.volume, user, { path, ...this.tree, fault })) {
            const { entry } = part;
            if (isTurnDue()) await letOthersIn();
            this.entries += 1;
            this.characters += entry.path.length;
            if (this.excess() !== null) break;
            if (entry.kind === 'file') this.found.files.push(this.fileOf(part, directory));
            else if (depth < DEEPEST) directories.push({ path: entry.path, depth: depth + 1, extent: entry.extent, size: entry.size });
            isDeep = isDeep || (entry.kind === 'directory' && depth >= DEEPEST);
        }
        if (isDeep) fault(remark('tree/deep', { most: DEEPEST }));
    }

    /** The user data of a directory, as far as it can be read. The rest is reported as a fault. */
    async userOf({ extent, size }: Directory, fault: (why: Remark) => void) {
        const block = this.volume.blockOf(extent);
        const wanted = Math.ceil(size / USER_SIZE);
        const count = size > LARGEST_DIRECTORY ? 0 : this.volume.available(extent, wanted);
        const sectors = Array.from({ length: count }, (_, i) => extent + i);
        const last = block + wanted - 1;
        const isShared = sectors.some(sector => this.met.has(sector));
        if (this.met.has(extent)) fault(remark('tree/same', { block }));
        else if (isShared) fault(remark('tree/shared', { first: block, last }));
        else if (size > LARGEST_DIRECTORY) fault(remark('tree/large', { block, size }));
        else if (count < wanted && count === 0) fault(remark('tree/missing', { block }));
        else if (count < wanted) fault(remark('tree/cut', { first: block, last }));
        if (isShared || count === 0) return new Uint8Array(0);
        sectors.forEach(sector => this.met.add(sector));
        return this.volume.user(extent, count);
    }

    fileOf({ entry: { path, extent, size, fault }, at, before }: RecordPlace, directory: Directory): FileEntry {
        const count = Math.ceil(size / USER_SIZE);
        const isLess = this.volume.available(extent, count) < count && (fault === null || fault.code === 'extent/several');
        const record = { block: this.volume.blockOf(directory.extent) + Math.floor(at / USER_SIZE), offset: at % USER_SIZE };
        return { path, block: this.volume.blockOf(extent), size, fault: isLess ? remark('extent/cut', {}) : fault, before, record };
    }
}

/** Reads all directories of a tree, the upper ones first. */
function walked(volume: VolumeReader, root: { extent: number, size: number }, tree: Tree) {
    return new Walk(volume, tree).walk(root);
}

// Reads the bytes of a file of a track in any order.

/** A reader of a file's bytes, and a function that returns the place of one of them on the disc. */
export function readerOfFile({ reader, base }: RawTrack, { extents, size }: WholeFile): { reader: Reader, placeOf: (at: number) => Place } {
    const parts = extents.filter(it => it.size > 0);
    const begins = parts.map(({ before }) => before);
    const partAt = (at: number) => parts[Math.max(firstAfter(begins, at) - 1, 0)];
    const placeOf = (at: number) => {
        const { before, block } = partAt(at);
        return { block: block + Math.floor((at - before) / USER_SIZE), offset: (at - before) % USER_SIZE };
    };
    const read = async (at: number, length: number) => {
        if (at >= size) return new Uint8Array(0);
        const part = partAt(at);
        const { block, offset } = placeOf(at);
        const count = Math.min(length, part.before + part.size - at);
        const sectors = Math.ceil((offset + count) / USER_SIZE);
        const bytes = await readBytes(reader, (block - base) * SECTOR_SIZE, sectors * SECTOR_SIZE);
        return joinedUser(bytes).subarray(offset, offset + count);
    };
    return { reader: { size, read }, placeOf };
}

/**
 * A file, or one extent of a file that has several; `before` is how many bytes of the file come before it. `fault` says why its bytes are
 * not simply those from its block on, null if they are; `record` is the place of its directory record.
 */
export type FileEntry = { path: string, block: number, size: number, fault: ExtentFault | null, before: number, record: Place };
/**
 * The files, sorted by block and with the best names available; what could not be read; all entries of the trees of names, some of them
 * several times; whether UDF names the files too; which blocks are the volume's own, each with its kind; those of its path tables; and the
 * number that the volume gives the first sector of its track.
 */
export type VolumeFiles = { files: FileEntry[], faults: Remark[], entries: FileEntry[], udf: boolean, own: Map<number, OwnBlock>,
    tables: number[], first: number };
/** Concatenates the user data of whole sectors. */
type UserIn = (bytes: Uint8Array) => Uint8Array;
/** A file, with its extents in the order of its bytes. */
export type WholeFile = { path: string, size: number, extents: FileEntry[] };

const MOST_DESCRIPTORS = 64;
const PRIMARY = 1;
const SUPPLEMENTARY = 2;
const LAST_DESCRIPTOR = 255;
const ROOT_RECORD = 156;
const ESCAPES = 88;
const NUMBER_IN_SET = 124;

/** The identifiers of consecutive descriptors: ISO 9660, and UDF with its beginning and end. */
const STANDARDS = ['CD001', 'BEA01', 'NSR02', 'NSR03', 'TEA01'];
/** The most sectors that are kept: many records may be continued in the same ones, and each read is slow in a browser. */
const MOST_KEPT = 4096;

/** Reads the user data of a track by the block numbers of its volume. */
export class VolumeReader {
    /** The number that the volume gives the first sector. */
    first = 0;
    /** How many areas were read in which records are continued. */
    areas = 0;
    /** The user data of sectors that were read one by one. */
    kept = new Map<number, Uint8Array>();
    sectors;

    constructor(readonly reader: Reader, readonly base: number, readonly userIn: UserIn) {
        this.sectors = sectorCount(reader.size);
    }

    blockOf(extent: number) {
        return extent - this.first + this.base;
    }

    /** How many sectors of an extent the image has. */
    available(extent: number, count: number) {
        const index = extent - this.first;
        return index < 0 ? 0 : Math.max(Math.min(count, this.sectors - index), 0);
    }

    /** The user data of consecutive sectors. */
    async user(extent: number, count: number) {
        const index = extent - this.first;
        const known = this.kept.get(index);
        if (count === 1 && known) return known;
        const user = this.userIn(await readBytes(this.reader, index * SECTOR_SIZE, count * SECTOR_SIZE));
        if (this.kept.size === MOST_KEPT) this.kept.clear();
        if (count === 1) this.kept.set(index, user);
        return user;
    }

    /** The record of a directory for itself, if a sector begins with one; or null. */
    async ownRecord(extent: number) {
        if (this.available(extent, 1) === 0) return null;
        const record = recordAt(await this.user(extent, 1), 0);
        return record && isSelf(record) ? record : null;
    }
}

/**
 * The files of a track's volume. Throws a Fault, `volume`, if there is none, and the errors of the reader.
 * @param reader of the track
 * @param base the block of its first sector
 * @param userIn by default for Mode 1
 */
export async function filesOf(reader: Reader, base: number, userIn: UserIn = joinedUser): Promise<VolumeFiles> {
    const volume = new VolumeReader(reader, base, userIn);
    const { primary, joliet, udf, count } = await descriptorsOf(volume);
    const { first, own: self } = await foundRoot(volume, rootOf(primary).extent);
    volume.first = first;
    const skip = await sharingSkip(volume, self);
    const number = numberIn(primary);
    const trees = [{ root: rootOf(primary), tree: { joliet: false, skip, number } }];
    const other = joliet && recordAt(joliet, ROOT_RECORD);
    if (other) trees.push({ root: other, tree: { joliet: true, skip: null, number } });
    if (skip === null) trees.reverse();
    const found = [];
    for (const { root, tree } of trees) found.push(await walked(volume, root, tree));
    const files = joinedFiles(found.map(it => it.files));
    files.sort((a, b) => a.block - b.block || Number(a.path > b.path) - Number(a.path < b.path));
    const faults = new Map(found.flatMap(it => it.faults).map(it => [JSON.stringify(it), it]));
    if (joliet && !other) faults.set('', remark('tree/no-joliet-root', {}));
    const own = ownBlocks(volume, count, found.flatMap(it => [...it.visited]));
    const tables = tableBlocks(volume, joliet === null ? [primary] : [primary, joliet]);
    return { files, faults: [...faults.values()], entries: found.flatMap(it => it.files), udf, own, tables, first };
}

/** Joins the entries of a path into one file. Throws a Fault if they do not have exactly its bytes. */
export function wholeFile(entries: FileEntry[]): WholeFile {
    const extents = [...entries].sort((a, b) => a.before - b.before);
    const [{ path }] = extents;
    let size = 0;
    for (const { fault, before, size: own } of extents) {
        if (fault !== null && fault.code !== 'extent/several') throw new Fault('path', { path, why: fault });
        if (before !== size) throw new Fault('extents/apart', { path, count: extents.length });
        size += own;
    }
    const ranges = extents.filter(it => it.size > 0).sort((a, b) => a.block - b.block);
    const isOver = ranges.some((it, i) => i > 0 && it.block < endOfExtent(ranges[i - 1]));
    if (isOver) throw new Fault('extents/over', { path });
    return { path, size, extents };
}

/** The block after an extent. */
export function endOfExtent({ block, size }: FileEntry) {
    return block + Math.ceil(size / USER_SIZE);
}

/**
 * Formats each entry of a list of files as a line.
 * @param shown formats a path
 */
export function filesLines(files: FileEntry[], shown: (path: string) => string, sentenceFor: (fault: ExtentFault) => string) {
    const reason = (fault: ExtentFault | null) => fault === null ? [] : [sentenceFor(fault)];
    return files.map(({ block, size, path, fault }) => [block, size, shown(path), ...reason(fault)].join('\t'));
}

function numberIn(descriptor: Uint8Array) {
    return descriptor[NUMBER_IN_SET] + 256 * descriptor[NUMBER_IN_SET + 1];
}

/** The files of the first tree, and those of the other tree at blocks that the first one does not name. */
function joinedFiles([files, others = []]: FileEntry[][]) {
    const known = new Set(files.map(({ block }) => block));
    return files.concat(others.filter(({ block, size }) => size > 0 && !known.has(block)));
}

/** The files that contain a user byte of a block: several if they share it. */
export function filesAt(files: FileEntry[], block: number, offset: number) {
    return files.filter(file => {
        const at = (block - file.block) * USER_SIZE + offset;
        return at >= 0 && at < file.size;
    });
}

/** The descriptors of a volume: the primary one, and Joliet's, if any; whether it has UDF; and how many sectors have descriptors. */
export async function descriptorsOf(volume: VolumeReader) {
    let primary = new Uint8Array(0);
    let joliet = null as Uint8Array | null;
    let [ended, udf] = [false, false];
    let count = 0;
    const most = volume.available(FIRST_DESCRIPTOR, MOST_DESCRIPTORS);
    for (let i = 0; i < most; i++) {
        const user = await volume.user(FIRST_DESCRIPTOR + i, 1);
        const standard = String.fromCharCode(...user.subarray(1, 6));
        if (!STANDARDS.includes(standard)) break;
        count += 1;
        udf = udf || standard.startsWith('NSR');
        ended = ended || standard !== 'CD001' || user[0] === LAST_DESCRIPTOR;
        if (ended) continue;
        if (user[0] === PRIMARY && primary.length === 0) primary = user;
        if (user[0] === SUPPLEMENTARY && isJoliet(user)) joliet = user;
    }
    if (primary.length === 0) {
        throw new Fault('volume/no-descriptor', { block: volume.blockOf(FIRST_DESCRIPTOR) });
    }
    const size = primary[128] + 256 * primary[129];
    if (size !== USER_SIZE) throw new Fault('volume/block-size', { size, due: USER_SIZE });
    return { primary, joliet, udf, count };
}

function isJoliet(descriptor: Uint8Array) {
    return ['%/@', '%/C', '%/E'].includes(String.fromCharCode(...descriptor.subarray(ESCAPES, ESCAPES + 3)));
}

function rootOf(descriptor: Uint8Array) {
    const root = recordAt(descriptor, ROOT_RECORD);
    if (root === null) throw new Fault('volume/no-root', {});
    return root;
}

/**
 * The root directory's record for itself, and the number that the volume gives the first sector of its track: 0, or the track's block if it
 * counts from the start of the disc. The extent in the record decides.
 * @param root its extent
 */
async function foundRoot(volume: VolumeReader, root: number) {
    const fitting = [];
    for (const first of new Set([0, volume.base])) {
        volume.first = first;
        const own = await volume.ownRecord(root);
        if (own !== null && own.extent === root) fitting.push({ first, own });
    }
    const blocks = [...new Set([volume.base + root, root])];
    if (fitting.length === 0) throw new Fault('volume/root-elsewhere', { blocks });
    if (fitting.length > 1) throw new Fault('volume/two-roots', { blocks });
    return fitting[0];
}
