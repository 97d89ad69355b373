// The list that `scan` writes. It can continue where an earlier run was interrupted.

import { closeSync, fstatSync, ftruncateSync, openSync, readFileSync, readSync, statSync, type BigIntStats } from 'node:fs';
import { basename } from 'node:path';
import { bytesOfLines } from '../core/bytes.js';
import { isSheetName, type KnownDumps } from '../core/disc/views.js';
import { COLUMN, NOT_TESTED, NO_DAT, lacksHash, listedName, nameOfListed, saidOfFile } from '../core/tasks/index.js';
import { ownFault, sentenceOf } from '../sentences/index.js';
import type { Collection, Wanted } from './collection.js';
import { timeText } from './files.js';
import type { Needs } from './hashes.js';
import type { Job } from './job.js';
import { pathOf, replaceFile, writeFully } from './new_file.js';
import { hasCode, letSignalsIn, tryFile } from './system.js';

// The order of `scan`: the order in which files are examined, and that of the lines, which is the order of the names in them.

/**
 * A file to examine, and its names in the list: those of all lines that it may give. If it is a cue sheet: the files that it names, whether
 * none of these is missing, and the units of those that are to be examined too, unless the sheet reports them. `sheets` is how many cue
 * sheets name the file and are not done yet.
 */
export type Unit = { wanted: Wanted, names: string[], named: string[], isWhole: boolean, files: Unit[], sheets: number };

/** The files to examine, in the order of the first names that they may give. */
export function unitsOf(collection: Collection) {
    const units = Array.from(collection.found.values(), wanted => {
        const { names: named, isWhole } = collection.filesNamedBy(wanted);
        const names = [...new Set([wanted.name, ...named].map(listedName))].sort();
        return { wanted, names, named, isWhole, files: [], sheets: 0 } as Unit;
    });
    const files = new Map<string, Unit[]>();
    for (const unit of units) {
        const { name, id } = unit.wanted;
        if (!files.has(id)) files.set(id, []);
        if (!isSheetName(name)) files.get(id)?.push(unit);
    }
    for (const unit of units) {
        unit.files = [...new Set(unit.named.map(name => collection.fileNamed(name).id))].flatMap(id => files.get(id) || []);
        unit.files.forEach(it => void (it.sheets += 1));
    }
    return units.sort(({ names: [a] }, { names: [b] }) => Number(a > b) - Number(a < b));
}

/** Holds lines back until no line with a name before theirs can come. */
export class LinesInOrder {
    /** How many units may still give a line with this name. */
    open = new Map<string, number>();
    at = 0;
    held = new Map<string, Uint8Array>();
    names;

    constructor(units: Unit[]) {
        for (const name of units.flatMap(it => it.names)) this.open.set(name, (this.open.get(name) || 0) + 1);
        this.names = [...this.open.keys()].sort();
    }

    /** Adds the lines of a unit, by their names. Returns the lines that can be written now, in order. */
    add({ names }: Unit, lines: Map<string, Uint8Array>) {
        /** Those with a name that was not expected, such as that of a file that changes meanwhile. */
        const ready: Uint8Array[] = [];
        for (const [name, line] of lines) {
            if (this.open.get(name)) this.held.set(name, line);
            else ready.push(line);
        }
        for (const name of names) this.open.set(name, (this.open.get(name) || 0) - 1);
        for (; this.at < this.names.length && this.open.get(this.names[this.at]) === 0; this.at += 1) {
            const line = this.held.get(this.names[this.at]);
            if (line !== undefined) ready.push(line);
            this.held.delete(this.names[this.at]);
        }
        return ready;
    }
}

/** The size of a file, and the time of its change, '' if that is not valid. */
export type FileState = { size: number, changed: string };

export function stateIn(stat: BigIntStats): FileState {
    return { size: Number(stat.size), changed: timeText(stat) };
}

const LINE_FEED = 0x0A;

/** Matches a line of a list. */
const LISTED = new RegExp(['^[^\\t]+', '[^\\t]*', '(?:\\d+|-)', '(?:\\d+|-)', '(?:\\d+|-)', '[0-9a-f]{40}', '[^\\t]+', '\\d+',
    '(?:[-0-9T:.+]+Z|-)', '(?:[0-9a-f]{8}|-)', '(?:[0-9a-f]{32}|-)$'].join('\\t'));

/** Each line of a list has fewer bytes: a name has at most 4095 bytes, each of which becomes at most ten. */
const LONGEST_LINE = 1 << 17;

class Line {
    /** Whether the file still exists. */
    isThere = true;
    cells; listed; name; kinds; hasFindings; size; changed; hashes;

    constructor(text: string) {
        const cells = text.split('\t');
        const [sha1, crc32, md5] = [COLUMN.SHA1, COLUMN.CRC32, COLUMN.MD5].map(i => cells[i] === NOT_TESTED ? '' : cells[i]);
        this.cells = cells;
        this.listed = cells[COLUMN.NAME];
        this.name = nameOfListed(this.listed);
        this.kinds = cells[COLUMN.KINDS];
        this.hasFindings = Number(cells[COLUMN.FINDINGS]) > 0;
        this.size = Number(cells[COLUMN.BYTES]);
        this.changed = cells[COLUMN.CHANGED];
        this.hashes = { sha1, crc32, md5 };
    }

    get text() {
        return this.cells.join('\t');
    }

    /** Whether a DAT was asked about the file. */
    get isLookedUp() {
        return this.cells[COLUMN.SAID] !== NO_DAT;
    }

    /** Looks the file up in a DAT. Returns whether the line has changed. */
    lookUp(known: KnownDumps) {
        const before = this.cells[COLUMN.SAID];
        this.cells[COLUMN.SAID] = saidOfFile(known, { size: this.size, hashes: this.hashes, own: basename(this.name) }, sentenceOf);
        return this.cells[COLUMN.SAID] !== before;
    }

    /** Whether the line says of its file what is true now, as far as its size and time show; also if the file no longer exists. */
    isValid(needs: Needs, known: FileState | null | undefined) {
        try {
            const { size, changed } = known || stateIn(statSync(pathOf(this.name), { bigint: true }));
            return this.size === size && this.changed === (changed || NOT_TESTED) && !lacksHash(needs, this.hashes);
        } catch (error) {
            this.isThere = !hasCode(error, 'ENOENT') && !hasCode(error, 'ENOTDIR');
            return !this.isThere;
        }
    }
}

function inOrder(lines: Line[]) {
    return [...lines].sort((a, b) => Number(a.listed > b.listed) - Number(a.listed < b.listed));
}

/** @param bytes of whole lines */
function textsOf(bytes: Uint8Array) {
    return new TextDecoder().decode(bytes).split('\n').slice(0, -1);
}

/**
 * A list that continues where an earlier run was interrupted. It has whole lines only, whatever happens. Another run may write to it at
 * the same time, and the list then has the lines of both. One race is left: a line is lost if the other run adds it after the last
 * comparison, before the new list gets its name, and that run is then killed. Otherwise it writes all its lines again at its end.
 */
export class ResumedList {
    size = 0;
    /** By the names in them. */
    lines = new Map<string, Line>();
    /** All lines that this run has read or written. Any other is new, and was added by another run. */
    seen = new Set<string>();
    isShared = false;
    descriptor;

    constructor(readonly name: string, readonly warn: (text: string) => void) {
        this.descriptor = openSync(name, 'a+');
        // To read a pipe could take for ever.
        if (!fstatSync(this.descriptor, { bigint: true }).isFile()) throw Object.assign(new Error(), { code: 'EFTYPE' });
    }

    /** The bytes of the file; only its beginning if it does not begin with a line of a list. */
    bytes() {
        const start = new Uint8Array(LONGEST_LINE);
        const read = start.subarray(0, readSync(this.descriptor, start, 0, start.length, 0));
        const end = read.indexOf(LINE_FEED);
        return end >= 0 && LISTED.test(new TextDecoder().decode(read.subarray(0, end))) ? readFileSync(this.name) : read;
    }

    /**
     * Adds the lines of the file that are new to this run, and removes an incomplete line at the end. Throws a Fault, and changes nothing,
     * if the file has any other content.
     */
    readLines() {
        const bytes = this.bytes();
        this.size = bytes.lastIndexOf(LINE_FEED) + 1;
        const texts = textsOf(bytes.subarray(0, this.size));
        if (bytes.length > 0 && (this.size === 0 || !texts.every(text => LISTED.test(text)))) {
            const advice = 'give --resume a list that scan wrote, or a new file';
            throw ownFault(`${this.name} was not written by cdscript scan, and was left unchanged; ${advice}`);
        }
        if (this.size < bytes.length) ftruncateSync(this.descriptor, this.size);
        this.add(texts.filter(text => !this.seen.has(text)).map(text => new Line(text)));
    }

    add(lines: Line[]) {
        for (const line of lines) {
            this.lines.set(line.listed, line);
            this.seen.add(line.text);
        }
    }

    /** The size of the file, or null if its name now belongs to a different file. */
    namedSize() {
        const [own, named] = [fstatSync(this.descriptor, { bigint: true }), statSync(this.name, { bigint: true })];
        return own.dev === named.dev && own.ino === named.ino ? Number(named.size) : null;
    }

    /** Opens the file that now has the name. */
    reopen() {
        const old = this.descriptor;
        this.descriptor = openSync(this.name, 'a+');
        closeSync(old);
    }

    /** Adds the lines of another run, which has changed or replaced the file. */
    join() {
        this.isShared = true;
        this.reopen();
        this.readLines();
    }

    /**
     * Removes the lines of files that may have changed, if these files are examined again, and looks up all others in a DAT, since the
     * earlier run may have had none or a different one. Returns how many lines have changed.
     * @param wanted the files that are examined, by their names in the list, with their states, as far as they are known
     */
    async bringUpToDate(wanted: Map<string, FileState | null>, needs: Needs, known: KnownDumps | null) {
        const stay: Line[] = [];
        for (const line of this.lines.values()) {
            await letSignalsIn();
            if (line.isValid(needs, wanted.get(line.listed)) || !wanted.has(line.listed)) stay.push(line);
        }
        const changed = known === null ? 0 : stay.filter(line => line.lookUp(known)).length;
        if (changed > 0 || stay.length < this.lines.size) await this.replace(stay);
        return changed;
    }

    /** Replaces the lines that this run has read and written, in the order of the names. Those of another run are kept. */
    async replace(lines: Line[]) {
        this.lines.clear();
        this.add(lines);
        await tryFile('write', this.name, () => {
            let bytes;
            do {
                if (this.namedSize() !== this.size) this.join();
                bytes = bytesOfLines(inOrder([...this.lines.values()]).map(({ text }) => text));
            } while (!replaceFile(this.name, bytes, this.warn, () => this.namedSize() === this.size));
            this.size = bytes.length;
            this.reopen();
        });
    }

    /** Puts the lines in the order of the names in them. */
    async sort() {
        const lines = [...this.lines.values()];
        const isOwn = await tryFile('read', this.name, () => !this.isShared && this.namedSize() === this.size);
        if (!isOwn || inOrder(lines).some((line, i) => line !== lines[i])) await this.replace(lines);
    }

    /** @param bytes of whole lines */
    async write(bytes: Uint8Array) {
        await tryFile('write', this.name, () => {
            if (this.namedSize() === null) this.join();
            const before = Number(fstatSync(this.descriptor, { bigint: true }).size);
            try {
                writeFully(this.descriptor, bytes);
                this.size += bytes.length;
            } catch (error) {
                ftruncateSync(this.descriptor, before);
                throw error;
            }
        });
        this.add(textsOf(bytes).map(text => new Line(text)));
    }

    /** Closes the list. On a network disk, only this may report that lines were not written. */
    async close() {
        await tryFile('write', this.name, () => closeSync(this.descriptor));
    }
}

export async function resumedList({ options: { resume, output }, files }: Job): Promise<ResumedList | null> {
    if (resume === undefined) return null;
    if (output !== undefined) throw ownFault('--resume and -o cannot be used together');
    const list = await tryFile('open', resume, () => new ResumedList(resume, text => files.warn(text)));
    await tryFile('read', resume, () => list.readLines());
    // From now on, a signal waits for the end of `replaceFile`.
    files.onmake();
    return list;
}
