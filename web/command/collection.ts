// Collects the files that `scan` examines.

import { existsSync, fstatSync, readFileSync, readdirSync, realpathSync, statSync, type BigIntStats } from 'node:fs';
import { dirname, join } from 'node:path';
import { LARGEST_SHEET, isSheetName, sheetsOf } from '../core/disc/views.js';
import { Fault } from '../core/faults.js';
import { letSignalsIn, reasonOf } from './system.js';
import { nameOfBytes, pathIn, pathOf } from './new_file.js';
import { pathsOfSheet } from './opening.js';
import { stateIn, type FileState } from './scan_list.js';
import type { Target } from './job.js';

/**
 * A file: whether it was given by its name; its real path; `id`, which is the same for all its hard links, and the real path if there are
 * none; and its size and time of change, null for what is not a regular file.
 */
export type Wanted = { name: string, isNamed: boolean, real: string, id: string, state: FileState | null };

/** Standard input, as a name. */
const INPUT = '-';

/** The files to examine, each once: the given paths, and everything in directories and below, in the order of the names. */
export class Collection {
    /** By the real path. */
    found = new Map<string, Wanted>();
    byName = new Map<string, Wanted>();
    /** The real paths of the directories that were searched. */
    searched = new Set<string>();
    /** Links to directories. */
    links: string[] = [];
    target;

    /** @param target which is excluded, wherever it is */
    constructor(readonly fault: (text: string) => void, { descriptor }: Target) {
        this.target = fstatSync(descriptor, { bigint: true });
    }

    /** @param paths that were given */
    async addPaths(paths: string[]) {
        for (const path of paths) await this.addNamed(path);
        // If the directory to which a link leads is in the collection too, its files have the names of their real place.
        for (const path of this.links) await this.addLinked(path);
    }

    /** @param path that was given */
    addNamed(path: string) {
        return this.tried(path, () => {
            if (path === INPUT) return void this.found.set(INPUT, { name: INPUT, isNamed: true, real: INPUT, id: INPUT, state: null });
            const stat = statSync(pathOf(path), { bigint: true });
            return stat.isDirectory() ? this.addAll(path) : this.addFile({ name: path, isNamed: true, ...fileAt(path, stat) }, stat);
        });
    }

    async addAll(directory: string) {
        const real = realPath(directory);
        if (this.searched.has(real)) return;
        this.searched.add(real);
        const entries = readdirSync(pathOf(directory), { withFileTypes: true, encoding: 'buffer' })
            .map(entry => ({ entry, name: nameOfBytes(entry.name) }))
            .sort((a, b) => Number(a.name > b.name) - Number(a.name < b.name));
        for (const { entry, name } of entries) {
            const path = pathIn(directory, name);
            if (entry.isDirectory()) await this.tried(path, () => this.addAll(path));
            else if (entry.isFile()) await this.tried(path, () => this.addEntry(path, pathIn(real, name)));
            else if (entry.isSymbolicLink()) await this.tried(path, () => this.addEntry(path));
        }
    }

    /**
     * @param path of a file, or of a link to anything
     * @param real the real path of a file
     */
    addEntry(path: string, real?: string) {
        const stat = statSync(pathOf(path), { bigint: true });
        if (stat.isFile()) this.addFile({ name: path, isNamed: false, ...fileAt(path, stat, real) }, stat);
        else if (stat.isDirectory()) this.links.push(path);
    }

    /** Searches a directory by a link, unless the link is inside that directory, which would be a loop. */
    addLinked(path: string) {
        return this.tried(path, () => {
            const isAround = join(realPath(dirname(path)), '/').startsWith(join(realPath(path), '/'));
            return isAround ? undefined : this.addAll(path);
        });
    }

    addFile(file: Wanted, { dev, ino }: BigIntStats) {
        const isTarget = dev === this.target.dev && ino === this.target.ino;
        if (isTarget || this.found.has(file.real)) return;
        this.found.set(file.real, file);
        this.byName.set(file.name, file);
    }

    /** A file by its name. If it is gone, the name is its real path and its `id`. */
    fileNamed(name: string): Omit<Wanted, 'name' | 'isNamed'> {
        try {
            return this.byName.get(name) || fileAt(name, statSync(pathOf(name), { bigint: true }));
        } catch {
            return { real: name, id: name, state: null };
        }
    }

    /** The bytes of a cue sheet; null for anything else, and if it cannot be read, which is reported when it is examined. */
    bytesOfSheet({ name, state }: Wanted) {
        if (!isSheetName(name) || state === null || state.size > LARGEST_SHEET) return null;
        try {
            return readFileSync(pathOf(name));
        } catch {
            return null;
        }
    }

    /** The files that a cue sheet names, and whether none is missing; no files for anything else. */
    filesNamedBy(file: Wanted): { names: string[], isWhole: boolean } {
        try {
            const bytes = this.bytesOfSheet(file);
            const exists = (path: string) => this.byName.has(path) || existsSync(pathOf(path));
            const readings = bytes === null ? [] : pathsOfSheet(file.name, sheetsOf(bytes), exists);
            const whole = readings.find(paths => !paths.includes(null));
            return { names: [...new Set((whole || readings.flat()).flatMap(path => path || []))], isWhole: whole !== undefined };
        } catch {
            return { names: [], isWhole: false };
        }
    }

    async tried(path: string, tried: () => void | Promise<void>) {
        await letSignalsIn();
        try {
            await tried();
        } catch (error) {
            if (error instanceof Fault) throw error;
            this.fault(`cannot read ${path}: ${reasonOf(error)}`);
        }
    }
}

function realPath(name: string) {
    return nameOfBytes(realpathSync.native(pathOf(name), 'buffer'));
}

function fileAt(name: string, stat: BigIntStats, real: string = realPath(name)) {
    return { real, id: stat.nlink > 1n ? `${stat.dev} ${stat.ino}` : real, state: stat.isFile() ? stateIn(stat) : null };
}
