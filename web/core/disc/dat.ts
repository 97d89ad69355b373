// Known dumps: the entries of DATs (Logiqx XML), by size and hash. A DAT is read in pieces, and its entries are limited.

import { Fault, remark } from '../faults.js';
import { isSheetName } from './cue.js';
import { TagReader, textOfDat } from './dat_tags.js';

// Reads the entries of a DAT (Logiqx XML) from its tags.

const LONGEST_NAME = 512;
const DEEPEST_ELEMENT = 16;

/** Other lists in XML, by their first element. */
const OTHER_LISTS: Map<string, 'dat/software-list' | 'dat/machines'> = new Map([['softwarelist', 'dat/software-list'], ['softwarelists',
    'dat/software-list'], ['mame', 'dat/machines']]);

const ENTITIES = new Map([['amp', '&'], ['lt', '<'], ['gt', '>'], ['quot', '"'], ['apos', "'"]]);

const ATTRIBUTE = /\s+([\w:.-]+)\s*=\s*(?:"([^"]*)"|'([^']*)')/gy;

/** Copies a slice of a text, so that it does not keep the whole text in memory. */
function copied(text: string) {
    return JSON.parse(JSON.stringify(text));
}

function unescaped(text: string) {
    if (!text.includes('&')) return text;
    return text.replace(/&(?:#x([0-9a-fA-F]{1,6})|#(\d{1,7})|(\w{1,16}));|&/g, (whole, hex, decimal, name) => {
        const code = hex ? parseInt(hex, 16) : Number(decimal);
        if (code >= 0 && code <= 0x10FFFF) return String.fromCodePoint(code);
        const character = ENTITIES.get(name);
        if (character !== undefined) return character;
        throw new Fault('dat/entity', { entity: whole.slice(0, 20) });
    });
}

/**
 * The attributes of a tag, by their names in lower case, without the spaces around their values.
 * @param tag without its brackets
 */
function attributesOf(tag: string) {
    const attributes: Map<string, string> = new Map();
    ATTRIBUTE.lastIndex = (/^[^\s/]*/.exec(tag) || [''])[0].length;
    for (let found = ATTRIBUTE.exec(tag); found !== null; found = ATTRIBUTE.exec(tag)) {
        attributes.set(found[1].toLowerCase(), (found[2] === undefined ? found[3] : found[2]).trim());
    }
    return attributes;
}

/** Reads the entries of a DAT. `push` receives its text in pieces, and `end` is called after the last one. Both throw a Fault. */
class DatReading {
    depth = 0;
    isDat = false;
    found = 0;
    games = new Map<string, Game>();
    /** The name of the game that is being read, '' if none is. */
    game = '';
    tags;

    /** @param known the dumps to which the entries are added */
    constructor(readonly known: KnownDumps) {
        this.tags = new TagReader(tag => this.tag(tag));
    }

    push(text: string) {
        this.tags.push(text);
    }

    /** @param tag without its brackets */
    tag(tag: string) {
        const name = (/^\/?[\w:.-]*/.exec(tag) || [''])[0].toLowerCase();
        if (!this.isDat && name !== 'datafile') throw new Fault(OTHER_LISTS.get(name) || 'dat/other-file', {});
        this.isDat = true;
        if (name.startsWith('/')) this.depth -= 1;
        else if (!tag.endsWith('/')) this.depth += 1;
        if (this.depth > DEEPEST_ELEMENT) throw new Fault('dat/deep', { most: DEEPEST_ELEMENT });
        if (name === 'rom' || name === 'disk') this.dump(attributesOf(tag), name === 'rom');
        else if (/^\/?(?:game|machine)$/.test(name)) this.game = /^\/|\/$/.test(tag) ? '' : nameAttribute(attributesOf(tag));
    }

    /** Reads an entry. Only that of a file needs no size if it has a SHA-1: that of a disk is not of a file. */
    dump(attributes: Map<string, string>, isFile: boolean) {
        const hash = (key: string, digits: number) => hexOf((attributes.get(key) || '').toLowerCase(), digits);
        const [size, status] = [attributes.get('size') || '', (attributes.get('status') || '').toLowerCase()];
        const name = nameAttribute(attributes);
        const sha1 = hash('sha1', 40);
        const hashes = sha1 === '' ? { sha1, crc32: hash('crc', 8), md5: copied(hash('md5', 32)) } : { sha1, crc32: '', md5: '' };
        const hasSize = /^\d{1,15}$/.test(size);
        if ((!hasSize && !(isFile && sha1 !== '')) || `${sha1}${hashes.crc32}${hashes.md5}` === '' || status === 'nodump') {
            this.known.leftOut += 1;
            return;
        }
        this.found += 1;
        const dump = this.known.addDump({ name, game: this.game, isBad: status === 'baddump' }, hasSize ? Number(size) : null, hashes);
        this.known.addToGame(this.gameOf(this.game), dump, name);
    }

    gameOf(name: string) {
        const game = this.games.get(name) || { name, dumps: new Map() };
        this.games.set(name, game);
        return game;
    }

    end() {
        if (!this.isDat) throw new Fault('dat/other-file', {});
        if (this.tags.isCut() || this.depth !== 0) throw new Fault('dat/cut', {});
        if (this.found === 0) throw new Fault('dat/no-dump', {});
        for (const game of this.games.values()) if (game.name !== '') this.known.games.push(game);
    }
}

/** The name of a game or of an entry. Throws a Fault. */
function nameAttribute(attributes: Map<string, string>) {
    const name = unescaped(attributes.get('name') || '');
    if (name.length > LONGEST_NAME) throw new Fault('dat/long-name', { most: LONGEST_NAME });
    return copied(name);
}

/** Returns a hash, or '' if the text is not a hash. */
function hexOf(text: string, digits: number) {
    return text.length === digits && /^[0-9a-f]+$/.test(text) ? text : '';
}

/** Of a file, in lower case, as far as they are known. */
export type Hashes = { sha1: string, crc32?: string, md5?: string };
/** Of a DAT; `game` is '' if it is not in a game. */
export type Entry = { name: string, game: string, isBad: boolean };
/**
 * A dump, which several entries may share. `size` is null if only its SHA-1 is known. `entry` is the first one that is not a bad dump, or
 * else the first. `named` has all by their names if there are several. `md5` is '' if the entry has a SHA-1.
 */
export type Dump = { entry: Entry, size: number | null, md5: string, named: Map<string, Entry> | null };
/** An entry, and how many other entries have the same hash. */
export type Found = Entry & { others: number };
/** Of a DAT: its dumps, with their names in it. */
export type Game = { name: string, dumps: Map<Dump, string> };

const MOST_DUMPS = 400000;

/** @param hash in lower case */
function dumpKey(size: number | null, hash: string) {
    return `${size}:${hash}`;
}

/**
 * The entry of a dump for a file: the entry with the name of the file, unless that is a bad dump and another entry is not.
 * @param own the name of the file
 */
function foundEntry({ entry, named }: Dump, own: string): Found {
    const found = named === null ? undefined : named.get(own);
    return { ...found && (entry.isBad || !found.isBad) ? found : entry, others: named === null ? 0 : named.size - 1 };
}

/** The dumps that DATs list. */
export class KnownDumps {
    dumps = new Map<string, Dump>();
    sizes = new Set<number>();
    /** The number of entries. Several may have the same hash. */
    entries = 0;
    /** The games of all DATs. */
    games: Game[] = [];
    /** The number of dumps of all games. */
    parts = 0;
    /** The names of cue sheets. */
    sheets = new Set<string>();
    /** The number of entries without a size, a hash, or a dump. */
    leftOut = 0;
    /** The hashes that are needed beside SHA-1 to find all entries. */
    needs = { crc32: false, md5: false };

    /**
     * Adds the entries of a DAT. Throws a Fault.
     * @param pieces of its bytes
     */
    async add(pieces: AsyncIterable<Uint8Array>) {
        const reading = new DatReading(this);
        for await (const text of textOfDat(pieces)) reading.push(text);
        reading.end();
    }

    /**
     * Adds an entry, and returns its dump. It is found by its SHA-1, or else by its CRC32, or else by its MD5. Throws a Fault if there are
     * too many.
     * @param size null if it is not known, which needs a SHA-1
     * @param hashes '' for each that is missing
     */
    addDump(entry: Entry, size: number | null, { sha1, crc32, md5 }: Required<Hashes>): Dump {
        const key = dumpKey(size, sha1 || crc32 || md5);
        const dump = this.dumps.get(key);
        const isNew = dump === undefined || !(dump.named === null ? dump.entry.name === entry.name : dump.named.has(entry.name));
        this.entries = boundedSum(this.entries, Number(isNew));
        if (isSheetName(entry.name)) this.sheets.add(entry.name);
        if (dump !== undefined) {
            addEntry(dump, entry);
            return dump;
        }
        const added = { entry, size, md5: sha1 === '' ? md5 : '', named: null };
        this.dumps.set(key, added);
        if (size !== null) this.sizes.add(size);
        if (sha1 === '' && crc32 !== '') this.needs.crc32 = true;
        if (sha1 === '' && md5 !== '') this.needs.md5 = true;
        return added;
    }

    /** Adds a dump to a game. Throws a Fault if there are too many. */
    addToGame({ dumps }: Game, dump: Dump, name: string) {
        this.parts = boundedSum(this.parts, Number(!dumps.has(dump)));
        dumps.set(dump, name);
    }

    /** Adds the entries of other DATs. Throws a Fault if there are too many. */
    addAll({ dumps, leftOut }: KnownDumps) {
        this.leftOut += leftOut;
        for (const [key, { entry, size, md5, named }] of dumps) {
            const hash = key.slice(key.indexOf(':') + 1);
            const hashes = { sha1: hexOf(hash, 40), crc32: hexOf(hash, 8), md5: md5 || hexOf(hash, 32) };
            for (const it of named === null ? [entry] : named.values()) this.addDump(it, size, hashes);
        }
    }

    /** The dump that a file is; null if it is none. */
    dumpOf(size: number, { sha1, crc32 = '', md5 = '' }: Hashes) {
        const keys = [dumpKey(size, sha1), dumpKey(null, sha1), dumpKey(size, crc32), dumpKey(size, md5)];
        const found = keys.map(key => this.dumps.get(key)).find(it => it !== undefined);
        const isOther = found === undefined || (md5 !== '' && found.md5 !== '' && md5 !== found.md5);
        return isOther ? null : found;
    }

    /**
     * Finds the entry that matches a file; null if none does.
     * @param name of the file, which selects one of several entries
     */
    find(size: number, hashes: Hashes, name: string = ''): Found | null {
        const dump = this.dumpOf(size, hashes);
        return dump && foundEntry(dump, name);
    }

    hasSize(size: number) {
        return this.sizes.has(size);
    }

    /** The names of the dumps of a size. */
    namesOfSize(size: number) {
        return this.hasSize(size) ? [...this.dumps.values()].filter(dump => dump.size === size).map(({ entry }) => entry.name) : [];
    }

    /** The remark on a file that matches no known dump. It says whether a dump has its size, which suggests what to try next. */
    remarkOfOther(size: number) {
        return remark(this.hasSize(size) ? 'dat/only-size' : 'dat/no-size', {});
    }
}

/** Adds an entry to a dump. Of two with one name, one that is not bad stays. */
function addEntry(dump: Dump, entry: Entry) {
    if (dump.named === null && dump.entry.name !== entry.name) dump.named = new Map([[dump.entry.name, dump.entry]]);
    const same = dump.named === null ? dump.entry : dump.named.get(entry.name);
    if (dump.named !== null && (same === undefined || same.isBad)) dump.named.set(entry.name, entry);
    if (dump.entry.isBad && !entry.isBad) dump.entry = entry;
}

/** A number of entries and some more. Throws a Fault if there are too many. */
function boundedSum(count: number, more: number) {
    if (count + more > MOST_DUMPS) throw new Fault('dat/too-many', { most: MOST_DUMPS });
    return count + more;
}
