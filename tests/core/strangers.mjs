// Input that a stranger may send to block its reader: small cue sheets, tables, and volumes, each with a harmless one of its kind.

const USER = 2048;
const ROOT = 18;

/** @param {string} text */
const bytesOf = text => new TextEncoder().encode(text);

const SHEET = 'FILE "game.bin" BINARY\n  TRACK 01 MODE1/2352\n    INDEX 01 00:00:00\n';

/** A cue sheet with this many bytes of comments. @param {number} size */
export const harmlessSheet = size => bytesOf(SHEET + 'REM a comment that says nothing\n'.repeat(Math.floor(size / 32)));

/** Cue sheets that slow down regular expressions. @type {Record<string, Uint8Array>} */
export const SHEETS = {
    'spaces before a line separator': bytesOf(`${SHEET}REM${' '.repeat(2600)}a\u2028b\n`),
    'nothing but ends of lines': bytesOf('\n'.repeat(130000)),
    'ends of lines before a sheet': bytesOf('\n'.repeat(130000) + SHEET),
    'spaces in a name': bytesOf(`${SHEET}FILE a${' '.repeat(100000)}b c\n`),
    'words after a name': bytesOf(`${SHEET}FILE a${' b'.repeat(60000)}"\n`),
};

/** @param {number} number @param {number} bytes */
const hex = (number, bytes) => number.toString(16).padStart(2 * bytes, '0');

/** A table of this many bytes, as a game may have. @param {number} size */
export const harmlessTable = size =>
    bytesOf(Array.from({ length: Math.floor(size / 8) }, (_, i) => `${hex(0x8000 + i, 2)}=${String.fromCodePoint(0x4E00 + i)}\n`).join(''));

const LONG_BYTES = { fault: 'line 2 of the table has more than 8 bytes', code: 'text/long-bytes' };

/**
 * Tables that take long to use, each with a text to find in zeros, and for those that are refused the message and its code.
 * @type {Record<string, { table: Uint8Array, text: string, fault?: string, code?: string }>}
 */
export const TABLES = {
    'one text of many lengths': {
        table: bytesOf(`${Array.from({ length: 8 }, (_, i) => `${'00'.repeat(i + 1)}=a\n`).join('')}01=b\n`), text: 'aaaab',
    },
    'one text of many bytes': {
        table: bytesOf(`${Array.from({ length: 65000 }, (_, i) => `00${hex(i + 1, 2)}=a\n`).join('')}01=b\n`), text: 'ab',
    },
    'long bytes': { table: bytesOf(`00=b\n${'00'.repeat(4096)}=a\n`), text: 'b', ...LONG_BYTES },
    'very long bytes': { table: bytesOf(`00=b\n${'00'.repeat(200000)}=a\n`), text: 'b', ...LONG_BYTES },
    'a long text': {
        table: bytesOf(`00=b\n01=${'b'.repeat(200000)}\n`), text: 'b', fault: 'line 2 of the table has a text of more than 64 characters', code: 'text/long-text',
    },
};

/**
 * Writes a number in both byte orders.
 * @param {DataView} view
 * @param {number} at
 * @param {number} value
 */
function setBoth(view, at, value) {
    view.setUint32(at, value, true);
    view.setUint32(at + 4, value, false);
}

/**
 * A directory record.
 * @param {string} name
 * @param {number} extent
 * @param {number} size
 * @param {{ flags?: number, volume?: number, system?: Uint8Array }} [more]
 */
export function recordOf(name, extent, size, { flags = 2, volume = 1, system = new Uint8Array(0) } = {}) {
    const record = new Uint8Array(33 + name.length + (name.length + 1) % 2 + system.length);
    const view = new DataView(record.buffer);
    setBoth(view, 2, extent);
    setBoth(view, 10, size);
    view.setUint16(28, volume, true);
    view.setUint16(30, volume, false);
    record[0] = record.length;
    record[25] = flags;
    record[32] = name.length;
    record.set(name.split('').map(it => it.charCodeAt(0)), 33);
    record.set(system, record.length - system.length);
    return record;
}

/**
 * The user data of a volume of `sectors` sectors. Those from the root directory's sector, 18, on have these records.
 * @param {number} sectors
 * @param {(sector: number) => Uint8Array[]} recordsIn
 * @param {number} [size] of the root directory
 */
export function volumeOf(sectors, recordsIn, size = USER) {
    const user = new Uint8Array(sectors * USER);
    const own = recordOf('\0', ROOT, size);
    user.set([1, ...bytesOf('CD001'), 1], 16 * USER);
    user.set([255, ...bytesOf('CD001'), 1], 17 * USER);
    user.set([0, 8, 8, 0], 16 * USER + 128);
    user.set([1, 0, 0, 1], 16 * USER + 120);
    user.set([1, 0, 0, 1], 16 * USER + 124);
    user.set(own, 16 * USER + 156);
    for (let sector = ROOT; sector < sectors; sector++) {
        let at = sector * USER;
        for (const record of sector === ROOT ? [own, ...recordsIn(sector)] : recordsIn(sector)) {
            if (at + record.length > (sector + 1) * USER) break;
            user.set(record, at);
            at += record.length;
        }
    }
    return user;
}

/** @param {number} length @param {(i: number) => Uint8Array} recordAt */
const records = (length, recordAt) => Array.from({ length }, (_, i) => recordAt(i));

/** Directories in all sectors: each extends to the end of the volume and contains others. @param {number} sectors */
export const overlapping = sectors => volumeOf(sectors, sector => records(40, i => {
    const extent = ROOT + 1 + (sector * 40 + i) % (sectors - ROOT - 1);
    return recordOf(`D${sector}_${i}`, extent, (sectors - extent) * USER);
}));

/** Directories, each inside the previous one. @param {number} sectors @param {number} length of their names */
export const nested = (sectors, length) => volumeOf(sectors, sector =>
    sector + 1 < sectors ? [recordOf('N'.repeat(length), sector + 1, USER), recordOf('FILE', ROOT, 1, { flags: 0 })] : []);

/** One directory full of empty files. @param {number} sectors */
export const crowded = sectors => volumeOf(sectors, () => records(60, () => recordOf('F', ROOT, 0, { flags: 0 })), (sectors - ROOT) * USER);

/** A Rock Ridge entry that continues in another sector. @param {number} next a sector */
function continued(next) {
    const area = new Uint8Array(28);
    const view = new DataView(area.buffer);
    area.set([...bytesOf('CE'), 28, 1]);
    setBoth(view, 4, next);
    setBoth(view, 20, USER);
    return area;
}

/** The records of one directory, all of which Rock Ridge continues in an endless loop. @param {number} sectors */
export function continuing(sectors) {
    const mark = [...bytesOf('SP'), 7, 1, 0xBE, 0xEF, 0, ...bytesOf('RR'), 5, 1, 0];
    const user = volumeOf(sectors, sector => records(30, i => recordOf('F', ROOT, 0, { flags: 0, system: continued(sectors - 1 - (sector + i) % 2) })),
        (sectors - ROOT - 2) * USER);
    const own = recordOf('\0', ROOT, (sectors - ROOT - 2) * USER, { system: Uint8Array.from(mark) });
    user.set(own, ROOT * USER);
    user.fill(0, ROOT * USER + own.length, (ROOT + 1) * USER);
    for (const [at, next] of [[sectors - 2, sectors - 1], [sectors - 1, sectors - 2]]) {
        user.fill(0, at * USER, (at + 1) * USER);
        user.set(continued(next), at * USER);
    }
    return user;
}

/** A volume with one file. @param {number} sectors */
export const harmlessVolume = sectors => volumeOf(sectors, sector => sector === ROOT ? [recordOf('FILE', 20, 5000, { flags: 0 })] : []);

/**
 * A remark's code and facts in one line.
 * @param {{ code: string, facts: object }} remark
 * @returns {string}
 */
export const inShort = ({ code, facts }) => [code, ...Object.values(facts).map(it => it.code ? inShort(it) : it)].join(' ');
