// A collection of 300 files of many kinds, and three DATs: `scan` gives each file and each game the line that this test computes from how it
// was made.

import assert from 'node:assert/strict';
import { createHash } from 'node:crypto';
import { mkdirSync, utimesSync } from 'node:fs';
import { join } from 'node:path';
import { test } from 'node:test';
import { gzipSync } from 'node:zlib';
import { diceOf } from '../lib/dice.mjs';
import { damaged, imageOf, inDirectory, run, tool, top, write } from './common.mjs';

const { KINDS } = await import('../../out/web/sentences/english.js');

const RAW = 2352;
const FILES = 300;
/** The sectors of an image of the collection. Each image begins with a different block. */
const SECTORS = 24;

const hashOf = (name, bytes) => createHash(name).update(bytes).digest('hex');
/** The CRC32 that ends a gzip file. */
const crcOf = bytes => Buffer.from(gzipSync(bytes, { level: 0 }).subarray(-8, -4)).reverse().toString('hex');
const linesIn = text => text.split('\n').filter(Boolean);
const noise = (dice, size) => Buffer.from(Array.from({ length: size }, () => dice(256)));
const sectorsOf = (image, size = RAW) => Array.from({ length: image.length / size }, (_, i) => image.subarray(size * i, size * (i + 1)));

/** The bytes that scrambling adds (XOR) to a sector: from a register of 15 bits (ECMA-130, Annex B). */
function scrambling() {
    let register = 1;
    return Uint8Array.from({ length: RAW }, (_, place) => {
        if (place < 12) return 0;
        const byte = register & 255;
        for (let i = 0; i < 8; i++) register = register >> 1 | ((register ^ register >> 1) & 1) << 14;
        return byte;
    });
}
const SCRAMBLING = scrambling();

/** An image of a disc, its column of kinds, and its numbers of damaged sectors, findings, and sectors with a wrong address. */
const image = (bytes, sectors, more, ...numbers) => {
    const kinds = [...Object.entries(sectors), ...Object.entries(more)].map(([name, count]) => `${name} ${count}`).join(',');
    return { bytes, kind: 'image', kinds: kinds || 'audio', sectors, numbers };
};
/** A file that is not part of a disc. */
const other = kind => bytes => ({ bytes: Buffer.from(bytes), kind, kinds: `none: ${KINDS[kind][0]}`, sectors: null, numbers: [null, null, null] });

/** What a collection has: files of each kind from an image of Mode 1 and one of Mode 2, and the number of the file. */
const MADE = [
    mode1 => image(mode1, { mode1: SECTORS }, {}, 0, 0, 0),
    (mode1, _, i, base) => image(damaged(mode1, base, [base + 3, 99], [base + 9 + i % 9, 2200]), { mode1: SECTORS }, {}, 2, 2, 0),
    (mode1, _, i, base) => image(damaged(mode1, base, [base + 5, 3]), { mode1: SECTORS - 1, nosync: 1 }, {}, 0, 1, 0),
    mode1 => image(Buffer.from(mode1).fill(0x55, RAW * 7, RAW * 10), { mode1: SECTORS - 3, nosync: 3 }, {}, 0, 3, 0),
    mode1 => image(mode1.subarray(0, -1000), { mode1: SECTORS - 1 }, { tail: RAW - 1000 }, 0, 1, 0),
    mode1 => image(Buffer.concat([mode1.subarray(0, RAW * 10), mode1.subarray(RAW * 4, RAW * 5), mode1.subarray(RAW * 11)]), { mode1: SECTORS }, {}, 0, 1, 1),
    (_, mode2) => image(mode2, { mode2: SECTORS }, { untested: SECTORS / 8 }, 0, 0, 0),
    (_, mode2, i) => image(damaged(mode2, 0, [8 + i % 5, 40]), { mode2: SECTORS }, { untested: SECTORS / 8 }, 1, 1, 0),
    (_, mode2, i) => image(damaged(mode2, 0, [9, 14]), { mode2: SECTORS }, { untested: SECTORS / 8 }, 0, 1, 1),
    (mode1, mode2, i) => ({ ...image(noise(diceOf(i), RAW * 5), {}, {}, null, null, null), sectors: { nosync: 5 } }),
    mode1 => other('iso')(Buffer.concat([Buffer.alloc(0x8001), Buffer.from('CD001'), mode1.subarray(6, 2048 * 9)])),
    mode1 => other('subchannels')(Buffer.concat(sectorsOf(mode1).flatMap(it => [it, Buffer.alloc(96, 0x40)]))),
    (_, mode2, i) => other('headerless')(Buffer.concat([...sectorsOf(mode2), ...sectorsOf(mode2)].slice(i / MADE.length, i / MADE.length + SECTORS).map(it => it.subarray(16)))),
    mode1 => other('scrambled')(mode1.map((byte, i) => byte ^ SCRAMBLING[i % RAW])),
    mode1 => other('unaligned')(mode1.subarray(500)),
    mode1 => other('nrg')(Buffer.concat([mode1, Buffer.from('NER5\0\0\0\0\0\0\x10\0')])),
    (mode1, _, i) => other('chd')(`MComprHD${i}`.padEnd(3000)),
    (mode1, _, i) => other('ecm')(`ECM\0${i}`),
    (mode1, _, i) => other('archive')(`PK\x03\x04 ${i}`),
    (mode1, _, i) => other('wave')(`RIFF\0\0\0\0WAVEfmt ${i}`),
    (mode1, _, i) => other('mds')(`MEDIA DESCRIPTOR\x01\x05${i}`),
    (mode1, _, i) => other('ccd')(`[CloneCD]\r\nVersion=3\r\n; ${i}\r\n`),
    (mode1, _, i) => other('toc')(`CD_ROM\n// ${i}\nTRACK MODE1_RAW\nDATAFILE "data.bin"\n`),
    (mode1, _, i) => other('text')(`a line of the file ${i}\n`.repeat(9)),
    (mode1, _, i) => other('unknown')(noise(diceOf(i), 5001 + i)),
];

/** The files of the collection by their names. */
function madeFiles(room) {
    const mode1 = imageOf(room, SECTORS * FILES);
    const mode2 = sectorsOf(tool('python3', ['-B', join(top, 'tests/lib/mode2_sectors.py'), String(SECTORS), '5']));
    return new Map(Array.from({ length: FILES }, (_, i) => {
        const base = SECTORS * i;
        const own = mode1.subarray(RAW * base, RAW * (base + SECTORS));
        const xa = Buffer.concat(mode2.map((sector, k) => Buffer.concat([own.subarray(RAW * k, RAW * k + 15), sector.subarray(15)])));
        return [`set/${i % 7}-${i}.bin`, MADE[i % MADE.length](own, xa, i, base)];
    }));
}

/** What the DATs give of a file beside its size: each another hash. */
const GIVEN = [bytes => `sha1="${hashOf('sha1', bytes)}"`, bytes => `crc="${crcOf(bytes)}"`, bytes => `md5="${hashOf('md5', bytes).toUpperCase()}"`];

/**
 * The three DATs, with games of three files, and how many games are whole, in part, and missing. Of each six files, one is in no DAT, and one
 * is a bad dump. Each fourth game has a file that nobody has.
 */
function madeDats(files) {
    const said = new Map();
    const counts = [0, 0, 0];
    const dats = GIVEN.map((given, dat) => {
        const own = [...files].filter((_, i) => i % 6 < 5 && i % 3 === dat).map(([name, { bytes }], i) => ({ name, bytes, isBad: i % 5 === 2 }));
        const entry = ({ bytes, isBad }, name) => `<rom name="${name}" size="${bytes.length}" ${given(bytes)}${isBad ? ' status="baddump"' : ''}/>`;
        const missing = name => entry({ bytes: Buffer.from(`missing ${dat} ${name}`), isBad: false }, name);
        const games = Array.from({ length: Math.ceil(own.length / 3) }, (_, k) => {
            const game = `Game ${dat} ${k}`;
            const entries = own.slice(3 * k, 3 * k + 3).map((it, i) => {
                said.set(it.name, { name: `${game} (${i})`, game, isBad: it.isBad });
                return entry(it, `${game} (${i})`);
            });
            counts[Number(k % 4 === 1)] += 1;
            return `<game name="${game}">${entries.join('')}${k % 4 === 1 ? missing(`${game}.x`) : ''}</game>`;
        });
        counts[2] += dat + 1;
        const absent = Array.from({ length: dat + 1 }, (_, k) => `<game name="Absent ${k}">${missing(`${k}.a`)}${missing(`${k}.b`)}</game>`);
        return `<datafile>${[...games, ...absent].join('\n')}</datafile>`;
    });
    return { dats, said, counts };
}

/** The line of a file. */
function lineOf(name, { bytes, kinds, numbers }, dump, time) {
    const said = dump ? `${dump.isBad ? 'known as a bad dump:' : 'verified'} ${dump.name}` : 'not in the DAT';
    return [name, kinds, ...numbers.map(it => it === null ? '-' : it), hashOf('sha1', bytes), said, bytes.length, time, crcOf(bytes), hashOf('md5', bytes)].join('\t');
}

/** The object of a file, as far as the line has it too. */
function objectOf(name, { bytes, kind, sectors, numbers: [damaged, findings, wrongAddress] }, dump, time) {
    const dat = dump ? { verdict: dump.isBad ? 'bad' : 'verified', name: dump.name, game: dump.game, others: 0 } : { verdict: 'unknown', name: null, game: null, others: 0 };
    return { name, bytes: bytes.length, crc32: crcOf(bytes), md5: hashOf('md5', bytes), sha1: hashOf('sha1', bytes), dat, changed: time, kind, sectors, damaged, findings, wrongAddress };
}

test('each of 300 files has its line, its object, and its place in the games of three DATs', () => inDirectory(async room => {
    const files = madeFiles(room);
    const { dats, said, counts } = madeDats(files);
    const names = [...files.keys()].sort();
    mkdirSync(join(room, 'set'));
    write(room, Object.fromEntries([...files].map(([name, { bytes }]) => [name, bytes])));
    write(room, Object.fromEntries(dats.map((text, i) => [`${i}.dat`, text])));
    const timeOf = name => new Date(1e12 + 1000 * Number(/\d+(?=\.)/.exec(name)[0])).toISOString();
    names.forEach(name => utimesSync(join(room, name), new Date(timeOf(name)), new Date(timeOf(name))));
    const words = ['scan', 'set', ...dats.flatMap((_, i) => ['--dat', `${i}.dat`])];
    const { status, out, errors } = await run(words, { cwd: room });
    assert.equal(status, 1);
    const due = names.map(name => lineOf(name, files.get(name), said.get(name), timeOf(name)));
    linesIn(out).forEach((line, i) => assert.equal(line, due[i]));
    assert.equal(linesIn(out).length, FILES);
    // A file that is not an image is only counted as unknown if its size is listed.
    const listed = new Set(names.filter(name => said.has(name)).map(name => files.get(name).bytes.length));
    const unknown = names.map(name => [files.get(name), said.has(name)]).filter(([{ kind, bytes }, isKnown]) => !isKnown && (kind === 'image' || listed.has(bytes.length)));
    const bad = [...said.values()].filter(({ isBad }) => isBad).length;
    assert.deepEqual(linesIn(errors).slice(-2), [`cdscript: games: complete ${counts[0]}, incomplete ${counts[1]}, missing ${counts[2]}`,
        `cdscript: verified ${said.size - bad}, known as bad ${bad}, not in the DAT ${unknown.length}`]);
    const objects = linesIn((await run([...words, '--json'], { cwd: room })).out).map(line => JSON.parse(line));
    assert.deepEqual(objects.pop(), { kind: 'games', whole: counts[0], inPart: counts[1], missing: counts[2] });
    objects.forEach((object, i) => {
        const wanted = objectOf(names[i], files.get(names[i]), said.get(names[i]), timeOf(names[i]));
        assert.deepEqual(Object.fromEntries(Object.keys(wanted).map(key => [key, object[key]])), wanted);
    });
    assert.equal(objects.length, FILES);
}));
