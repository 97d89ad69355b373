// Randomly changes cue sheets, volumes, tables, lists, patchers, DATs, and scripts: reading them may throw only a Fault, and must not take
// long. The kinds of invariants.mjs have more conditions. `node fuzz.mjs [--seconds N] [--seed S] [KIND..]` runs for that long, prints its
// findings, and keeps each as `found-KIND-SEED` in the current directory; `node fuzz.mjs KIND FILE` reads one file, and `node fuzz.mjs
// growth [SHAPE..]` measures the shapes of growth.mjs. corpus/ has all earlier findings as KIND-WHAT.

import { readFileSync, writeFileSync } from 'node:fs';
import { deflateSync } from 'node:zlib';
import { readerOf, tableOf } from '../core/common.mjs';
import { diceOf } from '../lib/dice.mjs';
import { calls, core, page } from '../page/page.mjs';
import { growthOf } from './costs.mjs';
import { GROWTH } from './growth.mjs';
import { INVARIANTS } from './invariants.mjs';

const { Fault } = await core('faults.js');
const { sheetOf, tracksOf } = await core('disc/cue.js');
const { KnownDumps } = await core('disc/dat.js');
const { filesOf } = await core('iso/files.js');
const { rowsOfLists } = await core('tasks/list_rows.js');
const { readScript } = await core('script/script.js');
const { checksum, readPatcherText } = await page('player/patcher.js');

/** The CPU time in milliseconds that one input may take. */
const LONGEST = 3000;
const encoded = text => new TextEncoder().encode(text);
const decoded = bytes => new TextDecoder().decode(bytes);

/** The user data of a volume: a directory in a directory, a file of two extents, Rock Ridge's mark, and Joliet's descriptor. */
function volume() {
    const user = new Uint8Array(24 * 2048);
    const both = (at, value) => {
        new DataView(user.buffer).setUint32(at, value, true);
        new DataView(user.buffer).setUint32(at + 4, value, false);
    };
    const record = (at, name, extent, size, flags, system = []) => {
        const length = 33 + name.length + (name.length + 1) % 2 + system.length;
        user.set([length, 0], at);
        both(at + 2, extent);
        both(at + 10, size);
        user.set([flags], at + 25);
        user.set([1, 0, 0, 1, name.length, ...encoded(name)], at + 28);
        user.set(system, at + length - system.length);
        return at + length;
    };
    for (const [block, kind] of [[16, 1], [17, 2], [18, 255]]) {
        user.set([kind, ...encoded('CD001'), 1], block * 2048);
        user.set([0, 8, 8, 0], block * 2048 + 128);
        user.set([1, 0, 0, 1, 1, 0, 0, 1], block * 2048 + 120);
        record(block * 2048 + 156, '\0', 19, 2048, 2);
    }
    user.set([0x25, 0x2F, 0x45], 17 * 2048 + 88);
    const mark = [...encoded('SP'), 7, 1, 0xBE, 0xEF, 0, ...encoded('NM'), 8, 1, 0, ...encoded('abc')];
    let at = record(19 * 2048, '\0', 19, 2048, 2, mark);
    for (const [name, extent, size, flags] of [['\x01', 19, 2048, 2], ['DIR', 20, 2048, 2], ['FILE.;1', 21, 2048, 128], ['FILE.;1', 22, 100, 0]]) {
        at = record(at, name, extent, size, flags, mark);
    }
    at = record(20 * 2048, '\0', 20, 2048, 2);
    record(record(at, '\x01', 19, 2048, 2), 'IN.DAT;1', 23, 2000, 0);
    return user;
}

const VOLUME = volume();

async function readVolume(user) {
    const whole = new Uint8Array(Math.ceil(user.length / 2048) * 2048);
    whole.set(user);
    const image = calls.encodeBlocks(0, whole);
    await filesOf({ size: image.length, read: async (at, length) => image.slice(at, at + length) }, 0);
}

const HEAD = { title: 'Starlit', author: 'Team', note: 'All.\nChapter 1.', name: 'Starlit (English).bin', cue: 'FILE "a.bin" BINARY\n', carry: false,
    base: 0, image: { size: 2352, sha1: '0'.repeat(40) }, result: '1'.repeat(40) };

/** The data of a patcher with these bytes, head and script, in its packed part. */
function patcherOf(bytes) {
    const packed = deflateSync(bytes);
    return `\ncdpatch-data 1 ${packed.length} ${checksum(calls, packed)}\n${packed.toString('base64')}\n`;
}

/** For each kind: its seeds, the words to insert, and its reader. */
export const KINDS = {
    cue: {
        seeds: ['REM A\nFILE "game.bin" BINARY\r\n  TRACK 01 MODE1/2352\r\n    INDEX 00 00:00:00\n    INDEX 01 00:02:00\n  TRACK 02 AUDIO\n' +
            '    PREGAP 00:02:00\n    INDEX 01 10:00:74\nFILE second.bin WAVE\n  TRACK 03 MODE1/2048\n    INDEX 01 00:00:00\n'],
        words: ['FILE ', '"', 'TRACK 99', 'INDEX 01', ' 99:59:74', 'BINARY', '\n', '\u2028', 'MODE2/2336'],
        read: bytes => void tracksOf(sheetOf(decoded(bytes)), [2352 * 100000, 2048 * 100]),
    },
    // Most of a volume is empty, and changes there have no effect.
    iso: { seeds: [VOLUME], used: [...VOLUME.keys()].filter(at => VOLUME[at] !== 0), words: ['\xFF\xFF\xFF\xFF', '\0', 'CE', 'NM', 'SP', 'CL', 'RR', 'CD001'], read: readVolume },
    table: {
        seeds: ['8260=A\r\n41=b\n/FF=[end]\n82A0=あ\n; a comment\n00=\\n\n'],
        words: ['=', '/', '$', '*', '\n', '00', 'FF', '[', ']', '=a', '\ufeff', '82A082A2'],
        read: bytes => void tableOf(bytes).text(Uint8Array.of(0x82, 0x60, 0x41, 0xFF)),
    },
    list: {
        seeds: ['block\toffset\troom\tencoding\ttext\tnew\n0\t10\t4\tCP932\tabc\tdef\n1\t0\t8\t\t"a ""b"" c"\t"x\ny"\n',
            'block,offset,text,new\n2,3,"a,b",c\n'],
        words: ['\t', '"', '""', ',', '\n', '\r\n', '999999999', '-1', '\0', '\u2028'],
        read: bytes => rowsOfLists([{ name: 'a.tsv', reader: readerOf(bytes) }]),
    },
    po: {
        seeds: ['# a\nmsgid ""\nmsgstr ""\n"Content-Type: text/plain; charset=UTF-8\\n"\n\n#. room 9 bytes, CP932, fill {20}\n#: /A+4 28+26 -+5:EUC-JP\n#, fuzzy, max-length:9\n' +
            '#| msgid "x"\nmsgctxt "28+26"\nmsgid "a\\n"\n"b"\nmsgid_plural "c"\nmsgstr[0] "d\\"" "\\303\\251"\nmsgstr[1] ""\n\n#~ msgid "e"\n#~ msgstr "f"\n#: 30+0\nmsgid "g"\nmsgstr "h"\n'],
        words: ['"', '\\', '\n', '\r', '#', '#:', '#~ ', '#, fuzzy', 'msgid ', 'msgstr[9999999999] ', 'domain "a"', '\\377', '\\x', '\u2068', ' 1+1', 'charset=EUC-KR', '\0'],
        read: bytes => rowsOfLists([{ name: 'a.po', reader: readerOf(bytes) }], () => true),
    },
    dat: {
        seeds: ['<?xml version="1.0"?><!DOCTYPE datafile><datafile><header><name>a</name></header><!-- c --><game name="&quot;g&#x41;">' +
            `<rom name="a.bin" size="2352" crc="0" sha1="${'a'.repeat(40)}" status="baddump"/></game></datafile>`,
        '<?xml version="1.0" encoding="Shift_JIS"?><!DOCTYPE datafile [<!ELEMENT a (b)> <!ATTLIST a b CDATA "c>d">]><datafile><x><![CDATA[<y>]]></x>' +
            '<rom name="a > b" size="7" crc="0000abcd"/><rom name=\'c\' size="7" crc="0000abcd" status="nodump"/></datafile>'],
        words: ['<', '>', '<rom ', '/>', '&#x', '&amp;', ';', '"', '<!--', '-->', '<![CDATA[', ']]>', 'size="99999999999999999999"', '</game>'],
        read: bytes => new KnownDumps().add((async function* () { yield bytes.subarray(0, bytes.length / 2); yield bytes.subarray(bytes.length / 2); })()),
    },
    script: {
        seeds: ['cdpatch 2\n# base 150\nset 5 10 4142 was 0000\nfill 6 0 2048 FF\naddress 7 00:02:07\nrebuild 8\n'],
        words: ['cdpatch 1', 'set ', 'fill ', 'was ', '449849', '2048', '\n', '\r', '#', '4294967296', '00:02:00', ' ', '\t', '1e9'],
        read: async bytes => { for (const long of [false, true]) await readScript(calls, (async function* () { yield bytes; })(), long); },
    },
    patcher: {
        seeds: [`${JSON.stringify(HEAD)}\ncdpatch 1\nset 0 0 41\n`],
        words: ['"', '{', '}', ':', 'null', '1e400', '"sha1"', '[]', '\n', '\\u202e', '-1', ','],
        read: bytes => readPatcherText(calls, patcherOf(bytes)),
    },
    ...INVARIANTS,
};

/** Randomly changes bytes: flips or overwrites some, and, unless the length is fixed, deletes, repeats, or inserts some. */
export function changed(bytes, { words, used }, dice) {
    let made = Buffer.from(bytes);
    for (let left = 1 + dice(4); left > 0; left--) {
        const from = used ? used[dice(used.length)] : dice(made.length + 1);
        const to = from + dice(16);
        const put = [() => Buffer.of(made[from] ^ (1 << dice(8))), () => Buffer.from(words[dice(words.length)], 'latin1'), () => Buffer.of(dice(256)),
            () => Buffer.alloc(0), () => Buffer.concat(Array(2 + dice(3)).fill(made.subarray(from, to)))][dice(used ? 3 : 5)]();
        made = Buffer.concat([made.subarray(0, from), put, made.subarray(used ? from + put.length : [from, from + put.length, to][dice(3)])]);
    }
    return new Uint8Array(made);
}

/** The defect that these bytes show, or null. */
export async function defectOf(kind, bytes) {
    const begun = process.cpuUsage().user;
    try {
        await KINDS[kind].read(bytes);
    } catch (error) {
        if (!(error instanceof Fault)) return `${error.stack ?? error}`;
    }
    const took = (process.cpuUsage().user - begun) / 1000;
    return took > LONGEST ? `it took ${took.toFixed()} ms` : null;
}

/** The bytes for a seed. */
export function bytesOf(kind, seed) {
    const { seeds, made, ...how } = KINDS[kind];
    const dice = diceOf(seed);
    if (made) return made(dice);
    const from = seeds[dice(seeds.length)];
    return changed(typeof from === 'string' ? encoded(from) : from, how, dice);
}

/** Measures the named shapes, or all. Returns how many grow too fast. */
async function measure(names) {
    let found = 0;
    for (const name of names.length > 0 ? names : Object.keys(GROWTH)) {
        const { defect, found: measured } = await growthOf(name);
        console.log(`${defect === null ? 'no defect' : 'DEFECT'}: ${name}: ${measured}`);
        found += Number(defect !== null);
    }
    return found;
}

async function main(words) {
    if (words[0] === 'growth') return void (process.exitCode = Number(await measure(words.slice(1)) > 0));
    const given = name => words.includes(name) ? Number(words.splice(words.indexOf(name), 2)[1]) : null;
    const end = Date.now() + 1000 * (given('--seconds') ?? 60);
    const first = given('--seed') ?? Date.now() % 1e9;
    if (words.length === 2 && !(words[1] in KINDS)) return void console.log(await defectOf(words[0], readFileSync(words[1])) ?? 'no defect');
    const kinds = words.length > 0 ? words : Object.keys(KINDS);
    let [seed, found] = [first, 0];
    for (; Date.now() < end; seed++) {
        for (const kind of kinds) {
            const bytes = bytesOf(kind, seed);
            const defect = await defectOf(kind, bytes);
            if (defect === null) continue;
            found += 1;
            writeFileSync(`found-${kind}-${seed}`, bytes);
            console.log(`${kind}, seed ${seed}: ${defect}`);
        }
    }
    console.log(`${seed - first} seeds from ${first} on, of ${kinds.join(', ')}: ${found} found`);
    process.exitCode = Number(found > 0);
}

if (import.meta.url === `file://${process.argv[1]}`) await main(process.argv.slice(2));
