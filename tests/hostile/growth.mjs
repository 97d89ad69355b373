// Inputs that grow. Each shape returns, for a size, the call to be measured: growth.test.mjs counts its work, and `make fuzz` measures time and
// memory. Twice the input may take three times as much, so four times the input nine times, which is easier to tell from quadratic growth.
// PAIRS are of two inputs that a job reads together: the work for one of them must not be repeated for each part of the other. Both grow,
// and in each direction one is larger.

import { mkdtempSync, rmSync, writeFileSync } from 'node:fs';
import { tmpdir } from 'node:os';
import { join } from 'node:path';
import { tableOf } from '../core/common.mjs';
import { listedRows, replacedRows } from '../core/lists.mjs';
import { recordOf, volumeOf } from '../core/strangers.mjs';
import { calls, command, core, page } from '../page/page.mjs';
import { readerOfUser } from './invariants.mjs';

const { Fault } = await core('faults.js');
const { sheetOf } = await core('disc/cue.js');
const { KnownDumps } = await core('disc/dat.js');
const { fileOrder } = await core('iso/file_order.js');
const { filesOf } = await core('iso/files.js');
const { Pool, localWorker } = await core('pool/pool.js');
const { JOBS } = await core('jobs/jobs.js');
const { replaceFile } = await core('tasks/replace.js');
const { importMoving, openTrack } = await core('tasks/index.js');
const { TextStarts, findPointerTables, tablesOfList } = await core('pointers/index.js');
const { readScript } = await core('script/script.js');
const { codesLeftOut } = await core('texts/codes.js');
const { encodingOf } = await core('encodings/encodings.js');
const { rowsOfLists } = await core('tasks/list_rows.js');
const { ScriptModel, linesUnder } = await core('script/model.js');
const { openDisc } = await core('disc/disc.js');
const { FilesAlong } = await core('texts/all_texts.js');
const { findIn } = await core('texts/find.js');
const { applyScript } = await core('tasks/scripts.js');
const { newTextsOf } = await core('tasks/list_tables.js');
const { Verdicts, gameLines } = await command('hashes.js');
const { LinesInOrder, unitsOf } = await command('scan_list.js');
const { pathsOfSheet } = await command('opening.js');
const { readPatcherText } = await page('player/patcher.js');

const USER = 2048;
const encoded = text => new TextEncoder().encode(text);
const times = (count, textOf) => Array.from({ length: count }, (_, i) => textOf(i)).join('');

/** Fewer characters than a text may have. */
const LONGEST_TEXT = 60000;
/** How many times the larger input of a pair has the size of the smaller one. */
const SLANT = 8;

const HEAD = 'block\toffset\ttext\tnew\n';
const CP932 = encodingOf('CP932');

const listed = list => () => listedRows(list);

const PO_HEAD = 'msgid ""\nmsgstr ""\n"Content-Type: text/plain; charset=UTF-8\\n"\n\n#. room 9 bytes, CP932\n#: 28+0\nmsgid "a"\nmsgstr "b"\n\n';

/** Reads all rows of a PO file with these lines after its first entry. */
function listedPo(lines) {
    const bytes = encoded(`${PO_HEAD}${lines}`);
    return () => rowsOfLists([{ name: 'a.po', reader: { size: bytes.length, read: async (at, length) => bytes.subarray(at, at + length) } }]);
}

/** Replaces the rows of a list in a small image. */
function replaced(list) {
    const reader = readerOfUser(encoded('A'.repeat(4 * USER)));
    return async () => replacedRows({ base: 0, sectors: 4, reader }, await listedRows(list), [CP932]);
}

const table = rows => HEAD + rows;

/** A list in a file. */
function listFile(name, text) {
    const bytes = encoded(text);
    return { name, reader: { size: bytes.length, read: async (at, length) => bytes.subarray(at, at + length) } };
}

/** A PO file of an entry with many places, in each of which the image has `A`. */
function poAt(places, text, fresh) {
    return `${PO_HEAD}#:${times(places, i => ` 0+${i % 4000}`)}\nmsgid "${text}"\nmsgstr "${fresh}"\n`;
}

/** Reads lists, and replaces their rows in a small image, in one encoding. */
function importing(lists, encoding = CP932) {
    const files = lists.map((text, i) => listFile(`list${i}.${text.startsWith('msgid') ? 'po' : 'tsv'}`, text));
    const reader = readerOfUser(encoded('A'.repeat(4 * USER)));
    return async () => {
        const { rows } = await rowsOfLists(files);
        await replacedRows({ base: 0, sectors: 4, reader }, rows, [encoding]);
        await codesLeftOut(rows, () => [encoding]);
    };
}

/** Replaces rows of so many `x`, each of which has so many codes. The last code stands in the image. */
function tabled(codes, rows) {
    const own = tableOf(encoded(`41=A\n42=B\n${times(codes, i => `${(0x800000 + i).toString(16)}=x\n`)}`));
    return importing([table(rows.map(count => `0\t0\t${'x'.repeat(count)}\tB\n`).join(''))], own);
}

/** Looks for files in a DAT whose entries have hashes of one digit. */
function known(entries, digitOf, files) {
    const dat = `<?xml version="1.0"?><datafile>${times(entries, i => `<rom name="a${i}.bin" size="2352" sha1="${digitOf(i).repeat(40)}"/>`)}</datafile>`;
    return async () => {
        const dumps = new KnownDumps();
        await dumps.add((async function* () { yield encoded(dat); })());
        for (let i = 0; i < files; i++) dumps.find(2352, { sha1: 'a'.repeat(40) }, `b${i}.bin`) ?? dumps.namesOfSize(2352);
    };
}

/** Counts the games of a DAT, all with dumps of these hashes, for a collection of files. */
function gamesIn(entries, files) {
    const dat = `<datafile>${times(entries, i => `<game name="G${i}"><rom name="a" size="2352" sha1="${'a'.repeat(40)}"/></game>`)}</datafile>`;
    return async () => {
        const dumps = new KnownDumps();
        await dumps.add((async function* () { yield encoded(dat); })());
        const verdicts = new Verdicts(dumps);
        for (let i = 0; i < files; i++) verdicts.addFile(2352, { sha1: (i % 16).toString(16).repeat(40) });
        gameLines(verdicts.games(), true);
    };
}

/** A cue sheet with a file for each track. */
function sheetText(tracks) {
    return times(tracks, i => `FILE "Track${i}.bin" BINARY\n  TRACK ${String(i + 1).padStart(2, '0')} MODE1/2352\n    INDEX 01 00:00:00\n`);
}

/** Finds the files that a sheet names in a directory of other files. */
function sheetIn(named, there) {
    const place = mkdtempSync(join(tmpdir(), 'growth-'));
    for (let i = 0; i < there; i++) writeFileSync(join(place, `other${i}.bin`), '');
    const sheet = { files: Array.from({ length: named }, (_, i) => ({ name: `Track${i}.bin` })) };
    return () => {
        try {
            pathsOfSheet(join(place, 'a.cue'), [sheet, sheet]);
        } finally {
            rmSync(place, { recursive: true });
        }
    };
}

/** Puts the lines of sheets, each of which names some of the files of a collection, and of these files in order. */
function linesInOrder(sheets, files) {
    const named = i => Array.from({ length: 198 }, (_, k) => `${(i + k) % files}.bin`);
    const names = [...Array.from({ length: sheets }, (_, i) => `${i}.cue`), ...Array.from({ length: files }, (_, i) => `${i}.bin`)];
    const collection = { found: new Map(names.map(name => [name, { name, real: name, id: name }])), fileNamed: name => ({ real: name, id: name }),
        filesNamedBy: ({ name }) => ({ names: name.endsWith('.cue') ? named(parseInt(name, 10)) : [], isWhole: true }) };
    return () => {
        const units = unitsOf(collection);
        const order = new LinesInOrder(units);
        for (const unit of units) order.add(unit, new Map(unit.names.map(name => [name, new Uint8Array(1)])));
    };
}

/** Opens a cue sheet together with many files, of which some are its tracks. */
function opening(tracks, files) {
    const sector = calls.encode(calls.address(0), new Uint8Array(USER));
    const reader = { size: sector.length, read: async (at, length) => sector.subarray(at, at + length) };
    const given = Array.from({ length: files }, (_, i) => ({ name: `track${files - i - 1}.bin`, reader }));
    return () => openDisc(calls, [listFile('a.cue', sheetText(tracks)), ...given]);
}

/** Applies patches to an image, in which they are spread. They may be more than the program accepts. */
function applied(patches, sectors) {
    const sector = calls.encode(calls.address(0), new Uint8Array(USER));
    const image = Buffer.concat(Array(sectors).fill(sector));
    const reader = { size: image.length, read: async (at, length) => image.subarray(at, at + length) };
    const text = encoded(`cdpatch 1\n${times(patches, i => `set ${i * 7 % sectors} ${i % 2000} 41 was 42\n`)}`);
    return async () => {
        const script = await readScript(calls, (async function* () { yield text; })(), true);
        await applyScript({ calls }, { base: 0, reader }, script, { take: async () => {} });
    };
}

/** Replaces the rows of a PO file with an entry of so many characters and places, none of which has the text. */
function replacedPo(characters, places) {
    const read = listedPo(`#:${times(places, i => ` 0+${i}`)}\nmsgid "B${'A'.repeat(characters)}"\nmsgstr "${'{00}'.repeat(characters / 4)}"\n`);
    return async () => {
        const { rows } = await read();
        await replacedRows({ base: 0, sectors: 4, reader: readerOfUser(encoded('A'.repeat(4 * USER))) }, rows, [CP932]);
        await codesLeftOut(rows, () => [CP932]);
    };
}

/** Replaces a row of a table of characters in an image of A. */
function inTable(table, text) {
    const reader = readerOfUser(encoded('A'.repeat(8 * USER)));
    const row = { list: '', unit: 'row', number: 2, place: '', block: 0, offset: 0, room: -1, encoding: '', text, fresh: 'A', fault: null };
    return () => replacedRows({ base: 0, sectors: 8, reader }, [row], [table]);
}

/** Replaces a row of a character with many codes. */
function codedRow(codes, characters) {
    return inTable(tableOf(encoded(`41=A\n${times(codes, i => `${(0x800000 + i).toString(16)}=x\n`)}`)), 'x'.repeat(characters));
}

/** Replaces a row of a character whose codes begin one another. */
function ambiguousRow(characters) {
    return inTable(tableOf(encoded('41=x\n4141=x\n414141=x\n42=B\n')), `${'x'.repeat(characters)}B`);
}

/** Counts the codes that the new text of a row leaves out. */
function counted(text, fresh) {
    const row = { list: '', unit: 'row', number: 2, place: '', block: 0, offset: 0, room: -1, encoding: '', text, fresh };
    return () => codesLeftOut([row], () => [CP932]);
}

/** Reads a directory of `count` records. */
function listedVolume(count, recordAt) {
    const sectors = 20 + Math.ceil(count / 40);
    const reader = readerOfUser(volumeOf(sectors, sector => Array.from({ length: 40 }, (_, i) => recordAt(40 * (sector - 18) + i)), (sectors - 18) * USER));
    return () => filesOf(reader, 0);
}

/** Replaces a file of `count` extents that are not contiguous. */
function replacedParts(count) {
    const entry = i => ({ path: '/A', block: 20 + 2 * i, size: USER, before: USER * i, fault: null, record: { block: 18, offset: 0 } });
    const sector = calls.encode(calls.address(18), new Uint8Array(USER));
    const sectors = 2 * count + 30;
    const reader = { size: 2352 * sectors, read: async (at, length) => length === 2352 ? sector : new Uint8Array(length) };
    const empty = { size: 0, read: async () => new Uint8Array(0) };
    return async () => {
        const entries = Array.from({ length: count }, (_, i) => entry(i));
        fileOrder({ reader, base: 0, sectors }, entries);
        const names = { entries, files: entries, udf: false, own: new Map(), tables: [] };
        const image = { base: 0, reader, sectors };
        const opened = { image, part: image, contents: async () => ({ volume: names }) };
        await replaceFile({ calls, pool: new Pool([localWorker(calls, JOBS)]) }, opened, { entries, newFile: empty });
    };
}

/** Finds a text of one letter with another one at its end, in user data of the first letter. */
function nearlyFound(letters, bytes) {
    const user = new Uint8Array(USER * Math.ceil(bytes / USER)).fill(0x41);
    const sectors = calls.encodeBlocks(0, user);
    const texts = [CP932.units(`${'A'.repeat(letters)}B`)];
    return () => findIn(sectors, 0, { texts, count: user.length / USER, limit: 9 });
}

/** Finds the pointers of a file of numbers to texts of a few distances. */
function searched(bytes, texts, numberAt) {
    const held = new Uint8Array(Math.max(4 * bytes, 16 * texts) + 64);
    const view = new DataView(held.buffer);
    for (let i = 0; i < bytes; i++) view.setUint32(4 * i, numberAt(i), true);
    const spans = Array.from({ length: texts }, (_, i) => ({ first: 16 * i + i % 3, after: 16 * i + 9 }));
    return () => {
        const path = '/A';
        const starts = new TextStarts('/B', held, spans);
        return findPointerTables([starts], (async function* () { yield { path, bytes: held, own: null }; })());
    };
}

/** Imports rows of a file, with tables of one pointer or of many. */
function movingRows(tables, rows, tableOf_) {
    const first = 4 * tables;
    const file = new Uint8Array(first + 8 * rows);
    for (let i = 0; i < rows; i++) file.set(encoded('AAAA'), first + 8 * i);
    for (let i = 0; i < tables; i++) new DataView(file.buffer).setUint32(4 * i, first + 8 * (i % rows), true);
    const sectors = 22 + Math.ceil(file.length / USER);
    const user = volumeOf(sectors, sector => sector === 18 ? [recordOf('A', 20, file.length, { flags: 0 })] : []);
    user.set(file, 20 * USER);
    const reader = readerOfUser(user);
    const list = listFile('a.tsv', table(times(rows, i => {
        const at = first + 8 * i;
        return `${20 + Math.floor(at / USER)}\t${at % USER}\tAAAA\tBBBBB${i}\n`;
    })));
    const head = 'file\toffset\tcount\tdistance\twidth\torder\tbase\tunit\ttexts\n';
    const pointers = listFile('p.tsv', head + tableOf_(tables));
    return async () => {
        const opened = openTrack(await openDisc(calls, [{ name: 'game.bin', reader }]));
        const tables = await tablesOfList(pointers.reader);
        const options = { lists: [list], tables, encodings: [CP932], isAsked: true, partial: true, isKept: () => false };
        return importMoving({ calls, pool: new Pool([localWorker(calls, JOBS)]) }, opened, options);
    };
}

const pointerRow = (i, count) => `/A\t${4 * i}\t${count}\t4\t32\tlittle\t0\t1\t/A\n`;

const dump = i => `<game name="g${i}"><rom name="a${i}.bin" size="2352" sha1="${'a'.repeat(40)}"/></game>`;

/** @type {Record<string, (size: number) => () => any>} */
export const GROWTH = {
    'a list of rows': size => listed(HEAD + '1\t2\ta\tb\n'.repeat(size)),
    'a list of empty rows': size => listed(HEAD + '\n'.repeat(8 * size)),
    'a list of columns and rows': size => listed(`${HEAD.trimEnd()}${'\t'.repeat(size / 16)}\n${'x\n'.repeat(size)}`),
    'a list of columns in each row': size => listed(`${HEAD.trimEnd()}\t\n${`${'x\t'.repeat(900)}\n`.repeat(size / 512)}`),
    'a list of cells in quotes': size => listed(HEAD + '1\t2\t"a\n""b"""\t"x\n1\t2\t\t"\n'.repeat(size)),
    'a list of quotes': size => listed(HEAD + '"'.repeat(8 * size)),
    'a list of carriage returns': size => listed(HEAD + '\r'.repeat(8 * size)),
    'rows over one another': size => replaced(HEAD + times(size, i => `0\t${i % 1000}\tAAAA\tBB\n`)),
    'rows that do not fit': size => replaced(HEAD + times(size, i => `${i % 9}\t0\tBA\tBB\n`)),
    'a long text': size => replaced(`${HEAD}0\t0\t${'A'.repeat(size)}\t${'B'.repeat(size)}\n`),
    'a text that nearly occurs at each place': size => nearlyFound(size, 8 * size),
    'a row of codes': size => counted('{00}'.repeat(size), '{01}'.repeat(size)),
    'a row of codes in one': size => counted(`{${'00'.repeat(size)}}`, `{${'01'.repeat(size)}}`),
    'a PO file of entries': size => listedPo(times(size, i => `#. room 9 bytes, CP932\n#: /A+1 ${i}+7\nmsgid "a ${i}"\nmsgstr "b"\n\n`)),
    'a PO file of comments': size => listedPo('# a\n#. b\n#| msgid "c"\n#~ msgid "d"\n'.repeat(size)),
    'a PO file of references': size => listedPo(`${times(size, i => `#: /A+1 ${i}+7\n`)}msgid "a"\nmsgstr "b"\n`),
    'a PO file of references on one line': size => listedPo(`#:${times(size, i => ` ${i}+7`)}\nmsgid "a"\nmsgstr "b"\n`),
    'a PO file of strings': size => listedPo(`msgid "a"\nmsgstr ""\n${'"bc"\n'.repeat(4 * size)}`),
    'a PO file of strings on one line': size => listedPo(`msgid "a"\nmsgstr ${'"b"'.repeat(4 * size)}\n`),
    'a PO file of escapes': size => listedPo(`msgid "a"\nmsgstr "${'\\n\\\\\\101'.repeat(size)}"\n`),
    'a PO file of quotes and backslashes': size => listedPo(`msgid "a"\nmsgstr "${'\\\\'.repeat(4 * size)}\\"${'\\"'.repeat(4 * size)}\n`),
    'a PO file of spaces and commas': size => listedPo(`#, ${' , '.repeat(4 * size)}\n#, ${' '.repeat(4 * size)}\nmsgid "a"\nmsgstr "b"\n`),
    'a PO entry of a long text with many places': size => replacedPo(size, size / 16),
    'a row of a character with many codes': size => codedRow(size, size),
    'a row of codes that begin one another': size => ambiguousRow(size),
    'a table': size => () => tableOf(encoded(times(size, i => `${(0x8000 + i).toString(16)}=x${i}\n`))).text(new Uint8Array(9)),
    'a table of another tool': size => () => tableOf(encoded(`41=A\n${'@JP\n// a\n   \n'.repeat(size)}`)),
    'a table with spaces': size => () => tableOf(encoded(`41=A\n${' '.repeat(size)}B\n`)),
    'a cue sheet': size => () => sheetOf(`FILE "a" BINARY\n  TRACK 01 MODE1/2352\n    INDEX 01 00:00:00\n${'REM a\n'.repeat(size)}`),
    'a cue sheet of spaces': size => () => sheetOf(`FILE a${' '.repeat(size)}b c\n`),
    'a DAT': size => () => new KnownDumps().add((async function* () { yield encoded(`<?xml version="1.0"?><datafile>${times(size / 8, dump)}</datafile>`); })()),
    'a directory of files': size => listedVolume(size, i => recordOf(`F${i}`, 19, 100, { flags: 0 })),
    'a directory of extents': size => listedVolume(size, () => recordOf('F', 19, USER, { flags: 128 })),
    'a file of extents': size => replacedParts(size / 4),
    'a script': size => () => readScript(calls, (async function* () { yield encoded(`cdpatch 1\n${times(size, i => `set ${i} 0 41\n`)}`); })()),
    'lines over others': size => () => {
        const lines = Array.from({ length: size - 1 }, (_, i) => `set ${i} 0 41 was 00`);
        return linesUnder(new ScriptModel(calls, `cdpatch 1\n${lines.join('\n')}\n`), lines);
    },
    'a patcher of white space': size => () => readPatcherText(calls, `\ncdpatch-data 1 ${' '.repeat(size)}\n`),
};

/** @type {[[string, string], (first: number, second: number) => () => any][]} */
const PAIRS = [
    [['codes of a character', 'characters of a row'], (codes, characters) => tabled(codes, [characters])],
    [['codes of a character', 'rows'], (codes, rows) => tabled(codes, Array(rows).fill(10))],
    [['entries of a table', 'rows'], (entries, rows) => importing([table(times(rows, i => `0\t${i % 1000}\tAAA\tx${i}\n`))],
        tableOf(encoded(`41=A\n${times(entries, i => `${(0x800000 + i).toString(16)}=x${i}\n`)}`)))],
    [['rows of a list', 'rows of another'], (first, second) => importing([first, second].map(count => table(times(count, i => `0\t${i % 1000}\tAAA\tB${i}\n`))))],
    [['characters of an entry', 'its places'], (characters, places) => importing([poAt(places, `B${'A'.repeat(Math.min(8 * characters, LONGEST_TEXT))}`, 'C')])],
    [['codes of an entry', 'its places'], (codes, places) => importing([poAt(places, `B${'A'.repeat(codes)}`, '{00}'.repeat(codes))])],
    [['places of an entry', 'rows of a list'], (places, rows) => importing([poAt(places, 'AAA', 'BBB'), table(times(rows, i => `0\t${i % 1000}\tAAA\tC${i}\n`))])],
    [['rows of a list', 'places that are asked for'], (rows, places) => async () => {
        const { news } = await newTextsOf([listFile('a.tsv', table(times(rows, i => `0\t${i % 1000}\tAAA\tB${i}\n`)))]);
        for (let i = 0; i < places; i++) news.of({ block: 0, offset: i % 1000, text: 'AAA' });
    }],
    [['entries of a DAT', 'files that have their hash'], (entries, files) => known(entries, () => 'a', files)],
    [['entries of a DAT', 'files that have none'], (entries, files) => known(entries, i => (i % 8).toString(), files)],
    [['games of a DAT', 'files of a collection'], gamesIn],
    [['files of a cue sheet', 'files of a directory'], (named, there) => sheetIn(Math.min(named, 198), there / 8)],
    [['cue sheets', 'files of a collection'], (sheets, files) => linesInOrder(Math.ceil(sheets / 64), files)],
    [['tracks of a cue sheet', 'files that are given'], (tracks, files) => opening(Math.min(tracks, 99), files)],
    [['lines of a cue sheet', 'its tracks'], (lines, tracks) => () => sheetOf(sheetText(Math.min(tracks, 99)) + 'REM a\n'.repeat(lines))],
    [['patches', 'sectors'], (patches, sectors) => applied(patches, sectors / 16)],
    [['lines of a script', 'lines that are added'], (lines, added) => {
        const script = new ScriptModel(calls, `cdpatch 1\n${times(lines / 2, i => `set ${i % 1000} 0 41 was 00\n`)}`);
        return () => linesUnder(script, Array.from({ length: added / 2 }, (_, i) => `set ${i % 1000} 0 42 was 00`));
    }],
    [['numbers of a file', 'texts to which they lead'], (numbers, texts) => searched(numbers, texts / 8, i => 16 * i + i % 3)],
    [['numbers of a pattern', 'texts of the same one'], (numbers, texts) => searched(numbers, texts / 8, i => 16 * (i % 7) + i % 3)],
    [['tables of pointers', 'rows whose texts move'], (tables, rows) => movingRows(tables / 8, rows / 8, count => times(count, i => pointerRow(i, 1)))],
    [['pointers of a table', 'rows whose texts move'], (count, rows) => movingRows(count / 8, rows / 8, all => pointerRow(0, all))],
    [['files over one another', 'places in them'], (files, places) => () => {
        const along = new FilesAlong(Array.from({ length: files }, (_, i) => ({ path: `/${i}`, block: 20, size: 1e9, before: 0 })));
        for (let i = 0; i < places; i++) along.with({ block: 20 + i, offset: 0 });
    }],
];

for (const [[first, second], make] of PAIRS) {
    GROWTH[`${first}, with ${second}`] = size => make(size, size / SLANT);
    GROWTH[`${second}, with ${first}`] = size => make(size / SLANT, size);
}

/** Calls a job, which may refuse its input. */
export async function ended(job) {
    try {
        await job();
    } catch (error) {
        if (!(error instanceof Fault)) throw error;
    }
}
