// Tables of fixed width: each record is listed, and a new text fits its record.

import assert from 'node:assert/strict';
import { test } from 'node:test';
import { calls, core, encoded, readerOf, tableOf } from './common.mjs';
import { TEXT, openedDisc } from './opened.mjs';

const { exportRecords, importIntoFile, importTable, openPlainFile } = await core('tasks/index.js');
const { SEARCHED, encodingOf } = await core('encodings/encodings.js');
const { linesMade } = await core('script/script_writer.js');

const named = name => encodingOf(name);
const bytesOf = digits => Buffer.from(digits.replace(/ /g, ''), 'hex');
const opened = bytes => openPlainFile({ name: 'a', reader: readerOf(bytes) });

/** The table of the records of a file, and its rows. */
async function exported(file, options, entries) {
    const made = await exportRecords(file, { entries: entries || (await file.contents()).files, encoding: null, ...options });
    const pieces = [];
    for await (const { text } of made.table) pieces.push(text);
    return { ...made, text: pieces.join(''), rows: pieces.join('').trimEnd().split('\n').slice(1).map(row => row.split('\t')) };
}

test('each record that is whole in its file has a row, and no other bytes have one', async () => {
    for (const [size, layout, due] of [
        [48, { every: 24, length: 16 }, [0, 24]], [64, { every: 24, length: 16 }, [0, 24, 48]], [63, { every: 24, length: 16 }, [0, 24]],
        [64, { every: 24, length: 16, skip: 1 }, [1, 25]], [65, { every: 24, length: 16, skip: 1 }, [1, 25, 49]],
        [64, { every: 16, length: 16, limit: 2 }, [0, 16]], [64, { every: 24, length: 16, limit: 9 }, [0, 24, 48]],
        [64, { every: 24, length: 16, limit: 0 }, []], [15, { every: 16, length: 16 }, []], [16, { every: 16, length: 16 }, [0]],
        [16, { every: 16, length: 16, skip: 1e12 }, []], [0, { every: 1, length: 1 }, []], [3, { every: 1, length: 1 }, [0, 1, 2]],
        [6000, { every: 2000, length: 1000 }, [0, 2000, 4000]], [5000, { every: 2000, length: 1000, skip: 100 }, [100, 2100]],
    ]) {
        const { rows } = await exported(opened(Buffer.alloc(size, 0x41)), layout);
        const length = `${layout.length}`;
        assert.deepEqual(rows.map(row => row.slice(0, 4)),
            due.map(at => ['-', `${at}`, length, length]), `${size} ${JSON.stringify(layout)}`);
    }
});

test('the text of a record ends before its filling, and an empty one is the code of a filler', async () => {
    for (const [name, digits, size, due] of [
        ['CP932', '41420000 43000000', 4, [['AB', 2], ['C', 1]]],
        ['CP932', '41002042 20000020', 4, [['A{00} B', 4], ['{20}', 1]]],
        ['CP932', '83818140 83408140', 4, [['メ', 2], ['ァ', 2]]],
        ['CP932', '83818140 81408140', 4, [['メ', 2], ['{8140}', 2]]],
        ['CP932', '41838181 40408341', 4, [['Aメ{81}', 4], ['{40}@ア', 4]]],
        ['CP932', '41838140 83824081', 4, [['Aメ@', 4], ['モ@{81}', 4]]],
        ['CP932', '41FFFFFF FFFFFFFF', 4, [['A', 1], ['{FF}', 1]]],
        ['UTF-16LE', '41000000 00000000', 4, [['A', 2], ['{0000}', 2]]],
        ['UTF-16LE', '00302000 00010000', 4, [['{0030}', 2], ['Ā', 2]]],
        ['UTF-16BE', '00410020 01000020', 4, [['A', 2], ['Ā', 2]]],
    ]) {
        const { rows } = await exported(opened(bytesOf(digits)), { every: size, length: size, encoding: named(name) });
        assert.deepEqual(rows.map(row => [row[6], Number(row[2])]), due, `${name} ${digits}`);
    }
    const own = tableOf(encoded('00=A\n01=B\nFF= \n/FE=<end>\n'));
    const { rows } = await exported(opened(bytesOf('0100FEFE FFFFFFFF 00010100')), { every: 4, length: 4, encoding: own });
    assert.deepEqual(rows.map(row => [row[6], row[2], row[8]]), [['BA', '2', '{FE}'], ['{FF}', '1', '{FE}'], ['ABBA', '4', '{FE}']]);
});

test('the filler of a table is what follows most of its texts', async () => {
    for (const [name, digits, due] of [
        ['CP932', '41000000 42202000 43202020', '20'], ['CP932', '41202000 42202000', '20'], ['CP932', '41424344 45464748', '00'],
        ['CP932', '20202020 20202020 41000000', '00'], ['CP932', '20202020 20202020 41424344', '20'], ['CP932', '83418140 42000000 83428140', '8140'],
        ['UTF-16LE', '41004200 43004400', '0000'], ['UTF-16LE', '41002000 43002000', '2000'], ['UTF-16BE', '00413000 00423000', '3000'],
    ]) {
        const { filler, rows } = await exported(opened(bytesOf(digits)), { every: 4, length: 4, encoding: named(name) });
        assert.deepEqual([Buffer.from(filler).toString('hex'), ...new Set(rows.map(row => row[8]))], [due, `{${due}}`], digits);
    }
});

test('the encoding that reads the records best is chosen', async () => {
    const words = ['やくそう', '鉄の剣', 'キメラのつばさ', 'メ', '', '皮の盾', '勇者'];
    for (const [name, filler] of [['CP932', '00'], ['CP932', '8140'], ['EUC-JP', '20'], ['UTF-8', '00'], ['UTF-16LE', '0000'], ['UTF-16BE', '0020']]) {
        const records = words.map(word => {
            const bytes = Buffer.concat(word === '' ? [] : named(name).units(word).map(([usual]) => usual));
            return Buffer.concat([bytes, Buffer.alloc(24 - bytes.length, bytesOf(filler)), Buffer.from([7, 0, 255, 130])]);
        });
        const { encoding, rows } = await exported(opened(Buffer.concat(records)), { every: 28, length: 24 });
        assert.equal(encoding.name, name);
        assert.deepEqual(rows.map(row => row[6]), words.map(word => word || `{${filler}}`));
        assert.ok(rows.every(row => row[4] === name && row[8] === `{${filler}}`));
    }
    const { encoding } = await exported(opened(encoded('HERB    SWORD   ')), { every: 8, length: 8 });
    assert.equal(encoding, SEARCHED[0]);
});

test('a new text fills its record, leaves nothing of the old one, and changes no byte after it', async () => {
    const numbers = '2000 4081';
    for (const [name, digits, length, fresh, due, more] of [
        ['CP932', '41424344 00000000', 8, 'Medicine', '4D65646963696E65'],
        ['CP932', '41424344 00000000', 8, 'Medicines', 'replace/no-room'],
        ['CP932', '41424344 45464748', 8, 'x', '7800000000000000', [{}, '{00}']],
        ['CP932', '41424344 20202020', 8, 'x', '7820202020202020'],
        ['CP932', '41424344 20202000', 8, 'x', '7820202020202000'],
        ['CP932', '41424344 20202000', 8, 'sevenis', '736576656E697300'],
        ['CP932', '41004344 00000000', 8, 'x', '7800000000000000'],
        ['CP932', '83418342 81408140', 8, 'ア', '8341814081408140'],
        ['CP932', '83418342 81408140', 8, 'アイウ', '8341834383458140'],
        ['CP932', '83418342 81408140', 8, 'Herbs', 'replace/filler'],
        ['CP932', '83418342 81408140', 8, 'Her', 'replace/filler'],
        ['CP932', '83418342 81408140', 8, 'Herbs', '4865726273208140', [{ fill: bytesOf('20') }]],
        ['CP932', '00000000 00000000', 8, 'Herb', '4865726200000000'],
        ['CP932', '81408140 81408140', 8, 'アイウエ', '8341834383458347'],
        ['UTF-16LE', '41004200 00000000', 8, 'x', '7800000000000000'],
        ['UTF-16LE', '41004200 43004400', 8, 'x', '7800000000000000'],
        ['UTF-16LE', '41004200 00000000', 8, 'four', '66006F0075007200'],
        ['CP932', '41424344 00000000', 8, 'x', 'list/no-fill', [{}, '0']],
        ['CP932', '41424344 00000000', 8, 'x', 'list/no-fill', [{}, '{00}x']],
    ]) {
        const [options = {}, fill] = more || [];
        const bytes = Buffer.concat([bytesOf(digits), bytesOf(numbers), bytesOf(digits), bytesOf(numbers)]);
        const { text } = await exported(opened(bytes), { every: length + 4, length, encoding: named(name) });
        const [head, first, ...others] = text.split('\n');
        const cells = first.split('\t');
        [cells[7], cells[8]] = [fresh, fill || cells[8]];
        const list = { name: 'list', reader: readerOf(encoded([head, cells.join('\t'), ...others].join('\n'))) };
        const { changes, left, codes } = await importIntoFile(opened(bytes), { lists: [list], encodings: SEARCHED, isAsked: false, partial: true, ...options });
        const copy = Buffer.from(bytes);
        changes.forEach(change => copy.set(change.bytes, change.at));
        const came = left.length > 0 ? left[0].why.code : copy.toString('hex').toUpperCase();
        const after = bytes.subarray(length).toString('hex').toUpperCase();
        assert.equal(came, due.includes('/') ? due : `${due}${after}`, `${name} ${digits} ${fresh}`);
        assert.deepEqual(codes.map(({ code }) => code), digits.startsWith('4100') && name === 'CP932' ? ['00'] : [], 'an empty record leaves out no code');
    }
});

test('a record over two extents of a file of a disc is one row, and one line for each extent', async () => {
    const { opened: track } = await openedDisc();
    const { files } = await track.contents();
    const { rows, text } = await exported(track, { every: 4096, length: TEXT.length, skip: 4091, encoding: named('CP932') }, files);
    assert.deepEqual(rows, [['31', '2043', '11', '11', 'CP932', '/BIG+4091', TEXT, '', '{00}']]);
    const list = { name: 'list', reader: readerOf(encoded(text.replace(`${TEXT}\t`, `${TEXT}\tPRESS START`))) };
    const made = await importTable({ calls }, track, { lists: [list], encodings: SEARCHED, isAsked: false, partial: true });
    assert.deepEqual(linesMade(made.script), ['set 31 2043 5052455353 was 7072657373', 'set 20 0 205354415254 was 207374617274']);
});
