// Tables of names of fixed width: `texts --every`, and the lists that it prints.

import assert from 'node:assert/strict';
import { test } from 'node:test';
import { inDirectory, program, read, run, sameFile, tool, write } from './common.mjs';
import { discOf, encoded } from './discs.mjs';

const NAMES = ['やくそう', 'どくけしそう', '', 'てつのつるぎ', 'キメラのつばさ'];

/** A table of records of 24 bytes after 6 others: a name of 16 bytes and four numbers, of which some look like filling. */
function tableOf(filler) {
    const records = NAMES.map((name, i) => {
        const bytes = name === '' ? Buffer.alloc(0) : encoded(name, 'CP932');
        return Buffer.concat([bytes, Buffer.alloc(16 - bytes.length, filler), Buffer.from([0x20, 0, 0x81, 0x40, 0, 0, i, 0])]);
    });
    return Buffer.concat([Buffer.from('NAMES\0'), ...records, Buffer.from('end')]);
}

/** The messages of a job without the one about new characters. */
const messages = ({ errors }) => errors.replace(/^cdscript: \d+ characters? \w+ in no old text.*\n/m, '');

const WORDS = ['--every', '24', '--length', '16', '--skip', '6'];

test('the names of a table are listed whole, and new ones fill their records', t => inDirectory(async room => {
    const table = tableOf(Buffer.from([0x20]));
    write(room, { 'names.dat': table });
    if (!await discOf(room, { 'DATA/NAMES.DAT': table }, { options: [], name: 'image' })) return t.skip('no genisoimage');
    const listed = await run(['texts', 'image', '--in', 'data/../NAMES.DAT', ...WORDS], { cwd: room });
    assert.deepEqual([listed.status, listed.out, listed.errors.startsWith('cdscript: no file data/../NAMES.DAT on the disc')], [2, '', true]);
    const done = await run(['texts', 'image', '--in', '/DATA/NAMES.DAT', ...WORDS], { cwd: room });
    assert.deepEqual([done.status, done.errors],
        [0, 'cdscript: the records read best in CP932; --encoding selects a different encoding\ncdscript: texts 5\n']);
    const rows = done.out.trimEnd().split('\n').map(row => row.split('\t'));
    assert.deepEqual(rows[0].slice(6), ['text', 'new', 'fill']);
    assert.deepEqual(rows.slice(1).map(row => [row[2], row[3], row[5], row[6], row[8]]), NAMES.map((name, i) =>
        [`${2 * name.length || 1}`, '16', `/DATA/NAMES.DAT+${6 + 24 * i}`, name || '{20}', '{20}']));
    const fresh = ['Medicinal herb 1', 'Antidote', 'Empty no more', 'Sword', 'Wing'];
    const csv = rows.map((row, i) => [...row.slice(0, 7), i === 0 ? 'new' : fresh[i - 1], row[8]].map(cell => `"${cell}"`).join(','));
    write(room, { list: `\uFEFF${csv.join('\r\n')}\r\n` });
    const made = await run(['replace', 'image', '--list', 'list', '-o', 'script'], { cwd: room });
    assert.deepEqual([made.status, messages(made)], [0, '']);
    tool(program, ['apply', 'image', 'script', 'english'], { cwd: room });
    await run(['extract', 'english', '/DATA/NAMES.DAT', 'came'], { cwd: room });
    const due = Buffer.from(table);
    fresh.forEach((text, i) => due.write(text.padEnd(16), 6 + 24 * i));
    sameFile(read(room, 'came'), due, 'the table');
}));

test('the table of a plain file with commas has the code of its filler, which spreadsheets keep', () => inDirectory(async room => {
    const table = tableOf(Buffer.from([0]));
    write(room, { 'names.dat': table });
    const { out } = await run(['texts', '--csv', '--file', 'names.dat', '--limit', '2', ...WORDS], { cwd: room });
    const rows = ['-,6,8,16,CP932,names.dat+6,やくそう,,{00}', '-,30,12,16,CP932,names.dat+30,どくけしそう,,{00}'];
    assert.equal(out, ['\uFEFFblock,offset,bytes,room,encoding,file,text,new,fill', ...rows, ''].join('\r\n'));
    write(room, { list: out.replace('やくそう,,', 'やくそう,Herb,').replace('どくけしそう,,', 'どくけしそう,Medicinal herb 22,') });
    const done = await run(['replace', '--file', 'names.dat', '--list', 'list', 'out', '--partial'], { cwd: room });
    assert.deepEqual([done.status, messages(done)], [1, 'cdscript: row 3: the new text has 17 bytes in CP932, and there is room for 16: 1 too many\n']);
    const due = Buffer.from(table);
    due.write('Herb\0\0\0\0', 6);
    sameFile(read(room, 'out'), due, 'the copy');
}));

test('the names of a table come back from a PO file, each in all its records', () => inDirectory(async room => {
    const table = Buffer.concat([tableOf(Buffer.from([0])).subarray(0, 126), tableOf(Buffer.from([0])).subarray(6)]);
    write(room, { 'names.dat': table });
    const { out } = await run(['texts', '--po', '--file', 'names.dat', ...WORDS], { cwd: room });
    assert.deepEqual([out.split('msgid "やくそう"').length, out.includes('#. room 16 bytes, CP932, fill {00}\n')], [2, true]);
    write(room, { 'list.po': out.replace('msgid "やくそう"\nmsgstr ""', 'msgid "やくそう"\nmsgstr "Medicinal herb 1"').replace('msgid "どくけしそう"\nmsgstr ""', 'msgid "どくけしそう"\nmsgstr "Cure"') });
    const done = await run(['replace', '--file', 'names.dat', '--list', 'list.po', 'out'], { cwd: room });
    assert.deepEqual([done.status, messages(done)], [0, '']);
    const due = Buffer.from(table);
    [6, 126].forEach(at => {
        due.write('Medicinal herb 1', at);
        due.write('Cure'.padEnd(12, '\0'), at + 24);
    });
    sameFile(read(room, 'out'), due, 'the copy');
}));

test('options of records that do not fit together are refused', () => inDirectory(async room => {
    write(room, { 'names.dat': tableOf(Buffer.from([0])) });
    const file = ['texts', '--file', 'names.dat'];
    for (const [words, status, message] of [
        [[...file, '--every', '24'], 2, '--every needs --length'],
        [[...file, '--length', '24'], 2, '--length needs --every'],
        [[...file, '--skip', '24'], 2, '--skip needs --every'],
        [[...file, '--limit', '24'], 2, '--limit needs --every'],
        [[...file, '--every', '15', '--length', '16'], 2, '--every must be at least --length, so at least 16'],
        [[...file, '--every', '0', '--length', '0'], 2, '--every must be a number from 1 to 1048576'],
        [[...file, '--every', '16', '--length', '0'], 2, '--length must be a number from 1 to 4096'],
        [[...file, '--every', '9999', '--length', '4097'], 2, '--length must be a number from 1 to 4096'],
        [[...file, '--every', '1048577', '--length', '1'], 2, '--every must be a number'],
        [[...file, '--every', '1e3', '--length', '1'], 2, '--every must be a number'],
        [[...file, '--every', '24', '--length', '16', '--skip', '-1'], 2, '--skip must be a number'],
        [[...file, '--every', '24', '--length', '16', '--skip', '9999999999999'], 2, '--skip must be a number'],
        [[...file, '--every', '24', '--length', '16', '--lines'], 2, '--every and --lines cannot be used together'],
        [[...file, '--every', '24', '--length', '16', '--min', '2'], 2, '--every and --min cannot be used together'],
        [['texts', 'names.dat', '--every', '24', '--length', '16'], 2, '--every needs one --in PATH, or --file FILE'],
        [['texts', 'names.dat', '--every', '24', '--length', '16', '--in', 'A', '--in', 'B'], 2, '--every needs one --in PATH'],
        [['texts', 'names.dat', '--any'], 2, '--any needs --in PATH, or --file FILE'],
        [[...file, '--every', '24', '--length', '16', '--any'], 2, '--any and --every cannot be used together'],
        [[...file, '--every', '24', '--length', '16', '--limit', '0'], 1, 'texts 0'],
        [[...file, '--every', '24', '--length', '16', '--skip', '1000000000000'], 1, 'texts 0'],
        [[...file, '--every', '1048576', '--length', '4096'], 1, 'texts 0'],
        [[...file, '--every', '1', '--length', '1', '--limit', '5'], 0, 'texts 5'],
    ]) {
        const done = await run(words, { cwd: room });
        assert.deepEqual([done.status, done.errors.includes(message)], [status, true], `${words.join(' ')}: ${done.errors}`);
    }
}));
