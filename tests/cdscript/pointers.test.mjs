// A whole translation whose texts are longer than their room: `texts --pointers` and `replace --pointers`.

import assert from 'node:assert/strict';
import { test } from 'node:test';
import { discOf, skip } from './discs.mjs';
import { inDirectory, read, run, sameFile, tool, top, write } from './common.mjs';

const FILES = 10;
const TEXTS = 30;
/** The texts of an event file as its game reads them. */
const textsIn = bytes => Array.from({ length: bytes.readUInt16LE(0) }, (_, i) => {
    const at = bytes.readUInt16LE(2 + 2 * i);
    return bytes.subarray(at, bytes.indexOf(0, at)).toString('latin1').trimEnd();
});

/** The English text of a row. */
const english = (text, i) => `The hero found herb number ${/\d+/.exec(text)[0]}${i % 3 === 0 ? ', and took it home to the castle' : ''}.`;

/** Makes a disc with event files (tests/lib/event_files.py), and the lists of its texts and pointers. */
async function madeDisc(room, files) {
    tool('python3', ['-B', `${top}/tests/lib/event_files.py`, `${files}`], { cwd: room });
    const events = Object.fromEntries(Array.from({ length: files }, (_, i) => [`EVENT${i}.DAT`, read(room, `EVENT${i}.DAT`)]));
    await discOf(room, { ...events, 'MAIN.DAT': Buffer.alloc(1_300_000), 'FILM.STR': Buffer.alloc(3_000_000) }, { options: ['-R', '-J'] });
    return run(['texts', 'disc.bin', '-o', 'texts.tsv', '--pointers', 'pointers.tsv'], { cwd: room });
}

test('a translation of 300 texts that are too long is on the patched disc, and undo takes it back', { skip }, () => inDirectory(async room => {
    const listed = await madeDisc(room, FILES);
    const notSearched = 'cdscript: not searched for pointers: /MAIN.DAT (1.3 MB), 1 more\n';
    assert.deepEqual([listed.status, listed.errors], [0, `cdscript: texts ${FILES * TEXTS}\ncdscript: tables of pointers ${FILES}\n${notSearched}`]);
    const lines = read(room, 'texts.tsv').toString().split('\n').slice(0, -1);
    const rows = lines.map((line, i) => i === 0 ? line : line + english(line.split('\t')[6], i));
    write(room, { 'new.tsv': `${rows.join('\n')}\n` });
    const short = await run(['replace', 'disc.bin', '--list', 'new.tsv', '-o', 'short'], { cwd: room });
    assert.equal(short.status, 2);
    const made = await run(['replace', 'disc.bin', '--list', 'new.tsv', '--pointers', 'pointers.tsv', '-o', 'story'], { cwd: room });
    assert.equal(made.status, 0, made.errors);
    assert.match(made.errors, /^cdscript: row \d+: moved in \/EVENT0\.DAT from \d+ to \d+; pointers 1$/m);
    assert.match(made.errors, /^cdscript: texts moved \d{3}$/m);
    assert.equal((await run(['apply', 'disc.bin', 'story', 'story.bin'], { cwd: room })).status, 0);
    const due = new Map(rows.slice(1).map(row => [row.split('\t')[5], row.split('\t')[7]]));
    for (let i = 0; i < FILES; i++) {
        assert.equal((await run(['extract', 'story.bin', `/EVENT${i}.DAT`, `${i}`], { cwd: room })).status, 0);
        const old = read(room, `EVENT${i}.DAT`);
        const wanted = Array.from({ length: TEXTS }, (_, k) => due.get(`/EVENT${i}.DAT+${old.readUInt16LE(2 + 2 * k)}`));
        assert.deepEqual(textsIn(read(room, String(i))), wanted);
    }
    assert.equal((await run(['undo', 'disc.bin', 'story', '-o', 'back'], { cwd: room })).status, 0);
    assert.equal((await run(['apply', 'story.bin', 'back', 'back.bin'], { cwd: room })).status, 0);
    sameFile(read(room, 'back.bin'), read(room, 'disc.bin'), 'the disc after undo');
}));

test('--keep leaves rows in place, unreadable tables are messages, and options need one another', { skip }, () => inDirectory(async room => {
    const listed = await madeDisc(room, 1);
    const lines = read(room, 'texts.tsv').toString().split('\n').slice(0, -1);
    const rows = lines.map((line, i) => i === 0 ? line : line + english(line.split('\t')[6], i));
    write(room, { 'new.tsv': `${rows.join('\n')}\n`, 'wrong.tsv': read(room, 'pointers.tsv').toString().replace('\tlittle\t', '\tmiddle\t') });
    const words = ['replace', 'disc.bin', '--list', 'new.tsv', '-o'];
    const kept = await run([...words, 'kept', '--pointers', 'pointers.tsv', '--keep', '4', '--keep', '7', '--partial'], { cwd: room });
    assert.equal(kept.status, 1, kept.errors);
    assert.match(kept.errors, /^cdscript: row 4: the new text has \d+ bytes in CP932, .* It cannot move: it is to stay in place$/m);
    assert.equal(/row (4|7): moved/.test(kept.errors), false);
    const wrong = await run([...words, 'wrong', '--pointers', 'wrong.tsv'], { cwd: room });
    assert.deepEqual([wrong.status, wrong.errors], [2, "cdscript: wrong.tsv: row 2 of the list of pointers: order cannot be 'middle'\n"]);
    assert.equal(read(room, 'wrong'), null);
    // Without a table, texts stay in place.
    write(room, { 'empty.tsv': read(room, 'pointers.tsv').toString().split('\n')[0] });
    const due = await run([...words, 'due', '--partial'], { cwd: room });
    const empty = await run([...words, 'empty', '--partial', '--pointers', 'empty.tsv'], { cwd: room });
    assert.deepEqual([empty.status, empty.errors], [1, `cdscript: empty.tsv has no table of pointers, so all texts stay in place\n${due.errors}`]);
    sameFile(read(room, 'empty'), read(room, 'due'), 'the script in place');
    for (const [more, message] of [[['--keep', '4'], '--keep needs --pointers'], [['--keep', 'x'], /--keep/]]) {
        const { status, errors } = await run([...words, 'none', ...more], { cwd: room });
        assert.equal(status, 2);
        assert.match(errors, new RegExp(message));
    }
    const again = await run(['texts', 'disc.bin', '-o', 'more.tsv', '--pointers', 'pointers.tsv'], { cwd: room });
    assert.deepEqual([again.status, again.errors], [2, 'cdscript: cannot create pointers.tsv: it already exists\n']);
}));
