// The lines of the script: their content as the module reads it, edits, undo, and faults.

import assert from 'node:assert/strict';
import { test } from 'node:test';
import { MESSAGES } from '../lib/messages.mjs';
import { calls, core, page } from './page.mjs';

const { linesUnder, modelInParts } = await core('script/model.js');
const { ScriptLines } = await page('app/script_lines.js');
const { ReplacedFiles } = await page('app/replaced_files.js');

function linesOf(text) {
    return new ScriptLines(calls, text);
}

const words = lines => lines.lines.map((_, i) => lines.wordsAt(i));

test('each line has the fault that the program would name if it were the first', () => {
    const lines = linesOf('# a\ncdpatch 1\nset 7 8 4\nset 7 2048 41\nSET 1 2 41\nrebuild\nfill 0 0 0 00\naddress 0 00:02:00\nset 1 2 41');
    const { bad_hex: hex, bad_offset: offset, unknown_verb: verb, word_count: count, bad_length: length } = MESSAGES;
    assert.deepEqual(words(lines), ['', '', hex, offset, verb, count, length, verb, '']);
    assert.deepEqual([lines.faults, lines.patches, lines.head, lines.version], [6, 1, 1, 1]);
});

test('only the first line is faulty for want of a head line', () => {
    const lines = linesOf('\nset 7 8 41\nrebuild 4');
    assert.deepEqual(words(lines), ['', MESSAGES.no_head, '']);
    lines.edit(1, 1, ['cdpatch 2', 'set 7 8 41']);
    assert.deepEqual(words(lines), ['', '', '', '']);
    assert.equal(lines.version, 2);
});

test('an edit reads its own lines anew, and all lines if the head line changes', () => {
    const lines = linesOf('cdpatch 2\naddress 0 00:02:00\nrebuild 1\n');
    assert.equal(lines.faults, 0);
    lines.edit(0, 1, ['cdpatch 1']);
    assert.deepEqual(words(lines), ['', MESSAGES.unknown_verb, '', '']);
    lines.edit(2, 1, ['rebuild x', 'rebuild 5']);
    assert.deepEqual(words(lines), ['', MESSAGES.unknown_verb, MESSAGES.bad_number, '', '']);
    lines.edit(1, 2, []);
    assert.deepEqual([lines.text(), lines.faults, lines.patches], ['cdpatch 1\nrebuild 5\n', 0, 1]);
});

test('undo and redo give each text again, and typing in a line is one step', () => {
    const lines = linesOf('cdpatch 1\nrebuild 1');
    const texts = [lines.text()];
    lines.edit(1, 1, ['rebuild 12'], 'line');
    lines.edit(1, 1, ['rebuild 123'], 'line');
    texts.push(lines.text());
    lines.edit(1, 1, ['rebuild', '123']);
    texts.push(lines.text());
    assert.equal(lines.undo(), 1);
    assert.equal(lines.text(), texts[1]);
    assert.equal(lines.undo(), 1);
    assert.equal(lines.text(), texts[0]);
    assert.equal(lines.undo(), -1);
    assert.equal(lines.redo(), 1);
    assert.equal(lines.redo(), 2);
    assert.equal(lines.text(), texts[2]);
    assert.equal(lines.faults, 2);
});

test('another text is one edit of the lines that differ, with its name', () => {
    const lines = linesOf('cdpatch 1\nrebuild 1\nrebuild 2\n');
    lines.edit(1, 1, ['rebuild 11']);
    lines.replace('cdpatch 2\r\naddress 0 00:02:00\r\nrebuild 2\r\n', 'other.txt');
    assert.deepEqual([lines.name, lines.text(), lines.faults], ['other.txt', 'cdpatch 2\r\naddress 0 00:02:00\r\nrebuild 2\r\n', 0]);
    lines.undo();
    assert.deepEqual([lines.name, lines.text()], ['', 'cdpatch 1\nrebuild 11\nrebuild 2\n']);
    lines.undo();
    assert.equal(lines.text(), 'cdpatch 1\nrebuild 1\nrebuild 2\n');
    lines.redo();
    lines.redo();
    assert.deepEqual([lines.name, lines.text()], ['other.txt', 'cdpatch 2\naddress 0 00:02:00\nrebuild 2\n']);
});

test('a long script is read in parts, with a turn for others between them, as all of it at once', async () => {
    const row = i => i % 1000 === 7 ? 'rebuild x' : i % 3 ? `fill ${i} 5 2 41` : '# é';
    for (const head of ['cdpatch 1', '# no head', 'cdpatch 2']) {
        const text = [head, '', ...Array.from({ length: 12000 }, (_, i) => row(i)), ''].join('\n');
        let turns = 0;
        const known = await modelInParts(calls, text, async () => {
            turns += 1;
            calls.hold(new Uint8Array(9)); // as other calls do in the meantime
        });
        assert.equal(turns, 2);
        const [lines, due] = [linesOf('cdpatch 1\nrebuild 1\n'), linesOf(text)];
        lines.take(text, 'long.txt', known);
        const facts = ({ lines: all, head: at, version, patches, faults, size, blocks }) => [all, at, version, patches, faults, size, blocks];
        assert.deepEqual(facts(lines), facts(due));
        assert.equal(lines.text(), text);
        lines.edit(3, 1, ['rebuild 4']);
        due.edit(3, 1, ['rebuild 4']);
        assert.deepEqual(facts(lines), facts(due));
        lines.undo();
        lines.undo();
        assert.equal(lines.text(), 'cdpatch 1\nrebuild 1\n');
    }
});

test('lines that are added stay among those before, and each byte that is typed on is a step', () => {
    const lines = linesOf('cdpatch 1\n');
    lines.edit(0, 1, ['cdpatch 1', '# mine']);
    const number = lines.add(['set 1 2 41'], 'bytes');
    for (const bytes of ['4142', '414243']) lines.edit(number - 1, 1, [`set 1 2 ${bytes}`], 'bytes');
    assert.deepEqual([lines.text(), lines.patches], ['cdpatch 1\n# mine\nset 1 2 414243\n', 1]);
    for (const line of ['set 1 2 4142\n', 'set 1 2 41\n', '']) {
        lines.undo();
        assert.equal(lines.text(), `cdpatch 1\n# mine\n${line}`);
    }
    lines.undo();
    assert.equal(lines.text(), 'cdpatch 1\n');
});

test('a line that was added is a step of its own, before what is typed in it', () => {
    for (const way of ['', 'bytes']) {
        const lines = linesOf('cdpatch 1\n');
        lines.add(['set 1 2 41'], way);
        lines.edit(1, 1, ['set 1 2 4'], 'line');
        lines.undo();
        assert.equal(lines.text(), 'cdpatch 1\nset 1 2 41\n');
        lines.undo();
        assert.equal(lines.text(), 'cdpatch 1\n');
        lines.redo();
        assert.equal(lines.text(), 'cdpatch 1\nset 1 2 41\n');
    }
});

test('a script is in no file from its first edit until it is saved, and again after the next', () => {
    const lines = linesOf('cdpatch 1\n');
    assert.equal(lines.isSaved(), true);
    lines.edit(1, 1, ['rebuild 1'], 'line');
    assert.equal(lines.isSaved(), false);
    lines.noteSaved();
    assert.equal(lines.isSaved(), true);
    lines.edit(1, 1, ['rebuild 12'], 'line');
    assert.equal(lines.isSaved(), false);
    lines.undo();
    assert.deepEqual([lines.text(), lines.isSaved()], ['cdpatch 1\nrebuild 1', true]);
    lines.redo();
    assert.equal(lines.isSaved(), false);
});

test('outcomes stand at their lines as what fits and what does not, until an edit', () => {
    const lines = linesOf('cdpatch 1\nrebuild 1\n# note\nset 4713 608 41 was 42\nset 7 8 41 was 42');
    lines.setOutcomes([{ number: 2, result: 0, block: 1, offset: 0 }, { number: 5, result: 0, block: 7, offset: 8 },
        { number: 4, result: 5, block: 4713, offset: 608 }]);
    assert.deepEqual(words(lines), ['', 'not compared', '', 'refused: old bytes differ at block 4713 offset 608', 'matches']);
    assert.deepEqual([lines.nextWrong(0, 1), lines.nextWrong(3, 1), lines.nextWrong(0, -1)], [3, 3, 3]);
    lines.edit(1, 1, ['rebuild 2']);
    assert.deepEqual(words(lines), ['', '', '', '', '']);
    assert.equal(lines.nextWrong(0, 1), -1);
});

test('a line that is refused after another has written its place names that one', () => {
    const lines = linesOf('cdpatch 1\nset 7 8 4142 was 0000\nset 7 9 43 was 00\nset 7 8 44 was 99\nset 7 8 45 was 00\nset 9 0 41 was 42');
    const outcome = (number, result, block, offset) => ({ number, result, block, offset });
    const differ = [outcome(3, 5, 7, 9), outcome(4, 5, 7, 8), outcome(6, 5, 9, 0)];
    lines.setOutcomes([outcome(2, 0, 7, 8), outcome(5, 0, 7, 8), ...differ]);
    assert.deepEqual(differ.map(it => lines.writerBefore(it)), [2, 2, 0]);
    // No line, if a later check has refused that one too.
    lines.setOutcomes([outcome(2, 5, 7, 8), ...differ]);
    assert.deepEqual(differ.map(it => lines.writerBefore(it)), [0, 0, 0]);
});

test('65535 patches are read in little time, and one more is a fault', () => {
    const patches = Array.from({ length: 65535 }, (_, i) => `set ${i} ${i % 2048} 41 was 42`);
    const lines = linesOf(`cdpatch 1\n${patches.join('\n')}`);
    assert.deepEqual([lines.patches, lines.faults], [65535, 0]);
    lines.edit(3, 0, ['rebuild 9']);
    assert.deepEqual([lines.patches, lines.faults], [65535, 1]);
    assert.equal(lines.wordsAt(65536), 'more than 65535 patches');
    lines.undo();
    assert.equal(lines.faults, 0);
});

test('a line of 16384 hexadecimal digits is read, and its patch is there', () => {
    const lines = linesOf(`cdpatch 1\nset 5 6 ${'4a'.repeat(4096)} was ${'4B'.repeat(4096)}`);
    assert.equal(lines.faults, 0);
    const { block, offset, fresh, old } = lines.patchAt(1);
    assert.deepEqual([block, offset, fresh.length, fresh[4095], old[4095]], [5, 6, 4096, 0x4a, 0x4b]);
    assert.equal(lines.patchAt(0), null);
});

test('line ends of Windows are line ends, and a text ends as it did', () => {
    const lines = linesOf('cdpatch 1\r\nrebuild 1\r\n');
    assert.deepEqual(lines.lines.map(({ text }) => text), ['cdpatch 1', 'rebuild 1', '']);
    assert.equal(lines.text(), 'cdpatch 1\r\nrebuild 1\r\n');
    lines.edit(1, 1, ['rebuild 2']);
    assert.equal(lines.text(), 'cdpatch 1\nrebuild 2\n');
});

test('a file that is replaced once more leaves no line of its earlier replacement', () => {
    const [lines, files, disc] = [linesOf('cdpatch 1\n# mine\n'), new ReplacedFiles(), {}];
    assert.equal(files.replace(lines, disc, '/A', ['set 5 0 4141 was 2020', 'set 6 0 41 was 20']), 0);
    assert.equal(files.replace(lines, disc, '/B', ['set 9 0 42 was 20']), 0);
    lines.add(['set 5 0 5A was 41'], 'bytes');
    const before = lines.text();
    assert.equal(files.replace(lines, disc, '/A', ['set 5 1 43 was 20']), 2);
    const after = 'cdpatch 1\n# mine\nset 9 0 42 was 20\nset 5 0 5A was 41\n';
    assert.equal(lines.text(), `${after}set 5 1 43 was 20\n`);
    lines.undo();
    assert.equal(lines.text(), before);
    lines.redo();
    assert.equal(files.replace(lines, disc, '/A', []), 1, 'the file is as on the disc');
    assert.equal(lines.text(), after);
    assert.equal(files.replace(lines, disc, '/A', []), 0);
});

test('a file of another disc leaves the lines for a file of the same path', () => {
    const [lines, files] = [linesOf('cdpatch 1\n'), new ReplacedFiles()];
    const [first, second] = [{}, {}];
    files.replace(lines, first, '/A', ['set 5 0 41 was 20']);
    assert.equal(files.replace(lines, second, '/A', ['set 7 0 42 was 20']), 0);
    assert.equal(files.replace(lines, first, '/A', ['set 5 0 43 was 20']), 1);
    assert.equal(lines.text(), 'cdpatch 1\nset 7 0 42 was 20\nset 5 0 43 was 20\n');
});

test('lines that write the bytes of others are found in their order, and taken out by one edit', async () => {
    const lines = linesOf('cdpatch 1\n# mine\nfill 5 0 3 00\n');
    lines.add(['set 6 1 4141 was 2020'], '');
    lines.add(['set 5 0 41 was 20', 'set 6 3 42 was 20', 'set 7 0 43 was 20'], 'bytes');
    const incoming = ['set 6 2 2020 was 2020', 'set 5 0 202020 was 202020'];
    const found = linesUnder(lines, incoming).filter(({ patch }) => patch.verb === 0);
    assert.deepEqual(found.map(({ number }) => number), [4, 5, 6]);
    const before = lines.text();
    assert.equal(lines.remove(new Set(found.map(({ text }) => text))), 3);
    assert.equal(lines.text(), 'cdpatch 1\n# mine\nfill 5 0 3 00\nset 7 0 43 was 20\n');
    assert.equal(lines.remove(new Set(['set 9 9 41'])), 0);
    lines.undo();
    assert.equal(lines.text(), before);
});

test('lines that were made here are counted from another base, and others are not', () => {
    const lines = linesOf('cdpatch 1\nset 5 0 41 was 20\n');
    lines.add(['set 5 2 42 was 20', 'set 6 0 44 was 20'], '');
    lines.add(['set 7 0 43 was 20'], 'bytes');
    lines.shift(150);
    const due = 'cdpatch 1\nset 5 0 41 was 20\nset 155 2 42 was 20\nset 156 0 44 was 20\nset 7 0 43 was 20\n';
    assert.equal(lines.text(), due);
    assert.ok(lines.made.has('set 155 2 42 was 20'));
    lines.undo();
    assert.equal(lines.text(), due.replaceAll('set 15', 'set '));
});

test('lines that come into a new script follow the comment that says the base of the image', () => {
    const due = 'cdpatch 1\n# base 150\nset 5 0 41 was 20\n';
    for (const text of ['cdpatch 1\n', '', 'cdpatch 1\nset 4 0 42 was 20\n']) {
        const added = linesOf(text);
        added.base = 150;
        added.add(['set 5 0 41 was 20'], '');
        const isNew = !text.includes('set');
        assert.equal(added.text(), isNew ? due : `${text}set 5 0 41 was 20\n`);
        added.add(['rebuild 7'], '');
        assert.equal(added.text().split('# base').length, isNew ? 2 : 1);
    }
});
