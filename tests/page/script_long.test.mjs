// Scripts that are longer than the module takes.

import assert from 'node:assert/strict';
import { test } from 'node:test';
import { MESSAGES } from '../lib/messages.mjs';
import { calls, imageOfBytes, page } from './page.mjs';

const { ScriptLines, hasTooMany, isLong } = await page('app/script_lines.js');
const { ReplacedFiles } = await page('app/replaced_files.js');
const { MOST_HELPED, chosenHelps } = await page('script/editor.js');
const { putIntoScript } = await page('text/generated_script.js');
const { openDisc } = await page('../core/disc/disc.js');
const { encodingOf } = await page('../core/encodings/encodings.js');
const { Translation, openTrack } = await page('../core/tasks/index.js');

test('a script is too long above 64 MB, or 150,000 lines', () => {
    assert.equal(isLong('#'.repeat(1 << 26)), false);
    assert.equal(isLong('#'.repeat((1 << 26) + 1)), true);
    assert.equal(isLong('\n'.repeat(149999)), false);
    assert.equal(isLong('\n'.repeat(150000)), true);
});

test('a script that is too long to be shown has too many patches above 65,535, as cdpatch counts them', () => {
    const others = ' # rebuild 7\n\n\t \r\n#\n'.repeat(40000);
    for (const [count, isBeyond] of [[65535, false], [65536, true]]) {
        const text = `#\ncdpatch 1\n${'rebuild 7\n'.repeat(count - 2)}\t rebuild 7\r\n${others}rebuild 7`;
        assert.equal(hasTooMany(text), isBeyond);
        assert.equal(new ScriptLines(calls, text).tooMany, isBeyond);
        const lines = new ScriptLines(calls);
        lines.replace(text, '');
        const long = new ScriptLines(calls);
        long.take(`${text}${'#\n'.repeat(150000)}`, 'long.txt');
        assert.deepEqual([lines.tooMany, long.tooMany, long.lines.length], [isBeyond, isBeyond, 1]);
        long.leaveLong();
        assert.equal(long.tooMany, false);
    }
});

/** Whether an edit is refused, which then changes nothing. */
function isRefused(lines, edit) {
    const [text, { length }] = [lines.text(), lines.done];
    try {
        edit();
        return false;
    } catch (error) {
        assert.match(error.message, /more than cdpatch accepts/);
        assert.deepEqual([lines.text() === text, lines.done.length, lines.long, [...lines.made]], [true, length, null, []]);
        return true;
    }
}

test('what would make a script longer than the module takes is refused where it is added or typed', () => {
    const patches = new ScriptLines(calls);
    patches.replace(`cdpatch 1\n${'rebuild 7\n'.repeat(65534)}`, '');
    assert.equal(isRefused(patches, () => patches.add(['rebuild 8', 'rebuild 9'], '')), true);
    assert.equal(isRefused(patches, () => patches.add(['rebuild 8'], 'bytes')), false);
    assert.equal(isRefused(patches, () => patches.add(['rebuild 9'], 'bytes')), true);
    const files = new ReplacedFiles();
    assert.equal(isRefused(patches, () => files.replace(patches, {}, '/A', ['rebuild 9'])), true);
    assert.equal(isRefused(patches, () => files.replace(patches, {}, '/A', ['rebuild 9', 'rebuild 10'], ['rebuild 8'])), true);
    const lines = new ScriptLines(calls);
    lines.replace(`cdpatch 1\n${'#\n'.repeat(149998)}`, '');
    assert.equal(isRefused(lines, () => lines.add(['rebuild 8'], 'bytes')), true);
    assert.deepEqual([lines.hasRoom(1, 1, ['#', '#']), lines.hasRoom(1, 1, ['# other']), lines.hasRoom(1, 2, ['#', '#'])], [false, true, true]);
    const bytes = new ScriptLines(calls);
    bytes.replace(`cdpatch 1\n#${'x'.repeat((1 << 26) - 12)}`, '');
    assert.deepEqual([bytes.hasRoom(0, 1, ['cdpatch 12']), bytes.hasRoom(0, 1, ['cdpatch 123'])], [true, false]);
});

test('the lines of many texts do not take the place of a script that is too long', async () => {
    const text = 'An old sentence.';
    const user = Uint8Array.from(Buffer.from(text.padEnd(32, '\0').repeat(320), 'latin1'));
    const { reader } = imageOfBytes(calls.encodeBlocks(0, user));
    const opened = openTrack(await openDisc(calls, [{ name: 'game.bin', reader }]));
    const listed = Array.from({ length: 320 }, (_, i) => ({ block: Math.floor(i / 64), offset: i % 64 * 32, bytes: 16, room: 16, encoding: 'CP932', text }));
    const how = { encodings: [encodingOf('CP932')], isAsked: false };
    const translation = new Translation((await opened.contents()).part, how);
    translation.list(listed, how);
    const script = new ScriptLines(calls);
    const long = `cdpatch 1\n${'#\n'.repeat(150000)}`;
    script.take(long, 'long.txt');
    const image = { opened };
    const app = { calls, script, image, closing: new AbortController(), changeScript: change => change(script) };
    translation.seen = script.lines;
    translation.change(translation.all.map(place => ({ place, fresh: 'New' })));
    await assert.rejects(putIntoScript(app, image, translation, async () => true, () => {}), /more than cdpatch accepts/);
    assert.equal(script.text(), long);
});

test('after a script that is too long, the lines and edits before it return, and the base is that of the open image', () => {
    const lines = new ScriptLines(calls);
    lines.add(['rebuild 7'], '');
    const before = lines.text();
    const bringBack = lines.take(`cdpatch 1\n${'#\n'.repeat(150000)}`, 'long.txt');
    lines.base = 150;
    assert.deepEqual([lines.lines.length, lines.patches, lines.name], [1, 0, 'long.txt']);
    bringBack();
    assert.deepEqual([lines.text(), lines.patches, lines.name, lines.base, lines.long], [before, 1, '', 150, null]);
    lines.undo();
    assert.equal(lines.isNew(), true);
});

test('of the longest script whose lines are shown each line is read once, and once more if it has too many patches', () => {
    let read = 0;
    const counting = Object.create(calls);
    counting.readLine = function (...given) {
        read += 1;
        return calls.readLine.apply(this, given);
    };
    for (const [line, rounds] of [['#', 1], ['x', 1], ['rebuild 7', 2], ['x'.repeat(20), 1]]) {
        const text = `cdpatch 1\n${`${line}\n`.repeat(149990)}`.slice(0, 4000000);
        assert.equal(isLong(text), false);
        const lines = new ScriptLines(counting);
        read = 0;
        lines.replace(text, 'x.txt');
        assert.equal(lines.lines.length, 149992);
        assert.ok(read <= rounds * lines.lines.length, `${line}: ${read}`);
    }
});

test('the words of a fault are made once, however many lines have it', () => {
    const lines = new ScriptLines(calls);
    lines.replace(`cdpatch 1\n${'x\nset 0 0\n'.repeat(500)}`, '');
    let made = 0;
    const faultLine = calls.faultLine.bind(calls);
    calls.faultLine = (number, fault) => { made += 1; return faultLine(number, fault); };
    try {
        const words = lines.lines.map((_, i) => lines.wordsAt(i));
        assert.deepEqual([words[0], words[1], words[999], words[1001]], ['', MESSAGES.unknown_verb, MESSAGES.unknown_verb, '']);
        assert.equal(words[2], words[1000]);
        assert.notEqual(words[2], '');
    } finally {
        calls.faultLine = faultLine;
    }
    assert.equal(made, 2);
});

test('of many wrong lines only the first have help under them, one for several that want the same', () => {
    const lines = new ScriptLines(calls);
    lines.replace(`cdpatch 1\n${'x\nx\n\nset 0 0\n'.repeat(20000)}`, '');
    const asked = [];
    const helps = chosenHelps(lines, i => { asked.push(i); return { text: lines.lines[i].text, says: '' }; });
    assert.deepEqual([...helps.keys()].slice(0, 4), [1, 4, 5, 8]);
    assert.equal(asked.length, MOST_HELPED);
    assert.equal(Math.max(...helps.keys()), asked[MOST_HELPED - 1]);
    assert.equal(chosenHelps(new ScriptLines(calls), () => assert.fail()).size, 0);
});

test('a long script takes the place of all lines, is given out whole, and makes way for them again', () => {
    const lines = new ScriptLines(calls);
    lines.edit(1, 1, ['rebuild 7', 'x']);
    const long = `cdpatch 1\n${'#'.repeat(5000000)}`;
    lines.setLong(long, 'long.txt');
    assert.equal(lines.text(), long);
    assert.deepEqual([lines.lines.map(({ text }) => text), lines.faults, lines.name, lines.isSaved()], [[''], 0, 'long.txt', false]);
    lines.noteSaved();
    assert.equal(lines.isSaved(), true);
    lines.setLong(`${long}\n`, 'longer.txt');
    assert.equal(lines.isSaved(), false);
    assert.equal(lines.undo(), -1);
    lines.leaveLong();
    assert.deepEqual([lines.text(), lines.patches, lines.faults, lines.name], ['cdpatch 1\nrebuild 7\nx', 1, 1, '']);
    assert.equal(lines.undo(), 1);
    lines.setLong(long, 'long.txt');
    lines.replace('cdpatch 2\nrebuild 8\n', 'short.txt');
    assert.deepEqual([lines.text(), lines.name, lines.version], ['cdpatch 2\nrebuild 8\n', 'short.txt', 2]);
    assert.equal(lines.undo(), 0);
    assert.deepEqual([lines.text(), lines.name], ['cdpatch 1\n', '']);
});
