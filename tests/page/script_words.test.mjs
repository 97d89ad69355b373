// Script lines in plain words, and help for faults and refusals.

import assert from 'node:assert/strict';
import { test } from 'node:test';
import { calls, page } from './page.mjs';

const { ScriptLines } = await page('app/script_lines.js');
const { helpOfFault, helpOfRefusal, patchInWords } = await page('script/explain.js');

function said(line, where = '') {
    const lines = new ScriptLines(calls, `cdpatch 2\n${line}`);
    const patch = lines.patchAt(1);
    return patch ? patchInWords(patch, where) : helpOfFault(lines, 1);
}

test('each verb is said in plain words', () => {
    assert.equal(said('set 4711 85 5361 was 835A', '/DATA/MSG00.DAT'),
        'write 2 bytes at [offset] 85 of [block] 4711, in /DATA/MSG00.DAT, if the old bytes are there.');
    assert.equal(said('set 4711 2047 5361'), 'write 2 bytes at [offset] 2047 of [block] 4711, continuing into block 4712, whatever is there.');
    assert.equal(said('fill 4720 2000 96 0a'), 'write 96 bytes 0A at [offset] 2000 of [block] 4720, continuing into block 4721.');
    assert.equal(said('set 0 0 41'), 'write 1 byte at [offset] 0 of [block] 0, whatever is there.');
    assert.equal(said('rebuild 7'), 'recalculate EDC and parity of [block] 7 from its current bytes.');
    assert.equal(said('address 7 00:02:07'), 'write the address 00:02:07 in the header of [block] 7.');
});

test('each fault has a sentence, and some a line that mends it', () => {
    assert.deepEqual(said('set 1 2 414'), { text: 'An odd number of digits: 3. Two digits make one byte.', fix: null });
    assert.match(said('set 1 2 0x41').text, /no 0x/);
    assert.match(said('set 0x1 2 41').text, /decimal/);
    assert.equal(said('set 1 2 4142 was 41').text, 'New bytes: 2, old bytes: 1. There must be as many of each.');
    assert.match(said('fill 1 2 5000 00').text, /1 to 4096/);
    assert.match(said('rebuild 1 2').text, /rebuild BLOCK\.$/);
    assert.match(said('set 1 2').text, /: set BLOCK OFFSET NEW, or set BLOCK OFFSET NEW was OLD\.$/);
    assert.match(said('address 1 00:60:00').text, /SS to 59/);
    assert.deepEqual(said('SET 1 2 41').fix, { says: 'set?', lines: ['set 1 2 41'] });
    assert.match(said('replace 1 2 41').text, /The verbs are set, fill, rebuild, address \(from version 2 on\),/);
    for (const line of ['cdpatch 1', 'CDPATCH 2']) assert.match(said(line).text, /one head line/);
});

test('a verb of a later version asks for its head line, and a word of another place for none', () => {
    const help = line => helpOfFault(new ScriptLines(calls, `cdpatch 1\n${line}`), 1);
    const fix = { says: 'Change it to “cdpatch 2”', lines: ['cdpatch 2'], head: true };
    assert.deepEqual(help('address 1 00:02:00'), { text: 'The verb address needs the head line cdpatch 2.', fix });
    assert.deepEqual(help('address 1'), { text: 'The verb address needs the head line cdpatch 2.', fix });
    assert.match(help('adress 1 00:02:00').text, /The verbs are/);
    assert.match(help('set 1 2 41 was 4').text, /odd number of digits: 1/);
});

test('each fault that the program has words for has a sentence', () => {
    const lines = ['no', 'SET', 'set 1', 'set x 2 41', 'set 1 2 4x', 'set 1 2 41 was 4142', 'set 1 2048 41', 'address 1 00:60:00', 'rebuild 1'];
    lines.forEach((line, i) => {
        const script = new ScriptLines(calls, i === 0 ? line : `cdpatch 2\n${i === 8 ? 'rebuild 1\n'.repeat(65535) : ''}${line}`);
        const last = script.lines.length - 1;
        assert.equal(script.lines[last].content, 4 + i, line);
        assert.ok(helpOfFault(script, last).text.length > 20, line);
    });
});

test('an offset over 2047 is counted on from its block', () => {
    assert.deepEqual(said('set 4711 2105 41 was 42').fix, { says: 'Block 4712 offset 57?', lines: ['set 4712 57 41 was 42'] });
    assert.deepEqual(said('fill 0 4096 1 00').fix, { says: 'Block 2 offset 0?', lines: ['fill 2 0 1 00'] });
});

test('a script without a head line gets one', () => {
    assert.deepEqual(helpOfFault(new ScriptLines(calls, 'rebuild 1'), 0).fix.lines, ['cdpatch 1', 'rebuild 1']);
});

test('a head line that is none becomes one by a press', () => {
    for (const [head, mended] of [['cdpatch 9', 'cdpatch 2'], ['CDPATCH 1', 'cdpatch 1'], ['cdpatch 1 0', 'cdpatch 1'], ['cdpatch', 'cdpatch 2']]) {
        const { fix } = helpOfFault(new ScriptLines(calls, `${head}\nrebuild 1`), 0);
        assert.deepEqual(fix, { says: `Change it to “${mended}”`, lines: [mended] }, head);
    }
});

test('a line that needs version 2 mends the head line', () => {
    const lines = new ScriptLines(calls, '# mine\ncdpatch 1\naddress 7 00:02:07');
    const { fix } = helpOfFault(lines, 2);
    assert.deepEqual(fix, { says: 'Change it to “cdpatch 2”', lines: ['cdpatch 2'], head: true });
    lines.edit(lines.head, 1, fix.lines);
    assert.equal(lines.faults, 0);
});

test('each refusal has a sentence', () => {
    const image = { base: 150, sectors: 10 };
    for (const result of [1, 2, 4, 5]) assert.ok(helpOfRefusal(result, image, 0).text.length > 20, `result ${result}`);
    assert.match(helpOfRefusal(4, image, 0).text, /150 to 159/);
    assert.equal(helpOfRefusal(5, image, 2).text, 'Line 2 has already changed these bytes.');
});
