// Characters of several bytes: hits in the middle of one, and rows of `show` that split one.

import assert from 'node:assert/strict';
import { test } from 'node:test';
import { ENCODINGS_KNOWN, imageOf, inDirectory, run, tool, write, writeImage } from './common.mjs';

const INSIDE = 'perhaps in the middle of a character (byte before: 8A)';

test('a hit in the middle of a character is marked, and replaced only at its place', () => inDirectory(async room => {
    // In CP932 殻 is 8A6B and クk is 834E6B; in EUC-JP 亜亜 is B0A6B0A6, and Π is A6B0.
    writeImage(room, [2, 100, '8A6B7A'], [3, 2047, '8A'], [4, 0, '6B7A'], [4, 500, '834E6B7A'], [5, 9, 'B0A6B0A6'], [5, 40, 'A6B0']);
    const kz = await run(['find', 'image', 'kz', '--encoding', 'CP932'], { cwd: room });
    assert.deepEqual(kz.out.split('\n').map(line => [...line.split('\t').slice(0, 2), line.split('\t')[5]].join(' ')),
        [`2 101 ${INSIDE}`, `4 0 ${INSIDE}`, '4 502 ', ' ']);
    const euc = await run(['find', 'image', 'A6B0', '--encoding', 'hex'], { cwd: room });
    assert.ok(euc.out.includes('\t') && !euc.out.includes(INSIDE));
    const sign = tool('iconv', ['-f', 'EUC-JP', '-t', 'UTF-8'], { input: Buffer.from('A6B0', 'hex') }).toString();
    const signs = await run(['find', 'image', sign, '--encoding', 'EUC-JP'], { cwd: room });
    assert.deepEqual(signs.out.split('\n').map(line => line.split('\t')[5]), [INSIDE.replace('8A', 'B0'), undefined, undefined]);
    const all = await run(['replace', 'image', 'kz', 'xx', '--all', '--encoding', 'CP932'], { cwd: room });
    const why = `block 2 offset 101: ${INSIDE}`;
    assert.deepEqual([all.status, all.out, all.errors], [1, 'cdpatch 1\nset 4 502 7878 was 6B7A\n',
        `cdscript: ${why}\ncdscript: block 4 offset 0: ${INSIDE}\n`]);
    const each = await run(['replace', 'image', 'kz', 'xx', '--all', '--inside', '--encoding', 'CP932'], { cwd: room });
    assert.deepEqual([each.status, each.out, each.errors],
        [0, `cdpatch 1\n${['2 101', '4 0', '4 502'].map(place => `set ${place} 7878 was 6B7A\n`).join('')}`, '']);
    const long = await run(['replace', 'image', 'kz', 'xxx', '--all', '--encoding', 'CP932'], { cwd: room });
    assert.deepEqual([long.status, long.out, long.errors], [2, '', 'cdscript: the new text has 3 bytes in CP932, and there is room for 2: 1 too many\n']);
    const many = await run(['replace', 'image', 'kz', 'xx', '--encoding', 'CP932'], { cwd: room });
    const dots = count => '.'.repeat(count);
    assert.deepEqual(many.errors.split('\n').slice(0, 3), [`cdscript: found at block 2 offset 101, ${INSIDE}: ${dots(23)}kz${dots(24)}`,
        `cdscript: found at block 4 offset 0, ${INSIDE}: ${dots(23)}kz${dots(24)}`,
        `cdscript: found at block 4 offset 502: ${dots(22)}クkz${dots(24)}`]);
    const placed = await run(['replace', 'image', '2', '101', 'kz', 'xx', '--encoding', 'CP932'], { cwd: room });
    assert.deepEqual([placed.status, placed.out, placed.errors], [0, 'cdpatch 1\nset 2 101 7878 was 6B7A\n', `cdscript: ${why}\n`]);
    const begun = await run(['replace', 'image', '4', '502', 'kz', 'xx', '--encoding', 'CP932'], { cwd: room });
    assert.deepEqual([begun.status, begun.errors], [0, '']);
}));

test('the encoding is the first one in which the text is not only in the middle of characters, and the others are named', () => inDirectory(async room => {
    // In CP932 アイ is 83418343, and ャ is 8383; in EUC-JP アイ is A5A2A5A4.
    writeImage(room, [2, 100, '8383418343'], [5, 9, 'A5A2A5A4'], [3, 7, '6B7A'], [3, 89, '016B007A00'], [4, 7, '016B007A00']);
    const found = async (...words) => {
        const { status, out, errors } = await run(['find', 'image', ...words], { cwd: room });
        const rows = out.split('\n').slice(0, -1).map(line => line.split('\t')).map(row => [row[0], row[1], row[5]].join(' '));
        return [status, rows, errors.split('\n').slice(0, -1).map(line => line.replace('cdscript: ', '')).filter(line => !line.startsWith('file names are unknown: '))];
    };
    const inside = 'found in CP932 only in the middle of characters';
    assert.deepEqual(await found('アイ'), [0, ['5 9 '], ['found in EUC-JP', inside, 'hits 1 printed 1']]);
    const [status, [row], said] = await found('アイ', '--encoding', 'CP932');
    assert.deepEqual([status, row, said], [0, `2 101 ${INSIDE.replace('8A', '83')}`, ['hits 1 printed 1']]);
    const only = await run(['replace', 'image', 'アイ', 'エオ', '--encoding', 'CP932'], { cwd: room });
    assert.deepEqual([only.status, only.errors], [2, `cdscript: block 2 offset 101: ${INSIDE.replace('8A', '83')}: --inside replaces it anyway\n`]);
    const none = await run(['replace', 'image', 'アイ', 'エオ', '--encoding', 'CP932', '--all'], { cwd: room });
    assert.deepEqual([none.status, none.out, none.errors], [2, '', `cdscript: ${INSIDE.replace('8A', '83')}\n`]);
    const other = 'also found in UTF-16LE: use --encoding UTF-16LE';
    assert.deepEqual(await found('kz'), [0, ['3 7 '], ['found in CP932', other, 'hits 1 printed 1']]);
    const kana = await run(['replace', 'image', 'アイ', 'エオ'], { cwd: room });
    assert.deepEqual([kana.status, kana.out, kana.errors],
        [0, 'cdpatch 1\nset 5 9 A5A8A5AA was A5A2A5A4\n', `cdscript: found in EUC-JP\ncdscript: ${inside}\n`]);
    const both = await run(['replace', 'image', 'kz', 'xx'], { cwd: room });
    assert.deepEqual([both.status, both.out, both.errors],
        [0, 'cdpatch 1\nset 3 7 7878 was 6B7A\n', `cdscript: found in CP932\ncdscript: ${other}\n`]);
}));

test('show keeps characters whole over rows, and goes on in the next block', () => inDirectory(async room => {
    // スター is 8358 835E 815B: across the border of two rows, and across that of two blocks.
    writeImage(room, [2, 15, '8358835E815B41'], [2, 2047, '83'], [3, 0, '5842'], [5, 30, 'F09F98']);
    const shown = await run(['show', 'image', '2', '5'], { cwd: room });
    const rows = text => text.split('\n').slice(2, -1);
    assert.equal(rows(shown.out)[0], `   0  ${'00 '.repeat(15)}83  ...............ス`);
    assert.equal(rows(shown.out)[1], `  16  58 83 5E 81 5B 41${' 00'.repeat(10)}  ターA..........`);
    const inside = await run(['show', 'image', '2', '16'], { cwd: room });
    assert.equal(rows(inside.out)[0], `  16  58 83 5E 81 5B 41${' 00'.repeat(10)}  ターA..........`);
    const border = await run(['show', 'image', '2', '2047'], { cwd: room });
    assert.equal(rows(border.out).length, 9);
    assert.deepEqual(rows(border.out).slice(0, 3), [`2032  ${'00 '.repeat(15)}83  ...............ス`, 'block 3', `   0  58 42${' 00'.repeat(14)}  B..............`]);
    assert.equal(rows((await run(['show', 'image', '2'], { cwd: room })).out).length, 128);
    assert.equal(rows((await run(['show', 'image', '7', '2047'], { cwd: room })).out).length, 1);
}));

test('show prints no EDC of a sector that is not Mode 1, and says that it was not tested', () => inDirectory(async room => {
    const image = imageOf(room, 4);
    image[2 * 2352 + 15] = 2;
    write(room, { image });
    const shown = await run(['show', 'image', '2', '0'], { cwd: room });
    assert.deepEqual([shown.status, shown.out.split('\n')[0]], [0, 'block 2 address 00:02:02 mode2']);
    assert.match(shown.errors, /^cdscript: block 2 was not tested: show tests the codes of Mode 1 only$/m);
    const sound = await run(['show', 'image', '1', '0'], { cwd: room });
    assert.match(sound.out, /^block 1 address 00:02:01 mode1 edc \w{8}\n/);
    assert.doesNotMatch(sound.errors, /not tested/);
}));

test('encodings of other languages are searched if they are named', () => inDirectory(async room => {
    const others = ENCODINGS_KNOWN.filter(({ found }) => found);
    const placeOf = i => [2 + i % 4, 100 + 200 * Math.floor(i / 4)];
    writeImage(room, ...others.map(({ found: [, bytes] }, i) => [...placeOf(i), bytes]));
    for (const [i, { name, found: [text, bytes] }] of others.entries()) {
        const named = await run(['find', 'image', text, '--encoding', name.toLowerCase()], { cwd: room });
        assert.deepEqual(named.out.split('\t').slice(0, 3), [...placeOf(i).map(String), '4']);
        assert.ok(named.out.includes(text));
        const shorter = await run(['replace', 'image', text, 'go', '--encoding', name], { cwd: room });
        assert.equal(shorter.out, `cdpatch 1\nset ${placeOf(i).join(' ')} 676F2020 was ${bytes}\n`);
        const other = await run(['find', 'image', text], { cwd: room });
        assert.deepEqual([other.status, other.out, others.some(it => other.errors.includes(it.name))], [1, '', false]);
    }
}));
