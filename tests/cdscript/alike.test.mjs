// Texts with several spellings, with --loose half-width, full-width, and either case; and encodings that cannot represent a text.

import assert from 'node:assert/strict';
import { test } from 'node:test';
import { inDirectory, run, write, writeImage } from './common.mjs';

const hex = (text, coding) => Buffer.from(text, coding).toString('hex').toUpperCase();

/** The places of a text's hits, the status, and the messages. */
async function found(room, ...words) {
    const { status, out, errors } = await run(['find', 'image', ...words], { cwd: room });
    const places = out.split('\n').slice(0, -1).map(line => line.split('\t').slice(0, 3).join(' '));
    return [status, places, errors.split('\n').slice(0, -1).map(line => line.replace('cdscript: ', '')).filter(line => !line.startsWith('file names are unknown: '))];
}

test('with --loose half-width and full-width are one, and both cases', () => inDirectory(async room => {
    // ﾊﾟｰﾃｨ, パーティ; Start, START, ｓｔａｒｔ followed by a space of either width.
    writeImage(room, [2, 100, 'CADFB0C3A8'], [2, 200, '8370815B83658342'], [3, 7, hex('Start 1')], [3, 100, hex('START 1')],
        [4, 0, '82938294828182928294' + '8140' + '8250']);
    const loose = ['--encoding', 'CP932', '--loose'];
    for (const text of ['ﾊﾟｰﾃｨ', 'パーティ', 'ハ\u309Aーティ']) assert.deepEqual((await found(room, text, ...loose))[1], ['2 100 5', '2 200 8']);
    for (const text of ['start 1', 'ＳTART\u30001']) assert.deepEqual((await found(room, text, ...loose))[1], ['3 7 7', '3 100 7', '4 0 14']);
    assert.deepEqual((await found(room, 'start 1', '--encoding', 'CP932'))[1], []);
    assert.deepEqual((await found(room, 'パーティ', '--encoding', 'CP932'))[1], ['2 200 8']);
    const composed = await run(['replace', 'image', 'ハ\u309Aーティ', 'カ\u3099¥', '--encoding', 'CP932'], { cwd: room });
    assert.equal(composed.out, 'cdpatch 1\nset 2 200 834B5C2020202020 was 8370815B83658342\n');
    write(room, { list: 'block\toffset\ttext\tnew\n2\t200\tハ\u309Aーティ\tカ\u3099\n' });
    const listed = await run(['replace', 'image', '--list', 'list', '--encoding', 'CP932'], { cwd: room });
    assert.equal(listed.out, 'cdpatch 1\nset 2 200 834B202020202020 was 8370815B83658342\n');
    const all = await run(['replace', 'image', 'start 1', 'Go', '--all', ...loose], { cwd: room });
    assert.deepEqual([all.status, all.out], [0, 'cdpatch 1\nset 3 7 476F2020202020 was 53746172742031\n' +
        'set 3 100 476F2020202020 was 53544152542031\nset 4 0 476F202020202020202020202020 was 8293829482818292829481408250\n']);
    const placed = await run(['replace', 'image', '3', '100', 'start 1', 'Go', ...loose], { cwd: room });
    assert.equal(placed.out, 'cdpatch 1\nset 3 100 476F2020202020 was 53544152542031\n');
    const none = await run(['replace', 'image', '3', '100', 'start 1', 'Go', '--encoding', 'CP932'], { cwd: room });
    assert.deepEqual([none.status, none.errors], [2, 'cdscript: old bytes differ at block 3 offset 100\n']);
}));

test('an encoding that cannot say a text is named, with the character that it lacks', () => inDirectory(async room => {
    writeImage(room, [2, 100, hex('café')], [3, 6, `FF${hex('café', 'utf16le')}`]);
    const lacks = ["CP932 cannot encode 'é' (U+00E9), character 4 of the text"];
    assert.deepEqual(await found(room, 'café'), [0, ['2 100 5'], [...lacks, 'found in UTF-8',
        'also found in UTF-16LE: use --encoding UTF-16LE', 'hits 1 printed 1']]);
    assert.deepEqual((await found(room, 'cafe\u0301'))[2][0], lacks[0]);
    assert.deepEqual(await found(room, 'パé', '--encoding', 'CP932'), [2, [], ["CP932 cannot encode 'é' (U+00E9), character 2 of the text"]]);
    for (const text of ['ハ\u309Aé', '¥é']) {
        assert.deepEqual(await found(room, text, '--encoding', 'CP932'), [2, [], ["CP932 cannot encode 'é' (U+00E9), character 2 of the text"]]);
    }
}));
