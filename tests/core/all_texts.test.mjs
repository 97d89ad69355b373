// The table of all texts of a track: its rows, the stretches that are searched, and the progress.

import assert from 'node:assert/strict';
import { test } from 'node:test';
import { core, diceOf, readerOf } from './common.mjs';
import { localPool } from './pools.mjs';
import { rawOf } from './discs.mjs';

const { allTexts, stretchesOf } = await core('texts/all_texts.js');
const { encodeText } = await core('encodings/encoding.js');
const { encodingOf } = await core('encodings/encodings.js');

const BASE = 50;
const SECTORS = 6;

/** A track with two texts, one in a file and one outside files. */
function someTrack() {
    const user = Buffer.alloc(2048 * SECTORS);
    for (const [at, text] of [[2048 + 100, 'はじめから'], [4 * 2048 + 5, 'つづきから']]) user.set(encodeText(encodingOf('CP932'), text), at);
    return { name: 'track', reader: readerOf(rawOf(user)), base: BASE, sectors: SECTORS };
}

const FILES = [{ path: '/a', block: BASE + 1, size: 3000, before: 0 }];

test('a track is looked at file by file, and what lies between files by itself', () => {
    const between = (first, count) => ({ path: '', before: 0, first, size: count * 2048 });
    assert.deepEqual(stretchesOf(someTrack(), FILES), [between(0, 1), { path: '/a', before: 0, first: 1, size: 3000 }, between(3, 3)]);
    assert.deepEqual(stretchesOf(someTrack(), []), [between(0, SECTORS)]);
    const cut = [{ path: '/b', block: BASE + 5, size: 9000, before: 0 }, { path: '/c', block: BASE + 5, size: 1, before: 0 }];
    assert.deepEqual(stretchesOf(someTrack(), cut), [between(0, 5), { path: '/b', before: 0, first: 5, size: 2048 }]);
    const extents = [{ path: '/d', block: BASE, size: 4096, before: 0 }, { path: '/d', block: BASE + 2, size: 9, before: 4096 }];
    assert.deepEqual(stretchesOf(someTrack(), extents), [{ path: '/d', before: 0, first: 0, size: 4105 }, between(3, 3)]);
});

test('a row says where a text is and how much room it has, and the progress ends with all sectors', async () => {
    const [track, told, texts] = [someTrack(), [], []];
    const how = { options: {}, progress: (done, all) => { told.push([done, all]); } };
    for await (const some of allTexts(localPool(), track, stretchesOf(track, FILES), how)) texts.push(...some);
    // A text ends with a 00. The bytes after it, up to the end of its file or of the gap between files, are its room.
    assert.deepEqual(texts, [
        { block: 51, offset: 100, bytes: 10, room: 3000 - 100 - 1, encoding: 'CP932', file: '/a+100', text: 'はじめから' },
        { block: 54, offset: 5, bytes: 10, room: 2 * 2048 - 5 - 1, encoding: 'CP932', file: '-', text: 'つづきから' }]);
    assert.deepEqual(told.at(-1), [SECTORS, SECTORS]);
    assert.ok(told.every(([done, all], i) => all === SECTORS && (i === 0 || done >= told[i - 1][0])), `${told}`);
});

test('texts that end with the sign $ are rows of their own, but a price is not an end', async () => {
    const lines = ['はじめからつづけますか', 'つづきからはじめる', '勇者は古い剣を手に入れた', '村人が城の地下について話した', '薬は100$です、いかがですか'];
    const rowsOf = async end => {
        const user = Buffer.alloc(2048 * SECTORS);
        Buffer.from(encodeText(encodingOf('CP932'), Array.from({ length: 40 }, (_, i) => lines[i % 5] + end).join(''))).copy(user, 100);
        const track = { ...someTrack(), reader: readerOf(rawOf(user)) };
        const [texts, ends] = [[], []];
        const how = { options: {}, ended: (_, byte) => ends.push(byte) };
        for await (const some of allTexts(localPool(), track, stretchesOf(track, []), how)) texts.push(...some.map(({ text }) => text));
        return { texts, ends };
    };
    const { texts, ends } = await rowsOf('$');
    assert.deepEqual([ends, texts.slice(0, 4)], [[0x24], lines.slice(0, 4)]);
    assert.deepEqual([(await rowsOf('\0')).ends, (await rowsOf('\0')).texts[4]], [[], lines[4]]);
});

/** Sentences in each encoding that is recognised, mixed with English. */
const SENTENCES = {
    Japanese: ['勇者は古い剣を手に入れた。', '村人が城の地下について話した！', 'HP 20の薬を買っていく…', 'はい', '「宝があるらしい」', 'This line is in English, and it is longer than forty characters.', 'ー'],
    Big5: ['對所有指定的檔案進行解壓縮處理。', '如果設定了這個變數！', '要刪除的現有約束？', 'English text in between', '是'],
    GBK: ['对所有指定的文件进行解压缩处理。', '如果设定了这个变量！', '要删除的现有约束？', 'English text in between', '是'],
    'EUC-KR': ['숨김 파일을 표시합니다.', '이 프로그램은 무엇을 합니까?', '노르웨이어로 쓴 글입니다!', 'English text in between', '예'],
};
const JAPANESE = ['CP932', 'EUC-JP', 'UTF-8', 'UTF-16LE', 'UTF-16BE'];
const TOLD = [...JAPANESE, 'Big5', 'GBK', 'EUC-KR'];

/** Lines in an encoding, with at least this many bytes, and the place of each line. */
function linesIn(name, size, lineEnd, seed = 1) {
    const dice = diceOf(seed);
    const known = (SENTENCES[name] || SENTENCES.Japanese).map(text => Buffer.from(encodeText(encodingOf(name), text)));
    const end = Buffer.from(encodeText(encodingOf(name), lineEnd));
    const [parts, places] = [[known[0], end], [[0, known[0].length]]];
    for (let at = known[0].length + end.length; at < size; at = places.at(-1)[1] + end.length) {
        const line = known[dice(known.length)];
        parts.push(line, end);
        places.push([at, at + line.length]);
    }
    return { bytes: Buffer.concat(parts), places };
}

/** The texts of a file of these bytes. */
async function rowsIn(bytes, name, lines = false) {
    const user = Buffer.alloc(2048 * Math.ceil(bytes.length / 2048));
    user.set(bytes);
    const track = { name: 'track', reader: readerOf(rawOf(user)), base: 0, sectors: user.length / 2048 };
    const asked = { encoding: JAPANESE.includes(name) ? undefined : name, lines };
    const out = [];
    const file = [{ path: '/a', before: 0, first: 0, size: bytes.length }];
    for await (const some of allTexts(localPool(), track, file, { options: asked, least: lines ? undefined : 1 })) out.push(...some);
    return out.map(({ bytes: size, room, file: place, text }) => {
        const start = Number(place.split('+').pop());
        return { start, end: start + size, room, text };
    });
}

/** Asserts that the rows cover all of these bytes without gaps or overlaps. */
function assertCovered(rows, from, to, name) {
    assert.ok(rows.length > 0 && rows[0].start === from && rows.at(-1).end === to, `${name}: ${rows[0]?.start} to ${rows.at(-1)?.end}`);
    rows.forEach(({ start }, i) => assert.ok(i === 0 || start === rows[i - 1].end, `${name}: a row at ${start} after ${rows[i && i - 1].end}`));
}

test('each byte of a file of text is in one row, which ends with a line or a sentence', async () => {
    for (const name of TOLD) for (const lineEnd of ['', '\n', '\r\n']) for (const size of [300, 20000]) {
        const { bytes } = linesIn(name, size, lineEnd);
        const rows = await rowsIn(bytes, name);
        assertCovered(rows, 0, bytes.length, `${name} ${JSON.stringify(lineEnd)} ${size}`);
        const last = lineEnd === '' ? /[。！…」？.!?]$/ : name.endsWith('LE') ? /\{(0D00)?0A00\}$|\{0A00\}$/ : /\{0?0?0A\}$|\{000A\}$/;
        for (const { text, start, end } of rows.slice(0, -1)) assert.ok(end - start <= 4096 && last.test(text), `${name} ${text.slice(-20)}`);
    }
});

test('each byte of a long text among other data is in one row', async () => {
    // In UTF-16 long English lines are left out, unless the file has nothing else.
    for (const name of TOLD.filter(it => !it.startsWith('UTF-16'))) {
        const { bytes } = linesIn(name, 30000, '\n');
        const around = Buffer.from([0xFF, 0x80, 0, 0]);
        const rows = await rowsIn(Buffer.concat([around, bytes, Buffer.from([0, 0]), around]), name);
        assertCovered(rows, 4, 4 + bytes.length, name);
    }
});

test('a text over a border of ranges is cut alike in both', async () => {
    const { bytes } = linesIn('GBK', 1024 * 2048 + 20000, '');
    assertCovered(await rowsIn(bytes, 'GBK'), 0, bytes.length, 'GBK');
});

test('each line of a file of text is a row, without its line end', async () => {
    for (const name of TOLD) for (const lineEnd of ['\n', '\r\n']) {
        const { bytes, places } = linesIn(name, 9000, lineEnd);
        const rows = await rowsIn(bytes, name, true);
        // Without a named encoding, lines in ASCII are left out.
        const isRow = ([start, end]) => !JAPANESE.includes(name) || /[\u0080-\uFFFF]/.test(encodingOf(name).text(bytes.subarray(start, end)));
        assert.deepEqual(rows.map(({ start, end }) => [start, end]), places.filter(isRow), `${name} ${JSON.stringify(lineEnd)}`);
        assert.ok(rows.every(({ start, end, room }) => room === end - start), name);
    }
});

test('neither a text nor its room goes on into the numbers of a table', async () => {
    const names = ['やくそう', 'どくけし', 'せいすい', 'ひかりのつるぎ', 'てつのたて', 'かわのよろい', 'まほうのかぎ', 'たいまつ', 'ほしのかけら', 'にじのしずく'];
    for (const [filling, numbers] of [[[0], i => [0, 0, i + 1, 7]], [[0x20], i => [43 + i, 0, i + 1, 7]], [[0x81, 0x40], i => [43 + i, 9, i + 1, 7]]]) {
        const records = Array.from({ length: 40 }, (_, i) => {
            const name = Buffer.alloc(16, Buffer.from(filling));
            name.set(encodeText(encodingOf('CP932'), names[i % names.length]));
            return Buffer.concat([name, Buffer.from(Uint16Array.from(numbers(i)).buffer)]);
        });
        const rows = await rowsIn(Buffer.concat(records), 'CP932');
        assert.deepEqual(rows.map(({ start, text }) => [start, text]), records.map((_, i) => [24 * i, names[i % names.length]]));
        const room = filling[0] === 0 ? 14 : 16;
        assert.ok(rows.every(it => it.room === room), `${filling}: ${rows.map(it => it.room)}`);
    }
});

test('without a table the room of a text is what one filling after it has', async () => {
    const text = Buffer.from(encodeText(encodingOf('CP932'), '城の地下に宝があるらしい。'));
    for (const [filling, room] of [[[0], 5], [[0x20], 6], [[0xFF], 0], [[0x81, 0x40], 6], [[0x07], 0]]) {
        const bytes = Buffer.concat([Buffer.from([0xFF, 0]), text, Buffer.alloc(6, Buffer.from(filling)), Buffer.from([0x80, 0x01])]);
        const [row, ...others] = await rowsIn(bytes, 'CP932');
        assert.deepEqual([row.start, row.end, row.room, others.length], [2, 2 + text.length, text.length + room, 0], `${filling}`);
    }
});
