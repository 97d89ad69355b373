// The table of a disc's texts: which are found, in which encodings, among other data.

import assert from 'node:assert/strict';
import { createHash } from 'node:crypto';
import { readFileSync } from 'node:fs';
import { test } from 'node:test';
import { deflateRawSync } from 'node:zlib';
import { ENCODINGS_KNOWN, inDirectory, program, read, run, tool, write } from './common.mjs';
import { discOf } from './discs.mjs';

const HEAD = 'block\toffset\tbytes\troom\tencoding\tfile\ttext\tnew';

/** A generator of numbers below a limit, the same for the same seed. */
function diceOf(seed) {
    let state = seed;
    return limit => {
        state = (Math.imul(state, 1103515245) + 12345) >>> 0;
        return Math.floor(state / 2 ** 32 * limit);
    };
}

const WHO = ['勇者', '村人', '王様', '魔法使い', '兵士', 'おじいさん', '旅の商人', '妖精', 'わたし', 'お前'];
const WHERE = ['城の地下', '北の森', '港町', '古い塔', '宿屋', '洞窟', 'ここ', '山のふもと', '砂漠', '海の向こう'];
const WHAT = ['剣を見つけた', '扉を開けますか？', 'へ行ってはいけない。', 'で待っている', 'のことを話してくれた！', 'に宝があるらしい', 'から帰ってきた', 'をさがしています', 'へようこそ', 'は立入禁止だ'];
const WORDS = ['はい', 'いいえ', 'つづきから', 'はじめから', 'どうぐ', 'まほう', 'にげる', 'たたかう', 'セーブ', 'ロード', 'ポーション', 'アイテム', 'やくそう', 'どくけしそう', 'こうげき', 'ぼうぎょ', 'スタート', 'おわり'];

/** A text as games have them: a word of a menu, or a sentence. */
function someText(dice) {
    if (dice(3) === 0) return WORDS[dice(WORDS.length)];
    return `${WHO[dice(WHO.length)]}は${WHERE[dice(WHERE.length)]}${WHAT[dice(WHAT.length)]}`;
}

const encoded = (texts, encoding) => tool('iconv', ['-t', encoding], { input: `${texts.join('\n')}\n` });

/** The bytes of each text, converted by iconv, which keeps line ends. */
function eachEncoded(texts, encoding) {
    const all = encoded(texts, encoding);
    const end = encoded([''], encoding);
    const found = [];
    let at = 0;
    for (const text of texts) {
        const size = encoding.startsWith('UTF-16') ? 2 * text.length : all.indexOf(end, at) - at;
        found.push(all.subarray(at, at + size));
        at += size + end.length;
    }
    return found;
}

/** Machine code, packed data, sound, and pictures, which contain no text. */
const NOISES = (() => {
    const dice = diceOf(5);
    const random = Buffer.from(Uint8Array.from({ length: 1 << 20 }, () => dice(256)));
    const sound = new Int16Array(1 << 19).map((_, i) => 9000 * Math.sin(i / 40) + 3000 * Math.sin(i / 7) + dice(200));
    const picture = Uint8Array.from({ length: 1 << 20 }, (_, i) => (i % 1024 >> 3) + (i >> 13) + dice(3));
    return { 'RANDOM.BIN': random, 'CODE.BIN': readFileSync(program).subarray(0, 1 << 20), 'PACKED.BIN': deflateRawSync(readFileSync(program)),
        'SOUND.BIN': Buffer.from(sound.buffer), 'PICTURE.BIN': Buffer.from(picture) };
})();

/** Creates a disc with labelled texts in tables of four encodings among other data. Returns the places of the texts by file. */
async function makeGame(room, count) {
    const dice = diceOf(11);
    const labels = {};
    const files = { ...NOISES };
    for (const encoding of ['CP932', 'EUC-JP', 'UTF-16LE', 'UTF-8']) {
        const texts = Array.from({ length: count }, () => someText(dice));
        const unit = encoding === 'UTF-16LE' ? 2 : 1;
        const parts = [];
        let at = 0;
        const file = `${encoding.replace(/\W/g, '')}.BIN`;
        labels[`/${file}`] = new Map(eachEncoded(texts, encoding).map((bytes, i) => {
            parts.push(bytes, Buffer.alloc(unit * (1 + dice(3))));
            const place = at;
            at += bytes.length + parts[parts.length - 1].length;
            return [place, { text: texts[i], size: bytes.length, room: bytes.length + parts[parts.length - 1].length - unit }];
        }));
        files[file] = Buffer.concat(parts);
    }
    return await discOf(room, files, { name: 'image' }) ? labels : null;
}

const rowsOf = text => text.split('\n').slice(1, -1).map(line => line.split('\t'));

test('the texts of a game are found in four encodings, with their room, and nothing else', t => inDirectory(async room => {
    const labels = await makeGame(room, 1250);
    if (labels === null) return t.skip('no genisoimage');
    const { status, out, errors } = await run(['texts', 'image'], { cwd: room });
    assert.deepEqual([status, out.split('\n')[0]], [0, HEAD]);
    const others = [];
    let right = 0;
    for (const [, , bytes, place, encoding, file, text] of rowsOf(out)) {
        const [path, at] = file.split('+');
        const label = labels[path] && labels[path].get(Number(at));
        const is = label && label.text === text && label.size === Number(bytes) && `/${encoding.replace(/\W/g, '')}.BIN` === path;
        if (is) assert.equal(Number(place), label.room, `${file} ${text}`);
        if (is) right += 1;
        else others.push(`${encoding} ${file} ${text}`);
    }
    assert.ok(right >= 0.995 * 5000, `${right} of 5000 texts`);
    assert.ok(others.length <= 25, others.join('\n'));
    assert.equal(errors, `cdscript: texts ${right + others.length}\n`);
}));

test('a table of texts with new ones is a script', t => inDirectory(async room => {
    const labels = await makeGame(room, 75);
    if (labels === null) return t.skip('no genisoimage');
    const { out } = await run(['texts', 'image'], { cwd: room });
    const rows = out.split('\n').slice(1, -1).map((line, i) => i % 3 === 0 ? `${line}${'abc'.slice(0, 1 + i % 2)}` : line);
    write(room, { list: [HEAD, ...rows, ''].join('\n') });
    const made = await run(['replace', 'image', '--list', 'list', '-o', 'english'], { cwd: room });
    const glyphs = '2 characters are in no old text: a b. Does the font of the game have them?';
    assert.deepEqual([made.status, made.errors], [0, `cdscript: ${glyphs}\n`]);
    tool(program, ['apply', 'image', 'english', 'out'], { cwd: room });
    assert.notEqual(createHash('sha1').update(read(room, 'out')).digest('hex'), createHash('sha1').update(read(room, 'image')).digest('hex'));
    const again = rowsOf((await run(['texts', 'image', '--csv', '--min', '4', '--in', 'UTF8.BIN', '--encoding', 'utf-8'], { cwd: room })).out.replace(/\r/g, '').replace(/,/g, '\t'));
    assert.ok(again.length > 40 && again.every(row => row[5].startsWith('/UTF8.BIN+') && row[4] === 'UTF-8' && [...row[6]].length >= 4));
}));

test('a short text in UTF-16 is believed at even places only', () => inDirectory(async room => {
    for (const [odd, found] of [[0, ['セーブ', 'ポーション']], [1, ['ポーション']]]) {
        const user = Buffer.alloc(2048 * 4);
        ['セーブ', 'ポーション'].forEach((text, i) => Buffer.from(text, 'utf16le').copy(user, 2048 * (i + 1) + 100 + odd));
        write(room, { [`${odd}.iso`]: user });
        await run(['raw', `${odd}.iso`, `${odd}.bin`], { cwd: room });
        const { out } = await run(['texts', `${odd}.bin`, '--encoding', 'utf-16le'], { cwd: room });
        assert.deepEqual(rowsOf(out).map(row => row[6]), found);
    }
}));

test('a text over a border of what is read at once is found once', () => inDirectory(async room => {
    const text = eachEncoded(['魔法使いは古い塔から帰ってきた'], 'CP932')[0];
    const user = Buffer.alloc(2048 * 4100);
    for (const at of [2048 * 4096 - 9, 100]) text.copy(user, at);
    write(room, { 'border.iso': user });
    await run(['raw', 'border.iso', 'image'], { cwd: room });
    const { out } = await run(['texts', 'image'], { cwd: room });
    assert.deepEqual(rowsOf(out).map(row => row.slice(0, 3)), [['0', '100', '30'], ['4095', '2039', '30']]);
}));

test('more short texts than a call takes arguments are all found', () => inDirectory(async room => {
    const [text] = eachEncoded(['はい'], 'CP932');
    write(room, { 'dense.iso': Buffer.alloc(2048 * 350, Buffer.concat([text, Buffer.alloc(1)])) });
    await run(['raw', 'dense.iso', 'image'], { cwd: room });
    const { status, out, errors } = await run(['texts', 'image'], { cwd: room });
    assert.deepEqual([status, errors.split('\n').slice(-2)], [0, ['cdscript: texts 143360', '']]);
    assert.deepEqual([out.split('\n').length, out.split('\n')[143360]], [143362, '349\t2043\t4\t4\tCP932\t-\tはい\t']);
}));

test('a character of two units is one of the fewest that are asked for', () => inDirectory(async room => {
    const characters = 'abcdef😀';
    write(room, { 'few.tbl': tableOf(characters, 0x80, '00'), 'few.iso': Buffer.concat([byTable(['abcdef', '😀a', 'b', 'cd'], characters, 0x80, 0), Buffer.alloc(2033)]) });
    await run(['raw', 'few.iso', 'image'], { cwd: room });
    for (const [least, due] of [[1, ['abcdef', '😀a', 'b', 'cd']], [2, ['abcdef', '😀a', 'cd']], [3, ['abcdef']]]) {
        const { out } = await run(['texts', 'image', '--table', 'few.tbl', '--min', String(least)], { cwd: room });
        assert.deepEqual(rowsOf(out).map(row => row[6]), due);
    }
}));

test('where no text is, none is found; and what cannot be searched is named', t => inDirectory(async room => {
    write(room, { 'noise.iso': Buffer.concat([NOISES['RANDOM.BIN'], NOISES['SOUND.BIN']]) });
    await run(['raw', 'noise.iso', 'image'], { cwd: room });
    const none = await run(['texts', 'image'], { cwd: room });
    assert.deepEqual([none.status, none.out], [1, `${HEAD}\n`]);
    assert.match(none.errors, /\ncdscript: texts 0\ncdscript: no Japanese text was found: .*--encoding/);
    const other = await run(['texts', 'image', '--encoding', 'hex'], { cwd: room });
    assert.deepEqual([other.status, other.errors], [2, 'cdscript: hex is not a character encoding, so texts cannot be recognised in it\n']);
    write(room, { 'random.iso': NOISES['RANDOM.BIN'] });
    await run(['raw', 'random.iso', 'random'], { cwd: room });
    for (const { name, signs } of ENCODINGS_KNOWN) {
        if (!signs) continue;
        const { out } = await run(['texts', 'random', '--encoding', name], { cwd: room });
        assert.ok(rowsOf(out).length < 3, out);
    }
    const nowhere = await run(['texts', 'image', '--in', 'X'], { cwd: room });
    assert.deepEqual([nowhere.status, nowhere.errors.split('\n').slice(-2)[0]], [2, 'cdscript: no file or directory X on the disc; cdscript files lists the files']);
}));

const KANA = 'あいうえおかきくけこさしすせそたちつてとなにぬねのはひふへほまみむめもやゆよらりるれろわをんがぎぐげござじずぜぞだぢづでどばびぶべぼぱぴぷぺぽゃゅょっー、。！？';
const KANA_TEXTS = ['はじめからやりますか？', 'つづきから', 'はい', 'いいえ', 'しろのちかにたからがあるらしい。', 'まほうつかいはふるいとうからかえってきた', 'ここはきたのもりです。'];
const tableOf = (characters, first, end) => `${[...characters].map((it, i) => `${(first + i).toString(16)}=${it}\n`).join('')}/${end}=<end>\n`;
const byTable = (texts, characters, first, end) =>
    Buffer.from(texts.flatMap(text => [...[...text].map(it => first + [...characters].indexOf(it)), end]));

test('the texts of a game with a table of its own are found, in UTF-8 and in UTF-16', t => inDirectory(async room => {
    const dice = diceOf(3);
    const random = Buffer.from(Uint8Array.from({ length: 1 << 18 }, () => dice(256)));
    const latin = 'abcdefghijklmnopqrstuvwxyz ABCDEFGHIJKLMNOPQRSTUVWXYZ.,!?';
    const english = ['the brave hero leaves the village', 'you found a small key', 'No', 'the door is locked, is it not?'];
    const bytes = Buffer.concat([random, Buffer.of(0xFF), byTable(KANA_TEXTS, KANA, 0x20, 0xFF), random]);
    const other = Buffer.concat([random, Buffer.of(0), byTable(english, latin, 0x80, 0), random]);
    if (!await discOf(room, { 'KANA.BIN': bytes, 'LATIN.BIN': other }, { name: 'image' })) return t.skip('no genisoimage');
    const table = tableOf(KANA, 0x20, 'FF');
    const wide = Buffer.from(`\uFEFF${table}`, 'utf16le');
    write(room, { 'kana.tbl': table, 'wide.tbl': wide, 'swapped.tbl': Buffer.from(wide).swap16(), 'latin.tbl': tableOf(latin, 0x80, '00') });
    const told = async (name, path) => {
        const { out, errors } = await run(['texts', 'image', '--table', name, '--in', path], { cwd: room });
        assert.match(errors, /texts \d+\n/);
        return rowsOf(out).map(row => [row[2], row[3], row[4], row[6]]);
    };
    const due = (texts, more) => texts.map((text, i) => [String(text.length), String(text.length + (more[i] || 0)), 'the table', text]);
    for (const name of ['kana.tbl', 'wide.tbl', 'swapped.tbl']) assert.deepEqual(await told(name, 'KANA.BIN'), due(KANA_TEXTS, []));
    assert.deepEqual(await told('latin.tbl', 'LATIN.BIN'), due(english, []));
    assert.ok((await told('kana.tbl', 'LATIN.BIN')).length < 3);
    const found = await run(['find', 'image', 'つづきから', '--table', 'wide.tbl'], { cwd: room });
    assert.equal(found.out.split('\t')[2], '5');
}));

test('the texts of other languages are found by their encoding', t => inDirectory(async room => {
    const others = ENCODINGS_KNOWN.filter(({ texts }) => texts);
    const dice = diceOf(8);
    const random = Buffer.from(Uint8Array.from({ length: 1 << 18 }, () => dice(256)));
    const files = others.map(({ name, codec, texts }) => {
        const parts = eachEncoded(texts, codec).flatMap(bytes => [bytes, Buffer.alloc(1)]);
        return [`${name.replace('Windows-', 'W').toUpperCase()}.BIN`, Buffer.concat([random, Buffer.alloc(2), ...parts, random])];
    });
    if (!await discOf(room, Object.fromEntries(files), { name: 'image' })) return t.skip('no genisoimage');
    for (const { name, texts } of others) {
        const { out } = await run(['texts', 'image', '--encoding', name, '--in', `${name.replace('Windows-', 'W').toUpperCase()}.BIN`, '--min', '1'], { cwd: room });
        assert.deepEqual(rowsOf(out).map(row => row[6]), texts, name);
    }
}));

test('several paths are looked into, each once, and one that is none is named', t => inDirectory(async room => {
    const [text] = eachEncoded(['魔法使いは古い塔から帰ってきた'], 'CP932');
    const files = Object.fromEntries(['A/ONE.BIN', 'A/TWO.BIN', 'B/ONE.BIN', 'AA.BIN'].map(path => [path, Buffer.concat([Buffer.alloc(9), text])]));
    if (!await discOf(room, files, { name: 'image' })) return t.skip('no genisoimage');
    const paths = async (...words) => {
        const { status, out, errors } = await run(['texts', 'image', ...words.flatMap(word => ['--in', word])], { cwd: room });
        return [status, rowsOf(out).map(row => row[5]).sort(), errors];
    };
    const all = ['/A/ONE.BIN+9', '/A/TWO.BIN+9', '/AA.BIN+9', '/B/ONE.BIN+9'];
    assert.deepEqual(await paths(), [0, all, 'cdscript: texts 4\n']);
    assert.deepEqual((await paths('A', '/B/'))[1], all.filter(path => path !== '/AA.BIN+9'));
    assert.deepEqual((await paths('A', 'A/ONE.BIN', 'AA.BIN'))[1], all.slice(0, 3));
    assert.deepEqual(await paths('A', 'C'), [2, [], 'cdscript: no file or directory C on the disc; cdscript files lists the files\n']);
}));

test('each line of a text is a row with --lines, and comes back as it is', t => inDirectory(async room => {
    const lines = ['勇者は古い剣を手に入れた。', 'は', '', 'The hero', '村人が城の地下について話した！'];
    const bytes = encoded(lines.slice(0, 5), 'CP932');
    if (!await discOf(room, { 'STORY.TXT': bytes }, { name: 'image' })) return t.skip('no genisoimage');
    const rows = rowsOf((await run(['texts', 'image', '--lines', '--in', 'STORY.TXT', '--encoding', 'CP932'], { cwd: room })).out);
    const wide = rowsOf((await run(['texts', 'image', '--lines', '--in', 'STORY.TXT'], { cwd: room })).out);
    assert.deepEqual(wide, rows.filter(row => row[6] !== 'The hero'));
    assert.deepEqual(rows.map(row => row[6]), lines.filter(line => line !== ''));
    assert.deepEqual(rows.map(row => row[2]), rows.map(row => row[3]));
    assert.deepEqual(rowsOf((await run(['texts', 'image', '--in', 'STORY.TXT'], { cwd: room })).out).length, 1);
    write(room, { list: [HEAD, ...rows.map(row => `${row.slice(0, 7).join('\t')}\tok`).filter((_, i) => i !== 1), ''].join('\n') });
    const made = await run(['replace', 'image', '--list', 'list'], { cwd: room });
    assert.deepEqual([made.status, made.out.split('\n').length], [0, 5]);
}));
