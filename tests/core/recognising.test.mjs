// The recognition of texts among other bytes.

import assert from 'node:assert/strict';
import { test } from 'node:test';
import { core, diceOf, encoded, tableOf } from './common.mjs';

const { TextRecogniser } = await core('texts/recognising.js');
const { BAD, allScores, endedScores, tableScores } = await core('texts/scores.js');
const { cellOf } = await core('texts/codes.js');
const { keptOf } = await core('texts/candidates.js');
const { joinedTexts } = await core('texts/runs.js');
const { encodingOf } = await core('encodings/encodings.js');
const { encodeText } = await core('encodings/encoding.js');

const recogniser = new TextRecogniser();

/** The properties of an encoding other than its bytes. */
const SHARED = { end: 0, space: ' ', hasCharacters: true };
const noise = (size, seed) => {
    const dice = diceOf(seed);
    return Buffer.from(Uint8Array.from({ length: size }, () => dice(256)));
};
const bytesOf = (name, text) => Buffer.from(encodeText(encodingOf(name), text));
const found = bytes => recogniser.recognise(bytes).map(({ start, end, scores }) => [start, end, scores.encoding.name]);

test('a sentence in noise is found in each encoding, at its place', () => {
    for (const name of ['CP932', 'EUC-JP', 'UTF-8', 'UTF-16LE', 'UTF-16BE']) {
        const text = bytesOf(name, '城の地下に宝があるらしい。');
        const bytes = Buffer.concat([noise(3000, 1), Buffer.alloc(2), text, Buffer.alloc(2), noise(3000, 2)]);
        assert.deepEqual(found(bytes), [[3002, 3002 + text.length, name]], name);
    }
});

test('letters and digits of one byte are read as a part of a text', () => {
    for (const name of ['CP932', 'EUC-JP', 'UTF-8']) {
        const text = bytesOf(name, '旅の商人がHP 20の薬をくれた。');
        assert.deepEqual(found(Buffer.concat([Buffer.alloc(300, 0x15), text, Buffer.alloc(300, 0x15)])), [[300, 300 + text.length, name]]);
    }
});

test('a control code does not end a text, whichever it is, but three do, if they are no line ends or tabs', () => {
    const [one, other] = ['城の地下に宝があるらしい。', '旅の商人からそう聞いた。'].map(text => bytesOf('CP932', text));
    for (let code = 1; code < 0x20; code++) {
        const around = Buffer.alloc(9, 0xFF);
        const ends = [1, 3].map(count => found(Buffer.concat([around, one, Buffer.alloc(count, code), other, around])).map(([, end]) => end - 9));
        const first = [0x09, 0x0A, 0x0D].includes(code) ? [] : [one.length];
        assert.deepEqual(ends, [[one.length + 1 + other.length], [...first, one.length + 3 + other.length]], `${code}`);
    }
});

test('random bytes, sound, and one character over and over are no texts', () => {
    assert.deepEqual(found(noise(1 << 22, 3)), []);
    for (const [name, text] of [['CP932', 'ああああ'], ['CP932', 'あいうえ'.repeat(8)], ['UTF-8', 'ああああ']]) {
        assert.deepEqual(found(Buffer.concat([Buffer.alloc(4), bytesOf(name, text), Buffer.alloc(4)])), [], `${name} ${text}`);
    }
    assert.deepEqual(found(Buffer.from(Int16Array.from({ length: 1 << 18 }, (_, i) => 12000 * Math.sin(i / 30)).buffer)), []);
});

/** Texts in noise, each between two 00. */
const alone = (name, texts) => Buffer.concat(texts.flatMap((text, i) => [noise(300, i), Buffer.alloc(2), bytesOf(name, text), Buffer.alloc(2), noise(60, i)]));

test('a text of kanji only is found by itself between 00', () => {
    const texts = ['国立図書館', '最終決戦場', '経験値獲得量', '記録消去確認', '攻撃力防御力', '初期設定', '全国大会', '前代未聞'];
    for (const name of ['CP932', 'EUC-JP', 'UTF-16LE']) {
        assert.deepEqual(found(alone(name, texts)).map(([start, end]) => end - start), texts.map(text => bytesOf(name, text).length), name);
    }
    assert.equal(found(alone('CP932', ['はい', 'なし', 'した', 'です'])).length, 4);
});

test('IBM\'s kanji are a part of a text, and a user\'s own characters are not', () => {
    const [high, cape, own] = ['FBFC', 'FAB1', 'F040'].map(digits => Buffer.from(digits, 'hex'));
    const [house, eagle] = ['橋さんの家', '鷲尾'].map(text => bytesOf('CP932', text));
    const [one, other] = [Buffer.concat([high, house]), Buffer.concat([eagle, cape, house.subarray(2)])];
    const bytes = Buffer.concat([Buffer.alloc(2), one, Buffer.alloc(2), other, Buffer.alloc(2), own, house, Buffer.alloc(2)]);
    const third = 6 + one.length + other.length + own.length;
    assert.deepEqual(found(bytes), [[2, 14, 'CP932'], [16, 30, 'CP932'], [third, third + house.length, 'CP932']]);
});

test('characters in the order of Unicode are a table, and no text but between 00', () => {
    for (const characters of ['こしたどぱぷめん', 'ブノテゾザギ', 'きすっづにぱふもめろわん']) {
        for (const name of ['CP932', 'EUC-JP', 'UTF-16BE', 'UTF-16LE']) {
            const bytes = bytesOf(name, characters);
            assert.deepEqual(found(Buffer.concat([Buffer.alloc(300, 0x15), bytes, Buffer.alloc(300, 0x15)])), [], `${name} ${characters}`);
            assert.equal(found(Buffer.concat([Buffer.alloc(300), bytes, Buffer.alloc(300)])).length, 1, `${name} ${characters}`);
        }
    }
});

test('a table has four characters or more, and of eight steps to the next one not more than one goes the other way', () => {
    const counts = { 'いかる': 1, 'いかるん': 0, 'んるかい': 0, 'いかきしたにはと': 1, 'いかきしたてにはと': 0, 'いかきしたてにねはもとわらん': 1 };
    for (const name of ['CP932', 'EUC-JP']) for (const [characters, count] of Object.entries(counts)) {
        const bytes = Buffer.concat([Buffer.alloc(300, 0x15), bytesOf(name, characters), Buffer.alloc(300, 0x15)]);
        assert.equal(found(bytes).length, count, `${name} ${characters}`);
    }
});

test('in sound in which many bytes are characters only texts are found that are surer than chance', () => {
    const dice = diceOf(4);
    const halves = [10, 10, 10, 4, 5, 11, 12];
    const sound = Buffer.from(Uint8Array.from({ length: 1 << 20 }, () => halves[dice(7)] << 4 | halves[dice(7)]));
    assert.deepEqual(found(sound), []);
    const text = bytesOf('EUC-JP', '城の地下に宝があるらしい。旅の商人からそう聞いた。');
    const [place, ...others] = found(Buffer.concat([sound, text, sound]));
    assert.ok(place[0] <= sound.length && place[1] >= sound.length + text.length && others.length === 0, `${place} ${others}`);
});

test('short texts are taken beside others, over the 00 between them', () => {
    for (const [name, gap] of [['CP932', 2], ['EUC-JP', 1], ['UTF-16LE', 4], ['UTF-16BE', 6]]) {
        const texts = ['はい', 'と', 'はじめから', 'と', 'はい', 'HP 20 かいふく', '冒険をつづけますか？'].map(text => bytesOf(name, text));
        const bytes = Buffer.concat([Buffer.alloc(8), ...texts.flatMap(text => [text, Buffer.alloc(gap)])]);
        const starts = texts.map((_, i) => 8 + texts.slice(0, i).reduce((sum, it) => sum + it.length + gap, 0));
        assert.deepEqual(found(bytes), starts.map((at, i) => [at, at + texts[i].length, name]));
    }
});

test('a text that is too weak by itself is taken up to 64 bytes from a sure one of its encoding, or from one that was taken so', () => {
    const apart = size => Buffer.alloc(size, 0x15);
    const between = (name, text) => Buffer.concat([Buffer.alloc(2), bytesOf(name, text), Buffer.alloc(2)]);
    for (const name of ['CP932', 'EUC-JP', 'UTF-16LE']) {
        const [sure, weak] = ['城の地下に宝があるらしい。', '先内'].map(text => between(name, text));
        const foreign = between(name === 'EUC-JP' ? 'CP932' : 'EUC-JP', '先内');
        const count = parts => found(Buffer.concat([apart(300), ...parts, apart(300)])).length;
        // Four bytes of the distance are 00.
        const counts = [[weak], [sure, apart(60), weak, apart(60), weak], [weak, apart(60), weak, apart(60), sure], [sure, apart(62), weak],
            [weak, apart(62), sure], [sure, apart(60), foreign]].map(count);
        assert.deepEqual(counts, [0, 3, 3, 1, 1, 1], name);
    }
});

test('names in kanji that stand in few sentences are taken beside others', () => {
    const texts = ['つづきからはじめる', '剣', '鎧', '鎧鋼', '古代遺跡', '占い師', '踊り子', '鋼鉄の鎧', '賢者', '武闘家', 'どうぐをつかう'].map(text => bytesOf('CP932', text));
    const bytes = Buffer.concat([Buffer.alloc(8), ...texts.flatMap(text => [text, Buffer.alloc(1)])]);
    const sizes = found(bytes).map(([start, end]) => end - start);
    assert.deepEqual(sizes.filter(size => size > 2), texts.map(text => text.length).filter(size => size > 2));
    assert.equal(found(Buffer.concat([bytes, noise(1 << 16, 9)])).length, found(bytes).length);
});

test('bytes of which neighbours differ little are a picture, and no text', () => {
    // In EUC-JP both bytes of these characters are near A4.
    for (const [name, count] of [['EUC-JP', 0], ['CP932', 1]]) {
        assert.equal(found(Buffer.concat([Buffer.alloc(4), bytesOf(name, 'いえあかおいうあきえ'), Buffer.alloc(4)])).length, count, name);
    }
});

test('a text after a picture is found', () => {
    const picture = Buffer.from(Uint8Array.from({ length: 90 }, (_, i) => 0x83 + (i >> 2)));
    const text = bytesOf('CP932', '城の地下に宝があるらしい'.repeat(2));
    const places = found(Buffer.concat([Buffer.alloc(4), picture, text, picture, Buffer.alloc(4)]));
    assert.ok(places.some(([start, end]) => start <= 94 + 16 && end >= 94 + text.length), `${places}`);
});

test('the first characters of a file are a text', () => {
    assert.deepEqual(found(Buffer.concat([bytesOf('CP932', 'おわり'), Buffer.alloc(2), bytesOf('CP932', 'つづきからはじめる'), Buffer.alloc(2)])),
        [[0, 6, 'CP932'], [8, 26, 'CP932']]);
    // The beginning of a file counts as 00 before a text of kanji only.
    for (const name of ['CP932', 'EUC-JP', 'UTF-16LE']) {
        assert.equal(found(Buffer.concat([bytesOf(name, '全国大会'), Buffer.alloc(2), noise(300, 3)])).length, 1, name);
    }
});

test('a text is found at each of the four bytes of a word', () => {
    for (const name of ['CP932', 'EUC-JP', 'UTF-8']) for (const text of ['前代未聞', 'です']) for (let shift = 0; shift < 4; shift++) {
        const bytes = Buffer.concat([Buffer.alloc(40 + shift, 0x15), Buffer.alloc(4), bytesOf(name, text), Buffer.alloc(4), Buffer.alloc(60, 0x15)]);
        assert.equal(found(bytes).length, 1, `${name} ${text} ${shift}`);
    }
});

test('bytes are decoded once to be told as a text, and its cell is not read character by character', () => {
    const counts = { text: 0, characterAt: 0 };
    const counted = (encoding, name) => (...given) => {
        counts[name] += 1;
        return encoding[name](...given);
    };
    const watched = encoding => ({ ...SHARED, name: encoding.name, text: counted(encoding, 'text'), characterAt: counted(encoding, 'characterAt') });
    const all = allScores().map(scores => ({ ...scores, encoding: watched(scores.encoding) }));
    const text = bytesOf('CP932', '城の地下に宝があるらしい。');
    const [place, ...others] = new TextRecogniser(all).recognise(Buffer.concat([Buffer.alloc(300, 0x15), text, Buffer.alloc(300, 0x15)]));
    assert.deepEqual([place.start, place.end, others, counts], [300, 300 + text.length, [], { text: 1, characterAt: 0 }]);
    assert.equal(cellOf(place.scores.encoding, text, place.text), '城の地下に宝があるらしい。');
    assert.deepEqual(counts, { text: 1, characterAt: 0 });
    assert.equal(cellOf(place.scores.encoding, text), '城の地下に宝があるらしい。');
    assert.deepEqual(counts, { text: 2, characterAt: 0 });
    for (const [bytes, cell] of [['"あ"', '{22}あ"'], ['あ"', 'あ"'], ['あ\n', 'あ{0A}'], ['{', '{7B}']]) {
        assert.equal(cellOf(encodingOf('CP932'), bytesOf('CP932', bytes)), cell);
    }
});

test('more texts beside another than a call takes arguments are all found', () => {
    const [sure, short] = [bytesOf('CP932', '城の地下に宝があるらしい。\0'), bytesOf('CP932', 'は\0')];
    const before = Buffer.alloc(150000 * short.length, short);
    assert.equal(found(Buffer.concat([Buffer.alloc(1), before, sure, before])).length, 300001);
});

test('texts in UTF-16 with one 00 00 after each are not read with the other byte first', () => {
    const texts = ['や他のエラー', 'いことを保証', 'にのコメント', 'デタッチされ', 'このコマンド'].map(text => bytesOf('UTF-16LE', text));
    const bytes = Buffer.concat([Buffer.alloc(4), ...texts.flatMap(text => [text, Buffer.alloc(2)])]);
    assert.deepEqual(found(bytes), texts.map((_, i) => [4 + 14 * i, 16 + 14 * i, 'UTF-16LE']));
});

test('a chain of texts after their lengths is cut into them', () => {
    const short = ['旅の商人から剣を買った', '剣', '港町へようこそ。', '宿屋で待っている'];
    // Each of these lengths is the code of a letter or a sign.
    const long = ['旅の商人から剣を買ったのに、宿屋で盗まれた。', '港町へようこそ。ここでは船に乗ることができます。', '宿屋で待っているから、あとで来てほしい。'];
    for (const texts of [short, long].map(some => some.map(text => bytesOf('CP932', text)))) {
        const bytes = Buffer.concat([Buffer.alloc(4), ...texts.flatMap(text => [Buffer.of(text.length), text]), Buffer.alloc(4)]);
        assert.deepEqual(found(bytes).map(([start, end]) => end - start), texts.map(text => text.length));
    }
    // A single text is not a chain, although the code of its first letter is the number of bytes that follow.
    const one = bytesOf('CP932', 'A城の地下に宝があるらしい。旅の商人からそう聞いた。港町へようこそb');
    assert.equal(one[0], one.length - 1);
    assert.deepEqual(found(Buffer.concat([Buffer.alloc(4), one, Buffer.alloc(4)])), [[4, 4 + one.length, 'CP932']]);
});

test('the characters of a game\'s own table score as they do elsewhere, Latin letters in no order', () => {
    const { oneKind, pair } = tableScores(tableOf(encoded('80=a\n81=あ\n82=ab\n8340=の\n8341=☂\n')));
    assert.deepEqual([...oneKind.subarray(0x80, 0x83), pair[0x8340]], [0, 1, 0, allScores()[0].pair[0x82CC]]);
    assert.ok(pair[0x8341] > 0, 'what no table has');
});

test('no character begins with the byte that ends texts', () => {
    const gbk = tableScores(encodingOf('GBK'));
    const { pair } = endedScores(gbk, 0xB0);
    assert.deepEqual([gbk.pair[0xB0A1] === BAD, pair[0xB0A1] === BAD, pair[0xB1A1]], [false, true, gbk.pair[0xB1A1]]);
});

test('of a file in one encoding others are kept only if they are surer', () => {
    const [cp932, euc] = recogniser.all;
    const made = (scores, score) => ({ start: 0, end: 2, score, scores, before: true, after: true, isBeside: false });
    const many = Array.from({ length: 10 }, () => made(cp932, 60));
    assert.equal(keptOf([...many, made(euc, 30)]).length, 10);
    assert.equal(keptOf([...many, made(euc, 36)]).length, 11);
    assert.equal(keptOf([made(cp932, 40), made(euc, 40)]).length, 2);
});

/** Texts, each followed by a byte. */
const endedBy = (name, texts, byte) => Buffer.concat(texts.flatMap(text => [bytesOf(name, text), Buffer.of(byte)]));

/** The texts recognised in an encoding, as hexadecimal bytes. */
const foundIn = (name, bytes) => new TextRecogniser(allScores().some(it => it.encoding.name === name) ? allScores() : [tableScores(encodingOf(name))])
    .recognise(bytes).map(({ start, end }) => bytes.subarray(start, end).toString('hex'));

const SENTENCES = {
    'CP932': ['城の地下に宝があるらしい！', '旅の商人からそう聞いた…', '扉を開けますか？', 'ここは港町です。', '「だれもいない。」'],
    'EUC-JP': ['城の地下に宝があるらしい！', '旅の商人からそう聞いた…', '扉を開けますか？', 'ここは港町です。', '「だれもいない。」'],
    'Big5': ['對所有指定的檔案進行解壓縮處理。', '如果設定了這個變數！', '要刪除的現有約束？', '無法讀取磁碟的狀態，'],
    'GBK': ['对所有指定的文件进行解压缩处理。', '如果设定了这个变量！', '要删除的现有约束？', '无法读取磁盘的状态，'],
    'EUC-KR': ['숨김 파일을 표시합니다.', '이 프로그램은 무엇을 합니까?', '모두 지우시겠습니까?', '노르웨이어로 쓴 글입니다!'],
};

test('wide letters and digits are texts, but not in UTF-16, in which they look like quiet sound', () => {
    const texts = ['ＳＴＡＲＴ', 'ＬＯＡＤ　ＧＡＭＥ', 'ＨＰ１２３４', 'ＯＰＴＩＯＮ'];
    for (const name of ['CP932', 'EUC-JP']) {
        assert.deepEqual(foundIn(name, endedBy(name, texts, 0)), texts.map(text => bytesOf(name, text).toString('hex')), name);
    }
    const dice = diceOf(5);
    const quiet = Int16Array.from({ length: 1 << 18 }, () => -205 + dice(60) - 30);
    assert.deepEqual(found(Buffer.from(quiet.buffer)), []);
});

test('final marks belong to a text, whatever ends it', () => {
    for (const [name, texts] of Object.entries(SENTENCES)) for (const end of [0x00, 0xFF]) for (const count of [1, 3]) {
        const some = Array.from({ length: count }, () => texts).flat();
        const bytes = endedBy(name, some, end);
        assert.deepEqual(foundIn(name, bytes), some.map(text => bytesOf(name, text).toString('hex')), `${name} ${end}`);
    }
});

test('letters, marks, and half-width kana at the beginning belong to a text', () => {
    const texts = ['HPが足りません', '「だれだ！」', 'ﾒﾓﾘｰが足りません', '『古い本』を読みますか？', 'A城の地下に宝がある', 'OK、旅に出ましょう。', '(小さな声で)ここです'];
    for (const end of [0x00, 0xFF]) {
        const bytes = Buffer.concat([Buffer.of(end), endedBy('CP932', texts, end)]);
        assert.deepEqual(foundIn('CP932', bytes), texts.map(text => bytesOf('CP932', text).toString('hex')), `${end}`);
    }
    // For two letters or more the bytes before them do not matter; a code before them is not a part of the text.
    for (const [before, text] of [[[0x11, 0x80], 'HPが足りません'], [[0x00, 0x10, 0x02], '城の地下に宝がある'], [[0x00, 0x10, 0x23], '城の地下に宝がある']]) {
        const bytes = Buffer.concat([Buffer.from(before), bytesOf('CP932', text), Buffer.of(0)]);
        assert.deepEqual(foundIn('CP932', bytes), [bytesOf('CP932', text).toString('hex')], `${before}`);
    }
});

test('letters and half-width kana at the end belong to a text that a 00 ends', () => {
    for (const text of ['まほうの薬をAB', '城の地下に宝があるHP', 'つづきからﾒﾓﾘｰ']) {
        const bytes = Buffer.concat([Buffer.of(0x80, 0), bytesOf('CP932', text), Buffer.of(0, 0x80)]);
        assert.deepEqual(foundIn('CP932', bytes), [bytesOf('CP932', text).toString('hex')], text);
    }
});

test('short words of Big5 one after the other are texts, and addresses are not', () => {
    const words = ['長劍', '短弓', '木盾', '鐵盔', '藥草', '毒草', '聖水', '地圖', '鑰匙', '火把', '金幣', '寶石', '戒指', '項鍊', '披風'];
    assert.ok(foundIn('Big5', Buffer.concat([Buffer.of(0), endedBy('Big5', words, 0)])).length >= words.length - 1);
    assert.deepEqual(foundIn('Big5', Buffer.concat([Buffer.of(0), endedBy('Big5', words.slice(0, 4), 0)])), []);
    const addresses = Buffer.concat(Array.from({ length: 40 }, (_, i) => Buffer.of(0xA4, 0x40 + i, 0xA4, 0x6A, 0)));
    assert.deepEqual(foundIn('Big5', addresses), []);
});

test('texts with a length before each are found as they are, in each encoding', () => {
    for (const [name, texts] of Object.entries({ ...SENTENCES, 'UTF-8': SENTENCES.CP932, 'UTF-16LE': SENTENCES.CP932, 'UTF-16BE': SENTENCES.CP932 })) {
        const some = Array.from({ length: 40 }, (_, i) => texts[(i * 7 + (i >> 2)) % texts.length]).map(text => bytesOf(name, text));
        for (const length of [size => [size], size => [size, 0], size => [0, size], size => [size, 0, 0, 0]]) {
            const bytes = Buffer.concat(some.flatMap(text => [Buffer.from(length(text.length)), text]));
            assert.deepEqual(foundIn(name, bytes), some.map(text => text.toString('hex')), `${name} ${length(1)}`);
        }
    }
});

test('texts of rare characters at the beginning of a chain belong to it', () => {
    const texts = ['森薬草姫城', '剣わたし店夜', 'あなた海鍵スライム', ...SENTENCES.CP932, ...SENTENCES.CP932].map(text => bytesOf('CP932', text));
    for (const before of [[], ['薬草', '勇者海夜'].map(text => bytesOf('CP932', text))]) for (const zeros of [0, 16]) {
        const all = [...before, ...texts];
        const bytes = Buffer.concat([Buffer.alloc(zeros), ...all.flatMap(text => [Buffer.of(text.length), text])]);
        assert.deepEqual(foundIn('CP932', bytes), all.map(text => text.toString('hex')), `${before.length} ${zeros}`);
    }
});

test('a text with many letters and digits is not cut by what may be lengths', () => {
    const text = Array.from({ length: 90 }, (_, i) => `城の地下に HP ${i} の薬があるらしい, Lv ${i % 9} NPC ok ${7 * i} `).join(' / ');
    for (const name of ['CP932', 'EUC-JP', 'UTF-8']) {
        const bytes = Buffer.concat([Buffer.of(0xFF, 0), bytesOf(name, text), Buffer.of(0)]);
        const places = found(bytes);
        assert.deepEqual([places[0][0], places.at(-1)[1]], [2, bytes.length - 1], name);
        places.forEach(([start], i) => assert.ok(i === 0 || start === places[i - 1][1], name));
    }
});

test('in an encoding of one byte a character two texts with at most 32 bytes between them are one, and in others with at most 512', () => {
    for (const [scores, most] of [[tableScores(encodingOf('Windows-1252')), 32], [allScores()[0], 512]]) {
        for (const [between, count] of [[most, 1], [most + 1, 2]]) {
            const bytes = Buffer.concat([Buffer.alloc(9, 0x15), Buffer.from(`Start${' '.repeat(between)}Ende!`), Buffer.alloc(9, 0x15)]);
            const textAt = from => ({ start: from, end: from + 5, from, to: from + 5, scores, score: 9, isBeside: false, text: '' });
            assert.equal(joinedTexts(bytes, [textAt(9), textAt(14 + between)], 1000).length, count, `${scores.encoding.name} ${between}`);
        }
    }
});
