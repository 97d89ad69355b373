// Files as games of several kinds have them, made here, with the places of all texts and a reader of the game's own kind.

import { core, diceOf } from './common.mjs';

const { encodeText } = await core('encodings/encoding.js');
const { encodingOf } = await core('encodings/encodings.js');

const bytesOf = (name, text) => Buffer.from(encodeText(encodingOf(name), text));
export const number = (size, value, isBig = false) => {
    const bytes = Buffer.alloc(size);
    if (isBig) bytes.writeUIntBE(value, 0, size);
    else bytes.writeUIntLE(value, 0, size);
    return bytes;
};

const WHO = ['勇者', '村人', '王様', '魔王', '盗賊', '戦士', '老人', '商人', '姫', '兵士', '父さん', '神父さま'];
const WHAT = ['薬草', '剣', '盾', '鍵', '地図', '宝箱', '指輪', '聖水', '魔法の杖', '手紙', 'かがみ', 'たいまつ'];
const WHERE = ['北の塔', '東の洞窟', '城の地下', '海の向こう', '森の奥', '西の港町', '砂漠の遺跡', '天空の城'];
const DID = ['を手に入れた', 'を探している', 'を見つけた', 'を盗まれた', 'がほしいのか', 'を持ってきてくれ', 'が光りだした'];
const END = ['。', '！', '？', '…。', 'よ。', 'のだ。'];
const WORDS = ['やくそう', 'どくけし', 'せいすい', '剣士', '鉄の盾', '皮の鎧', 'まほうのカギ', '地図', '薬草', '指輪', '炎の杖', '王冠', 'はい', 'いいえ', '回復', '防具', '道具屋', '宿屋',
    '教会', '北の塔', '洞窟', '地下室', '水晶', '手紙', '金貨', '弓矢', '石版', '小船', '馬車'];

/** Sentences of several languages, as programs have them, from parts. */
const PARTS = {
    English: [['Cannot open', 'Delete', 'Save changes to', 'Please insert', 'You found', 'The old man gave you'], ['the file', 'this game', 'the disc', 'a silver key', 'the castle gate', 'your profile'], ['.', '?', ' now.', ' before you continue.']],
    German: [['Möchten Sie', 'Sie können', 'Bitte prüfen Sie, ob Sie', 'Der Händler möchte'], ['den Schlüssel öffnen', 'die Größe ändern', 'das Gerät für später wählen', 'zurück zum Menü'], ['?', '.', ' ...', '!']],
    French: [['Où avez-vous vu', 'Épargnez', '« Prends', 'À toi', '¿Qui a pris', '"Je garde'], ['la clé du château', "l'épée de mon père", 'ce bouclier', 'le trésor du roi'], [' ?', '.', ' !', ' ?"', '...']],
    Polish: [['Czy chcesz', 'Nie można', 'Możesz teraz', 'Proszę najpierw'], ['usunąć plik', 'zapisać zmiany', 'otworzyć drzwi', 'włożyć płytę do napędu'], ['?', '.', ' później.', ' jeszcze raz.']],
    Russian: [['Вы хотите', 'Невозможно', 'Теперь можно', 'Сначала нужно'], ['удалить файл', 'сохранить игру', 'открыть дверь', 'вставить диск в дисковод'], ['?', '.', ' позже.', ' ещё раз.']],
};

/** Names of things in a language with accents. */
const NAMES = ['Épée', 'Épée longue', 'Bouclier', 'Potion de soin', 'Hache', 'Écu du roi', 'Clé rouillée', 'Pièce d’or', 'Arc long', 'Élixir', 'Torche', 'Île', 'Âme'];

/** Control codes of games before a text. */
const CODES = [[0x01], [0x02, 0x05], [0x1B, 0x03], [0x0E], [0x01, 0xFE]];

/** A line of a game with about as many forms as this number says. */
function lineOf(dice) {
    const [who, what, where, did, end] = [WHO, WHAT, WHERE, DID, END].map(some => some[dice(some.length)]);
    return [`${who}は${where}で${what}${did}${end}`, `「${who}、${what}${did}${end}」`, `${where}へ行けば${what}があるらしい${end}`,
        `${who}さま、どうか${what}を${where}まで届けてください${end}`][dice(4)];
}

export const linesOf = (dice, count) => Array.from({ length: count }, () => lineOf(dice));
export const wordsOf = (dice, count) => Array.from({ length: count }, (_, i) => WORDS[(7 * i + dice(3)) % WORDS.length]);
const sentencesOf = (language, dice, count) => Array.from({ length: count }, () => PARTS[language].map(some => some[dice(some.length)]).join(' ').replace(/ ([.?!])/, '$1'));

/** Bytes like code and numbers. */
export const others = (dice, size) => Buffer.from(Array.from({ length: size }, () => [0, 0, 1, 2, 4, 0x89, 0x8B, 0xE8, 0xFF, 0x55, dice(256)][dice(11)]));

/** Texts that end with a byte, after a table of pointers. */
function ended(dice, texts, end, name, encoding) {
    const all = texts.map(text => Buffer.concat([bytesOf(encoding, text), Buffer.of(end)]));
    let at = 2 * all.length;
    const places = all.map(bytes => [at, (at += bytes.length) - 1]);
    const bytes = Buffer.concat([...places.map(([from]) => number(2, from)), ...all, others(dice, 300)]);
    return { name, encoding, bytes, places, read: file => places.map(([from]) => [from, file.indexOf(end, from)]) };
}

/** Texts with a length before each. */
function counted(dice, texts, size, isBig, name) {
    const before = others(dice, 60);
    const all = texts.map(text => bytesOf('CP932', text)).filter(({ length }) => size > 1 || length < 256);
    const bytes = Buffer.concat([before, ...all.flatMap(it => [number(size, it.length, isBig), it]), others(dice, 200)]);
    const read = file => {
        let at = before.length;
        return all.map(() => {
            const length = isBig ? file.readUIntBE(at, size) : file.readUIntLE(at, size);
            return [at += size, at += length];
        });
    };
    return { name, encoding: 'CP932', bytes, places: read(bytes), read };
}

/** String tables of Windows: blocks of 16 strings, each with its number of characters before it; many are empty. */
function tables(dice, texts) {
    const slots = texts.flatMap(text => dice(3) === 0 ? [text] : ['', text]);
    const all = slots.map(text => Buffer.concat([number(2, text.length), bytesOf('UTF-16LE', text)]));
    const read = file => {
        const found = [];
        let at = 64;
        for (let i = 0; i < slots.length; i++) {
            const length = 2 * file.readUInt16LE(at);
            if (length > 0) found.push([at + 2, at + 2 + length]);
            at += 2 + length;
        }
        return found;
    };
    const bytes = Buffer.concat([others(dice, 64), ...all, others(dice, 100)]);
    return { name: 'string tables', encoding: 'UTF-16LE', bytes, places: read(bytes), read };
}

/** Fields of 16 bytes that are filled with a byte, with numbers between them. */
function fields(dice, texts, filler) {
    const all = texts.map(text => {
        const field = Buffer.alloc(16, filler);
        bytesOf('CP932', text).copy(field);
        return Buffer.concat([field, Buffer.from(Array.from({ length: 6 }, () => 1 + dice(200)))]);
    });
    const read = file => all.map((_, i) => {
        let end = 22 * i + 16;
        while (end > 22 * i && file[end - 1] === filler) end -= 1;
        return [22 * i, end];
    });
    const bytes = Buffer.concat(all);
    return { name: `fields filled with ${filler}`, encoding: 'CP932', bytes, places: read(bytes), read, least: 0 };
}

/** A program: texts that end with 00, at places that 4 divides, among code. `changed` returns a sentence as it is in the program. */
function program(dice, language, encoding, kind = '', changed = text => text) {
    const all = sentencesOf(language, dice, 40).map((text, i) => Buffer.concat([bytesOf(encoding, changed(text, i)), Buffer.of(0)]));
    const padded = all.map(bytes => Buffer.concat([bytes, Buffer.alloc(-bytes.length & 3)]));
    let at = 400;
    const places = padded.map((it, i) => [at, (at += it.length) - it.length + all[i].length - 1]);
    const bytes = Buffer.concat([others(dice, 396), Buffer.alloc(4), ...padded, others(dice, 3000)]);
    return { name: `${language} in ${encoding}${kind}`, encoding, bytes, places, options: { encoding }, read: file => places.map(([from]) => [from, file.indexOf(0, from)]) };
}

/** A text in capitals, or with its end in capitals. */
function withCapitals(text, i) {
    const from = i % 2 === 0 ? 0 : text.length >> 1;
    return text.slice(0, from) + text.slice(from).toUpperCase();
}

/** A game whose texts, in an encoding that must be named, have control codes before them, and a byte after them. */
function coded(dice, language, encoding, end) {
    const all = sentencesOf(language, dice, 40).map(text => [Buffer.from(CODES[dice(CODES.length)]), bytesOf(encoding, text), Buffer.of(end)]);
    let at = 60;
    const places = all.map(parts => {
        const from = at + parts[0].length;
        at += Buffer.concat(parts).length;
        return [from, at - 1];
    });
    const bytes = Buffer.concat([others(dice, 60), ...all.flat(), others(dice, 300)]);
    const name = `${language} in ${encoding} after codes, then ${end}`;
    return { name, encoding, bytes, places, options: { encoding }, read: file => places.map(([from]) => [from, file.indexOf(end, from)]) };
}

/** A file of text, of which each line is a row, and one that is a row as a whole. Some lines have numbers, and words in capitals. */
function linesOfText(dice, language, encoding) {
    const lines = sentencesOf(language, dice, 30).map((text, i) => ['', '1.2 ', `${text} SETUP 3.14: `, `(${i}) `, 'VERSION 1.0', `DOS 5.0, ${text} `][dice(6)] + text);
    const read = file => {
        const found = [];
        for (let from = 0; from < file.length; from = found.at(-1)[1] + 2) found.push([from, file.indexOf('\r\n', from, 'latin1')]);
        return found;
    };
    const bytes = Buffer.concat(lines.map(line => bytesOf(encoding, `${line}\r\n`)));
    const whole = { name: `${language} in ${encoding}, a file of text`, encoding, bytes, places: [[0, bytes.length]], options: { encoding }, read: file => [[0, file.length]] };
    return [{ name: `${language} in ${encoding}, line by line`, encoding, bytes, places: read(bytes), options: { encoding, lines: true }, read }, whole];
}

/** Languages of Europe, and their encodings; and whether FF is a letter in them. */
const OF_EUROPE = [['English', 'Windows-1252'], ['French', 'Windows-1252'], ['German', 'CP850'], ['Polish', 'Windows-1250'], ['Russian', 'Windows-1251', true]];

/** Texts that end with FF, which is a character of their encoding. */
function endedByFF(dice, texts, encoding) {
    const game = ended(dice, texts, 0xFF, `${texts[0].split(' ')[0]} in ${encoding}, then 255`, encoding);
    return { ...game, options: { encoding } };
}

/** All games. Of the texts of each, 9 in 10 are rows, or a share of `least`. */
export function madeGames(seed) {
    const dice = diceOf(seed);
    return [
        ...[0x00, 0xFF, 0x03, 0xFE].flatMap(end => [
            ended(dice, linesOf(dice, 60), end, `lines, then ${end}`, 'CP932'),
            ended(dice, wordsOf(dice, 120), end, `words, then ${end}`, 'CP932'),
        ]),
        counted(dice, linesOf(dice, 60), 1, false, 'lengths of a byte'),
        counted(dice, linesOf(dice, 60), 2, false, 'lengths of two bytes, the least first'),
        counted(dice, linesOf(dice, 60), 2, true, 'lengths of two bytes, the greatest first'),
        tables(dice, linesOf(dice, 60)), ...[0x00, 0x20, 0xFF].map(filler => fields(dice, wordsOf(dice, 60), filler)),
        program(dice, 'English', 'Windows-1252'), program(dice, 'German', 'Windows-1252'), program(dice, 'German', 'CP850'),
        program(dice, 'Polish', 'Windows-1250'), program(dice, 'Polish', 'CP852'), program(dice, 'Russian', 'Windows-1251'), program(dice, 'Russian', 'CP866'),
        ...OF_EUROPE.flatMap(([language, encoding]) => [0x00, 0x03].map(end => coded(dice, language, encoding, end))),
        ...OF_EUROPE.flatMap(([language, encoding]) => linesOfText(dice, language, encoding)),
        ...OF_EUROPE.filter(([, , isLetter]) => !isLetter).map(([language, encoding]) => endedByFF(dice, sentencesOf(language, dice, 60), encoding)),
        endedByFF(dice, Array.from({ length: 60 }, () => NAMES[dice(NAMES.length)]), 'Windows-1252'),
        ...OF_EUROPE.map(([language, encoding]) => program(dice, language, encoding, ', in capitals', withCapitals)),
    ];
}
