// Discs as games of several kinds have them, whose texts have pointers; the true places of all pointers and texts, and a reader of the game's
// own kind.

import { calls, core, diceOf, readerOf } from './common.mjs';
import { linesOf, number, others, wordsOf } from './made_games.mjs';
import { recordOf, volumeOf } from './strangers.mjs';

const { encodeText } = await core('encodings/encoding.js');
const { encodingOf } = await core('encodings/encodings.js');
const { openTrack } = await core('tasks/index.js');
const { openDisc } = await core('disc/disc.js');

const USER = 2048;
const FIRST = 20;

const japanese = text => Buffer.from(encodeText(encodingOf('CP932'), text));

/** Lines with codes before, in, and after some of them. */
function codedLines(dice, count) {
    return linesOf(dice, count).map((line, i) => {
        const parts = [japanese(line)];
        if (dice(4) === 0) parts.push(Buffer.of(1), japanese(linesOf(dice, 1)[0]));
        if (dice(6) === 0) parts.unshift(Buffer.of(5, 1 + i % 8));
        if (dice(6) === 0) parts.push(Buffer.of(2));
        return Buffer.concat(parts);
    });
}

/** Bodies of texts that end with a byte, each at a multiple of `align`, and the places of all from a place on. */
function bodyOf(texts, end, at, align = 1) {
    const parts = [];
    const places = [];
    let next = at;
    for (const text of texts) {
        const padded = Buffer.alloc(Math.ceil((text.length + 1) / align) * align);
        text.copy(padded);
        padded[text.length] = end;
        places.push(next);
        next += padded.length;
        parts.push(padded);
    }
    return { body: Buffer.concat(parts), places };
}

/** A game with one file: pointers at places, each to a text; how its number gives the place of the text; and the byte that ends texts. */
function gameOf(name, bytes, pointers, { width, isBig = false, targetOf, end = 0, file = 'TEXT.BIN', table = file, files = {}, ...more }) {
    const numberIn = (from, at) => isBig ? from.readUIntBE(at, width) : from.readUIntLE(at, width);
    const read = now => pointers.map(({ at }) => {
        const target = targetOf(numberIn(now[table], at), at);
        return now[file].subarray(target, now[file].indexOf(end, target));
    });
    const held = { [file]: bytes, ...files };
    return { name, files: held, file, table, width, pointers, texts: pointers.map(({ at }) => targetOf(numberIn(held[table], at), at)), read, isMoving: true, ...more };
}

/** A game with a table before its texts: `numberOf` gives the number for a text from its place, that of the table, and that of the pointer. */
function tabled(dice, name, texts, { width, isBig = false, numberOf, targetOf, end = 0, align = 1, before = 0, distance = width, beside = () => Buffer.alloc(0), isMixed = false, more = 0, ...other }) {
    const order = texts.map((_, i) => i);
    for (let i = 0; i < more; i++) order.push(dice(texts.length));
    if (isMixed) order.sort(() => dice(3) - 1);
    const start = Math.ceil((before + order.length * distance) / align) * align;
    const { body, places } = bodyOf(texts, end, start, align);
    const head = Buffer.alloc(start);
    others(dice, before).copy(head);
    const pointers = order.map((text, i) => {
        const at = before + i * distance;
        number(width, numberOf(places[text], { table: before, body: start, at }), isBig).copy(head, at);
        beside(text, texts).copy(head, at + width);
        return { at, text };
    });
    const bytes = Buffer.concat([head, body, others(dice, 200 + dice(600))]);
    return gameOf(name, bytes, pointers, { width, isBig, end, targetOf: (value, at) => targetOf(value, { table: before, body: start, at }), ...other });
}

/** Pointers in code: before each is an instruction, or several are together in a pool. */
function coded(dice, name, texts, { isBig, address, pool }) {
    const places = [];
    let at = 100;
    for (let i = 0; i < texts.length; i++) {
        const isNext = pool && i % 4 !== 0;
        at += isNext ? 4 : pool ? 4 * (20 + dice(40)) : 60 + dice(100);
        places.push(at);
    }
    const start = Math.ceil((at + 200) / 4) * 4;
    const { body, places: targets } = bodyOf(texts, 0, start, 4);
    const head = others(dice, start);
    places.forEach((place, i) => {
        if (!pool) head[place - 1] = [0x68, 0xB8, 0xBE][dice(3)];
        number(4, targets[i] + address, isBig).copy(head, place);
    });
    const pointers = places.map((place, text) => ({ at: place, text }));
    return gameOf(name, Buffer.concat([head, body, others(dice, 500)]), pointers, { width: 4, isBig, targetOf: value => value - address });
}

/** A table in a file of its own. */
function apart(dice, name, texts) {
    const { body, places } = bodyOf(texts, 0, 0);
    const table = Buffer.concat([Buffer.from('TBL0'), number(4, places.length), ...places.map(place => number(4, place))]);
    const pointers = places.map((_, text) => ({ at: 8 + 4 * text, text }));
    return gameOf(name, body, pointers, { width: 4, targetOf: value => value, table: 'TEXT.TBL', files: { 'TEXT.TBL': table } });
}

/** Pointers to the length before each text, which has no end. */
function counted(dice, name, texts) {
    const start = 2 + 2 * texts.length;
    const places = [];
    let at = start;
    for (const text of texts) {
        places.push(at);
        at += 2 + text.length;
    }
    const bytes = Buffer.concat([number(2, texts.length), ...places.map(place => number(2, place)), ...texts.flatMap(text => [number(2, text.length), text]),
        others(dice, 300)]);
    const read = ({ 'TEXT.BIN': now }) => places.map((_, i) => {
        const from = now.readUInt16LE(2 + 2 * i);
        return now.subarray(from + 2, from + 2 + now.readUInt16LE(from));
    });
    return { ...gameOf(name, bytes, places.map((_, text) => ({ at: 2 + 2 * text, text })), { width: 2, targetOf: value => value }), read, isMoving: false,
        texts: places.map(place => place + 2) };
}

/** Places and lengths of texts, 32 bits each, as in MO files. */
function measured(dice, name, texts) {
    const made = tabled(dice, name, texts, { width: 4, distance: 8, before: 12, beside: (i, all) => number(4, all[i].length), numberOf: place => place, targetOf: value => value });
    const read = ({ 'TEXT.BIN': now }) => made.pointers.map(({ at }) => now.subarray(now.readUInt32LE(at), now.readUInt32LE(at) + now.readUInt32LE(at + 4)));
    return { ...made, read, beside: 4 };
}

/** Numbers of two-byte characters beside pointers; such texts have no codes. */
function counting(dice, name) {
    const texts = linesOf(dice, 40).map(japanese).filter(({ length }) => length % 2 === 0);
    const beside = (i, all) => Buffer.of(all[i].length / 2);
    const made = tabled(dice, name, texts, { width: 2, distance: 3, before: 12, beside, numberOf: place => place, targetOf: value => value });
    const read = ({ 'TEXT.BIN': now }) => made.pointers.map(({ at }) => now.subarray(now.readUInt16LE(at), now.readUInt16LE(at) + 2 * now[at + 2]));
    return { ...made, read, beside: 1 };
}

/** Offsets of texts and of the end of the last one: the length of a text is the difference of two. */
function between(dice, name, texts) {
    const { body, places } = bodyOf(texts, 0, 4 + 2 * texts.length);
    const all = [...places, places[0] + body.length];
    const bytes = Buffer.concat([number(2, texts.length), ...all.map(place => number(2, place)), body, others(dice, 300)]);
    const pointers = texts.map((_, text) => ({ at: 2 + 2 * text, text }));
    const read = ({ 'TEXT.BIN': now }) => pointers.map(({ at }) => now.subarray(now.readUInt16LE(at), now.readUInt16LE(at + 2)));
    return { ...gameOf(name, bytes, pointers, { width: 2, targetOf: value => value }), read, beside: 2 };
}

/** Texts in which the code 06 has an argument, mostly 00, which does not end the text. */
function argued(dice, name) {
    const texts = linesOf(dice, 40).map((line, i) => i % 3 > 0 ? japanese(line)
        : Buffer.concat([japanese(line), Buffer.of(6, 0), japanese(linesOf(dice, 1)[0])]));
    const made = tabled(dice, name, texts, { width: 2, before: 2, numberOf: place => place, targetOf: value => value });
    const read = ({ 'TEXT.BIN': now }) => made.pointers.map(({ at }) => {
        const first = now.readUInt16LE(at);
        let end = first;
        while (now[end] !== 0) end += now[end] === 6 ? 2 : 1;
        return now.subarray(first, end);
    });
    return { ...made, read };
}

/** Pointers of 16 bits of which a third has a flag in the highest bit. */
function flagged(dice, name, texts) {
    const flags = texts.map((_, i) => i % 3 === 0 ? 0x8000 : 0);
    const made = tabled(dice, name, texts, { width: 2, before: 2, numberOf: (place, { at }) => place | flags[(at - 2) / 2], targetOf: value => value & 0x7FFF });
    const read = ({ 'TEXT.BIN': now }) => made.pointers.map(({ at, text }) => {
        const first = now.readUInt16LE(at) - flags[text];
        return now.subarray(first, now.indexOf(0, first));
    });
    return { ...made, read };
}

/** Banks of texts, each with its table. A game sees one bank at a time. */
function banked(dice, name) {
    const size = 0x2000;
    const banks = [0, 1, 2].map(() => {
        const { body, places } = bodyOf(codedLines(dice, 30), 0, 2 * 30);
        const bank = Buffer.alloc(size, 0xFF);
        Buffer.concat([...places.map(place => number(2, 0x8000 + place)), body]).copy(bank);
        return bank;
    });
    const pointers = banks.flatMap((_, bank) => Array.from({ length: 30 }, (_, i) => ({ at: size * bank + 2 * i, text: 30 * bank + i })));
    const targetOf = (value, at) => value - 0x8000 + size * Math.floor(at / size);
    const made = gameOf(name, Buffer.concat(banks), pointers, { width: 2, targetOf });
    const read = ({ 'TEXT.BIN': now }) => pointers.map(({ at }) => {
        const bank = now.subarray(size * Math.floor(at / size)).subarray(0, size);
        const first = now.readUInt16LE(at) - 0x8000;
        return bank.subarray(first, bank.indexOf(0, first));
    });
    return { ...made, read };
}

/** Two tables that lead to the same texts. */
function twice(dice, name, texts) {
    const before = 2 * texts.length;
    const start = 4 * texts.length;
    const { body, places } = bodyOf(texts, 0xFF, start);
    const bytes = Buffer.concat([...places.map(place => number(2, place)), ...places.map(place => number(2, place)).reverse(), body, others(dice, 300)]);
    const pointers = [...places.map((_, text) => ({ at: 2 * text, text })), ...places.map((_, i) => ({ at: before + 2 * i, text: texts.length - 1 - i }))];
    return gameOf(name, bytes, pointers, { width: 2, end: 0xFF, targetOf: value => value });
}

/** Low and high bytes of the pointers in two tables: no table is found, and no text moves. */
function split(dice, name, texts) {
    const { body, places } = bodyOf(texts, 0, 2 * texts.length);
    const count = texts.length;
    const bytes = Buffer.concat([Buffer.from([...places.map(place => place & 255), ...places.map(place => place >> 8)]), body, others(dice, 300)]);
    const made = gameOf(name, bytes, [], { width: 1, targetOf: value => value });
    const read = ({ 'TEXT.BIN': now }) => places.map((_, i) => {
        const from = now[i] | now[count + i] << 8;
        return now.subarray(from, now.indexOf(0, from));
    });
    return { ...made, texts: places, read, isMoving: false };
}

/** Files without pointers: texts in a row, records with numbers like places, and noise after texts. */
function pointless(dice, name, bytes, places, end = 0) {
    const made = gameOf(name, bytes, [], { width: 1, targetOf: value => value });
    return { ...made, texts: places, read: ({ 'TEXT.BIN': now }) => places.map(place => now.subarray(place, now.indexOf(end, place))), isMoving: false };
}

/** Records of 24 bytes, with their own places in them. */
function records(dice, name) {
    const all = wordsOf(dice, 80).map((word, i) => Buffer.concat([japanese(word), Buffer.alloc(16 - japanese(word).length), number(2, i * 24),
        number(2, (i + 1) * 24), number(2, dice(9)), number(2, i)]));
    return pointless(dice, name, Buffer.concat(all), all.map((_, i) => 24 * i));
}

const pick = (dice, least, most) => least + dice(most - least);

/** All games, each with up to `most` texts. */
export function pointedGames(seed, most = 40) {
    const dice = diceOf(seed);
    const lines = () => codedLines(dice, pick(dice, 10, most));
    const words = count => wordsOf(dice, count).map(japanese);
    const file = { numberOf: place => place, targetOf: value => value };
    const table = { numberOf: (place, { table: at }) => place - at, targetOf: (value, { table: at }) => value + at };
    const body = { numberOf: (place, { body: at }) => place - at, targetOf: (value, { body: at }) => value + at };
    const own = { numberOf: (place, { at }) => place - at, targetOf: (value, { at }) => value + at };
    const from = address => ({ numberOf: place => place + address, targetOf: value => value - address });
    const noise = Buffer.from(Array.from({ length: 60000 }, () => dice(256)));
    const rows = bodyOf(lines(), 0, 3000);
    return [
        tabled(dice, '16 bits from the file', lines(), { width: 2, before: 2, ...file }),
        tabled(dice, '16 bits from the table, the greatest byte first, even, then FF', lines(), { width: 2, isBig: true, before: 512 * pick(dice, 1, 9), end: 0xFF, align: 2, ...table }),
        tabled(dice, '16 bits from the texts', lines(), { width: 2, before: pick(dice, 20, 900), ...body }),
        tabled(dice, '32-bit addresses, the greatest byte first', lines(), { width: 4, isBig: true, before: 4 * pick(dice, 30, 900), align: 4, ...from(0x06004000) }),
        tabled(dice, '32-bit addresses in records of 12 bytes', lines(), { width: 4, distance: 12, before: 4 * pick(dice, 30, 900), align: 4, ...from(0x400C00),
            beside: text => Buffer.concat([number(2, text), number(2, dice(99)), number(4, dice(3))]) }),
        tabled(dice, '32 bits in any order, some twice', lines(), { width: 4, before: 4 * pick(dice, 30, 900), isMixed: true, more: 6, ...from(0x10000) }),
        tabled(dice, '24 bits', lines(), { width: 3, before: pick(dice, 30, 900), ...from(0x4000) }),
        tabled(dice, '24 bits, the greatest byte first', lines(), { width: 3, isBig: true, before: pick(dice, 30, 900), ...from(0x8000) }),
        tabled(dice, '16 bits from the pointer', lines(), { width: 2, before: pick(dice, 30, 900), ...own }),
        tabled(dice, '16 bits from the pointer, the greatest byte first', lines(), { width: 2, isBig: true, before: pick(dice, 30, 900), ...own }),
        tabled(dice, '16 bits from the table in any order, the greatest byte first', lines(), { width: 2, isBig: true, before: 100, end: 0xFF, isMixed: true, more: 3, ...table }),
        tabled(dice, 'words', words(pick(dice, 40, 120)), { width: 2, before: 2, ...file }),
        tabled(dice, 'units of two bytes', lines(), { width: 2, isBig: true, before: 2, align: 2, numberOf: place => place / 2, targetOf: value => 2 * value }),
        tabled(dice, 'letters in the pointers', lines(), { width: 2, before: 2, ...from(0x2400 - 0x60) }),
        tabled(dice, 'letters in the pointers, the greatest byte first', lines(), { width: 2, isBig: true, before: 6, ...from(0x3040) }),
        tabled(dice, 'words of a character between others', words(80).map((word, i) => i % 7 === 0 ? word.subarray(0, 2) : word), { width: 2, before: 40, ...own }),
        coded(dice, 'in code', codedLines(dice, 40), { isBig: false, address: 0x400C00, pool: false }),
        coded(dice, 'in pools of code', codedLines(dice, 60), { isBig: true, address: 0x06010000, pool: true }),
        apart(dice, 'a table in another file', codedLines(dice, 50)), twice(dice, 'two tables', lines()),
        counted(dice, 'to the length of the text', linesOf(dice, 40).map(japanese)), measured(dice, 'with lengths beside pointers', lines()),
        split(dice, 'low and high bytes apart', lines()), records(dice, 'records with numbers like places'),
        pointless(dice, 'texts in a row', Buffer.concat([others(dice, 3000), rows.body, others(dice, 4000)]), rows.places),
        pointless(dice, 'texts and noise', Buffer.concat([others(dice, 3000), rows.body, noise]), rows.places),
        between(dice, 'lengths as differences', lines()), counting(dice, 'numbers of characters beside pointers'),
        argued(dice, 'a code with the argument 00'), banked(dice, 'banks'),
        tabled(dice, '32 bits from the pointer in records', lines(), { width: 4, isBig: true, distance: 8, before: 40, beside: () => number(4, dice(4096)), ...own }),
        flagged(dice, 'a flag in the highest bit', codedLines(dice, 40)),
        tabled(dice, 'short words in any order', words(80).map((word, i) => i % 7 === 0 ? word.subarray(0, 2) : word), { width: 2, before: 2, isMixed: true, ...file }),
    ];
}

/** A disc with the files of a game. `names` are more names of the first file. */
export async function discOf(files, names = []) {
    let block = FIRST;
    const placed = Object.entries(files).map(([name, bytes]) => {
        const first = block;
        block += Math.ceil(bytes.length / USER) + 1;
        return { name, bytes, first };
    });
    const [{ bytes: own, first: at }] = placed;
    const named = [...placed, ...names.map(name => ({ name, bytes: own, first: at }))];
    const records_ = named.map(({ name, bytes, first }) => recordOf(name, first, bytes.length, { flags: 0 }));
    const user = volumeOf(block + 1, sector => sector === 18 ? records_ : []);
    for (const { bytes, first } of placed) user.set(bytes, first * USER);
    const reader = readerOf(calls.encodeBlocks(0, user));
    return { reader, opened: openTrack(await openDisc(calls, [{ name: 'game.bin', reader }])) };
}
