// Finds encodings by name, and decodes text files. Has all encodings but those of two bytes.

import { PAIRS_OF_DIGITS, bytesOfHex, hexText } from '../bytes.js';
import { Fault } from '../faults.js';
import { addAscii, lacks, numbersOf } from './characters.js';
import { SPACES, TableEncoding, type Encoding } from './encoding.js';
import { BIG5, CP932, EUC_JP, EUC_KR, GBK } from './two_bytes.js';

// Windows-1252, in which programs for Western Windows write cue sheets and lists. Some engines decode it as Latin-1.

/** The characters of the bytes 80 to 9F; bytes without one keep their number. */
const HIGH = '€\x81‚ƒ„…†‡ˆ‰Š‹Œ\x8DŽ\x8F\x90‘’“”•–—˜™š›œ\x9DžŸ';

/** Corrects a text in Windows-1252 that was decoded as Latin-1. */
export function windowsText(latin: string) {
    return latin.replace(/[\x80-\x9F]/g, it => HIGH[it.charCodeAt(0) - 0x80]);
}

/** The text of bytes in Windows-1252. */
function textOf1252(bytes: Uint8Array) {
    return windowsText(new TextDecoder('windows-1252').decode(bytes));
}

// Character sets of one byte for the languages of Europe, as Windows and DOS define them.

/** The bytes beyond ASCII. */
const UPPER_HALF = Uint8Array.from(numbersOf([0x80, 0xFF]));

/** Bytes without a character are decoded as one of these. */
const NONE = /[\x80-\x9F\uFFFD]/;

/** The characters of sets of DOS, for which engines have no decoder. */
const OF_DOS = {
    CP437: 'ÇüéâäàåçêëèïîìÄÅÉæÆôöòûùÿÖÜ¢£¥₧ƒáíóúñÑªº¿⌐¬½¼¡«»░▒▓│┤╡╢╖╕╣║╗╝╜╛┐' +
        '└┴┬├─┼╞╟╚╔╩╦╠═╬╧╨╤╥╙╘╒╓╫╪┘┌█▄▌▐▀αßΓπΣσµτΦΘΩδ∞φε∩≡±≥≤⌠⌡÷≈°∙·√ⁿ²■\xA0',
    CP850: 'ÇüéâäàåçêëèïîìÄÅÉæÆôöòûùÿÖÜø£Ø×ƒáíóúñÑªº¿®¬½¼¡«»░▒▓│┤ÁÂÀ©╣║╗╝¢¥┐' +
        '└┴┬├─┼ãÃ╚╔╩╦╠═╬¤ðÐÊËÈıÍÎÏ┘┌█▄¦Ì▀ÓßÔÒõÕµþÞÚÛÙýÝ¯´\xAD±‗¾¶§÷¸°¨·¹³²■\xA0',
    CP852: 'ÇüéâäůćçłëŐőîŹÄĆÉĹĺôöĽľŚśÖÜŤťŁ×čáíóúĄąŽžĘę¬źČş«»░▒▓│┤ÁÂĚŞ╣║╗╝Żż┐' +
        '└┴┬├─┼Ăă╚╔╩╦╠═╬¤đĐĎËďŇÍÎě┘┌█▄ŢŮ▀ÓßÔŃńňŠšŔÚŕŰýÝţ´\xAD˝˛ˇ˘§÷¸°¨˙űŘř■\xA0',
};

/** @param highOf returns the characters beyond ASCII */
function singleByte(name: string, aliases: string[], highOf: () => string) {
    return new TableEncoding({ name, aliases, isSingle: true }, table => {
        addAscii(table);
        Array.from(highOf(), (character, i) => NONE.test(character) || table.add(UPPER_HALF.slice(i, i + 1), character));
    });
}

/** @param label of the Encoding Standard */
const highDecodedBy = (label: string) => () => new TextDecoder(label).decode(UPPER_HALF);

/** All of these sets, in the order in which they are listed. */
const SINGLE_BYTE = [
    singleByte('Windows-1252', ['CP1252', 'MS1252'], () => textOf1252(UPPER_HALF)),
    singleByte('Windows-1250', ['CP1250', 'MS1250'], highDecodedBy('windows-1250')),
    singleByte('Windows-1251', ['CP1251', 'MS1251'], highDecodedBy('windows-1251')),
    singleByte('CP437', ['IBM437'], () => OF_DOS.CP437),
    singleByte('CP850', ['IBM850'], () => OF_DOS.CP850),
    singleByte('CP852', ['IBM852'], () => OF_DOS.CP852),
    singleByte('CP866', ['IBM866'], highDecodedBy('ibm866')),
];

// Encodings of all of Unicode. They lack only unpaired surrogates.

/** How many characters have a known part. */
const MOST_KNOWN = 1 << 12;

/** The function that returns the part of a character. It keeps some, so that a long text does not need new bytes for each character. */
function partsBy(bytesOf: (character: string) => Uint8Array) {
    const known: Map<string, Uint8Array[]> = new Map();
    return (character: string) => {
        const part = known.get(character) || [bytesOf(character)];
        if (known.size < MOST_KNOWN) known.set(character, part);
        return part;
    };
}

/** @param sizeAt how many bytes the character at a place has if it is whole */
function unicodeEncoding(name: string, bytesOf: (character: string) => Uint8Array, goesOn: (byte: number) => boolean,
    sizeAt: (bytes: Uint8Array, at: number) => number): Encoding {
    const [loose, strict] = [false, true].map(fatal => new TextDecoder(name, { fatal, ignoreBOM: true }));
    const least = bytesOf('a').length;
    const textIfWhole = (bytes: Uint8Array) => {
        try {
            return strict.decode(bytes);
        } catch {
            return '';
        }
    };
    const partOf = partsBy(bytesOf);
    function* parts(text: string) {
        const lacking = text.search(/\p{Cs}/u);
        if (lacking >= 0) throw lacks(name, text, lacking);
        for (const character of text) yield partOf(character);
    }
    return {
        name,
        label: name,
        aliases: [],
        searched: true,
        hasCharacters: true,
        ...SPACES,
        units: text => [...parts(text)],
        parts,
        text: bytes => loose.decode(bytes),
        characterAt(bytes, at) {
            const wanted = sizeAt(bytes, at);
            const whole = wanted > least ? textIfWhole(bytes.subarray(at, at + wanted)) : '';
            const size = whole === '' ? Math.min(least, bytes.length - at) : wanted;
            return { size, text: whole || loose.decode(bytes.subarray(at, at + size)) };
        },
        goesOn,
    };
}

// UTF-16 in both byte orders.

/** @param little whether the least significant byte comes first */
function utf16(name: string, little: boolean) {
    const isHigh = (byte: number) => byte >= 0xD8 && byte < 0xDC;
    return unicodeEncoding(name, character => {
        const bytes = new DataView(new ArrayBuffer(2 * character.length));
        for (let i = 0; i < character.length; i++) bytes.setUint16(2 * i, character.charCodeAt(i), little);
        return new Uint8Array(bytes.buffer);
    }, () => false, (bytes, at) => isHigh(bytes[at + Number(little)]) ? 4 : 2);
}

const UTF16LE = utf16('UTF-16LE', true);
const UTF16BE = utf16('UTF-16BE', false);

// UTF-8.

/** The lowest first bytes of characters of two, three, and four bytes. */
const FIRST_BYTES = [0xC2, 0xE0, 0xF0];

const bytesOf = (character: string) => new TextEncoder().encode(character);

const goesOn = (byte: number) => byte >= 0x80;

export const UTF8 = unicodeEncoding('UTF-8', bytesOf, goesOn, (bytes, at) => 1 + FIRST_BYTES.filter(lead => bytes[at] >= lead).length);

// The encoding of bytes as hexadecimal digits.

function notHex(text: string, at: number) {
    const place = [...text.slice(0, at)].length + 1;
    if (!/[0-9A-Fa-f]/.test(text[at])) return lacks('hex', text, at);
    return new Fault('text/half-byte', { place });
}

/** Bytes in hexadecimal digits, with or without spaces and line ends between them. */
export const HEX: Encoding = {
    name: 'hex',
    label: 'hex',
    aliases: [],
    searched: false,
    hasCharacters: false,
    space: '00',
    wideSpace: '',
    units(text) {
        const units = [];
        for (const { 0: found, index } of text.matchAll(/[0-9A-Fa-f]{2}|\S/g)) {
            if (found.length < 2) throw notHex(text, index || 0);
            units.push([bytesOfHex(found)]);
        }
        return units;
    },
    text: bytes => hexText(bytes),
    characterAt: (bytes, at) => ({ size: 1, text: PAIRS_OF_DIGITS[bytes[at]] || '' }),
    goesOn: () => false,
};

/** All encodings, in the order in which they are listed and searched. */
export const ENCODINGS: Encoding[] = [HEX, CP932, EUC_JP, UTF8, UTF16LE, UTF16BE, BIG5, GBK, EUC_KR, ...SINGLE_BYTE];

/** The encodings that are searched if none is named: those of Japanese discs. */
export const SEARCHED = ENCODINGS.filter(({ searched }) => searched);

/** The encoding that is used if none is named. */
export const USUAL_ENCODING = CP932;

/** The most bytes of a table: 65536 lines of two bytes and a character need a tenth of them. */
const LARGEST_TABLE = 1 << 23;

const strictUtf8 = new TextDecoder('utf-8', { fatal: true });

/** UTF-16 with a byte order mark, as some editors and spreadsheets save texts. */
const MARKED = [UTF16LE, UTF16BE];

/** Finds an encoding by its name, regardless of case and punctuation; or null. */
export function encodingOf(name: string) {
    const plain = (text: string) => text.toUpperCase().replace(/[^A-Z0-9]/g, '');
    return ENCODINGS.find(it => [it.name, ...it.aliases].map(plain).includes(plain(name))) || null;
}

/** The encoding whose byte order mark some bytes begin with; or undefined. */
export function markOf(bytes: Uint8Array) {
    return MARKED.find(encoding => encoding.text(bytes.subarray(0, 2)) === '\uFEFF');
}

/** Decodes a small text file, such as a table: as UTF-16 if it has a byte order mark, as UTF-8 if it is valid, else as CP932. */
export function textOfFile(bytes: Uint8Array) {
    return textsOfFile(bytes)[0];
}

/** The possible texts of such a file; the second one, if any, is decoded as Windows-1252. */
export function textsOfFile(bytes: Uint8Array) {
    const marked = markOf(bytes);
    if (marked) return [marked.text(bytes.subarray(2))];
    try {
        return [strictUtf8.decode(bytes)];
    } catch {
        return [CP932.text(bytes), textOf1252(bytes)];
    }
}

/** The text of a `.tbl` file. Throws a Fault if it is too long. */
export function tableTextOf(bytes: Uint8Array) {
    if (bytes.length > LARGEST_TABLE) throw new Fault('text/large-table', { size: bytes.length, most: LARGEST_TABLE });
    return textOfFile(bytes);
}
