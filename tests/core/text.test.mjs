// Conversion of texts to bytes and back, in each encoding and by tables of characters.
import assert from 'node:assert';
import { spawnSync } from 'node:child_process';
import { createHash } from 'node:crypto';
import { test } from 'node:test';
import { ENCODINGS_KNOWN, core, tableOf } from './common.mjs';

const { ENCODINGS, encodingOf, textOfFile } = await core('encodings/encodings.js');
const { encodeText, fillsOf, spaceIn, usualBytes } = await core('encodings/encoding.js');
const { cellOf, unitsOfCell } = await core('texts/codes.js');
const { linesLeftOut } = await core('encodings/table.js');
const { unitsAlike } = await core('texts/matching.js');

/** @param {Uint8Array} bytes */
const hex = bytes => Buffer.from(bytes).toString('hex').toUpperCase();

/** @param {string} name @param {string} text */
const encoded = (name, text) => hex(encodeText(encodingOf(name), text));

/** @param {string} name @param {string} digits */
const decoded = (name, digits) => encodingOf(name).text(Buffer.from(digits, 'hex'));

/** @param {string} text */
const table = text => tableOf(new TextEncoder().encode(text));

/** Every character of the Basic Multilingual Plane, without surrogates. */
const CHARACTERS = Array.from({ length: 0x10000 }, (_, code) => String.fromCharCode(code)).filter(it => !/\p{Cs}/u.test(it));

/**
 * The bytes that Python writes for each of these characters, and the text that it reads from each code of one or two bytes; '' for none.
 * @param {string} codec
 */
function python(codec) {
    const run = spawnSync('python3', ['-c', `
import json
def tried(f):
    try: return f()
    except UnicodeError: return ''
codec = '${codec}'
print(json.dumps([[tried(lambda: chr(c).encode(codec).hex().upper()) for c in range(0x10000)],
    [tried(lambda: bytes([c >> 8, c & 255] if c > 255 else [c]).decode(codec)) for c in range(0x10000)]]))`], { maxBuffer: 1 << 26 });
    const [written, read] = JSON.parse(run.stdout.toString());
    return { written, read };
}

/** @type {Record<string, string[]>} what allEncoded has made */
const ALL_ENCODED = {};

/** The bytes of each character, '' for none. @param {string} name */
function allEncoded(name) {
    const encoding = encodingOf(name);
    const { stackTraceLimit } = Error;
    Error.stackTraceLimit = 0;
    ALL_ENCODED[name] ??= CHARACTERS.map(it => {
        try {
            return hex(encodeText(encoding, it));
        } catch {
            return '';
        }
    });
    Error.stackTraceLimit = stackTraceLimit;
    return ALL_ENCODED[name];
}

test('CP932 is read as Python reads it, but for five single bytes that are no characters', () => {
    const known = python('cp932');
    const encoding = encodingOf('CP932');
    const others = [];
    known.read.forEach((/** @type {string} */ text, /** @type {number} */ code) => {
        const bytes = Uint8Array.from(code > 255 ? [code >> 8, code & 255] : [code]);
        const own = encoding.text(bytes).includes('\uFFFD') ? '' : encoding.text(bytes);
        if (own !== text && !/[\x80\uF8F0-\uF8F3]/.test(text)) others.push(code.toString(16));
    });
    assert.deepStrictEqual(others, []);
    for (const single of ['80', 'A0', 'FD', 'FE', 'FF']) assert.strictEqual(decoded('CP932', single), '\uFFFD');
});

test('CP932 is written as Python writes it, but for 373 kanji with IBM\'s codes and a dash that it lacks', () => {
    const known = python('cp932');
    const [ibm, fewer, more, others] = [[], [], [], []];
    allEncoded('CP932').forEach((own, i) => {
        const theirs = known.written[CHARACTERS[i].charCodeAt(0)];
        if (own === theirs) return;
        if (/^F[ABC]/.test(own) && /^E[DE]/.test(theirs)) ibm.push(CHARACTERS[i]);
        else if (own === '') fewer.push(theirs);
        else if (theirs === '') more.push(CHARACTERS[i]);
        else others.push(CHARACTERS[i]);
    });
    assert.deepStrictEqual(others, []);
    assert.strictEqual(ibm.length, 373);
    assert.deepStrictEqual(fewer, ['80', 'A0', 'FD', 'FE', 'FF']);
    assert.deepStrictEqual(more, ['—']);
});

test('CP932 is written as iconv writes it, but for two signs that iconv makes others of', t => {
    const wide = CHARACTERS.filter(it => it >= '\x80');
    const run = spawnSync('iconv', ['-c', '-f', 'UTF-8', '-t', 'CP932'], { input: `${wide.join('\n')}\n`, maxBuffer: 1 << 24 });
    if (run.error) return t.skip('no iconv');
    const lines = run.stdout.toString('latin1').split('\n').map(line => hex(Buffer.from(line, 'latin1')));
    const own = allEncoded('CP932').slice(CHARACTERS.length - wide.length);
    assert.strictEqual(wide.filter((_, i) => own[i] !== lines[i]).join(''), '\u00A5\u203E');
    assert.ok(own.filter(it => it !== '').length > 7000);
});

test('of two spellings Windows\' comes first, and the other is kept', () => {
    assert.strictEqual(encoded('CP932', '∵Ⅱ￢ⅰ髙①～－'), '81E6' + '8755' + '81CA' + 'FA40' + 'FBFC' + '8740' + '8160' + '817C');
    assert.deepStrictEqual(encodingOf('CP932').units('ⅰ髙A').map(unit => unit.map(hex)), [['FA40', 'EEEF'], ['FBFC', 'EEE0'], ['41']]);
    assert.deepStrictEqual(encodingOf('CP932').units('∵').map(unit => unit.map(hex)), [['81E6', '879A', 'FA5B']]);
    assert.strictEqual(encoded('CP932', '—〜−‖¢£¬'), '815C8160817C81618191819281CA');
});

test('EUC-JP is read as Python reads it where both have a character', () => {
    const known = python('euc_jp');
    const encoding = encodingOf('EUC-JP');
    const others = [];
    known.read.forEach((/** @type {string} */ text, /** @type {number} */ code) => {
        const own = encoding.text(Uint8Array.from(code > 255 ? [code >> 8, code & 255] : [code]));
        if (text && own !== text && code > 0x80) others.push(own);
    });
    // Signs of JIS X 0208 with two code points in Unicode: Windows and the web use the full-width ones.
    assert.strictEqual(others.sort().join(''), [...'～∥－￠￡￢'].sort().join(''));
});

test('EUC-JP has row 13 and IBM\'s kanji in two bytes', () => {
    assert.strictEqual(encoded('EUC-JP', 'あA①Ⅱ髙ｱ'), 'A4A2' + '41' + 'ADA1' + 'ADB6' + 'FCE2' + '8EB1');
    assert.strictEqual(encoded('EUC-JP', '〜'), 'A1C1');
});

/**
 * The pairs of bytes that an encoding reads differently from Python, with both results.
 * @param {string} name @param {string} codec @param {[number, number][]} but runs that are not compared
 */
function readOtherwise(name, codec, but) {
    const known = python(codec);
    const own = encodingOf(name);
    const others = known.read.map((text, code) => {
        const read = own.text(Uint8Array.of(code >> 8, code & 0xFF));
        return read.includes('\uFFFD') || [...read].length !== 1 ? ['', text] : [read, text];
    });
    const isCompared = code => code >= 0x8100 && !but.some(([first, last]) => code >= first && code <= last);
    return { others: others.filter(([read, text], code) => isCompared(code) && read !== text && [...text].length < 2), read: others };
}

test('Big5 is read as Python reads CP950, and has the rows of ETEN beside it', () => {
    const found = readOtherwise('Big5', 'cp950', [[0xA3C0, 0xA3E0], [0xC6A1, 0xC8FE], [0xF9FE, 0xF9FE]]);
    assert.deepStrictEqual(found.others, []);
    const more = readOtherwise('Big5', 'big5hkscs', []);
    const kana = Array.from({ length: 0xC7F2 - 0xC6E7 + 1 }, (_, i) => 0xC6E7 + i).filter(code => (code & 0xFF) > 0xA0 || (code & 0xFF) < 0x7F);
    assert.deepStrictEqual(kana.filter(code => more.read[code][0] !== more.read[code][1]), []);
    assert.strictEqual(encoded('Big5', '十卅═兀①あア'), 'A451' + 'A4CA' + 'A2A4' + 'A461' + 'C6A1' + 'C6E8' + 'C77C');
    assert.strictEqual(encodingOf('Big5').text(Uint8Array.of(0x87, 0x40)).includes('\uFFFD'), true);
});

test('GBK is read as Python reads GB 18030, but for characters that only private use had', () => {
    const own = /[\uE000-\uF8FF]/;
    const found = readOtherwise('GBK', 'gb18030', []);
    assert.deepStrictEqual(found.others.filter(([, text]) => !own.test(text)), []);
    assert.strictEqual(found.others.filter(([read, text]) => own.test(text) && read).map(([read]) => read).join(''),
        '\u3000︐︒︑︓︔︕︖︗︘︙ḿ龴龵龶龷龸龹龺龻');
    assert.strictEqual(readOtherwise('GBK', 'gbk', []).others.filter(([read]) => !read).length, 0);
    for (const code of ['AAA1', 'F8A1', 'A140', 'A2AB']) assert.ok(decoded('GBK', code).includes('\uFFFD'), code);
    assert.strictEqual(encoded('GBK', '啊鎔\u3000'), 'B0A1' + 'E667' + 'A1A1');
});

test('EUC-KR is read as Python reads CP949, with all syllables', () => {
    const found = readOtherwise('EUC-KR', 'cp949', []);
    assert.deepStrictEqual(found.others, []);
    assert.strictEqual(encoded('EUC-KR', '가각갂힣€'), 'B0A1' + 'B0A2' + '8141' + 'C652' + 'A2E6');
    const own = allEncoded('EUC-KR');
    assert.deepStrictEqual(CHARACTERS.filter((it, i) => it >= '\uAC00' && it <= '\uD7A3' && !own[i]), []);
});

test('other languages have the characters of the Encoding Standard in each byte and pair of bytes, whatever engine made the table', () => {
    const OTHERS = ENCODINGS_KNOWN.filter(({ label }) => label);
    assert.deepStrictEqual(OTHERS.map(({ name }) => name), ENCODINGS.filter(({ searched, hasCharacters }) => !searched && hasCharacters).map(({ name }) => name));
    for (const { name, sha256 } of OTHERS) {
        const all = [...encodingOf(name).table.spellings].flatMap(([text, spellings]) => spellings.map(bytes => ({ bytes, text })));
        const lines = all.filter(({ bytes }) => bytes[0] >= 0x80).map(({ bytes, text }) => `${hex(bytes)} ${text}\n`).sort();
        assert.strictEqual(createHash('sha256').update(lines.join('')).digest('hex'), sha256, name);
    }
});

test('what stands often in texts of another language is what its standard has first, as frequent as if it had nothing else', () => {
    // The first level of Big5 and GB 2312, and the syllables of KS X 1001. In the last two, trail bytes begin at A1.
    for (const [name, count, least] of [['Big5', 5401, 0], ['GBK', 3755, 0xA1], ['EUC-KR', 2350, 0xA1]]) {
        const { table, usual: { first, last, score } } = encodingOf(name);
        const pairs = [...table.spellings.values()].flat().filter(([, trail]) => trail >= least).map(([lead, trail]) => lead << 8 | trail);
        const codes = pairs.filter(code => code >= first && code <= last);
        assert.deepStrictEqual([codes.length, score], [count, Math.floor(4 * Math.log2(65536 / count))], name);
    }
});

test('other languages are written as iconv writes them', t => {
    for (const { name, codec } of ENCODINGS_KNOWN.filter(({ label }) => label)) {
        const wide = CHARACTERS.filter(it => it >= '\x80');
        const run = spawnSync('iconv', ['-c', '-f', 'UTF-8', '-t', codec], { input: `${wide.join('\n')}\n`, maxBuffer: 1 << 24 });
        if (run.error) return t.skip('no iconv');
        const lines = run.stdout.toString('latin1').split('\n').map(line => hex(Buffer.from(line, 'latin1')));
        const own = allEncoded(name).slice(CHARACTERS.length - wide.length);
        assert.strictEqual(wide.filter((_, i) => own[i] && lines[i] && own[i] !== lines[i]).join(''), '', name);
        assert.ok(wide.filter((_, i) => own[i] && own[i] === lines[i]).length > 0.9 * own.filter(Boolean).length, name);
    }
});

test('each character that an encoding writes, it reads again', () => {
    for (const { name } of ENCODINGS.filter(it => it.name !== 'hex')) {
        const encoding = encodingOf(name);
        const own = allEncoded(name);
        const again = CHARACTERS.filter((it, i) => own[i] && encoding.text(Buffer.from(own[i], 'hex')) !== it);
        assert.strictEqual(again.join(''), ['CP932', 'EUC-JP'].includes(name) ? '¢£¬—‖−〜' : '', name);
    }
    for (const { name } of ENCODINGS.filter(it => it.name.startsWith('UTF'))) {
        assert.strictEqual(allEncoded(name).filter(it => it === '').length, 0, name);
        assert.strictEqual(encodingOf(name).text(encodeText(encodingOf(name), '\uFEFFA😀\n')), '\uFEFFA😀\n');
    }
});

test('every spelling of a part is read as that part', () => {
    for (const encoding of ENCODINGS.filter(({ table }) => table)) {
        for (const it of encoding.table.spellings.keys()) {
            if (/^(CP932|EUC-JP)$/.test(encoding.name) && '¢£¬—‖−〜'.includes(it)) continue;
            for (const bytes of encoding.units(it)[0]) assert.strictEqual(encoding.text(bytes), it);
        }
    }
});

test('a shorter text is filled up with the encoding\'s own space', () => {
    const fills = encoding => fillsOf(encoding).map(({ bytes, name }) => `${hex(bytes)} ${name.replace('-', ' ')}`.trim()).join(', ');
    assert.deepStrictEqual(ENCODINGS.map(it => [it.name, fills(it)]), ENCODINGS_KNOWN.map(it => [it.name, it.fills]));
    assert.deepStrictEqual([spaceIn(table('20=A')), fills(table('20=A')), fills(table('05= '))], [null, '00', '05 space, 00']);
});

test('UTF-8 and UTF-16 are those of the system, line ends and all', () => {
    const text = 'ほげ\r\n上\n😀';
    assert.strictEqual(encoded('utf8', text), hex(Buffer.from(text)));
    assert.strictEqual(encoded('UTF-16LE', text), hex(Buffer.from(text, 'utf16le')));
    assert.strictEqual(encoded('UTF-16BE', text), hex(Buffer.from(text, 'utf16le').swap16()));
});

test('loosely each half-width form is one with its full-width one, from the first to the last, and no others', () => {
    const forms = (text, loose) => unitsAlike(encodingOf('CP932'), text, loose)[0].map(hex);
    for (const [wide, half] of [['。', '｡'], ['「', '｢'], ['ヲ', 'ｦ'], ['ア', 'ｱ'], ['ン', 'ﾝ'], ['ー', 'ｰ'], ['！', '!'], ['～', '~'], ['Ａ', 'A'], ['\u3000', ' ']]) {
        assert.ok(forms(wide, true).includes(encoded('CP932', half)), wide);
        assert.ok(forms(half, true).includes(encoded('CP932', wide)), half);
        assert.ok(!forms(wide, false).includes(encoded('CP932', half)), wide);
    }
    const inUnicode = text => unitsAlike(encodingOf('UTF-8'), text, true)[0].map(bytes => Buffer.from(bytes).toString());
    for (let code = 0xFF01; code <= 0xFF9F; code += code === 0xFF5E ? 3 : 1) {
        const both = [String.fromCharCode(code), String.fromCharCode(code).normalize('NFKC')];
        for (const text of both) assert.deepStrictEqual(both.filter(it => !inUnicode(text).includes(it)), [], text);
    }
    assert.deepStrictEqual([forms('ガ', true), forms('ガ', false)].map(it => it.includes('B6DE')), [true, false]);
    assert.deepStrictEqual(forms('Ａ', true).sort(), ['41', '61', '8260', '8281']);
});

test('composed and apart are one text, so are a yen sign and a backslash, and loosely a table has its characters in either case', () => {
    const spelled = (encoding, text, loose) => unitsAlike(encoding, text, loose).map(part => part.map(hex).sort().join(' '));
    for (const [text, other] of [['パ', 'ハ\u309A'], ['한', '한'.normalize('NFD')], ['¥', '\\']]) {
        const both = [text, other].map(it => encoded('utf8', it)).sort().join(' ');
        for (const it of [text, other]) assert.deepStrictEqual(spelled(encodingOf('UTF-8'), it), [both], it);
    }
    for (const text of ['パソ', 'ハ\u309Aソ']) assert.deepStrictEqual(spelled(encodingOf('CP932'), text), ['8370', '835C']);
    for (const text of ['¥1', '\\1']) assert.deepStrictEqual(spelled(encodingOf('CP932'), text), ['5C', '31']);
    const own = table('01=A\n02=b\n03=the\n04=a\n05060708=パ\n');
    assert.deepStrictEqual([spelled(own, 'Abthe', true), spelled(own, 'ﾊﾟ', true)], [['01 04', '02', '03'], ['05060708']]);
    for (const space of [' ', '\u3000']) assert.deepStrictEqual(spelled(encodingOf('hex'), `ab${space}cd`, true), ['AB', 'CD']);
});

/** The error for a character that an encoding lacks, with its place in whole characters, from 1, and in the string. */
const lacking = (name, character, place, at) => ({ code: 'text/no-character', facts: { name, character, place, at } });

test('hex is read in any case and with spaces, and written in capitals', () => {
    assert.strictEqual(encoded('HEX', '0a ff\n B0'), '0AFFB0');
    assert.strictEqual(decoded('hex', '0aff'), '0AFF');
    assert.throws(() => encoded('hex', '0A F 0'), { code: 'text/half-byte', facts: { place: 4 } });
    assert.throws(() => encoded('hex', '0A zz'), lacking('hex', 'z', 4, 3));
});

test('a character without bytes is named, with its place', () => {
    assert.throws(() => encoded('CP932', '上😀下é'), lacking('CP932', '😀', 2, 1));
    assert.throws(() => encoded('sjis', '😎'), lacking('CP932', '😎', 1, 0));
    assert.throws(() => encoded('EUC-JP', '髙\n\u00A0'), lacking('EUC-JP', '\u00A0', 3, 2));
    for (const name of ['UTF-8', 'UTF-16LE', 'UTF-16BE']) assert.throws(() => encoded(name, '😀x\uD800'), lacking(name, '\uD800', 3, 3));
});

test('encodings are known by their usual names, and no others', () => {
    for (const encoding of ENCODINGS) {
        for (const name of [encoding.name, ...encoding.aliases]) assert.strictEqual(encodingOf(name.toLowerCase()), encoding);
    }
    for (const { name, aliases = [] } of ENCODINGS_KNOWN) {
        for (const alias of aliases) assert.strictEqual(encodingOf(alias).name, name);
    }
    for (const name of ['', 'latin1', 'constructor', 'UTF-16']) assert.strictEqual(encodingOf(name), null);
});

test('bytes that are no character do not hide the next one', () => {
    assert.strictEqual(decoded('CP932', '41FF8142'), 'A\uFFFD。');
    assert.strictEqual(decoded('CP932', '81'), '\uFFFD');
    assert.strictEqual(decoded('CP932', '8120'), '\uFFFD ');
});

test('a table takes the longest match, both ways', () => {
    const own = table('\uFEFF01=a\r\n0102=ab\n03=abc\n04==\n05= \n/00=<end>\n*FE\n; a comment\n\n06=漢\n07=a');
    assert.strictEqual(hex(encodeText(own, 'abcaba= 漢\n<end>')), '03' + '0102' + '01' + '04' + '05' + '06' + 'FE' + '00');
    assert.strictEqual(own.text(Uint8Array.of(1, 2, 1, 3, 0x55, 0xFE, 0, 7)), 'abaabc\uFFFD\n<end>a');
    assert.deepStrictEqual(own.units('a').map(unit => unit.map(hex)), [['01', '07']]);
    const long = table('08=a\n0809=b\n08090A=c\n0B=d\n');
    for (const [bytes, text] of [[[8, 9, 0xB], 'bd'], [[8, 9, 0xA], 'c'], [[8, 9], 'b'], [[8], 'a'], [[8, 0xB], 'ad'], [[8, 9, 0xA, 8, 9], 'cb'], [[9, 8, 9], '\uFFFDb']]) {
        for (let again = 0; again < 2; again++) assert.strictEqual(long.text(Uint8Array.from(bytes)), text);
    }
    assert.throws(() => encodeText(own, 'abd'), lacking('the table', 'd', 3, 2));
});

test('a table that can\'t be read names its line', () => {
    assert.throws(() => table('01=a\nxx=b'), { code: 'text/no-pair', facts: { line: 2 } });
    assert.throws(() => table('01=a\n123=b'), { code: 'text/no-pair', facts: { line: 2 } });
    assert.throws(() => table('01=a\n02=b\n01=c'), { code: 'text/twice', facts: { line: 3, digits: '01' } });
});

test('tables of other tools are read, and the lines that mean nothing here are numbered', () => {
    const own = table('@JP\n//a comment\n   \n01=a\n!FD=KANJI,1\n$FE=[WAIT],1\n$FB=[END]\n(0h)start\n[0h-100h]Script\nFE=\n$F0=[X],%D\n/FF\n*FC\n$F101=[C],2\n');
    assert.deepStrictEqual(own.leftOut, [1, 5, 8, 9, 10, 11]);
    assert.deepStrictEqual(linesLeftOut(own), { code: 'text/lines-left-out', facts: { lines: [1, 5, 8, 9, 10, 11] } });
    assert.strictEqual(linesLeftOut(table('01=a')), null);
    assert.strictEqual(own.end, 0xFF);
    for (const [bytes, cell] of [['01FE0101', 'a[WAIT]{01}a'], ['FE', '[WAIT]'], ['F10101FB01', '[C]{01FB}a'], ['F101FE', '[C]{FE}'], ['FBFCFF', '[END]{FC}{FF}']]) {
        assert.strictEqual(cellOf(own, Buffer.from(bytes, 'hex')), cell);
        assert.strictEqual(hex(usualBytes(unitsOfCell(own, cell))), bytes);
    }
    assert.throws(() => table('$FE=a,9'), { code: 'text/many-parameters', facts: { line: 1, most: 8 } });
    assert.throws(() => table('[\n{"a": 1}\n]'), ({ code }) => ['text/no-pair', 'text/empty-table'].includes(code));
    assert.throws(() => table('@JP\n!FD=KANJI,1'), { code: 'text/empty-table' });
});

test('files of a person are UTF-8, or else CP932', () => {
    assert.strictEqual(textOfFile(Buffer.from('\uFEFF漢字')), '漢字');
    assert.strictEqual(textOfFile(encodeText(encodingOf('CP932'), '漢字')), '漢字');
});
