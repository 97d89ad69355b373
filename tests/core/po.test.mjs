// PO files: what the tools of gettext and translators' editors write, lists of several translators, and checks without an image.

import assert from 'node:assert/strict';
import { test } from 'node:test';
import { calls, core, diceOf, encoded, readerOf } from './common.mjs';
import { localPool } from './pools.mjs';
import { listedRows } from './lists.mjs';
import { TEXT, openedDisc } from './opened.mjs';

const { entriesOfPo, isPo, PoFile } = await core('texts/po.js');
const { Glyphs } = await core('texts/codes.js');
const { rowsOfLists } = await core('tasks/list_rows.js');
const { checkLists, exportTable, importIntoFile, importTable, newTextsOf, openPlainFile } = await core('tasks/index.js');
const { encodeText } = await core('encodings/encoding.js');
const { SEARCHED, encodingOf } = await core('encodings/encodings.js');

const CP932 = encodingOf('CP932');
const engine = { calls, pool: localPool() };
const entries = list => [...entriesOfPo(list)].filter(it => it !== null);
const fileOf = (text, name = 'a.po') => ({ name, reader: readerOf(encoded(text)) });

const collected = async items => {
    const all = [];
    for await (const it of items) all.push(it);
    return all;
};

/** The header as msginit writes it. */
const header = (charset = 'UTF-8') => `# English translations for PACKAGE package.\n#\nmsgid ""\nmsgstr ""\n"Project-Id-Version: PACKAGE VERSION\\n"\n` +
    `"Content-Type: text/plain; charset=${charset}\\n"\n"Plural-Forms: nplurals=2; plural=(n != 1);\\n"\n`;

/** What is read of each list: for each entry its line, text, translation, `fuzzy` or `plural` or nothing, and its references. */
const READ = {
    'a text in several lines, as xgettext writes it': ['msgid ""\n"Here is an example of how one might continue a very long string\\n"\n"for the common case.\\n"\nmsgstr "x"\n',
        [1, 'Here is an example of how one might continue a very long string\nfor the common case.\n', 'x', '']],
    'all escapes': ['msgid "\\a\\b\\f\\n\\r\\t\\v\\\\\\"\\101\\x41\\0"\nmsgstr "\\\\n\\\\"\n', [1, '\x07\b\f\n\r\t\v\\"AA\0', '\\n\\', '']],
    'Windows line ends, a byte order mark, and no line end at the end': ['\uFEFFmsgid "a"\r\nmsgstr "b"\r\n\r\nmsgid "c"\r\nmsgstr "d"', [1, 'a', 'b', ''], [4, 'c', 'd', '']],
    'comments of all kinds': ['# by hand\n#\n#  another\n#. extracted\n#: a.c:10 /B+4 28+26\n#: 29+0\n#, c-format, max-length:9\n#| msgctxt "old"\n#| msgid "old"\nmsgid "a"\nmsgstr "b"\n',
        [10, 'a', 'b', '', 'a.c:10', '/B+4', '28+26', '29+0']],
    'flags': ['#, fuzzy\nmsgid "a"\nmsgstr "b"\n\n#, c-format, fuzzy, no-wrap\nmsgid "c"\nmsgstr "d"\n#,fuzzy\nmsgid "e"\nmsgstr "f"\n\n#, no-fuzzy\nmsgid "g"\nmsgstr "h"\n' +
        '# fuzzy\nmsgid "i"\nmsgstr "j"\n', [2, 'a', 'b', 'fuzzy'], [6, 'c', 'd', 'fuzzy'], [9, 'e', 'f', 'fuzzy'], [13, 'g', 'h', ''], [16, 'i', 'j', '']],
    'entries without empty lines between them': ['msgid "a"\nmsgstr "b"\nmsgid "c"\nmsgstr "d"\nmsgctxt "x"\nmsgid "c"\nmsgstr "e"\n', [1, 'a', 'b', ''], [3, 'c', 'd', ''], [6, 'c', 'e', '']],
    'obsolete entries, and their flags and comments': ['msgid "a"\nmsgstr "b"\n\n#. room 1 byte, CP932\n#: 1+1\n#, fuzzy\n#~| msgid "older"\n#~ msgid "old"\n#~ msgstr "x"\n\n' +
        'msgid "c"\nmsgstr "d"\n\n#~ msgid "z"\n#~ msgstr "y"\n', [1, 'a', 'b', ''], [11, 'c', 'd', '']],
    'plural forms': ['msgid "%d file"\nmsgid_plural "%d files"\nmsgstr[0] "a"\nmsgstr[1] "b"\n"c"\n\nmsgid "a"\nmsgstr "b"\n', [1, '%d file', 'abc', 'plural'], [7, 'a', 'b', '']],
    'domains': ['domain "one"\nmsgid "a"\nmsgstr "b"\ndomain "two"\nmsgid "c"\nmsgstr "d"\n', [2, 'a', 'b', ''], [5, 'c', 'd', '']],
    'the header': [`${header()}\nmsgid "a"\nmsgstr "b"\n`, [9, 'a', 'b', '']],
    'an empty text with a context': ['msgctxt "c"\nmsgid ""\nmsgstr "b"\n', [2, '', 'b', '']],
    'references with spaces, between isolates': ['#: \u2068/MY FILE.DAT+44\u2069 28+26\n#: \u206829+7\u2069\nmsgid "a"\nmsgstr "b"\n', [3, 'a', 'b', '', '/MY', 'FILE.DAT+44', '28+26', '29+7']],
    'strings next to one another, and spaces and tabs around them': [' msgid\t"a" "b"""\t"c"  \n\t"d"\nmsgstr"x"\n', [1, 'abcd', 'x', '']],
    'bytes of UTF-8, as msgcat --escape writes them': ['msgid "\\343\\201\\202b\\xE3\\x81\\x84"\nmsgstr "\\303\\2511"\n', [1, 'あbい', 'é1', '']],
    'quotes and backslashes at the end of a string': ['msgid "a\\\\"\nmsgstr "\\"" "\\\\\\""\n', [1, 'a\\', '"\\"', '']],
    'an entry without a translation': ['msgid "a"\nmsgstr ""\n""\n', [1, 'a', '', '']],
    'comments at the end': ['msgid "a"\nmsgstr "b"\n\n# that is all\n#: 1+1\n', [1, 'a', 'b', '']],
};

test('entries are read as the tools of gettext write them', () => {
    for (const [what, [list, ...wanted]] of Object.entries(READ)) {
        const found = entries(list).map(({ line, text, fresh, isFuzzy, isPlural, places }) =>
            [line, text, fresh, isFuzzy ? 'fuzzy' : isPlural ? 'plural' : '', ...places]);
        assert.deepEqual(found, wanted, what);
        assert.equal(isPo(list.replace('\uFEFF', '')), true, what);
    }
});

/** Lists that are not PO files as they should be, each with the failure. */
const REFUSED = {
    'a string without an end': ['msgid "a\nmsgstr "b"\n', 'po/line', { line: 1 }],
    'a string whose last quote is escaped': ['msgid "a\\"\nmsgstr "b"\n', 'po/line', { line: 1 }],
    'a string before any keyword': ['# a\n"a"\nmsgid "a"\n', 'po/line', { line: 2 }],
    'an unknown keyword': ['msgid "a"\nmsgstring "b"\n', 'po/line', { line: 2 }],
    'text after a string': ['msgid "a" b\nmsgstr "b"\n', 'po/line', { line: 1 }],
    'the marks of a conflict of git': ['msgid "a"\n<<<<<<< HEAD\nmsgstr "b"\n=======\nmsgstr "c"\n>>>>>>> other\n', 'po/line', { line: 2 }],
    'an escape of another language': ['msgid "a"\nmsgstr "b\\d"\n', 'po/escape', { line: 2 }],
    'an escape that is a byte of an unknown character': ['msgid "a"\nmsgstr "\\350"\n', 'po/escape', { line: 2 }],
    'two translations, as merge=union of git leaves them': ['msgid "a"\nmsgstr "b"\nmsgstr "c"\n', 'po/entry', { line: 3 }],
    'a text without a translation': ['msgid "a"\nmsgid "b"\nmsgstr "c"\n', 'po/entry', { line: 2 }],
    'a translation without a text': ['msgstr "c"\n', 'po/entry', { line: 1 }],
    'an end in an entry': ['msgid "a"\nmsgstr "b"\n\nmsgid "c"\n', 'po/entry', { line: 4 }],
    'another character set': [`${header('ISO-8859-15')}\nmsgid "a"\nmsgstr "b"\n`, 'po/charset', { name: 'ISO-8859-15' }],
};

test('lists that are not as PO files should be are refused by their lines', () => {
    for (const [what, [list, code, facts]] of Object.entries(REFUSED)) assert.throws(() => entries(list), { code, facts }, what);
    for (const charset of ['utf-8', 'ASCII', 'CHARSET', 'Shift_JIS']) assert.equal(entries(header(charset)).length, 0);
});

test('a list is a PO file by its first line that is not a comment', () => {
    for (const list of ['msgid ""\n', '#, fuzzy\n\n\nmsgctxt "a"\n', 'domain "a"\n', 'msgstr[0] ""']) assert.equal(isPo(list), true, list);
    for (const list of ['', '#\n', 'block\toffset\ttext\tnew\n', '# a list\nblock,offset,text,new\n', 'msgids\n', '"msgid"\n', '#\n'.repeat(10000) + 'msgid ""\n']) {
        assert.equal(isPo(list), false, list.slice(0, 40));
    }
});

/** An entry with these lines before its text. */
const entry = (before, text = 'a', fresh = 'b') => `${before.map(line => `#${line}\n`).join('')}msgid "${text}"\nmsgstr "${fresh}"\n`;

test('the places of an entry are rows, with the smallest room of their encoding', async () => {
    const cases = [
        [['. room 9 bytes, CP932', ': /A+4 28+26', ': /B+0 3+0 4+1'], ['28+26', 9, 'CP932'], ['3+0', 9, 'CP932'], ['4+1', 9, 'CP932']],
        [['. room 9 bytes, CP932', '. room 20 bytes, UTF-16LE', ': 1+0:UTF-16LE 2+0:CP932'], ['1+0', 20, 'UTF-16LE'], ['2+0', 9, 'CP932']],
        // msgcat joins the comments of entries with the same text.
        [['. room 9 bytes, CP932', '. room 5 bytes, CP932', '. room 7 bytes, CP932', ': 1+0', ': 2+0'], ['1+0', 5, 'CP932'], ['2+0', 5, 'CP932']],
        [['. room 5 bytes, CP932', '. room 9 bytes, EUC-JP', ': 1+0', ': 2+0:EUC-JP'], ['1+0', -1, ''], ['2+0', 9, 'EUC-JP']],
        [['. room 1 byte, EUC-JP, fill 20', ': -+5000'], ['-+5000', 1, 'EUC-JP']],
        [['. a room 9 bytes', ': 1+0'], ['1+0', -1, '']],
    ];
    for (const [before, ...wanted] of cases) {
        const rows = await listedRows(entry(before));
        assert.deepEqual(rows.map(({ place, room, encoding }) => [place, room, encoding]), wanted, before.join());
        for (const { block, offset, place, isInFile } of rows) assert.equal(isInFile ? `-+${offset}` : `${block}+${offset}`, place);
    }
    const [row] = await listedRows(entry([': 28+26']));
    assert.deepEqual(row, { list: '', unit: 'line', number: 2, place: '28+26', block: 28, offset: 26, room: -1, encoding: '', fill: '', text: 'a', fresh: 'b',
        fault: null, isFuzzy: false, isInFile: false });
});

test('entries that cannot be applied are named, and fuzzy ones counted', async () => {
    const list = `${header()}\n${[entry([': 1+0']), entry([': 2+0', ', fuzzy']), entry([', fuzzy'], 'c', ''), entry([': a.c:5'], 'd'), entry([': 3+0'], 'e', ''),
        entry([': 4+0']).replace('msgstr "b"', 'msgid_plural "as"\nmsgstr[0] "b"\nmsgstr[1] "c"')].join('\n')}`;
    const { rows, fuzzy } = await rowsOfLists([fileOf(list)]);
    assert.deepEqual(rows.map(({ number, fresh, fault }) => [number, fresh, fault && fault.code]),
        [[10, 'b', null], [23, 'b', 'po/no-place'], [31, 'bc', 'po/plural']]);
    assert.equal(fuzzy, 1);
    await assert.rejects(rowsOfLists([fileOf(`${header()}\n${entry([': 1+0'], 'a', '')}`)]), { code: 'list/no-new-text' });
});

const placed = (block, offset, text, fresh = '', more = {}) =>
    ({ block, offset, room: 9, encoding: 'CP932', file: `/A.DAT+${offset}`, text, fresh, fill: '', ...more });

function written(texts) {
    const file = new PoFile();
    texts.forEach(it => file.add(it));
    return [...file.pieces()].join('');
}

/** The lines of an entry for some places, without the header. */
const linesOf = texts => written(texts).split('\n\n').slice(1).map(it => it.trimEnd().split('\n'));

test('a text is an entry with all its places, and the smallest room of each encoding', () => {
    const all = linesOf([placed(28, 26, 'a'), placed(30, 0, 'b{00}', '', { room: 1, fill: '20' }), placed(29, 7, 'a', '', { file: '/MY DIR/A.DAT+7', room: 5 }), placed(31, 0, 'a', '', { file: '-' })]);
    assert.deepEqual(all, [['#. room 5 bytes, CP932', '#: /A.DAT+26 28+26', '#: /MY%20DIR/A.DAT+7 29+7', '#: 31+0', '#, max-length:5', 'msgid "a"', 'msgstr ""'],
        ['#. room 1 byte, CP932, fill 20', '#: /A.DAT+0 30+0', 'msgid "b{00}"', 'msgstr ""']]);
    const mixed = linesOf([placed(1, 0, 'a', '', { room: 7 }), placed(2, 0, 'a', '', { room: 12, encoding: 'UTF-16LE' }), placed(3, 0, 'a', '', { room: 6 })]);
    assert.deepEqual(mixed, [['#. room 6 bytes, CP932', '#. room 12 bytes, UTF-16LE', '#: /A.DAT+0 1+0:CP932', '#: /A.DAT+0 2+0:UTF-16LE', '#: /A.DAT+0 3+0:CP932', 'msgid "a"', 'msgstr ""']]);
    for (const [encoding, isCounted] of [['CP932', true], ['UTF-8', true], ['UTF-16BE', false], ['game.tbl', false]]) {
        assert.equal(linesOf([placed(1, 0, 'a', '', { encoding })])[0].includes('#, max-length:9'), isCounted, encoding);
    }
});

test('the most frequent of several new texts has no context, and the places without one', () => {
    const all = linesOf([placed(1, 0, 'a', 'x'), placed(2, 0, 'a', 'y'), placed(3, 0, 'a'), placed(4, 0, 'a', 'y'), placed(5, 0, 'b', 'x')]);
    const short = all.map(lines => lines.flatMap(line => /^#:|^msg/.test(line) ? [line.replace(/^#: \S+ /, '')] : []));
    assert.deepEqual(short, [['2+0', '3+0', '4+0', 'msgid "a"', 'msgstr "y"'], ['1+0', 'msgctxt "1+0"', 'msgid "a"', 'msgstr "x"'], ['5+0', 'msgid "b"', 'msgstr "x"']]);
});

test('the file of a place is not taken for a place', async () => {
    const rows = await listedRows(written([placed('-', 100, 'a', 'b', { file: '0001+100' }), placed(7, 5, 'c', 'd', { file: '/3+5' })]));
    assert.deepEqual(rows.map(({ place }) => place), ['-+100', '7+5']);
});

test('what is written is read again', async () => {
    const dice = diceOf(5);
    const signs = ['a', '"', '\\', '\n', '\t', '\r', 'あ', '{00}', ' ', '#', '\\n', '\u2028', '\u00A0', '𠮷', 'msgid "'];
    const some = () => Array.from({ length: 1 + dice(6) }, () => signs[dice(signs.length)]).join('');
    const texts = Array.from({ length: 3000 }, (_, i) => placed(i, dice(2048), some(), dice(3) === 0 ? '' : some(),
        { room: dice(99), encoding: ['CP932', 'UTF-16LE', 'my table'][dice(40) === 0 ? 1 + dice(2) : 0] }));
    const rows = await listedRows(written(texts), () => true);
    const byPlace = new Map(rows.map(row => [row.place, row]));
    assert.equal(byPlace.size, texts.length);
    for (const { block, offset, text, fresh, room } of texts) {
        const row = byPlace.get(`${block}+${offset}`);
        assert.deepEqual([row.text, fresh === '' || row.fresh === fresh, row.room <= room], [text, true, true]);
    }
});

test('characters that only new texts have are named once', () => {
    const glyphs = new Glyphs();
    for (const [text, fresh] of [['あ{0A}B', 'é B{0041}\u0301x'], ['x', 'éü'], ['x', 'éü'], ['い', '{zz}\n\u3000い']]) glyphs.add({ text, fresh });
    assert.deepEqual(glyphs.missing(), ['é', 'ü', '{', 'z', '}']);
});

const HEAD = 'block\toffset\ttext\tnew\troom\tencoding\n';

test('lists without an image are checked as far as they tell what they need', async () => {
    const checked = (lists, options = {}) => checkLists({ lists: lists.map((it, i) => fileOf(it, `${i}`)), encodings: SEARCHED, isAsked: false, ...options });
    const short = async (...given) => {
        const { count, left, untested } = await checked(...given);
        return [count, untested, ...left.map(({ text: { list, number, place }, why: { code, facts } }) =>
            [[list, number, place].filter(it => it !== '').join(' '), code, ...code === 'list/overlaps' ? [facts.row.number] : []])];
    };
    const po = entry(['. room 3 bytes, CP932', ': 1+0 1+9'], 'あb', 'abc');
    assert.deepEqual(await short([po]), [2, 0]);
    assert.deepEqual(await short([po.replace('"abc"', '"abcd"')]), [2, 0, ['3 1+0', 'replace/no-room'], ['3 1+9', 'replace/no-room']]);
    assert.deepEqual(await short([po.replace('"abc"', '"é"')]), [2, 0, ['3 1+0', 'text/no-character'], ['3 1+9', 'text/no-character']]);
    assert.deepEqual(await short([po.replace(', CP932', '')]), [2, 2]);
    assert.deepEqual(await short([po.replace(', CP932', '')], { encodings: [CP932], isAsked: true }), [2, 0]);
    assert.deepEqual(await short([po.replace(/#\..*\n/, '')], { encodings: [CP932], isAsked: true }), [2, 2]);
    assert.deepEqual(await short([po.replace('1+9', '1+2')]), [2, 0, ['3 1+2', 'list/overlaps', 3]]);
    assert.deepEqual(await short([po.replace('1+9', '1+3')]), [2, 0]);
    const table = `${HEAD}1\t0\tあb\tabc\t3\tCP932\n1\t20\tあb\tab\t1\tCP932\n1\t30\tあb\tab\t\t\n\t\tx\ty\t1\tCP932\n1\t40\ta\t{O1}\t9\tCP932\n`;
    assert.deepEqual(await short([table]), [5, 1, ['3', 'replace/no-room'], ['5', 'list/no-place'], ['6', 'list/no-code']]);
    const row = table.split('\n').slice(0, 2).join('\n');
    assert.deepEqual(await short([row, po.replace('"abc"', '"ab"')]), [3, 0, ['1 3 1+0', 'list/overlaps', 2]]);
    assert.deepEqual(await short([row, po]), [2, 0]);
    assert.deepEqual(await short([`${HEAD}1\t0\tabcd\tx\t2\tCP932\n1\t2\tb\tx\t1\tCP932\n`]), [2, 0]);
    const { codes, fuzzy, glyphs } = await checked([entry(['. room 9 bytes, CP932', ': 1+0'], '{0A}a', 'b') + entry([', fuzzy'])]);
    assert.deepEqual([codes.map(({ code }) => code), fuzzy, glyphs], [['0A'], 1, ['b']]);
    const typed = await checked([entry(['. room 9 bytes, CP932', ': 1+0'], 'a', 'a\\na')]);
    assert.deepEqual(typed.glyphs, ['{0A}']);
});

test('of several lists the one that cannot be read is named', async () => {
    const bad = fileOf('msgid "a\n', 'bad.po');
    await assert.rejects(rowsOfLists([bad]), { code: 'po/line', facts: { line: 1 } });
    await assert.rejects(rowsOfLists([fileOf(entry([': 1+0'])), bad]), { code: 'list/invalid', facts: { list: 'bad.po', why: { code: 'po/line', facts: { line: 1 } } } });
    await assert.rejects(rowsOfLists([fileOf(entry([': 1+0'])), fileOf('a\tb\n', 'bad')]), { code: 'list/invalid' });
});

test('texts of many places are refused by the number of characters of all places', async () => {
    const places = Array.from({ length: 5000 }, (_, i) => `: ${i}+0`);
    const list = entry(places, 'a'.repeat(60000));
    await assert.rejects(rowsOfLists([fileOf(list)]), { code: 'list/too-many-characters', facts: { most: 1 << 28 } });
    assert.equal((await rowsOfLists([fileOf(entry(places, 'a'.repeat(6000)))])).rows.length, 5000);
});

/** A plain file with these texts at these places. */
function plainFile(size, name, ...texts) {
    const bytes = new Uint8Array(size);
    for (const [at, text, encoding = 'CP932'] of texts) bytes.set(encodeText(encodingOf(encoding), text), at);
    return openPlainFile({ name, reader: readerOf(bytes) });
}

const exported = async (opened, options) => (await collected(exportTable(engine, opened, options))).map(({ text }) => text).join('');

test('the new texts of a list are exported again, in each form, and those that belong to no text are counted', async () => {
    const [old, other] = ['はじめから', 'おわりです'];
    const file = plainFile(4000, '12', [100, old], [2040, old], [3000, other]);
    const list = `block\toffset\ttext\tnew\n-\t100\t${old}\t"Start\t""now"""\n-\t3000\t${other}\t"The End"\n-\t3900\t${other}\tx\n0\t2040\t${old}\tx\n`;
    for (const form of ['tsv', 'csv', 'po']) {
        const { news } = await newTextsOf([fileOf(list)]);
        const again = await exported(file, { form, freshOf: it => news.of(it) });
        assert.equal(news.unused.size, 2);
        const { rows } = await rowsOfLists([fileOf(again)]);
        // In a PO file the other place of a text has the new text too.
        assert.deepEqual(rows.map(({ offset, fresh }) => [offset, fresh]),
            [[100, 'Start\t"now"'], ...form === 'po' ? [[2040, 'Start\t"now"']] : [], [3000, '"The End"']], form);
    }
    // In tables of version 1.3, a first character is not a code.
    const formula = plainFile(4000, '12', [100, `=${old}`]);
    const { news: earlier } = await newTextsOf([fileOf(`block\toffset\ttext\tnew\n-\t100\t=${old}\tx\n`)]);
    assert.match(await exported(formula, { freshOf: it => earlier.of(it) }), /\{3D\}[^\t]*\tx\n$/);
    const plural = entry([': -+100'], old).replace('msgstr "b"', 'msgid_plural "x"\nmsgstr[0] "b"\nmsgstr[1] "c"');
    const { news } = await newTextsOf([fileOf(plural)]);
    assert.equal((await exported(file, { freshOf: it => news.of(it) })).includes('bc'), false);
    assert.equal(news.unused.size, 1);
});

test('an entry changes all its places, each in its encoding, and no byte after an old text', async () => {
    const wide = '勇者は長い旅の果てに城へ着いた';
    const file = plainFile(4000, 'a.bin', [100, wide], [1000, wide, 'UTF-16LE'], [2000, wide]);
    const po = (await exported(file, { form: 'po' })).replace(/(msgid "勇.*\n)msgstr ""/, '$1msgstr "The end"');
    const made = await importIntoFile(file, { lists: [fileOf(po)], encodings: SEARCHED, isAsked: false, partial: false });
    assert.deepEqual([made.left, made.changes.map(({ at, bytes }) => [at, new TextDecoder(at === 1000 ? 'utf-16le' : 'latin1').decode(bytes)])],
        [[], [[100, 'The end'.padEnd(30)], [1000, 'The end'.padEnd(15)], [2000, 'The end'.padEnd(30)]]]);
    // The same text may have fewer bytes at another place, as in a game's own table.
    const entryOf = room => entry([`. room ${room} bytes, CP932`, ': -+100'], wide, 'The');
    const small = await importIntoFile(file, { lists: [fileOf(entryOf(4))], encodings: SEARCHED, isAsked: false, partial: false });
    assert.deepEqual(small.changes.map(({ bytes }) => bytes.length), [30]);
});

test('a row of a record is padded by its fill, also if another list repeats it without one', async () => {
    const file = plainFile(100, 'a.bin', [10, 'Chimera wings']);
    const [plain, padded, other] = [['23', ''], ['16', '{00}'], ['16', '{FF}']].map(([room, fill], i) => fileOf(
        `block\toffset\troom\tfill\ttext\tnew\n-\t10\t${room}\t${fill}\tChimera wings\tWings\n`, `${i}.tsv`));
    const made = async (...lists) => importIntoFile(file, { lists, encodings: SEARCHED, isAsked: false, partial: true });
    for (const lists of [[plain, padded], [padded, plain]]) {
        const { changes, left } = await made(...lists);
        assert.deepEqual([left, changes.map(({ at, bytes }) => [at, new TextDecoder().decode(bytes)])], [[], [[10, 'Wings'.padEnd(13, '\0')]]]);
    }
    assert.deepEqual((await made(padded, other)).left.map(({ text, why }) => [text.list, why.code]), [['2.tsv', 'list/overlaps']]);
    const { news } = await newTextsOf([padded]);
    const again = [{ block: '-', offset: 10, text: 'Chimera wings' }, { block: '-', offset: 10, text: 'Chimera wings', fill: '{00}' }];
    assert.deepEqual([...again.map(it => news.of(it)), news.records, news.unused.size], ['', 'Wings', 1, 0]);
});

test('several lists are one script, and overlaps name both rows', async () => {
    const { opened } = await openedDisc();
    const lists = [fileOf(`block\toffset\ttext\tnew\n36\t100\t${TEXT}\tPRESS\n`, 'a.tsv'), fileOf(entry([': /BIG+4091 31+2043'], TEXT, 'enter'), 'b.po'),
        fileOf(entry([': 36+105'], ' start', 'x'), 'c.po')];
    const options = { encodings: SEARCHED, isAsked: false, partial: true };
    const { left, count } = await importTable(engine, opened, { lists, ...options });
    const rowOf = ({ list, unit, number, place }) => [list, unit, number, place];
    assert.deepEqual([count, left.map(({ text, why }) => [...rowOf(text), why.code, ...rowOf(why.facts.row)])],
        [3, [['c.po', 'line', 2, '36+105', 'list/overlaps', 'a.tsv', 'row', 2, '']]]);
});
