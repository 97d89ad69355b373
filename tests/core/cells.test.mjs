// Tables as spreadsheets save them, and the texts in their cells.

import assert from 'node:assert/strict';
import { test } from 'node:test';
import { calls, core, readerOf, tableOf } from './common.mjs';
import { listedRows, replacedRows } from './lists.mjs';

const { MARKS, Table, rowText, longTextOf } = await core('texts/cells.js');
const { assertMeant, cellOf, codesLeftOut, controlsTyped, shownCell, unitsOfCell } = await core('texts/codes.js');
const { fillingAfter, withEnd } = await core('encodings/encoding.js');
const { encodingOf, textOfFile } = await core('encodings/encodings.js');

const rowsOf = (text, mark = MARKS.find(it => text.includes(it)) ?? '\t') => [...new Table(text, mark).rows()];
const cells = (text, mark) => rowsOf(text, mark).map(row => row.cells);
const numbered = text => rowsOf(text).flatMap(row => row.cells.length === 0 ? [] : [[row.number, ...row.cells]]);
const hex = bytes => Buffer.from(bytes).toString('hex').toUpperCase();
const bytesOf = (name, cell) => unitsOfCell(encodingOf(name), cell).map(([usual]) => hex(usual)).join('');

test('tables with tabs, commas and semicolons have the same cells', () => {
    const wanted = [['block', 'text', 'new'], ['1', 'a b', ''], ['2', '"', 'x']];
    assert.deepEqual(cells('block\ttext\tnew\n1\ta b\t\n2\t"\tx\n'), wanted);
    assert.deepEqual(cells('block,text,new\r\n1,a b,\r\n2,"""",x\r\n'), wanted);
    assert.deepEqual(cells('block;text;new\n1;"a b";\n"2";"""";x'), wanted);
    assert.deepEqual(cells(''), []);
});

test('a cell in quotes may have line ends, what stands between cells, and quotes', () => {
    assert.deepEqual(cells('a,b\n"x\r\ny, ""z""",2\n'), [['a', 'b'], ['x\r\ny, "z"', '2']]);
    assert.deepEqual(cells('a,b\n"x" y,"""\n"q"",1\n'), [['a', 'b'], ['"x" y', '"""'], ['"q""', '1']]);
    assert.deepEqual(rowsOf('a,b\n"1\n2",3\n4,5\n').map(row => row.number), [1, 2, 3]);
});

test('between tabs, quotes that are not needed are kept, unless the cells of the first row are all in quotes', async () => {
    assert.deepEqual(cells('a\tb\n"A herb!"\t"x ""y"" z"\n""\t"1\n2"\n'), [['a', 'b'], ['"A herb!"', 'x "y" z'], ['""', '1\n2']]);
    const plain = 'block\toffset\ttext\tnew\n1\t2\tx\t"A herb!"\n';
    const texts = async list => (await listedRows(list)).map(({ text, fresh }) => [text, fresh]);
    assert.deepEqual(await texts(plain), [['x', '"A herb!"']]);
    assert.deepEqual(await texts('"block"\t"offset"\t"text"\t"new"\n"1"\t"2"\t"x"\t"A herb!"\n'), [['x', 'A herb!']]);
    assert.deepEqual(await texts('"block"\toffset\ttext\tnew\n1\t2\tx\t"A herb!"\n'), [['x', '"A herb!"']]);
    assert.deepEqual(await texts('block,offset,text,new\n1,2,x,"A herb!"\n'), [['x', 'A herb!']]);
});

/** The fault of a row with a cell that continues in another row. */
const runsOn = row => ({ code: 'list/cell-runs-on', facts: { row } });

test('a cell in quotes between tabs that runs on to a row with a place names both rows', async () => {
    const list = 'block\toffset\ttext\tnew\n1\t0\told\t"Halt!\n1\t75\tother\tGo."\n2\t0\tx\t"two\nlines"\n3\t0\ty\t"\n\n3\t9\tz\t."\n';
    const rows = (await listedRows(list)).map(({ number, fresh, fault }) => [number, fresh, fault]);
    assert.deepEqual(rows, [[2, '"Halt!', runsOn(3)], [3, 'Go."', null], [4, 'two\nlines', null],
        [5, '"', runsOn(7)], [7, '."', null]]);
    const other = 'text\tblock\toffset\tnew\n"x\na\t1\t2\tq"\n';
    assert.deepEqual((await listedRows(other)).map(({ fault }) => fault), [runsOn(3), null]);
});

test('a carriage return within a row is part of its cell, and ends rows only of a table without other line ends', () => {
    assert.deepEqual(cells('a,b\r\n1,A\rB\r\r\n"x"\r,2\r'), [['a', 'b'], ['1', 'A\rB'], ['"x"\r', '2']]);
    assert.deepEqual(cells('a,b\r1,2\r\r3,4'), [['a', 'b'], ['1', '2'], [], ['3', '4']]);
});

test('of a cell that is too long to be taken two quotes stay two', () => {
    const long = 'x'.repeat((1 << 20) - 2);
    assert.deepEqual(cells(`a,b\n"${long}""",1\n`)[1].map(({ length }) => length), [long.length + 1, 1]);
    assert.deepEqual(cells(`a,b\n"x${long}""",1\n`)[1].map(({ length }) => length), [long.length + 3, 1]);
});

test('empty rows are counted, and have no cells', () => {
    assert.deepEqual(numbered('a,b\r\n1,2\r\n\r\n3,4\r\n'), [[1, 'a', 'b'], [2, '1', '2'], [4, '3', '4']]);
    assert.deepEqual(numbered('\n\r\na,b\n\n\r\r\n1,\n\n'), [[3, 'a', 'b'], [6, '1', '']]);
    assert.deepEqual(numbered(`a\tb\n${'\n'.repeat(1 << 20)}1\t2`), [[1, 'a', 'b'], [2 + (1 << 20), '1', '2']]);
});

test('hostile tables take no longer than others', () => {
    const began = process.cpuUsage();
    const long = 'x'.repeat(1 << 24);
    assert.equal(cells(`a,b\n"${long}",1\n`)[1][0].length, long.length);
    assert.equal(cells(`a,b\n"${'""'.repeat(1 << 22)}\n`).length, 2);
    assert.equal(cells(`a,b\n${`${'",'.repeat(998)}\n`.repeat(1 << 9)}\n`)[1].length, 500);
    assert.equal(cells('\0\t\0\n'.repeat(1 << 16)).length, 1 << 16);
    const { user, system } = process.cpuUsage(began);
    assert.ok(user + system < 8e6);
});

test('a row that is written is read again', () => {
    const row = [1, 'a', 'b "c"', '"c"', 'd,e', 'x\ny', ''];
    assert.deepEqual(cells(`1,2,3,4,5,6,7\r\n${rowText(row, ',')}`)[1], row.map(String));
    assert.equal(rowText([1, 'a b', ''], '\t'), '1\ta b\t\n');
});

test('codes in a cell are their bytes, and a cell is read as the bytes from which it was made', () => {
    assert.equal(bytesOf('CP932', 'ア{00}{0d0A}A{あ}{0}'), '8341' + '00' + '0D0A' + '41' + '7B82A07D' + '7B307D');
    assert.equal(bytesOf('UTF-16LE', 'A{0A00}'), '41000A00');
    for (const [name, digits, cell] of [['CP932', '8341000A7B41FF', 'ア{00}{0A}{7B}A{FF}'], ['UTF-16LE', '41000A0022300100', 'A{0A00}〢{0100}'],
        ['CP932', '2241', '{22}A'], ['EUC-JP', 'A5A28FA1', 'ア{8F}{A1}']]) {
        assert.equal(cellOf(encodingOf(name), Buffer.from(digits, 'hex')), cell);
        assert.equal(bytesOf(name, cell), digits);
    }
    const table = tableOf(new TextEncoder().encode('01=a\n*FE\n/00=<end>\n'));
    assert.equal(cellOf(table, Uint8Array.of(1, 0xFE, 1, 0, 0x77)), 'a{FE}a<end>{77}');
    assert.deepEqual(unitsOfCell(table, 'a\na').map(([usual]) => hex(usual)), ['01', 'FE', '01']);
});

test('a list has the rows with a new text, by the names of its columns', async () => {
    const list = 'New,Offset,block,text,note\nx,5,1,old,\n,6,1,other,\ny,+7,1,"a,b",z\n';
    const rows = await listedRows(list);
    const shared = { list: '', unit: 'row', place: '', block: 1, room: -1, encoding: '', fill: '', fault: null, isFuzzy: false, isInFile: false };
    assert.deepEqual(rows, [{ ...shared, number: 2, offset: 5, text: 'old', fresh: 'x' }, { ...shared, number: 4, offset: -1, text: 'a,b', fresh: 'y' }]);
    const more = await listedRows(list, ({ offset }) => offset === 6);
    assert.deepEqual(more.map(({ number, fresh }) => [number, fresh]), [[2, 'x'], [3, ''], [4, 'y']]);
    assert.deepEqual(await listedRows(list, () => false), rows);
    await assert.rejects(listedRows('1\t2\told\tnew\n'), { code: 'list/no-column', facts: { row: 1, columns: ['block', 'offset', 'text'] } });
    await assert.rejects(listedRows('block,text,new,offset,New\n1,x,y,0,z\n'), { code: 'list/column-twice', facts: { row: 1, column: 'new' } });
});

test('rows before the one that names the columns are passed over, and tell nothing of what stands between cells', async () => {
    const rows = 'block;offset;text;new\n1;2;x, y;z\n';
    for (const before of [';;;\n', '"The second part, by us";;;\n', 'sep=;\n', '\n\nTitle\tand more\n;;;\n', `${'A title\n'.repeat(19)}`]) {
        const [{ number, text, fresh }] = await listedRows(before + rows);
        assert.deepEqual([number, text, fresh], [before.split('\n').length + 1, 'x, y', 'z']);
    }
    await assert.rejects(listedRows('A title\n'.repeat(20) + rows), { facts: { row: 1, columns: ['block', 'offset', 'text', 'new'] } });
    await assert.rejects(listedRows(`A title\nblock;offset;text;Neu\n`), { code: 'list/no-column', facts: { row: 2, columns: ['new'] } });
});

test('of rows in one block that can not be patched each is left by its own number, and the others are replaced', async () => {
    const sectors = calls.encodeBlocks(0, new Uint8Array(3 * 2048).fill(0x41));
    sectors[2352 + 2351] ^= 1;
    const image = { name: 'image', base: 0, sectors: 3, reader: readerOf(sectors) };
    const rows = [[2, 0, 4], [3, 1, 4], [4, 1, 90], [7, 2, 4], [8, 2, 2047]].map(([number, block, offset]) =>
        ({ list: '', unit: 'row', number, place: '', block, offset, room: -1, encoding: '', text: 'A', fresh: 'B', fault: null }));
    const made = list => replacedRows(image, list, [encodingOf('CP932')]);
    const damaged = { code: 'replace/damaged', facts: { block: 1 } };
    const { parts, left } = await made(rows);
    assert.deepEqual([parts.patches, left], [3, [{ text: rows[1], why: damaged }, { text: rows[2], why: damaged }]]);
    assert.deepEqual((await made(rows.slice(2, 3))).left, [{ text: rows[2], why: damaged }]);
    const beyond = [{ ...rows[0], block: 3 }, { ...rows[0], number: 3, block: -1 }];
    assert.deepEqual((await made(beyond)).left, [{ text: beyond[0], why: { code: 'replace/no-block', facts: { first: 0, last: 2 } } },
        { text: beyond[1], why: { code: 'list/no-place', facts: {} } }]);
    const met = [[8, 4], [2, 0], [5, 3]].map(([number, offset]) => ({ ...rows[0], number, offset, text: 'AAAA', fresh: 'BBBB' }));
    assert.deepEqual((await made(met)).left, [{ text: met[2], why: { code: 'list/overlaps', facts: { row: met[1] } } }]);
});

test('what fills up the room of a text is one byte over and over, in whole spaces, but for the 00 that ends the text', () => {
    const rows = [['CP932', '41000042', 1], ['CP932', '412020200042', 3], ['CP932', '41FFFF20', 0], ['CP932', '414242', 0], ['CP932', '412042', 0], ['CP932', '412000', 1],
        ['CP932', '41', 0], ['CP932', '4181408140', 4], ['UTF-16LE', '41000000000041', 2], ['UTF-16LE', '4100000000000000FF', 4],
        ['UTF-16LE', '4100FFFFFF20', 0]];
    for (const [name, digits, due] of rows) {
        assert.equal(fillingAfter(encodingOf(name), Buffer.from(digits, 'hex'), name === 'CP932' ? 1 : 2), due, `${name} ${digits}`);
    }
    assert.equal(fillingAfter(encodingOf('CP932'), new Uint8Array(9), 1, 5), 3);
    // FF is filling in a field, or if texts end with a different byte; the last byte that ends them never is.
    for (const [end, digits, isField, due] of [[0, '41FFFF20', true, 2], [0xFF, '41FFFF20', true, 1], [3, '41FFFF03', false, 2], [0xFF, '41FFFF20', false, 1],
        [0xFF, '41FF', false, 0], [3, '4103030342', false, 0], [3, '412003', false, 1], [3, '410000', false, 1]]) {
        assert.equal(fillingAfter(withEnd(encodingOf('CP932'), end), Buffer.from(digits, 'hex'), 1, undefined, isField), due, `${end} ${digits} ${isField}`);
    }
});

test('what a spreadsheet would run stands as a code at the beginning of a cell, and comes back', () => {
    for (const [name, text, cell] of [['CP932', '=1+1', '{3D}1+1'], ['CP932', '+A', '{2B}A'], ['CP932', '-A', '{2D}A'], ['CP932', '@A', '{40}A'],
        ['CP932', '\tA=', '{09}A='], ['CP932', '\rA', '{0D}A'], ['UTF-16LE', '=王', '{3D00}王'], ['CP932', 'A=+-@', 'A=+-@'], ['CP932', '王-', '王-']]) {
        const bytes = Buffer.concat(encodingOf(name).units(text).map(([usual]) => usual));
        assert.equal(cellOf(encodingOf(name), bytes), cell);
        for (const written of [cell, text]) assert.equal(bytesOf(name, written), hex(bytes));
    }
    assert.deepEqual(['=1', '\t1', '@', 'a=', '', '('].map(shownCell), ['{3D}1', '{09}1', '{40}', 'a=', '', '(']);
});

test('the error of a formula and a mistyped code are nothing that somebody meant', () => {
    const cp932 = encodingOf('CP932');
    for (const cell of ['Err:509', '#NAME?', '#REF!', '#VALUE!', '#DIV/0!', '#N/A']) {
        assert.throws(() => assertMeant(cp932, cell), { code: 'list/formula', facts: { cell } });
    }
    const why = code => ({ code: 'list/no-code', facts: { code } });
    for (const code of ['{zz}', '{O1}', '{0}', '{0D0}', '{00 00}', '{0D 0A 1}']) assert.throws(() => assertMeant(cp932, `a${code}b{0A}`), why(code));
    for (const cell of ['Err:509 ', '# NAME?', '#WOW!', '{0D0a}', '{あ}', '{}', '{7B}zz}', '{ a}']) assertMeant(cp932, cell);
    const table = tableOf(new TextEncoder().encode('F0={NAME}\n41=A\n'));
    assertMeant(table, 'A{NAME}');
    assert.throws(() => assertMeant(table, '{NAMES}'), why('{NAMES}'));
});

test('codes that new texts leave out are told by number, each once, with the first rows', async () => {
    const left = async (rows, name = 'CP932') => (await codesLeftOut(rows.map(([text, fresh], i) => ({ number: i + 2, encoding: '', text, fresh })),
        () => [encodingOf(name)])).map(({ code, count, rows: all, first }) => [code, count, all, ...first.map(({ number }) => number)]);
    assert.deepEqual(await left([['a{0D}{0A}b{0D}{0A}c{0D}{0A}', 'A{0D0A}B'], ['{03}', '{04}'], ['x', 'y'], ['{00}{00}', '{0000}']]),
        [['0D', 2, 1, 2], ['0A', 2, 1, 2], ['03', 1, 1, 3]]);
    assert.deepEqual(await left(Array.from({ length: 8 }, () => ['{0A}', 'x'])), [['0A', 8, 8, 2, 3, 4, 5, 6]]);
    assert.deepEqual(await left([['{3D}a', 'b'], ['{22}a', 'b'], ['a{3D}', 'b'], ['{3D}', '{3D}']]), [['3D', 1, 1, 4]]);
    assert.deepEqual(await left([['{0A00}{0100}', '{0100}'], ['{3D00}a', 'b']], 'UTF-16LE'), [['0A00', 1, 1, 2]]);
    assert.deepEqual(await left([['a{0A}b', 'a\nb'], ['a{0D0A}b', 'a\nb']]), [['0D', 1, 1, 3]]);
    assert.deepEqual(await left([[`${'{00}'.repeat(20000)}`, 'a']]), []);
});

test('control characters that were typed are told once, unless an old text has their code', async () => {
    const typed = (rows, encoding = encodingOf('CP932')) => controlsTyped(rows.map(([text, fresh], i) => ({ number: i + 2, encoding: '', text, fresh })),
        () => [encoding]);
    assert.deepEqual(await typed([['a', 'b'], ['a', 'b\nc\n'], ['a', '\td\n'], ['a', '{0B}\n']]), ['{0A}', '{09}']);
    assert.deepEqual(await typed([['a', 'b\nc'], ['a{0D0A}', 'a']]), []);
    assert.deepEqual(await typed([['a', 'b\nc'], ['\n', 'a']]), []);
    assert.deepEqual(await typed([['a{0000}', 'b\n']], encodingOf('UTF-16LE')), ['{0A00}']);
    const table = tableOf(new TextEncoder().encode('*FE\n41=A\n'));
    assert.deepEqual(await typed([['A{FE}', 'A\nA']], table), []);
    assert.deepEqual(await typed([['A', 'A\nA']], table), ['{FE}']);
});

test('a long file is read in parts as if it were read at once, and only in Unicode', async () => {
    const text = '勇者は\tA\r\n長い旅𠮷の果てに\nｱ\n';
    const files = [Buffer.from(text), Buffer.from(`\uFEFF${text}`), Buffer.from(`\uFEFF${text}`, 'utf16le'), Buffer.from(`\uFEFF${text}`, 'utf16le').swap16(),
        Buffer.alloc(0)];
    for (const [i, file] of files.entries()) {
        for (const size of [1, 2, 3, 5, 7, 1000]) assert.equal(await longTextOf(readerOf(file), undefined, size), textOfFile(file), `${i} by ${size}`);
    }
    await assert.rejects(longTextOf(readerOf(files[0]), { aborted: true }), { code: 'cancelled' });
    // In CP932, é of Windows-1252 and the letter after it are a kanji.
    for (const other of ['8341838A0A', '48E96C6C6F0A']) await assert.rejects(longTextOf(readerOf(Buffer.from(other, 'hex'))), { code: 'list/not-unicode' });
});

test('files in UTF-16 with a mark are read as that', () => {
    const wide = Buffer.from('\uFEFF漢字\t', 'utf16le');
    assert.equal(textOfFile(wide), '漢字\t');
    assert.equal(textOfFile(Buffer.from(wide).swap16()), '漢字\t');
});
