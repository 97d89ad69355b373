// Hostile lists and tables of characters: the content that is read, the errors, and the amount of work.

import assert from 'node:assert/strict';
import { test } from 'node:test';
import { calls, core, diceOf, encoded, readerOf, tableOf } from './common.mjs';
import { listedRows, replacedRows } from './lists.mjs';
import { examining } from '../lib/examined.mjs';

const { Table } = await core('texts/cells.js');
const { entriesOfPo } = await core('texts/po.js');
const { codesLeftOut } = await core('texts/codes.js');
const { rowsOfLists } = await core('tasks/list_rows.js');
const { encodingOf } = await core('encodings/encodings.js');
const { endOfMatch } = await core('texts/matching.js');

/** The number of characters that are examined during a call. */
function lookedAt(use) {
    const end = examining();
    try {
        use();
    } finally {
        end();
    }
    return end();
}

const cellsIn = (text, mark) => [...new Table(text, mark).rows()].reduce((sum, { cells }) => sum + cells.length, 0);

test('no quotes, nested or without an end, are looked at more than a few times', () => {
    const size = 1 << 16;
    const dice = diceOf(4);
    const random = Array.from({ length: size }, () => '"""\ta\n,'[dice(7)]).join('');
    const texts = ['"'.repeat(size), '"\t'.repeat(size), '""\t'.repeat(size), '"a\t'.repeat(size), '"""\t'.repeat(size), '"a""\t'.repeat(size),
        '""a\t'.repeat(size), `"${'""'.repeat(size)}`, '"\n'.repeat(size), '"a\n""b\n'.repeat(size), '\0"\0\t'.repeat(size), random];
    for (const [text, mark] of texts.flatMap(it => [[it, '\t'], [it.replaceAll('\t', ','), ',']])) {
        // A row has fewer than 1000 cells.
        let cells = 0;
        const whole = text.replace(/[\t,\n]/g, it => it !== '\n' && ++cells % 999 === 0 ? '\n' : it);
        const count = lookedAt(() => cellsIn(whole, mark));
        assert.ok(count < 8 * whole.length, `${JSON.stringify(text.slice(0, 9))}: ${count} for ${whole.length}`);
    }
});

test('a row of too many cells, and too many rows, are refused', async () => {
    assert.throws(() => cellsIn(`a,b\n${','.repeat(50 << 20)}`, ','), { name: 'Fault', code: 'list/too-many-cells', facts: { row: 2, most: 1000 } });
    assert.equal(cellsIn(`a,b\n${','.repeat(999)}\n`, ','), 1002);
    const rows = `${`#:${' 1+1'.repeat(1000)}\n`.repeat(1000)}msgid "a"\nmsgstr "b"\n\n#: 2+2\nmsgid "a"\nmsgstr "b"\n`;
    await assert.rejects(rowsOfLists([{ name: 'list', reader: readerOf(encoded(rows)) }]), { code: 'list/too-many-rows', facts: { most: 1000000 } });
});

test('a list of many columns is refused, and a row may have many codes', async () => {
    const wide = `block\toffset\ttext\tnew${'\t'.repeat(250000)}\n${'x\n'.repeat(20000)}`;
    await assert.rejects(listedRows(wide), { facts: { row: 1, most: 1000 } });
    const most = `block\toffset\ttext\tnew${'\t'.repeat(990)}\n${'x\n'.repeat(20000)}`;
    assert.deepEqual(await listedRows(most), []);
    const coded = (code, count) => ({ number: 2, encoding: '', text: code.repeat(count), fresh: '{01}'.repeat(count) });
    const left = await codesLeftOut([coded('{00}', 220000), coded('{00}', 16000)], () => [encodingOf('CP932')]);
    assert.deepEqual(left.map(({ code, count, rows, first }) => [code, count, rows, first.length]), [['00', 16000, 1, 1]]);
});

/** Long lists with 20,000 rows that have new texts. */
const LONG_LISTS = {
    'a table': `block\toffset\ttext\tnew\n${Array.from({ length: 20000 }, (_, i) => `${i * 7919 % 60013}\t0\ta\tb\n`).join('')}${'0\t0\ta\t\n'.repeat(4e5)}`,
    'a PO file': `${Array.from({ length: 20000 }, (_, i) => `#: /A+1 ${i * 7919 % 60013}+0\nmsgid "a"\nmsgstr "b"\n\n`).join('')}${'msgid "a"\nmsgstr ""\n'.repeat(4e5)}`,
};

for (const [name, list] of Object.entries(LONG_LISTS)) test(`others get a turn while ${name} is read, sorted and replaced, and its signal ends it`, async () => {
    let turns = 0;
    const timer = setInterval(() => { turns += 1; });
    const signal = { aborted: false };
    try {
        const rows = await listedRows(list, () => false, signal);
        assert.ok(turns > 2, `${turns} while it is read`);
        turns = 0;
        const { whys } = await made(rows, 'CP932', { signal });
        assert.ok(whys.length > 19990, `${whys.length}`);
        assert.ok(turns > 1, `${turns} while rows are replaced`);
        setTimeout(() => { signal.aborted = true; }, 60);
        await assert.rejects(made(rows, 'CP932', { signal }), { code: 'cancelled' });
    } finally {
        clearInterval(timer);
    }
});

test('a PO file gives way after each part of it, whatever is in it', () => {
    const size = 1 << 22;
    const parts = { comments: '# a comment\n', 'obsolete entries': '#~ msgid "a"\n', strings: '"ab"\n', 'long strings': `"${'\\n'.repeat(1 << 17)}"\n`, 'long comments': `#${'a'.repeat(1 << 17)}\n`,
        references: '#: 1+1\n', 'empty lines': '\n' };
    for (const [name, part] of Object.entries(parts)) {
        const list = `msgid "a"\nmsgstr "b"\n${part.repeat(name === 'references' ? 1e6 : size / part.length)}`;
        let count = 0;
        for (const it of entriesOfPo(list)) count += Number(it === null);
        assert.ok(count > list.length / (1 << 19) - 2, `${name}: ${count} times in ${list.length} characters`);
    }
    const most = `${'#: 1+1\n'.repeat(1000001)}msgid "a"\nmsgstr "b"\n`;
    assert.throws(() => [...entriesOfPo(most)], { code: 'po/many-places' });
    const long = `msgid "a"\nmsgstr "${'b'.repeat(1 << 19)}"\n`;
    assert.throws(() => [...entriesOfPo(long)], { code: 'po/long-line' });
});

/** The result of replacing these rows, and the number of characters that the encoding was asked for. */
async function made(rows, name = 'CP932', watch = {}) {
    let asked = 0;
    const encoding = encodingOf(name);
    const counted = units => ({ value: text => {
        asked += text.length;
        return units.call(encoding, text);
    } });
    const counting = Object.create(encoding, { units: counted(encoding.units), parts: counted(encoding.parts) });
    const sectors = calls.encodeBlocks(0, new Uint8Array(4 * 2048).fill(0x41));
    const image = { base: 0, sectors: 4, reader: { size: sectors.length, read: async (at, length) => sectors.slice(at, at + length) } };
    const { parts, left } = await replacedRows(image, rows, [counting], watch);
    return { patches: parts.patches, whys: left.map(({ why }) => why), asked };
}

const row = (text, fresh, offset = 0) => ({ number: 2, block: 0, offset, room: 999999999, encoding: '', text, fresh });

test('of a text of 50 MB no character is looked up', async () => {
    const long = 'A'.repeat(50 << 20);
    const why = { code: 'list/long-text', facts: { most: 65536 } };
    for (const it of [row(long, 'b'), row('A', long)]) assert.deepEqual(await made([it]), { patches: 0, whys: [why], asked: 0 });
    const { patches, whys, asked } = await made([row('A'.repeat(8192), 'b\0c')]);
    assert.deepEqual([patches, whys], [2, []]);
    assert.ok(asked < 3 * 8200, `${asked}`);
});

test('a character is looked up in its other forms once, however often it stands', async () => {
    const { asked } = await made(Array.from({ length: 500 }, (_, i) => row('AがパA', 'A', 10 * i)));
    assert.ok(asked < 500 * 8 + 100, `${asked}`);
});

test('a text of thousands of spellings is matched without a stack for each', () => {
    const count = 60000;
    const units = Array.from({ length: count }, () => [Uint8Array.of(1), Uint8Array.of(1, 1)]);
    assert.equal(endOfMatch(units, new Uint8Array(count).fill(1), 0), count);
    assert.equal(endOfMatch([...units.slice(0, 300), [Uint8Array.of(2)]], new Uint8Array(400).fill(1), 0), -1);
    const long = Array.from({ length: 5000 }, () => [1, 2, 3].map(size => new Uint8Array(size).fill(1)));
    assert.equal(endOfMatch([...long, [Uint8Array.of(2)]], new Uint8Array(20000).fill(1), 0), -1);
    assert.equal(endOfMatch([], Uint8Array.of(1), 0), 0);
});

/** The longest processor time in milliseconds between two turns of other work during a job: the least of three runs, as one may be disturbed. */
async function longestWithoutTurn(job) {
    const times = [];
    for (let i = 0; i < 3; i++) times.push(await longestInRun(job));
    return Math.min(...times);
}

async function longestInRun(job) {
    const cpu = () => { const { user, system } = process.cpuUsage(); return (user + system) / 1000; };
    let [last, most] = [cpu(), 0];
    const look = () => { most = Math.max(most, cpu() - last); last = cpu(); };
    const timer = setInterval(look, 1);
    try {
        await job();
    } finally {
        clearInterval(timer);
    }
    look();
    return most;
}

test('a long row in a table with many codes gives turns', async () => {
    const codes = Array.from({ length: 64 }, (_, i) => `80${(0x20 + i).toString(16)}=${'x'.repeat(i)}y\n`).join('');
    const table = tableOf(encoded(`41=x\n42=B\n${codes}${Array.from({ length: 3000 }, (_, i) => `${(0x9000 + i).toString(16)}=x\n`).join('')}`));
    const sectors = calls.encodeBlocks(0, new Uint8Array(32 * 2048).fill(0x41));
    const image = { base: 0, sectors: 32, reader: { size: sectors.length, read: async (at, length) => sectors.slice(at, at + length) } };
    const long = 'x'.repeat(65535);
    for (const [text, fresh] of [[`${long}B`, 'B'], [long, `${long}B`]]) {
        const time = await longestWithoutTurn(() => replacedRows(image, [row(text, fresh)], [table]));
        assert.ok(time < 400, `${Math.round(time)} ms`);
    }
});

test('a PO file of a long text with many places is refused by the work that it needs', async () => {
    const read = places => rowsOfLists([{ name: 'list', reader: readerOf(encoded(`#:${' 1+1'.repeat(places)}\nmsgid "${'A'.repeat(65000)}"\nmsgstr "b"\n`)) }]);
    assert.equal((await read(700)).rows.length, 700);
    await assert.rejects(read(1000), { code: 'list/too-many-characters' });
});

test('a table is refused by its size before it is read, and a long line by its beginning', () => {
    const { decode } = TextDecoder.prototype;
    let decoded = 0;
    TextDecoder.prototype.decode = function (bytes) {
        decoded += bytes.length;
        return decode.call(this, bytes);
    };
    try {
        const facts = { size: 100 << 20, most: 8388608 };
        assert.throws(() => tableOf(new Uint8Array(100 << 20)), { code: 'text/large-table', facts });
        assert.equal(decoded, 0);
    } finally {
        TextDecoder.prototype.decode = decode;
    }
    const { slice } = String.prototype;
    let longest = 0;
    String.prototype.slice = function (from, to) {
        const cut = slice.call(this, from, to);
        if (this.length > 1 << 20) longest = Math.max(longest, cut.length);
        return cut;
    };
    try {
        const lines = { [`${'41'.repeat(2 << 20)}=b`]: 'text/long-bytes', [`41=${'b'.repeat(4 << 20)}`]: 'text/long-text',
            ['"'.repeat(4 << 20)]: 'text/no-pair' };
        for (const [line, code] of Object.entries(lines)) {
            assert.throws(() => tableOf(encoded(`00=a\n${line}\n`)), error => error.code === code && error.facts.line === 2);
        }
        assert.ok(longest > 0 && longest < 1000, `${longest}`);
    } finally {
        String.prototype.slice = slice;
    }
    assert.equal(tableOf(encoded('41=\0\n42=a\n')).text(Uint8Array.of(0x41, 0x42)), '\0a');
    assert.throws(() => tableOf(encoded('\n'.repeat((8 << 20) + 1))), { code: 'text/large-table' });
});
