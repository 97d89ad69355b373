// Lists of known dumps: their entries, and the errors that are refused.
import assert from 'node:assert';
import { test } from 'node:test';
import { core, encoded } from './common.mjs';

const { KnownDumps } = await core('disc/dat.js');

const SHA = 'da39a3ee5e6b4b0d3255bfef95601890afd80709';
const HEAD = '<?xml version="1.0"?>\n<!DOCTYPE datafile PUBLIC "-//Logiqx//DTD ROM Management Datafile//EN" "http://www.logiqx.com/Dats/datafile.dtd">\n';
const rom = (name, more = '') => `<game name="Game"><description>a > b</description><rom name="${name}" size="7" crc="0" sha1="${SHA.toUpperCase()}"${more}/></game>`;
const datOf = (...games) => `${HEAD}<!-- <a/> <rom name="no" size="5" sha1="${SHA}"/> -->\n<datafile>\n<header><name>X</name></header>\n${games.join('\n')}\n</datafile>\n`;

/** Splits bytes into pieces of this size. */
async function* cut(bytes, size) {
    for (let at = 0; at < bytes.length; at += size) yield bytes.subarray(at, at + size);
}

/** A known dump in short: whether it is bad, its name, and how many others have its hash. */
const inShort = found => found && `${found.isBad ? 'bad' : 'good'} ${found.name}${found.others > 0 ? ` and ${found.others}` : ''}`;
const said = (dumps, ...asked) => inShort(dumps.find(...asked));

async function known(text, size = 1 << 20) {
    const dumps = new KnownDumps();
    await dumps.add(cut(encoded(text), size));
    return dumps;
}

test('a dump is known by its size and SHA-1, however the list is cut', async () => {
    const text = datOf(rom('Löwe &amp; &#x9B54;&#29579; &quot;1&quot;.bin'), '<game name="none"><rom name="x" size="7" crc="1"/></game>');
    for (const size of [1, 2, 3, 100, 1 << 20]) {
        const dumps = await known(text, size);
        assert.strictEqual(said(dumps, 7, { sha1: SHA }), 'good Löwe & 魔王 "1".bin');
        assert.deepStrictEqual([said(dumps, 8, { sha1: SHA }), said(dumps, 5, { sha1: SHA })], [null, null]);
        assert.strictEqual(said(dumps, 7, { sha1: SHA.replace('d', 'e') }), null);
    }
    assert.strictEqual(said(await known(datOf(rom('a.bin', ' status="baddump"'))), 7, { sha1: SHA }), 'bad a.bin');
    assert.strictEqual(said(await known(datOf("<machine name='G'><disk name='a.bin' size='7' sha1='" + SHA + "'/></machine>")), 7, { sha1: SHA }), 'good a.bin');
});

test('several lists are one', async () => {
    const dumps = await known(datOf(rom('first.bin')));
    const early = SHA.replace('d', 'e');
    assert.deepStrictEqual([said(dumps, 7, { sha1: SHA }), said(dumps, 9, { sha1: early })], ['good first.bin', null]);
    await dumps.add(cut(encoded(datOf(`<game name="E"><rom name="early.bin" size="9" sha1="${early}" status="baddump"/></game>`)), 1000));
    await dumps.add(cut(encoded(datOf(rom('second.bin'), `<game name="H"><rom name="third.bin" size="9" sha1="${SHA}"/></game>`)), 1000));
    assert.deepStrictEqual([said(dumps, 7, { sha1: SHA }), said(dumps, 9, { sha1: SHA }), said(dumps, 9, { sha1: early })],
        ['good first.bin and 1', 'good third.bin', 'bad early.bin']);
    for (const [size, code] of [[7, 'dat/only-size'], [9, 'dat/only-size'], [5, 'dat/no-size'], [8, 'dat/no-size']]) {
        assert.deepStrictEqual(dumps.remarkOfOther(size), { code, facts: {} });
    }
    assert.deepStrictEqual([7, 9, 8].map(size => dumps.namesOfSize(size)), [['first.bin'], ['early.bin', 'third.bin'], []]);
});

test('games keep their dumps: of each DAT by itself, by their names, and no more than a DAT may have', async () => {
    const other = SHA.replace('d', 'e');
    const game = (name, ...roms) => `<game name="${name}">${roms.map(([file, sha]) => `<rom name="${file}" size="7" sha1="${sha}"/>`).join('')}</game>`;
    const dumps = await known(datOf(game('A &amp; B', ['1', SHA], ['2', other]), '<game name="empty"/>', `<rom name="0" size="7" sha1="${SHA}"/>`,
        game('C', ['3', other]), game('A &amp; B', ['4', other]), '<game name="D"><rom name="5"/></game>'));
    await dumps.add(cut(encoded(datOf(game('C', ['6', SHA]))), 9));
    assert.deepStrictEqual(dumps.games.map(({ name, dumps: parts }) => [name, [...parts.values()]]), [['A & B', ['1', '4']], ['C', ['3']], ['C', ['6']]]);
    assert.deepStrictEqual(['2', '3', '0'].map(name => dumps.find(7, { sha1: name === '0' ? SHA : other }, name).game), ['A & B', 'C', '']);
    await assert.rejects(known(datOf(Array.from({ length: 400001 }, (_, i) => game(String(i), ['x', SHA])).join(''))), failsBy('dat/too-many 400000'));
});

test('capitals and spaces do not matter, and a SHA-1 needs no size', async () => {
    const [bad, good] = [`bad a.bin`, 'good a.bin'];
    const entries = [[good, `<rom name="a.bin" size=" 7 " sha1="${SHA}"/>`], [good, `<rom name="a.bin" size="7" sha1="${SHA} "/>`], [bad, `<rom name="a.bin" size="7" sha1="${SHA}" status="BadDump"/>`],
        [good, `<ROM Name="a.bin" SIZE="7" SHA1="${SHA}"/>`], [good, `<rom name="a.bin" sha1="${SHA}"/>`], [bad, `<rom name="a.bin" size="" sha1="${SHA}" status="baddump"/>`]];
    for (const [due, entry] of entries) assert.strictEqual(said(await known(datOf(`<Game name="G">${entry}</GAME>`)), 7, { sha1: SHA }), due, entry);
    const dumps = await known(datOf(`<GAME Name="G">${entries[4][1]}</GAME>`));
    assert.deepStrictEqual([said(dumps, 8, { sha1: SHA }), dumps.hasSize(7), dumps.games.map(it => it.name)], [good, false, ['G']]);
    for (const entry of [`<rom name="a" size="7" sha256="${'a'.repeat(64)}"/>`, '<rom name="a" crc="0000abcd"/>', `<disk name="a" sha1="${SHA}"/>`, `<rom name="a" size="7" sha1="${SHA}" status="NoDump"/>`]) {
        await assert.rejects(known(datOf(`<game name="G">${entry}</game>`)), failsBy('dat/no-dump'));
    }
});

test('what XML may have is read: > and / in names, CDATA, long comments, declared elements', async () => {
    const declared = '<!DOCTYPE datafile [\n<!ELEMENT datafile (header?, game*)> <!-- <!ENTITY --> <!ATTLIST rom name CDATA "a>b">\n]>';
    const texts = [
        datOf(`<game name="a"><rom name="A > B.bin" size="7" sha1="${SHA}"></rom></game>`), datOf(rom('A > B.bin')), datOf(rom('A > B.bin').replace('/></', ' / ></')).replace(' / >', '/>'),
        datOf(`<comment><![CDATA[a & b <rom name="no" size="7" sha1="${SHA}"/> ]] >]]></comment>`, rom('A > B.bin')),
        datOf(`<!-- ${'x'.repeat(20000)} -- -->`, rom('A > B.bin')), datOf(rom('A > B.bin')).replace(/<!DOCTYPE[^>]*>/, declared),
    ];
    for (const text of texts) for (const size of [1, 7, 1 << 20]) assert.strictEqual(said(await known(text, size), 7, { sha1: SHA }), 'good A > B.bin');
});

test('a list in another encoding is read in that', async () => {
    const declared = (name, text) => `<?xml version="1.0" encoding="${name}"?><datafile>${text}</datafile>`;
    const latin = text => Uint8Array.from(text, it => it.charCodeAt(0));
    const wide = (text, swaps) => {
        const bytes = Buffer.from(`\uFEFF${text}`, 'utf16le');
        return swaps ? bytes.swap16() : bytes;
    };
    const kanji = declared('Shift_JIS', rom('@.bin')).split('@');
    const lists = [
        [latin(declared('ISO-8859-1', rom('Caf\xE9.bin'))), 'Café.bin'], [latin(declared('windows-1252', rom('\x80.bin'))), '€.bin'],
        [Buffer.concat([latin(kanji[0]), Buffer.from('968289A4', 'hex'), latin(kanji[1])]), '魔王.bin'],
        [wide(declared('UTF-16', rom('魔.bin')), false), '魔.bin'], [wide(declared('UTF-16', rom('魔.bin')), true), '魔.bin'],
        [wide(declared('UTF-16', rom('魔.bin')), true).subarray(2), '魔.bin'], [encoded(`\uFEFF${declared('utf-8', rom('魔.bin'))}`), '魔.bin'],
        [encoded(declared('utf-16', rom('魔.bin'))), '魔.bin'],
    ];
    for (const [bytes, name] of lists) {
        for (const size of [1, 1 << 20]) {
            const dumps = new KnownDumps();
            await dumps.add(cut(bytes, size));
            assert.strictEqual(said(dumps, 7, { sha1: SHA }), `good ${name}`);
        }
    }
});

test('an entry without SHA-1 is found by size and CRC32 or MD5, and what has neither is counted', async () => {
    const md5 = 'D41D8CD98F00B204E9800998ECF8427E';
    const entry = (name, more) => `<rom name="${name}" size="7" ${more}/>`;
    const dumps = await known(datOf(entry('crc.bin', 'crc="0000ABCD"'), entry('both.bin', `crc="0000beef" md5="${md5}"`), entry('md5.bin', `md5="${md5}"`),
        entry('gone.bin', ''), entry('none.bin', `sha1="${SHA}" status="nodump"`), `<disk name="x" sha1="${SHA}"/>`));
    const saidOf = (hashes, size = 7) => said(dumps, size, { sha1: SHA, ...hashes });
    assert.deepStrictEqual([dumps.leftOut, dumps.needs], [3, { crc32: true, md5: true }]);
    assert.deepStrictEqual([saidOf({}), saidOf({ crc32: '0000abcd' }), saidOf({ crc32: '0000abcd' }, 8), saidOf({ crc32: '0000beef' })],
        [null, 'good crc.bin', null, 'good both.bin']);
    const [own, other] = [md5.toLowerCase(), md5.toLowerCase().replace('d', 'e')];
    assert.deepStrictEqual([saidOf({ crc32: '0000beef', md5: own }), saidOf({ crc32: '0000beef', md5: other }), saidOf({ md5: own })], ['good both.bin', null, 'good md5.bin']);
    assert.deepStrictEqual((await known(datOf(rom('a.bin')))).needs, { crc32: false, md5: false });
});

test("of several entries with one hash the file's own comes first, and a bad one only if all are", async () => {
    const bad = ' status="baddump"';
    const saidOf = async (name, ...roms) => said(await known(datOf(...roms)), 7, { sha1: SHA }, name);
    const [a, b, c] = ['a.bin', 'b.bin', 'c.bin'].map(name => rom(name));
    assert.deepStrictEqual([await saidOf('b.bin', a, b, c), await saidOf('x.bin', a, b), await saidOf('', a, a)],
        ['good b.bin and 2', 'good a.bin and 1', 'good a.bin']);
    assert.deepStrictEqual([await saidOf('a.bin', rom('a.bin', bad), b), await saidOf('', rom('a.bin', bad), a), await saidOf('b.bin', rom('a.bin', bad), rom('b.bin', bad))],
        ['good b.bin and 1', 'good a.bin', 'bad b.bin and 1']);
});

const HOSTILE = {
    'dat/declares': [`<!DOCTYPE datafile [<!ENTITY a "aaaaaaaaaa"><!ENTITY b "&a;&a;&a;">]>${datOf(rom('&b;'))}`,
        `<!DOCTYPE datafile [<!ELEMENT a (b)> %more; ]>${datOf(rom('a'))}`, '<!ENTITY a SYSTEM "/etc/passwd"><datafile></datafile>'],
    'dat/entity &b;': [datOf(rom('&b;'))],
    'dat/entity &constructor;': [datOf(rom('&constructor;&toString;&__proto__; x.bin'))],
    'dat/deep 16': [`<datafile>${'<a>'.repeat(1000000)}`],
    'dat/long-tag 16384': [datOf(rom('x'.repeat(20000))), `<datafile><rom name="${'x'.repeat(5000000)}`],
    'dat/long-name 512': [datOf(rom('x'.repeat(600)))],
    'dat/too-many 400000': [datOf(Array.from({ length: 400001 }, (_, i) => `<rom name="x" size="${i}" sha1="${SHA}"/>`).join(''))],
    'dat/other-file': ['', '<html></html>', 'x'.repeat(1000000)],
    'dat/clrmamepro': ['clrmamepro (\n name X\n)'],
    'dat/archive': ['PK\x03\x04', `PK\x03\x04${'x'.repeat(1000)}`],
    'dat/software-list': ['<?xml version="1.0"?><softwarelist name="x"></softwarelist>'],
    'dat/encoding x-unheard-of': [`<?xml version="1.0" encoding="x-unheard-of"?>${datOf(rom('a'))}`],
    'dat/tag rom name="a < b.bin" size="7" sha1="a"/': ['<datafile><rom name="a < b.bin" size="7" sha1="a"/></datafile>'],
    'dat/cut': [datOf(rom('a.bin')).slice(0, -20), `${datOf(rom('a.bin'))}<`, `${datOf(rom('a.bin'))}<!-- and`],
    'dat/no-dump': [datOf('<game name="x"><rom name="x" size="7" md5="0"/></game>')],
};

/** Whether an error has this code and, as its only fact, this value. */
const failsBy = why => error => [error.code, ...Object.values(error.facts)].join(' ') === why;

for (const [why, texts] of Object.entries(HOSTILE)) {
    test(`a list is refused: ${why}`, async () => {
        for (const text of texts) await assert.rejects(known(text), failsBy(why));
    });
}

test('a list is read no further than its fault', async () => {
    let read = 0;
    async function* endless() {
        yield encoded('<datafile>');
        for (;; read++) yield encoded('<a>'.repeat(1000));
    }
    await assert.rejects(new KnownDumps().add(endless()), failsBy('dat/deep 16'));
    assert.strictEqual(read, 0);
});

test('a large list is read in bounded memory', async () => {
    // Bytes. Only the list of the gate would exceed the memory if it were kept.
    const most = process.env.GATE ? 1e8 : 1e7;
    const games = encoded(rom('Game.bin').repeat(5000));
    async function* large() {
        yield encoded('<datafile>');
        for (let size = 0; size < most; size += games.length) yield games;
        yield encoded('<!--');
        for (let size = 0; size < most; size += games.length) yield games;
        yield encoded('-->');
        yield encoded('</datafile>');
    }
    const dumps = new KnownDumps();
    const before = process.memoryUsage().rss;
    await dumps.add(large());
    assert.strictEqual(said(dumps, 7, { sha1: SHA }), 'good Game.bin');
    assert.ok(process.memoryUsage().rss - before < 3e8, `${process.memoryUsage().rss - before} bytes`);
});
