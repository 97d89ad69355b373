// The files of an ISO 9660 volume, with Rock Ridge and Joliet names.
import assert from 'node:assert';
import { test } from 'node:test';
import { core, readerOf } from './common.mjs';
import { isoOf, rawOf } from './discs.mjs';
import { inShort } from './strangers.mjs';

const { filesAt, filesOf } = await core('iso/files.js');

const RAW = 2352;

/** @type {Record<string, string>} */
const FEW = { 'readme.txt': 'hello', 'empty': '', 'data/game.bin': 'x'.repeat(5000), 'data/text/a long name, with a comma.dat': 'y'.repeat(2048) };
/** @type {Record<string, string>} */
const MANY = Object.fromEntries(Array.from({ length: 200 }, (_, i) => [`many/number ${i} of two hundred files.data`, `${i}`.repeat(i)]));
/** @type {Record<string, string>} */
const DEEP = Object.fromEntries(Array.from({ length: 12 }, (_, i) =>
    [`${Array.from({ length: i + 1 }, (_, k) => `d${k}`).join('/')}/at${i}`, 'z'.repeat(100 * i)]));

/**
 * @param {import('node:test').TestContext} t
 * @param {Record<string, string>} files
 * @param {string[]} options
 * @param {string[]} listing
 */
function made(t, files, options, listing) {
    const iso = isoOf(files, options, listing);
    if (!iso) t.skip('no genisoimage');
    return iso;
}

/**
 * Files with only the properties that isoinfo lists.
 * @param {{ path: string, block: number, size: number }[]} files
 * @param {number} [base]
 */
const plain = (files, base = 0) => files.map(({ path, block, size }) => ({ path, block: block + base, size }));

/**
 * The place of a name's first directory record in raw sectors.
 * @param {Uint8Array} raw
 * @param {string} name
 */
function recordOf(raw, name) {
    const bytes = Buffer.from(raw.buffer);
    const named = Buffer.concat([Buffer.of(1, 0, 0, 1, name.length), Buffer.from(name, 'latin1')]);
    const at = bytes.indexOf(named);
    assert.ok(at >= 28, name);
    return at - 28;
}

/** The first block of the extent in a name's record. @param {Uint8Array} raw @param {string} name */
const extentOf = (raw, name) => new DataView(raw.buffer).getUint32(recordOf(raw, name) + 2, true);

for (const [title, files] of Object.entries({ 'a few files': FEW, '200 files': MANY })) {
    test(`${title}: as isoinfo lists them, with the names of ISO 9660`, async t => {
        const iso = made(t, files, [], []);
        if (!iso) return;
        const found = await filesOf(readerOf(rawOf(iso.bytes)), 0);
        assert.deepStrictEqual(plain(found.files), iso.listed);
        assert.deepStrictEqual([found.faults, found.files.length], [[], Object.keys(files).length]);
        assert.ok(found.files.every(file => file.fault === null));
    });

    test(`${title}: as isoinfo lists them, with the names of Joliet`, async t => {
        const iso = made(t, files, ['-J', '-joliet-long'], ['-J']);
        if (!iso) return;
        const found = await filesOf(readerOf(rawOf(iso.bytes)), 0);
        assert.deepStrictEqual(plain(found.files), iso.listed);
        assert.deepStrictEqual(found.files.map(file => file.path.slice(1)).sort(), Object.keys(files).sort());
    });

    test(`${title}: as isoinfo lists them, with the names of Rock Ridge, which are taken first`, async t => {
        const iso = made(t, files, ['-J', '-R'], ['-R']);
        if (!iso) return;
        const found = await filesOf(readerOf(rawOf(iso.bytes)), 0);
        assert.deepStrictEqual(plain(found.files), iso.listed);
    });
}

for (const base of [225, 5150]) {
    test(`a track at block ${base} whose extents count from the disc's start`, async t => {
        for (const [options, listing] of [[['-J', '-R'], ['-R']], [['-J', '-joliet-long'], ['-J']], [[], []]]) {
            const iso = made(t, { ...FEW, ...MANY }, ['-C', `0,${base}`, ...options], [...listing, '-N', `${base}`]);
            if (!iso) return;
            const found = await filesOf(readerOf(rawOf(iso.bytes)), base);
            assert.deepStrictEqual(plain(found.files), iso.listed);
            assert.deepStrictEqual(found.faults, []);
        }
    });

    test(`a track at block ${base} whose extents count from its own start`, async t => {
        const iso = made(t, { ...FEW, ...MANY }, ['-R'], ['-R']);
        if (!iso) return;
        const found = await filesOf(readerOf(rawOf(iso.bytes)), base);
        assert.deepStrictEqual(plain(found.files), plain(iso.listed, base));
    });
}

test('a track with another base than the volume\'s is refused with both blocks', async t => {
    const iso = made(t, FEW, ['-C', '0,225'], ['-N', '225']);
    if (!iso) return;
    const refused = filesOf(readerOf(rawOf(iso.bytes)), 224);
    await assert.rejects(refused, ({ code, facts: { blocks } }) => code === 'volume/root-elsewhere' && blocks.length === 2);
});

test('a deep tree: directories that Rock Ridge has moved are in their place', async t => {
    const iso = made(t, DEEP, ['-R'], ['-R']);
    if (!iso) return;
    const found = await filesOf(readerOf(rawOf(iso.bytes)), 0);
    assert.deepStrictEqual(found.files.map(file => file.path.slice(1)).sort(), Object.keys(DEEP).sort());
    assert.deepStrictEqual(found.files.map(file => file.block), iso.listed.map(file => file.block));
    assert.deepStrictEqual(found.faults, []);
    for (const file of found.files) assert.strictEqual(file.size, DEEP[file.path.slice(1)].length);
});

test('a deep tree with the names of ISO 9660', async t => {
    const iso = made(t, DEEP, ['-D'], []);
    if (!iso) return;
    assert.deepStrictEqual(plain((await filesOf(readerOf(rawOf(iso.bytes)), 0)).files), iso.listed);
});

test('names of many scripts, and names that need a continuation', async t => {
    // The continuations of all three names are in one sector, one after the other.
    const long = ['long ', 'other ', 'third '].map(word => [`${word.repeat(35)}.end`, word]);
    const files = { '漢字.txt': 'a', 'é': 'b', 'two;2': 'd', ...Object.fromEntries(long) };
    const iso = made(t, files, ['-J', '-R'], ['-R']);
    if (!iso) return;
    const found = await filesOf(readerOf(rawOf(iso.bytes)), 0);
    assert.deepStrictEqual(found.files.map(file => file.path.slice(1)).sort(), Object.keys(files).sort());
    const other = made(t, { '漢字.txt': 'a', 'é': 'b' }, ['-J'], ['-J']);
    const joliet = await filesOf(readerOf(rawOf(other.bytes)), 0);
    assert.ok(joliet.files.some(file => file.path === '/漢字.txt'));
});

test('each record is where the file says, in a directory of many sectors too', async t => {
    const iso = made(t, MANY, [], []);
    if (!iso) return;
    const { files } = await filesOf(readerOf(rawOf(iso.bytes)), 0);
    const blocks = new Set(files.map(({ record }) => record.block));
    assert.ok(blocks.size >= 3, `${blocks.size} sectors`);
    for (const { path, block, record } of files) {
        const at = 2048 * record.block + record.offset;
        const bytes = Buffer.from(iso.bytes.subarray(at, at + iso.bytes[at]));
        assert.equal(bytes.readUInt32LE(2), block, path);
        assert.ok(bytes.toString('latin1', 33).startsWith(path.slice(path.lastIndexOf('/') + 1)), path);
    }
});

test('a file is found by block and offset, and what is after its last byte is in none', async t => {
    const iso = made(t, FEW, ['-R'], ['-R']);
    if (!iso) return;
    const { files } = await filesOf(readerOf(rawOf(iso.bytes)), 0);
    const game = files.find(file => file.path === '/data/game.bin');
    const at = (/** @type {number} */ block, /** @type {number} */ offset) => filesAt(files, game.block + block, offset).map(it => it.path);
    assert.deepStrictEqual([at(0, 0), at(2, 903), at(2, 904), at(-1, 2047).includes('/data/game.bin')],
        [['/data/game.bin'], ['/data/game.bin'], [], false]);
    assert.deepStrictEqual(iso.bytes.subarray(game.block * 2048, game.block * 2048 + 5000), Uint8Array.from(Buffer.from('x'.repeat(5000))));
});

test('directories and files after the end of a cut image are named', async t => {
    const iso = made(t, { 'a/one': '1', 'b/two': '2', 'c/d/three': '3'.repeat(5000) }, [], []);
    if (!iso) return;
    const raw = rawOf(iso.bytes);
    const whole = await filesOf(readerOf(raw), 0);
    const root = new DataView(iso.bytes.buffer).getUint32(16 * 2048 + 156 + 2, true);
    const extents = Object.fromEntries(['A', 'B', 'C'].map(name => [name, extentOf(raw, name)]));
    const [, middle] = Object.values(extents).sort((a, b) => a - b);
    const cut = await filesOf(readerOf(raw.slice(0, middle * RAW + 2351)), 0);
    const behind = Object.keys(extents).filter(name => extents[name] >= middle);
    assert.deepStrictEqual(cut.faults.map(inShort), behind.map(name => `path /${name} tree/missing ${extents[name]}`));
    assert.ok(cut.faults.length === 2 && cut.files.every(file => file.fault.code === 'extent/cut'));
    const last = whole.files.find(file => file.path === '/C/D/THREE');
    const short = await filesOf(readerOf(raw.slice(0, (last.block + 2) * RAW + 2351)), 0);
    const missing = whole.files.filter(file => file.block + Math.ceil(file.size / 2048) > last.block + 2);
    assert.ok(missing.includes(last));
    assert.deepStrictEqual(short.files.filter(file => file.fault).map(file => file.path), missing.map(file => file.path));
    await assert.rejects(filesOf(readerOf(raw.slice(0, root * RAW)), 0), { code: 'volume/root-elsewhere', facts: { blocks: [root] } });
    await assert.rejects(filesOf(readerOf(raw.slice(0, 16 * RAW)), 0), { code: 'volume/no-descriptor', facts: { block: 16 } });
});

test('a directory that goes on after the end of a cut image is named, and what there is of it is read', async t => {
    const iso = made(t, MANY, [], []);
    if (!iso) return;
    const raw = rawOf(iso.bytes);
    const cut = await filesOf(readerOf(raw.slice(0, (extentOf(raw, 'MANY') + 2) * RAW)), 0);
    assert.match(cut.faults.map(inShort).join('\n'), /^path \/MANY tree\/cut \d+ \d+$/);
    assert.ok(cut.files.length > 50 && cut.files.length < 150);
});

test('a directory that is above itself ends, and is named', async t => {
    const iso = made(t, { 'a/b/c': '1' }, [], []);
    if (!iso) return;
    const raw = rawOf(iso.bytes);
    const [above, below] = [recordOf(raw, 'A'), recordOf(raw, 'B')];
    raw.copyWithin(below + 2, above + 2, above + 18);
    const found = await filesOf(readerOf(raw), 0);
    assert.match(found.faults.map(inShort).join('\n'), /^path \/A\/B tree\/same \d+$/);
    assert.deepStrictEqual(found.files, []);
});

test('files that are interleaved, have several extents or belong to another are refused by name', async t => {
    const iso = made(t, { 'one': '1', 'two': '2', 'three': '3', 'four': '4' }, [], []);
    if (!iso) return;
    const raw = rawOf(iso.bytes);
    raw[recordOf(raw, 'ONE.;1') + 26] = 1;
    raw[recordOf(raw, 'THREE.;1') + 25] = 128; // the next record, TWO, has a different name
    raw[recordOf(raw, 'FOUR.;1') + 25] = 4;
    const { files } = await filesOf(readerOf(raw), 0);
    assert.deepStrictEqual(Object.fromEntries(files.map(file => [file.path, file.fault && file.fault.code])), {
        '/ONE': 'extent/interleaved', '/THREE': 'extent/several', '/TWO': null, '/FOUR': 'extent/associated' });
});

test('an extended attribute record is not part of a file', async t => {
    const iso = made(t, { 'one': '1' }, [], []);
    if (!iso) return;
    const raw = rawOf(iso.bytes);
    raw[recordOf(raw, 'ONE.;1') + 1] = 3;
    const { files } = await filesOf(readerOf(raw), 0);
    assert.strictEqual(files[0].block, iso.listed[0].block + 3);
});

test('damaged directories and volumes are named and end', async t => {
    const iso = made(t, { 'a/one': '1', 'b/two': '2' }, ['-R'], ['-R']);
    if (!iso) return;
    const raw = rawOf(iso.bytes);
    const broken = raw.slice();
    broken[recordOf(broken, 'ONE.;1')] = 20;
    const found = await filesOf(readerOf(broken), 0);
    assert.match(found.faults.map(inShort).join('\n'), /^path \/a tree\/no-record \d+$/);
    assert.deepStrictEqual(found.files.map(file => file.path), ['/b/two']);
    const large = raw.slice();
    new DataView(large.buffer).setUint32(recordOf(large, 'B') + 10, 0xFFFFFFFF, true);
    new DataView(large.buffer).setUint32(recordOf(large, 'B') + 14, 0xFFFFFFFF, false);
    assert.match((await filesOf(readerOf(large), 0)).faults.map(inShort).join('\n'), /^path \/b tree\/large \d+ 4294967295$/);
    const small = raw.slice();
    small[16 * RAW + 16 + 129] = 2;
    await assert.rejects(filesOf(readerOf(small), 0), { code: 'volume/block-size', facts: { size: 512, due: 2048 } });
    await assert.rejects(filesOf(readerOf(new Uint8Array(RAW * 40)), 0), { code: 'volume/no-descriptor' });
});

test('any single byte of the directories may be wrong: the list ends', async t => {
    const iso = made(t, { 'a/one': '1', 'b/two': '2', [`${'l'.repeat(200)}`]: '3' }, ['-R', '-J'], ['-R']);
    if (!iso) return;
    const raw = rawOf(iso.bytes);
    const from = 16 * RAW;
    const to = Math.min(40 * RAW, raw.length);
    for (let at = from; at < to; at += 2) {
        if (raw[at] === 0x77 || (raw[at] === 0 && at % 13)) continue;
        const wrong = raw.slice();
        wrong[at] ^= 1 << at % 8;
        await filesOf(readerOf(wrong), 0).catch(fault => assert.match(fault.code, /^volume\//, fault.stack));
    }
});
