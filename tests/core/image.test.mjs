// The kind of a file, and the base of an image.
import assert from 'node:assert';
import { test } from 'node:test';
import { calls, core, diceOf, readerOf, someBytes } from './common.mjs';
import { POOL, WITHOUT_EDC, at } from './dumps.mjs';
import { localPool } from './pools.mjs';

const { readBytes } = await core('bytes.js');
const { sliceOf, watchedReader } = await core('readers/index.js');
const { baseByAddresses } = await core('disc/disc.js');
const { kindOfFile } = await core('disc/file_type.js');
const { isOneTrack } = await core('disc/cue.js');
const { CONVERTIBLE, convertToRaw, endsAfterLast, rawReader } = await core('tasks/convert.js');

const RAW = 2352;

/** @param {Uint8Array | string} bytes */
const kind = bytes => kindOfFile(calls, readerOf(Buffer.from(bytes), 1000));

/** Consistent sectors from a block on. @param {number} block @param {number} count */
function sectors(block, count) {
    const user = new Uint8Array(2048).fill(block);
    return Buffer.concat(Array.from({ length: count }, (_, i) => calls.encode(calls.address(block + i), user)));
}

/** Sectors with 96 bytes of subchannels added to each. @param {Buffer} raw */
const longer = raw => Buffer.concat(Array.from({ length: raw.length / RAW }, (_, i) =>
    Buffer.concat([raw.subarray(RAW * i, RAW * (i + 1)), Buffer.alloc(96, 0x40)])));

/** The base by addresses. @param {Uint8Array} raw */
const baseOf = raw => baseByAddresses(calls, readerOf(raw, 5000));

test('raw images are known, short ones and cut ones, with audio before and after', async () => {
    const raw = sectors(0, 60);
    for (const count of [1, 2, 3, 51, 60]) assert.strictEqual(await kind(raw.subarray(0, count * RAW)), 'raw');
    assert.strictEqual(await kind(raw.subarray(0, 60 * RAW - 1)), 'raw');
    const audio = Buffer.alloc(3000 * RAW, 1);
    assert.strictEqual(await kind(Buffer.concat([audio, sectors(0, 400)])), 'raw');
    assert.strictEqual(await kind(Buffer.concat([sectors(0, 400), audio])), 'raw');
    const damaged = sectors(0, 60);
    damaged[3] = damaged[RAW + 3] = 0;
    assert.strictEqual(await kind(damaged), 'raw');
});

test('sectors of 2448 bytes are known', async () => {
    const raw = sectors(0, 400);
    for (const count of [1, 2, 3, 49, 51, 98, 102, 400]) {
        assert.strictEqual(await kind(longer(raw.subarray(0, count * RAW))), 'subchannels', `${count} sectors`);
    }
});

test('samples near one another are read together, and of a long image little more than the samples', async () => {
    const short = sectors(0, 180);
    const long = Buffer.concat([short, Buffer.alloc(4000 * RAW)]);
    for (const [image, reads, bytes] of [[short, 10, 4 * short.length], [long, 200, long.length / 4]]) {
        const reader = readerOf(image);
        assert.strictEqual(await kindOfFile(calls, reader), 'raw');
        assert.strictEqual(await baseByAddresses(calls, reader), 0);
        assert.ok(reader.reads.length <= reads, `${reader.reads.length} reads`);
        assert.ok(reader.reads.reduce((sum, { length }) => sum + length, 0) <= bytes);
    }
});

/** Mode 2 sectors from a block on, of both forms. @param {number} block @param {number} count */
const mode2Sectors = (block, count) => Buffer.concat(Array.from({ length: count }, (_, i) => at(block + i, POOL[i % POOL.length])));

/** Sectors without sync fields and headers. @param {Buffer} raw */
const headerless = raw => Buffer.concat(Array.from({ length: raw.length / RAW }, (_, i) => raw.subarray(RAW * i + 16, RAW * (i + 1))));

test('sectors of 2336 bytes are known by their codes, and not by their size or by subheaders that repeat', async () => {
    const image = headerless(mode2Sectors(0, 500));
    for (const count of [1, 2, 3, 147, 500]) assert.strictEqual(await kind(image.subarray(0, count * 2336)), 'headerless', `${count} sectors`);
    const worn = image.map((byte, i) => i % (2336 * 3) === 40 ? byte ^ 1 : byte);
    assert.strictEqual(await kind(worn), 'headerless');
    const without = headerless(Buffer.concat(Array.from({ length: 147 }, (_, i) => WITHOUT_EDC[i % WITHOUT_EDC.length])));
    const filled = byte => Buffer.alloc(147 * 2336, byte);
    for (const other of [without, filled(0), filled(0x55), Buffer.from(someBytes(diceOf(3), 147 * 2336))]) assert.strictEqual(await kind(other), 'audio');
    assert.deepStrictEqual([await kind(image.subarray(0, -1)), await kind(mode2Sectors(0, 500))], ['unknown', 'raw']);
});

/** Converts an image to a raw image. @param {Buffer} image @param {string} form @param {object} how */
async function converted(image, form, how = {}) {
    const sectors = [];
    await convertToRaw({ calls, pool: localPool() }, { name: 'image', reader: readerOf(image, 100000) }, form, bytes => void sectors.push(bytes), how);
    return Buffer.concat(sectors);
}

test('images are converted to raw ones byte by byte, whatever follows or precedes the user data', async () => {
    for (const count of [1, 2, 511, 512, 513, 1200]) {
        for (const base of [0, 45000]) {
            const [mode1, mode2] = [sectors(base, count), mode2Sectors(base, count)];
            const user = Buffer.concat(Array.from({ length: count }, (_, i) => mode1.subarray(RAW * i + 16, RAW * i + 2064)));
            const forms = { iso: [user, mode1], subchannels: [longer(mode2), mode2], headerless: [headerless(mode2), mode2] };
            assert.deepStrictEqual(Object.keys(CONVERTIBLE).sort(), Object.keys(forms).sort());
            for (const [form, [image, due]] of Object.entries(forms)) assert.ok((await converted(image, form, { base })).equals(due), `${form}: ${count} sectors from block ${base} on`);
        }
    }
});

test('a reader of the raw image returns from any place what the conversion writes, without an incomplete last sector', async () => {
    const [mode1, mode2] = [sectors(45000, 1200), mode2Sectors(45000, 1200)];
    const user = Buffer.concat(Array.from({ length: 1200 }, (_, i) => mode1.subarray(RAW * i + 16, RAW * i + 2064)));
    const forms = { iso: [user, mode1], subchannels: [longer(mode2), mode2], headerless: [headerless(mode2), mode2] };
    const dice = diceOf(7);
    for (const [form, [image, due]] of Object.entries(forms)) {
        const reader = rawReader(calls, readerOf(Buffer.concat([image, image.subarray(0, 2000)]), 100000), form, 45000);
        assert.strictEqual(reader.size, due.length, form);
        for (const at of [0, 1, RAW - 1, RAW, 511 * RAW, due.length - 1, due.length, ...Array.from({ length: 30 }, () => dice() % due.length)]) {
            for (const length of [1, 15, RAW, 700 * RAW]) {
                const most = Math.min(length, due.length - at);
                const bytes = await readBytes(reader, at, most);
                assert.ok(due.subarray(at, at + most).equals(bytes), `${form}: ${length} bytes at ${at}`);
            }
        }
        assert.strictEqual((await reader.read(due.length, 10)).length, 0, form);
    }
    const sized = (form, sectors) => endsAfterLast({ size: CONVERTIBLE[form] * sectors }, form, 45000);
    assert.deepStrictEqual(['iso', 'subchannels', 'headerless'].map(form => [sized(form, 404850), sized(form, 404851)]),
        [[false, true], [false, false], [false, true]]);
});

test('a conversion says how far it is, can be cancelled, and refuses what is cut or has no address', async () => {
    const images = { subchannels: longer(sectors(0, 1200)), headerless: headerless(mode2Sectors(0, 1200)) };
    for (const [form, image] of Object.entries(images)) {
        const [seen, signal] = [[], { aborted: false }];
        const progress = (done, all) => { seen.push([done, all]); signal.aborted = done === 1024; };
        await assert.rejects(converted(image, form, { progress, signal }), { code: 'cancelled' });
        assert.deepStrictEqual(seen, [[512, 1200], [1024, 1200]]);
    }
    for (const [form, size] of Object.entries(CONVERTIBLE)) {
        await assert.rejects(converted(Buffer.alloc(size + 1), form), { code: 'convert/cut', facts: { name: 'image', size: size + 1, unit: size } });
        if (form === 'subchannels') continue;
        assert.strictEqual((await converted(Buffer.alloc(2 * size), form, { base: 449848 })).length, 2 * RAW);
        await assert.rejects(converted(Buffer.alloc(2 * size), form, { base: 449849 }), { code: 'convert/after-last' });
    }
});

test('an image of Nero is known by how it ends, and is not taken for one that is cut', async () => {
    const image = sectors(0, 20);
    assert.strictEqual(await kind(Buffer.concat([image, Buffer.from('CUEX....END!NER5\0\0\0\0\0\0\x10\0')])), 'nrg');
    assert.strictEqual(await kind(Buffer.concat([image, Buffer.from('CUES....END!NERO\0\0\x10\0')])), 'nrg');
    assert.strictEqual(await kind(Buffer.concat([image, Buffer.from('NERO\0\0\x10\0....')])), 'raw');
});

/** The bytes that scrambling XORs to those after the sync field: a register of 15 bits (ECMA-130, Annex B). */
function scrambling(size) {
    let register = 1;
    return Uint8Array.from({ length: size }, () => {
        const byte = register & 255;
        for (let i = 0; i < 8; i++) register = register >> 1 | ((register ^ register >> 1) & 1) << 14;
        return byte;
    });
}

test('a scrambled image is known by its headers', async () => {
    const [image, added] = [Uint8Array.from(sectors(0, 60)), scrambling(RAW - 12)];
    assert.deepStrictEqual([...added.subarray(0, 6)], [0x01, 0x80, 0x00, 0x60, 0x00, 0x28]);
    const scrambled = image.map((byte, i) => i % RAW < 12 ? byte : byte ^ added[i % RAW - 12]);
    assert.strictEqual(await kind(scrambled), 'scrambled');
    // A few scrambled sectors are not enough.
    const some = image.slice();
    some.set(scrambled.subarray(0, 10 * RAW));
    assert.deepStrictEqual([await kind(some), await kind(image)], ['raw', 'raw']);
    const other = image.map((byte, i) => i % RAW === 15 ? 0x63 : byte);
    assert.strictEqual(await kind(other), 'raw');
});

/** Channel Q of a sector in track 1, with its checksum, among channels P and R to W. */
function subchannels(sector) {
    const bytes = new Uint8Array(96);
    bytes.set([0x41, 1, 1, 0, 0, sector & 127, 0, 0, 2, sector & 127], 12);
    let sum = 0;
    for (const byte of bytes.subarray(12, 22)) {
        sum ^= byte << 8;
        for (let bit = 0; bit < 8; bit++) sum = (sum & 0x8000 ? sum << 1 ^ 0x1021 : sum << 1) & 0xFFFF;
    }
    bytes.set([~sum >> 8 & 255, ~sum & 255], 22);
    return bytes;
}

test('a file of subchannels is known by the checksums of channel Q', async () => {
    const file = Buffer.concat(Array.from({ length: 500 }, (_, i) => subchannels(i)));
    const worn = file.map((byte, i) => i % (96 * 3) === 15 ? 7 : byte);
    assert.deepStrictEqual([await kind(file), await kind(worn), await kind(file.subarray(0, 96))], ['sub', 'sub', 'sub']);
    for (const other of [Buffer.alloc(96 * 500), Buffer.alloc(96 * 500, 255), file.subarray(1), file.map((byte, i) => i % 96 === 12 ? byte ^ 1 : byte)]) {
        assert.strictEqual(await kind(other), 'unknown');
    }
});

test('other files are known by how they begin', async () => {
    const wave = Buffer.concat([Buffer.from('RIFF\0\0\0\0WAVEfmt '), Buffer.alloc(RAW)]);
    const iso = Buffer.alloc(40 * 2048);
    iso.write('CD001', 16 * 2048 + 1);
    const files = [['chd', 'MComprHD....'], ['ecm', 'ECM\0....'], ['archive', 'PK\x03\x04..'], ['archive', 'Rar!..'], ['wave', wave],
        ['iso', iso], ['empty', ''], ['audio', Buffer.alloc(5 * RAW, 3)], ['unknown', Buffer.alloc(5 * RAW + 1, 3)], ['unknown', 'x'],
        ['unknown', 'RIFF....AVI '], ['archive', Buffer.from([0x1F, 0x8B, 8, 0])], ['mds', 'MEDIA DESCRIPTOR\x01\x05'], ['ccd', '[CloneCD]\r\nVersion=3\r\n'],
        ['toc', 'CD_ROM\n\n// Track 1\nTRACK MODE1_RAW\nDATAFILE "data.bin"\n'], ['toc', 'CD_DA\r\nTRACK AUDIO\r\nFILE "a.wav" 0\r\n'], ['unknown', 'CD_ROM'],
        ['cue', 'FILE "a.bin" BINARY\r\n  TRACK 01 MODE1/2352\r\n    INDEX 01 00:00:00\r\n']];
    const sheet = 'file "魔.bin" binary\r\ntrack 01 mode1/2352\r\nindex 01 00:00:00\r\n';
    const wide = Buffer.from(`\uFEFF${sheet}`, 'utf16le');
    files.push(['cue', sheet], ['cue', wide], ['cue', Buffer.from(wide).swap16()]);
    files.push(['text', 'a line\n'.repeat(20)], ['text', '魔\r\n'.repeat(2000)], ['text', 'a line\n'.repeat(RAW / 7)], ['unknown', 'words '.repeat(100)],
        ['unknown', 'a line\n'.repeat(9)], ['unknown', 'a line\0\n'.repeat(20)], ['unknown', Buffer.from('Gerät\n'.repeat(20), 'latin1')]);
    for (const [due, bytes] of files) assert.strictEqual(await kind(bytes), due);
});

test('patches of other tools, workbooks, and GDIs are known, also by their last bytes', async () => {
    const zip = (...names) => `PK\x03\x04${names.map(it => `${'\0'.repeat(26)}${it}${'x'.repeat(40000)}`).join('')}PK\x01\x02${names.join('PK\x01\x02')}`;
    const ods = `PK\x03\x04${'\0'.repeat(26)}mimetypeapplication/vnd.oasis.opendocument.spreadsheet${'x'.repeat(40000)}`;
    const gdi = '3\r\n1 0 4 2352 track01.bin 0\r\n2 756 0 2352 track02.raw 0\r\n3 45000 4 2352 "track 03.bin" 0\r\n';
    const patches = ['PPF10\0', 'PPF20\x01', 'PPF30\x02', '\xD6\xC3\xC4\0', '%XDZ004%', '%XDELTA%', 'PATCH\0\0\x01EOF', 'PATCHEOF\0\x10\0', 'BPS1', 'UPS1'];
    const files = [...patches.map(it => ['patch', `${it}${it.endsWith('EOF') || it.startsWith('PATCHE') ? '' : 'x'.repeat(5000)}`]),
        ['workbook', zip('[Content_Types].xml', 'xl/workbook.xml')], ['workbook', ods], ['archive', zip('[Content_Types].xml', 'word/document.xml')],
        ['gdi', gdi], ['gdi', gdi.replaceAll('\r', '')], ['unknown', 'PATCH NOTES'], ['unknown', 'PPF4'], ['unknown', '3\n4 5\n'], ['unknown', '1 1 4 4 5\n']];
    for (const [due, bytes] of files) assert.strictEqual(await kind(Buffer.from(bytes, 'latin1')), due, bytes.slice(0, 20));
});

test('the base of an image is what its addresses agree in', async () => {
    for (const base of [0, 1, 225, 449000]) {
        for (const count of [1, 7, 8, 9, 20, 700]) assert.strictEqual(await baseOf(sectors(base, count)), base);
    }
});

test('other addresses, audio, other modes and bytes that are no address do not change the base', async () => {
    const raw = Buffer.concat([Buffer.alloc(3 * RAW, 9), sectors(1000, 20), Buffer.alloc(RAW - 1)]);
    sectors(7, 1).copy(raw, 5 * RAW);
    raw.set([0xAA, 0xBB, 0xCC], 6 * RAW + 12);
    raw.set([0x00, 0x01, 0x00], 7 * RAW + 12); // before block 0
    raw[8 * RAW + 15] = 2;
    assert.strictEqual(await baseOf(raw), 997);
});

test('the base of an image of Mode 2 is what its addresses say, unless there is Mode 1', async () => {
    const mode2 = base => {
        const raw = sectors(base, 30);
        for (let i = 0; i < 30; i++) raw[i * RAW + 15] = 2;
        return raw;
    };
    for (const base of [0, 1, 225, 449000]) assert.strictEqual(await baseOf(mode2(base)), base);
    assert.strictEqual(await baseOf(Buffer.concat([mode2(0).subarray(0, 15 * RAW), mode2(0).subarray(0, 15 * RAW)])), null);
    assert.strictEqual(await baseOf(Buffer.concat([mode2(500), sectors(1030, 2)])), 1000);
});

test('no base is guessed: half of the addresses are not enough', async () => {
    assert.strictEqual(await baseOf(Buffer.concat([sectors(10, 5), sectors(300, 5)])), null);
    assert.strictEqual(await baseOf(Buffer.concat([sectors(10, 5), sectors(300, 6)])), 295);
    for (const none of [Buffer.alloc(4 * RAW, 9), Buffer.alloc(0)]) assert.strictEqual(await baseOf(none), null);
});

test('the first sound sectors say the base of an image in which sectors are missing, or too many', async () => {
    const disc = sectors(30, 400);
    const cut = (from, to) => disc.subarray(RAW * from, RAW * to);
    for (const [image, base] of [[[cut(0, 100), cut(107, 400)], 30], [[cut(0, 20), cut(0, 5), cut(20, 400)], 30], [[cut(5, 400)], 35]]) {
        assert.strictEqual(await baseOf(Buffer.concat(image)), base);
    }
    const damaged = Buffer.concat([cut(0, 20), cut(40, 400)]);
    for (let i = 0; i < 5; i++) damaged[i * RAW + 100] ^= 1;
    assert.strictEqual(await baseOf(damaged), 50, 'most of the first sectors are not sound');
    assert.strictEqual(await baseOf(Buffer.concat([sectors(900, 2), disc])), 28, 'the first sectors do not agree');
});

test('an image that begins before block 0 has a base below 0', async () => {
    assert.strictEqual(await baseOf(Buffer.concat([Buffer.alloc(150 * RAW), sectors(0, 10)])), -150);
});

test('a reader that is watched says where each read begins, forward too if it can be read so', async () => {
    const [plain, told] = [readerOf(new Uint8Array(9)), []];
    const watch = reader => watchedReader(reader, at => { told.push(at); });
    assert.strictEqual(watch(plain).forward, undefined);
    const forward = watch({ ...plain, forward: () => plain }).forward();
    for (const reader of [watch(plain), forward]) assert.strictEqual((await reader.read(told.length, 2)).length, 2);
    assert.deepStrictEqual([told, plain.reads.map(({ at }) => at)], [[0, 1], [0, 1]]);
});

test('an image is one track if it begins with block 0, has no tail, and is of Mode 1', async () => {
    const whole = sectors(0, 100);
    const isOne = (raw, more) => isOneTrack(calls, { reader: readerOf(raw), addressed: 0, tail: 0, ...more });
    assert.strictEqual(await isOne(whole), true);
    assert.deepStrictEqual([await isOne(whole, { addressed: 1 }), await isOne(whole, { addressed: null }), await isOne(whole, { tail: 1 })], [false, false, false]);
    for (const place of [0, 99]) {
        const other = Buffer.from(whole);
        other[RAW * place + 15] = 2;
        assert.strictEqual(await isOne(other), false);
    }
});

test('a slice of a reader reads nothing outside', async () => {
    const dice = diceOf(3);
    const bytes = Uint8Array.from({ length: 100 }, () => dice(256));
    const slice = sliceOf(readerOf(bytes), 10, 40);
    assert.strictEqual(slice.size, 30);
    assert.deepStrictEqual(await slice.read(0, 30), bytes.slice(10, 40));
    assert.deepStrictEqual(await slice.read(25, 100), bytes.slice(35, 40));
    assert.strictEqual((await slice.read(30, 5)).length, 0);
    assert.strictEqual((await slice.read(50, 5)).length, 0);
    assert.strictEqual(slice.lent, undefined);
    const lending = sliceOf({ ...readerOf(bytes), lent: (at, length) => [at, length] }, 10, 40);
    assert.deepStrictEqual(lending.lent(5, 7), [15, 7]);
});
