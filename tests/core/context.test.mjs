// The texts around hits, and the files that contain them: for many hits at once the same as for each alone, with less work.
import assert from 'node:assert';
import { test } from 'node:test';
import { core, diceOf, encoded, readerOf, tableOf } from './common.mjs';
import { rawOf } from './discs.mjs';

const { FilesAlong, anyBegins, contextOf, contextsOf, filesWith } = await core('texts/all_texts.js');
const { encodeText } = await core('encodings/encoding.js');
const { encodingOf } = await core('encodings/encodings.js');

const USER = 2048;
const BASE = 225;

/** An image of `sectors` sectors with few different byte values, and hits in it, some close together and some far apart. */
function hitsOf(seed, sectors, count) {
    const dice = diceOf(seed);
    const bytes = [0x82, 0xA0, 0x83, 0x41, 0xE3, 0x81, 0x82, 0x00, 0x30, 0xFF, 0x8F, 0xA1];
    const user = Uint8Array.from({ length: sectors * USER }, () => bytes[dice(bytes.length)]);
    user.fill(0x83, 3 * USER, 5 * USER);
    const reader = readerOf(rawOf(user));
    const places = Array.from({ length: count }, () => dice(sectors * USER - 40)).concat(0, 1, sectors * USER - 4).sort((a, b) => a - b);
    const hits = places.map(at => ({ block: BASE + Math.floor(at / USER), offset: at % USER, size: 1 + dice(4) }));
    return { image: { reader, base: BASE, sectors }, hits, reader };
}

/** @param {AsyncIterable<Iterable<any>>} groups */
async function listed(groups) {
    const found = [];
    for await (const group of groups) found.push(...group);
    return found;
}

for (const name of ['CP932', 'EUC-JP', 'UTF-8', 'UTF-16LE', 'hex', 'a table']) {
    test(`many hits have the contexts that each has by itself: ${name}`, async () => {
        const own = tableOf(encoded('82A083=a\n82=b\n83418281E38282A0=c\n00=d\n41=e\n'));
        const encoding = name === 'a table' ? own : encodingOf(name);
        const { image, hits } = hitsOf(7, 900, 700);
        const found = await listed(contextsOf(image, encoding, hits));
        assert.deepStrictEqual(found.map(it => it.hit), hits);
        for (const { hit, context } of found) assert.deepStrictEqual(context, await contextOf(image, encoding, hit));
        if (name === 'CP932') assert.ok(found.some(({ context }) => context.doubt !== null));
    });
}

test('a hit has the characters of 24 bytes before it and after it, and what is known if it may begin in the middle of one', async () => {
    const user = Buffer.concat([Buffer.alloc(3000, 'x'), encodeText(encodingOf('CP932'), 'まあい'), Buffer.alloc(1090, 'y')]);
    const image = { reader: readerOf(rawOf(user)), base: BASE, sectors: 2 };
    const context = (at, size) => contextOf(image, encodingOf('CP932'), { block: BASE + Math.floor(at / USER), offset: at % USER, size });
    const [y, x] = ['y', 'x'].map(letter => Array.from({ length: 22 }, () => letter));
    const due = { bytes: Uint8Array.of(0x82, 0xA0), doubt: null, before: [...x, 'ま'], hit: 'あ', after: ['い', ...y] };
    assert.deepStrictEqual(await context(3002, 2), due);
    const inside = { bytes: Uint8Array.of(0xA0, 0x82), doubt: { code: 'find/inside', facts: { before: 0x82 } },
        before: [...x.slice(1), 'ま'], hit: '\uFFFD\uFFFD', after: ['｢', ...y, 'y'] };
    assert.deepStrictEqual(await context(3003, 2), inside);
    const hit = at => ({ block: BASE + Math.floor(at / USER), offset: at % USER, size: 2 });
    const begins = places => anyBegins(image, encodingOf('CP932'), places.map(hit));
    assert.deepStrictEqual([await begins([3003, 3005]), await begins([3003, 3004, 3005])], [false, true]);
    assert.deepStrictEqual((await context(0, 1)).before, []);
    assert.deepStrictEqual((await context(4095, 1)).after, []);
});

test('what lies near one another is read at once, and not what lies between hits that are far apart', async () => {
    const near = hitsOf(9, 200, 20000);
    assert.strictEqual((await listed(contextsOf(near.image, encodingOf('CP932'), near.hits))).length, 20003);
    assert.ok(near.reader.reads.length <= 3, `${near.reader.reads.length} reads`);
    const far = hitsOf(9, 9000, 5);
    await listed(contextsOf(far.image, encodingOf('CP932'), far.hits));
    const sum = far.reader.reads.reduce((all, { length }) => all + length, 0);
    assert.ok(sum < 3 * 1024 * 2352, `${sum} bytes`);
});

test('more hits in a few sectors than a call takes arguments have their contexts', async () => {
    const image = { reader: readerOf(rawOf(new Uint8Array(200 * USER))), base: 0, sectors: 200 };
    const hits = Array.from({ length: 200000 }, (_, at) => ({ block: Math.floor(at / USER), offset: at % USER, size: 1 }));
    let count = 0;
    for await (const group of contextsOf(image, encodingOf('hex'), hits)) for (const { context } of group) count += Number(context.hit === '00');
    assert.strictEqual(count, hits.length);
});

/** Random files in the order of their blocks, some of which share sectors. */
function filesOf(seed, count) {
    const dice = diceOf(seed);
    const files = Array.from({ length: count }, (_, i) => ({ path: `/${i}`, block: dice(4 * count), size: dice(6) * 1500, fault: null }));
    return files.sort((a, b) => a.block - b.block);
}

test('a place lies in a file by the bytes of the extent, and of those before it', () => {
    const files = [{ path: '/a', block: 10, size: 5000, before: 4096 }, { path: '/b', block: 12, size: 904, before: 0 }];
    const found = (block, offset) => filesWith(files, { block, offset });
    assert.deepStrictEqual(found(12, 7), [{ path: '/a', at: 4096 + 2 * 2048 + 7 }, { path: '/b', at: 7 }]);
    assert.deepStrictEqual([found(10, 0), found(12, 904), found(9, 2047)], [[{ path: '/a', at: 4096 }], [], []]);
});

test('the files of places in their order, and in any order, are those of each place', () => {
    const dice = diceOf(3);
    const files = filesOf(4, 300);
    const places = Array.from({ length: 3000 }, () => ({ block: dice(1300), offset: dice(USER) }));
    for (const some of [places, [...places].sort((a, b) => a.block - b.block)]) {
        const along = new FilesAlong(files);
        for (const place of some) assert.deepStrictEqual(along.with(place), filesWith(files, place));
    }
});

test('of many files few are looked at for each of places in their order', () => {
    let looks = 0;
    const files = filesOf(5, 4000).map(file => Object.defineProperty({ ...file }, 'block', { get() { looks += 1; return file.block; } }));
    const along = new FilesAlong(files);
    for (let block = 0; block < 16000; block++) along.with({ block, offset: 7 });
    assert.ok(looks < 10 * 16000, `${looks} looks at files for 16000 places`);
});
