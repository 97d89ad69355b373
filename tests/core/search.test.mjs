// The search in user data: hits across borders, compared with a naive search.
import assert from 'node:assert';
import { test } from 'node:test';
import { core, diceOf, tableOf } from './common.mjs';
import { rawOf } from './discs.mjs';

const { findIn, joinFound, sectorsBeyond } = await core('texts/find.js');
const { encodingOf } = await core('encodings/encodings.js');
const { encodeText } = await core('encodings/encoding.js');
const { unitsAlike } = await core('texts/matching.js');

const RAW = 2352;
const USER = 2048;
const ALL = 1e9;

/** The hits of one text. */
const findOne = (bytes, first, { wanted, ...limits }) => findIn(bytes, first, { texts: [wanted], ...limits })[0];

/** One unit with one spelling for each byte. @param {string} digits */
const bytesOf = digits => encodingOf('hex').units(digits);

/** @param {Uint8Array[][]} wanted @returns {Uint8Array[]} every way to spell it */
function spelled(wanted) {
    if (wanted.length === 0) return [new Uint8Array(0)];
    const [first, ...rest] = wanted;
    return spelled(rest).flatMap(end => first.map(begin => Uint8Array.from([...begin, ...end])));
}

/**
 * Every place at which a text begins, found byte by byte.
 * @param {Uint8Array} user
 * @param {Uint8Array[][]} wanted
 * @param {number} base
 */
function naive(user, wanted, base) {
    const texts = spelled(wanted);
    const hits = [];
    for (let at = 0; at < user.length; at++) {
        const text = texts.find(it => at + it.length <= user.length && it.every((byte, i) => user[at + i] === byte));
        if (text) hits.push({ block: base + Math.floor(at / USER), offset: at % USER, size: text.length });
    }
    return hits;
}

/**
 * The result by ranges of `range` sectors.
 * @param {Uint8Array} raw
 * @param {Uint8Array[][]} wanted
 * @param {{ base: number, range: number, limit: number }} how
 */
function byRanges(raw, wanted, { base, range, limit }) {
    const parts = [];
    for (let first = 0; first < raw.length / RAW; first += range) {
        const bytes = raw.slice(first * RAW, (first + range + sectorsBeyond(wanted)) * RAW);
        parts.push(findOne(bytes, base + first, { wanted, count: range, limit }));
    }
    return joinFound(parts, limit);
}

/** Random user data with few different values, so that there are many hits. @param {number} seed @param {number} sectors */
function randomUser(seed, sectors) {
    const dice = diceOf(seed);
    return Uint8Array.from({ length: sectors * USER }, () => dice(3));
}

for (const range of [1, 2, 3, 7]) {
    test(`ranges of ${range} sectors have the hits of a naive search, each once`, () => {
        const user = randomUser(range, 7);
        const raw = rawOf(user);
        for (const digits of ['00', '0102', '020200010201', '010101010101', '01'.repeat(40)]) {
            const due = naive(user, bytesOf(digits), 225);
            const found = byRanges(raw, bytesOf(digits), { base: 225, range, limit: ALL });
            assert.deepStrictEqual(found, { count: due.length, hits: due });
        }
    });

    test(`ranges of ${range} sectors: a text cut by a border at each of its bytes is found once`, () => {
        const text = encodeText(encodingOf('CP932'), '漢字とEND');
        for (const border of [1, 2, 3, 7]) {
            for (let cut = 0; cut <= text.length; cut++) {
                const user = new Uint8Array(9 * USER).fill(0x8A);
                user.set(text, border * USER - cut);
                const found = byRanges(rawOf(user), encodingOf('CP932').units('漢字とEND'), { base: 0, range, limit: 10 });
                const block = cut > 0 ? border - 1 : border;
                const offset = cut > 0 ? USER - cut : 0;
                assert.deepStrictEqual(found.hits, [{ block, offset, size: text.length }], `border ${border}, cut ${cut}`);
                assert.strictEqual(found.count, 1);
            }
        }
    });

    test(`ranges of ${range} sectors: a text longer than they are, and the end of the image`, () => {
        const text = randomUser(99, 5).subarray(0, 4 * USER + 100);
        const user = new Uint8Array(9 * USER).fill(0x55);
        user.set(text, 9 * USER - text.length);
        const wanted = [...text].map(byte => [Uint8Array.of(byte)]);
        const how = { base: 0, range, limit: 10 };
        assert.deepStrictEqual(byRanges(rawOf(user), wanted, how).hits, [{ block: 4, offset: USER - 100, size: text.length }]);
        assert.strictEqual(byRanges(rawOf(user).slice(0, 8 * RAW), wanted, how).count, 0);
    });
}

test('a character that stands twice is found in both spellings', () => {
    const user = new Uint8Array(4 * USER);
    const places = [[2047, [0xFB, 0xFC]], [2100, [0xEE, 0xE0]], [4095, [0xEE, 0xE0]], [5000, [0xEE, 0xFC]]];
    for (const [at, bytes] of places) user.set(bytes, at);
    for (const range of [1, 2, 4]) {
        const found = byRanges(rawOf(user), encodingOf('CP932').units('髙'), { base: 10, range, limit: ALL });
        assert.deepStrictEqual(found.hits.map(it => (it.block - 10) * USER + it.offset), [2047, 2100, 4095]);
    }
});

test('spellings of several lengths: every one is found, with its size', () => {
    const own = tableOf(new TextEncoder().encode('01=a\n0102=a\n02=b\n0202=b\n00=c'));
    const user = randomUser(5, 3);
    for (const text of ['ab', 'ba', 'bab', 'aabb', 'cab', 'a']) {
        const wanted = own.units(text);
        const due = naive(user, wanted, 0).map(({ block, offset }) => `${block}:${offset}`);
        for (const range of [1, 2, 3]) {
            const { count, hits } = byRanges(rawOf(user), wanted, { base: 0, range, limit: ALL });
            assert.deepStrictEqual(hits.map(it => `${it.block}:${it.offset}`), due, text);
            assert.strictEqual(count, due.length);
            for (const hit of hits) {
                const at = hit.block * USER + hit.offset;
                assert.ok(spelled(wanted).some(it => Buffer.compare(it, user.subarray(at, at + hit.size)) === 0), text);
            }
        }
    }
});

/** Different spellings of 1 to 3 bytes, of which longer ones occur before and after those with which they begin. @param {number} count */
function manySpellings(count) {
    const dice = diceOf(17);
    const spellings = new Map();
    while (spellings.size < count) {
        const bytes = Array.from({ length: 1 + dice(3) }, () => dice(7));
        spellings.set(bytes.join(), bytes);
    }
    return [...spellings.values()];
}

test('of many spellings that stand at a place the first one of the part is found', () => {
    const user = randomUser(21, 3);
    for (const wanted of [[manySpellings(60)], [manySpellings(60), [[1]], [[2]]]]) {
        const parts = wanted.map(part => part.map(bytes => Uint8Array.from(bytes)));
        const due = naive(user, parts, 4);
        assert.ok(new Set(due.map(({ size }) => size)).size === 3);
        assert.deepStrictEqual(findOne(rawOf(user), 4, { wanted: parts, count: 3, limit: ALL }), { count: due.length, hits: due });
    }
});

test('many spellings are looked up at a place, and not compared there one by one', () => {
    let looks = 0;
    const counting = { get: (bytes, name) => { looks += 1; return bytes[name]; } };
    const others = [0xAAA, 0x555]; // the values in the image
    const numbers = Array.from({ length: 4096 }, (_, i) => i).filter(i => !others.includes(i));
    const looksIn = (/** @type {number} */ sectors) => {
        const part = numbers.map(i => new Proxy(Array.from({ length: 12 }, (_, k) => i >> k & 1), counting));
        looks = 0;
        const user = Uint8Array.from({ length: sectors * USER }, (_, i) => i % 2);
        assert.strictEqual(findOne(rawOf(user), 0, { wanted: [part], count: sectors, limit: 1 }).count, 0);
        return looks;
    };
    const more = looksIn(3) - looksIn(1);
    assert.ok(more < 4 * USER, `${more} looks at spellings for ${2 * USER} places`);
});

test('several texts at once have the hits that each has by itself', () => {
    const raw = rawOf(randomUser(12, 5));
    const texts = ['0102', '00', '020200010201'].map(bytesOf);
    for (const how of [{ count: 5, limit: ALL }, { count: 2, limit: 3 }]) {
        const due = texts.map(wanted => findOne(raw, 30, { wanted, ...how }));
        assert.deepStrictEqual(findIn(raw, 30, { texts, ...how }), due);
        assert.ok(due.every(({ count }) => count > 0));
    }
});

test('a text of more characters than a call takes arguments, and one with as many spellings, are found', () => {
    const user = new Uint8Array(100 * USER).fill(0x61, 5, 150005).fill(0x62, 5, 6);
    const long = unitsAlike(encodingOf('CP932'), `b${'a'.repeat(149999)}`);
    assert.deepStrictEqual(findOne(rawOf(user), 0, { wanted: long, count: 1, limit: 5 }), { count: 1, hits: [{ block: 0, offset: 5, size: 150000 }] });
    const lines = Array.from({ length: 130000 }, (_, i) => `${(0x61000000 + i).toString(16)}=a\n`);
    const many = unitsAlike(tableOf(Buffer.from(lines.join(''))), 'a');
    user.fill(0).set([0x61, 1, 3, 4], 400);
    const found = findOne(rawOf(user), 0, { wanted: many, count: 1, limit: 5 });
    assert.deepStrictEqual([sectorsBeyond(many), found], [1, { count: 1, hits: [{ block: 0, offset: 400, size: 4 }] }]);
});

test('all hits are counted, and the first ones kept', () => {
    const raw = rawOf(new Uint8Array(9 * USER));
    for (const range of [1, 4, 9]) {
        const found = byRanges(raw, bytesOf('0000'), { base: 3, range, limit: 5 });
        assert.strictEqual(found.count, 9 * USER - 1);
        assert.deepStrictEqual(found.hits, [0, 1, 2, 3, 4].map(offset => ({ block: 3, offset, size: 2 })));
        assert.deepStrictEqual(byRanges(raw, bytesOf('0000'), { base: 3, range, limit: 0 }).hits, []);
    }
});

test('what is rare in one range and not in the next is found in both', () => {
    const user = new Uint8Array(6 * USER);
    user.fill(7, 0, 3 * USER);
    user.set([7, 0], 3 * USER - 1);
    user.set([7, 0], 5 * USER - 1);
    assert.deepStrictEqual(byRanges(rawOf(user), bytesOf('0700'), { base: 0, range: 3, limit: 9 }).hits.map(it => it.block), [2, 4]);
});

test('no text and no image have no hits', () => {
    assert.deepStrictEqual(findOne(rawOf(new Uint8Array(USER)), 4, { wanted: [], count: 1, limit: 5 }), { count: 0, hits: [] });
    assert.deepStrictEqual(joinFound([], 5), { count: 0, hits: [] });
    assert.strictEqual(findOne(new Uint8Array(0), 0, { wanted: bytesOf('00'), count: 7, limit: 5 }).count, 0);
    assert.deepStrictEqual([0, 1, 2, 2049, 2050].map(size => sectorsBeyond(bytesOf('00'.repeat(size)))), [0, 0, 1, 1, 2]);
});

test('the parity and the header of a sector are not searched', () => {
    const raw = rawOf(new Uint8Array(2 * USER)); // 77 everywhere except in the user data
    assert.strictEqual(byRanges(raw, bytesOf('77'), { base: 0, range: 2, limit: 5 }).count, 0);
});
