// Reading scripts whose bytes arrive in pieces.

import assert from 'node:assert/strict';
import { test } from 'node:test';
import { MESSAGES } from '../lib/messages.mjs';
import { calls, core, cutAt, cutBy, decoded, encoded, newCalls } from './common.mjs';

const { Refusal, readScript, readLines, scriptParts } = await core('script/script.js');
const { MOST_PATCHES, MOST_SCRIPT_BYTES, VERB } = await core('module/records.js');

const SCRIPTS = [
    'cdpatch 2\r\n# a note\n\n \tset 7 0 4142 was 6162\r\nfill 3 9 12 00\nrebuild 7\n\r\naddress 3 00:02:05\nset 7 1 43',
    'cdpatch 1\nrebuild 1\r\n',
    'cdpatch 1\nrebuild 1\r',
    '\r\n\r\ncdpatch 1\n\rrebuild 1\n',
    '\n# nothing\r\n',
    '',
    'cdpatch 1\nset 0 0 4\nset 0 0 4x\n',
    'cdpatch 1\naddress 0 00:02:00\n',
];

async function* given(pieces) {
    yield* pieces;
}

/** A script as plain values, or the patches of a long one. */
async function read(pieces, long = false) {
    const made = await readScript(calls, pieces, long);
    if (made instanceof Refusal) return { refused: decoded(made.text), tooLong: made.tooLong };
    return long ? { bases: made.bases, patches: made.parts.flatMap(part => part.patches) } : made;
}

test('a script cut at each byte is the same script', async () => {
    for (const script of SCRIPTS.map(encoded)) for (const long of [false, true]) {
        const whole = await read([script], long);
        for (let at = 0; at <= script.length; at++) assert.deepEqual(await read(cutAt(script, at), long), whole, `cut at ${at}`);
        for (const size of [1, 2, 3, 7]) assert.deepEqual(await read(given(cutBy(script, size)), long), whole, `pieces of ${size}`);
    }
});

test('a long script is the same if what is cut at a time ends at any byte of it', async () => {
    for (const script of [SCRIPTS[0], SCRIPTS[3], SCRIPTS[6]].map(encoded)) {
        const due = await read([encoded('#\n'), script], true);
        for (let at = 0; at <= script.length; at++) {
            const before = encoded(`#${'x'.repeat((1 << 19) - at - 2)}\n`);
            assert.deepEqual(await read([Buffer.concat([before, script])], true), due, `at ${at}`);
        }
    }
});

test('a script is refused by the same line whether it may be long or not', async () => {
    for (const script of [...SCRIPTS, ...SCRIPTS.map(it => `${it}\nset 1`), 'cdpatch 1', 'cdpatch 9\n', 'rebuild 1\ncdpatch 1\n']) {
        const [due, came] = [await read([encoded(script)]), await read([encoded(script)], true)];
        assert.equal(came.refused, due.refused, script);
    }
    assert.deepEqual(await read([encoded(SCRIPTS[6])]), { refused: `script line 2: ${MESSAGES.bad_hex}\n`, tooLong: false });
    assert.deepEqual(await read([encoded(SCRIPTS[4])]), { refused: `script line 3: ${MESSAGES.no_head}\n`, tooLong: false });
});

test('lines of a long script end in LF or CR LF', async () => {
    const plain = await read([encoded('cdpatch 1\n\nrebuild 1\nset 0 0 41\n')], true);
    assert.equal(plain.patches.length, 2);
    for (const script of ['cdpatch 1\r\n\r\nrebuild 1\r\nset 0 0 41\r\n', 'cdpatch 1\r\n\nrebuild 1\r\nset 0 0 41']) {
        assert.deepEqual(await read([encoded(script)], true), plain);
    }
    assert.equal((await read([encoded('cdpatch 1\nset 0 0 41\r')], true)).refused, `script line 2: ${MESSAGES.bad_hex}\n`);
});

test('a later version of the language is no fault', async () => {
    const later = newCalls();
    const readLine = later.readLine.bind(later);
    later.readLine = (version, earlier, from, size) => {
        const head = decoded(later.held(from, from + size)) === 'cdpatch 9';
        return version === 0 && head ? 256 : readLine(version === 256 ? 2 : version, earlier, from, size);
    };
    const jobBegin = later.jobBegin.bind(later);
    later.jobBegin = (script, ...how) => jobBegin(script.map(it => decoded(it) === 'cdpatch 9' ? encoded('cdpatch 2') : it), ...how);
    const lines = readLines(later, encoded('cdpatch 9\naddress 3 00:02:05\n'));
    assert.deepEqual(lines.patches, readLines(calls, encoded('cdpatch 2\naddress 3 00:02:05\n')).patches);
    assert.equal(decoded(Buffer.concat(scriptParts(lines)[0].pieces())), 'cdpatch 9\naddress 3 00:02:05\n');
});

test('what a patch says', async () => {
    const { patches } = await read([encoded(SCRIPTS[0])], true);
    assert.deepEqual(patches.map(({ number, block, old }) => [number, block, old]),
        [[5, 3, null], [8, 3, null], [4, 7, 2], [6, 7, null], [9, 7, null]]);
    const [fill, address, set, rebuild, plain] = patches.map(({ line }) => {
        calls.hold(line);
        calls.readLine(2, 0, 0, line.length);
        return calls.patchRead();
    });
    assert.deepEqual([fill.verb, fill.offset, fill.size, fill.value, fill.fresh.length, fill.old], [VERB.FILL, 9, 12, 0, 0, null]);
    assert.deepEqual([address.verb, ...address.address], [VERB.ADDRESS, 0, 2, 5]);
    assert.deepEqual([set.verb, decoded(set.fresh), decoded(set.old)], [VERB.SET, 'AB', 'ab']);
    assert.deepEqual([rebuild.verb, rebuild.block, rebuild.offset, rebuild.size], [VERB.REBUILD, 7, 0, 0]);
    assert.deepEqual([plain.offset, decoded(plain.fresh), plain.old], [1, 'C', null]);
});

test('patches of equal blocks of a long script stay in the order of their lines', async () => {
    const blocks = Array.from({ length: 3000 }, (_, i) => (i * 7) % 5);
    const { patches } = await read([encoded(`cdpatch 1\n${blocks.map(block => `rebuild ${block}\n`).join('')}`)], true);
    assert.equal(patches.length, 3000);
    for (let i = 1; i < patches.length; i++) {
        const [a, b] = [patches[i - 1], patches[i]];
        assert.ok(a.block < b.block || (a.block === b.block && a.number < b.number), `patch ${i}`);
    }
});

test('of a long script only the lines that say something are read by a call each', async () => {
    const empty = '\n'.repeat(3 << 20);
    for (const [text, due, most] of [[`cdpatch 1\n${empty}`, [], 100], [`${empty}cdpatch 1\n#\nrebuild 3${empty}`, [(3 << 20) + 3], (1 << 20) + 100],
        [`cdpatch 1\nset 9 0 00\n${empty}#\r\nrebuild 3\n${empty}rebuild 2`, [(6 << 20) + 5, (3 << 20) + 4, 2], 100]]) {
        const counting = newCalls();
        let count = 0;
        for (const name of ['firstLine', 'readLine', 'jobBegin']) {
            const call = counting[name].bind(counting);
            counting[name] = (...given) => { count += 1; return call(...given); };
        }
        const lines = readLines(counting, encoded(text));
        assert.deepEqual(lines.patches.map(({ number }) => number), due);
        assert.ok(count < most, `${count} calls`);
    }
    assert.equal(decoded(readLines(calls, encoded(`${empty}\nx`))), `script line ${(3 << 20) + 2}: no cdpatch 1 line\n`);
});

test('lines longer than what is cut at a time', async () => {
    const long = `#${'x'.repeat(3e6)}`;
    const script = encoded(`cdpatch 1\n${long}\nrebuild 4\n${long}\r\nrebuild 3\n${long}`);
    const whole = await read([script], true);
    assert.deepEqual(whole.patches.map(patch => patch.number), [5, 3]);
    for (const size of [999, 65537, 1 << 20, (1 << 20) + 1]) assert.deepEqual(await read(cutBy(script, size), true), whole);
});

test('no more patches than the program takes, but for a long script', async () => {
    const script = encoded(`cdpatch 1\n${'rebuild 9\n'.repeat(65536)}`);
    assert.equal((await read([script.subarray(0, script.length - 10)])).refused, undefined);
    assert.deepEqual(await read([script]), { refused: 'script line 65537: more than 65535 patches\n', tooLong: false });
    assert.equal((await read([script], true)).patches.length, 65536);
});

test('a long script is cut into parts that a run takes', async () => {
    const line = size => ({ number: 1, block: 0, old: null, line: new Uint8Array(size) });
    const sizes = patches => scriptParts({ head: encoded('cdpatch 1'), patches }).map(part => part.patches.length);
    assert.deepEqual(sizes([]), [0]);
    assert.deepEqual(sizes(Array.from({ length: 2 * MOST_PATCHES + 1 }, () => line(1))), [MOST_PATCHES, MOST_PATCHES, 1]);
    const third = MOST_SCRIPT_BYTES / 4 - 1;
    assert.deepEqual(sizes([line(third), line(third), line(third), line(third)]), [3, 1]);
    assert.deepEqual(sizes([line(third), line(third), line(third), line(third - 10)]), [4]);
});

test('the bases of a script are the first that a comment says, and the first other one, with their lines', async () => {
    const said = async (script, long) => (await read([encoded(`cdpatch 1\n${script}`)], long)).bases;
    const between = '#\n'.repeat(1 << 19);
    const rows = [
        ['# base 150\n', [{ line: 2, base: 150 }]],
        ['\r\n# base 7\r\n#\n# base 7\n# base 0\n# base 1', [{ line: 3, base: 7 }, { line: 6, base: 0 }]],
        ['# base 7 \t \n# base 1234567890\n# base x\n #base 1\n # base 1\n#base 1\n## base 1\n# base 9 # base 1\n', [{ line: 2, base: 7 }]],
        [`# base 5${' '.repeat(1000)}\n# base 123456789\n`, [{ line: 2, base: 5 }, { line: 3, base: 123456789 }]],
        ['# base 3\u00E9\n', []],
        [`${between}# base 3\n${between}# base 4\n`, [{ line: 2 + (1 << 19), base: 3 }, { line: 3 + (1 << 20), base: 4 }]],
    ];
    for (const [script, due] of rows) {
        for (const long of [false, true]) assert.deepEqual(await said(script, long), due, script.slice(0, 100));
    }
    assert.deepEqual((await read([encoded('# base 4\ncdpatch 1\n')])).bases, [{ line: 1, base: 4 }]);
    assert.deepEqual((await read([encoded(' # base 4\ncdpatch 1\n')])).bases, []);
});

/** The pieces of a script of this size, and whether all of them were requested. */
function scriptOf(size, first) {
    const asked = { all: false };
    const line = encoded(`#${'x'.repeat((1 << 20) - 2)}\n`);
    return { asked, pieces: (function* pieces() {
        yield encoded(first);
        const left = size - first.length;
        yield line.subarray(line.length - left % line.length);
        for (let i = 1; i <= left / line.length; i++) yield line;
        asked.all = true;
    })() };
}

test('no more bytes than the program takes, but for a long script', async () => {
    const right = 'cdpatch 1\nrebuild 4\n';
    const tooLong = { refused: `cdpatch: the script is longer than ${MOST_SCRIPT_BYTES} bytes\n`, tooLong: true };
    assert.equal((await read(scriptOf(MOST_SCRIPT_BYTES, `${right}#`).pieces)).refused, undefined);
    const { asked, pieces } = scriptOf(2 * MOST_SCRIPT_BYTES, right);
    assert.deepEqual(await read(pieces), tooLong);
    assert.ok(!asked.all, 'a script that is too long is not read to its end');
    assert.deepEqual(await read(scriptOf(MOST_SCRIPT_BYTES + 1, 'faulty\n').pieces), tooLong);
    const faulty = { refused: 'script line 1: no cdpatch 1 line\n', tooLong: false };
    assert.deepEqual(await read(scriptOf(MOST_SCRIPT_BYTES, 'faulty\n').pieces), faulty);
    assert.equal((await read(scriptOf(MOST_SCRIPT_BYTES + 1, `${right}#`).pieces, true)).patches.length, 1);
});

test('a piece that cannot be read is no end of the script', async () => {
    for (const first of ['cdpatch 1\nrebuild 4\n', `faulty\n#${'x'.repeat(1 << 20)}\n`]) {
        async function* pieces() {
            yield encoded(first);
            yield encoded('rebuild 5\n');
            throw new Error('no more of it');
        }
        for (const long of [false, true]) await assert.rejects(readScript(calls, pieces(), long), /no more of it/);
    }
});
