// The model of a script: the content of its lines, the bytes that they write, and its updates as lines are added and removed.

import assert from 'node:assert/strict';
import { test } from 'node:test';
import { calls, core, decoded, diceOf, newCalls } from './common.mjs';

const { ScriptModel, lastBlockOf, writersIn, firstLinesOf, linesUnder } = await core('script/model.js');
const { faultyWord, lacksDigit, wordsOf, isMeantAsScript, isScript } = await core('script/language.js');
const { CONTENT, VERB } = await core('module/records.js');

const modelOf = text => new ScriptModel(calls, text);
const at = (block, offset, size) => ({ block, offset, size });
const linesAt = (model, asked) => asked.map(it => model.lineAt(at(...it)));
/** Calls that also accept scripts that begin with `cdpatch 9`, a language with the verbs of version 2. */
function laterCalls() {
    const later = newCalls();
    const readLine = later.readLine.bind(later);
    later.readLine = (version, earlier, from, size) => {
        const isHead = version === 0 && decoded(later.held(from, from + size)) === 'cdpatch 9';
        return isHead ? 999 : readLine(version === 999 ? 2 : version, earlier, from, size);
    };
    return later;
}

const plain = ({ lines, head, version, patches, faults, size }) => ({ lines, head, version, patches, faults, size });

test('a line with a fault is no line that writes', () => {
    const faulty = ['set 5 0 4', 'set 5 10 ZZZZ', 'set 5 20 41 was', 'fill 5 30 9999 00', 'set 0000000005 40 41', 'fill 5 50 0 00', 'set 5 2048 41'];
    const model = modelOf(`cdpatch 1\nset 5 60 41\n${faulty.join('\n')}\n`);
    assert.equal(model.faults, faulty.length);
    assert.deepEqual(linesAt(model, [[5, 0, 60], [5, 0, 2048], [5, 60, 1], [6, 0, 1]]), [0, 2, 2, 0]);
    assert.equal(model.scriptNear(5), 'cdpatch 1\nset 5 60 41\n');
});

test('a range is written by a line that writes any byte of it, over a border of blocks too', () => {
    const model = modelOf('cdpatch 2\n# set 9 0 41\nset 5 2046 41424344 was 00000000\n fill\t7 10 3 20\nset 7 12 4142\nrebuild 8\naddress 8 00:02:08');
    assert.deepEqual(linesAt(model, [[5, 2040, 6], [5, 2040, 7], [6, 0, 1], [6, 2, 4], [7, 8, 2], [7, 8, 3], [7, 11, 9], [7, 14, 2], [9, 0, 1],
        [7, 2040, 2048]]), [0, 3, 3, 0, 0, 4, 5, 0, 0, 0]);
    assert.deepEqual(model.lines.flatMap(({ patch }) => patch ? [lastBlockOf(patch)] : []), [6, 7, 7, 8, 8]);
    assert.deepEqual(model.lines[2].patch, { verb: VERB.SET, block: 5, offset: 2046, size: 4, old: 4 });
    assert.deepEqual(model.lines[5].patch, { verb: VERB.REBUILD, block: 8, offset: 0, size: 0, old: null });
});

test('after any edits a model is that of its text', () => {
    const dice = diceOf(7);
    const some = ['cdpatch 1', 'cdpatch 2', '', '# a', 'set 5 0 41', 'set 5 2047 4142 was 0000', 'fill 6 1 9 00', 'address 4 00:02:04', 'set 5 0 4',
        'rebuild 7', 'x'];
    const texts = () => Array.from({ length: dice(4) }, () => some[dice(some.length)]);
    for (let round = 0; round < 60; round++) {
        const model = modelOf(texts().join('\n'));
        for (let k = 0; k < 20; k++) {
            const from = dice(model.lines.length + 1);
            model.put(from, dice(model.lines.length - from + 1), texts());
            const other = modelOf(model.text());
            assert.deepEqual(plain(model), plain(other));
            for (let block = 3; block < 9; block++) {
                const all = it => it.linesNear(block, block).map(({ number }) => number).sort((a, b) => a - b);
                assert.deepEqual([model.lineAt(at(block, 0, 2048)), all(model)], [other.lineAt(at(block, 0, 2048)), all(other)]);
            }
        }
    }
});

test('a key in one of 65535 lines reads that line, and no other', () => {
    const own = newCalls();
    let [count, held] = [0, 0];
    const counting = new Proxy(own, { get(target, name) {
        const value = target[name];
        if (name === 'readLine') return (...given) => { count += 1; return value.apply(target, given); };
        if (name === 'hold') return bytes => { held += bytes.length; return value.call(target, bytes); };
        return typeof value === 'function' ? value.bind(target) : value;
    } });
    const patches = Array.from({ length: 65535 }, (_, i) => `set ${i} ${i % 2048} 41 was 42`);
    const model = new ScriptModel(counting, `cdpatch 1\n${patches.join('\n')}\n`);
    assert.deepEqual([model.patches, count], [65535, 65537]);
    for (const [line, texts] of [[40000, ['set 39999 7 4']], [40000, ['set 39999 7 41']], [40000, ['set 39999 7', ' 41']], [40000, ['', '# a']],
        [65536, ['#']], [0, ['cdpatch 1 ']], [0, ['cdpatch']], [0, ['cdpatch 1']], [1, ['set 0 0 4142']]]) {
        [count, held] = [0, 0];
        model.put(line, 1, texts);
        assert.deepEqual([count, held], [texts.length, texts.join('\n').length], `line ${line}: ${texts.join('|')}`);
    }
    // The two lines have lost their patches, and the line ' 41' is left.
    assert.deepEqual([model.patches, model.faults, model.lines.length], [65533, 1, 65539]);
});

test('of many lines of one block that go, few are looked for among all of it', () => {
    const model = modelOf(`cdpatch 1\n${'set 7 8 41\n'.repeat(65535)}`);
    let looked = 0;
    model.blocks.get(7).indexOf = function (line) {
        looked += 1;
        return Array.prototype.indexOf.call(this, line);
    };
    model.put(1, 65534, []);
    assert.deepEqual([model.text(), model.patches, model.lineAt(at(7, 8, 1))], ['cdpatch 1\nset 7 8 41\n', 1, 2]);
    assert.ok(looked <= 256, `${looked} lines`);
});

test('one patch too many is a fault until another one goes', () => {
    const model = modelOf(`cdpatch 1\n${'rebuild 7\n'.repeat(65535)}`);
    model.put(3, 0, ['rebuild 8', 'x']);
    assert.deepEqual([model.patches, model.faults, model.lines[65537].content], [65535, 2, CONTENT.TOO_MANY]);
    model.put(9, 1, []);
    assert.deepEqual([model.patches, model.faults, model.lines[65536].content], [65535, 1, CONTENT.PATCH]);
});

test('of many bytes of a block the last lines before others that write them are found with a look at each line', () => {
    const script = Array.from({ length: 600 }, (_, i) => `${i % 3 ? 'set' : '# set'} ${6 + i % 2} ${(i * 37) % 2048} ${'41'.repeat(1 + i % 90)}`);
    const lines = count => modelOf(`cdpatch 1\n${script.slice(0, count).join('\n')}`);
    const asked = Array.from({ length: 500 }, (_, i) => ({ number: 100 + i, block: 7, offset: (i * 53) % 2048 }));
    const due = asked.map(({ number, offset }) => lines(number - 2).lineAt(at(7, offset, 1)));
    let looks = 0;
    const counting = { get: (list, name) => { looks += Number(name !== 'length'); return list[name]; } };
    const near = lines(600).linesNear(7, 7).sort((a, b) => a.number - b.number);
    assert.deepEqual(writersIn(7, new Proxy(near, counting), asked), due);
    assert.ok(due.some(it => it > 0) && due.some(it => it === 0));
    assert.ok(looks < 5 * (asked.length + 600), `${looks} looks`);
    const all = lines(600).writersBefore([...asked].reverse(), () => true);
    assert.deepEqual(asked.map(({ number }) => all.get(number)), due);
    assert.deepEqual([...lines(600).writersBefore([{ number: 99, block: 99, offset: 1 }], () => true)], [[99, 0]]);
    assert.ok([...lines(600).writersBefore(asked, number => number < 50).values()].every(it => it < 50));
});

test('only patches near the block are given out, with the head line', () => {
    const script = '# note\ncdpatch 2\naddress 5 00:02:09\nset 1 0 41\nset 2 0 41\nset 4 0 41\nset 5 0 41\ncdpatch 1\n';
    assert.equal(modelOf(script).scriptNear(4), 'cdpatch 2\nset 2 0 41\nset 4 0 41\n');
    assert.equal(modelOf(script).scriptNear(5), 'cdpatch 2\naddress 5 00:02:09\nset 4 0 41\nset 5 0 41\n');
    assert.equal(modelOf(script.replace('2', '1')).scriptNear(5), 'cdpatch 1\nset 4 0 41\nset 5 0 41\n');
    assert.deepEqual([modelOf(script).scriptNear(9), modelOf('set 9 0 41\nset 9 1 41').scriptNear(9), modelOf('').scriptNear(9)], ['', '', '']);
});

test('a line that writes just a range is written anew with its old bytes', () => {
    const fresh = Uint8Array.of(0x53, 0x54);
    const lines = ['set 5 6 4142 was 8358', ' set\t 5  6 4142 ', 'set 5 6 414243 was 835841', 'set 5 7 4142', 'fill 5 6 2 20', '# set 5 6 4142', 'set 5 6 4',
        'set 6 6 4142'];
    const model = modelOf(['cdpatch 1', ...lines].join('\n'));
    assert.deepEqual(lines.map((_, i) => model.rewritten(i + 2, at(5, 6, 2), fresh)),
        ['set 5 6 5354 was 8358', ' set\t 5  6 5354 ', '', '', '', '', '', '']);
    assert.deepEqual([0, 99].map(number => model.rewritten(number, at(5, 6, 2), fresh)), ['', '']);
});

test('the word that makes a line faulty is found, and a word that lacks a digit', () => {
    const faulty = { 'SET 1 2 41': 0, '\tno': 0, 'set 1 x 41': 2, 'set 1234567890 2 41': 1, 'set 1 2 414': 3, 'set 1 2 4142 was 4x42': 5, ' set 1 2048 41': 2,
        'fill 1 2 x 00': 3, 'fill 1 2 3 0': 4, 'rebuild -1': 1, 'address 1 00:60:00': 2, 'set 1 2': -1, 'set 1 2 41 was 4142': -1, 'fill 1 2 0 00': -1 };
    const model = modelOf(['cdpatch 2', ...Object.keys(faulty)].join('\n'));
    assert.deepEqual(model.lines.slice(1).map(({ text, content }) => faultyWord(calls, text, content)), Object.values(faulty));
    assert.deepEqual(['4', '414', '4x', '41', ''].map(word => lacksDigit(calls, word)), [true, true, false, false, false]);
    assert.deepEqual(wordsOf(' \tset  5\t6 41 '), ['set', '5', '6', '41']);
});

test('a version is called as the head line names it, whatever number the calls have for it', () => {
    const later = new ScriptModel(laterCalls(), '# a\ncdpatch 9\naddress 5 00:02:05\n');
    assert.deepEqual([later.version, later.versionName(), later.faults, later.patches], [999, '9', 0, 1]);
    assert.deepEqual(['\n \tcdpatch  2 \r\n', 'cdpatch 1', '# a\n', 'rebuild'].map(text => modelOf(text).versionName()), ['2', '1', '', '']);
});

test('a text is a script by its first line that says something, or meant as one', () => {
    const read = text => [isScript, isMeantAsScript].map(is => is(calls, new TextEncoder().encode(text)));
    for (const text of ['cdpatch 1', '\r\n# a\n\tcdpatch 2\r\nx']) assert.deepEqual(read(text), [true, true], text);
    for (const text of ['cdpatch 9\n', 'CDPATCH 1\n', 'set 5 0 41', '# a\nfill x', 'address 1 00:02:01\n', 'rebuild\t1']) assert.deepEqual(read(text), [false, true], text);
    for (const text of ['', '# a\n', 'cdpatch', 'rebuild', 'Set 5 0 41', 'x\ncdpatch 1', 'setting 1', 'cdpatches 1']) {
        assert.deepEqual(read(text), [false, false], text);
    }
});

test('the first lines that rebuild a block, and that write in it otherwise', () => {
    const model = modelOf('cdpatch 2\nset 4 2047 4142\nfill 5 0 1 00\nrebuild 5\nrebuild 5\naddress 6 00:02:06\nrebuild 7\nset 6 9 41');
    const found = [4, 5, 6, 7, 8].map(block => Object.values(firstLinesOf(model, block)));
    assert.deepEqual(found, [[0, 2], [4, 2], [0, 6], [7, 0], [0, 0]]);
});

/** The place of the bytes that a line sets. */
function placeOf(text) {
    const [, block, offset, bytes] = text.split(' ');
    const at = 2048 * Number(block) + Number(offset);
    return { at, end: at + bytes.length / 2 };
}

test('the lines that write bytes of new lines are found, in their order', () => {
    const dice = diceOf(6);
    const set = (bytes, size) => `set ${dice(40)} ${8 * dice(200)} ${bytes.repeat(size)} was ${'00'.repeat(size)}`;
    for (let i = 0; i < 20; i++) {
        const texts = Array.from({ length: 300 }, () => set('41', 1 + dice(12)));
        const script = new ScriptModel(calls, ['cdpatch 1', ...texts, ''].join('\n'));
        const incoming = Array.from({ length: 100 }, () => set('42', 1 + dice(8)));
        const isUnder = text => incoming.map(placeOf).some(({ at, end }) => placeOf(text).at < end && placeOf(text).end > at);
        const due = texts.flatMap((text, k) => isUnder(text) ? [k + 2] : []);
        assert.deepEqual(linesUnder(script, incoming).map(({ number }) => number), due);
    }
});
