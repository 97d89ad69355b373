// Mode 2: the test of its sectors, which are encoded by tests/lib/mode2_sectors.py.

import assert from 'node:assert/strict';
import { test } from 'node:test';
import { calls, core, diceOf, someBytes } from './common.mjs';
import { POOL, at } from './dumps.mjs';
import { RAW } from './pairs.mjs';

const { MODE2, mode2Counts, settledMode2, surveyRange } = await core('sectors/index.js');
const BASE = 150;
const [SUBHEADER, FORM1_EDC, FORM2_EDC] = [16, 2072, 2348];
/** Of each eight sectors, the last one is Form 2 without EDC. */
const hasCodes = i => i % 8 < 7;

/** What the survey finds in sectors from a block on. */
const found = (bytes, block = BASE) => surveyRange(calls, bytes, block, { mode2: true }).mode2;
const { TESTED, ADDRESS } = MODE2;

test('sound Mode 2 sectors and those with a wrong bit are told apart, in both forms', () => {
    const image = Uint8Array.from(Buffer.concat(POOL.map((sector, i) => at(BASE + i, sector))));
    assert.deepEqual([...found(image)], POOL.map((_, i) => hasCodes(i) ? TESTED : 0));
    const dice = diceOf(1);
    for (let round = 0; round < 24; round++) {
        const wrong = image.slice();
        for (let i = 0; i < POOL.length; i++) wrong[RAW * i + SUBHEADER + dice(RAW - SUBHEADER)] ^= 1 << dice(8);
        const sums = found(wrong);
        POOL.forEach((_, i) => assert.ok(!hasCodes(i) || (sums[i] & TESTED && sums[i] !== TESTED), `round ${round}, sector ${i}: ${sums[i]}`));
    }
});

test('each code of a Mode 2 sector is tested, and the address by the block', () => {
    const wrongAt = (i, place) => { const sector = at(BASE, POOL[i]); sector[place] ^= 4; return found(sector)[0]; };
    const cases = [[0, 17, MODE2.SUBHEADER | MODE2.EDC | MODE2.PARITY], [0, FORM1_EDC, MODE2.EDC | MODE2.PARITY], [0, 2100, MODE2.PARITY],
        [0, 2351, MODE2.PARITY], [5, 21, MODE2.SUBHEADER | MODE2.EDC], [5, 100, MODE2.EDC], [5, FORM2_EDC + 3, MODE2.EDC], [7, 22, MODE2.SUBHEADER],
        [0, 14, ADDRESS], [5, 13, ADDRESS]];
    for (const [i, place, due] of cases) assert.equal(wrongAt(i, place), TESTED | due, `sector ${i}, byte ${place}`);
    assert.deepEqual([wrongAt(7, 100), wrongAt(7, 14)], [0, ADDRESS]);
    assert.deepEqual([...found(Uint8Array.from(Buffer.concat([POOL[0], POOL[5]])), 0)], [TESTED, TESTED | ADDRESS]);
});

test('what no code can show is not tested: empty sectors, and Mode 2 without subheaders', () => {
    const dice = diceOf(2);
    const empty = at(BASE, POOL[0]).fill(0, SUBHEADER);
    const formless = Array.from({ length: 20 }, (_, i) => { const sector = at(BASE + i, POOL[0]); sector.set(someBytes(dice, 2336), SUBHEADER); return sector; });
    assert.equal(found(empty)[0], 0);
    const alone = found(Uint8Array.from(Buffer.concat(formless)));
    assert.ok(alone.every(it => (it & MODE2.SUBHEADER) !== 0));
    assert.deepEqual([...settledMode2(alone)], Array(20).fill(0));
    const sound = Uint8Array.from(Buffer.concat([...formless, at(BASE + 20, POOL[0])]));
    const { records, mode2 } = surveyRange(calls, sound, BASE, { mode2: true });
    assert.deepEqual(mode2Counts(records, settledMode2(mode2)), { sectors: 21, tested: 21, damaged: 20, elsewhere: 0, wrong: 20 });
});

test('Mode 2 sectors are tested only on request, and Mode 1 sectors as before', () => {
    const mode1 = calls.encodeBlocks(BASE, new Uint8Array(2048 * 3).fill(7));
    const both = Uint8Array.from(Buffer.concat([mode1, at(BASE + 3, POOL[0]), new Uint8Array(RAW)]));
    const survey = surveyRange(calls, both, BASE, { mode2: true });
    assert.deepEqual([...survey.mode2], [0, 0, 0, TESTED, 0]);
    assert.deepEqual(survey.records, surveyRange(calls, both, BASE).records);
    assert.equal(surveyRange(calls, both, BASE).mode2.length, 0);
});
