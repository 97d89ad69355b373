// Surveys by ranges, compared with the reports of the program.

import assert from 'node:assert/strict';
import { spawnSync } from 'node:child_process';
import { join } from 'node:path';
import { test } from 'node:test';
import { calls, core, decoded, diceOf, someImage, surveyed, top } from './common.mjs';

const { SECTOR_KIND } = await core('module/records.js');
const { auditText, findingOf, isDamaged, isSound, kindRuns, listText, surveyCounts } = await core('sectors/survey.js');

/** What the program prints about an image, and its status. */
function reported(command, image, base) {
    const { stdout, status } = spawnSync(process.env.PROGRAM ?? join(top, 'cdpatch'), [command, '--base', String(base), '-'],
        { input: image, maxBuffer: 1 << 24, encoding: 'latin1' });
    return { text: stdout, status };
}

function agrees(image, base, step) {
    const [survey, tail] = [surveyed(image, base, step), image.length % 2352];
    for (const [command, { text, status }] of Object.entries({ list: listText(calls, survey, tail), audit: auditText(calls, survey, tail) })) {
        assert.deepEqual({ text: decoded(text), status }, reported(command, image, base));
    }
}

test('ranges of any size agree with the whole image', () => {
    const image = someImage(diceOf(2), 4500, 100, 77);
    for (const step of [1, 2, 3, 7, 4096, 9000]) agrees(image, 100, step);
});

test('small images, without findings too', () => {
    const user = new Uint8Array(2048);
    const good = Buffer.concat([0, 1, 2].map(block => calls.encode(calls.address(block), user)));
    for (const image of [new Uint8Array(0), new Uint8Array(5), new Uint8Array(2352), good, good.subarray(0, 2352 * 2 + 2351)]) agrees(image, 0, 2);
    assert.equal(auditText(calls, surveyed(good, 0, 2), 0).status, 0);
});

test('an image whose last blocks have no address', () => {
    agrees(someImage(diceOf(3), 8, 449847), 449847, 3);
});

test('counts and runs', () => {
    const user = new Uint8Array(2048);
    const image = Buffer.concat([5, 6, 9, 8].map(block => calls.encode(calls.address(block), user)).concat(new Uint8Array(2352)));
    image[100] ^= 1;
    const survey = surveyed(image, 5, 2);
    assert.deepEqual(surveyCounts(survey), { sectors: 5, mode1: 4, damaged: 1, elsewhere: 1, wrong: 2 });
    assert.deepEqual([...kindRuns(survey)], [{ first: 5, last: 8, kind: 2 }, { first: 9, last: 9, kind: 0 }]);
    const places = [0, 6, 12, 18, 24];
    assert.deepEqual(places.map(at => isDamaged(survey.records, at)), [true, false, false, false, false]);
    assert.deepEqual(places.map(at => isSound(survey.records, at)), [false, true, true, true, false]);
});

test('what audit says of one sector is its line without the block', () => {
    const { MODE1, MODE2 } = SECTOR_KIND;
    const found = [[MODE1, 1, 0, 1, 2, 3], [MODE1, 0, 1, 0, 0, 0], [MODE1, 0, 0, 0, 0, 0], [MODE2, 0, 0, 0, 0, 0]];
    for (const block of [0, 449849]) {
        assert.deepEqual(found.map(record => findingOf(calls, block, Uint8Array.from(record))), ['address edc p=2 q=3', 'zeros', '', '']);
    }
});
