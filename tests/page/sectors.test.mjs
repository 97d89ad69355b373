// Messages about sectors: the bytes where broken codes cross, and findings grouped into places.

import assert from 'node:assert/strict';
import { test } from 'node:test';
import { calls, imageOf, page } from './page.mjs';

const { byteOfCodes, crossingsOf, isAllOver, otherBase, placeGuess, placesOf } = await page('disc/places.js');
const { MARK, SurveyMarks, shadesOf } = await page('app/marks.js');

test('bytes are named at which broken columns and diagonals cross', () => {
    const { bytes } = imageOf([new Uint8Array(8)]);
    bytes[500] ^= 3;
    const { crossings, columns, diagonals } = crossingsOf(calls, bytes);
    assert.deepEqual([crossings.filter(at => at < 2076), columns, diagonals], [[500], 1, 1]);
});

test('the byte that P and Q give is named only if the module finds the sector sound with it', () => {
    const sound = imageOf([new Uint8Array(8)]).bytes;
    const wrong = (...places) => {
        const bytes = sound.slice();
        for (const [at, change] of places) bytes[at] ^= change;
        return bytes;
    };
    for (const [at, change] of [[500, 3], [16, 255], [2063, 1], [13, 128], [2066, 77]]) {
        const bytes = wrong([at, change]);
        assert.deepEqual(byteOfCodes(calls, bytes, crossingsOf(calls, bytes)), { at, fresh: sound[at] }, `byte ${at}`);
    }
    for (const places of [[[500, 3], [501, 3]], [[500, 3], [2070, 1]], [[500, 3], [0, 1]], []]) {
        const bytes = wrong(...places);
        assert.equal(byteOfCodes(calls, bytes, crossingsOf(calls, bytes)), null, `${places}`);
    }
});

test('the shade of the map changes where a file begins or ends', () => {
    const files = [{ block: 3, size: 1 }, { block: 4, size: 4096 }, { block: 5, size: 0 }, { block: 8, size: 2049 }];
    const shades = shadesOf(files, { base: 1, marks: new Uint8Array(11).fill(MARK.MODE1) });
    assert.deepEqual([...shades], [0, 0, 1, 0, 0, 1, 1, 0, 0, 1, 1]);
});

test('a place ends if 700 sectors follow without a finding', () => {
    const marks = new Uint8Array(5000);
    for (const i of [10, 709, 1409, 2109]) marks[i] = MARK.EDC;
    assert.deepEqual(placesOf({ marks, known: 2000 }).map(({ first, last, sectors }) => [first, last, sectors.length]), [[10, 709, 2], [1409, 1409, 1]]);
    assert.equal(placesOf({ marks, known: 5000 }).length, 3);
});

test('lost sectors in a row are a place of their own', () => {
    const marks = new Uint8Array(3000).fill(MARK.MODE1);
    for (const i of [100, 650, 700, 900]) marks[i] = MARK.EDC;
    marks.fill(MARK.LOST, 400, 410);
    marks.fill(MARK.LOST, 410 + 690, 412 + 690);
    marks[800] = MARK.LOST;
    const places = placesOf({ marks, known: 3000 });
    assert.deepEqual(places.map(({ first, last, sectors }) => [first, last, sectors.length]), [[100, 900, 5], [400, 409, 10], [1100, 1101, 2]]);
    assert.deepEqual(places.map(place => placeGuess(place, false, 3000)), ['single sectors', '10 in a row: perhaps not read by the drive', '2 sectors in a row']);
});

/** The survey of ten sectors with these addresses, some of which are damaged. */
function marksOf(base, addresses, damaged = []) {
    const records = new Uint8Array(60);
    addresses.forEach((address, i) => records.set([2, Number(address !== base + i), 0, Number(damaged.includes(i)), 0, 0], 6 * i));
    const marks = new SurveyMarks(base, 10);
    marks.add(records, 10);
    return marks;
}

test('a base by which no sector has its address is not called copy protection, and another one is offered', () => {
    const addresses = Array.from({ length: 10 }, (_, i) => i);
    const all = [...addresses];
    const wrong = marksOf(100, addresses, all);
    assert.deepEqual(placesOf(wrong).map(place => placeGuess(place, wrong.isElsewhere(), 10)), ['another base?']);
    assert.equal(otherBase({ base: 100, addressed: 0 }, wrong), 0);
    const right = marksOf(0, addresses, all);
    assert.deepEqual(placesOf(right).map(place => placeGuess(place, right.isElsewhere(), 10)),
        ['10 in a row: perhaps on purpose (copy protection)']);
    const one = marksOf(100, [100, ...addresses.slice(1)]);
    const cases = [[0, 0, right], [100, 0, one], [100, null, wrong], [0, -150, wrong]];
    assert.deepEqual(cases.map(([base, addressed, marks]) => otherBase({ base, addressed }, marks)), [null, null, null, null]);
});

test('a few sectors side by side are called a row, and what has gaps single sectors', () => {
    const words = (...damaged) => {
        const marks = marksOf(0, Array.from({ length: 10 }, (_, i) => i), damaged);
        return placesOf(marks).map(place => placeGuess(place, false, 10));
    };
    assert.deepEqual(words(4, 5, 6, 7), ['4 sectors in a row']);
    assert.deepEqual(words(4, 5), ['2 sectors in a row']);
    assert.deepEqual(words(4, 5, 7), ['single sectors']);
    assert.deepEqual(words(4), ['a single sector']);
});

test('only what is about a turn apart is called a scratch', () => {
    const known = 300000;
    /** The guessed cause of 40 damaged sectors at equal distances. */
    const guessed = (first, distance, count = 40) => {
        const marks = new Uint8Array(known);
        for (let i = 0; i < count; i++) marks[first + i * distance] = MARK.EDC;
        return placesOf({ marks, known }).map(place => [placeGuess(place, false, known), isAllOver(place, known)]);
    };
    // One turn of a disc has 9 sectors at its beginning, and 21 at its end.
    assert.deepEqual(guessed(100, 9), [['a scratch: every 9th sector', false]]);
    assert.deepEqual(guessed(280000, 21), [['a scratch: every 21st sector', false]]);
    for (const [first, distance, words] of [[100, 21, '21st'], [280000, 9, '9th'], [280000, 34, '34th'], [100, 541, '541st']]) {
        assert.deepEqual(guessed(first, distance), [[`every ${words} sector`, false]]);
    }
    assert.deepEqual(guessed(100, 541, 500), [['every 541st sector all over the disc', true]]);
});

test('rows of lost sectors, and of sectors with addresses of other blocks, are not called copy protection', () => {
    const words = mark => {
        const marks = new Uint8Array(40).fill(MARK.MODE1);
        marks.fill(mark, 20, 30);
        return placesOf({ marks, known: 40 }).map(place => placeGuess(place, false, 40));
    };
    assert.deepEqual(words(MARK.LOST), ['10 in a row: perhaps not read by the drive']);
    assert.deepEqual(words(MARK.ADDRESS), ['10 in a row: sectors before them are missing or extra']);
    assert.deepEqual(words(MARK.EDC), ['10 in a row: perhaps on purpose (copy protection)']);
});
