// The calls and their arguments, compared with cdpatch.h, the man page, and the sectors of another encoder.

import assert from 'node:assert/strict';
import { readFileSync } from 'node:fs';
import { join } from 'node:path';
import { test } from 'node:test';
import { calls, core, decoded, newCalls, sameBytes, top } from './common.mjs';

const records = await core('module/records.js');
const { MOST_SECTORS, SECTOR_SIZE } = await core('module/numbers.js');
const { addressIn, addressText, blockAt, imageTooLong, sectorOf, userOf } = await core('sectors/sector.js');

const header = readFileSync(join(top, 'include/cdpatch.h'), 'utf8');
const vectors = new Uint8Array(readFileSync(join(top, 'crates/cd_low_tests/data/cdrkit-8.bin')));

test('the limits are those of the man page', () => {
    const limit = name => Number(readFileSync(join(top, 'man/cdpatch.1'), 'utf8').match(new RegExp(`\\.It ${name}\n(\\d+)`))[1]);
    assert.equal(records.MOST_SCRIPT_BYTES, limit('bytes of a script'));
    assert.equal(records.MOST_PATCHES, limit('patches of a script'));
    assert.equal(MOST_SECTORS, limit('sectors of an image'));
    assert.ok(imageTooLong(MOST_SECTORS * SECTOR_SIZE + 1));
    assert.ok(!imageTooLong(MOST_SECTORS * SECTOR_SIZE));
});

test('the version is that of the header', () => {
    assert.equal(calls.version(), header.match(/CDPATCH_VERSION "(.*)"/)[1]);
});

test('each call of cdpatch.h that takes no memory has a method', () => {
    const names = header.match(/\bcdpatch_\w+(?=\()/g);
    const files = ['out/web/core/module/calls.js', 'tests/core/calls.mjs'];
    const code = files.map(file => readFileSync(join(top, file), 'utf8')).join('');
    for (const name of names) assert.match(code, new RegExp(`\\b${name}\\b`));
});

test('sectors of another encoder', () => {
    for (let i = 0; i < 8; i++) {
        const sector = sectorOf(vectors, i);
        assert.ok(calls.isConsistent(sector));
        assert.deepEqual(calls.findDefect(sector), { zeros: false, edc: false, p: 0, q: 0 });
        assert.equal(calls.kind(sector), records.SECTOR_KIND.MODE1);
        assert.equal(calls.edc(sector.subarray(0, 2064)), new DataView(sector.slice().buffer).getUint32(2064, true));
        sameBytes(calls.encode(calls.address(i), userOf(vectors, i)), sector, `sector ${i}`);
        const bare = sector.slice().fill(0, 2076);
        calls.fillParity(bare);
        sameBytes(bare, sector, `parity of sector ${i}`);
    }
});

test('one wrong byte breaks one column, one diagonal and the EDC', () => {
    const sector = sectorOf(vectors, 3).slice();
    sector[12 + 5 + 86 * 7] ^= 1;
    assert.ok(!calls.isConsistent(sector));
    assert.deepEqual(calls.findDefect(sector), { zeros: false, edc: true, p: 1, q: 1 });
    assert.deepEqual([...calls.survey(sector, 3)], [records.SECTOR_KIND.MODE1, 0, 0, 1, 1, 1]);
});

test('changes of a sector in its place', () => {
    const { RESULT } = records;
    const sector = sectorOf(vectors, 2).slice();
    assert.equal(calls.changeUser(sector, 7, Uint8Array.of(1, 2, 3), false), RESULT.OK);
    assert.deepEqual([...sector.subarray(23, 26)], [1, 2, 3]);
    assert.equal(calls.changeAddress(sector, calls.address(75), false), RESULT.OK);
    assert.equal(addressText(addressIn(sector, 0)), '00:03:00');
    assert.ok(calls.isConsistent(sector));
    assert.equal(calls.changeUser(sector, 2047, Uint8Array.of(1, 2), false), RESULT.OUT_OF_RANGE);
    sector[2100] ^= 255;
    const damaged = sector.slice();
    assert.equal(calls.changeUser(sector, 0, Uint8Array.of(9), false), RESULT.DAMAGED);
    assert.equal(calls.changeAddress(sector, calls.address(1), false), RESULT.DAMAGED);
    sameBytes(sector, damaged, 'a refused change');
    assert.equal(calls.changeUser(sector, 0, Uint8Array.of(9), true), RESULT.OK);
    assert.equal(calls.changeAddress(sector, calls.address(1), true), RESULT.OK);
    assert.ok(sector[16] === 9 && !calls.isConsistent(sector));
    assert.equal(calls.rebuild(sector), RESULT.OK);
    assert.ok(calls.isConsistent(sector));
    assert.equal(decoded(calls.resultText(RESULT.DAMAGED)).includes('damaged'), true);
});

test('the lines of list and of audit', () => {
    const { MODE1, MODE2, OTHER } = records.SECTOR_KIND;
    assert.equal(decoded(calls.listLine(16, 18, MODE1)), '16-18 mode1\n');
    for (const [first, last, kind] of [[16, 15, MODE1], [0, 0, OTHER + 1]]) assert.equal(calls.listLine(first, last, kind).length, 0);
    assert.equal(decoded(calls.listEnd(8, 3)), 'sectors 8 tail 3\n');
    assert.equal(decoded(calls.auditLine(17, Uint8Array.of(MODE1, 1, 0, 1, 2, 3))), '17 address edc p=2 q=3\n');
    assert.equal(decoded(calls.auditLine(4294967295, Uint8Array.of(MODE1, 0, 1, 0, 0, 0))), '4294967295 zeros\n');
    for (const record of [[MODE1, 0, 0, 0, 0, 0], [MODE2, 1, 1, 1, 1, 1]]) assert.equal(calls.auditLine(17, Uint8Array.from(record)).length, 0);
    assert.equal(decoded(calls.auditEnd(8, 6, 1, 3)), 'sectors 8 mode1 6 damaged 1 tail 3\n');
    for (const size of [5, 7]) assert.throws(() => calls.auditLine(0, new Uint8Array(size)), RangeError);
});

test('addresses and their blocks', () => {
    for (const block of [0, 1, 74, 75, 4349, 4350, 150000, 449848, 449849]) assert.equal(blockAt(calls, calls.address(block)), block);
    for (const block of [-1, 449850, 2 ** 32, 2 ** 32 + 5]) assert.equal(calls.address(block), null);
    for (const [address, block] of [[[0, 1, 0x74], -1], [[0, 0, 0], -150]]) assert.equal(blockAt(calls, Uint8Array.from(address)), block);
    for (const address of [[0, 0x60, 0], [0, 2, 0x75], [0, 2, 0x0A], [0xA0, 2, 0]]) {
        assert.equal(blockAt(calls, Uint8Array.from(address)), null);
    }
    assert.equal(calls.block(Uint8Array.of(0, 1, 0x74)), null);
    assert.throws(() => calls.block(Uint8Array.of(0, 2)), RangeError);
});

test('the arena grows, and is used again', () => {
    const own = newCalls();
    const before = own.memory.length;
    const sectors = new Uint8Array(2352 * 400);
    own.survey(sectors, 0);
    const grown = own.memory.length;
    assert.ok(grown > before && grown < before + sectors.length + 2 * 65536);
    for (let i = 0; i < 20; i++) own.survey(sectors, 0);
    assert.equal(own.memory.length, grown);
});

test('what is lent stays as it is until it is given back, and is used again', () => {
    const own = newCalls();
    const [first, second] = [own.lend(100), own.lend(5)];
    assert.ok(first % 16 === 0 && second >= first + 100);
    own.memory.fill(1, first, first + 100).fill(2, second, second + 5);
    own.hold(new Uint8Array(1e6).fill(9));
    assert.ok(own.memory.subarray(first, first + 100).every(byte => byte === 1) && own.memory.subarray(second, second + 5).every(byte => byte === 2));
    own.giveBack(first);
    assert.throws(() => own.held(0, 1), RangeError);
    own.hold(new Uint8Array(1e6).fill(9));
    assert.ok(own.memory.subarray(second, second + 5).every(byte => byte === 2));
    own.giveBack(second);
    assert.equal(own.lend(1), first);
    const script = new TextEncoder().encode(`cdpatch 1\n#${'x'.repeat(1e6)}\n`);
    own.jobEnd(own.jobBegin([script]));
    const grown = own.memory.length;
    for (let i = 0; i < 20; i++) own.jobEnd(own.jobBegin([script]));
    assert.equal(own.memory.length, grown);
    for (const base of [449850, -1, 2 ** 32]) assert.throws(() => own.jobBegin([script], base), RangeError);
    own.jobEnd(own.jobBegin([script], 449849, 5));
    assert.equal(own.memory.length, grown);
});

test('what a job does with sectors, and when it stops', () => {
    const own = newCalls();
    const place = own.lend(3 * SECTOR_SIZE);
    own.memory.set(vectors.subarray(0, 3 * SECTOR_SIZE), place);
    const script = new TextEncoder().encode('cdpatch 1\nset 1 2047 4142\nset 0 0 43\nset 2 2047 4142\nfill 9 0 1 44\n');
    const job = own.jobBegin([script.subarray(0, 20), script.subarray(20)], 0, 0);
    assert.deepEqual([0, 1, 2, 3].map(i => [own.jobBlock(job, i), own.jobBlocksMet(job, i)]), [[0, 1], [1, 2], [2, 2], [9, 1]]);
    assert.deepEqual(own.jobLines(job).map(it => it.number), [3, 2, 4, 5]);
    const ok = number => ({ number, result: records.RESULT.OK, block: 0, offset: 0 });
    assert.deepEqual(own.jobApply(job, place, 2, 0, false), [ok(3)]);
    assert.deepEqual([job.left, job.stop], [3, records.STOP.PIECE]);
    assert.deepEqual(own.jobApply(job, place, 3, 0, false), [ok(2)]);
    const { NO_BLOCK } = records.RESULT;
    assert.deepEqual(own.jobApply(job, place, 3, 0, true), [{ ...ok(4), result: NO_BLOCK, block: 3 }, { ...ok(5), result: NO_BLOCK, block: 9 }]);
    assert.deepEqual([job.left, job.stop], [0, records.STOP.ALL]);
    for (const [i, at, byte] of [[0, 0, 0x43], [1, 2047, 0x41], [2, 0, 0x42]]) {
        const sector = own.memory.slice(place + i * SECTOR_SIZE, place + (i + 1) * SECTOR_SIZE);
        assert.ok(calls.isConsistent(sector) && userOf(sector, 0)[at] === byte);
    }
    own.jobEnd(job);
    const many = own.jobBegin([new TextEncoder().encode(`cdpatch 1\n${'rebuild 0\n'.repeat(300)}`)]);
    assert.equal(own.jobApply(many, place, 1, 0, false).length, 256);
    assert.equal(many.stop, records.STOP.CAPACITY);
    assert.equal(own.jobApply(many, place, 1, 0, false).length, 44);
    const odd = own.jobBegin([script], 0, 8);
    assert.throws(() => own.jobApply(odd, place, 3, 0, true), RangeError);
    for (const [text, due] of [['cdpatch 1\nset 0 0 4\n', 'script line 2: '], [' '.repeat(records.MOST_SCRIPT_BYTES + 1), 'cdpatch: ']]) {
        const refused = newCalls().jobBegin([new TextEncoder().encode(text)]);
        assert.ok(decoded(refused.refusal).startsWith(due) && refused.left === 0, decoded(refused.refusal));
    }
});

test('bytes of a wrong size, and what is no longer held, are refused', () => {
    const short = new Uint8Array(2351);
    for (const job of [() => calls.kind(short), () => calls.isConsistent(short), () => calls.rebuild(short), () => calls.survey(short, 0),
        () => calls.encode(new Uint8Array(3), short), () => calls.survey(new Uint8Array(2352), 2 ** 32)]) assert.throws(job, RangeError);
    calls.hold(new Uint8Array(10));
    assert.equal(calls.held(0, 10).length, 10);
    assert.throws(() => calls.held(0, 11), RangeError);
    calls.edc(new Uint8Array(20));
    assert.throws(() => calls.held(0, 10), RangeError);
});
