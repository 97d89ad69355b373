// Hostile cue sheets, tables, and volumes: each takes little longer than a harmless one, and omissions from a list are reported.
import assert from 'node:assert';
import { spawnSync } from 'node:child_process';
import { test } from 'node:test';
import { core, coreFile, readerOf, tableOf } from './common.mjs';
import { rawOf } from './discs.mjs';
import { SHEETS, TABLES, continuing, crowded, harmlessVolume, inShort, nested, overlapping, recordOf, volumeOf } from './strangers.mjs';

const { sheetOf } = await core('disc/cue.js');
const { kindOfFile } = await core('disc/file_type.js');
const { findIn } = await core('texts/find.js');
const { filesOf } = await core('iso/files.js');
const { Pool, localWorker } = await core('pool/pool.js');
const { JOBS } = await core('jobs/jobs.js');
const { replaceFile } = await core('tasks/replace.js');
const { calls } = await import('./common.mjs');

// A processor shared with other tests takes up to twice as long.
const SHARED = 2;

/** A call's result or error, and its CPU time in seconds. @param {() => any} called */
async function timed(called) {
    const before = process.cpuUsage();
    let [answer, fault] = [null, ''];
    try {
        answer = await called();
    } catch (error) {
        fault = `${error.constructor.name}: ${error.message}`;
    }
    const { user, system } = process.cpuUsage(before);
    return { answer, fault, seconds: (user + system) / 1e6 };
}

/** The files of a volume, its faults, and the CPU time in seconds. @param {Uint8Array} user */
async function listed(user) {
    const { answer, fault, seconds } = await timed(() => filesOf(readerOf(rawOf(user)), 0));
    assert.strictEqual(fault, '');
    return { ...answer, seconds };
}

for (const [what, sheet] of Object.entries(SHEETS)) {
    test(`a cue sheet takes no longer: ${what}`, async () => {
        const { seconds } = await timed(async () => {
            if (await kindOfFile(calls, readerOf(sheet)) === 'cue') sheetOf(new TextDecoder().decode(sheet));
        });
        assert.ok(seconds < 1, `${seconds} s`);
    });
}

for (const [what, { table, text, code: due = '' }] of Object.entries(TABLES)) {
    test(`a table takes no longer: ${what}`, async () => {
        const { answer, fault, seconds } = await timed(() => {
            const own = tableOf(table);
            own.characterAt(new Uint8Array(USER), 0);
            return findIn(rawOf(new Uint8Array(64 * USER)), 0, { texts: [own.units(text)], count: 64, limit: 5 })[0].count;
        });
        assert.ok(seconds < 4 * SHARED, `${seconds} s`);
        assert.deepStrictEqual([answer, fault], due === '' ? [0, ''] : [null, `Fault: ${due}`]);
    });
}

test('a long text that is no UTF-8 is read in little memory', () => {
    const read = `const { textOfFile } = await import(${JSON.stringify(coreFile('encodings/encodings.js'))});
        console.log(textOfFile(new Uint8Array(16000000).fill(0x0A).fill(0xFF, 7, 8)).length);`;
    const { stdout, status } = spawnSync(process.execPath, ['--max-old-space-size=100', '--input-type=module', '-e', read], { encoding: 'utf8' });
    assert.deepStrictEqual([stdout, status], ['16000000\n', 0]);
});

const USER = 2048;

test('a harmless volume is listed', async () => {
    const { files, faults } = await listed(harmlessVolume(30));
    assert.deepStrictEqual([files, faults], [[{ path: '/FILE', block: 20, size: 5000, fault: null, before: 0, record: { block: 18, offset: 34 } }], []]);
});

test('a sector belongs to one directory only', async () => {
    const { files, faults, seconds } = await listed(overlapping(400));
    assert.ok(seconds < 2 * SHARED, `${seconds} s`);
    assert.ok(files.length === 0 && faults.length === 1001, `${faults.length} faults`);
    assert.match(inShort(faults[0]), /^path \/D\d+_\d+ tree\/same \d+$/);
    assert.ok(faults.some(it => /^path (\/D\d+_\d+)+ tree\/shared \d+ 399$/.test(inShort(it))));
    assert.match(inShort(faults[1000]), /^tree\/more \d+$/);
});

test('directories are read down to a depth', async () => {
    const { files, faults, seconds } = await listed(nested(2000, 20));
    assert.ok(seconds < 2 * SHARED, `${seconds} s`);
    assert.strictEqual(files.length, 256);
    assert.match(faults.map(inShort).join('\n'), /^path (\/N{20}){255} tree\/deep 255$/);
});

test('a list has no more entries than its image can have', async () => {
    const { files, faults, seconds } = await listed(crowded(1300));
    assert.ok(seconds < 2 * SHARED, `${seconds} s`);
    assert.strictEqual(files.length, 65536);
    assert.deepStrictEqual(faults.map(inShort), ['path / tree/ends tree/many-entries 65536']);
});

test('a list has no more characters than its image can have', async () => {
    const names = Array.from({ length: 9 }, (_, i) => `F${i}`);
    const { faults, seconds } = await listed(volumeOf(9000, sector => {
        if (sector < 118) return [recordOf('N'.repeat(200), sector + 1, sector === 117 ? 8000 * USER : USER)];
        return names.map(name => recordOf(name, 18, 0, { flags: 0 }));
    }));
    assert.ok(seconds < 1, `${seconds} s`);
    assert.match(faults.map(inShort).join('\n'), /^path (\/N{200}){100} tree\/ends tree\/long-paths 8388608$/);
});

test('records that go on and on end', async () => {
    const { files, faults, seconds } = await listed(continuing(200));
    assert.ok(seconds < 2 * SHARED, `${seconds} s`);
    assert.ok(files.length > 500);
    assert.deepStrictEqual(faults.map(inShort), ['path / tree/ends tree/many-areas 32768']);
});

test('a sector in which many records are continued is read once', async () => {
    const reader = readerOf(rawOf(continuing(200)));
    await filesOf(reader, 0);
    assert.ok(reader.reads.length < 300, `${reader.reads.length} reads`);
});

test('a record goes on with a file only if it has the same name', async () => {
    const file = (name, extent, size, flags = 0) => recordOf(name, extent, size, { flags });
    const records = [file('A', 20, 2048, 128), file('B.TXT', 21, 3000), file('B.TXT', 23, 100), file('C', 24, 2048, 128), file('C', 26, 10)];
    const { files } = await listed(volumeOf(30, sector => sector === 18 ? records : []));
    const several = 'extent/several';
    assert.deepStrictEqual(files.map(({ path, before, fault }) => [path, before, fault && fault.code]),
        [['/A', 0, several], ['/B.TXT', 0, null], ['/B.TXT', 0, null], ['/C', 0, several], ['/C', 2048, several]]);
});

test('a file of many extents looks at each a few times', async () => {
    const count = 2000;
    let reads = 0;
    const entries = Array.from({ length: count }, (_, i) => ({ path: '/A', size: 2048, before: 2048 * i, fault: null, record: { block: 18, offset: 0 },
        get block() {
            reads += 1;
            return 20 + 2 * i;
        } }));
    const names = { entries: [...entries].reverse(), files: entries, udf: false, own: new Map([[18, 'directory']]), tables: [] };
    const sector = calls.encode(calls.address(0), new Uint8Array(2048));
    const sectors = 2 * count + 30;
    const image = { base: 0, sectors, reader: { size: 2352 * sectors, read: async (at, length) => sector.slice(0, length) } };
    const opened = { image, part: image, contents: async () => ({ volume: names }) };
    const engine = { calls, pool: new Pool([localWorker(calls, JOBS)]) };
    const { left } = await replaceFile(engine, opened, { entries, newFile: readerOf(new Uint8Array(2048 * count - 1)) });
    assert.deepStrictEqual(left, []);
    assert.ok(reads < 100 * count, `${reads}`);
});
