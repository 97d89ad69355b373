// Images that end before their volume does: what `info` and `scan` report, and when that is a finding.

import assert from 'node:assert/strict';
import { test } from 'node:test';
import { inDirectory, read, run, tool, write } from './common.mjs';
import { makeDisc, noise, skip } from './discs.mjs';

/** The missing blocks by `info`, and its status; and the kinds and the numbers that `scan` prints, and its status. */
async function said(room, name) {
    const info = await run(['info', name], { cwd: room });
    const scan = await run(['scan', name], { cwd: room });
    const columns = scan.out.split('\n').filter(Boolean).map(row => row.split('\t').slice(1, 5).join(' '));
    return { info: info.out.split('\n').filter(line => line.includes('not in the image')), status: info.status, columns, scanned: scan.status };
}

/** Creates a disc. Returns a function that cuts it to a number of sectors, its number of sectors, and the blocks and sizes of its files. */
async function disc(room, how = {}) {
    await makeDisc(room, how);
    const image = read(room, 'disc.bin');
    const listed = (await run(['files', 'disc.bin'], { cwd: room })).out.split('\n').filter(Boolean);
    const files = listed.map(line => line.split('\t')).map(([block, size, path]) => ({ block: Number(block), size: Number(size), path }));
    const cut = (sectors, name = 'cut.bin') => write(room, { [name]: image.subarray(0, 2352 * sectors) });
    return { cut, sectors: image.length / 2352, big: files.find(({ path }) => path === '/BIG.BIN'), last: files[files.length - 1] };
}

const UNSURE = ': either the image is cut short, or the volume also counts other tracks or a pause';

test('an image that is cut by whole sectors is no sound one', { skip }, () => inDirectory(async room => {
    const { cut, sectors, big } = await disc(room);
    assert.deepEqual(await said(room, 'disc.bin'), { info: [], status: 0, columns: [`mode1 ${sectors} 0 0 0`], scanned: 0 });
    // Only the pause is missing, or a part of it.
    for (const less of [1, 100, 150]) {
        cut(sectors - less);
        const line = `${sectors - less}-${sectors - 1} not in the image, though the volume has ${sectors} blocks${UNSURE}`;
        assert.deepEqual(await said(room, 'cut.bin'), { info: [line], status: 0, columns: [`mode1 ${sectors - less},short ${less} 0 0 0`], scanned: 0 });
    }
    // Sectors are missing in the middle, so that those after them are at earlier blocks.
    const image = read(room, 'disc.bin');
    write(room, { 'hole.bin': Buffer.concat([image.subarray(0, 2352 * (big.block + 3)), image.subarray(2352 * (big.block + 13))]) });
    const hole = `${sectors - 10}-${sectors - 1} not in the image, because the sectors after the missing ones are at earlier blocks`;
    assert.deepEqual((await said(room, 'hole.bin')).info, [hole]);
    // A file continues beyond the end.
    const half = big.block + 10;
    const missing = `${half}-${sectors - 1} not in the image: /BIG.BIN continues there`;
    cut(half);
    assert.deepEqual(await said(room, 'cut.bin'), { info: [missing], status: 1, columns: [`mode1 ${half},short ${sectors - half} 0 1 0`], scanned: 1 });
    cut(half + 0.5);
    assert.deepEqual((await said(room, 'cut.bin')).columns, [`mode1 ${half},tail 1176,short ${sectors - half} 0 2 0`]);
}));

test('what may be a track of several is cut only for sure if a file or the cue sheet says so', { skip }, () => inDirectory(async room => {
    const { cut, sectors, last } = await disc(room);
    const [end, missing] = [last.block, sectors - last.block];
    assert.ok(missing > 150);
    cut(end);
    const sheet = 'FILE "cut.bin" BINARY\n TRACK 01 MODE1/2352\n INDEX 01 00:00:00\n';
    write(room, { 'one.cue': sheet, 'two.cue': `${sheet}FILE "audio.bin" BINARY\n TRACK 02 AUDIO\n INDEX 01 00:00:00\n`, 'audio.bin': noise(2352 * 300, 1) });
    const [columns, what] = [`mode1 ${end},short ${missing} 0`, `${end}-${sectors - 1} not in the image`];
    const unsure = `${what}, though the volume has ${sectors} blocks${UNSURE}`;
    assert.deepEqual(await said(room, 'cut.bin'), { info: [unsure], status: 0, columns: [`${columns} 0 0`], scanned: 0 });
    assert.deepEqual(await said(room, 'one.cue'), { info: [`${what}: the volume has ${sectors} blocks, and the cue sheet has no other track`], status: 1,
        columns: [`${columns} 1 0`], scanned: 1 });
    assert.deepEqual(await said(room, 'two.cue'), { info: [unsure], status: 0, columns: ['audio - - -', `${columns} 0 0`], scanned: 0 });
    cut(sectors - 150);
    assert.deepEqual((await said(room, 'one.cue')).status, 0);
    // Tracks in one file: nothing is missing before the end of the file.
    write(room, { 'all.bin': Buffer.concat([read(room, 'cut.bin'), read(room, 'audio.bin')]),
        'all.cue': 'FILE "all.bin" BINARY\n TRACK 01 MODE1/2352\n INDEX 01 00:00:00\n' });
    tool('sh', ['-c', `printf ' TRACK 02 AUDIO\\n INDEX 01 %02d:%02d:%02d\\n' $(( ${sectors - 150} / 4500 )) $(( ${sectors - 150} / 75 % 60 )) ` +
        `$(( ${sectors - 150} % 75 )) >> all.cue`], { cwd: room });
    assert.deepEqual((await said(room, 'all.cue')).info, []);
}));

test('a volume with another base, by itself or counted from the start of the disc', { skip }, async () => {
    for (const [first, options] of [[225, []], [5000, ['-C', '0,5000']], [225, ['-C', '0,225']]]) await inDirectory(async room => {
        const { cut, sectors, big } = await disc(room, { first, options });
        const half = big.block + 10;
        cut(half - first);
        const line = `${half}-${first + sectors - 1} not in the image: /BIG.BIN continues there`;
        assert.deepEqual((await said(room, 'cut.bin')).info, [line], `${first} ${options}`);
        // The blocks before the track may belong to the volume's number of blocks.
        cut(sectors - 100);
        const isLess = first === 225 && options.length > 0;
        const said2 = `${first + sectors - 100}-${first + sectors - 1} not in the image, though the volume has ${sectors} blocks${UNSURE}`;
        assert.deepEqual(await said(room, 'cut.bin').then(it => [it.info, it.status]), [isLess ? [] : [said2], 0]);
    });
});

test('numbers of a volume that cannot be believed are no finding', { skip }, () => inDirectory(async room => {
    const { sectors, big } = await disc(room);
    const iso = read(room, 'disc.iso');
    const made = async (name, change) => {
        const copy = Buffer.from(iso);
        change(copy);
        write(room, { [`${name}.iso`]: copy });
        assert.equal((await run(['raw', `${name}.iso`, `${name}.bin`], { cwd: room })).status, 0);
        write(room, { [`${name}.cut.bin`]: read(room, `${name}.bin`).subarray(0, 2352 * (big.block + 10)) });
    };
    await made('odd', copy => copy.writeUInt32BE(7, 16 * 2048 + 84));
    assert.deepEqual((await said(room, 'odd.cut.bin')).info, []);
    // Some discs list files as longer than they are, as copy protection.
    await made('long', copy => {
        for (let at = copy.indexOf('BIG.BIN'); at >= 0; at = copy.indexOf('BIG.BIN', at + 1)) {
            if (copy.readUInt32LE(at - 33 + 2) !== big.block) continue;
            copy.writeUInt32LE(2048 * sectors, at - 33 + 10);
            copy.writeUInt32BE(2048 * sectors, at - 33 + 14);
        }
        const joliet = copy.indexOf(Buffer.from('BIG.BIN', 'utf16le').swap16());
        copy.writeUInt32LE(2048 * sectors, joliet - 33 + 10);
        copy.writeUInt32BE(2048 * sectors, joliet - 33 + 14);
    });
    assert.deepEqual((await said(room, 'long.bin')).info, []);
    const line = `${big.block + 10}-${sectors - 1} not in the image, though the volume has ${sectors} blocks${UNSURE}`;
    assert.deepEqual(await said(room, 'long.cut.bin').then(it => [it.info, it.status]), [[line], 0]);
    // A file listed as a thousand times longer than the disc.
    await made('huge', copy => {
        copy.writeUInt32LE(4e9, 16 * 2048 + 80);
        copy.writeUInt32BE(4e9, 16 * 2048 + 84);
    });
    write(room, { 'huge.cue': 'FILE "huge.bin" BINARY\n TRACK 01 MODE1/2352\n INDEX 01 00:00:00\n' });
    for (const name of ['huge.bin', 'huge.cue']) {
        const { info, status, columns, scanned } = await said(room, name);
        assert.deepEqual([info.length, status, columns, scanned], [1, 0, [`mode1 ${sectors},short ${4e9 - sectors} 0 0 0`], 0]);
    }
    // The root directory is missing too.
    write(room, { 'few.bin': read(room, 'disc.bin').subarray(0, 2352 * 20) });
    assert.deepEqual((await said(room, 'few.bin')).info, [`20-${sectors - 1} not in the image, though the volume has ${sectors} blocks${UNSURE}`]);
}));
