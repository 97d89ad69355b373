// Lost sectors: random merges of dumps of one disc, in which each sector that differs from the disc's must be listed.

import assert from 'node:assert/strict';
import { test } from 'node:test';
import { calls, core, diceOf, joinedPieces, readerOf, someBytes } from './common.mjs';
import { localPool } from './pools.mjs';
import { RAW, sectorAt, sound, trackIn } from './pairs.mjs';
import { recordOf, volumeOf } from './strangers.mjs';

const { repairTrack } = await core('tasks/repair.js');
const { lostSectors, otherSectors } = await core('disc/lost.js');
const { isSound, surveyRange } = await core('sectors/survey.js');

/** The number of cases; a thousand take half a minute. */
const CASES = Number(process.env.LOST_CASES ?? 40);
const USER = 2048;
const [FIRST_FILE, SHORTEST_TRACK] = [19, 300];
const KIND_MODE1 = 2;

const imageOf = bytes => ({ name: 'image.bin', reader: readerOf(bytes), base: 0, addressed: 0, sectors: bytes.length / RAW, tail: 0 });

/** A random disc: its files, each with its first block and number of blocks, and its sectors. Audio may follow those of the volume. */
function someDisc(dice) {
    const files = [];
    let next = FIRST_FILE;
    while (next < 330 + dice(300)) {
        const count = 1 + dice(dice(4) === 0 ? 250 : 30);
        files.push({ first: next, size: count });
        next += count + (dice(5) === 0 ? dice(6) : 0);
    }
    const [sectors, audio] = [next + (dice(3) === 0 ? dice(5) : 0), dice(3) === 0 ? SHORTEST_TRACK + dice(40) : 0];
    const listed = audio > 0 && dice(2) === 0 ? [{ first: sectors, size: audio }] : [];
    const records = [...files, ...listed].map(({ first, size }, i) => recordOf(`F${i}`, first, USER * size, { flags: 0 }));
    const user = volumeOf(sectors, sector => sector === 18 ? records : []);
    const image = new Uint8Array((sectors + audio) * RAW);
    for (let i = 0; i < sectors; i++) {
        if (i >= FIRST_FILE) user.fill(1 + dice(255), USER * i, USER * i + 1 + dice(USER));
        image.set(sound(i, user.subarray(USER * i, USER * (i + 1))), RAW * i);
    }
    image.set(someBytes(dice, audio * 99), sectors * RAW);
    for (let i = sectors; i < sectors + audio; i++) if (dice(9) > 0) image.set(someBytes(dice, 40), RAW * i);
    return { files: [...files, ...listed], image, listedFrom: listed.length > 0 ? sectors : Infinity };
}

/** Kinds of damage by a dumper: one byte repeated, noise, and sectors that have lost their sync field, mode, or some bytes. */
const HARMS = [
    (_, sector) => sector.fill(0), (_, sector) => sector.fill(0x55), (dice, sector) => sector.set(someBytes(dice, RAW)),
    (dice, sector) => { sector[dice(12)] ^= 1 + dice(255); }, (dice, sector) => { sector[15] = dice(2) === 0 ? 2 : 0; },
    (dice, sector) => { sector[16 + dice(2000)] ^= 1 + dice(255); },
];

/** Damages some places, at an edge or anywhere, each in all dumps or in some. */
function harmSome(dice, dumps) {
    const count = dumps[0].length / RAW;
    for (let left = 1 + dice(5); left > 0; left--) {
        const size = 1 + dice(dice(4) === 0 ? 400 : 12);
        const first = [0, count - size, dice(count), dice(count)][dice(4)];
        const isShared = dice(2) === 0;
        const harm = HARMS[dice(HARMS.length)];
        for (const dump of dumps.filter(() => isShared || dice(2) === 0)) {
            for (let i = Math.max(first, 0); i < Math.min(first + size, count); i++) harm(dice, sectorAt(dump, i));
        }
    }
}

/** The set of blocks in these runs. */
const blocksOf = runs => new Set(runs.flatMap(({ first, last }) => Array.from({ length: last - first + 1 }, (_, i) => first + i)));

/** Whether two images have the same sector at an index. */
const isSame = (a, b, i) => Buffer.compare(sectorAt(a, i), sectorAt(b, i)) === 0;

/** Whether a dump has the disc's sectors with the names of the files. */
const namesFiles = (dump, image) => [16, 17, 18].every(i => Buffer.compare(userAt(dump, i), userAt(image, i)) === 0);
const userAt = (image, i) => sectorAt(image, i).subarray(16, 16 + USER);

const isFilled = sector => Buffer.compare(sector, Buffer.alloc(RAW, sector[0])) === 0;

/** Whether a sector cannot contain audio or Mode 2. */
const isHollow = sector => [1, 4].includes(calls.kind(sector)) || isFilled(sector);

/** For each block with this property, the run of such blocks around it. */
function runsAround(count, isTrue) {
    const runs = [];
    for (let i = 0; i < count; i++) {
        if (!isTrue(i)) continue;
        runs[i] = runs[i - 1] ?? { first: i, last: i };
        runs[i].last = i;
    }
    return runs;
}

/** The blocks of an image that must be reported as lost. `isOther` tells whether a block is Mode 1 in no dump. */
function dueLost(files, image, isOther) {
    const count = image.length / RAW;
    const runs = runsAround(count, isOther);
    const isLong = ({ first, last }) => last - first + 1 >= SHORTEST_TRACK;
    const isTrack = ({ first, size }) => {
        const run = runs[first];
        if (run === undefined || !isLong(run) || first + size - 1 > run.last) return false;
        const hollow = Array.from({ length: size }, (_, i) => first + i).filter(i => isHollow(sectorAt(image, i))).length;
        return 2 * hollow <= size;
    };
    // Without any Mode 1 nothing shows that the disc has data.
    const isAll = runs.length === count && runs[count - 1].first === 0;
    const used = new Set(Array.from({ length: isAll ? 0 : FIRST_FILE }, (_, i) => i));
    for (const file of files.filter(it => !isAll && !isTrack(it))) for (let i = 0; i < file.size; i++) used.add(file.first + i);
    return runs.flatMap((run, i) => {
        const sector = sectorAt(image, i);
        const isShort = !isLong(run) && run.first > 0 && run.last < count - 1;
        return isShort || used.has(i) || (sector[0] !== 0 && isFilled(sector)) ? [i] : [];
    });
}

test('each sector that is not as on the disc is named after a merge, and no other one is lost', async () => {
    const counts = { lost: 0, untested: 0, damaged: 0, named: 0 };
    for (let seed = 0; seed < CASES; seed++) {
        const dice = diceOf(seed + 1000);
        const disc = someDisc(dice);
        const dumps = Array.from({ length: 2 + dice(3) }, () => disc.image.slice());
        harmSome(dice, dumps);
        const [opened, ...others] = dumps.map(dump => trackIn(imageOf(dump)));
        const old = opened.image;
        const pieces = [];
        const repair = await repairTrack({ calls, pool: localPool() }, opened, others, piece => { pieces.push(piece); });
        const { lost, untested } = repair;
        const made = joinedPieces(dumps[0], pieces);
        const [gone, left, bad] = [lost, untested, [...repair.damaged, ...repair.doubtful]].map(blocksOf);
        for (let i = 0; i < old.sectors; i++) {
            const isRight = isSame(made, disc.image, i);
            const isNamed = gone.has(i) || left.has(i) || bad.has(i);
            assert.ok(isRight || isNamed, `seed ${seed}: block ${i} is not as on the disc, and not named`);
            // More than half of the audio that is listed as a file may be filled. Then it counts as a file of data.
            assert.ok(!isRight || !gone.has(i) || i >= disc.listedFrom, `seed ${seed}: block ${i} is as on the disc, and called lost`);
        }
        if (dumps.some(dump => namesFiles(dump, disc.image))) {
            const isOther = i => dumps.every(dump => calls.kind(sectorAt(dump, i)) !== KIND_MODE1);
            assert.deepEqual([...gone].sort((a, b) => a - b), dueLost(disc.files, made, isOther), `seed ${seed}: what is lost`);
            counts.named += 1;
        }
        const survey = surveyRange(calls, made, 0);
        const alone = await lostSectors(old, otherSectors(survey, survey.filled), null, [{ image: imageOf(made), part: imageOf(made), later: 0 }]);
        const ofOne = blocksOf([...alone.lost, ...alone.untested]);
        for (let i = 0; i < old.sectors; i++) {
            assert.equal(ofOne.has(i), calls.kind(sectorAt(made, i)) !== KIND_MODE1, `seed ${seed}: block ${i}`);
            assert.ok(!isSound(survey.records, 6 * i) || !ofOne.has(i));
        }
        counts.lost += gone.size;
        counts.untested += left.size;
        counts.damaged += bad.size;
    }
    assert.ok(counts.named > CASES / 2 && counts.lost > 10 * CASES && counts.untested > 10 * CASES && counts.damaged > CASES, JSON.stringify(counts));
});
