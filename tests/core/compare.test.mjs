// The script between two images.

import assert from 'node:assert/strict';
import { test } from 'node:test';
import { calls, core, diceOf, readerOf, sameBytes, someImage } from './common.mjs';
import { localPool, withThreads } from './pools.mjs';
import { CHANGES, RAW, blocksOf, changedImage, countOf, patchedBy, sectorAt, sound, soundImage, textOf, trackOf } from './pairs.mjs';

const { SECOND_STATE, compareTrack, diffRange, differRange, findDifferences } = await core('tasks/scripts.js');
const { ScriptParts } = await core('script/script_writer.js');
const { MOST_SCRIPT_BYTES, RESULT } = await core('module/records.js');

const BASE = 33;
const SAID = ['bytes', 'run', 'whole', 'address', 'both', 'sound'];

const compared = (old, fresh, { step, ...options } = {}, pool = localPool()) =>
    compareTrack({ calls, pool }, trackOf(old, BASE), readerOf(fresh), options, step && { step });
/** The lines before the patches in a script for this base. */
const head = version => `cdpatch ${version}\n# base ${BASE}\n`;

/** The reason why no script turns one sector into another, by the definitions; undefined if one does. */
function whyNot(old, fresh) {
    if (Buffer.compare(old, fresh) === 0) return undefined;
    const kinds = [calls.kind(old), calls.kind(fresh)];
    if (kinds.some(kind => kind !== 2)) return { why: 'kind', kinds };
    const [minute, second, frame] = Array.from(fresh.subarray(12, 15), byte => byte.toString(16).padStart(2, '0'));
    const named = /^\d\d$/.test(minute) && /^[0-5]\d$/.test(second) && /^([0-6]\d|7[0-4])$/.test(frame);
    if (!named && Buffer.compare(old.subarray(12, 15), fresh.subarray(12, 15)) !== 0) return { why: 'address', kinds: [] };
    return calls.isConsistent(fresh) ? undefined : { why: 'damaged', kinds: [] };
}

/** The blocks that must be listed, one by one. */
const dueLeft = (old, fresh) => Array.from({ length: countOf(old) }, (_, i) => i)
    .map(i => ({ block: BASE + i, ...whyNot(sectorAt(old, i), sectorAt(fresh, i)) })).filter(it => it.why !== undefined);

async function givesNew(start) {
    for (let seed = 0; seed < 25; seed++) {
        const dice = diceOf(100 + seed);
        const old = start(dice, 40, BASE, seed);
        const whole = Array.from({ length: 40 }, (_, i) => i).filter(i => calls.kind(sectorAt(old, i)) === 2);
        const fresh = old.slice();
        for (const i of whole.filter(() => dice(3) === 0)) fresh.set(CHANGES[SAID[dice(SAID.length)]](sectorAt(old, i), dice), RAW * i);
        const { script, left, tail } = await compared(old, fresh);
        assert.deepEqual([left, tail], [[], false]);
        sameBytes(await patchedBy(script, old, BASE), fresh, `seed ${seed}`);
        assert.match(textOf(script), textOf(script).includes('\naddress ') ? /^cdpatch 2\n/ : /^cdpatch 1\n/);
        assert.equal(script.size, textOf(script).length);
        assert.equal(script.patches, textOf(script).split('\n').length - 3);
    }
}

async function namesTheRest(start) {
    for (let seed = 0; seed < 25; seed++) {
        const dice = diceOf(200 + seed);
        const old = start(dice, 40, BASE);
        const fresh = changedImage(dice, old, Object.keys(CHANGES));
        const { script, left } = await compared(old, fresh);
        const due = dueLeft(old, fresh);
        assert.ok(due.length > 0);
        assert.deepEqual(blocksOf(left), due);
        assert.equal(script, null);
    }
}

async function leavesOut(start) {
    for (let seed = 0; seed < 25; seed++) {
        const dice = diceOf(300 + seed);
        const old = start(dice, 40, BASE);
        const whole = Array.from({ length: 40 }, (_, i) => i).filter(i => calls.kind(sectorAt(old, i)) === 2);
        const fresh = old.slice();
        for (const i of whole.filter(() => dice(2) === 0)) {
            fresh.set(CHANGES[[...SAID, 'damaged', 'damaged'][dice(SAID.length + 2)]](sectorAt(old, i), dice), RAW * i);
        }
        const due = dueLeft(old, fresh);
        assert.ok(due.length > 0 && due.every(it => it.why === 'damaged'));
        const { script, left } = await compared(old, fresh, { skipDamaged: true });
        assert.deepEqual(blocksOf(left), due);
        assert.equal((await compared(old, fresh)).patches, script.patches);
        const wanted = fresh.slice();
        for (const { block } of due) wanted.set(sectorAt(old, block - BASE), (block - BASE) * RAW);
        sameBytes(await patchedBy(script, old, BASE), wanted, `seed ${seed}`);
    }
}

test('from a sound image the script gives NEW byte for byte', () => givesNew(soundImage));
test('from a damaged image the script gives NEW byte for byte', () => givesNew(someImage));
test('from a sound image: what no script can say is named, and there is no script', () => namesTheRest(soundImage));
test('from a damaged image: what no script can say is named, and there is no script', () => namesTheRest(someImage));
test('from a sound image: damaged sectors of NEW are left out if that is asked for, and stay as they are', () => leavesOut(soundImage));
test('from a damaged image: damaged sectors of NEW are left out if that is asked for, and stay as they are', () => leavesOut(someImage));

test('damage of NEW is never written into good sectors of OLD', async () => {
    const dice = diceOf(7);
    const old = soundImage(dice, 50, BASE);
    const fresh = old.slice();
    for (let i = 0; i < 50; i += 2) fresh.set(CHANGES.damaged(sectorAt(old, i), dice), RAW * i);
    const refused = await compared(old, fresh);
    assert.deepEqual([refused.script, refused.patches], [null, 0]);
    const { script } = await compared(old, fresh, { skipDamaged: true });
    assert.equal(textOf(script), head(1));
    sameBytes(await patchedBy(script, old, BASE), old, 'OLD');
});

test('the same damage in both is no difference', async () => {
    const dice = diceOf(8);
    const old = someImage(dice, 40, BASE);
    const { script, left } = await compared(old, old.slice());
    assert.deepEqual([textOf(script), left], [head(1), []]);
});

test('a damaged sector of OLD is rebuilt first, and nothing more if only its damage goes', async () => {
    const user = Uint8Array.from({ length: 2048 }, (_, i) => i);
    const old = sound(BASE, user);
    old[2100] ^= 5;
    assert.equal(textOf((await compared(old, sound(BASE, user))).script), `${head(1)}rebuild ${BASE}\n`);
    const other = user.slice();
    other[5] = 0xAB;
    const both = calls.encode(Uint8Array.of(0x11, 0x22, 0x33), other);
    assert.equal(textOf((await compared(old, both)).script), `${head(2)}rebuild ${BASE}\naddress ${BASE} 11:22:33\nset ${BASE} 5 AB was 05\n`);
});

test('runs with at most eight equal bytes between them are one patch', async () => {
    const linesFor = async (...places) => {
        const user = new Uint8Array(2048);
        for (const place of places) user[place] = 0xA5;
        return textOf((await compared(sound(BASE, new Uint8Array(2048)), sound(BASE, user))).script).split('\n').slice(2, -1);
    };
    assert.deepEqual(await linesFor(0), [`set ${BASE} 0 A5 was 00`]);
    assert.deepEqual(await linesFor(2047), [`set ${BASE} 2047 A5 was 00`]);
    assert.deepEqual(await linesFor(3, 12), [`set ${BASE} 3 A5${'00'.repeat(8)}A5 was ${'00'.repeat(10)}`]);
    assert.deepEqual(await linesFor(3, 13), [`set ${BASE} 3 A5 was 00`, `set ${BASE} 13 A5 was 00`]);
    // The last four bytes are a word in which all bytes differ.
    for (const equal of [4, 5, 6, 7, 8]) {
        const [first, zeros] = [11 - equal, '00'.repeat(equal)];
        assert.deepEqual(await linesFor(first, 12, 13, 14, 15), [`set ${BASE} ${first} A5${zeros}A5A5A5A5 was ${zeros}${'00'.repeat(5)}`]);
    }
    assert.deepEqual(await linesFor(2, 12, 13, 14, 15), [`set ${BASE} 2 A5 was 00`, `set ${BASE} 12 A5A5A5A5 was 00000000`]);
    assert.deepEqual(await linesFor(3, 12, 2046, 2047), [`set ${BASE} 3 A5${'00'.repeat(8)}A5 was ${'00'.repeat(10)}`, `set ${BASE} 2046 A5A5 was 0000`]);
});

test('another tail', async () => {
    const old = soundImage(diceOf(9), 5, BASE, 20);
    const fresh = old.slice();
    fresh[5 * RAW + 19] ^= 1;
    const { script, left, tail } = await compared(old, fresh, { skipDamaged: true });
    assert.deepEqual([script, left, tail], [null, [], true]);
    const all = await compared(old, fresh, { partial: true });
    assert.deepEqual([textOf(all.script), all.left, all.tail], [head(1), [], true]);
});

test('ranges of 1 to 4096 sectors agree, and threads agree with one process', async () => {
    const dice = diceOf(10);
    const old = someImage(dice, 300, BASE);
    const fresh = changedImage(dice, old, [...SAID, 'damaged'], 2);
    const due = await compared(old, fresh, { skipDamaged: true, step: 300 });
    const joined = ({ script, ...rest }) => ({ ...rest, ...script, pieces: script && textOf(script) });
    for (const step of [1, 2, 7, 128, 299, 4096]) assert.deepEqual(joined(await compared(old, fresh, { skipDamaged: true, step })), joined(due));
    await withThreads(3, async pool => {
        for (const step of [1, 50, 4096]) assert.deepEqual(joined(await compared(old, fresh, { skipDamaged: true, step }, pool)), joined(due));
    });
});

/** The other properties of a result if nothing is special. */
const PLAIN = { version: 1, carry: false, left: [] };

test('more patches than cdpatch takes need --long', async () => {
    const old = soundImage(diceOf(11), 350, BASE);
    const fresh = old.slice();
    let patches = 0;
    for (let i = 0; patches < 65536; i++) {
        const user = sectorAt(old, i).slice(16, 2064);
        for (let at = 0; at < 2048 && patches < 65536; at += 10, patches++) user[at] ^= 1;
        fresh.set(sound(BASE + i, user), RAW * i);
    }
    const more = await compared(old, fresh);
    assert.deepEqual([more.script.patches, more.script.long], [65536, true]);
    const scriptOf = count => {
        const parts = new ScriptParts();
        parts.push({ text: new Uint8Array(1), patches: count, ...PLAIN });
        return parts.script(calls);
    };
    assert.deepEqual([0, 1, 65535, 65536].map(count => scriptOf(count).long), [false, false, false, true]);
});

test('a need of --carry is kept, whichever lines have it', () => {
    for (const carried of [[], [0], [1], [2], [0, 1, 2]]) {
        const parts = new ScriptParts();
        [0, 1, 2].forEach(i => parts.push({ text: new Uint8Array(1), patches: 1, ...PLAIN, carry: carried.includes(i) }));
        assert.equal(parts.script(calls).carry, carried.length > 0);
    }
});

test('the version of a script is the highest of its parts', () => {
    for (const [versions, due] of [[[1, 1], 1], [[1, 2], 2], [[2, 1], 2]]) {
        const parts = new ScriptParts();
        for (const version of versions) parts.push({ text: new Uint8Array(1), patches: 1, ...PLAIN, version });
        assert.equal(Buffer.from(parts.script(calls).pieces[0]).toString(), `cdpatch ${due}\n`);
    }
});

test('the bytes that differ are counted by their fields', () => {
    const ends = [12, 16, 2064, 2068, 2076, 2352];
    let seen = 0;
    for (let seed = 0; seed < 20; seed++) {
        const dice = diceOf(seed);
        const old = changedImage(dice, soundImage(dice, 12, BASE), ['damaged'], 3);
        const fresh = changedImage(dice, old, ['bytes', 'address', 'sound', 'damaged', 'damaged', 'mode', 'sync'], 2);
        const due = { blocks: [], fields: [], states: [] };
        for (let i = 0; i < 12; i++) {
            const [a, b] = [sectorAt(old, i), sectorAt(fresh, i)];
            const places = Array.from(a.keys()).filter(at => a[at] !== b[at]);
            if (places.length === 0) continue;
            due.blocks.push(BASE + i);
            due.fields.push(...ends.map((end, k) => places.filter(at => at < end && at >= (ends[k - 1] ?? 0)).length));
            const sound2 = calls.isConsistent(b) ? SECOND_STATE.SOUND : SECOND_STATE.DAMAGED;
            due.states.push(calls.kind(b) === 2 ? sound2 : SECOND_STATE.NOT_MODE1);
        }
        const came = differRange(calls, old, fresh, BASE);
        assert.deepEqual({ blocks: [...came.blocks], fields: [...came.fields], states: [...came.states] }, due, `seed ${seed}`);
        seen += due.blocks.length;
    }
    assert.ok(seen > 80, `${seen}`);
});

test('of the sectors that differ it is said in how many only the codes do, and whether the tails do', async () => {
    const dice = diceOf(15);
    const [old, pool] = [soundImage(dice, 40, BASE, 9), localPool()];
    const fresh = old.slice();
    const [codes, others] = [[3, 8, 30], [4, 9, 31, 39]];
    for (const i of codes) fresh[RAW * i + 2064 + dice(288)] ^= 1;
    for (const [k, i] of others.entries()) fresh[RAW * i + [0, 12, 16, 2063][k]] ^= 1;
    const blocks = [];
    const found = await findDifferences({ pool }, trackOf(old, BASE), readerOf(fresh), differing => { blocks.push(...differing.blocks); }, { step: 7 });
    assert.deepEqual([found, blocks], [{ sectors: 7, onlyCodes: 3, tail: false }, [...codes, ...others].sort((a, b) => a - b).map(i => BASE + i)]);
    fresh[RAW * 40 + 8] ^= 1;
    assert.equal((await findDifferences({ pool }, trackOf(old, BASE), readerOf(fresh), () => {})).tail, true);
});

test('the lines that are given away as they come, and the script of a base', async () => {
    const dice = diceOf(16);
    const old = soundImage(dice, 600, BASE);
    const fresh = changedImage(dice, old, ['bytes', 'address'], 9);
    const [whole, lines] = [await compared(old, fresh), []];
    assert.match(textOf(whole.script), new RegExp(`^cdpatch 2\n# base ${BASE}\n[a-z]+ `));
    const { script } = await compared(old, fresh, { take: async text => { lines.push(Buffer.from(text)); } });
    assert.deepEqual([textOf(script), script.size], [head(2), whole.script.size]);
    assert.equal(lines[0].toString(), head(1));
    assert.equal(textOf(script) + Buffer.concat(lines.slice(1)), textOf(whole.script));
    assert.match(textOf((await compareTrack({ calls, pool: localPool() }, trackOf(old, 0), readerOf(fresh))).script), /^cdpatch 2\n[a-z]+ /);
});

test('a script of more bytes than cdpatch takes needs --long', () => {
    const sizedScript = size => {
        const parts = new ScriptParts();
        parts.push({ text: new Uint8Array(size - 'cdpatch 1\n'.length), patches: 1, ...PLAIN });
        return parts.script(calls);
    };
    assert.equal(sizedScript(MOST_SCRIPT_BYTES).size, MOST_SCRIPT_BYTES);
    assert.deepEqual([-1, 0, 1].map(more => sizedScript(MOST_SCRIPT_BYTES + more).long), [false, false, true]);
});

test('a script that would not fit in memory is refused', () => {
    const parts = new ScriptParts();
    const text = new Uint8Array(1 << 20);
    for (let i = 0; i < 1024; i++) parts.push({ text, patches: 1, ...PLAIN });
    assert.throws(() => parts.push({ text: text.subarray(0, 1), patches: 1, ...PLAIN }),
        { name: 'Fault', code: 'script/too-large', facts: { most: 1073741824 } });
});

test('lines of sectors that differ in every other byte are tried a few sectors at a time', () => {
    const old = new Uint8Array(400 * RAW);
    const fresh = new Uint8Array(400 * RAW);
    const user = new Uint8Array(2048);
    const other = user.map((_, i) => Number(i % 10 === 0));
    for (let i = 0; i < 400; i++) {
        old.set(sound(BASE + i, user), i * RAW);
        fresh.set(sound(BASE + i, other), i * RAW);
    }
    const { patches, left } = diffRange(calls, old, fresh, BASE);
    assert.ok(patches > 65535);
    assert.deepEqual(left, []);
});

test('sectors that lines for what differs make right are not surveyed', () => {
    const dice = diceOf(14);
    const old = soundImage(dice, 300, BASE);
    const fresh = changedImage(dice, old, ['bytes', 'whole', 'address'], 1);
    const counted = image => {
        const asked = { survey: 0, jobBegin: 0 };
        const counting = Object.assign(Object.create(calls), Object.fromEntries(Object.keys(asked).map(name =>
            [name, function counted(...given) { asked[name] += 1; return calls[name].apply(this, given); }])));
        return { ...diffRange(counting, image, fresh, BASE), asked };
    };
    const { left, asked } = counted(old);
    assert.deepEqual([left, asked], [[], { survey: 0, jobBegin: 2 }]);
    const hurt = old.slice();
    hurt[280 * RAW + 2100] ^= 1;
    const { patches, asked: more } = counted(hurt);
    assert.deepEqual(more, { survey: 2, jobBegin: 3 });
    assert.ok(patches > 300);
});

test('lines that the module does not take, or that give other sectors, are not given out', async () => {
    const dice = diceOf(13);
    const old = soundImage(dice, 6, BASE);
    const fresh = changedImage(dice, old, ['bytes'], 1);
    const apply = change => ({
        jobApply(job, ...given) {
            return change(calls.jobApply.call(this, job, ...given), job, ...given);
        },
    });
    const wrongs = [
        apply(made => made.map(it => ({ ...it, result: RESULT.DIFFERS, block: BASE + 9 }))),
        { jobBegin(...given) { return { ...calls.jobBegin.apply(this, given), refusal: new Uint8Array(1) }; } },
        apply((made, job, place) => {
            calls.memory[place] ^= 1;
            return made;
        }),
        { jobApply: job => { job.left = 0; return []; } },
    ];
    for (const wrong of wrongs) {
        const broken = Object.assign(Object.create(calls), wrong);
        assert.throws(() => diffRange(broken, old, fresh, BASE), { name: 'Fault', code: 'script/wrong-sector' });
    }
    assert.ok(diffRange(calls, old, fresh, BASE).text.length > 0);
});

test('in a Mode 2 sector the bytes are counted by the fields of its form', () => {
    for (const [submode, edc] of [[0x08, 2072], [0x28, 2348]]) {
        const fresh = new Uint8Array(RAW).fill(0x11);
        fresh.set([0, ...new Array(10).fill(0xFF), 0, 0, 2, 0, 2, 0, 0, submode, 0, 0, 0, submode, 0]);
        const old = fresh.slice();
        for (const at of [13, 19, 100, 2000, edc, edc + 3, ...edc < 2348 ? [2076, 2351] : []]) old[at] ^= 1;
        assert.deepEqual([...differRange(calls, old, fresh, BASE).fields], [0, 1, 3, 2, 0, edc < 2348 ? 2 : 0]);
    }
});
