// Shared by the tests of merges: random dumps of discs of every kind, and the expected result of their repair, sector by sector. What the
// codes of a sector show is known from how it was made.

import assert from 'node:assert/strict';
import { spawnSync } from 'node:child_process';
import { fileURLToPath } from 'node:url';
import { calls, diceOf, someBytes } from './common.mjs';
import { RAW, sectorAt } from './pairs.mjs';

const [SUBHEADER, FORM1_EDC, FORM2_EDC] = [16, 2072, 2348];

/** Mode 2 sectors with the address of block 0. Of each eight, five are Form 1, two are Form 2, and the last one is Form 2 without EDC. */
const encoder = fileURLToPath(new URL('../lib/mode2_sectors.py', import.meta.url));
const made = spawnSync('python3', ['-B', encoder, '96', '7'], { maxBuffer: 1 << 24 });
assert.equal(made.status, 0, `${made.stderr}`);
export const POOL = Array.from({ length: 96 }, (_, i) => Uint8Array.from(sectorAt(made.stdout, i)));
const numbers = Array.from({ length: 96 }, (_, i) => i);
export const [FORM1, FORM2, WITHOUT_EDC] = [i => i % 8 < 5, i => i % 8 === 5 || i % 8 === 6, i => i % 8 === 7]
    .map(is => numbers.filter(is).map(i => POOL[i]));

/** The address of a block, which may be in the first pause. */
export function addressOf(block) {
    const [seconds, frame] = [Math.floor((block + 150) / 75), (block + 150) % 75];
    return Uint8Array.from([Math.floor(seconds / 60), seconds % 60, frame], number => number + 6 * Math.floor(number / 10));
}

/** A Mode 2 sector with the address of a block, which no code includes. */
export function at(block, sector) {
    const moved = sector.slice();
    moved.set(addressOf(block), 12);
    return moved;
}

const same = (a, b, from, to) => Buffer.compare(a.subarray(from, to), b.subarray(from, to)) === 0;
const isForm2 = sector => (sector[18] & 0x20) !== 0;
/** Whether a change of a sector's data is seen: not in Form 2 without EDC. */
const hasCode = ({ bytes, mode }) => mode === 1 || !isForm2(bytes) || !same(bytes, new Uint8Array(RAW), FORM2_EDC, RAW);
const oneOf = (dice, list) => list[dice(list.length)];

/** Random user data, and audio. */
const [USER, AUDIO] = [2048, RAW].map(size => Array.from({ length: 32 }, (_, i) => someBytes(diceOf(size + i), size)));

/** Sectors of a block: their bytes, what their codes show, their mode (0 if it is lost), and whether they have the address of the block. */
const KINDS = {
    mode1: (dice, block) => ({ bytes: calls.encode(addressOf(block), oneOf(dice, USER)), state: 'sound', mode: 1, isHome: true }),
    form1: (dice, block) => ({ bytes: at(block, oneOf(dice, FORM1)), state: 'sound', mode: 2, isHome: true }),
    form2: (dice, block) => ({ bytes: at(block, oneOf(dice, FORM2)), state: 'sound', mode: 2, isHome: true }),
    withoutEdc: (dice, block) => ({ bytes: at(block, oneOf(dice, WITHOUT_EDC)), state: 'untested', mode: 2, isHome: true }),
    audio: dice => ({ bytes: oneOf(dice, AUDIO), state: 'lost', mode: 0, isHome: false }),
};
const DISCS = [['mode1'], ['mode1', 'mode1', 'mode1', 'audio'], ['form1', 'form1', 'form2'], ['form1', 'withoutEdc', 'withoutEdc'], Object.keys(KINDS)];

/** Changes of a sector. Those from `other` on make a different disc. */
const HARMS = {
    bit: (it, dice) => {
        const place = SUBHEADER + dice(RAW - SUBHEADER);
        if (hasCode(it) || place < SUBHEADER + 8 || place >= FORM2_EDC) it.state = 'damaged';
        it.bytes[place] ^= 1 << dice(8);
    },
    burst: (it, dice) => { if (hasCode(it)) it.state = 'damaged'; it.bytes.set(someBytes(dice, 300), 400); },
    lost: (it, dice) => { it.bytes.fill(oneOf(dice, [0, 0x55])); Object.assign(it, { state: 'lost', mode: 0, isHome: false }); },
    emptied: it => { it.bytes.fill(0, SUBHEADER); it.state = it.mode === 1 ? 'damaged' : 'untested'; },
    sync: (it, dice) => { it.bytes[dice(12)] ^= 1 + dice(255); Object.assign(it, { state: 'lost', mode: 0 }); },
    mode: it => { it.bytes[15] = 0; Object.assign(it, { state: 'lost', mode: 0 }); },
    header: (it, dice) => { it.bytes[14] ^= 1 + dice(3); it.isHome = false; if (it.mode === 1) it.state = 'damaged'; },
    newEdc: it => { if (!hasCode(it) && it.state === 'untested') withNewEdc(it); },
    other: (it, dice, block) => { Object.assign(it, oneOf(dice, Object.values(KINDS).slice(0, 4))(dice, block)); },
    patched: (it, dice) => { if (!hasCode(it) && it.state === 'untested') { it.bytes.set(someBytes(dice, 300), 400); withNewEdc(it); } },
    elsewhere: (it, dice, block) => { Object.assign(it, oneOf(dice, [KINDS.mode1, KINDS.form1])(dice, block + 7), { isHome: false }); },
};

/** Fills in the missing EDC of a Form 2 sector. */
function withNewEdc(it) {
    new DataView(it.bytes.buffer).setUint32(FORM2_EDC, calls.edc(it.bytes.subarray(SUBHEADER, FORM2_EDC)), true);
    it.state = 'sound';
}

/** Dumps of one disc from a block on, each with its own harm, and some with the same; one in four discs has different versions. */
export function someDumps(dice, count, sectors, first, isPatched = dice(4) === 0) {
    const kinds = oneOf(dice, DISCS).map(kind => KINDS[kind]);
    const disc = Array.from({ length: sectors }, (_, i) => oneOf(dice, kinds)(dice, first + i));
    const names = Object.keys(HARMS).filter((name, _, all) => isPatched || all.indexOf(name) < all.indexOf('other'));
    const harmed = (dump, few) => dump.map((it, i) => {
        const copy = { ...it, bytes: it.bytes.slice() };
        if (it.mode !== 0 && it.isHome && dice(few) === 0) HARMS[oneOf(dice, names)](copy, dice, first + i);
        return copy;
    });
    const mastered = harmed(disc, 12);
    return Array.from({ length: count }, () => harmed(mastered, 5));
}

/** How well a sound sector fits: 2 with the same EDC, 1 with the same data, else 0. */
function fit({ bytes }, { bytes: sound, mode }) {
    const [from, edc] = mode === 1 ? [12, 2064] : [SUBHEADER, isForm2(sound) ? FORM2_EDC : FORM1_EDC];
    if (same(bytes, sound, edc, edc + 4)) return 2;
    return same(bytes, sound, from, edc) ? 1 : 0;
}

/** The sound copies of a sector that may replace it. */
function copiesFor(here, there) {
    const home = there.filter(it => it.state === 'sound' && it.isHome);
    if (here.state === 'sound') return here.isHome ? [] : home.filter(it => same(it.bytes, here.bytes, SUBHEADER, RAW));
    return here.state === 'untested' && here.bytes.subarray(SUBHEADER).some(byte => byte !== 0) ? [] : home;
}

/**
 * The expected repair of dumps, whose blocks are counted from a base: the sectors, and the findings. A dump may lack blocks (null). `kept` lists sectors of Mode 2 that
 * were not tested and are different in other dumps, and `untested` counts them for each dump.
 */
export function dueOf([old, ...dumps], base) {
    const others = dumps.map((dump, other) => dump.map(it => it && { ...it, other }));
    const found = { taken: [], doubtful: [], damaged: [], disputed: [], wrongAddress: [], kept: [], different: dumps.map(() => 0),
        untested: dumps.map(() => 0), bytes: old.map(it => it.bytes) };
    const hasMode2 = [old, ...dumps].some(dump => dump.some(it => it !== null && it.state === 'sound' && it.mode === 2));
    old.forEach((here, i) => {
        const block = base + i;
        const there = others.map(dump => dump[i]).filter(it => it !== null && !same(it.bytes, here.bytes, 0, RAW));
        const copies = copiesFor(here, there);
        const unlike = there.filter(it => !same(it.bytes, here.bytes, SUBHEADER, FORM2_EDC));
        if (copies.length > 0) {
            const best = copies.reduce((a, b) => fit(here, b) > fit(here, a) ? b : a);
            found.bytes[i] = best.bytes;
            found.taken.push({ block, other: best.other });
            const isDisputed = copies.some(it => !same(it.bytes, best.bytes, 0, RAW));
            if (isDisputed) found.disputed.push({ block });
            if (fit(here, best) === 0) found.doubtful.push({ block, other: best.other });
        } else if (here.state === 'sound') {
            if (!here.isHome) found.wrongAddress.push({ block });
            unlike.filter(it => it.state === 'sound').forEach(it => { found.different[it.other] += 1; });
        } else if (here.state === 'untested') {
            const known = unlike.filter(it => it.state === 'sound' || it.state === 'untested');
            known.forEach(it => { found.untested[it.other] += 1; });
            if (known.length > 0 || (!hasMode2 && unlike.some(it => it.mode === 2))) found.kept.push({ block });
        } else {
            const elsewhere = there.some(it => it.state === 'sound');
            const isMode2 = elsewhere || [here, ...there].some(it => it.mode === 2 && it.state === 'damaged');
            if ([here, ...there].some(it => it.mode === 1) || (hasMode2 && isMode2)) found.damaged.push({ block, elsewhere });
        }
    });
    return found;
}
