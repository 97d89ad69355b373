// Tests Mode 2 sectors: the two copies of the subheader, the EDC, and the parity of Form 1.

import { newBytes } from '../faults.js';
import { RECORD, RECORD_SIZE, SECTOR_KIND, SECTOR_SIZE, type Calls } from '../module/index.js';
import { HEADER_OFFSET, addressIn, addressOf, asWords, hasOtherAddress, type Run } from './sector.js';

/**
 * What was found in a Mode 2 sector, as a sum. 0 for a sector of a different kind. Without TESTED only ADDRESS can be set: Form 2 may have
 * no EDC (00000000), and a sector that is 00 from its subheader on matches its codes although it may be a sector that a drive lost.
 */
export const MODE2 = Object.freeze({ TESTED: 1, SUBHEADER: 2, EDC: 4, PARITY: 8, ADDRESS: 16 });

const DAMAGED = MODE2.SUBHEADER | MODE2.EDC | MODE2.PARITY;

/**
 * The offsets of a Mode 2 sector with a subheader, as in CD-ROM XA and CD-i. The subheader has four bytes and a copy, and `SUBMODE` is its
 * third byte. The EDC is calculated from the subheader on. The parity of Form 1 is calculated with a header of four bytes 00.
 */
const SUBHEADER = 16;
const COPY = 20;
const SUBMODE = 18;
const FORM1_EDC = 2072;
const FORM2_EDC = 2348;

/** The bit of the submode that is set in Form 2. */
const FORM2 = 0x20;

/** The bytes of a Mode 2 sector without sync field and header. */
export const HEADERLESS_SIZE = SECTOR_SIZE - SUBHEADER;

/**
 * Raw Mode 2 sectors from sectors without sync field and header.
 * @param bytes of whole sectors of HEADERLESS_SIZE
 * @param block the block of the first sector. All blocks must have an address.
 */
export function withHeaders(calls: Calls, bytes: Uint8Array, block: number) {
    const count = Math.floor(bytes.length / HEADERLESS_SIZE);
    const sectors = newBytes(count * SECTOR_SIZE);
    for (let i = 0; i < count; i++) {
        const address = addressOf(calls, block + i);
        if (address === null) throw new RangeError(`block ${block + i} has no address`);
        const at = i * SECTOR_SIZE;
        sectors.fill(0xFF, at + 1, at + HEADER_OFFSET - 1);
        sectors.set([...address, 2], at + HEADER_OFFSET);
        sectors.set(bytes.subarray(i * HEADERLESS_SIZE, (i + 1) * HEADERLESS_SIZE), at + SUBHEADER);
    }
    return sectors;
}

export function isTestedMode2(found: number) {
    return (found & MODE2.TESTED) !== 0;
}

export function isDamagedMode2(found: number) {
    return (found & DAMAGED) !== 0;
}

/** Whether a Mode 2 sector was tested and matches its codes. Its address may be wrong: no code includes the header. */
export function isSoundMode2(found: number) {
    return isTestedMode2(found) && !isDamagedMode2(found);
}

/** The place of the EDC in a Mode 2 sector, by the form that its subheader gives. */
export function edcOfMode2(sector: Uint8Array) {
    return (sector[SUBMODE] & FORM2) !== 0 ? FORM2_EDC : FORM1_EDC;
}

/**
 * Tests the Mode 2 sectors of a range. Returns a sum of MODE2 for each sector.
 * @param bytes of whole sectors
 * @param records of the same sectors
 * @param block the block of the first sector by its address, null if addresses are not tested
 */
export function testMode2(calls: Calls, bytes: Uint8Array, records: Uint8Array, block: number | null) {
    const found = newBytes(records.length / RECORD_SIZE);
    const places = mode2Places(records);
    if (places.length === 0) return found;
    const words = asWords(bytes);
    calls.hold(bytes);
    for (const i of places) {
        const sum = testCodes(calls, bytes, words, i * SECTOR_SIZE);
        const isElsewhere = block !== null && hasOtherAddress(calls, addressIn(bytes, i), block + i);
        found[i] = isElsewhere ? sum | MODE2.ADDRESS : sum;
    }
    return found;
}

function mode2Places(records: Uint8Array) {
    const places = [];
    for (let at = RECORD.KIND; at < records.length; at += RECORD_SIZE) {
        if (records[at] === SECTOR_KIND.MODE2) places.push((at - RECORD.KIND) / RECORD_SIZE);
    }
    return places;
}

/** The findings in a held Mode 2 sector, whose held header becomes 00. `words` are the same bytes. `at` is the place of the sector. */
function testCodes(calls: Calls, bytes: Uint8Array, words: Int32Array, at: number) {
    const copies = words[(at + SUBHEADER) >> 2] === words[(at + COPY) >> 2] ? 0 : MODE2.SUBHEADER;
    const isForm2 = (bytes[at + SUBMODE] & FORM2) !== 0;
    const end = at + (isForm2 ? FORM2_EDC : FORM1_EDC);
    const isZero = words[end >> 2] === 0;
    if (isZero && copies === 0 && (isForm2 || isEmpty(words, at))) return 0;
    if (isZero && isForm2) return MODE2.TESTED | copies;
    const isEdc = calls.heldEdc(at + SUBHEADER, end) === storedEdc(bytes, end);
    const isParity = isForm2 || calls.hasHeldParity(at);
    return MODE2.TESTED | copies | (isEdc ? 0 : MODE2.EDC) | (isParity ? 0 : MODE2.PARITY);
}

/** Whether a sector is 00 from its subheader on. `at` is the place of the sector in bytes. */
function isEmpty(words: Int32Array, at: number) {
    return words.subarray((at + SUBHEADER) >> 2, (at + SECTOR_SIZE) >> 2).every(word => word === 0);
}

function storedEdc(bytes: Uint8Array, at: number) {
    return (bytes[at] | bytes[at + 1] << 8 | bytes[at + 2] << 16 | bytes[at + 3] << 24) >>> 0;
}

/**
 * The findings in the Mode 2 sectors of a whole image. If no sector is sound, nothing shows that the sectors have a subheader and codes, so
 * that none counts as tested: Mode 2 may have 2336 bytes of user data instead.
 */
export function settledMode2(found: Uint8Array) {
    return found.some(isSoundMode2) ? found : found.map(it => it & MODE2.ADDRESS);
}

/**
 * Counts the Mode 2 sectors of a survey: all, the tested ones, the damaged ones, those with a wrong address, and those with either finding.
 * @param found the settled findings in the same sectors
 */
export function mode2Counts(records: Uint8Array, found: Uint8Array) {
    let [tested, damaged, elsewhere, wrong] = [0, 0, 0, 0];
    for (const it of found) {
        tested += Number(isTestedMode2(it));
        damaged += Number(isDamagedMode2(it));
        elsewhere += Number((it & MODE2.ADDRESS) !== 0);
        wrong += Number((it & (DAMAGED | MODE2.ADDRESS)) !== 0);
    }
    return { sectors: mode2Places(records).length, tested, damaged, elsewhere, wrong };
}

/** The runs of Mode 2 sectors with any of some findings. `block` is the block of the first sector. */
export function mode2Runs(found: Uint8Array, block: number, isWanted: (found: number) => boolean) {
    const runs: Run[] = [];
    for (let i = 0; i < found.length; i++) {
        if (!isWanted(found[i])) continue;
        const first = i;
        while (i + 1 < found.length && isWanted(found[i + 1])) i += 1;
        runs.push({ first: block + first, last: block + i });
    }
    return runs;
}
