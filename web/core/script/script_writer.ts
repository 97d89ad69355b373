// Builds a script from lines that this core has written, in pieces, and determines what it requires of its reader.

import { ByteList, joinedBytes, sameBytes } from '../bytes.js';
import { Fault } from '../faults.js';
import {
    CONTENT, FLAG, LAST_BASE, MOST_SCRIPT_BYTES, RECORD, RECORD_SIZE, RESULT, SECTOR_KIND, SECTOR_SIZE, USER_SIZE, type Calls,
} from '../module/index.js';
import type { Job } from '../pool/index.js';
import {
    USER_OFFSET, addToRuns, addressIn, addressText, asWords, differingSectors, hasZeroByte, isDamaged, runOf, sameAddress, sectorOf, userOf,
} from '../sectors/index.js';
import { NEWEST_VERSION, VERBS, headLine } from './language.js';
import { stepsOfScript } from './patches.js';

// Writes the lines of a script.

/** Bytes from which lines are written, with views of them. */
type Written = { bytes: Uint8Array, words: Int32Array, view: DataView };

/** Differing bytes with at most this many equal bytes between them are in one patch: two patches would take more bytes. */
const JOINED_BYTES = 8;

const HEX_DIGITS = '0123456789ABCDEF';

/** The two hexadecimal digits of each byte, the first one in the low half. */
const DIGITS = Uint16Array.from({ length: 256 }, (_, i) => HEX_DIGITS.charCodeAt(i >> 4) | HEX_DIGITS.charCodeAt(i % 16) << 8);

/** Prepares bytes from which lines are written. */
function asWritten(bytes: Uint8Array): Written {
    return { bytes, words: asWords(bytes), view: new DataView(bytes.buffer, bytes.byteOffset, bytes.length) };
}

/** Lines of a script as bytes, and the blocks that they leave out. */
export class LineList extends ByteList {
    left: Left[];
    view; patches; version; carry;

    constructor(room?: Uint8Array) {
        super(room);
        this.view = new DataView(this.room.buffer);
        this.patches = 0;
        this.version = 1;
        this.carry = false;
        this.left = [];
    }

    lines(): Lines {
        const { patches, version, carry, left } = this;
        return { text: this.bytes().slice(), patches, version, carry, left };
    }

    /** The lines from a place on, not copied. They are valid until the list changes. */
    textFrom(at: number): Text {
        return { text: this.bytes().subarray(at), version: this.version };
    }

    /** @param text in ASCII */
    text(text: string) {
        const at = this.grow(text.length);
        for (let i = 0; i < text.length; i++) this.room[at + i] = text.charCodeAt(i);
    }

    /** @param from the source of the bytes that are appended as digits */
    hex({ bytes, view }: Written, first: number, end: number) {
        let at = this.grow(2 * (end - first));
        if (this.view.buffer !== this.room.buffer) this.view = new DataView(this.room.buffer);
        let i = first;
        for (; i + 4 <= end; i += 4, at += 8) {
            const word = view.getUint32(i, true);
            this.view.setUint32(at, DIGITS[word & 0xFF] | DIGITS[word >>> 8 & 0xFF] << 16, true);
            this.view.setUint32(at + 4, DIGITS[word >>> 16 & 0xFF] | DIGITS[word >>> 24] << 16, true);
        }
        for (; i < end; i++, at += 2) this.view.setUint16(at, DIGITS[bytes[i]], true);
    }

    set(block: number, offset: number, fresh: Uint8Array, old: Uint8Array) {
        this.setPart(block, offset, asWritten(fresh), asWritten(old), 0, fresh.length);
    }

    /** @param from the place in both where the part begins */
    setPart(block: number, offset: number, fresh: Written, old: Written, from: number, end: number) {
        this.text(`set ${block} ${offset} `);
        this.hex(fresh, from, end);
        this.text(' was ');
        this.hex(old, from, end);
        this.text('\n');
        this.patches += 1;
    }

    rebuild(block: number) {
        this.text(`rebuild ${block}\n`);
        this.patches += 1;
    }

    address(block: number, address: Uint8Array) {
        this.text(`address ${block} ${addressText(address)}\n`);
        this.patches += 1;
        this.version = VERBS.address.version;
    }

    /** Adds the lines that change the i-th of several Mode 1 sectors. `rebuild` says whether its damage is removed first. */
    sector(block: number, old: Written, fresh: Written, i: number, rebuild: boolean) {
        if (rebuild) this.rebuild(block);
        if (!sameAddress(old.bytes, fresh.bytes, i)) this.address(block, addressIn(fresh.bytes, i));
        const start = i * SECTOR_SIZE + USER_OFFSET;
        for (const { from, end } of differingRuns(old, fresh, start)) {
            this.setPart(block, from - start, fresh, old, from, end);
        }
    }

    leave(block: number, why: Left['why'], kinds: number[] = []) {
        addToRuns(this.left, { ...runOf(block), why, kinds });
    }
}

/** The line that a function adds to a list, without its end. */
export function lineText(add: (lines: LineList) => void) {
    const lines = new LineList();
    add(lines);
    return new TextDecoder().decode(lines.bytes()).trimEnd();
}

/** The runs of differing user bytes. Runs that are close together are joined. `start` is the place of the sector's user bytes in both. */
function differingRuns({ bytes: old, words: before }: Written, { bytes: fresh, words: after }: Written, start: number) {
    const runs = [];
    let [from, end] = [0, 0];
    for (let word = start >> 2; word < (start + USER_SIZE) >> 2; word++) {
        const other = before[word] ^ after[word];
        if (other === 0) continue;
        const isNear = end > 0 && 4 * word - end <= JOINED_BYTES;
        if (isNear && !hasZeroByte(other)) {
            end = 4 * word + 4;
            continue;
        }
        for (let at = 4 * word; at < 4 * word + 4; at++) {
            if (old[at] === fresh[at]) continue;
            if (end > 0 && at - end > JOINED_BYTES) runs.push({ from, end });
            if (end === 0 || at - end > JOINED_BYTES) from = at;
            end = at + 1;
        }
    }
    if (end > 0) runs.push({ from, end });
    return runs;
}

// Generates the lines of a script that change sectors. They are applied by the calls before they are returned.

/** Sectors, one after the other, in the order of their blocks: as they are (`old`), and as they have to become (`fresh`). */
type Pairs = { blocks: number[], old: Uint8Array, fresh: Uint8Array };
/**
 * Adjacent blocks whose sectors no line can change as required, and the reason: they would be damaged, their kinds are not Mode 1 (`kinds`,
 * before and after), or a script cannot express their address.
 */
export type Left = { first: number, last: number, why: 'damaged' | 'kind' | 'address', kinds: number[] };
/** Lines as bytes, the number of their patches, the version of the language, whether they need `--carry`, and the blocks they leave out. */
export type Lines = { text: Uint8Array, patches: number, version: number, carry: boolean, left: Left[] };
export type Text = Pick<Lines, 'text' | 'version'>;
/**
 * With `carry` the lines are for a patched image whose damage was carried. With `heal` a sector that has to become damaged becomes the same
 * without the damage, and is listed in `left` too.
 */
export type How = { carry?: boolean, heal?: boolean };

/** How many sectors have their lines tried at a time: a run has at most MOST_PATCHES. */
const TRY_SIZE = 256;

/** Reused memory in which lines are written before they are copied: to grow memory takes longer than to write the lines. */
let linesRoom = new Uint8Array(1 << 12);

/** The content of a block that is not examined. */
const NO_DATA = new Uint8Array(SECTOR_SIZE);

/** Whether a script can express an address, according to the module. */
function canBeNamed(calls: Calls, address: Uint8Array) {
    const line = new LineList();
    line.address(0, address);
    calls.hold(line.bytes());
    return calls.readLine(NEWEST_VERSION.content, 0, 0, line.size - 1) === CONTENT.PATCH;
}

export const linesJob: Job<'lines'> = (calls, [old, fresh], _, { blocks, how }) => linesBetween(calls, { blocks, old, fresh }, how);

/** Generates the lines that change sectors, which are applied before they are returned, and lists the blocks that no line can change. */
export function linesBetween(calls: Calls, { blocks, old, fresh }: Pairs, how: How = {}): Lines {
    const lines = new LineList(linesRoom);
    for (let i = 0; i < blocks.length; i += TRY_SIZE) {
        const [from, to] = [SECTOR_SIZE * i, SECTOR_SIZE * (i + TRY_SIZE)];
        const pairs = { blocks: blocks.slice(i, i + TRY_SIZE), old: old.subarray(from, to), fresh: fresh.subarray(from, to) };
        if (!addPlainly(calls, lines, pairs)) addJudged(calls, lines, pairs, how);
    }
    linesRoom = lines.room;
    return lines.lines();
}

/**
 * Adds lines for the differences of sectors. Returns whether these lines change the sectors as required, and adds none if they do not. If
 * they do, the sectors need no survey.
 */
function addPlainly(calls: Calls, lines: LineList, pairs: Pairs) {
    const { size, patches, version } = lines;
    const [old, fresh] = [pairs.old, pairs.fresh].map(asWritten);
    pairs.blocks.forEach((block, i) => lines.sector(block, old, fresh, i, false));
    const isRight = firstWrong(calls, lines.textFrom(size), pairs, false) < 0;
    if (!isRight) Object.assign(lines, { size, patches, version });
    return isRight;
}

/** Adds the lines for sectors of which some may be damaged or not Mode 1, and the blocks that no line can change. */
function addJudged(calls: Calls, lines: LineList, { blocks, old, fresh }: Pairs, { carry = false, heal = false }: How) {
    const states = [old, fresh].map(sectors => calls.survey(sectors, 0));
    const due = old.slice(); // what the sectors become, unchanged if they are left out
    const { size } = lines;
    blocks.forEach((block, i) => {
        const [from, to] = [old, fresh].map(bytes => sectorOf(bytes, i));
        const [before, after] = [addressIn(from, 0), addressIn(to, 0)];
        const kinds = states.map(records => records[RECORD_SIZE * i + RECORD.KIND]);
        const [damaged, toBeDamaged] = states.map(records => isDamaged(records, RECORD_SIZE * i));
        const lead = (sector: Uint8Array, rebuild: boolean) => {
            lines.sector(block, asWritten(from), asWritten(sector), 0, rebuild);
            sectorOf(due, i).set(sector);
        };
        if (kinds.some(kind => kind !== SECTOR_KIND.MODE1)) return lines.leave(block, 'kind', kinds);
        if (!sameBytes(before, after) && !canBeNamed(calls, after)) return lines.leave(block, 'address');
        if (!toBeDamaged) return lead(to, damaged);
        if (damaged && carry && isCarried(calls, block, from, to)) {
            lines.carry = true;
            return lead(to, false);
        }
        lines.leave(block, 'damaged');
        return heal ? lead(calls.encode(after, userOf(to, 0)), damaged) : undefined;
    });
    assertLeads(calls, lines.textFrom(size), { blocks, old, fresh: due }, carry);
}

/** Whether patches that carry damage change a sector as required. */
function isCarried(calls: Calls, block: number, old: Uint8Array, fresh: Uint8Array) {
    const lines = new LineList();
    lines.sector(block, asWritten(old), asWritten(fresh), 0, false);
    return firstWrong(calls, lines.textFrom(0), { blocks: [block], old, fresh }, true) < 0;
}

/**
 * Runs lines, and returns the index of a sector that they do not change as required, -1 if there is none. The blocks between those of the
 * pairs are not data, and no patch changes them.
 */
function firstWrong(calls: Calls, { version, text }: Text, { blocks, old, fresh }: Pairs, carry: boolean) {
    const base = Math.min(blocks[0], LAST_BASE);
    const size = (blocks[blocks.length - 1] + 1 - base) * SECTOR_SIZE;
    const made = old.slice();
    const places = new Map(blocks.map((block, i) => [block, i]));
    const head = new TextEncoder().encode(`${headLine(version)}\n`);
    for (const step of stepsOfScript(calls, [head, text], base, size, carry ? FLAG.CARRY : 0)) {
        if (step.kind === 'fail') return 0;
        if (step.kind === 'log') {
            const refused = step.answers.find(({ result }) => result !== RESULT.OK);
            if (refused !== undefined) return Math.max(blocks.findIndex(block => block >= refused.block), 0);
        }
        if (step.kind !== 'read' && step.kind !== 'write') continue;
        const sectors = calls.memory.subarray(step.place, step.place + step.size);
        for (let k = 0; k * SECTOR_SIZE < step.size; k++) {
            const i = places.get(base + step.at / SECTOR_SIZE + k);
            if (step.kind === 'read') sectorOf(sectors, k).set(i === undefined ? NO_DATA : sectorOf(old, i));
            else if (i !== undefined) sectorOf(made, i).set(sectorOf(sectors, k));
        }
    }
    return differingSectors(made, fresh)[0] ?? -1;
}

/** Throws a Fault if lines do not change sectors as required, which is a defect of this core. None of them are returned then. */
export function assertLeads(calls: Calls, lines: Text, pairs: Pairs, carry: boolean) {
    const wrong = firstWrong(calls, lines, pairs, carry);
    if (wrong >= 0) throw new Fault('script/wrong-sector', { block: pairs.blocks[wrong] });
}

/**
 * A script: its bytes in pieces, the number of bytes and of patches, whether it has more of either than cdpatch accepts, and whether it
 * needs `--carry`.
 */
export type Script = { pieces: Uint8Array[], size: number, patches: number, long: boolean, carry: boolean };

/** The size in bytes of the largest script that is held in memory. */
const MOST_WRITTEN = 1 << 30;

/** Whether a number of patches is too many for a script, according to the module. */
function tooManyPatches(calls: Calls, patches: number) {
    if (patches === 0) return false;
    const line = new TextEncoder().encode(lineText(lines => lines.rebuild(0)));
    calls.hold(line);
    return calls.readLine(1, patches - 1, 0, line.length) !== CONTENT.PATCH;
}

/** The lines of a generated script, without its head line and the comment that names its base. */
export function linesMade({ pieces, patches }: Script) {
    if (patches === 0) return [];
    return new TextDecoder().decode(joinedBytes(pieces.slice(1))).trimEnd().split('\n').filter(line => !line.startsWith('#'));
}

/** The parts of a script, in order, and the blocks that they leave out. */
export class ScriptParts {
    pieces: Uint8Array[] = [];
    size = 0;
    /** How many of these bytes are held. */
    held = 0;
    patches = 0;
    version = 1;
    carry = false;
    left: Left[] = [];

    push({ text, patches, version, carry, left }: Lines) {
        if (text.length > 0) this.pieces.push(text);
        this.size += text.length;
        this.held += text.length;
        this.patches += patches;
        this.version = Math.max(this.version, version);
        this.carry = this.carry || carry;
        for (const run of left) addToRuns(this.left, run);
        if (this.held > MOST_WRITTEN) throw new Fault('script/too-large', { most: MOST_WRITTEN });
    }

    /** Counts lines whose text is written elsewhere at once, and not held. */
    count(lines: Lines) {
        this.push({ ...lines, text: new Uint8Array(0) });
        this.size += lines.text.length;
    }

    /** The whole script, with its head line. */
    script(calls: Calls): Script {
        const head = new TextEncoder().encode(`${headLine(this.version)}\n`);
        const size = head.length + this.size;
        const long = size > MOST_SCRIPT_BYTES || tooManyPatches(calls, this.patches);
        return { pieces: [head, ...this.pieces], size, patches: this.patches, long, carry: this.carry };
    }
}
