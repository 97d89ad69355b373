// The memory of a libcdpatch module: fixed rooms, lent ranges, and after these an arena that grows and is reused.

import { inMemory } from '../faults.js';
import { COLUMNS, DIAGONALS, LINE_SIZE, PATCH_SIZE, PATCH_STRUCT } from './numbers.js';

// What the module needs of an engine.

/** A module with one instruction on a vector of 128 bits. */
const ON_A_VECTOR = new Uint8Array([0, 97, 115, 109, 1, 0, 0, 0, 1, 5, 1, 96, 0, 1, 123, 3, 2, 1, 0, 10, 8, 1, 6, 0, 65, 0, 253, 15, 11]);

/** Whether the engine has vectors (SIMD). It refuses the module otherwise. */
export function hasVectors() {
    return WebAssembly.validate(ON_A_VECTOR);
}

// The largest answers of all calls, in whole vectors.
const ANSWER_SIZE = Math.ceil(Math.max(LINE_SIZE, COLUMNS + DIAGONALS) / 16) * 16;
const PAGE_SIZE = 65536;

/** Manages the memory of a module. Held bytes are valid until others are put, so nothing may be awaited while they are used. */
export class Arena {
    /** The lent ranges, and whether each was given back. */
    lent: { at: number, back: boolean }[] = [];
    memory = new Uint8Array(0);
    heldSize = 0;
    exports; answer; patch; fresh; old; arena; view;

    /** @param module of libcdpatch, with 32-bit addresses of memory */
    constructor(module: WebAssembly.Module) {
        this.exports = inMemory(() => new WebAssembly.Instance(module)).exports as Record<string, any>;
        this.answer = Math.ceil(this.exports.__heap_base.value / 16) * 16;
        this.patch = this.answer + ANSWER_SIZE;
        this.fresh = this.patch + PATCH_STRUCT.BYTES;
        this.old = this.fresh + PATCH_SIZE;
        this.arena = this.old + PATCH_SIZE;
        this.view = new DataView(this.memory.buffer);
        this.reserve(0);
    }

    /** @param size the least size of the arena in bytes */
    reserve(size: number) {
        const missing = this.arena + size - this.exports.memory.buffer.byteLength;
        if (missing > 0) inMemory(() => this.exports.memory.grow(Math.ceil(missing / PAGE_SIZE)));
        if (this.memory.buffer === this.exports.memory.buffer) return;
        this.memory = new Uint8Array(this.exports.memory.buffer);
        this.view = new DataView(this.exports.memory.buffer);
    }

    /** Reserves memory that `put` and `hold` do not touch until it is given back. Returns the address at which it begins. */
    lend(size: number) {
        const at = this.arena;
        this.lent.push({ at, back: false });
        this.moveArena(at + Math.ceil(size / 16) * 16);
        return at;
    }

    /** @param at the address that `lend` returned */
    giveBack(at: number) {
        for (const it of this.lent) it.back = it.back || it.at === at;
        let end = this.arena;
        while (this.lent.length > 0 && this.lent[this.lent.length - 1].back) end = this.lent.pop()?.at ?? end;
        this.moveArena(end);
    }

    /** @param at the new start of the arena, in which nothing is held any more */
    moveArena(at: number) {
        this.arena = at;
        this.heldSize = 0;
        this.reserve(0);
    }

    /**
     * Copies pieces to the arena, one after the other, and returns the address of each. A number reserves that many bytes of any content.
     * The first piece is aligned as the records of the module must be.
     */
    put(...pieces: ((Uint8Array | number))[]) {
        const sizes = pieces.map(piece => typeof piece === 'number' ? piece : piece.length);
        this.heldSize = 0;
        this.reserve(sizes.reduce((sum, size) => sum + size, 0));
        let end = this.arena;
        return pieces.map((piece, i) => {
            const at = end;
            if (typeof piece !== 'number') this.memory.set(piece, at);
            end += sizes[i];
            return at;
        });
    }

    /** A copy of bytes of the memory. */
    copied(at: number, size: number) {
        return this.memory.slice(at, at + size);
    }

    /** @param pieces texts or sectors, for the calls that use places in the held bytes */
    hold(...pieces: Uint8Array[]) {
        this.put(...pieces);
        this.heldSize = pieces.reduce((sum, piece) => sum + piece.length, 0);
    }

    /** @param place in the held bytes */
    within(place: number) {
        if (place > this.heldSize) throw new RangeError(`place ${place} of ${this.heldSize} bytes`);
        return place;
    }

    /**
     * Calls a function of the module that writes a text, and returns a copy of the text.
     * @param given its arguments before the address of the text
     */
    line(name: string, ...given: number[]) {
        return this.copied(this.answer, Number(this.exports[name](...given, this.answer)));
    }
}
