// Calls of the module that the core does not make, for tests.

/** Extends a class of calls by a method for each of them. */
export const withAllCalls = (Calls, sized) => class extends Calls {
    /** A view of held bytes, without a copy. */
    held(from, to) {
        return this.memory.subarray(this.arena + this.within(from), this.arena + this.within(to));
    }

    edc(bytes) {
        return this.exports.cdpatch_edc(this.put(bytes)[0], BigInt(bytes.length)) >>> 0;
    }

    isConsistent(sector) {
        return Boolean(this.exports.cdpatch_is_consistent(this.put(sized(sector, 2352))[0]));
    }

    findDefect(sector) {
        this.exports.cdpatch_find_defect(this.put(sized(sector, 2352))[0], this.answer);
        const [zeros, edc, p, q] = this.copied(this.answer, 4);
        return { zeros: Boolean(zeros), edc: Boolean(edc), p, q };
    }

    /** Makes a call that changes a sector in place, and returns its result. */
    change(name, sector, bytes, given) {
        const [at, place] = this.put(sized(sector, 2352), bytes);
        const result = this.exports[name](at, ...given(place));
        sector.set(this.copied(at, 2352));
        return result;
    }

    fillParity(sector) {
        this.change('cdpatch_fill_parity', sector, sector, () => []);
    }

    rebuild(sector) {
        return this.change('cdpatch_rebuild', sector, sector, () => []);
    }

    changeUser(sector, offset, bytes, carry) {
        const name = carry ? 'cdpatch_carry_user' : 'cdpatch_change_user';
        return this.change(name, sector, bytes, place => [BigInt(offset), place, BigInt(bytes.length)]);
    }

    changeAddress(sector, address, carry) {
        const name = carry ? 'cdpatch_carry_address' : 'cdpatch_change_address';
        return this.change(name, sector, sized(address, 3), place => [place]);
    }

    resultText(result) {
        return this.line('cdpatch_result_text', result);
    }

    /** Applies the patch of the last line that was read to held sectors, from a byte on. Returns the result with its place. */
    applyPatch(from, count, carry) {
        const at = this.arena + this.within(from + count * 2352) - count * 2352;
        const { patch, fresh, old, answer } = this;
        const result = this.exports.cdpatch_apply_patch(patch, fresh, old, at, BigInt(count), Number(carry), answer);
        return { result, block: this.view.getUint32(this.answer, true), offset: this.view.getUint16(this.answer + 4, true) };
    }
};
