// Random numbers for tests in node.

/** A generator of numbers below a limit, the same for the same seed. */
export function diceOf(seed) {
    let state = seed >>> 0;
    return limit => {
        state = (state + 0x6D2B79F5) >>> 0;
        let mixed = Math.imul(state ^ (state >>> 15), state | 1);
        mixed ^= mixed + Math.imul(mixed ^ (mixed >>> 7), mixed | 61);
        return ((mixed ^ (mixed >>> 14)) >>> 0) % limit;
    };
}
