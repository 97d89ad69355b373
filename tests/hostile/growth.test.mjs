// How the work for an input grows with it.

import assert from 'node:assert/strict';
import { test } from 'node:test';
import { workIn } from '../lib/counted.mjs';

const { GROWTH, ended } = await import('./growth.mjs');

// Twice the input may need three times as much, so four times the input nine times, which quadratic growth exceeds at each size.
const SIZES = [512, 2048];
const [LARGER, MOST] = [4, 9];

/** The work that an input of a size needs. Its making is not counted. */
function workFor(make, size) {
    const job = make(size);
    return workIn(() => ended(job));
}

for (const [shape, make] of Object.entries(GROWTH)) {
    test(`four times as much needs at most nine times the work: ${shape}`, async () => {
        const found = [];
        for (const size of SIZES) {
            const [small, large] = [await workFor(make, size), await workFor(make, LARGER * size)];
            if (small > 0 && large < MOST * small) return;
            found.push(`${small} for ${size}, and ${large} for ${LARGER * size}`);
        }
        assert.fail(found.join('; '));
    });
}
