// The SHA-256 of the page, which About shows.

import assert from 'node:assert/strict';
import { createHash } from 'node:crypto';
import { test } from 'node:test';
import { page } from './page.mjs';

const { sha256Of } = await page('app/hashing.js');

test('the SHA-256 is that of others, and none where a browser has no digest', async () => {
    const bytes = new TextEncoder().encode('page'.repeat(1000));
    assert.equal(await sha256Of(bytes), createHash('sha256').update(bytes).digest('hex'));
    const known = Object.getOwnPropertyDescriptor(globalThis, 'crypto');
    Object.defineProperty(globalThis, 'crypto', { value: undefined, configurable: true });
    try {
        assert.equal(await sha256Of(bytes), '');
    } finally {
        Object.defineProperty(globalThis, 'crypto', known);
    }
});
