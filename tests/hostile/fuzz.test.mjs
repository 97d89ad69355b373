// All earlier findings of random changes, and some changes with fixed seeds: only a Fault is thrown, and soon.

import assert from 'node:assert/strict';
import { readFileSync, readdirSync } from 'node:fs';
import { test } from 'node:test';
import { KINDS, bytesOf, defectOf } from './fuzz.mjs';

const CORPUS = new URL('corpus/', import.meta.url);

test('what changes begin with is read', async () => {
    for (const { seeds = [], read } of Object.values(KINDS)) {
        for (const seed of seeds) await read(typeof seed === 'string' ? new TextEncoder().encode(seed) : seed);
    }
});

test('nothing that was found shows a defect', async () => {
    for (const name of readdirSync(CORPUS)) {
        const kind = name.split('-')[0];
        assert.ok(kind in KINDS, name);
        assert.equal(await defectOf(kind, readFileSync(new URL(name, CORPUS))), null, name);
    }
});

for (const kind of Object.keys(KINDS)) {
    test(KINDS[kind].made ? `made-up ${kind} show no defect` : `random changes of a ${kind} show no defect`, async () => {
        for (let seed = 0; seed < 100; seed++) assert.equal(await defectOf(kind, bytesOf(kind, seed)), null, `seed ${seed}`);
    });
}

