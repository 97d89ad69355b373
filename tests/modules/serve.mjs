// Answers questions with a module: `node serve.mjs MODULE`.

import { serve } from '../lib/serve.mjs';
import { Calls, Room, Size } from './calls.mjs';
import { apply, audit, list } from './client.mjs';

const calls = new Calls(process.argv[2]);

/**
 * An answer that consists of bytes only, such as an EDC.
 * @param {import('../lib/serve.mjs').Question} question
 * @param {Uint8Array} given
 */
function value({ call, base }, given) {
    if (call === 'edc') return new Uint8Array(new Uint32Array([Number(calls.call('cdpatch_edc', given, new Size(given.length)))]).buffer);
    if (call === 'address') {
        const room = new Room(3);
        return calls.call('cdpatch_address', base, room) ? room.bytes : new Uint8Array(0);
    }
    const sector = new Room(given);
    calls.call('cdpatch_fill_parity', sector);
    return sector.bytes;
}

await serve((question, [first, second]) => {
    const { call, base, carry } = question;
    if (call === 'list') return list(calls, { image: first, base });
    if (call === 'audit') return audit(calls, { image: first, base });
    if (call === 'apply') return apply(calls, { image: first, base, carry, script: second });
    return { status: 0, text: value(question, first) };
});
