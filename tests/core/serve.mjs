// Answers questions with the core: `node serve.mjs DIRECTORY`.

import { serve } from '../lib/serve.mjs';

process.env.CORE = process.argv[2];
const { calls, core, cutBy, joinedPieces, readerOf, surveyed } = await import('./common.mjs');
const { Refusal, readScript } = await core('script/script.js');
const { applyPatches, passPatched } = await core('script/patches.js');
const { auditText, listText } = await core('sectors/survey.js');

/** The report on an image, surveyed by ranges of `step` sectors. */
const reported = (report, image, base, step) => report(calls, surveyed(image, base, step), image.length % 2352);

/** The result of a script on an image, both of which are read in small pieces. */
async function patched({ call, base, carry }, image, script) {
    const read = await readScript(calls, cutBy(script, 5000));
    if (read instanceof Refusal) return { status: 2, text: read.text };
    const made = await (call === 'apply' ? applyPatches : passPatched)(calls, readerOf(image, 3000), read, { base, carry });
    return { status: made.status, text: made.text, out: made.pieces && joinedPieces(image, made.pieces) };
}

/** Answers that consist of bytes only. */
const VALUES = {
    edc: given => new Uint8Array(Uint32Array.of(calls.edc(given)).buffer),
    address: (_, block) => calls.address(block) ?? new Uint8Array(0),
    parity: sector => {
        calls.fillParity(sector);
        return sector;
    },
};

await serve((question, [first, second]) => {
    const { call, base } = question;
    if (call === 'list') return reported(listText, first, base, 3);
    if (call === 'audit') return reported(auditText, first, base, 2);
    if (call in VALUES) return { status: 0, text: VALUES[call](first, base) };
    return patched(question, first, second);
});
