// Answers questions with cdscript, whose `main` is called in this process: `node serve.mjs COMMAND`.

import { rmSync } from 'node:fs';
import { join } from 'node:path';
import { serve } from '../lib/serve.mjs';

process.env.COMMAND = process.argv[2];
const { call: called, inDirectory, read, write } = await import('./common.mjs');

await inDirectory(room => serve(async ({ call, base, carry }, [image, script]) => {
    const [imageName, scriptName, outName] = ['image', 'script', 'out'].map(name => join(room, name));
    write(room, { image, script });
    rmSync(outName, { force: true });
    const options = ['--base', String(base), ...carry ? ['--carry'] : []];
    const names = { check: [scriptName], apply: [scriptName, outName] }[call] ?? [];
    const { status, bytes, errors } = await called(room, [call, ...options, imageName, ...names]);
    // The program does not say this.
    const others = errors.replace(/^cdscript: no sector of .* is Mode 1, .*\n/, '');
    return { status, text: Buffer.concat([bytes, Buffer.from(others)]), out: read(room, 'out') };
}));
