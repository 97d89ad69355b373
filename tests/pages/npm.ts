// What a program in TypeScript sees of the package for npm.

import module from 'cdpatch/cdpatch.wasm';
import { Cdpatch, Fault, Patched, RESULT, ScriptError, Sector, load, openFile, patchedStream } from 'cdpatch';

export async function used(file: File): Promise<string> {
    const cdpatch: Cdpatch = await load(await WebAssembly.compile(module));
    const sectors: Sector[] = await cdpatch.survey(file, { base: 150 });
    const { status, text, outcomes }: Patched = await cdpatch.check(await openFile('disc.bin'), new Uint8Array(0), { carry: true });
    const { stream }: { stream: ReadableStream<Uint8Array> } = patchedStream(cdpatch, file, file);
    await cdpatch.apply(file, file, async bytes => { bytes.slice(); });
    const { signal } = new AbortController();
    const progress = (done: number, all: number): void => { all -= done; };
    await cdpatch.check(new ArrayBuffer(0), 'cdpatch 1', { signal, progress, base: 150 });
    await cdpatch.patches('cdpatch 1').catch((error: ScriptError | Fault) => 'line' in error ? error.line : error.code);
    const differs: boolean = outcomes.some(({ result }) => result === RESULT.DIFFERS);
    // @ts-expect-error: an image is no name.
    await cdpatch.list('disc.bin');
    // @ts-expect-error: nor other numbers than bytes.
    await cdpatch.list(new DataView(new ArrayBuffer(0)));
    // @ts-expect-error: what is private stays so.
    cdpatch.calls.version();
    return `${text} ${status + outcomes[0].number + sectors[0].p} ${stream.locked} ${differs}`;
}
