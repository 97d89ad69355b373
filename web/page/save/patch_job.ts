// Checks a script on an image, and saves the patched image.

import { readBytes, type Piece, type Reader } from '../../core/bytes.js';
import { failedBy } from '../../core/faults.js';
import { MOST_SCRIPT_BYTES, MOST_SECTORS, SECTOR_SIZE, STATUS } from '../../core/module/index.js';
import { pieceReader, readerForTwo } from '../../core/readers/views.js';
import { BETWEEN_HELD, BETWEEN_WRITTEN, type Patched, type Take } from '../../core/script/views.js';
import { imageTooLong } from '../../core/sectors/views.js';
import { applyInMemory, applyScript, validScript, type Watch as TaskWatch } from '../../core/tasks/index.js';
import { ownFault } from '../../sentences/index.js';
import { RunningHash, type App } from '../app/index.js';
import { readByWorkers } from '../open/index.js';
import { format, playerTexts, remarkText } from '../texts/index.js';
import { capital, nextTurn } from '../ui/index.js';
import { canStream, workRefused, type OpenFile } from './files_out.js';
import { saveImage, type SavedFile } from './save.js';

/** An image, the block of its first sector, the script, and whether damaged sectors are patched too; to save, also the open files. */
export type PatchWork = { reader: Reader, base: number, script: string, carry: boolean, opened?: OpenFile[] };
/** Receives the progress and cancels the job. `accept` is awaited before a saved image is complete. */
type PatchWatch = { signal: { aborted: boolean }, progress: (done: number, all: number) => void, accept?: () => Promise<void> };
/** The saved file, the outcomes of the patches, the file's size in bytes, and its SHA-1 if one was required, else ''. */
export type Saved = SavedFile & { made: Patched, size: number, sha1: string };

/** Reads a script. Throws a Fault with advice if it has an error. */
async function readWork({ calls }: Pick<App, 'calls'>, script: string) {
    await nextTurn();
    const read = await validScript(calls, [new TextEncoder().encode(script)]).catch(refuse);
    await nextTurn();
    return read;
}

function refuse(error: unknown): never {
    if (failedBy(error, 'script/other-base')) throw workRefused(`${capital(remarkText(error))}.`, playerTexts.saveSetSaidBase);
    if (!failedBy(error, 'script/refused')) throw error;
    if (!error.facts.tooLong) throw workRefused(remarkText(error), playerTexts.saveCorrectLineFirst);
    throw workRefused(playerTexts.saveScriptTooLong, format(playerTexts.saveMostScriptBytes, { most: MOST_SCRIPT_BYTES }));
}

/** @param reader of an image */
function assertNotTooLong({ size }: Reader) {
    if (imageTooLong(size)) throw workRefused(playerTexts.saveImageTooLong, format(playerTexts.saveMostSectors, { most: MOST_SECTORS }));
}

/** Tries the script on the image without saving, and returns the outcome of each patch. Throws a Fault with advice. */
export async function tryWork(app: Pick<App, 'calls'>, { reader, base, script, carry }: PatchWork, watch?: TaskWatch) {
    const read = await readWork(app, script);
    assertNotTooLong(reader);
    return applyScript(app, { reader, base }, read, { carry }, watch).catch(refuse);
}

/** Like tryWork, but reads with the help of the workers, for scripts that need many sectors. */
export function checkWork(app: App, work: PatchWork, watch: PatchWatch) {
    return tryWork(app, { ...work, reader: readByWorkers(work.reader, app.pool, watch.signal) }, watch);
}

/** Like checkWork, and also returns a reader of the patched image. */
export async function patchedWork(app: App, { reader, base, script, carry }: PatchWork) {
    const image = { reader: readByWorkers(reader, app.pool, { aborted: false }), base };
    const { outcomes, pieces } = await applyInMemory(app, image, await readWork(app, script), { carry }).catch(refuse);
    return { outcomes, result: pieceReader(reader, pieces) };
}

/** Whether the image is patched already: the script, if its old bytes are not compared, would change nothing. */
export async function isPatched(app: Pick<App, 'calls'>, { reader, base, script }: Pick<PatchWork, 'reader' | 'base' | 'script'>) {
    let same = true;
    const both = readerForTwo(reader);
    const take = async (piece: Piece) => {
        if (!('bytes' in piece) || !same) return;
        const there = await readBytes(both, piece.at, piece.bytes.length);
        same = there.every((byte, i) => byte === piece.bytes[i]);
    };
    const how = { carry: true, withoutOld: true, take };
    const made = await applyScript(app, { reader: both, base }, await readWork(app, script), how).catch(refuse);
    return same && made.status === STATUS.DONE && made.outcomes.length > 0;
}

/**
 * Saves the patched image. Returns null if the user chose no file. `wanted` is the SHA-1 that the result must have, or '' for any.
 * @param name proposed to the user
 */
export async function saveWork(app: App, { reader, base, carry, script, opened = [] }: PatchWork, name: string, wanted: string,
    watch: PatchWatch): Promise<Saved | null> {
    assertNotTooLong(reader);
    const made: Patched[] = [];
    const { signal, accept, progress } = watch;
    const making = async () => {
        const read = await readWork(app, script);
        const image = { reader: readByWorkers(reader, app.pool, signal), base };
        // A download is written only after all its pieces are collected, so its progress is that of reading.
        const reading = { signal, progress: (sectors: number) => progress(sectors * SECTOR_SIZE, reader.size) };
        const [mostBetween, seen] = canStream() ? [BETWEEN_WRITTEN, {}] : [BETWEEN_HELD, reading];
        return async (take: Take) => {
            made.push(await applyScript(app, image, read, { carry, mostBetween, take }, seen).catch(refuse));
        };
    };
    const hash = wanted === '' ? null : new RunningHash(app.parts);
    const saving = { signal, accept, progress: (done: number) => progress(done, reader.size) };
    try {
        const saved = await saveImage([reader], making, name, opened, { ...saving, ...hash && comparing(hash, wanted) });
        return saved && { ...saved, made: made[0], size: reader.size, sha1: wanted };
    } finally {
        if (hash !== null) hash.close();
    }
}

/** Hashes the image while it is saved. Its `accept` throws a Fault if the SHA-1 does not match. */
function comparing(hash: RunningHash, wanted: string) {
    return {
        seen: (bytes: Uint8Array) => hash.add(bytes.slice()),
        async accept() {
            if (await hash.end() === wanted) return;
            throw ownFault(playerTexts.saveNotTheAuthorsImage);
        },
    };
}
