// The calls of the WebAssembly module, and the numbers of cdpatch.h.

export { Calls, type Answer, type PatchRange, type ScriptJob } from './calls.js';
export { hasVectors } from './arena.js';
export { DIAGONALS, LAST_BASE, LAST_BLOCK, MOST_SECTORS, SECTOR_SIZE, USER_SIZE } from './numbers.js';
export {
    CONTENT, FAILURE, FIT, FLAG, MOST_PATCHES, MOST_SCRIPT_BYTES, PATCH_SIZE, RECORD, RECORD_SIZE, RESULT, SECTOR_KIND, STATUS, STOP,
    VERB, isFault, kindName, sectorCount,
} from './records.js';
