// The constants and records of cdpatch.h, under the names that the core uses. `make` generates numbers.ts from the header.

import { CONTENT, RECORD_STRUCT, SECTOR_KIND, SECTOR_SIZE } from './numbers.js';

export {
    CONTENT, FAILURE, FIT, FLAG, RESULT, SECTOR_KIND, STATUS, STOP, VERB, MOST_PATCHES, MOST_SCRIPT_BYTES, PATCH_SIZE,
} from './numbers.js';

/** The offsets of the members of a sector's record, and the size of a record in bytes. */
export const RECORD = RECORD_STRUCT;
export const RECORD_SIZE = RECORD_STRUCT.BYTES;

/** Whether the CONTENT of a script's line is an error. */
export function isFault(content: number) {
    return content >= CONTENT.NO_HEAD && content <= CONTENT.NO_VERSION;
}

/** The name of a kind of sectors. */
export function kindName(kind: number) {
    return Object.keys(SECTOR_KIND)[kind].toLowerCase();
}

/**
 * The number of whole sectors of an image. The bytes after them are its tail.
 * @param size of the image in bytes
 */
export function sectorCount(size: number) {
    return Math.floor(size / SECTOR_SIZE);
}
