// The encodings of texts, and the tables of games.

export { lacks, numbersOf } from './characters.js';
export { CP932 } from './two_bytes.js';
export {
    FULL, TableEncoding, encodeText, endOf, fillerOf, fillingAfter, isSpaceIn, usualBytes, withEnd, type Encoding, type Filler,
} from './encoding.js';
export { ENCODINGS, SEARCHED, encodingOf, markOf, tableTextOf, textOfFile, textsOfFile, windowsText } from './encodings.js';
export { endOfFilling, fillerSizeAt, sizeBeforeFilling, tableEncoding } from './table.js';
