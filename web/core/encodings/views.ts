// What interfaces may import from this layer besides tasks: encodings that they open, show, or name. Procedures are in tasks.

export { CP932 } from './two_bytes.js';
export { encodeText, fillerOf, fillsOf, spaceIn, usualBytes, withEnd, type Encoding } from './encoding.js';
export { ENCODINGS, SEARCHED, USUAL_ENCODING, encodingOf, tableTextOf, textOfFile } from './encodings.js';
export { linesLeftOut, tableEncoding, tableInTurns } from './table.js';
