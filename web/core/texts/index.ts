// Texts in user data: searching, recognising, and listing them.

export { unitsAlike, endOfMatch, endOfMatchInTurns } from './matching.js';
export {
    NO_BLOCK, allTexts, shownPlace, stretchesOf, bytesAround, bytesBefore, contextOf, visible, type ListedText, type Stretch,
} from './all_texts.js';
export {
    charactersFrom, LONGEST_TEXT, assertMeant, bytesOfCode, cellOf, closingCodesIn, codesLeftOut, controlsTyped, haveSameText, newBytesOf,
    partsWithCodes, unitsOfCell, unitsOfRow, Glyphs, KeptTexts, type LeftCode,
} from './codes.js';
export { MARKS, Table, rowText, longTextOf } from './cells.js';
export { isCodeByte } from './lengths.js';
export { entriesOfPo, isPo, PoFile } from './po.js';
export {
    findIn, joinFound, longestOf, sectorsBeyond, encodingsWith, searchText, type Found, type Hit, type Hits, type Limits, type Wanted,
} from './find.js';
export { textsOfRange, EncodingChooser, type FoundText, type TextOptions } from './recognising.js';
