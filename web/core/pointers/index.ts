// Pointers to texts: finding their tables, and laying out texts that are longer than their room.

export {
    MOST_CODES, areAddresses, greatestOf, numberFor, placesOf, putNumber, storedAt, targetOf, pointerList, tablesOfList, type ListedTable,
    type Span,
} from './tables.js';
export { findPointerTables } from './find.js';
export { joinedSpans, layOut, type Movable } from './layout.js';
export { TextStarts, type Searched } from './run.js';
