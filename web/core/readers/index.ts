// Readers that are made from other readers.

export { filledReader, readerForTwo, pieceReader, ReadAhead, sliceOf, watchedReader } from './readers.js';
