// What interfaces may import from this layer.

export { readerForTwo, pieceReader, sliceOf, watchedReader } from './readers.js';
