// Opening files.

export {
    discFileOf, fileOf, fileReader, isSameFile, readByWorkers, unlessEnded, askToClose, changeBase, countedAs, readImage,
} from './reading.js';
export { imageOfTrack, mountOpening, swapImages, filesNamedBy } from './open.js';
