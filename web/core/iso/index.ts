// The volume of a track (ISO 9660): its files and their order.

export { FileOrder, fileOrder } from './file_order.js';
export {
    readerOfFile, VolumeReader, descriptorsOf, endOfExtent, filesAt, filesOf, wholeFile, type FileEntry, type VolumeFiles, type WholeFile,
} from './files.js';
export { SIZE_FIELD, numberInBoth } from './records.js';
