// What interfaces may import from this layer besides tasks: discs that they open, show, or name. Procedures are in tasks.

export {
    sampledBase, knownFiles, openChosen, openDisc, openKnown, type Disc, type DiscFile, type DiscImage, type DiscTrack, type KnownFile,
    type OrderedImage, type Siblings,
} from './disc.js';
export { LAST_TRACK, isSheetName, sheetOf, sheetsOf, textOfSheet, isOneTrack, sheetOfOneTrack, type Sheet } from './cue.js';
export { KnownDumps, type Dump, type Found, type Hashes } from './dat.js';
export { beginsLikeDat } from './dat_tags.js';
export { LARGEST_SHEET, kindOfFile } from './file_type.js';
export { fileIn, type KindRun, type Lack, type Lost } from './lost.js';
