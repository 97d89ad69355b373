// Discs: their files, cue sheets, tracks, bases, lost sectors, and known dumps.

export {
    dataTrack, imageAround, openChosen, openDisc, type Disc, type DiscFile, type DiscImage, type DiscTrack, type OrderedImage,
    type Siblings,
} from './disc.js';
export { SUBCHANNEL_SIZE, kindOfEnds } from './file_type.js';
export {
    lostSectors, otherSectors, sheetTracks, lackOf, missingBefore, type KindRun, type Lack, type Lost, type OtherSectors, type SheetTracks,
} from './lost.js';
export type { Hashes, KnownDumps } from './dat.js';
