// What interfaces may import from this layer besides tasks: texts that they open, show, or name. Procedures are in tasks.

export { unitsAlike } from './matching.js';
export {
    shownPlace, FilesAlong, bytesAround, contextOf, contextsOf, filesWith, visible, type Context, type ListedText,
} from './all_texts.js';
export { LONGEST_CHARACTER, LOOKED_BACK, bytesInside, charactersFrom, partsWithCodes, shownCell, Glyphs } from './codes.js';
export type { Hit } from './find.js';
