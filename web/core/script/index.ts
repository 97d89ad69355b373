// Scripts: their lines, their effect on an image, and how they are written.

export { baseComment, scriptForBase, headLine } from './language.js';
export { assertFits, Refusal, readScript, type Pieces, type ReadScript } from './script.js';
export {
    LineList, ScriptParts, assertLeads, linesBetween, linesJob, type How, type Left, type Lines, type Script,
} from './script_writer.js';
export { byNumber, userPlace, type ScriptLine, type ScriptModel, type UserRange } from './model.js';
export { applyPatches, passPatched, type Patched, type Take } from './patches.js';
