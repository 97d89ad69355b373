// What interfaces may import from this layer besides tasks: scripts that they open, show, or name. Procedures are in tasks.

export {
    baseComment, scriptForBase, NEWEST_VERSION, VERBS, VERSIONS, headLine, afterColon, contentOf, faultyWord, lacksDigit, lineParts,
    linesOfText, partOfWord, wordsOf, wordsOn, isMeantAsScript, isScript,
} from './language.js';
export {
    firstLinesOf, linesUnder, ScriptModel, lastBlockOf, modelInParts, userPlace, type Merged, type ScriptLine,
    type ScriptState, type UserRange,
} from './model.js';
export { LineList, lineText, ScriptParts, linesMade, type Left, type Lines, type Script } from './script_writer.js';
export { countOld, oldBytesOf, patchesOf, readLines, type ReadScript } from './script.js';
export { BETWEEN_HELD, BETWEEN_WRITTEN, PatchedReader, type Outcome, type Patched, type Take } from './patches.js';
