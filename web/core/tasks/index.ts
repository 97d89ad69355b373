// The tasks that a user does with a disc, for all interfaces. Tasks return data. Interfaces ask, show the progress, and print or draw.

export {
    applyInMemory, applyScript, FIELD_COUNT, SECOND_STATE, compareTrack, diffRange, differRange, findDifferences, isToMode2, assertBase,
    validScript, undoScript, type Comparison, type Differences, type Differing, type NoUndo, type Undo,
} from './scripts.js';
export { checkLists, type FittedLists, type LeftRow, type roomOfRow } from './list_fitting.js';
export {
    addressShift, commonPart, endsEarlyByGaps, isSameRange, CollectedSurvey, foundInFile, foundInSurvey, shiftAt, shiftInFile,
    surveyedTracks, surveyedWith, unsurveyedTracks, type Ranges, type Shift, type SurveyedTrack,
} from './inform.js';
export {
    CONVERTIBLE, convertToRaw, endsAfterLast, extractFile, isConvertible, passUser, rawReader, userRange, type ConvertibleKind,
    type KindRun, type TakeBytes, type UserRange,
} from './convert.js';
export { correctionOf, repairTrack, type Correction, type Refusal, type Repair } from './repair.js';
export {
    examineDisc, examineFile, NO_IMAGE, otherSummary, summaryByDat, summaryOf, COLUMN, NOT_TESTED, NO_DAT, lacksHash, listedColumns,
    saidOfFile, ESCAPED_BYTE, SURROGATE_OF_BYTE, listedName, nameOfListed, verdictOf, verdictOfRepair, type FileFound, type FileSummary,
    type Finding, type FindingCode, type ReadFile, type Verdict,
} from './verdict.js';
export { findText, findTextAt, type Places } from './find.js';
export { ListedSpans, findPointers, openPointedFiles } from './moving_pointers.js';
export { importMoving, type MovingImport } from './moving_import.js';
export { mergeRange, type MergeArgs, type Merged } from './merge.js';
export { OpenedTrack, openTrack, trackBeside, type Engine, type TrackContents, type Watch } from './opened.js';
export {
    entriesNamed, pathFromRoot, importIntoFile, importRowsIntoFile, openPlainFile, NewTexts, exportTable, exportedPieces,
    importTable, leftTable, listTexts, newTextsOf, roomInTrack, type ExportOptions, type FreshOf, type ImportedTable, type ListOptions,
    type RowOptions,
} from './list_tables.js';
export { PointedTexts, patchedTexts, textLines, type TextLines } from './list_patched.js';
export { LAYOUT_LIMITS, exportRecords, listRecords, recordsOverlap, type RecordOptions } from './list_records.js';
export {
    assertHasRoom, replaceHits, filledUp, replaceBytes, replaceRange, sectorsOfRange, untriedLines, patchedExtents, placeOfLength,
    placesOfFile, replaceFile,
} from './replace.js';
export { generate, noteGenerated, rowOfListed, withGenerated, type Generated } from './translation_lines.js';
export { Translation, type Placed } from './translation.js';
export { changesOfLists, changesOfRows } from './list_changes.js';
export type { ListRow } from './list_rows.js';
