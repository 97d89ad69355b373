// Exports shared by all parts of the page: the state, the workers, and the parts that the page was built from.

export { OWN, bytesOfBase64, inflatedText, packedParts, poolOf } from './pool.js';
export { RunningHash, Summing, sha1Of, sumsOf, sha256Of, Sha1 } from './hashing.js';
export {
    MARK, SURVEY_LOOKS, SurveyMarks, lookOf, lookOfKind, loudMarks, nextFinding, nextRun, shadesOf, mode2Finding, mode2Note, mode2Verdict,
    type Look, type MapModel,
} from './marks.js';
export {
    jobAt, mountJobs, App, PANELS, type Aim, type Bar, type Image, type PairJob, type PanelName, type Parts, type PlainFile, type Surveyed,
    type Taken, type Taker,
} from './state.js';
export { LONG, MOST_DRAWN, assertTaken, isLong, type Edit, type ScriptLines } from './script_lines.js';
export { ReplacedFiles, linesIn, linesReplacing, scriptOfLines, writesOf } from './replaced_files.js';
export type { RunningJob } from './store.js';
