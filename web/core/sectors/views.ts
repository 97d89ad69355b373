// What interfaces may import from this layer besides tasks: sectors that they open, show, or name. Procedures are in tasks.

export { MODE2, isDamagedMode2, isSoundMode2, isTestedMode2, mode2Runs, testMode2 } from './mode2.js';
export {
    addToRuns, blocksIn, firstBlocks, joinedRuns, runsWithout, FIELDS, HEADER_OFFSET, USER_OFFSET, addressIn, addressOf, addressText,
    imageTooLong, type Place, type Run,
} from './sector.js';
export {
    auditText, findingOf, isDamaged, isSound, kindRuns, listText, surveyRange, wrongRuns, type RangeSurvey, type Survey,
    type SurveyArgs,
} from './survey.js';
