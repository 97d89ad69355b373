// Sectors of an image: their layout, their runs, and their surveys.

export {
    gapsIn, sumsOfRange, auditText, isDamaged, isSound, kindRuns, surveyCounts, surveyRange, wrongRuns, type FilledRun, type Gap,
    type RangeSurvey, type Summed, type Survey, type SurveyArgs,
} from './survey.js';
export {
    HEADERLESS_SIZE, MODE2, edcOfMode2, isDamagedMode2, isSoundMode2, isTestedMode2, mode2Counts, mode2Runs, settledMode2, testMode2,
    withHeaders,
} from './mode2.js';
export {
    addToRuns, blocksIn, commonRuns, joinedRuns, laterRuns, runOf, runsWithout, FIELDS, USER_OFFSET, addressIn, addressOf, addressText,
    asWords, blockAt, differingSectors, hasOtherAddress, hasZeroByte, imageTooLong, isFilled, joinedForm1, joinedUser, sameAddress,
    sectorOf, sectorsAt, userOf, userOfRange, type Place, type Run,
} from './sector.js';
