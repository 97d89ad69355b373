// The table of all jobs.

import type { JobTable } from '../pool/index.js';
import { linesJob, type How, type Lines } from '../script/index.js';
import { sumsOfRange, surveyRange, type RangeSurvey, type Summed, type SurveyArgs } from '../sectors/index.js';
import {
    diffRange, differRange, mergeRange, replaceRange, userRange, type Differing, type MergeArgs, type Merged, type UserRange,
} from '../tasks/index.js';
import { findIn, textsOfRange, type Found, type FoundText, type Limits, type TextOptions, type Wanted } from '../texts/index.js';

// The arguments and answers of the jobs in the table.

declare module '../pool/pool.js' {
    interface Jobs {
        survey: { args: SurveyArgs; answer: RangeSurvey };
        sums: { args: { surveys: boolean } & SurveyArgs; answer: Summed };
        find: { args: { texts: Wanted[] } & Limits; answer: Found[] };
        diff: { args: {}; answer: Lines };
        lines: { args: { blocks: number[]; how: How }; answer: Lines };
        differ: { args: {}; answer: Differing };
        merge: { args: MergeArgs; answer: Merged };
        replace: { args: { end: number }; answer: Lines };
        user: { args: {}; answer: UserRange };
        raw: { args: {}; answer: Uint8Array };
        texts: { args: TextOptions & { count: number; size: number }; answer: FoundText[] };
    }
}

export const JOBS: Required<JobTable> = Object.freeze({
    survey: (calls, [bytes], block, args) => surveyRange(calls, bytes, block, args),
    sums: (calls, [bytes], block, args) => sumsOfRange(calls, bytes, block, args),
    find: (_, [bytes], first, args) => findIn(bytes, first, args),
    diff: (calls, [old, fresh], first) => diffRange(calls, old, fresh, first),
    lines: linesJob,
    differ: (calls, [old, fresh], first) => differRange(calls, old, fresh, first),
    merge: (calls, pieces, first, args) => mergeRange(calls, pieces, first, args),
    replace: (calls, [sectors, wanted], first, args) => replaceRange(calls, sectors, wanted, first, args),
    user: (calls, [bytes], first, args) => userRange(calls, bytes, first, args),
    raw: (calls, [user], first) => calls.encodeBlocks(first, user),
    read: (_, [bytes]) => bytes,
    texts: (_, [bytes], first, args) => textsOfRange(bytes, first, args),
});
