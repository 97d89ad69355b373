// Finds the sentences for failures and remarks.

import { Fault, type Code, type Facts, type Remark } from '../core/faults.js';
import { ENGLISH } from './english.js';

// The facts of failures that only interfaces throw. Each of them includes its sentence.

declare module '../core/faults.js' {
    interface Facts {
        /** `file` is a file that the sentence names, and `advice` says what to do. */
        own: { sentence: string; file?: string; advice?: string };
        'disc/own': { sentence: string };
        file: { sentence: string; file: string };
        /** How many bytes were written, and whether the disk is full. */
        unwritten: { sentence: string; done: number; full: boolean };
        patcher: { sentence: string };
        'reader-ended': { sentence: string };
    }
}

type CoreCode = { [Name in Code]: Facts[Name] extends { sentence: string } ? never : Name }[Code];

/** The sentences of a language by code. `tsc` refuses a language that lacks one. `said` formats a remark among the facts. */
export type Sentences = { readonly [Name in CoreCode]: (facts: Facts[Name], sentence: (remark: Remark) => string) => string };

/** A failure with an interface's own sentence. */
export function ownFault(sentence: string, facts: Omit<Facts['own'], 'sentence'> = {}) {
    return new Fault('own', { ...facts, sentence });
}

/**
 * The sentence for a failure or a remark.
 * @param sentences those of a different language
 */
export function sentenceOf({ code, facts }: Remark | Fault, sentences: Sentences = ENGLISH): string {
    if ('sentence' in facts) return facts.sentence;
    const sentence = (other: Remark) => sentenceOf(other, sentences);
    return (sentences as Record<string, (facts: any, said: (remark: Remark) => string) => string>)[code](facts, sentence);
}
