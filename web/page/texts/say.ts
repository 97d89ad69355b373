// Inserts names, numbers, and parts of the page into the texts of the page.

import { sentenceOf } from '../../sentences/index.js';
import { sentences } from './english.js';
import { current, playerTexts } from './language.js';
import type { Child } from '../ui/index.js';
import type { Remark } from '../../core/faults.js';

/** The names in the braces of a text. */
export type NamesIn<Text extends string> = Text extends `${string}{${infer Name}}${infer Rest}` ? Name | NamesIn<Rest> : never;
/** The names in the braces of a text and, if it has several forms, the number `n` that selects one. */
export type Given<Text extends string> = NamesIn<Text> | (Text extends `${string}|${string}` ? 'n' : never);
/** The values that are inserted into a text, by the names in its braces. */
export type Parts<Text extends string, Part> = [Given<Text>] extends [never] ? [] : [{ [Name in Given<Text>]: Part }];

/** The plural categories in order; a language has some of them, which engines list in any order. */
const KINDS: Intl.LDMLPluralRule[] = ['zero', 'one', 'two', 'few', 'many', 'other'];

/** The Intl objects of the languages, which are created lazily: they would cost milliseconds at the start. */
const intl = {
    numbers: {} as Record<string, Intl.NumberFormat>,
    counts: {} as Record<string, Intl.PluralRules>,
};

/** Formats a count with separators, such as 1,329. Blocks and offsets have none, so that they can be copied into a script. */
export function counted(number: number) {
    const { tag } = current;
    intl.numbers[tag] = intl.numbers[tag] || new Intl.NumberFormat(tag);
    return intl.numbers[tag].format(number);
}

/** Selects the form of a text for a count. A text has one form, or one for each plural category of its language. */
function formOf(text: string, count: unknown) {
    const forms = text.split('|');
    if (forms.length === 1 || typeof count !== 'number') return forms[0];
    const { tag } = current;
    const counts = intl.counts[tag] = intl.counts[tag] || new Intl.PluralRules(tag);
    const { pluralCategories } = counts.resolvedOptions();
    const kinds = KINDS.filter(kind => pluralCategories.includes(kind));
    return forms[Math.min(kinds.indexOf(counts.select(count)), forms.length - 1)];
}

/** Replaces the names in the braces of a text by parts of the page. A number is formatted as a count, and `n` selects the form. */
export function say<Text extends string>(text: Text, ...given: Parts<Text, Child | Child[]>): Child[] {
    const parts = (given[0] || {}) as Record<string, Child | Child[]>;
    return formOf(text, parts.n).split(/[{}]/).flatMap((piece, i) => {
        const part = i % 2 === 0 ? piece : parts[piece];
        return typeof part === 'number' ? counted(part) : part;
    });
}

/** Like `say`, for texts and numbers only; returns a string. */
export function format<Text extends string>(text: Text, ...given: Parts<Text, string | number>) {
    return say(text, ...(given as any)).join('');
}

/** The sentence for a failure or a remark of the core. If the current language has none, it is in English. */
export function remarkText(remark: Remark) {
    const { code, facts } = remark;
    const own = (playerTexts.sentences as Record<string, string>)['kind' in facts ? `${code}/${facts.kind}` : code];
    if (own === undefined) return sentenceOf(remark, sentences);
    return own.replace(/\{(\w+)\}/g, (_, name) => String((facts as Record<string, unknown>)[name]));
}
