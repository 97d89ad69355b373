// The languages of the page of a patcher. All other parts of the page are in English.

import { LANGUAGE } from './english.js';
import { DE } from './player/de.js';
import { ENGLISH } from './player/english.js';
import { ES } from './player/es.js';
import { FR } from './player/fr.js';
import { IT } from './player/it.js';
import { PT_BR } from './player/pt_br.js';

const ALL = { en: ENGLISH, es: ES, 'pt-BR': PT_BR, fr: FR, de: DE, it: IT };

export type Language = keyof typeof ALL;
export type PlayerTexts = { readonly [Key in keyof typeof ENGLISH]: Key extends 'sentences' ? Record<string, string> : string };

/** The languages, each with its name in itself. */
export const LANGUAGES = [['en', 'English'], ['es', 'Español'], ['pt-BR', 'Português (Brasil)'], ['fr', 'Français'],
    ['de', 'Deutsch'], ['it', 'Italiano']] as const;

/** The texts that players see, in the current language. The full page has the sentences of web/sentences, which name tools. */
export const playerTexts = { ...ENGLISH, sentences: {} as Record<string, string> };

/** The current language, as a tag for Intl and for documents. */
export const current = { tag: LANGUAGE };

/**
 * @param language of `playerTexts`, and of the numbers that the page shows
 * @param forPlayers whether the page is that of a patcher
 */
export function setLanguage(language: Language, forPlayers = true) {
    Object.assign(playerTexts, ALL[language], !forPlayers && { sentences: {} });
    current.tag = language === 'en' ? LANGUAGE : language;
}

/**
 * The first of the preferred languages that the page of a patcher has, in any regional variety; English if it has none of them.
 * @param preferred tags
 */
export function knownLanguage(preferred: readonly string[]): Language {
    const first = (tag: string) => tag.toLowerCase().split('-')[0];
    const known = preferred.flatMap(tag => LANGUAGES.filter(([own]) => first(own) === first(tag)));
    return known.length === 0 ? 'en' : known[0][0];
}

/** Whether a value, for example from a stranger's file, is one of the languages. */
export function isLanguage(value: unknown) {
    return LANGUAGES.some(([language]) => language === value);
}
