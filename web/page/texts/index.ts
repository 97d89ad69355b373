// The texts of the page in its language, and the functions that insert names and numbers into them.

export * from './english.js';
export { LANGUAGES, current, isLanguage, knownLanguage, playerTexts, setLanguage } from './language.js';
export { counted, format, remarkText, say } from './say.js';
