// The sentences for the failures and remarks of the core, which the interfaces share.

export { blocksText, verdictText } from './verdict.js';
export { ENGLISH, rowName } from './english.js';
export { ownFault, sentenceOf } from './sentences.js';
