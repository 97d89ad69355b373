// The panel Text.

export { bindEncodings, chosenEncoding, columnLabel, encodingLabel, signOf } from './search.js';
export { TextPanel } from './panel.js';
export { leftWordsOf } from './left_rows.js';
