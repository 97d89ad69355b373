// The panel Script.

export { fitOf, fitWords, namingOld, type Fit } from './check_card.js';
export { ScriptPanel } from './panel.js';
