// The panel Disc.

export { dumpWords } from './findings.js';
export { mountDisc } from './panel.js';
export { otherBase, placesOf } from './places.js';
