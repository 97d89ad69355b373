// The list of several files.

export { mountList } from './card.js';
