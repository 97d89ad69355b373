// The frame around the panels.

export { mountDiscLine } from './disc_line.js';
export { mountHelp, mountFrame } from './shell.js';
