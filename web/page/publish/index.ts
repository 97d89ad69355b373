// The panel Publish.

export { PublishPanel } from './panel.js';
