// The card of a repair and of a second image.

export { SecondCard } from './card.js';
export { repairOf, sectorOfSecond } from './pair_job.js';
