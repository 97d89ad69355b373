// The table of the jobs that workers do.

export { JOBS } from './jobs.js';
