// What interfaces may import from this layer besides tasks: volumes that they open, show, or name. Procedures are in tasks.

export { filesAt, filesLines, type FileEntry, type VolumeFiles } from './files.js';
