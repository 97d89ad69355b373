// Patchers: as players see them, and as they are generated.

export { mountPatchers, showPlayer } from './show.js';
export {
    ownData, pageSource, publishedSource, patcherText, MOST_WRITTEN, isImageName, isSeen, plainSheet, type PatcherData,
} from './patcher.js';
export { reasonsOf } from './verdict.js';
