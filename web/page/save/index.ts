// Checks and saves patched images, and gives files to the user.

export { SaveCard, failureOfSaving, mountConversion, openSaved } from './card.js';
export { otherFiles, sheetNaming, copyWords, listedNames, isDiscOfOneTrack, savingSheet, sheetParts } from './sheet.js';
export { canStream, download, downloadBytes, downloadText, adviceOf } from './files_out.js';
export { checkWork, isPatched, patchedWork, saveWork, tryWork, type PatchWork, type Saved } from './patch_job.js';
export { givingAll, saveImage, patchedName, type SavedFile } from './save.js';
