// The functions that draw all parts of the page.

export { counted } from '../texts/index.js';
export {
    copyButton, announce, askBeforeLeaving, button, byId, crossButton, element, hashParts, hexOf, icon, isDisabled, keysIn, lostByClosing,
    lostWithImage, setAttribute, setDisabled, styleValue, term, fill, keyed, askUser, type Child,
} from './dom.js';
export { menuButton, moreButton, mountMenus, countsRow, tableCard, oneTabStop, turnBackKey, type MenuItem } from './menu.js';
export {
    capital, nameOf, namesOf, seen, seenLines, seenTitle, shownName, shownPaths, shownText, stemOf, clearNotices, copyable, endMessages,
    endSavingNotices, failureNotice, focusAgain, isCancelled, messageOf, messageArea, messageParts, notice, refuseWhileSaving, sentence,
    showFailure, showMessageAt, showNotice, verdictLine, type Tone,
} from './notices.js';
export { drawLongJobs, escapeJob, jobBar, jobEnd, megabytes, megabytesDone, sayBusy, timeLeft, spokenLine, nextTurn } from './progress.js';
