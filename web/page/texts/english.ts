// The texts of the page in English, except those that players see, which are in player/english.js. A key begins with the part of the page
// that shows it, unless several parts do. The page replaces names in braces, which may be in any order. A text in several forms,
// separated by |, is used with the number {n}: its forms are those of the language's counts, in the order zero, one, two, few, many, other.

export const LANGUAGE = 'en-GB';

/** The sentences for failures and remarks of the core. */
export { ENGLISH as sentences } from '../../sentences/index.js';

// ---- everywhere

// buttons
export const copy = 'Copy';
export const copied = 'Copied';
export const undo = 'Undo';
export const theRowsOf = ' the rows: {title}';

// names, and the progress of a job
export const andMore = '{n} more';

// the kinds of sectors on the map; the second text of a kind describes a single sector
export const otherAddress = 'wrong address';

// a line of the script, after “It”
export const lineFits = 'matches';
export const lineNotCompared = 'not compared';
export const lineDoesNotFit = 'refused: {why}';
export const scriptIsLong = 'The script is larger than 64 MB or longer than 150,000 lines. Check, Apply, Publish, and Save work with all ' +
    'of it. The other panels cannot change it.';
export const scriptWouldBeTooLong = 'The script would have more than cdpatch accepts: 65,535 patches, 150,000 lines, or 64 MB.';

// ---- the frame: first screen, bar, help

// the bar and the footer
export const frameSkipToPanel = 'Skip to the panel';
export const framePanels = 'Panels';
export const frameDiscTab = 'Disc';
export const frameTextTab = 'Text';
export const frameScriptTab = 'Script';
export const framePublishTab = 'Publish';
export const frameNothingLeaves = 'Nothing leaves your computer';
export const frameOpenOther = 'Open…';
export const frameAbout = 'About';
export const frameKeys = 'Keyboard shortcuts';
export const frameWordsUsed = 'Glossary';
export const frameFilesToOpen = 'Files to open';
export const frameOpenImage = 'Open image';

// shown until the page has started
export const frameHasNotStarted = 'cdpatch could not start.';
export const frameWhyNotStarted = 'Either your browser cannot run it (browsers from mid-2024 or later can, if JavaScript is on), or ' +
    'this file has been modified. In that case get it again from a source you trust.';

// the first screen
export const framePatchTranslateRepair = 'Patch, translate, and repair CD images.';
export const frameNeverChanged = 'Your file is never changed: cdpatch saves a new one.';
export const frameWhatYouCanDo = 'What you can do';
export const frameApplyPatch = 'Apply a patch';
export const framePutTranslation = 'Choose your disc image, and a cdpatch script or patcher page. Not xdelta, PPF, or IPS.';
export const frameTranslateDisc = 'Translate a disc';
export const frameFindTexts = 'Choose the disc image: find its text, translate it, publish a patch.';
export const frameRepairDump = 'Repair or compare dumps';
export const frameSeeDamage = 'Choose one dump or two: see damage on a map, repair it, see what differs.';
export const frameOpenFilesHere = 'Open files';
export const frameOpenFiles = 'Open files…';
export const frameKindsOfFiles = 'Opens raw images (.bin, .img), their .cue, patch scripts, patcher pages, lists of text, DATs; ' +
    'converts ISO files, not CHDs.';
export const frameNothingLeavesYourComputer = 'Nothing leaves your computer.';
export const frameOneFileOffline = 'This page is a single file and makes no network connections. It works offline.';

// words and their meanings
export const frameWordBlock = 'Block';
export const frameBlockMeans = 'The number of a sector on the disc. Block 0 is the first sector of the first track. Scripts write it in ' +
    'decimal.';
export const frameWordOffset = 'Offset';
export const frameOffsetMeans = 'A place in the 2048 bytes of user data of one block: 0 to 2047. Byte 0 of the user data is byte 16 of ' +
    'the ' +
    'sector.';
export const frameWordBase = 'Base';
export const frameBaseMeans = 'The block number of this file’s first sector: 0 for a whole disc, more for the BIN of a later track. The ' +
    'page reads it from the headers of Mode 1 sectors. Set it only if a script or list numbers the blocks of this file differently.';
export const frameWordUserData = 'User data';
export const frameUserDataMeans = 'The 2048 bytes of a Mode 1 sector in which files are stored. Patches write here; only “address” ' +
    'writes in ' +
    'the header.';
export const frameWordEdcParity = 'EDC and parity';
export const frameEdcParityMeans = 'EDC is a checksum of the sector. P and Q parity are codes by which a drive corrects read errors. ' +
    'A patch recalculates both in its sector; a correction never changes the EDC.';
export const frameWordCarry = 'Carry';
export const frameCarryMeans = 'A patch on a damaged sector is normally refused. With carry it is accepted, and the sector keeps its ' +
    'damage, ' +
    'so that the damage stays visible.';

// the words that have no note elsewhere, and their meanings
export const WORDS = [
    ['Sector', '2352 bytes of an image: sync field, header, user data, EDC, zeros and parity.'],
    ['Dump', 'An image that was read from a disc.'],
    ['Mode 1', 'A kind of sector, with 2048 bytes of user data, EDC and parity: the only one that can be patched.'],
    ['Cue sheet', 'A text file (.cue) that names the BIN files of a disc, and the tracks in them.'],
    ['Patcher', 'A copy of this page with a script built in, which the script’s author publishes for players.'],
];

// the keys, each between `, and their effects; an entry without keys is a heading
export const KEYS = [
    ['', 'Anywhere'], ['`F6`, `Shift`+`F6`', 'next, previous part of the panel'],
    ['`Esc`', 'close the note, or cancel the task in this card'],
    ['', 'Map'], ['`←` `→`', 'one sector'], ['`↑` `↓`', 'one row'], ['`Page Up`, `Page Down`', '4500 sectors, a minute'],
    ['`Home`, `End`', 'first, last sector'], ['`N`, `P`', 'next, previous finding'], ['`R`, `Shift`+`R`', 'next, previous run'],
    ['`G`', 'go to a block'], ['`Enter`', 'open the sector'],
    ['', 'Sector'], ['`←` `→` `↑` `↓`', 'one byte, one row'], ['`0` to `9`, `A` to `F`', 'change the byte: a patch in the script'],
    ['`T`', 'type text; Esc goes back to digits'], ['`Shift`+`arrows`, `Ctrl`+`A`', 'select'],
    ['`Ctrl`+`C`, `Ctrl`+`V`', 'copy, paste: digits, or text in its column'],
    ['`Ctrl`+`Z`, `Ctrl`+`Y`', 'undo, redo what was typed, byte by byte'],
    ['`Page Up`, `Page Down`', 'one screen; past the end, the next sector'], ['`Esc`', 'back to the map'],
    ['', 'Script'], ['`Ctrl`+`Enter`, `Ctrl`+`S`', 'Check, save (on a Mac ⌘ for Ctrl)'],
    ['`F8`, `Shift`+`F8`', 'next, previous error or refusal'],
    ['`Ctrl`+`Z`, `Ctrl`+`Y`', 'undo, redo'],
    ['', 'Text'], ['`Ctrl`+`F`', 'go to Find'], ['`Enter`', 'find; in “New text”: replace and continue'],
    ['`Ctrl`+`Z`, `Ctrl`+`Y`', 'undo, redo in the table of texts'],
];

// the notes of the footer, and About
// trust: the page
export const frameProvedCode =
    'This page is tested, not proved; it encodes and patches sectors by a module that is made from proved calls.';
// end of trust
export const framePageSaysItself = 'The page computes this itself, and a modified page could show anything. To be sure, compute the ' +
    'SHA-256 of the file with another program.';

// ---- opening files

// the files to choose, and the effect of dropping files
export const openDropHere = 'Drop your files here';
export const openExampleName = 'Example disc.bin';

// the uses of a second image
export const openRepairOtherFrom = 'Repair {name} from {other}';
export const openCompareIt = 'Compare';
export const openItInstead = 'Open it instead';
export const openIsAnotherPart = 'It is a different part of the disc from {name}.';

// ---- the list of several files

export const listTitle = 'List of files';
export const listMore = 'More about the list';
export const listSave = 'Save the list…';
export const listTrackMissing = 'Track {number} is in a missing file.';

// ---- the open image's line

export const imageHashNotKnown = 'not known';

// the progress of reading, and the findings
export const imageReadingDisc = 'Reading the disc';
export const imageNoModeOne = 'No Mode 1 sectors.';
export const imageCanBeLookedAt = 'This is audio, or Mode 2 as on PlayStation discs. You can view it, but not patch it.';
export const imageModeTwoNotPatched = 'You can view and repair Mode 2 sectors, but not patch them.';
export const imageRepairFromOther = 'Repair from another dump…';
export const imageCorrectFromParity = 'Correct from parity…';
export const imageCompareWith = 'Compare with…';

// closing the open image
export const imageDiscardTexts = 'Discard the typed texts?';

// ---- disc: map, findings, files

// the map
export const discMapOfDisc = 'Map of the disc';

// a sector in words: under the map, at the pointer, and for screen readers
export const discLostInTrack = 'in a data track: sync field or mode byte lost';

// the card of findings: its tabs and buttons; screen readers say the second text of a copy button after the first
export const discFindingsTab = 'Findings';
export const discFilesTab = 'Files';
export const discSaveReport = 'Save…';

// the places of findings; names of columns are shown above wide tables, and labels in narrow ones
export const discSectorsColumn = 'Sectors';
export const discSectorsLabel = 'sectors';

// the appearance of a place; an ordinal has the forms for numbers like 1, like 2, and like 3, and for all others
export const discOrdinals = '{n}st|{n}nd|{n}rd|{n}th';

// files
export const discBytesColumn = 'Bytes';
export const discBytesLabel = 'bytes';
export const discBlockLabel = 'block';
export const discFilesCounted = '{n} file|{n} files';
export const discJobCancelled = 'Cancelled.';
export const discFileSaved = 'Saved: {name}';
export const discMakingLines = 'Making the lines';
export const discNothingAdded = 'Nothing was added to the script.';
export const discNewFileIsSame = 'The new file has the same bytes.';
export const discLinesAdded = '{n} line added to the script.|{n} lines added to the script.';
export const discEarlierLinesGone = '{n} earlier line for this file was removed.|{n} earlier lines for this file were removed.';
export const discOpenScriptPanel = 'Open Script';

// the text that the program prints
export const discRunsOfSectors = 'Runs of sectors';
export const discWhatProgramPrints = 'Output of {command}';

// lists of known dumps
export const discFileLoaded = 'Loaded: {name}';

// ---- disc: a sector

// the card
export const sectorNoSectorOpen = 'No sector is open';
export const sectorEnterKey = 'Enter';

// the errors of a sector
export const sectorIsSound = 'This sector is sound.';
export const sectorByteOfCodes = 'P and Q give {fresh} in place of {old} at {place}. The EDC then matches.';
export const sectorNeverCorrected =
    'A correction never changes this byte, because the header and the EDC that were read have to confirm it.';
export const sectorOnlyLookedAt = 'You can view it, but not patch it.';

// the remedies for the errors of a sector

// the fields and bytes of a sector
export const sectorEdcField = 'EDC';
export const sectorOffsetWord = 'offset';
export const sectorOffsetIs = '{offset} {at}';
export const sectorByteOfSector = 'byte {at} of the sector';

// the chosen byte
export const sectorInNoFile = 'in no file';

// keys, copy and paste
export const sectorBytesCopied = 'Copied {n} byte|Copied {n} bytes';
export const sectorInTheScript = 'In the script: {line}';
// the field on a touch screen

// ---- text: finding and replacing

// in tables and notices, for example those of a second image
export const textColumnBlock = 'Block';
export const textColumnFile = 'File';
export const textCountOfSectors = '{n} sector|{n} sectors';

// the text to search for, and its encoding
export const textFindText = 'Find';
export const textIsEncodingNow = 'It is now used here and wherever bytes are shown as text.';

// the search
export const textNoImageIsOpen = 'No image is open.';
export const textOpenDiscFirst = 'Open the disc image first.';
export const textAnotherEncoding = 'Another encoding? The game may also use its own character table, or compressed text.';

// the hits
export const textHitsFound = '{n} hit|{n} hits';
export const textCopyAsTable = 'Copy as a table';
export const textColumnOffset = 'Offset';
export const textOffsetLabel = 'offset';

// replacing a hit
export const textReplaceText = 'Replace';
export const textModeTwoNotPatched =
    'These bytes are in a Mode 2 sector, as on PlayStation discs. You can view and repair it, but not patch it.';
export const textNewText = 'New text';
export const textFillWith = 'Pad with';
export const textLineWritesHere = 'Line {line} of the script already writes here. A second line would find different old bytes.';
export const textSkipHit = 'Skip ▸';
export const textAllHitsInScript = 'All hits are in the script.';
export const textCheckToTest = 'Open Script and press Check to test them.';

// the bytes around a hit
export const textBytesAround = 'The bytes around it';
export const textOpenTheSector = 'Open the sector';

// all texts of the disc
export const textAllTextsAsTable = 'All text on the disc, with the translations in the script:';
export const textEndsFound = 'In some files, texts end with {bytes}.';
export const textLookingForTexts = 'Looking for text';
export const textNoTextFound = 'No text was found.';
export const textMakingOfRows = 'rows';
export const textColumnPlace = 'Block, offset';

// the table of all texts
export const textShowAllTexts = 'Show all texts';
export const textAllTexts = 'All texts';
export const textFindInTexts = 'Find in the texts';
export const textReplaceWith = 'Replace with, in the new texts';
export const textScriptKeeps = 'The script keeps the earlier text.';
export const textTypedAreLost = 'Some typed texts are not in the script.';
export const textShowAnyway = 'Discard them';
export const textAsCsv = 'A table for spreadsheets (CSV)';
export const textAsTsv = 'A table with tabs (TSV)';

// an ordinary file, whose texts are translated without an image
export const textPlainNotSaved = 'The new texts are not saved.';
export const textTypedNotInFile = 'Some typed texts do not fit the file. “Save and close” saves them in a list.';

// pointers, by which texts move
export const textLookingForPointers = 'Looking for pointers';
export const textPointersAsBefore = 'The tables of pointers are as before.';
export const textNoPointers = 'No pointers were found.';
export const textColumnPointers = 'Pointers';
export const textColumnBegins = 'To a text’s first byte';
export const textColumnTextsIn = 'Texts in';
export const textScriptHasAll = 'The script has all texts of the table that fit.';

// ---- script: editor and check

// the script's head
export const scriptFaultsOfScript = '{n} error|{n} errors';
export const scriptPatchCount = '{n} patch|{n} patches';
export const scriptSaveScript = 'The script…';
export const scriptFile = 'script.txt';
export const scriptReplacedYours = 'This script replaced yours, which was not saved.';

// the script that undoes the open script
export const scriptUndoScript = 'A script that undoes it…';
export const scriptNoUndoMade = 'No undo script was made.';

// the help for a faulty line, and the labels of the buttons that correct it
export const scriptMakeIt = 'Change it to “{head}”';

// Check
export const scriptCheckScript = 'Check';
export const scriptOpenTheImage = 'Open the image…';
export const scriptGoToLine = 'Go to line {line}';
export const scriptApplyAndSave = 'Apply and save…';

// how the script matches the image
export const scriptSomeNotCompared = '{script}: {fitting} of {all} patches match {image}, {n} has no old bytes to compare.|\
{script}: {fitting} of {all} patches match {image}, {n} have no old bytes to compare.';
export const scriptNothingShowsFit =
    'cdpatch cannot tell whether the patch of {script} matches {image}.|\
cdpatch cannot tell whether the {n} patches of {script} match {image}.';
export const scriptNoNamedFits = 'The patch of {script} that can be checked does not match {image}.|\
None of the {n} patches of {script} that can be checked matches {image}.';
export const scriptOthersNameNone = 'The other patch has no old bytes to compare, so cdpatch cannot tell whether it matches.|\
The other {n} patches have no old bytes to compare, so cdpatch cannot tell whether they match.';
export const scriptNothingToSave = 'Nothing to save: no patch can be applied.';

// the log; only screen readers say the purpose of its buttons
export const scriptLogOfCheck = 'Log';
export const scriptWhichLog = ' the log';

// ---- saving

// while an image is being saved
export const savePatchedInName = 'patched';

// the saved image
export const saveImageSaved = 'Saved';
export const saveKeepPageOpenOnly = 'Keep this page open until the download is complete.';
export const saveIsComplete = 'The download is complete';
export const saveHashPercent = '({percent} %)';
export const saveOldSheetNamesOld = 'If you have a .cue of the old image, it still names that image. Open both here together, and you ' +
    'can save one for the new image.';
export const saveOpenNewImage = 'Open the new image';

// ---- a second image

// the card, and the jobs that it offers
export const secondRepairFromIt = 'Repair from it';
export const secondBeginAgain = 'Start over';
export const secondNothingFoundOut = 'There is no result.';

// the map of both images
export const secondCanBeRepaired = 'can be repaired';
export const secondHaveNoCopy = 'without a sound copy';
export const secondDamagedInSecond = 'damaged in the second';

// repair
export const secondTailsDiffer = 'The bytes after the last sector differ.';
export const secondSaveRepaired = 'Save repaired image…';
export const secondWriteRepairAsScript = 'Write the repair as a script';

// a repair that is refused
export const secondPatchedOrOther = 'One of the images is patched, shifted, or of a different disc or release.';

// comparison
export const secondBothSameBytes = 'Both images are the same, byte for byte.';
export const secondSaveTheScript = 'Save the script…';
export const secondOpenInScript = 'Open in Script';

// the script from one image to the other
export const secondTheRepairedImage = 'the repaired image';
export const secondScriptNotWritten = 'The script is not written: {why}.';

// ---- a repaired image

export const correctWithoutScript = 'The new image does not have the patches of the script: open it, and apply them to it.';

// ---- publishing
export const publishPatcherForPlayers = 'A patcher for your players';
// before the patcher is saved: the parts that are ready, and those that are not
export const publishBeforeYouSave = 'Before you save';
// The page inserts the signs, since | separates the forms of a text.
// saving the patcher
