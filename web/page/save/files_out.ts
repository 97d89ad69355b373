// Gives files to the user: as a stream to a chosen file if the browser supports that, else as a download.

import type { Reader } from '../../core/bytes.js';
import { Fault } from '../../core/faults.js';
import { ownFault } from '../../sentences/index.js';
import { fileOf, isSameFile } from '../open/index.js';
import { format, playerTexts } from '../texts/index.js';
import { element, shownName } from '../ui/index.js';
import type { Sink } from './save.js';

/** A file that was chosen to be written: a FileSystemFileHandle of browsers based on Chromium. */
type ChosenFile = { name: string, getFile(): Promise<File>, createWritable(): Promise<Sink>, remove?: () => Promise<void> };
type Picker = (options: object) => Promise<ChosenFile>;

/** Whether this browser lets a page write to a file that the user chooses. */
export function canStream() {
    return 'showSaveFilePicker' in window;
}

/**
 * Whether this is Firefox. Firefox holds all bytes of a downloaded Blob of more than about ten parts in memory until its address is
 * revoked, but keeps the Blob of a Response in a temporary file. WebKit holds the Blob of a Response in memory.
 */
function isFirefox() {
    return 'mozInnerScreenX' in globalThis;
}

/**
 * Returns the same content as a Blob that needs the least memory when it is downloaded.
 * @param blob of many parts
 */
export async function asDownloaded(blob: Blob) {
    return isFirefox() ? new Response(blob).blob().catch(() => blob) : blob;
}

/**
 * Lets the user choose a file to write; returns null if none is chosen. Throws a Fault if the browser requires a new click.
 * @param name proposed to the user
 */
export async function chosenFile(name: string): Promise<ChosenFile | null> {
    const pick = (window as unknown) as { showSaveFilePicker: Picker };
    try {
        return await pick.showSaveFilePicker({ suggestedName: name });
    } catch (error) {
        const kind = error instanceof DOMException ? error.name : '';
        if (kind === 'AbortError') return null;
        throw kind === 'SecurityError' ? ownFault(playerTexts.saveAsksAfterClick) : error;
    }
}

/**
 * Starts a download, and returns the address of the Blob. It stays valid as long as the page is open, since the browser does not report the
 * end of a download.
 */
export function download(blob: Blob, name: string) {
    const href = URL.createObjectURL(blob);
    const link = element('a', { href, download: name });
    document.body.append(link);
    link.click();
    link.remove();
    return href;
}

/** The address of the image that was saved last. */
const image = { address: '' };

/**
 * Starts the download of an image. In Firefox, revokes the address of the image before, which deletes its temporary file; a download that
 * has begun continues.
 */
export function downloadImage(blob: Blob, name: string) {
    if (isFirefox() && image.address !== '') URL.revokeObjectURL(image.address);
    image.address = download(blob, name);
}

/** Starts the download of an image whose bytes are made in order. The browser keeps them, Firefox in a temporary file. */
export async function downloadMade(make: (take: (bytes: Uint8Array) => Promise<void>) => Promise<void>, name: string) {
    const { readable, writable } = new TransformStream();
    const kept = new Response(readable).blob();
    kept.catch(() => {}); // the writer fails too
    const writer = writable.getWriter();
    try {
        await make(bytes => writer.write(bytes));
        await writer.close();
    } catch (error) {
        await writer.abort(error).catch(() => {});
        throw error;
    }
    const blob = await kept;
    downloadImage(blob, name);
    return { name, streamed: false, file: new File([blob], name) };
}

/** Starts the download of bytes in pieces. */
export function downloadBytes(pieces: BlobPart[], name: string) {
    download(new Blob(pieces, { type: 'application/octet-stream' }), name);
}

/** Starts the download of a text. */
export function downloadText(text: string, name: string) {
    downloadBytes([text], name);
}

// Errors that are thrown before any work is done, and their advice.

/** A Fault that says why a script or an image cannot be used. `text` is the error message. `advice` is what to do. */
export function workRefused(text: string, advice: string) {
    return ownFault(text, { advice });
}

/** The advice of a Fault, or another text if it has none. */
export function adviceOf(error: unknown, other: string) {
    return error instanceof Fault && error.facts.advice || other;
}

// Lets the user choose a file to write, and refuses files that are open.

export type OpenFile = { name: string, size: number };

/**
 * Lets the user choose a file to write; returns null if none is chosen. Throws a Fault if it is an open file, or has the name of an open
 * file other than the image: a page does not see directories, and a stranger's patcher may propose the name.
 * @param name proposed to the user
 * @param readers of the image, and of other files that must not be overwritten
 * @param opened all open files
 */
export async function chosenOther(name: string, readers: Reader[], opened: OpenFile[]): Promise<ChosenFile | null> {
    const chosen = await chosenFile(name);
    if (chosen === null) return null;
    const before = await chosen.getFile();
    readers.forEach(reader => assertOther(before, reader));
    const own = fileOf(readers[0]);
    const alike = own && sameName(own, chosen) ? [] : opened.filter(it => sameName(it, chosen));
    if (alike.length === 0) return chosen;
    if (before.size === 0 && chosen.remove && alike.every(it => it.size > 0)) await chosen.remove().catch(() => {});
    throw workRefused(format(playerTexts.saveOpenFileHasName, { name: shownName(chosen.name) }), playerTexts.saveNothingSavedChooseName);
}

function sameName(one: { name: string }, other: { name: string }) {
    return one.name.toLowerCase() === other.name.toLowerCase();
}

/**
 * Refuses a chosen file if it is an open image.
 * @param reader of the image
 */
function assertOther(chosen: File, reader: Reader) {
    const own = fileOf(reader);
    if (own && isSameFile(chosen, own)) {
        throw workRefused(format(playerTexts.saveIsOpenImage, { name: shownName(own.name) }), playerTexts.saveNeverWrittenOver);
    }
}
