// Generates and reads patchers: the page's own bytes, and data after them. The data are a line with version, size, and SHA-1, and base64
// of deflated bytes: a line of JSON, and the script.

import { ByteList } from '../../core/bytes.js';
import { sheetOf, textOfSheet } from '../../core/disc/views.js';
import { Fault, failedBy } from '../../core/faults.js';
import { LAST_BASE, MOST_SCRIPT_BYTES, MOST_SECTORS, SECTOR_SIZE, type Calls } from '../../core/module/index.js';
import { ownFault } from '../../sentences/index.js';
import { OWN, Sha1, bytesOfBase64 } from '../app/index.js';
import { sheetNaming } from '../save/index.js';
import { format, isLanguage, playerTexts as texts } from '../texts/index.js';
import type { Language } from '../texts/language.js';
import { byId, hexOf } from '../ui/index.js';

// Checks the head of a patcher's data, which a stranger may have written, and selects what is used of it.

/** A name without a path, which every system accepts for a file. */
const PLAIN_NAME = /^[^/\\:*?"<>|\p{C}\p{Zl}\p{Zp}]+$/u;
/** The invisible characters of a name. A space is visible between others. */
const UNSEEN = /[\p{Default_Ignorable_Code_Point}\u2800]|(?! )\p{Z}/u;
/** The names of devices on Windows, whatever follows the dot. */
const DEVICE = /^(con|prn|aux|nul|conin\$|conout\$|(com|lpt)[0-9¹²³]) *(\.|$)/i;
const LONGEST_STEM = 120;
/** The name of a patched image if its patcher has no usable name for it. */
const OTHER_NAME = 'patched.bin';

/** The most characters of the author's own texts. */
export const MOST_WRITTEN = { title: 200, author: 200, note: 20000 };

/** The check of each member of the head. */
const HEAD_FORM: Record<string, (value: any) => boolean> = {
    title: value => isText(value, MOST_WRITTEN.title) && isSeen(value),
    author: value => isText(value, MOST_WRITTEN.author),
    note: value => isText(value, MOST_WRITTEN.note),
    name: value => isText(value, 200) && /^[^/\\:*?"<>|\p{Cc}]+$/u.test(value) && !/^\.+$/.test(value),
    cue: value => isText(value, 100000),
    carry: value => typeof value === 'boolean',
    base: value => isCount(value, LAST_BASE),
    image: value => hasMembers(value, ['size', 'sha1']) && isCount(value.size, MOST_SECTORS * SECTOR_SIZE) && isSha1(value.sha1),
    result: isSha1,
    language: isLanguage,
};

/** The member that a head may lack. */
const OPTIONAL = 'language';

function isText(value: unknown, most: number) {
    return typeof value === 'string' && value.length <= most;
}

/** Whether a text has a visible character. */
export function isSeen(text: string) {
    return /[^\p{C}\p{Z}\p{M}\p{Default_Ignorable_Code_Point}\u2800]/u.test(text);
}

function isCount(value: unknown, most: number) {
    return typeof value === 'number' && Number.isInteger(value) && value >= 0 && value <= most;
}

function isSha1(value: unknown) {
    return typeof value === 'string' && /^[0-9a-f]{40}$/.test(value);
}

function hasMembers(value: any, names: string[]) {
    return typeof value === 'object' && value !== null && Object.keys(value).sort().join() === [...names].sort().join();
}

/** Why a value is not the head of a patcher, or ''. */
export function headFault(head: any) {
    const names = Object.keys(HEAD_FORM).filter(name => name !== OPTIONAL || Object.keys(Object(head)).includes(name));
    if (!hasMembers(head, names)) return texts.playerHeadWithOtherMembers;
    const wrong = names.find(name => !HEAD_FORM[name](head[name]));
    return wrong ? format(texts.playerHeadWithWrongMember, { member: wrong }) : '';
}

/** Whether a patched image may have this name. It must be plain and end like an image's name, so that no program runs the contents. */
export function isImageName(name: string) {
    const isSafe = isPlainName(name) && !UNSEEN.test(name) && !/^[. ]/.test(name);
    return isSafe && /.\.(bin|img|iso)$/i.test(name) && name.length <= LONGEST_STEM + 4;
}

/**
 * A cue sheet written anew from what was read, so that no program can read anything else in it. '' if it cannot be read, or names a file
 * that is not beside it.
 */
export function plainSheet(text: string) {
    try {
        const sheet = sheetOf(text);
        return sheet.files.every(it => isPlainName(it.name) && /^[0-9A-Z]+$/.test(it.format)) ? textOfSheet(sheet) : '';
    } catch {
        return '';
    }
}

function isPlainName(name: string) {
    return PLAIN_NAME.test(name) && !/^\.+$/.test(name) && !DEVICE.test(name);
}

/**
 * Selects what is used of a valid head. The author's name for the image is replaced if it is not the name of an image, and the cue sheet is
 * written anew.
 */
export function takenHead<Head extends Pick<PatcherData, 'name' | 'cue'>>(head: Head): Head {
    const name = isImageName(head.name) ? head.name : OTHER_NAME;
    const cue = head.cue === '' || name === head.name ? head.cue : sheetNaming(head.cue, [[head.name, name]]);
    return { ...head, name, cue: plainSheet(cue) };
}

/**
 * The data of a patcher. `cue` is the text of a cue sheet that names the patched image, or ''. `carry` says whether damaged sectors are
 * patched too. `image` identifies the image that it was made for, and `result` is the SHA-1 of the author's patched image. `language` is
 * the one that the author chose for the page; without it the player's browser decides.
 */
export type PatcherData = { title: string, author: string, note: string, name: string, cue: string, carry: boolean, base: number,
    image: { size: number, sha1: string }, result: string, script: string, language?: Language };

const LARGEST_HEAD = 1 << 20;
/** Bytes that are inflated at a time, few enough that the result fits in memory however they were compressed. */
const INFLATE_STEP = 1 << 12;
/** Bytes that are hashed at a time. */
const HASH_STEP = 1 << 20;
const FORM = /^\ncdpatch-data 1 (\d{1,9}) ([0-9a-f]{40})\n([A-Za-z0-9+/]+={0,2})\n$/;

/** The error that the data of a patcher are not valid. */
function patcherFault(message: string) {
    return new Fault('patcher', { sentence: message });
}

/** Reads the bytes of a stream. Throws a Fault if there are more than a limit. */
async function streamBytes(stream: ReadableStream<Uint8Array>, most: number) {
    const reader = stream.getReader();
    const bytes = new ByteList();
    for (let next = await reader.read(); !next.done; next = await reader.read()) {
        bytes.push(next.value);
        if (bytes.size > most) {
            await reader.cancel();
            throw patcherFault(texts.playerDataTooLong);
        }
    }
    return bytes.bytes();
}

/** Bytes as a stream of small pieces, since a browser inflates a whole piece before it delivers any of the result. */
function inSmallPieces(bytes: Uint8Array) {
    let at = 0;
    return new ReadableStream({
        pull(controller) {
            if (at === bytes.length) return controller.close();
            const piece = bytes.slice(at, at + INFLATE_STEP);
            at += piece.length;
            return controller.enqueue(piece);
        },
    }, { highWaterMark: 0 });
}

export function base64Of(bytes: Uint8Array) {
    const parts = [];
    for (let at = 0; at < bytes.length; at += 24573) parts.push(btoa(String.fromCharCode(...bytes.subarray(at, at + 24573))));
    return parts.join('');
}

/** The SHA-1 of bytes. */
export function checksum(calls: Calls, bytes: Uint8Array) {
    const sha1 = new Sha1(calls);
    for (let at = 0; at < bytes.length; at += HASH_STEP) sha1.add(bytes.subarray(at, at + HASH_STEP));
    return hexOf(sha1.digest()).toLowerCase();
}

/** Generates the text that follows the page's own bytes in a patcher. Throws a Fault. */
export async function patcherText(calls: Calls, { script, ...head }: PatcherData) {
    const fault = headFault(head) || (isImageName(head.name) ? '' : texts.playerNameOfNoImage);
    if (fault) throw patcherFault(fault);
    const stream = new Blob([`${JSON.stringify(head)}\n`, script]).stream().pipeThrough(new CompressionStream('deflate'));
    const packed = await streamBytes(stream, MOST_SCRIPT_BYTES + LARGEST_HEAD);
    return `cdpatch-data 1 ${packed.length} ${checksum(calls, packed)}\n${base64Of(packed)}\n`;
}

/** The data of a patcher, from the text after the page's last tag. Throws a Fault. */
export async function readPatcherText(calls: Calls, text: string): Promise<PatcherData> {
    const found = FORM.exec(text);
    if (!found) throw patcherFault(texts.playerDataOfWrongForm);
    if (found[3].length % 4 !== 0) throw patcherFault(texts.playerDataCut);
    const packed = bytesOfBase64(found[3]);
    if (packed.length !== Number(found[1])) throw patcherFault(texts.playerDataCut);
    if (checksum(calls, packed) !== found[2]) throw patcherFault(texts.playerDataChanged);
    const inflating = inSmallPieces(packed).pipeThrough(new DecompressionStream('deflate'));
    const bytes = await streamBytes(inflating, MOST_SCRIPT_BYTES + LARGEST_HEAD).catch(error => {
        throw failedBy(error, 'patcher') ? error : patcherFault(texts.playerDataNotUnpacked);
    });
    const end = bytes.indexOf(10);
    if (end < 0 || end > LARGEST_HEAD) throw patcherFault(texts.playerDataWithoutHead);
    const head = jsonOf(bytes.subarray(0, end));
    const fault = headFault(head);
    if (fault) throw patcherFault(fault);
    return { ...takenHead(head), script: new TextDecoder('utf-8', { ignoreBOM: true }).decode(bytes.subarray(end + 1)) };
}

function jsonOf(bytes: Uint8Array) {
    try {
        return JSON.parse(new TextDecoder('utf-8', { fatal: true }).decode(bytes));
    } catch {
        throw patcherFault(texts.playerHeadNotJson);
    }
}

/**
 * Compares a page that was dropped with this one. `same` says whether its first bytes are those of this page, and `text` is the data, with
 * line ends as a browser reads them. Returns null if it has no data.
 * @param source the page's own text
 */
export function comparedWithPage(file: Uint8Array, source: string) {
    const own = new TextEncoder().encode(source);
    const same = file.length >= own.length && own.every((byte, i) => byte === file[i]);
    const latin = new TextDecoder('latin1');
    const end = same ? own.length : endOfProgram(latin.decode(file));
    if (end === 0) return null;
    return { same, text: `\n${latin.decode(file.subarray(end)).replace(/\r\n?/g, '\n')}` };
}

/** The offset of the data of a page, after their mark, or 0. */
function endOfProgram(text: string) {
    const mark = /[\r\n]<plaintext hidden id="data">(?:\r\n?|\n)/.exec(text);
    return mark ? mark.index + mark[0].length : 0;
}

// Rebuilds the page's own text from the parts of its document. Each part is recognised by its content, wherever it is.

/** The text after the last tag of this file: the data of a patcher, or white space. */
export function ownData() {
    return byId('data').textContent || '';
}

/** The hashes of the loader and of the script, between two quotes of the policy. */
const HASHES = /^sha256-[A-Za-z0-9+/]{43}=' 'sha256-[A-Za-z0-9+/]{43}=$/;

/** @param text of a style */
function isOwnStyle(calls: Calls, text: string) {
    const bytes = new TextEncoder().encode(text);
    return bytes.length === OWN.style.size && checksum(calls, bytes) === OWN.style.sha1;
}

/** @param text of a policy */
function isOwnPolicy(text: string) {
    const [before, after] = OWN.policy;
    return text.startsWith(before) && text.endsWith(after) && HASHES.test(text.slice(before.length, text.length - after.length));
}

/** The page's own style and policy, wherever they are, and whether both are the first of their kind. Throws if one is missing. */
function ownParts(calls: Calls) {
    const styles = [...document.querySelectorAll('style')].map(it => it.textContent || '');
    const policies = [...document.querySelectorAll('meta[http-equiv]')].map(it => it.getAttribute('content') || '');
    const [style, policy] = [styles.findIndex(it => isOwnStyle(calls, it)), policies.findIndex(isOwnPolicy)];
    if (style < 0 || policy < 0) throw ownFault(texts.playerPageWasChanged);
    return { style: styles[style], policy: policies[policy], first: style === 0 && policy === 0 };
}

/** The page's own text, to its last tag. */
export function pageSource(calls: Calls) {
    const { style, policy } = ownParts(calls);
    const [before, toStyle, toScript, after] = OWN.html;
    return [before, policy, toStyle, style, toScript, JOINED.loader, after].join('');
}

/** The page's own text, for publishing. Throws if a different style or policy comes before its own. */
export function publishedSource(calls: Calls) {
    if (!ownParts(calls).first) throw ownFault(texts.playerPageWasChanged);
    return pageSource(calls);
}
