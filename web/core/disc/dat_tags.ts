// Reads the tags of a DAT in XML. The text arrives in pieces, and at most one tag of it is kept between them.

import { joinedBytes } from '../bytes.js';
import { windowsText } from '../encodings/index.js';
import { Fault } from '../faults.js';
import { kindByEnds } from './file_type.js';

// Decodes a DAT, and recognises files that are often mistaken for one.

/** How many bytes at the start determine the encoding. An XML declaration is shorter. */
const BEGINNING = 256;

const BYTE_ORDER_MARK = '\xEF\xBB\xBF';
const DECLARATION = /^\s*<\?xml\s[^>]*\bencoding\s*=\s*["']([\w.:-]{1,40})["']/;
const CLRMAMEPRO = /^\s*(?:clrmamepro|emulator|game|machine|resource)\s*\(/i;

/**
 * The encoding of a DAT, from its byte order mark, its first characters, or its declaration.
 * @param begins the first bytes, one character each
 */
function encodingOfDat(begins: string) {
    if (/^(?:\xFF\xFE|<\0)/.test(begins)) return 'utf-16le';
    if (/^(?:\xFE\xFF|\0<)/.test(begins)) return 'utf-16be';
    const [, declared = 'utf-8'] = DECLARATION.exec(begins) || [];
    // A declaration that is readable with one byte per character is not in UTF-16.
    return begins.startsWith(BYTE_ORDER_MARK) || /^utf-?16/i.test(declared) ? 'utf-8' : declared;
}

/** The decoder for a DAT. Throws a Fault if its encoding is unknown, or if it is a file of a different kind. `start` is its first bytes. */
function decoderOf(start: Uint8Array) {
    const begins = String.fromCharCode(...start.subarray(0, BEGINNING));
    if (kindByEnds(begins) === 'archive') throw new Fault('dat/archive', {});
    if (CLRMAMEPRO.test(begins)) throw new Fault('dat/clrmamepro', {});
    const encoding = encodingOfDat(begins);
    try {
        return new TextDecoder(encoding);
    } catch {
        throw new Fault('dat/encoding', { encoding });
    }
}

/**
 * Yields the text of a DAT in pieces. Throws a Fault.
 * @param pieces of its bytes
 */
export async function* textOfDat(pieces: AsyncIterable<Uint8Array>) {
    let decoder: TextDecoder | null = null;
    let start = new Uint8Array(0);
    for await (const piece of pieces) {
        if (decoder === null) start = joinedBytes([start, piece]);
        if (start.length < BEGINNING) continue;
        const bytes = decoder === null ? start : piece;
        decoder = decoder || decoderOf(start);
        yield decoded(decoder, bytes, true);
    }
    yield decoder === null ? decoded(decoderOf(start), start, false) : decoded(decoder, new Uint8Array(0), false);
}

/** @param stream whether more bytes follow */
function decoded(decoder: TextDecoder, bytes: Uint8Array, stream: boolean) {
    const text = decoder.decode(bytes, { stream });
    return decoder.encoding === 'windows-1252' ? windowsText(text) : text;
}

/** Whether a file may be a DAT, by its first bytes. */
export function beginsLikeDat(start: Uint8Array) {
    return /^\s*<[?!d]/.test(new TextDecoder(encodingOfDat(String.fromCharCode(...start.subarray(0, 2)))).decode(start));
}

const LONGEST_TAG = 1 << 14;

/** Skipped constructs: their beginning after `<`, and their end. The script in the page must not contain the whole start of a comment. */
const SKIPPED = [['!--', '-->'], ['![CDATA[', ']]>'], ['?', '?>']];
const LONGEST_END = 3;

/** A tag after its `<`: up to the first `>` outside quotes, or up to the `[` that begins the declarations of a DOCTYPE. */
const TAG = /(?:[^"'>]|"[^"]*"|'[^']*')*>/y;
const DOCTYPE = /!DOCTYPE(?:[^"'>[]|"[^"]*"|'[^']*')*[>[]/y;

/**
 * The place after the end of a tag, or -1 if the end has not arrived yet. Throws a Fault if the tag is too long.
 * @param at the place after the `<`
 */
function endOfTag(text: string, at: number) {
    const tag = text.startsWith('!DOCTYPE', at) ? DOCTYPE : TAG;
    const most = text.slice(at, at + LONGEST_TAG + 1);
    tag.lastIndex = 0;
    if (tag.test(most)) return at + tag.lastIndex;
    if (most.length > LONGEST_TAG) throw new Fault('dat/long-tag', { most: LONGEST_TAG });
    return -1;
}

/** Reads tags from a text that `push` receives in pieces. After the last one, `isCut` tells whether the text is incomplete. */
export class TagReader {
    rest = '';
    at = 0;
    /** The end of the construct that is being skipped, '' if none is. */
    until = '';
    isDeclaring = false;

    /** @param take receives each tag, without its brackets */
    constructor(readonly take: (tag: string) => void) {}

    push(text: string) {
        this.rest = this.rest.slice(this.at) + text;
        this.at = 0;
        while (this.at < this.rest.length && this.step());
    }

    /** Reads the next construct. Returns false if more of the text has to arrive first. */
    step() {
        if (this.until !== '') return this.skip();
        const { rest } = this;
        this.at = this.nextPlace();
        if (this.at === rest.length) return false;
        if (rest[this.at] !== '<') return this.endDeclarations();
        const skipped = SKIPPED.find(([begin]) => rest.startsWith(begin, this.at + 1));
        if (skipped === undefined) return this.tag();
        this.at += 1 + skipped[0].length;
        this.until = skipped[1];
        return true;
    }

    /** The place of the next `<`, or in a DOCTYPE of the next character after spaces. */
    nextPlace() {
        if (!this.isDeclaring) {
            const open = this.rest.indexOf('<', this.at);
            return open < 0 ? this.rest.length : open;
        }
        const spaces = /\s*/y;
        spaces.lastIndex = this.at;
        spaces.test(this.rest);
        return spaces.lastIndex;
    }

    skip() {
        const end = this.rest.indexOf(this.until, this.at);
        this.at = end < 0 ? Math.max(this.at, this.rest.length - LONGEST_END + 1) : end + this.until.length;
        if (end >= 0) this.until = '';
        return end >= 0;
    }

    endDeclarations() {
        if (this.rest[this.at] !== ']') throw new Fault('dat/declares', {});
        this.isDeclaring = false;
        this.at += 1;
        return true;
    }

    tag() {
        const end = endOfTag(this.rest, this.at + 1);
        if (end < 0) return false;
        const tag = this.rest.slice(this.at + 1, end - 1);
        this.at = end;
        if (tag.includes('<')) throw new Fault('dat/tag', { tag: tag.slice(0, 40) });
        if (tag.startsWith('!')) this.declaration(tag, this.rest[end - 1] === '[');
        else this.take(tag);
        return true;
    }

    /** @param opens whether declarations follow it */
    declaration(tag: string, opens: boolean) {
        if (!this.isDeclaring && /^!DOCTYPE\s/i.test(tag)) this.isDeclaring = opens;
        else if (!this.isDeclaring || !/^!(?:ELEMENT|ATTLIST)\s/.test(tag)) throw new Fault('dat/declares', {});
    }

    isCut() {
        return this.until !== '' || this.isDeclaring || this.at < this.rest.length;
    }
}
