// Reads and writes PO files.

import { encodeText, encodingOf } from '../encodings/index.js';
import { Fault } from '../faults.js';
import { LONGEST_TEXT } from './codes.js';

// Writes the texts of a disc as a gettext PO file: an entry for each distinct text, with all its places.

/**
 * A text with its place: what a row of a table has. `block` is `-` in a file without an image; `file` is its file and the place there, or
 * `-`; `fill` is the code of the filler of a record, or ''.
 */
export type PlacedText = { block: number | string, offset: number, room: number, encoding: string, file: string, text: string,
    fresh: string, fill: string };

/** The header, as xgettext writes it, with nothing that differs from one call to the next. */
const PO_HEADER = [
    'msgid ""', 'msgstr ""', '"Project-Id-Version: PACKAGE VERSION\\n"', '"PO-Revision-Date: YEAR-MO-DA HO:MI+ZONE\\n"',
    '"Last-Translator: FULL NAME <EMAIL@ADDRESS>\\n"', '"Language-Team: LANGUAGE <LL@li.org>\\n"', '"Language: \\n"',
    '"MIME-Version: 1.0\\n"', '"Content-Type: text/plain; charset=UTF-8\\n"', '"Content-Transfer-Encoding: 8bit\\n"', '',
].join('\n');

const ESCAPED: Record<string, string> = { '\n': '\\n', '\t': '\\t', '\r': '\\r', '"': '\\"', '\\': '\\\\' };

/** How many entries are written as one piece. */
const ENTRIES_AT_ONCE = 1000;

function quoted(text: string) {
    return `"${text.replace(/[\n\t\r"\\]/g, sign => ESCAPED[sign])}"`;
}

/** The name of a place in a PO file: its block and offset, as in `28+26`. A line of a file would need the image's directories. */
function nameOfPlace({ block, offset }: Pick<PlacedText, 'block' | 'offset'>) {
    return `${block}+${offset}`;
}

/**
 * The reference of a place. A space in a path is written as %20. The name of a plain file follows ./, since it may look like a place.
 * @param hasEncoding whether the encoding follows the place
 */
function reference(placed: PlacedText, hasEncoding: boolean) {
    const path = placed.file.replace(/\s/g, encodeURIComponent);
    const file = placed.file === '-' ? '' : `${path.startsWith('/') ? '' : './'}${path} `;
    return `#: ${file}${nameOfPlace(placed)}${hasEncoding ? `:${placed.encoding}` : ''}\n`;
}

/**
 * Whether a letter has one byte in an encoding, so that a text has at most as many characters as bytes. A game's own table, which is not
 * one of the known encodings, may have signs of several letters.
 */
function hasOneByteLetters(name: string) {
    const encoding = encodingOf(name);
    return encoding !== null && encodeText(encoding, 'e').length === 1;
}

/** The comments about the places of a text: the smallest room of those in each encoding. */
function factsOf(places: PlacedText[]) {
    const smallest: Map<string, PlacedText> = new Map();
    for (const it of places) {
        const known = smallest.get(it.encoding);
        if (known === undefined || it.room < known.room) smallest.set(it.encoding, it);
    }
    return Array.from(smallest.values(), ({ room, encoding, fill }) =>
        `#. room ${room} ${room === 1 ? 'byte' : 'bytes'}, ${encoding}${fill === '' ? '' : `, fill ${fill}`}\n`);
}

/**
 * An entry for the places of a text that have one translation. If they are in several encodings, each reference names its own.
 * @param isOther whether a different entry of the same text exists, so that this one needs a context
 */
function entryText(places: PlacedText[], fresh: string, isOther: boolean) {
    const [{ text }] = places;
    const facts = factsOf(places);
    const room = places.reduce((least, it) => Math.min(least, it.room), Infinity);
    const isCounted = !text.includes('{') && places.every(it => hasOneByteLetters(it.encoding));
    return [
        '\n', ...facts, ...places.map(it => reference(it, facts.length > 1)), isCounted ? `#, max-length:${room}\n` : '',
        isOther ? `msgctxt "${nameOfPlace(places[0])}"\n` : '', `msgid ${quoted(text)}\nmsgstr ${quoted(fresh)}\n`,
    ].join('');
}

/** Collects the texts of a PO file. */
export class PoFile {
    /** The places of each distinct text. */
    texts = new Map<string, PlacedText[]>();

    add(placed: PlacedText) {
        const known = this.texts.get(placed.text);
        if (known === undefined) this.texts.set(placed.text, [placed]);
        else known.push(placed);
    }

    /** The entries of a text. The most frequent new text has no context, and the places without a new text belong to it. */
    entriesOf(places: PlacedText[]) {
        const byFresh: Map<string, PlacedText[]> = new Map();
        for (const it of places) {
            const known = byFresh.get(it.fresh);
            if (known === undefined) byFresh.set(it.fresh, [it]);
            else known.push(it);
        }
        const without = byFresh.get('') || [];
        byFresh.delete('');
        if (byFresh.size === 0) return entryText(without, '', false);
        const [[main, own], ...others] = [...byFresh].sort(([, a], [, b]) => b.length - a.length);
        const all = new Set([...own, ...without]);
        const first = entryText(places.filter(it => all.has(it)), main, false);
        return [first, ...others.map(([fresh, some]) => entryText(some, fresh, true))].join('');
    }

    /** Yields the file in pieces. */
    *pieces() {
        yield PO_HEADER;
        let entries: string[] = [];
        for (const places of this.texts.values()) {
            entries.push(this.entriesOf(places));
            if (entries.length < ENTRIES_AT_ONCE) continue;
            yield entries.join('');
            entries = [];
        }
        yield entries.join('');
    }
}

// Reads the entries of a gettext PO file.

/**
 * An entry: the number of the line of its `msgid`, its text, its translation, whether it is fuzzy or has plural forms, its references, and
 * its first extracted comments. Of a text with more than LONGEST_TEXT characters only the beginning is read, which has more too.
 */
export type PoEntry = { line: number, text: string, fresh: string, isFuzzy: boolean, isPlural: boolean, places: string[],
    comments: string[] };
export type Keyword = 'msgctxt' | 'msgid' | 'msgid_plural' | 'msgstr' | 'domain';

/** The escapes of a PO file other than numbers. */
const PO_ESCAPES = new Map(Object.entries({ n: '\n', t: '\t', r: '\r', a: '\x07', b: '\b', f: '\f', v: '\v', '\\': '\\', '"': '"' }));

const NUMBER = /\\(?:([0-7]{1,3})|x([0-9A-Fa-f]{1,2}))/y;

const STRICT_UTF8 = new TextDecoder('utf-8', { fatal: true, ignoreBOM: true });

const KEYWORD = /^(msgctxt|msgid_plural|msgid|msgstr|domain)(\[\d{1,9}\])?(?![\w[])/;

/** How many lines at the beginning may be comments, if a list is to be recognised as a PO file. */
const MOST_COMMENTS = 10000;

/** The longest line that is read, in characters. Comments other than references may be longer. */
const PO_LINE_MOST = 1 << 19;

/** After how many lines or characters `entriesOfPo` yields null, so that other work gets a turn. */
const LINES_AT_ONCE = 1000;
const CHARACTERS_AT_ONCE = 1 << 18;

/** The most references of an entry. */
const MOST_PLACES = 1000000;

/** How many extracted comments of an entry are kept. */
const MOST_COMMENTS_KEPT = 100;

/** Newer versions of gettext write a reference with spaces between these characters. */
const ISOLATES = /[\u2068\u2069]/g;

/** The character sets in which a list can be: others cannot be recognised. CHARSET is what xgettext writes if it is not known. */
const CHARSETS = /^(?:UTF-?8|(?:US-)?ASCII|CHARSET|S(?:HIFT)?[_-]?JIS|CP932|WINDOWS-31J)$/i;

/** Yields the lines of a text with their numbers, without line ends and the spaces around them. */
function* poLines(text: string) {
    for (let at = 0, number = 1; at < text.length; number++) {
        const end = text.indexOf('\n', at);
        yield { number, line: text.slice(at, end < 0 ? text.length : end).trim() };
        at = end < 0 ? text.length : end + 1;
    }
}

/** Whether a list is a PO file: its first line that is neither empty nor a comment begins with a keyword of PO. */
export function isPo(list: string) {
    for (const { number, line } of poLines(list)) {
        if (line !== '' && !line.startsWith('#')) return KEYWORD.test(line);
        if (number === MOST_COMMENTS) return false;
    }
    return false;
}

/** The end of a string in quotes, after its last quote, or -1 if it does not end on its line. `at` is its first quote. */
function endOfString(line: string, at: number) {
    for (let end = line.indexOf('"', at + 1); end >= 0; end = line.indexOf('"', end + 1)) {
        let before = end;
        while (line[before - 1] === '\\') before--;
        if ((end - before) % 2 === 0) return end + 1;
    }
    return -1;
}

/**
 * Reads the octal and hexadecimal numbers at a place in a string, which are bytes of UTF-8: msgcat --escape writes them. Throws a Fault if
 * they are not.
 * @param number of its line
 */
function readNumbers(string: string, from: number, number: number) {
    const bytes = [];
    let end = NUMBER.lastIndex = from;
    for (let found = NUMBER.exec(string); found !== null; found = NUMBER.exec(string)) {
        bytes.push(found[1] === undefined ? parseInt(found[2], 16) : parseInt(found[1], 8));
        end = NUMBER.lastIndex;
    }
    try {
        if (end > from) return { text: STRICT_UTF8.decode(Uint8Array.from(bytes)), end };
    } catch (error) {
        if (!(error instanceof TypeError)) throw error;
    }
    throw new Fault('po/escape', { line: number });
}

/**
 * The text of a string, in which escapes are replaced.
 * @param string without its quotes
 * @param number of its line
 */
function unescapedPo(string: string, number: number) {
    const parts = [];
    let at = 0;
    for (let slash = string.indexOf('\\'); slash >= 0; slash = string.indexOf('\\', at)) {
        const sign = PO_ESCAPES.get(string[slash + 1]);
        const { text, end } = sign === undefined ? readNumbers(string, slash, number) : { text: sign, end: slash + 2 };
        parts.push(string.slice(at, slash), text);
        at = end;
    }
    return at === 0 ? string : `${parts.join('')}${string.slice(at)}`;
}

/** The strings of a line from a place on. Throws a Fault if there is anything else. */
function* stringsOf(line: string, from: number, number: number) {
    for (let at = from; at < line.length;) {
        if (line[at] === ' ' || line[at] === '\t') {
            at++;
            continue;
        }
        const end = line[at] === '"' ? endOfString(line, at) : -1;
        if (end < 0) throw new Fault('po/line', { line: number });
        yield line.slice(at + 1, end - 1);
        at = end;
    }
}

/** The strings after a keyword. */
class Strings {
    parts: string[] = [];
    length = 0;

    /**
     * @param string without its quotes
     * @param number of its line
     */
    add(string: string, number: number) {
        if (string === '' || this.length > LONGEST_TEXT) return;
        const part = unescapedPo(string, number);
        this.parts.push(part);
        this.length += part.length;
    }

    text() {
        return this.parts.join('');
    }
}

/** Collects the lines of an entry. */
class Entry {
    line = 0;
    isFuzzy = false;
    places: string[] = [];
    comments: string[] = [];
    /** The keyword whose strings may continue, or null. */
    keyword: Keyword | null = null;
    strings = new Map<Keyword, Strings>();

    /** Whether a line belongs to the next entry: a comment, a context, a text, or a domain, after the translation. */
    endsBefore(line: string) {
        return this.strings.has('msgstr') && (line.startsWith('#') || /^(?:msgctxt|msgid|domain)(?![\w[])/.test(line));
    }

    addComment(line: string, number: number) {
        const { places, comments } = this;
        const rest = line.slice(2).trim();
        if (line.startsWith('#:')) for (const place of rest.replace(ISOLATES, '').split(/\s+/)) places.push(place);
        else if (line.startsWith('#.') && comments.length < MOST_COMMENTS_KEPT) comments.push(rest);
        else if (/^#[,=]/.test(line) && /(?:^|,)\s*fuzzy\s*(?:,|$)/.test(rest)) this.isFuzzy = true;
        if (places.length > MOST_PLACES) throw new Fault('po/many-places', { line: number, most: MOST_PLACES });
    }

    /** Adds a line that is not a comment. Throws a Fault if it is not valid. */
    add(line: string, number: number) {
        const [all = '', keyword = this.keyword, index] = KEYWORD.exec(line) || [];
        if (keyword === null) throw new Fault('po/line', { line: number });
        if (all !== '') this.begin(keyword as Keyword, index !== undefined, number);
        const strings = this.strings.get(keyword as Keyword);
        for (const string of stringsOf(line, all.length, number)) if (strings) strings.add(string, number);
    }

    /**
     * Begins the strings of a keyword. An entry has each keyword once, but several `msgstr` with an index, which are joined: entries with
     * plural forms are not applied.
     */
    begin(keyword: Keyword, hasIndex: boolean, number: number) {
        if (this.strings.has(keyword) && !hasIndex) throw new Fault('po/entry', { line: number });
        if (keyword === 'msgstr' && !this.strings.has('msgid')) throw new Fault('po/entry', { line: number });
        if (keyword === 'msgid') this.line = number;
        this.keyword = keyword;
        if (!this.strings.has(keyword)) this.strings.set(keyword, new Strings());
    }

    /**
     * The entry, or null if it is the header, or has only comments. Throws a Fault if it is not complete, or if the header names a
     * character set in which the list cannot be.
     */
    finished(): PoEntry | null {
        const { line, isFuzzy, places, comments, strings } = this;
        const [id, translation] = [strings.get('msgid'), strings.get('msgstr')];
        if (id === undefined) return null;
        if (translation === undefined) throw new Fault('po/entry', { line });
        const [text, fresh] = [id.text(), translation.text()];
        const isPlural = strings.has('msgid_plural');
        if (text !== '' || strings.has('msgctxt')) return { line, text, fresh, isFuzzy, isPlural, places, comments };
        const [, name = ''] = /\bcharset=([^\s;]{1,99})/i.exec(fresh) || [];
        if (name !== '' && !CHARSETS.test(name)) throw new Fault('po/charset', { name });
        return null;
    }
}

/** Yields the entries of a PO file, without its header and obsolete entries, and null now and then. Throws a Fault if it is not valid. */
export function* entriesOfPo(list: string): Generator<PoEntry | null> {
    let next = new Entry();
    let read = 0;
    for (const { number, line } of poLines(list)) {
        read += line.length;
        if (number % LINES_AT_ONCE === 0 || read > CHARACTERS_AT_ONCE) {
            yield null;
            read = 0;
        }
        if (line === '') continue;
        if (line.length > PO_LINE_MOST && /^(?:#:|[^#])/.test(line)) throw new Fault('po/long-line', { line: number, most: PO_LINE_MOST });
        // The comments before an obsolete entry belong to it.
        if (next.endsBefore(line) || line.startsWith('#~')) {
            const entry = next.finished();
            if (entry !== null) yield entry;
            next = new Entry();
        }
        if (line.startsWith('#')) next.addComment(line, number);
        else next.add(line, number);
    }
    const last = next.finished();
    if (last !== null) yield last;
}
