"""Packs the page with other English texts, in which each letter has a mark, and visits the states of a patcher (tests/page/states.py): a
translation for players is one file. A word without marks is a text in the code, unless it is one of those that no translation changes."""

import functools
import re
import shutil
import sys
from pathlib import Path

import common
from pages import PICKER
from states import States, all_states, each_state

sys.path.insert(0, str(common.TOP / 'tools'))
import pack  # noqa: E402
import strip  # noqa: E402

MARK = '\u0323'

# Parts of the full page, code, lines of a script, commands, tables of bytes, the program's output, and names of files.
SKIPPED = 'main > :not(#player, #messages), [hidden], [popover], script, style, #data, .src, .line-out, .hex, .log, .report, .notices, bdi'

# Complete texts without marks: names, words of a script, commands, and the languages, each by its own name.
WHOLE = {'cdpatch', 'carry', 'rebuild', 'was', 'cdpatch check', 'cdpatch apply', 'cdpatch audit', 'cdpatch list', 'Big5', 'Shift-JIS (CP932)',
         'English', 'Español', 'Português (Brasil)', 'Français', 'Deutsch', 'Italiano'}

# Parts of texts without marks: names, hashes, lines of a script, the browser's own words, and input from the tests.
WITHIN = [
    r'\b[0-9a-f]{8,}\b', r'\b(esbuild|zlib|cdpatch) [\d.]+', '^cdpatch: ', 'Shift-JIS', r'\bWindows-125\d\b', r'\baudit\b', r'\bset \d+ \d+ [0-9A-F]+ was [0-9A-F]+',
    'set, fill, rebuild(, address)?', r'\d and \d',  # Intl.ListFormat
    r'\b(cdpatch (audit|list|check|apply)|cdscript files)\b',
    r'Hoshizora Tantei \(Japan\).bin', r'english\.txt', 'Starlit Detective in English', 'Team Comet · version', '^All menus and chapters .*', '^Start␣*$',
    '^Continue␣*$', '^New game␣*$', r'^Set\.$', '^Cont$', '^much too long .*', '^also too long .*', r'^(Start a new game|The game starts)\.␣*$',
    r'^Do you want to save first, or go on playing\?', r'^The door is locked\. Is there anybody inside\?', r'^Enter the detective\. The case goes on\.',
    r'^Save\?␣*$', r'^The end\.␣*$', '^It is lo$', r'^The hero found the herb in the tower of the north, and took it home\.$', '^A villager$',
]

# English texts from the module and the core's sentences, by their source.
CORE = {
    'Calls.faultLine': 'bad hex|offset over 2047|unknown verb|no cdpatch 1 line',
    'Calls.outcomeLine': r'(refused: )?old bytes differ at block \d+ offset \d+|no block \d+|block \d+ is damaged',
    'SectorCalls.auditLine': r'edc p=\d+ q=\d+',
    'script/left of sentences/english.js, with blocksText of sentences/blocks.js': r'is damaged in blocks [\d, ]+ and \d+ more',
    'blocksText of sentences/blocks.js': r'\bblock \d+\.',
    'verdictText of sentences/verdict.js': r'(?i:^the only data sector is sound|(all )?[\d,]+ (of [\d,]+ )?(data |Mode 2 |extra )?(sectors?|blocks?|tracks?)( of the volume)? .*(sound|damaged|lost|address|missing|tested|damage).*)',
    'kind/what of sentences/kinds.js': '^(not recognised|an ISO image, 2048 bytes per sector)$',
    'list/new-characters of sentences/english.js': r'\d+ characters are in no old text: .* Does the font of the game have them\?',
    'pointers/moved of sentences/english.js': r'Row \d+: moved in /EVENT\d\.DAT from \d+ to \d+; pointers \d+\.',
    'replace/no-room of sentences/english.js': r'the new text has \d+ bytes in CP932, and there is room for \d+: \d+ too many',
}

# Removes the marks from displayed text, and adds them to selectors, so that the tests can look for English.
AS_ENGLISH = f'''const {{ get }} = Object.getOwnPropertyDescriptor(HTMLElement.prototype, 'innerText');
Object.defineProperty(HTMLElement.prototype, 'innerText', {{ get() {{ return get.call(this).replaceAll('{MARK}', ''); }} }});
for (const name of ['querySelector', 'querySelectorAll']) {{
    const real = Document.prototype[name];
    Document.prototype[name] = function (css) {{
        return real.call(this, css.replace(/aria-label(.?=)"?([\\w ]+)"?/g, (all, is, label) => `aria-label${{is}}"${{label.replace(/[a-z]/gi, '$&{MARK}')}}"`));
    }};
}}'''

# All texts of the patcher, and names of its parts that contain two lower-case letters in a row, that is without a mark.
PLAIN = '''const [skipped, found] = [arguments[0], new Set()], named = ['aria-label', 'aria-valuetext', 'title', 'placeholder', 'alt', 'data-l'];
const note = text => { if (/[a-z]{2}/.test(text)) found.add(text.trim().replace(/\\s+/g, ' ')); };
note(document.title);
const walker = document.createTreeWalker(document.body, NodeFilter.SHOW_ALL);
for (let node = walker.nextNode(); node !== null; node = walker.nextNode()) {
    const it = node.nodeType === Node.TEXT_NODE ? node.parentElement : node;
    if (it.nodeType !== Node.ELEMENT_NODE || it.closest(skipped)) continue;
    if (it !== node) note(node.nodeValue);
    else named.forEach(name => note(it.getAttribute(name) || ''));
}
return [...found]'''


def marked(english: str) -> str:
    """Adds a mark to each letter in the texts of a file, but not in LANGUAGE or in names in braces."""
    def with_marks(found: re.Match[str]) -> str:
        return found[0] if found[1] is None else re.sub(r'\{\w+\}|\\(?:u\w{4}|x\w\w|.)|([A-Za-z])', lambda it: it[0] + (MARK if it[1] else ''), found[0], flags=re.DOTALL)

    return re.sub(r'''//[^\n]*|export (?:const LANGUAGE|\{)[^\n]*|(['"`])(?:\\.|(?!\1).)*\1''', with_marks, english, flags=re.DOTALL)


@functools.cache
def in_another_language(page: Path) -> Path:
    """The page in another language, packed from the sources beside this page, or else from this tree."""
    web, room = page.with_name('web'), common.folder('language')
    shutil.copytree(web if web.is_dir() else common.TOP / 'web', room / 'web')
    for name in ('english.ts', 'player/english.ts'):
        english = room / 'web/page/texts' / name
        english.write_text(marked(english.read_text('utf-8')), 'utf-8')
    made, most = room / 'cdpatch.html', pack.LARGEST_PAGE
    pack.LARGEST_PAGE = 2 * most
    made.write_text(pack.packed_interface('page', strip.stripped(room / 'web', room / 'js'), common.TOP / 'library/cdpatch.wasm', Path('/dev/null')), 'utf-8')
    pack.LARGEST_PAGE = most
    return made


def without_known(text: str) -> str:
    return '' if text in WHOLE else re.sub('|'.join([*WITHIN, *CORE.values()]), '', text)


class Language(States):
    stub = PICKER + AS_ENGLISH

    def setUp(self) -> None:
        self.addCleanup(setattr, common, 'PAGE', common.PAGE)
        common.PAGE = in_another_language(common.PAGE)
        super().setUp()

    def judge(self, name: str) -> None:
        all_states()[name](self)
        texts: list[str] = self.browser.run(PLAIN, SKIPPED)
        self.assertEqual([text for text in texts if re.search(f'[a-z]{{2}}(?!{MARK})', without_known(text))], [], 'stands in code')


each_state(Language, Language.judge, 'player')
