#!/usr/bin/env python3
"""Lists phrases that are rarely good English in the texts that people read: `python3 tools/english.py [FILE..]`, by default in the pages,
drawings, help, the comments of the header and the Makefile, and the texts of cdscript and of the page. It prints each place, and then the
number of places for each pattern. Blocks of code are not searched. Not every place is wrong: read the list before a release."""

import re
import sys
from collections import Counter
from collections.abc import Iterator
from pathlib import Path

TOP = Path(__file__).resolve().parent.parent
KINDS = {
    'pages': ('*.md', 'docs/*.md', 'docs/*.svg', 'man/*', 'bench/*.md', 'tests/README.md', 'tests/cases/README.md', 'web/npm/README.md',
              'tools/README.*', 'debian/control', 'debian/copyright', 'include/cdpatch.h'),
    'help and messages': ('Makefile', 'crates/cd_args/src/help.rt', 'web/command/*.ts', 'web/sentences/*.ts'),
    'the page': ('web/page/*.ts', 'web/page/*/*.ts', 'web/page/texts/player/english.ts'),
}
PATTERNS = {
    'stand, for be or occur': r'\b(?:stands?|stood|standing)\b',
    'make X of Y, for from': r'\bmade of\b|\b(?:makes?|making) (?:an?|the) [\w ]{1,40}? of (?:an?|the|it|this|two)\b',
    'is no X, for is not a': r'(?<!here )\b(?:is|are|was|were|be) no\b(?! (?:more|longer)\b)',
    'What .. as a subject': r'(?m)(?:^|(?<=[.:;|] )|(?<=\f))[ *-]*(?-i:What) (?!is [\w ]+\?)[^.?!|\n\f]*\.(?=\s|$)',
    'is named, is said': r'\b(?:is|are|be|was|were) (?:also |then )?(?:named|said|told)\b',
    'as, for such as': r'(?:, |\(|; )as (?:[`“\'‘]|(?!\w+ed\b)\w+[),.;])',
    'take': r'\b(?:takes?|taking|taken|took)\b',
    'go on, anew, and so on': r'\b(?:go(?:es|ing)? on|went on|anew|all the same|beside|meanwhile|so many)\b',
    'such ones, the other one': r'\bsuch ones?\b|\bthe other ones?\b|\banother one\b|\b(?:is|are) (?:others|another)\b(?! \w)',
    "can't, can not": r"\bcan(?:['’]t| not)\b",
}
# Parts that are not prose, by the end of a file's name.
CODE = {'.svg': r'(?s)<style.*?</style>|<[^>]*>', '.h': r'(?m)^(?!/\*| \*).*|^[/ ]\*', 'Makefile': r'(?m)^[^#\n]+|#+@?'}
STRINGS = re.compile(r"""'(?:[^'\\\n]|\\.)*'|"(?:[^"\\]|\\.)*"|`(?:[^`\\]|\\.)*`""")
# Macros of mdoc that continue a sentence: the name after them is a word of it.
WORDS = r'Ql|Ar|Cm|Fl|Pa|Fa|Fn|Ic|Xr|Va|Vt|Dv|Li|Em|Sy|Op|Nm|Sx|Pq'


def blank(found: re.Match[str]) -> str:
    """Spaces and line feeds in place of a text, so that places do not change."""
    return re.sub(r'[^\n]', ' ', found.group())


def prose(path: Path) -> str:
    """The prose of a file at its original places, with each paragraph in one line."""
    text = path.read_text(encoding='utf-8')
    if path.suffix in ('.ts', '.rt'):
        text = re.sub(r'(?m)^\s*(?://|/?\*).*', blank, text)
        characters = [' '] * len(text)
        for found in STRINGS.finditer(text):
            characters[found.start():found.end()] = f'\f{found.group()[1:-1]}\f'
        return ''.join(characters)
    for end, code in CODE.items():
        if path.name.endswith(end):
            return re.sub(code, blank, text)
    text = re.sub(r'(?ms)^```.*?^```|^\.Bd -literal.*?^\.Ed|^\.\\".*?$|^ {4}\S.*?$', blank, text)
    text = re.sub(rf'\n\.(?:{WORDS})\b', lambda found: ' '.ljust(len(found.group()), '`'), text)
    return re.sub(r'(?<=\S)\n(?=[^\s\n.|#-])', ' ', text)


def places(path: Path) -> Iterator[tuple[int, str, str]]:
    """For each place that a pattern finds: its line, the pattern, and the words around it."""
    text, original = prose(path), path.read_text(encoding='utf-8')
    for pattern, form in PATTERNS.items():
        for found in re.finditer(form, text, re.IGNORECASE):
            around = text[max(0, found.start() - 30):found.end() + 40]
            yield original.count('\n', 0, found.start()) + 1, pattern, ' '.join(around.split())


def main() -> None:
    given = [Path(word).resolve() for word in sys.argv[1:]]
    counts: dict[str, Counter[str]] = {}
    for kind, globs in KINDS.items() if not given else [('files', ())]:
        counts[kind] = Counter()
        for path in given or sorted({path for each in globs for path in TOP.glob(each)}):
            for line, pattern, around in sorted(places(path)):
                print(f'{path.relative_to(TOP)}:{line}: {pattern}: {around}')
                counts[kind][pattern] += 1
    print('', '| Pattern | ' + ' | '.join(counts) + ' |', '|---|' + '---|' * len(counts), sep='\n')
    for pattern in PATTERNS:
        print(f'| {pattern} | ' + ' | '.join(str(each[pattern]) for each in counts.values()) + ' |')


if __name__ == '__main__':
    main()
