#!/usr/bin/env python3
"""Copies the sentences on what is proved of each part from the table in docs/TRUST.md to the files that repeat them: `trust.py pages`
updates these files, and `trust.py check` prints which of them differ. A DIRECTORY as the next argument names another tree.

In a file a sentence is between two lines that are comments there, such as `<!-- trust: the page -->` and `<!-- end of trust -->`."""

import re
import sys
import textwrap
from pathlib import Path

TOP = Path(__file__).resolve().parent.parent
FILES = ('README.md', 'tools/README.tarball.md', 'web/npm/README.md', 'docs/MODULES.md', 'man/cdpatch.1', 'man/cdscript.1', 'man/libcdpatch.3',
         'debian/control', 'web/page/texts/english.ts')
# Here a comment would be read too, so these are only compared.
COMPARED = {'python/cdpatch/__init__.py': 'the Python package', 'include/cdpatch.h': 'the library', 'tools/README.windows.txt': 'Windows'}
SENTENCE = re.compile(r'(?ms)^(( *)\W*trust: ([\w ]+)\b.*?\n)(.*?)(^\W*end of trust)')


def formatted(sentence: str, file: str, old: str, indent: str) -> str:
    """A sentence as the lines of a file, in place of old ones, with the indent of the mark before them."""
    plain = sentence.replace('`', '')
    if file.endswith('.ts'):
        name = old.partition(' =')[0]
        lines = textwrap.wrap(plain, 120, drop_whitespace=False)
        return f'{name} =\n    ' + ' +\n    '.join(f"'{line}'" for line in lines) + ';\n'
    if file.endswith('control'):
        return textwrap.fill(plain, 78, initial_indent=' ', subsequent_indent=' ') + '\n'
    if file.endswith('.md'):
        return textwrap.fill(sentence, 100 if 'tarball' in file else 140, initial_indent=indent, subsequent_indent=indent,
                             break_on_hyphens=False) + '\n'
    return textwrap.fill(plain, 76, break_on_hyphens=False) + '\n'


def main(job: str, tree: str = str(TOP)) -> int:
    rows = re.findall(r'(?m)^\| ([\w ]+) \| (.+\.) \|$', Path(tree, 'docs/TRUST.md').read_text(encoding='utf-8'))
    sentences: dict[str, str] = dict(rows)
    wrong = []
    for file in FILES:
        path = Path(tree, file)
        text = path.read_text(encoding='utf-8')
        made, count = SENTENCE.subn(lambda found: found[1] + formatted(sentences[found[3]], file, found[4], found[2]) + found[5], text)
        wrong += [file] if made != text or count == 0 else []
        if job == 'pages':
            path.write_text(made, encoding='utf-8')
    for file, part in COMPARED.items():
        text = ' '.join(re.sub(r'(?m)^ \* ', '', Path(tree, file).read_text(encoding='utf-8')).split())
        wrong += [] if sentences[part].replace('`', '') in text else [file]
    if job == 'check':
        print(''.join(f'{file} does not have a sentence of docs/TRUST.md\n' for file in wrong), end='')
    return int(job == 'check' and wrong != [])


if __name__ == '__main__':
    sys.exit(main(*sys.argv[1:]))
