#!/usr/bin/env python3
"""Prints how large cdpatch is, beside version 2.0.0: lines of text files, files, words of the pages, and bytes of what was built."""

import re
import subprocess
from collections import Counter

from contracts import TOP
from pages import lines_of, reading

# The table. The numbers are those of 2.0.0, as of 30 November 2026.
BEFORE = {'lines to read for the headline of `apply`': 1662, 'more for the whole theorem': 1807, 'more for libcdpatch': 1610,
          'crates: definitions': 6540, 'crates: contracts and code': 16556, 'crates: proofs': 29937, 'crates: tests': 4891,
          'crates: wrong bodies': 2593, 'web: code': 25936, 'web: comments': 15060, 'web: imports': 1920, 'web: blank lines': 4132,
          'web: all but .js and .ts': 1079, 'tests': 46484, 'tools': 3294, 'docs': 6007, 'all other lines': 3873, 'all lines': 168302,
          'files': 1953, 'files of .js and .ts in web': 410, 'words of docs': 50091,
          'bytes of cdpatch.html': 438097, 'bytes of cdscript': 529524}
# The kind of a file is that of the first pattern that matches its path.
KINDS = {'crates: tests': r'crates/\w+_tests/', 'crates: definitions': r'crates/\w+/specs/',
         'crates: contracts and code': r'crates/\w+/src/', 'crates: proofs': r'crates/\w+/proofs/',
         'crates: wrong bodies': r'crates/\w+/must-fail/',
         'web: code': r'web/.*\.[jt]s$', 'web: all but .js and .ts': r'web/', 'tests': r'tests/', 'tools': r'tools/',
         'docs': r'(docs|man)/|[A-Z]+\.md$', 'all other lines': r''}
# What is not code in .js and .ts. Each pattern is for what those before it leave.
NOT_CODE = {'web: comments': r'(?m)^[ \t]*(//.*|/\*((?!\*/)[\s\S])*\*/[ \t]*)\n', 'web: imports': r'(?m)^(import\s|export [*{])[^;]*;.*\n',
            'web: blank lines': r'(?m)^[ \t]*\n'}
DOCS = 'README.md', 'CONTRIBUTING.md', 'CHANGELOG.md', 'SECURITY.md', 'docs/*.md', 'man/*', 'tests/README.md', 'web/npm/README.md'


def git(*words: str) -> list[str]:
    return subprocess.run(['git', '-C', TOP, *words], stdout=subprocess.PIPE, text=True, check=True).stdout.split('\0')[:-1]


def counted() -> Counter[str]:
    """The lines of each kind, in the files that git knows and regards as text."""
    made: Counter[str] = Counter()
    for file in git('grep', '-zIl', ''):
        text = (TOP / file).read_bytes().decode('latin-1')
        made['all lines'] += text.count('\n')
        kind = next(name for name, pattern in KINDS.items() if re.match(pattern, file))
        for name, pattern in NOT_CODE.items() if kind == 'web: code' else ():
            left = re.sub(pattern, '', text)
            made[name] += text.count('\n') - left.count('\n')
            text = left
        made[kind] += text.count('\n')
    return made


def main() -> None:
    headline, theorem, library = (sum(map(lines_of, order)) for order in reading()[0])
    now = {**counted(), 'lines to read for the headline of `apply`': headline, 'more for the whole theorem': theorem, 'more for libcdpatch': library,
           'files': len(git('ls-files', '-z')), 'files of .js and .ts in web': len(git('ls-files', '-z', 'web/*.js', 'web/*.ts')),
           'words of docs': sum(len(file.read_bytes().split()) for pattern in DOCS for file in TOP.glob(pattern)),
           **{f'bytes of {file.name}': file.stat().st_size for name in ('cdpatch.html', 'cdscript') if (file := TOP / name).exists()}}
    print('| | 2.0.0 | now |\n|---|--:|--:|')
    for name, before in BEFORE.items():
        print(f'| {name} | {before:,} | {now[name]:,} |' if name in now else f'| {name} | {before:,} | not built |')


if __name__ == '__main__':
    main()
