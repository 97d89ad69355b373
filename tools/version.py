"""`version.py` puts the version of the first heading of CHANGELOG.md into every file that repeats it, in place of the version that cdpatch.h
has. debian/changelog gets its entry by hand."""

import re
from pathlib import Path

TOP = Path(__file__).resolve().parents[1]
FILES = ('README.md', 'crates/cd_args/src/help.rt', 'crates/cd_c/src/version.rt', 'include/cdpatch.h',
         'man/cdpatch.1', 'man/cdscript.1', 'man/libcdpatch.3', 'python/cdpatch/__init__.py', 'web/npm/cdpatch.ts')
# What is before the version in these files. A version after other words, such as 'a line of version 1.3.0', stays.
BEFORE = ('cdpatch ', 'version is ', 'CDPATCH_VERSION "', "__version__ = '", "for example '", 'CDPATCH_VERSION_NUMBER ', 'VERSION: u32 = ',
          'result ≡ ')


def first(pattern: str, file: str) -> str:
    found = re.search(pattern, (TOP / file).read_text(encoding='utf-8'), re.MULTILINE)
    assert found, f'{file} has no version'
    return found[1]


def number(version: str) -> str:
    """The version as one number: 10000 times its first part, plus 100 times its second, plus its third."""
    major, minor, patch = map(int, version.split('.'))
    return str(10000 * major + 100 * minor + patch)


def main() -> None:
    old, new = first(r'CDPATCH_VERSION "([\d.]+)"', 'include/cdpatch.h'), first(r'^## (\d+\.\d+\.\d+) ', 'CHANGELOG.md')
    for name in FILES:
        text = (TOP / name).read_text(encoding='utf-8')
        for before in BEFORE:
            for was, now in ((old, new), (number(old), number(new))):
                text = text.replace(before + was, before + now)
        (TOP / name).write_text(text, encoding='utf-8')


if __name__ == '__main__':
    main()
