#!/usr/bin/env python3
"""Prints facts about the sources as Markdown: `python3 tools/pages.py map` prints the subject of each file, `contracts` the promises of each
crate, and `audit` what to read in order to know what is promised, with figures.

The subject of a file is the first sentence of its first comment; a definition is explained by the comment above it, and a call by the first
sentence of its rustdoc. A file, a definition, or a call without this is refused.
"""

import re
import signal
import sys
from collections.abc import Callable, Iterable, Iterator, Sequence
from pathlib import Path

import contracts as sources
from contracts import TOP, crates, code_of

# The headline of `apply` depends on the definitions in its contract, and on those of the streams that it uses. The whole theorem is the
# contract of the program over files in memory.
HEADLINE = ('crates/cd_image/src/applying.rt', 'crates/cd_stream/src/source.rt', 'crates/cd_stream/src/sink.rt')
THEOREM = ('crates/cd_memory/src/run.rt',)
# The contracts of libcdpatch are those of its exports.
LIBRARY = tuple(str(path.relative_to(TOP)) for path in sorted(TOP.glob('crates/cd_c*/src/*.rt')) if 'extern "C" fn' in path.read_text(encoding='utf-8'))

# The marks of a file's first comment: at each line, or at both ends. Files of other types have no row.
LINES = {'.rt': '//[/!]', '.antt': '--', '.js': '//', '.ts': '//', '.mjs': '//', '.rs': '//!', '.sh': '#', '': '#'}
C_COMMENT = r'/\*', r'\*/'
ENDS = {'.py': ('"""', '"""'), '.c': C_COMMENT, '.h': C_COMMENT, '.css': C_COMMENT, '.map': C_COMMENT}

# Directories without a table of files: built files, data, and the crates, whose files have their own tables.
NO_TABLE = {'crates', 'docs', 'man', 'completions', 'library', 'node_modules', 'out', 'wrong', 'wrong_programs', '__pycache__', 'dist'}


def sentence(text: str) -> str:
    """The first sentence of a text's first paragraph as a table cell, in one line."""
    text = ' '.join(re.split(r'\n *\n', text.strip())[0].split())
    end = re.search(r'[.?!](?= +[A-Za-z`([]|$)', text)
    return cell(text[:end.start()] if end else text)


def cell(text: str) -> str:
    """A text as a table cell: in one line, without rustdoc links."""
    text = re.sub(r'\[(`[^`\]]*`)\]', r'\1', ' '.join(text.split()))
    return text.replace('|', r'\|')


def said(what: str, words: str) -> str:
    """A description, which must exist."""
    return words or sys.exit(f'{what} does not say what it is')


def about(path: Path) -> str:
    """The subject of a file according to its first comment."""
    text = path.read_text(encoding='utf-8')
    if path.suffix in ENDS:
        begin, end = ENDS[path.suffix]
        found = re.search(f'{begin}(.*?){end}', text, re.DOTALL)
        words = re.sub(r'(?m)^ *\*', '', found.group(1)) if found else ''
    elif path.suffix == '.antt':
        # A comment directly above a definition belongs to the definition.
        found = re.match(r'(?:--.*\n)+(?=use |$|\n)', text)
        words = re.sub(r'(?m)^--', '', found.group()) if found else ''
    else:
        mark = LINES[path.suffix]
        found = re.search(rf'(?m)^(?:{mark}(?!!).*\n)+', text)
        words = re.sub(rf'(?m)^{mark}', '', found.group()) if found else ''
    return sentence(said(str(path.relative_to(TOP)), words))


def has_comment(path: Path) -> bool:
    if not path.is_file() or path.suffix not in (*LINES, *ENDS):
        return False
    return path.suffix != '' or path.read_bytes().startswith(b'#!')


def lines_of(path: Path) -> int:
    return path.read_text(encoding='utf-8').count('\n')


def table(heads: Sequence[str], rows: Iterable[Sequence[str]]) -> list[str]:
    return ['', f'| {" | ".join(heads)} |', f'|{"---|" * len(heads)}', *(f'| {" | ".join(row)} |' for row in rows)]


def head_of(crate: str) -> Path:
    source = TOP / 'crates' / crate / 'src'
    return source / 'lib.rt' if (source / 'lib.rt').exists() else source / 'main.rt'


# ---- the map

def uses() -> list[str]:
    """The crates that the code of each crate uses."""
    rows = []
    for crate in crates():
        code = ''.join(file.read_text(encoding='utf-8') for file in code_of(crate))
        used = sorted(set(re.findall(r'(?m)^ *(?:pub )?use (cd_[a-z_]+)::', code)))
        rows.append((crate, ', '.join(used) or 'none'))
    return table(('Crate', 'Crates that its code uses'), rows)


def files_of_crate(crate: str) -> list[str]:
    folder = TOP / 'crates' / crate
    files = code_of(crate) + sorted((folder / 'specs').glob('*.antt'))
    return table(('File', 'What it has'), [(f'`{file.relative_to(folder)}`', about(file)) for file in files
                                           if file.name not in ('lib.rt', 'main.rt', 'Lib.antt')])


def directories() -> Iterator[Path]:
    """The directories of the sources other than the crates."""
    for folder in sorted(path for path in TOP.rglob('*') if path.is_dir()):
        parts = folder.relative_to(TOP).parts
        if not NO_TABLE.intersection(parts) and not any(part.startswith('.') for part in parts):
            yield folder


def map_page() -> list[str]:
    """The subject of each file of the sources."""
    lines = ['# What each file has', *uses()]
    for crate in crates():
        lines += ['', f'## {crate}', '', about(head_of(crate)), *files_of_crate(crate)]
    for folder in directories():
        rows = [(f'`{file.name}`', about(file)) for file in sorted(folder.iterdir()) if has_comment(file)]
        if rows:
            lines += ['', f'## {folder.relative_to(TOP)}', *table(('File', 'What it has'), rows)]
    return lines


# ---- the contracts

def calls_table(crate: str) -> list[str]:
    """The public calls of a crate with the names of their clauses."""
    rows = []
    for call in sources.calls_of(crate):
        if not call.clauses:
            continue
        clauses = ', '.join(f'`{name}`' if name else 'the result' for name, _ in call.clauses)
        rows.append((f'`{call.name}`', sentence(said(f'{crate}: {call.name}', call.doc)), clauses))
    return table(('Call', 'What it does', 'Clauses'), rows) if rows else []


def definitions_table(crate: str, book: sources.Book) -> list[str]:
    """The definitions of a crate on which public contracts depend, with the calls that cite them, and the names of all others."""
    promised, steps = [], []
    for definition in book.of_crate(crate):
        comment = said(f'crates/{crate}/specs/{definition.module}.antt: {definition.name}', definition.comment)
        if definition.key in book.promised:
            cited_by = ', '.join(f'`{name}`' for name in book.cited_by.get(definition.key, []))
            promised.append((f'`{definition.name}`', f'`{definition.module}`', cell(comment), cited_by))
        else:
            steps.append(f'`{definition.name}`')
    lines = table(('Definition', 'Module', 'What it says', 'Cited by'), promised) if promised else []
    return lines + (['', f'On these no public contract stands: {", ".join(steps)}.'] if steps else [])


def contracts_page() -> list[str]:
    """The promises of each crate: its calls with their clauses, and the definitions that these cite."""
    book = sources.Book()
    lines = ['# What each crate promises']
    for crate in crates():
        body = calls_table(crate) + definitions_table(crate, book)
        if body and not crate.endswith('_tests'):
            lines += ['', f'## {crate}', '', sources.first_paragraph(head_of(crate)), *body]
    return lines


# ---- what to read

def visit(path: Path, seen: set[Path], order: list[Path], types: set[str]) -> None:
    """Appends the definition files that a file uses, each after those that it uses itself."""
    if path in seen:
        return
    seen.add(path)
    uses = re.findall(r'(?m)^ *(?:ghost )?use Rattle\.(cd_[a-z_]+)\.specs\.([A-Za-z_.]+)\.\{', path.read_text(encoding='utf-8'))
    for crate, module in uses:
        first, *rest = module.split('.')
        if first == 'declared':
            types.add(f'crates/{crate}/src/{rest[0]}.rt')
        else:
            visit(TOP / f'crates/{crate}/specs/{first}.antt', seen, order, types)
    if path.suffix == '.antt':
        order.append(path)


def reading() -> tuple[list[list[Path]], list[str]]:
    """The files to read for the headline, those for the whole theorem and for libcdpatch that the earlier parts lack, and the files of types
    that they name."""
    seen: set[Path] = set()
    types: set[str] = set()
    parts = []
    for roots in HEADLINE, THEOREM, LIBRARY:
        order: list[Path] = []
        for root in roots:
            visit(TOP / root, seen, order, types)
        parts.append(order)
    return parts, sorted(types)


def reading_table(order: Sequence[Path]) -> list[str]:
    rows = [(f'`{file.relative_to(TOP)}`', str(lines_of(file)), about(file)) for file in order]
    return table(('File', 'Lines', 'What it has'), rows) + ['', f'{sum(map(lines_of, order))} lines in {len(order)} files.']


def wrong_definitions() -> int:
    """The number of wrong definitions, each of which begins with a line `[NAME]`."""
    return len(re.findall(r'(?m)^\[', (TOP / 'tests/wrong/definitions/definitions.wrong').read_text(encoding='utf-8')))


def figures() -> list[str]:
    counts = [str(sum(map(lines_of, order))) for order in reading()[0]]
    return table(('What', 'How many'), [
        ('crates', str(len(crates()))),
        ('wrong bodies of functions that the prover refuses (`crates/*/must-fail`)', str(len(list(TOP.glob('crates/*/must-fail/*.edit'))))),
        ('wrong definitions that a worked case refuses (`tests/wrong/definitions`)', str(wrong_definitions())),
        ('lines of definitions to read for the headline of `apply`', counts[0]),
        ('more lines for the whole theorem', counts[1]),
        ('more lines for libcdpatch', counts[2]),
    ])


def audit_page() -> list[str]:
    """The files to read in order to know what is promised, each after those that it uses."""
    (headline, rest, library), types = reading()
    return ['# What to read', '', 'docs/TRUST.md says what the theorem is. `make contracts` prints what each crate promises.', *figures(),
            '', '## For the headline of `apply`', '', f'Its contract is in `{HEADLINE[0]}`.', *reading_table(headline),
            '', '## For the whole theorem', '', f'It is the contract of `run_on_files` in `{THEOREM[0]}`, and adds these.',
            *reading_table(rest),
            '', '## For libcdpatch', '', 'The contracts of its calls, and these definitions besides.', *reading_table(library),
            '', '## Types and constants of the code that these name', '', *(f'- `{name}`' for name in types), '',
            "They also use the terms of the toolchain's `std` for lists, bits, numbers and text, and those of its `clap` for the parser."]


PAGES: dict[str, Callable[[], list[str]]] = {'map': map_page, 'contracts': contracts_page, 'audit': audit_page}


def main() -> int:
    if len(sys.argv) != 2 or sys.argv[1] not in PAGES:
        sys.exit(f'usage: python3 tools/pages.py {"|".join(PAGES)}')
    # A reader of the output may end early, as `head` does.
    signal.signal(signal.SIGPIPE, signal.SIG_DFL)
    print('\n'.join(PAGES[sys.argv[1]]()))
    return 0


if __name__ == '__main__':
    sys.exit(main())
