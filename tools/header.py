"""Converts include/cdpatch.h for those that repeat it: `header.py numbers`, `header.py pages`, and `header.py check`. A DIRECTORY as the next
argument names another tree.

`numbers` writes web/core/module/numbers.ts and python/cdpatch/_numbers.py if they change. They have all enumerators without `CDPATCH_`,
those of a named enum as its members without the prefix that they share, and the sizes of structs and the places of their fields on x86-64,
which are also those in the modules.

`pages` updates the man pages, and `check` prints which of them differ. In a page a part is between marks, such as `made: declarations` and
`end of declarations`, which has the defines, enums, and structs of the header. `made: prototypes` has its calls, `made: calls` their
comments, and `made: rules` the header's own comment without its first paragraph. Between `made: LAST_BASE` and `end of LAST_BASE` each
number is CDPATCH_LAST_BASE."""

import os
import re
import sys
import textwrap
from pathlib import Path
from typing import NamedTuple

TOP = Path(__file__).resolve().parent.parent
MADE = 'made by tools/header.py'
SIZES = {'void *': 8, 'bool': 1, 'uint8_t': 1, 'uint16_t': 2, 'uint32_t': 4, 'uint64_t': 8, 'size_t': 8}
LONGEST_LINE = 140
PAGES = ('man/cdpatch.1', 'man/libcdpatch.3')
LONGEST_PAGE_LINE = 76


class Field(NamedTuple):
    name: str
    kind: str
    items: int  # 0 if it is not an array
    at: int


class Header(NamedTuple):
    enums: dict[str, dict[str, int]]
    numbers: dict[str, int]  # of enums without a name
    structs: dict[str, tuple[list[Field], int]]  # fields, and the size


def enumerators(body: str) -> dict[str, int]:
    made, last = {}, -1
    for name, given in re.findall(r'CDPATCH_(\w+)(?: = (\d+))?', body):
        made[name] = last = int(given) if given else last + 1
    return made


def unprefixed(members: dict[str, int]) -> dict[str, int]:
    """The enumerators of an enum without the words that all begin with."""
    shared = len(os.path.commonprefix([name.rpartition('_')[0] + '_' for name in members]).rpartition('_')[0]) + 1
    return {name[shared:]: number for name, number in members.items()}


def laid_out(body: str, numbers: dict[str, int]) -> tuple[list[Field], int]:
    """The fields of a struct, each at a multiple of its size, and the size of the struct, a multiple of its largest field."""
    fields, end, largest = [], 0, 1
    for kind, pointer, name, count in re.findall(r'(\w+) (\*?)(\w+)(?:\[(\w+)\])?;', body):
        kind = 'void *' if pointer else kind
        size = SIZES[kind]
        end, largest = -(-end // size) * size, max(largest, size)
        items = int(count) if count.isdigit() else numbers[count.replace('CDPATCH_', '')] if count else 0
        fields.append(Field(name, kind, items, end))
        end += size * (items or 1)
    return fields, -(-end // largest) * largest


def read(header: str) -> Header:
    code = re.sub(r'/\*.*?\*/', '', header, flags=re.S)
    enums = {name: unprefixed(enumerators(body)) for name, body in re.findall(r'^enum cdpatch_(\w+) \{(.*?)\};', code, re.S | re.M)}
    numbers = {name: number for body in re.findall(r'^enum \{(.*?)\};', code, re.S | re.M) for name, number in enumerators(body).items()}
    structs = {name: laid_out(body, numbers) for name, body in re.findall(r'^struct cdpatch_(\w+) \{(.*?)\};', code, re.S | re.M)}
    if not (enums and numbers and structs):
        sys.exit('header.py: the header has no enum or no struct of the form that it looks for')
    return Header(enums, numbers, structs)


def wrapped(begin: str, items: list[str], end: str) -> str:
    """Items separated by commas after a beginning, in lines of at most LONGEST_LINE characters."""
    indent = ' ' * (len(begin) - len(begin.lstrip()) + 4)
    lines = [begin + items[0]]
    for item in items[1:]:
        lines[-1] += ','
        if len(lines[-1]) + len(item) + len(end) + 1 > LONGEST_LINE:
            lines.append(indent + item)
        else:
            lines[-1] += f' {item}'
    return '\n'.join(lines) + end


def frozen(name: str, members: dict[str, int]) -> str:
    return wrapped(f'export const {name} = Object.freeze({{ ', [f'{each}: {number}' for each, number in members.items()], ' });')


def javascript(header: Header) -> str:
    lines = [f'// The numbers of cdpatch.h, {MADE}.', '']
    lines += [f'export const {name} = {number};' for name, number in header.numbers.items()]
    lines += ['', '// The enums.']
    lines += [frozen(name.upper(), members) for name, members in header.enums.items()]
    lines += ['', '// The size of each struct and the offsets of its fields, in bytes.']
    for name, (fields, size) in header.structs.items():
        lines.append(frozen(f'{name.upper()}_STRUCT', {'BYTES': size, **{field.name.upper(): field.at for field in fields}}))
    return '\n'.join(lines) + '\n'


def python_type(field: Field) -> str:
    kind = f'ctypes.c_{field.kind.removesuffix("_t")}'
    kind = {'size_t': 'ctypes.c_size_t', 'void *': 'ctypes.c_void_p'}.get(field.kind, kind)
    return f'{kind} * {field.items}' if field.items else kind


def camel(name: str) -> str:
    return ''.join(word.capitalize() for word in name.split('_'))


def python(header: Header) -> str:
    lines = [f'"""The numbers of cdpatch.h, {MADE}."""', '', 'import ctypes', 'from enum import IntEnum', '']
    lines += [f'{name} = {number}' for name, number in header.numbers.items()]
    for name, members in header.enums.items():
        lines += ['', '', f'class {camel(name)}(IntEnum):', f'    """`enum cdpatch_{name}`."""']
        lines += [f'    {each} = {number}' for each, number in members.items()]
    for name, (fields, _) in header.structs.items():
        lines += ['', '', f'class {camel(name)}Struct(ctypes.Structure):', f'    """`struct cdpatch_{name}`."""']
        lines.append(wrapped('    _fields_ = [', [f"('{field.name}', {python_type(field)})" for field in fields], ']'))
    return '\n'.join(lines) + '\n'


def write(path: Path, text: str) -> None:
    """Writes a file in one step, and only if it changes: others may be reading it."""
    if path.exists() and path.read_text(encoding='utf-8') == text:
        return
    path.parent.mkdir(parents=True, exist_ok=True)
    new = path.with_name(f'.{path.name}.{os.getpid()}')
    new.write_text(text, encoding='utf-8')
    new.replace(path)


# ---- the man pages

def declarations(code: str) -> str:
    found = re.findall(r'^(?:#define CDPATCH_(?!H$|AT_LEAST|NODISCARD).*?$|(?:enum|struct) [^;{]*\{.*?\};)', code, re.S | re.M)
    # A line may break only between two enumerators or two fields.
    whole = [re.sub('(?<![,;{]) ', '\0', ' '.join(each.split())) for each in found]
    lines = [line for each in whole for line in textwrap.wrap(each, LONGEST_PAGE_LINE, subsequent_indent='    ')]
    return '\n'.join(lines).replace('\0', ' ') + '\n'


def prototypes(code: str) -> str:
    """The prototypes of the calls. A pointer to a single object has no size here."""
    code = re.sub(r'(\w+)\[CDPATCH_AT_LEAST 1\]', r'*\1', code).replace('CDPATCH_AT_LEAST ', '')
    found = re.findall(r'^([a-z][\w ]*) (cdpatch_\w+)\(([^;]*)\);', code, re.M)
    words = [(answer, name, ' '.join(f'"{" ".join(each.split())}"' for each in given.split(','))) for answer, name, given in found]
    return ''.join(f'.Ft {answer}\n.Fn {name} {given}\n' for answer, name, given in words)


def marked(word: str) -> str:
    """A word of a comment as a line of mdoc if it is a name; '' if it is plain text."""
    found = re.fullmatch(r'(\(?)(?:(cdpatch_\w+)|(\w+)\((\d)\)|`([^`]+)`)([.,:;)]*)', word)
    if not found:
        return ''
    before, call, page, section, quoted, after = found.groups()
    if call:
        name = f'Fn {call}'
    elif page:
        name = f'Xr {page} {section}'
    elif quoted.startswith(('enum ', 'struct ')):
        name = f'Vt {quoted}'
    else:
        name = f'Fa {quoted}' if re.fullmatch(r'\*?\w+', quoted) else f'Ql {quoted}'
    return ' '.join(['.' + ('Pq ' if before and after.startswith(')') else '') + name, *after.removeprefix(')' if before else '')])


def prose(text: str) -> str:
    """A paragraph of a comment in mdoc: each name on its own line, and each sentence on a new line."""
    lines, plain = [], ''
    for word in re.findall(r'\(?`[^`]+`\S*|\S+', text):
        name = marked(word)
        if name or re.search(r'[.:]$', plain):
            lines += textwrap.wrap(plain, LONGEST_PAGE_LINE)
            plain = ''
        if name:
            lines.append(name)
        else:
            plain = f'{plain} {word}'.strip()
    lines += textwrap.wrap(plain, LONGEST_PAGE_LINE)
    return ''.join(f'{line}\n' for line in lines)


def comment_text(comment: str) -> str:
    """A comment of the header in mdoc, with its paragraphs and its examples."""
    parts = []
    for block in re.split(r'\n\s*\n', re.sub(r'(?m)^ ?\* ?', '', comment)):
        if re.match(r' {4}', block):
            code = textwrap.dedent(block).replace('\\', '\\e')
            parts.append(f'.Bd -literal -offset 2n\n{code}\n.Ed\n')
        else:
            parts.append(prose(block))
    return '.Pp\n'.join(parts).replace('.Pp\n.Bd', '.Bd')


def calls(header: str) -> str:
    """The calls with their comments, grouped as in the header."""
    pages: list[str] = []
    for group in re.split(r'(?m)^ \* @name |^/\*\* @name ', header[header.index('/** Returns the version of the library'):]):
        title, _, rest = ('Version and results', '', group) if not pages else group.partition('\n')
        about, _, listed = rest.partition(' * @{ */') if pages else ('', '', rest)
        found = re.findall(r'/\*\* ((?:(?!\*/).)*?) ?\*/\n(?:CDPATCH_NODISCARD\n)?([a-z](?:[^;/]*?\b(cdpatch_\w+)\([^;]*\);))', listed, re.S)
        items = ''.join(f'.It Fn {name}\n{comment_text(comment)}' for comment, _, name in found)
        pages.append(f'.Ss {title}\n{comment_text(about.strip(chr(10)))}.Bl -tag -width Ds\n{items}.El\n')
    return ''.join(pages)


def rules(header: str) -> str:
    """The header's rules for all calls."""
    return comment_text(header[header.index('\n *\n') + 4:header.index('\n *\n * @file')])


def remade(page: str, header: str) -> str:
    """A page with its parts regenerated; parts of other tools do not change."""
    numbers = read(header).numbers
    code = re.sub(r'/\*.*?\*/', '', header, flags=re.S)
    parts = {'declarations': declarations(code), 'prototypes': prototypes(code), 'calls': calls(header),
             'rules': rules(header)}

    def make(found: re.Match[str]) -> str:
        begin, name, part, end = found.groups()
        if name in numbers:
            part = re.sub(r'\d+', str(numbers[name]), part)
        return begin + parts.get(name, part) + end

    return re.sub(r'(?ms)(^\.\\" made: (\w+)\n)(.*?)(^\.\\" end of \2$)', make, page)


def main(job: str, tree: str = str(TOP)) -> int:
    header = Path(tree, 'include/cdpatch.h').read_text(encoding='utf-8')
    if job == 'numbers':
        found = read(header)
        write(Path(tree, 'web/core/module/numbers.ts'), javascript(found))
        write(Path(tree, 'python/cdpatch/_numbers.py'), python(found))
        return 0
    status = 0
    for name in PAGES:
        page = Path(tree, name)
        text = page.read_text(encoding='utf-8')
        made = remade(text, header)
        if job == 'pages':
            write(page, made)
        elif made != text:
            print(f'{name} is not as tools/header.py makes it of include/cdpatch.h')
            status = 1
    return status


if __name__ == '__main__':
    sys.exit(main(*sys.argv[1:]))
