"""Reads the calls, contracts, and definitions of the crates from the sources."""

import re
from collections.abc import Iterator
from dataclasses import dataclass, field
from functools import cache
from pathlib import Path

TOP = Path(__file__).resolve().parent.parent

DECLARED = re.compile(r'^ *(?:abbrev pub|unfoldable pub|pub record|pub data) +([A-Za-z_]+)')
FUNCTION = re.compile(r'^( *)(pub )?(?:extern "C" )?(?:const )?fn ([a-z_0-9]+)')
GHOST = re.compile(r'^ +ghost (?:view|invariant|seen|hosting|[a-z]+_gives) ?[=:] \{')
OWNER = re.compile(r'^(?:pub )?(impl|trait)\b(?:<[^>]*>+)? *(.*)')
WORD = re.compile(r'[A-Za-z_]+')

# The place of a definition: its crate, its module, and its name.
Key = tuple[str, str, str]


@dataclass
class Definition:
    key: Key
    comment: str
    text: str

    @property
    def module(self) -> str:
        return self.key[1]

    @property
    def name(self) -> str:
        return self.key[2]


@dataclass
class Call:
    """A public function: its name with that of its type, its rustdoc, its clauses with names and texts, and its conditions."""
    name: str
    doc: str
    clauses: list[tuple[str, str]]
    conditions: list[str]
    file: Path


@dataclass
class Type:
    """The meaning of a public type or trait in contracts: a text, such as that of its view."""
    name: str
    text: str
    file: Path


def crates() -> list[str]:
    """The crates of crates.txt, in order."""
    return re.findall(r'(?m)^([a-z_]+)(?: staticlib)?:', (TOP / 'crates.txt').read_text())


@cache
def static_crates() -> frozenset[str]:
    """The static libraries for C. They re-export nothing: all their public functions are calls."""
    return frozenset(re.findall(r'(?m)^([a-z_]+) staticlib:', (TOP / 'crates.txt').read_text()))


def code_of(crate: str) -> list[Path]:
    """A crate's files of code, without its tests."""
    source = TOP / 'crates' / crate / 'src'
    return [file for file in sorted(source.rglob('*.rt')) if 'tests' not in file.relative_to(source).parts and file.name != 'tests.rt']


def first_paragraph(file: Path) -> str:
    """The first paragraph of a file's first comment, in one line."""
    found = re.search(r'(?m)^(?://[/!] .*\n)+', file.read_text(encoding='utf-8'))
    return ' '.join(re.sub('(?m)^//[/!] ', '', found.group()).split()) if found else ''


def comment_above(lines: list[str], place: int, mark: str) -> str:
    """The comment directly above a line, without its marks."""
    begin = place
    while begin > 0 and re.match(mark, lines[begin - 1]):
        begin -= 1
    return '\n'.join(re.sub(mark + ' ?', '', line) for line in lines[begin:place]).strip()


def definitions_of(crate: str) -> Iterator[Definition]:
    for file in sorted((TOP / 'crates' / crate / 'specs').glob('*.antt')):
        lines = file.read_text(encoding='utf-8').splitlines()
        places = [(place, found.group(1)) for place, line in enumerate(lines) if (found := DECLARED.match(line))]
        for (place, name), (end, _) in zip(places, [*places[1:], (len(lines), '')]):
            yield Definition((crate, file.stem, name), comment_above(lines, place, ' *--'), '\n'.join(lines[place:end]))


def names_in(text: str) -> dict[str, Key]:
    """The definitions that a file imports, by their names in the file."""
    found: dict[str, Key] = {}
    for crate, module, names in re.findall(r'(?m)^ *(?:ghost )?use Rattle\.(cd_[a-z_]+)\.specs\.([A-Za-z_]+)\.\{([^}]*)\}', text):
        for name in WORD.findall(names):
            found[name] = (crate, module, name)
    return found


def signature(lines: list[str], place: int, indent: str) -> list[str]:
    """The lines of a function from its name to its body."""
    taken = []
    for line in lines[place:]:
        if line == f'{indent}{{' or line.startswith(f'{indent}{{}}'):
            break
        taken.append(line)
        if line.endswith(';') or (line.endswith('{') and len(taken) == 1):
            break
    return taken


def clauses_in(taken: list[str], wanted: str) -> list[tuple[str, str]]:
    """The names and texts of a function's `requires` or `ensures` clauses."""
    text = '\n'.join(line for line in taken if not line.lstrip().startswith('//'))
    parts = re.split(r'(?m)^ +(requires|ensures) (?:([a-z_0-9]+) )?(?=\{)', text)
    return [(name or '', body) for kind, name, body in zip(parts[1::3], parts[2::3], parts[3::3]) if kind == wanted]


def owners(lines: list[str]) -> Iterator[tuple[int, str, str]]:
    """For each line its number, the type or trait whose block contains it, and the public trait that the block defines or implements."""
    owner, trait = '', ''
    for place, line in enumerate(lines):
        if found := OWNER.match(line):
            kind, rest = found.groups()
            names = [(WORD.findall(part) or [''])[0] for part in rest.split(' for ')]
            owner = names[-1]
            trait = owner if kind == 'trait' and line.startswith('pub ') else names[0] if len(names) > 1 else ''
        elif line and not line[0].isspace() and line not in '{}':
            owner, trait = '', ''
        yield place, owner, trait


def passed_on(crate: str) -> set[str]:
    """The names that a crate's first file re-exports."""
    head = TOP / 'crates' / crate / 'src/lib.rt'
    uses = re.findall(r'(?m)^pub use ([^;]*);', head.read_text(encoding='utf-8')) if head.exists() else []
    return {name for use in uses for name in re.findall(r'[A-Za-z_0-9]+', re.sub(r'[a-z_0-9]+::', '', use))}


def calls_of(crate: str) -> Iterator[Call]:
    """The re-exported functions of a crate, its exports and laws, and the functions of its types and traits, in the order of its files."""
    known = passed_on(crate)
    for file in code_of(crate):
        lines = file.read_text(encoding='utf-8').splitlines()
        bare = [re.sub(r'^ *#\[.*', '///', line) for line in lines]
        for place, owner, trait in owners(lines):
            found = FUNCTION.match(lines[place])
            if found and (found.group(2) or trait and found.group(1)):
                name = (f'{owner}::' if found.group(1) else '') + found.group(3)
                is_own = crate in static_crates() and not found.group(1)
                if name.split('::')[0] in known or is_own or file.stem == 'laws' or lines[0].startswith('//! Laws'):
                    taken = signature(lines, place, found.group(1))
                    doc = comment_above(bare, place, ' *///') or (f'As `{trait}::{found.group(3)}`' if trait not in ('', owner) else '')
                    yield Call(name, doc, clauses_in(taken, 'ensures'),
                               [text for _, text in clauses_in(taken, 'requires')], file)


def types_of(crate: str) -> Iterator[Type]:
    """The meanings in contracts of the types and traits that a crate re-exports."""
    known = passed_on(crate)
    for file in code_of(crate):
        lines = file.read_text(encoding='utf-8').splitlines()
        for place, owner, _ in owners(lines):
            if owner in known and GHOST.match(lines[place]):
                end = next((n for n in range(place, len(lines)) if re.search(r'\}[;,]?$', lines[n])), place)
                yield Type(owner, ' '.join(lines[place:end + 1]), file)


@dataclass
class Book:
    """All definitions, the public calls whose contracts cite each, and the definitions on which public contracts depend."""
    all: dict[Key, Definition] = field(default_factory=dict)
    cited_by: dict[Key, list[str]] = field(default_factory=dict)
    promised: set[Key] = field(default_factory=set)

    def __post_init__(self) -> None:
        for crate in crates():
            for definition in definitions_of(crate):
                self.all[definition.key] = definition
        for crate in crates():
            for call in calls_of(crate):
                self.cite(call.name, ' '.join([*(text for _, text in call.clauses), *call.conditions]), call.file)
            for it in types_of(crate):
                self.cite(it.name, it.text, it.file)
        for key in self.cited_by:
            self.add(key)

    def cite(self, name: str, text: str, file: Path) -> None:
        """Records that a call or a type cites the definitions that a text in its file names."""
        for key in self.named(text, names_in(file.read_text(encoding='utf-8'))):
            if name not in self.cited_by.setdefault(key, []):
                self.cited_by[key].append(name)

    def named(self, text: str, names: dict[str, Key]) -> set[Key]:
        """The definitions that a text names."""
        return {names[word] for word in WORD.findall(text) if word in names and names[word] in self.all}

    def add(self, key: Key) -> None:
        """Marks a definition as promised, with all definitions on which it depends."""
        if key in self.promised:
            return
        self.promised.add(key)
        crate, module, _ = key
        names = names_in((TOP / f'crates/{crate}/specs/{module}.antt').read_text(encoding='utf-8'))
        names |= {it.name: it.key for it in self.of_crate(crate) if it.module == module}
        for other in self.named(self.all[key].text, names):
            self.add(other)

    def of_crate(self, crate: str) -> list[Definition]:
        return [definition for key, definition in self.all.items() if key[0] == crate]
