#!/usr/bin/env python3
"""Generates files from the help of cdpatch, and from the jobs and options that `cdscript --forms` prints: `python3 tools/options.py
completions DIRECTORY PROGRAM..` writes completions for three shells, `pages PROGRAM..` updates parts of the man pages, and
`check PROGRAM..` prints which of these pages differ.

In a page a part is between marks, such as `made: synopsis` and `end of synopsis`; tools/header.py generates other parts. In the lists
of commands and options only the heads are generated. The prose below each is written by hand, and a new head gets its description in help.
"""

import json
import re
import subprocess
import sys
import textwrap
from collections.abc import Callable, Iterable, Sequence
from dataclasses import dataclass, field
from pathlib import Path

TOP = Path(__file__).resolve().parent.parent

# Placeholders of files that are created.
NEW_FILES = {'OUT'}


@dataclass
class Option:
    """An option in help. `short` or `long` may be ''; `value` is '' if it has none."""
    short: str
    long: str
    value: str
    does: str
    repeated: bool = False
    values: list[str] = field(default_factory=list)

    @property
    def word(self) -> str:
        return self.long or self.short


@dataclass
class Command:
    """A command: its description, the arguments of each of its forms, its options, the meaning of status 1, and the arguments that are
    not files."""
    name: str
    says: str
    forms: list[list[str]]
    options: list[Option]
    found: str = ''
    words: list[str] = field(default_factory=list)


@dataclass
class Program:
    name: str
    path: Path
    commands: list[Command]
    own: list[Option]

    @property
    def all_options(self) -> dict[str, Option]:
        own = {option.word: option for option in self.own}
        return {option.word: option for command in self.commands for option in command.options if option.word not in own} | own


# ---- what the programs print

def printed(*words: str) -> str:
    return subprocess.run(words, capture_output=True, encoding='utf-8', check=True).stdout


def options_in(text: str) -> list[Option]:
    """The options of a help text. A description may continue in the next lines."""
    row = r'(?m)^  (?:(-\w)(?:, )?|    )?(--[a-z-]+)? *(<?[A-Z]+>?)?(?: {2,}|$)(.*(?:\n {12,}\S.*)*)'
    rows = re.findall(row, text.partition('\nOptions:\n')[2])
    return [Option(short, long, value.strip('<>'), re.sub(r' \[default: .*\]$', '', ' '.join(does.split())))
            for short, long, value, does in rows if short or long]


def arguments_in(usage: str) -> list[str]:
    return re.findall(r'\[[^]]*\]|--?\S+|[A-Z]+(?:\.\.)?', usage.replace('<', '').replace('>', ''))


def forms_in(text: str, name: str) -> list[list[str]]:
    """The arguments of each form of a command: `IMAGE`, `OTHER..`, and optional ones in brackets."""
    return [arguments_in(usage) for usage in re.findall(rf'(?m)^(?:Usage:|      ) \w+ {name} \[OPTIONS\] (.*)$', text)]


def program_by_help(path: Path, whole: str) -> Program:
    """A program, as its help describes it."""
    listed = re.search(r'(?m)^Commands:\n((?:  .*\n)+)', whole)
    commands = []
    for name, says in re.findall(r'(?m)^  ([a-z-]+) +(\S.*)$', listed.group(1) if listed else ''):
        text = printed(str(path), name, '--help')
        commands.append(Command(name, says, forms_in(text, name), options_in(text)))
    usage = re.search(r'(?m)^Usage: (\w+)', whole)
    return Program(usage.group(1) if usage else path.name, path, commands, options_in(whole))


def program_of(path: Path) -> Program:
    whole = printed(str(path), '--help')
    if '--forms' not in whole:
        return program_by_help(path, whole)
    found = json.loads(printed(str(path), '--forms'))
    options = [Option(**option) for option in found['options']]
    commands = [Command(job['name'], job['says'], [arguments_in(usage) for usage in job['forms']],
                        [Option(**option) for option in job['options']], job['found'], job['words']) for job in found['jobs']]
    return Program(found['name'], path, commands, options)


# ---- completions

def offered(command: Command, name: str) -> str:
    """The kind of an argument: `files`; `directories` for the place of a new file; or '' if no shell can complete it."""
    bare = re.sub(r'\.\.$', '', name)
    if bare in NEW_FILES:
        return 'directories'
    return '' if bare in command.words or name.startswith('[') else 'files'


def offered_value(option: Option) -> str:
    if option.value != 'FILE':
        return ''
    return 'directories' if option.word == '-o' else 'files'


def places(command: Command) -> list[tuple[str, str]]:
    """The kind of each argument by its number, which has a `+` if more may follow. The last one may be repeated."""
    found: list[tuple[str, str]] = []
    for number, name in enumerate(command.forms[0]):
        if name.endswith('..'):
            return [*found, (f'{number}+', offered(command, name))]
        found.append((str(number), offered(command, name)))
    return found


def grouped(rows: Iterable[tuple[str, str]]) -> dict[str, list[str]]:
    """The first elements of pairs, grouped by the second."""
    found: dict[str, list[str]] = {}
    for one, other in rows:
        found.setdefault(other, []).append(one)
    return found


def quoted(text: str) -> str:
    return "'" + text.replace("'", r"'\''") + "'"


def bash_option(option: Option) -> str:
    return option.word + ('=' if option.value else '') + ('+' if option.repeated else '')


def bash(program: Program) -> dict[str, str]:
    lists = grouped((command.name, ' '.join(map(bash_option, command.options))) for command in program.commands)
    offers = [(f'{command.name}:{"*" if number.endswith("+") else number}', kind) for command in program.commands
              for number, kind in places(command) if kind]
    offers += [(option.word, kind) for option in program.all_options.values() if (kind := offered_value(option))]
    kinds = {'files': '-f', 'directories': '-d'}
    rows = [f"        :0) printf '%s\\n' -W {quoted(' '.join(it.name for it in program.commands))} ;;"]
    rows += [f"        {' | '.join(names)}) echo {kinds[kind]} ;;" for kind, names in grouped(offers).items()]
    rows += [f"        {option.word}) printf '%s\\n' -W {quoted(' '.join(option.values))} ;;"
             for option in program.all_options.values() if option.values]
    return {'options': '\n'.join(f"        {' | '.join(names)}) echo {quoted(words)} ;;" for words, names in lists.items()),
            'offered': '\n'.join(rows), 'own': ' '.join(map(bash_option, program.own))}


def zsh_text(text: str) -> str:
    return re.sub(r'([\[\]:\\])', r'\\\1', text)


def zsh_option(option: Option) -> str:
    """The specification of an option for zsh's _arguments."""
    kinds = {'files': '_files', 'directories': '_path_files -/', '': ' '}
    both = f'{{{option.short},{option.long}}}' if option.short and option.long else ''
    if not option.value:
        alone = '(- : *)' if option.word in ('--help', '--version', '--notices', '--forms') else ''
        if both:
            return quoted(alone) + both + quoted(f'[{zsh_text(option.does)}]')
        return quoted(f'{alone}{option.word}[{zsh_text(option.does)}]')
    kind = f'({" ".join(option.values)})' if option.values else kinds[offered_value(option)]
    mark = '*' if option.repeated else ''
    equals = '=' if option.long else ''
    return quoted(f'{mark}{option.word}{equals}[{zsh_text(option.does)}]:{option.value}:{kind}')


def zsh_place(command: str, number: str, name: str, kind: str) -> str:
    kinds = {'files': '_files -F dashed', 'directories': '_path_files -/ -F dashed', '': ' '}
    place = '*' if number.endswith('+') else str(int(number) + 1)
    return quoted(f'{place}:{re.sub("[^A-Z]", "", name)}:{kinds[kind]}')


def zsh(program: Program) -> dict[str, str]:
    rows = []
    for command in program.commands:
        specs = [zsh_option(option) for option in command.options]
        specs += [zsh_place(command.name, number, name, kind) for (number, kind), name in zip(places(command), command.forms[0])]
        rows.append(f'        {command.name})\n            _arguments -S ' + ' \\\n                '.join(specs) + '\n            ;;')
    return {'commands': '\n'.join(f'        {quoted(f"{it.name}:{it.says}")}' for it in program.commands),
            'arguments': '\n'.join(rows), 'own': ' '.join(map(zsh_option, program.own))}


def fish_option(program: Program, option: Option) -> str:
    names = ([f'-s {option.short[1:]}'] if option.short else []) + ([f'-l {option.long[2:]}'] if option.long else [])
    takers = [command.name for command in program.commands if option in command.options]
    if option in program.own and takers:
        condition = ''
    elif option in program.own:
        condition = f' -n __{program.name}_begins'
    else:
        # While its own value is being completed, an option is on the line already.
        word = option.long[2:] or f'-s {option.short[1:]}'
        used = '' if option.repeated or option.values or offered_value(option) else f'; and not __fish_contains_opt {word}'
        condition = f" -n '__{program.name}_is {' '.join(takers)}{used}'"
    value = {'files': ' -r -F', 'directories': ' -r -F', '': ' -x'}[offered_value(option)] if option.value else ''
    words = f" -a {quoted(' '.join(option.values))}" if option.values else ''
    text = option.does.replace('\\', '\\\\').replace("'", "\\'")
    return f"complete -c {program.name}{condition} {' '.join(names)}{value}{words} -d '{text}'"


def fish(program: Program) -> dict[str, str]:
    rows = []
    for command in program.commands:
        says = command.says.replace("'", "\\'")
        rows.append(f"complete -c {program.name} -n __{program.name}_begins -a {command.name} -d '{says}'")
    options = [option for command in program.commands for option in command.options] + program.own
    rows += dict.fromkeys(fish_option(program, option) for option in options)
    pairs = [(command.name, f'{number} {kind}') for command in program.commands for number, kind in places(command) if kind]
    for place, names in grouped(pairs).items():
        number, kind = place.split()
        files = f'(__{program.name}_files' + (' | string match -- "*/")' if kind == 'directories' else ')')
        rows.append(f"complete -c {program.name} -n '__{program.name}_at {number} {' '.join(names)}' -a '{files}'")
    valued = [option.word for option in program.all_options.values() if option.value]
    return {'completes': '\n'.join(rows), 'valued': ' '.join(valued)}


SHELLS: dict[str, tuple[str, Callable[[Program], dict[str, str]]]] = {
    '{}.bash': ('bash', bash), '_{}': ('zsh', zsh), '{}.fish': ('fish', fish)}


def write_completions(directory: Path, programs: Sequence[Program]) -> None:
    directory.mkdir(parents=True, exist_ok=True)
    for program in programs:
        for name, (shell, parts) in SHELLS.items():
            text = (TOP / f'tools/completions/{shell}.in').read_text(encoding='utf-8')
            for part, made in {'program': program.name, **parts(program)}.items():
                text = text.replace(f'@{part}@', made)
            (directory / name.format(program.name)).write_text(text, encoding='utf-8')


# ---- pages

def mdoc_option(option: Option) -> str:
    flag = f'Fl Fl {option.long[2:]}' if option.long else f'Fl {option.short[1:]}'
    return flag + (f' Ar {option.value.lower()}' if option.value else '')


def mdoc_names(form: Sequence[str]) -> str:
    """The arguments of a form as macros of mdoc in one line."""
    text = ''
    for name in form:
        if name.startswith('['):
            text += f' Oo Ar {name.strip("[]").lower()} Oc'
        elif name.startswith('-'):
            text += f' Fl Fl {name.lstrip("-")}'
        else:
            # One macro applies to all names up to the next macro.
            text += ('' if re.search(r'Ar [a-z .]+$', text) else ' Ar') + f' {name.lower().replace("..", " ...")}'
    return text.strip()


def synopsis(program: Program) -> list[str]:
    lines = []
    for command in program.commands:
        # An option that is a form's own is not an option of other forms.
        single = {'--help'}.union(*command.forms)
        for form in command.forms:
            lines += ['.Nm', f'.Cm {command.name}']
            lines += [f'.Op {mdoc_option(option)}' for option in command.options if option.word not in single]
            lines += [f'.{mdoc_names(form)}']
    return lines


def heads_of_commands(program: Program) -> dict[str, tuple[str, str]]:
    """For each command its head in a list of mdoc, and its description in help."""
    return {it.name: (f'.It Cm {it.name} {mdoc_names(it.forms[0])}', it.says) for it in program.commands}


def heads_of_options(program: Program) -> dict[str, tuple[str, str]]:
    found = {}
    for option in program.all_options.values():
        short = f'Fl {option.short[1:]} , ' if option.short and option.long else ''
        found[option.word] = (f'.It {short}{mdoc_option(option)}', option.does)
    return found


def items_of(lines: Sequence[str]) -> dict[str, list[str]]:
    """The prose below each head of a list, by the command or option of the head. Nested lists belong to it."""
    items: dict[str, list[str]] = {}
    depth, key = 0, ''
    for line in lines:
        head = re.match(r'\.It (?:Cm ([a-z-]+)|(?:Fl \w , )?Fl (?:Fl ([a-z-]+)|(\w)))', line)
        if head and depth == 0:
            command, long, short = head.groups()
            key = command or (f'--{long}' if long else f'-{short}')
            items[key] = []
            continue
        depth += line.startswith('.Bl') - line.startswith('.El')
        if key:
            items[key].append(line)
    return items


def made_list(lines: Sequence[str], heads: dict[str, tuple[str, str]]) -> list[str]:
    """A list with the given heads, each with its existing prose, or with its description in help if it is new."""
    items = items_of(lines)
    return [line for key, (head, says) in heads.items() for line in [head, *items.get(key, [f'{says[0].upper()}{says[1:].rstrip(".")}.'])]]


def statuses_list(program: Program) -> list[str]:
    """The meanings of status 1 for the commands that may return it. Commands with the same meaning are together."""
    meanings = grouped((command.name, command.found) for command in program.commands if command.found)
    return [line for found, names in meanings.items()
            for line in [f'.It Cm {" , ".join(names)}', *textwrap.wrap(f'{found[0].upper()}{found[1:]}.', 78)]]


def part(program: Program, name: str, lines: Sequence[str]) -> list[str]:
    """A generated part of a page, based on its current lines."""
    if name == 'synopsis':
        return synopsis(program)
    if name == 'statuses':
        return statuses_list(program)
    return made_list(lines, heads_of_commands(program) if name == 'commands' else heads_of_options(program))


def remade(text: str, program: Program) -> str:
    """A page with its parts regenerated."""
    def make(found: re.Match[str]) -> str:
        begin, name, lines, end = found.group(1), found.group(2), found.group(3).splitlines(), found.group(4)
        return begin + ''.join(f'{line}\n' for line in part(program, name, lines)) + end

    return re.sub(r'(?ms)(^\.\\" made: (synopsis|commands|options|statuses)\n)(.*?)(^\.\\" end of \2$)', make, text)


def page_of(program: Program) -> Path:
    return TOP / f'man/{program.name}.1'


def main() -> int:
    job, *words = sys.argv[1:]
    directory = words.pop(0) if job == 'completions' else ''
    programs = [program_of(Path(word).absolute()) for word in words]
    if job == 'completions':
        write_completions(Path(directory), programs)
        return 0
    status = 0
    for program in programs:
        page = page_of(program)
        text = page.read_text(encoding='utf-8')
        made = remade(text, program)
        if job == 'pages':
            page.write_text(made, encoding='utf-8')
        elif made != text:
            print(f'{page.relative_to(TOP)} is not as tools/options.py makes it of {program.name} --help')
            status = 1
    return status


if __name__ == '__main__':
    sys.exit(main())
