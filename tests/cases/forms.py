"""Parses lines of worked cases; README.md describes their notation."""

import re
import sys
from functools import lru_cache
from pathlib import Path
from typing import Any, NamedTuple, Optional

HERE = Path(__file__).resolve().parent
sys.path.insert(0, str(HERE.parent / 'model'))

from sector import NO_DEFECT, SIZE, SYNC, address_of, sector_with  # noqa: E402

SECTORS = (HERE.parent.parent / 'crates/cd_low_tests/data/cdrkit-8.bin').read_bytes()
COMMANDS = ('list', 'audit', 'check', 'apply')


class Answer(NamedTuple):
    """The answer of a command: its status, its output, and the bytes of OUT, or None if it creates none."""
    status: int
    text: str
    out: Optional[bytes]


class Question(NamedTuple):
    """A call, its arguments, and the expected result; for a command an image, a base, options, and a script, and an Answer."""
    call: str
    given: tuple
    due: Any


class Line(NamedTuple):
    """A line of the cases, its place, and its questions."""
    place: str
    text: str
    questions: list


def listed(text):
    """Parses bytes: `-` for none, or hexadecimal pieces joined by commas, each with `*COUNT` if it is repeated."""
    pieces = (piece.partition('*') for piece in text.split(',') if piece != '-')
    return b''.join(bytes.fromhex(piece) * int(count or 1) for piece, _, count in pieces)


@lru_cache
def consistent(letter, digits, changes):
    """The consistent sector with changed user data. A sector of the other encoder is left as it is if its user data are unchanged."""
    header, user = bytes.fromhex(digits) if letter == 'A' else address_of(int(digits)), bytearray(2048)
    if letter == 'V':
        sector = SECTORS[SIZE * int(digits):SIZE * int(digits) + SIZE]
        header, user = sector[12:15], bytearray(sector[16:2064])
    for offset, value in changes:
        user[int(offset):int(offset) + len(listed(value))] = listed(value)
    return sector if letter == 'V' and not changes else sector_with(SYNC + header + b'\1' + bytes(user), NO_DEFECT)


def changed(made, changes):
    """Applies the changes `@PLACE=BYTES`, `^PLACE`, and `^PLACE=BYTE` one after the other."""
    for sign, place, value in re.findall(r'([@^])(\d+)(?:=([0-9A-F*]+))?', changes):
        place = int(place)
        if sign == '@':
            made[place:place + len(listed(value))] = listed(value)
        else:
            made[place] ^= int(value or '1', 16)
    return made


def piece_of_image(text):
    """Parses a sector, or bytes, truncated by `<COUNT`."""
    letter, digits, changes, size = re.fullmatch(r'([EAVMBZ])([0-9A-F*]+)([:@^=*0-9A-F]*)(?:<(\d+))?', text).groups()
    if letter == 'Z':
        made = bytearray(int(digits))
    elif letter == 'B':
        made = bytearray(listed(digits))
    elif letter == 'M':
        made = bytearray(SYNC + address_of(0) + bytes.fromhex(digits.zfill(2)) + bytes(2336))
    else:
        made = bytearray(consistent(letter, digits, tuple(re.findall(r':(\d+)=([0-9A-F*]+)', changes))))
    made = changed(made, changes)
    return bytes(made if size is None else made[:int(size)])


def image_of(text):
    """Parses an image: `-` for an empty one, or pieces joined by commas, each with a count before it if it is repeated."""
    made = b''
    for piece in text.split(','):
        count, _, rest = piece.rpartition('x')
        made += b'' if piece == '-' else int(count or 1) * piece_of_image(rest)
    return made


def script_of(text):
    r"""A script: `{TEXT}*COUNT` and `XX*COUNT` are repeated, `\n`, `\r`, `\t` and `\xHH` are bytes."""
    text = re.sub(r'\{([^{}]*)\}\*(\d+)', lambda found: found[1] * int(found[2]), text)
    text = re.sub(r'(?<![0-9A-F])([0-9A-F]+)\*(\d+)', lambda found: found[1] * int(found[2]), text)
    return text.encode().decode('unicode_escape').encode('latin-1')


def text_of(due):
    """The lines that a command prints; a case joins them by semicolons."""
    return ''.join(line + '\n' for line in due.split('; '))


def patched(form, rest):
    """The questions about `apply` and `check` on an image."""
    options, rest = re.fullmatch(r'((?:--\S+ )*)(.*)', rest).groups()
    options = options.split()
    base, image, out, status, more = rest.split(' ', 4)
    lines, due = (' ' + more).split(' => ')
    lines = lines[1:]
    if form != 'text':
        lines = f'cdpatch {2 if form.endswith("2") else 1}\n' + lines.replace('; ', '\n')
    given = image_of(image), int(base), options, script_of(lines)
    out = given[0] if out == '=' else image_of(out)
    return [Question('apply', given, Answer(int(status), text_of(due), out)),
            Question('check', given, Answer(int(status), text_of(due), None))]


def questions_of(line):
    """The questions of a line."""
    form, _, rest = line.partition(' ')
    if form in ('list', 'audit'):
        base, image, status, due = rest.split(' ', 3)
        return [Question(form, (image_of(image), int(base), [], b''), Answer(int(status), text_of(due), None))]
    if form in ('apply', 'apply2', 'text'):
        return patched(form, rest)
    if form in ('fault', 'order'):
        text, due = (' ' + rest).split(' => ')
        given = b'', 0, [], script_of(text[1:])
        if form == 'order':
            return [Question('order', given, due)]
        return [Question(command, given, Answer(2, f'script line {due}\n', None)) for command in ('check', 'apply')]
    *given, due = rest.split(' ') if form != 'changes' else rest.split(' ', 2)
    return [Question(form, tuple(given), due)]


def alternatives(line):
    """Expands `each A|B|.. : LINE` to lines with A, B, and so on in place of `??`; `00-1F` is each byte of a range."""
    if not line.startswith('each '):
        return [line]
    items, rest = line.removeprefix('each ').split(' : ', 1)
    made = []
    for item in items.split('|'):
        found = re.fullmatch('([0-9A-F]{2})-([0-9A-F]{2})', item)
        made += [f'{i:02X}' for i in range(int(found[1], 16), int(found[2], 16) + 1)] if found else [item]
    return [each for item in made for each in alternatives(rest.replace('??', item))]


def worked_lines(files=None):
    """All lines of the files of this directory. The first alternative asks all questions of its form, each other one asks one."""
    for file in sorted(HERE.glob('*.txt')) if files is None else files:
        for number, line in enumerate(Path(file).read_text().splitlines(), 1):
            if line and not line.startswith('#'):
                first, *others = alternatives(line)
                questions = questions_of(first) + [questions_of(each)[0] for each in others]
                yield Line(f'{Path(file).name}:{number}', line, questions)
