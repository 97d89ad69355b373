"""Random images and scripts, most of them near a border, and the kinds to which a case belongs."""

import random
import re
import sys
from pathlib import Path
from typing import NamedTuple

from image import OPTIONS, OPTIONS_OF_CALLS, answer, cut, effect, findings, blocks_of, outcome, run
from script import MOST_BYTES, MOST_PATCHES, TOO_MANY, Patch, ScriptFault, ordered, script
from sector import NO_DEFECT, SIZE, SYNC, WORDS, address_of, consistent, damage, defect, kind, sector_with

sys.path.append(str(Path(__file__).resolve().parent.parent / 'lib'))
from messages import MESSAGES  # noqa: E402

NAMES = {text: name for name, text in MESSAGES.items()}
LAST_BASE = 449849
MOST_BLOCKS = (2047 + MOST_BYTES - 1) // 2048 + 1  # that a patch meets, at most


class Case(NamedTuple):
    """A call of the program. If `piped`, the image comes from standard input."""
    command: str
    image: bytes
    base: int
    options: list
    script: bytes
    piped: bool
    words: list
    note: str

    @property
    def carry(self):
        """Whether the option --carry is given."""
        return '--carry' in self.options


def some_defect(dice):
    """Damage in one member or in several, and within P and Q in one word or in more."""
    members = dice.choice([['zeros'], ['edc'], ['p'], ['q'], dice.sample(['zeros', 'edc', 'p', 'q'], dice.randint(2, 4))])
    sums = list(NO_DEFECT[2])
    for name, first, end in [('p', 0, 86), ('q', 86, len(WORDS))]:
        for i in dice.sample(range(first, end), dice.choice([1, 1, 2, 52])) * (name in members):
            sums[i] = dice.choice([(0, dice.randint(1, 255)), (dice.randint(1, 255), 0), (dice.randint(1, 255), 1)])
    zeros = bytearray(8)
    zeros[dice.randrange(8)] = 'zeros' in members and dice.randint(1, 255)
    return bytes(zeros), ('edc' in members) and dice.choice([1, 1 << 31, dice.randint(1, 2**32 - 1)]), tuple(sums)


def some_sector(dice, block, name, state):
    """A sector of this kind, most often with its block's address. Mode 1 is consistent or damaged in members, in bytes, or completely."""
    header = address_of(block) or dice.randbytes(3)
    header = dice.choice([header] * 8 + [address_of(dice.randint(0, LAST_BASE)), dice.randbytes(3)])
    user = dice.choice([bytes(2048), dice.randbytes(1) * 2048, dice.randbytes(2048), dice.randbytes(2048)])
    wanted = some_defect(dice) if state == 'member' else NO_DEFECT
    made = bytearray(sector_with(SYNC + header + b'\1' + user, wanted))
    if state == 'byte':
        for place in dice.sample([dice.randrange(12, 15), dice.randrange(16, 2064), dice.randrange(2064, 2068),
                                  dice.randrange(2068, 2076), dice.randrange(2076, SIZE)], dice.choice([1, 1, 2])):
            made[place] ^= 1 << dice.randrange(8)
    if state == 'noise':
        made[16:] = dice.randbytes(2336)
    if name == 'nosync':
        made = dice.choice([made, made, bytearray(SIZE), bytearray(dice.randbytes(SIZE))])
        made[dice.randrange(12)] ^= 1 << dice.randrange(8)
        made[0] ^= made[:12] == SYNC
    made[15] = {'mode0': 0, 'mode2': 2, 'other': dice.choice([3, 0x11, 0x81, 255])}.get(name, made[15])
    return bytes(made)


def some_image(dice, base, carry):
    """Up to eight sectors in runs of one kind, many of them damaged or all but one intact, and a tail that may begin like a sector."""
    sectors, count = [], dice.choice([0, 1, 1, 2, *3 * [MOST_BLOCKS], MOST_BLOCKS + 1, 5, 8])
    odd = dice.choice([None, -1, MOST_BLOCKS - 1, MOST_BLOCKS - 1, dice.randint(0, 4)])
    odd = None if carry else odd
    while len(sectors) < count:
        name = dice.choices(['mode1', 'mode0', 'mode2', 'other', 'nosync'], [76, 5, 7, 6, 6])[0]
        for i in range(len(sectors), min(len(sectors) + dice.choice([1, 2, 4]), count)):
            state = dice.choices(['good', 'member', 'byte', 'noise'], [30 if odd is None else 10, 30, 15, 5])[0]
            plain = odd not in (None, i)
            sectors.append(some_sector(dice, base + i, 'mode1' if plain else name, 'good' if plain else state))
    tail = dice.choice([0, 0, 0, 1, 2351, dice.randint(2, 2350)])
    return b''.join(sectors) + dice.choice([bytes(tail), dice.randbytes(tail), (SYNC + bytes(SIZE))[:tail]])


def some_patch(dice, line, base, count, version):
    """A patch near the borders of blocks and of the image."""
    if count:
        within = 12 * [base + dice.randrange(count)] + 4 * [base]
        block = dice.choice(within + [base + count - 1, base + count, base - 1, base - 2, 999999999])
    else:
        block = dice.choice([base, base - 1, base + 1])
    verb = dice.choice(4 * ['set'] + 2 * ['fill'] + 3 * ['rebuild'] + (5 * version - 5) * ['address'])
    if verb == 'rebuild':
        return Patch(line, max(block, 0), verb)
    if verb == 'address':
        return Patch(line, max(block, 0), verb, 0, address_of(dice.choice([0, 4349, LAST_BASE, dice.randint(0, LAST_BASE)])))
    offset = dice.choice([0, 1, 2046, 2047, dice.randint(0, 2047)])
    length = dice.choice([1, 2, 3, 2048, MOST_BYTES, MOST_BYTES, 2048 - offset, 2049 - offset, 4096 - offset, 4097 - offset,
                          dice.randint(1, MOST_BYTES)])
    length = min(length, MOST_BYTES)
    if count >= MOST_BLOCKS and dice.random() < .25:
        block, offset, length = base + dice.choice([0, 0, count - MOST_BLOCKS]), dice.choice([1, 2046, 2047]), MOST_BYTES
    new = dice.choice([dice.randbytes(1) * length] if verb == 'fill' else [dice.randbytes(length), bytes(length)])
    was = b'' if verb == 'set' and dice.random() < .5 else None
    return Patch(line, max(block, 0), verb, offset, new, was)


def some_patches(dice, base, count, version):
    """Some patches. A few of them change the range of the previous one to different bytes."""
    made = []
    for line in range(dice.choice([0, 1, 1, 2, 3, 4, 6, 8])):
        made.append(some_patch(dice, line, base, count, version))
        if line and made[-2].verb in ('set', 'fill') and dice.random() < .4:
            made[-1] = made[-2]._replace(line=line, verb='set', new=dice.randbytes(len(made[-2].new)), was=b'')
    return made


def with_was(dice, image, base, carry, patches):
    """Fills in each `was`: correct, wrong in one byte, or correct for the original image."""
    first, _ = cut(image)
    now, made = first, []
    for patch in ordered(patches):
        if patch.was is not None:
            was = bytearray(dice.randbytes(len(patch.new)))
            if all(0 <= block - base < len(now) for block in blocks_of(patch)):
                sectors = dice.choice([now, first])
                user = b''.join(sectors[block - base][16:2064] for block in blocks_of(patch))
                was = bytearray(user[patch.offset:patch.offset + len(patch.new)])
            if dice.random() < .3:
                border = min(2048 - patch.offset, len(was) - 1)
                was[dice.choice([0, border - 1, border, len(was) - 1, dice.randrange(len(was))])] ^= 1 << dice.randrange(8)
            patch = patch._replace(was=bytes(was))
        if outcome(now, base, patch, carry) == 'applied':
            now = effect(now, base, patch, carry)
        made.append(patch)
    return sorted(made)


def roles(dice, patch):
    """The words of a patch, each with its role."""
    def digits(n):
        return str(n).zfill(dice.choice([1, 1, 1, 4, 9])).encode()

    def pairs(data):
        return dice.choice([data.hex(), data.hex().upper()]).encode()
    made = [('verb', patch.verb.encode()), ('number', digits(patch.block))]
    if patch.verb == 'address':
        made += [('address', patch.new.hex(':').encode())]
    elif patch.verb != 'rebuild':
        made += [('offset', digits(patch.offset))]
    if patch.verb == 'fill':
        made += [('count', digits(len(patch.new))), ('byte', pairs(patch.new[:1]))]
    if patch.verb == 'set':
        made += [('hex', pairs(patch.new))]
        made += [('was', b'was'), ('old', pairs(patch.was))] if patch.was is not None else []
    return made


NOT_NUMBERS = [b'x', b'-1', b'+1', b'1234567890', b'0000000000', b'0x1', b'1_0', b'1.', '\u0664'.encode(), b'1\r', b'1\0']
LONG = b'00' * (MOST_BYTES + 1)
WRONG = {
    'verb': [b'put', b'SET', b'sett', b'cdpatch', b'address', b'\x0bset', b'1', b'was', b'rebuild\r'],
    'number': NOT_NUMBERS,
    'offset': NOT_NUMBERS + 8 * [b'2048', b'000002048', b'999999999'],
    'count': NOT_NUMBERS + 10 * [b'0', str(MOST_BYTES + 1).encode(), b'000000000', b'999999999'],
    'hex': 4 * [LONG] + [b'4', b'4g', b'g', b'0x41', b'414', LONG[1:], b'41\r', b'4_', b'\xff\xff', b'+1'],
    'old': [b'4', b'4g', LONG, b'41' * 2, b'41' * 5, b'41' * 7],
    'byte': [b'F', b'FFFF', b'0x', b'FFF', b'000000', b'gg'],
    'was': [b'were', b'WAS', b'wa', b'was\r', b'41'],
    'address': [b'00:60:00', b'00:00:75', b'0:00:00', b'00:00', b'00:00:00:00', b'aa:00:00', b'100:00:00', b'00-00-00',
                b'00:0a:00', b'00:00:7a', b'+1:00:00', b'00:02:00\r'],
}


def spoiled(dice, patch):
    """The words of a patch with one or two of them wrong, or with a word too many or missing."""
    made = roles(dice, patch)
    places = [i for i, (role, _) in enumerate(made) for _ in range(1 if role in ('verb', 'number', 'was') else 4)]
    wrong = {dice.choice(places) for _ in range(dice.choice([1, 1, 2]))}
    if patch.verb == 'fill' and dice.random() < .5:
        wrong = {2, 3}  # the offset and the count, whose faults are checked in turn
    for i in wrong:
        made[i] = made[i][0], dice.choice(WRONG[made[i][0]])
    if dice.random() < .1:
        made = made[:-1] if dice.random() < .5 else made + [('more', dice.choice([b'#', b'0', b'was']))]
    return [word for _, word in made], len(wrong)


def some_script(dice, image, base, carry):
    """A script: usually correct, otherwise with faulty lines, a wrong head, or close to the maximum number of patches."""
    note, count, version = '', len(image) // SIZE, dice.choice([1, 1, 2, 2, 2])
    head = [b'cdpatch', str(version).encode()]
    state = dice.choices(['right', 'faulty', 'head', 'many'], [63, 29, 5, 3])[0]
    if state == 'many':
        more, last = dice.choice([(0, b''), (0, b''), (1, b''), (1, b'put 0\n'), (0, b'set 0 0 4\n')])
        return b'cdpatch 1\n' + (MOST_PATCHES + more) * b'rebuild 999999999\n' + last, note
    if state == 'head':
        head = dice.choice([[], [b'cdpatch'], [b'cdpatch', b'01'], [b'cdpatch', b'9'], head + [b'x'], [b'CDPATCH', b'1'],
                            [b'cdpatch', b'1\r'], [b'\xef\xbb\xbfcdpatch', b'1'], [b'set', b'0', b'0', b'41']])
    patches = some_patches(dice, base, count, version)
    lines = [[word for _, word in roles(dice, patch)] for patch in with_was(dice, image, base, carry, patches)]
    if state == 'faulty':
        for _ in range(dice.choice([1, 1, 2])):
            patch = some_patch(dice, 0, base, count, version)
            if patch.was is not None:
                patch = patch._replace(was=patch.new)
            found, wrong = spoiled(dice, patch)
            note = note or 'two wrong words in a line' * (wrong > 1)
            lines.insert(dice.randint(0, len(lines)), found)
    lines = [head] + lines if state != 'head' or dice.random() < .8 else []
    text, plain = b'', dice.random() < .5
    for found in lines:
        for _ in range(0 if plain else dice.choice([0, 0, 1, 2])):
            text += dice.choice([b'', b' \t', b'# a note', b'\t#', b'#\xff\0\x0b']) + dice.choice([b'\n', b'\r\n'])
        gap = b' ' if plain else dice.choice([b' ', b'\t', b'  ', b' \t'])
        edge = b'' if plain else dice.choice([b'', b'', b' ', b'\t'])
        text += edge + gap.join(found) + edge + (b'\n' if plain else dice.choice([b'\n', b'\r\n']))
    return dice.choice([text, text, text, text[:-1] if text.endswith(b'\n') else text]), note


def some_case(seed, number, known=OPTIONS_OF_CALLS):
    """The case with this number and these options; it depends on nothing else."""
    dice = random.Random(f'{seed}/{number}')
    command = dice.choices(['list', 'audit', 'check', 'apply'], [9, 14, 25, 52])[0]
    base = dice.choice([0, 0, 10, 4347, LAST_BASE, LAST_BASE - 2, dice.randint(0, LAST_BASE)])
    options = [option for option in OPTIONS if dice.random() < .4 and option in known]
    piped = dice.random() < .3
    image = some_image(dice, base, '--carry' in options)
    moved = [['--base', str(base)]] * (base > 0 or dice.random() < .5)
    if command in ('list', 'audit'):
        options, text, files, note = [], b'', [], ''
    else:
        text, note = some_script(dice, image, base, '--carry' in options)
        files = ['script'] + ['out'] * (command == 'apply')
        moved += [[option] for option in options]
    words = [['-' if piped else 'image']] + [[name] for name in files]
    for option in moved:
        words.insert(dice.randint(0, len(words)), option)
    words = [command] + [word for pair in words for word in pair]
    if command == 'list' and dice.random() < .3:
        base, piped, words = 0, True, []
    return Case(command, image, base, options, text, piped, words, note)


# Bytes with a meaning in scripts, and others.
HARM = [b'\n', b'\r', b'\r\n', b' ', b'\t', b'#', b'0', b'9', b'f', b':', b'was', b'\0', b'\xff', b'\xef\xbb\xbf', b'cdpatch 2\n',
        b'999999999']


def harmed_bytes(dice, data, pieces):
    """Bytes with some changed, cut out, doubled, or inserted."""
    for _ in range(dice.choice([1, 1, 2, 4, 16])):
        at, count = dice.randint(0, len(data)), dice.choice([0, 1, 1, 2, 8])
        data = data[:at] + dice.choice([b'', dice.choice(pieces), data[at:at + count] * 2]) + data[at + count:]
    return data


def harmed(seed, number, known=OPTIONS_OF_CALLS):
    """The case with this number after arbitrary changes to its script, or to its image if it has no script."""
    case, dice = some_case(seed, number, known), random.Random(f'{seed}/{number}/harm')
    if case.command in ('check', 'apply'):
        return case._replace(script=harmed_bytes(dice, case.script, HARM))
    return case._replace(image=harmed_bytes(dice, case.image, [bytes(1), SYNC, dice.randbytes(3)]))


def image_kinds(case):
    """The kinds to which a case belongs because of its image."""
    sectors, tail = cut(case.image)
    yield f'tail of {len(tail)}' if len(tail) in (0, 1, 2351) else 'tail of another length'
    yield 'base 0' if case.base == 0 else f'base {LAST_BASE}' if case.base == LAST_BASE else 'base between'
    yield 'empty image' * (not case.image) + 'only a tail' * (not sectors and tail != b'')
    names = [None] + [kind(sector) for sector in sectors] + [None]
    for before, name, after in zip(names, names[1:], names[2:]):
        yield f'{name} sector'
        yield 'run of one' if name not in (before, after) else 'run of several'
    for block, sector in enumerate(sectors, case.base):
        if kind(sector) == 'mode1':
            members = [member.rstrip('=0123456789') for member in damage(sector).split()]
            yield 'damage of ' + ('several members' if members[1:] else ''.join(members) or 'no member')
            yield 'mode 1 whose block has no address' * (address_of(block) is None)
            yield 'consistent with another address' * (consistent(sector) and ' address' in findings(sector, block))
            yield 'consistent with a header that is not BCD' * (consistent(sector) and not sector[12:15].hex().isdigit())


def patch_kinds(case, patches):
    """The kinds to which a case belongs because of the patches of its correct script."""
    sectors, _ = cut(case.image)
    outcomes, _ = run(sectors, case.base, patches, case.carry)
    taken, now = ordered(patches), sectors
    yield 'patches not in order of lines' * (taken != sorted(patches))
    yield 'no patch' * (not patches) + 'most patches' * (len(patches) == MOST_PATCHES)
    for i, (patch, printed) in enumerate(zip(taken[:100], outcomes)):
        label = 'differs' if 'differ' in printed else re.sub(r'block \d+', 'block B', printed)
        yield f'{patch.verb} {label}'
        yield f'span of {len(blocks_of(patch))}' if len(blocks_of(patch)) < MOST_BLOCKS else 'longest span'
        if printed.endswith(('damaged', 'mode 1')) and len(blocks_of(patch)) > 1:
            place = int(printed.split()[2]) - patch.block + 1
            yield f'refused at block {place} of a span' if place < MOST_BLOCKS else 'refused at the last block of the longest span'
        yield 'length 1, 2048 or most' * (len(patch.new) in (1, 2048, MOST_BYTES))
        yield 'offset 0, 2047' * (patch.verb != 'rebuild' and patch.offset in (0, 2047))
        yield 'below the base' * (patch.block < case.base)
        yield 'past the end' * (patch.block >= case.base + len(sectors))
        yield 'past the end from within' * (patch.block < case.base + len(sectors) <= blocks_of(patch)[-1])
        if printed == 'applied':
            if any(defect(now[block - case.base]) != NO_DEFECT for block in blocks_of(patch)):
                yield f'{patch.verb} applied on damage' + ' --carry' * case.carry
            if patch.was and outcome(sectors, case.base, patch, True) != printed:
                yield 'was right now and not at first'
            now = effect(now, case.base, patch, case.carry)
        elif 'differ' in printed and outcome(sectors, case.base, patch, True) == 'applied':
            yield 'was right at first and not now'
        yield f'was over a border: {label}' * (patch.was is not None and len(blocks_of(patch)) > 1)
        for other in taken[:i]:
            yield 'equal blocks' * (other.block == patch.block)
            yield 'patch after rebuild' * (other.verb == 'rebuild' and other.block in blocks_of(patch))
            yield 'rebuild after patch' * (patch.verb == 'rebuild' and patch.block in blocks_of(other))


def kinds_of(case):
    """The kinds to which a case belongs."""
    found = {f'command {case.command}' + ' --carry' * case.carry, case.note, *image_kinds(case)}
    found.add('no words' if not case.words else 'image by standard input' if case.piped else 'image by file')
    if case.command in ('check', 'apply'):
        try:
            found |= set(patch_kinds(case, script(case.script)))
            found.add(f'version {2 if b"cdpatch 2" in b" ".join(case.script.split()) else 1}')
        except ScriptFault as fault:
            text = str(fault).split(': ')[1]
            found.add('fault: ' + ('too_many' if text == TOO_MANY else NAMES[text]))
        for name, part in [('CR LF', b'\r\n'), ('tab', b'\t'), ('comment', b'#')]:
            found.add(name * (part in case.script))
        found.add('no LF at the end' * (not case.script.endswith(b'\n')))
    return found - {''}


def wanted(case):
    """The model's answer to a case: status, standard output, and OUT or None."""
    status, printed, out = answer(case.command, case.image, case.base, case.options, case.script)
    return status, printed.encode(), out
