"""Images and the effects of the commands on them, by the rules of cdpatch."""

from itertools import groupby

from script import ScriptFault, ordered, script
from sector import NO_DEFECT, SIZE, address_of, consistent, damage, defect, kind, sector_with

# The flags of `check` and `apply`, and below those that the calls of the library have too.
OPTIONS = ['--carry']
OPTIONS_OF_CALLS = ['--carry']


def cut(image):
    """The sectors of an image, and the tail that is shorter than a sector."""
    whole = len(image) // SIZE * SIZE
    return [image[i:i + SIZE] for i in range(0, whole, SIZE)], image[whole:]


def blocks_of(patch):
    """The blocks that a patch meets: those of its range; for `rebuild` and `address` the one block."""
    reach = patch.offset + len(patch.new) - 1 if patch.verb in ('set', 'fill') else 0
    return range(patch.block, patch.block + reach // 2048 + 1)


def user_bytes(sectors, base, blocks):
    """The joined user bytes of blocks, bytes 16 to 2063 of each sector."""
    return b''.join(sectors[block - base][16:2064] for block in blocks)


def outcome(sectors, base, patch, carry):
    """The outcome of a patch on an image after the earlier patches: its blocks are checked in ascending order, then its old bytes."""
    for block in blocks_of(patch):
        if not 0 <= block - base < len(sectors):
            return f'refused: no block {block}'
        if kind(sectors[block - base]) != 'mode1':
            return f'refused: block {block} is not mode 1'
        if not (carry or patch.verb == 'rebuild' or consistent(sectors[block - base])):
            return f'refused: block {block} is damaged'
    now = user_bytes(sectors, base, blocks_of(patch))[patch.offset:]
    for i, byte in enumerate(patch.was or b''):
        if byte != now[i]:
            block, offset = divmod(patch.offset + i, 2048)
            return f'refused: old bytes differ at block {patch.block + block} offset {offset}'
    return 'applied'


def effect(sectors, base, patch, carry):
    """The sectors after an applied patch: new content, with the old defect if --carry is given, but without it for `rebuild`."""
    after = list(sectors)
    user = user_bytes(sectors, base, blocks_of(patch))
    if patch.verb in ('set', 'fill'):
        user = user[:patch.offset] + patch.new + user[patch.offset + len(patch.new):]
    for i, block in enumerate(blocks_of(patch)):
        old = sectors[block - base]
        header = patch.new + old[15:16] if patch.verb == 'address' else old[12:16]
        kept = defect(old) if carry and patch.verb != 'rebuild' else NO_DEFECT
        after[block - base] = sector_with(old[:12] + header + user[2048 * i:2048 * i + 2048], kept)
    return after


def run(sectors, base, patches, carry):
    """Applies patches in order, each after the earlier ones. Returns their outcomes and the new image."""
    outcomes = []
    for patch in ordered(patches):
        outcomes.append(outcome(sectors, base, patch, carry))
        if outcomes[-1] == 'applied':
            sectors = effect(sectors, base, patch, carry)
    return outcomes, sectors


def patch_text(patches, outcomes):
    """The log: a line for each patch in the order of application, then the counts."""
    text = [f'line {patch.line}: {each}\n' for patch, each in zip(ordered(patches), outcomes)]
    applied = outcomes.count('applied')
    return ''.join(text) + f'applied {applied} refused {len(outcomes) - applied}\n'


def list_text(image, base):
    """The text of `list`: a line for each maximal run of sectors of one kind, then the counts."""
    sectors, tail = cut(image)
    text = ''
    for name, together in groupby(range(len(sectors)), key=lambda i: kind(sectors[i])):
        together = list(together)
        text += f'{base + together[0]}-{base + together[-1]} {name}\n'
    return text + f'sectors {len(sectors)} tail {len(tail)}\n'


def findings(sector, block):
    """The findings of `audit` in a Mode 1 sector: an address other than its block's, if the block has one, and damage."""
    return (address_of(block) not in (None, sector[12:15])) * ' address' + damage(sector)


def audit_text(image, base):
    """The text of `audit`: a line for each Mode 1 sector with a finding, then the counts. A wrong address alone is not damage."""
    sectors, tail = cut(image)
    mode1 = [(base + i, sector) for i, sector in enumerate(sectors) if kind(sector) == 'mode1']
    text = ''.join(f'{block}{findings(sector, block)}\n' for block, sector in mode1 if findings(sector, block))
    damaged = sum(damage(sector) != '' for _, sector in mode1)
    return text + f'sectors {len(sectors)} mode1 {len(mode1)} damaged {damaged} tail {len(tail)}\n'


def answer(command, image, base, options, text):
    """A command's status, its standard output, and for `apply` the bytes of OUT, which is not created if the script has a fault."""
    if command == 'list':
        return 0, list_text(image, base), None
    if command == 'audit':
        text = audit_text(image, base)
        return int(text.count('\n') > 1), text, None
    try:
        patches = script(text)
    except ScriptFault as fault:
        return 2, f'{fault}\n', None
    sectors, tail = cut(image)
    outcomes, last = run(sectors, base, patches, '--carry' in options)
    out = b''.join(last) + tail if command == 'apply' else None
    return int(outcomes != len(outcomes) * ['applied']), patch_text(patches, outcomes), out
