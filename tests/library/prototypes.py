"""Compares the header with the exports of the sources: `prototypes.py HEADER SOURCE..`. Prints differences, and declarations without a comment
for Doxygen."""

import re
import sys
from pathlib import Path

TYPES = {'u8': 'uint8_t', 'u16': 'uint16_t', 'u32': 'uint32_t', 'u64': 'uint64_t', 'usize': 'size_t', 'bool': 'bool'}
NAMES = {'bcd': 'address', 'found': 'defect', 'used': 'length'}  # parameters with different names in C
NAMES_IN = {('cdpatch_result_text', 'number'): 'result'}
PREFIXES = {'cdpatch_sector_kind': 'KIND'}  # others are the enum's name
STRUCTS = {'FoundDefect': 'cdpatch_defect', 'SectorRecord': 'cdpatch_record', 'TextLine': 'cdpatch_line',
           'FlatPatch': 'cdpatch_patch', 'Place': 'cdpatch_place', 'DigestState': 'cdpatch_sha1', 'Entry': 'cdpatch_entry',
           'Index': 'cdpatch_index', 'Answer': 'cdpatch_answer', 'PatchBytes': 'cdpatch_patch_bytes', 'Job': 'cdpatch_job',
           'NamedBase': 'cdpatch_named_base'}
# Bytes that are 0 or 1, declared as bool in C.
FLAGS = {('FoundDefect', 'zeros'), ('FoundDefect', 'edc'), ('SectorRecord', 'address'), ('SectorRecord', 'zeros'),
         ('SectorRecord', 'edc')}
# The enum of the number that a call returns.
ENUMS = {'cdpatch_kind': 'cdpatch_sector_kind', 'cdpatch_read_line': 'cdpatch_content', 'cdpatch_merge_sector': 'cdpatch_fit',
         'cdpatch_index_script': 'cdpatch_script', 'cdpatch_apply_entries': 'cdpatch_stop',
         **dict.fromkeys(['cdpatch_rebuild', 'cdpatch_change_user', 'cdpatch_carry_user', 'cdpatch_change_address',
                          'cdpatch_carry_address', 'cdpatch_apply_patch'], 'cdpatch_result')}
FAULTS = {'Head': 'NO_HEAD', 'Verb': 'UNKNOWN_VERB', 'Words': 'WORD_COUNT', 'Number': 'BAD_NUMBER', 'Hex': 'BAD_HEX',
          'Length': 'BAD_LENGTH', 'Offset': 'BAD_OFFSET', 'Address': 'BAD_ADDRESS', 'TooMany': 'TOO_MANY',
          'NoMemory': 'NO_MEMORY'}
KINDS = ('NOSYNC', 'MODE0', 'MODE1', 'MODE2', 'OTHER')
SIZES = {'CDPATCH_SECTOR_SIZE': ['SECTOR_SIZE'], 'CDPATCH_USER_SIZE': ['USER_SIZE'], 'CDPATCH_PATCH_SIZE': ['MAX_BYTES'],
         'CDPATCH_LINE_SIZE': ['LINE_SIZE'],
         'CDPATCH_MOST_SECTORS': ['MAX_SECTORS'], 'CDPATCH_MOST_SCRIPT_BYTES': ['MAX_TEXT'], 'CDPATCH_MOST_PATCHES': ['MAX_PATCHES'],
         'CDPATCH_LAST_BLOCK': ['MAX_NUMBER'], 'CDPATCH_LAST_BASE': ['MAX_BASE', 'MAX_BLOCK'], 'CDPATCH_COLUMNS': ['COLUMNS']}
# Sizes of arrays that no constant of the sources has as a number.
COUNTS = {'DIAGONALS': '52', 'DIGEST_LEN': '20'}
ARRAYS = {'CDPATCH_ADDRESS_SIZE': ['3'], 'CDPATCH_DIAGONALS': ['52'], 'CDPATCH_DIGEST_SIZE': ['20']}
# Room for the texts of the program, by the limits of a script and of an image.
ARRAYS |= {'CDPATCH_MOST_LOG_BYTES': [str(200 + 80 * 65536)], 'CDPATCH_MOST_AUDIT_BYTES': [str(100 + 40 * 1000000)]}


def spaced(text):
    return re.sub(r'\s*\*\s*', ' *', ' '.join(text.split()))


def of_c(call, parameter, constants):
    """The C parameters for a parameter: two for a slice, whose size may have any name; none for the allocator. A reference to one object
    has that object's size."""
    name, kind = parameter.split(': ', 1)
    name = NAMES_IN.get((call, name), NAMES.get(name, name))
    if kind == 'Global':
        return []
    pointer = re.fullmatch(r'&(mut )?(.*)', kind)
    if not pointer:
        return ['size_t' if kind == 'usize' else f'{TYPES[kind]} {name}']
    changes, target = pointer.groups()
    piece = re.fullmatch(r'\[([^;]*)\]', target)
    item = piece.group(1) if piece else target
    item = item.replace("<'_>", '')
    array = re.fullmatch(r'\[u8; (\w+)\]', item)
    if item in STRUCTS:
        made, count = f'struct {STRUCTS[item]}', '1'
    elif item in ('usize', 'u32'):
        made, count = TYPES[item], '1'
    elif array or item in ('u8', 'Sector'):
        made, count = 'uint8_t', array.group(1) if array else 'SECTOR_SIZE'
    else:
        raise ValueError(f'{call}: {parameter}')
    made += f' *{name}' if piece else f' {name}[CDPATCH_AT_LEAST {constants.get(count, count)}]'
    return [made if changes else 'const ' + made] + ['size_t'] * bool(piece)


def fields_of(struct, body):
    """The types and names of a struct's fields."""
    made = []
    for name, kind in re.findall(r'^    (?:pub )?(\w+): ([^,]+),$', body, re.M):
        pointer = re.fullmatch(r"&'a (mut )?\[?(\w+)(\])?", kind)
        if pointer:  # a slice is a pointer and a size, which may have any name
            target = f'struct {STRUCTS[pointer[2]]}' if pointer[2] in STRUCTS else TYPES[pointer[2]]
            made.append(('' if pointer[1] else 'const ') + f'{target} *{name}')
            made += ['size_t'] * bool(pointer[3])
            continue
        item, _, count = kind.strip('[]').partition('; ')
        count = next((named for named, sources in SIZES.items() if count in sources), count)
        made.append(('bool' if (struct, name) in FLAGS else TYPES[item]) + f' {name}' + (f'[{count}]' if count else ''))
    return made


def body_of(struct, source):
    found = re.search(rf"^pub struct {struct}(?:<'a>)? {{\n(.*?)\n}}", source, re.S | re.M)
    return found and found.group(1) + '\n'


def numbered(enum, pairs):
    """The names for numbers that count from 0, with the prefix of their enum. A pair may occur more than once."""
    prefix = 'CDPATCH_' + PREFIXES.get(enum, enum.removeprefix('cdpatch_').upper()) + '_'
    made = sorted({(int(number), prefix + name.upper()) for name, number in pairs})
    return [name if number == place else f'{name} = {number}' for place, (number, name) in enumerate(made)]


def exports(source):
    """The declarations of the sources: each export's C types and names, the result first; structs; enums' numbers; sizes; version."""
    made = {}
    constants = re.findall(r'const (\w+): \w+ = ([\d_]+);', source)
    sizes = {**COUNTS, **{name: number.replace('_', '') for name, number in constants}}
    for name, listed, result in re.findall(r'pub extern "C" fn (\w+)\(([^)]*)\)(?: -> (\w+))?', source):
        parameters = [parameter for parameter in spaced(listed).rstrip(',').split(', ') if parameter]
        answered = f'enum {ENUMS[name]}' if name in ENUMS else TYPES[result] if result else 'void'
        made[name] = [answered, *(c for parameter in parameters for c in of_c(name, parameter, sizes))]
    for struct, name in STRUCTS.items():
        body = body_of(struct, source)
        made[f'struct {name}'] = fields_of(struct, body) if body else None
    results = [(name, number) for name, number in re.findall(r'pub const (\w+): u32 = (\d+);', source)
               if name not in ('VERSION', *KINDS)]
    contents = [(FAULTS[name], number) for name, number in re.findall(r'ScriptFault::(\w+)(?:\(_\))? => (\d+),', source)]
    contents += [('NOTHING', number) for number in re.findall(r'LineContent::PassedOver\) => (\d+),', source)]
    contents += [(f'VERSION_{place}', number) for place, number in enumerate(re.findall(r'Version::\w+ => (\d+),', source), 1)]
    contents += [pair for pair in constants if pair[0] in ('PATCH', 'NO_VERSION')]
    fits = [(name, number) for name, number in re.findall(r'Fit::(\w+) => (\d+),', source)]
    fits += [('NONE', number) for name, number in constants if name == 'NO_FIT']
    numbers = {'result': results, 'content': contents, 'fit': fits}
    for name, beginning in (('script', 'SCRIPT_'), ('stop', 'STOP_'), ('failure', 'FAILURE_')):
        numbers[name] = [(each.removeprefix(beginning), number) for each, number in constants if each.startswith(beginning)]
    for name, found in (('status', ('DONE', 'FOUND', 'FAILED')), ('verb', ('SET', 'FILL', 'REBUILD', 'ADDRESS')), ('sector_kind', KINDS),
                        ('flag', ('CARRY', 'LAST', 'WITHOUT_OLD'))):
        numbers[name] = [pair for pair in constants if pair[0] in found]
    made.update((f'enum cdpatch_{name}', numbered(f'cdpatch_{name}', pairs)) for name, pairs in numbers.items())
    for name, sources in SIZES.items():
        made[name] = sorted({number.replace('_', '') for each, number in constants if each in sources})
    made.update(ARRAYS)
    made['CDPATCH_VERSION_NUMBER'] = [number for name, number in constants if name == 'VERSION']
    made['CDPATCH_VERSION'] = [f'{int(number) // 10000}.{int(number) // 100 % 100}.{int(number) % 100}'
                               for number in made['CDPATCH_VERSION_NUMBER']]
    return made


def declared(header):
    """The declarations of the header, in the form of `exports`."""
    code = re.sub(r'/\*.*?\*/', '', header, flags=re.S)
    made = {}
    for result, name, listed in re.findall(r'^(\w[\w ]*?)\s+(cdpatch_\w+)\(([^)]*)\);', code, re.M):
        parameters = [spaced(parameter) for parameter in listed.split(',') if parameter != 'void']
        made[name] = [result, *(re.sub(r'^size_t \w+$', 'size_t', parameter) for parameter in parameters)]
    for name, body in re.findall(r'struct (\w+) \{(.*?)\}', code, re.S):
        fields = [' '.join(field.split()) for field in body.split(';') if field.strip()]
        made[f'struct {name}'] = ['size_t' if '*' in before and field.startswith('size_t ') else field
                                  for before, field in zip(['', *fields], fields)]
    for name, body in re.findall(r'enum (\w+) \{(.*?)\}', code, re.S):
        made[f'enum {name}'] = [' '.join(each.split()) for each in body.split(',')]
    for body in re.findall(r'enum \{(.*?)\}', code, re.S):
        made.update((name, [number]) for name, number in re.findall(r'(\w+) = (\d+)', body))
    made.update((name, [text]) for name, text in re.findall(r'^#define (\w+) "?([\d.]+)"?$', code, re.M))
    return made


def undocumented(header):
    """The declarations without a comment for Doxygen before them."""
    found = re.findall(r'(/\*(?:(?!\*/).)*\*/\n)?(?:CDPATCH_NODISCARD\n)?^((?:#define CDPATCH_V|enum|struct|\w+ cdpatch_)[^\n]*)', header, re.S | re.M)
    return [f'no comment for Doxygen: {line}' for comment, line in found if not comment.startswith('/**')]


def main(header, *sources):
    wanted = exports('\n'.join(Path(source).read_text() for source in sources))
    got = declared(Path(header).read_text())
    bare = undocumented(Path(header).read_text())
    lost = [f'{name}: {got.get(name)} and not {wanted.get(name)}'
            for name in sorted({*wanted, *got}) if wanted.get(name) != got.get(name)]
    print(*lost, *bare, f'{len(got)} compared, {len(lost)} differ', sep='\n')
    return bool(lost or bare)


if __name__ == '__main__':
    sys.exit(main(*sys.argv[1:]))
