"""Builds the commands of the program from the calls of a shared libcdpatch for lines, patches, sectors, and lines of the log."""

import ctypes
from functools import lru_cache
from itertools import groupby

SIZE = 2352
HAND = 3  # the maximum number of sectors that a patch can meet
LINE_SIZE, PATCH_SIZE = 96, 4096
MODE1 = 2
OK = 0
NOTHING, PATCH, NO_HEAD, NO_VERSION = 0, 3, 4, 14
KEPT = b'\xA5'
MORE = 40  # guard bytes after the memory that a call may write


class Line(ctypes.Structure):
    _fields_ = [('size', ctypes.c_size_t), ('taken', ctypes.c_size_t)]


class Patch(ctypes.Structure):
    _fields_ = [('block', ctypes.c_uint32), ('offset', ctypes.c_uint16), ('count', ctypes.c_uint16), ('verb', ctypes.c_uint8),
                ('has_old', ctypes.c_uint8), ('value', ctypes.c_uint8), ('address', ctypes.c_uint8 * 3)]


class Place(ctypes.Structure):
    _fields_ = [('block', ctypes.c_uint32), ('offset', ctypes.c_uint16)]


class Record(ctypes.Structure):
    _fields_ = [('kind', ctypes.c_uint8), ('address', ctypes.c_bool), ('zeros', ctypes.c_bool), ('edc', ctypes.c_bool),
                ('p', ctypes.c_uint8), ('q', ctypes.c_uint8)]


@lru_cache
def opened(path):
    """Loads a library, and declares the types of its calls."""
    library = ctypes.CDLL(path)
    number, size, pointer = ctypes.c_uint32, ctypes.c_size_t, ctypes.c_void_p
    shapes = {'first_line': (ctypes.c_bool, pointer, size, pointer),
              'read_line': (number, number, size, pointer, size, pointer, pointer, pointer),
              'apply_patch': (number, pointer, pointer, pointer, pointer, size, number, pointer),
              'survey': (ctypes.c_bool, pointer, size, number, pointer, size),
              'outcome_line': (size, number, number, number, ctypes.c_uint16, pointer),
              'last_line': (size, number, number, pointer),
              'fault_line': (size, number, number, pointer),
              'list_line': (size, number, number, number, pointer),
              'list_end': (size, number, ctypes.c_uint16, pointer),
              'audit_line': (size, number, pointer, pointer),
              'audit_end': (size, number, number, number, ctypes.c_uint16, pointer)}
    for name, (answer, *arguments) in shapes.items():
        call = getattr(library, 'cdpatch_' + name)
        call.restype, call.argtypes = answer, arguments
    return library


def line_by(call, *words):
    """The line that a call writes. Raises ValueError if bytes after it have changed."""
    text = ctypes.create_string_buffer(KEPT * (LINE_SIZE + MORE), LINE_SIZE + MORE)
    length = call(*words, text)
    if text.raw[length:].strip(KEPT):
        raise ValueError('bytes changed after a line')
    return text.raw[:length]


class Fault(Exception):
    """The number of a faulty line, and the number of its fault."""


def lines_of(library, text):
    """The address and the size of each line of a text, as the calls split it."""
    room, start, line = ctypes.create_string_buffer(text, len(text) + 1), 0, Line()
    where, found = ctypes.addressof(room), ctypes.byref(line)
    while library.cdpatch_first_line(where + start, len(text) - start, found):
        yield where + start, line.size
        start += line.taken


def patches_of(library, text):
    """The patches of a script in the order of its lines: for each the line's number, the record, and its new and old bytes."""
    new, old = (ctypes.create_string_buffer(PATCH_SIZE) for _ in range(2))
    version, number, made = 0, 0, []
    for number, (line, size) in enumerate(lines_of(library, text), 1):
        patch = Patch()
        content = library.cdpatch_read_line(version, len(made), line, size, ctypes.byref(patch), new, old)
        if content == PATCH:
            bytes_of_each = patch.count if patch.verb == 0 else 0
            made.append((number, patch, new.raw[:bytes_of_each], old.raw[:bytes_of_each * (patch.has_old == 1)]))
        elif NO_HEAD <= content <= NO_VERSION:
            raise Fault(number, content)
        elif content != NOTHING:
            version = content
    if version == 0:
        raise Fault(number + 1, NO_HEAD)
    return made


def apply_in_hand(library, image, base, patch, new, old, carry):
    """Applies a patch to a copy of the sectors from its block on, and copies them back to the image. Returns the result and the place.
    Raises ValueError if other bytes have changed."""
    count = len(image) // SIZE
    first = patch.block - base
    taken = min(HAND, count - first) if 0 <= first < count else 0
    hand = ctypes.create_string_buffer(bytes(image[first * SIZE:(first + taken) * SIZE]) + KEPT * MORE, taken * SIZE + MORE)
    place = Place()
    new, old = (each.ljust(PATCH_SIZE, KEPT) for each in (new, old))
    result = library.cdpatch_apply_patch(ctypes.byref(patch), new, old, hand, taken, carry, ctypes.byref(place))
    if hand.raw[taken * SIZE:].strip(KEPT):
        raise ValueError('bytes changed after the sectors in hand')
    if taken and result != OK and hand.raw[:taken * SIZE] != image[first * SIZE:(first + taken) * SIZE]:
        raise ValueError('a refused patch changed the sectors in hand')
    if taken:
        image[first * SIZE:(first + taken) * SIZE] = hand.raw[:taken * SIZE]
    return result, place


def patched(library, image, base, carry, script):
    """The status, the log, and the new image or None."""
    try:
        patches = patches_of(library, script)
    except Fault as fault:
        return 2, line_by(library.cdpatch_fault_line, *fault.args), None
    image, log, applied = bytearray(image), [], 0
    for number, patch, new, old in sorted(patches, key=lambda each: each[1].block):
        result, place = apply_in_hand(library, image, base, patch, new, old, carry)
        applied += result == OK
        log.append(line_by(library.cdpatch_outcome_line, number, result, place.block, place.offset))
    log.append(line_by(library.cdpatch_last_line, applied, len(patches) - applied))
    return int(applied < len(patches)), b''.join(log), bytes(image)


def surveyed(library, image, base):
    """The record of each sector."""
    count = len(image) // SIZE
    records = (Record * (count + 1))()
    ctypes.memset(ctypes.byref(records[count]), KEPT[0], ctypes.sizeof(Record))
    if not library.cdpatch_survey(image, count, base, records, count):
        raise ValueError('no survey')
    if bytes(records[count]).strip(KEPT):
        raise ValueError('bytes changed after the records')
    return records[:count]


def listed(library, image, base):
    """The status and the text of `list`."""
    lines, block = [], base
    for kind, together in groupby(record.kind for record in surveyed(library, image, base)):
        first, block = block, block + len(list(together))
        lines.append(line_by(library.cdpatch_list_line, first, block - 1, kind))
    return 0, b''.join([*lines, line_by(library.cdpatch_list_end, block - base, len(image) % SIZE)]), None


def audited(library, image, base):
    """The status and the text of `audit`."""
    records = surveyed(library, image, base)
    lines = [line_by(library.cdpatch_audit_line, block, ctypes.byref(record)) for block, record in enumerate(records, base)]
    mode1 = sum(record.kind == MODE1 for record in records)
    damaged = sum(record.zeros or record.edc or record.p > 0 or record.q > 0 for record in records)
    end = line_by(library.cdpatch_audit_end, len(records), mode1, damaged, len(image) % SIZE)
    return int(any(lines)), b''.join([*lines, end]), None


def run(path, command, image, base, carry, script):
    """The status, the text, and the new image of `apply`, or None. Raises ValueError if a call has changed other bytes."""
    library = opened(path)
    if command in ('list', 'audit'):
        return (listed if command == 'list' else audited)(library, image, base)
    return patched(library, image, base, carry, script)
