"""Builds the commands of the program from the calls of a shared libcdpatch. `check` and `apply` pass pieces of the image."""

import ctypes
import struct
from functools import lru_cache

import by_lines

SECTOR = 2352
KEPT = b'\xA5'
MORE = 40  # guard bytes after the memory that a call may write
ENTRY, INDEX, ANSWER, JOB = (struct.Struct(form) for form in ('=6I', '=Q6I', '=6I', '=5Q8I'))
PATCH_BYTES_SIZE = 2 * 4096
MOST_PATCHES, MOST_ANSWERS, LINE_SIZE = 65535, 5, 96
CARRY, LAST = 1, 2
VALID, INVALID, TOO_LONG = 0, 1, 2
ALL, PIECE, CAPACITY = 0, 1, 2
DONE, FOUND, FAILED = 0, 1, 2
PIECES = 3, 4, 446


@lru_cache
def opened(path):
    return ctypes.CDLL(path)


def buffer(size):
    return ctypes.create_string_buffer(KEPT * (size + MORE), size + MORE)


class Job:
    """A script that is applied with the calls of a library. `log` has the lines."""

    def __init__(self, path, script, base, carry):
        self.calls, self.log, self.counts, self.done = opened(path), b'', [0, 0], 0
        self.script, self.base, self.carry = ctypes.create_string_buffer(script, len(script)), base, carry
        self.room = min(script.count(b'\n') + 1, MOST_PATCHES)
        self.entries, self.patch_bytes, index = buffer(self.room * ENTRY.size), buffer(PATCH_BYTES_SIZE), buffer(INDEX.size)
        found = self.calls.cdpatch_index_script(self.script, ctypes.c_size_t(len(script)), self.entries, ctypes.c_size_t(self.room), index)
        self.count, self.version, fault, line, *_ = INDEX.unpack_from(index)
        if found == INVALID:
            self.print('fault', line, fault)
        elif found == TOO_LONG:
            self.print('failure', 0)
        self.is_valid = found == VALID

    def print(self, call, *numbers):
        line = ctypes.create_string_buffer(LINE_SIZE)
        size = getattr(self.calls, f'cdpatch_{call}_line')(*numbers, line)
        self.log += line.raw[:size]

    def next_block(self):
        """The first block of the next patch, or None if all are done."""
        return ENTRY.unpack_from(self.entries, self.done * ENTRY.size)[0] if self.done < self.count else None

    def apply(self, first, sectors, is_last):
        """Applies the patches that fit to sectors, and returns the sectors. Raises ValueError if a call writes other bytes, or stops too
        early."""
        piece, stop = buffer(len(sectors)), CAPACITY
        piece[:len(sectors)] = sectors
        while stop == CAPACITY:
            answers, done = buffer(MOST_ANSWERS * ANSWER.size), ctypes.c_size_t(12345)
            place = ctypes.addressof(self.entries) + self.done * ENTRY.size
            job = JOB.pack(ctypes.addressof(self.script), len(self.script), place, self.count - self.done, ctypes.addressof(self.patch_bytes),
                           self.version, self.base, first, self.carry * CARRY + is_last * LAST, 0, 0, 0, 0)
            stop = self.calls.cdpatch_apply_entries(ctypes.create_string_buffer(job, len(job)), piece, ctypes.c_size_t(len(sectors) // SECTOR),
                                                    answers, ctypes.c_size_t(MOST_ANSWERS), ctypes.byref(done))
            for number, result, block, offset, *_ in ANSWER.iter_unpack(answers.raw[:done.value * ANSWER.size]):
                self.counts[result != 0] += 1
                self.print('outcome', number, result, block, offset)
            self.done += done.value
            if answers.raw[done.value * ANSWER.size:].strip(KEPT) or piece.raw[len(sectors):].strip(KEPT):
                raise ValueError('bytes changed that should stay')
        if stop > PIECE or (stop == ALL) != (self.done == self.count) or (is_last and stop):
            raise ValueError(f'a call stopped for reason {stop}')
        return piece.raw[:len(sectors)]


def made_in_pieces(path, command, image, base, carry, script, most):
    """The status, the text, and the new image or None, with pieces of at most `most` sectors."""
    job = Job(path, script, base, carry)
    if not job.is_valid:
        return FAILED, job.log, None
    whole = len(image) // SECTOR * SECTOR
    piece, rest, out, first, is_last = b'', image[:whole], b'', base, False
    while not is_last:
        size = most * SECTOR - len(piece)
        is_last = len(rest) < size
        piece, rest = job.apply(first, piece + rest[:size], is_last), rest[size:]
        block = job.next_block()
        sent = len(piece) if block is None else min(len(piece), (block - first) * SECTOR)
        out, piece, first = out + piece[:sent], piece[sent:], first + sent // SECTOR
    job.print('last', *job.counts)
    return FOUND if job.counts[1] else DONE, job.log, out + image[whole:] if command == 'apply' else None


def run(path, command, image, base, carry, script):
    """The status, the text, and the new image or None. Raises ValueError if pieces of other sizes give another result."""
    if command in ('list', 'audit'):
        return by_lines.run(path, command, image, base, carry, script)
    made = made_in_pieces(path, command, image, base, carry, script, len(image) // SECTOR + 1)
    for most in PIECES:
        if made_in_pieces(path, command, image, base, carry, script, most) != made:
            raise ValueError(f'pieces of {most} sectors make something else')
    return made
