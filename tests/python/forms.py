"""Objects of many types with the same bytes."""

import mmap
from array import array
from ctypes import c_char, c_uint64


def in_bytearray(data):
    return bytearray(data)


def in_the_midst(data):
    return memoryview(b'before' + data + b'after')[6:6 + len(data)]


def cast_to(letter, size):
    def made(data):
        return None if len(data) % size else memoryview(data).cast(letter)
    return made


def in_array(letter, size):
    def made(data):
        return None if len(data) % size else array(letter, data)
    return made


def in_rows(data):
    return None if len(data) % 8 or not data else memoryview(data).cast('B', [len(data) // 8, 2, 4])


def in_c_numbers(data):
    return None if len(data) % 8 else (c_uint64 * (len(data) // 8)).from_buffer_copy(data)


def in_c_bytes(data):
    return (c_char * len(data)).from_buffer_copy(data)


def mapped(data):
    """A read-only map, like that of a file opened for reading."""
    if not data:
        return None
    made = mmap.mmap(-1, len(data))
    made[:] = data
    return memoryview(made).toreadonly()


FORMS = [bytes, in_bytearray, memoryview, in_the_midst, *(cast_to(*pair) for pair in [('H', 2), ('I', 4), ('Q', 8), ('d', 8)]),
         *(in_array(*pair) for pair in [('B', 1), ('H', 2), ('Q', 8)]), in_rows, in_c_numbers, in_c_bytes, mapped]


def in_each_form(data):
    """Objects with these bytes, of all types that can have this size."""
    return [made for made in (form(data) for form in FORMS) if made is not None]
