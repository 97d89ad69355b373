"""The package reads any object with a buffer in place, and releases it."""

import ctypes

import cdpatch
import pytest
from cdpatch._memory import Held
from forms import in_each_form

SECTOR = cdpatch.encode(cdpatch.address(16), bytes(range(256)) * 8)
DAMAGED = SECTOR[:2351] + bytes([SECTOR[2351] ^ 1])
OTHER = cdpatch.encode(cdpatch.address(17), bytes(2048))
IMAGE = SECTOR + OTHER + DAMAGED + bytes(16)
SCRIPT = b'cdpatch 2\n# 64 bytes\nset 17 0 41\nset 18 0 41\naddress 16 00:00:01'
CALLS = [(call, [SECTOR]) for call in (cdpatch.edc, cdpatch.kind, cdpatch.is_consistent, cdpatch.defect, cdpatch.broken, cdpatch.rebuild,
                                       cdpatch.with_parity)]
CALLS += [(cdpatch.edc, [bytes(range(64))]), (cdpatch.encode, [b'123', bytes(range(256)) * 8]),
          (lambda sector, new: cdpatch.with_user(sector, 8, new), [SECTOR, b'AAAABBBBCCCCDDDD']),
          (lambda sector, new: cdpatch.with_user(sector, 8, new, carry=True), [DAMAGED, b'AAAABBBB']),
          (cdpatch.with_address, [SECTOR, b'123']), (cdpatch.correct_sector, [DAMAGED]),
          (lambda address, sector, copy: cdpatch.merge_sector(address, sector, [OTHER, copy]), [SECTOR[12:15], DAMAGED, SECTOR]),
          (lambda image: bytes(cdpatch.survey(image, 16)), [IMAGE]),
          (lambda image: cdpatch.listing(image, 16), [IMAGE]), (lambda image: cdpatch.audit(image, 16), [IMAGE]),
          (lambda image, script: cdpatch.check(image, script, 16), [IMAGE, SCRIPT]),
          (lambda image, script: cdpatch.apply(image, script, 16), [IMAGE, SCRIPT])]


def place_of(data):
    return ctypes.addressof(ctypes.c_char.from_buffer(data))


@pytest.mark.parametrize('number', range(len(CALLS)))
def test_any_object_with_a_buffer_is_read_whatever_its_items(number):
    call, arguments = CALLS[number]
    wanted = call(*arguments)
    for i, data in enumerate(arguments):
        for form in in_each_form(data):
            assert call(*arguments[:i], form, *arguments[i + 1:]) == wanted, (type(form), i)


def test_the_output_of_apply_may_be_of_any_items():
    wanted = cdpatch.apply(IMAGE, SCRIPT, 16)
    for letter in 'BHIQ':
        out = bytearray(len(IMAGE))
        assert cdpatch.apply(IMAGE, SCRIPT, 16, out=memoryview(out).cast(letter)) == wanted[1:]
        assert out == wanted.image


def test_bytes_are_read_where_they_stand():
    data = bytearray(SECTOR)
    for form in (data, memoryview(data), memoryview(data).cast('I'), memoryview(data).toreadonly()):
        with Held(form) as held:
            assert (held.place, held.size) == (place_of(data), 2352)
    with Held(memoryview(data)[16:2064]) as held:
        assert (held.place, held.size) == (place_of(data) + 16, 2048)


def test_what_is_held_cannot_move_and_is_let_go():
    data = bytearray(SECTOR)
    with Held(data):
        with pytest.raises(BufferError):
            data.append(0)
    data.append(0)
    with pytest.raises(ValueError) as kept:
        Held(data, 2352)
    data.append(0)
    assert str(kept.value) == 'expected 2352 bytes, got 2353'


def test_each_call_lets_go_of_what_it_has_read():
    for call, arguments in CALLS:
        lent = [bytearray(data) for data in arguments]
        call(*lent)
        for data in lent:
            data.append(0)


def test_a_call_that_fails_lets_go_while_its_error_is_kept():
    for call, error in [(lambda lent, new: cdpatch.with_user(lent, 0, new), cdpatch.Damaged), (cdpatch.apply, cdpatch.Failed),
                        (lambda lent, new: cdpatch.encode(new, lent), ValueError), (cdpatch.with_address, ValueError)]:
        lent, new = bytearray(DAMAGED), bytearray(b'A')
        with pytest.raises(error) as kept:
            call(lent, new)
        lent.append(0)
        new.append(0)
        assert kept.value


@pytest.mark.parametrize('number', range(len(CALLS)))
def test_each_call_refuses_bytes_that_are_not_in_a_row(number):
    call, arguments = CALLS[number]
    for i, data in enumerate(arguments):
        apart = memoryview(bytes(byte for each in data for byte in (each, 0)))[::2]
        assert bytes(apart) == data
        with pytest.raises(BufferError):
            call(*arguments[:i], apart, *arguments[i + 1:])


def test_bytes_that_are_not_in_a_row_are_refused():
    for data in (memoryview(bytes(4704))[::2], memoryview(bytes(4704)).cast('H')[::-1]):
        with pytest.raises(BufferError):
            cdpatch.is_consistent(data)
    with pytest.raises(BufferError):
        cdpatch.apply(IMAGE, SCRIPT, 16, out=memoryview(bytearray(2 * len(IMAGE)))[::2])


def test_an_object_without_a_buffer_is_refused():
    for data in ('text', 7, None, [1, 2]):
        for call in (cdpatch.edc, cdpatch.is_consistent, cdpatch.audit, cdpatch.survey):
            with pytest.raises(TypeError):
                call(data)


def test_no_call_changes_what_it_is_given():
    for call, arguments in CALLS:
        lent = [bytearray(data) for data in arguments]
        call(*lent)
        assert lent == arguments
