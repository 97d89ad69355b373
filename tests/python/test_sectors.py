"""Compares the calls on sectors with the model of tests/model."""

import pickle
import tracemalloc
from ctypes import create_string_buffer
from random import Random

import cdpatch
import pytest
from cases import some_case
from hypothesis import example, given
from hypothesis import strategies as st
from model import DAMAGED, NOT_MODE1, OK, OUT_OF_RANGE, broken, changed, choice, content_with, harms_of, parity_of, some_copies, some_sector
from sector import NO_DEFECT, SYNC, address_of, consistent, damage, edc_bytes, kind, sector_with

ERRORS = {NOT_MODE1: cdpatch.NotMode1, DAMAGED: cdpatch.Damaged, OUT_OF_RANGE: cdpatch.OutOfRange}
SECTOR = cdpatch.encode(cdpatch.address(0), bytes(range(256)) * 8)
DAMAGED_SECTOR = SECTOR[:-1] + bytes([SECTOR[-1] ^ 1])
FAR = [-1, -2048, -2 ** 63, 1 - 2 ** 64, -2 ** 64, 2048, 2 ** 31, 2 ** 32, 2 ** 63, 2 ** 64 - 1, 2 ** 64, 2 ** 64 + 16, 2 ** 200]


def result_of(call, *arguments, **named):
    """The result of a change, and the sector that it leaves."""
    try:
        return OK, call(*arguments, **named)
    except tuple(ERRORS.values()) as error:
        return next(result for result, kind_of_error in ERRORS.items() if isinstance(error, kind_of_error)), arguments[0]


def finding(found):
    """The defect as `audit` prints it."""
    return (found.zeros * ' zeros' + found.edc * ' edc' + (found.p > 0) * f' p={found.p}' + (found.q > 0) * f' q={found.q}')


@given(st.integers(0, 10 ** 9))
def test_each_call_agrees_with_the_model(seed):
    random = Random(seed)
    sector, address = some_sector(random), random.randbytes(3)
    assert cdpatch.edc(sector) == int.from_bytes(edc_bytes(sector, 0), 'little')
    assert cdpatch.kind(sector) == kind(sector)
    assert cdpatch.encode(address, sector[16:2064]) == sector_with(SYNC + address + b'\1' + sector[16:2064], NO_DEFECT)
    assert cdpatch.is_consistent(sector) == consistent(sector)
    assert finding(cdpatch.defect(sector)) == damage(sector)
    assert cdpatch.broken(sector) == broken(sector)
    assert cdpatch.with_parity(sector) == parity_of(sector)
    rebuilt = (OK, sector_with(sector[:2064], NO_DEFECT)) if kind(sector) == 'mode1' else (NOT_MODE1, sector)
    assert result_of(cdpatch.rebuild, sector) == rebuilt
    for carry in (False, True):
        readdressed = content_with(sector, 12, address)
        assert result_of(cdpatch.with_address, sector, address, carry=carry) == changed(sector, readdressed, not carry)


@given(st.integers(0, 10 ** 9))
def test_the_choice_among_copies_agrees_with_the_model(seed):
    random = Random(seed)
    sector = some_sector(random)
    copies = some_copies(random, sector)
    number, place = choice(sector[12:15], sector, copies)
    wanted = (place, cdpatch.FITS[number]) if number else None
    assert cdpatch.merge_sector(sector[12:15], sector, copies) == wanted
    assert cdpatch.merge_sector(bytearray(sector[12:15]), memoryview(sector), (bytearray(copy) for copy in copies)) == wanted


def test_the_copy_that_fits_best_is_chosen():
    home, other = SECTOR[12:15], cdpatch.encode(SECTOR[12:15], bytes(2048))
    wrong_edc = SECTOR[:2064] + b'EDC!' + SECTOR[2068:]
    lost = bytes(2352)
    moved = cdpatch.with_address(SECTOR, b'\0\2\1')
    for sector, copies, wanted in [(DAMAGED_SECTOR, [other, SECTOR, SECTOR], (1, 'edc')), (wrong_edc, [moved, other, SECTOR], (2, 'data')),
                                   (lost, [DAMAGED_SECTOR, moved, other, SECTOR], (2, 'neither')), (lost, [moved], None), (lost, [], None),
                                   (SECTOR, [other], None), (moved, [SECTOR], None)]:
        assert cdpatch.merge_sector(home, sector, copies) == wanted
    found = cdpatch.merge_sector(home, DAMAGED_SECTOR, [SECTOR])
    assert (found.place, found.fit, cdpatch.FITS) == (0, 'edc', ('none', 'neither', 'data', 'edc'))


@given(st.integers(0, 10 ** 9))
def test_parity_makes_a_sector_sound_as_it_was_or_does_nothing(seed):
    random = Random(seed)
    sound = sector_with(SYNC + random.randbytes(3) + b'\1' + random.randbytes(2048), NO_DEFECT)
    harmed = bytearray(sound)
    places, is_sure = harms_of(random)
    for place in places:
        harmed[place] ^= random.randrange(1, 256)
    corrected = cdpatch.correct_sector(harmed)
    assert corrected == sound or (corrected is None and not is_sure)
    own = create_string_buffer(bytes(harmed), 2352)
    assert cdpatch.library.cdpatch_correct_sector(own) == (corrected is not None)
    assert own.raw == (corrected or harmed)


@given(st.integers(0, 10 ** 9))
def test_a_correction_is_consistent_and_keeps_header_and_edc(seed):
    sector = some_sector(Random(seed))
    corrected = cdpatch.correct_sector(sector)
    if corrected is None:
        return
    assert (kind(sector) == 'mode1' or corrected[12:] == sector[12:]) and not consistent(sector) and consistent(corrected)
    assert (corrected[12:16], corrected[2064:2068]) == (sector[12:16], sector[2064:2068])


def test_what_parity_corrects():
    for first, count, is_corrected in [(16, 1, True), (16, 0, False), (2063, 1, True), (2068, 8, True), (2076, 80, True), (500, 80, True),
                                       (500, 200, False), (2064, 1, False), (12, 1, False), (0, 12, True), (11, 2, False)]:
        harmed = bytes(byte ^ (0xFF if first <= at < first + count else 0) for at, byte in enumerate(SECTOR))
        assert cdpatch.correct_sector(harmed) == (SECTOR if is_corrected else None), first


@given(st.integers(0, 10 ** 9), st.one_of(st.integers(0, 2048), st.sampled_from(FAR)), st.binary(max_size=2050), st.booleans())
@example(0, 0, bytes(2048), False)
@example(0, 2047, b'\1', True)
@example(0, 2048, b'', False)
def test_user_bytes_agree_with_the_model(seed, offset, new, carry):
    sector = some_sector(Random(seed))
    inside = 0 <= offset and offset + len(new) <= 2048
    content = content_with(sector, 16 + offset, new) if inside else b''
    assert result_of(cdpatch.with_user, sector, offset, new, carry=carry) == changed(sector, content, not carry, inside)


@pytest.mark.parametrize('offset', FAR)
def test_an_offset_of_any_size_is_out_of_range(offset):
    for new in (b'', b'Z', b'ZZ') if offset != 2048 else (b'Z', b'ZZ'):
        for carry in (False, True):
            with pytest.raises(cdpatch.OutOfRange):
                cdpatch.with_user(SECTOR, offset, new, carry=carry)
    with pytest.raises(cdpatch.Damaged):
        cdpatch.with_user(DAMAGED_SECTOR, offset, b'ZZ')
    with pytest.raises(cdpatch.NotMode1):
        cdpatch.with_user(bytes(2352), offset, b'ZZ')


@pytest.mark.parametrize('block', [-2 ** 64, -2 ** 32, -1, 0, 4349, 4350, 449849, 449850, 2 ** 32 - 1, 2 ** 32, 2 ** 64, 2 ** 64 + 1])
def test_addresses(block):
    assert cdpatch.address(block) == (address_of(block) if block >= 0 else None)


@pytest.mark.parametrize('size', [0, 1, 2351, 2353, 4704])
def test_a_sector_of_another_size_is_refused(size):
    sector = (SECTOR + SECTOR + SECTOR)[:size]
    calls = [(call, ()) for call in (cdpatch.kind, cdpatch.is_consistent, cdpatch.defect, cdpatch.broken, cdpatch.with_parity,
                                     cdpatch.rebuild, cdpatch.correct_sector)]
    calls += [(lambda sector: cdpatch.merge_sector(bytes(3), sector, [SECTOR]), ()),
              (lambda sector: cdpatch.merge_sector(bytes(3), SECTOR, [SECTOR, sector]), ())]
    for call, more in [*calls, (cdpatch.with_user, (0, b'A')), (cdpatch.with_address, (bytes(3),))]:
        with pytest.raises(ValueError, match=f'^expected 2352 bytes, got {size}$'):
            call(sector, *more)


def test_an_address_or_user_data_of_another_size_is_refused():
    for address, user in [(b'', bytes(2048)), (bytes(4), bytes(2048)), (bytes(3), bytes(2047)), (bytes(3), bytes(2049)), (bytes(3), b'')]:
        with pytest.raises(ValueError, match='^expected'):
            cdpatch.encode(address, user)
    for address in (b'', bytes(2), bytes(4)):
        for call in (cdpatch.with_address, lambda sector, address: cdpatch.merge_sector(address, sector, [sector])):
            with pytest.raises(ValueError, match='^expected 3 bytes'):
                call(SECTOR, address)


def test_copies_are_given_one_by_one():
    for copies in (SECTOR, 7, None, ['copy'], [SECTOR, 7]):
        with pytest.raises(TypeError):
            cdpatch.merge_sector(SECTOR[12:15], DAMAGED_SECTOR, copies)


def test_numbers_of_other_types_are_refused():
    for call in (lambda: cdpatch.with_user(SECTOR, 1.0, b'A'), lambda: cdpatch.with_user(SECTOR, '1', b'A'), lambda: cdpatch.address(1.5),
                 lambda: cdpatch.survey(SECTOR, 0.0), lambda: cdpatch.audit(SECTOR, 0.5), lambda: cdpatch.listing(SECTOR, 0.0),
                 lambda: cdpatch.patch(None, b'', None, 0.0)):
        with pytest.raises(TypeError):
            call()


class Seven:
    """A whole number of a different type, such as numpy's."""

    def __index__(self):
        return 7


def test_whole_numbers_of_other_types_are_taken():
    assert cdpatch.address(Seven()) == address_of(7)
    assert cdpatch.with_user(SECTOR, Seven(), b'A') == cdpatch.with_user(SECTOR, 7, b'A')
    assert bytes(cdpatch.survey(SECTOR, Seven())) == bytes(cdpatch.survey(SECTOR, 7))
    assert cdpatch.audit(SECTOR, Seven()) == cdpatch.audit(SECTOR, 7)


def test_the_records_of_a_survey_can_be_pickled_and_printed():
    records = cdpatch.survey(SECTOR + DAMAGED_SECTOR, 1)
    copy = pickle.loads(pickle.dumps(records))
    assert len(copy) == 2 and bytes(copy) == bytes(records) and pickle.loads(pickle.dumps(copy[1])).q == 1
    assert repr(copy[1]) == 'Record(kind=2, address=True, zeros=False, edc=False, p=0, q=1)'
    assert len(pickle.loads(pickle.dumps(cdpatch.survey(b'')))) == 0


@given(st.integers(0, 10 ** 9))
def test_a_survey_agrees_with_the_model(number):
    case = some_case('survey', number)
    records = cdpatch.survey(case.image, case.base)
    assert len(records) == len(case.image) // 2352
    for i, record in enumerate(records):
        sector = case.image[2352 * i:2352 * i + 2352]
        mode1 = kind(sector) == 'mode1'
        assert cdpatch.KINDS[record.kind] == kind(sector)
        assert record.address == (mode1 and address_of(case.base + i) not in (None, sector[12:15]))
        assert finding(record) == (damage(sector) if mode1 else '')


def test_the_blocks_of_a_survey():
    for block in (-1, 2 ** 32 - 2, 2 ** 32 - 1, 2 ** 32, 2 ** 64, 2 ** 64 + 7, -2 ** 32):
        with pytest.raises(ValueError, match=f'^the blocks of 2 sectors from block {block} on are not all 0 to 4294967294$'):
            cdpatch.survey(SECTOR + SECTOR, block)
    assert [(record.kind, record.address) for record in cdpatch.survey(SECTOR + SECTOR, 2 ** 32 - 3)] == [(2, False), (2, False)]
    assert len(cdpatch.survey(b'', 2 ** 32 - 1)) == 0


def test_without_carry_damage_refuses_a_change():
    with pytest.raises(cdpatch.Damaged):
        cdpatch.with_user(DAMAGED_SECTOR, 0, b'A')
    with pytest.raises(cdpatch.Damaged):
        cdpatch.with_address(DAMAGED_SECTOR, cdpatch.address(1))
    assert cdpatch.with_user(DAMAGED_SECTOR, 0, b'A', True)[16:17] == b'A'
    assert cdpatch.with_address(DAMAGED_SECTOR, cdpatch.address(1), True)[12:15] == cdpatch.address(1)


def test_a_survey_takes_six_bytes_for_each_sector():
    sectors = bytes(2352) * 5000
    tracemalloc.start()
    records = cdpatch.survey(sectors)
    peak = tracemalloc.get_traced_memory()[1]
    tracemalloc.stop()
    assert memoryview(records).nbytes == 6 * 5000 and peak < 7 * 5000
