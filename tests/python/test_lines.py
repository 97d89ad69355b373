"""Compares the single lines of `listing` and `audit` with the model."""

import re
from itertools import groupby

import cdpatch
import pytest
from cases import some_case
from hypothesis import given
from hypothesis import strategies as st
from image import audit_text, list_text

RECORD = cdpatch.survey(bytes(2352))[0]


@given(st.integers(0, 10 ** 9))
def test_the_lines_of_a_survey_are_those_of_the_model(number):
    case = some_case('lines', number)
    records, tail = list(cdpatch.survey(case.image, case.base)), len(case.image) % 2352
    lines, block = [], case.base
    for kind, together in groupby(cdpatch.KINDS[record.kind] for record in records):
        first, block = block, block + len(list(together))
        lines.append(cdpatch.listing_line(first, block - 1, kind))
    assert ''.join([*lines, cdpatch.listing_end(len(records), tail)]) == list_text(case.image, case.base)
    mode1 = [record for record in records if cdpatch.KINDS[record.kind] == 'mode1']
    damaged = sum(any([record.zeros, record.edc, record.p, record.q]) for record in mode1)
    lines = [cdpatch.audit_line(block, record) for block, record in enumerate(records, case.base)]
    end = cdpatch.audit_end(len(records), len(mode1), damaged, tail)
    assert ''.join([*lines, end]) == audit_text(case.image, case.base)


@pytest.mark.parametrize('first, last, kind', [(7, 6, 'mode1'), (0, 0, 'mode3'), (0, 0, 'MODE1'), (-1, 0, 'mode1'), (0, 2 ** 32, 'mode1'),
                                               (2 ** 32, 2 ** 32, 'mode1'), (2 ** 64, 2 ** 64 + 1, 'mode1')])
def test_a_run_that_no_image_has_is_refused(first, last, kind):
    with pytest.raises(ValueError):
        cdpatch.listing_line(first, last, kind)


def test_an_argument_of_another_type_is_named():
    with pytest.raises(TypeError, match='^record must be a Record of survey, not tuple$'):
        cdpatch.audit_line(1, (1, 2))
    with pytest.raises(ValueError, match="^kind must be one of nosync, mode0, mode1, mode2, other, not 'x'$"):
        cdpatch.listing_line(1, 2, 'x')


@pytest.mark.parametrize('number', [-1, 2 ** 32, 2 ** 64 + 1])
def test_a_number_that_would_wrap_is_refused(number):
    for call, *given_numbers in [(cdpatch.listing_end, number, 0), (cdpatch.audit_line, number, RECORD), (cdpatch.audit_end, number, 0, 0, 0),
                                 (cdpatch.audit_end, 0, number, 0, 0), (cdpatch.audit_end, 0, 0, number, 0)]:
        with pytest.raises(ValueError, match=f'^{number} is not 0 to 4294967295$'):
            call(*given_numbers)


@pytest.mark.parametrize('tail', [-1, 65536, 2 ** 32])
def test_a_tail_that_would_wrap_is_refused(tail):
    for call, *given_numbers in [(cdpatch.listing_end, 0, tail), (cdpatch.audit_end, 0, 0, 0, tail)]:
        with pytest.raises(ValueError, match=f'^{tail} is not 0 to 65535$'):
            call(*given_numbers)


def test_lines_of_the_largest_numbers():
    most = 2 ** 32 - 1
    assert cdpatch.listing_line(most, most, 'other') == '4294967295-4294967295 other\n'
    assert cdpatch.listing_end(most, 2351) == 'sectors 4294967295 tail 2351\n'
    assert cdpatch.audit_end(most, most, most, 2351) == 'sectors 4294967295 mode1 4294967295 damaged 4294967295 tail 2351\n'
    assert cdpatch.audit_line(most, cdpatch.survey(cdpatch.encode(bytes(3), bytes(2048)), 7)[0]) == '4294967295 address\n'
    assert cdpatch.audit_line(0, RECORD) == ''


def test_an_end_says_which_numbers_it_takes_and_takes_them():
    for call in (cdpatch.listing_end, cdpatch.audit_end):
        assert {*re.findall(r'\d{5,}', call.__doc__)} == {'65535', '4294967295'} and 'no image has' not in call.__doc__
    assert cdpatch.listing_end(1000001, 65535) == 'sectors 1000001 tail 65535\n'
    assert cdpatch.audit_end(1, 2, 3, 65535) == 'sectors 1 mode1 2 damaged 3 tail 65535\n'
