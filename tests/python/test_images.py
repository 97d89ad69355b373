"""Compares the commands on images in memory with the model of tests/model."""

import io
import mmap
import tracemalloc

import cdpatch
import pytest
from cases import some_case, wanted
from forms import in_each_form
from hypothesis import given
from hypothesis import strategies as st
from messages import MESSAGES

SECTOR = cdpatch.encode(cdpatch.address(0), bytes(2048))
SCRIPT = b'cdpatch 1\nset 0 0 41\n'
NOT_BASES = [-1, -2 ** 32, 449850, 2 ** 32, 2 ** 32 + 1, 2 ** 64]


def answer_of(case, image, script):
    """The status, the text, and the new image of `apply`, or None."""
    try:
        if case.command == 'list':
            return 0, cdpatch.listing(image, case.base).encode(), None
        if case.command == 'audit':
            report = cdpatch.audit(image, case.base)
            return int(report.found), report.text.encode(), None
        if case.command == 'check':
            report = cdpatch.check(image, script, case.base, case.carry)
            return int(report.found), report.text.encode(), None
        made = cdpatch.apply(image, script, case.base, case.carry)
        return int(made.found), made.text.encode(), bytes(made.image)
    except cdpatch.Failed as fault:
        return 2, f'{fault}\n'.encode(), None


@given(st.integers(0, 10 ** 9))
def test_commands_agree_with_the_model(number):
    case = some_case('images', number)
    forms, scripts = in_each_form(case.image), in_each_form(case.script)
    assert answer_of(case, forms[number % len(forms)], scripts[number % len(scripts)]) == wanted(case)


@given(st.integers(0, 10 ** 9), st.integers(0, 40))
def test_apply_writes_into_a_given_buffer_and_leaves_the_rest(number, more):
    case = some_case('out', number)
    made = wanted(case)
    if case.command != 'apply' or made[2] is None:
        return
    out = bytearray(b'\xA5' * (len(case.image) + more))
    text, found, _ = cdpatch.apply(case.image, case.script, case.base, case.carry, out=out)
    assert (int(found), text.encode(), out) == (made[0], made[1], made[2] + b'\xA5' * more)


def test_apply_writes_into_the_map_of_a_new_file(tmp_path):
    image, path = SECTOR * 20 + b'tail', tmp_path / 'out'
    with open(path, 'x+b') as file:
        file.truncate(len(image))
        with mmap.mmap(file.fileno(), 0) as out:
            report = cdpatch.apply(image, SCRIPT, out=out)
    made = cdpatch.apply(image, SCRIPT)
    assert path.read_bytes() == made.image and report == made[1:]


def test_an_output_that_is_too_small_or_read_only_is_refused():
    for size in (0, 1, len(SECTOR) - 1):
        with pytest.raises(ValueError, match=f'out has {size} bytes, and the image 2352'):
            cdpatch.apply(SECTOR, SCRIPT, out=bytearray(size))
    with pytest.raises(BufferError):
        cdpatch.apply(SECTOR, SCRIPT, out=bytes(2352))


def test_an_output_that_shares_bytes_is_refused():
    room = bytearray(SECTOR + SECTOR + SCRIPT)
    image, script = memoryview(room)[:2352], memoryview(room)[4704:]
    for out in (image, memoryview(room)[1:2353], memoryview(room)[2351:4703], memoryview(room)):
        with pytest.raises(ValueError, match='overlaps'):
            cdpatch.apply(image, SCRIPT, out=out)
    with pytest.raises(ValueError, match='overlaps'):
        cdpatch.apply(image, script, out=memoryview(room)[2352 + len(SCRIPT):])
    assert room == SECTOR + SECTOR + SCRIPT
    assert cdpatch.apply(image, script, out=memoryview(room)[2352:4704])[:2] == ('line 2: applied\napplied 1 refused 0\n', False)
    assert room[2352:4704] == cdpatch.with_user(SECTOR, 0, b'\x41')


@pytest.mark.parametrize('base', NOT_BASES)
def test_a_base_that_no_image_has_is_refused(base):
    out = bytearray(2352)
    for call in (lambda: cdpatch.listing(SECTOR, base), lambda: cdpatch.audit(SECTOR, base), lambda: cdpatch.check(SECTOR, SCRIPT, base),
                 lambda: cdpatch.apply(SECTOR, SCRIPT, base), lambda: cdpatch.apply(SECTOR, SCRIPT, base, out=out)):
        with pytest.raises(cdpatch.Failed, match=f'^base {base} is not 0 to 449849$'):
            call()
    assert out == bytes(2352)


def test_a_script_of_many_lines_takes_little_memory():
    script = b'cdpatch 1\n' + b'\n' * 2000000 + b'set 0 0 41'
    tracemalloc.start()
    report = cdpatch.check(b'', script)
    peak = tracemalloc.get_traced_memory()[1]
    tracemalloc.stop()
    assert report[:2] == ('line 2000002: refused: no block 0\napplied 0 refused 1\n', True) and peak < 12000000


def test_the_longest_log_is_whole():
    script = b'cdpatch 1\n' + b'\n' * 10000000 + b'set 999999999 2047 41\n' * 65535
    lines = cdpatch.check(b'', script).text.splitlines()
    assert len(lines) == 65536 and lines[-2:] == ['line 10065536: refused: no block 999999999', 'applied 0 refused 65535']


def test_the_message_of_a_failure_is_one_line():
    for script, text in [(b'', f'script line 1: {MESSAGES["no_head"]}'), (b'cdpatch 1\nput\n', f'script line 2: {MESSAGES["unknown_verb"]}')]:
        for call in (cdpatch.check, cdpatch.apply):
            with pytest.raises(cdpatch.Failed) as failed:
                call(SECTOR, script)
            assert str(failed.value) == text


def test_each_sector_is_patched_at_its_place():
    made = cdpatch.apply(SECTOR * 6 + b'tail', b'cdpatch 1\nset 104 5 4142\nset 101 0 41\n', 100)
    first, second = cdpatch.with_user(SECTOR, 0, b'A'), cdpatch.with_user(SECTOR, 5, b'AB')
    assert made[:3] == (SECTOR + first + SECTOR * 2 + second + SECTOR + b'tail', 'line 3: applied\nline 2: applied\napplied 2 refused 0\n', False)


def test_without_a_base_the_first_sector_is_block_0():
    image = SECTOR + cdpatch.encode(cdpatch.address(1), bytes(2048))
    made = cdpatch.with_user(SECTOR, 0, b'A') + image[2352:]
    text = 'line 2: applied\napplied 1 refused 0\n'
    assert cdpatch.listing(image) == '0-1 mode1\nsectors 2 tail 0\n'
    assert cdpatch.audit(image) == ('sectors 2 mode1 2 damaged 0 tail 0\n', False, 2, 2, 0, 0)
    assert not any(record.address for record in cdpatch.survey(image))
    assert cdpatch.check(image, SCRIPT)[:2] == (text, False)
    assert cdpatch.apply(image, SCRIPT)[:3] == (made, text, False)
    writer = io.BytesIO()
    assert cdpatch.patch(io.BytesIO(image), SCRIPT, writer)[:2] == (text, False)
    assert writer.getvalue() == made


def test_without_carry_damage_refuses_a_patch():
    damaged = SECTOR[:-1] + bytes([SECTOR[-1] ^ 1])
    for more in ({}, {'carry': True}):
        writer = io.BytesIO()
        answers = [cdpatch.check(damaged, SCRIPT, **more), cdpatch.apply(damaged, SCRIPT, **more),
                   cdpatch.patch(io.BytesIO(damaged), SCRIPT, writer, **more)]
        assert [answer.found for answer in answers] == [not more] * 3
        assert [(made == damaged) for made in (answers[1].image, writer.getvalue())] == [not more] * 2


def test_an_empty_image():
    assert cdpatch.listing(b'') == 'sectors 0 tail 0\n'
    assert cdpatch.audit(b'') == ('sectors 0 mode1 0 damaged 0 tail 0\n', False, 0, 0, 0, 0)
    assert cdpatch.apply(b'', b'cdpatch 1') == (b'', 'applied 0 refused 0\n', False, ())


def test_the_outcome_of_each_patch_is_told():
    damaged = SECTOR[:-1] + bytes([SECTOR[-1] ^ 1])
    script = b'cdpatch 1\nset 9 0 41\nset 2 0 41\nset 1 5 00FF was 0001\nset 0 0 41\nset 3 0 41\n'
    due = ((5, cdpatch.Result.OK, 0, 0), (4, cdpatch.Result.DIFFERS, 1, 6), (3, cdpatch.Result.NOT_MODE1, 2, 0), (6, cdpatch.Result.DAMAGED, 3, 0),
           (2, cdpatch.Result.NO_BLOCK, 9, 0))
    image = SECTOR * 2 + bytes(2352) + damaged
    for report in cdpatch.check(image, script), cdpatch.apply(image, script), cdpatch.patch(io.BytesIO(image), script, io.BytesIO()):
        assert report.outcomes == due


def test_an_audit_has_its_numbers():
    damaged = SECTOR[:-1] + bytes([SECTOR[-1] ^ 1])
    found = cdpatch.audit(SECTOR + damaged + bytes(2352) + SECTOR + b'tail')
    assert (found.sectors, found.mode1, found.damaged, found.tail) == (4, 3, 1, 4) and found.text.count('address') == 2


def patched_through(image, script, base=0):
    """The report of `patch`."""
    return cdpatch.patch(io.BytesIO(image), script, io.BytesIO(), base)


@pytest.mark.parametrize('call', [cdpatch.check, cdpatch.apply, patched_through])
def test_a_script_for_another_base_is_refused(call):
    for script, line in (b'# base 150\n' + SCRIPT, 1), (SCRIPT + b'# base 150 \t\r\n', 3):
        with pytest.raises(cdpatch.Failed, match=f'^line {line} of the script says base 150, but the image begins with block 0$'):
            call(SECTOR, script)
    assert call(SECTOR, b'cdpatch 1\n# base 150\nset 150 0 41\n', 150).text == 'line 3: applied\napplied 1 refused 0\n'


@pytest.mark.parametrize('offset, was', [(0, b'4546'), (2046, b'4700'), (2047, b'4647')])
def test_patches_on_one_sector_meet_at_each_cut(offset, was):
    image = b''.join(cdpatch.encode(cdpatch.address(block), bytes(2048)) for block in range(60))
    lines = [b'set %d %d 454647\nset %d 0 4142 was %s\n' % (block, offset, block + (offset > 0), was) for block in range(0, 58, 2)]
    writer = io.BytesIO()
    script = b'cdpatch 1\n' + b''.join(lines)
    made = cdpatch.apply(image, script)
    assert cdpatch.patch(io.BytesIO(image), script, writer) == cdpatch.check(image, script) == made[1:]
    assert writer.getvalue() == made.image and made.text.endswith('applied 58 refused 0\n')
