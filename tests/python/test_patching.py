"""Patching an image from a reader to a writer."""

import io
import mmap
import os
import re
import socket
import subprocess
import textwrap
import threading

import cdpatch
import pytest
from cases import some_case, wanted
from cdpatch._numbers import MOST_SCRIPT_BYTES
from hypothesis import given
from hypothesis import strategies as st
from messages import MESSAGES

SECTOR = cdpatch.encode(cdpatch.address(0), bytes(2048))
DAMAGED_SECTOR = SECTOR[:-1] + bytes([SECTOR[-1] ^ 1])
IMAGE = SECTOR * 9 + b'tail'
SCRIPT = b'cdpatch 1\nset 5 2000 ' + b'41' * 4096 + b'\nset 5 1 4243 was 0000\nset 2 0 41\nset 7 0 41\n'
PATCHED = cdpatch.apply(IMAGE, SCRIPT)
EACH_SECTOR = b'cdpatch 1\n' + b''.join(b'set %d 0 41\n' % block for block in range(9))
MOST_HELD = 65536
PIECES = st.lists(st.integers(1, 5000), min_size=1, max_size=8)


class InPieces:
    """A reader that returns at most these sizes in turn, or a writer that accepts no more."""

    def __init__(self, data, sizes):
        self.inner, self.sizes, self.turn = io.BytesIO(data), sizes, 0

    def size(self, most):
        self.turn += 1
        return min(most, self.sizes[self.turn % len(self.sizes)])

    def read(self, size):
        return self.inner.read(self.size(size))

    def write(self, data):
        return self.inner.write(data[:self.size(len(data))])


class Counting:
    """A reader and writer that record the number of bytes between them, and its maximum."""

    def __init__(self, data):
        self.inner, self.held, self.most = io.BytesIO(data), 0, 0

    def read(self, size):
        data = self.inner.read(size)
        self.held += len(data)
        self.most = max(self.most, self.held)
        return data

    def write(self, data):
        self.held -= len(data)
        return len(data)


class Answering:
    """A reader or writer that behaves as given after some calls; the reader ends after one. Until then it reads at most `most` bytes."""

    def __init__(self, data, first, answer, most=MOST_HELD):
        self.inner, self.left, self.answer = InPieces(data, [most]), first, answer

    def read(self, size):
        self.left -= 1
        if self.left == -1:
            return self.answer(size)
        return self.inner.read(size) if self.left >= 0 else b''

    def write(self, data):
        self.left -= 1
        return self.inner.inner.write(data) if self.left >= 0 else self.answer(data)


def raising(error):
    def answer(_):
        raise error
    return answer


def patched(image, script, base=0, carry=False):
    """The result of `patch` on an image in memory."""
    writer = io.BytesIO()
    report = cdpatch.patch(io.BytesIO(image), script, writer, base, carry)
    return (writer.getvalue(), *report[:2])


@given(st.integers(0, 10 ** 9), PIECES, PIECES)
def test_patch_agrees_with_the_model_for_any_reader_and_writer(number, read, written):
    case = some_case('patching', number)
    if case.command not in ('check', 'apply'):
        return
    status, text, _ = wanted(case)
    writer = InPieces(b'', written)
    try:
        report = cdpatch.patch(InPieces(case.image, read), case.script, writer, case.base, case.carry)
    except cdpatch.Failed as fault:
        assert (status, text, writer.inner.getvalue()) == (2, f'{fault}\n'.encode(), b'')
        return
    out = wanted(case._replace(command='apply'))[2]
    assert (int(report.found), report.text.encode(), writer.inner.getvalue()) == (status, text, out)


@pytest.mark.parametrize('patches', [
    b'', b'set 3 0 41\n', b'set 3 2047 ' + b'41' * 4096 + b'\nset 4 0 42\nset 5 0 42\nset 999 0 41\n',
    b''.join(b'set %d 2047 ' % block + b'41' * 2050 + b'\n' for block in range(100))])
def test_no_more_than_64_kilobytes_are_held(patches):
    between = Counting(IMAGE * 20)
    cdpatch.patch(between, b'cdpatch 1\n' + patches, between)
    assert between.most <= MOST_HELD and between.held == 0


@pytest.mark.parametrize('taken', [1, 65535])
def test_a_writer_may_take_less_of_many_bytes_than_it_is_given(taken):
    writer = InPieces(b'', [taken, 30000, 70000])
    image = SECTOR * 90 + b'tail'
    assert cdpatch.patch(io.BytesIO(image), b'cdpatch 1\nset 80 0 41\n', writer).text == 'line 2: applied\napplied 1 refused 0\n'
    assert writer.inner.getvalue() == cdpatch.apply(image, b'cdpatch 1\nset 80 0 41\n').image


def test_a_patch_meets_three_sectors():
    script = b'cdpatch 1\nset 6 2047 ' + b'41' * 2050 + b'\nset 7 2047 ' + b'41' * 2050 + b'\n'
    made = patched(IMAGE, script)
    assert made[1] == 'line 2: applied\nline 3: refused: no block 9\napplied 1 refused 1\n'
    assert made[0][8 * 2352:9 * 2352] == cdpatch.with_user(SECTOR, 0, b'\x41')


def test_patches_of_equal_blocks_stay_in_the_order_of_their_lines():
    script = b'cdpatch 1\nset 3 0 41\nset 1 0 44\nset 3 0 42 was 41\nset 1 0 45 was 44\nset 3 0 43 was 42\n'
    log = 'line 3: applied\nline 5: applied\nline 2: applied\nline 4: applied\nline 6: applied\napplied 5 refused 0\n'
    assert patched(IMAGE, script)[1:] == (log, False)
    assert patched(IMAGE, script)[0] == cdpatch.apply(IMAGE, script).image


def test_damage_refuses_a_patch_or_is_carried():
    script = b'cdpatch 1\nset 1 0 41\n'
    refused = 'line 2: refused: block 1 is damaged\napplied 0 refused 1\n'
    assert patched(SECTOR + DAMAGED_SECTOR, script) == (SECTOR + DAMAGED_SECTOR, refused, True)
    carried = SECTOR + cdpatch.with_user(DAMAGED_SECTOR, 0, b'\x41', carry=True)
    assert patched(SECTOR + DAMAGED_SECTOR, script, carry=True) == (carried, 'line 2: applied\napplied 1 refused 0\n', False)


def test_blocks_before_and_after_the_image_are_refused():
    script = b'cdpatch 1\nset 99 2047 4141\nset 120 0 41\nset 109 0 41\nset 100 0 41\n'
    log = ('line 2: refused: no block 99\nline 5: applied\nline 4: refused: no block 109\nline 3: refused: no block 120\n'
           'applied 1 refused 3\n')
    assert patched(IMAGE, script, 100)[1:] == (log, True)


@pytest.mark.parametrize('script, text', [
    (b'', f'script line 1: {MESSAGES["no_head"]}'), (b'# none\n\n', f'script line 3: {MESSAGES["no_head"]}'),
    (b'# none', f'script line 2: {MESSAGES["no_head"]}'), (b'cdpatch 1\nset 0 0 4\n', f'script line 2: {MESSAGES["bad_hex"]}')])
def test_an_invalid_script_is_refused_before_a_byte_is_read(script, text):
    nothing = Answering(b'', 0, raising(AssertionError('read or written')))
    with pytest.raises(cdpatch.Failed) as failed:
        cdpatch.patch(nothing, script, nothing)
    assert str(failed.value) == text and failed.value.line == int(text.split(':')[0].removeprefix('script line '))


def test_a_script_that_is_too_long_is_refused():
    script = b'#' * (MOST_SCRIPT_BYTES + 1)
    for call in (cdpatch.check, cdpatch.apply, patched):
        with pytest.raises(cdpatch.Failed, match=f'^cdpatch: the script is longer than {MOST_SCRIPT_BYTES} bytes$') as failed:
            call(b'', script)
        assert failed.value.line is None
    with pytest.raises(cdpatch.Failed, match=f'line 2: {MESSAGES["no_head"]}'):
        patched(b'', script[1:])


def test_a_script_of_too_many_patches_is_refused():
    script = b'cdpatch 1\n' + 65535 * b'rebuild 0\n'
    assert patched(b'', script)[1].endswith('applied 0 refused 65535\n')
    with pytest.raises(cdpatch.Failed, match='^script line 65537: more than 65535 patches$'):
        patched(b'', script + b'rebuild 0\n')


def same_file_twice(path, opened):
    """Opens a file twice: as one object, as two, by a hard link, or by a copy of the descriptor."""
    first = open(path, 'r+b')
    if opened == 'one object':
        return first, first
    if opened == 'a hard link':
        os.link(path, f'{path}.link')
        return first, open(f'{path}.link', 'r+b')
    return first, open(os.dup(first.fileno()), 'r+b') if opened == 'a copied descriptor' else open(path, 'ab')


@pytest.mark.parametrize('opened', ['one object', 'two objects', 'a hard link', 'a copied descriptor'])
def test_an_image_is_not_patched_into_its_own_file(tmp_path, opened):
    path = tmp_path / 'disc.bin'
    path.write_bytes(IMAGE)
    reader, writer = same_file_twice(path, opened)
    with reader, writer, pytest.raises(ValueError, match='^reader and writer are the same file; '):
        cdpatch.patch(reader, SCRIPT, writer)
    assert path.read_bytes() == IMAGE


def test_memory_with_one_position_is_not_patched_into_itself():
    with mmap.mmap(-1, len(IMAGE)) as mapped:
        mapped[:] = IMAGE
        for both in io.BytesIO(IMAGE), mapped:
            with pytest.raises(ValueError, match='^reader and writer are the same file; '):
                cdpatch.patch(both, SCRIPT, both)
            assert both.tell() == 0 and both.read() == IMAGE


def test_a_socket_may_be_reader_and_writer():
    ours, theirs = socket.socketpair()
    with ours, theirs, ours.makefile('rwb') as both:
        theirs.sendall(IMAGE)
        theirs.shutdown(socket.SHUT_WR)
        assert cdpatch.patch(both, SCRIPT, both) == PATCHED[1:]
        both.flush()
        assert theirs.recv(len(IMAGE), socket.MSG_WAITALL) == PATCHED.image


@pytest.mark.parametrize('name', ['disc.bin', 'new.bin'])
def test_a_log_in_the_file_of_an_image_is_refused(room, name):
    with open('disc.bin', 'rb') as image, open('new.bin', 'xb') as new, open(name, 'a') as log, pytest.raises(ValueError, match='^log writes'):
        cdpatch.patch(image, SCRIPT, new, log=log.write)
    assert (room / 'disc.bin').read_bytes() == IMAGE and (room / 'new.bin').read_bytes() == b''


class Endless:
    """A reader of a million blank sectors, followed by additional bytes."""

    def __init__(self, more):
        self.left, self.zeros, self.written = 1000000 * 2352 + more, bytes(MOST_HELD), 0

    def read(self, size):
        size = min(size, self.left)
        self.left -= size
        return self.zeros[:size]

    def write(self, data):
        self.written += len(data)
        return len(data)


def test_a_byte_after_the_millionth_sector_is_refused():
    script = b'cdpatch 1\nset 999999 0 41\n'
    refused = 'line 2: refused: block 999999 is not mode 1\napplied 0 refused 1\n'
    assert cdpatch.patch(Endless(0), script, Endless(0))[:2] == (refused, True)
    for more in (1, 2352, 100000):
        with pytest.raises(cdpatch.Failed, match='cdpatch: the image has more than 1000000 sectors$'):
            cdpatch.patch(Endless(more), script, Endless(0))


def test_an_image_that_is_too_long_has_the_lines_of_the_patches_before_its_end():
    script = b'cdpatch 1\nset 999998 0 41\nset 999999 0 41\nset 999999 2047 4141\nset 1000000 0 41\nset 0 0 41\n'
    writer = Endless(0)
    with pytest.raises(cdpatch.Failed) as failed:
        cdpatch.patch(Endless(1), script, writer)
    assert str(failed.value) == ('line 6: refused: block 0 is not mode 1\nline 2: refused: block 999998 is not mode 1\n'
                                 'line 3: refused: block 999999 is not mode 1\ncdpatch: the image has more than 1000000 sectors')
    assert writer.written == 999999 * 2352


@pytest.mark.parametrize('base', [-1, 449850, 2 ** 32, 2 ** 64])
def test_a_base_that_no_image_has_is_refused_by_patch(base):
    nothing = Answering(b'', 0, raising(AssertionError('read or written')))
    with pytest.raises(cdpatch.Failed, match=f'^base {base} is not 0 to 449849$'):
        cdpatch.patch(nothing, SCRIPT, nothing, base)


@pytest.mark.parametrize('first', [0, 3, 8])
@pytest.mark.parametrize('answer, error, text', [
    (lambda size: bytes(size + 1), ValueError, r'^the reader returned \d+ bytes, more than the \d+ requested$'),
    (lambda size: None, BlockingIOError, '^the reader has no bytes yet$'), (lambda size: 'text', TypeError, ''),
    (lambda size: 5, TypeError, ''), (raising(KeyError('mine')), KeyError, 'mine')])
def test_a_reader_that_fails_leaves_a_prefix(first, answer, error, text):
    writer = io.BytesIO()
    with pytest.raises(error, match=text):
        cdpatch.patch(Answering(IMAGE, first, answer, 2352), EACH_SECTOR, writer)
    assert cdpatch.apply(IMAGE, EACH_SECTOR).image.startswith(writer.getvalue())


@pytest.mark.parametrize('first', [0, 3, 8])
@pytest.mark.parametrize('answer, error', [
    (lambda data: 0, OSError), (lambda data: None, OSError), (lambda data: 'all', TypeError), (lambda data: -1, OSError), (lambda data: len(data) + 1, OSError),
    (raising(KeyError('mine')), KeyError)])
def test_a_writer_that_fails_leaves_a_prefix(first, answer, error):
    writer = Answering(b'', first, answer)
    with pytest.raises(error) as failed:
        cdpatch.patch(io.BytesIO(IMAGE * 30), EACH_SECTOR, writer)
    assert error is not TypeError or str(failed.value) == 'the writer must return a number of bytes, not str'
    assert writer.inner.inner.getvalue() == cdpatch.apply(IMAGE * 30, EACH_SECTOR).image[:63504 * first]


@pytest.mark.parametrize('count', [0, 1, 2, 3, 6, 7, 9])
@pytest.mark.parametrize('tail', [b'', b'tail'])
def test_nothing_is_read_after_the_end(count, tail):
    image = SECTOR * count + tail
    inner, ends = io.BytesIO(image), []

    class Once:
        def read(self, size):
            assert not ends
            data = inner.read(size)
            ends.extend([True] if not data else [])
            return data

    writer = io.BytesIO()
    cdpatch.patch(Once(), SCRIPT, writer)
    assert ends and writer.getvalue() == cdpatch.apply(image, SCRIPT).image


@pytest.mark.parametrize('line', [b'xxx 5 0 42', b'# t 5 0 42', b'set 4 0 42', b'set 5 0 43'])
@pytest.mark.parametrize('form', [bytearray, memoryview])
def test_a_script_that_changes_meanwhile_is_read_as_it_was(line, form):
    room, wanted_image = bytearray(b'cdpatch 1\nset 1 0 41\nset 5 0 42\n'), cdpatch.apply(IMAGE, b'cdpatch 1\nset 1 0 41\nset 5 0 42\n')

    def change(_):
        room[21:31] = line

    class Changing:
        def read(self, size):
            change(size)
            return inner.read(size)

    script = room if form is bytearray else memoryview(room)
    for reader, log in (Changing, None), (lambda: inner, change):
        inner, writer, room[21:31] = io.BytesIO(IMAGE), io.BytesIO(), b'set 5 0 42'
        assert cdpatch.patch(reader(), script, writer, log=log) == wanted_image[1:]
        assert writer.getvalue() == wanted_image.image and room[21:31] == line


def test_a_rebuild_removes_damage_with_carry_too():
    for carry in (False, True):
        assert patched(DAMAGED_SECTOR, b'cdpatch 1\nrebuild 0\n', carry=carry)[0] == SECTOR


def test_a_reader_may_use_its_memory_again():
    room, inner = bytearray(2352), io.BytesIO(IMAGE)

    class Again:
        def read(self, size):
            return memoryview(room)[:inner.readinto(memoryview(room)[:size])]

    writer = io.BytesIO()
    assert cdpatch.patch(Again(), SCRIPT, writer) == PATCHED[1:]
    assert writer.getvalue() == PATCHED.image


def test_a_pipe_is_patched():
    copy = subprocess.Popen(['cat'], stdin=subprocess.PIPE, stdout=subprocess.PIPE, bufsize=0)
    image = SECTOR * 200 + b'tail'
    ours, theirs = os.pipe()
    made = []

    def feed():
        with copy.stdin as to:
            to.write(image)

    def drain():
        with open(ours, 'rb') as file:
            made.append(file.read())

    threads = [threading.Thread(target=work) for work in (feed, drain)]
    for thread in threads:
        thread.start()
    with open(theirs, 'wb', buffering=0) as out:
        report = cdpatch.patch(copy.stdout, SCRIPT, out)
    for thread in threads:
        thread.join()
    copy.stdout.close()
    copy.wait()
    wanted_image = cdpatch.apply(image, SCRIPT)
    assert made == [wanted_image.image] and report == wanted_image[1:]


def heard(script, reader, writer):
    """The lines passed to `log` until the call ended, and how it ended."""
    lines = []
    try:
        return lines, cdpatch.patch(reader, script, writer, log=lines.append)
    except Exception as error:
        return lines, error


@pytest.mark.parametrize('script', [SCRIPT, EACH_SECTOR, b'cdpatch 1\n', b'cdpatch 1\nset 3 0 41 was 07\nset 99 0 41\n'],
                         ids=['several', 'all', 'none', 'refused'])
def test_each_line_is_handed_to_log(script):
    lines, report = heard(script, io.BytesIO(IMAGE), io.BytesIO())
    assert lines == report.text.splitlines(keepends=True) and report == cdpatch.apply(IMAGE, script)[1:]


@pytest.mark.parametrize('first, most', [*((first, 2352) for first in range(10)), (5, 1), (9, 2351), (4, 5000), (5, 5000), (0, 70000), (1, 70000)])
def test_a_file_that_fails_leaves_the_lines_before_it(first, most):
    lines = [f'line {block + 2}: applied\n' for block in range(9)]
    full = OSError(28, 'No space left on device')
    assert heard(EACH_SECTOR, io.BytesIO(IMAGE), Answering(b'', 0, raising(full))) == (lines, full)
    assert heard(EACH_SECTOR, Answering(IMAGE, first, raising(full), most), io.BytesIO()) == (lines[:min(first * most, len(IMAGE)) // 2352], full)


def test_log_is_handed_the_line_of_an_error():
    lines, error = heard(b'cdpatch 1\nset 0 0 4\n', io.BytesIO(IMAGE), io.BytesIO())
    assert isinstance(error, cdpatch.Failed) and lines == [f'{error}\n']


def test_a_log_that_fails_leaves_a_prefix():
    writer = io.BytesIO()
    with pytest.raises(KeyError, match='mine'):
        cdpatch.patch(io.BytesIO(IMAGE), EACH_SECTOR, writer, log=raising(KeyError('mine')))
    assert writer.getvalue() == b''


def examples():
    """The examples in the package's help."""
    return [textwrap.dedent(found[0]) for found in re.finditer(r'(?m)(^    .*\n)+', cdpatch.__doc__)][:2]


@pytest.fixture
def room(tmp_path, monkeypatch):
    """A directory with an image and a script under the names in the examples of help."""
    monkeypatch.chdir(tmp_path)
    (tmp_path / 'disc.bin').write_bytes(IMAGE)
    (tmp_path / 'changes').write_bytes(SCRIPT)
    return tmp_path


def test_the_example_of_help(room, capsys):
    exec(examples()[0], {})
    assert (capsys.readouterr().out, (room / 'new.bin').read_bytes()) == (PATCHED.text, PATCHED.image)


@pytest.mark.parametrize('wrong', [b'', b'cdpatch 1\nset 5 0 4\n', b'#' * (MOST_SCRIPT_BYTES + 1)], ids=['empty', 'wrong', 'long'])
def test_the_example_of_help_makes_no_image_by_an_invalid_script(room, capsys, wrong):
    (room / 'changes').write_bytes(wrong)
    with pytest.raises(cdpatch.Failed):
        exec(examples()[0], {})
    assert not (room / 'new.bin').exists()
    (room / 'changes').write_bytes(SCRIPT)
    test_the_example_of_help(room, capsys)


@pytest.mark.parametrize('count', [0, 1, 999, 1000, 1001, 2003])
def test_the_example_of_help_that_audits(room, capsys, count):
    image = (SECTOR + DAMAGED_SECTOR + bytes(2352)) * (count // 3 + 1)
    (room / 'disc.bin').write_bytes(image[:count * 2352 + 5])
    exec(examples()[1], {'cdpatch': cdpatch})
    assert capsys.readouterr().out == cdpatch.audit(image[:count * 2352]).text.rpartition('sectors ')[0]
