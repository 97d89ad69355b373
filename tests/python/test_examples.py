"""The example in Python as a program. EXAMPLES is the directory that contains it."""

import os
import subprocess
import sys
from pathlib import Path
from resource import RLIMIT_DATA, setrlimit

import cdpatch
import pytest
from cases import some_case
from hypothesis import given
from hypothesis import strategies as st
from image import audit_text

EXAMPLE = Path(os.environ.get('EXAMPLES', Path(__file__).parents[2] / 'examples')) / 'fixlist.py'
SECTOR = cdpatch.encode(cdpatch.address(0), bytes(2048))
ROOM = 60000000
# As for a user, output is buffered.
BUFFERED = {name: value for name, value in os.environ.items() if name != 'PYTHONUNBUFFERED'}


def limit():
    setrlimit(RLIMIT_DATA, (ROOM, ROOM))


def listed(*words, image=b'', **more):
    """Runs the example with an image as standard input and little memory."""
    return subprocess.run([sys.executable, '-B', str(EXAMPLE), *words], **{'input': image, 'stdout': subprocess.PIPE, **more},
                          stderr=subprocess.PIPE, preexec_fn=limit, env={**BUFFERED, 'PYTHONPATH': str(Path(cdpatch.__file__).parent.parent)})


def comments(script):
    return ''.join(line[2:] for line in script.splitlines(keepends=True) if line.startswith('# '))


@given(st.integers(0, 10 ** 9))
def test_the_list_of_fixes_has_what_audit_says_and_mends_it(number):
    case = some_case('audits', number)
    ended = listed('/dev/stdin', str(case.base), image=case.image)
    text = audit_text(case.image, case.base)
    assert (ended.stderr, ended.returncode) == (b'', int(len(text.splitlines()) > 1))
    assert comments(ended.stdout.decode()) == text
    mended = cdpatch.apply(case.image, ended.stdout, case.base)
    assert not mended.found and ' damaged 0 ' in cdpatch.audit(mended.image, case.base).text


@pytest.mark.parametrize('count', [999, 1000, 1001, 2000, 60000])
def test_a_long_list_of_fixes_is_that_of_audit_in_little_memory(tmp_path, count):
    damaged = SECTOR[:-1] + bytes([SECTOR[-1] ^ 1])
    with open(tmp_path / 'image', 'wb') as image:
        image.truncate((count - 1) * 2352)
        image.seek((count - 1) * 2352)
        image.write(damaged + b'tail')
    ended = listed(str(tmp_path / 'image'))
    last = f'# sectors {count} mode1 1 damaged 1 tail 4'
    assert ended.stdout.decode().splitlines() == ['cdpatch 1', f'# {count - 1} address q=1', f'rebuild {count - 1}', last]
    assert (ended.stderr, ended.returncode) == (b'', 1) and count * 2352 > ROOM or count < 60000


@pytest.mark.parametrize('words', [[], ['nothing'], ['.'], ['/dev/null', 'x'], ['/dev/null', '0', '0']])
def test_a_list_of_fixes_that_cannot_be_made(words):
    ended = listed(*words)
    assert ended.returncode == 2 and ended.stderr.count(b'\n') == 1


def test_a_list_of_fixes_on_a_full_disk():
    with open('/dev/full', 'wb') as full:
        ended = listed('/dev/null', stdout=full)
    assert (ended.returncode, ended.stderr) == (2, b'fixlist.py: [Errno 28] No space left on device\n')


def test_a_list_of_fixes_if_memory_is_refused():
    refuse = """import cdpatch, runpy, sys
def survey(*_):
    raise MemoryError
cdpatch.survey = survey
del sys.argv[0]
runpy.run_path(sys.argv[0], run_name='__main__')"""
    ended = subprocess.run([sys.executable, '-B', '-c', refuse, str(EXAMPLE), '/dev/stdin'], input=SECTOR, capture_output=True,
                           env={**BUFFERED, 'PYTHONPATH': str(Path(cdpatch.__file__).parent.parent)})
    assert (ended.returncode, ended.stderr) == (2, b'fixlist.py: no memory\n')
