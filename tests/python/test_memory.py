"""The memory that a call needs for a large mapped image: each call in a new Python, which may use at most half of the image's size besides
its maps. A map that is shared with a file or read-only does not count."""

import os
import subprocess
import sys
from pathlib import Path

import cdpatch
import pytest

COUNT = 60000
ROOM = COUNT * 2352 // 2
BEGIN = f'''
import mmap, resource, sys
import cdpatch
with open(sys.argv[1], 'rb') as file:
    image = mmap.mmap(file.fileno(), 0, access=mmap.ACCESS_READ)
resource.setrlimit(resource.RLIMIT_DATA, ({ROOM}, {ROOM}))
script = b'cdpatch 1\\nset 59999 0 41\\n'
log = 'line 2: refused: block 59999 is not mode 1\\napplied 0 refused 1\\n'
'''


@pytest.fixture(scope='module')
def image(tmp_path_factory):
    path = tmp_path_factory.mktemp('memory') / 'image'
    with open(path, 'wb') as file:
        file.truncate(COUNT * 2352 + 5)
    return path


def run(image, code):
    ended = subprocess.run([sys.executable, '-B', '-c', BEGIN + code, str(image)], capture_output=True, text=True,
                           env={**os.environ, 'PYTHONPATH': str(Path(cdpatch.__file__).parent.parent)})
    assert (ended.returncode, ended.stderr) == (0, '')


@pytest.mark.parametrize('form', ['image', 'memoryview(image)', 'memoryview(image)[:-5].cast("I")'])
def test_a_mapped_image_is_not_copied(image, form):
    run(image, f'''
form = {form}
assert cdpatch.audit(form).text.startswith('sectors 60000 mode1 0 damaged 0 tail ')
assert cdpatch.listing(form).startswith('0-59999 nosync')
assert cdpatch.check(form, script)[:2] == (log, True)
assert len(cdpatch.survey(form)) == 60000
assert cdpatch.edc(form) == 0
''')


def test_a_check_reads_of_a_mapped_image_only_what_patches_look_at(image):
    run(image, '''
def kilobytes():
    with open('/proc/self/status') as status:
        return next(int(line.split()[1]) for line in status if line.startswith('RssFile'))
before = kilobytes()
assert cdpatch.check(image, script)[:2] == (log, True)
assert kilobytes() - before < 2000
''')


def test_a_new_image_is_made_in_the_map_that_is_given(image):
    run(image, '''
import os
with open(sys.argv[1] + '.out', 'x+b') as file:
    file.truncate(len(image))
    out = mmap.mmap(file.fileno(), 0)
assert cdpatch.apply(image, script, out=out)[:2] == (log, True)
os.unlink(sys.argv[1] + '.out')
''')


def test_a_mapped_script_that_is_too_long_is_not_copied(image):
    run(image, '''
try:
    cdpatch.check(b'', image)
except cdpatch.Failed as why:
    assert str(why) == 'cdpatch: the script is longer than 67108864 bytes'
    sys.exit(0)
sys.exit(1)
''')


def test_a_copy_would_be_refused(image):
    run(image, '''
try:
    bytes(image)
except MemoryError:
    sys.exit(0)
sys.exit(1)
''')


def test_an_image_is_patched_in_little_memory(image):
    run(image, '''
import os
assert cdpatch.patch(open(sys.argv[1], 'rb'), script, open(os.devnull, 'wb'))[:2] == (log, True)
''')
