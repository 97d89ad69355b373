"""Measures the CPU seconds and the maximum memory, without mapped files, of the Python package on a mapped image:
`package.py IMAGE [WORK..]`, with the package and its library in PYTHONPATH and CDPATCH_LIBRARY. Each work runs in a new Python."""

import os
import resource
import subprocess
import sys
import time

BEGIN = '''
import mmap, os, sys
import cdpatch
with open(sys.argv[1], 'rb') as file:
    image = mmap.mmap(file.fileno(), 0, access=mmap.ACCESS_READ)
script = b'cdpatch 1\\nset 100 0 41\\nset 200000 2047 4142\\n'
def new_map():
    with open(sys.argv[1] + '.out', 'w+b') as file:
        file.truncate(len(image))
        return mmap.mmap(file.fileno(), 0)
'''
WORKS = {
    'nothing': '',
    'audit': 'cdpatch.audit(image)',
    'listing': 'cdpatch.listing(image)',
    'survey': 'cdpatch.survey(image)',
    'check': 'cdpatch.check(image, script)',
    'apply': 'cdpatch.apply(image, script)',
    'apply to a map': 'cdpatch.apply(image, script, out=new_map())',
    'patch': 'cdpatch.patch(open(sys.argv[1], "rb"), script, open(os.devnull, "wb"))',
}


def memory_of(process):
    """The memory of a process in kB, without mapped files."""
    try:
        with open(f'/proc/{process.pid}/status') as status:
            return next((int(line.split()[1]) for line in status if line.startswith('RssAnon')), 0)
    except OSError:
        return 0


def measured(image, code):
    """The CPU seconds and the maximum memory in kB of a process."""
    before, most = resource.getrusage(resource.RUSAGE_CHILDREN), 0
    process = subprocess.Popen([sys.executable, '-c', BEGIN + code, image])
    while process.poll() is None:
        most = max(most, memory_of(process))
        time.sleep(0.001)
    after = resource.getrusage(resource.RUSAGE_CHILDREN)
    if process.returncode:
        sys.exit(process.returncode)
    return after.ru_utime + after.ru_stime - before.ru_utime - before.ru_stime, most


def main(image, *works):
    for name in works or WORKS:
        seconds, most = measured(image, WORKS[name])
        print(f'{name}: {seconds:.2f} s, {most / 1000:.0f} MB', flush=True)
    if os.path.exists(image + '.out'):
        os.unlink(image + '.out')


if __name__ == '__main__':
    main(*sys.argv[1:])
