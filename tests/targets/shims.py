#!/usr/bin/env python3
"""Tests whether the shims in targets/ meet their contracts: `shims.py windows|arm64` compiles them with shim.c, and prints 'passed NAME' or
'failed NAME' for each test. The status is 1 if one failed."""

import os
import pty
import subprocess
import sys
import tempfile
from pathlib import Path

TESTS = Path(__file__).resolve().parent
SOURCES = TESTS.parents[1] / 'targets'
WINE = '/usr/lib/wine/wine64'
COMPILERS = {'windows': 'x86_64-w64-mingw32-gcc', 'arm64': 'aarch64-linux-gnu-gcc'}
SHIMS = {'windows': ('windows.c', ['-lshell32']), 'arm64': ('linux.c', [])}
# The commands that run a program of each system.
RUNNERS = {'windows': [WINE], 'arm64': ['qemu-aarch64', '-L', '/usr/aarch64-linux-gnu']}
WORDS = ['abc', 'ÄÖ']
TIME = 60  # seconds, more than any test needs


def compiled(system: str, room: Path) -> Path:
    """Compiles the test program with the shims. Only the shim is compiled after failing.h."""
    shim, libraries = SHIMS[system]
    program, flags = room / 'shim.exe', ['-std=gnu11', '-O1', '-w', '-fno-builtin-realloc']
    for source, more in (SOURCES / shim, ['-include', str(TESTS / 'failing.h')]), (SOURCES / 'memory.c', []), (TESTS / 'shim.c', []):
        subprocess.run([COMPILERS[system], *flags, *more, '-c', source, '-o', room / f'{source.stem}.{len(more)}.o'], check=True)
    subprocess.run([COMPILERS[system], *room.glob('*.o'), *libraries, '-o', program], check=True)
    return program


def run(system: str, program: Path, *words: str, out: int = subprocess.PIPE) -> tuple[int, str]:
    """Runs a test in a new directory. Returns the status and the text, or the status -1 if it does not end."""
    with tempfile.TemporaryDirectory(dir=program.parent) as room:
        try:
            done = subprocess.run([*RUNNERS[system], program, *words], cwd=room, stdin=subprocess.DEVNULL, stdout=out, timeout=TIME,
                                  env={'WINEDEBUG': '-all', **os.environ}, check=False)
        except subprocess.TimeoutExpired:
            return -1, ''
    return done.returncode, (done.stdout or b'').decode(errors='replace')


def holds(system: str, program: Path, test: str) -> bool:
    if test == 'statuses':
        return run(system, program, 'no test')[0] == 2
    if test == 'consoles':
        return run(system, program, test, out=pty.openpty()[1])[0] == 0
    status, text = run(system, program, test, *([] if test == 'unpaired' else WORDS))
    return status == 0 and (test != 'start' or text == '12\n34')


def main(system: str) -> int:
    with tempfile.TemporaryDirectory() as name:
        program = compiled(system, Path(name))
        results = [(test, holds(system, program, test)) for test in [*run(system, program)[1].split(), 'statuses']]
    for test, passed in results:
        print('passed' if passed else 'failed', test, flush=True)
    return int(not all(passed for _, passed in results))


if __name__ == '__main__':
    sys.exit(main(sys.argv[1]))
