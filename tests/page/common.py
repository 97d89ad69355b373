"""Shared by the tests of the page: the page under test, a scratch directory, discs, the program, a loopback server, and waiting."""

import ast
import functools
import hashlib
import http.server
import json
import os
import re
import shutil
import subprocess
import sys
import tempfile
import threading
import time
import unittest
from collections.abc import Callable
from pathlib import Path
from typing import Any, TypeVar

import pytest

TOP = Path(__file__).resolve().parent.parent.parent
sys.path[:0] = [str(TOP / 'tests' / name) for name in ('model', 'lib')]
from sector import SYNC, address_of, sector_with, NO_DEFECT  # noqa: E402

PAGE = Path(os.environ.get('PAGE', TOP / 'cdpatch.html'))
PROGRAM = os.environ.get('PROGRAM', str(TOP / 'cdpatch'))
SCRATCH = Path(os.environ['SCRATCH']) if 'SCRATCH' in os.environ else Path(tempfile.mkdtemp(prefix='web-'))
SECTOR_SIZE = 2352
USER_SIZE = 2048
PATIENCE = float(os.environ.get('PATIENCE', '60'))

Test = TypeVar('Test', bound=Callable[..., None])

# `make check` runs only the tests with this mark: of each panel, job, and kind of user one from start to end. The gate runs all.
in_check = pytest.mark.in_check


def waited(ask: Callable[[], Any], what: str, seconds: float = PATIENCE) -> Any:
    """Calls `ask` until it returns something true, and returns that. The pauses grow with the time."""
    begun = time.monotonic()
    while not (value := ask()):
        waited_for = time.monotonic() - begun
        if waited_for > seconds:
            raise AssertionError(f'after {seconds:g} s: {what}')
        time.sleep(min(0.5, 0.03 + waited_for / 20))
    return value


def await_start(run: Callable[[str], Any]) -> None:
    """Waits until the page has started: before that it ignores files. `run` runs a script in the browser."""
    waited(lambda: run('return document.querySelector("#not-started") === null'), 'the page has not started')


def needs(command: str, package: str) -> Callable[[Test], Test]:
    """Skips a test if a command is not installed."""
    return unittest.skipUnless(shutil.which(command), f"wants {command} (Debian's package {package})")


def folder(name: str) -> Path:
    """Creates a new directory in the scratch directory."""
    return Path(tempfile.mkdtemp(prefix=f'{name}-', dir=SCRATCH))


@functools.cache
def text(key: str, language: str = 'en') -> str:
    """Returns a text of the page by its key, so that a test that only waits for a text does not repeat it. Only texts that players see are in
    other languages."""
    names = ('english.ts', 'player/english.ts') if language == 'en' else (f'player/{language.lower().replace("-", "_")}.ts',)
    source = ''.join((TOP / 'web/page/texts' / name).read_text('utf-8') for name in names)
    piece = r"'(?:[^'\\\n]|\\[\s\S])*'"
    found = re.search(rf"(?m)^(?:export const {key} =| +'?{key}'?:)\s+((?:{piece} \+\n *)*{piece})[;,]$", source)
    assert found, f'the page has no text {key}'
    return str(ast.literal_eval(re.sub(r'(?m) \+\n *', ' ', found[1])))


def keys_for_players() -> list[str]:
    """The keys of the texts that players see."""
    return re.findall(r'(?m)^    (\w+):(?! \{)', (TOP / 'web/page/texts/player/english.ts').read_text('utf-8'))


def encodings() -> list[dict[str, Any]]:
    """The table of encodings, tests/encodings.json, which tests/core/common.mjs explains."""
    known: list[dict[str, Any]] = json.loads((TOP / 'tests' / 'encodings.json').read_text('utf-8'))
    return known


def sha1(data: bytes) -> str:
    return hashlib.sha1(data).hexdigest()


@functools.cache
def cdscript() -> Path:
    """Packs cdscript from the sources and returns its path."""
    made, library = folder('cdscript') / 'cdscript', TOP / 'library'
    subprocess.run([sys.executable, '-B', TOP / 'tools' / 'pack.py', 'command', library / 'cdpatch.wasm', made, '--notices', '/dev/null'], check=True)
    return made


def cdscript_prints(*given: str | Path) -> str:
    """The standard output of a successful run of cdscript. Its messages are discarded."""
    return subprocess.run([cdscript(), *given], check=True, stdout=subprocess.PIPE, stderr=subprocess.DEVNULL).stdout.decode()


def run_program(*given: str | Path) -> tuple[int, str]:
    """The program's exit status and its standard output."""
    ran = subprocess.run([PROGRAM, *map(str, given)], stdout=subprocess.PIPE, stderr=subprocess.PIPE, check=False)
    return ran.returncode, ran.stdout.decode()


@functools.cache
def sector(block: int, user: bytes) -> bytes:
    """A sector of Mode 1 with correct codes, computed by the model."""
    return bytes(sector_with(SYNC + address_of(block) + b'\1' + user.ljust(USER_SIZE, b'\0'), NO_DEFECT))


def image_of(users: list[bytes], base: int = 0) -> bytes:
    """A raw image of Mode 1 sectors with this user data."""
    return b''.join(sector(base + i, user) for i, user in enumerate(users))


# The offset of a byte of the EDC. Parity corrects no sector with a wrong one.
IN_EDC = 2048


def damaged(image: bytes, block: int, offset: int = 100) -> bytes:
    """Changes one byte in a block of an image, by its offset from the user data, and leaves the codes as they are."""
    changed = bytearray(image)
    changed[block * SECTOR_SIZE + 16 + offset] ^= 0x55
    return bytes(changed)


def iso_of(files: dict[str, bytes]) -> list[bytes]:
    """The blocks of an ISO 9660 volume with these files."""
    tree = folder('tree')
    for name, data in files.items():
        path = tree / name
        path.parent.mkdir(parents=True, exist_ok=True)
        path.write_bytes(data)
    ran = subprocess.run(['genisoimage', '-quiet', '-input-charset', 'utf-8', '-iso-level', '2', tree], stdout=subprocess.PIPE, check=True)
    return [ran.stdout[at:at + USER_SIZE] for at in range(0, len(ran.stdout), USER_SIZE)]


class Server:
    """A loopback server for the files of a directory. `requests` lists the paths that it was asked for."""

    def __init__(self, directory: Path) -> None:
        requests: list[str] = []

        class Handler(http.server.SimpleHTTPRequestHandler):
            def __init__(self, *given: object) -> None:
                super().__init__(*given, directory=str(directory))  # type: ignore[arg-type]

            def log_message(self, _form: str, *given: object) -> None:
                requests.append(str(given[0]))

        self.requests = requests
        self.server = http.server.ThreadingHTTPServer(('127.0.0.1', 0), Handler)
        self.url = f'http://127.0.0.1:{self.server.server_port}'
        threading.Thread(target=self.server.serve_forever, daemon=True).start()

    def close(self) -> None:
        self.server.shutdown()
        self.server.server_close()
