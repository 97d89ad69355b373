"""Runs commands, and ends every process that they have started and left, whatever its group or session."""

from __future__ import annotations

import ctypes
import os
import resource
import signal
import subprocess
import tempfile
import threading
import time
from collections.abc import Sequence
from dataclasses import dataclass
from pathlib import Path

PR_SET_CHILD_SUBREAPER = 36
LONGEST = 5400  # seconds, after which a command hangs
PATIENCE = 10  # seconds between SIGTERM and SIGKILL


@dataclass
class Ran:
    status: int
    text: str
    processor: float  # seconds, with those of its descendants


# Set once the run is to end: no command starts after it. A lock makes the test of it and the start one step.
ending = threading.Event()
starting = threading.Lock()


def adopt() -> None:
    """Makes this process the parent of each descendant whose own parent has ended, so that `descendants` finds all."""
    ctypes.CDLL(None).prctl(PR_SET_CHILD_SUBREAPER, 1)


def run(words: Sequence[str | Path], place: Path, environment: dict[str, str]) -> Ran:
    """Runs a command in a directory. Its output goes to a file, since a process that it leaves would keep a pipe open."""
    with tempfile.TemporaryFile(dir=place) as log:
        with starting:
            if ending.is_set():
                return Ran(-1, '', 0)
            process = subprocess.Popen(words, cwd=place, env=environment, stdin=subprocess.DEVNULL, stdout=log, stderr=subprocess.STDOUT,
                                       start_new_session=True)
        hangs = threading.Timer(LONGEST, os.killpg, (process.pid, signal.SIGKILL))
        hangs.start()
        _, status, used = os.wait4(process.pid, 0)
        hangs.cancel()
        process.returncode = os.waitstatus_to_exitcode(status)
        log.seek(0)
        return Ran(process.returncode, log.read().decode(errors='replace'), seconds(used) + left_behind(process.pid))


def left_behind(session: int) -> float:
    """The processor seconds of the ended processes of a session for which nobody has waited, such as most of a browser's."""
    ended = [it for it, (state, parent, own) in all_processes().items() if state == 'Z' and parent == os.getpid() and own == session]
    return sum(seconds(os.wait4(it, 0)[2]) for it in ended)


def seconds(used: resource.struct_rusage) -> float:
    return used.ru_utime + used.ru_stime


def all_processes() -> dict[int, tuple[str, int, int]]:
    """The state, the parent, and the session of each process."""
    found = {}
    for stat in Path('/proc').glob('[0-9]*/stat'):
        try:
            state, parent, _, session = stat.read_text(errors='replace').rpartition(')')[2].split()[:4]
        except (OSError, ValueError):
            continue
        found[int(stat.parent.name)] = state, int(parent), int(session)
    return found


def descendants() -> set[int]:
    """Those that run."""
    parent_of = {it: parent for it, (state, parent, _) in all_processes().items() if state not in 'ZX'}
    found = {os.getpid()}
    while more := {it for it, parent in parent_of.items() if parent in found} - found:
        found |= more
    return found - {os.getpid()}


def end_all() -> None:
    """Ends all descendants, and starts no other."""
    with starting:
        ending.set()
    last, told = time.monotonic() + PATIENCE, set[int]()
    while left := descendants():
        is_late = time.monotonic() > last
        for process in left if is_late else left - told:
            try:
                os.kill(process, signal.SIGKILL if is_late else signal.SIGTERM)
            except ProcessLookupError:
                pass
        told |= left
        time.sleep(0.05)
