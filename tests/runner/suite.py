"""A suite of tests while it runs: what it runs, what it skips, and what came of it."""

from __future__ import annotations

import os
import re
import shutil
import subprocess
from collections.abc import Iterable, Iterator, Sequence
from concurrent.futures import ThreadPoolExecutor
from functools import cache
from pathlib import Path

from outcomes import Outcome, of_junit, of_lines
from processes import run

TESTS = Path(__file__).resolve().parents[1]
TOP = TESTS.parent
MODULE = TOP / 'library/cdpatch.wasm'
PYTHON = '/usr/bin/python3'  # Debian's, which has pytest
PROCESSORS = len(os.sched_getaffinity(0))


@cache
def packages() -> dict[str, str]:
    """The Debian packages of each command, or import in Python, of tools/packages.txt."""
    lines = (TOP / 'tools/packages.txt').read_text(encoding='utf-8').splitlines()
    return {line.partition(': ')[0]: line.partition(': ')[2] for line in lines if re.match(r'[^#[].*: ', line)}


@cache
def is_here(need: str) -> bool:
    if need.startswith('import '):
        return subprocess.run([PYTHON, '-c', need], stderr=subprocess.DEVNULL, check=False).returncode == 0
    return shutil.which(need) is not None


def reason(need: str) -> str:
    known = packages().get(need, '').split()
    return f'{need} (Debian\'s package{"s" * (len(known) > 1)} {" and ".join(known)})' if known else need


class Suite:
    def __init__(self, name: str, place: Path, words: Sequence[str], environment: dict[str, str]) -> None:
        self.name, self.place, self.words, self.environment = name, place, words, environment
        self.outcome = Outcome()
        self.spent: list[float] = []  # processor seconds
        place.mkdir()

    def wants(self, name: str) -> bool:
        """Whether a test of this name is to run."""
        return not self.words or any(words in name for words in self.words)

    def lacks(self, *needs: str, what: str = '') -> bool:
        """Whether a command, or an import in Python, is missing. If so, the suite, or that part of it, is skipped."""
        missing = next((need for need in needs if not is_here(need)), None)
        if missing:
            self.outcome.skipped.append(f'{what or self.name}, which needs {reason(missing)}')
        return missing is not None

    def run(self, words: Sequence[str | Path], **more: str | Path) -> tuple[int, str]:
        """Runs a command, and returns its status and its output."""
        ran = run(words, self.place, {**self.environment, **{name: str(value) for name, value in more.items()}})
        self.spent.append(ran.processor)
        return ran.status, ran.text

    def command(self, name: str, words: Sequence[str | Path], **more: str | Path) -> bool:
        """A test that passes if a command succeeds."""
        if not self.wants(name):
            return True
        status, text = self.run(words, **more)
        self.outcome.add(Outcome(failed=[(name, text)]) if status else Outcome(passed=1))
        return status == 0

    def lines(self, words: Sequence[str | Path]) -> None:
        """Tests in shell, which count themselves."""
        status, text = self.run(words, NAMED='\n'.join(self.words))
        self.outcome.add(of_lines(self.name, text, status))

    def node(self, directory: Path, names: str = '*', **more: str | Path) -> None:
        """Tests in node: each file in a process, several at a time. Words that begin as `search:` are about search.test.mjs alone."""
        files = {file.name.removesuffix('.test.mjs'): file for file in sorted(directory.glob(f'{names}.test.mjs'))}

        def patterns(stem: str) -> Iterator[str]:
            for words in self.words:
                head, _, rest = words.partition(':')
                if words in f'{stem}: ':
                    yield ''
                elif head == stem:
                    yield rest.strip()
                elif head not in files:
                    yield words

        def tried(stem: str) -> list[tuple[str, Outcome]]:
            made = self.place / f'{stem}.xml'
            chosen = [f'--test-name-pattern={re.escape(words) or "."}' for words in patterns(stem)]
            status, text = self.run(['node', '--enable-source-maps', '--test-reporter=junit', f'--test-reporter-destination={made}', *chosen, files[stem]], **more)
            return of_junit(made, status, text, f'{stem}: ')
        with ThreadPoolExecutor(max(PROCESSORS - 1, 1)) as pool:
            self.take(it for found in pool.map(tried, [stem for stem in files if not self.words or [*patterns(stem)]]) for it in found)

    def pytest(self, directory: Path, *options: str, before: Sequence[str] = (), **more: str | Path) -> None:
        """Tests of pytest."""
        made = self.place / 'pytest.xml'
        path = ':'.join(filter(None, [str(TESTS / 'runner'), str(more.pop('PYTHONPATH', ''))]))
        words: list[str | Path] = [*before, PYTHON, '-B', '-m', 'pytest', '-q', '-p', 'named', '-p', 'no:cacheprovider', f'--junit-xml={made}', '-o',
                 'junit_logging=no', '--rootdir', directory, *options, *(f'--named={it}' for it in self.words), directory]
        status, text = self.run(words, PYTHONPATH=path, PYTHONDONTWRITEBYTECODE='1', **more)
        no_tests = 5
        self.take(of_junit(made, 0 if self.words and status == no_tests else status, text))

    def take(self, found: Iterable[tuple[str, Outcome]]) -> None:
        """Adds the outcomes of tests, and joins the reasons of those that were skipped."""
        reasons: dict[str, int] = {}
        for name, outcome in found:
            if self.wants(name):
                for why in outcome.skipped:
                    reasons[why] = reasons.get(why, 0) + 1
                outcome.skipped = []
                self.outcome.add(outcome)
        for why, count in sorted(reasons.items()):
            need = reason(why.removeprefix('no ')) if why.startswith('no ') else why.removeprefix('wants ')
            self.outcome.skipped.append(f'{self.name}: {count} of its tests, which need {need}')
