"""Tries random small changes: `mutants.py [--count N] [--seed S] [SUITE..]` selects N changes of web/core (suite core), web/command (cdscript),
and python/cdpatch (python), and runs the tests that reach each change, the fastest first. A change of web/core that no test of the core
reaches is tried by the page's tests in node, then by those of cdscript. It prints 'survived FILE:LINE: OLD -> NEW' if no test fails, and
'unreached ..' if no test reaches the change. The last line has the counts. Run it before a release: each survivor needs a test, unless the
program does the same. `page` selects changes of web/page. Those that no test in node reaches are only counted, since they need a browser."""

import argparse
import ast
import json
import math
import multiprocessing
import os
import random
import resource
import shutil
import subprocess
import sys
import tempfile
import threading
from collections.abc import Iterator
from dataclasses import dataclass, replace
from operator import or_
from pathlib import Path
from typing import Any

WRONG = Path(__file__).resolve().parent
TESTS, TOP = WRONG.parent, WRONG.parents[1]
MODULE = TOP / 'library/cdpatch.wasm'
NOTICES = TOP / 'library/NOTICES'
sys.path.insert(0, str(TOP / 'tools'))
import strip  # noqa: E402

for variable, built in ('PROGRAM', 'cdpatch'), ('CDPATCH_PROGRAM', 'cdpatch'), ('CDPATCH_LIBRARY', 'library/libcdpatch.so.2'):
    os.environ.setdefault(variable, str(TOP / built))

# JavaScript is changed in its stripped files. The lines that are printed are those of the sources.
SOURCES = {'core': 'out/web/core', 'page': 'out/web/page', 'cdscript': 'out/web/command', 'python': 'python/cdpatch'}
USUAL = ['core', 'cdscript', 'python']
# The suite that tries a change of the core next, if no test of this suite reaches it.
NEXT = {'core': 'page', 'page': 'cdscript'}
# A test file has failed after LONGEST processor seconds, plus TIMES what the right version takes.
LONGEST = 10
TIMES = 3
# The assumed processor seconds of tests that were not measured.
UNKNOWN = 30
# Seconds after which tests that wait have failed.
LONGEST_WAIT = 600
# Generated files, which nobody edits.
MADE = ('numbers.js', '_numbers.py', 'pairs.js', 'frequencies.js')
# The environment variable that names the version under test, and where a suite's version is; that of cdscript is packed.
TOLD = {'core': 'CORE', 'cdscript': 'COMMAND', 'page': 'WEB'}
PLACES = {'core': 'out/web/core', 'page': 'out/web'}
PYTHON = '/usr/bin/python3'
COMPARED = {ast.Lt: '<=', ast.LtE: '<', ast.Gt: '>=', ast.GtE: '>', ast.Eq: '!=', ast.NotEq: '==', ast.In: 'not in', ast.NotIn: 'in',
            ast.Is: 'is not', ast.IsNot: 'is'}
COUNTED = {ast.Add: '-', ast.Sub: '+', ast.Mult: '+', ast.FloorDiv: '*', ast.Mod: '*', ast.LShift: '>>', ast.RShift: '<<', ast.BitAnd: '|',
           ast.BitOr: '&'}


@dataclass
class Mutant:
    suite: str
    file: str
    start: int
    end: int
    made: str
    source: str  # 'FILE:LINE' of the source


def of_javascript(suite: str) -> Iterator[Mutant]:
    files = sorted(str(file.relative_to(TOP)) for file in (TOP / SOURCES[suite]).rglob('*.js') if file.name not in MADE)
    ran = subprocess.run(['node', str(WRONG / 'mutants.mjs'), *files], cwd=TOP, stdout=subprocess.PIPE, check=True)
    for line in ran.stdout.decode().splitlines():
        it = json.loads(line)
        yield Mutant(suite, it['file'], it['from'], it['to'], it['made'], it['source'])


def changes_at(node: ast.AST, text: str) -> Iterator[tuple[ast.expr, str]]:
    """Replacements for an expression in Python."""
    def source(it: ast.expr) -> str:
        return ast.get_source_segment(text, it) or ''
    if isinstance(node, ast.Compare) and len(node.ops) == 1:
        yield node, f'({source(node.left)}) {COMPARED[type(node.ops[0])]} ({source(node.comparators[0])})'
    elif isinstance(node, ast.BinOp) and type(node.op) in COUNTED:
        yield node, f'(({source(node.left)}) {COUNTED[type(node.op)]} ({source(node.right)}))'
    elif isinstance(node, ast.Constant) and isinstance(node.value, bool):
        yield node, str(not node.value)
    elif isinstance(node, ast.Constant) and isinstance(node.value, int):
        yield node, f'({node.value} + 1)'
    elif isinstance(node, (ast.If, ast.IfExp, ast.While)):
        yield node.test, f'(not ({source(node.test)}))'
    elif isinstance(node, ast.Expr) and isinstance(node.value, ast.Call):
        yield node.value, 'None'


def of_python(suite: str) -> Iterator[Mutant]:
    for file in sorted(it for it in (TOP / SOURCES[suite]).glob('*.py') if it.name not in MADE):
        text = file.read_text()
        lines = text.splitlines(keepends=True)
        for node in ast.walk(ast.parse(text)):
            for it, made in changes_at(node, text):
                def at(line: int, column: int) -> int:
                    return sum(map(len, lines[:line - 1])) + len(lines[line - 1].encode()[:column].decode())
                start, end = at(it.lineno, it.col_offset), at(it.end_lineno or 0, it.end_col_offset or 0)
                name = str(file.relative_to(TOP))
                yield Mutant(suite, name, start, end, made, f'{name}:{it.lineno}')


def linked(source: str, copy: str) -> None:
    """Links a file, which is faster than to copy it. A mutant replaces the link of the file that it changes."""
    try:
        os.link(source, copy)
    except OSError:
        shutil.copy(source, copy)


def copied(source: Path, copy: Path) -> Path:
    shutil.copytree(source, copy, copy_function=linked)
    return copy


def spent() -> float:
    """The processor seconds of this process and of its children that have ended."""
    return sum(it.ru_utime + it.ru_stime for it in map(resource.getrusage, (resource.RUSAGE_SELF, resource.RUSAGE_CHILDREN)))


def run_test(words: list[str], room: Path, seconds: float, **more: str) -> bool:
    """Whether tests pass in time. `seconds` is the processor time of the right version."""
    def limit() -> None:
        most = LONGEST + math.ceil(TIMES * seconds)
        resource.setrlimit(resource.RLIMIT_CPU, (most, most + 5))
    where = {**os.environ, 'TMPDIR': str(room), **more}
    with subprocess.Popen(words, cwd=room, env=where, stdin=subprocess.DEVNULL, stdout=subprocess.PIPE, stderr=subprocess.DEVNULL,
                          preexec_fn=limit, text=True, errors='replace') as running:
        timer = threading.Timer(LONGEST_WAIT, running.kill)
        timer.start()
        for line in running.stdout or []:
            if line.lstrip().startswith('not ok '):
                running.kill()
        timer.cancel()
    return running.returncode == 0


def run_file(file: Path, room: Path, seconds: float, **more: str) -> bool:
    return run_test(['node', '--test-reporter=tap', str(file)], room, seconds, **more)


@dataclass
class Reached:
    """A test file, its processor seconds, and for each source a byte for each UTF-16 unit: whether it runs."""
    file: Path
    seconds: float
    sources: dict[str, bytes]

    def reaches(self, source: str, at: int) -> bool:
        return any(self.sources.get(source, b'')[max(at - 1, 0):at + 1])


def ran_in(functions: list[dict[str, Any]]) -> bytes:
    """Which units of a source a process has run. The narrowest range that contains a unit decides."""
    ranges: list[tuple[int, int, int]] = [(it['startOffset'], it['endOffset'], min(it['count'], 1))
                                          for function in functions for it in function['ranges']]
    ran = bytearray(max(end for _, end, _ in ranges))
    for start, end, has_run in sorted(ranges, key=lambda it: it[0] - it[1]):
        ran[start:end] = bytes([has_run]) * (end - start)
    return bytes(ran)


def measured(given: tuple[Path, str, Path]) -> Reached:
    """Measures which code a test file runs, in all its processes and threads."""
    file, suite, path = given
    with tempfile.TemporaryDirectory(prefix='mutant-') as room:
        before = spent()
        if not run_file(file, Path(room), UNKNOWN, NODE_V8_COVERAGE=room, **{TOLD[suite]: str(path)}):
            raise RuntimeError(f'{file} fails on the right version')
        seconds = spent() - before
        sources: dict[str, bytes] = {}
        for report in Path(room).glob('coverage-*.json'):
            for script in json.loads(report.read_text())['result']:
                name = script['url'].removeprefix('file://').split('?')[0]
                if name.startswith(str(path)):
                    ran = ran_in(script['functions'])
                    sources[name] = bytes(map(or_, sources.get(name, bytes(len(ran))), ran))
    return Reached(file, seconds, sources)


TESTED: dict[str, list[Reached]] = {}
# The right version, which the tests load.
RIGHT = Path()
PROCESSES = len(os.sched_getaffinity(0))


def changed(mutant: Mutant, root: Path) -> None:
    file = root / mutant.file.removeprefix('out/').split('/', 1)[1]
    text = file.read_text()
    file.unlink()
    file.write_text(text[:mutant.start] + mutant.made + text[mutant.end:])


def joined(web: Path, command: Path) -> Path:
    """Packs cdscript from a copy of web/."""
    import pack
    command.write_text(str(pack.packed_interface('command', web, MODULE, NOTICES)))
    command.chmod(0o755)
    return command


def first_other(right: Path, wrong: Path) -> int:
    """The length in UTF-16 units of the common prefix of two packed files."""
    return len(os.path.commonprefix([right.read_text(), wrong.read_text()]).encode('utf-16-le')) // 2


def outcome(mutant: Mutant, room: Path) -> str:
    """Tries a mutant: 'killed' if a test fails, 'survived' if tests reach the change and pass, or 'unreached'."""
    if mutant.suite == 'python':
        changed(mutant, copied(TOP / 'python', room / 'python'))
        return 'survived' if python_passes(room) else 'killed'
    web = copied(TOP / 'out/web', room / 'out/web')
    changed(mutant, web)
    try:
        path = room / PLACES[mutant.suite] if mutant.suite in PLACES else joined(web, room / 'cdscript')
    except SystemExit:
        return 'killed'
    source, at = (TOP / mutant.file, mutant.start) if mutant.suite in PLACES else (RIGHT, first_other(RIGHT, path))
    reached = [it for it in TESTED[mutant.suite] if it.reaches(str(source), at)]
    if mutant.suite in PLACES and not reached:
        return 'unreached'
    # A process of cdscript that a signal ends reports no coverage, so all tests run if none reaches the change.
    if not passes(reached or TESTED[mutant.suite], room, mutant.suite, path):
        return 'killed'
    return 'survived' if reached else 'unreached'


def python_passes(room: Path) -> bool:
    words = ['-m', 'pytest', '-q', '-x', '-p', 'no:cacheprovider', '--hypothesis-profile=first', '--basetemp', str(room / 'made')]
    more = {'PYTHONPATH': str(room / 'python'), 'LD_LIBRARY_PATH': str(TOP / 'library')}
    return run_test([PYTHON, *words, str(TESTS / 'python')], room, UNKNOWN, **more)


def passes(tests: list[Reached], room: Path, client: str, path: Path) -> bool:
    """Whether these test files and random cases pass. The page has no client for random cases."""
    return all(run_file(it.file, room, it.seconds, **{TOLD[client]: str(path)}) for it in tests) \
        and (client == 'page' or cases_pass(client, path, room))


def cases_pass(client: str, path: Path, room: Path) -> bool:
    """Whether random cases pass on a client of tests/cases/clients.py."""
    words = [sys.executable, '-B', str(TESTS / 'model/compare.py'), '--cases', '100', '--jobs', '1', f'--{client}', str(path)]
    return subprocess.run(words, stdout=subprocess.DEVNULL, check=False, env={**os.environ, 'TMPDIR': str(room)}).returncode == 0


def tried(mutant: Mutant) -> tuple[Mutant, str]:
    with tempfile.TemporaryDirectory(prefix='mutant-') as room:
        return mutant, outcome(mutant, Path(room))


def shown(mutant: Mutant) -> str:
    text = (TOP / mutant.file).read_text()
    return f'{mutant.source}: {text[mutant.start:mutant.end]} -> {mutant.made}'.replace('\n', ' ')


def right_passes(suite: str, place: Path) -> bool:
    """Whether the right version passes. Keeps what each test file runs."""
    global RIGHT
    if suite == 'python':
        copied(TOP / 'python', place / 'python')
        return python_passes(place)
    RIGHT = TOP / PLACES[suite] if suite in PLACES else joined(TOP / 'out/web', place / 'cdscript')
    files = sorted((TESTS / suite).glob('*.test.mjs'))
    with multiprocessing.Pool(PROCESSES) as pool:
        TESTED[suite] = sorted(pool.map(measured, [(file, suite, RIGHT) for file in files], 1), key=lambda it: it.seconds)
    return passes([], place, suite, RIGHT)


def tried_all(suite: str, mutants: list[Mutant]) -> Iterator[tuple[Mutant, str]]:
    with tempfile.TemporaryDirectory(prefix='mutant-') as place:
        os.environ['MODEL_ANSWERS'] = str(Path(place, 'answers'))
        if not right_passes(suite, Path(place)):
            raise RuntimeError(f'the tests of {suite} fail on the right version')
        with multiprocessing.Pool(PROCESSES) as pool:
            yield from pool.imap_unordered(tried, mutants)


def main() -> int:
    words = argparse.ArgumentParser(description='Tries random small changes.')
    words.add_argument('suites', nargs='*', metavar='SUITE', default=USUAL)
    words.add_argument('--count', type=int, default=300, metavar='N')
    words.add_argument('--seed', default='1', metavar='S')
    given = words.parse_args()
    strip.stripped()
    every = [it for suite in given.suites for it in (of_python if suite == 'python' else of_javascript)(suite)]
    chosen = random.Random(given.seed).sample(every, min(given.count, len(every)))
    print(f'{len(chosen)} of {len(every)} changes, seed {given.seed}', flush=True)
    counts = {'killed': 0, 'survived': 0, 'unreached': 0}
    for suite in SOURCES:
        own = [it for it in chosen if it.suite == suite]
        for mutant, became in tried_all(suite, own) if own else []:
            if became == 'unreached' and suite in NEXT and mutant.file.startswith(SOURCES['core']):
                chosen.append(replace(mutant, suite=NEXT[suite]))
                continue
            counts[became] += 1
            if became != 'killed' and (suite, became) != ('page', 'unreached'):
                print(f'{became} {shown(mutant)}', flush=True)
    print(', '.join(f'{count} {name}' for name, count in counts.items()))
    return 0


if __name__ == '__main__':
    sys.exit(main())
