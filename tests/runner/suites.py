"""The suites of tests. Each is a function here, or a script in shell."""

from __future__ import annotations

import os
import sys
from collections.abc import Callable
from pathlib import Path

from suite import MODULE, TESTS, TOP, Suite

JUDGE: list[str | Path] = [sys.executable, '-B', TESTS / 'cases/judge.py']
COMPARE: list[str | Path] = [sys.executable, '-B', TESTS / 'model/compare.py', '--seed', os.environ.get('SEED', '1')]
PACK: list[str | Path] = [sys.executable, '-B', TOP / 'tools/pack.py']
IN_GATE = 'GATE' in os.environ
RANDOM_CASES = os.environ.get('RANDOM_CASES', '300' if IN_GATE else '100')
PROCESS_CASES = os.environ.get('PROCESS_CASES', '300' if IN_GATE else '20')
# The directory of node 18 (.ci/node18), if some suites are to run there too.
NODE18 = os.environ.get('NODE18')
LIBRARY = TOP / 'library/libcdpatch.so.2'
# Sectors that other software encoded.
VECTORS = TOP / 'crates/cd_low_tests/data/cdrkit-8.bin'
MYPY = ['mypy', '--strict', '--cache-dir', '/dev/null']


def cases(it: Suite) -> None:
    """The worked cases by the model and the program; those of some files if words are in their names."""
    files = sorted((TESTS / 'cases').glob('*.txt'))
    chosen = [file for file in files if it.wants(file.name)]
    if chosen:
        it.lines([*JUDGE, it.environment['PROGRAM'], *chosen])


def model(it: Suite) -> None:
    if it.wants('random cases'):
        it.lines([*COMPARE, it.environment['PROGRAM']])


def random_faults(it: Suite) -> None:
    """Runs whose calls fail, move few bytes, or are interrupted, by 500 seeds, or by SEED alone."""
    if it.lacks('gcc', what='random faults'):
        return
    library, process = it.place / 'random_faults.so', TESTS / 'process'
    if it.command('random_faults.c compiles', ['gcc', '-shared', '-fPIC', '-O2', '-o', library, process / 'random_faults.c', '-ldl']):
        seeds = [os.environ['SEED'], '1'] if 'SEED' in os.environ else ['1', '500']
        it.lines([sys.executable, '-B', process / 'random_faults.py', it.environment['PROGRAM'], library, VECTORS, *seeds])


def by_client(it: Suite, client: str, path: Path) -> None:
    """Worked and random cases by a client of tests/cases/clients.py."""
    it.command(f'worked cases by {client}', [*JUDGE, 'model', '--without-model', f'--{client}', path])
    it.command(f'random cases by {client}', [*COMPARE, '--cases', RANDOM_CASES, f'--{client}', path])


def core(it: Suite) -> None:
    by_client(it, 'core', TOP / 'out/web/core')
    it.node(TESTS / 'core')


def cdscript(it: Suite) -> None:
    command = it.place / 'cdscript'
    status, text = it.run([*PACK, 'command', MODULE, command])
    if status != 0:
        it.outcome.failed.append(('cdscript is packed', text))
        return
    by_client(it, 'cdscript', command)
    it.command('random cases by cdscript as processes', [*COMPARE, '--cases', PROCESS_CASES, '--cdscript-process', command])
    it.node(TESTS / 'cdscript', COMMAND=command)


def in_node18(suite: Callable[[Suite], None]) -> Callable[[Suite], None]:
    """A suite in node 18, the oldest that runs cdscript, with files as large as `make check` has."""
    def run(it: Suite) -> None:
        it.environment['PATH'] = f'{NODE18}:{it.environment["PATH"]}'
        it.environment.pop('GATE', None)
        suite(it)
    return run


def in_node(directory: str, names: str = '*') -> Callable[[Suite], None]:
    return lambda it: it.node(TESTS / directory, names)


def browsers(it: Suite) -> None:
    """The page in browsers. Without words, only the gate runs the tests that have no mark `in_check`."""
    if it.lacks('chromium', 'pytest-3', 'import pytest_rerunfailures', 'import xdist', what='the page in a browser'):
        return
    made = it.place / 'cdpatch.html'
    status, text = it.run([*PACK, 'page', MODULE, made])
    if status != 0:
        it.outcome.failed.append(('the page is packed', text))
        return
    # A test and its browser mostly wait for each other. WebKit needs an X server.
    processes = '0' if it.words else '4'
    display = [] if 'DISPLAY' in os.environ or not (IN_GATE or it.words) or it.lacks('xvfb-run', what='WebKit') else ['xvfb-run', '-a']
    it.pytest(TESTS / 'page', '-n', processes, before=display, PAGE=made, SCRATCH=it.place)


def python(it: Suite) -> None:
    if it.lacks('pytest-3', 'hypothesis'):
        return
    place = TOP / 'python'
    it.pytest(TESTS / 'python', '--basetemp', str(it.place / 'made'), PYTHONPATH=place, CDPATCH_LIBRARY=LIBRARY,
              LD_LIBRARY_PATH=LIBRARY.parent, CDPATCH_PROGRAM=it.environment['PROGRAM'])
    by_client(it, 'python', place)


def types(it: Suite) -> None:
    """The types of web/ and of all Python that declares them."""
    if not it.lacks('tsc', what='the types of web/'):
        it.command('the types of web/', ['tsc', '-p', TOP / 'web'])
    if it.lacks('mypy', what='the types of Python'):
        return
    tools = [TOP / 'tools' / f'{name}.py'
             for name in ('contracts', 'frequencies', 'header', 'options', 'pack', 'pages', 'pairs', 'retarget', 'strip', 'weight')]
    it.command('the types of the tools', [*MYPY, *tools, TESTS / 'wrong/definitions/edits.py', TESTS / 'wrong/mutants.py'], MYPYPATH=TOP / 'tools')
    it.command('the types of tests/run', [*MYPY, TESTS / 'run', TESTS / 'runner'], MYPYPATH=TESTS / 'runner')
    it.command('the types of the tests of the page', ['mypy', '--cache-dir', '/dev/null', '--config-file', TESTS / 'page/mypy.ini', TESTS / 'page'],
               MYPYPATH=f'{TOP / "tools"}:{TESTS / "lib"}:{TESTS / "page"}')
    for name, file in ('the package', TOP / 'python'), ('the example', TOP / 'examples/fixlist.py'), ('a client', TESTS / 'python/client.py'):
        it.command(f'the types of {name} in Python', [*MYPY, '--python-version', '3.9', file], MYPYPATH=TOP / 'python')


def script(path: str, *words: str) -> Callable[[Suite], None]:
    """A suite in shell. It runs with words only if its sources have one of them."""
    def suite(it: Suite) -> None:
        texts = [file.read_text(encoding='utf-8') for file in {TESTS / path, *(TESTS / path).parent.glob('*.sh')}]
        if not it.words or any(named in text for named in it.words for text in texts):
            it.lines(['bash', TESTS / path, it.environment['PROGRAM'], *words])
    return suite


# Suites of growth, of releases, of other systems, and of the runner itself. `make check` leaves them to the gate.
OF_THE_GATE = {'growth', 'release', 'fit', 'bare', 'runner', 'targets'}
# Directories, and the page, with more than one suite.
GROUPS = {
    'page': ['browsers', 'page_in_node', 'hostile', 'growth'],
    'process': ['program', 'images', 'faults', 'memory', 'system', 'random_faults'],
    'pages': ['examples', 'help', 'manual', 'messages', 'against_sources', 'rustdoc', 'sources', 'installing', 'release', 'completions', 'terminals'],
    'tools': ['pack', 'fit', 'forms', 'types', 'runner', 'bare'],
}
modules = script('modules/run')
pack = script('tools/pack.sh', 'refusals', 'command', 'page', 'pairs', 'two_builds')
IN_NODE18 = {'cdscript': cdscript, 'core': core, 'modules': modules, 'pack': pack} if NODE18 else {}
# The suites. Those that take longest begin first.
SUITES: dict[str, Callable[[Suite], None]] = {
    'browsers': browsers, 'library': script('library/run'), 'targets': script('targets/run'), 'cdscript': cdscript, 'core': core,
    **{f'{name}_in_node18': in_node18(suite) for name, suite in IN_NODE18.items()},
    'growth': in_node('hostile', 'growth'), 'hostile': in_node('hostile', 'fuzz'), 'release': script('pages/run', 'release'),
    'page_in_node': in_node('page'), 'examples': script('pages/run', 'examples'), 'runner': script('tools/runner.sh'), 'types': types,
    'fit': script('tools/pack.sh', 'release'), 'bare': script('tools/bare.sh'), 'forms': script('tools/pack.sh', 'forms'), 'cases': cases,
    'modules': modules, 'python': python, 'pack': pack, 'faults': script('process/faults.sh'), 'model': model,
    'memory': script('process/memory.sh'), 'images': script('process/images.sh'), 'system': script('process/system.sh'),
    **{name: script('pages/run', name) for name in GROUPS['pages'] if name not in ('release', 'examples')},
    'random_faults': random_faults, 'program': script('process/program.sh'),
}
