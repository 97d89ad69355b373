"""The library that the package loads, the error if there is none, and the names that the package shows. Each test runs a new Python."""

import builtins
import inspect
import os
import pydoc
import re
import shutil
import subprocess
import sys
from pathlib import Path

import cdpatch
import pytest

PACKAGE = Path(cdpatch.__file__).parent
LIBRARY = Path(os.environ['CDPATCH_LIBRARY'])
SHOW = 'import cdpatch; print([line.split()[-1] for line in open("/proc/self/maps") if "libcdpatch" in line][0])'


def ran(package, code=SHOW, **more):
    """Runs Python with the package of a directory and additional environment variables."""
    kept = {name: value for name, value in os.environ.items() if name not in ('CDPATCH_LIBRARY', 'LD_LIBRARY_PATH', 'PYTHONPATH')}
    return subprocess.run([sys.executable, '-B', '-c', code], capture_output=True, text=True,
                          env={**kept, 'PYTHONPATH': str(package), **more})


def loads(package, library, **more):
    ended = ran(package, **more)
    assert (ended.returncode, ended.stdout, ended.stderr) == (0, f'{library}\n', '')


@pytest.fixture
def copy(tmp_path):
    """A copy of the package, four directories below a prefix without a library."""
    package = tmp_path / 'prefix' / 'share' / 'cdpatch' / 'python' / 'cdpatch'
    shutil.copytree(PACKAGE, package, ignore=shutil.ignore_patterns('__pycache__', '*.so.2'))
    return package


def with_library(directory):
    directory.mkdir(parents=True, exist_ok=True)
    return Path(shutil.copy(LIBRARY, directory / 'libcdpatch.so.2'))


def test_the_library_that_is_named_comes_first(copy, tmp_path):
    with_library(copy)
    named = shutil.copy(LIBRARY, tmp_path / 'libcdpatch-named.so')
    loads(copy.parent, named, CDPATCH_LIBRARY=str(named), LD_LIBRARY_PATH=str(with_library(tmp_path / 'lib').parent))


def test_then_the_one_in_the_package(copy, tmp_path):
    loads(copy.parent, with_library(copy), LD_LIBRARY_PATH=str(with_library(tmp_path / 'lib').parent))


def test_then_that_of_the_loader(copy, tmp_path):
    with_library(tmp_path / 'prefix' / 'lib')
    found = with_library(tmp_path / 'lib')
    loads(copy.parent, found, LD_LIBRARY_PATH=str(found.parent))


def test_then_that_of_the_prefix(copy, tmp_path):
    loads(copy.parent, with_library(tmp_path / 'prefix' / 'lib'))


def with_older_library(directory):
    """A library in which a call has a different name."""
    found = with_library(directory)
    found.write_bytes(found.read_bytes().replace(b'cdpatch_survey\0', b'cdpatch_census\0'))
    return found


def test_an_older_one_of_the_loader_hides_none_of_the_prefix(copy, tmp_path):
    right = with_library(tmp_path / 'prefix' / 'lib')
    older = with_older_library(tmp_path / 'lib')
    ended = ran(copy.parent, 'import cdpatch; print(cdpatch.survey(b""), cdpatch._library.library._name)', LD_LIBRARY_PATH=str(older.parent))
    assert (ended.returncode, ended.stderr) == (0, '') and Path(ended.stdout.split()[-1]).resolve() == right


def test_an_older_one_is_refused_if_there_is_no_other(copy, tmp_path):
    ended = ran(copy.parent, 'import cdpatch', LD_LIBRARY_PATH=str(with_older_library(tmp_path / 'lib').parent))
    last = ended.stderr.splitlines()[-1]
    assert last.startswith('ImportError: cdpatch has found an older library, libcdpatch.so.2, without cdpatch_survey. ')


@pytest.mark.parametrize('place', ['lib/python3.11/site-packages', 'lib64/python3.13/site-packages', 'lib/python3/dist-packages'])
def test_then_that_of_the_prefix_of_pip(copy, tmp_path, place):
    installed = shutil.copytree(copy, tmp_path / 'pip' / place / 'cdpatch')
    loads(installed.parent, with_library(tmp_path / 'pip' / 'lib'))


@pytest.mark.parametrize('place', ['build/cdpatch-1.2.0/python', 'src/a/b', 'lib/python2.7/site-packages'])
def test_never_one_above_a_package_that_is_not_installed(copy, tmp_path, place):
    unpacked = shutil.copytree(copy, tmp_path / 'anybody' / place / 'cdpatch')
    with_library(tmp_path / 'anybody' / 'lib')
    ended = ran(unpacked.parent)
    assert ended.returncode == 1 and 'ImportError: cdpatch cannot load its library: ' in ended.stderr


@pytest.mark.parametrize('named', [None, '/nowhere/libcdpatch.so.2', __file__])
def test_if_there_is_none_one_line_says_what_to_do(copy, named):
    ended = ran(copy.parent, 'import cdpatch', **{'CDPATCH_LIBRARY': named} if named else {})
    last = ended.stderr.splitlines()[-1]
    assert ended.returncode == 1 and last.startswith('ImportError: cdpatch cannot load its library: ')
    assert (named or 'libcdpatch.so.2') in last and 'make install' in last and 'CDPATCH_LIBRARY' in last


def test_a_library_that_lacks_a_call_is_refused_in_one_line(copy):
    ended = ran(copy.parent, 'import cdpatch', CDPATCH_LIBRARY='libc.so.6')
    last = ended.stderr.splitlines()[-1]
    assert ended.returncode == 1 and last.startswith('ImportError: cdpatch has found an older library, libc.so.6, without cdpatch_version. ')
    assert 'CDPATCH_LIBRARY' in last


def test_importing_all_hides_no_builtin():
    names = {}
    exec('from cdpatch import *', names)
    assert not {*names} & {*dir(builtins)} - {'__builtins__', '__name__', '__doc__'}
    assert {*names} - {'__builtins__'} == {*cdpatch.__all__} and len({*cdpatch.__all__}) == len(cdpatch.__all__)


def test_versions():
    program = subprocess.run([os.environ['CDPATCH_PROGRAM'], '--help'], capture_output=True, text=True).stdout
    assert f'cdpatch {cdpatch.__version__}' == program.splitlines()[-1] == f'cdpatch {cdpatch.library_version()}'


def test_each_name_says_what_it_is():
    for name in cdpatch.__all__:
        value = getattr(cdpatch, name)
        assert name.isupper() or value.__doc__.strip().endswith('.'), name
        if inspect.isfunction(value):
            hints = value.__annotations__
            assert 'return' in hints and {*hints} - {'return'} == {*inspect.signature(value).parameters}, name
    assert (PACKAGE / 'py.typed').exists()


def test_a_call_with_a_size_names_it_and_its_error():
    for name in ('kind', 'encode', 'with_parity', 'is_consistent', 'defect', 'broken', 'rebuild', 'with_user', 'with_address',
                 'merge_sector', 'correct_sector'):
        assert re.search(r'2352.*ValueError', getattr(cdpatch, name).__doc__, re.DOTALL), name


def test_help_begins_with_a_table_of_the_calls():
    text = pydoc.plain(pydoc.render_doc(cdpatch))
    table = text[:text.index('PACKAGE CONTENTS')]
    calls = [name for name in cdpatch.__all__ if inspect.isfunction(getattr(cdpatch, name))]
    for name in calls:
        needed = [each.name for each in inspect.signature(getattr(cdpatch, name)).parameters.values() if each.default is each.empty]
        assert re.search(rf'(?m)^ +{name}\({", ".join(needed)}\) {{2,}}\S.*$', table), name
    assert len(re.findall(r'(?m)^ {4,}(\w+)\([\w, ]*\) {2,}\S', table)) == len(calls)


def test_help_explains_the_types_that_it_names():
    named = {*re.findall(r'\b\w+Buffer\b', pydoc.plain(pydoc.render_doc(cdpatch)))}
    assert named and not [name for name in named if name not in cdpatch.__doc__]
