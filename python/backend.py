"""Builds the package for pip with Python's own modules, so that no network is needed. A wheel of a package with the library in it has that
and the notices beside it, and is only for the system of the library. Other wheels, and the archive of the sources, say that they need the library."""

from __future__ import annotations

import ast
import base64
import gzip
import hashlib
import io
import re
import tarfile
from pathlib import Path
from typing import Dict, Optional
from zipfile import ZIP_DEFLATED, ZipFile, ZipInfo

HERE = Path(__file__).resolve().parent
LIBRARY = 'libcdpatch.so.2'
LIBRARIES = (LIBRARY, 'cdpatch.dll')
NOTICES = 'NOTICES'
NUMBERS = '_numbers.py'
# By the machine of a library for Linux, which its header has. The loader of glibc 2.34 looks at the processor's level.
PLATFORMS = {62: 'manylinux_2_34_x86_64', 183: 'manylinux_2_17_aarch64'}
Settings = Optional[Dict[str, object]]


def _stated(file: str, name: str) -> str:
    """What a file states of a name, as text in quotes."""
    found = re.search(rf'^{name} = [\'"](.*)[\'"]$', (HERE / file).read_text(), re.MULTILINE)
    if found is None:
        raise ValueError(f'{file} states no {name}')
    return found.group(1)


VERSION = _stated('cdpatch/__init__.py', '__version__')
NAME = f'cdpatch-{VERSION}'
ABOUT = f'{NAME}.dist-info'
NEEDS = f"""This distribution has no library. It needs {LIBRARY} of cdpatch {VERSION} or later, which `make install` of cdpatch installs, and
the Debian package libcdpatch2. The wheels for {PLATFORMS[62]}, {PLATFORMS[183]}, and win_amd64 have it.

"""


def _metadata(files: dict[str, bytes]) -> bytes:
    """What a distribution of these files says of itself. Its long text is that of `help`, after what it needs."""
    project = (HERE / 'pyproject.toml').read_text()
    author = re.findall(r'{name = "(.*?)"}', project)
    classifiers = re.findall(r'^    "(.* :: .*)",$', project, re.MULTILINE)
    help_text = ast.get_docstring(ast.parse((HERE / 'cdpatch' / '__init__.py').read_text()))
    needs, about_library = NEEDS, f'Requires-External: libcdpatch (>={VERSION})'
    if _has_library(files):
        needs, about_library = '', f'License-File: {NOTICES}'
    lines = ['Metadata-Version: 2.4', 'Name: cdpatch', f'Version: {VERSION}',
             f'Summary: {_stated("pyproject.toml", "description")}', *(f'Author: {name}' for name in author),
             *(f'Classifier: {name}' for name in classifiers), about_library,
             f'Requires-Python: {_stated("pyproject.toml", "requires-python")}', 'Description-Content-Type: text/plain', '',
             needs + (help_text or ''), '']
    return '\n'.join(lines).encode()


def _has_library(files: dict[str, bytes]) -> bool:
    return any(f'cdpatch/{name}' in files for name in LIBRARIES)


def _platform(files: dict[str, bytes]) -> str:
    """The platform of a wheel of these files."""
    if not _has_library(files):
        return 'any'
    library = files.get(f'cdpatch/{LIBRARY}')
    return PLATFORMS[int.from_bytes(library[18:20], 'little')] if library else 'win_amd64'


def _package() -> dict[str, bytes]:
    """The files of the package by their names. Raises FileNotFoundError if it has the library, but not the notices that each copy of it
    must carry; or if it lacks the numbers of the header, which are not in the repository."""
    here = HERE / 'cdpatch'
    if not (here / NUMBERS).exists():
        raise FileNotFoundError(f'{here / NUMBERS} is missing: `make` writes it')
    names = [*sorted(path.name for path in here.glob('*.py')), 'py.typed']
    libraries = [name for name in LIBRARIES if (here / name).exists()]
    if libraries:
        if not (here / NOTICES).exists():
            raise FileNotFoundError(f'{here / NOTICES} is missing: each copy of {libraries[0]} must carry it')
        names += [*libraries, NOTICES]
    return {f'cdpatch/{name}': (here / name).read_bytes() for name in names}


def _record(files: dict[str, bytes], itself: str) -> bytes:
    """The list of the files with their digests, which has a line of its own too."""
    lines = []
    for name, data in files.items():
        digest = base64.urlsafe_b64encode(hashlib.sha256(data).digest()).rstrip(b'=').decode()
        lines.append(f'{name},sha256={digest},{len(data)}\n')
    return ''.join([*lines, f'{itself},,\n']).encode()


def _made_wheel(directory: str, files: dict[str, bytes]) -> str:
    """Makes a wheel of these files in a directory, and returns its name."""
    pure = not _has_library(files)
    tag = f'py3-none-{_platform(files)}'
    if not pure:
        files[f'{ABOUT}/licenses/{NOTICES}'] = files.pop(f'cdpatch/{NOTICES}')
    files[f'{ABOUT}/METADATA'] = _metadata(files)
    files[f'{ABOUT}/WHEEL'] = f'Wheel-Version: 1.0\nGenerator: {NAME}\nRoot-Is-Purelib: {str(pure).lower()}\nTag: {tag}\n'.encode()
    files[f'{ABOUT}/RECORD'] = _record(files, f'{ABOUT}/RECORD')
    with ZipFile(Path(directory) / f'{NAME}-{tag}.whl', 'w', ZIP_DEFLATED) as wheel:
        for name, data in files.items():
            entry = ZipInfo(name)
            entry.external_attr = 0o644 << 16
            wheel.writestr(entry, data, ZIP_DEFLATED)
    return f'{NAME}-{tag}.whl'


def build_wheel(wheel_directory: str, config_settings: Settings = None, metadata_directory: Optional[str] = None) -> str:
    """Makes the wheel in a directory, and returns its name."""
    return _made_wheel(wheel_directory, _package())


def build_editable(wheel_directory: str, config_settings: Settings = None, metadata_directory: Optional[str] = None) -> str:
    """Makes a wheel in a directory by which Python takes the package from here, and returns its name."""
    return _made_wheel(wheel_directory, {'cdpatch.pth': f'{HERE}\n'.encode()})


def prepare_metadata_for_build_wheel(metadata_directory: str, config_settings: Settings = None) -> str:
    """Writes what the wheel says of itself to a directory below another, and returns the name of that."""
    about = Path(metadata_directory) / ABOUT
    about.mkdir()
    (about / 'METADATA').write_bytes(_metadata(_package()))
    return ABOUT


def build_sdist(sdist_directory: str, config_settings: Settings = None) -> str:
    """Makes the archive of the sources in a directory, without the library, and returns its name."""
    files = {name: (HERE / name).read_bytes() for name in ('pyproject.toml', 'backend.py')}
    files.update((name, data) for name, data in _package().items() if Path(name).name not in (*LIBRARIES, NOTICES))
    files['PKG-INFO'] = _metadata(files)
    content = io.BytesIO()
    with tarfile.open(fileobj=content, mode='w', format=tarfile.PAX_FORMAT) as archive:
        for name, data in files.items():
            entry = tarfile.TarInfo(f'{NAME}/{name}')
            entry.size = len(data)
            archive.addfile(entry, io.BytesIO(data))
    (Path(sdist_directory) / f'{NAME}.tar.gz').write_bytes(gzip.compress(content.getvalue(), mtime=0))
    return f'{NAME}.tar.gz'
