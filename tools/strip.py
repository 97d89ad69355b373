#!/usr/bin/env python3
"""Strips the types of web/: `strip.py` updates out/web, which node, the tests, eslint, and tools/pack.py read. For each file in TypeScript
it has a module in JavaScript with a map to the lines of its source, and all other files but .d.ts as they are. A file that does not change is not
written, so several processes may strip at the same time."""

import os
import shutil
import subprocess
import sys
import tempfile
from pathlib import Path

TOP = Path(__file__).resolve().parent.parent
FORM = ['--charset=utf8', '--sourcemap=inline', '--sources-content=false', '--log-level=warning']


def esbuild(*words: str | Path, at: Path) -> str:
    """Runs esbuild and returns its output. A warning is an error."""
    name = Path(sys.argv[0]).name
    try:
        ran = subprocess.run(['esbuild', *words], stdout=subprocess.PIPE, stderr=subprocess.PIPE, check=False, cwd=at)
    except FileNotFoundError:
        sys.exit(f"{name}: there is no esbuild (Debian's package esbuild)")
    if ran.returncode or ran.stderr:
        sys.exit(f'{name}: {ran.stderr.decode().strip()}')
    return ran.stdout.decode()


def files_in(folder: Path) -> set[Path]:
    return {it.relative_to(folder) for it in folder.rglob('*') if it.is_file()}


def stripped(web: Path = TOP / 'web', out: Path = TOP / 'out/web') -> Path:
    """Updates the stripped copy of a directory `web`, and returns it."""
    out.parent.mkdir(exist_ok=True)
    # The maps have relative paths, so the files are generated in a directory beside `out`.
    with tempfile.TemporaryDirectory(prefix='strip-', dir=out.parent) as name:
        made = Path(name)
        given = {it for it in files_in(web) if not it.name.endswith('.d.ts')}
        sources = sorted(it for it in given if it.suffix == '.ts')
        if sources:
            esbuild(*sources, f'--outdir={made.resolve()}', '--outbase=.', *FORM, at=web)
        for file in given - {*sources}:
            (made / file).parent.mkdir(parents=True, exist_ok=True)
            shutil.copy(web / file, made / file)
        for file in files_in(made):
            (out / file).parent.mkdir(parents=True, exist_ok=True)
            if not (out / file).is_file() or (out / file).read_bytes() != (made / file).read_bytes():
                os.replace(made / file, out / file)
        for file in files_in(out) - (given - {*sources}) - {it.with_suffix('.js') for it in sources}:
            (out / file).unlink(missing_ok=True)
    return out


if __name__ == '__main__':
    stripped()
