"""Reads wrong definitions: `edits.py` prints their names, and `edits.py NAME CRATES` makes one in a copy of the crates. In definitions.wrong
a block begins with a line `[NAME]`, and has, after each line `crate: NAME`, the lines of an edit as those in `must-fail`, which rt reads."""

from __future__ import annotations

import re
import shutil
import sys
from importlib.machinery import SourceFileLoader
from importlib.util import module_from_spec, spec_from_loader
from pathlib import Path
from typing import Any


def module_of_rt() -> Any:
    rt = Path(shutil.which('rt') or sys.exit('There is no rt on the path.')).resolve()
    sys.path.insert(0, str(rt.parent))
    loader = SourceFileLoader('rt_command', str(rt))
    spec = spec_from_loader(loader.name, loader)
    assert spec
    module = module_from_spec(spec)
    loader.exec_module(module)
    return module


def make(text: str, crates: Path) -> None:
    rt = module_of_rt()
    for crate, edit in re.findall(r'(?ms)^crate: (\w+)\n(.*?)(?=^crate: |\Z)', text):
        texts, why = rt.edited(edit, str(crates / crate))
        if why:
            sys.exit(f'{crate}: {why}')
        for path, made in texts.items():
            (crates / crate / path).write_text(made, encoding='utf-8')


def main(names: list[str]) -> None:
    text = Path(__file__).with_name('definitions.wrong').read_text(encoding='utf-8')
    found = dict(re.findall(r'(?ms)^\[(\S+)\]\n(.*?)(?=^\[|\Z)', text))
    if names:
        make(found[names[0]], Path(names[1]))
    else:
        print('\n'.join(found))


if __name__ == '__main__':
    main(sys.argv[1:])
