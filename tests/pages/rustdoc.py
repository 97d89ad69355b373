"""Runs the examples in the rustdoc of crates: `rustdoc.py CRATE..` makes a repository in the current directory, a copy of the crates that
make has built and a crate `examples` with a test for each example, and runs these tests. The output is that of `rt try --test`."""

import re
import shutil
import subprocess
import sys
from collections.abc import Iterator
from pathlib import Path

TOP = Path(__file__).resolve().parent.parent.parent
sys.path.append(str(TOP / 'tools'))
import contracts  # noqa: E402

# The names of std that examples use.
STD = {'Fail': 'std::test::Fail', 'io': 'std::io', 'u8x32': 'std::simd::u8x32'}
# The result of a test, and the traits whose methods examples call.
ALWAYS = {'Fail', 'Host', 'Sink', 'Source'}
UNUSED = shutil.ignore_patterns('incremental', 'proofs', 'must-fail')


def examples(crate: str) -> Iterator[tuple[str, list[str]]]:
    """The name and the lines of each example. The name has the place."""
    for file in contracts.code_of(crate):
        begun, lines = '', list[str]()
        for number, line in enumerate(file.read_text(encoding='utf-8').splitlines(), 1):
            found = re.match(r' *//[/!] ?(.*)', line)
            if found and found[1].startswith('```'):
                if begun:
                    yield begun, lines
                begun, lines = '' if begun else f'{crate}_{file.stem}_{number}', []
            elif found and begun:
                lines.append(found[1])


def exports(crate: str) -> set[str]:
    text = (TOP / f'crates/{crate}/src/lib.rt').read_text(encoding='utf-8')
    return set(re.findall(r'\w+', ' '.join(re.findall(r'pub use [\w:]+::(\{[^}]*\}|\w+);', text))))


def test_of(name: str, lines: list[str], crate: str, exported: dict[str, set[str]]) -> str:
    """The test of an example, in a module of its own. A name that several crates export is that of the example's crate, or of the lowest."""
    words = set(re.findall(r'\w+', '\n'.join(lines))) | ALWAYS
    uses = [f'use {path};' for word, path in STD.items() if word in words]
    for other in [crate, *exported]:
        used = sorted(words & exported[other])
        uses += [f'use {other}::{{{", ".join(used)}}};'] if used else []
        words -= set(used)
    head = f'fn {name}(rt: HostRuntime) -> Result<(), Fail> {{'
    return '\n'.join([f'mod {name} {{', *uses, '#[test]', head, *lines, 'Ok(())', '}', '}'])


def main(crates: list[str]) -> int:
    for crate in contracts.crates():
        shutil.copytree(TOP / f'crates/{crate}', f'crates/{crate}', ignore=UNUSED)
    shutil.copy(TOP / 'HANDLES', 'HANDLES')
    Path('crates.txt').write_text((TOP / 'crates.txt').read_text() + f'examples: {" ".join(crates)}\n')
    exported = {crate: exports(crate) for crate in crates}
    tests = [test_of(name, lines, crate, exported) for crate in crates for name, lines in examples(crate)]
    Path('crates/examples/src').mkdir(parents=True)
    Path('crates/examples/src/lib.rt').write_text('\n'.join(['#![tactic(auto)]', *tests, '']), encoding='utf-8')
    return subprocess.run(['rt', 'try', '--test'], cwd='crates/examples').returncode


if __name__ == '__main__':
    sys.exit(main(sys.argv[1:]))
