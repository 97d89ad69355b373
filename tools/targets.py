#!/usr/bin/env python3
"""Makes the program and libcdpatch for another system from what `make` has proved for Linux on x86-64: `targets.py windows|arm64|wasm`.

It writes to windows/ the program, the DLL, its import libraries for MinGW and for MSVC, and the static library; to arm64/ the program and
both libraries for Linux on aarch64; and to library/ the WebAssembly module. Nothing is proved again: the toolchain's clang compiles the
module of LLVM that was proved, with the edits of tools/retarget.py. `targets.py SYSTEM SHIM PROGRAM` only links the program again, with a
different shim.
"""

import os
import re
import subprocess
import sys
import tempfile
from concurrent.futures import ThreadPoolExecutor
from pathlib import Path
from typing import Any

import prove
import retarget

TOP = prove.TOP
KIT = prove.KIT
COMPILERS = {'windows': 'x86_64-w64-mingw32-gcc', 'arm64': 'aarch64-linux-gnu-gcc'}
SHIMS = {'windows': 'windows.c', 'arm64': 'linux.c'}
LIBRARIES = re.findall(r'(?m)^(\w+) staticlib:', (TOP / 'crates.txt').read_text(encoding='utf-8'))
# What each system is made of.
CRATES = {'windows': ['cdpatch', *LIBRARIES], 'arm64': ['cdpatch', *LIBRARIES], 'wasm': LIBRARIES}
SMALL = ['-s', '-Wl,--gc-sections']
LINKS = {'windows': [*SMALL, '-static-libgcc', '-Wl,--no-insert-timestamp', '-lshell32'],
         'arm64': [*SMALL, '-Wl,-z,now', '-Wl,-z,noexecstack', '-Wl,--build-id=none']}
MODULE_LINK = ['--no-entry', '--gc-sections', '-s', '--stack-first', '-z', 'stack-size=1048576', '--export=__heap_base']
# The module as text, as it was lowered.
AS_TEXT = ['--no-default-config', '-fintegrated-cc1', '-Xclang', '-disable-llvm-passes', '-S', '-emit-llvm', '-x', 'ir']
# The flags of Linux on x86-64, and those of each other system. Windows and WebAssembly move all code, so clang knows no flag for that.
OF_LINUX = ('--target=', '--sysroot=', '-march=', '-fPI')
FLAGS = {'windows': ['--target=x86_64-w64-windows-gnu'], 'arm64': ['--target=aarch64-unknown-linux-gnu', '-fPIC'],
         'wasm': ['--target=wasm32-unknown-unknown', '-mcpu=lime1', '-msimd128']}


def run(*words: str | Path, **how: Any) -> None:
    """Runs a command. If it fails, exits with an error."""
    if subprocess.run(words, check=False, **how).returncode:
        sys.exit(f'targets.py: {Path(words[0]).name} failed')


def by_clang(name: str, *words: str | Path) -> None:
    """Calls one of the tools that the toolchain's clang provides under other names."""
    run(name, *words, executable=KIT / 'bin/clang')


# ---- the compilers

def has_compiler(system: str) -> bool:
    """Whether the system's compiler is installed, and finds its C library."""
    try:
        words = [COMPILERS[system], '-E', '-x', 'c', '-include', 'stdlib.h', '/dev/null']
        return subprocess.run(words, check=False, stdout=subprocess.DEVNULL, stderr=subprocess.DEVNULL).returncode == 0
    except FileNotFoundError:
        return False


def packages(system: str) -> str:
    """The Debian packages of a system's compiler."""
    text = (TOP / 'tools/packages.txt').read_text(encoding='utf-8')
    return re.findall(rf'(?m)^{COMPILERS[system]}: (.*)$', text)[0].replace(' ', ' and ')


# ---- the objects of the proved crates

def object_of(system: str, crate: str) -> Path:
    return TOP / f'crates/{crate}/out/{crate}-{system}.o'


def keep_modules(crates: list[Any]) -> None:
    """Keeps the modules of LLVM that are missing. `make` keeps those of the libraries."""
    for crate in crates:
        if prove.has_module(crate):
            continue
        with tempfile.TemporaryFile('w+', errors='replace') as crate.out:
            held = prove.rtlib.lock([crate])
            status = prove.keep_module(crate, ['--jobs', '1'])
            os.close(*held)
            crate.out.seek(0)
            if status:
                sys.exit(f'FAILED {crate.name}: {crate.out.read().strip()[-2000:]}')


def build_object(system: str, crate: Any, room: Path) -> None:
    """Compiles the module of LLVM of a crate for a system, if it has changed."""
    module, flags = prove.module_of(crate)
    made, tools = object_of(system, crate.name), (TOP / 'tools/retarget.py', TOP / 'tools/targets.py')
    made_of = prove.summed('', (module, flags, *tools))
    if prove.is_made(made.with_suffix('.made_of'), made_of, made):
        return
    text = room / f'{crate.name}.ll'
    by_clang('clang', *AS_TEXT, module, '-o', text)
    text.write_text(retarget.retargeted(text.read_text(encoding='utf-8'), system, crate.name), encoding='utf-8')
    given = [flag for flag in flags.read_text(encoding='utf-8').split('\n') if flag and not flag.startswith(OF_LINUX)]
    by_clang('clang', *FLAGS[system], *({'module.bc': text, 'module.o': made}.get(flag, flag) for flag in given))
    prove.record_made(made.with_suffix('.made_of'), made_of, made)


def build_objects(system: str, room: Path) -> None:
    crates = {crate.name: crate for crate in prove.rtlib.crates_below(str(TOP))}
    wanted = [crates[name] for name in CRATES[system]]
    if not all(low.is_built() for crate in wanted for low in crate.below()):
        sys.exit(f'targets.py: run make before make {system}: crates are not proved.')
    keep_modules(wanted)
    with ThreadPoolExecutor() as pool:
        for _ in pool.map(lambda crate: build_object(system, crate, room), wanted):
            pass


# ---- what is linked

def compiled(system: str, source: Path, room: Path) -> Path:
    made = room / f'{source.stem}.o'
    run(COMPILERS[system], '-std=c11', '-O2', '-fPIC', '-Wall', '-Wextra', '-Werror', '-c', source, '-o', made)
    return made


def link_program(system: str, shim: Path, program: Path, room: Path) -> None:
    sources = TOP / 'targets/memory.c', shim
    run(COMPILERS[system], object_of(system, 'cdpatch'), *(compiled(system, source, room) for source in sources), *LINKS[system], '-o', program)


def calls() -> list[str]:
    return re.findall(r'\bcdpatch_\w+(?=;)', (TOP / 'tools/libcdpatch.map').read_text(encoding='utf-8'))


def link_libraries(system: str, directory: Path, room: Path) -> None:
    objects = [object_of(system, crate) for crate in LIBRARIES]
    (directory / 'libcdpatch.a').unlink(missing_ok=True)
    by_clang('llvm-ar', 'rc', directory / 'libcdpatch.a', *objects)
    if system == 'arm64':
        run(COMPILERS[system], '-shared', '-nostartfiles', *objects, *LINKS[system], '-Wl,-soname,libcdpatch.so.2',
            f'-Wl,--version-script={TOP}/tools/libcdpatch.map', '-Wl,--no-undefined', '-o', directory / 'libcdpatch.so.2')
        return
    definition = room / 'cdpatch.def'
    definition.write_text('\n'.join(['LIBRARY cdpatch.dll', 'EXPORTS', *calls(), '']), encoding='utf-8')
    run(COMPILERS[system], '-shared', *objects, definition, *LINKS[system], f'-Wl,--out-implib,{directory}/libcdpatch.dll.a',
        '-o', directory / 'cdpatch.dll')
    by_clang('llvm-dlltool', '-m', 'i386:x86-64', '-d', definition, '-l', directory / 'cdpatch.lib')


def link_module(module: Path) -> None:
    """Links the WebAssembly module. A call that needs a function that it does not have ends this with an error."""
    exports = [f'--export-if-defined={name}' for name in calls()]
    by_clang('wasm-ld', *MODULE_LINK, *exports, *(object_of('wasm', name) for name in CRATES['wasm']), '-o', module)
    module.chmod(0o644)


def main(system: str, shim: str = '', program: str = '') -> int:
    if system in COMPILERS and not has_compiler(system):
        sys.exit(f"make {system} needs {COMPILERS[system]} (Debian's packages {packages(system)}).")
    with tempfile.TemporaryDirectory() as name:
        room = Path(name)
        if shim:
            link_program(system, Path(shim), Path(program), room)
            return 0
        prove.rtlib.guarded()  # all processes from here on end with this one
        prove.rtlib.Crate.cuts_libraries = True
        build_objects(system, room)
        if system == 'wasm':
            link_module(TOP / 'library/cdpatch.wasm')
            return 0
        directory = TOP / system
        directory.mkdir(exist_ok=True)
        link_program(system, TOP / 'targets' / SHIMS[system], directory / ('cdpatch.exe' if system == 'windows' else 'cdpatch'), room)
        link_libraries(system, directory, room)
        run('bash', TOP / 'tools/notices.sh', directory / 'NOTICES')
        print('made:', *sorted(str(file.relative_to(TOP)) for file in directory.iterdir()))
    return 0


if __name__ == '__main__':
    sys.exit(main(*sys.argv[1:]))
