#!/usr/bin/env python3
"""Proves programs and static libraries and the crates below them, and builds them: `prove.py 'NAME ..' [AT_ONCE [CPU]]`.

The proof of a crate begins once all crates below it are proved. At most AT_ONCE run in parallel, and no more than processors and memory
allow; crates on the longest path up to a goal come first. CPU is the processor to build for, by default any x86-64-v2. A static library
NAME is out/libNAME.a, and is also built for x86-64-v3, as out/libNAME-x86-64-v3.a. The module of LLVM that it was lowered to is kept for
tools/targets.py. With AFTER_CI=1 the libraries that `rt ci` has just proved and built are used unchanged.

It calls rt's own module, so that libraries are built as `rt ci` builds them: with only their statements, over which the crates above are
proved in half the time. rt has no flag for that, and a run of rt excludes every other run from all crates below its own until it ends.
"""

import copy
import hashlib
import os
import re
import shutil
import subprocess
import sys
import tempfile
import time
from concurrent.futures import FIRST_COMPLETED, ThreadPoolExecutor, wait
from functools import cache
from graphlib import TopologicalSorter
from pathlib import Path

sys.path.insert(0, str(Path(shutil.which('rt') or sys.exit('There is no rt on the path.')).resolve().parent))
import rtlib  # noqa: E402

# Otherwise the sources of a crate would be read again for each path to it from each crate above.
rtlib.Crate.stamp = cache(rtlib.Crate.stamp)

TOP = Path(__file__).resolve().parent.parent
MEMORY = 2_000_000_000  # bytes, the most that the proof of a crate takes
KIT = Path(rtlib.KIT, 'toolchain')
# The toolchain's clang, which first copies the module of LLVM and the flags that it is called with.
CLANG = """#!/bin/sh
cp module.bc '{kept}.bc' && printf '%s\\n' "$@" | grep -v '^--sysroot=' > '{kept}.flags' && exec '{kit}/bin/clang' "$@"
"""


def crates_of(goals):
    """All crates by name, and for those that the goals need the names of the crates that they use."""
    crates = {crate.name: crate for crate in rtlib.crates_below(str(TOP))}
    graph = {}
    while goals:
        for name in goals - set(crates):
            sys.exit(f'crates.txt has no {name}')
        graph |= {name: {low.name for low in crates[name].deps} for name in goals}
        goals = set().union(*graph.values()) - set(graph)
    return crates, graph


def size(crate):
    """The bytes of a crate's sources: roughly proportional to the time of its proof."""
    parts = (Path(crate.folder, part) for part in ('src', 'specs', 'proofs'))
    return 1 + sum(file.stat().st_size for part in parts for end in ('rt', 'antt') for file in part.rglob(f'*.{end}'))


def ways(crates, graph):
    """For each crate the bytes of the crates on the longest path from it up to a goal."""
    longest = {}
    for name in reversed(list(TopologicalSorter(graph).static_order())):
        longest[name] = size(crates[name]) + max((longest[above] for above in longest if name in graph[above]), default=0)
    return longest


def stamp(crate):
    """Records that a library is up to date, as rt does for libraries that contain their proofs."""
    Path(crate.rlib).with_name('stamp').write_text(crate.stamp(), encoding='utf-8')


def prove_library(crate, jobs):
    """Proves a crate and builds its library. Results that `rt check` has kept are not proved again."""
    status = 0 if crate.is_built() else crate.build_rlib(jobs, anew=not crate.has_kept())
    if status == 0:
        stamp(crate)
    return status


def toolchain_in(room, kept):
    """Creates a directory with the toolchain whose clang copies what it is called with to files of this name."""
    (room / 'bin').mkdir()
    (room / 'lib').symlink_to(KIT / 'lib')
    for tool in (KIT / 'bin').iterdir():
        if tool.name != 'clang':
            (room / 'bin' / tool.name).symlink_to(tool.resolve())
    clang = room / 'bin/clang'
    clang.write_text(CLANG.format(kept=kept, kit=KIT), encoding='utf-8')
    clang.chmod(0o755)


def module_of(crate):
    """The module of LLVM that a program or static library was lowered to, and the flags that clang was called with."""
    return Path(crate.folder, f'out/{crate.name}.bc'), Path(crate.folder, f'out/{crate.name}.flags')


def has_module(crate):
    """Whether the module was kept, and the crate has not changed since."""
    return is_made(module_of(crate)[0].with_suffix('.made_of'), crate.stamp(), *module_of(crate))


def keep_module(crate, jobs):
    """Proves and builds a program's object or a static library for x86-64-v2, and keeps its module."""
    made = f'out/lib{crate.name}.a' if crate.is_static else f'out/{crate.name}.o'
    module = module_of(crate)[0]
    with tempfile.TemporaryDirectory() as room:
        toolchain_in(Path(room), module.with_suffix(''))
        words = [*crate.words(jobs), '--toolchain', room, '--backend', 'llvm', *rtlib.KEPT, '-o', made]
        status = crate.call(rtlib.RATTLE, 'build', *words)
    if status == 0:
        record_made(module.with_suffix('.made_of'), crate.stamp(), *module_of(crate))
    return status


def is_made(record, made_of, *files):
    """Whether files were made of this, and have not changed since, by the record that `record_made` left."""
    return all(file.exists() for file in (record, *files)) and record.read_text(encoding='utf-8') == summed(made_of, files)


def record_made(record, made_of, *files):
    record.write_text(summed(made_of, files), encoding='utf-8')


def summed(made_of, files):
    return '\n'.join([made_of, *(hashlib.sha256(file.read_bytes()).hexdigest() for file in files)])


def prove_static(crate, jobs, cpu):
    """Proves and builds a static library twice, and keeps its module, unless nothing has changed. The second build uses the proofs of the
    first."""
    made = Path(crate.folder, f'out/lib{crate.name}.a')
    fast, record, made_of = made.with_name(f'lib{crate.name}-x86-64-v3.a'), made.with_suffix('.made_of'), ' '.join([crate.stamp(), *cpu])
    if has_module(crate) and is_made(record, made_of, made, fast):
        return 0
    status = crate.build_static([*jobs, '--cpu', 'x86-64-v3'])
    if status == 0:
        os.replace(made, fast)
        status = keep_module(crate, jobs)
    if status == 0 and cpu:
        status = crate.build_static([*jobs, *cpu])
    if status == 0:
        record_made(record, made_of, made, fast)
    return status


def prove(crate, jobs, cpu):
    """Proves a crate. Returns the status and the output, which is empty if nothing has changed."""
    with tempfile.TemporaryFile('w+', errors='replace') as out:
        if crate.is_program:
            # Only one short function is left to prove. Several copies of rattle would take longer.
            words = [*rtlib.guarded(), 'rt', 'run', '--jobs', '1', *cpu]
            status = subprocess.run(words, cwd=crate.folder, stdin=subprocess.DEVNULL, stdout=subprocess.DEVNULL, stderr=out).returncode
        else:
            crate, held = copy.copy(crate), rtlib.lock([crate])
            crate.out = out
            status = prove_static(crate, jobs, cpu) if crate.is_static else prove_library(crate, jobs)
            os.close(*held)
        out.seek(0)
        return status, re.sub('rt: (nothing has changed|running|chose) .*\n', '', out.read())


def share(name, others, at_once, longest):
    """The number of processors for a crate beside others. Spare ones go to the crate on the longest path: several processors at one proof
    use more CPU time in total, so it gets only those that are idle."""
    side_by_side = min(1 + len(others), at_once)
    over = rtlib.cores() % side_by_side if all(longest[name] >= longest[other] for other in others) else 0
    return rtlib.share(side_by_side) + over


def prove_all(crates, graph, at_once, cpu):
    """Proves all crates, and returns whether this succeeded. After a failure, no further crate begins."""
    sorter, longest, ready, running, proved = TopologicalSorter(graph), ways(crates, graph), [], {}, 0
    sorter.prepare()
    with ThreadPoolExecutor(at_once) as pool:
        while sorter.is_active():
            ready = sorted([*ready, *sorter.get_ready()], key=lambda name: (longest[name], name))
            while ready and len(running) < at_once:
                name = ready.pop()
                jobs = ['--jobs', str(share(name, [*running.values(), *ready], at_once, longest))]
                running[pool.submit(prove, crates[name], jobs, cpu)] = name
            for future in wait(running, return_when=FIRST_COMPLETED).done:
                name, (status, text) = running.pop(future), future.result()
                if status:
                    said = re.search('^.*: error.*', text, re.MULTILINE) or re.search('.*$', text.strip())
                    folder = os.path.relpath(crates[name].folder)
                    print(f'FAILED {name}: {said[0][:240]}\n  all of it: (cd {folder} && rt check)', flush=True)
                    return False
                proved += 1
                print('proved' if text else 'unchanged', f'{name}, {proved} of {len(graph)}', flush=True)
                sorter.done(name)
    return True


def main(goals, at_once='', cpu=''):
    begun = time.monotonic()
    rtlib.guarded()  # all processes from here on end with this one
    rtlib.Crate.cuts_libraries = True
    os.chdir(TOP)
    crates, graph = crates_of(set(goals.split()))
    if os.environ.get('AFTER_CI'):
        for crate in crates.values():
            if os.path.isdir(crate.rlib) and not Path(crate.rlib).with_name('stamp').exists():
                stamp(crate)
    fitting = [number for number in range(1, int(at_once or 64) + 1) if rtlib.fits(*[MEMORY] * number)]
    done = prove_all(crates, graph, max(fitting, default=1), ['--cpu', cpu] if cpu else [])
    minutes, seconds = divmod(round(time.monotonic() - begun), 60)
    print(f'proved and built {goals} in' if done else 'not proved, after', f'{minutes} min {seconds} s')
    return 0 if done else 1


if __name__ == '__main__':
    sys.exit(main(*sys.argv[1:]))
