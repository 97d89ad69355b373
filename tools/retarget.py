"""Changes the module of LLVM that a crate was lowered to for Linux on x86-64, so that clang compiles it for another system.

`rattle build` proves a crate and lowers it to the module. The text of the module is changed only by the edits below. An edit that matches
more or fewer times than expected ends the build. `targets/*.c` define what the module then calls.

A pointer has 4 bytes in WebAssembly. The module has the offset of each byte in it, so a record keeps its layout, and a pointer takes the
first half of its place. A place that something else reads after a pointer was written there would have an old second half, and a type
with a pointer and other parts would have another layout. The build also ends if the module has such a read or such a type.
"""

from __future__ import annotations

import re
import sys
from typing import NamedTuple


ANY = -1


class Edit(NamedTuple):
    """A text of the module or a pattern, its replacement, and how often it occurs in the module of each crate: not at all in one that is
    not listed, and ANY if it is right wherever it occurs."""
    name: str
    old: str | re.Pattern[str]
    new: str
    times: dict[str, int]

    def made_in(self, text: str) -> tuple[str, int]:
        """The text after the edit, and how often it was made."""
        if isinstance(self.old, str):
            return text.replace(self.old, self.new), text.count(self.old)
        return self.old.subn(self.new, text)


PROGRAM = {'cdpatch': 1}
CALLS = {'cd_c': 1, 'cd_c_scripts': 1}
ALL = PROGRAM | CALLS
ATTRIBUTES = {'cdpatch': 7, 'cd_c': 4, 'cd_c_scripts': 4}
STACK = '"probe-stack"="inline-asm" "stack-probe-size"="3072"'
PROCESSOR = '"target-cpu"="x86-64-v2"'
LAYOUT = re.compile('^target datalayout = ".*"', re.M)


def system(triple: str, crates: dict[str, int]) -> Edit:
    return Edit('the system', 'target triple = "x86_64-unknown-linux-gnu"', f'target triple = "{triple}"', crates)


WINDOWS = [
    # Only the mangling of names is different in the layout of data.
    system('x86_64-w64-windows-gnu', ALL),
    Edit('the mangling', 'target datalayout = "e-m:e-', 'target datalayout = "e-m:w-', ALL),
    # Windows extends the stack a page at a time, by a function of the compiler's, which LLVM calls if no other way is given.
    Edit('the stack', STACK, '', ATTRIBUTES),
    # The shim has `main`, which calls this.
    Edit('main', 'define i32 @main()', 'define i32 @rattle_main()', PROGRAM),
    # The C library of Windows has other functions by these names. Each is declared once, and called once; `open` is called with a mode too.
    Edit('open', '@open(', '@shim_open(', {'cdpatch': 3}),
    Edit('close', '@close(', '@shim_close(', {'cdpatch': 2}),
    Edit('read', '@read(', '@shim_read(', {'cdpatch': 2}),
    Edit('write', '@write(', '@shim_write(', {'cdpatch': 2}),
    Edit('isatty', '@isatty(', '@shim_isatty(', {'cdpatch': 2}),
    # Two functions return two words in registers, for which Windows has no convention: they are called as on Linux.
    Edit('alloc', 'declare { i64, i64 } @rattle_alloc(', 'declare x86_64_sysvcc { i64, i64 } @rattle_alloc(', PROGRAM),
    Edit('a call of alloc', 'call { i64, i64 } @rattle_alloc(', 'call x86_64_sysvcc { i64, i64 } @rattle_alloc(', PROGRAM),
    Edit('realloc', 'declare { i64, i64 } @rattle_realloc(', 'declare x86_64_sysvcc { i64, i64 } @rattle_realloc(', PROGRAM),
    Edit('a call of realloc', 'call { i64, i64 } @rattle_realloc(', 'call x86_64_sysvcc { i64, i64 } @rattle_realloc(', PROGRAM),
]

ARM64 = [
    Edit('the layout', LAYOUT, 'target datalayout = "e-m:e-p270:32:32-p271:32:32-p272:64:64-i8:8:32-i16:16:32-i64:64-i128:128-n32:64-S128-Fn32"', ALL),
    system('aarch64-unknown-linux-gnu', ALL),
    # `main` is compiled for any x86-64, and asks for the processor of the rest.
    Edit('the processor', PROCESSOR, '', ATTRIBUTES | {'cdpatch': 6}),
    Edit('the test of the processor', re.compile(r'  %\S+ = call ptr @__x86_get_cpuid_feature_leaf\(i32 0\)$.*?^  br i1 \S+, label %run, label %refuse$',
                                                 re.M | re.S), '  br label %run', PROGRAM),
]

MODULE = [
    Edit('the layout', LAYOUT, 'target datalayout = "e-m:e-p:32:32-p10:8:8-p20:8:8-i64:64-i128:128-n32:64-S128-ni:1:10:20"', CALLS),
    system('wasm32-unknown-unknown', CALLS),
    Edit('the processor', PROCESSOR, '"target-cpu"="lime1" "target-features"="+simd128"', ATTRIBUTES),
    Edit('the stack', STACK, '', ATTRIBUTES),
    # A local variable for a pointer, which may be copied with the eight bytes of its place.
    Edit('a place for a pointer', ' = alloca ptr, ', ' = alloca [8 x i8], ', {'cd_c': ANY, 'cd_c_scripts': ANY}),
    # Read one after the other, since the pointer is in the eighth byte, and not in the fourth.
    Edit('a byte and a pointer', re.compile(r'(%\S+) = load { i8, ptr }, ptr (%\S+), align \d+'),
         r'\1.byte = load i8, ptr \2, align 8\n  \1.place = getelementptr i8, ptr \2, i64 8\n  \1.pointer = load ptr, ptr \1.place, align 8\n'
         r'  \1.half = insertvalue { i8, ptr } poison, i8 \1.byte, 0\n  \1 = insertvalue { i8, ptr } \1.half, ptr \1.pointer, 1',
         {'cd_c': 3, 'cd_c_scripts': 4}),
    # The first must have the width of an address, and the second extends it.
    Edit('the number of an address', 'ptrtoaddr ptr', 'ptrtoint ptr', {'cd_c': 2, 'cd_c_scripts': 2}),
]

EDITS = {'windows': WINDOWS, 'arm64': ARM64, 'wasm': MODULE}


# ---- what a pointer of 4 bytes would change

IN_MEMORY = re.compile(r'\b(load|store|alloca|getelementptr|global|constant|byval|sret)\b(?: volatile| atomic| inbounds| nuw| nusw)*[ (](.*)')
STEP = re.compile(r'(%\S+) = getelementptr (?:inbounds )?(?:nuw )?i8, ptr (%\S+), i64 (-?\d+)')
STORED = re.compile(r'store ptr \S+, ptr (%[^\s,]+)')
READ = re.compile(r'= load (?!ptr\b)(.*), ptr (%[^\s,]+)')


class Part(NamedTuple):
    """A pointer, or bytes without one, in a place in memory."""
    at: int
    size: int
    is_pointer: bool


def split_types(text: str) -> list[str]:
    """The types in a list, and what follows the first of them without a comma."""
    found, depth, begin = [], 0, 0
    for at, character in enumerate(text):
        depth += (character in '<[{(') - (character in '>]})')
        if depth < 0 or (depth == 0 and character in ' ,'):
            found.append(text[begin:at])
            begin = at + 1
        if depth < 0:
            return found
    return [*found, text[begin:]]


def layout(kind: str, pointer: int) -> tuple[list[Part], int, int]:
    """The parts of a type, its size, and its alignment, if a pointer has this many bytes."""
    if kind == 'ptr':
        return [Part(0, pointer, True)], pointer, pointer
    if bits := re.fullmatch(r'i(\d+)', kind.replace('double', 'i64').replace('float', 'i32')):
        size = 1 << max(0, int(bits[1]) - 1).bit_length() >> 3 or 1
        return [Part(0, size, False)], size, size
    if several := re.fullmatch(r'[<[](\d+) x (.*)[>\]]', kind):
        parts, size, align = layout(several[2], pointer)
        count = int(several[1])
        parts = [part._replace(at=part.at + i * size) for i in range(count) for part in parts] if 'ptr' in kind else [Part(0, count * size, False)]
        return parts, count * size, align
    if not kind.startswith('{'):
        sys.exit(f'retarget.py: the layout of {kind} is not known')
    found, end, most = [], 0, 1
    for field in filter(None, split_types(kind.strip('<{ }>'))):
        parts, size, align = layout(field, pointer)
        begin = -(-end // align) * align
        found += [part._replace(at=part.at + begin) for part in parts]
        end, most = begin + size, max(most, align)
    return found, -(-end // most) * most, most


def unlike_types(text: str) -> list[str]:
    """The lines that give a place in memory a type whose layout depends on the size of a pointer, without the loads and stores of one pointer."""
    found = []
    for line in text.split('\n'):
        for way, rest in IN_MEMORY.findall(line) if 'ptr' in line else []:
            kind = split_types(rest)[0]
            (narrow, less, _), (wide, more, _) = layout(kind, 4), layout(kind, 8)
            is_one = way in ('load', 'store')
            if [part.at for part in narrow] != [part.at for part in wide] or (less != more and not is_one):
                found.append(line)
    return found


def stale_reads(text: str) -> list[str]:
    """The lines that read the second half of a place to which their function writes a pointer."""
    found: list[str] = []
    for function in re.split(r'(?m)^define ', text)[1:]:
        places: dict[str, tuple[str, int]] = {}
        pointers, reads = set(), []
        for line in function.split('\n'):
            if step := STEP.search(line):
                base, offset = places.get(step[2], (step[2], 0))
                places[step[1]] = base, offset + int(step[3])
            elif stored := STORED.search(line):
                pointers.add(places.get(stored[1], (stored[1], 0)))
            elif read := READ.search(line):
                base, offset = places.get(read[2], (read[2], 0))
                reads += [(base, offset + part.at, part.size, line) for part in layout(read[1], 8)[0] if not part.is_pointer]
        found += [line for base, offset, size, line in reads
                  if any((base, at) in pointers for at in range(offset - 7, offset + size - 4))]
    return found


def retargeted(text: str, name: str, crate: str) -> str:
    """The text of a crate's module for another system."""
    for edit in EDITS[name]:
        text, times = edit.made_in(text)
        due = edit.times.get(crate, 0)
        if times != due and (due != ANY or times == 0):
            sys.exit(f'retarget.py: for {name} the edit of {edit.name} matches {times} times in the module of {crate}, not {due}')
    wrong = [*unlike_types(text), *stale_reads(text)] if name == 'wasm' else []
    if wrong:
        sys.exit(f'retarget.py: with pointers of 4 bytes the module of {crate} would have another meaning: {wrong[0].strip()}')
    return text
