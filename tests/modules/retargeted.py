#!/usr/bin/env python3
"""Tests what tools/retarget.py refuses, since it would mean something else with pointers of 4 bytes. Prints 'passed NAME' or 'failed NAME'
for each test."""

import sys
from pathlib import Path

sys.path.insert(0, str(Path(__file__).resolve().parents[2] / 'tools'))
import retarget  # noqa: E402

CRATE = 'cd_c'
# Texts that the patterns match.
SAMPLES = {'the layout': 'target datalayout = "e"\n', 'a byte and a pointer': '  %r1 = load { i8, ptr }, ptr %r0, align 8\n'}
PLACE = '  %r2 = getelementptr i8, ptr %r1, i64 8\n  %r3 = getelementptr inbounds nuw i8, ptr %r2, i64 8\n  store ptr %a0, ptr %r3, align 8\n'

# What is added to a module, and whether it is refused.
ADDED = [
    ('nothing', '', False),
    ('a load of a number and a pointer', '  %r1 = load { i32, ptr }, ptr %r0, align 8', True),
    ('a load of a pointer and a number', '  %r1 = load { ptr, i64 }, ptr %r0, align 8', False),
    ('a store of two pointers', '  store { ptr, ptr } %r1, ptr %r0, align 8', True),
    ('a vector of pointers', '  %r1 = load <2 x ptr>, ptr %r0, align 8', True),
    ('places for pointers', '  %r1 = alloca [2 x ptr], align 8', True),
    ('a step by pointers', '  %r1 = getelementptr inbounds ptr, ptr %r0, i64 1', True),
    ('a constant with a pointer', '@static.1 = private unnamed_addr constant <{ ptr, [8 x i8] }> zeroinitializer, align 8', True),
    ('a record that is passed whole', '  call void @f(ptr byval({ i8, ptr }) align 8 %r0)', True),
    ('a read of a pointer as a number', PLACE + '  %r4 = load i64, ptr %r3, align 8', True),
    ('a read of its second half', PLACE + '  %r4 = getelementptr i8, ptr %r1, i64 20\n  %r5 = load i32, ptr %r4, align 4', True),
    ('a read of its first half', PLACE + '  %r4 = load i32, ptr %r3, align 4', False),
    ('a read of the place before it and of this one', PLACE + '  %r4 = load i128, ptr %r2, align 8', True),
    ('a read of the places before and behind', PLACE + '  %r4 = load i64, ptr %r2, align 8\n  %r5 = getelementptr i8, ptr %r1, i64 24\n'
     '  %r6 = load i64, ptr %r5, align 8', False),
]


def is_refused(added: str, less: str = '') -> bool:
    """Whether a module is refused in which each edit matches as often as it should, but for one that matches once less, and with a function
    that has these lines."""
    text = ''
    for edit in retarget.EDITS['wasm']:
        sample = edit.old if isinstance(edit.old, str) else SAMPLES[edit.name]
        text += f'{sample} \n' * (abs(edit.times[CRATE]) - (edit.name == less))
    try:
        retarget.retargeted(f'{text}define void @g(ptr %a0) {{\n{added}\n}}\n', 'wasm', CRATE)
    except SystemExit:
        return True
    return False


for name, added, due in ADDED:
    print('passed' if is_refused(added) == due else 'failed', f'{name} is {"refused" if due else "accepted"}')
for edit in retarget.EDITS['wasm']:
    print('passed' if is_refused('', edit.name) else 'failed', f'a module in which the edit of {edit.name} matches once less is refused')
