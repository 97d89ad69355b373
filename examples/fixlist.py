#!/usr/bin/env python3
"""Prints a script with a `rebuild` of each damaged Mode 1 sector of an image, and as comments what `cdpatch audit` prints of the image:
`fixlist.py IMAGE [BASE] > fixes`. An image of any size takes little memory, and may be a pipe. The status is that of `cdpatch audit`.

A `rebuild` makes a sector valid for the user data that it has, and brings no lost byte back: look at what is damaged before you apply it."""

import os
import sys

import cdpatch

AT_ONCE = 1000  # sectors


def print_fixes(name: str, base: int) -> bool:
    """Prints the script for an image whose first sector is block `base`, and returns whether there is a finding."""
    block, mode1, damaged, tail, found = base, 0, 0, 0, False
    print('cdpatch 1')
    with open(name, 'rb') as image:
        # Buffered reads return fewer bytes than requested only at the end of the file.
        while data := image.read(AT_ONCE * cdpatch.SECTOR_SIZE):
            tail = len(data) % cdpatch.SECTOR_SIZE
            for record in cdpatch.survey(data, block):
                line = cdpatch.audit_line(block, record)
                if line:
                    print('#', line, end='')
                    found = True
                if record.zeros or record.edc or record.p or record.q:
                    print('rebuild', block)
                    damaged += 1
                mode1 += cdpatch.KINDS[record.kind] == 'mode1'
                block += 1
    print('#', cdpatch.audit_end(block - base, mode1, damaged, tail), end='')
    return found


def main() -> int:
    if len(sys.argv) not in (2, 3):
        print('usage: fixlist.py IMAGE [BASE] > fixes', file=sys.stderr)
        return 2
    try:
        found = print_fixes(sys.argv[1], int(sys.argv[2]) if len(sys.argv) == 3 else 0)
        sys.stdout.flush()
        return int(found)
    except (OSError, ValueError, MemoryError) as why:
        print('fixlist.py:', str(why) or 'no memory', file=sys.stderr, flush=True)
        os._exit(2)  # A normal exit would flush a full standard output again.


if __name__ == '__main__':
    sys.exit(main())
