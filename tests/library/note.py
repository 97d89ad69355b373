"""Creates a library that requires a level that no processor has: `note.py LIBRARY FILE`."""

import struct
import sys
from pathlib import Path

HEAD = b'GNU\0' + struct.pack('<II', 0xC0008002, 4)  # the head of the note: its owner, the property of the levels, and its size


def main(library, file):
    data = Path(library).read_bytes()
    place = data.index(HEAD) + len(HEAD)
    levels, = struct.unpack_from('<I', data, place)
    Path(file).write_bytes(data[:place] + struct.pack('<I', levels | 1 << 16) + data[place + 4:])


if __name__ == '__main__':
    main(*sys.argv[1:])
