#!/usr/bin/env python3
"""Writes a file to standard output, a pipe, in chunks of a fixed size: `feed.py SIZE FILE`. It waits until the reader has read a chunk
before it writes the next, so that no read returns two. It ends when the reader does."""

import array
import fcntl
import os
import select
import sys
import termios

PIPE = 1


def taken():
    """Whether the reader has read all bytes in the pipe."""
    held = array.array("i", [0])
    fcntl.ioctl(PIPE, termios.FIONREAD, held)
    return held[0] == 0


def feed(size, name):
    """Writes the file chunk by chunk."""
    reader = select.poll()
    reader.register(PIPE, 0)
    with open(name, "rb") as file:
        while chunk := file.read(size):
            while chunk:
                chunk = chunk[os.write(PIPE, chunk):]
            while not taken():
                if reader.poll(0):
                    return
                os.sched_yield()


try:
    feed(int(sys.argv[1]), sys.argv[2])
except BrokenPipeError:
    pass
