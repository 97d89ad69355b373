#!/usr/bin/env python3
"""Runs a program on its own terminal, with standard input that stays open: `terminal.py FILE LINES SHOWN END PROGRAM WORD..`.

The program's standard input is a pipe that gets FILE and stays open. After LINES lines, which are written to the file SHOWN, Ctrl-C is
sent. The complete output goes to standard output. With 0 LINES the pipe is closed at once, and there is no Ctrl-C. The file END gets the
program's status, or 'signal N'."""

import fcntl
import os
import select
import signal
import subprocess
import sys
import termios
import threading

# If no line comes for this many seconds, none will: the program waits for the pipe.
LIMIT = 5


def take_terminal():
    """Makes the terminal of standard output the controlling terminal, so that Ctrl-C reaches the program even if the tests run with Ctrl-C
    ignored, as a shell does for background jobs."""
    signal.signal(signal.SIGINT, signal.SIG_DFL)
    os.setsid()
    fcntl.ioctl(1, termios.TIOCSCTTY, 0)


def give(pipe, name, stays):
    """Writes a file to the pipe, or as much as its reader reads."""
    try:
        with open(name, "rb") as file:
            pipe.write(file.read())
            pipe.flush()
        if not stays:
            pipe.close()
    except BrokenPipeError:
        pass


def more_of(terminal):
    """The next output, or nothing at the end or if none comes."""
    if not select.select([terminal], [], [], LIMIT)[0]:
        return b""
    try:
        return os.read(terminal, 65536)
    except OSError:
        return b""


def show(name, lines, program):
    """The first output of the program, its complete output, and its status."""
    master, slave = os.openpty()
    run = subprocess.Popen(program, stdin=subprocess.PIPE, stdout=slave, stderr=slave, preexec_fn=take_terminal)
    os.close(slave)
    giver = threading.Thread(target=give, args=(run.stdin, name, lines > 0), daemon=True)
    giver.start()
    shown = b""
    while shown.count(b"\n") < lines and (more := more_of(master)):
        shown += more
    first = shown
    if lines > 0:
        os.write(master, b"\x03")
    while more := more_of(master):
        shown += more
    status = run.wait(LIMIT)
    return first, shown, status


def main(name, lines, first_to, end_to, *program):
    first, shown, status = show(name, int(lines), program)
    with open(first_to, "wb") as file:
        file.write(first.replace(b"\r\n", b"\n"))
    sys.stdout.buffer.write(shown.replace(b"\r\n", b"\n"))
    with open(end_to, "w", encoding="ascii") as file:
        print(status if status >= 0 else f"signal {-status}", file=file)


main(*sys.argv[1:])
