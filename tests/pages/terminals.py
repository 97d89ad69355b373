#!/usr/bin/env python3
"""Types lines into a real shell on a pseudo-terminal, and prints the completed lines.

`terminals.py SHELL FILE` starts the shell, loads the completion from FILE, types each line of standard input followed by a TAB, and
prints the resulting line. Nothing is sent before the shell has answered.
"""

import os
import pty
import re
import select
import struct
import sys
import termios
import fcntl
import time

COMMANDS = {
    "bash": ["bash", "--norc", "--noprofile", "-i"],
    "zsh": ["zsh", "-f", "-i"],
    "fish": ["fish", "--no-config", "-i"],
}

# The commands by which each shell loads the completion, and prints its line between << and >> at Ctrl-G.
SETUP = {
    "bash": """source {file}; bind -x '"\\C-g": printf "\\n<%s%s>>\\n" "<" "$READLINE_LINE"'""",
    "zsh": """fpath=({folder} $fpath); autoload -Uz compinit; compinit -u -d {folder}/dump; """
    """shows() {{ printf '\\n<%s%s>>\\n' '<' "$BUFFER" > /dev/tty; zle redisplay }}; zle -N shows; bindkey '^G' shows""",
    "fish": """source {file}; bind \\cg 'printf "\\n<%s%s>>\\n" "<" (commandline)'""",
}


def wait_for(descriptor, pattern, seconds=120):
    """Waits until the shell prints a pattern, at most for this many seconds, and returns the match."""
    printed = ""
    end = time.monotonic() + seconds
    while time.monotonic() < end:
        ready, _, _ = select.select([descriptor], [], [], 0.2)
        if ready:
            printed += os.read(descriptor, 65536).decode(errors="replace")
            found = re.search(pattern, printed, re.DOTALL)
            if found:
                return found
    raise SystemExit(f"the shell did not answer; it printed {printed!r}")


def main():
    shell, file = sys.argv[1:]
    process, descriptor = pty.fork()
    if process == 0:
        os.environ.update(TERM="xterm", PS1="$ ", LC_ALL="C.UTF-8")
        os.execvp(COMMANDS[shell][0], COMMANDS[shell])
    fcntl.ioctl(descriptor, termios.TIOCSWINSZ, struct.pack("HHHH", 50, 200, 0, 0))

    def send(text):
        os.write(descriptor, text.encode())

    setup = SETUP[shell].format(file=file, folder=os.path.dirname(file))
    send(setup + "; echo re''ady\r")
    wait_for(descriptor, "ready\r?\n")
    for line in sys.stdin.read().splitlines():
        send(line + "\t\x07")
        print(wait_for(descriptor, "<<(.*?)>>").group(1), flush=True)
        send("\x15")
    send("exit\r")
    os.close(descriptor)


main()
