#!/usr/bin/env python3
"""Runs the program with random faults selected by a seed: calls fail, move fewer bytes than requested, or are interrupted.
`random_faults.py PROGRAM LIBRARY SECTORS FIRST COUNT`, in a scratch directory. LIBRARY is random_faults.c, SECTORS the file of
the eight sectors.

Each of COUNT seeds from FIRST on makes two runs of one command on one image. In the first, reads and writes move a part of the requested
bytes, and nothing fails. In the second, one call, two calls, or all from one call on fail as well. The right bytes and texts are computed
without the program: the patches give a sector the address and the user data of a different sector of the encoder. The first seed that shows
a defect is printed, and can be run again. The last line is 'N passed, M failed'."""

import errno
import functools
import os
import random
import subprocess
import sys

sys.path.append(os.path.join(os.path.dirname(os.path.abspath(__file__)), "..", "lib"))
import messages  # noqa: E402

SECTOR = 2352
SIZES = [1, 2, 3, 4, 5, 8, 27, 28, 29, 41, 56, 57, 84, 120, 233, 400]
TAILS = [0, 1, 2351]
BLANK = range(40, 50)
ERRORS = [errno.EIO, errno.ENOSPC, errno.EINTR, errno.EAGAIN, errno.EACCES, errno.EPERM, errno.EINVAL, errno.ENXIO, errno.EDQUOT,
          errno.EOPNOTSUPP, errno.ENOSYS, errno.ETIMEDOUT]
MESSAGES = {name: text.encode() + b"\n" for name, text in messages.MESSAGES.items()}
LINES = {
    ("open", "script"): MESSAGES["no_script"],
    ("read", "script"): MESSAGES["no_script"],
    ("open", "image"): MESSAGES["no_image"],
    ("read", "image"): MESSAGES["read_failed"],
    ("open", "out"): MESSAGES["no_output"],
    ("write", "out"): MESSAGES["write_failed"],
    ("sync", "out"): MESSAGES["write_failed"],
    ("write", "log"): b"",
}


class Wrong(Exception):
    """A description of what the program did wrong."""


def expect(condition, text):
    """Raises Wrong unless a condition holds."""
    if not condition:
        raise Wrong(text)


class Case:
    """An image, its script, and the right answers of each command."""

    def __init__(self, sectors, blocks, tail):
        kinds = [None if block in BLANK else block % 8 for block in range(blocks)]
        after = [None if block in BLANK else (5 * block + 3) % 8 for block in range(blocks)]
        rest = b"A" * tail
        self.name = f"image.{blocks}.{tail}"
        self.script = f"script.{blocks}.{tail}"
        patched = [block for block in range(blocks) if block not in BLANK]
        with open(self.name, "wb") as file:
            file.write(b"".join(self.sector(sectors, kind) for kind in kinds) + rest)
        with open(self.script, "w", encoding="ascii") as file:
            file.write("cdpatch 2\n")
            for block in reversed(patched):
                new = after[block]
                file.write(f"address {block} 00:02:0{new}\nset {block} 0 {sectors[new][16:2064].hex()}\n")
        self.out = b"".join(self.sector(sectors, kind) for kind in after) + rest
        first_lines = range(2 * len(patched), 0, -2)
        log = "".join(f"line {line}: applied\nline {line + 1}: applied\n" for line in first_lines)
        log += f"applied {2 * len(patched)} refused 0\n"
        found = [block for block in patched if block >= 8]
        audit = "".join(f"{block} address\n" for block in found)
        audit += f"sectors {blocks} mode1 {len(patched)} damaged 0 tail {tail}\n"
        self.texts = {"list": self.runs(blocks) + f"sectors {blocks} tail {tail}\n", "audit": audit, "check": log, "apply": log}
        self.statuses = {"list": 0, "audit": 1 if found else 0, "check": 0, "apply": 0}

    @staticmethod
    def sector(sectors, kind):
        """A sector of the encoder, or one of zeros."""
        return bytes(SECTOR) if kind is None else sectors[kind]

    @staticmethod
    def runs(blocks):
        """The runs in the output of `list`."""
        borders = [(0, BLANK.start, "mode1"), (BLANK.start, BLANK.stop, "nosync"), (BLANK.stop, blocks, "mode1")]
        return "".join(f"{first}-{min(end, blocks) - 1} {kind}\n" for first, end, kind in borders if first < min(end, blocks))


class Run:
    """One run of the program: its status, texts, OUT, and calls."""

    def __init__(self, program, library, case, command, piped, plan):
        words = [program, command, "-" if piped else case.name]
        if command in ("check", "apply"):
            words.append(case.script)
        if command == "apply":
            words.append("out")
        if os.path.exists("out"):
            os.remove("out")
        with open(case.name if piped else os.devnull, "rb") as given:
            with open("log", "wb") as log, open("errors", "wb") as errors:
                try:
                    self.status = subprocess.call(words, stdin=given, stdout=log, stderr=errors, close_fds=False, timeout=60,
                                                  env={"LD_PRELOAD": library, "TRACE": "trace", **plan})
                except subprocess.TimeoutExpired as error:
                    raise Wrong("it does not end") from error
        self.log = contents("log")
        self.errors = contents("errors")
        self.out = contents("out") if os.path.exists("out") else None
        with open("trace", encoding="ascii") as trace:
            self.calls = [(call, name, int(answer)) for call, name, answer in map(str.split, trace)]

    def moved(self, call, name):
        """The number of bytes that these calls on a file have moved."""
        return sum(answer for kind, file, answer in self.calls if (kind, file) == (call, name) and answer > 0)

    def faults(self):
        """The calls that failed, except a failed close, which changes nothing, and an interrupted open or sync, which std repeats."""
        return [(at, call, name) for at, (call, name, answer) in enumerate(self.calls)
                if answer < 0 and call != "close" and not (answer == -errno.EINTR and call in ("open", "sync"))]


def contents(name):
    """The bytes of a file."""
    with open(name, "rb") as file:
        return file.read()


def is_beginning(some, whole):
    """Whether some bytes are a prefix of others."""
    return whole[:len(some)] == some


def is_printed(log, right, line, log_failed):
    """Whether a log consists of first lines of the right one and then this line. If writing the log failed, a prefix of that is enough."""
    borders = [0] + [at + 1 for at, byte in enumerate(log) if byte == ord("\n")]
    ends = [(log[at:], right[at:]) for at in borders if is_beginning(log[:at], right)]
    if log_failed:
        return any(is_beginning(end, line) or is_beginning(end, rest) for end, rest in ends)
    return any(end == line for end, _ in ends)


def judge(run, case, command):
    """Raises Wrong if a run is wrong."""
    right = case.texts[command].encode("ascii")
    faults = run.faults()
    expect(run.errors == b"", "standard error has a text")
    expect(run.moved("write", "log") == len(run.log), "the log has not the bytes that were taken")
    if run.out is not None:
        expect(is_beginning(run.out, case.out), "OUT is no prefix")
        expect(run.moved("write", "out") == len(run.out), "OUT has not the bytes that were taken")
    for at, call, name in faults:
        after = [kind for kind, file, _ in run.calls[at + 1:] if file == name and kind != "close"]
        expect(not after, f"after a failed {call} on {name} came {after}")
    if faults:
        judge_fault(run, right, faults, command)
        return
    expect(run.status == case.statuses[command], f"the status is {run.status}")
    expect(run.log == right, "the log is not the right one")
    if command == "apply":
        expect(run.out == case.out, "OUT is not the right one")
        last = [(call, answer) for call, name, answer in run.calls if name == "out" and call != "close"][-1]
        expect(last == ("sync", 0), "OUT is not synced last")


def judge_fault(run, right, faults, command):
    """Raises Wrong if a run with failed calls is wrong. The first failed call determines the line."""
    expect(run.status == 2, f"a call failed, and the status is {run.status}")
    _, call, name = faults[0]
    log_failed = any(file == "log" for _, _, file in faults)
    expect(is_printed(run.log, right, LINES[call, name], log_failed), f"not the line of a failed {call} on {name}")
    if command == "apply" and run.out is not None and all(file != "out" for _, _, file in faults):
        least = run.moved("read", "image") // SECTOR * SECTOR - SECTOR
        expect(len(run.out) >= least, f"OUT has {len(run.out)} bytes, and all that was sent are {least} at least")


def faults_among(chance, calls):
    """One or two of `calls` calls, or all from one on, each with an error."""
    kind = chance.randrange(4)
    if kind == 3:
        first = chance.randint(1, calls)
        error = chance.choice([errno.EIO, errno.ENOSPC, errno.EACCES])
        return ",".join(f"{call}:{error}" for call in range(first, calls + 10))
    chosen = [chance.randint(1, calls)]
    if kind > 0:
        chosen.append(min(calls + 2, chosen[0] + chance.choice([1, 1, 2, 3, chance.randint(1, calls)])))
    return ",".join(f"{call}:{chance.choice(ERRORS)}" for call in sorted(set(chosen)))


def try_seed(program, library, make_case, seed):
    """Raises Wrong if one of the two runs of a seed is wrong."""
    chance = random.Random(seed)
    case = make_case(chance.choice(SIZES), chance.choice(TAILS))
    command = chance.choice(["list", "audit", "check", "apply", "apply", "apply"])
    piped = chance.randrange(4) == 0
    plan = {"SEED": str(seed), "SHORT": str(chance.choice([0, 0, 20, 60, 95]))}
    run = Run(program, library, case, command, piped, plan)
    judge(run, case, command)
    plan["FAULTS"] = faults_among(chance, len(run.calls))
    judge(Run(program, library, case, command, piped, plan), case, command)


def main(program, library, sectors, first, count):
    """Tries the seeds until one shows that the program is wrong."""
    whole = contents(sectors)
    sectors = [whole[at:at + SECTOR] for at in range(0, len(whole), SECTOR)]
    make_case = functools.cache(lambda blocks, tail: Case(sectors, blocks, tail))
    for number, seed in enumerate(range(int(first), int(first) + int(count))):
        try:
            try_seed(program, library, make_case, seed)
        except Wrong as wrong:
            print(f"FAILED: seed {seed}: {wrong}\n{number} passed, 1 failed")
            sys.exit(1)
    print(f"{count} passed, 0 failed")


main(*sys.argv[1:])
