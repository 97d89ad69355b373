#!/usr/bin/env python3
"""Compares `cdscript scan` with sha1sum in one run: `bench/scan.py ./cdscript DIRECTORY [SECTORS]`.

Prints the least processor time of both in five rounds, their ratio, and the memory, for an image of Mode 1 and one of Mode 2 (Form 1) with 300,000 sectors,
which are made in DIRECTORY unless they are there. A DAT with entries without SHA-1 makes `scan` compute CRC32 and MD5.
"""

import os
import random
import subprocess
import sys
from pathlib import Path

sys.path.insert(0, str(Path(__file__).parents[1] / 'tests/lib'))
from mode2_sectors import form1  # noqa: E402

SECTORS = 300000
ROUNDS = 5
DAT = '<datafile><rom name="a" size="1" crc="00000000"/><rom name="b" size="1" md5="00000000000000000000000000000000"/></datafile>'


def bcd(number: int) -> int:
    return number + 6 * (number // 10)


def address(block: int) -> bytes:
    seconds, frame = divmod(block + 150, 75)
    return bytes(map(bcd, (*divmod(seconds, 60), frame)))


def make_mode1(command: str, path: Path, sectors: int) -> None:
    iso = path.with_suffix('.iso')
    dice = random.Random(1)
    with iso.open('wb') as file:
        for _ in range(sectors):
            file.write(dice.randbytes(2048))
    subprocess.run(['node', command, 'raw', iso, path], check=True)
    iso.unlink()


def make_mode2(path: Path, sectors: int) -> None:
    dice = random.Random(2)
    pool = [form1(bytes([1, 0, 8, i]), dice.randbytes(2048)) for i in range(64)]
    with path.open('wb') as file:
        for block in range(sectors):
            sector = pool[block % 64]
            file.write(sector[:12] + address(block) + sector[15:])


def used(words: list[str]) -> tuple[float, int]:
    """The processor time of a command in seconds, and its most memory in MB."""
    process = subprocess.Popen(words, stdout=subprocess.DEVNULL, stderr=subprocess.DEVNULL)
    _, status, usage = os.wait4(process.pid, 0)
    process.returncode = os.waitstatus_to_exitcode(status)
    if process.returncode > 1:
        raise SystemExit(f'{words}: status {process.returncode}')
    return usage.ru_utime + usage.ru_stime, usage.ru_maxrss >> 10


def main() -> None:
    command, directory = sys.argv[1], Path(sys.argv[2])
    sectors = int(sys.argv[3]) if len(sys.argv) > 3 else SECTORS
    images = [directory / 'mode1.bin', directory / 'mode2.bin']
    if not images[0].exists():
        make_mode1(command, images[0], sectors)
    if not images[1].exists():
        make_mode2(images[1], sectors)
    dat = directory / 'hashes.dat'
    dat.write_text(DAT)
    for image in images:
        scan = ['node', command, 'scan', str(image)]
        jobs = {'sha1sum': ['sha1sum', str(image)], 'scan': scan, 'scan with CRC32 and MD5': [*scan, '--dat', str(dat)]}
        rounds = [{name: used(words) for name, words in jobs.items()} for _ in range(ROUNDS)]
        runs = {name: min(it[name] for it in rounds) for name in jobs}
        for name, (seconds, memory) in runs.items():
            print(f'{image.name} {name}: {seconds:.2f} s, {seconds / runs["sha1sum"][0]:.2f} of sha1sum, {memory} MB', flush=True)


main()
