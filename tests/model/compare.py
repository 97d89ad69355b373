"""Compares the model with one client on random cases, byte for byte: `compare.py PROGRAM [--cases N] [--seed S]`, or
`compare.py --library FILE` or another client of the worked cases in place of PROGRAM."""

import argparse
import fcntl
import os
import pickle
import shlex
import sys
import tempfile
from collections import Counter
from concurrent.futures import ProcessPoolExecutor
from functools import partial
from pathlib import Path
from urllib.parse import quote

from cases import harmed, kinds_of, some_case, wanted

sys.path.insert(0, str(Path(__file__).resolve().parent.parent / 'cases'))
from clients import Program, add_clients, clients_of  # noqa: E402

KINDS = Path(__file__).with_name('kinds.txt').read_text().splitlines()
FLOOR = 200  # cases overall for each case that a kind must have
HARMED = 3


def worked_out(seed, number, options):
    """The kinds of a case, and the case with the model's answer. One case in HARMED is followed by an arbitrarily changed copy of it."""
    case = some_case(seed, number, options)
    cases = [case] + [harmed(seed, number, options)] * (number % HARMED == 0)
    return kinds_of(case), [(each, wanted(each)) for each in cases]


def known(seed, number, options):
    """The result of `worked_out`. If MODEL_ANSWERS names a directory, it is kept there for other clients with these options. Others that
    need it at the same time wait for it."""
    if 'MODEL_ANSWERS' not in os.environ:
        return worked_out(seed, number, options)
    place = Path(os.environ['MODEL_ANSWERS'], quote(' '.join([seed, *options]), safe=''))
    place.mkdir(parents=True, exist_ok=True)
    file = place / str(number)
    with open(file.with_suffix('.lock'), 'wb') as lock:
        fcntl.flock(lock, fcntl.LOCK_EX)
        if not file.exists():
            file.with_suffix('.made').write_bytes(pickle.dumps(worked_out(seed, number, options)))
            file.with_suffix('.made').rename(file)
    return pickle.loads(file.read_bytes())


def keep(client, number, case, due, said, directory):
    """Writes a failed case to a directory, with both answers and the commands that repeat it."""
    status, printed, out = due
    for name, data in ('image', case.image), ('script', case.script), ('printed', said[1]), ('wanted', printed), ('wanted-out', out):
        if data is not None:
            (directory / name).write_bytes(data)
    call = shlex.join([client.name, *case.words]) + ' < image' * case.piped
    again = shlex.join([*sys.argv, '--first', str(number), '--cases', '1'])
    (directory / 'command').write_text(f'{call}\n{again}\n# status {said[0]}, wanted {status}\n')


def is_right(client, kept, number, case, due):
    """Whether the client answers a case as the model does. A case that fails is kept in a directory in `kept`."""
    try:
        said = client.said(case)
    except ValueError as fault:
        said = (-1, str(fault).encode(), None)
    if said == due:
        return True
    directory = Path(tempfile.mkdtemp(prefix=f'case-{number}-', dir=kept))
    keep(client, number, case, due, said, directory)
    print(f'FAILED: case {number}, left in {directory} with the command that repeats it', flush=True)
    return False


def judge(client, seed, kept, number):
    """The kinds of a case, and whether the client is right about it and, for one case in HARMED, about its changed copy. There is no answer
    if the client does not have the command."""
    kinds, cases = known(seed, number, client.options)
    return kinds, [is_right(client, kept, number, case, due) for case, due in cases if case.command in client.answers]


def compared(client, given, kept):
    """The counts of the kinds of cases, and of right and wrong answers."""
    kinds, answers = Counter(), Counter()
    with ProcessPoolExecutor(given.jobs) as pool:
        judged = partial(judge, client, given.seed, kept)
        for found, right in pool.map(judged, range(given.first, given.first + given.cases), chunksize=5):
            kinds.update(found)
            answers.update(right)
    return kinds, answers


def words_of_the_call():
    """The parsed arguments of the command line."""
    words = argparse.ArgumentParser(prog='tests/model/compare.py', description='Compares a client with the model.')
    words.add_argument('asked', nargs='?', metavar='PROGRAM')
    add_clients(words)
    words.add_argument('--cases', type=int, default=300)
    words.add_argument('--seed', default='1')
    words.add_argument('--first', type=int, default=0, help='the number of the first case')
    words.add_argument('--jobs', type=int, default=len(os.sched_getaffinity(0)), help='how many processes judge cases')
    return words.parse_args()


def main():
    """Compares the cases, and prints the count of each kind, and of passed and failed answers."""
    given = words_of_the_call()
    client = Program(given.asked) if given.asked else clients_of(given)[0]
    print(f'seed {given.seed}', flush=True)
    kept = tempfile.mkdtemp(prefix='cdpatch-model-')
    counts, answers = compared(client, given, kept)
    if not answers[False]:
        Path(kept).rmdir()
    for name in sorted(set(KINDS) | set(counts)):
        print(f'{counts[name]:6} {name}')
    rare = [name for name in KINDS if counts[name] < given.cases // FLOOR]
    for name in rare:
        print(f'FAILED: too few cases of this kind: {name}')
    failed = answers[False] + len(rare)
    print(f'{answers[True]} passed, {failed} failed')
    return int(failed > 0)


if __name__ == '__main__':
    sys.exit(main())
