"""Judges worked cases by the model and by the named clients: `judge.py PROGRAM [FILE..]`, `judge.py model [FILE..]`."""

import argparse
import os
import sys
from concurrent.futures import ProcessPoolExecutor
from functools import partial

from clients import Model, Program, add_clients, clients_of
from forms import SIZE, Answer, worked_lines

SHOWN = 300  # characters of a text, at most
SOME = 16  # questions of a line with --some, approximately


def short(text):
    """A text in one line, truncated if it is long."""
    text = str(text).rstrip('\n').replace('\n', '; ')
    return text if len(text) <= SHOWN else f'{text[:SHOWN]}.. ({len(text)} characters)'


def difference(came, due):
    """A description of how two images differ."""
    if came is None or due is None or len(came) != len(due):
        sizes = ['no file' if out is None else f'{len(out)} bytes' for out in (came, due)]
        return f'OUT came with {sizes[0]}, due {sizes[1]}'
    place = next(i for i in range(len(due)) if came[i] != due[i])
    count = sum(a != b for a, b in zip(came, due))
    return (f'{count} bytes of OUT differ, the first at byte {place % SIZE} of sector {place // SIZE}: '
            f'came {came[place]:02X}, due {due[place]:02X}')


def complaint(call, came, due):
    """The errors of an answer, in lines."""
    if not isinstance(due, Answer):
        return [f'{call} came: {short(came)}', f'{call} due:  {short(due)}']
    made = []
    if (came.status, came.text) != (due.status, due.text):
        made = [f'{call} came: status {came.status}, {short(came.text)}', f'{call} due:  status {due.status}, {short(due.text)}']
    return made + ([f'{call}: {difference(came.out, due.out)}'] if came.out != due.out else [])


def judged(judge, line):
    """Asks a judge all questions of a line. Returns whether it can answer any of them, and the errors of its first wrong answer."""
    is_answered = False
    for call, given, due in line.questions:
        try:
            came = judge.answer(call, given)
        except Exception as fault:
            return line, True, [f'{call} came: {type(fault).__name__}: {short(fault)}']
        is_answered = is_answered or came is not None
        if came not in (None, due):
            return line, True, complaint(call, came, due)
    return line, is_answered, []


def failures(judge, lines, only_first=False):
    """The number of lines that a judge can answer, and the lines that it answers wrong with the errors."""
    count, wrong = 0, []
    with ProcessPoolExecutor(len(os.sched_getaffinity(0))) as pool:
        for line, is_answered, reasons in pool.map(partial(judged, judge), lines):
            count += is_answered
            if reasons:
                wrong.append((line, reasons))
                if only_first:
                    break
    return count, wrong


def some(line):
    """A line with some of its questions. The step is odd, since `check` and `apply` may alternate."""
    return line._replace(questions=line.questions[::len(line.questions) // SOME | 1])


def size(line):
    """The approximate cost of a line: the bytes of its arguments, and 10,000 for each call."""
    return sum(10_000 + sum(len(given) for given in question.given if isinstance(given, bytes)) for question in line.questions)


def judges_named():
    """The judges and the arguments of the command line."""
    words = argparse.ArgumentParser(prog='tests/cases/judge.py', description='Judges worked cases by the model and by clients.')
    words.add_argument('asked', help="the program, or 'model' for only the model and the clients that options name")
    words.add_argument('files', nargs='*', help='files of cases; all if there are none')
    words.add_argument('--without-model', action='store_true', help='does not ask the model')
    words.add_argument('--some', action='store_true', help=f'asks about {SOME} questions of a line that stands for more')
    words.add_argument('--first', action='store_true', help='ends at the first failure, the shortest lines first')
    add_clients(words)
    given = words.parse_intermixed_args()
    judges = [] if given.without_model else [Model()]
    judges += [] if given.asked == 'model' else [Program(given.asked)]
    return judges + clients_of(given), given


def main():
    """Runs one judge after the other, and prints the counts."""
    judges, given = judges_named()
    lines = [some(line) if given.some else line for line in worked_lines(given.files or None)]
    if given.first:
        lines.sort(key=size)
    passed, failed = 0, 0
    for judge in judges:
        count, wrong = failures(judge, lines, given.first)
        for line, reasons in wrong:
            print(f'FAILED: {line.place} by {judge.name}: {short(line.text)}', *reasons, sep='\n    ')
        passed, failed = passed + count - len(wrong), failed + len(wrong)
    print(f'{passed} passed, {failed} failed')
    return int(failed > 0)


if __name__ == '__main__':
    sys.exit(main())
