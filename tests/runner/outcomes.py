"""Reads what tests say of themselves: the JUnit XML of pytest and node, and the lines of the suites in shell."""

from __future__ import annotations

import re
import xml.etree.ElementTree as xml
from dataclasses import dataclass, field
from pathlib import Path

# node's reason for a test that --test-name-pattern excludes.
UNNAMED = 'test name does not match pattern'
# Characters that XML excludes. node does not escape them.
NOT_XML = re.compile('[^\t\n\r\x20-\ud7ff\ue000-\ufffd\U00010000-\U0010ffff]')


@dataclass
class Outcome:
    passed: int = 0
    # The names of tests, with what they printed.
    failed: list[tuple[str, str]] = field(default_factory=list)
    # Those that passed when they were run once more, with the text of their first failure.
    unsteady: list[tuple[str, str]] = field(default_factory=list)
    # What was skipped, and why.
    skipped: list[str] = field(default_factory=list)
    # The seconds that each test of pytest and node took.
    times: list[tuple[float, str]] = field(default_factory=list)

    def add(self, other: Outcome) -> None:
        self.passed += other.passed
        self.failed += other.failed
        self.unsteady += other.unsteady
        self.skipped += other.skipped
        self.times += other.times


def of_lines(name: str, text: str, status: int) -> Outcome:
    """The outcome of a suite in shell, which prints 'FAILED: TEST' and 'skipped: WHAT', and ends with the counts."""
    lines = text.splitlines()
    made = Outcome(skipped=[line.removeprefix('skipped: ') for line in lines if line.startswith('skipped: ')])
    counts = re.fullmatch(r'(\d+) passed, (\d+) failed', lines[-1] if lines else '')
    made.passed = int(counts[1]) if counts else 0
    names = [line.removeprefix('FAILED: ') for line in lines if line.startswith('FAILED: ')]
    wrong = int(counts[2]) if counts else 0
    made.failed = [(names[at] if at < len(names) else f'{name}, which says no more', '') for at in range(wrong)]
    if not counts or (status != 0) != (wrong > 0):
        made.failed.append((f'{name} ends with status {status}{"" if counts else " and without counts"}', ''))
    if made.failed:
        made.failed[0] = made.failed[0][0], text
    return made


def of_junit(file: Path, status: int, printed: str, prefix: str = '') -> list[tuple[str, Outcome]]:
    """The names and outcomes of the tests in a file of JUnit XML. A runner that fails without a failed test is a failure."""
    try:
        tests = list(xml.fromstring(NOT_XML.sub('?', file.read_text(encoding='utf-8', errors='replace'))).iter('testcase'))
    except (OSError, xml.ParseError) as error:
        return [(f'{prefix}all tests', Outcome(failed=[(f'{prefix}all tests', f'{error}\n{printed}')]))]
    made = [of_case(test, prefix) for test in tests]
    if status != 0 and not any(it.failed for _, it in made):
        made.append((f'{prefix}all tests', Outcome(failed=[(f'{prefix}all tests', f'status {status}\n{printed}')])))
    return made


def of_case(test: xml.Element, prefix: str) -> tuple[str, Outcome]:
    notes = {it.get('name', ''): it.get('value', '') for it in test.iter('property')}
    name = prefix + notes.get('readable', test.get('name', ''))
    wrong = [*test.iter('failure'), *test.iter('error')]
    skip = test.find('skipped')
    times = [(float(test.get('time', 0)), name)]
    if wrong:
        return name, Outcome(failed=[(name, '\n'.join(it.text or it.get('message') or '' for it in wrong))], times=times)
    if skip is not None:
        why = skip.get('message', '')
        return name, Outcome(skipped=[] if why == UNNAMED else [why])
    return name, Outcome(passed=1, unsteady=[(name, notes['failed before'])] if 'failed before' in notes else [], times=times)
