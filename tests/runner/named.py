"""A plugin for pytest: gives each test a readable name, selects tests by words of these names, and notes the text of a failure before a
rerun. tests/run reads all this from the JUnit XML."""

import re
from typing import Any


def readable(nodeid: str) -> str:
    """The readable name of a test, such as 'script: it applies what it checked'."""
    place, _, test = nodeid.rpartition('::')
    subject = place.rpartition('::')[2].rpartition('/')[2].removeprefix('test_').removesuffix('.py')
    return f"{re.sub('(?<=[a-z])(?=[A-Z])', ' ', subject).lower()}: {test.removeprefix('test_').replace('_', ' ')}"


def pytest_addoption(parser: Any) -> None:
    parser.addoption('--named', action='append', metavar='WORDS', help='run only tests with these words in their names')


def pytest_collection_modifyitems(config: Any, items: list[Any]) -> None:
    for item in items:
        item.user_properties.append(('readable', readable(item.nodeid)))
    if chosen := config.option.named:
        items[:] = [it for it in items if any(words in readable(it.nodeid) for words in chosen)]


def pytest_exception_interact(node: Any, report: Any) -> None:
    if report.failed and hasattr(node, 'user_properties'):
        node.user_properties.append(('failed before', report.longreprtext))
