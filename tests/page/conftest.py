"""Leaves the tests without the mark `in_check` to the gate, and opens a new window for the rerun of a test, since the first failure may be
due to the window."""

import os
from typing import Any

import chromium


def pytest_configure(config: Any) -> None:
    config.addinivalue_line('markers', 'in_check: make check runs this test')


def pytest_collection_modifyitems(config: Any, items: list[Any]) -> None:
    if 'GATE' not in os.environ and not config.option.named:
        items[:] = [it for it in items if it.get_closest_marker('in_check')]


def pytest_runtest_setup(item: Any) -> None:
    # Without reruns there is no count.
    if getattr(item, 'execution_count', 1) > 1:
        chromium.renew()
