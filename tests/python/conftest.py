"""Shared by the tests of the Python package: the model of tests/model, the messages of tests/lib, and a profile with the same random cases
in each run. For a mutant (tests/wrong/mutants.py) the first case that fails is enough (`--hypothesis-profile=first`)."""

import sys
from pathlib import Path

from hypothesis import HealthCheck, Phase, settings

TESTS = Path(__file__).resolve().parent.parent
sys.path[:0] = [str(TESTS / name) for name in ('model', 'library', 'python', 'lib')]
settings.register_profile('same', max_examples=40, deadline=None, derandomize=True, database=None,
                          suppress_health_check=[HealthCheck.too_slow])  # a machine may be slow
settings.register_profile('first', settings.get_profile('same'), phases=[Phase.explicit, Phase.generate], report_multiple_bugs=False)
settings.load_profile('same')
