"""The tests of the tools in tools/tests, each in a process of its own."""

from __future__ import annotations

import sys
import unittest
from typing import Dict, Iterator, List, Optional

from .base import ROOT, Check, Skipped, run

TESTS = ROOT / "tools" / "tests"
COSTS = {"test_each_last_line": 13, "test_each_byte_changed": 4, "test_sessions_of_the_pages": 8, "test_templates": 5,
         "test_a_long_run": 4, "test_examples": 3, "test_what_the_program_refuses_is_told": 3, "test_help_and_completions": 3}  # seconds, of long ones


def checks(programs: Dict[str, str]) -> List[Check]:
    if "icrun" not in programs:
        return []
    named = {name.upper(): programs[name] for name in ("icrun", "iclive") if name in programs}
    return [Check("tools", name, lambda it=name: passes(named, it), COSTS.get(name.rpartition(".")[2], 1)) for name in sorted(names())]


def names() -> Iterator[str]:
    """The tests that need no model of the runtime."""
    if str(TESTS) not in sys.path:
        sys.path.insert(0, str(TESTS))
    suites = [unittest.defaultTestLoader.discover(str(TESTS), "test_*.py", str(TESTS))]
    while suites:
        for test in suites.pop():
            if isinstance(test, unittest.TestSuite):
                suites.append(test)
            elif not test.id().startswith("test_random."):
                yield test.id()


def passes(named: Dict[str, str], name: str) -> Optional[str]:
    """A test, with the programs that it calls as the environment names them."""
    done = run([sys.executable, "-B", "run.py", "--only", name], TESTS, named)
    told = done.out.decode().splitlines()
    skipped = [line for line in told if line.startswith("skipped ")]
    if skipped and told[-1] == "0 passed, 0 failed":
        raise Skipped(skipped[0].partition(": ")[2])
    return None if done.status == 0 and told[-1:] == ["1 passed, 0 failed"] else (done.out + done.err).decode()
