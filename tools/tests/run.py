#!/usr/bin/env python3
"""Tests the tools. The last line is `N passed, M failed`.

The word, if there is one, is the folder of a plain model of the runtime, for tests on random
runs. Without it, or where Python is older than 3.11, these are skipped. `--only NAME` runs one
test, or those of a module.
"""

import argparse
import os
import sys
import unittest
from pathlib import Path

sys.dont_write_bytecode = True
HERE = str(Path(__file__).resolve().parent)
sys.path.insert(0, HERE)


class Counting(unittest.TextTestResult):
    """A result that counts the tests that passed."""

    passed = 0

    def addSuccess(self, test):
        super().addSuccess(test)
        self.passed += 1


def main() -> int:
    parser = argparse.ArgumentParser(description="Tests the tools.")
    parser.add_argument("model", nargs="?", help="the folder of a plain model of the runtime")
    parser.add_argument("--only", metavar="NAME", help="one test, or a module of tests")
    words = parser.parse_args()
    if words.model:
        os.environ["MODEL"] = os.path.abspath(words.model)
    loader = unittest.defaultTestLoader
    tests = loader.loadTestsFromName(words.only) if words.only else loader.discover(HERE, "test_*.py", HERE)
    runner = unittest.TextTestRunner(stream=sys.stdout, verbosity=0, resultclass=Counting)
    result = runner.run(tests)
    for test, why in result.skipped:
        print("skipped %s: %s" % (test.id(), why))
    failed = len(result.failures) + len(result.errors) + len(result.unexpectedSuccesses)
    print("%d passed, %d failed" % (result.passed, failed))
    return 0 if failed == 0 and result.passed > 0 else 1


if __name__ == "__main__":
    sys.exit(main())
