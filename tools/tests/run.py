"""Runs all tests of the tools; the last line is 'N passed, N failed, N skipped'."""

from __future__ import annotations

import sys
import unittest
from pathlib import Path

FOLDER = Path(__file__).resolve().parent


class Counted(unittest.TestResult):
    """Says of each test that fails or is skipped why, and counts those that pass."""

    passed = 0

    def addSuccess(self, test: unittest.TestCase) -> None:
        super().addSuccess(test)
        self.passed += 1

    def addSkip(self, test: unittest.TestCase, reason: str) -> None:
        super().addSkip(test, reason)
        print(f"skipped: {test.id()}: {reason}")


def main() -> int:
    if sys.version_info < (3, 11):
        print("skipped: the tools want python3 from 3.11 on")
        print("0 passed, 0 failed, 1 skipped")
        return 0
    sys.path.insert(0, str(FOLDER.parent))
    result = Counted()
    unittest.defaultTestLoader.discover(str(FOLDER)).run(result)
    failed = result.failures + result.errors
    for test, trace in failed:
        print(f"failed: {test.id()}\n{trace}")
    print(f"{result.passed} passed, {len(failed)} failed, {len(result.skipped)} skipped")
    return 1 if failed else 0


if __name__ == "__main__":
    sys.exit(main())
