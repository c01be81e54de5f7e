"""Runs all tests, and ends with the line `N passed, M failed`: `python -m tests` in python/."""
import sys
import unittest
from pathlib import Path

from gridlet import ProgramNotFound
from gridlet.program import find_program

TESTS = Path(__file__).resolve().parent


def main() -> int:
    """The exit status: 0 where none failed and there were some."""
    try:
        print(f"over {find_program()}")
    except ProgramNotFound as error:
        print(f"{error}\n0 passed, 1 failed")
        return 1
    suite = unittest.defaultTestLoader.discover(str(TESTS), top_level_dir=str(TESTS.parent))
    result = unittest.TextTestRunner(stream=sys.stdout, verbosity=1).run(suite)
    faults = [test for test, _ in result.failures + result.errors] + result.unexpectedSuccesses
    # Several parts of one test that fail are one failed test.
    failed = len({getattr(test, "test_case", test).id() for test in faults})
    passed = max(result.testsRun - failed - len(result.skipped), 0)
    print(f"{passed} passed, {failed} failed")
    return 0 if passed and not failed else 1


if __name__ == "__main__":
    sys.exit(main())
