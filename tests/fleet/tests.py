"""Runs the tests, all or those named, and says which were skipped and why."""

import os
import sys
import unittest


def main(words):
    here = os.path.dirname(os.path.abspath(__file__))
    sys.path.insert(0, here)
    loader = unittest.TestLoader()
    suite = loader.loadTestsFromNames(words) if words else loader.discover(here, "test_*.py")
    result = unittest.TextTestRunner(stream=sys.stdout).run(suite)
    for test, why in result.skipped:
        print(f"fleet: left out: {test.id()}: {why}")
    failed = len(result.failures) + len(result.errors)
    print(f"fleet: {result.testsRun - failed - len(result.skipped)} tests passed, {failed} failed, {len(result.skipped)} left out")
    return 0 if result.wasSuccessful() and result.testsRun else 1


if __name__ == "__main__":
    sys.exit(main(sys.argv[1:]))
