#!/usr/bin/env python3
"""Runs the tests of a folder, or those of it that are named: units.py FOLDER [NAME ..]. Each failure and each skipped
test is printed; the last line is 'N passed, M failed'."""

import sys
import unittest


def main(folder: str, *names: str) -> int:
    sys.path.insert(0, folder)
    loader = unittest.TestLoader()
    return report(loader.loadTestsFromNames(names) if names else loader.discover(folder))


def report(tests: unittest.TestSuite) -> int:
    result = unittest.TestResult()
    tests.run(result)
    for test, why in result.failures + result.errors:
        print(f"{test.id()}: {why}")
    for test, why in result.skipped:
        print(f"skipped: {test.id()}: {why}")
    # A failure of a part of a test, by `subTest`, is one of the test.
    failed = len({getattr(test, "test_case", test).id() for test, _ in result.failures + result.errors})
    passed = result.testsRun - failed - len(result.skipped)
    print(f"{passed} passed, {failed} failed")
    return int(failed > 0 or passed == 0)


if __name__ == "__main__":
    sys.exit(main(*sys.argv[1:]))
