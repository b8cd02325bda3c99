"""Runs the unittest cases of a test program. The last line is 'N passed, M failed', counted in test methods."""

import sys
import unittest


def main() -> None:
    cases = unittest.defaultTestLoader.loadTestsFromModule(sys.modules["__main__"])
    result = unittest.TextTestRunner(sys.stdout, verbosity=0).run(cases)
    troubles = [getattr(test, "test_case", test) for test, _ in result.failures + result.errors]
    methods = {test.id() for test in troubles if isinstance(test, unittest.TestCase)}
    set_ups = {test.id() for test in troubles} - methods
    failed = len(methods) + len(set_ups)
    print(f"{result.testsRun - len(methods)} passed, {failed} failed")
    sys.exit(1 if failed or not result.testsRun else 0)
