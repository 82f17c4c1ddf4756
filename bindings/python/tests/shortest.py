"""Runs tests up to the first failure, those that take least time first.

    python3 shortest.py TIMES MODULE..    (in this folder)
    python3 shortest.py - MODULE..

TIMES is a file with how many seconds of the processor each test took. If there is none, this runs
all tests and writes it. A test that takes four times as long, and two seconds more, ends this
process. With - it runs all tests in their order, and the last line is 'N passed, M failed'.
"""

import io
import json
import signal
import sys
import time
import unittest
from pathlib import Path


class Result(unittest.TextTestResult):
    """A result that limits and measures the processor's time of each test."""

    def startTest(self, test):
        super().startTest(test)
        signal.setitimer(signal.ITIMER_PROF, 2 + 4 * times.get(test.id(), 10))
        self.started = time.process_time()

    def stopTest(self, test):
        super().stopTest(test)
        measured[test.id()] = time.process_time() - self.started


def each(suite):
    """Yield each test of a suite."""
    for test in suite:
        yield from each(test) if isinstance(test, unittest.TestSuite) else [test]


path, *names = sys.argv[1:]
if path == "-":
    said = io.StringIO()
    tests = unittest.defaultTestLoader.loadTestsFromNames(names)
    result = unittest.TextTestRunner(said).run(tests)
    failed = len([*result.failures, *result.errors, *result.unexpectedSuccesses])
    # A module without a test fails.
    failed += result.testsRun == 0
    print(said.getvalue() if failed else "", end="")
    print(f"{max(result.testsRun - failed, 0)} passed, {failed} failed")
    sys.exit(failed != 0)
times = json.loads(Path(path).read_text()) if Path(path).exists() else {}
measured = {}
tests = each(unittest.defaultTestLoader.loadTestsFromNames(names))
tests = sorted(tests, key=lambda it: times.get(it.id(), 0))
result = unittest.TextTestRunner(resultclass=Result, failfast=True).run(unittest.TestSuite(tests))
if not times and result.wasSuccessful():
    Path(path).write_text(json.dumps(measured))
sys.exit(not result.wasSuccessful())
