"""Runs of tests by unittest, whose last line is `N passed, N failed` as tests/parts.sh reads it.

A script of tests takes programs in place of those that were built, words with a slash, and parts of the names of the
tests that are wanted: `run_live.py build/unproved/t5250 TestWire.test_time`. `-v` names each test, and tells its time.
"""
import os
import pathlib
import sys
import tempfile
import time
import unittest

TOP = pathlib.Path(__file__).resolve().parent.parent
PROGRAMS = [os.path.abspath(word) for word in sys.argv[1:] if "/" in word]
NAMES = [f"*{word}*" for word in sys.argv[1:] if "/" not in word and word != "-v"]
PROGRAM = PROGRAMS[0] if PROGRAMS else str(TOP / "crates/t5250/out/t5250")


class Test(unittest.TestCase):
    """Tests that have a folder of their own, and cases that count by themselves."""

    def setUp(self):
        folder = tempfile.TemporaryDirectory()
        self.addCleanup(folder.cleanup)
        self.folder = folder.name

    def count(self, what, is_right):
        with self.subTest(what):
            self.assertTrue(is_right)


class Counts(unittest.TextTestResult):
    """Counts each case of a test, and each test that has none."""

    passed = 0

    def startTest(self, test):
        super().startTest(test)
        self.cases, self.began = 0, time.monotonic()

    def addSubTest(self, test, subtest, error):
        super().addSubTest(test, subtest, error)
        self.cases += 1
        self.passed += error is None

    def addSuccess(self, test):
        super().addSuccess(test)
        self.passed += self.cases == 0

    def stopTest(self, test):
        super().stopTest(test)
        if self.showAll:
            self.stream.writeln(f"{time.monotonic() - self.began:5.1f} s")


def need_program(program=PROGRAM):
    """Ends where there is no program, in place of tests that fail one by one."""
    if not os.path.exists(program):
        sys.exit(f"{os.path.relpath(program)} isn't built; a word with a slash names another, as build/unproved/t5250")


def main(folder=None, warnings="ignore", needs_program=False):
    """Runs the tests of the script itself and of a folder's files whose names have `test`; ends with their status."""
    if needs_program:
        need_program()
    loader = unittest.TestLoader()
    loader.testNamePatterns = NAMES or None
    tests = loader.loadTestsFromModule(sys.modules["__main__"])
    if folder is not None:
        tests.addTests(loader.discover(str(TOP / folder), "*test*.py"))
    runner = unittest.TextTestRunner(sys.stdout, verbosity=2 * ("-v" in sys.argv), resultclass=Counts, warnings=warnings)
    result = runner.run(tests)
    for test, why in result.skipped:
        print(f"left out: {test.id()}, since {why}")
    failed = len(result.failures) + len(result.errors) + len(result.unexpectedSuccesses)
    print(f"{result.passed} passed, {failed} failed")
    sys.exit(failed > 0 or result.testsRun == 0)
