#!/usr/bin/env python3
"""Runs the tests of the Python package, python/tests: `run_python.py [-v] [LIBRARY [T5250]] [NAME..]`.

LIBRARY is the shared library, and T5250 the program, with a slash; without them those that `make -C c` and `rt run` in
crates/t5250 leave. `-v` names each test. Where mypy is there, the types are looked at too. The last line is 'N passed, M
failed', and the status is 1 where one failed.
"""
import os
import shutil
import subprocess
import sys
import unittest

from counted import PROGRAMS, TOP, main

PACKAGE = TOP / "python"
BUILT = TOP / "c/build/libribbonscarp.so", TOP / "crates/t5250/out/t5250"


class TestTypes(unittest.TestCase):
    """mypy finds nothing in the package, its tests and its programs."""

    @unittest.skipUnless(shutil.which("mypy"), "mypy isn't here")
    def test_types(self):
        files = sorted([*PACKAGE.glob("*.py"), *PACKAGE.glob("tests/*.py"), *TOP.glob("examples/python/*.py")])
        if shutil.which("pytest") is None:
            print("left out: the types of what imports pytest, since it isn't here")
            files = [file for file in files if "\nimport pytest\n" not in file.read_text(encoding="utf-8")]
        command = ["mypy", "--strict", "--no-error-summary", "--cache-dir", os.devnull, "ribbonscarp", *map(str, files)]
        folders = f"{PACKAGE}:{PACKAGE / 'tests'}:{TOP / 'tests'}:{TOP / 'examples/python'}"
        done = subprocess.run(command, cwd=PACKAGE, env=os.environ | {"MYPYPATH": folders}, check=False)
        self.assertEqual(done.returncode, 0)


class TestUsage(unittest.TestCase):
    """The programs of examples/python say what they are called with, and an emulator that doesn't start is told."""

    def test_usage(self):
        for name, words, told in [
            ("check_emulator.py", [], "usage: check_emulator.py COMMAND..\n"),
            ("check_emulator.py", ["no/such/emulator"], "the emulator doesn't start: .*no/such/emulator.*\n"),
            ("farm.py", [], "usage: farm.py HOST PORT SESSIONS ITEM\n"),
            ("host.py", [], r"usage: host.py PORT \[CERTIFICATE KEY\]\n"),
            ("scrape.py", ["localhost", "5250"], "usage: scrape.py HOST PORT USER ITEM..\n"),
        ]:
            with self.subTest(name, words=words):
                done = subprocess.run([sys.executable, TOP / "examples/python" / name, *words], capture_output=True,
                                      text=True, env=os.environ | {"PYTHONPATH": str(PACKAGE)}, check=False)
                self.assertEqual((done.returncode, done.stdout), (2, ""))
                self.assertRegex(done.stderr, f"\\A{told}\\Z")


if not PROGRAMS and not BUILT[0].exists():
    print("left out: the Python package, since c/build/libribbonscarp.so isn't there")
    print("0 passed, 0 failed")
    sys.exit()
library, program, *_ = [*PROGRAMS, *BUILT[len(PROGRAMS):]]
os.environ.update(RIBBONSCARP_LIBRARY=str(library), T5250=str(program), PYTHONDONTWRITEBYTECODE="1")
sys.dont_write_bytecode = True
sys.path[:0] = [str(PACKAGE), str(PACKAGE / "tests")]
main("python/tests", warnings="error")
