"""What `make` would do, asked by `-n`."""
from __future__ import annotations

import os
import shutil
import subprocess
import unittest

from support import PROGRAM, TOP


@unittest.skipUnless(shutil.which("make"), "make isn't here")
class MakeTest(unittest.TestCase):
    def make(self, *words: str) -> subprocess.CompletedProcess[str]:
        kept = {name: value for name, value in os.environ.items() if not name.startswith("MAKE")}
        command = ["make", "-n", *words, "LIB=Makefile", "BUILD=/nowhere"]
        return subprocess.run(command, cwd=TOP, env=kept, capture_output=True, text=True, check=False)

    def test_pages(self) -> None:
        """They are made with the rest, where the program is there: an install then builds nothing."""
        # By a path from c/, in which no blank stands where the program is the repository's.
        for program, count in ((os.path.relpath(PROGRAM, os.path.join(TOP, "c")), 2), ("/nowhere", 0)):
            done = self.make("all", f"T5250={program}")
            self.assertEqual((done.returncode, done.stdout.count("manual.py")), (0, count), done.stderr)

    def test_relative(self) -> None:
        """From the top it would lead to another folder than the caller means."""
        for target, word in (("install", "PREFIX=stage"), ("install", "DESTDIR=a stage"), ("uninstall", "DESTDIR=stage")):
            done = self.make(target, word, "T5250=Makefile")
            self.assertIn(f"{word.partition('=')[0]} has to begin with /", done.stderr)
            self.assertNotEqual(done.returncode, 0)
        done = self.make("install", "PREFIX=/a b/c", "DESTDIR=", "T5250=Makefile")
        self.assertIn("install -d '/a b/c'/bin", done.stdout, done.stderr)


if __name__ == "__main__":
    unittest.main()
