"""The package as a program: its words."""
from __future__ import annotations

import contextlib
import io
import os
import subprocess
import sys
import unittest

from ribbonscarp.__main__ import host, listening, parser
from support import TOP


class MainTest(unittest.TestCase):
    def test_words(self) -> None:
        self.assertEqual(host("as400.example"), ("as400.example", 23))
        self.assertEqual(host("10.0.0.1:5250"), ("10.0.0.1", 5250))
        self.assertEqual((host("::1"), host("[::1]")), (("::1", 23), ("::1", 23)))
        self.assertEqual(host("[fe80::1%lo]:99"), ("fe80::1%lo", 99))
        self.assertEqual((listening("127.0.0.1:0"), listening("[::1]:5250")), (("127.0.0.1", 0), ("::1", 5250)))
        cases: list[tuple[list[str], str]] = [
            ([], "the following arguments are required: command"),
            (["tap", "127.0.0.1", "h"], "127.0.0.1 is no ADDRESS:PORT"),
            (["tap", "127.0.0.1:65536", "h"], "65536 is no port"),
            (["tap", "127.0.0.1:0", "h:0"], "0 is no port"),
            (["tap", "127.0.0.1:0", "h:x"], "h:x is no HOST[:PORT]"),
            (["tap", "127.0.0.1:0", "h", "--wait", "0"], "0 is no number of seconds"),
            (["tap", "127.0.0.1:0"], "the following arguments are required: HOST"),
        ]
        for words, told in cases:
            with contextlib.redirect_stderr(io.StringIO()) as said, self.assertRaises(SystemExit) as ended:
                parser().parse_args(words)
            self.assertEqual(ended.exception.code, 2)
            self.assertIn(told, said.getvalue())

    def test_cannot_listen(self) -> None:
        command = [sys.executable, "-m", "ribbonscarp", "tap", "203.0.113.1:0", "h"]
        environment = os.environ | {"PYTHONPATH": str(TOP / "python")}
        done = subprocess.run(command, env=environment, capture_output=True, text=True, check=False)
        wanted = "cannot listen at 203.0.113.1:0: Cannot assign requested address\n"
        self.assertEqual((done.returncode, done.stdout, done.stderr), (2, "", wanted))
