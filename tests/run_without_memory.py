#!/usr/bin/env python3
"""Refuses each allocation in turn: of the tests of want of memory, and of the built program.

Build both first (`rt run -- check < stdin` in crates/t5250, `rt test` in crates/rows_program), then call this script
from anywhere: `python3 tests/run_without_memory.py [NAME..]`. It needs a C compiler (`cc`, or what CC names). Its last
line counts the runs, and its own status is 1 where one went otherwise.

A test or the program is run with its first allocation refused, then with its second, and so on, until a run ends in
which none was. `rt try --test --fail-alloc N` refuses the same ones, but builds anew for each N.
"""
import os
import shutil
import subprocess
import unittest

from counted import PROGRAM, TOP, Test, main
from program.runs import files

TEST_PROGRAM = str(TOP / "crates/rows_program/out/rows_program_tests")
COMPILER = os.environ.get("CC", "cc")

# Tests of calls that take memory: each holds with any one allocation refused.
WITHIN_MEMORY = [
    "memory_rows::streams_within_memory",
    "memory_rows::host_end_within_memory",
    "memory_rows::world_within_memory",
    "memory_rows::program_within_memory",
    "growth_rows::split_within_memory",
    "growth_rows::made_within_memory",
    "growth_rows::any_host_within_memory",
    "tcp_rows::tcp_without_memory",
]
# Tests of calls that take none: each holds with every allocation refused from any one on.
WITHOUT_MEMORY = [
    "memory_rows::bob_without_memory",
    "memory_rows::run_station_without_memory",
    "memory_rows::records_without_memory",
    "memory_rows::cancel_without_memory",
]

BOB = "00 1D 12 A0 00 00 04 00 00 03 04 40 04 11 00 08 11 06 34 1D 40 00 20 00 0A 04 52 00 00 FF EF\n"
ANSWER = "00 13 12 A0 00 00 04 00 00 03 06 38 F1 11 06 35 C2 D6 C2 FF EF\n"
QUERY = "00 11 12 A0 00 00 04 00 00 03 04 F3 00 05 D9 70 00 FF EF\n"
PLAY = "settle\nsend 3 0440041100081106341D400020000A04520000\nsettle\ntype BOB\nkey Enter\nsettle\n"

# The words and the standard input of runs of the program. A word that begins with `@` stands for the file of that text.
RUNS = [
    (["check"], BOB),
    (["check", "@" + BOB], ""),
    (["check", "--cut", "1"], QUERY),
    (["check", "--answers"], ANSWER),
    (["check", "no such file"], ""),
    (["show"], BOB),
    (["show", "@" + BOB], ""),
    (["show"], QUERY),
    (["make"], "telnet NOP\n"),
    (["play"], PLAY),
    (["play", "@" + PLAY], ""),
    (["play", "--screen"], PLAY),
    (["play", "--tcp"], PLAY),
    (["play"], "settl\n"),
    (["--help"], ""),
    (["check", "--help"], ""),
    (["help", "play"], ""),
    (["--version"], ""),
    ([], ""),
    (["other"], ""),
    (["check", "--cut", "0"], ""),
    (["show", "--other"], ""),
    (["play", "a", "b"], ""),
]

# The same, where the text has a bad line behind good ones.
HOST_TEXT = "record opcode 3\n  WRITE 00 08\n  SBA 1 1\n  TEXT HELLO\n  SBA 99 1\n"
STATION_TEXT = "record opcode 3\n  HEAD 6 56 F1\n  AT 6 53\n  TEXT BOB\n  AT 99 1\n"
SERVE = "await\nsend 3\n  WRITE 00 08\n  SBA 1 1\n  TEXT HELLO\n  SBA 99 1\n"
RUNS_TO_A_BAD_LINE = [
    (["make"], HOST_TEXT),
    (["make", "@" + HOST_TEXT], ""),
    (["make", "--answers"], STATION_TEXT),
    (["serve", "127.0.0.1:0", "@" + SERVE], ""),
]

MOST = 20_000


@unittest.skipUnless(shutil.which(COMPILER), "there is no C compiler")
class TestWithoutMemory(Test):
    def setUp(self):
        super().setUp()
        self.library, self.told = (os.path.join(self.folder, name) for name in ("refuse_allocation.so", "refused"))
        source = TOP / "tests/refuse_allocation.c"
        subprocess.run([COMPILER, "-shared", "-fPIC", "-O1", "-o", self.library, source], check=True)

    def run_refused(self, words, text, which):
        """A run with allocations refused; None where none was."""
        if os.path.exists(self.told):
            os.remove(self.told)
        more = {"LD_PRELOAD": self.library, "REFUSE": which, "REFUSED": self.told}
        done = subprocess.run(words, input=text, capture_output=True, text=True, timeout=300, env={**os.environ, **more})
        return done if which == "0" or os.path.exists(self.told) else None

    def each(self, words, text="", behind=""):
        """Each run in which an allocation was refused, with its number; `behind` is `..` to refuse all from it on."""
        for number in range(1, MOST):
            done = self.run_refused(words, text, f"{number}{behind}")
            if done is None:
                print(f"{' '.join(map(os.path.basename, words))}: {number - 1} allocations refused")
                return
            yield f"{words[1:]}, {number} refused: {done.returncode}, {done.stdout!r:.200}, {done.stderr!r:.300}", done
        self.fail(f"{words} takes memory {MOST} times")

    def test_within_memory(self):
        for name in WITHIN_MEMORY:
            for what, done in self.each([TEST_PROGRAM, name]):
                self.count(what, done.returncode == 0)

    def test_without_memory(self):
        for name in WITHOUT_MEMORY:
            for what, done in self.each([TEST_PROGRAM, name], behind=".."):
                self.count(what, done.returncode == 0)

    def look_at_program(self, words, text):
        """It ends as it does with memory, or tells of its want after a part of its text; what is told as faults."""
        words, faults = [PROGRAM, *files(words, self.folder)], []
        plain = self.run_refused(words, text, "0")
        for what, done in self.each(words, text):
            same = (done.returncode, done.stdout, done.stderr) == (plain.returncode, plain.stdout, plain.stderr)
            wanting = (done.returncode, done.stderr) == (2, "memory\n") and plain.stdout.startswith(done.stdout)
            self.count(what, same or wanting)
            faults.append(done.stderr)
        return faults

    def test_program(self):
        for words, text in RUNS:
            self.look_at_program(words, text)

    def test_program_to_a_bad_line(self):
        """A growth for good lines that is refused hides no bad line: behind these runs stand those of its cause."""
        for words, text in RUNS_TO_A_BAD_LINE:
            told = any(fault.startswith("script line ") for fault in self.look_at_program(words, text))
            self.assertTrue(told, words)


main(needs_program=True)
