"""The tables that the program prints: reasons and keys."""
import os
import re

from counted import TOP
from program.runs import Runs, run

# The keys of scripts, those that send with their AIDs (SC30-3533, attention identification codes).
PLAIN = """Left Right Up Down Home Tab BackTab FieldExit FieldMinus Dup Delete EraseInput Attention SystemRequest
Reset""".split()
SENDING = {"Enter": 0xF1, "Clear": 0xBD, "Help": 0xF3, "RollDown": 0xF4, "RollUp": 0xF5, "Print": 0xF6,
           "RecordBackspace": 0xF8} | {f"F{n}": (0x30 if n < 13 else 0xA4) + n for n in range(1, 25)}

# Lines of reasons, as a person reads them.
LINES = ["1 BadCommand: no Telnet command has the byte that stands after FF",
         "10 LengthBelowHeader: a record's length is less than its ten header bytes",
         "63 AnswerMismatch: an answer doesn't fit the read that asked for it"]


class TestTables(Runs):
    def test_reasons(self):
        page = (TOP / "docs/PROFILE.md").read_text(encoding="utf-8")
        wanted = re.findall(r"^(\d\d?) ([A-Z]\w+) \| ", page, re.M)
        done = run(["reasons"])
        lines = done.stdout.splitlines()
        found = [line and line.groups() for line in (re.fullmatch(r"(\d+) (\w+): [a-z].+[\w)]", line) for line in lines)]
        self.count(f"the reasons {done.stdout}", len(wanted) > 40 and found == wanted)
        self.count("their end", (done.returncode, done.stderr, done.stdout[-1:]) == (0, "", "\n"))
        self.count("some lines", {*LINES} <= {*lines})
        for line in lines:
            self.expect(f"reason {line}", run(["reasons", line.split()[0]]), 0, line + "\n", "")
        for word in "0", "17", "46", "64", "256", "289", "x", "", "33 ":
            done = run(["reasons", word])
            fault = f"error: no reason has the number `{word}`\n\nUsage: t5250 reasons [K]\n"
            self.count(f"no reason {word!r}: {done.stderr}", done.stderr.startswith(fault))
            self.expect(f"no reason {word!r}", done, 2, "", None)

    def test_keys(self):
        done = run(["keys"])
        wanted = [f"{name}\n" for name in PLAIN] + [f"{name} {aid:02X}\n" for name, aid in SENDING.items()]
        self.expect("keys", done, 0, done.stdout, "")
        self.count(f"the keys {done.stdout}", sorted(done.stdout.splitlines(True)) == sorted(wanted))
        for name in [*PLAIN, *SENDING]:
            status, err = (2, "script line 1\n") if name == "Reset" else (0, "")
            self.expect(f"key {name}", run(["play"], f"key {name}\n"), status, "" if status else None, err)

    def test_no_output(self):
        for words in ["reasons"], ["reasons", "33"], ["keys"]:
            with open("/dev/full", "w") as full:
                self.expect(f"{words} into a full device", run(words, stdout=full), 2, "", "cannot write\n")
            closed = run(words, preexec_fn=lambda: os.close(1))
            self.expect(f"{words} without standard output", closed, 2, "", "cannot write\n")
            # Standard input isn't read.
            self.expect(f"{words} without standard input", run(words, preexec_fn=lambda: os.close(0)), 0, None, "")

    def test_wrong_words(self):
        for words in ["reasons", "1", "2"], ["keys", "Enter"], ["keys", "--color"], ["reasons", "--all"]:
            self.expect(words, run(words), 2, "", None)
