"""Forms of a stream: what an end sent by a recording, and raw bytes, read and written."""
import os
import resource
import subprocess
import time

from counted import PROGRAM
from program.runs import Runs, run
from program.texts import (
    ANSWER, ANSWER_LINE, ANSWER_LINES, ANSWER_MADE, EMPTY_SCREEN, HELLO, HELLO_LINES, HELLO_MADE, HELLO_TEXT, INVITE,
    INVITE_LINE, QUERY, QUERY_LINE, SHORT, SHORT_LINE, TOLD, TOLD_LINE, TOLD_LINES,
)

# A host's screen in three pieces, between which a station answers.
RECORDING = f"""0 host {HELLO_MADE[:8]}
12 station {ANSWER_MADE[:20]}
12 host {HELLO_MADE[8:30]}
1204 host {HELLO_MADE[30:-1]}
1205 station {ANSWER_MADE[20:-1].lower()}
"""
PIECES = "0 host ff\n12 station F1\n13 host F1\n"

# Texts, and the first line that is none of a recording.
NO_RECORDINGS = [
    ("\n", 1), ("FFF1\n", 1), ("0 host FFF1\n\n", 2), ("0 host FFF1\n0 host FFF\n0 host\n", 2), ("0 host FFG1\n", 1),
    ("0 host\n", 1), ("0 hostFFF1\n", 1), ("0 Host FFF1\n", 1), ("0  host FFF1\n", 1), (" 0 host FFF1\n", 1),
    (" host FFF1\n", 1), ("-1 host FFF1\n", 1), ("0 stations FFF1\n", 1), ("0 station FF\n# a comment\n", 2),
]

# The words, the standard input, and what is wanted: the exit status, standard output, and a line on standard error.
RECORDINGS = [
    (["check", "--of", "host"], RECORDING, 0, "accepted: 1 records, 0 commands, 23 bytes\n", ""),
    (["check", "--of", "host", "--cut", "1"], RECORDING, 0, "accepted: 1 records, 0 commands, 23 bytes\n", ""),
    (["check", "--of=station", "--answers"], RECORDING, 0, ANSWER_LINE, ""),
    (["check", "--of", "station"], RECORDING, 1, "refused at 10: reason 20 NoEscape\n", ""),
    (["check", "--of", "station", "--answers", "--extended"], f"1 station {TOLD}", 0, TOLD_LINE, ""),
    (["show", "--of", "host"], RECORDING, 0, HELLO_LINES, ""),
    (["show", "--of", "station", "--answers"], RECORDING, 0, ANSWER_LINES, ""),
    (["show", "--of", "station", "--answers", "--extended"], f"1 station {TOLD}", 0, TOLD_LINES, ""),
    (["show", "--of", "host"], f"9 host {SHORT}", 1, SHORT_LINE, ""),
    (["show", "--of", "host"], f"9 host {QUERY}9 station 0\n", 2, "", "script line 2\n"),
    (["check", "--of", "host"], f"9 host {QUERY}9 station 00\n", 1, QUERY_LINE, ""),
    (["check", "--of", "host"], f"0 host {HELLO_MADE[:7]}\n" + RECORDING, 2, "", "script line 1\n"),
    (["check", "--of", "host"], "", 0, "accepted: 0 records, 0 commands, 0 bytes\n", ""),
    (["check", "--of", "station"], f"9 host {INVITE}", 0, "accepted: 0 records, 0 commands, 0 bytes\n", ""),
    (["check", "--of", "host"], f"9 host {INVITE}".replace("\n", "\r\n"), 0, INVITE_LINE, ""),
    (["check", "--of", "host"], f"9 host {INVITE}".rstrip("\n"), 0, INVITE_LINE, ""),
    (["check", "--of", "host"], INVITE, 2, "", "script line 1\n"),
    (["check", "--of", "host"], f"9 host {INVITE}\n", 2, "", "script line 2\n"),
    (["check", "--of", "host"], f"9 host {INVITE}# nothing\n", 2, "", "script line 2\n"),
    (["check", "--of", "host", "no such file"], RECORDING, 2, "", "cannot read\n"),
    # two pieces of one end are a command, a time has any length, digits may stand apart
    (["check", "--of", "host"], PIECES, 0, "accepted: 0 records, 1 commands, 2 bytes\n", ""),
    (["check", "--of", "station"], PIECES, 1, "truncated at 1\n", ""),
    (["check", "--of", "station"], "18446744073709551616 station 00", 1, "truncated at 1\n", ""),
    (["check", "--of", "host"], "007 host 0 1 \t02\r\n", 1, "truncated at 2\n", ""),
    (["check", "--of", "host"], "5 host \n6 station \n", 0, "accepted: 0 records, 0 commands, 0 bytes\n", ""),
    # wrong command lines
    (["check", "--of", "host", "--raw"], RECORDING, 2, "", None),
    (["show", "--raw", "--of", "host"], RECORDING, 2, "", None),
    (["show", "--raw", "--raw"], RECORDING, 2, "", None),
    (["connect", "--raw", "127.0.0.1:1"], "", 2, "", None),
    (["check", "--of", "nobody"], RECORDING, 2, "", None),
    (["check", "--of"], RECORDING, 2, "", None),
    (["make", "--of", "host"], HELLO_TEXT, 2, "", None),
    (["play", "--raw"], "settle\n", 2, "", None),
]

# 600 records without a body as they are shown, and then one that the screen refuses.
INVITES = "".join(f"at {12 * number + 11} record flags 0000 opcode 1\n" for number in range(600))
PAST_END = "0013 12A0 0000 04 0000 03 0411 0000 111850 C1C2 FFEF"
PAST_END_LINES = """at 7220 record flags 0000 opcode 3
  WRITE 00 00
  SBA 24 80
  PUT C1C2
refused at 7220: reason 51 PastEnd
"""

# The same of bytes, which standard input and a file have, spelled in hex.
BYTES = [
    (["check", "--raw"], INVITE, 0, INVITE_LINE, ""),
    (["check", "--raw", "--cut", "1"], INVITE, 0, INVITE_LINE, ""),
    (["check", "--raw", "--cut=65535"], INVITE * 6000, 0, "accepted: 6000 records, 0 commands, 72000 bytes\n", ""),
    (["check", "--raw"], QUERY, 1, QUERY_LINE, ""),
    (["check", "--raw"], INVITE * 6000 + QUERY, 1, "refused at 72011: reason 30 StructuredField\n", ""),
    (["check", "--raw"], SHORT, 1, SHORT_LINE, ""),
    (["check", "--raw"], "", 0, "accepted: 0 records, 0 commands, 0 bytes\n", ""),
    (["check", "--raw", "--answers"], ANSWER, 0, ANSWER_LINE, ""),
    (["check", "--raw", "--answers", "--extended"], TOLD, 0, TOLD_LINE, ""),
    (["check", "--raw", "--extended"], QUERY, 0, "accepted: 1 records, 0 commands, 19 bytes\n", ""),
    (["show", "--raw"], HELLO, 0, HELLO_LINES, ""),
    (["show", "--raw"], QUERY, 1, QUERY_LINE, ""),
    (["show", "--raw"], SHORT, 1, SHORT_LINE, ""),
    (["show", "--raw", "--answers"], ANSWER, 0, ANSWER_LINES, ""),
    (["show", "--raw", "--answers", "--extended"], TOLD, 0, TOLD_LINES, ""),
    (["show", "--raw"], "", 0, EMPTY_SCREEN, ""),
    # in several pieces, cut in a record, refused, or with a record that isn't carried out, after which nothing is read
    (["show", "--raw"], INVITE * 600, 0, INVITES + EMPTY_SCREEN, ""),
    (["show", "--raw"], INVITE * 600 + SHORT, 1, INVITES + "truncated at 7203\n", ""),
    (["show", "--raw"], INVITE * 600 + QUERY * 600, 1, INVITES + "refused at 7211: reason 30 StructuredField\n", ""),
    (["show", "--raw"], INVITE * 600 + PAST_END * 600, 1, INVITES + PAST_END_LINES, ""),
]

# What is made of items as text, in bytes that are spelled in hex.
MADE = [
    (["make", "--raw"], HELLO_TEXT, 0, HELLO, ""),
    (["make", "--raw"], HELLO_TEXT + "telnet NOP\n" + HELLO_TEXT, 0, HELLO + "FF F1" + HELLO, ""),
    (["make", "--raw", "--answers"], ANSWER_LINES, 0, ANSWER, ""),
    (["make", "--raw", "--answers", "--extended"], TOLD_LINES, 0, TOLD, ""),
    (["make", "--raw"], "", 0, "", ""),
    (["make", "--raw"], HELLO_TEXT + "nonsense\n", 2, "", "script line 6: unknown word `nonsense`\n"),
]

# A record of long data, 1,770 bytes and its end.
LONG = bytes.fromhex("06EA12A0000004000002" + "04110008110101") + b"\xc1" * 1753 + b"\xff\xef"
# A stream is given up for long where an unproved program takes this time.
SECONDS = 6


def piped(words, data, **more):
    """What a run comes to whose standard input has these bytes; its output as text."""
    done = subprocess.run([PROGRAM, *words], input=data, capture_output=True, timeout=300, **more)
    return subprocess.CompletedProcess(words, done.returncode, done.stdout.decode(), done.stderr.decode())


def limit():
    resource.setrlimit(resource.RLIMIT_AS, (24 << 20, 24 << 20))


def most_memory(process):
    """The most memory that a process had, in KiB; nothing of one that has ended."""
    with open(f"/proc/{process.pid}/status") as file:
        return next((int(line.split()[1]) for line in file if line.startswith("VmHWM:")), 0)


class TestForm(Runs):
    def test_recordings(self):
        for words, text, status, out, err in RECORDINGS:
            self.expect(words, run(words, text), status, out, err)
        for text, number in NO_RECORDINGS:
            for words in ["check", "--of", "host"], ["show", "--of", "host"]:
                self.expect(f"{words} of {text!r}", run(words, text), 2, "", f"script line {number}\n")

    def test_bytes(self):
        path = os.path.join(self.folder, "stream")
        for words, spelled, status, out, err in BYTES:
            data = bytes.fromhex(spelled)
            with open(path, "wb") as file:
                file.write(data)
            for given, done in (" a pipe", piped(words, data)), (" a file", piped([*words, path], b"")):
                self.expect(f"{words} of{given}", done, status, out, err)

    def test_made(self):
        for words, text, status, spelled, err in MADE:
            done = subprocess.run([PROGRAM, *words], input=text.encode(), capture_output=True, timeout=300)
            found = subprocess.CompletedProcess(words, done.returncode, done.stdout.hex(), done.stderr.decode())
            self.expect(words, found, status, bytes.fromhex(spelled).hex(), err)

    def test_unread(self):
        """An input that can't be read, before all else or in the middle, and an output that can't be written."""
        for words in ["check", "--raw"], ["show", "--raw"], ["check", "--of", "host"], ["make", "--raw"]:
            descriptor = os.open(self.folder, os.O_RDONLY)
            self.expect(f"{words} from a folder", run(words, stdin=descriptor), 2, "", "cannot read\n")
            os.close(descriptor)
            for file, why in (self.folder, "is a folder"), ("no such file", "no such file"):
                fault = f"cannot read: {file}: {why}\n" if words[0] == "make" else "cannot read\n"
                self.expect(f"{words} {file}", run([*words, file]), 2, "", fault)
            done = run(words, preexec_fn=lambda: os.close(0))
            self.expect(f"{words} without standard input", done, 2, "", "cannot read\n")
            with open("/dev/full", "w") as full:
                done = run(words, HELLO_TEXT if words[0] == "make" else "", stdout=full)
            self.expect(f"{words} into a full device", done, 2, "", "cannot write\n")
        for data in b"", b"\0\0", b"\0":
            for word in "check", "show":
                done = piped([word, "--raw"], data, preexec_fn=lambda: os.close(1))
                self.expect(f"{word} of {data} without standard output", done, 2, "", "cannot write\n")

    def test_long_streams(self):
        """A pipe of 100 MB, of which nothing is held: accepted, truncated, refused in its last piece, and at once."""
        count = 100_000_000 // (64 * len(LONG))
        for name, end in ("accepted", b""), ("truncated", LONG[:7]), ("refused", b"\0\0"):
            process = subprocess.Popen([PROGRAM, "check", "--raw"], stdin=subprocess.PIPE, stdout=subprocess.PIPE,
                                       stderr=subprocess.PIPE, preexec_fn=limit)
            began, pieces = time.monotonic(), 0
            while pieces < count and time.monotonic() - began < SECONDS:
                process.stdin.write(LONG * 64)
                pieces += 1
            process.stdin.write(end)
            process.stdin.flush()
            memory = most_memory(process)
            out, err = process.communicate(timeout=300)
            length = pieces * 64 * len(LONG)
            wanted = {
                "accepted": (0, f"accepted: {pieces * 64} records, 0 commands, {length} bytes\n"),
                "truncated": (1, f"truncated at {length + 7}\n"),
                "refused": (1, f"refused at {length + 1}: reason 10 LengthBelowHeader\n"),
            }[name]
            found = (process.returncode, out.decode())
            self.count(f"{length} bytes of a pipe, {name}: {found} {err}", (*found, err) == (*wanted, b""))
            self.count(f"{length} bytes of a pipe, {name}: {memory} KiB", memory < 8 << 10)

    def test_shown_early(self):
        """The first lines come though the pipe stays open; of 100 MB nothing is held but a record."""
        words, pipe = [PROGRAM, "show", "--raw"], subprocess.PIPE
        process = subprocess.Popen(words, stdin=pipe, stdout=pipe, preexec_fn=limit)
        process.stdin.write(LONG * 16)
        process.stdin.flush()
        line = process.stdout.readline().decode()
        self.count(f"an open pipe: {line}", line == "at 1771 record flags 0000 opcode 2\n")
        process.stdin.close()
        rest = process.stdout.read()
        self.count(f"the rest: {rest[-200:]}", rest.count(b"\nat ") == 15 and process.wait(timeout=300) == 0)
        process.stdout.close()
        process = subprocess.Popen(words, stdin=pipe, stdout=subprocess.DEVNULL, stderr=pipe, preexec_fn=limit)
        for _ in range(100_000_000 // (64 * len(LONG))):
            process.stdin.write(LONG * 64)
        process.stdin.flush()
        memory = most_memory(process)
        _, err = process.communicate(timeout=300)
        self.count(f"100 MB of a pipe: {process.returncode}, {err}", process.returncode == 0 and err == b"")
        self.count(f"100 MB of a pipe: {memory} KiB", memory < 8 << 10)

    def test_refused_early(self):
        """A refused byte is told though the pipe stays open."""
        refused = "refused at 13: reason 10 LengthBelowHeader\n"
        for word, lines in ("check", refused), ("show", "at 11 record flags 0000 opcode 1\n" + refused):
            process = subprocess.Popen([PROGRAM, word, "--raw"], stdin=subprocess.PIPE, stdout=subprocess.PIPE)
            process.stdin.write(bytes.fromhex(INVITE) + b"\0\0")
            process.stdin.flush()
            found = process.stdout.read().decode()
            self.count(f"{word} of an open pipe: {found}", found == lines)
            process.stdin.close()
            self.count(f"{word} of an open pipe", process.wait(timeout=300) == 1)
            process.stdout.close()
