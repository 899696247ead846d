"""Each word of a command line, with a status, standard output and standard error."""
import os

from program.runs import Runs, files, run
from program.texts import (
    ANSWER, ANSWER_LINE, ANSWER_LINES, ANSWER_MADE, BOB, BOB_COLORED, BOB_LINES, BOB_SCREEN, COLORS, COLORS_COLORED,
    COLORS_PLAIN, EMPTY_SCREEN, HELLO, HELLO_LINES, HELLO_MADE, HELLO_TEXT, INVITE, INVITE_LINE, MANY,
    MANY_LINE, QUERY, QUERY_LINE, SHORT, SHORT_LINE, TOLD, TOLD_LINE, TOLD_LINES, TOLD_MADE,
)

# The words, the standard input, and what is wanted: the exit status, standard output, and a line on standard
# error. A word that begins with `@` stands for the file of that text; None stands for any text of some length.
RUNS = [
    # the three statuses
    (["check"], INVITE, 0, INVITE_LINE, ""),
    (["check"], QUERY, 1, QUERY_LINE, ""),
    (["check"], SHORT, 1, SHORT_LINE, ""),
    (["check"], "", 0, "accepted: 0 records, 0 commands, 0 bytes\n", ""),
    (["check"], "0g", 2, "", "not hex\n"),
    (["check"], "000", 2, "", "not hex\n"),
    (["check"], "00\x0b00", 2, "", "not hex\n"),
    (["check"], " f f\tF\r\n1\n", 0, "accepted: 0 records, 1 commands, 2 bytes\n", ""),
    (["show"], HELLO, 0, HELLO_LINES, ""),
    (["show"], QUERY, 1, QUERY_LINE, ""),
    (["show"], SHORT, 1, SHORT_LINE, ""),
    (["show"], "", 0, EMPTY_SCREEN, ""),
    (["show", "--answers"], "FF F1 FF", 1, "at 1 telnet NOP\ntruncated at 3\n", ""),
    (["show"], "0g", 2, "", "not hex\n"),
    (["make"], HELLO_LINES, 0, HELLO_MADE, ""),
    (["make"], HELLO_TEXT, 0, HELLO_MADE, ""),
    (["make"], "", 0, "", ""),
    (["make"], HELLO_TEXT + "nonsense\n", 2, "", "script line 6: unknown word `nonsense`\n"),
    (["play"], BOB, 0, BOB_LINES, ""),
    (["play"], "", 0, "", ""),
    (["play"], "settle\nsettl\n", 2, "", "script line 2\n"),
    # a named file, and all of standard input
    (["check", "@" + INVITE], QUERY, 0, INVITE_LINE, ""),
    (["show", "@" + HELLO], QUERY, 0, HELLO_LINES, ""),
    (["check"], MANY, 0, MANY_LINE, ""),
    (["check", "@" + MANY], "", 0, MANY_LINE, ""),
    (["check", "no such file"], INVITE, 2, "", "cannot read\n"),
    (["check", "."], INVITE, 2, "", "cannot read\n"),
    (["check", "--", "--answers"], INVITE, 2, "", "cannot read\n"),
    (["show", "no such file"], INVITE, 2, "", "cannot read\n"),
    (["make", "@" + HELLO_TEXT], "nonsense", 0, HELLO_MADE, ""),
    (["make", "no such file"], HELLO_TEXT, 2, "", "cannot read: no such file: no such file\n"),
    (["play", "@" + BOB], "settl\n", 0, BOB_LINES, ""),
    (["play", "no such file"], BOB, 2, "", "cannot read\n"),
    # each word of the command line
    (["check", "--cut", "1"], INVITE, 0, INVITE_LINE, ""),
    (["check", "--cut=65535", "@" + MANY], "", 0, MANY_LINE, ""),
    (["check", "--cut", "7"], MANY, 0, MANY_LINE, ""),
    (["check", "--answers"], ANSWER, 0, ANSWER_LINE, ""),
    (["check", "--answers", "--cut", "1", "@" + ANSWER], "", 0, ANSWER_LINE, ""),
    (["check"], ANSWER, 1, "refused at 10: reason 20 NoEscape\n", ""),
    (["check", "--answers"], HELLO, 1, "refused at 12: reason 43 BadAid\n", ""),
    (["show", "--answers"], ANSWER, 0, ANSWER_LINES, ""),
    (["show", "--answers"], HELLO, 1, "refused at 12: reason 43 BadAid\n", ""),
    (["show", "--answers"], "", 0, "", ""),
    (["show", "--answers"], "FFF1 000A12A0000004000001FFEF FFEF", 1,
     "at 1 telnet NOP\nat 13 record flags 0000 opcode 1\nrefused at 15: reason 16 TooShort\n", ""),
    (["show", "--answers"], "FFF1FF", 1, "at 1 telnet NOP\ntruncated at 3\n", ""),
    (["show"], "FFF1", 0, "at 1 telnet NOP\n" + EMPTY_SCREEN, ""),
    (["make", "--answers"], ANSWER_LINES, 0, ANSWER_MADE, ""),
    (["make", "--answers", "@" + ANSWER_LINES], "nonsense", 0, ANSWER_MADE, ""),
    (["make", "--answers"], ANSWER_LINES + "  SBA 1 1\n", 2, "", f"script line {ANSWER_LINES.count(chr(10)) + 1}: unknown word `SBA`, it is read with --extended\n"),
    (["make", "--answers"], HELLO_TEXT, 2, "", "script line 2: unknown word `CLEAR-UNIT`, it is read with --extended\n"),
    (["make"], ANSWER_LINES, 2, "", "script line 2: unknown word `HEAD`\n"),
    # what a live host's station tells at once
    (["check", "--answers", "--extended"], TOLD, 0, TOLD_LINE, ""),
    (["check", "--extended", "--cut", "1", "--answers", "@" + TOLD], QUERY, 0, TOLD_LINE, ""),
    (["check", "--answers"], TOLD, 1, "refused at 12: reason 43 BadAid\n", ""),
    (["check", "--answers", "--extended"], ANSWER, 0, ANSWER_LINE, ""),
    (["check", "--answers", "--extended"], HELLO, 1, "refused at 12: reason 43 BadAid\n", ""),
    (["show", "--answers", "--extended"], TOLD, 0, TOLD_LINES, ""),
    (["show", "--answers", "--extended", "--color", "@" + TOLD], "", 0, TOLD_LINES, ""),
    (["show", "--answers", "--extended"], ANSWER, 0, ANSWER_LINES, ""),
    (["show", "--answers", "--extended"], "", 0, "", ""),
    (["make", "--answers", "--extended"], TOLD_LINES, 0, TOLD_MADE, ""),
    (["make", "--extended", "--answers", "@" + TOLD_LINES], "nonsense", 0, TOLD_MADE, ""),
    (["make", "--answers", "--extended"], ANSWER_LINES, 0, ANSWER_MADE, ""),
    (["make", "--answers"], TOLD_LINES, 2, "", "script line 2: unknown word `IMMEDIATE`, it is read with --extended\n"),
    (["make", "--extended"], TOLD_LINES, 2, "", "script line 2: unknown word `IMMEDIATE`\n"),
    (["show"], COLORS, 0, COLORS_PLAIN, ""),
    (["show", "--color"], COLORS, 0, COLORS_COLORED, ""),
    (["show", "--color", "@" + COLORS], "", 0, COLORS_COLORED, ""),
    (["show", "--color"], "", 0, EMPTY_SCREEN, ""),
    (["show", "--color"], QUERY, 1, QUERY_LINE, ""),
    (["show", "--answers", "--color"], ANSWER, 0, ANSWER_LINES, ""),
    (["play", "--screen"], BOB, 0, BOB_LINES + BOB_SCREEN, ""),
    (["play", "--screen", "--color"], BOB, 0, BOB_LINES + BOB_COLORED, ""),
    (["play", "--color"], BOB, 0, BOB_LINES, ""),
    (["play", "--tcp", "--screen", "--color"], BOB, 0, BOB_LINES + BOB_COLORED, ""),
    (["play", "--screen"], "", 0, EMPTY_SCREEN, ""),
    (["play", "--tcp"], BOB, 0, BOB_LINES, ""),
    (["play", "--tcp", "--screen", "@" + BOB], "", 0, BOB_LINES + BOB_SCREEN, ""),
    (["play", "--tcp"], "settl\n", 2, "", "script line 1\n"),
    (["--help"], "", 0, None, ""),
    (["check", "--help"], "", 0, None, ""),
    (["show", "--help"], "", 0, None, ""),
    (["make", "--help"], "", 0, None, ""),
    (["play", "--help"], "", 0, None, ""),
    (["help"], "", 0, None, ""),
    (["--version"], "", 0, "t5250 4.0.0\ncommit not recorded, as it was built in a clone\n", ""),
    # wrong command lines
    ([], INVITE, 2, "", None),
    (["other"], INVITE, 2, "", None),
    (["check", "--cut", "0"], INVITE, 2, "", None),
    (["check", "--cut", "65536"], INVITE, 2, "", None),
    (["check", "--cut"], INVITE, 2, "", None),
    (["check", "--other"], INVITE, 2, "", None),
    (["check", "--color"], INVITE, 2, "", None),
    (["make", "--color"], HELLO_TEXT, 2, "", None),
    (["play", "--cut", "1"], BOB, 2, "", None),
    (["play", "--answers"], BOB, 2, "", None),
    (["play", "a", "b"], BOB, 2, "", None),
    (["make", "a", "b"], HELLO_TEXT, 2, "", None),
    (["check", "--cut", "one"], INVITE, 2, "", None),
    (["check", "--cut", "1", "--cut", "2"], INVITE, 2, "", None),
    (["check", "--answers", "--answers"], INVITE, 2, "", None),
    (["check", "--answers=1"], INVITE, 2, "", None),
    (["check", "--extended", "--extended"], INVITE, 2, "", None),
    (["show", "--cut", "1"], INVITE, 2, "", None),
    (["show", "a", "b"], INVITE, 2, "", None),
    (["play", "--screen", "--screen"], BOB, 2, "", None),
    (["play", "--tcp=1"], BOB, 2, "", None),
    (["play", "--extended"], BOB, 2, "", None),
    (["make", "--answers", "--answers"], HELLO_TEXT, 2, "", None),
]


class TestWord(Runs):
    def test_words(self):
        for words, text, status, out, err in RUNS:
            done = run(list(files(words, self.folder)), text)
            self.expect([word[:20] for word in words], done, status, out, err)

    def test_names_with_blanks(self):
        """The file that is opened is the one that the word names, with its blanks."""
        for name, text, line in (" a b ", INVITE, INVITE_LINE), ("a b", QUERY, QUERY_LINE), (" a b", SHORT, SHORT_LINE):
            with open(os.path.join(self.folder, name), "w") as file:
                file.write(text)
            self.expect(f"a file {name!r}", run(["check", name], cwd=self.folder), 0 if text == INVITE else 1, line, "")
        for name in "a b ", "a", "b":
            self.expect(f"no file {name!r}", run(["check", name], cwd=self.folder), 2, "", "cannot read\n")

    def test_names_not_utf_8(self):
        """A file's name that isn't UTF-8 is a wrong word, also where there is such a file."""
        path = os.path.join(os.fsencode(self.folder), b"\xff.hex")
        with open(path, "w") as file:
            file.write(INVITE)
        for words in [b"check", path], [b"show", path], [b"play", path], [b"check", b"--cut", b"\xff"], [b"\xff"]:
            self.expect(words, run(words, INVITE), 2, "", None)
