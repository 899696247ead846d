"""What `show --all`, `show --json` and `check --all` print of streams of which records are refused, and go on after."""
import json
import os
import re

from program.runs import Runs, run, spelled
from program.texts import (ANSWER, ANSWER_LINE, ANSWER_LINES, HELLO, HELLO_LINES, INVITE, INVITE_LINE, QUERY, QUERY_LINE,
                           SHORT, SHORT_LINE, TOLD, TOLD_LINES)

REFUSED = os.path.join(os.path.dirname(__file__), "../../examples/refused.recording")
INVITED = "at {} record flags 0000 opcode 1\n"
NEW_SCREEN = "screen\ncursor 1 1, locked, message off, blink off, fields 0\n"
FREE_SCREEN = NEW_SCREEN.replace("locked", "unlocked")
# A record that the screen refuses, and its lines.
PAST = spelled("04110000111850C1C2")
PAST_LINES = "at {0} record flags 0000 opcode 3\n  WRITE 00 00\n  SBA 24 80\n  PUT C1C2\nrefused at {0}: reason 51 PastEnd\n"
HELLO_SCREEN = HELLO_LINES[HELLO_LINES.index("screen"):]
HELLO_ITEM = HELLO_LINES[:HELLO_LINES.index("screen")]

# The words behind `show --all`, a text, the status, and what is printed.
SHOWN = [
    # Nothing is refused: as without --all.
    ([], HELLO, 0, HELLO_LINES),
    ([], "", 0, NEW_SCREEN),
    (["--answers"], ANSWER, 0, ANSWER_LINES),
    (["--answers", "--extended"], TOLD, 0, TOLD_LINES),
    # A byte is refused: what is left of its record is passed over.
    ([], QUERY + INVITE, 1, QUERY_LINE + INVITED.format(30) + NEW_SCREEN),
    (["--extended"], QUERY + INVITE, 0, "at 18 record flags 0000 opcode 3\n  QUERY\n" + INVITED.format(30) + NEW_SCREEN),
    # In that Telnet commands are read, and an FF with a byte that makes no command is refused.
    ([], "0009FFFFFFF1FF00FFEF" + INVITE, 1,
     "refused at 1: reason 10 LengthBelowHeader\nat 5 telnet NOP\nrefused at 7: reason 1 BadCommand\n"
     + INVITED.format(21) + NEW_SCREEN),
    # An EOR that is refused ends its record.
    ([], "000B12A0000004000003FFEF" + INVITE, 1, "refused at 11: reason 16 TooShort\n" + INVITED.format(23) + NEW_SCREEN),
    # A record that the screen refuses leaves nothing on it; those round it are carried out.
    ([], HELLO + PAST + INVITE, 1, HELLO_ITEM + PAST_LINES.format(43) + INVITED.format(55)
     + HELLO_SCREEN),
    ([], PAST + HELLO, 1, PAST_LINES.format(20) + HELLO_ITEM.replace("22", "43") + HELLO_SCREEN),
    (["--extended"], PAST + HELLO, 1, PAST_LINES.format(20) + HELLO_ITEM.replace("22", "43") + HELLO_SCREEN),
    # It ends too early: inside a record, inside a token, and inside a record that is passed over.
    ([], HELLO + SHORT, 1, HELLO_ITEM + HELLO_SCREEN + "truncated at 26\n"),
    ([], INVITE + "FF", 1, INVITED.format(11) + NEW_SCREEN + "truncated at 13\n"),
    ([], QUERY[:-6], 1, QUERY_LINE + NEW_SCREEN + "truncated at 17\n"),
    (["--answers"], ANSWER + SHORT, 1, ANSWER_LINES + "truncated at 24\n"),
    # A station's records aren't carried out, and one of the other end's is refused.
    (["--answers"], HELLO + ANSWER, 1, "refused at 12: reason 43 BadAid\n" + ANSWER_LINES.replace("20", "43")),
]

# The words behind `check --all`, a text, the status, and what is printed.
CHECKED = [
    ([], INVITE, 0, INVITE_LINE),
    ([], "", 0, "accepted: 0 records, 0 commands, 0 bytes\n"),
    (["--answers"], ANSWER, 0, ANSWER_LINE),
    ([], QUERY + "FFF1" + INVITE, 1, QUERY_LINE + "1 records, 1 commands, 33 bytes, 1 refused\n"),
    ([], QUERY * 2, 1, QUERY_LINE + "refused at 30: reason 30 StructuredField\n0 records, 0 commands, 38 bytes, 2 refused\n"),
    (["--extended"], QUERY * 2, 0, "accepted: 2 records, 0 commands, 38 bytes\n"),
    # No record is carried out, so the screen refuses none.
    ([], PAST, 0, "accepted: 1 records, 0 commands, 21 bytes\n"),
    # Where no record is open all up to the next EOR is passed over.
    ([], "FFF0" + INVITE * 2, 1, "refused at 1: reason 2 StraySe\n1 records, 0 commands, 26 bytes, 1 refused\n"),
    # It ends too early.
    ([], SHORT, 1, SHORT_LINE),
    ([], QUERY + SHORT, 1, QUERY_LINE + "truncated at 22\n"),
    ([], QUERY[:-6], 1, QUERY_LINE + "truncated at 17\n"),
    # The size of the pieces says nothing.
    (["--cut", "1"], QUERY + INVITE, 1, QUERY_LINE + "1 records, 0 commands, 31 bytes, 1 refused\n"),
]

# What reasons say, by their numbers.
SENTENCES = {
    1: "no Telnet command has the byte that stands after FF",
    10: "a record's length is less than its ten header bytes",
    16: "a record is shorter than its header says",
    30: "structured fields aren't part of the profile",
    43: "no key has the byte that tells which key was pressed",
    51: "a write goes past the last cell of the screen",
}

# The words behind `show --json`, a text, the status, and what is printed to the letter.
OBJECTS = [
    ([], "", 0, ""),
    ([], "FFFD18" + HELLO, 0, '{"at":2,"telnet":"DO 24"}\n'
     '{"at":25,"flags":"0000","opcode":2,"body":["CLEAR-UNIT","WRITE 00 08","SBA 1 2","PUT C8C9"]}\n'),
    ([], QUERY + INVITE, 1, '{"at":11,"refused":30,"name":"StructuredField","sentence":'
     '"30: structured fields aren\'t part of the profile"}\n{"at":30,"flags":"0000","opcode":1,"body":[]}\n'),
    (["--extended"], QUERY, 0, '{"at":18,"flags":"0000","opcode":3,"body":["QUERY"]}\n'),
    (["--answers"], ANSWER + SHORT, 1,
     '{"at":20,"flags":"0000","opcode":3,"body":["HEAD 6 56 F1","AT 6 53","BYTES C2D6C2"]}\n{"truncated":24}\n'),
    (["--answers", "--extended"], TOLD, 0,
     '{"at":19,"flags":"0000","opcode":3,"body":["IMMEDIATE 6 55","AT 6 53","BYTES C2D6"]}\n'),
    # The page is that of a screen, and there is none.
    (["--code-page", "273"], HELLO + "FF", 1,
     '{"at":22,"flags":"0000","opcode":2,"body":["CLEAR-UNIT","WRITE 00 08","SBA 1 2","PUT C8C9"]}\n{"truncated":24}\n'),
]


def objects(text):
    """The objects of JSON that say what the lines of `show --all` say, without those of a screen."""
    text = re.sub(r"^screen\n(?:.*\n)*?cursor .*\n", "", text, flags=re.M)
    for lines in re.findall(r"^\S.*\n(?:  .*\n)*", text, re.M):
        head, *body = (line.strip() for line in lines.splitlines())
        if refused := re.fullmatch(r"refused at (\d+): reason (\d+) (\w+)", head):
            place, number = (int(word) for word in refused.groups()[:2])
            yield {"at": place, "refused": number, "name": refused[3], "sentence": f"{number}: {SENTENCES[number]}"}
        elif truncated := re.fullmatch(r"truncated at (\d+)", head):
            yield {"truncated": int(truncated[1])}
        elif telnet := re.fullmatch(r"at (\d+) telnet (.*)", head):
            yield {"at": int(telnet[1]), "telnet": telnet[2]}
        else:
            place, flags, opcode = re.fullmatch(r"at (\d+) record flags (\w+) opcode (\d+)", head).groups()
            yield {"at": int(place), "flags": flags, "opcode": int(opcode), "body": body}


class TestAll(Runs):
    def each(self, command, rows):
        for more, text, status, written in rows:
            words = [*command, *more]
            name = f"{words} of {text}"
            self.expect(name, run(words, text), status, written, "")
            with open(os.path.join(self.folder, "raw"), "wb") as file:
                file.write(bytes.fromhex(text))
            self.expect(f"{name}, raw", run([*words, "--raw", file.name]), status, written, "")
            end = "station" if "--answers" in words else "host"
            self.expect(f"{name}, recorded", run([*words, "--of", end], f"0 {end} {text}".replace("\n", "")), status,
                        written, "")

    def test_shown(self):
        self.each(["show", "--all"], SHOWN)

    def test_checked(self):
        self.each(["check", "--all"], CHECKED)

    def test_objects(self):
        """With --json the items and refusals of `show --all` are objects, and so is the end of a stream that isn't whole."""
        self.each(["show", "--json"], OBJECTS)
        self.each(["show", "--all", "--json"], OBJECTS)
        for more, text, status, written in SHOWN:
            done = run(["show", "--json", *more], text)
            found = [json.loads(line) for line in done.stdout.splitlines()]
            self.count(f"show --json {more} of {text} told {done.stdout}",
                       (done.returncode, found) == (status, list(objects(written))))
        for words in ["--color"], ["--json"], ["--code-page", "1"]:
            self.expect(words, run(["show", "--json", *words], HELLO), 2, "", None)
        self.expect("check --json", run(["check", "--json"], HELLO), 2, "", None)

    def test_example(self):
        """A refused record in the middle of a recording, with a Telnet command in it."""
        lines = ("at 2 telnet DO 25\nat 18 record flags 0000 opcode 3\n  WRITE 00 08\n"
                 "refused at 30: reason 21 UnknownCommand\nat 32 telnet NOP\nat 48 record flags 0000 opcode 1\n")
        for more in [], ["--extended"]:
            self.expect(f"show {more}", run(["show", "--all", *more, "--of", "host", REFUSED]), 1, lines + FREE_SCREEN, "")
            self.expect(f"check {more}", run(["check", "--all", *more, "--of", "host", REFUSED]), 1,
                        "refused at 30: reason 21 UnknownCommand\n2 records, 2 commands, 49 bytes, 1 refused\n", "")
        self.expect("show --json", run(["show", "--json", "--of", "host", REFUSED]), 1,
                    '{"at":2,"telnet":"DO 25"}\n{"at":18,"flags":"0000","opcode":3,"body":["WRITE 00 08"]}\n'
                    '{"at":30,"refused":21,"name":"UnknownCommand","sentence":'
                    '"21: the command after the escape (04) isn\'t known"}\n'
                    '{"at":32,"telnet":"NOP"}\n{"at":48,"flags":"0000","opcode":1,"body":[]}\n', "")

    def test_files(self):
        """Each line stands after its file's name, and a file that can't be read ends the checks."""
        for name, text in ("a", INVITE), ("b c", QUERY + INVITE), ("d", SHORT), ("odd", "000"):
            with open(os.path.join(self.folder, name), "w") as file:
                file.write(text)
        lines = {"a": f"a: {INVITE_LINE}", "d": f"d: {SHORT_LINE}",
                 "b c": f"b c: {QUERY_LINE}b c: 1 records, 0 commands, 31 bytes, 1 refused\n"}
        for names, status in (["a", "a"], 0), (["a", "b c", "d"], 1), (["b c", "a"], 1), (["d", "a"], 1):
            self.files(names, status, "".join(lines[name] for name in names), "")
        for name, fault in ("odd", "not hex: odd"), ("none", "cannot read: none: no such file"):
            self.files(["b c", name, "a"], 2, lines["b c"], fault + "\n")
        self.files(["a", "a"], 2, "", "cannot write\n", preexec_fn=lambda: os.close(1))
        self.files(["b c"], 1, lines["b c"].replace("b c: ", ""), "")

    def files(self, names, status, out, err, **more):
        done = run(["check", "--all", *names], cwd=self.folder, **more)
        self.expect(f"check --all {names}", done, status, out, err)

    def test_faults(self):
        for words in ["show", "--all"], ["show", "--json"], ["check", "--all"]:
            self.expect(f"{words} of odd digits", run(words, "000"), 2, "", "not hex\n")
            self.expect(f"{words} without output", run(words, INVITE, preexec_fn=lambda: os.close(1)), 2, "",
                        "cannot write\n")
            with open("/dev/full", "w") as full:
                self.expect(f"{words} into a full device", run(words, QUERY + INVITE, stdout=full), 2, "",
                            "cannot write\n")
            reading, writing = os.pipe()
            os.close(reading)
            self.expect(f"{words} into a closed pipe", run(words, QUERY + INVITE, stdout=writing), 2, "", "cannot write\n")
            os.close(writing)
