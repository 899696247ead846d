"""Bad lines of each kind of script, and why each is bad: in a script, on standard input, and in a session that is driven."""
import subprocess
import unittest

from live.lines import at_host, served, settled_connect, settled_serve
from live.program import Run, as_bytes
from peers import Side, expect, negotiate_as_host
from records import record

APART = "two blanks in front"
MISPLACED = "it can't stand there: `%s`"
ORDER = "an order's code: `%s`"
NO_BODY = "no body, refused at %d, %s"
NEAR = "unknown word `%s`, did you mean `%s`?"
WITH_ANY = "unknown word `%s`, it is read with --any"
WITH_EXTENDED = "unknown word `%s`, it is read with --extended"

# What is bad in the lines of both ends.
EITHER = [
    ("wait", NEAR % ("wait", "await")),
    ("Await", NEAR % ("Await", "await")),
    ("aWIAT 1", NEAR % ("aWIAT", "await")),
    ("wat", "unknown word `wat`"),
    ("aw", "unknown word `aw`"),
    (" await", "a blank in front"),
    ("await ", "a blank at the end"),
    ("await  Enter", "two blanks between words"),
    ("await\tEnter", "a tab"),
    (b"await \xff", "not UTF-8"),
    (b"\xff", "not UTF-8"),
    ("x" * 100, "unknown word `%s`" % ("x" * 60)),
    ("\u00fc" * 70, "unknown word `%s`" % ("\u00fc" * 60)),
    ("a\x1bb\\", "unknown word `a\\1Bb\\5C`"),
]

STATION = [
    ("  WRITE 00 08", APART),
    ("await records", "unexpected word `records`"),
    ("await text", "a word is missing after `text`"),
    ("await text ", "a blank at the end"),
    ("await at 1 2", "a word is missing after `2`"),
    ("await at 25 1 A", "not from 1 to 24: `25`"),
    ("await quiet", "a word is missing after `quiet`"),
    ("await quiet 0", "not from 1 to 3600000: `0`"),
    ("await quiet 3600001", "not from 1 to 3600000: `3600001`"),
    ("await record now", "one word too many: `now`"),
    ("key", "a word is missing after `key`"),
    ("key enter", "unknown key `enter`"),
    ("key F25", "unknown key `F25`"),
    ("key Enter ", "a blank at the end"),
    ("type", "a word is missing after `type`"),
    ("type\tA", "a tab"),
    ("cursor 25 1", "not from 1 to 24: `25`"),
    ("cursor 1 81", "not from 1 to 80: `81`"),
    ("cursor 0 1", "not from 1 to 24: `0`"),
    ("cursor 1", "a word is missing after `1`"),
    ("cursor x 1", "no number: `x`"),
    ("cursor +1 1", "no number: `+1`"),
    ("cursor 1 2 3", "one word too many: `3`"),
    ("cursor 1 2 ", "a blank at the end"),
    ("cursor 1  2", "two blanks between words"),
    ("cursor 1\t2", "a tab"),
    ("field 257 A", "not from 1 to 256: `257`"),
    ("field A", "no number: `A`"),
    ("show x", "no number: `x`"),
    ("show 1 1 1921", "not from 1 to 1920: `1921`"),
    ("cells 25", "not from 1 to 24: `25`"),
    ("fields now", "one word too many: `now`"),
    ("status ", "a blank at the end"),
    ("send 3", "unknown word `send`"),
    ("curser 1 1", NEAR % ("curser", "cursor")),
    ("newlines", NEAR % ("newlines", "newline")),
    ("stauts", NEAR % ("stauts", "status")),
    ("feilds", NEAR % ("feilds", "fields")),
    ("shwo", NEAR % ("shwo", "show")),
    ("shwoo", "unknown word `shwoo`"),
    ("note", "a word is missing after `note`"),
]

BOTH_HOSTS = [
    ("send", "a word is missing after `send`"),
    ("send ", "a blank at the end"),
    ("send x", "no number: `x`"),
    ("send 256", "not from 0 to 255: `256`"),
    ("send 7", "unexpected word `7`"),
    ("send 3 0", "no hex: `0`"),
    ("send 3 0G", "no hex: `0G`"),
    ("send 3 ", "a blank at the end"),
    ("send 3 04 40", "one word too many: `40`"),
    ("await enter", "unknown key `enter`"),
    ("type A", "unknown word `type`"),
    ("Pause 1", NEAR % ("Pause", "pause")),
    ("telent DO 0", NEAR % ("telent", "telnet")),
    ("sned 3", NEAR % ("sned", "send")),
    ("raw", "a word is missing after `raw`"),
    ("raw 0", "no hex: `0`"),
    ("telnet", "a word is missing after `telnet`"),
    ("telnet MAY 39", "unexpected word `MAY`"),
    ("telnet DO 256", "not from 0 to 255: `256`"),
    ("pause 0", "not from 1 to 3600000: `0`"),
    ("close now", "one word too many: `now`"),
    ("send 3 0440\n  CLEAR-UNIT", MISPLACED % "CLEAR-UNIT"),
    ("  WRITE 00 08", MISPLACED % "WRITE"),
    ("  foo", "unknown word `foo`"),
]

# Lines after a `send 3`, of which the last is bad.
BLOCKS = [
    ("  TEXT A", MISPLACED % "TEXT"),
    ("  SBA 1 1", MISPLACED % "SBA"),
    ("  WRITE", "a word is missing after `WRITE`"),
    ("  WRITE 00", "a word is missing after `00`"),
    ("  WRITE 0 08", "not 2 hex digits: `0`"),
    ("  WRITE 00 0808", "not 2 hex digits: `0808`"),
    ("  WRITES 00 08", NEAR % ("WRITES", "WRITE")),
    ("  write 00 08", NEAR % ("write", "WRITE")),
    ("  CLEARUNIT", NEAR % ("CLEARUNIT", "CLEAR-UNIT")),
    ("  WRITE 00 08\n  RAS 1 1 40", NEAR % ("RAS", "RA")),
    ("  WRITE 00 08\n  ra 1 1 40", NEAR % ("ra", "RA")),
    ("  WRITE 00 08\n  RS 1 1 40", "unknown word `RS`"),
    ("  WRITE 00 08\n  SBA 25 1", "not from 1 to 24: `25`"),
    ("  WRITE 00 08\n  TEXT \u20ac", "no byte in code page 037 for `\u20ac`"),
    ("  WRITE 00 08\n  SF 20", "a word is missing after `20`"),
    ("  WRITE 00 08\n  SF 4000 20 x", "no number: `x`"),
    ("  WRITE 00 08\n  SF 400 20 6", "not 4 hex digits: `400`"),
    ("  WRITE 00 08\n  SF 4000 FF 3", "no attribute, 20 to 3F: `FF`"),
    ("  WRITE 00 08\n  SF 1F 3", "no attribute, 20 to 3F: `1F`"),
    ("  WRITE 00 08\n  RA 1 1 04", ORDER % "04"),
    ("  WRITE 00 08\n  PUT 04", ORDER % "04"),
    ("  WRITE 00 08\n  PUT C11dC2", ORDER % "1d"),
    ("  WRITE 00 08\n  PUT C1C", "no hex: `C1C`"),
    ("  READ-INPUT 00 08\n  SBA 1 1", MISPLACED % "SBA"),
    ("  WRITE 00 08\n  PUT", "a word is missing after `PUT`"),
    ("  WRITE 00 08\n   PUT C1", "a blank in front"),
    (b"  WRITE 00 08\n  TEXT \xff", "not UTF-8"),
]

HOST = [
    ("send 10", "unexpected word `10`"),
    ("send 3 0440F3", NO_BODY % (2, "20: a command must begin here, but the byte isn't its escape (04)")),
    ("send 3 0400", NO_BODY % (1, "21: the command after the escape (04) isn't known")),
    ("send 3 0411", NO_BODY % (2, "44: a record ends in the middle of a command or an order")),
    ("cancel ", "a blank at the end"),
    ("cancle", NEAR % ("cancle", "cancel")),
    ("send 3\n  SAVE-SCREN", "unknown word `SAVE-SCREN`"),
    ("send 3\n  SAVE-SCREEN", WITH_ANY % "SAVE-SCREEN"),
    ("send 3\n  CLEAR-UNIT\n  ROLL 05 1 24", WITH_ANY % "ROLL"),
    ("send 3\n  SAVED", "unknown word `SAVED`"),
    ("show 1 1 1", "one word too many: `1`"),
]

ANY = [
    ("await answer", "unknown key `answer`"),
    ("cancel", "unknown word `cancel`"),
    ("show", "unknown word `show`"),
    ("cancle", "unknown word `cancle`"),
    ("send 3\n  SAVE-SCREN", NEAR % ("SAVE-SCREN", "SAVE-SCREEN")),
]


def number_of(text):
    return as_bytes(text).count(b"\n") + 1


def in_scripts(words, rows):
    for text, cause in rows:
        wanted = "script line %d: %s\n" % (1 + number_of(text), cause)
        Run(words, script=b"# first\n" + as_bytes(text) + b"\n").end(2, "", wanted)


def station_rows(extended=False):
    reset = [] if extended else [("key Reset", "unknown key `Reset`")]
    return EITHER + STATION + reset


def host_rows(only):
    return EITHER + BOTH_HOSTS + only + [(b"send 3\n" + as_bytes(text), cause) for text, cause in BLOCKS]


def told(run, text):
    run.process.stdin.write(as_bytes(text) + b"\n")
    run.process.stdin.flush()
    return run.line() + run.line()


ITEMS = [
    ("nonsense", "unknown word `nonsense`"),
    ("recrod opcode 1", NEAR % ("recrod", "record")),
    ("await", "unknown word `await`"),
    ("record", "a word is missing after `record`"),
    ("record opcode", "a word is missing after `opcode`"),
    ("record opcode x", "no number: `x`"),
    ("record opcode 256", "not from 0 to 255: `256`"),
    ("record flags 0 opcode 1", "not 4 hex digits: `0`"),
    ("record flags 0000 code 1", "unexpected word `code`"),
    ("record opcodes 1", "unexpected word `opcodes`"),
    ("telnet MAY 1", "unexpected word `MAY`"),
    ("  WRITE 00 08", MISPLACED % "WRITE"),
    ("record opcode 1\n  TEXT A", MISPLACED % "TEXT"),
    ("record opcode 1\n\n# none\n  WRITE 00 08\n  SBA 0 1", "not from 1 to 24: `0`"),
    ("record opcode 1\n# none\n  READ-MDT-ALTERNATE 00 00\n  SBA 1 81", "not from 1 to 80: `81`"),
    ("record opcode 1\n  WRITE 00 08\n# none\n  SBA 1 81", "not from 1 to 80: `81`"),
    ("record opcode 1\n  QUERY", WITH_EXTENDED % "QUERY"),
    ("record opcode 1\n  ROLL 05 1 24", WITH_EXTENDED % "ROLL"),
    ("record opcode 1\n  READ-IMMEDIATE-ALTERNATE", WITH_EXTENDED % "READ-IMMEDIATE-ALTERNATE"),
    ("record opcode 1\n  query", "unknown word `query`"),
    ("record opcode 1\n  SAVED", "unknown word `SAVED`"),
    ("QUERY", "unknown word `QUERY`"),
    ("record opcode 1\n  HAED", "unknown word `HAED`"),
    ("record opcode 1\n  TXT A", NEAR % ("TXT", "TEXT")),
    ("record opcode 1\ntelnet NOP\n  CLEAR-UNIT", MISPLACED % "CLEAR-UNIT"),
]

ANSWERS = [
    ("record opcode 0\n  AT 1 1", MISPLACED % "AT"),
    ("record opcode 0\n  HEAD 1 1", "a word is missing after `1`"),
    ("record opcode 0\n  HEAD 1 1 00", "no key: `00`"),
    ("record opcode 0\n  SAVED", WITH_EXTENDED % "SAVED"),
    ("record opcode 0\n  SCREEN 1 1", WITH_EXTENDED % "SCREEN"),
    ("record opcode 0\n  IMMEDIATE 1 1", WITH_EXTENDED % "IMMEDIATE"),
    ("record opcode 0\n  QUERY-REPLY 00", WITH_EXTENDED % "QUERY-REPLY"),
    ("record opcode 0\n  SBA 1 1", WITH_EXTENDED % "SBA"),
    ("record opcode 0\n  HAED 1 1 F1", NEAR % ("HAED", "HEAD")),
    ("record opcode 0\n  WRITES", "unknown word `WRITES`"),
]


def made(words, text):
    run = subprocess.run([Run.program, "make"] + words, input=as_bytes(text) + b"\n", capture_output=True)
    return run.returncode, run.stdout, run.stderr.decode()


class TestBadLines(unittest.TestCase):
    def test_bad_lines_of_scripts_at_a_station(self):
        in_scripts(["connect", "--strict", "--wait", "1", "127.0.0.1:1"], station_rows())
        in_scripts(["connect", "--wait", "1", "127.0.0.1:1"], station_rows(True))

    def test_bad_lines_of_scripts_at_a_host(self):
        in_scripts(["serve", "--wait", "1", "127.0.0.1:0"], host_rows(HOST))
        in_scripts(["serve", "--any", "--wait", "1", "127.0.0.1:0"], host_rows(ANY))

    def test_bad_lines_of_standard_input(self):
        for text, cause in station_rows()[:6]:
            at_host(negotiate_as_host, ["--wait", "60"], b"\n" + as_bytes(text) + b"\n", 2, "",
                    "script line %d: %s\n" % (1 + number_of(text), cause), host_ends=False)
        for text, cause in host_rows(HOST)[-8:]:
            serve, side = served(b"await\n" + as_bytes(text) + b"\n")
            serve.end(2, None, "script line %d: %s\n" % (1 + number_of(text), cause))
            side.close()

    def test_bad_lines_of_a_driven_station(self):
        connect, host = settled_connect(Side.take_end, 60)
        for text, cause in station_rows(True):
            expect(told(connect, text), "bad line: %s\nok\n" % cause, repr(text))
        # The session goes on.
        expect(connect.asked("show 6 2 4").count("\n"), 1, "show")
        connect.end(1, "")
        host.end()

    def test_bad_lines_of_a_driven_host(self):
        serve, side = settled_serve(60)
        for text, cause in EITHER + host_rows(HOST)[-len(BLOCKS):]:
            text = as_bytes(text)
            if text.startswith(b"send 3\n"):
                text += b"\nend"
            expect(told(serve, text), "bad line: %s\nok\n" % cause, repr(text))
        # Nothing was sent, and what is good is.
        expect(serve.asked("send 3 0440"), "", "send")
        side.take(record("0440"))
        side.close()
        serve.end(1, "")

    def test_the_end_of_a_send(self):
        serve, side = settled_serve(60)
        # `end` closes it at once, an empty line does, and one that doesn't begin with two blanks.
        for end in ("end", "", "# none"):
            serve.tell("send 3")
            serve.tell("  CLEAR-UNIT")
            serve.tell(end)
            expect(serve.line(), "ok\n", "send")
            side.take(record("0440"))
        # In any other place it does nothing.
        serve.tell("end")
        expect(serve.asked("send 3 0440"), "", "send")
        side.take(record("0440"))
        side.close()
        serve.end(0, "")

    def test_bad_lines_of_items(self):
        told = [("record opcode 0\n  IMEDIATE 1 1", NEAR % ("IMEDIATE", "IMMEDIATE"))]
        for words, rows in (([], ITEMS), (["--answers"], ANSWERS), (["--answers", "--extended"], told)):
            for text, cause in rows:
                wanted = "script line %d: %s\n" % (number_of(text), cause)
                expect(made(words, text), (2, b"", wanted), repr(text))

    def test_bad_lines_of_play(self):
        run = subprocess.run([Run.program, "play"], input=b"settle\nwait\n", capture_output=True)
        expect((run.returncode, run.stdout, run.stderr), (2, b"", b"script line 2\n"), "play")
