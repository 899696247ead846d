"""What follows a line that is late, ended or refused: a session that stops, or goes on."""
import re
import time
import unittest

from live.lines import KINDS, READY, at_host, sending, served
from live.program import Run, timed
from live.screen_tests import FORM
from live.screens import SIGN_ON, SIGN_ON_FIELDS
from live.sessions_tests import begun, whole
from peers import Side
from records import record

# What a host does, a line after the first `await` at which something goes wrong there, and what it prints.
STATIONS = [(sending(SIGN_ON), "await record", "late\n"), (sending(SIGN_ON, closes=True), "await record", "ended\n"),
            (sending(SIGN_ON), "key Dup", "key refused DupNotAllowed\n"),
            (sending(SIGN_ON), "field 3 SECRET", "field refused NoSuchField\n"),
            (sending(SIGN_ON), "await text No such text", "late\n")]

# Scripts at a form, what they print with `ok`, and their status.
SCRIPTS = [
    ("--go-on", "# none\n\nnote A\n", "A\nok\n", 0),
    ("--go-on", "await record\nfields\n", "ok\nfield 6 53 10 4000\nok\n", 0),
    ("--go-on", "await\ntype A\nawait text A\nkey Dup\n", "ok\nok\nok\nkey refused DupNotAllowed (line 4)\nok\n", 1),
    ("--stop", "await record\nawait record\nnote A\n", "ok\nlate (line 2)\nok\n", 1),
    ("--stop", "await\nkey Dup\nkey Enter\n", "ok\nkey refused DupNotAllowed (line 2)\nok\n", 1),
]


def by_line(number, told):
    """What a line of this number in a file tells."""
    return told.replace("\n", " (line %d)\n" % number)


class TestStop(unittest.TestCase):
    def test_a_script_stops(self):
        """No key is pressed after such a line, and its status is 1."""
        for play, line, printed in STATIONS:
            for words in [], ["--stop"]:
                text = "await\n%s\nfields\ntype SECRET\nkey Enter\n" % line
                at_host(play, ["--wait", "3", *words], None, 1, by_line(2, printed), script=text)
        at_host(sending(SIGN_ON), ["--ready", "--wait", "3"], None, 1, "ok\nlate (line 2)\nok\n",
                script="await\nawait record\nnote A\n")

    def test_a_script_goes_on(self):
        for play, line, printed in STATIONS:
            text = "await\n%s\nfields\nnote A\n" % line
            # What shows something tells that the host has closed.
            told = "ended (line 3)\n" if printed == "ended\n" else ""
            at_host(play, ["--wait", "3", "--go-on"], None, 1, by_line(2, printed) + SIGN_ON_FIELDS + told + "A\n",
                    script=text)

    def test_lines_at_a_station(self):
        for word, script, printed, status in SCRIPTS:
            # Where nothing is awaited the session is over before records are allowed.
            play = sending(FORM) if "await" in script else Side.take_end
            at_host(play, ["--ready", "--wait", "3", word], None, status, printed, script=script)

    def test_a_good_script_stops_nowhere(self):
        play = sending(SIGN_ON, answer=record("0636F1" "110635C1"))
        at_host(play, ["--stop", "--wait", "60"], None, 0, SIGN_ON_FIELDS, script="# A\n\nawait\nfields\ntype A\nkey Enter\n")

    def test_standard_input(self):
        """It goes on, unless it is to stop."""
        for play, line, printed in STATIONS:
            text = "await\n%s\nnote A\n" % line
            at_host(play, ["--wait", "3"], text, 1, printed + "A\n")
            at_host(play, ["--wait", "3", "--go-on"], text, 1, printed + "A\n")
            at_host(play, ["--wait", "3", "--stop"], text, 1, printed)
        # A bad line, which is told where the session tells when it is ready.
        words = ["--ready", "--wait", "3"]
        told = "bad line: unknown word `nonsense`\nok\n"
        at_host(sending(SIGN_ON), words, "await\nnonsense\nnote A\n", 1, "ok\n" + told + "A\nok\n")
        at_host(sending(SIGN_ON), [*words, "--stop"], "await\nnonsense\nnote A\n", 1, "ok\n" + told)

    def test_a_host_stops(self):
        """It sends nothing after such a line, and doesn't answer on."""
        for kind, ready in KINDS:
            lines = [("await", "late\n")] if kind else [("await", "late\n"), ("cancel", "send refused NoReadToCancel\n")]
            for line, printed in lines:
                text = "await\n%s\nsend 1\n" % line
                serve, side = served(None, *kind, wait=3, script=text)
                side.take_end()
                side.close()
                serve.end(1, ready + by_line(2, printed))
                serve, side = served(None, *kind, "--go-on", wait=3, script=text)
                side.take(record(opcode=1))
                side.close()
                serve.end(1, ready + by_line(2, printed))
                serve, side = served(text, *kind, wait=3)
                side.take(record(opcode=1))
                side.close()
                serve.end(1, ready + printed)
                serve, side = served(text, *kind, "--stop", wait=3)
                side.take_end()
                side.close()
                serve.end(1, ready + printed)
        # It ends at once, though its wait goes on for longer.
        serve, side = served(None, wait=60, script="await\ncancel\n")
        began = time.monotonic()
        side.take_end()
        side.close()
        serve.end(1, READY + "send refused NoReadToCancel (line 2)\n")
        timed(0, 40, began, "it")

    def test_the_numbers_of_lines(self):
        """Empty lines, comments and those that belong to others count; each is told by the first of its own."""
        text = "# one\n\nawait\nawait record\n# five\nawait text No such text\n\nawait record"
        at_host(sending(SIGN_ON), ["--go-on", "--wait", "1"], None, 1, "late (line 4)\nlate (line 6)\nlate (line 8)\n",
                script=text)
        at_host(sending(SIGN_ON), ["--wait", "1"], text, 1, "late\nlate\nlate\n")
        for kind, ready in KINDS:
            # Refused before records may be sent, once with lines that belong to it.
            sends = "send 3\n  CLEAR-UNIT\n  WRITE 00 08\nsend 3\n\nawait\nsend 3 0440\nawait\n"
            told = "send refused NotAllowed (line 1)\nsend refused NotAllowed (line 4)\n" + ready + "ended (line 8)\n"
            serve, side = served(None, *kind, "--go-on", script=sends)
            side.take(record("0440"))
            side.close()
            serve.end(1, told)
            serve, side = served(sends, *kind)
            side.take(record("0440"))
            side.close()
            serve.end(1, re.sub(r" \(line \d\)", "", told))

    def test_the_next_station_is_served(self):
        serve, station = begun(2, script="await\nsend 3 0440\ncancel\ncancel\n")
        for _ in range(2):
            side = station()
            whole(side)
        # Each session is over at its first refused line.
        refused = READY + "send refused NoReadToCancel (line 3)\n"
        serve.end(1, refused + "session 2\n" + refused)

    def test_both_at_once(self):
        for command in ["connect", "127.0.0.1:1"], ["serve", "127.0.0.1:0"]:
            for words in ["--stop", "--go-on"], ["--go-on", "--stop"], ["--stop", "--stop"]:
                Run([command[0], *words, *command[1:]], "").end(2, "", None)
