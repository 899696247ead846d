"""Scripts in files, and lines of standard input."""
import os
import threading

from counted import Test
from live.lines import READY, at_host, sending, served, station_at
from live.program import Run
from live.screens import SIGN_ON, SIGN_ON_FIELDS
from peers import Side, negotiate_as_host, negotiate_as_station
from records import OPENING, record
from refusals import told_refusal


class TestScript(Test):
    def test_ready_with_a_script_file(self):
        at_host(sending(SIGN_ON, answer=record("0636F1" "110635C1")), ["--ready", "--wait", "60"], None, 0,
                "ok\n" + SIGN_ON_FIELDS + "ok\nok\nok\n", script="# no line\n\nawait\nfields\ntype A\nkey Enter\n")
        serve, side = served(None, "--ready", wait=60, script="await\n# no line\nsend 1\n\nawait\n")
        side.take(record(opcode=1))
        side.close()
        serve.end(1, READY + "ok\nok\nended (line 5)\nok\n")

    def test_script_files_that_go_otherwise(self):
        # Each of these ends a script with the status 1: refused, late, ended, by a line that is told; or a refused byte.
        def station(side):
            negotiate_as_station(side)
            side.take_end()

        def bad_station(side):
            side.take(OPENING)
            side.send(b"\x00\x00\x00")
            side.take_end()
        rows = [(station, "await\ncancel\n", READY + "send refused NoReadToCancel (line 2)\n"),
                (station, "await\nawait\n", READY + "late (line 2)\n"),
                (negotiate_as_station, "await\nawait\n", READY + "ended (line 2)\n"),
                (bad_station, "await\nawait\n", told_refusal("host", 1, "10 LengthBelowHeader"))]
        for play, text, printed in rows:
            serve = Run(["serve", "--wait", "3", "127.0.0.1:0"], script=text)
            side = station_at(serve)
            player = threading.Thread(target=lambda: (play(side), side.close()))
            player.start()
            serve.end(1, printed)
            player.join()

        def bad_host(side):
            side.send(b"\x00\x00\x00")
            side.read()
        rows = [(sending(SIGN_ON), "await\nkey Dup\n", "key refused DupNotAllowed (line 2)\n"),
                (sending(SIGN_ON), "await\nawait record\n", "late (line 2)\n"),
                (negotiate_as_host, "await\n", "ended (line 1)\n"),
                (bad_host, "await\n", told_refusal("station", 1, "10 LengthBelowHeader"))]
        for play, text, printed in rows:
            at_host(play, ["--wait", "3"], None, 1, printed, script=text)

    def test_lines_that_are_not_utf_8(self):
        rows = [(b"\xff", 1), (b"await\n\xff\nshow\n", 2), (b"# one\n\nawait\ntype \xc3\n", 4),
                (b"await\nfields\n# \x80", 3)]
        for text, number in rows:
            printed = SIGN_ON_FIELDS if b"fields" in text else ""
            at_host(sending(SIGN_ON), ["--wait", "60"], text, 2, printed, "script line %d\n" % number, host_ends=False)
            Run(["connect", "127.0.0.1:1"], script=text).end(2, "", "script line %d\n" % number)
        rows = [(b"cancel\n\xff\n", 2), (b"send 1\n# \xff\n", 2), (b"send 3\n  CLEAR-UNIT\n  TEXT \xff\n", 3),
                (b"send 3\n  CLEAR-UNIT\n\xff\n", 3), (b"send 3\n  CLEAR-UNIT\n\n\xff\n", 4), (b"send 3\n\xff\n", 2)]
        for text, number in rows:
            serve, side = served(b"await\n" + text, wait=60)
            serve.end(2, None, "script line %d\n" % (number + 1))
            side.close()
            Run(["serve", "127.0.0.1:0"], script=text).end(2, "", "script line %d\n" % number)

    def test_a_folder_as_standard_input(self):
        descriptor = os.open(self.folder, os.O_RDONLY)
        at_host(Side.take_end, ["--wait", "60"], None, 2, "", "cannot read\n", stdin=descriptor)
        serve = Run(["serve", "--wait", "60", "127.0.0.1:0"], stdin=descriptor)
        side = station_at(serve)
        side.take(OPENING)
        serve.end(2, "", "cannot read\n")
        side.close()
        os.close(descriptor)
        # And as a script.
        for command in ["connect", "127.0.0.1:1"], ["serve", "127.0.0.1:0"]:
            Run([*command, self.folder]).end(2, "", f"cannot read: {self.folder}: is a folder\n")

    def test_a_script_whose_name_has_blanks(self):
        for name, number in (" a b ", 1), ("a b", 2), (" a b", 3):
            with open(os.path.join(self.folder, name), "w") as script:
                script.write("#\n" * (number - 1) + "nonsense\n")
        for command in ["connect", "127.0.0.1:1"], ["serve", "127.0.0.1:0"]:
            for name, number in (" a b ", 1), ("a b", 2), (" a b", 3):
                Run([*command, os.path.join(self.folder, name)]).end(2, "", "script line %d\n" % number)
            name = os.path.join(self.folder, "a b ")
            Run([*command, name]).end(2, "", f"cannot read: {name}: no such file\n")
            Run([*command, os.fsencode(self.folder) + b"/\xff"]).end(2, "", None)
