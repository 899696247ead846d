"""`connect` and `serve` with one another."""
import pathlib
import time
import unittest

from counted import TOP
from live.lines import served
from live.program import Run
from live.screens import INQUIRY, PRICE, PRICE_SCREEN, SIGN_ON, SIGN_ON_FIELDS, SIGN_ON_SCREEN
from peers import expect
from records import record


class TestBoth(unittest.TestCase):
    def test_examples_go_together(self):
        """An inquiry, and what live hosts send beside the profile: a query, a screen saved and restored, an error."""
        for name, of_host in ("inquiry", []), ("live-host", ["--any"]):
            with self.subTest(name):
                example = str(TOP / "examples" / name)
                serve = Run(["serve", "--wait", "60", *of_host, "127.0.0.1:0", example + ".serve"])
                connect = Run(["connect", "--wait", "60", serve.line().split()[1], example + ".connect"])
                connect.end(0, pathlib.Path(example + ".connected").read_text())
                serve.end(0, pathlib.Path(example + ".served").read_text())

    def test_both_line_by_line(self):
        serve = Run(["serve", "--ready", "--wait", "60", "127.0.0.1:0"])
        address = serve.line().split()[1]
        connect = Run(["connect", "--ready", "--terminal", "ibm-5251-11", "--wait", "60", address])
        # The station takes what comes only in a line that takes it.
        connect.tell("await")
        expect(serve.asked("await"), "host ready IBM-5251-11\n", "await")
        expect(serve.asked("send 3 " + SIGN_ON), "", "send")
        expect(connect.line(), "ok\n", "await")
        expect(connect.asked("show"), SIGN_ON_SCREEN, "show")
        expect(connect.asked("fields"), SIGN_ON_FIELDS, "fields")
        expect(connect.asked("type QUSER"), "", "type")
        expect(connect.asked("key FieldExit"), "", "key")
        expect(connect.asked("type SECRET"), "", "type")
        # A hidden field's text isn't shown.
        expect(connect.asked("fields"), "field 6 53 10 4800 QUSER\nfield 7 53 10 4800\n", "fields")
        expect(connect.asked("key Enter"), "", "key")
        printed = "answer 7 59 F1\n  field 6 53 D8E4E2C5D9 QUSER\n  field 7 53 E2C5C3D9C5E3 SECRET\n"
        expect(serve.asked("await"), printed, "await")
        connect.tell("await text Item inquiry")
        expect(serve.asked("send 3 " + INQUIRY), "", "send")
        expect(connect.line(), "ok\n", "await text")
        expect(connect.asked("insert 11"), "", "insert")
        expect(connect.asked("key Home"), "", "key")
        expect(connect.asked("insert 47"), "", "insert")
        expect(connect.asked("key F5"), "", "key")
        expect(serve.asked("await"), "answer 3 22 35\n  field 3 20 F4F7F1F1 4711\n", "await")
        connect.tell("await record")
        expect(serve.asked("send 3 " + PRICE), "", "send")
        expect(connect.line(), "ok\n", "await record")
        expect(connect.asked("show"), PRICE_SCREEN, "show")
        expect(connect.asked("key Attention"), "", "key")
        expect(serve.asked("await"), "attention\n", "await")
        expect(serve.asked("send 3 " + PRICE), "send refused ReadOutstanding\n", "send")
        # A cancel locks the keyboard.
        connect.tell("await record")
        expect(serve.asked("cancel"), "", "cancel")
        expect(connect.line(), "ok\n", "await record")
        expect(serve.asked("await"), "cancelled\n", "await")
        expect(connect.asked("type 5"), "key refused Locked 5\n", "type")
        expect(connect.asked("key SystemRequest"), "", "key")
        expect(serve.asked("await"), "system request\n", "await")
        connect.end(1, "")
        expect(serve.asked("await"), "ended\n", "await")
        expect(serve.asked("cancel"), "send refused NoReadToCancel\n", "cancel")
        serve.end(1, "")

    def test_serve_prints_what_it_is_told_behind_its_script(self):
        serve, side = served("await\nsend 3 %s\n" % SIGN_ON)
        side.take(record(SIGN_ON))
        side.send(record("0634F1" "110635C2D6C2"))
        time.sleep(0.2)
        side.close()
        serve.end(0, "host ready IBM-3179-2\nanswer 6 52 F1\n  field 6 53 C2D6C2 BOB\n")
