"""Records of the host's that are refused: what is told of them, and that the session goes on; and what ends it."""
import os
import tempfile
import time

from hosts import Host, Host5250, NEGATIVE, READ, ROLL, field, inputs, text, write
from records import record
from window import Terminal, check
from work import FORM, at_form, cut, shown_of

SENTENCE = "Host data refused (reason 33: rolling of the screen); the screen stays."


def refused_record():
    """A refused record leaves the screen, and the session goes on; what came can be saved without `--record`."""
    with tempfile.TemporaryDirectory() as folder:
        host, t = at_form(folder=folder)
        t.type("42")
        t.until(lambda: "42" in t.window.text(2), "typed")
        t.settle()
        before = t.window.bells
        host.send(ROLL)
        t.until(lambda: t.status() == f" {SENTENCE} refused", "a sentence tells it, and a sign")
        check(host.answer() == NEGATIVE, "the host is told")
        check("Order" in t.window.text(0) and "42" in t.window.text(2), "the screen stays")
        t.settle()
        check(t.window.bells == before + 1, "it rings once", t.window.bells - before)
        t.type("7")
        t.until(lambda: "427" in t.window.text(2), "keys are taken")
        t.tells(SENTENCE)
        t.rings("a refused key", lambda: t.type("x"))
        t.tells("No 'x' here")
        t.type("\x12\r")
        check(inputs(host.answer()) == (0xF1, {(3, 20): "427"}), "the answer")
        t.until(lambda: SENTENCE in t.status(), "the sentence stands up to the next record")
        t.type("\x1d")
        t.shows(4, "Last refused, 33: rolling of the screen isn't part of the profile")
        t.type("s")
        t.tells("Saved in term5250.rec. It holds passwords.")
        host.send(FORM)
        t.until(lambda: "waiting" not in t.window.title, "the next record comes")
        t.type("\x1b[Z")
        t.until(lambda: SENTENCE not in t.status() and " refused " in t.status(), "the sign stays alone")
        t.leave(1, "term5250: Left.", "Records refused: 1, the last by reason 33: rolling of the screen")
        name = os.path.join(folder, "term5250.rec")
        check(os.stat(name).st_mode & 0o777 == 0o600, "others can't read it")
        shown = shown_of(name)
        check("PUT D799898385" in shown and "reason 33" in shown, "t5250 show tells the refusal", shown[-300:])
        check("000E12A0000004800000" "10030101FFEF" in cut(name, "station").replace("\n", ""), "its answer is kept")
        host.close()


# Bodies with what a station says of them: an unknown command, row 25, a field over the screen's end, one over another.
UNTAKEN = ((b"\x04\x99", 21, "10030101"), (write() + b"\x11\x19\x01", 24, "10050121"),
           (write() + field(24, 70, 60) + READ, 53, "10050121"),
           (write() + field(3, 20, 6) + field(3, 22, 6) + READ, 54, "10050121"))


def in_a_row():
    """Refused records, one after another and between others: each rings and is answered; nothing else comes of it."""
    host, t = at_form()
    t.type("1")
    for body, reason, sense in UNTAKEN:
        t.rings(f"a record with reason {reason}", lambda body=body: host.send(body))
        t.tells(f"Host data refused (reason {reason}")
        check(host.answer() == (0, 0x8000, bytes.fromhex(sense)), "is answered", reason)
    for raw, reason in ((b"\x00\x0a\x12\xa1\x00\x00\x04\x00\x00\x03\xff\xef", 11),
                        (b"\x00\x0a\x12\xa0\x00\x00\x04\x00\x00\x55\xff\xef", 14),
                        (b"\x00\x09\xff\xef", 10)):
        t.rings(f"a header with reason {reason}", lambda raw=raw: host.send_raw(raw))
        t.tells(f"Host data refused (reason {reason}")
        check(host.answer() == (0, 0x8000, bytes.fromhex("10050121")), "is answered too", reason)
    check(t.window.text(2)[19:25] == "1", "the screen is as it was", t.window.text(2))
    host.send_raw(record(ROLL) + record(FORM) + record(ROLL) + record(FORM))
    check([host.answer() for _ in range(2)] == [NEGATIVE] * 2, "between others")
    t.until(lambda: "data refused" not in t.status() and t.window.text(2)[19:25] == "", "the last one counts")
    t.type("2\r")
    check(inputs(host.answer()) == (0xF1, {(3, 20): "2"}), "the session goes on")
    host.send_raw(record(FORM) + record(ROLL))
    t.tells(SENTENCE)
    host.again()
    host.hang_up()
    t.tells("The host has closed the line.")
    time.sleep(1.1)
    t.type("c")
    check(host.ready(), "it connects again")
    host.send(FORM)
    t.at("03/020")
    t.until(lambda: "refused" not in t.status(), "a new session has refused nothing")
    t.leave()
    host.close()


def at_24_rows():
    """There the sentence covers the last row up to the next key."""
    host, t = at_form(rows=24, form=FORM.replace(READ, text(24, 2, "F3=Exit") + READ))
    t.type("\t")
    t.shows(23, "F3=Exit")
    host.send(ROLL)
    t.shows(23, SENTENCE)
    t.type("a")
    t.until(lambda: t.window.text(23) == " F3=Exit", "a key takes it away")
    check("refused" in t.window.title, "the sign stands in the title", t.window.title)
    t.type("\x13")
    t.shows(23, SENTENCE)
    t.type("\x13")
    t.shows(23, "F3=Exit")
    t.leave(1)
    host.close()


def by_name():
    """host5250 doesn't go on after what it is answered; that this is told is no end of the terminal's."""
    host = Host5250("--bad")
    t = Terminal(f"127.0.0.1:{host.port}")
    t.shows(0, "Sign On")
    t.type("\r")
    t.tells("The host has closed the line.")
    t.shows(0, "Sign On", "the screen stays")
    t.leave(1, "The host has closed the line.", "Records refused: 1, the last by reason 33")
    host.stop()


def over_by_bytes():
    """Bytes that are no Telnet end a session, and a record that is refused before records are allowed."""
    host, t = at_form()
    host.send(ROLL)
    host.answer()
    t.rings("FF and a byte that is no command", lambda: host.send_raw(b"\xff\x01"))
    t.tells("Refused at the host's byte")
    t.rings("a key then", lambda: t.type("7\r"))
    t.idles("when the session is over")
    t.leave(1, "reason 1: no Telnet command has the byte that stands after FF", "Records refused: 1")
    host.close()
    host = Host(negotiates=False)
    t = Terminal(f"127.0.0.1:{host.port}")
    check(host.ready(), "it connects")
    host.send(FORM)
    t.tells("Refused at the host's byte")
    t.leave(1, "reason 60: a record came before both ends had agreed on records")
    host.close()
