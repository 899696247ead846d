"""What live hosts send beside the profile: a query, a screen that is saved and restored, an error, and Reset."""
from hosts import READ, ROLL, field, text, write
from window import check
from work import at_form

QUERY, SAVE, CLEAR = b"\x04\xf3\x00\x05\xd9\x70\x00", b"\x04\x02", b"\x04\x40"
# A Write to Display without the alarm, and one with it.
PLAIN, LOUD = b"\x04\x11\x00\x08", b"\x04\x11\x00\x0c"
# Write Error Code, Insert Cursor 3 20, an attribute and a text, and a read.
ERROR = b"\x04\x21\x13\x03\x14\x22" + "No such item".encode("cp037") + b"\x04\x52\x00\x00"


def asked():
    """The reply to a query, and a screen that comes back as it was saved."""
    host, t = at_form()
    host.send(QUERY)
    opcode, _, reply = host.answer()
    check((opcode, len(reply), reply[:8]) == (0, 61, bytes.fromhex("000088003ad97080")), "the reply to a query", reply)
    t.type("42")
    t.until(lambda: "42" in t.window.text(2), "typed")
    before = [t.window.text(row) for row in range(24)]
    host.send(SAVE, 4)
    opcode, _, image = host.answer()
    check((opcode, image[:4]) == (4, bytes.fromhex("04120440")), "a saved screen", image[:8])
    host.send(CLEAR, 2)
    t.until(lambda: "42" not in t.window.text(2), "cleared")
    host.send(image, 5)
    t.until(lambda: [t.window.text(row) for row in range(24)] == before, "it comes back as it was")
    host.send(SAVE, 4)
    check(host.answer() == (4, 0, image), "and would be saved alike")
    t.leave()
    host.close()


def an_error():
    """Keys ring while an error of the host's stands; Reset takes it away."""
    host, t = at_form()
    host.send(ERROR)
    t.shows(23, "No such item")
    t.tells("an error of the host's")
    t.rings("a key then", lambda: t.type("7"))
    check("7" not in t.window.text(2), "it isn't typed")
    t.type("\x12")
    t.until(lambda: "No such item" not in t.window.text(23), "Reset takes the error away")
    t.type("7")
    t.until(lambda: "7" in t.window.text(2), "then keys are taken")
    t.leave()
    host.close()


def alarm():
    """The host's alarm rings once, also where the key's bell is due; without it nothing does."""
    host, t = at_form()
    t.settle()
    before = t.window.bells
    host.send(PLAIN + b"\x11\x0a\x03" + "quiet".encode("cp037"), 2)
    t.shows(9, "quiet")
    t.settle()
    check(t.window.bells == before, "a Write without the alarm is silent", t.window.bells - before)
    for words, body in ("once", LOUD), ("both", LOUD * 2):
        before = t.window.bells
        host.send(body + b"\x11\x0a\x03" + words.encode("cp037").ljust(5, b"\x40"), 2)
        t.shows(9, words)
        t.settle()
        check(t.window.bells == before + 1, f"the alarm rings once: {words}", t.window.bells - before)
    t.type("x")
    t.tells("Reset")
    t.settle()
    check(t.window.bells == before + 2, "a refused key rings once more, and the alarm not again", t.window.bells - before)
    t.leave()
    host.close()


def alarm_refused():
    """A refused record sounds no alarm of its own: that it is refused rings, once."""
    host, t = at_form()
    t.settle()
    before = t.window.bells
    host.send(LOUD + ROLL)
    t.tells("Host data refused (reason 33")
    t.settle()
    check(t.window.bells == before + 1, "one bell", t.window.bells - before)
    t.leave(1)
    host.close()


def many_saves():
    """More answers than the line takes at once: none is lost."""
    host, t = at_form()
    host.send_raw(b"".join(bytes.fromhex("000C12A00000040000040402FFEF") for _ in range(100)))
    answers = [host.answer() for _ in range(100)]
    check(all(answer == answers[0] and answer[0] == 4 for answer in answers), "each is answered")
    t.leave()
    host.close()


def strict():
    """Kept to the profile, it takes no more of a field than that, refuses a query, and the session ends."""
    host, t = at_form("--strict", form=write() + text(3, 2, "Price") + field(3, 20, 6, 0x4308) + field(5, 20, 3, 0x40C0)
                      + READ)
    t.rings("Enter where a field is empty", lambda: t.type("\t\r"))
    t.tells("'Price' has to be filled in.")
    t.at("03/020")
    t.rings("Field Minus", lambda: t.type("\x127\x0e"))
    t.tells("Field Minus is for signed numeric fields alone.")
    t.type("\x12\tabc")
    t.at("field 6  03/020")
    host.send(QUERY)
    t.tells("reason 30")
    t.leave(1, "reason 30")
    host.close()
