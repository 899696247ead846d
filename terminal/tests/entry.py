"""What a field's format word asks of the clerk (SC30-3533, field format word): a key that leaves a full field, a field
that is filled whole, Enter by itself, capitals, and room for an insert."""
from desk import at_host
from hosts import READ, field, inputs, text, write
from window import check

# Three cells that a key has to leave; a signed number of three digits, too; any.
LEFT = write() + field(3, 20, 3, 0x4040) + field(4, 20, 4, 0x4740) + field(5, 20, 6) + READ


def field_exit_required():
    """A full field takes no further character, and says which key leaves it."""
    host, t = at_host(LEFT, "03/020")
    t.type("abc")
    t.at("field 3 full  03/022")
    t.rings("one character more", lambda: t.type("d"))
    t.tells("The field is full: End leaves it.")
    t.tells("Reset: ^R")
    t.type("\x12\x7f")
    t.until(lambda: t.window.text(2)[19:] == "ab" and "03/022" in t.status(), "Backspace takes the last character")
    t.type("e\x1b[F")
    t.at("04/020")
    t.type("123")
    t.at("field 4 full  04/022")
    t.type("\x0e")
    t.at("05/020")
    t.type("x\r")
    answer = inputs(host.answer())
    check(answer == (0xF1, {(3, 20): "abe", (4, 20): "12L", (5, 20): "x"}), "all that was typed stays", answer)
    host.send(LEFT)
    t.at("03/020")
    t.rings("a paste", lambda: t.paste("abcd\n1"))
    t.tells("3 of 5 pasted. The field is full: End leaves it.")
    t.type("\x12\x1bOH")
    t.at("03/020")
    t.paste("xyz\n12")
    t.until(lambda: t.window.text(2)[19:] == "xyz" and t.window.text(3)[19:] == "12", "a line that fills it goes on")
    t.leave()
    host.close()


FILLED = write() + text(3, 2, "Code . . . .") + field(3, 20, 4, 0x4007) + field(5, 20, 6) + READ


def mandatory_fill():
    """The cursor goes into the field that is filled in part, and the sentence names it."""
    host, t = at_host(FILLED, "03/020")
    for what, keys in ("Field Exit", "ab\x1b[F"), ("Enter from another field", "\t\r"):
        t.rings(what, lambda keys=keys: t.type(keys))
        t.tells("'Code' must be full or empty.")
        t.tells("Reset: ^R")
        t.at("03/022")
        check(host.answer(0.2) is None, "and nothing is sent")
        t.type("\x12")
        t.until(lambda: "Code" not in t.status(), "Reset")
    t.type("cd")
    t.at("05/020")
    t.type("\r")
    check(inputs(host.answer()) == (0xF1, {(3, 20): "abcd"}), "it is sent when it is full")
    host.send(FILLED)
    t.at("03/020")
    t.rings("one cell", lambda: t.type("x\r"))
    t.type("\x12\x01\x0b\r")
    check(inputs(host.answer()) == (0xF1, {(3, 20): ""}), "and when it is empty again")
    t.leave()
    host.close()


# Two cells after which Enter follows; six that a key has to leave for that, as 0040 asks.
AUTO = write() + field(3, 20, 2, 0x4080) + field(5, 20, 6, 0x40C0) + READ


def auto_enter():
    """A full field is sent by itself, and one that a key leaves. An Enter that follows from habit is dropped."""
    host, t = at_host(AUTO, "03/020")
    t.type("12")
    check(inputs(host.answer()) == (0xF1, {(3, 20): "12"}), "a full field is sent")
    t.rings("Enter then", lambda: t.type("\r"))
    t.tells("This key again is dropped: the host hasn't answered the first.")
    host.send(AUTO)
    t.until(lambda: "waiting" not in t.window.title, "the screen comes")
    check(host.answer(0.3) is None, "and nobody has answered it unseen")
    t.type("\tabcdef")
    t.at("field 6 full  05/025")
    check(host.answer(0.3) is None, "a field that a key has to leave waits for it")
    t.type("\x1b[F")
    check(inputs(host.answer()) == (0xF1, {(5, 20): "abcdef"}), "and Field Exit sends it")
    host.send(AUTO)
    t.until(lambda: "waiting" not in t.window.title, "the screen comes")
    t.leave()
    host.close()


def auto_enter_ahead():
    """What is typed ahead after an Enter that came by itself waits, as after one that was pressed."""
    host, t = at_host(AUTO, "03/020")
    t.type("34567\r8")
    check(inputs(host.answer()) == (0xF1, {(3, 20): "34"}), "the first field")
    t.tells(" T ")
    check(host.answer(0.3) is None, "the rest waits")
    host.send(AUTO)
    check(inputs(host.answer()) == (0xF1, {(3, 20): "56"}), "the next screen has what was typed for it")
    t.tells(" T ")
    host.send(AUTO)
    check(inputs(host.answer()) == (0xF1, {(3, 20): "7"}), "and the third")
    host.send(AUTO)
    t.until(lambda: t.window.text(2)[19:] == "8" and " T " not in t.status(), "and the fourth")
    t.type("\r90\r1")
    check(inputs(host.answer()) == (0xF1, {(3, 20): "8"}), "an Enter that was pressed")
    t.tells(" T ")
    t.rings("an Enter that was typed ahead behind a full field", lambda: host.send(AUTO))
    check(inputs(host.answer()) == (0xF1, {(3, 20): "90"}), "the field is sent")
    t.tells("This key again is dropped: the host hasn't answered the first.")
    host.send(AUTO)
    t.until(lambda: t.window.text(2)[19:] == "1", "what stands behind that Enter waits for the next screen")
    check(host.answer(0.3) is None, "and nobody has answered that one unseen")
    t.leave()
    host.close()


def auto_enter_pasted():
    """A paste isn't for the screen that comes after its own."""
    host, t = at_host(AUTO, "03/020")
    t.paste("89x\nyz")
    check(inputs(host.answer()) == (0xF1, {(3, 20): "89"}), "its field is sent")
    t.rings("the rest", lambda: host.send(AUTO))
    t.tells("2 of 5 pasted. Its field has sent the screen.")
    t.type("\x12")
    t.until(lambda: "pasted" not in t.status() and t.window.text(2)[19:] == "", "nothing of it goes in")
    t.settle()
    before = t.window.bells
    t.paste("45\n")
    check(inputs(host.answer()) == (0xF1, {(3, 20): "45"}), "one that fits")
    host.send(AUTO)
    t.until(lambda: "waiting" not in t.window.title, "the screen comes")
    t.settle()
    check(t.window.bells == before and "pasted" not in t.status(), "is no fault", t.status())
    t.at("03/020")
    for pasted in "67", "67\n":
        t.paste(pasted)
        check(inputs(host.answer()) == (0xF1, {(3, 20): "67"}), "and one without its line's end", pasted)
        t.rings("Enter then", lambda: t.type("\r"))
        t.tells("This key again is dropped: the host hasn't answered the first.")
        t.paste(pasted)
        t.type("\r")
        t.tells(" T ")
        t.rings("what was pasted ahead, and Enter", lambda: host.send(AUTO))
        check(inputs(host.answer()) == (0xF1, {(3, 20): "67"}), "are one answer", pasted)
        host.send(AUTO)
        t.until(lambda: "waiting" not in t.window.title, "the screen comes")
        check(host.answer(0.3) is None, "that nobody has answered unseen")
    t.leave()
    host.close()


def monocase():
    """Small letters beyond a to z become capitals too."""
    host, t = at_host(write() + field(3, 20, 12, 0x4020) + READ, "03/020")
    t.type("na\u00efve caf\u00e9 \u00f7")
    t.until(lambda: t.window.text(2)[19:] == "NA\u00cfVE CAF\u00c9 \u00f7", "capitals are shown")
    t.type("\r")
    check(inputs(host.answer()) == (0xF1, {(3, 20): "NA\u00cfVE CAF\u00c9 \u00f7"}), "and sent")
    t.leave()
    host.close()


def insert_room():
    """Blanks at a field's end are room for an insert; other characters aren't."""
    host, t = at_host(write() + field(3, 20, 4) + text(3, 20, "ab  ") + READ, "03/020")
    t.type("\x0fxy")
    t.until(lambda: t.window.text(2)[19:] == "xyab", "two fit")
    t.rings("one more", lambda: t.type("z"))
    t.tells("No room for 'z': Reset, then type over.")
    t.type("\x12z\r")
    check(inputs(host.answer()) == (0xF1, {(3, 20): "xyzb"}), "then it is typed over")
    t.leave()
    host.close()
