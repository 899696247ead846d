"""What hurts at a desk: pastes that don't fit, an Enter too many, what a field lacks, keys as others have them."""
import os
import tempfile

from hosts import Host, READ, field, inputs, text, write
from window import Terminal, check
from work import FORM, at_form

# Option fields of a list, a command line, and a form of one field alone.
LIST = write() + b"".join(field(5 + k, 3, 1) + text(5 + k, 6, f"entry {k}", 0x20) for k in range(12)) + READ
COMMAND = write() + text(20, 2, "===>") + field(20, 8, 153) + READ
OPTIONS = {(5 + k, 3): "ABCDEFGHIJKL"[k] for k in range(12)}


def at_host(form, place, *words, **more):
    """A terminal at a host that has sent a form, with the cursor at its place."""
    host = Host()
    host.window = t = Terminal(*words, f"127.0.0.1:{host.port}", **more)
    check(host.ready(), "the session begins")
    host.send(form)
    t.at(place)
    return host, t


def pastes_too_long():
    """A line of a paste goes into one field, and what doesn't fit is told and left."""
    host, t = at_host(COMMAND, "20/008")
    line = "".join(chr(ord("a") + k % 26) for k in range(218))
    t.rings("a paste that is too long", lambda: t.paste(line))
    t.tells("153 of 218 pasted. The field is full.")
    t.tells("Reset: ^R")
    t.rings("Enter at once", lambda: t.type("\r"))
    check(host.answer(0.3) is None, "and nothing is sent that wasn't meant")
    t.type("\x12\r")
    check(inputs(host.answer()) == (0xF1, {(20, 8): line[:153]}), "what went in stands as it was")
    host.send(COMMAND)
    t.at("20/008")
    t.paste(line[:153] + "\n")
    t.until(lambda: t.window.text(20) == line[73:153], "it fits")
    t.type("\r")
    check(inputs(host.answer()) == (0xF1, {(20, 8): line[:153]}), "a line that fills its field is whole")
    t.leave()
    host.close()


def pastes_into_options():
    """From the last field a paste never goes on to the first."""
    host, t = at_host(LIST, "05/003")
    t.rings("more lines than fields", lambda: t.paste("\n".join("ABCDEFGHIJKLDE")))
    t.tells("12 of 14 pasted. There is no field below.")
    t.type("\x12\r")
    check(inputs(host.answer()) == (0xF1, OPTIONS), "each line has its field")
    host.send(LIST)
    t.at("05/003")
    t.paste("\n".join("ABCDEFGHIJKL") + "\r\n")
    t.type("\r")
    check(inputs(host.answer()) == (0xF1, OPTIONS), "as many lines as fields")
    host.send(LIST)
    t.at("05/003")
    t.rings("a line too long for its option", lambda: t.paste("440000 Smith"))
    t.tells("1 of 12 pasted. The field is full.")
    t.type("\x12\r")
    check(inputs(host.answer()) == (0xF1, {(5, 3): "4"}), "and no other option gets any of it")
    host.send(LIST)
    t.at("05/003")
    t.type("\x1b[Z")
    t.at("16/003")
    t.rings("two lines at the last field", lambda: t.paste("X\nY"))
    t.tells("1 of 2 pasted. There is no field below.")
    t.type("\x12\r")
    check(inputs(host.answer()) == (0xF1, {(16, 3): "X"}), "the first field stays empty")
    t.leave()
    host.close()


def pastes_that_wait():
    """A paste while the host has the keyboard waits whole, and is told by itself."""
    host, t = at_form()
    t.type("\r")
    host.answer()
    t.paste("1234567\nab")
    t.paste("xyz")
    t.tells(" T ")
    t.settle()
    t.rings("the paste, when it is pressed", lambda: host.send(LIST))
    t.tells("1 of 9 pasted. The field is full. 3 dropped.")
    t.rings("a paste while the keyboard is held", lambda: t.paste("abc"))
    t.tells("Nothing pasted. Press Reset first.")
    t.rings("a key then", lambda: t.type("b"))
    t.tells("1 of 9 pasted. The field is full. 3 dropped.")
    t.type("\x12\r")
    check(inputs(host.answer()) == (0xF1, {(5, 3): "1"}), "no more than that went in")
    t.rings("more than can wait", lambda: t.paste("z" * 5000))
    t.tells("The paste is dropped: 4096 keys can wait, and no more.")
    host.send(LIST)
    t.until(lambda: "waiting" not in t.status(), "the screen comes")
    t.type("2\r")
    check(inputs(host.answer()) == (0xF1, {(5, 3): "2"}), "and nothing of that paste goes in")
    t.leave()
    host.close()


def enters_too_many():
    """An Enter behind an Enter with nothing between answers no screen that nobody has seen."""
    host, t = at_form()
    t.type("1\r")
    check(inputs(host.answer()) == (0xF1, {(3, 20): "1"}), "the first Enter")
    t.rings("a second one", lambda: t.type("\r"))
    t.tells("This key again is dropped: the host hasn't answered the first.")
    t.rings("and a third", lambda: t.type("\r"))
    host.send(FORM)
    t.until(lambda: "waiting" not in t.status(), "the next screen comes")
    check(host.answer(0.4) is None, "and isn't answered")
    t.type("\r")
    check(inputs(host.answer()) == (0xF1, {}), "until somebody has seen it")
    t.type("2\r")
    t.rings("a second one that waits", lambda: t.type("\r"))
    t.rings("Reset", lambda: t.type("\x12"))
    t.rings("and again behind a Reset", lambda: t.type("\r"))
    t.type("3\r4\r\x1b[6~")
    host.send(FORM)
    check(inputs(host.answer()) == (0xF1, {(3, 20): "3"}), "what is typed between counts")
    host.send(FORM)
    check(inputs(host.answer()) == (0xF1, {(3, 20): "4"}), "each time")
    host.send(FORM)
    check(inputs(host.answer())[0] == 0xF5, "another key that sends too")
    t.rings("that one again", lambda: t.type("\x1b[6~"))
    t.leave()
    host.close()


def without_type_ahead():
    host, t = at_form("--type-ahead", "off")
    t.type("1\r")
    host.answer()
    t.rings("a key while the host has the keyboard", lambda: t.type("2"))
    t.tells("The host has the keyboard: the key is dropped.")
    t.until(lambda: " T " not in t.status(), "it doesn't wait")
    t.rings("a paste then", lambda: t.paste("3\n4"))
    t.tells("Nothing pasted. The host has the keyboard.")
    t.type("\x1ba")
    check(host.answer()[1] == 0x4000, "Attention goes out")
    host.send(FORM)
    t.until(lambda: "waiting" not in t.status(), "the next screen comes")
    t.type("5\r")
    check(inputs(host.answer()) == (0xF1, {(3, 20): "5"}), "and has only what was typed at it")
    t.leave()
    host.close()
    Terminal("--type-ahead", "no", "h").ended(2, "--type-ahead is on or off, and not no")


# Fields that have to be entered: with a label and dots, with a label behind an attribute, in a row without one.
MANDATORY = write() + text(3, 2, "Note") + field(3, 20, 6) + text(5, 2, "Order number . . . . . :") \
    + field(5, 40, 6, 0x4008) + text(7, 10, "Quantity", 0x22) + field(7, 30, 4, 0x4008) + field(9, 30, 4, 0x4008) + READ


def missing_fields():
    """The cursor goes into the field that has to be entered, and the sentence names it."""
    host, t = at_host(MANDATORY, "03/020")
    for place, name, key in (("05/040", "'Order number'", "A1"), ("07/030", "'Quantity'", "12"),
                             ("09/030", "The field at row 9, column 30", "x")):
        t.rings("Enter where a field lacks something", lambda: t.type("\r"))
        t.tells(f"{name} has to be filled in.")
        t.tells("Reset: ^R")
        t.at(place)
        t.type("\x12" + key)
    t.type("\r")
    answer = inputs(host.answer())
    check(answer == (0xF1, {(5, 40): "A1", (7, 30): "12", (9, 30): "x"}), "then it is sent", answer)
    t.leave()
    host.close()


# A signed numeric field, a numeric only one, and one that takes all, whose last cell isn't empty.
NUMBERS = write() + field(3, 20, 5, 0x4700) + field(4, 20, 5, 0x4300) + field(5, 20, 3, 0x4000) \
    + text(5, 20, "abc") + READ


def numbers():
    """The keypad's + and - are Field Plus and Field Minus; the sentences say what to press."""
    host, t = at_host(NUMBERS, "03/020")
    t.rings("a minus among digits", lambda: t.type("1-"))
    t.tells("No '-' here: digits only, and ^N for minus.")
    t.type("\x12\x012\x1bOm")
    t.at("04/020")
    t.rings("Field Minus behind a minus", lambda: t.type("17-\x1bOm"))
    t.tells("Field Minus needs a digit at the number's end.")
    t.type("\x12\x7f\x1bOm")
    t.at("05/020")
    t.rings("Field Minus in another field", lambda: t.type("\x0e"))
    t.tells("Field Minus is for numeric only and signed fields.")
    t.type("\x12\r")
    answer = inputs(host.answer())
    check(answer == (0xF1, {(3, 20): "   K", (4, 20): "1P"}), "minus two, and 17 with its minus", answer)
    t.leave()
    host.close()


def inserting():
    """Reset behind an insert that was refused ends insert mode; behind another refused key it doesn't."""
    host, t = at_host(NUMBERS, "03/020")
    t.type("\x0f")
    t.tells("INS")
    t.rings("a letter", lambda: t.type("\t\tx"))
    t.tells("No room for 'x': Reset, then type over.")
    t.tells("INS")
    t.type("\x12")
    t.until(lambda: "INS" not in t.status() and "No room" not in t.status(), "Reset ends insert mode")
    t.type("x\x0f")
    t.until(lambda: t.window.text(4)[19:22] == "xbc" and "INS" in t.status(), "then it is typed over")
    t.rings("Dup", lambda: t.type("\x04"))
    t.type("\x12")
    t.until(lambda: "Dup" not in t.status(), "Reset")
    check("INS" in t.status(), "insert mode stays where no insert was refused")
    t.leave()
    host.close()


def keys_of_others():
    """Names of keys as other programs have them, and the keys of tn5250."""
    with tempfile.TemporaryDirectory() as folder:
        name = os.path.join(folder, "keys")
        with open(name, "w") as file:
            file.write("Ctrl-B = f3\nShift-F1 = f4\nAlt-a = f5\nPgUp = f6\nPgDn = f7\nReturn = f8\nEsc-b = f9\n"
                       "Alt-F2 = f10\n")
        host, t = at_form("--keys", name)
        for key, wanted in (("\x02", 0x33), ("\x1b[1;2P", 0x34), ("\x1ba", 0x35), ("\x1b[5~", 0x36),
                            ("\x1b[6~", 0x37), ("\r", 0x38), ("\x1bb", 0x39), ("\x1b[1;3Q", 0x3A)):
            t.type(key)
            check(inputs(host.answer())[0] == wanted, f"{key!r} by a name in a keys file")
            host.send(FORM)
            t.until(lambda: "waiting" not in t.status(), "the screen comes again")
        t.leave()
        host.close()
    host, t = at_form("--keys", "tn5250")
    t.tells("The keys are those of tn5250: ^] has them all.")
    for key, wanted in (("\x02", 0xF4), ("\x06", 0xF5), ("\x15", 0xF4), ("\x04", 0xF5), ("\x1bH", 0xF3)):
        t.type(key)
        check(inputs(host.answer())[0] == wanted, f"{key!r} as at tn5250")
        host.send(FORM)
        t.until(lambda: "waiting" not in t.status(), "the screen comes again")
    t.type("\x01\x03")
    check([host.answer()[1] for _ in range(2)] == [0x4000, 0x0400], "Attention and System Request")
    t.rings("Test Request, which isn't here", lambda: t.type("\x14"))
    t.tells("^T is no key here")
    t.type("12\x0b")
    t.at("04/020")
    t.type("\x11")
    t.shows(0, "with the keys of tn5250")
    t.type("x")
    t.leave()
    host.close()


def wheel():
    host, t = at_form()
    t.type("\x1b[<64;10;5M")
    check(inputs(host.answer())[0] == 0xF4, "the wheel up is Roll Down")
    t.rings("one step more", lambda: t.type("\x1b[<64;10;5M"))
    host.send(FORM)
    t.until(lambda: "waiting" not in t.status(), "the screen comes again")
    t.type("\x1b[<65;10;5M")
    check(inputs(host.answer())[0] == 0xF5, "the wheel down is Roll Up")
    check(host.answer(0.3) is None, "and no step more")
    t.leave()
    host.close()


def typed_escapes():
    """Esc, [ or O, and a letter, typed by hand: the letter isn't lost. What comes of a key at once is one sequence."""
    host, t = at_form()
    t.type("\t")
    t.at("04/020")
    for front, letter in ("[", "x"), ("O", "y"), ("[", "z"):
        for key in "\x1b", front:
            t.type(key)
            t.settle(0.3)
        t.type(letter)
        t.until(lambda: letter in t.window.text(3)[19:], f"the letter behind Esc {front}")
    t.type("\x1b")
    t.settle(0.3)
    t.rings("the late rest of a key", lambda: t.type("[9;9C"))
    t.type("\x1b")
    t.settle(0.3)
    t.rings("and of an arrow", lambda: t.type("[C"))
    t.type("w\r")
    check(inputs(host.answer()) == (0xF1, {(4, 20): "xyzw"}), "and nothing else is typed")
    t.leave()
    host.close()


# Write Error Code: Insert Cursor 3 20, an attribute and a text.
ERROR = b"\x04\x21\x13\x03\x14\x22" + "No such item".encode("cp037")


def error_of_the_host():
    """It drops what was typed for a screen; one Reset is enough, and Help says that it isn't sent."""
    host, t = at_form()
    t.type("1\r")
    host.answer()
    t.type("22\r3")
    t.tells(" T ")
    t.rings("an error", lambda: host.send(ERROR + READ))
    t.shows(23, "No such item")
    t.tells("4 keys typed ahead dropped.")
    t.until(lambda: " T " not in t.status(), "no key waits")
    t.rings("Help then", lambda: t.type("\x07"))
    t.tells("Help isn't sent while an error of the host's stands.")
    check(host.answer(0.3) is None, "and it isn't")
    t.rings("a paste", lambda: t.paste("5"))
    t.tells("Nothing pasted. Press Reset first.")
    t.type("\x12")
    t.until(lambda: "No such item" not in t.window.text(23), "one Reset takes the error away")
    t.type("4\r")
    answer = inputs(host.answer())
    check(answer[0] == 0xF1 and "22" not in answer[1].get((3, 20), ""), "and keys are taken", answer)
    t.leave()
    host.close()
