"""Who the station says that it is (RFC 1572; RFC 4777, sections 4 and 6), and the characters of its code page."""
import os
import tempfile
import time

import hosts_file
from desk import at_host
from hosts import Host, READ, field, inputs, text, write
from window import Terminal, check
from work import FORM

# DO NEW-ENVIRON, and what it asks for: all that there is.
ASKS, SEND = b"\xff\xfd\x27", b"\xff\xfa\x27\x01\xff\xf0"
WILL, WONT = b"\xff\xfb\x27", b"\xff\xfc\x27"


def told(*values):
    """IS, and variables of the user's: name 03, value 01."""
    variables = b"".join(b"\x03" + name.encode() + b"\x01" + value.encode() for name, value in values)
    return b"\xff\xfa\x27\x00" + variables + b"\xff\xf0"


def page(keyboard, number, characters):
    return (("KBDTYPE", keyboard), ("CODEPAGE", number), ("CHARSET", characters))


def names_told():
    """A host that asks hears the device's name, the keyboard, the code page and its character set."""
    with tempfile.TemporaryDirectory() as home:
        host = Host(first=ASKS + SEND)
        where = f"127.0.0.1:{host.port}"
        hosts_file.write(home, f"prod: --device DSP02 --code-page 280 {where}\n")
        for words, wanted in (
            ([where], page("USB", "037", "697")),
            (["--device", "dsp01", where], (("DEVNAME", "DSP01"), *page("USB", "037", "697"))),
            (["--code-page", "273", where], page("AGB", "273", "697")),
            (["--code-page=1141", "--keyboard", "xy1", where], page("XY1", "1141", "695")),
            (["--code-page=037", "--device=#A_.$Z@90", where], (("DEVNAME", "#A_.$Z@90"), *page("USB", "037", "697"))),
            (["prod"], (("DEVNAME", "DSP02"), *page("ITB", "280", "697"))),
            (["--device=OTHER", "prod"], (("DEVNAME", "OTHER"), *page("ITB", "280", "697"))),
        ):
            host.again()
            host.window = t = Terminal(*words, HOME=home)
            t.until(host.is_ready.is_set, f"{words} connect")
            check(WILL + told(*wanted) in host.began, "the host is told", words, host.began)
            host.send(FORM)
            t.at("03/020")
            t.leave()
        host.again()
        t = Terminal("--strict", where)
        t.until(host.is_ready.is_set, "a station of the profile")
        check(WONT in host.began and WILL not in host.began, "says nothing of itself", host.began)
        t.leave()
        host.close()


def names_refused():
    """A host that asks again has refused the name: that is told once, up to the next key, and it isn't told the name
    again; in a new session it is."""
    host = Host(first=ASKS + SEND * 3)
    host.window = t = Terminal("--device", "DSP01", f"127.0.0.1:{host.port}")
    sentence = "The host refused the name DSP01, and picks another."
    t.until(lambda: t.window.bells == 1, "a refused name rings")
    t.tells(sentence)
    check(host.ready(), "the session begins")
    others = told(*page("USB", "037", "697"))
    wanted = WILL + told(("DEVNAME", "DSP01"), *page("USB", "037", "697")) + others + others
    check(wanted in host.began, "the name is told once", host.began)
    host.send(FORM)
    t.shows(0, "Order")
    t.tells(sentence)
    t.type("5\r")
    check(inputs(host.answer()) == (0xF1, {(3, 20): "5"}), "the session goes on")
    t.until(lambda: "DSP01" not in t.status(), "a key takes the sentence away")
    host.again()
    host.hang_up()
    t.tells("The host has closed the line.")
    time.sleep(1.1)
    t.type("c")
    t.until(host.is_ready.is_set, "it connects again")
    check(wanted in host.began, "and tells the name anew", host.began)
    t.tells(sentence)
    t.leave()
    host.close()


# A label, a monocase field that has to be entered, and one that takes all (IBM code page 273).
GERMAN = write() + text(1, 2, "Gr\u00fc\u00dfe {}[]|~@\u00a7", page="cp273") \
    + text(3, 2, "Gr\u00f6\u00dfe . . :", page="cp273") + field(3, 20, 6, 0x4028) + field(5, 20, 12) + READ


def german():
    """What is typed, pasted and shown goes by the code page, and so do sentences and what is saved."""
    with tempfile.TemporaryDirectory() as folder:
        host, t = at_host(GERMAN, "03/020", "--code-page", "273", folder=folder)
        t.shows(0, "Gr\u00fc\u00dfe {}[]|~@\u00a7")
        t.rings("Enter where a field is empty", lambda: t.type("\r"))
        t.tells("'Gr\u00f6\u00dfe' has to be filled in.")
        t.type("\x12\u00e4\u00f6\u00fc")
        t.until(lambda: t.window.text(2)[19:] == "\u00c4\u00d6\u00dc", "capitals by the code page")
        t.type("\t")
        t.rings("a character that it lacks", lambda: t.type("\u20ac"))
        t.tells("The host's characters lack '\u20ac'.")
        t.type("\x12@[\u00df]")
        t.paste("{\u00a7}")
        t.until(lambda: t.window.text(4)[19:] == "@[\u00df]{\u00a7}", "typed and pasted")
        t.type("\x1dp")
        t.tells("The screen is in term5250.txt.")
        with open(os.path.join(folder, "term5250.txt"), encoding="utf-8") as file:
            check("@[\u00df]{\u00a7}" in file.read(), "the saved screen has them")
        t.type("\r")
        answer = inputs(host.answer(), "cp273")
        check(answer == (0xF1, {(3, 20): "\u00c4\u00d6\u00dc", (5, 20): "@[\u00df]{\u00a7}"}), "sent", answer)
        t.leave()
        host.close()


def euros():
    """The euro sign stands at 9F (IBM code pages 1140 and 1141) where the others have the currency sign."""
    for number, taken, lacked in ("1140", "\u20ac", "\u00a4"), ("1141", "\u20ac", "\u00a4"), ("37", "\u00a4", "\u20ac"):
        form = write() + text(1, 2, "of ") + b"\x9f" + field(3, 20, 6) + READ
        host, t = at_host(form, "03/020", "--code-page", number)
        t.shows(0, f"of {taken}")
        t.type(taken)
        t.until(lambda taken=taken: t.window.text(2)[19:] == taken, "typed")
        t.rings("the other sign", lambda lacked=lacked: t.type(lacked))
        t.tells(f"The host's characters lack '{lacked}'.")
        t.type("\x12\r")
        answer = host.answer()
        check(answer[2].endswith(b"\x11\x03\x14\x9f"), "and sent", number, answer)
        t.leave()
        host.close()


def wrong_words():
    """What is no name, page or type is told before anything else, with its line where it stands in the hosts file."""
    device = "--device is 1 to 10 of A to Z, 0 to 9, $ # @ _ and ., not first 0 to 9, _ or ., and not "
    number = "--code-page is 37, 273, 277, 278, 280, 284, 285, 297, 500, 871 or 1140 to 1149, and not "
    keyboard = "--keyboard is three letters and digits, as USB, and not "
    rows = (*((["--device", name], device + name) for name in ("1A", "ABCDEFGHIJK", "A-B", "A B", "_A", "", "\u00c4")),
            *((["--code-page", page], number + page) for page in ("38", "0", "", "x", "37x", "-37", "1150", "65573")),
            *((["--keyboard", name], keyboard + name) for name in ("US", "USBB", "U-B", "")),
            (["--strict", "--device", "A"], "--device, --code-page and --keyboard aren't for --strict"),
            (["--code-page=273", "--strict"], "--device, --code-page and --keyboard aren't for --strict"))
    for words, sentence in rows:
        Terminal(*words, "localhost:1").ended(2, f"term5250: {sentence}", "term5250 --help has all options.")
    with tempfile.TemporaryDirectory() as home:
        path = hosts_file.write(home, "a: --device 1A h:1\nb: --code-page=99 h:1\nc: --keyboard U h:1\n")
        for name, line, sentence in ("a", 1, device + "1A"), ("b", 2, number + "99"), ("c", 3, keyboard + "U"):
            Terminal(name, HOME=home).ended(2, f"{path}, line {line}: {sentence}")
