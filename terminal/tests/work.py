"""What a clerk does: signs on, types, errs, types ahead, pastes."""
import os
import signal
import subprocess
import tempfile

from hosts import Host, Host5250, READ, field, inputs, text, write
from records import record
from window import Terminal, check

CUT = os.path.join(os.path.dirname(os.path.dirname(os.path.abspath(__file__))), "cut_recording.sh")
FORM = write() + text(1, 30, "Order", 0x22) + text(3, 2, "Price") + field(3, 20, 6, 0x4300) \
    + field(4, 20, 40) + field(5, 20, 10, 0x4000, 0x27) + field(6, 75, 10) + READ


def at_form(*words, form=FORM, **more):
    """A terminal at a host that has sent a form."""
    host = Host()
    host.window = t = Terminal(*words, f"127.0.0.1:{host.port}", **more)
    check(host.ready(), "the session begins")
    host.send(form)
    t.at("03/020")
    return host, t


def sign_on_and_form():
    host = Host5250()
    with tempfile.TemporaryDirectory() as folder:
        made = os.path.join(folder, "host.rec")
        t = Terminal("--record", made, f"127.0.0.1:{host.port}")
        t.shows(0, "Sign On")
        t.shows(22, "caf\u00e9 \u00a3\u00ac", "letters beyond ASCII")
        t.tells("^] menu  field 10  06/053")
        look = t.window.looks
        check(look(0, 36) == {"color": 7, "bold": True}, "white", look(0, 36))
        check(look(19, 2) == {"reverse": True, "color": 2}, "reverse green", look(19, 2))
        check(look(19, 14) == {"color": 1}, "red", look(19, 14))
        check(look(19, 24) == {"underscore": True, "color": 7, "bold": True}, "white underscored", look(19, 24))
        check(look(19, 44).get("color") == 3, "yellow", look(19, 44))
        check("hidden" not in t.window.text(19), "hidden text isn't shown", t.window.text(19))
        t.type("qsecu\x7fser")  # backspace takes the u
        t.until(lambda: t.window.text(5)[52:62] == "QSECSER", "the field is monocase")
        t.type("\x1bOD\x1bOD\x1bOD\x1b[3~\x1b[3~\x1b[3~")
        t.until(lambda: t.window.text(5)[52:62] == "QSEC", "left and delete")
        t.type("\x1b[2~")
        t.tells("INS")
        t.type("\x1bOHX")
        t.until(lambda: t.window.text(5)[52:62] == "XQSEC", "home and insert")
        t.type("\x0f\t")
        t.until(lambda: "07/053" in t.status() and "INS" not in t.status(), "the next field")
        t.type("geheim")
        t.at("07/059")
        check("geheim" not in t.window.text(6).lower(), "the password isn't shown")
        t.type("\x1bOA")
        t.at("06/059")
        t.type("\x1bOB\x1bOB")
        t.at("08/059")
        t.rings("a key outside a field", lambda: t.type("y"))
        t.tells("The cursor isn't in an input field: 'y' went nowhere.")
        t.tells("Reset: ^R")
        t.type("\x12\x1b[Z\r")
        t.shows(0, "Item inquiry")
        t.tells("MW")
        t.shows(9, "round 1: [XQSEC][geheim]")
        t.type("12\x18")
        t.at("04/020")
        t.type("na\u00efve\x1be")
        t.until(lambda: t.window.text(3)[19:40] == "" and "03/020" in t.status(), "erase input")
        t.type("\x1ba\x14")
        t.type("\x1b2")  # Esc 2: F2
        t.shows(9, "round 2")
        t.type("\x1bOR")  # F3
        t.tells("The host has closed the line.")
        t.tells("^] leaves")
        t.shows(9, "round 2", "the screen stays")
        t.leave(0, "The host has closed the line.")
        printed = host.stop()
        for words in ("ready, terminal 5", "answer key F1 at 7 53", "field 6 53 [XQSEC]", "field 7 53 [geheim]",
                      "attention", "system request", "answer key 32", "answer key 33"):
            check(words in printed, f"the host is told {words!r}", printed)
        shown = shown_of(made)
        check("Item inquiry" in shown and "round 2" in shown, "t5250 show reads the record", shown[-300:])


def cut(name, *side):
    return subprocess.run([CUT, name, *side], capture_output=True, text=True).stdout


def shown_of(name):
    """What `t5250 show` prints of a recording's host."""
    return subprocess.run([Terminal.t5250, "show"], input=cut(name), capture_output=True, text=True).stdout


def names_and_signals():
    host = Host5250()
    where = f"127.0.0.1:{host.port}"
    t = Terminal("--terminal", "ibm-5251-11", f"localhost:{host.port}", term="vt100")
    t.shows(0, "Sign On")
    t.at("06/053")
    check(t.window.looks(0, 36) == {"bold": True}, "high intensity without colours", t.window.looks(0, 36))
    check(t.window.looks(19, 2) == {"reverse": True}, "reverse without colours", t.window.looks(19, 2))
    os.kill(t.child.pid, signal.SIGTERM)
    t.ended(128 + signal.SIGTERM, "Ended by signal 15.")
    for number in (signal.SIGINT, signal.SIGHUP, signal.SIGQUIT):
        t = Terminal(where)
        t.shows(0, "Sign On", "a further session")
        os.kill(t.child.pid, number)
        t.ended(128 + number, f"Ended by signal {number}.")
    t = Terminal(where)
    t.shows(0, "Sign On", "a last session")
    t.leave(0, "Left.")
    check("terminal 1" in host.stop(), "the host is told the terminal type")


def holds():
    """A refused key holds the others off, so that nothing wrong is sent."""
    host, t = at_form()
    t.rings("a letter in a numeric field", lambda: t.type("12x.50\r"))
    t.tells("No 'x' here: 0-9 + - , . only.")
    t.settle()
    check(t.window.text(2)[19:25] == "12" and host.answer(0.3) is None, "12x.50 isn't sent as 12.50", t.window.text(2))
    t.rings("a key while one is held", lambda: t.type("7"))
    t.type("\x1bOD")
    t.at("03/021")
    t.tells("No 'x'")
    t.type("\x12")
    t.until(lambda: "No 'x'" not in t.status(), "Reset takes the sentence away")
    t.type("\x1bOC.50\t\t")
    t.at("05/020")
    t.rings("a character that the host lacks", lambda: t.type("pa\u20acss\r"))
    t.tells("The host's characters lack it.")
    check("\u20ac" not in t.status(), "which a hidden field doesn't show", t.status())
    check(host.answer(0.3) is None, "pa\u20acss isn't sent as pass")
    t.type("\x1b\x1b")
    t.until(lambda: "lack" not in t.status(), "Esc twice is Reset")
    t.type("ss\r")
    answer = host.answer()
    check(inputs(answer) == (0xF1, {(3, 20): "12.50", (5, 20): "pass"}), "the answer", answer)
    t.type("\x1bs\x1ba")
    check([host.answer()[1] for _ in range(2)] == [0x0400, 0x4000], "requests don't wait for the keyboard")
    t.leave()
    host.close()


def without_hold():
    host, t = at_form("--no-hold")
    t.rings("a refused key", lambda: t.type("12x"))
    t.tells("No 'x'")
    t.type(".")
    t.until(lambda: t.window.text(2)[19:25] == "12.", "the next key is taken")
    t.until(lambda: "No 'x'" not in t.status(), "and the sentence goes")
    t.type("5\r")
    check(inputs(host.answer()) == (0xF1, {(3, 20): "12.5"}), "the others go on")
    host.send(FORM)
    t.at("03/020")
    t.paste("9x8\n7")
    t.tells("1 of 4 pasted. No 'x' here: 0-9 + - , . only.")
    t.type("6\r")
    check(inputs(host.answer()) == (0xF1, {(3, 20): "96"}), "a paste stops all the same")
    host.send(FORM)
    t.at("03/020")
    t.type("2\x1bOD\x0f")
    t.paste("10x8\n7")
    t.tells("2 of 5 pasted. No 'x' here: 0-9 + - , . only.")
    t.type("6\r")
    check(inputs(host.answer()) == (0xF1, {(3, 20): "1062"}), "in insert mode too")
    t.leave()
    host.close()


def typed_ahead():
    host, t = at_form()
    t.type("1\r22\r333")
    check(inputs(host.answer()) == (0xF1, {(3, 20): "1"}), "the first screen's answer")
    t.until(lambda: " T " in t.status() and "waiting for the host" in t.status(), "keys wait, and it is shown")
    host.send(FORM)
    check(inputs(host.answer()) == (0xF1, {(3, 20): "22"}), "the second screen's answer, typed before it came")
    host.send(FORM)
    t.until(lambda: t.window.text(2)[19:25] == "333" and " T " not in t.status(), "and the third's beginning")
    t.type("\r")
    host.answer()
    t.type("4x5\r")
    t.until(lambda: " T " in t.status(), "they wait again")
    t.rings("the first that is refused", lambda: host.send(FORM))
    t.tells("No 'x' here: 0-9 + - , . only. 2 dropped.")
    t.tells("Reset: ^R")
    check(host.answer(0.3) is None and t.window.text(2)[19:25] == "4", "what is behind it is dropped whole")
    t.type("\x12\r")
    check(inputs(host.answer()) == (0xF1, {(3, 20): "4"}), "then the screen goes out as it is seen")
    t.type("77")
    t.until(lambda: " T " in t.status(), "they wait once more")
    t.type("\x1ba")
    check(host.answer()[1] == 0x4000, "Attention doesn't wait")
    t.rings("Reset", lambda: t.type("\x12"))
    t.tells("2 keys typed ahead dropped")
    host.send(FORM)
    t.at("03/020")
    t.settle()
    check(t.window.text(2)[19:25] == "", "and nothing of them is played", t.window.text(2))
    t.leave()
    host.close()


def typed_too_far_ahead():
    """After a key that found no room none waits up to where the others have been pressed: nothing goes out in part."""
    host, t = at_form()
    t.type("1\r")
    host.answer()

    def line(number):
        return f"{number:04}" + "x" * 34

    t.rings("more than can wait", lambda: t.type("".join(f"\t{line(k)}\r" for k in range(110))))
    t.tells("4096 keys can wait, and no more: those after them are dropped.")
    came = []
    for number in range(102):
        host.send(FORM)
        came.append(inputs(host.answer()))
        if number == 50:
            t.rings("a key while some still wait", lambda: t.type(f"\t{line(999)}\r"))
    check(came == [(0xF1, {(4, 20): line(k)}) for k in range(102)], "those that wait go out whole", came[-1])
    host.send(FORM)
    t.until(lambda: t.window.text(3)[19:] == line(102)[:15] and " T " not in t.status(), "and the last ones are typed")
    t.type("y\r")
    check(inputs(host.answer()) == (0xF1, {(4, 20): line(102)[:15] + "y"}), "then keys are taken again")
    t.rings("more than can wait", lambda: t.type("\t" + "z" * 4100))
    t.rings("Reset", lambda: t.type("\x12"))
    t.tells("4096 keys typed ahead dropped.")
    t.type("\tz\r")
    host.send(FORM)
    check(inputs(host.answer()) == (0xF1, {(4, 20): "z"}), "and after Reset too")
    t.leave()
    host.close()


def pastes():
    host, t = at_form()
    t.until(lambda: "2004" in t.window.modes, "the window brackets what is pasted")
    t.paste("12\r\nsmall nails\nsecret")
    t.until(lambda: t.window.text(3)[19:30] == "small nails" and "05/026" in t.status(), "lines go to fields")
    check(host.answer(0.3) is None, "and Enter isn't pressed")
    t.type("\r")
    check(inputs(host.answer()) == (0xF1, {(3, 20): "12", (4, 20): "small nails", (5, 20): "secret"}), "the answer")
    host.send(FORM)
    t.at("03/020")
    t.paste("123456\nnails")
    t.until(lambda: t.window.text(3)[19:24] == "nails", "a line that fills its field ends there")
    t.type("\x1bOH")
    t.at("03/020")
    t.rings("a refused character", lambda: t.paste("9x8\n7"))
    t.tells("1 of 4 pasted. No 'x' here: 0-9 + - , . only.")
    t.settle()
    check(t.window.text(2)[19:25] == "923456" and t.window.text(3)[19:24] == "nails", "nothing behind it goes in")
    t.type("\x12")
    t.rings("escape sequences in pasted text", lambda: t.paste("8\x1bOR\r"))
    t.tells("1 of 2 pasted. The host's characters lack U+001B.")
    check(host.answer(0.3) is None, "and they are no keys")
    t.type("\x12\r")
    host.answer()
    t.paste("11\nab")
    t.tells(" T ")
    host.send(FORM)
    t.until(lambda: t.window.text(2)[19:21] == "11" and t.window.text(3)[19:21] == "ab", "pasted text waits as keys do")
    t.type("\x1b[200~12")
    t.until(lambda: t.window.text(4)[19:21].strip() == "", "a paste without its end")
    t.settle(7)
    t.type("\r")
    check(host.answer() is not None, "is over behind a silence")
    t.leave()
    host.close()


def against_serve():
    """The same keys at the terminal and at `t5250 connect`, against `t5250 serve`: the same screen."""
    body = ("04400411000811012426E2968540D695400B11061424E4A28599" "11061B1D400024000A" "0452 0000").replace(" ", "")
    with tempfile.TemporaryDirectory() as folder:
        name = os.path.join(folder, "serve.script")
        with open(name, "w") as file:
            file.write(f"await\nsend 3 {body}\nawait\n")
        screens = []
        for kind in ("term5250", "connect"):
            server = subprocess.Popen([Terminal.t5250, "serve", "127.0.0.1:0", name], stdout=subprocess.PIPE, text=True)
            address = server.stdout.readline().split()[1]
            screens.append(typed_in_terminal(address) if kind == "term5250" else typed_in_connect(address))
            server.wait(timeout=120)
            server.stdout.close()
        check(screens[0] == screens[1], "the terminal shows what connect shows", screens)


def typed_in_terminal(address):
    t = Terminal(address)
    t.until(lambda: "06/028" in t.status() and "waiting" not in t.status(), "the screen of serve")
    t.type("bob")
    t.until(lambda: "bob" in t.window.text(5), "typed")
    rows = [t.window.text(row) for row in range(24)]
    t.leave()
    return rows


def typed_in_connect(address):
    keys = subprocess.run([Terminal.t5250, "connect", address], input="await\ntype bob\nshow\n", capture_output=True,
                          text=True)
    rows = [""] * 24
    for line in keys.stdout.splitlines():
        number, _, words = line[:2].strip(), line[2:3], line[3:]
        if number.isdigit():
            rows[int(number) - 1] = words
    return rows


def screens_in_a_row(count):
    """Text and Enter typed as the screens come, and ahead of them: each answer has its text."""
    host, t = at_form()
    wrong, typed = 0, 0
    for number in range(count):
        while typed < min(number + 1 + number % 4, count):
            t.type(f"{typed % 1000000}\r")
            typed += 1
        answer = inputs(host.answer())
        wrong += answer != (0xF1, {(3, 20): str(number % 1000000)})
        if number % 3 == 0:
            host.send(FORM)
        elif number % 3 == 1:
            for piece in record(FORM)[:7], record(FORM)[7:]:
                host.send_raw(piece)
        else:  # The screen first, and the keyboard behind it.
            host.send(FORM.replace(b"\x04\x11\x00\x08", b"\x04\x11\x00\x00"), 2)
            host.send(b"\x04\x52\x00\x08")
        t.read(0)
    check(wrong == 0, f"{count} screens, each answer has its text", wrong)
    t.leave()
    host.close()
