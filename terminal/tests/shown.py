"""What is shown: attributes, colours, the status line, small windows; and what each key does."""
import os
import signal
import tempfile
import time

from hosts import Host, READ, field, inputs, text, write
from window import Terminal, check
from work import FORM, at_form

GREEN, WHITE, RED, TURQUOISE, YELLOW, PINK, BLUE = 2, 7, 1, 6, 3, 5, 4
COLORS = [GREEN, GREEN, WHITE, WHITE, GREEN, GREEN, WHITE, None, RED, RED, RED, RED, RED, RED, RED, None,
          TURQUOISE, TURQUOISE, YELLOW, YELLOW, TURQUOISE, TURQUOISE, YELLOW, None, PINK, PINK, BLUE, BLUE, PINK, PINK,
          BLUE, None]


def expected(attribute, is_color):
    """What a cell under an attribute looks like (SC30-3533; IBM 3179-2); None where nothing is shown."""
    low = attribute & 7
    if low == 7:
        return None
    looks = {}
    if attribute & 1:
        looks["reverse"] = True
    if attribute & 4:
        looks["underscore"] = True
    if is_color:
        looks["color"] = COLORS[attribute - 0x20]
        if looks["color"] == WHITE:
            looks["bold"] = True
        if attribute in (0x2A, 0x2B, 0x2E):
            looks["blink"] = True
    else:
        if attribute & 2:
            looks["bold"] = True
        if attribute & 8:
            looks["blink"] = True
    return looks


def attributes():
    """All 32, with colours, and without them for each of their causes."""
    rows = b"".join(text(5 + k % 16, 3 + 20 * (k // 16), f"x y{k:02}", 0x20 + k) for k in range(32))
    body = write() + text(1, 1, "all") + rows + READ
    for words, more in (([], {}), (["--mono"], {}), ([], {"NO_COLOR": "1"}), (["--terminal", "IBM-3196-A1"], {}),
                        (["--separators", "off"], {}), ([], {"term": "vt100"}), ([], {"NO_COLOR": ""})):
        host = Host()
        t = Terminal(*words, f"127.0.0.1:{host.port}", **more)
        host.ready()
        host.send(body)
        t.shows(0, "all")
        t.until(lambda: "waiting" not in t.status() and "x" in t.window.text(18)[22:], "all rows are there")
        t.settle()
        is_color = not words[:1] in (["--mono"], ["--terminal"]) and not more.get("NO_COLOR") and "term" not in more
        for k in range(32):
            row, column = 4 + k % 16, 2 + 20 * (k // 16)
            shown = "".join(cell[0] for cell in t.window.cells[row][column : column + 5])
            wanted = expected(0x20 + k, is_color)
            attribute = 0x20 + k
            separated = 0x30 <= attribute <= 0x33 if is_color else attribute & 0x10
            if wanted is not None and separated and "off" not in words:
                wanted["underscore"] = True
            words_shown = f"x y{k:02}" if wanted is not None else "     "
            check(shown == words_shown, f"{attribute:02X} shows", words, more, shown)
            if wanted is not None:
                check(t.window.looks(row, column) == wanted, f"{attribute:02X} looks", words, more,
                      t.window.looks(row, column), wanted)
        t.leave()
        host.close()


def grounds():
    """Black, unless the window says that it is dark, or its own ground is asked for."""
    for words, more, black in (([], {}, True), ([], {"COLORFGBG": "0;15"}, True), ([], {"COLORFGBG": "15;0"}, False),
                               ([], {"COLORFGBG": "15;default"}, True), (["--background", "own"], {}, False),
                               (["--background", "black"], {"COLORFGBG": "15;0"}, True)):
        host, t = at_form(*words, **more)
        ground = t.window.cells[0][29][1].get("ground")
        check((ground == 0) == black, "the ground", words, more, ground)
        t.leave()
        host.close()


def locales():
    """Without UTF-8 in the locale \u00e9 is shown all the same, and it is told."""
    form = FORM.replace(b"\x04\x52", text(20, 2, "caf\u00e9") + b"\x04\x52")
    for name in ("C", "POSIX", "xx_YY.UTF-8"):
        host = Host()
        t = Terminal(f"127.0.0.1:{host.port}", LC_ALL=name)
        t.tells("The locale has no UTF-8: C.UTF-8 is taken in its place.")
        host.ready()
        host.send(form)
        t.shows(19, "caf\u00e9", "\u00e9 is shown")
        t.type("\tna\u00efve\r")
        check(inputs(host.answer()) == (0xF1, {(4, 20): "na\u00efve"}), f"and typed with LC_ALL={name}")
        t.leave()
        host.close()
    host = Host()
    t = Terminal(f"127.0.0.1:{host.port}", rows=24, LC_ALL="C")
    t.tells("The locale has no UTF-8: C.UTF-8 is taken in its place.")
    host.ready()
    host.send(form.replace(b"\x04\x52", text(24, 2, "the last row") + b"\x04\x52"))
    t.shows(23, "the last row", "with 24 rows the note stands there no longer than the status line")
    t.leave()
    host.close()


def characters():
    """All of code page 037 is shown, and can be typed."""
    every = bytes(range(0x40, 0xFF)).decode("cp037")
    rows = [every[:60], every[60:120], every[120:]]
    host = Host()
    t = Terminal(f"127.0.0.1:{host.port}")
    host.ready()
    host.send(write() + b"".join(text(3 + k, 5, row) for k, row in enumerate(rows)) + field(12, 2, 200) + READ)
    t.at("12/002")
    for k, row in enumerate(rows):
        t.until(lambda: t.window.text(2 + k)[4:] == row.rstrip(" "), f"row {k} of all characters")
    t.type(every)
    t.at("14/033")
    t.type("\r")
    check(inputs(host.answer())[1] == {(12, 2): every}, "all of them typed")
    t.leave()
    host.close()


def status_line():
    host = Host(negotiates=False)
    t = Terminal(f"127.0.0.1:{host.port}")
    t.tells("connected, the session hasn't begun  127.0.0.1:")
    t.leave()
    host.close()
    host = Host()
    t = Terminal(f"127.0.0.1:{host.port}")
    t.tells(f"waiting for the host  127.0.0.1:{host.port}")
    t.tells("^] menu")
    t.until(lambda: "waiting for the host" in t.window.title, "the title tells it too")
    host.ready()
    host.send(write(0x19) + field(3, 20, 6) + READ)
    t.until(lambda: t.status().startswith(f" 127.0.0.1:{host.port}") and "MW" in t.status(), "the turn is the clerk's")
    t.until(lambda: t.window.shape == "1", "the cursor blinks")
    host.send(b"\x04\x11\x00\x2a")
    t.until(lambda: t.window.shape == "2" and "MW" not in t.status(), "and no longer")
    t.type("\x1b[2~")
    t.until(lambda: t.window.shape == "6" and "INS" in t.status(), "insert mode in the cursor's shape")
    t.type("\r")
    t.until(lambda: t.window.shape == "4", "a lock too")
    t.type("\x1d")
    for words in ("MW  a message waits", "T  keys wait", "field 10", "q  leave", "passwords"):
        t.until(lambda: any(words in t.window.text(row) for row in range(25)), f"the menu has {words!r}")
    t.type("x")
    t.leave()
    host.close()


def blinking_without_shapes():
    host = Host()
    t = Terminal(f"127.0.0.1:{host.port}", term="linux")
    host.ready()
    host.send(write(0x18) + field(3, 20, 6) + READ)
    t.until(lambda: b"\x1b[?8c" in t.said, "the cursor blinks where it has no shapes")
    t.leave()
    host.close()


def at_24_rows():
    host, begun = Host(), time.monotonic()
    t = Terminal(f"127.0.0.1:{host.port}", rows=24)
    host.ready()
    form = FORM.replace(b"\x04\x52", text(24, 2, "the last row") + b"\x04\x52")
    host.send(form)
    t.shows(23, "^] menu", "24 rows: at first the status line lies over the last one")
    t.shows(23, f"127.0.0.1:{host.port}")
    t.shows(23, "the last row", "24 rows: then the screen whole")
    check(3 <= time.monotonic() - begun, "after three seconds", time.monotonic() - begun)
    t.idles("then")
    t.type("\x13")
    t.shows(23, "^] menu  field 6  03/020", "^S lays it there")
    t.type("1\x13")
    t.shows(23, "the last row", "and takes it off")
    t.type("\x1d")
    t.shows(3, "t  the status line over row 24")
    t.type("t")
    t.shows(23, "^] menu  field 6  03/021", "the menu lays it there too")
    t.type("\x1dt")
    t.shows(23, "the last row", "and takes it off")
    t.type("\x08")
    t.until(lambda: f"127.0.0.1:{host.port}" in t.window.title and "waiting" not in t.window.title, "the title")
    t.type("\x0f")
    t.until(lambda: t.window.shape == "6" and "INS" in t.window.title, "insert mode covers nothing")
    t.type("\x0f\x1b")
    t.settle()
    check("the last row" in t.window.text(23), "nor does Esc")
    t.type("1")
    check(inputs(host.answer())[0] == 0x31, "which waits for its key")
    host.send(form)
    t.until(lambda: "waiting" not in t.window.title, "the screen comes again")
    t.rings("a refused key", lambda: t.type("1x"))
    t.shows(23, "Reset: ^R", "its sentence lies over the last row")
    t.type("\x12")
    t.shows(23, "the last row", "and goes with Reset")
    t.type("\x1d")
    t.shows(23, f"127.0.0.1:{host.port}", "^] shows the status line there")
    t.type("x")
    t.shows(23, "the last row", "and it goes with the menu")
    t.type("\r")
    host.answer()
    t.until(lambda: t.window.shape == "4" and "waiting for the host" in t.window.title, "a lock covers nothing")
    t.type("5")
    t.until(lambda: ": T" in t.window.title, "nor do keys that wait")
    t.rings("the message light", lambda: host.send(b"\x04\x11\x00\x01", 2))
    t.until(lambda: "MW" in t.window.title, "the message light is in the title")
    t.shows(23, "the last row", "and covers nothing")
    t.leave()
    host.close()


def small_windows():
    host, t = at_form()
    t.resize(20, 60)
    t.shows(0, "This window is 60 by 20", "a window that is too small is told")
    t.rings("a key there", lambda: t.type("5\r"))
    check(host.answer(0.3) is None, "and no key goes out")
    t.type("\x1d")
    t.shows(1, "q  leave", "the menu opens there")
    t.type("x")
    t.shows(0, "This window is", "and closes")
    t.resize(30, 100)
    t.until(lambda: "Order" in t.window.text(0) and "03/020" in t.status(), "a window that grows again is drawn")
    check(t.window.text(2)[19:25] == "", "and nothing was typed", t.window.text(2))
    os.kill(t.child.pid, signal.SIGSTOP)
    t.settle()
    t.window.clear()
    t.window.modes.discard("2004")  # As a shell does that takes the window meanwhile.
    os.kill(t.child.pid, signal.SIGCONT)
    t.shows(0, "Order", "a program that was stopped draws all again")
    t.until(lambda: "2004" in t.window.modes, "and the window brackets what is pasted")
    t.resize(24, 80)
    t.until(lambda: "Order" in t.window.text(0) and t.window.text(23) == "", "24 rows again")
    t.type("\r")
    host.answer()
    t.type("8\r")
    t.until(lambda: ": T" in t.window.title, "keys wait")
    t.resize(23, 80)
    t.shows(0, "This window is 80 by 23")
    host.send(FORM)
    check(host.answer(0.4) is None, "those that wait don't go out either")
    t.resize(25, 80)
    check(inputs(host.answer()) == (0xF1, {(3, 20): "8"}), "but when there is room again")
    t.leave()
    host.close()


def stopped():
    """A program that is asked to stop gives the window back to the shell, and takes it again."""
    host = Host()
    shell = 'set -m; "$0" "$@"; echo stopped by $?; read -r line; fg'
    t = Terminal("-c", shell, Terminal.program, f"127.0.0.1:{host.port}", program="/bin/bash")
    check(host.ready(), "the session begins")
    host.send(FORM)
    t.at("03/020")
    t.type("\x0f")
    t.until(lambda: t.window.shape == "6", "insert mode in the cursor's shape")
    with open(f"/proc/{t.child.pid}/task/{t.child.pid}/children") as file:
        child = int(file.read().split()[0])
    os.kill(child, signal.SIGTSTP)
    t.until(lambda: b"stopped by 148" in t.said, "the shell has the window")
    check(not t.window.modes & {"1049", "1000", "2004"} and t.window.shape == "0", "as it was", t.window.modes)
    t.type("\n")
    t.until(lambda: "Order" in t.window.text(0) and {"1049", "2004"} <= t.window.modes, "then it goes on")
    t.until(lambda: t.window.shape == "6", "with its cursor")
    t.type("\x0f")
    t.paste("12\nab")
    t.until(lambda: t.window.text(3)[19:21] == "ab", "and a paste sends nothing")
    t.type("\r")
    check(inputs(host.answer()) == (0xF1, {(3, 20): "12", (4, 20): "ab"}), "both ways")
    t.leave()
    host.close()


# What terminals send for F13 to F24, and for F1 to F12.
WAYS = [
    [f"\x1b[1;2{letter}" for letter in "PQRS"] + [f"\x1b[{k};2~" for k in (15, 17, 18, 19, 20, 21, 23, 24)],
    [f"\x1b[1;3{letter}" for letter in "PQRS"] + [f"\x1b[{k};3~" for k in (15, 17, 18, 19, 20, 21, 23, 24)],
    [f"\x1bO1;2{letter}" for letter in "PQRS"],
    [f"\x1b[{k};2~" for k in (11, 12, 13, 14)],
    [f"\x1b[{k}~" for k in (25, 26, 28, 29, 31, 32, 33, 34)],
    ["\x1b" + key for key in "!@#$%^&*()_+"],
    [f"\x1b\x1bO{letter}" for letter in "PQRS"] + [f"\x1b\x1b[{k}~" for k in (15, 17, 18, 19, 20, 21, 23, 24)],
]
LOWER = [
    [f"\x1bO{letter}" for letter in "PQRS"] + [f"\x1b[{k}~" for k in (15, 17, 18, 19, 20, 21, 23, 24)],
    [f"\x1b[{k}~" for k in (11, 12, 13, 14)],
    [f"\x1b[[{letter}" for letter in "ABCDE"],
    ["\x1b" + key for key in "1234567890-="],
]


def function_keys(terms=("xterm", "screen")):
    """Each function key by each of its ways, Page Up and Down, and the other keys that send."""
    keys = [(key, 0xB1 + at) for way in WAYS for at, key in enumerate(way)]
    keys += [(key, 0x31 + at) for way in LOWER for at, key in enumerate(way)]
    keys += [("\x1b[5~", 0xF4), ("\x1b[6~", 0xF5), ("\x1bc", 0xBD), ("\x07", 0xF3), ("\x1bh", 0xF3), ("\x10", 0xF6),
             ("\x1bb", 0xF8), ("\r", 0xF1), ("\x1bOM", 0xF1)]
    for term in terms:
        host, t = at_form(term=term)
        for key, wanted in keys:
            t.type(key)
            answer = inputs(host.answer())[0]
            check(answer == wanted, f"{key!r} at {term} sends {wanted:02X}", answer)
            host.send(FORM)
            t.until(lambda: "waiting" not in t.status(), "the screen comes again")
        t.leave()
        host.close()


def keypad():
    """The numeric keypad in its application mode, at a terminal whose description knows it, and at others."""
    typed = {"p": "0", "q": "1", "r": "2", "s": "3", "t": "4", "u": "5", "v": "6", "w": "7", "x": "8", "y": "9",
             "n": ".", "l": ",", "j": "*", "o": "/", "X": "="}
    for term in ("xterm", "screen", "vt100", "linux", "rxvt"):
        host, t = at_form(term=term)
        t.type("\t" + "".join(f"\x1bO{final}" for final in typed) + "\x1bOM")
        check(inputs(host.answer()) == (0xF1, {(4, 20): "".join(typed.values())}), f"the keypad of {term}")
        t.leave()
        host.close()


def editing():
    """Keys that the terminal makes of several, and the cursor by the mouse."""
    host, t = at_form()
    t.type("\tabc def\x01")
    t.at("04/020")
    t.type("\x05")
    t.at("04/027")
    t.type("\x1b[D\x1b[D\x1b[D\x0b")
    t.until(lambda: t.window.text(3)[19:30] == "abc" and "04/024" in t.status(), "Erase EOF, and the cursor stays")
    t.type("\n")
    t.at("05/020")
    t.type("\n\n")
    t.at("03/020")
    t.type("12\x06")
    t.at("04/020")
    t.type("\x1b[H12\x0e")
    t.until(lambda: "04/020" in t.status() or "numeric" in t.status(), "Field Minus is pressed")
    t.type("\x12\x1b[<0;77;6M\x1b[<0;77;6m")
    t.at("06/077")
    t.type("\x1b[<0;75;6M\x1b[<0;75;6mabcdefghij")
    t.until(lambda: t.window.text(5)[74:80] == "abcdef" and t.window.text(6)[0:4] == "ghij", "a field of two rows")
    for place in range(9, 0, -1):
        row, column = (6, 75 + place) if place < 6 else (7, place - 5)
        t.type(f"\x1b[<0;{column};{row}M\x1b[<0;{column};{row}m")
        t.at(f"{row:02}/{column:03}")
        t.type("\x7f")
        left = "abcdefghij"[: place - 1] + "j"
        t.until(lambda: (t.window.text(5)[74:80] + t.window.text(6)[0:4]).strip() == left, f"Backspace at {place}")
    t.rings("Backspace at the field's begin", lambda: t.type("\x01\x7f"))
    t.tells("The field begins here.")
    host.send(b"\x04\x11\x00\x00", 2)
    t.until(lambda: "begins here" not in t.status(), "no longer than it is true")
    for sequence in "\x1b[1;5C", "\x1bO5C", "\x1b]11;rgb:0/0/0\x07":
        t.rings("a sequence that is no key", lambda: t.type(sequence))
        t.tells("This is no key here: ^] has them all.")
        t.type("\x0c")
        t.until(lambda: "no key" not in t.status(), "up to the next key")
    t.type("\x1b")
    t.settle(0.2)  # The rest of a key's sequence comes late.
    t.rings("it, come late", lambda: t.type("[1;5C"))
    t.rings("a control that is none", lambda: t.type("\x03"))
    t.tells("^C is no key here")
    t.rings("Esc before what is no key", lambda: t.type("\x1bz"))
    t.tells("Esc z is no key here")
    t.type(b"\xc3")
    t.settle(0.2)  # And of a letter.
    t.type(b"\xa9")
    t.until(lambda: t.window.text(5)[74:80].strip() == "\u00e9", "and nothing of them is typed")
    t.rings("\u00e9 of Latin-1", lambda: t.type(b"\xe9x"))
    t.tells("The window sent what is no character: is it set to UTF-8?")
    t.until(lambda: t.window.text(5)[74:80].strip() == "\u00e9x", "and the key after it is pressed")
    t.rings("an arrow after it", lambda: t.type(b"\xe9\x1bOA"))
    t.at("05/077")
    t.type("\x1bOB")
    t.rings("it in a paste", lambda: t.type(b"\x1b[200~y\xe9z\x1b[201~"))
    t.tells("1 of 3 pasted. The host's characters lack '\ufffd'.")
    t.rings("it at a paste's end", lambda: t.type(b"\x12\x1b[200~\xe9\x1b[201~"))
    t.tells("Nothing pasted. The host's characters lack '\ufffd'.")
    t.rings("Enter after it", lambda: t.type(b"\x12\xe9\r"))
    check(inputs(host.answer())[1][6, 75] == "\u00e9xy", "is pressed too")
    t.leave()
    host.close()


def keys_files():
    with tempfile.TemporaryDirectory() as folder:
        name = os.path.join(folder, "keys")
        with open(name, "w") as file:
            file.write("# mine\n^A = attention\nKeypadPlus = field-plus\n^B = f3\n")
        host, t = at_form("--keys", name)
        t.type("12\x1bOk")
        t.at("04/020")
        t.type("\x01")
        check(host.answer()[1] == 0x4000, "a keys file sets what a key does")
        t.type("\x02")
        check(inputs(host.answer())[0] == 0x33, "and another")
        t.leave()
        host.close()
        os.makedirs(os.path.join(folder, "term5250"))
        usual = os.path.join(folder, "term5250", "keys")
        with open(usual, "w") as file:
            file.write("F3 = enter\n\nF4 = nowhere\n")
        t = Terminal("localhost:1", XDG_CONFIG_HOME=folder)
        t.ended(2, f"{usual}, line 3: `nowhere` is no action")
        t = Terminal("--keys", "/nowhere/keys", "localhost:1")
        t.ended(2, "/nowhere/keys: No such file")


def print_screen():
    with tempfile.TemporaryDirectory() as folder:
        host, t = at_form(folder=folder)
        t.type("42\x1dp")
        t.tells("The screen is in term5250.txt.")
        t.type("\x1dp")
        t.tells("The screen is in term5250.txt-1.")
        with open(os.path.join(folder, "term5250.txt")) as file:
            rows = file.read().split("\n")
        check(len(rows) == 25 and rows[2] == f" Price{'':13}42", "the screen in a file", rows)
        check(os.stat(os.path.join(folder, "term5250.txt")).st_mode & 0o777 == 0o600, "which others can't read")
        t.leave()
        host.close()
        host, t = at_form(rows=24, folder=folder)
        t.type("\x1dp")
        t.shows(23, "The screen is in term5250.txt-2.")
        host.send(b"\x04\x11\x00\x00" + text(24, 2, "not posted"), 2)
        t.shows(23, "not posted", "with 24 rows its sentence gives way to what the host writes")
        t.leave()
        host.close()
