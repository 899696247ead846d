"""Macros: recorded from the menu, kept by a name, played; never into a hidden field."""
import os
import tempfile

from hosts import READ, field, inputs, text, write
from connecting import in_box
from desk import at_host
from window import check
from work import FORM, at_form

SIGN_ON = write() + text(6, 2, "User") + field(6, 20, 10) + text(7, 2, "Password") + field(7, 20, 10, 0x4000, 0x27) + READ


def kept(folder, name):
    path = os.path.join(folder, "term5250", "macros", name)
    with open(path, encoding="utf-8") as file:
        lines = file.read().splitlines()
    return lines, os.stat(path).st_mode & 0o777


def put(folder, name, content):
    os.makedirs(os.path.join(folder, "term5250", "macros"), exist_ok=True)
    with open(os.path.join(folder, "term5250", "macros", name), "w", encoding="utf-8") as file:
        file.write(content)


def play(t, name):
    t.type("\x1da")
    t.shows(3, "Play which macro:")
    t.type(name + "\r")


def over_two_screens():
    """What was typed at two screens is typed again at two, and kept in a file that can be read."""
    wanted = [(0xF1, {(3, 20): "12", (4, 20): "caf\u00e9", (6, 75): "x"}), (0x33, {(4, 20): "y"})]
    with tempfile.TemporaryDirectory() as folder:
        host, t = at_form(XDG_CONFIG_HOME=folder)
        t.type("\x1d")
        t.shows(3, "m  record a macro")
        t.type("m")
        t.tells("Keys are recorded; m in the menu keeps them by a name.")
        t.tells("MAC")
        t.type("12\tcafe\x7f\u00e9\x1b[<0;75;6M\x1b[<0;75;6mx\r")
        check(inputs(host.answer()) == wanted[0], "a first screen is answered")
        host.send(FORM)
        t.until(lambda: "waiting" not in t.status(), "a second one comes")
        t.rings("a refused key", lambda: t.type("z"))
        t.type("\x12\t\x0fy\x0f\x1bOR")
        check(inputs(host.answer()) == wanted[1], "and is answered too")
        t.type("\x1d")
        t.shows(3, "m  keep the macro")
        t.type("m")
        t.shows(3, "Name of the macro:")
        t.rings("what is no name's", lambda: t.type("or/"))
        t.type("x\x7f\x7fo1")
        t.shows(3, "Name of the macro: oo1")
        t.type("\r")
        t.tells("The macro is kept as oo1.")
        t.until(lambda: "MAC" not in t.status(), "and no more is recorded")
        lines, mode = kept(folder, "oo1")
        check(lines == ["text 12", "tab", "text cafe", "backspace", "text \u00e9", "cursor 6 75", "text x", "enter", "tab",
                        "inserted y", "f3"], "the file", lines)
        check(mode == 0o600, "which others can't read", oct(mode))
        host.send(FORM)
        t.until(lambda: "waiting" not in t.status(), "the first screen again")
        play(t, "oo1")
        check(inputs(host.answer()) == wanted[0], "it is played at the first screen")
        t.tells("MAC")
        t.type("7\r")
        host.send(FORM)
        check(inputs(host.answer()) == wanted[1], "and goes on at the second, before what is typed meanwhile")
        host.send(FORM)
        check(inputs(host.answer()) == (0xF1, {(3, 20): "7"}), "which then comes")
        t.until(lambda: "MAC" not in t.status(), "it is over")
        t.leave()
        host.close()


def over_screens_that_send_themselves():
    """After a full field has sent its screen (auto enter), a macro goes on at the next one."""
    form = write() + field(3, 20, 2, 0x4080) + READ
    with tempfile.TemporaryDirectory() as folder:
        put(folder, "three", "text 12345\n")
        host, t = at_host(form, "03/020", XDG_CONFIG_HOME=folder)
        play(t, "three")
        for typed in "12", "34":
            check(inputs(host.answer()) == (0xF1, {(3, 20): typed}), "a screen is sent", typed)
            check(host.answer(0.2) is None, "and no more")
            host.send(form)
        t.until(lambda: t.window.text(2)[19:] == "5" and "MAC" not in t.status(), "the last has the rest")
        t.leave()
        host.close()


def never_into_a_hidden_field():
    with tempfile.TemporaryDirectory() as folder:
        host, t = at_host(SIGN_ON, "06/020", XDG_CONFIG_HOME=folder)
        t.type("\x1dmanna\tgeheim")
        t.tells("This field is hidden: the macro stops here when it plays.")
        t.type("\r")
        check(inputs(host.answer()) == (0xF1, {(6, 20): "anna", (7, 20): "geheim"}), "the host gets it")
        t.type("\x1dmsign-on\r")
        t.tells("The macro is kept as sign-on.")
        lines, _ = kept(folder, "sign-on")
        check(lines == ["text anna", "tab", "hidden", "enter"], "the file doesn't", lines)
        for content in None, "text anna\ntab\ntext geheim\nenter\n", "tab\ndup\n", "text anna\ntab\ninserted x\n":
            if content is not None:
                put(folder, "sign-on", content)
            host.send(SIGN_ON)
            t.until(lambda: "waiting" not in t.status(), "the sign-on comes")
            t.rings("a macro at a hidden field", lambda: play(t, "sign-on"))
            t.tells("The macro stops: this field is hidden. Type it yourself.")
            t.at("07/020")
            check(host.answer(0.3) is None, "nothing is sent")
            t.type("secret\r")
            answer = inputs(host.answer())
            check(answer[1].get((7, 20)) == "secret", "and nothing was in it", answer)
        t.leave()
        host.close()


def stops():
    """At a refused key, at Reset, at an error of the host's, at the session's end; files that are none are told."""
    with tempfile.TemporaryDirectory() as folder:
        put(folder, "wrong", "# mine\ntab\nmenu\n")
        put(folder, "letters", "text 1x2\nenter\n")
        put(folder, "two", "enter\ntext 12\nenter\n")
        put(folder, "nothing", "# nothing\n")
        host, t = at_form(XDG_CONFIG_HOME=folder)
        t.type("\x1da")
        for row, names in (5, ("letters", "nothing")), (6, ("two", "wrong")):
            t.until(lambda: all(name in t.window.text(row) for name in names), f"the menu lists {names}")
        t.type("\x1b")
        t.shows(0, "Order", "Esc goes back")
        for name, told in (("wrong", "Macro wrong, line 3: `menu` is no line of a macro."),
                           ("nothing", "Macro nothing, it has no keys."),
                           ("nowhere", "There is no macro nowhere: No such file or directory.")):
            t.rings("a macro that is none", lambda: play(t, name))
            t.tells(told)
        t.rings("a refused key", lambda: play(t, "letters"))
        t.tells("No 'x' here: 0-9 + - , . only. 2 dropped.")
        check(host.answer(0.3) is None, "and it isn't sent")
        t.type("\x12")
        play(t, "two")
        check(inputs(host.answer()) == (0xF1, {(3, 20): "1"}), "a macro's first Enter")
        t.tells("MAC")
        t.rings("Reset", lambda: t.type("\x12"))
        t.tells("The macro stops: 3 keys dropped.")
        host.send(FORM)
        t.at("03/020")
        play(t, "two")
        host.answer()
        t.rings("an error of the host's", lambda: host.send(b"\x04\x21\x22" + "No".encode("cp037") + READ))
        t.tells("The macro stops: 3 keys dropped.")
        t.type("\x12")
        t.until(lambda: "an error" not in t.status(), "Reset")
        play(t, "two")
        t.tells("MAC")
        host.close()
        t.tells("The host has closed the line.")
        t.until(lambda: "MAC" not in t.status(), "the session's end too")
        t.leave()


def over_a_lost_line():
    """What is recorded goes on in the next session; where none is, no macro plays."""
    with tempfile.TemporaryDirectory() as folder:
        host, t = at_form(XDG_CONFIG_HOME=folder)
        t.type("\x1dm12")
        t.until(lambda: "12" in t.window.text(2), "keys are recorded")
        host.again()
        host.line.sendall(b"\x00\x0c\x12")
        host.hang_up()
        in_box(t, "The line is lost: the host closed it in mid-record. c connect again")
        t.type("\x1d")
        t.shows(3, "c  connect again")
        t.type("a")
        t.tells("The session is over: c in the menu connects again.")
        t.type("\x1dc")
        check(host.ready(), "it connects again")
        host.send(FORM)
        t.at("03/020")
        t.type("3\r")
        check(inputs(host.answer()) == (0xF1, {(3, 20): "3"}), "the next session is a new one")
        t.type("\x1dmboth\r")
        t.tells("The macro is kept as both.")
        check(kept(folder, "both")[0] == ["text 123", "enter"], "the macro has the keys of both")
        t.type("\x1dabot")
        t.shows(3, "Play which macro: bot")
        host.again()
        host.hang_up()
        t.until(lambda: "the session is over" in t.window.title, "the host has gone")
        t.rings("a macro's name then", lambda: t.type("h\r"))
        t.tells("The session is over: no macro plays.")
        in_box(t, "The host has closed the line. c connect again")
        t.leave()
        host.close()


def keeping():
    """No file is written over, and what can't be written isn't lost."""
    with tempfile.TemporaryDirectory() as folder:
        host, t = at_form(XDG_CONFIG_HOME=folder)
        t.type("\x1dm\x1dm")
        t.tells("No key was pressed: no macro is kept.")
        for name in "a", "a-1":
            t.type("\x1dm\t\x1dma\r")
            t.tells(f"The macro is kept as {name}.")
        t.type("\x1dm\t\x1da")
        t.tells("A macro is recorded: m in the menu keeps it.")
        os.rename(os.path.join(folder, "term5250", "macros"), os.path.join(folder, "term5250", "old"))
        put_file = os.path.join(folder, "term5250", "macros")
        with open(put_file, "w") as file:
            file.write("no folder")
        t.rings("a file that can't be made", lambda: t.type("\x1dmb\r"))
        t.tells("The macro can't be written: Not a directory.")
        os.unlink(put_file)
        os.makedirs(put_file)
        os.symlink("/dev/full", os.path.join(put_file, "full"))
        t.type("\x1dmfull\r")
        t.tells("The macro can't be written: No space left on device.")
        check(os.path.islink(os.path.join(put_file, "full")), "a device stays")
        t.type("\x1dmb\r")
        t.tells("The macro is kept as b.")
        check(kept(folder, "b")[0] == ["tab"], "it wasn't lost")
        t.leave()
        host.close()
