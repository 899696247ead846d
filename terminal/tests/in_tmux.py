"""The terminal in tmux, in the sizes that windows have."""
import os
import re
import shlex
import shutil
import subprocess
import tempfile
import time

from hosts import Host, inputs, text
from window import Terminal, check
from work import FORM


class Tmux:
    """The program in a window of tmux."""

    def __init__(self, columns, rows, *words, term="screen-256color"):
        self.folder = tempfile.mkdtemp()
        self.base = ["tmux", "-S", os.path.join(self.folder, "socket"), "-f", "/dev/null"]
        command = " ".join(shlex.quote(word) for word in (Terminal.program, *words))
        around = f"env -u COLORFGBG -u NO_COLOR HOME=/nowhere LC_ALL=C.UTF-8 TERM={term}"
        self.run("new-session", "-d", "-x", str(columns), "-y", str(rows), "-e", f"TERM={term}",
                 f"{around} {command}; echo status $?; sleep 600")
        self.run("set-option", "-g", "status", "off")
        self.run("resize-window", "-x", str(columns), "-y", str(rows))

    def run(self, *words):
        environment = {name: value for name, value in os.environ.items() if name != "TMUX"} | {"LC_ALL": "C.UTF-8"}
        return subprocess.run([*self.base, *words], capture_output=True, text=True, env=environment).stdout

    def rows(self):
        return self.run("capture-pane", "-p").split("\n")

    def title(self):
        return self.run("display-message", "-p", "#{pane_title}")

    def until(self, fact, what, seconds=60):
        end = time.monotonic() + seconds
        while time.monotonic() < end:
            if fact(self.rows()):
                return check(True, what)
            time.sleep(0.05)
        return check(False, what, [row for row in self.rows() if row.strip()])

    def keys(self, *names):
        self.run("send-keys", *names)

    def type(self, words):
        self.run("send-keys", "-l", words)

    def paste(self, words):
        self.run("set-buffer", words)
        self.run("paste-buffer", "-p", "-r")

    def end(self):
        self.keys("C-]")
        self.type("q")
        self.until(lambda rows: any(re.match("status 0", row) for row in rows), "it ends")
        self.run("kill-server")
        shutil.rmtree(self.folder, ignore_errors=True)


def work_at(columns, rows):
    """A form filled in by typing, the keypad, a paste, and the keys of several terminals' descriptions."""
    for term in ("screen-256color", "tmux-256color", "xterm"):
        host = Host()
        form = FORM.replace(b"\x04\x52", text(24, 2, "the last row caf\u00e9") + b"\x04\x52")
        t = Tmux(columns, rows, f"127.0.0.1:{host.port}", term=term)
        host.ready()
        host.send(form)
        size = f"{columns} by {rows}, {term}"
        t.until(lambda shown: "Order" in shown[0] and "the last row caf\u00e9" in shown[23], f"the screen at {size}")
        if rows > 24:
            t.until(lambda shown: "^] menu" in shown[24] and "03/020" in shown[24], f"the status line at {size}")
        if term != "xterm":  # Of which tmux knows no title.
            t.until(lambda shown: f"127.0.0.1:{host.port}" in t.title(), f"the title at {size}")
            t.keys("C-o")
            t.until(lambda shown: "INS" in t.title(), f"insert mode at {size}")
            t.keys("C-o")
        t.keys("KP1", "KP2", "KP.", "KP5")
        t.until(lambda shown: shown[2][19:25].rstrip() == "12.5", f"the keypad at {size}")
        t.type("x")
        line = 24 if rows > 24 else 23
        t.until(lambda shown: "No 'x'" in shown[line] and "Reset: ^R" in shown[line], f"a refused key at {size}")
        t.keys("Escape", "Escape")
        t.until(lambda shown: "No 'x'" not in shown[line] and "the last row" in shown[23], f"Reset at {size}")
        t.keys("Tab")
        t.paste("two lines\nof text")
        t.until(lambda shown: shown[3][19:28] == "two lines", f"a paste at {size}")
        t.keys("BTab", "BTab")
        t.keys("KPEnter")
        wanted = (0xF1, {(3, 20): "12.5", (4, 20): "two lines", (5, 20): "of text"})
        answer = inputs(host.answer())
        check(answer == wanted, f"the answer at {size}", answer)
        host.send(form)
        t.keys("F3")
        check(inputs(host.answer())[0] == 0x33, f"F3 at {size}")
        host.send(form)
        t.keys("PageDown")
        check(inputs(host.answer())[0] == 0xF5, f"Page Down at {size}")
        t.keys("C-]")
        t.until(lambda shown: any("q  leave" in row for row in shown), f"the menu at {size}")
        t.keys("Escape")
        t.until(lambda shown: "Order" in shown[0], f"and back at {size}")
        t.end()
        host.close()


def too_small(columns, rows):
    host = Host()
    t = Tmux(columns, rows, f"127.0.0.1:{host.port}")
    host.ready()
    host.send(FORM)
    t.until(lambda shown: f"This window is {columns} by {rows}" in shown[0], f"{columns} by {rows} is told")
    t.type("12")
    t.keys("Enter")
    check(host.answer(0.5) is None, "no key goes out")
    t.run("resize-window", "-x", "80", "-y", "24")
    t.until(lambda shown: "Order" in shown[0] and shown[2][19:25].strip() == "", "a larger window is drawn")
    t.type("7")
    t.until(lambda shown: shown[2][19:20] == "7", "and keys are taken")
    t.end()
    host.close()


def sizes():
    if shutil.which("tmux") is None:
        print("left out: the terminal in tmux, which isn't here")
        return
    for columns, rows in ((80, 24), (80, 25), (100, 30)):
        work_at(columns, rows)
    too_small(60, 20)
