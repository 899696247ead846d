"""A terminal's window of our own, the program in it, and counted checks.

The window understands the part of ECMA-48 that curses writes for `xterm`, and keeps what stands where and how it
looks."""
import codecs
import fcntl
import os
import pty
import re
import select
import signal
import struct
import subprocess
import termios
import time

SEQUENCE = re.compile(r"\x1b\[([0-9;?>=<]*)([ !\"$']*)([@-~])")
OTHER = re.compile(r"\x1b([()][0-9A-Za-z]|[=>78M])")
TITLE = re.compile(r"\x1b\]([^\x07]*)\x07")
LOOKS = {1: "bold", 2: "dim", 4: "underscore", 5: "blink", 7: "reverse"}
RESETS = {22: ("bold", "dim"), 24: ("underscore",), 25: ("blink",), 27: ("reverse",), 39: ("color",), 49: ("ground",)}


class Counts:
    passed = failed = 0


def check(fact, what, *more):
    if fact:
        Counts.passed += 1
    else:
        Counts.failed += 1
        print("not so:", what, *more, flush=True)
    return bool(fact)


class Window:
    """What a terminal shows: characters, whether a cell is reversed, underscored, bold and so on, and its colours."""

    def __init__(self, rows, columns):
        self.rows, self.columns = rows, columns
        self.top, self.bottom = 0, rows  # The rows that scroll.
        self.clear()
        self.row = self.column = 0
        self.look = {}
        self.rest = ""
        self.last = " "
        self.bells = 0
        self.title = self.shape = ""
        self.modes = set()

    def clear(self):
        self.cells = [[(" ", {})] * self.columns for _ in range(self.rows)]

    def text(self, row):
        return "".join(cell[0] for cell in self.cells[row]).rstrip()

    def looks(self, row, column):
        """How a cell looks, but for its ground."""
        return {name: value for name, value in self.cells[row][column][1].items() if name != "ground"}

    def put(self, character):
        if self.column >= self.columns:
            self.column, self.row = 0, min(self.row + 1, self.rows - 1)
        self.cells[self.row][self.column] = (character, dict(self.look))
        self.column += 1
        self.last = character

    def feed(self, data):
        self.rest += data
        while self.rest:
            used = self.step(self.rest)
            if used == 0:
                return
            self.rest = self.rest[used:]

    def step(self, data):
        """Carries out what begins the data, and says how long that is; 0 where its end is still to come."""
        first = data[0]
        if first == "\x1b":
            return self.escape(data)
        if first == "\r":
            self.column = 0
        elif first == "\n":
            self.go_down()
        elif first == "\b":
            self.column = max(min(self.column, self.columns - 1) - 1, 0)
        elif first == "\t":
            self.column = min((self.column // 8 + 1) * 8, self.columns - 1)
        elif first == "\x07":
            self.bells += 1
        elif first >= " ":
            self.put(first)
        return 1

    def escape(self, data):
        found = SEQUENCE.match(data)
        if found and found.group(2):
            self.shape = found.group(1) if found.group(3) == "q" else self.shape
        elif found:
            self.control(found.group(1), found.group(3))
        elif TITLE.match(data):
            found = TITLE.match(data)
            self.title = found.group(1).partition(";")[2]
        else:
            found = OTHER.match(data)
            if found and found.group(1) == "M":
                self.go_up()
        return found.end() if found else 0

    def go_down(self):
        if self.row + 1 == self.bottom:
            self.scroll(self.top, 1)
        else:
            self.row = min(self.row + 1, self.rows - 1)

    def go_up(self):
        if self.row == self.top:
            self.scroll(self.top, -1)
        else:
            self.row = max(self.row - 1, 0)

    def scroll(self, top, count):
        """Rows from the top one to the last that scrolls go up; down where the count is negative."""
        held = self.cells[top : self.bottom]
        blanks = [[(" ", {})] * self.columns for _ in range(min(abs(count), len(held)))]
        self.cells[top : self.bottom] = held[count:] + blanks if count > 0 else blanks + held[:count]

    def control(self, words, final):
        if words[:1] in ("?", ">", "=", "<"):
            for mode in words[1:].split(";"):
                (self.modes.add if final == "h" else self.modes.discard)(mode)
            if final == "h" and "1049" in words:
                self.clear()
            return
        numbers = [int(word) if word else 0 for word in words.split(";")]
        count = max(numbers[0], 1)
        if final in "HABCDGdZ":
            self.move(final, count, max(numbers[1] if len(numbers) > 1 else 1, 1))
        elif final in "rSTLM":
            self.move_rows(final, count, numbers)
        elif final == "m":
            self.sgr(numbers)
        elif final == "b":
            for _ in range(count):
                self.put(self.last)
        else:
            self.erase(final, numbers[0], count)

    def move(self, final, count, second):
        if final == "H":
            self.row, self.column = count - 1, second - 1
        elif final in "AB":
            self.row += count if final == "B" else -count
        elif final in "CD":
            self.column += count if final == "C" else -count
        elif final == "G":
            self.column = count - 1
        elif final == "Z":
            self.column = (self.column - 1) // 8 * 8
        else:
            self.row = count - 1
        # As any terminal does with what was meant for a larger window.
        self.row = max(0, min(self.row, self.rows - 1))
        self.column = max(0, min(self.column, self.columns - 1))

    def move_rows(self, final, count, numbers):
        if final == "r":
            self.top, self.bottom = count - 1, numbers[1] if len(numbers) > 1 else self.rows
            self.row = self.column = 0
        elif final in "ST":
            self.scroll(self.top, count if final == "S" else -count)
        elif self.top <= self.row < self.bottom:
            self.scroll(self.row, count if final == "M" else -count)

    def erase(self, final, number, count):
        if final == "J" and number == 2:
            self.clear()
            return
        row, blank = self.cells[self.row], (" ", {})
        if final == "J":
            self.cells[self.row + 1 :] = [[blank] * self.columns for _ in range(self.rows - self.row - 1)]
        if final in "JK":
            span = range(self.column, self.columns) if number == 0 else range(0, min(self.column + 1, self.columns))
            for column in span:
                row[column] = blank
        elif final == "X":
            for column in range(self.column, min(self.column + count, self.columns)):
                row[column] = blank
        elif final == "@":
            row[self.column : self.column] = [blank] * count
            del row[self.columns :]
        elif final == "P":
            del row[self.column : self.column + count]
            row += [blank] * (self.columns - len(row))

    def sgr(self, numbers):
        for number in numbers:
            if number == 0:
                self.look = {}
            elif number in LOOKS:
                self.look[LOOKS[number]] = True
            elif number in RESETS:
                for name in RESETS[number]:
                    self.look.pop(name, None)
            elif 30 <= number <= 37:
                self.look["color"] = number - 30
            elif 40 <= number <= 47:
                self.look["ground"] = number - 40


class Terminal:
    """The program in a window of its own."""

    program = None
    made = None

    def __init__(self, *words, rows=25, columns=80, term="xterm", program=None, folder=None, **environment):
        self.window = Window(rows, columns)
        self.said = b""
        self.decoder = codecs.getincrementaldecoder("utf-8")("replace")
        self.master, self.slave = pty.openpty()
        os.set_blocking(self.master, False)
        self.set_size(rows, columns)
        self.before = termios.tcgetattr(self.slave)
        around = {name: value for name, value in os.environ.items()
                  if name not in ("LINES", "COLUMNS", "NO_COLOR", "COLORFGBG", "XDG_CONFIG_HOME")}
        around |= {"TERM": term, "LC_ALL": "C.UTF-8", "HOME": "/nowhere"} | environment
        slave = self.slave

        def own():
            os.setsid()
            fcntl.ioctl(slave, termios.TIOCSCTTY, 0)

        self.child = subprocess.Popen([program or Terminal.program, *words], stdin=slave, stdout=slave, stderr=slave,
                                      env=around, preexec_fn=own, cwd=folder)

    def set_size(self, rows, columns):
        fcntl.ioctl(self.slave, termios.TIOCSWINSZ, struct.pack("HHHH", rows, columns, 0, 0))

    def resize(self, rows, columns):
        self.read(0)
        self.set_size(rows, columns)
        shape, title = self.window.shape, self.window.title
        self.window = Window(rows, columns)
        self.window.shape, self.window.title = shape, title
        os.kill(self.child.pid, signal.SIGWINCH)

    def read(self, seconds):
        if select.select([self.master], [], [], seconds)[0]:
            try:
                data = os.read(self.master, 65536)
            except OSError:
                return False
            self.said += data
            self.window.feed(self.decoder.decode(data))
            return bool(data)
        return False

    def until(self, fact, what, seconds=60):
        end = time.monotonic() + seconds
        while time.monotonic() < end:
            if fact():
                return check(True, what)
            self.read(0.05)
        return check(False, what, [self.window.text(row) for row in range(self.window.rows) if self.window.text(row)])

    def shows(self, row, text, what=None):
        return self.until(lambda: text in self.window.text(row), what or f"row {row + 1} shows {text!r}")

    def tells(self, text):
        return self.until(lambda: text in self.status(), f"the status line tells {text!r}")

    def at(self, place):
        """The cursor stands at a place, `06/053`."""
        return self.until(lambda: place in self.status(), f"the cursor is at {place}")

    def rings(self, what, act):
        """Something is done, and the bell is heard."""
        before = self.window.bells
        act()
        return self.until(lambda: self.window.bells > before, f"{what} rings")

    def idles(self, what, within=0):
        """The program waits, and takes no time of the processor: at once, or within so many seconds."""

        def ticks():
            with open(f"/proc/{self.child.pid}/stat") as file:
                return sum(int(word) for word in file.read().rpartition(")")[2].split()[11:13])

        def taken():
            self.settle()
            before = ticks()
            self.settle(0.5)
            return ticks() - before

        few, last = 0.1 * os.sysconf("SC_CLK_TCK"), time.monotonic() + within
        now = taken()
        while now > few and time.monotonic() < last:
            now = taken()
        return check(now <= few, f"it idles {what}", now)

    def settle(self, seconds=0.25):
        """The program writes nothing for so long, and waits for something: on a busy machine it may be late."""
        end = time.monotonic() + 30
        while self.read(seconds) or (self.runs() and time.monotonic() < end):
            pass

    def runs(self):
        """Whether the program has something to do, and doesn't wait."""
        try:
            with open(f"/proc/{self.child.pid}/stat") as file:
                return file.read().rpartition(")")[2].split()[0] in "RD"
        except OSError:  # It has ended.
            return False

    def type(self, text):
        """Writes it, and reads meanwhile, as a window does: a program may wait for that before it takes more."""
        data = text.encode("utf-8") if isinstance(text, str) else text
        end = time.monotonic() + 60
        while data:
            if time.monotonic() > end:
                raise TimeoutError("what is typed isn't taken")
            if self.master in select.select([self.master], [self.master], [], 1)[0]:
                self.read(0)
            try:
                data = data[os.write(self.master, data[:1024]) :]
            except BlockingIOError:
                time.sleep(0.005)

    def paste(self, text):
        self.type(f"\x1b[200~{text}\x1b[201~")

    def status(self):
        return self.window.text(24 if self.window.rows > 24 else 23)

    def leave(self, status=0, *texts):
        self.type("\x1dq")
        self.ended(status, *texts)

    def ended(self, status, *texts, seconds=60):
        end = time.monotonic() + seconds
        while self.child.poll() is None and time.monotonic() < end:
            self.read(0.05)
        if self.child.poll() is None:
            self.child.kill()
            self.child.wait()
        while self.read(0.1):
            pass
        said = self.said.decode("utf-8", "replace")
        check(self.child.returncode == status, f"status {status}", self.child.returncode, said[-300:])
        for text in texts:
            check(text in said, f"it says {text!r}", said[-300:])
        check(termios.tcgetattr(self.slave)[:4] == self.before[:4], "the terminal is as it was found")
        check(not self.window.modes & {"1049", "1000", "2004"}, "its modes too", self.window.modes)
        self.close()
        return said

    def close(self):
        os.close(self.slave)
        os.close(self.master)
