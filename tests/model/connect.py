"""What `t5250 connect` does: what it prints, what it sends, its status, by docs/MANUAL.md, "Live sessions"."""
import copy

from model import told_at_once
from model.entry import EntryKeys
from model.keys import AIDS, Keys
from model.keys import Refused as KeyRefused
from model.options import Station
from records import record
from refusals import told_refusal
from model.screen import COLUMNS, Faulty, Screen
from model.wire import NAMES, Record, Refused, Spoilt, Stream, elements, extended_elements

SIGNALS = {"Attention": 0x4000, "SystemRequest": 0x0400}


class Over(Exception):
    """The session is over."""


class Connect:
    """A station. `came` is what its host has sent by now, and `is_closed` whether that is all. A line that shows
    something finds all of it taken."""

    refused = Refused

    def __init__(self, terminal, is_extended=False, is_ready=False, is_colored=False):
        self.terminal, self.is_ready, self.is_colored = terminal, is_ready, is_colored
        self.options, self.screen = Station(terminal), Screen()
        self.keys = EntryKeys(self.screen, lambda: self.follow()) if is_extended else Keys(self.screen)
        # A live station goes on after a record that it refuses while records are allowed.
        self.is_lasting = is_extended
        may_pass = lambda: is_extended and self.options.allows_records
        self.stream = Stream(extended_elements if is_extended else elements, may_pass)
        self.came, self.is_closed, self.taken, self.applied = b"", False, 0, 0
        self.printed, self.sent, self.status = "", b"", 0
        self.has_ended = False
        # What stands after what a line tells, how many lines there were, and how many records were refused.
        self.behind, self.lines, self.refused_records = "", 0, 0

    def is_settled(self):
        """All that came is taken, and that the host has closed is known, if it has."""
        return self.taken == len(self.came) and self.is_closed == self.has_ended

    def line(self, line):
        """Carries out a line of the script. True where it has waited in vain, and the host hasn't closed."""
        if line == "" or line.startswith("#"):
            return False
        word, _, rest = line.partition(" ")
        before = len(self.printed)
        try:
            {"await": self.wait, "show": self.show, "fields": self.fields, "type": self.type, "insert": self.insert,
             "key": self.key, "cursor": self.cursor, "newline": self.newline, "erase": self.erase, "field": self.field,
             }[word](rest)
        except KeyRefused as refused:
            self.print(f"key refused {refused.args[0]}{self.behind}\n")
        except Refused as refused:
            self.print(refused.line("station"))
            raise Over from None
        told = self.printed[before:]
        if self.is_ready:
            self.printed += "ok\n"
        return word == "await" and told.endswith(f"late{self.behind}\n")

    def print(self, text):
        self.printed += text
        if text not in ("", None):
            self.status = 1

    # What comes from the host.

    def wait(self, what):
        applied = self.applied
        if what.startswith("quiet "):
            self.take_all()
            self.end()
            return
        if what == "":
            is_met = lambda: not self.screen.locked or self.screen.covered is not None
        elif what == "record":
            is_met = lambda: self.applied > applied
        else:
            text = what.removeprefix("text ")
            is_met = lambda: any(text in row for row in self.screen.rows())
        while not is_met():
            if not self.take_item():
                if not self.end():
                    self.print(f"late{self.behind}\n")
                return

    def end(self):
        """Tells that the host has closed, if it has."""
        if self.is_closed:
            self.has_ended = True
            self.print(f"ended{self.behind}\n")
        return self.is_closed

    def take_item(self):
        """Takes bytes up to the end of an item. False where there aren't so many."""
        while self.taken < len(self.came):
            byte = self.came[self.taken]
            self.taken += 1
            item = self.stream.push(byte)
            if item is None:
                continue
            if isinstance(item, Record):
                self.apply(item)
            elif isinstance(item, Spoilt):
                self.refuse(item.place, item.reason)
            else:
                self.sent += self.options.answer(item)
            return True
        return False

    def take_all(self):
        while self.take_item():
            pass

    def refuse(self, place, reason):
        """A record is refused at its EOR, and answered by a negative response."""
        if not self.options.allows_records:
            raise Refused(self.taken - 1, 60)
        self.refused_records += 1
        is_command = reason in (20, 21, *range(30, 37))
        self.sent += record(bytes.fromhex("10030101" if is_command else "10050121"), 0, flags=0x8000)
        self.print(told_refusal("record", place, f"{reason} {NAMES[reason]}"))

    def apply(self, item):
        """Carries a record out; one that a live station refuses changes nothing."""
        if not self.options.allows_records:
            raise Refused(item.place, 60)
        kept = copy.deepcopy((self.screen, self.keys)) if self.is_lasting else None
        try:
            self.carry_out(item)
        except Refused as refused:
            if not self.is_lasting:
                raise
            self.screen, self.keys = kept
            self.refuse(refused.place, refused.reason)

    def carry_out(self, item):
        asked = [one for one in item.items if one[0] in told_at_once.ASKED]
        if len(asked) > 1:
            raise Refused(item.place, asked[1][1])
        try:
            self.screen.apply(item.items, item.opcode)
        except Faulty as fault:
            raise Refused(item.place, fault.args[0]) from None
        self.applied += 1
        if self.is_lasting:
            self.keys.is_full = False
        if asked:
            self.sent += told_at_once.record_of(asked[0][0], self.screen, self.terminal)
        if item.opcode == 10:
            self.sent += record(opcode=10)

    # What is looked at.

    def show(self, _):
        self.printed += self.screen.lines(self.is_colored)
        self.end()

    def fields(self, _):
        self.printed += self.screen.field_lines()
        self.end()

    # Keys.

    def each(self, press, text):
        """A key for each character, and each that is refused is told."""
        for character in text:
            try:
                press(character)
            except KeyRefused as refused:
                self.print(f"key refused {refused.args[0]} {character}{self.behind}\n")

    def type(self, text):
        self.each(self.keys.type, text)

    def insert(self, text):
        self.each(self.keys.insert, text)

    def key(self, name):
        if (name in AIDS or name in SIGNALS) and not self.options.allows_records:
            raise KeyRefused("NotReady")
        if name in SIGNALS:
            self.sent += record(opcode=0, flags=SIGNALS[name])
        elif name == "Reset":
            if self.screen.covered is not None:
                self.screen.uncover()
                self.screen.locked = False
        else:
            body = self.keys.press(name)
            if body is not None:
                self.sent += record(body)

    def follow(self):
        """Enter, where it follows a key."""
        try:
            self.key("Enter")
        except KeyRefused:
            pass

    def cursor(self, place):
        row, column = map(int, place.split(" "))
        self.keys.go_to((row - 1) * COLUMNS + column - 1)

    def newline(self, _):
        self.keys.new_line()

    def erase(self, _):
        self.keys.erase()

    def field(self, rest):
        number, _, text = rest.partition(" ")
        if int(number) > len(self.screen.fields):
            self.print(f"field refused NoSuchField{self.behind}\n")
            return
        if len(text) > self.screen.fields[int(number) - 1].length:
            self.print(f"field refused TooLong{self.behind}\n")
            return
        self.keys.fill(self.screen.fields[int(number) - 1], text)
