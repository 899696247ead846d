"""Random bodies of records, Telnet commands and lines. Most are what an end may send; some are changed afterwards."""
from model.keys import AIDS, MOVES
from model.options import BINARY, DO, DONT, END_OF_RECORD, TERMINAL, WILL, WONT, sub, told
from model.screen import COLUMNS
from model.wire import elements, extended_elements

TEXTS = ["Sign On", "User", "A", "Price 12.50", "0123456789", "  x", "Item*", "name?", "ab.CD"]
TYPED = ["A", "bc", "QUSER", "12", "-5", "0", "9.5", "x y", "+", "\u00e9", "\u20ac", "Z9z", "1234567890123", " ", ""]
KEYS = [*AIDS, *MOVES, "Home", "Tab", "BackTab", "FieldExit", "FieldMinus", "Dup", "Delete", "EraseInput", "Attention",
        "SystemRequest"]
OFTEN = ["Enter", "Enter", "Tab", "FieldExit", "F3", "F5", "Delete", "FieldMinus"]
NAMES = [b"IBM-3179-2", b"IBM-5251-11", b"ibm-5291-1", b"IBM-5292-2", b"IBM-3196-A1"]
# What can't stand where it does, each for a reason of its own.
WRONG_ORDERS = ["0108", "0103000001", "0205050A", "0205054011", "0305050107", "0305050306", "03050502AA", "1119",
                "110151", "1D1F", "1D4400", "1D80", "1D400040", "1D4000" + "8000" * 9, "10", "12", "15", "1D4000200000"]
WRONG_TOKENS = ["FF00", "FFF0", "FFFA27FF01", "FFFA27" + "41" * 65 + "FFF0", "FFEF", "FFFA27" + "FFFF" * 65 + "FFF0"]
ASKING = ["04F30005D97000", "0402", "0462", "0472", "0483"]


class Chance:
    """Random parts of a session."""

    def __init__(self, random):
        self.random = random

    def one_in(self, count):
        return self.random.randrange(count) == 0

    def some(self, least, most):
        return range(self.random.randint(least, most))

    def address(self):
        if self.one_in(12):
            return bytes([24, self.random.randint(70, 80)])
        return bytes([self.random.randint(1, 24), self.random.randint(1, 80)])

    def attribute(self):
        return self.random.choice([0x20, 0x20, 0x20, 0x22, 0x24, 0x27, self.random.randint(0x20, 0x3F)])

    def text(self):
        text = self.random.choice(TEXTS).encode("cp037")
        return self.random.choice([text, text, text, b"\x00\x1c\xff", bytes([self.attribute()]) + text])

    def format_word(self):
        shift = self.random.choice([0, 0, 0, 1, 2, 3, 5, 7, 7]) << 8
        word = 0x4000 | shift | self.random.choice([0, 0, 0, 5, 6, 7])
        for bit, count in (0x2000, 8), (0x1000, 3), (0x0800, 4), (0x0040, 8), (0x0080, 10), (0x0020, 4), (0x0008, 12):
            word |= bit * self.one_in(count)
        return word.to_bytes(2, "big")

    def field(self):
        controls = b"".join(bytes([self.random.randint(0x80, 0xFF), self.random.randrange(256)])
                            for _ in self.some(0, 2)) if self.one_in(8) else b""
        length = self.random.choice([1, 2, 3, 5, 8, 10, 10, 90, self.random.randrange(300) if self.one_in(8) else 4])
        words = b"" if self.one_in(6) else self.format_word() + controls
        order = b"\x1d" + words + bytes([self.attribute()]) + length.to_bytes(2, "big")
        return (b"" if self.one_in(6) else b"\x11" + self.address()) + order + (self.text() if self.one_in(4) else b"")

    def order(self):
        if self.one_in(90):
            return bytes.fromhex(self.random.choice(WRONG_ORDERS))
        match self.random.randrange(14):
            case 0 | 1 | 2 | 3:
                return b"\x11" + self.address() + self.text()
            case 4 | 5 | 6 | 7 | 8:
                return self.field()
            case 9:
                return b"\x13" + self.address()
            case 10:
                return b"\x14" + self.address()
            case 11:
                row = self.random.randint(1, 22)
                return bytes([0x11, row, self.random.randint(1, 80), 2, row + self.random.randrange(3), 80, 0x5C])
            case 12:
                row = self.random.randint(1, 22)
                types = bytes(self.random.choice([0, 0xFF]) for _ in self.some(1, 4))
                return bytes([0x11, row, self.random.randint(1, 80), 3, row + 1, 9, 1 + len(types)]) + types
            case _:
                return self.text()

    def controls(self):
        first = self.random.choice([0, 0, 0, 0x20, self.random.randrange(256)])
        return bytes([first, self.random.choice([8, 8, 8, 0, 0x18, 0x48, 0x0A, 0x09, self.random.randrange(256)])])

    def header(self):
        if not self.one_in(3):
            return b""
        data = bytes([0, 0, 0, self.random.choice([0, 1, 10, 24, 25]), self.random.randrange(256) * self.one_in(2),
                      self.random.randrange(256) * self.one_in(2), self.random.choice([0, 4, 0x14])])
        data = data[:self.random.choice([7, 7, 7, 4, 0])]
        return bytes([1, len(data)]) + data

    def write(self):
        return b"\x04\x11" + self.controls() + self.header() + b"".join(self.order() for _ in self.some(0, 5))

    def read(self):
        return bytes([4, self.random.choice([0x42, 0x52, 0x52, 0x52, 0x82]), self.random.choice([0, 0, 0, 0x40, 0xC0]),
                      self.random.choice([0, 0, 8])])

    def many_fields(self):
        """About as many as the table holds."""
        whole = b""
        for place in range(0, 3 * self.random.randint(255, 257), 3):
            whole += bytes([0x11, place // COLUMNS + 1, place % COLUMNS + 1]) + b"\x1d\x40\x00\x20\x00\x01"
        return b"\x04\x40\x04\x11\x00\x08" + whole + b"\x04\x52\x00\x00"

    def commands(self):
        if self.one_in(90):
            return bytes([4, self.random.randrange(256)])
        if self.one_in(90):
            return self.many_fields()
        body = self.random.choice([b"\x04\x40", b"\x04\x40", b"", b"\x04\x50"])
        return body + (b"" if self.one_in(9) else self.write()) + (b"" if self.one_in(4) else self.read())

    def roll(self):
        control = self.random.choice([0, 0x80]) + self.random.choice([0, 1, 1, 2, 5, 31])
        rows = sorted(self.random.choices(range(1, 25), k=2))
        if self.one_in(30):
            return b"\x04\x23" + bytes.fromhex(self.random.choice(["200118", "010018", "010201", "010119"]))
        return bytes([4, 0x23, control, *rows])

    def extended_commands(self):
        match self.random.randrange(9):
            case 0 | 1:
                asked = bytes.fromhex(self.random.choice(ASKING))
                return (self.commands() if self.one_in(4) else b"") + asked
            case 2 | 3:
                cursor = b"\x13" + self.address() if self.one_in(2) else b""
                return b"\x04\x21" + cursor + self.text() + (self.read() if self.one_in(3) else b"")
            case 4:
                return b"\x04\x12" + self.commands()
            case 5:
                return self.commands() + self.roll() + (self.roll() if self.one_in(3) else b"")
            case _:
                return self.commands()

    def screen_body(self):
        """A form that is ready to be worked at."""
        return b"\x04\x40\x04\x11\x00\x08" + b"".join(self.field() for _ in self.some(1, 3)) + b"\x04\x52\x00\x00"

    def changed(self, data):
        at = self.random.randrange(len(data) + 1)
        new = self.random.choice([0, 4, 0x11, 0x1D, 0xEF, 0xF0, 0xFA, 0xFF, self.random.randrange(256)])
        match self.random.randrange(4):
            case 0 | 1:
                return data[:at] + bytes([new]) + data[at + 1:]
            case 2:
                return data[:at] + bytes([new]) + data[at:]
            case _:
                return data[:at] + data[at + 1:]

    def noise(self):
        """A Telnet command, which seldom turns off what records need."""
        if self.one_in(40):
            return bytes.fromhex(self.random.choice(WRONG_TOKENS))
        option = self.random.choice([1, 3, 39, 255, BINARY, TERMINAL, END_OF_RECORD])
        if self.one_in(3):
            return bytes([0xFF, self.random.randrange(0xF1, 0xFA)])
        if self.one_in(3):
            data = self.random.choice([b"\x01", b"\xff\x02", b"", b"\x00X"])
            return sub(self.random.choice([39, TERMINAL, 255]), data)
        verbs = [DO, WILL, DONT, WONT] if self.one_in(6) else [DO, WILL]
        return told(self.random.choice(verbs), option)

    def line_of_station(self, is_extended):
        match self.random.randrange(16):
            case 0 | 1 | 2 | 3:
                return f"{self.random.choice(['type', 'type', 'insert'])} {self.random.choice(TYPED)}"
            case 4 | 5 | 6 | 7:
                return f"key {self.random.choice(OFTEN if self.one_in(2) else KEYS)}"
            case 8:
                return f"cursor {self.random.randint(1, 24)} {self.random.randint(1, 80)}"
            case 9:
                return self.random.choice(["newline", "erase"])
            case 10 | 11:
                return f"field {self.random.randint(1, 3)} {self.random.choice([text for text in TYPED if text])}"
            case 12:
                return "show"
            case 13:
                return "fields"
            case 14:
                return "key Reset" if is_extended else "fields"
            case _:
                return self.random.choice(["", "# no line", "#"])


def words_of(body, chance):
    """A body's elements as lines, behind two blanks each (docs/MANUAL.md, "Printed lines", "Items as text")."""
    items, lines, run = [], [], b""
    reader = extended_elements(items)
    for byte in [None, *body]:
        reader.send(byte)
    for item in [*items, None]:
        if item is not None and item[0] == "PUT":
            run += bytes([item[1]])
            continue
        if run:
            is_text = all(0x40 <= byte <= 0xFE for byte in run) and chance.one_in(2)
            lines.append("  TEXT " + run.decode("cp037") if is_text else "  PUT " + run.hex().upper())
            run = b""
        if item is not None:
            lines.append("  " + line_of(*item))
    return lines


def line_of(name, *rest):
    if name in ("SBA", "IC", "MC", "RA", "EA"):
        row, column = divmod(rest[0], COLUMNS)
        ends = {"RA": lambda: f" {rest[1]:02X}", "EA": lambda: f" {rest[1].hex().upper()}"}
        return f"{name} {row + 1} {column + 1}" + ends.get(name, str)()
    if name == "SOH":
        return f"SOH {rest[0].hex().upper()}".rstrip(" ")
    if name == "SF":
        word, controls, attribute, length = rest
        words = "".join(f" {one:04X}" for one in [word, *controls] if one is not None)
        return f"SF{words} {attribute:02X} {length}"
    if name == "ROLL":
        return f"ROLL {rest[0]:02X} {rest[1]} {rest[2]}"
    if len(rest) == 2:
        return f"{name} {rest[0]:02X} {rest[1]:02X}"
    return name


def is_body(body, is_extended):
    """Whether a body can be read as elements."""
    reader = (extended_elements if is_extended else elements)([])
    try:
        state = None
        for byte in [None, *body]:
            state = reader.send(byte)
    except Exception:
        return False
    return state == "may end"
