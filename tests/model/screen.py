"""A display, by the rules of docs/PROFILE.md: "The screen", and what live hosts send beside, "What they do"."""
CELLS, COLUMNS = 1920, 80
BYPASS, DUP, MDT, MONOCASE, MANDATORY = 0x2000, 0x1000, 0x0800, 0x0020, 0x0008
SIGNED = 7
MOST_FIELDS = 256
READS = {"READ-INPUT", "READ-MDT", "READ-MDT-ALTERNATE"}


class Faulty(Exception):
    """The screen refuses an element, by a reason."""


class Field:
    def __init__(self, start, word, length):
        self.start, self.word, self.length = start, word, length

    @property
    def end(self):
        return self.start + self.length

    @property
    def is_open(self):
        return not self.word & BYPASS

    @property
    def is_modified(self):
        return bool(self.word & MDT)

    @property
    def shift(self):
        return self.word >> 8 & 7

    @property
    def adjust(self):
        return self.word & 7

    @property
    def entry_length(self):
        """The cells that are entered and sent: of a signed field all but the sign."""
        return self.length - (self.shift == SIGNED)

    def copy(self):
        return Field(self.start, self.word, self.length)


class Screen:
    def __init__(self):
        self.cells, self.cursor = bytearray(CELLS), 0
        self.message = self.blink = False
        self.clear_format()
        self.error_line, self.covered = 24, None

    def clear_format(self):
        self.fields, self.switches, self.home = [], 0, None
        self.locked, self.pending = True, None
        self.error_line = 24

    def clear(self):
        self.cells, self.cursor = bytearray(CELLS), 0
        self.clear_format()

    def copy(self):
        other = Screen()
        other.__dict__.update(self.__dict__)
        other.cells = bytearray(self.cells)
        other.fields = [field.copy() for field in self.fields]
        return other

    # What is found on it.

    @property
    def open_fields(self):
        return [field for field in self.fields if field.is_open]

    def home_place(self):
        if self.home is not None:
            return self.home
        return self.open_fields[0].start if self.open_fields else 0

    def field_at(self, place):
        """The open field that holds a cell."""
        return next((field for field in self.open_fields if field.start <= place < field.end), None)

    def content(self, field):
        return bytes(self.cells[field.start:field.end])

    # A record.

    def apply(self, items, opcode):
        """Carries out a record's elements and its opcode. Where an element is refused nothing is seen of it."""
        before = self.copy()
        self.write = None
        try:
            for item in items:
                self.carry_out(*item)
            self.end_write()
        except Faulty:
            self.__dict__.update(before.__dict__)
            raise
        if opcode in (11, 12):
            self.message = opcode == 11
        if opcode == 10:
            self.pending, self.locked = None, True

    def carry_out(self, name, *rest):
        if name in ("PUT", "SBA", "IC", "MC", "RA", "EA", "SOH", "SF"):
            getattr(self, f"order_{name}")(*rest)
            return
        self.end_write()
        if name in ("CLEAR-UNIT", "CLEAR-FORMAT", "WRITE", "RESTORE-SCREEN", "ROLL", "WRITE-ERROR"):
            self.uncover()
        if name == "CLEAR-UNIT":
            self.clear()
        elif name == "CLEAR-FORMAT":
            self.clear_format()
        elif name == "WRITE":
            self.first_control(rest[0])
            self.address, self.write = 0, (rest[1], [])
        elif name == "ROLL":
            self.roll(*rest)
        elif name == "WRITE-ERROR":
            self.begin_error()
        elif name in READS:
            if rest[0] >> 5 >= 4:
                self.uncover()
            self.first_control(rest[0])
            self.second_control(rest[1], False)
            self.pending = name

    def roll(self, control, top, bottom):
        """Row by row: each gets the cells of another of the rows, where that is one, else keeps its own."""
        count = control & 0x1F
        before = list(self.cells)
        for row in range(top, bottom + 1):
            source = row - count if control & 0x80 else row + count
            if top <= source <= bottom:
                self.cells[row * 80 - 80 : row * 80] = before[source * 80 - 80 : source * 80]

    def end_write(self):
        if self.write is None:
            return
        (second, moves), self.write = self.write, None
        self.second_control(second, bool(moves))
        if moves:
            self.cursor = moves[-1]

    def first_control(self, control):
        code = control >> 5
        nulled = {4: [field for field in self.open_fields if field.is_modified], 5: self.open_fields,
                  6: [field for field in self.open_fields if field.is_modified], 7: self.open_fields}.get(code, [])
        reset = {2: self.open_fields, 3: self.fields, 5: self.open_fields, 6: self.open_fields, 7: self.fields}
        for field in nulled:
            self.cells[field.start:field.end] = bytes(field.length)
        for field in reset.get(code, []):
            field.word &= ~MDT
        if code:
            self.locked = True

    def second_control(self, control, has_move):
        if control & 0x08:
            if self.locked and not control & 0x40 and not has_move:
                self.cursor = self.home_place()
            self.locked = False
        for on, off, name in (0x10, 0x20, "blink"), (0x01, 0x02, "message"):
            if control & (on | off):
                setattr(self, name, bool(control & on))

    # Orders.

    def order_PUT(self, byte):
        if self.address >= (CELLS if self.covered is None else self.text_end):
            raise Faulty(51)
        self.cells[self.address] = byte
        self.address += 1

    def order_SBA(self, place):
        self.address = place

    def order_IC(self, place):
        if self.covered is None:
            self.home = place
        else:
            self.write[1].append(place)

    def order_MC(self, place):
        self.write[1].append(place)

    def order_RA(self, place, byte):
        if place < self.address:
            raise Faulty(50)
        self.cells[self.address:place + 1] = bytes([byte]) * (place + 1 - self.address)
        self.address = place + 1

    def order_EA(self, place, _):
        self.order_RA(place, 0)

    def order_SOH(self, data):
        self.fields, self.home = [], None
        # The bytes 5 to 7 have the keys 24 to 17, 16 to 9, 8 to 1.
        self.switches = int.from_bytes(data[4:7].ljust(3, b"\0"), "big")
        self.error_line = data[3] if len(data) > 3 and 1 <= data[3] <= 24 else 24

    def order_SF(self, word, _, attribute, length):
        at = self.address
        if at >= CELLS:
            raise Faulty(51)
        known = next((field for field in self.fields if field.start == at + 1), None)
        if word is not None and known:
            known.word = word
        else:
            self.new_field(at, word, length)
            if length and at + 1 + length < CELLS:
                self.cells[at + 1 + length] = 0x20
        self.cells[at] = attribute
        self.address = at + 1

    def new_field(self, at, word, length):
        if word is not None and length == 0:
            raise Faulty(52)
        if at + 1 + length > CELLS:
            raise Faulty(53)
        if word is None:
            return
        field = Field(at + 1, word, length)
        if any(other.start < field.end and field.start < other.end for other in self.fields):
            raise Faulty(54)
        if len(self.fields) == MOST_FIELDS:
            raise Faulty(55)
        self.fields.append(field)
        self.fields.sort(key=lambda one: one.start)

    # An error that a live host tells.

    def begin_error(self):
        first = (self.error_line - 1) * COLUMNS
        self.covered = (first, bytes(self.cells[first:first + COLUMNS]))
        self.cells[first:first + COLUMNS] = bytes(COLUMNS)
        self.locked = True
        self.address, self.text_end, self.write = first, first + COLUMNS, (0, [])

    def uncover(self):
        """The row that an error covers comes back."""
        if self.covered is not None:
            first, row = self.covered
            self.cells[first:first + COLUMNS] = row
        self.covered = None

    # What is printed.

    def attributes(self):
        """The attribute of each cell: the one in force, and 20 where the cell holds one."""
        force, found = 0x20, []
        for byte in self.cells:
            is_attribute = 0x20 <= byte <= 0x3F
            found.append(0x20 if is_attribute else force)
            force = byte if is_attribute else force
        return found

    def shown(self):
        """The characters of all cells, as a person sees them."""
        return "".join(map(character, self.cells, self.attributes()))

    def rows(self):
        text = self.shown()
        return [text[at:at + COLUMNS] for at in range(0, CELLS, COLUMNS)]

    def row_lines(self, is_colored):
        attributes = self.attributes()
        for index, row in enumerate(self.rows()):
            text = row.rstrip(" ")
            if text and is_colored:
                first = index * COLUMNS
                text = colored(text, attributes[first:first + COLUMNS])
            if text:
                yield f"{index + 1:2} {text}\n"

    def lines(self, is_colored=False):
        text = "screen\n" + "".join(self.row_lines(is_colored))
        row, column = divmod(self.cursor, COLUMNS)
        text += f"cursor {row + 1} {column + 1}, {'locked' if self.locked else 'unlocked'}, "
        text += f"message {'on' if self.message else 'off'}, blink {'on' if self.blink else 'off'}, "
        text += f"fields {len(self.fields)}\n"
        if self.covered is not None:
            text += f"error row {self.covered[0] // COLUMNS + 1}\n"
        return text

    def field_lines(self):
        text, shown = "", self.shown()
        for field in self.fields:
            row, column = divmod(field.start, COLUMNS)
            content = shown[field.start:field.end].rstrip(" ")
            line = f"field {row + 1} {column + 1} {field.length} {field.word:04X} {content}"
            text += (line if content else line[:-1]) + "\n"
        return text


def character(byte, attribute):
    """What a cell shows under an attribute."""
    if byte == 0 or 0x20 <= byte <= 0x3F or attribute & 7 == 7:
        return " "
    if byte == 0x1C:
        return "*"
    return bytes([byte]).decode("cp037") if 0x40 <= byte <= 0xFE else "."


GREEN, WHITE, RED, TURQUOISE, YELLOW, PINK, BLUE = "32", "37;1", "31", "36", "33", "35", "34"
REVERSED, UNDERSCORED, BLINKING = ";7", ";4", ";5"
# The colours of 20 to 3F as a table of eight in a row, the last of which is hidden.
COLORS = [
    GREEN, GREEN + REVERSED, WHITE, WHITE + REVERSED, GREEN + UNDERSCORED, GREEN + REVERSED + UNDERSCORED,
    WHITE + UNDERSCORED, GREEN,
    RED, RED + REVERSED, RED + BLINKING, RED + REVERSED + BLINKING, RED + UNDERSCORED, RED + REVERSED + UNDERSCORED,
    RED + UNDERSCORED + BLINKING, GREEN,
    TURQUOISE, TURQUOISE + REVERSED, YELLOW, YELLOW + REVERSED, TURQUOISE + UNDERSCORED,
    TURQUOISE + REVERSED + UNDERSCORED, YELLOW + UNDERSCORED, GREEN,
    PINK, PINK + REVERSED, BLUE, BLUE + REVERSED, PINK + UNDERSCORED, PINK + REVERSED + UNDERSCORED,
    BLUE + UNDERSCORED, GREEN,
]


def colored(text, attributes):
    """A row with sequences of ECMA-48: before the first cell, and each with another attribute than the one before."""
    line = ""
    for index, shown in enumerate(text):
        if index == 0 or attributes[index] != attributes[index - 1]:
            line += f"\x1b[0;{COLORS[attributes[index] - 0x20]}m"
        line += shown
    return line + "\x1b[0m"
