"""What a key does to a screen and what it sends, by the rules of docs/PROFILE.md: "Keys", "Answers"."""
from model.screen import CELLS, COLUMNS, DUP, MANDATORY, MDT, MONOCASE, SIGNED
from model.wire import FUNCTION_KEYS

AIDS = {"Enter": 0xF1, "Clear": 0xBD, "Help": 0xF3, "RollDown": 0xF4, "RollUp": 0xF5, "Print": 0xF6,
        "RecordBackspace": 0xF8, **{f"F{number}": code for number, code in enumerate(FUNCTION_KEYS, 1)}}
WITHOUT_DATA = {0xBD, 0xF3, 0xF6, 0xF8}
MOVES = {"Left": -1, "Right": 1, "Up": -COLUMNS, "Down": COLUMNS}

LETTERS = set("ABCDEFGHIJKLMNOPQRSTUVWXYZabcdefghijklmnopqrstuvwxyz")
DIGITS, MARKS = set("0123456789"), set(",.- ")
ALLOWED = {1: LETTERS | MARKS, 3: DIGITS | MARKS | {"+"}, 5: DIGITS, 7: DIGITS}


class Refused(Exception):
    """A key has no effect, by a name."""


def byte_of(character):
    """The byte of code page 037, of 40 to FE, or None."""
    try:
        byte = character.encode("cp037")[0]
    except UnicodeEncodeError:
        return None
    return byte if 0x40 <= byte <= 0xFE else None


def next_start(screen):
    fields = screen.open_fields
    behind = [field for field in fields if field.start > screen.cursor]
    return (behind or fields)[0].start if fields else screen.cursor


def start_before(screen):
    fields = screen.open_fields
    before = [field for field in fields if field.start < screen.cursor]
    return (before or fields)[-1].start if fields else screen.cursor


def answer_body(screen, aid):
    """The body of the answer to the pending read."""
    row, column = divmod(screen.cursor, COLUMNS)
    return bytes([row + 1, column + 1, aid]) + (answer_data(screen, screen.pending) if has_data(screen, aid) else b"")


def has_data(screen, aid):
    if aid in FUNCTION_KEYS:
        return not screen.switches >> FUNCTION_KEYS.index(aid) & 1
    return aid not in WITHOUT_DATA


def sent_of(screen, field):
    """The cells of a field that are sent, before their 00 are changed."""
    content = screen.content(field)
    if field.shift == SIGNED:
        content, sign = content[:-1], content[-1]
        return content, sign == 0x60
    return content, False


def as_signed(content, is_negative):
    if is_negative and content and 0xF0 <= content[-1] <= 0xF9:
        return content[:-1] + bytes([content[-1] - 0x20])
    return content


def answer_data(screen, read):
    data = b""
    if read == "READ-INPUT":
        if any(field.is_modified for field in screen.fields):
            for field in screen.fields:
                content, is_negative = sent_of(screen, field)
                data += as_signed(content.replace(b"\0", b"\x40"), is_negative)
        return data
    for field in screen.fields:
        if field.is_modified:
            content, is_negative = sent_of(screen, field)
            content = content.rstrip(b"\0")
            if read == "READ-MDT":
                content = content.replace(b"\0", b"\x40")
            row, column = divmod(field.start, COLUMNS)
            data += bytes([0x11, row + 1, column + 1]) + as_signed(content, is_negative)
    return data


class Keys:
    """The keys of a screen. A key that answers a read gives its body."""

    def __init__(self, screen):
        self.screen = screen

    def open_field(self):
        if self.screen.locked or self.screen.covered is not None:
            raise Refused("Locked")
        field = self.screen.field_at(self.screen.cursor)
        if field is None:
            raise Refused("Protected")
        return field, self.screen.cursor - field.start

    def change(self, field, content, cursor):
        assert len(content) == field.length
        self.screen.cells[field.start:field.end] = content
        field.word |= MDT
        self.screen.cursor = cursor

    def entered(self, character):
        """The field, the place in it, and the byte of a character."""
        field, at = self.open_field()
        byte = byte_of(character)
        if byte is None or character not in ALLOWED.get(field.shift, {character}) or at >= field.entry_length:
            raise Refused("WrongCharacter")
        if field.word & MONOCASE and "a" <= character <= "z":
            byte = byte_of(character.upper())
        return field, at, byte

    def behind(self, field):
        return next_start(self.screen) if self.screen.cursor == field.end - 1 else self.screen.cursor + 1

    def type(self, character):
        field, at, byte = self.entered(character)
        content = bytearray(self.screen.content(field))
        content[at] = byte
        self.change(field, content, self.behind(field))

    def insert(self, character):
        field, at, byte = self.entered(character)
        content = bytearray(self.screen.content(field))
        last = field.entry_length - 1
        if content[last] != 0:
            raise Refused("NoRoom")
        content[at:last + 1] = bytes([byte]) + content[at:last]
        self.change(field, content, self.behind(field))

    def press(self, name):
        if name in AIDS:
            return self.answer(AIDS[name])
        if self.screen.locked or self.screen.covered is not None:
            raise Refused("Locked")
        if name in MOVES:
            self.screen.cursor = (self.screen.cursor + MOVES[name]) % CELLS
        elif name == "Home":
            self.screen.cursor = self.screen.home_place()
        elif name == "Tab":
            self.screen.cursor = next_start(self.screen)
        elif name == "BackTab":
            self.screen.cursor = start_before(self.screen)
        elif name == "EraseInput":
            for field in self.screen.open_fields:
                self.screen.cells[field.start:field.end] = bytes(field.length)
                field.word &= ~MDT
            self.screen.cursor = self.screen.home_place()
        else:
            getattr(self, f"press_{name}")(*self.open_field())
        return None

    def press_Delete(self, field, at):
        content = bytearray(self.screen.content(field))
        end = field.entry_length if at < field.entry_length else field.length
        content[at:end] = content[at + 1:end] + b"\0"
        self.change(field, content, self.screen.cursor)

    def press_FieldExit(self, field, at):
        self.exit(field, at, 0x40)

    def press_FieldMinus(self, field, at):
        if field.shift != SIGNED:
            raise Refused("WrongCharacter")
        self.exit(field, at, 0x60)

    def exit(self, field, at, sign):
        kept = self.screen.content(field)[:min(at, field.entry_length)]
        room = field.entry_length - len(kept)
        if field.shift == SIGNED:
            content = bytes([0xF0 if field.adjust == 5 else 0x40]) * room + kept + bytes([sign])
        elif field.adjust in (5, 6):
            content = bytes([0xF0 if field.adjust == 5 else 0x40]) * room + kept
        else:
            content = kept + bytes(room)
        self.change(field, content, next_start(self.screen))

    def press_Dup(self, field, at):
        if not field.word & DUP:
            raise Refused("DupNotAllowed")
        content = self.screen.content(field)[:at] + b"\x1c" * (field.length - at)
        self.change(field, content, next_start(self.screen))

    def answer(self, aid):
        screen = self.screen
        if screen.locked or screen.covered is not None:
            raise Refused("Locked")
        if screen.pending is None:
            raise Refused("NoReadPending")
        if has_data(screen, aid) and any(
                field.word & MANDATORY and not field.is_modified for field in screen.open_fields):
            raise Refused("MandatoryEnter")
        body = answer_body(screen, aid)
        screen.pending, screen.locked = None, True
        return body

    # Strokes of several keys.

    def go_to(self, place):
        """To a cell by Up or Down, then Left or Right."""
        if place != self.screen.cursor:
            if self.screen.locked or self.screen.covered is not None:
                raise Refused("Locked")
            self.screen.cursor = place

    def new_line(self):
        fields, row = self.screen.open_fields, self.screen.cursor // COLUMNS
        below = [field for field in fields if field.start // COLUMNS > row]
        if fields:
            self.go_to((below or fields)[0].start)
        else:
            self.go_to((row + 1) * COLUMNS % CELLS)

    def erase(self):
        field, at = self.open_field()
        self.change(field, self.screen.content(field)[:at] + bytes(field.length - at), self.screen.cursor)

    def fill(self, field, text):
        """To a field's first cell, which is emptied, and a text is typed."""
        self.go_to(field.start)
        self.erase()
        for character in text:
            try:
                self.type(character)
            except Refused as refused:
                raise Refused(f"{refused.args[0]} {character}") from None
