"""What format words ask of whoever types at a live station, by docs/PROFILE.md, "What an operator is asked"."""
from model.keys import AIDS, Keys, Refused, has_data, next_start
from model.screen import MONOCASE, SIGNED

EXIT_REQUIRED, AUTO_ENTER = 0x0040, 0x0080
FILLED = 7
NUMERIC_ONLY = 3
DIGITS = range(0xF0, 0xFA)


def capital(character):
    """Of a small letter beyond a to z its capital."""
    return chr(ord(character) - 0x20) if "\xe0" <= character <= "\xfe" and character != "\xf7" else character


class EntryKeys(Keys):
    """The keys of a live station's screen. `follow` presses Enter, and tells nothing where it is refused."""

    def __init__(self, screen, follow):
        super().__init__(screen)
        self.follow, self.is_full = follow, False

    def check_unlocked(self):
        if self.screen.locked or self.screen.covered is not None:
            raise Refused("Locked")

    def field(self):
        """The field in which the cursor stands and keys enter, if it stands in one."""
        return self.screen.field_at(self.screen.cursor)

    def stands_last(self, field):
        return self.screen.cursor == field.start + field.entry_length - 1

    def fills(self):
        field = self.field()
        return field is not None and bool(field.word & EXIT_REQUIRED) and self.stands_last(field)

    def enters_full(self):
        field = self.field()
        return (field is not None and bool(field.word & AUTO_ENTER) and not field.word & EXIT_REQUIRED
                and field.shift != SIGNED and self.stands_last(field))

    def lacks_bytes(self):
        """Whether a field that has to be filled is filled in part."""
        contents = [self.screen.content(field) for field in self.screen.open_fields
                    if field.adjust == FILLED and field.is_modified]
        return any(0 in content and any(content) for content in contents)

    # Characters.

    def entered(self, character):
        field = self.field()
        return super().entered(capital(character) if field is not None and field.word & MONOCASE else character)

    def enter(self, character, with_byte):
        """A character by what becomes of the content."""
        self.check_unlocked()
        if self.is_full:
            raise Refused("FieldExitRequired")
        fills, enters_full = self.fills(), self.enters_full()
        field, at, byte = self.entered(character)
        content = with_byte(field, at, byte)
        self.change(field, content, self.screen.cursor if fills else self.behind(field))
        self.is_full = fills
        if enters_full:
            self.follow()

    def type(self, character):
        def typed(field, at, byte):
            content = bytearray(self.screen.content(field))
            content[at] = byte
            return content
        self.enter(character, typed)

    def insert(self, character):
        def inserted(field, at, byte):
            content, last = bytearray(self.screen.content(field)), field.entry_length - 1
            if content[last] not in (0, 0x40):
                raise Refused("NoRoom")
            content[at:last + 1] = bytes([byte]) + content[at:last]
            return content
        self.enter(character, inserted)

    # Other keys.

    def press(self, name):
        if name in AIDS:
            return super().press(name)
        if name not in ("FieldExit", "FieldMinus", "Dup"):
            super().press(name)
            self.is_full = False
            return None
        self.check_unlocked()
        field = self.field()
        if name != "Dup" and field is not None and self.lacks_bytes():
            raise Refused("MandatoryFill")
        super().press(name)
        self.is_full = False
        if field.word & AUTO_ENTER:
            self.follow()
        return None

    def press_FieldExit(self, field, at):
        if self.is_full:
            self.leave_full(field, 0x40)
        else:
            super().press_FieldExit(field, at)

    def press_FieldMinus(self, field, at):
        if field.shift != NUMERIC_ONLY:
            if self.is_full and field.shift == SIGNED:
                self.leave_full(field, 0x60)
            else:
                super().press_FieldMinus(field, at)
            return
        kept = field.length if self.is_full else min(at, field.entry_length)
        content = bytearray(self.screen.content(field))
        if kept and content[kept - 1] not in DIGITS:
            raise Refused("WrongCharacter")
        if kept:
            content[kept - 1] -= 0x20
        if self.is_full:
            self.change(field, content, next_start(self.screen))
        else:
            self.screen.cells[field.start:field.end] = content
            self.exit(field, at, 0x40)

    def leave_full(self, field, sign):
        """All cells stay, and a sign cell gets its sign."""
        content = bytearray(self.screen.content(field))
        if field.shift == SIGNED:
            content[-1] = sign
        self.change(field, content, next_start(self.screen))

    def answer(self, aid):
        """A key that sends leaves a full field full."""
        self.check_unlocked()
        if self.screen.pending is not None and has_data(self.screen, aid) and self.lacks_bytes():
            raise Refused("MandatoryFill")
        return super().answer(aid)

    # Strokes of several keys.

    def go_to(self, place):
        moves = place != self.screen.cursor
        super().go_to(place)
        self.is_full = self.is_full and not moves

    def erase(self):
        super().erase()
        self.is_full = False
