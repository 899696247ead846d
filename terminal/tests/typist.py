"""Random typing, pastes and clicks at a terminal, beside a model of them: each key goes into the field that the cursor
was in, and a line of a paste into one field."""
import random
import string

from hosts import Host, READ, field, inputs, text, write
from window import Terminal, check

LETTERS = string.ascii_letters + string.digits
SIZES = [(25, 80), (24, 80), (30, 100), (50, 200)]


class Model:
    """The fields of a form in the order of their places, each of so many cells, and the cursor in one of them."""

    def __init__(self, places, lengths):
        self.places, self.lengths = places, lengths
        self.cells = [[""] * length for length in lengths]
        self.field = self.offset = 0

    def put(self, letter):
        """A character; whether it was its field's last one."""
        self.cells[self.field][self.offset] = letter
        self.offset += 1
        is_full = self.offset == self.lengths[self.field]
        if is_full:
            self.go_to((self.field + 1) % len(self.places))
        return is_full

    def go_to(self, number, offset=0):
        self.field, self.offset = number, offset

    def back(self):
        self.go_to(self.field if self.offset > 0 else (self.field - 1) % len(self.places))

    def paste(self, lines):
        """Whether all of it goes in."""
        for number, line in enumerate(lines):
            here, is_full = self.field, False
            for letter in line:
                if is_full:
                    return False
                is_full = self.put(letter)
            is_last = here == len(self.places) - 1
            if number + 1 < len(lines) and is_last:
                return not any(lines[number + 1 :])
            if number + 1 < len(lines) and not is_full:
                self.go_to(here + 1)
        return True

    def answer(self):
        """The fields that were changed, by their place."""
        texts = ["".join(cell or " " for cell in cells).rstrip() for cells in self.cells]
        return {place: words for place, words in zip(self.places, texts) if words}


def form(dice):
    places, lengths = [], []
    for row in range(2, 24):
        column = 2
        while dice.random() < 0.6 and column < 70:
            length = dice.choice([1, 1, 2, 5, 9])
            places.append((row, column))
            lengths.append(length)
            column += length + dice.randint(1, 9)
    places.append((24, 60))
    lengths.append(dice.randint(1, 19))
    return places, lengths


def one_step(dice, t, model):
    """A step, and whether the keyboard is held then."""
    kind, is_held = dice.random(), False
    if kind < 0.35:
        words = "".join(dice.choice(LETTERS) for _ in range(dice.randint(1, 12)))
        t.type(words)
        for letter in words:
            model.put(letter)
    elif kind < 0.6:
        lines = ["".join(dice.choice(LETTERS) for _ in range(dice.choice([0, 1, 1, 2, 5, 30])))
                 for _ in range(dice.choice([1, 2, 3, 12, 60]))]
        t.paste(dice.choice(["\n", "\r\n", "\r", "\t"]).join(lines))
        is_held = not model.paste(lines)
    elif kind < 0.75:
        t.type("\t")
        model.go_to((model.field + 1) % len(model.places))
    elif kind < 0.85:
        t.type("\x1b[Z")
        model.back()
    elif kind < 0.97:
        number = dice.randrange(len(model.places))
        offset = dice.randrange(model.lengths[number])
        row, column = model.places[number]
        t.type(f"\x1b[<0;{column + offset};{row}M\x1b[<0;{column + offset};{row}m")
        model.go_to(number, offset)
    else:
        t.resize(*dice.choice(SIZES))
    return is_held


def one_screen(dice, host, t, number):
    """A form that is filled in, at times from before it comes on; the answer, and what it should be."""
    places, lengths = form(dice)
    model = Model(places, lengths)
    is_held = dice.random() < 0.3 and one_step(dice, t, model)
    fields = b"".join(field(*place, length) for place, length in zip(places, lengths))
    host.send(write() + text(1, 2, f"screen {number}") + fields + READ)
    t.shows(0, f"screen {number}")
    for _ in range(dice.randint(1, 25)):
        if is_held:
            t.type("\x12")
        is_held = one_step(dice, t, model)
        t.read(0)
    t.type("\x12\r" if is_held else "\r")
    return inputs(host.answer()), (0xF1, model.answer())


def random_typing(seed, program, seconds, clock, **more):
    """Forms, one after another, for so long."""
    dice = random.Random(seed)
    host = Host()
    host.window = t = Terminal(f"127.0.0.1:{host.port}", program=program, **more)
    check(host.ready(), "the session begins")
    end, screens, answer, wanted = clock() + seconds, 0, None, None
    while clock() < end and answer == wanted:
        answer, wanted = one_screen(dice, host, t, screens)
        screens += 1
    check(answer == wanted, "each key went into the field that the cursor was in", screens, answer, wanted)
    t.resize(25, 80)
    t.type("\x1dq")
    print(f"random typing: {screens} screens", flush=True)
    host.close()
    return t
