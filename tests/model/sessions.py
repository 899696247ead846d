"""Random sessions of a station at a host, and of a host for one station."""
from records import record
from model.bodies import NAMES, OFTEN, TEXTS, is_body, words_of
from model.connect import Connect
from model.keys import AIDS
from model.options import BINARY, DO, END_OF_RECORD, TERMINAL, TERMINALS, WILL, sub, told
from model.plan import Plan
from model.screen import COLUMNS
from model.serve import Serve


class ConnectPlan(Plan):
    never = "show"
    looking = ("show", "fields", "await quiet")

    def choose(self):
        self.terminal = self.random.choice(TERMINALS) if self.chance.one_in(3) else None
        self.is_colored = self.chance.one_in(3)

    def new_model(self):
        return Connect(self.terminal or "IBM-3179-2", self.is_other, self.is_ready, self.is_colored)

    def words(self):
        words = ["connect", "--wait", str(self.wait)] + ["--strict"] * (not self.is_other) + ["--ready"] * self.is_ready
        words += ["--color"] * self.is_colored + self.after
        return words + (["--terminal", self.terminal] if self.terminal else [])

    def tokens(self):
        options = [told(verb, option) for option in (END_OF_RECORD, BINARY) for verb in (DO, WILL)]
        return [told(DO, TERMINAL), sub(TERMINAL, b"\x01"), *options]

    def ready_form(self):
        return record(self.chance.screen_body())

    def host_record(self):
        body = self.chance.extended_commands() if self.is_other or self.chance.one_in(30) else self.chance.commands()
        return record(body, self.random.choice([3, 3, 3, 2, 1, 0, 4, 5, 6, 8, 10, 11, 12]))

    def any_line(self):
        if self.chance.one_in(3):
            text = self.random.choice(TEXTS).strip()
            quiet = "await quiet 400" if self.chance.one_in(20) else "await"
            return self.random.choice([quiet, "await", "await record", f"await text {text}"])
        return self.chance.line_of_station(self.is_other)

    def fill_in(self):
        """What a person does at a form: a field is filled and left, and the form is sent."""
        number = self.random.randint(1, max(1, len(self.model.screen.fields)))
        self.line(f"field {number} {self.random.choice(['7', '12', '345', 'AB', 'x'])}")
        self.line(f"key {self.random.choice(['FieldMinus', 'FieldExit', 'Tab', 'Dup'])}")
        if self.chance.one_in(2):
            self.line("fields")
        self.line(f"key {self.random.choice(OFTEN)}")

    def step(self):
        """A form is mostly waited for."""
        if self.is_silent:
            self.line(self.any_line())
            return
        match self.random.randrange(12):
            case 0 | 1 | 2:
                self.sends(self.likely(self.ready_form))
                self.line("await")
                for _ in self.chance.some(1, 6):
                    self.line(self.any_line())
                if self.chance.one_in(2):
                    self.fill_in()
            case 3 | 4:
                self.sends(self.likely(self.host_record))
                self.line("await record")
            case 5:
                self.sends(self.likely(self.host_record))
            case 6:
                self.sends(self.chance.noise())
            case 7:
                self.in_two(self.likely(self.host_record))
            case _:
                self.line(self.any_line())


class Send:
    """A line `send K` at a host, with its body as one number or as lines behind it, and perhaps one that ends them."""

    def __init__(self, opcode, body, words, ends):
        self.opcode, self.body, self.words, self.ends = opcode, body, words, ends

    def text(self):
        if self.words is None and self.body:
            return [f"send {self.opcode} {self.body.hex().upper()}"]
        return [f"send {self.opcode}", *(self.words or []), *self.ends]


class ServePlan(Plan):
    never = "await"
    looking = ()

    def choose(self):
        names = [b"IBM-3477-FC", b"", b"a \\\x80\xff~"] if self.chance.one_in(4 if self.is_other else 25) else NAMES
        self.name = self.random.choice(names)

    def new_model(self):
        return Serve(self.is_other, self.is_ready)

    def do(self, model, step):
        if isinstance(step[1], Send):
            self.number(model, step[1])
            model.send(step[1].opcode, step[1].body)
            return False
        return super().do(model, step)

    def words(self):
        return ["serve", "--wait", str(self.wait)] + ["--any"] * self.is_other + ["--ready"] * self.is_ready + self.after

    def tokens(self):
        options = [told(verb, option) for option in (END_OF_RECORD, BINARY) for verb in (WILL, DO)]
        return [told(WILL, TERMINAL), sub(TERMINAL, b"\0" + self.name), *options]

    def text_of(self, line):
        return line.text() if isinstance(line, Send) else [line]

    def finish(self):
        if not self.is_silent and not self.model.is_closed:
            self.closes()
        self.model.finish()

    # What the station sends.

    def content(self, length):
        most = length if self.chance.one_in(3) else min(length, 5)
        return bytes(self.random.choice([0xC1, 0xF1, 0x40, 0xFF, 0xD5]) for _ in self.chance.some(0, most))

    def answer(self):
        """An answer to the read that is asked, or to none."""
        screen = self.model.screen
        head = self.chance.address() + bytes([self.random.choice(list(AIDS.values()))])
        data = b""
        if screen.pending == "READ-INPUT":
            length = sum(field.entry_length for field in screen.fields)
            data = b"\xc1" * (length - self.chance.one_in(15)) if self.chance.one_in(2) else b""
        else:
            for field in screen.fields:
                if self.chance.one_in(2):
                    place = bytes([field.start // COLUMNS + 1, field.start % COLUMNS + 1])
                    data += b"\x11" + place + self.content(field.entry_length + self.chance.one_in(15))
        return head + data

    def station_record(self):
        if self.is_other:
            body = self.random.choice([b"", b"\x04\x12\x04\x40", b"\xff\x00", self.answer()])
            return record(body, self.random.choice([0, 1, 3, 3, 4, 10, 12]), flags=self.random.choice([0, 0x4000, 0xFFFF]))
        if self.model.is_cancelling and self.chance.one_in(2):
            return record(opcode=10)
        if self.model.screen.pending is not None and not self.chance.one_in(5):
            return record(self.answer())
        wrong = [record(self.answer()), record(opcode=10), record(b"\x01\x01\xf1", 0), record(opcode=1)]
        if self.chance.one_in(15):
            return self.random.choice(wrong)
        return record(opcode=0, flags=self.random.choice([0x4000, 0x0400, 0x0400, 0x4400, 0]))

    # What the host does.

    def send(self):
        body = self.chance.extended_commands() if self.is_other else self.chance.commands()
        if self.chance.one_in(2):
            body = self.chance.screen_body()
        if not self.is_other and not is_body(body, False):
            body = b"\x04\x50"
        if self.chance.one_in(6):
            body = b""
        opcode = self.random.choice([3, 3, 3, 2, 1, 0, 4, 5, 6, 8, 11, 12] + [10] * self.is_other)
        has_words = is_body(body, self.is_other) and self.chance.one_in(2)
        if self.is_other and not has_words and self.chance.one_in(4):
            body = bytes(self.random.randrange(256) for _ in self.chance.some(1, 9))
        words = words_of(body, self.chance) if has_words else None
        is_ended = self.form == "asked" or self.chance.one_in(2)
        return Send(opcode, body, words, [self.random.choice(["", "end"])] * is_ended)

    def any_line(self):
        match self.random.randrange(8):
            case 0 | 1 | 2:
                return self.send()
            case 3:
                return "await" if self.is_other else "cancel"
            case 4:
                return self.random.choice(["", "# no line", "end", "pause 3", "telnet NOP", "raw FFF1"])
            case _:
                return "await"

    def step(self):
        """What is sent is mostly answered, and waited for."""
        if not self.model.options.allows_records:
            self.line("await")
        if self.is_silent:
            self.line(self.any_line())
            return
        match self.random.randrange(11):
            case 0 | 1 | 2:
                self.line(self.send())
                self.sends(self.likely(self.station_record))
                self.line("await")
            case 3 | 4:
                self.sends(self.likely(self.station_record))
            case 5:
                self.sends(self.chance.noise())
            case 6:
                self.in_two(self.likely(self.station_record))
            case _:
                self.line(self.any_line())
