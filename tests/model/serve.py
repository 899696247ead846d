"""What `t5250 serve` does: what it prints and sends, its status, by docs/PROFILE.md, "A session", and docs/MANUAL.md, "Live sessions"."""
from records import record
from model.connect import Over
from model.options import Host, UnsupportedTerminal
from model.screen import COLUMNS, character, Faulty, Screen
from model.wire import Record, Refused, Stream, answers, elements


class SendRefused(Exception):
    """A send or a cancel has no effect, by a name."""


class Serve:
    """A host end. `came` is what its station has sent by now, and `is_closed` whether that is all."""

    refused = Refused

    def __init__(self, takes_any=False, is_ready=False):
        self.takes_any, self.is_ready = takes_any, is_ready
        self.options, self.screen = Host(takes_any), Screen()
        self.is_cancelling = False
        self.stream = Stream(None if takes_any else answers)
        self.came, self.is_closed, self.taken = b"", False, 0
        self.printed, self.sent, self.status = "", self.options.opening, 0
        # What stands after what a line tells, how many lines there were, and how many records were refused: none here.
        self.behind, self.lines, self.refused_records = "", 0, 0

    def line(self, line):
        """Carries out a line. True where it has waited in vain, and the station hasn't closed."""
        if line in ("", "end") or line.startswith("#"):
            return False
        before = len(self.printed)
        try:
            if line == "await":
                self.wait()
            elif line == "cancel":
                self.cancel()
            elif line in ("telnet NOP", "raw FFF1"):
                self.sent += b"\xff\xf1"
        except SendRefused as refused:
            self.fail(f"send refused {refused.args[0]}{self.behind}\n")
        except Refused as refused:
            self.fail(refused.line("host"))
            raise Over from None
        told = self.printed[before:]
        if self.is_ready:
            self.printed += "ok\n"
        return told == f"late{self.behind}\n"

    def fail(self, text):
        self.printed += text
        self.status = 1

    # What comes from the station.

    def wait(self):
        while self.taken < len(self.came):
            if self.take_byte():
                return
        self.fail(f"{'ended' if self.is_closed else 'late'}{self.behind}\n")

    def take_all(self):
        while self.taken < len(self.came):
            self.take_byte()

    def finish(self):
        """Behind the last line what comes is answered and told, until the station closes."""
        try:
            self.take_all()
        except Refused as refused:
            self.fail(refused.line("host"))

    def take_byte(self):
        """Whether something was told."""
        before = len(self.printed)
        item = self.stream.push(self.came[self.taken])
        self.taken += 1
        if isinstance(item, Record):
            if not self.options.allows_records:
                raise Refused(item.place, 60)
            (self.tell_record if self.takes_any else self.take_record)(item)
        elif item is not None:
            self.negotiate(item)
        return len(self.printed) > before

    def negotiate(self, token):
        was_allowed = self.options.allows_records
        try:
            self.sent += self.options.answer(token)
        except UnsupportedTerminal:
            raise Refused(self.stream.place - 1, 61) from None
        if self.options.allows_records and not was_allowed:
            self.printed += ("terminal " if self.takes_any else "host ready ") + spelled(self.options.name) + "\n"

    def tell_record(self, item):
        line = f"record flags {item.flags:04X} opcode {item.opcode} {item.body.hex().upper()}"
        self.printed += line.rstrip(" ") + "\n"

    def take_record(self, item):
        if item.opcode == 3 and self.screen.pending is not None:
            self.take_answer(item)
        elif item.opcode == 10 and not item.items and self.is_cancelling:
            self.end_read()
            self.is_cancelling = False
            self.printed += "cancelled\n"
        elif item.opcode == 0 and not item.items:
            if item.flags & 0x4000:
                self.printed += "attention\n"
            elif item.flags & 0x0400:
                self.printed += "system request\n"
        else:
            raise Refused(item.place, 62)

    def end_read(self):
        self.screen.pending, self.screen.locked = None, True

    def take_answer(self, item):
        fields = self.read_fields(item)
        row, column = divmod(item.items[0][1], COLUMNS)
        self.printed += f"answer {row + 1} {column + 1} {item.items[0][2]:02X}\n"
        for start, content in fields:
            row, column = divmod(start, COLUMNS)
            text = "".join(character(byte, 0x20) for byte in content).rstrip(" ")
            self.printed += f"  field {row + 1} {column + 1} {content.hex().upper()} {text}".rstrip(" ") + "\n"
        self.end_read()

    def read_fields(self, item):
        """The fields of an answer, by the read that was asked; what doesn't fit it is refused."""
        mismatch = Refused(item.place, 63)
        if not item.items:
            raise mismatch
        by_start = {field.start: field for field in self.screen.fields}
        found = []
        for name, value in (one[:2] for one in item.items[1:]):
            if self.screen.pending == "READ-INPUT":
                if name == "AT":
                    raise mismatch
                found = found or [(None, bytearray())]
                found[0][1].append(value)
            elif name == "AT":
                if value not in by_start or found and found[-1][0] >= value:
                    raise mismatch
                found.append((value, bytearray()))
            else:
                if not found or len(found[-1][1]) == by_start[found[-1][0]].entry_length:
                    raise mismatch
                found[-1][1].append(value)
        if self.screen.pending == "READ-INPUT" and found:
            return self.cut(bytes(found[0][1]), mismatch)
        return [(start, bytes(content)) for start, content in found]

    def cut(self, data, mismatch):
        if len(data) != sum(field.entry_length for field in self.screen.fields):
            raise mismatch
        cut = []
        for field in self.screen.fields:
            cut.append((field.start, data[:field.entry_length]))
            data = data[field.entry_length:]
        return cut

    # What is sent.

    def send(self, opcode, body):
        """A record, whose body is read as elements but where the host takes any record."""
        try:
            if not self.options.allows_records:
                raise SendRefused("NotAllowed")
            if not self.takes_any and body:
                if self.screen.pending is not None or self.is_cancelling:
                    raise SendRefused("ReadOutstanding")
                try:
                    self.screen.apply(read_body(body), None)
                except Faulty as fault:
                    raise SendRefused(f"Screen {fault.args[0]}") from None
            self.sent += record(body, opcode)
        except SendRefused as refused:
            self.fail(f"send refused {refused.args[0]}{self.behind}\n")
        if self.is_ready:
            self.printed += "ok\n"

    def cancel(self):
        if not self.options.allows_records:
            raise SendRefused("NotAllowed")
        if self.screen.pending is None or self.is_cancelling:
            raise SendRefused("NoReadToCancel")
        self.is_cancelling = True
        self.sent += record(opcode=10)


def read_body(body):
    items = []
    reader = elements(items)
    for byte in [None, *body]:
        reader.send(byte)
    return items


def spelled(name):
    """A byte that doesn't print, a blank and a backslash are spelled in hex."""
    return "".join(chr(byte) if 0x21 <= byte <= 0x7E and byte != 0x5C else f"\\{byte:02X}" for byte in name)
