"""What a stream's bytes come to, by the rules of docs/PROFILE.md: "Tokens", "Records", "Reasons".

A body is read by a generator: it waits for a byte at each `yield`, and a bare `yield "may end"` says that the body may
end before the byte that it waits for. A byte that can't follow is refused by its reason.
"""
from refusals import told_refusal

IAC, EOR, SB, SE = 0xFF, 0xEF, 0xFA, 0xF0
COMMANDS = range(0xF1, 0xFA)
OPTIONS = range(0xFB, 0xFF)
OPCODES = {0, 1, 2, 3, 4, 5, 6, 8, 10, 11, 12}
MOST_OF_SUB = 64

NAMES = {
    1: "BadCommand", 2: "StraySe", 3: "BadSub", 4: "SubTooLong", 10: "LengthBelowHeader", 11: "BadType",
    12: "BadReserved", 13: "BadVariableLength", 14: "UnknownOpcode", 15: "TooLong", 16: "TooShort", 20: "NoEscape",
    21: "UnknownCommand", 24: "BadAddress", 25: "BadSohLength", 26: "Resequencing", 27: "BadEraseList", 28: "BadRepeat",
    29: "BadFormatByte", 30: "StructuredField", 31: "AlternateSize", 32: "SaveRestore", 33: "Roll", 34: "ErrorCode",
    35: "ReadScreen", 36: "ReadImmediate", 38: "ExtendedAttribute", 39: "TransparentData", 40: "DisplayStructuredField",
    41: "TooManyFcws", 42: "LeftOutShift", 43: "BadAid", 44: "EndedInside", 45: "BadAnswerByte", 50: "BackwardAddress",
    51: "PastEnd", 52: "ZeroLength", 53: "FieldPastEnd", 54: "FieldOverlap", 55: "TableFull",
    60: "RecordBeforeNegotiation", 61: "UnsupportedTerminal", 62: "UnaskedAnswer", 63: "AnswerMismatch",
}


class Refused(Exception):
    """A byte is refused, by its place in the stream and a reason."""

    def __init__(self, place, reason):
        super().__init__(place, reason)
        self.place, self.reason = place, reason

    def line(self, side):
        return told_refusal(side, self.place, f"{self.reason} {NAMES[self.reason]}")


class Wrong(Exception):
    """A byte of a body can't follow, by a reason."""


class Record:
    def __init__(self, flags, opcode, items, body, place):
        self.flags, self.opcode, self.items, self.body, self.place = flags, opcode, items, body, place


class Spoilt:
    """A record that is refused by its bytes, at its EOR: the place of the byte, and the reason."""

    def __init__(self, place, reason):
        self.place, self.reason = place, reason


class Stream:
    """Reads a stream byte by byte. A body has the grammar of `grammar`, which puts what it reads into a list. Where
    `may_pass` says so at a record's byte that is refused, the record is passed over."""

    def __init__(self, grammar, may_pass=lambda: False):
        self.grammar, self.place, self.may_pass, self.spoilt = grammar, 0, may_pass, None
        self.tokens = self.read_tokens()
        next(self.tokens)
        self.values = None

    def push(self, byte):
        """What is complete with a byte: a tuple of a Telnet command, a Record, or None."""
        try:
            return self.tokens.send(byte)
        except Wrong as wrong:
            raise Refused(self.place, wrong.args[0]) from None
        finally:
            self.place += 1

    def read_tokens(self):
        told = None
        while True:
            byte = yield told
            if byte != IAC:
                told = self.value(byte)
                continue
            byte = yield None
            if byte == IAC:
                told = self.value(byte)
            elif byte == EOR:
                told = self.end_record()
            elif byte in COMMANDS:
                told = ("command", byte)
            elif byte in OPTIONS:
                told = ("option", byte, (yield None))
            elif byte == SB:
                told = yield from self.read_sub()
            else:
                raise Wrong(2 if byte == SE else 1)

    def read_sub(self):
        option, data = (yield None), b""
        while True:
            byte = yield None
            if byte == IAC:
                byte = yield None
                if byte == SE:
                    return ("sub", option, data)
                if byte != IAC:
                    raise Wrong(3)
            if len(data) == MOST_OF_SUB:
                raise Wrong(4)
            data += bytes([byte])

    def value(self, byte):
        """A data byte of a record."""
        if self.spoilt is not None:
            return
        if self.values is None:
            self.values = self.read_record()
            next(self.values)
        try:
            self.values.send(byte)
        except Wrong as wrong:
            if not self.may_pass():
                raise
            self.spoilt = Spoilt(self.place, wrong.args[0])

    def end_record(self):
        spoilt, self.spoilt = self.spoilt, None
        wrong = None
        if self.values is None or spoilt is None and not self.may_end:
            wrong = 16
        elif spoilt is None and self.inner is not None and not self.inner_may_end:
            wrong = 44
        if wrong and not self.may_pass():
            raise Wrong(wrong)
        self.values = None
        if wrong:
            spoilt = Spoilt(self.place, wrong)
        if spoilt is not None:
            return spoilt
        return Record(self.flags, self.opcode, self.items, bytes(self.body), self.place)

    def read_record(self):
        self.may_end = False
        length = (yield) << 8
        length += yield
        if length < 10:
            raise Wrong(10)
        for wanted, reason in (0x12, 11), (0xA0, 11), (0, 12), (0, 12), (4, 13):
            if (yield) != wanted:
                raise Wrong(reason)
        self.flags = (yield) << 8
        self.flags += yield
        self.opcode = yield
        if self.opcode not in OPCODES:
            raise Wrong(14)
        self.items, self.body = [], bytearray()
        self.inner = self.grammar(self.items) if self.grammar else None
        self.step_inner(None)
        while len(self.body) < length - 10:
            byte = yield
            self.body.append(byte)
            self.step_inner(byte)
        self.may_end = True
        yield
        raise Wrong(15)

    def step_inner(self, byte):
        if self.inner is not None:
            self.inner_may_end = self.inner.send(byte) == "may end"


# The body of an answer.
FUNCTION_KEYS = [*range(0x31, 0x3D), *range(0xB1, 0xBD)]
AIDS = {0xF1, 0xF4, 0xF5, 0xBD, 0xF3, 0xF6, 0xF8, *FUNCTION_KEYS}
ORDERS = {1, 2, 3, 4, 0x10, 0x11, 0x12, 0x13, 0x14, 0x15, 0x1D}


def address(row=None):
    """An address, of which the row may have come."""
    if row is None:
        row = yield
    if not 1 <= row <= 24:
        raise Wrong(24)
    column = yield
    if not 1 <= column <= 80:
        raise Wrong(24)
    return (row - 1) * 80 + column - 1


def answers(items):
    byte = yield "may end"
    cursor = yield from address(byte)
    aid = yield
    if aid not in AIDS:
        raise Wrong(43)
    items.append(("HEAD", cursor, aid))
    while True:
        byte = yield "may end"
        if byte == 0x11:
            items.append(("AT", (yield from address())))
        elif byte in ORDERS:
            raise Wrong(45)
        else:
            items.append(("BYTE", byte))


# The body of a host's record.
LEFT_OUT = {
    0xF3: 30, 0x20: 31, 2: 32, 3: 32, 0x12: 32, 0x13: 32, 0x23: 33, 0x21: 34, 0x22: 34, 0x62: 35, 0x64: 35, 0x66: 35,
    0x68: 35, 0x6A: 35, 0x6C: 35, 0x72: 36, 0x83: 36,
}
PLAIN = {0x40: "CLEAR-UNIT", 0x50: "CLEAR-FORMAT"}
READS = {0x42: "READ-INPUT", 0x52: "READ-MDT", 0x82: "READ-MDT-ALTERNATE"}
ASKING = {0xF3: ("QUERY", 30), 2: ("SAVE-SCREEN", 32), 0x62: ("READ-SCREEN", 35), 0x72: ("READ-IMMEDIATE", 36),
          0x83: ("READ-IMMEDIATE-ALTERNATE", 36)}
QUERY_BYTES = bytes.fromhex("0005D97000")


def elements(items, extended=False):
    """A host's commands and orders. What stands next is told by the state: commands, orders, an error's text."""
    state = "commands"
    while True:
        byte = yield "may end"
        if byte == 4:
            state = yield from command((yield), items, extended)
            while state == "asking":
                state = yield from behind_asking(items)
        elif state == "commands":
            raise Wrong(20)
        elif state == "text":
            if byte == 0x13:
                items.append(("IC", (yield from address())))
            elif byte in ORDERS:
                raise Wrong(34)
            else:
                items.append(("PUT", byte))
        else:
            items.append((yield from order(byte)))


def extended_elements(items):
    return elements(items, True)


def command(code, items, extended):
    if code in PLAIN:
        items.append((PLAIN[code],))
        return "commands"
    if code in READS:
        items.append((READS[code], (yield), (yield)))
        return "commands"
    if code == 0x11:
        items.append(("WRITE", (yield), (yield)))
        return "orders"
    if extended and code in ASKING:
        if code == 0xF3:
            for wanted in QUERY_BYTES:
                if (yield) != wanted:
                    raise Wrong(30)
        items.append(ASKING[code])
        return "asking"
    if extended and code == 0x12:
        items.append(("RESTORE-SCREEN",))
        return "commands"
    if extended and code == 0x23:
        control = yield
        if control & 0x60:
            raise Wrong(33)
        top = yield
        if not 1 <= top <= 24:
            raise Wrong(33)
        bottom = yield
        if not top <= bottom <= 24:
            raise Wrong(33)
        items.append(("ROLL", control, top, bottom))
        return "commands"
    if extended and code == 0x21:
        items.append(("WRITE-ERROR",))
        return "text"
    raise Wrong(LEFT_OUT.get(code, 21))


def behind_asking(items):
    """Only what asks at once may stand behind what does; all else is refused by that one's reason."""
    reason = items[-1][1]
    if (yield "may end") != 4:
        raise Wrong(reason)
    code = yield
    if code not in ASKING:
        raise Wrong(reason)
    return (yield from command(code, items, True))


def order(byte):
    if byte == 1:
        return ("SOH", (yield from start_of_header()))
    if byte == 2:
        place, cell = (yield from address()), (yield)
        if cell in ORDERS:
            raise Wrong(28)
        return ("RA", place, cell)
    if byte == 3:
        place, length = (yield from address()), (yield)
        if not 2 <= length <= 5:
            raise Wrong(27)
        types = b""
        for _ in range(length - 1):
            types += bytes([(yield)])
            if types[-1] not in (0, 0xFF):
                raise Wrong(27)
        return ("EA", place, types)
    if byte in (0x11, 0x13, 0x14):
        return ({0x11: "SBA", 0x13: "IC", 0x14: "MC"}[byte], (yield from address()))
    if byte == 0x1D:
        return (yield from start_of_field())
    if byte in ORDERS:
        raise Wrong({0x10: 39, 0x12: 38, 0x15: 40}[byte])
    return ("PUT", byte)


def start_of_header():
    count, data = (yield), b""
    if count > 7:
        raise Wrong(25)
    for index in range(count):
        data += bytes([(yield)])
        if index == 2 and data[2] != 0:
            raise Wrong(26)
    return data


def start_of_field():
    byte, word, controls = (yield), None, []
    if 0x40 <= byte <= 0x7F:
        if byte & 7 in (4, 6):
            raise Wrong(42)
        word = byte << 8 | (yield)
        byte = yield
        while byte >= 0x80:
            if len(controls) == 8:
                raise Wrong(41)
            controls.append(byte << 8 | (yield))
            byte = yield
    if not 0x20 <= byte <= 0x3F:
        raise Wrong(29)
    length = (yield) << 8
    length += yield
    return ("SF", word, controls, byte, length)
