"""A client of the shared library in another language: `client.py LIBRARY REASON_RT`. Ends with 'N passed, N failed'.

It carries a session of a station and a host from hand to hand, and compares the library's sentences with the crates',
and their numbers and names with the header's and with docs/PROFILE.md."""
import ctypes
import pathlib
import re
import sys
from ctypes import POINTER, Structure, byref, c_bool, c_char_p, c_size_t, c_uint8, c_uint16, c_uint32, c_uint64, c_void_p

DONE, NOTHING_HELD, KEY_CHAR, KEY_AID, ENTER = 0, 4, 1, 15, 0xF1
passed = failed = 0


def check(fact, what):
    global passed, failed
    if fact:
        passed += 1
    else:
        failed += 1
        print("not so:", what)


class Handle(Structure):
    _fields_ = [("at", c_void_p), ("is_open", c_bool)]


class Station(Structure):
    _fields_ = [("handle", Handle), ("seen", c_uint8 * (24 * 80 * 2))]


class Told(Structure):
    _fields_ = [("length", c_size_t), ("place", c_uint64), ("reason", c_uint8)]


class Pushed(Structure):
    _fields_ = [("taken", c_size_t), ("replied", c_size_t), ("place", c_uint64), ("reason", c_uint8)]


class Event(Structure):
    _fields_ = [("kind", c_uint32), ("terminal", c_uint32)]


class Answer(Structure):
    _fields_ = [("field_count", c_size_t), ("cursor_row", c_uint8), ("cursor_column", c_uint8), ("aid", c_uint8)]


class ReadField(Structure):
    _fields_ = [("length", c_size_t), ("row", c_uint8), ("column", c_uint8)]


class State(Structure):
    _fields_ = [("records", c_uint64), ("refused_place", c_uint64), ("alarms", c_uint64),
                ("refused_records", c_uint64), ("record_place", c_uint64), ("names_refused", c_uint64),
                ("field_count", c_uint16), ("cursor_field", c_uint16),
                ("cursor_row", c_uint8), ("cursor_column", c_uint8), ("pending_read", c_uint8), ("refused_reason", c_uint8),
                ("is_ready", c_bool), ("is_locked", c_bool), ("is_message_lit", c_bool), ("is_blinking", c_bool),
                ("error_row", c_uint8), ("record_reason", c_uint8), ("is_full", c_bool)]


class Cell(Structure):
    _fields_ = [("character", c_uint32), ("field", c_uint16), ("byte", c_uint8), ("attribute", c_uint8)]


SIZES = {"station": Station, "host": Handle, "decoder": Handle, "told": Told, "pushed": Pushed, "event": Event,
         "answer": Answer, "read_field": ReadField, "state": State, "cell": Cell}


def load(path):
    library = ctypes.CDLL(path)
    for name, structure in SIZES.items():
        size = getattr(library, f"ribbon_{name}_size")
        size.restype = c_size_t
        check(size() == ctypes.sizeof(structure), f"the size of {name}: {size()}")
    library.ribbon_version.restype = c_char_p
    for name in ("status", "reason", "refusal"):
        getattr(library, f"ribbon_{name}_text").restype = c_char_p
    library.ribbon_reply_room.restype = c_size_t
    library.ribbon_reply_room.argtypes = [c_size_t]
    library.ribbon_station_new.argtypes = [POINTER(Station), c_char_p]
    library.ribbon_station_push.argtypes = [POINTER(Station), c_char_p, c_size_t, c_char_p, c_size_t, POINTER(Pushed)]
    library.ribbon_host_push.argtypes = [POINTER(Handle), c_char_p, c_size_t, c_char_p, c_size_t, POINTER(Pushed), POINTER(Event)]
    library.ribbon_station_key.argtypes = [POINTER(Station), c_uint32, c_uint32, c_char_p, c_size_t, POINTER(Told)]
    library.ribbon_station_cells.argtypes = [POINTER(Station), c_uint8, c_uint8, POINTER(Cell), c_size_t]
    library.ribbon_host_new.argtypes = [POINTER(Handle), c_char_p, c_size_t, POINTER(Told)]
    library.ribbon_host_send.argtypes = [POINTER(Handle), c_uint8, c_char_p, c_size_t, POINTER(Told)]
    library.ribbon_host_sent.argtypes = [POINTER(Handle), c_char_p, c_size_t, POINTER(Told)]
    library.ribbon_host_answer_field.argtypes = [POINTER(Handle), c_size_t, c_char_p, c_size_t, POINTER(ReadField)]
    library.ribbon_to_037.argtypes = [c_uint32, POINTER(c_uint8)]
    return library


class Session:
    """A station and a host, and the bytes on their way."""

    def __init__(self, library):
        self.library, self.station, self.host = library, Station(), Handle()
        told, buffer = Told(), ctypes.create_string_buffer(64)
        check(library.ribbon_station_new(byref(self.station), b"IBM-3179-2") == DONE, "a station")
        check(library.ribbon_host_new(byref(self.host), buffer, 64, byref(told)) == DONE, "a host")
        self.down, self.up, self.events = buffer.raw[: told.length], b"", []

    def carry(self):
        """All that is in flight arrives."""
        while self.down or self.up:
            pushed, event = Pushed(), Event()
            room = self.library.ribbon_reply_room(max(len(self.down), len(self.up)))
            buffer = ctypes.create_string_buffer(room)
            if self.down:
                status = self.library.ribbon_station_push(byref(self.station), self.down, len(self.down), buffer, room, byref(pushed))
                check(status == DONE and pushed.taken == len(self.down), "the station takes all")
                self.down = b""
                self.up += buffer.raw[: pushed.replied]
            else:
                status = self.library.ribbon_host_push(byref(self.host), self.up, len(self.up), buffer, room, byref(pushed), byref(event))
                check(status == DONE and pushed.taken > 0, "the host takes some")
                self.up = self.up[pushed.taken :]
                self.down += buffer.raw[: pushed.replied]
                if event.kind:
                    self.events.append(event.kind)

    def send(self, body):
        told, buffer = Told(), ctypes.create_string_buffer(65600)
        check(self.library.ribbon_host_send(byref(self.host), 3, body, len(body), byref(told)) == DONE, "a send")
        check(self.library.ribbon_host_sent(byref(self.host), buffer, 65600, byref(told)) == DONE, "what was sent")
        self.down += buffer.raw[: told.length]

    def press(self, kind, value):
        told, buffer = Told(), ctypes.create_string_buffer(5404)
        check(self.library.ribbon_station_key(byref(self.station), kind, value, buffer, 5404, byref(told)) == DONE, "a key")
        self.up += buffer.raw[: told.length]


def play(library):
    session = Session(library)
    session.carry()
    check(session.events == [1], "ready")
    session.send(bytes.fromhex("0440041100081106341d400024000a04520000"))
    session.carry()
    for letter in "BOB":
        session.press(KEY_CHAR, ord(letter))
    cells = (Cell * 1920)()
    check(library.ribbon_station_cells(byref(session.station), 1, 24, cells, 1920) == DONE, "the cells")
    shown = cells[5 * 80 + 52 : 5 * 80 + 55]
    check("".join(chr(cell.character) for cell in shown) == "BOB", "what was typed is shown")
    check(all(cell.attribute == 0x24 and cell.field == 0 for cell in shown), "underscored, in the field")
    session.press(KEY_AID, ENTER)
    session.carry()
    state, answer, field, content = State(), Answer(), ReadField(), ctypes.create_string_buffer(16)
    check(session.events == [1, 2], "an answer")
    check(library.ribbon_station_state(byref(session.station), byref(state)) == DONE and state.is_locked and state.records == 1, "the state")
    check(library.ribbon_host_answer(byref(session.host), byref(answer)) == DONE and (answer.field_count, answer.aid) == (1, ENTER), "its key")
    check(library.ribbon_host_answer_field(byref(session.host), 0, content, 16, byref(field)) == DONE, "its field")
    check(content.raw[: field.length].decode("cp037") == "BOB" and (field.row, field.column) == (6, 53), "its content")
    library.ribbon_station_free(byref(session.station))
    library.ribbon_host_free(byref(session.host))
    check(library.ribbon_station_state(byref(session.station), byref(state)) == NOTHING_HELD, "freed")


def texts(library, source):
    """The sentences of the crate, by its numbers, stand in the library; code page 037 is Python's."""
    crate = open(source, encoding="utf-8").read()
    numbers = {name: int(number) for name, number in re.findall(r"Reason::(\w+) => (\d+),", crate)}
    sentences = dict(re.findall(r'Reason::(\w+) =>\s*"(\d+: [^"]*)"', crate))
    check(len(numbers) == 44, "the crate's reasons are found")
    for name, number in numbers.items():
        given = library.ribbon_reason_text(number).decode()
        check(given == sentences.get(name), f"the sentence for {name}: {given!r}, {sentences.get(name)!r}")
    told = {number for number in range(1, 256) if library.ribbon_reason_text(number) != b"no such reason"}
    check(told == set(numbers.values()), f"the numbers that have a sentence: {sorted(told)}")
    top = pathlib.Path(source).resolve().parents[3]
    header = (top / "c/ribbonscarp.h").read_text(encoding="utf-8")
    constants = {"".join(word.capitalize() for word in name.split("_")): int(number)
                 for name, number in re.findall(r"RIBBON_REASON_(\w+) = (\d+)", header)}
    check(constants.pop("None", None) == 0 and constants == numbers, "the header's constants are the crate's numbers")
    table = (top / "docs/PROFILE.md").read_text(encoding="utf-8").partition("## Reasons\n")[2].partition("\n## ")[0]
    check({name: int(number) for number, name in re.findall(r"^(\d+) (\w+) \|", table, re.M)} == numbers,
          "the table of docs/PROFILE.md has the crate's numbers and names")
    for byte in range(0x40, 0xFF):
        character, back = c_uint32(), c_uint8()
        check(library.ribbon_from_037(byte, byref(character)) == DONE and chr(character.value) == bytes([byte]).decode("cp037"), f"037 {byte:02X}")
        check(library.ribbon_to_037(character, byref(back)) == DONE and back.value == byte, f"037 {byte:02X} back")


def main():
    library = load(sys.argv[1])
    check(re.fullmatch(rb"\d+\.\d+\.\d+", library.ribbon_version()) is not None, "a version")
    play(library)
    texts(library, sys.argv[2])
    print(f"{passed} passed, {failed} failed")
    return failed > 0


sys.exit(main())
