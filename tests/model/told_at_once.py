"""What a station tells a live host at once, by docs/PROFILE.md, "What is sent at once"."""
from model.keys import answer_data
from records import record
from model.screen import COLUMNS

ASKED = {"QUERY", "SAVE-SCREEN", "READ-SCREEN", "READ-IMMEDIATE", "READ-IMMEDIATE-ALTERNATE"}
MODELS = {"IBM-5251-11": ("5251", "011"), "IBM-5291-1": ("5291", "001"), "IBM-5292-2": ("5292", "002"),
          "IBM-3196-A1": ("3196", "0A1"), "IBM-3179-2": ("3179", "002")}
COLORED = {"IBM-5292-2", "IBM-3179-2"}
READS = {"READ-INPUT": 0x42, "READ-MDT": 0x52, "READ-MDT-ALTERNATE": 0x82}


def address(place):
    return bytes([place // COLUMNS + 1, place % COLUMNS + 1])


def reply(terminal):
    """The 61 bytes that answer a query."""
    kind, model = MODELS[terminal]
    known = bytes.fromhex("0000 88 003A D97080 0600010100") + bytes(16)
    device = b"\x01" + kind.encode("cp037") + model.encode("cp037") + bytes.fromhex("020000 00615000 0100 000000 23")
    return known + device + bytes([0x11 if terminal in COLORED else 0x10, 0, 0]) + bytes(8)


def image(screen):
    """The commands that make the screen again."""
    second = (0 if screen.locked else 0x08) | (0x01 if screen.message else 0x02) | (0x10 if screen.blink else 0x20)
    body = bytes([4, 0x40, 4, 0x11, 0, second, 1, 7, 0, 0, 0, screen.error_line]) + screen.switches.to_bytes(3, "big")
    for field in screen.fields:
        body += b"\x11" + address(field.start - 1) + b"\x1d" + field.word.to_bytes(2, "big") + b"\x20"
        body += field.length.to_bytes(2, "big")
    if screen.home is not None:
        body += b"\x13" + address(screen.home)
    body += b"\x11\x01\x01" + bytes(screen.cells) + b"\x14" + address(screen.cursor)
    if screen.pending is not None:
        body += bytes([4, READS[screen.pending], 0, 0])
    return body


def record_of(asked, screen, terminal):
    """The record that tells it, of the screen that Reset would leave where an error stands."""
    if screen.covered is not None:
        screen = screen.copy()
        screen.uncover()
        screen.locked = False
    cursor = address(screen.cursor) + b"\0"
    if asked == "QUERY":
        return record(reply(terminal), 0)
    if asked == "SAVE-SCREEN":
        return record(bytes([4, 0x12]) + image(screen), 4)
    if asked == "READ-SCREEN":
        return record(cursor + bytes(screen.cells))
    read = "READ-INPUT" if asked == "READ-IMMEDIATE" else "READ-MDT-ALTERNATE"
    return record(cursor + answer_data(screen, read))
