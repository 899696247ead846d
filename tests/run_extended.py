#!/usr/bin/env python3
"""Runs `t5250 connect` at a host that sends what live hosts send, and has Wireshark read the session.

The host, in Python, asks what the station is, saves the screen before a help and restores it, and tells an error. Each
record of the station is compared with the bytes that docs/PROFILE.md's chapter 'Extended' says. Then the session is
written as a packet capture, and what `tshark` reads in it is compared field by field: the reply to the query, the
commands and orders of the saved screen and of the one that is restored, the error. It needs tshark for that, and says so
where there is none. What `check` and `show --answers --extended` print of the station's side is compared too, and
`make` gives its bytes back.

Build the program first (`cd crates/t5250 && rt run -- check < stdin`), then call `python3 tests/run_extended.py` from
anywhere, or name one with a slash. The last line tells how many passed and how many failed, and the status is 1 where one
failed.
"""
import os
import shutil
import subprocess
import xml.etree.ElementTree

from counted import PROGRAM, Test, main
from live.lines import at_host
from packets import Session, write_capture
from peers import Side, expect, negotiate_as_host
from records import is_name, record

NO_OPERATION, OUTPUT, PUT_GET, SAVE, RESTORE = 0, 2, 3, 4, 5
QUERY = "04F30005D97000"
SAVE_SCREEN = "0402"
# A field of ten cells at 6, 53, and a text.
FORM = "0440 04110008 110101 C9A38594 110634 1D400020000A 04520000"
HELP = "0440 04110008 110101 C8859397 04520000"
GO_ON = "04110048 04520000"
ERROR = "0421 130635 22C5D9D9 04520000"

SCRIPT = """await text Item
type BO
key Help
await text Help
key Enter
await text Item
await
key Enter
await record
await
show
key F3
key Reset
show
key F3
"""
ROW_6 = " 6 " + " " * 52 + "BO\n"
PRINTED = (
    "screen\n 1 Item\n" + ROW_6 + "24  ERR\ncursor 6 53, locked, message off, blink off, fields 1\nerror row 24\n"
    "key refused Locked (line 12)\n"
    "screen\n 1 Item\n" + ROW_6 + "cursor 6 53, unlocked, message off, blink off, fields 1\n"
)

REPLY = bytes.fromhex(
    "000088003AD97080 0600010100" + "00" * 16 + "01F3F1F7F9F0F0F2 020000 00615000 0100 000000 23110000" + "00" * 8
)


def cells():
    """The cells of the form, with BO in its field."""
    held = bytearray(1920)
    held[0:4] = bytes.fromhex("C9A38594")
    # Start of Field at 6, 52: an attribute before the field, and one behind it.
    first = 5 * 80 + 51
    held[first], held[first + 11] = 0x20, 0x20
    held[first + 1:first + 3] = bytes.fromhex("C2D6")
    return bytes(held)


# The form as it stands behind the Help key, which has answered the read: locked, the field modified.
IMAGE = bytes.fromhex("0412 0440 04110022 010700000018000000 110634 1D480020000A 110101") + cells() + bytes.fromhex("140637")

ANSWERS = [
    (NO_OPERATION, REPLY),
    (PUT_GET, bytes.fromhex("0637F3")),
    (SAVE, IMAGE),
    (PUT_GET, bytes.fromhex("0101F1")),
    (PUT_GET, bytes.fromhex("0637F1 110635 C2D6")),
    (PUT_GET, bytes.fromhex("063533 110635 C2D6")),
]

# The lines of what the station sends, without the place that stands before each item.
TELNET_LINES = ["WILL 24", "SB 24 00" + b"IBM-3179-2".hex().upper(), "WILL 25", "DO 25", "WILL 0", "DO 0"]
ANSWER_LINES = [
    ["QUERY-REPLY " + REPLY.hex().upper()],
    ["HEAD 6 55 F3"],
    ["SAVED", "WRITE 00 22", "SOH 00000018000000", "SBA 6 52", "SF 4800 20 10", "SBA 1 1", "PUT " + cells().hex().upper(),
     "MC 6 55"],
    ["HEAD 1 1 F1"],
    ["HEAD 6 55 F1", "AT 6 53", "BYTES C2D6"],
    ["HEAD 6 53 33", "AT 6 53", "BYTES C2D6"],
]

# What tshark calls the fields of the reply, from its first byte on.
REPLY_FIELDS = [
    ("buffer_x", "0"), ("buffer_y", "0"), ("aid", "0x88"), ("sf_length", "58"), ("class", "0xd9"), ("type", "0x70"),
    ("qr_flag", "0x80"), ("qr_flag_0", "1"), ("qr_chc", "0x0600"), ("qr_ccl", "0x010100"), ("qr_dt", "0x01"),
    ("qr_dtc", "3179"), ("qr_dm", "002"), ("qr_ki", "0x02"), ("qr_eki", "0x00"), ("qr_dsn", "6377472"), ("qr_mni", "256"),
    ("qr_flag1", "0x23"), ("qr_flag1_2", "1"), ("qr_flag1_6", "1"), ("qr_flag1_7", "1"), ("qr_flag2", "0x11"),
    ("qr_flag2_6to7", "0x01"), ("qr_flag3", "0x00"), ("qr_flag4", "0x00"),
]
REPLY_NAMES = {name for name, _ in REPLY_FIELDS}
# The saved screen, in either record.
IMAGE_FIELDS = [
    ("command_code", "0x12"), ("command_code", "0x40"), ("command_code", "0x11"), ("wtd_ccc2", "0x22"),
    ("order_code", "0x01"), ("soh_err", "24"), ("order_code", "0x11"), ("buffer_x", "6"), ("buffer_y", "52"),
    ("order_code", "0x1d"), ("order_code", "0x11"), ("buffer_x", "1"), ("buffer_y", "1"), ("order_code", "0x14"),
    ("buffer_x", "6"), ("buffer_y", "55"),
]
IMAGE_NAMES = {name for name, _ in IMAGE_FIELDS}
# The error; tshark takes the read behind its text for text.
ERROR_FIELDS = [("command_code", "0x21"), ("order_code", "0x13"), ("buffer_x", "6"), ("buffer_y", "53")]
ERROR_NAMES = {name for name, _ in ERROR_FIELDS}

# What the host sends, record by record, each up to the record that answers it.
STEPS = [
    [(PUT_GET, QUERY)],
    [(PUT_GET, FORM)],
    [(SAVE, SAVE_SCREEN)],
    [(PUT_GET, HELP)],
    [(RESTORE, None), (PUT_GET, GO_ON)],
    [(PUT_GET, ERROR)],
]


class Line(Side):
    """The host's side of a connection, which keeps what goes over it as the packets of a capture."""

    def __init__(self, stream):
        super().__init__(stream, 30)
        self.seen = Session().open()

    def send(self, data, pieces=0):
        self.seen.host(data)
        super().send(data, pieces)

    def read(self):
        piece = super().read()
        self.seen.station(piece)
        return piece

    def play(self):
        """Negotiates, and sends what live hosts send; each answer is compared."""
        negotiate_as_host(self)
        for step, (opcode, body) in zip(STEPS, ANSWERS):
            for asked, asks in step:
                self.send(record(IMAGE if asks is None else asks, asked))
            self.take(record(body, opcode), f"answer behind {step[-1][1]}")


def lines_of_station():
    """What `show` prints of the station's bytes: the place of an item is that of its last byte."""
    lengths = [3, len(is_name()), 3, 3, 3, 3]
    heads = [f"telnet {line}" for line in TELNET_LINES]
    for opcode, body in ANSWERS:
        lengths.append(len(record(body, opcode)))
        heads.append(f"record flags 0000 opcode {opcode}")
    text = ""
    for index, (head, more) in enumerate(zip(heads, [[]] * len(TELNET_LINES) + ANSWER_LINES)):
        text += f"at {sum(lengths[:index + 1]) - 1} {head}\n" + "".join(f"  {line}\n" for line in more)
    return text


def run(words, text):
    done = subprocess.run([PROGRAM, *words], input=text, capture_output=True, text=True, timeout=300)
    return done.returncode, done.stdout, done.stderr


def compare_lines(station):
    """What the program prints of the station's side."""
    live = ["--answers", "--extended"]
    told = f"accepted: {len(ANSWERS)} records, {len(TELNET_LINES)} commands, {len(station)} bytes\n"
    for words, wanted in (["check"], told), (["check", "--cut", "1"], told), (["show"], lines_of_station()):
        expect(run([*words, *live], station.hex()), (0, wanted, ""), " ".join(words))
    status, made, fault = run(["make", *live], lines_of_station())
    expect((status, bytes.fromhex(made), fault), (0, station, ""), "make")
    # The reply to the query is no answer of the profile.
    place = 3 + len(is_name()) + 12 + 10
    refused = f"refused at {place}: reason 24 BadAddress\n"
    expect(run(["check", "--answers"], station.hex()), (1, refused, ""), "check --answers")


def fields_of(capture):
    """Of each packet with a record what tshark names and shows in it, in order."""
    read = subprocess.run(["tshark", "-r", capture, "-Y", "tn5250", "-T", "pdml"], capture_output=True, timeout=300)
    packets = []
    for packet in xml.etree.ElementTree.fromstring(read.stdout).iter("packet"):
        found = [field for proto in packet.iter("proto") if proto.get("name") == "tn5250" for field in proto.iter("field")]
        packets.append([(field.get("name")[len("tn5250."):], field.get("show")) for field in found])
    return packets


def named(fields, names):
    return [field for field in fields if field[0] in names]


def compare_with_wireshark(folder, packets):
    capture = os.path.join(folder, "live-host.pcap")
    write_capture(capture, packets)
    records = fields_of(capture)
    opcodes = [int(show, 16) for fields in records for name, show in fields if name == "operation_code"]
    expect(sorted(opcodes), sorted([opcode for step in STEPS for opcode, _ in step] + [opcode for opcode, _ in ANSWERS]),
           "opcodes")

    def with_command(code, names):
        return [named(fields, names) for fields in records if ("command_code", code) in fields]

    asked = [("sf_length", "5"), ("class", "0xd9"), ("type", "0x70")]
    expect(with_command("0xf3", {name for name, _ in asked}), [asked], "the query")
    replies = [named(fields, REPLY_NAMES) for fields in records if ("aid", "0x88") in fields]
    expect(replies, [REPLY_FIELDS], "its reply")
    expect(len(with_command("0x02", set())), 1, "saves")
    expect(with_command("0x12", IMAGE_NAMES), [IMAGE_FIELDS, IMAGE_FIELDS], "what was saved and restored")
    expect(with_command("0x21", ERROR_NAMES), [ERROR_FIELDS], "the error")


class TestExtended(Test):
    def test_a_session(self):
        lines = []

        def play(side):
            lines.append(Line(side.stream))
            lines[0].play()
        with self.subTest("connect"):
            at_host(play, ["--wait", "60", "--go-on"], None, 1, PRINTED, script=SCRIPT)
        with self.subTest("check, show and make"):
            compare_lines(lines[0].heard)
        with self.subTest("tshark"):
            if shutil.which("tshark") is None:
                self.skipTest("tshark isn't there")
            compare_with_wireshark(self.folder, lines[0].seen.packets)


main(needs_program=True)
