"""`connect` at a host of Python that sends what live hosts send: what a station tells at once, and what errors and keys do."""
import unittest

from live.lines import at_host
from peers import negotiate_as_host
from records import ASKED, OF_COMMAND, OF_OTHER, record
from refusals import told_refusal

WORDS = ["--wait", "60"]
FORM = "044004110008110634" "1D400020000A" "04520000"
ERROR = "0421130635" "22C5D9D9"
QUERY = "04F30005D97000"
REPLY = ("000088003AD9708006000101" + "00" * 17 + "01%s020000006150000100000000" "23%s" + "00" * 10)
IBM_3179 = REPLY % ("F3F1F7F9F0F0F2", "11")

# What a terminal tells of itself: its type and model, and whether it shows colours.
TERMINALS = [("IBM-5251-11", "F5F2F5F1F0F1F1", "10"), ("IBM-5291-1", "F5F2F9F1F0F0F1", "10"),
             ("IBM-5292-2", "F5F2F9F2F0F0F2", "11"), ("IBM-3196-A1", "F3F1F9F6F0C1F1", "10"),
             ("IBM-3179-2", "F3F1F7F9F0F0F2", "11")]

ATTENTION = record(opcode=0, flags=0x4000)


def cells(column, text):
    """The cursor, no key, and the cells of the form with a text in its field."""
    held = bytearray(1920)
    held[451] = held[462] = 0x20
    held[452:452 + len(text)] = text
    return bytes([6, column, 0]) + bytes(held)


NEW = bytes.fromhex("0412 0440 0411 0022 0107 00000018000000 110101") + bytes(1920) + bytes.fromhex("140101")
# A form with switches, two fields and Insert Cursor, and the front and the back of its image.
FORMAT = ("0440 0411 0019 0107 000000 05 8001FF 110634 1D400020000A 110301 1D4800240004 C1 110808 C2 130636"
          "0452 0000")
FRONT = bytes.fromhex("0412 0440 0411 0019 0107 000000 05 8001FF 110301 1D4800200004 110634 1D400020000A 130636 110101")
BACK = bytes.fromhex("140636 0452 0000")

# What is typed into the form, what it is asked, and what it tells (SC30-3533, Read Immediate, Read Screen, Save Screen).
TOLD = [
    ("BO", "0472", "063700C2D6" + "40" * 8),
    ("", "0472", "063500"),
    ("BO", "0483", "063700110635C2D6"),
    ("", "0483", "063500"),
    ("BO", "0462", cells(0x37, b"\xc2\xd6").hex()),
    ("", ERROR + "0462", cells(0x35, b"").hex()),
    # a signed numeric field of three digits and a minus
    ("", "044004110008110634" "1D4F00200004F1F2F360" "0472", "063500F1F2D3"),
    ("", "044004110008110634" "1D4F00200004F1F2F360" "0483", "063500110635F1F2D3"),
]

# The bodies of records that are refused at their end, and why, and the answers.
REFUSED = [("04020462", "35 ReadScreen", OF_COMMAND), ("0411000011" "1850C1C2" "04020472", "36 ReadImmediate", OF_COMMAND),
           ("0421" + "C1" * 81, "51 PastEnd", OF_OTHER)]


def answered(steps, name=b"IBM-3179-2"):
    """A host that sends records, each up to those that answer it."""
    def play(side):
        negotiate_as_host(side, name=name)
        for sent, answers in steps:
            side.send(sent)
            for answer in answers:
                side.take(answer)
        side.take_end()
    return play


class TestExtended(unittest.TestCase):
    def test_what_is_told_at_once(self):
        for typed, asked, told in TOLD:
            steps = [(record(FORM), [ATTENTION]), (record(asked), [record(told)])]
            script = "await\n%skey Attention\nawait record\n" % ("type %s\n" % typed if typed else "")
            at_host(answered(steps), WORDS, script, 0, "")

    def test_what_a_terminal_tells_of_itself(self):
        for name, device, colors in TERMINALS:
            told = record(REPLY % (device, colors), 0)
            steps = [(record(QUERY), [told])] * 2
            at_host(answered(steps, name.encode()), WORDS + ["--terminal", name], "await record\nawait record\n", 0, "")
        # It is told before the empty record of Cancel Invite.
        steps = [(record(QUERY, 10), [record(IBM_3179, 0), record(opcode=10)])]
        at_host(answered(steps), WORDS, "await record\n", 0, "")

    def test_the_words_of_the_command_line(self):
        """`--extended` has no effect; with `--strict` the query is refused at the byte after its escape."""
        place = len(ASKED + record(QUERY)) - 8
        for words in ["--strict", "--extended"], ["--extended", "--strict"]:
            at_host(answered([(record(QUERY), [])]), WORDS + words, "await record\n", 1,
                    told_refusal("station", place, "30 StructuredField"))
        at_host(answered([(record(QUERY), [record(IBM_3179, 0)])]), WORDS + ["--extended"], "await record\n", 0, "")

    def test_records_that_are_refused(self):
        for body, reason, answer in REFUSED:
            place = len(ASKED + record(body)) - 1
            at_host(answered([(record(body) + record(FORM), [answer])]), WORDS, "await\nnote A\n", 1,
                    told_refusal("record", place, reason) + "A\n")

    def test_screens_that_are_saved(self):
        """A new screen, and a form that comes back over another with its fields, switches, text and cursor."""
        held = bytearray(1920)
        held[160:162] = b"\x24\xc1"
        held[165] = held[451] = held[462] = 0x20
        held[567] = 0xC2
        image = FRONT + bytes(held) + BACK
        steps = [
            (record("0402", 4), [record(NEW, 4)]),
            (record(FORMAT) + record("0402", 4), [record(image, 4)]),
            (record(FORM) + record(image, 5) + record("0402", 4), [record(image, 4)]),
            (record(NEW, 5) + record("0402", 4), [record(NEW, 4)]),
        ]
        at_host(answered(steps), WORDS, "await record\n" * 8, 0, "")

    def test_an_error_is_not_saved(self):
        """What is saved while an error stands is the screen that Reset would leave."""
        def image(column):
            front, back = "0412 0440 0411 002A 0107 00000018000000 110634 1D480020000A 110101", "1406%02X 0452 0000"
            return bytes.fromhex(front) + cells(0, b"\xc2\xd6")[3:] + bytes.fromhex(back % column)
        steps = [
            (record(FORM), [ATTENTION]),
            (record(ERROR) + record("0402", 4), [record(image(0x35), 4)]),
            (record("0440 0411 0008 C8C5D3D7") + record(image(0x35), 5), []),
        ]
        printed = "screen\n 6 " + " " * 52 + "BO\ncursor 6 53, unlocked, message off, blink off, fields 1\n"
        at_host(answered(steps), WORDS, "await\ntype BO\nkey Attention\n" + "await record\n" * 4 + "show\n", 0, printed)

    def test_keys_while_an_error_stands(self):
        """Attention and System Request are sent, a read behind the text unlocks for Reset alone, a form takes its place."""
        steps = [
            (record(FORM), [ATTENTION]),
            (record(ERROR + "0452 0008"), [ATTENTION, record(opcode=0, flags=0x0400)]),
            (record(ERROR) + record(FORM), [record("0635F1")]),
        ]
        script = ("await\ntype BO\nkey Attention\nawait record\ntype B\nkey Attention\nkey Reset\ntype C\nfields\n"
                  "key SystemRequest\nawait record\nawait record\nkey Reset\nshow\nkey Enter\n")
        printed = ("key refused Locked B\nfield 6 53 10 4800 CO\n"
                   "screen\ncursor 6 53, unlocked, message off, blink off, fields 1\n")
        at_host(answered(steps), WORDS, script, 1, printed)
