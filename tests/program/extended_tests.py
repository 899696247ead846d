"""What live hosts and their stations send beside the profile: checked, shown and made."""
from program.runs import Runs, run, spelled

NO_ESCAPE, BAD_ADDRESS, STRUCTURED, SIZE = "20 NoEscape", "24 BadAddress", "30 StructuredField", "31 AlternateSize"
SAVE, ROLL, ERROR_CODE, READ, AT_ONCE = "32 SaveRestore", "33 Roll", "34 ErrorCode", "35 ReadScreen", "36 ReadImmediate"
BAD_AID, ENDED, BAD_BYTE = "43 BadAid", "44 EndedInside", "45 BadAnswerByte"

# A host's body, which ends with the byte that is refused, and why; "" where it is accepted.
BODIES = [
    ("", ""),
    # what asks: a query, and what may stand behind what asks at once; the reason is that of the nearest one
    ("04F3 0005 D970 00", ""),
    ("04F3 0005 D971", STRUCTURED),
    ("04F3 0005 D970 80", STRUCTURED),
    ("04F3 0006", STRUCTURED),
    ("04F3 04", STRUCTURED),
    ("04F3 0005 D970 00 C1", STRUCTURED),
    ("0402", ""),
    ("0402 40", SAVE),
    ("0402 0440", SAVE),
    ("0402 0462", ""),
    ("0462 0411", READ),
    ("0472 00", AT_ONCE),
    ("0483 0412", AT_ONCE),
    ("0402 0472 0421", AT_ONCE),
    ("0402 0472 04F3 0005 D970 00 0462 0483", ""),
    # Write Error Code, its text, and what stands behind that
    ("0421 131801 C100 0452 0008", ""),
    ("0421 C1 130101 C1 130202", ""),
    ("0421 C1 0411 0000 110101", ""),
    ("0421 0440 0450 0421 C1 0412 0440", ""),
    ("0421 C1 0402", ""),
    ("0421 11", ERROR_CODE),
    ("0421 C1 14", ERROR_CODE),
    ("0421 10", ERROR_CODE),
    ("0421 130635 22C5D9D9 11", ERROR_CODE),
    ("0421 1319", BAD_ADDRESS),
    ("0421 C1 0420", SIZE),
    ("0421 C1 0452 0000 C1", NO_ESCAPE),
    ("C1", NO_ESCAPE),
    # Restore Screen
    ("0412", ""),
    ("0412 0440 0411 0000 C1", ""),
    ("0411 0000 C1 0412", ""),
    ("0412 C1", NO_ESCAPE),
    # Roll: its control byte, and rows 1 to 24, the first at most the last
    ("0423 010305", ""),
    ("0423 9F0118", ""),
    ("0423 000101 0411 0000 C1 0423 811818", ""),
    ("0421 C1 0423 011818 0402", ""),
    ("0423 20", ROLL),
    ("0423 61", ROLL),
    ("0423 C0", ROLL),
    ("0423 0100", ROLL),
    ("0423 0119", ROLL),
    ("0423 010504", ROLL),
    ("0423 010100", ROLL),
    ("0423 010519", ROLL),
    ("0423 010305 C1", NO_ESCAPE),
    ("0402 0423", SAVE),
    # what is left out
    ("0420", SIZE),
    ("0403", SAVE),
    ("0413", SAVE),
    ("0422", ERROR_CODE),
    ("0464", READ),
    ("046C", READ),
    ("04F4", "21 UnknownCommand"),
    ("0416", "21 UnknownCommand"),
    ("0411 0000 10", "39 TransparentData"),
    ("0411 0000 12", "38 ExtendedAttribute"),
]

REPLY = ("000088003AD97080060001010000000000000000000000000000000000"
         "01F3F1F7F9F0F0F2020000006150000100000000231100000000000000000000")
IMAGE = "0412 0440 0411 0022 0107 00000018000000 110101 C1 140101"

# A station's body, likewise.
ANSWERS = [
    ("0635F1 110635 C2D6", ""),
    (REPLY, ""),
    (IMAGE, ""),
    ("063700 C2D6", ""),
    ("063700 110635 C2D6", ""),
    ("0412F1", ""),
    ("041200", ""),
    ("04120440", ""),
    ("0001", STRUCTURED),
    ("000089", STRUCTURED),
    ("000088003AD971", STRUCTURED),
    (REPLY + "C1", STRUCTURED),
    ("04120411", SAVE),
    ("04120440C1", NO_ESCAPE),
    ("041205", BAD_AID),
    ("041304", BAD_AID),
    ("0637F2", BAD_AID),
    ("19", BAD_ADDRESS),
    ("0600", BAD_ADDRESS),
    ("0637001D", BAD_BYTE),
]

# A record's body that ends too early, and whether a station sends it.
CUT = [("0412 0411", False), ("04F3 0005 D9", False), ("0423", False), ("0423 0103", False), (REPLY[:-2], True), (REPLY[:16], True)]

# The opcode and body of what a host sends, and its lines.
LINES = [
    (3, "0421 130635 22C5D9D9", ["WRITE-ERROR", "IC 6 53", "PUT 22C5D9D9"]),
    (3, "04F3 0005 D970 00", ["QUERY"]),
    (4, "0402", ["SAVE-SCREEN"]),
    (5, "0412", ["RESTORE-SCREEN"]),
    (3, "0462", ["READ-SCREEN"]),
    (3, "0472", ["READ-IMMEDIATE"]),
    (3, "0483", ["READ-IMMEDIATE-ALTERNATE"]),
    (3, "0423 010305 0423 9F0118", ["ROLL 01 3 5", "ROLL 9F 1 24"]),
    # text, and then the profile's order and byte of the same words
    (3, "0421 C1 0411 0008 130101 C2", ["WRITE-ERROR", "PUT C1", "WRITE 00 08", "IC 1 1", "PUT C2"]),
]
# The same of what its station sends. A byte for each cell is a whole screen.
TOLD_LINES = [
    (0, "0635F1 110635 C2D6", ["HEAD 6 53 F1", "AT 6 53", "BYTES C2D6"]),
    (0, REPLY, ["QUERY-REPLY " + REPLY]),
    (4, IMAGE, ["SAVED", "WRITE 00 22", "SOH 00000018000000", "SBA 1 1", "PUT C1", "MC 1 1"]),
    (4, "0412 0440 0421 130101 C1", ["SAVED", "WRITE-ERROR", "IC 1 1", "PUT C1"]),
    (4, "0412 0440", ["SAVED"]),
    (3, "063700 C2D6", ["IMMEDIATE 6 55", "BYTES C2D6"]),
    (3, "063700 110635 C2D6", ["IMMEDIATE 6 55", "AT 6 53", "BYTES C2D6"]),
    (3, "0412F1", ["HEAD 4 18 F1"]),
    (3, "041200", ["IMMEDIATE 4 18"]),
    (3, "063700" + "40" * 1919, ["IMMEDIATE 6 55", "BYTES " + "40" * 1919]),
    (3, "063700" + "40" * 1920, ["SCREEN 6 55", "BYTES " + "40" * 1920]),
    (3, "063700" + "40" * 1921, ["IMMEDIATE 6 55", "BYTES " + "40" * 1921]),
]

# Lines behind `record opcode 3`, of which the last but none is bad.
BAD_LINES = [
    ["query"],
    ["QUERY "],
    ["QUERY 1"],
    ["WRITE-ERRORS"],
    ["IC 1 1"],
    ["WRITE-ERROR", "SBA 1 1"],
    ["WRITE-ERROR", "PUT C111"],
    ["WRITE-ERROR", "PUT C1", "CLEAR-UNIT", "IC 1 1"],
    ["QUERY", "PUT C1"],
    ["SAVE-SCREEN", "READ-SCREEN", "WRITE 00 08"],
    ["RESTORE-SCREEN", "TEXT A"],
    ["ROLL"],
    ["ROLL 01 3"],
    ["ROLL 01 3 5 6"],
    ["ROLL 1 3 5"],
    ["ROLL 61 3 5"],
    ["ROLL 01 0 5"],
    ["ROLL 01 3 25"],
    ["ROLL 01 3 261"],
    ["ROLL 01 5 3"],
    ["ROLL 01 3 5", "PUT C1"],
    ["SAVE-SCREEN", "ROLL 01 3 5"],
]
BAD_TOLD_LINES = [
    ["QUERY-REPLY 000088003AD9708006"],
    ["QUERY-REPLY 000088003AD97080"],
    ["QUERY-REPLY " + REPLY.replace("80", "81")],
    ["QUERY-REPLY " + REPLY + "00"],
    ["QUERY-REPLY"],
    ["SAVED 1"],
    ["SAVED", "SAVED"],
    ["SAVED", "BYTES C1"],
    ["PUT C1"],
    ["IMMEDIATE 6 81"],
    ["IMMEDIATE 6 55", "PUT C1"],
    ["SCREEN 6 55", "HEAD 6 55 F1"],
    ["IMMEDIATE 6 55", "BYTES 1D"],
    ["HEAD 6 55 00"],
]

FORM = "0440 0411 0008 110634 1D400020000A 0452 0000"
ERROR = "0421 130635 22C5D9D9"
LOCKED = "cursor %s, locked, message off, blink off, fields %d\n"
STANDS = "24  ERR\n" + LOCKED % ("6 53", 1) + "error row 24\n"
AT_ROW = "%d  ERR\n" + LOCKED % ("6 53", 0) + "error row %d\n"

# The bodies of a host's records, and the screen that they leave (SC30-3533, Write Error Code): what gives the row of the
# error back, and which row it is.
SCREENS = [
    ([FORM, ERROR], STANDS),
    ([FORM, ERROR, "0440"], LOCKED % ("1 1", 0)),
    ([FORM, ERROR, "0450"], LOCKED % ("6 53", 0)),
    ([FORM, ERROR, "0411 0000"], LOCKED % ("6 53", 1)),
    ([FORM, ERROR, "0411 0000 110101 C1"], " 1 A\n" + LOCKED % ("6 53", 1)),
    ([FORM, ERROR, "0412"], LOCKED % ("6 53", 1)),
    ([FORM, ERROR, "0423 011818"], LOCKED % ("6 53", 1)),
    (["0411 0000 110301 C1 110401 C2 0423 010305"], " 3 B\n" + LOCKED % ("1 1", 0)),
    (["0411 0000 110301 C1 110401 C2", "0423 810305"], " 3 A\n 4 A\n 5 B\n" + LOCKED % ("1 1", 0)),
    ([FORM, ERROR, FORM], "cursor 6 53, unlocked, message off, blink off, fields 1\n"),
    # reads, by the code of their CC1
    ([FORM, ERROR, "0442 6000"], STANDS),
    ([FORM, ERROR, "0442 8000"], LOCKED % ("6 53", 1)),
    ([FORM, ERROR, "0452 7F00"], STANDS),
    ([FORM, ERROR, "0452 E000"], LOCKED % ("6 53", 1)),
    ([FORM, ERROR, "0482 0000"], STANDS),
    ([FORM, ERROR, "0482 A000"], LOCKED % ("6 53", 1)),
    # what asks
    ([FORM, ERROR, "0402"], STANDS),
    ([FORM, ERROR, "04F3 0005 D970 00"], STANDS),
    # an opcode: the light comes on, and a read is dropped
    ([FORM, ERROR, ("", 11)], STANDS.replace("message off", "message on")),
    ([FORM, ERROR, ("", 10)], STANDS),
    # another error
    ([FORM, ERROR, "0421 C1"], "24 A\n" + LOCKED % ("6 53", 1) + "error row 24\n"),
    # the row that a header names, and the last one without
    (["0411 0000 0104 0000000A", ERROR], AT_ROW % (10, 10)),
    (["0411 0000 0104 00000019", ERROR], AT_ROW % (24, 24)),
    (["0411 0000 0104 00000000", ERROR], AT_ROW % (24, 24)),
    (["0411 0000 0103 000000", ERROR], AT_ROW % (24, 24)),
    (["0411 0000 0104 0000000A 0440", ERROR], AT_ROW % (24, 24)),
    (["0421" + "C1" * 80], "24 " + "A" * 80 + "\n" + LOCKED % ("1 1", 0) + "error row 24\n"),
]


def indented(lines):
    return "".join(f"  {line}\n" for line in lines)


def side(is_station):
    return ["--extended"] + ["--answers"] * is_station


class TestExtended(Runs):
    def test_bodies(self):
        for is_station, rows in (False, BODIES), (True, ANSWERS):
            for body, reason in rows:
                count = len(bytes.fromhex(body))
                stream = spelled(body, length=0x60 + count if reason else None)
                accepted = f"accepted: 1 records, 0 commands, {12 + count} bytes\n"
                line = f"refused at {9 + count}: reason {reason}\n" if reason else accepted
                for words in ["check"], ["check", "--cut", "1"]:
                    words += side(is_station)
                    self.expect(f"{words} of {body}", run(words, stream), 1 if reason else 0, line, "")
        for body, is_station in CUT:
            line = f"refused at {11 + len(bytes.fromhex(body))}: reason {ENDED}\n"
            self.expect(f"check of {body}", run(["check", *side(is_station)], spelled(body)), 1, line, "")

    def test_lines(self):
        """What is shown of a record, and made of that again."""
        for is_station, rows in (False, LINES), (True, TOLD_LINES):
            for opcode, body, lines in rows:
                stream = spelled(body, opcode)
                shown = f"at {len(stream) // 2 - 1} record flags 0000 opcode {opcode}\n" + indented(lines)
                done = run(["show", *side(is_station)], stream)
                # Behind a host's items stands the screen.
                right = done.stdout == shown if is_station else done.stdout.startswith(shown + "screen\n")
                self.count(f"show of {stream:.80} gave {done.stdout:.400}", right)
                self.expect(f"make of {stream:.80}", run(["make", *side(is_station)], shown), 0, stream + "\n", "")
        for is_station, rows in (False, BAD_LINES), (True, BAD_TOLD_LINES):
            for lines in rows:
                done = run(["make", *side(is_station)], "record opcode 3\n" + indented(lines))
                told = done.stderr.startswith(f"script line {len(lines) + 1}: ")
                self.count(f"make of {lines} gave {done.stderr}", told and (done.returncode, done.stdout) == (2, ""))
        # What the profile leaves out: commands by their names alone, and bodies.
        for _, body, lines in LINES[:7]:
            done = run(["make"], f"record opcode 3\n  {lines[0]}\n")
            wanted = f"script line 2: unknown word `{lines[0]}`, it is read with --extended\n"
            self.expect(f"make of {lines[0]}", done, 2, "", wanted)
            self.count(f"check of {body}", run(["check"], spelled(body)).stdout.startswith("refused at 11: "))

    def test_screens(self):
        for bodies, screen in SCREENS:
            records = [spelled(*body) if isinstance(body, tuple) else spelled(body) for body in bodies]
            done = run(["show", "--extended"], "".join(records))
            found = (done.returncode, done.stdout.partition("screen\n")[2])
            self.count(f"show of {bodies} gave {done.stdout}", found == (0, screen))
        # A second command that asks, and a text of 81 bytes.
        for body, reason in ("0402 0462", READ), ("0421" + "C1" * 81, "51 PastEnd"):
            done = run(["show", "--extended"], spelled(body))
            line = f"refused at {11 + len(bytes.fromhex(body))}: reason {reason}\n"
            found = (done.returncode, done.stdout.splitlines(True)[-1])
            self.count(f"show of {body} gave {done.stdout}", found == (1, line))
