"""Lines of `connect` whose text or keys hang on the screen, at one form."""
import unittest

from live.lines import at_host, sending
from live.screens import SIGN_ON
from peers import expect
from records import record

# A field of ten cells at 6, 53.
FORM = "044004110008110634" "1D400020000A" "04520000"
# Fields of four cells: one at 2, 2, one with bypass at 3, 2, and a last one at 4, 2.
THREE = "044004110008110201" "1D%s0020000400000000" "1103011D6000200004D1D20000" "1104011D4000200004E2E30000" "04520000"

# Waits for a text at a host that has closed: what is shown meets one, and `ended` tells that nothing does.
AWAITED = [
    ("await text B", True), ("await text B. \u00fcQ", True), ("await text .", True), ("await text Q  ", True),
    ("await text b", False), ("await text \u00fcQ.", False), ("await text \u20ac", False), ("await at 6 53 B", True),
    ("await at 6 55  \u00fcQ", True), ("await at 6 54 B", False), ("await at 5 53 B", False), ("await at 24 80  ", True),
    ("await at 24 80   ", False),
]

STROKES = """await
cursor 24 80
show
newline
type BOB
cursor 6 54
erase
fields
show
field 1 JIM
fields
field 2 X
cursor 1 1
erase
field 1 A B
fields
show 6 53 10
show 6 56 1
show 24 80 1920
key Enter
field 1 X
"""
STRUCK = """screen
cursor 24 80, unlocked, message off, blink off, fields 1
field 6 53 10 4800 B
screen
 6                                                     B
cursor 6 54, unlocked, message off, blink off, fields 1
field 6 53 10 4800 JIM
field refused NoSuchField
key refused Protected
field 6 53 10 4800 A B
A B


key refused Locked
"""

# Where New Line leads from a cell.
NEW_LINES = [((1, 1), (2, 2)), ((2, 2), (4, 2)), ((2, 80), (4, 2)), ((3, 2), (4, 2)), ((4, 1), (2, 2)),
             ((24, 80), (2, 2))]

# A field's format, what is typed, the cursor's column, and what Erase EOF leaves. A sign goes too.
ERASED = [("40", "type ABCD", 2, ""), ("40", "type ABCD", 3, "A"), ("40", "type ABCD", 5, "ABC"),
          ("47", "type 123\nkey FieldMinus", 2, ""), ("47", "type 123\nkey FieldMinus", 3, "1"),
          ("47", "type 123\nkey FieldMinus", 4, "12"), ("47", "type 123\nkey FieldMinus", 5, "123")]


class TestScreen(unittest.TestCase):
    def test_texts_that_are_awaited(self):
        script = "await\ntype B. \u00fcQ\n" + "".join(line + "\n" for line, _ in AWAITED)
        printed = "ok\nok\n" + "".join("ok\n" if is_met else "ended\nok\n" for _, is_met in AWAITED)
        at_host(sending(FORM, closes=True), ["--wait", "60", "--ready"], script, 1, printed)

    def test_strokes(self):
        at_host(sending(FORM, answer=record("0638F1" "110635C140C2")), ["--wait", "60"], STROKES, 1, STRUCK)

    def test_new_lines(self):
        script = "await\n" + "".join("cursor %d %d\nnewline\nstatus\n" % cell for cell, _ in NEW_LINES)
        run = at_host(sending(THREE % "40"), ["--wait", "60"], script, 0, None)
        found = [tuple(map(int, line.split()[3:5])) for line in run.printed.splitlines()]
        expect(found, [to for _, to in NEW_LINES], "where New Line leads")
        # Where keys enter no field it leads to column 1 of the row below.
        for row, below in (1, 2), (24, 1):
            at_host(sending("04110008" "1103011D6000200004D1D20000" "04520000"), ["--wait", "60"],
                    "await\ncursor %d 5\nnewline\nshow\n" % row, 0,
                    "screen\n 3  JK\ncursor %d 1, unlocked, message off, blink off, fields 1\n" % below)

    def test_erased_to_the_end(self):
        for form, typed, column, left in ERASED:
            at_host(sending(THREE % form), ["--wait", "60"],
                    "await\n%s\ncursor 2 %d\nerase\nshow 2 2 4\nshow 3 2 2\n" % (typed, column), 0, "%s\nJK\n" % left)

    def test_fields_that_are_emptied(self):
        """A field by its number, unless keys don't enter it, or there is none."""
        at_host(sending(THREE % "47"), ["--wait", "60"],
                "await\ntype 123\nkey FieldMinus\nfield 1 4\nfield 2 X\nfield 3 Y\nfield 4 Z\n"
                "show 2 2 4\nshow 3 2 2\nshow 4 2 4\n", 1, "key refused Protected\nfield refused NoSuchField\n4\nJK\nY\n")

    def test_a_text_that_is_too_long(self):
        """Nothing of a text with more characters than its field has cells is typed, and the field keeps what it has."""
        at_host(sending(SIGN_ON), ["--wait", "60"],
                "await\nfield 1 QUSER\nfield 1 LONGUSERNAME\nfield 2 SECRETPASSWORD\nfield 1 TENLETTERS\nfields\n", 1,
                "field refused TooLong\nfield refused TooLong\nfield 6 53 10 4800 TENLETTERS\nfield 7 53 10 4000\n")

    def test_characters_that_are_refused(self):
        """Each refused key tells its character, and those of a line behind it are pressed all the same."""
        script = "await\ntype A\u20ac \u03b1\ninsert \u20ac\nfield 1 A\u20acB\nkey Dup\nfields\n"
        wrong = "key refused WrongCharacter %s\n"
        printed = wrong % "\u20ac" + wrong % "\u03b1" + 2 * (wrong % "\u20ac") + "key refused DupNotAllowed\n"
        at_host(sending(FORM), ["--wait", "60"], script, 1, printed + "field 6 53 10 4800 A\n")
