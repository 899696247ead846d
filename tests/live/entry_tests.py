"""What a field's format word asks of an operator at `connect` (SC30-3533, field format word), at a host of Python."""
import unittest

from live.lines import at_host
from peers import negotiate_as_host
from records import ASKED, record

WORDS = ["--wait", "60"]


def form(format_word, cells, held="", second="4000", read="04520000"):
    """A form with a field at row 6, column 53, and one of four cells at column 73; and what is asked then."""
    first = "1D%s20%04X" % (format_word, cells) + held
    return record("044004110008110634" + first + "110648" "1D%s200004" % second + read)


def keyed(sent, answer):
    """A host that sends a form, and takes what answers it."""
    def play(side):
        negotiate_as_host(side)
        side.send(sent)
        side.take(answer)
        side.take_end()
    return play


# The form, the lines, what they print, and the answer: the cursor, the key, and the fields by their places.
DONE = [
    # Auto enter: the character in the last cell is followed by Enter, and so is one by which a script fills the field.
    (form("4080", 3), "type ABC\n", "", "0649F1" "110635C1C2C3"),
    (form("4080", 3), "field 1 ABC\n", "", "0649F1" "110635C1C2C3"),
    (form("4080", 3), "type AB\nkey FieldExit\n", "", "0649F1" "110635C1C2"),
    # Enter comes after the last key of a line that is carried out.
    (form("4080", 3), "type AB\ntype C\nshow 6 53 3\n", "ABC\n", "0649F1" "110635C1C2C3"),
    # Numeric only: a minus in the last digit.
    (form("4300", 4), "type 12\nkey FieldMinus\nkey Enter\n", "", "0649F1" "110635F1D2"),
    # An insert has room where the last cell is a blank.
    (form("4000", 12, "E2D4C9E3C8" + "40" * 7), "insert X\nkey Enter\n", "", "0636F1" "110635E7E2D4C9E3C8" + "40" * 6),
    # Small letters become capitals that the code page has.
    (form("4020", 4), "type aé\nkey Enter\n", "", "0637F1" "110635C171"),
]

# The same where a key is refused.
REFUSED = [
    # Field exit required: the field is full until a key leaves it.
    (form("4040", 3), "type ABCD\nstatus\nkey FieldExit\ntype D\nfields\nkey Enter\n",
     "key refused FieldExitRequired D\nstatus unlocked ready 6 55 field 1 records 1 bytes %d\n"
     "field 6 53 3 4840 ABC\nfield 6 73 4 4800 D\n", "064AF1" "110635C1C2C3" "110649C4"),
    (form("4040", 3), "type ABC\ninsert D\nkey Enter\n", "key refused FieldExitRequired D\n", "0637F1" "110635C1C2C3"),
    # Mandatory fill: a field isn't left or sent that is filled in part.
    (form("4007", 4), "type AB\nkey Enter\ntype CD\nkey Enter\n", "key refused MandatoryFill\n",
     "0649F1" "110635C1C2C3C4"),
    (form("4007", 4), "type AB\nkey FieldExit\ntype CD\nkey Enter\n", "key refused MandatoryFill\n",
     "0649F1" "110635C1C2C3C4"),
    # What isn't carried out isn't followed by Enter.
    (form("4087", 3), "type A\nkey FieldExit\ntype BC\n", "key refused MandatoryFill\n", "0649F1" "110635C1C2C3"),
]


class TestEntry(unittest.TestCase):
    def each(self, rows, words, status, ending=""):
        for sent, lines, printed, answer in rows:
            printed = printed % (len(ASKED) + len(sent)) if "%d" in printed else printed
            at_host(keyed(sent, record(answer)), [*WORDS, *words], "await\n" + lines, status, printed + ending)

    def test_what_keys_do(self):
        for words in [], ["--device", "ANNA1"]:
            self.each(DONE, words, 0)

    def test_keys_that_are_refused(self):
        for words in [], ["--device", "ANNA1"]:
            self.each(REFUSED, words, 1)

    def test_what_is_typed_on_a_page(self):
        """A character's byte, and its capital's, are the page's; one that the page hasn't got is refused."""
        for page, format_word, text, held in [
            (["--code-page", "273"], "4020", "ü", "5A"), (["--code-page", "37"], "4020", "ü", "FC"), ([], "4020", "ü", "FC"),
            (["--code-page", "273"], "4000", "ü[]@", "D0" "63" "FC" "B5"), ([], "4000", "ü[]@", "DC" "BA" "BB" "7C"),
            (["--code-page", "1141"], "4000", "€", "9F"),
        ]:
            answer = "06%02XF1" % (0x35 + len(text)) + "110635" + held
            at_host(keyed(form(format_word, 5), record(answer)), [*WORDS, *page], "await\ntype %s\nkey Enter\n" % text, 0, "")
        for page, text in (["--code-page", "1141"], "¤"), ([], "€"):
            at_host(keyed(form("4000", 5), record("0635F1")), [*WORDS, *page], "await\ntype %s\nkey Enter\n" % text, 1,
                    "key refused WrongCharacter %s\n" % text)

    def test_an_enter_that_is_refused(self):
        """It isn't told, and the field is left: what has to be entered is empty, or no read is asked."""
        for sent in form("4080", 3, second="4008"), form("4080", 3, read=""):
            at_host(keyed(sent, b""), WORDS, "await record\ntype ABC\nstatus\n", 0,
                    "status unlocked ready 6 73 field 2 records 1 bytes %d\n" % (len(ASKED) + len(sent)))

    def test_a_script_goes_on(self):
        """A line that Enter follows is carried out, so the next is."""
        at_host(keyed(form("4080", 3), record("0649F1" "110635C1C2C3")), WORDS, None, 0, "A\n",
                script="await\ntype ABC\nnote A\n")

    def test_a_station_of_the_profile(self):
        """It carries the words without effect."""
        for format_word, text in ("4040", "D"), ("4080", "D"), ("4007", ""):
            sent = form(format_word, 3)
            lines = "type ABC%s\nkey Enter\n" % text
            answer = "0649F1" "110635C1C2C3" if not text else "064AF1" "110635C1C2C3" "110649C4"
            at_host(keyed(sent, record(answer)), [*WORDS, "--strict"], "await\n" + lines, 0, "")
