"""What `show --code-page` prints of a screen's cells."""
from program.runs import Runs, run, spelled

# What bytes 4A 4F 5A 5B 7B 7C 9F C0 D0 E0 are on the pages of a country, the second of which has the euro sign for the
# currency sign (IBM Character Data Representation Architecture).
BYTES = "4A4F5A5B7B7C9FC0D0E0"
COUNTRIES = [
    (37, 1140, "¢|!$#@¤{}\\"),
    (273, 1141, "Ä!Ü$#§¤äüÖ"),
    (277, 1142, "#!¤ÅÆØ]æå\\"),
    (278, 1143, "§!¤ÅÄÖ]äåÉ"),
    (280, 1144, "°!é$£§¤àèç"),
    (284, 1145, "[|]$Ñ@¤{}\\"),
    (285, 1146, "$|!£#@¤{}\\"),
    (297, 1147, "°!§$£à¤éèç"),
    (500, 1148, "[!]$#@¤{}\\"),
    (871, 1149, "Þ!Æ$#Ð¤þæ´"),
]

# How a wrong number is told.
PAGES = "37, 273, 277, 278, 280, 284, 285, 297, 500, 871, 1140 to 1149"

# The pages that Python knows. On 273 it has an overline where IBM's table has the macron.
CODECS = {37: "cp037", 273: "cp273", 500: "cp500", 1140: "cp1140"}

# What a Write to Display puts on a new screen, and its rows on page 273.
ROWS_273 = [
    # what is no character there: 00, an attribute, Dup and FF
    ("110101 4A 00 5A 22 C0 1C D0 FF", " 1 Ä Ü ä*ü.\n"),
    # what is hidden, and then isn't
    ("110101 27 4A5A 20 4A5A", " 1     ÄÜ\n"),
    # a row whose last characters are blanks
    ("110101 4A 4040", " 1 Ä\n"),
    # the last row
    ("11184F 4A5A", "24 " + " " * 78 + "ÄÜ\n"),
]
STATE = "cursor 1 1, locked, message off, blink off, fields 0\n"

# Words that aren't numbers of a page.
WRONG = ["0", "36", "274", "1150", "65573", "999999", "-37", "+37", "37 ", "cp37", "x", ""]


def screen_of(words, body, more=""):
    """What is printed of the screen that a Write to Display makes, and records behind it."""
    done = run(["show", *words], spelled("04110000" + body) + more)
    return done.stdout.partition("screen\n")[2]


class TestPages(Runs):
    def expect_screen(self, words, body, wanted):
        found = screen_of(words, body)
        self.count(f"show {words} of {body} gave {found!r}", found == wanted)

    def test_countries(self):
        for national, euro, characters in COUNTRIES:
            for word, shown in ((f"{national:03}", characters), (str(euro), characters.replace("¤", "€"))):
                wanted = f" 1 {shown}\n" + STATE
                for more in ([], ["--extended"]):
                    self.expect_screen(["--code-page", word, *more], "110101" + BYTES, wanted)

    def test_all_bytes(self):
        """Each of bytes 41 to FE, as Python's codecs have them, from the second row on."""
        held = bytes(range(0x41, 0xFF))
        for number, codec in CODECS.items():
            text = held.decode(codec).replace("\u203e", "\u00af")
            rows = [text[at:at + 80].rstrip(" ") for at in range(0, len(text), 80)]
            wanted = "".join(f"{row:2} {shown}\n" for row, shown in enumerate(rows, 2))
            self.expect_screen(["--code-page", str(number)], "110201" + held.hex().upper(), wanted + STATE)

    def test_037(self):
        """Without the words, on 037."""
        for body in ("110101" + BYTES, ROWS_273[0][0]):
            for more in ([], ["--color"], ["--extended"]):
                found = screen_of(more, body)
                for word in ("37", "037"):
                    self.expect_screen(["--code-page", word, *more], body, found)

    def test_rows(self):
        for body, wanted in ROWS_273:
            self.expect_screen(["--code-page", "273"], body, wanted + STATE)

    def test_color(self):
        self.expect_screen(["--color", "--code-page", "273"], "110101 4A 24 5A",
                           " 1 \x1b[0;32mÄ\x1b[0;32m \x1b[0;32;4mÜ\x1b[0m\n".replace("\x1b[0;32m ", " ") + STATE)

    def test_error_row(self):
        """The row on which an error stands."""
        found = screen_of(["--extended", "--code-page", "273"], "110101 4A", spelled("0421 224A5AC0".replace(" ", "")))
        self.count(f"an error's row gave {found!r}", found == " 1 Ä\n24  ÄÜä\n" + STATE + "error row 24\n")

    def test_items_stay(self):
        """What isn't characters is printed as on any page."""
        stream = spelled("04110000110101" + BYTES)
        items = run(["show"], stream).stdout.partition("screen\n")[0]
        found = run(["show", "--code-page", "297"], stream).stdout.partition("screen\n")[0]
        self.count("the items", found == items)
        answer = "000E 12A0 0000 04 0000 00 0635 F1 4A FFEF"
        words = ["show", "--answers"]
        self.count("an answer", run([*words, "--code-page", "297"], answer).stdout == run(words, answer).stdout != "")

    def test_wrong_words(self):
        for word in WRONG:
            done = run(["show", f"--code-page={word}"], spelled("04110000"))
            said = f"error: no code page has the number `{word}`: {PAGES}\n"
            self.count(f"--code-page={word} gave {done.returncode} {done.stderr!r:.100}",
                       (done.returncode, done.stdout) == (2, "") and done.stderr.startswith(said))
