"""Who `connect` says that it is, at a host of Python that asks for NEW-ENVIRON (RFC 1572; its variables: RFC 4777)."""
import unittest

from live.lines import at_host
from live.program import Run
from live.screens import SIGN_ON
from peers import expect, negotiate_as_host
from records import DO, IAC, SB, SE, WILL, record

DONT, WONT = 0xFE, 0xFC
NEW_ENVIRON, IS, SEND, VALUE, USERVAR = 39, 0, 1, 1, 3

ASK, PERFORMS = bytes([IAC, DO, NEW_ENVIRON]), bytes([IAC, WILL, NEW_ENVIRON])
REFUSES = bytes([IAC, WONT, NEW_ENVIRON])
SEND_ALL = bytes([IAC, SB, NEW_ENVIRON, SEND, IAC, SE])
# A host asks for a seed's answer by eight bytes, of which one is FF (RFC 4777, section 5).
SEND_SEED = (bytes([IAC, SB, NEW_ENVIRON, SEND, USERVAR]) + b"IBMRSEED" + bytes.fromhex("01020304FFFF060708")
             + bytes([USERVAR, 0, IAC, SE]))


def told(**variables):
    """What tells these variables."""
    content = b"".join(bytes([USERVAR]) + name.encode() + bytes([VALUE]) + value.encode()
                       for name, value in variables.items())
    return bytes([IAC, SB, NEW_ENVIRON, IS]) + content + bytes([IAC, SE])


PAGE = {"CODEPAGE": "037", "CHARSET": "697"}
PLAIN = {"KBDTYPE": "USB", **PAGE}

# The words, what is told at the first question, and at a second one.
TOLD = [
    (["--device", "ANNA1"], {"DEVNAME": "ANNA1", **PLAIN}, PLAIN),
    (["--device", "$a_b.c#@09"], {"DEVNAME": "$A_B.C#@09", **PLAIN}, PLAIN),
    (["--device=Q", "--keyboard=agb"], {"DEVNAME": "Q", "KBDTYPE": "AGB", **PAGE}, {"KBDTYPE": "AGB", **PAGE}),
    (["--keyboard", "X1Z"], {"KBDTYPE": "X1Z", **PAGE}, {"KBDTYPE": "X1Z", **PAGE}),
]

DEVICE_RULE = "1 to 10 of A to Z, 0 to 9 and $ # @ _ ., first a letter or $ # @"
# The pages, and what is told of each (RFC 4777, section 4).
PAGES = [
    ("37", "USB", "037", "697"), ("273", "AGB", "273", "697"), ("277", "DMB", "277", "697"), ("278", "FNB", "278", "697"),
    ("280", "ITB", "280", "697"), ("284", "SPB", "284", "697"), ("285", "UKB", "285", "697"), ("297", "FAB", "297", "697"),
    ("500", "BLI", "500", "697"), ("871", "ICB", "871", "697"), ("1140", "USB", "1140", "695"),
    ("1141", "AGB", "1141", "695"), ("1142", "DMB", "1142", "695"), ("1143", "FNB", "1143", "695"),
    ("1144", "ITB", "1144", "695"), ("1145", "SPB", "1145", "695"), ("1146", "UKB", "1146", "695"),
    ("1147", "FAB", "1147", "695"), ("1148", "BLI", "1148", "695"), ("1149", "ICB", "1149", "695"),
]

WRONG_DEVICES = ["1ABC", "TOOLONGNAME", "", "_A", ".A", "A B", "A-B", "ANNA1 ", "\u00c4", "A\u00c4"]
WRONG_PAGES = ["", "0", "36", "38", "1139", "1150", "65573", "-37", "+37", "3 7", "0x25", "37.0", "x"]
WRONG_KEYBOARDS = ["", "US", "USBX", "U-B", " US", "\u00c4B"]


def asking(*steps):
    """A host that asks this before records are allowed, takes what answers it, and sends the sign-on."""
    def play(side):
        for asked, answer in steps:
            side.send(asked)
            side.take(answer)
        negotiate_as_host(side)
        side.send(record(SIGN_ON))
        side.take_end()
    return play


class TestIdentity(unittest.TestCase):
    def at(self, words, *steps):
        at_host(asking(*steps), ["--wait", "60", *words], "await\nshow 1 37 7\n", 0, "Sign On\n")

    def test_what_a_host_is_told(self):
        """The device's name once: a host that asks again has found it in use."""
        for words, first, second in TOLD:
            for ask in SEND_ALL, SEND_SEED:
                self.at(words, (ASK, PERFORMS), (ask, told(**first)), (ask, told(**second)), (ask, told(**second)))

    def test_what_a_host_is_told_of_a_page(self):
        for number, keyboard, digits, characters in PAGES:
            page = {"KBDTYPE": keyboard, "CODEPAGE": digits, "CHARSET": characters}
            for word in number, "00" + number:
                self.at(["--code-page", word], (ASK, PERFORMS), (SEND_ALL, told(**page)))
        page = {"KBDTYPE": "AGB", "CODEPAGE": "273", "CHARSET": "697"}
        self.at(["--device", "ANNA1", "--code-page", "273"], (ASK, PERFORMS), (SEND_ALL, told(DEVNAME="ANNA1", **page)),
                (SEND_ALL, told(**page)))
        self.at(["--code-page", "1141", "--keyboard", "X1Z"], (ASK, PERFORMS),
                (SEND_ALL, told(KBDTYPE="X1Z", CODEPAGE="1141", CHARSET="695")))

    def test_while_the_option_is_off(self):
        """Nothing is told before it is on and after it is off, and no host performs it."""
        off, performs = bytes([IAC, DONT, NEW_ENVIRON]), bytes([IAC, WILL, NEW_ENVIRON])
        self.at(["--device", "ANNA1"], (SEND_ALL + performs, off), (ASK + ASK, PERFORMS), (off + SEND_ALL, REFUSES),
                (ASK, PERFORMS), (SEND_ALL, told(DEVNAME="ANNA1", **PLAIN)))

    def test_without_an_identity(self):
        for words in [], ["--strict"]:
            self.at(words, (ASK, REFUSES), (SEND_ALL + ASK, REFUSES), (PERFORMS, bytes([IAC, DONT, NEW_ENVIRON])))

    def test_wrong_names(self):
        for option, names, why in [
            ("--device", WRONG_DEVICES, "no device has the name `%s`: " + DEVICE_RULE),
            ("--code-page", WRONG_PAGES, "no code page has the number `%s`: 37, 273, 277, 278, 280, 284, 285, 297, 500, "
             "871, 1140 to 1149"),
            ("--keyboard", WRONG_KEYBOARDS, "no keyboard has the type `%s`: three letters and digits, as USB"),
        ]:
            for name in names:
                run = Run(["connect", "%s=%s" % (option, name), "127.0.0.1:1"], "")
                run.end(2, "", None)
                expect(run.fault.splitlines()[0], "error: " + why % name, "standard error")
                self.assertIn("Usage: t5250 connect", run.fault)

    def test_a_station_of_the_profile_has_none(self):
        for words in ["--device", "ANNA1"], ["--keyboard", "USB"], ["--code-page", "37"]:
            run = Run(["connect", "--strict", *words, "127.0.0.1:1"], "")
            run.end(2, "", None)
            self.assertIn("cannot be used with", run.fault)
        for words in ["--device"], ["--keyboard"], ["--code-page"], ["--device", "A", "--device", "B"]:
            Run(["connect", "127.0.0.1:1", *words], "").end(2, "", None)
