"""Checks of several files: a line each, which begins with the file's name."""
import os

from program.runs import Runs, run
from program.texts import ANSWER, ANSWER_LINE, INVITE, INVITE_LINE, QUERY, QUERY_LINE, SHORT, SHORT_LINE

TEXTS = {"a.hex": INVITE, "b c.hex": QUERY, "d": SHORT, "e": ANSWER, "none": "", "odd": "000", "letters": "0g",
         "it.recording": f"0 host {INVITE}", "no.recording": f"0 host {INVITE}1 hosts 00\n"}
LINES = {"a.hex": INVITE_LINE, "b c.hex": QUERY_LINE, "d": SHORT_LINE, "e": "refused at 10: reason 20 NoEscape\n",
         "none": "accepted: 0 records, 0 commands, 0 bytes\n"}


class TestFiles(Runs):
    def setUp(self):
        super().setUp()
        for name, text in TEXTS.items():
            with open(os.path.join(self.folder, name), "w") as file:
                file.write(text)
        os.mkdir(os.path.join(self.folder, "folder"))

    def check(self, name, words, status, out, err="", **more):
        self.expect(name, run(["check", *words], cwd=self.folder, **more), status, out, err)

    def lines(self, *names):
        return "".join(f"{name}: {LINES[name]}" for name in names)

    def test_lines(self):
        rows = [(["a.hex", "none"], 0), (["a.hex", "a.hex", "a.hex"], 0), (["b c.hex", "a.hex"], 1),
                (["a.hex", "b c.hex", "d", "none"], 1), (["d", "e"], 1)]
        for names, status in rows:
            self.check(f"{names}", names, status, self.lines(*names))
            self.check(f"{names} in pieces", ["--cut", "1", *names], status, self.lines(*names))
            self.check(f"{names} without standard input", names, status, self.lines(*names),
                       preexec_fn=lambda: os.close(0))
        for name in LINES:
            self.check(f"{name} alone", [name], LINES[name][0] != "a", LINES[name])
        many = ["a.hex"] * 2000
        self.check("many", many, 0, self.lines(*many))
        self.check("answers", ["--answers", "e", "e"], 0, f"e: {ANSWER_LINE}" * 2)
        line = f"it.recording: {INVITE_LINE}"
        self.check("recordings", ["--of", "host", "it.recording", "it.recording"], 0, line * 2)
        for name, hex_text in TEXTS.items():
            if name in LINES:
                with open(os.path.join(self.folder, name), "wb") as file:
                    file.write(bytes.fromhex(hex_text))
        self.check("bytes", ["--raw", *LINES], 1, self.lines(*LINES))

    def test_faults(self):
        """The first file that has a fault ends the checks, behind the lines of those before it."""
        rows = [("no such file", "cannot read: no such file: no such file"), ("a.hex/b", "cannot read: a.hex/b: no such file"),
                ("folder", "cannot read: folder: is a folder"), ("odd", "not hex: odd"), ("letters", "not hex: letters: byte 1 is 'g'")]
        for name, fault in rows:
            for before in [], ["a.hex"], ["b c.hex", "a.hex"]:
                names = [*before, name, "a.hex"]
                self.check(f"{names}", names, 2, self.lines(*before), fault + "\n")
        self.check("no file at the end", ["a.hex", ""], 2, self.lines("a.hex"), "cannot read: : no such file\n")
        self.check("bytes of no file", ["--raw", "folder", "a.hex"], 2, "", "cannot read: folder: is a folder\n")
        self.check("no recording", ["--of", "host", "it.recording", "no.recording"], 2,
                   f"it.recording: {INVITE_LINE}", "script line 2: no.recording\n")
        # One file alone has the fault's words alone.
        for name, fault in ("no such file", "cannot read"), ("folder", "cannot read"), ("odd", "not hex"):
            self.check(f"{name} alone", [name], 2, "", fault + "\n")

    def test_no_output(self):
        with open("/dev/full", "w") as full:
            self.check("a full device", ["a.hex", "d"], 2, "", "cannot write\n", stdout=full)
        self.check("no standard output", ["a.hex", "d"], 2, "", "cannot write\n", preexec_fn=lambda: os.close(1))
        # A fault of the first file comes before it.
        self.check("no output, no file", ["odd", "d"], 2, "", "not hex: odd\n", preexec_fn=lambda: os.close(1))

    def test_commands_of_one_file(self):
        for words in ["show", "a.hex", "d"], ["make", "a.hex", "d"], ["play", "a.hex", "d"]:
            self.expect(words, run(words, cwd=self.folder), 2, "", None)
