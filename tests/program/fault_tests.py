"""Faults of a command line and of files, which say what they are about."""
import os

from program.runs import Runs, run

# The words of a command, and the first line on standard error behind `error: `.
WRONG = [
    (["connect", ""], "`` names no host: HOST, HOST:PORT, [V6]:PORT"),
    (["connect", "a:b:c"], "`a:b:c` names no host: HOST, HOST:PORT, [V6]:PORT"),
    (["connect", "[::1"], "`[::1` names no host: HOST, HOST:PORT, [V6]:PORT"),
    (["connect", "127.0.0.1:"], "`127.0.0.1:` names no host: HOST, HOST:PORT, [V6]:PORT"),
    (["connect", "fe80::1%eth0:23"], "`fe80::1%eth0:23` names no host: HOST, HOST:PORT, [V6]:PORT"),
    (["connect", "127.0.0.1:65536"], "`65536` is no port"),
    (["connect", "127.0.0.1:telnet", "a script"], "`telnet` is no port"),
    (["connect", "[::1]:+23"], "`+23` is no port"),
    (["connect", "localhost", "65536"], "`65536` is no port"),
    (["connect", "::1", "99999", "a script"], "`99999` is no port"),
    (["connect", "localhost", "a", "b"], "`a` is no port"),
    (["connect", "localhost:23", "5250", "b"], "`b` is one word too many"),
    (["connect", "--terminal", "IBM-1", "localhost"], "no terminal has the name `IBM-1`"),
    (["connect", "--device", "1ABC", "localhost"],
     "no device has the name `1ABC`: 1 to 10 of A to Z, 0 to 9 and $ # @ _ ., first a letter or $ # @"),
    (["connect", "--device", "", "localhost"],
     "no device has the name ``: 1 to 10 of A to Z, 0 to 9 and $ # @ _ ., first a letter or $ # @"),
    (["connect", "--keyboard", "US", "localhost"], "no keyboard has the type `US`: three letters and digits, as USB"),
    (["connect", "--code-page", "38", "localhost"],
     "no code page has the number `38`: 37, 273, 277, 278, 280, 284, 285, 297, 500, 871, 1140 to 1149"),
    (["serve", "localhost"], "`localhost` names no address to listen at: HOST:PORT, [V6]:PORT"),
    (["serve", "::1:5250"], "`::1:5250` names no address to listen at: HOST:PORT, [V6]:PORT"),
    (["serve", "127.0.0.1:65536"], "`65536` is no port"),
    (["trace", "--raw"], "a recording isn't raw: `--raw` stands with `--host` or `--station`"),
]

USAGES = {"connect": "Usage: t5250 connect [OPTIONS] <HOST[:PORT]> [PORT] [SCRIPT]",
          "serve": "Usage: t5250 serve [OPTIONS] <ADDRESS> [SCRIPT]",
          "trace": "Usage: t5250 trace [OPTIONS] [FILE]"}


class TestFault(Runs):
    def test_wrong_words(self):
        for words, why in WRONG:
            done = run(words)
            wanted = f"error: {why}\n\n{USAGES[words[0]]}\n\nFor more information, try '--help'.\n"
            self.expect(words, done, 2, "", wanted)

    def test_files(self):
        path = os.path.join(self.folder, "it")
        sessions = ["connect", "127.0.0.1:1"], ["connect", "127.0.0.1", "1"], ["serve", "127.0.0.1:0"]
        for command in ["make"], ["trace"], *sessions:
            for name, why in (path, "no such file"), (self.folder, "is a folder"), ("", "no such file"):
                self.expect(f"{command} {name}", run([*command, name]), 2, "", f"cannot read: {name}: {why}\n")
        with open(path, "w") as file:
            file.write("\n")
        os.chmod(path, 0)
        if not os.access(path, os.R_OK):
            for command in "make", "trace":
                self.expect(command, run([command, path]), 2, "", f"cannot read: {path}: not allowed\n")
        for command in "make", "trace":
            done = run([command, f"{path}/a"])
            self.expect(f"{command} of a file as a folder", done, 2, "", f"cannot read: {path}/a: no such file\n")

    def test_one_word_and_two(self):
        """A port in a word of its own is one behind the host; a script is the word behind both."""
        for words in ["127.0.0.1:1"], ["127.0.0.1", "1"], ["127.0.0.1", "001"]:
            fault = "no connection to 127.0.0.1:1: refused\n"
            self.expect(words, run(["connect", "--wait", "5", *words], "show\n"), 2, "", fault)
        for words in ["127.0.0.1:1", "1"], ["127.0.0.1", "1", "1"], ["127.0.0.1", "a"]:
            fault = f"cannot read: {words[-1]}: no such file\n"
            self.expect(words, run(["connect", *words], cwd=self.folder), 2, "", fault)
