"""The hosts file: names with words of a command line, what is wrong in it, and the list."""
import os
import pathlib
import subprocess
import tempfile

from hosts import Host, inputs
from window import Terminal, check
from work import FORM


def write(home, text, folder=".config/term5250"):
    """A hosts file in a home of its own."""
    place = pathlib.Path(home, folder)
    place.mkdir(parents=True, exist_ok=True)
    (place / "hosts").write_text(text)
    return str(place / "hosts")


def named():
    """A name stands for its words; what the command line says stands over them."""
    with tempfile.TemporaryDirectory() as home:
        host = Host()
        at = f"127.0.0.1:{host.port}"
        write(home, f"# All.\n\n  prod:  --separators off --record '{home}/a day.rec' {at}\ntest: --mono -- {at}\n"
                    f"localhost: --record ~/more.rec --terminal=IBM-5251-11 {at}\n")
        for words, made, terminal in ((["prod"], "a day.rec", b"IBM-3179-2"), (["test"], None, b"IBM-3179-2"),
                                      (["localhost"], "more.rec", b"IBM-5251-11"),
                                      (["--record", "mine", "--terminal=IBM-5291-1", "prod"], "mine", b"IBM-5291-1"),
                                      (["prod", "--record=other"], "other", b"IBM-3179-2")):
            host.again()
            host.window = t = Terminal(*words, HOME=home, folder=home)
            t.until(host.is_ready.is_set, f"{words} connect")
            check(terminal in host.began, "the terminal type", words, host.began)
            host.send(FORM)
            t.at("03/020")
            t.tells(at)
            t.type("5\r")
            check(inputs(host.answer()) == (0xF1, {(3, 20): "5"}), "and works")
            t.leave()
            check(made is None or os.path.exists(os.path.join(home, made)), "recorded", made, os.listdir(home))
        host.close()


def wrong_hosts():
    """What is wrong in the file is told with its line."""
    with tempfile.TemporaryDirectory() as home:
        rows = (
            ("good: a:1\nnothing\n", "other", ", line 2: it isn't `NAME: WORD..`"),
            ("good:\n", "other", ", line 1: it isn't `NAME: WORD..`"),
            ("host:992\n", "other", ", line 1: it isn't `NAME: WORD..`"),
            ("two words: a\n", "other", ", line 1: it isn't `NAME: WORD..`"),
            ("--list: a\n", "other", ", line 1: it isn't `NAME: WORD..`"),
            ("good: a:1\nprod: b:1\ngood: c:1\n", "good", ", line 3: good is there twice"),
            ("good: --mono\n", "good", ", line 1: it needs a host"),
            ("good: a b\n", "good", ", line 1: b is one host too many"),
            ("good: --nonsense a\n", "good", ", line 1: unrecognized option '--nonsense'"),
            ("good: --list\n", "good", ", line 1: unrecognized option '--list'"),
            ("good: --background red a\n", "good", ", line 1: --background is black or own, and not red"),
            ("good: 'a\n", "good", ", line 1: quotes have no end, or one of | & ; < > ( ) { } isn't in quotes"),
            ("good: $(id)\n", "good", ", line 1: it has a command"),
            ("good: $NO_SUCH_WORD\n", "good", ", line 1: a variable of it isn't set"),
            ("good: a:99999\n", "good", "term5250: port 99999 is out of range: it is 1 to 65535"),
        )
        for content, name, sentence in rows:
            path = write(home, content)
            said = Terminal(name, HOME=home).ended(2, sentence)
            check(sentence[0] != "," or f"{path}{sentence}" in said, "with its name", said)
        os.remove(path)
        os.mkdir(path)
        Terminal("good", HOME=home).ended(2, f"term5250: {path}: Is a directory")
        Terminal("good:99999", HOME=home).ended(2, "port 99999 is out of range")


def listed():
    """`--list` prints the lines."""
    def listing(**environment):
        around = {name: value for name, value in os.environ.items() if name not in ("HOME", "XDG_CONFIG_HOME")}
        done = subprocess.run([Terminal.program, "--list"], capture_output=True, text=True, env=around | environment)
        return done.returncode, done.stdout, done.stderr

    with tempfile.TemporaryDirectory() as home:
        path = os.path.join(home, ".config/term5250/hosts")
        check(listing(HOME=home) == (2, "", f"term5250: {path}: No such file or directory\n"), "no file")
        check(listing() == (2, "", "term5250: no folder is known for hosts: No such file or directory\n"), "no home")
        write(home, "# All.\nprod:   --tls as400.example.com  \n\ntest: --mono 'a'\n")
        both = listing(HOME=home)
        check(both == (0, "prod: --tls as400.example.com\ntest: --mono 'a'\n", ""), "both", both)
        with open("/dev/full", "w") as full:
            done = subprocess.run([Terminal.program, "--list"], stdout=full, stderr=subprocess.PIPE, text=True,
                                  env=os.environ | {"HOME": home, "XDG_CONFIG_HOME": ""})
        check(done.returncode == 2 and "No space" in done.stderr, "to a full disk", done)
        write(home, "other: b\n", "term5250")
        check(listing(HOME=home, XDG_CONFIG_HOME=home) == (0, "other: b\n", ""), "in XDG_CONFIG_HOME")
        write(home, "prod: a\nnothing\n")
        told = listing(HOME=home)
        check(told == (2, "prod: a\n", f"term5250: {path}, line 2: it isn't `NAME: WORD..`\n"), "a wrong line", told)
