"""Sessions that are typed at a terminal: the prompt, `help`, `quit`, what is told of a bad line, and their end."""
import contextlib
import os
import pty
import select
import socket
import subprocess
import tempfile
import termios
import threading
import time
import unittest

from live.lines import at_host, sending
from live.program import Run
from live.screens import SIGN_ON
from peers import Host, Side, expect, negotiate_as_host, negotiate_as_station, refusing
from records import ASKED, OF_COMMAND, record
from refusals import told_refusal

PROMPT = "t5250> "
END_OF_INPUT = "\x04"


def terminal():
    """Both ends of a terminal that doesn't repeat what is typed, and leaves line feeds as they are."""
    master, slave = pty.openpty()
    modes = termios.tcgetattr(slave)
    modes[1] &= ~termios.OPOST
    modes[3] &= ~termios.ECHO
    termios.tcsetattr(slave, termios.TCSANOW, modes)
    return master, slave


class Typist:
    """A run of the program at a terminal, on which all is that it prints."""

    def __init__(self, words, **streams):
        self.master, slave = terminal()
        given = {"stdin": slave, "stdout": slave, "stderr": slave} | streams
        self.process = subprocess.Popen([Run.program, *words], **given)
        os.close(slave)

    def until(self, end, seconds=60):
        """What comes up to this text; what comes up to the program's end where there is no such text."""
        text, limit = "", time.monotonic() + seconds
        while end is None or not text.endswith(end):
            if not select.select([self.master], [], [], max(0, limit - time.monotonic()))[0]:
                raise AssertionError("%r didn't come after %r" % (end, text))
            try:
                piece = os.read(self.master, 4096)
            except OSError:
                piece = b""
            if not piece:
                expect(end, None, "the end, after %r" % text)
                break
            text += piece.decode()
        return text

    def type(self, text):
        os.write(self.master, text.encode())

    def told(self, line, prompt=PROMPT):
        """What is told of a line, up to the next prompt."""
        self.type(line + "\n")
        return self.until(prompt).removesuffix(prompt)

    def end(self, status, text=""):
        expect(self.until(None), text, "what was told at the end")
        with contextlib.suppress(OSError):
            os.close(self.master)
        expect(self.process.wait(timeout=60), status, "status")


def connected(host, *words, at="127.0.0.1"):
    """A session that is typed, at its first prompt."""
    typist = Typist(["connect", *words, "%s:%d" % (at, host.port)])
    expect(typist.until(PROMPT), "connected to %s:%d\n%s" % (at, host.port, PROMPT), "the beginning")
    return typist


def listed(command):
    """The lines that help lists of a command, up to an empty line."""
    text = subprocess.run([Run.program, "help", command], capture_output=True, text=True, check=True).stdout
    return text.split("is carried out before the next is read:\n")[1].split("\n\n")[0] + "\n"


def closing(side):
    negotiate_as_host(side)
    side.send(record(SIGN_ON))


class TestTyped(unittest.TestCase):
    def test_lines(self):
        host = Host(sending(SIGN_ON))
        typist = connected(host)
        expect(typist.told("await"), "", "await")
        expect(typist.told("show 1 37 7"), "Sign On\n", "show")
        expect(typist.told("type A"), "", "type")
        expect(typist.told("key F25"), "bad line: unknown key `F25`\n", "a key that is none")
        expect(typist.told("shwo"), "bad line: unknown word `shwo`, did you mean `show`?\n", "a word that is none")
        expect(typist.told(""), "", "an empty line")
        expect(typist.told("show 6 53 1"), "A\n", "a good line after bad ones")
        typist.type("quit\n")
        typist.end(0)
        host.end()

    def test_help(self):
        host = Host(sending(SIGN_ON))
        typist = connected(host)
        told = typist.told("help")
        expect(told.startswith("  help  ") and "\n  quit  " in told, True, "the words of a terminal")
        expect(told.endswith(listed("connect")), True, "the lines of connect")
        expect(typist.told("help me"), "bad line: unknown word `help`\n", "more than help")
        expect(typist.told("await"), "", "await")
        typist.type("quit\n")
        typist.end(0)
        host.end()

    def test_end_of_input(self):
        host = Host(sending(SIGN_ON))
        typist = connected(host)
        expect(typist.told("await"), "", "await")
        typist.type(END_OF_INPUT)
        typist.end(0, "\n")
        host.end()

    def test_end_of_input_in_a_line(self):
        host = Host(sending(SIGN_ON))
        typist = connected(host)
        typist.type("await" + END_OF_INPUT)
        typist.type(END_OF_INPUT)
        expect(typist.until(PROMPT), PROMPT, "a line without its end")
        typist.type(END_OF_INPUT)
        typist.end(0, "\n")
        host.end()

    def test_what_comes_meanwhile(self):
        """What the host sends is answered while no line is typed, a refused record is told, and what came is ahead."""
        came = threading.Event()

        def asking(side):
            negotiate_as_host(side)
            side.send(record(SIGN_ON) + record("04AA"))
            side.take(OF_COMMAND, "a negative response")
            came.set()
            side.take_end()

        host = Host(asking)
        typist = connected(host)
        expect(came.wait(60), True, "the answers")
        place = len(ASKED + record(SIGN_ON)) + 11
        told = told_refusal("record", place, "21 UnknownCommand")
        expect(typist.until(PROMPT), told + PROMPT, "what is told meanwhile")
        expect(typist.told("show 1 37 7"), "Sign On\n", "show")
        expect(typist.told("await record"), "", "a record that came before")
        typist.type("quit\n")
        typist.end(1)
        host.end()

    def test_host_that_closes(self):
        host = Host(closing)
        typist = connected(host)
        expect(typist.told("await"), "", "await")
        host.end()
        expect(typist.until(PROMPT), "ended\n" + PROMPT, "what is told where the host closes")
        expect(typist.told("await record"), "ended\n", "a wait for a host that has closed")
        expect(typist.told("shwo"), "bad line: unknown word `shwo`, did you mean `show`?\n", "a bad line after that")
        typist.type("quit\n")
        typist.end(1)

    def test_no_host(self):
        with refusing() as port:
            typist = Typist(["connect", "127.0.0.1:%d" % port])
            typist.end(2, "no connection to 127.0.0.1:%d: refused\n" % port)

    def test_address_in_brackets(self):
        host = Host(sending(SIGN_ON), "::1")
        typist = connected(host, at="[::1]")
        typist.type("await\nquit\n")
        typist.end(0, PROMPT)
        host.end()

    def test_output_is_that_of_the_lines(self):
        host = Host(sending(SIGN_ON))
        with tempfile.TemporaryFile() as out:
            typist = Typist(["connect", "127.0.0.1:%d" % host.port], stdout=out)
            typist.until(PROMPT)
            for line in "await", "help", "shwo", "show 1 37 7", "note end":
                typist.told(line)
            typist.type("quit\n")
            typist.end(0)
            out.seek(0)
            expect(out.read(), b"Sign On\nend\n", "standard output")
        host.end()

    def test_ready_is_for_programs(self):
        host = Host(sending(SIGN_ON))
        typist = Typist(["connect", "--ready", "127.0.0.1:%d" % host.port])
        expect(typist.told("await", "ok\n"), "", "await")
        expect(typist.told("help", "ok\n"), "bad line: unknown word `help`\n", "help")
        typist.type(END_OF_INPUT)
        typist.end(1)
        host.end()

    def test_stop(self):
        host = Host(sending(SIGN_ON))
        typist = Typist(["connect", "--stop", "127.0.0.1:%d" % host.port])
        typist.type("await\nshwo\n")
        typist.end(2, "script line 2: unknown word `shwo`, did you mean `show`?\n")
        host.end()

    def test_script_at_a_terminal(self):
        host = Host(sending(SIGN_ON))
        with tempfile.NamedTemporaryFile() as script:
            script.write(b"await\nshow 1 37 7\n")
            script.flush()
            typist = Typist(["connect", "127.0.0.1:%d" % host.port, script.name])
            typist.end(0, "Sign On\n")
        host.end()

    def test_pipe(self):
        at_host(sending(SIGN_ON), [], "await\nshow 1 37 7\n", 0, "Sign On\n")
        at_host(sending(SIGN_ON), [], "await\nhelp\n", 2, "", "script line 2: unknown word `help`\n")
        at_host(sending(SIGN_ON), [], "await\nquit\n", 2, "", "script line 2: unknown word `quit`\n")

    def test_file(self):
        host = Host(sending(SIGN_ON))
        with tempfile.TemporaryFile() as lines:
            lines.write(b"await\nshow 1 37 7\n")
            lines.seek(0)
            run = Run(["connect", "127.0.0.1:%d" % host.port], stdin=lines)
            run.end(0, "Sign On\n")
        host.end()

    def test_serve(self):
        with tempfile.NamedTemporaryFile("r+") as out:
            typist = Typist(["serve", "--wait", "60", "127.0.0.1:0"], stdout=out)
            while not (told := open(out.name).read()).endswith("\n"):
                time.sleep(0.01)
            host, port = told.split()[1].split(":")
            side = Side(socket.create_connection((host, int(port)), timeout=60))
            expect(typist.until(PROMPT), PROMPT, "the beginning")
            typist.type("await\n")
            negotiate_as_station(side)
            expect(typist.until(PROMPT), PROMPT, "await")
            expect(typist.told("help").endswith(listed("serve")), True, "the lines of serve")
            expect(typist.told("sned"), "bad line: unknown word `sned`, did you mean `send`?\n", "a word that is none")
            expect(typist.told("send 3\n  CLEAR-UNIT\nend"), "", "a send")
            side.take(record("0440"))
            typist.type("close\n")
            typist.end(0)
            side.take_end()
            expect(open(out.name).read(), told + "host ready IBM-3179-2\n", "standard output")
