"""Runs of the program, whose lines are read as they come, and what is expected of them."""
import contextlib
import os
import queue
import re
import subprocess
import tempfile
import threading
import time

from counted import PROGRAM
from peers import expect


class Run:
    """A run of the program, with a text on standard input or a script's file, whose lines are read as they come."""

    program = PROGRAM

    def __init__(self, words, text=None, script=None, keep_open=False, stdin=subprocess.PIPE, closed=(), **environment):
        def close():
            for stream in closed:
                os.close(stream)

        if script is not None:
            self.script = tempfile.NamedTemporaryFile()
            self.script.write(as_bytes(script))
            self.script.flush()
            words = [*words, self.script.name]
        self.began = time.monotonic()
        self.process = subprocess.Popen([self.program, *words], stdin=stdin, stdout=subprocess.PIPE,
                                        stderr=subprocess.PIPE, preexec_fn=close if closed else None,
                                        env=os.environ | environment)
        self.lines = queue.Queue()
        self.reader = threading.Thread(target=self.read, daemon=True)
        self.reader.start()
        # It may end before it has read its input.
        with contextlib.suppress(BrokenPipeError):
            if text is not None:
                self.process.stdin.write(as_bytes(text))
                self.process.stdin.flush()
            if text is not None and not keep_open:
                self.process.stdin.close()

    def read(self):
        for line in self.process.stdout:
            self.lines.put(line.decode())
        self.lines.put(None)

    def tell(self, line):
        self.process.stdin.write((line + "\n").encode())
        self.process.stdin.flush()

    def line(self, seconds=60):
        try:
            line = self.lines.get(timeout=seconds)
        except queue.Empty:
            raise AssertionError("no line came")
        return "" if line is None else line

    def asked(self, line):
        """What a line prints, up to its `ok`."""
        self.tell(line)
        return self.answered()

    def answered(self):
        text = ""
        while (got := self.line()) not in ("ok\n", ""):
            text += got
        return text

    def end(self, status, printed=None, error="", seconds=60):
        """Ends standard input, and looks at the status, at what was printed since, and at standard error.

        None stands for anything. What was printed since is the answer, and in `printed`; standard error is in `fault`.
        """
        with contextlib.suppress(BrokenPipeError):
            if self.process.stdin is not None:
                self.process.stdin.close()
        try:
            self.process.wait(timeout=seconds)
        except subprocess.TimeoutExpired:
            self.process.kill()
            raise AssertionError("it doesn't end")
        self.reader.join()
        self.printed = "".join(iter(self.lines.get, None))
        self.fault = self.process.stderr.read().decode()
        if error is not None:
            expect(as_wanted(self.fault, error), error, "standard error")
        if printed is not None:
            expect(self.printed, printed, "standard output")
        if status is not None:
            expect(self.process.returncode, status, "status")
        return self.printed

    def stop(self):
        self.process.kill()
        self.process.wait()


def as_bytes(text):
    return text if isinstance(text, bytes) else text.encode()


def as_wanted(fault, wanted):
    """A fault, of a bad line without the cause where its number alone is wanted."""
    if re.fullmatch(r"script line \d+\n", wanted):
        return re.sub(r"^(script line \d+): .*\n$", r"\1\n", fault)
    return fault


def timed(low, high, began, what):
    took = time.monotonic() - began
    if not low < took < high:
        raise AssertionError("%s took %.2f s" % (what, took))
