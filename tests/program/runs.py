"""Runs of the program, and what is wanted of each."""
import os
import subprocess

from counted import PROGRAM, Test
from records import record


class Runs(Test):
    """Runs of the program, each of which counts by itself."""

    def expect(self, name, done, status, out, err):
        """Holds a run to a status and two texts. None stands for any text of some length."""
        right = (done.returncode, is_as(done.stdout, out), is_as(done.stderr, err)) == (status, True, True)
        self.count(f"{name} gave {done.returncode}, {done.stdout!r:.200}, {done.stderr!r:.200}", right)


def is_as(found, wanted):
    return found not in ("", None) if wanted is None else (found or "") == wanted


def run(words, text="", **more):
    pipes = {} if "stdin" in more else {"input": text}
    more = {"stdout": subprocess.PIPE, "stderr": subprocess.PIPE, "text": True, "timeout": 300, **pipes, **more}
    return subprocess.run([PROGRAM, *words], **more)


def files(words, folder):
    for word in words:
        if word.startswith("@"):
            path = os.path.join(folder, "text.hex")
            with open(path, "w") as file:
                file.write(word[1:])
            yield path
        else:
            yield word


def spelled(body, opcode=3, length=None):
    """A record in hex, without its end where its length is another."""
    whole = record(body, opcode)
    return (whole if length is None else length.to_bytes(2, "big") + whole[2:-2]).hex().upper()
