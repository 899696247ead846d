"""`connect` and `serve` beside the programs of c/examples, which get the same bytes."""
import os
import re
import shutil
import subprocess
import unittest

from counted import TOP, Test
from live.lines import READY, at_host, served
from live.screens import SIGN_ON, SIGN_ON_SCREEN
from peers import expect
from records import record

C = TOP / "c"
LIBRARY = C / "build/libribbonscarp.a"


def c_bytes(name, array):
    """The bytes of an array in a program of c/examples."""
    text = re.sub(r"/\*.*?\*/", "", (C / f"examples/{name}.c").read_text(), flags=re.DOTALL)
    found = re.search(r"\b%s\[\] = \{(.*?)\}" % array, text, flags=re.DOTALL)
    return bytes(int(byte, 16) for byte in re.findall(r"0x([0-9a-f]{2})", found.group(1)))


@unittest.skipUnless(shutil.which("cc") and LIBRARY.exists(), "cc or c/build/libribbonscarp.a isn't there")
class TestC(Test):
    def printed(self, name, *words):
        """What a program of c/examples prints, which is built over the C library."""
        program = os.path.join(self.folder, name)
        source = C / f"examples/{name}.c"
        subprocess.run(["cc", "-std=c11", "-O1", "-I", C, "-o", program, source, LIBRARY], check=True)
        return subprocess.run([program, *words], stdout=subprocess.PIPE, check=True).stdout.decode()

    def test_a_station_in_c_writes_the_same(self):
        """`connect` and c/examples/signon.c get the same bytes and keys."""
        lines = [line.split() for line in self.printed("signon").splitlines()]
        replies, answers = (bytes.fromhex("".join(line[1] for line in lines if line[0] == kind))
                            for kind in ("reply", "answer"))

        def play(side):
            side.send(c_bytes("signon", "opening"))
            side.take(replies)
            side.send(c_bytes("signon", "record"))
            side.take(answers)
            side.take_end()

        script = "await text Sign On\nawait\ntype QUSER\nkey FieldExit\ntype SECRET\nkey Enter\ntype A\n"
        at_host(play, ["--wait", "60", "--terminal", "IBM-3179-2"], script, 1, "key refused Locked A\n")

    def test_an_emulator_in_c_shows_the_same(self):
        """What `serve` writes makes the screen in c/examples/emulator.c that `connect` shows."""
        serve, side = served("await\nsend 3 %s\n" % SIGN_ON)
        side.take(record(SIGN_ON))
        side.close()
        serve.end(0, READY)
        capture = os.path.join(self.folder, "capture.hex")
        with open(capture, "w") as file:
            file.write(record(SIGN_ON).hex())
        expect(self.printed("emulator", capture), SIGN_ON_SCREEN, "the screen in C")
