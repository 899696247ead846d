"""The largest records, too few descriptors, too little memory, and how many writes an output takes."""
import os
import re
import resource
import shutil
import subprocess
import time

from counted import PROGRAM
from program.runs import Runs, run, spelled
from program.texts import ANSWER, BOB, HELLO, HELLO_TEXT, INVITE, MANY


def is_reading(process):
    """Whether a program has been loaded, and sleeps."""
    with open(f"/proc/{process.pid}/stat") as file:
        state = file.read().rpartition(")")[2].split()[0]
    with open(f"/proc/{process.pid}/maps") as file:
        loaded = file.read()
    return state == "S" and PROGRAM in loaded and "libc" in loaded


# The largest body of a host, letters over the whole screen again and again, and of a station, with how they are shown.
LETTERS = ["C1" * 1920] * 34 + ["C1" * 139]
LARGEST = "04110000" + "110101".join(LETTERS)
LARGEST_LINES = "  WRITE 00 00\n" + "  SBA 1 1\n".join(f"  PUT {letters}\n" for letters in LETTERS)
LARGEST_ANSWER = "0101F1" + "C1" * 65_522
LARGEST_ANSWER_LINES = f"  HEAD 1 1 F1\n  BYTES {'C1' * 65_522}\n"


def writes_of(words, text, path):
    """How many writes to standard output a run makes, and how many bytes; None where strace can't tell."""
    traced = ["strace", "-f", "-qq", "-e", "trace=write,writev", "-o", path, PROGRAM, *words]
    done = subprocess.run(traced, input=text.encode(), capture_output=True, timeout=300)
    with open(path) as file:
        return sum(re.search(r"\bwritev?\(1,", line) is not None for line in file), len(done.stdout)


class TestLimit(Runs):
    def test_too_few_descriptors(self):
        """There is no descriptor left for listening, for connecting, or for what is accepted."""
        for descriptors in 3, 4, 5:
            pipes = {"stdin": subprocess.PIPE, "stdout": subprocess.PIPE, "stderr": subprocess.PIPE}
            process = subprocess.Popen([PROGRAM, "play", "--tcp"], text=True, **pipes)
            # While it waits for its script: before that, it needs a descriptor to load the C library.
            end = time.monotonic() + 60
            while not is_reading(process) and time.monotonic() < end:
                time.sleep(0.01)
            resource.prlimit(process.pid, resource.RLIMIT_NOFILE, (descriptors, descriptors))
            out, err = process.communicate(BOB, timeout=300)
            done = subprocess.CompletedProcess([], process.returncode, out, err)
            self.expect(f"--tcp with {descriptors} descriptors", done, 2, "", "no connection\n")

    def test_too_little_memory(self):
        """There is too little memory for the input."""
        path = os.path.join(self.folder, "large.hex")
        with open(path, "w") as file:
            file.write(INVITE * 1_000_000)

        def limit():
            resource.setrlimit(resource.RLIMIT_AS, (24 << 20, 24 << 20))

        for words in ["check"], ["show"]:
            self.expect(f"{words} without memory", run([*words, path], preexec_fn=limit), 2, "", "memory\n")

    def test_largest_records(self):
        """Where there is memory enough none is wanted."""
        for words, body, lines in ([], LARGEST, LARGEST_LINES), (["--answers"], LARGEST_ANSWER, LARGEST_ANSWER_LINES):
            for extended in [], ["--extended"]:
                words = words + extended
                stream = spelled(body)
                shown = "at 65538 record flags 0000 opcode 3\n" + lines
                line = "accepted: 1 records, 0 commands, 65539 bytes\n"
                self.expect(f"check {words} of the largest", run(["check", *words], stream), 0, line, "")
                recorded = run(["check", "--of", "station", *words], f"1 host {stream}\n2 station {stream}\n")
                self.expect(f"check --of {words} of the largest", recorded, 0, line, "")
                self.expect(f"make {words} of the largest", run(["make", *words], shown), 0, stream + "\n", "")
                done = run(["show", *words], stream)
                right = done.returncode == 0 and done.stdout.startswith(shown) and done.stderr == ""
                self.count(f"show {words} of the largest gave {done.returncode}, {done.stderr}", right)
        script = f"settle\nsend 2 {LARGEST}\nsettle\n"
        for words in ["play"], ["play", "--tcp"]:
            self.expect(f"{words} of the largest", run(words, script), 0, "host ready IBM-3179-2\n", "")

    def test_writes(self):
        """There is at most one write for 4 KiB of output, and one for the rest."""
        path = os.path.join(self.folder, "writes")
        known = subprocess.run(["strace", "-o", path, "true"], capture_output=True) if shutil.which("strace") else None
        if known is None or known.returncode != 0:
            self.skipTest("strace isn't there or may not look")
        session = "settle\n" + (BOB.partition("\n")[2] * 500)
        shown = (["show"], HELLO * 1000), (["show", "--answers"], ANSWER * 1000)
        played = (["play"], session), (["play", "--screen"], session)
        for words, text in (*shown, *played, (["make"], HELLO_TEXT * 1000), (["check"], MANY)):
            count, length = writes_of(words, text, path)
            self.count(f"{words}: {count} writes of {length} bytes", 0 < count <= length // 4096 + 1)
