"""How far long work has come, as someone sees it who looks at standard error."""
import os
import pty
import subprocess
import tempfile
import time

from counted import PROGRAM
from program.runs import Runs
from records import record

# A screen of letters, whose line has twice its bytes: 3,000 of them make some 12 MB of text.
LETTERS = bytes.fromhex("0411000011" "0101") + b"\xc1" * 1918
RECORDS, SOME, TEXT_OF_ONE = 3_000, 2_000_000, 3_900


def told(words, at_terminal=True):
    """What is told of a run whose output is read in part, and the rest after more than a second; and its length."""
    master, slave = pty.openpty()
    process = subprocess.Popen([PROGRAM, *words], stdout=subprocess.PIPE,
                               stderr=slave if at_terminal else subprocess.DEVNULL)
    length = 0
    while length < SOME:
        length += len(os.read(process.stdout.fileno(), 65_536))
    time.sleep(1.5)
    while piece := os.read(process.stdout.fileno(), 65_536):
        length += len(piece)
    process.wait(timeout=60)
    os.set_blocking(master, False)
    try:
        text = os.read(master, 65_536).decode()
    except BlockingIOError:
        text = ""
    os.close(slave)
    os.close(master)
    return text, length


class TestProgress(Runs):
    def test_at_a_terminal(self):
        """It is told after a second, and how much it was at the end; nowhere else than at a terminal."""
        with tempfile.NamedTemporaryFile() as file:
            file.write(record(LETTERS) * RECORDS)
            file.flush()
            words = ["show", "--raw", file.name]
            text, length = told(words)
            rows = text.replace("\r\n", "\n").split("\r")[1:]
            self.count(f"it tells {text[:200]!r}", len(rows) > 1 and all(row.rstrip().endswith(" MB written") for row in rows))
            self.count(f"{length} bytes", length > RECORDS * TEXT_OF_ONE)
            self.count(f"the end: {text[-60:]!r}", text.endswith(f"\r{length // 1_000_000} MB written\r\n"))
            self.count("without a terminal", told(words, at_terminal=False) == ("", length))
