"""Standard streams that take nothing, can't be read, or are closed."""
import os
import shutil
import subprocess
import time

from counted import PROGRAM
from program.runs import Runs, files, run
from program.texts import (
    BOB, BOB_LINES, BOB_SCREEN, COLORS, COLORS_COLORED, HELLO, HELLO_LINES, HELLO_MADE, HELLO_TEXT, INVITE,
    INVITE_LINE, QUERY, QUERY_LINE,
)


# Words that read standard input, or a file; the input; and what they come to where all is open.
STREAMS = [
    (["check"], INVITE, 0, INVITE_LINE, ""),
    (["check"], QUERY, 1, QUERY_LINE, ""),
    (["check"], "0g", 2, "", "not hex\n"),
    (["check", "@" + QUERY], "", 1, QUERY_LINE, ""),
    (["check", "@0g"], "", 2, "", "not hex\n"),
    (["check", "no such file"], "", 2, "", "cannot read\n"),
    (["show"], HELLO, 0, HELLO_LINES, ""),
    (["show", "--color", "@" + COLORS], "", 0, COLORS_COLORED, ""),
    (["show", "@0g"], "", 2, "", "not hex\n"),
    (["show", "--answers", "@"], "", 0, "", ""),
    (["make"], HELLO_TEXT, 0, HELLO_MADE, ""),
    (["make", "@"], "", 0, "", ""),
    (["make", "@" + HELLO_TEXT + "nonsense\n"], "", 2, "", "script line 6: unknown word `nonsense`\n"),
    (["play"], BOB, 0, BOB_LINES, ""),
    (["play", "@"], "", 0, "", ""),
    (["play", "--screen", "@" + BOB], "", 0, BOB_LINES + BOB_SCREEN, ""),
    (["play", "@settl\n"], "", 2, "", "script line 1\n"),
    (["play", "--tcp"], BOB, 0, BOB_LINES, ""),
    (["play", "--tcp", "@" + BOB], "", 0, BOB_LINES, ""),
    (["play", "--tcp", "@"], "", 0, "", ""),
    (["play", "--tcp", "@settl\n"], "", 2, "", "script line 1\n"),
]

CLOSED = [(0,), (1,), (2,), (0, 1), (0, 2), (1, 2), (0, 1, 2)]


def closing(streams):
    """What closes these descriptors before the program begins."""
    def close():
        for stream in streams:
            os.close(stream)
    return close


def standing(process, streams):
    """What stands at descriptors of a process; None where nothing does."""
    links = [f"/proc/{process.pid}/fd/{stream}" for stream in streams]
    return [os.readlink(link) if os.path.lexists(link) else None for link in links]


class TestStream(Runs):
    def test_full_output(self):
        """Standard output takes nothing."""
        texts = {"play": BOB, "make": HELLO_TEXT}
        for words in ["check"], ["show"], ["make"], ["play"], ["play", "--tcp"], ["--help"]:
            with open("/dev/full", "w") as full:
                done = run(words, texts.get(words[0], INVITE), stdout=full)
            self.expect(f"{words} into a full device", done, 2, "", "cannot write\n")

    def test_unread_output(self):
        """The other side of the pipe at standard output is closed: three commands tell it, the others end without a
        word."""
        rows = [(["check"], INVITE), (["show"], INVITE), (["play"], BOB), (["make"], HELLO_TEXT), (["trace"], "")]
        for words, text in [*rows, (["reasons"], ""), (["keys"], ""), (["--help"], ""), (["--version"], "")]:
            ends = os.pipe()
            os.close(ends[0])
            done = run(words, text, stdout=ends[1])
            os.close(ends[1])
            told = words[0] in ("check", "show", "play")
            self.expect(f"{words} that nobody reads", done, 2, "", "cannot write\n" if told else "")

    def test_folder_as_input(self):
        """Standard input can't be read: it is a folder."""
        for words in ["check"], ["show"], ["make"], ["play"], ["trace"]:
            descriptor = os.open(self.folder, os.O_RDONLY)
            done = run(words, stdin=descriptor)
            os.close(descriptor)
            self.expect(f"{words} from a folder", done, 2, "", "cannot read\n")

    def test_closed_streams(self):
        """Standard streams are closed: a command that needs one ends with its fault, behind those of its input; another
        one changes nothing."""
        for closed in CLOSED:
            for words, text, status, out, err in STREAMS:
                if 0 in closed and not any(word.startswith("@") or " " in word for word in words):
                    status, out, err = 2, "", "cannot read\n"
                elif 1 in closed and not err:
                    status, out, err = 2, "", "cannot write\n"
                done = run(list(files(words, self.folder)), text, preexec_fn=closing(closed))
                name = f"{[word[:20] for word in words]} without {closed}"
                self.expect(name, done, status, "" if 1 in closed else out, "" if 2 in closed else err)
            # No input is asked for, or nothing at all.
            version = "t5250 4.0.0\ncommit not recorded, as it was built in a clone\n"
            others = (["--help"], 0, None, ""), (["--version"], 0, version, ""), (["other"], 2, "", None)
            for words, status, out, err in others:
                if 1 in closed and status == 0:
                    status, out, err = 2, "", "cannot write\n"
                done = run(words, preexec_fn=closing(closed))
                self.expect(f"{words} without {closed}", done, status, out, "" if 2 in closed else err)

    def test_what_takes_their_place(self):
        """Where standard streams are closed, no file that is read takes their place."""
        path = os.path.join(self.folder, "pipe")
        os.mkfifo(path)
        pipes = {"stdin": subprocess.PIPE, "stdout": subprocess.PIPE, "stderr": subprocess.PIPE}
        for closed in CLOSED:
            process = subprocess.Popen([PROGRAM, "check", path], preexec_fn=closing(closed), **pipes)
            # It opens the pipe, and waits for what it reads; its descriptor may come after the pipe's other side.
            with open(path, "w") as file:
                others = standing(process, range(3, 10))
                end = time.monotonic() + 60
                while path not in others and time.monotonic() < end:
                    time.sleep(0.01)
                    others = standing(process, range(3, 10))
                found = standing(process, closed)
                file.write(INVITE)
            process.communicate(timeout=300)
            right = found == ["/dev/null"] * len(closed) and path in others
            self.count(f"without {closed} there stand {found} and {others}", right)

    def test_sockets(self):
        """A command that lacks a standard stream makes no socket."""
        path, script = os.path.join(self.folder, "calls"), os.path.join(self.folder, "text.hex")
        known = subprocess.run(["strace", "-o", path, "true"], capture_output=True) if shutil.which("strace") else None
        if known is None or known.returncode != 0:
            self.skipTest("strace isn't there or may not look")
        with open(script, "w") as file:
            file.write("settle\n")
        play, connect, serve = f"play --tcp {script}", "connect --wait 1 127.0.0.1:1", "serve --wait 1 127.0.0.1:0"
        rows = [(play, "", True), (play, "<&-", True), (play, ">&-", False), (play, "<&- >&-", False),
                (connect, "", True), (connect, "<&-", False), (connect, ">&-", False), (connect, "<&- >&- 2>&-", False),
                (serve, "<&-", False), (serve, ">&-", False), (serve, "<&- >&- 2>&-", False)]
        for words, redirected, wanted in rows:
            shell = ["sh", "-c", f'exec "$0" {words} {redirected}', PROGRAM]
            traced = ["strace", "-f", "-qq", "-e", "trace=socket", "-o", path, *shell]
            subprocess.run(traced, stdin=subprocess.DEVNULL, capture_output=True, timeout=300)
            with open(path) as file:
                self.count(f"{words} {redirected}: sockets", ("socket(" in file.read()) == wanted)
