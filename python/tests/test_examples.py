"""The programs of examples/python, which docs/DRIVING.md links."""
from __future__ import annotations

import contextlib
import os
import pathlib
import re
import shutil
import signal
import socket
import subprocess
import sys
import tempfile
import unittest
from collections.abc import Iterator

from ribbonscarp import Key
from support import EXAMPLES, PROGRAM, TOP, Beside, Serve, refusing

PROGRAMS = EXAMPLES / "python"
PAGE = (TOP / "docs/DRIVING.md").read_text(encoding="utf-8")
ENVIRONMENT = dict(os.environ, PYTHONPATH=str(TOP / "python"), PYTHONDONTWRITEBYTECODE="1")
ENVIRONMENT["PYTEST_ADDOPTS"] = "-p no:cacheprovider"
INQUIRY = (EXAMPLES / "inquiry.serve").read_text(encoding="utf-8")
# The answer to a second item, before the key that leaves.
SECOND = """await
send 3
  WRITE 00 08
  SBA 5 2
  TEXT Price  . . . .    7.80
  READ-MDT 00 00
"""
SCRIPT = "await text Name\ntype {name}\nkey Enter\nawait record\nawait record\n"


def run(name: str, *words: str, **variables: str) -> subprocess.CompletedProcess[str]:
    environment = dict(ENVIRONMENT, **variables)
    command = [sys.executable, str(PROGRAMS / name), *words]
    return subprocess.run(command, env=environment, capture_output=True, text=True, timeout=300, check=False)


class ExamplesTest(unittest.TestCase):
    def test_linked(self) -> None:
        """The page links each program but the one that it only names, and no other."""
        linked = re.findall(r"\]\(\.\./examples/python/(\w+\.py)\)", PAGE)
        self.assertEqual(linked, ["scrape.py", "host.py", "test_scrape.py", "farm.py"])
        self.assertIn("`examples/python/check_emulator.py`", PAGE)
        programs = sorted(program.name for program in PROGRAMS.glob("*.py"))
        self.assertEqual(programs, sorted([*linked, "check_emulator.py"]))

    def test_scrape(self) -> None:
        last = INQUIRY.rindex("await")
        with Serve(INQUIRY[:last] + SECOND + INQUIRY[last:]) as serve:
            done = run("scrape.py", "127.0.0.1", str(serve.port), "QUSER", "4711", "12", PASSWORD="SECRET")
        self.assertEqual((done.stdout, done.stderr, done.returncode), ("4711 12.50\n12 7.80\n", "", 0))
        self.assertEqual(serve.status, 0)
        answers = [line for line in serve.printed.splitlines() if line.startswith("  field")]
        typed = [answers[0], answers[1], answers[2], answers[3]]
        self.assertEqual(
            typed,
            [
                "  field 6 53 D8E4E2C5D9 QUSER",
                "  field 7 53 E2C5C3D9C5E3 SECRET",
                "  field 3 20 F4F7F1F1 4711",
                "  field 3 20 F1F2 12",
            ],
        )

    def test_scrape_fails(self) -> None:
        """A host that closes at once."""
        with socket.create_server(("127.0.0.1", 0)) as server:
            host = Beside(lambda: server.accept()[0].close())
            done = run("scrape.py", "127.0.0.1", str(server.getsockname()[1]), "QUSER", "4711")
            host.finish()
        self.assertEqual((done.stdout, done.returncode), ("", 1))
        self.assertIn("the connection has ended: the text 'Sign On' hasn't come", done.stderr)

    def emulate(self, name: str) -> subprocess.CompletedProcess[str]:
        """The emulator is the program, with a script."""
        with tempfile.NamedTemporaryFile("w") as script:
            script.write(SCRIPT.format(name=name))
            script.flush()
            return run("check_emulator.py", PROGRAM, "connect", "--wait", "60", "127.0.0.1:{port}", script.name)

    def test_emulator(self) -> None:
        done = self.emulate("BOB")
        self.assertEqual((done.stderr, done.returncode), ("", 0))
        self.assertEqual(
            done.stdout.splitlines(),
            [
                "ready: IBM-3179-2",
                "ok Enter answers the read",
                "ok the field that was typed into is sent, without its empty cells",
                "ok no other field is sent",
                "ok the cursor stands after what was typed",
                "ok a read can be cancelled",
            ],
        )

    def test_emulator_fails(self) -> None:
        done = self.emulate("BEN")
        self.assertEqual(done.returncode, 1)
        self.assertEqual(
            done.stdout.splitlines()[-1],
            "not so: the field that was typed into is sent, without its empty cells",
        )


@contextlib.contextmanager
def begun(command: str, folder: pathlib.Path) -> Iterator[None]:
    """A command of the page that goes on, once it listens."""
    process = subprocess.Popen(
        ["bash", "-c", f"set -e; {command}"], cwd=folder, stdout=subprocess.PIPE, stderr=subprocess.DEVNULL,
        env=ENVIRONMENT, text=True, start_new_session=True,
    )
    try:
        assert process.stdout is not None
        while not process.stdout.readline().startswith("listening"):
            assert process.poll() is None
        yield
    finally:
        os.killpg(process.pid, signal.SIGTERM)
        process.communicate(timeout=120)


class PageTest(unittest.TestCase):
    """What docs/DRIVING.md prints, run as it is printed, but for the port, in a folder that has what the top has."""

    def setUp(self) -> None:
        folder = tempfile.TemporaryDirectory()
        self.addCleanup(folder.cleanup)
        self.folder = pathlib.Path(folder.name)
        for name in ("python", "examples"):
            (self.folder / name).symlink_to(TOP / name)
        port = refusing()
        self.page = PAGE.replace("5250", str(port.__enter__()))
        self.addCleanup(port.__exit__, None, None, None)
        self.blocks = re.findall(r"^```\n(.*?)^```$", self.page, re.M | re.S)

    def run_block(self, program: str) -> subprocess.CompletedProcess[str]:
        """The block of the page whose last command runs a program."""
        [block] = [block for block in self.blocks if program in block.splitlines()[-1]]
        command = ["bash", "-ec", block]
        return subprocess.run(command, cwd=self.folder, env=ENVIRONMENT, capture_output=True, text=True, timeout=300,
                              check=False)

    @unittest.skipUnless(shutil.which("openssl"), "openssl isn't here")
    def test_scrape(self) -> None:
        [host] = [block for block in self.blocks if "openssl" in block]
        with begun(host, self.folder):
            done = self.run_block("/scrape.py")
        self.assertEqual((done.stdout, done.stderr), ("4711 12.50\n", ""))
        self.assertIn("this prints `4711 12.50`", self.page)

    @unittest.skipUnless(shutil.which("pytest"), "pytest isn't here")
    def test_pytest(self) -> None:
        done = self.run_block("pytest")
        self.assertRegex(done.stdout, r"5 passed in")

    def test_farm(self) -> None:
        [host] = re.findall(r"^With `(python3 .*)` in another shell it prints `100 12.50`:$", self.page, re.M)
        with begun(host, self.folder):
            done = self.run_block("farm.py")
        self.assertEqual((done.stdout, done.stderr), ("100 12.50\n", ""))

    def test_farm_fails(self) -> None:
        with refusing() as port:
            done = run("farm.py", "127.0.0.1", str(port), "2", "4711")
        self.assertRegex(done.stdout, r"^2 .*Connect call failed")
        self.assertEqual(done.returncode, 1)

    def test_keys(self) -> None:
        """The page's table of keys has each, and no other."""
        rows = re.findall(r"^\| (`.*`) \| (?:answer|move|edit|interrupt)", self.page, re.M)
        named = set(re.findall(r"`(\w+)`", " ".join(rows)))
        self.assertEqual(named, set(Key.__members__) - {f"F{number}" for number in range(2, 24)})


@unittest.skipUnless(shutil.which("pytest"), "pytest isn't here")
class PytestTest(unittest.TestCase):
    def test_failing(self) -> None:
        """What a failing assertion tells: the rows of the screen."""
        body = "Body().clear().write().text(1, 30, 'Main Menu').text(3, 2, 'Password').field(3, 20, 8, attribute=0x27)"
        test = f"""
from ribbonscarp import Body, Station
from support import ASKED, record

def test_screen():
    with Station() as station:
        station.push(ASKED + record(bytes({body})))
        station.fill(1, "SECRET")
        assert "Sign Off" in station.screen
"""
        with tempfile.TemporaryDirectory() as folder:
            file = pathlib.Path(folder) / "test_failing.py"
            file.write_text(test, encoding="utf-8")
            environment = dict(ENVIRONMENT, PYTHONPATH=f"{TOP / 'python'}:{TOP / 'python/tests'}")
            command = ["pytest", "-q", "-p", "no:cacheprovider", "-p", "ribbonscarp.pytest_plugin", str(file)]
            done = subprocess.run(command, env=environment, capture_output=True, text=True, timeout=300, check=False)
        told = [line for line in done.stdout.splitlines() if line.startswith("E ")]
        self.assertRegex(told[0], "assert 'Sign Off' in the screen")
        screen = r"<Screen: cursor 3 26, unlocked, 1 fields\n.* 1 {30}Main Menu\n.* 3  Password>"
        self.assertRegex("\n".join(told), screen)
        self.assertNotIn("SECRET", "\n".join(told))
