"""How the library is found, and that numbers and structures are the header's."""
from __future__ import annotations

import ctypes
import os
import pathlib
import re
import resource
import shutil
import subprocess
import sys
import tempfile
import time
import unittest
from enum import IntEnum

import ribbonscarp
from ribbonscarp import KeyRefusal, Opcode, Reason, Status, codes, library
from support import FORM, PROGRAM, TOP, record

HEADER = (TOP / "c/ribbonscarp.h").read_text(encoding="utf-8")
LIBRARY = str(library.library()._name)


def constants(prefix: str) -> dict[str, int]:
    """The constants of the header that begin so, without that."""
    found = re.findall(rf"^    RIBBON_{prefix}(\w+) = (\w+),?", HEADER, re.M)
    return {name: int(number, 0) for name, number in found}


def members(kind: type[IntEnum]) -> dict[str, int]:
    return {member.name: int(member) for member in kind}


class HeaderTest(unittest.TestCase):
    def test_numbers(self) -> None:
        reasons = constants("REASON_")
        self.assertEqual(reasons.pop("NONE"), 0)
        self.assertEqual(reasons, members(Reason))
        self.assertEqual(constants("OPCODE_"), {k: v for k, v in members(Opcode).items() if k != "CANCEL_INVITE"})
        refusals = {name.removeprefix("IS_"): number for name, number in constants("KEY_").items()}
        named = {"LOCKED", "PROTECTED", "WRONG_CHARACTER", "DUP_NOT_ALLOWED"}
        named |= {"FIELD_HAS_NO_ROOM", "NO_READ_PENDING", "MANDATORY_ENTER", "FIELD_EXIT_REQUIRED", "MANDATORY_FILL"}
        self.assertEqual({name: refusals[name] for name in named}, members(KeyRefusal))
        statuses = {name: constants("").get(name) for name in members(Status)}
        self.assertEqual(statuses, members(Status))

    def test_keys(self) -> None:
        kinds, aids = constants("KEY_"), constants("AID_")
        of_kind = {key.name: key.value[0] for key in ribbonscarp.Key if key.value[0] != codes.AID}
        of_aid = {key.name: key.value[1] for key in ribbonscarp.Key if key.value[0] == codes.AID}
        self.assertEqual(of_aid, aids)
        self.assertEqual(of_kind, {name: kinds[name] for name in of_kind})
        self.assertEqual(len(of_kind), 15)
        self.assertEqual((kinds["CHAR"], kinds["INSERT"], kinds["AID"]), (1, 2, codes.AID))

    def test_names_of_keys(self) -> None:
        """Each name of the program, and those of a PC's keys; in any case, and with blanks, hyphens or underscores."""
        page = (TOP / "docs/MANUAL.md").read_text(encoding="utf-8")
        row = re.search(r"^`key NAME` \| that key: (.*)$", page, re.M)
        assert row is not None
        names = [name for name in re.findall(r"`(\w+)`", row[1]) if name not in ("F1", "F24")]
        self.assertEqual(len(names), 21)
        for name in names:
            self.assertEqual(ribbonscarp.Key.named(name).name.replace("_", "").lower(), name.lower())
        for name in ("Page Down", "page-down", "PAGE_DOWN", "pagedown", "Roll Up"):
            self.assertIs(ribbonscarp.Key.named(name), ribbonscarp.Key.ROLL_UP)
        self.assertIs(ribbonscarp.Key.named("f24"), ribbonscarp.Key.F24)
        with self.assertRaisesRegex(ValueError, "no key is 'F25'; a character is typed by type"):
            ribbonscarp.Key.named("F25")

    def test_terminals(self) -> None:
        named = constants("TERMINAL_")
        self.assertEqual(named.pop("NONE"), 0)
        wanted = {name.replace("-", "_"): number for number, name in enumerate(ribbonscarp.TERMINALS, 1)}
        self.assertEqual(named, wanted)

    def test_rooms(self) -> None:
        rooms = constants("")
        for name in ("REPLY_ROOM", "ANSWER_ROOM", "UNIT_ROOM", "CANCEL_ROOM", "ROWS", "COLUMNS", "CELLS"):
            self.assertEqual(getattr(library, name), rooms[name], name)

    def test_structures(self) -> None:
        """Each field of a structure stands where the header has it."""
        found = re.findall(r"typedef struct \{(.*?)\} ribbon_(\w+);", HEADER, re.S)
        fields = {name: re.findall(r"^ *[\w ]+?[ *](\w+)(?:\[\d+\])*;", body, re.M) for body, name in found}
        fields["host"] = fields["decoder"] = fields.pop("handle")
        for name, structure in library.STRUCTURES.items():
            self.assertEqual([field[0] for field in structure._fields_], fields[name], name)

    def test_version(self) -> None:
        version = re.search(r'#define RIBBON_VERSION "(.*)"', HEADER)
        assert version is not None
        self.assertEqual(ribbonscarp.__version__, version[1])

    def test_sentences(self) -> None:
        """Those of reasons begin with their numbers, and are short."""
        for reason in Reason:
            text = library.reason_text(reason)
            self.assertTrue(text.startswith(f"{reason.value}: ") and len(text.encode()) < 80, text)
        query = "30: structured fields aren't part of the profile"
        self.assertEqual(library.reason_text(Reason.STRUCTURED_FIELD), query)
        self.assertEqual(library.reason_text(Reason.ROLL), "33: rolling of the screen isn't part of the profile")
        self.assertEqual(library.refusal_text(KeyRefusal.LOCKED), "the keyboard is locked")
        self.assertEqual(library.status_text(Status.NOT_READY), "both ends haven't agreed on records yet")


class FastTest(unittest.TestCase):
    """The library and the program are compiled as fast code, proved or not: unoptimised code takes fifty times as long."""

    def test_station(self) -> None:
        times = []
        for _ in range(20):
            begun = time.process_time()
            ribbonscarp.Station().close()
            times.append(time.process_time() - begun)
        self.assertLess(sorted(times)[10], 0.001)

    def test_program(self) -> None:
        """Three million bytes by `check --raw`."""
        before = resource.getrusage(resource.RUSAGE_CHILDREN).ru_utime
        done = subprocess.run([PROGRAM, "check", "--raw"], input=record(FORM) * 100000, capture_output=True, check=True)
        self.assertIn(b"accepted: 100000 records", done.stdout)
        self.assertLess(resource.getrusage(resource.RUSAGE_CHILDREN).ru_utime - before, 0.5)


class StackTest(unittest.TestCase):
    def test_stack(self) -> None:
        """Threads with little of it make stations too, and the size that was set stays."""
        code = "import ribbonscarp, threading; threading.stack_size(1 << 17)\n"
        code += "one = threading.Thread(target=lambda: ribbonscarp.Station().close())\n"
        code += "one.start(); one.join(); print(threading.stack_size())"
        done = subprocess.run([sys.executable, "-c", code], env=os.environ | {"PYTHONPATH": str(TOP / "python")},
                              capture_output=True, text=True, check=False)
        self.assertEqual((done.returncode, done.stdout, done.stderr), (0, "131072\n", ""))


class FindingTest(unittest.TestCase):
    """In a process of its own, since a library is loaded once."""

    def load(self, package: pathlib.Path, **variables: str) -> subprocess.CompletedProcess[str]:
        environment = {name: value for name, value in os.environ.items() if name != library.VARIABLE}
        environment.update(variables, PYTHONPATH=str(package), PYTHONDONTWRITEBYTECODE="1")
        code = "import ribbonscarp; ribbonscarp.Station().close(); print('found')"
        return subprocess.run([sys.executable, "-c", code], env=environment, capture_output=True, text=True, check=False)

    def test_named(self) -> None:
        run = self.load(TOP / "python", RIBBONSCARP_LIBRARY=LIBRARY)
        self.assertEqual((run.stdout, run.stderr), ("found\n", ""))

    def test_named_elsewhere(self) -> None:
        """A name that leads nowhere isn't made good by a library that is found otherwise."""
        run = self.load(TOP / "python", RIBBONSCARP_LIBRARY="/nowhere.so", LD_LIBRARY_PATH=os.path.dirname(LIBRARY))
        self.assertEqual(run.stdout, "")
        self.assertIn("LibraryNotFound: no libribbonscarp: /nowhere.so", run.stderr)
        self.assertIn("RIBBONSCARP_LIBRARY is to name the file of the library", run.stderr)

    def test_installed(self) -> None:
        run = self.load(TOP / "python", LD_LIBRARY_PATH=os.path.dirname(os.path.realpath(LIBRARY)))
        self.assertEqual((run.stdout, run.stderr), ("found\n", ""))

    def test_beside(self) -> None:
        with tempfile.TemporaryDirectory() as folder:
            package = pathlib.Path(folder) / "ribbonscarp"
            shutil.copytree(TOP / "python/ribbonscarp", package, ignore=shutil.ignore_patterns("__pycache__"))
            shutil.copy(LIBRARY, package / "libribbonscarp.so")
            run = self.load(pathlib.Path(folder))
        self.assertEqual((run.stdout, run.stderr), ("found\n", ""))

    def test_another_library(self) -> None:
        """A library that isn't this one, or of another version, is told as such."""
        run = self.load(TOP / "python", RIBBONSCARP_LIBRARY="libc.so.6")
        self.assertIn("libc.so.6 lacks a call", run.stderr)

    def test_size(self) -> None:
        """A structure of another size is told."""

        class Longer(ctypes.Structure):
            _fields_ = [("more", ctypes.c_uint8 * 99)]

        kept = library.STRUCTURES["cell"]
        try:
            library.STRUCTURES["cell"] = Longer
            self.assertEqual(
                library._fault(library.library()), f"has another ribbon_cell (version {ribbonscarp.__version__})"
            )
        finally:
            library.STRUCTURES["cell"] = kept
