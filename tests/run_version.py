#!/usr/bin/env python3
"""Checks that one version stands everywhere: the one of the file VERSION, at the top.

A shared library is asked too, where `make -C c` has left one, or another is named. The last line tells how many passed
and how many failed, and the status is 1 where one failed.
"""
import ctypes
import pathlib
import re

from counted import PROGRAMS, TOP, Test, main

LIBRARY = pathlib.Path(PROGRAMS[0]) if PROGRAMS else TOP / "c/build/libribbonscarp.so"
VERSION = (TOP / "VERSION").read_text().rstrip("\n")
MAJOR, MINOR, PATCH = VERSION.split(".")

# Files in which it has to be written, and how. `make` in c/ and the Python package's build take it from the first two.
WRITTEN = [
    ("VERSION", r"\A(\d+\.\d+\.\d+)\n\Z", VERSION),
    ("python/ribbonscarp/version.py", r'^__version__ = "(.*)"$', VERSION),
    ("c/ribbonscarp.h", r'^#define RIBBON_VERSION "(.*)"$', VERSION),
    ("c/ribbonscarp.h", r"^#define RIBBON_VERSION_MAJOR (.*)$", MAJOR),
    ("c/ribbonscarp.h", r"^#define RIBBON_VERSION_MINOR (.*)$", MINOR),
    ("c/ribbonscarp.h", r"^#define RIBBON_VERSION_PATCH (.*)$", PATCH),
    ("crates/ws_program/src/words/command_line.rt", r'\.version\("(.*)"\)$', VERSION),
    ("docs/DRIVING.md", r"`libribbonscarp\.so\.(\d+)`", MAJOR),
]


class TestVersion(Test):
    def test_files(self):
        for path, form, wanted in WRITTEN:
            found = re.findall(form, (TOP / path).read_text(), re.M)
            self.count(f"{path} has {found}, and not {wanted}", found == [wanted])

    def test_library(self):
        """The version that the library tells, and the name by which a program asks the loader for it."""
        if not LIBRARY.exists():
            self.skipTest(f"{LIBRARY} isn't there")
        loaded = ctypes.CDLL(str(LIBRARY))
        loaded.ribbon_version.restype = ctypes.c_char_p
        said, name = loaded.ribbon_version().decode(), f"libribbonscarp.so.{MAJOR}"
        self.count(f"it says {said}, and not {VERSION}", said == VERSION)
        self.count(f"it isn't named {name}", f"\0{name}\0".encode() in LIBRARY.read_bytes())


main()
