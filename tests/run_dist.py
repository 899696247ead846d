#!/usr/bin/env python3
"""Tests of what `make dist` packs: `run_dist.py [-v] [T5250 LIBWS_C] [NAME..]`.

A program and a library stand in for what was proved and for what `make quick` builds: those that are named, or the
proved ones, or else the unproved, where they are there. All is done in clones of the repository, with its changes, in
folders whose names have a blank. With BARE_DEBIAN=1, where debootstrap and root are there, a bare Debian is made, and
docs/INSTALL.md is followed in it, which takes some minutes.
The last line is 'N passed, M failed', and the status is 1 where one failed.
"""
import os
import pathlib
import re
import shutil
import subprocess
import sys
import tarfile
import tempfile
import unittest
import zipfile

from counted import PROGRAMS, TOP, Test, main

VERSION = (TOP / "VERSION").read_text().strip()
FOLDERS = [(TOP / "crates/t5250/out/t5250", TOP / "crates/ws_c/out/libws_c.a"),
           (TOP / "build/unproved/t5250", TOP / "build/unproved/libws_c.a")]
THERE = [pair for pair in FOLDERS if pair[0].exists() and pair[1].exists()]
BUILT = [pathlib.Path(name) for name in PROGRAMS[:2]] or [*THERE, ()][0]
NAME = f"ribbonscarp-{VERSION}-x86_64-linux"
UNPROVED_NAME = f"ribbonscarp-{VERSION}-unproved-x86_64-linux"
WHEEL = f"ribbonscarp-{VERSION}-py3-none-linux_x86_64.whl"
UNPROVED_WHEEL = f"ribbonscarp-{VERSION}+unproved-py3-none-linux_x86_64.whl"
FILES = {
    "bin/t5250", "bin/term5250", "include/ribbonscarp.h", "lib/libribbonscarp.a", "lib/libribbonscarp.so",
    f"lib/libribbonscarp.so.{VERSION.split('.')[0]}", f"lib/libribbonscarp.so.{VERSION}",
    "lib/pkgconfig/ribbonscarp.pc",
    "share/bash-completion/completions/t5250", "share/doc/ribbonscarp/BUILD", "share/doc/ribbonscarp/README.md",
    "share/man/man1/t5250.1", "share/man/man1/term5250.1",
}


def has_header(header):
    words = ["cc", "-E", "-x", "c", "-include", header, os.devnull]
    return shutil.which("cc") is not None and run(*words, cwd=TOP).returncode == 0


def lacking():
    """What packing needs and this machine hasn't."""
    there = {tool: shutil.which(tool) for tool in ("rt", "make", "cc", "objdump")}
    there |= {"clone": (TOP / ".git").exists()} | {name: has_header(name) for name in ("ncurses.h", "openssl/ssl.h")}
    return ", ".join(name for name, is_there in there.items() if not is_there)


def run(*words, cwd, **more):
    return subprocess.run([str(word) for word in words], cwd=cwd, capture_output=True, text=True, check=False, **more)


def done(*words, cwd, **more):
    """What a command prints that has to succeed."""
    ended = run(*words, cwd=cwd, **more)
    if ended.returncode:
        raise AssertionError(f"{words} ended with {ended.returncode}:\n{ended.stdout}{ended.stderr}")
    return ended.stdout


LACKING = lacking()


def clone(folder):
    """A clone of the repository as it stands, all of it committed."""
    done("git", "clone", "-q", "--local", TOP, folder, cwd=TOP)
    changed = done("git", "diff", "-z", "--name-only", "HEAD", cwd=TOP)
    changed += done("git", "ls-files", "-z", "--others", "--exclude-standard", cwd=TOP)
    for name in filter(None, changed.split("\0")):
        if (TOP / name).exists():
            (folder / name).parent.mkdir(parents=True, exist_ok=True)
            shutil.copy(TOP / name, folder / name)
        else:
            (folder / name).unlink()
    done("git", "add", "-A", cwd=folder)
    author = ["-c", "user.name=tests", "-c", "user.email=tests@localhost"]
    dated = {"GIT_AUTHOR_DATE": "2026-01-02T03:04:05Z", "GIT_COMMITTER_DATE": "2026-01-02T03:04:05Z"}
    done("git", *author, "commit", "-q", "--allow-empty", "-m", "as it stands", cwd=folder, env=os.environ | dated)
    return folder


def put(folder, program, library):
    """Puts what was built into a clone, newer than its sources."""
    for built, name in zip(BUILT, (program, library)):
        (folder / name).parent.mkdir(parents=True, exist_ok=True)
        shutil.copyfile(built, folder / name)
        (folder / name).chmod(0o755)


def pack(folder, *words):
    """What `make dist` answers: its status, and what it prints on standard output and standard error."""
    environment = {name: value for name, value in os.environ.items() if name not in ("MAKEFLAGS", "UNPROVED")}
    ended = run("make", "--no-print-directory", "dist", *words, cwd=folder, env=environment)
    return ended.returncode, ended.stdout, ended.stderr


@unittest.skipUnless(BUILT, "neither the gate nor `make quick` has built the program and the library")
@unittest.skipIf(LACKING, f"there is no {LACKING}")
class TestDist(Test):
    @classmethod
    def setUpClass(cls):
        folder = tempfile.TemporaryDirectory()
        cls.addClassCleanup(folder.cleanup)
        cls.top = clone(pathlib.Path(folder.name) / "a clone")
        cls.dist = cls.top / "build/dist"
        put(cls.top, "crates/t5250/out/t5250", "crates/ws_c/out/libws_c.a")
        cls.status, cls.told, cls.said = pack(cls.top)

    def setUp(self):
        super().setUp()
        self.assertEqual((self.status, self.told), (0, f"build/dist/{NAME}.tar.gz\nbuild/dist/{WHEEL}\n"), self.said)

    def unpacked(self):
        with tarfile.open(self.dist / f"{NAME}.tar.gz") as tar:
            tar.extractall(self.folder)
        return pathlib.Path(self.folder) / NAME

    def test_tar(self):
        """Its files, and nothing of who packed them, and when."""
        with tarfile.open(self.dist / f"{NAME}.tar.gz") as tar:
            entries = tar.getmembers()
            build = tar.extractfile(f"{NAME}/share/doc/ribbonscarp/BUILD").read().decode()
        names = [entry.name for entry in entries]
        self.assertEqual(names, sorted(names))
        self.assertEqual(set(names), {f"{NAME}/{file}" for file in FILES})
        self.assertEqual({(entry.uid, entry.gid, entry.uname, entry.gname) for entry in entries}, {(0, 0, "", "")})
        self.assertEqual({entry.mtime for entry in entries}, {1767323045})
        self.assertEqual({entry.mode for entry in entries if entry.isfile()}, {0o755, 0o644})
        commit = done("git", "rev-parse", "HEAD", cwd=self.top).strip()
        self.assertIn(f"Ribbonscarp {VERSION} for x86_64 Linux, of commit {commit}.\n", build)
        self.assertIn("Proved are the program bin/t5250, and the library", build)
        self.assertIn("Proved are the program bin/t5250, and the library", self.said)
        self.assertIn(done("rt", "version", cwd=self.top).splitlines()[0], build)
        self.assertRegex(build, r"bin/term5250 needs libc\.so\.6, .*libssl\.so\.3, .*; glibc 2\.\d+ or later\n")
        sums = done("sha256sum", "-c", f"{NAME}.sha256", cwd=self.dist)
        self.assertEqual(sums, f"{NAME}.tar.gz: OK\n{WHEEL}: OK\n")

    def test_same_bytes(self):
        """Another clone with the same program and library makes the same."""
        with tempfile.TemporaryDirectory() as folder:
            other = clone(pathlib.Path(folder) / "another one")
            put(other, "crates/t5250/out/t5250", "crates/ws_c/out/libws_c.a")
            self.assertEqual(pack(other, "-j2")[:2], (0, self.told))
            for name in (f"{NAME}.tar.gz", WHEEL, f"{NAME}.sha256"):
                self.count(name, (other / "build/dist" / name).read_bytes() == (self.dist / name).read_bytes())

    def test_programs(self):
        """What was unpacked runs where it stands, tells its commit, and serves a C program by pkg-config."""
        top = self.unpacked()
        commit = done("git", "rev-parse", "HEAD", cwd=self.top).strip()
        unrecorded = b"commit not recorded, as it was built in a clone"
        built = BUILT[0].read_bytes().replace(unrecorded, f"commit {commit}".encode())
        self.assertEqual((top / "bin/t5250").read_bytes(), built)
        told = done(top / "bin/t5250", "--version", cwd=self.folder)
        self.assertEqual(told, f"t5250 {VERSION}\ncommit {commit}\n")
        self.assertIn("accepted: ", done(top / "bin/t5250", "check", TOP / "examples/inquiry.hex", cwd=self.folder))
        self.assertIn(VERSION, done(top / "bin/term5250", "--version", cwd=self.folder))
        self.assertIn("--ca", done(top / "bin/term5250", "--help", cwd=self.folder))
        if shutil.which("pkg-config"):
            environment = os.environ | {"PKG_CONFIG_PATH": str(top / "lib/pkgconfig")}
            flags = done("pkg-config", "--cflags", "--libs", "ribbonscarp", cwd=self.folder, env=environment).split()
            done("cc", "-o", "theirs", TOP / "c/tests/installed.c", *flags, cwd=self.folder)
            found = os.environ | {"LD_LIBRARY_PATH": str(top / "lib")}
            self.assertEqual(done("./theirs", cwd=self.folder, env=found), "1 passed, 0 failed\n")

    def test_wheel(self):
        """It has the library and says how that was built; it needs no other."""
        with zipfile.ZipFile(self.dist / WHEEL) as wheel:
            wheel.extractall(self.folder)
            times = {entry.date_time for entry in wheel.infolist()}
        self.assertEqual(times, {(2026, 1, 2, 3, 4, 4)})
        package = pathlib.Path(self.folder) / "ribbonscarp"
        self.assertIn("Proved are the program", (package / "BUILD").read_text())
        library = self.unpacked() / f"lib/libribbonscarp.so.{VERSION}"
        self.assertEqual((package / "libribbonscarp.so").read_bytes(), library.read_bytes())
        environment = {name: value for name, value in os.environ.items() if not name.startswith(("PYTHON", "RIBBON"))}
        code = "import ribbonscarp; ribbonscarp.Station().close(); print(ribbonscarp.__version__)"
        said = done(sys.executable, "-c", code, cwd=self.folder, env=environment)
        self.assertEqual(said, f"{VERSION}\n")


@unittest.skipUnless(BUILT, "neither the gate nor `make quick` has built the program and the library")
@unittest.skipIf(LACKING, f"there is no {LACKING}")
class TestRefusals(Test):
    """What isn't packed, and what is packed as unproved."""

    @classmethod
    def setUpClass(cls):
        folder = tempfile.TemporaryDirectory()
        cls.addClassCleanup(folder.cleanup)
        cls.top = clone(pathlib.Path(folder.name) / "a clone")

    def setUp(self):
        super().setUp()
        done("git", "reset", "-q", "--hard", cwd=self.top)
        done("git", "clean", "-q", "-fdx", cwd=self.top)

    def refused(self, wanted, *words):
        status, told, said = pack(self.top, *words)
        self.count(f"{words}: {said}", status == 2 and not told and wanted in said)
        self.assertEqual(list((self.top / "build").glob("dist/ribbon*")), [])

    def test_nothing_is_built(self):
        self.refused("crates/t5250/out/t5250 isn't there: `.ci/run` proves and builds it; `make dist UNPROVED=1` packs")
        self.refused("build/unproved/t5250 isn't there: `make quick` builds it", "UNPROVED=1")

    def test_unproved(self):
        """What `make quick` has built is packed where that is asked for alone, and its names say so."""
        put(self.top, "build/unproved/t5250", "build/unproved/libws_c.a")
        self.refused("crates/t5250/out/t5250 isn't there")
        (self.top / "c/body.c").write_text((self.top / "c/body.c").read_text() + "\n")
        status, told, said = pack(self.top, "UNPROVED=1")
        self.assertEqual((status, told), (0, f"build/dist/{UNPROVED_NAME}.tar.gz\nbuild/dist/{UNPROVED_WHEEL}\n"), said)
        self.assertEqual(said, "NOTHING OF IT IS PROVED: the program and the library were built by `make quick`.\n")
        with tarfile.open(self.top / f"build/dist/{UNPROVED_NAME}.tar.gz") as tar:
            build = tar.extractfile(f"{UNPROVED_NAME}/share/doc/ribbonscarp/BUILD").read().decode()
        self.assertIn("\nNOTHING OF IT IS PROVED", build)
        self.assertIn(", and changes that aren't committed.\n", build)
        with zipfile.ZipFile(self.top / "build/dist" / UNPROVED_WHEEL) as wheel:
            self.assertIn("NOTHING OF IT IS PROVED", wheel.read("ribbonscarp/BUILD").decode())
            self.assertIn(f"Version: {VERSION}+unproved\n", wheel.read(
                f"ribbonscarp-{VERSION}+unproved.dist-info/METADATA").decode())

    def test_quick(self):
        """`make quick` in a folder with a blank says what to type next; what it has built is installed as unproved."""
        put(self.top, "build/unproved/t5250", "build/unproved/libws_c.a")
        said = done("make", "quick", cwd=self.top)
        self.assertIn("\nNothing of this is proved.\nType next, for example:\n    build/bin/t5250 ", said)
        self.assertIn("accepted: ", done("build/bin/t5250", "check", "examples/inquiry.hex", cwd=self.top))
        self.assertIn(VERSION, done("build/bin/term5250", "--version", cwd=self.top))
        stage = pathlib.Path(self.folder) / "a stage"
        words = ["PREFIX=/some where", f"DESTDIR={stage}"]
        said = done("make", "install", *words, cwd=self.top)
        self.assertTrue(said.endswith("Nothing of what was installed is proved.\n"), said[-300:])
        there = {str(path.relative_to(stage / "some where")) for path in stage.rglob("*") if not path.is_dir()}
        self.assertEqual(there, {file for file in FILES if "/doc/" not in file})
        (stage / "some").touch()
        done("make", "uninstall", *words, cwd=self.top)
        self.assertEqual([path.name for path in stage.rglob("*") if not path.is_dir()], ["some"])

    def test_stale(self):
        """What is older than its sources, or than what its contracts cite, and what isn't of a commit."""
        for first, folder in ("crates/t5250/out", "crates/ws_c/out"), ("build/unproved", "build/unproved"):
            put(self.top, f"{first}/t5250", f"{folder}/libws_c.a")
        (self.top / "crates/ws_code/src/reason.rt").touch()
        self.refused("crates/t5250/out/t5250 is older than crates/ws_code/src/reason.rt: `.ci/run` proves")
        wanted = "build/unproved/t5250 is older than crates/ws_code/src/reason.rt: `make quick` builds it anew"
        self.refused(wanted, "UNPROVED=1")
        put(self.top, "crates/t5250/out/t5250", "crates/ws_c/out/libws_c.a")
        (self.top / "crates/ws_code/specs/Reason.antt").touch()
        self.refused("crates/t5250/out/t5250 is older than crates/ws_code/specs/Reason.antt: `.ci/run` proves")
        put(self.top, "crates/t5250/out/t5250", "crates/ws_c/out/libws_c.a")
        (self.top / "c/body.c").write_text("changed")
        (self.top / "terminal/new.c").write_text("new")
        self.refused("what is packed isn't of a commit: c/body.c, terminal/new.c")


def commands(page):
    """The commands of a page, block by block."""
    return re.findall(r"^```\n(.*?)^```$", page.read_text(), re.M | re.S)


@unittest.skipUnless(os.environ.get("BARE_DEBIAN") == "1", "BARE_DEBIAN=1 asks for a bare Debian")
@unittest.skipUnless(os.geteuid() == 0 and shutil.which("debootstrap"), "debootstrap or root isn't here")
class TestBareDebian(TestDist):
    """In a bare Debian of this release docs/INSTALL.md is followed as it stands."""

    test_tar = test_same_bytes = test_programs = test_wheel = None

    def test_page(self):
        suite = re.search(r"^VERSION_CODENAME=(\w+)", pathlib.Path("/etc/os-release").read_text(), re.M)[1]
        root = pathlib.Path(self.folder) / "root"
        more = "--include=libncursesw6,libssl3,python3,python3-venv"
        made = run("debootstrap", "--variant=minbase", more, suite, root, cwd=self.folder)
        if made.returncode:
            self.skipTest(f"debootstrap makes no bare {suite}: {made.stdout[-200:]}")
        into = root / "root/some files"
        shutil.copytree(self.dist, into, ignore=shutil.ignore_patterns("made"))
        installed, gone, own, package = commands(TOP / "docs/INSTALL.md")
        session = "echo 001112A000000400000304F30005D97000FFEF | t5250 check || true\nterm5250 --version\n"
        left = "find /usr/local -name '*ribbon*' ! -type d -o -name '*5250*' | wc -l\n"
        script = "set -e\ncd '/root/some files'\n" + installed + session + gone + left + own + package
        words = ["HOME=/root", "TERM=xterm", "PATH=/usr/local/bin:/usr/bin:/usr/sbin:/bin:/sbin", "/bin/bash", "-c"]
        said = done("chroot", root, "/usr/bin/env", "-i", *words, script, cwd=self.folder).splitlines()
        wanted = [f"{WHEEL}: OK", f"t5250 {VERSION}", "refused at 11: reason 30 StructuredField", "0", VERSION]
        self.assertEqual([line for line in said if line in wanted], [*wanted[:4], wanted[1], wanted[4]], said)
        self.assertIn(f"term5250 {VERSION}", "\n".join(said))


main()
