#!/usr/bin/env python3
"""Packs what someone without the Rattle kit can install, as docs/INSTALL.md says: `make dist` calls it.

In build/dist it leaves a tar, a wheel of the Python package with the library inside, and the checksums of both. The
program and the library are those that were proved, as `.ci/run` leaves them in the crates' out/ folders; with
`--unproved` those of `make quick`, and then the names say so. What is older than its sources isn't packed. The same
commit and the same program and library make the same bytes, in any folder.
"""
import dataclasses
import gzip
import hashlib
import os
import pathlib
import platform
import re
import shutil
import subprocess
import sys
import tarfile
import tempfile

from build_unproved import TOP, Crates, Fault, kit_folder
from stamp import stamped

DIST = TOP / "build/dist"
VERSION = (TOP / "VERSION").read_text().strip()
DOCUMENTS = "share/doc/ribbonscarp"

# Folders whose files are compiled or packed.
PACKED = ["VERSION", "crates.txt", "crates", "c", "terminal", "python", "tools", "docs/INSTALL.md"]

PROVED = """\
Proved are the program bin/t5250, and the library of crates/ws_c, over which libribbonscarp stands: {kit} built
them after it had proved them. The C around that library, the terminal and the Python package are only tested."""
UNPROVED = "NOTHING OF IT IS PROVED: the program and the library were built by `make quick`."


@dataclasses.dataclass
class Parts:
    """What is packed of the crates, and what is said of it."""

    program: pathlib.Path
    library: pathlib.Path
    label: str
    said: str


def run(*words, **more):
    command = [str(word) for word in words]
    return subprocess.run(command, cwd=TOP, check=True, capture_output=True, text=True, **more).stdout


def parts(is_unproved):
    if is_unproved:
        return Parts(TOP / "build/unproved/t5250", TOP / "build/unproved/libws_c.a", "unproved", UNPROVED)
    said = PROVED.format(kit=run("rt", "version").splitlines()[0])
    return Parts(TOP / "crates/t5250/out/t5250", TOP / "crates/ws_c/out/libws_c.a", "", said)


def proved_sources(crates, name):
    """The files that say what was proved of a crate and of all below it: its sources, and what its contracts cite."""
    for crate in [name, *crates.all_below(name)]:
        if crate in crates.own:
            yield from (TOP / "crates" / crate / "src").rglob("*.rt")
            yield from (TOP / "crates" / crate / "specs").rglob("*.antt")


def look(packed, crates):
    """`Fault` where something isn't built, or has been changed since."""
    anew = "`make quick` builds it anew" if packed.label else "`.ci/run` proves and builds it anew"
    for file, crate in ((packed.program, "t5250"), (packed.library, "ws_c")):
        if not file.exists():
            advice = "`make quick` builds it" if packed.label else \
                "`.ci/run` proves and builds it; `make dist UNPROVED=1` packs what `make quick` has built"
            raise Fault(f"{file.relative_to(TOP)} isn't there: {advice}")
        for source in crates.sources(crate) if packed.label else proved_sources(crates, crate):
            if source.stat().st_mtime > file.stat().st_mtime:
                raise Fault(f"{file.relative_to(TOP)} is older than {os.path.relpath(source, TOP)}: {anew}")
    for header, package in (("ncurses.h", "libncurses-dev"), ("openssl/ssl.h", "libssl-dev")):
        if subprocess.run(["cc", "-E", "-x", "c", "-include", header, os.devnull], capture_output=True).returncode:
            raise Fault(f"the terminal can't be built with TLS: {header} isn't there ({package})")


def commit(packed):
    """The commit that the tree is of, and its time in seconds. `Fault` where the tree differs and it would count."""
    named = run("git", "rev-parse", "HEAD").strip()
    changes = run("git", "status", "--porcelain", "--", *PACKED).splitlines()
    if changes and not packed.label:
        raise Fault("what is packed isn't of a commit: " + ", ".join(line[3:] for line in changes))
    told = f"{named}, and changes that aren't committed" if changes else named
    return told, int(run("git", "log", "-1", "--format=%ct"))


def staged(packed, stage, told):
    """Installs all but the package into a folder, as `make install` does, and tells the program its commit, if any."""
    made = DIST / "made"
    shutil.rmtree(made, ignore_errors=True)
    places = {"BUILD": made, "LIB": packed.library, "T5250": packed.program}
    words = [f"{name}={os.path.relpath(place, TOP / 'c')}" for name, place in places.items()]
    # Without `-g`, which would name this folder.
    words += ["CFLAGS=-O2", "TLS=yes", "PREFIX=", f"DESTDIR={stage}"]
    for target in ("terminal", "install"):
        done = subprocess.run(["make", "-C", "c", target, *words], cwd=TOP, capture_output=True, text=True)
        if done.returncode:
            raise Fault(f"make {target} fails:\n{done.stdout}{done.stderr}")
    if re.fullmatch("[0-9a-f]{40}", told):
        program = stage / "bin/t5250"
        program.write_bytes(stamped(program.read_bytes(), told))
    described = (TOP / "c/ribbonscarp.pc.in").read_text().replace("@VERSION@", VERSION)
    # As seen from the file itself, wherever it is unpacked.
    (stage / "lib/pkgconfig/ribbonscarp.pc").write_text(described.replace("@PREFIX@", "${pcfiledir}/../.."))
    (stage / DOCUMENTS).mkdir(parents=True)
    shutil.copy(TOP / "docs/INSTALL.md", stage / DOCUMENTS / "README.md")


def needs(file):
    """What a program needs of the system: its shared libraries, and the least version of the C library."""
    said = run("objdump", "-p", file)
    libraries = re.findall(r"^ +NEEDED +(\S+)", said, re.M)
    versions = re.findall(r"\bGLIBC_(\d+)\.(\d+)", said)
    major, minor = max((int(first), int(second)) for first, second in versions)
    return f"{', '.join(sorted(libraries))}; glibc {major}.{minor} or later"


def about(packed, told, stage):
    """What is said of it in a file inside."""
    lines = [f"Ribbonscarp {VERSION} for {platform.machine()} Linux, of commit {told}.", "", packed.said, ""]
    for file in ("bin/t5250", "bin/term5250", f"lib/libribbonscarp.so.{VERSION}"):
        lines.append(f"{file} needs {needs(stage / file)}")
    for file in (packed.program, packed.library):
        lines.append(f"sha256 of {file.name} as it was built: {hashlib.sha256(file.read_bytes()).hexdigest()}")
    lines.append("bin/t5250 differs from that in the commit that --version tells, where the tree was one.")
    return "\n".join([*lines, ""])


def write_tar(stage, base, seconds):
    """Writes a tar of the files alone, so that no folder's mode is changed where it is unpacked over others."""
    made = DIST / f"{base}.tar.gz"
    with open(made, "wb") as out, gzip.GzipFile("", "wb", 9, out, 0) as packer, \
            tarfile.open(fileobj=packer, mode="w", format=tarfile.USTAR_FORMAT) as tar:
        for file in sorted(path for path in stage.rglob("*") if path.is_symlink() or not path.is_dir()):
            entry = tar.gettarinfo(str(file), f"{base}/{file.relative_to(stage)}")
            entry.uid = entry.gid = 0
            entry.uname = entry.gname = ""
            entry.mtime = seconds
            entry.mode = 0o777 if entry.issym() else 0o755 if entry.mode & 0o100 else 0o644
            with open(os.devnull if entry.issym() else file, "rb") as content:
                tar.addfile(entry, content)
    return made


def write_wheel(packed, stage, said, seconds):
    """Writes a wheel of the package with the library and what is said of it beside its files."""
    with tempfile.TemporaryDirectory() as folder:
        copied = pathlib.Path(folder) / "python"
        shutil.copytree(TOP / "python", copied, ignore=shutil.ignore_patterns("__pycache__", "tests", "*.so*"))
        package = copied / "ribbonscarp"
        shutil.copyfile(stage / f"lib/libribbonscarp.so.{VERSION}", package / "libribbonscarp.so")
        (package / "BUILD").write_text(said)
        if packed.label:
            (package / "version.py").write_text(
                (package / "version.py").read_text().replace(f'"{VERSION}"', f'"{VERSION}+{packed.label}"')
            )
        code = "import build_backend, sys; print(build_backend.build_wheel(sys.argv[1]))"
        environment = os.environ | {"SOURCE_DATE_EPOCH": str(seconds), "PYTHONDONTWRITEBYTECODE": "1"}
        words = [sys.executable, "-c", code, DIST]
        made = subprocess.run(words, cwd=copied, env=environment, check=True, capture_output=True, text=True).stdout
    return DIST / made.strip()


def main():
    packed = parts("--unproved" in sys.argv[1:])
    look(packed, Crates(kit_folder()))
    told, seconds = commit(packed)
    DIST.mkdir(parents=True, exist_ok=True)
    with tempfile.TemporaryDirectory() as folder:
        stage = pathlib.Path(folder) / "stage"
        staged(packed, stage, told)
        said = about(packed, told, stage)
        (stage / DOCUMENTS / "BUILD").write_text(said)
        base = "-".join(filter(None, ["ribbonscarp", VERSION, packed.label, platform.machine(), "linux"]))
        made = [write_tar(stage, base, seconds), write_wheel(packed, stage, said, seconds)]
    sums = "".join(f"{hashlib.sha256(file.read_bytes()).hexdigest()}  {file.name}\n" for file in made)
    (DIST / f"{base}.sha256").write_text(sums)
    print(said.partition("\n\n")[2].partition("\n\n")[0], file=sys.stderr)
    for file in made:
        print(file.relative_to(TOP))


if __name__ == "__main__":
    try:
        main()
    except Fault as fault:
        sys.exit(f"dist.py: {fault}")
    except subprocess.CalledProcessError as fault:
        sys.exit(f"dist.py: {' '.join(map(str, fault.cmd))} fails:\n{fault.stderr}")
