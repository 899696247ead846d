#!/usr/bin/env python3
"""Checks that docs/CALLING.md links the programs of examples/programs, and that what these call is proved.

Each of their functions and types but `main` stands in crates/rows_session/src/calling.rt, word for word, and no other
does. Run it from anywhere. With --try it also makes a crate of each program, as the page says, in a copy of the
repository, and builds it by `rt try` without proving it; with --check it proves it. Its last line counts what was
looked at, and its status is 1 where something differs.
"""
import pathlib
import re
import shutil
import subprocess
import sys
import tempfile

ROOT = pathlib.Path(__file__).resolve().parent.parent
PAGE = ROOT / "docs/CALLING.md"
PROVED = ROOT / "crates/rows_session/src/calling.rt"
PROGRAMS = ROOT / "examples/programs"
# An example has to stand before the programs can run on it.
INPUT = ROOT / "examples/inquiry.hex"
LINKED = re.compile(r"\]\(\.\./examples/programs/(\w+)\.rattle\)")


def programs():
    """Each program's name, its line of crates.txt, and its text."""
    for row in (PROGRAMS / "rows.txt").read_text().splitlines():
        name = row.split(":")[0]
        yield name, row, (PROGRAMS / f"{name}.rattle").read_text()


def proof_files(page):
    """The files of proofs that the page has made, each with its text."""
    return re.findall(r"`(crates/[\w/.]+\.antt)`:\n\n```\n(.*?)```", page, re.S)


def quotes(page):
    """Whether the page links each program, once, and no other; and whether it quotes what is put into files of proofs."""
    linked = LINKED.findall(page)
    known = [name for name, _, _ in programs()]
    for name in dict.fromkeys([*known, *linked]):
        is_right = linked.count(name) == known.count(name)
        yield name, None if is_right else f"{PAGE.name} links {name}.rattle {linked.count(name)} times"
    for path, text in proof_files(page):
        kept = PROGRAMS / f"{path.split('/')[1]}.invariants.txt"
        is_quoted = kept.exists() and kept.read_text() == text
        yield path, None if is_quoted else f"{PAGE.name} doesn't quote {kept.name} as it stands"


def items(text):
    """The functions and types of a file: the name of each, and its text, however it is laid out and whoever sees it."""
    text = re.sub(r"pub\(crate\) ", "", text)
    for found in re.finditer(r"^(?:fn|struct|enum) (\w+).*?^\}\n", text, re.S | re.M):
        words = " ".join(found.group(0).split())
        yield found.group(1), words.replace("( ", "(").replace(", )", ")")


def differences():
    """Whether each item of a program is what was proved, and each that was proved stands in one."""
    proved = dict(items(PROVED.read_text()))
    called = set()
    for program, _, text in programs():
        for name, item in items(text):
            called.add(name)
            if name != "main":
                yield name, None if proved.get(name) == item else f"{name} of {program} isn't what {PROVED.name} has"
    for name in proved.keys() - called:
        yield name, f"{name} of {PROVED.name} isn't in {PROGRAMS.name}"


def copy_libraries(folder, has_work):
    """A copy of the repository's libraries, with what has been proved of them where it is asked for: their rows."""
    left = shutil.ignore_patterns(*(["incremental"] if has_work else ["out", "proofs"]), "must-fail", "wrong-bodies")
    shutil.copy(ROOT / "HANDLES", folder)
    (folder / ".git").mkdir()
    rows = ""
    for row in (ROOT / "crates.txt").read_text().splitlines():
        name = row.split(":")[0]
        if (ROOT / "crates" / name / "src/lib.rt").exists():
            shutil.copytree(ROOT / "crates" / name, folder / "crates" / name, ignore=left)
            rows += f"{row}\n"
    return rows


def built(page, command):
    with tempfile.TemporaryDirectory() as made:
        folder = pathlib.Path(made)
        rows = copy_libraries(folder, command == "check")
        for path, text in proof_files(page):
            (folder / path).parent.mkdir(parents=True)
            (folder / path).write_text(text)
        for name, row, text in programs():
            source = folder / "crates" / name / "src"
            source.mkdir(parents=True)
            (source / "main.rt").write_text(text)
            (folder / "crates.txt").write_text(f"{rows}{row}\n")
            done = subprocess.run(
                ["rt", command], cwd=source.parent, input=bytes.fromhex(INPUT.read_text()), capture_output=True
            )
            said = (done.stdout + done.stderr).decode(errors="replace")
            right = "run=ended status=" in said if command == "try" else "\nlogic=proved " in said
            yield name, None if right else f"{name} isn't built:\n{said}"


def main():
    page = PAGE.read_text()
    found = [*quotes(page), *differences()]
    for command in "try", "check":
        if f"--{command}" in sys.argv[1:]:
            found += built(page, command)
    wrong = [text for _, text in found if text]
    for text in wrong:
        print(text)
    print(f"{len(found) - len(wrong)} passed, {len(wrong)} failed")
    return 1 if wrong or not found else 0


if __name__ == "__main__":
    sys.exit(main())
