"""One check of a crate with other texts, and what the checker said of each function."""

import os
import re
import subprocess
import tempfile
import time
from dataclasses import dataclass, field
from pathlib import Path

from .source import functions, homes_of

# A name that a hand proof cites and the text no longer gives: this tells nothing of a contract.
STALE = re.compile(r"has no field|is not in scope|has no `|was not admitted|is no name")
# Goals that no contract states: that a sum fits, an index is within, a divisor isn't 0, a loop ends.
SAFETY = re.compile(r"(?:overflow|nonzero|bounds|slice_bounds|offset_bounds)[_-]|.*-smaller$")
ANSWER = re.compile(r"\./proofs/(\S+)/(?:Answers|Proof|Invariants)\.antt:\d+:\d+: error: (?:`([^`]+)`: )?(.*)")
NOTE = re.compile(r"note: (?:\./)?(src/\S+\.rt):(\d+):(\d+): it is not proved that .*?\(`([^`]+)`\)")
FUNCTION = re.compile(r"fn ([\w:+]+): (.*)")
OPEN = re.compile(r"`search` did not prove (.*)")


@dataclass
class Told:
    """What a check told of one function."""

    proved: bool = False
    # Its open goals: those of a contract, those of safety, and those where a proof names what is gone.
    contract: list[str] = field(default_factory=list)
    safety: list[str] = field(default_factory=list)
    stale: list[str] = field(default_factory=list)
    line: str = ""

    def add(self, goal: str, said: str) -> None:
        kind = self.stale if STALE.search(said) else self.safety if SAFETY.match(goal) else self.contract
        if goal not in kind:
            kind.append(goal)


@dataclass
class Check:
    """A check's output: by function, what the front end refused, and what it took."""

    told: dict[str, Told]
    unread: list[str]
    seconds: float
    slow: list[tuple[float, str]]
    text: str
    proved: bool

    def of(self, path: str) -> dict[str, Told]:
        """What was told of a function: of that name, or of those in its module that are called alike."""
        if path in self.told:
            return {path: self.told[path]}
        module, block, name = (["", "", *path.split("::")])[-3:]
        begin, alike = block.split("+")[0].removesuffix("Error"), {}
        for other, told in self.told.items():
            parts = (["", "", *other.split("::")])[-3:]
            if parts[0] == module and parts[2] == name and parts[1].startswith(begin):
                alike[other] = told
        return alike or {path: Told()}


class Crate:
    """A crate of a repository whose libraries are built, as `rt ci` and `rt lib` leave them."""

    def __init__(self, root: Path, name: str):
        self.name, self.folder = name, root / "crates" / name
        lines = (line.split("#")[0].split(":") for line in (root / "crates.txt").read_text().splitlines())
        said = {it[0].split()[0]: (it[0].split()[1:], it[1].split()) for it in lines if len(it) == 2}
        kinds, self.deps = said[name]
        self.kit = Path(subprocess.run(["rt", "doc"], capture_output=True, text=True, check=True).stdout.strip()).parent
        self.kinds, below, todo = kinds, {}, [*self.deps]
        while todo:
            dep = todo.pop()
            if dep in said and dep not in below:
                below[dep] = root / "crates" / dep / "out" / "rlib"
                todo += said[dep][1]
        missing = [it for it, rlib in below.items() if not (rlib / f"{it}.rlib").is_dir()]
        if missing:
            raise SystemExit(f"{name}: {missing[0]} isn't built: run `rt ci`, or `rt lib` in crates/{missing[0]}, first")
        self.below = below
        # What the checks of a run share: a function that no edit has changed since is checked once.
        self.kept = tempfile.TemporaryDirectory(prefix="wrong-bodies-kept-")

    def words(self) -> list[str]:
        """The words of `rattle check` for this crate."""
        root = "src/main.rt" if (self.folder / "src/main.rt").exists() else "src/lib.rt"
        words = ["--crate-name", self.name, root, "-L", f"dependency={self.kit}/rlibs"]
        for dep in ["std", *self.deps]:
            words += ["--extern", f"{dep}={self.below.get(dep, self.kit / 'rlibs')}/{dep}.rlib"]
        for rlib in self.below.values():
            words += ["-L", f"dependency={rlib}"]
        if "staticlib" in self.kinds:
            words += ["--crate-type", "staticlib"]
        logic = ["--antt-project", f"{self.kit}/rattle/logic/antt-project.json", "--logic-built", f"{self.kit}/logic_built"]
        return [*words, *logic, "--incremental", self.kept.name, "--jobs", "1", "--progress"]

    def check(self, texts: dict[str, str], changed: dict[str, str], only: set[str]) -> Check:
        """Checks a copy with the changed texts: these functions and modules alone, or all where none is named."""
        flags = [it for path in sorted(only) for it in ("--only", path)]
        with tempfile.TemporaryDirectory(prefix="wrong-bodies-") as room:
            for path, text in {**texts, **changed}.items():
                to = Path(room) / path
                to.parent.mkdir(parents=True, exist_ok=True)
                to.write_text(text, encoding="utf-8")
            found = run([f"{self.kit}/bin/rattle", "check", *self.words(), *flags], room, self.name)
            unknown = re.search(r"has no function `([^`]+)`", found.text)
            if unknown and unknown[1] in only:
                # (some blocks have names that only the checker makes: then what their module has is checked)
                return self.check(texts, changed, only - {unknown[1]} | {unknown[1].rsplit("::", 2)[0]})
            add_notes(found, {**texts, **changed})
            return found


def add_notes(check: Check, texts: dict[str, str]) -> None:
    """Adds the goals that a check tells of by their places in these texts."""
    homes = homes_of(texts)
    for found in (NOTE.match(line) for line in check.text.split("\n")):
        if found:
            place = sum(len(line) + 1 for line in texts[found[1]].split("\n")[: int(found[2]) - 1]) + int(found[3]) - 1
            for it in functions(found[1], texts[found[1]], homes).values():
                if it.start <= place < it.end:
                    check.told.setdefault(it.path, Told()).add(found[4], "")


def run(words: list[str], room: str, name: str) -> Check:
    """Runs a check, and measures how long it took for each function that it tells of."""
    lines, slow, last = [], [], time.monotonic()
    how = {"text": True, "errors": "replace", "stdin": subprocess.DEVNULL, "stdout": subprocess.PIPE, "stderr": subprocess.STDOUT}
    ran = subprocess.Popen(words, cwd=room, env={**os.environ, "MIMALLOC_PURGE_DELAY": "-1"}, **how)
    for line in ran.stdout:
        if line.startswith("checked "):
            now = time.monotonic()
            slow.append((now - last, line.split(",")[0][len(f"checked {name}::") :]))
            last = now
        lines.append(line.rstrip("\n"))
    _, status, used = os.wait4(ran.pid, 0)
    ran.returncode = os.waitstatus_to_exitcode(status)
    told, unread = read(lines, name)
    proved = ran.returncode == 0 and any(re.match(r"logic=proved|only=(\d+) proved=\1$", it) for it in lines)
    return Check(told, unread, used.ru_utime + used.ru_stime, slow, "\n".join(lines), proved)


def joined(lines: list[str]) -> list[str]:
    """The lines with those that go on with what a line says, which begin with two blanks, at its end."""
    whole: list[str] = []
    for line in lines:
        if line.startswith("  ") and whole:
            whole[-1] += line[1:]
        else:
            whole.append(line)
    return whole


def read(lines: list[str], name: str) -> tuple[dict[str, Told], list[str]]:
    """What the lines of a check tell: by function, and what couldn't be read."""
    told: dict[str, Told] = {}
    for line in joined(lines):
        if found := ANSWER.match(line):
            told.setdefault(found[1].replace("/", "::"), Told()).add(found[2] or "", found[3])
        elif found := FUNCTION.match(line):
            it = told.setdefault(found[1].removeprefix(f"{name}::"), Told())
            it.line, it.proved = found[2], found[2] == "proved"
            for goal in re.findall(r"`([^`]+)`", (OPEN.search(found[2]) or [""])[0].replace("`search`", "")):
                it.add(goal, "")
    unread = [it for it in lines if re.match(r"(\./)?(src|specs)/\S+:\d+:\d+: error", it)]
    return told, unread
