#!/usr/bin/env python3
"""Tries the wrong bodies in crates/NAME/wrong-bodies, many in one check: wrong_bodies.py [WORDS] [CRATE ..]

A wrong body is an edit that makes a function wrong. It counts as refused where its own function then has an open goal
that a contract states: a clause, what a call requires, an invariant. So it does not where the function only calls
another that isn't proved, or a hand proof names what the edit took away, or the text can't be read. Edits of different
functions go into one check, a round; what a round leaves undecided is tried alone.

An edit that adds a function, a field or a branch has a twin beside it, NAME.twin: the same shape with the right value.
All twins of a crate are applied together, and must be proved.

The libraries below a crate have to be built, as `rt ci` and `rt lib` leave them. With --named the wrong bodies of
must-fail/ are tried too, which `rt ci` tries one by one. With --minutes N no check begins after N minutes: what was not
tried by then is told, and counts neither as passed nor as failed. The last line is `N passed, N failed`.
"""

import argparse
import sys
import time
from concurrent.futures import ThreadPoolExecutor
from dataclasses import dataclass
from pathlib import Path

from wrong.checker import Check, Crate
from wrong.edits import Edit, Unfit, apply, read_edit, rounds, sources
from wrong.source import module_of

# From how many seconds on a function's search is told as slow.
SLOW = 20


def tell(line: str) -> None:
    """Prints a line in one piece, since several threads print."""
    print(f"{line}\n", end="", flush=True)


class NoTime(Exception):
    """There is no time left for another check."""


@dataclass
class Report:
    """What became of a crate's edits: it is printed as it comes, and counted."""

    crate: str
    passed: int = 0
    failed: int = 0
    # How many of its edits and twins were told of.
    told: int = 0

    def say(self, line: str) -> None:
        tell(f"{self.crate}: {line}")

    def fail(self, line: str) -> None:
        self.failed += 1
        self.say(f"FAILED {line}")


def verdict(edit: Edit, check: Check) -> tuple[str, str]:
    """`refused`, `open` or what let the edit through, and the goal or the checker's words."""
    if check.unread:
        return "open", f"the text can't be read: {check.unread[0][:160]}"
    own = {name: told for it in edit.changed for name, told in check.of(it).items()} if edit.changed else check.told
    for kind, means in (("contract", "refused"), ("safety", "only a goal of safety"), ("stale", "only by a name in a hand proof")):
        found = [f"{path}: {goal}" for path, it in own.items() for goal in getattr(it, kind)]
        if found:
            return means, found[0]
    unproved = [f"{path} {it.line}" for path, it in own.items() if not it.proved]
    return ("open", unproved[0][:200]) if unproved or not own else ("it is proved", "")


def reach(edit: Edit) -> set[str]:
    """What an edit is first looked for in: the functions that it changes, or else the modules of which it changes more."""
    return edit.changed | edit.added if edit.changed else {module_of(path) for path in edit.beside}


class Trial:
    """The edits of one crate, and what is told of them."""

    def __init__(self, given: argparse.Namespace, name: str):
        self.crate, self.report, self.given = Crate(given.root, name), Report(name), given
        self.texts = sources(self.crate.folder)
        self.edits = self.read("wrong-bodies", "*.edit")
        stage = self.read("must-fail", "*.edit")
        self.twins = self.read("wrong-bodies", "*.twin")
        self.look_at_twins([*self.edits, *stage])
        self.edits += stage if given.named else []
        if given.only:
            self.edits, self.twins = ([it for it in edits if it.name in given.only] for edits in (self.edits, self.twins))

    def read(self, folder: str, pattern: str) -> list[Edit]:
        """The edits of a folder that fit."""
        found = []
        for file in sorted((self.crate.folder / folder).glob(pattern)):
            try:
                found.append(read_edit(file, self.texts))
            except Unfit as why:
                self.report.fail(f"{folder}/{file.name} doesn't fit: {why}")
        return found

    def look_at_twins(self, edits: list[Edit]) -> None:
        twins = {it.name for it in self.twins}
        for edit in edits:
            if edit.wants_twin and edit.name not in twins:
                self.report.fail(f"{edit.name}.edit adds a function, a field or a branch, and has no twin")
        for name in sorted(twins - {it.name for it in edits}):
            self.report.fail(f"{name}.twin is of no edit")

    def check(self, edits: list[Edit], only: set[str]) -> Check:
        """A check of these functions and modules with the edits, or of the crate. NoTime where it may not begin."""
        if time.monotonic() > self.given.until:
            raise NoTime
        after = apply([pair for edit in edits for pair in edit.pairs], self.texts)
        found = self.crate.check(self.texts, after, set() if "" in only else only)
        for seconds, path in found.slow:
            names = [it.name for it in edits if path in it.changed]
            if seconds > SLOW and names:
                self.report.say(f"slow: {path} took {seconds:.0f} s ({', '.join(names)})")
        return found

    def settle(self, edit: Edit, means: str, why: str) -> None:
        self.report.told += 1
        if means == "refused":
            self.report.passed += 1
            if self.given.show:
                self.report.say(f"refused: {edit.name}: {why}")
        else:
            self.report.fail(f"{edit.name} isn't refused at a contract: {means}: {why}")

    def alone(self, edit: Edit) -> None:
        """Tries one edit alone, and over the whole crate where its functions don't tell."""
        means, why = verdict(edit, self.check([edit], reach(edit)))
        if "can't be read" not in why and (means == "open" or edit.beside and means != "refused"):
            means, why = verdict(edit, self.check([edit], set()))
        self.settle(edit, means, why)

    def try_all(self) -> None:
        """Tries the edits and then the twins, many in a check."""
        laid = rounds(self.edits, self.texts)
        if laid:
            self.report.say(f"{len(self.edits)} wrong bodies in rounds of {', '.join(str(len(it)) for it in laid)}")
        for members in laid:
            self.try_round(members)
        # All twins together, as far as their texts can be applied together.
        for members in rounds(self.twins, self.texts, clashing=lambda one, other: False):
            self.try_twins(members)

    def try_round(self, members: list[Edit]) -> None:
        found = self.check(members, set().union(*map(reach, members)))
        self.report.say(f"round of {len(members)}: {found.seconds:.0f} s of processor time")
        for edit in members:
            means, why = verdict(edit, found)
            if means == "open" or edit.beside and means != "refused":
                self.alone(edit)
            else:
                self.settle(edit, means, why)

    def try_twins(self, members: list[Edit]) -> None:
        touched = [it.changed | it.added | {module_of(path) for path in it.beside} for it in members]
        found = self.check(members, set().union(*touched) if all(touched) else set())
        self.report.say(f"{len(members)} twins: {found.seconds:.0f} s of processor time")
        self.report.told += len(members)
        if found.proved:
            self.report.passed += len(members)
            return
        unproved = [path for path, it in found.told.items() if not it.proved]
        for twin in members:
            own = [it for it in unproved if it in twin.changed | twin.added]
            if own or len(members) == 1:
                self.report.fail(f"{twin.name}.twin isn't proved: {', '.join(own or unproved or found.unread)[:200]}")
        if not any(set(unproved) & (it.changed | it.added) for it in members):
            self.report.fail(f"the twins aren't proved together: {', '.join(unproved or found.unread or found.text.splitlines()[-3:])[:300]}")


def try_crate(trial: Trial) -> None:
    """Tries the edits of a crate, and gives back the room of what its checks kept: a gigabyte for some."""
    with trial.crate.kept:
        try:
            trial.try_all()
        except NoTime:
            left = len(trial.edits) + len(trial.twins) - trial.report.told
            tell(f"left out: {left} wrong bodies and twins of {trial.crate.name}, for want of time")


def amount(folder: Path) -> int:
    """About how long a crate's edits take: by their number and the texts that a check reads."""
    edits = sum(1 for it in (folder / "wrong-bodies").glob("*.edit"))
    return edits * sum(it.stat().st_size for part in ("src", "specs", "proofs") for it in (folder / part).rglob("*.*"))


def main(words: list[str]) -> int:
    parser = argparse.ArgumentParser(description=__doc__.splitlines()[0])
    parser.add_argument("--root", type=Path, default=Path(__file__).resolve().parent.parent, help="the repository (default: this one)")
    parser.add_argument("--named", action="store_true", help="try the wrong bodies of must-fail/ too")
    parser.add_argument("--show", action="store_true", help="tell the goal that refuses each")
    parser.add_argument("--only", action="append", metavar="EDIT", help="try this edit and its twin alone (may be given again)")
    parser.add_argument("--jobs", type=int, default=1, help="how many crates at a time (default 1)")
    parser.add_argument("--minutes", type=float, default=float("inf"), help="begin no check later than that (default: no end)")
    parser.add_argument("crates", nargs="*", metavar="CRATE", help="crates (default: all that have wrong bodies)")
    given = parser.parse_args(words)
    given.until = time.monotonic() + 60 * given.minutes
    names = given.crates or sorted({it.parent.parent.name for it in given.root.glob("crates/*/wrong-bodies/*") if it.suffix in (".edit", ".twin")})
    # The longest first, so that none is left alone at the end.
    names.sort(key=lambda it: -amount(given.root / "crates" / it))
    trials = [Trial(given, name) for name in names]
    with ThreadPoolExecutor(given.jobs) as pool:
        for ended in [pool.submit(try_crate, trial) for trial in trials]:
            ended.result()
    passed, failed = (sum(getattr(it.report, part) for it in trials) for part in ("passed", "failed"))
    print(f"{passed} passed, {failed} failed")
    return 1 if failed else 0


if __name__ == "__main__":
    sys.exit(main(sys.argv[1:]))
