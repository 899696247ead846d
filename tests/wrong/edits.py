"""Edits of a crate's sources, as wrong bodies and their twins are written: what each changes, and which go into one check."""

import re
from dataclasses import dataclass, field
from pathlib import Path

from .source import blanked, functions, homes_of, outside

BRANCH = re.compile(r"\b(?:if|match|matches!|for|while)\b")


class Unfit(Exception):
    """An edit that can't be applied: the words say why."""


@dataclass
class Edit:
    """An edit: its pairs of texts by file, and what it changes in the crate as it stands."""

    name: str
    pairs: list[tuple[str, str, str]]
    # The functions that it changes or adds, by path, and the files of which it changes more than functions.
    changed: set[str] = field(default_factory=set)
    added: set[str] = field(default_factory=set)
    beside: set[str] = field(default_factory=set)
    # Whether it adds a function, a field or a branch: then a harmless edit of the same shape may be refused too.
    wants_twin: bool = False

    @property
    def files(self) -> list[str]:
        return list(dict.fromkeys(path for path, _, _ in self.pairs))


def read_pairs(text: str) -> list[tuple[str, str, str]]:
    """The pairs of an edit's text: the file, the old line and the new."""
    path, old, pairs = "", "", []
    for line in text.split("\n"):
        if line.startswith("file: "):
            path = line[len("file: ") :].strip()
        elif line.startswith("old: "):
            old = line[len("old: ") :]
        elif line.startswith("new:"):
            if not path or not old:
                raise Unfit("a 'new:' line stands before any 'file:' or 'old:' line")
            pairs.append((path, old, line[len("new:") :].removeprefix(" ")))
            old = ""
    if not pairs:
        raise Unfit("it has no pair of 'old:' and 'new:'")
    return pairs


def apply(pairs: list[tuple[str, str, str]], texts: dict[str, str]) -> dict[str, str]:
    """The texts after these pairs."""
    texts = dict(texts)
    for path, old, new in pairs:
        if path not in texts:
            raise Unfit(f"there is no file {path}")
        found = texts[path].count(old)
        if found != 1:
            raise Unfit(f"an 'old:' text is in {path} {found} times: {old[:60]}")
        texts[path] = texts[path].replace(old, new)
    return texts


def sources(crate: Path) -> dict[str, str]:
    """The texts of a crate's src/, specs/ and proofs/."""
    files = [it for part in ("src", "specs", "proofs") for it in (crate / part).rglob("*") if it.suffix in (".rt", ".antt")]
    return {str(it.relative_to(crate)): it.read_text(encoding="utf-8") for it in files}


def read_edit(file: Path, texts: dict[str, str]) -> Edit:
    """The edit of a file, with what it changes in these texts."""
    edit = Edit(file.stem, read_pairs(file.read_text(encoding="utf-8")))
    after = apply(edit.pairs, texts)
    if after == texts:
        raise Unfit("it changes nothing")
    homes = homes_of(texts)
    for path in edit.files:
        if path.endswith(".rt"):
            compare(edit, path, (texts[path], after[path]), homes)
    return edit


def compare(edit: Edit, path: str, texts: tuple[str, str], homes: dict[str, str]) -> None:
    """Notes what an edit changes in one file, by its texts before and after."""
    before, after = texts
    old, new = functions(path, before, homes), functions(path, after, homes)
    edit.added |= new.keys() - old.keys()
    edit.wants_twin |= bool(edit.added)
    for name in old.keys() & new.keys():
        was, now = (text[it.start : it.end] for text, it in ((before, old[name]), (after, new[name])))
        if was != now:
            edit.changed.add(name)
            edit.wants_twin |= len(BRANCH.findall(blanked(now))) > len(BRANCH.findall(blanked(was)))
    was, now = outside(path, before, homes), outside(path, after, homes)
    if was != now:
        edit.beside.add(path)
        edit.wants_twin |= len(was) < len(now)


def clash(one: Edit, other: Edit) -> bool:
    """Whether two edits can't be judged in one check: both change one function, or one changes what stands beside functions."""
    return bool(one.beside or other.beside or one.changed & other.changed or one.added & other.added)


def rounds(edits: list[Edit], texts: dict[str, str], clashing=clash) -> list[list[Edit]]:
    """The edits by rounds, as few as a look at each in turn finds, each of which can be applied whole."""
    found: list[tuple[list[Edit], dict[str, str]]] = []
    for edit in edits:
        for place, (members, so_far) in enumerate(found):
            if any(clashing(edit, other) for other in members):
                continue
            try:
                found[place] = ([*members, edit], apply(edit.pairs, so_far))
                break
            except Unfit:
                continue
        else:
            found.append(([edit], apply(edit.pairs, texts)))
    return [members for members, _ in found]
