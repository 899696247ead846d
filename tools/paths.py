#!/usr/bin/env python3
"""Checks that the files which the documents name are there, and the contracts that docs/PROMISES.md names.

Run it from anywhere. A name in backquotes that ends like a source file's, as `specs/Code.antt`, has to end the path of some
file of the repository, or of docs/DEFINITIONS.md, which `make docs` makes; so has each file of a list
`{first,second}.rt`. A name right before a text is that of a file which the reader is to make of it. Each name behind a
promise has to be a word of some crate's sources or definitions. Its last line counts the names, and its status is 1 where one is of nothing.
"""
import pathlib
import re
import subprocess
import sys

ROOT = pathlib.Path(__file__).resolve().parent.parent
SOURCE = re.compile(r"[\w./{},-]+\.(?:antt|rt|py|sh|md|h|c|cpp|rs|rattle|script|edit|txt)")


def names(text):
    text = re.sub(r"`[^`\n]+`:\n\n```", "```", text)
    for quoted in re.findall(r"`([^`\n]+)`", text) + re.findall(r"\b(?:docs|tests|tools|bench|examples)/[\w.]+\.\w+", text):
        for word in quoted.split():
            if SOURCE.fullmatch(word) and "NAME" not in word:
                found = re.fullmatch(r"(.*)\{(.*)\}(.*)", word)
                yield from (found[1] + part + found[3] for part in found[2].split(",")) if found else [word]


def cited(text):
    """The names of functions, definitions and clauses in the last column of a table; `a_{b,c}` is two."""
    for row in text.split("\n"):
        for quoted in re.findall(r"`([^`./]+)`", row.rpartition(" | ")[2]):
            for front, parts, end, name in re.findall(r"(\w*)\{([\w,]+)\}(\w*)|([A-Za-z_]\w+)", quoted):
                yield from (front + part + end for part in parts.split(",")) if parts else [name]


def main():
    listed = ["git", "ls-files", "--cached", "--others", "--exclude-standard"]
    files = subprocess.run(listed, cwd=ROOT, capture_output=True, text=True, check=True).stdout.split("\n")
    paths = [f"/{file}" for file in [*files, "docs/DEFINITIONS.md"] if file]
    passed, wrong = 0, []
    pages = ("*.md", "docs/*.md", "*/README.md", ".github/*/*.md")
    for page in sorted({page for pattern in pages for page in ROOT.glob(pattern)}):
        for name in sorted(set(names(page.read_text()))):
            if any(path.endswith(f"/{name.removeprefix('/')}") for path in paths):
                passed += 1
            else:
                wrong.append(f"{page.name} names a file that isn't there: {name}")
    sources = [file.read_text() for part in ("src", "specs") for file in ROOT.glob(f"crates/*/{part}/**/*.*t")]
    known = set(re.findall(r"\w+", "\n".join(sources)))
    for name in sorted(set(cited((ROOT / "docs/PROMISES.md").read_text()))):
        if name in known:
            passed += 1
        else:
            wrong.append(f"PROMISES.md names a contract that isn't there: {name}")
    for line in wrong:
        print(line)
    print(f"{passed} passed, {len(wrong)} failed")
    return 1 if wrong else 0


if __name__ == "__main__":
    sys.exit(main())
