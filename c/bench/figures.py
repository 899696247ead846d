#!/usr/bin/env python3
"""Compares what `make bench` measured, on standard input, with the figures of ribbonscarp.h and bench/README.md.

A figure of stack may be at most a tenth above what was measured and never below; one of instructions a tenth off at most.
They are of the proved library: one without a proof looks after itself while it runs, and takes more of both.
The last line is 'N passed, N failed'.
"""
import pathlib
import re
import sys

HERE = pathlib.Path(__file__).resolve().parent
HEADER = (HERE.parent / "ribbonscarp.h").read_text()
README = (HERE.parent.parent / "bench/README.md").read_text()
LEAST = 1500
"""Below it stack needs no figure."""
KINDS = ("profile", "extended", "live")
"""The columns of the header's table."""


def measured(lines):
    """Bytes of stack by kind and call, and instructions by what was done."""
    stack, instructions, kind = {}, {}, None
    for line in lines:
        if line.startswith("stack"):
            kind = next((named for named in KINDS if named in line), "profile")
        elif line.startswith("instructions"):
            kind = None
        elif found := re.match(r"(\w+)(?:, [\w, ]+?)? +(\d+)(?: |$)", line) if kind else None:
            call = (kind, found[1])
            stack[call] = max(stack.get(call, 0), int(found[2]))
        elif found := re.match(r"(.+?) +([\d.]+)$", line.strip()):
            instructions[found[1]] = float(found[2])
    return {call: most for call, most in stack.items() if call[1] != "most"}, instructions


def told_stack():
    """The header's table: a call, and its bytes of stack for each kind that has it."""
    rows = re.findall(r"^ \*     ribbon_(\w+) +([\d,]+|-) +([\d,]+|-) +([\d,]+)$", HEADER, re.M)
    return {(kind, name): int(figure.replace(",", ""))
            for name, *figures in rows for kind, figure in zip(KINDS, figures) if figure != "-"}


def told_instructions():
    """What bench/README.md says of a byte that is pushed and of a cell."""
    text = re.search(r"\*\*From C\*\* a byte pushed takes ([\d.]+) .*? and ([\d.]+) of rows of text\..*?"
                     r"look at one cell costs (\d+), at each cell of 24 rows (\d+)", README)
    names = ("a byte pushed, small records", "a byte pushed, text", "one cell", "a cell of 24 rows")
    return dict(zip(names, map(float, text.groups())))


def faults():
    """A line for each figure, and what is wrong with it."""
    stack, instructions = measured(sys.stdin.read().splitlines())
    told = told_stack()
    for call, most in sorted(stack.items()):
        figure = told.get(call, LEAST)
        wrong = most > figure or (call in told and figure > most * 1.1 + 100)
        yield f"stack of {call[1]}, {call[0]}: {most}, told {figure}", wrong
    for call in sorted(told.keys() - stack.keys()):
        yield f"stack of {call[1]}, {call[0]}: told, and not measured", True
    for name, figure in told_instructions().items():
        if name in instructions:
            yield f"{name}: {instructions[name]}, told {figure}", abs(instructions[name] - figure) > figure / 10


def main():
    results = list(faults())
    for line, wrong in results:
        if wrong:
            print(line)
    failed = sum(wrong for _, wrong in results)
    print(f"{len(results) - failed} passed, {failed} failed")
    return 1 if failed else 0


if __name__ == "__main__":
    sys.exit(main())
