#!/usr/bin/env python3
"""Drives `t5250 connect` and `t5250 serve` through pipes, as a program would, and looks at what they print:
`run_live.py [-v] [PROGRAM] [NAME..]`.

Build the program first (`cd crates/t5250 && rt run -- check < stdin`), or name one with a slash. The two meet one
another, and each meets a socket of Python that plays the other side, also one that is silent, slow, mad or gone. The
tests are the files `*_tests.py` of tests/live, a subject each; with names those whose names have one of them. The last
line tells how many passed and how many failed, and the status is 1 where one failed.
"""
from counted import main

main("tests/live", needs_program=True)
