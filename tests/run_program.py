#!/usr/bin/env python3
"""Runs the built program, and looks at what it writes and at its exit status: `run_program.py [PROGRAM] [NAME..]`.

Build the program first (`cd crates/t5250 && rt run -- check < stdin`), or name one with a slash. The tests are the files
`*_tests.py` of tests/program, a subject each. The last line counts their runs, and the status is 1 where one went
otherwise.
"""
from counted import main

main("tests/program", needs_program=True)
