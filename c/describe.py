#!/usr/bin/env python3
"""Prints ribbonscarp.pc.in with the environment's PREFIX and VERSION: pkg-config wants a backslash before each character
of a path that the shell would take for its own."""
import os
import re
import sys

with open(sys.argv[1], encoding="utf-8") as text:
    prefix = re.sub(r"([^A-Za-z0-9_./+:@%~-])", r"\\\1", os.environ["PREFIX"])
    sys.stdout.write(text.read().replace("@PREFIX@", prefix).replace("@VERSION@", os.environ["VERSION"]))
