#!/usr/bin/env python3
"""Copies its input to its output, and behind each line that tells of a crate writes the minutes since it began, and those of all
crates before it, so that the end of a log that was cut off has them too. Lines that say of one function, type or impl that it is
proved, and of one library what was loaded of it, are left out: the verdict line of their crate counts them."""
import re
import sys
import time

ONE = re.compile(r"(fn|impl|struct|enum|trait|cycle) \S.*: proved$|statements \w+: modules loaded=")

began = time.monotonic()
ended = []
for line in sys.stdin:
    said = line.rstrip("\n")
    if ONE.match(said):
        continue
    tells = re.match(r"rt: (\w+)(: its tests are)? (proved|NOT PROVED)\b", said)
    if tells or said.startswith("rt: ") and re.search(r"\b(edits|ran|passed|FAILED)\b", said):
        minutes = (time.monotonic() - began) / 60
        said += f"  [{minutes:.1f} minutes]"
        if tells:
            ended.append(f"{tells[1]}{' (tests)' if tells[2] else ''} {minutes:.1f}")
            said += f"\nminutes: {', '.join(ended)}"
    print(said, flush=True)
