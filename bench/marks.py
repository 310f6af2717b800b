#!/usr/bin/env python3
"""Times edits and what they mark, and the first refresh, whose runs are entered among those that asked; seconds of
processor, the least of some runs.

Usage, at the top of the repository: bench/marks.py [INPUT [SIZE]..]. Without an input it takes each of them, at the
sizes of INPUTS. The program must be built: `rt run < /dev/null` in crates/hir_session_main.
"""
import sys

from calls import Calls
from imports import SESSION
from measure import best_parts, memory

EDITS = 100
CRATES = {"do": "crates", "crates": [{"edition": "2021", "root": "lib.rs"}]}
REFRESH = {"do": "refresh"}


def expansions(n):
    """n expansions of one macro's calls, each set to what it is."""
    made = Calls()
    nodes = [made.rules("m")] + [made.call("m", str(k)) for k in range(n)]
    for k in range(n):
        made.expand("m", str(k), made.struct(f"S{k}"))
    begin = [CRATES, {"do": "set file", "file": "lib.rs", "unit": {"nodes": nodes}}, *made.entries]
    return begin, made.entries


def askers(n):
    """A file whose macro n blocks call, set to what it is."""
    made = Calls()
    file = {"do": "set file", "file": "lib.rs", "unit": {"nodes": [made.macro("m")]}}
    made.expand("m", "", made.struct("S"))
    blocks = []
    for k in range(n):
        at = [0, {"block": [k % 65536, k // 65536]}]
        blocks.append({"do": "set block", "at": at, "unit": {"nodes": [made.call("crate::m")]}})
    return [CRATES, file, *made.entries, *blocks], [file] * EDITS


INPUTS = {expansions: 8000, askers: 20000}


def main():
    wanted, given = sys.argv[1:2], [int(size) for size in sys.argv[2:]]
    for made, size in INPUTS.items():
        if wanted and made.__name__ != wanted[0]:
            continue
        for n in given or [size]:
            begin, edits = made(n)
            parts = [begin, [REFRESH], edits, [REFRESH]]
            seconds, replies = best_parts(SESSION, parts, 3)
            if replies[-1].strip() != '{"ok":[]}':
                sys.exit(f"edits that alter nothing mark something: {replies[-1]}")
            most = memory(SESSION, [command for part in parts for command in part])
            each = seconds[2] / len(edits) * 1e6
            print(f"{made.__name__}: {n}: first refresh {seconds[1]:.4f} s; {len(edits)} edits that alter nothing "
                  f"{seconds[2]:.4f} s, {each:.1f} us each; {most:.0f} MB", flush=True)


if __name__ == "__main__":
    main()
