#!/usr/bin/env python3
"""Times sessions of many crates: set, refreshed, asked, and edited at the bottom; seconds of processor, the least of
some runs.

Usage, at the top of the repository: bench/crates.py [CRATES LENGTH]..: so many crates in chains of this length, each
over the one before. The program must be built: `rt run < /dev/null` in crates/hir_session_main.
"""
import sys

import measure

ITEMS = 10
SESSION = "crates/hir_session_main/out/hir_session_main"


def root(number):
    return f"c{number}/lib.rs"


def crate(number, length):
    entry = {"edition": "2021", "root": root(number)}
    if number % length:
        entry["deps"] = [{"crate": number - 1, "name": "before"}]
    return entry


def unit(number, length, more=0):
    nodes = [
        {"kind": "Struct", "id": [item, 0], "name": f"S{item}", "vis": "pub"}
        for item in range(1, ITEMS + more)
    ]
    if number % length:
        nodes.append({"kind": "Use", "id": [60000, 0], "tree": {"single": "before::S1", "as": "Below"}, "vis": "pub"})
    else:
        nodes.append({"kind": "Struct", "id": [60000, 0], "name": "Below", "vis": "pub"})
    return {"nodes": nodes}


def set_file(number, length, more=0):
    return {"do": "set file", "file": root(number), "unit": unit(number, length, more)}


def main():
    sizes = [int(text) for text in sys.argv[1:]] or [1000, 10, 10000, 10, 1000, 1000]
    for count, length in zip(sizes[::2], sizes[1::2]):
        begin = [{"do": "crates", "crates": [crate(number, length) for number in range(count)]}]
        files = [set_file(number, length) for number in range(count)]
        refresh = [{"do": "refresh"}]
        asks = [{"do": "resolve", "at": [number], "path": "Below"} for number in range(count)]
        edit = [set_file(0, length, 1), {"do": "refresh"}]
        parts = [("crates", begin), ("files", files), ("refresh", refresh), ("asks", asks), ("edit of the first, refresh", edit)]
        all_seconds, replies = measure.best_parts(SESSION, [part for _, part in parts], 3)
        for (label, _), seconds in zip(parts, all_seconds):
            print(f"{count} crates in chains of {length}: {label}: {seconds:.3f} s")
        wrong = [reply for reply in replies if '"ok"' not in reply]
        commands = [command for _, part in parts for command in part]
        print(f"replies {len(replies)}, refused {len(wrong)}, memory {measure.memory(SESSION, commands):.0f} MB")


if __name__ == "__main__":
    main()
