#!/usr/bin/env python3
"""Times a crate of 1,000 files in 40 directories, and one that has the same items in one file; seconds of processor, the
least of some runs.

Usage, at the top of the repository: bench/files.py. The program must be built: `rt run < /dev/null` in
crates/hir_session_main.
"""
import copy

from imports import SESSION, Nodes
from measure import best_parts

DIRECTORIES, FILES, FUNCTIONS = 40, 25, 40


def functions(made):
    return [{**made.function(f"g{k}"), "body": "1"} for k in range(FUNCTIONS)]


def set_file(path, nodes):
    return {"do": "set file", "file": path, "unit": {"nodes": nodes}}


def in_files():
    made, commands, root = Nodes(), [], []
    for d in range(DIRECTORIES):
        commands += [set_file(f"d{d}/f{f}.rs", functions(made)) for f in range(FILES)]
        commands.append(set_file(f"d{d}.rs", [made.make("Module", name=f"f{f}") for f in range(FILES)]))
        root.append(made.make("Module", name=f"d{d}"))
    return commands + [set_file("lib.rs", root)]


def in_one():
    made = Nodes()
    inner = lambda: [made.module(f"f{f}", *functions(made)) for f in range(FILES)]
    return [set_file("lib.rs", [made.module(f"d{d}", *inner()) for d in range(DIRECTORIES)])]


def with_another_body(command):
    """The command with the body of the first function changed."""
    changed = copy.deepcopy(command)
    node = changed["unit"]["nodes"][0]
    while "body" not in node:
        node = node["nodes"][0]
    node["body"] = "2"
    return changed


def main():
    for name, sets in (("1,000 files", in_files()), ("one file", in_one())):
        parts = [
            [{"do": "crates", "crates": [{"edition": "2021", "root": "lib.rs"}]}],
            sets,
            [{"do": "refresh"}],
            [{"do": "resolve", "at": [0], "path": "d3::f7::g9"}],
            [with_another_body(sets[0]), {"do": "refresh"}],
        ]
        seconds, _ = best_parts(SESSION, parts, 5)
        _, files, refresh, ask, edit = seconds
        print(f"{name}: set {files:.4f} s; refresh {refresh:.4f} s; resolve {ask:.4f} s; an edit of bodies and a refresh {edit:.4f} s")


if __name__ == "__main__":
    main()
