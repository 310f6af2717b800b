#!/usr/bin/env python3
"""Times edits of what crates are handed in with: with the same data, of the last and of the first crate of a chain, and of the options of
a crate of many nodes; seconds of processor, the least of some runs.

Usage, at the top of the repository: bench/crate_data.py [--program FILE] [CRATES NODES]..: so many crates, each over the one before, of
one file each and then of eleven, and a crate of so many functions, a third of them under a condition. The program is
crates/hir_session_main/out/hir_session_main, which `rt run < /dev/null` builds there, or another.
"""
import argparse

import measure

EDITS = 200


def crate(number, options=()):
    entry = {"edition": "2021", "root": f"c{number}/lib.rs"}
    if number:
        entry["deps"] = [{"crate": number - 1, "name": "before"}]
    if options:
        entry["cfg"] = list(options)
    return entry


def set_crate(number, options=()):
    return {"do": "set crate", "crate": number, "to": crate(number, options)}


def function(number):
    node = {"kind": "Fn", "id": [number % 60000 + 1, number // 60000], "name": f"f{number}", "vis": "pub"}
    if number % 3 == 0:
        node["attrs"] = [{"path": "cfg", "cfg": "a"}]
    return node


def set_files(number, modules):
    """The files of a crate: its root, which has so many modules, and one of each module."""
    unit = {"nodes": [function(1)]}
    root = {"nodes": [function(1)] + [{"kind": "Module", "id": [module + 2, 0], "name": f"m{module}"} for module in range(modules)]}
    files = [("lib", root)] + [(f"m{module}", unit) for module in range(modules)]
    return [{"do": "set file", "file": f"c{number}/{name}.rs", "unit": unit} for name, unit in files]


def chain_parts(count, modules):
    refresh = [{"do": "refresh"}]
    return [
        ("crates", [{"do": "crates", "crates": [crate(number) for number in range(count)]}]),
        ("files", [command for number in range(count) for command in set_files(number, modules)]),
        ("refresh", refresh),
        (f"{EDITS} edits of the last that change nothing", EDITS * [set_crate(count - 1)]),
        (f"{EDITS} edits of the options of the last", EDITS // 2 * [set_crate(count - 1, "a"), set_crate(count - 1)]),
        ("edit of the options of the first", [set_crate(0, "a")]),
        ("refresh", refresh),
    ]


def tree_parts(count):
    refresh = [{"do": "refresh"}]
    unit = {"nodes": [function(number) for number in range(count)]}
    return [
        ("crate", [{"do": "crates", "crates": [crate(0)]}]),
        ("file", [{"do": "set file", "file": "c0/lib.rs", "unit": unit}]),
        ("refresh", refresh),
        ("edit of the options", [set_crate(0, "a")]),
        ("refresh", refresh),
    ]


def main():
    options = argparse.ArgumentParser()
    options.add_argument("--program", default="crates/hir_session_main/out/hir_session_main")
    options.add_argument("sizes", nargs="*", type=int, default=[5000, 33000, 10000, 66000])
    given = options.parse_args()
    for crates, nodes in zip(given.sizes[::2], given.sizes[1::2]):
        chains = [(f"{crates} crates of {1 + modules} files", chain_parts(crates, modules)) for modules in (0, 10)]
        for what, parts in chains + [(f"{nodes} nodes", tree_parts(nodes))]:
            seconds, replies = measure.best_parts(given.program, [part for _, part in parts], 2)
            for (label, _), took in zip(parts, seconds):
                print(f"{what}: {label}: {took:.4f} s")
            refused = [reply for reply in replies if '"ok"' not in reply]
            print(f"{what}: refused {len(refused)}")


if __name__ == "__main__":
    main()
