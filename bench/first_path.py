#!/usr/bin/env python3
"""Times the program on generated units of several sizes, beside Rust's serde_json reading the same lines into values:
seconds of processor, the least of some runs.

Usage, at the top of the repository: bench/first_path.py [ITEMS ..]
Without sizes: 10,000, 20,000 and 40,000 items. Both programs must be built: `rt run < /dev/null` in
crates/hir_session_main, and `cargo build --release --offline` in bench/serde_json_lines (over Debian's
librust-serde-json-dev).
"""
import sys

from measure import READER, best, memory, run, text

SIZES = [int(it) for it in sys.argv[1:]] or [10_000, 20_000, 40_000]
RESOLVES = 10_000
LINKS = [500, 1_000, 2_000]
SESSION = "crates/hir_session_main/out/hir_session_main"


class Ids:
    """The ids of a unit's nodes, each a new one."""

    def __init__(self):
        self.number = 0

    def next(self):
        self.number += 1
        return [self.number % 65536, self.number // 65536]


def function(ids, name):
    return {"kind": "Fn", "id": ids.next(), "name": name, "vis": "pub", "body": "{ 0 }"}


def struct(ids, name):
    return {"kind": "Struct", "id": ids.next(), "name": name, "vis": "pub", "shape": "tuple", "fields": ["pub"]}


def use(ids, path, name):
    return {"kind": "Use", "id": ids.next(), "tree": {"single": path, "as": name}, "vis": "pub"}


def module(ids, name, nodes):
    return {"kind": "Module", "id": ids.next(), "name": name, "vis": "pub", "nodes": nodes}


def unit(items):
    """Modules of a hundred items each: functions, structs, and imports from the module before."""
    ids, nodes = Ids(), []
    for m in range(max(1, items // 100)):
        inner = []
        for k in range(33):
            source = f"crate::m{m - 1}::S{k}" if m else f"self::S{k}"
            inner += [function(ids, f"f{k}"), struct(ids, f"S{k}"), use(ids, source, f"Past{k}")]
        nodes.append(module(ids, f"m{m}", inner))
    return {"nodes": nodes}


def chain(links):
    """Imports of which each takes the next one's name, so that one pass over them resolves the last alone."""
    ids = Ids()
    nodes = [use(ids, f"self::A{k + 1}", f"A{k}") for k in range(links)]
    return {"nodes": nodes + [struct(ids, f"A{links}")]}


def set_unit(syntax):
    return [{"do": "crates", "crates": [{"edition": "2021", "root": "lib.rs"}]},
            {"do": "set file", "file": "lib.rs", "unit": syntax}]


REFRESH = [{"do": "refresh"}]


def one_unit(items):
    modules = max(1, items // 100)
    head = set_unit(unit(items))
    asks = [{"do": "resolve", "at": [0, f"m{k % modules}"], "path": f"Past{k % 33}"} for k in range(RESOLVES)]
    reading, alone = best(SESSION, head), best(READER, head)
    refreshed = best(SESSION, head + REFRESH)
    answered, asks_alone = best(SESSION, head + REFRESH + asks), best(READER, asks)
    replies = run(SESSION, head + REFRESH + asks)[1]
    missing = sum(1 for it in replies[3:] if '"types":null' in it)
    print(f"unit of {items} items, {len(text(head)) / 1e6:.2f} MB of JSON, {memory(SESSION, head + REFRESH + asks):.0f} MB of memory; "
          f"{RESOLVES} resolves, {missing} of them without an answer")
    print(f"  reading and keeping: {reading:.3f} s, {reading / alone:.1f} times serde_json ({alone:.3f} s)")
    print(f"  first refresh: {refreshed - reading:.3f} s, {(refreshed - reading) / alone:.1f} times serde_json")
    print(f"  {RESOLVES} resolves: {answered - refreshed:.3f} s, "
          f"{(answered - refreshed) / asks_alone:.1f} times serde_json on their lines")


def one_chain(links):
    head = set_unit(chain(links))
    seconds = best(SESSION, head + REFRESH, 3) - best(SESSION, head, 3)
    ask = [{"do": "resolve", "at": [0], "path": "A0"}]
    answer = run(SESSION, head + REFRESH + ask)[1][-1]
    found = "found" if '"kind":"Struct"' in answer else f"answered {answer}"
    print(f"a chain of {links} imports in the unlucky order: refreshed in {seconds:.2f} s, its end {found} from its head")


def main():
    for items in SIZES:
        one_unit(items)
    for links in LINKS:
        one_chain(links)


main()
