#!/usr/bin/env python3
"""Times the program on large units of all kinds of items: edits of bodies alone, units at the limit of nodes, and
lines up to the limit of bytes. The seconds are of processor.

Usage, at the top of the repository: bench/trees.py [NODES ..]
Without sizes: 50,000 and 100,000 nodes. The program must be built: `rt run < /dev/null` in crates/hir_session_main.
"""
import sys

from measure import best_parts, memory, run, text

SIZES = [int(it) for it in sys.argv[1:]] or [50_000, 100_000]
MOST = 1_000_000
LONGEST = 16_777_216
SESSION = "crates/hir_session_main/out/hir_session_main"
IN_MODULE = 25


class Nodes:
    """Makes nodes, each with an id of its own; a third are under a condition that holds, and a third have an attribute."""

    def __init__(self):
        self.number = 0

    def id(self):
        self.number += 1
        return [self.number % 65536, self.number // 65536]

    def make(self, kind, **more):
        own = self.id()
        attrs = [[], [{"path": "cfg", "cfg": "fast"}], [{"path": "doc", "literal": "What it is."}]][self.number % 3]
        return {"kind": kind, "id": own, "vis": "pub", "attrs": attrs} | more

    def variants(self):
        shapes = {"A": "unit", "B": "tuple"}
        return [{"id": self.id(), "name": name, "shape": shape} for name, shape in shapes.items()]

    def inside(self, body):
        """The items of a module: 24 nodes, fields, variants and use trees."""
        make = self.make
        tree = {"path": "self", "list": [{"single": "S", "as": "P"}]}
        return [make("Fn", name="f", body=body), make("Struct", name="S"), make("Union", name="U", fields=["pub"]),
                make("Const", name="C", body=body), make("Const", body=body), make("Static", name="X", body=body),
                make("TypeAlias", name="A"), make("Trait", name="T", items=[make("Fn", name="g", body=body)]),
                make("Impl", trait=True, items=[make("Fn", name="h", body=body)]),
                make("Impl", trait=False, items=[make("TypeAlias", name="B")]),
                make("ExternBlock", nodes=[make("Fn", name="e"), make("Static", name="Y")]), make("Use", tree=tree),
                make("Enum", name="E", variants=self.variants()), make("ExternCrate", name="self", **{"as": "own"})]


def unit(nodes, body):
    """Modules of all kinds of items that are taken, with their fields, variants and use trees so many together."""
    made = Nodes()
    whole = [made.make("Module", name=f"m{m}", nodes=made.inside(body)) for m in range(nodes // IN_MODULE)]
    rest = [made.make("Fn", name=f"f{k}", body=body) for k in range(nodes % IN_MODULE)]
    return {"nodes": whole + rest}


def trees_in(tree):
    return 1 + sum(trees_in(it) for it in tree.get("list", []))


def size(nodes):
    """How many nodes, fields, variants and use trees there are, as the limit counts them."""
    inner = [it for node in nodes for it in node.get("nodes", []) + node.get("items", [])]
    parts = sum(len(node.get("fields", [])) + len(node.get("variants", [])) for node in nodes)
    trees = sum(trees_in(node["tree"]) for node in nodes if "tree" in node)
    return len(nodes) + parts + trees + (size(inner) if inner else 0)


def crates():
    return {"do": "crates", "crates": [{"edition": "2021", "root": "lib.rs", "cfg": ["fast"]}]}


def set_file(syntax):
    return {"do": "set file", "file": "lib.rs", "unit": syntax}


REFRESH = {"do": "refresh"}
PAGE = {"do": "tree", "crate": 0, "file": "lib.rs"}


def bodies(nodes):
    """A unit is kept as it is handed in; the page of its tree is the first to have it lowered."""
    first = unit(nodes, "{ 0 }")
    edits = [[set_file(unit(nodes, f"{{ {k} }}")), REFRESH] for k in range(1, 4)]
    seconds, replies = best_parts(SESSION, [[crates(), set_file(first)], [PAGE], [REFRESH]] + edits, tries=3)
    kept, shown, resolved, *edited = seconds
    print(f"unit of {size(first['nodes'])} nodes, {len(text([set_file(first)])) / 1e6:.1f} MB: read, checked and kept in "
          f"{kept:.3f} s, lowered and shown as a page in {shown:.3f} s, resolved in {resolved:.3f} s; an edit of bodies "
          f"alone and a refresh take {min(edited):.3f} s, and the refresh lists {replies[-1].strip()}")


def set_once(label, syntax):
    commands = [crates(), set_file(syntax)]
    seconds, replies = run(SESSION, commands)
    print(f"{label}: {replies[-1]}, {seconds:.2f} s, {memory(SESSION, commands):.0f} MB")


def limits():
    field = {"kind": "Struct", "id": [1, 0], "name": "S", "shape": "tuple"}
    set_once(f"{MOST} nodes as fields", {"nodes": [field | {"fields": [None] * (MOST - 1)}]})
    set_once(f"{MOST + 1} nodes as fields", {"nodes": [field | {"fields": [None] * MOST}]})
    leaves = {"kind": "Use", "id": [1, 0], "tree": {"list": [{"single": "a"}] * (MOST - 2)}}
    set_once(f"{MOST} nodes as leaves of a use tree", {"nodes": [leaves]})


def long_line(length):
    """A line of so many bytes: one of a unit of functions, of which the last has a body that fills it."""
    made, count = Nodes(), length // 120
    nodes = [made.make("Fn", name=f"f{k}", body="{ 0 }") for k in range(count)]
    nodes[-1]["body"] = ""
    short = len(text([set_file({"nodes": nodes})])) - 1
    nodes[-1]["body"] = "x" * (length - short)
    line = text([set_file({"nodes": nodes})])
    if len(line) != length + 1:
        sys.exit(f"a line of {len(line) - 1} bytes in place of {length}")
    set_once(f"a line of {length} bytes, {count} functions", {"nodes": nodes})


def main():
    for nodes in SIZES:
        bodies(nodes)
    limits()
    for length in (LONGEST // 4, LONGEST // 2, LONGEST, LONGEST + 1):
        long_line(length)


main()
