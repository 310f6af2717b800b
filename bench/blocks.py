#!/usr/bin/env python3
"""Times refreshes of blocks, at one size and at twice that size, edits of one block among many, and a session of ten
thousand blocks; seconds of processor, the least of some runs.

Usage, at the top of the repository: bench/blocks.py [INPUT [SIZE]..]. Without an input it takes each of them, at the
sizes of INPUTS; then `edits` (blocks, of which 200 are edited one by one), `edits_around` (of those that are edited
each holds another) and `session` (blocks). The program must be built: `rt run < /dev/null` in crates/hir_session_main.
"""
import sys

from imports import SESSION, Nodes
from measure import best_parts, double, memory, refresh

DEEPEST, EDITS = 16, 200
CRATES = {"do": "crates", "crates": [{"edition": "2021", "root": "lib.rs"}]}


def block(number):
    return {"block": [number % 65536, number // 65536]}


def set_file(*nodes):
    return {"do": "set file", "file": "lib.rs", "unit": {"nodes": list(nodes)}}


def set_block(at, *nodes):
    return {"do": "set block", "at": at, "unit": {"nodes": list(nodes)}}


def of_one_module(n):
    """n blocks of one module, each of a struct and an import of what the module has."""
    made = Nodes()
    place = lambda k: [0, "m", block(k)]
    sets = [set_block(place(k), made.struct(f"S{k}"), made.use("self::T", f"T{k}")) for k in range(n)]
    return [set_file(made.module("m", made.struct("T"))), *sets], place(n - 1), f"T{n - 1}"


def imports(n):
    """A block with n imports of what a module of its crate has."""
    made = Nodes()
    names = made.module("m", *(made.struct(f"S{k}") for k in range(n)))
    uses = [made.use(f"crate::m::S{k}", f"T{k}") for k in range(n)]
    return [set_file(names), set_block([0, block(1)], *uses)], [0, block(1)], f"T{n - 1}"


def chain(n):
    """A block with n imports, each of the name that the one behind it binds."""
    made = Nodes()
    uses = [made.use(f"x{k + 1}", f"x{k}") for k in range(n)]
    return [set_file(), set_block([0, block(1)], *uses, made.struct(f"x{n}"))], [0, block(1)], "x0"


def unresolved(n):
    """A block with n imports that reach nothing."""
    made = Nodes()
    uses = [made.use(f"no{k}::S", f"x{k}") for k in range(n)]
    return [set_file(), set_block([0, block(1)], *uses, made.struct("S"))], [0, block(1)], "S"


def calls(n):
    """A block with n calls, each of which defines a struct."""
    made = Nodes()
    rules = made.make("MacroRules", name="m", text="m")
    key = lambda k: {"caller": 0, "crate": 0, "text": "m", "call": "bang", "input": str(k)}
    entries = [{"do": "set expansion", "key": key(k), "unit": {"nodes": [made.struct(f"S{k}")]}} for k in range(n)]
    all_of_them = [made.make("MacroCall", path="m", input=str(k)) for k in range(n)]
    return [set_file(rules), set_block([0, block(1)], *all_of_them), *entries], [0, block(1)], f"S{n - 1}"


def in_one_another(n):
    """Sixteen blocks in one another, each of n items."""
    made, sets, at = Nodes(), [set_file()], [0]
    for level in range(DEEPEST):
        at = at + [block(level)]
        sets.append(set_block(at, *(made.struct(f"S{level}_{k}") for k in range(n))))
    return sets, at, f"S0_{n - 1}"


INPUTS = {
    of_one_module: [1000, 2000, 4000],
    imports: [1000, 2000, 4000],
    chain: [1000, 2000, 4000],
    unresolved: [1000, 2000, 4000],
    calls: [1000, 2000, 4000],
    in_one_another: [125, 250, 500],
}


def seconds_of(made, n):
    """How long a refresh takes, and the most memory of the session."""
    sets, at, path = made(n)
    return refresh(SESSION, [CRATES, *sets], at, path)


def edits(n, inner=0):
    """Prints what an edit of one of n blocks takes, with the refresh behind it. The edited ones hold so many blocks each."""
    sets, _, _ = of_one_module(n - EDITS * inner)
    edited, made = [], Nodes()
    for k in range(EDITS):
        at = [0, "m", block(k * (n - EDITS * inner) // EDITS)]
        sets += [set_block(at + [block(j)], made.struct("In"), made.use("self::T", f"I{j}")) for j in range(inner)]
        edited += [set_block(at, made.struct(f"U{k}"), made.use("self::T", "V")), {"do": "refresh"}]
    seconds, replies = best_parts(SESSION, [[CRATES, *sets], [{"do": "refresh"}], edited, [{"do": "status", "at": [0, "m"]}]], 3)
    refreshed = replies[len(sets) + 2:-1][1::2]
    if len(refreshed) != EDITS or any(reply.count('"block"') != 1 + 2 * inner or reply.count("[") != 3 + 3 * inner for reply in refreshed):
        sys.exit("an edit reached more or less than its block and those within it")
    held = f" that holds {inner} more" if inner else ""
    print(f"edits: one of {n} blocks{held}, and a refresh: {1000 * seconds[2] / EDITS:.3f} ms; all of them at first: {seconds[1]:.3f} s", flush=True)


def edits_around(n):
    """The same where each edited block holds another."""
    edits(n, 1)


def session(n):
    """Prints what a session of n blocks takes: in a hundred modules, every tenth in the one before it."""
    made, sets, places = Nodes(), [], []
    sets.append(set_file(*(made.module(f"m{m}", made.struct("T")) for m in range(100))))
    for k in range(n):
        places.append((places[-1] if k % 10 == 9 else [0, f"m{k // 10 % 100}"]) + [block(k)])
        sets.append(set_block(places[-1], made.struct("S"), made.use("self::T", "U")))
    asks = [{"do": "resolve", "at": place, "path": path} for place in places for path in ("S", "U")]
    edit = [set_file(*(made.module(f"m{m}", made.struct("T"), made.struct("V")) for m in range(100))), {"do": "refresh"}]
    removal = [{"do": "remove block", "at": place} for place in places] + [{"do": "refresh"}]
    parts = {"sets": [CRATES, *sets], "refresh": [{"do": "refresh"}], "asks": asks, "edit of the file": edit, "removal": removal}
    seconds, replies = best_parts(SESSION, list(parts.values()), 1)
    wrong = [reply for reply in replies if '"ok"' not in reply]
    found = sum('"kind":"Struct"' in reply for reply in replies)
    if wrong or found != len(asks) or replies[len(sets) + 1].count('"block"') != n + n // 10:
        sys.exit(f"{len(wrong)} refused, {found} of {len(asks)} found: {wrong[:1]}")
    times = "; ".join(f"{name} {taken:.3f} s" for name, taken in zip(parts, seconds))
    print(f"session: {n} blocks: {times}; {memory(SESSION, [command for part in parts.values() for command in part]):.0f} MB", flush=True)


def main():
    wanted, sizes = sys.argv[1:2], [int(size) for size in sys.argv[2:]]
    double(INPUTS, seconds_of)
    for made, usual in ((edits, [5000, 10000]), (edits_around, [5000, 10000]), (session, [10000])):
        if not wanted or wanted[0] == made.__name__:
            for n in sizes or usual:
                made(n)


if __name__ == "__main__":
    main()
