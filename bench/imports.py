#!/usr/bin/env python3
"""Times refreshes of crates that are full of imports and globs, at one size and at twice that size; seconds of
processor, the least of some runs.

Usage, at the top of the repository: bench/imports.py [INPUT [SIZE]..]. Without an input it takes each of them, at the
sizes of INPUTS. The program must be built: `rt run < /dev/null` in crates/hir_session_main.
"""
from measure import double, refresh

SESSION = "crates/hir_session_main/out/hir_session_main"


class Nodes:
    """Makes nodes, each with an id of its own."""

    def __init__(self):
        self.number = 0

    def make(self, kind, **fields):
        self.number += 1
        return {"kind": kind, "id": [self.number % 65536, self.number // 65536], "vis": "pub", **fields}

    def module(self, name, *nodes):
        return self.make("Module", name=name, nodes=list(nodes))

    def struct(self, name):
        return self.make("Struct", name=name)

    def function(self, name):
        return self.make("Fn", name=name)

    def glob(self, path):
        return self.make("Use", tree={"glob": path})

    def use(self, path, name=None):
        return self.make("Use", tree={"single": path} if name is None else {"single": path, "as": name})


def chain(n):
    """n imports, each of the name that the one behind it binds."""
    made = Nodes()
    return [made.use(f"self::x{k + 1}", f"x{k}") for k in range(n)] + [made.struct(f"x{n}")], "x0"


def re_exports(n):
    """One name, re-exported by n modules, each from the next."""
    made = Nodes()
    modules = [made.module(f"m{k}", made.use(f"crate::m{k + 1}::S")) for k in range(n)]
    return modules + [made.module(f"m{n}", made.struct("S"))], "m0::S"


def ring(n):
    """n modules in a ring, each of which globs the next; the last has a name."""
    made = Nodes()
    modules = [made.module(f"m{k}", made.glob(f"crate::m{k + 1}")) for k in range(n - 1)]
    return modules + [made.module(f"m{n - 1}", made.glob("crate::m0"), made.struct("S"))], "m0::S"


def prelude(n, names=1000):
    """n modules that glob one with a thousand names."""
    made = Nodes()
    modules = [made.module(f"m{k}", made.glob("crate::prelude")) for k in range(n)]
    return modules + [made.module("prelude", *(made.struct(f"S{k}") for k in range(names)))], f"m0::S{names - 1}"


def library(n):
    """A library that at 40 has the size of Rust's standard one: 66,000 nodes, 5,300 imports, 280,000 names that globs bring.

    n modules of a thousand functions each are re-exported by globs, one after the other through seven modules; others have
    items and imports of their own.
    """
    made = Nodes()
    modules = [made.module(f"f{k}", *(made.function(f"f{k}_{i}") for i in range(1000))) for k in range(n)]
    modules.append(made.module("all0", *(made.glob(f"crate::f{k}") for k in range(n))))
    modules += [made.module(f"all{k}", made.glob(f"crate::all{k - 1}")) for k in range(1, 7)]
    for k in range(25 * n // 4):
        items = [made.struct(f"S{i}") for i in range(80)]
        imports = [made.use(f"crate::all{i % 7}::f{i % n}_{k % 1000}", f"g{i}") for i in range(20)]
        modules.append(made.module(f"u{k}", *items, *imports, made.use("self::S0", "T")))
    return modules, "u0::T"


def unresolved(n):
    """n imports that reach nothing."""
    made = Nodes()
    return [made.use(f"crate::no{k}::S", f"x{k}") for k in range(n)] + [made.struct("S")], "S"


INPUTS = {
    chain: [1000, 2000, 4000, 8000],
    re_exports: [500, 1000, 2000],
    ring: [100, 200, 400],
    prelude: [125, 250, 500],
    library: [10, 20],
    unresolved: [2500, 5000, 10000],
}


def seconds_of(made, n):
    """How long a refresh takes, and the most memory of the session."""
    nodes, path = made(n)
    begin = [
        {"do": "crates", "crates": [{"edition": "2021", "root": "lib.rs"}]},
        {"do": "set file", "file": "lib.rs", "unit": {"nodes": nodes}},
    ]
    return refresh(SESSION, begin, [0], path)


if __name__ == "__main__":
    double(INPUTS, seconds_of)
