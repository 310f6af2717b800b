#!/usr/bin/env python3
"""Times refreshes of crates that are full of macro calls, at one size and at twice that size; seconds of processor, the
least of some runs.

Usage, at the top of the repository: bench/calls.py [INPUT [SIZE]..]. Without an input it takes each of them, at the
sizes of INPUTS. The program must be built: `rt run < /dev/null` in crates/hir_session_main.
"""
from imports import SESSION, Nodes
from measure import double, refresh


class Calls(Nodes):
    """Makes nodes, and the expansions of one crate's own macros."""

    def __init__(self):
        super().__init__()
        self.entries = []

    def rules(self, name, text=None, **fields):
        return self.make("MacroRules", name=name, text=name if text is None else text, **fields)

    def macro(self, name):
        return self.make("MacroDef", name=name, text=name)

    def call(self, path, given=""):
        return self.make("MacroCall", path=path, input=given)

    def expand(self, text, given, *nodes):
        key = {"caller": 0, "crate": 0, "text": text, "call": "bang", "input": given}
        self.entries.append({"do": "set expansion", "key": key, "unit": {"nodes": list(nodes)}})


def of_one_macro(n):
    """n calls of one macro, each of which defines a struct."""
    made = Calls()
    nodes = [made.rules("m")] + [made.call("m", str(k)) for k in range(n)]
    for k in range(n):
        made.expand("m", str(k), made.struct(f"S{k}"))
    return nodes, made.entries, [0], f"S{n - 1}"


def of_one_entry(n):
    """n modules that call one macro with one input."""
    made = Calls()
    nodes = [made.rules("m")] + [made.module(f"m{k}", made.call("m")) for k in range(n)]
    made.expand("m", "", made.struct("S"))
    return nodes, made.entries, [0], f"m{n - 1}::S"


def chained(made, n):
    """n calls, the macro of each defined by the expansion of the one behind it."""
    for k in range(n):
        made.expand(f"m{k}", "", made.rules(f"m{k - 1}") if k else made.struct("S"))
    return [made.call(f"m{k}") for k in range(n)] + [made.rules(f"m{n - 1}")]


def each_by_the_next(n):
    """n calls of which each waits for the next: each round expands one."""
    made = Calls()
    return chained(made, n), made.entries, [0], "S"


def each_by_the_one_before(n):
    """n calls, the macro of each defined by the expansion of the one before it: one round expands them all."""
    made = Calls()
    nodes = [made.rules("m0")] + [made.call(f"m{k}") for k in range(n)]
    for k in range(n):
        made.expand(f"m{k}", "", made.rules(f"m{k + 1}"), *([made.struct("S")] if k == n - 1 else []))
    return nodes, made.entries, [0], "S"


def of_nothing(n):
    """n calls that nothing defines."""
    made = Calls()
    return [made.call(f"no{k}") for k in range(n)] + [made.struct("S")], made.entries, [0], "S"


def of_nothing_beside_a_chain(n):
    """n calls that nothing defines, beside n of which each waits for the next."""
    made = Calls()
    waiting = [made.call(f"no{k}") for k in range(n)]
    return waiting + chained(made, n), made.entries, [0], "S"


def beside_imports(n):
    """n calls of which each waits for the next, beside n imports and a glob that came to rest before the first round."""
    made = Calls()
    items = [made.module("a", *(made.struct(f"T{k}") for k in range(n))), made.glob("a")]
    items += [made.use(f"a::T{k}", f"U{k}") for k in range(n)]
    return items + chained(made, n), made.entries, [0], "S"


def beside_globs(n):
    """n calls that each define a struct, in the root, which globs n modules of a struct each."""
    made = Calls()
    nodes = [made.module(f"m{k}", made.struct(f"T{k}")) for k in range(n)] + [made.glob(f"m{k}") for k in range(n)]
    nodes += [made.rules("m")] + [made.call("m", str(k)) for k in range(n)]
    for k in range(n):
        made.expand("m", str(k), made.struct(f"S{k}"))
    return nodes, made.entries, [0], f"S{n - 1}"


def in_rounds_beside_globs(n):
    """n calls of which each waits for the next, in the root, which globs n modules of a struct each."""
    made = Calls()
    nodes = [made.module(f"m{k}", made.struct(f"T{k}")) for k in range(n)] + [made.glob(f"m{k}") for k in range(n)]
    return nodes + chained(made, n), made.entries, [0], "S"


def brought_by_globs(n):
    """n modules that the root globs, in each a call that defines a struct."""
    made = Calls()
    nodes = [made.rules("m")] + [made.module(f"m{k}", made.call("m", str(k))) for k in range(n)]
    nodes += [made.glob(f"m{k}") for k in range(n)]
    for k in range(n):
        made.expand("m", str(k), made.struct(f"S{k}"))
    return nodes, made.entries, [0], f"S{n - 1}"


def through_a_glob(n):
    """n calls in a module that another globs; each defines the macro that the next one names through the glob."""
    made = Calls()
    calls = [made.call(f"crate::b::m{k}") for k in range(n)]
    for k in range(n):
        made.expand(f"m{k}", "", made.macro(f"m{k + 1}"), *([made.struct("S")] if k == n - 1 else []))
    return [made.module("a", made.macro("m0"), *calls), made.module("b", made.glob("crate::a"))], made.entries, [0, "b"], "S"


def of_nothing_beside_a_glob(n):
    """n calls that nothing defines, in a module to which a glob brings what n calls define."""
    made = Calls()
    for k in range(n):
        made.expand("m", str(k), made.macro(f"m{k}"), made.struct(f"S{k}"))
    calls = [made.call("crate::m", str(k)) for k in range(n)]
    waiting = [made.call(f"no{k}") for k in range(n)]
    nodes = [made.macro("m"), made.module("b", made.glob("crate::a"), *waiting), made.module("a", *calls)]
    return nodes, made.entries, [0, "b"], f"S{n - 1}"


def textual_scope(n):
    """n modules in chains of 25, below n macros in textual scope; the innermost of each calls the last macro."""
    made = Calls()
    nodes = [made.rules(f"m{k}") for k in range(n)]
    for chain in range(n // 25):
        inner = made.call(f"m{n - 1}")
        for depth in range(25):
            inner = made.module(f"c{chain}_{24 - depth}", inner)
        nodes.append(inner)
    made.expand(f"m{n - 1}", "", made.struct("S"))
    return nodes, made.entries, [0] + [f"c0_{depth}" for depth in range(25)], "S"


def macro_use(n):
    """n modules one after another, each of which gives a macro back to the root; the last calls the first one's."""
    made = Calls()
    nodes = []
    for k in range(n):
        inner = [made.rules(f"m{k}")] + ([made.call("m0")] if k == n - 1 else [])
        nodes.append({**made.module(f"c{k}", *inner), "attrs": [{"path": "macro_use"}]})
    made.expand("m0", "", made.struct("S"))
    return nodes, made.entries, [0, f"c{n - 1}"], "S"


def imports_of_expansions(n):
    """n imports, each of what the call behind it defines in a module."""
    made = Calls()
    nodes = [made.use(f"m{k}::S", f"S{k}") for k in range(n)] + [made.rules("m")]
    nodes += [made.call("m", str(k)) for k in range(n)]
    for k in range(n):
        made.expand("m", str(k), made.module(f"m{k}", made.struct("S")))
    return nodes, made.entries, [0], "S0"


INPUTS = {
    of_one_macro: [8000, 16000],
    of_one_entry: [4000, 8000],
    each_by_the_next: [2000, 4000],
    each_by_the_one_before: [2000, 4000],
    of_nothing: [4000, 8000],
    of_nothing_beside_a_chain: [1000, 2000],
    beside_imports: [2000, 4000],
    beside_globs: [2000, 4000],
    in_rounds_beside_globs: [2000, 4000],
    brought_by_globs: [2000, 4000],
    through_a_glob: [1000, 2000, 4000],
    of_nothing_beside_a_glob: [1000, 2000, 4000],
    textual_scope: [1000, 2000],
    macro_use: [2000, 4000],
    imports_of_expansions: [2000, 4000],
}


def seconds_of(made, n):
    """How long a refresh takes, and the most memory of the session."""
    nodes, entries, place, path = made(n)
    begin = [
        {"do": "crates", "crates": [{"edition": "2021", "root": "lib.rs"}]},
        {"do": "set file", "file": "lib.rs", "unit": {"nodes": nodes}},
        *entries,
    ]
    return refresh(SESSION, begin, place, path)


if __name__ == "__main__":
    double(INPUTS, seconds_of)
