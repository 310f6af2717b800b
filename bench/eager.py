#!/usr/bin/env python3
"""Times refreshes of crates that are full of eager calls, at one size and at twice that size; seconds of processor, the
least of some runs.

Usage, at the top of the repository: bench/eager.py [INPUT [SIZE]..]. Without an input it takes each of them, at the
sizes of INPUTS. The program must be built: `rt run < /dev/null` in crates/hir_session_main.
"""
import os

from calls import Calls
from imports import SESSION
from measure import double, refresh

PROGRAM = os.environ.get("SESSION", SESSION)


class Eager(Calls):
    """Makes calls of one eager macro, and what they expand to."""

    def __init__(self):
        super().__init__()
        self.cat = self.make("MacroRules", name="cat", text="cat", expander="builtin_eager")

    def grow(self, given, paths, texts, *nodes):
        """What a call of the macro with this input asks for first, and what it expands to where the paths reach macros of these texts."""
        key = {"caller": 0, "crate": 0, "text": "cat", "call": "bang", "input": given}
        self.entries.append({"do": "set expansion", "key": key, "inner": paths})
        reached = [{"crate": 0, "text": text} for text in texts]
        self.entries.append({"do": "set expansion", "key": {**key, "reached": reached}, "unit": {"nodes": list(nodes)}})


def each_at_once(n):
    """n calls that each ask for one macro, which is there."""
    made = Eager()
    for k in range(n):
        made.grow(str(k), ["hi"], ["hi"], made.struct(f"S{k}"))
    return [made.cat, made.rules("hi")] + [made.call("cat", str(k)) for k in range(n)], made.entries, [0], f"S{n - 1}"


def each_by_the_next(n):
    """n calls, each of which asks for the macro that the next one's expansion defines: each round expands one."""
    made = Eager()
    for k in range(n):
        made.grow(str(k), [f"m{k}"], ["t"], made.rules(f"m{k - 1}", "t") if k else made.struct("S"))
    calls = [made.call("cat", str(k)) for k in range(n)]
    return [made.cat] + calls + [made.rules(f"m{n - 1}", "t")], made.entries, [0], "S"


def of_nothing_beside_a_chain(n):
    """n calls that ask for what nothing defines, beside n of which each asks for the next one's macro."""
    made = Eager()
    for k in range(n):
        made.grow(f"no{k}", [f"no{k}"], ["t"])
    waiting = [made.call("cat", f"no{k}") for k in range(n)]
    for k in range(n):
        made.grow(str(k), [f"m{k}"], ["t"], made.rules(f"m{k - 1}", "t") if k else made.struct("S"))
    calls = [made.call("cat", str(k)) for k in range(n)]
    return [made.cat] + waiting + calls + [made.rules(f"m{n - 1}", "t")], made.entries, [0], "S"


def a_thousand_paths(n):
    """A call that asks for 1,000 macros, beside n calls in a chain; the first 1,000 of these define its macros, the last that it asks for first."""
    made = Eager()
    most = min(n, 1000)
    wanted = [f"m{k}" for k in range(most)]
    made.grow("all", wanted, ["t"] * most, made.struct("S"))
    for k in range(n):
        made.grow(str(k), [f"m{k}"], ["t"], *([made.rules(f"m{k - 1}", "t")] if k else []))
    calls = [made.call("cat", "all")] + [made.call("cat", str(k)) for k in range(n)]
    return [made.cat] + calls + [made.rules(f"m{n - 1}", "t")], made.entries, [0], "S"


def one_entry_for_all(n):
    """n calls in modules of their own, which all ask for the same 100 macros; the last of these comes by an expansion."""
    made = Eager()
    paths = ["crate::m%d" % k for k in range(100)]
    made.grow("x", paths, ["m%d" % k for k in range(100)], made.struct("S"))
    made.expand("make", "", made.macro("m99"))
    modules = [made.module(f"c{k}", made.call("crate::cat", "x")) for k in range(n)]
    cat = made.make("MacroDef", name="cat", text="cat", expander="builtin_eager")
    return [cat] + modules + [made.macro(f"m{k}") for k in range(99)] + [made.rules("make"), made.call("make")], made.entries, [0, f"c{n - 1}"], "S"


INPUTS = {
    each_at_once: [4000, 8000],
    each_by_the_next: [2000, 4000],
    of_nothing_beside_a_chain: [1000, 2000],
    a_thousand_paths: [1000, 2000],
    one_entry_for_all: [500, 1000],
}


def seconds_of(made, n):
    """How long a refresh takes, and the most memory of the session."""
    nodes, entries, place, path = made(n)
    begin = [
        {"do": "crates", "crates": [{"edition": "2021", "root": "lib.rs"}]},
        {"do": "set file", "file": "lib.rs", "unit": {"nodes": nodes}},
        *entries,
    ]
    return refresh(PROGRAM, begin, place, path)


if __name__ == "__main__":
    double(INPUTS, seconds_of)
