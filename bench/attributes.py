#!/usr/bin/env python3
"""Times refreshes of crates that are full of attributes and derives, and edits of a body in such a crate, at one size and
at twice that size; seconds of processor, the least of some runs.

Usage, at the top of the repository: bench/attributes.py [INPUT [SIZE]..]. Without an input it takes each of them, at the
sizes of INPUTS and EDITS. The program must be built: `rt run < /dev/null` in crates/hir_session_main.
"""
from calls import Calls, seconds_of
from files import set_file, with_another_body
from imports import SESSION
from measure import double, refresh


class Attributes(Calls):
    """Makes nodes under attributes, and the expansions of one crate's own derives."""

    def under(self, node, *attributes):
        return {**node, "attrs": [it if isinstance(it, dict) else {"path": it} for it in attributes]}

    def derive(self, *paths):
        return {"path": "derive", "paths": list(paths)}

    def macro(self, name, **fields):
        return self.make("MacroDef", name=name, text=name, **fields)

    def expand_derive(self, text, node, *nodes):
        key = {"caller": 0, "crate": 0, "text": text, "call": "derive", "input": node["name"]}
        self.entries.append({"do": "set expansion", "key": key, "unit": {"nodes": list(nodes)}})


def of_nothing(n):
    """n structs, each under an attribute that nothing defines."""
    made = Attributes()
    return [made.under(made.struct(f"S{k}"), f"no{k}") for k in range(n)], made.entries, [0], f"S{n - 1}"


def of_nothing_in_modules(n):
    """n structs, each under an attribute of one name that nothing defines, a hundred in each module."""
    made = Attributes()
    inside = lambda: [made.under(made.struct(f"S{k}"), "nope") for k in range(100)]
    return [made.module(f"m{k}", *inside()) for k in range(n // 100)], made.entries, [0], "m0::S99"


def of_their_own_name(n):
    """n structs, each under an attribute of its own name."""
    made = Attributes()
    return [made.under(made.struct(f"S{k}"), f"S{k}") for k in range(n)], made.entries, [0], f"S{n - 1}"


def of_one_struct(n):
    """n attributes that nothing defines, all of one struct."""
    made = Attributes()
    return [made.under(made.struct("S"), *(f"no{k}" for k in range(n)))], made.entries, [0], "S"


def inert(n):
    """n structs, each under attributes that nothing is looked up for."""
    made = Attributes()
    nodes = [made.under(made.struct(f"S{k}"), "doc", "repr", "clippy::all") for k in range(n)]
    return nodes, made.entries, [0], f"S{n - 1}"


def builtin_derives(n):
    """n structs, each with three builtin derives."""
    made = Attributes()
    names = ["Clone", "Copy", "Debug"]
    nodes = [made.macro(name, expander="builtin_derive") for name in names]
    nodes += [made.under(made.struct(f"S{k}"), made.derive(*names)) for k in range(n)]
    return nodes, made.entries, [0], f"S{n - 1}"


def derives_with_a_helper(n):
    """n structs, each with a derive that makes an item, and with an attribute that is the derive's helper."""
    made = Attributes()
    structs = [{**made.under(made.struct(f"S{k}"), made.derive("D"), "h"), "input": f"S{k}"} for k in range(n)]
    for k, struct in enumerate(structs):
        made.expand_derive("D", struct, made.struct(f"T{k}"))
    return [made.macro("D", styles=["derive"], helpers=["h"]), *structs], made.entries, [0], f"T{n - 1}"


def beside_imports(n):
    """n structs, each under an attribute that nothing defines, beside n imports and a glob."""
    made = Attributes()
    nodes, entries, place, path = of_nothing(n)
    made.number = n
    items = [made.module("a", *(made.struct(f"T{k}") for k in range(n))), made.glob("a")]
    items += [made.use(f"a::T{k}", f"U{k}") for k in range(n)]
    return items + nodes, entries, place, path


def edit_of_a_body(n):
    """Files of fifty structs, each under an attribute that nothing defines, n in all; each file begins with a function."""
    made = Attributes()
    files = range(n // 50)

    def inside():
        structs = [made.under(made.struct(f"S{k}"), f"no{k}") for k in range(50)]
        return [{**made.function("f"), "body": "1"}, *structs]

    sets = [set_file(f"f{k}.rs", inside()) for k in files]
    return [*sets, set_file("lib.rs", [made.make("Module", name=f"f{k}") for k in files])], "f0::S49"


INPUTS = {
    of_nothing: [8000, 16000],
    of_nothing_in_modules: [8000, 16000],
    of_their_own_name: [8000, 16000],
    of_one_struct: [8000, 16000],
    inert: [8000, 16000],
    builtin_derives: [4000, 8000],
    derives_with_a_helper: [4000, 8000],
    beside_imports: [2000, 4000],
}
EDITS = {edit_of_a_body: [8000, 16000]}


def seconds_of_edit(made, n):
    """How long an edit of the first function's body and a refresh take, and the most memory of the session."""
    sets, path = made(n)
    begin = [{"do": "crates", "crates": [{"edition": "2021", "root": "lib.rs"}]}, *sets, {"do": "refresh"}]
    return refresh(SESSION, begin, [0], path, [with_another_body(sets[0])])


if __name__ == "__main__":
    double(INPUTS, seconds_of)
    double(EDITS, seconds_of_edit)
