#!/usr/bin/env python3
"""Times queries for the items of traits and impls, at one size and at twice that size; seconds of processor, the least of
some runs.

Usage, at the top of the repository: bench/assoc_items.py [INPUT [SIZE]..]. Without an input it takes each of them, at the
sizes of INPUTS. The program must be built: `rt run < /dev/null` in crates/hir_session_main.
"""
import json
import sys

from calls import Calls
from imports import SESSION
from measure import best_parts, double, memory


class Items(Calls):
    """Makes nodes, with traits and impls."""

    def trait(self, name, *items):
        return self.make("Trait", name=name, items=list(items))

    def inherent(self, *items):
        return self.make("Impl", trait=False, items=list(items))


def trait_items(path):
    return {"do": "trait items", "at": [0], "path": path}


def impl_items(number):
    return {"do": "impl items", "at": [0], "impl": number}


def calls(n):
    """n calls of one macro in one trait, each of which brings a function."""
    made = Items()
    nodes = [made.rules("m"), made.trait("T", *(made.call("m", str(k)) for k in range(n)))]
    for k in range(n):
        made.expand("m", str(k), made.function(f"f{k}"))
    return nodes, made.entries, [trait_items("T")], n


def calls_of_one_entry(n):
    """n calls of one macro with one input in one trait."""
    made = Items()
    nodes = [made.rules("m"), made.trait("T", *(made.call("m") for _ in range(n)))]
    made.expand("m", "", made.function("f"))
    return nodes, made.entries, [trait_items("T")], n


def calls_of_nothing(n):
    """n calls in one trait that nothing defines."""
    made = Items()
    return [made.trait("T", *(made.call(f"no{k}") for k in range(n)), made.function("f"))], made.entries, [trait_items("T")], 1


def functions(n):
    """n functions of one impl."""
    made = Items()
    return [made.inherent(*(made.function(f"f{k}") for k in range(n)))], made.entries, [impl_items(0)], n


def functions_of_one_call(n):
    """n functions, behind one call of one trait."""
    made = Items()
    nodes = [made.rules("m"), made.trait("T", made.call("m"))]
    made.expand("m", "", *(made.function(f"f{k}") for k in range(n)))
    return nodes, made.entries, [trait_items("T")], n


def each_of_many_traits(n):
    """n traits of one file with a call each, one query for each."""
    made = Items()
    nodes = [made.rules("m")] + [made.trait(f"T{k}", made.call("m", str(k))) for k in range(n)]
    for k in range(n):
        made.expand("m", str(k), made.function("f"))
    return nodes, made.entries, [trait_items(f"T{k}") for k in range(n)], 1


def again(n):
    """The same query n times, of a trait with a call among n traits."""
    made = Items()
    nodes = [made.rules("m")] + [made.trait(f"T{k}", made.call("m", str(k))) for k in range(n)]
    made.expand("m", "0", made.function("f"))
    return nodes, made.entries, [trait_items("T0")] * n, 1


INPUTS = {
    calls: [8000],
    calls_of_one_entry: [8000],
    calls_of_nothing: [8000],
    functions: [16000],
    functions_of_one_call: [16000],
    each_of_many_traits: [4000],
    again: [4000],
}


def seconds_of(made, n):
    """How long the queries take after a refresh, and the most memory of the session; the last answer has so many items."""
    nodes, entries, asks, count = made(n)
    begin = [
        {"do": "crates", "crates": [{"edition": "2021", "root": "lib.rs"}]},
        {"do": "set file", "file": "lib.rs", "unit": {"nodes": nodes}},
        *entries,
        {"do": "refresh"},
    ]
    seconds, replies = best_parts(SESSION, [begin, asks], 3)
    reply = json.loads(replies[-1])
    if len(reply.get("ok", {"items": []})["items"]) != count:
        sys.exit(f"{made.__name__} is answered {replies[-1][:200]}")
    return seconds[1], memory(SESSION, begin + asks)


if __name__ == "__main__":
    double(INPUTS, seconds_of)
