#!/usr/bin/env python3
"""Measures the memory that one more item, import, name and the like takes: what the program has in memory where it waits, of a session
with so many of them and of one with twice as many, once all is set and once it is resolved.

Usage, at the top of the repository: bench/sizes.py [--program FILE] [NAME ..]. Sources are small, so that no line takes much.
"""
import argparse
import subprocess
import threading

from calls import Calls
from imports import SESSION
from measure import feed, text, used

CRATES = {"do": "crates", "crates": [{"edition": "2021", "root": "lib.rs"}]}
IN_A_FILE = 250


def in_files(n, inside, root=()):
    """n things in files of so many each; `inside` makes them by their numbers."""
    made, sets = Calls(), []
    for first in range(0, n, IN_A_FILE):
        numbers = range(first, min(n, first + IN_A_FILE))
        sets.append({"do": "set file", "file": f"m{first}.rs", "unit": {"nodes": inside(Calls(), numbers)}})
    modules = [made.make("Module", name=f"m{first}") for first in range(0, n, IN_A_FILE)]
    return [CRATES, *sets, {"do": "set file", "file": "lib.rs", "unit": {"nodes": [*modules, *root]}}]


def exported(made):
    """A macro that paths from all modules find."""
    return {**made.rules("m"), "attrs": [{"path": "macro_export"}]}


def bare_structs(n):
    """a struct with fields in braces: one name of a type"""
    return in_files(n, lambda made, numbers: [made.make("Struct", name=f"Item{k}", shape="record") for k in numbers])


def tuple_structs(n):
    """a tuple struct: a name of a type and a value"""
    return in_files(n, lambda made, numbers: [made.make("Struct", name=f"Item{k}", shape="tuple", fields=["pub"]) for k in numbers])


def functions(n):
    """a function"""
    return in_files(n, lambda made, numbers: [made.function(f"item{k}") for k in numbers])


def modules(n):
    """an inline module without items"""
    return in_files(n, lambda made, numbers: [made.module(f"item{k}") for k in numbers])


def variants(n):
    """a variant, of an enum of 250"""
    def enum(made, numbers):
        listed = [{"id": [k % 65536, k // 65536], "name": f"Item{k}"} for k in numbers]
        return [made.make("Enum", name="E", variants=listed)]
    return in_files(n, enum)


def impls(n):
    """an impl with a function, which binds no name"""
    return in_files(n, lambda made, numbers: [made.make("Impl", trait=False, items=[made.function(f"item{k}")]) for k in numbers])


def functions_of_one_impl(n):
    """a function of an impl of 250"""
    return in_files(n, lambda made, numbers: [made.make("Impl", trait=False, items=[made.function(f"item{k}") for k in numbers])])


def imports(n):
    """an import of one name, of a struct"""
    root = Calls()
    root.number = 60_000
    return in_files(n, lambda made, numbers: [made.use("crate::Base", f"Item{k}") for k in numbers], [root.struct("Base")])


def unresolved_imports(n):
    """an import that reaches nothing"""
    return in_files(n, lambda made, numbers: [made.use(f"crate::gone{k}", f"Item{k}") for k in numbers])


def names_of_globs(n):
    """a name that a glob brought into a module: of 50 modules, each with a glob of a module of n / 50 structs"""
    source = lambda made: made.module("source", *(made.make("Struct", name=f"Item{k}", shape="record") for k in range(n // 50)))
    made = Calls()
    nodes = [source(made), *(made.module(f"m{k}", made.glob("crate::source")) for k in range(50))]
    return [CRATES, {"do": "set file", "file": "lib.rs", "unit": {"nodes": nodes}}]


def calls(n):
    """a call of a macro with an input of its own, and its key with an empty expansion"""
    made = Calls()
    for k in range(n):
        made.expand("m", str(k))
    sets = in_files(n, lambda its, numbers: [its.call("crate::m", str(k)) for k in numbers], [exported(made)])
    return [*sets, *made.entries]


def unset_calls(n):
    """the same without an expansion"""
    made = Calls()
    return in_files(n, lambda its, numbers: [its.call("crate::m", str(k)) for k in numbers], [exported(made)])


def attributes(n):
    """an inert attribute of a struct of 250"""
    return in_files(n, lambda made, numbers: [{**made.struct("S"), "attrs": [{"path": "repr", "paths": ["C"]}] * len(numbers)}])


def blocks(n):
    """a block with a function"""
    made = Calls()
    sets = [CRATES, {"do": "set file", "file": "lib.rs", "unit": {"nodes": []}}]
    for k in range(n):
        at = [0, {"block": [k % 65536, k // 65536]}]
        sets.append({"do": "set block", "at": at, "unit": {"nodes": [{**made.function("item"), "id": [1, 0]}]}})
    return sets


def files(n):
    """a file with a function, its module among 250 of an inline one"""
    made, sets = Calls(), [CRATES]
    inline = [made.module(f"n{first}", *(made.make("Module", name=f"m{k}") for k in range(first, first + IN_A_FILE)))
              for first in range(0, n, IN_A_FILE)]
    for k in range(n):
        unit = {"nodes": [{**made.function("item"), "id": [1, 0]}]}
        sets.append({"do": "set file", "file": f"n{k // IN_A_FILE * IN_A_FILE}/m{k}.rs", "unit": unit})
    return [*sets, {"do": "set file", "file": "lib.rs", "unit": {"nodes": inline}}]


INPUTS = {
    bare_structs: 10_000, tuple_structs: 10_000, functions: 10_000, modules: 5_000, variants: 10_000, impls: 10_000,
    functions_of_one_impl: 10_000, attributes: 10_000, imports: 5_000, unresolved_imports: 5_000, names_of_globs: 10_000,
    calls: 4_000, unset_calls: 4_000, blocks: 2_000, files: 2_000,
}


def in_memory(pid):
    with open(f"/proc/{pid}/statm") as pages:
        return int(pages.read().split()[1]) * 4096


def measured(program, begin):
    """The bytes in memory once all is set, and once it is resolved."""
    child = subprocess.Popen([program], stdin=subprocess.PIPE, stdout=subprocess.PIPE)
    taken = []
    for commands in (begin, [{"do": "refresh"}]):
        feeder = threading.Thread(target=feed, args=(child.stdin, text(commands)))
        feeder.start()
        for command in commands:
            reply = child.stdout.readline().decode()
            if reply.startswith('{"error"'):
                raise SystemExit(f"{str(command)[:200]}: {reply}")
        feeder.join()
        used(child.pid)
        taken.append(in_memory(child.pid))
    child.stdin.close()
    child.wait()
    return taken


def main():
    parser = argparse.ArgumentParser()
    parser.add_argument("--program", default=SESSION)
    parser.add_argument("names", nargs="*")
    options = parser.parse_args()
    print("| One more | JSON | kept | resolved besides |\n|---|---|---|---|", flush=True)
    for made, n in INPUTS.items():
        if options.names and made.__name__ not in options.names:
            continue
        one, two = made(n), made(2 * n)
        before, after = measured(options.program, one), measured(options.program, two)
        line = (len(text(two)) - len(text(one))) / n
        kept, resolved = ((b - a) / n for a, b in zip(before, after))
        print(f"| {made.__doc__} | {line:.0f} | {kept:.0f} | {resolved - kept:.0f} |", flush=True)


if __name__ == "__main__":
    main()
