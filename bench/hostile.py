#!/usr/bin/env python3
"""Times refreshes of inputs in which much waits for one name, much is defined again that is there, long lists are gone through, or
long texts and paths are kept or told: seconds of processor and the most memory at a size, at twice and at four times that size, each
time the least of some runs, the ratios of the times, and the bytes of the longest line and of the longest reply.

Usage, at the top of the repository: bench/hostile.py [--program FILE] [--model] [--tries N] [NAME [n]..]. Without a name it takes each
of INPUTS and LONG_TEXTS, at the size that stands there. With --model it times nothing: each input, at the sizes given or else 1, 2, 3
and 7, has to be answered as the plain model (tools/model) answers it, with a dump and the diagnostics of each crate. The program is by
default crates/hir_session_main/out/hir_session_main, which `rt run < /dev/null` builds there. Those of ENDLESS have no size: they are
run with 100 MB, where a refresh has to be refused, and one after an edit has to resolve the rest.
"""
import argparse
import json
import os
import subprocess
import sys

from attributes import Attributes
from imports import SESSION
from measure import memory, run_parts, text

EDITION = {"edition": "2021"}


def block(number):
    return {"block": [number, 0]}


class Input:
    """The sources of a session, edits of them with refreshes between, a path that has to lead to a struct in the end, and what is
    asked behind it."""

    def __init__(self, *nodes, entries=(), crates=None, files=(), blocks=(), edits=(), at=(0,), path, asks=()):
        self.edits, self.asks = list(edits), list(asks)
        self.crates = crates or [{**EDITION, "root": "lib.rs"}]
        self.sets = [self.file("lib.rs", nodes), *files]
        self.sets += [{"do": "set block", "at": list(place), "unit": {"nodes": list(inside)}} for place, inside in blocks]
        self.sets += entries
        self.at, self.path = list(at), path

    @staticmethod
    def file(name, nodes):
        return {"do": "set file", "file": name, "unit": {"nodes": list(nodes)}}

    def begin(self):
        return [{"do": "crates", "crates": self.crates}, *self.sets]

    def parts(self):
        """What comes before the refresh that is timed, that with the edits before it, and what is asked behind it."""
        return [self.begin(), [*self.edits, {"do": "refresh"}], [{"do": "resolve", "at": self.at, "path": self.path}, *self.asks]]


def with_input(made, name, *attributes):
    """A struct under attributes, whose derives have its name as their input."""
    return {**made.under(made.struct(name), *attributes), "input": name}


# ---- helpers of derives

def structs_with_helpers(made, n, below=False):
    """n structs, each under an attribute `serde` that stands above the derive which brings it, or above and below."""
    behind = ["serde"] if below else []
    structs = [with_input(made, f"s{k}", "serde", made.derive("Serialize"), *behind) for k in range(n)]
    for struct in structs:
        made.expand_derive("Serialize", struct, made.struct("impl_" + struct["name"]))
    return structs


def helpers_above_derives(n):
    """A helper above its derive, which is declarative."""
    made = Attributes()
    structs = structs_with_helpers(made, n)
    return Input(made.macro("Serialize", styles=["derive"], helpers=["serde"]), *structs, entries=made.entries, path=f"impl_s{n - 1}")


def helpers_around_derives(n):
    """A helper above its derive and one below it."""
    made = Attributes()
    structs = structs_with_helpers(made, n, below=True)
    return Input(made.macro("Serialize", styles=["derive"], helpers=["serde"]), *structs, entries=made.entries, path=f"impl_s{n - 1}")


def helpers_above_builtin_derives(n):
    """A helper above its derive, which is builtin."""
    made = Attributes()
    macro = made.macro("Default", expander="builtin_derive", helpers=["default"])
    structs = [made.under(made.struct(f"s{k}"), "default", made.derive("Default")) for k in range(n)]
    return Input(macro, *structs, path=f"s{n - 1}")


def helpers_above_procedural_derives(n):
    """A helper above its derive, which another crate has as a procedural macro."""
    made = Attributes()
    exporting = {**made.function("derive_serialize"), "attrs": [{"path": "proc_macro_derive", "derive": "Serialize", "helpers": ["serde"]}]}
    structs = [with_input(made, f"s{k}", "serde", made.derive("Serialize")) for k in range(n)]
    for struct in structs:
        key = {"caller": 1, "crate": 0, "text": "Serialize", "call": "derive", "input": struct["name"]}
        made.entries.append({"do": "set expansion", "key": key, "unit": {"nodes": [made.struct("impl_" + struct["name"])]}})
    crates = [{**EDITION, "root": "serde.rs", "proc_macro": True}, {**EDITION, "root": "lib.rs", "deps": [{"name": "serde_derive", "crate": 0}]}]
    nodes = [made.use("serde_derive::Serialize"), *structs]
    return Input(*nodes, entries=made.entries, crates=crates, files=[Input.file("serde.rs", [exporting])], at=[1], path=f"impl_s{n - 1}")


def unknown_helpers_beside_rounds(n):
    """n structs under an attribute that nothing brings on them, beside n that come by a round each and have it by a derive."""
    made = Attributes()
    unknown = [made.under(made.struct(f"u{k}"), "serde") for k in range(n)]
    derived = [with_input(made, f"s{k}", made.derive("Serialize"), "serde") for k in range(n)]
    for k, struct in enumerate(derived):
        made.expand_derive("Serialize", struct, made.struct("impl_" + struct["name"]))
        made.expand(f"m{k}", "", *([made.rules(f"m{k - 1}")] if k else []), struct)
    nodes = [made.macro("Serialize", styles=["derive"], helpers=["serde"]), *unknown]
    nodes += [made.call(f"m{k}") for k in range(n)] + [made.rules(f"m{n - 1}")]
    return Input(*nodes, entries=made.entries, path="impl_s0")


# ---- what is defined again

def structs_defined_again(n):
    """n structs of one name, each under an attribute that nothing defines, beside n imports of it."""
    made = Attributes()
    structs = [made.under(made.struct("S"), "nope") for _ in range(n)]
    return Input(*structs, *(made.use("self::S", f"y{k}") for k in range(n)), path=f"y{n - 1}")


def modules_defined_again(n):
    """n modules of one name, each under an attribute that nothing defines, beside n imports through it."""
    made = Attributes()
    modules = [made.under(made.module("a", made.struct(f"x{k}")), "nope") for k in range(n)]
    return Input(*modules, *(made.use(f"a::x{k}") for k in range(n)), path="x0")


def structs_called_again(n):
    """n structs of one name, each from a call that the one before it defines, beside n imports of it."""
    made = Attributes()
    for k in range(n):
        made.expand(f"m{k}", "", *([made.rules(f"m{k - 1}")] if k else []), made.struct("S"))
    nodes = [made.call(f"m{k}") for k in range(n)] + [made.rules(f"m{n - 1}")]
    return Input(*nodes, *(made.use("self::S", f"y{k}") for k in range(n)), entries=made.entries, path=f"y{n - 1}")


# ---- changes of what is in scope without a name

def imports_of_one_struct(made, n):
    return [made.struct("S"), *(made.use("self::S", f"y{k}") for k in range(n))]


def in_a_chain_of_calls(made, n, brought):
    """n calls, the macro of each defined by the expansion of the one behind it, beside what `brought` makes of its number."""
    for k in range(n):
        made.expand(f"m{k}", "", *([made.rules(f"m{k - 1}")] if k else []), *brought(k))
    return [made.call(f"m{k}") for k in range(n)] + [made.rules(f"m{n - 1}")]


def module_with_macro_use(made, k, *nodes):
    return made.under(made.module(f"q{k}", *nodes), "macro_use")


def modules_with_macro_use(n):
    """n modules with `macro_use` and without a macro, each under an attribute that nothing defines, beside n imports."""
    made = Attributes()
    modules = [made.under(made.module(f"q{k}"), "nope", "macro_use") for k in range(n)]
    return Input(*modules, *imports_of_one_struct(made, n), path=f"y{n - 1}")


def modules_with_macros_of_their_own(n):
    """The same where each module has a macro of its own."""
    made = Attributes()
    modules = [made.under(made.module(f"q{k}", made.rules(f"r{k}")), "nope", "macro_use") for k in range(n)]
    return Input(*modules, *imports_of_one_struct(made, n), path=f"y{n - 1}")


def called_modules_with_macro_use(n):
    """n modules with `macro_use`, each from a call that the one before it defines, beside n imports."""
    made = Attributes()
    calls = in_a_chain_of_calls(made, n, lambda k: [module_with_macro_use(made, k)])
    return Input(*calls, *imports_of_one_struct(made, n), entries=made.entries, path=f"y{n - 1}")


def modules_behind_macros(n):
    """n macros, and behind them n modules with `macro_use` and without a macro of their own."""
    made = Attributes()
    macros = [made.rules(f"r{k}") for k in range(n)]
    return Input(*macros, *(module_with_macro_use(made, k) for k in range(n)), made.struct("S"), path="S")


def beside_a_crate_of_macros(made, nodes, path):
    """A session of a crate with a macro, and one with these nodes that depends on it as `d`."""
    exported = made.under(made.rules("exported"), "macro_export")
    for entry in made.entries:
        entry["key"].update(caller=1, crate=1)
    crates = [{**EDITION, "root": "d.rs"}, {**EDITION, "root": "lib.rs", "deps": [{"name": "d", "crate": 0}]}]
    return Input(*nodes, entries=made.entries, crates=crates, files=[Input.file("d.rs", [exported])], at=[1], path=path)


def called_crates_with_macro_use(n):
    """n items `extern crate` with `macro_use`, each from a call that the one before it defines, beside n imports."""
    made = Attributes()
    brought = lambda k: [made.under({**made.make("ExternCrate", name="d"), "as": f"d{k}"}, "macro_use")]
    return beside_a_crate_of_macros(made, [*in_a_chain_of_calls(made, n, brought), *imports_of_one_struct(made, n)], f"y{n - 1}")


# ---- one name that changes often and has many readers

def attribute_macro(made, name):
    return made.macro(name, styles=["attr"])


def calls_of_an_attribute(n):
    """n calls `w!`, beside n rounds that each define `w` for attributes alone."""
    made = Attributes()
    rounds = in_a_chain_of_calls(made, n, lambda k: [attribute_macro(made, "w")])
    return Input(*(made.call("w") for _ in range(n)), *rounds, made.struct("S"), entries=made.entries, path="S")


def calls_of_a_textual_attribute(n):
    """The same where each round defines it by `macro_rules!`."""
    made = Attributes()
    rounds = in_a_chain_of_calls(made, n, lambda k: [made.rules("w", styles=["attr"])])
    return Input(*(made.call("w") for _ in range(n)), *rounds, made.struct("S"), entries=made.entries, path="S")


def attributes_of_a_textual_name(n):
    """n structs under an attribute `w`, beside n rounds that each define `w` by `macro_rules!` for calls alone."""
    made = Attributes()
    rounds = in_a_chain_of_calls(made, n, lambda k: [made.rules("w")])
    structs = [made.under(made.struct(f"S{k}"), "w") for k in range(n)]
    return Input(*structs, *rounds, entries=made.entries, path=f"S{n - 1}")


def derives_of_a_textual_name(n):
    """n structs with a derive `w`, beside n rounds that each define `w` by `macro_rules!` for calls alone."""
    made = Attributes()
    rounds = in_a_chain_of_calls(made, n, lambda k: [made.rules("w")])
    structs = [made.under(made.struct(f"S{k}"), made.derive("w")) for k in range(n)]
    return Input(*structs, *rounds, entries=made.entries, path=f"S{n - 1}")


def imports_through_a_called_name(n):
    """n imports through a module `w` that isn't there, beside n rounds that each define a macro `w`."""
    made = Attributes()
    rounds = in_a_chain_of_calls(made, n, lambda k: [made.macro("w")])
    return Input(*(made.use(f"self::w::x{k}") for k in range(n)), *rounds, made.struct("S"), entries=made.entries, path="S")


def globs_of_a_called_name(n):
    """n globs of a module `w` that isn't there, each in a module of its own, beside n rounds that each define a macro `w`."""
    made = Attributes()
    rounds = in_a_chain_of_calls(made, n, lambda k: [made.macro("w")])
    modules = [made.module(f"q{k}", made.glob("super::w")) for k in range(n)]
    return Input(*modules, *rounds, made.struct("S"), entries=made.entries, path="S")


def imports_through_a_crate(n):
    """n imports of what a crate doesn't have, through a name that each of n rounds gives it anew."""
    made = Attributes()
    rounds = in_a_chain_of_calls(made, n, lambda k: [{**made.make("ExternCrate", name="d"), "as": "w"}])
    imports = [made.use(f"self::w::x{k}") for k in range(n)]
    return beside_a_crate_of_macros(made, [*imports, *rounds, made.struct("S")], "S")


# ---- many globs of one source

def globs_of_one_enum(n):
    """n globs of one enum of n variants, in one module."""
    made = Attributes()
    variants = [{"id": [k % 65536, k // 65536], "name": f"V{k}", "shape": "unit"} for k in range(n)]
    return Input(made.make("Enum", name="E", variants=variants), *(made.glob("E") for _ in range(n)), made.struct("S"), path="S")


def globs_of_another_crate(n):
    """n globs of one module of another crate with n structs, in one module."""
    made = Attributes()
    names = made.module("m", *(made.struct(f"X{k}") for k in range(n)))
    crates = [{**EDITION, "root": "d.rs"}, {**EDITION, "root": "lib.rs", "deps": [{"name": "d", "crate": 0}]}]
    globs = [made.glob("d::m") for _ in range(n)]
    return Input(*globs, crates=crates, files=[Input.file("d.rs", [names])], at=[1], path=f"X{n - 1}")


def globs_of_one_module(n):
    """n globs of one module of the same crate with n structs, in one module."""
    made = Attributes()
    names = made.module("m", *(made.struct(f"X{k}") for k in range(n)))
    return Input(names, *(made.glob("m") for _ in range(n)), path=f"X{n - 1}")


# ---- lists that are gone through

def registered_tools(n):
    """n names of `register_tool`, and n structs, each under an attribute of one of them."""
    made = Attributes()
    tools = {"path": "register_tool", "paths": [f"t{k}" for k in range(n)]}
    structs = [made.under(made.struct(f"S{k}"), f"t{k}::x") for k in range(n)]
    return Input(*structs, crates=[{**EDITION, "root": "lib.rs", "attrs": [tools]}], path=f"S{n - 1}")


def helpers_of_one_struct(n):
    """A derive with n helpers, and a struct under it and n attributes, each of which is one of them."""
    made = Attributes()
    names = [f"h{k}" for k in range(n)]
    struct = with_input(made, "S", made.derive("D"), *names)
    made.expand_derive("D", struct)
    return Input(made.macro("D", styles=["derive"], helpers=names), struct, entries=made.entries, path="S")


# ---- blocks

def block_of_imports(n):
    """A block with n imports of what a module of its crate has."""
    made = Attributes()
    names = made.module("m", *(made.struct(f"S{k}") for k in range(n)))
    uses = [made.use(f"crate::m::S{k}", f"T{k}") for k in range(n)]
    return Input(names, blocks=[([0, block(1)], uses)], at=[0, block(1)], path=f"T{n - 1}")


def block_of_a_chain(n):
    """A block with n imports, each of the name that the one behind it binds."""
    made = Attributes()
    uses = [made.use(f"x{k + 1}", f"x{k}") for k in range(n)]
    return Input(blocks=[([0, block(1)], [*uses, made.struct(f"x{n}")])], at=[0, block(1)], path="x0")


def block_of_calls(n):
    """A block with n calls of one macro, each of which defines a struct."""
    made = Attributes()
    calls = [made.call("m", str(k)) for k in range(n)]
    for k in range(n):
        made.expand("m", str(k), made.struct(f"S{k}"))
    return Input(made.rules("m"), entries=made.entries, blocks=[([0, block(1)], calls)], at=[0, block(1)], path=f"S{n - 1}")


def block_of_called_calls(n):
    """A block with n calls, the macro of each defined by the expansion of the one behind it."""
    made = Attributes()
    for k in range(n):
        made.expand(f"m{k}", "", made.rules(f"m{k - 1}") if k else made.struct("S"))
    inside = [made.call(f"m{k}") for k in range(n)] + [made.rules(f"m{n - 1}")]
    return Input(entries=made.entries, blocks=[([0, block(1)], inside)], at=[0, block(1)], path="S")


def block_of_attributes(n):
    """A block with n structs, each under an attribute that nothing defines."""
    made = Attributes()
    structs = [made.under(made.struct(f"S{k}"), f"no{k}") for k in range(n)]
    return Input(blocks=[([0, block(1)], structs)], at=[0, block(1)], path=f"S{n - 1}")


# ---- long texts and paths

def calls_of_a_long_macro(n):
    """n calls of a macro whose text has a million bytes."""
    made = Attributes()
    return Input(made.rules("m", "x" * 1_000_000), *(made.call("m", str(k)) for k in range(n)), made.struct("S"), path="S")


def derives_of_a_long_struct(n):
    """n derives on a struct whose input has a million bytes."""
    made = Attributes()
    names = [f"D{k}" for k in range(n)]
    struct = {**made.under(made.struct("S"), made.derive(*names)), "input": "x" * 1_000_000}
    return Input(*(made.macro(name, styles=["derive"]) for name in names), struct, path="S")


def leaves_of_long_paths(n):
    """n leaves in 24 lists in one another, each list behind a path of 64 segments."""
    made = Attributes()
    tree = {"list": [{"single": f"x{k}"} for k in range(n)]}
    for k in range(24):
        tree = {"path": "::".join(f"a{k}_{i}" for i in range(64)), "list": [tree] if k else tree["list"]}
    return Input(made.make("Use", tree=tree), made.struct("S"), path="S")


def edited_inputs(n):
    """A call of a macro of 20,000 bytes, whose input is edited n times, with a refresh behind each edit."""
    made = Attributes()
    macro, call, struct = made.rules("m", "x" * 20_000), made.call("m"), made.struct("S")
    edits = [Input.file("lib.rs", [macro, {**call, "input": str(k)}, struct]) for k in range(n)]
    return Input(macro, call, struct, edits=with_refreshes(edits), path="S")


def edited_macro_texts(n):
    """Ten calls of a macro of 20,000 bytes, whose text is edited n times, with a refresh behind each edit."""
    made = Attributes()
    macro, struct = made.rules("m", "x" * 20_000), made.struct("S")
    calls = [made.call("m", str(k)) for k in range(10)]
    edits = [Input.file("lib.rs", [{**macro, "text": str(k).ljust(20_000, "x")}, *calls, struct]) for k in range(n)]
    return Input(macro, *calls, struct, edits=with_refreshes(edits), path="S")


def small_objects(n):
    """A line of n thousand objects of one key, in a field that isn't known."""
    made = Attributes()
    padding = {"do": "status", "at": [0], "padding": [{"": 0}] * (1000 * n)}
    return Input(made.struct("S"), edits=[padding], path="S")


def modules_below_a_long_path(n):
    """n modules without files, in a module whose directory is a text of a million bytes; what isn't resolved is listed."""
    made = Attributes()
    path = {"path": "path", "literal": "x" * 1_000_000}
    around = made.under(made.module("m", *(made.make("Module", name=f"b{k}") for k in range(n))), path)
    return Input(around, made.struct("S"), path="S", asks=[{"do": "diagnostics", "crate": 0}])


def modules_below_long_names(n):
    """n modules without files, in 30 modules in one another with names of 1,000 bytes; what isn't resolved is listed."""
    made = Attributes()
    inside = [made.make("Module", name=f"b{k}") for k in range(n)]
    for k in range(30):
        inside = [made.module(str(k).ljust(1000, "x"), *inside)]
    return Input(*inside, made.struct("S"), path="S", asks=[{"do": "diagnostics", "crate": 0}])


def diagnostics_of_nested_calls(n):
    """n calls in one another, with an import that reaches nothing in each; what isn't resolved is listed."""
    made = Attributes()
    for k in range(n):
        made.expand("m", str(k), made.use(f"gone{k}"), *([made.call("m", str(k - 1))] if k else []))
    crates = [{**EDITION, "root": "lib.rs", "attrs": [{"path": "recursion_limit", "literal": str(n + 1)}]}]
    nodes = [made.rules("m"), made.call("m", str(n - 1)), made.struct("S")]
    return Input(*nodes, crates=crates, entries=made.entries, path="S", asks=[{"do": "diagnostics", "crate": 0}])


def modules_under_a_long_condition(n):
    """n modules of one file under a false condition of 100,000 bytes; what isn't resolved is listed."""
    made = Attributes()
    condition = {"path": "cfg", "cfg": {"all": [{"key": "feature", "value": str(k).ljust(1000, "x")} for k in range(100)]}}
    file = {"do": "set file", "file": "f.rs", "unit": {"attrs": [condition], "nodes": []}}
    modules = [made.under(made.make("Module", name=f"b{k}"), {"path": "path", "literal": "f.rs"}) for k in range(n)]
    return Input(*modules, made.struct("S"), files=[file], path="S", asks=[{"do": "diagnostics", "crate": 0}])


def with_refreshes(edits):
    """Edits, with a refresh before each of them."""
    return [command for edit in edits for command in ({"do": "refresh"}, edit)]


# ---- what grows without end

def file_of_itself_twice():
    """A file whose modules are itself, twice: 2^32 modules. Then the same file without them."""
    made = Attributes()
    modules = [made.under(made.make("Module", name=name), {"path": "path", "literal": "lib.rs"}) for name in ("a", "b")]
    return Input(*modules, made.struct("S"), edits=[Input.file("lib.rs", [made.struct("S")])], path="S")


def expansion_of_two_calls():
    """An expansion that holds two calls of itself: 2^128 of them. Then without it."""
    made = Attributes()
    made.expand("m", "", made.call("m"), made.call("m"))
    remove = {"do": "remove expansion", "key": made.entries[0]["key"]}
    return Input(made.rules("m"), made.call("m"), made.struct("S"), entries=made.entries, edits=[remove], path="S")


INPUTS = {
    helpers_above_derives: 1000,
    helpers_around_derives: 1000,
    helpers_above_builtin_derives: 1000,
    helpers_above_procedural_derives: 1000,
    unknown_helpers_beside_rounds: 1000,
    structs_defined_again: 1000,
    modules_defined_again: 1000,
    structs_called_again: 1000,
    modules_with_macro_use: 1000,
    modules_with_macros_of_their_own: 1000,
    called_modules_with_macro_use: 1000,
    modules_behind_macros: 1000,
    called_crates_with_macro_use: 1000,
    calls_of_an_attribute: 1000,
    calls_of_a_textual_attribute: 1000,
    attributes_of_a_textual_name: 1000,
    derives_of_a_textual_name: 1000,
    imports_through_a_called_name: 1000,
    globs_of_a_called_name: 1000,
    imports_through_a_crate: 1000,
    globs_of_one_enum: 500,
    globs_of_another_crate: 500,
    globs_of_one_module: 500,
    registered_tools: 8000,
    helpers_of_one_struct: 8000,
    block_of_imports: 1000,
    block_of_a_chain: 1000,
    block_of_calls: 1000,
    block_of_called_calls: 1000,
    block_of_attributes: 1000,
}
LONG_TEXTS = {
    calls_of_a_long_macro: 100,
    derives_of_a_long_struct: 100,
    leaves_of_long_paths: 4000,
    edited_inputs: 1000,
    edited_macro_texts: 1000,
    small_objects: 500,
    modules_below_a_long_path: 25,
    modules_below_long_names: 250,
    diagnostics_of_nested_calls: 500,
    modules_under_a_long_condition: 250,
}
# Inputs of no size, which are refused for want of memory. Their edits mend them.
ENDLESS = [file_of_itself_twice, expansion_of_two_calls]
ENOUGH = 100_000_000


def timed(program, made, n, tries):
    """Prints what an input takes at a size, at twice and at four times that."""
    rows = []
    for size in (n, 2 * n, 4 * n):
        parts = made(size).parts()
        commands = [command for part in parts for command in part]
        taken = []
        for _ in range(tries):
            seconds, replies = run_parts(program, parts)
            if '"kind":"Struct"' not in replies[len(parts[0]) + len(parts[1])]:
                sys.exit(f"{made.__name__} {size}: {replies[len(parts[0]) + len(parts[1])][:300]}")
            taken.append(seconds[1:])
        refreshed, asked = (min(times) for times in zip(*taken))
        most = memory(program, commands)
        line, reply = max(len(text([command])) for command in commands), max(map(len, replies))
        rows.append((refreshed, asked, most, line / 1e6, reply / 1e6))
    ratios = ", ".join(f"{later[0] / before[0]:.2f}" for before, later in zip(rows, rows[1:]))
    refreshes, asks, most, lines, replies = (", ".join(form.format(it) for it in column) for form, column in zip(
        ("{:.3f}", "{:.3f}", "{:.0f}", "{:.2f}", "{:.2f}"), zip(*rows)))
    print(f"{made.__name__}: {n}: {refreshes} s, ratios {ratios}; asked {asks} s; {most} MB; lines {lines} MB; replies {replies} MB", flush=True)


def alike(program, made, n):
    """Compares what the program answers of an input with what the plain model does."""
    sys.path.insert(0, os.path.join(os.path.dirname(os.path.realpath(__file__)), "..", "tools"))
    from model.syntax import dump
    from model.workspace import Workspace

    it = made(n)
    places = [[number] for number in range(len(it.crates))] + [command["at"] for command in it.sets if command["do"] == "set block"]
    asks = [{"do": "dump", "at": place} for place in places]
    asks += [{"do": "diagnostics", "crate": number} for number in range(len(it.crates))]
    begin = [*it.begin(), *it.edits]
    commands = [*begin, {"do": "refresh"}, {"do": "resolve", "at": it.at, "path": it.path}, *asks, *it.asks]
    ran = subprocess.run([program], input="".join(dump(command) + "\n" for command in commands), capture_output=True, text=True)
    replies, workspace = ran.stdout.splitlines(), Workspace()
    for command, reply in zip(commands, replies + [""] * len(commands)):
        wanted = workspace.reply(command)
        if reply == "" or json.loads(reply) != json.loads(dump(wanted)):
            sys.exit(f"{made.__name__} {n}: {dump(command)[:300]}\n  answered {reply}\n  wanted   {dump(wanted)}")
    if '"kind":"Struct"' not in replies[len(begin) + 1]:
        sys.exit(f"{made.__name__} {n}: {it.path} is {replies[len(begin) + 1]}")
    print(f"{made.__name__}: {n}: as the model", flush=True)


def refused(program, made):
    """Prints what a refresh takes that is refused for want of memory; after an edit another one has to resolve the rest."""
    it = made()
    parts = [it.begin(), [{"do": "refresh"}], [*it.edits, {"do": "refresh"}, {"do": "resolve", "at": it.at, "path": it.path}]]
    seconds, replies = run_parts(["prlimit", f"--data={ENOUGH}", program], parts)
    if replies[len(parts[0])].strip() != '{"error":"memory"}' or '"kind":"Struct"' not in replies[-1]:
        sys.exit(f"{made.__name__}: {replies}")
    print(f"{made.__name__}: refused after {seconds[1]:.3f} s with {ENOUGH // 1_000_000} MB; mended and resolved in {seconds[2]:.3f} s", flush=True)


def main():
    parser = argparse.ArgumentParser()
    parser.add_argument("--program", default=SESSION)
    parser.add_argument("--model", action="store_true")
    parser.add_argument("--tries", type=int, default=3)
    parser.add_argument("name", nargs="?")
    parser.add_argument("sizes", nargs="*", type=int)
    options = parser.parse_args()
    sys.setrecursionlimit(100000)
    for made, usual in {**INPUTS, **LONG_TEXTS}.items():
        if options.name in (None, made.__name__):
            for n in options.sizes or ([1, 2, 3, 7] if options.model else [usual]):
                if options.model:
                    alike(options.program, made, n)
                else:
                    timed(options.program, made, n, options.tries)
    for made in [] if options.model else ENDLESS:
        if options.name in (None, made.__name__):
            refused(options.program, made)


if __name__ == "__main__":
    main()
