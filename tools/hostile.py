#!/usr/bin/env python3
"""Runs large hostile inputs, and compares each reply with what the rules give for it, computed beside the input.

Usage, at the top of the repository: tools/hostile.py [--program FILE] [--megabytes M] [NAME [n]]. Without a name it runs each of
INPUTS, at the size that stands there. The program's data may be M megabytes (4,000). Small inputs of these shapes stand
among the sessions of crates/hir_session_rows. It ends with 1 if a reply was another one.
"""
import argparse
import json
import os
import resource
import subprocess
import sys
import tempfile

from program_runs import line, program_of

OK, NOTHING, CURRENT, UNKNOWN = {"ok": None}, {"ok": {"macros": None, "stop": None, "types": None, "values": None}}, {"ok": "current"}, {"ok": "unknown"}
REFRESH, ROOT = {"do": "refresh"}, {"crate": 0, "kind": "CrateRoot"}
PRIVATE = {"explicit": False, "module": ROOT}


def too_large(what):
    return {"error": "too large", "what": what}


def block(number):
    return {"block": [number, 0]}


def node(kind, number, name=None, **fields):
    return {"kind": kind, "id": [number % 65536, number // 65536], **({} if name is None else {"name": name}), **fields}


def crates(*given, **fields):
    return {"do": "crates", "crates": [{"edition": "2021", **it} for it in given or ({"root": "lib.rs", **fields},)]}


def set_file(file, *nodes):
    return {"do": "set file", "file": file, "unit": {"nodes": list(nodes)}}


def set_block(at, *nodes):
    return {"do": "set block", "at": at, "unit": {"nodes": list(nodes)}}


def expansion(text, given, *nodes, call="bang"):
    return {"do": "set expansion", "key": {"caller": 0, "crate": 0, "text": text, "call": call, "input": given}, "unit": {"nodes": list(nodes)}}


def resolve(path, *at):
    return {"do": "resolve", "at": list(at) or [0], "path": path}


def status(*at):
    return {"do": "status", "at": list(at)}


def diagnostics(krate=0):
    return {"do": "diagnostics", "crate": krate}


def is_bound(definition, by=None, vis=PRIVATE, kinds=("types", "values")):
    """The answer for a path that reaches one thing, in these namespaces."""
    binding = {"def": definition, "import": by, "vis": vis}
    return {"ok": {"macros": None, "stop": None, **{kind: binding if kind in kinds else None for kind in ("types", "values")}}}


def item(kind, number, *where, krate=0):
    return {"crate": krate, "id": [number, 0], "in": list(where), "kind": kind}


def limit_of(count):
    return {"attrs": [{"path": "recursion_limit", "literal": str(count)}]}


# ---- blocks

def blocks_edited_one_by_one(n):
    """n blocks of one module: an edit of each resolves that one alone; the loss of its crate's file resolves all."""
    places = [[0, block(k)] for k in range(1, n + 1)]
    yield crates(), OK
    yield set_file("lib.rs", node("Struct", 1, "S")), OK
    for place in places:
        yield set_block(place, node("Struct", 1, "A")), OK
    yield REFRESH, {"ok": [[0], *places]}
    for k, place in enumerate(places):
        yield set_block(place, node("Struct", 1, "S")), OK
        yield status(0), CURRENT
        yield status(*place), {"ok": "stale"}
        yield REFRESH, {"ok": [place]}
        root = {"crate": 0, "in": [place], "kind": "BlockExpr"}
        yield resolve("S", *place), is_bound(item("Struct", 1, place), vis={"explicit": False, "module": root})
        if k % 2:
            yield set_block(place, node("Struct", 1, "S")), OK
            yield REFRESH, {"ok": []}
    yield {"do": "remove file", "file": "lib.rs"}, OK
    yield REFRESH, {"ok": [[0], *places]}
    for place in places:
        yield {"do": "remove block", "at": place}, OK
    yield REFRESH, {"ok": []}


def by_nesting(place):
    """The order in which blocks are resolved: by how many are around one, and then by place, step by step, names before blocks."""
    steps = [(1, *it["block"]) if isinstance(it, dict) else (0, it.encode()) for it in place[1:]]
    return sum(step[0] for step in steps), place[0], steps


def many_blocks(n):
    """n blocks in a hundred modules, every tenth in the one before it, and then 16 in one another; a block in the last of these is
    refused, as are other wrong places and a repeated id, and none of these changes anything."""
    yield crates(), OK
    yield set_file("lib.rs", *(node("Module", k, f"m{k}", nodes=[]) for k in range(100))), OK
    places = []
    for k in range(n):
        places.append((places[-1] if k % 10 == 9 else [0, f"m{k // 10 % 100}"]) + [block(k)])
        yield set_block(places[-1], node("Struct", 1, "S")), OK
    yield REFRESH, {"ok": [[0], *sorted(places, key=by_nesting)]}
    for place in places:
        yield resolve("S", *place), is_bound(item("Struct", 1, place), vis={"explicit": False, "module": {"crate": 0, "in": [place], "kind": "BlockExpr"}})
    inner = [[0, *(block(k) for k in range(depth))] for depth in range(1, 18)]
    for place in inner[:16]:
        yield set_block(place, node("Struct", 1, "S")), OK
    yield set_block(inner[16], node("Struct", 1, "S")), too_large("blocks")
    yield {"do": "remove block", "at": inner[16]}, too_large("blocks")
    yield set_block([0, {"block": [0, 2048]}], node("Struct", 1, "S")), too_large("index")
    yield set_block([1, block(0)], node("Struct", 1, "S")), {"error": "unknown crate"}
    yield set_block([0, "m0"], node("Struct", 1, "S")), {"error": "command"}
    yield set_block(places[0], node("Struct", 1, "A"), node("Struct", 1, "B")), {"error": "duplicate id", "id": [1, 0], "kind": "Struct"}
    yield status(*places[0]), CURRENT
    yield REFRESH, {"ok": inner[:16]}
    yield status(*inner[15]), CURRENT
    yield status(*inner[16]), UNKNOWN
    yield set_block(inner[16], node("Struct", 1, "S")), too_large("blocks")
    yield REFRESH, {"ok": []}
    yield set_file("lib.rs", *(node("Module", k, f"m{k}", nodes=[]) for k in range(1, 100))), OK
    yield REFRESH, {"ok": [[0], *sorted((it for it in places + inner[:16] if it[1] != "m0"), key=by_nesting)]}
    yield status(*places[0]), UNKNOWN


def globs_of_a_ring_in_blocks(n):
    """n modules that each glob the next, the last the first, with a block in each that globs the next."""
    yield crates(), OK
    modules = []
    for k in range(n):
        inside = [node("Use", 2 * n + k, vis="pub", tree={"glob": f"crate::m{(k + 1) % n}"})]
        modules.append(node("Module", k, f"m{k}", nodes=inside + ([node("Fn", 1, "x", body="", vis="pub")] if k == 0 else [])))
    yield set_file("lib.rs", *modules), OK
    places = [[0, f"m{k}", block(1)] for k in range(n)]
    for k, place in enumerate(places):
        yield set_block(place, node("Use", 1, tree={"glob": f"crate::m{(k + 1) % n}"})), OK
    yield REFRESH, {"ok": [[0], *sorted(places, key=lambda place: place[1].encode())]}
    for k, place in enumerate(places):
        by = {"id": [1, 0], "in": [place], "kind": "glob", "place": 0}
        vis = {"explicit": False, "module": {"crate": 0, "in": [place], "kind": "BlockExpr"}}
        yield resolve("x", *place), is_bound(item("Fn", 1, "lib.rs"), by, vis, ("values",))


# ---- macro calls

def call_at(number, *around):
    return {"id": [number, 0], "in": ["lib.rs", *({"id": [it, 0], "kind": "MacroCall"} for it in around)], "kind": "MacroCall"}


def lists_of_nested_expansions(n, is_one=False):
    """A trait and an impl, each with a call whose expansion holds a function and the next call, to the limit of recursion n and past it."""
    yield crates(**({} if n == 128 else limit_of(n))), OK
    makes = node("MacroRules", 1, "foo", text="A")
    trait = node("Trait", 2, "T", items=[node("MacroCall", 3, path="foo", input="0")])
    yield set_file("lib.rs", makes, trait, node("Impl", 4, trait=False, items=[node("MacroCall", 5, path="foo", input="0")])), OK
    for k in range(1 if is_one else n + 10):
        yield expansion("A", str(k), node("Fn", 1, f"f{k}", body=""), node("MacroCall", 2, path="foo", input="0" if is_one else str(k + 1))), OK
    yield REFRESH, {"ok": [[0]]}
    for first, ask in (3, {"do": "trait items", "at": [0], "path": "T"}), (5, {"do": "impl items", "at": [0], "impl": 0}):
        around = [first] + [2] * n
        calls = [call_at(around[k], *around[:k]) for k in range(n)]
        items = []
        for k in range(n):
            where = call_at(1, *around[: k + 1])["in"]
            items.append({"def": {"id": [1, 0], "in": where, "kind": "Fn"}, "name": "f0" if is_one else f"f{k}"})
        yield ask, {"ok": {"calls": calls, "diagnostics": [], "items": items}}
    yield diagnostics(), {"ok": []}


def list_that_names_itself(n):
    """The same with one expansion, whose call names itself."""
    return lists_of_nested_expansions(n, True)


def modules_by_each_macro(n):
    """n modules in one another, with a call, a derive and an attribute of a macro of each kind in the innermost. Each expansion
    holds a module with a struct in it and a module whose file is there: below 32 modules neither has items."""
    def named(kind, number, name, **fields):
        return node(kind, number, name, text=name, vis="pub", **fields)

    declarative = [named("MacroRules", 1, "r"), *(named("MacroDef", 2 + k, style[0], styles=[style]) for k, style in enumerate(["bang", "attr", "derive"]))]
    expanders = ["builtin", "builtin_eager", "builtin_attr", "builtin_derive", "unimplemented"]
    builtin = [named("MacroDef", 5 + k, f"m{k}", expander=expander) for k, expander in enumerate(expanders)]
    ways = [("r", "bang"), ("b", "bang"), ("m0", "bang"), ("m1", "bang"), ("m4", "bang"), ("a", ["attr", 0]), ("m4", ["attr", 0]), ("d", "derive"), ("m4", "derive")]
    inner, entries = [], []
    for k, (macro, way) in enumerate(ways):
        path = macro if macro == "r" else "crate::" + macro
        if way == "bang":
            inner.append(node("MacroCall", 100 + k, path=path, input="k"))
        else:
            attribute = {"path": "derive", "paths": [path]} if way == "derive" else {"path": path}
            inner.append(node("Struct", 100 + k, f"S{k}", input="k", attrs=[attribute]))
        held = node("Module", 1, f"in{k}", nodes=[node("Struct", 1, "S")])
        entries.append(expansion(macro, "k", held, node("Module", 2, f"f{k}"), call=way))
    inner.append(node("Struct", 200, "T", attrs=[{"path": "crate::m2"}]))
    inner.append(node("Struct", 201, "U", attrs=[{"path": "derive", "paths": ["crate::m3"]}]))
    for k in reversed(range(n)):
        inner = [node("Module", k, "m", nodes=inner)]
    yield crates(), OK
    yield set_file("lib.rs", *declarative, *builtin, *inner), OK
    files = ["m/" * n + f"f{k}" for k in range(len(ways))]
    for file, entry in zip(files, entries):
        yield set_file(file + ".rs", node("Struct", 1, "S")), OK
        yield entry, OK
    yield REFRESH, {"ok": [[0]]}
    place, last = [0] + ["m"] * n, {**item("Module", n - 1, "lib.rs")} if n else ROOT
    own, told = {"explicit": False, "module": last}, []
    for k, (macro, way) in enumerate(ways):
        call = {"id": [100 + k, 0], "kind": "MacroCall" if way == "bang" else "Struct"}
        call.update({"attr": 0} if way != "bang" else {}, **({"derive": 0} if way == "derive" else {}))
        held, filed = item("Module", 1, "lib.rs", call), item("Module", 2, "lib.rs", call)
        yield resolve(f"in{k}", *place), is_bound(held, vis=own, kinds=("types",))
        yield resolve(f"f{k}", *place), is_bound(filed, vis=own, kinds=("types",))
        yield resolve("S", *place, f"in{k}"), is_bound(item("Struct", 1, "lib.rs", call), vis={"explicit": False, "module": held}) if n < 32 else NOTHING
        yield resolve("S", *place, f"f{k}"), is_bound(item("Struct", 1, files[k] + ".rs"), vis={"explicit": False, "module": filed}) if n < 32 else NOTHING
        if way != "bang":
            # an attribute's item is replaced, a derive's isn't
            yield resolve(f"S{k}", *place), is_bound(item("Struct", 100 + k, "lib.rs"), vis=own) if way == "derive" else NOTHING
        lost = {key: it for key, it in filed.items() if key != "crate"}
        told.append({"candidates": [files[k] + ".rs", files[k] + "/mod.rs"], "item": lost, "kind": "unresolved module", "module": last})
    for k, name in ((200, "T"), (201, "U")):
        yield resolve(name, *place), is_bound(item("Struct", k, "lib.rs"), vis=own)
    unimplemented = {"item": {"id": [9, 0], "in": ["lib.rs"], "kind": "MacroDef"}, "kind": "unimplemented builtin macro", "module": ROOT}
    yield diagnostics(), {"ok": [unimplemented, *(told if n == 32 else [])]}


def each_depth_of_modules(n):
    for depth in (n - 1, n):
        yield from modules_by_each_macro(depth)
        yield None, None


def ring_of_macro_use(n):
    """n files, each the module of the one before it, with `macro_use`, and the last with the first. Each defines a macro before its
    module, and behind it calls the one that the module has given back. The 33rd module's file isn't taken."""
    def ring(k):
        after = (k + 1) % n
        module = node("Module", 1, "m", vis="pub", attrs=[{"path": "macro_use"}, {"path": "path", "literal": f"f{after}.rs"}])
        return node("MacroRules", 1, f"a{k}", text=f"A{k}"), module, node("MacroCall", 1, path=f"a{after}", input="")

    yield crates({"root": "f0.rs"}), OK
    for k in range(n):
        yield set_file(f"f{k}.rs", *ring(k)), OK
        yield expansion(f"A{k}", "", node("Struct", 1, f"S{k}", vis="pub")), OK
    yield REFRESH, {"ok": [[0]]}
    # where the ring is shorter, the module that isn't taken has had its macro from the one before
    deepest = 32 if n < 34 else 31
    for depth in range(33):
        after, where = (depth + 1) % n, [f"f{depth % n}.rs", {"id": [1, 0], "kind": "MacroCall"}]
        yield resolve("m::" * depth + f"S{after}"), is_bound(item("Struct", 1, *where), vis="pub") if depth <= deepest else NOTHING
    file = [f"f{32 % n}.rs"]
    last = {"crate": 0, "id": [1, 0], "in": [f"f{31 % n}.rs"], "kind": "Module"}
    told = [{"candidates": [f"f{33 % n}.rs"], "item": {"id": [1, 0], "in": file, "kind": "Module"}, "kind": "unresolved module", "module": last}]
    if deepest < 32:
        told.append({"call": {"id": [1, 0], "in": file, "kind": "MacroCall"}, "kind": "unresolved macro call", "module": last, "path": "a33"})
    yield diagnostics(), {"ok": told}


def rings_of_macro_use(n):
    for length in (1, 7, 33, 34, n):
        yield from ring_of_macro_use(length)
        yield None, None


def expansion_that_names_itself(n):
    """A call whose expansion holds itself, with a limit of recursion that isn't reached: it ends after 8,193 rounds."""
    yield crates(**limit_of(n)), OK
    yield set_file("lib.rs", node("MacroRules", 1, "foo", text="A"), node("MacroCall", 2, path="foo", input="k")), OK
    yield expansion("A", "k", node("MacroCall", 1, path="foo", input="k")), OK
    yield REFRESH, {"ok": [[0]]}
    told = {"call": call_at(1, 2, *[1] * 8192), "kind": "unresolved macro call", "module": ROOT, "path": "foo"}
    yield diagnostics(), {"ok": [told]}
    yield REFRESH, {"ok": []}


def rounds(n):
    """n calls, each defined by the expansion of the next, so that each takes a round; an import of what the first brings."""
    calls = [node("MacroCall", k + 1, path=f"m{k}", input="") for k in range(n)]
    last = node("MacroRules", 1, f"m{n - 1}", text=f"m{n - 1}")
    yield crates(), OK
    yield set_file("lib.rs", *calls, last, node("Use", 1, tree={"single": "self::S", "as": "T"})), OK
    for k in range(n):
        yield expansion(f"m{k}", "", node("Struct", 1, "S") if k == 0 else node("MacroRules", 1, f"m{k - 1}", text=f"m{k - 1}")), OK
    yield REFRESH, {"ok": [[0]]}
    made = item("Struct", 1, "lib.rs", {"id": [1, 0], "kind": "MacroCall"})
    by = {"id": [1, 0], "in": ["lib.rs"], "kind": "import", "place": 0}
    unresolved = {"item": {"id": [1, 0], "in": ["lib.rs"], "kind": "Use"}, "kind": "unresolved import", "module": ROOT, "place": 0}
    waits = {"call": call_at(1), "kind": "unresolved macro call", "module": ROOT, "path": "m0"}
    # after round 8,193 nothing is tried any more
    yield resolve("S"), is_bound(made) if n <= 8193 else NOTHING
    yield resolve("T"), is_bound(made, by) if n <= 8192 else NOTHING
    yield diagnostics(), {"ok": [] if n <= 8192 else [unresolved] if n == 8193 else [waits, unresolved] if n == 8194 else None}


def rounds_at_the_limit(_):
    for n in (8192, 8193, 8194):
        yield from rounds(n)
        yield None, None


# ---- attributes

def attributes_of_one_item(n):
    """n attributes that nothing defines, n derives that nothing defines, n helpers below a derive, n builtin derives, n conditions."""
    many = [{"path": f"a{k}"} for k in range(n)]
    lost = {"path": "derive", "paths": [f"D{k}" for k in range(n)]}
    helped = [{"path": "derive", "paths": ["H"]}] + [{"path": "h"} for _ in range(n)]
    built = [{"path": "derive", "paths": ["B"] * n}]
    conditions = [{"path": "cfg", "cfg": True} for _ in range(n)] + [{"path": "cfg_attr", "cfg": True, "attrs": [{"path": "inline"} for _ in range(n)]}]
    structs = [node("Struct", 1, "S1", attrs=many), node("Struct", 2, "S2", attrs=[lost]), node("Struct", 3, "S3", attrs=helped)]
    structs += [node("Struct", 4, "S4", attrs=built), node("Struct", 5, "S5", attrs=conditions), node("Struct", 6, "S6", attrs=conditions + [{"path": "cfg", "cfg": False}])]
    macros = [node("MacroDef", 1, "H", text="H", expander="builtin_derive", helpers=["h"]), node("MacroDef", 2, "B", text="B", expander="builtin_derive")]
    yield crates(), OK
    yield set_file("lib.rs", *macros, *structs), OK
    yield REFRESH, {"ok": [[0]]}
    for k in range(1, 6):
        yield resolve(f"S{k}"), is_bound(item("Struct", k, "lib.rs"))
    yield resolve("S6"), NOTHING
    told = [{"cfg": "false", "item": {"id": [6, 0], "in": ["lib.rs"], "kind": "Struct"}, "kind": "unconfigured code", "module": ROOT}]
    call = {"in": ["lib.rs"], "kind": "Struct"}
    told += [{"call": {**call, "attr": k, "id": [1, 0]}, "kind": "unresolved macro call", "module": ROOT, "path": f"a{k}"} for k in range(n)]
    told += [{"call": {**call, "attr": 0, "derive": k, "id": [2, 0]}, "kind": "unresolved macro call", "module": ROOT, "path": f"D{k}"} for k in range(n)]
    yield diagnostics(), {"ok": told}


def attributes_that_bring_their_item_back(n, limit=None):
    """An item under n attributes of one macro, each of whose expansions is the item with one attribute less."""
    limit = n if limit is None else limit
    struct = lambda k: node("Struct", 1, "S", input=str(k), attrs=[{"path": "a"}] * (n - k))
    yield crates(**limit_of(limit)), OK
    yield set_file("lib.rs", node("MacroDef", 1, "a", text="A", styles=["attr"]), struct(0)), OK
    for k in range(n):
        yield expansion("A", str(k), struct(k + 1), call=["attr", 0]), OK
    yield REFRESH, {"ok": [[0]]}
    calls = [{"attr": 0, "id": [1, 0], "kind": "Struct"}] * n
    yield resolve("S"), is_bound(item("Struct", 1, "lib.rs", *calls)) if n <= limit else NOTHING
    yield diagnostics(), {"ok": []}


def attributes_to_the_limit(n):
    for limit in (n, n - 1):
        yield from attributes_that_bring_their_item_back(n, limit)
        yield None, None


# ---- use trees

def paths_of_nested_lists(n):
    """A use tree of 24 lists in one another, of n segments each, around a path of n: they join to one of 25 n segments. And lists of
    `super` in one another, to the level at which they don't join any more."""
    def tree(prefix, leaf, count=24):
        return nested(count, leaf, lambda it: {"path": prefix, "list": [it]})

    inner = [node("Use", 1, vis="pub", tree={"single": "super::m"}), node("Struct", 1, "S", vis="pub")]
    lists = tree("m" + "::m" * (n - 1), {"single": "m::" * (n - 1) + "S"})
    supers = lambda count: tree("super" + "::super" * (count - 1), {"single": "super::x"}, 1)
    yield crates(), OK
    yield set_file("lib.rs", node("Module", 1, "m", nodes=inner), node("Use", 2, tree=lists), node("Use", 3, tree=supers(254)), node("Use", 4, tree=supers(255))), OK
    yield REFRESH, {"ok": [[0]]}
    yield resolve("S"), is_bound(item("Struct", 1, "lib.rs"), {"id": [2, 0], "in": ["lib.rs"], "kind": "import", "place": 24})
    # 255 levels and one more are no path, so no import
    told = {"item": {"id": [3, 0], "in": ["lib.rs"], "kind": "Use"}, "kind": "unresolved import", "module": ROOT, "place": 1}
    yield diagnostics(), {"ok": [told]}


# ---- crates

def chain_of_crates(n):
    """n crates, each over the one before it, and one more than there may be."""
    made = [{"root": "a.rs"}] + [{"root": "b.rs", "deps": [{"crate": k - 1, "name": "p"}]} for k in range(1, n - 1)]
    made += [{"root": "c.rs", "deps": [{"crate": n - 2, "name": "p"}]}]
    if n == 10_000:
        yield crates(*made, {"root": "c.rs"}), too_large("crates")
        yield REFRESH, {"error": "command"}
    yield crates(*made), OK
    uses = node("Use", 1, vis="pub", tree={"single": "p::S"}), node("Use", 2, vis="pub", tree={"single": "p", "as": "q"})
    yield set_file("a.rs", node("Struct", 1, "S", vis="pub")), OK
    yield set_file("b.rs", *uses), OK
    yield set_file("c.rs", *uses), OK
    every = [[k] for k in range(n)]
    yield REFRESH, {"ok": every}
    struct, by = item("Struct", 1, "a.rs"), lambda file: {"id": [1, 0], "in": [file], "kind": "import", "place": 0}
    yield resolve("S", n - 1), is_bound(struct, by("c.rs"), "pub")
    yield resolve("::p::S", n - 1), is_bound(struct, by("b.rs"), "pub")
    yield resolve("q::" * 63 + "S", n - 1), NOTHING if n < 64 else is_bound(struct, by("b.rs") if n > 64 else None, "pub")
    yield resolve("q::" * 64 + "S", n - 1), too_large("path")
    yield resolve("$0::S", n - 1), is_bound(struct, None, "pub")
    yield resolve(f"${n // 2}::S", n - 1), is_bound(struct, by("b.rs"), "pub")
    yield resolve(f"${n - 1}::S", n // 2), NOTHING
    yield set_file("c.rs", *uses, node("Fn", 1, "f", body="")), OK
    yield status(n - 2), CURRENT
    yield REFRESH, {"ok": [[n - 1]]}
    yield set_file("a.rs", node("Struct", 1, "S", vis="pub"), node("Fn", 1, "f", body="", vis="pub")), OK
    yield status(n - 1), {"ok": "stale"}
    yield REFRESH, {"ok": every}
    yield resolve("p::f", n - 1), NOTHING
    yield diagnostics(n - 1), {"ok": []}


# ---- files

def files_by_parents(n):
    """n module files, each by a `path` attribute that goes up and down, set by texts that do so too; a file past the root."""
    yield crates({"root": "x/../src/y/./../lib.rs"}), OK
    climbs = "a/../" * 30
    modules = [node("Module", k, f"m{k}", attrs=[{"path": "path", "literal": f"{climbs}../src/./d{k}/../f{k}.rs"}]) for k in range(n)]
    lost = node("Module", n, "lost", attrs=[{"path": "path", "literal": "../../f0.rs"}])
    yield set_file("./src//lib.rs", *modules, lost), OK
    for k in range(n):
        yield set_file(f"{climbs}src/e{k}/../f{k}.rs", node("Struct", 1, "S", vis="pub")), OK
    for lost_text in ("src/../../src/f0.rs", "src/..", climbs + "..", "", "./."):
        yield set_file(lost_text), {"error": "command"}
        yield {"do": "remove file", "file": lost_text}, {"error": "command"}
        yield {"do": "tree", "crate": 0, "file": lost_text}, {"error": "command"}
        yield {"do": "modules", "file": lost_text}, {"error": "command"}
    yield REFRESH, {"ok": [[0]]}
    page = "// AstId: Struct[0001, 0]\npub struct S { ... }\n"
    for k in range(n):
        yield resolve(f"m{k}::S"), is_bound(item("Struct", 1, f"src/f{k}.rs"), vis="pub")
        yield {"do": "tree", "crate": 0, "file": f"{climbs}/src/./x/../f{k}.rs"}, {"ok": page}
        yield {"do": "modules", "file": f"src/{climbs}f{k}.rs"}, {"ok": [[0, f"m{k}"]]}
    inside = node("Module", 1, "o", attrs=[{"path": "path", "literal": f"{climbs}../src/f{n - 1}.rs"}])
    place = [0, block(1)]
    yield set_block(place, inside), OK
    yield REFRESH, {"ok": [place]}
    root = {"crate": 0, "in": [place], "kind": "BlockExpr"}
    yield resolve("o", *place), is_bound(item("Module", 1, place), vis={"explicit": False, "module": root}, kinds=("types",))
    yield resolve("o::S", *place), is_bound(item("Struct", 1, f"src/f{n - 1}.rs"), vis="pub")
    yield {"do": "remove file", "file": f"src/f/../{climbs}f{n - 1}.rs"}, OK
    yield status(0), {"ok": "stale"}
    yield set_file(f"src/{climbs}/f{n - 1}.rs", node("Struct", 1, "S", vis="pub")), OK
    yield REFRESH, {"ok": [[0], place]}
    told = {"candidates": ["../../f0.rs"], "item": {"id": [n, 0], "in": ["src/lib.rs"], "kind": "Module"}, "kind": "unresolved module", "module": ROOT}
    yield diagnostics(), {"ok": [told]}


def ring_of_files(n):
    """n files, each the module of the one before it, the last with the first: 33 modules deep, where the file of the last isn't taken."""
    def ring(k):
        return set_file(f"f{k}.rs", node("Module", 1, "m", vis="pub", attrs=[{"path": "path", "literal": f"f{(k + 1) % n}.rs"}]), node("Struct", 2, "S", vis="pub"))

    yield crates({"root": "f0.rs"}), OK
    for k in range(n):
        yield ring(k), OK
    yield REFRESH, {"ok": [[0]]}
    for k in range(33):
        vis = "pub"
        yield resolve("m::" * k + "S"), is_bound(item("Struct", 2, f"f{k % n}.rs"), vis=vis)
    yield resolve("m::" * 33 + "S"), NOTHING
    yield status(0, *["m"] * 33), CURRENT
    yield status(0, *["m"] * 34), UNKNOWN
    where, file = {"crate": 0, "id": [1, 0], "in": [f"f{31 % n}.rs"], "kind": "Module"}, f"f{32 % n}.rs"
    yield diagnostics(), {"ok": [{"candidates": [f"f{33 % n}.rs"], "item": {"id": [1, 0], "in": [file], "kind": "Module"}, "kind": "unresolved module", "module": where}]}
    for k in range(n):
        # which files are asked for: the 33 that are walked, and the one that is there and isn't taken
        yield {"do": "remove file", "file": f"f{k}.rs"}, OK
        yield status(0), {"ok": "stale"} if k <= 33 else CURRENT
        yield ring(k), OK
        yield REFRESH, {"ok": [[0]] if k <= 33 else []}


# ---- names

SCRIPTS = ["\u00e9" * 500, "\u03b1\u0345" * 250, "\u05d0\u05bc" * 250, "\u0915\u094d\u0937" * 111 + "x", "\u540d" * 333 + "x", "\U0001f980" * 250, "e" + "\u0301" * 499 + "z", "\u200d" * 333 + "x", "\ud55c" * 333 + "y", "\u0001" * 1000, '"\\' * 500]


def long_names(n):
    """n modules in one another and a file of 64 segments, with names of 1,000 bytes of several scripts."""
    names = [SCRIPTS[k % len(SCRIPTS)] for k in range(n)]
    inner = [node("Struct", 1, names[0])]
    for k in reversed(range(n)):
        inner = [node("Module", k + 1, names[k], vis="pub", nodes=inner)]
    far = "/".join(SCRIPTS[k % len(SCRIPTS)].replace("\\", "b") for k in range(64))
    yield crates(), OK
    yield set_file("lib.rs", *inner, node("Module", 100, "far", attrs=[{"path": "path", "literal": far}])), OK
    yield set_file(far, node("Struct", 1, "S", vis="pub")), OK
    yield set_file(far + "/x"), too_large("file")
    yield REFRESH, {"ok": [[0]]}
    yield resolve("far::S"), is_bound(item("Struct", 1, far), vis="pub")
    last = {"crate": 0, "id": [n, 0], "in": ["lib.rs"], "kind": "Module"}
    yield resolve("::".join([*names, names[0]])), NOTHING
    yield resolve(names[0], 0, *names), is_bound(item("Struct", 1, "lib.rs"), vis={"explicit": False, "module": last})
    yield resolve("self::" + "::".join(names)), is_bound(last, vis="pub", kinds=("types",))
    text = f"crate\n" + "".join(f"- {it} : type\n" for it in sorted([names[0], "far"], key=str.encode))
    deep = ""
    for k in range(n):
        deep += "\ncrate::" + "::".join(names[: k + 1]) + "\n"
        deep += f"- {names[k + 1]} : type\n" if k + 1 < n else f"- {names[0]} : type value\n"
    other = "\ncrate::far\n- S : type value\n"
    yield {"do": "dump", "at": [0, *names]}, {"ok": text + (deep + other if names[0].encode() < b"far" else other + deep)}
    yield diagnostics(), {"ok": []}


# ---- limits

def nested(count, inner, around):
    for _ in range(count):
        inner = around(inner)
    return inner


def unit(*nodes):
    return set_file("lib.rs", *nodes)


def function(**fields):
    return unit(node("Fn", 1, "f", body="", **fields))


def named_things():
    """Where a name stands in a line: each place of one, of the line that is made with a name."""
    for kind in ("Struct", "Union", "Const", "Static", "TypeAlias", "Trait", "Module", "ExternCrate", "MacroRules", "MacroDef", "Enum"):
        fields = {"Enum": {"variants": []}, "Trait": {"items": []}, "Module": {"nodes": []}}.get(kind, {})
        yield lambda name: unit(node(kind, 1, name, **fields))
    yield lambda name: unit(node("Module", 1, name))
    yield lambda name: unit(node("ExternCrate", 1, "x", **{"as": name}))
    yield lambda name: unit(node("Use", 1, tree={"single": "x", "as": name}))
    yield lambda name: unit(node("Enum", 1, "E", variants=[{"id": [1, 0], "name": name}]))
    yield lambda name: unit(node("MacroRules", 1, "m", helpers=["h", name]))
    yield lambda name: unit(node("MacroDef", 1, "m", expander="builtin_derive", helpers=[name]))
    yield lambda name: unit(node("Trait", 1, "T", items=[node("Fn", 1, name)]))
    yield lambda name: unit(node("Impl", 1, trait=False, items=[node("TypeAlias", 1, name)]))
    yield lambda name: unit(node("ExternBlock", 1, nodes=[node("Static", 1, name)]))
    yield lambda name: function(attrs=[{"path": "cfg", "cfg": name}])
    yield lambda name: function(attrs=[{"path": "cfg", "cfg": {"not": {"key": name, "value": ""}}}])
    yield lambda name: function(attrs=[{"path": "proc_macro_derive", "derive": name}])
    yield lambda name: function(attrs=[{"path": "proc_macro_derive", "derive": "D", "helpers": [name]}])
    yield lambda name: {"do": "set file", "file": "lib.rs", "unit": {"attrs": [{"path": "cfg_attr", "cfg": {"any": [name]}, "attrs": []}]}}
    yield lambda name: set_block([0, name, block(1)])
    yield lambda name: set_block([0, block(1), name, block(1)])
    for made in pathed_things():
        yield lambda name: made("a::" + name)
        yield lambda name: made("$0::" + name)


def pathed_things():
    """Where a path stands in a line that is answered ok."""
    yield lambda path: unit(node("Use", 1, tree={"single": path}))
    yield lambda path: unit(node("Use", 1, tree={"glob": path}))
    yield lambda path: unit(node("Use", 1, tree={"list": [{"path": path, "list": []}]}))
    yield lambda path: unit(node("MacroCall", 1, path=path, input=""))
    yield lambda path: unit(node("Trait", 1, "T", items=[node("MacroCall", 1, path=path, input="")]))
    yield lambda path: function(attrs=[{"path": path}])
    yield lambda path: function(attrs=[{"path": path, "tokens": ""}])
    yield lambda path: function(attrs=[{"path": "derive", "paths": ["D", path]}])
    yield lambda path: function(attrs=[{"path": "cfg_attr", "cfg": False, "attrs": [{"path": path}]}])
    yield lambda path: function(vis={"in": path})
    yield lambda path: unit(node("Struct", 1, "S", fields=[{"in": path}]))
    yield lambda path: unit(node("Module", 1, "m", nodes=[node("Use", 1, tree={"single": path})]))
    yield lambda path: set_block([0, block(1)], node("Use", 1, tree={"single": path}))
    yield lambda path: expansion("A", "k", node("Use", 1, tree={"single": path}))


def limits_of_names_and_paths(_):
    """A name of 1,000 bytes, a path of 64 segments and one of 255 levels, wherever they may stand, and one above each."""
    yield crates(), OK
    for count, wanted in ((1000, OK), (1001, too_large("name"))):
        for made in named_things():
            for text in ("x" * count, "\u00e9" * 500 + "x" * (count - 1000)):
                yield made(text), wanted
    for made in pathed_things():
        for count, wanted in ((64, OK), (65, too_large("path"))):
            for start in ("", "::", "crate::", "self::", "$0::", "$4294967295::"):
                yield made(start + "::".join(["a"] * count)), wanted
        for count, wanted in ((255, OK), (256, too_large("path"))):
            yield made("::".join(["super"] * count)), wanted
            yield made("::".join(["self", *["super"] * count, *["a"] * 64])), wanted
        yield made("::".join(["super"] * 256 + ["x" * 1001])), too_large("name")
    # questions have the same limits
    yield REFRESH, {"ok": [[0], [0, block(1)]]}
    for path, wanted in (("a", NOTHING), ("x" * 1000, NOTHING), ("x" * 1001, too_large("name")), ("::".join(["a"] * 65), too_large("path")), ("super" + "::super" * 255, too_large("path"))):
        yield resolve(path), wanted
        yield {"do": "trait items", "at": [0], "path": path}, {"error": "not a trait"} if wanted == NOTHING else wanted
    for name, wanted in (("x" * 1000, UNKNOWN), ("x" * 1001, too_large("name"))):
        yield status(0, name), wanted
        yield status(0, block(1), "a", name), wanted
        other = {"error": "unknown place"} if wanted == UNKNOWN else wanted
        yield {"do": "dump", "at": [0, name]}, other
        yield {"do": "names", "at": [0, name]}, other
        yield {"do": "impl items", "at": [0, name], "impl": 0}, other
    for count, wanted in ((64, OK), (65, too_large("file"))):
        file = "/".join(["a"] * count)
        yield {"do": "remove file", "file": "./b/../" + file}, wanted
        yield {"do": "tree", "crate": 0, "file": file}, {"ok": "\n"} if wanted == OK else wanted
        yield {"do": "modules", "file": file}, {"ok": []} if wanted == OK else wanted


def limits_of_crates(_):
    """Names, paths, files and numbers of a line of crates, at each limit and one above."""
    given = [
        ("name", 1000, lambda count: {"deps": [{"crate": 0, "name": "x" * count}]}),
        ("name", 1000, lambda count: {"cfg": ["x" * count]}),
        ("name", 1000, lambda count: {"cfg": [{"key": "x" * count, "value": "y" * 2000}]}),
        ("name", 1000, lambda count: {"attrs": [{"path": "a::" + "x" * count}]}),
        ("path", 64, lambda count: {"attrs": [{"path": "::".join(["a"] * count)}]}),
        ("cfg", 16, lambda count: {"attrs": [{"path": "cfg", "cfg": nested(count, "x", lambda it: {"not": it})}]}),
        ("file", 64, lambda count: {"root": "/".join(["a"] * count)}),
    ]
    for what, most, made in given:
        for count, wanted in ((most + 1, too_large(what)), (most, OK)):
            yield crates({"root": "lib.rs"}, {"root": "lib.rs", **made(count)}), wanted
            yield status(1), {"ok": "stale"} if wanted == OK else {"error": "command"}
        yield None, None
    for fields, wanted in (({"deps": [{"crate": 1, "name": "x"}]}, {"error": "dependency order", "crate": 1}), ({"deps": [{"crate": 4_294_967_295, "name": "x"}]}, {"error": "dependency order", "crate": 1}), ({"deps": [{"crate": 4_294_967_296, "name": "x"}]}, {"error": "command"})):
        yield crates({"root": "lib.rs"}, {"root": "lib.rs", **fields}), wanted
    yield crates(), OK
    yield status(4_294_967_295), UNKNOWN
    yield status(4_294_967_296), {"error": "command"}


def each_limit(_):
    """Units at each limit and one above."""
    yield crates(), OK
    index = lambda k: {"id": [k % 65536, k // 65536]}
    struct = lambda fields, *more: unit(node("Struct", 1, "S", shape="tuple", fields=[None] * fields), *more)
    impls = [{"kind": "Impl", "trait": False, "items": [], **index(k)} for k in range(100_000)]
    trait = node("Trait", 1, "T", items=[{"kind": "Const", **index(k)} for k in range(49_999)])
    block_of_statics = node("ExternBlock", 1, nodes=[{"kind": "Static", "name": "x", **index(k)} for k in range(49_999)])
    rows = [
        struct,
        lambda count: unit(node("Union", 1, "U", fields=[None] * count)),
        # the Use and the list around are two of them
        lambda count: unit(node("Use", 1, tree={"list": [{"glob": None}] * (count - 1)})),
        lambda count: struct(count - 400_001, node("Enum", 1, "E", variants=[{**index(k), "name": "A"} for k in range(400_000)])),
        lambda count: struct(count - 200_000, *impls, trait, block_of_statics),
    ]
    for made in rows:
        yield made(999_999), OK
        yield made(1_000_000), too_large("nodes")
    modules = lambda count: nested(count, node("Struct", 1, "S"), lambda it: node("Module", it["id"][0] + 1, "m", nodes=[it]))
    trees = lambda count: node("Use", 1, tree=nested(count, {"single": "a"}, lambda it: {"list": [it]}))
    conditions = lambda count: node("Fn", 1, "f", body="", attrs=[{"path": "cfg", "cfg": nested(count, "x", lambda it: {"not": it})}])
    attributes = lambda count: node("Fn", 1, "f", body="", attrs=[nested(count, {"path": "inline"}, lambda it: {"path": "cfg_attr", "cfg": "x", "attrs": [it]})])
    both = lambda count: node("Fn", 1, "f", body="", attrs=[{"path": "cfg_attr", "cfg": nested(count, "x", lambda it: {"all": [it]}), "attrs": [{"path": "cfg", "cfg": nested(count, "x", lambda it: {"any": [it]})}]}])
    indices = lambda count: {"kind": "Struct", "name": "S", "id": [65535, count]}
    variants = lambda count: node("Enum", 1, "E", variants=[{"id": [65535, count], "name": "A"}])
    sources = (lambda it: unit(it), lambda it: set_block([0, block(1)], it), lambda it: expansion("A", "k", it))
    for what, most, made in [("modules", 32, modules), ("use tree", 24, trees), ("cfg", 16, conditions), ("cfg", 16, attributes), ("cfg", 15, both), ("index", 2047, indices), ("index", 2047, variants)]:
        for source in sources:
            yield source(made(most)), OK
            yield source(made(most + 1)), too_large(what)
    rows = [
        ("file", 64, lambda count: set_file("/".join(["a"] * count))),
        ("index", 2047, lambda count: set_block([0, {"block": [65535, count]}])),
        ("index", 2047, lambda count: {"do": "remove block", "at": [0, {"block": [0, count]}, block(1)]}),
        ("blocks", 16, lambda count: set_block([0, *(block(k) for k in range(count))], node("Struct", 1, "S"))),
    ]
    for what, most, made in rows:
        yield made(most), OK
        yield made(most + 1), too_large(what)
    yield unit({"kind": "Struct", "name": "S", "id": [65536, 0]}), {"error": "command"}
    yield b"[" * 127 + b"]" * 127, {"error": "command"}
    yield b"[" * 128 + b"]" * 128, {"error": "json"}
    yield b'{"x":' * 126 + b"[]" + b"}" * 126, {"error": "command"}
    yield b'{"x":' * 127 + b"[]" + b"}" * 127, {"error": "json"}
    start = line(unit(node("Fn", 1, "f", body="@")))
    for more, wanted in ((0, OK), (1, too_large("line"))):
        yield start.replace(b"@", b"x" * (16_777_216 + more - len(start) + 1)), wanted
    yield {"do": "status", "at": [0]}, {"ok": "stale"}


# ---- no end

def modules_without_end(n):
    """A file that is two modules of itself, 2^32 of them, and an expansion of two calls of itself: `memory`, n times each, and the
    session goes on. It runs in 100 megabytes of data."""
    twice = [node("Module", k, name, attrs=[{"path": "path", "literal": "lib.rs"}]) for k, name in enumerate("ab")]
    calls = [node("MacroCall", k, path="foo", input="k") for k in range(2)]
    yield crates(**limit_of(4_000_000_000)), OK
    yield set_file("lib.rs", node("Struct", 1, "S")), OK
    yield REFRESH, {"ok": [[0]]}
    for _ in range(n):
        yield set_file("lib.rs", *twice), OK
        yield REFRESH, {"error": "memory"}
        yield status(0), {"ok": "stale"}
        yield resolve("a"), {"error": "stale place"}
        yield set_file("lib.rs", node("MacroRules", 9, "foo", text="A"), calls[0]), OK
        yield expansion("A", "k", *calls), OK
        yield REFRESH, {"error": "memory"}
        yield set_file("lib.rs", node("Struct", 1, "S")), OK
        yield REFRESH, {"ok": [[0]]}
        yield resolve("S"), is_bound(item("Struct", 1, "lib.rs"))


INPUTS = {
    blocks_edited_one_by_one: 5000,
    many_blocks: 10_000,
    globs_of_a_ring_in_blocks: 500,
    lists_of_nested_expansions: 128,
    list_that_names_itself: 500,
    each_depth_of_modules: 32,
    rings_of_macro_use: 100,
    expansion_that_names_itself: 4_294_967_295,
    rounds_at_the_limit: 0,
    attributes_of_one_item: 5000,
    attributes_to_the_limit: 1000,
    paths_of_nested_lists: 64,
    chain_of_crates: 10_000,
    files_by_parents: 1000,
    ring_of_files: 100,
    long_names: 32,
    each_limit: 0,
    limits_of_names_and_paths: 0,
    limits_of_crates: 0,
    modules_without_end: 3,
}
MEGABYTES = {modules_without_end: 100}


def parts(pairs):
    """The sessions of an input, each a list of commands and replies."""
    found = [[]]
    for command, wanted in pairs:
        if command is None:
            found.append([])
        else:
            found[-1].append((command, wanted))
    return [it for it in found if it]


def run(program, pairs, megabytes):
    """Runs a session; what was wrong, seconds of processor, and the most memory in MB."""
    with tempfile.TemporaryFile() as script:
        for command, _ in pairs:
            script.write(line(command) + b"\n")
        script.seek(0)
        limit = lambda: resource.setrlimit(resource.RLIMIT_DATA, (megabytes << 20, megabytes << 20))
        child = subprocess.Popen([program], stdin=script, stdout=subprocess.PIPE, stderr=subprocess.PIPE, preexec_fn=limit)
        wrong = None
        for number, (command, wanted) in enumerate(pairs, 1):
            reply = child.stdout.readline()
            if wrong is None and (not reply or json.loads(reply) != wanted):
                wrong = f"line {number}: {line(command)[:300]}\n  answered {reply[:1000]}\n  wanted   {json.dumps(wanted)[:1000]}"
            if not reply:
                break
        rest, words = child.stdout.read(), child.stderr.read()
        _, ended, used = os.wait4(child.pid, 0)
        child.returncode = ended
        if wrong is None and (rest or words or ended):
            wrong = f"behind the last line {rest[:200]}, {words[:200]}"
        return wrong and f"{wrong}\n  it ended with {ended}", used.ru_utime + used.ru_stime, used.ru_maxrss / 1024


def main():
    parser = argparse.ArgumentParser(description=__doc__.split("\n")[0])
    parser.add_argument("--program")
    parser.add_argument("--megabytes", type=int)
    parser.add_argument("name", nargs="?")
    parser.add_argument("n", nargs="?", type=int)
    given = parser.parse_args()
    program, failed = program_of(given.program), False
    for made, usual in INPUTS.items():
        if given.name not in (None, made.__name__):
            continue
        n = usual if given.n is None else given.n
        sessions = parts(made(n))
        results = [run(program, pairs, given.megabytes or MEGABYTES.get(made, 4000)) for pairs in sessions]
        for wrong, _, _ in results:
            if wrong:
                print(f"{made.__name__} {n}: {wrong}", flush=True)
                failed = True
        seconds, most = sum(it[1] for it in results), max(it[2] for it in results)
        told = "as wanted" if not any(it[0] for it in results) else "NOT as wanted"
        print(f"{made.__name__} {n}: {sum(map(len, sessions))} replies {told}, {seconds:.2f} s, {most:.0f} MB", flush=True)
    sys.exit(failed)


if __name__ == "__main__":
    main()
