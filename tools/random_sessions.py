#!/usr/bin/env python3
"""Random sessions, in which what is answered after edits has to be what a fresh session over the same sources answers.

Usage, at the top of the repository: tools/random_sessions.py [--sessions N] [--seed S] [--program FILE] [--print].
Without --program it takes crates/hir_session_main/out/hir_session_main, which `rt run < /dev/null` builds there.
With --print it runs nothing, and writes the commands of the sessions as they stand in crates/hir_session_rows/stdin.

A session has one to four crates, each with a root file, and module files that any of them may name, blocks in modules and in one
another, also where nothing holds them, all with imports, globs, macros, calls, traits and impls, and a table of expansions. Files, blocks and
expansions are set, changed, removed and refreshed some times, and crates get other editions, attributes, options and dependencies, or
what they have, or what is refused. At its end all is refreshed, and a list of paths is asked at each crate and each block, with its
status, its dump and the items of traits and impls, and the diagnostics of each crate; besides, the items of traits and impls that are
written. A second session is handed the crates, sources and expansions of that moment at once, and asked the same. It ends with 1 at the first session whose answers differ, which it writes
to standard error.
"""
import argparse
import copy
import json
import random
import subprocess
import sys

NAMES = ["a", "b", "c", "m", "x", "S", "T"]
VISIBILITIES = [None, None, "pub", "pub", "pub", "crate", {"in": "super"}, "self"]
ROOTS = 3 * ["", "", "", "self::", "super::", "crate::", "::"] + ["d0::", "d1::", "::d0::", "core::", "$0::", "$1::"]
# a file of a `path` attribute has no module files and no calls, or it could name itself twice
LEAF = "leaf.rs"
MACROS, TEXTS, INPUTS = ["f", "g", "x"], ["A", "B"], ["i", "j"]
FILES = ["a.rs", "a/mod.rs", "a/b.rs", "a/b/mod.rs", "b.rs", "m.rs", LEAF]
EDITIONS = ["2015", "2018", "2021", "2024"]
OPTIONS = ["p", {"key": "q", "value": "1"}]
CONDITIONS = [*OPTIONS, {"not": "p"}, {"any": OPTIONS}, {"all": OPTIONS}]


class Crates:
    """Draws the sources of one session."""

    def __init__(self, seed):
        self.random = random.Random(seed)
        self.next_id = 0
        self.leaf = False
        # how many calls may still come, and whether they stand in an expansion
        self.calls, self.expansion = 0, False

    def choose(self, things):
        return self.random.choice(things)

    def path(self):
        names = [self.choose(NAMES + ["u8"]) for _ in range(self.random.randint(1, 3))]
        return self.choose(ROOTS) + "::".join(names)

    def node(self, kind, **fields):
        self.next_id += 1
        vis = self.choose(VISIBILITIES)
        if vis is not None:
            fields["vis"] = vis
        return {"kind": kind, "id": [self.next_id, 0], **fields}

    def use_tree(self, depth):
        if depth < 2 and self.random.random() < 0.2:
            trees = [self.use_tree(depth + 1) for _ in range(self.random.randint(1, 3))]
            return {"list": trees, "path": self.choose(NAMES)}
        if depth and self.random.random() < 0.15:
            return {"single": "self"}
        if self.random.random() < 0.35:
            return {"glob": self.path() if not depth else self.choose(NAMES + [None])}
        tree = {"single": self.path() if not depth else self.choose(NAMES)}
        if self.random.random() < 0.5:
            tree["as"] = self.choose(NAMES + ["_"])
        return tree

    def item(self, depth):
        """An item, now and then under a condition."""
        item = self.any_item(depth)
        if self.random.random() < 0.1:
            condition = {"path": "cfg", "cfg": self.choose(CONDITIONS)}
            if self.random.random() < 0.2:
                condition = {"path": "cfg_attr", "cfg": self.choose(CONDITIONS), "attrs": [condition]}
            item["attrs"] = item.get("attrs", []) + [condition]
        elif self.random.random() < 0.03:
            item["attrs"] = item.get("attrs", []) + [{"path": "mine::x"}]
        return item

    def any_item(self, depth):
        kinds = ["Module", "Module", "Use", "Use", "Use", "Struct", "Fn", "Enum", "Const", "Trait", "Trait", "Impl", "Impl", "ExternCrate", "Macro", "Macro"]
        kind = self.choose(kinds + 6 * ["MacroCall"] if self.calls else kinds)
        name = self.choose(NAMES)
        if kind == "Module" and not self.leaf and self.random.random() < (0.1 if self.expansion else 0.3):
            declared = self.node("Module", name=self.choose(["a", "b", "m"]))
            if self.random.random() < 0.2 and not self.expansion:
                declared["attrs"] = [{"path": "path", "literal": LEAF}]
            return declared
        if kind == "Module":
            module = self.node("Module", name=name, nodes=self.items(depth + 1) if depth < 3 else [])
            if self.random.random() < 0.3:
                module["attrs"] = [{"path": "macro_use"}]
            return module
        if kind == "Macro":
            return self.makro()
        if kind == "MacroCall":
            self.calls -= 1
            path = self.choose(MACROS) if self.random.random() < 0.8 else self.path() + "::" + self.choose(MACROS)
            return self.node("MacroCall", path=path, input=self.choose(INPUTS))
        if kind == "Use":
            return self.node("Use", tree=self.use_tree(0))
        if kind == "Struct":
            return self.node("Struct", name=name, shape=self.choose(["record", "tuple", "unit"]))
        if kind == "Fn":
            return self.node("Fn", name=name, body=self.choose(["", "1", "2"]))
        if kind == "Enum":
            return self.node("Enum", name=name, variants=self.variants())
        if kind == "Const":
            return self.node("Const", name=name)
        if kind == "Trait":
            return self.node("Trait", name=name, items=self.held())
        if kind == "Impl":
            return self.node("Impl", trait=self.random.random() < 0.5, items=self.held())
        extern_crate = self.node("ExternCrate", name=self.choose(["d0", "d1", "self"]))
        if self.random.random() < 0.5 or extern_crate["name"] == "self":
            extern_crate["as"] = self.choose([name, name, "_"])
        if self.random.random() < 0.4:
            extern_crate["attrs"] = [{"path": "macro_use"}]
        return extern_crate

    def variants(self):
        self.next_id += 1
        variant = {"id": [self.next_id, 0], "name": self.choose(NAMES)}
        if self.random.random() < 0.2:
            variant["attrs"] = [{"path": "cfg", "cfg": self.choose(CONDITIONS)}]
        return [variant]

    def held(self):
        """What a trait or an impl holds, or a call in one expands to."""
        found = []
        for _ in range(self.random.randint(0, 5)):
            kind = self.choose(["Fn", "Const", "TypeAlias"] + 2 * ["MacroCall"] * (not self.expansion or self.calls > 0))
            fields = {"name": self.choose(NAMES)}
            if kind == "MacroCall":
                self.calls -= self.expansion
                fields = {"path": self.choose(MACROS) if self.random.random() < 0.8 else self.path(), "input": self.choose(INPUTS)}
            elif kind == "Const" and self.random.random() < 0.2:
                fields = {}
            if kind in ("Fn", "Const"):
                fields["body"] = self.choose(["", "1"])
            if self.random.random() < 0.1:
                condition = {"path": "cfg", "cfg": self.choose([False, "p"])}
                fields["attrs"] = [condition] if self.random.random() < 0.7 else [{"path": "nope"}]
            found.append(self.node(kind, **fields))
        return found

    def makro(self):
        fields = {"name": self.choose(MACROS), "text": self.choose(TEXTS)}
        if self.random.random() < 0.1:
            fields["styles"] = self.choose([["attr"], ["bang", "derive"]])
        if self.random.random() < 0.5:
            fields["expander"] = "builtin_eager"
        if self.random.random() < 0.3:
            return self.node("MacroDef", **fields)
        if self.random.random() < 0.3:
            fields["attrs"] = [{"path": "macro_export"}]
        return self.node("MacroRules", **fields)

    def items(self, depth):
        return [self.item(depth) for _ in range(self.random.randint(0, 5))]

    def unit(self, file):
        self.next_id = 0
        self.leaf, self.expansion, self.calls = file == LEAF, False, 0 if file == LEAF else 6
        first = [self.makro() for _ in range(self.random.randint(0, 3))]
        unit = {"nodes": first + self.items(0) + (self.items(0) if self.calls else [])}
        if file in ("c0.rs", "c1.rs") and self.random.random() < 0.5:
            unit["nodes"].append(self.prelude())
        if self.random.random() < 0.1:
            unit["attrs"] = [{"path": "cfg", "cfg": self.choose([False, *CONDITIONS])}]
        return unit

    def prelude(self):
        """The modules in which crates look for the names of their preludes."""
        editions = [{**self.node("Module", name="rust_" + edition, nodes=self.items(3)), "vis": "pub"} for edition in EDITIONS if self.random.random() < 0.6]
        return {**self.node("Module", name="prelude", nodes=editions), "vis": "pub"}

    def block(self):
        """What a block may hold."""
        self.next_id = 0
        self.leaf, self.expansion, self.calls = False, False, 3
        unit = {"nodes": self.items(1) + self.items(2)} if self.random.random() < 0.95 else "broken"
        if unit != "broken" and self.random.random() < 0.05:
            unit["attrs"] = [{"path": "cfg", "cfg": False}]
        return unit

    def block_place(self, count, blocks):
        """Where a block may be: in a module or in a block, whether or not that is there."""
        outer = [place for place in blocks if sum(isinstance(element, dict) for element in json.loads(place)) < 4]
        at = json.loads(self.choose(outer)) if outer and self.random.random() < 0.4 else [self.random.randrange(count)]
        at += [self.choose(["a", "b", "m"]) for _ in range(self.choose(8 * [0] + [1, 1, 2]))]
        return json.dumps(at + [{"block": [self.random.randint(1, 3), 0]}])

    def expansion_of(self):
        """What a key may expand to, with its error."""
        self.next_id = 0
        self.leaf, self.expansion, self.calls = False, True, 2
        of_list = self.random.random() < 0.5
        unit = {"nodes": self.held() if of_list else self.items(2)} if self.random.random() < 0.95 else "broken"
        return unit, "e" if self.random.random() < 0.1 else None, None

    def inner_of(self):
        """Paths that a macro asks to have resolved first, with an error now and then."""
        paths = [self.choose(MACROS) if self.random.random() < 0.8 else self.path() + "::" + self.choose(MACROS) for _ in range(self.choose([0, 1, 1, 1, 2]))]
        return None, "e" if self.random.random() < 0.1 else None, paths

    def reached(self, paths, caller, count):
        """The macros that such paths may reach."""
        return tuple((caller if self.random.random() < 0.7 else self.random.randrange(count), self.choose(TEXTS)) for _ in paths)

    def crates(self, count):
        found = []
        for number in range(count):
            entry = {"edition": self.choose(EDITIONS), "root": f"c{number}.rs", "attrs": self.attributes()}
            below = self.dependencies(number)
            if below:
                entry["deps"] = below
            if self.random.random() < 0.3:
                entry["cfg"] = self.options()
            found.append(entry)
        return found

    def attributes(self):
        """Attributes of a crate, before all a limit of depths, or expansions would go on for long."""
        others = [{"path": "no_std"}, {"path": "no_core"}, {"path": "register_tool", "paths": ["mine"]}, {"path": "allow", "tokens": "x"},
                  {"path": "cfg", "cfg": "p"}, {"path": "cfg_attr", "cfg": {"not": "p"}, "attrs": [{"path": "no_core"}]}]
        drawn = [{"path": "recursion_limit", "literal": self.choose("1234")}]
        while self.random.random() < 0.25:
            drawn.append(self.choose(others))
        return drawn

    def options(self):
        return [option for option in OPTIONS if self.random.random() < 0.5]

    def dependencies(self, number):
        below = [other for other in range(number) if self.random.random() < 0.6]
        names = [f"d{place}" if self.random.random() < 0.8 else self.choose(["core", "std", "d0"]) for place in range(len(below))]
        return [{"crate": other, "name": name, "prelude": self.random.random() < 0.7} for name, other in zip(names, below)]


def modules_in(at, unit, files, directory):
    """The modules that a unit writes, itself first, each with its place and its nodes; those in files that the unit declares too."""
    if not isinstance(unit, dict):
        return
    yield at, unit["nodes"]
    for node in unit["nodes"]:
        if node["kind"] == "Module" and len(at) < 6:
            inner = f"{directory}{node['name']}"
            found = node if "nodes" in node else files.get(inner + ".rs", files.get(inner + "/mod.rs"))
            yield from modules_in(at + [node["name"]], found, files, inner + "/")


def lists_in(crates, files, blocks):
    """The modules that hold traits or impls: each with its place, the names of its traits, and how many impls it has."""
    tops = [([number], files.get(krate["root"])) for number, krate in enumerate(crates)] + [(json.loads(place), unit) for place, unit in blocks.items()]
    found = []
    for at, nodes in (module for place, unit in tops for module in modules_in(place, unit, files, "")):
        traits = [node["name"] for node in nodes if node["kind"] == "Trait"]
        impls = sum(node["kind"] == "Impl" for node in nodes)
        if traits or impls:
            found.append((at, traits, impls))
    return found


def edited(unit, drawn, another):
    """The unit with its bodies or some texts alone changed, or another one."""
    roll = drawn.random.random()
    if roll < 0.2:
        return json.loads(json.dumps(unit).replace('"body": "1"', '"body": "2"'))
    return with_one_text_changed(unit, drawn) if roll < 0.45 else another()


def with_one_text_changed(unit, drawn):
    """The unit with the inputs of some calls, or the texts of some macros, changed alone."""
    old, new = drawn.choose([('"input": "i"', '"input": "j"'), ('"text": "A"', '"text": "B"')])
    return json.loads(json.dumps(unit).replace(old, new))


def entry(key, found):
    caller, of, text, given, reached = key
    command = {"do": "set expansion", "key": {"caller": caller, "crate": of, "text": text, "call": "bang", "input": given}}
    if reached:
        command["key"]["reached"] = [{"crate": krate, "text": inner} for krate, inner in reached]
    command.update({"unit": found[0]} if found[2] is None else {"inner": found[2]})
    return command if found[1] is None else {**command, "error": found[1]}


def edit_of_expansions(entries, count, drawn):
    """Sets an expansion, or takes one away; now and then one that isn't there. Where it lists paths, often that which it grows to as well."""
    caller = drawn.random.randrange(count)
    of = caller if drawn.random.random() < 0.7 else drawn.random.randrange(count)
    roll = drawn.random.random()
    key = (caller, of, drawn.choose(TEXTS), drawn.choose(INPUTS), ())
    waiting = [other for other, found in entries.items() if found[2]]
    if roll < 0.35 and waiting:
        key = drawn.choose(waiting)
        key = key[:4] + (drawn.reached(entries[key][2], key[0], count),)
    if drawn.random.random() < 0.2:
        entries.pop(key, None)
        return [{**entry(key, (None, None, None)), "do": "remove expansion"}]
    if not key[4] and roll < 0.6:
        entries[key] = drawn.inner_of()
        commands = [entry(key, entries[key])]
        while entries[key][2] and drawn.random.random() < 0.7:
            grown = key[:4] + (drawn.reached(entries[key][2], caller, count),)
            entries[grown] = drawn.expansion_of()
            commands.append(entry(grown, entries[grown]))
        return commands
    others = [found for found in entries.values() if found[2] is None]
    entries[key] = drawn.expansion_of() if drawn.random.random() < 0.9 or not others else drawn.choose(others)
    return [entry(key, entries[key])]


def edit_of_files(files, crates, drawn):
    """Sets a file, or takes one away."""
    file = drawn.choose(crates)["root"] if drawn.random.random() < 0.6 else drawn.choose(FILES)
    if file in files and drawn.random.random() < 0.15:
        del files[file]
        return {"do": "remove file", "file": file}
    files[file] = edited(files[file], drawn, lambda: drawn.unit(file)) if file in files else drawn.unit(file)
    return {"do": "set file", "file": file, "unit": files[file]}


def edit_of_blocks(blocks, count, drawn):
    """Sets a block, or takes one away; now and then one that isn't there."""
    place = drawn.choose(list(blocks)) if blocks and drawn.random.random() < 0.5 else drawn.block_place(count, blocks)
    if drawn.random.random() < 0.15:
        blocks.pop(place, None)
        return {"do": "remove block", "at": json.loads(place)}
    kept = blocks.get(place)
    blocks[place] = drawn.block() if kept is None else edited(kept, drawn, drawn.block)
    return {"do": "set block", "at": json.loads(place), "unit": blocks[place]}


def changed_dependencies(number, dependencies, drawn):
    """The dependencies with one taken away, added, renamed, moved into the extern prelude or out of it, or put elsewhere."""
    found, roll = copy.deepcopy(dependencies), drawn.random.random()
    if not found or roll < 0.3:
        added = {"crate": drawn.random.randrange(number), "name": drawn.choose(["d0", "d1", "core", "std"])} if number else None
        return found + [added] if added is not None else found
    one = drawn.choose(found)
    if roll < 0.55:
        found.remove(one)
    elif roll < 0.7:
        one["name"] = drawn.choose(["d0", "d1", "core", "std"])
    elif roll < 0.85:
        one["prelude"] = not one.get("prelude", True)
    else:
        drawn.random.shuffle(found)
    return found


def edit_of_crates(crates, drawn):
    """Gives a crate other data, or what it has; now and then what is refused. Its root file and `proc_macro` count for nothing."""
    number, roll = drawn.random.randrange(len(crates)), drawn.random.random()
    to = copy.deepcopy(crates[number])
    if roll < 0.2:
        to["edition"] = drawn.choose(EDITIONS)
    elif roll < 0.4:
        to["attrs"] = drawn.attributes()
    elif roll < 0.6:
        to["cfg"] = drawn.options()
    elif roll < 0.9:
        to["deps"] = changed_dependencies(number, to.get("deps", []), drawn)
    command = {"do": "set crate", "crate": number, "to": to}
    if drawn.random.random() < 0.1:
        later = {"crate": drawn.random.randrange(number, 5), "name": "d0"}
        refused = {**to, "deps": to.get("deps", []) + [later]} if drawn.random.random() < 0.6 else to
        return {**command, "crate": number if refused is not to else len(crates) + drawn.random.randrange(3), "to": refused}
    crates[number] = to
    if drawn.random.random() < 0.3:
        command["to"] = {**to, "root": drawn.choose(FILES), "proc_macro": True}
    return command


def asks_of_items(at, drawn):
    """What is asked of traits and impls at a place."""
    asks = [{"do": "trait items", "at": at, "path": path} for path in [drawn.choose(NAMES), drawn.path()]]
    return asks + [{"do": "impl items", "at": at, "impl": number} for number in range(2)]


def asks_of_lists(lists, drawn):
    """What is asked of some traits and impls that are written, and of an impl behind the last."""
    asks = []
    for at, traits, impls in drawn.random.sample(lists, min(12, len(lists))):
        where, names = (at[:1], "crate::" + "::".join(at[1:] + [""])) if drawn.random.random() < 0.3 and is_path(at[1:]) else (at, "")
        asks += [{"do": "trait items", "at": where, "path": names + name} for name in traits]
        asks += [{"do": "impl items", "at": at, "impl": number} for number in range(impls + (drawn.random.random() < 0.2))]
    return asks


def is_path(names):
    return all(isinstance(name, str) for name in names)


def asks_of_block(place, drawn):
    """What is asked at the place of a block and at what may be a module in it."""
    at, inner = json.loads(place), json.loads(place) + [drawn.choose(["a", "b", "m"])]
    paths = [drawn.choose(NAMES + MACROS + ["u8"]) for _ in range(6)] + [drawn.path() for _ in range(6)]
    asks = [{"do": "resolve", "at": drawn.choose(4 * [at] + [inner]), "path": path} for path in paths]
    asks += asks_of_items(drawn.choose([at, at, inner]), drawn)
    return asks + [{"do": "status", "at": at}, {"do": "status", "at": inner}, {"do": "dump", "at": drawn.choose([at, at, inner])}]


def session(seed):
    """The commands of a session with edits, those of a fresh one over its last sources, and how many of each are asked last."""
    drawn = Crates(seed)
    crates = drawn.crates(drawn.random.randint(1, 4))
    files, blocks, entries, commands = {}, {}, {}, [{"do": "crates", "crates": copy.deepcopy(crates)}]
    for key in [(number, number, text, given, ()) for number in range(len(crates)) for text in TEXTS for given in INPUTS]:
        if drawn.random.random() < 0.7:
            entries[key] = drawn.expansion_of()
            commands.append(entry(key, entries[key]))
    for _ in range(drawn.random.randint(10, 36)):
        roll = drawn.random.random()
        if roll < 0.3:
            commands += edit_of_expansions(entries, len(crates), drawn)
        elif roll < 0.45:
            commands.append(edit_of_crates(crates, drawn))
            commands += [{"do": "status", "at": [number]} for number in range(len(crates))]
        elif roll < 0.7:
            commands.append(edit_of_blocks(blocks, len(crates), drawn))
        else:
            commands.append(edit_of_files(files, crates, drawn))
        if blocks and drawn.random.random() < 0.2:
            commands += asks_of_block(drawn.choose(list(blocks)), drawn)[-4:]
        if drawn.random.random() < 0.2:
            commands += asks_of_items([drawn.random.randrange(len(crates))], drawn)
            commands += asks_of_lists(lists_in(crates, files, blocks), drawn)
        if drawn.random.random() < 0.5:
            commands.append({"do": "refresh"})
    asks = []
    for number in range(len(crates)):
        paths = [name for name in NAMES + MACROS] + [drawn.path() for _ in range(12)]
        places = 6 * [[number]] + [[number, name] for name in NAMES[:3]]
        asks += [{"do": "resolve", "at": drawn.choose(places), "path": path} for path in paths]
        asks += [{"do": "diagnostics", "crate": number}, {"do": "dump", "at": drawn.choose(places)}]
        for at in [[number], drawn.choose(places)]:
            asks += asks_of_items(at, drawn)
    for place in list(blocks) + [drawn.block_place(len(crates), blocks)]:
        asks += asks_of_block(place, drawn)
    asks += asks_of_lists(lists_in(crates, files, blocks), drawn)
    fresh = [{"do": "crates", "crates": crates}] + [{"do": "set file", "file": file, "unit": unit} for file, unit in files.items()]
    fresh += [{"do": "set block", "at": json.loads(place), "unit": unit} for place, unit in blocks.items()]
    fresh += [entry(key, found) for key, found in entries.items()]
    last = [{"do": "refresh"}] + asks
    return commands + last, fresh + last, len(asks)


def lines(commands):
    return "".join(json.dumps(command, separators=(",", ":")) + "\n" for command in commands)


def replies(program, commands):
    done = subprocess.run([program], input=lines(commands).encode(), stdout=subprocess.PIPE, check=True)
    return done.stdout.decode().splitlines()


class Lists:
    """How many lists of traits and impls were asked for, how many there were, and how many of those had calls, and calls in calls."""

    def __init__(self):
        self.asked = self.given = self.called = self.nested = 0

    def add(self, commands, replies):
        for command, reply in zip(commands, replies):
            if command["do"] not in ("trait items", "impl items"):
                continue
            self.asked += 1
            found = json.loads(reply).get("ok")
            if found is not None:
                self.given += 1
                self.called += bool(found["calls"])
                self.nested += any(len(call["in"]) > 1 for call in found["calls"])

    def __str__(self):
        return f"{self.asked} lists of traits and impls asked for, {self.given} given, {self.called} with calls, {self.nested} with calls in expansions"


def main():
    parser = argparse.ArgumentParser(description=__doc__.split("\n")[0])
    parser.add_argument("--sessions", type=int, default=200)
    parser.add_argument("--seed", type=int, default=0)
    parser.add_argument("--program", default="crates/hir_session_main/out/hir_session_main")
    parser.add_argument("--print", action="store_true")
    given = parser.parse_args()
    asked, found, lists = 0, 0, Lists()
    for seed in range(given.seed, given.seed + given.sessions):
        after_edits, fresh, count = session(seed)
        if given.print:
            sys.stdout.write(f"# random session {seed}\n" + lines(after_edits))
            continue
        one, other = replies(given.program, after_edits), replies(given.program, fresh)
        if len(one) != len(after_edits) or len(other) != len(fresh) or one[-count:] != other[-count:]:
            sys.stderr.write(f"session {seed}:\n{lines(after_edits)}")
            for command, left, right in zip(after_edits[-count:], one[-count:], other[-count:]):
                if left != right:
                    sys.stderr.write(f"{json.dumps(command)}\n  after edits {left}\n  fresh       {right}\n")
            sys.exit(1)
        lists.add(after_edits, one)
        asked += count
        found += sum('"ok"' in reply and reply != '{"ok":{"macros":null,"stop":null,"types":null,"values":null}}' for reply in one[-count:])
    if not given.print:
        print(f"{given.sessions} sessions, {asked} questions asked twice, {found} of them reached something; {lists}; no difference")


if __name__ == "__main__":
    main()
