#!/usr/bin/env python3
"""Random crates with imports, globs and macros, and what a plain model of the rules (tools/model) answers of their names.

Usage, at the top of the repository: tools/import_model.py [--sessions N] [--seed S] [--macros | --calls | --globs | --attributes |
--blocks | --data | --edits] [--program FILE] [--write FOLDER] [--rows].
With --macros the crates define macros too, in textual scope and as items. With --calls they also call them, over a table of
expansions that define, import and call further, modules are in files too, and files and expansions are edited. With
--globs a crate's modules are full of globs and calls, so that what an expansion defines goes along globs to what the next
call names. With --attributes items have attributes and derives besides, and some crates are procedural macros'. With --blocks
there are blocks besides, in modules and in one another, which are edited too, and all maps are dumped. With --data there are
attributes, derives and conditions, and crates get other editions, attributes, options and dependencies. With --edits the
sessions are those of tools/random_sessions.py.
It runs the program, by default crates/hir_session_main/out/hir_session_main, over each session, and ends with 1 at the first
whose answers aren't those of the model, which it writes to standard error. With --write it runs nothing, and writes the
sessions and their answers as FOLDER/stdin and FOLDER/stdout, as crates/hir_session_rows has them. With --rows it draws
nothing: it compares the model with the replies of crates/hir_session_rows, as far as the model knows the commands.
"""
import argparse
import json
import random
import subprocess
import sys

import random_sessions
from model.syntax import dump
from model.workspace import Workspace, read_place

MODULES = ["a", "b", "m"]
ITEMS = ["S", "T", "x"]
NAMES = MODULES + ITEMS
TEXTS, INPUTS = ["A", "B"], ["i", "j"]
ROWS = "crates/hir_session_rows"
# what the model doesn't look for
REFUSALS = ("json", "command", "too large", "duplicate id", "memory", "too many")


class Spot:
    """A module that is drawn."""

    def __init__(self, number, dependencies, parent=None):
        self.number, self.dependencies, self.parent = number, dependencies, parent


class Session:
    """Draws the crates of one session."""

    def __init__(self, seed, macros=False, calls=False):
        self.random, self.macros, self.calls = random.Random(seed), macros or calls, calls
        self.crates, self.units, self.inputs, self.skeleton, self.files, self.entries = [], [], [], [], {}, {}
        for number in range(self.random.randint(1, 3)):
            self.draw_crate(number)
        if calls:
            self.draw_entries()

    def choose(self, things):
        return self.random.choice(things)

    def chance(self, share):
        return self.random.random() < share

    def draw_crate(self, number):
        dependencies = []
        for krate in range(number):
            if self.random.random() < 0.8:
                dependencies.append((krate, self.choose(["d", "d", "a"])))
        self.next_id = 0
        self.tree = {}
        for name in MODULES:
            self.tree[name] = [inner for inner in MODULES if self.random.random() < 0.4]
        paths = [()] + [(name,) for name in self.tree] + [(name, inner) for name in self.tree for inner in self.tree[name]]
        self.skeleton.append(paths)
        nodes = self.draw_items(Spot(number, dependencies), ())
        self.crates.append(dependencies)
        self.units.append(nodes)
        fields = {"edition": self.choose(["2018", "2021"]), "root": "r%d.rs" % number}
        if dependencies:
            fields["deps"] = [{"crate": k, "name": n} for k, n in dependencies]
        if self.calls and self.chance(0.9):
            fields["attrs"] = [{"path": "recursion_limit", "literal": str(self.choose([1, 2, 3, 4]))}]
        self.inputs.append(fields)

    def draw_entries(self):
        """Expansions of most keys that a call may have; where depth has the usual limit, each calls once at most."""
        for caller, dependencies in enumerate(self.crates):
            for of in [caller] + [krate for krate, _ in dependencies]:
                for text in TEXTS:
                    for given in INPUTS:
                        if self.chance(0.75):
                            self.entries[caller, of, text, "bang", given] = self.draw_entry(caller)

    def draw_entry(self, caller):
        self.next_id = 0
        self.left = 2 if "attrs" in self.inputs[caller] else 1
        unit = {"nodes": self.draw_expansion(Spot(caller, self.crates[caller]), 0)}
        if self.chance(0.05):
            unit = "broken"
        elif self.chance(0.05):
            unit["attrs"] = [{"path": "cfg", "cfg": False}]
        return unit, "e" if self.chance(0.1) else None

    def draw_expansion(self, at, depth):
        nodes = []
        for _ in range(self.random.randint(1, 3)):
            roll = self.random.random()
            if roll < 0.2:
                nodes.append(self.draw_definition(at))
            elif roll < 0.23:
                nodes.append(self.draw_enum(at))
            elif roll < 0.25:
                nodes.append(self.draw_impl(at))
            elif roll < 0.45:
                nodes.append(self.draw_macro(at))
            elif roll < 0.6:
                nodes.append(self.draw_use(at))
            elif roll < 0.8 and self.left:
                self.left -= 1
                nodes.append(self.draw_call(at))
            elif roll < 0.9 and not depth:
                inner = Spot(at.number, at.dependencies, at)
                more = {"attrs": [{"path": "macro_use"}]} if self.chance(0.3) else {}
                if self.chance(0.7):
                    more["nodes"] = self.draw_expansion(inner, depth + 1)
                nodes.append(self.node("Module", self.id(), self.vis(at), name=self.choose(MODULES), **more))
            elif at.dependencies:
                nodes.append(self.draw_extern_crate(at))
        return nodes

    def id(self):
        self.next_id += 1
        return [self.next_id, 0]

    def vis(self, at):
        choices = [None, "pub", "pub", "pub", "crate", "self"]
        if at.parent is not None:
            choices.append({"in": "super"})
        return self.choose(choices)

    def path(self, at, last):
        """The text of a path, and its last name, if it has any."""
        where = self.choose(self.skeleton[at.number])
        segments = list(where) + ([self.choose(NAMES)] if last else [])
        if at.dependencies and self.random.random() < 0.25:
            krate, given = self.choose(at.dependencies)
            segments = [given] + list(self.choose(self.skeleton[krate])) + ([self.choose(NAMES)] if last else [])
            return "::".join(segments), segments[-1]
        roll = self.random.random()
        end = segments[-1] if segments else None
        if roll < 0.6 or not segments:
            return "::".join(["crate"] + segments), end
        if roll < 0.7:
            return "self::" + segments[-1], end
        if roll < 0.8:
            return "super::" + segments[-1], end
        return "::".join(segments), end

    def draw_items(self, at, path):
        modules = list(self.tree) if not path else (self.tree[path[0]] if len(path) == 1 else [])
        drawn = [("module", name) for name in modules] + [("other", None)] * self.random.randint(2, 5)
        self.random.shuffle(drawn)
        nodes = []
        for kind, name in drawn:
            roll = self.random.random()
            if self.calls and self.chance(0.3):
                nodes.append(self.draw_call(at) if self.chance(0.8) or not at.dependencies else self.draw_extern_crate(at))
            if self.calls and self.chance(0.15):
                nodes.append(self.draw_impl(at))
            if kind == "module":
                nodes.append(self.draw_module(at, path, name))
            elif self.macros and self.random.random() < 0.4:
                nodes.append(self.draw_macro(at))
            elif roll < 0.35:
                nodes.append(self.draw_definition(at))
            elif roll < 0.45:
                nodes.append(self.draw_enum(at))
            else:
                nodes.append(self.draw_use(at))
        return nodes

    def draw_module(self, at, path, name):
        node_id, vis = self.id(), self.vis(at)
        file = self.choose([name + ".rs", name + "/mod.rs"]) if self.calls and not path and self.chance(0.25) else None
        if file in self.files:
            return self.node("Module", node_id, vis, name=name)
        keep = self.next_id
        if file is not None:
            self.next_id = 0
        nodes = self.draw_items(Spot(at.number, at.dependencies, at), path + (name,))
        more = {}
        if self.macros and self.random.random() < 0.4:
            more["attrs"] = [{"path": "macro_use"}]
        if file is None:
            return self.node("Module", node_id, vis, name=name, nodes=nodes, **more)
        self.next_id = keep
        if self.chance(0.8):
            self.files[file] = {"nodes": nodes}
        return self.node("Module", node_id, vis, name=name, **more)

    def draw_macro(self, at):
        node_id, name, vis = self.id(), self.choose(ITEMS + ["m"]), self.vis(at)
        more = {}
        if self.calls:
            more["text"] = self.choose(TEXTS)
            if self.chance(0.15):
                more["styles"] = self.choose([["attr"], ["bang", "attr"], []])
        if self.random.random() < 0.3:
            return self.node("MacroDef", node_id, vis, name=name, **more)
        if self.random.random() < 0.3:
            more["attrs"] = [{"path": "macro_export"}]
        return self.node("MacroRules", node_id, None, name=name, **more)

    def draw_call(self, at):
        path = self.choose(ITEMS + ["m"]) if self.chance(0.6) else self.path(at, True)[0]
        more = {"attrs": [{"path": "cfg", "cfg": False}]} if self.chance(0.03) else {}
        return self.node("MacroCall", self.id(), None, path=path, input=self.choose(INPUTS), **more)

    def draw_extern_crate(self, at):
        more = {"attrs": [{"path": "macro_use"}]} if self.chance(0.6) else {}
        if self.chance(0.4):
            more["as"] = self.choose(["d", "x", "_"])
        return self.node("ExternCrate", self.id(), self.vis(at), name=self.choose(at.dependencies)[1], **more)

    def draw_definition(self, at):
        node_id, name, vis = self.id(), self.choose(ITEMS + ["m"]), self.vis(at)
        kind = self.choose(["Struct", "Fn", "Trait", "Record"])
        if kind == "Fn":
            return self.node("Fn", node_id, vis, name=name, body="")
        if kind == "Trait":
            return self.node("Trait", node_id, vis, name=name, items=self.draw_held(at) if self.calls else [])
        if kind == "Record":
            return self.node("Struct", node_id, vis, name=name, shape="record", fields=[])
        return self.node("Struct", node_id, vis, name=name)

    def draw_held(self, at):
        """What a trait or an impl holds."""
        nodes = []
        for _ in range(self.random.randint(0, 3)):
            kind, node_id = self.choose(["Fn", "Const", "TypeAlias", "MacroCall", "MacroCall"]), self.id()
            more = {"attrs": [{"path": "cfg", "cfg": False}]} if self.chance(0.1) else {}
            if kind == "MacroCall":
                more["path"] = self.choose(ITEMS + ["m"]) if self.chance(0.7) else self.path(at, True)[0]
                more["input"] = self.choose(INPUTS)
            elif kind != "Const" or self.chance(0.8):
                more["name"] = self.choose(ITEMS)
            nodes.append(self.node(kind, node_id, None, **more, **({"body": ""} if kind in ("Fn", "Const") else {})))
        return nodes

    def draw_impl(self, at):
        node_id = self.id()
        return self.node("Impl", node_id, None, trait=self.chance(0.5), items=self.draw_held(at))

    def draw_enum(self, at):
        node_id, name, vis = self.id(), self.choose(ITEMS + ["b"]), self.vis(at)
        nodes = []
        for _ in range(self.random.randint(1, 3)):
            variant_id, variant_name = self.id(), self.choose(NAMES)
            shape = self.choose(["unit", "tuple", "record"])
            nodes.append({"id": variant_id, "name": variant_name, "shape": shape})
        return self.node("Enum", node_id, vis, name=name, variants=nodes)

    def draw_use(self, at):
        node_id, vis = self.id(), self.vis(at)
        is_glob = self.random.random() < 0.5
        path, _ = self.path(at, not is_glob)
        if is_glob:
            return self.node("Use", node_id, vis, tree={"glob": path})
        tree = {"single": path}
        if self.random.random() < 0.4:
            tree["as"] = self.choose(NAMES)
        return self.node("Use", node_id, vis, tree=tree)

    @staticmethod
    def node(kind, node_id, vis, **fields):
        node = {"kind": kind, "id": node_id, **fields}
        if vis is not None:
            node["vis"] = vis
        return node

    # ---- commands and answers

    @staticmethod
    def entry(key, entry):
        caller, of, text, call, given = key
        call = list(call) if isinstance(call, tuple) else call
        command = {"do": "set expansion", "key": {"call": call, "caller": caller, "crate": of, "input": given, "text": text}, "unit": entry[0]}
        if entry[1] is not None:
            command["error"] = entry[1]
        return command

    def conversation(self, workspace):
        """Commands and the model's replies to them."""
        said = []

        def say(command):
            said.append((command, workspace.reply(command)))

        say({"do": "crates", "crates": self.inputs})
        for fields, nodes in zip(self.inputs, self.units):
            say({"do": "set file", "file": fields["root"], "unit": {"nodes": nodes}})
        for file, unit in self.files.items():
            say({"do": "set file", "file": file, "unit": unit})
        for key, entry in self.entries.items():
            say(self.entry(key, entry))
        self.set_more(say)
        say({"do": "refresh"})
        self.ask(workspace, say, not self.calls)
        if self.calls:
            self.edit(workspace, say)
        return said

    def set_more(self, say):
        """Further sources."""

    def ask(self, workspace, say, all_of_them):
        for number in range(len(self.crates)):
            say({"do": "modules", "crate": number})
            places = list(self.places(workspace.maps[number].root, [number]))
            for place in places if all_of_them else places[:8]:
                say({"do": "names", "at": place})
                for name in NAMES + ["d"]:
                    say({"do": "resolve", "at": place, "path": "self::" + name})
                    if self.macros:
                        say({"do": "resolve", "at": place, "path": name})
            if self.calls:
                for place in places[:4]:
                    self.ask_held(say, place)
                say({"do": "diagnostics", "crate": number})

    @staticmethod
    def ask_held(say, place):
        """What traits and impls hold."""
        for path in ITEMS + ["crate::" + ITEMS[0], "super::" + ITEMS[0]]:
            say({"do": "trait items", "at": place, "path": path})
        for number in range(3):
            say({"do": "impl items", "at": place, "impl": number})

    def asked_files(self):
        return [krate["root"] for krate in self.inputs] + sorted(self.files)[:3]

    def edit(self, workspace, say):
        """Edits of expansions and files, each followed by what is stale, and by the diagnostics of a refresh."""
        drawn = random.Random(dump(self.inputs))
        for _ in range(4):
            roll = drawn.random()
            if roll < 0.5 and self.entries:
                key = drawn.choice(list(self.entries))
                if drawn.random() < 0.4:
                    say({"do": "remove expansion", "key": self.entry(key, (None, None))["key"]})
                else:
                    say(self.entry(key, drawn.choice(list(self.entries.values()))))
            else:
                number = drawn.randrange(len(self.crates))
                changed = dump({"nodes": self.units[number]})
                old, new = drawn.choice([('"input":"i"', '"input":"j"'), ('"text":"A"', '"text":"B"'), ('"path":"x"', '"path":"S"')])
                say({"do": "set file", "file": self.inputs[number]["root"], "unit": json.loads(changed.replace(old, new))})
            for number in range(len(self.crates)):
                say({"do": "status", "at": [number]})
            for file in self.asked_files():
                say({"do": "modules", "file": file})
            say({"do": "refresh"})
            for file in self.asked_files():
                say({"do": "modules", "file": file})
            for number in range(len(self.crates)):
                say({"do": "diagnostics", "crate": number})
                say({"do": "resolve", "at": [number], "path": drawn.choice(NAMES)})
                self.ask_held(say, [number])

    def places(self, module, place):
        """The modules that a place names: those that their parent's name leads to."""
        yield place
        for name, child in module.children.items():
            yield from self.places(child, place + [name])


class Globs(Session):
    """Draws one crate, of modules that glob each other and call what globs bring."""

    MODULES, MACROS = ["a", "b", "c", "e"], ["x", "y"]

    def __init__(self, seed):
        self.random, self.macros, self.calls = random.Random(seed), True, True
        self.next_id, self.crates, self.files = 0, [[]], {}
        self.inputs = [{"edition": "2021", "root": "r0.rs", "attrs": [{"path": "recursion_limit", "literal": "4"}]}]
        nodes = [self.node("MacroRules", self.id(), None, name="f", text="F")] + self.draw_members(5)
        for name in self.MODULES:
            inner = self.draw_members(7)
            nodes.append(self.node("Module", self.id(), self.draw_vis(), name=name, nodes=inner))
        self.random.shuffle(nodes)
        self.units, self.entries = [nodes], {}
        for text in ["F"] + TEXTS:
            for given in INPUTS:
                self.next_id = 0
                self.entries[0, 0, text, "bang", given] = {"nodes": [self.draw_defined() for _ in range(self.random.randint(1, 3))]}, None

    def draw_vis(self):
        return self.choose(["pub"] * 6 + [None, "crate", {"in": "super"}])

    def draw_glob(self):
        return self.node("Use", self.id(), self.draw_vis(), tree={"glob": self.choose(["crate"] + ["crate::" + name for name in self.MODULES])})

    def draw_members(self, most):
        return [self.draw_member() for _ in range(self.random.randint(2, most))]

    def draw_member(self):
        roll = self.random.random()
        if roll < 0.35:
            return self.draw_glob()
        if roll < 0.55:
            return self.node("MacroCall", self.id(), None, path="f", input=self.choose(INPUTS))
        if roll < 0.85:
            path = self.choose(["", "", "self::", "crate::", "crate::a::", "crate::b::"]) + self.choose(self.MACROS)
            return self.node("MacroCall", self.id(), None, path=path, input=self.choose(INPUTS))
        return self.draw_defined()

    def draw_defined(self):
        roll, more = self.random.random(), {"name": self.choose(self.MACROS), "text": self.choose(TEXTS)}
        if roll < 0.45:
            return self.node("MacroDef", self.id(), self.draw_vis(), **more)
        if roll < 0.55:
            return self.node("MacroRules", self.id(), None, attrs=[{"path": "macro_export"}], **more)
        if roll < 0.85:
            return self.node("Struct", self.id(), self.draw_vis(), name=self.choose(["S", "T"]))
        if roll < 0.9:
            return self.draw_glob()
        inner = [self.node("Struct", self.id(), "pub", name="S")]
        return self.node("Module", self.id(), "pub", name=self.choose(self.MODULES), nodes=inner)

    def ask(self, workspace, say, all_of_them):
        say({"do": "modules", "crate": 0})
        for place in [[0]] + [[0, name] for name in self.MODULES]:
            say({"do": "names", "at": place})
            for name in self.MACROS + ["S", "T"]:
                say({"do": "resolve", "at": place, "path": "self::" + name})
        say({"do": "diagnostics", "crate": 0})


class Attributes(Session):
    """Draws a session with calls, and attributes of its items."""

    def __init__(self, seed):
        super().__init__(seed, True, True)
        for number, nodes in enumerate(self.units):
            self.decorate(nodes)
            if self.chance(0.3):
                self.inputs[number]["proc_macro"] = True
                self.export(nodes)
        for unit in [*self.files.values(), *(entry[0] for entry in self.entries.values())]:
            if isinstance(unit, dict):
                self.decorate(unit["nodes"])
        bang = {key: entry for key, entry in self.entries.items()}
        for caller, of, text, _, given in bang:
            for call in ("derive", ("attr", 0), ("attr", 1), ("attr", 2)):
                if self.chance(0.7):
                    self.entries[caller, of, self.choose([text, text, "m", "x"]), call, given] = self.choose(list(bang.values()))
        drawn = [(caller, of, name, call, given) for caller, of, _, _, given in bang for name in ("m", "x", "S") for call in ("bang", "derive", ("attr", 0))]
        for key in drawn:
            if self.chance(0.3):
                self.entries[key] = self.choose(list(bang.values()))

    def decorate(self, nodes):
        for node in nodes:
            self.decorate(node.get("nodes", []))
            if node["kind"] in ("MacroDef", "MacroRules") and self.chance(0.6):
                node["styles"] = self.choose([["attr"], ["derive"], ["attr", "derive"], ["bang", "attr", "derive"]])
                node["helpers"] = self.choose([[], ["h"], ["h", "g"]])
                if self.chance(0.2):
                    node["expander"] = self.choose(["builtin_attr", "builtin_derive", "builtin_derive", "unimplemented"])
            if self.chance(0.35):
                node["attrs"] = node.get("attrs", []) + [self.attribute(node) for _ in range(self.random.randint(1, 3))]
                node["input"] = self.choose(INPUTS)

    def attribute(self, node):
        roll = self.random.random()
        if node["kind"] in ("Struct", "Enum") and roll < 0.5 or roll < 0.05:
            paths = [self.choose(["self::", "crate::", ""]) + self.choose(ITEMS + ["m"]) for _ in range(self.random.randint(0, 2))]
            return {"path": "derive", "paths": paths} if self.chance(0.95) else {"path": "derive"}
        if roll < 0.7:
            return {"path": self.choose(["self::", "crate::", "", "", ""]) + self.choose(ITEMS + ["m"])}
        return {"path": self.choose(["h", "h", "g", "nope", "inline", "clippy::x", "crate::a::m", "d::m", "d::x"])}

    def export(self, nodes):
        for node in nodes:
            if node["kind"] == "Fn" and self.chance(0.7):
                node["attrs"] = node.get("attrs", []) + [self.choose([
                    {"path": "proc_macro"}, {"path": "proc_macro_attribute"}, {"path": "proc_macro_derive"},
                    {"path": "proc_macro_derive", "derive": self.choose(ITEMS + ["m"]), "helpers": ["h"]}])]


class Blocks(Session):
    """Draws a session with calls, and blocks in its modules and in one another."""

    ROOTS = ["", "", "self::", "super::", "super::super::", "crate::", "::"]

    def __init__(self, seed):
        super().__init__(seed, True, True)
        self.units_of_blocks = {}
        for _ in range(self.random.randint(2, 7)):
            place = self.draw_place()
            self.units_of_blocks[dump(place)] = self.draw_block(place)

    def draw_place(self):
        if self.units_of_blocks and self.chance(0.45):
            place = json.loads(self.choose(list(self.units_of_blocks)))
            if self.chance(0.4):
                place.append(self.choose(MODULES))
        else:
            number = self.random.randrange(len(self.crates))
            place = [number, *self.choose(self.skeleton[number])]
        return place + [{"block": [self.random.randint(1, 2), self.random.randint(0, 1)]}]

    def draw_block(self, place):
        number, self.next_id = place[0], 0
        self.tree = {name: [inner for inner in MODULES if self.chance(0.2)] for name in MODULES if self.chance(0.5)}
        around = Spot(number, self.crates[number])
        return {"nodes": self.draw_items(Spot(number, self.crates[number], around), ())}

    def path(self, at, last):
        text, end = super().path(at, last)
        if self.chance(0.5):
            return text, end
        names = [self.choose(NAMES) for _ in range(self.random.randint(1, 2))]
        return self.choose(self.ROOTS) + "::".join(names), names[-1]

    def set_more(self, say):
        for place, unit in self.units_of_blocks.items():
            say({"do": "set block", "at": json.loads(place), "unit": unit})

    def ask(self, workspace, say, all_of_them):
        super().ask(workspace, say, all_of_them)
        for number in range(len(self.crates)):
            say({"do": "dump", "at": [number]})
        self.ask_blocks(workspace, say)

    def ask_blocks(self, workspace, say):
        drawn = random.Random(dump(self.inputs))
        for place in self.units_of_blocks:
            at = json.loads(place)
            say({"do": "status", "at": at})
            say({"do": "dump", "at": at})
            _, root = workspace.status(read_place(at))
            for inner in [at] if root is None else list(self.places(root, at))[:6]:
                say({"do": "names", "at": inner})
                for name in NAMES + ["d", "u8"]:
                    more = drawn.choice([{}, {}, {"sub": "bang"}, {"sub": "attr"}, {"shadow": "module"}])
                    say({"do": "resolve", "at": inner, "path": drawn.choice(self.ROOTS) + name, **more})
                    say({"do": "resolve", "at": inner, "path": drawn.choice(NAMES) + "::" + name})
                self.ask_held(say, inner)

    def edit(self, workspace, say):
        super().edit(workspace, say)
        drawn = random.Random(dump(self.inputs))
        for _ in range(5):
            place = drawn.choice(list(self.units_of_blocks))
            if drawn.random() < 0.3:
                say({"do": "remove block", "at": json.loads(place)})
            else:
                changed = dump(drawn.choice(list(self.units_of_blocks.values())))
                old, new = drawn.choice([('"input":"i"', '"input":"j"'), ('"text":"A"', '"text":"B"'), ('"path":"x"', '"path":"S"')])
                say({"do": "set block", "at": json.loads(place), "unit": json.loads(changed.replace(old, new))})
            for other in self.units_of_blocks:
                say({"do": "status", "at": json.loads(other)})
            if drawn.random() < 0.7:
                say({"do": "refresh"})
        super().edit(workspace, say)
        say({"do": "refresh"})
        self.ask_blocks(workspace, say)


class Data(Attributes):
    """Draws a session with attributes and conditions, in which crates get other data."""

    OPTIONS = ["p", {"key": "q", "value": "1"}]

    def __init__(self, seed):
        super().__init__(seed)
        for nodes in self.units:
            self.condition(nodes)
        for unit in [*self.files.values(), *(entry[0] for entry in self.entries.values())]:
            if isinstance(unit, dict):
                self.condition(unit["nodes"])

    def condition(self, nodes):
        for node in nodes:
            self.condition(node.get("nodes", []) + node.get("items", []) + node.get("variants", []))
            if self.chance(0.1):
                node["attrs"] = node.get("attrs", []) + [{"path": "cfg", "cfg": self.choose([*self.OPTIONS, {"not": "p"}, {"any": self.OPTIONS}])}]

    def attributes(self, drawn):
        """Attributes of a crate; the limit of depths keeps expansions few."""
        others = [{"path": "register_tool", "paths": ["nope", "d"]}, {"path": "no_std"}, {"path": "cfg", "cfg": "p"}, {"path": "allow", "tokens": "x"},
                  {"path": "cfg_attr", "cfg": "p", "attrs": [{"path": "recursion_limit", "literal": "0"}]}]
        limit = {"path": "recursion_limit", "literal": drawn.choice("0123")}
        return [limit] + [attr for attr in others if drawn.random() < 0.2]

    def changed(self, number, krate, drawn):
        roll, found = drawn.random(), {**krate}
        if roll < 0.2:
            found["edition"] = drawn.choice(["2015", "2018", "2021", "2024"])
        elif roll < 0.45:
            found["attrs"] = self.attributes(drawn)
        elif roll < 0.65:
            found["cfg"] = [option for option in self.OPTIONS if drawn.random() < 0.5]
        elif number:
            names = [drawn.choice(["d", "d", "a", "x"]) for _ in range(drawn.randint(0, 2))]
            found["deps"] = [{"crate": drawn.randrange(number), "name": name, "prelude": drawn.random() < 0.8} for name in names]
        return found

    def edit(self, workspace, say):
        drawn, crates = random.Random(dump(self.inputs)), list(self.inputs)
        for _ in range(6):
            number = drawn.randrange(len(crates))
            crates[number] = self.changed(number, crates[number], drawn)
            say({"do": "set crate", "crate": number, "to": {**crates[number], "proc_macro": drawn.random() < 0.5}})
            for other in range(len(crates)):
                say({"do": "status", "at": [other]})
            if drawn.random() < 0.3:
                continue
            say({"do": "refresh"})
            for other in range(len(crates)):
                say({"do": "diagnostics", "crate": other})
                say({"do": "names", "at": [other]})
                say({"do": "resolve", "at": [other], "path": drawn.choice(["$0::", "d::", "::d::", "::a::"]) + drawn.choice(NAMES)})
        super().edit(workspace, say)


class Edits:
    """A session of tools/random_sessions.py."""

    def __init__(self, seed):
        self.commands = random_sessions.session(seed)[0]

    def conversation(self, workspace):
        return [(command, workspace.reply(command)) for command in self.commands]


def lines_of(session):
    """Commands and replies as lines."""
    said = session.conversation(Workspace())
    return [dump(command) for command, _ in said], [dump(reply) for _, reply in said]


def rows(name):
    """The sessions of a file of rows, each with its label."""
    found = []
    with open(ROWS + "/" + name, encoding="utf-8", errors="surrogateescape") as file:
        for line in file.read().removesuffix("\n").split("\n"):
            if line.startswith("# "):
                found.append([line])
            else:
                found[-1].append(line)
    return found


def compare_rows():
    """Whether the model replies as the rows do."""
    same = 0
    for commands, replies in zip(rows("stdin"), rows("stdout")):
        workspace = Workspace()
        for command, wanted in zip(commands[1:], replies[1:]):
            if json.loads(wanted).get("error") in REFUSALS:
                continue
            reply = workspace.reply(json.loads(command))
            if reply is not None and dump(reply) != dump(json.loads(wanted)):
                sys.stderr.write("%s\n%s\n  row   %s\n  model %s\n" % (commands[0], command[:1000], wanted, dump(reply)))
                return 1
            same += reply is not None
    print("%d replies of rows are the model's" % same)
    return 0


def compare(program, seed, commands, answers):
    ran = subprocess.run([program], input="\n".join(commands) + "\n", capture_output=True, text=True)
    replies = ran.stdout.splitlines()
    if replies == answers:
        return True
    sys.stderr.write("seed %d\n" % seed)
    for command, reply, wanted in zip(commands, replies + [""] * len(answers), answers):
        sys.stderr.write(command + "\n")
        if reply != wanted:
            sys.stderr.write("  answered %s\n  wanted   %s\n" % (reply, wanted))
    return False


def main():
    parser = argparse.ArgumentParser()
    parser.add_argument("--sessions", type=int, default=100)
    parser.add_argument("--seed", type=int, default=0)
    parser.add_argument("--macros", action="store_true")
    parser.add_argument("--calls", action="store_true")
    parser.add_argument("--globs", action="store_true")
    parser.add_argument("--attributes", action="store_true")
    parser.add_argument("--blocks", action="store_true")
    parser.add_argument("--data", action="store_true")
    parser.add_argument("--edits", action="store_true")
    parser.add_argument("--rows", action="store_true")
    parser.add_argument("--program", default="crates/hir_session_main/out/hir_session_main")
    parser.add_argument("--write")
    options = parser.parse_args()
    sys.setrecursionlimit(100000)
    if options.rows:
        return compare_rows()
    lists = random_sessions.Lists()
    written, kinds = [], {"edits": Edits, "data": Data, "attributes": Attributes, "globs": Globs, "blocks": Blocks}
    kind = next((kind for kind in kinds if vars(options)[kind]), None)
    for seed in range(options.seed, options.seed + options.sessions):
        lines = lines_of(Session(seed, options.macros, options.calls) if kind is None else kinds[kind](seed))
        if options.write:
            written.append((seed, *lines))
            continue
        if not compare(options.program, seed, *lines):
            return 1
        lists.add([json.loads(command) for command in lines[0]], lines[1])
    if options.write:
        kind = kind or ("calls" if options.calls else None)
        label = "# drawn: " + (kind + " of " if kind else "") + "seed %d"
        with open(options.write + "/stdin", "w") as commands_file, open(options.write + "/stdout", "w") as answers_file:
            for seed, commands, answers in written:
                commands_file.write("\n".join([label % seed] + commands) + "\n")
                answers_file.write("\n".join([label % seed] + answers) + "\n")
    else:
        print("%d sessions answered as the model does; %s" % (options.sessions, lists))
    return 0


if __name__ == "__main__":
    sys.exit(main())
