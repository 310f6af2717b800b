#!/usr/bin/env python3
"""Measures how much stack the program takes for the deepest inputs of each limit.

Usage, at the top of the repository: tools/stack.py [--program FILE] [--most KB] [--stored] [--hostile] [NAME..]. It prints a line an
input, by default each of INPUTS, and ends with 1 where one has taken more than --most KB (512), where the stack has grown behind the
first reply, where a reply isn't `ok` or one of the errors that the input names, or where the program has ended. With --stored it runs
the stored sessions (crates/hir_session_rows) besides, with --hostile the inputs of tools/hostile.py, and prints the most of each.

The program makes its stack grow when it starts, and fills what it doesn't need yet with zeros. So what is compared is the memory of the
stack behind the first reply, to a line that is no command, and behind the last: the lowest byte that differs is the deepest that
was taken between them. It is counted from the end of the stack, below which are the arguments and the environment.
"""
import argparse
import json
import os
import resource
import subprocess
import sys

import hostile
from hostile import REFRESH, block, crates, diagnostics, expansion, limit_of, nested, node, resolve, set_block, set_file, status
from program_runs import line, program_of, stored_sessions

MEGABYTES = 400


def ask_all(place, krate=0):
    """Each question of a place, of its crate and of its file."""
    yield from (resolve(path, *place) for path in ("S", "self::S", "super::" * 200 + "S", "::".join(["super"] * 31), "::".join(["m"] * 60)))
    yield from ({"do": word, "at": place} for word in ("dump", "names", "status"))
    yield {"do": "trait items", "at": place, "path": "T"}
    yield {"do": "impl items", "at": place, "impl": 0}
    yield from (diagnostics(krate), {"do": "modules", "crate": krate}, {"do": "modules", "file": "lib.rs"}, {"do": "tree", "crate": krate, "file": "lib.rs"})


MACRO_USE = {"path": "macro_use"}


def deepest_items(at=0):
    """Items that nest as far as they may, a call that brings them again, and none of their ids twice for two numbers."""
    conditions = [{"path": "cfg", "cfg": {"not": nested(15, "x", lambda it: {"all": [it]})}}]
    conditions += [nested(15, {"path": "inline"}, lambda it: {"path": "cfg_attr", "cfg": {"not": "x"}, "attrs": [it]})]
    # the longest paths, and an attribute that is given up, once
    lost = [{"path": "nope"}] if at == 0 else []
    ahead = "m" + "::m" * (63 if at == 0 else 0)
    tree = nested(24, {"single": ahead[3:] + "::S"}, lambda it: {"path": ahead, "list": [it, {"glob": None}]})
    one, two = 1000 + 2 * at, 1001 + 2 * at
    held = lambda it: [node("Fn", it, "f", body="", attrs=conditions), node("MacroCall", it + 1000, path="again", input="k")]
    yield node("Struct", one, "S", attrs=conditions)
    yield node("Use", one, tree=tree, attrs=conditions)
    yield node("Use", two, tree={"glob": "super::" * 30 + "super"}, vis="pub")
    yield node("Enum", one, "E", variants=[{"id": [one, 0], "name": "A", "attrs": conditions}])
    yield node("Trait", one, "T", items=held(one))
    yield node("Impl", one, trait=True, items=held(two), attrs=conditions)
    yield node("ExternBlock", one, nodes=[node("Static", one, "x", attrs=conditions)], attrs=conditions)
    yield node("Fn", one + 1000, "g", body="", vis={"in": "super::" * 32 + "super"}, attrs=[*lost, *conditions])
    yield node("MacroCall", one, path="again", input="k")
    yield node("MacroRules", one, "again", text="again")


def modules_in_one_another(count, inner):
    """So many inline modules in one another, with the deepest items in each and further ones in the innermost."""
    found = [*deepest_items(count), *inner]
    for depth in reversed(range(count)):
        found = [*deepest_items(depth), node("Module", depth, "m", vis="pub", nodes=found, attrs=[MACRO_USE])]
    return found


def begin(*nodes, **fields):
    """A session over these items, with what the call among the deepest ones expands to."""
    yield crates(**fields)
    yield set_file("lib.rs", *nodes)
    yield expansion("again", "k", *(it for it in deepest_items() if it["kind"] != "MacroCall"))


def inline_modules():
    """31 inline modules in one another, a file as the 32nd, and one more in it."""
    yield from begin(*modules_in_one_another(31, [node("Module", 31, "m", vis="pub")]))
    yield set_file("m/" * 31 + "m.rs", *deepest_items(), node("Module", 0, "m", vis="pub", nodes=list(deepest_items(1))))
    yield REFRESH
    yield from ask_all([0] + ["m"] * 32)


def file_modules():
    """The same by a file that names itself."""
    yield from begin(*deepest_items(), node("Module", 0, "m", vis="pub", attrs=[MACRO_USE, {"path": "path", "literal": "lib.rs"}]))
    yield REFRESH
    yield from ask_all([0] + ["m"] * 32)


def expanded_modules():
    """The same by an expansion that holds a module with a call of it."""
    call = node("MacroCall", 1, path="foo", input="k")
    yield from begin(node("MacroRules", 1, "foo", text="foo"), call)
    yield expansion("foo", "k", node("Module", 1, "m", vis="pub", nodes=[*deepest_items(), call], attrs=[MACRO_USE]))
    yield REFRESH
    yield from ask_all([0] + ["m"] * 32)


def expanded_inline_modules():
    """32 inline modules in one another, brought by each of 3 expansions in one another."""
    call = node("MacroCall", 1, path="crate::foo", input="k")
    yield from begin(node("MacroDef", 1, "foo", text="foo"), call, **limit_of(3))
    yield expansion("foo", "k", call, *modules_in_one_another(32, []))
    yield REFRESH
    yield from ask_all([0] + ["m"] * 32)


def blocks_and_modules():
    """16 blocks in one another, each in the innermost of 32 modules, with the deepest items in the innermost of each."""
    inner = nested(32, list(deepest_items()), lambda it: [node("Module", it[-1]["id"][0] % 1000 + 1, "m", vis="pub", nodes=it, attrs=[MACRO_USE])])
    yield from begin(*inner)
    place = [0] + ["m"] * 32
    for _ in range(16):
        place = [*place, block(1)]
        yield set_block(place, *inner)
        place = place + ["m"] * 32
    yield REFRESH
    yield status(*place)
    yield from ask_all(place)
    yield from ask_all(place[:-32])


def blocks_alone():
    """16 blocks in one another, without modules."""
    yield from begin(*deepest_items())
    for depth in range(1, 17):
        yield set_block([0] + [block(1)] * depth, *deepest_items())
    yield REFRESH
    yield from ask_all([0] + [block(1)] * 16)


def lists_without_an_end():
    """A trait and an impl whose calls expand to calls of themselves, with no limit that is reached, until there is no memory."""
    call = node("MacroCall", 1, path="foo", input="k")
    yield crates(**limit_of(4_294_967_295))
    trait, impl = node("Trait", 1, "T", items=[call]), node("Impl", 1, trait=False, items=[{**call, "id": [2, 0]}])
    yield set_file("lib.rs", node("MacroRules", 1, "foo", text="A"), trait, impl)
    yield expansion("A", "k", node("Fn", 1, "f", body=""), call)
    yield REFRESH
    yield from ask_all([0])


def calls_without_an_end():
    """The same in a file: 8,193 rounds."""
    call = node("MacroCall", 1, path="foo", input="k")
    yield crates(**limit_of(4_294_967_295))
    yield set_file("lib.rs", node("MacroRules", 1, "foo", text="A"), call)
    yield expansion("A", "k", node("Fn", 1, "f", body=""), call)
    yield REFRESH
    yield from ask_all([0])


def long_chains():
    """3,000 modules that glob the next, 3,000 imports of the next, and 1,000 modules with `macro_use`."""
    n = 3000
    globs = [node("Module", k, f"g{k}", nodes=[node("Use", k, vis="pub", tree={"glob": f"crate::g{(k + 1) % n}"})]) for k in range(n)]
    imports = [node("Use", n + k, tree={"single": f"self::i{k + 1}", "as": f"i{k}"}) for k in range(n)]
    uses = [node("Module", n + k, f"u{k}", attrs=[MACRO_USE], nodes=[node("MacroRules", k, f"r{k}", text="")]) for k in range(1000)]
    yield crates()
    yield set_file("lib.rs", *globs, *imports, *uses, node("Struct", 1, f"i{n}"), node("Struct", 2, "S"))
    yield REFRESH
    yield resolve("i0")
    yield from ask_all([0])


def crates_on_one_another():
    """1,000 crates, each over the one before it, and a path through 63 of them."""
    n = 1000
    yield crates({"root": "lib.rs"}, *({"root": "lib.rs", "deps": [{"crate": k, "name": "p"}]} for k in range(n - 1)))
    yield set_file("lib.rs", node("Struct", 1, "S", vis="pub"), node("Use", 1, vis="pub", tree={"single": "p", "as": "m"}), node("Use", 2, vis="pub", tree={"glob": "p"}))
    yield REFRESH
    yield from ask_all([n - 1], n - 1)
    yield {"do": "remove file", "file": "lib.rs"}
    yield REFRESH


def deep_lines():
    """Arrays and objects 127 deep, and one more."""
    for count in (127, 128):
        yield b"[" * count + b"]" * count
        yield b'{"x":' * (count - 1) + b"{}" + b"}" * (count - 1)
        yield b'{"do":"crates","crates":' + b"[" * (count - 1) + b"]" * (count - 1) + b"}"
        yield b"[" * (count * 1000)
        yield b'{"x":' * (count * 1000)


INPUTS = [inline_modules, file_modules, expanded_modules, expanded_inline_modules, blocks_and_modules, blocks_alone]
INPUTS += [lists_without_an_end, calls_without_an_end, long_chains, crates_on_one_another, deep_lines]
# the errors that may stand among the replies of an input
NO_ITEMS = ["not a trait", "no such impl"]
ERRORS = {lists_without_an_end: ["memory"], deep_lines: ["json", "command"]}
ERRORS.update(dict.fromkeys((blocks_and_modules, crates_on_one_another, long_chains, calls_without_an_end), NO_ITEMS))


class Measured:
    """A run of the program; how much stack it has, in KB."""

    def __init__(self, program):
        limit = lambda: resource.setrlimit(resource.RLIMIT_DATA, (MEGABYTES << 20, MEGABYTES << 20))
        self.child = subprocess.Popen([program], stdin=subprocess.PIPE, stdout=subprocess.PIPE, preexec_fn=limit)
        self.say(b"")
        self.first = self.memory()

    def say(self, command):
        try:
            self.child.stdin.write(line(command) + b"\n")
            self.child.stdin.flush()
        except BrokenPipeError:
            pass
        return self.child.stdout.readline()

    def memory(self):
        """Where the stack begins, and what is in it; nothing where the program has ended."""
        try:
            with open(f"/proc/{self.child.pid}/maps", encoding="ascii") as file:
                low, high = next(it.split()[0].split("-") for it in file if it.rstrip().endswith("[stack]"))
            with open(f"/proc/{self.child.pid}/mem", "rb") as file:
                file.seek(int(low, 16))
                return int(low, 16), file.read(int(high, 16) - int(low, 16))
        except (OSError, StopIteration):
            return 0, b""

    def stack(self):
        """How much was mapped at first and is now, and how much was taken."""
        (low, first), (now, last) = self.first, self.memory()
        if not first or not last:
            return 0, 0, None
        last = last[low - now:]
        # between these all bytes are the same
        at, end = 0, len(first)
        while at < end:
            half = (at + end + 1) // 2
            at, end = (half, end) if first[at:half] == last[at:half] else (at, half - 1)
        taken = len(first) - at if low == now else len(first) + low - now
        return len(first) // 1024, (len(first) + low - now) // 1024, -(-taken // 1024)

    def end(self):
        try:
            self.child.stdin.close()
        except BrokenPipeError:
            pass
        self.child.stdout.close()
        return self.child.wait()


def measure(program, lines, errors=None):
    """The most stack of a session, and what was wrong with it. Without errors that are named each reply may be one."""
    run, wrong = Measured(program), None
    for command in lines:
        reply = run.say(command)
        if not reply:
            wrong = f"no reply to {line(command)[:100]}"
            break
        error = json.loads(reply).get("error")
        if errors is not None and error is not None and error not in errors:
            wrong = wrong or f"{line(command)[:100]} was answered {reply[:100]}"
    first, last, found = run.stack()
    if last != first:
        wrong = f"{wrong or ''}, grown from {first} to {last} kB"
    ended = run.end()
    if ended:
        wrong = f"{wrong or ''}, ended with {ended}"
    return found, wrong


def main():
    parser = argparse.ArgumentParser(description=__doc__.split("\n")[0])
    parser.add_argument("--program")
    parser.add_argument("--most", type=int, default=512)
    parser.add_argument("--stored", action="store_true")
    parser.add_argument("--hostile", action="store_true")
    parser.add_argument("names", nargs="*")
    given = parser.parse_args()
    program, failed = program_of(given.program), False

    def tell(name, found, wrong):
        nonlocal failed
        above = found is None or found > given.most
        failed |= above or wrong is not None
        print(f"{name}: {found} kB" + (f", above {given.most}" if above else "") + (f"; {wrong}" if wrong else ""), flush=True)

    run = Measured(program)
    print(f"at the start {len(run.first[1]) // 1024} kB are mapped")
    run.end()
    for made in INPUTS:
        if not given.names or made.__name__ in given.names:
            tell(made.__name__, *measure(program, made(), ERRORS.get(made, [])))
    for made, n in hostile.INPUTS.items() if given.hostile else ():
        found = [measure(program, (command for command, _ in pairs)) for pairs in hostile.parts(made(n))]
        tell(f"{made.__name__} {n}", max((it for it, _ in found if it), default=None), next((wrong for _, wrong in found if wrong), None))
    if given.stored:
        found = [(*measure(program, lines), label) for label, lines, _ in stored_sessions()]
        tell(f"{len(found)} stored sessions, most in {max(found, key=lambda it: it[0] or 0)[2][:60]}", max((it for it, _, _ in found if it), default=None), next((wrong for _, wrong, _ in found if wrong), None))
    sys.exit(failed)


if __name__ == "__main__":
    main()
