#!/usr/bin/env python3
"""Runs sessions once for each request for memory, with that one refused, until none is: each line has to be answered as with
ample memory, or by `memory`; a line that is answered so is sent again. A `refresh` that is sent again may list the end of the list.

Then once more for each request, with that one and all behind it refused, and each line sent once: up to the first `memory` the
replies are those with ample memory, every line behind it is answered by `memory`, and the program ends with status 0. So the words
for it take no memory.

By the first request the program looks whether there is memory for its stack: where that one is refused, it ends with status 1 and
`stack fault`, and answers nothing.

Usage, at the top of the repository: tools/refuse_each.py [--program FILE] [--count K] [WORDS..]. With --count K it does the first
part alone, with K requests in a row refused, from each on. It takes those stored sessions (crates/hir_session_rows) whose labels
contain one of WORDS, or SESSIONS of program_runs, of which that of a glob asks further questions, one of crates that get other data,
one with a long line, and one with each command, whose replies the plain model (tools/model) gives: WORDS for these three are `a glob`, `a line of 150,000 bytes`,
`each command`.
It ends with 1 at the first reply that is another one.
"""
import argparse
import sys

from model.syntax import dump
from model.workspace import Workspace
from program_runs import MEMORY, SESSIONS, Again, answers, is_as_ample, program_of, sessions_of

LONG_LINE, GLOB, EACH_COMMAND = "a line of 150,000 bytes", "a glob", "each command"
OTHER_DATA = "crate_data: several_edits_before_a_refresh"
NOTHING = b'{"ok":{"macros":null,"stop":null,"types":null,"values":null}}'
FOR_GOOD = 10**9


def long_line():
    """A session with a line that is read in three pieces."""
    unit = b'{"nodes":[{"kind":"Fn","id":[1,0],"name":"f","body":"' + b"x" * 150_000 + b'"}]}'
    lines = [b'{"do":"crates","crates":[{"edition":"2021","root":"lib.rs"}]}', b'{"do":"set file","file":"lib.rs","unit":' + unit + b"}"]
    lines += [b'{"do":"refresh"}', b'{"do":"resolve","at":[0],"path":"g"}']
    return LONG_LINE, lines, [b'{"ok":null}', b'{"ok":null}', b'{"ok":[[0]]}', NOTHING]


def glob():
    """The stored session of a glob, and what it doesn't bring."""
    ((_, lines, replies),) = sessions_of(["globs: struct_by_glob"])
    return GLOB, [*lines, b'{"do":"resolve","at":[0],"path":"T"}', b'{"do":"status","at":[0,"b"]}'], [*replies, NOTHING, b'{"ok":"unknown"}']


def each_command():
    """A session of two crates with each command in it."""
    node = lambda kind, number, name=None, **fields: {"kind": kind, "id": [number, 0], **({} if name is None else {"name": name}), **fields}
    call = lambda number, given: node("MacroCall", number, path="make", input=given)
    key = lambda given: {"caller": 1, "crate": 1, "text": "T", "call": "bang", "input": given}
    below = {"edition": "2021", "root": "a.rs"}
    above = {"edition": "2021", "root": "lib.rs", "deps": [{"crate": 0, "name": "zero"}]}
    nodes = [
        node("MacroRules", 1, "make", text="T"),
        node("Module", 2, "m"),
        node("Use", 3, tree={"list": [{"single": "zero::A"}, {"glob": "m"}, {"single": "nothing::at_all"}]}),
        node("Trait", 4, "T", items=[node("Fn", 5, "f", body=""), call(6, "held")]),
        node("Impl", 7, trait=False, items=[call(8, "held")]),
        node("Enum", 9, "E", variants=[{"id": [10, 0], "name": "V"}], attrs=[{"path": "cfg", "cfg": {"not": "p"}}]),
        call(11, "k"),
    ]
    block, file = [1, "m", {"block": [1, 0]}], {"nodes": [node("Struct", 1, "M", vis="pub")]}
    asks = [{"do": "resolve", "at": at, "path": path} for at, path in (([1], "A"), ([1], "E::V"), (block, "N"), (block, "super::Made"))]
    asks += [{"do": "trait items", "at": [1], "path": "T"}, {"do": "impl items", "at": [1], "impl": 0}, {"do": "names", "at": [1]}]
    asks += [{"do": "modules", "crate": 1}, {"do": "modules", "file": "m.rs"}, {"do": "dump", "at": block}, {"do": "diagnostics", "crate": 1}]
    commands = [
        {"do": "crates", "crates": [below, above]},
        {"do": "set file", "file": "a.rs", "unit": {"nodes": [node("Struct", 1, "A", vis="pub")]}},
        {"do": "set file", "file": "lib.rs", "unit": {"nodes": nodes}},
        {"do": "set file", "file": "m.rs", "unit": file},
        {"do": "set expansion", "key": key("k"), "unit": {"nodes": [node("Struct", 1, "Made", vis="pub")]}},
        {"do": "set expansion", "key": key("held"), "unit": {"nodes": [node("Const", 1, "C", body=""), node("TypeAlias", 2, "C")]}},
        {"do": "set block", "at": block, "unit": {"nodes": [node("Struct", 1, "N"), node("Use", 2, tree={"glob": "super"})]}},
        {"do": "refresh"},
        *asks,
        {"do": "tree", "crate": 0, "file": "a.rs"},
        {"do": "set crate", "crate": 1, "to": {**above, "cfg": ["p"], "edition": "2018"}},
        {"do": "status", "at": block},
        {"do": "refresh"},
        *asks,
        {"do": "remove expansion", "key": key("k")},
        {"do": "remove block", "at": block},
        {"do": "remove file", "file": "m.rs"},
        {"do": "status", "at": [0]},
        {"do": "refresh"},
        *asks,
    ]
    model, page = Workspace(), {"ok": "// AstId: Struct[0001, 0]\npub struct A { ... }\n"}
    replies = [page if it["do"] == "tree" else model.reply(it) for it in commands]
    return EACH_COMMAND, [dump(it).encode() for it in commands], [dump(it).encode() for it in replies]


def refuse(program, lines, replies, at, count):
    """Runs the lines with requests refused from the one of that number on; what was wrong, how many were refused, and the lines
    that were answered by `memory`."""
    run = Again(program, lines, count + 1, refuse_at=at, refuse_count=count)
    again = [number for number, (_, tries) in enumerate(run.replies, 1) if tries]
    for number, (line, ample, (reply, tries)) in enumerate(zip(lines, replies, run.replies), 1):
        if not is_as_ample(line, reply, ample, tries > 0):
            return f"line {number}: {line[:300]}\n  answered {reply[:600]}\n  wanted   {ample[:600]}", run.refused, again
    wrong = None if (run.status, run.words) == (0, "") else f"status {run.status}, {run.words[:300]}"
    return wrong, run.refused, again


def refuse_first(program, lines):
    """Runs the lines with the first request refused, alone and with all behind it; what was wrong."""
    for count in (1, FOR_GOOD):
        found = answers(program, b"".join(it + b"\n" for it in lines), refuse_at=1, refuse_count=count)
        if found != (b"", 1, "stack fault\n"):
            return f"status {found[1]}, {found[2][:300]}, answered {found[0][:600]}"
    return None


def refuse_for_good(program, lines, replies, at):
    """Runs the lines with all requests refused from the one of that number on; what was wrong."""
    written, status, words = answers(program, b"".join(it + b"\n" for it in lines), refuse_at=at, refuse_count=FOR_GOOD)
    found = written.removesuffix(b"\n").split(b"\n")
    if (status, words, len(found)) != (0, "", len(lines)):
        return f"status {status}, {words[:300]}, {len(found)} replies to {len(lines)} lines"
    first = next((number for number, reply in enumerate(found) if reply == MEMORY), len(lines))
    for number, (line, reply, ample) in enumerate(zip(lines, found, replies)):
        if reply != ample if number < first else reply != MEMORY:
            return f"line {number + 1}: {line[:300]}\n  answered {reply[:600]}\n  wanted   {(ample if number < first else MEMORY)[:600]}"
    return None


def main():
    parser = argparse.ArgumentParser(description=__doc__.split("\n")[0])
    parser.add_argument("--program")
    parser.add_argument("--count", type=int)
    parser.add_argument("words", nargs="*")
    given = parser.parse_args()
    program = program_of(given.program)
    own = {GLOB: glob, LONG_LINE: long_line, EACH_COMMAND: each_command}
    stored = [it for it in given.words if it not in own] if given.words else [*(it for it in SESSIONS if not it.startswith("globs: ")), OTHER_DATA]
    sessions = sessions_of(stored) + [made() for label, made in own.items() if not given.words or label in given.words]
    for label, lines, replies in sessions:
        wrong = refuse_first(program, lines)
        if wrong:
            sys.exit(f"{label}\nrequest 1 refused: {wrong}")
        at, silent, repeated = 1, 0, 0
        while True:
            at += 1
            wrong, refused, again = refuse(program, lines, replies, at, given.count or 1)
            if wrong:
                sys.exit(f"{label}\nrequest {at} refused: {wrong}")
            if not refused:
                break
            repeated += len(again)
            silent += not again
        print(f"{label[:100]}: {len(lines)} lines, {at - 2} requests refused in turn, {repeated} lines sent again, {silent} runs without", flush=True)
        for since in () if given.count else range(2, at):
            wrong = refuse_for_good(program, lines, replies, since)
            if wrong:
                sys.exit(f"{label}\nrequest {since} and all behind it refused: {wrong}")
        if not given.count:
            print(f"  and {at - 2} runs in which all are refused from one on", flush=True)


if __name__ == "__main__":
    main()
