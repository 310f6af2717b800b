#!/usr/bin/env python3
"""Runs random, hostile and stored sessions for a stated time, each beside the plain model (tools/model) or its stored replies, with
refused requests for memory, cut input, lines that are no commands, and reads and writes that fail.

Usage, at the top of the repository: tools/soak.py [--minutes M] [--sessions N] [--seed S] [--program FILE] [--kind KIND]. It ends after
M minutes, or after N sessions. What a session is and what fails in it depends on its seed alone; --kind takes those of one kind.

Each session is run
- with ample memory, and in pieces of some bytes: the replies have to be those of the model, or those that the rules give for a
  hostile input (tools/hostile.py); where crates, files, blocks and expansions are edited, a fresh session that is handed the last ones at
  once has to answer the same questions alike;
- with some requests for memory refused, often in pieces and with lines between its own that are no commands: what is answered by
  `memory` is sent again, and is then answered as with ample memory;
- and, drawn by the seed, with such lines alone, with its input cut anywhere, with a read that fails, with an output that is full
  after some bytes; or with requests for memory refused and nothing sent again: then the replies are those of the model to the lines
  that were taken, and the front of them where a read or a write fails besides.
A session whose replies the model doesn't give in MODEL_SECONDS of processor, as where an expansion holds two calls of itself, is passed over and
counted. It prints what it has done each minute, writes each difference to standard error, and ends with 1 if there was one.
"""
import argparse
import importlib.util
import json
import os
import random
import re
import signal
import sys
import time

import import_model
import random_sessions
from model.crate import Source
from model.syntax import dump
from model.workspace import Workspace
from program_runs import MEMORY, TOP, Again, answers, is_as_ample, line, program_of, stored_sessions

sys.path.insert(0, os.path.join(TOP, "bench"))
import hostile

# of the same name as that of bench/
_found = importlib.util.spec_from_file_location("hostile_inputs", os.path.join(TOP, "tools", "hostile.py"))
hostile_inputs = importlib.util.module_from_spec(_found)
_found.loader.exec_module(hostile_inputs)

# a program that takes too much processor is ended by program_runs; this is for one that waits
SECONDS = 3600
MODEL_SECONDS = 20
NO_COMMANDS = [b"", b"{", b"null", b"[[", b'{"do":"refresh"', b"\xff", b'{"do":"nothing"}', b'{"do":"status","at":[0.5]}', b'"\\ud800"', b"{" * 200]
JSON, COMMAND = b'{"error":"json"}', b'{"error":"command"}'
ANSWERS_TO_NO_COMMANDS = [JSON, JSON, COMMAND, JSON, JSON, JSON, COMMAND, COMMAND, JSON, JSON]


class Late(Exception):
    """A run that didn't end in time."""


class Endless(Exception):
    """A session whose replies the model didn't give in time."""


def edits(seed):
    after_edits, fresh, count = random_sessions.session(seed)
    return after_edits, (fresh, count)


def small_hostile(seed):
    """An input of bench/hostile.py at a small size, some parts of which go away and come back."""
    drawn = random.Random(seed)
    made = drawn.choice(list(hostile.INPUTS))(drawn.randint(1, 12))
    places = [[number] for number in range(len(made.crates))] + [it["at"] for it in made.sets if it["do"] == "set block"]
    asks = [{"do": "resolve", "at": made.at, "path": made.path}] + [{"do": "dump", "at": place} for place in places]
    asks += [{"do": "diagnostics", "crate": number} for number in range(len(made.crates))]
    commands = [*made.begin(), {"do": "refresh"}, *asks]
    for part in drawn.sample(made.sets, min(3, len(made.sets))):
        removed = {name: value for name, value in part.items() if name not in ("unit", "error")}
        commands += [{**removed, "do": part["do"].replace("set", "remove")}, *asks[:2], {"do": "refresh"}, *asks]
        commands += [part, {"do": "refresh"}, *asks]
    return commands, None


# inputs of tools/hostile.py that are told at any size, each with the most that is drawn
SMALL = {
    hostile_inputs.blocks_edited_one_by_one: 8,
    hostile_inputs.globs_of_a_ring_in_blocks: 10,
    hostile_inputs.lists_of_nested_expansions: 9,
    hostile_inputs.list_that_names_itself: 9,
    hostile_inputs.modules_by_each_macro: 32,
    hostile_inputs.ring_of_macro_use: 40,
    hostile_inputs.attributes_of_one_item: 6,
    hostile_inputs.attributes_that_bring_their_item_back: 12,
    hostile_inputs.paths_of_nested_lists: 64,
    hostile_inputs.chain_of_crates: 12,
    hostile_inputs.files_by_parents: 4,
    hostile_inputs.ring_of_files: 40,
}


def by_the_rules(seed):
    """An input of tools/hostile.py at a small size, with its replies."""
    drawn = random.Random(seed)
    made = drawn.choice(list(SMALL))
    return list(made(drawn.randint(3, SMALL[made]))), None


def drawn_by(made):
    return lambda seed: (made(seed), None)


KINDS = {
    "edits": (edits, 8),
    "imports": (drawn_by(lambda seed: import_model.Session(seed, True, False)), 1),
    "calls": (drawn_by(lambda seed: import_model.Session(seed, True, True)), 3),
    "globs": (drawn_by(import_model.Globs), 2),
    "attributes": (drawn_by(import_model.Attributes), 3),
    "blocks": (drawn_by(import_model.Blocks), 3),
    "data": (drawn_by(import_model.Data), 2),
    "hostile": (small_hostile, 2),
    "rules": (by_the_rules, 2),
    "stored": (None, 2),
}


class Soak:
    def __init__(self, program, only):
        self.program = program
        self.kinds = [only] if only else [kind for kind, (_, share) in KINDS.items() for _ in range(share)]
        self.stored = [(lines, replies) for _, lines, replies in stored_sessions() if sum(map(len, lines)) < 100_000 and len(lines) < 200]
        self.began = time.time()
        self.counts = dict.fromkeys(("sessions", "passed_over", "lines", "edits", "refreshes", "repeated", "refused", "given_up", "read", "written", "cut", "injected", "fresh", "differences"), 0)

    # ---- sessions

    def session(self, seed):
        """The lines of a session, the replies that are wanted, its commands where the model knows them all, and what a fresh session
        is handed and how much it is asked."""
        kind = random.Random(seed).choice(self.kinds)
        if kind == "stored":
            lines, replies = random.Random(-seed - 1).choice(self.stored)
            return kind, lines, replies, None, None
        found, fresh = KINDS[kind][0](seed)
        Source.numbers.clear()
        if kind == "rules":
            return kind, [line(command) for command, _ in found], [dump(reply).encode() for _, reply in found], None, None
        if isinstance(found, list):
            workspace = Workspace()
            said = [(command, workspace.reply(command)) for command in found]
        else:
            said = found.conversation(Workspace())
        lines = [dump(command).encode() for command, _ in said]
        return kind, lines, [dump(reply).encode() for _, reply in said], [command for command, _ in said], fresh

    # ---- runs

    def output(self, given, **faults):
        """What is written for an input, and how the program ends."""
        signal.alarm(SECONDS)
        written, status, words = answers(self.program, given, **faults)
        signal.alarm(0)
        return written, status, words

    def ample(self, lines, replies, drawn):
        given, wanted = join(lines), join(replies)
        faults = drawn.choice([{}, {"read_size": drawn.randint(1, 300), "write_size": drawn.randint(1, 300)}])
        if drawn.random() < 0.5:
            given = given[:-1]
        self.compare(self.output(given, **faults), (wanted, 0, ""), lines, "ample " + str(faults))

    def fresh(self, fresh, replies):
        commands, count = fresh
        written, status, words = self.output(join(map(line, commands)))
        self.counts["fresh"] += 1
        last = written.split(b"\n")[-count - 1:-1]
        if (status, words, last) != (0, "", replies[-count:]):
            self.differ("fresh", commands[-count:], last, replies[-count:], f"status {status} {words}")

    @staticmethod
    def refusals(drawn):
        pieces = drawn.choice([{}, {"read_size": drawn.randint(1, 300), "write_size": drawn.randint(1, 300)}])
        most = drawn.choice([1, 3, 10, 100])
        chance = drawn.choice([3, 10, 30, 100, 300, 1000])
        # by the first request the program looks whether there is memory for its stack
        return {**pieces, "refuse_seed": drawn.randint(1, 10**9), "refuse_one_in": chance, "refuse_most": most, "refuse_after": 1}

    def refused(self, lines, replies, drawn):
        """Requests for memory are refused; what is answered by `memory` is sent again."""
        faults = self.refusals(drawn)
        if drawn.random() < 0.3 and b'"crates"' in lines[0]:
            lines, replies = self.among_no_commands(lines, replies, drawn)
        signal.alarm(SECONDS)
        run = Again(self.program, lines, faults["refuse_most"] + 1, **faults)
        signal.alarm(0)
        self.counts["refused"] += run.refused
        self.counts["repeated"] += sum(tries for _, tries in run.replies)
        for number, (command, ample, (reply, tries)) in enumerate(zip(lines, replies, run.replies), 1):
            if not is_as_ample(command, reply, ample, tries > 0):
                self.differ(f"refused {faults}", [command], [reply], [ample], f"line {number}")
                break
        if (run.status, run.words) != (0, ""):
            self.differ(f"refused {faults}", lines, [], [], f"status {run.status} {run.words}")

    def given_up(self, lines, replies, commands, drawn):
        """Requests for memory are refused, and nothing is sent again. Then a read or a write fails besides."""
        faults = self.refusals(drawn)
        given = join(lines)
        whole = self.output(given, **faults)
        found = whole[0].split(b"\n")[:-1]
        if whole[1:] != (0, "") or len(found) != len(lines):
            return self.compare(whole, (join(replies), 0, ""), lines, f"given up {faults}")
        self.counts["given_up"] += sum(reply == MEMORY for reply in found)
        wanted = self.of_what_was_taken(commands, found) if commands else replies
        for number, (reply, other) in enumerate(zip(found, wanted)):
            if not commands and reply == MEMORY:
                break
            if other is not None and reply not in (MEMORY, other):
                self.differ(f"given up {faults}", lines[number : number + 1], [reply], [other], f"line {number + 1}")
                return
        if drawn.random() < 0.5:
            room = drawn.randrange(len(whole[0]))
            self.counts["written"] += 1
            fails = {"write_room": room, "write_fails": drawn.randint(0, 1)}
            self.compare(self.output(given, **faults, **fails), (whole[0][:room], 1, "write fault\n"), lines, f"given up {faults}, output {fails}")
        else:
            size = faults.get("read_size", 65536)
            fails = drawn.randint(1, max(1, len(given) // size))
            ended = given[: size * (fails - 1)].count(b"\n")
            self.counts["read"] += 1
            self.compare(self.output(given, **faults, read_fails=fails), (join(found[:ended]), 1, "read fault\n"), lines, f"given up {faults}, read {fails} fails")

    @staticmethod
    def of_what_was_taken(commands, found):
        """The model's replies to the lines that weren't answered by `memory`; none while a refresh that was refused has left it
        open what is current. The refresh that ends this lists some of the places that are due, in their order."""
        Source.numbers.clear()
        workspace, open_, wanted = Workspace(), False, []
        for command, reply in zip(commands, found):
            if reply == MEMORY:
                open_ |= command["do"] == "refresh"
                wanted.append(None)
                continue
            told = workspace.reply(command) if workspace.crates or command["do"] == "crates" else {"error": "command"}
            if open_ and command["do"] == "refresh" and "ok" in told:
                rest, places = iter(told["ok"]), json.loads(reply).get("ok")
                is_part = isinstance(places, list) and all(any(it == other for other in rest) for it in places)
                open_, told = False, json.loads(reply) if is_part else told
            is_edit = command["do"].startswith(("set ", "remove "))
            wanted.append(None if open_ and not is_edit else dump(told).encode())
        return wanted

    def among_no_commands(self, lines, replies, drawn):
        """Lines that are no commands stand between those of the session."""
        given, wanted = [], []
        for command, reply in zip(lines, replies):
            while drawn.random() < 0.3:
                number = drawn.randrange(len(NO_COMMANDS))
                given.append(NO_COMMANDS[number])
                wanted.append(ANSWERS_TO_NO_COMMANDS[number])
            if drawn.random() < 0.1 and command:
                given.append(command[: drawn.randrange(len(command))])
                wanted.append(JSON)
            given.append(command)
            wanted.append(reply)
        self.counts["injected"] += len(given) - len(lines)
        return given, wanted

    def injected(self, lines, replies, drawn):
        given, wanted = self.among_no_commands(lines, replies, drawn)
        self.compare(self.output(join(given)), (join(wanted), 0, ""), given, "injected")

    def cut(self, lines, replies, drawn):
        given = join(lines)
        at = drawn.randrange(len(given))
        ended = given[:at].count(b"\n")
        start = given.rfind(b"\n", 0, at) + 1
        left = given[start:at]
        wanted = replies[:ended]
        if left:
            wanted = wanted + [replies[ended] if left == lines[ended] else JSON]
        self.counts["cut"] += 1
        self.compare(self.output(given[:at]), (join(wanted), 0, ""), lines, f"cut at {at}")

    def read_fails(self, lines, replies, drawn):
        given = join(lines)
        # the program asks for 65,536 bytes at a time
        size = min(drawn.randint(1, max(1, len(given) // 3)), 65536)
        fails = drawn.randint(1, max(1, len(given) // size))
        ended = given[: size * (fails - 1)].count(b"\n")
        self.counts["read"] += 1
        self.compare(self.output(given, read_size=size, read_fails=fails), (join(replies[:ended]), 1, "read fault\n"), lines, f"read {fails} of {size} bytes fails")

    def write_fails(self, lines, replies, drawn):
        wanted = join(replies)
        room = drawn.randrange(len(wanted))
        faults = {"write_room": room, "write_fails": drawn.randint(0, 1), "write_size": drawn.choice([0, 1, 7, 100])}
        self.counts["written"] += 1
        self.compare(self.output(join(lines), **faults), (wanted[:room], 1, "write fault\n"), lines, f"output {faults}")

    # ---- what is found

    def compare(self, found, wanted, lines, how):
        if found != wanted:
            self.differ(how, lines, found[0].split(b"\n"), wanted[0].split(b"\n"), f"status {found[1]} {found[2]}")

    def differ(self, how, lines, found, wanted, more):
        self.counts["differences"] += 1
        sys.stderr.write(f"seed {self.seed}, {self.kind}, {how}: {more}\n")
        for command, one, other in zip([*lines, b""], [*found, b""], [*wanted, b""]):
            if one != other:
                sys.stderr.write(f"  {line(command)[:1000]}\n    answered {one[:1000]}\n    wanted   {other[:1000]}\n")
                break
        sys.stderr.flush()

    def soak(self, seed):
        self.seed = seed
        signal.setitimer(signal.ITIMER_VIRTUAL, MODEL_SECONDS)
        self.kind, lines, replies, commands, fresh = self.session(seed)
        signal.setitimer(signal.ITIMER_VIRTUAL, 0)
        drawn = random.Random(seed * 2 + 1)
        self.counts["sessions"] += 1
        self.ample(lines, replies, drawn)
        if fresh:
            self.fresh(fresh, replies)
        runs = 1
        if lines and not any(MEMORY in reply for reply in replies):
            self.refused(lines, replies, drawn)
            runs += 1
            also = drawn.choice([self.injected, self.cut, self.read_fails, self.write_fails, self.given_up])
            if also == self.given_up:
                also(lines, replies, commands, drawn)
                runs += 1
            elif also != self.injected or b'"crates"' in lines[0]:
                also(lines, replies, drawn)
                runs += 1
        self.counts["lines"] += runs * len(lines)
        self.counts["edits"] += runs * sum(re.search(rb'"do":"(set|remove) ', it) is not None for it in lines)
        self.counts["refreshes"] += runs * sum(b'"do":"refresh"' in it for it in lines)

    def say(self):
        counts = self.counts
        print(
            f"{(time.time() - self.began) / 60:.1f} minutes: {counts['sessions']} sessions, {counts['passed_over']} passed over, {counts['lines']} lines, {counts['edits']} edits,"
            f" {counts['refreshes']} refreshes, {counts['fresh']} fresh sessions; {counts['refused']} requests for memory refused,"
            f" {counts['repeated']} lines sent again, {counts['given_up']} given up; {counts['injected']} lines that are no commands, {counts['cut']} inputs cut,"
            f" {counts['read']} reads and {counts['written']} writes failed; {counts['differences']} differences",
            flush=True,
        )


def join(lines):
    return b"".join(it + b"\n" for it in lines)


def late(*_):
    raise Late


def endless(*_):
    raise Endless


def main():
    parser = argparse.ArgumentParser(description=__doc__.split("\n")[0])
    parser.add_argument("--minutes", type=float, default=1.0)
    parser.add_argument("--sessions", type=int)
    parser.add_argument("--seed", type=int, default=0)
    parser.add_argument("--program")
    parser.add_argument("--kind", choices=KINDS)
    given = parser.parse_args()
    sys.setrecursionlimit(100000)
    signal.signal(signal.SIGVTALRM, endless)
    signal.signal(signal.SIGALRM, late)
    soak = Soak(program_of(given.program), given.kind)
    seed, said = given.seed, 0
    while soak.counts["sessions"] < given.sessions if given.sessions else time.time() - soak.began < given.minutes * 60:
        try:
            soak.soak(seed)
        except Endless:
            soak.counts["passed_over"] += 1
        except Late:
            soak.differ("no end", [], [], [], f"in {SECONDS} seconds")
        seed += 1
        if int((time.time() - soak.began) / 60) > said:
            said = int((time.time() - soak.began) / 60)
            soak.say()
        if soak.counts["differences"] >= 20:
            break
    soak.say()
    print(f"seeds {given.seed} to {seed - 1}")
    sys.exit(soak.counts["differences"] > 0)


if __name__ == "__main__":
    main()
