#!/usr/bin/env python3
"""Runs the program on input that can't be read, on output that can't be written, and with little memory.

Usage, at the top of the repository: tools/program_faults.py [--program FILE] [--from M] [--to M] [--step M] [--streams [WORDS..]].
It prints a line a run, and ends with 1 where a run's status, its replies or its words on standard error aren't those that are wanted.

With --streams it runs the program's own session and SESSIONS of program_runs besides: with each read failing in turn, of one byte
each, for the first of seven bytes too; with output that is full after each number of bytes, by a write that takes nothing, one that
fails, or one that fails behind writes of a byte each, for the first by all three; and in reads and writes of one byte. With WORDS it
takes those stored sessions whose labels contain one of them, and nothing else is run.

With little memory: the data of the process (`ulimit -d`), and in further runs its addresses (`ulimit -v`), are bounded to M megabytes
from --from to --to in steps. Files are set and resolved until `memory` is the answer; then files are removed, what is left is
resolved, and a name in it is asked for. With --addresses it does only what bounds addresses. A session of 80 files and with the
deepest modules runs under small limits on addresses besides, from those with which no program begins: none ends by a signal once
one has begun.
"""
import argparse
import fcntl
import json
import os
import resource
import signal
import socket
import subprocess
import sys
import tempfile

from program_runs import SESSIONS, TOP, answers, line, program_of, sessions_of

SESSION = os.path.join(TOP, "examples", "shop.jsonl")
REPLIES = os.path.join(TOP, "examples", "shop.replies")
MEMORY, REFRESH = {"error": "memory"}, {"do": "refresh"}


def structs(number, count):
    """A file of some structs is set."""
    nodes = [{"kind": "Struct", "id": [k, number], "name": f"S{k}", "vis": "pub"} for k in range(count)]
    return {"do": "set file", "file": f"f{number}.rs", "unit": {"nodes": nodes}}


def deepest():
    """31 modules in one another, for the file of one more."""
    nodes = [{"kind": "Struct", "id": [1, 0], "name": "S", "vis": "pub"}]
    for depth in range(31):
        nodes = [{"kind": "Module", "id": [depth, 0], "name": "m", "vis": "pub", "nodes": nodes}]
    return nodes


class Faults:
    def __init__(self, program):
        self.program, self.wrong = program, False

    def tell(self, label, found, wanted):
        """A run's status, words on standard error and, where it matters, output."""
        same = found == wanted
        self.wrong |= not same
        status, words = found[:2]
        print(f"{label}: status {status}{', ' + words.strip() if words else ''}" + ("" if same else f", in place of {wanted[:2]}"), flush=True)

    def run(self, label, status, words="", given=SESSION, replies=None, output=None, arguments=(), before=None):
        """A run on a file, whose output is a file, or is taken and compared with the replies of a file."""
        with open(output or os.devnull, "wb") as full:
            given = os.open(given, os.O_RDONLY)
            taken = subprocess.PIPE if output is None else full
            done = subprocess.run([self.program, *arguments], stdin=given, stdout=taken, stderr=subprocess.PIPE, preexec_fn=before)
            os.close(given)
        found = (done.returncode, done.stderr.decode())
        if replies is None:
            return self.tell(label, found, (status, words))
        with open(replies, "rb") as file:
            self.tell(label, (*found, done.stdout), (status, words, file.read()))

    def broken_pipe(self, label, lines, ignores):
        """A reader that goes away after some lines of output, where SIGPIPE is ignored, or ends a process."""
        how = lambda: signal.signal(signal.SIGPIPE, signal.SIG_IGN if ignores else signal.SIG_DFL)
        out, taken = os.pipe()
        child = subprocess.Popen([self.program], stdin=subprocess.PIPE, stdout=taken, stderr=subprocess.PIPE, preexec_fn=how, restore_signals=False)
        os.close(taken)
        with os.fdopen(out, "rb") as reader:
            for _ in range(lines):
                child.stdin.write(b"{}\n")
                child.stdin.flush()
                reader.readline()
        try:
            child.stdin.write(b"{}\n" * 10)
            child.stdin.close()
        except BrokenPipeError:
            pass
        words = child.stderr.read().decode()
        child.stderr.close()
        self.tell(label, (child.wait(), words), (1, "write fault\n"))

    def other_ends(self):
        """Pipes that don't block, a socket, files that are opened the other way round, and a limit on the size of files."""
        read, write = (1, "read fault\n"), (1, "write fault\n")

        def run(given, output, before=None):
            done = subprocess.run([self.program], stdin=given, stdout=output, stderr=subprocess.PIPE, preexec_fn=before)
            return done.returncode, done.stderr.decode()

        ends = [os.pipe2(os.O_NONBLOCK) for _ in range(2)]
        with open(SESSION, "rb") as session, tempfile.NamedTemporaryFile() as file:
            self.tell("input that is empty and doesn't block", run(ends[0][0], subprocess.DEVNULL), read)
            room = fcntl.fcntl(ends[1][1], fcntl.F_GETPIPE_SZ)
            os.write(ends[1][1], room * b"x")
            self.tell("output that is full and doesn't block", run(session, ends[1][1]), write)
            for end in (*ends[0], *ends[1]):
                os.close(end)
            self.tell("input that is open for writing alone", run(file, subprocess.DEVNULL, lambda: os.dup2(os.open(file.name, os.O_WRONLY), 0)), read)
            session.seek(0)
            self.tell("output that is open for reading alone", run(session, subprocess.PIPE, lambda: os.dup2(os.open(file.name, os.O_RDONLY), 1)), write)

            def limited():
                signal.signal(signal.SIGXFSZ, signal.SIG_IGN)
                resource.setrlimit(resource.RLIMIT_FSIZE, (100, 100))

            session.seek(0)
            found = run(session, file, limited)
            file.seek(0)
            with open(REPLIES, "rb") as replies:
                front = replies.read(100)
            self.tell("output that is a file at its limit, SIGXFSZ ignored", (*found, file.read()), (*write, front))
            how = lambda: resource.setrlimit(resource.RLIMIT_FSIZE, (100, 100))
            for words in ({"stderr": subprocess.PIPE}, {"stderr": file}):
                session.seek(0)
                file.seek(0)
                file.truncate()
                # without restore_signals=False it is as it is at first
                done = subprocess.run([self.program], stdin=session, stdout=file, preexec_fn=how, **words)
                file.seek(0)
                found, wanted = (done.returncode, (done.stderr or b"").decode(), file.read()), (1, "write fault\n" if done.stderr else "", front)
                self.tell("output that is a file at its limit" + ("" if words["stderr"] != file else ", and standard error too"), found, wanted)
            with open(REPLIES, "rb") as replies:
                replies = replies.read()
            whole = ("a file that stays below its limit", len(replies) + 1, file), ("a file that ends at its limit", len(replies), file)
            for label, limit, output in (*whole, ("a pipe, with a limit of 0 on files", 0, subprocess.PIPE)):
                session.seek(0)
                file.seek(0)
                file.truncate()
                how = lambda: resource.setrlimit(resource.RLIMIT_FSIZE, (limit, limit))
                done = subprocess.run([self.program], stdin=session, stdout=output, stderr=subprocess.PIPE, preexec_fn=how)
                file.seek(0)
                self.tell(f"output that is {label}", (done.returncode, done.stderr.decode(), done.stdout or file.read()), (0, "", replies))
        ours, its = socket.socketpair()
        with ours, its:
            ours.sendall(b"{}\n{}")
            ours.shutdown(socket.SHUT_WR)
            found = run(its, its)
            its.close()
            taken = b"".join(iter(lambda: ours.recv(1000), b""))
            self.tell("a socket as input and output", (*found, taken), (0, "", 2 * b'{"error":"command"}\n'))

    def streams(self, words):
        """Each read, and each write, of each session of SESSIONS and of that of the program fails in turn."""
        folder = os.path.join(TOP, "crates", "hir_session_main")
        with open(os.path.join(folder, "stdin"), "rb") as given, open(os.path.join(folder, "stdout"), "rb") as wanted:
            sessions = [("the program's own", given.read(), wanted.read())]
        joined = lambda lines: b"".join(it + b"\n" for it in lines)
        stored = [(label.split(",")[0].split(" | ")[0], joined(lines), joined(replies)) for label, lines, replies in sessions_of(words or SESSIONS)]
        sessions = stored if words else sessions + stored
        ways = ((0, 0), (1, 0), (1, 1))
        for label, given, wanted in sessions:
            ends = [0, *(at + 1 for at, byte in enumerate(wanted) if byte == 10)]
            is_short = label == "the program's own"
            read = [(size, fails) for size in ((1, 7) if is_short else (1,)) for fails in range(1, len(given) // size + 2)]
            found = (answers(self.program, given, read_size=size, read_fails=fails) for size, fails in read)
            fronts = (wanted[: ends[given[: size * (fails - 1)].count(b"\n")]] for size, fails in read)
            self.tell_all(f"{label}: reads that fail in turn", found, ((front, 1, "read fault\n") for front in fronts))
            written = [(room, *way) for room in range(len(wanted)) for way in (ways if is_short else (ways[room % 3],))]
            found = (answers(self.program, given, write_room=room, write_fails=fails, write_size=size) for room, fails, size in written)
            self.tell_all(f"{label}: output that is full after each byte", found, ((wanted[:room], 1, "write fault\n") for room, _, _ in written))
            one = {"read_size": 1, "write_size": 1}
            pieces = [(given, {"read_size": 1}), (given, {"write_size": 1}), (given, one), (given[:-1], one), (given[:-1], {})]
            self.tell_all(f"{label}: a byte at a time, and without the last end", (answers(self.program, it, **how) for it, how in pieces), len(pieces) * [(wanted, 0, "")])

    def tell_all(self, label, found, wanted):
        count, other = 0, None
        for one, two in zip(found, wanted, strict=True):
            count += 1
            if one != two:
                other = other or (count, one, two)
        self.wrong |= other is not None or count == 0
        print(f"{label}: {count} runs" + ("" if other is None else f", run {other[0]}: {other[1]} in place of {other[2]}"), flush=True)

    def stack(self):
        """The limit on the stack has to be twice what the program makes ready of it."""
        for kilobytes in (200, 1024, 2047, 2048, 8192):
            limit = lambda: resource.setrlimit(resource.RLIMIT_STACK, (kilobytes << 10, resource.RLIM_INFINITY))
            is_enough = kilobytes >= 2048
            how = {"replies": REPLIES} if is_enough else {"words": "stack fault\n"}
            self.run(f"a limit of {kilobytes} kB on the stack", 0 if is_enough else 1, before=limit, **how)

    def small_addresses(self):
        """A session of 80 files, and with the deepest modules, under small limits on addresses, from those with which no program begins."""
        names = [{"kind": "Module", "id": [k, 0], "name": f"f{k}"} for k in range(81)]
        commands = [{"do": "crates", "crates": [{"edition": "2021", "root": "lib.rs"}]}, {"do": "set file", "file": "lib.rs", "unit": {"nodes": names}}]
        for number in range(80):
            commands += [structs(number, 20), REFRESH]
        commands += [{"do": "set file", "file": "f80.rs", "unit": {"nodes": deepest()}}, REFRESH, {"do": "resolve", "at": [0], "path": "f80::" + "m::" * 31 + "S"}]
        given, found = b"".join(line(it) + b"\n" for it in commands), []
        order = ["it doesn't begin", "stack fault", "an answer to each line, one of them `memory`", "an answer to each line"]
        for kilobytes in [*range(2048, 4608, 64), *range(4608, 6656, 16), *range(6656, 12288, 128)]:
            limit = f'ulimit -v {kilobytes}; exec "$0"'
            done = subprocess.run(["/bin/sh", "-c", limit, self.program], input=given, stdout=subprocess.PIPE, stderr=subprocess.PIPE)
            replies = done.stdout.split(b"\n")[:-1]
            if (done.returncode, done.stdout, done.stderr) == (1, b"", b"stack fault\n"):
                how = order[1]
            elif (done.returncode, done.stderr, len(replies)) == (0, b"", len(commands)):
                how = order[2] if any(json.loads(it) == MEMORY for it in replies) else order[3]
            else:
                has_begun = found and found[-1][0] != order[0]
                how = f"ended by {done.returncode}" if done.stdout or has_begun else order[0]
            if not found or found[-1][0] != how:
                found.append((how, kilobytes))
        self.wrong |= [how for how, _ in found] != order
        print("; ".join(f"with {kilobytes} kB of addresses: {how}" for how, kilobytes in found), flush=True)

    def little_memory(self, megabytes, addresses):
        """Files are set until `memory`, and removed again; what the replies were, in order, and how the program ended."""
        limit = f'ulimit -{"v" if addresses else "d"} {megabytes * 1024}; exec "$0"'
        child = subprocess.Popen(["/bin/sh", "-c", limit, self.program], stdin=subprocess.PIPE, stdout=subprocess.PIPE, stderr=subprocess.PIPE)
        ended = []

        def say(command):
            try:
                child.stdin.write(line(command) + b"\n")
                child.stdin.flush()
            except BrokenPipeError:
                pass
            reply = child.stdout.readline()
            if not reply:
                ended.append(command["do"])
                return None
            return json.loads(reply)

        def takes(command, *wanted):
            """Whether the reply is one of these, and not `memory`."""
            reply = say(command)
            if reply not in (MEMORY, None, *wanted):
                wrong.append(reply)
            return reply in wanted

        say({"do": "crates", "crates": [{"edition": "2021", "root": "lib.rs"}]})
        names = [{"kind": "Module", "id": [k, 0], "name": f"f{k}"} for k in range(2000)] + [{"kind": "Module", "id": [2000, 0], "name": "deep"}]
        wrong, count, met = [], 0, False
        met = not takes({"do": "set file", "file": "lib.rs", "unit": {"nodes": names}}, {"ok": None})
        while not ended and not met and count < 2000:
            met = not takes(structs(count, 1000), {"ok": None})
            count += 1
            # a refresh takes all files that there are, so it doesn't come behind each where they are many
            if not met and count % (megabytes // 50 + 1) == 0:
                met = not takes(REFRESH, {"ok": [[0]]})
        # what needs the deepest stack comes when there is no memory left
        left, found = count, False
        while not ended and not found and left > 0:
            if takes({"do": "set file", "file": "deep.rs", "unit": {"nodes": deepest()}}, {"ok": None}) and takes(REFRESH, {"ok": [[0]]}, {"ok": []}):
                reply = say({"do": "resolve", "at": [0], "path": "deep::" + "m::" * 31 + "S"})
                found = (reply or {}).get("ok", {}).get("types") is not None
            for _ in range(0 if found else min(left, max(1, count // 4))):
                left -= 1
                takes({"do": "remove file", "file": f"f{left}.rs"}, {"ok": None})
        goes_on = not ended and takes({"do": "status", "at": [0]}, {"ok": "current"})
        try:
            child.stdin.close()
        except BrokenPipeError:
            pass
        words = child.stderr.read().decode()
        status = child.wait()
        told = f"{megabytes} megabytes of {'addresses' if addresses else 'data'}: {count} files"
        if ended:
            print(f"{told}, ended by {status} at `{ended[0]}` {words}", flush=True)
            self.wrong = True
            return
        fine = met and found and goes_on and not wrong and (status, words) == (0, "")
        print(f"{told} until `memory`, then {left} files and a deep one resolved: status {status}" + ("" if fine else f"; {met} {found} {goes_on} {wrong[:3]} {words}"), flush=True)
        self.wrong |= not fine


def main():
    parser = argparse.ArgumentParser(description=__doc__.split("\n")[0])
    parser.add_argument("--program")
    parser.add_argument("--from", type=int, default=30, dest="least")
    parser.add_argument("--to", type=int, default=100)
    parser.add_argument("--step", type=int, default=10)
    parser.add_argument("--addresses", action="store_true")
    parser.add_argument("--streams", nargs="*")
    given = parser.parse_args()
    faults = Faults(program_of(given.program))
    read, write = (1, "read fault\n"), (1, "write fault\n")
    if given.streams:
        faults.streams(given.streams)
        sys.exit(faults.wrong)
    if not given.addresses:
        faults.stack()
        faults.run("a session", 0, replies=REPLIES)
        faults.run("a session, with arguments", 0, replies=REPLIES, arguments=["--help", "x"])
        faults.run("input without a line", 0, given=os.devnull)
        faults.run("input without a line, output that is full", 0, given=os.devnull, output="/dev/full")
        faults.run("input that is a folder", *read, given="/")
        faults.run("input that is closed", *read, before=lambda: os.close(0))
        faults.run("output that is full", *write, output="/dev/full")
        faults.run("output that is closed", *write, before=lambda: os.close(1))
        faults.run("output and standard error that are closed", 1, before=lambda: (os.close(1), os.close(2)))
        faults.other_ends()
        for ignores in (False, True):
            how = "SIGPIPE ignored" if ignores else "SIGPIPE as it is at first"
            for lines in (0, 3):
                faults.broken_pipe(f"a reader that goes away after {lines} lines, {how}", lines, ignores)
    if given.streams is not None:
        faults.streams([])
    faults.small_addresses()
    for addresses in (True,) if given.addresses else (False, True):
        for megabytes in range(given.least, given.to + 1, given.step):
            faults.little_memory(megabytes, addresses)
    sys.exit(faults.wrong)


if __name__ == "__main__":
    main()
