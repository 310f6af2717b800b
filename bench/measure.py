"""Runs a program on commands, and says what that took."""
import json
import os
import subprocess
import sys
import tempfile
import threading
import time

# Rust's serde_json, which reads each line and does nothing else.
READER = "bench/serde_json_lines/target/release/serde_json_lines"
# Runs its argument, and prints the most memory that it had, in kB. The kernel counts for a program what its parent
# had when it was started, so the parent is this small one.
MEMORY = """import resource, subprocess, sys
subprocess.run(sys.argv[1:], stdout=subprocess.DEVNULL, check=True)
print(resource.getrusage(resource.RUSAGE_CHILDREN).ru_maxrss)"""


def text(commands):
    return "".join(json.dumps(c, separators=(",", ":")) + "\n" for c in commands).encode()


def script_of(commands):
    script = tempfile.TemporaryFile()
    script.write(text(commands))
    script.seek(0)
    return script


def run(program, commands):
    """Seconds of processor, and the replies."""
    with script_of(commands) as script:
        child = subprocess.Popen([program], stdin=script, stdout=subprocess.PIPE)
        replies = child.stdout.read().decode().splitlines()
        _, status, used = os.wait4(child.pid, 0)
        if status:
            sys.exit(f"{program} ended with {status}")
        return used.ru_utime + used.ru_stime, replies


def used(pid):
    """Seconds of processor of a program that waits, or will, for input."""
    while True:
        with open(f"/proc/{pid}/stat") as stat:
            if stat.read().rsplit(")", 1)[1].split()[0] in "SZ":
                with open(f"/proc/{pid}/schedstat") as times:
                    return int(times.read().split()[0]) / 1e9
        time.sleep(0.001)


def feed(pipe, given):
    pipe.write(given)
    pipe.flush()


def run_parts(program, parts):
    """Seconds of processor of each part of a session, handed in once the part before it is answered; and the replies."""
    child = subprocess.Popen(program if isinstance(program, list) else [program], stdin=subprocess.PIPE, stdout=subprocess.PIPE)
    seconds, replies = [], []
    for commands in parts:
        before = used(child.pid)
        feeder = threading.Thread(target=feed, args=(child.stdin, text(commands)))
        feeder.start()
        replies += [child.stdout.readline().decode() for _ in commands]
        feeder.join()
        seconds.append(used(child.pid) - before)
    child.stdin.close()
    if child.wait():
        sys.exit(f"{program} ended with {child.returncode}")
    return seconds, replies


def best_parts(program, parts, tries=5):
    """The least seconds of processor of each part, and the replies."""
    runs = [run_parts(program, parts) for _ in range(tries)]
    return [min(seconds) for seconds in zip(*(run[0] for run in runs))], runs[0][1]


def best(program, commands, tries=5):
    return min(run(program, commands)[0] for _ in range(tries))


def memory(program, commands):
    """The most memory, in MB."""
    with script_of(commands) as script:
        done = subprocess.run([sys.executable, "-c", MEMORY, program], stdin=script, stdout=subprocess.PIPE, check=True)
        return int(done.stdout) / 1024


def refresh(session, begin, at, path, edits=()):
    """Seconds of processor of a refresh after these commands, with the edits before it if there are some, and the most
    memory of the session; a path has to lead to a struct then."""
    parts = [begin, [*edits, {"do": "refresh"}], [{"do": "resolve", "at": at, "path": path}]]
    seconds, replies = best_parts(session, parts, 3)
    if '"kind":"Struct"' not in replies[-1]:
        sys.exit(f"{path} is {replies[-1]}")
    return seconds[1], memory(session, [command for part in parts for command in part])


def double(inputs, measured):
    """Prints what each input, or the one that the command line names, takes at its sizes, or at those given there, and at
    twice these."""
    wanted, given = sys.argv[1:2], [int(size) for size in sys.argv[2:]]
    for made, sizes in inputs.items():
        if wanted and made.__name__ != wanted[0]:
            continue
        taken = {}
        for n in given or sizes:
            for size in (n, 2 * n):
                if size not in taken:
                    taken[size] = measured(made, size)
            (one, _), (two, most) = taken[n], taken[2 * n]
            print(f"{made.__name__}: {n}: {one:.4f} s; {2 * n}: {two:.4f} s, {most:.0f} MB; ratio {two / one:.2f}", flush=True)
