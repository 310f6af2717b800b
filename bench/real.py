#!/usr/bin/env python3
"""Times sessions of real crates, which the front end makes of Debian's packages, beside Rust's serde_json on the same lines and
beside what rustc takes to expand and resolve the same crates without bodies: seconds of processor, the least of some runs.

Usage, at the top of the repository: bench/real.py [--program FILE] [--front FILE] [--reader FILE] [--keep FOLDER] [--no-rustc] [NAME ..]

It prints a line of a table for each of CRATES, or those that are named. A session has the crate and all that it depends on. The crate
`std` is the standard library's sources with syn over them; the others have a stub in its place, since rustc doesn't resolve it anew
either: rustc's time is divided by the refresh as it is, and by the refresh less that of a session with the stub alone. An item is added
to, and a body edited in, the file of middle length among those of the crate that have a function; the times are of the edit with its
refresh. The memory is divided by the JSON less what a session without a line takes. The sessions are kept in FOLDER and taken from there
again.

It takes rustc, Cargo, rust-src and librust-*-dev from Debian (/usr/bin/rustc and /usr/bin/cargo; RUSTC and CARGO name others), the
front end (`cargo build --release --config debian.toml` in front), the reader (the same with `--config ../../front/debian.toml` in
bench/serde_json_lines) and the program, by default the proved one. rustc compiles the crates for this, and runs build scripts and
procedural macros.
"""
import argparse
import json
import os
import re
import subprocess
import sys
import tempfile

from imports import SESSION
from measure import READER, best, memory, run, run_parts, text

HERE = os.path.dirname(os.path.realpath(__file__))
FRONT = "front/target/release/cargo-nogsimat"
STD = "/usr/src/rustc-1.63.0/library"
QUESTIONS = 10_000
EDITS = 5
# A web-sys of so many features, of 1,510.
WEB_SYS = {"web-sys-200": 200, "web-sys-800": 800, "web-sys-all": None}
# Each crate, with the features of it that aren't its default ones.
CRATES = {
    "semver": [],
    "bytes": [],
    "hashbrown": [],
    "itertools": [],
    "nom": [],
    "regex-syntax": [],
    "http": [],
    "chrono": [],
    "petgraph": [],
    "num-traits": [],
    "rayon": [],
    "gimli": [],
    "object": [],
    "futures-util": [],
    "syn": ["full", "extra-traits", "visit", "visit-mut", "fold"],
    "tokio": ["full"],
    "std": [],
    **{name: [] for name in WEB_SYS},
}
COLUMNS = ["Crate", "crates", "JSON, MB", "read and kept, s", "/ serde_json", "first refresh, s", "rustc, s", "rustc / refresh",
           "less the stub's", "an item, ms", "a body, ms", "10,000 questions, s", "memory, MB", "/ JSON"]
# Runs what it is given. Of a library it is run some times more, without what comes behind resolution, and what that says of its
# passes is written into a folder.
WRAPPER = """#!/usr/bin/env python3
import os, subprocess, sys
command = sys.argv[1:]
status = subprocess.run(command).returncode
name = command[command.index("--crate-name") + 1] if "--crate-name" in command else "___"
if status == 0 and name != "___" and not name.startswith("build_script") and "lib" in " ".join(command):
    environment = {**os.environ, "RUSTC_BOOTSTRAP": "1", "LD_PRELOAD": os.environ["PROCESSOR_CLOCK"]}
    for number in range(3):
        with open(os.path.join(os.environ["PASSES"], f"{name}.{os.getpid()}.{number}"), "w") as passes:
            subprocess.run([*command, "-Ztime-passes", "-Zno-analysis"], env=environment, stdout=subprocess.DEVNULL, stderr=passes)
sys.exit(status)
"""


def tool(variable, usual):
    return os.environ.get(variable, usual)


def environment(**more):
    return {**os.environ, "CARGO": tool("CARGO", "/usr/bin/cargo"), "RUSTC": tool("RUSTC", "/usr/bin/rustc"),
            "PATH": f"/usr/bin:{os.environ['PATH']}", **more}


def features_of(name):
    """All features of web-sys but one that stands for others, or the first of them."""
    if name not in WEB_SYS:
        return CRATES[name]
    registry = "/usr/share/cargo/registry"
    folder = next(it for it in sorted(os.listdir(registry)) if it.startswith("web-sys-"))
    with open(os.path.join(registry, folder, "Cargo.toml")) as manifest:
        listed = re.search(r"^\[features\]\n(.*?)(^\[|\Z)", manifest.read(), re.M | re.S).group(1)
    return re.findall(r"^([A-Z]\w*) = ", listed, re.M)[:WEB_SYS[name]]


def crate_of(name):
    return {"std": "syn", **{it: "web-sys" for it in WEB_SYS}}.get(name, name)


def make_package(folder, name):
    """A package that depends on the crate, if one is named."""
    os.makedirs(os.path.join(folder, "src"))
    open(os.path.join(folder, "src", "lib.rs"), "w").close()
    with open(os.path.join(folder, "Cargo.toml"), "w") as manifest:
        manifest.write('[package]\nname = "one"\nversion = "0.1.0"\nedition = "2021"\n[workspace]\n[dependencies]\n')
        if name is None:
            return
        listed = features_of("syn" if name == "std" else name)
        manifest.write(f'{crate_of(name)} = {{ version = "*", features = {json.dumps(listed)} }}\n')


def session_of(options, package, name):
    """The lines of the crate's session, or of one of no crate, made by the front end where they aren't kept."""
    kept = options.keep and os.path.join(options.keep, f"{name or 'stub'}.jsonl")
    if kept and os.path.exists(kept):
        with open(kept) as lines:
            return [json.loads(line) for line in lines]
    std = ["--std-sources", STD] if name == "std" else ["--no-std"]
    wanted = ["-p", crate_of(name)] if name else []
    command = [options.front, "session", package, *wanted, *std, "--config", "front/debian.toml"]
    made = subprocess.run(command, capture_output=True, text=True, env=environment(NOGSIMAT_PROGRAM=os.path.abspath(options.program)))
    if made.returncode:
        sys.exit(f"{name}: {made.stderr}")
    if kept:
        with open(kept, "w") as lines:
            lines.write(made.stdout)
    return [json.loads(line) for line in made.stdout.splitlines()]


def functions(nodes):
    for node in nodes:
        if node["kind"] == "Fn":
            yield node
        yield from functions(node.get("nodes", []))


def edited(begin, crate):
    """Edits of a file of the crate: items added, of one more each, and bodies of its first function, of another text each."""
    folder = re.compile(rf"/{re.escape(crate)}-\d[^/]*/")
    files = [it for it in begin if it["do"] == "set file" and folder.search(it["file"]) and any(functions(it["unit"]["nodes"]))]
    files.sort(key=lambda it: len(text([it])))
    one = files[len(files) // 2]
    items = [{"kind": "Struct", "id": [k, 2047], "name": f"AddedInTheMeasurement{k}", "vis": "pub"} for k in range(EDITS)]
    added = [{**one, "unit": {**one["unit"], "nodes": [*one["unit"]["nodes"], *items[:k + 1]]}} for k in range(EDITS)]
    bodies = []
    for k in range(EDITS + 1):
        bodies.append(json.loads(json.dumps(added[-1])))
        next(functions(bodies[-1]["unit"]["nodes"]))["body"] = f"{{ {k} }}"
    return added, bodies


def questions(program, begin, number):
    """Each name of each module of the crate, asked there, over and over."""
    refreshed = [*begin, {"do": "refresh"}]
    places = json.loads(run(program, [*refreshed, {"do": "modules", "crate": number}])[1][-1])["ok"]
    listed = run(program, refreshed + [{"do": "names", "at": place} for place in places])[1][len(refreshed):]
    asked = []
    for place, names in zip(places, listed):
        named = [it["name"] for it in json.loads(names)["ok"] if it["name"] != "_"]
        asked += [{"do": "resolve", "at": place, "path": it} for it in named]
    return [asked[k % len(asked)] for k in range(QUESTIONS)]


def with_refreshes(edits):
    return [part for edit in edits for part in ([edit], [{"do": "refresh"}])]


def measured(program, begin, crate, number, tries):
    """The least seconds of reading and keeping, of the first refresh, of an added item and of an edited body, each with its
    refresh, and of the questions."""
    added, bodies = edited(begin, crate)
    parts = [begin, [{"do": "refresh"}], questions(program, begin, number), *with_refreshes(added), *with_refreshes(bodies)]
    least = None
    for _ in range(tries):
        seconds, replies = run_parts(program, parts)
        refused = [it for it in replies if it.startswith('{"error"')]
        if refused:
            sys.exit(f"{crate}: {refused[0]}")
        edits = [one + two for one, two in zip(seconds[3::2], seconds[4::2])]
        # The first body changes what is kept of the function itself.
        taken = [*seconds[:3], min(edits[:EDITS]), min(edits[EDITS + 1:])]
        least = taken if least is None else list(map(min, zip(least, taken)))
    return least


def passes_of(text_of_passes):
    found = dict((name, float(seconds)) for seconds, name in re.findall(r"^time:\s+([\d.]+);.*\t(\w+)$", text_of_passes, re.M))
    if "resolve_crate" not in found:
        return None
    return found["macro_expand_crate"] + found["resolve_crate"] - found["late_resolve_crate"]


def rustc_seconds(folder, package, name):
    """What rustc takes to expand and resolve the crate and those on which it depends, without bodies: the sum of each one's least."""
    clock, wrapper, passes = (os.path.join(folder, it) for it in ("clock.so", "wrapper", "passes"))
    subprocess.run(["cc", "-shared", "-fPIC", "-O2", "-o", clock, os.path.join(HERE, "processor_clock.c")], check=True)
    with open(wrapper, "w") as script:
        script.write(WRAPPER)
    os.chmod(wrapper, 0o755)
    os.mkdir(passes)
    cargo, config = tool("CARGO", "/usr/bin/cargo"), os.path.abspath("front/debian.toml")
    command = [cargo, "--config", config, "check", "--offline", "-p", crate_of(name), "-j1"]
    built = subprocess.run(command, cwd=package, capture_output=True, text=True, env=environment(
        CARGO_TARGET_DIR=os.path.join(folder, "target"), RUSTC_WRAPPER=wrapper, PROCESSOR_CLOCK=clock, PASSES=passes))
    if built.returncode:
        sys.exit(f"{name}: {built.stderr[-2000:]}")
    least = {}
    for it in os.listdir(passes):
        with open(os.path.join(passes, it)) as told:
            seconds = passes_of(told.read())
        crate = it.rsplit(".", 1)[0]
        if seconds is not None:
            least[crate] = min(seconds, least.get(crate, seconds))
    return sum(least.values())


def without_refresh(session):
    return [command for command in session if command["do"] != "refresh"]


def stub_seconds(options):
    """The refresh of a session that has the stub alone."""
    with tempfile.TemporaryDirectory() as folder:
        package = os.path.join(folder, "package")
        make_package(package, None)
        begin = without_refresh(session_of(options, package, None))
    return min(run_parts(options.program, [begin, [{"do": "refresh"}]])[0][1] for _ in range(5))


def one(options, name, stub):
    with tempfile.TemporaryDirectory() as folder:
        package = os.path.join(folder, "package")
        make_package(package, name)
        session = session_of(options, package, name)
        rustc = None if options.no_rustc or name == "std" else rustc_seconds(folder, package, name)
    begin = without_refresh(session)
    folder = re.compile(rf"/{re.escape(crate_of(name))}-\d[^/]*/src/lib\.rs$")
    number = next(k for k, it in enumerate(begin[0]["crates"]) if folder.search(it["root"]))
    size = len(text(begin)) / 1e6
    tries = 5 if size < 4 else 3
    reading, refreshed, asked, added, body = measured(options.program, begin, crate_of(name), number, tries)
    reader = best(options.reader, begin, tries) - best(options.reader, [], tries)
    most = memory(options.program, [*begin, {"do": "refresh"}])
    beyond = most - memory(options.program, [])
    print(f"| {name} | {len(begin[0]['crates'])} | {size:.2f} | {reading:.4f} | {reading / reader:.1f} | {refreshed:.4f} | "
          + (f"{rustc:.3f} | {rustc / refreshed:.1f} | {rustc / (refreshed - stub):.1f}" if rustc else " | | ")
          + f" | {added * 1000:.1f} | {body * 1000:.2f} | {asked:.3f} | {most:.0f} | "
          + (f"{beyond / size:.0f}" if beyond > 1 else "") + " |", flush=True)


def main():
    parser = argparse.ArgumentParser()
    parser.add_argument("--program", default=SESSION)
    parser.add_argument("--front", default=FRONT)
    parser.add_argument("--reader", default=READER)
    parser.add_argument("--keep")
    parser.add_argument("--no-rustc", action="store_true")
    parser.add_argument("names", nargs="*")
    options = parser.parse_args()
    print("| " + " | ".join(COLUMNS) + " |\n|" + "---|" * len(COLUMNS), flush=True)
    stub = stub_seconds(options)
    for name in options.names or CRATES:
        one(options, name, stub)


if __name__ == "__main__":
    main()
