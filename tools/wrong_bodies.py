#!/usr/bin/env python3
"""Tries the wrong bodies that stand beside the gate: each has to be refused by its crate's prover.

usage: tools/wrong_bodies.py [--list | --sample N [--seed S]] [--each] [CRATE | CRATE/NAME] ..

A crate's wrong bodies are the entries of crates/CRATE/wrong-bodies.txt: a name, a file, and the line that is there
with the one in its place. With no name, those of all crates; with --sample, N of them, drawn by the seed, which is
printed. --list tries none and says which can't be applied to the present sources.

A changed body is held to its own contract, and no other proof reads it. So a check proves the functions that the bodies
change as they stand (`rattle check --only`), over what `rt check` kept of the crate, and then each body's functions are
checked alone, on a copy over what that kept. Bodies of different functions are tried together, or with --each one at a
time. A body is refused where a goal of its function isn't proved. What the check of a batch doesn't settle, and what
the compiler rejects, is tried alone; a body that changes anything else than functions is tried by a check of the whole
crate, as `rt must-fail` does.

Prints a line a body, with the first goal that isn't proved, and ends with 1 where a body isn't refused. A refusal says
that the prover finds no proof: whether the contract rules the body out is for the reader of that goal to see. One "by a
name alone" says little, since a proof cites a call that the edit took away: change a value, and keep the calls.
Libraries below are built where they aren't yet, so run `rt check` in the crate first. To try some beside other work:
`nice -n 5 tools/wrong_bodies.py CRATE/NAME ..`.
"""
import argparse
import importlib.machinery
import importlib.util
import os
import random
import re
import shutil
import sys

AT_ONCE = 8
ROOT = os.path.dirname(os.path.dirname(os.path.realpath(__file__)))
FN = re.compile(r"([ \t]*)(?:pub(?:\([^)]*\))? )?(?:(?:final|const|unsafe) )*fn (\w+)")
STATUS = re.compile(r"fn \w+::(\S+): (.*)")
# What says only that a proof names something that the edit took away.
NAMES = re.compile(r"has no |is not in scope|was not admitted|does not export|no such")


def load_rt():
    path = os.path.realpath(shutil.which("rt"))
    loader = importlib.machinery.SourceFileLoader("rt", path)
    made = importlib.util.module_from_spec(importlib.util.spec_from_loader("rt", loader))
    loader.exec_module(made)
    return made


rt = load_rt()


def words_of(text):
    """Returns the last name of a path, and behind it those of what stands in its angle brackets."""
    name, _, inner = re.sub(r"^\W*(mut )?", "", text.strip()).partition("<")
    inner, depth, parts = inner.strip().removesuffix(">"), 0, [""]
    for it in inner:
        depth += (it == "<") - (it == ">")
        parts += [""] if it == "," and not depth else []
        parts[-1] += it
    heads = [re.match(r"\W*([\w:]*)", it)[1] for it in parts if not it.strip(", ").startswith("'")]
    return [it.split("::")[-1] for it in [name, *heads]]


def owner_of(head):
    """Returns how a check calls the owner of an impl's methods: the type, and behind it the trait and what it is of."""
    depth = 0
    for at, it in enumerate(head):
        depth += (it == "<") - (it == ">")
        if not depth and head[at].isspace():
            break
    trait, _, of = head[at:].removesuffix("{").partition(" for ")
    return words_of(of)[0] + "".join(words_of(trait)) if of else words_of(trait)[0]


class Function:
    """The innermost function around a line of a source file: in its body, or in its head where that is kept whole.

    Where the line is the head of an impl, and kept whole, it is what the entry writes behind it.
    """

    def __init__(self, path, lines, at, is_kept):
        if is_kept and lines[at].startswith("impl "):
            self.path, self.name, self.lines, self.end = path, lines[at], range(at + 1, at + 2), None
            return
        for first in range(at, -1, -1):
            head = FN.match(lines[first])
            if not head:
                continue
            # The lines at the head's own depth that close and open its body.
            last = next((it for it in range(first, len(lines)) if lines[it] == head[1] + "}"), first)
            outer = (it for it in range(first, last) if not lines[it].startswith(head[1] + " "))
            opens = next((it for it in outer if lines[it].endswith("{")), last)
            if opens < at < last or is_kept and first <= at <= opens < last:
                # The prover names a function by the line of its first attribute.
                top = first
                while top and lines[top - 1].lstrip().startswith(("#[", "///")):
                    top -= 1
                self.path, self.name, self.lines = path, head[2], range(top + 1, last + 2)
                self.end = self.end_below(lines[:first], head[1])
                return
        raise ValueError(f"{path}:{at + 1} lies in no function's body")

    def end_below(self, lines, indent):
        """Returns how the name ends by which a check calls the function, with these lines above it."""
        if not indent:
            module = re.sub(r"^src/|(\blib|\bmain|/mod)?\.rt$", "", self.path).replace("/", "::")
            return f"{module}::{self.name}" if module else self.name
        outer = next((it for it in reversed(lines) if it[:1].isalpha()), "")
        return f"{owner_of(outer[len('impl') :])}::{self.name}" if outer.startswith("impl") else None

    def found_in(self, statuses):
        """Returns its name and what a check said of it, where the check spoke of one that alone may be it."""
        found = [it for it in statuses if f"::{it[0]}".endswith(f"::{self.end}")]
        return found[0] if len(found) == 1 else (None, "the check prints no line for it")

    def clashes(self, other):
        return (self.path, self.name) == (other.path, other.name)

    def is_refused_by(self, line, name):
        """Returns whether a line of the prover says that a goal of this function, of this name, isn't proved."""
        at = re.match(r"(?:note: )?(?:\./)?(\S+?):(\d+):\d+: (.*)", line)
        if not at:
            return False
        if at[1] == self.path:
            is_told = "is not proved" in at[3] or at[3].startswith("error:")
            return is_told and int(at[2]) in self.lines
        # Functions that call one another have one proof, whose folder begins with a +.
        above, _, last = (name or "no function").replace("::", "/").rpartition("/")
        is_own = at[1].startswith((f"proofs/{above}/{last}/", f"proofs/{above}/+".replace("//", "/")))
        return is_own and at[3].startswith("error:") and not NAMES.search(at[3])


class WrongBody:
    """One entry of a crate's wrong bodies."""

    def __init__(self, crate, name, text):
        self.crate, self.name, self.text = crate, f"{crate.name}/{name}", text
        texts, self.fault = rt.edited(text, crate.folder)
        # The functions that it changes, or None where it changes something else too.
        self.functions = []
        try:
            for path in texts or ["no file"]:
                with open(f"{crate.folder}/{path}", encoding="utf-8") as it:
                    lines = it.read().split("\n")
                new = texts[path].split("\n")
                changed = [at for at, (one, two) in enumerate(zip(lines, new)) if one != two]
                self.functions += [Function(path, lines, at, new[at].startswith(lines[at])) for at in changed]
                if not path.startswith("src/") or len(lines) != len(new):
                    raise ValueError(path)
        except (OSError, ValueError):
            self.functions = None

    def ends(self):
        """Returns how the names of its functions end, or none where one of them can't be named."""
        ends = [it.end for it in self.functions or []]
        return ends if None not in ends else []

    def fits(self, batch):
        others = [it for body in batch for it in body.functions]
        return len(batch) < AT_ONCE and not any(a.clashes(b) for a in self.functions for b in others)


def link_all(folder, to):
    """Gives kept work a second name: a check replaces its files, and writes into none."""
    if os.path.isdir(folder):
        shutil.copytree(folder, to, copy_function=os.link, dirs_exist_ok=True)


def only(ends):
    """Returns the words that have a check prove these functions alone."""
    return [word for it in dict.fromkeys(ends) for word in ("--only", it)]


class Trial:
    """The checks of one crate's wrong bodies, each over a copy of what was kept of the crate itself."""

    def __init__(self, crate):
        self.crate, self.flags, self.checks = crate, ["--jobs", "1"], 0
        self.room = f"{crate.folder}/out/wrong-bodies"

    def is_proved(self, bodies):
        """Returns whether what the bodies change is proved as it stands, and keeps that for the checks that follow."""
        shutil.rmtree(self.room, ignore_errors=True)
        os.makedirs(f"{self.room}/whole")
        link_all(f"{self.crate.folder}/out/incremental", f"{self.room}/whole")
        words = only(end for it in bodies for end in it.ends()) if all(it.ends() for it in bodies) else []
        ran = rt.checked(self.crate, {}, [*self.flags, *words], f"{self.room}/whole")
        if ran.returncode == 2 and words:
            # One of the names fits no function, or several.
            ran = rt.checked(self.crate, {}, self.flags, f"{self.room}/whole")
            names = [f"::{it[1]}" for it in map(STATUS.match, ran.stdout.split("\n")) if it]
            for fn in (fn for body in bodies for fn in body.functions or []):
                fn.end = fn.end if sum(it.endswith(f"::{fn.end}") for it in names) == 1 else None
        if ran.returncode:
            print("\n".join(ran.stdout.rstrip("\n").split("\n")[-12:]))
        return ran.returncode == 0

    def kept(self):
        # A new folder each time: what an earlier check left may still be written to.
        shutil.rmtree(f"{self.room}/{self.checks}", ignore_errors=True)
        self.checks += 1
        link_all(f"{self.room}/whole", f"{self.room}/{self.checks}")
        return f"{self.room}/{self.checks}"

    def together(self, batch):
        """Yields what each body of a batch came to, all of whose functions have names."""
        texts, _ = rt.edited("\n".join(it.text for it in batch), self.crate.folder)
        ends = [end for body in batch for end in body.ends()]
        ran = rt.checked(self.crate, texts, [*self.flags, *only(ends)], self.kept()) if texts else None
        lines = ran.stdout.rstrip("\n").split("\n") if ran else [""]
        is_read = not any(rt.unread(it, texts) for it in lines) and not rt.rtlib.STALE.search(ran.stdout if ran else "")
        if not re.match("only=|rattle: no verdict", lines[-1]) or not is_read:
            yield from self.apart(batch, lines)
            return
        statuses = [it.groups() for it in map(STATUS.match, lines) if it]
        left = []
        for body in batch:
            found = [(fn, *fn.found_in(statuses)) for fn in body.functions]
            told = [it for it in lines if any(fn.is_refused_by(it, name) for fn, name, _ in found)]
            said = [it for _, _, it in found]
            if told:
                # A goal first, before a proof that doesn't fit its goal any more.
                told.sort(key=lambda it: "is not proved" not in it)
                yield body, True, f"refused: {told[0][:240]}"
            elif all(it.startswith("proved") for it in said):
                yield body, False, "NOT REFUSED: what it changes is still proved"
            elif len(batch) > 1:
                left.append(body)
            else:
                first = next((it for it in lines if ": error" in it), said[0])
                is_refused = any(it.startswith("not proved") for it in said)
                word = "refused by a name alone that its proof cites" if NAMES.search(first) else "refused"
                word = word if is_refused else "NOT TRIED"
                yield body, is_refused, f"{word}: {first[:240]}"
        for body in left:
            yield from self.together([body])

    def apart(self, batch, lines):
        """Yields what each body of a batch came to that a check didn't get to the end of, by what it printed."""
        if len(batch) == 1:
            first = batch[0].fault or next((it for it in lines if "error" in it), lines[-1])
            yield batch[0], False, f"BAD EDIT: it did not reach the prover: {first[:200]}"
            return
        at = [re.match(r"(?:\./)?(\S+?):(\d+):\d+: error", it) for it in lines]
        places = [(it[1], int(it[2])) for it in at if it]
        is_named = lambda body: any(p == fn.path and n in fn.lines for p, n in places for fn in body.functions)
        named = [it for it in batch if is_named(it)]
        rest = [it for it in batch if it not in named]
        half = len(batch) // 2
        for part in [*([it] for it in named), rest] if named else [batch[:half], batch[half:]]:
            if part:
                yield from self.together(part)

    def alone(self, body):
        """Returns what a body came to in a check of the whole crate."""
        edit = f"{self.room}/{os.path.basename(body.name)}.edit"
        with open(edit, "w", encoding="utf-8") as it:
            it.write(body.text)
        outcome, said = rt.must_fail(self.crate, edit, self.flags, self.kept())
        return body, outcome in (rt.REFUSED, rt.AT_LIMIT), re.sub(r"^must-fail \S+: ", "", said) + " (alone)"

    def all(self, bodies, is_each):
        batches = []
        for body in (it for it in bodies if it.ends()):
            fits = next((it for it in batches if body.fits(it) and not is_each), None)
            if fits is None:
                batches.append([body])
            else:
                fits.append(body)
        for batch in batches:
            yield from self.together(batch)
        for body in (it for it in bodies if not it.ends()):
            yield self.alone(body)


def bodies_of(crate):
    """Returns the wrong bodies of a crate, in the order of its file."""
    path = f"{crate.folder}/wrong-bodies.txt"
    if not os.path.isfile(path):
        return []
    with open(path, encoding="utf-8") as it:
        blocks = it.read().split("\n\n")
    entries = [re.match(r"name: (\w+)\n(.*)", it, re.DOTALL) for it in blocks if not it.startswith("#")]
    if None in entries or len({it[1] for it in entries}) < len(entries):
        sys.exit(f"{path}: an entry has no name, or another's")
    return [WrongBody(crate, it[1], it[2]) for it in entries]


def try_all(crate, bodies, is_each):
    """Returns how many of a crate's wrong bodies are refused, and prints what each came to."""
    for dep in crate.below():
        if dep.build_rlib(["--jobs", "1"], anew=False):
            sys.exit(f"{dep.name} is not proved")
    trial, refused = Trial(crate), 0
    try:
        if not trial.is_proved(bodies):
            sys.exit(f"{crate.name}: what the bodies change is not proved as it stands")
        for body, well, said in trial.all(bodies, is_each):
            print(f"{body.name}: {said}", flush=True)
            refused += well
    finally:
        shutil.rmtree(trial.room, ignore_errors=True)
    print(f"{crate.name}: {refused} of {len(bodies)} refused", flush=True)
    return refused


def read_words(words):
    """Returns what is asked for: a listing or not, how many are drawn by which seed (None: all), and the names."""
    parser = argparse.ArgumentParser(description=__doc__, formatter_class=argparse.RawDescriptionHelpFormatter)
    parser.add_argument("--list", action="store_true", dest="lists")
    parser.add_argument("--sample", type=int, metavar="N")
    parser.add_argument("--seed", type=int, default=None, metavar="S")
    parser.add_argument("--each", action="store_true")
    parser.add_argument("names", nargs="*", metavar="CRATE | CRATE/NAME")
    return parser.parse_args(words)


def main(words):
    asked = read_words(words)
    rt.rtlib.guarded()
    crates = rt.rtlib.crates_below(ROOT)
    bodies = [it for crate in crates for it in bodies_of(crate)]
    unknown = {*asked.names} - {it.name for it in crates} - {it.name for it in bodies}
    if unknown:
        sys.exit(f"no crate and no wrong body: {', '.join(sorted(unknown))}")
    if asked.names:
        bodies = [it for it in bodies if it.crate.name in asked.names or it.name in asked.names]
    if asked.sample is not None:
        seed = random.randrange(2**32) if asked.seed is None else asked.seed
        print(f"seed {seed}", flush=True)
        drawn = {*random.Random(seed).sample(range(len(bodies)), min(asked.sample, len(bodies)))}
        bodies = [it for at, it in enumerate(bodies) if at in drawn]
    if asked.lists:
        faults = [it for it in bodies if it.fault]
        for it in faults:
            print(f"{it.name}: {it.fault}")
        print(f"{len(bodies) - len(faults)} of {len(bodies)} can be applied")
        return 1 if faults else 0
    failed = 0
    for crate in crates:
        own = [it for it in bodies if it.crate is crate]
        if own:
            held = rt.rtlib.lock([crate, *crate.below()])
            failed += len(own) - try_all(crate, own, asked.each)
            for it in held:
                os.close(it)
    return 1 if failed else 0


if __name__ == "__main__":
    sys.exit(main(sys.argv[1:]))
