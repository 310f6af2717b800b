#!/usr/bin/env python3
"""Proves each library by itself with `rt ci NAME`, as many at a time as --jobs says (2).

A library starts once those that it stands on have been proved, and of those that can start the one that the longest chain stands
on comes first. The tests and the must-fail edits of a library wait for nobody: what stands on it is proved beside them, or though
they failed. What stands on one that isn't proved is left out. `rt ci` fails too then, and says why; so this prints a line a
library, and ends with 0. Where `rt ci` takes no crate's name, as in older toolchains, there is nothing to be done here, and it
ends with 2: the whole run proves them all.
"""
import argparse
import os
import re
import subprocess
import sys
import threading
import time

TOP = os.path.dirname(os.path.dirname(os.path.abspath(__file__)))
BESIDE = ("_tests", "_rows", "_main")


def libraries():
    """Each library with those that it stands on."""
    uses = {}
    with open(f"{TOP}/crates.txt", encoding="utf-8") as file:
        for line in file:
            name, found, rest = line.split("#")[0].partition(":")
            if found and not name.strip().endswith(BESIDE):
                uses[name.strip()] = rest.split()
    return {name: [it for it in below if it in uses] for name, below in uses.items()}


def work(name):
    """What a proof costs, in lines of code; functions cost, and ten lines of lemmas cost as much as one of code."""
    total = 0
    for folder, folders, files in os.walk(f"{TOP}/crates/{name}"):
        folders[:] = [it for it in folders if it != "out"]
        for file in files:
            if file.endswith((".rt", ".antt")):
                with open(f"{folder}/{file}", encoding="utf-8") as text:
                    total += sum(1 for _ in text) * (1 if file.endswith(".rt") else 0.1)
    return total


def chains(uses):
    """For each library the work of the longest chain that begins with it."""
    above = {name: [it for it, below in uses.items() if name in below] for name in uses}
    found = {}

    def chain(name):
        if name not in found:
            found[name] = work(name) + max((chain(it) for it in above[name]), default=0)
        return found[name]

    return {name: chain(name) for name in uses}


def takes_names():
    """Whether `rt ci` takes a crate's name; an older one answers how it is used."""
    ran = subprocess.run(["rt", "ci", "no_such_crate"], cwd=TOP, stdout=subprocess.PIPE, stderr=subprocess.STDOUT, text=True)
    return not ran.stdout.startswith("usage:")


def prove(name, proved, edited):
    """Whether it passed. Calls `proved` as soon as the library is, before its tests are, and `edited` before its edits are tried."""
    started = time.monotonic()
    with subprocess.Popen(["rt", "ci", name], cwd=TOP, stdout=subprocess.PIPE, stderr=subprocess.STDOUT, text=True) as running:
        said = ""
        for line in running.stdout:
            said = line.strip() or said
            if re.match(rf"(rt: )?{name} (proved|is kept)\b", line):
                proved()
            if f"{name}: trying its must-fail edits" in line:
                edited()
    print(f"{name}: {time.monotonic() - started:.0f} seconds; {said}", flush=True)
    return running.returncode == 0


def main():
    options = argparse.ArgumentParser(description=__doc__)
    options.add_argument("--jobs", type=int, default=2)
    jobs = options.parse_args().jobs
    if not takes_names():
        print("this `rt ci` takes no crate's name: the whole run proves all libraries")
        sys.exit(2)
    uses = libraries()
    length = chains(uses)
    left, passed, running = set(uses), set(), set()
    changed = threading.Condition()

    def end(name):
        with changed:
            passed.add(name)
            changed.notify_all()

    def worker():
        while True:
            with changed:
                while not (ready := [it for it in left if passed.issuperset(uses[it])]):
                    if not running:
                        return
                    changed.wait()
                name = max(ready, key=lambda it: (length[it], it))
                left.remove(name)
                running.add(name)
            replaced = []

            def edited():
                # another worker goes on beside the edits
                if not replaced:
                    replaced.append(threading.Thread(target=worker))
                    replaced[0].start()

            has_passed = prove(name, lambda it=name: end(it), edited)
            with changed:
                running.remove(name)
                changed.notify_all()
            if has_passed:
                end(name)
            if replaced:
                replaced[0].join()
                return

    workers = [threading.Thread(target=worker) for _ in range(jobs)]
    for it in workers:
        it.start()
    for it in workers:
        it.join()
    for it in sorted(left):
        print(f"{it}: left out, since something below it failed")


main()
