#!/usr/bin/env python3
"""Proves and builds one program of this repository, the crates below it side by side.

    tools/build.py PROGRAM

Reads crates.txt, proves the crates that PROGRAM stands on, each as soon as those below it are done, as many at a time as
there are processors, and tells on standard error which of how many is done. What a crate's check printed stands in its
out/build.log. It ends with 0 where the program is built.
"""
import os
import subprocess
import sys
import time
from concurrent.futures import FIRST_COMPLETED, ThreadPoolExecutor, wait

TOP = os.path.dirname(os.path.dirname(os.path.abspath(__file__)))


def dependencies():
    """Returns, for each crate of crates.txt, the crates of this repository that it names."""
    found = {}
    with open(os.path.join(TOP, "crates.txt"), encoding="utf-8") as lines:
        for line in lines:
            line = line.split("#")[0].strip()
            if line:
                name, _, words = line.partition(":")
                found[name.split()[0]] = words.split()
    return {name: [it for it in words if it in found] for name, words in found.items()}


def below(name, all_of):
    """Returns the crates that `name` stands on, and itself."""
    found, todo = set(), [name]
    while todo:
        it = todo.pop()
        if it not in found:
            found.add(it)
            todo += all_of[it]
    return found


def prove(name, is_program):
    """Proves a crate and builds it; returns whether it could, and the seconds that it took."""
    folder = os.path.join(TOP, "crates", name)
    os.makedirs(os.path.join(folder, "out"), exist_ok=True)
    begun = time.time()
    with open(os.path.join(folder, "out", "build.log"), "w", encoding="utf-8") as log:
        words = ["rt", "run"] if is_program else ["rt", "lib"]
        status = subprocess.call(words, cwd=folder, stdin=subprocess.DEVNULL, stdout=log, stderr=log)
    built = os.path.exists(os.path.join(folder, "out", name)) if is_program else status == 0
    return built, time.time() - begun


def main():
    program = sys.argv[1]
    all_of = dependencies()
    left, done, running = below(program, all_of), set(), {}
    count = len(left)
    print(f"proving {program} and the {count - 1} crates below it; this happens once", file=sys.stderr, flush=True)
    with ThreadPoolExecutor(os.cpu_count() or 1) as pool:
        while left or running:
            for name in sorted(it for it in left if all(low in done for low in all_of[it])):
                left.discard(name)
                running[pool.submit(prove, name, name == program)] = name
            for it in wait(running, return_when=FIRST_COMPLETED).done:
                name, (built, seconds) = running.pop(it), it.result()
                if not built:
                    print(f"{name}: not built, see crates/{name}/out/build.log", file=sys.stderr)
                    os._exit(1)
                done.add(name)
                others = ", ".join(sorted(running.values())[:4]) or "none"
                print(f"[{len(done)}/{count}] {name} ({seconds:.0f} s); now: {others}", file=sys.stderr, flush=True)


main()
