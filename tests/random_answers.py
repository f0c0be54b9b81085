#!/usr/bin/env python3
"""Random packages: what `check` says of each, against a second opinion (second_opinion/).

usage: random_answers.py PROGRAM [COUNT [SEED]]    1000 packages with the seed 1 are the default
Every other package has its facts at the edge of what the rules of bounds accept (second_opinion/random_bounds.py).
Ends with how often each rule decided. A package of which the two say different things is printed, and fails.
"""
import collections
import os
import pathlib
import random
import subprocess
import sys
import tempfile

from second_opinion import verdict
from second_opinion.random_bounds import random_bounds
from second_opinion.random_packages import random_files


def answer(program, folder, files):
    """What the program prints of the files f0, f1 and so on."""
    names = [f"f{number}" for number in range(len(files))]
    for name, text in zip(names, files):
        pathlib.Path(folder, name).write_text(text)
    ended = subprocess.run([program, "check", "k", *names], cwd=folder, stdin=subprocess.DEVNULL, capture_output=True, timeout=60)
    return ended.stdout.decode(errors="replace").rstrip("\n")


def main():
    program = os.path.abspath(sys.argv[1])
    count, seed = (int(word) for word in (sys.argv[2:] + ["1000", "1"][len(sys.argv) - 2:])[:2])
    source, decided, differ = random.Random(seed), collections.Counter(), 0
    with tempfile.TemporaryDirectory() as folder:
        for number in range(count):
            files = [random_bounds(source)] if number % 2 else random_files(source)
            said, wanted = answer(program, folder, files), verdict(files)
            decided[wanted.split(" ")[1] if wanted.startswith("refused") else "ok"] += 1
            if said != wanted:
                differ += 1
                print(f"the program: {said}\nthe second opinion: {wanted}\n" + "\nthe next file:\n".join(files))
    print(" ".join(f"{rule}:{times}" for rule, times in sorted(decided.items())))
    print(f"random_answers.py: {count - differ} passed, {differ} failed")
    return 1 if differ or not count else 0


if __name__ == "__main__":
    sys.exit(main())
