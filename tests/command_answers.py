#!/usr/bin/env python3
"""The command ./wuffsc: with the proved program, which has to be built, and in a copy of the repository without it.

usage: command_answers.py
The copy answers from the kit's unproved run, which takes about a minute.
"""
import os
import pathlib
import shutil
import subprocess
import sys
import tempfile
import time

ROOT = pathlib.Path(__file__).resolve().parent.parent
BAD = b"pri const X : base.u8 = 256\n"


def run(command, *words, folder):
    begun = time.monotonic()
    ended = subprocess.run([command, *words], cwd=folder, stdin=subprocess.DEVNULL, capture_output=True, text=True)
    return (ended.stdout, ended.returncode), ended.stderr, time.monotonic() - begun


def copy_of_the_repository(folder):
    """The crates and the command, without what was built."""
    shutil.copytree(ROOT / "crates", folder / "crates", ignore=shutil.ignore_patterns("out", "must-fail"))
    for name in ("wuffsc", "crates.txt", "HANDLES"):
        shutil.copy2(ROOT / name, folder / name)


def with_the_program(folder):
    """What went wrong with names of every kind, relative and absolute, in the folder where the caller is."""
    wrong = []
    for name in ("bad.wuffs", "./bad.wuffs", "../here/bad.wuffs", str(folder / "here" / "bad.wuffs")):
        came, said, took = run(ROOT / "wuffsc", "check", "demo", name, folder=folder / "here")
        if came != (f"refused T5 {name}:1:25\n", 1) or said or took > 5:
            wrong.append(f"with the program, {name}: {came}, {said!r}, after {took:.1f} seconds")
    return wrong


def without_the_program(folder):
    """The same in the copy, for one name."""
    copy_of_the_repository(folder)
    came, said, took = run(folder / "wuffsc", "check", "demo", "../here/bad.wuffs", folder=folder / "here")
    print(f"command_answers.py: the unproved run took {took:.0f} seconds")
    right = came == ("refused T5 ../here/bad.wuffs:1:25\n", 1) and "unproved" in said and "--prove" in said
    return [] if right else [f"without the program: {came}, {said!r}"]


def main():
    with tempfile.TemporaryDirectory() as room:
        folder = pathlib.Path(room)
        os.mkdir(folder / "here")
        (folder / "here" / "bad.wuffs").write_bytes(BAD)
        wrong = with_the_program(folder) + without_the_program(folder)
    for line in wrong:
        print(line)
    print(f"command_answers.py: {5 - len(wrong)} passed, {len(wrong)} failed")
    return len(wrong) > 0


if __name__ == "__main__":
    sys.exit(main())
