#!/usr/bin/env python3
"""The packages for the rules of bounds, judged by hand (bounds_packages.py): what the program says of each, and the second opinion.

usage: bounds_answers.py PROGRAM [NAME]    only the packages whose name has NAME in it
Prints each package of which one of the two says something else, and last how many passed.
"""
import os
import sys
import tempfile

from bounds_packages import packages
from random_answers import answer
from second_opinion import verdict


def is_right(came, right):
    return came.startswith("ok ") if right == "ok" else came == f"refused {right.replace(' ', ' f0:')}"


def main():
    program, wanted, passed, failed = os.path.abspath(sys.argv[1]), "".join(sys.argv[2:3]), 0, 0
    with tempfile.TemporaryDirectory() as folder:
        for name, text, right in packages():
            if wanted not in name:
                continue
            said, thought = answer(program, folder, [text]), verdict([text])
            good = is_right(said, right) and is_right(thought, right)
            passed += good
            failed += not good
            if not good:
                print(f"{name}: by hand {right}, the program {said}, the second opinion {thought}")
    print(f"bounds_answers.py: {passed} passed, {failed} failed")
    return 1 if failed or not passed else 0


if __name__ == "__main__":
    sys.exit(main())
