#!/usr/bin/env python3
"""Tries wrong rules, tests/rules/*.edit: of bounds, with which the proof that what the rules accept is never stuck must fail, and of
lowering, with which that of its law must.

usage: try_rules.py [--fits] [--clone FOLDER] [NAME..]    all wrong rules are the default
An edit has a line 'law: CRATE', a line 'file: PATH' with a definition under crates/, and pairs of lines 'old: TEXT' and 'new: TEXT';
each old TEXT stands once in that file. In a clone of the last commit the crate of the definition loses its code and its proofs,
which are those of the right rule and which the law doesn't use. There the law's crate has to be proved over the right rule, and
mustn't be over a wrong one. With --clone the clone is FOLDER, which is made where it isn't there and stays, with the libraries that it
has built. With --fits nothing is proved: it only looks whether each edit can be applied to the files as they stand.
Prints a line for each edit, and last how many passed; ends with 1 where one didn't.
"""
import argparse
import re
import shutil
import subprocess
import sys

from try_edits import ROOT, cloned

RULES = ROOT / "tests" / "rules"
ONLY_DEFINITIONS = "// The definitions alone.\n#![tactic(auto)]\n\n/// Nothing.\npub fn nothing()\n{}\n"


class Rule:
    """A wrong rule: the crate whose proof has to fail, the file of the definition, and what is turned there."""

    def __init__(self, edit):
        self.name, self.turned, old = edit.stem, [], None
        for line in edit.read_text().split("\n"):
            word, _, rest = line.partition(": ")
            if word == "law":
                self.law = rest
            elif word == "file":
                self.file, self.crate = rest, rest.split("/")[0]
            elif word == "old":
                old = rest
            elif word == "new":
                self.turned.append((old, rest))

    def applied(self, root):
        """The text of the file with the rule turned, or why that can't be."""
        text = (root / "crates" / self.file).read_text()
        for old, new in self.turned:
            if text.count(old) != 1:
                return None, f"'{old}' stands in {self.file} {text.count(old)} times"
            text = text.replace(old, new)
        return text, ""


def is_proved(clone, crate):
    """Whether a crate is proved, and the first thing that is wrong."""
    ran = subprocess.run(["rt", "check", "--jobs", "1"], cwd=clone / "crates" / crate, stdin=subprocess.DEVNULL, stdout=subprocess.PIPE,
                         stderr=subprocess.STDOUT, text=True, errors="replace")
    wrong = re.search(r"^\S+: error: .*$", ran.stdout, re.M)
    return ran.returncode == 0, wrong[0] if wrong else ran.stdout[-300:]


def strip(crate):
    """Leaves a crate nothing but its definitions."""
    for part in ("src", "proofs", "must-fail"):
        shutil.rmtree(crate / part, ignore_errors=True)
    (crate / "src").mkdir()
    (crate / "src" / "lib.rt").write_text(ONLY_DEFINITIONS)


def tried(clone, rule):
    """What comes of a wrong rule."""
    file = clone / "crates" / rule.file
    right = file.read_text()
    wrong, why = rule.applied(clone)
    if wrong is None:
        return "BAD EDIT", why
    file.write_text(wrong)
    try:
        there, why = is_proved(clone, rule.crate)
        if not there:
            return "BAD EDIT", why
        proved, why = is_proved(clone, rule.law)
        return ("NOT REFUSED", "") if proved else ("refused", why)
    finally:
        file.write_text(right)


def try_all(rules, folder):
    passed = 0
    with cloned(folder) as clone:
        for crate in {rule.crate for rule in rules}:
            strip(clone / "crates" / crate)
        for law in sorted({rule.law for rule in rules}):
            proved, why = is_proved(clone, law)
            if not proved:
                print(f"{law} isn't proved over the right rules: {why}")
                return 0
        for rule in rules:
            came, said = tried(clone, rule)
            passed += came == "refused"
            print(f"{rule.name}: {came}: {said}", flush=True)
    return passed


def look_whether_they_fit(rules):
    for rule in rules:
        why = rule.applied(ROOT)[1]
        if why:
            print(f"{rule.name}: {why}")
    return sum(not rule.applied(ROOT)[1] for rule in rules)


def main():
    options = argparse.ArgumentParser(usage="try_rules.py [--fits] [--clone FOLDER] [NAME..]")
    options.add_argument("--fits", action="store_true")
    options.add_argument("--clone")
    options.add_argument("names", nargs="*")
    given = options.parse_args()
    rules = [Rule(edit) for edit in sorted(RULES.glob("*.edit")) if not given.names or edit.stem in given.names]
    passed = look_whether_they_fit(rules) if given.fits else try_all(rules, given.clone)
    print(f"{'wrong rules that fit' if given.fits else 'wrong rules'}: {passed} passed, {len(rules) - passed} failed")
    return 1 if passed < len(rules) or not rules else 0


if __name__ == "__main__":
    sys.exit(main())
