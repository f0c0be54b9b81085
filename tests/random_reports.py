#!/usr/bin/env python3
"""Random scripts on random packages that are accepted: what commands of the program print, against a second opinion.

usage: random_reports.py PROGRAM [COUNT [SEED [COMMAND..]]]    300 packages with the seed 1, and `mean`, are the default
       random_reports.py --alike PROGRAM COUNT SEED COMMAND COMMAND..
Each package runs five scripts, of which two are changed at a few random bytes or cut, so that most of these are refused. The
second opinion is second_opinion/scripts.py. With --alike there is none, so that many packages can be run: `check` of the program says which
are accepted, each runs two scripts, one of them changed, and the commands have to print the same.
Ends with how often each rule or ending decided. A script of which two say different things is printed with its package, and fails.
"""
import collections
import itertools
import os
import pathlib
import random
import subprocess
import sys
import tempfile

from second_opinion import judged
from second_opinion.random_bounds import nudged, random_bounds
from second_opinion.scripts import judged_once, report
from second_opinion.source_machine import WIDTHS
from second_opinion.trees import Method, SliceType, Struct

# How many packages are tried beside each random one.
ALIKE = 4
EDGES = [0, 1, 2, 3, 4, 5, 7, 8, 9, 100, 254, 255, 256, 65535, 2 ** 32 - 2, 2 ** 32 - 1, 2 ** 64 - 1]


def hex_of(source, lengths):
    return bytes(source.choice(EDGES) % 256 for _ in range(source.choice(lengths))).hex() or "-"


class Writer:
    """Writes a random script over a package's public structs and methods."""

    def __init__(self, declarations, source):
        self.source, self.lines = source, [f"turns {source.choice([20, 60])}"]
        structs = [it.name for it in declarations if isinstance(it, Struct) and it.public]
        public = [it for it in declarations if isinstance(it, Method) and it.public]
        self.methods = {name: [it for it in public if it.owner == name] for name in structs}
        self.receivers = {}
        for number, name in enumerate(structs * 2 + structs[:1]):
            word = "null" if number == 2 * len(structs) else "new"
            self.receivers[f"p{number}"] = name
            self.lines.append(f"{word} p{number} {name}")
            if source.random() < .9:
                self.lines.append(f"init p{number}")
        self.lines += [f"buf b{number} {source.choice([0, 1, 2, 3, 4, 6, 12, 30, 30])}" for number in range(3)]
        self.lines += [f"bytes a{number} {hex_of(source, [0, 1, 2, 4])}" for number in range(2)]

    def write(self, count):
        for _ in range(count if self.receivers else 0):
            self.source.choice([self.call] * 8 + [self.again] * 5 + [self.put] * 4 + [self.other])()
        self.ask()
        return "".join(line + "\n" for line in self.lines).encode()

    def put(self):
        self.lines.append(f"put b{self.source.randrange(3)} {hex_of(self.source, [0, 1, 1, 2, 4])}")

    def again(self):
        """A call of before once more: where it waits, it goes on with what came since."""
        calls = [line for line in self.lines if line.startswith("call")]
        for _ in range(self.source.choice([1, 1, 2, 3]) if calls else 0):
            if self.source.random() < .7:
                self.put()
            self.lines.append(calls[-1])

    def ask(self):
        """What is seen of the receivers at the end: their methods that have neither a mark nor arguments."""
        self.lines += [f"call {receiver}.{it.name}" for receiver, name in self.receivers.items() for it in self.methods[name]
                       if not it.mark and not it.arguments]

    def other(self):
        number = self.source.randrange(3)
        self.lines.append(self.source.choice([f"compact b{number}", f"compact b{number}", f"show b{number}", f"show a{number % 2}", f"close b{number}",
                                              f"init {self.source.choice(list(self.receivers))}", f"turns {self.source.choice([40, 100, 1000])}"]))

    def call(self):
        name = self.source.choice(list(self.receivers))
        if not self.methods[self.receivers[name]]:
            return
        methods = self.methods[self.receivers[name]]
        method = self.source.choice(methods + [it for it in methods if it.mark == "?"] * 2)
        buffers, arrays = (self.source.sample(names, len(names)) for names in (["b0", "b1", "b2", "null"], ["a0", "a1", "null"]))
        words = [f"{it.name}={self.value(it.type, buffers, arrays)}" for it in method.arguments]
        self.lines.append(" ".join([f"call {name}.{method.name}", *self.source.sample(words, len(words))]))

    def value(self, of, buffers, arrays):
        if isinstance(of, SliceType):
            return arrays.pop() if arrays else "null"
        if of.name in WIDTHS:
            most = 2 ** WIDTHS[of.name] - 1
            return min(self.source.choice(EDGES if self.source.random() < .2 else EDGES[:8]), most)
        if of.name == "bool":
            return self.source.choice(["true", "false"])
        if self.source.random() < .95 and len(buffers) > 1 and buffers[-1] == "null":
            buffers.pop()
        return buffers.pop() if buffers else "null"


def changed(script, source):
    """The script cut at a byte, or with a few bytes changed, added or left out after its first line, which limits the turns."""
    first = script.index(b"\n") + 1
    if source.random() < .2:
        return script[:source.randrange(first, len(script) + 1)]
    for _ in range(source.choice([1, 1, 2, 3])):
        at = source.randrange(first, len(script) + 1)
        script = script[:at] + source.choice([b"", b" ", b"\n", b"0", b"z", b"=", b".", b"\r\n", b"null", bytes([source.randrange(256)])]) + script[at + source.choice([0, 1]):]
    return script


def ran(program, folder, command, script):
    pathlib.Path(folder, "s").write_bytes(script)
    ended = subprocess.run([program, command, "k", "s", "f0"], cwd=folder, stdin=subprocess.DEVNULL, capture_output=True, timeout=60)
    return ended.stdout.decode(errors="replace"), ended.returncode


def accepted(source):
    """A random package that is accepted, with its declarations."""
    while True:
        text = random_bounds(source)
        verdict, declarations = judged_once((text,))
        if verdict.startswith("ok"):
            return text, declarations


def accepted_by(program, folder, source):
    """Random packages that the program accepts, with their declarations: also some which differ from others by a number or a comparison alone."""
    while True:
        first, kept = random_bounds(source), []
        judged((first,), lambda declarations: kept.extend(declarations))
        for text in [first, *(nudged(first, source) for _ in range(ALIKE if kept else 0))]:
            pathlib.Path(folder, "f0").write_text(text)
            if not subprocess.run([program, "check", "k", "f0"], cwd=folder, capture_output=True).returncode:
                yield text, kept


def cause(said):
    """What decided: the rule that refused a script, or the status with which a run ended."""
    first = said[0].split(" ")
    return first[1] if first[0] == "script" else f"status {said[1]}"


def main():
    alike = sys.argv[1:2] == ["--alike"]
    program, *given = sys.argv[1 + alike:]
    program = os.path.abspath(program)
    count, seed = given[:2] + ["300", "1"][len(given[:2]):]
    commands = given[2:] or ["mean"]
    source, decided, differ = random.Random(int(seed)), collections.Counter(), 0
    with tempfile.TemporaryDirectory() as folder:
        packages = accepted_by(program, folder, source) if alike else iter(lambda: accepted(source), None)
        for text, declarations in itertools.islice(packages, int(count)):
            pathlib.Path(folder, "f0").write_text(text)
            is_right = True
            for number in (2, 3) if alike else range(5):
                script = Writer(declarations, source).write(40)
                script = changed(script, source) if number > 2 else script
                wanted = ran(program, folder, commands[0], script) if alike else report("k", [text], script)
                decided[cause(wanted)] += 1
                for command in commands[alike:]:
                    said = ran(program, folder, command, script)
                    if said != wanted:
                        is_right = False
                        other = commands[0] if alike else "the second opinion"
                        print(f"{command}: {said}\n{other}: {wanted}\nthe script: {script}\nthe package:\n{text}")
            differ += not is_right
    print(" ".join(f"{rule}:{times}" for rule, times in sorted(decided.items())))
    print(f"random_reports.py{' --alike' if alike else ''}, {', '.join(commands)}: {int(count) - differ} passed, {differ} failed")
    return 1 if differ or not int(count) else 0


if __name__ == "__main__":
    sys.exit(main())
