#!/usr/bin/env python3
"""Random packages that the second opinion accepts, run on random scripts: no step may be stuck, and every fact must be true.
Seconds are those of the processor.

usage: soundness.py [COUNT [SEED]]             200 accepted packages with the seed 1 are the default
       soundness.py --wrong [SECONDS [NAME]]   whether each wrong rule is found out, in at most 30 seconds each
Prints each package with a script that gets stuck or makes a fact false, and last how many packages passed.
"""
import collections
import random
import sys
import time

from second_opinion import judged
from second_opinion.bounds import judge_bounds
from second_opinion.random_bounds import random_bounds
from second_opinion.source_machine import COMPARE, Buffer, Machine, MoreTurns, Part, Stuck
from second_opinion.trees import Block
from second_opinion.wrong_rules import WRONG, Replaced

SCRIPTS, ACTIONS = 10, 50


class Judged:
    """A package with what the rules say of it, and with the list of facts at each of its statements and ends of blocks."""

    def __init__(self, text):
        self.lists, self.trees, self.declarations = {}, {}, []
        self.answer = judged([text], self.judge)

    def judge(self, declarations):
        self.declarations = declarations
        return judge_bounds(declarations, self.notice)

    def notice(self, key, known):
        self.lists[key] = list(known.list)
        self.trees = known.package.trees


class NotTrue(Exception):
    """A fact that isn't true, or a statement that no list stands for."""


class Run:
    """A random script on a package. `lines` are what was done so far."""

    def __init__(self, package, source):
        self.package, self.random, self.lines = package, source, []
        self.machine = Machine(package.declarations, self.watch)
        self.edges = [0, 1, 2, 3, 4, 5, 7, 8, 9, 100, 254, 255, 256, 2 ** 32 - 2, 2 ** 32 - 1, 2 ** 64 - 1]
        structs = {it.owner for it in self.machine.methods if it.public}
        self.receivers = [(name, self.machine.new(name)) for name in sorted(structs) for _ in range(2)] + [(min(structs), None)]
        self.buffers = [Buffer(source.choice([0, 1, 2, 3, 4, 6, 12])) for _ in range(3)]
        self.arrays = [[source.choice(self.edges) % 256 for _ in range(source.choice([0, 1, 2, 4]))] for _ in range(2)]
        self.steps = 0

    def watch(self, key, frame):
        if key not in self.package.lists:
            raise NotTrue(f"no list stands for {where(key)}")
        for fact in self.package.lists[key]:
            self.steps += 1
            if not self.is_true(fact, frame):
                raise NotTrue(f"a false fact, {fact[0]} {fact[2]}, at {where(key)}")

    def side(self, form, frame):
        return form[1] if form[0] == "number" else self.machine.value(self.package.trees[form], frame)

    def is_true(self, fact, frame):
        kind, first, sign, *second = fact
        if kind == "stands":
            return self.side(first, frame) == sign
        return COMPARE[sign](self.side(first, frame), self.side(second[0], frame))

    # Actions

    def run(self):
        for number, (struct, state) in enumerate(self.receivers):
            if state and self.random.random() < .9:
                self.init(number)
        for _ in range(ACTIONS):
            action = self.random.choice([self.call] * 8 + [self.put] * 3 + [self.compact, self.any_init, self.close])
            action()

    def any_init(self):
        numbers = [number for number, (_, state) in enumerate(self.receivers) if state]
        if self.random.random() < .5:
            self.init(self.random.choice(numbers))

    def init(self, number):
        self.lines.append(f"init {number}")
        self.machine.init(self.receivers[number][1])

    def put(self):
        number = self.random.randrange(len(self.buffers))
        some = [self.random.choice(self.edges) % 256 for _ in range(self.random.choice([1, 1, 2, 4]))]
        self.lines.append(f"put b{number} {bytes(some).hex()}")
        self.buffers[number].put(some)

    def compact(self):
        number = self.random.randrange(len(self.buffers))
        self.lines.append(f"compact b{number}")
        self.buffers[number].compact()

    def close(self):
        if self.random.random() < .2:
            number = self.random.randrange(len(self.buffers))
            self.lines.append(f"close b{number}")
            self.buffers[number].closed = True

    def call(self):
        number = self.random.randrange(len(self.receivers))
        struct, state = self.receivers[number]
        public = [it for it in self.machine.methods if it.public and it.owner == struct]
        if state and state.active and self.random.random() < .6:
            method = state.active
        else:
            method = self.random.choice(public + [it for it in public if it.name == "fill"] * 3)
        buffers, arrays = self.shuffled(self.buffers), self.shuffled(self.arrays)
        arguments = {it: self.argument(it.type, buffers, arrays) for it in method.arguments}
        written = ", ".join(f"{it.name}: {self.shown(value)}" for it, value in arguments.items())
        self.machine.turns = self.random.choice([3, 10, 40])
        self.lines.append(f"call {number}.{struct}.{method.name}({written})")
        answer = self.machine.enter(state, method, arguments)
        self.lines[-1] += f" {answer}"
        if state and state.life == "disabled" and self.random.random() < .7:
            self.init(number)

    def shuffled(self, things):
        return self.random.sample(things, len(things))

    def argument(self, of, buffers, arrays):
        """A value for an argument, mostly of its type."""
        bounds, source = self.machine.type_bounds(of), self.random
        if bounds:
            most = 2 ** self.machine.element_width(of) - 1
            fitting = [edge for edge in self.edges if bounds[0] <= edge <= bounds[1]]
            return source.choice(fitting) if source.random() < .97 else min(source.choice(self.edges), most)
        if not hasattr(of, "name"):
            cells = arrays.pop()
            return Part(cells, 0, len(cells)) if source.random() < .9 else Part([], 0, 0)
        if of.name == "bool":
            return source.random() < .5
        return None if source.random() < .02 else buffers.pop()

    def shown(self, value):
        if isinstance(value, Buffer):
            return f"b{self.buffers.index(value)} {value.bytes[value.ri:value.wi]} of {len(value.bytes)}{' closed' * value.closed}"
        return value.taken() if isinstance(value, Part) else value


def where(key):
    if isinstance(key, tuple):
        return f"the resumption of {where(key[1])}"
    return f"{key.close[1]}:{key.close[2]}, the end of a block" if isinstance(key, Block) else f"{key.place[1]}:{key.place[2]}"


def found_in(package, source, reached):
    """What goes wrong in a package's scripts, with the script, or None. `reached` counts what they come by."""
    for _ in range(SCRIPTS):
        run = Run(package, source)
        try:
            run.run()
        except MoreTurns:
            pass
        except (Stuck, NotTrue) as wrong:
            return f"{wrong}\n" + "\n".join(run.lines)
        reached["calls"] += sum(line.startswith("call") for line in run.lines)
        reached["facts"] += run.steps
    return None


def run_packages(count, seed):
    source, decided, reached, failed = random.Random(seed), collections.Counter(), collections.Counter(), 0
    start = time.process_time()
    while decided["ok"] < count:
        text = random_bounds(source)
        package = Judged(text)
        decided[package.answer.split(" ")[1] if package.answer.startswith("refused") else "ok"] += 1
        if package.answer.startswith("refused"):
            continue
        found = found_in(package, source, reached)
        if found:
            failed += 1
            print(f"{text}\n{found}\n")
    print(" ".join(f"{rule}:{times}" for rule, times in sorted(decided.items())))
    print(f"{reached['calls']} calls, {reached['facts']} facts, {time.process_time() - start:.0f} seconds")
    print(f"soundness.py: {count - failed} passed, {failed} failed")
    return 1 if failed or not count else 0


def seconds_to_find(wrong, most):
    """After how many seconds and accepted packages a wrong rule is found out, or None."""
    source, start, tried = random.Random(wrong[0]), time.process_time(), 0
    with Replaced(wrong):
        while time.process_time() - start < most:
            package = Judged(random_bounds(source))
            if package.answer.startswith("ok"):
                tried += 1
                found = found_in(package, source, collections.Counter())
                if found:
                    return time.process_time() - start, tried, found.split("\n")[0]
    return None


def try_wrong_rules(most, name):
    missed = 0
    for wrong in WRONG:
        if name not in wrong[0]:
            continue
        found = seconds_to_find(wrong, most)
        missed += found is None
        told = f"found in package {found[1]}, after {found[0]:.1f} seconds: {found[2]}" if found else "NOT FOUND"
        print(f"{wrong[0]}: {told}", flush=True)
    print(f"soundness.py: {missed} wrong rules weren't found out")
    return 1 if missed else 0


def main():
    words = sys.argv[1:]
    if words[:1] == ["--wrong"]:
        return try_wrong_rules(int(words[1]) if words[1:] else 30, words[2] if words[2:] else "")
    return run_packages(*(int(word) for word in (words + ["200", "1"][len(words):])[:2]))


if __name__ == "__main__":
    sys.exit(main())
