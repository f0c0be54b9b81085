#!/usr/bin/env python3
"""How the cost of `check` grows with a package. It isn't part of .ci/run.

usage: check_benchmark.py PROGRAM [SHAPE..]    all shapes are the default
Each shape is a package that is accepted and grows in one way, by steps of about two, up to the limit that ends it: the greatest
number of methods, statements, facts, points, arguments or files, 48 open brackets (47 loops), or 262,144 tokens. Where valgrind is
there, what is counted is instructions, which are the same on every run; else it is seconds, of the least of three runs. The cost
of a package without declarations is taken off. For each step comes the exponent of its growth: 1.00 is in proportion, and what
passes 1.10 at the last step, where the package is largest, is told as too much. The memory is by how much more the process held at
most than for the first size, for each byte of source more; above 64 is told as too much.
At last, where tcc is there, `check` of a package of nearly as many tokens as one may have, of coroutines that copy and count bytes, is timed beside
`tcc -c` of a C text of that size.
"""
import math
import os
import pathlib
import re
import resource
import shutil
import subprocess
import sys
import tempfile
import time

MOST_EXPONENT = 1.10
MOST_BYTES_A_BYTE = 64


def method(name, arguments, result, lines, mark=""):
    return "".join([f"pub func s.{name}{mark}({arguments}){result} {{\n", *(f"    {line}\n" for line in lines), "}\n"])


def package(*parts, fields=""):
    return "".join([f"pub struct s?({fields})\n", *parts])


def tokens(n):
    return "".join(f"pri const C_{i} : base.u32 = {i % 1000}\n" for i in range(n))


def methods(n):
    return package(*(method(f"m{i}", "a: base.u32", " base.u32", ["return args.a"]) for i in range(n)))


def arguments(n):
    """A chain of methods of which each hands its arguments on, the last one first."""
    declared = ", ".join(f"a{i}: base.u32" for i in range(n))
    given = ", ".join(f"a{i}: args.a{i}" for i in reversed(range(n)))
    return package(*(method(f"m{j}", declared, "", [f"this.m{j + 1}!({given})"], mark="!") for j in range(320)),
                   method("m320", declared, "", ["this.x = args.a0"], mark="!"), fields="x : base.u32")


def files(n):
    """Files of constants, of which sixteen have nearly as many tokens as a package may have."""
    return ["".join(f"pri const C_{i} : base.u32 = {i % 1000}\n" for i in range(1638 * j, 1638 * (j + 1))) for j in range(n)]


def statements(n):
    return package(method("f", "a: base.u32", "", ["var x : base.u32", *(["x = args.a", "x = 7"] * (n // 2 - 1))]))


def facts(n):
    fields = "".join(f"f{i} : base.u32, " for i in range(n))
    given = " and ".join(f"(this.f{i} < {i + 9})" for i in range(n))
    body = [f"    x = this.f{i % n} & 0xFFFF" for i in range(256)]
    return package(method("f", "", "", ["var x : base.u32", f"if {given} {{", *body, "}"]), fields=fields)


def points(n):
    return package(method("f", "src: base.io_reader", "", ["args.src.skip_u32?(n: 1)"] * n, mark="?"))


def nested_loops(n):
    """Loops in one another, whose lines aren't indented, so that the package grows in proportion."""
    body = ["var x : base.u32", "var y : base.u32", *["while x < 100, inv x <= 100, inv y < 9, {"] * n, *["} endwhile"] * n]
    return package(*(method(f"m{i}", "", "", body) for i in range(64)))


def else_ifs(n):
    lines = ["var x : base.u32", "if args.a == 0 {"]
    for i in range(1, n):
        lines += [f"}} else if args.a == {i % 100} {{"]
    return package(method("f", "a: base.u32", "", [*lines, "    x = 1", "}"]))


def operands(n):
    return package(method("f", "a: base.u32", " base.u32", ["return " + " & ".join(["args.a"] * n)]))


def conditions(n):
    return package(method("f", "a: base.u32, p: base.bool", "", ["if " + " or ".join(["args.p", "(args.a < 7)"] * (n // 2)) + " {", "}"]))


def copying(n):
    """Coroutines that are a page long each."""
    step = ["c = args.src.read_u8?()", "if c < 0x80 {", "    args.dst.write_u8?(a: c)", "} else if (c & 0x40) == 0 {", "    this.count = ((c as base.u32) & 0x3F) + 1", "} else {",
            "    this.seen[c & 0x0F] = c", "}"]
    body = ["var c : base.u8", "var n : base.u32", "while n < 1000,", "    inv n <= 1000,", "{", *(f"    {line}" for line in step * 3), "    n += 1", "} endwhile"]
    return package(*(method(f"m{i}", "src: base.io_reader, dst: base.io_writer", "", body, mark="?") for i in range(n)), fields="count : base.u32, seen : array[16] base.u8")


SHAPES = {
    "tokens": (tokens, (3276, 6552, 13104, 26208)),
    "methods": (methods, (128, 256, 512, 1024)),
    "arguments": (arguments, (8, 16, 32, 64)),
    "files": (files, (2, 4, 8, 16)),
    "statements": (statements, (512, 1024, 2048, 4096)),
    "facts": (facts, (64, 128, 256, 511)),
    "points": (points, (128, 256, 512, 1024)),
    "nested loops": (nested_loops, (6, 12, 24, 47)),
    "else ifs": (else_ifs, (3640, 7280, 14560, 29120)),
    "operands": (operands, (8190, 16380, 32760, 65520)),
    "conditions": (conditions, (5460, 10920, 21840, 43680)),
}


class Meter:
    """Runs `check` on a package and tells what it costs."""

    command = "check"

    def __init__(self, program, folder):
        self.program, self.folder = program, folder
        self.counts = shutil.which("valgrind") is not None
        self.start = self.cost("")

    def words(self, text):
        """The words that check a package: a text, or the texts of its files."""
        names = []
        for number, one in enumerate([text] if isinstance(text, str) else text):
            names.append(f"n{number}.wuffs")
            (self.folder / names[-1]).write_text(one)
        return [self.program, self.command, "n", *names]

    def answer(self, words):
        ran = subprocess.run(words, cwd=self.folder, capture_output=True, text=True)
        if not ran.stdout.startswith("ok "):
            sys.exit(f"the package isn't accepted: {ran.stdout}{ran.stderr}")
        return ran

    def memory(self, words):
        """The most that the process held, in bytes."""
        read, write = os.pipe()
        child = os.fork()
        if child == 0:
            subprocess.run(words, cwd=self.folder, stdout=subprocess.DEVNULL)
            os.write(write, str(resource.getrusage(resource.RUSAGE_CHILDREN).ru_maxrss * 1024).encode())
            os._exit(0)
        os.waitpid(child, 0)
        return int(os.read(read, 64))

    def seconds(self, words):
        least = math.inf
        for _ in range(3):
            begun = time.perf_counter()
            self.answer(words)
            least = min(least, time.perf_counter() - begun)
        return least

    def cost(self, text):
        """What is counted, and the bytes of memory."""
        words = self.words(text)
        held = self.memory(words)
        if not self.counts:
            return self.seconds(words), held
        # Cachegrind without its caches counts the same instructions as callgrind in a quarter of the time.
        ran = self.answer(["valgrind", "--tool=cachegrind", "--cache-sim=no", "--cachegrind-out-file=/dev/null", *words])
        return int(re.search(r"I +refs: +([\d,]+)", ran.stderr)[1].replace(",", "")), held


def size_of(text):
    """The bytes of a package, which is a text or the texts of its files."""
    return len(text) if isinstance(text, str) else sum(map(len, text))


def grows(meter, name, make, sizes):
    """Prints the growth of one shape; whether it is within bounds."""
    before, good, first = None, True, None
    for n in sizes:
        text = make(n)
        counted, held = meter.cost(text)
        first = first or (size_of(text) - 1, held)
        cost, memory = counted - meter.start[0], (held - first[1]) / (size_of(text) - first[0])
        exponent = math.log(cost / before[0]) / math.log(n / before[1]) if before and before[0] > 0 < cost else None
        shown = f"{cost / 1e6:12.2f} M" if meter.counts else f"{cost:12.3f} s"
        print(f"{name:14} {n:6} {size_of(text):8} bytes {shown} {'' if exponent is None else f'{exponent:6.2f}':6} {memory:7.1f} bytes a byte", flush=True)
        before = cost, n
    if exponent > MOST_EXPONENT:
        good = False
        print(f"{name}: it grows with an exponent of {exponent:.2f}, above {MOST_EXPONENT}")
    if memory > MOST_BYTES_A_BYTE:
        good = False
        print(f"{name}: it takes {memory:.0f} bytes a byte, above {MOST_BYTES_A_BYTE}")
    return good


def beside_tcc(meter):
    """`check` of 1 MiB beside tcc on a C text of that size, in seconds; True where tcc is missing."""
    if not shutil.which("tcc"):
        print("there is no tcc, so check wasn't timed beside it")
        return True
    text = copying(840)
    line = "unsigned f%d(unsigned a, unsigned b) { unsigned x = 0; while (a < b) { x = x + a * %d; a = a + 1; } return x; }\n"
    body, n = [], 0
    while sum(map(len, body)) < len(text):
        body += [line % (i, i) for i in range(n, n + 512)]
        n += 512
    (meter.folder / "n.c").write_text("".join(body)[:len(text)].rpartition("\n")[0] + "\n")
    ours = meter.seconds(meter.words(text))
    begun = time.perf_counter()
    subprocess.run(["tcc", "-c", "n.c", "-o", "n.o"], cwd=meter.folder, check=True)
    theirs = time.perf_counter() - begun
    print(f"{len(text)} bytes: check {ours:.3f} s, tcc -c {theirs:.3f} s")
    return True


def main():
    if len(sys.argv) < 2 or any(name not in SHAPES for name in sys.argv[2:]):
        print(__doc__)
        return 2
    with tempfile.TemporaryDirectory() as folder:
        meter = Meter(os.path.abspath(sys.argv[1]), pathlib.Path(folder))
        good = [grows(meter, name, *SHAPES[name]) for name in sys.argv[2:] or SHAPES]
        if not sys.argv[2:]:
            good.append(beside_tcc(meter))
    return 0 if all(good) else 1


if __name__ == "__main__":
    sys.exit(main())
