#!/usr/bin/env python3
"""How the cost of `gen` grows with a package, and its time beside that of compilers on the text that it writes. .ci/run looks at the
growth, and at the written packages.

usage: compiler_benchmark.py PROGRAM [--growth | --written | --steep] [SHAPE..]    all shapes are the default
The shapes are those of check_benchmark.py and a few of what `gen` alone makes much of; each grows by steps of about two up to the limit
that ends it. What is counted is as it is there: instructions, where valgrind is there. The cost of a package without declarations is
taken off. For each step comes the exponent of its growth, over the step's factor or that of the bytes read and written where this is
larger, since the text of a coroutine grows with its points times its locals; what passes 1.10 at the last step is told as too much,
and ends the run with 1. With --growth that is all, and without valgrind nothing is measured then, since seconds tell too little.
For the largest package of each shape comes the least time of three runs of `gen`, and of `tcc -c` and `gcc -O0 -c` on the text that it
writes, one after another in turn, with the factor of `gen`, which checks the package first, over `tcc -c`. Compilers that aren't there
are skipped.
With --steep, the growth of the shapes of STEEP is printed, and nothing is asked of it: of these it is known that they grow by more.
With --written, `gen` and `tcc -c` are compared alone, on each package of examples/ and tests/decoders/ and on those of WRITTEN, 1,024
methods, a method of 1,024 points, 840 coroutines that are a page long each, and the packages of these folders five times in one: the
least time of twenty runs in turn, and the instructions of both, where valgrind is there. Where `gen` takes more instructions than
`tcc -c`, the run ends with 1.
"""
import math
import os
import pathlib
import re
import shutil
import subprocess
import sys
import tempfile
import time

import check_benchmark
from check_benchmark import method, package

ROOT = pathlib.Path(__file__).resolve().parent.parent

COMPILERS = {"tcc": ["tcc", "-c"], "gcc": ["gcc", "-std=c99", "-O0", "-c"]}
ROUNDS = 3
# How often gen and tcc are run in turn with --written; few runs differ by a fifth.
TURNS = 20


def fields(n):
    return package(method("f", "", "", [f"this.f{i % n} = {i}" for i in range(256)], mark="!"), fields=declared_fields(n))


def structs(n):
    return package(*(f"pub struct t{i}?(\n    n : base.u32,\n)\n" for i in range(n)))


def statuses(n):
    """Methods that each return a status of their own."""
    return "".join(f'pub status "#s{i}"\n' for i in range(n)) + package(*(method(f"m{i}", "", "", [f'return "#s{i}"'], mark="?") for i in range(n)))


def local_variables(n):
    """A coroutine that keeps its locals at each of its points."""
    body = [*(f"var x{i} : base.u32" for i in range(n)), *(f"x{i} = args.src.read_u32le?()" for i in range(n)), f"this.n = x{n - 1}"]
    return package(method("f", "src: base.io_reader", "", body, mark="?"), fields="n : base.u32")


def unread(n):
    """A chain of `else if` that doesn't read an argument."""
    lines = ["if args.a {", *["} else if args.a {"] * (n - 1), "}"]
    return package(method("f", "a: base.bool, b: base.u32", "", lines))


def declared_fields(n):
    return "".join(f"f{i} : base.u32, " for i in range(n))


def long_fact(n):
    """One fact with many operands, and assignments to fields, which it doesn't mention."""
    sides = " & ".join(["args.a"] * (8 * n))
    return package(method("f", "a: base.u32", "", [f"if ({sides}) < 9 {{", *["this.x = 1", "this.y = 2"] * n, "}"], mark="!"), fields="x : base.u32, y : base.u32")


def locals_once(n):
    """Locals that are each declared and assigned once: two facts for each."""
    return package(method("f", "a: base.u32", "", [*(f"var x{i} : base.u32" for i in range(n)), *(f"x{i} = args.a" for i in range(n))]))


def fields_once(n):
    return package(method("f", "a: base.u32", "", [f"this.f{i} = args.a" for i in range(n)], mark="!"), fields=declared_fields(n))


def ifs_of_locals(n):
    """Arms in which nothing is done, each with the facts on all locals."""
    return package(method("f", "p: base.bool", "", [*(f"var x{i} : base.u32" for i in range(n)), *["if args.p {", "}"] * (7 * n)]))


def turned_arms(n):
    """Arms that come to the same facts in opposite orders."""
    arm = [f"x{i} = 1" for i in range(n)]
    body = [*(f"var x{i} : base.u32" for i in range(n)), "if args.p {", *arm, "} else {", *reversed(arm), "}"]
    return package(*(method(f"m{i}", "p: base.bool", "", body) for i in range(8)))


def promises(n):
    """A loop with as many promises as ways back to its head."""
    known = " and ".join(f"(this.f{i} < {i + 9})" for i in range(n))
    loop = ["while args.p,", *(f"inv this.f{i} < {i + 9}," for i in range(n)), "{", *["if args.q {", "continue", "}"] * n, "} endwhile"]
    return package(method("f", "p: base.bool, q: base.bool", "", [f"if {known} {{", *loop, "}"]), fields=declared_fields(n))


def structs_with_methods(n):
    """Structs of which every thirty-second has a method."""
    return "".join(f"pub struct t{i}?()\n" for i in range(32 * n)) + "".join(f"pub func t{32 * i}.m() {{\n}}\n" for i in range(n))


def written_packages():
    """The packages of examples/ and tests/decoders/."""
    return sorted([*(ROOT / "examples").glob("*.wuffs"), *(ROOT / "tests/decoders").glob("*.wuffs")])


def renamed(text, n):
    """A package's text in which each struct, constant and status has a name with this number."""
    names = "|".join(re.findall(r"(?:struct|const) (\w+)", text))
    text = re.sub(rf"(?<![\w.])({names})\b", rf"\g<1>{n}", text)
    for status in re.findall(r'status "([^"]*)"', text):
        text = text.replace(f'"{status}"', f'"{status} {n}"')
    return text


def formats(n):
    """The packages of examples/ and tests/decoders/ one after the other, n times, each time under names of its own."""
    texts = [package.read_text() for package in written_packages()]
    return "\n".join(renamed(text, i * len(texts) + j) for i in range(n) for j, text in enumerate(texts))


SHAPES = {
    **check_benchmark.SHAPES,
    "unread": (unread, (4670, 9340, 18680, 37360)),
    "fields": (fields, (5420, 10840, 21680, 43360)),
    "structs": (structs, (2520, 5040, 10080, 20160)),
    "statuses": (statuses, (128, 256, 512, 1024)),
    "locals": (local_variables, (32, 64, 128, 256)),
    "copying": (check_benchmark.copying, (105, 210, 420, 840)),
    "formats": (formats, (7, 14, 28, 56)),
    "long fact": (long_fact, (128, 256, 512, 1024)),
    "structs with methods": (structs_with_methods, (128, 256, 512, 1024)),
    "locals once": (locals_once, (32, 64, 128, 256)),
    "fields once": (fields_once, (64, 128, 256, 511)),
    "turned arms": (turned_arms, (32, 64, 128, 256)),
}

# What grows by more: what is done for all facts that are known is done at each arm and each way back.
STEEP = {
    "ifs of locals": (ifs_of_locals, (32, 64, 128, 256)),
    "promises": (promises, (16, 32, 64, 128)),
}

WRITTEN = {"methods": 1024, "points": 1024, "copying": 840, "formats": 5}


class Meter(check_benchmark.Meter):
    """Runs `gen` on a package and tells what it costs."""

    command = "gen"
    written = 0

    def answer(self, words):
        ran = subprocess.run(words, cwd=self.folder, capture_output=True, text=True)
        if ran.returncode:
            sys.exit(f"{' '.join(words)}: {ran.stdout}{ran.stderr}")
        self.written = len(ran.stdout)
        return ran


def grows(meter, name, make, sizes):
    """Prints the growth of one shape; whether it is within bounds."""
    before, exponent = None, 0
    for n in sizes:
        text = make(n)
        cost = meter.cost(text)[0] - meter.start[0]
        read = check_benchmark.size_of(text)
        size = read + meter.written
        if before:
            exponent = math.log(cost / before[0]) / math.log(max(n / before[2], size / before[1]))
        shown = f"{cost / 1e6:12.2f} M" if meter.counts else f"{cost:12.3f} s"
        print(f"{name:14} {n:6} {read:8} bytes, {meter.written:8} of C {shown} {f'{exponent:6.2f}' if before else ''}", flush=True)
        before = cost, size, n
    if exponent > check_benchmark.MOST_EXPONENT:
        print(f"{name}: it grows with an exponent of {exponent:.2f}, above {check_benchmark.MOST_EXPONENT}")
    return exponent <= check_benchmark.MOST_EXPONENT


def seconds(words, folder, out):
    """The time of one run, whose output goes to a file."""
    with open(folder / out, "wb") as file:
        begun = time.perf_counter()
        subprocess.run(words, cwd=folder, stdout=file, check=True)
        return time.perf_counter() - begun


def beside_compilers(meter, name, text):
    """Prints the times on one package."""
    words, least = meter.words(text), {}
    compilers = {it: [*given, "n.c", "-o", "n.o"] for it, given in COMPILERS.items() if shutil.which(it)}
    for _ in range(ROUNDS):
        for it, given, out in [("gen", words, "n.c"), *((it, given, "said") for it, given in compilers.items())]:
            took = seconds(given, meter.folder, out)
            least[it] = min(took, least.get(it, took))
    written = (meter.folder / "n.c").stat().st_size
    times = ", ".join(f"{it} {took:.3f} s" for it, took in least.items())
    factor = f", factor {least['gen'] / least['tcc']:.1f}" if "tcc" in least else ""
    print(f"{name:14} {check_benchmark.size_of(text):8} bytes, {written:8} of C: {times}{factor}", flush=True)


def instructions(words, folder):
    """How many instructions one run takes."""
    given = ["valgrind", "--tool=cachegrind", "--cache-sim=no", "--cachegrind-out-file=/dev/null", *words]
    ran = subprocess.run(given, cwd=folder, stdout=subprocess.DEVNULL, stderr=subprocess.PIPE, text=True, check=True)
    return int(re.search(r"I\s+refs:\s+([\d,]+)", ran.stderr)[1].replace(",", ""))


def beside_tcc(program, folder, name, package):
    """Compares `gen` with `tcc -c` on one package; whether it takes no more instructions."""
    gen, tcc = [program, "gen", "n", package], ["tcc", "-c", "n.c", "-o", "n.o"]
    times = [(seconds(gen, folder, "n.c"), seconds(tcc, folder, "said")) for _ in range(TURNS)]
    least = [min(took) for took in zip(*times)]
    shown = f"{name:22} {os.path.getsize(package):8} bytes, {(folder / 'n.c').stat().st_size:8} of C: gen {least[0] * 1e3:8.2f} ms, tcc {least[1] * 1e3:8.2f} ms, factor {least[0] / least[1]:.2f}"
    if not shutil.which("valgrind"):
        print(shown, flush=True)
        return True
    counts = [instructions(words, folder) for words in (gen, tcc)]
    print(f"{shown}; {counts[0] / 1e6:8.2f} and {counts[1] / 1e6:8.2f} M instructions, factor {counts[0] / counts[1]:.2f}", flush=True)
    return counts[0] <= counts[1]


def written(program, folder):
    """Compares `gen` with `tcc -c` on packages as they are written; whether it takes no more instructions on each."""
    if not shutil.which("tcc"):
        print("there is no tcc, so gen wasn't compared with it")
        return True
    good = [beside_tcc(program, folder, str(package.relative_to(ROOT)), package) for package in written_packages()]
    for name, size in WRITTEN.items():
        package = folder / f"{name}.wuffs"
        package.write_text(SHAPES[name][0](size))
        good.append(beside_tcc(program, folder, name, package))
    return all(good)


def main():
    words = sys.argv[1:]
    steep = "--steep" in words
    alone = steep or "--growth" in words
    shapes = STEEP if steep else SHAPES
    program, *names = [word for word in words if word not in ("--growth", "--written", "--steep")] or [""]
    if not program or any(name not in shapes for name in names):
        print(__doc__)
        return 2
    if alone and not shutil.which("valgrind"):
        print("there is no valgrind, so the growth of gen wasn't measured")
        return 0
    with tempfile.TemporaryDirectory() as at:
        if "--written" in words:
            return 0 if written(os.path.abspath(program), pathlib.Path(at)) else 1
        meter = Meter(os.path.abspath(program), pathlib.Path(at))
        names = names or list(shapes)
        good = [grows(meter, name, *shapes[name]) for name in names]
        if steep:
            return 0
        for name in [] if alone else names:
            make, sizes = SHAPES[name]
            beside_compilers(meter, name, make(sizes[-1]))
    return 0 if all(good) else 1


if __name__ == "__main__":
    sys.exit(main())
