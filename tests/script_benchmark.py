#!/usr/bin/env python3
"""How the cost of `mean` grows with a script and with the turns of a call. It isn't part of .ci/run.

usage: script_benchmark.py PROGRAM [SHAPE..]    all shapes are the default
Each shape is a script that grows in one way, by steps of two, over 64 receivers of one package. Where valgrind is there, what is
counted is instructions, which are the same on every run; else it is seconds of the processor, of the least of five runs. The cost
of a script without lines is taken off. For each step comes the exponent of its growth: 1.00 is in proportion, and what passes 1.10
at the last step is told as too much. At last a call of 1,000,000 turns of a small loop is timed; more than two seconds are told as
too much.
"""
import math
import os
import pathlib
import re
import shutil
import subprocess
import sys
import tempfile

MOST_EXPONENT = 1.10
MOST_SECONDS = 2
RECEIVERS = 64

PACKAGE = """\
pub struct s?(
    total : base.u32,
)
pub func s.get() base.u32 {
    return this.total
}
pub func s.add!(n: base.u32) {
    this.total ~mod+= args.n
}
pub func s.take?(src: base.io_reader) {
    var c : base.u8
    while true {
        c = args.src.read_u8?()
        this.total ~mod+= c as base.u32
    } endwhile
}
pub func s.count(n: base.u32) base.u32 {
    var i : base.u32
    while i < args.n {
        i ~mod+= 1
    } endwhile
    return i
}
"""

START = [f"new r{k} s" for k in range(RECEIVERS)] + [f"init r{k}" for k in range(RECEIVERS)]
ROUND = [f"r{k}" for k in range(RECEIVERS)]


def lines(n, line):
    """So many lines, each about the next receiver."""
    return START + [line(ROUND[i % RECEIVERS], i) for i in range(n - len(START))]


def reads(n):
    return lines(n, lambda r, i: f"call {r}.get")


def writes(n):
    return lines(n, lambda r, i: f"call {r}.add n=1")


def inits(n):
    return lines(n, lambda r, i: f"init {r}")


def comments(n):
    return lines(n, lambda r, i: "# nothing")


def feeds(n):
    """One byte and one call after the other, each coroutine with a buffer of its own."""
    start = START + [f"buf b{k} 8" for k in range(RECEIVERS)]
    steps = [line for k in range(RECEIVERS) for line in (f"put b{k} 01", f"call r{k}.take src=b{k}", f"compact b{k}")]
    return start + [steps[i % len(steps)] for i in range(n - len(start))]


def turns(n):
    return START + ["turns 10000000", f"call r0.count n={n}"]


SHAPES = {
    "reads": (reads, (8192, 16384, 32768, 65536)),
    "writes": (writes, (8192, 16384, 32768, 61440)),
    "inits": (inits, (8192, 16384, 32768, 65536)),
    "feeds": (feeds, (8192, 16384, 32768, 49152)),
    "comments": (comments, (8192, 16384, 32768, 65536)),
    "turns": (turns, (125000, 250000, 500000, 1000000)),
}


class Meter:
    """Runs `mean` on a script and tells what it costs."""

    def __init__(self, program, folder):
        self.words, self.folder = [program, "mean", "n", "s", "n.wuffs"], folder
        self.counts = shutil.which("valgrind") is not None
        (folder / "n.wuffs").write_text(PACKAGE)
        self.start = self.cost([])

    def write(self, script):
        (self.folder / "s").write_text("".join(f"{line}\n" for line in script))

    def run(self, words):
        """The seconds of the processor, and what is said beside the report, which is written to a file."""
        with open(self.folder / "report", "wb") as report, open(self.folder / "said", "wb") as said:
            child = subprocess.Popen(words, cwd=self.folder, stdout=report, stderr=said)
            _, status, used = os.wait4(child.pid, 0)
            child.returncode = status
        if status:
            sys.exit(f"the script didn't run to its end: {(self.folder / 'report').read_text()[-200:]}")
        return used.ru_utime + used.ru_stime, (self.folder / "said").read_text()

    def seconds(self, script):
        self.write(script)
        return min(self.run(self.words)[0] for _ in range(5))

    def cost(self, script):
        if not self.counts:
            return self.seconds(script)
        self.write(script)
        said = self.run(["valgrind", "--tool=callgrind", "--callgrind-out-file=/dev/null", *self.words])[1]
        return int(re.search(r"Collected : (\d+)", said)[1])


def grows(meter, name, make, sizes):
    """Prints the growth of one shape; whether it is within bounds."""
    before, size = None, None
    for n in sizes:
        cost = max(meter.cost(make(n)) - meter.start, 1e-6)
        exponent = math.log(cost / before) / math.log(n / size) if before else None
        shown = f"{cost / 1e6:12.2f} M" if meter.counts else f"{cost:12.3f} s"
        print(f"{name:10} {n:8} {shown} {'' if exponent is None else f'{exponent:6.2f}'}", flush=True)
        before, size = cost, n
    if exponent > MOST_EXPONENT:
        print(f"{name}: it grows with an exponent of {exponent:.2f}, above {MOST_EXPONENT}")
    return exponent <= MOST_EXPONENT


def million(meter):
    """A call of a million turns."""
    took = meter.seconds(turns(999999))
    print(f"a call of 1,000,000 turns: {took:.2f} s")
    if took > MOST_SECONDS:
        print(f"that is above {MOST_SECONDS} s")
    return took <= MOST_SECONDS


def main():
    if len(sys.argv) < 2 or any(name not in SHAPES for name in sys.argv[2:]):
        print(__doc__)
        return 2
    with tempfile.TemporaryDirectory() as folder:
        meter = Meter(os.path.abspath(sys.argv[1]), pathlib.Path(folder))
        good = [grows(meter, name, *SHAPES[name]) for name in sys.argv[2:] or SHAPES]
        good.append(million(meter))
    return 0 if all(good) else 1


if __name__ == "__main__":
    sys.exit(main())
