#!/usr/bin/env python3
"""How fast the C machine is, through `exec`: turns and statements a second, and how loading grows with a text. It isn't part of
.ci/run, and wants a program that was built for speed.

usage: machine_benchmark.py PROGRAM [NAME..]    only the ways to grow that are named

1. A loop over the bytes of an array, five statements a turn, for a million turns: two processor seconds are the aim.
2. Texts that grow in one way, by steps of two, up to a mebibyte: functions, `static inline` functions that call one another, the same
   beside an expression that grows with them, labels, cases, names of one function, operands, calls, `else if`s, statements, and
   members of a struct whose name grows with them. For each step comes the exponent of its growth, 1.00 being in proportion; what
   passes 1.10 at the last step is told as too much, and so is a text that memory doesn't do for. What is counted is instructions
   where valgrind is there, else processor seconds. The cost of the shortest text is taken off.
"""
import math
import pathlib
import re
import resource
import shutil
import subprocess
import sys
import tempfile

MOST_EXPONENT = 1.10
PACKAGE = """pub struct m!()
pub func m.f!(n: base.u32) base.u32 {
    return 0
}
"""
FRONT = """#include <stddef.h>
#include <stdint.h>
#include <string.h>
typedef struct { uint8_t* ptr; size_t len; size_t wi; size_t ri; uint64_t pos; _Bool closed; } wuffs_base__io_buffer;
typedef struct { uint32_t n; uint8_t cells[256]; } wuffs_m__m;
const char* wuffs_m__m__initialize(wuffs_m__m* self) { self->n = 0; return 0; }
"""
LOOP = """static uint32_t turns(wuffs_m__m* self, uint32_t n) {
  uint32_t i = 0; uint8_t c = 0; uint32_t sum = 0;
  while ((i < n)) {
    c = self->cells[(i & 255)];
    c = (c + 1);
    self->cells[(i & 255)] = c;
    sum = (sum + c);
    i = (i + 1);
  }
  return sum;
}
uint32_t wuffs_m__m__f(wuffs_m__m* self, uint32_t a_n) { uint32_t got = 0; got = turns(self, a_n); return got; }
"""
STATEMENTS_A_TURN = 5


def entry(body, locals_=""):
    return f"uint32_t wuffs_m__m__f(wuffs_m__m* self, uint32_t a_n) {{ uint32_t x = 0; {locals_} {body} return x; }}\n"


def inlines(n):
    """Functions that may stand in expressions, which call one another in chains of 64."""
    return "".join(f"static inline _Bool f{i}(void) {{ return {f'(f{i - 1}())' if i % 64 else 0}; }}\n" for i in range(n))


def members(n):
    """Uses of a member of a struct whose name is as long as all these uses: p->x doesn't name the struct."""
    name = "s" * (17 * n)
    body = " ".join(["p->x = (p->x & 1);"] * n)
    return f"typedef struct {{ uint32_t x; }} {name};\nstatic uint32_t g({name}* p) {{ {body} return p->x; }}\n" + entry("")


SHAPES = {
    "functions": lambda n: "".join(f"static uint32_t f{i}(uint32_t a) {{ return (a + {i}); }}\n" for i in range(n)) + entry(""),
    "inline": lambda n: inlines(n) + entry(""),
    "inline and operands": lambda n: inlines(n) + entry("x = (" + " + ".join(["a_n"] * (n + 1)) + ");"),
    "labels": lambda n: entry(" ".join(f"if ((a_n == {i})) {{ goto l{i}; }}" for i in range(n)) + " ".join(f"l{i}: ;" for i in range(n))),
    "cases": lambda n: entry("switch (a_n) { " + " ".join(f"case {i}: ;" for i in range(n)) + " }"),
    "names": lambda n: entry(" ".join(f"v{i} = x;" for i in range(n)), " ".join(f"uint32_t v{i} = 0;" for i in range(n))),
    "operands": lambda n: entry("x = (" + " + ".join(["a_n"] * (n + 1)) + ");"),
    "calls": lambda n: "static uint32_t g(uint32_t a) { return a; }\n" + entry(" ".join(["x = g(x);"] * n)),
    "else ifs": lambda n: entry("if (a_n) { }" + "".join([f" else if ((a_n == {i})) {{ x = {i}; }}" for i in range(n)])),
    "statements": lambda n: entry(" ".join(["x = (x + a_n);"] * n)),
    "members": members,
}


def seconds():
    """The processor seconds of all programs that have ended."""
    used = resource.getrusage(resource.RUSAGE_CHILDREN)
    return used.ru_utime + used.ru_stime


def run(program, folder, text, n, counts):
    """What a text costs on a call with n; None where memory doesn't do."""
    (folder / "m.wuffs").write_text(PACKAGE)
    (folder / "m.c").write_text(FRONT + text)
    (folder / "script").write_text(f"new r m\ninit r\nturns 10000000\ncall r.f n={n}\n")
    words = [program, "exec", "m", "script", "m.c", "m.wuffs"]
    if counts:
        words = ["valgrind", "--tool=callgrind", f"--callgrind-out-file={folder}/out", *words]
    began = seconds()
    ran = subprocess.run(words, cwd=folder, capture_output=True, text=True)
    took = seconds() - began
    if ran.returncode not in (0, 6):
        sys.exit(f"exec ended with {ran.returncode}: {ran.stdout[-300:]}")
    if ran.returncode:
        return None
    return int(re.search(r"Collected : (\d+)", ran.stderr)[1]) if counts else took


def growth(program, folder, shape, counts):
    """The greatest count that fits, the exponents of the steps, and the count that memory doesn't do for."""
    least, size, steps, before = run(program, folder, shape(1), 0, counts), 256, [], None
    while len(FRONT + shape(size)) < 2 ** 20:
        cost = run(program, folder, shape(size), 0, counts)
        if cost is None:
            return size // 2, steps, size
        if before and before > 0 and cost > least:
            steps.append(math.log2((cost - least) / before))
        before, size = cost - least, size * 2
    return size // 2, steps, None


def main():
    program, too_much = str(pathlib.Path(sys.argv[1]).resolve()), 0
    with tempfile.TemporaryDirectory() as at:
        folder = pathlib.Path(at)
        empty = min(run(program, folder, LOOP, 0, False) for _ in range(3))
        took = min(run(program, folder, LOOP, 1_000_000, False) for _ in range(3)) - empty
        print(f"a loop of {STATEMENTS_A_TURN} statements: 1,000,000 turns in {took:.2f} s, {1_000_000 / took:,.0f} turns and {STATEMENTS_A_TURN * 1_000_000 / took:,.0f} statements a second",
              flush=True)
        too_much |= took > 2
        counts = shutil.which("valgrind") is not None
        for name in sys.argv[2:] or SHAPES:
            most, steps, refused = growth(program, folder, SHAPES[name], counts)
            said = f"{name}: up to {most}, {' '.join(f'{it:.2f}' for it in steps)}"
            if refused:
                said += f"; memory doesn't do for {refused}"
            is_too_much = refused is not None or (bool(steps) and steps[-1] > MOST_EXPONENT)
            print(f"{said}{'  TOO MUCH' if is_too_much else ''}", flush=True)
            too_much |= is_too_much
    return int(too_much)


if __name__ == "__main__":
    sys.exit(main())
