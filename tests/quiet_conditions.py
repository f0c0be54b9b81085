#!/usr/bin/env python3
"""Random conditions and random numbers that are stored, in the C text that `gen` writes: compilers have nothing to say of them.

usage: quiet_conditions.py PROGRAM [COUNT [SEED]]    2,000 conditions with the seed 1 are the default
Conditions compare numbers of all widths, made by casts, all operators of arithmetic and constants about which compilers know something:
numbers that are always 0, masks, numbers that are narrower than they seem, and pairs that are alike but for the order of operands,
the nesting of chains and casts. Two are joined now and then, and two comparisons of one number that is held with constants near to one
another. Numbers with an or are stored in cells of 8 and 16 bits. Each package has
some of them, and its text is compiled by gcc, clang and tcc at -O0, every tenth at -O2 and -O3 too. A compiler that isn't there is
passed over. What a compiler says is printed with its line, but for complements and for masks that leave nothing together (KNOWN, see docs/LOWERING.md),
which are counted.
"""
import pathlib
import random
import re
import shutil
import subprocess
import sys
import tempfile

LANGUAGE = ["-std=c99", "-Wall", "-Wextra", "-Wpedantic"]
COMPILERS, TOGETHER = ["gcc", "clang", "tcc"], 40
KNOWN = r"comparison of promoted bitwise complement|changes value from .* to .0. \[-Woverflow\]"
CONSTANTS = [0, 1, 2, 3, 4, 7, 15, 16, 127, 128, 254, 255, 256, 257, 300, 65535, 65536, 2 ** 32 - 1, 2 ** 32]
HELD = {8: ["args.c", "args.d", "this.a8[0]", "this.a8[args.i]", "this.b8"], 16: ["args.g", "args.h", "this.a16[1]", "this.b16"],
        32: ["args.x", "args.y", "this.a32[args.i]", "this.b32"], 64: ["args.m", "args.n", "this.a64[2]", "args.s.length()"]}
FIELDS = "".join(f"    b{bits} : base.u{bits},\n    a{bits} : array[4] base.u{bits},\n" for bits in HELD)
ARGUMENTS = "i: base.u8[..= 3], " + ", ".join(f"{name[5:]}: base.u{bits}" for bits in HELD for name in HELD[bits] if name.startswith("args.") and "(" not in name)
ORDERS = ["<", "<=", "==", "<>", ">=", ">"]
TURNED = ["&", "|", "^", "+", "*", "~mod+", "~mod*"]


class Maker:
    """Makes numbers: a constant, what is held, a conversion (bits, "as", number) or a chain (bits, operator, operands)."""

    def __init__(self, seed):
        self.choice, self.random = random.Random(seed).choice, random.Random(seed + 1).random

    def constant(self, bits, least=0, most=None):
        return self.choice([n for n in CONSTANTS if least <= n < 2 ** bits and (most is None or n <= most)])

    def small(self, bits, depth):
        return (bits, "&", [self.number(bits, depth), self.constant(bits, most=15)])

    def conversion(self, bits, depth):
        """From a narrower number, or from a wider one that a mask makes fit."""
        own = self.choice([it for it in HELD if it != bits])
        return (bits, "as", self.number(own, depth) if own < bits else (own, "&", [self.number(own, depth), self.constant(bits)]))

    def number(self, bits, depth):
        drawn = self.random()
        if depth == 0 or drawn < 0.2:
            return self.choice(HELD[bits])
        if drawn < 0.45:
            return self.conversion(bits, depth - 1)
        return self.chain(bits, depth - 1)

    def chain(self, bits, depth):
        op = self.choice(["&", "&", "&", "|", "^", "/", "%", ">>", "+", "-", "*", "<<", "~mod+", "~mod-", "~mod*", "~mod<<", "~sat+", "~sat-"])
        if op in "/%":
            return (bits, op, [self.number(bits, depth), self.constant(bits, least=1)])
        if op in (">>", "~mod<<"):
            return (bits, op, [self.number(bits, depth), self.constant(bits, most=min(16, bits - 1))])
        if op in "+*":
            parts = [self.small(bits, depth), self.choice([self.constant(bits, most=15), self.small(bits, depth)])]
            return (bits, op, parts if self.random() < 0.7 else parts[::-1])
        if op in ("-", "<<"):
            return (bits, op, [15, self.small(bits, depth)] if op == "-" else [self.small(bits, depth), self.constant(bits, most=3)])
        count = 2 if "~" in op else self.choice([2, 2, 2, 3])
        parts = [self.number(bits, depth) if self.random() < 0.6 else self.constant(bits) for _ in range(count)]
        if all(isinstance(it, int) for it in parts[:2]):
            parts[0] = self.choice(HELD[bits])
        if self.random() < 0.15 and not isinstance(parts[0], int):
            parts[1] = parts[0]
        return (bits, op, parts)

    def alike(self, it):
        """The same number, in another order, or as nests for a chain."""
        if isinstance(it, (int, str)):
            return it
        bits, op, parts = it
        if op == "as":
            return (bits, op, self.alike(parts))
        parts = [self.alike(part) for part in parts]
        if op in TURNED and self.random() < 0.4:
            parts[:2] = parts[1::-1]
        if len(parts) > 2 and not all(isinstance(part, int) for part in parts[:2]) and self.random() < 0.5:
            return (bits, op, [(bits, op, parts[:2]), *parts[2:]])
        return (bits, op, parts)

    def comparison(self):
        bits, drawn = self.choice(list(HELD)), self.random()
        left = self.number(bits, self.choice([1, 2, 2, 3]))
        if drawn < 0.5:
            right = self.constant(bits)
        elif drawn < 0.7:
            right = self.alike(left)
        else:
            right = self.number(bits, self.choice([0, 1, 2]))
        return f" {self.choice(ORDERS)} ".join(written(it) for it in ((left, right) if self.random() < 0.6 else (right, left)))

    def limits(self):
        """Two or three comparisons of one number with constants: often they exclude each other, or one of them always holds."""
        bits = self.choice(list(HELD))
        held, near = self.choice(HELD[bits]), self.constant(bits)
        constants = [it for it in (near - 1, near, near + 1, self.constant(bits)) if 0 <= it < 2 ** bits]
        pairs = [(held, self.choice(constants)) for _ in range(self.choice([2, 2, 3]))]
        parts = [f" {self.choice(ORDERS)} ".join(map(str, it if self.random() < 0.6 else it[::-1])) for it in pairs]
        return f" {self.choice(['and', 'or'])} ".join(f"({it})" if self.random() < 0.85 else f"(not ({it}))" for it in parts)

    def condition(self):
        """A comparison, limits of one number, or two that are joined."""
        drawn = self.random()
        if drawn < 0.6:
            return self.comparison()
        if drawn < 0.8:
            return self.limits()
        return f"({self.comparison()}) {self.choice(['and', 'or'])} ({self.comparison()})"

    def stored(self):
        """A statement that stores a number with an or."""
        bits = self.choice([8, 16])
        while True:
            it = written(self.number(bits, 3))
            if "|" in it:
                return f"this.b{bits} = {it}"


def written(it):
    if isinstance(it, (int, str)):
        return str(it)
    bits, op, parts = it
    return f"({written(parts)} as base.u{bits})" if op == "as" else f"({f' {op} '.join(written(part) for part in parts)})"


def package(make, count):
    lines = [line for _ in range(count) for line in (f"    if {make.condition()} {{", "        m ~mod+= 1", "    }", f"    {make.stored()}")]
    return "\n".join(["pub struct s?(", FIELDS + ")", f"pub func s.f!({ARGUMENTS}, s: slice base.u8) base.u32 {{", "    var m : base.u32", *lines, "    return m", "}", ""])


def main(program, count=2000, seed=1):
    program, make, said, known, seen = str(pathlib.Path(program).resolve()), Maker(seed), 0, 0, 0
    compilers = [it for it in COMPILERS if shutil.which(it)]
    with tempfile.TemporaryDirectory() as folder:
        for number in range(0, count, TOGETHER):
            text = package(make, TOGETHER)
            (pathlib.Path(folder) / "p.wuffs").write_text(text)
            ran = subprocess.run([program, "gen", "p", "p.wuffs"], cwd=folder, capture_output=True, text=True)
            if ran.returncode:
                sys.exit(f"gen ends with {ran.returncode}: {ran.stdout}{text}")
            (pathlib.Path(folder) / "p.c").write_text(ran.stdout)
            seen += TOGETHER
            for compiler in compilers:
                for level in ["-O0", "-O2", "-O3"] if number // TOGETHER % 10 == 0 else ["-O0"]:
                    heard = subprocess.run([compiler, level, *LANGUAGE, "-c", "p.c", "-o", "p.o"], cwd=folder, capture_output=True, text=True)
                    for line in re.findall(r"^p\.c:(\d+):(.*(?:warning|error):.*)$", heard.stderr, re.M):
                        if re.search(KNOWN, line[1]):
                            known += 1
                        else:
                            said += 1
                            print(compiler, level, line[1], ran.stdout.splitlines()[int(line[0]) - 1].strip(), sep="\n    ", flush=True)
    print(f"conditions without a word: {seen} by {', '.join(compilers)}, remarks: {said}, known ones: {known}")
    return said


if __name__ == "__main__":
    sys.exit(1 if main(sys.argv[1], *map(int, sys.argv[2:])) else 0)
