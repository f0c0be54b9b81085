#!/usr/bin/env python3
"""Random C texts of the subset, by `exec` and by real compilers: where the machine answers, the compiled text has to print the same,
and where a sanitizer finds something, the machine has to say `undefined`.

usage: random_texts.py PROGRAM [COUNT [SEED]]    300 texts with the seed 1 are the default

Each text has the unit form for one small package: a struct with fields and arrays of each width, inline functions of numbers, static
functions with loops, switches, jumps into blocks and pointers to locals, and a public function that calls them. It is compiled by gcc
and by clang with -fsanitize=address,undefined, where they are there, at -O0 and -O2, many texts in one file. A text whose run needs more
turns than the script gives isn't compiled. Prints what differs; the last line counts, and says how many of the undefined texts a
sanitizer found: it doesn't look at everything that C leaves undefined, such as a pointer that leaves its array and isn't used.
"""
import os
import pathlib
import random
import shutil
import subprocess
import sys
import tempfile

PACKAGE = """pub struct m!(
    x : base.u32,
)
pub func m.f!(a: base.u8, b: base.u16, c: base.u32, d: base.u64) base.u64 {
    return 0
}
"""
BUFFER = "typedef struct { uint8_t* ptr; size_t len; size_t wi; size_t ri; uint64_t pos; _Bool closed; } wuffs_base__io_buffer;"
FRONT = f"""#include <stddef.h>
#include <stdint.h>
#include <string.h>

{BUFFER}

typedef struct {{ uint8_t n8; uint16_t n16; uint32_t n32; uint64_t n64; _Bool flag; uint8_t a8[4]; uint16_t a16[3]; uint32_t a32[5]; uint64_t a64[2]; }} part;

typedef struct {{ uint8_t n8; uint16_t n16; uint32_t n32; uint64_t n64; _Bool flag; uint8_t a8[8]; uint16_t a16[4]; uint32_t a32[3]; uint64_t a64[2]; part inner; }} wuffs_m__m;

const char* wuffs_m__m__initialize(wuffs_m__m* self) {{
    memset(self, 0, sizeof(*self));
    return 0;
}}

static const char text[] = "A text: 0 ~";

static void store(uint32_t* at, uint32_t to) {{ (*at) = to; }}
"""
TYPES = {8: "uint8_t", 16: "uint16_t", 32: "uint32_t", 64: "uint64_t"}
NUMBERS = [*TYPES.values()] * 3 + ["size_t", "_Bool"]
LENGTHS = {"self": {8: 8, 16: 4, 32: 3, 64: 2}, "(&self->inner)": {8: 4, 16: 3, 32: 5, 64: 2}}
EDGES = ["0", "1", "2", "7", "8", "31", "32", "63", "255", "256", "32767", "65535", "65536", "2147483647", "0u", "1u", "65535u", "2147483648u",
         "4294967295u", "1ull", "4294967296ull", "9223372036854775808ull", "18446744073709551615ull"]
SANITIZERS = ["-fsanitize=address,undefined", "-fno-sanitize-recover=all"]
BUILDS = [[cc, level, *SANITIZERS] for cc in ("gcc", "clang") for level in ("-O0", "-O2")]

TOGETHER = 25
NAMES = ["wuffs_base__io_buffer", "wuffs_m__m", "wuffs_m__m__initialize", "wuffs_m__m__f", "part", "part0", "part1", "part2", "help0", "help1", "text", "store"]


class Function:
    """One function as it is written: its variables, labels, and how deep it stands. Where it is wild, hardly anything is held within
    what C defines."""

    def __init__(self, random_, inlines, callees, loops, wild):
        self.random, self.inlines, self.callees, self.loops, self.wild = random_, inlines, callees, loops, wild
        self.numbers, self.words, self.pointers, self.labels, self.targets, self.cases = [], [], {}, 0, [], []

    def is_(self, chance):
        return self.random.random() < chance

    # Expressions

    def index(self, length):
        if self.is_(0.02 if self.wild else 0.002):
            return str(length)
        if self.is_(0.5):
            return str(self.random.randrange(length))
        return f"({self.number(1)} % {length}u)"

    def place(self):
        """An lvalue that holds a number."""
        kind, bits = self.random.randrange(10), self.random.choice(list(TYPES))
        if kind < 5 and self.numbers:
            return self.random.choice(self.numbers)
        base = self.random.choice(list(LENGTHS))
        if kind < 7:
            return f"{base}->{self.random.choice(['n8', 'n16', 'n32', 'n64', 'flag'])}"
        if kind == 7 and self.pointers:
            name = self.random.choice(list(self.pointers))
            return self.random.choice([f"(*{name})", f"{name}[{self.index(2)}]"])
        return f"{base}->a{bits}[{self.index(LENGTHS[base][bits])}]"

    def number(self, depth):
        if depth <= 0 or self.is_(0.2):
            if self.is_(0.05):
                return f"text[{self.index(12)}]"
            return self.place() if self.is_(0.6) else self.random.choice(EDGES)
        kind = self.random.randrange(12)
        a, b = self.number(depth - 1), self.number(depth - 1)
        held = not self.is_(0.3 if self.wild else 0.01)
        if kind == 0:
            return f"(({self.random.choice(['uint8_t', 'uint16_t', 'uint32_t', 'uint64_t', 'size_t', '_Bool'])}){a})"
        if kind == 1:
            return f"({self.condition(depth - 1)} ? {a} : {b})"
        if kind == 2:
            return self.condition(depth - 1)
        if kind == 3:
            op = self.random.choice(["&", "|", "^"])
            return f"({a} {op} {b} {op} {self.number(depth - 2)})" if self.is_(0.3) else f"({a} {op} {b})"
        if kind == 4:
            return f"(~{a})"
        if kind == 5 and self.inlines:
            name, count = self.random.choice(self.inlines)
            return f"({name}({', '.join([a, b, '3'][:count])}))"
        wide = self.random.choice(["uint32_t", "uint64_t"])
        if kind in (6, 7):
            count = f"({b} & 7)" if held else b
            return f"({f'(({wide}){a})' if held else a} {self.random.choice(['<<', '>>'])} {count})"
        if kind == 8:
            return f"({f'(({wide}){a})' if held else a} {self.random.choice(['/', '%'])} {f'({b} | 1u)' if held else b})"
        op = self.random.choice(["+", "*", "-", "+"])
        more = f" {op} {self.number(depth - 2)}" if op != "-" and self.is_(0.2) else ""
        return f"({f'(({wide}){a})' if held else a} {op} {b}{more})"

    def condition(self, depth):
        kind = self.random.randrange(8)
        if kind < 4 or depth <= 0:
            return f"({self.number(depth - 1)} {self.random.choice(['<', '<=', '>', '>=', '==', '!='])} {self.number(depth - 1)})"
        if kind < 6:
            return f"({self.condition(depth - 1)} {self.random.choice(['&&', '||'])} {self.condition(depth - 1)})"
        if kind == 6 and self.pointers and self.is_(0.3):
            # Two pointers are compared within one array: one past it C leaves open what is equal beyond.
            base, bits = self.random.choice(list(LENGTHS)), self.random.choice(list(TYPES))
            one, other = (f"({base}->a{bits} + {self.random.randrange(LENGTHS[base][bits] + 1)})" for _ in range(2))
            return f"({one} {self.random.choice(['==', '!='])} {other})"
        if kind == 6 and self.pointers:
            return self.random.choice([f"(!{self.random.choice(list(self.pointers))})", f"({self.random.choice(list(self.pointers))} != 0)"])
        return f"(!{self.number(depth - 1)})"

    def cells(self, bits):
        """A pointer into an array, with the number of cells that stand from there on."""
        base = self.random.choice(list(LENGTHS))
        length = LENGTHS[base][bits]
        at = self.random.randrange(length)
        return self.random.choice([(f"{base}->a{bits}", length), (f"(&{base}->a{bits}[{at}])", length - at), (f"({base}->a{bits} + {at})", length - at)])

    # Statements

    def statement(self, depth, inside):
        kind = self.random.randrange(16)
        if kind == 0 and depth > 0:
            return self.choice(depth, inside)
        if kind == 1 and depth > 0 and self.loops:
            return self.loop(depth, inside)
        if kind == 2 and depth > 0:
            return self.switch(depth)
        if kind == 3:
            name = f"l{self.labels}"
            self.labels += 1
            self.targets.append(name)
            return f"{name}: {self.statement(depth - 1, inside) if self.is_(0.5) else ';'}"
        if kind == 4:
            return "GOTO;" if self.is_(0.5) else ";"
        if kind == 5 and self.callees:
            name = self.random.choice(self.callees)
            given = f"{name}(self, {self.number(1)}, {self.number(1)})"
            return f"{self.random.choice(self.numbers)} = {given};" if self.is_(0.8) else f"{given};"
        if kind == 6 and self.is_(0.4):
            pointers = [self.cells(32)[0], *(f"(&{it})" for it in self.words), *(it for it, bits in self.pointers.items() if bits == 32)]
            return f"store({self.random.choice(pointers)}, {self.number(2)});"
        if kind == 6:
            bits = self.random.choice(list(TYPES))
            (to, room), (of, there) = self.cells(bits), self.cells(bits)
            count = self.random.randrange(1, min(room, there) + 1) * bits // 8
            if self.wild and self.is_(0.1):
                count += 1
            return f"memmove({to}, {of}, {count});"
        if kind == 7 and self.pointers:
            name = self.random.choice(list(self.pointers))
            pointer, there = self.cells(self.pointers[name])
            return f"{name} = {pointer};" if there >= 2 or self.wild else ";"
        if kind == 8 and depth > 0:
            return "{ " + self.block(depth - 1, inside) + " }"
        if kind == 9 and self.is_(0.1):
            return "memset(self, 0, sizeof(*self));"
        if kind == 10 and self.is_(0.2):
            return f"return {self.number(2)};"
        if inside and self.is_(0.2) and self.cases:
            return f"case {self.cases.pop()}: ;"
        return f"{self.place()} = {self.number(3)};"

    def block(self, depth, inside):
        return " ".join(self.statement(depth, inside) for _ in range(self.random.randrange(1, 5)))

    def choice(self, depth, inside):
        text = f"if ({self.condition(2)}) {{ {self.block(depth - 1, inside)} }}"
        while self.is_(0.3):
            text += f" else if ({self.condition(2)}) {{ {self.block(depth - 1, inside)} }}"
        return text + (f" else {{ {self.block(depth - 1, inside)} }}" if self.is_(0.5) else "")

    def loop(self, depth, inside):
        count = self.random.choice(self.numbers)
        body = f"{count} = ({count} + 1u); {self.block(depth - 1, inside)}"
        return f"while ((({count} & {self.random.choice([3, 7, 15])}) != {self.random.randrange(3)})) {{ {body} }}"

    def switch(self, depth):
        numbers = self.random.sample(range(16), 8)
        held, self.cases = self.cases, numbers[3:]
        parts = []
        for case in numbers[:self.random.randrange(1, 4)]:
            parts.append(f"case {case}: {self.statement(depth - 1, True)}")
            parts.append(self.block(depth - 1, True))
        if self.is_(0.5):
            parts.append("default: ;")
            parts.append(self.block(depth - 1, False))
        self.random.shuffle(parts)
        self.cases = held
        return f"switch (({self.number(2)} & 15)) {{ {' '.join(parts)} }}"

    def body(self, parameters):
        locals_ = []
        self.numbers += parameters
        for i in range(self.random.randrange(2, 5)):
            type_ = self.random.choice(NUMBERS)
            locals_.append(f"{type_} v{i} = {self.number(1)};")
            self.numbers.append(f"v{i}")
            if type_ == "uint32_t":
                self.words.append(f"v{i}")
        pointers = {}
        for i, bits in enumerate(self.random.sample(list(TYPES), self.random.randrange(3))):
            base = self.random.choice(list(LENGTHS))
            locals_.append(f"{TYPES[bits]}* q{i} = {base}->a{bits};")
            pointers[f"q{i}"] = bits
        self.pointers = pointers
        text = " ".join(self.statement(3, False) for _ in range(self.random.randrange(3, 9)))
        while "GOTO;" in text:
            # A jump back takes a turn, and may need more than any number of them.
            at = text.index("GOTO;")
            ahead = [it for it in self.targets if self.loops or text.index(f"{it}: ") > at]
            text = text[:at] + (f"goto {self.random.choice(ahead)};" if ahead else ";") + text[at + 5:]
        return " ".join([*locals_, text, f"return {self.number(2)};"])


def text_of(random_):
    wild = random_.random() < 0.4
    items, inlines, callees = [FRONT], [], []
    for i in range(random_.randrange(3)):
        count = random_.randrange(1, 4)
        one = Function(random_, inlines, [], False, wild)
        one.numbers = [f"p{j}" for j in range(count)]
        one.place = lambda one=one: random_.choice(one.numbers)
        parameters = ", ".join(f"{random_.choice(NUMBERS)} p{j}" for j in range(count))
        items.append(f"static inline {random_.choice(NUMBERS)} help{i}({parameters}) {{ return {one.number(2)}; }}")
        inlines = [*inlines, (f"help{i}", count)]
    for i in range(random_.randrange(1, 4)):
        one = Function(random_, inlines, callees, True, wild)
        one.words = ["p1"]
        result = random_.choice(NUMBERS)
        items.append(f"static {result} part{i}(wuffs_m__m* self, {random_.choice(NUMBERS)} p0, uint32_t p1) {{ {one.body(['p0', 'p1'])} }}")
        callees = [*callees, f"part{i}"]
    one = Function(random_, inlines, callees, False, wild)
    one.words = ["a_c"]
    items.append(f"uint64_t wuffs_m__m__f(wuffs_m__m* self, uint8_t a_a, uint16_t a_b, uint32_t a_c, uint64_t a_d) {{ {one.body(['a_a', 'a_b', 'a_c', 'a_d'])} }}")
    return "\n\n".join(items) + "\n"


def calls_of(random_):
    widths = {"a": 8, "b": 16, "c": 32, "d": 64}
    return [{name: random_.choice([0, 1, 2 ** bits - 1, random_.getrandbits(bits)]) for name, bits in widths.items()} for _ in range(4)]


def host_of(texts):
    """A program of many texts, one after the other under names of its own, that runs the one with the number that it is given."""
    lines = ["#include <stdio.h>", "#include <stdlib.h>"]
    for it in texts:
        lines += [f"#define {name} {name}_{it.number}" for name in NAMES]
        lines += [it.text, f"static void run_{it.number}(void) {{ static wuffs_m__m r;", 'puts("new r");',
                  'printf("init r "); puts(wuffs_m__m__initialize(&r) ? "?" : "ok"); fflush(stdout);']
        for call in it.calls[:len(it.told) - 2]:
            given = f'{call["a"]}, {call["b"]}, {call["c"]}u, {call["d"]}ull'
            lines.append(f'printf("call r.f %llu\\n", (unsigned long long)wuffs_m__m__f(&r, {given})); fflush(stdout);')
        lines += ["}", *(f"#undef {name}" for name in NAMES)]
    cases = " ".join(f"case {it.number}: run_{it.number}(); break;" for it in texts)
    return "\n".join([*lines, f"int main(int n, char** words) {{ switch (atoi(words[n - 1])) {{ {cases} }} return 0; }}"]) + "\n"


class Text:
    """A random text with its calls, and what `exec` said of it."""

    def __init__(self, number, program, folder):
        random_ = random.Random(number)
        self.number, self.text, self.calls = number, text_of(random_), calls_of(random_)
        (folder / "m.wuffs").write_text(PACKAGE)
        (folder / "m.c").write_text(self.text)
        calls = [f"call r.f {' '.join(f'{k}={v}' for k, v in it.items())}\n" for it in self.calls]
        (folder / "script").write_text("new r m\ninit r\nturns 20000\n" + "".join(calls))
        ran = subprocess.run([program, "exec", "m", "script", "m.c", "m.wuffs"], cwd=folder, capture_output=True, text=True)
        self.told = [it for it in ran.stdout.splitlines() if not it.startswith("turns ")]
        self.status = ran.returncode
        self.is_undefined = self.status == 9
        self.is_found, self.wrong = False, None
        if self.status not in (0, 7, 9):
            self.wrong = f"exec ended with {self.status}: {ran.stdout.strip()}"

    def compare(self, folder, build):
        """Runs the compiled text. A finding of the sanitizer, and a text that doesn't end, have to be undefined; what was printed before is the same."""
        try:
            ran = subprocess.run(["./host", str(self.number)], cwd=folder, capture_output=True, text=True, timeout=20)
            has_found, printed = ran.returncode != 0, ran.stdout.splitlines()
        except subprocess.TimeoutExpired as late:
            has_found, printed = True, (late.stdout or b"").decode().splitlines()
            ran = None
        defined = self.told[:-1] if self.is_undefined else self.told
        if has_found and not self.is_undefined:
            self.wrong = f"{build}: {ran.stderr.strip().splitlines()[:1] if ran else 'it does not end'}"
        elif printed[:len(defined)] != defined:
            self.wrong = f"{build}: {printed} in place of {self.told}"
        self.is_found |= has_found


def main():
    program, count, seed = os.path.abspath(sys.argv[1]), int((sys.argv[2:] + ["300"])[0]), int((sys.argv[3:] + ["1"])[0])
    builds = [it for it in BUILDS if shutil.which(it[0])]
    texts = []
    for first in range(seed, seed + count, TOGETHER):
        with tempfile.TemporaryDirectory() as at:
            folder = pathlib.Path(at)
            batch = [Text(number, program, folder) for number in range(first, min(first + TOGETHER, seed + count))]
            compared = [it for it in batch if it.status in (0, 9)]
            (folder / "host.c").write_text(host_of(compared))
            for words in builds:
                subprocess.run([*words, "-std=c99", "-w", "-o", "host", "host.c"], cwd=folder, check=True)
                for it in compared:
                    it.compare(folder, " ".join(words[:2]))
            for it in batch:
                if it.wrong:
                    print(f"seed {it.number}: {it.wrong}")
            texts += batch
    failed = sum(it.wrong is not None for it in texts)
    undefined = [it for it in texts if it.is_undefined]
    alone = [str(it.number) for it in undefined if not it.is_found]
    if alone:
        print(f"undefined, without a sanitizer's finding: seeds {' '.join(alone)}")
    print(f"random_texts.py: {len(texts) - failed} passed, {failed} failed, of {len(builds)} builds; {len(undefined)} were undefined, of which a sanitizer found "
          f"{len(undefined) - len(alone)}; {sum(it.status == 7 for it in texts)} needed more turns")
    return 1 if failed or not texts else 0


if __name__ == "__main__":
    sys.exit(main())
