"""What statements need, written with conditions that just give it, or just don't. The structs, their fields and the locals of all
methods have the same names, of which `NeedsWriter` knows those that stand in the method that is being written."""

WIDTHS = {8: "base.u8", 16: "base.u16", 32: "base.u32", 64: "base.u64"}
STATUSES = ["ok", '"#bad"', '"$wait"', '"@note"', 'base."$short read"']
LOCALS = [("x", 32), ("y", 32), ("c", 8), ("d", 8), ("u", 16), ("v", 64)]
STEPS = {"": ["pure"], "!": ["pure", "set", "fill", "eat", "emit"], "?": ["pure", "set", "fill", "eat", "emit", "more", "more", "go"]}
PLAIN_AXIOMS = [
    ("<", "a < b: b > a", [(1, ">", 0)]), ("<", "a < b: a < c; c < b", [(0, "<", 2), (2, "<", 1)]),
    ("<", "a < b: a < c; c == b", [(0, "<", 2), (2, "==", 1)]), ("<", "a < b: a == c; c < b", [(0, "==", 2), (2, "<", 1)]),
    ("<", "a < b: a < c; c <= b", [(0, "<", 2), (2, "<=", 1)]), ("<", "a < b: a <= c; c < b", [(0, "<=", 2), (2, "<", 1)]),
    (">", "a > b: b < a", [(1, "<", 0)]), ("<=", "a <= b: b >= a", [(1, ">=", 0)]),
    ("<=", "a <= b: a <= c; c <= b", [(0, "<=", 2), (2, "<=", 1)]), ("<=", "a <= b: a <= c; c == b", [(0, "<=", 2), (2, "==", 1)]),
    ("<=", "a <= b: a == c; c <= b", [(0, "==", 2), (2, "<=", 1)]), (">=", "a >= b: b <= a", [(1, "<=", 0)]),
    ("<=", "a <= b: a < b", [(0, "<", 1)]), ("==", "a == b: a <= b; b <= a", [(0, "<=", 1), (1, "<=", 0)]),
]


class Block(list):
    """Statements."""


class NeedsWriter:
    """Writes expressions, conditions, and statements with what they need. With the chance `slip` a condition doesn't give what it
    should; `spoil` is the chance that something comes between a condition and what needs it. `high` is the refined bound,
    `length` and `few` are the lengths of the arrays; `owner`, `mark` and `arguments` are those of the method."""

    def __init__(self, random, slip, spoil):
        self.random, self.slip, self.spoil = random, slip, spoil
        self.mark, self.loops, self.arguments = "", [], {}

    def chance(self, of):
        return self.random.random() < of

    def one_of(self, *choices):
        return self.random.choice(choices)

    def may(self, mark):
        return mark in {"": "", "!": "!", "?": "!?"}[self.mark]

    # Expressions

    def paths(self, bits):
        found = [local for local, of in LOCALS if of == bits]
        found += [f"this.{field}" for field, of in (("n", 32), ("m", 8), ("p", 8)) if of == bits]
        found += [f"args.{name}" for name, kind in self.arguments.items() if kind.startswith(WIDTHS[bits])]
        if bits == 64:
            found += [f"{base}.length()" for base in self.bases() + self.ios()] + (["this.o"] if self.owner == "s" else [])
        return found

    def ios(self):
        return self.readers() + self.writers()

    def readers(self):
        return [f"args.{name}" for name in ("r", "s") if name in self.arguments]

    def writers(self):
        return [f"args.{name}" for name in ("w", "o") if name in self.arguments]

    def bases(self):
        return ["l"] + (["args.g"] if "g" in self.arguments else [])

    def element(self):
        base, length = self.one_of(("this.a", self.length), ("this.d", self.few))
        return f"{base}[{self.one_of(0, 0, length - 1, length if self.chance(self.slip) else 1)}]"

    def number(self, bits):
        """A variable, or an element, of the width."""
        return self.element() if bits == 8 and self.chance(.3) else self.one_of(*self.paths(bits))

    def literal(self, bits):
        edges = [0, 1, 2, self.high, self.high + 1, self.length, self.length - 1, self.few, 2 ** bits - 1, 2 ** bits - 2, 255]
        return self.one_of(*edges)

    def constant(self, number, bits):
        """The number, perhaps by a name of its width."""
        return "K" if number == self.high and bits == 8 and self.chance(.2) else str(number)

    def some(self, bits):
        """An expression that nearly always has its demands."""
        x, y = self.number(bits), self.number(bits)
        small = self.one_of(1, 2, 3, self.high)
        return self.one_of(x, x, str(self.literal(bits)), f"({x} & {self.one_of(1, 3, self.high)})", f"({x} ~mod+ {small})",
                           f"({x} ~sat+ {y})",
                           f"({x} ~sat- {small})", f"({x} ~mod* {y})", f"({x} ~mod- {y})", f"({x} % {self.one_of(self.high + 1, small)})",
                           f"({x} / {small})", f"({x} >> {self.one_of(1, bits - 2, bits - 1)})", f"({x} ^ {y})", f"({x} | {y})",
                           f"({x} ~mod<< {small})", self.converted(bits))

    def converted(self, bits):
        if bits == 8:
            return "(this.m + 1)"
        return f"({self.number(8)} as {WIDTHS[bits]})"

    def flag(self):
        bits = self.one_of(8, 8, 32, 64)
        flags = ["t", "this.f", "true", "q.is_ok()", "(q == ok)", f"({self.one_of(*STATUSES)} {self.one_of('==', '<>')} {self.one_of(*STATUSES)})", *(["args.z"] if "z" in self.arguments else []),
                 *(f"{io}.is_closed()" for io in self.readers()[:1])]
        sign, right = self.one_of("<", "<=", "==", "<>", ">=", ">"), self.one_of(self.number(bits), self.literal(bits))
        compared = f"({self.number(bits)} {sign} {right})"
        return self.one_of(*flags, compared, compared, compared, f"(not {self.one_of(*flags)})",
                           f"({compared} {self.one_of('and', 'or')} {self.one_of(*flags)})")

    # Conditions that give something, or just don't

    def slips(self):
        return self.chance(self.slip)

    def in_words(self, condition, opposite):
        """The condition, or something that gives it; sometimes something that doesn't."""
        if self.slips():
            return self.one_of(f"({condition}) or {self.flag()}", f"not (({opposite}) and {self.flag()})")
        return self.one_of(condition, condition, condition, f"not ({opposite})", f"({condition}) and {self.flag()}",
                           f"{self.flag()} and ({condition})", f"not (({opposite}) or {self.flag()})", f"({condition}) and ({condition})")

    def at_most(self, x, number, bits):
        number = min(max(number + (1 if self.slips() else 0), 0), 2 ** bits - 1)
        exact = [(f"{x} <= {self.constant(number, bits)}", f"{x} > {number}"), (f"{number} >= {x}", f"{number} < {x}"),
                 (f"{x} == {number}", f"{x} <> {number}")]
        if number < 2 ** bits - 1:
            exact += [(f"{x} < {number + 1}", f"{x} >= {number + 1}"), (f"{number + 1} > {x}", f"{x} >= {number + 1}")] * 2
        return self.in_words(*self.one_of(*exact))

    def at_least(self, x, number, bits):
        number = max(number - (1 if self.slips() else 0), 0)
        exact = [(f"{x} >= {number}", f"{x} < {number}"), (f"{number} <= {x}", f"{number} > {x}"), (f"{x} == {number}", f"{x} <> {number}")]
        if number:
            exact += [(f"{x} > {number - 1}", f"{x} <= {number - 1}")] * 2
        if number == 1:
            exact += [(f"{x} <> 0", f"{x} == 0")] * 2
        return self.in_words(*self.one_of(*exact))

    def in_order(self, x, y):
        if self.slips():
            return self.one_of(f"{x} <> {y}", f"{x} <> {y}", f"{y} <= {x}", f"({x} <= {y}) or {self.flag()}")
        return self.in_words(*self.one_of((f"{x} <= {y}", f"{x} > {y}"), (f"{y} >= {x}", f"{y} < {x}"), (f"{x} < {y}", f"{x} >= {y}"),
                                          (f"{y} > {x}", f"{y} <= {x}"), (f"{x} == {y}", f"{x} <> {y}")))

    def below(self, x, y):
        if self.slips():
            return self.one_of(f"{x} <> {y}", f"{x} <= {y}", f"{y} >= {x}")
        return self.in_words(*self.one_of((f"{x} < {y}", f"{x} >= {y}"), (f"{y} > {x}", f"{y} <= {x}")))

    # What needs something: conditions, a statement, and the variable that it is about

    def need(self):
        needs = [self.need_index, self.need_index, self.need_element_index, self.need_slice, self.need_slice_element, self.need_sum,
                 self.need_difference, self.need_product, self.need_refined, self.need_conversion, self.need_shift, self.need_divisor,
                 self.need_assertion, self.need_axiom, self.need_axiom, self.need_chain, self.need_mod, self.need_bits]
        if self.ios():
            needs += [self.need_bytes] * 3
        needs += [self.need_argument] * 2
        return self.one_of(*needs)()

    def assigned(self, bits, value):
        return f"{self.one_of(*[local for local, of in LOCALS if of == bits])} = {value}"

    def need_index(self):
        bits = self.one_of(8, 32, 64)
        base, length = self.one_of(("this.a", self.length), ("this.d", self.few))
        x = self.number(bits)
        use = self.assigned(8, f"{base}[{x}]")
        if self.mark and self.chance(.3):
            use = f"{base}[{x}] {self.one_of('=', '=', '~mod+=') if base == 'this.a' else '='} {self.one_of(0, 'this.m')}"
        return [self.at_most(x, length - 1, bits)], use, x

    def need_element_index(self):
        x = self.element()
        return [self.at_most(x, self.length - 1, 8)], self.assigned(8, f"this.a[{x}]"), x

    def need_slice(self):
        bits = self.one_of(8, 32)
        x, y = self.number(bits), self.number(bits)
        how = self.random.randrange(4)
        if how == 0:
            return [self.at_most(x, self.length, bits)], f"l = this.a[{x} ..]", x
        if how == 1:
            return [self.at_most(x, self.length, bits)], f"l = this.a[.. {x}]", x
        if how == 2:
            return [self.in_order(x, y), self.at_most(y, self.length, bits)], f"l = this.a[{x} .. {y}]", self.one_of(x, y)
        base, v = self.one_of(*self.bases()), self.number(64)
        part = f"{base}[{self.one_of(f'{v} ..', f'.. {v}')}]"
        return [self.in_order(v, f"{base}.length()")], self.one_of(f"l = {part}", *self.copies(part)), self.one_of(v, base)

    def copies(self, source):
        """Calls that copy a slice to where the method may write."""
        targets = ["l", *self.writers()] if self.mark else []
        return [f"v = {target}.copy_from_slice!(s: {source})" for target in targets]

    def need_slice_element(self):
        base = self.one_of(*self.bases())
        if self.chance(.5):
            number = self.one_of(0, 0, 1, self.high)
            condition, x = self.at_least(f"{base}.length()", number + 1, 64), number
        else:
            x = self.number(64)
            condition = self.below(x, f"{base}.length()")
        use = self.assigned(8, f"{base}[{x}]") if not self.mark or self.chance(.6) else f"{base}[{x}] = {self.number(8)}"
        return [condition], use, self.one_of(str(x), base, base)

    def need_sum(self):
        bits = self.one_of(8, 8, 32, 64)
        x, step = self.number(bits), self.one_of(1, 2, self.high)
        most = 2 ** bits - 1
        return [self.at_most(x, most - step, bits)], self.assigned(bits, f"{x} + {step}"), x

    def need_difference(self):
        bits = self.one_of(8, 32, 64)
        x, y = self.number(bits), self.number(bits)
        if self.chance(.5):
            step = self.one_of(1, 1, 2, self.high)
            return [self.at_least(x, step, bits)], self.assigned(bits, f"{x} - {step}"), x
        return [self.in_order(y, x)], self.assigned(bits, f"{x} - {y}"), self.one_of(x, y)

    def need_product(self):
        bits = self.one_of(8, 32)
        x, times = self.number(bits), self.one_of(2, 3, 10)
        return [self.at_most(x, (2 ** bits - 1) // times, bits)], self.assigned(bits, f"{x} * {times}"), x

    def need_refined(self):
        x = self.number(8)
        target = self.one_of("this.m", f"this.d[{self.few - 1}]", "this.m") if self.mark else "c"
        return [self.at_most(x, self.high, 8)], f"{target} = {x}", x

    def need_conversion(self):
        bits = self.one_of(16, 32, 64)
        x = self.number(bits)
        return [self.at_most(x, 255, bits)], f"c = {x} as base.u8", x

    def need_shift(self):
        bits, by = self.one_of(8, 32), self.one_of(8, 32)
        x, y = self.number(bits), self.number(by)
        return [self.at_most(y, bits - 1, by)], self.assigned(bits, f"{x} {self.one_of('>>', '~mod<<')} {y}"), y

    def need_divisor(self):
        bits = self.one_of(8, 32, 64)
        x, y = self.number(bits), self.number(bits)
        return [self.at_least(y, 1, bits)], self.assigned(bits, f"{x} {self.one_of('/', '%')} {y}"), y

    def need_chain(self):
        x, y, z = self.number(8), self.number(8), self.number(8)
        op, most = self.one_of(("+", 80), ("+", 85), ("*", 6), ("|", 255))
        return [self.at_most(x, most, 8), self.at_most(y, most, 8), self.at_most(z, most, 8)], f"c = {x} {op} {y} {op} {z}", x

    def need_mod(self):
        x, y = self.number(8), self.number(8)
        how = self.random.randrange(6)
        target = "this.m" if self.mark else "c"
        if how == 4:
            return [self.at_most(x, self.high, 8), self.at_least(x, self.one_of(0, 1), 8)], f"{target} = {x} ~mod- 1", x
        if how == 5:
            return [self.at_most(x, self.one_of(254, 254, 255), 8)], f"c = {y} {self.one_of('/', '%')} ({x} ~mod+ 1)", x
        if how == 0:
            return [self.at_most(x, self.high - 1, 8)], f"{target} = {x} ~mod+ 1", x
        if how == 1:
            return [self.at_most(x, self.high, 8), self.in_order(y, x)], f"{target} = {x} {self.one_of('~mod-', '~sat-', '-')} {y}", x
        if how == 2:
            return [self.at_most(x, 255, 8)], f"{target} = {x} ~sat- {255 - self.high - (1 if self.slips() else 0)}", x
        use = f"this.m = {x} {self.one_of('&', '|', '^', '~sat+')} {y}" if self.mark else f"c = {x} & {y}"
        return [self.at_most(x, self.high, 8), self.at_most(y, self.high, 8)], use, x

    def need_bits(self):
        x, y = self.number(8), self.number(8)
        one, two = self.one_of((1, 2), (self.high, self.high), (self.high, self.high), (3, 4))
        use = f"this.m = {x} {self.one_of('|', '|', '^')} {y}" if self.mark else f"c = this.a[{x} | {y}]"
        return [self.at_most(x, one, 8), self.at_most(y, two, 8)], use, self.one_of(x, y)

    def need_assertion(self):
        bits = self.one_of(8, 32, 64)
        x, y = self.number(bits), self.number(bits)
        number = self.literal(bits)
        how = self.random.randrange(4)
        if how == 0:
            return [self.at_most(x, number, bits)], f"assert {x} <= {number}", x
        if how == 1:
            return [self.at_least(x, number, bits)], f"assert {number} <= {x}", x
        if how == 2:
            return [self.in_order(x, y)], f"assert not ({x} > {y})", self.one_of(x, y)
        flag = self.flag()
        return [flag], f"assert {self.one_of(flag, f'({flag} or (y > 3))')}", self.one_of("t", "this.f", "q", "args.z")

    def need_axiom(self):
        bits = self.one_of(8, 32, 64)
        three = [self.number(bits) for _ in range(3)]
        if self.chance(.2):
            a, b, _ = three
            return [self.at_most(a, 100, bits), self.at_most(b, 100, bits)], f'assert {a} <= ({a} + {b}) via "a <= (a + b): 0 <= b"()', a
        if self.chance(.25):
            a, b, c = three
            return ([self.at_most(b, 100, bits), self.at_most(c, 100, bits), self.below(a, c)],
                    f'assert {a} < ({b} + {c}) via "a < (b + c): a < c; 0 <= b"()', a)
        if self.chance(.2):
            a, b, c = three
            one, two = self.one_of(1, 2, self.high), self.one_of(1, 2)
            return ([self.at_most(a, one + two - 1, bits), self.at_least(b, one, bits), self.at_least(c, two, bits), self.at_most(b, 100, bits),
                     self.at_most(c, 100, bits)],
                    f'assert {a} < ({b} + {c}) via "a < (b + c): a < (b0 + c0); b0 <= b; c0 <= c"(b0: {one}, c0: {two})', self.one_of(b, c))
        if self.chance(.25):
            a, b, _ = three
            one, two = self.one_of((1, 2), (2, 2), (2, 3), (3, 2) if self.slips() else (0, 1))
            return ([self.at_most(a, 100, bits), self.at_most(b, 100, bits), self.in_order(a, b)],
                    f'assert ({a} + {one}) <= ({b} + {two}) via "(a + c) <= (b + d): a <= b; c <= d"()', b)
        sign, name, premises = self.one_of(*PLAIN_AXIOMS)
        given = f"c: {three[2]}" if any(2 in premise for premise in premises) else ""
        conditions = [f"{three[left]} {op} {three[right]}" for left, op, right in premises]
        if self.slips() or self.chance(.15):
            conditions.pop(self.random.randrange(len(conditions)))
        return conditions, f'assert {three[0]} {sign} {three[1]} via "{name}"({given})', self.one_of(*three)

    def need_bytes(self):
        io = self.one_of(*self.ios())
        length = f"{io}.length()"
        if io in self.writers():
            count = self.one_of(1, 1, 2)
            if not self.may("!"):
                return [self.at_least(length, 1, 64)], f"v = {length} - 1", io
            return [self.at_least(length, count, 64)], [f"{io}.write_u8_fast!(a: {self.number(8)})"] * count, io
        bits = self.one_of(8, 16, 32)
        peek = self.assigned(bits, f"{io}.peek_u{bits}{'le' if bits > 8 else ''}()")
        if not self.may("!") or self.chance(.4):
            return [self.at_least(length, bits // 8, 64)], peek, io
        worst, x = self.one_of(1, 2, self.high), self.number(32)
        skip = [f"{io}.skip_u32_fast!(actual: {x}, worst_case: {worst})"] + self.one_of([], [peek])
        count = worst + (bits // 8 if len(skip) > 1 else 0)
        return [self.at_most(x, worst, 32), self.at_least(length, count, 64)], skip, self.one_of(io, x)

    def need_argument(self):
        called = self.call()
        if called is None:
            return self.need_refined()
        line, refined = called
        if refined is None:
            return [], line, "t"
        least = [self.at_least(refined, self.least, 8)] if self.least else []
        return [self.at_most(refined, self.high, 8), *least], line, refined

    def call(self):
        """A call of a method that is written, and the value of its refined argument, if it has one."""
        found = [(owner, name) for (owner, name), (mark, arguments, _) in self.callees.items()
                 for _ in range(STEPS[self.mark].count(name)) if (owner == self.owner or self.owner == "s" and owner == "inner")
                 and len({"w", "o"} & set(arguments)) <= len(self.writers()) and len({"r", "s"} & set(arguments)) <= len(self.readers())]
        if not found:
            return None
        owner, name = self.one_of(*found)
        mark, arguments, gives = self.callees[owner, name]
        refined, given = self.number(8), []
        readers, writers = (self.random.sample(buffers, len(buffers)) for buffers in (self.readers(), self.writers()))
        for argument, kind in arguments.items():
            values = {"e": refined, "r": readers.pop() if argument in ("r", "s") else "", "w": writers.pop() if argument in ("w", "o") else "", "z": self.one_of("t", "true"), "k": self.number(8),
                      "g": self.one_of(*self.bases(), "this.a[..]")}
            given.append(f"{argument}: {values.get({'s': 'r', 'o': 'w'}.get(argument, argument)) or self.number(32)}")
        call = f"{'this' if owner == self.owner else 'this.h'}.{name}{mark}({', '.join(given)})"
        if mark == "?" and self.chance(.5):
            call = f"{self.one_of('q', 'q', 'this.q' if self.owner == 's' else 'q')} =? {call}"
        elif gives and (not mark or self.chance(.7)):
            fields = [f"this.a[{self.one_of(0, 1, self.length - 1)}]", "this.a[0]", "this.m", *(["this.b[c]"] if self.owner == "s" else [])] if self.mark else []
            targets = {8: ["c", "d", *fields], 32: ["x", "y", *(["this.n"] if self.mark else [])]}
            call = f"{self.one_of(*targets[gives])} = {call}"
        return call, refined if "e" in arguments else None
