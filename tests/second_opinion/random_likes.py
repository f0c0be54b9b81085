"""Statements that a compiler might take for others: of an expression and one that is nearly the same, of what is assigned to itself or
nearly so, of elements under two indices, of slices in their own place, of the bytes of a number beside that number. Each leaves in a
variable what a wrong compiler would make another value."""

import re

from .random_needs import LOCALS, STATUSES, WIDTHS, Block, NeedsWriter

# The elements of the field b: so many that an index of 8 bits and one that doesn't lose its ninth bit are two elements.
MANY = 512
GREAT = [127, 128, 129, 200, 254, 255]
CONVERTED = re.compile(r"^\((.*)\) as base\.u\d+$")
READS = [(f"read_u{bits}{order}", bits) for bits in (16, 32, 64) for order in ("le", "be")]
OPERATORS = ["~mod+", "~mod-", "~mod*", "~sat+", "~sat-", "&", "|", "^"]


class LikesWriter(NeedsWriter):
    """Writes such statements, as a list of lines."""

    # Pairs

    def byte(self):
        return self.one_of(*self.paths(8), *["c", "d"] * 5, self.element())

    def cut(self):
        """Two indices of b of which one loses the ninth bit."""
        x, y, wide = self.byte(), self.byte(), WIDTHS[self.one_of(16, 16, 16, 32)]
        sign, other = self.one_of(("~mod+", y), ("~mod+", y), ("~mod+", x), ("~mod<<", "1"), ("~mod*", "2"), ("~mod+", "255"))
        kept = f"({x} as {wide}) {sign} {other if other.isdigit() else f'({other} as {wide})'}"
        return self.random.sample([f"{x} {sign} {other}", kept], 2)

    def pair(self, twice=True):
        """Two indices of b that are alike, or alike but for a width, for the order of operands or for a number. Both may be twice a number."""
        x, y, step = self.byte(), self.byte(), self.one_of(1, 2, 128, 255)
        wide = WIDTHS[self.one_of(16, 16, 32, 64)]
        sign = self.one_of("~mod+", "~mod+", "~mod+", "~sat+", "|")
        both = [f"{x} {sign} {y}", f"{y} {sign} {x}", f"({x} as {wide}) {sign} ({y} as {wide})", f"({y} as {wide}) {sign} ({x} as {wide})",
                f"({x} {sign} {y}) as {wide}"]
        stepped = [f"{x} ~mod+ {step}", f"{x} ~mod+ {step - 1}", f"({x} as {wide}) ~mod+ {step}", f"({x} ~mod+ {step}) as {wide}", f"{x} ~sat+ {step}"]
        doubled = [f"{x} ~mod<< 1", f"({x} as {wide}) ~mod<< 1", f"{x} ~mod* 2", f"({x} as {wide}) ~mod* 2", f"{x} ~mod+ {x}"]
        z = y if x != y else self.one_of(*sorted({"c", "d"} - {x}))
        less = [f"{x} ~mod- {z}", f"{z} ~mod- {x}", f"{x} ~sat- {z}", f"(({x} as {wide}) ~mod- ({z} as {wide})) & 511", f"({x} ^ 255) ~mod+ {z}"]
        plain = [x, y, f"{x} as {wide}", f"{x} & 127", f"({x} as {wide}) & 511", f"{x} >> 1", f"({x} as {wide}) >> 1"]
        return self.cut() if self.chance(.5) else self.random.sample(self.one_of(both, both, stepped, *([doubled] if twice else []), less, plain), 2)

    def great(self):
        """Numbers of which two together lose a bit."""
        lines = [f"{local} = {self.one_of(*GREAT)}" for local in ("c", "d") if self.chance(.85)]
        return lines + ([f"this.p = {self.one_of(*GREAT)}"] if self.mark and self.chance(.3) else [])

    def noted(self, condition):
        """What makes it seen whether a condition is met."""
        note = self.one_of("this.p ~mod+= 3", "this.n ~mod+= 5") if self.mark and self.chance(.6) else self.one_of("c ~mod+= 7", "x ~mod+= 9")
        return [f"if {condition} {{", note, "}"]

    def compared(self, depth):
        """Two numbers that are alike, or nearly so, compared in one width. If they differed in the order of operands alone, under a cast,
        or were both twice a number, gcc would remark on it."""
        one, other = self.pair(twice=False)
        other = one if sorted(CONVERTED.sub(r"\1", one)) == sorted(CONVERTED.sub(r"\1", other)) else other
        bits = self.one_of(16, 32, 64)
        sign = self.one_of("==", "==", "<>", "<", "<=", ">", ">=")
        one, other = (f"(({it}) as {WIDTHS[bits]})" for it in (one, other))
        return [*self.great(), *self.noted(f"{one} {sign} {other}"), *([self.combined()] if self.mark else [])]

    def combined(self):
        """A number of two or three that are mostly great, seen at once."""
        x, y, z, sign = self.byte(), self.byte(), self.byte(), self.one_of(*OPERATORS)
        chain = self.one_of("|", "&", "^")
        return f"this.n ~mod+= ({self.one_of(f'{x} {sign} {y}', f'{x} {sign} {y}', f'{x} {chain} {y} {chain} {z}')}) as base.u32"

    def copied(self, depth):
        """An element assigned to the one under an index that is alike, or nearly so."""
        if not self.mark or self.owner != "s":
            return self.compared(depth)
        one, other = self.pair()
        sign = self.one_of("=", "=", "=", "=", "~mod+=", "^=")
        return [*self.great(), f"this.b[{other}] = {self.one_of(1, 77, 'args.k' if 'k' in self.arguments else 99)}",
                f"this.b[{one}] {sign} this.b[{other}]", f"this.n ~mod+= this.b[{self.one_of(one, one, other)}] as base.u32"]

    # What is assigned to itself, or nearly so

    def itself(self, depth):
        bits = self.one_of(8, 8, 16, 32, 64)
        x = self.one_of(*[path for path in self.paths(bits) if path in dict(LOCALS) or path in ("this.n", "this.p", "this.o") and self.mark])
        y = self.one_of(*[path for path in self.paths(bits) if "length" not in path])
        sign = self.one_of(*OPERATORS) if bits < 32 else self.one_of(*OPERATORS[:5])
        found = [f"{x} = {x}", f"{x} = {y}", f"{x} = {x} {sign} {y}", f"{x} = {x} ~mod+ {y}", f"{x} = {y} ~mod- {x}", f"{x} {sign}= {y}", f"{x} {sign}= {x}",
                 f"{x} {self.one_of('>>', '~mod<<')}= {self.one_of(1, 7, bits - 1)}", f"{x} {self.one_of('/', '%')}= {self.one_of(1, 3, 10)}"]
        if self.mark:
            one, other = (f"this.a[{self.one_of(0, 1, self.length - 1)}]" for _ in range(2))
            found += [f"{one} = {one}", f"{one} = {other}", f"{one} {self.one_of(*OPERATORS)}= {other}", f"this.d[{self.few - 1}] = this.d[0]",
                      "this.m = this.d[1]"]
        return [self.one_of(*found), self.one_of(*found)]

    def indexed(self, depth):
        """An element under an index that is changed before it is read again, or by what is read."""
        if self.owner != "s":
            return self.itself(depth)
        c, d = self.one_of(("c", "d"), ("d", "c"))
        write = [f"this.b[{c}] = {self.byte()}", f"this.b[{c}] {self.one_of(*OPERATORS)}= {self.byte()}"] if self.mark else []
        middle = self.one_of(f"{c} ~mod+= 1", f"{c} = {d}", f"{c} = this.b[{c}]", *write)
        last = self.one_of(f"{d} = this.b[{c}]", f"{c} = this.b[{c}]", f"{d} = this.b[this.b[{c}]]", f"{d} = {d} ~mod+ this.b[{c} ~mod- 1]", *write)
        return [*self.one_of([], write[:1]), middle, last]

    def shortened(self, depth):
        """A slice made shorter in its own place."""
        number = self.one_of(0, 1, 1, 2)
        part = self.one_of(f"l[{number} ..]", f"l[.. {number}]", f"l[0 .. {number}]", f"l[{number} .. {number}]", "l[..]", f"l[{number} .. l.length()]")
        starts = ["l = this.a[..]", "l = args.g" if "g" in self.arguments else "l = this.a[1 ..]", "l = this.b[c ..]"]
        start = self.one_of(*starts[:3 if self.owner == "s" else 2])
        start = ["this.a[1] = 9", start] if self.mark else [start]
        use = self.one_of(*(["l[0] = d", *["this.n ~mod+= l[0] as base.u32"] * 3] if self.mark else ["c = l[0]", "d = l[0]"]))
        more = self.one_of([], [f"if l.length() >= {number} {{", f"l = {part}", "}"])
        return [*self.one_of([], start), f"if l.length() >= {number} {{", f"l = {part}", "}", *more, "v ~mod+= l.length()", "if l.length() > 0 {", use, "}"]

    # Statuses

    def statuses(self, depth):
        """Statuses compared with themselves and with others, kept and given back."""
        held = ["q", "q", *(["this.q"] if self.owner == "s" else [])]
        one, other = self.one_of(*held), self.one_of(*held, *STATUSES)
        start = [f"{self.one_of('q', *(held if self.mark else []))} = {self.one_of(*held, *STATUSES)}"]
        asked = f"{one}.{self.one_of('is_ok', 'is_error', 'is_note', 'is_suspension')}()"
        seen = self.noted(self.one_of(f"{one} == {other}", f"{one} <> {other}", f"{other} == {one}", asked))
        return self.one_of([], start) + seen + ([f"if {asked} {{", "return q", "}"] if self.mark == "?" and self.chance(.2) else [])

    # Bytes

    def word(self, depth):
        """A number of several bytes, read after a look at them or into a place; its bytes may come one by one."""
        if self.mark != "?" or not self.readers():
            return self.itself(depth)
        io, (name, bits) = self.one_of(*self.readers()), self.one_of(*READS, ("read_u8", 8))
        fields = {8: ["this.p", "this.b[c]" if self.owner == "s" else "this.a[1]"], 32: ["this.n"]}
        into = self.one_of(*[local for local, of in LOCALS if of == bits], *fields.get(bits, []))
        look = self.one_of(("peek_u8", 8), ("peek_u16le", 16), ("peek_u32le", 32))
        peek = [f"if {io}.length() >= {look[1] // 8} {{", f"{self.one_of(*[local for local, of in LOCALS if of == look[1]])} = {io}.{look[0]}()", "}"]
        tell = {16: ["this.n ~mod+= u as base.u32"], 32: ["this.n ~mod+= x"], 64: ["this.n ~mod+= (v % 65521) as base.u32"]}.get(bits, [])
        where = self.one_of([f"v ~mod+= {io}.{self.one_of('length', 'position')}()"], [f"{io}.skip_u32?(n: {self.one_of(2, 3, 5, 'x % 8')})"])
        return [*self.one_of([], peek), f"{into} = {io}.{name}?()", *self.one_of([], tell, peek), *self.one_of([], where)]

    def left(self, depth):
        """A byte that is read into an element which is found by what is left behind it."""
        if self.mark != "?" or self.owner != "s" or not self.readers():
            return self.word(depth)
        io = self.one_of(*self.readers())
        index = f"{io}.{self.one_of('length', 'position')}() & 3"
        return [f"this.b[{index}] = {self.one_of(f'{io}.read_u8?()', f'{io}.read_u8?()', 'c')}",
                "this.n ~mod+= ((this.b[0] ~mod+ (3 ~mod* this.b[1])) ~mod+ (5 ~mod* this.b[2])) as base.u32"]

    def words(self, depth):
        """Numbers of several bytes, one after the other in a loop."""
        if self.mark != "?" or not self.readers():
            return self.compared(depth)
        between = self.one_of(["y ~mod+= 1"], self.noted("x < y"), [f"args.w.write_u8?(a: {self.byte()})"] if "w" in self.arguments else ["d ~mod+= c"])
        return ["while true {", *self.word(0), *self.one_of([], self.word(0)), *between, f"if {self.one_of('t', 'c > 3', 'x <> 0', 'u <> 1', 'y > 2')} {{",
                "break", "}", "}"]

    def written(self, depth):
        """Bytes of a variable that is changed after, and bytes of one reader after those of another."""
        found = []
        if self.mark == "?" and "w" in self.arguments:
            byte = self.one_of("c", "d", "this.p", "c ~mod+ d", "this.a[0]", 7)
            found.append([f"args.w.write_u8?(a: {byte})", self.one_of("c ~mod+= 1", "d = c", "this.p ~mod+= 1")])
            if self.readers():
                found.append([f"c = {self.one_of(*self.readers())}.read_u8?()", "args.w.write_u8?(a: c)"])
        if self.mark and "w" in self.arguments:
            found.append([f"v = args.w.copy_from_slice!(s: {self.one_of('l', 'this.a[..]', 'this.a[1 ..]')})", "this.n ~mod+= (v % 256) as base.u32"])
        if self.mark == "?" and len(self.readers()) > 1:
            found.append(["c = args.r.read_u8?()", "d = args.s.read_u8?()", f"args.{self.one_of('r', 's')}.skip_u32?(n: {self.one_of(1, 2, 'x & 3')})"])
        return self.one_of(*found) if found else self.indexed(depth)

    def alike(self, depth):
        """Any of these."""
        choices = [self.copied, self.copied, self.copied, self.compared, self.itself, self.indexed, self.shortened, self.statuses, self.written]
        choices += [self.word, self.word, self.words, self.words, self.left] if self.mark == "?" else []
        return whole(self.one_of(*choices)(depth))

    # What is seen from outside

    def shown(self, words):
        """What changes fields by what stands in the locals at a method's end."""
        into = {8: "this.p ~mod+= {}", 16: "this.n ~mod+= {} as base.u32", 32: "this.n ~mod+= {}", 64: "this.n ~mod+= ({} % 65521) as base.u32"}
        lines = [into[bits].format(local) for local, bits in LOCALS if local in words and self.chance(.8)]
        lines += ["if t {", "this.p ~mod+= 1", "}"] if "t" in words else []
        return lines + (["if q.is_error() {", "this.p ~mod+= 2", "}", "if q == ok {", "this.p ~mod+= 5", "}"] if "q" in words else [])

    def tell(self, owner):
        """A method that gives a number in which each field has a part, and of the arrays some elements."""
        last = self.one_of(2, self.length - 1)
        if owner == "leaf":
            return ["pub func leaf.tell() base.u64 {", "return this.n as base.u64", "}"]
        fields = ["y", "this.n", "this.m", "this.p", "this.a[0]", "this.a[1]", f"this.a[{last}]", f"this.d[{self.one_of(0, 1, self.few - 1)}]"]
        inside = []
        if owner == "s":
            fields += ["x", *(f"this.b[{self.random.randrange(MANY)}]" for _ in range(2)), *(f"this.{name}[{self.random.randrange(4)}]" for name in "uxv")]
            inside = ["x = this.h.tell()", "v = this.o", "if this.q.is_ok() {", "v ~mod+= 1", "}"]
        parts = [f"v = (v ~mod* 31) ~mod+ ({path} as base.u64)" for path in fields]
        return [f"pub func {owner}.tell() base.u64 {{", *(["var x : base.u64"] if inside else []), "var y : base.u64", "var v : base.u64", *inside, "y = this.g.tell()", *parts,
                "if this.f {", "v ~mod+= 1", "}", "return v", "}"]


def whole(lines):
    """The statements that lines are, of which each ends with an opening brace where a block begins."""
    blocks, open_statements = [Block()], []
    for line in lines:
        begins, ends = line.endswith("{"), line.startswith("}")
        if ends:
            open_statements[-1] += [blocks.pop(), line]
        elif begins:
            open_statements.append([line])
        else:
            blocks[-1].append(line)
        if begins:
            blocks.append(Block())
        elif ends:
            blocks[-1].append(open_statements.pop())
    return blocks[0]
