"""Statements whose right way on is seen in what comes after them: skips that are resumed partway, jumps out of loops in loops, slices
over a suspension, coroutines that wait while their callers go on, statuses of each kind, calls whose targets and arguments ask for
places that the call changes, elements of more than a byte."""

from .random_likes import READS, LikesWriter, whole
from .random_needs import LOCALS, STATUSES

# The arrays of more than a byte have the names of the locals of their width.
WIDE = {"u": 16, "x": 32, "v": 64}
PLACES = 4
ANSWERS = [*STATUSES, 'base."@end of data"', 'base."$short write"']
# Takes some bytes and leaves behind what they were; in what order it took them is seen.
TAKE = ["var c : base.u8", "args.r.skip_u32?(n: args.n)", "c = args.r.read_u8?()", "this.n = ((this.n ~mod* 31) ~mod+ (c as base.u32)) ~mod+ args.n"]
PASS = ["var c : base.u8", "if args.r.length() > 0 {", "c = args.r.peek_u8()", "args.r.skip_u32_fast!(actual: 1, worst_case: 1)", "}",
        "if args.w.length() > 0 {", "args.w.write_u8_fast!(a: c)", "}", "this.n ~mod+= (args.j % 65521) as base.u32", "return c ~mod+ 1"]
SHARE = ["var v : base.u64", "v = args.w.copy_from_slice!(s: this.a[.. 1])", "if args.o.length() > 1 {", "args.o.write_u8_fast!(a: 5)",
         "args.o.write_u8_fast!(a: this.a[1])", "}", "return v ~mod+ args.o.position()"]
LATE = ["var c : base.u8", "var x : base.u32", "x = args.i", "c = args.r.read_u8?()", "this.n = (this.n ~mod* 3) ~mod+ (c as base.u32)",
        "this.g.take?(r: args.r, n: x & 3)", "this.n = (this.n ~mod* 5) ~mod+ x", "if c == 4 {", 'return "@note"', "}", "if c == 9 {", 'return "#bad"', "}"]


class FlowsWriter(LikesWriter):
    """Writes such statements, as a list of lines, and the methods that they call."""

    # Declarations

    def wide_fields(self):
        return ", ".join(f"{name} : array[{PLACES}] base.u{bits}" for name, bits in WIDE.items())

    def callees_of(self, text):
        """Methods that are called by these statements alone: of which a text calls some."""
        reader, writer, part = "r: base.io_reader", "w: base.io_writer", f"slice base.u{WIDE[self.moved]}"
        inner = ["this.g.take?(r: args.r, n: args.n ~sat- 1)", "this.n ~mod+= 7", f"this.g.take?(r: args.r, n: {self.one_of(0, 1, 2)})"]
        for owner in ("leaf", "inner", "s"):
            note = self.one_of([], ["if c == 7 {", 'return "@note"', "}"])
            yield [f"pub func {owner}.take?({reader}, n: base.u32) {{", *TAKE, *(inner if owner != "leaf" else []), *note, "}"]
        for owner in ("inner", "s") if ".pass!" in text else ():
            yield [f"pub func {owner}.pass!({reader}, {writer}, j: base.u64) base.u8 {{", *PASS, "}"]
        if ".share!" in text:
            yield [f"pub func s.share!({writer}, o: base.io_writer) base.u64 {{", *SHARE, "}"]
        if ".late?" in text:
            yield [f"pri func s.late?({reader}, i: base.u32) {{", *LATE, "}"]
        if ".move!" in text:
            yield [f"pri func s.move!(l: {part}, m: {part}) base.u64 {{", "var v : base.u64", "if args.l.length() > 1 {", "args.l[0] = args.l[1]",
                   f"args.l[1] {self.one_of('~mod+', '~mod*', '^')}= 259", "}", "v = args.l.copy_from_slice!(s: args.m)", "if args.m.length() > 0 {",
                   "v ~mod+= args.m[0] as base.u64", "}", "return v", "}"]

    # What these statements are made of

    def mixed(self, value, bits):
        """What makes a number seen, and the order in which numbers come."""
        part = {32: f"({value})", 64: f"(({value}) % 65521) as base.u32"}.get(bits, f"({value}) as base.u32")
        return f"this.n = (this.n ~mod* {self.one_of(3, 31, 257)}) ~mod+ ({part})"

    def point(self):
        """A statement that may suspend, or nothing."""
        if self.mark != "?":
            return []
        found = ['yield? "$wait"', *[f"d = {io}.read_u8?()" for io in self.readers()], *[f"{io}.write_u8?(a: c)" for io in self.writers()],
                 *[f"{io}.skip_u32?(n: {self.one_of(1, 2, 3)})" for io in self.readers()]]
        return [self.one_of(*found)]

    def asked(self, io, most):
        """A number up to one less than a power of two, by the place of a buffer."""
        return f"({io}.{self.one_of('length', 'position')}() & {most})"

    def places(self):
        """Elements to which a number of a width goes: the array, how many of its elements are meant, and the width."""
        return [("this.b", PLACES, 8), *((f"this.{name}", PLACES, bits) for name, bits in WIDE.items())] if self.owner == "s" else [("this.a", 2, 8)]

    def seen_elements(self, array, count, bits):
        parts = [f"({array}[{at}] ~mod* {2 * at + 1})" for at in range(count)]
        return [self.mixed(f"({' ~mod+ '.join(parts[:2])})" + (f" ~mod+ ({' ~mod+ '.join(parts[2:])})" if count > 2 else ""), bits)]

    # Statements

    def skipped(self, depth):
        """Several bytes that are left out and numbers that come after them, or numbers of several bytes, each seen at once."""
        io, number = self.one_of(*self.readers()), self.one_of(2, 3, 4, 5, 7, "(x & 3) + 2", "y & 7")
        name, bits = self.one_of(("read_u8", 8), ("read_u8", 8), *READS)
        local = self.one_of(*[local for local, of in LOCALS if of == bits])
        skip = [f"{io}.skip_u32?(n: {number})", *self.one_of([], self.point())] if bits == 8 or self.chance(.3) else []
        lines = [*skip, f"{local} = {io}.{name}?()", self.mixed(local, bits)]
        return ["while true {", *lines, f"if {local} > {self.one_of(1, 3, 100)} {{", "break", "}", "}"] if self.chance(.4) else lines

    def jumping(self, depth):
        """A loop in a loop, both begun again from inside; what is passed over would be seen."""
        x, y = self.one_of(("x", "y"), ("y", "x"))
        most, few = self.one_of(2, 3, 4), self.one_of(2, 3)
        kept, least = f"inv {x} <= {most}, ", self.one_of("", f"post {x} <= {most}, ", f"inv {y} <= {few}, ")

        def jump(*labels):
            condition = self.one_of(f"{y} == {x}", f"{y} > {x}", f"{y} == {few - 1}", f"({x} & 1) == {self.one_of(0, 1)}", f"{x} == 2", "c > 3")
            return [f"if {condition} {{", self.one_of("continue", "continue", "continue", "break") + self.one_of(*labels), "}"]

        inside = [*jump("", ".near", ".far", ".far"), *self.one_of([], self.point()), self.mixed(y, 32)]
        inside += [*jump("", ".far"), self.mixed(x, 32)] if self.chance(.4) else []
        inner = [f"while.near {y} < {few}, {kept}{least}{{", f"{y} += 1", *inside, "} endwhile.near"]
        after = self.one_of([], jump("", ".far"), self.point())
        return [f"{x} = 0", f"while.far {x} < {most}, {kept}{{", f"{x} += 1", f"{y} = {self.one_of(0, 0, 1)}", *inner, *after, self.mixed(y, 32),
                "} endwhile.far", self.mixed(x, 32)]

    def differing(self, depth):
        """A slice of elements that all differ, made shorter in its own place, perhaps over a suspension, and what stands in it."""
        array, _, bits = self.one_of(*self.places())
        part = {8: "l", 16: "lu", 32: "lx", 64: "lv"}[bits]
        lines = [f"{array}[{at}] = {number}" for at, number in enumerate(self.random.sample(range(5, 250), 3))] + [f"{part} = {array}[{self.one_of('..', '..', '1 ..')}]"]
        for _ in range(self.one_of(1, 1, 2)):
            cut = self.one_of("[1 ..]", "[1 ..]", "[2 ..]", "[.. 1]", "[1 .. 2]", f"[1 .. {part}.length()]")
            lines += [*(self.point() if self.chance(.2) else []), f"if {part}.length() >= 2 {{", f"{part} = {part}{cut}", "}"]
        write = [f"{part}[0] {self.one_of('=', '~mod+=', '^=')} {self.one_of(9, 77)}"] if self.chance(.4) else []
        return [*lines, *(self.point() if self.chance(.3) else []), self.mixed(f"{part}.length()", 64), f"if {part}.length() >= 1 {{",
                self.mixed(f"{part}[0]", bits), *write, "}", *(self.seen_elements(array, 2, bits) if write else [])]

    def asking(self, depth):
        """A call whose target or argument asks for the place of what the call reads or writes."""
        array, count, bits = self.one_of(*self.places())
        found, on = [], self.one_of("this", "this.h") if self.owner == "s" else "this"
        element = "l" if bits == 8 and self.owner == "s" and self.chance(.4) else array
        for io in self.readers():
            index = f"[{self.asked(io, count - 1)}]"
            if self.mark == "?":
                names = [name for name, of in (*READS, ("read_u8", 8)) if of == bits]
                found += [f"{array}{index} = {io}.{self.one_of(*names)}?()"] * 2
                found += [f"{io}.skip_u32?(n: ({self.asked(io, 3)} as base.u32) + 1)",
                          f"{on}.take?(r: {io}, n: {self.asked(io, 3)} as base.u32)", f"q =? {on}.take?(r: {io}, n: {self.asked(io, 3)} as base.u32)"]
            for writer in self.writers() if bits == 8 else []:
                at = self.one_of(index, f"[{self.asked(writer, count - 1)}]")
                found += [f"{element}{at} = {on}.pass!(r: {io}, w: {writer}, j: {self.asked(self.one_of(io, writer), 255)})"] * 3
        for io in self.writers():
            index = f"[{self.asked(io, count - 1)}]"
            if bits == 64:
                found += [f"{array}{index} = {io}.copy_from_slice!(s: this.a[{self.asked(io, 1)} ..])"] * 3
            if self.mark == "?":
                found.append(f"{io}.write_u8?(a: {self.asked(io, 127)} as base.u8)")
        if bits == 64 and len(self.writers()) > 1:
            first, second = self.random.sample(self.writers(), 2)
            found += [f"{array}[{self.asked(second, count - 1)}] = this.share!(w: {first}, o: {second})"] * 3
        if not found:
            return self.differing(depth)
        lines = [self.one_of(*found), *self.one_of([], [self.one_of(*found)])]
        lines = [f"l = {array}[..]", f"if l.length() >= {count} {{", *lines, "}"] if any(line.startswith("l[") for line in lines) else lines
        return [*lines, *self.seen_elements(array, count, bits)]

    def wide(self, depth):
        """Elements of more than a byte: assigned, changed, copied, cut, handed on."""
        name = self.one_of(*WIDE, self.moved)
        array, part, bits = f"this.{name}", f"l{name}", WIDE[name]
        i, j = (self.one_of(0, 1, 2, 3, "c & 3", "d & 3", "x & 3") for _ in range(2))
        great = 2 ** bits - self.one_of(1, 2, 200)
        lines = [f"{array}[{i}] = {self.one_of(name, great, f'{array}[{j}]')}", f"{array}[{j}] {self.one_of('~mod+', '~mod-', '~mod*', '~sat+', '~sat-')}= {self.one_of(name, f'{array}[{i}]')}",
                 f"{name} = {array}[{j}]"]
        lines = [line for line in lines if self.chance(.7)]
        cut = f"{array}[{self.one_of('..', '1 ..', '2 ..', '.. 3', '1 .. 3')}]"
        more = [[f"{part} = {cut}", f"if {part}.length() > 1 {{", f"{part}[1] = {name}", f"{part}[0] ~mod+= {part}[1]", "}"],
                [f"{part} = {cut}", f"v = {part}.copy_from_slice!(s: {array}[{self.one_of('2 ..', '1 .. 3', '.. 2')}])", self.mixed("v", 64)]]
        if name == self.moved:
            more.append([f"{part} = {cut}", f"v = this.move!(l: {self.one_of(part, f'{array}[1 ..]')}, m: {self.one_of(part, cut)})", self.mixed("v", 64)])
        return [*lines, *self.one_of(*more), *self.seen_elements(array, PLACES, bits)]

    def taken(self, io):
        """A call of a coroutine that takes bytes."""
        number = self.one_of(0, 1, 2, 3, "x & 3", "args.i & 3" if "i" in self.arguments else 2)
        if self.owner == "s" and self.chance(.4):
            return f"this.late?(r: {io}, i: {number})"
        return f"{self.one_of('this.h', 'this.g') if self.owner == 's' else 'this.g'}.take?(r: {io}, n: {number})"

    def answered(self, depth):
        """A coroutine that may wait while its caller goes on, and what its answer leads to."""
        io = self.one_of(*self.readers())
        call, held = self.taken(io), self.one_of("q", "q", "this.q") if self.owner == "s" else "q"
        waits = self.one_of([self.mixed(1, 32), 'yield? "$wait"', "continue"], ['yield? base."$short read"', self.mixed(2, 32), "continue"], [self.mixed(3, 32), f"return {self.one_of('ok', held)}"])
        if self.chance(.5):
            return ["while true {", f"{held} =? {call}", f"if {held}.is_suspension() {{", *waits, "}", self.mixed(5, 32), "break", "}"]
        if self.chance(.5):
            return [call, *self.one_of([], self.point()), self.mixed("x", 32), call]
        again = self.one_of([self.mixed(1, 32)], ["q =? " + call], self.point())
        kinds = [f"if {held}.is_suspension() {{", *again, f"}} else if {held}.is_note() {{", self.mixed(2, 32), f"}} else if {held}.is_error() {{",
                 self.one_of(self.mixed(3, 32), f"return {held}"), "} else {", self.mixed(4, 32), "}"]
        return [f"{held} =? {call}", *kinds]

    def several(self, depth):
        """A status compared with several, perhaps after it was kept in a field over a call."""
        held = self.one_of("q", "this.q") if self.owner == "s" else "q"
        one, two, three = self.random.sample(ANSWERS, 3)
        parts = [f"({held} {self.one_of('==', '==', '<>')} {it})" for it in (one, two, three)]
        both = self.one_of(" and ", " or ").join(parts[:2]).join("()")
        condition = self.one_of(" or ".join(parts), f"{both} and {parts[2]}", f"{both} or (not {parts[2]})")
        between = self.one_of([], [self.filled()], self.point()) if held == "this.q" else []
        return [f"{held} = {self.one_of(*ANSWERS, one, two, three)}", *between, f"if {condition} {{", self.mixed(3, 32), "} else {", self.mixed(4, 32), "}"]

    def bitwise(self, depth):
        """Bits of numbers of 32 or 64, and shifts by a variable; few, since their ranges are found bit by bit."""
        bits = self.one_of(32, 64)
        wide = ("v", "this.v[1]", "this.v[0]") if self.owner == "s" else ("v", "v", "v")
        x, y, field = ("x", "y", "this.n") if bits == 32 else wide
        by = f"({self.one_of('c', 'd', 'x')} & {bits - 1})"
        value = self.one_of(f"{x} {self.one_of('&', '|', '^')} {y}", f"{x} >> {by}", f"{x} ~mod<< {by}", f"{field} ~mod<< {by}")
        return [f"{field} = {value}", f"{x} {self.one_of('>>', '~mod<<')}= {by}", self.mixed(field, bits)]

    def flow(self, depth):
        """Any of these; a method that changes no field has others."""
        if not self.mark:
            return self.alike(depth)
        choices = [self.jumping, self.jumping, self.differing, self.asking, self.asking, self.several, *([self.wide, self.wide] if self.owner == "s" else []),
                   *([self.bitwise] if self.chance(.4) else [])]
        if self.mark == "?":
            choices += [self.jumping, *([self.skipped, self.skipped, self.skipped, self.answered, self.answered, self.asking] if self.readers() else [])]
        return whole(self.one_of(*choices)(depth))
