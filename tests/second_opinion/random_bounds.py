"""Random packages whose facts stand at the edge of what the rules of bounds accept. A statement that needs something is written
under a condition that just gives it, or just doesn't, and now and then something comes between that may change it.
Beside them stand statements that a compiler might take for others (random_likes.py) and statements after which a wrong way on is seen
(random_flows.py), and at a method's end its locals change fields.

A statement is a line, or a list of lines and blocks; a block is a `Block`, a list of statements. So a statement that is refused
can be taken out of a package.
"""
import re

from . import judged
from .bounds import Bounds
from .facts import Package, Unmet
from .random_flows import WIDE, FlowsWriter
from .random_likes import MANY, READS, whole
from .random_needs import LOCALS, STATUSES, WIDTHS, Block
from .trees import Method

SUSPENSIONS = ['"$wait"', 'base."$short read"']
FILL = ["this.n = args.i", "this.p = args.k", "this.m = args.e % (K + 1)", "this.f = args.z", "this.a[0] = args.k", "this.a[1] = args.e",
        "this.d[0] = args.k % (K + 1)", "this.d[1] = args.e % (K + 1)"]
EAT = ["if args.r.length() > 0 {", "args.r.skip_u32_fast!(actual: 1, worst_case: 1)", "}"]
EMIT = ["if args.w.length() > 0 {", "args.w.write_u8_fast!(a: 1)", "}"]
VARIABLES = [f"var {local} : {WIDTHS[bits]}" for local, bits in LOCALS]
VARIABLES += ["var t : base.bool", "var l : slice base.u8", "var q : base.status"]
VARIABLES += [f"var l{name} : slice base.u{bits}" for name, bits in WIDE.items()]
WORD = re.compile(r"\w+")
PIECES = re.compile(r"(?<=[ (\[])(\d+|<=|>=|<|>|==|<>|and|or)(?=[ )\],.]|$)")


def lines_of(block):
    """Each line, with the block and the statement in it that it belongs to."""
    for statement in block:
        for part in [statement] if isinstance(statement, str) else statement:
            yield from [(part, block, statement)] if isinstance(part, str) else lines_of(part)


def text_of(package):
    return "".join(line + "\n" for line, _, _ in lines_of(package))


class Lenient(Bounds):
    """Judges a method's body as if each statement that is refused weren't there, and keeps the places of refusals."""
    refused = ()

    def statement(self, it, facts):
        before = facts.copy()
        try:
            return super().statement(it, facts)
        except Unmet as unmet:
            self.refused = (*self.refused, unmet.place)
            return before


def refused_lines(text):
    """Lines at which something is refused; where rules of names and types are broken, of these the first alone."""
    places = []

    def judge(declarations):
        package = Package()
        for method in (it for it in declarations if isinstance(it, Method)):
            body = Lenient(package, method, lambda key, facts: None)
            body.judge()
            places.extend(body.refused)

    answer = judged([text], judge)
    return {line for _, line, _ in places} or ({int(answer.split(":")[1])} if answer.startswith("refused") else set())


def repaired(package):
    """Takes statements that are refused out of a package, as long as there are such."""
    refused = refused_lines(text_of(package))
    while refused:
        lines = list(lines_of(package))
        gone = [(block, statement) for line, (_, block, statement) in enumerate(lines, 1) if line in refused and block is not package]
        for block, statement in gone:
            block[:] = [one for one in block if one is not statement]
        refused = refused_lines(text_of(package)) if gone else set()
    return package


class BoundsWriter(FlowsWriter):
    """Writes one package."""

    # Declarations

    def package(self):
        self.high, self.least = self.one_of(3, 4, 5, 6), self.one_of(0, 0, 1)
        self.length = self.high + self.one_of(0, 1, 1, 2)
        self.few, self.moved = self.one_of(2, 3, 4), self.one_of(*WIDE)
        refined = f"base.u8[..= {self.high}]"
        arrays = f"a : array[{self.length}] base.u8, d : array[{self.few}] {refined}"
        lines = ['pri status "#bad"', 'pri status "$wait"', 'pri status "@note"',
                 f"pri const K : base.u8 = {self.high}", f"pri const M : base.u32 = {self.length}",
                 f"{self.one_of('pub', 'pri')} struct leaf?(n : base.u32)",
                 f"{self.one_of('pub', 'pri')} struct inner?(n : base.u32, m : {refined}, p : base.u8, f : base.bool, {arrays}, g : leaf)",
                 f"pub struct s?(n : base.u32, m : {refined}, p : base.u8, o : base.u64, f : base.bool, q : base.status, {arrays}, "
                 f"b : array[{MANY}] base.u8, {self.wide_fields()}, h : inner, g : leaf)"]
        self.callees = {}
        methods = [method for owner in ("inner", "s") for method in self.fixed(owner)]
        for owner in ("inner", "s"):
            for name, mark in (("pure", ""), ("set", "!"), ("more", "?")):
                methods.append(self.method(owner, name, mark, "pub" if owner == "inner" else self.one_of("pub", "pri")))
        methods += [self.tell(owner) for owner in ("leaf", "inner", "s")]
        methods += [self.method("s", name, mark, "pub") for name, mark in (("act", "!"), ("go", "?"), ("run", "?"))]
        return Block([*lines, *methods, *self.callees_of(text_of(methods))])

    def fixed(self, owner):
        """Methods that change fields, a reader and a writer."""
        numbers = {"i": "base.u32", "k": "base.u8", "e": f"base.u8[{self.least} ..= {self.high}]", "z": "base.bool"}
        inside = ["this.h.fill!(i: args.i, k: args.k, e: args.e, z: args.z)"] if owner == "s" else []
        reader, writer = {"r": "base.io_reader"}, {"w": "base.io_writer"}
        for name, arguments, body in (("fill", numbers, FILL + inside), ("eat", reader, EAT), ("emit", writer, EMIT)):
            listed = ", ".join(f"{argument}: {kind}" for argument, kind in arguments.items())
            head = f"pub func {owner}.{name}!({listed}) {{"
            self.callees[owner, name] = ("!", arguments, None)
            yield [head, *body, "}"]

    def method(self, owner, name, mark, public):
        self.owner, self.mark, self.loops, self.gives = owner, mark, [], None
        kinds = [("i", "base.u32"), ("j", "base.u32"), ("k", "base.u8"), ("e", f"base.u8[{self.least} ..= {self.high}]"),
                 ("w", "base.io_writer"), ("o", "base.io_writer"), ("r", "base.io_reader"), ("s", "base.io_reader"), ("g", "slice base.u8"), ("z", "base.bool")]
        kept = self.random.sample(kinds, self.random.randint(4, 8)) if name in ("act", "go", "run") else \
            self.random.sample(kinds, self.random.randint(1, 4))
        self.arguments = dict(kept)
        if len(self.ios()) > 3:
            self.arguments.pop(self.one_of("o", "s"))
        result = ""
        if mark != "?":
            self.gives, result = self.one_of((8, f" base.u8[..= {self.high}]"), (8, " base.u8"), (32, " base.u32"))
            self.most = self.high if "[" in result else 2 ** self.gives - 1
        listed = ", ".join(f"{argument}: {kind}" for argument, kind in self.arguments.items())
        head = f"{public} func {owner}.{name}{mark}({listed}){result} {{"
        count = self.random.randint(3, 6) if name in ("act", "go", "run") else self.random.randint(1, 3)
        first = self.one_of(self.alike, self.flow, self.flow)(3) if name in ("act", "go", "run") and self.chance(.8) else []
        body = Block(self.starts() + first + self.statements(count, 3))
        body += whole(self.shown(set(WORD.findall(text_of(body))))) if mark else []
        end = [f"return {self.one_of(*self.results())}"] if self.gives else []
        self.callees[owner, name] = (mark, dict(self.arguments), self.gives)
        words = set(WORD.findall(text_of([body, *end])))
        return [head, *[line for line in VARIABLES if line.split()[1] in words], body, *end, "}"]

    def results(self):
        """What the method may give back."""
        locals_of = [local for local, bits in LOCALS if bits == self.gives]
        fields = {8: ["this.p", "this.m", "this.a[0]"], 32: ["this.n"]}[self.gives]
        found = [*locals_of, *locals_of, *fields]
        return [str(min(self.most, self.high)), *(f"{path} % {self.high + 1}" if self.most == self.high else path for path in found)]

    def starts(self):
        """Locals that aren't 0."""
        outer = {bits: [path for path in self.paths(bits) if "." in path and path != "l.length()"] for _, bits in LOCALS}
        found = [f"{local} = {self.one_of(*outer[bits])}" for local, bits in LOCALS if outer[bits] and self.chance(.4)]
        return found + self.one_of([], ["l = this.a[..]"], [f"l = {self.one_of(*self.bases())}"])

    # What may change something

    def spoiler(self, about):
        """A statement that may change what is known about a variable."""
        found = []
        local = dict(LOCALS).get(about) or {"this.n": 32, "this.p": 8, "this.o": 64}.get(about)
        if local and (self.mark or "." not in about):
            step = self.one_of(1, 1, 2)
            found += [f"{about} = {self.some(local)}", f"{about} ~mod+= {step}", f"{about} += {step}", f"{about} -= {step}",
                      f"{about} = {about} ~mod+ {step}"]
        if about in ("t", "this.f", "q") and (self.mark or about != "this.f"):
            found.append(f"{about} = {'ok' if about == 'q' else self.flag()}")
        if self.mark:
            if about.startswith("this.") or "[" in about:
                found += [f"this.a[{self.one_of(0, 1)}] = {self.number(8)}", "this.d[0] = this.m", self.alias(), self.alias(),
                          "this.n ~mod+= 1", "this.m = K", f"this.n = {self.some(32)}", *[self.filled() for _ in range(4)]]
                found += [self.call()[0]] if self.call() else []
        if about in ("l", "args.g", "l.length()", "args.g.length()"):
            found += [f"l = {self.one_of('this.a[1 ..]', *self.bases())}"] * 2
        for io in self.readers() if self.may("!") else []:
            if io in about:
                found += [f"this.eat!(r: {io})", f"{io}.skip_u32_fast!(actual: 1, worst_case: 1)",
                          f"{io}.skip_u32_fast!(actual: this.m as base.u32, worst_case: M)"]
        for io in self.writers() if self.may("!") else []:
            if io in about:
                found += [f"this.emit!(w: {io})", f"{io}.write_u8_fast!(a: 7)", f"v = {io}.copy_from_slice!(s: this.a[..])"]
        if self.may("?"):
            found += [self.waiting()] * 2
        return self.one_of(*found) if found else self.plain()

    def filled(self):
        on = self.one_of("this", "this", "this.h") if self.owner == "s" else "this"
        return f"{on}.fill!(i: {self.number(32)}, k: {self.number(8)}, e: K, z: {self.one_of('true', 't')})"

    def alias(self):
        """A write to an element of an array through a slice of it."""
        source = self.one_of("this.b[..]", "l[..]", *self.bases()) if self.owner == "s" else self.one_of(*self.bases())
        source = self.one_of(source, f"this.a[{self.one_of('this.m ..', '.. this.m', 'this.m .. K')}]")
        write = self.one_of(f"l[0] = {self.number(8)}", f"v = l.copy_from_slice!(s: {source})")
        return [f"l = {self.one_of('this.a[..]', 'this.a[.. 1]')}", ["if l.length() > 0 {", Block([write]), "}"]]

    def waiting(self, depth=0):
        """A statement that may suspend."""
        found = [f"yield? {self.one_of(*SUSPENSIONS)}"]
        if self.readers():
            io, (name, bits) = self.one_of(*self.readers()), self.one_of(*READS)
            found += [self.assigned(bits, f"{io}.{name}?()"), self.assigned(8, f"{io}.read_u8?()")] * 2
            found += [f"{io}.skip_u32?(n: {self.one_of('x', 1, 2, 3, self.number(32))})", f"this.a[0] = {io}.read_u8?()", f"this.p = {io}.read_u8?()"]
        if self.writers():
            found += [f"{self.one_of(*self.writers())}.write_u8?(a: {self.number(8)})"] * 2
        called = self.call()
        return self.one_of(*found, *([called[0]] if called else []))

    # Statements

    def statements(self, count, depth):
        found = []
        for _ in range(count):
            one = self.statement(depth)
            found += one if isinstance(one, list) and not isinstance(one[0], str) else [one]
        return [it for one in found for it in flat(one)]

    def statement(self, depth):
        """A statement, or some that belong together; `depth` tells how deep blocks may still stand in it."""
        choices = [self.plain, self.plain]
        if depth:
            choices += [self.through_slice, self.guarded, self.guarded, self.guarded, self.guarded, self.refused, self.merge, self.loop,
                        self.loop, self.branch, self.alike, self.alike, self.alike, self.flow, self.flow]
            choices += [self.waiting, self.waiting] if self.mark == "?" else []
            choices += [self.jump] if self.loops and self.chance(.3) else []
        return self.one_of(*choices)(depth)

    def plain(self, depth=0):
        """A statement that nearly always has what it needs."""
        bits = self.one_of(8, 8, 32, 64, 16)
        found = [self.assigned(bits, self.some(bits)), self.assigned(bits, str(self.one_of(0, 1, self.high, self.length, self.few - 1))),
                 f"t = {self.flag()}", "l = this.a[..]", f"q = {self.one_of(*STATUSES)}", self.assigned(32, "M")]
        if self.mark:
            found += ["this.m = this.m", f"this.n = {self.some(32)}", f"this.p = {self.some(8)}", f"this.f = {self.flag()}",
                      f"this.a[0] = {self.some(8)}", f"this.p ~mod+= {self.number(8)}", f"this.d[{self.few - 1}] = this.m", f"this.m = {self.one_of(0, self.high)}",
                      f"this.n = {self.one_of(0, 1, self.length)}"]
            if self.owner == "s":
                found += ["this.o ~sat+= 1", "this.q = q", "l = this.b[..]"]
        return self.one_of(*found)

    def through_slice(self, depth):
        """Facts on an element of a slice, or of what it is a part of, and something that may change it."""
        element = self.one_of("l[0]", "l[0]", "this.a[0]")
        found = [f"c = {element}", "this.n = x"]
        if self.mark:
            found += [f"l[0] = {self.number(8)}", f"l[0] = {self.number(8)}", f"this.a[0] = {self.number(8)}", self.filled(), self.filled(),
                      f"v = l.copy_from_slice!(s: {self.one_of(*self.bases())})"]
        if self.may("?"):
            found += [self.waiting()] * 3
        use = self.one_of(f"c = this.a[{element}]", f"c = {element}", f"assert {element} <= {self.high}")
        inside = Block([self.one_of(*found) if self.mark else self.plain(), *flat(use)])
        known = [f"if {self.at_most(element, self.length - 1, 8)} {{", inside, "}"]
        return ["l = this.a[..]", [f"if l.length() > {self.one_of(0, 0, 1)} {{", Block([known]), "}"]]

    def between(self, about):
        """What comes between a condition and what needs it."""
        lines = flat(self.spoiler(about)) if self.chance(self.spoil) else []
        return lines + ([self.plain()] if self.chance(.1) else [])

    def guarded(self, depth):
        """A statement in a block that is entered under what it needs."""
        conditions, use, about = self.need()
        inside = Block(self.between(about) + flat(use) + (self.statements(1, depth - 1) if self.chance(.3) else []))
        if self.chance(.2) and conditions:
            other = Block(self.statements(1, 0))
            condition = conditions.pop()
            inside = Block([[f"if not ({condition}) {{", other, "} else {", inside, "}"]])
        if len(conditions) > 1 and self.chance(.5):
            conditions = [" and ".join(f"({condition})" for condition in conditions)]
        for condition in reversed(conditions):
            inside = Block([[f"if {condition} {{", inside, "}"]])
        return (["l = this.a[..]"] if about.startswith("l") and self.chance(.6) else []) + list(inside)

    def leaving(self):
        if self.loops and self.chance(.6):
            return self.jump(0)
        if self.mark == "?":
            return f"return {self.one_of(*STATUSES)}"
        return f"return {self.one_of(0, *self.results())}"

    def refused(self, depth):
        """A statement after blocks that leave where what it needs isn't so."""
        conditions, use, about = self.need()
        found = []
        for condition in conditions:
            negated = f"not ({condition})"
            found.append([f"if {negated} {{", Block([self.leaving()]), "}"])
        return found + self.between(about) + flat(use)

    def merge(self, depth):
        """A statement after arms each of which gives what it needs, or leaves."""
        conditions, use, about = self.need()
        local = dict(LOCALS).get(about)
        parts, arms = [], self.one_of(1, 2, 2)
        for number in range(arms):
            inside = Block([self.plain()] if self.chance(.3) else [])
            how = self.random.random()
            if how < .3:
                inside.append(self.leaving())
            elif local and how < .6:
                inside.append(f"{about} = {self.one_of(0, 1, self.high, self.length)}")
            condition = self.one_of(self.flag(), f"not ({conditions[0]})" if conditions and number else "t")
            parts += [f"{'} else ' if number else ''}if {condition} {{", inside]
        if self.chance(.7):
            parts += ["} else {", Block([f"{about} = {self.one_of(0, 1, self.high)}" if local and self.chance(.6) else self.plain()])]
        whole = [[*parts, "}"], *flat(use)]
        if self.chance(.6):
            for condition in reversed(conditions):
                whole = [[f"if {condition} {{", Block(whole), "}"]]
        return whole

    def branch(self, depth):
        parts = [f"if {self.flag()} {{", Block(self.statements(self.one_of(1, 2), depth - 1))]
        if self.chance(.3):
            parts += [f"}} else if {self.flag()} {{", Block(self.statements(1, depth - 1))]
        if self.chance(.5):
            parts += ["} else {", Block(self.statements(1, depth - 1))]
        return [[*parts, "}"]]

    def jump(self, depth):
        label = self.one_of(*self.loops)
        line = self.one_of("break", "continue") + (f".{label}" if label else "")
        return [[f"if {self.flag()} {{", Block([line]), "}"]] if depth else line

    def loop(self, depth):
        """A loop whose clauses just hold or just don't."""
        label = self.one_of("", "", "one", "two", "three")
        label = "" if label in self.loops else label
        self.loops.append(label)
        found = self.one_of(self.counting, self.counting, self.kept, self.restored)(depth, f".{label}" if label else "")
        self.loops.pop()
        return found

    def counting(self, depth, label):
        """Counts a variable up to an edge."""
        bits = self.one_of(8, 32, 64)
        x = self.one_of(*[path for path in self.paths(bits) if path in ("x", "y", "c", "v") or path in ("this.n", "this.p") and self.mark])
        edge, step = self.one_of(2, self.few, self.length, self.high), self.one_of(1, 1, 1, 2)
        most = edge + (step - 1) - (1 if self.slips() else 0) + self.one_of(0, 0, 1)
        clauses = [f"{self.one_of('inv', 'inv', 'inv', 'pre')} {self.at_most(x, most, bits)}"]
        if self.chance(.3):
            clauses.append(f"post {self.at_least(x, edge, bits)}")
        if self.chance(.1):
            clauses.append(f"{self.one_of('pre', 'inv', 'post')} {self.flag()}")
        condition = self.at_most(x, edge - 1, bits) if self.chance(.7) else f"{x} < {edge}"
        body = Block([self.assigned(8, f"this.a[{x}]")] if edge <= self.length and self.chance(.4) else [])
        body += self.statements(self.one_of(0, 1, 1), depth - 1)
        body += [] if self.chance(self.slip) else [f"{x} += {step}"]
        if self.chance(.4):
            leaving = [f"{x} = {self.one_of(0, edge, most + 1, most + 1)}"] if self.chance(.7) else []
            jump = Block([*leaving, self.one_of("break", "continue") + label])
            body.insert(self.random.randint(0, len(body)), [f"if {self.flag()} {{", jump, "}"])
        body += self.statements(1, depth - 1) if self.chance(.15) else []
        use = [self.one_of(self.assigned(bits, f"{x} - {edge}"), f"assert {x} == {edge}", f"assert {x} <= {most}")]
        use = use if self.chance(.5) else []
        start = [] if self.chance(.1) else [f"{x} = {self.one_of(0, 0, 0, 1, edge)}"]
        return start + [[f"while{label} {condition},", *[f"{clause}," for clause in clauses], "{", body, f"}} endwhile{label}"], *use]

    def restored(self, depth, label):
        """A loop whose body leaves what its clause says, and comes back to it at its end."""
        x, edge = self.one_of("x", "y"), self.one_of(2, self.few, self.length)
        jump = Block([self.one_of("continue", "continue", "break") + label])
        body = Block([f"{x} ~mod+= {edge + self.one_of(0, 1)}", [f"if {self.flag()} {{", jump, "}"], f"{x} = {self.one_of(0, edge)}"])
        clause = f"{self.one_of('inv', 'inv', 'pre')} {self.at_most(x, edge, 32)}"
        return [f"{x} = 0", [f"while{label} {x} < {edge},", f"{clause},", "{", body, f"}} endwhile{label}"]]

    def kept(self, depth, label):
        """A loop that keeps what a statement inside or after it needs."""
        conditions, use, about = self.need()
        conditions = [condition.join("()") if " or " in condition or " and " in condition else condition for condition in conditions]
        word = self.one_of("inv", "inv", "pre")
        clauses = [f"{word} {condition}" for condition in conditions]
        head = self.one_of("true", "true", self.flag())
        body = Block((flat(use) if self.chance(.6) else []) + self.between(about) + self.statements(self.one_of(0, 1), depth - 1))
        if head == "true" or self.chance(.3):
            jump = Block([self.one_of("break", "break", "continue") + label])
            body.insert(self.random.randint(0, len(body)), [f"if {self.flag()} {{", jump, "}"])
        if self.chance(.3):
            jump = self.one_of("continue", "continue", "break") + label
            body += [*self.between(about), [f"if {self.flag()} {{", Block([jump]), "}"]]
            body += [[f"if not ({condition}) {{", Block([self.leaving()]), "}"] for condition in conditions]
        if self.chance(.2):
            body.append(self.leaving())
        whole = [[f"while{label} {head},", *[f"{clause}," for clause in clauses], "{", body, f"}} endwhile{label}"]]
        whole += flat(use) if word == "inv" and self.chance(.5) else []
        for condition in reversed(conditions):
            whole = [[f"if {condition} {{", Block(whole), "}"]]
        return whole


def flat(statements):
    """Statements from one or from a list of them."""
    if isinstance(statements, str):
        return [statements]
    if statements and isinstance(statements[0], str) and any(isinstance(part, Block) for part in statements):
        return [statements]
    return [it for one in statements for it in flat(one)]


def nudged(text, random):
    """The text with one number or one comparison turned to its neighbour."""
    pieces = PIECES.split(text)
    if len(pieces) < 3:
        return text
    at = random.randrange(1, len(pieces), 2)
    turned = {"<": "<=", "<=": "<", ">": ">=", ">=": ">", "==": "<>", "<>": "==", "and": "or", "or": "and"}
    pieces[at] = turned.get(pieces[at]) or str(max(0, int(pieces[at]) + random.choice([-1, 1])))
    return "".join(pieces)


def random_bounds(random):
    """One package's text; from most of them what is refused was taken out."""
    package = BoundsWriter(random, random.choice([.03, .1, .2, .3]), random.choice([.1, .3, .5])).package()
    text = text_of(package if random.random() < .25 else repaired(package))
    return nudged(text, random) if random.random() < .6 else text
