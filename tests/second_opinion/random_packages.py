"""Random packages. Most of what is written keeps the rules; now and then something of another type or kind is written, or a
whole package is spoilt piece by piece, so that each rule is broken at many places and beside many others."""
import re

from .base_methods import methods_of
from .odd_packages import NUMBERS, TYPE_NAMES, odd_statements, odd_types
from .reading import ASSIGNED, ASSIGNMENTS, OPERATORS, WORDS

WIDTHS = {8: "base.u8", 16: "base.u16", 32: "base.u32", 64: "base.u64"}
WORDS_OF_KINDS = {"flag": "base.bool", "status": "base.status", "reader": "base.io_reader", "writer": "base.io_writer"}
ARITHMETIC = sorted(ASSIGNED)
HARMLESS = ["+", "&", "|", "^", "~mod+", "~sat+", "~sat-", ">>"]
SHIFTS = ("<<", ">>", "~mod<<")
COMPARISONS = ["==", "<>", "<", "<=", ">", ">="]
SUSPENSION = '"$wait"'
STATUSES = ["ok", '"#bad"', SUSPENSION, 'base."$short read"', 'base."@end of data"']
LESSER_MARKS = {"": [""], "!": ["", "!"], "?": ["", "!", "?"]}
AXIOMS = ["", "", ' via "a < b: b > a"()', ' via "a < b: a < c; c < b"(c: 1)']
PIECE = re.compile(r'"[^"\n]*"|\w+|~\w+[+\-*<]*=?|\.\.=|<<=?|>>=?|[=<>]=|<>|=\?|[-+*/%&|^]=|\.\.|\s+|.')


class WrittenMethod:
    """A method as its callers know it; arguments are pairs of name and kind, and `gives` is None where it gives nothing."""

    def __init__(self, owner, name, mark, public):
        self.owner, self.name, self.mark, self.public = owner, name, mark, public
        self.arguments, self.gives = [], None


class PackageWriter:
    """Writes one package. With the chance `wrong` a choice is made that breaks a rule, or may; of marks and of what they allow
    with the chance `unmarked`."""

    def __init__(self, random, wrong, unmarked):
        self.random, self.wrong, self.unmarked = random, wrong, unmarked
        self.constants, self.structs, self.fields, self.methods = [], [], {}, []
        self.method, self.paths = None, []

    def chance(self, of):
        return self.random.random() < of

    def is_wrong(self):
        return self.chance(self.wrong)

    def is_unmarked(self):
        return self.chance(self.unmarked)

    def one_of(self, *choices):
        return self.random.choice(choices)

    def times(self, *counts):
        return range(self.one_of(*counts))

    # Declarations

    def package(self):
        lines = ['pub status "#bad"', 'pri status "$wait"']
        for number in self.times(0, 1, 2, 4):
            bits = self.one_of(8, 8, 16, 32, 64)
            bound = "" if self.chance(.7) else f"[..= {self.literal(bits) if self.is_wrong() else 200}]"
            lines.append(f"pri const A{number} : {WIDTHS[bits]}{bound} = {self.constant(bits, 2)}")
            self.constants.append((f"A{number}", bits))
        for number in self.times(1, 2, 2, 3):
            lines.append(self.struct(f"s{number}"))
        methods = [self.whole_method(owner, number) for owner in self.structs for number in self.times(1, 2, 3)]
        self.random.shuffle(methods)
        return "\n".join(lines + methods) + "\n"

    def struct(self, name):
        fields = [(f"f{number}", *self.typed("field")) for number in self.times(1, 3, 5)]
        self.structs.append(name)
        self.fields[name] = [(field, kind) for field, kind, _ in fields]
        listed = ", ".join(f"{field} : {text}" for field, _, text in fields)
        return f"{self.one_of('pub', 'pri')} struct {name}{self.one_of('', '!', '?')}({listed})"

    def whole_method(self, owner, number):
        method = self.method = WrittenMethod(owner, f"m{number}", self.one_of("", "!", "?", "?"), self.chance(.7))
        arguments = [(f"a{number}", *self.typed("argument")) for number in self.times(0, 1, 2, 4)]
        method.arguments = [(name, kind) for name, kind, _ in arguments]
        result = ""
        if method.mark != "?" and self.chance(.5) or self.is_wrong():
            method.gives, text = self.typed("result")
            result = f" {text}"
        variables = [(f"v{number}", *self.typed("local")) for number in self.times(1, 3, 5)]
        self.paths = [(f"this.{name}", kind) for name, kind in self.fields[owner]]
        self.paths += [(f"args.{name}", kind) for name, kind in method.arguments]
        self.paths += [(name, kind) for name, kind, _ in variables]
        lines = [f"var {name} : {text}" for name, _, text in variables] + self.statements((1, 2, 4), 2, [])
        if method.gives and not self.is_wrong():
            lines += self.end()
        self.methods.append(method)
        listed = ", ".join(f"{name}: {text}" for name, _, text in arguments)
        head = f"{'pub' if method.public else 'pri'} func {owner}.{method.name}{method.mark}({listed}){result} {{"
        return "\n".join([head, *lines, "}"])

    def typed(self, role):
        """A kind and its type as text, for a field, an argument, a local or a result."""
        role = self.one_of("field", "argument", "local", "result") if self.is_wrong() else role
        if self.chance(.5):
            return self.number_type(role)
        if self.chance(.3):
            return ("flag",), "base.bool"
        if role == "field":
            return self.field_type()
        if role == "result" or role == "local" and self.chance(.4):
            return ("status",), "base.status"
        if role == "argument" and self.chance(.7):
            kind = self.one_of("reader", "writer")
            return (kind,), WORDS_OF_KINDS[kind]
        bits = self.one_of(8, 8, 16)
        return ("slice", bits), f"slice {WIDTHS[bits]}"

    def number_type(self, role):
        bits = self.one_of(8, 8, 8, 16, 32, 64)
        if self.chance(.75):
            return ("number", bits), WIDTHS[bits]
        low = "1 " if role == "argument" and self.chance(.4) or self.is_wrong() else self.one_of("", "0 ")
        return ("number", bits), f"{WIDTHS[bits]}[{low}..= {self.constant(8, 1)}]"

    def field_type(self):
        if self.structs and self.chance(.4):
            struct = self.one_of(*self.structs)
            return ("struct", struct), struct
        if self.chance(.3):
            return ("status",), "base.status"
        (_, bits), text = self.number_type("field")
        length = self.constant(8, 1) if self.is_wrong() else self.one_of("4", "256", "(1 + 2)", "65536")
        return ("array", bits), f"array[{length}] {text}"

    # Expressions

    def literal(self, bits):
        if not self.chance(.02 + 3 * self.wrong):
            return self.one_of("0", "1", "2", "3", "5", "7")
        return self.one_of(str((1 << bits) - 1), hex(self.random.randrange(1 << min(bits, 16))), "0b101", "1_0", "256")

    def constant(self, bits, depth):
        """A constant expression of a width, or without one."""
        names = [name for name, of in self.constants if of == bits]
        if depth == 0 or self.chance(.5):
            return self.one_of(*names) if names and self.chance(.4) else self.literal(bits)
        if self.chance(.1):
            return f"({self.constant(self.one_of(*WIDTHS), depth - 1)} as {WIDTHS[bits]})"
        op = self.one_of(*(ARITHMETIC if self.chance(.02 + 4 * self.wrong) else HARMLESS))
        right = self.literal(8) if op in SHIFTS else self.constant(bits, depth - 1)
        return f"({self.constant(bits, depth - 1)} {op} {right})"

    def path(self, *kinds):
        """A path of one of these kinds, None where there is none."""
        found = [path for path, kind in self.paths if kind in kinds]
        return self.one_of(*found) if found else None

    def any_path(self):
        return self.one_of(*self.paths)[0]

    def expression(self, kind, depth=2):
        if self.is_wrong():
            kind = self.one_of(("number", 8), ("number", 16), ("flag",), ("status",), ("slice", 8))
        if kind[0] == "number":
            return self.number(kind[1], depth)
        if kind[0] == "flag":
            return self.flag(depth)
        if kind[0] == "status":
            return self.path(kind) if self.path(kind) and self.chance(.3) else self.one_of(*STATUSES)
        if kind[0] == "slice":
            return self.slice(kind[1], depth)
        return self.path(kind) or self.any_path()

    def number(self, bits, depth):
        path, byte = self.path(("number", bits)), ("number", self.one_of(8, 16))
        if depth == 0 or self.chance(.4):
            return path if path and self.chance(.7) else self.constant(bits, 1)
        if self.chance(.5):
            op = self.one_of(*ARITHMETIC)
            if op in SHIFTS:
                return f"({path or f'(1 as {WIDTHS[bits]})'} {op} {self.expression(byte, depth - 1)})"
            others = [self.number(bits, depth - 1) for _ in (self.times(1, 1, 2) if op in "+*&|^" else range(1))]
            return f"({f' {op} '.join([path or self.number(bits, depth - 1), *others])})"
        if self.chance(.3):
            return f"({self.expression(('number', self.one_of(8, 16, 32)), depth - 1)} as {WIDTHS[bits]})"
        elements = self.path(("array", bits), ("slice", bits))
        if elements and self.chance(.5):
            return f"{elements}[{self.expression(byte, depth - 1)}]"
        return self.asked(("number", bits)) or path or self.literal(bits)

    def asked(self, gives):
        """A call of a base method without a mark that gives this, None where there is none."""
        calls = [f"{path}.{name}()" for path, kind in self.paths for name, method in methods_of(kind).items()
                 if method.mark == "" and method.gives == gives]
        return self.one_of(*calls) if calls else None

    def flag(self, depth):
        if depth == 0 or self.chance(.2):
            return self.path(("flag",)) or self.one_of("true", "false")
        choice = self.random.random()
        if choice < .5:
            kind = ("number", self.one_of(8, 8, 16, 32, 64))
            return f"({self.expression(kind, depth - 1)} {self.one_of(*COMPARISONS)} {self.expression(kind, depth - 1)})"
        if choice < .6:
            return f"({self.expression(('status',))} {self.one_of('==', '<>')} {self.expression(('status',))})"
        if choice < .7:
            return f"(not {self.expression(('flag',), depth - 1)})"
        if choice < .8:
            return self.asked(("flag",)) or "true"
        return "(" + self.one_of(" and ", " or ").join(self.expression(("flag",), depth - 1) for _ in self.times(2, 3)) + ")"

    def slice(self, bits, depth):
        base = self.path(("array", bits), ("slice", bits))
        if base is None:
            return self.any_path()
        ends = [self.one_of("", str(end), self.number(8, max(depth - 1, 0))) for end in (1, 2)]
        return f"{base}[{ends[0]} .. {ends[1]}]" if self.chance(.6) else self.path(("slice", bits)) or f"{base}[..]"

    # Statements

    def statements(self, counts, depth, loops):
        return [line for _ in self.times(*counts) for line in self.statement(depth, loops)]

    def statement(self, depth, loops):
        """The lines of a statement; `loops` has the labels of the loops round it, None where one has none."""
        choices = [self.assign, self.assign, self.assign_element, self.call, self.call, self.base_call, self.assertion, self.give_way]
        if depth:
            choices += [lambda: self.branch(depth, loops), lambda: self.loop(depth, loops)]
        if loops or self.is_wrong():
            choices.append(lambda: self.jump(loops))
        if self.chance(.05):
            choices = [self.end]
        return self.one_of(*choices)() or [f"assert {self.flag(1)}"]

    def target(self, *kinds):
        """A path that may be written to here, None where there is none."""
        roots = ("args.", "this.") if self.method.mark == "" and not self.is_unmarked() else ("args.",)
        found = [path for path, kind in self.paths if (not kinds or kind in kinds) and kind[0] in ("number", "flag", "status", "slice")
                 and not path.startswith(roots)]
        if self.is_wrong():
            return self.any_path()
        return self.one_of(*found) if found else None

    def assign(self):
        path = self.target()
        if path is None:
            return None
        kind = dict(self.paths)[path]
        if kind[0] != "number" or self.chance(.6):
            return [f"{path} = {self.expression(kind)}"]
        op = self.one_of(*ARITHMETIC)
        return [f"{path} {op}= {self.expression(('number', self.one_of(8, 16)) if op in SHIFTS else kind)}"]

    def assign_element(self):
        elements = [(path, kind) for path, kind in self.paths if kind[0] in ("array", "slice")]
        if not elements or self.method.mark == "" and not self.is_unmarked():
            return None
        path, kind = self.one_of(*elements)
        return [f"{path}[{self.number(8, 1)}] {self.one_of('=', '+=')} {self.expression(('number', kind[1]), 1)}"]

    def call(self):
        """A call of a method of the package: through a field, or of one that is already written, so that calls end."""
        own = [("this", it) for it in self.methods if it.owner == self.method.owner]
        through = [(path, it) for path, kind in self.paths for it in self.methods if kind == ("struct", it.owner)]
        marks = LESSER_MARKS["?" if self.is_unmarked() else self.method.mark]
        found = [(on, it) for on, it in own + through if it.mark in marks and (it.public or on == "this" or self.is_wrong())]
        if not found:
            return None
        on, callee = self.one_of(*found)
        mark = self.one_of("", "!", "?") if self.is_unmarked() else callee.mark
        return self.called(f"{on}.{callee.name}{mark}({self.given(callee.arguments)})", callee)

    def called(self, call, callee):
        if callee.mark == "?":
            status = self.target() if self.is_unmarked() else self.target(("status",))
            return [f"{status} =? {call}"] if status and self.chance(.5) else [call]
        into = self.target(callee.gives) if callee.gives else None
        if into:
            return [f"{into} = {call}"]
        return [call] if callee.mark == "!" else None

    def given(self, arguments):
        given = [f"{'other' if self.is_wrong() else name}: {self.expression(kind, 1)}" for name, kind in arguments if not self.is_wrong()]
        self.random.shuffle(given)
        return ", ".join(given)

    def base_call(self):
        marks = LESSER_MARKS["?" if self.is_unmarked() else self.method.mark]
        found = [(path, name, it) for path, kind in self.paths for name, it in methods_of(kind).items() if it.mark and it.mark in marks]
        if not found:
            return None
        path, name, callee = self.one_of(*found)
        call = f"{path}.{name}{callee.mark}({self.given(callee.arguments)})"
        into = self.target(callee.gives) if callee.gives else None
        if self.is_unmarked():
            return [f"{self.target() or self.any_path()} {self.one_of('=', '=?', '+=')} {call}"]
        return [f"{into} = {call}" if into and self.chance(.7) else call]

    def assertion(self):
        return [f"assert {self.flag(2)}{self.one_of(*AXIOMS)}"]

    def give_way(self):
        if self.method.mark != "?" and not self.is_unmarked():
            return None
        return [f"yield? {self.expression(('status',)) if self.is_unmarked() else SUSPENSION}"]

    def branch(self, depth, loops):
        lines = [f"if {self.flag(2)} {{", *self.statements((0, 1, 2), depth - 1, loops)]
        for _ in self.times(0, 0, 1):
            lines += [f"}} else if {self.flag(1)} {{", *self.statements((0, 1, 2), depth - 1, loops)]
        if self.chance(.4):
            lines += ["} else {", *self.statements((0, 1, 2), depth - 1, loops)]
        return lines + ["}"]

    def loop(self, depth, loops):
        label = self.one_of(None, None, "a", "b", "c")
        if label in loops and not self.is_wrong():
            label = None
        named = f".{label}" if label else ""
        clauses = "".join(f", {word} {self.flag(1)}" for word in self.random.sample(["pre", "inv", "post"], self.one_of(0, 0, 1, 2)))
        end = f"}} endwhile{named}" if label else self.one_of("}", "} endwhile")
        head = f"while{named} {self.one_of('true', self.flag(1))}{clauses} {{"
        return [head, *self.statements((0, 1, 2), depth - 1, [label] + loops), end]

    def jump(self, loops):
        labels = [label for label in loops if label] + (["d"] if self.is_wrong() else [])
        return [self.one_of("break", "continue") + (f".{self.one_of(*labels)}" if labels and self.chance(.6) else "")]

    def end(self):
        if self.is_wrong():
            return [f"return {self.number(8, 1)}"]
        if self.method.mark == "?":
            return [f"return {self.expression(('status',))}"]
        return [f"return {self.expression(self.method.gives)}"] if self.method.gives else [self.one_of("return", "return nothing")]


def like(piece, pieces, random):
    """Another piece of the same sort."""
    if piece[0] == '"':
        return random.choice([it for it in pieces if it[0] == '"'] + ['"#x"', '"$"', '"#a??"'])
    if piece[0].isdigit():
        return random.choice(NUMBERS)
    if piece in TYPE_NAMES:
        return random.choice(TYPE_NAMES)
    if piece in OPERATORS:
        return random.choice(ARITHMETIC + COMPARISONS + ["and", "or"])
    if piece in ASSIGNMENTS or piece == "=?":
        return random.choice(["=", "=?", "+=", "<<=", "~sat-="])
    if piece in ("!", "?"):
        return random.choice(["!", "?", ""])
    for words in (("this", "args"), ("true", "false", "ok"), ("break", "continue"), ("pub", "pri"), ("pre", "inv", "post")):
        if piece in words:
            return random.choice(words)
    if piece not in WORDS and piece[0].isalpha():
        return random.choice([it for it in pieces if it[0].isalpha() and it not in WORDS])
    return piece


def spoilt(text, random):
    """The text with a few pieces, or a line, changed."""
    for _ in range(random.choice([1, 1, 2, 3])):
        pieces = PIECE.findall(text)
        at = random.choice([at for at, piece in enumerate(pieces) if piece.strip()])
        how = random.random()
        if how < .7:
            pieces[at] = like(pieces[at], pieces, random)
        elif how < .8:
            pieces[at] = ""
        elif how < .9:
            pieces.insert(at, random.choice([it for it in pieces if it.strip()] + ["(", "]", "not ", "$", '"', "0x", "1a", "\n", "..="]))
        else:
            lines = text.split("\n")
            lines.insert(random.randrange(len(lines)), random.choice(lines))
            pieces = ["\n".join(lines)]
        text = "".join(pieces)
    return text


def random_files(random):
    """The texts of one package's files."""
    how = random.random()
    if how < .4:
        text = odd_statements(random)
    elif how < .5:
        text = odd_types(random)
    else:
        text = PackageWriter(random, random.choice([0, 0, .01, .02, .05]), random.choice([0, 0, .05, .3])).package()
    if random.random() < .2:
        text = spoilt(text, random)
    lines = text.splitlines(keepends=True)
    cut = random.randrange(len(lines)) if random.random() < .1 else 0
    return ["".join(lines[:cut]), "".join(lines[cut:])] if cut else [text]
