#!/usr/bin/env python3
"""A large package that keeps all rules of names and types, for measuring.

usage: large_package.py BYTES [SEED] >FILE    at most 1048576 bytes; the same seed gives the same bytes
Structs with numbers, arrays and earlier structs as fields; methods of all three marks with locals, sums, conditions,
loops, calls, reads and writes; statuses and constants. It is as random as to break the rules of bounds in its first methods: for
measuring what comes before them.
"""
import random
import sys

WIDTHS = (8, 16, 32, 64)
WORDS = ("count", "index", "value", "width", "height", "offset", "limit", "state", "flags", "length", "code", "depth",
         "bits", "level", "total", "first", "last", "input", "output", "window")


class Package:
    def __init__(self, seed):
        self.source = random.Random(seed)
        self.parts = []
        self.number = 0

    def pick(self, things):
        return self.source.choice(things)

    def name(self):
        self.number += 1
        return f"{self.pick(WORDS)}_{self.number}"

    def constants(self):
        for _ in range(4):
            width = self.pick(WIDTHS)
            name = self.name().upper()
            self.parts.append(f"pri const {name} : base.u{width} = {self.source.randrange(200)}\n")

    def status(self, kind):
        text = f"{kind}{self.pick(WORDS)} of {self.name()}"
        self.parts.append(f'pri status "{text}"\n')
        return text


def number(package, known, width):
    """An operand of this width: a number, or a local or field that has it."""
    names = [name for name, its in known if its == width]
    return package.pick(names) if names and package.source.randrange(4) else str(package.source.randrange(256))


def value(package, known, width):
    """A sum or the like of this width; one operand is no number, so that nothing is worked out."""
    names = [name for name, its in known if its == width]
    if not names:
        return str(package.source.randrange(256))
    left, right = package.pick(names), number(package, known, width)
    form = package.source.randrange(6)
    if form == 0:
        return left
    if form == 1:
        return f"{left} ~mod+ {right}"
    if form == 2:
        return f"{left} + {right} + {number(package, known, width)}"
    if form == 3:
        return f"({left} & {right}) | {number(package, known, width)}"
    other = package.pick(WIDTHS)
    if form == 4:
        return f"({number(package, known, other)}) as base.u{width}"
    return f"{left} ~sat- ({right} ^ {number(package, known, width)})"


def condition(package, known):
    width = package.pick(WIDTHS)
    names = [name for name, its in known if its == width]
    if not names:
        return "true"
    test = f"{package.pick(names)} {package.pick(('<', '<=', '==', '<>', '>'))} {number(package, known, width)}"
    return f"({test}) and ({condition(package, known)})" if package.source.randrange(3) == 0 else test


def statements(package, method, indent, count):
    lines = []
    for _ in range(count):
        lines += statement(package, method, indent)
    return lines


def statement(package, method, indent):
    blanks = "    " * indent
    source = package.source
    form = source.randrange(14 if indent < 4 else 8)
    target, width = package.pick(method["targets"])
    if form < 4:
        return [f"{blanks}{target} = {value(package, method['known'], width)}"]
    if form < 6:
        operator = package.pick(("+=", "-=", "~mod+=", "|=", "&=", "^="))
        return [f"{blanks}{target} {operator} {number(package, method['known'], width)}"]
    if form == 6 and method["arrays"]:
        array, its = package.pick(method["arrays"])
        return [f"{blanks}this.{array}[{number(package, method['known'], 32)} & 15] = {value(package, method['known'], its)}"]
    if form == 7:
        return call(package, method, blanks)
    if form < 11:
        lines = [f"{blanks}if {condition(package, method['known'])} {{"]
        lines += statements(package, method, indent + 1, 1 + source.randrange(3))
        if source.randrange(2):
            lines += [f"{blanks}}} else {{"] + statements(package, method, indent + 1, 1 + source.randrange(2))
        return lines + [f"{blanks}}}"]
    if form < 13:
        head = f"{blanks}while {condition(package, method['known'])},"
        if source.randrange(2):
            head = f"{head}\n{blanks}    inv {condition(package, method['known'])},"
        lines = [head, f"{blanks}{{"] + statements(package, method, indent + 1, 1 + source.randrange(3))
        return lines + [f"{blanks}}}"]
    return [f"{blanks}assert {condition(package, method['known'])}"]


def call(package, method, blanks):
    """A call of an earlier method of the struct, or of a base method."""
    if method["mark"] == "?" and package.source.randrange(2):
        byte = [name for name, its in method["targets"] if its == 8]
        if byte:
            return [f"{blanks}{package.pick(byte)} = args.source.read_u8?()"]
        return [f"{blanks}args.target.write_u8?(a: {package.source.randrange(256)})"]
    allowed = [(name, mark, args) for name, mark, args in method["earlier"] if mark == "!"]
    if method["mark"] and allowed:
        name, mark, args = package.pick(allowed)
        given = ", ".join(f"{arg}: {number(package, method['known'], width)}" for arg, width in args)
        return [f"{blanks}this.{name}{mark}({given})"]
    target, width = package.pick(method["targets"])
    return [f"{blanks}{target} = {value(package, method['known'], width)}"]


def add_method(package, struct, fields, arrays, earlier):
    source = package.source
    mark = package.pick(("!", "!", "?"))
    name = package.name()
    args = [(package.name(), package.pick(WIDTHS)) for _ in range(1 + source.randrange(3))]
    heads = [f"{arg}: base.u{width}" for arg, width in args]
    if mark == "?":
        heads += ["source: base.io_reader", "target: base.io_writer"]
    variables = [(package.name(), package.pick(WIDTHS)) for _ in range(2 + source.randrange(4))]
    known = [(f"this.{field}", width) for field, width in fields] + [(f"args.{arg}", width) for arg, width in args] + variables
    method = {"mark": mark, "known": known, "arrays": arrays, "earlier": earlier,
              "targets": variables + [(f"this.{field}", width) for field, width in fields]}
    lines = [f"pub func {struct}.{name}{mark}({', '.join(heads)}) {{"]
    lines += [f"    var {variable} : base.u{width}" for variable, width in variables] + [""]
    lines += statements(package, method, 1, 4 + source.randrange(10))
    if mark == "?":
        text = package.status("#")
        lines += [f"    if {condition(package, known)} {{", f'        return "{text}"', "    }", "    return ok"]
    package.parts.append("\n".join(lines + ["}", ""]) + "\n")
    earlier.append((name, mark, args))


def add_struct(package, structs):
    source = package.source
    name = package.name()
    fields = [(package.name(), package.pick(WIDTHS)) for _ in range(3 + source.randrange(6))]
    arrays = [(package.name(), package.pick(WIDTHS)) for _ in range(source.randrange(3))]
    lines = [f"    {field} : base.u{width}," for field, width in fields]
    lines += [f"    {array} : array[16] base.u{width}," for array, width in arrays]
    if structs and source.randrange(3) == 0:
        lines += [f"    {package.name()} : {package.pick(structs)},"]
    package.constants()
    package.parts.append("\n".join([f"pub struct {name}?("] + lines + [")", ""]) + "\n")
    structs.append(name)
    earlier = []
    for _ in range(2 + source.randrange(5)):
        add_method(package, name, fields, arrays, earlier)


def text_of(size, seed):
    package, structs, kept, length = Package(seed), [], [], 0
    while True:
        package.parts = []
        add_struct(package, structs[-8:] if structs else structs)
        text = "".join(package.parts)
        names = [line[11:line.index("?")] for line in text.split("\n") if line.startswith("pub struct ")]
        if length + len(text) > size:
            return "".join(kept)
        kept.append(text)
        length += len(text)
        structs += names


def main():
    words = sys.argv[1:]
    size, seed = int(words[0]), int(words[1]) if len(words) > 1 else 1
    sys.stdout.write(text_of(size, seed))


if __name__ == "__main__":
    main()
