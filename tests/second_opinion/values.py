"""What types and expressions mean, and what they break by the rules T1, T5, E1, E2 and E3."""
from dataclasses import dataclass

from .base_methods import BITS, BaseMethod
from .rules import Rule
from .trees import (ArrayType, Call, Constant, Convert, Fine, Index, Not, Number, Operator, Path, Slice, SliceType, StatusText,
                    StructType, Truth)

# Which kinds of type may stand in which role, and which roles want a type that holds 0.
ROLES = {
    "constant": {"number"},
    "field": {"number", "flag", "status", "array", "struct"},
    "local": {"number", "flag", "status", "slice"},
    "argument": {"number", "flag", "reader", "writer", "slice"},
    "result": {"number", "flag", "status"},
    "conversion": {"number"},
}
HOLDING_ZERO = {"field", "local", "result"}
WORDS_OF_TYPES = {"bool": ("flag",), "status": ("status",), "io_reader": ("reader",), "io_writer": ("writer",)}
SHIFTS = {"<<", ">>", "~mod<<"}
ORDERED = {"<", "<=", ">", ">="}
EQUALITY = {"==", "<>"}
NO_VALUES = {"reader", "writer", "array", "struct"}


@dataclass(frozen=True)
class Type:
    """What a written type means. `low` and `high` are the bounds of a number, or of the elements of an array; `refined` tells
    that the bounds were written."""
    kind: tuple
    low: int = 0
    high: int = 0
    refined: bool = False

    def is_whole(self):
        return self.low == 0 and self.high == most(self.kind[1])


@dataclass(frozen=True)
class Value:
    """What an expression means. The kind of a number without a width is ("number", None); `constant` is the number of a constant
    one; `type` is the declared type of what a path names."""
    kind: tuple
    constant: int = None
    type: Type = None

    def is_number(self):
        return self.kind[0] == "number"


def most(bits):
    """The largest number of a width; without a width there are 64 bits."""
    return (1 << (bits or 64)) - 1


def constant_value(expression):
    """The number of a constant expression that breaks no rule, else None. Names needn't stand for anything yet."""
    value = None if names_a_variable(expression) else Values().value(expression)
    return value.constant if value else None


def names_a_variable(expression):
    """Whether something in it isn't made of literals and constants."""
    if isinstance(expression, Path):
        return not isinstance(expression.stands_for, Constant)
    if isinstance(expression, Operator):
        return any(names_a_variable(it) for it in expression.operands)
    if isinstance(expression, (Not, Convert)):
        return names_a_variable(expression.operand)
    return isinstance(expression, (Index, Slice, Call))


class Values:
    """Judges expressions and types. `method` is the method that they stand in."""

    def __init__(self):
        self.violations, self.method = set(), None
        self.constants, self.types = {}, {}

    def breaks(self, rule, place):
        """Answers None: what breaks a rule means nothing."""
        self.violations.add((place, rule))

    def quietly(self, ask, *what):
        violations, self.violations = self.violations, set()
        answer = ask(*what)
        self.violations = violations
        return answer

    # Declared things

    def constant(self, declaration):
        if declaration not in self.constants:
            self.constants[declaration] = self.quietly(self.judge_constant, declaration)
        return self.constants[declaration]

    def judge_constant(self, declaration):
        of, value = self.type(declaration.type, "constant"), self.value(declaration.value)
        if value is None:
            return None
        if value.constant is None:
            return self.breaks(Rule.T1, declaration.value.place)
        if of is None:
            return None
        if not of.low <= value.constant <= of.high:
            return self.breaks(Rule.T5, declaration.value.place)
        return Value(of.kind, value.constant)

    def variable_type(self, variable, role):
        """The type of a field, an argument or a local, None where it breaks a rule."""
        if variable not in self.types:
            self.types[variable] = None
            self.types[variable] = self.quietly(self.type, variable.type, role)
        return self.types[variable]

    # Types

    def type(self, of, role):
        found, form = self.any_type(of), self.form(of)
        if form is not None and (form not in ROLES[role] or role == "conversion" and not self.is_plain(of)):
            return self.breaks(Rule.T1, of.place)
        if found is None:
            return None
        if role in HOLDING_ZERO and found.kind[0] == "number" and 0 < found.low:
            return self.breaks(Rule.T5, of.place)
        return found

    def any_type(self, of):
        if isinstance(of, StructType):
            return Type(("struct", of.name))
        if isinstance(of, SliceType):
            return self.slice_type(of)
        return self.array_type(of) if isinstance(of, ArrayType) else self.base_type(of)

    def form(self, of):
        """The kind of type that is written, whatever its bounds and its length break. Where it has none, what has none is refused
        by itself: a name that is no type, bounds of no number, or bounds that are no constant number."""
        if isinstance(of, StructType):
            return "struct"
        if isinstance(of, (SliceType, ArrayType)):
            return self.form(of.element) and ("slice" if isinstance(of, SliceType) else "array")
        if not of.bounds:
            return "number" if of.name in BITS else WORDS_OF_TYPES[of.name][0] if of.name in WORDS_OF_TYPES else None
        fit = of.name in BITS and not any(self.quietly(self.is_no_constant, it) for it in of.bounds if it is not None)
        return "number" if fit else None

    def is_plain(self, of):
        return not isinstance(of, (StructType, SliceType, ArrayType)) and of.name in BITS and not of.bounds

    def slice_type(self, of):
        element = self.any_type(of.element)
        if self.form(of.element) is not None and not self.is_plain(of.element):
            return self.breaks(Rule.T1, of.place)
        return element and Type(("slice", element.kind[1]))

    def array_type(self, of):
        length, element = self.type_constant(of, of.length), self.any_type(of.element)
        if length == 0:
            length = self.breaks(Rule.T5, of.length.place)
        if self.form(of.element) not in (None, "number"):
            return self.breaks(Rule.T1, of.place)
        if element is None:
            return None
        if 0 < element.low:
            return self.breaks(Rule.T5, of.element.place)
        return None if length is None else Type(("array", element.kind[1]), element.low, element.high)

    def type_constant(self, of, expression):
        """The number of a bound or a length of a type."""
        value = self.value(expression)
        if self.quietly(self.is_no_constant, expression):
            return self.breaks(Rule.T1, of.place)
        return value and value.constant

    def is_no_constant(self, expression):
        value = self.value(expression)
        return names_a_variable(expression) or value is not None and value.constant is None

    def base_type(self, of):
        bounds = of.bounds and [0 if it is None else self.type_constant(of, it) for it in of.bounds]
        if of.name in WORDS_OF_TYPES and not bounds:
            return Type(WORDS_OF_TYPES[of.name])
        if of.name not in BITS:
            return self.breaks(Rule.T1, of.place)
        bits = BITS[of.name]
        if not bounds:
            return Type(("number", bits), 0, most(bits))
        low, high = bounds
        if low is None or high is None:
            return None
        if high < low:
            return self.breaks(Rule.T5, of.bounds[0].place)
        if most(bits) < high:
            return self.breaks(Rule.T5, of.bounds[1].place)
        return Type(("number", bits), low, high, True)

    # Expressions

    def value(self, it):
        """What an expression means, None where something in it breaks a rule or isn't known."""
        if isinstance(it, Number):
            return Value(("number", None), it.value)
        if isinstance(it, Truth):
            return Value(("flag",))
        if isinstance(it, (StatusText, Fine)):
            return Value(("status",))
        if isinstance(it, Path):
            return self.path_value(it)
        if isinstance(it, Index):
            return self.index_value(it)
        if isinstance(it, Slice):
            return self.slice_value(it)
        if isinstance(it, Operator):
            return self.operator_value(it.op, it.place, [(operand.place, self.whole_value(operand)) for operand in it.operands])
        if isinstance(it, Convert):
            return self.converted(it)
        if isinstance(it, Not):
            value = self.whole_value(it.operand)
            return self.of_kind("flag", it.operand, value) if value else None
        return self.called_inside(it)

    def whole_value(self, it):
        """The same where a reader, a writer, a whole array or a struct can't stand."""
        value = self.value(it)
        return self.breaks(Rule.T1, it.place) if value and value.kind[0] in NO_VALUES else value

    def of_kind(self, kind, it, value):
        return value if value.kind[0] == kind else self.breaks(Rule.T1, it.place)

    def path_value(self, path):
        if path.stands_for is None:
            return None
        if isinstance(path.stands_for, Constant):
            return self.constant(path.stands_for)
        role = {"this": "field", "args": "argument", "": "local"}[path.root]
        of = self.variable_type(path.stands_for, role)
        return of and Value(of.kind, None, of)

    def index_value(self, it):
        base, index = self.path_value(it.base), self.whole_value(it.index)
        if base is None or index is None:
            return None
        if base.kind[0] not in ("array", "slice"):
            return self.breaks(Rule.T1, it.base.place)
        return self.of_kind("number", it.index, index) and Value(("number", base.kind[1]))

    def slice_value(self, it):
        base, ends = self.path_value(it.base), [(end, self.whole_value(end)) for end in (it.low, it.high) if end is not None]
        if base is None or any(value is None for _, value in ends):
            return None
        if base.kind[0] != "slice" and not (base.kind[0] == "array" and base.type.is_whole()):
            return self.breaks(Rule.T1, it.base.place)
        if not all(self.of_kind("number", end, value) for end, value in ends):
            return None
        return Value(("slice", base.kind[1]))

    def converted(self, it):
        value, to = self.whole_value(it.operand), self.type(it.type, "conversion")
        if value is None or not self.of_kind("number", it.operand, value) or to is None:
            return None
        if value.constant is not None and to.high < value.constant:
            return self.breaks(Rule.T5, it.place)
        return Value(to.kind, value.constant)

    # Operators, over pairs of an operand's place and value

    def operator_value(self, op, place, operands):
        if any(value is None for _, value in operands):
            return None
        if op in ("and", "or"):
            return Value(("flag",)) if self.all_of_kind("flag", operands) else None
        if op in EQUALITY and operands[0][1].kind == ("status",):
            return Value(("flag",)) if self.all_of_kind("status", operands) else None
        if op in SHIFTS:
            return self.shifted(op, place, operands) if self.all_of_kind("number", operands) else None
        bits = next((value.kind[1] for _, value in operands if value.is_number() and value.kind[1]), None)
        fit = self.constants_fit(bits, operands)
        if not self.all_of_kind("number", operands, one_width=True) or not fit:
            return None
        if op in ORDERED | EQUALITY:
            return Value(("flag",))
        return self.in_width(op, place, bits, [value.constant for _, value in operands])

    def constants_fit(self, bits, operands):
        """Whether each constant without a width fits this one; T5 at the first that doesn't."""
        for place, value in operands:
            if value.kind == ("number", None) and most(bits) < value.constant:
                self.breaks(Rule.T5, place)
                return False
        return True

    def all_of_kind(self, kind, operands, one_width=False):
        """Whether all are of the kind, numbers perhaps of one width; T1 at the first that isn't."""
        bits = None
        for place, value in operands:
            if value.kind[0] != kind or one_width and value.kind[1] and bits and value.kind[1] != bits:
                self.breaks(Rule.T1, place)
                return False
            bits = bits or (value.kind[1] if kind == "number" else None)
        return True

    def shifted(self, op, place, operands):
        (_, left), (right_place, right) = operands
        if left.kind[1] is None and right.constant is None:
            return self.breaks(Rule.T1, right_place)
        return self.in_width(op, place, left.kind[1], [left.constant, right.constant])

    def in_width(self, op, place, bits, numbers):
        """A number of this width; its value where all operands are constant, which has to lie in the width."""
        if None in numbers:
            return Value(("number", bits))
        result = computed(op, bits or 64, numbers)
        if result is None or not 0 <= result <= most(bits):
            return self.breaks(Rule.T5, place)
        return Value(("number", bits), result)

    # Calls

    def called_inside(self, call):
        """A call inside an expression: of a base method without a mark alone."""
        gives = self.judge_call(call)
        if call.mark or not isinstance(call.callee, BaseMethod):
            return self.breaks(Rule.E3, call.place)
        return gives if call.callee.mark == "" else None

    def judge_call(self, call):
        """What a call gives, None where that isn't known or where it gives nothing."""
        if call.callee is None:
            return None
        own_mark = self.method.mark if self.method else ""
        if call.mark != call.callee.mark:
            self.breaks(Rule.E3, call.place)
        if call.mark == "!" and own_mark == "":
            self.breaks(Rule.E1, call.place)
        if call.mark == "?" and own_mark != "?":
            self.breaks(Rule.E2, call.place)
        fits = all([self.argument_fits(call, name, value) for name, _, value in call.arguments])
        return self.given(call) if fits else None

    def argument_fits(self, call, name, expression):
        """Whether a value fits its argument: none fits an argument whose declared type breaks a rule."""
        value, wanted = self.value(expression), self.wanted(call, name)
        if value is None:
            return False
        if value.kind[0] in ("array", "struct"):
            self.breaks(Rule.T1, expression.place)
            return False
        if wanted is None:
            return False
        if value.kind != wanted and not (value.kind == ("number", None) and wanted[0] == "number"):
            self.breaks(Rule.T1, expression.place)
            return False
        return True

    def wanted(self, call, name):
        """The kind of the argument with this name, None where its type breaks a rule."""
        if isinstance(call.callee, BaseMethod):
            return dict(call.callee.arguments)[name]
        variable = next(it for it in call.callee.arguments if it.name == name)
        of = self.variable_type(variable, "argument")
        return of and of.kind

    def gives_nothing(self, call):
        """Whether it has no value: a coroutine of the package has none."""
        if isinstance(call.callee, BaseMethod):
            return call.callee.gives is None
        return call.callee.mark == "?" or call.callee.result is None

    def given(self, call):
        if self.gives_nothing(call):
            return None
        if isinstance(call.callee, BaseMethod):
            return Value(call.callee.gives)
        of = self.quietly(self.type, call.callee.result, "result")
        return of and Value(of.kind)


def computed(op, bits, numbers):
    """What an operator makes of whole numbers, None where it makes nothing of them."""
    first, *others = numbers
    for other in others:
        if op in SHIFTS and bits <= other or op in ("/", "%") and other == 0:
            return None
        first = {
            "+": lambda a, b: a + b, "-": lambda a, b: a - b, "*": lambda a, b: a * b,
            "/": lambda a, b: a // b, "%": lambda a, b: a % b,
            "&": lambda a, b: a & b, "|": lambda a, b: a | b, "^": lambda a, b: a ^ b,
            "<<": lambda a, b: a << b, ">>": lambda a, b: a >> b, "~mod<<": lambda a, b: (a << b) % (1 << bits),
            "~mod+": lambda a, b: (a + b) % (1 << bits), "~mod-": lambda a, b: (a - b) % (1 << bits),
            "~mod*": lambda a, b: a * b % (1 << bits),
            "~sat+": lambda a, b: min(a + b, most(bits)), "~sat-": lambda a, b: max(a - b, 0),
        }[op](first, other)
    return first
