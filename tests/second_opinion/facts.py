"""Lists of facts: which range an expression has under one, what it gives, and what a value needs.

A form is a tuple that tells when two expressions are the same: constant expressions are their numbers, and a shift has its width.
A fact is ("compared", form, sign, form) or ("stands", form, answer)."""
from .base_methods import BITS
from .ranges import applied, fits, met, range_of, whole
from .trees import (Call, Convert, Fine, Index, Not, Number, Operator, Path, Slice, StatusText, Truth)
from .values import SHIFTS, Values, constant_value, names_a_variable

COMPLEMENT = {"<": ">=", "<=": ">", "==": "<>", "<>": "==", ">=": "<", ">": "<="}
TURNED = {"<": ">", "<=": ">=", "==": "==", "<>": "<>", ">=": "<=", ">": "<"}
# Of the outcomes less, equal and greater, those that a comparison allows.
ALLOWS = {"<": {-1}, "<=": {-1, 0}, "==": {0}, "<>": {-1, 1}, ">=": {0, 1}, ">": {1}}
MOST_FACTS = 512
PEEKED = {"peek_u8": 1, "peek_u16le": 2, "peek_u32le": 4}


class Unmet(Exception):
    """A rule of bounds is broken at a place."""

    def __init__(self, rule, place):
        super().__init__(rule, place)
        self.rule, self.place = rule, place


class Package:
    """What is known of expressions apart from facts: types, constants and forms, each found once. `trees` has for each form the
    first expression that has it."""

    def __init__(self):
        self.values, self.known, self.trees = Values(), {}, {}

    def once(self, ask, it):
        if (ask.__name__, it) not in self.known:
            self.known[ask.__name__, it] = ask(it)
        return self.known[ask.__name__, it]

    def value(self, it):
        return self.once(self.find_value, it)

    def find_value(self, it):
        return self.values.quietly(self.values.value, it)

    def constant(self, it):
        return self.once(self.find_constant, it)

    def find_constant(self, it):
        if names_a_variable(it):
            return None
        value = self.value(it)
        return value.constant if value and value.is_number() else None

    def bits(self, it):
        """The width of a number; a constant without one has 64 bits."""
        return self.value(it).kind[1] or 64

    def is_number(self, it):
        return self.value(it).is_number()

    def form(self, it):
        return self.once(self.find_form, it)

    def find_form(self, it):
        form = self.make_form(it)
        self.trees.setdefault(form, it)
        return form

    def make_form(self, it):
        constant = self.constant(it)
        if constant is not None:
            return "number", constant
        if isinstance(it, Path):
            return "variable", it.root, it.stands_for, self.value(it).kind[0] == "slice"
        if isinstance(it, Index):
            return "element", self.form(it.base), self.form(it.index)
        if isinstance(it, Slice):
            return "slice", self.form(it.base), *(end and self.form(end) for end in (it.low, it.high))
        if isinstance(it, Operator):
            bits = self.bits(it) if it.op in SHIFTS else None
            return "operator", it.op, bits, *(self.form(operand) for operand in it.operands)
        if isinstance(it, Convert):
            return "converted", BITS[it.type.name], self.form(it.operand)
        if isinstance(it, Not):
            return "not", self.form(it.operand)
        if isinstance(it, Call):
            return "called", it.name, self.form(it.receiver)
        if isinstance(it, Truth):
            return "truth", it.value
        return ("status",) if isinstance(it, Fine) else ("status", it.of_language, it.text)

    def length(self, base):
        """The form of the length of a slice, an array, a reader or a writer."""
        return "called", "length", self.form(base)

    def type_range(self, it):
        """The range of a number by its type alone."""
        of = self.value(it).type if isinstance(it, Path) else self.value(it.base).type if isinstance(it, Index) else None
        if of is not None and of.kind[0] in ("number", "array"):
            return of.low, of.high
        return whole(self.bits(it))

    def length_range(self, base):
        if self.value(base).kind[0] == "array":
            number = constant_value(base.stands_for.type.length)
            return number, number
        return whole(64)


def forms_in(form):
    yield form
    for part in form:
        if isinstance(part, tuple):
            yield from forms_in(part)


def mentions(fact, thing):
    """Whether a fact mentions a variable's declaration, or one of "this", "args", "element" and "slices"."""
    for form in (form for part in fact if isinstance(part, tuple) for form in forms_in(part)):
        if form[0] == "element" and thing == "element":
            return True
        if form[0] == "variable":
            _, root, declaration, is_slice = form
            if thing is declaration or thing == root != "" or thing == "slices" and root == "" and is_slice:
                return True
    return False


class Facts:
    """A list of facts, and what it says of expressions of a package."""

    def __init__(self, package, facts=()):
        self.package, self.list = package, list(facts)

    def copy(self):
        return Facts(self.package, self.list)

    # What comes into the list, and what leaves it

    def add(self, fact, place):
        if fact in self.list:
            return
        if len(self.list) == MOST_FACTS:
            raise Unmet("L8", place)
        self.list.append(fact)

    def add_condition(self, condition, answer, place):
        """Adds the facts of a condition with an answer; the place is that of the statement."""
        for fact in self.facts_of(condition, answer):
            self.add(fact, place)
        return self

    def compared(self, left, sign, right):
        if left[0] == "number":
            left, sign, right = right, TURNED[sign], left
        return "compared", left, sign, right

    def facts_of(self, it, answer):
        form = self.package.form
        if isinstance(it, Truth) and it.value == answer:
            return []
        if isinstance(it, Not):
            return self.facts_of(it.operand, not answer)
        if isinstance(it, Operator):
            if it.op == ("and" if answer else "or"):
                return [fact for operand in it.operands for fact in self.facts_of(operand, answer)]
            if self.is_comparison(it):
                sign = it.op if answer else COMPLEMENT[it.op]
                return [self.compared(form(it.operands[0]), sign, form(it.operands[1]))]
        return [("stands", form(it), answer)]

    def is_comparison(self, it):
        return it.op in COMPLEMENT and self.package.is_number(it.operands[0])

    def drop(self, *things):
        self.list = [fact for fact in self.list if not any(mentions(fact, thing) for thing in things)]

    def renew(self, thing, of_form, renewed):
        """Facts that mention a thing go, but for those that compare a form with a number, for which `renewed` finds another."""
        kept = []
        for fact in self.list:
            if not mentions(fact, thing):
                kept.append(fact)
            elif fact[0] == "compared" and fact[1] == of_form and fact[3][0] == "number":
                number = renewed(fact[2], fact[3][1])
                if number is not None and 0 <= number < 1 << 64:
                    kept.append(("compared", of_form, fact[2], ("number", number)))
        self.list = kept

    # Ranges

    def met(self, form, held):
        """A range met with all facts that compare the form with a number, in order, and then with those that exclude one."""
        for excludes in (False, True):
            for fact in self.list:
                if fact[0] == "compared" and fact[1] == form and fact[3][0] == "number" and (fact[2] == "<>") == excludes:
                    held = self.met_with(held, fact[2], fact[3][1])
        return held

    def met_with(self, held, sign, number):
        if held is None:
            return None
        low, high = held
        if sign == "<>":
            return range_of(low + (low == number), high - (high == number and low != number))
        if sign in ("==", ">=", ">"):
            low = max(low, number + (sign == ">"))
        if sign in ("==", "<=", "<"):
            high = min(high, number - (sign == "<"))
        return range_of(low, high)

    def range(self, it):
        return self.met(self.package.form(it), self.rule_range(it))

    def rule_range(self, it):
        constant = self.package.constant(it)
        if constant is not None:
            return constant, constant
        if isinstance(it, Operator):
            return self.parts(it, len(it.operands))
        if isinstance(it, Convert):
            return self.range(it.operand)
        if isinstance(it, Call) and it.name == "length":
            return self.package.length_range(it.receiver)
        return self.package.type_range(it)

    def parts(self, it, count):
        """The range of the first operands of an operator, from the left, by their own ranges alone."""
        held = self.range(it.operands[0])
        for operand in it.operands[1:count]:
            ordered = it.op.endswith("-") and self.first_rule(self.package.form(operand), "<=", self.package.form(it.operands[0]))
            held = applied(it.op, self.package.bits(it), held, self.range(operand), ordered)
        return held

    def length_range(self, base):
        return self.met(self.package.length(base), self.package.length_range(base))

    # What is given

    def first_rule(self, left, sign, right):
        for fact in self.list:
            if fact[0] != "compared":
                continue
            _, known_left, known, known_right = fact
            if (known_left, known_right) == (left, right) and ALLOWS[known] <= ALLOWS[sign]:
                return True
            if (known_left, known_right) == (right, left) and ALLOWS[TURNED[known]] <= ALLOWS[sign]:
                return True
        return False

    def gives_sides(self, left, left_range, sign, right, right_range):
        return self.first_rule(left, sign, right) or decided(left_range, sign, right_range)

    def gives_comparison(self, left, sign, right):
        form = self.package.form
        return self.gives_sides(form(left), self.range(left), sign, form(right), self.range(right))

    def gives(self, it, answer):
        if isinstance(it, Not):
            return self.gives(it.operand, not answer)
        if isinstance(it, Truth) and it.value == answer:
            return True
        stands = ("stands", self.package.form(it), answer) in self.list
        if isinstance(it, Operator) and it.op in ("and", "or"):
            given = [self.gives(operand, answer) for operand in it.operands]
            return all(given) if it.op == ("and" if answer else "or") else any(given) or stands
        if isinstance(it, Operator) and self.is_comparison(it):
            sign = it.op if answer else COMPLEMENT[it.op]
            return self.gives_comparison(it.operands[0], sign, it.operands[1])
        return stands

    # What a value needs

    def check(self, it):
        """Refuses the first node of a value of which a demand isn't met, operands first."""
        if self.package.constant(it) is not None:
            return
        if isinstance(it, Operator):
            self.check_operator(it)
        elif isinstance(it, Convert):
            self.check(it.operand)
            self.demand(fits(self.range(it.operand), whole(BITS[it.type.name])), "B1", it.place)
        elif isinstance(it, Not):
            self.check(it.operand)
        elif isinstance(it, Index):
            self.check(it.index)
            length = self.package.length(it.base), self.length_range(it.base)
            self.demand(self.gives_sides(self.package.form(it.index), self.range(it.index), "<", *length), "B2", it.place)
        elif isinstance(it, Slice):
            self.check_slice(it)
        elif isinstance(it, Call) and it.name in PEEKED:
            self.demand_length(it.receiver, PEEKED[it.name], it.place)

    def demand(self, met_, rule, place):
        if not met_:
            raise Unmet(rule, place)

    def demand_length(self, io, number, place):
        given = self.gives_sides(self.package.length(io), self.length_range(io), ">=", ("number", number), (number, number))
        self.demand(given, "B9", place)

    def check_operator(self, it):
        self.check(it.operands[0])
        for count, (operand, sign) in enumerate(zip(it.operands[1:], it.signs), 2):
            self.check(operand)
            if self.package.is_number(it) is False:
                continue
            bits, right = self.package.bits(it), self.range(operand)
            if it.op in ("/", "%"):
                self.demand(right is None or 1 <= right[0], "B5", sign)
            if it.op in SHIFTS:
                self.demand(right is None or right[1] < bits, "B4", sign)
            found = self.range(it) if count == len(it.operands) else self.parts(it, count)
            self.demand(fits(found, whole(bits)), "B1", sign)

    def check_slice(self, it):
        for end in (it.low, it.high):
            if end is not None:
                self.check(end)
        if it.low is None and it.high is None:
            return
        form = self.package.form
        low = (form(it.low), self.range(it.low)) if it.low else (("number", 0), (0, 0))
        length = self.package.length(it.base), self.length_range(it.base)
        high = (form(it.high), self.range(it.high)) if it.high else length
        self.demand(self.gives_sides(*low, "<=", *high), "B3", it.place)
        if it.high:
            self.demand(self.gives_sides(*high, "<=", *length), "B3", it.place)


def decided(left, sign, right):
    """Whether two ranges decide a comparison for all their values."""
    if left is None or right is None:
        return True
    outcomes = set()
    if left[0] < right[1]:
        outcomes.add(-1)
    if max(left[0], right[0]) <= min(left[1], right[1]):
        outcomes.add(0)
    if right[0] < left[1]:
        outcomes.add(1)
    return outcomes <= ALLOWS[sign]
