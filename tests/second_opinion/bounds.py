"""The rules of bounds: B1 to B12 and L8, over declarations that keep all rules of names, types and effects; then L9."""
from .axioms import NoPremises, premises
from .base_methods import BaseMethod
from .facts import Facts, Package, Unmet
from .ranges import fits, whole
from .trees import (Assert, Assign, Call, CallStatement, If, Index, Jump, Keep, Method, Number, Operator, Path, Return, This,
                    Truth, While, Yield)
from .types import block_stops, leaves, stops

MOST_POINTS = 1024
CLAUSE_RULES = {"pre": "B10", "inv": "B11", "post": "B12"}


def judge_bounds(declarations, notice=lambda key, facts: None):
    """The first rule that isn't met, with its place, or None. `notice` is told of each list: by the statement before which
    it stands, by the block at whose end it stands, or by ("resumed", statement) after the drops of one that may suspend."""
    package = Package()
    methods = sorted((it for it in declarations if isinstance(it, Method)), key=lambda it: it.place)
    try:
        for method in methods:
            Bounds(package, method, notice).judge()
    except Unmet as unmet:
        return unmet.rule, unmet.place
    beyond = [points[MOST_POINTS] for points in map(points_of, methods) if MOST_POINTS < len(points)]
    return ("L9", min(beyond)) if beyond else None


def is_whole_call(it):
    return isinstance(it, Call) and (isinstance(it.callee, Method) or it.mark != "")


def points_of(method):
    """The places of the statements of a coroutine at which it may suspend."""
    return sorted(it.place for it in statements_in(method.body) if may_suspend(it))


def statements_in(block):
    for it in block.statements:
        yield it
        for inner in blocks_of(it):
            yield from statements_in(inner)


def blocks_of(it):
    if isinstance(it, If):
        return [block for _, block in it.arms] + ([it.otherwise] if it.otherwise else [])
    return [it.body] if isinstance(it, While) else []


def may_suspend(it):
    call = it.call if isinstance(it, CallStatement) else it.value if isinstance(it, Assign) else None
    return isinstance(it, Yield) or isinstance(call, Call) and call.mark == "?"


class Bounds:
    """Judges the body of one method. A list of facts goes along; None stands for what is never reached."""

    def __init__(self, package, method, notice):
        self.package, self.method, self.notice = package, method, notice

    def judge(self):
        facts = Facts(self.package)
        for local in self.method.locals:
            of = self.package.values.variable_type(local, "local")
            if of.kind[0] == "number":
                name = Path(local.place, "", local.name, local.place, local)
                facts.add(("compared", self.package.form(name), "==", ("number", 0)), self.method.place)
        self.block(self.method.body, facts)

    def block(self, block, facts):
        """The list at the block's end, None where it doesn't go on. What stands after a statement that never goes on isn't looked at."""
        for it in block.statements:
            self.notice(it, facts)
            facts = self.statement(it, facts)
            if facts is None:
                return None
        self.notice(block, facts)
        return facts

    def statement(self, it, facts):
        if isinstance(it, Assign):
            if is_whole_call(it.value):
                return self.call(it, it.value, it.target, False, facts)
            return self.update(it, facts) if it.op else self.assign(it, facts)
        if isinstance(it, Keep):
            return self.call(it, it.call, it.target, True, facts)
        if isinstance(it, CallStatement):
            return self.call(it, it.call, None, False, facts)
        if isinstance(it, If):
            return self.choose(it, facts)
        if isinstance(it, While):
            return self.loop(it, facts)
        if isinstance(it, Assert):
            return self.claim(it, facts)
        if isinstance(it, Yield):
            self.give_way(it, facts)
            return facts
        if isinstance(it, Jump):
            if it.word == "continue":
                self.require_clauses(it.loop, ("pre", "inv"), facts, it.place)
            else:
                self.require_clauses(it.loop, ("inv", "post"), facts, it.place)
        if isinstance(it, Return) and it.value is not None:
            facts.check(it.value)
            if self.method.mark != "?":
                of = self.package.values.quietly(self.package.values.type, self.method.result, "result")
                self.lies_in(it.value, of, "B1", facts)
        return None

    def give_way(self, it, facts):
        """What may change while a statement is suspended is forgotten."""
        facts.drop("this", "args", "element", "slices")
        self.notice(("resumed", it), facts)

    def lies_in(self, value, of, rule, facts):
        """A number has to lie in the type that takes it."""
        if of.kind[0] in ("number", "array"):
            facts.demand(fits(facts.range(value), (of.low, of.high)), rule, value.place)

    # Assignments

    def target_type(self, target):
        if isinstance(target, Index):
            base = self.package.value(target.base).type
            return base if base.kind[0] == "array" else type(base)(("number", base.kind[1]), *whole(base.kind[1]))
        return self.package.value(target).type

    def drop_target(self, target, facts):
        facts.drop("element" if isinstance(target, Index) else target.stands_for)

    def assign(self, it, facts):
        facts.check(it.value)
        facts.check(it.target)
        of = self.target_type(it.target)
        self.lies_in(it.value, of, "B1", facts)
        self.drop_target(it.target, facts)
        if of.kind[0] == "number" and isinstance(it.target, Path):
            fact = facts.compared(self.package.form(it.target), "==", self.package.form(it.value))
            if not mentions_variable(fact[3], it.target.stands_for):
                facts.add(fact, it.place)
        return facts

    def update(self, it, facts):
        node = Operator(it.sign, it.op, [it.target, it.value], [it.sign])
        facts.check(node)
        facts.check(it.target)
        self.lies_in(node, self.target_type(it.target), "B1", facts)
        number = self.package.constant(it.value)
        if it.op in ("+", "-") and number is not None and isinstance(it.target, Path):
            step = number if it.op == "+" else -number
            facts.renew(it.target.stands_for, self.package.form(it.target), lambda sign, old: old + step)
        else:
            self.drop_target(it.target, facts)
        return facts

    # Branches and loops

    def choose(self, it, facts):
        failed, fronts = facts.copy(), []
        for condition, _ in it.arms:
            failed.check(condition)
            before = failed.copy()
            failed.add_condition(condition, False, it.place)
            fronts.append((before, condition))
        fronts = [before.add_condition(condition, True, it.place) for before, condition in fronts]
        ends = [self.block(block, front) for (_, block), front in zip(it.arms, fronts)]
        ends.append(failed if it.otherwise is None else self.block(it.otherwise, failed))
        ends = [end for end in ends if end is not None]
        return self.common(ends) if ends else None

    def common(self, ends):
        return Facts(self.package, [fact for fact in ends[0].list if all(fact in end.list for end in ends[1:])])

    def require(self, condition, rule, facts, place):
        facts.check(condition)
        facts.demand(facts.gives(condition, True), rule, place)

    def require_clauses(self, loop, words, facts, place):
        for word, condition in loop.clauses:
            if word in words:
                self.require(condition, CLAUSE_RULES[word], facts, place)

    def clause_facts(self, loop, words):
        facts = Facts(self.package)
        for word, condition in loop.clauses:
            if word in words:
                facts.add_condition(condition, True, loop.place)
        return facts

    def loop(self, it, facts):
        self.require_clauses(it, ("pre", "inv"), facts, it.place)
        head = self.clause_facts(it, ("pre", "inv"))
        head.check(it.condition)
        if not (isinstance(it.condition, Truth) and it.condition.value):
            self.require_clauses(it, ("inv", "post"), head.copy().add_condition(it.condition, False, it.place), it.place)
        end = self.block(it.body, head.copy().add_condition(it.condition, True, it.place))
        if end is not None:
            self.require_clauses(it, ("pre", "inv"), end, it.body.close)
        if stops(it):
            return None
        after = self.clause_facts(it, ("inv", "post"))
        return after if leaves(it.body, it) else after.add_condition(it.condition, False, it.place)

    # Assertions

    def claim(self, it, facts):
        if it.axiom is None:
            self.require(it.condition, "B6", facts, it.place)
        else:
            facts.check(it.condition)
            for _, given in it.given:
                facts.check(given)
            self.ask_premises(it, facts)
        return facts.add_condition(it.condition, True, it.place)

    def ask_premises(self, it, facts):
        goal = it.condition if isinstance(it.condition, Operator) and facts.is_comparison(it.condition) else None
        try:
            asked = premises(it.axiom, goal, it.given, self.package.form)
        except NoPremises:
            raise Unmet("B6", it.axiom_place) from None
        file, line, column = it.axiom_place
        for left, sign, right, offset in asked:
            given = facts.gives_sides(*self.side(left, facts), sign, *self.side(right, facts))
            facts.demand(given, "B7", (file, line, column + 1 + offset))

    def side(self, parts, facts):
        """The form and the range of a side: of nothing 0, of one expression its own, of two those of their sum as a whole number."""
        if not parts:
            return ("number", 0), (0, 0)
        forms, ranges = [self.package.form(it) for it in parts], [facts.range(it) for it in parts]
        if len(parts) == 1:
            return forms[0], ranges[0]
        total = None if None in ranges else (ranges[0][0] + ranges[1][0], ranges[0][1] + ranges[1][1])
        if all(form[0] == "number" for form in forms):
            return ("number", forms[0][1] + forms[1][1]), total
        return ("operator", "+", None, *forms), total

    # Calls

    def call(self, it, call, target, keeps, facts):
        if isinstance(call.callee, BaseMethod):
            gives = self.base_call(it, call, facts)
        else:
            gives = self.own_call(it, call, keeps, facts)
        if target is None:
            return facts
        facts.check(target)
        of = self.target_type(target)
        if of.kind[0] in ("number", "array") and not keeps:
            facts.demand(fits(gives, (of.low, of.high)), "B1", call.place)
        self.drop_target(target, facts)
        return facts

    def arguments(self, call, wanted, facts):
        for name, _, value in call.arguments:
            facts.check(value)
            of = wanted(name)
            if of is not None:
                facts.demand(fits(facts.range(value), of), "B8", value.place)

    def own_call(self, it, call, keeps, facts):
        """A call of a method of the package, of the receiver or of a field: the range of its result."""
        suspends = call.mark == "?" and not keeps
        if suspends:
            self.give_way(it, facts)
        types = {it.name: self.package.values.variable_type(it, "argument") for it in call.callee.arguments}
        self.arguments(call, lambda name: (types[name].low, types[name].high) if types[name].kind[0] == "number" else None, facts)
        if call.mark and not suspends:
            passed = [value.stands_for for name, _, value in call.arguments if types[name].kind[0] in ("reader", "writer")]
            facts.drop("this", "element", *passed)
        result = call.callee.result
        if result is None:
            return None
        of = self.package.values.quietly(self.package.values.type, result, "result")
        return of.low, of.high

    def base_call(self, it, call, facts):
        bits = dict(call.callee.arguments)
        self.arguments(call, lambda name: whole(bits[name][1]) if bits[name][0] == "number" else None, facts)
        if call.mark == "?":
            self.give_way(it, facts)
        elif call.name == "copy_from_slice":
            kind = self.package.value(call.receiver).kind
            facts.drop("element" if kind[0] == "slice" else call.receiver.stands_for)
        else:
            self.fast_call(call, facts)
        gives = call.callee.gives
        return whole(gives[1]) if gives and gives[0] == "number" else None

    def fast_call(self, call, facts):
        """Skips or writes without asking: its premises, and what is left of the length."""
        values = {name: value for name, _, value in call.arguments}
        step, needed = 1, (("number", 1), (1, 1))
        if call.name == "skip_u32_fast":
            actual, worst = values["actual"], values["worst_case"]
            facts.demand(facts.gives_comparison(actual, "<=", worst), "B9", call.place)
            step, needed = self.package.constant(worst), (self.package.form(worst), facts.range(worst))
        length = self.package.length(call.receiver)
        facts.demand(facts.gives_sides(length, facts.length_range(call.receiver), ">=", *needed), "B9", call.place)
        facts.renew(call.receiver.stands_for, length,
                    lambda sign, old: old - step if sign in (">=", ">") and step is not None and step <= old else None)


def mentions_variable(form, declaration):
    return form[0] == "variable" and form[2] is declaration or any(
        mentions_variable(part, declaration) for part in form if isinstance(part, tuple))
