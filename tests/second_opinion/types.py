"""The rules of types and effects: T1 to T5 and E1 to E5, over declarations whose names are resolved."""
from .rules import Rule
from .trees import (Assert, Assign, Call, CallStatement, Constant, If, Index, Jump, Keep, Method, Return, Status, StatusText,
                    Struct, Truth, While, Yield)
from .values import Type, Values


def judge_types(declarations):
    """All that the declarations break of the rules of types and effects, as pairs of a place and a rule."""
    types = Types()
    for it in declarations:
        if isinstance(it, Constant):
            types.constants[it] = types.judge_constant(it)
    for it in declarations:
        if isinstance(it, Status):
            types.judge_status(it)
        if isinstance(it, Struct):
            types.judge_variables(it.fields, "field")
        if isinstance(it, Method):
            types.judge_method(it)
    return types.violations


def stops(it):
    """Whether a statement never goes on."""
    if isinstance(it, If):
        return it.otherwise is not None and all(block_stops(block) for block in [block for _, block in it.arms] + [it.otherwise])
    if isinstance(it, While):
        return isinstance(it.condition, Truth) and it.condition.value and not leaves(it.body, it)
    return isinstance(it, (Return, Jump))


def block_stops(block):
    return any(stops(it) for it in block.statements)


def leaves(block, loop):
    """Whether a `break` in the block leaves the loop."""
    for it in block.statements:
        if isinstance(it, Jump) and it.word == "break" and it.loop is loop:
            return True
        inner = []
        if isinstance(it, If):
            inner = [block for _, block in it.arms] + ([it.otherwise] if it.otherwise else [])
        if isinstance(it, While):
            inner = [it.body]
        if any(leaves(block, loop) for block in inner):
            return True
    return False


class Types(Values):
    """Judges declarations and statements, over the judgements of types and expressions."""

    def judge_status(self, status):
        if status.text[:1] not in ("#", "$", "@") or len(status.text) < 2 or "??" in status.text:
            self.breaks(Rule.T5, status.place)

    def judge_variables(self, variables, role):
        for it in variables:
            self.type(it.type, role)

    def judge_method(self, method):
        self.method = method
        self.judge_variables(method.arguments, "argument")
        self.judge_variables(method.locals, "local")
        if method.result is not None:
            self.judge_result(method)
        self.judge_block(method.body)
        if method.result is not None and method.mark != "?" and not block_stops(method.body):
            self.breaks(Rule.T4, method.body.close)
        self.method = None

    def judge_result(self, method):
        """A coroutine writes no result."""
        if method.mark != "?":
            self.type(method.result, "result")
            return
        self.any_type(method.result)
        if self.form(method.result) is not None:
            self.breaks(Rule.T1, method.result.place)

    # Statements

    def judge_block(self, block):
        for it in block.statements:
            self.judge_statement(it)

    def judge_statement(self, it):
        if isinstance(it, Assign):
            self.judge_update(it) if it.op else self.judge_assign(it)
        elif isinstance(it, Keep):
            self.judge_keep(it)
        elif isinstance(it, CallStatement):
            self.judge_call(it.call)
        elif isinstance(it, If):
            for condition, block in it.arms:
                self.judge_condition(condition)
                self.judge_block(block)
            if it.otherwise is not None:
                self.judge_block(it.otherwise)
        elif isinstance(it, While):
            for condition in [it.condition] + [condition for _, condition in it.clauses]:
                self.judge_condition(condition)
            self.judge_block(it.body)
        elif isinstance(it, Return):
            self.judge_return(it)
        elif isinstance(it, Yield):
            self.judge_yield(it)
        elif isinstance(it, Assert):
            self.judge_condition(it.condition)
            for _, given in it.given:
                self.judge_number(given)

    def judge_condition(self, condition):
        value = self.whole_value(condition)
        if value and value.kind != ("flag",):
            self.breaks(Rule.T3, condition.place)

    def judge_number(self, given):
        value = self.whole_value(given)
        if value and not value.is_number():
            self.breaks(Rule.T1, given.place)

    def judge_target(self, target):
        """Whether it is a target, and what it means."""
        if isinstance(target, Index):
            if self.method.mark == "":
                self.breaks(Rule.E1, target.place)
            return True, self.value(target)
        if target.root == "args" or isinstance(target.stands_for, Constant):
            self.breaks(Rule.T2, target.place)
            return False, None
        if target.root == "this" and self.method.mark == "":
            self.breaks(Rule.E1, target.place)
        value = self.path_value(target)
        if value and value.kind[0] in ("array", "struct"):
            self.breaks(Rule.T2, target.place)
            return False, None
        return True, value

    def is_whole_call(self, expression):
        """Whether it is a call that stands by itself after `=`; a base method without a mark is an ordinary expression."""
        if not isinstance(expression, Call):
            return False
        return isinstance(expression.callee, Method) or expression.mark + expression.callee.mark != ""

    def judge_assign(self, it):
        is_target, target = self.judge_target(it.target)
        if not self.is_whole_call(it.value):
            value = self.whole_value(it.value)
        else:
            value = self.judge_call(it.value)
            if self.gives_nothing(it.value):
                self.breaks(Rule.T2, it.target.place)
        if is_target and target and value:
            self.judge_fit(target.kind, value, Rule.T2, it.target.place)

    def judge_fit(self, kind, value, rule, place):
        """A value of another kind breaks the rule at the place; a constant without a width is taken as any number."""
        if value.kind != kind and not (value.kind == ("number", None) and kind[0] == "number"):
            self.breaks(rule, place)

    def judge_update(self, it):
        """`x op= e` is judged as the operator between its two sides."""
        is_target, target = self.judge_target(it.target)
        if is_target:
            self.operator_value(it.op, it.sign, [(it.target.place, target), (it.value.place, self.whole_value(it.value))])
        else:
            self.whole_value(it.value)

    def judge_keep(self, it):
        is_target, target = self.judge_target(it.target)
        call = it.call
        if self.method.mark != "?":
            self.breaks(Rule.E2, call.place)
        self.judge_call(call)
        is_coroutine = isinstance(call.callee, Method) and call.callee.mark == "?"
        if not is_coroutine or is_target and target and target.kind != ("status",):
            self.breaks(Rule.E4, call.place)

    def result(self):
        """What `return` has to give: None for nothing, and no kind where the declared result breaks a rule."""
        if self.method.mark == "?":
            return Type(("status",)) if self.method.result is None else Type(())
        if self.method.result is None:
            return None
        return self.quietly(self.type, self.method.result, "result") or Type(())

    def judge_return(self, it):
        result, value = self.result(), it.value and self.whole_value(it.value)
        if (result is None) != (it.value is None):
            self.breaks(Rule.T4, it.place)
        elif result and result.kind and value:
            self.judge_fit(result.kind, value, Rule.T4, it.place)

    def judge_yield(self, it):
        if self.method.mark != "?":
            self.breaks(Rule.E2, it.place)
        self.whole_value(it.value)
        if not (isinstance(it.value, StatusText) and it.value.text.startswith("$")):
            self.breaks(Rule.E5, it.value.place)
