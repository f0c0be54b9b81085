"""The rules of names: N1 to N8, L6 and L7. Names are resolved here: paths, calls and jumps tell what they stand for."""
from dataclasses import dataclass

from .base_methods import BITS, methods_of
from .rules import Rule
from .trees import (ArrayType, Assert, Assign, BaseType, Call, CallStatement, Constant, Convert, If, Index, Jump, Keep, Method,
                    Not, Operator, Path, Return, Slice, SliceType, Status, StatusText, Struct, StructType, This, While, Yield)
from .values import constant_value

LANGUAGE_STATUSES = {"$short read", "$short write", "@end of data", "#bad receiver", "#bad argument", "#initialize not called",
                     "#interleaved coroutine calls", "#disabled by previous error", "#cannot return a suspension"}
RESERVED = set("choose choosy implements io_bind io_limit iterate nptr ptr table use".split())
MOST_METHODS, MOST_LOCALS, MOST_ARGUMENTS, MOST_ELEMENTS, MOST_BYTES = 1024, 256, 64, 65536, 1048576


@dataclass
class Scope:
    """What is known at a place: constants, the struct of `this` or None, arguments, locals, and the method or None."""
    constants: dict
    struct: Struct
    arguments: dict
    locals: dict
    method: Method


def judge_names(declarations):
    """All that the declarations break of the rules of names, as pairs of a place and a rule."""
    return Names(declarations).judge()


def base_kind(of):
    """The kind of base methods that values of a type have, or None."""
    if isinstance(of, BaseType):
        return {"io_reader": ("reader",), "io_writer": ("writer",), "status": ("status",)}.get(of.name)
    if isinstance(of, (SliceType, ArrayType)) and isinstance(of.element, BaseType) and of.element.name in BITS:
        return ("slice" if isinstance(of, SliceType) else "array"), BITS[of.element.name]
    return None


def array_types(of):
    """The array types in a type."""
    if isinstance(of, (SliceType, ArrayType)):
        return ([of] if isinstance(of, ArrayType) else []) + array_types(of.element)
    return []


def reached(first, step):
    """What can be reached from there in one step or more."""
    seen, waiting = set(), list(step(first))
    while waiting:
        one = waiting.pop()
        if one not in seen:
            seen.add(one)
            waiting += step(one)
    return seen


class Names:
    def __init__(self, declarations):
        self.declarations, self.violations = declarations, set()
        self.methods = [it for it in declarations if isinstance(it, Method)]
        self.structs, self.constants, self.statuses = {}, {}, {}
        self.by_struct = {}

    def breaks(self, rule, place):
        self.violations.add((place, rule))

    def judge(self):
        self.declare()
        self.limit_numbers()
        self.resolve()
        self.find_cycles()
        self.limit_sizes()
        return self.violations

    # Declarations

    def declare(self):
        for it in self.declarations:
            if isinstance(it, Status):
                self.declare_once(self.statuses, it.text, it)
            else:
                self.judge_name(it.name, it.place)
            if isinstance(it, Constant):
                self.declare_once(self.constants, it.name, it)
            if isinstance(it, Struct):
                self.declare_once(self.structs, it.name, it)
                self.declare_variables(it.fields)
            if isinstance(it, Method):
                self.declare_once(self.by_struct, (it.owner, it.name), it)
                self.declare_variables(it.arguments)
                self.declare_variables(it.locals)
                if it.name == "initialize":
                    self.breaks(Rule.N3, it.place)
        for method in self.methods:
            for local in method.locals:
                for constant in (it for it in self.declarations if isinstance(it, Constant) and it.name == local.name):
                    self.breaks(Rule.N2, max(local.place, constant.place))

    def declare_once(self, table, name, it):
        if table.setdefault(name, it) is not it:
            self.breaks(Rule.N2, it.place)

    def declare_variables(self, variables):
        table = {}
        for it in variables:
            self.judge_name(it.name, it.place)
            self.declare_once(table, it.name, it)

    def judge_name(self, name, place):
        if name.startswith("_") or name.endswith("_") or "__" in name or name in RESERVED:
            self.breaks(Rule.N3, place)

    def limit_numbers(self):
        beyond = [(Rule.L6, self.methods, MOST_METHODS)]
        for method in self.methods:
            beyond += [(Rule.L7, method.locals, MOST_LOCALS), (Rule.L7, method.arguments, MOST_ARGUMENTS)]
        for rule, things, most in beyond:
            if most < len(things):
                self.breaks(rule, things[most].place)

    # What names stand for

    def resolve(self):
        in_front = {}
        for it in self.declarations:
            if isinstance(it, Constant):
                scope = Scope(dict(in_front), None, {}, {}, None)
                self.resolve_type(it.type, scope)
                self.resolve_value(it.value, scope)
                in_front.setdefault(it.name, it)
            if isinstance(it, Struct):
                for field in it.fields:
                    self.resolve_type(field.type, Scope(self.constants, self.structs[it.name], {}, {}, None))
            if isinstance(it, Method):
                self.resolve_method(it)

    def resolve_method(self, method):
        if method.owner not in self.structs:
            self.breaks(Rule.N1, method.owner_place)
        named = lambda variables: {it.name: it for it in reversed(variables)}
        scope = Scope(self.constants, self.structs.get(method.owner), named(method.arguments), named(method.locals), method)
        for variable in method.arguments + method.locals:
            self.resolve_type(variable.type, scope)
        if method.result is not None:
            self.resolve_type(method.result, scope)
        self.resolve_block(method.body, scope, [])

    def resolve_type(self, of, scope):
        if isinstance(of, StructType):
            if of.name not in self.structs:
                self.breaks(Rule.N1, of.place)
        elif isinstance(of, SliceType):
            self.resolve_type(of.element, scope)
        elif isinstance(of, ArrayType):
            self.resolve_value(of.length, scope)
            self.resolve_type(of.element, scope)
        else:
            for bound in of.bounds or ():
                if bound is not None:
                    self.resolve_value(bound, scope)

    def resolve_path(self, path, scope):
        """Whether the path stands for something."""
        if path.root == "args":
            found = scope.arguments.get(path.name)
        elif path.root == "this":
            fields = scope.struct.fields if scope.struct else []
            found = next((it for it in fields if it.name == path.name), None)
        else:
            found = scope.locals.get(path.name) or scope.constants.get(path.name)
        path.stands_for = found
        if found is None:
            self.breaks(Rule.N1, path.name_place)
        return found is not None

    def resolve_value(self, value, scope):
        """Whether every name in it stands for something."""
        if isinstance(value, Path):
            return self.resolve_path(value, scope)
        if isinstance(value, StatusText):
            known = value.text in (LANGUAGE_STATUSES if value.of_language else self.statuses)
            if not known:
                self.breaks(Rule.N1, value.text_place)
            return known
        if isinstance(value, Call):
            return self.resolve_call(value, scope)
        if isinstance(value, Index):
            parts = [value.base, value.index]
        elif isinstance(value, Slice):
            parts = [it for it in (value.base, value.low, value.high) if it is not None]
        elif isinstance(value, Operator):
            parts = value.operands
        elif isinstance(value, (Not, Convert)):
            parts = [value.operand]
        else:
            parts = []
        if isinstance(value, Convert):
            self.resolve_type(value.type, scope)
        return all([self.resolve_value(it, scope) for it in parts])

    def resolve_call(self, call, scope):
        """Whether what is called is known, and every name in what is given."""
        call.callee = self.callee(call, scope)
        if isinstance(call.callee, Method) and scope.method is not None:
            scope.method.callees.add(call.callee)
        given_known = all([self.resolve_value(value, scope) for _, _, value in call.arguments])
        if call.callee is None or not given_known:
            return False
        self.judge_arguments(call)
        return True

    def callee(self, call, scope):
        """The method of the package or of the language that is called, None where it isn't known."""
        if isinstance(call.receiver, This):
            method = scope.struct and self.by_struct.get((scope.struct.name, call.name))
            if method:
                return method
            somewhere = any(it.name == call.name for it in self.methods)
            return self.breaks(Rule.N8 if somewhere else Rule.N1, call.place)
        if not self.resolve_path(call.receiver, scope):
            return None
        variable = call.receiver.stands_for
        if not isinstance(variable, Constant) and isinstance(variable.type, StructType) and call.receiver.root == "this":
            return self.callee_in(variable.type, call)
        kind = None if isinstance(variable, Constant) else base_kind(variable.type)
        found = methods_of(kind).get(call.name) if kind else None
        return found or self.breaks(Rule.N1, call.place)

    def callee_in(self, of, call):
        """A method of the struct in a field."""
        if of.name not in self.structs:
            return None
        method = self.by_struct.get((of.name, call.name))
        if method is None:
            return self.breaks(Rule.N1, call.place)
        if not method.public:
            self.breaks(Rule.N8, call.place)
        return method

    def judge_arguments(self, call):
        of_package = isinstance(call.callee, Method)
        wanted = [it.name if of_package else it[0] for it in call.callee.arguments]
        given, passed = set(), set()
        for name, place, value in call.arguments:
            if name in given:
                self.breaks(Rule.N2, place)
            if name not in wanted:
                self.breaks(Rule.N6, place)
            given.add(name)
            if isinstance(value, Path) and value.root == "args" and base_kind(value.stands_for.type) in (("reader",), ("writer",)):
                if value.name in passed:
                    self.breaks(Rule.N2, value.place)
                passed.add(value.name)
        if not given.issuperset(wanted):
            self.breaks(Rule.N7, call.place)

    # Statements

    def resolve_block(self, block, scope, loops):
        for it in block.statements:
            self.resolve_statement(it, scope, loops)

    def resolve_statement(self, it, scope, loops):
        """`loops` are the loops round it, the innermost first."""
        if isinstance(it, Assign):
            self.resolve_value(it.target, scope)
            self.resolve_value(it.value, scope)
        elif isinstance(it, Keep):
            self.resolve_value(it.target, scope)
            self.resolve_call(it.call, scope)
        elif isinstance(it, CallStatement):
            self.resolve_call(it.call, scope)
        elif isinstance(it, If):
            for condition, block in it.arms:
                self.resolve_value(condition, scope)
                self.resolve_block(block, scope, loops)
            if it.otherwise is not None:
                self.resolve_block(it.otherwise, scope, loops)
        elif isinstance(it, While):
            self.resolve_loop(it, scope, loops)
        elif isinstance(it, Jump):
            self.resolve_jump(it, loops)
        elif isinstance(it, (Return, Yield)):
            if it.value is not None:
                self.resolve_value(it.value, scope)
        elif isinstance(it, Assert):
            for value in [it.condition] + [value for _, value in it.given]:
                self.resolve_value(value, scope)

    def resolve_loop(self, loop, scope, loops):
        if loop.label:
            self.judge_name(*loop.label)
            if any(it.label and it.label[0] == loop.label[0] for it in loops):
                self.breaks(Rule.N2, loop.label[1])
        for value in [loop.condition] + [condition for _, condition in loop.clauses]:
            self.resolve_value(value, scope)
        self.resolve_block(loop.body, scope, [loop] + loops)

    def resolve_jump(self, jump, loops):
        meant = [it for it in loops if jump.label is None or it.label and it.label[0] == jump.label[0]]
        if meant:
            jump.loop = meant[0]
        else:
            self.breaks(Rule.N5, jump.label[1] if jump.label else jump.place)

    # Cycles and sizes

    def held(self, struct):
        """The structs that stand in a struct's fields."""
        names = [it.type.name for it in struct.fields if isinstance(it.type, StructType)]
        return [self.structs[name] for name in names if name in self.structs]

    def find_cycles(self):
        structs = [it for it in self.declarations if isinstance(it, Struct)]
        self.circular = {it for it in structs if it in reached(it, self.held)}
        for it in self.circular | {it for it in self.methods if it in reached(it, lambda method: method.callees)}:
            self.breaks(Rule.N4, it.place)

    def length(self, of):
        """The length of an array type, 0 where it has no value."""
        return constant_value(of.length) or 0

    def size(self, of):
        if isinstance(of, BaseType):
            return {"bool": 1, "status": 8}.get(of.name, BITS.get(of.name, 0) // 8)
        if isinstance(of, ArrayType) and isinstance(of.element, BaseType):
            return self.length(of) * BITS.get(of.element.name, 0) // 8
        if isinstance(of, StructType) and of.name in self.structs:
            struct = self.structs[of.name]
            return 8 + (0 if struct in self.circular else sum(self.size(it.type) for it in struct.fields))
        return 0

    def limit_sizes(self):
        for it in self.declarations:
            variables = it.fields if isinstance(it, Struct) else it.arguments + it.locals if isinstance(it, Method) else []
            for variable in variables:
                if any(MOST_ELEMENTS < self.length(of) for of in array_types(variable.type)):
                    self.breaks(Rule.L7, variable.place)
            if isinstance(it, Struct):
                self.limit_bytes(it)

    def limit_bytes(self, struct):
        taken = 0
        for field in struct.fields:
            before, taken = taken, taken + self.size(field.type)
            if before <= MOST_BYTES < taken:
                self.breaks(Rule.L7, field.place)
