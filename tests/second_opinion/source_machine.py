"""A machine that executes the source of a package by what it means: whole numbers, remaining statements, buffers and the entry
table. It shares nothing with the judging of packages but the trees, in which names are resolved.

A status is its text as a caller sees it, ok the empty one. A coroutine that has suspended is kept as a Python generator, which
gives the status of each suspension and ends with the answer. Where a step has no meaning, `Stuck` is raised.
"""
from .trees import BaseType, Call, Constant, Convert, Index, Method, Operator, Path, SliceType, Struct, StructType, This

WIDTHS = {"u8": 8, "u16": 16, "u32": 32, "u64": 64}
PEEKS = {"peek_u8": 1, "peek_u16le": 2, "peek_u32le": 4}
COUNT_ARRAY = 1 << 64


class Stuck(Exception):
    """A step without a meaning, at a place."""

    def __init__(self, reason, place):
        super().__init__(f"{reason} at {place[0]}:{place[1]}:{place[2]}")


class MoreTurns(Exception):
    """The call needs more turns than it has."""


class Buffer:
    """`bytes` are as many as the buffer has room for; those from `ri` to `wi` are unread."""

    def __init__(self, capacity):
        self.bytes, self.ri, self.wi, self.pos, self.closed = [0] * capacity, 0, 0, 0, False

    def put(self, some):
        for byte in some[:0 if self.closed else len(self.bytes) - self.wi]:
            self.append(byte)

    def append(self, byte):
        self.bytes[self.wi] = byte
        self.wi += 1

    def compact(self):
        unread = self.bytes[self.ri:self.wi]
        self.bytes[:len(unread)] = unread
        self.pos, self.ri, self.wi = min(self.pos + self.ri, COUNT_ARRAY - 1), 0, len(unread)

    def unread(self):
        return self.wi - self.ri

    def room(self):
        return 0 if self.closed else len(self.bytes) - self.wi


class Part:
    """A slice: where its elements stand, the first of them, and how many there are."""

    def __init__(self, cells, first, count):
        self.cells, self.first, self.count = cells, first, count

    def taken(self):
        return self.cells[self.first:self.first + self.count]


class StructState:
    """A struct's life (raw, ready or disabled), its fields, the public coroutine that has suspended, and what its coroutines have
    still to do."""

    def __init__(self, machine, struct, life):
        self.struct, self.life, self.active, self.remaining = struct, life, None, {}
        self.fields = {field: machine.first_value(field.type, life) for field in struct.fields}


class Frame:
    """A running body: its struct state, its arguments and locals by their declarations, and the generator that runs it."""

    def __init__(self, machine, method, state, arguments):
        self.method, self.state, self.arguments = method, state, arguments
        self.locals = {local: machine.first_value(local.type, "ready") for local in method.locals}
        self.run = machine.body(self)


class Machine:
    """Runs the methods of one package, which has the name `package`. `watch(key, frame)` is told of each statement before which the machine comes, of each
    block whose end it reaches, and of ("resumed", statement) where a suspended statement goes on."""

    def __init__(self, declarations, watch=lambda key, frame: None, package="k"):
        self.structs = {it.name: it for it in declarations if isinstance(it, Struct)}
        self.methods = [it for it in declarations if isinstance(it, Method)]
        self.package, self.watch, self.turns, self.constants, self.bounds = package, watch, 0, {}, {}

    def first_value(self, of, life):
        """What stands in a field or local at first."""
        if isinstance(of, StructType):
            return StructState(self, self.structs[of.name], life)
        if isinstance(of, SliceType):
            return Part([], 0, 0)
        if isinstance(of, BaseType):
            return {"bool": False, "status": ""}.get(of.name, 0)
        return [0] * self.value(of.length, None)

    def new(self, name):
        """A receiver that was never made ready."""
        return StructState(self, self.structs[name], "raw")

    def turn(self):
        if self.turns == 0:
            raise MoreTurns
        self.turns -= 1

    # Types

    def width(self, it):
        """The width of a number, None where a constant has none."""
        if isinstance(it, Path):
            return self.element_width(it.stands_for.type)
        if isinstance(it, Index):
            return self.element_width(it.base.stands_for.type)
        if isinstance(it, Convert):
            return WIDTHS[it.type.name]
        if isinstance(it, Operator):
            operands = it.operands[:1] if it.op in ("<<", ">>", "~mod<<") else it.operands
            return next((width for width in map(self.width, operands) if width), None)
        return 8 * PEEKS.get(it.name, 8) if isinstance(it, Call) else None

    def element_width(self, of):
        while not isinstance(of, BaseType):
            of = of.element
        return WIDTHS.get(of.name)

    def type_bounds(self, of):
        """The least and the greatest number of a type, None where it isn't numeric."""
        if of not in self.bounds:
            self.bounds[of] = self.find_bounds(of)
        return self.bounds[of]

    def find_bounds(self, of):
        if not isinstance(of, BaseType) or of.name not in WIDTHS:
            return None
        low, high = of.bounds or (None, None)
        return (0 if low is None else self.value(low, None)), (2 ** WIDTHS[of.name] - 1 if high is None else self.value(high, None))

    def lies_in(self, of, value):
        bounds = self.type_bounds(of)
        return bounds is None or bounds[0] <= value <= bounds[1]

    # Values

    def value(self, it, frame):
        """The value of an expression; all operands are evaluated."""
        return getattr(self, "value_of_" + type(it).__name__)(it, frame)

    def value_of_Number(self, it, frame):
        return it.value

    value_of_Truth = value_of_Number

    def value_of_Fine(self, it, frame):
        return ""

    def value_of_StatusText(self, it, frame):
        return f"{it.text[0]}{'base' if it.of_language else self.package}: {it.text[1:]}"

    def value_of_Path(self, it, frame):
        if isinstance(it.stands_for, Constant):
            if it.stands_for not in self.constants:
                self.constants[it.stands_for] = self.value(it.stands_for.value, None)
            return self.constants[it.stands_for]
        return self.variables(it, frame)[it.stands_for]

    def variables(self, path, frame):
        return {"this": frame.state.fields, "args": frame.arguments, "": frame.locals}[path.root]

    def cells(self, base, frame):
        """The elements of a slice or an array."""
        value = self.value(base, frame)
        return value if isinstance(value, Part) else Part(value, 0, len(value))

    def place(self, it, frame):
        """Where an element stands: cells and a number."""
        part, index = self.cells(it.base, frame), self.value(it.index, frame)
        if part.count <= index:
            raise Stuck(f"the index {index} isn't below {part.count}", it.place)
        return part.cells, part.first + index

    def value_of_Index(self, it, frame):
        cells, number = self.place(it, frame)
        return cells[number]

    def value_of_Slice(self, it, frame):
        part = self.cells(it.base, frame)
        low = 0 if it.low is None else self.value(it.low, frame)
        high = part.count if it.high is None else self.value(it.high, frame)
        if not low <= high <= part.count:
            raise Stuck(f"{low} .. {high} of {part.count}", it.place)
        return Part(part.cells, part.first + low, high - low)

    def value_of_Not(self, it, frame):
        return not self.value(it.operand, frame)

    def value_of_Convert(self, it, frame):
        return self.in_width(self.value(it.operand, frame), WIDTHS[it.type.name], it.place)

    def in_width(self, value, width, place):
        if not 0 <= value < 2 ** width:
            raise Stuck(f"{value} leaves {width} bits", place)
        return value

    def value_of_Operator(self, it, frame):
        return self.operate(it, [self.value(operand, frame) for operand in it.operands])

    def operate(self, it, values):
        first, second = values[0], values[1]
        if it.op in COMPARE:
            return COMPARE[it.op](first, second)
        if it.op in ("and", "or"):
            return all(values) if it.op == "and" else any(values)
        width = self.width(it) or 64
        if it.op in ("<<", ">>", "~mod<<") and width <= second:
            raise Stuck(f"a shift by {second}", it.place)
        if it.op in ("/", "%") and second == 0:
            raise Stuck("a divisor is 0", it.place)
        for value in values[1:]:
            first = WHOLE[it.op.replace("~mod", "").replace("~sat", "")](first, value)
        if it.op.startswith("~mod"):
            return first % 2 ** width
        if it.op.startswith("~sat"):
            return min(max(first, 0), 2 ** width - 1)
        return self.in_width(first, width, it.place)

    def value_of_Call(self, it, frame):
        """A base method without a mark."""
        on = self.value(it.receiver, frame)
        if it.name.startswith("is_"):
            return on.closed if it.name == "is_closed" else on[:1] == STATUS_MARKS[it.name]
        if it.name == "length":
            return self.length(it.receiver, on)
        if it.name == "position":
            return min(on.pos + (on.ri if self.is_reader(it.receiver) else on.wi), COUNT_ARRAY - 1)
        if on.unread() < PEEKS[it.name]:
            raise Stuck(f"{it.name} of {on.unread()}", it.place)
        return int.from_bytes(on.bytes[on.ri:on.ri + PEEKS[it.name]], "little")

    def is_reader(self, path):
        return path.stands_for.type.name == "io_reader"

    def length(self, path, on):
        if isinstance(on, Buffer):
            return on.unread() if self.is_reader(path) else on.room()
        return on.count if isinstance(on, Part) else len(on)

    # Statements: a block gives None where it goes on, else the jump or ("return", value)

    def body(self, frame):
        outcome = yield from self.block(frame.method.body, frame)
        value = outcome[1] if outcome else ""
        if frame.method.mark == "?" and value[:1] == "$":
            return "#base: cannot return a suspension"
        return value

    def block(self, block, frame):
        for it in block.statements:
            self.watch(it, frame)
            outcome = yield from getattr(self, "run_" + type(it).__name__)(it, frame)
            if outcome is not None:
                return outcome
        self.watch(block, frame)
        return None

    def suspend(self, it, status, frame):
        """Gives the status, and goes on in the next call, with its arguments."""
        for local, value in frame.locals.items():
            if isinstance(value, Part):
                frame.locals[local] = Part([], 0, 0)
        frame.arguments = None
        yield status
        self.watch(("resumed", it), frame)

    def run_Assign(self, it, frame):
        if isinstance(it.value, Call) and (it.value.mark or isinstance(it.value.callee, Method)):
            ended, value = yield from self.call(it, it.value, frame)
            if ended:
                return "return", value
        elif it.op:
            node = Operator(it.sign, it.op, [it.target, it.value], [it.sign])
            value = self.value(node, frame)
        else:
            value = self.value(it.value, frame)
        self.write(it.target, value, frame)
        return None

    def write(self, target, value, frame):
        of = target.base.stands_for.type.element if isinstance(target, Index) else target.stands_for.type
        if not self.lies_in(of, value):
            raise Stuck(f"{value} leaves its target", target.place)
        if isinstance(target, Index):
            cells, number = self.place(target, frame)
            cells[number] = value
        else:
            self.variables(target, frame)[target.stands_for] = value

    def run_CallStatement(self, it, frame):
        ended, value = yield from self.call(it, it.call, frame)
        return ("return", value) if ended else None

    def run_Keep(self, it, frame):
        state, refuse = self.called(it.call, frame)
        status = self.answer(state, it.call.callee, self.given(it.call, frame), refuse)
        self.write(it.target, status, frame)
        yield from ()

    def run_Yield(self, it, frame):
        yield from self.suspend(it, self.value(it.value, frame), frame)

    def run_If(self, it, frame):
        for condition, block in it.arms:
            if self.value(condition, frame):
                return (yield from self.block(block, frame))
        return (yield from self.block(it.otherwise, frame)) if it.otherwise else None

    def run_While(self, it, frame):
        self.promised(it, ("pre", "inv"), frame)
        while self.value(it.condition, frame):
            outcome = yield from self.block(it.body, frame)
            if outcome == ("break", it):
                self.promised(it, ("inv", "post"), frame)
                return None
            if outcome not in (None, ("continue", it)):
                return outcome
            self.promised(it, ("pre", "inv"), frame)
            self.turn()
        self.promised(it, ("inv", "post"), frame)
        return None

    def promised(self, loop, words, frame):
        for word, condition in loop.clauses:
            if word in words and not self.value(condition, frame):
                raise Stuck(f"a false {word}", condition.place)

    def run_Jump(self, it, frame):
        yield from ()
        return it.word, it.loop

    def run_Return(self, it, frame):
        value = None if it.value is None else self.value(it.value, frame)
        if frame.method.result is not None and not self.lies_in(frame.method.result, value):
            raise Stuck(f"{value} leaves its result", it.place)
        yield from ()
        return "return", value

    def run_Assert(self, it, frame):
        if not self.value(it.condition, frame):
            raise Stuck("a false assertion", it.place)
        yield from ()

    # Calls

    def call(self, it, call, frame):
        """Whether the body ends with the call, and the call's value, or the status with which the body ends."""
        if not isinstance(call.callee, Method):
            return False, (yield from self.base_call(it, call, frame))
        while True:
            state, refuse = self.called(call, frame)
            value = self.answer(state, call.callee, self.given(call, frame), refuse)
            if call.mark != "?":
                return False, value
            if value[:1] != "$":
                return value != "", value
            yield from self.suspend(it, value, frame)

    def called(self, call, frame):
        """The struct state of a call, and whether it passes the entry table."""
        return (frame.state, False) if isinstance(call.receiver, This) else (self.value(call.receiver, frame), True)

    def given(self, call, frame):
        values = {name: self.value(value, frame) for name, _, value in call.arguments}
        for argument in call.callee.arguments:
            if not self.lies_in(argument.type, values[argument.name]):
                raise Stuck(f"{values[argument.name]} leaves the argument {argument.name}", call.place)
        return {argument: values[argument.name] for argument in call.callee.arguments}

    def answer(self, state, method, arguments, by_table):
        return self.enter(state, method, arguments) if by_table else self.run(state, method, arguments)

    def run(self, state, method, arguments):
        """A whole run of a body, from what remains of it: its answer."""
        self.turn()
        frame = state.remaining.pop(method, None)
        if frame is None:
            frame = Frame(self, method, state, arguments)
        frame.arguments = arguments
        try:
            status = next(frame.run)
        except StopIteration as ended:
            return ended.value
        state.remaining[method] = frame
        return status

    def enter(self, state, method, arguments):
        """A call from outside, by the entry table."""
        refused, disables = self.refusal(state, method, arguments)
        if refused:
            if disables:
                state.life = "disabled"
            return self.refused(method, "#base: " + refused)
        answer = self.run(state, method, arguments)
        if method.mark == "?":
            state.active = method if answer[:1] == "$" else None
            if answer[:1] == "#":
                state.life = "disabled"
        return answer

    def refusal(self, state, method, arguments):
        """Why a call is refused, and whether that disables the receiver."""
        if state is None:
            return "bad receiver", False
        if state.life == "raw":
            return "initialize not called", False
        if state.life == "disabled" and method.mark:
            return "disabled by previous error", False
        if any(value is None or not self.lies_in(of.type, value) for of, value in arguments.items()):
            return "bad argument", method.mark != ""
        if method.mark == "?" and state.active not in (None, method):
            return "interleaved coroutine calls", True
        return None, False

    def refused(self, method, status):
        """What a call gives that doesn't come to its body."""
        if method.mark == "?":
            return status
        if method.result is None:
            return None
        return {"bool": False, "status": status}.get(method.result.name, 0)

    # Base methods with a mark

    def base_call(self, it, call, frame):
        given = {name: self.value(value, frame) for name, _, value in call.arguments}
        if call.name.startswith("read_"):
            return (yield from self.read(it, call, frame))
        for name, value in given.items():
            if name != "s":
                self.in_width(value, 8 if name == "a" else 32, call.place)
        if call.name == "skip_u32":
            return (yield from self.skip(it, call, given["n"], frame))
        on = self.value(call.receiver, frame)
        if call.name == "copy_from_slice":
            return self.copy(on, given["s"])
        if call.name == "skip_u32_fast":
            if not given["actual"] <= given["worst_case"] <= on.unread():
                raise Stuck(f"a skip of {given} of {on.unread()}", call.place)
            on.ri += given["actual"]
            return None
        if call.name == "write_u8_fast":
            if on.room() < 1:
                raise Stuck("a write into a full buffer", call.place)
        else:
            while self.value(call.receiver, frame).room() < 1:
                yield from self.suspend(it, "$base: short write", frame)
        self.value(call.receiver, frame).append(given["a"])
        return None

    def read(self, it, call, frame):
        taken, bits = [], call.name[len("read_u"):].rstrip("bel")
        while 8 * len(taken) < int(bits):
            on = self.value(call.receiver, frame)
            if on.unread():
                taken.append(on.bytes[on.ri])
                on.ri += 1
            else:
                yield from self.suspend(it, "$base: short read", frame)
        return int.from_bytes(taken, "big" if call.name.endswith("be") else "little")

    def skip(self, it, call, count, frame):
        while True:
            on = self.value(call.receiver, frame)
            skipped = min(count, on.unread())
            on.ri, count = on.ri + skipped, count - skipped
            if count == 0:
                return None
            yield from self.suspend(it, "$base: short read", frame)

    def copy(self, on, part):
        """Copies as much as there is and as fits: how many elements."""
        taken = part.taken()
        if isinstance(on, Buffer):
            taken = taken[:on.room()]
            on.put(taken)
        else:
            taken = taken[:on.count]
            on.cells[on.first:on.first + len(taken)] = taken
        return len(taken)

    def init(self, state):
        """Makes a receiver ready, with all struct states inside it."""
        state.__init__(self, state.struct, "ready")


COMPARE = {"==": lambda a, b: a == b, "<>": lambda a, b: a != b, "<": lambda a, b: a < b, "<=": lambda a, b: a <= b,
           ">=": lambda a, b: a >= b, ">": lambda a, b: a > b}
WHOLE = {"+": lambda a, b: a + b, "-": lambda a, b: a - b, "*": lambda a, b: a * b, "/": lambda a, b: a // b,
         "%": lambda a, b: a % b, "<<": lambda a, b: a << b, ">>": lambda a, b: a >> b, "&": lambda a, b: a & b,
         "|": lambda a, b: a | b, "^": lambda a, b: a ^ b}
STATUS_MARKS = {"is_ok": "", "is_note": "@", "is_suspension": "$", "is_error": "#"}
