"""Trees of declarations, types, statements and expressions. A place is a file's number, a line and a column."""
from dataclasses import dataclass, field


class Node:
    """Two nodes are the same only where they are one object."""


def node(cls):
    return dataclass(eq=False)(cls)


@node
class Status(Node):
    place: tuple
    text: str


@node
class Variable(Node):
    """A field, an argument or a local."""
    place: tuple
    name: str
    type: Node


@node
class Constant(Node):
    place: tuple
    name: str
    type: Node
    value: Node


@node
class Struct(Node):
    place: tuple
    public: bool
    name: str
    fields: list


@node
class Method(Node):
    """`word` is the place of `func`; `callees` are the methods of the package that it calls, once names are judged."""
    word: tuple
    public: bool
    owner: str
    owner_place: tuple
    place: tuple
    name: str
    mark: str
    arguments: list
    result: Node
    locals: list
    body: Node
    callees: set = field(default_factory=set)


@node
class BaseType(Node):
    """`base.NAME`, with bounds (low or None, high), or None."""
    place: tuple
    name: str
    bounds: tuple


@node
class SliceType(Node):
    place: tuple
    element: Node


@node
class ArrayType(Node):
    place: tuple
    length: Node
    element: Node


@node
class StructType(Node):
    place: tuple
    name: str


@node
class Block(Node):
    """`close` is the place of its closing brace."""
    close: tuple
    statements: list


@node
class Assign(Node):
    """`op` is empty for `=`; `sign` is the place of the sign."""
    place: tuple
    target: Node
    op: str
    sign: tuple
    value: Node


@node
class Keep(Node):
    """`target =? call`"""
    place: tuple
    target: Node
    call: Node


@node
class CallStatement(Node):
    place: tuple
    call: Node


@node
class If(Node):
    """Arms are pairs of a condition and a block."""
    place: tuple
    arms: list
    otherwise: Node


@node
class While(Node):
    """A label is a pair of name and place, or None; clauses are pairs of a word (pre, inv, post) and a condition."""
    place: tuple
    label: tuple
    condition: Node
    clauses: list
    body: Node


@node
class Jump(Node):
    """`break` or `continue`; `loop` is the loop that is meant, once names are judged."""
    place: tuple
    word: str
    label: tuple
    loop: Node = None


@node
class Return(Node):
    place: tuple
    value: Node


@node
class Yield(Node):
    place: tuple
    value: Node


@node
class Assert(Node):
    """`axiom` is the text after `via`, or None; `given` are pairs of a letter's name and an expression."""
    place: tuple
    condition: Node
    axiom: str
    axiom_place: tuple
    given: list


@node
class Number(Node):
    place: tuple
    value: int


@node
class Truth(Node):
    place: tuple
    value: bool


@node
class Fine(Node):
    """`ok`"""
    place: tuple


@node
class StatusText(Node):
    """A status by its text, of the language where `base.` stands before it."""
    place: tuple
    text: str
    text_place: tuple
    of_language: bool


@node
class Path(Node):
    """`root` is `this`, `args` or empty; `stands_for` is the declaration, once names are judged."""
    place: tuple
    root: str
    name: str
    name_place: tuple
    stands_for: Node = None


@node
class Index(Node):
    place: tuple
    base: Node
    index: Node


@node
class Slice(Node):
    place: tuple
    base: Node
    low: Node
    high: Node


@node
class Operator(Node):
    """One operator between two or more operands; `signs` are the places of its signs, the first of them its own."""
    place: tuple
    op: str
    operands: list
    signs: list


@node
class Not(Node):
    place: tuple
    operand: Node


@node
class Convert(Node):
    place: tuple
    operand: Node
    type: Node


@node
class This(Node):
    """`this` as the receiver of a call."""
    place: tuple


@node
class Call(Node):
    """Arguments are triples of a name, its place and a value; `callee` is the method of the package or of the language that is
    called, once names are judged."""
    place: tuple
    receiver: Node
    name: str
    mark: str
    arguments: list
    callee: Node = None
