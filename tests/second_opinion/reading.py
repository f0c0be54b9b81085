"""Reading: a file's text to its declarations, by the rules S1 to S6 and L4."""
import functools
import re

from .trees import (ArrayType, Assert, Assign, BaseType, Block, Call, CallStatement, Constant, Convert, Fine, If, Index, Jump,
                    Keep, Method, Not, Number, Operator, Path, Return, Slice, SliceType, Status, StatusText, Struct,
                    StructType, This, Truth, Variable, While, Yield)

WORDS = set("""and args array as assert base break const continue else endwhile false func if inv not nothing ok or post pre
    pri pub return slice status struct this true var via while yield""".split())
# After these words, as after a name, a number, a text or a closing bracket, a line's end adds a semicolon.
ENDING_WORDS = set("args break continue endwhile false nothing ok return status this true".split())
CHAINED = set("+ * & | ^ and or".split())
SINGLE = set("- / % << >> == <> < <= > >= ~mod+ ~mod- ~mod* ~mod<< ~sat+ ~sat-".split())
OPERATORS = CHAINED | SINGLE
ASSIGNED = OPERATORS - set("and or == <> < <= > >=".split())
ASSIGNMENTS = {"="} | {op + "=" for op in ASSIGNED}
SYMBOLS = sorted(set("( ) [ ] { } , . : ; ? ! = =? .. ..=".split()) | ASSIGNMENTS | OPERATORS - {"and", "or"}, key=len, reverse=True)
SYMBOL = re.compile("|".join(map(re.escape, SYMBOLS)))
MOST_BRACKETS = 48

GAP = re.compile(r"[ \t\r]+|//[^\n]*")
RUN = re.compile(r"[A-Za-z0-9_]+")
TEXT = re.compile(r'"([ !#-\[\]-~]*)"')
NUMBERS = [(re.compile(r"0"), 10), (re.compile(r"[1-9](_*[0-9])*"), 10), (re.compile(r"0[xX][0-9a-fA-F](_*[0-9a-fA-F])*"), 16),
           (re.compile(r"0[bB][01](_*[01])*"), 2)]


class Refused(Exception):
    """A rule of reading is broken at a place."""

    def __init__(self, rule, place):
        super().__init__(rule, place)
        self.rule, self.place = rule, place


class Token:
    """`kind` is name, number, text, word, symbol, end, or wrong; the text of a wrong one is the rule that it breaks."""

    def __init__(self, kind, text, place, value=None):
        self.kind, self.text, self.place, self.value = kind, text, place, value


def ends_a_line(token):
    return (token.kind in ("name", "number", "text") or token.kind == "word" and token.text in ENDING_WORDS
            or token.kind == "symbol" and token.text in (")", "]", "}"))


def number(run):
    """The value of a run of letters, digits and `_` that begins with a digit, or the rule that it breaks."""
    for spelling, base in NUMBERS:
        if spelling.fullmatch(run):
            value = int(run.replace("_", "") if base == 10 else run[2:].replace("_", ""), base)
            return ("S4" if value >= 1 << 64 else None), value
    return "S3", None


def token_at(text, at, place):
    """The token there and how many characters it has."""
    run = RUN.match(text, at)
    if run and run.group()[0].isdigit():
        rule, value = number(run.group())
        token = Token("wrong", rule, place) if rule else Token("number", run.group(), place, value)
        return token, len(run.group())
    if run:
        return Token("word" if run.group() in WORDS else "name", run.group(), place), len(run.group())
    if text[at] == '"':
        quoted = TEXT.match(text, at)
        if not quoted:
            return Token("wrong", "S2", place), 0
        return Token("text", quoted.group(1), place), len(quoted.group())
    symbol = SYMBOL.match(text, at)
    if symbol:
        return Token("symbol", symbol.group(), place), len(symbol.group())
    return Token("wrong", "S1", place), 0


@functools.lru_cache(16)
def tokens_of(text, file):
    """The tokens up to the first that breaks a rule, that one included, or up to the file's end."""
    tokens, at, line, column, after = [], 0, 1, 1, None
    while True:
        gap = GAP.match(text, at)
        if gap:
            column, at = column + gap.end() - at, gap.end()
            continue
        if at == len(text) or text[at] == "\n":
            if tokens and ends_a_line(tokens[-1]):
                tokens.append(Token("symbol", ";", after))
            if at == len(text):
                tokens.append(Token("end", "", (file, line, column)))
                return tokens
            at, line, column = at + 1, line + 1, 1
            continue
        token, length = token_at(text, at, (file, line, column))
        tokens.append(token)
        if token.kind == "wrong":
            return tokens
        at, column = at + length, column + length
        after = (file, line, column)


def read(text, file):
    """The declarations of the file with this number, or `Refused`."""
    return Reader(tokens_of(text, file)).file()


class Reader:
    """A descent through the grammar: where the token that stands next doesn't fit, it is the first that can't."""

    def __init__(self, tokens):
        self.tokens, self.at, self.open, self.locals = tokens, 0, 0, []

    def token(self, ahead=0):
        at = self.at + ahead
        return self.tokens[at if at < len(self.tokens) else -1]

    def refuse(self, rule="S5"):
        token = self.token()
        raise Refused(token.text if token.kind == "wrong" else rule, token.place)

    def take(self):
        self.at += 1
        return self.tokens[self.at - 1]

    def stands(self, text, ahead=0):
        token = self.token(ahead)
        return token.text == text and token.kind in ("word", "symbol")

    def skip(self, text):
        """Takes this token where it stands."""
        if not self.stands(text):
            return False
        if text in "([{":
            if self.open == MOST_BRACKETS:
                self.refuse("L4")
            self.open += 1
        if text in ")]}":
            self.open -= 1
        self.take()
        return True

    def expect(self, text):
        place = self.token().place
        if not self.skip(text):
            self.refuse()
        return place

    def of_kind(self, kind):
        if self.token().kind != kind:
            self.refuse()
        return self.take()

    # Declarations

    def file(self):
        declarations = []
        while self.token().kind != "end":
            declarations.append(self.declaration())
            self.expect(";")
        return declarations

    def declaration(self):
        if not (self.stands("pub") or self.stands("pri")):
            self.refuse()
        public = self.take().text == "pub"
        word = self.token().place
        if self.skip("status"):
            text = self.of_kind("text")
            return Status(text.place, text.text)
        if self.skip("const"):
            name = self.of_kind("name")
            self.expect(":")
            of = self.type()
            self.expect("=")
            return Constant(name.place, name.text, of, self.expression())
        if self.skip("struct"):
            name = self.of_kind("name")
            self.mark()
            fields = self.fields()
            return Struct(name.place, public, name.text, fields + (self.fields() if self.skip("+") else []))
        if self.skip("func"):
            return self.method(word, public)
        return self.refuse()

    def method(self, word, public):
        owner = self.of_kind("name")
        self.expect(".")
        name = self.of_kind("name")
        mark = self.mark()
        arguments = self.fields()
        result = None if self.stands("{") else self.type()
        self.locals = []
        body = self.block(of_method=True)
        return Method(word, public, owner.text, owner.place, name.place, name.text, mark, arguments, result, self.locals, body)

    def mark(self):
        return self.take().text if self.stands("!") or self.stands("?") else ""

    def named(self, read):
        """A list in parentheses, of names with what is read after each."""
        self.expect("(")
        named = []
        while self.token().kind == "name":
            name = self.take()
            self.expect(":")
            named.append((name, read()))
            if not self.skip(","):
                break
        self.expect(")")
        return named

    def fields(self):
        return [Variable(name.place, name.text, of) for name, of in self.named(self.type)]

    def type(self):
        place = self.token().place
        if self.skip("base"):
            self.expect(".")
            name = self.take().text if self.stands("status") else self.of_kind("name").text
            return BaseType(place, name, self.bounds() if self.stands("[") else None)
        if self.skip("slice"):
            return SliceType(place, self.type())
        if self.skip("array"):
            self.expect("[")
            length = self.expression()
            self.expect("]")
            return ArrayType(place, length, self.type())
        return StructType(place, self.of_kind("name").text)

    def bounds(self):
        self.expect("[")
        low = None if self.stands("..=") else self.expression()
        self.expect("..=")
        high = self.expression()
        self.expect("]")
        return low, high

    # Statements

    def block(self, of_method=False):
        self.expect("{")
        statements, vars_may_stand = [], of_method
        while not self.stands("}"):
            if vars_may_stand and self.skip("var"):
                name = self.of_kind("name")
                self.expect(":")
                self.locals.append(Variable(name.place, name.text, self.type()))
            else:
                vars_may_stand = False
                statements.append(self.statement())
            if not self.skip(";") and not self.stands("}"):
                self.refuse()
        return Block(self.expect("}"), statements)

    def statement(self):
        place = self.token().place
        for word, rest in (("if", self.if_rest), ("while", self.while_rest), ("return", self.return_rest), ("yield", self.yield_rest),
                           ("assert", self.assert_rest)):
            if self.skip(word):
                return rest(place)
        for word in ("break", "continue"):
            if self.skip(word):
                return Jump(place, word, self.label())
        if self.is_call_on_this():
            return CallStatement(place, self.call(This(self.take().place), marked=True))
        path = self.path()
        if self.stands("."):
            return CallStatement(place, self.call(path, marked=True))
        return self.assignment(place, self.element(path) if self.stands("[") else path)

    def assignment(self, place, target):
        if self.skip("=?"):
            receiver = This(self.take().place) if self.is_call_on_this() else self.path()
            return Keep(place, target, self.call(receiver, marked=True))
        if self.token().kind != "symbol" or self.token().text not in ASSIGNMENTS:
            self.refuse()
        sign = self.take()
        return Assign(place, target, sign.text[:-1], sign.place, self.expression())

    def element(self, path):
        place = self.expect("[")
        index = self.expression()
        self.expect("]")
        return Index(place, path, index)

    def if_rest(self, place):
        condition = self.expression()
        arms, otherwise = [(condition, self.block())], None
        while self.skip("else"):
            if not self.skip("if"):
                otherwise = self.block()
                break
            condition = self.expression()
            arms.append((condition, self.block()))
        return If(place, arms, otherwise)

    def label(self):
        if not self.skip("."):
            return None
        name = self.of_kind("name")
        return name.text, name.place

    def while_rest(self, place):
        label = self.label()
        condition, clauses = self.expression(), []
        while self.skip(",") and not self.stands("{"):
            if not any(self.stands(word) for word in ("pre", "inv", "post")):
                self.refuse()
            clauses.append((self.take().text, self.expression()))
        body = self.block()
        self.loop_end(label)
        return While(place, label, condition, clauses, body)

    def loop_end(self, label):
        if not self.stands("endwhile"):
            return None if label is None else self.refuse()
        self.take()
        if label is None:
            return self.refuse() if self.stands(".") else None
        self.expect(".")
        if self.token().text != label[0]:
            self.refuse()
        return self.of_kind("name")

    def return_rest(self, place):
        if self.stands(";") or self.stands("}") or self.skip("nothing"):
            return Return(place, None)
        return Return(place, self.expression())

    def yield_rest(self, place):
        self.expect("?")
        return Yield(place, self.expression())

    def assert_rest(self, place):
        condition, axiom, axiom_place, given = self.expression(), None, None, []
        if self.skip("via"):
            text = self.of_kind("text")
            axiom, axiom_place = text.text, text.place
            given = [(name, value) for name, _, value in self.given()]
        return Assert(place, condition, axiom, axiom_place, given)

    # Expressions

    def path(self):
        place = self.token().place
        for root in ("this", "args"):
            if self.skip(root):
                self.expect(".")
                name = self.of_kind("name")
                return Path(place, root, name.text, name.place)
        return Path(place, "", self.of_kind("name").text, place)

    def is_call_on_this(self):
        return (self.stands("this") and self.stands(".", 1) and self.token(2).kind == "name"
                and any(self.stands(text, 3) for text in "!?("))

    def call(self, receiver, marked):
        """A call after its receiver; as a statement it has a mark."""
        self.expect(".")
        name = self.of_kind("name")
        mark = self.mark()
        if marked and not mark:
            self.refuse()
        return Call(name.place, receiver, name.text, mark, self.given())

    def given(self):
        return [(name.text, name.place, value) for name, value in self.named(self.expression)]

    def expression(self):
        first = self.operand()
        operator = self.token()
        if not self.is_operator(operator):
            return first
        self.take()
        if operator.text == "as":
            whole = Convert(operator.place, first, self.type())
        else:
            whole = Operator(operator.place, operator.text, [first, self.operand()], [operator.place])
            while operator.text in CHAINED and self.stands(operator.text):
                whole.signs.append(self.take().place)
                whole.operands.append(self.operand())
        if self.is_operator(self.token()):
            self.refuse("S6")
        return whole

    def is_operator(self, token):
        return token.kind in ("word", "symbol") and (token.text in OPERATORS or token.text == "as")

    def operand(self):
        place = self.token().place
        return Not(place, self.atom()) if self.skip("not") else self.atom()

    def atom(self):
        token = self.token()
        if token.kind == "number":
            return Number(self.take().place, token.value)
        if token.kind == "text":
            return StatusText(self.take().place, token.text, token.place, False)
        if self.skip("base"):
            self.expect(".")
            text = self.of_kind("text")
            return StatusText(token.place, text.text, text.place, True)
        if self.skip("ok"):
            return Fine(token.place)
        if self.skip("true") or self.skip("false"):
            return Truth(token.place, token.text == "true")
        if self.skip("("):
            inner = self.expression()
            self.expect(")")
            return inner
        if self.is_call_on_this():
            return self.call(This(self.take().place), marked=False)
        path = self.path()
        if self.stands("."):
            return self.call(path, marked=False)
        return self.part_of(path) if self.stands("[") else path

    def part_of(self, path):
        """An index or a slice."""
        place = self.expect("[")
        low = None if self.stands("..") else self.expression()
        if low is not None and self.skip("]"):
            return Index(place, path, low)
        self.expect("..")
        high = None if self.stands("]") else self.expression()
        self.expect("]")
        return Slice(place, path, low, high)
