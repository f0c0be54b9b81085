"""Wrong rules of bounds, to see that random packages and scripts tell them from the right ones. Each has a name, and for each
thing that it replaces the owner, the name there, and a function from the right thing to the wrong one."""
from . import bounds, facts, ranges
from .bounds import Bounds
from .facts import Facts
from .trees import Index, Operator


def not_asked(rule):
    """A demand that is never asked."""
    def turned(right):
        return lambda self, met, asked, place: right(self, met or asked == rule, asked, place)
    return f"{rule} isn't asked", Facts, "demand", turned


def forgetting_less(name, fewer):
    """`fewer` gives of the things that are forgotten together those that still are."""
    return name, Facts, "drop", lambda right: lambda self, *things: right(self, *fewer(things))


def clauses_not_asked(name, where):
    """`where` tells of a loop, the words that are asked and the place whether nothing is asked there."""
    def turned(right):
        return lambda self, loop, words, known, place: None if where(loop, words, place) else right(self, loop, words, known, place)
    return name, Bounds, "require_clauses", turned


def renewed_as_before(name, which):
    def turned(right):
        return lambda self, thing, form, renewed: right(self, thing, form, (lambda sign, old: old) if form[0] == which else renewed)
    return name, Facts, "renew", turned


def writes_kept(right):
    return lambda self, target, known: None if isinstance(target, Index) and target.base.root == "" else right(self, target, known)


def copies_kept(right):
    def base_call(self, it, call, known):
        before = list(known.list)
        gives = right(self, it, call, known)
        if call.name == "copy_from_slice":
            known.list = before
        return gives
    return base_call


def first_operand(right):
    def facts_of(self, it, answer):
        is_or = isinstance(it, Operator) and it.op == ("or" if answer else "and")
        return right(self, it.operands[0], answer) if is_or else right(self, it, answer)
    return facts_of


def all_together(right):
    return lambda self, ends: Facts(self.package, dict.fromkeys(fact for end in ends for fact in end.list))


def up_to_the_length(right):
    def gives_sides(self, left, left_range, sign, other, other_range):
        is_length = other[:2] == ("called", "length")
        return right(self, left, left_range, "<=" if sign == "<" and is_length else sign, other, other_range)
    return gives_sides


def cut_off(right):
    return lambda op, bits, a, b, ordered: right("~sat" + op[4:] if op in ("~mod+", "~mod-") else op, bits, a, b, ordered)


def cut_operands(right):
    """Ranges of operands that the demands would have refused are cut, so that what comes after has a range."""
    def applied(op, bits, a, b, ordered):
        if b and op in ("/", "%"):
            b = max(b[0], 1), max(b[1], 1)
        if b and "<<" in op or b and op == ">>":
            b = min(b[0], bits - 1), min(b[1], bits - 1)
        return right(op, bits, a, b, ordered)
    return applied


SUSPENDED = ("this", "args", "element", "slices")
SINGLE = [
    *[not_asked(rule) for rule in "B1 B2 B3 B6 B7 B8 B9 B10 B11 B12".split()],
    *[forgetting_less(f"facts on {it} are kept over a suspension",
                      lambda things, it=it: [one for one in things if one != it] if things == SUSPENDED else things)
      for it in ("this", "args", "slices")],
    *[forgetting_less(f"facts on {it} are kept over a marked call",
                      lambda things, it=it: [one for one in things if one != it] if things[:2] == ("this", "element") else things)
      for it in ("this", "element")],
    forgetting_less("facts on what is passed are kept over a marked call",
                    lambda things: things[:2] if things[:2] == ("this", "element") else things),
    ("facts on elements are kept over a write through a slice", Bounds, "drop_target", writes_kept),
    ("facts are kept over a copy", Bounds, "base_call", copies_kept),
    ("a variable equals an expression that mentions it", bounds, "mentions_variable", lambda right: lambda form, declaration: False),
    renewed_as_before("numbers stay where a variable grows", "variable"),
    renewed_as_before("numbers stay where bytes are skipped or written", "called"),
    clauses_not_asked("nothing is asked at `continue`",
                      lambda loop, words, place: words[0] == "pre" and place not in (loop.place, loop.body.close)),
    clauses_not_asked("nothing is asked at a body's end", lambda loop, words, place: place == loop.body.close),
    clauses_not_asked("nothing is asked at the entry", lambda loop, words, place: words[0] == "pre" and place == loop.place),
    clauses_not_asked("nothing is asked at `break`", lambda loop, words, place: words[0] == "inv" and place != loop.place),
    clauses_not_asked("nothing is asked at the exit", lambda loop, words, place: words[0] == "inv" and place == loop.place),
    ("a pre stands after its loop", Bounds, "clause_facts",
     lambda right: lambda self, loop, words: right(self, loop, ("pre", "inv", "post"))),
    ("the inverse condition stands after a loop that is left", bounds, "leaves", lambda right: lambda block, loop: False),
    ("all facts stand after arms", Bounds, "common", all_together),
    ("an `or` tells its first operand", Facts, "facts_of", first_operand),
    ("an index may be the length", Facts, "gives_sides", up_to_the_length),
    ("`<>` is taken for `<`", facts, "ALLOWS", lambda right: {**right, "<>": {-1}}),
    ("the opposite of `<` is `>`", facts, "COMPLEMENT", lambda right: {**right, "<": ">"}),
    ("operators that wrap are cut off", facts, "applied", cut_off),
    ("bits are added by the larger ends", ranges, "PLAIN", lambda right: {**right, "|": lambda a, b: (max(a[0], b[0]), max(a[1], b[1]))}),
    ("the first premise isn't asked", bounds, "premises", lambda right: lambda *what: right(*what)[1:]),
]
WRONG = [(name, [tuple(what)]) for name, *what in SINGLE]
WRONG += [(not_asked(rule)[0], [not_asked(rule)[1:], (facts, "applied", cut_operands)]) for rule in ("B4", "B5")]


class Replaced:
    """While it is entered, a wrong rule stands for the right one."""

    def __init__(self, wrong):
        self.replaced = [(owner, name, getattr(owner, name), turned) for owner, name, turned in wrong[1]]

    def __enter__(self):
        for owner, name, right, turned in self.replaced:
            setattr(owner, name, turned(right))

    def __exit__(self, *_):
        for owner, name, right, _ in self.replaced:
            setattr(owner, name, right)
