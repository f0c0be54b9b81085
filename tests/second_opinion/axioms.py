"""Comparisons that follow from others, by the name after `via`."""
import re

NAMES = """a < b: b > a
a < b: a < c; c < b
a < b: a < c; c == b
a < b: a == c; c < b
a < b: a < c; c <= b
a < b: a <= c; c < b
a > b: b < a
a <= b: b >= a
a <= b: a <= c; c <= b
a <= b: a <= c; c == b
a <= b: a == c; c <= b
a >= b: b <= a
a < (b + c): a < c; 0 <= b
a < (b + c): a < (b0 + c0); b0 <= b; c0 <= c
a <= (a + b): 0 <= b
a <= b: a < b
a == b: a <= b; b <= a
(a + c) <= (b + d): a <= b; c <= d""".split("\n")

COMPARISON = re.compile(r"(\(\w+ \+ \w+\)|\w+) (<|<=|==|>=|>) (\(\w+ \+ \w+\)|\w+)")
LETTER = re.compile(r"[a-z]\w*")


def comparisons(name):
    """The goal and the premises of an axiom, each as (left, sign, right, offset in the name)."""
    return [(found[1], found[2], found[3], found.start()) for found in COMPARISON.finditer(name)]


class NoPremises(Exception):
    """The name is no axiom's, the goal hasn't its form, or a letter stands for nothing."""


def premises(name, goal, given, form):
    """The premises as (left, sign, right, offset), where a side is a list of one expression or of two that are summed, or 0. `goal` is
    a comparison of numbers; `form` tells which expressions are the same."""
    if name not in NAMES:
        raise NoPremises
    (left, sign, right, _), *asked = comparisons(name)
    letters = {}
    if goal is None or goal.op != sign:
        raise NoPremises
    for term, operand in ((left, goal.operands[0]), (right, goal.operands[1])):
        match(term, operand, letters, form)
    free = {letter for one in asked for side in (one[0], one[2]) for letter in LETTER.findall(side)} - letters.keys()
    for letter, value in given:
        if letter not in free:
            raise NoPremises
        free.remove(letter)
        letters[letter] = value
    if free:
        raise NoPremises
    return [(side(left, letters), sign, side(right, letters), offset) for left, sign, right, offset in asked]


def match(term, operand, letters, form):
    names = LETTER.findall(term)
    parts = [operand] if len(names) == 1 else summands(operand, form)
    for letter, part in zip(names, parts):
        if letter in letters and form(letters[letter]) != form(part):
            raise NoPremises
        letters.setdefault(letter, part)


def summands(operand, form):
    found = form(operand)
    if found[:2] != ("operator", "+") or len(found) != 5:
        raise NoPremises
    return operand.operands


def side(term, letters):
    return [letters[letter] for letter in LETTER.findall(term)]
