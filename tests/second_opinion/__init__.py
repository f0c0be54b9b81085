"""A second opinion on packages: what the rules of reading, names, types and effects, and bounds say of a package, written in
Python from the rules as docs/LANGUAGE.md and docs/RULES.md tell them, with the choices of docs/DECISIONS.md, and sharing no
code with the program. The two are compared on random packages by ../random_answers.py.

Not judged are the limits that random packages don't reach: bytes, files, tokens and statements (L1, L2, L3, L5).
"""
from .bounds import judge_bounds
from .names import judge_names
from .reading import Refused, read
from .trees import Method
from .types import judge_types


def verdict(files):
    """What `check` has to print of the files with these texts, which are named f0, f1 and so on."""
    return judged(files, judge_bounds)


def judged(files, judge_last):
    """The same with another judge of bounds and points."""
    try:
        declarations = [declaration for number, text in enumerate(files) for declaration in read(text, number)]
    except Refused as refused:
        return refusal(refused.rule, refused.place)
    for judge in (judge_names, judge_types):
        violations = judge(declarations)
        if violations:
            place, rule = min(violations)
            return refusal(rule.name, place)
    refused = judge_last(declarations)
    return refusal(*refused) if refused else f"ok {sum(isinstance(it, Method) for it in declarations)} methods"


def refusal(rule, place):
    file, line, column = place
    return f"refused {rule} f{file}:{line}:{column}"
