"""Ranges of whole numbers: pairs of a least and a greatest number; None is the empty one. A least number may be below 0."""


def met(a, b):
    """What lies in both."""
    return range_of(max(a[0], b[0]), min(a[1], b[1])) if a and b else None


def range_of(low, high):
    return (low, high) if low <= high else None


def whole(bits):
    return 0, (1 << bits) - 1


def fits(a, b):
    """Whether all of a lies in b; an empty range lies in every one."""
    return a is None or b is not None and b[0] <= a[0] and a[1] <= b[1]


def least_bits(low, high, other_low, other_high, op):
    """The least x op y, for x and y between these ends, found by trying the bits from the highest on."""
    return extreme(low, high, other_low, other_high, op, 0)


def greatest_bits(low, high, other_low, other_high, op):
    return extreme(low, high, other_low, other_high, op, 1)


def extreme(low, high, other_low, other_high, op, wanted):
    """Sets of ends that are still free: a number is tied to its low end, to its high end, to both, or free. For each bit the wanted
    result bit is taken where some choice gives it, and all choices that give it are kept."""
    states, result = {(True, True, True, True)}, 0
    for bit in reversed(range(max(high, other_high).bit_length() + 1)):
        choices = {}
        for tied in states:
            for x in bits_at(low, high, bit, tied[0], tied[1]):
                for y in bits_at(other_low, other_high, bit, tied[2], tied[3]):
                    after = (tied[0] and x == low >> bit & 1, tied[1] and x == high >> bit & 1,
                             tied[2] and y == other_low >> bit & 1, tied[3] and y == other_high >> bit & 1)
                    choices.setdefault(op(x, y), set()).add(after)
        taken = wanted if wanted in choices else 1 - wanted
        states, result = choices[taken], result << 1 | taken
    return result


def bits_at(low, high, bit, tied_low, tied_high):
    least = low >> bit & 1 if tied_low else 0
    most = high >> bit & 1 if tied_high else 1
    return range(least, most + 1)


def bitwise(op):
    return lambda a, b: (least_bits(*a, *b, op), greatest_bits(*a, *b, op))


def xor(a, b):
    return 0, (1 << max(a[1], b[1]).bit_length()) - 1


PLAIN = {
    "+": lambda a, b: (a[0] + b[0], a[1] + b[1]),
    "-": lambda a, b: (a[0] - b[1], max(0, a[1] - b[0])),
    "*": lambda a, b: (a[0] * b[0], a[1] * b[1]),
    "/": lambda a, b: (a[0] // b[1], a[1] // b[0]),
    "%": lambda a, b: (0, min(a[1], b[1] - 1)),
    "<<": lambda a, b: (a[0] << b[0], a[1] << b[1]),
    ">>": lambda a, b: (a[0] >> b[1], a[1] >> b[0]),
    "&": bitwise(lambda x, y: x & y),
    "|": bitwise(lambda x, y: x | y),
    "^": xor,
}


def applied(op, bits, a, b, ordered):
    """The range of an operator between two ranges; `ordered` tells that b is known to be at most a."""
    if a is None or b is None:
        return None
    plain = PLAIN[op[4:] if op.startswith("~") else op](a, b)
    if op.endswith("-") and ordered:
        plain = range_of(max(0, plain[0]), plain[1])
    if op.startswith("~mod"):
        return plain if fits(plain, whole(bits)) else whole(bits)
    if op.startswith("~sat"):
        return tuple(min(max(end, 0), whole(bits)[1]) for end in plain) if plain else None
    return plain
