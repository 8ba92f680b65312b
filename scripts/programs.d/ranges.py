"""The ranges of numbers, by docs/LANGUAGE.md: never narrower than what a compiler may know."""

import dataclasses

from meaning import GREATEST, LEAST, RANGES, quotient

FULL = LEAST, GREATEST


def within(found, wanted):
    return wanted[0] <= found[0] and found[1] <= wanted[1]


def hull(first, second):
    return min(first[0], second[0]), max(first[1], second[1])


def ends(f, a, b):
    """The least and the greatest of a function at the ends of two ranges."""
    numbers = [f(x, y) for x in a for y in b]
    return min(numbers), max(numbers)


def remainder(a, b):
    size = max(abs(b[0]), abs(b[1])) - 1
    return (0 if a[0] >= 0 else -size), (0 if a[1] <= 0 else size)


def divided(a, b):
    """The range of a quotient, where the divisor is not 0 and it is a word."""
    return ends(quotient, a, b)


def may_divide(a, b):
    return (b[0] > 0 or b[1] < 0) and not (a[0] == LEAST and b[0] <= -1 <= b[1])


def checked(operator, a, b):
    """The range of a checked operator, or none if it may fail."""
    if operator in "/\\":
        if not may_divide(a, b):
            return None
        return divided(a, b) if operator == "/" else remainder(a, b)
    f = {"+": lambda x, y: x + y, "-": lambda x, y: x - y, "*": lambda x, y: x * y}[operator]
    found = ends(f, a, b)
    return found if within(found, FULL) else None


WRAPPING = {"PLUS": "+", "MINUS": "-", "TIMES": "*"}


def joined(operator, a, b):
    """The range of an operator on two ranges of INT, or none if it may fail."""
    if operator in ("+", "-", "*", "/", "\\"):
        return checked(operator, a, b)
    if operator in WRAPPING:
        return checked(WRAPPING[operator], a, b) or FULL
    if operator in ("<<", ">>"):
        if not within(b, (0, 31)):
            return None
        return (0, a[1]) if operator == ">>" and a[0] >= 0 else FULL
    if operator == "/\\" and (a[0] >= 0 and b[0] >= 0):
        return 0, min(a[1], b[1])
    return FULL


OPPOSITE = {"=": "<>", "<>": "=", "<": ">=", ">=": "<", ">": "<=", "<=": ">"}
MIRRORED = {"=": "=", "<>": "<>", "<": ">", ">": "<", "<=": ">=", ">=": "<="}


def narrowed(found, comparison, constant):
    """What is left of a range where a comparison with a constant holds; all of it if nothing is."""
    low, high = found
    match comparison:
        case "=":
            low, high = max(low, constant), min(high, constant)
        case "<>":
            low, high = low + (low == constant), high - (high == constant)
        case "<":
            high = min(high, constant - 1)
        case "<=":
            high = min(high, constant)
        case ">":
            low = max(low, constant + 1)
        case ">=":
            low = max(low, constant)
    return (low, high) if low <= high else found


@dataclasses.dataclass(eq=False)
class Entry:
    """What a name stands for where code is written.

    The kind is `scalar`, `value` (a VAL parameter), `variable` (a parameter that is one), `index` (of a SEQ), `turn`
    (of another replicator), `constant`, `array`, `values` (a VAL array), `table`, `channel` or `channels`. The range is
    one that a compiler's lies within; it is that range itself where it is exact.
    """

    kind: str
    type: str
    name: str
    range: tuple = (0, 0)
    is_exact: bool = True
    size: int = 0
    value: int = 0
    may_read: bool = True
    may_write: bool = True
    # which ends of a channel may be used whenever it suits, as those of links
    ends: frozenset = frozenset()

    def is_narrowed(self):
        return self.kind in ("scalar", "value")

    def full(self):
        return RANGES[self.type]
