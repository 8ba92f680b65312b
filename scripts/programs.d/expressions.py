"""Random expressions that a compiler accepts where they stand."""

import ranges
import tree
from meaning import GREATEST, LEAST, fitting
from ranges import FULL, MIRRORED, OPPOSITE, within

BYTES = (0, 255)
COMPARISONS = list(OPPOSITE)
NAMES = [*"abcdefghijkmnpqrstuvwxyz", "x1", "y.2", "count", "sum", "Seq", "t.", "zz", "last.item"]
INTERESTING = [0, 1, -1, 2, 3, 7, 10, 100, 255, 256, 65535, 1000000, GREATEST, LEAST, GREATEST - 1, LEAST + 1]
NUMBERS = ("scalar", "value", "variable", "index", "turn", "constant")


def number(value, type_="INT", style=0):
    """A literal of a value, in one of the ways to write it."""
    if type_ == "BYTE":
        written = f"'{tree.spelled(value)}'"
    elif value == LEAST:
        written = "MOSTNEG INT" if style else "#80000000"
    elif value == GREATEST and style:
        written = "MOSTPOS INT"
    elif style == 2:
        written = f"#{value % 2**32:X}"
    else:
        return negated(value) if value < 0 else tree.Number("INT", value, str(value))
    return tree.Number(type_, value, written)


def negated(value):
    return tree.Bracketed("INT", tree.Applied("INT", "-", tree.Number("INT", -value, str(-value))))


class Expressions:
    """Names in scopes, and expressions of them."""

    def __init__(self, dice):
        self.dice, self.scopes, self.hidden = dice, [{}], set()
        # how many subscripts are open
        self.nested = 0

    # ---- names

    def visible(self):
        """What each name stands for here."""
        found = {}
        for scope in self.scopes:
            found.update(scope)
        return found

    def entries(self, *kinds):
        """The entries of some kinds that may be read here."""
        return [e for e in self.visible().values() if e.kind in kinds and e.may_read]

    def add(self, entry):
        self.scopes[-1][entry.name] = entry
        return entry

    def fresh(self, prefix=""):
        """A name that is new in the innermost scope; now and then it hides one outside, unless somebody needs that."""
        visible, here = self.visible(), self.scopes[-1]
        while True:
            name = prefix + self.dice.choice(NAMES)
            if self.dice.random() < 0.3 or len(visible) > 15:
                name += str(self.dice.randrange(100))
            if name in here or name in self.hidden:
                continue
            if name not in visible or (self.dice.random() < 0.3 and visible[name].kind in NUMBERS):
                return name

    # ---- numbers

    def literal(self, wanted=FULL):
        """A literal within a range."""
        choices = [v for v in INTERESTING if wanted[0] <= v <= wanted[1]]
        low, high = max(wanted[0], -50), min(wanted[1], 300)
        if low <= high:
            choices += [self.dice.randint(low, high) for _ in range(4)]
        value = self.dice.choice(choices or [wanted[0]])
        return number(value, "INT", self.dice.choice([0, 0, 1, 2])), (value, value)

    def named(self, type_):
        """A number by its name, or an element, of a type."""
        found = [e for e in self.entries(*NUMBERS, "array", "values", "table") if e.type == type_]
        if not found:
            return None
        e = self.dice.choice(found)
        if e.kind in NUMBERS:
            return tree.Name(type_, e.name), e.range
        return tree.Element(type_, e.name, self.subscript(e.size)), e.range

    def subscript(self, size):
        """An expression within an array of a size; a literal where it is within some others."""
        self.nested += 1
        wanted = 0, size - 1
        made = self.number(self.dice.choice([0, 0, 1, 1, 2]), wanted) if self.nested < 3 else self.literal(wanted)
        self.nested -= 1
        return made[0]

    def number(self, depth, wanted=FULL):
        """An expression of INT within a range, and its own range."""
        for _ in range(4):
            made = self.any_number(depth, wanted)
            if made and within(made[1], wanted):
                return made
        return self.forced(depth, wanted)

    def forced(self, depth, wanted):
        """An expression that is brought into a range by a remainder or a mask, or else is a literal."""
        low, high = wanted
        made = self.not_negative(depth)
        if made is None or low > 0 or high <= 0 or self.dice.random() < 0.25:
            return self.literal(wanted)
        e, found = made
        if within(found, wanted):
            return e, found
        power = 1 << (high + 1).bit_length() - 1
        if self.dice.random() < 0.4 and power > 1:
            operator, limit = "/\\", power - 1
        else:
            operator, limit = "\\", min(high, GREATEST - 1) + 1
        return self.chain(operator, [made, (number(limit), (limit, limit))])

    def not_negative(self, depth):
        """An expression that is not negative, if there is one but literals."""
        found = [(tree.Name("INT", e.name), e.range) for e in self.entries(*NUMBERS) if e.type == "INT"]
        found += [(tree.Converted("INT", tree.Name("BYTE", e.name)), e.range)
                  for e in self.entries(*NUMBERS) if e.type == "BYTE"]
        found += [(tree.Element("INT", e.name, self.subscript(e.size)), e.range)
                  for e in self.entries("table") if e.type == "INT"]
        found = [made for made in found if made[1][0] >= 0 and made[1][1] > 0]
        return self.dice.choice(found) if found else None

    def any_number(self, depth, wanted):
        """Some expression of INT."""
        roll = self.dice.random()
        if depth <= 0 or roll < 0.15:
            return (self.named("INT") if self.dice.random() < 0.8 else None) or self.literal(wanted)
        if roll < 0.25:
            e, found = self.byte(depth - 1) if self.dice.random() < 0.8 else self.number(depth - 1)
            return tree.Converted("INT", e), found
        if roll < 0.33:
            return self.applied(depth)
        if roll < 0.38:
            e, found = self.number(depth - 1, wanted)
            return tree.Bracketed("INT", e), found
        return self.operation(depth)

    def applied(self, depth):
        if self.dice.random() < 0.5:
            e, found = self.number(depth - 1, (LEAST + 1, GREATEST))
            return tree.Applied("INT", "-", e), (-found[1], -found[0])
        e, found = self.number(depth - 1)
        return tree.Applied("INT", "~", e), (FULL if found[0] < found[1] else (~found[0], ~found[0]))

    def operation(self, depth):
        """Two operands or more with an operator that does not fail on them."""
        operator = self.dice.choice("+ + - - * / / \\ \\ PLUS PLUS MINUS TIMES /\\ /\\ \\/ >< << >>".split())
        count = 2
        if operator in ("+", "*", "PLUS", "TIMES", "/\\", "\\/", "><") and self.dice.random() < 0.25:
            count = self.dice.choice([3, 3, 4, 7])
        limit = {"<<": (0, 31), ">>": (0, 31)}.get(operator, FULL)
        first = self.number(depth - 1, self.small(operator))
        others = [self.number(depth - 1 if limit == FULL else 1, self.small(operator, limit)) for _ in range(count - 1)]
        if operator in ("/", "\\"):
            others = [self.divisor(others[0])]
        return self.chain(operator, [first, *others])

    def divisor(self, made):
        """A divisor: a scalar that is known not to be 0, or else what is given, or a literal."""
        known = [e for e in self.entries(*NUMBERS) if e.type == "INT" and not e.range[0] <= 0 <= e.range[1]]
        if known and self.dice.random() < 0.7:
            e = self.dice.choice(known)
            return tree.Name("INT", e.name), e.range
        if made[1][0] <= 0 <= made[1][1]:
            return self.literal(self.dice.choice([(1, GREATEST), (1, 20), (LEAST, -2), (-9, -2)]))
        return made

    def small(self, operator, otherwise=FULL):
        """Mostly, a range on which a checked operator does not fail."""
        if operator in ("+", "-", "*") and self.dice.random() < 0.7:
            return self.dice.choice([(-1000, 1000), (0, 255), (0, 40000), (-100, 9)])
        return otherwise

    def chain(self, operator, operands):
        """Operands with an operator, or with one that does not fail, and the range."""
        found = operands[0][1]
        for _, other in operands[1:]:
            found = ranges.joined(operator, found, other)
            if found is None:
                instead = {"+": "PLUS", "-": "MINUS", "*": "TIMES", "/": "><", "\\": "\\/"}[operator]
                return self.chain(instead, operands)
        return tree.Chain("INT", operator, [e for e, _ in operands]), found

    def deep(self, e, found):
        """An expression within many others."""
        for _ in range(self.dice.choice([10, 40])):
            roll = self.dice.random()
            if roll < 0.2:
                e = tree.Bracketed("INT", e)
            elif roll < 0.4:
                e, found = tree.Applied("INT", "~", e), FULL
            else:
                operator = self.dice.choice(["PLUS", "MINUS", "TIMES", "><", "\\/", "/\\"])
                both = [self.named("INT") or self.literal(), (e, found)]
                e, found = self.chain(operator, both if roll < 0.8 else both[::-1])
        return e, found

    def byte(self, depth):
        """An expression of BYTE, and its range."""
        roll = self.dice.random()
        made = self.named("BYTE") if roll < 0.5 else None
        if made:
            return made
        if depth > 0 and roll < 0.8:
            e, found = self.number(depth - 1, BYTES)
            return tree.Converted("BYTE", e), found
        value = self.dice.choice([0, 10, 32, 39, 42, 48, 65, 97, 255, self.dice.randrange(256)])
        return number(value, "BYTE"), (value, value)

    def of(self, type_, depth):
        return self.number(depth) if type_ == "INT" else self.byte(depth)

    # ---- conditions

    def condition(self, depth):
        """A condition."""
        roll = self.dice.random()
        if roll < 0.04:
            return tree.Truth(self.dice.random() < 0.5)
        if depth <= 0 or roll < 0.35:
            return self.test()
        if roll < 0.6:
            type_ = self.dice.choice(["INT", "INT", "BYTE"])
            both = [self.of(type_, depth - 1)[0] for _ in range(2)]
            return tree.Chain("BOOL", self.dice.choice(COMPARISONS), both)
        if roll < 0.75:
            return tree.Applied("BOOL", "NOT", self.condition(depth - 1))
        if roll < 0.8:
            return tree.Bracketed("BOOL", self.condition(depth - 1))
        parts = [self.condition(depth - 1) for _ in range(self.dice.choice([2, 2, 3]))]
        return tree.Chain("BOOL", self.dice.choice(["AND", "OR"]), parts)

    def test(self):
        """A scalar that is compared with a literal or a constant."""
        found = self.entries(*NUMBERS)
        if not found:
            return tree.Truth(True)
        e = self.dice.choice(found)
        constants = [c for c in self.entries("constant", "turn") if c.type == e.type]
        if constants and self.dice.random() < 0.3:
            other = tree.Name(e.type, self.dice.choice(constants).name)
        elif e.type == "BYTE":
            other = number(self.dice.choice([0, 32, 48, 65, 97, 255]), "BYTE")
        else:
            other = self.literal(self.dice.choice([(-20, 20), (0, 10), e.range]))[0]
        both = [tree.Name(e.type, e.name), other]
        if self.dice.random() < 0.2:
            both.reverse()
        return tree.Chain("BOOL", self.dice.choice(COMPARISONS), both)

    def constant(self, e):
        """The value of a constant expression, and whether a turn is in it; none of another expression."""
        found = self.visible()
        match e:
            case tree.Number():
                return e.value, False
            case tree.Name() if found[e.name].kind in ("constant", "turn"):
                return found[e.name].value, found[e.name].kind == "turn"
            case tree.Bracketed():
                return self.constant(e.inner)
            case tree.Applied(operator="-"):
                known = self.constant(e.operand)
                return known and (fitting(-known[0]), known[1])
        return None

    def compared(self, e):
        """What a condition narrows: an entry, the comparison, and the constant, which is none if it is not known."""
        if not isinstance(e, tree.Chain) or e.operator not in OPPOSITE:
            return None
        for one, other, comparison in [(*e.operands, e.operator), (*e.operands[::-1], MIRRORED[e.operator])]:
            entry = self.visible()[one.name] if isinstance(one, tree.Name) else None
            if entry and entry.is_narrowed() and self.may_be_constant(other):
                known = self.constant(other)
                return entry, comparison, None if known is None or known[1] else known[0]
        return None

    def may_be_constant(self, e):
        """Whether a compiler may take this for a constant expression."""
        match e:
            case tree.Number():
                return True
            case tree.Name():
                return self.visible()[e.name].kind in ("constant", "turn")
            case tree.Element():
                return False
            case tree.Chain():
                return all(map(self.may_be_constant, e.operands))
            case tree.Bracketed():
                return self.may_be_constant(e.inner)
            case tree.Applied() | tree.Converted():
                return self.may_be_constant(e.operand)
        return False

    def narrow(self, condition, holds, is_repeated):
        """The ranges where a condition has this truth. Under a replicator the same was asked before, so that nothing
        exact is known."""
        told = self.compared(condition)
        if told is None:
            return
        entry, comparison, constant = told
        if is_repeated or constant is None or not entry.is_exact:
            entry.is_exact = False
        else:
            entry.range = ranges.narrowed(entry.range, comparison if holds else OPPOSITE[comparison], constant)
