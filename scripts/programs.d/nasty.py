"""Random sequential programs that are made to be nasty: ranges end at the limits of words, names are hidden, choices
cannot be reached, and loops change what is around them. Some programs break a rule."""

import re

import ranges
import tree
from expressions import COMPARISONS, NUMBERS, number
from meaning import GREATEST, LEAST
from ranges import Entry
from statements import ARRAYS, Statements, plain, seq

NAMES = ["a", "b", "i", "n", "x", "y.z"]
EDGES = [0, 1, -1, 255, 256, GREATEST, GREATEST - 1, LEAST, LEAST + 1]
SIZES = [1, 1, 2, 3, 4, 5, 7, 8, 9, 64, 255, 256, 257, 1000]
COUNTS = [0, 1, 1, 2, 3, 8, 256, 100000, GREATEST]
# a line of main begins two levels deeper than that, and each level of a block here takes up to three
MOST_DEEP = 16


class Nasty(Statements):
    """Processes that end where ranges end."""

    def __init__(self, dice):
        super().__init__(dice)
        self.levels = 0

    # ---- names

    def fresh(self, prefix=""):
        """A name that is new in the innermost scope, and mostly hides one outside."""
        visible, here = self.visible(), self.scopes[-1]
        while True:
            name = prefix + self.dice.choice(NAMES)
            if self.dice.random() < 0.1 or len(here) > 3:
                name += str(self.dice.randrange(60))
            if name in here or name in self.hidden:
                continue
            if name not in visible or self.dice.random() < 0.8:
                return name

    def declare_constant(self, type_):
        """A constant, often of one that it hides."""
        known = [e for e in self.entries("constant") if e.type == "INT" and abs(e.value) < 2**30]
        if type_ == "BYTE" or not known or self.dice.random() < 0.5:
            return super().declare_constant(type_)
        e = self.dice.choice(known)
        more = self.dice.choice([1, -1, 7, e.value])
        name = e.name if e.name not in self.scopes[-1] and self.dice.random() < 0.7 else self.fresh()
        value = tree.Chain("INT", "+", [tree.Name("INT", e.name), number(more)])
        found = e.value + more
        self.add(Entry("constant", "INT", name, (found, found), value=found))
        return tree.Constant("INT", name, value)

    def declare_array(self, size, type_="INT"):
        return super().declare_array(self.dice.choice(SIZES), type_)

    # ---- numbers

    def edges(self, found):
        """Numbers where a range ends, and beside."""
        near = [end + step for end in found for step in (-1, 0, 1)]
        return [value for value in near if LEAST <= value <= GREATEST]

    def literal(self, wanted=ranges.FULL):
        """A literal within a range, mostly at an end."""
        able = [value for value in [*EDGES, *self.edges(wanted)] if wanted[0] <= value <= wanted[1]]
        if not able or self.dice.random() < 0.3:
            return super().literal(wanted)
        value = self.dice.choice(able)
        return number(value, "INT", self.dice.choice([0, 1, 2])), (value, value)

    def operation(self, depth):
        """An operation, or one whose result ends at a limit."""
        if self.dice.random() < 0.7:
            return super().operation(depth)
        e, found = self.number(depth - 1)
        if self.dice.random() < 0.5:
            limit = self.dice.choice([GREATEST - found[1], LEAST - found[0]])
            other = limit if LEAST <= limit <= GREATEST else 0
            return self.chain("+", [(e, found), (number(other), (other, other))])
        other = self.dice.choice([value for value in [2, 3, 255, GREATEST, LEAST + 1, LEAST, -2] if value])
        return self.chain(self.dice.choice("/\\*"), [(e, found), (number(other), (other, other))])

    # ---- tests

    def test(self):
        """A scalar that is compared with a number where its range ends, or beside it."""
        found = self.entries(*NUMBERS)
        if not found or self.dice.random() < 0.2:
            return super().test()
        return self.edge_test(self.dice.choice(found))

    def edge_test(self, e):
        able = [value for value in self.edges(e.range) if e.type == "INT" or 0 <= value <= 255]
        other = number(self.dice.choice(able or [0]), e.type)
        both = [tree.Name(e.type, e.name), other]
        if self.dice.random() < 0.3:
            both.reverse()
        return tree.Chain("BOOL", self.dice.choice(COMPARISONS), both)

    def ladder(self, depth):
        """An IF that tests one scalar again and again, so that some choices cannot be reached."""
        found = self.entries(*NUMBERS)
        if not found:
            return self.choice(depth)
        e = self.dice.choice(found)
        before, behind, choices = self.known(), [], []
        for _ in range(self.dice.choice([2, 3, 4, 5])):
            choices.append(self.one_choice(self.edge_test(e), depth, behind))
        if self.dice.random() < 0.7:
            last = (lambda: plain(self.dice.choice([tree.Skip(), tree.Stop()]))) if self.dice.random() < 0.5 else None
            choices.append(self.one_choice(tree.Truth(True), depth, behind, write=last))
        self.join(before, behind)
        return plain(tree.Block("IF", None, choices))

    def repeated_choice(self, depth):
        made = super().repeated_choice(depth)
        return made if self.dice.random() < 0.5 else seq([made, self.ladder(depth)])

    # ---- loops and blocks

    def replicator(self, kind, count):
        """A replicator, whose indices may end where words do."""
        last = GREATEST - max(count, 1) + 1
        base = self.dice.choice([0, 0, 1, -3, LEAST, last, min(255, last)])
        if base > last:
            base = last
        name = self.fresh()
        entry = Entry(kind, "INT", name, (base, base + max(count, 1) - 1), kind == "index", may_write=False, value=base)
        made = tree.Replicator(name, number(base, "INT", self.dice.choice([0, 1])), self.size(count))
        self.add(entry)
        return made, entry

    def loop(self, depth):
        count = self.dice.choice(COUNTS if self.turns < 1000 else COUNTS[:5])
        return self.loop_of(count, lambda: [self.part(depth)])

    def nest(self, depth):
        """Loops in loops that change the variables around them."""
        def inner(left):
            parts = [self.assign(1) for _ in range(self.dice.choice([1, 1, 2]))]
            parts.append(self.loop_of(self.dice.choice([0, 1, 2, 3]), lambda: [inner(left - 1)]) if left
                         else self.part(depth))
            self.dice.shuffle(parts)
            return seq(parts)
        return inner(self.dice.choice([1, 2, 3]))

    def deep_block(self, depth):
        """A process in many blocks, with declarations on the way."""
        def inside(left):
            if left == 0:
                return self.part(depth)
            return self.with_declarations(lambda: seq([self.assign(1), inside(left - 1)]))
        if self.levels:
            return self.part(depth)
        self.levels = 1
        made = inside(self.dice.choice([3, 6, MOST_DEEP]))
        self.levels = 0
        return made

    def copies(self, depth):
        """Elements are assigned to elements, of bytes and numbers."""
        found = self.writable(*ARRAYS)
        if not found:
            return self.assign(depth)
        parts = []
        for _ in range(self.dice.choice([1, 2, 3])):
            e = self.dice.choice(found)
            value, _ = self.of(e.type, self.dice.choice([0, 1, 2]))
            parts.append(plain(tree.Assign(self.place(e), value)))
            self.change(e)
        return seq(parts)

    def process(self, depth):
        """A process."""
        self.left -= 1
        ways = [(6, self.assign), (3, self.send_out), (3, self.take_in), (3, self.copies),
                (1, lambda d: plain(tree.Skip()))]
        if depth > 0 and self.left > 0:
            ways += [(4, self.sequence), (3, self.choice), (6, self.ladder), (3, self.doubt), (4, self.loop),
                     (3, self.nest), (2, self.repeated_choice), (1, self.deep_block)]
        ways.append((0.3, lambda d: plain(tree.Stop())))
        write = self.dice.choices([w for _, w in ways], [weight for weight, _ in ways])[0]
        return self.with_declarations(lambda: write(depth)) if depth > 0 else write(depth)


# ---- changes that may break a rule

LITERAL = re.compile(r"(?<![\w.#'])\d+(?![\w.])")
COMPARISON = re.compile(r" (=|<>|<|>|<=|>=) ")
OPERATOR = re.compile(r" (\+|-|\*|PLUS|MINUS|TIMES|/\\|\\/|><) ")
NAME = re.compile(r"\b[a-z][\w.]*")


def replaced(dice, line, pattern, others):
    """A line with one of what a pattern finds replaced, if there is any."""
    found = list(pattern.finditer(line))
    if not found:
        return line
    at = dice.choice(found)
    start, end = at.span(at.re.groups)
    return line[:start] + dice.choice(others) + line[end:]


def block_at(lines, at):
    """Where the lines end that are deeper than one."""
    margin = len(lines[at]) - len(lines[at].lstrip())
    end = at + 1
    while end < len(lines) and len(lines[end]) - len(lines[end].lstrip()) > margin:
        end += 1
    return end


def changed(dice, lines):
    """The lines of a program with something changed."""
    body = range(1 + max(k for k, line in enumerate(lines) if line.startswith("PROC main(")), len(lines) - 1)
    at = dice.choice(body)
    line = lines[at]
    match dice.randrange(7):
        case 0 | 1:
            line = replaced(dice, line, LITERAL, ["0", "1", "255", "256", "MOSTPOS INT", "(MOSTNEG INT)", "#7FFFFFFF"])
        case 2:
            line = replaced(dice, line, COMPARISON, COMPARISONS)
        case 3:
            line = replaced(dice, line, OPERATOR, ["+", "-", "*", "PLUS", "MINUS", "TIMES", "/\\", "\\/", "><"])
        case 4:
            names = NAME.findall(" ".join(lines[k] for k in body))
            line = replaced(dice, line, NAME, names or ["a"])
        case 5:
            end = block_at(lines, at)
            return [*lines[:end], *lines[at:end], *lines[end:]]
        case 6:
            return [*lines[:at], *lines[block_at(lines, at):]]
    return [*lines[:at], line, *lines[at + 1:]]


def with_changes(dice, lines):
    """The lines of a program, mostly as they are, or with one thing changed or two."""
    for _ in range(dice.choice([0, 0, 1, 1, 2, 3])):
        lines = changed(dice, lines)
    return lines
