"""Random processes without PAR and ALT, which a compiler accepts where they stand."""

import dataclasses

import ranges
import tree
from expressions import COMPARISONS, Expressions, number
from ranges import Entry, hull

MOST_TURNS = 120
VARIABLES = ("scalar", "variable")
ARRAYS = ("array",)


def seq(parts):
    return tree.Process([], tree.Block("SEQ", None, parts))


def plain(construct):
    return tree.Process([], construct)


class Statements(Expressions):
    """Processes, and what is known of ranges behind them."""

    def __init__(self, dice):
        super().__init__(dice)
        # what was changed in each loop, component and branch that is open
        self.changes = []
        # how often what is written here happens at most, in all loops around it
        self.turns = 1
        # how many statements may still be written
        self.left = 40
        self.items, self.procedures = [], []
        # links of which messages are taken as they come, and how many
        self.merged = [], 0

    # ---- what is known

    def known(self):
        """The entries of all scopes with what is known of each."""
        return {e: (e.range, e.is_exact) for scope in self.scopes for e in scope.values()}

    def restore(self, known):
        for e, (found, is_exact) in known.items():
            e.range, e.is_exact = found, is_exact

    def change(self, e):
        for changed in self.changes:
            changed.add(e)

    def assigned(self, e, found, is_exact):
        """What is known of a variable that was assigned."""
        self.change(e)
        if e.kind == "scalar":
            e.range, e.is_exact = found, is_exact

    def is_exact(self, e):
        """Whether the range of an expression is the one that a compiler has."""
        match e:
            case tree.Number():
                return True
            case tree.Name():
                found = self.visible()[e.name]
                return found.kind != "turn" and found.is_exact
            case tree.Element():
                return True
        return False

    def writable(self, *kinds, type_=None):
        return [e for e in self.entries(*kinds) if e.may_write and type_ in (None, e.type)]

    # ---- declarations

    def in_scope(self, write):
        """What `write` gives in a scope of its own."""
        self.scopes.append({})
        made = write()
        self.scopes.pop()
        return made

    def with_declarations(self, write, least=0):
        """A process of some declarations and then the construct that `write` gives."""
        def written():
            count = max(least, self.dice.choice([0, 0, 0, 1, 1, 2]))
            declared = [self.declare(k < least) for k in range(count)]
            made = write()
            if made.declared and declared:
                return tree.Process(declared, tree.Block("SEQ", None, [made]))
            return tree.Process(declared + made.declared, made.construct)
        return self.in_scope(written)

    def declare(self, is_variable=False):
        """A declaration of variables, a constant or a table."""
        roll = 0 if is_variable else self.dice.random()
        type_ = self.dice.choice(["INT", "INT", "INT", "BYTE"])
        if roll < 0.5:
            names = [self.fresh()]
            self.add(Entry("scalar", type_, names[0]))
            if self.dice.random() < 0.4:
                names.append(self.fresh())
                self.add(Entry("scalar", type_, names[1]))
            return tree.Variables(type_, None, names)
        if roll < 0.75:
            return self.declare_array(self.dice.choice([1, 2, 3, 4, 5, 7, 8, 16, 33, 256]), type_)
        return self.declare_constant(type_) if roll < 0.9 else self.declare_table(type_)

    def declare_array(self, size, type_="INT"):
        name = self.fresh()
        self.add(Entry("array", type_, name, range=ranges.RANGES[type_], size=size))
        return tree.Variables(type_, self.size(size), [name])

    def size(self, size):
        """An expression of a size."""
        same = [e for e in self.entries("constant") if e.type == "INT" and e.value == size]
        if same and self.dice.random() < 0.7:
            return tree.Name("INT", same[0].name)
        if self.dice.random() < 0.15:
            return tree.Chain("INT", "+", [number(size - 1), number(1)])
        return number(size)

    def declare_constant(self, type_):
        value = self.dice.choice([0, 1, 2, 3, 4, 5, 8, 10, self.dice.randrange(256)])
        written = number(value, type_)
        if type_ == "INT" and self.dice.random() < 0.3:
            value = self.dice.choice([-1, -7, ranges.LEAST, ranges.GREATEST, 70000])
            written = number(value)
        name = self.fresh()
        self.add(Entry("constant", type_, name, (value, value), value=value))
        return tree.Constant(type_, name, written)

    def declare_table(self, type_):
        size = self.dice.choice([1, 2, 3, 4, 5, 8])
        if type_ == "BYTE" and self.dice.random() < 0.5:
            items = bytes(self.dice.choice([*b"abcXYZ 0123'\"*", self.dice.randrange(256)]) for _ in range(size))
            values, written = list(items), items
        else:
            wanted = self.dice.choice([(0, size - 1), (0, 255), (-5, 5)] if type_ == "INT" else [(0, 255)])
            values = [self.dice.randint(*wanted) for _ in range(size)]
            if type_ == "INT" and self.dice.random() < 0.1:
                values[0] = self.dice.choice([ranges.LEAST, ranges.GREATEST])
            written = [number(v, type_) for v in values]
        name = self.fresh()
        self.add(Entry("table", type_, name, (min(values), max(values)), size=size))
        return tree.Table(type_, name, number(size), written)

    # ---- processes

    def merging_of_links(self):
        return []

    def process(self, depth):
        """A process."""
        self.left -= 1
        ways = [(8, self.assign), (5, self.send_out), (2, self.take_in), (1, lambda d: plain(tree.Skip()))]
        if depth > 0 and self.left > 0:
            ways += [(5, self.sequence), (6, self.choice), (3, self.doubt), (3, self.loop), (1, self.repeated_choice),
                     (4, self.instance), *self.more_ways(depth)]
        ways.append((0.1, lambda d: plain(tree.Stop())))
        write = self.dice.choices([w for _, w in ways], [weight for weight, _ in ways])[0]
        return self.with_declarations(lambda: write(depth)) if depth > 0 else write(depth)

    def more_ways(self, depth):
        return []

    def part(self, depth):
        return self.process(depth - 1)

    def sequence(self, depth):
        count = self.dice.choice([0, 1, 2, 2, 3, 3, 4, 5])
        return seq([self.part(depth) for _ in range(count)])

    def assign(self, depth):
        """An assignment to a variable or an element."""
        found = self.writable(*VARIABLES, *ARRAYS)
        if not found:
            return plain(tree.Skip())
        e = self.dice.choice(found)
        value, known = self.of(e.type, self.dice.choice([0, 1, 1, 2, 3]))
        if e.type == "INT" and self.dice.random() < 0.02:
            value, known = self.deep(value, known)
        is_exact = self.is_exact(value)
        place = self.place(e)
        self.assigned(e, known, is_exact)
        return plain(tree.Assign(place, value))

    def place(self, e):
        """A variable, or an element of an array."""
        return tree.Name(e.type, e.name) if e.size == 0 else tree.Element(e.type, e.name, self.subscript(e.size))

    def target(self, type_):
        """A place that is received into, if there is one."""
        found = self.writable(*VARIABLES, *ARRAYS, type_=type_)
        if not found:
            return None
        e = self.dice.choice(found)
        place = self.place(e)
        self.assigned(e, e.full(), True)
        return place

    def ports(self, direction):
        """The channels that may be used freely for a direction."""
        return [e for e in self.visible().values() if e.kind == "channel" and direction in e.ends]

    def send_out(self, depth):
        found = self.ports("out")
        if not found:
            return self.assign(depth)
        e = self.dice.choice(found)
        return plain(tree.Send(tree.Name(e.type, e.name), self.of(e.type, self.dice.choice([0, 1, 2]))[0]))

    def take_in(self, depth):
        found = self.ports("in")
        e = found and self.dice.choice(found)
        place = e and self.target(e.type)
        return plain(tree.Receive(tree.Name(e.type, e.name), place)) if place else self.assign(depth)

    def report(self):
        """What is known at the end goes out, where there is a link for it."""
        parts = []
        for link in self.ports("out"):
            for e in self.entries("scalar", "variable", "array"):
                if e.type == link.type and self.dice.random() < 0.7:
                    value = self.place(e)
                    parts.append(plain(tree.Send(tree.Name(link.type, link.name), value)))
        return parts

    # ---- choices

    def choice(self, depth):
        """An IF of some choices."""
        before, behind, choices = self.known(), [], []
        for _ in range(self.dice.choice([0, 1, 1, 2, 2, 3]) if self.dice.random() < 0.9 else 6):
            choices.append(self.one_choice(self.condition(2), depth, behind))
        if self.dice.random() < 0.93:
            choices.append(self.one_choice(tree.Truth(True), depth, behind))
        self.join(before, behind)
        return plain(tree.Block("IF", None, choices))

    def one_choice(self, condition, depth, behind, is_repeated=False, write=None):
        """A choice. What is known behind it is added, and then it is known that its condition does not hold."""
        before = self.known()
        self.narrow(condition, True, is_repeated)
        process = write() if write else self.with_use(condition, depth)
        behind.append(self.known())
        self.restore(before)
        self.narrow(condition, False, is_repeated)
        return condition, process

    def with_use(self, condition, depth):
        """A process, and often an assignment before it that rests on what a condition tells."""
        told = self.compared(condition)
        targets = self.writable(*VARIABLES, type_="INT")
        if told is None or told[0].type != "INT" or not targets or self.dice.random() < 0.3:
            return self.part(depth)
        entry, target = told[0], self.dice.choice(targets)
        low, high = entry.range
        arrays = [e for e in self.entries("array", "values", "table") if e.type == "INT" and 0 <= low and high < e.size]
        value = tree.Name("INT", entry.name)
        if arrays:
            e = self.dice.choice(arrays)
            used = tree.Element("INT", e.name, value), e.range
        elif not low <= 0 <= high:
            used = self.chain(self.dice.choice(["/", "\\"]), [self.literal(), (value, entry.range)])
        elif high < 2**30 and low > -(2**30):
            used = self.chain("+", [(value, entry.range), self.literal((-9, 99))])
        else:
            return self.part(depth)
        self.assigned(target, used[1], self.is_exact(used[0]))
        return seq([plain(tree.Assign(tree.Name("INT", target.name), used[0])), self.part(depth)])

    def join(self, before, behind):
        """What is known behind some branches."""
        if not behind:
            self.restore(before)
            return
        for e in before:
            found = behind[0][e]
            for other in behind[1:]:
                found = hull(found[0], other[e][0]), found[1] and other[e][1]
            e.range, e.is_exact = found

    # ---- what a machine may know better than the rules for ranges

    def doubt(self, depth):
        """A scalar is tested of which it may be known without the rules for ranges that the test does not hold."""
        found = self.writable("scalar", type_="INT")
        if not found:
            return self.choice(depth)
        e = self.dice.choice(found)
        first = self.made_known(e)
        last = self.tested(e, depth)
        return seq([first, last]) if first else last

    def made_known(self, e):
        """A scalar is assigned, mostly: an element, or a literal in a loop."""
        name, roll = tree.Name("INT", e.name), self.dice.random()
        arrays = [a for a in self.entries("array", "values", "table") if a.type == "INT"]
        if roll < 0.4 and arrays:
            a = self.dice.choice(arrays)
            value = tree.Element("INT", a.name, self.subscript(a.size))
            self.assigned(e, a.range, True)
            return plain(tree.Assign(name, value))
        if roll < 0.7:
            value = number(self.dice.choice([0, 0, 1, 5, -1]))
            count = self.dice.choice([0, 1, 2])
            replicator, _ = self.in_scope(lambda: self.replicator("index", count))
            if replicator.index != e.name:
                self.assigned(e, e.full(), True)
                body = plain(tree.Assign(name, value))
                return plain(tree.Block("SEQ", replicator, [body]))
        return None

    def tested(self, e, depth):
        """An IF with a test of a scalar, often within a choice whose condition says something of it too."""
        name = tree.Name("INT", e.name)
        test = tree.Chain("BOOL", self.dice.choice(COMPARISONS), [name, number(self.dice.randint(-3, 9))])
        inner = lambda: self.if_(test, lambda: self.with_use(test, depth))
        hidden = tree.Chain("BOOL", self.dice.choice(COMPARISONS), [name, number(self.dice.randint(-3, 9))])
        match self.dice.randrange(5):
            case 0:
                return self.if_(tree.Bracketed("BOOL", hidden), inner)
            case 1:
                return self.if_(tree.Applied("BOOL", "NOT", hidden), inner)
            case 2:
                bracketed = tree.Bracketed("INT", name)
                return self.if_(dataclasses.replace(hidden, operands=[bracketed, hidden.operands[1]]), inner)
            case 3:
                others = [o for o in self.entries("scalar") if o.type == "INT" and o is not e]
                if others:
                    both = [name, tree.Name("INT", self.dice.choice(others).name)]
                    return self.if_(dataclasses.replace(hidden, operands=both), inner)
        return inner()

    def if_(self, condition, write):
        """An IF of what `write` gives and a choice that does nothing."""
        before, behind = self.known(), []
        first = self.one_choice(condition, 1, behind, write=write)
        last = self.one_choice(tree.Truth(True), 1, behind, write=lambda: plain(tree.Skip()))
        self.join(before, behind)
        return plain(tree.Block("IF", None, [first, last]))

    def repeated_choice(self, depth):
        """An IF under a replicator."""
        def written():
            replicator, _ = self.replicator("turn", self.dice.choice([1, 2, 3, 5]))
            before, behind = self.known(), []
            choice = self.one_choice(self.condition(2), depth, behind, True)
            self.join(before, behind)
            return plain(tree.Block("IF", replicator, [choice]))
        made = self.in_scope(written)
        return made if self.dice.random() < 0.2 else seq([made, self.part(depth)])

    # ---- loops

    def replicator(self, kind, count):
        """A replicator of some indices, whose index is in the innermost scope."""
        base = self.dice.choice([0, 0, 0, 1, 5, -3])
        name = self.fresh()
        entry = Entry(kind, "INT", name, (base, base + max(count, 1) - 1), kind == "index", may_write=False, value=base)
        made = tree.Replicator(name, number(base), self.size(count) if count else number(0))
        self.add(entry)
        return made, entry

    def loop(self, depth):
        """A SEQ under a replicator."""
        counts = [c for c in [0, 1, 2, 3, 4, 8, 20] if c * self.turns <= MOST_TURNS]
        count = self.dice.choice(counts[1:] or [1]) if self.dice.random() < 0.95 else 0
        return self.loop_of(count, lambda: [self.part(depth)])

    def loop_of(self, count, write):
        """A SEQ under a replicator of what `write` gives, with some variables that its body changes for sure."""
        loose = [e for e in self.writable("scalar") if self.dice.random() < 0.5]
        fixed = {e: e.may_write for e in self.writable("scalar") if e not in loose}
        before = self.known()
        for e in fixed:
            e.may_write = False
        for e in loose:
            e.range, e.is_exact = e.full(), True
        self.changes.append(set())
        replicator, made = self.in_scope(lambda: self.loop_body(count, write, loose))
        changed = self.changes.pop()
        self.restore(before)
        for e, may_write in fixed.items():
            e.may_write = may_write
        for e in changed:
            if e.kind == "scalar":
                e.range, e.is_exact = e.full(), True
        return plain(tree.Block("SEQ", replicator, [made]))

    def loop_body(self, count, write, loose):
        turns, self.turns = self.turns, self.turns * max(count, 1)
        replicator, _ = self.replicator("index", count)
        parts = write()
        seen = self.visible()
        for e in loose:
            if e not in self.changes[-1]:
                if seen.get(e.name) is not e:
                    # The index hides it: so it is not changed, and nothing exact was known.
                    continue
                parts.append(plain(tree.Assign(tree.Name(e.type, e.name), tree.Name(e.type, e.name))))
                self.change(e)
        self.turns = turns
        return replicator, parts[0] if len(parts) == 1 else seq(parts)

    # ---- instances

    def instance(self, depth):
        """An instance of a procedure that is there, or of a new one."""
        able = [p for p in self.procedures if self.actuals(p) is not None]
        if able and self.dice.random() < 0.5:
            return self.call(self.dice.choice(able))
        if len(self.procedures) > 8:
            return self.assign(depth)
        self.procedures.append(self.procedure(depth))
        made = self.call(self.procedures[-1])
        return made or self.assign(depth)

    def call(self, procedure):
        actuals = self.actuals(procedure)
        if actuals is None:
            return None
        for formal, actual in zip(procedure.formals, actuals):
            if formal.kind in ("variable", "array"):
                e = self.visible()[actual.name]
                self.assigned(e, e.full(), True)
        return plain(tree.Instance(procedure.name, actuals))

    def actuals(self, procedure):
        """What is passed, or none if there is nothing for some parameter."""
        if procedure.name in self.visible() and self.visible()[procedure.name].kind != "procedure":
            return None
        taken, found = set(), {}
        # what is passed as a variable first
        order = sorted(range(len(procedure.formals)), key=lambda k: procedure.formals[k].kind == "value")
        for k in order:
            found[k] = self.actual(procedure.formals[k], taken)
            if found[k] is None:
                return None
        made = [found[k] for k in range(len(order))]
        names = [a.name for a in made if isinstance(a, tree.Name)]
        passed = {a.name for f, a in zip(procedure.formals, made) if f.kind in ("variable", "array")}
        return None if any(names.count(name) > 1 for name in passed) else made

    def actual(self, formal, taken):
        """What is passed for a parameter."""
        kinds = {"variable": VARIABLES, "array": ARRAYS, "values": ("array", "values", "table")}
        if formal.kind == "value":
            e, _ = self.of(formal.type, self.dice.choice([0, 1, 2]))
            is_taken = isinstance(e, tree.Name) and e.name in taken
            return tree.Bracketed(e.type, e) if is_taken else e
        if formal.kind == "channel":
            found = [e for e in self.ports(formal.role) if e.type == formal.type and e.name not in taken]
        else:
            look = self.entries if formal.kind == "values" else self.writable
            found = [e for e in look(*kinds[formal.kind]) if e.type == formal.type and e.name not in taken]
            found = [e for e in found if formal.size is None or e.size == formal.size.value]
        if not found:
            return None
        e = self.dice.choice(found)
        if formal.kind != "values":
            taken.add(e.name)
        return tree.Name(e.type, e.name)

    def formals(self):
        """Parameters for which there is something here."""
        made = []
        for _ in range(self.dice.choice([0, 1, 2, 2, 3, 5])):
            type_ = self.dice.choice(["INT", "INT", "BYTE"])
            kind = self.dice.choice(["value", "value", "variable", "variable", "array", "values", "channel"])
            if kind in ("array", "values"):
                found = self.entries("array", *(["table", "values"] if kind == "values" else []))
                if found:
                    e = self.dice.choice(found)
                    made.append(tree.Formal(kind, e.type, "", number(e.size)))
            elif kind == "channel":
                found = self.ports("in") + self.ports("out")
                if found:
                    e = self.dice.choice(found)
                    made.append(tree.Formal(kind, e.type, "", role=min(e.ends)))
            else:
                made.append(tree.Formal(kind, type_, ""))
        return made

    def entry_of(self, formal):
        """What a parameter is in the body."""
        found = ranges.RANGES[formal.type]
        kind = {"value": "value", "variable": "variable", "array": "array", "values": "values"}.get(formal.kind)
        if kind:
            size = formal.size.value if formal.size else 0
            return Entry(kind, formal.type, formal.name, found, size=size, may_write=kind in ("variable", "array"))
        size = formal.size.value if formal.kind == "channels" else 0
        return Entry(formal.kind, formal.type, formal.name, size=size, ends=frozenset([formal.role]))

    def procedure(self, depth, formals=None, write=None):
        """A new procedure, which is written among the items."""
        formals = self.formals() if formals is None else formals
        held = self.scopes, self.changes, self.turns, self.left
        self.scopes, self.changes, self.left = [self.scopes[0], {}], [], max(4, min(self.left, 12))
        self.turns *= 2
        for formal in formals:
            formal.name = formal.name or self.fresh()
            self.add(self.entry_of(formal))
        body = self.with_declarations(write or (lambda: self.sequence(max(depth - 1, 1))))
        left = self.left
        self.scopes, self.changes, self.turns, self.left = held
        self.left -= 12 - left
        while (name := "p" + str(self.dice.randrange(1000))) in self.scopes[0] or name in self.visible():
            pass
        made = tree.Procedure(name, formals, body)
        self.scopes[0][name] = Entry("procedure", "", name)
        self.items.append(made)
        return made
