"""Random processes with PAR and ALT, whose outputs are the same in each order in which processes run.

What goes over channels between the components of a PAR is planned first, as a list of messages in an order of which
each component has its part. So they wait for one another, and come to an end. An ALT takes the only guard that can be
ready, or it takes messages of several senders, and does with them what is the same in each order.
"""

import dataclasses
import re

import tree
from expressions import number
from ranges import Entry
from statements import ARRAYS, VARIABLES, Statements, plain, seq


@dataclasses.dataclass(eq=False)
class Line:
    """A channel between two components, by their numbers."""

    type: str
    sender: int
    receiver: int


@dataclasses.dataclass
class Again:
    """Some messages that are sent several times."""

    count: int
    messages: list


@dataclasses.dataclass
class Keeper:
    """The names of what somebody keeps of messages, and the operator of their sum."""

    total: str
    x: str
    kept: str
    came: str
    operator: str

    def process(self, type_, at):
        """A message of the channel with this number is kept."""
        x = tree.Name("INT", self.x) if type_ == "INT" else tree.Converted("INT", tree.Name("BYTE", self.x))
        old, came = tree.Element("INT", self.kept, at), tree.Element("INT", self.came, at)
        total = tree.Name("INT", self.total)
        mixed = tree.Chain("INT", "PLUS", [tree.Chain("INT", "TIMES", [old, number(31)]), x])
        more = tree.Chain("INT", "PLUS", [came, number(1)])
        added = tree.Chain("INT", self.operator, [total, x])
        return seq([plain(tree.Assign(*pair)) for pair in ((old, mixed), (came, more), (total, added))])


class Networks(Statements):
    """Processes that run side by side."""

    def __init__(self, dice, has_alt):
        super().__init__(dice)
        self.has_alt, self.is_wrapped = has_alt, False
        # where each line is, for whoever is written
        self.places = {}

    def more_ways(self, depth):
        ways = [(2, self.unwritten), *([(2, self.skips)] if self.has_alt else [])]
        if depth > 2 and not self.is_wrapped:
            ways.append((0.3, self.deep_process))
        if self.turns <= 24:
            ways += [(6, self.network), (2.5, self.pipeline)]
        if self.turns <= 24 and self.has_alt:
            ways.append((2.5, self.merging))
        return ways

    def deep_process(self, depth):
        """A process deep within blocks."""
        self.is_wrapped = True
        made = self.wrapped(lambda: self.part(depth - 1), self.dice.choice([8, 20, 35]))
        self.is_wrapped = False
        return made

    def wrapped(self, write, level):
        """What `write` gives, at some levels of blocks that do nothing else."""
        if level <= 0:
            return write()
        inner = lambda: self.wrapped(write, level - self.dice.choice([1, 2]))
        way = self.dice.randrange(5 if self.has_alt else 4)
        if way == 0:
            return seq([inner()])
        if way == 1:
            return self.loop_of(1, lambda: [inner()])
        if way == 2:
            return plain(tree.Block("PAR", None, self.together([inner])))
        guard = tree.Truth(True) if way == 3 else tree.Guard(tree.Truth(True), None, None)
        return plain(tree.Block("IF" if way == 3 else "ALT", None, [(guard, inner())]))

    # ---- what is changed by no code

    def unwritten(self, depth):
        """A scalar is changed by what writes nothing, and then only one condition on it lets the process go on."""
        found = self.writable("scalar")
        if not found:
            return self.choice(depth)
        e = self.dice.choice(found)
        first = self.changed_by_nothing(e)
        return seq([first, self.only_where(e, depth)])

    def changed_by_nothing(self, e):
        """An instance that is passed a scalar and leaves it, or an assignment under a replicator without turns."""
        name, kind = tree.Name(e.type, e.name), self.dice.choice(["SEQ", "PAR", "instance"])
        if kind != "instance":
            replicator, _ = self.in_scope(lambda: self.replicator("index" if kind == "SEQ" else "turn", 0))
            if replicator.index != e.name:
                # a loop forgets what was known, and a PAR of no components leaves it
                self.assigned(e, *((e.full(), True) if kind == "SEQ" else (e.range, e.is_exact)))
                body = plain(tree.Assign(name, number(self.dice.randrange(9), e.type)))
                return plain(tree.Block(kind, replicator, [body]))
        made = self.procedure(1, [tree.Formal("variable", e.type, "")], lambda: plain(tree.Skip()))
        self.assigned(e, e.full(), True)
        return plain(tree.Instance(made.name, [name]))

    def only_where(self, e, depth):
        """An IF or an ALT of one choice, with a condition that says something of a scalar."""
        comparison, constant = self.dice.choice([(">=", 0), ("<", 9), ("<>", 5), ("<=", 99), ("=", 0), (">", 7)])
        condition = tree.Chain("BOOL", comparison, [tree.Name(e.type, e.name), number(constant, e.type)])
        before, behind = self.known(), []
        if self.has_alt and self.dice.random() < 0.4:
            branches = [self.branch((condition, None, None), depth, before, behind)]
            made = tree.Block("ALT", None, branches)
        else:
            made = tree.Block("IF", None, [self.one_choice(condition, depth, behind)])
        self.join(before, behind)
        return plain(made)

    # ---- what components share

    def shared(self, count):
        """Which component each variable, array and free channel is left to: none of them, or all but to read it."""
        left = {}
        for scope in self.scopes:
            for e in scope.values():
                if e.kind in ("scalar", "variable", "array") and e.may_write or e.ends:
                    left[e] = self.dice.choice([None, *range(count), *range(count)]) if count else None
        return left

    def as_component(self, me, left, write):
        """What `write` gives, with what is left to this component. Also what is known then of what it changes."""
        before = self.known()
        kept = {e: (e.may_read, e.may_write, e.ends) for e in left}
        for e, owner in left.items():
            e.may_read = e.may_read and owner in (None, me)
            e.may_write = e.may_write and owner == me
            e.ends = e.ends if owner == me else frozenset()
        self.changes.append(set())
        made = write()
        changed = self.changes.pop()
        ends = {e: (e.range, e.is_exact) for e in changed}
        for e, (may_read, may_write, free) in kept.items():
            e.may_read, e.may_write, e.ends = may_read, may_write, free
        self.restore(before)
        return made, {e: found for e, found in ends.items() if e in before}

    def together(self, writes):
        """The components that some functions give."""
        left = self.shared(len(writes))
        made = [self.as_component(me, left, write) for me, write in enumerate(writes)]
        for _, ends in made:
            self.restore(ends)
        return [one for one, _ in made]

    # ---- plans

    def plan(self, lines, depth):
        """Some messages, in the order in which they are sent."""
        messages = []
        for _ in range(self.dice.choice([1, 2, 3, 5])):
            if depth and self.dice.random() < 0.3:
                messages.append(Again(self.dice.choice([1, 2, 3]), self.plan(lines, depth - 1)))
            else:
                messages.append(self.dice.choice(lines))
        return messages

    def lines_of(self, messages):
        """The lines of a plan, each once."""
        found = []
        for m in messages:
            found += self.lines_of(m.messages) if isinstance(m, Again) else [m]
        return list(dict.fromkeys(found))

    def parts_of(self, messages, me, depth):
        """What a component does of a plan, with other things between."""
        parts = []
        for m in messages:
            mine = [line for line in self.lines_of([m]) if me in (line.sender, line.receiver)]
            if mine and self.dice.random() < 0.4:
                parts.append(self.part(depth))
            if mine and isinstance(m, Again):
                parts.append(self.loop_of(m.count, lambda: [seq(self.parts_of(m.messages, me, depth))]))
            elif mine:
                parts.append(self.send(m) if me == m.sender else self.receive(m, depth))
        return parts

    def send(self, line):
        return plain(tree.Send(self.places[line], self.of(line.type, self.dice.choice([0, 1, 2]))[0]))

    def receive(self, line, depth):
        """A message of a line is received, into a variable of its own where no other may be changed."""
        def written():
            declared = [] if self.writable(*VARIABLES, *ARRAYS, type_=line.type) else [self.declare_one(line.type)]
            return tree.Process(declared, self.receiving(line, depth).construct)
        return self.in_scope(written)

    def receiving(self, line, depth):
        roll = self.dice.random()
        if roll < 0.5 or not self.has_alt:
            return plain(tree.Receive(self.places[line], self.target(line.type)))
        return self.one_of_two(line, depth) if roll < 0.65 else self.with_closed_guards(line, depth)

    # ---- alternations

    def branch(self, guard, depth, before, behind):
        """A branch of an ALT: a condition, a channel or none, and the type that it carries."""
        condition, channel, type_ = guard
        if condition is not None:
            self.narrow(condition, True, False)
        place = channel and self.target(type_)
        process = self.part(depth) if condition is None else self.with_use(condition, depth)
        behind.append(self.known())
        self.restore(before)
        return tree.Guard(condition, channel, place), process

    def never(self):
        """A condition that does not hold."""
        found = [e for e in self.entries("scalar", "value", "variable")]
        if not found or self.dice.random() < 0.4:
            return tree.Truth(False)
        e = self.dice.choice(found)
        return tree.Chain("BOOL", self.dice.choice(["<>", "<", ">"]), [tree.Name(e.type, e.name)] * 2)

    def with_closed_guards(self, line, depth):
        """An ALT of a guard on the line and others whose conditions do not hold."""
        before, behind, branches = self.known(), [], []
        guards = [(None if self.dice.random() < 0.7 else tree.Truth(True), self.places[line], line.type)]
        for _ in range(self.dice.choice([0, 0, 1, 2])):
            same = self.dice.random() < 0.5
            guards.append((self.never(), self.places[line] if same else None, line.type))
        self.dice.shuffle(guards)
        branches = [self.branch(guard, depth, before, behind) for guard in guards]
        self.join(before, behind)
        return plain(tree.Block("ALT", None, branches))

    def both_ways(self):
        """A condition, and one that holds where it does not."""
        condition = self.condition(1)
        return condition, tree.Applied("BOOL", "NOT", condition)

    def one_of_two(self, line, depth):
        """An ALT of two guards on the line, of which one condition holds."""
        before, behind = self.known(), []
        guards = [(condition, self.places[line], line.type) for condition in self.both_ways()]
        branches = [self.branch(guard, depth, before, behind) for guard in guards]
        self.join(before, behind)
        return plain(tree.Block("ALT", None, branches))

    def skips(self, depth):
        """An ALT of `SKIP` alone, under a replicator or with a free link, of which one condition holds."""
        if self.dice.random() < 0.3:
            return self.repeated_skips(depth)
        before, behind = self.known(), []
        links = self.ports("in")
        e = self.dice.choice(links) if links and self.target("INT") and self.target("BYTE") else None
        self.restore(before)
        guards = []
        for condition in self.both_ways():
            is_link = e is not None and self.dice.random() < 0.5
            guards.append((condition, is_link and tree.Name(e.type, e.name) or None, is_link and e.type))
        branches = [self.branch(guard, depth, before, behind) for guard in guards]
        self.join(before, behind)
        return plain(tree.Block("ALT", None, branches))

    def repeated_skips(self, depth):
        """An ALT under a replicator of which one index is chosen."""
        count = self.dice.choice([1, 2, 3])
        chosen = self.number(1, (0, count - 1))[0]

        def written():
            # no name that the index may hide
            replicator, entry = self.replicator("turn", count)
            while entry.name in re.findall(r"[A-Za-z][A-Za-z0-9.]*", tree.text(chosen)):
                del self.scopes[-1][entry.name]
                replicator, entry = self.replicator("turn", count)
            turn = tree.Chain("INT", "-", [tree.Name("INT", entry.name), replicator.base])
            condition = tree.Chain("BOOL", "=", [turn, chosen])
            before, behind = self.known(), []
            branch = self.branch((condition, None, None), depth, before, behind)
            self.join(before, behind)
            return plain(tree.Block("ALT", replicator, [branch]))

        return self.in_scope(written)

    # ---- networks

    def network(self, depth):
        """A PAR of some components, with channels between them; or two in turn over the same channels."""
        count = self.dice.choice([1, 2, 2, 3, 3, 4])
        types = [self.dice.choice(["INT", "INT", "BYTE"]) for _ in range(self.dice.choice([1, 2, 3, 4]))]

        def written():
            lines = self.lines_between(count, types)
            declared = self.declare_lines(lines)
            parts = [self.components(count, lines, depth)]
            if self.dice.random() < 0.2:
                others = self.lines_between(count, types)
                self.places.update(zip(others, [self.places[line] for line in lines]))
                parts.append(self.components(count, others, depth))
            for name in [name for d in declared for name in d.names]:
                self.hidden.discard(name)
            return tree.Process(declared, (parts[0] if len(parts) == 1 else seq(parts)).construct)

        return self.in_scope(written)

    def lines_between(self, count, types):
        """Channels of these types between some of so many components."""
        if count == 1:
            return []
        return [Line(type_, *self.dice.sample(range(count), 2)) for type_ in types]

    def components(self, count, lines, depth):
        """A PAR of so many components with these channels between them."""
        plan = self.plan(lines, 2) if lines else []
        writes = [lambda me=me: self.component(plan, me, depth - 1) for me in range(count)]
        return plain(tree.Block("PAR", None, self.grouped(self.together(writes))))

    def grouped(self, parts):
        """The components, some of them in a PAR of their own."""
        if len(parts) > 2 and self.dice.random() < 0.4:
            at = self.dice.randrange(len(parts) - 1)
            inner = plain(tree.Block("PAR", None, parts[at : at + 2]))
            return [*parts[:at], inner, *parts[at + 2 :]]
        return parts

    def channel_name(self):
        name = self.fresh()
        self.hidden.add(name)
        return name

    def declare_lines(self, lines):
        """Declarations of channels, in arrays and by themselves."""
        declared = []
        for type_ in ("INT", "BYTE"):
            here = [line for line in lines if line.type == type_]
            self.dice.shuffle(here)
            while here:
                size = self.dice.choice([1, 1, 2, 3])
                some, here = here[:size], here[size:]
                name = self.channel_name()
                is_array = len(some) > 1 or self.dice.random() < 0.3
                self.add(Entry("channels" if is_array else "channel", type_, name, size=len(some)))
                for at, line in enumerate(some):
                    self.places[line] = tree.Element(type_, name, number(at)) if is_array else tree.Name(type_, name)
                declared.append(tree.Channels(type_, number(len(some)) if is_array else None, [name]))
        return declared

    def component(self, plan, me, depth):
        """A component, which may be a procedure of its own."""
        lines = [line for line in self.lines_of(plan) if me in (line.sender, line.receiver)]
        if lines and self.dice.random() < 0.35 and len(self.procedures) < 9:
            return self.as_procedure(lines, depth, lambda: self.component(plan, me, depth))
        return self.body(plan, me, depth)

    def body(self, plan, me, depth):
        """What a component does, with variables of its own."""
        def written():
            declared = [self.declare_one(type_) for type_ in ("INT", "BYTE")]
            parts = self.parts_of(plan, me, depth)
            if not parts or self.dice.random() < 0.4:
                parts.append(self.part(depth))
            return tree.Process(declared, tree.Block("SEQ", None, parts + self.report()))
        return self.in_scope(written)

    def declare_one(self, type_):
        name = self.fresh()
        self.add(Entry("scalar", type_, name))
        return tree.Variables(type_, None, [name])

    def as_procedure(self, lines, depth, write):
        """An instance of a procedure that has some lines as parameters, and what else suits."""
        outside, formals, passed = dict(self.places), [], []
        for line in lines:
            place = outside[line]
            array = self.visible()[place.name] if isinstance(place, tree.Element) else None
            whole = [f for f, a in zip(formals, passed) if f.kind == "channels" and a.name == place.name]
            single = [a for a in passed if isinstance(a, tree.Element) and a.name == place.name]
            name = f"c{len(formals)}."
            if whole:
                self.places[line] = dataclasses.replace(place, name=whole[0].name)
            elif array and isinstance(place.subscript, tree.Number) and not single and self.dice.random() < 0.5:
                formals.append(tree.Formal("channels", line.type, name, number(array.size), "line"))
                passed.append(tree.Name(line.type, place.name))
                self.places[line] = dataclasses.replace(place, name=name)
            else:
                formals.append(tree.Formal("channel", line.type, name, role="line"))
                passed.append(place)
                self.places[line] = tree.Name(line.type, name)
        others = [f for f in self.formals() if f.kind != "channel"]
        made = self.procedure(depth, [*formals, *others], write)
        self.places = outside
        instance = self.call(tree.Procedure(made.name, others, made.body))
        if instance is None:
            # nothing suits the others here, so it is no procedure
            return write()
        return plain(tree.Instance(made.name, passed + instance.construct.actuals))

    # ---- templates

    def pipeline(self, depth):
        """Some stages in a row, which pass on what they are sent."""
        stages, count = self.dice.choice([1, 2, 3, 4]), self.dice.choice([1, 2, 3, 5])
        type_ = self.dice.choice(["INT", "INT", "BYTE"])
        def written():
            name = self.channel_name()
            self.add(Entry("channels", type_, name, size=stages + 1))
            first = Line(type_, 0, 1)
            last = Line(type_, 1, 2)
            def feeder():
                self.places[first] = tree.Element(type_, name, number(0))
                return self.component([Again(count, [first])], 0, depth - 1)
            def drain():
                self.places[last] = tree.Element(type_, name, number(stages))
                return self.component([Again(count, [last])], 2, depth - 1)
            def middle():
                return self.stages(name, type_, stages, count, depth)

            parts = self.together([feeder, middle, drain])
            self.dice.shuffle(parts)
            self.hidden.discard(name)
            declared = tree.Channels(type_, number(stages + 1), [name])
            return tree.Process([declared], tree.Block("PAR", None, parts))

        return self.in_scope(written)

    def stages(self, name, type_, stages, count, depth):
        """A PAR under a replicator of all stages."""
        here, there = Line(type_, 0, 1), Line(type_, 1, 2)

        def write(index):
            self.places[here] = tree.Element(type_, name, index)
            self.places[there] = tree.Element(type_, name, tree.Chain("INT", "+", [index, number(1)]))
            return self.component([Again(count, [here, there])], 1, min(depth - 1, 2))

        return self.for_each(stages, write)

    def merging(self, depth):
        """Some senders, and one who receives from all of them as they come."""
        senders, count = self.dice.choice([1, 2, 3, 4]), self.dice.choice([1, 2, 3])
        type_ = self.dice.choice(["INT", "INT", "BYTE"])

        def written():
            name = self.channel_name()
            self.add(Entry("channels", type_, name, size=senders))
            channels = [tree.Element(type_, name, number(k)) for k in range(senders)]
            is_repeated = self.dice.random() < 0.5
            writes = [lambda: self.in_scope(lambda: self.senders(name, type_, senders, count, depth)),
                      lambda: self.merging_component(channels, count, is_repeated)]
            parts = self.together(writes)
            self.hidden.discard(name)
            declared = tree.Channels(type_, number(senders), [name])
            return tree.Process([declared], tree.Block("PAR", None, parts))

        return self.in_scope(written)

    def merging_component(self, channels, count, is_repeated):
        """Who receives from some channels, so many messages of each. It may be a procedure that has them all."""
        turns = len(channels) * count
        if self.dice.random() < 0.6 or len(self.procedures) > 8:
            return self.merger(channels, turns, count, is_repeated)
        links = [e for e in self.ports("out") if e.type == "INT"][:1]
        formals = [tree.Formal("channels", channels[0].type, "c.", number(len(channels)), "line")]
        formals += [tree.Formal("channel", "INT", "o.", role="out") for _ in links]
        inside = [dataclasses.replace(channel, name="c.") for channel in channels]
        made = self.procedure(1, formals, lambda: self.merger(inside, turns, count, is_repeated))
        return plain(tree.Instance(made.name, [tree.Name(e.type, e.name) for e in [channels[0], *links]]))

    def senders(self, name, type_, senders, count, depth):
        """A PAR under a replicator of all senders."""
        line = Line(type_, 1, 0)

        def write(index):
            self.places[line] = tree.Element(type_, name, index)
            return self.component([Again(count, [line])], 1, min(depth - 1, 2))

        return self.for_each(senders, write)

    def merging_of_links(self):
        """Messages of some links are taken as they come. Their names, and how many messages that are, are kept."""
        if not self.has_alt:
            return []
        type_ = self.dice.choice(["INT", "BYTE"])
        links = [e for e in self.ports("in") if e.type == type_]
        if len(links) < 2:
            return []
        for e in links:
            e.ends = frozenset()
        self.merged = [e.name for e in links], self.dice.choice([1, 2, 5])
        return [self.merger([tree.Name(type_, e.name) for e in links], self.merged[1], self.merged[1], False)]

    def merger(self, channels, turns, count, is_repeated):
        """An ALT in a loop. Of each channel it keeps a number and how many messages came, and of all a sum."""
        names = [self.channel_name() for _ in range(6)]
        total, x, kept, came, index, turn = names
        size = number(len(channels))
        declared = [tree.Variables("INT", None, [total]), tree.Variables(channels[0].type, None, [x]),
                    tree.Variables("INT", size, [kept, came])]
        keeper = Keeper(total, x, kept, came, self.dice.choice(["PLUS", "><"]))
        if is_repeated:
            at = tree.Name("INT", index)
            branches = [self.kept(keeper, dataclasses.replace(channels[0], subscript=at), at, count)]
            choice = tree.Block("ALT", tree.Replicator(index, number(0), size), branches)
        else:
            branches = [self.kept(keeper, c, number(k), count) for k, c in enumerate(channels)]
            choice = tree.Block("ALT", None, branches)
        parts = [plain(tree.Block("SEQ", tree.Replicator(turn, number(0), number(turns)), [plain(choice)]))]
        for link in [e for e in self.ports("out") if e.type == "INT"][:1]:
            told = [tree.Name("INT", total), *(tree.Element("INT", kept, number(k)) for k in range(len(channels)))]
            parts += [plain(tree.Send(tree.Name("INT", link.name), e)) for e in told]
        self.hidden.difference_update(names)
        return tree.Process(declared, tree.Block("SEQ", None, parts))

    def kept(self, keeper, channel, at, count):
        """A branch of an ALT that takes a message of a channel, at most so many."""
        came = tree.Element("INT", keeper.came, at)
        limit = tree.Chain("BOOL", "<", [came, number(count)])
        guard = tree.Guard(limit if self.dice.random() < 0.4 else None, channel, tree.Name(channel.type, keeper.x))
        return guard, keeper.process(channel.type, at)

    def for_each(self, count, write):
        """A PAR under a replicator of what `write` gives for its index."""
        def written():
            index = self.channel_name()
            self.add(Entry("turn", "INT", index, (0, count - 1), False, may_write=False))
            turns, self.turns = self.turns, self.turns * count
            made, _ = self.as_component(0, self.shared(0), lambda: write(tree.Name("INT", index)))
            self.turns = turns
            self.hidden.discard(index)
            return plain(tree.Block("PAR", tree.Replicator(index, number(0), number(count)), [made]))

        return self.in_scope(written)
