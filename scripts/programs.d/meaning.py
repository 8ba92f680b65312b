"""What a program means, by docs/LANGUAGE.md: what it reads and writes on the links, and how it ends."""

import collections
import dataclasses
import random

import tree

LEAST, GREATEST = -(2**31), 2**31 - 1
RANGES = {"INT": (LEAST, GREATEST), "BYTE": (0, 255)}
LENGTHS = {"INT": 4, "BYTE": 1}
MOST_STEPS = 20000


class NoValue(Exception):
    """An expression has no value. No program that is accepted comes to this."""


class TooLong(Exception):
    """The run takes more steps than are tried."""


def word(number):
    """A number modulo 2^32."""
    return (number + 2**31) % 2**32 - 2**31


def fitting(number, kind="INT"):
    """A number of a type."""
    least, greatest = RANGES[kind]
    if not least <= number <= greatest:
        raise NoValue(f"{number} is no {kind}")
    return number


def quotient(a, b):
    if b == 0:
        raise NoValue("division by 0")
    return fitting(abs(a) // abs(b) * (1 if (a < 0) == (b < 0) else -1))


def shifted(count):
    if not 0 <= count <= 31:
        raise NoValue(f"a shift by {count}")
    return count


OPERATORS = {
    "+": lambda a, b: fitting(a + b),
    "-": lambda a, b: fitting(a - b),
    "*": lambda a, b: fitting(a * b),
    "/": quotient,
    "\\": lambda a, b: a - b * quotient(a, b),
    "PLUS": lambda a, b: word(a + b),
    "MINUS": lambda a, b: word(a - b),
    "TIMES": lambda a, b: word(a * b),
    "/\\": lambda a, b: a & b,
    "\\/": lambda a, b: a | b,
    "><": lambda a, b: a ^ b,
    "<<": lambda a, b: word(a << shifted(b)),
    ">>": lambda a, b: word(a % 2**32 >> shifted(b)),
    "=": lambda a, b: a == b,
    "<>": lambda a, b: a != b,
    "<": lambda a, b: a < b,
    ">": lambda a, b: a > b,
    "<=": lambda a, b: a <= b,
    ">=": lambda a, b: a >= b,
    "AND": lambda a, b: a and b,
    "OR": lambda a, b: a or b,
    "-x": lambda a: fitting(-a),
    "~x": lambda a: ~a,
    "NOTx": lambda a: not a,
}


class Names:
    """What names stand for in one scope, and in those around it."""

    def __init__(self, outer=None, held=()):
        self.outer, self.held = outer, dict(held)

    def find(self, name):
        return self.held[name] if name in self.held else self.outer.find(name)


@dataclasses.dataclass
class Variable:
    """A place of one number, of a channel's type where something is received."""

    value: int = 0


class Channel:
    """A channel between two processes, with who waits there to send (and what) and who to receive."""

    def __init__(self):
        self.sender = self.receiver = None


@dataclasses.dataclass
class Input:
    """An input link: the bytes that are there, and how many were read."""

    name: str
    held: bytes
    read: int = 0


@dataclasses.dataclass
class Output:
    """An output link: the bytes that went out, if somebody listens."""

    name: str
    sent: object


def value(e, names):
    """The number or truth of an expression."""
    match e:
        case tree.Number() | tree.Truth():
            return e.value
        case tree.Name():
            found = names.find(e.name)
            return found.value if isinstance(found, Variable) else found
        case tree.Element():
            found, at = names.find(e.name), value(e.subscript, names)
            if not 0 <= at < len(found):
                raise NoValue(f"{e.name}[{at}]")
            return found[at]
        case tree.Applied():
            return OPERATORS[e.operator + "x"](value(e.operand, names))
        case tree.Converted():
            return fitting(value(e.operand, names), e.type)
        case tree.Bracketed():
            return value(e.inner, names)
        case tree.Chain():
            total = value(e.operands[0], names)
            for other in e.operands[1:]:
                total = OPERATORS[e.operator](total, value(other, names))
            return total


def port(place, names):
    """The channel or link of a place."""
    found = names.find(place.name)
    return found[value(place.subscript, names)] if isinstance(place, tree.Element) else found


def store(place, number, names):
    """A number is stored in a variable or an element."""
    found = names.find(place.name)
    if isinstance(place, tree.Element):
        at = value(place.subscript, names)
        if not 0 <= at < len(found):
            raise NoValue(f"{place.name}[{at}]")
        found[at] = number
    else:
        found.value = number


def declare(d, names):
    """The names of a declaration are added to the innermost scope."""
    held = names.held
    match d:
        case tree.Constant():
            held[d.name] = value(d.value, names)
        case tree.Table(items=bytes()):
            held[d.name] = list(d.items)
        case tree.Table():
            held[d.name] = [value(item, names) for item in d.items]
        case tree.Variables():
            size = d.size and value(d.size, names)
            held.update({name: Variable() if d.size is None else [0] * size for name in d.names})
        case tree.Channels():
            count = d.size and value(d.size, names)
            held.update({n: Channel() if d.size is None else [Channel() for _ in range(count)] for n in d.names})


def indices(replicator, names):
    """The indices of a replicator; one without a name if there is no replicator."""
    if replicator is None:
        return [names]
    base, count = value(replicator.base, names), value(replicator.count, names)
    return [Names(names, {replicator.index: base + k}) for k in range(count)]


def passed(formal, actual, names):
    """What a parameter stands for."""
    if formal.kind == "value":
        return value(actual, names)
    if formal.kind == "channel":
        return port(actual, names)
    return names.find(actual.name)


class Walk:
    """A run of processes. Each is a generator of what it asks for: a message, a choice, or a `PAR`."""

    def __init__(self, steps):
        self.steps = steps

    def process(self, p, names):
        """A process with its declarations."""
        names = Names(names)
        for d in p.declared:
            declare(d, names)
        yield from self.construct(p.construct, names)

    def construct(self, c, names):
        self.steps -= 1
        if self.steps < 0:
            raise TooLong
        match c:
            case tree.Stop():
                yield "stop", None, None
            case tree.Assign():
                store(c.place, value(c.value, names), names)
            case tree.Receive():
                yield from self.receive(c.channel, c.place, names)
            case tree.Send():
                yield "send", (port(c.channel, names), c.channel.type), value(c.value, names)
            case tree.Instance():
                procedure, known = names.find(c.name)
                held = [(f.name, passed(f, a, names)) for f, a in zip(procedure.formals, c.actuals)]
                yield from self.process(procedure.body, Names(known, held))
            case tree.Block():
                yield from getattr(self, c.word.lower())(c, names)

    def receive(self, channel, place, names):
        number = yield "receive", (port(channel, names), channel.type), None
        store(place, number, names)

    def seq(self, block, names):
        for turn in indices(block.replicator, names):
            for part in block.parts:
                yield from self.process(part, turn)

    def par(self, block, names):
        turns = indices(block.replicator, names)
        yield "together", [self.process(part, turn) for turn in turns for part in block.parts], None

    def if_(self, block, names):
        for turn in indices(block.replicator, names):
            for condition, process in block.parts:
                if value(condition, turn):
                    yield from self.process(process, turn)
                    return
        yield "stop", None, None

    def alt(self, block, names):
        open_guards = []
        for turn in indices(block.replicator, names):
            for guard, process in block.parts:
                if guard.condition is None or value(guard.condition, turn):
                    open_guards.append((guard, process, turn))
        if not open_guards:
            yield "stop", None, None
        ports = [guard.channel and port(guard.channel, turn) for guard, _, turn in open_guards]
        guard, process, turn = open_guards[(yield "choose", ports, None)]
        if guard.channel is not None:
            yield from self.receive(guard.channel, guard.place, turn)
        yield from self.process(process, turn)


setattr(Walk, "if", Walk.if_)


class Running:
    """One process that was begun, and the `PAR` whose component it is."""

    def __init__(self, asks, opener=None):
        self.asks, self.opener, self.left, self.choice = asks, opener, 0, None


class Machine:
    """Processes that run in some order, and what they wait for."""

    def __init__(self, order):
        self.ready, self.order, self.waits, self.ended = collections.deque(), order, [], False

    def run(self, asks):
        self.ready.append((Running(asks), None))
        while self.ready:
            if self.order:
                self.ready.rotate(self.order.randrange(len(self.ready)))
            process, answer = self.ready.popleft()
            try:
                word, what, number = process.asks.send(answer)
            except StopIteration:
                self.leave(process.opener)
            else:
                getattr(self, word)(process, what, number)

    def leave(self, opener):
        """A process has ended, and with the last component its `PAR`."""
        if opener is None:
            self.ended = True
            return
        opener.left -= 1
        if opener.left == 0:
            self.ready.append((opener, None))

    def stop(self, process, what, number):
        pass

    def together(self, process, components, number):
        process.left = len(components)
        self.ready.extend((Running(asks, process), None) for asks in components)
        if not components:
            self.ready.append((process, None))

    def receive(self, process, what, number):
        channel, kind = what
        if isinstance(channel, Input):
            self.read(process, channel, kind)
        elif channel.sender is None:
            channel.receiver = process
        else:
            sender, sent = channel.sender
            channel.sender = None
            self.ready.extend([(sender, None), (process, sent)])

    def read(self, process, link, kind):
        message = link.held[link.read : link.read + LENGTHS[kind]]
        link.read += len(message)
        if len(message) < LENGTHS[kind]:
            self.waits.append(link.name)
        else:
            self.ready.append((process, int.from_bytes(message, "little", signed=kind == "INT")))

    def send(self, process, what, number):
        channel, kind = what
        if isinstance(channel, Output):
            self.write(process, channel, kind, number)
        elif isinstance(channel.receiver, Running):
            receiver, channel.receiver = channel.receiver, None
            self.ready.extend([(process, None), (receiver, number)])
        else:
            channel.sender = process, number
            if channel.receiver is not None:
                self.rouse(channel.receiver[0])

    def write(self, process, link, kind, number):
        if link.sent is None:
            self.waits.append(link.name)
        else:
            link.sent += number.to_bytes(LENGTHS[kind], "little", signed=kind == "INT")
            self.ready.append((process, None))

    def choose(self, process, ports, number):
        process.choice = ports
        if self.rouse(process):
            return
        for channel in ports:
            if isinstance(channel, Channel):
                # a list, since whoever is here only chooses
                channel.receiver = [process]
            else:
                self.waits.append(channel.name)

    def rouse(self, process):
        """Whether a process that chooses goes on: some guard is ready."""
        able = [at for at, channel in enumerate(process.choice) if self.is_ready(channel)]
        if not able:
            return False
        for channel in process.choice:
            if isinstance(channel, Channel) and channel.receiver == [process]:
                channel.receiver = None
            if isinstance(channel, Input) and channel.name in self.waits:
                self.waits.remove(channel.name)
        self.ready.append((process, self.order.choice(able) if self.order else able[0]))
        return True

    def is_ready(self, channel):
        if isinstance(channel, Input):
            return channel.read < len(channel.held)
        return channel is None or channel.sender is not None


@dataclasses.dataclass
class Course:
    """What came of a run."""

    ended: bool
    waits: list
    read: dict
    sent: dict
    steps: int


def run(items, inputs, listened, order=None, steps=MOST_STEPS):
    """A run of a program on bytes that come in, by link, and links where somebody listens."""
    names = Names()
    for item in items:
        if isinstance(item, tree.Procedure):
            names.held[item.name] = item, Names(None, names.held)
        else:
            declare(item, names)
    main = items[-1]
    links = {f.name: Input(f.name, inputs.get(f.name, b"")) if f.name.startswith("in")
             else Output(f.name, bytearray() if f.name in listened else None) for f in main.formals}
    walk, machine = Walk(steps), Machine(order and random.Random(order))
    machine.run(walk.process(main.body, Names(names, links)))
    read = {name: links[name].read if name in links else 0 for name in sorted(inputs)}
    sent = {name: bytes(links[name].sent) if name in links else b"" for name in sorted(listened)}
    return Course(machine.ended, sorted(set(machine.waits)), read, sent, steps - walk.steps)
