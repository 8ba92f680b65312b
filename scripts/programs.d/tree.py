"""The tree of an occam source, and its lines."""

import dataclasses
from typing import Optional


@dataclasses.dataclass
class Number:
    """A literal, or a negative number that is written as a negated literal in brackets."""

    type: str
    value: int
    text: str


@dataclasses.dataclass
class Truth:
    value: bool
    type: str = "BOOL"


@dataclasses.dataclass
class Name:
    type: str
    name: str


@dataclasses.dataclass
class Element:
    type: str
    name: str
    subscript: object


@dataclasses.dataclass
class Applied:
    """One of `-`, `~`, `NOT` before an operand."""

    type: str
    operator: str
    operand: object


@dataclasses.dataclass
class Converted:
    type: str
    operand: object


@dataclasses.dataclass
class Chain:
    """Operands with one operator between them."""

    type: str
    operator: str
    operands: list


@dataclasses.dataclass
class Bracketed:
    type: str
    inner: object


@dataclasses.dataclass
class Constant:
    type: str
    name: str
    value: object


@dataclasses.dataclass
class Table:
    type: str
    name: str
    size: object
    # expressions, or the bytes of a text
    items: object


@dataclasses.dataclass
class Variables:
    type: str
    size: object
    names: list


@dataclasses.dataclass
class Channels:
    type: str
    size: object
    names: list


@dataclasses.dataclass
class Process:
    """A construct with what is declared before it."""

    declared: list
    construct: object


class Skip:
    pass


class Stop:
    pass


@dataclasses.dataclass
class Assign:
    place: object
    value: object


@dataclasses.dataclass
class Receive:
    channel: object
    place: object


@dataclasses.dataclass
class Send:
    channel: object
    value: object


@dataclasses.dataclass
class Instance:
    name: str
    actuals: list


@dataclasses.dataclass
class Replicator:
    index: str
    base: object
    count: object


@dataclasses.dataclass
class Guard:
    """A guard of a condition, if it has one, and an input, or else `SKIP`."""

    condition: object
    channel: object
    place: object


@dataclasses.dataclass
class Block:
    """A `SEQ` or `PAR` of processes, an `IF` of pairs of a condition and a process, or an `ALT` of guards with one."""

    word: str
    replicator: Optional[Replicator]
    parts: list


@dataclasses.dataclass
class Formal:
    """A parameter. Its kind is `value`, `variable`, `values`, `array`, `channel` or `channels`."""

    kind: str
    type: str
    name: str
    size: object = None
    # the end of a channel that the body uses
    role: str = ""


@dataclasses.dataclass
class Procedure:
    name: str
    formals: list
    body: Process
    # of `main`, the links of which an ALT takes messages as they come, and how many
    merged: tuple = ((), 0)


SPELLED = {13: "*c", 10: "*n", 9: "*t", 39: "*'", 34: '*"', 42: "**"}


def spelled(byte):
    """A byte within a character or a text."""
    return SPELLED.get(byte) or (chr(byte) if 32 <= byte < 127 else f"*#{byte:02X}")


def operand(e):
    """An expression where the grammar wants an operand."""
    is_one = isinstance(e, (Number, Truth, Name, Element, Converted, Bracketed)) and not text(e).startswith("-")
    return text(e) if is_one else f"({text(e)})"


def text(e):
    """An expression."""
    match e:
        case Number():
            return e.text
        case Truth():
            return "TRUE" if e.value else "FALSE"
        case Name():
            return e.name
        case Element():
            return f"{e.name}[{text(e.subscript)}]"
        case Applied():
            return f"{e.operator} {operand(e.operand)}" if e.operator == "NOT" else f"{e.operator}{operand(e.operand)}"
        case Converted():
            return f"{e.type} {operand(e.operand)}"
        case Chain():
            return f" {e.operator} ".join(map(operand, e.operands))
        case Bracketed():
            return f"({text(e.inner)})"


def sized(size):
    return "" if size is None else f"[{text(size)}]"


def declaration(d):
    """The line of a constant or a declaration."""
    match d:
        case Constant():
            return f"VAL {d.type} {d.name} IS {text(d.value)}:"
        case Table(items=bytes()):
            return f'VAL {sized(d.size)}{d.type} {d.name} IS "{"".join(map(spelled, d.items))}":'
        case Table():
            return f"VAL {sized(d.size)}{d.type} {d.name} IS [{', '.join(map(text, d.items))}]:"
        case Variables():
            return f"{sized(d.size)}{d.type} {', '.join(d.names)}:"
        case Channels():
            return f"{sized(d.size)}CHAN OF {d.type} {', '.join(d.names)}:"


def guard(g):
    """The line of a guard."""
    condition = "" if g.condition is None else f"{text(g.condition)} & "
    return condition + ("SKIP" if g.channel is None else f"{text(g.channel)} ? {text(g.place)}")


def head(block):
    """The first line of a block."""
    r = block.replicator
    return block.word if r is None else f"{block.word} {r.index} = {text(r.base)} FOR {text(r.count)}"


def construct_lines(c, level):
    """The lines of a construct."""
    margin = "  " * level
    match c:
        case Skip():
            return [margin + "SKIP"]
        case Stop():
            return [margin + "STOP"]
        case Assign():
            return [f"{margin}{text(c.place)} := {text(c.value)}"]
        case Receive():
            return [f"{margin}{text(c.channel)} ? {text(c.place)}"]
        case Send():
            return [f"{margin}{text(c.channel)} ! {text(c.value)}"]
        case Instance():
            return [f"{margin}{c.name}({', '.join(map(text, c.actuals))})"]
    lines = [margin + head(c)]
    for part in c.parts:
        if c.word in ("SEQ", "PAR"):
            lines += process_lines(part, level + 1)
        else:
            first = text(part[0]) if c.word == "IF" else guard(part[0])
            lines += [f"{margin}  {first}", *process_lines(part[1], level + 2)]
    return lines


def process_lines(p, level):
    """The lines of a process."""
    return ["  " * level + declaration(d) for d in p.declared] + construct_lines(p.construct, level)


def formal(f):
    """A parameter in the head of a procedure."""
    value = "VAL " if f.kind in ("value", "values") else ""
    channel = "CHAN OF " if f.kind in ("channel", "channels") else ""
    return f"{value}{sized(f.size)}{channel}{f.type} {f.name}"


def item_lines(item):
    """The lines of an item."""
    if not isinstance(item, Procedure):
        return [declaration(item)]
    return [f"PROC {item.name}({', '.join(map(formal, item.formals))})", *process_lines(item.body, 1), ":"]


def lines(items):
    """The lines of a program."""
    return [line for item in items for line in item_lines(item)]
