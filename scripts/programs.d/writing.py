"""Random programs."""

import tree
from ranges import Entry
from nasty import Nasty
from networks import Networks
from statements import Statements, plain


def begin_main(writer):
    """The links of `main`, in the scope of its parameters."""
    dice, formals = writer.dice, []
    writer.scopes.append({})
    for link in range(4):
        for direction in ("in", "out"):
            if dice.random() < (0.95 if link == 0 else 0.2):
                types = ["INT", "INT", "BYTE"] if link or direction == "in" else ["INT", "INT", "INT", "INT", "BYTE"]
                name, type_ = f"{direction}{link}", dice.choice(types)
                formals.append(tree.Formal("channel", type_, name, role=direction))
                writer.add(Entry("channel", type_, name, ends=frozenset([direction])))
                writer.hidden.add(name)
    dice.shuffle(formals)
    return formals


def received(writer):
    """Numbers that are received into some variables at first."""
    parts = []
    for link in writer.ports("in"):
        for e in writer.writable("scalar", "array", type_=link.type):
            if writer.dice.random() < 0.5:
                place = writer.place(e)
                writer.assigned(e, e.full(), True)
                parts.append(plain(tree.Receive(tree.Name(link.type, link.name), place)))
    return parts


def main_body(writer):
    """The body of `main`: some variables are received, and all are sent at the end."""
    declared = [writer.declare_array(writer.dice.choice([20, 300, 4000]))] if writer.dice.random() < 0.15 else []
    declared += [writer.declare(k < 2) for k in range(writer.dice.choice([2, 3, 4]))]
    depth = writer.dice.choice([2, 3, 4, 6])
    parts = writer.merging_of_links() if writer.dice.random() < 0.3 else []
    parts += received(writer)
    for _ in range(writer.dice.choice([1, 2, 3])):
        parts.append(writer.part(depth))
    return tree.Process(declared, tree.Block("SEQ", None, parts + writer.report()))


def program(dice, is_sequential, is_without_alt):
    """The items of a program."""
    writer = Statements(dice) if is_sequential else Networks(dice, not is_without_alt)
    writer.left = dice.choice([4, 7, 10, 15, 30])
    return items_of(writer)


def nasty(dice):
    """The items of a nasty program."""
    writer = Nasty(dice)
    writer.left = dice.choice([7, 15, 30, 60])
    return items_of(writer)


def items_of(writer):
    """The items that somebody writes."""
    dice = writer.dice
    for _ in range(dice.choice([0, 1, 2, 3])):
        type_ = dice.choice(["INT", "INT", "BYTE"])
        is_constant = dice.random() < 0.5
        writer.items.append(writer.declare_constant(type_) if is_constant else writer.declare_table(type_))
    formals = begin_main(writer)
    body = writer.in_scope(lambda: main_body(writer))
    return [*writer.items, tree.Procedure("main", formals, body, writer.merged)]
