"""Smaller programs of which the same is said."""

import copy
import dataclasses

import tree

EXPRESSIONS = (tree.Number, tree.Truth, tree.Name, tree.Element, tree.Applied, tree.Converted, tree.Chain,
               tree.Bracketed)


def places(node, path=()):
    """Each part of a program, by the way to it."""
    yield path, node
    if isinstance(node, (list, tuple)):
        for at, part in enumerate(node):
            yield from places(part, (*path, at))
    elif dataclasses.is_dataclass(node):
        for field in dataclasses.fields(node):
            yield from places(getattr(node, field.name), (*path, field.name))


def smaller_expressions(node):
    """What may stand for an expression."""
    if isinstance(node, (tree.Applied, tree.Converted)) and node.operand.type == node.type:
        yield node.operand
    if isinstance(node, tree.Bracketed):
        yield node.inner
    if isinstance(node, tree.Chain):
        yield from [e for e in node.operands if e.type == node.type]
        for at in range(len(node.operands) if len(node.operands) > 2 else 0):
            yield dataclasses.replace(node, operands=node.operands[:at] + node.operands[at + 1 :])
    if node.type == "BOOL":
        yield from [] if isinstance(node, tree.Truth) else [tree.Truth(True), tree.Truth(False)]
    elif not isinstance(node, tree.Number):
        for value in (0, 1):
            yield tree.Number(node.type, value, str(value) if node.type == "INT" else f"'*#0{value}'")


def smaller(node):
    """What may stand for a part of a program."""
    if isinstance(node, list):
        for at in range(len(node)):
            yield node[:at] + node[at + 1 :]
    if isinstance(node, EXPRESSIONS):
        yield from smaller_expressions(node)
    if isinstance(node, tree.Process):
        if not isinstance(node.construct, tree.Skip):
            yield tree.Process([], tree.Skip())
        if isinstance(node.construct, tree.Block):
            for part in node.construct.parts:
                process = part[1] if isinstance(part, tuple) else part
                yield tree.Process(node.declared + process.declared, process.construct)
            if node.construct.replicator:
                yield dataclasses.replace(node, construct=dataclasses.replace(node.construct, replicator=None))
    if isinstance(node, tree.Replicator):
        for count in (1, 2):
            yield dataclasses.replace(node, count=tree.Number("INT", count, str(count)))


def put(node, path, part):
    """A copy with another part at some place."""
    if not path:
        return part
    made = copy.copy(node)
    if isinstance(node, tuple):
        made = list(node)
    if isinstance(made, list):
        made[path[0]] = put(node[path[0]], path[1:], part)
        return tuple(made) if isinstance(node, tuple) else made
    setattr(made, path[0], put(getattr(node, path[0]), path[1:], part))
    return made


def size(items):
    return sum(len(line) for line in tree.lines(items))


def attempts(items):
    """Smaller programs, the smallest first."""
    found = [put(items, path, part) for path, node in places(items) for part in smaller(node)]
    main = [one for one in found if one and isinstance(one[-1], tree.Procedure) and one[-1].name == "main"]
    made = [(size(one), at, one) for at, one in enumerate(main)]
    return [one for count, _, one in sorted(made) if count < size(items)]


def shrunk(items, is_same, most=4000):
    """The smallest program that is found of which `is_same` says so."""
    tried, again = 0, True
    while again and tried < most:
        again = False
        for one in attempts(items):
            tried += 1
            if is_same(one):
                items, again = one, True
                break
            if tried >= most:
                break
    return items
