#!/usr/bin/env python3
"""Certified modules, each with work of one kind, in a loop, that send what they computed on link 0.

usage: benches/plain_runs.py --write FOLDER

The files of all of them are written to the folder: NAME.tpm, and for the copy of a link its input, link-copy.in.
"""

import os
import struct
import sys
from collections import namedtuple

import links
from comparisons import loop_entry
from inputs import GREATEST, LEAST, POINTER, STOP_PROCESS, UNKNOWN, backwards, number_entry
from modules import FRAME_WORD, IN, OUT, Branch, Par, assembled, code, module, opening, row_of

COPIED = 10_000_000  # bytes from link to link
STAGES = 64
CHANNEL_PARAMETER, WRITTEN_REGION, VALUE = 3, 2, 0
RETURN_ADDRESS = 5
TURNS = {  # so that about a million bytes are executed
    "arithmetic": 25_000, "memory": 600, "calls": 25_000, "channels": 45_000, "alternation": 10_000, "pipeline": 900,
}

# A module's file, and how many bytes a run of it executes and sends.
PlainRun = namedtuple("PlainRun", "file executed sent")

# A loop: the word of its index, which the count follows, how many turns it has, and its body, which is a list of
# pieces: instructions, as bytes or separated by commas, loops, places and calls.
Loop = namedtuple("Loop", "index turns body")

# A place of the code where a label is, by its name.
Place = namedtuple("Place", "name")

# Code that calls procedures, and what these cost.
Called = namedtuple("Called", "code number")

# What is laid out: the code, what it costs at most with all that comes after it, and the labels. Of each the offset,
# the number and the loops around it, each an index, a count and a weight.
Laid = namedtuple("Laid", "code number labels")
Label = namedtuple("Label", "name offset number loops")


def turn_of(body, index):
    """The code of a loop's turn, which ends by going back to where it begins."""
    size = 1
    while True:
        begun = body + code(f"ldlp {index}")
        end = code(f"ldc {len(begun) + size + 2}, lend")
        if len(end) == size + 2:
            return begun + end
        size += 1


def moved(labels, distance):
    return [it._replace(offset=it.offset + distance) for it in labels]


def loop_start(loop):
    return code(f"ldc 0, stl {loop.index}, ldc {loop.turns}, stl {loop.index + 1}")


def laid_loop(loop, after):
    """A loop, before what costs so much."""
    body = laid(loop.body, 0)
    turn = turn_of(body.code, loop.index)
    end = len(turn) - len(body.code)
    weight = body.number + end
    around = (loop.index, loop.turns, weight)
    start = loop_start(loop)
    labels = [Label("", 0, weight - end, []), *body.labels]
    labels = [it._replace(number=it.number + end + after, loops=[around, *it.loops]) for it in labels]
    return Laid(start + turn, len(start) + loop.turns * weight + after, moved(labels, len(start)))


def laid(pieces, after):
    """Pieces of code one after the other, before what costs so much."""
    whole = Laid(b"", after, [])
    for piece in reversed(pieces):
        if isinstance(piece, Loop):
            first = laid_loop(piece, whole.number)
        elif isinstance(piece, Place):
            first = Laid(b"", whole.number, [Label(piece.name, 0, whole.number, [])])
        elif isinstance(piece, Called):
            first = Laid(piece.code, whole.number + len(piece.code) + piece.number, [])
        else:
            text = piece if isinstance(piece, bytes) else code(piece)
            first = Laid(text, whole.number + len(text), [])
        labels = first.labels + moved(whole.labels, len(first.code))
        whole = Laid(first.code + whole.code, first.number, labels)
    return whole


def label_row(label, context, depth, entries, at=0):
    """The row of a label in code that begins at this offset, with the loops around it and these entries."""
    loops = [loop_entry(depth + index, 0, turns, weight) for index, turns, weight in label.loops]
    entries = sorted([*loops, *entries], key=lambda it: struct.unpack_from("<i", it))
    registers = (UNKNOWN, UNKNOWN, UNKNOWN)
    head = struct.pack("<IHiQBBBH", at + label.offset, context, depth, label.number, *registers, len(entries))
    return head + b"".join(entries)


def in_order(labels):
    """Rows of labels, which rise by their offsets."""
    return sorted(labels, key=lambda it: struct.unpack_from("<I", it))


def any_number(word, span=1):
    return number_entry(word, span, LEAST, GREATEST)


def sending(word, length):
    """The instructions that send so many bytes from a word on over link 0, and stop."""
    return [f"ldlp {word}, mint, ldc {length}, out", STOP_PROCESS]


def links_of(length):
    return (length, 0, 0, 0, 0, 0, 0, 0)


def of_root(pieces, words, entries, length):
    """A module of one process with so many words. At each label it knows the same of words that are in no loop."""
    whole = laid(pieces, 0)
    labels = [label_row(it, 0, 0, entries) for it in whole.labels]
    file = module(whole.code, 4 + words, labels=labels, lengths=links_of(length), budget=whole.number)
    return PlainRun(file, whole.number, length)


def arithmetic():
    """Sums, products, comparisons and bits of local words."""
    first, second, third, fourth = 2, 3, 4, 5
    body = [
        f"ldl {first}, ldc 37, mul, adc 11, ldc 1023, and, stl {first}",
        f"ldl {first}, ldl 0, sum, ldl {second}, xor, stl {second}",
        f"ldl {first}, ldc 400, gt, ldl {third}, sum, stl {third}",
        f"ldl {second}, ldc 3, shr, ldl {third}, diff, ldl {fourth}, sum, stl {fourth}",
    ]
    start = ", ".join(f"ldc 0, stl {word}" for word in (first, second, third, fourth))
    pieces = [start, Loop(0, TURNS["arithmetic"], body), *sending(first, 16)]
    return of_root(pieces, 6, [number_entry(first, 1, 0, 1023), any_number(second, 3)], 16)


def memory():
    """Words and bytes of an array through pointers."""
    array, size = 4, 64
    add = f"ldl 2, ldlp {array}, wsub, ldnl 0, ldl 2, sum, ldl 2, ldlp {array}, wsub, stnl 0"
    store = f"ldl 2, ldlp {array}, bsub, lb, ldl 0, sum, ldl 2, ldlp {array}, bsub, sb"
    zeros = ", ".join(f"ldc 0, stl {word}" for word in range(array, array + size))
    pieces = [zeros, Loop(0, TURNS["memory"], [Loop(2, size, [add, store])]), *sending(array, 4 * size)]
    return of_root(pieces, array + size, [any_number(array, size)], 4 * size)


def number_parameter(word):
    return struct.pack("<HBii", word, VALUE, LEAST, GREATEST)


def procedure_row(entry, low, number, parameters):
    """The row of a procedure whose frame ends where `call` has put its words."""
    return struct.pack("<IiiQH", entry, low, 4, number, len(parameters)) + b"".join(parameters)


def calling_twice(inner):
    """A procedure after `inner`, which it calls twice with what it is given."""
    body = code("ajw -1")
    for _ in range(2):
        body += code("ldl 3, ldl 2")
        body += backwards("call", len(inner.code) + len(body), 0)
    return laid([Called(body, 2 * inner.number), "ajw 1, ret"], 0)


def calls():
    """Two procedures, one of which calls the other twice, with a number and a word to write."""
    added = "ldl 2, ldl 1, ldnl 0, sum, ldl 1, stnl 0"
    skipped = len(code(added))  # where the number is 0
    inner = laid([f"ldl 2, cj {skipped}, {added}", Place("added"), "ret"], 0)
    outer = calling_twice(inner)
    before, loop, given = code("ldc 0, stl 2"), Loop(0, TURNS["calls"], []), code("ldl 0, ldlp 2")
    call = backwards("call", len(inner.code + outer.code + before + loop_start(loop) + given), len(inner.code))
    loop = loop._replace(body=[given, Called(call, outer.number)])
    root = laid([Place(""), before, loop, *sending(2, 4)], 0)
    over = code(f"j {len(inner.code + outer.code)}")
    at = [len(over), len(over + inner.code), len(over + inner.code + outer.code)]
    returned = struct.pack("<iIB", 0, 1, RETURN_ADDRESS)
    labels = [label_row(it, 1, 0, [returned], at[0]) for it in inner.labels]
    labels += [label_row(it, 0, 0, [any_number(2)] if it.loops else [], at[2]) for it in root.labels]
    parameters = [struct.pack("<HBIii", 1, WRITTEN_REGION, 4, LEAST, GREATEST), number_parameter(2)]
    lows = (0, -5)  # the outer one has a word of its own, and the four of its calls
    procedures = [procedure_row(*it, parameters) for it in zip(at, lows, (inner.number, outer.number))]
    number = len(over) + root.number
    file = module(
        over + inner.code + outer.code + root.code, 12, version=2, procedures=procedures, labels=in_order(labels),
        lengths=links_of(4), budget=number, base=9,
    )
    return PlainRun(file, number - 2 * skipped, 4)


def ended(workspace):
    """The instructions by which a branch ends."""
    return f"ldlp {-workspace}, endp"


class Branches:
    """A module whose root starts branches, waits for them, and sends a word of theirs."""

    def __init__(self, par, sent, procedures=0):
        self.par, self.sent, self.procedures = par, sent, procedures
        self.blocks, self.labels, self.numbers = {"root": opening(par)}, {}, {}

    def add(self, name, whole, rows):
        """Code that is laid out. `rows` makes the rows of its labels, from the offset where it begins."""
        self.blocks[name], self.numbers[name] = whole.code, lambda length: whole.number
        self.labels[name] = lambda at, length: rows(at)

    def context(self, branch):
        return 1 + self.procedures + self.par.branches.index(branch)

    def add_branch(self, branch, pieces, entries):
        """A branch. `entries` says what it knows at a label that is in a loop, of other words than the loop's."""
        whole = laid([Place(""), *pieces, ended(branch.workspace)], 0)
        row = lambda it, at: label_row(
            it, self.context(branch), branch.workspace, entries(it) if it.loops else [], at
        )
        self.add(branch.block, whole, lambda at: [row(it, at) for it in whole.labels])

    def add_call(self, branch, text, number):
        """A branch that calls a procedure which costs so much."""
        cost = lambda length: length + number
        row = lambda at, length: label_row(
            Label("", 0, cost(length), []), self.context(branch), branch.workspace, [], at
        )
        self.blocks[branch.block], self.numbers[branch.block] = f"{text}, {ended(branch.workspace)}", cost
        self.labels[branch.block] = lambda at, length: [row(at, length)]

    def run(self, data_words, procedures=lambda offsets: []):
        """The module. `procedures` makes the rows of its procedures, from the offsets of the blocks of code."""
        rest = laid([Place(""), *sending(self.sent, 4)], 0)
        self.add("rest", rest, lambda at: [label_row(rest.labels[0], 0, 0, [any_number(self.sent)], at)])
        body, offsets = assembled(self.blocks)
        starts = [*offsets.values(), len(body)]
        lengths = {name: end - begin for name, begin, end in zip(offsets, starts, starts[1:])}
        names = ["rest", *(it.block for it in self.par.branches)]
        number = lengths["root"] + sum(self.numbers[name](lengths[name]) for name in names)
        labels = [row for name, rows in self.labels.items() for row in rows(offsets[name], lengths[name])]
        file = module(
            body, data_words, version=2, labels=in_order(labels), pars=[row_of(self.par, offsets)], budget=number,
            procedures=procedures(offsets), lengths=links_of(4),
        )
        return PlainRun(file, number, 4)


def end_of(word, way):
    return (FRAME_WORD, word, 0, way)


def sender(branch, channel, turns):
    """A branch that sends its index so many times."""
    return [Loop(0, turns, [f"ldlp 0, ldlp {channel - branch.workspace}, ldc 4, out"])]


def channels():
    """A process sends words, and another one adds them up."""
    channel, turns = 2, TURNS["channels"]
    first = Branch("sender", 6, (3, 8), [end_of(channel, OUT)])
    second = Branch("receiver", 11, (8, 15), [end_of(channel, IN)])
    made = Branches(Par(0, 0, [channel], [first, second], "rest"), 14)
    made.add_branch(first, sender(first, channel, turns), lambda it: [])
    receive = f"ldlp 2, ldlp {channel - second.workspace}, ldc 4, in, ldl 2, ldl 3, sum, stl 3"
    made.add_branch(second, ["ldc 0, stl 3", Loop(0, turns, [receive])], lambda it: [any_number(14)])
    return made.run(4 + 15)


def alternation():
    """Two processes send words, and a third one adds them up, by an alternation over both channels."""
    turns, left, right = TURNS["alternation"], 2, 3
    first = Branch("first", 7, (4, 9), [end_of(left, OUT)])
    second = Branch("second", 12, (9, 14), [end_of(right, OUT)])
    third = Branch("third", 17, (14, 22), [end_of(left, IN), end_of(right, IN)])
    made = Branches(Par(0, 0, [left, right], [first, second, third], "rest"), 21)
    made.add_branch(first, sender(first, left, turns), lambda it: [])
    made.add_branch(second, sender(second, right, turns), lambda it: [])
    from_left, from_right = (f"ldlp {it - third.workspace}" for it in (left, right))
    body, offsets = assembled({
        "choice": f"alt, {from_left}, ldc 1, enbc, {from_right}, ldc 1, enbc, altwt, "
        f"{from_left}, ldc 1, ldc left/6, disc, {from_right}, ldc 1, ldc right/2, disc, altend",
        "left": f"ldlp 3, {from_left}, ldc 4, in, j taken/0",
        "right": f"ldlp 3, {from_right}, ldc 4, in",
        "taken": "ldl 3, ldl 4, sum, stl 4",
    })
    starts = list(offsets.values())
    pieces = [body[: starts[1]]]
    for name, begin, end in zip(list(offsets)[1:], starts[1:], [*starts[2:], len(body)]):
        pieces += [Place(name), body[begin:end]]
    total, received = any_number(21), any_number(20)
    made.add_branch(
        third, ["ldc 0, stl 4", Loop(1, 2 * turns, pieces)],
        lambda it: [received, total] if it.name == "taken" else [total],
    )
    run = made.run(4 + 22)
    # each turn goes by one of the two ways, and half of the turns by each
    return run._replace(executed=run.executed - turns * (starts[3] - starts[1]))


def pipeline():
    """A process sends words, and so many others pass them on, each of which adds its number. The last one adds up."""
    turns, words = TURNS["pipeline"], list(range(2, 1 + STAGES))
    middle = [
        Branch(f"stage{n}", start + 10, (start, start + 10), [end_of(words[n - 1], IN), end_of(words[n], OUT)])
        for n, start in zip(range(1, STAGES - 1), range(words[-1] + 1, 16_384, 10))
    ]
    start = middle[-1].words[1]
    first = Branch("source", start + 3, (start, start + 5), [end_of(words[0], OUT)])
    last = Branch("sink", start + 8, (start + 5, start + 12), [end_of(words[-1], IN)])
    made = Branches(Par(0, 0, words, [first, *middle, last], "rest"), start + 11, 1)
    stage = laid([
        "ajw -3", Loop(1, turns, ["ldlp 0, ldl 4, ldc 4, in, ldl 0, ldl 6, sum, stl 0, ldlp 0, ldl 5, ldc 4, out"]),
        "ajw 3, ret",
    ], 0)
    known = [
        struct.pack("<iIB", 0, 1, RETURN_ADDRESS), any_number(3),
        *(struct.pack("<iIBHiiB", word, 1, POINTER, 1 + word, 0, 0, 4) for word in (1, 2)),
    ]
    made.add_branch(first, sender(first, words[0], turns), lambda it: [])
    for n, branch in enumerate(middle, 1):
        left, right = (f"ldlp {word - branch.workspace}" for word in words[n - 1 : n + 1])
        made.add_call(branch, f"ldc {n}, {right}, {left}, call stage/0", stage.number)
    receive = f"ldlp 2, ldlp {words[-1] - last.workspace}, ldc 4, in, ldl 2, ldl 3, sum, stl 3"
    made.add_branch(last, ["ldc 0, stl 3", Loop(0, turns, [receive])], lambda it: [any_number(start + 11)])
    made.add("stage", stage, lambda at: [label_row(it, 1, -3, known, at) for it in stage.labels])
    parameters = [struct.pack("<HBIIB", word, CHANNEL_PARAMETER, 1, 4, way) for word, way in ((1, IN), (2, OUT))]
    row = lambda offsets: procedure_row(offsets["stage"], -6, stage.number, [*parameters, number_parameter(3)])
    return made.run(4 + start + 12, lambda offsets: [row(offsets)])


def link_copy():
    """Bytes that come on link 0 go out there."""
    copy = links.copying(COPIED)
    return PlainRun(copy.file, copy.executed, copy.copied)


MODULES = {
    "arithmetic": arithmetic, "memory": memory, "calls": calls, "channels": channels, "alternation": alternation,
    "pipeline": pipeline, "link-copy": link_copy,
}


def copied():
    """What comes on link 0 to be copied."""
    return bytes(n * n % 251 for n in range(1_000)) * (COPIED // 1_000)


def write(folder, name, data):
    with open(os.path.join(folder, name), "wb") as file:
        file.write(data)


def main(words):
    if len(words) != 2 or words[0] != "--write":
        sys.exit(__doc__)
    os.makedirs(words[1], exist_ok=True)
    for name, make in MODULES.items():
        run = make()
        write(words[1], f"{name}.tpm", run.file)
        print(f"{name}: {run.executed:,} bytes executed, {run.sent:,} sent")
    write(words[1], "link-copy.in", copied())


if __name__ == "__main__":
    main(sys.argv[1:])
