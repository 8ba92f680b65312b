"""Module files with PARs, made to be slow."""

import struct

from inputs import (
    ALL_CHANNELS, BOTH, CHANNEL_PARAMETER, FRAME_HI, FRAME_LO, GREATEST, LEAST, MAX_BRANCHES, MAX_CODE_2,
    MAX_DATA_WORDS, MAX_LABELS, STOP_PROCESS, UNKNOWN, number_entry, parameter_entry, pointer_entry,
)
from comparisons import SAME, after, any_numbers, same_constants, same_loops
from modules import FRAME_WORD, IN, OUT, PARAMETER, assembled, branch_row, code, module, par_row

CODE_ADDRESS = 3
PROCEDURE, BRANCH = 1, 2  # contexts
BLOCK = -8  # the first word of the PAR's block, at which the procedure's workspace is then
WORKSPACE = -24  # that of the branch, above its three words for scheduling
POINTER_WORD = 4
FIRST = 8  # the first frame word that the branch may write besides, as every second one after it
LEFT = range(1_000, 1_064)  # words of which a store may write any
WIDE = 65_535  # intervals or ends
WIDE_WORKSPACE = 8  # that of branches with so many


def depth_row(offset, context, depth, number, entries):
    """The row of a label, which says nothing of the registers."""
    head = struct.pack("<IHiQBBBH", offset, context, depth, number, *(UNKNOWN,) * 3, len(entries))
    return head + b"".join(entries)


def code_entry(word, offset):
    """An entry that says of a word that it is a code address."""
    return struct.pack("<iIBI", word, 1, CODE_ADDRESS, offset)


def prepared_block(offsets, branches=1):
    """What is known of the PAR's block when its branches are to start."""
    return [code_entry(BLOCK, offsets["successor"]), number_entry(BLOCK + 1, 1, branches + 1, branches + 1)]


def opening(branches):
    """The instructions that start branches, each of a block and at a workspace, and come to the join."""
    started = [f"ldc {block}/2, ldlp {workspace - BLOCK}, startp" for block, workspace in branches.items()]
    return ", ".join([*started, "ldlp 0, endp"])


def opening_over_and_over(branches, changes=""):
    """Code that opens a PAR of such branches as often as labels and code allow, each time at a label, and where its
    blocks begin. Returns the labels' names besides."""
    ended = {block: f"ldlp {BLOCK - workspace}, endp" for block, workspace in branches.items()}
    piece = changes + opening(branches)
    times = MAX_LABELS - 1 - len(branches)
    while True:
        names = [f"opening {number}" for number in range(times)]
        blocks = {"start": 2 * STOP_PROCESS, **dict.fromkeys(names, piece), **ended, "successor": STOP_PROCESS}
        body, offsets = assembled(blocks)
        if len(body) <= MAX_CODE_2:
            return body, offsets, names
        times = times * MAX_CODE_2 // len(body) - 1


def opened_module(body, offsets, parameters, labels, channels, branches):
    """A module of this code with a procedure of the largest frame and the row of that PAR."""
    procedure = struct.pack("<IiiQH", 2, FRAME_LO, FRAME_HI, 2, len(parameters)) + b"".join(parameters)
    pars = [par_row(PROCEDURE, BLOCK, BLOCK, offsets["successor"], channels, branches)]
    return module(body, version=2, procedures=[procedure], labels=labels, pars=pars)


def elements_from(first, count):
    """So many ends of neighbouring channels of the first parameter, both of each."""
    return [(PARAMETER, 0, number // 2, (IN, OUT)[number % 2]) for number in range(first, first + count)]


CHANNELS_WORD = 5  # in which the procedure is passed channels
ALL_ELEMENTS = struct.pack("<HBIIB", CHANNELS_WORD, CHANNEL_PARAMETER, ALL_CHANNELS, 4, BOTH)
PREPARED_NUMBER = 1 << 40  # it covers what is paid at any label here


def opening_many_ends(count=4):
    """A PAR of some branches, each with as many ends of a parameter's channels as it may have, opened over and over."""
    branches = {f"branch{number}": WORKSPACE - 4 * number for number in range(count)}
    body, offsets, names = opening_over_and_over(branches)
    known = [*prepared_block(offsets, count), parameter_entry(CHANNELS_WORD)]
    labels = [depth_row(offsets[name], PROCEDURE, BLOCK, PREPARED_NUMBER, known) for name in names]
    for context, (block, workspace) in enumerate(branches.items(), BRANCH):
        labels.append(depth_row(offsets[block], context, workspace, 10, []))
    labels.append(depth_row(offsets["successor"], PROCEDURE, BLOCK, 10, []))
    word = (CHANNELS_WORD, CHANNELS_WORD + 1)
    rows = [
        branch_row(offsets[block], workspace, [(workspace - 3, workspace)], [word], elements_from(WIDE * number, WIDE))
        for number, (block, workspace) in enumerate(branches.items())
    ]
    return opened_module(body, offsets, [ALL_ELEMENTS], labels, [], rows)


def opening_many_channels(count=32_000):
    """A PAR of one branch with so many channels, all of them empty, opened over and over."""
    body, offsets, names = opening_over_and_over({"branch": WORKSPACE})
    low, high = range(FRAME_LO, WORKSPACE - 3), range(BLOCK + 9, FRAME_HI)
    empty = [number_entry(words.start, len(words), LEAST, LEAST) for words in (low, high)]
    known = after([*prepared_block(offsets), *empty])
    labels = [depth_row(offsets[name], PROCEDURE, BLOCK, PREPARED_NUMBER, known) for name in names]
    labels.append(depth_row(offsets["branch"], BRANCH, WORKSPACE, 10, []))
    labels.append(depth_row(offsets["successor"], PROCEDURE, BLOCK, 10, []))
    row = branch_row(offsets["branch"], WORKSPACE, [(WORKSPACE - 3, WORKSPACE)])
    return opened_module(body, offsets, [], labels, [*low, *high][:count], [row])


def opening_at_loops(most=364):
    """A PAR of one branch that has as many ends as it may, opened over and over behind a store to any word. The labels
    of the branch and of the successor have loops, which are entered: the words are constants before, by entries of so
    many words at most. The branch reads each word by an interval of its own."""
    skipped = {*range(WORKSPACE - 3, FIRST)}
    store = f"ldc {SAME}, ldl {POINTER_WORD - BLOCK}, stnl 0, "
    body, offsets, names = opening_over_and_over({"branch": WORKSPACE}, store)
    pointer = pointer_entry(POINTER_WORD, 4 * FIRST, 4 * (FRAME_HI - 1), 4)
    constants = [*same_constants(FRAME_LO, WORKSPACE - 3, most), *same_constants(FIRST, FRAME_HI, most)]
    known = after([*prepared_block(offsets), pointer, parameter_entry(CHANNELS_WORD), *constants])
    words = [word for word in range(FRAME_LO, FRAME_HI) if word not in skipped]
    wanted = same_loops(word for word in words if word % 2 == 0 and word + 1 not in skipped)
    labels = [depth_row(offsets[name], PROCEDURE, BLOCK, PREPARED_NUMBER, known) for name in names]
    labels.append(depth_row(offsets["branch"], BRANCH, WORKSPACE, 10, wanted))
    labels.append(depth_row(offsets["successor"], PROCEDURE, BLOCK, 10, wanted))
    reads = [(word, word + 1) for word in sorted([*words, CHANNELS_WORD])]
    writes = [(WORKSPACE - 3, WORKSPACE)]
    row = branch_row(offsets["branch"], WORKSPACE, writes, reads, elements_from(0, WIDE))
    return opened_module(body, offsets, [ALL_ELEMENTS], labels, [], [row])


def ending_branches(beside=8):
    """As many branches as labels allow, of PARs of some each that nothing starts, which end behind a store to any word.
    Each is compared with one label after all PARs."""
    piece = code(f"ldc 5, ldl {POINTER_WORD - WORKSPACE}, stnl 0, ldlp {BLOCK - WORKSPACE}, endp")
    start = 2 * STOP_PROCESS
    count = (MAX_LABELS - 2) // beside * beside
    offsets = [len(start) + len(piece) * number for number in range(count)]
    body = start + piece * count + STOP_PROCESS
    successor = len(body) - len(STOP_PROCESS)
    pointer = pointer_entry(POINTER_WORD, 4 * FIRST, 4 * (FRAME_HI - 1), 4)
    known, wanted = [pointer, any_numbers(FIRST, FRAME_HI)], [any_numbers(FIRST, FRAME_HI)]
    labels = [depth_row(at, context, WORKSPACE, 1_000, known) for context, at in enumerate(offsets, BRANCH)]
    labels.append(depth_row(successor, PROCEDURE, BLOCK, 10, wanted))
    writes, reads = [(WORKSPACE - 3, WORKSPACE), (FIRST, FRAME_HI)], [(POINTER_WORD, POINTER_WORD + 1)]
    rows = [branch_row(at, WORKSPACE, writes, reads) for at in offsets]
    pars = [
        par_row(PROCEDURE, BLOCK, BLOCK, successor, [], rows[first : first + beside])
        for first in range(0, count, beside)
    ]
    procedure = struct.pack("<IiiQH", 2, FRAME_LO, FRAME_HI, 2, 0)
    return module(body, version=2, procedures=[procedure], labels=labels, pars=pars)


def opening_one_row(times=MAX_LABELS - 2, changes=""):
    """A PAR of one branch, which so many pieces of code open, in the largest frame. The branch may write every second
    word of the upper half. The label of the branch has an entry for each word there that the branch may read, and that
    of the successor one for each word."""
    opening = f"{changes}ldc branch/2, ldlp {WORKSPACE - BLOCK}, startp, ldlp 0, endp"
    openings = {f"opening {number}": opening for number in range(times)}
    ended = {"branch": f"ldlp {BLOCK - WORKSPACE}, endp", "successor": STOP_PROCESS}
    code, offsets = assembled({"start": 2 * STOP_PROCESS, **openings, **ended})
    prepared = [
        number_entry(FRAME_LO, BLOCK - FRAME_LO, LEAST, GREATEST),
        struct.pack("<iIBI", BLOCK, 1, CODE_ADDRESS, offsets["successor"]),
        number_entry(BLOCK + 1, 1, 2, 2),
        pointer_entry(POINTER_WORD, 4 * LEFT[0], 4 * LEFT[-1], 4),
        number_entry(FIRST, FRAME_HI - FIRST, LEAST, GREATEST),
    ]
    below = range(FRAME_LO, WORKSPACE - 3)
    lower = [number_entry(word, 1, LEAST, GREATEST) for word in below]
    upper = [number_entry(word, 1, LEAST, GREATEST) for word in range(FIRST, FRAME_HI)]
    labels = [depth_row(offsets[name], PROCEDURE, BLOCK, 1_000, prepared) for name in openings]
    labels.append(depth_row(offsets["branch"], BRANCH, WORKSPACE, 10, lower + upper))
    labels.append(depth_row(offsets["successor"], PROCEDURE, BLOCK, 10, lower + upper))
    writes = [(WORKSPACE - 3, WORKSPACE), *((word, word + 1) for word in range(FIRST, FRAME_HI, 2))]
    reads = [(FRAME_LO, WORKSPACE - 3), *((word, word + 1) for word in range(FIRST + 1, FRAME_HI, 2))]
    branch = branch_row(offsets["branch"], WORKSPACE, writes, reads)
    procedure = struct.pack("<IiiQH", 2, FRAME_LO, FRAME_HI, 2, 0)
    pars = [par_row(PROCEDURE, BLOCK, BLOCK, offsets["successor"], [], [branch])]
    return module(code, version=2, procedures=[procedure], labels=labels, pars=pars)


def opening_behind_stores():
    """The same, each time once a store went through a pointer to any of some words."""
    return opening_one_row(changes=f"ldc 5, ldl {POINTER_WORD - BLOCK}, stnl 0, ")


def wide_branch(entry, intervals, ends):
    """A branch with so many intervals and ends, most of them of words that no frame has."""
    writes = [(WIDE_WORKSPACE - 3, WIDE_WORKSPACE)]
    writes += [(word, word + 1) for word in range(WIDE_WORKSPACE, WIDE_WORKSPACE + 2 * intervals - 2, 2)]
    rows = [(FRAME_WORD, word, 0, OUT) for word in range(ends)]
    return branch_row(entry, WIDE_WORKSPACE, writes, ends=rows)


def with_wide_branches(intervals, ends):
    """A PAR of as many branches as there may be, each with so many intervals and ends. Nothing starts them."""
    size = len(STOP_PROCESS)
    entries = [size * (1 + number) for number in range(MAX_BRANCHES)]
    branches = [wide_branch(entry, intervals, ends) for entry in entries]
    labels = [depth_row(entry, 1 + number, WIDE_WORKSPACE, size, []) for number, entry in enumerate(entries)]
    pars = [par_row(0, 0, 0, entries[0], [], branches)]
    return module(STOP_PROCESS * (1 + MAX_BRANCHES), MAX_DATA_WORDS, version=2, labels=labels, pars=pars)
