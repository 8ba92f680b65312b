"""Module files with alternations and with messages, made to be slow."""

import struct

from comparisons import NUMBER_OF_LABELS, after, loop_entry, pointer_to
from inputs import (
    ALL_CHANNELS, BOTH, CHANNEL_PARAMETER, FRAME_HI, FRAME_LO, GREATEST, LEAST, MAX_BRANCHES, MAX_CODE_2,
    MAX_DATA_WORDS, MAX_LABELS, STOP_PROCESS, UNKNOWN, backwards, each_word, filled, label_row, number_entry,
)
from modules import assembled, code, module

MAX_GUARDS = 64
ALTERNATIONS = 375  # of so many guards: about as many as code may have
WORKSPACE = -8  # that of the alternations in a procedure: below its return address
KEPT = (WORKSPACE - 3, WORKSPACE + 1)  # the words that an alternation takes, and where they end
MESSAGE = 4_096  # bytes


def with_alternations():
    """As many alternations as labels allow, of one guard, each of which goes on at the next."""
    blocks = {"start": "ldc 0"}
    for number in range(MAX_LABELS):
        following = f"alternation{number + 1}" if number + 1 < MAX_LABELS else "end"
        blocks[f"alternation{number}"] = f"alt, ldc 1, enbs, altwt, ldc 1, ldc {following}/2, diss, altend"
    blocks["end"] = STOP_PROCESS
    body, offsets = assembled(blocks)
    names = [*list(blocks)[2:]]
    labels = [label_row(offsets[name], 0, len(body) - offsets[name], []) for name in names]
    return module(body, MAX_DATA_WORDS, version=2, labels=labels)


def alternation(end):
    """An alternation of as many guards as there may be, each of which goes on at the same block."""
    enabled = ", ".join(["ldc 1, enbs"] * MAX_GUARDS)
    disabled = ", ".join(f"ldc 1, ldc {end}/{3 * (MAX_GUARDS - number) - 1}, diss" for number in range(MAX_GUARDS))
    return f"alt, {enabled}, altwt, {disabled}, altend"


def label_at_depth(offset, number, entries):
    """The row of a label of the procedure, at the alternations' depth."""
    head = struct.pack("<IHiQBBBH", offset, 1, WORKSPACE, number, *(UNKNOWN,) * 3, len(entries) % 2**16)
    return head + b"".join(entries)


def ending_at_one_label(known, wanted, changes=""):
    """Such alternations in the largest frame, one after the other, each once words are changed, from a label with the
    entries that are known to one label with those that are wanted."""
    blocks = {"start": 2 * STOP_PROCESS}
    blocks |= {f"alternation{number}": changes + alternation("end") for number in range(ALTERNATIONS)}
    body, offsets = assembled({**blocks, "end": STOP_PROCESS})
    names = [name for name in blocks if name != "start"]
    labels = [label_at_depth(offsets[name], NUMBER_OF_LABELS, known) for name in names]
    labels.append(label_at_depth(offsets["end"], 2, wanted))
    procedure = struct.pack("<IiiQH", 2, FRAME_LO, FRAME_HI, 2, 0)
    return module(body, version=2, procedures=[procedure], labels=labels)


def with_wide_ends():
    """Such alternations, one after the other. The label at which they all go on has an entry for each word."""
    known = [number_entry(FRAME_LO, KEPT[0] - FRAME_LO, 0, 1), number_entry(KEPT[1], FRAME_HI - KEPT[1], 0, 1)]
    return ending_at_one_label(known, each_word(FRAME_LO, KEPT[0]) + each_word(KEPT[1], FRAME_HI))


def numbers_but_for_pointer(low, high, most=FRAME_HI - FRAME_LO):
    """Entries that say of the words that an alternation does not take that they are such numbers, but for the pointer
    in word 1. None is of more words than `most`."""
    spans = [(FRAME_LO, KEPT[0]), (KEPT[1], 1), (2, FRAME_HI)]
    return [
        number_entry(word, min(most, end - word), low, high)
        for first, end in spans
        for word in range(first, end, most)
    ]


def behind_stores(known, wanted, number):
    """Such alternations, each behind a store of this number through the pointer in word 1 to any word after it."""
    changes = f"ldc {number}, ldl {1 - WORKSPACE}, stnl 0, "
    return ending_at_one_label(after([pointer_to(range(2, FRAME_HI)), *known]), wanted, changes)


def with_ends_behind_stores():
    """Alternations behind stores, whose labels have one entry for all that they say of numbers."""
    numbers = numbers_but_for_pointer(LEAST, GREATEST)
    return behind_stores(numbers, numbers, 5)


def with_ends_at_loops():
    """The same where the label at which they go on has loops, which are entered: the words are constants before, by
    some 2,300 entries in each label."""
    loops = [
        loop_entry(word, 3, 3, 0)
        for word in range(FRAME_LO, FRAME_HI, 2)
        if not KEPT[0] - 1 <= word < KEPT[1] and word != 0
    ]
    return behind_stores(numbers_but_for_pointer(3, 3, most=14), loops, 3)


def with_long_messages():
    """Messages of 4,096 bytes from a link to the same words of the frame, over and over."""
    body = filled(f"ldlp 8, mint, ldnlp 4, ldc {MESSAGE}, in")
    label = label_row(len(STOP_PROCESS), 0, len(body), [number_entry(-4, MAX_DATA_WORDS, LEAST, GREATEST)])
    lengths = (0, 0, 0, 0, MESSAGE, 0, 0, 0)
    return module(body, MAX_DATA_WORDS, version=2, labels=[label], lengths=lengths)


def with_wide_channels():
    """Calls, over and over, of a procedure that takes as many channels as a parameter may have, by one that has them
    by a parameter."""
    parameter = struct.pack("<HBIIB", 1, CHANNEL_PARAMETER, ALL_CHANNELS, 4, BOTH)
    callee, caller = len(STOP_PROCESS), len(STOP_PROCESS) + len(code("ret"))
    body = STOP_PROCESS + code("ret")
    while len(body) < MAX_CODE_2 - 16:
        body += code("ldl 1")
        body += backwards("call", len(body), callee)
    body += code("ret")
    procedures = [
        struct.pack("<IiiQH", callee, 0, 4, 2, 1) + parameter,
        struct.pack("<IiiQH", caller, -4, 4, 2 * len(body), 1) + parameter,
    ]
    return module(body, MAX_DATA_WORDS, version=2, procedures=procedures)
