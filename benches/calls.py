"""Module files whose calls lend as many regions as may be, made to be slow."""

import struct

from comparisons import CONTEXT, any_numbers
from inputs import (
    FRAME_HI, FRAME_LO, GREATEST, LEAST, MAX_CODE_2, MAX_LABELS, READ_REGION, STOP_PROCESS, backwards, label_row,
    pointer_entry,
)
from modules import code, module
from starts import depth_row

LENT = 61  # regions: the parameters in the first three words are passed in registers
ENOUGH = 1 << 50  # it covers what is paid at any label here


def two_procedures(size, callee_frame, body, labels):
    """A module of two procedures, which begin behind the root. The first one is lent so many bytes by each parameter,
    and has that frame; the second has the largest one."""
    parameters = [struct.pack("<HBIii", 4 + number, READ_REGION, size, LEAST, GREATEST) for number in range(LENT)]
    callee, caller = len(STOP_PROCESS), len(STOP_PROCESS) + len(code("ret"))
    procedures = [
        struct.pack("<IiiQH", callee, 0, callee_frame, 2, LENT) + b"".join(parameters),
        struct.pack("<IiiQH", caller, FRAME_LO, FRAME_HI, 2, 0),
    ]
    return module(body, version=2, procedures=procedures, labels=labels)


START = STOP_PROCESS + code("ret") + STOP_PROCESS
CALLEE = len(STOP_PROCESS)
CALLER = CONTEXT + 1  # the second procedure


def behind_labels():
    """Calls, each behind a label, that lend nearly all of the frame 61 times, from a word on that begins no block."""
    first = LENT + 4
    pointers = [pointer_entry(number, 4 * first, 4 * first, 4) for number in range(LENT)]
    entries = [*pointers, any_numbers(first - 1, FRAME_HI)]
    body, offsets = START, []
    while len(offsets) < MAX_LABELS - 2 and len(body) < MAX_CODE_2 - 16:
        offsets.append(len(body))
        body += backwards("call", len(body), CALLEE) + STOP_PROCESS
    labels = [label_row(at, CALLER, ENOUGH, entries) for at in offsets]
    return two_procedures(4 * (FRAME_HI - first), first, body, labels)


def moving_between(pointers=1_024):
    """The same calls, but with one label for many of them: between them the workspace moves, so that each is passed
    other words, of all of which one entry says that they point there."""
    width = LENT + 8
    first = FRAME_LO + pointers + 1
    entries = [
        pointer_entry(FRAME_LO, 4 * first, 4 * first, 4, span=pointers),
        any_numbers(FRAME_LO + pointers, FRAME_HI),
    ]
    body, labels = START, []
    while len(body) < MAX_CODE_2 - 40 and len(labels) < MAX_LABELS - 2:
        labels.append(depth_row(len(body), CALLER, FRAME_LO + pointers - width, ENOUGH, entries))
        for _ in range(pointers // width - 1):
            if len(body) < MAX_CODE_2 - 20:
                body += backwards("call", len(body), CALLEE) + code(f"ajw -{width}")
        body += STOP_PROCESS
    return two_procedures(4 * (FRAME_HI - first - 1), LENT + 4, body, labels)
