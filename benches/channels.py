"""Module files whose calls in a branch take as many channels as may be, made to be slow."""

import struct

from inputs import (
    BOTH, CHANNEL_PARAMETER, LOAD_CONSTANT, MAX_CODE_2, MAX_DATA_WORDS, STOP_PROCESS, UNKNOWN, backwards,
    parameter_entry,
)
from modules import FRAME_WORD, IN, OUT, PARAMETER, branch_row, code, module, par_row

CHANNELS = 16_320
FIRST = 32  # the frame word of the first channel
WORKSPACE = 16  # that of the branch
WORDS = [(8, 24)]  # what the branch writes: its own words, and those of the procedure that it calls


def taking_channels(depth):
    """Calls of a procedure that takes all channels, in a branch that has both ends of each, so many PARs deep. The
    outermost PAR lists the channels."""
    parameter = struct.pack("<HBIIB", 1, CHANNEL_PARAMETER, CHANNELS, 4, BOTH)
    entry = len(STOP_PROCESS)
    procedure = struct.pack("<IiiQH", entry, 0, 4, 2, 1) + parameter
    body = STOP_PROCESS + code("ret")
    start = len(body)
    body += LOAD_CONSTANT * depth  # at which the branches begin
    while len(body) < MAX_CODE_2 - 16:
        body += code(f"ldlp {FIRST - WORKSPACE}")
        body += backwards("call", len(body), entry)
    body += STOP_PROCESS
    ends = [(FRAME_WORD, word, 0, way) for word in range(FIRST, FIRST + CHANNELS) for way in (IN, OUT)]
    pars = []
    for n in range(depth):
        context = 0 if n == 0 else 1 + n
        channels = range(FIRST, FIRST + CHANNELS) if n == 0 else []
        branch = branch_row(start + n, WORKSPACE, WORDS, ends=ends if n == depth - 1 else [])
        pars.append(par_row(context, 0, 0, start, channels, [branch]))
    label = struct.pack("<IHiQBBBH", start, 1 + depth, WORKSPACE, 2 * len(body), 0, 0, 0, 0)
    return module(body, MAX_DATA_WORDS, version=2, procedures=[procedure], labels=[label], pars=pars)


def taking_elements(count=65_535):
    """Calls, over and over, of a procedure that takes so many channels of a parameter, in a branch of another one that
    has an end of each of them by its row."""
    parameter = struct.pack("<HBIIB", 1, CHANNEL_PARAMETER, count, 4, IN)
    callee = len(STOP_PROCESS)
    body = STOP_PROCESS + code("ret")
    caller = len(body)
    body += STOP_PROCESS
    entry = len(body)
    passing = code(f"ldl {1 - WORKSPACE}")
    while len(body) < MAX_CODE_2 - 16:
        body += passing
        body += backwards("call", len(body), callee)
    body += STOP_PROCESS
    procedures = [
        struct.pack("<IiiQH", callee, 0, 4, 2, 1) + parameter,
        struct.pack("<IiiQH", caller, -64, 64, 2, 1) + parameter,
    ]
    ends = [(PARAMETER, 0, element, IN) for element in range(count)]
    branch = branch_row(entry, WORKSPACE, WORDS, [(1, 2)], ends)
    pars = [par_row(2, 0, 0, caller, [], [branch])]
    label = struct.pack("<IHiQBBBH", entry, 3, WORKSPACE, 1 << 40, *(UNKNOWN,) * 3, 1) + parameter_entry(1)
    return module(body, version=2, procedures=procedures, labels=[label], pars=pars)
