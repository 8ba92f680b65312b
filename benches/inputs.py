"""The inputs of the figures: module files and occam sources, as bytes."""

import os
import struct

from modules import BASE, FUNCTIONS, LINK, OUT, branch_row, code, module, par_row, spelled

SOURCES = os.path.join(os.path.dirname(os.path.abspath(__file__)), "sources")

MAX_CODE, MAX_DATA_WORDS, MAX_CONSTANTS = 65_535, 16_384, 16_384
MAX_PROCEDURES, MAX_PARAMETERS, MAX_LABELS = 512, 64, 8_192
MAX_PARS, MAX_BRANCHES, MAX_TABLES = 1_024, 64, 1_024

LOAD_CONSTANT = b"\x40"  # ldc 0
STOP_PROCESS = b"\x21\xf5"  # stopp
UNKNOWN, NUMBER, POINTER = 0, 1, 2  # kinds of facts
READ_REGION, CHANNEL_PARAMETER = 1, 3  # kinds of parameters
BOTH = 3  # ends of channels
ALL_CHANNELS = 2**32 - 1  # as many as a parameter may have
FRAME_REGION, PARAMETER_REGION = 0, 2
MAX_CODE_2 = 262_143  # in version 2
FRAME_LO, FRAME_HI = -16_384, 16_384  # the largest frame of a procedure
LEAST, GREATEST = -(2**31), 2**31 - 1


def straight(loads):
    """`ldc 0` so many times, and `stopp`."""
    return module(LOAD_CONSTANT * loads + STOP_PROCESS)


def labelled(has_entries):
    """As many labels as the format allows, over as many data words.

    The code begins with `stopp`, so that its labels may say anything of the frame; `ldc 0` falls from each label
    to the next. An entry says of the whole frame that its words are numbers.
    """
    entry = struct.pack("<iIBii", -BASE, MAX_DATA_WORDS, NUMBER, -(2**31), 2**31 - 1)
    registers = (UNKNOWN, UNKNOWN, UNKNOWN)
    labels = [
        struct.pack("<IHiQBBBH", offset, 0, 0, MAX_CODE - offset, *registers, has_entries) + entry * has_entries
        for offset in range(2, 2 + 8 * MAX_LABELS, 8)
    ]
    code = STOP_PROCESS + LOAD_CONSTANT * (MAX_CODE - 4) + STOP_PROCESS
    return module(code, MAX_DATA_WORDS, labels=labels)


def number_entry(word, span, low, high):
    """An entry that says of words that they are numbers."""
    return struct.pack("<iIBii", word, span, NUMBER, low, high)


def pointer_entry(word, low, high, step, span=1):
    """An entry that says of a word, or of so many, that it is the address of a byte of the frame."""
    return struct.pack("<iIBHiiB", word, span, POINTER, FRAME_REGION, low, high, step)


def parameter_entry(word):
    """An entry that says of a word that it is the address of what the first parameter names."""
    return struct.pack("<iIBHiiB", word, 1, POINTER, PARAMETER_REGION, 0, 0, 4)


def label_row(offset, context, number, entries):
    """The row of a label at the depth 0, which says nothing of the registers."""
    registers = (UNKNOWN, UNKNOWN, UNKNOWN)
    head = struct.pack("<IHiQBBBH", offset, context, 0, number, *registers, len(entries))
    return head + b"".join(entries)


def each_word(first, end):
    """An entry for each word: each has a range of its own."""
    return [number_entry(word, 1, -1 - word % 7, 7 + word % 5) for word in range(first, end)]


def filled(text, start=STOP_PROCESS):
    """Instructions over and over, as long as code may be, between `stopp`: nothing comes to the first of them."""
    body = code(text)
    times = (MAX_CODE_2 - len(start) - len(STOP_PROCESS)) // len(body)
    return start + body * times + STOP_PROCESS


def through_wide_pointer(text, step):
    """Instructions over and over that go through the pointer in word 1, which may be anywhere in the frame's words from
    word 2 on. Each of these is a number with a range of its own."""
    end = MAX_DATA_WORDS - BASE
    entries = [pointer_entry(1, 8, 4 * end - step, step), *each_word(2, end)]
    body = filled(text)
    label = label_row(len(STOP_PROCESS), 0, len(body), entries)
    return module(body, MAX_DATA_WORDS, version=2, labels=[label])


def with_moves():
    """Moves of 65,504 bytes, from one half of the largest frame to the other, over and over."""
    pointers = [pointer_entry(1, 4 * FRAME_LO, 4 * FRAME_LO, 4), pointer_entry(2, 32, 32, 4)]
    size = 4 * (FRAME_HI - 8)
    entries = [number_entry(FRAME_LO, -FRAME_LO, LEAST, GREATEST), *pointers, number_entry(3, 1, size, size)]
    entries.append(number_entry(8, FRAME_HI - 8, 0, 0))
    body = filled("ldl 1, ldl 2, ldl 3, move", 2 * STOP_PROCESS)
    procedure = struct.pack("<IiiQH", 2, FRAME_LO, FRAME_HI, 2, 0)
    label = label_row(2 * len(STOP_PROCESS), 1, len(body), entries)
    return module(body, version=2, procedures=[procedure], labels=[label])


def with_wide_calls():
    """Calls of a procedure that is lent three regions to read, each all of the frame but its first words."""
    size = 4 * (MAX_DATA_WORDS - BASE - 4)
    parameters = [struct.pack("<HBIii", word, READ_REGION, size, LEAST, GREATEST) for word in (1, 2, 3)]
    entry = len(STOP_PROCESS)
    procedure = struct.pack("<IiiQH", entry, 0, 4, 2, len(parameters)) + b"".join(parameters)
    body = STOP_PROCESS + code("ret")
    while len(body) < MAX_CODE_2 - 12:
        body += code("ldl 1, ldl 2, ldl 3")
        body += backwards("call", len(body), entry)
    body += STOP_PROCESS
    entries = [pointer_entry(word, 16, 16, 4) for word in (1, 2, 3)] + each_word(4, MAX_DATA_WORDS - BASE)
    label = label_row(entry + 2, 0, 2 * len(body), entries)
    return module(body, MAX_DATA_WORDS, version=2, procedures=[procedure], labels=[label])


def backwards(name, at, to):
    """A function at an offset whose operand is the distance back to another one."""
    function, size = FUNCTIONS.index(name), 2
    while len(spelled(function, to - at - size)) > size:
        size += 1
    return spelled(function, to - at - size)


def with_branches():
    """Conditional jumps to one label. Of each of the frame's words that label says another range, as does the one
    before all jumps."""
    rows = each_word(-BASE, MAX_DATA_WORDS - BASE)
    function = FUNCTIONS.index("cj")
    end, pieces = MAX_CODE_2 - len(STOP_PROCESS), []
    at = end
    while at > 16:
        jump = spelled(function, end - at)
        pieces.append(code("ldl 1") + jump)
        at -= len(pieces[-1])
    start = len(STOP_PROCESS)
    jumps = b"".join(reversed(pieces))
    body = STOP_PROCESS + jumps + STOP_PROCESS
    labels = [label_row(start, 0, len(body), rows), label_row(start + len(jumps), 0, 2, rows)]
    return module(body, MAX_DATA_WORDS, version=2, labels=labels)


def with_procedures():
    """As many procedures as the format allows, each with as many regions to read as it may have parameters."""
    parameters = b"".join(struct.pack("<HBIii", word, READ_REGION, 4, -1, 1) for word in range(1, MAX_PARAMETERS + 1))
    procedures = [
        struct.pack("<IiiQH", entry, -3, 128, 2, MAX_PARAMETERS) + parameters for entry in range(1, MAX_PROCEDURES + 1)
    ]
    return module(LOAD_CONSTANT * (MAX_PROCEDURES + 1), version=2, procedures=procedures)


def with_tables():
    """As many table rows as the format allows, over as many constants."""
    size = MAX_CONSTANTS // MAX_TABLES
    tables = [struct.pack("<IIii", start, start + size, 0, 0) for start in range(0, MAX_CONSTANTS, size)]
    return module(LOAD_CONSTANT, constants=bytes(MAX_CONSTANTS), version=2, tables=tables)


def branch(entry):
    """A branch: three words below its workspace to write, one word to read, and the end of a link."""
    return branch_row(entry, -8, [(-11, -8)], [(0, 1)], [(LINK, 0, 0, OUT)])


def with_pars():
    """As many PARs as the format allows, each without channels and with as many branches as it may have."""
    firsts = range(1, 1 + MAX_PARS * MAX_BRANCHES, MAX_BRANCHES)
    pars = [par_row(0, 0, 0, 1, [], [branch(it) for it in range(first, first + MAX_BRANCHES)]) for first in firsts]
    return module(LOAD_CONSTANT * (1 + MAX_PARS * MAX_BRANCHES), version=2, pars=pars)


def source(name, length):
    """A source of exactly this length: the same text over and over while it fits, and then spaces."""
    with open(os.path.join(SOURCES, name), "rb") as file:
        text = file.read()
    return (text * (length // len(text))).ljust(length)


def procedures_of(lines):
    """A program of so many lines, of a procedure over and over."""
    with open(os.path.join(SOURCES, "procedure.occ"), "rb") as file:
        text = file.read()
    return text * (lines // text.count(b"\n"))
