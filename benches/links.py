"""Modules that are certified and come to an end, for runs with readers and writers on their links."""

from collections import namedtuple

from comparisons import loop_entry
from inputs import GREATEST, LEAST, STOP_PROCESS, label_row, number_entry
from modules import BASE, code, module

ONE_BYTE = (1, 0, 0, 0, 1, 0, 0, 0)  # messages of a byte on link 0, out and in
COPY = "ldlp 0, mint, ldnlp 4, ldc 1, in, ldlp 0, mint, ldc 1, out"
QUIET = "ldc 5, stl 0, ldl 0, ldc 1, sum, stl 0"
WORDS = 3  # of the frame: one for the loop's body, and the two that count its turns

# A module's file, how many bytes a run of it executes, and how many it copies.
Ending = namedtuple("Ending", "file executed copied")


def counted(body, turns, copied, lengths):
    """A loop of so many turns."""
    before = code(f"ldc 0, stl 0, ldc 0, stl 1, ldc {turns}, stl 2")
    back = len(code(body)) + len(code("ldlp 1, ldc 1, lend"))  # below 16, so that it takes one byte, too
    turn = code(f"{body}, ldlp 1, ldc {back}, lend")
    entries = [number_entry(0, 1, LEAST, GREATEST), loop_entry(1, 0, turns, len(turn))]
    label = label_row(len(before), 0, len(turn) + len(STOP_PROCESS), entries)
    executed = len(before) + turns * len(turn) + len(STOP_PROCESS)
    file = module(
        before + turn + STOP_PROCESS, BASE + WORDS, labels=[label], lengths=lengths, budget=executed
    )
    return Ending(file, executed, copied)


def copying(turns):
    """Each turn receives a byte on link 0 and sends it on there."""
    return counted(COPY, turns, turns, ONE_BYTE)


def quiet(turns):
    """Arithmetic, and no message."""
    return counted(QUIET, turns, 0, (0,) * 8)
