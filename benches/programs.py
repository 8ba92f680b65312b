"""The programs that the figures are taken with, and how they are built."""

import os
import subprocess
import sys

CRATES = os.path.join(os.path.dirname(os.path.dirname(os.path.abspath(__file__))), "crates")
TPM = os.path.join(CRATES, "tpm", "out", "tpm")

# The program that repeats a call.
REPEATING = "all_cases"


def repeated(call, file, times):
    """The words of a run that repeats a call on a file."""
    return [os.path.join(CRATES, REPEATING, "out", REPEATING), "time", call, file, str(times)]


def build(crate, words):
    """Proves and builds a program, if that was not done."""
    folder = os.path.join(CRATES, crate)
    built = subprocess.run(["rt", "run", "--", *words], cwd=folder, capture_output=True, text=True)
    if built.returncode:
        sys.exit(f"{os.path.basename(sys.argv[0])}: crates/{crate} was not built:\n{built.stdout}{built.stderr}")


def build_repeating():
    """Proves and builds the program that repeats calls."""
    build(REPEATING, ["drafts", os.devnull])
