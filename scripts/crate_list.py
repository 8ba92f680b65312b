"""The crates of the repository, in the order of crates.txt."""

import os
import re

TOP = os.path.dirname(os.path.dirname(os.path.abspath(__file__)))


def crates():
    """The names of the crates."""
    with open(os.path.join(TOP, "crates.txt"), encoding="utf-8") as file:
        return [line.partition(":")[0].split()[0] for line in file if re.match(r"\w", line)]
