"""Runs a program with some of its allocations refused, by an allocator that is preloaded."""

import dataclasses
import os
import subprocess

HERE = os.path.dirname(os.path.abspath(__file__))
ALLOCATOR = os.path.join(HERE, "refusing_allocator.c")
ALL_LATER = 2 ** 60


@dataclasses.dataclass
class Left:
    """What a run leaves, and how many allocations it asked for."""

    out: str
    err: str
    status: int
    count: int


def clang():
    """The toolchain's compiler of C, beside the page that `rt doc` names."""
    page = subprocess.run(["rt", "doc"], capture_output=True, text=True, check=True).stdout.split()[0]
    return os.path.join(os.path.dirname(page), "toolchain", "bin", "clang")


def library_in(folder):
    """The allocator, compiled into this folder."""
    library = os.path.join(folder, "refusing.so")
    subprocess.run([clang(), "-shared", "-fPIC", "-nostdlib", "-o", library, ALLOCATOR], check=True)
    return library


def run_refusing(words, folder, library, first, last, seconds):
    """What a command leaves with its allocations from number `first` to number `last` refused; with 0 and 0, none."""
    reads, writes = os.pipe()
    environment = {"LD_PRELOAD": library, "FIRST_REFUSED": str(first), "LAST_REFUSED": str(last)}
    try:
        ended = subprocess.run(words, cwd=folder, env=environment, stdin=subprocess.DEVNULL, capture_output=True,
                               text=True, preexec_fn=lambda: os.dup2(writes, 9), close_fds=False, timeout=seconds)
    finally:
        os.close(writes)
        with open(reads, "rb") as told:
            count = int.from_bytes(told.read(8), "little")
    return Left(ended.stdout, ended.stderr, ended.returncode, count)
