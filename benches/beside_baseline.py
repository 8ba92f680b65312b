"""How fast the product executes code, beside the ordinary interpreter in benches/baseline, in one run.

The modules are those of plain_runs. By `proceed` and `apply` a module's time is the user time of a run that repeats it
2N times less that of a run that repeats it N times, divided by N. So the time to start falls out. N is chosen so that
the second run takes 0.4 seconds at least, or 5 by the clock: on a busy machine user time grows slowly. Of the copy of a
link, with files, a whole run is taken. All take turns, and of each run the fastest of seven is taken.

What a byte of the copy takes is counted in machine instructions too, by callgrind, which does not depend on what else
runs: those of a run that copies 150,000 bytes less those of one that copies 50,000, divided by 100,000.
"""

import math
import os
import re
import shutil
import subprocess
import sys
import time
from collections import namedtuple

import links
import plain_runs
import programs

BASELINE = os.path.join(os.path.dirname(os.path.abspath(__file__)), "baseline", "src", "main.rs")
ROUNDS = 7
LEAST_SECONDS, MOST_ELAPSED = 0.4, 5
COPY = "link-copy"
NAMES = [f"plain-{name}" for name in plain_runs.MODULES]

# How many times as fast as the baseline each side is to be at least: `proceed` by module, and in the mean of all modules.
# What is wanted of `proceed` is more, and only printed.
LEAST_PROCEED = {
    "arithmetic": 1.8, "memory": 2.1, "calls": 1.8, "channels": 2.0, "alternation": 1.6, "pipeline": 1.6,
}
WANTED = {"arithmetic": 2.8, "memory": 2.8, "calls": 2.8, "channels": 2.8, "alternation": 2.0, "pipeline": 2.6}
LEAST = {"apply": 0.6, "tpm run": 1.0}
LEAST_MEAN = {"proceed": 1.8, "apply": 0.75}

# How many bytes are copied by the runs that are counted, and how many machine instructions a byte may take.
COUNTED = (50_000, 150_000)
MOST_INSTRUCTIONS = 600

# What runs a module: its name, and the words of the run that repeats a module's file so many times.
Side = namedtuple("Side", "name words")


def compiler():
    """The path of `rustc`, where there is one."""
    return shutil.which("rustc") or shutil.which("rustc", path=os.path.expanduser("~/.cargo/bin"))


def measured(names):
    """Which of these names are names of modules here. None is if the baseline cannot be built, which is said."""
    names = [name for name in names if name in NAMES]
    if names and not compiler():
        print(f"{', '.join(names)}: not measured, since there is no rustc to build the baseline with")
        return []
    return names


def built(folder):
    """The baseline, which is compiled into this folder."""
    program = os.path.join(folder, "baseline")
    subprocess.run([compiler(), "--edition", "2024", "-C", "opt-level=3", "-o", program, BASELINE], check=True)
    return program


def user_seconds(words):
    started = subprocess.Popen(words, stdin=subprocess.DEVNULL, stdout=subprocess.DEVNULL)
    _, status, used = os.wait4(started.pid, 0)
    started.returncode = os.waitstatus_to_exitcode(status)
    if started.returncode:
        sys.exit(f"figures: {' '.join(words)} ended with status {started.returncode}")
    return used.ru_utime


def times_enough(side):
    """How often a side repeats the module so that a run takes long enough."""
    times = 1
    while True:
        begun = time.monotonic()
        seconds = user_seconds(side.words(times))
        if seconds >= LEAST_SECONDS or time.monotonic() - begun >= MOST_ELAPSED:
            return times
        times *= 2


def said(words):
    """What a run prints, if it ends well."""
    ran = subprocess.run(words, stdin=subprocess.DEVNULL, capture_output=True, text=True)
    return ran.stdout if not ran.returncode else f"status {ran.returncode}: {ran.stdout}{ran.stderr}"


def read(path):
    with open(path, "rb") as file:
        return file.read()


def instructions(words):
    """How many machine instructions a run takes."""
    counter = ["valgrind", "--tool=callgrind", f"--callgrind-out-file={os.devnull}"]
    ran = subprocess.run([*counter, *words], stdin=subprocess.DEVNULL, capture_output=True, text=True)
    found = re.search(r"Collected : (\d+)", ran.stderr)
    if ran.returncode or not found:
        sys.exit(f"figures: {' '.join(words)} was not counted:\n{ran.stderr}")
    return int(found[1])


def copying(length, folder):
    """The words of a run that copies so many bytes from file to file."""
    file = os.path.join(folder, f"copying-{length}")
    for name, data in ((file, links.copying(length).file), (f"{file}.in", plain_runs.copied()[:length])):
        with open(name, "wb") as out:
            out.write(data)
    return [programs.TPM, "run", file, "--in0", f"{file}.in", "--out0", f"{file}.out"]


def is_copy_costly(folder):
    """Whether a byte of the copy takes too many machine instructions, where they can be counted."""
    if not shutil.which("valgrind"):
        print("machine instructions are not counted, since there is no valgrind")
        return False
    less, more = (instructions(copying(length, folder)) for length in COUNTED)
    each = (more - less) / (COUNTED[1] - COUNTED[0])
    print(f"a byte of the copy takes {each:,.0f} machine instructions; at most {MOST_INSTRUCTIONS} are wanted")
    return each > MOST_INSTRUCTIONS


class Module:
    """A module, as a file in a folder, and what its runs took."""

    def __init__(self, name, folder, baseline):
        self.name, self.file = name, os.path.join(folder, f"{name}.tpm")
        self.input = os.path.join(folder, f"{name}.in")
        self.run = plain_runs.MODULES[name.removeprefix("plain-")]()
        self.is_copy = self.name.endswith(COPY)
        with open(self.file, "wb") as file:
            file.write(self.run.file)
        with open(self.input, "wb") as file:
            file.write(plain_runs.copied() if self.is_copy else b"")
        self.sides = self.all_sides(baseline)
        self.found = {side.name: ([], []) for side in self.sides}

    def all_sides(self, baseline):
        if self.is_copy:
            return [
                Side("baseline", lambda times: self.with_files([baseline, self.file], "baseline")),
                Side("tpm run", lambda times: self.with_files([programs.TPM, "run", self.file], "tpm")),
            ]
        return [
            Side("baseline", lambda times: [baseline, self.file, str(times)]),
            Side("proceed", lambda times: programs.repeated("run", self.file, times)),
            Side("apply", lambda times: programs.repeated("replay", self.file, times)),
        ]

    def with_files(self, words, name):
        """The words of a run with files on link 0."""
        return [*words, "--in0", self.input, "--out0", f"{self.file}.{name}"]

    def is_right(self, baseline):
        """Whether the product and the baseline do the same, and as much as they should."""
        reports = {
            name: said(self.with_files(words, name))
            for name, words in (("baseline", [baseline, self.file]), ("tpm", [programs.TPM, "run", self.file]))
        }
        wanted = f"ended, {self.run.executed} bytes executed\n"
        right = reports["baseline"] == reports["tpm"] and reports["tpm"].startswith(wanted)
        right = right and reports["tpm"].endswith(f"\nout0 {self.run.sent} bytes\n")
        right = right and read(f"{self.file}.baseline") == read(f"{self.file}.tpm")
        if not right:
            print(f"{self.name}: {reports}; expected {wanted}")
        return right and (self.is_copy or self.has_checksum())

    def has_checksum(self):
        """Whether each side prints what is worked out from the bytes executed and sent."""
        wanted = f"{31 * self.run.executed + self.run.sent}\n"
        answers = {side.name: said(side.words(1)) for side in self.sides}
        right = all(answer == wanted for answer in answers.values())
        if not right:
            print(f"{self.name}: {answers}; expected {wanted}")
        return right

    def prepare(self):
        """Finds how often each side repeats the module."""
        self.times = {side.name: 1 if self.is_copy else times_enough(side) for side in self.sides}

    def measure(self):
        """Each side once."""
        for side in self.sides:
            more, less = self.found[side.name]
            times = self.times[side.name]
            more.append(user_seconds(side.words(times if self.is_copy else 2 * times)))
            less.append(0 if self.is_copy else user_seconds(side.words(times)))

    def seconds(self, name):
        more, less = self.found[name]
        return (min(more) - min(less)) / self.times[name]

    def ratios(self):
        """How many times as fast as the baseline the other sides are."""
        return {side.name: self.seconds("baseline") / self.seconds(side.name) for side in self.sides[1:]}

    def least(self, name):
        """How many times as fast as the baseline a side is to be, and what is wanted beside."""
        if name != "proceed":
            return LEAST[name], ""
        module = self.name.removeprefix("plain-")
        return LEAST_PROCEED[module], f", {WANTED[module]} are wanted"

    def show(self):
        """Prints how fast each side is. Whether one is too slow."""
        speeds = {side.name: f"{self.run.executed / self.seconds(side.name) / 1e6:,.0f}" for side in self.sides}
        beside, slow = [], False
        for name, ratio in self.ratios().items():
            least, wanted = self.least(name)
            beside.append(f"{name} {speeds[name]} ({ratio:.2f} times as fast; less than {least} is a failure{wanted})")
            slow |= ratio < least
        print(f"{self.name}, million bytes of code a second: baseline {speeds['baseline']}, {', '.join(beside)}")
        return slow


def is_mean_low(modules, name, least):
    """Whether a side is too slow in the geometric mean, where all modules were measured."""
    ratios = [it.ratios()[name] for it in modules if not it.is_copy]
    if len(ratios) < len(plain_runs.MODULES) - 1:
        return False
    mean = math.prod(ratios) ** (1 / len(ratios))
    print(f"{name} is {mean:.2f} times as fast as the baseline in the mean; less than {least} is a failure")
    return mean < least


def compare(names, folder):
    """Measures the modules of these names, and prints the figures. Whether all is as it should be."""
    baseline = built(folder)
    modules = [Module(name, folder, baseline) for name in names]
    right = all([it.is_right(baseline) for it in modules])
    for module in modules:
        module.prepare()
    for _ in range(ROUNDS):
        for module in modules:
            module.measure()
    slow = [module.show() for module in modules]
    low = [is_mean_low(modules, name, least) for name, least in LEAST_MEAN.items()]
    costly = any(module.is_copy for module in modules) and is_copy_costly(folder)
    return right and not any([*slow, *low, costly])
