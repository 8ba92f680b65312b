"""A module's file as text, for the scripts: its fields with their offsets, its instructions, and its rows in the words
that drafts have (`crates/all_cases/data/drafts/drafts.txt`), with offsets in place of labels."""

import struct

FUNCTIONS = "j ldlp pfix ldnl ldc ldnlp nfix ldl adc call cj ajw eqc stl stnl opr".split()
OPERATIONS = {
    0x00: "rev", 0x01: "lb", 0x02: "bsub", 0x03: "endp", 0x04: "diff", 0x05: "add", 0x07: "in", 0x08: "prod",
    0x09: "gt", 0x0A: "wsub", 0x0B: "out", 0x0C: "sub", 0x0D: "startp", 0x13: "csub0", 0x15: "stopp", 0x1B: "ldpi",
    0x1F: "rem", 0x20: "ret", 0x21: "lend", 0x2C: "div", 0x2F: "disc", 0x30: "diss", 0x31: "lmul", 0x32: "not",
    0x33: "xor", 0x37: "lsum", 0x3B: "sb", 0x40: "shr", 0x41: "shl", 0x42: "mint", 0x43: "alt", 0x44: "altwt",
    0x45: "altend", 0x46: "and", 0x48: "enbc", 0x49: "enbs", 0x4A: "move", 0x4B: "or", 0x4D: "ccnt1", 0x4F: "ldiff",
    0x52: "sum", 0x53: "mul",
}
CODE, CONSTANTS, WORDS, BASE, BUDGET, FINISH = HEADER = (
    "bytes of code", "bytes of constants", "words of the data area", "base", "budget", "finish",
)
FULL = (-(2**31), 2**31 - 1)


class Ended(Exception):
    """The file ends within a field."""


def signed(operand):
    return (operand & 0xFFFFFFFF ^ 0x80000000) - 0x80000000


def listing(code):
    """Each instruction: its offset, its bytes, and its name with the operand."""
    begin = operand = 0
    for at, byte in enumerate(code):
        function, operand = byte >> 4, operand | byte & 15
        if function in (2, 6):
            operand = (operand if function == 2 else ~operand) << 4
            continue
        number = signed(operand)
        name = OPERATIONS.get(number, f"opr {number}") if function == 15 else f"{FUNCTIONS[function]} {number}"
        yield begin, code[begin : at + 1], name
        begin, operand = at + 1, 0
    if begin < len(code):
        yield begin, code[begin:], "prefixes"


class Fields:
    """A file that is read field by field. It remembers the fields: each with its offset, its name and its bytes."""

    def __init__(self, data):
        self.data, self.at, self.seen = data, 0, []

    def bytes(self, name, size):
        taken = self.data[self.at : self.at + size]
        self.seen.append((self.at, name, taken))
        self.at += len(taken)
        if len(taken) < size:
            raise Ended
        return taken

    def take(self, name, form):
        """One number, by the letter of the module struct."""
        return struct.unpack("<" + form, self.bytes(name, struct.calcsize("<" + form)))[0]

    def all(self, name, parts):
        """Numbers with these names and letters, as `lo i, hi i`."""
        words = [part.split() for part in parts.split(", ")]
        return [self.take(f"{name}, {word}", form) for word, form in words]

    def rows(self, name, count, read):
        return [read(f"{name} {number}") for number in range(count)]


class Module:
    """What a file says. Reading stops where it ends within a field, or has a tag that is none."""

    def __init__(self, data):
        self.fields = Fields(data)
        self.version, self.code, self.constants = 0, b"", b""
        self.procedures, self.labels, self.pars, self.tables = [], [], [], []
        self.is_whole = False
        try:
            self.read()
            self.is_whole = self.fields.at == len(data)
        except (Ended, KeyError):
            pass

    def read(self):
        fields = self.fields
        self.version = {b"TPM1": 1, b"TPM2": 2}[fields.bytes("magic", 4)]
        self.header = {name: fields.take(name, "Q" if name == BUDGET else "I") for name in HEADER}
        self.lengths = [fields.take(f"length of link {link}", "I") for link in range(8)]
        counts = [fields.take(f"number of {name} rows", "I") for name in ("procedure", "label", "PAR")]
        self.flag = fields.take("flag", "I") if self.version == 2 else 0
        tables = fields.take("number of table rows", "I") if self.version == 2 else 0
        self.code = fields.bytes("code", self.header[CODE])
        self.constants = fields.bytes("constants", self.header[CONSTANTS])
        self.procedures = fields.rows("procedure", counts[0], self.procedure)
        self.labels = fields.rows("label", counts[1], self.label)
        self.pars = fields.rows("PAR", counts[2], self.par)
        self.tables = fields.rows("table", tables, lambda name: fields.all(name, "start I, end I, lo i, hi i"))

    def procedure(self, name):
        *row, count = self.fields.all(name, "entry I, lo i, hi i, number Q, parameters H")
        return row, self.fields.rows(f"{name}, parameter", count, self.parameter)

    def parameter(self, name):
        word, kind = self.fields.all(name, "word H, kind B")
        region = "size I, lo i, hi i" if self.version == 2 else "size I"
        rest = self.fields.all(name, {0: "lo i, hi i", 1: region, 2: region, 3: "count I, length I, ends B"}[kind])
        return word, kind, rest + ([*FULL] if len(rest) == 1 else [])

    def fact(self, name):
        tag = self.fields.take(f"{name}, tag", "B")
        parts = {1: "lo i, hi i", 2: "region H, lo i, hi i, step B", 3: "offset I", 4: "base i, count I, weight Q"}
        if tag in (0, 5):
            return tag, []
        return tag, self.fields.all(name, parts[tag])

    def label(self, name):
        row = self.fields.all(name, "offset I, context H, depth i, number Q")
        facts = [self.fact(f"{name}, {register}") for register in "ABC"]
        count = self.fields.take(f"{name}, entries", "H")
        return row, facts, self.fields.rows(f"{name}, entry", count, self.entry)

    def entry(self, name):
        return self.fields.all(name, "word i, span I"), self.fact(name)

    def par(self, name):
        *row, channels, branches = self.fields.all(
            name, "context H, depth i, block i, successor I, channels H, branches H"
        )
        words = self.fields.rows(f"{name}, channel", channels, lambda it: self.fields.all(it, "word i, length I"))
        return row, words, self.fields.rows(f"{name}, branch", branches, self.branch)

    def branch(self, name):
        *row, writes, reads, written, read, ends = self.fields.all(
            name, "entry I, workspace i, written H, read H, written-parameters H, read-parameters H, ends H"
        )
        lists = [
            self.fields.rows(f"{name}, {what}", count, lambda it, parts=parts: self.fields.all(it, parts))
            for what, count, parts in (
                ("writes", writes, "lo i, hi i"), ("reads", reads, "lo i, hi i"),
                ("written_parameter", written, "number H"), ("read_parameter", read, "number H"),
                ("end", ends, "kind B, number i, element I, direction B"),
            )
        ]
        return row, lists

    def context(self, number):
        """The name of a context."""
        names = ["root", *(f"procedure {row}" for row in range(len(self.procedures)))]
        names += [f"branch {row} {it}" for row, (_, _, branches) in enumerate(self.pars) for it in range(len(branches))]
        return names[number] if number < len(names) else f"context {number}"

    def rows(self):
        """The lines of its rows and numbers in the words of drafts."""
        yield from self.numbers()
        for row, parameters in self.procedures:
            yield words("procedure", *row)
            yield from (words("  parameter", word, kind_text(kind, rest)) for word, kind, rest in parameters)
        for (offset, context, depth, number), facts, entries in self.labels:
            yield words("label", offset, self.context(context), depth, number, *map(fact_text, facts))
            yield from (words("  entry", word, span, fact_text(fact)) for (word, span), fact in entries)
        for (context, depth, block, successor), channels, branches in self.pars:
            yield words("par", self.context(context), depth, block, successor)
            yield from (words("  channel", *channel) for channel in channels)
            for branch in branches:
                yield from branch_text(*branch)
        yield from (words("table", *row) for row in self.tables)

    def numbers(self):
        """The lines of what is said before the rows."""
        if self.version == 2:
            yield "version 2"
        if self.flag:
            yield "long"
        header = self.header
        yield words("numbers", header[WORDS], header[BASE], header[BUDGET], header[FINISH] or "-")
        yield from (words("link", link, length) for link, length in enumerate(self.lengths) if length)
        if self.constants:
            yield words("constants", self.constants.hex(" "))


def words(*parts):
    return " ".join(map(str, parts))


def fact_text(fact):
    tag, rest = fact
    names = {0: "?", 1: "number", 2: "pointer", 3: "address", 4: "loop", 5: "return"}
    if tag == 2:
        rest = [*rest[:3], {1: "byte", 4: "word"}.get(rest[3], f"step {rest[3]}")]
    return words(names[tag], *rest)


def kind_text(kind, rest):
    names = ("number", "read", "written", "channels")
    if kind == 3:
        rest = [*rest[:2], {1: "in", 2: "out", 3: "both"}.get(rest[2], f"ends {rest[2]}")]
    return words(names[kind], *rest)


def branch_text(row, lists):
    """The lines of a branch."""
    yield words("  branch", *row)
    for name, rows in zip(("writes", "reads", "written_parameter", "read_parameter"), lists):
        yield from (words(f"    {name}", *it) for it in rows)
    for kind, number, element, direction in lists[4]:
        channel = {0: ("word", number), 1: ("parameter", number, element), 2: ("link", number)}
        yield words("    end", *channel.get(kind, (kind, number)), {1: "in", 2: "out"}.get(direction, direction))
