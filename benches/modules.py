"""Module files, made of blocks of instructions and of rows."""

import struct
from collections import namedtuple

BASE = 4  # the data word at which the root's workspace begins: call takes the four words below, others three
FRAME_WORD, PARAMETER, LINK = 0, 1, 2  # kinds of ends
IN, OUT = 1, 2
FUNCTIONS = "j ldlp pfix ldnl ldc ldnlp nfix ldl adc call cj ajw eqc stl stnl opr".split()
OPERATIONS = {"in": 0x07, "out": 0x0B, "ret": 0x20, "mint": 0x42, "alt": 0x43, "altwt": 0x44, "altend": 0x45}
OPERATIONS |= {"enbs": 0x49, "diss": 0x30, "startp": 0x0D, "endp": 0x03, "ldpi": 0x1B, "stopp": 0x15}
OPERATIONS |= {"lb": 0x01, "sb": 0x3B, "move": 0x4A, "lend": 0x21, "sum": 0x52, "diff": 0x04, "mul": 0x53, "gt": 0x09}
OPERATIONS |= {"bsub": 0x02, "wsub": 0x0A, "and": 0x46, "xor": 0x33, "shr": 0x40, "enbc": 0x48, "disc": 0x2F}

# A branch of a PAR: the block of its code, its workspace, and what it is given. That are the frame words from a first
# one up to another, which is not included, and ends, each a kind, a number, an element and a direction.
Branch = namedtuple("Branch", "block workspace words ends")

# A PAR: the context and the depth of the process that starts it, the frame words of its channels, its branches, and
# the block of code that comes after it. Its join block is the first two words of the process's workspace.
Par = namedtuple("Par", "context depth channels branches successor")


def spelled(function, operand):
    """The bytes of a function with its operand."""
    if 0 <= operand < 16:
        return bytes([function << 4 | operand])
    prefix, rest = (2, operand >> 4) if operand > 0 else (6, ~operand >> 4)
    return spelled(prefix, rest) + bytes([function << 4 | operand & 15])


def instruction(name, operand="0"):
    """The bytes of a function with its operand, or of an operation."""
    if name in OPERATIONS:
        return spelled(FUNCTIONS.index("opr"), OPERATIONS[name])
    return spelled(FUNCTIONS.index(name), int(operand))


def code(text):
    """The bytes of instructions, which commas separate."""
    return b"".join(instruction(*words.split()) for words in text.split(","))


def looped(text):
    """The bytes of instructions that go round for ever."""
    body = code(text)
    return body + spelled(FUNCTIONS.index("j"), -len(body) - 2)  # two bytes


def offsets_of(pieces):
    """Where each piece of code begins, and where the last ends."""
    offsets = [0]
    for piece in pieces:
        offsets.append(offsets[-1] + len(piece))
    return offsets


def assembled(blocks):
    """The code of named blocks one after the other, and where each begins.

    A block is bytes or instructions, which commas separate. An operand name/n is the distance to the block of this
    name from the end of the n-th instruction after this one.
    """
    texts = [[text] if isinstance(text, bytes) else text.split(",") for text in blocks.values()]
    firsts = dict(zip(blocks, offsets_of(texts)))
    lines = [line for text in texts for line in text]
    pieces = [line if isinstance(line, bytes) else b"?" if "/" in line else code(line) for line in lines]
    distant = [number for number, line in enumerate(lines) if pieces[number] == b"?"]
    settled = None
    while settled != offsets_of(pieces):
        settled = offsets_of(pieces)
        for number in distant:
            function, name, after = lines[number].replace("/", " ").split()
            distance = settled[firsts[name]] - settled[number + 1 + int(after)]
            pieces[number] = instruction(function, distance)
    return b"".join(pieces), {name: settled[first] for name, first in firsts.items()}


def opening(par):
    """The instructions that prepare a PAR's join block and channels, start its branches, and come to its join."""
    prepared = ["ldc " + par.successor + "/1, ldpi, stl 0", f"ldc {len(par.branches) + 1}, stl 1"]
    channels = [f"mint, stl {word - par.depth}" for word in par.channels]
    started = [f"ldc {branch.block}/2, ldlp {branch.workspace - par.depth}, startp" for branch in par.branches]
    return ", ".join([*prepared, *channels, *started, "ldlp 0, endp"])


def branch_row(entry, workspace, writes, reads=(), ends=()):
    """The row of a branch that names no parameters."""
    words = b"".join(struct.pack("<ii", *interval) for interval in (*writes, *reads))
    rows = b"".join(struct.pack("<BiIB", *end) for end in sorted(ends))
    return struct.pack("<IiHHHHH", entry, workspace, len(writes), len(reads), 0, 0, len(ends)) + words + rows


def par_row(context, depth, block, successor, channels, branches):
    """The row of a PAR, each of whose channels takes messages of a word."""
    head = struct.pack("<HiiIHH", context, depth, block, successor, len(channels), len(branches))
    return b"".join([head, *(struct.pack("<iI", word, 4) for word in channels), *branches])


def row_of(par, offsets):
    """The row of a PAR, by where the blocks of code begin."""
    branches = [branch_row(offsets[it.block], it.workspace, [it.words], ends=it.ends) for it in par.branches]
    return par_row(par.context, par.depth, par.depth, offsets[par.successor], par.channels, branches)


def module(
    code, data_words=BASE, constants=b"", version=1, procedures=(), labels=(), pars=(), tables=(), lengths=(0,) * 8,
    budget=None, base=BASE,
):
    """The file of a module which ends at the code's end, and whose budget is the code's length unless one is given."""
    sizes = (len(code), len(constants), data_words, base, budget or len(code), len(code))
    head = b"TPM%d" % version + struct.pack("<IIIIQI", *sizes)
    counts = struct.pack("<III", len(procedures), len(labels), len(pars))
    if version == 2:
        counts += struct.pack("<II", 0, len(tables))  # no operations on double words
    return b"".join([head, struct.pack("<8I", *lengths), counts, code, constants, *procedures, *labels, *pars, *tables])


def module_of(blocks, pars, data_words, lengths=(0,) * 8):
    """The file of a module that has these blocks of code and these PARs."""
    code, offsets = assembled(blocks)
    return module(code, data_words, version=2, pars=[row_of(par, offsets) for par in pars], lengths=lengths)
