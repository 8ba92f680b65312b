"""Module files whose states are compared with labels over and over, made to be slow.

Each is code of a procedure with the largest frame, as long as code may be: a label, what changes words, and conditional
jumps to one label at the end; or many labels, each with such jumps to many labels at the end.
"""

import itertools
import struct

from inputs import (
    FRAME_HI,
    FRAME_LO,
    GREATEST,
    LEAST,
    LOAD_CONSTANT,
    MAX_CODE_2,
    MAX_LABELS,
    STOP_PROCESS,
    each_word,
    label_row,
    number_entry,
    pointer_entry,
)
from modules import FUNCTIONS, code, module, spelled

NUMBER_OF_LABELS = 2**62  # it covers what is paid at any label here
CODE, LOOP = 3, 4  # kinds of facts
BLOCK = 64  # the words of a block of the verifier's
LEFT = range(BLOCK, 2 * BLOCK)  # the words of such a block
CONTEXT = 1  # the procedure's


def loop_entry(word, base, count, weight):
    """An entry that says of two words that they count a loop."""
    return struct.pack("<iIBiIQ", word, 2, LOOP, base, count, weight)


def jumps(test, room, end_of_room=0):
    """Conditional jumps, each after a test, to the place so many bytes after the last of them."""
    function = FUNCTIONS.index("cj")
    before, pieces, size = code(test), [], 0
    while True:
        jump = spelled(function, size + end_of_room)
        if size + len(before) + len(jump) > room:
            return b"".join(reversed(pieces))
        pieces.append(before + jump)
        size += len(pieces[-1])


def in_procedure(body, labels):
    """A module whose code, after the end of the root, is that of a procedure with the largest frame."""
    procedure = struct.pack("<IiiQH", len(STOP_PROCESS), FRAME_LO, FRAME_HI, 2, 0)
    return module(body, version=2, procedures=[procedure], labels=labels)


def at_the_end(first, ends, wanted):
    """Labels at so many instructions from an offset on, before the end of the code, with these entries."""
    last = ends + len(STOP_PROCESS)
    return [label_row(first + end, CONTEXT, last - end, wanted) for end in range(ends)]


def compared(rows, wanted, test="ldc 0", changes=""):
    """Jumps from a label with these entries, once words are changed, to one with those that are wanted."""
    start = 2 * STOP_PROCESS
    changing = code(changes) if changes else b""
    room = MAX_CODE_2 - len(start) - len(changing) - len(STOP_PROCESS)
    middle = changing + jumps(test, room)
    body = start + middle + STOP_PROCESS
    labels = [
        label_row(len(start), CONTEXT, NUMBER_OF_LABELS, rows),
        label_row(len(start) + len(middle), CONTEXT, 2, wanted),
    ]
    return in_procedure(body, labels)


def compared_with_each(rows, wanted, labels, ends, changes=""):
    """So many labels with these entries, each before jumps to so many others with those that are wanted, which are at
    the end. Words are changed before the jumps."""
    jump, last = FUNCTIONS.index("cj"), LOAD_CONSTANT * ends + STOP_PROCESS
    pieces, distances, distance = [], [], 0
    for _ in range(labels):
        for end in reversed(range(ends)):
            pieces.append(LOAD_CONSTANT + spelled(jump, distance + end))
            distance += len(pieces[-1])
        pieces.append(code(changes) if changes else b"")
        distance += len(pieces[-1])
        distances.append(distance)
    start = 2 * STOP_PROCESS
    body = start + b"".join(reversed(pieces)) + last
    first = len(start) + distance
    numbers_of = [NUMBER_OF_LABELS - number * len(body) for number in range(labels)]
    befores = [
        label_row(first - distance, CONTEXT, number, rows)
        for distance, number in zip(reversed(distances), numbers_of)
    ]
    return in_procedure(body, [*befores, *at_the_end(first, ends, wanted)])


def compared_in_turns(rows, wanted, ends, *changes):
    """A label with these entries, and then, over and over, words that are changed and jumps to so many labels in turn,
    with those that are wanted. Several ways to change words take turns. These labels are at the end."""
    jump, last = FUNCTIONS.index("cj"), LOAD_CONSTANT * ends + STOP_PROCESS
    start = 2 * STOP_PROCESS
    pieces, distance, room = [], 0, MAX_CODE_2 - len(start) - len(last)
    for changing in itertools.cycle([code(change) for change in reversed(changes)]):
        turn, size = [], 0
        for end in reversed(range(ends)):
            turn.append(LOAD_CONSTANT + spelled(jump, distance + size + end))
            size += len(turn[-1])
        if distance + size + len(changing) > room:
            break
        pieces += [*turn, changing]
        distance += size + len(changing)
    body = start + b"".join(reversed(pieces)) + last
    first = len(start) + distance
    before = label_row(len(start), CONTEXT, NUMBER_OF_LABELS, rows)
    return in_procedure(body, [before, *at_the_end(first, ends, wanted)])


def numbers(skipped=()):
    """An entry for each word of the frame, but for these words."""
    words = [word for word in range(FRAME_LO, FRAME_HI) if word not in skipped]
    return [entry for word in words for entry in each_word(word, word + 1)]


def constant(word, number):
    return number_entry(word, 1, number, number)


def any_numbers(first, end):
    """An entry that says that the words from one up to another, which is not included, are numbers."""
    return number_entry(first, end - first, LEAST, GREATEST)


def written(words):
    """Instructions that write a constant to each of these words."""
    return ", ".join(f"ldc 0, stl {word}" for word in words)


def after(entries):
    """The entries by their words."""
    return sorted(entries, key=lambda entry: int.from_bytes(entry[:4], "little", signed=True))


# ---- numbers

THROUGH_POINTER = "ldc 5, ldl 1, stnl 0"


def pointer_to(words):
    """An entry that says of word 1 that it is the address of one of these words."""
    return pointer_entry(1, 4 * words[0], 4 * words[-1], 4)


def to_entries():
    """To a label with an entry for each word of the frame."""
    return compared(numbers(), numbers())


def to_one_entry(words=8_300):
    """The same to a label with one entry about all words, of which some were written before."""
    wanted = [number_entry(FRAME_LO, FRAME_HI - FRAME_LO, LEAST, GREATEST)]
    return compared(numbers(), wanted, changes=written(range(FRAME_HI - words, FRAME_HI)))


def to_entries_behind_block(words=LEFT):
    """To a label with an entry for each word, once a store went through a pointer to any of some words."""
    rows = after([pointer_to(words), *numbers(skipped=(1,))])
    return compared(rows, rows, changes=THROUGH_POINTER)


def to_entries_between_writes():
    """To a label with an entry for each word of the frame, one of which is written before each jump."""
    return compared(numbers(), numbers(), test="ldc 5, stl 3, ldc 0")


def to_entries_behind_writes(words):
    """To a label with an entry for each word, of which so many were written before."""
    every = range(FRAME_LO, FRAME_HI)
    step = len(every) // words
    return compared(numbers(), numbers(), changes=written(every[::step][:words]))


def to_new_labels_behind_frame():
    """To 8,000 labels with an entry about all words but the pointer, once a store went through that pointer to any word
    after it; four times."""
    pointer = pointer_to(range(2, FRAME_HI))

    def about_all(low, high):
        return [number_entry(FRAME_LO, 1 - FRAME_LO, low, high), number_entry(2, FRAME_HI - 2, low, high)]

    return compared_with_each(after([pointer, *about_all(0, 9)]), about_all(LEAST, GREATEST), 4, 8_000, THROUGH_POINTER)


def to_large_labels():
    """From 1,050 labels with an entry about all words to 37 with an entry for each word, in a file of 16 MB."""

    def code_entry(word, span):
        return struct.pack("<iIBI", word, span, CODE, 0)

    each = [code_entry(word, 1) for word in range(FRAME_LO, FRAME_HI)]
    return compared_with_each([code_entry(FRAME_LO, FRAME_HI - FRAME_LO)], each, 1_050, 37)


def to_entries_between_stores():
    """To a label with an entry for each word, with a store through a pointer to any word before each jump. What is
    known of a block's words together is less than what is wanted of each."""
    words = [word for word in range(FRAME_LO, FRAME_HI) if word != 1]
    pointer = pointer_to(range(2, FRAME_HI))
    known = [number_entry(word, 1, 0, 9) if word % 2 else number_entry(word, 1, 100, 110) for word in words]
    wanted = [number_entry(word, 1, 0, 110) if word % 2 else number_entry(word, 1, 5, 200) for word in words]
    return compared(after([pointer, *known]), after([pointer, *wanted]), test="ldc 50, ldl 1, stnl 0, ldc 0")


def to_new_labels_of_half_blocks():
    """To 8,000 labels with 90 entries about half a block each, once a store went through a pointer to any word; four
    times. Of the other half of each block less is known, so that what is known of a block together does not decide."""
    pointer = pointer_to(range(2, FRAME_HI))
    half = BLOCK // 2
    starts = range(FRAME_LO + BLOCK, FRAME_HI - BLOCK, half)
    ranges = [(start, (0, 9) if number % 2 else (5, 110)) for number, start in enumerate(starts)]
    known = [number_entry(start, half, *limits) for start, limits in ranges if not start <= 1 < start + half]
    wanted = [number_entry(start, half, 0, 9) for start, limits in ranges if limits == (0, 9) and start > 1][:90]
    return compared_with_each(after([pointer, *known]), wanted, 4, 8_000, THROUGH_POINTER)


def to_new_labels_of_most_words(labels=4, ends=7_500, entries=90):
    """To 7,500 labels with 90 entries, each about all words of a block but the last, of each of which another range is
    known, once a store went through a pointer to any word; four times."""
    most = BLOCK - 1
    blocks = [word for word in range(FRAME_LO + BLOCK, FRAME_HI - BLOCK, BLOCK) if word != 0]
    known = [
        entry
        for first in blocks
        for entry in (
            *(number_entry(word, 1, word % 3, 9) for word in range(first, first + most)),
            number_entry(first + most, 1, 5, 110),
        )
    ]
    wanted = [number_entry(first, most, 0, 9) for first in blocks if first > 1][:entries]
    rows = after([pointer_to(range(2, FRAME_HI)), *known])
    return compared_with_each(rows, wanted, labels, ends, THROUGH_POINTER)


def into_labels(entries=110):
    """Stores through a pointer to any word, each of which falls into a label with so many entries about all others."""
    piece, start = code(THROUGH_POINTER), 2 * STOP_PROCESS
    count = min(MAX_LABELS - 2, (MAX_CODE_2 - len(start) - len(STOP_PROCESS)) // len(piece))
    body = start + piece * count + STOP_PROCESS
    step = (FRAME_HI - 2) // entries
    firsts = [2 + step * number for number in range(entries)]
    spans = [(FRAME_LO, 1), *zip(firsts, [*firsts[1:], FRAME_HI])]
    rows = after([pointer_to(range(2, FRAME_HI)), *(any_numbers(first, end) for first, end in spans)])
    offsets = [len(start) + len(piece) * number for number in range(count)]
    return in_procedure(body, [label_row(at, CONTEXT, NUMBER_OF_LABELS - at * len(body), rows) for at in offsets])


def turning_back(words, offset, to):
    """Instructions at an offset that end loops in these words one after the other, each of which goes back."""
    load, turn = FUNCTIONS.index("ldc"), code("lend")
    pieces = []
    for word in words:
        before = code(f"ldlp {word}")
        size = 1
        while len(spelled(load, offset + len(before) + size + len(turn) - to)) > size:
            size += 1
        distance = offset + len(before) + size + len(turn) - to
        pieces.append(before + spelled(load, distance) + turn)
        offset += len(pieces[-1])
    return b"".join(pieces)


def at_loops(count=8_000):
    """The ends of so many loops one after the other, which all go back to one label about all words above and below,
    once a store went through a pointer to any word above; the loops are below."""
    words = range(FRAME_LO, FRAME_LO + 2 * count, 2)
    back, first = 2 * len(STOP_PROCESS), 3 * len(STOP_PROCESS)
    store = code(THROUGH_POINTER)
    body = 3 * STOP_PROCESS + store + turning_back(words, first + len(store), back) + STOP_PROCESS
    known = [loop_entry(word, 3, 3, 1 << 40) for word in words]
    known += [any_numbers(words.stop, 1), pointer_to(range(2, FRAME_HI)), any_numbers(2, FRAME_HI)]
    wanted = [any_numbers(FRAME_LO, -3), any_numbers(2, FRAME_HI)]
    return in_procedure(
        body, [label_row(back, CONTEXT, 2, wanted), label_row(first, CONTEXT, NUMBER_OF_LABELS, known)]
    )


def to_labels_in_turns(ends=256, before=""):
    """To labels with two entries for each block of words, one after the other; over and over, each time once a word of
    each block is written, and maybe other words before. What is known of a block together does not decide."""
    half = BLOCK // 2
    halves = list(enumerate(word for word in range(FRAME_LO + BLOCK, FRAME_HI - BLOCK, half) if abs(word) > half))
    known = [number_entry(word, half, *((100, 110) if number % 2 else (0, 9))) for number, word in halves]
    wanted = [number_entry(word, half, *((5, 200) if number % 2 else (0, 50))) for number, word in halves]
    writes = ", ".join(f"ldc 5, stl {word}" for number, word in halves if number % 2 == 0)
    rows = after([pointer_to(range(2, FRAME_HI)), *known])
    return compared_in_turns(rows, wanted, ends, f"{before}, {writes}" if before else writes)


def to_new_labels_of_addresses(ends=7_500, entries=90, writes=10):
    """To 7,500 labels with entries about some blocks each, whose words are addresses, once ten words of each block are
    written. What is known of addresses is not summed."""
    blocks = [word for word in range(FRAME_LO + BLOCK, FRAME_HI - BLOCK, BLOCK) if abs(word) > BLOCK]
    count = len(blocks) // entries
    groups = [blocks[first : first + count] for first in range(0, count * entries, count)]
    groups = [group for group in groups if (group[0] < 0) == (group[-1] < 0)]

    def addresses(words):
        return [pointer_entry(group[0], 0, 4 * words, 4, span=group[-1] + BLOCK - group[0]) for group in groups]

    changes = ", ".join(f"ldlp 1, stl {word + 6 * number}" for word in blocks for number in range(writes))
    return compared_with_each(addresses(8), addresses(16), 1, ends, changes)


def to_labels_of_eight_entries(ends=225, entries=8):
    """To labels with eight entries for each block, over and over: after a store to any word and then a word of each
    block."""
    part = BLOCK // entries
    blocks = [word for word in range(FRAME_LO + BLOCK, FRAME_HI - BLOCK, BLOCK) if abs(word) > BLOCK]

    def parts(*ranges):
        words = [word for block in blocks for word in range(block, block + BLOCK, part)]
        return [number_entry(word, part, *ranges[number % 2]) for number, word in enumerate(words)]

    rows = after([pointer_to(range(2, FRAME_HI)), *parts((0, 9), (100, 110))])
    wanted = parts((0, 50), (5, 200))
    return compared_in_turns(rows, wanted, ends, f"ldc 50, ldl 1, stnl 0, {written(blocks)}")


def to_labels_from_rows_of_two_facts(rows=385, ends=115, entries=8):
    """From 385 labels with two entries for each block, once a store went through a pointer to any word, to 115 with
    eight."""
    part, half = BLOCK // entries, BLOCK // 2
    blocks = [word for word in range(FRAME_LO + BLOCK, FRAME_HI - BLOCK, BLOCK) if abs(word) > BLOCK]

    def parts(span, first, second):
        return [
            number_entry(word, span, *(first if word % BLOCK < half else second))
            for block in blocks
            for word in range(block, block + BLOCK, span)
        ]

    known = after([pointer_to(range(2, FRAME_HI)), *parts(half, (0, 9), (5, 110))])
    return compared_with_each(known, parts(part, (0, 50), (5, 200)), rows, ends, THROUGH_POINTER)


def to_labels_behind_stores(ends=256):
    """The same, where a store through a pointer to any word comes before each of these."""
    return to_labels_in_turns(ends, THROUGH_POINTER)


def to_labels_behind_moves(ends=1_000):
    """To labels with three entries for each block of half the frame, over and over, each time once a move has made all
    words of that half any numbers, and a word of each block is written."""
    middle = (FRAME_LO + FRAME_HI) // 2
    blocks = range(middle + BLOCK, FRAME_HI - BLOCK, BLOCK)
    half = BLOCK // 2
    wanted = [
        entry
        for word in blocks
        for entry in (
            number_entry(word, half, LEAST, GREATEST),
            number_entry(word + half, 1, 0, 50),
            number_entry(word + half + 1, half - 1, LEAST, GREATEST),
        )
    ]
    size = 4 * (FRAME_HI - middle - BLOCK // 2)
    move = f"ldlp {FRAME_LO}, ldlp {middle}, ldc {size}, move"
    rows = [number_entry(FRAME_LO, FRAME_HI - FRAME_LO, LEAST, GREATEST)]
    return compared_in_turns(rows, wanted, ends, f"{move}, {written(word + half for word in blocks)}")


def to_labels_behind_many_writes(ends=900, writes=9):
    """To labels with two entries for each block, over and over: after a store to any word and some words of each block
    that are written after it, and then after a word of each block that is written."""
    half = BLOCK // 2
    blocks = [word for word in range(FRAME_LO + BLOCK, FRAME_HI - BLOCK, BLOCK) if abs(word) > BLOCK]

    def halves(span, first, second):
        return [
            entry
            for word in blocks
            for entry in (number_entry(word, span, *first), number_entry(word + half, half, *second))
        ]

    known, wanted = halves(half, (0, 9), (100, 110)), halves(writes, (0, 9), (5, 200))
    store = "ldc 50, ldl 1, stnl 0"
    behind = written(word + number for word in blocks for number in range(writes))
    rows = after([pointer_to(range(2, FRAME_HI)), *known])
    return compared_in_turns(rows, wanted, ends, f"{store}, {behind}", written(blocks))


# ---- loops

def loops(count, weight, skipped=()):
    """A loop for each two words of the frame, but for these words."""
    words = [word for word in range(FRAME_LO, FRAME_HI, 2) if word not in skipped]
    return [loop_entry(word, word, count, weight) for word in words]


def constants(count):
    """The constants with which those loops begin."""
    words = range(FRAME_LO, FRAME_HI, 2)
    return [entry for word in words for entry in (constant(word, word), constant(word + 1, count))]


def to_loops():
    """To a label with a loop for each two words, which are those of that loop before."""
    return compared(loops(3, 7), loops(3, 7))


def to_loops_behind_block(words=LEFT):
    """The same once a store went through a pointer to any of some words, which are numbers."""
    skipped = {0, *words}
    plain = [entry for word in words for entry in each_word(word, word + 1)]
    rows = after([pointer_to(words), *plain, *loops(3, 7, skipped)])
    return compared(rows, rows, changes=THROUGH_POINTER)


def to_loops_between_writes():
    """To a label with a loop for each two words but a block, of which a word is written before each jump."""
    plain = [entry for word in LEFT for entry in each_word(word, word + 1)]
    rows = after([*plain, *loops(3, 7, skipped=LEFT)])
    return compared(rows, rows, test=f"ldc 5, stl {LEFT[0]}, ldc 0")


def to_loops_between_entries():
    """The same, where the words of one loop become the constants with which it begins before each jump."""
    return compared(loops(3, 7), loops(3, 7), test="ldc 1000, stl 1000, ldc 3, stl 1001, ldc 0")


def into_loops():
    """To a label with a loop for each two words, which are constants before."""
    return compared(constants(3), loops(3, 7))


# ---- loops that begin and count with the same number, so that a store of that number changes nothing of them

SAME = 3


def same_loops(words):
    """A loop for each two words that begin with one of these."""
    return [loop_entry(word, SAME, SAME, 0) for word in words]


def same_constants(first, end, most):
    """Entries, each of so many words at most, that say that words are the number with which those loops begin."""
    return [number_entry(word, min(most, end - word), SAME, SAME) for word in range(first, end, most)]


def same_constants_behind_pointer():
    """Entries that say so of all words but word 1, which is the address of any word after it."""
    low, high = same_constants(FRAME_LO, 1, FRAME_HI - FRAME_LO), same_constants(2, FRAME_HI, FRAME_HI)
    return [*low, pointer_to(range(2, FRAME_HI)), *high]


def to_loops_behind_writes(words=2_100):
    """To a label of 16,384 loops that are entered, once so many words were written, one of them before each jump."""
    every = range(FRAME_LO, FRAME_HI)
    before = every[:: len(every) // words][:words]
    changes = ", ".join(f"ldc {SAME}, stl {word}" for word in before)
    known, wanted = same_constants(FRAME_LO, FRAME_HI, 1), same_loops(every[::2])
    return compared(known, wanted, test=f"ldc {SAME}, stl 3, ldc 0", changes=changes)


def to_loops_behind_first_writes():
    """The same, where each word is first written before a jump of its own, for as many as the code has room for."""
    every = range(FRAME_LO, FRAME_HI)
    known, wanted = same_constants(FRAME_LO, FRAME_HI, FRAME_HI - FRAME_LO), same_loops(every[::2])
    return compared_in_turns(known, wanted, 1, *(f"ldc {SAME}, stl {word}" for word in every))


def to_loops_behind_store():
    """The same, once a store went through a pointer to any word."""
    rows = same_constants_behind_pointer()
    wanted = same_loops(word for word in range(FRAME_LO, FRAME_HI, 2) if word != 0)
    changes = f"ldc {SAME}, ldl 1, stnl 0"
    return compared(rows, wanted, test=f"ldc {SAME}, stl 1000, ldc 0", changes=changes)


def to_one_loop_behind_store(loop=FRAME_LO + 2):
    """The same to a label of one loop, with three entries about the other words. A word of the loop's block is written
    before each jump."""
    rows = same_constants_behind_pointer()
    others = [any_numbers(FRAME_LO, loop), any_numbers(loop + 2, 1), any_numbers(2, FRAME_HI)]
    wanted = after([*same_loops([loop]), *others])
    changes = f"ldc {SAME}, ldl 1, stnl 0"
    return compared(rows, wanted, test=f"ldc {SAME}, stl {FRAME_LO}, ldc 0", changes=changes)
