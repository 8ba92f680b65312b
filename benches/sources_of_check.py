"""Sources for the figures of `check`: ordinary procedures, and what is made to be slow, as large as the rule on sizes
lets through. docs/LANGUAGE.md says how sizes are counted. No rule is broken, so all is gone over to the end."""

import re
from itertools import chain, islice, product
from string import ascii_letters, ascii_lowercase, digits

MAX_SIZE = 8_388_608
MIB = 1_048_576
MAX_LEVEL = 64
AROUND = 400  # at least the size of what is around a body, in each source that counts with `as_many`
ENDS = 100_000
SIGNS = ascii_lowercase + digits
MASK = 2**64 - 1

RELAY = r"""PROC relay{number}(CHAN OF INT left, CHAN OF INT right, VAL INT most)
  [16]INT table:
  INT value, sum:
  SEQ
    {first}
    SEQ turn = 0 FOR 16
      ALT
        left ? value
          IF
            value < 0
              table[turn] := -(INT 'a')
            TRUE
              sum := sum PLUS (value \ 100)
        sum > (most / 2) & SKIP
          right ! sum PLUS table[turn]
:
"""


def as_many(size, others=0):
    """How many parts of this size a program may have, beside others."""
    return (MAX_SIZE - AROUND - others) // size


def names(count):
    """The first so many names, the short ones before the long ones."""
    spellings = (product(ascii_lowercase, *[SIGNS] * more) for more in range(4))
    return ["".join(it) for it in islice(chain.from_iterable(spellings), count)]


def folded(state, word, multiplier):
    """The state of std's hasher with fixed seed, with one word more."""
    product_of_both = (state ^ word) * multiplier
    return (product_of_both & MASK) ^ (product_of_both >> 64)


def colliding(count):
    """Names of six signs that are side by side in std's hash table, of which each is passed to find the last ones."""
    multiplier = 0x9E37_79B9_7F4A_7C15
    words = {sign: 0x10101 * ord(sign) for sign in SIGNS}
    start, found = folded(0x243F_6A88_85A3_08D3, 6, multiplier ^ 16), []
    for front in product(ascii_lowercase, *[SIGNS] * 4):
        state = start
        for sign in front:
            state = folded(state, words[sign], multiplier ^ 2)
        ends = ((sign, folded(state, word, multiplier ^ 2)) for sign, word in words.items())
        found += ["".join(front) + sign for sign, hash in ends if (hash ^ (hash >> 32)) % 16_384 < 1_024]
        if len(found) >= count:
            return found[:count]
    raise ValueError("there are no such names any more")


def deeper(lines, levels=1):
    return [levels * "  " + line for line in lines]


def under(heads, body):
    """Heads, each a level deeper than the one before, and then a body."""
    return [line for level, head in enumerate(heads) for line in deeper([head], level)] + deeper(body, len(heads))


def program(*procedures):
    return "".join(line + "\n" for lines in procedures for line in lines).encode()


def procedure(head, body):
    return [f"PROC {head}", *deeper(body), ":"]


def main(*body):
    return procedure("main()", body)


def counted(turns, *body):
    """A main procedure with a body under a count."""
    return main(*under([f"PAR i = 0 FOR {turns}"], body))


# ---- ordinary sources


def procedures(lines):
    """Procedures of 16 lines, so many lines in all. Each but the first has an instance of the one before."""
    last = lines // 16 - 2
    relays = [
        RELAY.format(number=number, first=f"relay{number - 1}(left, right, most)" if number else "sum := 0")
        for number in range(last + 1)
    ]
    ends = ["in0", *(f"c[{it}]" for it in range(11)), "out0"]
    instances = [f"    relay{last}({left}, {right}, 100)" for left, right in zip(ends, ends[1:])]
    head = ["PROC main(CHAN OF INT in0, CHAN OF INT out0)", "  [11]CHAN OF INT c:", "  PAR"]
    return "".join(relays).encode() + program([*head, *instances, ":"])


def replicated():
    """16 lines that are gone over 62,500 times, those of an IF and of an ALT in it twice each time."""
    turns = 62_500
    replicated_if = under(["IF k = 0 FOR 2", "x = k"], ["y := y + k"])
    replicated_alt = under(["ALT k = 0 FOR 2", "x < y & SKIP"], ["y := 0"])
    body = ["x := i /\\ 15", "y := x + 1", *replicated_if, *replicated_alt, "y := y - x", "c[i] ! y"]
    lines = ["INT x, y:", *under(["SEQ"], body)]
    return program(main(f"[{turns}]CHAN OF INT c:", *under([f"PAR i = 0 FOR {turns}"], lines)))


# ---- turns


def turns():
    return program(counted(as_many(1), "SKIP"))


def elements():
    """Turns of a PAR that use an element each."""
    count = as_many(5)
    return program(main(f"[{count}]CHAN OF INT c:", *under([f"PAR i = 0 FOR {count}"], ["c[i] ! 1"])))


def branches():
    """Branches of an ALT that use an element each."""
    count = as_many(6)
    alternation = under([f"ALT i = 0 FOR {count}", "c[i] ? x"], ["SKIP"])
    return program(main(f"[{count}]CHAN OF INT c:", "INT x:", *under(["PAR"], alternation)))


def blocks():
    """Turns with a block, where 20,000 names are known."""
    known = names(20_000)
    count = as_many(1, sum(map(len, known)))
    return program(main(f"INT {','.join(known)}:", *under([f"PAR i = 0 FOR {count}"], ["IF"])))


# ---- long lines under a count


def operands():
    sum_of_ones = "+".join(["1"] * 200_000)
    return program(counted(as_many(400_003), "INT x:", f"x := {sum_of_ones}"))


def variables():
    sum_of_zeros = "+".join(["y"] * 200_000)
    return program(counted(as_many(400_004), "INT x,y:", f"x := {sum_of_zeros}"))


def items():
    """A table of names."""
    table = ",".join(["a"] * 200_000)
    return program(["VAL INT a IS 1:"], counted(as_many(200_006), f"VAL [200000]INT t IS [{table}]:", "SKIP"))


def actuals():
    formals = ", ".join(f"VAL INT {name}" for name in names(1_000))
    passed = ",".join(["a"] * 1_000)
    return program(
        procedure(f"p({formals})", ["SKIP"]),
        main("INT a:", *under([f"PAR i = 0 FOR {as_many(1_003, 5_000)}"], [f"p({passed})"])),
    )


def declared():
    fresh = names(900)
    return program(counted(as_many(2 + sum(map(len, fresh))), f"INT {','.join(fresh)}:", "SKIP"))


# ---- instances that use many ends


def sender():
    """A procedure that uses an end of each element of an array."""
    return procedure(f"send([{ENDS}]CHAN OF INT c)", under([f"PAR i = 0 FOR {ENDS}"], ["c[i] ! 1"]))


def instances():
    """As many as may be, whose ends are of one array."""
    calls = ["send(c)"] * as_many(ENDS + 7, 5 * ENDS)
    return program(sender(), main(f"[{ENDS}]CHAN OF INT c:", *under(["PAR", "SEQ"], calls)))


def instances_apart():
    """As many as may be, each with an array of its own."""
    arrays = names(as_many(ENDS + 11, 5 * ENDS))
    calls = [f"send({name})" for name in arrays]
    return program(sender(), main(f"[{ENDS}]CHAN OF INT {','.join(arrays)}:", *under(["PAR", "SEQ"], calls)))


# ---- many variables


def choices():
    """Each choice tests another variable, and changes it."""
    scalars = names(16_000)
    body = [line for name in scalars for line in (f"{name}<1", f"  {name}:=1")]
    return program(main(f"INT {','.join(scalars)}:", *under(["IF"], body)))


def components():
    """Each component changes another variable."""
    scalars = names(16_000)
    return program(main(f"INT {','.join(scalars)}:", *under(["PAR"], [f"{name}:=1" for name in scalars])))


# ---- deep nests


def nested_turns(block):
    """Turns of a PAR, as deep as may be in blocks of one turn."""
    heads = [f"{block} i = 0 FOR 1"] * (MAX_LEVEL - 2)
    return program(main(*under([*heads, f"PAR i = 0 FOR {as_many(1)}"], ["SKIP"])))


def nested_components():
    """Turns of a PAR, as deep as may be in PARs, each with a component that uses a variable."""
    body = under([f"PAR i = 0 FOR {as_many(1)}"], ["SKIP"])
    for _ in range(MAX_LEVEL - 2):
        body = ["PAR", "  x := 1", *deeper(body)]
        body = ["INT x:", *body]
    return program(main(*body))


def nested_variables(block):
    """A long line in turns of a PAR, as deep as may be in blocks of one turn."""
    sum_of_zeros = "+".join(["y"] * 20_000)
    inside = under([f"{block} i = 0 FOR 1"] * (MAX_LEVEL - 2), [f"x := {sum_of_zeros}"])
    return program(counted(as_many(40_300), "INT x,y:", *inside))


def nested_instances():
    """Instances that use many ends, as deep as may be in PARs of one turn."""
    calls = ["send(c)"] * as_many(ENDS + 7, 5 * ENDS)
    heads = ["PAR i = 0 FOR 1"] * (MAX_LEVEL - 2)
    return program(sender(), main(f"[{ENDS}]CHAN OF INT c:", *under([*heads, "SEQ"], calls)))


def in_nest(heads, size_of_heads, body, size, others=0, outside=(), declared=()):
    """A body of a size below heads, which are below declarations, in turns of a PAR."""
    turns = as_many(size + size_of_heads + 60, others)
    return main(*outside, *under([f"PAR turn = 0 FOR {turns}"], [*declared, *under(heads, body)]))


def in_loops(levels, *others, **more):
    """The same in so many SEQs of one turn."""
    return in_nest(["SEQ up = 0 FOR 1"] * levels, 5 * levels, *others, **more)


def loops_alone(block):
    heads = [f"{block} i = 0 FOR 1"] * (MAX_LEVEL - 3)
    return program(main(*under([f"PAR turn = 0 FOR {as_many(5 * len(heads) + 1)}", *heads], ["SKIP"])))


SCALARS = ",".join(ascii_letters)
PASSING = f"change({SCALARS})"


def with_change(body):
    """A procedure to which 52 variables are passed, and the one that passes them."""
    return program(procedure(f"change({', '.join(f'INT {name}' for name in ascii_letters)})", ["SKIP"]), body)


def loops_changing():
    """Instances that pass 52 variables."""
    return with_change(in_loops(60, [PASSING], 60, declared=[f"INT {SCALARS}:"]))


def loops_passing():
    """A hundred of them."""
    return with_change(in_loops(60, ["SEQ", *deeper([PASSING] * 100)], 6_001, declared=[f"INT {SCALARS}:"]))


def loops_assigning():
    """Assignments to 52 variables."""
    lines = ["SEQ", *deeper([f"{name}:=1" for name in ascii_letters])]
    return program(in_loops(60, lines, 1 + 52 * 3, declared=[f"INT {SCALARS}:"]))


def pars_changing():
    heads = ["PAR up = 0 FOR 1"] * 60
    return with_change(in_nest(heads, 5 * len(heads), [PASSING], 60, declared=[f"INT {SCALARS}:"]))


def pars_alone_changing():
    """In PARs of one component."""
    heads = ["PAR"] * 60
    return with_change(in_nest(heads, len(heads), [PASSING], 60, declared=[f"INT {SCALARS}:"]))


def ifs_changing():
    return with_change(in_nest(["IF", "TRUE"] * 30, 3 * 30, [PASSING], 60, declared=[f"INT {SCALARS}:"]))


def passing(name, variables):
    return f"{name}({','.join(variables)})"


def with_procedures(procedures, *body):
    """Procedures with these parameters, and a body of the main one."""
    heads = [f"{name}({', '.join(f'INT {it}' for it in formals)})" for name, formals in procedures.items()]
    return program(*[procedure(head, ["SKIP"]) for head in heads], main(*body))


def in_branches(count, size, nest):
    """A nest around an instance that passes so many variables, in turns of an IF: where each of these begins, the
    variables have the values that they had before it."""
    scalars = names(count)
    turns = as_many(size + sum(map(len, scalars)) + 30, 10 * count)
    nested = under([f"IF turn = 0 FOR {turns}", "turn < 0"], nest([passing("change", scalars)]))
    return with_procedures({"change": scalars}, f"INT {','.join(scalars)}:", "INT other:", *nested)


def branches_changing():
    """1,000 variables in PARs of one component."""
    levels = 59
    return in_branches(1_000, levels, lambda body: under(["PAR"] * levels, body))


def of_levels(before=(), behind=(), levels=29):
    """The same where each level has other lines before the block in it, or after."""

    def nest(body):
        for _ in range(levels):
            body = ["SEQ", *deeper(before), "  PAR", *deeper(body, 2), *deeper(behind)]
        return body

    return in_branches(1_000, 10 * levels, nest)


def branches_of_levels():
    """Another variable is assigned to at each level."""
    return of_levels(before=["other := 1"])


def branches_of_blocks():
    """That is in a block of its own, after the other one."""
    return of_levels(behind=["PAR", "  other := 1"])


# ---- nests with more beside them at each level

WORDS = re.compile(r"[A-Za-z][A-Za-z0-9.]*|[0-9]+|[(<&]")
KEYWORDS = ("PAR", "SEQ", "IF", "ALT", "SKIP")


def spellings(count):
    """The first so many names, of which 52 have one letter and the others two signs."""
    pairs = (head + sign for head in ascii_letters for sign in ascii_letters + digits)
    found = list(islice(chain(ascii_letters, (it for it in pairs if not it.isupper())), count))
    if len(found) < count:
        raise ValueError("there are no such names any more")
    return found


def size_of(lines):
    """The size of lines of blocks, choices, assignments of constants, and instances."""
    words = [word for line in lines for word in WORDS.findall(line) if word not in KEYWORDS]
    names_of_lines = [word for word in words if word[0].isalpha() and word != "TRUE"]
    return len(lines) + sum(map(len, names_of_lines)) + len(words) - len(names_of_lines)


def in_turns(nest, scalars, **procedures):
    """A nest in turns of an IF, so that the variables have the values from before it where each turn begins."""
    around = 10 * len(scalars) + sum(10 * len(formals) for formals in procedures.values())
    heads = [f"IF turn = 0 FOR {as_many(size_of(nest) + 8, around)}", "turn < 0"]
    return with_procedures(procedures, f"INT {','.join(scalars)}:", *under(heads, nest))


def at_levels(levels, level, body):
    """A body in so many levels, each of which is made of the number of the level and the lines in it."""
    for number in range(levels):
        body = level(number, body)
    return body


def of_all(count, level, levels=29, others=()):
    """So many variables that are passed in a nest of these levels."""
    scalars = spellings(count)
    nest = at_levels(levels, level, [passing("change", scalars)])
    return in_turns(nest, [*scalars, *others], change=scalars)


def branches_of_deep_blocks():
    """An assignment in two PARs in each other after each level."""
    behind = ["PAR", "  PAR", "    other := 1"]
    return of_all(1_000, lambda _, body: ["SEQ", "  PAR", *deeper(body, 2), *deeper(behind)], others=["other"])


def branches_of_components():
    """A PAR in the second component of each level, which assigns to a variable of its own."""
    others = [f"other{number}" for number in range(59)]
    level = lambda number, body: ["PAR", *deeper(body), "  PAR", f"    {others[number]} := 1"]
    return of_all(1_000, level, levels=59, others=others)


def branches_of_choices():
    """A PAR in the second choice of each level."""
    level = lambda _, body: ["IF", "  TRUE", *deeper(body, 2), "  TRUE", "    PAR", "      other := 1"]
    return of_all(1_000, level, others=["other"])


def two_nests(count):
    """A nest, and after it at each of 28 levels another one with so many variables of its own."""
    levels = 28
    scalars = spellings(count * (levels + 1))
    groups = [scalars[start : start + count] for start in range(0, len(scalars), count)]

    def level(number, body):
        return ["SEQ", "  PAR", *deeper(body, 2), "  PAR", f"    {passing('change', groups[number + 1])}"]

    return in_turns(at_levels(levels, level, [passing("change", groups[0])]), scalars, change=groups[0])


def nests_in_choices(count, few):
    """A nest, and at each level another choice that changes a few of the same variables."""
    scalars = spellings(count)
    other = passing("few", scalars[:few])
    level = lambda _, body: ["IF", "  TRUE", *deeper(body, 2), "  TRUE", f"    {other}"]
    nest = at_levels(29, level, [passing("change", scalars)])
    return in_turns(nest, scalars, change=scalars, few=scalars[:few])


def assigned_behind(block, condition, count, few):
    """A nest, and after each level a block of two branches of which one assigns to so many of the variables."""
    assigned = ["SEQ", *[f"  {name} := 0" for name in spellings(few)]]
    branches = [f"  {condition}", *deeper(assigned, 2), f"  {condition}", "    SKIP"]
    behind = [f"  {block}", *deeper(branches)]
    return of_all(count, lambda _, body: ["SEQ", "  PAR", *deeper(body, 2), *behind], levels=28)


def many_choices(few):
    """A few variables change in the first of 3,000 choices, and a few more in a PAR in the second one."""
    scalars = spellings(few + 4)
    first = ["  TRUE", f"    {passing('few', scalars[:few])}"]
    second = ["  TRUE", "    PAR", f"      {passing('change', scalars)}"]
    nest = ["IF", *first, *second, *["  TRUE", "    SKIP"] * 3_000]
    return in_turns(nest, scalars, change=scalars, few=scalars[:few])


def many_choices_behind(few):
    """2,000 variables in a PAR, and after it 3,000 choices, of which the first changes a few others."""
    scalars = spellings(few + 2_000)
    choices = ["  TRUE", f"    {passing('few', scalars[:few])}", *["  TRUE", "    SKIP"] * 3_000]
    nest = ["SEQ", "  PAR", f"    {passing('change', scalars[few:])}", "  IF", *deeper(choices)]
    return in_turns(nest, scalars, change=scalars[few:], few=scalars[:few])


def beside_nest(count, few):
    """Variables in a PAR, and after it a few others, in 57 PARs."""
    scalars = spellings(count + few)
    inside = ["SEQ", "  PAR", f"    {passing('change', scalars[:count])}", f"  {passing('few', scalars[count:])}"]
    return in_turns(under(["PAR"] * 57, inside), scalars, change=scalars[:count], few=scalars[count:])


def nests_outside(count, nest):
    """Nests one after another, outside all blocks, as many as a source of 1 MiB has."""
    scalars = spellings(count)
    lines = nest(passing("change", scalars))
    copies = (MIB - 3_000 - 20 * count) // sum(len(line) + 5 for line in lines)
    nests = lines * copies
    return with_procedures({"change": scalars}, f"INT {','.join(scalars)}:", *under(["SEQ"], nests))


def loops_declaring(count, levels):
    """A line that declares so many names."""
    fresh = names(count)
    return program(in_loops(levels, [f"INT {','.join(fresh)}:", "SKIP"], 2 + sum(map(len, fresh))))


def loops_of_lines():
    """Short lines."""
    lines = ["SEQ", *deeper(["x := 1"] * 7_000)]
    return program(in_loops(60, lines, 1 + 7_000 * 3, declared=["INT x:"]))


# ---- late names, some of which were made to collide in std's hash table


def late_sum(known, operands, size):
    """A long sum of such names."""
    turns = as_many(size * len(operands) + 8, size * len(known))
    body = ["INT x:", f"x := {'+'.join(operands)}"]
    return program(main(f"INT {','.join(known)}:", *under([f"PAR i = 0 FOR {turns}"], body)))


def late_name():
    known = colliding(100_000)
    return late_sum(known, known[-1:] * 40_000, 7)


def late_names():
    known = names(40_000)
    return late_sum(known, known[20_000:] * 8, 4)


def late_blocks():
    """Blocks that declare the last two, in 60 SEQs."""
    known = colliding(80_000)
    blocks = ["SEQ", *deeper([f"INT {','.join(known[-2:])}:", "SKIP"] * 800)]
    return program(in_loops(60, blocks, 1 + 800 * 14, 7 * len(known), [f"INT {','.join(known)}:"]))


# What is made to be slow: the source, how many procedures it has, and what it is.
SLOW = {
    "replicated": (replicated, 1, "a million lines in turns of a PAR, an IF and an ALT"),
    "turns": (turns, 1, "turns of a PAR"),
    "elements": (elements, 1, "turns of a PAR that use an element each"),
    "branches": (branches, 1, "branches of an ALT that use an element each"),
    "blocks": (blocks, 1, "turns with a block, where 20,000 names are known"),
    "operands": (operands, 1, "a line of 200,000 operands, in turns"),
    "variables": (variables, 1, "a line of 200,000 variables, in turns"),
    "items": (items, 1, "a table of 200,000 names, in turns"),
    "actuals": (actuals, 2, "an instance with 1,000 actuals, in turns"),
    "declared": (declared, 1, "a line that declares 900 names, in turns"),
    "instances": (instances, 2, "instances that use 100,000 ends of one array"),
    "instances-apart": (instances_apart, 2, "the same of an array each"),
    "choices": (choices, 1, "16,000 choices that change a variable each"),
    "components": (components, 1, "16,000 components that change a variable each"),
    "nested-seqs": (lambda: nested_turns("SEQ"), 1, "turns of a PAR in 62 SEQs"),
    "nested-pars": (lambda: nested_turns("PAR"), 1, "the same in 62 PARs of one turn"),
    "nested-components": (nested_components, 1, "the same in 62 PARs of two components"),
    "nested-lines-seq": (lambda: nested_variables("SEQ"), 1, "a line in 62 SEQs, in turns"),
    "nested-lines-par": (lambda: nested_variables("PAR"), 1, "a line in 62 PARs of one turn, in turns"),
    "nested-instances": (nested_instances, 2, "instances that use 100,000 ends, in 62 PARs of one turn"),
    "late-name": (late_name, 1, "a sum of one name, made to collide with 100,000 others in a hash table"),
    "late-names": (late_names, 1, "a sum of 20,000 short names, where 40,000 are known"),
    "loops-seq": (lambda: loops_alone("SEQ"), 1, "61 SEQs, in turns"),
    "loops-par": (lambda: loops_alone("PAR"), 1, "61 PARs of one turn, in turns"),
    "loops-changing": (loops_changing, 2, "instances that pass 52 variables in 60 SEQs, in turns"),
    "loops-blocks": (lambda: loops_declaring(52, 60), 1, "blocks that declare 52 names in 60 SEQs, in turns"),
    "loops-declaring": (lambda: loops_declaring(900, 61), 1, "a line that declares 900 names in 61 SEQs, in turns"),
    "loops-lines": (loops_of_lines, 1, "7,000 short lines in 60 SEQs, in turns"),
    "loops-assigning": (loops_assigning, 1, "52 variables that are assigned to in 60 SEQs, in turns"),
    "late-blocks": (late_blocks, 1, "blocks that declare two names, made to collide with 80,000 others, in 60 SEQs"),
    "loops-passing": (loops_passing, 2, "100 instances that pass 52 variables in 60 SEQs, in turns"),
    "pars-changing": (pars_changing, 2, "instances that pass 52 variables in 60 PARs of one turn, in turns"),
    "ifs-changing": (ifs_changing, 2, "instances that pass 52 variables in 30 IFs, in turns"),
    "pars-alone-changing": (pars_alone_changing, 2, "instances that pass 52 variables in 60 PARs of one component"),
    "branches-changing": (branches_changing, 2, "instances that pass 1,000 variables in 59 PARs, in turns of an IF"),
    "branches-of-levels": (branches_of_levels, 2, "the same in 29 PARs, with an assignment before each"),
    "branches-of-blocks": (branches_of_blocks, 2, "1,000 in 29 PARs, with an assignment in a PAR after each"),
    "branches-of-deep-blocks": (branches_of_deep_blocks, 2, "the same in two PARs in each other"),
    "branches-of-components": (branches_of_components, 2, "1,000 in 59 PARs, with a PAR beside the block in each"),
    "branches-of-choices": (branches_of_choices, 2, "1,000 in 29 IFs, with a PAR in another choice of each"),
    "two-nests": (lambda: two_nests(52), 2, "52 variables in 28 PARs, with as many others in a PAR after each"),
    "two-nests-wide": (lambda: two_nests(75), 2, "the same of 75"),
    "nests-in-choices": (lambda: nests_in_choices(415, 52), 3, "415 in 29 IFs, each with 52 in another choice"),
    "nests-in-choices-wide": (lambda: nests_in_choices(2_300, 288), 3, "the same with 2,300 variables and 288"),
    "nests-in-choices-few": (lambda: nests_in_choices(2_300, 257), 3, "the same with 2,300 variables and 257"),
    "ifs-behind": (
        lambda: assigned_behind("IF", "TRUE", 2_300, 257), 2,
        "2,300 in 28 PARs, with an IF after each that assigns to 257"
    ),
    "alts-behind": (lambda: assigned_behind("ALT", "TRUE & SKIP", 2_300, 257), 2, "the same with an ALT after each"),
    "ifs-behind-few": (
        lambda: assigned_behind("IF", "TRUE", 1_000, 65), 2, "1,000 in 28 PARs, with an IF that assigns to 65"
    ),
    "many-choices": (lambda: many_choices(256), 3, "3,000 choices of an IF that changed 256 variables"),
    "many-choices-behind": (lambda: many_choices_behind(240), 3, "3,000 choices after 2,000 variables in a PAR"),
    "beside-nest": (lambda: beside_nest(26, 26), 3, "26 variables in a PAR, and 26 after it, in 57 PARs"),
    "beside-nest-few": (lambda: beside_nest(46, 5), 3, "46 variables in a PAR, and 5 after it, in 57 PARs"),
    "beside-nest-wide": (lambda: beside_nest(500, 500), 3, "500 variables in a PAR, and 500 after it, in 57 PARs"),
    "nests-outside": (
        lambda: nests_outside(1_000, lambda line: under(["PAR"] * 60, [line])), 2,
        "1,000 variables in 60 PARs, over and over, outside all blocks"
    ),
    "blocks-outside": (
        lambda: nests_outside(52, lambda line: ["PAR", f"  {line}", "PAR", "  a := 1"]), 2,
        "52 variables in a PAR and one in another, over and over, outside all blocks"
    ),
}
