"""Sources for the figures of `compile`: ordinary lines, and what is made to be slow, of 1 MiB at most. `check` takes a
second at most for each. Those that are above a limit are refused with G1."""

from sources_of_check import deeper, names, procedure, program, under

COMPILED, TOO_LARGE = "compiled", "refused G1"
MAX_LINES = 32_768
LINES = [
    "x := x PLUS y", "y := x TIMES 3", "row[2] := y", "z := row[1] >< x", "row[1] := z MINUS y", "x := z /\\ 255",
]


def main(body, links="CHAN OF INT in0, CHAN OF INT out0"):
    return procedure(f"main({links})", body)


def joined(words):
    return ", ".join(words)


def formals(passed, kind="INT"):
    """The head of a procedure with these parameters."""
    return joined(f"{kind} {name}" for name in passed)


# ---- ordinary sources


def ordinary_lines():
    """As many lines as a source may have, such as a programmer might write, in one process."""
    heads = ["INT x, y, z:", "[4]INT row:", "SEQ"]
    count = MAX_LINES - len(heads) - 2
    return program(main([*heads, *deeper((LINES * count)[:count])]))


# ---- expressions


def long_sum(terms):
    """A sum of so many variables."""
    return program(main(["INT a:", "SEQ", "  in0 ? a", f"  a := {' PLUS '.join(['a'] * terms)}"]))


def in_brackets(terms, depth):
    """A constant sum of so many terms, in so many brackets with a variable in each."""
    value = f"({'+'.join(['1'] * terms)})"
    for _ in range(depth):
        value = f"(a PLUS {value})"
    return value


def nested_brackets(terms):
    """A procedure that is called over and over, with a constant sum of so many terms in 60 brackets of one variable."""
    inner = procedure("p(INT a)", [f"a := {in_brackets(terms, 60)}"])
    times = 8_388_608 // (2 * terms + 200)
    return program(inner, main(["INT x:", "SEQ", *deeper(["p(x)"] * min(times, 8_000))]))


def lines_of_brackets(lines, terms):
    """So many lines, each with a constant sum of so many terms in 60 brackets, without an instance."""
    return program(main(["INT a:", "SEQ", "  in0 ? a", *deeper([f"a := {in_brackets(terms, 60)}"] * lines)]))


# ---- instances


def doubling(depth):
    """Procedures that call the one before twice each."""
    first = procedure("p0(INT a)", ["a := a PLUS 1"])
    others = [procedure(f"p{n}(INT a)", ["SEQ", *deeper([f"p{n - 1}(a)"] * 2)]) for n in range(1, depth)]
    return program(first, *others, main(["INT x:", "SEQ", "  in0 ? x", f"  p{depth - 1}(x)", "  out0 ! x"]))


def calls(count, variables):
    """So many instances of a procedure with so many variables."""
    passed = names(variables)
    many = procedure(f"many({formals(passed)})", [f"{passed[0]} := {passed[-1]} PLUS 1"])
    call = f"many({joined(passed)})"
    return program(many, main([f"INT {joined(passed)}:", "SEQ", *deeper([call] * count)]))


def calls_behind_words(variables, own, count, times):
    """A procedure that passes its own variables so often, called so often where other variables have words."""
    passed = names(own)
    many = procedure(f"many({formals(passed)})", ["SKIP"])
    body = [f"INT {','.join(passed)}:", "SEQ", *deeper([f"many({','.join(passed)})"] * count)]
    known = [f"INT {','.join(names(variables))}:", "SEQ", *deeper(["local()"] * times)]
    return program(many, procedure("local()", body), main(known))


def calls_behind_names(constants, times):
    """A procedure that is called so often, with names before it that have no words."""
    known = [[f"VAL INT {name} IS 1:"] for name in names(constants)]
    return program(*known, procedure("last()", ["SKIP"]), main(["SEQ", *deeper(["last()"] * times)]))


def calls_in_turns(constants, times):
    """Two procedures that are called in turns, one with so many names before it, the other one with none."""
    known = [[f"VAL INT {name} IS 1:"] for name in names(constants)]
    first, last = procedure("first()", ["SKIP"]), procedure("last()", ["SKIP"])
    return program(first, *known, last, main(["SEQ", *deeper(["first()", "last()"] * (times // 2))]))


def calls_behind_long_names(constants, length, times):
    """A procedure that is called so often, with names before it that are alike in so many signs."""
    front = "a" * length
    known = [[f"VAL INT {front}{name} IS 1:"] for name in names(constants)]
    return program(*known, procedure("last()", ["SKIP"]), main(["SEQ", *deeper(["last()"] * times)]))


def calls_within(depth, variables):
    """So many instances within one another, where variables have words of which each has another number."""
    declared = names(variables)
    chained = [procedure(f"P{n}()", [f"P{n - 1}()" if n else "SKIP"]) for n in range(depth)]
    other = deeper([f"{name} := 1" for name in declared[::2]])
    return program(*chained, main([f"INT {joined(declared)}:", "SEQ", *other, f"  P{depth - 1}()"]))


def lines_with_instances(procedures):
    """Ten lines for each of so many procedures: seven of its own, one that calls it, and two others."""
    body = ["VAL INT low IS 3:", "VAL INT mask IS 7:", "SEQ", "  a := a /\\ mask", "  a := a \\/ low"]
    known = [procedure(f"step{number}(INT a)", body) for number in range(procedures)]
    uses = [line for number in range(procedures) for line in (f"step{number}(x)", "y := x PLUS 1", "x := y /\\ 7")]
    return program(*known, main(["INT x, y:", "SEQ", "  in0 ? x", *deeper(uses)]))


# ---- rows


def with_choices(count):
    """So many choices of one IF, each under an index."""
    body = ["INT x:", "SEQ", "  in0 ? x", f"  IF i = 0 FOR {count}", "    x = i", "      out0 ! i"]
    return program(main(body))


def choices_behind_names(constants, count):
    """So many choices of one IF, where names are known that have no words."""
    known = [[f"VAL INT {name} IS 1:"] for name in names(constants)]
    body = ["INT x:", "SEQ", "  in0 ? x", f"  IF i = 0 FOR {count}", "    x = i", "      SKIP"]
    return program(*known, main(body))


def choices_of_brackets(count, terms, depth):
    """So many choices of one IF, each with a constant sum of so many terms in so many brackets."""
    choice = ["x = i", f"  a := {in_brackets(terms, depth)}"]
    return program(main(["INT x, a:", "SEQ", "  in0 ? x", f"  IF i = 0 FOR {count}", *deeper(choice, 2)]))


def steep_choices(count, terms, depth):
    """So many choices of one IF, each with a constant sum of so many terms that is all in so many brackets."""
    choice = ["x = i", f"  a := {'(' * depth}{'+'.join(['1'] * terms)}{')' * depth}"]
    return program(main(["INT x, a:", "SEQ", "  in0 ? x", f"  IF i = 0 FOR {count}", *deeper(choice, 2)]))


def choices_behind_channels(channels, lines, count):
    """So many choices of one IF, where so many lines have declared so many channels each, which are not used."""
    declared = [name for name in names(channels * lines + 1) if name != "in0"]
    parts = [declared[n * channels : (n + 1) * channels] for n in range(lines)]
    known = [f"CHAN OF INT {','.join(part)}:" for part in parts]
    body = ["INT X:", *known, "SEQ", "  in0 ? X", f"  IF I = 0 FOR {count}", "    X = I", "      SKIP"]
    return program(main(body))


def rows_of_many_words(rows, variables):
    """Rows of which each says something else of each of so many variables."""
    declared = names(variables)
    other = deeper([f"{name} := 1" for name in declared[::2]])
    choices = ["in0 ? X", f"IF I = 0 FOR {rows}", "  X = I", "    SKIP"]
    return program(main(["INT X:", f"INT {joined(declared)}:", "SEQ", *other, *deeper(choices)]))


# ---- loops


def nested_loops(depth):
    """Loops of one turn in one another."""
    heads = [f"SEQ {name} = 0 FOR 1" for name in names(depth + 1)[1:]]
    return program(main(["INT a:", *under(heads, ["a := a PLUS 1"])]))


def changes_in_loops(depth, arrays, count, times):
    """Loops in one another around instances that pass arrays, in a procedure that is called so often."""
    passed = names(arrays)
    many = procedure(f"many({formals(passed, '[1]INT')})", ["SKIP"])
    heads = [f"SEQ I{level} = 0 FOR 1" for level in range(depth)]
    body = under([*heads, "SEQ"], [f"many({','.join(passed)})"] * count)
    looping = procedure(f"looping({formals(passed, '[1]INT')})", body)
    calls = deeper([f"looping({','.join(passed)})"] * times)
    return program(many, looping, main([f"[1]INT {','.join(passed)}:", "SEQ", *calls]))


def changes_without_turns(arrays, count, times):
    """A loop without turns around instances that pass arrays, in a procedure that is called so often."""
    passed = names(arrays)
    many = procedure(f"many({formals(passed, '[1]INT')})", ["SKIP"])
    loop = ["SEQ I = 0 FOR 0", "  SEQ", *deeper([f"many({','.join(passed)})"] * count, 2)]
    idle = procedure(f"idle({formals(passed, '[1]INT')})", loop)
    calls = deeper([f"idle({','.join(passed)})"] * times)
    return program(many, idle, main([f"[1]INT {','.join(passed)}:", "SEQ", *calls]))


# ---- constants


def constants(count):
    """So many names of constants."""
    return program(*[[f"VAL INT {name} IS {number}:"] for number, name in enumerate(names(count))], main(["SKIP"]))


def texts(count):
    """Texts of 1,000 characters, each read in main."""
    declared = names(count)
    rows = [[f'VAL [1002]BYTE {name} IS "{number:03}{"abcdefghi" * 111}":'] for number, name in enumerate(declared)]
    reads = [f"out0 ! INT {name}[X /\\ 7]" for name in declared]
    narrowed = ["IF", "  X >= 0", *deeper(["SEQ", *deeper(reads)], 2)]
    return program(*rows, main(["INT X:", "SEQ", "  in0 ? X", *deeper(narrowed)]))


def tables(count, reads):
    """So many tables that begin alike, which are read so often, the last ones most."""
    declared = names(count)
    rows = [[f"VAL [4]INT {name} IS [0,0,0,{number}]:"] for number, name in enumerate(declared)]
    last = declared[-100:]
    value = " PLUS ".join([*(f"{name}[3]" for name in declared), *(f"{it}[X]" for it in last * (reads // 100))])
    narrowed = ["IF", "  X < 0", "    STOP", "  X < 4", f"    X := {value}"]
    return program(*rows, main(["INT X:", "SEQ", "  in0 ? X", *deeper(narrowed)]))


# ---- arrays of more words than there are


def arrays_of_all_words(count):
    """One line declares so many arrays, each of more words than a region has."""
    return program(main([f"[2147483647]INT {joined(f'a{number}' for number in range(count))}:", "SKIP"]))


# ---- PARs and alternations


def branches(count):
    """A PAR of so many branches, each with a word of its own."""
    return program(main(["PAR", *deeper(["INT x:", "x := 1"] * count)]))


def pars(count):
    """PARs of two branches that send and receive, one after another."""
    one = ["PAR", "  c ! 1", "  c ? x"]
    return program(main(["CHAN OF INT c:", "INT x:", "SEQ", *deeper(one * count)]))


def pars_behind_words(count, variables):
    """PARs of two branches, where so many variables have words."""
    one = ["PAR", "  SKIP", "  SKIP"]
    return program(main([f"INT {joined(names(variables))}:", "SEQ", *deeper(one * count)]))


def nested_pars(depth):
    """PARs of two branches in one another."""
    body = ["INT x:", "x := 1"]
    for _ in range(depth):
        body = ["PAR", "  SKIP", *deeper(body)]
    return program(main(body))


def rows_in_pars(depth, rows, variables):
    """So many rows in PARs in one another, each of which says something of so many variables that are outside."""
    declared = names(variables)
    used = [*(f"{name} := 1" for name in declared[::2]), *(f"X := X PLUS {name}" for name in declared)]
    body = ["SEQ", *deeper([*used, f"IF I = 0 FOR {rows}", "  X = I", "    SKIP"])]
    for _ in range(depth):
        body = ["PAR", *deeper(body)]
    return program(main(["INT X:", f"INT {joined(declared)}:", *body]))


def code_in_pars(depth, terms):
    """A sum of so many variables in PARs in one another."""
    body = [f"x := {' PLUS '.join(['x'] * terms)}"]
    for _ in range(depth):
        body = ["PAR", *deeper(body)]
    return program(main(["INT x:", "SEQ", "  in0 ? x", *deeper(body)]))


def alternations(count):
    """Alternations of 64 guards."""
    guards = [line for word in range(64) for line in (f"x > {word} & in0 ? x", "  out0 ! x")]
    return program(main(["INT x:", "SEQ", *deeper(["ALT", *deeper(guards)] * count)]))


def alternations_behind_names(constants, count):
    """Alternations of 64 guards, where names are known that have no words."""
    known = [[f"VAL INT {name} IS 1:"] for name in names(constants)]
    alternation = ["ALT I = 0 FOR 64", "  X > I & in0 ? X", "    SKIP"]
    return program(*known, main(["INT X:", "SEQ", *deeper(alternation * count)]))


# name: what makes the source, what comes of it, and what it is
SOURCES = {
    "ordinary": (ordinary_lines, COMPILED, "32,768 ordinary lines"),
    "sum": (lambda: long_sum(65_000), COMPILED, "a sum of 65,000 variables"),
    "brackets": (lambda: nested_brackets(250_000), TOO_LARGE, "a sum of 250,000 constants in 60 brackets, 16 times"),
    "brackets-alone": (
        lambda: lines_of_brackets(180, 1_000), COMPILED, "180 lines with a sum of 1,000 constants in 60 brackets",
    ),
    "doubling": (lambda: doubling(60), TOO_LARGE, "60 procedures that call the one before twice each"),
    "calls": (lambda: calls(2_700, 100), COMPILED, "2,700 instances that pass 100 variables"),
    "calls-words": (
        lambda: calls_behind_words(10_000, 4_000, 20, 7), COMPILED,
        "140 instances that pass 4,000 variables, where 10,000 others have words",
    ),
    "calls-names": (
        lambda: calls_behind_names(32_000, 700), COMPILED, "700 instances of a procedure that knows 32,000 constants",
    ),
    "calls-in-turns": (
        lambda: calls_in_turns(4_000, 2_300), COMPILED,
        "2,300 instances in turns, every second one of a procedure that knows 4,000 constants",
    ),
    "instances-10000": (
        lambda: lines_with_instances(1_000), COMPILED, "10,000 lines with 1,000 procedures, each called once",
    ),
    "instances-20000": (
        lambda: lines_with_instances(2_000), COMPILED, "20,000 lines with 2,000 procedures, each called once",
    ),
    "calls-long": (
        lambda: calls_behind_long_names(80, 10_000, 8_000), TOO_LARGE,
        "8,000 instances of a procedure that knows 80 constants with long names",
    ),
    "calls-deep": (
        lambda: calls_within(600, 2_900), COMPILED,
        "600 instances in one another, where 2,900 variables have words",
    ),
    "choices": (lambda: with_choices(32_000), TOO_LARGE, "IF i = 0 FOR 32000"),
    "choices-within": (lambda: with_choices(8_190), COMPILED, "IF i = 0 FOR 8190"),
    "choices-names": (
        lambda: choices_behind_names(32_000, 8_190), COMPILED, "the same where 32,000 constants are known",
    ),
    "choices-brackets": (
        lambda: choices_of_brackets(8_190, 450, 3), COMPILED, "the same, each with a sum of 450 constants in 4 brackets",
    ),
    "choices-steep": (
        lambda: steep_choices(8_190, 506, 7), COMPILED,
        "the same, each with a sum of 506 constants that is all in 7 brackets, as much work as a turn may be",
    ),
    "choices-channels": (
        lambda: choices_behind_channels(2_500, 80, 1_345), COMPILED,
        "IF i = 0 FOR 1345, where 200,000 channels are declared",
    ),
    "said": (lambda: rows_of_many_words(8_190, 510), COMPILED, "8,191 rows about 511 variables"),
    "loops": (lambda: nested_loops(60), COMPILED, "60 loops in one another"),
    "loops-changes": (
        lambda: changes_in_loops(58, 1_000, 150, 12), TOO_LARGE,
        "150 instances that pass 1,000 arrays in 58 loops, 12 times",
    ),
    "loops-idle": (
        lambda: changes_without_turns(20, 12_000, 1_000), TOO_LARGE,
        "12,000 instances that pass 20 arrays in a loop without turns, 1,000 times",
    ),
    "constants": (lambda: constants(32_700), COMPILED, "32,700 constants"),
    "texts": (lambda: texts(900), TOO_LARGE, "900 texts of 1,002 characters"),
    "tables": (lambda: tables(1_000, 12_000), COMPILED, "12,000 reads of 1,000 tables that begin alike"),
    "arrays": (lambda: arrays_of_all_words(110_000), TOO_LARGE, "110,000 arrays of 2,147,483,647 words in a line"),
    "branches": (lambda: branches(64), COMPILED, "a PAR of 64 branches"),
    "pars": (lambda: pars(1_024), COMPILED, "1,024 PARs"),
    "pars-words": (lambda: pars_behind_words(1_024, 1_000), COMPILED, "the same where 1,000 variables have words"),
    "pars-nested": (lambda: nested_pars(61), COMPILED, "61 PARs in one another"),
    "pars-rows": (lambda: rows_in_pars(60, 8_000, 500), TOO_LARGE, "8,000 rows about 500 variables in 60 PARs"),
    "pars-code": (lambda: code_in_pars(60, 40_000), COMPILED, "a sum of 40,000 variables in 60 PARs"),
    "alternations": (lambda: alternations(100), COMPILED, "100 alternations of 64 guards"),
    "alternations-names": (
        lambda: alternations_behind_names(31_000, 120), COMPILED,
        "120 alternations of 64 guards where 31,000 constants are known",
    ),
}
