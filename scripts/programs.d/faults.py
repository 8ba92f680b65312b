"""Faults that are put at the end of a program that has none, with the number and the line of the refusal."""

import dataclasses


@dataclasses.dataclass
class Fault:
    """What is refused, the line that is at fault (none of a limit), and an item that is put before `main`."""

    refusal: str
    at: int
    lines: list
    item: list = dataclasses.field(default_factory=list)


def fault(refusal, at, text, item=""):
    return Fault(refusal, at, text.splitlines(), item.splitlines())


NUMBER = "INT f:\n"
PASSED = "PROC fault(INT a, INT b)\n  a := b\n:"
FAULTS = [
    fault("O1", 1, "SEQ\n   SKIP"),
    fault("O2", 1, "SEQ\n    SKIP"),
    fault("O3", 1, NUMBER + "f := 1 ; 2"),
    fault("O3", 0, "SKIP -- a\ttab"),
    fault("O4", 1, NUMBER + "f := 2147483648"),
    fault("O4", 1, NUMBER + "f := INT 'ab'"),
    fault("O5", 1, NUMBER + "f = 1"),
    fault("O5", 1, NUMBER + "f := f[0"),
    fault("O6", 1, "IF\n  TRUE"),
    fault("O6", 0, "SEQ i = 0 FOR 3"),
    fault("O7", 1, NUMBER + "f := " + "(" * 65 + "f" + ")" * 65),
    fault("O8", 1, NUMBER + "f := 1 + f * 3"),
    fault("O8", 1, NUMBER + "f := f - f - f"),
    fault("O9", 0, "f.unknown := 1"),
    fault("O9", 0, "f.unknown(1)"),
    fault("O9", 1, "SEQ\n  f.unknown := 1\n  INT f.unknown:\n  SKIP"),
    fault("O10", 0, "INT f, f:\nSKIP"),
    fault("O10", 1, "INT f:\nVAL INT f IS 2:\nSKIP"),
    fault("O11", 1, NUMBER + "f := 'a'"),
    fault("O11", 1, NUMBER + "f := f = f"),
    fault("O11", 1, "VAL INT f IS 2:\nf := 2"),
    fault("O11", 1, "SEQ f = 0 FOR 2\n  f := 1"),
    fault("O11", 0, "VAL [3]INT f IS [1, 2]:\nSKIP"),
    fault("O12", 1, NUMBER + "[f]INT g:\nSKIP"),
    fault("O12", 1, NUMBER + "SEQ i = 0 FOR f\n  SKIP"),
    fault("O11", 1, NUMBER + "f(f)"),
    fault("O13", 1, "INT g:\nfault(g)", PASSED),
    fault("O13", 1, "INT g:\nfault(g, 1)", PASSED),
    fault("O14", 1, NUMBER + "PAR\n  f := 1\n  f := 2"),
    fault("O14", 1, NUMBER + "PAR\n  SKIP\n  f := 1\n  IF\n    f = 1\n      SKIP"),
    fault("O14", 1, NUMBER + "PAR i = 0 FOR 2\n  f := i"),
    fault("O15", 1, "CHAN OF INT f:\nPAR\n  f ! 1\n  f ! 2"),
    fault("O15", 1, "CHAN OF INT f:\nf ! 1"),
    fault("O15", 1, "CHAN OF INT f:\nPAR i = 0 FOR 2\n  f ! i"),
    fault("O16", 1, NUMBER + "f := MOSTPOS INT + 1"),
    fault("O16", 1, NUMBER + "f := 1 / f"),
    fault("O16", 2, NUMBER + "SEQ i = 0 FOR 2\n  f := f + 1"),
    fault("O16", 1, NUMBER + "f := INT BYTE (f - 1)"),
    fault("O16", 1, NUMBER + "f := 1 << (f + 32)"),
    fault("O16", 0, "SEQ i = 0 FOR (-1)\n  SKIP"),
    fault("O16", 0, "[0]INT f:\nSKIP"),
    fault("O16", 0, "SEQ i = MOSTPOS INT FOR 2\n  SKIP"),
    fault("O17", 1, "[4]INT f:\nf[4] := 1"),
    fault("O17", 1, "[4]INT f:\nf[f[0]] := 1"),
    fault("O17", 2, "[4]INT f:\nSEQ i = 0 FOR 5\n  f[i] := i"),
    fault("O18", 1, "INT g:\nfault(g, g)", PASSED),
    fault("G1", None, "[20000]INT f:\nf[0] := 1"),
    fault("G1", None, "INT f:\nIF i = 0 FOR 9000\n  f = i\n    SKIP"),
]
TOO_MANY = [
    fault("G1", None, "PAR i = 0 FOR 65\n  SKIP"),
    fault("G1", None, "INT f:\nALT i = 0 FOR 65\n  f = i & SKIP\n    SKIP"),
]
AFTER_MAIN = fault("O19", 0, "VAL INT fault IS 1:")


def with_fault(dice, lines, is_sequential):
    """The lines of a program with a fault, and the refusal."""
    if dice.random() < 0.02:
        return [*lines, *AFTER_MAIN.lines], f"O19 at line {len(lines) + 1}"
    chosen = dice.choice(FAULTS if is_sequential else FAULTS + TOO_MANY)
    main = max(at for at, line in enumerate(lines) if line.startswith("PROC main("))
    # behind the body of main, which is a SEQ
    before = [*lines[:main], *chosen.item, *lines[main:-1]]
    where = "" if chosen.at is None else f" at line {len(before) + chosen.at + 1}"
    return [*before, *("    " + line for line in chosen.lines), ":"], chosen.refusal + where
