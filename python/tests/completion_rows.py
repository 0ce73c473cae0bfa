"""Runs of `prove` and `refute` whose reports were worked out by hand, for test_rows.py: the rules that completions make, why they stop, and
the candidates of a shape, which come from candidates.py too."""
from __future__ import annotations

from typing import List, NamedTuple, Tuple

from confirm_rows import M, times
from row_parts import lines


class Run(NamedTuple):
    """Its name, the statement, the words of the call, the report and the status."""

    name: str
    statement: str
    words: str
    report: str
    status: int


PROVE = "prove --no-models --format 1"

# ---- Rules, and what is pending

# (b a b - a b a) a b less b a (b a b - a b a) is b a a b a - a b a a b. Then b is the only end of b a b that begins b a a b a, which ends
# with b a, as b a b and it itself begin.
BRAID = lines("object V / map a b : V -> V / assume b a b = a b a / claim b a a b a = a b a a b / claim a = b")
BRAIDED = lines(
    "# claim 1 proved denominator 1 rows 2 / certificate 1 / claim 1 / denominator 1 / row 1 () 1 (a b) / row -1 (b a) 1 () / end /"
    " # claim 2 undecided pairs 1 least b a a b a b"
)
# The word overlaps itself at the places 1 to 33. A round takes 32 of these, and the last one's word has 67 letters.
POWER = lines(f"object U / map a : U -> U / assume {times(34, 'a')} = 0 / claim a = 0")
POWERS = lines(f"# claim 1 not derivable rules 1 / basis 1 / claim 1 / rule {times(34, 'a')} / rest a / end")
LARGEST_OVERLAP = lines(f"# claim 1 undecided pairs 32 least {times(67, 'a')}")
FREE = lines("object U / map a b : U -> U / claim a = a / claim a = b")
NO_RULES = lines(
    "# claim 1 proved denominator 1 rows 0 / certificate 1 / claim 1 / denominator 1 / end /"
    " # claim 2 not derivable rules 0 / basis 1 / claim 2 / rest - b + a / end"
)
# The rule x is half of the generator.
HALVED = lines("object U / map x y : U -> U / assume 2 x = 0 / claim x = 0 / claim y = 0")
HALF = lines(
    "# claim 1 proved denominator 2 rows 1 / certificate 1 / claim 1 / denominator 2 / row 1 () 1 () / end /"
    " # claim 2 not derivable rules 1 / basis 1 / claim 2 / rule x / rest y / end"
)
# The relations of U and those of V come first, though they are numbered behind the assumptions. Of the 20 words of three letters, l a r
# alone gives a rule, r - l. It is in [U] r, r [V] and a r, of which the last one gives a l - [V], and that overlaps [V] a, l a, l [V] and
# a r.
INVERSES = "object U V / map l : V -> U / map a : U -> V / map r : V -> U / assume l a = [U] / assume a r = [V] / claim l = {}r"
INVERSE = lines(INVERSES.format("2 "))
INVERSE_RULES = lines(
    "# claim 1 not derivable rules 12 / basis 1 / claim 1 / rule [U] [U] - [U] / rule [U] l - l / rule a [U] - a / rule [U] r - r /"
    " rule [V] [V] - [V] / rule l [V] - l / rule [V] a - a / rule r [V] - r / rule l a - [U] / rule a r - [V] / rule r - l /"
    " rule a l - [V] / rest - l / end"
)
ONE_INVERSE = lines(
    "# claim 1 proved denominator 1 rows 4 / certificate 1 / claim 1 / denominator 1 / row 1 () 1 (r) / row -1 (l) 2 () / row 1 () 6 () /"
    " row -1 () 8 () / end"
)


def runs_of_rules() -> List[Run]:
    cases = [
        ("a rule of the first round", BRAID, 1, BRAIDED, 12),
        ("34 times a letter", POWER, 33, POWERS, 10),
        ("34 times a letter, the first round", POWER, 32, LARGEST_OVERLAP, 12),
        ("no rules", FREE, 1, NO_RULES, 10),
        ("a rule is divided", HALVED, 1, HALF, 10),
        ("two inverses are one", lines(INVERSES.format("")), 20, ONE_INVERSE, 0),
        ("two inverses after the first round", INVERSE, 20, lines("# claim 1 undecided pairs 20 least [U] r"), 12),
        ("two inverses after the second round", INVERSE, 23, lines("# claim 1 undecided pairs 23 least [V] a l"), 12),
        ("two inverses after all rounds", INVERSE, 27, INVERSE_RULES, 10),
    ]
    return [Run(name, text, f"{PROVE} --pairs {pairs} --steps 100", report, status) for name, text, pairs, report, status in cases]


# ---- Causes of a stop

# Of each the maps, the assumptions, the steps that may be spent and the cause.
STOPS: List[Tuple[str, str, int, str]] = [
    # The S-polynomial of a b a is 5 times the first rule less the large number times the second one, and the number by which a rule is
    # multiplied stands on the left.
    ("a b", f"assume {M} a b = b / assume 5 b a = a", 9, f"overflow 5 times {M} at round 1 least a b a"),
    # The S-polynomial of c b d is a d times the negative of the large number, and its first reduction doubles it.
    (
        "a b c d", f"assume c b = {M} a / assume 2 a d = a / assume b d = 0", 9,
        f"overflow -{M} times 2 at round 1 least c b d",
    ),
    # c b d gives the rule 2 e d - c a, by which the second reduction of f b d doubles f a and then e d times the negative of the large
    # number.
    (
        "a b c d e f", f"assume c b = 2 e / assume b d = a / assume f b = {M} e", 9,
        f"overflow -{M} times 2 at round 1 least c b d",
    ),
    # c b d gives c a, which is tripled and leaves d. The record of d has the first rule the large number times, tripled.
    (
        "a b c d", f"assume c b = 0 / assume {M} b d = a / assume 3 c a = d", 9,
        f"overflow {M} times 3 at round 1 least c b d",
    ),
    # A generator is multiplied by 2 before the rule 2 b - a is taken away.
    ("a b", f"assume 2 b = a / assume {M} b b = a", 9, f"overflow {M} times 2 at round 0"),
    # After one step by the rule a one of the words a b and b a is left.
    ("a b", "assume a = 0 / assume a b = b a", 1, "steps 1 at round 0"),
    # c d e gives c and y 8 times. Each y is 64 letters b, and so there are 513 letters after the eighth step. Terms stand by their numbers
    # of letters, and so a leading term that is heavy may stand last.
    (
        "a b c d e x y",
        f"order weight d 1000 x 9 y 65 / assume c d = 0 / assume d e = {times(8, 'y')} / assume x = {times(8, 'b')} /"
        f" assume y = {times(8, 'x')}",
        9, "size letters 500 at round 1 least c d e",
    ),
]  # fmt: skip


def runs_of_stops() -> List[Run]:
    runs = []
    for maps, assumed, steps, cause in STOPS:
        statement = lines(f"object V / map {maps} : V -> V / {assumed} / claim a = b")
        runs.append(Run(cause, statement, f"{PROVE} --pairs 9 --steps {steps}", f"# claim 1 undecided {cause}\n", 12))
    return runs


# ---- Candidates of a shape, the first of which that breaks the claim is printed

INNER = "object U V / map a : U -> V / map x : V -> U / inner a x / claim {} / model 7 U 2 V 2"
# The first draws of a have no inverse.
SOLVED = lines("object V / map a x : V -> V / assume a x = [V] / solve x / claim x = a / model 2 V 6")
A = "1 0 0 1 1 0 ; 1 0 1 1 1 1 ; 0 1 1 1 1 1 ; 1 1 1 1 1 1 ; 1 1 1 0 0 0 ; 0 1 0 1 0 0"
X = "0 0 1 1 0 0 ; 0 1 0 1 0 0 ; 0 1 1 0 1 0 ; 0 1 0 1 0 1 ; 1 1 1 0 0 1 ; 1 0 1 0 1 0"


def refuted(shape: str, a: str, x: str) -> str:
    return lines(f"# claim 1 refuted / model 1 / claim 1 / {shape} / map a = {a} / map x = {x} / end")


def runs_of_candidates() -> List[Run]:
    inner = "modulus 7 / side U 2 / side V 2"
    reflexive, zero = lines(INNER.format("x a x = x")), lines(INNER.format("x = 0"))
    return [
        Run("candidate 0 of seed 1", reflexive, "refute --seed 1", refuted(inner, "2 3 ; 3 1", "3 4 ; 0 4"), 11),
        Run("candidate 0 of seed 2", zero, "refute --seed 2", refuted(inner, "1 2 ; 0 6", "1 2 ; 0 6"), 11),
        # x is the inverse of a in candidate 0
        Run("candidate 1 of seed 2", reflexive, "refute --seed 2", refuted(inner, "4 6 ; 6 2", "2 4 ; 4 4"), 11),
        Run("candidate 1, where a has an inverse", SOLVED, "refute --seed 1", refuted("modulus 2 / side V 6", A, X), 11),
    ]


def runs() -> List[Run]:
    return [*runs_of_rules(), *runs_of_stops(), *runs_of_candidates()]
