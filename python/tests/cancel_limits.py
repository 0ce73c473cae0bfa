"""Runs of `cancel` at its limits, over known proofs and by other words, for test_rows.py."""
from __future__ import annotations

from typing import List

from row_parts import Row, USAGE, cancels, lines, long_rows, numbers, times

# One map after another: both are to come off.
TWICE = lines(
    "object P Q R / map k : P -> Q / map m : Q -> R / map x y : P -> P / assume m k x = m k y / claim x = y / claim 2 x = 2 y / "
    "claim 170141183460469231731687303715884105727 x = 170141183460469231731687303715884105727 y"
)
WHOLE_TEXT = lines(
    "cancellation 1 / claim 1 / denominator 1 / monic m / monic k / lemma 1 scale 1 / row 1 () 1 () / cancel 2 m left 1 / "
    "cancel 3 k left 2 / goal scale 1 / row 1 () lemma 3 () / end"
)
# A statement, and a proof by which both maps come off.
SOUND = (TWICE, WHOLE_TEXT, lines("0 # block 1 accepted claim 1 denominator 1 monic m k"))
# An assumption of 20,000 terms, each with the letter in front that its claim is without.
LARGE = (
    "object P\nmap " + numbers("m", 1, 200, "", " ") + " : P -> P\nassume m1 (" + numbers("m", 1, 100, "", " + ") + ") ("
    + numbers("m", 1, 200, "", " + ") + ") = 0\nclaim (" + numbers("m", 1, 100, "", " + ") + ") (" + numbers("m", 1, 200, "", " + ")
    + lines(") = 0")
)
TWO_MAPS = lines(
    "object P Q R / map k : P -> Q / map m : Q -> R / map x y : P -> P / assume m k x = m k y / claim x = y / claim 2 x = 2 y / "
    "claim 170141183460469231731687303715884105727 x = 170141183460469231731687303715884105727 y"
)
HEAD = lines("cancellation 1 / claim 1 / denominator 1")
FIRST = lines("lemma 1 scale 1 / row 1 () 1 ()")
GOAL = lines("goal scale 1")
END = lines("end")
OTHER = lines("7 # block 1 refused C6 word x want 1 got 0")

# Proofs that are accepted.
ACCEPTED: List[Row] = [
    (
        "cancel s c", TWICE,
        lines(
            "cancellation 1 / claim 1 / denominator 1 / monic m / monic k / lemma 1 scale 1 / row 1 () 1 () / cancel 2 m left 1 / "
            "cancel 3 k left 2 / goal scale 1 / row 1 () lemma 3 () / end"
        ),
        "0 # block 1 accepted claim 1 denominator 1 monic m k",
    ),
]

# Known proofs that cancel monic and epic maps, byte for byte, and what is accepted of them.
CANCELLATIONS: List[Row] = [
    (
        "cancel s c",
        lines(
            "# Where f is monic and g is epic, an inner inverse x of f g has g x f = 1. / object U V W / map g : U -> W / "
            "map f : W -> V / map x : V -> U / assume f g x f g = f g / claim g x f = [W]"
        ),
        lines(
            "cancellation 1 / claim 1 / denominator 1 / monic f / epic g / lemma 1 scale 1 / row 1 () 1 () / row -1 () 4 (g) / "
            "cancel 2 f left 1 / cancel 3 g right 2 / goal scale 1 / row 1 () lemma 3 () / end"
        ),
        "0 # block 1 accepted claim 1 denominator 1 monic f epic g",
    ),
    (
        "cancel s c",
        lines(
            "# Normal equations by a thin factorization q r, with q' q = 1 and r' monic: two solutions have the same image under q "
            "r. / object T U V W / map q : W -> V / map r : U -> W / map x y : T -> U / assume q' q = [W] / "
            "assume (q r)' (q r) x = (q r)' (q r) y / claim q r x = q r y"
        ),
        lines(
            "cancellation 1 / claim 1 / denominator 1 / monic r' / lemma 1 scale 1 / row 1 () 2 () / row -1 (r') 1 (r x) / "
            "row 1 (r') 1 (r y) / row -1 (r') 7 (x) / row 1 (r') 7 (y) / cancel 2 r' left 1 / goal scale 1 / "
            "row 1 (q) lemma 2 () / end"
        ),
        "0 # block 1 accepted claim 1 denominator 1 monic r'",
    ),
    (
        "cancel s c",
        lines(
            "# The short five lemma, its half on monic maps: a monic and c monic make b monic, where b x = 0 and x = i y by "
            "exactness. / object T A B C D E F / map i : A -> B / map p : B -> C / map j : D -> E / map n : E -> F / "
            "map a : A -> D / map b : B -> E / map c : C -> F / map x : T -> B / map y : T -> A / assume b i = j a / "
            "assume n b = c p / assume b x = 0 / assume x = i y / claim p x = 0 / claim x = 0"
        ),
        lines(
            "# That p x = 0, by which exactness gives y. / cancellation 1 / claim 1 / denominator 1 / monic c / lemma 1 scale 1 / "
            "row 1 (n) 3 () / row -1 () 2 (x) / cancel 2 c left 1 / goal scale 1 / row 1 () lemma 2 () / end / "
            "# With x = i y, that x = 0. / cancellation 1 / claim 2 / denominator 1 / monic j / monic a / lemma 1 scale 1 / "
            "row 1 () 3 () / row -1 (b) 4 () / row -1 () 1 (y) / cancel 2 j left 1 / cancel 3 a left 2 / goal scale 1 / "
            "row 1 () 4 () / row 1 (i) lemma 3 () / end"
        ),
        "0 # block 1 accepted claim 1 denominator 1 monic c / # block 2 accepted claim 2 denominator 1 monic j a",
    ),
]

# Items with 1,000,000 terms together, and with more.
KEPT: List[Row] = [
    (
        "cancel s c", LARGE,
        HEAD + lines("monic m1") + FIRST + numbers("cancel ", 2, 50, " m1 left 1\n", "") + GOAL + lines("row 1 () lemma 50 ()") + END,
        "0 # block 1 accepted claim 1 denominator 1 monic m1",
    ),
    (
        "cancel s c", LARGE,
        HEAD + lines("monic m1") + FIRST + numbers("cancel ", 2, 51, " m1 left 1\n", "") + GOAL + lines("row 1 () lemma 50 ()") + END,
        "7 # block 1 refused C11 row 1 limit 1000000",
    ),
    # the other tests of an item come first
    (
        "cancel s c", LARGE,
        HEAD + lines("monic m1") + FIRST + numbers("cancel ", 2, 50, " m1 left 1\n", "") + lines("cancel 51 m2 left 1") + GOAL + END,
        "7 # block 1 refused X2 item 51",
    ),
    (
        "cancel s c", LARGE,
        (
            HEAD + lines("monic m1 / monic m2") + FIRST + numbers("cancel ", 2, 50, " m1 left 1\n", "") + lines("cancel 51 m2 left 1")
            + GOAL + END
        ),
        "7 # block 1 refused X4 item 51",
    ),
    # a lemma with more than 20,000 terms, and a sum with more than 200,000
    ("cancel s c", LARGE, HEAD + lines("monic m1") + FIRST + lines("row 1 (m2) 1 ()") + GOAL + END, "7 # block 1 refused C9 lemma 1"),
    (
        "cancel s c", LARGE, HEAD + lines("lemma 1 scale 1") + numbers("row 1 (m", 1, 11, lines(") 1 ()"), "") + GOAL + END,
        "7 # block 1 refused C5 row 11 limit 200000",
    ),
]

# 200,000 items, and one more.
ITEMS: List[Row] = [
    (
        "cancel s c", TWO_MAPS, HEAD + lines("monic m / lemma 1 scale 1") + cancels("m", 2, 200_000) + GOAL + lines("row 1 () 1 ()") + END,
        OTHER,
    ),
    (
        "cancel s c", TWO_MAPS, HEAD + lines("monic m / lemma 1 scale 1") + cancels("m", 2, 200_001) + GOAL + END,
        "7 # refused K5 line 200005 limit 200000",
    ),
]

# 200,000 rows and 1,000,000 letters, and one more.
ROWS: List[Row] = [
    ("cancel s c", TWO_MAPS, HEAD + lines("lemma 1 scale 1") + long_rows("x ", "x ", 999) + GOAL + long_rows("x ", "x ", 1) + END, OTHER),
    (
        "cancel s c", TWO_MAPS, HEAD + lines("lemma 1 scale 1") + long_rows("x ", "x ", 1000) + GOAL + lines("row 0 (x) 1 ()") + END,
        "7 # refused K5 line 1006 limit 1000000",
    ),
]

# 100 blocks, and one more.
BLOCKS: List[Row] = [
    ("cancel s c", TWO_MAPS, times(WHOLE_TEXT, 100), "0 " + numbers("# block ", 1, 100, " accepted claim 1 denominator 1 monic m k\n", "")),
]

# That proof is none to other commands; other words, and files that aren't there.
CALLS: List[Row] = [
    ("check s c", SOUND[0], SOUND[1], "7 # refused K2 line 1"),
    ("explain s c", SOUND[0], SOUND[1], "7 # refused K2 line 1"),
    ("model s c", SOUND[0], SOUND[1], "7 # refused K2 line 1"),
    ("confirm s c", SOUND[0], SOUND[1], "7 # refused K7"),
    ("cancel s", SOUND[0], SOUND[1], USAGE),
    ("cancel s c --workers 2", SOUND[0], SOUND[1], USAGE),
    ("cancel s g", SOUND[0], SOUND[1], "4 # load failed g"),
    ("cancel f g", SOUND[0], SOUND[1], "4 # load failed f"),
]

ROWS: List[Row] = [*ACCEPTED, *CANCELLATIONS, *KEPT, *ITEMS, *ROWS, *BLOCKS, *CALLS]
