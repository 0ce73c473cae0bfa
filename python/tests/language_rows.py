"""Runs over statements of the second language, worked out by hand, for test_rows.py."""
from __future__ import annotations

from typing import List, Tuple

from row_parts import Row, lines, times

# A claim of which both sides are the same polynomial.
SAME = lines("0 # claim 1 proved denominator 1 rows 0 / certificate 2 / claim 1 / denominator 1 / goal scale 1 / end")

# What the first line says.
FIRST_LINES: List[Row] = [
    ("prove s", "\t# c\n\n \tlanguage\t0002#x\nobject U\nmap a : U -> U\nclaim a = a\n", "", SAME),
    ("prove s", "language 2", "", "3 # refused S15"),
    ("prove s", "language 2\r", "", "3 # refused S2 line 1 column 11"),
    ("prove s", lines("language 1 / object U"), "", "3 # refused S3 line 1 column 1"),
    ("prove s", lines("language"), "", "3 # refused S3 line 1 column 1"),
    ("prove s", lines("language 2 x"), "", "3 # refused S3 line 1 column 1"),
    ("prove s", lines("language 2 a^2"), "", "3 # refused S2 line 1 column 13"),
    ("prove s", lines("language 2 # ^ / object U / map a b : U -> U / claim a^1 b = a b"), "", SAME),
    ("prove s", lines("language - 2"), "", "3 # refused S3 line 1 column 1"),
    ("prove s", lines("language 170141183460469231731687303715884105728"), "", "3 # refused S4 line 1 column 10"),
    ("prove s", lines("object U V / map a : U -> V / language 2"), "", "3 # refused S3 line 3 column 1"),
    ("prove s", lines("language 2 / object U / language 2"), "", "3 # refused S3 line 3 column 1"),
    ("prove s", lines("object U / map a : U -> U / eliminate a / claim a = a"), "", "3 # refused S3 line 3 column 1"),
    ("prove s", lines("object U # ^ / map a : U -> U / claim a = a"), "", SAME),
    ("prove s", lines("language 1 / object U / claim a = a ^1"), "", "3 # refused S2 line 3 column 13"),
    (
        "prove s", lines("language 2 / object language / map eliminate : language -> language / claim eliminate^2 = eliminate eliminate"),
        "", SAME,
    ),
]

# The grammar of powers and of `eliminate`.
POWERS: List[Row] = [
    ("prove s", lines("language 2 / object U / map a b : U -> U / claim a^2b ^ 3 = a a b b b"), "", SAME),
    ("prove s", lines("language 2 / object U / map a b : U -> U / claim a^2^3 = a^6"), "", SAME),
    ("prove s", lines("language 2 / object U / map a b : U -> U / claim [U]^3 a = [U] [U] [U] a"), "", SAME),
    ("prove s", lines("language 2 / object U / map a b : U -> U / claim (a b)^2' = (b' a')^2"), "", SAME),
    ("prove s", lines("language 2 / object U / map a b : U -> U / claim a'^1'^1'^1 = a'"), "", SAME),
    ("prove s", lines("language 2 / object U / map a b : U -> U / claim 2^2 a = a"), "", "3 # refused S3 line 4 column 8"),
    ("prove s", lines("language 2 / object U / map a b : U -> U / claim 0^2 = a"), "", "3 # refused S3 line 4 column 8"),
    ("prove s", lines("language 2 / object U / map a b : U -> U / claim a^2 3 = a"), "", "3 # refused S3 line 4 column 11"),
    ("prove s", lines("language 2 / object U / map a b : U -> U / claim a^-1 = a"), "", "3 # refused S3 line 4 column 9"),
    ("prove s", lines("language 2 / object U / map a b : U -> U / claim a^(2) = a"), "", "3 # refused S3 line 4 column 9"),
    ("prove s", lines("language 2 / object U / map a b : U -> U / claim a^'2 = a"), "", "3 # refused S3 line 4 column 9"),
    ("prove s", lines("language 2 / object U / map a b : U -> U / claim a^ # c"), "", "3 # refused S3 line 4 column 9"),
    ("prove s", lines("language 2 / object U / map a b : U -> U / claim a = (a^2^)"), "", "3 # refused S3 line 4 column 16"),
    ("prove s", lines("language 2 / object U / map a b : U -> U / solve a^2"), "", "3 # refused S3 line 4 column 8"),
    ("prove s", lines("language 2 / object U / map a b : U -> U / eliminate"), "", "3 # refused S3 line 4 column 10"),
    ("prove s", lines("language 2 / object U / map a b : U -> U / eliminate a : b"), "", "3 # refused S3 line 4 column 13"),
    ("prove s", lines("language 2 / object U / map a b : U -> U / claim a^2 = a~"), "", "3 # refused S2 line 4 column 14"),
    ("prove s", lines("language 2 / object U / map a b : U -> U / claim a^0 = b^^2"), "", "3 # refused S3 line 4 column 15"),
    (
        "prove s",
        "language 2\nclaim " + times("(", 65) + "a" + times(")", 65) + lines(" = a"),
        "", "3 # refused S5 line 2 column 71",
    ),
]

# Names, literals and numbers.
NUMBERS: List[Row] = [
    ("prove s", lines("language 2 / object U / map a b : U -> U / claim a^0001 = a"), "", SAME),
    ("prove s", lines("language 2 / object U / map a b : U -> U / claim a^000 = a"), "", "3 # refused S16 line 4 column 9"),
    ("prove s", lines("language 2 / object U / map a b : U -> U / claim (a^501)^0 = a"), "", "3 # refused S16 line 4 column 10"),
    ("prove s", lines("language 2 / object U / map a b : U -> U / claim a^0 c = a"), "", "3 # refused S16 line 4 column 9"),
    ("prove s", lines("language 2 / object U / map a b : U -> U / claim c^0 = a"), "", "3 # refused S6 line 4 column 7"),
    (
        "prove s", lines("language 2 / object U / map a b : U -> U / claim a^170141183460469231731687303715884105727 = a"), "",
        "3 # refused S16 line 4 column 9",
    ),
    ("prove s", lines("language 2 / object U / map a b : U -> U / eliminate U"), "", "3 # refused S6 line 4 column 11"),
    ("prove s", lines("language 2 / object U / map a b : U -> U / eliminate a b a"), "", "3 # refused S7 line 4 column 15"),
    ("prove s", lines("language 2 / object U / map a b : U -> U / eliminate a / eliminate b"), "", "3 # refused S7 line 5 column 1"),
    ("prove s", lines("language 2 / object U / map a b : U -> U / order weight a 2 / eliminate a"), "", "3 # refused S7 line 5 column 1"),
    (
        "prove s", lines("language 2 / eliminate a / claim a^2 = a / map a : U -> U self / object U"), "",
        "10 # claim 1 not derivable rules 0 / basis 1 / claim 1 / rest a a - a / end",
    ),
]

# Signatures of powers.
SIGNATURES: List[Row] = [
    (
        "prove s", lines("language 2 / object U V / map a b : U -> V / map x : V -> U / claim x^2 = x"), "",
        "3 # refused S10 line 5 column 8 left V -> U right V -> U",
    ),
    (
        "prove s", lines("language 2 / object U V / map a b : U -> V / map x : V -> U / claim a^1'^2 = a"), "",
        "3 # refused S10 line 5 column 11 left V -> U right V -> U",
    ),
    (
        "prove s", lines("language 2 / object U V / map a b : U -> V / map x : V -> U / claim a b a^2 = a"), "",
        "3 # refused S10 line 5 column 12 left U -> V right U -> V",
    ),
    ("prove s", lines("language 2 / object U V / map a b : U -> V / map x : V -> U / claim (x a)^2 x = x a x a x"), "", SAME),
    (
        "prove s", lines("language 2 / object U V / map a b : U -> V / map x : V -> U / claim (x a)^2 a = a"), "",
        "3 # refused S10 line 5 column 15 left U -> U right U -> V",
    ),
    (
        "prove s", lines("language 2 / object U V / map a b : U -> V / map x : V -> U / claim (a + x)^2 = a"), "",
        "3 # refused S11 line 5 column 12 left U -> V right V -> U",
    ),
    (
        "prove s", lines("language 2 / object U V / map a b : U -> V / map x : V -> U / claim a + (x a)^2 = a"), "",
        "3 # refused S11 line 5 column 11 left U -> V right U -> U",
    ),
    ("prove s", lines("language 2 / object U V / map a b : U -> V / map x : V -> U / claim b - b = (0)^1'^1"), "", SAME),
    (
        "prove s", lines("language 2 / object U V / map a b : U -> V / map x : V -> U / claim x a = x a (0)^1"), "",
        "3 # refused S12 line 5 column 17",
    ),
    (
        "prove s", lines("language 2 / object U V / map a b : U -> V / map x : V -> U / claim x a + (0 - 0)^1'^2 = x a"), "",
        "3 # refused S12 line 5 column 13",
    ),
    ("prove s", lines("language 2 / object U V / map a b : U -> V / map x : V -> U / claim (0 x a)^3 = 0"), "", SAME),
    (
        "prove s", lines("language 2 / object U V / map a b : U -> V / map x : V -> U / claim (0 a)^3 = 0"), "",
        "3 # refused S10 line 5 column 12 left U -> V right U -> V",
    ),
    (
        "prove s", lines("language 2 / object U V / map a b : U -> V / map x : V -> U / claim (0)^1 = 0"), "",
        "3 # refused S12 line 5 column 7",
    ),
]

# Polynomials of powers.
ARITHMETIC: List[Row] = [
    ("prove s", lines("language 2 / object U / map a b : U -> U / claim (a b)^250 = a b (a b)^249"), "", SAME),
    ("prove s", lines("language 2 / object U / map a b : U -> U / claim (a b)^251 = a"), "", "3 # refused S14 line 4 column 1"),
    ("prove s", lines("language 2 / object U / map a b : U -> U / claim a^500 b = a"), "", "3 # refused S14 line 4 column 1"),
    ("prove s", lines("language 2 / object U / map a b : U -> U / claim a^2^2^2^2^2^2^2^2 = a^256"), "", SAME),
    ("prove s", lines("language 2 / object U / map a b : U -> U / claim a^2^2^2^2^2^2^2^2^2 = a"), "", "3 # refused S14 line 4 column 1"),
    ("prove s", lines("language 2 / object U / map a b : U -> U / claim ((a^500)^500)^500 = a"), "", "3 # refused S14 line 4 column 1"),
    ("prove s", lines("language 2 / object U / map a b : U -> U / claim (a - a)^500^500^500 = 0"), "", SAME),
    ("prove s", lines("language 2 / object U / map a b : U -> U / claim (a + b)^14 = (a + b)^7 (a + b)^7"), "", SAME),
    ("prove s", lines("language 2 / object U / map a b : U -> U / claim (a - b)^15 = 0"), "", "3 # refused S14 line 4 column 1"),
    ("prove s", lines("language 2 / object U / map a b : U -> U / claim (a + b)^500 = 0"), "", "3 # refused S14 line 4 column 1"),
    ("prove s", lines("language 2 / object U / map a b : U -> U / claim (a + a^2)^3 = a^3 + 3 a^4 + 3 a^5 + a^6"), "", SAME),
    (
        "prove s", lines("language 2 / object U / map a b : U -> U / claim (3 a)^80 = 147808829414345923316083210206383297601 a^80"), "",
        SAME,
    ),
    ("prove s", lines("language 2 / object U / map a b : U -> U / claim (3 a)^81 = 0"), "", "3 # refused S13 line 4 column 1"),
    ("prove s", lines("language 2 / object U / map a b : U -> U / claim (16 a^16)^32 = 0"), "", "3 # refused S14 line 4 column 1"),
    ("prove s", lines("language 2 / object U / map a b : U -> U / claim (16 a^15)^32 = 0"), "", "3 # refused S13 line 4 column 1"),
    ("prove s", lines("language 2 / object U / map a b : U -> U / claim (a + a^2)^130 = (a^2 + a)^130"), "", SAME),
    ("prove s", lines("language 2 / object U / map a b : U -> U / claim (a + a^2)^131 = 0"), "", "3 # refused S13 line 4 column 1"),
    (
        "prove s", lines("language 2 / object U / map a b : U -> U / claim (170141183460469231731687303715884105727 a - b)^2 = 0"), "",
        "3 # refused S13 line 4 column 1",
    ),
    (
        "prove s", lines("language 2 / object U / map a b : U -> U / claim (a b)^251 (170141183460469231731687303715884105727 a)^2 = 0"),
        "", "3 # refused S14 line 4 column 1",
    ),
    (
        "prove s", lines("language 2 / object U / map a b : U -> U / claim (170141183460469231731687303715884105727 a)^2 (a b)^251 = 0"),
        "", "3 # refused S13 line 4 column 1",
    ),
    ("prove s", lines("language 2 / object U / map a b : U -> U / claim a^2'^3 = a'^6"), "", SAME),
]

# What is decided of files of the second language.
ORDERS: List[Row] = [
    (
        "prove s", lines("language 2 / object U / map a b : U -> U / eliminate b / assume a^3 = b / claim b^2 a = a^7"), "",
        (
            "0 # claim 1 proved denominator 1 rows 2 / certificate 2 / claim 1 / denominator 1 / goal scale 1 / row -1 () 1 (b a) "
            "/ row -1 (a a a) 1 (a) / end"
        ),
    ),
    (
        "prove s", lines("language 2 / object U / map a b : U -> U / eliminate b / assume a^3 = b / claim b = a"), "",
        "10 # claim 1 not derivable rules 1 / basis 1 / claim 1 / rule - a a a + b / rest a a a - a / end",
    ),
    (
        "prove s", lines("language 2 / object U / map a b : U -> U / assume a^3 = b / claim b = a"), "",
        "10 # claim 1 not derivable rules 2 / basis 1 / claim 1 / rule a a a - b / rule b a - a b / rest b - a / end",
    ),
    (
        "prove s", lines("language 2 / object U / map a b : U -> U / eliminate b / assume b' = a^2 / claim b = a"), "",
        "10 # claim 1 not derivable rules 2 / basis 1 / claim 1 / rule - a a + b' / rule - a' a' + b / rest a' a' - a / end",
    ),
    (
        "prove s", lines("language 2 / object U / map p : U -> U self / map a : U -> U / eliminate p / assume p = a^2 / claim p = a"), "",
        (
            "10 # claim 1 not derivable rules 3 / basis 1 / claim 1 / rule - a a + p / rule a' a' - a a / rule a' a a - a a a' / "
            "rest a a - a / end"
        ),
    ),
    (
        "prove s", lines("language 2 / object U / map a b : U -> U / eliminate a / assume a = [U]^2 / claim a^4 = [U]"), "",
        (
            "0 # claim 1 proved denominator 1 rows 9 / certificate 2 / claim 1 / denominator 1 / lemma 1 scale 1 / row 1 () 1 () / "
            "row 1 () 2 () / goal scale 1 / row 1 () lemma 1 (a a a) / row 1 () 3 (a a) / row 1 () lemma 1 (a a) / row 1 () 3 (a) "
            "/ row 1 () lemma 1 (a) / row 1 () 3 () / row 1 () lemma 1 () / end"
        ),
    ),
    (
        "prove s --pairs 1 --no-models",
        lines("language 2 / object U / map a b : U -> U / eliminate a / assume b a b = a b a / claim a = b"), "",
        "12 # claim 1 undecided pairs 1 least a b a b b a",
    ),
    (
        "prove s", lines("language 2 / object U / map a b : U -> U / order weight b 3 / assume a^2 = b / claim b^3 = a^6"), "",
        (
            "0 # claim 1 proved denominator 1 rows 3 / certificate 2 / claim 1 / denominator 1 / goal scale 1 / row -1 () 1 (b b) "
            "/ row -1 (a a) 1 (b) / row -1 (a a a a) 1 () / end"
        ),
    ),
    (
        "prove s --format 1", lines("language 2 / object U / map a b : U -> U / eliminate b / assume b = a^2 / claim b^2 a = a^5"), "",
        "0 # claim 1 proved denominator 1 rows 2 / certificate 1 / claim 1 / denominator 1 / row 1 () 1 (b a) / row 1 (a a) 1 (a) / end",
    ),
    (
        "refute s", lines("language 2 / object U / map a b : U -> U / assume a^3 = [U] / claim a = [U] / model 7 U 1"), "",
        "11 # claim 1 refuted / model 1 / claim 1 / modulus 7 / side U 1 / map a = 2 / map b = 0 / end",
    ),
    (
        "prove s",
        lines("language 2 / object U V / map a : U -> V / map x : V -> U / pinv a x / claim (a x)^3 = a x / claim (x a)^2 x = x"), "",
        (
            "0 # claim 1 proved denominator 1 rows 2 / certificate 2 / claim 1 / denominator 1 / goal scale 1 / row 1 () 1 (x a x) "
            "/ row 1 () 1 (x) / end / # claim 2 proved denominator 1 rows 2 / certificate 2 / claim 2 / denominator 1 / goal scale "
            "1 / row 1 (x) 1 (x) / row 1 () 2 () / end"
        ),
    ),
]

ROWS: List[Row] = [*FIRST_LINES, *POWERS, *NUMBERS, *SIGNATURES, *ARITHMETIC, *ORDERS]

# The words, a statement of the second language, and one of the first to which the same is answered.
SAME: List[Tuple[str, str, str]] = [
    (
        "prove s",
        lines("language 2 / object U / map a b : U -> U / assume a^2 = b / claim b^2 = a^4"),
        lines("object U / map a b : U -> U / assume a a = b / claim b b = a a a a"),
    ),
    (
        "prove s",
        lines(
            "language 2 / object U / map a d b : U -> U / assume a d = d a / assume d a d = d / assume a^5 d = a^4 / "
            "assume a b = b a / claim d b = b d"
        ),
        lines(
            "object U / map a d b : U -> U / assume a d = d a / assume d a d = d / assume a a a a a d = a a a a / "
            "assume a b = b a / claim d b = b d"
        ),
    ),
    (
        "prove s",
        lines("language 2 / object U V / map a : U -> V / map x : V -> U / pinv a x / claim (a x)^2 = a x / claim (x a)'^2 = x a"),
        lines("object U V / map a : U -> V / map x : V -> U / pinv a x / claim a x a x = a x / claim (x a)' (x a)' = x a"),
    ),
    (
        "refute s",
        lines("language 2 / object U / map a b : U -> U / assume (a b)^2 = 0 / claim a^2 = 0 / model 2 U 2"),
        lines("object U / map a b : U -> U / assume a b a b = 0 / claim a a = 0 / model 2 U 2"),
    ),
    (
        "prove s",
        lines("language 2 / object U / map a b : U -> U / assume [U]^3 a - (a + b)^2 = 0 / claim a = b"),
        lines("object U / map a b : U -> U / assume [U] [U] [U] a - (a + b) (a + b) = 0 / claim a = b"),
    ),
    # where a lone order of elimination leaves each comparison as it was, so does it leave the report
    (
        "prove s",
        lines("language 2 / object U V / map a : U -> V / map x y : V -> U / pinv a x / pinv a y / claim x = y / eliminate a x y"),
        lines(
            "# The Moore-Penrose inverse is unique. / object U V / map a : U -> V / map x y : V -> U / pinv a x / pinv a y / "
            "claim x = y"
        ),
    ),
]
