"""Runs of `check` that were worked out by hand, for test_rows.py."""
from __future__ import annotations

from typing import List

from row_parts import Row, USAGE, lines, times

MAPS = lines("object U V / map a b c z : U -> V / assume a = b / assume b = c / assume a = c / claim a = c")
# Two one-sided inverses of one map are equal.
INVERSES = lines("object U V / map l : V -> U / map a : U -> V / map r : V -> U / assume l a = [U] / assume a r = [V] / claim l = r")
# Two Moore-Penrose inverses of one map are equal.
PSEUDOINVERSES = lines("object U V / map a : U -> V / map x y : V -> U / pinv a x / pinv a y / claim x = y")
ACCEPTED = lines("certificate 1 / claim 1 / denominator 1 / row 1 () 3 () / end")
# A statement and its certificate, which is accepted.
SOUND = (MAPS, ACCEPTED)
DOUBLED = lines("object U / map a : U -> U / assume 2 a = 0 / claim a = 0")
TWICE = lines("object U / map a b : U -> U / claim 2 a = b")
# A generator of 27^3 = 19,683 terms.
LARGE = lines(
    "object U / map a b c d e f g h i j k l m n o p q r s t u v w x y z A : U -> U / assume (a + b + c + d + e + f + g + h + i + j "
    "+ k + l + m + n + o + p + q + r + s + t + u + v + w + x + y + z + A)((a + b + c + d + e + f + g + h + i + j + k + l + m + n + "
    "o + p + q + r + s + t + u + v + w + x + y + z + A)(a + b + c + d + e + f + g + h + i + j + k + l + m + n + o + p + q + r + s "
    "+ t + u + v + w + x + y + z + A)) = 0 / claim a = 0"
)

# Evidence that is judged.
JUDGED: List[Row] = [
    (
        "check s c", MAPS, lines("certificate 1 / claim 1 / denominator 2 / row 2 () 1 () / row 2 () 2 () / end"),
        "0 # block 1 accepted claim 1 denominator 2",
    ),
    (
        "check s c", MAPS, lines("certificate 1 / claim 1 / denominator 1 / row 1 () 3 () / row 1 (z a) 1 (b c) / end"),
        "7 # block 1 refused C6 word z a a b c want 0 got 1",
    ),
    (
        "check s c", MAPS,
        lines("certificate 1 / claim 1 / denominator 1 / row 170141183460469231731687303715884105727 () 3 () / row 1 () 1 () / end"),
        "7 # block 1 refused C4 row 2 170141183460469231731687303715884105727 plus 1",
    ),
    ("check s c", MAPS, lines("certificate 1 / claim 1 / denominator 1 / row 1 () 4 () / end"), "7 # block 1 refused C2 row 1"),
    ("check s c", MAPS, "", "7 # refused K7"),
    ("check s c", MAPS, lines("basis 1 / end"), "7 # refused K7"),
    ("check s c", INVERSES, lines("certificate 1 / claim 1 / denominator 1 / row 1 () 1 (q) / end"), "7 # refused K3 line 4"),
    (
        "check s c", INVERSES,
        (
            "# two blocks\r\ncertificate 1\r\n claim\t1\r\ndenominator 01\r\nrow 1()1(r)\r\n\r\nrow -1(l)2()\r\n# between rows\r\n"
            "row 1 ( ) 6 ( )\r\nrow -1 () 8 ()\r\nend\r\nbasis 1\nclaim 1\nrule l a - [U]\nrest r\nend\ncertificate 1\nclaim 1\n"
            "denominator 2\nrow -1 () 1 (r)\nrow 1 (l) 2 ()\nrow -1 () 6 ()\nrow 1 () 8 ()\nend\n"
        ),
        "7 # block 1 accepted claim 1 denominator 1 / # block 2 refused C6 word l want 2 got -1",
    ),
    (
        "check s c", INVERSES,
        lines(
            "certificate 1 / claim 1 / denominator 1 / row 1 () 1 (r) / row -1 (l) 2 () / row 1 () 6 () / row -1 () 8 () / end / "
            "certificate 1 / claim 1 / denominator 3 / row 3 () 1 (r) / row -3 (l) 2 () / row 3 () 6 () / row -3 () 8 () / end"
        ),
        "0 # block 1 accepted claim 1 denominator 1 / # block 2 accepted claim 1 denominator 3",
    ),
    (
        "check s c", PSEUDOINVERSES, lines("certificate 1 / claim 1 / denominator 1 / row 1 () 12 () / end"),
        "7 # block 1 refused C6 word x want 1 got 0",
    ),
    ("check s c", MAPS, "\udcff", "7 # refused K1"),
]

# Statements that are refused.
REFUSED: List[Row] = [
    ("check s c", lines("object U"), "", "3 # refused S15"),
    (
        "check s c", lines("object U V / map a : U -> V / map b : V -> U / claim a + b = a"), "",
        "3 # refused S11 line 4 column 11 left U -> V right V -> U",
    ),
    (
        "check s c", lines("object U / map a : U -> U / claim 170141183460469231731687303715884105727 a + a = a"), "",
        "3 # refused S13 line 3 column 1",
    ),
    ("check s c", lines("object U / map a : U -> U / claim a = (((b))"), "", "3 # refused S3 line 3 column 17"),
    ("check s c", lines("object U / map a : U -> U / claim a = b"), "", "3 # refused S6 line 3 column 11"),
    ("check s c", lines("object U / object U / claim a = a"), "", "3 # refused S7 line 2 column 8"),
    ("check s c", lines("object U / map a : U -> U / claim a = a / model 4 U 1"), "", "3 # refused S16 line 4 column 7"),
    (
        "check s c",
        lines(
            "object a b c d e f g h i j k l m n o p q r s t u v w x y z A B C D E F G H I J K L M N O P Q R S T U V W X Y Z aa ab "
            "ac ad ae af ag ah ai aj ak al am"
        ),
        "", "3 # refused S8 line 1 column 148 limit 64",
    ),
    ("check s c", "object \udcff\n", "", "3 # refused S1 byte 7"),
]

# Other words, and files that aren't there.
CALLS: List[Row] = [
    ("check s -c", SOUND[0], SOUND[1], USAGE),
    ("check s", SOUND[0], SOUND[1], USAGE),
    ("model s", SOUND[0], SOUND[1], USAGE),
    ("model s g", SOUND[0], SOUND[1], "4 # load failed g"),
    ("prove s c", SOUND[0], SOUND[1], USAGE),
    ("check s c c", SOUND[0], SOUND[1], USAGE),
]

# Evidence that is accepted, and evidence that is refused by each test that a short text fails.
LEMMAS: List[Row] = [
    (
        "check s c", DOUBLED, lines("certificate 2 / claim 1 / denominator 2 / goal scale 2 / row 1 () 1 () / end"),
        "0 # block 1 accepted claim 1 denominator 2",
    ),
    (
        "check s c", DOUBLED,
        lines(
            "certificate 2 / claim 1 / denominator 6 / lemma 1 scale 2 / row -1 () 1 () / lemma 2 scale 1 / row 3 () lemma 1 () / "
            "goal scale 3 / row -1 () lemma 2 () / end"
        ),
        "0 # block 1 accepted claim 1 denominator 6",
    ),
    # lemmas that are not typed cancel
    (
        "check s c", MAPS,
        lines(
            "certificate 2 / claim 1 / denominator 1 / lemma 1 scale 1 / row 1 (z) 1 () / lemma 2 scale 1 / row 1 (z) 2 () / "
            "lemma 3 scale 1 / row 1 (z) 3 () / goal scale 1 / row 1 () lemma 1 () / row 1 () lemma 2 () / row -1 () lemma 3 () / "
            "row 1 () 3 () / end"
        ),
        "0 # block 1 accepted claim 1 denominator 1",
    ),
    # both formats, and a block that is skipped
    (
        "check s c", DOUBLED,
        lines(
            "certificate 1 / claim 1 / denominator 2 / row 1 () 1 () / end / basis 1 / claim 1 / rule a / rest 0 / end / "
            "certificate 2 / claim 1 / denominator 2 / lemma 1 scale 2 / row 1 () 1 () / goal scale 1 / row 1 () lemma 1 () / "
            "end / certificate 1 / claim 1 / denominator 4 / row 2 () 1 () / end"
        ),
        "0 # block 1 accepted claim 1 denominator 2 / # block 2 accepted claim 1 denominator 2 / # block 3 accepted claim 1 denominator 4",
    ),
    ("check s c", DOUBLED, lines("certificate 2 / claim 2 / denominator 0 / goal scale 1 / end"), "7 # block 1 refused C1"),
    ("check s c", DOUBLED, lines("certificate 2 / claim 1 / denominator 0 / goal scale 1 / end"), "7 # block 1 refused C3"),
    (
        "check s c", DOUBLED, lines("certificate 2 / claim 1 / denominator 1 / lemma 1 scale 0 / row 1 () 1 () / goal scale 1 / end"),
        "7 # block 1 refused C3",
    ),
    (
        "check s c", DOUBLED, lines("certificate 2 / claim 1 / denominator 1 / lemma 1 scale 2 / row 1 () 1 () / goal scale 0 / end"),
        "7 # block 1 refused C3",
    ),
    (
        "check s c", DOUBLED, lines("certificate 2 / claim 1 / denominator 1 / goal scale 2 / row 1 () 1 () / end"),
        "7 # block 1 refused C10 lemma 0",
    ),
    (
        "check s c", MAPS,
        lines(
            "certificate 2 / claim 1 / denominator 2 / lemma 1 scale 1 / row 1 () 1 () / lemma 2 scale 2 / row 2 (z) lemma 1 () / "
            "row -1 (z a) 2 () / goal scale 1 / end"
        ),
        "7 # block 1 refused C8 lemma 2 word z a b got -1",
    ),
    # a lemma is over the ones before it
    (
        "check s c", DOUBLED,
        lines("certificate 2 / claim 1 / denominator 1 / lemma 1 scale 1 / row 1 () 1 () / row 1 () lemma 1 () / goal scale 1 / end"),
        "7 # block 1 refused C7 row 2",
    ),
    (
        "check s c", DOUBLED,
        lines("certificate 2 / claim 1 / denominator 1 / lemma 1 scale 1 / row 1 () 1 () / goal scale 1 / row 1 () lemma 0 () / end"),
        "7 # block 1 refused C7 row 2",
    ),
    (
        "check s c", DOUBLED, lines("certificate 2 / claim 1 / denominator 1 / lemma 1 scale 1 / row 1 () 2 () / goal scale 1 / end"),
        "7 # block 1 refused C2 row 1",
    ),
    (
        "check s c", DOUBLED,
        lines("certificate 2 / claim 1 / denominator 1 / lemma 1 scale 1 / row 1 () 1 () / goal scale 1 / row 1 () 0 () / end"),
        "7 # block 1 refused C2 row 2",
    ),
    # the goal's scale times the claim, a lemma, and the goal
    (
        "check s c", TWICE,
        lines(
            "certificate 2 / claim 1 / denominator 170141183460469231731687303715884105727 / "
            "goal scale 170141183460469231731687303715884105727 / end"
        ),
        "7 # block 1 refused C4 row 0 170141183460469231731687303715884105727 times 2",
    ),
    (
        "check s c", DOUBLED,
        lines(
            "certificate 2 / claim 1 / denominator 1 / lemma 1 scale 1 / row 170141183460469231731687303715884105727 () 1 () / "
            "goal scale 1 / end"
        ),
        "7 # block 1 refused C4 row 1 170141183460469231731687303715884105727 times 2",
    ),
    (
        "check s c", MAPS,
        lines(
            "certificate 2 / claim 1 / denominator 1 / lemma 1 scale 1 / row 170141183460469231731687303715884105727 () 3 () / "
            "row 1 () 1 () / goal scale 1 / end"
        ),
        "7 # block 1 refused C4 row 2 170141183460469231731687303715884105727 plus 1",
    ),
    (
        "check s c", DOUBLED,
        lines(
            "certificate 2 / claim 1 / denominator 1 / lemma 1 scale 1 / row 2 () 1 () / goal scale 1 / "
            "row -170141183460469231731687303715884105727 () lemma 1 () / end"
        ),
        "7 # block 1 refused C4 row 2 -170141183460469231731687303715884105727 times 4",
    ),
    (
        "check s c", MAPS,
        lines(
            "certificate 2 / claim 1 / denominator 1 / lemma 1 scale 1 / row 1 () 3 () / goal scale 1 / "
            "row 170141183460469231731687303715884105727 () lemma 1 () / row 1 () 1 () / end"
        ),
        "7 # block 1 refused C4 row 3 170141183460469231731687303715884105727 plus 1",
    ),
    (
        "check s c", DOUBLED, lines("certificate 2 / claim 1 / denominator 2 / lemma 1 scale 2 / row 1 () 1 () / goal scale 1 / end"),
        "7 # block 1 refused C6 word a want 1 got 0",
    ),
    (
        "check s c", MAPS,
        lines(
            "certificate 2 / claim 1 / denominator 1 / lemma 1 scale 1 / row 1 (z) 1 () / goal scale 1 / row 1 () 3 () / "
            "row 2 () lemma 1 (c) / end"
        ),
        "7 # block 1 refused C6 word z a c want 0 got 2",
    ),
    # of two formats the first that is refused is the last of the report
    (
        "check s c", DOUBLED,
        lines(
            "certificate 2 / claim 1 / denominator 2 / goal scale 2 / row 1 () 1 () / end / certificate 1 / claim 1 / "
            "denominator 1 / row 1 () 1 () / end / certificate 2 / claim 1 / denominator 2 / goal scale 2 / row 1 () 1 () / end"
        ),
        "7 # block 1 accepted claim 1 denominator 2 / # block 2 refused C6 word a want 1 got 2",
    ),
    # 51 lemmas of 19,683 terms, and a sum of eleven times as many
    (
        "check s c", LARGE,
        lines(
            "certificate 2 / claim 1 / denominator 1 / lemma 1 scale 1 / row 1 () 1 () / lemma 2 scale 1 / row 1 () 1 () / "
            "lemma 3 scale 1 / row 1 () 1 () / lemma 4 scale 1 / row 1 () 1 () / lemma 5 scale 1 / row 1 () 1 () / "
            "lemma 6 scale 1 / row 1 () 1 () / lemma 7 scale 1 / row 1 () 1 () / lemma 8 scale 1 / row 1 () 1 () / "
            "lemma 9 scale 1 / row 1 () 1 () / lemma 10 scale 1 / row 1 () 1 () / lemma 11 scale 1 / row 1 () 1 () / "
            "lemma 12 scale 1 / row 1 () 1 () / lemma 13 scale 1 / row 1 () 1 () / lemma 14 scale 1 / row 1 () 1 () / "
            "lemma 15 scale 1 / row 1 () 1 () / lemma 16 scale 1 / row 1 () 1 () / lemma 17 scale 1 / row 1 () 1 () / "
            "lemma 18 scale 1 / row 1 () 1 () / lemma 19 scale 1 / row 1 () 1 () / lemma 20 scale 1 / row 1 () 1 () / "
            "lemma 21 scale 1 / row 1 () 1 () / lemma 22 scale 1 / row 1 () 1 () / lemma 23 scale 1 / row 1 () 1 () / "
            "lemma 24 scale 1 / row 1 () 1 () / lemma 25 scale 1 / row 1 () 1 () / lemma 26 scale 1 / row 1 () 1 () / "
            "lemma 27 scale 1 / row 1 () 1 () / lemma 28 scale 1 / row 1 () 1 () / lemma 29 scale 1 / row 1 () 1 () / "
            "lemma 30 scale 1 / row 1 () 1 () / lemma 31 scale 1 / row 1 () 1 () / lemma 32 scale 1 / row 1 () 1 () / "
            "lemma 33 scale 1 / row 1 () 1 () / lemma 34 scale 1 / row 1 () 1 () / lemma 35 scale 1 / row 1 () 1 () / "
            "lemma 36 scale 1 / row 1 () 1 () / lemma 37 scale 1 / row 1 () 1 () / lemma 38 scale 1 / row 1 () 1 () / "
            "lemma 39 scale 1 / row 1 () 1 () / lemma 40 scale 1 / row 1 () 1 () / lemma 41 scale 1 / row 1 () 1 () / "
            "lemma 42 scale 1 / row 1 () 1 () / lemma 43 scale 1 / row 1 () 1 () / lemma 44 scale 1 / row 1 () 1 () / "
            "lemma 45 scale 1 / row 1 () 1 () / lemma 46 scale 1 / row 1 () 1 () / lemma 47 scale 1 / row 1 () 1 () / "
            "lemma 48 scale 1 / row 1 () 1 () / lemma 49 scale 1 / row 1 () 1 () / lemma 50 scale 1 / row 1 () 1 () / "
            "lemma 51 scale 1 / row 1 () 1 () / goal scale 1 / end"
        ),
        "7 # block 1 refused C11 row 51 limit 1000000",
    ),
    (
        "check s c", LARGE,
        lines(
            "certificate 2 / claim 1 / denominator 1 / lemma 1 scale 1 / row 1 () 1 () / row 1 (a) 1 () / row 1 (a a) 1 () / "
            "row 1 (a a a) 1 () / row 1 (a a a a) 1 () / row 1 (a a a a a) 1 () / row 1 (a a a a a a) 1 () / "
            "row 1 (a a a a a a a) 1 () / row 1 (a a a a a a a a) 1 () / row 1 (a a a a a a a a a) 1 () / "
            "row 1 (a a a a a a a a a a) 1 () / row 1 (a a a a a a a a a a a) 1 () / goal scale 1 / end"
        ),
        "7 # block 1 refused C5 row 11 limit 200000",
    ),
]

# Certificates that are judged over files of the second language.
CERTIFICATES: List[Row] = [
    (
        "check s c", lines("language 2 / object U / map a b : U -> U / assume a^2 = b / claim b = a^2"),
        lines("certificate 1 / claim 1 / denominator 1 / row 1 () 2 () / end"), "7 # block 1 refused C2 row 1",
    ),
    (
        "check s c", lines("language 2 / object U / map a b : U -> U / assume a^2 = b / claim b' = a'^2"),
        lines("certificate 1 / claim 1 / denominator 1 / row -1 () 2 () / end"), "0 # block 1 accepted claim 1 denominator 1",
    ),
]

ROWS: List[Row] = [*JUDGED, *REFUSED, *CALLS, *LEMMAS, *CERTIFICATES]
