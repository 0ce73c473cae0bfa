"""Texts of certificates and of proofs that cancel letters, for test_rows.py: what is read as another text is, and the first faults."""
from __future__ import annotations

from typing import List, Tuple

from row_parts import lines

# The statement over whose letters certificates are read, and the one for proofs that cancel letters.
CERTIFIED = lines("object U V / map a : U -> V / map l r : V -> U / map p : V -> V self / map жар_2 日 : U -> U / claim a = a")
CANCELLED = lines("object P Q R / map k : P -> Q / map m : Q -> R / map x y : P -> P / map h : P -> P self / claim x = y")

PROVED = lines("certificate 1 / claim 1 / denominator 1 / row 1 () 1 (r) / row -1 (l) 2 () / row 1 () 6 () / row -1 () 8 () / end")
LETTERS = lines("certificate 1 / claim 7 / denominator 0 / row 0 ([U] [V] a a' p) 4294967295 (жар_2 жар_2' 日) / end")
LARGE = lines(
    "certificate 1 / claim 0 / denominator 170141183460469231731687303715884105727 / "
    "row -170141183460469231731687303715884105727 () 0 () / end"
)
# A certificate without rows.
EMPTY = lines("certificate 1 / claim 1 / denominator 2 / end")
TWO = lines("certificate 1 / claim 1 / denominator 2 / end / certificate 1 / claim 1 / denominator 2 / end")
NAMED = lines(
    "certificate 2 / claim 1 / denominator 6 / lemma 1 scale 2 / row 1 (a) 1 () / row -1 () 2 (a') / lemma 2 scale 1 / "
    "row 3 () lemma 1 (r) / goal scale 3 / row 2 (l) lemma 2 () / row -1 () 4 (p) / end"
)
NO_LEMMA = lines("certificate 2 / claim 1 / denominator 1 / goal scale 1 / end")
# A lemma and a goal without rows, and a row over a lemma that isn't there.
EXTREMES = lines(
    "certificate 2 / claim 4294967295 / denominator 0 / lemma 1 scale 0 / lemma 2 scale 170141183460469231731687303715884105727 / "
    "row 0 () lemma 4294967295 () / goal scale 0 / end"
)
ONE = lines(
    "cancellation 1 / claim 1 / denominator 1 / monic m / monic k / lemma 1 scale 1 / row 1 () 1 () / cancel 2 m left 1 / "
    "cancel 3 k left 2 / goal scale 1 / row 1 () lemma 3 () / end"
)
BARE = lines("cancellation 1 / claim 0 / denominator 0 / goal scale 0 / end")

# Texts, each with one that is read as the same.
SAME_CERTIFICATES: List[Tuple[str, str]] = [
    (PROVED, PROVED),
    (LETTERS, LETTERS),
    (LARGE, LARGE),
    (EMPTY, EMPTY),
    (TWO, TWO),
    # no LF at the end, CR LF, tabs and blanks, tight brackets, leading zeros, comments and blank lines everywhere
    ("certificate 1\nclaim 1\ndenominator 2\nend", EMPTY),
    ("certificate 1\r\nclaim 1\r\ndenominator 2\r\nend\r\n", EMPTY),
    ("\tcertificate\t \t1 \n claim  1\ndenominator 2\t\nend ", EMPTY),
    ("certificate 1\nclaim 1\ndenominator 1\nrow 1()1(r)\nrow\t-1(\tl)2( )\nrow 01 ()006()\nrow -0001 () 8 ()\nend\n", PROVED),
    ("#\x01\n\ncertificate 1\n  # end\nclaim 01\n\t\ndenominator 002\n#\nend\n# \r#\n", EMPTY),
    # [V]' is [V], and p' is p
    (lines("certificate 1 / claim 7 / denominator 0 / row -0 ([U]' [V] a a' p') 4294967295 (жар_2 жар_2' 日) / end"), LETTERS),
    # blanks around letters, which are one token each, and CR LF in all lines but the last
    ("certificate 1\r\nclaim 7\r\n\r\ndenominator 0\r\nrow 0 ( [U] [V] a a' p ) 4294967295 ( жар_2 жар_2'\t日 )\r\nend", LETTERS),
    ("model\r\nend\r\n#\r\ncertificate 1\r\nclaim 1\ndenominator 2\r\nend\n# \r", EMPTY),
    # blocks of other kinds
    ("basis 1\nclaim 0x\nend 1\n # x\nrule certificate 1\nend\ncertificate 1\nclaim 1\ndenominator 2\nend\nmodel\nend\n", EMPTY),
    (
        lines(
            "certificate 1 / claim 1 / denominator 2 / end / basis = ) claim / certificate 1 / model 1 / end / certificate 1 / "
            "claim 1 / denominator 2 / end"
        ),
        TWO,
    ),
]

# The first fault of a text.
FAULTS: List[Tuple[str, str]] = [
    ("x", "K2 line 1"),
    ("# one\n\n\tcertificate 01\n", "K2 line 3"),
    (lines("certificate"), "K2 line 1"),
    (lines("certificate 1 1"), "K2 line 1"),
    (lines("Certificate 1"), "K2 line 1"),
    (lines("end"), "K2 line 1"),
    ("certificate 1\r", "K2 line 1"),
    ("certificate 1\r\r\n", "K2 line 1"),
    ("certificate 1\r\n\r\r\n", "K2 line 2"),
    ("certificate 1\nclaim 1\rdenominator 1\n", "K2 line 2"),
    ("certificate 1\nclaim 1\ndenominator 1\nend\r", "K2 line 4"),
    ("certificate 1\nclaim 1\ndenominator 1\nend 1", "K2 line 4"),
    (lines("certificate 1 / model 1 / end"), "K2 line 2"),
    (lines("certificate 1 / claim"), "K2 line 2"),
    (lines("certificate 1 / claim -1"), "K2 line 2"),
    (lines("certificate 1 / claim 1 1"), "K2 line 2"),
    (lines("certificate 1 / claim 4294967296"), "K4 line 2"),
    (lines("certificate 1 / claim 00004294967295 / x"), "K2 line 3"),
    (lines("certificate 1 / claim 1 / denominator"), "K2 line 3"),
    (lines("certificate 1 / claim 1 / denominator -1"), "K2 line 3"),
    (lines("certificate 1 / claim 1 / row 1 () 1 ()"), "K2 line 3"),
    (lines("certificate 1 / claim 1 / end"), "K2 line 3"),
    (lines("certificate 1 / claim 1 / denominator 170141183460469231731687303715884105728"), "K4 line 3"),
    (lines("certificate 1 / claim 1 / denominator 1 / end / end"), "K2 line 5"),
    ("certificate 1", "K6"),
    (lines("certificate 1 / claim 1 / denominator 1 / row 1 () 1 ()"), "K6"),
    (lines("certificate 1 / claim 1 / denominator 1 / end / model 1 / end 1"), "K6"),
    (lines("basis 1"), "K6"),
    ("basis\nend\r", "K6"),
    (lines("basis / end / model / end 1 / # end"), "K6"),
    # the first line of a block of another kind, and the line after it
    (lines("models 1 / end"), "K2 line 1"),
    (lines("basis 1 / end / Basis / end"), "K2 line 3"),
    ("model\n\nend\nend\n", "K2 line 4"),
    ("", "K7"),
    ("# claim 1 proved\n\n \t\n", "K7"),
    (lines("basis 1 / end / model 1 / end"), "K7"),
]

# A row of a certificate in its fourth line, and its least fault.
ROW_LINES: List[Tuple[str, str]] = [
    ("claim 1", "K2 line 4"),
    ("row", "K2 line 4"),
    ("row 1 1 ()", "K2 line 4"),
    ("row 1 () 1", "K2 line 4"),
    ("row 1 () 1 (", "K2 line 4"),
    ("row 1 () 1 ()()", "K2 line 4"),
    ("row 1 (() 1 ()", "K2 line 4"),
    ("row 1 (a;a) 1 ()", "K2 line 4"),
    ("row + () 1 ()", "K2 line 4"),
    ("row - () 1 ()", "K2 line 4"),
    ("row --1 () 1 ()", "K2 line 4"),
    ("row 1 () -1 ()", "K2 line 4"),
    ("row 1 ([U) 1 ()", "K2 line 4"),
    ("row 1 ([]) 1 ()", "K2 line 4"),
    ("row 1 ([ U ]) 1 ()", "K2 line 4"),
    ("row 1 (a '') 1 ()", "K2 line 4"),
    ("row 1 ( [ U ] ) 1 ()", "K2 line 4"),
    ("row 1 (a'') 1 ()", "K2 line 4"),
    ("row 1 (a''') 1 ()", "K2 line 4"),
    ("row 1 (') 1 ()", "K2 line 4"),
    ("row 1 () 1 ([U'])", "K2 line 4"),
    ("row 1 (2a) 1 ()", "K2 line 4"),
    ("row 1 (x 2a) 4294967296 ()", "K2 line 4"),
    ("row 1 (abcdefghijklmnopqrstuvwxyz_012345) 1 ()", "K2 line 4"),
    ("row 1 ([abcdefghijklmnopqrstuvwxyz_01234]') 1 ()", "K3 line 4"),
    ("row 1 (_) 1 ()", "K3 line 4"),
    ("row 1 (U) 1 ()", "K3 line 4"),
    ("row 1 () 1 (r [a])", "K3 line 4"),
    ("row 1 () 4294967296 (U')", "K3 line 4"),
    ("row 1 () 4294967296 ()", "K4 line 4"),
    ("row -170141183460469231731687303715884105728 () 1 ()", "K4 line 4"),
    ("row 1 () lemma 1 ()", "K2 line 4"),
    ("lemma 1 scale 1", "K2 line 4"),
    ("goal scale 1", "K2 line 4"),
    ("end 1", "K2 line 4"),
    ("end # end", "K2 line 4"),
]

# Texts, each with one that is read as the same.
SAME_LEMMAS: List[Tuple[str, str]] = [
    (NAMED, NAMED),
    (NO_LEMMA, NO_LEMMA),
    (EXTREMES, EXTREMES),
    # leading zeros, comments and blank lines, and no LF at the end
    ("certificate 2\nclaim 1\n\ndenominator 1\n# lemma 1\n\tgoal  scale 01\n#\nend", NO_LEMMA),
    (
        lines(
            "certificate 2 / claim 1 / denominator 6 / lemma 01 scale 002 / row 1(a)1() / row -01 () 02 (a') / lemma 2 scale 1 / "
            "row 3()lemma 001(r) / goal scale 3 / row 2 (l) lemma 2 () / row -1 () 4 (p) / end"
        ),
        NAMED,
    ),
    # after a block of another kind
    (lines("model 1 / certificate 2 / end / certificate 2 / claim 1 / denominator 1 / goal scale 1 / end"), NO_LEMMA),
    # after a certificate of format 1, and before one
    (
        lines(
            "certificate 1 / claim 1 / denominator 2 / end / certificate 2 / claim 1 / denominator 1 / goal scale 1 / end / "
            "certificate 1 / claim 1 / denominator 2 / end"
        ),
        lines(
            "certificate 1 / claim 1 / denominator 2 / end / certificate 2 / claim 1 / denominator 1 / goal scale 1 / end / "
            "certificate 1 / claim 1 / denominator 2 / end"
        ),
    ),
    # CR LF in all lines but the last, and blanks around letters
    (
        (
            "certificate 2\r\nclaim 1\r\ndenominator 6\r\nlemma 1 scale 2\r\nrow 1 ( a ) 1 ( )\r\nrow -1 () 2 ( a' )\r\n"
            "lemma 2 scale 1\r\nrow 3 () lemma 1 (r)\r\ngoal scale 3\r\nrow 2 (l) lemma 2 ()\r\nrow -1 () 4 (p')\r\nend"
        ),
        NAMED,
    ),
]

# Certificates with lemmas, and the first fault of some.
FAULTY_LEMMAS: List[Tuple[str, str]] = [
    (lines("certificate 02"), "K2 line 1"),
    (lines("certificate 2 / model 1"), "K2 line 2"),
    (lines("certificate 2 / claim x"), "K2 line 2"),
    (lines("certificate 2 / claim 4294967296"), "K4 line 2"),
    (lines("certificate 2 / claim 1 / lemma 1 scale 1"), "K2 line 3"),
    (lines("certificate 2 / claim 1 / denominator -1"), "K2 line 3"),
    (lines("certificate 2 / claim 1 / denominator 170141183460469231731687303715884105728"), "K4 line 3"),
    ("certificate 2\nclaim 1\ndenominator 1\ngoal scale 1\nend\r", "K2 line 5"),
    ("certificate 2\nclaim 1\ndenominator 1\ngoal scale 1\nend 2", "K2 line 5"),
    (lines("certificate 2 1"), "K2 line 1"),
    (lines("certificate 3"), "K2 line 1"),
    ("certificate 2", "K6"),
    (lines("certificate 2 / claim 1 / denominator 1"), "K6"),
    (lines("certificate 2 / claim 1 / denominator 1 / lemma 1 scale 1"), "K6"),
    (lines("certificate 2 / claim 1 / denominator 1 / goal scale 1"), "K6"),
]

# The fourth line of a certificate with lemmas, and further ones, and the least fault.
LEMMA_LINES: List[Tuple[str, str]] = [
    ("row 1 () 1 ()", "K2 line 4"),
    ("claim 1", "K2 line 4"),
    ("", "K2 line 5"),
    ("lemma 0 scale 1", "K2 line 4"),
    ("lemma 2 scale 1", "K2 line 4"),
    ("lemma x scale 1", "K2 line 4"),
    ("lemma 99999999999999999999999999999999999999999 scale 1", "K2 line 4"),
    ("lemma 1", "K2 line 4"),
    ("lemma 1 scale", "K2 line 4"),
    ("lemma 1 scale -1", "K2 line 4"),
    ("lemma 1 scale 1 1", "K2 line 4"),
    ("lemma 1 row 1", "K2 line 4"),
    ("lemma 1 scale 170141183460469231731687303715884105728", "K4 line 4"),
    ("lemma 1 scale 1", "K2 line 5"),
    ("lemma 1 scale 1\nlemma 1 scale 1", "K2 line 5"),
    ("lemma 1 scale 1\nrow 1 () 1 ()\nlemma 3 scale 1", "K2 line 6"),
    ("lemma 1 scale 1\nrow 1 () 1", "K2 line 5"),
    ("lemma 1 scale 1\nrows", "K2 line 5"),
    ("goal", "K2 line 4"),
    ("goal scale", "K2 line 4"),
    ("goal 1 scale 1", "K2 line 4"),
    ("goal scale 170141183460469231731687303715884105728", "K4 line 4"),
    ("goal scale 1\ngoal scale 1", "K2 line 5"),
    ("goal scale 1\nlemma 1 scale 1", "K2 line 5"),
    ("lemma 1 scale 1\nrow 1 () 1 ()", "K2 line 6"),
    ("lemma 1 scale 1\ngoal scale 1\nrow 1 () 1 ()\nlemma 2 scale 1", "K2 line 7"),
    ("goal scale 1\nrow 1 () 1 ()\ngoal scale 1", "K2 line 6"),
    ("goal scale 1\nrow 1 () 1 ( [ U ] )", "K2 line 5"),
    ("goal scale 1\nrow 1 () 1 (a''')", "K2 line 5"),
    ("lemma 1 scale 1\r", "K2 line 5"),
]

# A row of a goal in its fifth line, and its least fault.
GOAL_LINES: List[Tuple[str, str]] = [
    ("row 1 () lemma ()", "K2 line 5"),
    ("row 1 () lemma -1 ()", "K2 line 5"),
    ("row 1 () lemma lemma 1 ()", "K2 line 5"),
    ("row 1 () lemma 1", "K2 line 5"),
    ("row 1 lemma 1 () ()", "K2 line 5"),
    ("row 1 (x) lemma 4294967296 ()", "K3 line 5"),
    ("row 1 () lemma 4294967296 ()", "K4 line 5"),
    ("end\nend", "K2 line 6"),
]

# Texts, each with one that is read as the same.
SAME_CANCELLATIONS: List[Tuple[str, str]] = [
    (ONE, ONE),
    (BARE, BARE),
    # lines `epic` are written after all lines `monic`
    (
        lines("cancellation 1 / claim 1 / denominator 2 / epic x' / monic k / epic y / monic m / goal scale 2 / end"),
        lines("cancellation 1 / claim 1 / denominator 2 / monic k / monic m / epic x' / epic y / goal scale 2 / end"),
    ),
    # a letter is called both, and so is its adjoint; h' is h
    (
        lines("cancellation 1 / claim 1 / denominator 1 / monic m / monic m' / epic m / epic m' / epic h' / monic h / goal scale 1 / end"),
        lines("cancellation 1 / claim 1 / denominator 1 / monic m / monic m' / monic h / epic m / epic m' / epic h / goal scale 1 / end"),
    ),
    # items of both kinds, mixed
    (
        lines(
            "cancellation 1 / claim 4294967295 / denominator 6 / lemma 1 scale 2 / cancel 2 h' right 4294967295 / "
            "lemma 3 scale 3 / row -2 (x [P]) lemma 2 (y') / row 0 () 0 () / cancel 4 k' left 0 / cancel 5 h left 4 / "
            "goal scale 1 / row 1 () lemma 5 () / end"
        ),
        lines(
            "cancellation 1 / claim 4294967295 / denominator 6 / lemma 1 scale 2 / cancel 2 h right 4294967295 / lemma 3 scale 3 / "
            "row -2 (x [P]) lemma 2 (y') / row 0 () 0 () / cancel 4 k' left 0 / cancel 5 h left 4 / goal scale 1 / "
            "row 1 () lemma 5 () / end"
        ),
    ),
    # CR LF, a comment, tabs, blanks and leading zeros
    (
        (
            "cancellation 1\r\nclaim 1\r\ndenominator 1\r\n# monic\r\nmonic m\r\nmonic\tk\r\nlemma 01 scale 1\r\nrow 1()1()\r\n"
            "cancel 2  m left 1\r\ncancel 03 k left 02\r\ngoal scale 1\r\nrow 1 () lemma 3 ()\r\nend\r\n"
        ),
        ONE,
    ),
    # blocks of other kinds, in which anything may stand
    ("certificate 1\nmonic z\nend\nmodel\nend\ncancellation 1\nclaim 0\ndenominator 0\ngoal scale 0\nend\nbasis )\nend", BARE),
]

# The first fault of a text.
CANCEL_FAULTS: List[Tuple[str, str]] = [
    (lines("certificate 1 / end"), "K7"),
    ("cancellation 2", "K2 line 1"),
    ("cancellation 01", "K2 line 1"),
    ("chain 1\nend", "K2 line 1"),
    (lines("cancellation 1 / claim 1"), "K6"),
]

# Lines after the fourth one of a proof, and the first fault.
CANCEL_LINES: List[Tuple[str, str]] = [
    ("monic m", "K2 line 5"),
    ("monic [P]", "K2 line 5"),
    ("monic [P]'", "K2 line 5"),
    ("monic k''", "K2 line 5"),
    ("monic k m", "K2 line 5"),
    ("monic", "K2 line 5"),
    ("Monic k", "K2 line 5"),
    ("monic P", "K3 line 5"),
    ("epic z", "K3 line 5"),
    ("epic z\nepic z", "K3 line 5"),
    ("epic h\nmonic h'\nepic h'", "K2 line 7"),
    ("epic k\nepic k'\nepic k", "K2 line 7"),
    ("row 1 () 1 ()", "K2 line 5"),
    ("end", "K2 line 5"),
    ("cancel 1 m left 1\nend", "K2 line 6"),
    ("lemma 1 scale 1\nmonic k", "K2 line 6"),
    ("lemma 1 scale -1", "K2 line 5"),
    ("lemma 1 scale 170141183460469231731687303715884105728", "K4 line 5"),
    ("lemma 2 scale 1", "K2 line 5"),
    ("lemma 1 scale 1\ncancel 2 m left 1\nrow 1 () 1 ()", "K2 line 7"),
    ("lemma 1 scale 1\ncancel 2 m left 1\nmonic k", "K2 line 7"),
    ("lemma 1 scale 1\ncancel 2 m left 1\nlemma 2 scale 1", "K2 line 7"),
    ("cancel 2 m left 1", "K2 line 5"),
    ("cancel 4294967297 m left 1", "K2 line 5"),
    ("cancel 1 m LEFT 1", "K2 line 5"),
    ("cancel 1 m monic 1", "K2 line 5"),
    ("cancel 1 m left 1 1", "K2 line 5"),
    ("cancel 1 m left", "K2 line 5"),
    ("cancel 1 m left -1", "K2 line 5"),
    ("cancel 1 [P] left 1", "K2 line 5"),
    ("cancel 1 P left 1", "K3 line 5"),
    ("cancel 1 z left 4294967296", "K3 line 5"),
    ("cancel 1 m right 4294967296", "K4 line 5"),
    ("goal scale 1\ncancel 1 m left 1", "K2 line 6"),
    ("goal scale 1\ngoal scale 1", "K2 line 6"),
    ("goal scale 1\nmonic k", "K2 line 6"),
    ("goal scale 1\nrow 1 () lemma z ()", "K2 line 6"),
    ("goal scale 1\nrow 1 (z) lemma 1 ()", "K3 line 6"),
]

# The command, the statement, what is before and after each text, and the texts with their faults.
FAULTS_OF_TEXTS: List[Tuple[str, str, str, str, List[Tuple[str, str]]]] = [
    ("check", CERTIFIED, "", "", FAULTS),
    ("check", CERTIFIED, lines("certificate 1 / claim 1 / denominator 1"), "\nend\n", ROW_LINES),
    ("check", CERTIFIED, "", "", FAULTY_LEMMAS),
    ("check", CERTIFIED, lines("certificate 2 / claim 1 / denominator 1"), "\nend\n", LEMMA_LINES),
    ("check", CERTIFIED, lines("certificate 2 / claim 1 / denominator 1 / goal scale 1"), "\nend\n", GOAL_LINES),
    ("cancel", CANCELLED, "", "", CANCEL_FAULTS),
    ("cancel", CANCELLED, lines("cancellation 1 / claim 1 / denominator 1 / monic m"), "", CANCEL_LINES),
]
