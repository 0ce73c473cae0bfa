"""Statements that were worked out by hand, for test_rows.py: their first faults as the program refuses them, and their generators."""
from __future__ import annotations

from typing import List, Tuple

from row_parts import lines

# Names, literals and counts.
NAMES: List[Tuple[str, str]] = [
    (lines("claim a = a"), "S6 line 1 column 7"),
    (lines("object U / map a : U -> V / claim a = a"), "S6 line 2 column 14"),
    (lines("object U / map a : U -> U / claim a = a U"), "S6 line 3 column 13"),
    (lines("object U / map a : U -> U / claim a = [a]"), "S6 line 3 column 12"),
    (lines("object U / map a : U -> U / pinv a x"), "S6 line 3 column 8"),
    (lines("object U / map a : U -> U / projection U"), "S6 line 3 column 12"),
    (lines("solve a"), "S6 line 1 column 7"),
    (lines("order weight a 2"), "S6 line 1 column 14"),
    (lines("model 2 U 1"), "S6 line 1 column 9"),
    (lines("object U U"), "S7 line 1 column 10"),
    (lines("object U / map a U : U -> U"), "S7 line 2 column 7"),
    (lines("map a : U -> U / object U a"), "S7 line 2 column 10"),
    ("order degree\n\norder degree\n", "S7 line 3 column 1"),
    (lines("object U / map a : U -> U / solve a a"), "S7 line 3 column 9"),
    (lines("object U / map a : U -> U / order weight a 1 a 2"), "S7 line 3 column 18"),
    (lines("object U / model 2 U 1 U 2"), "S7 line 2 column 13"),
    (lines("object U V / map p : U -> V self / claim p = p"), "S9 line 2 column 5"),
    (lines("object U / map p : U -> W self"), "S6 line 2 column 14"),
    (lines("object U / map a : U -> U / order weight a 0"), "S16 line 3 column 16"),
    (lines("object U / map a : U -> U / order weight a 1001"), "S16 line 3 column 16"),
    (lines("model 4"), "S16 line 1 column 7"),
    (lines("object U / model 3 U 0"), "S16 line 2 column 11"),
    (lines("object U / model 3 U 7"), "S16 line 2 column 11"),
    (lines("object U V / map a : U -> V / claim a a = a / solve b"), "S6 line 4 column 7"),
]

# Names and numbers.
NUMBERS: List[Tuple[str, str]] = [
    (
        lines("object U V / map a : U -> V / map x : V -> U / pinv a x / inverse a x / inner x a / projection x"),
        "S10 line 7 column 1 left V -> U right V -> U",
    ),
    (lines("object U / map a : U -> U / claim a b = a"), "S6 line 3 column 9"),
    (lines("object U / map a : U -> U / claim a = 2 (a - [W])' a"), "S6 line 3 column 19"),
    (lines("object U / map a : U -> U / claim U = a"), "S6 line 3 column 7"),
    (lines("object U / map a : U -> U / claim [a] = a"), "S6 line 3 column 8"),
    (lines("object U / map a : U -> W"), "S6 line 2 column 14"),
    (lines("object U / map a : W -> U"), "S6 line 2 column 9"),
    (lines("object U / map a : U -> a"), "S6 line 2 column 14"),
    (lines("object U / map a : U -> U / inverse b a"), "S6 line 3 column 9"),
    (lines("object U / map a : U -> U / inner a U"), "S6 line 3 column 9"),
    (lines("object U / projection U"), "S6 line 2 column 12"),
    (lines("object U / map a : U -> U / solve a U"), "S6 line 3 column 9"),
    (lines("object U / order weight U 2"), "S6 line 2 column 14"),
    (lines("model 2 W 1"), "S6 line 1 column 9"),
    (lines("object V / map a : U -> V / map U : V -> V / object U"), "S6 line 2 column 9"),
    (lines("object U / map U : U -> U"), "S7 line 2 column 5"),
    (lines("map a a : U -> U / object U"), "S7 line 1 column 7"),
    (lines("map U : V -> V / object U V / claim U = U"), "S7 line 2 column 8"),
    (lines("object U V / map U : U -> V self"), "S7 line 2 column 5"),
    (lines("order degree / order degree"), "S7 line 2 column 1"),
    ("object U\nmap a : U -> U\norder weight a 2\n  order degree\n", "S7 line 4 column 3"),
    (lines("object U / map a : U -> U / order weight a 2 a 3"), "S7 line 3 column 18"),
    (lines("object U / map a : U -> U / solve a / solve a"), "S15"),
    (lines("object U / model 2 U 1 / model 2 U 1"), "S15"),
    (lines("object U V / map p q : V -> U self / claim p = p"), "S9 line 2 column 5"),
    (lines("object U / map p : U -> p self"), "S6 line 2 column 14"),
    (lines("object U / map a b : U -> U / order weight a 1 b 1000"), "S15"),
    (lines("object U / map a : U -> U / order weight a 170141183460469231731687303715884105727"), "S16 line 3 column 16"),
    (lines("model 0 W 9"), "S16 line 1 column 7"),
    (lines("model 2 / model 3 / model 5 / model 7 / model 101 / model 32003 / model 65537"), "S15"),
    (lines("object U / model 2 U 0"), "S16 line 2 column 11"),
    (lines("object U V / model 2 V 6 U 7"), "S16 line 2 column 15"),
    (lines("object U / model 2 U 9 U 1"), "S16 line 2 column 11"),
    (lines("claim 0 = [U] / object U U"), "S7 line 2 column 10"),
    (lines("claim x = x / object U U"), "S6 line 1 column 7"),
]

# Signatures.
SIGNATURES: List[Tuple[str, str]] = [
    (lines("object U V / map a b : U -> V / claim a b = a"), "S10 line 3 column 9 left U -> V right U -> V"),
    (lines("object U V / map a : U -> V / claim a' a' = a"), "S10 line 3 column 10 left V -> U right V -> U"),
    (lines("object U V / map a x : U -> V / claim a x (x x) = a"), "S10 line 3 column 14 left U -> V right U -> V"),
    (lines("object U V / map a : U -> V / assume 0 = 2 a [U] / claim a = (a + [V] a) a"), "S10 line 4 column 23 left U -> V right U -> V"),
    (lines("object U V W / map a : U -> V / map b : V -> W / claim a b = a"), "S10 line 4 column 9 left U -> V right V -> W"),
    (lines("object U V / map a : U -> V / claim a a = a / assume a a a = a"), "S10 line 3 column 9 left U -> V right U -> V"),
    ("object U V\nmap a : U -> V\nclaim a = a\n  pinv a a\n", "S10 line 4 column 3 left U -> V right U -> V"),
    (lines("object U V / map a x : U -> V / inner a x"), "S10 line 3 column 1 left U -> V right U -> V"),
    (lines("object U V / map p : U -> V / projection p"), "S10 line 3 column 1 left U -> V right U -> V"),
    (lines("object U V W / map a : U -> V / map x : W -> U / inverse a x"), "S11 line 4 column 1 left W -> V right V -> V"),
    (lines("object U V / map a : U -> V / claim a = a'"), "S11 line 3 column 11 left U -> V right V -> U"),
    (lines("object U V / map a : U -> V / claim a - a' = a"), "S11 line 3 column 11 left U -> V right V -> U"),
    (lines("object U V / map a : U -> V / claim (0 + a - 0 + 2 a') = - a"), "S11 line 3 column 20 left U -> V right V -> U"),
    (lines("object U V / map a : U -> V / claim a = - a'"), "S11 line 3 column 11 left U -> V right V -> U"),
    (lines("object U / map a : U -> U / assume 0 = 0 / claim a = a"), "S12 line 3 column 8"),
    (lines("object U / map a : U -> U / claim a (0 + 0)' = a"), "S12 line 3 column 9"),
    (lines("object U / map a : U -> U / claim (0) a = a"), "S12 line 3 column 7"),
    (lines("object U / map a : U -> U / claim - 0 = (0)"), "S12 line 3 column 7"),
]

# Arithmetic, and claims that are missing.
ARITHMETIC: List[Tuple[str, str]] = [
    (
        lines(
            "object U / map a : U -> U / "
            "claim 170141183460469231731687303715884105727 a + 170141183460469231731687303715884105727 a = a"
        ),
        "S13 line 3 column 1",
    ),
    ("object U\nmap a : U -> U\n  assume a = - 170141183460469231731687303715884105727 a\nclaim a = a\n", "S13 line 3 column 3"),
    (lines("object U / map a : U -> U / claim 100000000000000000000 (100000000000000000000 a) = a"), "S13 line 3 column 1"),
    (lines("object U / map a : U -> U / claim a = - 170141183460469231731687303715884105727 a / claim a (0) = a"), "S12 line 4 column 9"),
    (
        lines(
            "object U / map a b : U -> U / claim (a + b) ((a + b) ((a + b) ((a + b) ((a + b) ((a + b) ((a + b) ((a + b) ((a + b) "
            "((a + b) ((a + b) ((a + b) ((a + b) ((a + b) (a + b)))))))))))))) = a"
        ),
        "S14 line 3 column 1",
    ),
    ("\n", "S15"),
    (lines("object U / map a : U -> U"), "S15"),
    (lines("object U / map a : U -> U / assume a = 0"), "S15"),
    (lines("object U / map a : U -> U / assume a = - 170141183460469231731687303715884105727 a"), "S13 line 3 column 1"),
]

# Files whose declarations come late, and files without a fault.
LATE: List[Tuple[str, str]] = [
    (lines("claim a = a / map a : U -> V self / object U V"), "S9 line 2 column 5"),
]

# Statements without a fault.
READ: List[str] = [
    lines("object U / map a : U -> U / claim a = 0"),
    lines("claim a = [U] / map a : U -> U / object U"),
    lines("object object / map self : object -> object self / claim self = self"),
    lines("object U / map a : U -> U / claim 2 (0)' = a"),
    lines("object U / map a : U -> U / claim 170141183460469231731687303715884105727 a = 170141183460469231731687303715884105727 a"),
    lines("claim a = a / map a : U -> V / object U V"),
    lines("object U / map a : U -> U self / claim a = a'"),
    lines("object U V / map a : U -> V / map x : V -> U / pinv a x / claim (a x)' = a x"),
    lines("object U V / map a : U -> V / map x : V -> U / inverse a x / claim a x - [V] = 0"),
    lines("object U V / map a : U -> V / map x : V -> U / inner a x / claim 0 = a x a - a"),
    lines("object U / map p q : U -> U / projection p / solve p q / claim p' = p"),
    lines("object U / map a b : U -> U / order weight a 1000 b 1 / claim a = b"),
    lines("object U V / map a : U -> V / model 65537 U 6 V 1 / model 2 / claim a = 0"),
    lines("object U / claim [U] = [U]"),
    lines("object U / claim [U] = 0 # no map"),
]

# Statements, each with its generators in their order.
GENERATORS: List[Tuple[str, List[str]]] = [
    (
        lines("object U / map a : U -> U / assume a a = a / claim a' = [U]"),
        ["a a - a", "a' a' - a'", "[U] [U] - [U]", "[U] a - a", "a [U] - a", "[U] a' - a'", "a' [U] - a'"],
    ),
    (lines("object U V / map a : U -> V / map x : V -> U / inner a x / claim 2 a x = a x"), ["a x a - a"]),
    (lines("object U / map p : U -> U / projection p / claim p' = p"), ["p p - p", "p' - p", "p' p' - p'"]),
]

FAULTS: List[Tuple[str, str]] = [*NAMES, *NUMBERS, *SIGNATURES, *ARITHMETIC, *LATE]
