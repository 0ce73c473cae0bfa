"""Runs of `model` that were worked out by hand, for test_rows.py."""
from __future__ import annotations

from typing import List

from row_parts import Row, lines, numbers

MAPS = lines("object U V / map p : U -> U self / map a : U -> V / claim a = 0")
ONE_SIDED = lines("object U V / map a : U -> V / map b : V -> U / assume a b = [V] / claim b a = [U] / model 2 U 2 V 1")
SELF = lines("model 1 / claim 1 / modulus 3 / side U 2 / side V 1 / map p = 0 1 ; 1 0 / map a = 1 0 / end")
CONFIRMED = lines("0 # block 1 confirmed claim 1")

# Models that are confirmed, with and without blanks, comments and blocks of other kinds, and models that are refused by each test.
MODELS: List[Row] = [
    # an object without a line has side 1, where a right inverse is a left inverse
    ("model s c", ONE_SIDED, lines("model 1 / claim 1 / modulus 2 / map a = 1 / map b = 1 / end"), "7 # block 1 refused M5"),
    # a model over integers modulo a number that is no prime, and one over a large prime
    ("model s c", ONE_SIDED, lines("model 1 / claim 1 / modulus 4 / side U 2 / side V 1 / map a = 3 2 / map b = 3 ; 0 / end"), CONFIRMED),
    (
        "model s c", ONE_SIDED,
        lines("model 1 / claim 1 / modulus 2147483647 / side U 2 / side V 1 / map a = 2147483646 0 / map b = 2147483646 ; 5 / end"),
        CONFIRMED,
    ),
    # a matrix of 64 columns
    (
        "model s c", ONE_SIDED,
        lines(
            "model 1 / claim 1 / modulus 2 / side U 64 / map a = 1 1 1 1 1 1 1 1 1 1 1 1 1 1 1 1 1 1 1 1 1 1 1 1 1 1 1 1 1 1 1 1 1 "
            "1 1 1 1 1 1 1 1 1 1 1 1 1 1 1 1 1 1 1 1 1 1 1 1 1 1 1 1 1 1 1 / end"
        ),
        "7 # block 1 refused M2 map b",
    ),
    (
        "model s c", MAPS, lines("model 1 / claim 2 / modulus 3 / side U 2 / side V 1 / map p = 0 1 ; 1 0 / map a = 1 0 / end"),
        "7 # block 1 refused M1",
    ),
    ("model s c", MAPS, lines("model 1 / claim 0 / modulus 3 / end"), "7 # block 1 refused M1"),
    ("model s c", MAPS, lines("model 1 / claim 4294967295 / modulus 3 / end"), "7 # block 1 refused M1"),
    # the first map that fails is told, and the tests of one map come before those of the next
    ("model s c", MAPS, lines("model 1 / claim 1 / modulus 3 / side U 2 / map a = 1 / end"), "7 # block 1 refused M2 map p"),
    ("model s c", MAPS, lines("model 1 / claim 1 / modulus 3 / side U 64 / map p = 1 / end"), "7 # block 1 refused M3 map p"),
    # lines in another order, blanks, tabs, comments, CR LF, leading zeros, no LF at the end
    (
        "model s c", MAPS, "# a model\n\n model\t1 \r\nclaim 01\nmodulus 003\nmap a=1 0\nside V 01\n#\nmap  p = 0 1;1 0\nside U 2\r\nend",
        CONFIRMED,
    ),
    # blocks of other kinds are skipped, and blocks are judged up to the first that is refused
    (
        "model s c", MAPS,
        lines(
            "certificate 1 / claim 1 / this is no line / end / basis 1 / end / model 1 / claim 1 / modulus 3 / side U 2 / "
            "map p = 1 1 ; 1 1 / map a = 0 1 / end"
        ),
        CONFIRMED,
    ),
    (
        "model s c", MAPS,
        lines(
            "model 1 / claim 1 / modulus 3 / map p = 1 / map a = 1 / end / model 1 / claim 1 / modulus 3 / map p = 1 / map a = 0 / "
            "end / model 1 / claim 1 / modulus 3 / map p = 1 / map a = 1 / end"
        ),
        "7 # block 1 confirmed claim 1 / # block 2 refused M5",
    ),
    # faults of the statement come before all of these
    ("model s c", lines("object U / claim"), SELF, "3 # refused S3 line 2 column 6"),
]

# Texts that are no models: not UTF-8, cut off, or with a line that is out of place.
FAULTS: List[Row] = [
    ("model s c", MAPS, "", "7 # refused K7"),
    ("model s c", MAPS, lines("certificate 1 / end"), "7 # refused K7"),
    ("model s c", MAPS, "# \udcff\n", "7 # refused K1"),
    ("model s c", MAPS, "model 1\nclaim 1\n# \udcff\nmodulus 3\nend\n", "7 # refused K1"),
    ("model s c", MAPS, "modle 1\nclaim 1\nmodulus 3\nend\n\udcff", "7 # refused K1"),
    # the text ends inside a block
    ("model s c", MAPS, "model 1", "7 # refused K6"),
    ("model s c", MAPS, lines("model 1 / claim 1"), "7 # refused K6"),
    ("model s c", MAPS, lines("model 1 / claim 1 / modulus 3"), "7 # refused K6"),
    ("model s c", MAPS, lines("model 1 / claim 1 / modulus 3 / side U 1 / map a = 1"), "7 # refused K6"),
    ("model s c", MAPS, lines("basis 1 / claim 1"), "7 # refused K6"),
    ("model s c", MAPS, lines("model 1 / claim 1 / modulus 3 / side U 2"), "7 # refused K6"),
    ("model s c", MAPS, lines("model 1 / claim 1 / modulus 3 / side U 2 / side V 1"), "7 # refused K6"),
    ("model s c", MAPS, lines("model 1 / claim 1 / modulus 3 / side U 2 / side V 1 / map p = 0 1 ; 1 0"), "7 # refused K6"),
    ("model s c", MAPS, lines("model 1 / claim 1 / modulus 3 / side U 2 / side V 1 / map p = 0 1 ; 1 0 / map a = 1 0"), "7 # refused K6"),
    ("model s c", MAPS, lines("model 1 / claim 1 / modulus 3 / map p = 1 / map a = 1 / end / model 1"), "7 # refused K6"),
    (
        "model s c", MAPS, lines("model 1 / claim 1 / modulus 3 / map p = 1 / map a = 1 / end / model 1 / claim 1 / modulus 3 / side U 2"),
        "7 # refused K6",
    ),
    ("model s c", MAPS, lines("model 1 / claim 1 / modulus 3 / map p = 1 / map a = 1 / end / basis 1"), "7 # refused K6"),
    ("model s c", MAPS, lines("certificate 1"), "7 # refused K6"),
    # a line that doesn't fit the grammar at its place: the first, one in the middle, the last
    ("model s c", MAPS, lines("modle 1"), "7 # refused K2 line 1"),
    ("model s c", MAPS, lines("model 01"), "7 # refused K2 line 1"),
    ("model s c", MAPS, lines("model"), "7 # refused K2 line 1"),
    ("model s c", MAPS, lines("claim 1"), "7 # refused K2 line 1"),
    ("model s c", MAPS, lines("model 1 / modulus 3"), "7 # refused K2 line 2"),
    ("model s c", MAPS, lines("model 1 / claim 1 / end"), "7 # refused K2 line 3"),
    ("model s c", MAPS, lines("model 1 / claim 1 / modulus 1"), "7 # refused K2 line 3"),
    ("model s c", MAPS, lines("model 1 / claim 1 / modulus 3 / claim 1"), "7 # refused K2 line 4"),
    ("model s c", MAPS, lines("model 1 / claim 1 / modulus 3 / side U 0"), "7 # refused K2 line 4"),
    ("model s c", MAPS, lines("model 1 / claim 1 / modulus 3 / side U 1 / side U 1"), "7 # refused K2 line 5"),
    ("model s c", MAPS, lines("model 1 / claim 1 / modulus 3 / map a = 1 / map a = 1"), "7 # refused K2 line 5"),
    ("model s c", MAPS, lines("model 1 / claim 1 / modulus 3 / map a ="), "7 # refused K2 line 4"),
    ("model s c", MAPS, lines("model 1 / claim 1 / modulus 3 / map a = 1 ;"), "7 # refused K2 line 4"),
    ("model s c", MAPS, lines("model 1 / claim 1 / modulus 3 / map a = ; 1"), "7 # refused K2 line 4"),
    ("model s c", MAPS, lines("model 1 / claim 1 / modulus 3 / map a = -1"), "7 # refused K2 line 4"),
    ("model s c", MAPS, lines("model 1 / claim 1 / modulus 3 / map p = 1 0 ; 1"), "7 # refused K2 line 4"),
    ("model s c", MAPS, lines("model 1 / claim 1 / modulus 3 / map a' = 1"), "7 # refused K2 line 4"),
    ("model s c", MAPS, lines("model 1 / claim 1 / modulus 3 / end 1"), "7 # refused K2 line 4"),
    ("model s c", MAPS, lines("model 1 / claim 1 / modulus 3 / side U 2 / map p = 0 1 ; 1 / map a = 1 0 / end"), "7 # refused K2 line 5"),
    (
        "model s c", MAPS, lines("model 1 / claim 1 / modulus 3 / side U 2 / map p = 0 1 ; 1 0 / map a = 1 0 / side U 2 / end"),
        "7 # refused K2 line 7",
    ),
    ("model s c", MAPS, lines("model 1 / claim 1 / modulus 3 / map p = 1 / map a = 1 / end / model 2"), "7 # refused K2 line 7"),
    ("model s c", MAPS, lines("model 1 / claim 1 / modulus 3 / side [U] 1"), "7 # refused K2 line 4"),
    ("model s c", MAPS, lines("model 1 / claim 1 / modulus 3 / side nnnnnnnnnnnnnnnnnnnnnnnnnnnnnnnnn 1"), "7 # refused K2 line 4"),
]

# Texts of models with names that are not declared, numbers past their bounds, and several faults.
FAULTS_OF_VALUES: List[Row] = [
    # names that are not declared, or are of the other kind
    ("model s c", MAPS, lines("model 1 / claim 1 / modulus 3 / side W 1"), "7 # refused K3 line 4"),
    ("model s c", MAPS, lines("model 1 / claim 1 / modulus 3 / side a 1"), "7 # refused K3 line 4"),
    ("model s c", MAPS, lines("model 1 / claim 1 / modulus 3 / map U = 1"), "7 # refused K3 line 4"),
    ("model s c", MAPS, lines("model 1 / claim 1 / modulus 3 / map b = 1"), "7 # refused K3 line 4"),
    (
        "model s c", MAPS, lines("model 1 / claim 1 / modulus 3 / side U 2 / side W 1 / map p = 0 1 ; 1 0 / map a = 1 0 / end"),
        "7 # refused K3 line 5",
    ),
    (
        "model s c", MAPS, lines("model 1 / claim 1 / modulus 3 / side U 2 / map b = 1 / map p = 0 1 ; 1 0 / map a = 1 0 / end"),
        "7 # refused K3 line 5",
    ),
    ("model s c", MAPS, lines("model 1 / claim 1 / modulus 3 / map p = 1 / map a = 1 / side W 1 / end"), "7 # refused K3 line 6"),
    (
        "model s c", MAPS, lines("model 1 / claim 1 / modulus 3 / side U 2 / side V 1 / map p = 0 1 ; 1 0 / map b = 1 0 / end"),
        "7 # refused K3 line 7",
    ),
    (
        "model s c", MAPS,
        lines("model 1 / claim 1 / modulus 3 / map p = 1 / map a = 1 / end / model 1 / claim 1 / modulus 3 / side W 1 / end"),
        "7 # refused K3 line 10",
    ),
    (
        "model s c", MAPS, "# a model\n\nmodel 1\nclaim 1\n\nmodulus 3\nmap nnnnnnnnnnnnnnnnnnnnnnnnnnnnnnnn = 1\nend\n",
        "7 # refused K3 line 7",
    ),
    # numbers past their bounds
    ("model s c", MAPS, lines("model 1 / claim 4294967296"), "7 # refused K4 line 2"),
    ("model s c", MAPS, lines("model 1 / claim 1 / modulus 2147483648"), "7 # refused K4 line 3"),
    ("model s c", MAPS, lines("model 1 / claim 1 / modulus 3 / map a = 1 3"), "7 # refused K4 line 4"),
    ("model s c", MAPS, lines("model 1 / claim 1 / modulus 3 / side U 2 / map p = 0 1 ; 3 0 / map a = 1 0 / end"), "7 # refused K4 line 5"),
    ("model s c", MAPS, lines("model 1 / claim 1 / modulus 3 / side U 2 / map p = 0 1 ; 1 0 / map a = 1 3 / end"), "7 # refused K4 line 6"),
    ("model s c", MAPS, lines("model 1 / claim 18446744073709551617 / modulus 3 / end"), "7 # refused K4 line 2"),
    ("model s c", MAPS, lines("model 1 / claim 1 / modulus 4294967299 / end"), "7 # refused K4 line 3"),
    ("model s c", MAPS, lines("model 1 / claim 1 / modulus 3 / map a = 4294967297 / end"), "7 # refused K4 line 4"),
    (
        "model s c", MAPS,
        lines("model 1 / claim 1 / modulus 3 / map p = 1 / map a = 1 / end / model 1 / claim 4294967296 / modulus 3 / end"),
        "7 # refused K4 line 8",
    ),
    ("model s c", MAPS, lines("model 1 / claim 1 / modulus 3 / side U 65"), "7 # refused K5 line 4 limit 64"),
    (
        "model s c", MAPS,
        lines(
            "model 1 / claim 1 / modulus 3 / map a = 1 1 1 1 1 1 1 1 1 1 1 1 1 1 1 1 1 1 1 1 1 1 1 1 1 1 1 1 1 1 1 1 1 1 1 1 1 1 1 "
            "1 1 1 1 1 1 1 1 1 1 1 1 1 1 1 1 1 1 1 1 1 1 1 1 1 1"
        ),
        "7 # refused K5 line 4 limit 64",
    ),
    (
        "model s c", MAPS,
        lines(
            "model 1 / claim 1 / modulus 3 / map a = 1 ; 1 ; 1 ; 1 ; 1 ; 1 ; 1 ; 1 ; 1 ; 1 ; 1 ; 1 ; 1 ; 1 ; 1 ; 1 ; 1 ; 1 ; 1 ; 1 "
            "; 1 ; 1 ; 1 ; 1 ; 1 ; 1 ; 1 ; 1 ; 1 ; 1 ; 1 ; 1 ; 1 ; 1 ; 1 ; 1 ; 1 ; 1 ; 1 ; 1 ; 1 ; 1 ; 1 ; 1 ; 1 ; 1 ; 1 ; 1 ; 1 ; "
            "1 ; 1 ; 1 ; 1 ; 1 ; 1 ; 1 ; 1 ; 1 ; 1 ; 1 ; 1 ; 1 ; 1 ; 1 ; 1"
        ),
        "7 # refused K5 line 4 limit 64",
    ),
    (
        "model s c", MAPS, lines("model 1 / claim 1 / modulus 3 / side U 2 / side V 65 / map p = 0 1 ; 1 0 / map a = 1 0 / end"),
        "7 # refused K5 line 5 limit 64",
    ),
    (
        "model s c", MAPS,
        lines(
            "model 1 / claim 1 / modulus 3 / side U 2 / map p = 1 1 1 1 1 1 1 1 1 1 1 1 1 1 1 1 1 1 1 1 1 1 1 1 1 1 1 1 1 1 1 1 1 "
            "1 1 1 1 1 1 1 1 1 1 1 1 1 1 1 1 1 1 1 1 1 1 1 1 1 1 1 1 1 1 1 1 / map a = 1 0 / end"
        ),
        "7 # refused K5 line 5 limit 64",
    ),
    ("model s c", MAPS, lines("model 1 / claim 1 / modulus 3 / map p = 1 / map a = 1 / side U 65 / end"), "7 # refused K5 line 6 limit 64"),
    (
        "model s c", MAPS,
        lines(
            "model 1 / claim 1 / modulus 3 / side U 2 / side V 1 / map p = 0 1 ; 1 0 / map a = 1 ; 1 ; 1 ; 1 ; 1 ; 1 ; 1 ; 1 ; 1 ; "
            "1 ; 1 ; 1 ; 1 ; 1 ; 1 ; 1 ; 1 ; 1 ; 1 ; 1 ; 1 ; 1 ; 1 ; 1 ; 1 ; 1 ; 1 ; 1 ; 1 ; 1 ; 1 ; 1 ; 1 ; 1 ; 1 ; 1 ; 1 ; 1 ; 1 "
            "; 1 ; 1 ; 1 ; 1 ; 1 ; 1 ; 1 ; 1 ; 1 ; 1 ; 1 ; 1 ; 1 ; 1 ; 1 ; 1 ; 1 ; 1 ; 1 ; 1 ; 1 ; 1 ; 1 ; 1 ; 1 ; 1 / end"
        ),
        "7 # refused K5 line 7 limit 64",
    ),
    ("model s c", MAPS, lines("model 1 / claim 1 / modulus 3 / side U 18446744073709551617 / end"), "7 # refused K5 line 4 limit 64"),
    (
        "model s c", MAPS, lines("basis 1 / side W 1 / end / model 1 / claim 1 / modulus 3 / side U 4294967297 / end"),
        "7 # refused K5 line 7 limit 64",
    ),
    # on one line the lowest code counts, and of lines the first
    ("model s c", MAPS, lines("model 1 / claim 1 / modulus 3 / side U 1 / map U = 1"), "7 # refused K2 line 5"),
    ("model s c", MAPS, lines("model 1 / claim 1 / modulus 3 / side W 0"), "7 # refused K2 line 4"),
    ("model s c", MAPS, lines("model 1 / claim 1 / modulus 3 / map b = 3 ; 1 1"), "7 # refused K2 line 4"),
    ("model s c", MAPS, lines("model 1 / claim 1 / modulus 3 / side W 65"), "7 # refused K3 line 4"),
    ("model s c", MAPS, lines("model 1 / claim 1 / modulus 3 / map b = 3"), "7 # refused K3 line 4"),
    (
        "model s c", MAPS,
        lines(
            "model 1 / claim 1 / modulus 3 / map a = 3 1 1 1 1 1 1 1 1 1 1 1 1 1 1 1 1 1 1 1 1 1 1 1 1 1 1 1 1 1 1 1 1 1 1 1 1 1 1 "
            "1 1 1 1 1 1 1 1 1 1 1 1 1 1 1 1 1 1 1 1 1 1 1 1 1 1"
        ),
        "7 # refused K4 line 4",
    ),
    ("model s c", MAPS, lines("model 1 / claim 1 / modulus 3 / side U 65 / side W 0"), "7 # refused K5 line 4 limit 64"),
    ("model s c", MAPS, lines("model 1 / claim 1 / modulus 3 / side W 1 / side W 1"), "7 # refused K3 line 4"),
]

# Models that are judged over files of the second language.
LANGUAGE_MODELS: List[Row] = [
    (
        "model s c", lines("language 2 / object U / map a b : U -> U / assume (a b)^2 = 0 / claim a^2 = 0 / model 2 U 2"),
        lines("model 1 / claim 1 / modulus 5 / side U 2 / map a = 0 1 ; 0 1 / map b = 1 0 ; 0 0 / end"), "0 # block 1 confirmed claim 1",
    ),
    (
        "model s c", lines("language 2 / object U / map a b : U -> U / assume (a b)^2 = 0 / claim a^2 = 0"),
        lines("model 1 / claim 1 / modulus 5 / side U 2 / map a = 1 1 ; 0 0 / map b = 1 0 ; 0 0 / end"),
        "7 # block 1 refused M4 assumption 1",
    ),
]

ROWS: List[Row] = [*MODELS, *FAULTS, *FAULTS_OF_VALUES, *LANGUAGE_MODELS]
