"""Files at the limits of `check` and `model`, and past them, for test_rows.py."""
from __future__ import annotations

from typing import List

from row_parts import Row, identity, lines, numbers, padded, times

ONE_TEXT = lines("object U / map a b : U -> U / assume a = b / claim a = b")
ONE = ONE_TEXT
ZERO = lines("object U / map a : U -> U / claim a = 0")
GOOD = lines("certificate 1 / claim 1 / denominator 1 / row 1 () 1 () / end")
MODULUS = lines("model 1 / claim 1 / modulus 2")
CONFIRMED = lines("0 # block 1 confirmed claim 1")
DOUBLED = lines("object U / map x : U -> U / assume 2 x = 0 / claim x = 0")
MODEL_BLOCK = lines("model 1 / claim 1 / modulus 2 / side U 1 / map x = 1 / end")

# The limits on blocks of models, and on the letters of a word that a certificate makes.
BLOCKS: List[Row] = [
    # models, beside which a block of another kind isn't counted
    (
        "model s c", DOUBLED, times(MODEL_BLOCK, 100) + lines("certificate 1 / end"),
        "0 " + numbers("# block ", 1, 100, " confirmed claim 1\n", ""),
    ),
    ("model s c", DOUBLED, times(MODEL_BLOCK, 100) + lines("certificate 1 / end") + MODEL_BLOCK, "7 # refused K5 line 603 limit 100"),
    # a matrix with the most sides
    ("model s c", ZERO, MODULUS + "side U 64\nmap a = " + identity(64) + lines(" / end"), CONFIRMED),
    # a word of 500 letters in front of a generator makes one of 501
    (
        "check s c", DOUBLED,
        "certificate 2\nclaim 1\ndenominator 1\nlemma 1 scale 1\nrow 1 (" + times("x ", 500) + lines(") 1 () / goal scale 1 / end"),
        "7 # block 1 refused C9 lemma 1",
    ),
]

# The limits on the bytes of a file, and which of two files is told of.
SIZES: List[Row] = [
    # bytes of models
    ("model s c", ZERO, padded(MODULUS + lines("map a = 1 / end"), 67_108_864), CONFIRMED),
    ("model s c", ZERO, padded(MODULUS + lines("map a = 1 / end"), 67_108_865), "4 # too long c limit 67108864"),
    # a file that is too long before one that is missing, and the other way around
    ("check s g", padded(ONE_TEXT, 1_048_577), "", "4 # too long s limit 1048576"),
    ("check g c", ONE, padded(GOOD, 67_108_865), "4 # load failed g"),
]

ROWS: List[Row] = [*BLOCKS, *SIZES]
