"""Runs of `confirm` at its limits and by other words, for test_rows.py."""
from __future__ import annotations

from typing import List

from row_parts import Row, USAGE, falling, greatest_words, lines, numbers, padded, times

BETWEEN = lines(
    "object X Y / map f g : X -> Y / map h : Y -> X / assume f h g = g / claim h f h g = 0 / claim f h g h = g h / "
    "claim h f = h g"
)
LOOSE_PARTS = lines("object A / map s t : A -> A / claim s = 0")
HEAD = lines("basis 1 / claim 1")
RULE = "basis 1\nclaim 1\nrule "
REST = "basis 1\nclaim 1\nrest "
END = "\nend\n"
REST_AND_END = "\nrest s\nend\n"
WHOLE = lines("basis 1 / claim 1 / rest s / end")
CLOSED = lines("0 # block 1 closed claim 1 sharp")
# A statement and a basis that is closed.
SOUND = (BETWEEN, lines("basis 1 / claim 1 / rule f h g - g / rest h g / end"), lines("0 # block 1 closed claim 1 sharp"))

# Texts with a fault, and texts that are written otherwise.
TEXTS: List[Row] = [
    ("confirm s c", BETWEEN, "# \udcff\nbasis 1\nclaim 1\nrule f h g - g\nrest h g\nend\n", "7 # refused K1"),
    ("confirm s c", BETWEEN, lines("basis 1 1 / claim 1 / rest h g / end"), "7 # refused K2 line 1"),
    ("confirm s c", BETWEEN, lines("basis 1 / claim 04294967296 / rest h g / end"), "7 # refused K4 line 2"),
    ("confirm s c", BETWEEN, "# a\n\tbasis\t1\n\n  claim 001\n# b\nrule  f\th g -  g\n\nrest h g\nend", "0 # block 1 closed claim 1 sharp"),
]

# Texts of several blocks, and reports.
BLOCKS: List[Row] = [
    ("confirm s c", lines("object A / map s : A -> A / claim s = q"), "\udcff", "3 # refused S6 line 3 column 11"),
]

# Words of 500 letters, and of 501.
WORDS: List[Row] = [
    ("confirm s c", LOOSE_PARTS, RULE + times("t ", 500) + REST_AND_END, "7 # block 1 refused B7 overlap 1 1 1 size letters 500"),
    ("confirm s c", LOOSE_PARTS, RULE + times("t ", 501) + REST_AND_END, "7 # refused K5 line 3 limit 500"),
    ("confirm s c", LOOSE_PARTS, REST + "s + " + times("t ", 501) + END, "7 # refused K2 line 3"),
]

# Rests of 20,000 terms, and of 20,001.
TERMS: List[Row] = [
    ("confirm s c", LOOSE_PARTS, REST + greatest_words(20_000) + END, "7 # block 1 refused B5 got s"),
    ("confirm s c", LOOSE_PARTS, REST + greatest_words(20_001) + END, "7 # refused K5 line 3 limit 20000"),
    ("confirm s c", LOOSE_PARTS, REST + times("t ", 501) + "+ " + greatest_words(20_000) + END, "7 # refused K5 line 3 limit 20000"),
]

# Bases of 100,000 rules, and of one more.
RULES: List[Row] = [
    (
        "confirm s c", LOOSE_PARTS, HEAD + times(lines("rule 0"), 100_000) + "rule " + times("t ", 501) + REST_AND_END,
        "7 # refused K5 line 100003 limit 500",
    ),
]

# Texts of 100 blocks, of 101, and one with a byte too many.
COUNTED: List[Row] = [
    ("confirm s c", LOOSE_PARTS, times(WHOLE, 100), "0 " + numbers("# block ", 1, 100, " closed claim 1 sharp\n", "")),
    ("confirm s c", LOOSE_PARTS, padded(WHOLE, 67_108_865), "4 # too long c limit 67108864"),
]

# Reductions that grow up to the limits of words and of terms, and past them.
GROWN: List[Row] = [
    (
        "confirm s c", "object A\nmap " + numbers("m", 0, 149, "", " ") + " w : A -> A\nclaim w w = 0\n",
        RULE + "w - " + falling("m", 150, [], " - ") + "\nrest w\nend\n", "7 # block 1 refused B7 claim size terms 20000",
    ),
]

# Claims of 996,000 steps, and of more than a million.
STEPS: List[Row] = [
    (
        "confirm s c",
        (
            "object A\nmap " + numbers("c", 0, 15, "", " ") + " s t : A -> A\nclaim (" + numbers("c", 0, 15, "", " + ") + ") "
            + times("t ", 250) + times("s ", 249) + lines("= 0")
        ),
        RULE + "t s - s t\nrest " + falling("c", 16, [(" s", 249), (" t", 250)], " + ") + END, CLOSED,
    ),
    (
        "confirm s c",
        (
            "object A\nmap " + numbers("c", 0, 16, "", " ") + " s t : A -> A\nclaim (" + numbers("c", 0, 16, "", " + ") + ") "
            + times("t ", 250) + times("s ", 249) + lines("= 0")
        ),
        RULE + "t s - s t\nrest " + falling("c", 17, [(" s", 249), (" t", 250)], " + ") + END,
        "7 # block 1 refused B7 claim steps 1000000",
    ),
]

# Other words, and files that aren't there.
CALLS: List[Row] = [
    ("confirm s", SOUND[0], SOUND[1], USAGE),
    ("confirm s c --workers 2", SOUND[0], SOUND[1], USAGE),
    ("confirm s g", SOUND[0], SOUND[1], "4 # load failed g"),
    ("confirm f g", SOUND[0], SOUND[1], "4 # load failed f"),
]

ROWS: List[Row] = [*TEXTS, *BLOCKS, *WORDS, *TERMS, *RULES, *COUNTED, *GROWN, *STEPS, *CALLS]
