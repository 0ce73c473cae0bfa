"""Runs of `explain` at its limits and by other words, for test_rows.py."""
from __future__ import annotations

from typing import List

from row_parts import Row, USAGE, lines, numbers, padded, products, times

# The generators are in front of the marked objects, 4 to 7: [P] [P] - [P], f [P] - f, g [P] - g and [P] s - s.
INVERSES = lines("object P Q / map f g : P -> Q / map s : Q -> P / assume s f = [P] / assume s g = [P] / assume f s = g s / claim f = g")
EQUAL = lines("object P / map u v : P -> P / assume u = v / claim u = v")
ROW_1 = lines("row -1 () 5 ()")
ROW_2 = lines("row -1 (f) 1 ()")
ROW_3 = lines("row 1 () 3 (f)")
ROW_4 = lines("row 1 (g) 1 ()")
ROW_5 = lines("row 1 () 6 ()")
HEAD = lines("certificate 1 / claim 1 / denominator 1")
END = lines("end")
BLOCK = "0 # block 1"
REFUSED = "7 # block 1 refused "
# What is said of the rows of the inverses after the number of their block.
CHAIN_TEXT = (
    " explained claim 1 denominator 1 steps 5\nchain 1\nclaim 1\ndenominator 1\nline - g + f\nuse -1 () 5 ()\nline f [P] - g\n"
    "use -1 (f) 1 ()\nline f s f - g\nuse 1 () 3 (f)\nline g s f - g\nuse 1 (g) 1 ()\nline g [P] - g\nuse 1 () 6 ()\nline 0\nend\n"
)
CHAIN = CHAIN_TEXT
ANSWER = BLOCK + CHAIN
OTHER_WORDS = USAGE
# The first generator has 20,000 terms, m1 m1 to m100 m200.
MANY = (
    "object P\nmap " + numbers("m", 1, 200, "", " ") + " : P -> P\nassume (" + numbers("m", 1, 100, "", " + ") + ") ("
    + numbers("m", 1, 200, "", " + ") + lines(") = 0 / assume m1 = m2 / claim m1 = m2 / claim m1 m1 = m1 m1")
)
# The same terms, each with 498 letters after it, are 10,000,000 letters.
LONG = (
    "object P\nmap " + numbers("m", 1, 200, "", " ") + " : P -> P\nassume (" + numbers("m", 1, 100, "", " + ") + ") ("
    + numbers("m", 1, 200, "", " + ") + ") " + times("m1 ", 498) + "= 0\nclaim (" + numbers("m", 1, 100, "", " + ") + ") ("
    + numbers("m", 1, 200, "", " + ") + ") " + times("m1 ", 498) + lines("= 0")
)

# Rows in any order, and rows that are no steps.
STEPS: List[Row] = [
    (
        "explain s c", INVERSES,
        HEAD + "row 0 (" + times("f s ", 250) + ") 1 (" + times("f ", 500) + lines(")") + ROW_1 + ROW_2 + ROW_3 + ROW_4 + ROW_5 + END,
        ANSWER,
    ),
]

# Words of 500 letters, and the greatest coefficients.
LONG_WORDS: List[Row] = [
    # words that are no paths, of 500 letters
    (
        "explain s c", lines("object P Q / map u v : P -> Q / map w : P -> P / assume u = v / claim u = v"),
        HEAD + lines("row 1 () 1 ()") + "row 1 (" + times("w ", 500) + ") 1 ()\nrow -1 (" + times("w ", 500) + lines(") 1 ()") + END,
        (
            BLOCK + " explained claim 1 denominator 1 steps 1\nchain 1\nclaim 1\ndenominator 1\nline - v + u\n"
            + lines("use 1 () 1 () / line 0 / end")
        ),
    ),
    # words of 500 letters in the lines
    (
        "explain s c", EQUAL,
        HEAD + "row 1 (" + times("u ", 499) + ") 1 ()\nrow 1 () 1 ()\nrow -1 (" + times("u ", 499) + lines(") 1 ()") + END,
        (
            "0 # block 1 explained claim 1 denominator 1 steps 3\nchain 1\nclaim 1\ndenominator 1\nline - v + u\nuse 1 (" + times("u ", 498)
            + "u) 1 ()\nline " + times("u ", 499) + "v - " + times("u ", 500) + "- v + u\nuse 1 () 1 ()\nline " + times("u ", 499) + "v - "
            + times("u ", 499) + "u\nuse -1 (" + times("u ", 498) + lines("u) 1 () / line 0 / end")
        ),
    ),
]

# Blocks one after another.
BLOCKS: List[Row] = [
    (
        "explain s c", INVERSES,
        times(HEAD + ROW_1 + ROW_2 + ROW_3 + ROW_4 + ROW_5 + END, 100),
        "0 " + numbers("# block ", 1, 100, CHAIN_TEXT, ""),
    ),
]

# What `check` refuses.
CHECKED: List[Row] = [
    ("explain s c", EQUAL, HEAD + "row 1 (" + times("u ", 500) + lines(") 1 ()") + END, REFUSED + lines("C6 word u want 1 got 0")),
]

# Lemmas, and words that grow too long.
GROWN: List[Row] = [
    # E3: words of 501 letters, in steps alone
    (
        "explain s c",
        (
            "object P\nmap u : P -> P\nmap w : P -> P\nassume u = w w\nassume " + times("u ", 500)
            + "= 0\nclaim 170141183460469231731687303715884105727 " + times("u ", 500) + lines("= 0")
        ),
        (
            HEAD + "row -1 (" + times("u ", 499) + ") 1 ()\nrow 170141183460469231731687303715884105727 () 2 ()\nrow 1 (" + times("u ", 499)
            + lines(") 1 ()") + END
        ),
        REFUSED + lines("E3 row 1"),
    ),
    (
        "explain s c", EQUAL,
        HEAD + "row 1 (" + times("u ", 500) + ") 1 ()\nrow 1 () 1 ()\nrow -1 (" + times("u ", 500) + lines(") 1 ()") + END,
        REFUSED + lines("E3 row 1"),
    ),
    (
        "explain s c", EQUAL,
        (
            HEAD + "row 1 () 1 ()\nrow 1 (" + times("u ", 250) + ") 1 (" + times("u ", 250) + ")\nrow -1 (" + times("u ", 250) + ") 1 ("
            + times("u ", 250) + lines(")") + END
        ),
        REFUSED + lines("E3 row 2"),
    ),
    (
        "explain s c", lines("object P / object Q / map u v : P -> P / map w : P -> Q / assume u = v / claim u = v"),
        (
            HEAD + lines("row 1 (w) 1 () / row -1 (w) 1 () / row 1 () 1 ()") + "row 1 (" + times("u ", 500) + ") 1 ()\nrow -1 ("
            + times("u ", 500) + lines(") 1 ()") + END
        ),
        REFUSED + lines("E3 row 4"),
    ),
]

# Texts with faults.
TEXTS: List[Row] = [
    ("explain s c", INVERSES, HEAD + "row 1 (" + times("f ", 501) + lines(") 1 ()") + END, "7 # refused K5 line 4 limit 500"),
]

# Files that can't be had, and words that name no call.
CALLS: List[Row] = [
    # files and words
    ("explain s g", INVERSES, "", "4 # load failed g"),
    ("explain s c", INVERSES, padded("", 67_108_865), "4 # too long c limit 67108864"),
    ("explain s", INVERSES, "", OTHER_WORDS),
    ("explain s c d", INVERSES, "", OTHER_WORDS),
    ("explain s c --format 1", INVERSES, "", OTHER_WORDS),
]

# Lines of 20,000 terms, and of more.
SIZES: List[Row] = [
    (
        "explain s c", MANY, lines("certificate 1 / claim 2 / denominator 1") + lines("row 1 () 1 () / row -1 () 1 ()") + END,
        (
            lines("0 # block 1 explained claim 2 denominator 1 steps 2 / chain 1 / claim 2 / denominator 1 / line 0")
            + "use 1 () 1 ()\nline - " + products(" - ", "", 0) + "\nuse -1 () 1 ()\nline 0\nend\n"
        ),
    ),
    (
        "explain s c", MANY, HEAD + lines("row 1 () 2 () / row 1 () 1 () / row -1 () 1 ()") + END,
        (
            lines("0 # block 1 explained claim 1 denominator 1 steps 3 / chain 1 / claim 1 / denominator 1")
            + "line - m2 + m1\nuse 1 () 2 ()\nline 0\nuse 1 () 1 ()\nline - " + products(" - ", "", 0) + "\nuse -1 () 1 ()\nline 0\nend\n"
        ),
    ),
    ("explain s c", MANY, HEAD + lines("row 1 () 1 () / row 1 () 2 () / row -1 () 1 ()") + END, REFUSED + lines("E3 row 1")),
]

# Lines of 10,000,000 letters, and of more.
LENGTHS: List[Row] = [
    (
        "explain s c", LONG, HEAD + lines("row 1 () 1 ()") + END,
        (
            "0 # block 1 explained claim 1 denominator 1 steps 1\nchain 1\nclaim 1\ndenominator 1\nline " + products(" + ", " m1", 498)
            + "\nuse 1 () 1 ()\nline 0\nend\n"
        ),
    ),
    (
        "explain s c", LONG, lines("certificate 1 / claim 1 / denominator 2") + lines("row 1 () 1 () / row 1 () 1 ()") + END,
        REFUSED + lines("E4 row 1 limit 10000000"),
    ),
    (
        "explain s c", LONG, HEAD + lines("row 0 () 1 () / row 1 () 1 () / row -1 () 1 () / row 1 () 1 ()") + END,
        REFUSED + lines("E4 row 3 limit 10000000"),
    ),
]

ROWS: List[Row] = [*STEPS, *LONG_WORDS, *BLOCKS, *CHECKED, *GROWN, *TEXTS, *CALLS, *SIZES, *LENGTHS]
