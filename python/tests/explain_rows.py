"""Runs of `explain` whose reports were worked out by hand, for test_explain.py: statements, evidence and what is printed of them."""
from __future__ import annotations

from itertools import chain
from typing import List, NamedTuple, Sequence

GREATEST = 2**127 - 1


def text_of(*lines: str) -> str:
    return "".join(f"{line}\n" for line in lines)


def u(count: int) -> str:
    return " ".join(["u"] * count)


def block(rows: Sequence[str], claim: int = 1, denominator: int = 1) -> str:
    return text_of("certificate 1", f"claim {claim}", f"denominator {denominator}", *(f"row {row}" for row in rows), "end")


def told(steps: Sequence[str], lines: Sequence[str], claim: int = 1, denominator: int = 1, number: int = 1) -> str:
    head = f"# block {number} explained claim {claim} denominator {denominator} steps {len(steps)}"
    pairs = chain.from_iterable((f"use {step}", f"line {line}") for step, line in zip(steps, lines[1:]))
    return text_of(head, "chain 1", f"claim {claim}", f"denominator {denominator}", f"line {lines[0]}", *pairs, "end")


def refused(why: str, number: int = 1) -> str:
    return f"# block {number} refused {why}\n"


class Run(NamedTuple):
    """Its name, the statement, the evidence, and the report. The evidence may be the report of a run of `prove`."""

    name: str
    statement: str
    evidence: str
    report: str
    prove_format: int = 0  # of `prove` on the statement


# ---- Statements

PAIR = text_of(
    "object P Q", "map f g : P -> Q", "map s : Q -> P", "assume s f = [P]", "assume s g = [P]", "assume f s = g s", "claim f = g"
)  # generators 4 to 7: [P] [P] - [P], f [P] - f, g [P] - g, [P] s - s
MULTIPLES = text_of("object P", "map u v : P -> P", "assume 3 u = 2 v", "assume 4 v = 6 u u", "claim u = u u", "claim v = v")
STARRED = text_of(
    "object P Q", "map f : P -> Q", "map e : Q -> Q self", "assume e f = f", "assume f = f", "claim f' e = f'", "claim f = f"
)  # generator 3: f' e - f'
GREAT = text_of("object P", "map u v : P -> P", "assume u = v", f"claim {GREATEST} u = {GREATEST} v")
EQUAL = text_of("object P", "map u v : P -> P", "assume u = v", "claim u = v")
FULL = text_of(
    "object P", "map u : P -> P", "map w : P -> P", "assume u = w w", f"assume {u(500)} = 0", f"claim {GREATEST} {u(500)} = 0"
)
OTHER = EQUAL.replace("object P\n", "object P Q\n").replace("assume", "map w : P -> Q\nassume")
LOOP = text_of("object P Q", "map u v : P -> Q", "map w : P -> P", "assume u = v", "claim u = v")
MANY = [f"m{number}" for number in range(1, 201)]
SUMS = f"({' + '.join(MANY[:100])})", f"({' + '.join(MANY)})"
PRODUCTS = [f"{left} {right}" for left in MANY[99::-1] for right in MANY[::-1]]  # 20,000, the greatest first
TERMS = text_of(
    "object P", f"map {' '.join(MANY)} : P -> P", f"assume {SUMS[0]} {SUMS[1]} = 0", "assume m1 = m2", "claim m1 = m2", "claim m1 m1 = m1 m1"
)
LAST = " m1" * 498
LONG_SUM = f"{SUMS[0]} ({SUMS[1]} ({LAST[1:]}))"  # 10,000,000 letters
LETTERS = text_of("object P", f"map {' '.join(MANY)} : P -> P", f"assume {LONG_SUM} = 0", f"claim {LONG_SUM} = 0")

# ---- Runs

FIVE = ["-1 () 5 ()", "-1 (f) 1 ()", "1 () 3 (f)", "1 (g) 1 ()", "1 () 6 ()"]
FIVE_LINES = ["- g + f", "f [P] - g", "f s f - g", "g s f - g", "g [P] - g", "0"]
FIRST = told(FIVE, FIVE_LINES)
DOUBLED = ["-2 () 5 ()", "-2 (f) 1 ()", "2 () 3 (f)", "2 (g) 1 ()", "2 () 6 ()"]
LONG_ROW = f"0 ({' '.join(['f s'] * 250)}) 1 ({' '.join(['f'] * 500)})"
PROVED = ["-1 (f) 1 ()", "1 (g) 1 ()", "1 () 3 (f)", "-1 () 5 ()", "1 () 6 ()"]
PROVED_LINES = ["- g + f", "f s f - f [P] - g + f", "- g s f + f s f + g [P] - f [P] - g + f", "g [P] - f [P] - g + f", "g [P] - g", "0"]
LEMMA = text_of("certificate 2", "claim 1", "denominator 1", "lemma 1 scale 1", "row -1 () 5 ()", "goal scale 1", "row 1 () lemma 1 ()", "end")
MODEL = text_of("model 1", "claim 1", "modulus 2", "map f = 1", "end")
BASIS = text_of("basis 1", "claim 1", "rule f - g", "rest 0", "end")
SPREAD = block(FIVE).replace("claim 1", "# a comment\n\nclaim 01").replace("-1 () 5 ()", "-01 ( ) 5 ()").replace("\n", "\r\n")
EIGHT = (["2 () 1 ()", "1 () 2 ()"], ["- 6 u u + 6 u", "- 6 u u + 4 v", "0"])
GREAT_LINE = f"- {GREATEST} v + {GREATEST} u"
OVERFLOW = [f"{coefficient} () 1 ()" for coefficient in (-1, GREATEST, 1)]
PLUS = f"-{GREATEST} plus -1"
SEVENTH = [FIVE[0], FIVE[1], "3 () 3 (f)", "-2 () 3 (f)", *FIVE[3:]]
SEVENTH_LINES = [*FIVE_LINES[:3], "3 g s f - 2 f s f - g", *FIVE_LINES[3:]]
IDENTITY = ["1 () 5 ([P])", "-1 () 5 ([P])"]


def joined(terms: List[str], sign: str) -> str:
    return f" {sign} ".join(terms)


def rows_of_pair() -> List[Run]:
    runs = [
        ("1", block(FIVE), FIRST),
        ("2", block(FIVE[::-1]), told(FIVE[::-1], ["- g + f", "- g [P] + f", "- g s f + f", "- f s f + f", "- f [P] + f", "0"])),
        ("3", block([FIVE[0], "2 (f) 3 (g)", *FIVE[1:], "-2 (f) 3 (g)"]), FIRST),
        ("4", block(["1 () 1 ()", *FIVE, "-1 () 1 ()"]), FIRST),
        ("5", block(["0 () 3 (f)", *FIVE]), FIRST),
        ("6", block([LONG_ROW, *FIVE]), FIRST),
        ("7", block(SEVENTH), told(SEVENTH, SEVENTH_LINES)),
        ("8", block(DOUBLED, 1, 2), told(DOUBLED, ["- 2 g + 2 f", "2 f [P] - 2 g", "2 f s f - 2 g", "2 g s f - 2 g", "2 g [P] - 2 g", "0"], 1, 2)),
        (
            "9", block([FIVE[0], "1 () 5 ([P]')", IDENTITY[1], *FIVE[1:]]),
            told([FIVE[0], *IDENTITY, *FIVE[1:]], [*FIVE_LINES[:2], "- f [P] [P] + 2 f [P] - g", *FIVE_LINES[1:]]),
        ),
        ("10", SPREAD, FIRST),
        ("42", text_of("certificate 2", "claim 9", "denominator 0", "goal scale 0", "end"), refused("E1")),
        ("43", block(FIVE) + text_of("certificate 2", "claim 1", "denominator 1", "goal scale 1", "end"), FIRST + refused("E1", 2)),
        ("44", block(FIVE) + block(FIVE[:4]), FIRST + refused("C6 word g want -1 got 0", 2)),
        ("45", block(FIVE, 2), refused("C1")),
        ("45, denominator", block(FIVE, 1, 0), refused("C3")),
        ("46", block([*FIVE[:2], "1 () 8 ()", *FIVE[2:]]), refused("C2 row 3")),
        ("47", block([*FIVE[:3], FIVE[4]]), refused("C6 word g [P] want 0 got 1")),
        ("48", FIRST, "# refused K2 line 2\n"),
        ("49", text_of("cancellation 1", "end"), "# refused K2 line 1\n"),
        ("49, nothing", "", "# refused K7\n"),
        ("49, no end", block(FIVE)[:-4], "# refused K6\n"),
        ("50", block(["1 (t) 1 ()"]), "# refused K3 line 4\n"),
        ("50, number", block([f"{GREATEST + 1} () 1 ()"]), "# refused K4 line 4\n"),
        ("50, word", block([f"1 ({' '.join(['f'] * 501)}) 1 ()"]), "# refused K5 line 4 limit 500\n"),
        ("51", block(FIVE) * 100, "".join(told(FIVE, FIVE_LINES, number=number) for number in range(1, 101))),
        ("51, one more", block(FIVE) * 101, "# refused K5 line 901 limit 100\n"),
        ("52", MODEL + block(FIVE) + BASIS, FIRST),
        ("paths to the target alone", block(["1 () 3 ()", *FIVE, "-1 () 3 ()"]), FIRST),
    ]  # fmt: skip
    proofs = [Run("11", PAIR, block(PROVED), told(PROVED, PROVED_LINES), 1), Run("12", PAIR, LEMMA, refused("E1"), 2)]
    return [Run(name, PAIR, evidence, report) for name, evidence, report in runs] + proofs


def rows_of_others() -> List[Run]:
    second = told([], ["0"], 2, 1, 2)
    v, far = f"{u(499)} v", "1 (" + u(499) + ") 1 ()"
    thirty = [far, "1 () 1 ()", "-" + far]
    return [
        Run("13", MULTIPLES, block(EIGHT[0], 1, 6), told(*EIGHT, 1, 6)),
        Run(
            "14", MULTIPLES, block(["4 () 1 ()", "2 () 2 ()"], 1, 12),
            told(["4 () 1 ()", "2 () 2 ()"], ["- 12 u u + 12 u", "- 12 u u + 8 v", "0"], 1, 12),
        ),
        Run("15", MULTIPLES, block([], 2, 5), told([], ["0"], 2, 5)),
        Run("16", MULTIPLES, block(["1 (v) 2 ()", "-1 (v) 2 ()"], 2), told(["1 (v) 2 ()", "-1 (v) 2 ()"], ["0", "6 v u u - 4 v v", "0"], 2)),
        Run("17", MULTIPLES, block(EIGHT[0], 1, 6) + block([], 2), told(*EIGHT, 1, 6) + second, 1),
        Run("18", STARRED, block(["1 () 3 ()"]), told(["1 () 3 ()"], ["f' e - f'", "0"])),
        Run(
            "19", STARRED, block(["7 () 2 ()", "1 () 3 ()", "-4 (f') 1 (f' e')", "4 (f') 1 (f' e)"]),
            told(["1 () 3 ()", "-4 (f') 1 (f' e)", "4 (f') 1 (f' e)"], ["f' e - f'", "0", "4 f' e f f' e - 4 f' f f' e", "0"]),
        ),
        Run(
            "20", STARRED, block(["1 () 3 (e')", "-1 () 3 (e)", "1 () 3 ()"]),
            told(["1 () 3 (e)", "-1 () 3 (e)", "1 () 3 ()"], ["f' e - f'", "- f' e e + 2 f' e - f'", "f' e - f'", "0"]),
        ),
        Run("steps of a zero claim", STARRED, block(["1 () 1 ()", "-1 () 1 ()"], 2), told(["1 () 1 ()", "-1 () 1 ()"], ["0", "- e f + f", "0"], 2)),
        Run("21", STARRED, block(["1 () 3 ()", "-1 () 3 ()"], 2), told([], ["0"], 2)),
        Run("30", EQUAL, block(thirty), told(thirty, ["- v + u", f"{v} - {u(500)} - v + u", f"{v} - {u(500)}", "0"])),
        Run("31", EQUAL, block([f"1 ({u(500)}) 1 ()", "1 () 1 ()", f"-1 ({u(500)}) 1 ()"]), refused("E3 row 1")),
        Run("32", EQUAL, block(["1 () 1 ()", *(f"{sign}1 ({u(250)}) 1 ({u(250)})" for sign in ("", "-"))]), refused("E3 row 2")),
        Run("33", EQUAL, block([f"1 ({u(500)}) 1 ()"]), refused("C6 word u want 1 got 0")),
        Run(
            "34", OTHER, block(["1 (w) 1 ()", "-1 (w) 1 ()", "1 () 1 ()", f"1 ({u(500)}) 1 ()", f"-1 ({u(500)}) 1 ()"]), refused("E3 row 4"),
        ),
        Run(
            "35", LOOP, block(["1 () 1 ()", *(f"{sign}1 ({' '.join(['w'] * 500)}) 1 ()" for sign in ("", "-"))]),
            told(["1 () 1 ()"], ["- v + u", "0"]),
        ),
        Run("53", text_of("object P", "claim f = f"), block([]), "# refused S6 line 2 column 7\n"),
    ]  # fmt: skip


def rows_of_bounds() -> List[Run]:
    """Of numbers, terms and letters."""
    end = "1 (" + u(499) + ") 1 ()"
    one, less, two = "1 () 1 ()", "-1 () 1 ()", "1 () 2 ()"
    products = "- " + joined(PRODUCTS, "-")
    parts = [f"{GREATEST - 1} () 1 ()", one]
    whole = f"{GREATEST} () 1 ()"
    return [
        Run("22", GREAT, block([whole]), told([whole], [GREAT_LINE, "0"])),
        Run("23", GREAT, block(parts), told(parts, [GREAT_LINE, "- v + u", "0"])),
        Run("24", GREAT, block(OVERFLOW), refused(f"E2 row 1 {PLUS}")),
        Run("25", GREAT, block(["0 () 1 ()", *OVERFLOW]), refused(f"E2 row 2 {PLUS}")),
        Run("26", GREAT, block([whole, one, less]), refused(f"C4 row 2 {PLUS}")),
        Run("27", GREAT, block([], 1, 2), refused(f"C4 row 0 2 times -{GREATEST}")),
        Run("28", GREAT, block([whole]) + block(OVERFLOW), told([whole], [GREAT_LINE, "0"]) + refused(f"E2 row 1 {PLUS}", 2)),
        Run("29", FULL, block(["-" + end, f"{GREATEST} () 2 ()", end]), refused("E3 row 1")),
        Run("36", TERMS, block([one, less], 2), told([one, less], ["0", products, "0"], 2)),
        Run("37", TERMS, block([two, one, less]), told([two, one, less], ["- m2 + m1", "0", products, "0"])),
        Run("38", TERMS, block([one, two, less]), refused("E3 row 1")),
        Run("39", LETTERS, block([one]), told([one], [joined([word + LAST for word in PRODUCTS], "+"), "0"])),
        Run("40", LETTERS, block([one, one], 1, 2), refused("E4 row 1 limit 10000000")),
        Run("41", LETTERS, block(["0 () 1 ()", one, less, one]), refused("E4 row 3 limit 10000000")),
    ]


def runs() -> List[Run]:
    return rows_of_pair() + rows_of_others() + rows_of_bounds()
