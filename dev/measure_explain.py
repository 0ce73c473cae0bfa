"""The table of `measure.py explain`: runs of `explain`, beside `check` of the same files and `explain` of dev/plain.rs.

Both programs have to print the same bytes. `beside check` is by how much the peak of `explain` is above that of `check`, divided
by the bytes of the report; the rows that begin with `letters` print ten times as many letters from one to the next, and tell by
how many times the seconds grow. NAME behind the word makes the rows whose name begins so.
"""
from __future__ import annotations

import itertools
from pathlib import Path
from typing import Callable, List, NamedTuple, Tuple

import explain_rows
from measuring import NO_MEMORY, Text, both, checked, quotient_text, table, told

TEN = list("abcdefghij")
SUM = f"({'+'.join(TEN)})"
TERMS = f"object U\nmap {' '.join(TEN)} : U -> U\nassume {SUM * 3} = 0\nassume a = b\nclaim a = a\n"  # the first has 1,000
THIRD = "object U\nmap x y z : U -> U\nassume x = z\nassume z = x\nassume x = y\nclaim x = y\n"
PRODUCT = f"{explain_rows.SUMS[0]} {explain_rows.SUMS[1]}{explain_rows.LAST}"  # 10,000,000 letters
LONG = f"object P\nmap {' '.join(explain_rows.MANY)} : P -> P\nassume {PRODUCT} = 0\nclaim {PRODUCT} = 0\n"
OTHERS = "object U V\nmap a b : U -> V\nmap c d e f g h i j : V -> U\nassume a = b\nclaim a = b\n"
START, END = "certificate 1\nclaim 1\ndenominator 1\n", "end\n"


def in_sum(steps: int) -> Text:
    """So many steps, an even number, over lines of about 1,000 words of three letters."""
    yield START + "row 1 () 1 ()\n"
    words = [f"{left} {right}" for left in TEN for right in TEN]
    for number in range(steps - 2):
        turn, place = divmod(number, 2)
        yield f"row {-1 if place else 1} ({words[turn * 37 % 100]}) 2 ()\n"
    yield "row -1 () 1 ()\n" + END


def in_turn(steps: int) -> Text:
    """So many steps over lines of two words, one of which is exchanged for another one and back."""
    return itertools.chain([START], ["row 1 () 1 ()\nrow 1 () 2 ()\n"] * ((steps - 1) // 2), ["row 1 () 3 ()\n", END])


def untyped(count: int) -> Text:
    """Rows that are no paths, each of which the next one takes off, and one step."""
    words = [f"{left} {right}" for left in "cdefghij" for right in "cdefghij"]
    rows = (f"row {sign} ({words[number % 64]}) 1 ()\n" for number in range(count // 2) for sign in (1, -1))
    return itertools.chain([START], rows, ["row 1 () 1 ()\n", END])


class Case(NamedTuple):
    name: str
    statement: str
    evidence: Callable[[], Text]


def letters(count: int) -> Case:
    """A chain that prints so many letters, some 3,000 a line."""
    return Case(f"letters: {count:,}", TERMS, lambda: in_sum(count // 6020 * 2))


CASES = [
    Case("lines: 1,000 of 1,000 terms", TERMS, lambda: in_sum(1000)),
    Case("lines: 100,000 of two terms", THIRD, lambda: in_turn(99_999)),
    Case("lines: one of 20,000 terms of 500 letters", LONG, lambda: iter([START, "row 1 () 1 ()\n", END])),
    *map(letters, (10**5, 10**6, 10**7)),
    Case("rows: 200,000 that are untyped", OTHERS, lambda: untyped(199_998)),
]
NAMES = ["bytes", "`explain` s", "MB", "`check` s", "MB", "plain s", "MB", "by plain", "by `check`", "beside `check`"]


def cells(case: Case, plain: str, folder: Path) -> Tuple[List[str], float]:
    own, other = both("explain", iter([case.statement]), case.evidence(), plain, folder)
    size, beside = (folder / "want").stat().st_size, checked(folder)
    above = "" if NO_MEMORY in (own.status, beside.status) else f"{1e6 * (own.megabytes - beside.megabytes) / size:.2f}"
    times = [quotient_text(own, other), quotient_text(own, beside), above]
    return [f"{size:,}", told(own), told(beside), told(other), *times], own.seconds


rows = table(NAMES, CASES, cells, "letters")
