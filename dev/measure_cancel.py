"""The table of `measure.py cancel`: runs of `cancel`, beside `check` of certificates with the same rows, and `cancel` of plain.rs.

Beside the rows that begin with `lemmas` stands the same block as a `certificate 2`; beside those that begin with `items` stand as many
lemmas that copy the terms by a row each, which is what taking a letter off a term has to do at least. The rows that begin with `blocks`
tell by how many times the seconds grow from one to the next, each of twice the bytes. plain.rs has to print the same bytes. NAME behind the word
makes the rows whose name begins so.
"""
from __future__ import annotations

from pathlib import Path
from typing import Callable, List, NamedTuple, Optional, Tuple

import cancel_rows
from measuring import Text, both, checked, quotient_text, table, told, write

LIMIT = 2**26  # bytes of the text
MAPS = [f"m{number}" for number in range(1, 201)]
ONE = f"object P\nmap {' '.join(MAPS)} : P -> P\nassume m1 m2 = 0\nclaim m2 = 0\n"
CYCLE = "object P\nmap a b c : P -> P\nassume a b = a c\nclaim b = c\n"
HEADS = {"cancel": "cancellation 1\n", "check": "certificate 2\n"}
PLACES = "claim 1\ndenominator 1\n"
END = "end\n"


def declared() -> str:
    """Of each letter that it is monic and that it is epic."""
    return "".join(f"{word} {name}{mark}\n" for word in ("monic", "epic") for name in MAPS for mark in ("", "'"))


def one_term() -> Text:
    """200,000 items, each of one term: 199,999 times a letter off the first."""
    yield HEADS["cancel"] + PLACES + declared() + "lemma 1 scale 1\nrow 1 () 1 ()\n"
    yield from (f"cancel {number} m1 left 1\n" for number in range(2, 200_001))
    yield "goal scale 1\nrow 1 () lemma 200000 ()\n" + END


def row53() -> Text:
    """Fifty items of 20,000 terms, all but one of which are the first without a letter."""
    yield HEADS["cancel"] + PLACES + "monic m1\nlemma 1 scale 1\nrow 1 () 1 ()\n"
    yield from (f"cancel {number} m1 left 1\n" for number in range(2, 51))
    yield "goal scale 1\nrow 1 () lemma 50 ()\n" + END


def copied() -> Text:
    """Fifty lemmas of 20,000 terms, all but one of which are the first, and the assumption as the goal."""
    yield HEADS["check"] + PLACES.replace("claim 1", "claim 2")
    yield from (f"lemma {number} scale 1\nrow 1 () {'lemma 1' if number > 1 else '1'} ()\n" for number in range(1, 51))
    yield "goal scale 1\nrow 1 () lemma 50 ()\n" + END


def large_statement() -> str:
    text = cancel_rows.large()
    assumption = next(line for line in text.split("\n") if line.startswith("assume "))
    return text + assumption.replace("assume ", "claim ", 1) + "\n"


def lemmas(kind: str) -> Text:
    """20,000 lemmas of ten rows, each with the one before, and a goal."""
    yield HEADS[kind] + PLACES
    yield "lemma 1 scale 1\n" + "row 1 () 1 ()\n"
    for number in range(2, 20_001):
        rows = [f"row {sign} ({word}) 1 ()\n" for word in ("a", "b", "a b", "b a") for sign in (1, -1)]
        yield f"lemma {number} scale 1\nrow 1 () lemma {number - 1} ()\n{''.join(rows)}"
    yield "goal scale 1\nrow 1 () lemma 20000 ()\n" + END


LEMMAS = "object P\nmap a b c : P -> P\nassume b = c\nclaim b = c\n"


def blocks(size: int) -> Text:
    """A hundred blocks, in so many bytes, of rows that are added and taken off and then a letter off what is left."""
    front = f"{HEADS['cancel']}{PLACES}monic a\nlemma 1 scale 1\nrow 1 () 1 ()\n"
    behind = f"cancel 2 a left 1\ngoal scale 1\nrow 1 () lemma 2 ()\n{END}"
    pair = "row 1 (a b) 1 (c)\nrow -1 (a b) 1 (c)\n"
    count = (size // 100 - len(front + behind)) // len(pair)
    for _ in range(100):
        yield front + pair * count + behind


class Case(NamedTuple):
    name: str
    statement: Callable[[], str]
    proof: Callable[[], Text]
    beside: Optional[Callable[[], Text]] = None  # what `check` is asked of


CASES = [
    Case("lemmas: 20,000 with 180,000 rows", lambda: LEMMAS, lambda: lemmas("cancel"), lambda: lemmas("check")),
    Case("items: 200,000 of one term, 800 letters declared", lambda: ONE, one_term),
    Case("items: 50 of 20,000 terms", large_statement, row53, copied),
    *(Case(f"blocks: 100 in {size >> 20} MiB", lambda: CYCLE, lambda size=size: blocks(size)) for size in (LIMIT // 4, LIMIT // 2, LIMIT)),
]
NAMES = ["bytes", "`cancel` s", "MB", "`check` s", "MB", "plain s", "MB", "by `check`", "by plain"]


def cells(case: Case, plain: str, folder: Path) -> Tuple[List[str], float]:
    own, other = both("cancel", iter([case.statement()]), case.proof(), plain, folder)
    size, beside = (folder / "evidence.cert").stat().st_size, (" | ", "")
    if case.beside:
        write(folder / "evidence.cert", case.beside())
        by_check = checked(folder)
        beside = (told(by_check), quotient_text(own, by_check))
    return [f"{size:,}", told(own), beside[0], told(other), beside[1], quotient_text(own, other)], own.seconds


rows = table(NAMES, CASES, cells, "blocks")
