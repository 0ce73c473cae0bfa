"""Which cases of a file of the notation follow from which

Proves, for each line `equivalent` and each two of its cases, that the one gives the other, and prints a table for each line: a row for
what is assumed and a column for what is claimed. yes: proved; yes/D: proved with the denominator D; no: refuted by matrices; -: not
derivable; ?: undecided. Of a case with several equations it is the worst of their answers. Below stand the cases that follow from one
another by way of any others, as far as denominators are 1.
"""
from __future__ import annotations

import argparse
import re
from typing import Dict, List, Tuple

from opprove.checkers import check
from opprove.checkers.check import Refusal
from opprove.notation.expansion import Expansion
from opprove.notation.parts import in_words
from opprove.notation.reader import ROMAN
from opprove.program import Refused
from opprove.program import run as run_program
from opprove.text import sections
from opprove.tool import ended, parser, say

ORDER = ["yes", "yes/", "-", "no", "?"]  # from the best answer to the worst


def answer(report: str) -> str:
    """What a report of `prove` says of all its claims together."""
    found = []
    for head, _ in sections(report):
        denominator = re.match(r"proved denominator ([0-9]+)", head.said)
        words = {"not derivable": "-", "refuted": "no"}.get(head.verdict, "?")
        found.append(words if not denominator else "yes" if denominator.group(1) == "1" else f"yes/{denominator.group(1)}")
    return max(found, key=lambda each: (ORDER.index(re.sub(r"[0-9]+", "", each)), len(each), each))


def tables(path: str, options: List[str]) -> List[str]:
    """A table for each line with cases. Raises a `Refusal` of the file, or what the program refuses."""
    source = check.loaded([path])[0]
    try:
        expansion = Expansion(path, source)
        texts = {statement.name: statement.text for statement in expansion.statements(True)}
    except Refusal as refusal:
        raise in_words(refusal) from None
    lines: List[str] = []
    for entry in expansion.equivalences():
        stem, marks = expansion.stem_of(entry), ROMAN[: len(entry.cases)]
        answers: Dict[Tuple[str, str], str] = {}
        for one in marks:
            for two in marks:
                name = f"{stem}-{one}-{two}"
                answers[one, two] = answer(run_program(None, "prove", [texts[name]], tuple(options), None)) if one != two else ""
        width = max(map(len, [*(f"({mark})" for mark in marks), *answers.values()])) + 2
        first = max(width, len(stem) + 2)
        lines.append((f"{stem:{first}}" + "".join(f"{f'({mark})':{width}}" for mark in marks)).rstrip())
        for one in marks:
            lines.append((f"{f'({one})':{first}}" + "".join(f"{answers[one, two]:{width}}" for two in marks)).rstrip())
        lines += [f"equivalent: {' '.join(f'({mark})' for mark in circle)}" for circle in circles(marks, answers)]
    return lines


def circles(marks: List[str], answers: Dict[Tuple[str, str], str]) -> List[List[str]]:
    """The cases that give one another, by way of any others, where there are two or more."""
    reached = {one: {two for two in marks if one == two or answers[one, two] == "yes"} for one in marks}
    for by in marks:
        for one in marks:
            reached[one] |= reached[by] if by in reached[one] else set()
    found = [[two for two in marks if two in reached[one] and one in reached[two]] for one in marks]
    return [circle for one, circle in zip(marks, found) if len(circle) > 1 and circle[0] == one]


def main(words: List[str]) -> int:
    """Prints the tables. The status is 0, or 2 for other words, or that of the fault."""
    made = parser("implications", __doc__)
    made.add_argument("file", metavar="FILE.opn", help="a file of the notation with lines `equivalent`")
    made.add_argument("options", metavar="OPTIONS", nargs=argparse.REMAINDER, help="options of `prove`")
    given = made.parse_args(words)
    try:
        return ended(lambda: tables(given.file, given.options))
    except Refused as refusal:
        say(refusal.line)
        return refusal.status
