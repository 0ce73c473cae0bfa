"""Checks evidence by the second programs, in Python: certificates, models, bases, proofs that cancel and star proofs

Each kind of block that stands in the evidence is checked by the file that reads it: check.py, check_model.py, confirm.py, cancel.py
or star.py of the folder checkers. These share nothing with the program, and each runs by itself too. Star proofs and rational models
are read by no command of the program.
"""
from __future__ import annotations

from importlib import import_module
from typing import Iterator, List

from opprove.checkers.check import DONE, Refusal, Source, content, finished, loaded
from opprove.text import EvidenceText
from opprove.tool import parser

# The checkers by the word that a block begins with.
CHECKERS = {
    "certificate": "check", "model": "check_model", "rational": "check_model", "basis": "confirm", "cancellation": "cancel", "star": "star",
}  # fmt: skip


def report(statement: Source, evidence: Source) -> Iterator[str]:
    """The lines of all checkers that read some block; of check.py where there is none."""
    data = content(evidence)
    checkers = [CHECKERS[kind] for kind in EvidenceText(data).kinds if kind in CHECKERS]
    for checker in dict.fromkeys(checkers or ["check"]):
        yield from import_module(f"opprove.checkers.{checker}").report(statement, data)


def is_accepted(statement: Source, evidence: Source) -> bool:
    """Whether all blocks are accepted."""
    try:
        return list(report(statement, evidence)) != []
    except Refusal:
        return False


def main(words: List[str]) -> int:
    """Writes the report, and gives the status. `--answer` is for the script opprove."""
    if words[:1] == ["--answer"]:
        from opprove.words import checked

        return checked.main(words[1:])
    made = parser("second-check", __doc__)
    made.add_argument("statement", metavar="STATEMENT", help="a statement")
    made.add_argument("evidence", metavar="EVIDENCE", help="evidence, or a report that has some")
    given = made.parse_args(words)
    return finished(lambda: (report(*loaded([given.statement, given.evidence])), DONE))
