"""Certificates of a claim by variants of its statement: by other orders of words, and from fewer assumptions."""
from __future__ import annotations

from pathlib import Path
from typing import Dict, Iterator, List, Optional, Sequence, Tuple

from opprove.checkers.check import Certificate, Evidence, Problem, Refusal
from opprove.search import join, variants
from opprove.search.findings import sections
from opprove.search.running import Program
from opprove.search.variants import Equation, Statement

Variant = Tuple[str, Dict[str, str]]  # its text, and what its letters are called in the statement where that is another name


def texts(statement: Statement, claim: int, orders: Sequence[variants.Ordering] = variants.ORDERS) -> Iterator[Variant]:
    """The claim alone: by these orders, then without each assumption, and then from those that are near."""
    goal, chosen = statement.claims[claim - 1], statement.assumptions
    asked: List[Tuple[List[Equation], variants.Ordering]] = [(chosen, ordering) for ordering in orders]
    asked += [([one for one in chosen if one is not left_out], orders[0]) for left_out in chosen]
    for selection in variants.FEWER:
        asked += [(fewer, orders[0]) for _, fewer in selection(chosen, goal) if len(fewer) < len(chosen)]
    for fewer, ordering in asked:
        order = ordering(statement, fewer, goal)
        if order:
            yield variants.text_of(statement, fewer, [goal], order), variants.letter_names(statement, order)


class Asker:
    """Has a program prove variants of a statement."""

    def __init__(self, program: Program, folder: Path, statement: Statement) -> None:
        self.program, self.folder, self.statement = program, folder, statement

    def certificate(self, claim: int, variant: Variant, words: Sequence[str], seconds: int) -> Optional[Certificate]:
        """Of the claim, for the statement as it was written, where the program proves the variant by these words."""
        text, names = variant
        path = self.folder / "variant.op"
        path.write_bytes(text.encode("utf-8", "surrogateescape"))
        _, report = self.program.report(["prove", str(path), "--no-models", "--workers", "1", *words], seconds)
        for _, head, block in sections(report.decode("utf-8", "replace")):
            if head.startswith("proved"):
                return self.translated(claim, Problem(str(path)), block, names)
        return None

    def translated(self, claim: int, problem: Problem, block: List[str], names: Dict[str, str]) -> Optional[Certificate]:
        certificates = [one._replace(claim=1) for one in Evidence(problem, ("\n".join(block) + "\n").encode()).certificates]
        whole = join.Join(self.statement.problem)
        try:
            whole.add(join.Piece(problem, certificates, names))
        except Refusal:
            return None
        return whole.certificate(claim)
