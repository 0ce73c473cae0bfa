"""Certificates as Python for SymPy

What is written makes the letters noncommutative symbols, multiplies the rows out and prints for each certificate
whether they are equal to the claim times the denominator, or with lemmas times the scale of the goal. It can be pasted
into a notebook.
"""
from __future__ import annotations

from typing import List

from opprove.checkers.check import Certificate, Problem
from opprove.translations.translation import Templates, added_up, ascii_names, run

TEMPLATES = Templates(
    let="{name} = {value}",
    start="\ntotal = 0",
    add="total += {value}",
    lemma="{name} = expand(total) / {scale}",
    compare="""difference = expand(total - {scale}*({claim}))
print("certificate {block}", "equal" if difference == 0 else f"differs by {{difference}}")""",
)


def translate(problem: Problem, certificates: List[Certificate]) -> List[str]:
    names = zip(ascii_names(problem), problem.names)
    lines = ["from sympy import Symbol, expand", ""]
    lines += [f'{name} = Symbol("{written}", commutative=False)' for name, written in names]
    return lines + [""] + list(added_up(problem, certificates, TEMPLATES))


def main(words: List[str]) -> int:
    """Writes the translation, and gives the status."""
    return run("sympy", __doc__, translate, words)
