"""Tries what certificates are translated to: as stored, and by Singular, SymPy and pdflatex, where they are installed."""
from __future__ import annotations

import re
import sys
from pathlib import Path
from typing import Callable, List

from trying import EXAMPLES, Answer, Skipped, installed, need, run, stored, tool, typeset

TRANSLATIONS = {"singular": ".sing", "sympy": "_sympy.py", "latex": ".tex", "coq": ".v"}


def translations(folder: Path) -> str:
    for name, ending in TRANSLATIONS.items():
        words = [EXAMPLES / "pseudoinverses.op", EXAMPLES / "pseudoinverses.cert"]
        answer = run(*tool(name), *words)
        want = (EXAMPLES / "tools" / f"pseudoinverses{ending}").read_text()
        need(answer == Answer(0, want, ""), (name, answer))
    return f"{len(TRANSLATIONS)} translations are as stored"


def equal_in(command: List[str], name: str, folder: Path) -> str:
    """Whether another system finds all stored certificates equal, and the refused one not."""
    cases = list(stored())
    for statement, evidence in cases:
        script = folder / f"script_{name}"
        script.write_text(run(*tool(name), statement, evidence).out)
        answer = run(*command, script)
        word = "differs" if "refused" in evidence.stem else "equal"
        need(re.fullmatch(rf"certificate 1 {word}.*", answer.out.strip(), re.DOTALL), (evidence, answer))
    return f"{len(cases)} certificates are multiplied out by {name}"


def singular(folder: Path) -> str:
    return equal_in([installed("Singular"), "-q"], "singular", folder)


def sympy(folder: Path) -> str:
    if run(sys.executable, "-c", "import sympy").status:
        raise Skipped("sympy is not installed")
    return equal_in([sys.executable], "sympy", folder)


def cofactors(folder: Path) -> str:
    answer = run(installed("Singular"), "-q", EXAMPLES / "tools" / "one_sided_inverses_lift.sing")
    terms = [line.strip(" ,") for line in answer.out.split("\n") if "ncgen" in line]
    need(terms == ["ncgen(1)*r", "-l*ncgen(2)", "ncgen(6)", "-ncgen(8)"], answer)
    return "the cofactors of lift are those of the page"


def latex(folder: Path) -> str:
    body = [run(*tool("latex"), *words).out for words in stored()]
    typeset(body, folder)
    return f"{len(body)} identities are typeset by pdflatex"


CHECKS: List[Callable[[Path], str]] = [translations, singular, sympy, cofactors, latex]
