"""What the program answers on claims: the verdicts, their evidence, and what the tools in Python say of that."""
from __future__ import annotations

import re
from dataclasses import dataclass
from html import escape
from typing import Dict, Iterator, List, Optional

from opprove import second_check
from opprove.checkers import check
from opprove.program import Refused
from opprove.text import sections
from opprove.translations import chain, chain_latex
from opprove.translations.latex import name_in_latex

MARKS = {"proved": "#1a7f37", "refuted": "#b3261e", "not derivable": "#8a5a00"}  # colours of verdicts on a page


@dataclass(frozen=True)
class Verdict:
    """What a report says of one claim."""

    number: int  # of the claim, from 1
    claim: str
    kind: str  # "proved", "not derivable", "refuted" or "undecided"; and of a mere search "not refuted"
    detail: str  # what stands behind that in the head line
    block: str  # the evidence
    statement: str

    def __bool__(self) -> bool:
        return self.kind == "proved"

    def __repr__(self) -> str:
        return f"{self.claim}: {self.kind} {self.detail}".rstrip()

    # ---- Evidence

    @property
    def denominator(self) -> Optional[int]:
        """That of a proof: the claim holds where it cancels."""
        found = re.findall(r"^denominator (\d+)", self.detail)
        return int(found[0]) if found else None

    @property
    def certificate(self) -> Optional[str]:
        """The evidence of a proof."""
        return self.block if self.kind == "proved" else None

    @property
    def modulus(self) -> Optional[int]:
        """That of the entries of a model."""
        found = re.findall(r"^modulus (\d+)$", self.block, re.MULTILINE)
        return int(found[0]) if found else None

    @property
    def sides(self) -> Dict[str, int]:
        """Of the objects in a model."""
        return {name: int(side) for name, side in re.findall(r"^side (\S+) (\d+)$", self.block, re.MULTILINE)}

    @property
    def model(self) -> Dict[str, List[List[int]]]:
        """The matrices that refute the claim, each the list of its rows. Adjoints are transposes."""
        lines = re.findall(r"^map (\S+) = (.*)$", self.block, re.MULTILINE)
        return {name: [[int(number) for number in row.split()] for row in text.split(";")] for name, text in lines}

    @property
    def rules(self) -> List[str]:
        """The rules of a basis, each a sum that is zero."""
        return re.findall(r"^rule (.*)$", self.block, re.MULTILINE)

    @property
    def rest(self) -> Optional[str]:
        """What these rules leave of the claim."""
        return next(iter(re.findall(r"^rest (.*)$", self.block, re.MULTILINE)), None)

    # ---- The tools in Python

    def recheck(self) -> Optional[bool]:
        """Whether the second checker of such evidence accepts it for this claim and denominator. None where there is no evidence."""
        if not self.block:
            return None
        says = {"proved": f"accepted claim {self.number} denominator {self.denominator}", "refuted": f"confirmed claim {self.number}"}
        try:
            lines = list(second_check.report(self.statement.encode(), self.block.encode()))
        except check.Refusal:
            return False
        return len(lines) == 1 and lines[0].startswith(f"# block 1 {says.get(self.kind, f'closed claim {self.number}')}")

    def proof(self) -> Proof:
        """The proof as a chain. Raises ValueError where the claim isn't proved, and `Refused` where check.py refuses the evidence."""
        if self.kind != "proved":
            raise ValueError(f"claim {self.number} is {self.kind}, and has no chain")
        try:
            reader = chain.Reader(check.Problem(self.statement.encode()), chain.QUICK_EFFORT)
            return Proof(reader, chain.proofs_of(reader, self.block.encode())[0])
        except check.Refusal as refusal:
            raise Refused(check.REFUSED, str(refusal)) from None

    @property
    def assumptions(self) -> Dict[int, str]:
        """The assumptions that the proof uses, by their numbers."""
        return self.proof().assumptions()

    def chain(self) -> str:
        """The proof as a chain of equal expressions."""
        return str(self.proof())

    def latex(self) -> str:
        """The same for a paper that loads amsmath."""
        return self.proof().latex()

    # ---- In a notebook

    def _repr_html_(self) -> str:
        colour = MARKS.get(self.kind, "#555")
        head = f'<code>{escape(self.claim)}</code>: <b style="color: {colour}">{self.kind}</b> {escape(self.detail)}'
        return f"<div>{head}{self._shown()}</div>"

    def _shown(self) -> str:
        """The evidence on a page: a chain, matrices, or the rules of a basis."""
        if self.kind == "proved":
            return self.proof()._repr_html_()
        if self.model:
            tables = "".join(matrix_in_html(name, rows) for name, rows in self.model.items())
            return f"<div>matrices modulo {self.modulus}{tables}</div>"
        if self.rules:
            return f"<pre>{escape(chr(10).join(f'{rule} = 0' for rule in self.rules))}\nleave {escape(self.rest or '')}</pre>"
        return ""

    def _repr_latex_(self) -> Optional[str]:
        if self.kind == "proved":
            return self.proof()._repr_latex_()
        if not self.model:
            return None
        matrices = [f"{name_in_latex(name)} &= {matrix_in_latex(rows)}" for name, rows in self.model.items()]
        return "\\begin{align*}\n" + " \\\\\n".join(matrices) + f" \\pmod{{{self.modulus}}}\n\\end{{align*}}"


class Proof:
    """A proof as a chain of equal expressions, which shows itself in a notebook."""

    def __init__(self, reader: chain.Reader, shown: chain.Proof) -> None:
        self.reader, self.shown = reader, shown

    def assumptions(self) -> Dict[int, str]:
        """The assumptions that it uses, by their numbers."""
        writer, found = chain.Writer(self.reader.problem.names, " "), {}
        for number in chain.used(self.reader, self.shown):
            equation = self.reader.assumptions[number - 1]
            found[number] = writer.equation(equation.left, equation.right, equation.ends)
        return found

    def __str__(self) -> str:
        return "".join(f"{line}\n" for line in chain.text(self.reader, self.shown))

    def latex(self) -> str:
        """For a paper that loads amsmath."""
        return "".join(f"{line}\n" for line in chain_latex.latex(self.reader, self.shown, {}))

    def _repr_html_(self) -> str:
        return f"<pre>{escape(str(self))}</pre>"

    def _repr_latex_(self) -> str:
        return re.sub("^%.*\n", "", self.latex(), flags=re.MULTILINE)


class Report(List[Verdict]):
    """The verdicts on all claims, in their order."""

    def __repr__(self) -> str:
        return "\n".join(f"{verdict.number}. {verdict!r}" for verdict in self)

    def _repr_html_(self) -> str:
        return "".join(verdict._repr_html_() for verdict in self)


def matrix_in_html(name: str, rows: List[List[int]]) -> str:
    """A matrix between its brackets, behind its name."""
    cells = "".join(f"<tr>{''.join(f'<td>{number}</td>' for number in row)}</tr>" for row in rows)
    style = "display: inline-table; vertical-align: middle; border-left: 1px solid; border-right: 1px solid; margin: 4px 12px 4px 4px"
    return f'<span style="white-space: nowrap"><code>{escape(name)}</code> = <table style="{style}">{cells}</table></span>'


def matrix_in_latex(rows: List[List[int]]) -> str:
    """A matrix for a paper that loads amsmath."""
    return r"\begin{pmatrix}" + r" \\ ".join(" & ".join(map(str, row)) for row in rows) + r"\end{pmatrix}"


def verdicts(statement: str, claims: List[str], report: str) -> Iterator[Verdict]:
    """Those of a report on a statement with these claims."""
    for head, block in sections(report):
        yield Verdict(head.claim, claims[head.claim - 1], head.verdict, head.detail, block, statement)
