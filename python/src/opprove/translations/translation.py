"""What the tools that translate certificates share: both files, names of letters, and the steps that add up rows."""
from __future__ import annotations

import argparse
import contextlib
from typing import Callable, Iterator, List, NamedTuple, Optional, Tuple

from opprove.checkers.check import Certificate, Evidence, Poly, Problem, Refusal, Row, Source, content, judge, loaded
from opprove.text import EvidenceText
from opprove.tool import ended, parser


def read(statement: Source, evidence: Source) -> Tuple[Problem, List[Certificate]]:
    """The problem and the certificates, for which all tests are made but the last: whether the sums are equal is for
    the other system to say."""
    problem = Problem(statement)
    with explained(evidence):
        certificates = Evidence(problem, evidence).certificates
    for block, certificate in enumerate(certificates, 1):
        try:
            judge(problem, certificate, f"# block {block} refused")
        except Refusal as refusal:
            if " C6 " not in str(refusal):
                raise
    return problem, certificates


@contextlib.contextmanager
def explained(evidence: Source) -> Iterator[None]:
    """Has a fault say in words that there is no proof, where there is none."""
    try:
        yield
    except Refusal as refusal:
        if str(refusal) != "# refused K7":
            raise
        said = ", ".join(f"claim {head.claim} is {head.verdict}" for head in EvidenceText(content(evidence)).heads)
        raise Refusal(f"# refused K7: there is no proof to be written{said and ': '}{said}") from None


def run(word: str, page: Optional[str], translate: Callable[[Problem, List[Certificate]], List[str]], words: List[str]) -> int:
    """Writes the translation of the two files that are named, and gives the status."""
    given = of_two_files(word, page).parse_args(words)
    return ended(lambda: translate(*read(*loaded([given.statement, given.evidence]))))


def of_two_files(word: str, page: Optional[str]) -> argparse.ArgumentParser:
    """For the words of a tool that reads a statement and evidence."""
    made = parser(word, page)
    made.add_argument("statement", metavar="STATEMENT", help="a statement")
    made.add_argument("evidence", metavar="EVIDENCE", help="certificates, or a report that has some")
    return made


def ascii_names(problem: Problem) -> List[str]:
    """A name for each letter that other systems read and use for nothing else: id_V for [V], m_a for a, s_a for a'."""
    names = []
    for letter, name in enumerate(problem.names):
        prefix = "id_" if name[0] == "[" else "s_" if name[-1] == "'" else "m_"
        bare = name.strip("[']")
        names.append(prefix + (bare if bare.isascii() else str(letter)))
    return names


def generators_used(certificates: List[Certificate]) -> List[int]:
    shares = [share for certificate in certificates for share in certificate.shares]
    return sorted({row.number for share in shares for row in share.rows if not row.is_lemma})


class Templates(NamedTuple):
    """How a system writes the steps that add up rows."""

    let: str  # name, value
    start: str
    add: str  # value
    lemma: str  # name, scale
    compare: str  # block, scale, claim


def added_up(problem: Problem, certificates: List[Certificate], templates: Templates) -> Iterator[str]:
    """The steps: generators first, and then for each certificate its lemmas and the comparison."""
    names, generators = ascii_names(problem), problem.generators()
    for number in generators_used(certificates):
        yield templates.let.format(name=f"g{number}", value=poly_text(names, generators[number - 1]))
    for block, certificate in enumerate(certificates, 1):
        for number, share in enumerate(certificate.shares, 1):
            yield templates.start
            for row in share.rows:
                yield templates.add.format(value=row_text(names, row))
            if number < len(certificate.shares):
                yield templates.lemma.format(name=f"lemma{number}", scale=share.scale)
        claim = poly_text(names, problem.claims[certificate.claim - 1])
        yield templates.compare.format(block=block, scale=certificate.shares[-1].scale, claim=claim)


def poly_text(names: List[str], poly: Poly) -> str:
    words = sorted(poly, key=lambda word: (len(word), word), reverse=True)
    return " + ".join("*".join([f"({poly[word]})"] + [names[letter] for letter in word]) for word in words) or "0"


def row_text(names: List[str], row: Row) -> str:
    middle = f"lemma{row.number}" if row.is_lemma else f"g{row.number}"
    left, right = ([names[letter] for letter in word] for word in (row.left, row.right))
    return "*".join([f"({row.coefficient})"] + left + [middle] + right)
