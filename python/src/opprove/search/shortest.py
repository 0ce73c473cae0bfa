"""Shorter proofs

For each claim it looks for the proof whose chains, as `opprove chain` writes them, have the fewest steps, those of lemmas among them: of
certificates in both formats, by other orders of words and from fewer assumptions, each made shorter as `chain` does. The best one of
those with the least denominator is printed, which `check` accepts, with its steps and those of the first certificate as it was found. With
a REPORT only claims that it proves are looked at, and its certificates are compared too. A claim is left where no more than --steps N are
needed, and the time is shared among the claims.

Statuses: 0 where each claim is proved, 12 where not.
"""
from __future__ import annotations

import argparse
import time
from pathlib import Path
from typing import Iterator, List, NamedTuple, Optional, Sequence, Tuple

from opprove import program as programs
from opprove.checkers.check import Certificate, Evidence, Refusal, judge
from opprove.search import by_variants
from opprove.search.findings import Answer, Finding, answered, is_accepted, keep, positive, words_of
from opprove.search.running import Program, Progress
from opprove.search.variants import Statement
from opprove.translations.chain import EFFORT, Reader, certificate_text, length

PAIRS, SECONDS = 5000, 30
FORMATS = ("2", "1")


class Known(NamedTuple):
    """A certificate, and the steps of its chains. The least one is the best."""

    denominator: int
    steps: int
    certificate: Certificate


class Shortest:
    """A search for one claim, by an effort for each certificate."""

    def __init__(self, asker: by_variants.Asker, claim: int, effort: int) -> None:
        self.asker, self.claim = asker, claim
        self.reader, self.plain = Reader(asker.statement.problem, effort), Reader(asker.statement.problem, 0)
        self.progress = Progress("shortest")
        self.before = 0  # steps of the first certificate as it was found
        self.best: Optional[Known] = None

    def take(self, certificate: Certificate) -> None:
        """Compares a certificate, and what it becomes."""
        proof = self.reader.proof(certificate)
        known = Known(certificate.denominator, length(proof.chains), self.reader.shortened(proof))
        if self.best is None:
            self.before = length(self.plain.proof(certificate).chains)
        if self.best is None or known[:2] < self.best[:2]:
            self.best = known

    def runs(self) -> Iterator[Tuple[by_variants.Variant, str]]:
        """The claim alone by orders of words, and from fewer assumptions, each in both formats."""
        for variant in by_variants.texts(self.asker.statement, self.claim):
            yield from ((variant, number) for number in FORMATS)

    def run(self, words: Sequence[str], enough: int, until: float) -> None:
        for count, (variant, number) in enumerate(self.runs(), 1):
            is_short = self.best is not None and self.best.denominator == 1 and self.best.steps <= enough
            if is_short or time.monotonic() > until:
                break
            self.progress.tell(f"claim {self.claim}: {self.best.steps if self.best else 'no'} steps, run {count}")
            found = self.asker.certificate(self.claim, variant, [*words, "--format", number], max(1, int(until - time.monotonic())))
            if found:
                self.take(found)
        self.progress.clear()

    def lines(self, folder: str) -> List[str]:
        """The best certificate, which has to be accepted, and what is said of it."""
        if self.best is None:
            return [f"# claim {self.claim}: no proof was found"]
        asker, certificate = self.asker, self.best.certificate
        block = list(certificate_text(asker.statement.problem, certificate))
        if not is_accepted(asker.program, asker.folder, asker.statement.text, block):
            raise Refusal(f"# the certificate of claim {self.claim} is refused by `check`")
        keep(folder, Finding("", block, asker.statement.text, f"claim_{self.claim}_shortest"))
        rows = sum(len(share.rows) for share in certificate.shares)
        head = f"# claim {self.claim} proved denominator {certificate.denominator} rows {rows}"
        return [head, f"#   {self.best.steps} steps, and {self.before} before", *block]


def options_of(words: List[str]) -> argparse.Namespace:
    made = words_of("shortest", __doc__, SECONDS)
    made.add_argument("report", metavar="REPORT", nargs="?", default="", help="certificates, or a report that has some")
    made.add_argument("--steps", type=positive, default=1, metavar="N", help="so many steps are few enough (1)")
    made.add_argument("--pairs", type=positive, default=PAIRS, metavar="N", help=f"for each run of prove ({PAIRS})")
    made.add_argument("--effort", type=positive, default=EFFORT, metavar="N", help=f"as of chain, for each certificate ({EFFORT})")
    return made.parse_args(words)


def answer(words: List[str], folder: Path) -> Answer:
    options = options_of(words)
    statement = Statement(options.statement)
    certificates = Evidence(statement.problem, options.report).certificates if options.report else []
    for block, certificate in enumerate(certificates, 1):
        judge(statement.problem, certificate, f"# block {block} refused")
    asker = by_variants.Asker(Program(Path(programs.path())), folder, statement)
    claims = sorted({one.claim for one in certificates}) or list(range(1, len(statement.claims) + 1))
    end, lines, is_known = time.monotonic() + options.seconds, [], True
    for place, claim in enumerate(claims):
        search, now = Shortest(asker, claim, options.effort), time.monotonic()
        for certificate in certificates:
            if certificate.claim == claim:
                search.take(certificate)
        search.run(["--pairs", str(options.pairs)], options.steps, now + (end - now) / (len(claims) - place))
        lines += search.lines(options.keep)
        is_known = is_known and search.best is not None
    return lines, 0 if is_known else 12


def main(words: List[str]) -> int:
    return answered("shortest", answer, words)
