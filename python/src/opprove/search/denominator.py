"""Smaller denominators

For each proved claim of the report whose denominator isn't 1 it looks for a certificate with a smaller one: by other orders of words
and from fewer assumptions, and by integer combinations of the rows that are known, as 2 and 3 times a claim give it
once. The best certificate is printed, which `check` accepts for STATEMENT. For each prime that divides what is left it looks for
matrices modulo that prime which make the assumptions zero and not the claim: then that prime has to divide each denominator, a line
says so, and FOLDER gets the model. A claim that others prove is compared: the report may have several certificates of it.

Statuses: 0 where each denominator is 1 or is shown to be divided by all of its primes, 12 where that isn't known.
"""
from __future__ import annotations

import argparse
import time
from math import gcd
from pathlib import Path
from typing import Dict, List, NamedTuple, Optional, Tuple

from opprove import program as programs
from opprove.checkers.check import Certificate, Evidence, Refusal, Row, Share
from opprove.search import by_variants, join
from opprove.search.findings import Answer, Finding, answered, first_word, is_accepted, keep, sections, words_of
from opprove.search.running import Program, Progress
from opprove.search.variants import Statement

PAIRS, PRIMES = "5000", (2, 3, 5, 7, 101, 32003, 65537)  # the moduli that a search for models may have
SEEDS, SIDES = (1, 2, 3), (1, 2, 3)


class Known(NamedTuple):
    """A multiple of a claim as a sum of rows over generators alone."""

    denominator: int
    rows: List[Row]


def expanded(certificate: Certificate) -> Known:
    """The certificate without lemmas: rows of which a greater multiple of the claim is the sum."""
    lemmas: List[Known] = []
    for share in certificate.shares:
        multiple = 1
        for row in share.rows:
            if row.is_lemma:
                scale = lemmas[row.number - 1].denominator
                multiple *= scale // gcd(multiple, scale)
        rows: List[Row] = []
        for row in share.rows:
            if not row.is_lemma:
                rows.append(row._replace(coefficient=row.coefficient * multiple))
                continue
            lemma = lemmas[row.number - 1]
            by = row.coefficient * multiple // lemma.denominator
            rows += [Row(by * one.coefficient, row.left + one.left, False, one.number, one.right + row.right) for one in lemma.rows]
        lemmas.append(simplified(Known(share.scale * multiple, merged(rows))))
    return lemmas[-1]


def merged(rows: List[Row]) -> List[Row]:
    found: Dict[Tuple[object, ...], int] = {}
    for row in rows:
        key = (row.left, row.number, row.right)
        found[key] = found.get(key, 0) + row.coefficient
    return [Row(value, left, False, number, right) for (left, number, right), value in found.items() if value]  # type: ignore[arg-type]


def simplified(known: Known) -> Known:
    divisor = known.denominator
    for row in known.rows:
        divisor = gcd(divisor, row.coefficient)
    rows = [row._replace(coefficient=row.coefficient // divisor) for row in known.rows]
    return Known(known.denominator // divisor, rows)


def combined(one: Known, other: Known) -> Known:
    """A combination with the greatest common divisor of both denominators."""
    x, y, divisor = bezout(one.denominator, other.denominator)
    rows = [row._replace(coefficient=x * row.coefficient) for row in one.rows]
    rows += [row._replace(coefficient=y * row.coefficient) for row in other.rows]
    return simplified(Known(divisor, merged(rows)))


def bezout(one: int, other: int) -> Tuple[int, int, int]:
    """x, y and the greatest common divisor x * one + y * other."""
    if not other:
        return 1, 0, one
    x, y, divisor = bezout(other, one % other)
    return y, x - one // other * y, divisor


class Smaller:
    """A search for one claim."""

    def __init__(self, asker: by_variants.Asker, claim: int, until: float) -> None:
        self.asker, self.claim, self.until = asker, claim, until
        self.progress = Progress("denominator")
        self.best: Optional[Known] = None
        self.shortest: Dict[int, Certificate] = {}  # as it was found, by its denominator

    def take(self, certificate: Certificate) -> None:
        known = expanded(certificate)
        self.shortest.setdefault(certificate.denominator, certificate)
        self.best = known if self.best is None else combined(self.best, known)

    def is_done(self) -> bool:
        return (self.best is not None and self.best.denominator == 1) or time.monotonic() > self.until

    def run(self) -> None:
        for count, variant in enumerate(by_variants.texts(self.asker.statement, self.claim), 1):
            if self.is_done():
                return
            best = self.best.denominator if self.best else "none"
            self.progress.tell(f"claim {self.claim}: denominator {best}, run {count}")
            found = self.asker.certificate(self.claim, variant, ["--pairs", PAIRS], max(1, int(self.until - time.monotonic())))
            if found:
                self.take(found)

    def block(self) -> List[str]:
        """The lines of the certificate: as it was found, or else the rows of the combination."""
        assert self.best
        certificate = self.shortest.get(self.best.denominator)
        if certificate is None:
            certificate = Certificate(self.claim, self.best.denominator, [Share(self.best.denominator, self.best.rows)])
        return join.written(self.asker.statement.problem, certificate._replace(claim=self.claim))[1:]

    def model(self, prime: int) -> List[str]:
        """The block of a model modulo the prime that breaks the claim, where one is found."""
        lines = [line for line in self.asker.statement.text.split("\n") if first_word(line) != "model"]
        shapes = [f"model {prime} " + " ".join(f"{name} {side}" for name in self.asker.statement.objects) for side in SIDES]
        path = self.asker.folder / "modulo.op"
        path.write_bytes("\n".join([*lines, *shapes, ""]).encode())
        for seed in SEEDS if prime in PRIMES else ():
            if time.monotonic() > self.until:
                break
            _, report = self.asker.program.report(["refute", str(path), "--workers", "1", "--seed", str(seed)], 20)
            for number, head, block in sections(report.decode("utf-8", "replace")):
                if number == self.claim and head.startswith("refuted"):
                    return block
        return []


def primes_of(number: int) -> List[int]:
    found, divisor = [], 2
    while divisor * divisor <= number:
        if number % divisor == 0:
            found.append(divisor)
            number //= divisor
        else:
            divisor += 1
    return sorted(set(found + ([number] if number > 1 else [])))


def options_of(words: List[str]) -> argparse.Namespace:
    made = words_of("denominator", __doc__, 60)
    made.add_argument("report", metavar="REPORT", help="certificates, or a report that has some")
    return made.parse_args(words)


def answer(words: List[str], folder: Path) -> Answer:
    options = options_of(words)
    statement = Statement(options.statement)
    certificates = Evidence(statement.problem, options.report).certificates
    asker = by_variants.Asker(Program(Path(programs.path())), folder, statement)
    until = time.monotonic() + options.seconds
    lines: List[str] = []
    is_known = True
    for claim in sorted({one.claim for one in certificates}):
        search = Smaller(asker, claim, until)
        mine = [one for one in certificates if one.claim == claim]
        if not is_accepted(asker.program, folder, statement.text, join.written(statement.problem, mine[0])[1:]):
            raise Refusal(f"# the certificate of claim {claim} is refused by `check`")
        for one in mine:
            search.take(one)
        search.run()
        search.progress.clear()
        told, is_least = answer_of(search, options, min(one.denominator for one in mine))
        lines += told
        is_known = is_known and is_least
    return lines, 0 if is_known else 12


def answer_of(search: Smaller, options: argparse.Namespace, before: int) -> Tuple[List[str], bool]:
    """What is told of one claim, and whether the denominator is as small as it can be, but for powers of primes."""
    assert search.best
    after = min(before, search.best.denominator)
    lines = [f"# claim {search.claim} denominator {after}" + (f", and {before} before" if after < before else "")]
    if after < before:
        block = search.block()
        if is_accepted(search.asker.program, search.asker.folder, search.asker.statement.text, block):
            lines += block
            keep(options.keep, Finding("", block, search.asker.statement.text, f"claim_{search.claim}_denominator"))
    is_least = True
    for prime in primes_of(after):
        model = search.model(prime)
        if model and is_accepted(search.asker.program, search.asker.folder, search.asker.statement.text, model):
            lines.append(f"#   {prime} has to divide it: matrices modulo {prime} make the assumptions zero and not the claim")
            keep(options.keep, Finding("", model, search.asker.statement.text, f"claim_{search.claim}_modulo_{prime}"))
        else:
            lines.append(f"#   whether {prime} has to divide it isn't known: no matrices modulo {prime} were found")
            is_least = False
    return lines, is_least


def main(words: List[str]) -> int:
    return answered("denominator", answer, words)
