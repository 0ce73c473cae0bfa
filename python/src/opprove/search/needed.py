"""The least sets of assumptions from which a claim follows

For each claim it finds the least sets of equations from which `prove` proves it, smallest first, each with a certificate that uses no
others and that `check` accepts for STATEMENT; which equations are in none of them, and so aren't needed; and which are in all. What
stands in an abbreviation counts by itself: `(3) of pinv a x` is its third equation. Then come the greatest sets from which it isn't
proved, told by what they leave out, each with matrices that break the claim or closed rules where such are found; FOLDER gets those
statements with their evidence. Not all subsets are tried: what follows from fewer follows from more, and what a certificate doesn't
use isn't needed.

Statuses: 0 where the lists are complete, 12 where the time was over before
that, or where a claim isn't proved from all assumptions.
"""
from __future__ import annotations

import argparse
import time
from pathlib import Path
from typing import Dict, FrozenSet, List, NamedTuple, Optional, Sequence, Set, Tuple

from opprove import program as programs
from opprove.checkers.check import ABBREVIATIONS, Certificate, Evidence, Problem, Refusal
from opprove.search import join, variants
from opprove.search.asking import Asker, side_by_side
from opprove.search.findings import Answer, Finding, add_scheduler, answered, is_accepted, keep, positive, sections, words_of
from opprove.search.running import Program, Progress
from opprove.search.variants import Statement

MORE = 3  # times the pairs, where the claim isn't proved by so many from all equations
SHARE = 0.75  # of the time, which goes to the sets; the rest to what shows that the greatest ones don't do
Units = FrozenSet[int]  # equations, by their numbers from 0


class Tested(NamedTuple):
    """What `prove` says of a claim from some equations."""

    is_proved: bool
    used: Units  # by its certificate
    text: str
    verdict: str
    block: List[str]


class Marco:
    """The least sets that pass a test which is closed upwards, and the greatest that don't, each found once."""

    def __init__(self, claim: "Claim", units: Units, until: float) -> None:
        self.claim, self.all, self.until = claim, units, until
        self.least: List[Units] = []
        self.greatest: List[Units] = []
        self.is_complete = False

    def run(self) -> None:
        if not self.claim.test(self.all).is_proved:
            self.claim.raise_pairs()
        while time.monotonic() < self.until:
            seed = self.seed()
            if seed is None:
                self.is_complete = True
                return
            tested = self.claim.test(seed)
            if tested.is_proved:
                self.shrink(tested.used)
            else:
                self.grow(seed)

    def seed(self) -> Optional[Units]:
        """A set that contains no least set and lies in no greatest one, as large as it gets one by one."""
        found = self.chosen(frozenset(), frozenset(), sorted(self.all))
        if found is None:
            return None
        for one in sorted(self.all - found):
            larger = found | {one}
            if not any(least <= larger for least in self.least):
                found = larger
        return found

    def chosen(self, inside: Units, outside: Units, rest: Sequence[int]) -> Optional[Units]:
        """Goes through the sets, as far as none of the two conditions is broken."""
        if any(least <= inside for least in self.least) or any(self.all - greatest <= outside for greatest in self.greatest):
            return None
        if not rest:
            return inside
        for is_in in (True, False):
            one = frozenset([rest[0]])
            found = self.chosen(inside | one if is_in else inside, outside if is_in else outside | one, rest[1:])
            if found is not None:
                return found
        return None

    def shrink(self, found: Units) -> None:
        """A least set in one that passes."""
        for one in sorted(found):
            if one in found and time.monotonic() < self.until:
                tested = self.claim.test(found - {one})
                found = tested.used if tested.is_proved else found
        if time.monotonic() < self.until:
            self.least.append(found)

    def grow(self, found: Units) -> None:
        """A greatest set around one that doesn't pass."""
        for one in sorted(self.all - found):
            larger = found | {one}
            is_known = any(least <= larger for least in self.least)
            if not is_known and time.monotonic() < self.until and not self.claim.test(larger).is_proved:
                found = larger
        self.greatest.append(found)


class Claim:
    """A claim, asked of sets of equations."""

    def __init__(self, asker: Asker, statement: Statement, number: int, options: argparse.Namespace, progress: Progress) -> None:
        self.asker, self.statement, self.number, self.options, self.progress = asker, statement, number, options, progress
        until = time.monotonic() + SHARE * options.seconds
        self.goal = statement.claims[number - 1]
        self.keys = [join.shape(equation.poly)[0] if equation.poly else None for equation in statement.assumptions]
        self.tests: Dict[Units, Tested] = {}
        self.pairs = options.pairs
        every = frozenset(range(len(statement.assumptions)))
        among = frozenset(unit for unit in every if line_of(statement, unit)[1].startswith(options.among))
        self.fixed = every - among  # equations that aren't asked about
        self.marco = Marco(self, among, until)

    def text(self, units: Units) -> str:
        chosen = [self.statement.assumptions[unit] for unit in sorted(units)]
        order = variants.written(self.statement, chosen, self.goal)
        return variants.text_of(self.statement, chosen, [self.goal], order)

    def test(self, units: Units) -> Tested:
        if units not in self.tests:
            self.tests[units] = self.tested(units | self.fixed)
        return self.tests[units]

    def tested(self, units: Units) -> Tested:
        text = self.text(units)
        seconds = max(1, int(self.marco.until - time.monotonic()) + 1)
        sets = f"{len(self.marco.least)} least sets, {len(self.marco.greatest)} greatest that don't do"
        self.progress.tell(f"claim {self.number}: {sets}, {self.asker.count} runs")
        words = ["prove", "--no-models", "--workers", "1", "--pairs", str(self.pairs)]
        _, report = self.asker.ask(words, text, seconds)
        for _, head, block in sections(report.decode("utf-8", "replace")):
            if head.startswith("proved"):
                return Tested(True, self.used(text, block) - self.fixed, text, head, block)
            return Tested(False, frozenset(), text, head, block)
        return Tested(False, frozenset(), text, "undecided", [])

    def used(self, text: str, block: List[str]) -> Units:
        """The equations that a certificate names, by their polynomials or those of their adjoints."""
        problem = Problem(text.encode())
        found: Set[int] = set()
        for certificate in certificates(problem, block):
            generators = problem.generators()
            numbers = {row.number for share in certificate.shares for row in share.rows if not row.is_lemma}
            for number in numbers:
                found |= self.units_of(problem, number, len(generators))
        return frozenset(found)

    def units_of(self, problem: Problem, number: int, count: int) -> Set[int]:
        """The equation whose polynomial, or that of whose adjoint, this generator of a variant is, but for its letters' numbers."""
        mine = self.statement.problem
        poly = problem.generators()[number - 1]
        moved = {tuple(mine.numbers[problem.names[letter]] for letter in word): value for word, value in poly.items()}
        keys = {join.shape(one)[0] for one in (moved, mine.star(moved)) if one}
        return {unit for unit, key in enumerate(self.keys) if key in keys}

    def raise_pairs(self) -> None:
        """Asks with more pairs, where the claim isn't proved from all equations."""
        self.pairs *= MORE
        self.tests.clear()

    # ---- What is told

    def certificate(self, units: Units) -> List[str]:
        """The certificate from these equations, for the statement as it was written."""
        tested = self.test(units)
        problem = Problem(tested.text.encode())
        found = [one._replace(claim=1) for one in certificates(problem, tested.block)]
        whole = join.Join(self.statement.problem)
        try:
            whole.add(join.Piece(problem, found, {}))
        except Refusal:
            return []
        made = whole.certificate(self.number)
        return join.written(self.statement.problem, made) if made else []

    def failure(self, units: Units, folder: Path, name: str) -> List[str]:
        """What shows that the claim doesn't follow from these equations, as comments; FOLDER gets it."""
        tested = self.test(units)
        kind, block = tested.verdict.split(" rules")[0], tested.block
        left = int(self.options.seconds - self.progress.seconds())
        status, report = self.asker.ask(["refute", "--workers", "1"], tested.text, min(10, left)) if left > 0 else (1, b"")
        if status == 11:
            kind, block = "refuted", next(found for _, _, found in sections(report.decode()))
        if block and is_accepted(self.asker.program, folder, tested.text, block):
            keep(self.options.keep, Finding("", block, tested.text, name))
        else:
            kind = kind if kind.startswith("undecided") else "undecided"
        return [f"#   without {self.labels(self.marco.all - units)}: {kind}"]

    def labels(self, units: Units) -> str:
        return ", ".join(label_of(self.statement, unit) for unit in sorted(units)) or "nothing"

    def report(self, folder: Path, name: str) -> List[str]:
        marco = self.marco
        lines = [f"# claim {self.number}: {variants.spelled(self.goal.tokens, ())}"]
        for place, units in enumerate(sorted(marco.least, key=lambda units: (len(units), sorted(units))), 1):
            block = self.certificate(units)
            if block and is_accepted(self.asker.program, folder, self.statement.text, block[1:]):
                lines += [f"# follows from {self.labels(units)}" + ", with the others" * bool(self.fixed), *block[1:]]
                keep(self.options.keep, Finding("", block[1:], self.statement.text, f"{name}_{self.number}_from_{place}"))
        used = frozenset(unit for units in marco.least for unit in units)
        if marco.is_complete and marco.least:
            always = frozenset.intersection(*marco.least)
            lines += [f"# in each of these sets: {self.labels(always)}"] if always else []
            lines += [f"# {label_of(self.statement, unit)} isn't needed" for unit in sorted(marco.all - used)]
        if marco.greatest and marco.least:
            lines.append("# doesn't follow by `prove`")
            for place, units in enumerate(sorted(marco.greatest, key=lambda units: -len(units)), 1):
                lines += self.failure(units, folder, f"{name}_{self.number}_fails_{place}")
        if not marco.least:
            lines.append("# isn't proved from all assumptions")
        if not marco.is_complete:
            lines.append("# the time was over: there may be other sets, and smaller ones")
        return lines


def certificates(problem: Problem, block: List[str]) -> List[Certificate]:
    return Evidence(problem, ("\n".join(block) + "\n").encode()).certificates


def label_of(statement: Statement, unit: int) -> str:
    """An equation in the words of its line."""
    number, text = line_of(statement, unit)
    return f"({number}) of `{text}`" if number else f"`{text}`"


def line_of(statement: Statement, unit: int) -> Tuple[int, str]:
    """The text of the line that an equation stands in, and which one it is where the line has several."""
    for line in statement.problem.lines:
        word = line.tokens[0].text
        count = len(ABBREVIATIONS.get(word, [""])) if word in ABBREVIATIONS or word == "assume" else 0
        if unit < count:
            text = variants.spelled(tuple(token.text for token in line.tokens[:-1]), ())
            return (0 if count == 1 else unit + 1), text
        unit -= count
    raise IndexError(unit)


def options_of(words: List[str]) -> argparse.Namespace:
    made = words_of("needed", __doc__, 60)
    made.add_argument("--pairs", type=positive, default=2000, metavar="N", help="pairs of a run (2000), or three times as many where they don't do")
    made.add_argument("--among", default="", metavar="TEXT", help="asks of the lines alone that begin so, as `pinv`; the others are kept")
    add_scheduler(made)
    return made.parse_args(words)


def answer(words: List[str], folder: Path) -> Answer:
    options = options_of(words)
    statement = Statement(options.statement)
    program = Program(Path(programs.path()))
    progress = Progress("needed", options.seconds)
    with Asker(program, folder, options.scheduler) as asker:
        claims = [Claim(asker, statement, number, options, progress) for number in range(1, len(statement.claims) + 1)]
        for _ in side_by_side(options.jobs, lambda claim: claim.marco.run(), claims):
            pass
        name = Path(options.statement).stem
        lines = [line for claim in claims for line in claim.report(folder, name)]
        progress.clear()
    return lines, 0 if all(claim.marco.is_complete and claim.marco.least for claim in claims) else 12


def main(words: List[str]) -> int:
    return answered("needed", answer, words)
