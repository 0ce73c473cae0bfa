#!/usr/bin/env -S PYTHONPATH=python/src:python/tests python3
"""How long the chains of a folder of statements are: measure_chains.py FOLDER [EFFORT]

For each claim that is proved, by the evidence beside its statement or else by `prove` with the words that the verdict of its comments
names, the steps of all chains of its proof, those of lemmas among them, and those of the longest one, as `chain` writes them with
this effort. A line a claim, and then how many claims there are, the median, how many have over 60 steps, the longest and all steps,
both ways.
"""
from __future__ import annotations

import re
import subprocess
import sys
from concurrent.futures import ProcessPoolExecutor
from itertools import repeat
from pathlib import Path
from statistics import median
from typing import Dict, Iterator, List, NamedTuple, Sequence, Tuple

from opprove.checkers.check import Problem
from opprove.page.pages import Statement, entries_of
from opprove.program import Refused, run
from opprove.translations.chain import EFFORT, Reader, proofs_of

LONG, SECONDS = 60, 120
EVIDENCE = (".report", ".cert", ".star")


class Length(NamedTuple):
    """Of a proof: the steps of all its chains, and of the longest."""

    steps: int
    longest: int


def reports(statement: Statement, options: List[str]) -> Iterator[bytes]:
    """The evidence beside a statement, and what `prove` finds."""
    yield from (path.read_bytes() for path in statement.evidence if path.suffix in EVIDENCE)
    try:
        yield run(None, "prove", [statement.text], ["--no-models", "--workers", "1", *options], SECONDS).encode()
    except (Refused, subprocess.TimeoutExpired) as ended:
        print(f"{statement.name}: {ended}", file=sys.stderr)


def lengths(statement: Statement, options: List[str], effort: int) -> Dict[int, Length]:
    """Of each claim that is proved, by the first evidence that proves it."""
    problem = Problem(statement.text.encode())
    found: Dict[int, Length] = {}
    for report in reports(statement, options):
        if re.search(rb"^(certificate|cancellation|star proof) ", report, re.MULTILINE):
            for proof in proofs_of(Reader(problem, effort), report):
                steps = [len(chain.steps) for chain in proof.chains]
                found.setdefault(proof.certificate.claim, Length(sum(steps), max(steps)))
    return found


def words_of(verdict: str) -> List[str]:
    """The words for `prove` that a verdict names."""
    return " ".join(re.findall(r"--(?:pairs|steps) [0-9]+", verdict)).split()


def table(found: Sequence[Tuple[str, Length]]) -> Iterator[str]:
    """The lengths in short."""
    yield "| | claims | median | over 60 | longest | all steps |\n|---|---|---|---|---|---|"
    for name, counts in (("with lemmas", [one.steps for _, one in found]), ("longest chain", [one.longest for _, one in found])):
        yield f"| {name} | {len(counts)} | {median(counts):g} | {sum(count > LONG for count in counts)} | {max(counts)} | {sum(counts)} |"


def main(words: List[str]) -> int:
    """Writes the lengths, and the table."""
    if not words or not Path(words[0]).is_dir():
        print("usage: measure_chains.py FOLDER [EFFORT]")
        return 2
    effort = int(words[1]) if words[1:] else EFFORT
    pairs = [(entry, statement) for entry in entries_of(Path(words[0])) for statement in entry.statements]
    found: List[Tuple[str, Length]] = []
    with ProcessPoolExecutor() as pool:
        options = [words_of(entry.fields["VERDICT"]) for entry, _ in pairs]
        of_statements = pool.map(lengths, [statement for _, statement in pairs], options, repeat(effort))
        for (entry, statement), of_claims in zip(pairs, of_statements):
            found += [(f"{entry.chapter}/{statement.name} {claim}", one) for claim, one in sorted(of_claims.items())]
            for name, one in found[len(found) - len(of_claims) :]:
                print(f"{name}\t{one.steps}\t{one.longest}", flush=True)
    print("\n".join(table(found)))
    return 0


if __name__ == "__main__":
    sys.exit(main(sys.argv[1:]))
