"""Searches that run in a process of their own, for the tool `search`: what is found is written as lines of JSON.

    python3 -m opprove.search.worker STATEMENT cancel SECONDS CLAIMS MONIC EPIC STARS
    python3 -m opprove.search.worker STATEMENT rational SECONDS CLAIMS MONIC EPIC SEED

SECONDS are of processor time. CLAIMS, MONIC and EPIC are numbers and letters with commas between them, MONIC is `*` where all letters
are tried, and STARS is 1 where stars may be taken off. Rational matrices of monic maps have full column rank, those of epic ones full
row rank. Each line has the number of a claim, a block of evidence, and what it takes for granted; a star proof has its statement for
matrices and the certificate for that besides, and rational matrices have the model that they are modulo a prime.
"""
from __future__ import annotations

import json
import sys
import time
from typing import Dict, FrozenSet, Iterable, List, Optional

from opprove.checkers.check import Problem
from opprove.search import engine, rationals
from opprove.search.chase import Chase, Letters, first_of, least, maps_of
from opprove.search.engine import now
from opprove.search.findings import text_of
from opprove.search.matrices import Matrices
from opprove.search.proofs import Proof, Writer, takes


def put(**values: object) -> None:
    print(json.dumps(values), flush=True)


def put_proof(text: str, proof: Proof) -> None:
    pieces: Dict[str, object] = {}
    if proof.roots():
        matrices = Matrices(proof, text)
        pieces = {"statement": matrices.text, "certificate": matrices.certificate()}
    put(claim=proof.claim, block=Writer(proof).block(), takes=takes(proof), **pieces)


def cancelled(text: str, problem: Problem, claims: List[int], until: float, letters: Letters) -> None:
    """Proofs by these letters alone."""
    for proof in first_of(problem, claims, letters, until).values():
        put_proof(text, proof)


def cancelled_by_any(text: str, problem: Problem, claims: List[int], until: float) -> None:
    """Proofs by letters that are tried: in front of the claim and behind it alone, then one letter, then all of them; of what
    a proof takes off as much is dropped as can be."""
    letters = maps_of(problem)
    everything = Letters(frozenset(letters), frozenset(letters))
    share = (until - now()) / 4
    found = Chase(problem, claims, everything, now() + 2 * share, is_small=False, is_of_claims=True).run()
    for claim in claims:
        proof = found.get(claim) or by_single(problem, claim, letters, now() + share / len(claims))
        if proof is None:
            proof = first_of(problem, [claim], everything, now() + share / len(claims)).get(claim)
        if proof is not None:
            put_proof(text, least(problem, claim, proof, share / 2 / len(claims)))


def by_single(problem: Problem, claim: int, letters: Iterable[int], until: float) -> Optional[Proof]:
    """A proof that takes off one letter alone."""
    none: FrozenSet[int] = frozenset()
    for letter in letters:
        for one in (Letters(frozenset([letter]), none), Letters(none, frozenset([letter]))):
            found = first_of(problem, [claim], one, min(until, now() + 2)).get(claim)
            if found is not None:
                return found
    return None


def main(words: List[str]) -> int:
    engine.CLOCK = time.process_time
    path, kind, seconds, numbers, *rest = words
    text, problem = text_of(path), Problem(path)
    until = now() + float(seconds)
    claims = [int(number) for number in numbers.split(",")]
    monic, epic, last = rest
    if monic == "*":
        cancelled_by_any(text, problem, claims, until)
        return 0
    sets = [frozenset(problem.numbers[name] for name in names.split(",") if name) for names in (monic, epic)]
    if kind == "rational":
        for found in rationals.Rationals(problem, claims, int(last), sets[0], sets[1]).run(until):
            put(claim=found.claim, block=rationals.block(problem, found), takes="", modular=rationals.modular(problem, found))
    else:
        cancelled(text, problem, claims, until, Letters(sets[0], sets[1], last == "1"))
    return 0


if __name__ == "__main__":
    sys.exit(main(sys.argv[1:]))
