"""What verdicts mean, in sentences of HTML that say as much as docs/FORMATS.md does and no more."""
from __future__ import annotations

from html import escape
from typing import List, Sequence

from opprove.checkers.check import Problem
from opprove.words.outcomes import Outcome, stopped


def listed(texts: Sequence[str]) -> str:
    return " and ".join([", ".join(texts[:-1])] * (len(texts) > 1) + [*texts[-1:]])


INVOLUTIONS = {
    "": "",
    "proper": "that is proper (<i>r</i><sup>∗</sup> <i>r</i> = 0 only for <i>r</i> = 0)",
    "positive": "that is positive (a sum of <i>r</i><sup>∗</sup> <i>r</i> with a common source is 0 only where each <i>r</i> is)",
}


def proved(problem: Problem, denominator: int, monic: Sequence[str] = (), epic: Sequence[str] = (), kind: str = "") -> List[str]:
    """Of a certificate, or of a proof that takes off letters with these names, in HTML, or stars where the involution is of a kind."""
    conditions = []
    if denominator != 1:
        conditions.append(f"{denominator} cancels ({denominator} <i>m</i> = 0 only for <i>m</i> = 0)")
    if monic:
        conditions.append(f"{listed(monic)} {named(monic, 'monic')} ({one(monic)} <i>n</i> = 0 only for <i>n</i> = 0)")
    if epic:
        conditions.append(f"{listed(epic)} {named(epic, 'epic')} (<i>n</i> {one(epic)} = 0 only for <i>n</i> = 0)")
    conditions.append("all assumptions hold")
    where = "in every preadditive category" + (f" with an involution {INVOLUTIONS[kind]}".rstrip() if problem.is_starred else "")
    chosen = "objects and maps are chosen as declared"
    if problem.is_starred:
        chosen += ", with adjoints for <sup>∗</sup>"
    return [f"This holds {where}: whenever {chosen}, and {listed(conditions)}, the claim holds."]


def named(names: Sequence[str], kind: str) -> str:
    return f"{'is' if len(names) == 1 else 'are'} {kind}"


def one(names: Sequence[str]) -> str:
    """The one name, or one that stands for each of them."""
    return names[0] if len(names) == 1 else "<i>m</i>"


def refuted(problem: Problem, modulus: int) -> List[str]:
    transposes = ", with transposes for adjoints," if problem.is_starred else ""
    if not modulus:
        told = f"With these matrices of rational numbers{transposes} all assumptions hold and the claim doesn’t."
        return [told, "So it fails for complex matrices, with conjugate transposes for adjoints, and for operators."]
    return [
        f"With these matrices modulo {modulus}{transposes} all assumptions hold and the claim doesn’t: it doesn’t follow from them.",
        f"It may hold under more assumptions, as that some integer cancels that has no inverse modulo {modulus}.",
    ]


def not_derivable(problem: Problem, is_sharp: bool) -> List[str]:
    told = [
        "No positive multiple of the claim is a sum of multiples of the generators, which are the assumptions, their adjoints where "
        "adjoints occur, and what identities satisfy."
    ]
    if is_sharp:
        others = ", or in all of them with an involution," if problem.is_starred else ""
        told.append(
            "This is sharp: the rules below make a preadditive category in which each positive integer cancels, where all generators are "
            f"zero and the claim isn’t. So nothing that holds in all preadditive categories{others} proves it, whatever cancels."
        )
    others = "of involutions for which r* r = 0 gives r = 0" if problem.is_starred else "of categories with an involution"
    told.append(f"It says nothing of matrices of finite size, nor {others}: there the claim may hold all the same.")
    stars = ", and with <code>--complex</code> for those that do by r* r = 0" if problem.is_starred else ""
    return [*told, f"<code>opprove search</code> looks for proofs that take off what is monic or epic{stars}."]


def undecided(outcome: Outcome) -> List[str]:
    """Of a head line that ends with a cause."""
    told = [f"Not known: {escape(stopped(outcome.rest.strip()))}."]
    if " least " in outcome.rest:
        word = escape(outcome.rest.split(" least ")[1])
        below = f"in which all words are below <code>{word}</code>"
        told.append(f"No positive multiple of the claim is a sum of multiples of the generators {below}.")
    if " at certificate after round " in outcome.rest:
        told.append("Some positive multiple of the claim is a sum of multiples of the generators.")
    return told


def not_refuted(outcome: Outcome) -> List[str]:
    count = outcome.number("candidates")
    tried = f"none of {count:,} candidates for matrices makes all assumptions hold and the claim not"
    return [f"Not known: {tried}. That says nothing of the claim."]
