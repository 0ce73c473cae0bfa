#!/usr/bin/env -S PYTHONPATH=python/src:python/tests python3
"""Finds which theorems of the library are lemmas of which, and writes library/lemmas.tsv: library_lemmas.py [--anew] [THEOREM ..]

A theorem, as CHAPTER/NAME, is proved from another one where

- with words of its maps in the place of the other's, what the other assumes is proved from its own assumptions, by `prove` with
  denominator 1, and so is what is cited of the other;
- its own chain has fewer steps where it may cite that, and does so. Chains are those of `chain` with the effort of pages: by the rows
  that are known, with what is cited among the equations, or by what `prove` finds with it;
- the longest chain of the other's file is shorter than that of its own, so that none is proved from what is proved from it, and that of
  what is cited has three steps at least.

Places are looked for by library_places.py, which doesn't find all; of what is said at them the shortest equations are tried, all at
once, and then those of one theorem after another. A row of the table has the theorem, the other one, the words of its maps, the claims
that are cited, and the steps without and with all that the theorem cites. What was found is kept in out/lemmas by the texts of both, so
that a run goes on where the last one ended; --anew looks for all again. What a table says is tried by `dev/try.py library`.
"""
from __future__ import annotations

import hashlib
import json
import re
import subprocess
import sys
from collections import Counter
from concurrent.futures import Executor, ProcessPoolExecutor
from functools import lru_cache
from itertools import repeat
from pathlib import Path
from typing import Dict, Iterable, Iterator, List, NamedTuple, Optional, Sequence, Set, Tuple

from library_places import Binding, Places, Row, Sum, Text, Theorem, assumed, normal, said
from measure_chains import reports, words_of
from opprove.checkers.check import Certificate, Evidence, Problem
from opprove.page.pages import Entry, Lemma, Statement, entries_of
from opprove.program import Refused, run
from opprove.translations.chain import QUICK_EFFORT, Proof, Reader, length, used
from trying import LIBRARY, TOP

TABLE = LIBRARY / "lemmas.tsv"
TAKEN, EACH, OTHERS = 60, 12, 8  # equations that are tried at once, of one theorem, and how many theorems are tried by themselves
LEAST, ROUNDS, SECONDS = 3, 4, 20  # steps of what is cited; rounds in which what isn't used is left out; for a run of `prove`
MADE = "harder/"  # a chapter of statements that are made, which none cites
Steps = Dict[int, Tuple[int, int]]  # of the chains of claims, with their denominators


class Known(NamedTuple):
    """What is known of a statement: its claims that are proved, by certificates."""

    name: str  # behind its chapter
    text: str
    options: List[str]
    proved: Steps
    certificates: List[Certificate]
    weight: int = 0  # the steps of the longest chain of its file

    def cited(self) -> Tuple[int, ...]:
        """The claims that others may cite."""
        proved = {} if self.name.startswith(MADE) else self.proved
        return tuple(claim for claim, (steps, denominator) in proved.items() if denominator == 1 and steps >= LEAST)


class Equation(NamedTuple):
    """What a claim of a theorem says at a place, where a sum is 0."""

    lemma: str
    maps: str
    claim: int
    poly: Sum
    text: str

    def letters(self) -> Tuple[int, str]:
        return sum(map(len, self.poly)), self.text


class Found(NamedTuple):
    """What a theorem cites, and the steps of its claims that become fewer, before and then."""

    cited: List[Equation]
    steps: Dict[int, Tuple[int, int]]

    def change(self) -> int:
        return sum(after - before for before, after in self.steps.values())


# ---- What is known


def proofs_in(reader: Reader, certificates: Sequence[Certificate]) -> Iterator[Proof]:
    reader.begin(len(certificates))
    return map(reader.proof, certificates)


def certificates_of(problem: Problem, report: bytes) -> List[Certificate]:
    return Evidence(problem, report).certificates if re.search(b"^certificate ", report, re.MULTILINE) else []


def known(name: str, statement: Statement, verdict: str) -> Known:
    """What evidence beside a statement proves, or else `prove`."""
    options, problem = words_of(verdict), Problem(statement.text.encode())
    found: Dict[int, Certificate] = {}
    for report in reports(statement, options) if "proved" in verdict else ():
        for certificate in certificates_of(problem, report):
            found.setdefault(certificate.claim, certificate)
    proofs = proofs_in(Reader(problem, QUICK_EFFORT), [*found.values()])
    proved = {one.certificate.claim: (length(one.chains), one.certificate.denominator) for one in proofs}
    return Known(name, statement.text, options, proved, [*found.values()])


def all_known(entries: Sequence[Entry], pool: Executor) -> Dict[str, Known]:
    """All that is known of the library, by names."""
    pairs = [(entry, statement) for entry in entries for statement in entry.statements]
    names = [f"{entry.chapter}/{statement.name}" for entry, statement in pairs]
    every = list(pool.map(known, names, [one for _, one in pairs], [entry.fields["VERDICT"] for entry, _ in pairs]))
    weights: Counter[Path] = Counter()
    for (entry, _), one in zip(pairs, every):
        weights[entry.path] = max([weights[entry.path], *(steps for steps, _ in one.proved.values())])
    return {one.name: one._replace(weight=weights[entry.path]) for (entry, _), one in zip(pairs, every)}


# ---- What may be cited


@lru_cache(maxsize=None)
def theorem(text: str, numbers: Tuple[int, ...]) -> Theorem:
    """That of a statement, with its claims of these numbers."""
    return Theorem(text, numbers)


def equations_for(one: Known, others: Iterable[Known]) -> List[Equation]:
    """What theorems with shorter chains say at places in a statement, the shortest equations first, each once."""
    text = Text(one.text)
    found: Dict[object, Equation] = {}
    for other in others:
        if other.weight < one.weight and other.cited():
            lemma = theorem(other.text, other.cited())
            for binding in Places(lemma, text).found():
                maps = spelled(lemma, text, binding)
                for claim, row in said(lemma, text, binding).items():
                    made, terms = equation_of(other.name, maps, text, claim, row), normal(row.poly)
                    if terms not in found or len(found[terms].maps) > len(maps):
                        found[terms] = made
    return sorted(found.values(), key=Equation.letters)


def equation_of(lemma: str, maps: str, text: Text, claim: int, row: Row) -> Equation:
    return Equation(lemma, maps, claim, row.poly, f"{text.spelled(row.poly, row.ends)} = 0")


def spelled(lemma: Theorem, text: Text, binding: Binding) -> str:
    """What is put for maps: `a = b' c, x = y`."""
    names, units = lemma.problem.names, (0, 0)
    return ", ".join(f"{names[ord(letter)]} = {text.word(word, units)}" for letter, word in sorted(binding.items()))


# ---- Whether a chain becomes shorter


def moved(certificate: Certificate, old: Problem, new: Problem) -> Certificate:
    """A certificate in a statement with more assumptions behind the others."""
    numbers = {frozenset(poly.items()): number for number, poly in reversed(list(enumerate(new.generators(), 1)))}
    places = [numbers[frozenset(poly.items())] for poly in old.generators()]
    shares = [
        share._replace(rows=[row if row.is_lemma else row._replace(number=places[row.number - 1]) for row in share.rows])
        for share in certificate.shares
    ]
    return certificate._replace(shares=shares)


def citing(one: Known, cited: Sequence[Equation]) -> Dict[int, Tuple[int, Set[int]]]:
    """The claims of a statement whose chains become shorter where these may be cited: their steps, and the places of those that are."""
    text = "\n".join([one.text.rstrip(), *(f"assume {equation.text}" for equation in cited), ""])
    problem = Problem(text.encode())
    found: Dict[int, Tuple[int, Set[int]]] = {}
    first = len(problem.assumptions) - len(cited) + 1
    for certificates in ([moved(made, Problem(one.text.encode()), problem) for made in one.certificates], proved(one, text, problem)):
        reader = Reader(problem, QUICK_EFFORT)
        for proof in proofs_in(reader, certificates):
            claim, steps = proof.certificate.claim, length(proof.chains)
            known_steps, denominator = one.proved.get(claim, (0, 0))
            least = found[claim][0] if claim in found else known_steps
            numbers = {number - first for number in used(reader, proof) if number >= first}
            if numbers and steps < least and proof.certificate.denominator <= denominator:
                found[claim] = steps, numbers
    return found


def proved(one: Known, text: str, problem: Problem) -> List[Certificate]:
    """What `prove` finds for a statement with this text."""
    try:
        report = run(None, "prove", [text], ["--no-models", "--workers", "1", *one.options], SECONDS)
    except (Refused, subprocess.TimeoutExpired):
        return []
    return certificates_of(problem, report.encode())


def is_granted(one: Known, lemma: Theorem, maps: str) -> bool:
    """Whether what a theorem assumes at a place is proved from what a statement assumes."""
    text = Text(one.text)
    if lemma.problem.is_starred and not text.is_starred:
        return False
    claims = [f"claim {text.spelled(row.poly, row.ends)} = 0" for row in assumed(lemma, text, binding_of(lemma, text, maps))]
    own = {line.tokens[0].line for line in text.problem.lines if line.tokens[0].text == "claim"}
    lines = [line for number, line in enumerate(one.text.split("\n"), 1) if number not in own]
    try:
        report = run(None, "prove", ["\n".join([*lines, *claims, ""])], ["--no-models", "--workers", "1"], SECONDS) if claims else ""
    except (Refused, subprocess.TimeoutExpired):
        return False
    return len(re.findall("^# claim [0-9]+ proved denominator 1 ", report, re.MULTILINE)) == len(claims)


def binding_of(lemma: Theorem, text: Text, maps: str) -> Binding:
    """The words of maps that are put so: `a = b' c, x = y`."""
    pairs = [pair.split(" = ") for pair in maps.split(", ")]
    words = {name: "".join(chr(text.problem.numbers[letter]) for letter in word.split(" ")) for name, word in pairs}
    return {chr(lemma.problem.numbers[name]): word for name, word in words.items()}


# ---- What is cited


class Search:
    """Looks for what a statement is proved from, among all that is known."""

    def __init__(self, one: Known, every: Dict[str, Known]) -> None:
        self.one, self.every = one, every

    def found(self) -> Optional[Found]:
        """All that is cited at once, or else the theorem by itself that saves the most steps."""
        equations = equations_for(self.one, self.every.values()) if self.one.proved else []
        of_each: Dict[str, List[Equation]] = {}
        for equation in equations:
            of_each.setdefault(equation.lemma, []).append(equation)
        every = self.settled(equations[:TAKEN])
        alone = [] if every else [self.settled(made[:EACH]) for made in [*of_each.values()][:OTHERS]]
        least = min((found.change() for found in alone if found), default=0)
        return every or next((found for found in alone if found and found.change() == least), None)

    def settled(self, cited: Sequence[Equation]) -> Optional[Found]:
        """Of some equations those that are cited where there are no others."""
        for _ in range(ROUNDS if cited else 0):
            gained = citing(self.one, cited)
            numbers = {number for _, used_there in gained.values() for number in used_there}
            kept = [one for number, one in enumerate(cited) if number in numbers and self.is_granted(one)]
            if len(kept) == len(cited):
                return Found(kept, {claim: (self.one.proved[claim][0], steps) for claim, (steps, _) in gained.items()})
            if not kept:
                return None
            cited = kept
        return None

    def is_granted(self, equation: Equation) -> bool:
        lemma = self.every[equation.lemma]
        return is_granted(self.one, theorem(lemma.text, lemma.cited()), equation.maps)


# ---- The table


def rows_of(name: str, found: Found) -> List[Lemma]:
    """The rows of a theorem, one for each place of another one."""
    shorter = "; ".join(f"claim {claim}: {before} to {after}" for claim, (before, after) in sorted(found.steps.items()))
    claims: Dict[Tuple[str, str], List[int]] = {}
    for one in found.cited:
        claims.setdefault((one.lemma, one.maps), []).append(one.claim)
    return [Lemma(name, lemma, maps, " ".join(map(str, sorted(numbers))), shorter) for (lemma, maps), numbers in sorted(claims.items())]


def searched(name: str, every: Dict[str, Known]) -> List[Lemma]:
    """The rows of a theorem."""
    found = Search(every[name], every).found()
    return rows_of(name, found) if found else []


def fault(name: str, rows: List[Lemma], every: Dict[str, Known]) -> str:
    """What is wrong with the rows of a theorem, or nothing."""
    one = every[name]
    cited: List[Equation] = []
    for row in rows:
        other, numbers = every[row.lemma], list(map(int, row.cited.split(" ")))
        if other.weight >= one.weight or not {*numbers} <= {*other.cited()}:
            return f"{name}: {row.lemma} isn't to be cited"
        lemma, text = theorem(other.text, other.cited()), Text(one.text)
        if not is_granted(one, lemma, row.maps):
            return f"{name}: what {row.lemma} assumes isn't proved"
        claims = said(lemma, text, binding_of(lemma, text, row.maps))
        cited += [equation_of(other.name, row.maps, text, number, claims[number]) for number in numbers]
    cited.sort(key=Equation.letters)
    gained = citing(one, cited)
    found = {(str(claim), str(one.proved[claim][0]), str(steps)) for claim, (steps, _) in gained.items()}
    is_used = {number for _, numbers in gained.values() for number in numbers} == {*range(len(cited))}
    is_shorter = {*re.findall("claim ([0-9]+): ([0-9]+) to ([0-9]+)", rows[0].shorter)} == found
    return "" if is_used and is_shorter else f"{name}: what is cited makes it {sorted(found)}"


class Kept:
    """What runs found over the same texts and chains, a line of JSON for each theorem."""

    def __init__(self, every: Dict[str, Known], is_anew: bool) -> None:
        what = [(one.name, one.text, one.weight, sorted(one.proved.items())) for one in every.values()]
        self.path = TOP / "out" / "lemmas" / f"{hashlib.sha256(repr(what).encode()).hexdigest()[:16]}.json"
        self.path.parent.mkdir(parents=True, exist_ok=True)
        if is_anew:
            self.path.unlink(missing_ok=True)
        lines = self.path.read_text("utf-8").splitlines() if self.path.exists() else []
        self.rows: Dict[str, List[Lemma]] = {name: [Lemma(*row) for row in rows] for name, rows in map(json.loads, lines)}

    def keep(self, name: str, rows: List[Lemma]) -> None:
        self.rows[name] = rows
        with self.path.open("a", encoding="utf-8") as file:
            file.write(json.dumps([name, rows]) + "\n")


def main(words: List[str]) -> int:
    """Looks for what isn't kept, and writes the table where all theorems were looked at."""
    names = [word for word in words if word != "--anew"]
    if any(name.startswith("-") for name in names):
        print("usage: library_lemmas.py [--anew] [THEOREM ..]")
        return 2
    try:
        return looked_for(names, "--anew" in words and not names)
    except FileNotFoundError as error:
        print(f"library_lemmas.py: {error}", file=sys.stderr)
        return 1


def looked_for(names: List[str], anew: bool) -> int:
    """The same of these theorems, or of all."""
    with ProcessPoolExecutor() as pool:
        every = all_known(list(entries_of(LIBRARY)), pool)
        unknown = [name for name in names if name not in every]
        if unknown:
            print(f"there is no theorem {unknown[0]}")
            return 2
        kept = Kept(every, anew)
        left = names or [name for name in every if name not in kept.rows]
        for name, rows in zip(left, pool.map(searched, left, repeat(every))):
            kept.keep(name, rows)
            for row in rows:
                print("\t".join(row), flush=True)
    if not names:
        rows = [row for name in every for row in kept.rows[name]]
        TABLE.write_text("".join("\t".join(row) + "\n" for row in [Lemma._fields, *rows]), encoding="utf-8")
        print(f"{sum(map(bool, kept.rows.values()))} theorems are proved from others, at {len(rows)} places")
    return 0


if __name__ == "__main__":
    sys.exit(main(sys.argv[1:]))
