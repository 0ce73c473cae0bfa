"""Tries shorter chains: the least sums that are taken, detours that are planted, `shortest`, and its reports in the library.

Least sums are compared with shortest paths. Rows that add up to nothing are put into random certificates, whose chains have to be as short
as without them, and of no chain are there more steps than its rows give as they are read.
"""
from __future__ import annotations

import re
from heapq import heappop, heappush
from pathlib import Path
from random import Random
from typing import Callable, Iterator, List, Tuple

from opprove.checkers.check import Certificate, Evidence, Problem, Row, Word, judge
from opprove.page.pages import entries_of
from opprove.translations.chain import Reader, length
from opprove.translations.least_sum import Effort, least
from drawing import Rows
from test_chains import drawn
from trying import EXAMPLES, LIBRARY, PROGRAM, Answer, need, run, tool, wrong_words

TOOL = tool("shortest")
Edge = Tuple[int, int, int]  # from, to and length


def graph(random: Random) -> List[Edge]:
    count = random.randrange(2, 20)
    return [(random.randrange(count), random.randrange(count), random.randrange(1, 9)) for _ in range(random.randrange(40))]


def distance(edges: List[Edge], start: int, end: int) -> float:
    """The length of the shortest path, where edges may be taken both ways."""
    heap, seen = [(0, start)], set()
    while heap:
        far, place = heappop(heap)
        if place == end:
            return far
        if place not in seen:
            seen.add(place)
            for one, other, more in edges:
                for here, there in ((one, other), (other, one)):
                    if here == place:
                        heappush(heap, (far + more, there))
    return float("inf")


def least_sums(folder: Path, count: int = 300) -> str:
    """An edge is a column: its end less its start."""
    random, paths = Random(1), 0
    for _ in range(count):
        edges = graph(random)
        columns = [{str(one): -1, str(other): 1} if one != other else {} for one, other, _ in edges]
        start, end = random.randrange(20), random.randrange(20)
        target = {str(start): -1, str(end): 1} if start != end else {}
        found = least(columns, [more for _, _, more in edges], target, Effort(10**6))
        want = distance(edges, start, end)
        got = float("inf") if found is None else sum(edges[number][2] * abs(value) for number, value in found.items())
        need(abs(got - want) < 1e-6 if found is not None else got == want, (edges, start, end, found, want))
        paths += found is not None
    need(least([{"a": 1}, {"a": 2, "b": 10**400}], [1, 1], {"a": 1}, Effort(100)) is None, "numbers that are too large")
    need(least([{"a": 1}], [1], {"a": 1}, Effort(0)) is None, "no effort")
    return f"{paths} shortest paths among {count} are least sums"


def swapped(problem: Problem, one: Row, other: Row, between: Word) -> List[Row]:
    """Rows that add up to 0: both polynomials with a word between them, the first one taken out of the product and then the second."""
    polys = problem.generators()
    first, second = polys[one.number - 1], polys[other.number - 1]
    rows = [Row(value, one.left, False, one.number, between + word + other.right) for word, value in second.items()]
    return rows + [Row(-value, one.left + word + between, False, other.number, other.right) for word, value in first.items()]


def detours(source: Rows, certificate: Certificate) -> Iterator[Row]:
    """Around each row of the goal, with another row behind it in the place of its right word."""
    for row in certificate.shares[-1].rows:
        if not row.is_lemma:
            start, _ = source.ends_of(row.left + next(iter(source.middle(row))) + row.right)
            other = Row(1, (), False, source.draw.choice(source.numbers), ())
            between = source.path(source.ends_of(next(iter(source.middle(other))))[1], start)
            yield from swapped(source.problem, row, other, row.right + between)


def planted(folder: Path, count: int = 80) -> str:
    draw = Random(3)
    shorter = steps = rows = 0
    for _ in range(count):
        text, source = drawn(draw)
        claim, made = source.certificate()
        problem = Problem(f"{text}claim {claim}\n".encode())
        more = list(detours(source, made))
        share = made.shares[-1]
        long = made._replace(shares=[*made.shares[:-1], share._replace(rows=share.rows + more)])
        judge(problem, long, claim)
        plain, before, after = (length(Reader(problem, effort).proof(one).chains) for effort, one in ((0, made), (0, long), (10**6, long)))
        need(after <= min(plain, before), (text, claim, long, plain, before, after))
        shorter, steps, rows = shorter + (after < plain), steps + after, rows + len(more)
    need(rows > 100 and shorter > 0, (rows, shorter))
    return f"{count} proofs with {rows} rows too many have {steps} steps, {shorter} of them fewer than they were made with"


def searched(folder: Path) -> str:
    """What `shortest` finds, says and refuses."""
    statement, report, found = EXAMPLES / "pasted_squares.op", folder / "long.cert", folder / "found.cert"
    rows = [line for line in (EXAMPLES / "pasted_squares.cert").read_text().split("\n") if line.startswith("row ")]
    report.write_text("\n".join(["certificate 1", "claim 1", "denominator 1", *rows, *rows, "end", ""]))
    answer = run(*TOOL, statement, report)
    need(answer == Answer(7, "", answer.error) and answer.error.startswith("# block 1 refused C6 "), answer)
    report.write_text("\n".join(["certificate 1", "claim 1", "denominator 2", *rows, *rows, "end", ""]))
    answer = run(*TOOL, statement, report, "--steps", 2, "--seconds", 60)
    need(answer.status == 0 and "\n#   2 steps, and 2 before\ncertificate 1\nclaim 1\ndenominator 1\n" in answer.out, answer)
    found.write_text(answer.out)
    answer = run(PROGRAM, "check", statement, found)
    need(answer == Answer(0, "# block 1 accepted claim 1 denominator 1\n", ""), answer)
    answer = run(*TOOL, LIBRARY / "false" / "one_sided_inverse.op", "--seconds", 2)
    need(answer == Answer(12, "# claim 1: no proof was found\n", ""), answer)
    wrong_words("shortest", [], [statement, "--steps", "0"], [statement, report, report])
    return "shortest finds the least denominator and few steps, and refuses what is wrong"


def stored(folder: Path) -> str:
    """The reports of `shortest` that lie in the library: they are right, and their chains have no more steps than they say."""
    proofs = steps = 0
    for statement in (one for entry in entries_of(LIBRARY) for one in entry.statements):
        for report in (path for path in statement.evidence if path.suffix == ".report"):
            problem, text = Problem(statement.text.encode()), report.read_text()
            certificates = Evidence(problem, text.encode()).certificates
            told = [int(number) for number in re.findall("^#   ([0-9]+) steps, and [0-9]+ before$", text, re.MULTILINE)]
            need(len(told) == len(certificates), report)
            for certificate, count in zip(certificates, told):
                judge(problem, certificate, str(report))
                need(length(Reader(problem, 0).proof(certificate).chains) <= count, (report, certificate.claim))
            proofs, steps = proofs + len(told), steps + sum(told)
    need(proofs > 2, proofs)
    return f"{proofs} proofs of the library are as short as they say, with {steps} steps"


CHECKS: List[Callable[[Path], str]] = [least_sums, planted, searched, stored]
