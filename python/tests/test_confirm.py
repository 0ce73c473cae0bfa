"""Tries confirm.py: test_confirm.py

The reports that confirm_rows.py has are asked of confirm.py, and with them go changed bases, those of random statements while
these are completed, and the reports of `prove` on the examples. Where opprove is built and has `confirm`, or the variable OPPROVE
names such a program, it prints the same bytes; so does plain.rs, of bases that are closed, where rustc is.
"""
from __future__ import annotations

import itertools
import re
from pathlib import Path
from random import Random
from typing import Callable, Dict, Iterator, List

from opprove.checkers import confirm
import confirm_rows
import drawing
from opprove.checkers.check import DONE, Problem, Refusal
from opprove.checkers.confirm import Bases, Order, Poly, Rules, as_texts, gcd_of, text_of
from trying import NUMBER, PROGRAM, Answer, built, decided, is_built, lowered, need, replaced, run, twice_or_not, with_line
from trying_second import UNREAD_EVIDENCE, Files, Second, files_in

COUNT = 40  # random statements
SMALL = 2**10  # bytes of a row that is changed
# What plain.rs doesn't read.
UNREAD = re.compile(r"\[|'| self$|^(?:pinv|inverse|inner|projection|order|model|solve|eliminate) ", re.MULTILINE)
SECOND = Second(confirm, UNREAD, UNREAD_EVIDENCE)
REPORT = re.compile(
    r"(# block [0-9]+ closed claim [0-9]+( sharp)?\n)*(# block [0-9]+ refused B[1-7].*\n|# refused (S[0-9]+|K[1-7]).*\n)?"
)


def confirmed(files: Files) -> Answer:
    answer = SECOND.answered(files)
    need(REPORT.fullmatch(answer.out) is not None and (answer.status == DONE) == (" refused " not in answer.out), answer)
    return answer


# ---- What is tried


def rows(folder: Path) -> str:
    files = Files(folder, None)
    for row in (row for row in confirm_rows.runs() if row.is_proved and is_built()):
        files.write(row.statement, "")
        report = run(PROGRAM, "prove", files.statement).out
        need(report == row.basis, (row.name, report, row.basis))
    return SECOND.rows(folder, [row[:4] for row in confirm_rows.runs()])


def calls(folder: Path) -> str:
    return SECOND.calls(folder, confirm_rows.P, confirm_rows.GOOD, ["--workers", 2])


def changed(text: str, letters: List[str]) -> Iterator[str]:
    """The text with one change: of a number, a letter or a sign, or of a line that is left out, comes twice or goes down."""

    def others(line: str) -> Iterator[List[str]]:
        yield from replaced(line, NUMBER, lambda number: [int(number) + 1, int(number) * (2**127 - 1)])
        if line.startswith(("rule ", "rest ")):
            yield from replaced(line, r"(?<= )[^ 0-9+-][^ ]*", lambda found: [letter for letter in letters if letter != found][:2])
            yield from replaced(line, r"(?<= )[+-](?= )", lambda sign: "+-"["-+".index(sign)])
            yield from twice_or_not(line)

    return itertools.chain(with_line(text, others), lowered(text, ("rule ", "rest ")))


def changes(folder: Path) -> str:
    files, count, closed = files_in(folder), 0, 0
    for row in confirm_rows.rows_of_judgements() + confirm_rows.rows_of_reports():
        if row.status == 0 and len(row.basis) < SMALL:
            files.write(row.statement, row.basis)
            for text in changed(row.basis, Problem(str(files.statement)).names):
                files.write(row.statement, text)
                count += 1
                closed += confirmed(files).status == 0
    need(count >= 500 and closed >= 50, (count, closed))
    return f"{count} changed bases, {closed} of which are closed, are answered by {SECOND.by_whom()}"


def reports(folder: Path) -> str:
    program, files, bases, count = built(), files_in(folder), 0, 0
    for statement in decided():
        report = run(program, "prove", statement, "--pairs", 2000, "--no-models", seconds=600).out
        if "\nbasis " not in f"\n{report}":
            continue
        files.write(statement.read_text("utf-8"), report)
        answer = confirmed(files)
        need(answer.status == 0 or re.search(" refused B7 .*\n$", answer.out) is not None, (statement, answer))
        bases += report.count("basis 1\n")
        texts = list(changed(report, Problem(str(statement)).names))
        for text in texts[:: 1 + len(texts) // 40]:
            files.write(statement.read_text("utf-8"), text)
            count += 1
            confirmed(files)
    need(bases >= 1, "no example has a basis")
    return f"{bases} bases of the examples are confirmed, and {count} changed ones answered, by {SECOND.by_whom()}"


# ---- Random statements

ORDERS = ["", "", "order weight b 3\n", "order weight a 2 c 5\n", "eliminate b\n", "eliminate c a\n"]


def random_sum(draw: Random, most: int) -> str:
    return " - ".join(draw.choice(["", "", "", "2 ", "3 "]) + drawing.word(draw, "abc", most) for _ in range(draw.randrange(1, 4)))


def random_statement(draw: Random) -> str:
    lines = [f"assume {random_sum(draw, 4)} = {random_sum(draw, 3)}\n" for _ in range(draw.randrange(1, 3))]
    lines += [f"claim {random_sum(draw, 3)} = {random_sum(draw, 4)}\n" for _ in range(2)]
    return f"language 2\nobject U\nmap a b c : U -> U\n{draw.choice(ORDERS)}{''.join(lines)}"


def primitive(order: Order, poly: Poly) -> Poly:
    """What is made a rule of a rest."""
    content = gcd_of(poly) * (-1 if poly[min(poly, key=order.rank)] < 0 else 1)
    return {word: coefficient // content for word, coefficient in poly.items()}


def completed(problem: Problem, order: Order, most: int) -> Iterator[List[Poly]]:
    """The rules while they are completed, one more each time, until there are so many. At the end they are closed or stopped."""
    rules: List[Poly] = []
    for generator in problem.generators():
        rest = Rules(order, rules).normal_form(as_texts(generator), "")
        if rest:
            rules.append(primitive(order, rest))
            yield rules
    is_open = True
    while is_open and len(rules) < most:
        is_open, known = False, Rules(order, rules)
        for ambiguity in known.ambiguities():
            rest = known.normal_form(known.s_polynomial(ambiguity, ""), "")
            if rest:
                rules.append(primitive(order, rest))
                is_open = True
                yield rules
                break


def random_bases(folder: Path, count: int = COUNT) -> str:
    files, random = files_in(folder), Random(2)
    found: Dict[str, int] = {}
    for _ in range(count):
        statement = random_statement(random)
        files.write(statement, "")
        try:
            problem = Problem(str(files.statement))
            order = Order(problem)
            bases = [list(rules) for rules in completed(problem, order, 8)]
        except Refusal:
            continue
        for rules in bases:
            texts = [f"rule {text_of(problem, rule)}\n" for rule in rules]
            random.shuffle(texts)
            ready = Rules(order, rules)
            for claim in (1, 2):
                rest = ready.normal_form(as_texts(problem.claims[claim - 1]), "")
                files.write(statement, f"basis 1\nclaim {claim}\n{''.join(texts)}rest {text_of(problem, rest)}\nend\n")
                answer = confirmed(files).out
                told = re.sub(".*(closed|B[1-7]).*\n", r"\1", answer)
                found[told] = found.get(told, 0) + 1
    need({"closed", "B3", "B4"} <= found.keys(), found)
    told = ", ".join(f"{number} {what}" for what, number in sorted(found.items()))
    return f"bases of random statements ({told}) are answered by {SECOND.by_whom()}"


def read_back(folder: Path) -> str:
    files, random, count = Files(folder, None), Random(3), 0
    files.write(confirm_rows.L, "")
    problem = Problem(str(files.statement))
    letters = [chr(confirm.FIRST - letter) for letter in range(len(problem.names))]
    for _ in range(500):
        words = {"".join(random.choice(letters) for _ in range(random.randrange(1, 5))) for _ in range(random.randrange(6))}
        poly = {word: random.choice([1, -1, 2, -7, 2**127 - 1]) for word in words}
        files.write(confirm_rows.L, f"basis 1\nclaim 1\nrest {text_of(problem, poly)}\nend\n")
        (basis,) = Bases(problem, str(files.evidence)).bases
        need(basis.rest == poly, (poly, basis))
        count += 1
    return f"{count} polynomials that are written are read back"


CHECKS: List[Callable[[Path], str]] = [rows, calls, changes, reports, random_bases, read_back]
