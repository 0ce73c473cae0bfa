"""Tries check.py against opprove: on the examples, on reports of `prove`, on changed certificates and on faulty texts."""
from __future__ import annotations

import os
import re
from pathlib import Path
from typing import Callable, Iterator, List, Tuple

import test_models
import trying_node
from opprove.checkers import check
from opprove.checkers.check import status_of
from test_translations import TRANSLATIONS
from trying import LETTER, NUMBER, STATEMENTS, Answer, built, checker, decided, expanded, need, replaced, rows_of, run, stored, tool, twice_or_not, with_line
from trying_second import Second

SECOND = Second(check)

# ---- The two checkers


def judged(statement: Path, evidence: Path) -> str:
    """The last line of the report, which opprove has to give too."""
    answer = SECOND.agreed(statement, evidence)
    line = answer.out.split("\n")[-2]
    status = 0 if re.fullmatch("# block [0-9]+ accepted .*", line) else status_of(line)
    need(answer.status == status and line.startswith("# "), (statement, evidence, answer))
    return line


def expect(accepted: bool, statement: Path, evidence: Path) -> None:
    line = judged(statement, evidence)
    need((" accepted " in line) == accepted, (statement, evidence.read_text(), line))


def examples(folder: Path) -> str:
    cases = list(stored())
    for statement, evidence in cases:
        expect("refused" not in evidence.stem, statement, evidence)
    for statement in STATEMENTS:
        answer = run(*checker("check"), statement, os.devnull)
        need(answer == Answer(7, "# refused K7\n", ""), (statement, answer))
    return f"{len(cases)} certificates of the examples are answered by {SECOND.by_whom()}"


def reports(folder: Path) -> str:
    program, count = built(), 0
    for statement in decided():
        for number in (1, 2):
            answer = run(program, "prove", statement, "--pairs", 2000, "--format", number)
            need(answer.status in (0, 10, 11, 12), (statement, answer))
            evidence = folder / "report.cert"
            evidence.write_text(answer.out)
            if "\ncertificate " in answer.out:
                expect(True, statement, evidence)
                count += 1
            test_models.refuted_claims(statement, answer.out, folder)
    need(count >= 20, f"{count} reports with certificates")
    return f"{count} reports of prove are accepted by {SECOND.by_whom()}"


# ---- Changed certificates


def changed(text: str, letters: List[str]) -> Iterator[str]:
    """The text with one change: of a number, of a letter, or of a row that is left out."""

    def others(line: str) -> Iterator[List[str]]:
        # With lemmas another denominator may do too, but not 0.
        is_scale = line.startswith("denominator") and "certificate 2" in text
        yield from replaced(line, NUMBER, lambda number: [0 if is_scale else int(number) + 1])
        yield from replaced(line, LETTER, lambda found: [next(letter for letter in letters if letter != found)])
        yield from twice_or_not(line)[: line.startswith("row")]

    return with_line(text, lambda line: others(line) if line[:1] != "#" else ())


def maps_of(statement: Path) -> List[str]:
    lines = [line.split(":")[0].split()[1:] for line in statement.read_text().split("\n") if line.startswith("map")]
    return [name for names in lines for name in names]


def changes(folder: Path) -> str:
    count, evidence = 0, folder / "changed.cert"
    for statement, original in stored():
        if "refused" not in original.stem:
            for text in changed(original.read_text(), maps_of(statement)):
                evidence.write_text(text)
                expect(False, statement, evidence)
                count += 1
    need(count >= 30, f"{count} changes")
    return f"{count} changed certificates are refused by {SECOND.by_whom()}"


# ---- Bad input

def told_by_tools(line: str) -> Tuple[str, ...]:
    """What the tools say of a refusal: those that want a proof, and `coq`, which takes all evidence."""
    return (f"{line}\n", f"{line}: there is no proof to be written\n") if line == "# refused K7" else (f"{line}\n",)


def bad_input(folder: Path) -> str:
    cases, statement, evidence = rows_of("faulty.txt"), folder / "faulty.op", folder / "faulty.cert"
    for text, (line, *rows) in cases:
        statement.write_bytes(expanded(text.replace(" / ", "\n")))
        evidence.write_bytes(expanded("".join(rows).replace(" / ", "\n")))
        found = judged(statement, evidence)
        need(found == line, (text, rows, line, found))
        # Whether sums are equal is for other systems to say, and `coq` takes any number of blocks.
        others = [name for name in TRANSLATIONS if " C6 " not in line and not (name == "coq" and " K5 " in line)]
        for name in ["chain", *others]:
            answer = run(*tool(name), statement, evidence)
            need((answer.status, answer.out) == (status_of(line), "") and answer.error in told_by_tools(line), (name, text, rows, answer))
        if line.startswith("# refused S"):
            answer = run(*tool("picture"), statement)
            need(answer == Answer(3, "", line + "\n"), (text, answer))
    missing = folder / "missing"
    for words in (checker("check"), tool("latex"), tool("chain"), checker("explain")):
        answer = run(*words, missing, evidence)
        need((answer.status, answer.out + answer.error) == (4, f"# load failed {missing}\n"), (words, answer))
    return f"{len(cases)} faulty inputs are answered by {SECOND.by_whom()}"


CHECKS: List[Callable[[Path], str]] = [examples, reports, changes, bad_input, trying_node.count]
