"""Tries what language 2 adds to statements, row by row: by check.py, check_model.py and candidates.py, and by opprove.

The rows stand in data/language.txt, whose head says how they are written.
"""
from __future__ import annotations

import random
import re
from pathlib import Path
from typing import Callable, Iterator, List, NamedTuple, Optional

import test_words
from opprove.checkers.check import Problem, Refusal
from trying import EXAMPLES, GALLERY, PROGRAM, STATEMENTS, Answer, built, by_whom, checker, expanded, is_built, is_second, need, rows_of, run

ZERO = "certificate 2 / claim 1 / denominator 1 / goal scale 1 / end"
HEADS = {
    "L": "language 2 / object U / map a b : U -> U / ", "T": "language 2 / object U V / map a b : U -> V / map x : V -> U / ",
}  # fmt: skip


class Row(NamedTuple):
    statement: str
    answer: str  # of `check` on the evidence, of `model` where that is a model, and of `refute` where it is a search
    own: Optional[str] = None  # how that of check.py begins, where numbers are at stake, which have any size there
    evidence: str = ZERO

    @property
    def command(self) -> str:
        return "refute" if self.answer.startswith("# claim ") else "model" if self.evidence.startswith("model ") else "check"


def stored_rows() -> Iterator[Row]:
    """Those of data/language.txt."""
    for first, lines in rows_of("language.txt"):
        statement, answer, *more = (expanded(text).decode()[:-1] for text in (first, *lines))
        own, evidence = (next((text for text in more if (text[0] == "#") == is_own), None) for is_own in (True, False))
        yield Row(re.sub(r"^\[([LT])\] ", lambda mark: HEADS[mark[1]], statement), answer, own, evidence or ZERO)


def written(path: Path, text: str) -> Path:
    """A file of these lines. The rows that are a first line alone have no line end, whatever is said of them."""
    path.write_bytes(("\n".join(text.split(" / ")) + "\n" * (" / " in text)).encode())
    return path


def tried(row: Row, folder: Path) -> None:
    second = {"check": "check", "model": "check_model", "refute": "candidates"}[row.command]
    paths = [written(folder / "row.op", row.statement)]
    if row.command != "refute":
        paths.append(written(folder / "row.evidence", row.evidence))
    report = row.answer.replace(" / ", "\n") + "\n"
    answer = run(*checker(second), *paths)
    is_right = answer.out.startswith(row.own) if row.own else answer.out == report
    status = 3 if row.answer.startswith("# refused S") else 7 if " refused " in row.answer else 11 if row.command == "refute" else 0
    need(is_right and not answer.error and (row.own or answer.status == status), (row, answer))
    if is_built():
        other = run(PROGRAM, row.command, *paths)
        need(other == Answer(status, report, ""), (row, other))


def rows(folder: Path) -> str:
    found = list(stored_rows())
    for row in found:
        tried(row, folder)
    need(len(found) >= 100, len(found))
    return f"{len(found)} rows on language 2 are answered as they should be, {by_whom('Python')}"


# ---- Language 1 with `language 2` in front


def said_of(path: Path) -> object:
    """What check.py makes of a statement: its fault, or all that it says."""
    try:
        problem = Problem(str(path))
    except Refusal as refusal:
        return str(refusal)
    return problem.names, problem.ends, problem.is_starred, problem.assumptions, problem.claims, problem.generators()


def further_down(said: object, bytes_more: int) -> object:
    """The same of a text behind one more line of so many bytes."""
    if not isinstance(said, str):
        return said
    moved = re.sub(r"(?<=byte )[0-9]+", lambda match: str(int(match.group()) + bytes_more), said)
    return re.sub(r"(?<=line )[0-9]+", lambda match: str(int(match.group()) + 1), moved)


def statements_of_language_1() -> Iterator[bytes]:
    """Those of the examples, those of the words on faults, and random edits of both."""
    texts = [path.read_bytes() for path in STATEMENTS if not is_second(path)]
    texts += [expanded(case.files["s.op"]) for case in test_words.cases() if "s.op" in case.files]
    texts = [text for text in texts if len(text) < 20000 and not re.search(rb"\^|language|eliminate|m201", text)]
    yield from texts
    chance = random.Random(1)
    for _ in range(500):
        text = chance.choice(texts).decode(errors="replace")
        yield test_words.edited(text, chance).encode() if re.search("[a-z]", text) else b""


def in_front(folder: Path) -> str:
    """It changes nothing, but that a refusal stands one line further down."""
    path, front, faults, count = folder / "row.op", b"language 2\n", 0, 0
    for text in filter(None, statements_of_language_1()):
        path.write_bytes(text)
        said = said_of(path)
        path.write_bytes(front + text)
        need(said_of(path) == further_down(said, len(front)), (text, said, said_of(path)))
        faults, count = faults + isinstance(said, str), count + 1
    need(faults > 100 and count - faults > 100, (faults, count))
    return f"{count} statements, {faults} of them with a fault, mean the same to check.py with `language 2` in front"


def reports_in_front(folder: Path) -> str:
    """The examples of language 1 are answered by the same bytes with `language 2` in front, in both formats."""
    program, path, count = built(), folder / "row.op", 0
    for example in filter(lambda example: not is_second(example), [*EXAMPLES.glob("*.op"), *GALLERY.values()]):
        for number in (1, 2):
            path.write_bytes(example.read_bytes())
            answer = run(program, "prove", path, "--format", number)
            path.write_bytes(b"language 2\n" + example.read_bytes())
            need(run(program, "prove", path, "--format", number) == answer, (example, number, answer))
            count += 1
    need(count > 20, count)
    return f"{count} reports on the examples of language 1 have the same bytes with `language 2` in front"


CHECKS: List[Callable[[Path], str]] = [rows, in_front, reports_in_front]
