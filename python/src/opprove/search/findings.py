"""What the searches share: texts of statements with other claims, evidence that is checked before it is printed, and how a tool ends.

Evidence is printed where the program and the second checker of its kind accept it for the statement that it is about; star
proofs and rational models, which the program doesn't read, where their one checker does.
"""
from __future__ import annotations

import argparse
import os
import tempfile
from pathlib import Path
from typing import Callable, Iterable, Iterator, List, NamedTuple, Optional, Sequence, Tuple

from opprove import second_check
from opprove.checkers.check import NO_MEMORY, NO_OUTPUT, Problem, Refusal, status_of, written
from opprove.search.running import Program, Unusable
from opprove.text import evidence as text_of_evidence
from opprove.tool import parser, say

ORDER_WORDS = ("order", "eliminate")


class Finding(NamedTuple):
    """Evidence for a statement, which is another one than was asked about where it has a text of its own."""

    title: str
    block: List[str]
    statement: str
    name: str  # of files that it is kept in


# ---- Texts of statements


def first_word(line: str) -> str:
    return (line.split("#")[0].split() or [""])[0]


def with_claims(text: str, claims: Iterable[str], more: Iterable[str] = (), order: Optional[str] = None) -> str:
    """The statement with these claims in the place of its own, and with more lines in front of them. An order, which may be
    empty, replaces the one that it has."""
    lines = [line.rstrip() for line in text.splitlines() if first_word(line)]
    orders = [line for line in lines if first_word(line) in ORDER_WORDS] if order is None else [order] if order else []
    kept = [line for line in lines if first_word(line) not in ("claim", "language", *ORDER_WORDS)]
    body = [*kept, *more, *(f"claim {claim}" for claim in claims), *orders]
    is_second = any(first_word(line) == "language" for line in lines) or any(first_word(line) == "eliminate" for line in orders)
    return "\n".join(["language 2"] * is_second + body) + "\n"


def marks_of(problem: Problem, text: str) -> List[str]:
    """Assumptions that are zero, so that identities and adjoints stay in play which only the claims of the statement have."""
    name = first_map(problem)
    bare = Problem(with_claims(text, [f"0 {name} = 0"]).encode()) if name else problem
    marks = [f"assume 0 {problem.names[letter]} = 0" for letter in sorted(problem.marked - bare.marked)]
    return marks + ([f"assume 0 {name}'' = 0"] if problem.is_starred and not bare.is_starred else [])


def first_map(problem: Problem) -> str:
    return next((name for name in problem.names if name[0] != "["), "")


def text_of(path: str) -> str:
    """The text of a file that was read as a statement."""
    return Path(path).read_bytes().decode("utf-8", "surrogateescape")


# ---- Reports


def sections(report: str) -> Iterator[Tuple[int, str, List[str]]]:
    """For each claim of a report its number, the head line behind that, and the lines of its block."""
    for head, text in text_of_evidence.sections(report):
        yield head.claim, head.said, [line for line in text.split("\n") if line and line[0] != "#"]


def proved_block(program: Program, folder: Path, text: str, words: Sequence[str] = (), seconds: int = 60) -> List[str]:
    """The certificate of the first claim of a statement, where the program proves it."""
    path = folder / "asked.op"
    path.write_bytes(text.encode())
    _, report = program.report(["prove", str(path), "--no-models", "--workers", "1", *words], seconds)
    for _, head, block in sections(report.decode("utf-8", "replace")):
        return block if head.startswith("proved") else []
    return []


# ---- Checking


def kind_of(block: Sequence[str]) -> str:
    return block[0].split(" ")[0] if block else ""


def is_accepted(program: Program, folder: Path, statement: str, block: Sequence[str]) -> bool:
    """Whether all that can check the block accept it."""
    paths = [str(folder / "found.op"), str(folder / "found.cert")]
    Path(paths[0]).write_bytes(statement.encode("utf-8", "surrogateescape"))
    Path(paths[1]).write_text("\n".join(block) + "\n", encoding="utf-8")
    kind = kind_of(block)
    commands = {"certificate": "check", "cancellation": "cancel", "model": "model", "basis": "confirm"}
    if kind in commands and program.answer([commands[kind], *paths]) != 0:
        return False
    return second_check.is_accepted(*paths)


# ---- Tools


def positive(text: str) -> int:
    """A number of words, from 1."""
    if not text.isdecimal() or int(text) < 1:
        raise argparse.ArgumentTypeError(f"{text} is no positive number")
    return int(text)


def names(text: str) -> List[str]:
    """Names with commas between them."""
    return [name for name in text.split(",") if name]


def words_of(word: str, page: Optional[str], seconds: int) -> argparse.ArgumentParser:
    """For the words of a tool that takes a statement, so many seconds where no others are given, and a folder."""
    made = parser(word, page)
    made.add_argument("statement", metavar="STATEMENT", help="a statement")
    made.add_argument("--seconds", type=positive, default=seconds, metavar="N", help=f"ends after so many ({seconds})")
    made.add_argument("--keep", default="", metavar="FOLDER", help="gets each statement with its evidence")
    return made


def add_scheduler(made: argparse.ArgumentParser) -> None:
    """The words on where runs are made."""
    made.add_argument("--jobs", type=positive, default=os.cpu_count() or 1, metavar="N", help="runs at a time here (a processor each)")
    made.add_argument("--scheduler", default="", metavar="ADDRESS", help="a Dask scheduler, whose workers make the runs of the program")


def keep(folder: str, finding: Finding) -> None:
    """Writes statement and evidence beside each other, for a folder that was asked for."""
    if folder:
        os.makedirs(folder, exist_ok=True)
        Path(folder, f"{finding.name}.op").write_bytes(finding.statement.encode("utf-8", "surrogateescape"))
        Path(folder, f"{finding.name}.cert").write_text("\n".join(finding.block) + "\n", encoding="utf-8")


def lines_of(finding: Finding, has_statement: bool = True) -> List[str]:
    """The finding as a report has it, with its statement as comments."""
    comments = ["# of the statement:"] + [f"#   {line}" for line in finding.statement.rstrip("\n").split("\n")]
    return [f"# {finding.title}", *(comments if has_statement else []), *finding.block]


Answer = Tuple[List[str], int]  # lines and a status


def answered(name: str, answer: Callable[[List[str], Path], Answer], words: List[str]) -> int:
    """Writes what a tool answers, and returns its status. Refusals and faults of files are lines, and no trace."""
    try:
        with tempfile.TemporaryDirectory(prefix="opprove-") as folder:
            lines, status = answer(words, Path(folder))
        return status if written(lines) else complained("# standard output failed", NO_OUTPUT)
    except Unusable as what:
        return complained(str(what), 1)
    except Refusal as what:
        return complained(str(what), status_of(str(what)))
    except MemoryError:
        return complained("# no memory", NO_MEMORY)
    except OSError as what:
        return complained(f"{name}: {what}", 1)


def complained(line: str, status: int) -> int:
    say(line)
    return status
