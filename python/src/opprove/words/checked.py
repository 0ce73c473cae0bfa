"""What second programs say of an answer of the program that isn't proved, in a line on standard error.

`second-check --answer STATUS REPORT WORDS..` is called by ./opprove with what the program answered to the words: its status, and a
file with its report. Evidence is checked by the second program that reads its kind, and what it accepts has to be what the
head lines say; what a checker of the program answers has to be what the second one answers. Status 70: a second program refuses it.
"""
from __future__ import annotations

import os
import re
import subprocess
import sys
from pathlib import Path
from typing import Dict, List, NamedTuple, Tuple

from opprove.words import calls
from opprove.words.parts import counted, listed

SECONDS = 600  # for each second program
# The second program of each command that reads evidence: what it prints is what the command prints.
SECONDS_OF: Dict[str, str] = {name: command.second for name, command in calls.COMMANDS.items() if command.second}


class Kind(NamedTuple):
    """Evidence of one kind: the word of its blocks, its second program, its claims in the report and in what that accepts, and how this is
    said."""

    word: str
    checker: str
    head: str
    accepted: str
    said: str


KINDS: Tuple[Kind, ...] = (
    Kind(
        "certificate", "check", r"# claim (\d+) proved denominator (\d+) ", r"# block \d+ accepted claim (\d+) denominator (\d+)$",
        "accepts {}",
    ),
    Kind("model", "check_model", r"# claim (\d+) refuted$", r"# block \d+ confirmed claim (\d+)$", "confirms {}"),
    Kind("basis", "confirm", r"# claim (\d+) not derivable ", r"# block \d+ closed claim (\d+)(?: sharp)?$", "finds {} closed"),
)


class Wrong(Exception):
    """A second program refuses what was printed."""


class Unchecked(Exception):
    """What a second program could not check."""


def second(checker: str, words: List[str]) -> Tuple[int, str]:
    """The status and the output of a second program."""
    command = [sys.executable, str(Path(__file__).parents[1] / "checkers" / f"{checker}.py"), *words]
    try:
        done = subprocess.run(command, stdin=subprocess.DEVNULL, capture_output=True, timeout=SECONDS)
    except subprocess.TimeoutExpired:
        raise Unchecked(f"{checker}.py had not ended after {SECONDS} seconds") from None
    if done.returncode not in (0, 1, 3, 7):
        last = done.stderr.decode(errors="replace").strip().split("\n")[-1]
        raise Unchecked(f"{checker}.py ended with status {done.returncode}{last and ': ' + last}")
    return done.returncode, done.stdout.decode(errors="surrogateescape")


def of_evidence(statement: str, report: str) -> str:
    """What is accepted of the evidence that prove or refute printed."""
    with open(report, encoding="utf-8", errors="surrogateescape") as file:
        text = file.read()
    said = []
    for kind in KINDS:
        heads = re.findall(f"^{kind.head}", text, re.MULTILINE)
        count = len(re.findall(rf"^{kind.word} [0-9]+$", text, re.MULTILINE))
        if not heads and not count:
            continue
        status, answer = second(kind.checker, [statement, report])
        if status:
            raise Wrong(f"{kind.checker}.py answers {answer.strip().split(chr(10))[-1]}")
        if re.findall(f"^{kind.accepted}", answer, re.MULTILINE) != heads:
            raise Wrong(f"{kind.checker}.py accepts blocks of other claims than the head lines say")
        said.append(kind.said.format(counted(count, kind.word) if count == 1 or kind.word != "basis" else f"{count} bases"))
    if not said:
        raise Unchecked("there is no evidence for a second program to check")
    return f"the second program {listed(said)}"


def of_answer(checker: str, words: List[str], status: int, report: str) -> str:
    """Whether a second program gives the same answer."""
    other, answer = second(checker, words)
    with open(report, encoding="utf-8", errors="surrogateescape") as file:
        if (status == 0, file.read()) != (other == 0, answer):
            raise Wrong(f"{checker}.py answers otherwise, with status {other}")
    return "the second program gives the same answer"


def said_of(status: int, report: str, words: List[str]) -> str:
    """The line; what can't be checked, or is refused, is raised."""
    call = calls.call_of(words)
    files = call.files()
    if status in (2, 4, 5, 6) or call.command == "bench":
        raise Unchecked("of this answer there is no second program")
    if not all(os.path.isfile(name) for name in files):
        raise Unchecked("a file can't be read once more, so no second program was asked")
    if call.command in SECONDS_OF:
        return of_answer(SECONDS_OF[call.command], files, status, report)
    if status == 3:
        return of_answer("check", [files[0], os.devnull], status, report)
    return of_evidence(files[0], report)


def main(words: List[str]) -> int:
    """Writes the line."""
    status, report, call = int(words[0]), words[1], words[2:]
    is_wrong = False
    try:
        line = said_of(status, report, call)
    except Unchecked as what:
        line = str(what)
    except Wrong as what:
        is_wrong, line = True, f"WRONG: A SECOND PROGRAM REFUSES WHAT WAS PRINTED. Rest nothing on it, and report it: {what}"
    sys.stderr.write(f"opprove: {line}\n")
    return 70 if is_wrong else 0
