"""Many statements at once

Proves each statement `*.op` of a folder and of those in it, side by side, and writes each report beside its statement, as NAME.report.
A report begins with a comment that has the words of the run, its status, and a digest of statement and words: where it is there and
fits, the statement isn't proved again. What is printed is a table with a line for each statement, and one with the counts.

Words that aren't below, as `--pairs 20000`, are those of `prove`. A run whose status isn't a verdict leaves no report. On a terminal a
line says what is done.

Statuses: 0 where each claim of all statements is proved, 12 where some claim is undecided or some run has no verdict, else 11 where
some claim is refuted, else 10.
"""
from __future__ import annotations

import argparse
import hashlib
import os
import re
from pathlib import Path
from typing import Dict, List, NamedTuple, Optional

from opprove import program as programs
from opprove.search.asking import Asker, side_by_side
from opprove.search.findings import Answer, add_scheduler, answered, positive
from opprove.search.running import Program, Progress, Unusable
from opprove.text import sections
from opprove.tool import parser

VERDICTS = (0, 10, 11, 12)  # statuses
WORDS = ("proved", "not derivable", "refuted", "undecided")
CAUSES = {1: "killed or not started", 2: "wrong words", 3: "the statement is refused", 4: "not loaded", 5: "no output", 6: "no memory"}
HEADER = re.compile(r"# opprove (.*): status ([0-9]+), digest ([0-9a-f]{64})\n")


class Proved(NamedTuple):
    """A statement, the status of its run, and the report."""

    path: Path
    status: int
    report: str
    is_new: bool


def digest_of(text: bytes, words: List[str]) -> str:
    return hashlib.sha256("\0".join(words).encode() + b"\0" + text).hexdigest()


class ProveAll:
    """Runs over a folder."""

    def __init__(self, asker: Asker, words: List[str], seconds: int, count: int) -> None:
        self.asker, self.words, self.seconds, self.count = asker, words, seconds, count
        self.progress, self.done = Progress("prove-all"), 0

    def proved(self, path: Path) -> Proved:
        """The report of a statement, as it stands beside it or of a new run."""
        found = self.current(path) or self.run(path)
        self.done += 1
        self.progress.tell(f"{self.done} of {self.count} statements, {self.asker.count} runs, last {path.name}")
        return found

    def current(self, path: Path) -> Optional[Proved]:
        """What stands beside the statement, where it is of this statement and these words."""
        try:
            report = path.with_suffix(".report").read_text(encoding="utf-8")
            text = path.read_bytes()
        except (OSError, UnicodeDecodeError):
            return None
        match = HEADER.match(report)
        fits = match and match.group(3) == digest_of(text, self.words)
        return Proved(path, int(match.group(2)), report, False) if match and fits else None

    def run(self, path: Path) -> Proved:
        try:
            data = path.read_bytes()
            text = data.decode("utf-8", "surrogateescape")
        except OSError:
            return Proved(path, 4, f"# load failed {path}\n", True)
        status, answer = self.asker.ask(["prove", *self.words], text, self.seconds)
        report = answer.decode("utf-8", "replace")
        if status in VERDICTS:
            named = " ".join(["prove", path.name, *self.words])
            report = f"# opprove {named}: status {status}, digest {digest_of(data, self.words)}\n{report}"
            whole = path.with_suffix(".report.part")
            whole.write_text(report, encoding="utf-8")
            os.replace(whole, path.with_suffix(".report"))
        return Proved(path, status, report, True)


def verdicts_of(found: Proved) -> List[str]:
    """The verdict on each claim, or what the run ended with."""
    if found.status not in VERDICTS:
        line = next((line for line in found.report.splitlines() if line), "")
        return [line or CAUSES.get(found.status, f"status {found.status}")]
    heads = [head.said for head, _ in sections(found.report)]
    return [next((word for word in WORDS if head.startswith(word)), head) for head in heads]


def told(verdicts: List[str]) -> str:
    counts = {word: verdicts.count(word) for word in dict.fromkeys(verdicts)}
    return ", ".join(word if count == 1 else f"{count} {word}" for word, count in counts.items())


def options_of(words: List[str]) -> "tuple[argparse.Namespace, List[str]]":
    made = parser("prove-all", __doc__)
    made.add_argument("folder", metavar="FOLDER", help="a folder of statements")
    made.add_argument("--seconds", type=positive, default=600, metavar="N", help="of processor time, after which a run ends (600)")
    add_scheduler(made)
    return made.parse_known_args(words)


def answer(words: List[str], folder: Path) -> Answer:
    options, others = options_of(words)
    if not os.path.isdir(options.folder):
        raise Unusable(f"no folder {options.folder}")
    paths = sorted(Path(options.folder).rglob("*.op"))
    program = Program(Path(programs.path()))
    more = others if "--workers" in others else [*others, "--workers", "1"]
    with Asker(program, folder, options.scheduler) as asker:
        all_of = ProveAll(asker, more, options.seconds, len(paths))
        jobs = max(options.jobs, asker.cluster.threads() * 2 if asker.cluster else 0)
        found = list(side_by_side(jobs, all_of.proved, paths))
        all_of.progress.clear()
    if any(one.status == 2 for one in found):
        return [f"# prove doesn't take {' '.join(others)}"], 2
    return lines_of(found, Path(options.folder)), status_of(found)


def lines_of(found: List[Proved], folder: Path) -> List[str]:
    """The table, and the counts."""
    names = [str(one.path.relative_to(folder)) for one in found]
    width = max(map(len, names), default=0)
    lines = [f"{name:{width}}  {told(verdicts_of(one))}" for name, one in zip(names, found)]
    every = [verdict for one in found for verdict in verdicts_of(one) if one.status in VERDICTS]
    totals: Dict[str, int] = {word: every.count(word) for word in WORDS}
    counts = ", ".join(f"{count} {word}" for word, count in totals.items() if count) or "none"
    failed = sum(one.status not in VERDICTS for one in found)
    new = sum(one.is_new for one in found)
    more = f", {failed} with no verdict" if failed else ""
    return lines + [f"{len(found)} statements, {new} of them proved anew{more}; claims: {counts}"]


def status_of(found: List[Proved]) -> int:
    statuses = {one.status if one.status in VERDICTS else 12 for one in found}
    return next((status for status in (12, 11, 10) if status in statuses), 0)


def main(words: List[str]) -> int:
    return answered("prove-all", answer, words)
