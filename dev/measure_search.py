#!/usr/bin/env python3
"""Searches on folders of statements, as a table: measure_search.py [--before HARDER] [--seconds N] [--jobs N] [--complex NAME,..] FOLDER ..

For each statement that `prove` leaves by its defaults, where some claim isn't proved: what it says, what `search` says within N
seconds (60), and in how many seconds of the clock and of processors; and what another search says, a file HARDER that takes a
statement and the same options. Statements whose name begins with one of those behind --complex are asked with --complex.
PYTHONPATH has python/src.
"""
from __future__ import annotations

import argparse
import os
import re
import resource
import subprocess
import sys
import time
from pathlib import Path
from typing import List, NamedTuple

from opprove import program

OPPROVE = program.path()
HEAD = re.compile(r"^# claim [0-9]+ (proved|refuted|not derivable|undecided)(.*)", re.MULTILINE)
SHORT = {"proved": "p", "refuted": "r", "not derivable": "nd", "undecided": "u"}


class Run(NamedTuple):
    """What a run printed, and its seconds of the clock and of processors."""

    report: str
    seconds: float
    processor: float

    def cells(self, more: str = "") -> List[str]:
        return [counted(verdicts(self.report)) + more, f"{self.seconds:.1f}", f"{self.processor:.1f}"]


def run(command: List[str], seconds: int) -> Run:
    start, used = time.monotonic(), processor_seconds()
    environment = {**os.environ, "OPPROVE": OPPROVE}
    done = subprocess.run(command, stdout=subprocess.PIPE, stderr=subprocess.DEVNULL, timeout=seconds, env=environment)
    return Run(done.stdout.decode("utf-8", "replace"), time.monotonic() - start, processor_seconds() - used)


def processor_seconds() -> float:
    """Those of all runs that have ended, and of what they ran."""
    usage = resource.getrusage(resource.RUSAGE_CHILDREN)
    return usage.ru_utime + usage.ru_stime


def verdicts(report: str) -> List[str]:
    """A short word for each claim, with what its proof takes for granted."""
    words = []
    for verdict, rest in HEAD.findall(report):
        granted = rest.split(" by ")[1] if " by " in rest else "q" if "over q" in rest else ""
        words.append(SHORT[verdict] + (f" ({granted})" if granted else ""))
    more = re.findall(r"^# claim [0-9]+ (follows where .*)", report, re.MULTILINE)
    return words + more


def counted(words: List[str]) -> str:
    """The words, each once with how often it stands there."""
    return ", ".join(f"{words.count(word)} {word}" if words.count(word) > 1 else word for word in dict.fromkeys(words))


def rows(path: Path, options: argparse.Namespace) -> str:
    before = verdicts(run([OPPROVE, "prove", str(path), "--workers", "1"], 600).report)
    if all(word == "p" for word in before) and before:
        return ""
    words = [str(path), "--seconds", str(options.seconds), "--jobs", str(options.jobs)]
    cells = [path.stem, counted(before)]
    if options.before:
        cells += run([sys.executable, options.before, *words], options.seconds + 120).cells()
    special = ["--complex"] if path.stem.startswith(tuple(options.complex)) else []
    asked = run([sys.executable, "-m", "opprove", "search", *words, *special], options.seconds + 120)
    return "| " + " | ".join([*cells, *asked.cells(" ".join(["", *special]))]) + " |"


def main() -> int:
    parser = argparse.ArgumentParser(description=__doc__, formatter_class=argparse.RawDescriptionHelpFormatter)
    parser.add_argument("--before", default="")
    parser.add_argument("--seconds", type=int, default=60)
    parser.add_argument("--jobs", type=int, default=1)
    parser.add_argument("--complex", type=lambda text: text.split(","), default=[])
    parser.add_argument("folders", nargs="+", type=Path)
    options = parser.parse_args()
    for folder in options.folders:
        for path in sorted(folder.glob("*.op")):
            row = rows(path, options)
            if row:
                print(row, flush=True)
    return 0


if __name__ == "__main__":
    sys.exit(main())
