#!/usr/bin/env python3
"""Runs the gate, or another command, and prints what it cost: a table of processor seconds by crate, for the library, the tests and the edits.

usage: gate_time.py [COMMAND ..]

Without a command it runs `bash .ci/run`. Behind the table stands the chain of libraries, each of which stands on the one before it by the
crates.txt of this folder, that took longest. From nothing is a fresh clone on a machine where rt has kept nothing. Twice a second the processes
that the command has started are looked up in /proc (so this wants Linux), and the time of the prover's is counted by the crate and the pass
that they work at. What a process does in its last half second isn't seen. A processor of a shared machine may be half as fast in one hour as in
another, and slow while a new machine gets its memory: run what is to be compared at one time, on as many processors each, or compare crates
that haven't changed first.
"""
from __future__ import annotations

import os
import subprocess
import sys
import time
from collections import Counter
from pathlib import Path
from typing import Dict, List, NamedTuple, Optional, Tuple

PASSES = ("library", "tests", "edits")
TICKS = os.sysconf("SC_CLK_TCK")


class Process(NamedTuple):
    """The number of the parent, when the process was started, which tells it from others of its number, and its processor seconds so far."""

    parent: str
    start: str
    seconds: float


class Seen(NamedTuple):
    what: Optional[Tuple[str, str]]
    seconds: float
    times: int


def processes() -> Dict[str, Process]:
    """All processes of the machine by their numbers."""
    found = {}
    for folder in Path("/proc").glob("[0-9]*"):
        try:
            fields = (folder / "stat").read_text().rpartition(")")[2].split()
        except OSError:
            continue
        found[folder.name] = Process(fields[1], fields[19], (int(fields[11]) + int(fields[12])) / TICKS)
    return found


def is_below(number: str, top: str, found: Dict[str, Process]) -> bool:
    """Whether the process is the one at the top, or was started by one that is."""
    while number != top and number in found:
        number = found[number].parent
    return number == top


def worked_at(process: Path) -> Optional[Tuple[str, str]]:
    """The crate and the pass that a process of the prover works at."""
    words = (process / "cmdline").read_bytes().decode(errors="replace").split("\0")
    if "--crate-name" not in words[:-1]:
        return None
    folder = os.readlink(process / "cwd")
    what = "edits" if "/rt-edit" in folder else "tests" if "--test" in words else "library"
    return words[words.index("--crate-name") + 1], what


def look(top: str, seen: Dict[Tuple[str, str], Seen], total: Counter) -> None:
    """Adds what the processes below the one at the top did since the last look. A process may become another program in its first seconds."""
    found = processes()
    for number, process in found.items():
        if not is_below(number, top, found):
            continue
        last = seen.get((number, process.start), Seen(None, 0.0, 0))
        try:
            what = worked_at(Path("/proc") / number) if last.times < 6 else last.what
        except OSError:
            continue
        if what:
            total[what] += process.seconds - last.seconds
        seen[number, process.start] = Seen(what, process.seconds, last.times + 1)


def print_table(total: Counter) -> None:
    print("| Crate | Library | Tests | Edits |\n|---|---|---|---|")
    for crate in sorted({crate for crate, _ in total}):
        cells = [f"{total[crate, what]:,.0f}" if total[crate, what] >= 0.5 else "" for what in PASSES]
        print(f"| `{crate}` | {' | '.join(cells)} |")
    sums = [sum(seconds for (_, of), seconds in total.items() if of == what) for what in PASSES]
    print(f"| **all** | {' | '.join(f'{seconds:,.0f}' for seconds in sums)} |")
    print(f"\n{sum(sums) / 60:.1f} processor minutes of the prover")


def crates_below() -> Dict[str, List[str]]:
    """The crates of this folder's crates.txt, each with those that it names."""
    try:
        lines = Path("crates.txt").read_text().splitlines()
    except OSError:
        return {}
    halves = [line.partition(":") for line in lines if line[:1].isalpha()]
    named = {front.split()[0]: back.split() for front, _, back in halves}
    return {crate: [name for name in names if name in named] for crate, names in named.items()}


def longest_chain(seconds: Dict[str, float], below: Dict[str, List[str]]) -> Tuple[float, List[str]]:
    """The seconds of the longest chain of crates, and its crates, the lowest first."""
    chains: Dict[str, Tuple[float, List[str]]] = {}

    def chain_of(crate: str) -> Tuple[float, List[str]]:
        if crate not in chains:
            front = max((chain_of(name) for name in below.get(crate, [])), default=(0.0, []))
            chains[crate] = (front[0] + seconds[crate], front[1] + [crate])
        return chains[crate]

    return max((chain_of(crate) for crate in below), default=(0.0, []))


def print_chain(total: Counter) -> None:
    seconds: Counter = Counter({crate: spent for (crate, what), spent in total.items() if what == "library"})
    length, chain = longest_chain(seconds, crates_below())
    if length:
        print(f"the longest chain of libraries took {length:,.0f} seconds: {', '.join(chain)}")


def main(words: List[str]) -> int:
    if not Path("/proc/self/stat").exists():
        print("gate_time.py: there is no /proc to look processes up in", file=sys.stderr)
        return 2
    seen: Dict[Tuple[str, str], Seen] = {}
    total: Counter = Counter()
    try:
        gate = subprocess.Popen(words or ["bash", ".ci/run"])
    except OSError as error:
        print(f"gate_time.py: {error}", file=sys.stderr)
        return 2
    while gate.poll() is None:
        look(str(gate.pid), seen, total)
        time.sleep(0.5)
    print_table(total)
    print_chain(total)
    return gate.returncode


if __name__ == "__main__":
    sys.exit(main(sys.argv[1:]))
