"""What measure.py and its tables share: plain programs that are built, runs whose time and memory is told, and lines of tables."""
from __future__ import annotations

import filecmp
import os
import resource
import time
from functools import partial
from pathlib import Path
from typing import Any, Callable, Iterable, Iterator, List, NamedTuple, Sequence, Tuple

from opprove.checkers import tree
from opprove.checkers.check import Problem
from trying import PROGRAM as OPPROVE
from trying import Failed, build

__all__ = ["OPPROVE", "build"]  # beside what stands here
RUNS, PATIENCE, MEMORY_LIMIT = 3, 10, 8 * 10**9
NO_MEMORY = 6

Text = Iterator[str]


class Usage(NamedTuple):
    status: int
    seconds: float  # of processors
    megabytes: float
    wall: float


def bound() -> None:
    """Bounds the memory of each run from here on, behind rustc."""
    resource.setrlimit(resource.RLIMIT_AS, (MEMORY_LIMIT, MEMORY_LIMIT))


def write(path: Path, text: Text) -> int:
    with path.open("w", newline="\n", encoding="utf-8") as file:
        file.writelines(text)
    return path.stat().st_size


def write_tree(statement: Path) -> Path:
    """The file with the tree of a statement, beside it."""
    lines = statement.with_suffix(".tree")
    write(lines, (f"{line}\n" for line in tree.tree_lines(Problem(str(statement)))))
    return lines


def measured(words: List[str], out: Path) -> Usage:
    """One run, whose answer goes to a file. A program that is ended by a signal found no memory."""
    to_file = (os.POSIX_SPAWN_OPEN, 1, str(out), os.O_WRONLY | os.O_CREAT | os.O_TRUNC, 0o600)
    silent = (os.POSIX_SPAWN_OPEN, 2, os.devnull, os.O_WRONLY, 0)
    start = time.monotonic()
    process = os.posix_spawn(words[0], words, os.environ, file_actions=[to_file, silent])
    _, ending, usage = os.wait4(process, 0)
    status = os.WEXITSTATUS(ending) if os.WIFEXITED(ending) else NO_MEMORY
    return Usage(status, usage.ru_utime + usage.ru_stime, usage.ru_maxrss / 1000, time.monotonic() - start)


def least(words: List[str], out: Path, is_right: Callable[[int, str], bool]) -> Usage:
    """The least of some runs, of each of which the status and the answer are right, or which find no memory."""
    return least_by(words, out, lambda status: is_right(status, out.read_text(encoding="utf-8")))


def least_by(words: List[str], out: Path, is_right: Callable[[int], bool]) -> Usage:
    """The same, of runs whose answers are looked at in their file, so that long ones take no memory here."""
    runs: List[Usage] = []
    while len(runs) < RUNS and sum(usage.seconds for usage in runs) < PATIENCE:
        runs.append(measured(words, out))
        if not is_right(runs[-1].status) and runs[-1].status != NO_MEMORY:
            with out.open(encoding="utf-8") as file:
                raise Failed(str((words, runs[-1], file.read(200))))
    columns = list(zip(*runs))
    return Usage(runs[-1].status, *map(min, columns[1:]))


def told(usage: Usage) -> str:
    if usage.status == NO_MEMORY:
        return f"{usage.seconds:.3f} | none left"
    floor = resource.getrusage(resource.RUSAGE_SELF).ru_maxrss / 1000
    return f"{usage.seconds:.3f} | {'' if usage.megabytes > 1.05 * floor else 'below '}{usage.megabytes:.0f}"


def quotient(own: Usage, other: Usage) -> float:
    """Of the times, and 0 where there is none."""
    return 0.0 if NO_MEMORY in (own.status, other.status) or not other.seconds else own.seconds / other.seconds


def quotient_text(own: Usage, other: Usage) -> str:
    share = quotient(own, other)
    return f"{share:.2f}" if share else ""


# The name of a row, and what makes its cells, with the seconds that grow.
Row = Tuple[str, Callable[[], Tuple[List[str], float]]]
Table = Callable[[List[str], Path], Text]  # of the words of the call, in a folder


def load() -> str:
    """A line on what else runs on the machine."""
    return f"load {' '.join(f'{load:.1f}' for load in os.getloadavg())} on {os.cpu_count()} processors\n"


def head(*names: str) -> str:
    """The two lines above a table, whose first column has no name."""
    return f"| | {' | '.join(names)} |\n|{'---|' * (len(names) + 1)}"


def line(*cells: str) -> str:
    return f"| {' | '.join(cells)} |"


def both(word: str, statement: Text, evidence: Text, plain: str, folder: Path) -> Tuple[Usage, Usage]:
    """The runs of a command by opprove and by plain.rs, which have to accept the evidence and print the same bytes. The files stay."""
    write(folder / "statement.op", statement)
    write(folder / "evidence.cert", evidence)
    words, out, want = [word, str(folder / "statement.op"), str(folder / "evidence.cert")], folder / "out", folder / "want"
    other = least_by([plain, *words], want, lambda status: status == 0)
    return least_by([str(OPPROVE), *words], out, lambda status: status == 0 and filecmp.cmp(out, want, shallow=False)), other


def checked(folder: Path) -> Usage:
    """That of `check` of the files that are there."""
    words = ["check", str(folder / "statement.op"), str(folder / "evidence.cert")]
    return least_by([str(OPPROVE), *words], folder / "out", lambda status: status == 0)


def table(names: Sequence[str], cases: Sequence[Any], cells: Callable[[Any, str, Path], Tuple[List[str], float]], longer: str) -> Table:
    """What makes the table of cases that have names, beside plain.rs."""

    def rows(words: List[str], folder: Path) -> Text:
        plain = build("plain", folder)
        bound()
        return growing(names, ((case.name, partial(cells, case, plain, folder)) for case in cases), words, longer)

    return rows


def growing(names: Sequence[str], rows: Iterable[Row], words: List[str], longer: str) -> Text:
    """The table of the rows whose name begins with the word, where there is one, behind the load. Those whose name begins with `longer`
    end with by how many times the seconds grow from one to the next."""
    yield load()
    yield head(*names, "growth")
    before = 0.0
    for name, made in rows:
        if name.startswith("".join(words[:1])):
            cells, seconds = made()
            is_longer = name.startswith(longer)
            yield line(name, *cells, f"{seconds / before:.1f}" if before and is_longer else "")
            before = seconds if is_longer else 0.0
