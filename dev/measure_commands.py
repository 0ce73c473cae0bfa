"""The second table of `measure.py`: runs of other commands than `check`, which no plain program makes.

Some stand beside a run of the same words on another statement, whose report has to be the same: `order` and `maps` are
those of language 2. NAME behind measure.py makes the rows whose name begins so.
"""
from __future__ import annotations

import itertools
from pathlib import Path
from typing import Callable, List, NamedTuple, Optional

from measuring import OPPROVE, Text, head, least, line, quotient_text, told, write

FINE, UNDECIDED = 0, 12


class Command(NamedTuple):
    """A run that the plain program doesn't make, and a statement on which the same words give the same report."""

    name: str
    words: List[str]  # the command, and what stands behind its files
    statement: Callable[[], Text]
    status: int
    answer: str  # how the report begins
    evidence: Optional[Callable[[], Text]] = None
    beside: Optional[Callable[[], Text]] = None


def many_maps(claimed: str) -> Callable[[], Text]:
    names = " ".join(f"k{number}" for number in range(1, 1001))
    return lambda: iter([f"language 2\nobject U\nmap {names} : U -> U\nclaim {claimed}\n"])


def many_models() -> Text:
    maps = "".join(f"map k{number} = 1\n" for number in range(1, 1001))
    return itertools.repeat(f"model 1\nclaim 1\nmodulus 2\nside U 1\n{maps}end\n", 100)


def braids(line: str) -> Callable[[], Text]:
    return lambda: iter(["language 2\nobject V\nmap a b : V -> V\n", line, "assume b a b = a b a\nclaim a = b\n"])


LONG = ["prove", "--pairs", "5000", "--no-models", "--workers", "1"]
COMMANDS = [
    Command(
        "order: `eliminate` of all maps beside the order by degrees, 5,000 pairs", LONG,
        braids("eliminate a b\n"), UNDECIDED, "# claim 1 undecided pairs 5000 least ", beside=braids("order degree\n"),
    ),
    Command(
        "maps: one `[U]` among 1,000 maps, 5,000 pairs", LONG,
        many_maps("[U] k1 k2 = k2 k1"), UNDECIDED, "# claim 1 undecided pairs 5000 least k3 [U] k997\n",
    ),
    Command(
        "maps: the same, starred", LONG,
        many_maps("[U] k1' k2 = k2 k1'"), UNDECIDED, "# claim 1 undecided pairs 5000 least ",
    ),
    Command("maps: 100 models of 1,000 maps", ["model"], many_maps("k1 = 0"), FINE, "# block 1 confirmed claim 1\n", many_models),
]  # fmt: skip


def row(command: Command, folder: Path) -> str:
    paths, out = [folder / "statement.op", folder / "evidence.cert"], folder / "out"
    size = write(paths[0], command.statement())
    size += write(paths[1], command.evidence()) if command.evidence else 0
    words = [str(OPPROVE), command.words[0], *map(str, paths if command.evidence else paths[:1]), *command.words[1:]]
    own = least(words, out, lambda status, text: status == command.status and text.startswith(command.answer))
    report, beside = out.read_text(encoding="utf-8"), (" | ", "")
    if command.beside:
        write(paths[0], command.beside())
        other = least(words, out, lambda status, text: (status, text) == (command.status, report))
        beside = (told(other), quotient_text(own, other))
    return line(command.name, f"{size:,}", told(own), *beside)


def rows(words: List[str], folder: Path) -> Text:
    commands = [command for command in COMMANDS if command.name.startswith("".join(words[:1]))]
    if commands:
        yield head("bytes", "`opprove` s", "MB", "beside s", "MB", "quotient")
    yield from (row(command, folder) for command in commands)
