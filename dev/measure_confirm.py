"""The table of `measure.py confirm`: runs of `confirm`, beside `confirm` of dev/plain.rs, which has to print the same bytes.

The basis of the first row is what `prove` prints of the statement of `bench 60`, which plain.rs doesn't read: the seconds beside it
are those of that `prove`. The rows that begin with `apart` have rules that don't overlap, and tell by how many times the seconds
grow from one to the next; those that begin with `reading` end with a line that isn't in the grammar, so nothing is judged.
NAME behind the word makes the rows whose name begins so.

`measure.py reductions` has one reduction of 1,000,000 steps in three orders, which ends with B7, and reading at its dearest.
"""
from __future__ import annotations

import itertools
from pathlib import Path
from random import Random
from typing import Callable, Iterator, List, NamedTuple, Tuple

from measuring import OPPROVE, Text, Usage, bound, head, least, least_by, line, quotient_text, table, told, write

FINE, REFUSED, UNDERIVABLE = 0, 7, 10
LIMIT = 2**26  # bytes of the text
SIZE = 60  # of the statement of `bench`
STATEMENT = "object A\nmap a b c d : A -> A\nclaim c = 0\n"
START, END = "basis 1\nclaim 1\n", "rest c\nend\n"
CLOSED = "# block 1 closed claim 1 sharp\n"


def bench(size: int) -> str:
    steps = range(1, size + 1)
    maps = "".join(f"map a{n} : O{n} -> O{n - 1}\nmap r{n} : O{n - 1} -> O{n}\n" for n in steps)
    assumptions = "".join(f"assume a{n} r{n} = [O{n - 1}]\n" for n in steps)
    chain = [f"a{n}" for n in steps] + [f"r{n}" for n in reversed(steps)]
    claims = f"claim {' '.join(chain)} = [O0]\nclaim r{size} a{size} = [O{size}]\n"
    return f"object {' '.join(f'O{n}' for n in range(size + 1))}\n{maps}{assumptions}{claims}"


def words(count: int, length: int) -> Iterator[str]:
    """Different words over two letters, in no order."""
    for number in range(count):
        bits = number * 7919 % 2**length
        yield " ".join("cd"[bits >> place & 1] for place in range(length))


def basis(rules: Iterator[str], end: str = END) -> Text:
    return itertools.chain([START], rules, [end])


def apart(count: int) -> Text:
    return basis(f"rule a {word} b\n" for word in words(count, 17))


def overlapping(count: int) -> Text:
    return basis(f"rule a {word} a\n" for word in words(count, 10))


def long_rules() -> Iterator[str]:
    """Rules with words of 500 letters, as many as there is room for."""
    random = Random(1)
    line = len("rule" + " a" * 500 + "\n")
    for _ in range((LIMIT - len(START + END)) // line - 1):
        yield f"rule a {' '.join(random.choices('cd', k=498))} b\n"


class Case(NamedTuple):
    name: str
    basis: Callable[[], Text]
    is_closed: bool = True


def rules_apart(count: int) -> Case:
    return Case(f"apart: {count:,} rules `a w b`", lambda: apart(count))


CASES = [
    *map(rules_apart, (2500, 5000, 10_000, 100_000)),
    Case("overlapping: 1,000 rules `a w a`", lambda: overlapping(1000)),
    Case("long: 64 MiB of rules with words of 500 letters", lambda: basis(long_rules())),
    Case("reading: the same, and a line that isn't in the grammar", lambda: basis(long_rules(), "rest c c'' \n"), False),
]
BENCH = Case(f"prove's basis of `bench {SIZE}`'s statement", lambda: iter(()))  # which `prove` writes
NAMES = ["bytes", "`confirm` s", "MB", "beside it s", "MB", "quotient"]


def cells(size: int, own: Usage, other: Usage) -> Tuple[List[str], float]:
    return [f"{size:,}", told(own), told(other), quotient_text(own, other)], own.seconds


def bench_cells(folder: Path) -> Tuple[List[str], float]:
    statement, report, out = (folder / name for name in ("bench.op", "bench.basis", "out"))
    write(statement, iter([bench(SIZE)]))
    proved = least_by([str(OPPROVE), "prove", str(statement)], report, lambda status: status == UNDERIVABLE)
    is_right = lambda status, text: status == FINE and text == CLOSED.replace("claim 1", "claim 2")
    own = least([str(OPPROVE), "confirm", str(statement), str(report)], out, is_right)
    return cells(report.stat().st_size, own, proved)


def case_cells(case: Case, plain: str, folder: Path) -> Tuple[List[str], float]:
    if case is BENCH:
        return bench_cells(folder)
    statement, text, out = (folder / name for name in ("statement.op", "text.basis", "out"))
    write(statement, iter([STATEMENT]))
    size = write(text, case.basis())
    files, status = [str(statement), str(text)], FINE if case.is_closed else REFUSED
    is_right = lambda found, report: found == status and (report == CLOSED or not case.is_closed)
    other = least([plain, "confirm", *files], out, is_right)
    is_told = lambda found, report: is_right(found, report) and (case.is_closed or report.startswith("# refused K2 line "))
    return cells(size, least([str(OPPROVE), "confirm", *files], out, is_told), other)


rows = table(NAMES, [BENCH, *CASES], case_cells, "apart")


# ---- A reduction of 1,000,000 steps, and rules that are dear to read or to search for

LONG = "language 2\nobject A\nmap a b c d : A -> A\n{}claim b^248 a^248 ((c + d)^4 + c^3) = 0\n"
SWAP = "basis 1\nclaim 1\nrule b a - a b\nrest c\nend\n"
ORDERS = {"by degrees": "", "`order weight b 2`": "order weight b 2\n", "`eliminate b`": "eliminate b\n"}
SHORT_RULES = "rule a\n" * 95_000


def many_short_rules() -> Text:
    """Blocks of lines `rule a` in 64 MiB, of which the first names no claim of the statement: all are read, and none is judged."""
    block = "basis 1\nclaim 2\n" + SHORT_RULES + END
    return itertools.repeat(block, LIMIT // len(block))


def one_letter(count: int) -> Text:
    """Rules whose words begin with one letter, which stands nowhere else in them."""
    return basis(f"rule a {word}\n" for word in words(count, 17))


def asked(folder: Path, statement: str, text: Text, statuses: Tuple[int, ...]) -> Usage:
    files = folder / "statement.op", folder / "text.basis"
    write(files[0], iter([statement]))
    write(files[1], text)
    return least([str(OPPROVE), "confirm", *map(str, files)], folder / "out", lambda status, report: status in statuses)


def reduction_rows(names: List[str], folder: Path) -> Text:
    bound()
    yield head("`confirm` s", "MB", "over the first")
    first = 0.0
    for name, order in ORDERS.items():
        used = asked(folder, LONG.format(order), iter([SWAP]), (REFUSED,))
        first = first or used.seconds
        yield line(name, told(used), f"{used.seconds / first:.2f}")
    yield line("64 MiB of `rule a`", told(asked(folder, STATEMENT, many_short_rules(), (REFUSED,))), "")
    first = 0.0
    for count in (6000, 24_000, 96_000):
        used = asked(folder, STATEMENT, one_letter(count), (FINE,))
        first = first or used.seconds
        yield line(f"{count:,} rules that begin with one letter", told(used), f"{used.seconds / first:.2f}")
