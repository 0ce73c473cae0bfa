"""The tables of `measure.py prove`, `counts`, `workers` and `orders`: runs of `prove` beside those of dev/plain_run.rs.

Ten problems of the examples and of the generators beside this file, each with so many pairs, in format 1, with one worker
and without models. Both programs have to print the same head lines. What `prove` reads is the statement; the plain program
reads the tree that tree.py makes of it. PAIRS behind the word makes the rows with so many pairs, and NAME those whose name
begins so. `growth` is by how many times the seconds of `prove` grow from one number of pairs to the next. `counts` has the
instructions of both by valgrind's callgrind, which no other work on the machine changes, and `orders` those of a step
of its reductions, for the files of the library with `eliminate` or `order weight` and for the same by degrees.
"""
from __future__ import annotations

import itertools
import re
from pathlib import Path
from typing import Callable, Counter, Dict, List, NamedTuple, Tuple

import costly
import presentations
from measuring import NO_MEMORY, OPPROVE, Text, Usage, bound, build, head, least, line, load
from measuring import quotient, quotient_text, told, write, write_tree
from trying import LIBRARY, installed, need, run

PAIRS = [1000, 5000, 20000]
ENDED = (0, 10, 12)  # the statuses of proved, underivable and undecided claims


def example(name: str) -> Callable[[], str]:
    return lambda: (LIBRARY / name).read_text(encoding="utf-8")


PROBLEMS: Dict[str, Callable[[], str]] = {
    "braid on three strands, `false/braid_relation.op`": example("false/braid_relation.op"),
    "braid on four strands, `presentations.py braid 4`": lambda: presentations.braid(4),
    "plactic monoid, `plactic 4`": lambda: presentations.plactic(4),
    "Coxeter group of a path, `coxeter 3 3 5 3`": lambda: presentations.coxeter(3, 3, 5, 3),
    "rotations of triangles, `triangle 2 3 7`": lambda: presentations.triangle(2, 3, 7),
    "Fibonacci group, `fibonacci 7`": lambda: presentations.fibonacci(7),
    "sums of commutators, `quad 16`": lambda: presentations.quad(16),
    "a long claim, `costly.py unending`": lambda: costly.unending(1),
    "chain of pseudoinverses, `harder/pseudoinverse_chain.op`": example("harder/pseudoinverse_chain.op"),
    "commuting inverses, `harder/commuting_inverses.op`": example("harder/commuting_inverses.op"),
}


def heads(text: str) -> str:
    return "".join(line + "\n" for line in text.split("\n") if line.startswith("# claim "))


def prove_words(statement: Path, pairs: int, workers: int) -> List[str]:
    return [str(OPPROVE), "prove", str(statement), *f"--pairs {pairs} --workers {workers} --no-models --format 1".split()]


def calls(text: str, pairs: int, plain: str, folder: Path) -> Tuple[List[str], List[str]]:
    statement = folder / "statement.op"
    write(statement, iter([text]))
    return prove_words(statement, pairs, 1), [plain, str(write_tree(statement)), "--pairs", str(pairs), "--format", "1"]


def both(text: str, pairs: int, plain: str, folder: Path) -> Tuple[Usage, Usage]:
    out = folder / "out"
    own_words, words = calls(text, pairs, plain, folder)
    other = least(words, out, lambda status, text: status == 0)
    want = heads(out.read_text(encoding="utf-8"))
    is_right = lambda status, text: status in ENDED and (other.status == NO_MEMORY or heads(text) == want)
    return least(own_words, out, is_right), other


def asked(words: List[str]) -> Tuple[List[int], List[str]]:
    """The numbers of pairs among the words, and the names of the problems that begin as one of the others, or all."""
    starts = tuple(word for word in words if not word.isdecimal()) or ("",)
    return [int(word) for word in words if word.isdecimal()], [name for name in PROBLEMS if name.startswith(starts)]


def rows(words: List[str], folder: Path) -> Text:
    plain = build("plain_run", folder)
    bound()
    counts, names = asked(words)
    before: Dict[str, Usage] = {}  # the runs with as many pairs as the line before has
    yield load()
    yield head("pairs", "`prove` s", "MB", "plain s", "MB", "quotient", "growth")
    for pairs in counts or PAIRS:
        shares = []
        for name in names:
            own, other = both(PROBLEMS[name](), pairs, plain, folder)
            shares.append(quotient(own, other))
            growth = quotient_text(own, before[name]) if name in before else ""
            before[name] = own
            yield line(name, f"{pairs:,}", told(own), told(other), quotient_text(own, other), growth)
        shares = [share for share in shares if share]
        if shares:
            yield line("mean; greatest", f"{pairs:,}", "", "", "", "", f"{sum(shares) / len(shares):.2f}; {max(shares):.2f}", "")


def counted(words: List[str], folder: Path) -> int:
    answer = run(installed("valgrind"), "--tool=callgrind", f"--callgrind-out-file={folder / 'counts'}", *words, seconds=3600)
    found = re.search("refs: +([0-9,]+)", answer.error)
    need(answer.status in ENDED and found is not None, (words, answer))
    return int(found.group(1).replace(",", ""))


def count_rows(words: List[str], folder: Path) -> Text:
    """The instructions of both programs, in millions."""
    plain = build("plain_run", folder)
    counts, names = asked(words)
    before: Dict[str, int] = {}
    yield head("pairs", "`prove`", "plain", "quotient", "growth")
    for pairs in counts or PAIRS[:1]:
        shares = []
        for name in names:
            own, other = (counted(call, folder) for call in calls(PROBLEMS[name](), pairs, plain, folder))
            shares.append(own / other)
            growth = f"{own / before[name]:.2f}" if name in before else ""
            before[name] = own
            yield line(name, f"{pairs:,}", f"{own / 1e6:,.0f}", f"{other / 1e6:,.0f}", f"{shares[-1]:.2f}", growth)
        yield line("mean; greatest", f"{pairs:,}", "", "", f"{sum(shares) / len(shares):.2f}; {max(shares):.2f}", "")


def worker_rows(words: List[str], folder: Path) -> Text:
    """Heavy reductions with one, two and four workers, which print the same bytes: seconds from start to end, and those of processors."""
    statement, out = folder / "statement.op", folder / "out"
    counts, names = asked(words)
    yield load()
    yield head("pairs", "workers", "seconds", "of processors", "times as fast", "times the processors")
    for pairs, name in itertools.product(counts or PAIRS[:1], names):
        write(statement, iter([PROBLEMS[name]()]))
        alone, report = None, ""
        for workers in (1, 2, 4):
            is_right = lambda status, text: status in ENDED and (alone is None or text == report)
            usage = least(prove_words(statement, pairs, workers), out, is_right)
            alone, report = alone or usage, report or out.read_text(encoding="utf-8")
            shares = [f"{alone.wall / usage.wall:.2f}", quotient_text(usage, alone)]
            yield line(name, f"{pairs:,}", f"{workers}", f"{usage.wall:.3f}", f"{usage.seconds:.3f}", *shares)


ORDER = re.compile(r"^(?:eliminate|order weight) .*$", re.MULTILINE)


def ordered(starts: Tuple[str, ...]) -> List[Path]:
    """The files of the library with an order that isn't by degrees, whose paths begin with one of the words."""
    paths = sorted(path for path in LIBRARY.rglob("*.op") if str(path.relative_to(LIBRARY)).startswith(starts))
    return [path for path in paths if ORDER.search(path.read_text(encoding="utf-8"))]


class Reduced(NamedTuple):
    """The steps of a run's reductions, the instructions of their choices and steps, and those of all measures of words."""

    steps: int
    instructions: int
    measures: int

    @property
    def cells(self) -> List[str]:
        return [f"{self.steps:,}", f"{self.each:,.0f}", f"{self.measures / max(self.steps, 1):,.0f}"]

    @property
    def each(self) -> float:
        return self.instructions / max(self.steps, 1)


def reduced(counts: Path) -> Reduced:
    """What callgrind's file says of them: a function's name stands behind its number once, and the line behind that of a call
    ends with the instructions.
    """
    called = ""
    names: Dict[str, str] = {}
    found: Counter[str] = Counter()
    with counts.open(encoding="utf-8", errors="replace") as lines:
        for text in lines:
            named = re.match(r"(c?)fn=\((\d+)\) ?(.*)", text)
            if named:
                names.setdefault(named.group(2), named.group(3))
                called = names[named.group(2)] if named.group(1) else ""
            word = re.search("::(choose|take_step|measure)\\b", called) if text.startswith("calls=") else None
            if word:
                found["steps"] += int(text[len("calls="):].split()[0]) * (word.group(1) == "take_step")
                found["measures" if word.group(1) == "measure" else "instructions"] += int(next(lines).split()[-1])
    return Reduced(found["steps"], found["instructions"], found["measures"])


def run_reduced(text: str, pairs: int, folder: Path) -> Reduced:
    statement = folder / "statement.op"
    write(statement, iter([text]))
    counted(prove_words(statement, pairs, 1), folder)
    return reduced(folder / "counts")


def order_rows(words: List[str], folder: Path) -> Text:
    """Instructions a step of a reduction, its choice included, in the order of a file and by degrees."""
    counts = [int(word) for word in words if word.isdecimal()]
    starts = tuple(word for word in words if not word.isdecimal()) or ("",)
    yield head("pairs", "steps", "instructions a step", "of measures", "by degrees: steps", "instructions a step", "of measures", "quotient")
    for pairs in counts or PAIRS[:1]:
        shares = []
        for path in ordered(starts):
            text = path.read_text(encoding="utf-8")
            own, other = (run_reduced(each, pairs, folder) for each in (text, ORDER.sub("order degree", text)))
            shares.append(own.each / other.each)
            yield line(str(path.relative_to(LIBRARY)), f"{pairs:,}", *own.cells, *other.cells, f"{shares[-1]:.2f}")
        if shares:
            yield line("mean; greatest", f"{pairs:,}", *[""] * 6, f"{sum(shares) / len(shares):.2f}; {max(shares):.2f}")
