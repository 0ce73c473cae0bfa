"""What the tool `search` tries, in turn: variants of a statement for `prove` and `refute`, and searches in Python (worker.py)."""
from __future__ import annotations

import argparse
from heapq import heappop, heappush
from typing import Dict, Iterator, List, NamedTuple, Optional, Sequence, Set, Tuple

from opprove.search import variants
from opprove.search.variants import Equation, Order, Statement

PAIRS, STEPS, LIMIT = 1000, 40_000, 1_000_000  # of level 0; each level has twice as much, to the limit
# What a batch tries: fewer assumptions; other orders for all goals in one run; both; other orders for a goal alone; what
# did it for another goal; models; the statement as it is; letters and stars that are taken off, those that were named or any;
# and models of rational numbers.
FEWER, OTHER, BOTH, ALONE, AGAIN, MODELS, AS_WRITTEN, NAMED, ANY, RATIONAL = range(10)
AS_IT_IS = "the statement as it is"
WORKER = {NAMED: "cancellations", ANY: "any cancellations", RATIONAL: "rational matrices"}  # what is run in Python
WORKER_SECONDS = {NAMED: 4, ANY: 2, RATIONAL: 1}  # of level 0; each level has twice as many
# A batch has its turn by the logarithm, to the base 2, of the seconds that it is thought to take, so that each kind gets about as
# much time as any other, and the statement as it is four times as much. Sixteen thousand pairs take a second or two, twice as many
# four times as long, and the least run 1/64. NUMBERS are the logarithms of how many runs of `prove` a batch has.
NUMBERS = {FEWER: 3, OTHER: 3, BOTH: 6, ALONE: 4, AS_WRITTEN: -2}
A_SECOND, LEAST = 4, -6  # the level of a run of a second, and the logarithm of the seconds of the least one
TURNS = {AGAIN: -20, MODELS: -6, NAMED: 0, ANY: -1, RATIONAL: -1}  # of level 0 of the other kinds
EARLY = {NAMED: -9, RATIONAL: -7}  # of level 0 where that comes earlier: what was asked for, and what tells the most of a false claim
GROWING = ("undecided pairs", "undecided steps")  # what a run may say that a larger budget changes
TRIED = 0  # the level to which letters are tried for a claim that is refuted


class Goal:
    """A claim of the statement, or a lemma, and what was found of it."""

    def __init__(self, number: int, equation: Equation) -> None:
        self.number, self.equation = number, equation  # a lemma has the number 0
        self.verdict = ""  # proved, not derivable, or refuted
        self.cause, self.level = "", -1  # why the statement as it is leaves it undecided, at this level
        self.lines: List[str] = []
        self.found_by: List[str] = []
        self.more: List[str] = []  # a proof that takes for granted what nobody named
        self.granted = ""  # what that takes, in words
        self.is_tried = False  # whether such a one was looked for
        self.has_rows = False  # whether it has a proof by rows alone, and so may be a lemma

    def wants(self, kind: int) -> bool:
        """Whether a job of this kind may still say something of it."""
        if kind == ANY and not self.more:
            return self.verdict in ("", "not derivable") or (self.verdict == "refuted" and not self.is_tried)
        return self.verdict in ("", "not derivable") if kind in (MODELS, RATIONAL, NAMED) else kind != ANY and not self.verdict


class Job(NamedTuple):
    """A variant, with a budget."""

    name: str
    goals: List[Goal]  # its claims
    text: str
    words: List[str]  # of the command, behind its file
    level: int
    order: Order
    kind: int
    seconds: int  # of processor time, at most

    def is_open(self) -> bool:
        return any(goal.wants(self.kind) for goal in self.goals)

    def told(self) -> str:
        """Its name, and how far it goes."""
        units = {"prove": "pairs", "worker": "s"}
        return f"{self.name} ({self.words[2]} {units[self.words[0]]})" if self.words[0] in units else self.name


def turn(kind: int, level: int) -> int:
    """When a batch comes, where one claim is open: the least first."""
    if kind in NUMBERS:
        return NUMBERS[kind] + max(LEAST, 2 * (level - A_SECOND))
    if level == 0 and kind in EARLY:
        return EARLY[kind]
    # each level of models is another try of the same size
    return TURNS[kind] + (level.bit_length() if kind == MODELS else level)


def most_seconds(level: int) -> int:
    """A bound on the seconds of a run of `prove`: four times those that it is thought to take, and a second at least."""
    return int(4 ** (level - A_SECOND + 1)) or 1


def budget(level: int) -> List[str]:
    pairs, steps = (str(min(LIMIT, number << level)) for number in (PAIRS, STEPS))
    return ["prove", "--pairs", pairs, "--steps", steps, "--workers", "1", "--no-models"]


Batch = Tuple[int, int, int, int]  # its turn, of which goal or 0, what, level


class Plan:
    """What is to be tried, in turn."""

    def __init__(self, options: argparse.Namespace, statement: Statement, has_eliminate: bool) -> None:
        self.options, self.statement = options, statement
        lemmas = statement.lemmas(options.lemmas) if options.lemmas else []
        numbered = enumerate(statement.claims, 1)
        self.goals = [Goal(0, lemma) for lemma in lemmas] + [Goal(number, claim) for number, claim in numbered]
        self.claims = self.goals[len(lemmas) :]
        self.orders = [order for order in variants.ORDERS if has_eliminate or order is not variants.eliminated]
        self.tried: Dict[Tuple[int, str], int] = {}  # the level of a goal and a text
        self.closed: Set[str] = set()  # texts that no larger budget helps
        self.names = {"lemmas written"}  # of variants that proved something, or that are cheap where there is a lemma
        self.batches: List[Batch] = []
        self.pending: Set[Tuple[int, int, int]] = set()  # those that are among the batches, without their turns
        self.jobs: List[Job] = []
        self.begin()
        for place, goal in enumerate(self.goals, 1):
            if goal.number and not options.is_special and (not options.only or "models" in options.only):
                self.push(MODELS, place, 0)
        if not options.only:
            self.push(AS_WRITTEN, 0, 0)
        if not options.only or "rationals" in options.only:
            self.push(RATIONAL, 0, 0)
        if not options.only or "cancellations" in options.only:
            if options.monic or options.epic or options.complex:
                self.push(NAMED, 0, 0)
            if not options.monic and not options.epic:
                self.push(ANY, 0, 0)

    def push(self, kind: int, place: int, level: int) -> None:
        others = sum(goal is not self.goals[place - 1] and not goal.verdict for goal in self.goals) if place else 0
        if (place, kind, level) not in self.pending:
            self.pending.add((place, kind, level))
            # a claim among many has its share
            heappush(self.batches, (turn(kind, level) + others.bit_length(), place, kind, level))

    def begin(self, job: Optional[Job] = None) -> None:
        """Begins with all goals again where a job has made a new lemma. What was tried isn't tried again."""
        self.jobs = []
        self.push(OTHER, 0, 0)
        for place in range(1, len(self.goals) + 1):
            for kind in (FEWER, BOTH) if len(self.goals) == 1 else (FEWER, BOTH, ALONE):
                self.push(kind, place, 0)
            if job:
                self.names.add(job.name)
                self.push(AGAIN, place, job.level)

    def is_asked(self, name: str, group: List[str]) -> bool:
        """Whether --only has the name, or none of its group but a name of the other one."""
        only = set(self.options.only) - set(variants.OTHER_NAMES)
        return name in only or not self.options.only or (bool(only) and not only & set(group))

    def next_job(self) -> Optional[Job]:
        while self.jobs or self.batches:
            if not self.jobs:
                self.expand()
            while self.jobs:
                job = self.jobs.pop()
                key = (self.goals.index(job.goals[0]), job.text)
                if job.is_open() and job.text not in self.closed and self.tried.get(key, -1) < job.level:
                    self.tried[key] = job.level
                    return job
        return None

    def expand(self) -> None:
        """Makes the jobs of the next batch, and puts the batch with a larger budget behind the others."""
        _, place, kind, level = heappop(self.batches)
        self.pending.remove((place, kind, level))
        goals = [self.goals[place - 1]] if place else self.goals
        found = [job for job in self.batch(goals, kind, level) if job.goals and job.is_open() and job.text not in self.closed]
        self.jobs = found[::-1]
        if found and kind != AGAIN and (kind == MODELS or PAIRS << level < LIMIT):
            self.push(kind, place, level + 1)

    def batch(self, goals: List[Goal], kind: int, level: int) -> Iterator[Job]:
        if kind == AS_WRITTEN:
            yield Job(AS_IT_IS, self.claims, self.statement.text, budget(level), level, Order([]), kind, most_seconds(level))
        elif kind == MODELS:
            text = variants.model_text(self.statement, goals[0].number, level)
            words = ["refute", "--workers", "1", "--seed", str(max(level, 1))]
            yield Job("models", goals, text, words, level, Order([]), kind, 1 << level.bit_length())
        elif kind in WORKER:
            yield self.work(kind, level)
        elif any(not goal.verdict for goal in goals):
            yield from self.proofs(goals, kind, level)

    def work(self, kind: int, level: int) -> Job:
        """A search in Python for the claims that want it. The text has a comment more, so that no other job has it."""
        options = self.options
        goals = [goal for goal in self.claims if goal.wants(kind)]
        seconds = WORKER_SECONDS[kind] << level
        words = ["worker", "rational" if kind == RATIONAL else "cancel", str(seconds)]
        words.append(",".join(str(goal.number) for goal in goals))
        words += ["*", ""] if kind == ANY else [",".join(options.monic), ",".join(options.epic)]
        words.append(str(level + 1) if kind == RATIONAL else str(int(options.complex and kind == NAMED)))
        return Job(WORKER[kind], goals, f"{self.statement.text}# {WORKER[kind]}\n", words, level, Order([]), kind, 3 * seconds)

    def proofs(self, goals: List[Goal], kind: int, level: int) -> Iterator[Job]:
        """Variants by their size."""
        pool = list(self.statement.assumptions)
        for other in self.goals:
            pool += [other.equation._replace(is_lemma=True)] if other.has_rows else []
        group = [selection.__name__ for selection in [*variants.FEWER, *variants.ALL]]
        found = []
        selections = variants.FEWER if kind in (FEWER, BOTH) else variants.ALL
        for selection in variants.ALL + variants.FEWER if kind == AGAIN else selections:
            for label, chosen in selection(pool, union(goals)) if self.is_asked(selection.__name__, group) else []:
                if selection in variants.ALL or len(chosen) < len(pool):
                    found.append((selection.__name__ + label, chosen))
        for name, chosen in sorted(found, key=lambda named: len(named[1])):
            # without lemmas the claims stay, and so does the text
            open_goals = goals if name == "given" else [goal for goal in goals if not goal.verdict]
            yield from self.ordered(open_goals, kind, level, name, chosen)

    def ordered(self, goals: List[Goal], kind: int, level: int, name: str, chosen: List[Equation]) -> Iterator[Job]:
        group = [order.__name__ for order in variants.ORDERS]
        orders: Sequence[variants.Ordering] = [variants.written] if kind == FEWER else self.orders
        for order in orders:
            is_asked = self.is_asked(order.__name__, group) and (kind != AGAIN or f"{name} {order.__name__}" in self.names)
            is_as_it_is = order is variants.written and chosen == self.statement.assumptions and not self.options.only
            made = order(self.statement, chosen, union(goals)) if is_asked and not is_as_it_is else None
            if made:
                text = variants.text_of(self.statement, chosen, [goal.equation for goal in goals], made)
                yield Job(f"{name} {order.__name__}", goals, text, budget(level), level, made, kind, most_seconds(level))


def union(goals: List[Goal]) -> Equation:
    """The goal, or an equation with the maps of all goals, for what looks at its maps alone."""
    return goals[0].equation._replace(maps=variants.maps_of(goal.equation for goal in goals))
