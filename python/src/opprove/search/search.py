"""Searches around the program

Looks for evidence on each claim, side by side, until each is settled or the time is over (60 seconds, or N), and prints a report
as `opprove prove` does, of which the program and the second checkers accept each block for the statement as it was written:

- proofs, from variants of the statement: fewer assumptions, other orders of words, both, larger budgets, settled claims as lemmas;
- matrices that break a claim, also where it isn't derivable: other shapes, moduli, seeds and maps that are solved for; with --over q
  rational matrices instead, which say something of complex ones too (`rational model 1`, which check_model.py reads);
- proofs for `opprove cancel` that take off maps which --monic and --epic name, in front and behind. Where none is named, all are
  tried, and a comment says that a claim follows where some of them are monic or epic, with the least such maps: it settles nothing;
- with --complex, proofs by `r' r = 0 gives r = 0`, which holds for complex matrices and for operators between Hilbert spaces: as a
  `star proof 1`, which star.py reads, and for matrices as a statement with Moore-Penrose inverses and a certificate for `check`.

--keep FOLDER gets the variants, and each block as a file. --only NAME,.. leaves what has these names: of selections lemmas, inside,
paired, near, light (fewer assumptions), given, whole (all of them, without and with lemmas); of orders written, defined, eliminated, hidden, second, shown, adjoints, backwards, degree; and
models, cancellations, rationals. On a terminal a line says what is under way; an interrupt prints what was found so far.

The last line says why the search ended. Statuses are those of `opprove prove`, where a claim is proved too that follows from what
--monic, --epic and --complex say; 1 says that nothing could be run.
"""
from __future__ import annotations

import argparse
import errno
import json
import os
import re
import time
from pathlib import Path
from typing import Any, Dict, List, Optional, Set, Tuple

from opprove import second_check
from opprove.search import join
from opprove.search import variants
from opprove.program import path as path_of_program
from opprove.checkers.check import Evidence, Poly, Problem, Refusal, judge
from opprove.search import cluster, findings
from opprove.search.plan import ANY, AS_IT_IS, GROWING, MODELS, TRIED, WORKER, Goal, Job, Plan
from opprove.search.running import Interrupts, Program, Progress, Runs, Unusable
from opprove.search.variants import Statement
from opprove.text import sections


class Search:
    """Runs what is planned, and keeps what stands for the statement as it was written."""

    def __init__(self, options: argparse.Namespace, statement: Statement, runs: Runs, progress: Progress) -> None:
        self.options, self.statement, self.runs, self.progress = options, statement, runs, progress
        self.program = program = runs.program
        probe = self.write("eliminate.op", variants.ELIMINATE)
        self.plan = Plan(options, statement, program.answer(["prove", str(probe)]) == 0)
        self.pieces: List[join.Piece] = []
        self.paths: Dict[str, Path] = {}  # of the texts that are kept

    def write(self, name: str, text: str, folder: str = "") -> Path:
        path = (Path(folder) if folder else self.runs.folder) / name
        path.write_bytes(text.encode())
        return path

    # ---- The run

    def run(self) -> None:
        while not self.options.interrupts.is_met and self.progress.seconds() < self.options.seconds:
            self.runs.end(lambda job: not job.is_open() or job.text in self.plan.closed)
            while self.runs.has_room(self.options.jobs) and self.start(self.plan.next_job()):
                pass
            if not self.runs.under_way():
                break
            for job, status, report in self.runs.ended():
                self.ended(job, status, report)
            self.progress.tell(self.under_way())
            time.sleep(0.01)
        self.progress.clear()

    def start(self, job: Optional[Job]) -> bool:
        if job:
            name = re.sub("[^a-z0-9]+", "_", f"{job.goals[0].number if len(job.goals) == 1 else 'all'} {job.name}")
            path = self.write(f"{name}_{job.level}_{self.runs.count + 1}.op", job.text, self.options.keep)
            self.paths[job.text] = path
            self.runs.start(job, [job.words[0], str(path), *job.words[1:]], job.seconds)
        return job is not None

    def under_way(self) -> str:
        claims = self.plan.claims
        settled = ", ".join(f"{goal.number} {goal.verdict or 'open'}" for goal in claims[:6]) + ", .." * (len(claims) > 6)
        names = ", ".join(job.told() for job in self.runs.under_way())
        left = len(self.plan.batches) + len(self.plan.jobs)
        word = "claims" if len(claims) > 1 else "claim"
        return f"{word} {settled}; {self.runs.count} runs, now {names}; {left} more to try"

    # ---- What was found

    def ended(self, job: Job, status: int, report: Path) -> None:
        """Reads the report of a run, which has none where the run was ended or refused its variant."""
        text = report.read_text(encoding="utf-8") if status in (0, 10, 11, 12, 13) else ""
        report.unlink()
        if status == 5:
            raise OSError(errno.ENOSPC, os.strerror(errno.ENOSPC), str(report))
        if job.kind in WORKER:
            for line in text.splitlines():
                self.took_off(job, json.loads(line))
            for goal in job.goals:
                goal.is_tried = goal.is_tried or (job.kind == ANY and job.level >= TRIED)
            return
        found = list(sections(text))
        if status in (0, 2, 3, 4, 10) or (status == 12 and not any(head.said.startswith(GROWING) for head, _ in found)):
            self.plan.closed.add(job.text)
        for head, block in found:
            if job.goals[head.claim - 1].wants(job.kind):
                self.judge(job, job.goals[head.claim - 1], head.claim, head.said, block)

    def judge(self, job: Job, goal: Goal, number: int, head: str, block: str) -> None:
        """Takes over what a run says of a goal, where that stands for the statement as it was written."""
        if head.startswith("proved"):
            self.proved(job, goal, number, block)
        elif head.startswith("refuted"):
            self.refuted(job, goal, block)
        elif head.startswith("not derivable") and goal.number and self.has_same_generators(job):
            self.settle(job, goal, "not derivable", claimed(goal, head, block))
        elif head.startswith("undecided ") and job.name == AS_IT_IS and job.level > goal.level:
            goal.level, goal.cause = job.level, head[len("undecided ") :]

    def problem(self, job: Job) -> Problem:
        """The variant as check.py reads it."""
        return Problem(str(self.write("variant.op", job.text)))

    def has_same_generators(self, job: Job) -> bool:
        problem, mine = self.problem(job), self.statement.problem
        is_renamed = job.order.is_starred or problem.names != mine.names
        return not is_renamed and shapes(problem.generators()) == shapes(mine.generators())

    def proved(self, job: Job, goal: Goal, number: int, block: str) -> None:
        problem = self.problem(job)
        evidence = Evidence(problem, str(self.write("found.cert", block)))
        certificates = [one._replace(claim=number) for one in evidence.certificates]
        self.joined(job, goal, join.Piece(problem, certificates, variants.letter_names(self.statement, job.order)))

    def joined(self, job: Job, goal: Goal, piece: join.Piece) -> None:
        """Takes over a proof by rows that may use lemmas, which are proved by the pieces before it."""
        whole = join.Join(self.statement.problem)
        try:
            for one in [*self.pieces, piece]:
                whole.add(one)
        except Refusal:
            return  # a lemma has identities or adjoints that the statement has no relations of
        certificate = whole.certificate(goal.number) if goal.number else None
        lines = join.written(self.statement.problem, certificate) if certificate else []
        if not goal.number or self.is_accepted(lines):
            self.pieces.append(piece)
            goal.has_rows = True
            self.settle(job, goal, "proved", lines)
            self.plan.begin(job)

    def is_accepted(self, lines: List[str]) -> bool:
        """Whether both checkers accept the certificate for the statement as it was written."""
        path = str(self.write("whole.cert", "\n".join(lines) + "\n"))
        try:
            for certificate in Evidence(self.statement.problem, path).certificates:
                judge(self.statement.problem, certificate, "")
        except Refusal:
            return False
        return self.program.answer(["check", self.options.statement, path]) == 0

    def refuted(self, job: Job, goal: Goal, block: str) -> None:
        lines = claimed(goal, "refuted", block)
        words = [self.options.statement, str(self.write("whole.model", "\n".join(lines) + "\n"))]
        if second_check.is_accepted(*words) and self.program.answer(["model", *words]) == 0:
            self.settle(job, goal, "refuted", lines)

    # ---- What the searches in Python found

    def took_off(self, job: Job, found: Dict[str, Any]) -> None:
        """Takes over a proof that takes letters or stars off, or a rational model, where its checkers accept it."""
        goal, block, takes = self.plan.claims[found["claim"] - 1], found["block"], found["takes"]
        if not goal.wants(job.kind) or not findings.is_accepted(self.program, self.runs.folder, self.statement.text, block):
            return
        if findings.kind_of(block) == "rational":
            named = [f"{word} {' '.join(names)}" for word, names in (("monic", self.options.monic), ("epic", self.options.epic)) if names]
            lines = [f"# claim {goal.number} refuted over q" + "".join(f" {text}" for text in named), *block]
            if not self.options.is_special:
                lines = self.for_program(goal, found["modular"], block)
            if lines:
                self.settle(job, goal, "refuted", lines)
            return
        if findings.kind_of(block) == "certificate":
            evidence = Evidence(self.statement.problem, str(self.write("found.cert", "\n".join(block) + "\n")))
            self.joined(job, goal, join.Piece(self.statement.problem, evidence.certificates, {}))
            return
        granted = f" by {takes}" if takes else ""
        rows = sum(line.startswith("row ") for line in block)
        lines = [f"# claim {goal.number} proved {block[2]} rows {rows}{granted}", *block]
        lines += self.for_matrices(goal, found["statement"], found["certificate"]) if "statement" in found else []
        if job.kind == ANY and takes:
            self.keep_block(goal, block)
            goal.granted = f"follows where {in_words(takes)}"
            goal.more = [f"# claim {goal.number} {goal.granted}", *(f"#   {line}" for line in block)]
            self.progress.tell(f"claim {goal.number} {goal.granted}", is_news=True)
        else:
            self.settle(job, goal, "proved", lines)

    def for_program(self, goal: Goal, modular: List[str], block: List[str]) -> List[str]:
        """Rational matrices modulo a prime, which the program reads, with the rational ones as comments."""
        if not modular or not findings.is_accepted(self.program, self.runs.folder, self.statement.text, modular):
            return []
        self.keep_block(goal, block)
        lines = ["# they are these rational matrices modulo that prime, which --over q prints:"]
        return [f"# claim {goal.number} refuted", *modular, *lines, *(f"#   {line}" for line in block)]

    def for_matrices(self, goal: Goal, statement: str, certificate: List[str]) -> List[str]:
        """The other piece of a star proof, as comments, where its checkers accept it."""
        if not findings.is_accepted(self.program, self.runs.folder, statement, certificate):
            return []
        if self.options.keep:
            name = f"claim_{goal.number}_for_matrices"
            findings.keep(self.options.keep, findings.Finding("", certificate, statement, name))
        lines = ["# for matrices, which have Moore-Penrose inverses, this statement with this certificate:"]
        return lines + [f"#   {line}" for line in [*statement.rstrip("\n").split("\n"), *certificate]]

    def keep_block(self, goal: Goal, block: List[str]) -> None:
        """Writes a block to a file, for a folder that was asked for."""
        if self.options.keep and goal.number:
            self.write(f"claim_{goal.number}.{findings.kind_of(block)}", "\n".join(block) + "\n", self.options.keep)

    # ---- The report

    def settle(self, job: Job, goal: Goal, verdict: str, lines: List[str]) -> None:
        before = goal.verdict
        goal.verdict, goal.lines = verdict, lines
        self.keep_block(goal, [line for line in lines if line[0] != "#"])
        name = str(self.paths[job.text]) if self.options.keep else "VARIANT"
        name = self.options.statement if job.name == AS_IT_IS else name
        goal.found_by = [f"# found by {job.name}: opprove {job.words[0]} {name} {' '.join(job.words[1:])}"]
        if job.kind in WORKER:
            goal.found_by = [f"# found by {job.name}" + ", and the claim isn't derivable by rows" * (before != "" and verdict == "proved")]
        elif job.name != AS_IT_IS:
            if job.kind == MODELS:
                also = ", and --complex for proofs" if self.statement.problem.is_starred else ""
                goal.found_by.append(f"# matrices modulo a prime say nothing of complex ones: --over q looks for rational ones{also}")
            goal.found_by += ["# the variant:"] + [f"#   {line}" for line in job.text.rstrip("\n").split("\n")]
        if verdict == "not derivable" and job.order.lines:
            goal.found_by.append("# the basis is of another order than the statement's: " + job.order.lines[-1])
            self.write(f"claim_{goal.number}_order.op", variants.reordered(self.statement, job.order), self.options.keep)
        what = f"claim {goal.number}" if goal.number else "a lemma"
        self.progress.tell(f"{what} {verdict} by {job.name}", is_news=True)

    def report(self) -> Tuple[List[str], int]:
        lines: List[str] = []
        for goal in self.plan.claims:
            cause = goal.cause or f"seconds {self.progress.seconds():.0f}"
            lines += (goal.lines if goal.verdict else [f"# claim {goal.number} undecided {cause}"]) + goal.found_by
            lines += goal.more if goal.verdict != "proved" else []
        for goal in self.plan.goals:
            if not goal.number and goal.verdict:
                lines += [f"# lemma {variants.spelled(goal.equation.tokens, ())}", *goal.found_by]
        verdicts = {goal.verdict for goal in self.plan.claims}
        status = 12 if "" in verdicts else 11 if "refuted" in verdicts else 10 if "not derivable" in verdicts else 0
        return [*lines, self.why_ended()], status

    def why_ended(self) -> str:
        """The last line: why the search ended, and what it leaves."""
        left = [goal for goal in self.plan.claims if goal.verdict in ("", "not derivable")]
        if not left:
            return "# ended: each claim is settled"
        why = "nothing is left to try"
        if self.options.interrupts.is_met:
            why = f"interrupted after {self.progress.seconds():.0f} s"
        elif self.progress.seconds() >= self.options.seconds:
            why = f"the {self.options.seconds} s are over"
        said = [f"claim {goal.number} is {goal.verdict or 'undecided'}" + (f" and {goal.granted}" if goal.more else "") for goal in left]
        found = "no other proof and no model" if any(goal.more for goal in left) else "no proof, model or step that cancels"
        is_special = self.options.complex or self.options.over or not self.statement.problem.is_starred
        more = "" if is_special else "; --complex takes stars off too, as is right for complex matrices"
        return f"# ended: {why}; {', '.join(said)}, and {found} was found{more}"


def in_words(takes: str) -> str:
    """What a proof takes for granted of letters, as `f is monic and g h are epic`."""
    texts = re.findall("(monic|epic) (.+?)(?= epic|$)", takes)
    return " and ".join(f"{names} {'are' if ' ' in names else 'is'} {word}" for word, names in texts)


def claimed(goal: Goal, head: str, block: str) -> List[str]:
    """The head line and the block of a claim, with its number in the statement."""
    block = re.sub("^claim [0-9]+$", f"claim {goal.number}", block, count=1, flags=re.MULTILINE)
    return [f"# claim {goal.number} {head}"] + block.rstrip("\n").split("\n")


def shapes(polys: List[Poly]) -> Set[join.Shape]:
    return {frozenset(poly.items()) for poly in polys if poly}


def options_of(words: List[str]) -> argparse.Namespace:
    made = findings.words_of("search", __doc__, 60)
    made.add_argument("--monic", type=findings.names, default=[], metavar="LETTER,..", help="maps that are monic (injective)")
    made.add_argument("--epic", type=findings.names, default=[], metavar="LETTER,..", help="maps that are epic (onto)")
    made.add_argument("--complex", action="store_true", help="proofs for complex matrices and operators between Hilbert spaces")
    made.add_argument("--over", choices=["q"], default="", help="rational matrices instead of those modulo a prime")
    made.add_argument("--lemmas", metavar="FILE", help="lines `claim E = E`, which are tried first")
    made.add_argument("--only", type=findings.names, default=[], metavar="NAME,..", help="what is tried, by its names")
    findings.add_scheduler(made)
    options = made.parse_args(words)
    # Matrices modulo a prime say nothing of complex ones, nor have they the maps monic and epic that are named so.
    options.is_special = bool(options.over or options.complex or options.monic or options.epic)
    if not set(options.only) <= set(variants.NAMES):
        made.error(f"--only takes {', '.join(variants.NAMES)}")
    return options


def searched(options: argparse.Namespace, folder: Path) -> Tuple[List[str], int]:
    """The report, and the status. A fault of the statement is answered as opprove answers it."""
    progress = Progress("search", options.seconds)
    program = Program(Path(path_of_program()))
    words = ["prove", options.statement, "--pairs", "1", "--steps", "1", "--workers", "1", "--no-models"]
    status, answer = program.report(words)
    if status in (2, 3, 4, 6):
        return answer.decode().splitlines(), status
    statement = Statement(options.statement)
    for name in [*options.monic, *options.epic]:
        if name not in statement.problem.numbers or name[0] == "[":
            raise Unusable(f"# no map {name} in {options.statement}")
    with cluster.runs_of(options.scheduler, program, folder) as runs:
        search = Search(options, statement, runs, progress)
        search.run()
    return search.report()


def answer(words: List[str], folder: Path) -> findings.Answer:
    options = options_of(words)
    if options.keep:
        os.makedirs(options.keep, exist_ok=True)
    with Interrupts() as options.interrupts:
        return searched(options, folder)


def main(words: List[str]) -> int:
    """Writes the report, and returns its status."""
    return findings.answered("search", answer, words)
