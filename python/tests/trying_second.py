"""What tests of the second checkers share: a command and its second program, which have to answer by the same bytes."""
from __future__ import annotations

import functools
import re
import subprocess
from pathlib import Path
from types import ModuleType
from typing import List, NamedTuple, Optional, Sequence, Tuple

import trying_node
from opprove import tool
from opprove.checkers import check
from trying import PROGRAM, Answer, Skipped, build, checker, is_built, need, run

SHOWN = 3000  # characters of a text that a failure shows
# What plain.rs has no letters for, in a statement and in evidence.
UNREAD = re.compile(r"\[|'| self$|^(?:pinv|inverse|inner|projection|order|model|solve) ", re.MULTILINE)
UNREAD_EVIDENCE = re.compile(rb"\[|'|^(?:model|basis|certificate) ", re.MULTILINE)


class Files(NamedTuple):
    """Those that a text is written to, and plain.rs where it is built."""

    folder: Path
    plain: Optional[str]

    @property
    def statement(self) -> Path:
        return self.folder / "asked.op"

    @property
    def evidence(self) -> Path:
        return self.folder / "asked.cert"

    def write(self, statement: str, evidence: str) -> None:
        self.statement.write_bytes(statement.encode("utf-8", "surrogateescape"))
        self.evidence.write_bytes(evidence.encode("utf-8", "surrogateescape"))


@functools.lru_cache(maxsize=None)
def files_in(folder: Path) -> Files:
    try:
        return Files(folder, build("plain", folder))
    except Skipped:
        return Files(folder, None)


class Second:
    """A second program by its module, of the command with that name. plain.rs doesn't read texts in which what is unread occurs."""

    def __init__(self, module: ModuleType, unread: "re.Pattern[str]" = UNREAD, unread_evidence: "re.Pattern[bytes]" = UNREAD_EVIDENCE) -> None:
        self.module, self.unread, self.unread_evidence = module, unread, unread_evidence
        self.name = module.__name__.split(".")[-1]
        self.command, self.tool = self.name.replace("check_", ""), checker(self.name)
        self.has_third = self.command in trying_node.COMMANDS

    def by_whom(self) -> str:
        told = f"{self.name}.py and opprove" if is_built() else f"{self.name}.py alone, as opprove is not built"
        return f"{told}, {trying_node.by_node()}" if self.has_third else told

    def agreed(self, statement: Path, evidence: Path, plain: Optional[str] = None) -> Answer:
        """The answer of the second program, with which the other programs have to agree, plain.rs where nothing is refused."""
        status, lines = tool.answer(self.module.report, [str(statement), str(evidence)])
        answer = Answer(status, "".join(f"{line}\n" for line in lines), "")
        if self.has_third and (self.command != "check" or b"cancellation " not in evidence.read_bytes()):
            trying_node.agrees(self.command, statement, evidence, answer)
        for program in [PROGRAM] * is_built() + [Path(plain or "")] * (plain is not None and status == check.DONE):
            other = run(program, self.command, statement, evidence, seconds=600)
            texts = statement.read_bytes()[:SHOWN], evidence.read_bytes()[:SHOWN]
            need(other == answer, (texts, answer.out[:SHOWN], other.out[:SHOWN], other.status, other.error))
        return answer

    def answered(self, files: Files) -> Answer:
        return self.agreed(files.statement, files.evidence, files.plain if self.is_plain(files) else None)

    def rows(self, folder: Path, rows: Sequence[Tuple[str, str, str, str]]) -> str:
        """Those that were worked out by hand: of each its name, the statement, the evidence and the report."""
        files = files_in(folder)
        for name, statement, evidence, report in rows:
            files.write(statement, evidence)
            answer = self.answered(files)
            status = check.FAULTY if report.startswith("# refused S") else check.REFUSED if " refused " in report[-200:] else check.DONE
            need(answer == Answer(status, report, ""), (name, evidence[:1000], answer.status, answer.out[:SHOWN], report[:SHOWN]))
        return f"{len(rows)} reports that were worked out by hand are those of {self.by_whom()}"

    def is_plain(self, files: Files) -> bool:
        """Whether plain.rs reads both files."""
        is_read = not self.unread.search(files.statement.read_text("utf-8"))
        return is_read and not self.unread_evidence.search(files.evidence.read_bytes())

    def calls(self, folder: Path, statement: str, evidence: str, more: Sequence[object]) -> str:
        """Files that aren't there or are too long, and words that aren't taken, as these more ones. The evidence is accepted."""
        files = Files(folder, None)
        files.write(statement, evidence)
        programs: List[List[object]] = [[*self.tool], *([[PROGRAM, self.command]] * is_built())]
        with (folder / "long").open("wb") as file:
            file.truncate(2**26 + 1)
        for program in programs:
            for name, line in (("missing", "# load failed missing\n"), ("long", f"# too long long limit {2**26}\n")):
                answer = run(*program, files.statement, name, folder=folder)
                need(answer == Answer(check.NOT_LOADED, line, ""), (program, name, answer))
            paths: List[object] = [files.statement, files.evidence]
            for words in (paths[:1], [*paths, files.evidence], [*paths, *more]):
                answer = run(*program, *words)
                need(answer.status == check.USAGE and re.fullmatch("# usage: .*\n", answer.out) is not None, (program, words, answer))
        (folder / "long").unlink()
        with open("/dev/full", "wb") as full:
            done = subprocess.run([*self.tool, files.statement, files.evidence], stdout=full, stderr=subprocess.PIPE)
            need((done.returncode, done.stderr) == (check.NO_OUTPUT, b""), done)
        return f"{len(programs) * 5 + 1} faulty calls of {self.name} are told"

