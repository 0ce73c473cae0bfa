"""Rows of runs that were worked out by hand, asked of the program alone, so that the gate has the time for it. test_cancel.py,
test_confirm.py and test_explain.py ask the second programs some of them too."""
from __future__ import annotations

from pathlib import Path
from typing import Callable, Iterable, List, Tuple

import cancel_limits
import cancel_rows
import check_limits
import check_rows
import completion_rows
import confirm_limits
import confirm_rows
import decided_rows
import evidence_rows
import explain_limits
import explain_rows
import language_rows
import model_rows
import statement_rows
from opprove.checkers import check
from row_parts import USAGE, Row, lines
from trying import Answer, built, need, run, usage_line

SHOWN = 1000
SECOND = "language 2\n"
ACCEPTED = "# block 1 accepted claim 1 denominator 1\n"


class Asked:
    """A folder with the files `s` and `c`, in which the program is called."""

    def __init__(self, folder: Path) -> None:
        self.folder, self.program, self.count = folder, built(), 0

    def write(self, statement: str, evidence: str) -> None:
        for name, text in (("s", statement), ("c", evidence)):
            (self.folder / name).write_bytes(text.encode("utf-8", "surrogateescape"))

    def told(self, words: str, statement: str, evidence: str = "") -> str:
        """The status and the report of the words over the files."""
        self.write(statement, evidence)
        answer = run(self.program, *words.split(), folder=self.folder)
        need(answer.error == "", (words, statement[:SHOWN], answer.error[:SHOWN]))
        self.count += 1
        return USAGE if answer == Answer(check.USAGE, usage_line(), "") else f"{answer.status} {answer.out}"

    def row(self, words: str, statement: str, evidence: str, want: str) -> None:
        told = self.told(words, statement, evidence)
        need(told == want, (words, statement[:SHOWN], evidence[:SHOWN], told[:SHOWN], want[:SHOWN]))

    def rows(self, rows: Iterable[Row], is_second: bool = False) -> None:
        """Each row; and the same of its statement in the second language, but where it is, and where that moves the place of a fault."""
        for words, statement, evidence, report in rows:
            want = report if report == USAGE or report.endswith("\n") else lines(report)
            self.row(words, statement, evidence, want)
            if not is_second and not want.startswith(("3 ", "4 ")) and not statement.startswith(SECOND):
                self.row(words, SECOND + statement, evidence, want)


def judged(folder: Path) -> str:
    asked = Asked(folder)
    asked.rows([*check_rows.ROWS, *model_rows.ROWS])
    return f"{asked.count} runs of check and model are answered as they were worked out by hand"


def limits(folder: Path) -> str:
    asked = Asked(folder)
    for rows in (check_limits.ROWS, cancel_limits.ROWS, confirm_limits.ROWS, explain_limits.ROWS):
        asked.rows(rows, is_second=True)
    return f"{asked.count} runs at limits are answered as they were worked out by hand"


def languages(folder: Path) -> str:
    asked = Asked(folder)
    asked.rows(language_rows.ROWS, is_second=True)
    for words, second, first in language_rows.SAME:
        asked.row(words, second, "", asked.told(words, first))
    return f"{asked.count} runs over both languages are answered as they were worked out by hand"


def known(asked: Asked, words: str, statement: str, heads: str) -> None:
    """The head lines of a report are those, and where all claims are proved, certificates of both formats are accepted."""
    told = asked.told(words, statement)
    status, _, report = told.partition(" ")
    got = "".join(line for line in report.splitlines(keepends=True) if line.startswith("# "))
    need(f"{status} {got}" == lines(heads), (statement, got, heads))
    for form in ("1", "2") if status == "0" else ():
        report = asked.told(f"{words} --format {form}", statement).partition(" ")[2]
        accepted = asked.told("check s c", statement, report)
        need(accepted.startswith(f"0 {ACCEPTED}"), (statement, accepted[:SHOWN]))


def decided(folder: Path) -> str:
    asked = Asked(folder)
    asked.rows(decided_rows.ROWS)
    for words, statement, _, heads in decided_rows.KNOWN:
        known(asked, words, statement, heads)
    return f"{asked.count} runs of prove, refute and bench are answered as they were worked out by hand"


def completion(folder: Path) -> str:
    asked = Asked(folder)
    for row in completion_rows.runs():
        command, _, options = row.words.partition(" ")
        asked.row(f"{command} s {options}", row.statement, "", f"{row.status} {row.report}")
    return f"{asked.count} runs on rules and candidates are answered as they were worked out by hand"


def certified(statement: str, generators: List[str]) -> Tuple[str, str]:
    """The statement with a claim for each generator, and certificates by which generator N is the claim's polynomial, and no more."""
    first = sum(line.startswith("claim ") for line in statement.splitlines()) + 1
    claims = "".join(f"claim {generator} = 0\n" for generator in generators)
    blocks = (f"certificate 1 / claim {first + at} / denominator 1 / row 1 () {at + 1} () / end" for at in range(len(generators) + 1))
    return statement + claims + f"claim {generators[0]} = 0\n", "".join(map(lines, blocks))


def statements(folder: Path) -> str:
    asked = Asked(folder)
    for statement, fault in statement_rows.FAULTS:
        asked.row("check s c", statement, "", f"3 # refused {fault}\n")
    for statement in statement_rows.READ:
        asked.row("check s c", statement, "", "7 # refused K7\n")
    for statement, generators in statement_rows.GENERATORS:
        extended, certificates = certified(statement, generators)
        first, count = extended.count("claim ") - len(generators), len(generators)
        accepted = "".join(f"# block {at + 1} accepted claim {first + at} denominator 1\n" for at in range(count))
        asked.row("check s c", extended, certificates, f"7 {accepted}# block {count + 1} refused C2 row 1\n")
    return f"{asked.count} statements are read or refused as they were worked out by hand"


def texts(folder: Path) -> str:
    asked = Asked(folder)
    for command, statement, before, after, rows in evidence_rows.FAULTS_OF_TEXTS:
        for text, fault in rows:
            asked.row(f"{command} s c", statement, f"{before}{text}{after}", f"7 # refused {fault}\n")
    certificates = [("check s c", evidence_rows.CERTIFIED, row) for row in (*evidence_rows.SAME_CERTIFICATES, *evidence_rows.SAME_LEMMAS)]
    proofs = [("cancel s c", evidence_rows.CANCELLED, row) for row in evidence_rows.SAME_CANCELLATIONS]
    for words, statement, (text, same) in certificates + proofs:
        want = asked.told(words, statement, same)
        need(" refused K" not in want, (same, want))
        asked.row(words, statement, text, want)
    return f"{asked.count} texts of evidence are read or refused as they were worked out by hand"


def status_of(report: str) -> int:
    return check.FAULTY if report.startswith("# refused S") else check.REFUSED if " refused " in report[-200:] else check.DONE


def cancel(folder: Path) -> str:
    asked = Asked(folder)
    for _, statement, evidence, report in cancel_rows.runs():
        asked.row("cancel s c", statement, evidence, f"{status_of(report)} {report}")
    return f"{asked.count} runs of cancel are answered as they were worked out by hand"


def confirm(folder: Path) -> str:
    asked = Asked(folder)
    for row in confirm_rows.runs():
        asked.row("confirm s c", row.statement, row.basis, f"{row.status} {row.report}")
        if row.is_proved:
            need(asked.told("prove s", row.statement).partition(" ")[2] == row.basis, (row.name, row.basis))
    return f"{asked.count} runs of confirm are answered as they were worked out by hand"


def explain(folder: Path) -> str:
    asked = Asked(folder)
    for row in explain_rows.runs():
        evidence = row.evidence
        if row.prove_format:
            evidence = asked.told(f"prove s --format {row.prove_format}", row.statement).partition(" ")[2]
        asked.row("explain s c", row.statement, evidence, f"{status_of(row.report)} {row.report}")
    return f"{asked.count} runs of explain are answered as they were worked out by hand"


CHECKS: List[Callable[[Path], str]] = [judged, limits, languages, decided, completion, statements, texts, cancel, confirm, explain]
