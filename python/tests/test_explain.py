"""Tries explain.py, `opprove chain` on text of chains, and `explain` of plain.rs: test_explain.py

The reports that explain_rows.py has are asked of explain.py, and with them go the stored certificates, the proofs of the examples
in format 1, random certificates and changed ones. Each of their chains is read by `opprove chain`, whose text is read back, and whose
certificate is explained again; with a changed line it has to be refused by the number of that line. Where opprove is built and has
`explain`, or the variable OPPROVE names such a program, it prints the same bytes; so does plain.rs, of statements that it reads,
where rustc is.
"""
from __future__ import annotations

import re
from pathlib import Path
from random import Random
from typing import Callable, Iterator, List, Tuple

from opprove.checkers import explain
import explain_rows
from opprove.translations import chain as chain_tool
import test_chains
from opprove.checkers.check import DONE, FAULTY, REFUSED, Certificate, Evidence, Poly, Problem, Refusal, Share, judge, status_of
from opprove.checkers.chain_text import Texts
from drawing import Rows
from explain_rows import Run
from trying import NUMBER, PROGRAM, Answer, built, decided, is_built, need, replaced, run, stored, tool, twice_or_not, typeset, with_line
from trying_second import UNREAD, Files, Second, files_in

COUNT = 72  # random certificates
LARGE = 2**16  # bytes of a report that isn't read as a chain
SECOND = Second(explain, UNREAD, re.compile(rb"\[|'|^(?:model|basis) ", re.MULTILINE))
explained, by_whom = SECOND.answered, SECOND.by_whom


# ---- Chains that are read


def set_text(statement: Path, chain: Path, *options: str) -> Answer:
    try:
        lines = test_chains.written(statement, chain, options[0][2:] if options else "text")
    except Refusal as refusal:
        return Answer(status_of(str(refusal)), "", f"{refusal}\n")
    return Answer(0, "".join(f"{line}\n" for line in lines), "")


def as_certificate(lines: List[str]) -> List[List[str]]:
    """The groups of lines of a chain that was read, as test_chains.py reads them: with what cancels in the head lines."""
    groups = [group.split("\n") for group in "\n".join(lines).split("\n\n")]
    last = re.fullmatch("and ([0-9]+) cancels", groups[-1][-1])
    if last:
        groups[-1].pop()
        number, equation = groups[0][0].split(": ", 1)
        groups[0][0] = f"{number}, where {last.group(1)} cancels: {equation}"
        groups[-1][0] += f", as {last.group(1)} cancels"
    return groups


def sums_of(proof: chain_tool.Proof) -> List[Poly]:
    (chain,) = proof.chains
    return [chain.start(), *(step.total for step in chain.steps)]


def told(files: Files, report: str) -> int:
    """Fails unless `opprove chain` reads the chains of a report, writes text that is read back, and a certificate that explains the
    same sums, unless rows of it are merged. Gives the number of the chains."""
    chains = files.folder / "explained.chain"
    chains.write_bytes(report.encode())
    problem = Problem(str(files.statement))
    texts, reader = Texts(problem, str(chains)), chain_tool.Reader(problem)
    for number, text in enumerate(texts.chains, 1):
        proof = reader.told(text)
        is_turned = reader.claims[text.claim - 1].left == {}
        test_chains.read_proof(problem, as_certificate(list(chain_tool.text(reader, proof))), is_turned)
        judge(problem, reader.shortened(proof), f"chain {number}")
        files.evidence.write_text("\n".join(chain_tool.certificate_text(problem, reader.shortened(proof))), encoding="utf-8")
        again = explained(files)
        need(again.status == 0, (report, again))
        chains.write_bytes(again.out.encode())
        (other,) = map(reader.told, Texts(problem, str(chains)).chains)
        is_merged = len({step.row[1:] for step in proof.chains[0].steps}) < len(proof.chains[0].steps)
        need(is_merged or sums_of(other) == sums_of(proof), (report, again.out))
    chains.write_bytes(report.encode())
    answer = set_text(files.statement, chains)
    need(answer.status == 0 and answer.out.count("\nProof") == len(texts.chains), (report, answer))
    return len(texts.chains)


def tried(files: Files) -> int:
    """Explains both files and reads what is printed. Gives the number of chains."""
    answer = explained(files)
    need(answer.status == 0, (files.statement.read_text("utf-8"), files.evidence.read_text("utf-8"), answer))
    return told(files, answer.out)


# ---- What is tried


def evidence_of(row: Run, files: Files) -> str:
    """That of a row: where opprove is there, the report of its own run."""
    if not row.prove_format or not is_built():
        return row.evidence
    return run(PROGRAM, "prove", files.statement, "--format", row.prove_format).out


def rows(folder: Path) -> str:
    files, chains, found = files_in(folder), 0, explain_rows.runs()
    for row in found:
        files.write(row.statement, row.evidence)
        files.evidence.write_bytes(evidence_of(row, files).encode())
        answer = explained(files)
        want = FAULTY if row.report.startswith("# refused S") else REFUSED if " refused " in row.report[-200:] else DONE
        need(answer == Answer(want, row.report, ""), (row.name, answer.out[:3000], row.report[:3000]))
        if want == 0 and len(row.report) < LARGE:
            chains += told(files, row.report)
    return f"{len(found)} reports that were worked out by hand are those of {by_whom()}; {chains} chains of them are read"


def calls(folder: Path) -> str:
    return SECOND.calls(folder, explain_rows.PAIR, explain_rows.block(explain_rows.FIVE), ["--format", 1])


FIRST_TEXT = """Claim 1: f = g

Assumptions that are used
(1) s f = [P]   line 4
(3) f s = g s   line 6
Not used: (2)

Proof
  f
= f s f   by (1)
= g s f   by (3)
= g       by (1)
"""
ZERO = "object P\nmap u v : P -> P\nassume 2 u = 2 v\nclaim 0 = u - v\n"
ZERO_TEXT = """Claim 1: 0 = u - v

Assumptions that are used
(1) 2 u = 2 v   line 3
Not used: none

Proof
  2 u - 2 v
= 0           by (1)
and 2 cancels
"""


def texts(folder: Path) -> str:
    """What `opprove chain` writes of two chains, and that it reads one kind of block alone."""
    files, chain = Files(folder, None), folder / "told.chain"
    for statement, rows_of_it, denominator, text in (
        (explain_rows.PAIR, explain_rows.FIVE, 1, FIRST_TEXT), (ZERO, ["-1 () 1 ()"], 2, ZERO_TEXT),
    ):  # fmt: skip
        files.write(statement, explain_rows.block(rows_of_it, 1, denominator))
        report = explained(files).out
        chain.write_text(report)
        answer = run(*tool("chain"), files.statement, chain)
        need(answer == Answer(0, text, ""), answer)
    certificate = files.evidence.read_text()
    count = report.count("\n") + 1
    for mixed, place in ((report + certificate, count), (certificate + report, certificate.count("\n") + 2)):
        chain.write_text(mixed)
        answer = set_text(files.statement, chain)
        need(answer == Answer(7, "", f"# refused K2 line {place}\n"), answer)
    return "2 chains are set as they were worked out by hand"


# ---- Faults of chains

CHAIN = explain_rows.told(*explain_rows.EIGHT, 1, 6)
FAULTS: List[Tuple[str, str, str]] = [  # what is put in the place of what in a chain, and the line
    ("claim 1\nd", "claim 3\nd", "# block 1 refused C1"),
    ("denominator 6\nl", "denominator 0\nl", "# block 1 refused C3"),
    ("denominator 6\nl", "denominator 7\nl", "# block 1 refused line 5 word u want 7 got 6"),
    ("- 6 u u + 6 u", "6 u - 6 u u", ""),
    ("- 6 u u + 6 u", "6 u - 5 u u - u u", ""),
    ("- 6 u u + 6 u", "6 u - 6 u u + v", "# block 1 refused line 5 word v want 0 got 1"),
    ("- 6 u u + 4 v", "- 6 u u + 5 v", "# block 1 refused line 7 word v want 4 got 5"),
    ("- 6 u u + 4 v", "0", "# block 1 refused line 7 word v want 4 got 0"),
    ("line 0", "line u", "# block 1 refused line 9 word u want 0 got 1"),
    ("use 1 () 2 ()\nline 0\n", "", "# block 1 refused line 7 word v want 0 got 4"),
    ("use 2 () 1 ()", "use 3 () 1 ()", "# block 1 refused line 7 word u want -3 got 0"),
    ("use 2 () 1 ()", "use 2 () 3 ()", "# block 1 refused C2 line 6"),
    ("use 2 () 1 ()", "use 0 () 1 ()", "# block 1 refused line 6 no step"),
    ("use 2 () 1 ()", f"use {explain_rows.GREATEST} () 1 ()", f"# block 1 refused E2 line 6 -{explain_rows.GREATEST} times -2"),
    ("use 2 () 1 ()", f"use 2 ({explain_rows.u(500)}) 1 ()", "# block 1 refused E3 line 6"),
    ("use 2 () 1 ()", f"use 2 ({explain_rows.u(501)}) 1 ()", "# refused K5 line 6 limit 500"),
    ("use 2 () 1 ()", f"use {explain_rows.GREATEST + 1} () 1 ()", "# refused K4 line 6"),
    ("use 2 () 1 ()", "use 2 () 4294967296 ()", "# refused K4 line 6"),
    ("use 2 () 1 ()", "use 2 (t) 1 ()", "# refused K3 line 6"),
    ("use 2 () 1 ()", "use 2 (u'') 1 ()", "# refused K2 line 6"),
    ("use 2 () 1 ()", "use 2 () lemma 1 ()", "# refused K2 line 6"),
    ("use 2 () 1 ()", "row 2 () 1 ()", "# refused K2 line 6"),
    ("claim 1\nd", "claim 4294967296\nd", "# refused K4 line 3"),
    ("- 6 u u + 4 v", "- 6 u t + 4 v", "# refused K3 line 7"),
    ("- 6 u u + 4 v", f"- 6 u u + {explain_rows.GREATEST + 1} v", "# refused K4 line 7"),
    ("- 6 u u + 4 v", f"- 6 {explain_rows.u(501)} + 4 v", "# refused K5 line 7 limit 500"),
    ("- 6 u u + 4 v", "+ u" * 20001, "# refused K2 line 7"),
    ("- 6 u u + 4 v", " + ".join(["u"] * 20001), "# refused K5 line 7 limit 20000"),
    *(("- 6 u u + 4 v", text, "# refused K2 line 7") for text in ("6", "- 6 u u + 4", "- - u", "u +", "-", "u + + u", "0 + u", "(u)", "")),
    ("end\n", "", "# refused K6"),
    ("chain 1", "chain 2", "# refused K2 line 2"),
    (CHAIN, "# nothing\n", "# refused K7: there is no proof to be written"),
    (CHAIN, CHAIN * 101, "# refused K5 line 1002 limit 100"),
]


def faults(folder: Path) -> str:
    files, chain = Files(folder, None), folder / "faulty.chain"
    files.write(explain_rows.MULTIPLES, "")
    for old, new, line in FAULTS:
        need(CHAIN.count(old) >= 1, old)
        chain.write_text(CHAIN.replace(old, new, 1))
        found = set_text(files.statement, chain).error
        need(found == (line and line + "\n"), (old, new[:200], line, found))
    untyped = explain_rows.told(["1 () 1 ()", *explain_rows.FIVE], ["- g + f", *explain_rows.FIVE_LINES])
    files.write(explain_rows.PAIR, untyped)
    answer = set_text(files.statement, files.evidence)
    need(answer == Answer(7, "", "# block 1 refused line 6 no step\n"), answer)
    return f"{len(FAULTS) + 1} chains are answered by the line that was worked out by hand"


def changed_lines(files: Files, report: str) -> int:
    """Fails unless each line of the chains, with one number changed or one term more, is told by its number."""
    chain, lines, count = files.folder / "changed.chain", report.split("\n"), 0
    letter = next(name for name in Problem(str(files.statement)).names if name[0] != "[")
    for place, line in enumerate(lines):
        if not line.startswith("line "):
            continue
        more = f"line {letter}" if line == "line 0" else f"{line} + {letter}"
        chain.write_text("\n".join([*lines[:place], more, *lines[place + 1 :]]), encoding="utf-8")
        answer = set_text(files.statement, chain)
        is_told = re.fullmatch(f"# block [0-9]+ refused line {place + 1} word {letter} want .*\n", answer.error)
        need((answer.status, answer.out) == (7, "") and is_told is not None, (more, answer))
        count += 1
    return count


# ---- Certificates


def plainly(statement: Path, evidence: Path) -> str:
    """The evidence, with those of its certificates in format 1 that have no lemmas."""
    problem, texts = Problem(str(statement)), []
    for certificate in Evidence(problem, str(evidence)).certificates:
        texts.append("\n".join(chain_tool.certificate_text(problem, certificate)) + "\n")
    return "".join(texts)


def changed(text: str) -> Iterator[str]:
    """The text with one change: of a number, or of a row that is left out or comes twice."""

    def others(line: str) -> Iterator[List[str]]:
        yield from replaced(line, NUMBER, lambda number: [int(number) + 1])
        yield from twice_or_not(line) if line.startswith("row ") else ()

    return with_line(text, others)


def examples(folder: Path) -> str:
    """The stored certificates, with lemmas and without, and changed ones."""
    files, chains, changes, lines = files_in(folder), 0, 0, 0
    for statement, evidence in stored():
        files.write(statement.read_text("utf-8"), evidence.read_text("utf-8"))
        explained(files)
        text = plainly(statement, evidence)
        for other in [text, *changed(text)] if "certificate 2" not in text else []:
            files.write(statement.read_text("utf-8"), other)
            answer = explained(files)
            changes += 1
            if other is text and answer.status == 0:
                chains += told(files, answer.out)
                lines += changed_lines(files, answer.out)
    need(chains >= 5 and changes >= 100, (chains, changes))
    return f"{chains} chains of the examples and {changes} changed certificates are explained by {by_whom()}; {lines} changed lines are told"


def proofs(folder: Path) -> str:
    program, files, chains, lines = built(), files_in(folder), 0, 0
    for statement in decided():
        report = run(program, "prove", statement, "--pairs", 2000, "--format", 1).out
        if "\ncertificate " in report:
            files.write(statement.read_text("utf-8"), report)
            answer = explained(files)
            chains += told(files, answer.out)
            lines += changed_lines(files, answer.out) if answer.out.count("\nline ") <= 100 else 0
    return f"{chains} chains of proofs are explained by {by_whom()} and read; {lines} changed lines are told"


# What plain.rs reads.
PLAIN = """object U V
map a b : U -> V
map c d : V -> U
map e f : V -> V
map h : U -> U
assume a c = e e - 2 f
assume c a = 2 h
assume e f a - a d b = b
assume d e = 3 c f - d
assume d = c e
"""


def random_rows(source: Rows) -> Tuple[str, Certificate]:
    """A claim, and a certificate of rows with some that are no steps."""
    draw, ends = source.draw, source.pair()
    goal = source.share(ends)
    more = [source.row(goal.scale, draw.choice([ends, (-1, -1)])) for _ in range(draw.randrange(4))]
    none = [row._replace(coefficient=0) for row in goal.rows if draw.random() < 0.2]
    rows = [*goal.rows, *more, *(row._replace(coefficient=-row.coefficient) for row in more), *none]
    draw.shuffle(rows)
    return source.claim(goal.rows, goal.scale, ends), Certificate(1, goal.scale, [Share(goal.scale, rows)])


def random_certificates(folder: Path, count: int = COUNT) -> str:
    files, draw = files_in(folder), Random(1)
    chains = changes = 0
    for number in range(count):
        head, source = test_chains.drawn(draw, PLAIN if number % 3 == 0 else test_chains.RANDOM)
        claim, made = random_rows(source)
        text = "\n".join(chain_tool.certificate_text(source.problem, made))
        statement = f"{head}claim {claim}\n"
        for other in list(changed(text))[:: 1 + count // 20]:
            files.write(statement, other)
            changes += 1
            explained(files)
        files.write(statement, text)
        chains += tried(files)
    return f"{chains} chains of random certificates are explained by {by_whom()} and read; {changes} changed ones are answered"


def latex(folder: Path) -> str:
    """The chains of the rows and of the examples, as pdflatex sets them."""
    files, bodies = Files(folder, None), []
    cases = [(row.statement, row.evidence) for row in explain_rows.runs() if len(row.report) < LARGE and row.report.endswith("end\n")]
    for statement, evidence in stored():
        text = plainly(statement, evidence) if "refused" not in evidence.stem else "certificate 2"
        cases += [] if "certificate 2" in text else [(statement.read_text("utf-8"), text)]
    for texts_of_it in cases:
        files.write(*texts_of_it)
        chain = folder / "typeset.chain"
        chain.write_text(explained(files).out, encoding="utf-8")
        bodies += set_text(files.statement, chain, "--latex").out.split("\n")
    typeset(["\n".join(bodies)], folder)
    return f"{sum(line[:8] == '% claim ' for line in bodies)} chains that were read are typeset by pdflatex"


CHECKS: List[Callable[[Path], str]] = [rows, calls, texts, faults, examples, proofs, random_certificates, latex]
