"""`opprove coq` with coqc: exports of all kinds of evidence, changed evidence, random statements, and what MathComp gets.

It takes minutes, and runs one coqc at a time. Without coqc it is skipped with a line, and so is what asks for a program that isn't
built."""
from __future__ import annotations

import atexit
import functools
import itertools
import os
import random
import re
import shutil
import subprocess
import sys
import tempfile
import unittest
from pathlib import Path
from typing import Iterator, List, Optional, Tuple

from coq_batches import CLOSED, Coq, has_mathcomp, is_installed
from coq_statements import CASES, NAMED, expressions, large_model, many_rows, named, random_proofs, random_statement, right_inverses
from opprove.checkers.check import Refusal
from opprove.coq import export
from opprove.text import EvidenceText, StatementText
from trying import EXAMPLES, PROGRAM, STATEMENTS, decided

TOOLS = EXAMPLES / "tools"
HAS_PROGRAM = os.access(PROGRAM, os.X_OK)
# What Coq finds by itself: that sums, roots and matrices don't add up, and that rules aren't closed.
LEFT_TO_COQ = re.compile(r"refused (C6|C8|P5|M4|M5|M6|B3|B4|B5|B6)\b")


def program(*words: object) -> Tuple[int, str]:
    """The status and the report of the program."""
    done = subprocess.run([str(PROGRAM), *map(str, words)], stdin=subprocess.DEVNULL, capture_output=True)
    return done.returncode, done.stdout.decode()


def written(statement: StatementText, evidence: str) -> Tuple[str, bool]:
    """The export of evidence, and whether the second checkers accept it; nothing where Coq isn't asked."""
    is_right = True
    try:
        blocks = export.read(statement.problem, [EvidenceText(evidence.encode())])
        for block in blocks:
            try:
                export.judge(statement.problem, block)
            except Refusal as refusal:
                if not LEFT_TO_COQ.search(str(refusal)):
                    raise
                is_right = False
        return export.translate(statement, blocks), is_right
    except (Refusal, IndexError):  # a row after a root that is wrong may name no item
        return "", False


def changes(text: str, letters: List[str], draw: random.Random) -> Iterator[str]:
    """The text with one change each: of a number, of a letter, of the order of lines, or of a line that is left out or repeated."""
    lines = text.rstrip("\n").split("\n")
    while True:
        place = draw.randrange(1, len(lines) - 1)
        tokens = re.split(r"([ ();]+)", lines[place])
        spots = [spot for spot, token in enumerate(tokens) if re.fullmatch("-?[0-9]+", token) or token in letters]
        kind = draw.random()
        if kind < 0.1:
            yield "\n".join([*lines[:place], *lines[place + 1 :], ""])
        elif kind < 0.15:
            yield "\n".join([*lines[: place + 1], *lines[place:], ""])
        elif kind < 0.2:
            yield "\n".join([*lines[: place - 1], lines[place], lines[place - 1], *lines[place + 1 :], ""])
        elif spots:
            spot = draw.choice(spots)
            token = tokens[spot]
            tokens[spot] = draw.choice(letters) if token in letters else str(int(token) + draw.choice([-1, 1, 2]))
            yield "\n".join([*lines[:place], "".join(tokens), *lines[place + 1 :], ""])


def letters_of(statement: StatementText) -> List[str]:
    """The letters in play, as they are written."""
    return [name for name in statement.problem.names if statement.problem.is_starred or name[-1] != "'"]


@functools.lru_cache(maxsize=None)
def compiled() -> Coq:
    """A folder with the compiled library, which is there until the end."""
    folder = tempfile.mkdtemp(prefix="opprove-coq-")
    atexit.register(shutil.rmtree, folder)
    coq = Coq(Path(folder))
    seconds = coq.library()
    say(f"the library takes {seconds:.1f} s")
    assert seconds < 60, seconds
    return coq


def say(line: str) -> None:
    """Says what a test found."""
    print(f"coq: {line}", file=sys.stderr, flush=True)


@unittest.skipUnless(is_installed(), "coqc is not installed")
class Exports(unittest.TestCase):
    """Evidence of all kinds, and the theorems that Coq accepts of it."""

    def setUp(self) -> None:
        self.coq = compiled()

    def add(self, path: Path, evidence: str, is_right: Optional[bool] = None) -> None:
        """The export of evidence, which has to be accepted if nothing else is said."""
        statement = StatementText.read(str(path))
        text, found = written(statement, evidence)
        self.assertTrue(text, (path, evidence))
        self.assertEqual(found, is_right is not False, (path, evidence))
        self.coq.add(text, found)

    def test_stored_evidence(self) -> None:
        places = [(path, path.with_suffix(suffix)) for path in STATEMENTS for suffix in (".cert", ".star")]
        pairs = [(path, it) for path, it in places if it.exists() and not it.read_text(encoding="utf-8").startswith("rational model")]
        pairs += [(EXAMPLES / "equal_maps.op", EXAMPLES / f"equal_maps_{name}.cert") for name in ("refused", "untyped")]
        for path, evidence in pairs:
            self.add(path, evidence.read_text(encoding="utf-8"), "refused" not in evidence.stem)
        say(f"{len(pairs)} stored files of evidence in {self.coq.run():.1f} s")

    def test_stored_exports(self) -> None:
        for path in sorted(TOOLS.glob("*.v")):
            self.coq.add(path.read_text(encoding="utf-8"), True)
        say(f"{len(list(TOOLS.glob('*.v')))} stored exports in {self.coq.run():.1f} s")
        for name, evidence in (("halved", "halved.cert"), ("normal_idempotent", "normal_idempotent.star")):
            text = export.exported((TOOLS / f"{name}.op").read_bytes(), [(TOOLS / evidence).read_bytes()])
            self.assertEqual(f"{text}\n", (TOOLS / f"{name}.v").read_text(encoding="utf-8"))

    @unittest.skipUnless(HAS_PROGRAM, "opprove is not built")
    def test_reports(self) -> None:
        """All reports of prove on the examples, in both formats."""
        count = 0
        for path in decided():
            for number in (1, 2):
                _, report = program("prove", path, "--pairs", 2000, "--format", number)
                if EvidenceText(report.encode()).blocks:
                    self.add(path, report)
                    count += 1
        path = self.coq.folder / "named.op"
        path.write_text(NAMED, encoding="utf-8")
        self.add(path, program("prove", path, "--no-models")[1] + program("refute", path)[1])
        say(f"{count} reports on the examples in {self.coq.run():.1f} s")

    def test_kinds(self) -> None:
        """Statements of all kinds: self maps, denominators, lemmas of two signatures, identities, powers, abbreviations, odd names."""
        for text, evidence in [*CASES.values(), named(), expressions()]:
            path = Path(self.coq.folder, "kind.op")
            path.write_text(text, encoding="utf-8")
            self.add(path, evidence)
        say(f"{len(CASES) + 2} kinds of statements in {self.coq.run():.1f} s")

    def test_other_theorems(self) -> None:
        """A theorem that says something else than its certificate proves is refused."""
        text = (TOOLS / "pseudoinverses.v").read_text(encoding="utf-8")
        others = [
            ("  x = y.", "  x = 0."), ("  x = y.", "  y = x."), ("(x y : V ⟶ U)", "(y x : V ⟶ U)"),
            ("  (x ∘ a)† = x ∘ a ->\n", ""), ("  x ∘ a ∘ x =", "  x ∘ a ∘ y ="), ("  (a ∘ y)† =", "  a ∘ y ="),
        ]  # fmt: skip
        for number, (old, new) in enumerate(others):
            self.assertEqual(text.count(old), 1)
            name = f"other_{number}.v"
            Path(self.coq.folder, name).write_text(text.replace(old, new), encoding="utf-8")
            done = self.coq.compile(name)
            self.assertEqual(done.status, 1, (old, new))
            self.assertIn("\nError:", done.error)

    def test_mathcomp(self) -> None:
        """MathComp.v and Uses.v, which stands on the stored exports."""
        if not has_mathcomp():
            self.skipTest("MathComp is not installed")
        for path in sorted(TOOLS.glob("*.v")):
            shutil.copy(path, self.coq.folder / "examples")
            done = self.coq.compile(f"examples/{path.name}")
            self.assertEqual(done[:3], (0, CLOSED, ""))
        for name, out in (("MathComp", ""), ("Uses", CLOSED)):
            done = self.coq.compile(f"theories/{name}.v")
            self.assertEqual(done[:3], (0, out, ""))

    def test_random_certificates(self) -> None:
        """Over random assumptions, with claims that are what random rows add up to."""
        for seed in range(3):
            path, (statement, evidence) = Path(self.coq.folder, "proofs.op"), random_proofs(seed, 30)
            path.write_text(statement)
            self.add(path, evidence)
        say(f"90 random certificates in {self.coq.run():.1f} s")

    def test_large_evidence(self) -> None:
        """Within twice the seconds that a processor with nothing else to do takes, as others may be busy too."""
        cases = {
            "10,000 rows": (many_rows(), 8), "a basis of 361 rules": (right_inverses(60), 60), "one of 37 rules": (right_inverses(6), 3),
            "a model of side 6": (large_model(6, 65537), 4), "one of side 16": (large_model(16, 2**31 - 1), 30),
        }  # fmt: skip
        for name, ((text, evidence), limit) in cases.items():
            path = Path(self.coq.folder, "large.op")
            path.write_text(text)
            self.add(path, evidence)
            seconds = self.coq.run()
            say(f"{name} in {seconds:.1f} s")
            self.assertLess(seconds, limit, name)
        text, evidence = large_model(17, 5)
        with self.assertRaisesRegex(Refusal, "# block 1 isn't exported: a side of the model is above 16"):
            export.exported(text.encode(), [evidence.encode()])


# Statements and evidence of each kind, and the command that judges it.
CHANGED = {
    "certificate": ["pseudoinverses.op pseudoinverses.cert", "pasted_squares.op pasted_squares.cert", "tools/halved.op tools/halved.cert"],
    "cancellation": [
        f"../library/{name}.op ../library/{name}.cert" for name in ("diagrams/short_five_lemma", "linear_equations/normal_equations")
    ],
    "star": ["tools/normal_idempotent.op tools/normal_idempotent.star"],
    "basis": ["../library/false/one_sided_inverse.op tools/one_sided_inverse.report"],
    "model": ["../library/false/one_sided_inverse.op tools/one_sided_inverse.report"],
}  # fmt: skip
COMMANDS = {"certificate": "check", "model": "model", "basis": "confirm", "cancellation": "cancel"}


def is_accepted(kind: str, paths: List[str]) -> bool:
    """By the command, or where there is none by the second checker."""
    if kind in COMMANDS and HAS_PROGRAM:
        return program(COMMANDS[kind], *paths)[0] == 0
    return is_exported(paths)


def is_exported(paths: List[str]) -> bool:
    """Whether the tool takes the evidence."""
    try:
        export.exported_files(paths[0], paths[1:])
    except Refusal:
        return False
    return True


@unittest.skipUnless(is_installed(), "coqc is not installed")
class Changes(unittest.TestCase):
    """Changed evidence: Coq accepts exactly that which the commands accept."""

    def blocks(self, kind: str) -> Iterator[Tuple[Path, str]]:
        """Statements with one block of the kind."""
        for pair in CHANGED[kind]:
            statement, evidence = (EXAMPLES / name for name in pair.split())
            for block in EvidenceText.read(str(evidence)).blocks:
                if block.kind == kind:
                    yield statement, block.text
        if kind == "model":
            path, (statement_text, model) = compiled().folder / "model.op", large_model(3, 101)
            path.write_text(statement_text)
            yield path, model

    def compare(self, kind: str) -> None:
        """Some 150 changes of evidence of a kind: the command, the tool and Coq answer alike."""
        coq, draw, counts = compiled(), random.Random(kind), {"accepted": 0, "refused by Coq": 0, "not exported": 0, "the same proof": 0}
        found = list(self.blocks(kind))
        for path, original in found:
            statement = StatementText.read(str(path))
            proof = written(statement, original)[0]
            several = changes(original, letters_of(statement), draw)
            for evidence in itertools.islice(several, 150 // len(found) + 1):
                paths = [str(path), str(coq.folder / "changed.cert")]
                Path(paths[1]).write_text(evidence, encoding="utf-8")
                is_right, (text, found_right) = is_accepted(kind, paths), written(statement, evidence)
                self.assertEqual(is_right, is_exported(paths), evidence)
                self.assertEqual(is_right, bool(text) and found_right, evidence)
                what = "not exported" if not text else "accepted" if is_right else "the same proof" if text == proof else "refused by Coq"
                counts[what] += 1
                if what in ("accepted", "refused by Coq"):
                    coq.add(text, is_right)
        seconds = coq.run()
        said = ", ".join(f"{count} {what}" for what, count in counts.items())
        say(f"{sum(counts.values())} changes of a {kind} in {seconds:.1f} s: {said}")

    def test_certificates(self) -> None:
        self.compare("certificate")

    def test_cancellations(self) -> None:
        self.compare("cancellation")

    def test_star_proofs(self) -> None:
        self.compare("star")

    def test_bases(self) -> None:
        self.compare("basis")

    def test_models(self) -> None:
        self.compare("model")


@unittest.skipUnless(is_installed() and HAS_PROGRAM, "coqc is not installed, or opprove is not built")
class Verdicts(unittest.TestCase):
    """Reports on random statements, until there are 60 of each verdict."""

    def test_random_statements(self) -> None:
        coq, draw, wanted = compiled(), random.Random(80), {"certificate": 60, "model": 60, "basis": 60}
        counts, seconds, path = dict.fromkeys(wanted, 0), 0.0, compiled().folder / "random.op"
        while any(counts[kind] < wanted[kind] for kind in wanted):
            path.write_text(random_statement(draw))
            _, report = program("prove", path, "--pairs", 60)
            blocks = [block for block in EvidenceText(report.encode()).blocks if counts[block.kind] < wanted[block.kind]]
            if blocks:
                statement = StatementText.read(str(path))
                text, is_right = written(statement, "".join(block.text for block in blocks))
                self.assertTrue(is_right, (path.read_text(), report))
                coq.add(text, True)
                for block in blocks:
                    counts[block.kind] += 1
            seconds += coq.run() if len(coq.pages) == 30 else 0.0
        say(f"reports on random statements, with {counts}, in {seconds + coq.run():.1f} s")
