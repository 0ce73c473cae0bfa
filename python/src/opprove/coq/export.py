"""Evidence as theorems for Coq

Writes a file for coqc with a theorem for each block of the evidence, in the names of the statement, and its proof, which Coq checks
by a library that is proved. Certificates, proofs that take letters or stars off, models and bases go through, in whole reports and
in several files. The head of the file says what each theorem says. What the second checkers refuse is refused, with their line.

    opprove coq --library FOLDER          copies the library for Coq to the folder, and compiles it by coqc
    coqc -Q FOLDER Opprove NAME.v         prints "Closed under the global context": accepted, and no axiom is used

To be read are Definitions.v of the library and the theorems, which are named by claim and verdict; of a second one a number is
appended. A name that is a word of Coq gets an _, and one with signs that Coq may not read a number. Not exported are models with
a side above 16 or with more than 500,000 products of numbers, rational models, and bases where an equation has more than 20,000
terms when it is multiplied out.
"""
from __future__ import annotations

import os
import re
import shutil
import subprocess
from typing import Callable, Dict, Iterator, List, NamedTuple, Optional, Union

from opprove.checkers import cancel, check, check_model, confirm, star
from opprove.checkers.chain_text import Lines
from opprove.checkers.check import MOST_BYTES, Problem, Refusal, loaded
from opprove.coq import bases, models, proofs
from opprove.coq.layout import comment, filled
from opprove.coq.sharp import Sharp
from opprove.coq.statement import Statement
from opprove.text import EvidenceText, StatementText
from opprove.tool import ended, parser

THEORIES = os.path.join(os.path.dirname(os.path.abspath(__file__)), "theories")
LIBRARY = ["Definitions", "Laws", "Checker", "Modulo", "Closed", "Sharp"]  # in the order in which they stand on one another
HEAD = """\
From Coq Require Import List ZArith.
From Opprove Require Import Definitions Checker Modulo Closed Sharp.
Import ListNotations.
Local Open Scope positive_scope.
Local Open Scope hom_scope."""
Evidence = Union[check.Certificate, cancel.Cancellation, check_model.Model, confirm.Basis]


class Block(NamedTuple):
    """A block of evidence, and its number among all that are given."""

    kind: str
    evidence: Evidence
    number: int


# ---- Evidence

UNEXPORTED = {"rational": "a model over the rational numbers", "chain": "a chain of equal expressions"}


def read_block(problem: Problem, kind: str, data: bytes) -> Evidence:
    """The one block of a text. One of a kind that there isn't is read as a certificate, which refuses it."""
    if kind == "cancellation":
        return cancel.Cancellations(problem, data).proofs[0]
    if kind == "star":
        return star.StarProofs(problem, data).proofs[0]
    if kind == "model":
        return check_model.Models(problem, data).models[0]
    if kind == "basis":
        return confirm.Bases(problem, data).bases[0]
    return check.Evidence(problem, data).certificates[0]


def read(problem: Problem, texts: List[EvidenceText]) -> List[Block]:
    """The blocks of all texts, in their order."""
    blocks: List[Block] = []
    for text in texts:
        for block in text.blocks:
            number = len(blocks) + 1
            if block.kind in UNEXPORTED:
                raise Refusal(f"# block {number} isn't exported: {UNEXPORTED[block.kind]}")
            data = "\n" * (block.line - 1) + block.text
            blocks.append(Block(block.kind, read_block(problem, block.kind, data.encode(errors="surrogateescape")), number))
    if not blocks:
        raise Refusal("# refused K7")
    return blocks


def judge(problem: Problem, block: Block) -> None:
    """Raises the first test of the second checkers that fails, where one does."""
    refused, evidence = f"# block {block.number} refused", block.evidence
    if isinstance(evidence, check.Certificate):
        check.judge(problem, evidence, refused)
    elif isinstance(evidence, cancel.Cancellation):
        cancel.judge(Lines(problem), evidence, refused, star.StarItems)
    elif isinstance(evidence, check_model.Model):
        check_model.judge(problem, evidence, refused)
    else:
        confirm.judge(problem, confirm.Order(problem), evidence, refused)


# ---- Theorems

VERDICTS = {
    "certificate": "proved", "cancellation": "proved_by_cancelling", "star": "proved_by_stars",
    "model": "refuted", "basis": "not_derivable",
}  # fmt: skip


class Theorems:
    """The theorems of a statement, block by block."""

    def __init__(self, statement: StatementText) -> None:
        self.problem, self.statement = statement.problem, Statement(statement)
        self.rows = proofs.Rows(self.statement)
        self.lines: List[str] = []
        self.names: List[str] = []
        self.besides: List[str] = []  # theorems that blocks have besides
        self.said: List[str] = []  # of each theorem, in words
        self.has_bases = False
        self.sharp: Optional[Sharp] = None

    def add(self, block: Block) -> None:
        """Adds the theorem of a block, and what it stands on."""
        count = sum(name.startswith(f"claim_{block.evidence.claim}_") for name in self.names)
        tag = f"{block.evidence.claim}" + (f"_{count + 1}" if count else "")
        name = self.fresh(f"claim_{block.evidence.claim}_{VERDICTS[block.kind]}")
        self.names.append(name)
        self.lines += ["", comment(f"Block {block.number}, of claim {block.evidence.claim}")]
        self.lines += WRITERS[block.kind](self, name, tag, block)

    def fresh(self, name: str) -> str:
        """The name, with a number where there is one already."""
        count = sum(re.fullmatch(f"{name}(_[0-9]+)?", other) is not None for other in self.names)
        return f"{name}_{count + 1}" if count else name

    def proof(self, name: str, tag: str, block: Block) -> Iterator[str]:
        """The theorem of a certificate, or of a proof that takes letters or stars off."""
        assert isinstance(block.evidence, (check.Certificate, cancel.Cancellation))
        proof = proofs.proof_of(block.evidence)
        self.said.append(f"{name}: {in_words(self.problem, proof)}")
        yield from self.rows.definitions(tag, proof)
        yield from proofs.theorem(self.rows, name, tag, proof)

    def model(self, name: str, tag: str, block: Block) -> Iterator[str]:
        """The theorems of a model."""
        model = block.evidence
        assert isinstance(model, check_model.Model)
        models.require_small(self.statement, model, f"# block {block.number} isn't exported")
        stars = " with transposes as adjoints" * self.problem.is_starred
        self.said.append(
            f"{name}: no theorem can say claim {model.claim} of all preadditive categories in which an integer prime to {model.modulus} "
            f"cancels; {name}_by: with these matrices modulo {model.modulus}{stars} all assumptions hold, and claim {model.claim} doesn't."
        )
        yield from models.ModelTheorems(self.statement, name, tag, model).written()

    def basis(self, name: str, tag: str, block: Block) -> Iterator[str]:
        """The theorem of a basis, and of one that is sharp another."""
        basis = block.evidence
        assert isinstance(basis, confirm.Basis)
        self.said.append(
            f"{name}: in the free algebra over all letters no positive multiple of claim {basis.claim} is a sum of integer multiples of "
            f"l g r, over generators g of the statement and any words l and r."
        )
        if not self.has_bases:
            yield from bases.order_definitions(self.statement)
            self.has_bases = True
        theorem = bases.BasisTheorem(self.statement, name, tag, basis, f"# block {block.number} isn't exported")
        yield from theorem.written()
        if confirm.is_sharp(self.problem, basis):
            yield from self.of_sharp(theorem)

    def of_sharp(self, theorem: bases.BasisTheorem) -> Iterator[str]:
        """What is said besides of a basis whose rules are typed and in play."""
        claim, name = theorem.basis.claim, f"{theorem.name}_sharp"
        stars = ", with adjoints of maps as maps by themselves" * self.problem.is_starred
        self.said.append(
            f"{name}: no theorem can say claim {claim} of all preadditive categories in which each positive integer cancels{stars}: "
            f"in that of the normal forms all generators are zero, and claim {claim} isn't."
        )
        self.besides.append(name)
        if self.sharp is None:
            self.sharp = Sharp(self.statement)
            yield from self.sharp.definitions(theorem.numbers)
        yield from self.sharp.theorem(theorem.name, theorem.tag, claim, theorem.multiple)

    def text(self) -> str:
        """The file, but for its last line feed."""
        head = [comment("Written by `opprove coq`. What the theorems say needs no more than the file Definitions.v of the library.")]
        head += [comment(said) for said in self.said] + [comment(line) for line in self.left_out()]
        theorems = filled(f"Definition theorems := ({', '.join(self.names + self.besides)}).")
        parts = [*head, HEAD, *self.statement.names.notes, "", *self.statement.definitions(), *self.rows.letters.definitions()]
        return "\n".join([*parts, *self.lines, "", "(* What axioms they use *)", theorems, "Print Assumptions theorems."])

    def left_out(self) -> Iterator[str]:
        """A line on claims of which there is no theorem."""
        claims = {int(name.split("_")[1]) for name in self.names}
        missing = [str(number) for number in range(1, len(self.problem.claims) + 1) if number not in claims]
        if missing:
            yield f"No block of the evidence is of claim {', '.join(missing)}."


def in_words(problem: Problem, proof: proofs.Proof) -> str:
    """What the theorem of a proof says."""
    kind = f" {proof.involution()}" if proof.involution() else "n"
    category = "preadditive category" + f" with a{kind} involution" * problem.is_starred
    cancels = f" in which {proof.denominator} cancels" if proof.denominator != 1 else ""
    kinds = [(word, problem.text(tuple(letters))) for word, letters in (("monic", proof.monic), ("epic", proof.epic)) if letters]
    granted = "".join(f", {letters} {'is' if ' ' not in letters else 'are'} {word}" for word, letters in kinds)
    return f"in each {category}{cancels}, wherever all assumptions hold{granted and ' and'}{granted[1:]}, claim {proof.claim} holds."


WRITERS: Dict[str, Callable[[Theorems, str, str, Block], Iterator[str]]] = {
    "certificate": Theorems.proof, "cancellation": Theorems.proof, "star": Theorems.proof, "model": Theorems.model, "basis": Theorems.basis,
}  # fmt: skip


def translate(statement: StatementText, blocks: List[Block]) -> str:
    """The file of these blocks."""
    theorems = Theorems(statement)
    for block in blocks:
        theorems.add(block)
    return theorems.text()


def exported(statement: bytes, evidence: List[bytes]) -> str:
    """The file of a statement and of evidence, which is judged first."""
    read_statement = StatementText(statement)
    blocks = read(read_statement.problem, [EvidenceText(data) for data in evidence])
    for block in blocks:
        judge(read_statement.problem, block)
    return translate(read_statement, blocks)


def exported_files(statement: str, evidence: List[str]) -> str:
    """The same of files."""
    texts = loaded([statement, *evidence], [MOST_BYTES[0], *[MOST_BYTES[1]] * len(evidence)])
    return exported(texts[0], texts[1:])


def compiled(folder: str) -> List[str]:
    """Compiles a copy of the library in a folder. There is nothing to be said of it."""
    try:
        shutil.copytree(THEORIES, folder, ignore=lambda _, names: [name for name in names if name[-2:] != ".v"])
        for name in LIBRARY:
            subprocess.run(["coqc", "-q", "-Q", folder, "Opprove", os.path.join(folder, f"{name}.v")], check=True)
    except (OSError, shutil.Error, subprocess.CalledProcessError) as error:
        raise Refusal(f"# load failed {folder}: {error}") from None
    return []


def main(words: List[str]) -> int:
    """Writes the file, and gives the status."""
    made = parser("coq", __doc__)
    made.add_argument("statement", metavar="STATEMENT", nargs="?", help="a statement")
    made.add_argument("evidence", metavar="EVIDENCE", nargs="*", help="evidence, or reports that have some")
    made.add_argument("--library", metavar="FOLDER", help="a folder for the library, that isn't there yet")
    given = made.parse_args(words)
    if given.library and not given.statement:
        return ended(lambda: compiled(given.library))
    if given.library or not given.evidence:
        made.error("STATEMENT and EVIDENCE are wanted, or --library FOLDER")
    return ended(lambda: [exported_files(given.statement, given.evidence)])
