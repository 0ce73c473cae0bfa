"""Statements and evidence as text, read once for all tools.

    from opprove.text import EvidenceText, Refusal, StatementText

    statement = StatementText.read("S.op")            # or StatementText(data) of bytes; a fault is raised as `Refusal`,
                                                      # whose str() is the line that the program prints of it
    statement.language                                # 1 or 2
    statement.objects                                 # names, in the order of the file
    statement.maps["a"]                               # Map: name, source, target, is_self, place
    statement.assumptions, statement.claims           # Equations, abbreviations written out
    claim = statement.claims[0]
    claim.text, claim.place, claim.word               # "x = y", Place(line, column), "claim" (or "pinv" ..)
    claim.left, claim.right                           # Expressions: trees, see below
    claim.poly                                        # left minus right: {word of letters: coefficient}
    statement.lines                                   # SourceLines: number, text, word, tokens, comment
    statement.problem                                 # what the second checkers read: letters, generators, ..

    evidence = EvidenceText.read("R.cert")            # a file or a pipe, which is read once
    evidence.kinds                                    # ["certificate", "basis"]: of its blocks, each once
    evidence.blocks                                   # Blocks: kind, claim, line, text
    evidence.heads                                    # Heads of a report: claim, verdict, detail, line
    sections(report)                                  # Sections of a report that is a text: head, text of the evidence
    evidence.data                                     # the bytes, for check.Evidence(problem, evidence.data) and its like

An `Expression` has a kind, parts (expressions), a name, a number, its ends (source and target; none of an open zero) and a place:

    map        name a                         adjoint    one part
    identity   name V                         power      one part, number n
    zero       the 0 alone                    scaled     one part, number c, as in 2 a b
    product    two or more parts              negative   one part
    sum        two or more parts, of which those behind a minus are negative

`spelled(expression)` writes one in the language of statements; with `names=` letters are called otherwise. `walk(expression)`
gives it and all that stands in it. Reading is that of checkers/check.py, which alone says what is a fault.
"""
from opprove.checkers.check import Problem, Refusal
from opprove.text.evidence import Block, EvidenceText, Head, Section, sections
from opprove.text.expressions import Expression, Place, spelled, walk
from opprove.text.statement import Equation, Map, SourceLine, StatementText

__all__ = [
    "Block", "Equation", "EvidenceText", "Expression", "Head", "Map", "Place", "Problem", "Refusal", "Section", "SourceLine", "StatementText",
    "sections", "spelled", "walk",
]  # fmt: skip
