#!/usr/bin/env python3
"""A second `opprove explain`: explain.py STATEMENT CERTIFICATE

Prints the report of `opprove explain`, byte for byte: for each certificate of rows over generators the chain of equations from
its denominator times the claim down to 0, a step at a time, and then the first block that has none, with the reason. The
statuses are those of the program. The faults S4 and S13 of statements, of numbers that are too large, are not looked at.
A referee reads 950 lines: this file, check.py and chain_text.py, and no other but Python's own library.
"""
from __future__ import annotations

from typing import TYPE_CHECKING, Iterator

if TYPE_CHECKING or __package__:
    from .chain_text import Bounded, Lines, explained
    from .check import Problem, Source, answering, script
else:  # run as a file by itself
    from chain_text import Bounded, Lines, explained
    from check import Problem, Source, answering, script


def report(statement: Source, evidence: Source) -> Iterator[str]:
    """The lines of the report."""
    problem = Problem(statement)
    read = Bounded(problem, evidence)
    lines = Lines(problem)
    for block, (certificate, has_lemmas) in enumerate(zip(read.certificates, read.has_lemmas), 1):
        yield from explained(lines, block, certificate, has_lemmas)


main = answering(report, "explain.py STATEMENT CERTIFICATE")

if __name__ == "__main__":
    script(main)
