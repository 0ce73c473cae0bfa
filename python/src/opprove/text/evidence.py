"""Evidence as text: its blocks, each with the head line of its report."""
from __future__ import annotations

import functools
import re
from typing import Iterator, List, NamedTuple, Tuple

from opprove.checkers.check import MOST_BYTES, loaded

# A head line of a report: the claim, what is said of it, and what stands after that.
HEAD = re.compile(r"# claim (\d+) (proved|refuted|not derivable|undecided|not refuted)(?: (.*))?")


# The words that blocks of evidence begin with.
KINDS = ("certificate", "model", "basis", "cancellation", "chain", "rational", "star")


class Head(NamedTuple):
    """What a report says of a claim."""

    claim: int
    verdict: str  # proved, refuted, not derivable, undecided, and of a mere search not refuted
    detail: str  # what stands after that in the line
    line: int

    @property
    def said(self) -> str:
        """The verdict with what stands after it."""
        return f"{self.verdict} {self.detail}".rstrip()


class Section(NamedTuple):
    """What a report says of a claim, and the text of its evidence."""

    head: Head
    text: str


def sections(report: str) -> List[Section]:
    """Those of a report, in their order: each head line, and what stands between it and the next one."""
    found: List[Tuple[Head, List[str]]] = []
    for number, line in enumerate(re.split("\r?\n", report), 1):
        match = HEAD.fullmatch(line)
        if match:
            found.append((Head(int(match[1]), match[2], match[3] or "", number), []))
        elif found:
            found[-1][1].append(line)
    return [Section(head, "\n".join(lines)) for head, lines in found]


class Block(NamedTuple):
    """A block of evidence, from its first line to its line `end`."""

    kind: str  # the first word: certificate, model, basis, cancellation, chain, ..
    claim: int  # 0 where none is named
    line: int  # of its first line
    text: str  # its lines, those that are skipped among them


class EvidenceText:
    """An evidence text or a report, whether or not what stands in it is right."""

    def __init__(self, data: bytes, path: str = "") -> None:
        self.data, self.path = data, path

    @classmethod
    def read(cls, path: str) -> EvidenceText:
        """That of a file or a pipe."""
        return cls(loaded([path], MOST_BYTES[1:])[0], path)

    @functools.cached_property
    def lines(self) -> List[str]:
        return re.split("\r?\n", self.data.decode(errors="surrogateescape"))

    @functools.cached_property
    def heads(self) -> List[Head]:
        """What the head lines say, in their order."""
        return [section.head for section in sections(self.data.decode(errors="surrogateescape"))]

    @functools.cached_property
    def blocks(self) -> List[Block]:
        return list(self._blocks())

    def _blocks(self) -> Iterator[Block]:
        first, kind, claim = 0, "", 0
        for number, line in enumerate(self.lines, 1):
            words = line.split()
            if not words or words[0][0] == "#":
                continue
            if not first:
                first, kind, claim = number, words[0], 0
            if words[0] == "claim" and not claim and words[1:] and words[1].isdecimal():
                claim = int(words[1])
            if words == ["end"]:
                yield Block(kind, claim, first, "".join(f"{text}\n" for text in self.lines[first - 1 : number]))
                first = 0
        if first:
            yield Block(kind, claim, first, "".join(f"{text}\n" for text in self.lines[first - 1 :]))

    @functools.cached_property
    def kinds(self) -> List[str]:
        """Those of evidence that the blocks have, each once, in the order in which they come."""
        found = re.findall(rf"^[ \t]*({'|'.join(KINDS)})[ \t]".encode(), self.data, re.MULTILINE)
        return list(dict.fromkeys(kind.decode() for kind in found))
