"""What a file of the notation says, by its parts: expressions, items, words and lines."""
from __future__ import annotations

from dataclasses import dataclass, field
from typing import Dict, List, NamedTuple, Optional, Sequence, Tuple, Union

from opprove.checkers import check
from opprove.checkers.check import Refusal, Token

SENTENCES = {
    "S1": "the file is no UTF-8", "S2": "no token begins so, or a name is longer than 32 bytes", "S3": "this doesn't fit here",
    "S4": "the number is above 2^127 - 1", "S5": "more than 64 brackets are open",
    "S6": "nothing declares this name, or it is of the other kind", "S7": "this is declared or said twice", "S8": "there are too many",
    "S9": "a map that is its own adjoint leads from an object to itself", "S10": "these don't follow one another",
    "S11": "these have different ends", "S12": "nothing says what this zero leads from and to", "S14": "multiplied out, this is too large",
    "S15": "there is no claim", "S16": "the number isn't in its range",
    "N1": "the file that is used can't be read, or is one too many", "N2": "the file that is used uses this one",
    "N3": "a file that is used has lines `let` and `use` alone",
    "N4": "no word begins so, and an equation stands behind `assume` or `claim`",
    "N5": "a literal stands for a map, or a map for an exponent", "N6": "nothing says of which object this is the identity",
    "N7": "not one assumption says which map this is", "N8": "a definition uses the map itself, or one that is defined below it",
    "N9": "no assumption has this map of a claim, and no line declares it", "N10": "there are fewer than two cases, or more than twenty",
    "N11": "a head has a word, and parameters in brackets, none twice, with `..` behind one or two of them",
    "N12": "the equations are too large",
}  # fmt: skip


def fault(code: str, token: Token, more: str = "") -> Refusal:
    """The line that refuses a file at this token."""
    return check.fault(code, token, more)


def in_words(refusal: Refusal) -> Refusal:
    """The same, with what its code means behind it."""
    words = str(refusal).split()
    return Refusal(f"{refusal}: {SENTENCES[words[2]]}" if len(words) > 2 and words[2] in SENTENCES else str(refusal))


class Mark(NamedTuple):
    """What stands behind a factor: ', ^ with an exponent, which may be a parameter and a number, -1 for the inverse, or † ."""

    token: Token
    kind: str
    number: int = 0
    exponent: Optional[Token] = None
    has_parameter: bool = False


@dataclass
class Node:
    """A part of an expression: "map" or "object" with its name, "number" with its value, "sum" with signs, "product" with a number
    in front or none, or "factor" with marks. `end` is kept for the object of a number."""

    kind: str
    token: Token
    text: str = ""
    number: Optional[int] = None
    parts: Sequence[Node] = ()
    signs: Sequence[int] = ()
    marks: Sequence[Mark] = ()
    name: Optional[Token] = None  # of an object, whose first token is its bracket
    end: int = -1


class Equation(NamedTuple):
    """Sides that are equal, two or more."""

    token: Token
    sides: List[Node]


@dataclass
class Word:
    """A word of the notation: its head, of which parts in brackets are parameters, whether more arguments may follow, and what it says."""

    head: List[Tuple[str, bool]]
    is_many: bool
    items: List[Item]

    def opening(self) -> List[str]:
        """The words before the first parameter."""
        names = [is_parameter for _, is_parameter in self.head]
        return [text for text, _ in self.head[: names.index(True) if True in names else None]]

    def parameters(self) -> List[str]:
        """The names of the parameters, in their order."""
        return [text for text, is_parameter in self.head if is_parameter]


class Use(NamedTuple):
    """A word with its arguments, which are as many as its parameters, or more where it may have more."""

    token: Token
    word: Word
    arguments: List[Node]
    text: str = ""  # as it is written


Item = Union[Equation, Use]


class Claim(NamedTuple):
    """A line `claim`: what is claimed, its label or none, and on what conditions or on none."""

    token: Token
    label: str
    items: List[Item]
    conditions: List[Item]

    def is_plain(self) -> bool:
        """Whether it belongs to the statement of all claims."""
        return not self.label and not self.conditions


class Definition(NamedTuple):
    """A map and what it is."""

    name: Token
    value: Node


class Given(NamedTuple):
    """Assumptions."""

    items: List[Item]


class Case(NamedTuple):
    """A case of some that are equivalent, and what is given wherever it takes part."""

    items: List[Item]
    given: List[Union[Definition, Given]]


class Cases(NamedTuple):
    """Cases that are equivalent."""

    token: Token
    label: str
    cases: List[Case]


class Kept(NamedTuple):
    """A line that a statement has as it is, or a comment, which has no tokens."""

    tokens: List[Token]
    text: str = ""


@dataclass
class File:
    """What a file says, line by line, and what it declares: objects, and maps with their ends, or None where these are to be found."""

    entries: List[Union[Claim, Cases, Definition, Given, Kept]] = field(default_factory=list)
    objects: List[Token] = field(default_factory=list)  # wherever they are named
    declared: List[Token] = field(default_factory=list)  # of these, those of lines `object`
    maps: List[Tuple[Token, Optional[Tuple[Token, Token, bool]]]] = field(default_factory=list)
    names: Dict[str, None] = field(default_factory=dict)  # of all its tokens
    heading: int = 0  # how many comments stand in front of everything
