"""Words, sums and equations as HTML and as MathML. Names are escaped here, once, so that no text of a statement becomes markup.

Chains are lines of HTML, which wrap and can be marked letter by letter; what stands by itself is MathML.
"""
from __future__ import annotations

import re
from html import escape
from itertools import groupby
from typing import Callable, Iterator, List, NamedTuple, Sequence, Tuple

from opprove.checkers.check import Poly, Problem, Signature, Word
from opprove.checkers.check_model import Matrix
from opprove.translations.chain import has_powers
from opprove.translations import sentences
from opprove.translations.latex import GREEK

GREEK_SIGNS = dict(zip(GREEK, "αβγδεζηθικλμνξπρστυφχψωΓΔΘΛΞΠΣΥΦΨΩ"))
TERMS_IN_ONE = 3  # a longer formula is broken where the window ends
MARKED = ' class="lit"'
SPACED = 'form="infix" lspace="{0}" rspace="{0}"'  # of a sign, even where it begins a formula that is broken
EQUALS = f"<mo {SPACED.format('0.28em')}>=</mo>"
CAME, GOES = 1, 2  # of a letter: the last step put it there; the next one takes it
Marks = Callable[[Word], Sequence[int]]  # of the letters of a word, what of both is so of them


class Forms(NamedTuple):
    """How parts of formulas are written. A name has a base and an index, of which the latter may be empty."""

    name: Callable[[str, str], str]
    adjoint: Callable[[str], str]
    identity: Callable[[str], str]
    power: Callable[[str, int], str]
    number: Callable[[int], str]
    sign: Callable[[str, bool], str]  # the sign, and whether it stands in front of all
    joint: str


def name_in_html(base: str, index: str) -> str:
    return f"{base}<sub>{index}</sub>" if index else base


def name_in_mathml(base: str, index: str) -> str:
    word = f'<mi mathvariant="normal">{base}</mi>'
    return f'<msub>{word}<mi mathvariant="normal">{index}</mi></msub>' if index else word


def sign_in_mathml(sign: str, is_first: bool) -> str:
    """In front of all a + is left out."""
    form = 'form="prefix"' if is_first else SPACED.format("0.22em")
    shown = f"<mo {form}>{'−' if sign == '-' else '+'}</mo>"
    return "" if is_first and sign == "+" else shown


HTML = Forms(
    name_in_html,
    lambda name: f"{name}<sup>∗</sup>",
    lambda name: f"<b>1</b><sub>{name}</sub>",
    lambda letter, count: f"({letter})<sup>{count}</sup>" if "<sup>" in letter else f"{letter}<sup>{count}</sup>",
    lambda number: f"<b>{number}</b>",
    lambda sign, is_first: ("−" if sign == "-" else "") if is_first else f" {'−' if sign == '-' else '+'} ",
    " ",
)  # fmt: skip
MATHML = Forms(
    name_in_mathml,
    lambda name: f"<msup>{name}<mo>∗</mo></msup>",
    lambda name: f"<msub><mn>1</mn>{name}</msub>",
    lambda letter, count: f"<msup>{letter}<mn>{count}</mn></msup>"
    if "<msup>" not in letter
    else f"<msup><mrow><mo>(</mo>{letter}<mo>)</mo></mrow><mn>{count}</mn></msup>",
    lambda number: f"<mn>{number}</mn>",
    sign_in_mathml,
    '<mspace width="0.2em"></mspace>',
)  # fmt: skip


def parts_of(name: str) -> Tuple[str, str]:
    """The base of a name and its index: digits at its end, or what stands behind its first _; names of Greek letters are these."""
    match = re.fullmatch(r"([^\W\d_]+)_?([0-9]*|.*)", name)
    base, index = match.groups() if match else (name, "")
    return escape(GREEK_SIGNS.get(base, base)), escape(index)


class Writer:
    """Writes formulas of a problem in one of both forms. In a statement of language 2 a run of a letter is written as its power."""

    def __init__(self, problem: Problem, forms: Forms) -> None:
        self.problem, self.forms, self.writes_powers = problem, forms, has_powers(problem)
        self.letters = [self.letter(name) for name in problem.names]

    def name(self, name: str) -> str:
        return self.forms.name(*parts_of(name))

    def letter(self, written: str) -> str:
        name = self.name(written.strip("[']"))
        if written[0] == "[":
            return self.forms.identity(name)
        return self.forms.adjoint(name) if written[-1] == "'" else name

    def factors(self, letters: Sequence[int]) -> str:
        return self.forms.joint.join(text for text, _ in self.runs(letters, [0] * len(letters)))

    def runs(self, letters: Sequence[int], marks: Sequence[int]) -> Iterator[Tuple[str, int]]:
        """The factors, each with its marks: letters, or powers of letters with the same marks where these are written."""
        for (letter, mark), run in groupby(zip(letters, marks)):
            count = len(list(run))
            is_power = count > 1 and self.writes_powers
            yield from [(self.forms.power(self.letters[letter], count), mark)] if is_power else [(self.letters[letter], mark)] * count

    def word(self, word: Word, ends: Signature, marks: Sequence[int] = ()) -> str:
        """The word, or the identity where it has no letters. Letters are marked in HTML alone, and what stands between two that are."""
        if not word:
            return self.letters[ends[0]]
        if not any(marks):
            return self.factors(word)
        pieces: List[Tuple[str, int]] = []
        for text, mark in self.runs(word, marks):
            pieces += [(self.forms.joint, mark & pieces[-1][1])] if pieces else []
            pieces.append((text, mark))
        parts = []
        for mark, group in groupby(pieces, key=lambda piece: piece[1]):
            text = "".join(text for text, _ in group)
            text = f"<u>{text}</u>" if mark & GOES else text
            parts.append(f"<mark>{text}</mark>" if mark & CAME else text)
        return "".join(parts)

    def terms(self, poly: Poly, ends: Signature, marks: Marks = lambda word: ()) -> Iterator[str]:
        """The terms with their signs, those with a + first, and then the longest first."""
        ordered = sorted(poly, key=lambda word: (poly[word] < 0, -len(word), word))
        for place, word in enumerate(ordered):
            number = [] if abs(poly[word]) == 1 else [self.forms.number(abs(poly[word]))]
            factors = self.forms.joint.join([*number, self.word(word, ends, marks(word))])
            yield self.forms.sign("-" if poly[word] < 0 else "+", place == 0) + factors
        if not poly:
            yield self.forms.number(0)

    def sum(self, poly: Poly, ends: Signature, marks: Marks = lambda word: ()) -> str:
        return "".join(self.terms(poly, ends, marks))


RAISED = {"'": "∗", "+": "†", "^+": "†", "-": "−"}  # marks of a sentence


def sentence(text: str, is_map: Callable[[str], bool]) -> str:
    """A sentence in HTML, with its formulas, which are written in ASCII."""
    texts = []
    for run, is_formula in sentences.runs(text, is_map):
        shown = "".join(map(token, run))
        texts.append(f'<span class="w">{shown}</span>' if is_formula else escape(run[0].text))
    return "".join(texts)


def token(piece: sentences.Piece) -> str:
    """A token of a formula of a sentence."""
    kind, text = piece
    if kind not in ("atom", "close"):
        return escape(text.replace("-", "−").replace("..", "⋯"))
    name, marks = sentences.split_atom(text) if kind == "atom" else (text[0], sentences.split_marks(text[1:]))
    shown = name if kind == "close" else HTML.number(int(name)) if name.isdigit() else HTML.name(*parts_of(name))
    return shown + "".join(f"<sup>{escape(RAISED.get(mark) or mark.lstrip('^').replace('-', '−'))}</sup>" for mark in marks)


def math(*parts: str) -> str:
    return f"<math>{''.join(parts)}</math>"


def formula(*groups: Sequence[str]) -> str:
    """Terms of MathML, by sides of an equation, as one formula; or, where these are many, as one each, so that lines break between them."""
    if sum(map(len, groups)) <= TERMS_IN_ONE:
        return math(EQUALS.join("".join(group) for group in groups))
    sides = [" ".join(map(math, group)) for group in groups]
    return f" {math(EQUALS)} ".join(sides)


def equation(writer: Writer, left: Poly, right: Poly, ends: Signature) -> str:
    """An equation in MathML."""
    return formula(list(writer.terms(left, ends)), list(writer.terms(right, ends)))


def matrix(rows: Matrix, lit: Sequence[Tuple[int, int]] = ()) -> str:
    """A matrix in MathML, in which the entries at these places are marked."""
    cells = [
        "".join(f'<mtd{MARKED if (i, j) in lit else ""}><mn>{entry}</mn></mtd>' for j, entry in enumerate(row))
        for i, row in enumerate(rows)
    ]
    return f"<mtable>{''.join(f'<mtr>{row}</mtr>' for row in cells)}</mtable>"
