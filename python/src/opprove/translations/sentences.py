"""Sentences of mathematics in LaTeX: formulas that are written in ASCII, as `a+ = g a h`, become formulas.

A run of names of one letter (with digits or marks), of declared maps, numbers and signs is a formula: `a'` an adjoint, `a+` a
Moore-Penrose inverse, `a#` a group inverse, `w-` an inner inverse, `[a b; c d]` a matrix. A single `a` is the article where a noun
follows it, and a map elsewhere.
"""
from __future__ import annotations

import re
from typing import Callable, Dict, Iterator, List, NamedTuple, Set, Tuple

from opprove.translations.latex import escaped, name_in_latex

Named = Callable[[str], str]  # how a map is written, by its name
NAME = r"[A-Za-z][a-z]?[0-9]*(?![A-Za-z])"
MARKS = r"(?:'|\#|\^\+|\^-?(?:[0-9]+|[a-z](?![a-z]))|[+-](?=[\s,.:;)\]=]|$))*"
TOKEN = re.compile(
    rf"(?P<kind>\{{[0-9,]+\}}-\w+|\([a-z],\s?[a-z]\)-\w+)|(?P<atom>(?:{NAME}|[0-9]+(?![\w-])){MARKS})|(?P<word>[A-Za-z][\w-]*(?:'[st]\b)?)"
    rf"|(?P<open>[(\[])|(?P<close>[)\]]{MARKS})|(?P<sign> ?(?:[=+;]|\.\.|-) |-(?=[a-z0-9(]))|(?P<blank>\s+)|(?P<other>.)"
)  # fmt: skip
# Behind a map, and not behind the article.
VERBS = set(
    "along and are aren't be below by commutes follows for from gives has have in is isn't lies makes of on or so solves that the they to "
    "up where which with".split()
)  # fmt: skip
ADJECTIVES = {"EP", "Hermitian", "central", "epic", "idempotent", "invertible", "isomorphic", "monic", "normal", "regular"}
WORDS = {"an", "as", "at", "be", "by", "do", "if", "in", "is", "it", "no", "of", "on", "or", "so", "to", "up", "we"}
SYMBOLS = {"..": r"\cdots", "'": "^{*}", "#": r"^{\#}", "+": r"^{\dagger}", "^+": r"^{\dagger}", "-": "^{-}"}


class Piece(NamedTuple):
    """A token of a sentence: its kind and its text."""

    kind: str
    text: str


def pieces(sentence: str, is_map: Callable[[str], bool]) -> List[Piece]:
    """The tokens of a sentence; a name that is a word stays one."""
    found = [Piece(match.lastgroup or "", match.group()) for match in TOKEN.finditer(sentence)]
    for place, piece in enumerate(found):
        if piece.kind == "atom" and not is_formula(found, place, is_map):
            found[place] = Piece("word", piece.text)
    return found


def is_formula(found: List[Piece], place: int, is_map: Callable[[str], bool]) -> bool:
    """Whether what looks like a name or a number stands for itself in a formula."""
    text = found[place].text
    if text in ("a", "A"):
        behind = [piece for piece in found[place + 1 : place + 6] if piece.kind != "blank"]
        begins = text == "A" and (place == 0 or found[place - 2].text in (":", "."))
        return not begins and not is_article(behind)
    return not text.isalpha() or len(text) == 1 or (is_map(text) and text not in WORDS)


def is_article(behind: List[Piece]) -> bool:
    """Whether an `a` in front of these is the article."""
    if not behind or behind[0].kind == "kind" or behind[0].text.isdigit():
        return bool(behind)
    if behind[0].kind != "word" or behind[0].text in VERBS:
        return False
    ends = len(behind) < 2 or behind[1].kind in ("other", "sign") or behind[1].text in VERBS
    return not (behind[0].text in ADJECTIVES and ends)


def in_latex(sentence: str, named: Named, is_map: Callable[[str], bool]) -> str:
    """A sentence with its formulas between dollar signs."""
    texts = []
    for run, is_one in runs(sentence, is_map):
        texts.append(" " * (run[0].text[0] == " ") + f"${formula(run, named)}$" if is_one else in_text(run[0]))
    return "".join(texts)


def runs(sentence: str, is_map: Callable[[str], bool]) -> Iterator[Tuple[List[Piece], bool]]:
    """The tokens of a sentence: those of a formula together, others one by one, and whether they are a formula."""
    found, place = pieces(sentence, is_map), 0
    while place < len(found):
        end = end_of_formula(found, place)
        yield found[place : max(end, place + 1)], end > place
        place = max(end, place + 1)


def in_text(piece: Piece) -> str:
    """What isn't a formula."""
    if piece.kind == "kind":
        inside, noun = re.split("-", piece.text, maxsplit=1)
        return f"${inside.replace('{', chr(92) + '{').replace('}', chr(92) + '}')}$-{noun}"
    return escaped_text(piece.text)


def escaped_text(text: str) -> str:
    """A text as LaTeX has it."""
    return re.sub("[#$%&{}]", r"\\\g<0>", escaped(text)).replace("^", r"\textasciicircum{}")


def end_of_formula(found: List[Piece], start: int) -> int:
    """Where the longest formula ends that begins here, or the start where none does. Brackets are closed in it."""
    if found[start].kind not in ("atom", "open", "sign") or (found[start].text.strip() not in "-" and found[start].kind == "sign"):
        return start
    end, depth, has_atom = start, 0, False
    for place in range(start, len(found)):
        kind, text = found[place]
        is_inside = depth > 0 and kind == "other" and text == ","
        is_part = kind in ("atom", "open", "sign", "blank") or (kind == "close" and depth > 0) or is_inside
        if not is_part or (text.strip() == ";" and not depth):
            break
        depth += (kind == "open") - (kind == "close")
        has_atom |= kind == "atom"
        if not depth and kind in ("atom", "close") and has_atom:
            end = place + 1
    is_number = end == start + 1 and found[start].text.isdigit()
    return start if is_number else end


def formula(found: List[Piece], named: Named) -> str:
    """A formula of these tokens."""
    rows: List[str] = []  # of the matrices around a token, what stands between entries: a comma or a blank, and nothing in other brackets
    texts: List[str] = []
    for place, piece in enumerate(found):
        if piece.kind == "open":
            inside = "".join(one.text for one in found[place + 1 :]).split("]")[0]
            is_matrix = piece.text == "[" and ("," not in inside or ";" in inside)
            rows.append("" if not is_matrix else "," if "," in inside else " ")
            texts.append(r"\left[\begin{smallmatrix}" if is_matrix else piece.text)
        elif piece.kind == "close":
            texts.append((r"\end{smallmatrix}\right]" if rows.pop() else piece.text[0]) + "".join(marks(piece.text[1:])))
        else:
            is_between = bool(rows and rows[-1]) and piece.text.strip() == rows[-1].strip() and found[place - 1].text.strip() not in ";-"
            is_behind = piece.kind == "blank" and texts[-1:] == [","]
            texts.append(" & " if is_between else " " if is_behind else token(piece, named))
    return re.sub(" +", " ", "".join(texts)).strip()


def token(piece: Piece, named: Named) -> str:
    """A token of a formula that is no bracket."""
    kind, text = piece
    if kind == "atom":
        name, _ = split_atom(text)
        return powered(named(name) if not name.isdigit() else name, list(marks(text[len(name) :])))
    if kind == "sign":
        return {";": r" \\ ", "..": r"\cdots "}.get(text.strip(), f" {text.strip()} ")
    return r" \, " if kind == "blank" else text


def marks(text: str) -> Iterator[str]:
    """The superscripts that marks stand for."""
    for mark in split_marks(text):
        yield SYMBOLS.get(mark) or f"^{{{mark[1:]}}}"


def split_marks(text: str) -> List[str]:
    return re.findall(r"\^\+|\^-?\w+|['#+-]", text)


def split_atom(text: str) -> Tuple[str, List[str]]:
    """A name or a number, and its marks."""
    match = re.match("[A-Za-z]*[0-9]*", text)
    name = match.group() if match else ""
    return name, split_marks(text[len(name) :])


def powered(base: str, exponents: List[str]) -> str:
    """A name with superscripts, each behind brackets where one stands there."""
    for exponent in exponents:
        base = f"({base}){exponent}" if "^" in base else base + exponent
    return base


def named_in(sentence: str, is_map: Callable[[str], bool]) -> Set[str]:
    """The maps that the formulas of a sentence name."""
    found = (re.match("[A-Za-z]+[0-9]*", piece.text) for piece in pieces(sentence, is_map) if piece.kind == "atom")
    return {match.group() for match in found if match and is_map(match.group())}


def plain(names: Dict[str, str]) -> Named:
    """Names by a table, and those that it hasn't as LaTeX writes names."""
    return lambda name: names.get(name) or name_in_latex(name)
