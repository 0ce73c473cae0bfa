#!/usr/bin/env python3
"""A second checker of what opprove finds: check.py STATEMENT EVIDENCE

Reads a statement and the certificates of an evidence text, of both formats, forms the generators, adds up the rows and
compares. It prints a line for each certificate: that it is accepted, with its denominator, or the first thing that is
wrong, with its place, which ends the report. The statuses are those of the program: 0 where all are accepted, 3 for a fault of
the statement, 4 where a file can't be loaded, 7 for a fault of the evidence or a certificate that is refused.

It is written from docs/FORMATS.md and shares nothing with opprove; codes and places are those of that page. It reads both
languages of statements. Numbers and sums of rows have any size: S4, S13, K4, C4, C5, C9 and C11 are not looked at. Names
follow this Python's version of Unicode. A text that begins with a `cancellation` is checked by cancel.py, beside this file.
A referee reads 639 lines, which are this file, and no other but Python's own library.
"""
from __future__ import annotations

import os
import re
import signal
import sys
from typing import TYPE_CHECKING, Callable, Dict, Iterable, Iterator, List, NamedTuple, NoReturn, Optional, Sequence, Set, Tuple, TypeVar, Union

Word = Tuple[int, ...]  # letters are numbers
Poly = Dict[Word, int]  # words with their coefficients, none of which is 0
Signature = Tuple[int, int]  # source and target, each by the number of its identity
Value = Tuple[Optional[Signature], Poly]  # of an expression; an open one has no signature
Source = Union[str, bytes]  # the path of a file, or what stands in it
getattr(sys, "set_int_max_str_digits", int)(0)  # so that Python reads and writes numbers of any size


class Refusal(Exception):
    """The line that says what is wrong."""


def require(is_met: bool, line: str) -> None:
    """Raises the line that says what is wrong, unless what it is about is met."""
    if not is_met:
        raise Refusal(line)


def add(total: Poly, factor: int, poly: Poly, left: Word = (), right: Word = ()) -> Poly:
    """Adds factor * left * poly * right to the total, and gives the total."""
    for middle, coefficient in poly.items():
        word = left + middle + right
        value = total.pop(word, 0) + factor * coefficient
        if value:
            total[word] = value
    return total


def greatness(word: Word) -> Tuple[int, Word]:
    """By which words are compared."""
    return len(word), word


def is_name(text: str) -> bool:
    return text.isidentifier() and len(text.encode()) <= 32


def read_lines(source: Source, not_utf8: str) -> Iterator[Tuple[int, str]]:
    """The lines of a text with their numbers. A carriage return that no line feed follows is a character."""
    try:
        return enumerate(re.split("\r?\n", content(source).decode()), 1)
    except UnicodeDecodeError as error:
        raise Refusal(not_utf8.format(error.start)) from None


def content(source: Source, most: int = -1) -> bytes:
    """The bytes of a file, or the first ones of so many; or those that are given."""
    if isinstance(source, bytes):
        return source
    try:
        with open(source, "rb") as file:
            return file.read(most)
    except (OSError, ValueError):
        raise Refusal(f"# load failed {source}") from None


# ---- Statements: the grammar, and the values of expressions
Token = NamedTuple("Token", [("kind", str), ("text", str), ("line", int), ("column", int)])
# What stands behind the first word of a line: tokens with these roles; + is once or more, ? at most once, * any number.
SHAPES = {
    "object": "new_object+", "map": "new_map+ : object -> object self?", "assume": "sum = sum", "claim": "sum = sum",
    "pinv": "map map", "inverse": "map map", "inner": "map map", "projection": "map",
    "order": "", "solve": "map+", "model": "literal object,literal*", "eliminate": "map+",
}  # fmt: skip
WORDS = {2: list(SHAPES), 1: [word for word in SHAPES if word != "eliminate"]}  # that a line begins with, by the language
SIGNS = {1: r":=+\-()\[\]'", 2: r":=+\-()\[\]'^"}


def fault(code: str, token: Token, more: str = "") -> Refusal:
    return Refusal(f"# refused {code} line {token.line} column {token.column}{more}")


def tokens_of(line: str, number: int, language: int = 1, signs: str = "") -> List[Token]:
    """The tokens of a line, and behind the last an "end". The kind of a token is "name", "literal", or the sign: of the language, if
    no signs are given."""
    tokens, signs = [], signs or SIGNS[language]
    for match in re.finditer(rf"([0-9]+)|(->|[{signs}])|[^ \t{signs}]+", line.split("#")[0]):
        kind = "literal" if match.group(1) else match.group(2) or "name"
        token = Token(kind, match.group(), number, match.start() + 1)
        if kind == "name" and not is_name(token.text):
            bad = [place for place, sign in enumerate(token.text) if not ("_" * (place > 0) + sign).isidentifier()]
            is_long = len(token.text[: bad[0] if bad else None].encode()) > 32
            raise fault("S2", token if is_long else token._replace(column=token.column + bad[0]))
        tokens.append(token)
    return tokens + [Token("end", "", number, tokens[-1].column + len(tokens[-1].text))] if tokens else []


def language_of(tokens: List[Token]) -> int:
    """That of a file whose first line with a token has these."""
    is_second = [token.kind for token in tokens] == ["name", "literal", "end"] and tokens[0].text == "language"
    return 2 if is_second and int(tokens[1].text) == 2 else 1


def lines_of(source: Source) -> List[Line]:
    """The lines of a statement that have a token, the one that names its language among them."""
    texts: List[List[Token]] = []
    language = 1
    for number, text in read_lines(source, "# refused S1 byte {}"):
        tokens = tokens_of(text, number, language)
        language = language_of(tokens) if tokens and not texts else language
        texts += [tokens] if tokens else []
    return [Line(tokens) if language == 2 and tokens is texts[0] else Line(tokens).statement(language) for tokens in texts]


class Line:
    """A line of a statement: read for its grammar first, and with a problem for the value of its equation."""

    def __init__(self, tokens: List[Token], problem: Optional[Problem] = None) -> None:
        self.tokens, self.problem, self.place = tokens, problem, 0
        self.roles: List[Tuple[Token, str]] = []  # of the tokens that were taken

    def with_role(self, role: str) -> List[str]:
        return [token.text for token, other in self.roles if other == role]

    def next(self) -> Token:
        return self.tokens[self.place]

    def is_at(self, *kinds: str) -> bool:
        return self.next().kind in kinds

    def take(self, role: str, words: Iterable[str] = ()) -> str:
        """Takes the next token, if it may have this role, and is one of the words where there are any."""
        token = self.next()
        kind = {"exponent": "literal", "literal": "literal", "end": "end"}.get(role, "name" if role.isidentifier() else role)
        if token.kind != kind or (words and token.text not in words):
            raise fault("S3", token)
        self.place += 1
        self.roles.append((token, role))
        return token.text

    def statement(self, language: int = 1) -> Line:
        word = self.take("word", WORDS[language])
        is_weight = word == "order" and self.take("way", ["degree", "weight"]) == "weight"
        for group in ["map,literal+"] if is_weight else SHAPES[word].split():
            again = group[-1] not in "?*" or self.is_at("name")
            while again:
                for role in group.rstrip("+?*").split(","):
                    self.sum() if role == "sum" else self.take(role, ["self"] if role == "self" else ())
                again = group[-1] in "+*" and self.is_at("name")
        self.take("end")
        return self

    def equation(self) -> Poly:
        """The left side minus the right side."""
        (first, (left_ends, left)), (second, (right_ends, right)) = self.sides()
        if left_ends is None and right_ends is None:
            raise fault("S12", first)
        if left_ends and right_ends and left_ends != right_ends:
            raise fault("S11", second, arrows(self.problem, left_ends, right_ends))
        return self.sized(add(left, -1, right))

    def sides(self) -> Tuple[Tuple[Token, Value], Tuple[Token, Value]]:
        """Both sides of an equation, each behind its first token."""
        self.place = 1
        left = self.next(), self.sum()
        self.take("=")
        return left, (self.next(), self.sum())

    def sum(self, depth: int = 0) -> Value:
        terms: List[Tuple[Token, Value]] = []
        while not terms or self.is_at("+", "-"):
            scale = -1 if self.is_at("-") else 1
            self.place += self.is_at("+", "-")
            terms.append((self.next(), self.term(scale, depth)))
        signature: Optional[Signature] = None
        total: Poly = {}
        for first, (other, poly) in terms:
            if signature and other and signature != other:
                raise fault("S11", first, arrows(self.problem, signature, other))
            signature, total = signature or other, self.sized(add(total, 1, poly))
        return signature, total

    def product(self, left: Poly, right: Poly) -> Poly:
        total: Poly = {}
        for word in sorted(left, key=greatness, reverse=True):
            add(total, left[word], right, left=word)
            if len(total) > 20000 or len(word) + max(map(len, right), default=0) > 500:
                return self.too_large()
        return total

    def sized(self, poly: Poly) -> Poly:
        return self.too_large() if len(poly) > 20000 else poly

    def too_large(self) -> Poly:
        """Has the problem keep this fault, since those of signatures come before it, and gives 0 in its place."""
        if self.problem and not self.problem.too_large:
            self.problem.too_large = fault("S14", self.tokens[0])
        return {}

    def term(self, scale: int, depth: int) -> Value:
        if self.is_at("literal"):
            scale *= int(self.take("literal"))
            if scale == 0 and not self.is_at("name", "[", "("):
                return None, {}
        factors = [(self.next(), self.factor(depth))]
        while self.is_at("name", "[", "("):
            factors.append((self.next(), self.factor(depth)))
        signature: Optional[Signature] = None
        total: Poly = {(): scale} if scale else {}
        for first, (other, poly) in factors if self.problem else []:
            if other is None and len(factors) > 1:
                raise fault("S12", first)
            if signature and other and signature[0] != other[1]:
                raise fault("S10", first, arrows(self.problem, signature, other))
            signature = (other[0], signature[1]) if signature and other else other
            total = self.product(total, poly)
        return signature, total

    def factor(self, depth: int) -> Value:
        first = self.next()
        if self.is_at("("):
            if depth == 64:
                raise fault("S5", first)
            self.take("(")
            value = self.sum(depth + 1)
            self.take(")")
        else:
            letter = self.take("[") + self.take("object") + self.take("]") if self.is_at("[") else self.take("map")
            value = self.problem.letter(letter) if self.problem else (None, {})
        while self.is_at("'", "^"):
            mark, exponent = self.next(), 0
            if self.take(mark.kind) == "^":
                exponent = int(self.take("exponent"))
            if self.problem:
                value = self.power(first, mark, exponent, value) if exponent else self.problem.adjoint(value)
        return value

    def power(self, first: Token, mark: Token, exponent: int, value: Value) -> Value:
        """The product of so many times the value, from the left."""
        signature, base = value
        if exponent == 1:
            return value
        if signature is None:
            raise fault("S12", first)
        if signature[0] != signature[1]:
            raise fault("S10", mark, arrows(self.problem, signature, signature))
        if len(base) == 1 and exponent * len(next(iter(base))) <= 500:
            return signature, {word * exponent: coefficient**exponent for word, coefficient in base.items()}
        total = base
        for _ in range(exponent - 1 if base else 0):
            total = self.product(total, base)
        return signature, total


# ---- Statements: names, letters and generators
# The equations of abbreviations: a and x are the maps that are named, and a leads from S to T.
ABBREVIATIONS = {
    "pinv": ["{a} {x} {a} = {a}", "{x} {a} {x} = {x}", "({a} {x})' = {a} {x}", "({x} {a})' = {x} {a}"],
    "inverse": ["{a} {x} = [{T}]", "{x} {a} = [{S}]"],
    "inner": ["{a} {x} {a} = {a}"], "projection": ["{a} {a} = {a}", "{a}' = {a}"],
}  # fmt: skip


LIMITS = {"new_object": 64, "new_map": 200, "assume": 500, "claim": 100, "model": 16}  # 1,000 maps in language 2
MODULI = (2, 3, 5, 7, 101, 32003, 65537)


def check_names(lines: List[Line]) -> None:
    """Raises the first fault of names and literals: tokens come in reading order, and the tests in the order of their codes."""
    news = [(token.text, (token, role[4:])) for line in lines for token, role in line.roles if role[:4] == "new_"]
    firsts = dict(reversed(news))  # the first declaration of each name
    kinds = {name: kind for name, (_, kind) in firsts.items()}
    counts = {"order": 0, **dict.fromkeys(LIMITS, 0)}
    limits = {**LIMITS, "new_map": 1000} if lines and lines[0].tokens[0].text == "language" else LIMITS
    for line in lines:
        word, ends = line.tokens[0].text, line.with_role("object") if line.with_role("self") else []
        named = []  # by this line, if a name may not stand in it twice
        for place, (token, role) in enumerate(line.roles):
            kind = role if role != "word" else "assume" if word in ABBREVIATIONS else "order" if word == "eliminate" else word
            if kind in counts:
                counts[kind] += len(ABBREVIATIONS.get(word, [""])) if kind == "assume" else 1
            if role in ("object", "map") and kinds.get(token.text) != role:
                raise fault("S6", token)
            if (role[:4] == "new_" and firsts[token.text][0] != token) or token.text in named or (place == 0 and counts["order"] > 1):
                raise fault("S7", token)
            if kind in limits and counts[kind] > limits[kind]:
                raise fault("S8", token, f" limit {limits[kind]}")
            if role == "new_map" and len(set(ends)) == 2 and all(kinds.get(end) == "object" for end in ends):
                raise fault("S9", token)
            if role in ("literal", "exponent") and not is_in_range(role, word, place, int(token.text)):
                raise fault("S16", token)
            named += [token.text] if word in ("order", "eliminate", "solve", "model") and role in ("object", "map") else []


def is_in_range(role: str, word: str, place: int, literal: int) -> bool:
    """Of a literal in this role at this place of a line that begins with the word."""
    if word == "model":
        return literal in (MODULI if place == 1 else range(1, 7))
    return 1 <= literal <= 500 if role == "exponent" else word != "order" or 1 <= literal <= 1000


class Problem:
    """What a statement says: its letters, and its assumptions, claims and generators as polynomials."""

    def __init__(self, source: Source) -> None:
        self.lines = lines = lines_of(source)
        check_names(lines)
        self.names: List[str] = []  # of each letter: as it is written, its adjoint, its signature
        self.stars: List[int] = []
        self.ends: List[Signature] = []
        self.numbers: Dict[str, int] = {}  # of each way to write a letter
        for name in (name for line in lines for name in line.with_role("new_object")):
            self.declare(f"[{name}]", (len(self.names), len(self.names)), True)
        for line in lines:
            for name in line.with_role("new_map"):
                ends = [self.numbers[f"[{end}]"] for end in line.with_role("object")]
                self.declare(name, (ends[0], ends[1]), line.with_role("self") != [])
        self.is_starred = any(line.with_role("self") for line in lines)
        self.marked: Set[int] = set()
        self.assumptions: List[Poly] = []
        self.claims: List[Poly] = []
        self.too_large: Optional[Refusal] = None
        for line in lines:
            polys = self.claims if line.tokens[0].text == "claim" else self.assumptions
            polys += [Line(tokens, self).equation() for tokens in self.equations(line)]
        if self.too_large:
            raise self.too_large
        if not self.claims:
            raise Refusal("# refused S15")

    def declare(self, name: str, ends: Signature, is_self: bool) -> None:
        """Numbers a letter and, unless it is its own one, its adjoint."""
        first = len(self.names)
        self.names += [name] if is_self else [name, name + "'"]
        self.stars += [first] if is_self else [first + 1, first]
        self.ends += [ends] if is_self else [ends, ends[::-1]]
        self.numbers.update({name: first, name + "'": self.stars[first]})

    def equations(self, line: Line) -> List[List[Token]]:
        """The equations that a line stands for. Those of an abbreviation have the place of its first word."""
        word, maps = line.tokens[0], line.with_role("map")
        if word.text not in ABBREVIATIONS:
            return [line.tokens] if word.text in ("assume", "claim") else []
        source, target = (self.names[end][1:-1] for end in self.ends[self.numbers[maps[0]]])
        texts = [text.format(a=maps[0], x=maps[-1], S=source, T=target) for text in ABBREVIATIONS[word.text]]
        return [[word] + [token._replace(column=word.column) for token in tokens_of(text, word.line)] for text in texts]

    def letter(self, text: str) -> Value:
        letter = self.numbers[text]
        self.marked.update([letter] if text[0] == "[" else [])
        return self.ends[letter], {(letter,): 1}

    def adjoint(self, value: Value) -> Value:
        self.is_starred = True
        return value[0] and value[0][::-1], self.star(value[1])

    def star(self, poly: Poly) -> Poly:
        return {tuple(self.stars[letter] for letter in word[::-1]): poly[word] for word in poly}

    def generators(self) -> List[Poly]:
        stars = [(poly, self.star(poly)) for poly in self.assumptions if self.is_starred]
        found = self.assumptions + [star for poly, star in stars if star not in (poly, add({}, -1, poly))]
        for unit in sorted(self.marked):
            found.append({(unit, unit): 1, (unit,): -1})
            for letter, (source, target) in enumerate(self.ends):
                if self.names[letter][0] != "[" and (self.is_starred or self.stars[letter] >= letter):
                    sides = [(target, (unit, letter)), (source, (letter, unit))]
                    found += [{word: 1, (letter,): -1} for end, word in sides if end == unit]
        return found

    def text(self, word: Word) -> str:
        return " ".join(self.names[letter] for letter in word)

    def signature(self, word: Word) -> Optional[Signature]:
        """The ends of a path, and nothing where a word isn't one."""
        is_path = all(self.ends[left][0] == self.ends[right][1] for left, right in zip(word, word[1:]))
        return (self.ends[word[-1]][0], self.ends[word[0]][1]) if is_path else None


def arrows(problem: Optional[Problem], left: Signature, right: Signature) -> str:
    return " left {} -> {} right {} -> {}".format(*(problem.names[end][1:-1] for end in left + right)) if problem else ""


# ---- Evidence text, and what is said of it
Row = NamedTuple("Row", [("coefficient", int), ("left", Word), ("is_lemma", bool), ("number", int), ("right", Word)])
Share = NamedTuple("Share", [("scale", int), ("rows", List[Row])])  # the rows add up to the scale times a polynomial
# The last share is the goal's. Format 1 has no other, and its scale is the denominator.
Certificate = NamedTuple("Certificate", [("claim", int), ("denominator", int), ("shares", List[Share])])
Block = TypeVar("Block")
ROW = r"row (-?[0-9]+) \( ([^()]*)\) (%s)?([0-9]+) \( ([^()]*)\)"


def is_letter(text: str) -> bool:
    text = text[:-1] if text[-1] == "'" else text
    return is_name(text[1:-1] if text[:1] + text[-1:] == "[]" else text)


class Blocks:
    """An evidence text: its lines, but for those that are skipped, and the blocks of other kinds."""

    def __init__(self, source: Source) -> None:
        self.lines = read_lines(source, "# refused K1")
        self.advance()

    def advance(self) -> None:
        """Goes to the next line that isn't skipped, with one blank between its tokens; at the end it is empty."""
        for self.number, text in self.lines:
            tokens = re.findall(r"[();=]|[^ \t();=]+", text)
            if tokens and tokens[0][0] != "#":
                self.line = " ".join(tokens)
                return
        self.line = ""

    def read_all(self, word: str, found: List[Block], block: Callable[[], Block], others: str) -> None:
        """Finds the blocks that begin with the word, of which there has to be one, and skips those that begin with one of the others."""
        while self.line:
            if self.line.startswith(f"{word} "):
                found.append(block())
            else:
                self.skip(others)
        if not found:
            raise Refusal("# refused K7")

    def skip(self, kinds: str) -> None:
        """Goes behind a block that begins with one of these words."""
        self.take(f"({kinds})( .*)?")
        while self.take("(.+)") != ("end",):
            pass

    def take(self, pattern: str) -> Tuple[str, ...]:
        match = re.fullmatch(pattern, self.line)
        if not match:
            raise Refusal(f"# refused K2 line {self.number}" if self.line else "# refused K6")
        self.advance()
        return match.groups()

    def take_number(self, words: str) -> int:
        return int(self.take(words + " ([0-9]+)")[0])

    def begin(self, head: str, count: int) -> Tuple[str, ...]:
        """Takes the first line of a block, where so many were read, and there may be 100."""
        place, groups = self.number, self.take(head)
        self.limit(place, count + 1, 100)
        return groups

    def limit(self, place: int, count: int, most: int) -> None:
        self.require(place, "K5", count <= most, f" limit {most}")

    def require(self, place: int, code: str, is_met: bool, more: str = "") -> None:
        """Raises the fault of the line at this place, unless what it is about is met."""
        if not is_met:
            raise Refusal(f"# refused {code} line {place}{more}")


class Evidence(Blocks):
    """The certificates of an evidence text."""

    def __init__(self, problem: Problem, source: Source) -> None:
        super().__init__(source)
        self.letters = problem.numbers
        self.certificates: List[Certificate] = []
        self.read_all("certificate", self.certificates, self.certificate, "model|basis")

    def certificate(self) -> Certificate:
        has_lemmas = self.begin("certificate ([12])", len(self.certificates)) == ("2",)
        self.read = [0, 0]  # rows and letters
        claim, denominator = self.take_number("claim"), self.take_number("denominator")
        shares: List[Share] = []
        while has_lemmas and self.line.startswith("lemma "):
            shares.append(self.lemma(len(shares) + 1))
        scale = self.take_number("goal scale") if has_lemmas else denominator
        shares.append(Share(scale, self.rows(has_lemmas)))
        self.take("end")
        return Certificate(claim, denominator, shares)

    def lemma(self, wanted: int) -> Share:
        """A lemma with its rows, which has this number."""
        place, (number, scale) = self.number, map(int, self.take("lemma ([0-9]+) scale ([0-9]+)"))
        self.require(place, "K2", number == wanted)
        self.limit(place, number, 200000)
        return Share(scale, self.rows(True))

    def rows(self, has_lemmas: bool) -> List[Row]:
        rows = []
        while self.line.startswith("row "):
            place = self.number
            coefficient, left_text, lemma, number, right_text = self.take(ROW % ("lemma " if has_lemmas else "(?!)"))
            left, right = self.words(place, [left_text, right_text])
            self.read = [self.read[0] + 1, self.read[1] + len(left) + len(right)]
            for count, limit in zip((max(len(left), len(right)), *self.read), (500, 200000, 1000000)):
                self.limit(place, count, limit)
            rows.append(Row(int(coefficient), left, lemma is not None, int(number), right))
        return rows

    def words(self, place: int, texts: Iterable[str]) -> List[Word]:
        """The words of these letters. That one has no form comes before that one isn't declared."""
        words = [re.findall("[^ ]+", text) for text in texts]
        for code, fits in (("K2", is_letter), ("K3", self.letters.__contains__)):
            self.require(place, code, all(all(map(fits, word)) for word in words))
        return [tuple(map(self.letters.__getitem__, word)) for word in words]


def check_numbers(problem: Problem, claim: int, denominator: int, scales: Dict[int, int], refused: str) -> None:
    """Raises the first of these that is wrong: the claim, or the denominator beside the scales of lemmas, of which 0 is the goal's."""
    require(1 <= claim <= len(problem.claims), f"{refused} C1")
    require(min(denominator, 1, *scales.values()) == 1, f"{refused} C3")
    for number, scale in scales.items():
        require(denominator % scale == 0, f"{refused} C10 lemma {number}")


def sum_text(terms: Iterable[Tuple[str, int]]) -> str:
    """A sum of words with their coefficients, as evidence has it."""
    texts = (f"{'-' if number < 0 else '+'} {'' if abs(number) == 1 else f'{abs(number)} '}{word}" for word, number in terms)
    return re.sub(r"^\+ ", "", " ".join(texts)) or "0"


def difference(problem: Problem, want: Poly, got: Poly) -> str:
    """The least word at which the two differ, with both coefficients; or nothing."""
    different = [word for word in {**want, **got} if want.get(word) != got.get(word)] if want != got else []
    word = min(different, key=greatness, default=())
    return f"word {problem.text(word)} want {want.get(word, 0)} got {got.get(word, 0)}" if different else ""


def judge(problem: Problem, certificate: Certificate, refused: str) -> None:
    """Raises the first test of the certificate that fails, where one does, behind what is refused."""
    claim, denominator, shares = certificate
    check_numbers(problem, claim, denominator, {number % len(shares): share.scale for number, share in enumerate(shares, 1)}, refused)
    generators, place = problem.generators(), 0
    lemmas: List[Poly] = []
    for share in shares:
        total: Poly = {}
        for place, row in enumerate(share.rows, place + 1):
            code, polys = ("C7", lemmas) if row.is_lemma else ("C2", generators)
            require(1 <= row.number <= len(polys), f"{refused} {code} row {place}")
            add(total, row.coefficient, polys[row.number - 1], row.left, row.right)
        rests = [word for word in total if total[word] % share.scale] if share is not shares[-1] else []
        least = min(rests, key=greatness, default=())
        require(not rests, f"{refused} C8 lemma {len(lemmas) + 1} word {problem.text(least)} got {total.get(least)}")
        lemmas.append({word: total[word] // share.scale for word in total})
    different = difference(problem, add({}, shares[-1].scale, problem.claims[claim - 1]), total)
    require(not different, f"{refused} C6 {different}")


def report(statement: Source, evidence: Source) -> Iterator[str]:
    """The lines of the report."""
    problem = Problem(statement)
    if Blocks(evidence).line.startswith("cancellation "):
        if TYPE_CHECKING or __package__:
            from . import cancel  # which stands on this file
        else:
            import cancel
        yield from cancel.report(statement, evidence)
        return
    for block, certificate in enumerate(Evidence(problem, evidence).certificates, 1):
        judge(problem, certificate, f"# block {block} refused")
        yield f"# block {block} accepted claim {certificate.claim} denominator {certificate.denominator}"


# ---- How this file and those beside it end
MOST_BYTES = (2**20, 2**26)  # of a statement and of evidence
DONE, USAGE, FAULTY, NOT_LOADED, NO_OUTPUT, NO_MEMORY, REFUSED = 0, 2, 3, 4, 5, 6, 7
# The lines that are said of a statement and of evidence; it ends with the first thing that is wrong as a `Refusal`.
Report = Callable[[Source, Source], Iterable[str]]


def loaded(paths: List[str], limits: Sequence[int] = MOST_BYTES) -> List[bytes]:
    """The bytes of a statement, and of evidence where that is named. Raises which can't be read, and else which is too long."""
    texts = [content(path, limit + 1) for path, limit in zip(paths, limits)]
    for path, text, limit in zip(paths, texts, limits):
        if len(text) > limit:
            raise Refusal(f"# too long {path} limit {limit}")
    return texts


def status_of(line: str) -> int:
    """Of a refusal: of a file that isn't loaded or written, of a statement or a file of the notation, or of evidence."""
    if line.startswith(("# load ", "# too ", "# not written ")):
        return NO_OUTPUT if line.startswith("# not ") else NOT_LOADED
    return FAULTY if line.startswith(("# refused S", "# refused N")) else REFUSED


def written(lines: Iterable[str]) -> bool:
    """Writes lines to standard output, and tells whether that took them."""
    try:
        for line in lines:
            sys.stdout.buffer.write(f"{line}\n".encode("utf-8", "surrogateescape"))
        sys.stdout.buffer.flush()
        return True
    except (OSError, AttributeError):  # it is full, or closed
        if sys.stdout:
            os.dup2(os.open(os.devnull, os.O_WRONLY), 1)  # for what is flushed at the end
        return False


def finished(made: Callable[[], Tuple[Iterable[str], int]]) -> int:
    """Writes the lines that are made, with the first thing that is wrong, and gives their status, or that of the first thing."""
    try:
        lines, status = made()
        is_written = written(lines)
    except (Refusal, MemoryError) as refusal:
        status = status_of(str(refusal)) if isinstance(refusal, Refusal) else NO_MEMORY
        is_written = written([str(refusal) or "# no memory"])
    return status if is_written else NO_OUTPUT


def answering(report: Report, usage: str) -> Callable[[List[str]], int]:
    """What runs for the words of a call: it writes the report on the two files that these are, and gives the status."""

    def main(words: List[str]) -> int:
        if len(words) != 2:
            return finished(lambda: ([f"# usage: {usage}"], USAGE))
        return finished(lambda: (report(*loaded(words)), DONE))

    return main


def script(main: Callable[[List[str]], int]) -> NoReturn:
    """Ends with the status for the words of the call. An interrupt and a closed pipe end the script with no word on it."""
    for name in ("SIGINT", "SIGPIPE"):
        if hasattr(signal, name):
            signal.signal(getattr(signal, name), signal.SIG_DFL)
    sys.exit(main(sys.argv[1:]))


main = answering(report, "check.py STATEMENT EVIDENCE")

if __name__ == "__main__":
    script(main)
