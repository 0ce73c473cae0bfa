"""Chains of equations and their text, for explain.py, which makes them of certificates, and `opprove chain`, which reads them.

`explained` is the text of the chain of a certificate as `opprove explain` prints it, or the first reason why there is none.
`Texts` reads a text of certificates or one of chains, and `judge_chain` makes the lines of a chain anew from its `use` lines.
Beyond what check.py looks at come the bounds of numbers: K4 of certificates and of chains, and C4 and C5 of rows.
"""
from __future__ import annotations

import re
from itertools import chain
from typing import TYPE_CHECKING, Dict, List, NamedTuple, Tuple

if TYPE_CHECKING or __package__:
    from .check import Blocks, Certificate, Evidence, Line, Poly, Problem, Refusal, Row, Signature, Source, Token, Word
    from .check import add, check_numbers, difference, greatness, require, sum_text
else:  # run as a file by itself
    from check import Blocks, Certificate, Evidence, Line, Poly, Problem, Refusal, Row, Signature, Source, Token, Word
    from check import add, check_numbers, difference, greatness, require, sum_text

NUMBERS, MOST = 2**32 - 1, 2**127 - 1
LETTERS_OF_A_WORD, TERMS_OF_A_LINE, LETTERS_OF_LINES, TERMS_OF_A_SUM = 500, 20000, 10000000, 200000
STEPS, LETTERS_OF_STEPS = 200000, 1000000
# Of the numbers of a line of evidence that begins with the word.
BOUNDS: Dict[str, List[int]] = {
    "claim": [NUMBERS], "denominator": [MOST], "lemma": [NUMBERS, MOST], "goal": [MOST], "row": [MOST, NUMBERS],
    "cancel": [NUMBERS, NUMBERS],
}  # fmt: skip
USE = r"use (-?[0-9]+) \( ([^()]*)\) ([0-9]+) \( ([^()]*)\)"


class ChainText(NamedTuple):
    """A chain that was read. With each step and each line stands the number of its line in the file."""

    claim: int
    denominator: int
    steps: List[Tuple[int, Row]]
    lines: List[Tuple[int, Poly]]  # one more than steps


# ---- Lines


def operated(left: int, operation: str, right: int, refused: str) -> int:
    """The product ("times") or the sum ("plus") of two numbers, which has to be in the range."""
    value = left * right if operation == "times" else left + right
    if abs(value) > MOST:
        raise Refusal(f"{refused} {left} {operation} {right}")
    return value


def add_row(total: Poly, row: Row, terms: List[Tuple[Word, int]], refused: str, number: int) -> None:
    """Adds the row with this number, in whose middle stand these terms, to a sum, unless something on the way is too large."""
    overflow = f"{refused} C4 row {number}"
    for middle, coefficient in terms:
        word = row.left + middle + row.right
        product = operated(row.coefficient, "times", coefficient, overflow)
        value = operated(total.pop(word, 0), "plus", product, overflow)
        if value:
            total[word] = value
    if len(total) > TERMS_OF_A_SUM:
        raise Refusal(f"{refused} C5 row {number} limit {TERMS_OF_A_SUM}")


def letters_in(line: Poly) -> int:
    return sum(map(len, line))


class Lines:
    """Makes and writes the lines of chains over a problem."""

    def __init__(self, problem: Problem) -> None:
        self.problem = problem
        # The terms of each, the greatest word first.
        self.generators = [self.terms(poly) for poly in problem.generators()]
        claims = [line.tokens for line in problem.lines if line.tokens[0].text == "claim"]
        pairs = zip(problem.claims, claims)
        self.ends = [self.path(next(iter(poly))) if poly else self.ends_of_zero(tokens) for poly, tokens in pairs]

    def terms(self, poly: Poly) -> List[Tuple[Word, int]]:
        return [(word, poly[word]) for word in sorted(poly, key=greatness, reverse=True)]

    def path(self, word: Word) -> Signature:
        """The ends of a word that is a path."""
        return self.problem.ends[word[-1]][0], self.problem.ends[word[0]][1]

    def ends_of_zero(self, tokens: List[Token]) -> Signature:
        """Those that a claim has where its two sides are equal."""
        (_, (left, _)), (_, (right, _)) = Line(tokens, self.problem).sides()
        return left or right or (0, 0)

    def is_step(self, claim: int, row: Row) -> bool:
        """Whether the row counts for something and is typed as the claim, as to which one word of its generator decides."""
        generator = self.generators[row.number - 1]
        if not row.coefficient or not generator:
            return False
        source, target = self.ends[claim - 1]
        for letter in chain(row.left, generator[0][0], row.right):
            if self.problem.ends[letter][1] != target:
                return False
            target = self.problem.ends[letter][0]
        return target == source

    def first(self, claim: int, denominator: int, refused: str) -> Poly:
        """The denominator times the claim."""
        terms = self.terms(self.problem.claims[claim - 1])
        return {word: operated(denominator, "times", coefficient, refused) for word, coefficient in terms}

    def take_off(self, line: Poly, step: Row, refused: str, place: str) -> None:
        """Takes a step off a line, unless something on the way is too large."""
        generator = self.generators[step.number - 1]
        require(len(step.left) + len(generator[0][0]) + len(step.right) <= LETTERS_OF_A_WORD, f"{refused} E3 {place}")
        overflow = f"{refused} E2 {place}"
        values = [operated(-step.coefficient, "times", coefficient, overflow) for _, coefficient in generator]
        for (middle, _), value in zip(generator, values):
            word = step.left + middle + step.right
            total = operated(line.pop(word, 0), "plus", value, overflow)
            if total:
                line[word] = total
        require(len(line) <= TERMS_OF_A_LINE, f"{refused} E3 {place}")

    def line_text(self, line: Poly) -> str:
        """The line of text, the greatest word first."""
        return "line " + sum_text((self.problem.text(word), coefficient) for word, coefficient in self.terms(line))

    def use_text(self, step: Row) -> str:
        return f"use {step.coefficient} ({self.problem.text(step.left)}) {step.number} ({self.problem.text(step.right)})"


# ---- Chains of certificates


def judge_rows(lines: Lines, certificate: Certificate, refused: str) -> None:
    """Raises the first test of `check` that fails, of a certificate of rows over generators."""
    claim, denominator, (share,) = certificate
    check_numbers(lines.problem, claim, denominator, {}, refused)
    want = lines.first(claim, denominator, f"{refused} C4 row 0")
    total: Poly = {}
    for number, row in enumerate(share.rows, 1):
        require(1 <= row.number <= len(lines.generators), f"{refused} C2 row {number}")
        add_row(total, row, lines.generators[row.number - 1], refused, number)
    compare(lines, want, total, f"{refused} C6")


def explained(lines: Lines, block: int, certificate: Certificate, has_lemmas: bool) -> List[str]:
    """The lines of text of a block, which are its head line and its chain."""
    refused = f"# block {block} refused"
    require(not has_lemmas, f"{refused} E1")
    judge_rows(lines, certificate, refused)
    claim, denominator, (share,) = certificate
    line = lines.first(claim, denominator, refused)
    text, steps, letters = [lines.line_text(line)], 0, letters_in(line)
    for number, row in enumerate(share.rows, 1):
        if not lines.is_step(claim, row):
            continue
        lines.take_off(line, row, refused, f"row {number}")
        steps, letters = steps + 1, letters + letters_in(line)
        require(letters <= LETTERS_OF_LINES, f"{refused} E4 row {number} limit {LETTERS_OF_LINES}")
        text += [lines.use_text(row), lines.line_text(line)]
    head = f"# block {block} explained claim {claim} denominator {denominator} steps {steps}"
    return [head, "chain 1", f"claim {claim}", f"denominator {denominator}", *text, "end"]


class Bounded(Evidence):
    """The certificates of an evidence text, with the bounds of their numbers, and for each whether it is of format 2."""

    def __init__(self, problem: Problem, source: Source) -> None:
        self.has_lemmas: List[bool] = []
        self.is_large = False  # whether a number of the line that was taken last is
        super().__init__(problem, source)

    def certificate(self) -> Certificate:
        self.has_lemmas.append(self.line == "certificate 2")
        return super().certificate()

    def take(self, pattern: str) -> Tuple[str, ...]:
        """Takes a line. That a number is too large is said behind what else is wrong with names and lemmas' numbers."""
        place, bounds = self.number, BOUNDS.get(self.line.split(" ")[0], [])
        is_last = not self.line.startswith(("row ", "lemma ", "cancel "))
        groups = super().take(pattern)
        numbers = [int(group) for group in groups if re.fullmatch("-?[0-9]+", group or "")]
        self.is_large = any(abs(number) > most for number, most in zip(numbers, bounds))
        self.require(place, "K4", not (self.is_large and is_last))
        return groups

    def limit(self, place: int, count: int, most: int) -> None:
        self.require(place, "K4", not self.is_large)
        super().limit(place, count, most)


# ---- Chains that are read


class Texts(Evidence):
    """The certificates of a text or its chains: which of both it has the first such block says."""

    def __init__(self, problem: Problem, source: Source) -> None:
        Blocks.__init__(self, source)
        self.letters = problem.numbers
        self.certificates: List[Certificate] = []
        self.chains: List[ChainText] = []
        while self.line:
            if self.line.startswith("certificate ") and not self.chains:
                self.certificates.append(self.certificate())
            elif self.line.startswith("chain ") and not self.certificates:
                self.chains.append(self.chain())
            else:
                self.skip("model|basis")
        require(bool(self.certificates or self.chains), "# refused K7")

    def chain(self) -> ChainText:
        """A block of a chain."""
        self.begin("chain 1", len(self.chains))
        self.counts = [0, 0, 0]  # steps, their letters, and those of lines
        claim, denominator = self.bounded_number("claim"), self.bounded_number("denominator")
        steps: List[Tuple[int, Row]] = []
        lines = [(self.number, self.polynomial())]
        while self.line.startswith("use "):
            steps.append((self.number, self.step()))
            lines.append((self.number, self.polynomial()))
        self.take("end")
        return ChainText(claim, denominator, steps, lines)

    def bounded_number(self, word: str) -> int:
        place, number = self.number, self.take_number(word)
        self.require(place, "K4", number <= BOUNDS[word][0])
        return number

    def count(self, place: int, which: int, more: int, most: int) -> None:
        self.counts[which] += more
        self.limit(place, self.counts[which], most)

    def step(self) -> Row:
        place = self.number
        coefficient, left_text, number, right_text = self.take(USE)
        left, right = self.words(place, [left_text, right_text])
        self.require(place, "K4", abs(int(coefficient)) <= MOST and int(number) <= NUMBERS)
        self.limit(place, max(len(left), len(right)), LETTERS_OF_A_WORD)
        self.count(place, 0, 1, STEPS)
        self.count(place, 1, len(left) + len(right), LETTERS_OF_STEPS)
        return Row(int(coefficient), left, False, int(number), right)

    def polynomial(self) -> Poly:
        """That of a line, whose terms may stand in any order."""
        place = self.number
        (text,) = self.take("line (.+)")
        # Signs and terms in turn.
        pieces = re.split("(?:^| )([+-]) ", text if text[:2] == "- " else f"+ {text}")[1:] if text != "0" else []
        terms = [re.findall("^(?:([0-9]+)(?: |$))?(.*)", piece)[0] for piece in pieces[1::2]]
        self.require(place, "K2", all(letters for _, letters in terms))
        words = self.words(place, [letters for _, letters in terms])
        total: Poly = {}
        for sign, (number, _), word in zip(pieces[::2], terms, words):
            self.require(place, "K4", int(number or 1) <= MOST)
            add(total, int(sign + (number or "1")), {word: 1})
        self.limit(place, max(map(len, words), default=0), LETTERS_OF_A_WORD)
        self.limit(place, len(words), TERMS_OF_A_LINE)
        self.count(place, 2, sum(map(len, words)), LETTERS_OF_LINES)
        return total


def judge_chain(lines: Lines, told: ChainText, refused: str) -> None:
    """Raises the first thing that is wrong with a chain: what is no step, or the first line that isn't the one before less its
    step. The last one is 0."""
    check_numbers(lines.problem, told.claim, told.denominator, {}, refused)
    place, got = told.lines[0]
    want = lines.first(told.claim, told.denominator, f"{refused} C4 line {place}")
    compare(lines, want, got, f"{refused} line {place}")
    for (use, step), (place, got) in zip(told.steps, told.lines[1:]):
        require(1 <= step.number <= len(lines.generators), f"{refused} C2 line {use}")
        require(lines.is_step(told.claim, step), f"{refused} line {use} no step")
        lines.take_off(want, step, refused, f"line {use}")
        compare(lines, want, got, f"{refused} line {place}")
    compare(lines, {}, want, f"{refused} line {place}")


def compare(lines: Lines, want: Poly, got: Poly, refused: str) -> None:
    different = difference(lines.problem, want, got)
    require(not different, f"{refused} {different}")
