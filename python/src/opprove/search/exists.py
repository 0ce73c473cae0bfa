"""Solutions k of u = v k

That v divides u from the left, which is that there is a k with u = v k, can be claimed of a new map w with `assume w v = 0` and
`claim w u = 0`: where that has a proof by rows, its rows give k. For each claim it finds the maps that are written so, w in front (or
behind, for u = k v; or one on each side, for u = v k + l z), has the program prove the claim, reads k off the certificate, and prints
it with the statement that claims `u = v k`, which doesn't mention w, and its certificate, which `check` accepts. FOLDER gets both.

With --left E and a statement that has no such maps it looks for k with u = E k for each claim u = 0, with --right E for u = k E, and
with both for u = E k + l F. Where an integer other than 1 stands in front of u, it has to cancel.

Statuses: 0 where each claim has its k, 12 where one has none that was found, or isn't written so.
"""
from __future__ import annotations

import argparse
from pathlib import Path
from typing import Dict, List, NamedTuple, Optional, Sequence, Set, Tuple

from opprove import program as programs
from opprove.checkers.check import Certificate, Evidence, Poly, Problem, Refusal, Row, Share, Word, add
from opprove.search import join
from opprove.search.findings import ORDER_WORDS, Answer, Finding, answered, first_word, is_accepted, keep, lines_of
from opprove.search.findings import proved_block, text_of, with_claims, words_of
from opprove.search.running import Program, Unusable

PAIRS = "50000"


class Side(NamedTuple):
    """A new map in front of all words of a claim, or behind them, and the assumption on it."""

    letter: int
    assumption: int  # by its number
    divisor: Poly  # what the assumption says of it: v for w v = 0


Sides = Tuple[Optional[Side], Optional[Side]]  # in front and behind


class Witness(NamedTuple):
    """u = v k + l z, each as a polynomial, and the rows of its certificate."""

    denominator: int
    u: Poly
    products: List[Tuple[Poly, Poly]]
    rows: List[Row]


class Reader:
    """Reads solutions off certificates of rows over generators."""

    def __init__(self, problem: Problem) -> None:
        self.problem, self.generators = problem, problem.generators()
        self.units = {letter for letter, name in enumerate(problem.names) if name[0] == "["}

    def side(self, poly: Poly, is_left: bool) -> Optional[Side]:
        """The map in front of all words of a polynomial, where one assumption alone is on it, and says that it makes v zero."""
        place = 0 if is_left else -1
        letters = {word[place] for word in poly}
        if len(letters) != 1:
            return None
        letter = letters.pop()
        pair = {letter, self.problem.stars[letter]}
        users = [number for number, one in enumerate(self.problem.assumptions, 1) if any(pair & set(word) for word in one)]
        rest = [word[1:] if is_left else word[:-1] for word in poly]
        if len(users) != 1 or any(pair & set(word) for word in rest) or letter in self.units:
            return None
        assumption = self.problem.assumptions[users[0] - 1]
        if any(word[place] != letter or sum(one in pair for one in word) != 1 for word in assumption):
            return None
        return Side(letter, users[0], self.cut(assumption, letter if is_left else None, None if is_left else letter))

    def cut(self, poly: Poly, left: Optional[int], right: Optional[int]) -> Poly:
        """The polynomial without these letters at the ends of its words; what is empty then is the identity."""
        total: Poly = {}
        for word, coefficient in poly.items():
            unit = self.problem.ends[left][0] if left is not None else self.problem.ends[right][1] if right is not None else word[0]
            add(total, coefficient, {word[left is not None : len(word) - (right is not None)] or (unit,): 1})
        return total

    def witness(self, claim: int, rows: List[Row], denominator: int, sides: Sides) -> Optional[Witness]:
        """What the rows say once the new maps are off."""
        left, right = sides
        ends = (left.letter if left else None, right.letter if right else None)
        solutions: List[Poly] = [{}, {}]
        kept: List[Row] = []
        for row in rows:
            generator = self.generators[row.number - 1]
            if left and row.number == left.assumption:
                word = self.stripped(row.right, None, ends[1])
                if word is None or self.stripped(row.left, None, None) != ():
                    return None
                add(solutions[0], row.coefficient, {word or (self.ends_of(left.divisor)[0],): 1})
            elif right and row.number == right.assumption:
                word = self.stripped(row.left, ends[0], None)
                if word is None or self.stripped(row.right, None, None) != ():
                    return None
                add(solutions[1], row.coefficient, {word or (self.ends_of(right.divisor)[1],): 1})
            elif not any(set(word) & self.new_letters(sides) for word in generator):
                words = self.stripped(row.left, ends[0], None), self.stripped(row.right, None, ends[1])
                if None not in words:
                    kept.append(row._replace(left=words[0] or (), right=words[1] or ()))
        whole = self.problem.claims[claim - 1]
        u = self.cut(self.cut(whole, ends[0], None) if left else whole, None, ends[1]) if right else self.cut(whole, ends[0], None)
        products = [(side.divisor, solution) for side, solution in zip(sides, solutions) if side]
        return Witness(denominator, u, products, kept)

    def ends_of(self, poly: Poly) -> Tuple[int, int]:
        return self.problem.signature(next(iter(poly))) or (0, 0)

    def new_letters(self, sides: Sides) -> "set[int]":
        letters = {side.letter for side in sides if side}
        return letters | {self.problem.stars[letter] for letter in letters}

    def stripped(self, word: Word, left: Optional[int], right: Optional[int]) -> Optional[Word]:
        """The word without the letters that are asked for at its ends, around which identities may stand."""
        letters = list(word)
        if left is not None:
            while letters and letters[0] != left and letters[0] in self.units:
                letters.pop(0)
            if not letters or letters.pop(0) != left:
                return None
        if right is not None:
            while letters and letters[-1] != right and letters[-1] in self.units:
                letters.pop()
            if not letters or letters.pop() != right:
                return None
        if left is None and right is None:
            letters = [letter for letter in letters if letter not in self.units]
        return tuple(letters)


# ---- Statements


def expression(problem: Problem, poly: Poly) -> str:
    """A polynomial as it stands in a statement."""
    texts = []
    for word, value in poly.items():
        number = f"{abs(value)} " if abs(value) != 1 else ""
        texts.append(f"{'-' if value < 0 else '+'} {number}{problem.text(word)}")
    text = " ".join(texts) or "0"
    return text[2:] if text[0] == "+" else text


def new_statement(problem: Problem, text: str, claim: str, gone: Set[str]) -> str:
    """The statement without these maps and the assumptions on them, and with one claim."""
    lines: List[str] = []
    for line in with_claims(text, [claim]).splitlines():
        words = line.split("#")[0].split()
        if words[0] == "map":
            names = [word for word in words[1 : words.index(":")] if word not in gone]
            lines += [" ".join(["map", *names, *words[words.index(":") :]])] if names else []
        elif words[0] in (*ORDER_WORDS, "solve"):
            lines += [line] if not gone & set(words) else []
        elif first_word(line) in ("claim", "object", "language", "model") or not gone & set(names_in(problem, line)):
            lines.append(line)
    return "\n".join(lines) + "\n"


def new_maps(problem: Problem, sides: Sequence[Optional[Side]]) -> Set[str]:
    return {problem.names[side.letter].rstrip("'") for side in sides if side}


def names_in(problem: Problem, line: str) -> List[str]:
    for sign in "()+-=^'":
        line = line.replace(sign, " ")
    return [word for word in line.split("#")[0].split()[1:] if word in problem.numbers]


def with_annihilators(text: str, options: argparse.Namespace) -> str:
    """The statement in which the factors that are named are made zero by new maps, and so is each claim."""
    if not options.left and not options.right:
        return text
    problem = Problem(text.encode())
    names = fresh_names(problem)
    factors = [(names[0], options.left, True), (names[1], options.right, False)]
    lines = [f"object {names[2]}"]
    asked = [(name, factor, is_left) for name, factor, is_left in factors if factor]
    claims = [expression(problem, poly) for poly in problem.claims]
    for name, factor, is_left in asked:
        extra = f"({factor})"
        ends = ends_of_factor(problem, text, factor)
        inner = problem.names[ends[1] if is_left else ends[0]][1:-1]
        lines += [f"map {name} : {inner} -> {names[2]}" if is_left else f"map {name} : {names[2]} -> {inner}"]
        lines += [f"assume {name} {extra} = 0" if is_left else f"assume {extra} {name} = 0"]
        claims = [f"{name} ({claim})" if is_left else f"({claim}) {name}" for claim in claims]
    return with_claims(text, [f"{claim} = 0" for claim in claims], lines)


def ends_of_factor(problem: Problem, text: str, factor: str) -> Tuple[int, int]:
    """Source and target of an expression over the statement."""
    try:
        poly = Problem(with_claims(text, [f"({factor}) = 0"]).encode()).claims[0]
    except Refusal as fault:
        raise Unusable(f"# the factor {factor} doesn't fit the statement: {str(fault).split(' ')[2]}") from None
    ends = problem.signature(next(iter(poly))) if poly else None
    if ends is None:
        raise Unusable(f"# the factor {factor} is zero")
    return ends


def fresh_names(problem: Problem) -> List[str]:
    taken = {name.strip("[]'") for name in problem.names}
    tried = [[letter, *(f"{letter}{number}" for number in range(1, 1000))] for letter in ("w", "v", "Z")]
    return [next(name for name in names if name not in taken) for names in tried]


# ---- The tool


def options_of(words: List[str]) -> argparse.Namespace:
    made = words_of("exists", __doc__, 60)
    made.add_argument("--left", default="", metavar="E", help="the factor v of u = v k")
    made.add_argument("--right", default="", metavar="E", help="the factor v of u = k v")
    return made.parse_args(words)


def answer(words: List[str], folder: Path) -> Answer:
    options = options_of(words)
    Problem(options.statement)
    text = with_annihilators(text_of(options.statement), options)
    problem, program = Problem(text.encode()), Program(Path(programs.path()))
    lines: List[str] = []
    count = 0
    for claim in range(1, len(problem.claims) + 1):
        finding, why = found(program, folder, problem, text, claim, options)
        count += finding is not None
        if finding:
            keep(options.keep, finding)
        lines += lines_of(finding) if finding else [f"# claim {claim}: {why}"]
    return lines, 0 if count == len(problem.claims) else 12


def found(
    program: Program, folder: Path, problem: Problem, text: str, claim: int, options: argparse.Namespace
) -> Tuple[Optional[Finding], str]:
    """The solution for one claim, or why there is none."""
    of_claims = [sides_of(Reader(problem), poly) for poly in problem.claims]
    if not any(of_claims[claim - 1]):
        return None, "no new map stands in front of it or behind it, of which one assumption says what it makes zero"
    asked = with_claims(text, [expression(problem, problem.claims[claim - 1]) + " = 0"])
    block = proved_block(program, folder, asked, ["--format", "1", "--pairs", PAIRS], options.seconds)
    if not block:
        return None, "no proof by rows was found"
    path = folder / "rows.cert"
    path.write_text("\n".join(block) + "\n", encoding="utf-8")
    single = Problem(asked.encode())
    certificate = Evidence(single, str(path)).certificates[0]
    sides = sides_of(Reader(single), single.claims[0])
    witness = Reader(single).witness(1, certificate.shares[0].rows, certificate.denominator, sides)
    own, others = new_maps(single, sides), new_maps(problem, [side for pair in of_claims for side in pair])
    for gone in (own | others, own):  # the new maps of other claims too, where the proof does without them
        finding = finding_of(single, asked, claim, witness, sides, gone) if witness else None
        if finding and is_accepted(program, folder, finding.statement, finding.block):
            return finding, ""
    return None, "the rows of its proof give no solution"


def sides_of(reader: Reader, poly: Poly) -> Sides:
    return (reader.side(poly, True), reader.side(poly, False)) if poly else (None, None)


def finding_of(problem: Problem, text: str, claim: int, witness: Witness, sides: Sides, gone: Set[str]) -> Optional[Finding]:
    """The statement that claims what was found, without the maps that are gone, with the rows of its certificate."""
    scale = f"{witness.denominator} " if witness.denominator != 1 else ""
    texts = []
    for side, (divisor, solution) in zip([side for side in sides if side], witness.products):
        pair = (divisor, solution) if side is sides[0] else (solution, divisor)
        texts.append(" ".join(f"({expression(problem, poly)})" if poly else "0" for poly in pair) if solution else "0")
    right = " + ".join(one for one in texts if one != "0") or "0"
    statement = new_statement(problem, text, f"{scale}({expression(problem, witness.u)}) = {right}", gone)
    try:
        fresh = Problem(statement.encode())
    except Refusal:
        return None  # the claim has a map that is gone
    rows = moved(problem, fresh, witness)
    if rows is None:
        return None
    lines = join.written(fresh, Certificate(1, 1, [Share(1, rows)]))[1:]
    solutions = ", ".join(f"{name} = {expression(problem, one)}" for name, (_, one) in zip("kl", witness.products))
    title = f"claim {claim}: {scale}({expression(problem, witness.u)}) = {right} with {solutions}"
    return Finding(title, lines, statement, f"exists_{claim}")


def moved(problem: Problem, fresh: Problem, witness: Witness) -> Optional[List[Row]]:
    """The rows over the statement without the new maps, with those by which identities are left out."""
    numbers = {fresh_key(fresh, poly): number for number, poly in reversed(list(enumerate(fresh.generators(), 1)))}
    generators = problem.generators()
    found: List[Row] = []
    for row in witness.rows:
        number = numbers.get(fresh_key(problem, generators[row.number - 1]))
        if number is None or not all(problem.names[letter] in fresh.numbers for letter in (*row.left, *row.right)):
            return None
        left, right = (tuple(fresh.numbers[problem.names[letter]] for letter in word) for word in (row.left, row.right))
        found.append(Row(row.coefficient, left, False, number, right))
    return closed(fresh, found)


def fresh_key(problem: Problem, poly: Poly) -> "frozenset[Tuple[str, int]]":
    return frozenset((problem.text(word), value) for word, value in poly.items())


def closed(problem: Problem, rows: List[Row]) -> List[Row]:
    """With rows that make up for identities: what the rows leave of the claim is reduced by what identities do alone."""
    rest: Poly = add({}, 1, problem.claims[0])
    generators = problem.generators()
    for row in rows:
        add(rest, -row.coefficient, generators[row.number - 1], row.left, row.right)
    units = {(word, single): number for number, poly in enumerate(generators, 1) for word, single in [unit_pair(problem, poly)] if word}
    more: List[Row] = []
    pending = True
    while pending and len(more) < 10000:
        pending = False
        for word in sorted(rest, key=len, reverse=True):
            step = unit_step(word, units)
            if step:
                number, left, right = step
                more.append(Row(rest[word], left, False, number, right))
                add(rest, -rest[word], generators[number - 1], left, right)
                pending = True
                break
    return [*rows, *more]


def unit_pair(problem: Problem, poly: Poly) -> Tuple[Word, Word]:
    """The words of a generator that says what an identity does: of two letters, and of the one that it leaves."""
    words = sorted(poly, key=len)
    is_unit = len(words) == 2 and [len(word) for word in words] == [1, 2] and poly[words[1]] == 1 and poly[words[0]] == -1
    is_unit = is_unit and words[0][0] in words[1] and any(problem.names[letter][0] == "[" for letter in words[1])
    return (words[1], words[0]) if is_unit else ((), ())


def unit_step(word: Word, units: Dict[Tuple[Word, Word], int]) -> Optional[Tuple[int, Word, Word]]:
    for (pair, _), number in units.items():
        for place in range(len(word) - 1):
            if word[place : place + 2] == pair:
                return number, word[:place], word[place + 2 :]
    return None


def main(words: List[str]) -> int:
    return answered("exists", answer, words)
