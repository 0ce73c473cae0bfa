"""Writes a statement in the notation

Definitions, the equations of words, chains of equations and identities are found, and declarations that the rest fixes are left out. What
is printed has been expanded again: it has the maps, the generators and the claims of the statement, up to the signs of these and the order
of generators and claims. Words are compared as in the statement, unless --eliminate has definitions put for what they are.
"""
from __future__ import annotations

import re
from itertools import combinations, groupby
from typing import Dict, FrozenSet, Iterator, List, NamedTuple, Optional, Sequence, Set, Tuple

from opprove.checkers import check
from opprove.checkers.check import Line, Poly, Problem, Refusal
from opprove.notation.expansion import Expansion, nodes
from opprove.notation.parts import Equation, Node, Use, Word
from opprove.notation.reader import table, written
from opprove.tool import ended, parser

Named = FrozenSet[Tuple[Tuple[str, ...], int]]  # a polynomial by the names of its letters
Pattern = Tuple[Tuple[str, bool], ...]  # a product of parameters, each with or without its adjoint
WIDTH, INDICES = 100, range(1, 13)
LEFT_OUT = ("range", "kernel")  # words whose equations say too little to be found


def named(problem: Problem, poly: Poly) -> Named:
    """A polynomial by the names of its letters."""
    return frozenset((tuple(problem.names[letter] for letter in word), value) for word, value in poly.items())


def either(poly: Named) -> FrozenSet[Named]:
    """A polynomial up to its sign."""
    return frozenset([poly, frozenset((word, -value) for word, value in poly)])


class Found(NamedTuple):
    """A word that was found: with its parameters and an exponent or 0."""

    word: Word
    maps: Dict[str, str]
    exponent: int

    def text(self) -> str:
        return " ".join(self.maps.get(text, str(self.exponent)) if is_parameter else text for text, is_parameter in self.word.head)


class Entry(NamedTuple):
    """What stands in the file: a kind, its text, its equations, and the words that it is made of."""

    kind: str  # "comment", "assume", "claim", "word", "define" or "kept"
    text: str
    polys: Tuple[Named, ...] = ()
    maps: FrozenSet[str] = frozenset()


# ---- Words as patterns


def equations(word: Word, index: int) -> List[Tuple[Optional[Pattern], Optional[Pattern]]]:
    """The sides of a word's equations as products; a zero has none, and the identity is empty."""
    found = []
    for item in word.items:
        if isinstance(item, Use):
            names = dict(zip(item.word.parameters(), (argument.text for argument in item.arguments)))
            for pair in equations(item.word, index):
                found.append(tuple(side and tuple((names[name], star) for name, star in side) for side in pair))
        else:
            found.append(tuple(pattern(side, index) for side in item.sides))
    return found  # type: ignore[return-value]


def pattern(node: Node, index: int) -> Optional[Pattern]:
    """A side of an equation of a word as a product."""
    if node.kind == "map":
        return ((node.text, False),)
    if node.kind == "number":
        return () if node.number else None
    letters: Pattern = tuple(letter for part in node.parts for letter in pattern(part, index) or ())
    for mark in node.marks:
        if mark.kind == "'":
            letters = tuple((name, not star) for name, star in reversed(letters))
        else:
            letters *= mark.number + index * mark.has_parameter
    return letters


class Matcher:
    """Finds words among equations."""

    def __init__(self, problem: Problem) -> None:
        self.problem = problem
        self.own = {name for name, star in zip(problem.names, problem.stars) if problem.names[star] == name}
        self.ends = {name: ends for name, ends in zip(problem.names, problem.ends)}

    def letter(self, name: str, star: bool) -> str:
        """A letter, or its adjoint, as it is written."""
        return name + "'" if star and name not in self.own else name

    def matches(self, side: Optional[Pattern], word: Optional[Tuple[str, ...]], maps: Dict[str, str]) -> Optional[Dict[str, str]]:
        """The parameters with which a side is a word, beside those that are known."""
        if side is None or word is None:
            return maps if side is None and word is None else None
        if not side:
            return maps if len(word) == 1 and word[0][0] == "[" else None
        if len(side) != len(word):
            return None
        for (name, star), letter in zip(side, word):
            plain = letter[:-1] if letter[-1] == "'" else letter
            value = maps.get(name, plain)
            if letter[0] == "[" or self.letter(value, star) != letter or (name not in maps and value in maps.values()):
                return None
            maps = {**maps, name: value}
        return maps

    def bindings(self, pair: Tuple[Optional[Pattern], Optional[Pattern]], poly: Named, maps: Dict[str, str]) -> Iterator[Dict[str, str]]:
        """The ways in which an equation is this polynomial, up to its sign."""
        words = {value: word for word, value in poly}
        wanted = [1, -1] if pair[1] is not None else [1]
        if len(poly) == len(wanted) and {abs(value) for value in words} == {1} and (len(wanted) == 1 or len(words) == 2):
            for sign in (1, -1):
                first = self.matches(pair[0], words.get(sign), maps) if words.get(sign) is not None else None
                second = self.matches(pair[1], words.get(-sign), first) if first is not None else None
                if second is not None:
                    yield second

    def find(self, word: Word, index: int, polys: Sequence[Named]) -> Iterator[Tuple[Found, List[int]]]:
        """Uses of a word, each with the places of its equations."""
        pairs = equations(word, index)

        def search(number: int, maps: Dict[str, str], places: List[int]) -> Iterator[Tuple[Dict[str, str], List[int]]]:
            if number == len(pairs):
                yield maps, places
                return
            for place, poly in enumerate(polys):
                if place not in places:
                    for more in self.bindings(pairs[number], poly, maps):
                        yield from search(number + 1, more, places + [place])

        for maps, places in search(0, {}, []):
            yield Found(word, maps, index), places


# ---- Statements


class Shortener:
    """A statement as entries, which become fewer."""

    def __init__(self, source: check.Source, eliminates: bool = False) -> None:
        self.problem = problem = Problem(source)
        self.matcher = Matcher(problem)
        self.texts = dict(check.read_lines(source, ""))
        self.lines = {line.tokens[0].line: line for line in problem.lines}
        self.eliminated = [name for line in problem.lines if line.tokens[0].text == "eliminate" for name in line.with_role("map")]
        self.keeps_order = not eliminates and not self.eliminated and all(line.tokens[0].text != "order" for line in problem.lines)
        self.defined: Set[str] = set()
        self.entries = [entry for number, text in self.texts.items() for entry in self.read(text, self.lines.get(number))]

    def read(self, text: str, line: Optional[Line]) -> Iterator[Entry]:
        """The entries of a line."""
        if "#" in text:
            yield Entry("comment", text[text.index("#") :])
        word = line.tokens[0].text if line else "object"
        if line and word in check.ABBREVIATIONS:
            yield Entry("word", written(line.tokens[:-1]), tuple(self.polys(line)), frozenset(line.with_role("map")))
        elif line and word in ("assume", "claim"):
            yield Entry(word, written(line.tokens[1:-1]), tuple(self.polys(line)), frozenset(line.with_role("map")))
        elif line and word not in ("object", "map", "language", "eliminate"):
            yield Entry("kept", written(line.tokens[:-1]))

    def polys(self, line: Line) -> List[Named]:
        """The equations of a line, left minus right."""
        return [named(self.problem, Line(tokens, self.problem).equation()) for tokens in self.problem.equations(line)]

    # ---- Words

    def find_words(self, kind: str) -> None:
        """Puts words in the place of their equations, those of more first; of claims, of two or more that stand together."""
        for word in sorted(table(), key=lambda word: -len(equations(word, 1))):
            has_index = any(mark.has_parameter for node in self.parts(word) for mark in node.marks)
            is_left_out = word.opening()[0] in LEFT_OUT or (kind == "claim" and len(equations(word, 1)) < 2)
            unknown = {name for pair in equations(word, 1) for side in pair for name, _ in side or ()} - set(word.parameters())
            for index in [] if is_left_out or unknown else INDICES if has_index else [0]:
                while self.put_word(word, index, kind):
                    pass

    def parts(self, word: Word) -> Iterator[Node]:
        """The parts of the equations of a word."""
        for item in word.items:
            for side in item.sides if isinstance(item, Equation) else ():
                yield from nodes(side)

    def put_word(self, word: Word, index: int, kind: str) -> bool:
        """Puts one use of a word in the place of the first of its equations; false where there is none."""
        polys = [(poly, number) for number, entry in enumerate(self.entries) for poly in entry.polys if self.may_hold(word, entry, kind)]
        ways = self.matcher.find(word, index, [poly for poly, _ in polys])
        for found, places in sorted(ways, key=lambda way: [self.problem.numbers[name] for name in way[0].maps.values()]):
            numbers = sorted({polys[place][1] for place in places})
            is_whole = len(places) == sum(len(self.entries[number].polys) for number in numbers)
            is_same = len(numbers) == 1 and self.entries[numbers[0]].kind == "word"
            is_together = kind == "assume" or numbers == list(range(numbers[0], numbers[0] + len(numbers)))
            if is_whole and not is_same and is_together:
                made = tuple(poly for number in numbers for poly in self.entries[number].polys)
                text = found.text() if kind == "assume" else f"claim {found.text()}"
                self.entries[numbers[0]] = Entry("word" if kind == "assume" else "said", text, made, frozenset(found.maps.values()))
                for number in reversed(numbers[1:]):
                    del self.entries[number]
                return True
        return False

    @staticmethod
    def may_hold(word: Word, entry: Entry, kind: str) -> bool:
        """Whether an entry may become a part of a word: words of the language do where they stay words."""
        stays = any(isinstance(item, Use) and entry.text.split()[0] in item.word.opening() for item in word.items)
        return entry.kind == kind or (kind == "assume" and entry.kind == "word" and stays)

    def join_pairs(self) -> None:
        """Puts one use of a word of pairs in the place of those of all pairs of some maps."""
        for word in (word for word in table() if word.is_many and len(word.parameters()) == 2):
            pairs = {}
            for number, entry in enumerate(self.entries):
                if entry.kind == "word" and entry.text.split()[: len(word.opening())] == word.opening():
                    pairs[entry.maps] = number
            for first in list(pairs):
                clique = set(first) if first in pairs else set()
                for name in self.maps() if clique else ():
                    if name not in clique and all(frozenset([name, other]) in pairs for other in clique):
                        clique.add(name)
                numbers = sorted(pairs.pop(frozenset(pair)) for pair in combinations(clique, 2))
                if len(numbers) > 1:
                    text = " ".join([*word.opening(), *(name for name in self.maps() if name in clique)])
                    polys = tuple(poly for number in numbers for poly in self.entries[number].polys)
                    self.entries[numbers[0]] = Entry("word", text, polys, frozenset(clique))
                    for number in numbers[1:]:
                        self.entries[number] = Entry("joined", "")
        self.entries = [entry for entry in self.entries if entry.kind != "joined"]

    # ---- Definitions

    def find_definitions(self) -> None:
        """Finds equations that say what a map is, which nothing above has."""
        above: Set[str] = set()
        for number, entry in enumerate(self.entries):
            if entry.kind == "assume":
                sides = entry.text.split(" = ")
                for name, value in (sides, sides[::-1]) if len(sides) == 2 else ():
                    if self.is_definition(name, entry, value, above):
                        self.defined.add(name)
                        self.entries[number] = Entry("define", f"define {name} = {value}", entry.polys, entry.maps)
                        break
            above |= entry.maps if entry.kind in ("assume", "word") else set()

    def is_definition(self, name: str, entry: Entry, value: str, above: Set[str]) -> bool:
        """Whether an equation says what a map is."""
        (poly,) = entry.polys
        others = [word for word, _ in poly if word != (name,)]
        letters = {letter for word in others for letter in word}
        is_alone = name in entry.maps and len(others) < len(poly) and not {name, f"{name}'"} & letters
        is_value = len(others) > 1 or any(len(word) > 1 for word in others)
        return is_alone and is_value and name not in above and (not self.eliminated or name in self.eliminated)

    # ---- Text

    def shorter(self) -> None:
        """Puts chains in the place of equations, and one line in the place of uses of one word."""
        found: List[Entry] = []
        for entry in self.entries:
            last = found[-1] if found else Entry("", "")
            text = self.joined(last.text, entry.text) if entry.kind == last.kind == "word" else ""
            sides = entry.text.split(" = ")
            if entry.kind == last.kind and entry.kind in ("assume", "claim") and last.text.split(" = ")[-1] == sides[0] != "0":
                text = " = ".join([last.text, *sides[1:]])
            if text and len(text) <= WIDTH:
                found[-1] = Entry(entry.kind, text, last.polys + entry.polys, last.maps | entry.maps)
            else:
                found.append(entry)
        self.entries = found

    @staticmethod
    def joined(last: str, use: str) -> str:
        """A line with uses of a word, and one more use of this word, or nothing where it is another."""
        words = sorted(table(), key=lambda word: -len(word.opening()))
        word = next(word for word in words if use.split()[: len(word.opening())] == word.opening())
        opening = " ".join(word.opening())
        if not last.startswith(f"{opening} ") or last.split(", ")[-1].split()[: len(word.opening())] != word.opening():
            return ""
        return f"{last} {use[len(opening) + 1 :]}" if word.is_many and len(word.head) == len(word.opening()) + 1 else f"{last}, {use}"

    def text(self, shown: Sequence[str], is_plain: bool) -> str:
        """The file, with the signatures of these maps, and with identities as they were, or `1`."""
        lines = [(f"{entry.kind} " if entry.kind in ("assume", "claim") else "") + entry.text for entry in self.entries]
        lines = [line if line[0] == "#" or is_plain else ones(line) for line in lines]
        first = next((number for number, entry in enumerate(self.entries) if entry.kind != "comment"), 0)
        rest = [name for name in self.eliminated if name not in self.defined]
        lines += [f"eliminate {' '.join(rest)}"] if rest else ["order degree"] * (self.keeps_order and self.defined != set())
        return "\n".join(lines[:first] + self.signatures(shown) + lines[first:]) + "\n"

    def signatures(self, shown: Sequence[str]) -> List[str]:
        """Lines with the signatures of maps."""
        parts = []
        for ends, names in groupby(shown, key=self.ends):
            parts.append(f"{' '.join(names)} : {ends}")
        lines: List[str] = []
        for part in parts:
            if lines and len(lines[-1]) + len(part) + 2 <= WIDTH:
                lines[-1] += f", {part}"
            else:
                lines.append(part)
        return lines

    def ends(self, name: str) -> str:
        """What stands behind the colon of a signature."""
        source, target = (self.problem.names[end][1:-1] for end in self.problem.ends[self.problem.numbers[name]])
        return f"{source} -> {target}" + " self" * (name in self.matcher.own)

    def maps(self) -> List[str]:
        """The declared maps, in their order."""
        names = self.problem.names
        return [name for letter, name in enumerate(names) if name[0] != "[" and letter <= self.problem.stars[letter]]

    def written(self) -> str:
        """The shortest text that expands to what the statement says."""
        self.find_words("assume")
        self.join_pairs()
        self.find_definitions()
        self.find_words("claim")
        self.shorter()
        said = {name for entry in self.entries if entry.kind == "word" for name in entry.maps} | self.defined
        named = {name for entry in self.entries for name in (*entry.maps, *entry.text.split())}
        idle = {name for name in self.maps() if name not in named}
        for is_plain in (False, True):
            for left_out in [idle, idle - idle]:
                shown = [name for name in self.maps() if name not in left_out and (name not in said or name in idle | self.matcher.own)]
                text = self.declared(shown, left_out, is_plain)
                if text:
                    return text
        raise Refusal("# not written in the notation: a map is named `if` or `with`")

    def declared(self, shown: List[str], left_out: Set[str], is_plain: bool) -> str:
        """The text with the signatures of these maps, and of as many more, but for those left out, as it needs; empty where none do."""
        while True:
            text = self.text(shown, is_plain)
            different = self.different(text)
            if not different:
                return text
            more = [name for name in self.maps() if name in different and name not in shown and name not in left_out]
            if not more:
                return ""
            shown = [name for name in self.maps() if name in shown or name == more[0]]

    def different(self, text: str) -> Set[str]:
        """Maps whose ends the text changes; all of them where it changes their order or can't be read; an empty name where it changes
        something else; none where it says the same."""
        try:
            other = Problem(Expansion("", text.encode()).statements()[0].text.encode())
        except Refusal:
            return {*self.maps(), ""}
        common = [name for name in self.maps() if name in other.numbers]
        found = {name for name in common if signature_of(other, name) != signature_of(self.problem, name)}
        if not found and common != [name for name in other.names if name in common]:  # letters have another order
            return set(common)
        return found or (set() if says(other) == says(self.problem) and len(other.names) <= len(self.problem.names) else {""})


def signature_of(problem: Problem, name: str) -> Tuple[str, ...]:
    """The ends of a map by the names of their identities."""
    return tuple(problem.names[end] for end in problem.ends[problem.numbers[name]])


def says(problem: Problem) -> Tuple[List[Tuple[Tuple[Tuple[str, ...], int], ...]], ...]:
    """The generators and the claims by names, up to their order and signs."""
    both = (problem.generators(), problem.claims)
    return tuple(sorted(min(tuple(sorted(one)) for one in either(named(problem, poly))) for poly in polys) for polys in both)


def ones(line: str) -> str:
    """A line with `1` for identities that are terms by themselves."""
    return re.sub(r"((?:^(?:assume|claim) |[=+(-]) *)\[[^]]*\](?= *(?:$|[=+)-]))", r"\g<1>1", line)


def main(words: List[str]) -> int:
    """Prints the statement in the notation. The status is 0, or 2 for other words, 3 for a fault, 4 for a file that isn't loaded."""
    made = parser("shorten", __doc__)
    made.add_argument("statement", metavar="STATEMENT", help="a statement")
    made.add_argument("--eliminate", action="store_true", help="put definitions for what they are, unless the statement says an order")
    given = made.parse_args(words)
    return ended(lambda: Shortener(check.loaded([given.statement])[0], given.eliminate).written().split("\n")[:-1])
