"""Places of a theorem in a statement: what is put for its maps so that its assumptions are rows of the statement

A map of a theorem gets a word of maps and adjoints of the statement. Maps that either of them defines by one word, as `m = a b`, are
replaced by it first. A row is an assumption or its adjoint; where all maps of an assumption of the theorem have their words already, or it
has two maps at most, it may be such a row times one map too, or 0. What an assumption of the theorem may be is found once for all theorems
that have it, and joined by the maps that assumptions share. All searches end after a number of steps, so not each place is found.
"""
from __future__ import annotations

from typing import Dict, Iterator, List, NamedTuple, Optional, Sequence, Set, Tuple

from opprove.checkers.check import Poly, Problem, Signature
from opprove.translations.chain import Reader
from opprove.translations.shorten_chain import coded

LETTERS = 3  # of a word for a map
FREE = 2  # maps of an assumption that may be a row times a map before they have words
SOLVED, JOINED, FOUND = 20_000, 4_000, 60  # steps for an assumption and for a theorem; places that are taken
Sum = Dict[str, int]  # by words with a character for each letter
Terms = Tuple[Tuple[str, int], ...]
Binding = Dict[str, str]  # words by letters; that of an adjoint isn't in it


class Row(NamedTuple):
    """A sum that is 0, with its ends."""

    ends: Signature
    poly: Sum


def normal(poly: Sum) -> Terms:
    """The same for a sum and minus it."""
    terms = sorted(poly.items())
    return tuple((word, -value) for word, value in terms) if terms and terms[0][1] < 0 else tuple(terms)


def shape(poly: Sum) -> Tuple[int, ...]:
    """The coefficients without signs: sums of other shapes are other ones."""
    return tuple(sorted(abs(value) for value in poly.values()))


class Language:
    """The letters of a statement, its assumptions, and its definitions by one word, which are put in the place of what they define."""

    def __init__(self, text: str) -> None:
        reader = self.reader = Reader(Problem(text.encode()), 0)
        problem = self.problem = reader.problem
        self.stars = str.maketrans({chr(letter): chr(star) for letter, star in enumerate(problem.stars)})
        self.ends = {chr(letter): ends for letter, ends in enumerate(problem.ends)}
        self.maps = [chr(letter) for letter in range(len(problem.names)) if letter not in reader.units]
        self.is_self = {letter for letter in self.maps if self.star(letter) == letter}
        count = len(reader.assumptions)
        found = [Row(ends, self.sum(poly)) for ends, poly in zip(reader.ends[:count], reader.generators) if ends and poly]
        self.defined: Binding = {}
        self.rows = [row for row in map(self.undefined, found) if row.poly]

    def sum(self, poly: Poly) -> Sum:
        return {coded(word): value for word, value in poly.items()}

    def star(self, word: str) -> str:
        return word[::-1].translate(self.stars)

    def plain(self, letter: str) -> str:
        """The letter itself, or the one whose adjoint it is."""
        return min(letter, self.star(letter))

    def undefined(self, row: Row) -> Row:
        """A row without the letters that are defined so far; where it defines one more, that is kept, and the row is 0."""
        row = Row(row.ends, self.expanded(row.poly))
        for word, value in row.poly.items() if len(row.poly) == 2 else ():
            other = next(other for other in row.poly if other != word)
            letters = {self.plain(letter) for letter in other}
            if len(word) == 1 and other and value == -row.poly[other] and abs(value) == 1 and self.plain(word) not in letters | self.is_self:
                made = {self.plain(word): other if word == self.plain(word) else self.star(other)}
                self.defined = {letter: image_of(self, made, one) for letter, one in self.defined.items()}
                self.defined.update(made)
                return Row(row.ends, {})
        return row

    def expanded(self, poly: Sum) -> Sum:
        return image(self, self.defined, poly) if self.defined else poly


def image_of(language: Language, binding: Binding, word: str, star: Optional[Language] = None) -> str:
    """A word with words in the place of letters, those of another language where that is given; letters that have none are left."""
    found = []
    for letter in word:
        plain = language.plain(letter)
        other = binding.get(plain)
        found.append(letter if other is None else other if plain == letter else (star or language).star(other))
    return "".join(found)


def image(language: Language, binding: Binding, poly: Sum, star: Optional[Language] = None) -> Sum:
    total: Sum = {}
    for word, value in poly.items():
        made = image_of(language, binding, word, star)
        total[made] = total.get(made, 0) + value
    return {word: value for word, value in total.items() if value}


# ---- A statement in which places are looked for


class Pattern(NamedTuple):
    """An assumption with its letters by numbers: equal ones have the same places."""

    terms: Tuple[Tuple[Tuple[Tuple[int, bool], ...], int], ...]  # letters, and whether they are adjoints
    is_self: Tuple[bool, ...]


class Text(Language):
    """A statement: its rows and adjoints, and these times one map."""

    def __init__(self, text: str) -> None:
        super().__init__(text)
        self.is_starred = self.problem.is_starred
        rows = [*self.rows]
        if self.is_starred:
            rows += [Row(row.ends[::-1], {self.star(word): value for word, value in row.poly.items()}) for row in self.rows]
        self.exact: Dict[Tuple[int, ...], List[Sum]] = {}
        self.times: Dict[Tuple[int, ...], List[Sum]] = {}
        self.follows: Set[Terms] = set()
        self.note(rows, self.exact)
        self.note([more for row in rows for more in self.products(row)], self.times)
        self.solved: Dict[Pattern, List[Tuple[str, ...]]] = {}

    def note(self, rows: Sequence[Row], table: Dict[Tuple[int, ...], List[Sum]]) -> None:
        for row in rows:
            terms = normal(row.poly)
            if terms not in self.follows:
                self.follows.add(terms)
                table.setdefault(shape(row.poly), []).append(row.poly)

    def products(self, row: Row) -> Iterator[Row]:
        """A row times a map, on either side."""
        for letter in self.maps:
            (source, target), plain = self.ends[letter], self.plain(letter)
            if plain in self.defined or (plain != letter and not self.is_starred):
                continue
            if source == row.ends[1]:
                yield Row((row.ends[0], target), {letter + word: value for word, value in row.poly.items()})
            if target == row.ends[0]:
                yield Row((source, row.ends[1]), {word + letter: value for word, value in row.poly.items()})

    def is_known(self, poly: Sum) -> bool:
        """Whether a sum is 0, or one of the rows."""
        return not poly or normal(poly) in self.follows

    def places(self, pattern: Pattern) -> List[Tuple[str, ...]]:
        """The words for the letters of a pattern with which it is a row."""
        if pattern not in self.solved:
            self.solved[pattern] = list(Matching(self, pattern).found())
        return self.solved[pattern]

    def spelled(self, poly: Sum, ends: Signature) -> str:
        """A sum as an expression of the language."""
        texts = [f"{'-' if value < 0 else '+'} {f'{abs(value)} ' * (abs(value) > 1)}{self.word(word, ends)}" for word, value in poly.items()]
        return " ".join(texts)[2 if texts[0][0] == "+" else 0 :]

    def word(self, word: str, ends: Signature) -> str:
        return self.problem.text(tuple(map(ord, word))) if word else self.problem.names[ends[0]]

    def word_ends(self, word: str) -> Signature:
        return self.ends[word[-1]][0], self.ends[word[0]][1]


class Matching:
    """The rows that an assumption may be."""

    def __init__(self, text: Text, pattern: Pattern) -> None:
        self.text, self.pattern, self.steps = text, pattern, 0

    def found(self) -> Iterator[Tuple[str, ...]]:
        pattern, seen = self.pattern, set()
        key = tuple(sorted(abs(value) for _, value in pattern.terms))
        rows = self.text.exact.get(key, []) + (self.text.times.get(key, []) if len(pattern.is_self) <= FREE else [])
        wanted = sorted(len(word) for word, _ in pattern.terms)
        for row in rows:
            lengths = sorted(map(len, row))
            if all(least <= length <= LETTERS * least for least, length in zip(wanted, lengths)):
                for sign in (1, -1):
                    for made in self.matched(0, {word: sign * value for word, value in row.items()}, {}):
                        words = tuple(made[number] for number in range(len(pattern.is_self)))
                        if words not in seen:
                            seen.add(words)
                            yield words

    def matched(self, number: int, left: Sum, made: Dict[int, str]) -> Iterator[Dict[int, str]]:
        """The words with which terms from this number on are those that are left."""
        if number == len(self.pattern.terms):
            yield made
            return
        word, value = self.pattern.terms[number]
        for target in [target for target, other in left.items() if other == value and len(word) <= len(target) <= LETTERS * len(word)]:
            rest = {other: count for other, count in left.items() if other != target}
            for more in self.words(word, target, made):
                yield from self.matched(number + 1, rest, more)

    def words(self, word: Tuple[Tuple[int, bool], ...], target: str, made: Dict[int, str]) -> Iterator[Dict[int, str]]:
        """The words with which a word is another one."""
        self.steps += 1
        if not word or not target or self.steps > SOLVED:
            if not word and not target:
                yield made
            return
        (letter, is_star), star = word[0], self.text.star
        known = made.get(letter)
        if known is not None:
            known = star(known) if is_star else known
            if target.startswith(known):
                yield from self.words(word[1:], target[len(known) :], made)
            return
        for count in range(1, min(LETTERS, len(target) - len(word) + 1) + 1):
            found = star(target[:count]) if is_star else target[:count]
            if not self.pattern.is_self[letter] or self.text.is_known(difference(star(found), found)):
                yield from self.words(word[1:], target[count:], {**made, letter: found})


def difference(one: str, other: str) -> Sum:
    return {} if one == other else {one: 1, other: -1}


# ---- A theorem


class Theorem(Language):
    """A theorem whose places are looked for: its assumptions with their letters, and its claims by their numbers."""

    def __init__(self, text: str, numbers: Sequence[int]) -> None:
        super().__init__(text)
        self.conditions = list(dict.fromkeys(map(self.pattern, self.rows)))
        self.bound = {letter for _, letters in self.conditions for letter in letters}
        self.claims: Dict[int, Row] = {}
        for number in numbers:
            claim = self.reader.claims[number - 1]
            poly = self.sum(claim.left)
            for word, value in self.sum(claim.right).items():
                poly[word] = poly.get(word, 0) - value
            made = self.expanded({word: value for word, value in poly.items() if value})
            letters = {self.plain(letter) for word in made for letter in word}
            if letters and letters <= self.bound and {*claim.ends} <= {end for letter in self.bound for end in self.ends[letter]}:
                self.claims[number] = Row(claim.ends, made)

    def pattern(self, row: Row) -> Tuple[Pattern, Tuple[str, ...]]:
        """A row with its letters by numbers, and these letters."""
        numbers: Dict[str, int] = {}
        terms = []
        for word, value in sorted(row.poly.items(), key=lambda term: -len(term[0])):
            letters = [(numbers.setdefault(self.plain(letter), len(numbers)), letter != self.plain(letter)) for letter in word]
            terms.append((tuple(letters), value))
        return Pattern(tuple(terms), tuple(letter in self.is_self for letter in numbers)), tuple(numbers)

class Places:
    """The places of a theorem in a text."""

    def __init__(self, theorem: Theorem, text: Text) -> None:
        self.theorem, self.text, self.steps = theorem, text, 0
        self.tables: Dict[Tuple[int, Tuple[int, ...]], Dict[Tuple[str, ...], List[Tuple[str, ...]]]] = {}

    def found(self) -> Iterator[Binding]:
        """The words for all maps of the theorem, those that it defines too."""
        theorem, text = self.theorem, self.text
        if not theorem.claims or (theorem.problem.is_starred and not text.is_starred):
            return
        conditions = list(range(len(theorem.conditions)))
        if any(not self.solutions(number) and len(theorem.conditions[number][1]) < 2 for number in conditions):
            return
        for count, binding in enumerate(self.met(conditions, {})):
            yield {**binding, **{letter: image_of(theorem, binding, word, text) for letter, word in theorem.defined.items()}}
            if count + 1 == FOUND:
                return

    def solutions(self, number: int) -> List[Tuple[str, ...]]:
        return self.text.places(self.theorem.conditions[number][0])

    def met(self, left: List[int], binding: Binding) -> Iterator[Binding]:
        """The words that go on with these, with which the conditions that are left are met."""
        self.steps += 1
        if self.steps > JOINED:
            return
        theorem = self.theorem
        if not left:
            if self.has_objects(binding):
                yield binding
            return
        unknown = {number: [letter for letter in theorem.conditions[number][1] if letter not in binding] for number in left}
        bound = [number for number in left if not unknown[number]]
        if bound:
            if all(self.is_met(number, binding) for number in bound):
                yield from self.met([number for number in left if unknown[number]], binding)
            return
        ways = {number: self.ways(number, binding) for number in left}
        number = min(left, key=lambda number: (len(ways[number]), len(unknown[number])))
        letters = theorem.conditions[number][1]
        for words in ways[number]:
            yield from self.met([other for other in left if other != number], {**binding, **dict(zip(letters, words))})

    def is_met(self, number: int, binding: Binding) -> bool:
        pattern, letters = self.theorem.conditions[number]
        poly: Sum = {}
        for word, value in pattern.terms:
            made = "".join(self.text.star(binding[letters[letter]]) if is_star else binding[letters[letter]] for letter, is_star in word)
            poly[made] = poly.get(made, 0) + value
        return self.text.is_known({word: value for word, value in poly.items() if value})

    def ways(self, number: int, binding: Binding) -> List[Tuple[str, ...]]:
        """The words for a condition's letters that have those of the binding."""
        letters = self.theorem.conditions[number][1]
        known = tuple(place for place, letter in enumerate(letters) if letter in binding)
        table = self.tables.get((number, known))
        if table is None:
            table = self.tables[number, known] = {}
            for words in self.solutions(number):
                table.setdefault(tuple(words[place] for place in known), []).append(words)
        return table.get(tuple(binding[letters[place]] for place in known), [])

    def has_objects(self, binding: Binding) -> bool:
        """Whether the ends of the words say one object for each of the theorem."""
        objects: Dict[int, int] = {}
        for letter, word in binding.items():
            for end, other in zip(self.theorem.ends[letter], self.text.word_ends(word)):
                if objects.setdefault(end, other) != other:
                    return False
        return True


# ---- What is said at a place


def objects_of(theorem: Theorem, text: Text, binding: Binding) -> Dict[int, int]:
    """The objects of the statement in the place of those of the theorem."""
    found: Dict[int, int] = {}
    for letter, word in binding.items():
        found.update(zip(theorem.ends[letter], text.word_ends(word)))
    return found


def said(theorem: Theorem, text: Text, binding: Binding) -> Dict[int, Row]:
    """What the theorem says there, by the numbers of its claims, but for what is 0 or a row."""
    objects = objects_of(theorem, text, binding)
    made = {number: (claim, image(theorem, binding, claim.poly, text)) for number, claim in theorem.claims.items()}
    return {number: placed(claim, poly, objects) for number, (claim, poly) in made.items() if not text.is_known(poly)}


def placed(row: Row, poly: Sum, objects: Dict[int, int]) -> Row:
    return Row((objects[row.ends[0]], objects[row.ends[1]]), poly)


def assumed(theorem: Theorem, text: Text, binding: Binding) -> List[Row]:
    """What the theorem assumes there, and that what its own adjoint is has words that are: what isn't 0 of that."""
    objects, reader = objects_of(theorem, text, binding), theorem.reader
    sums = zip(reader.ends, reader.generators[: len(reader.assumptions)])
    rows = [Row(ends, theorem.sum(poly)) for ends, poly in sums if ends]
    found = [placed(row, image(theorem, binding, row.poly, text), objects) for row in rows]
    words = [word for letter, word in binding.items() if letter in theorem.is_self]
    found += [Row(text.word_ends(word), difference(text.star(word), word)) for word in words]
    return [row for row in found if row.poly]
