"""Shorter chains: fewer rows that add up to the same

A chain has a step for each row. Around the words of the rows that are known lie others, and from one to another lead many steps: each
equation at each of its places. Of all these the least sum that leads from one side to the other is taken, by least_sum.py: what it
leaves out are detours, loops, and terms that are put in and cancel later. Long chains are made shorter piece by piece first. A lemma is
left out where the rest is shorter without it. What is found is added up, and its length is no more than what was known.
"""
from __future__ import annotations

from collections import Counter
from typing import Callable, Dict, Iterable, Iterator, List, Mapping, NamedTuple, Optional, Sequence, Set, Tuple

from opprove.checkers.check import Poly, Row, Signature, Word
from opprove.translations.least_sum import Effort, least

Sum = Dict[str, int]  # words are texts of one sign a letter, in which places are found fast


class Place(NamedTuple):
    """An equation between two words, by its number."""

    number: int
    left: str
    right: str


Steps = Dict[Place, int]  # how many times each equation is taken at a place
Step = Tuple[Place, Sum]  # with what stands there
Sides = Dict[int, Dict[str, List[int]]]  # words by their lengths, with the equations of which they are a side


def coded(word: Word) -> str:
    return "".join(map(chr, word))


def steps_of(rows: Sequence[Row], generators: int) -> Steps:
    """The steps that rows are, where so many generators come before lemmas."""
    places = (Place(row.number - 1 + row.is_lemma * generators, coded(row.left), coded(row.right)) for row in rows)
    return together(zip(places, (row.coefficient for row in rows)))


def rows_of(steps: Steps, generators: int) -> List[Row]:
    found = []
    for place, factor in steps.items():
        is_lemma = place.number >= generators
        number = place.number + 1 - generators * is_lemma
        found.append(Row(factor, tuple(map(ord, place.left)), is_lemma, number, tuple(map(ord, place.right))))
    return found


def words_of(values: Iterable[Mapping[str, int]]) -> Set[str]:
    return {word for value in values for word in value}


def together(steps: Iterable[Tuple[Place, int]]) -> Steps:
    """Steps of which some may be at one place."""
    total: Steps = {}
    for place, factor in steps:
        total[place] = total.get(place, 0) + factor
    return {place: factor for place, factor in total.items() if factor}


class Equations:
    """Polynomials that are 0, with their ends, and where they stand in words."""

    def __init__(self, ends_of_letters: Sequence[Signature]) -> None:
        self.polys: List[Sum] = []
        self.ends: List[Optional[Signature]] = []
        self.sides: Sides = {}
        self.longest: Sides = {}  # one side of each
        self.of_letters = {chr(letter): ends for letter, ends in enumerate(ends_of_letters)}
        self.found: Dict[Tuple[str, Signature, bool], List[Step]] = {}

    def append(self, poly: Poly, ends: Optional[Signature]) -> None:
        number, made = len(self.polys), {coded(word): value for word, value in poly.items()}
        self.polys.append(made)
        self.ends.append(ends)
        by_length = sorted(made, key=lambda word: (len(word), word))
        for table, words in ((self.sides, by_length), (self.longest, by_length[-1:])):
            for word in words:
                table.setdefault(len(word), {}).setdefault(word, []).append(number)

    def value(self, place: Place) -> Sum:
        return {place.left + word + place.right: value for word, value in self.polys[place.number].items()}

    def total(self, steps: Steps) -> Sum:
        """What steps add up to."""
        total: Sum = {}
        for place, factor in steps.items():
            for word, value in self.value(place).items():
                total[word] = total.get(word, 0) + factor * value
        return {word: value for word, value in total.items() if value}

    def steps(self, word: str, signature: Signature, is_longest: bool, effort: Effort) -> List[Step]:
        """Where equations have a side, or their longest one, in a word with these ends. They are looked for once."""
        key = word, signature, is_longest
        if key not in self.found:
            places = self.places(word, self.longest if is_longest else self.sides, signature)
            found = self.found[key] = [(place, self.value(place)) for place in places]
            effort.spend(len(word) * len(self.sides) + LOOK * len(found))
        effort.spend(1 + len(self.found[key]))
        return self.found[key]

    def places(self, word: str, table: Sides, signature: Signature) -> Iterator[Place]:
        for length, sides in table.items():
            for cut in range(len(word) - length + 1):
                for number in sides.get(word[cut : cut + length], ()):
                    if length or self.ends_at(word, cut, signature) == self.ends[number]:
                        yield Place(number, word[:cut], word[cut + length :])

    def ends_at(self, word: str, cut: int, signature: Signature) -> Signature:
        """Of the identity at a place of a word."""
        end = self.of_letters[word[cut - 1]][0] if cut else signature[1]
        return end, end


# How many words more are looked at in a round, and how many steps these may be away.
FIRST, LATER = [(0, 0), (100, 1)], [(300, 1), (200, 2)]
WINDOW, OF_WINDOWS = 24, [(0, 0), (60, 1)]  # steps of a piece of a long chain
LETTERS, TIMES = 500, 100  # of a word of evidence; that count for one that is known to be taken several times
FAR, NEAR = 2, 2  # letters more than the longest known word has; by how many times more words are looked through
LOOK = 4  # numbers that count as looked at for a place
GAIN = 1e-6


class Search:
    """Looks for fewer steps with a sum, by equations with these numbers. Words have these ends."""

    def __init__(self, equations: Equations, numbers: Set[int], signature: Signature, effort: Effort) -> None:
        self.equations, self.numbers, self.signature, self.effort = equations, numbers, signature, effort

    def cost(self, place: Place) -> float:
        """1, and a little more for long words."""
        letters = sum(map(len, self.equations.value(place)))
        return 1 + 0.05 * letters / (letters + 100)

    def length(self, steps: Steps) -> Tuple[int, float]:
        return len(steps), sum(map(self.cost, steps)) + GAIN

    def within(self, words: Set[str]) -> List[Step]:
        """The steps all of whose words are among these."""
        equations, numbers, found = self.equations, self.numbers, []
        for word in words:
            steps = equations.steps(word, self.signature, True, self.effort)
            found += [step for step in steps if step[0].number in numbers and words.issuperset(step[1])]
        return sorted(found, key=lambda step: step[0])

    def around(self, words: Set[str], most: int) -> Set[str]:
        """Words that a step leads to from these and another one on, first those that several lead to, then the shortest ones: no more
        than so many."""
        longest = min(max(map(len, words), default=0) + FAR, LETTERS)
        counts: Counter[str] = Counter()
        steps = {place: value for word in words for place, value in self.equations.steps(word, self.signature, False, self.effort)}
        for place, value in steps.items():
            others = value.keys() - words if place.number in self.numbers else ()
            if all(len(other) <= longest for other in others):
                counts.update(others)
        self.effort.spend(LOOK * len(steps))
        near = sorted(counts, key=lambda word: (counts[word] == 1, len(word), word))[: NEAR * most]
        passed = self.passed(words, set(near))
        return set([word for word in near if word in passed][:most])

    def passed(self, words: Set[str], others: Set[str]) -> Set[str]:
        """Those of the others that lie between two steps within all these."""
        values = [value for _, value in self.within(words | others)]
        while True:
            counts = Counter(word for value in values for word in value)
            self.effort.spend(LOOK * len(values))
            ends = {word for word in others if counts[word] < 2}
            if not ends:
                return others
            others = others - ends
            values = [value for value in values if ends.isdisjoint(value)]

    def least(self, words: Set[str], target: Sum, known: Steps) -> Optional[Steps]:
        """The steps within these words with the least sum of costs, where each is taken a whole number of times. One that is known
        to be taken several times costs no more than one taken once."""
        steps = self.within(words)
        costs = [self.cost(place) / min(abs(known.get(place, 1)), TIMES) for place, _ in steps]
        found = least([value for _, value in steps], costs, target, self.effort)
        made = {steps[number][0]: round(value) for number, value in (found or {}).items()}
        return made if found is not None and self.equations.total(made) == target else None

    def shorter(self, known: Steps, rounds: Sequence[Tuple[int, int]]) -> Steps:
        """Fewer steps with the same sum as those that are known, or shorter ones, or these."""
        target, best = self.equations.total(known), known
        for most, depth in rounds:
            while self.effort.left > 0:
                words = words_of([target, *map(self.equations.value, best)])
                for _ in range(depth):
                    words |= self.around(words, most)
                found = self.least(words, target, best)
                if found is None or self.length(found) >= self.length(best):
                    break
                best = found
        return best

    def by_pieces(self, known: Steps) -> Steps:
        """The same, by pieces of the steps in their order."""
        steps, length = list(known.items()), len(known) + 1
        while self.effort.left > 0 and len(steps) < length and len(steps) > WINDOW:
            length = len(steps)
            for start in range(0, length, WINDOW // 2):
                steps[start : start + WINDOW] = self.shorter(together(steps[start : start + WINDOW]), OF_WINDOWS).items()
            steps = list(together(steps).items())
        return dict(steps)

    def first(self, known: Steps) -> Steps:
        """What is found at once."""
        return self.shorter(self.by_pieces(known), FIRST)

    def later(self, known: Steps) -> Steps:
        """What is found farther away."""
        return self.shorter(known, LATER) if len(known) > 2 else known


class Item(NamedTuple):
    """A lemma or the goal: its steps add up to the scale times its polynomial. Steps are none where it isn't proved by steps."""

    ends: Signature
    scale: int
    steps: Optional[Steps]


def steps_in(items: Sequence[Item], numbers: Iterable[int]) -> int:
    return sum(len(items[number].steps or ()) for number in numbers)


class Shortener:
    """Makes the items of a proof shorter. The equations are generators, of which there are so many, and then the items."""

    def __init__(self, equations: Equations, generators: int, items: List[Item], kept: Iterable[int], effort: Effort) -> None:
        self.equations, self.generators, self.items, self.effort = equations, generators, items, effort
        self.kept = set(kept)  # items on which something else than steps stands

    def shortened(self) -> List[Item]:
        numbers = range(len(self.items) - 1, -1, -1)
        for number in numbers:
            self.take(number, self.search(number).first)
        for lemma in numbers[1:]:
            self.leave_out(lemma)
        for number in numbers:
            self.take(number, self.search(number).later)
        return self.items

    def take(self, number: int, made: Callable[[Steps], Steps], steps: Optional[Steps] = None) -> None:
        """Takes for an item what is made of its steps, or of these."""
        steps = self.items[number].steps if steps is None else steps
        self.items[number] = self.items[number]._replace(steps=made(steps) if steps else steps)

    def search(self, number: int, without: int = -1) -> Search:
        """For an item, by generators and the lemmas before it that are used."""
        lemmas = [lemma for lemma in range(number) if lemma != without and (lemma in self.kept or self.users(lemma))]
        numbers = {*range(self.generators), *(self.generators + lemma for lemma in lemmas)}
        return Search(self.equations, numbers, self.items[number].ends, self.effort)

    def users(self, lemma: int) -> List[int]:
        """The items that use a lemma."""
        equation = self.generators + lemma
        return [number for number, item in enumerate(self.items) if any(place.number == equation for place in item.steps or ())]

    def leave_out(self, lemma: int) -> None:
        """Leaves a lemma out where there are fewer steps without it."""
        users, steps, before = self.users(lemma), self.items[lemma].steps, list(self.items)
        if lemma in self.kept or not users or steps is None or self.effort.left <= 0:
            return
        for number in users:
            inner = self.written_out(self.items[number].steps or {}, lemma)
            if inner is not None:
                self.take(number, self.search(number, lemma).first, inner)
        if self.users(lemma) or steps_in(self.items, users) > steps_in(before, [lemma, *users]):
            self.items = before

    def written_out(self, steps: Steps, lemma: int) -> Optional[Steps]:
        """Steps with those of the lemma in its place, where its scale allows that."""
        item, made = self.items[lemma], []
        for place, factor in steps.items():
            if place.number != self.generators + lemma:
                made.append((place, factor))
            elif factor % item.scale:
                return None
            else:
                for inner, times in (item.steps or {}).items():
                    at = Place(inner.number, place.left + inner.left, inner.right + place.right)
                    made.append((at, factor // item.scale * times))
        is_long = any(max(len(place.left), len(place.right)) > LETTERS for place, _ in made)
        return None if is_long else together(made)
