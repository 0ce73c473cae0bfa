"""Variants of a statement, for the tool `search`: fewer assumptions, other orders of words, other shapes for models.

A selection takes the assumptions and lemmas that there are, and a goal, and gives some of them, each with its label. An
order takes a selection, and says which maps weigh how much, come first, or stand for their adjoints. Both are small
functions by name; every one of them is free to be wrong, as what a variant finds is written back by join.py and checked.
"""
from __future__ import annotations

import random
from typing import Callable, Dict, FrozenSet, Iterable, Iterator, List, NamedTuple, Optional, Tuple

from opprove.checkers.check import Line, Poly, Token, check_names, fault, lines_of
from opprove.text import Map, StatementText

WEIGHT_LIMIT = 1000
DISTANCES = 3


class Equation(NamedTuple):
    """An assumption, a claim or a lemma."""

    tokens: Tuple[str, ...]
    poly: Poly
    maps: FrozenSet[str]
    is_lemma: bool = False
    pair: FrozenSet[str] = frozenset()  # the maps of the pinv, inverse or inner that says it


class Statement:
    """A statement, taken apart: abbreviations are written out."""

    def __init__(self, path: str) -> None:
        text = StatementText.read(path)
        self.problem = problem = text.problem
        self.text = "".join(f"{line.text}\n" for line in text.lines)
        self.objects, self.maps = text.objects, list(text.maps.values())
        self.assumptions: List[Equation] = []
        self.claims: List[Equation] = []
        self.seconds: List[str] = []  # the second maps of pinv, inverse and inner
        self.others: List[List[str]] = []  # lines of other words: language, order, eliminate, solve, model
        polys = {False: iter(problem.assumptions), True: iter(problem.claims)}
        for line in problem.lines:
            word = line.tokens[0].text
            is_claim = word == "claim"
            equations = [self.equation(tokens, next(polys[is_claim])) for tokens in problem.equations(line)]
            (self.claims if is_claim else self.assumptions).extend(equations)
            if word in ("pinv", "inverse", "inner"):
                pair = line.with_role("map")
                self.seconds.append(pair[1])
                self.assumptions = [one._replace(pair=frozenset(pair)) if one in equations else one for one in self.assumptions]
            if not equations and word not in ("object", "map"):
                self.others.append([token.text for token in line.tokens[:-1]])

    def equation(self, tokens: Iterable[Token], poly: Poly, is_lemma: bool = False) -> Equation:
        texts = tuple(token.text for token in tokens)[1:]
        maps = frozenset(text for text, next_text in zip(texts, texts[1:] + ("",)) if next_text != "]")
        return Equation(texts, poly, frozenset(text for text in maps if text in self.problem.numbers), is_lemma)

    def lemmas(self, path: str) -> List[Equation]:
        """The claims of a file that has nothing but claims about the maps of this statement."""
        lines = [line for line in lines_of(path) if line.roles]  # without the one that names the language
        for line in lines:
            if line.tokens[0].text != "claim":
                raise fault("S3", line.tokens[0])
        check_names(self.problem.lines + lines)
        equations = []
        for line in lines:
            marked, is_starred = set(self.problem.marked), self.problem.is_starred
            equations.append(self.equation(line.tokens, Line(line.tokens, self.problem).equation(), True))
            self.problem.marked, self.problem.is_starred = marked, is_starred
        return equations


# ---- Selections: fewer assumptions


def maps_of(equations: Iterable[Equation]) -> FrozenSet[str]:
    return frozenset(name for equation in equations for name in equation.maps)


def touching(pool: List[Equation], maps: FrozenSet[str]) -> List[Equation]:
    return [equation for equation in pool if equation.maps & maps]


def lemmas(pool: List[Equation], goal: Equation) -> Iterator[Tuple[str, List[Equation]]]:
    """Lemmas alone."""
    yield "", [equation for equation in pool if equation.is_lemma]


def inside(pool: List[Equation], goal: Equation) -> Iterator[Tuple[str, List[Equation]]]:
    """Those all of whose maps are within a distance from the claim's, which is that over shared maps."""
    maps = goal.maps
    for distance in range(DISTANCES):
        yield str(distance), [equation for equation in pool if equation.maps <= maps]
        maps |= maps_of(touching(pool, maps))


def paired(pool: List[Equation], goal: Equation) -> Iterator[Tuple[str, List[Equation]]]:
    """The same, where the two maps of a pinv, an inverse or an inner are as near as either."""
    maps = goal.maps
    for distance in range(DISTANCES):
        for equation in pool:
            maps |= equation.pair if equation.pair & maps else frozenset()
        yield str(distance), [equation for equation in pool if equation.maps <= maps]
        maps |= maps_of(touching(pool, maps))


def near(pool: List[Equation], goal: Equation) -> Iterator[Tuple[str, List[Equation]]]:
    """Those that share a map with the claim; with these; and with these again."""
    maps = goal.maps
    for distance in range(1, DISTANCES + 1):
        chosen = touching(pool, maps)
        yield str(distance), chosen
        maps |= maps_of(chosen)


def light(pool: List[Equation], goal: Equation) -> Iterator[Tuple[str, List[Equation]]]:
    """Those that are the least far, by doubled numbers, where a step over a map that stands in many is a long one."""
    distances = map_distances(pool, goal)
    farness = sorted(
        (max(distances[name] for name in equation.maps), sum(distances[name] for name in equation.maps), place)
        for place, equation in enumerate(pool) if equation.maps and all(name in distances for name in equation.maps)
    )  # fmt: skip
    count = 2
    while count < len(farness):
        last = farness[count - 1][:2]
        places = {place for most, total, place in farness if (most, total) <= last}
        yield str(count), [equation for place, equation in enumerate(pool) if place in places]
        count *= 2


def map_distances(pool: List[Equation], goal: Equation) -> Dict[str, int]:
    """The least sum of weights to each map from those of the goal; a map weighs the number of equations it stands in."""
    weights = {name: sum(name in equation.maps for equation in pool) for name in maps_of(pool)}
    found = {name: 0 for name in goal.maps}
    pending = list(found)
    while pending:
        name = min(pending, key=lambda other: (found[other], other))
        pending.remove(name)
        for other in sorted(maps_of(touching(pool, frozenset([name])))):
            length = found[name] + weights[name]
            if other not in found or length < found[other]:
                found[other] = length
                pending += [] if other in pending else [other]
    return found


def given(pool: List[Equation], goal: Equation) -> Iterator[Tuple[str, List[Equation]]]:
    """The assumptions, without lemmas."""
    yield "", [equation for equation in pool if not equation.is_lemma]


def whole(pool: List[Equation], goal: Equation) -> Iterator[Tuple[str, List[Equation]]]:
    """All assumptions and all lemmas."""
    yield "", pool


Selection = Callable[[List[Equation], Equation], Iterator[Tuple[str, List[Equation]]]]
FEWER: List[Selection] = [lemmas, inside, paired, near, light]
ALL: List[Selection] = [given, whole]


# ---- Orders


class Order(NamedTuple):
    lines: List[str]
    is_backwards: bool = False  # the maps are declared in the other order
    is_starred: bool = False  # the names of maps stand for adjoints, and so are below those of the maps


def weighted(weights: Dict[str, int], names: FrozenSet[str]) -> Optional[Order]:
    """The order by weights, where some map of these has one above 1."""
    pairs = [f"{name} {weight}" for name, weight in sorted(weights.items()) if name in names and weight > 1]
    return Order(["order weight " + " ".join(pairs)]) if pairs else None


def written(statement: Statement, chosen: List[Equation], goal: Equation) -> Order:
    """The order of the file."""
    names = maps_of([*chosen, goal])
    for words in statement.others:
        kept = [name for name in words[1:] if name in names]
        if words[0] == "eliminate" and kept:
            return Order(["eliminate " + " ".join(kept)])
        if words[:2] == ["order", "weight"]:
            weights = dict(zip(words[2::2], map(int, words[3::2])))
            return weighted(weights, names) or Order([])
    return Order([])


def degree(statement: Statement, chosen: List[Equation], goal: Equation) -> Optional[Order]:
    """The canonical one, where the file has another."""
    return Order([]) if any(words[0] == "eliminate" or words[:2] == ["order", "weight"] for words in statement.others) else None


def defined(statement: Statement, chosen: List[Equation], goal: Equation) -> Optional[Order]:
    """Maps that an assumption defines above what it defines them by: x where it says that x = E, with no x in E."""
    return weighted(defined_weights(statement, chosen), maps_of([*chosen, goal]))


def eliminated(statement: Statement, chosen: List[Equation], goal: Equation) -> Optional[Order]:
    """The same by `eliminate`, for a program that reads language 2."""
    weights = defined_weights(statement, chosen)
    names = [name for name in sorted(weights, key=lambda name: -weights[name]) if name in maps_of([*chosen, goal])]
    return Order(["eliminate " + " ".join(names)]) if names else None


def hidden(statement: Statement, chosen: List[Equation], goal: Equation) -> Optional[Order]:
    """Maps that the claim doesn't have above those that it has."""
    names = maps_of(chosen) - goal.maps
    return weighted({name: 4 for name in names}, names)


def shown(statement: Statement, chosen: List[Equation], goal: Equation) -> Optional[Order]:
    """Maps that the claim has above those that it doesn't have."""
    return weighted({name: 4 for name in goal.maps}, goal.maps) if maps_of(chosen) - goal.maps else None


def second(statement: Statement, chosen: List[Equation], goal: Equation) -> Optional[Order]:
    """The second maps of `pinv`, `inverse` and `inner` above the others."""
    return weighted({name: 3 for name in statement.seconds}, maps_of([*chosen, goal]))


def backwards(statement: Statement, chosen: List[Equation], goal: Equation) -> Optional[Order]:
    """The order of the file, with the maps declared from the last to the first."""
    return Order(written(statement, chosen, goal).lines, is_backwards=True)


def adjoints(statement: Statement, chosen: List[Equation], goal: Equation) -> Optional[Order]:
    """The order of the file, with maps above their adjoints."""
    return Order(written(statement, chosen, goal).lines, is_starred=True) if statement.problem.is_starred else None


Ordering = Callable[[Statement, List[Equation], Equation], Optional[Order]]
ORDERS: List[Ordering] = [written, defined, eliminated, hidden, second, shown, adjoints, backwards, degree]
OTHER_NAMES = ["models", "cancellations", "rationals"]  # of what else `search` tries
NAMES = [function.__name__ for function in [*FEWER, *ALL, *ORDERS]] + OTHER_NAMES


def defined_weights(statement: Statement, equations: List[Equation]) -> Dict[str, int]:
    """For each map that is defined one more than the heaviest word it is defined by; definitions make no circle."""
    words: Dict[str, List[List[str]]] = {}
    weights: Dict[str, int] = {}
    for name, others in definitions(statement, equations):
        if name not in words and not reaches(words, others, name):
            words[name] = others
    for name in words:
        weigh(words, weights, name)
    return {name: weight for name, weight in weights.items() if weight <= WEIGHT_LIMIT and name in words}


def definitions(statement: Statement, equations: List[Equation]) -> Iterator[Tuple[str, List[List[str]]]]:
    """Each map that an equation says to be a sum of words of other maps, with these; maps that come later first."""
    names = [name.rstrip("'") for name in statement.problem.names]
    for equation in equations:
        single = [word[0] for word, value in equation.poly.items() if len(word) == 1 and abs(value) == 1]
        for letter in sorted(single, reverse=True):
            others = [[names[other] for other in word] for word in equation.poly if word != (letter,)]
            if names[letter][0] != "[" and all(names[letter] not in word for word in others):
                yield names[letter], others


def reaches(words: Dict[str, List[List[str]]], starts: List[List[str]], name: str) -> bool:
    """Whether the definitions lead from the letters of these words to the map."""
    seen, pending = set(), [letter for word in starts for letter in word]
    while pending:
        letter = pending.pop()
        if letter not in seen:
            seen.add(letter)
            pending += [other for word in words.get(letter, []) for other in word]
    return name in seen


def weigh(words: Dict[str, List[List[str]]], weights: Dict[str, int], name: str) -> int:
    if name not in weights:
        heaviest = max((sum(weigh(words, weights, other) for other in word) for word in words.get(name, [])), default=0)
        weights[name] = heaviest + 1 if name in words else 1
    return weights[name]


# ---- The text of a variant

# Proved by a program that reads language 2, and refused by others.
ELIMINATE = "language 2\nobject V\nmap a b : V -> V\nassume b = a\nclaim b = a\neliminate b\n"


def text_of(statement: Statement, chosen: List[Equation], goals: List[Equation], order: Order) -> str:
    """The statement with these assumptions and these claims, about the maps that they have, or about all maps if the
    assumptions are all there: then its generators are those of the statement, where no lemma adds to them."""
    is_whole = [one for one in chosen if not one.is_lemma] == statement.assumptions
    names = maps_of([*chosen, *goals])
    maps = [one for one in statement.maps if is_whole or one.name in names]
    swapped = {one.name for one in maps if order.is_starred and not one.is_self}
    has_powers = any("^" in one.tokens for one in [*chosen, *goals])
    lines = language(statement, order, has_powers) + ["object " + " ".join(statement.objects)]
    for one in maps[::-1] if order.is_backwards else maps:
        ends = (one.target, one.source) if one.name in swapped else (one.source, one.target)
        lines.append(f"map {one.name} : {ends[0]} -> {ends[1]}" + " self" * one.is_self)
    lines += order.lines
    for equation in chosen:
        lines.append(f"assume {spelled(equation.tokens, swapped)}" + "  # a lemma" * equation.is_lemma)
    lines += relations(statement, [*chosen, *goals], maps, is_whole)
    return "\n".join(lines + [f"claim {spelled(goal.tokens, swapped)}" for goal in goals]) + "\n"


def relations(statement: Statement, equations: List[Equation], maps: List[Map], is_whole: bool) -> Iterator[str]:
    """Assumptions that are zero, so that there are adjoints and, where nothing is left out, all relations of identities."""
    tokens = {token for equation in equations for token in equation.tokens}
    if statement.problem.is_starred and maps and "'" not in tokens and not any(one.is_self for one in maps):
        yield f"assume 0 {maps[0].name}'' = 0"
    for letter in sorted(statement.problem.marked) if is_whole else []:
        yield f"assume 0 {statement.problem.names[letter]} = 0"


def language(statement: Statement, order: Order, has_powers: bool) -> List[str]:
    """The line that names the language of a variant, which is the first one, where it needs one."""
    is_second = any(words[0] == "language" for words in statement.others)
    return ["language 2"] if is_second or has_powers or any(line.startswith("eliminate ") for line in order.lines) else []


def reordered(statement: Statement, order: Order) -> str:
    """The text of the statement with this order in the place of its own."""
    words = ("language", "order", "eliminate")
    lines = [line for line in statement.text.split("\n") if (line.split("#")[0].split() or [""])[0] not in words]
    return "\n".join(language(statement, order, False) + lines) + "\n".join(order.lines) + "\n"


def spelled(tokens: Tuple[str, ...], swapped: Iterable[str]) -> str:
    """The tokens as a text, with the adjoint of each map that is swapped in its place."""
    texts = [f"{token} '" if token in swapped else token for token in tokens]
    text = " ".join(texts)
    for tight, wide in (("(", "( "), (")", " )"), ("[", "[ "), ("]", " ]"), ("'", " '"), ("''", "' '"), ("^", " ^ ")):
        text = text.replace(wide, tight)
    return text.strip()


def letter_names(statement: Statement, order: Order) -> Dict[str, str]:
    """What the letters of a variant of this order are called in the statement, where that is another name."""
    swapped = [one.name for one in statement.maps if order.is_starred and not one.is_self]
    return {**{name: name + "'" for name in swapped}, **{name + "'": name for name in swapped}}


# ---- Shapes for models


def shapes(statement: Statement, level: int) -> List[str]:
    """Four `model` lines, other ones for each level: first with all sides equal, and then with drawn ones."""
    uniform = [(modulus, side) for side in (1, 2, 3) for modulus in (2, 3, 5, 7)]
    draws = random.Random(level)
    lines = []
    for modulus, side in uniform[4 * level : 4 * level + 4] or [(modulus, 0) for modulus in (2, 3, 5, 7)]:
        pairs = [f"{name} {side or draws.choice((1, 2, 3))}" for name in statement.objects]
        lines.append(f"model {modulus} " + " ".join(pairs))
    return lines


def solved(statement: Statement, level: int) -> List[str]:
    """The `solve` line of the file where the level is even, and else one of half of the maps, other ones in turn."""
    names = [one.name for one in statement.maps]
    if level % 2 == 0 or not names:
        return [" ".join(words) for words in statement.others if words[0] == "solve"]
    start = level // 2 % len(names)
    return ["solve " + " ".join(sorted((names + names)[start : start + (len(names) + 1) // 2]))]


def model_text(statement: Statement, number: int, level: int) -> str:
    """The statement with this claim alone, and from level 1 on with these shapes in place of its own."""
    kept, claims = [], 0
    replaced = ("model", "solve") if level else ()
    for text in statement.text.split("\n"):
        word = (text.split("#")[0].split() or [""])[0]
        claims += word == "claim"
        if word not in (*replaced, "claim") or (word == "claim" and claims == number):
            kept.append(text)
    more = solved(statement, level - 1) + shapes(statement, level - 1) if level else []
    return "\n".join(kept + more) + "\n"
