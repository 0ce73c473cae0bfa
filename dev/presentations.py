#!/usr/bin/env python3
"""Prints a statement over a presentation of a monoid, a group or an algebra: presentations.py NAME NUMBER ..

Its claim holds in none of them, or isn't known to, so that `prove` goes on to its last pair unless the rules are closed
before. All maps lead from one object to itself. The names, each with its numbers:

braid STRANDS          the monoid of braids
plactic LETTERS        the plactic monoid, by the relations of Knuth
coxeter ORDER ..       the Coxeter group of a path: of two reflections beside each other the product has that order, and others commute
triangle L M N         the group of rotations of a triangle: x to the L, y to the M and (x y) to the N are 1
fibonacci COUNT        the group in which each letter is the product of the two before it, around a circle; with inverses
quad LETTERS           the commuting polynomials, by sums of commutators: dense rules, two thirds of LETTERS (LETTERS - 1) terms at most
"""
from __future__ import annotations

import itertools
import sys
from typing import Callable, Dict, List, NamedTuple


def named(letter: str, count: int) -> List[str]:
    return [f"{letter}{number}" for number in range(1, count + 1)]


def statement(maps: List[str], lines: List[str], claim: str) -> str:
    return "".join(line + "\n" for line in ["object V", f"map {' '.join(maps)} : V -> V", *lines, f"claim {claim}"])


def alternating(left: str, right: str, length: int) -> str:
    return " ".join([left, right][place % 2] for place in range(length))


def braid(strands: int) -> str:
    maps = named("s", strands - 1)
    lines = [f"assume {two} {one} {two} = {one} {two} {one}" for one, two in zip(maps, maps[1:])]
    lines += [f"assume {two} {one} = {one} {two}" for one, two in itertools.combinations(maps, 2) if two not in maps[: maps.index(one) + 2]]
    return statement(maps, lines, f"{maps[0]} = {maps[-1]}")


def plactic(letters: int) -> str:
    maps = named("p", letters)
    lines = []
    for x, y, z in itertools.combinations_with_replacement(range(letters), 3):
        one, two, three = maps[x], maps[y], maps[z]
        lines += [f"assume {two} {three} {one} = {two} {one} {three}"] if x < y else []
        lines += [f"assume {three} {one} {two} = {one} {three} {two}"] if y < z else []
    return statement(maps, lines, f"{maps[0]} = {maps[1]}")


def coxeter(*orders: int) -> str:
    maps = named("s", len(orders) + 1)
    lines = [f"assume {name} {name} = [V]" for name in maps]
    for (place, one), (other, two) in itertools.combinations(enumerate(maps), 2):
        order = orders[place] if other == place + 1 else 2
        lines.append(f"assume {alternating(two, one, order)} = {alternating(one, two, order)}")
    return statement(maps, lines, f"{maps[0]} = {maps[-1]}")


def triangle(first: int, second: int, third: int) -> str:
    words = [" ".join("x" * first), " ".join("y" * second), " ".join(["x y"] * third)]
    return statement(["x", "y"], [f"assume {word} = [V]" for word in words], "x = y")


def fibonacci(count: int) -> str:
    maps, inverses = named("x", count), named("y", count)
    lines = [f"inverse {one} {other}" for one, other in zip(maps, inverses)]
    lines += [f"assume {maps[place]} {maps[(place + 1) % count]} = {maps[(place + 2) % count]}" for place in range(count)]
    return statement(maps + inverses, lines, "x1 = [V]")


def quad(letters: int) -> str:
    """Each assumption is a commutator with 1, -1 or 0 times every one of lower letters: what is left of the last ones first,
    so that no rule is reduced by those that come after it."""
    maps = named("x", letters)
    commutators = [(one, two) for place, two in enumerate(maps) for one in maps[:place]]  # by their leading words
    lines = []
    for last in reversed(range(len(commutators))):
        signs = [(last * place + last + place * place) % 3 - 1 for place in range(last)] + [1]
        terms = [(sign, *commutators[place]) for place, sign in enumerate(signs) if sign]
        text = " ".join(f"+ {two} {one} - {one} {two}" if sign > 0 else f"- {two} {one} + {one} {two}" for sign, one, two in terms)
        lines.append(f"assume {text} = 0")
    return statement(maps, lines, f"{maps[0]} = {maps[1]}")


class Presentation(NamedTuple):
    text: Callable[..., str]
    counts: range  # of numbers
    numbers: range  # each of them is one of these


PRESENTATIONS: Dict[str, Presentation] = {
    "braid": Presentation(braid, range(1, 2), range(3, 101)),
    "plactic": Presentation(plactic, range(1, 2), range(2, 14)),
    "coxeter": Presentation(coxeter, range(1, 21), range(2, 101)),
    "triangle": Presentation(triangle, range(3, 4), range(1, 101)),
    "fibonacci": Presentation(fibonacci, range(1, 2), range(2, 101)),
    "quad": Presentation(quad, range(1, 2), range(3, 29)),
}


def main(words: List[str]) -> int:
    found = PRESENTATIONS.get(words[0] if words else "")
    numbers = [int(word) for word in words[1:] if word.isdecimal() and len(word) < 4]
    is_whole = len(numbers) == len(words) - 1
    if not found or not is_whole or len(numbers) not in found.counts or any(number not in found.numbers for number in numbers):
        names = " | ".join(PRESENTATIONS)
        print(f"usage: presentations.py {names}, and numbers behind it as this file says", file=sys.stderr)
        return 1
    sys.stdout.write(found.text(*numbers))
    return 0


if __name__ == "__main__":
    sys.exit(main(sys.argv[1:]))
