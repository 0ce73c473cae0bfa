"""Squares r' r and r r', and polynomials that are sums of such by their words alone."""
from __future__ import annotations

from fractions import Fraction
from math import gcd
from typing import Dict, List, Optional, Tuple

from opprove.search.engine import Alphabet, Poly, Word, add, content, product

Parts = List[Tuple[int, Poly]]  # positive numbers, each with the polynomial whose square it counts


def square(alphabet: Alphabet, poly: Poly, is_left: bool) -> Poly:
    """r' r (left) or r r'."""
    star = alphabet.star(poly)
    return product(star, poly) if is_left else product(poly, star)


def total(alphabet: Alphabet, parts: Parts, is_left: bool) -> Poly:
    found: Poly = {}
    for scale, poly in parts:
        add(found, scale, square(alphabet, poly, is_left))
    return found


def parts_of(alphabet: Alphabet, poly: Poly, is_left: bool) -> Optional[Tuple[int, Parts]]:
    """A positive multiple and squares that add up to that multiple of the polynomial or of its negative, where words are halved."""
    if any(len(word) % 2 for word in poly):
        return None
    gram: Dict[Tuple[Word, Word], Fraction] = {}
    for word, coefficient in poly.items():
        half = len(word) // 2
        first, second = word[:half], word[half:]
        # u' v for r' r, and u v' for r r'
        key = (alphabet.star_word(first), second) if is_left else (first, alphabet.star_word(second))
        gram[key] = Fraction(coefficient)
    words = sorted({one for pair in gram for one in pair})
    is_symmetric = all(gram.get((second, first)) == value for (first, second), value in gram.items())
    if not is_symmetric or any((word, word) not in gram for word in words):
        return None
    sign = 1 if gram[words[0], words[0]] > 0 else -1
    gram = {pair: sign * value for pair, value in gram.items()}
    found = decomposed(gram, words)
    return scaled(alphabet, found, is_left, {word: sign * value for word, value in poly.items()}, sign) if found else None


def decomposed(gram: Dict[Tuple[Word, Word], Fraction], words: List[Word]) -> Optional[List[Tuple[Fraction, Dict[Word, Fraction]]]]:
    """Positive numbers with linear forms whose squares add up to the form of a symmetric matrix, where there are such."""
    gram, parts = dict(gram), []
    for place, word in enumerate(words):
        pivot = gram.get((word, word), Fraction(0))
        row = {other: gram.get((word, other), Fraction(0)) for other in words[place:]}
        if pivot < 0 or (pivot == 0 and any(row.values())):
            return None
        if pivot == 0:
            continue
        form = {other: value / pivot for other, value in row.items() if value}
        parts.append((pivot, form))
        for one in form:
            for other in form:
                gram[one, other] = gram.get((one, other), Fraction(0)) - pivot * form[one] * form[other]
    return parts


def scaled(
    alphabet: Alphabet, parts: List[Tuple[Fraction, Dict[Word, Fraction]]], is_left: bool, poly: Poly, sign: int
) -> Optional[Tuple[int, Parts]]:
    """The same with integers, and the multiple of the polynomial that they add up to."""
    whole: List[Tuple[Fraction, Poly]] = []
    for number, form in parts:
        denominator = 1
        for value in form.values():
            denominator *= value.denominator // gcd(denominator, value.denominator)
        integers = {word: int(value * denominator) for word, value in form.items()}
        share = content(integers)
        whole.append((number * share * share / (denominator * denominator), {word: value // share for word, value in integers.items()}))
    multiple = 1
    for number, _ in whole:
        multiple *= number.denominator // gcd(multiple, number.denominator)
    found = [(int(number * multiple), one) for number, one in whole]
    is_sum = total(alphabet, found, is_left) == add({}, multiple, poly)
    return (sign * multiple, found) if is_sum else None
