"""What rows of runs are written with: texts by their lines, and texts that are put together from parts."""
from __future__ import annotations

import itertools
from typing import Sequence, Tuple

Row = Tuple[str, str, str, str]
"""The words, the files `s` and `c` that they name, and the status with the report, whose lines may have ` / ` between them."""

USAGE = "2 usage line"  # of words that are no call


def lines(text: str) -> str:
    """A text in which ` / ` stands between lines."""
    return "".join(f"{line}\n" for line in text.split(" / "))


def times(piece: str, count: int) -> str:
    return piece * count


def numbers(before: str, first: int, last: int, after: str, sign: str) -> str:
    """The numbers from one to another, each with a text before it and one after it, and a sign between them."""
    return sign.join(f"{before}{number}{after}" for number in range(first, last + 1))


def products(sign: str, after: str, count: int) -> str:
    """The terms m100 m200 to m1 m1, the greatest first, with a sign between them and a text so many times after each."""
    return sign.join(f"m{left} m{right}{after * count}" for left in range(100, 0, -1) for right in range(200, 0, -1))


def falling(before: str, count: int, after: Sequence[Tuple[str, int]], sign: str) -> str:
    """So many terms from the greatest number down to 0: a name with its number, then texts so many times, and a sign between two."""
    tail = "".join(piece * many for piece, many in after)
    return sign.join(f"{before}{number}{tail}" for number in reversed(range(count)))


def greatest_words(count: int) -> str:
    """The greatest words of 15 letters `s` and `t`, so many, with a plus sign between two."""
    words = itertools.islice(itertools.product("ts", repeat=15), count)
    return " + ".join("".join(f"{letter} " for letter in word) for word in words)


def long_rows(left: str, right: str, count: int) -> str:
    """So many rows of a certificate with 500 letters on either side, and the factor 0: a letter of either side with a blank."""
    return f"row 0 ({left * 500}) 1 ({right * 500})\n" * count


def cancels(letter: str, first: int, last: int) -> str:
    """The items with the numbers from one to another, each of which takes the letter off the one before it."""
    return "".join(f"cancel {number} {letter} left {number - 1}\n" for number in range(first, last + 1))


def identity(side: int) -> str:
    """The identity matrix."""
    return " ; ".join(" ".join("1" if row == column else "0" for column in range(side)) for row in range(side))


def padded(text: str, size: int) -> str:
    """The text with a last line of `#` that ends at so many bytes."""
    return text + "#" * (size - len(text))
