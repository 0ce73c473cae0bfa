#!/usr/bin/env python3
"""Prints a file that costs much for its size: costly.py NAME [COUNT]

docs/COMMANDS.md says which command each file is for, and what that takes. The names:

overlaps   COUNT assumptions of 491 letters whose words overlap each other at 240 places or more
sorted     COUNT assumptions whose right sides are sorted letter by letter, in 19,600 steps each
unending   COUNT claims of 19,600 steps beside a completion without end
rests      COUNT claims that leave 16,384 words of 114 letters with names of 32 bytes
rows       COUNT claims whose proofs have 2,048 rows of such words
braid      a completion without end
nested     16,384 terms in 48 brackets with a mark and a letter behind each, twice
solved     maps of side 6 that are solved for: one by 4 assumptions, or with COUNT 2 two by 8
doubled    20 assumptions that are twice 256 words, and a shape of side 4 modulo 2
sides      an assumption of 500 letters; matrices: its model, of side 64
powers     COUNT assumptions of language 2, each of 16,384 words of 500 letters
short      an assumption of 16,384 words of 14 letters; long: of 500; uses: COUNT rows that use either
"""
from __future__ import annotations

import argparse
import sys
from typing import Callable, Dict

MAPS = "object U\nmap a b : U -> U\n"
HEAD = "certificate 1\nclaim 1\ndenominator 1\n"
A, B, C = (32 * letter for letter in "abc")
NAMED = f"object U\nmap {A} {B} {C} : U -> U\n"
SORTED = "b " * 140 + "a " * 140


def overlaps(count: int) -> str:
    middles = (" ".join("bc"[number >> place & 1] for place in range(11)) for number in range(count))
    lines = "".join(f"assume {'a ' * 240}{middle}{' a' * 240} = 0\n" for middle in middles)
    return f"object U\nmap a b c : U -> U\n{lines}claim a = 0\n"


def letter_by_letter(count: int) -> str:
    names = " ".join(f"x{number} y{number}" for number in range(23))
    lines = "".join(f"assume x{number // 23} y{number % 23} = {SORTED}\n" for number in range(count))
    return f"object U\nmap a b {names} : U -> U\nassume b a = a b\n{lines}claim a = 0\n"


def unending(count: int) -> str:
    return "object U\nmap a b c d : U -> U\nassume b a = a b\nassume c d c = d c d\n" + f"claim {SORTED}= 0\n" * count


def matrices(_: int) -> str:
    ones = " ; ".join([" ".join(["1"] * 64)] * 64)
    return f"model 1\nclaim 1\nmodulus 2\nside U 64\nmap a = {ones}\nmap b = {ones}\nend\n"


def solved(count: int) -> str:
    maps = {"x": "y", "y": "x"} if count > 1 else {"x": "x"}
    sides = [("a x", "x a"), ("a a x", "x a a"), ("a a a x", "x a a a"), ("a x a", "x a a")]
    equations = [(left.replace("x", one), right.replace("x", other)) for one, other in maps.items() for left, right in sides]
    lines = "".join(f"assume {left} = {right}\n" for left, right in equations)
    return f"object U\nmap a {' '.join(maps)} : U -> U\n{lines}solve {' '.join(maps)}\nclaim x = x\nmodel 65537 U 6\n"


FILES: Dict[str, Callable[[int], str]] = {
    "overlaps": overlaps,
    "sorted": letter_by_letter,
    "unending": unending,
    "rests": lambda count: NAMED + f"claim {f'({A} + {B}) ' * 14}{f'{A} ' * 100}= 0\n" * count,
    "rows": lambda count: NAMED + f"assume {C} = 0\n" + f"claim {f'({A} + {B}) ' * 11}{C} {f'{A} ' * 100}= 0\n" * count,
    "braid": lambda _: MAPS + "assume b a b = a b a\nclaim a = b\n",
    "nested": lambda _: MAPS + "claim {0} = {0}\n".format("(" * 48 + "(a+b)" * 14 + ")' a" * 48),
    "solved": solved,
    "doubled": lambda _: MAPS + f"assume 2 {'(a+b)' * 8} = 0\n" * 20 + "claim a = a\nmodel 2 U 4\n",
    "sides": lambda _: MAPS + f"assume {'a b ' * 250}= 0\nclaim b = 0\n",
    "matrices": matrices,
    "powers": lambda count: "language 2\nobject U\nmap a b c : U -> U\n" + "assume (a+b)^14 c^486 = 0\n" * count + "claim a = 0\n",
    "short": lambda _: MAPS + f"assume {'(a+b)' * 14} = 0\nclaim a = 0\n",
    "long": lambda _: MAPS + f"assume {'(a+b)' * 14}{' a' * 486} = 0\nclaim a = 0\n",
    "uses": lambda count: HEAD + "row 1()1()\n" * count + "end\n",
}


def main() -> int:
    parser = argparse.ArgumentParser(description="Prints a file that costs much for its size")
    parser.add_argument("name", choices=FILES)
    parser.add_argument("count", nargs="?", type=int, default=1)
    words = parser.parse_args()
    if words.count < 1:
        parser.error("a count is at least 1")
    sys.stdout.write(FILES[words.name](words.count))
    return 0


if __name__ == "__main__":
    sys.exit(main())
