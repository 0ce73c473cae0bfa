"""The table of `measure.py refute`: searches for models by `refute`, beside those of dev/plain_models.rs.

In each of them no candidate breaks a claim, so that all are tried. Both programs have to print the same bytes. What `refute`
reads is the statement; the plain program reads the tree that tree.py makes of it. NAME behind the word makes the rows whose
name begins so.
"""
from __future__ import annotations

import itertools
from pathlib import Path
from typing import Callable, Dict, List

import presentations
from measuring import OPPROVE, Text, bound, build, head, least, line, quotient_text, told, write, write_tree

NOT_REFUTED = 13


def text_of(*lines: str) -> str:
    return "".join(line + "\n" for line in lines)


def commuting(count: int) -> str:
    maps, inverses = presentations.named("a", count), presentations.named("b", count)
    lines = [f"inverse {one} {other}" for one, other in zip(maps, inverses)]
    lines += [f"assume {one} {two} = {two} {one}" for one, two in itertools.combinations(maps, 2)]
    return text_of("object V", f"map {' '.join(maps + inverses)} : V -> V", *lines, "claim b1 a2 = a2 b1")


def path(count: int) -> str:
    """Pseudoinverses along a path of objects."""
    lines = [f"map a{place} : V{place - 1} -> V{place}\nmap x{place} : V{place} -> V{place - 1}" for place in range(1, count + 1)]
    pairs = [f"pinv a{place} x{place}" for place in range(1, count + 1)]
    return text_of(f"object V0 {' '.join(presentations.named('V', count))}", *lines, *pairs, "claim x1 a1 x1 = x1")


def projections(count: int) -> str:
    maps = presentations.named("p", count)
    return text_of("object V", f"map {' '.join(maps)} : V -> V", *(f"projection {name}" for name in maps), "claim p1 p1 p1 = p1")


def fibonacci(count: int) -> str:
    return presentations.fibonacci(count).replace("claim x1 = [V]", "claim x2 = y1 x3")


def schur() -> str:
    """The inverse of a matrix of four blocks from that of one of them and that of its Schur complement."""
    blocks = [["a", "b"], ["c", "d"]]
    inverse = [["(x + x b s c x)", "(- x b s)"], ["(- s c x)", "s"]]
    units = [["[U]", "0"], ["0", "[V]"]]
    claims = [
        f"claim {left[row][0]} {right[0][column]} + {left[row][1]} {right[1][column]} = {units[row][column]}"
        for left, right in ((blocks, inverse), (inverse, blocks)) for row in range(2) for column in range(2)
    ]  # fmt: skip
    maps = ["map a x : U -> U", "map b : V -> U", "map c : U -> V", "map d e s : V -> V"]
    return text_of("object U V", *maps, "inverse a x", "assume e = d - c x b", "inverse e s", *claims)


def unused(maps: int, used: List[str], *lines: str) -> str:
    """Maps of one object, most of which stand in no equation."""
    return text_of("object V", f"map {' '.join(used + presentations.named('m', maps - len(used)))} : V -> V", *lines)


FIELD = "model 101 V 4"
CHAIN = ["assume a b = c", "assume d e = f", "claim a b f = c d e", "model 101 V 4"]
SEARCHES: Dict[str, Callable[[], str]] = {
    "twelve commuting invertible maps": lambda: commuting(12),
    "eight pseudoinverses along a path": lambda: path(8),
    "sixteen pseudoinverses along a path": lambda: path(16),
    "sixteen projections": lambda: projections(16),
    "the Fibonacci group of order 7 with inverses": lambda: fibonacci(7),
    "Schur complements, 8 claims": schur,
    "two inverses, modulo 101, side 4": lambda: unused(4, ["a", "b", "x", "y"], "inverse a x", "inverse b y", "claim a b y x = [V]", FIELD),
    "`a x - y b = c` and `d x + y e = f` solved, modulo 101, side 4": lambda: unused(
        8, list("abcdefxy"), "assume a x - y b = c", "assume d x + y e = f", "solve x y", "claim a x = y b + c", FIELD
    ),
    "`pinv`, ten maps of side 6 modulo 65537": lambda: unused(10, ["a", "x"], "pinv a x", "claim x a x = x", "model 65537 V 6"),
    "60 maps of side 4, one `inverse`": lambda: unused(60, ["a", "x"], "inverse a x", "claim a a x = a", "model 2 V 4"),
    "true: two inverses between three objects, modulo 101, side 4": lambda: text_of(
        "object U V W", "map b : U -> V", "map a : V -> W", "map x : W -> V", "map y : V -> U", "inverse a x", "inverse b y",
        "claim y x a b = [U]", "model 101 U 4 V 4 W 4",
    ),
    "true: two equations solved for `x` and `y`, modulo 101, side 4": lambda: text_of(
        "object U", "map a b c d e f x y : U -> U", "solve x y", "assume a x - y b = c", "assume d x + y e = f",
        "claim a x - y b - c = d x + y e - f", "model 101 U 4",
    ),
    "true: `pinv` between sides 6 and 5, modulo 3": lambda: text_of(
        "object U V", "map a : U -> V", "map x : V -> U", "pinv a x", "claim x a x a x = x", "model 3 U 6 V 5",
    ),
    "all candidates of four maps of side 2": lambda: unused(4, list("abcd"), "assume a b = b a", "claim a b c = b a c", "model 2 V 2"),
    "all candidates of sixteen numbers": lambda: unused(16, ["a", "b"], "assume a b = b", "claim a a b = b", "model 2"),
    "`inner`, modulo 7, side 2": lambda: text_of("object U V", "map a : U -> V", "map x : V -> U", "inner a x", "claim a x a = a", "model 7 U 2 V 2"),
    "six maps, modulo 101, side 4": lambda: unused(6, list("abcdef"), *CHAIN),
    "the same with `solve c f`": lambda: unused(6, list("abcdef"), "solve c f", *CHAIN),
}  # fmt: skip


def row(name: str, plain: str, folder: Path) -> str:
    statement, out = folder / "statement.op", folder / "out"
    write(statement, iter([SEARCHES[name]()]))
    other = least([plain, str(write_tree(statement))], out, lambda status, text: status == NOT_REFUTED)
    want = out.read_text(encoding="utf-8")
    own = least([str(OPPROVE), "refute", str(statement), "--workers", "1"], out, lambda status, text: (status, text) == (NOT_REFUTED, want))
    return line(name, told(own), told(other), quotient_text(own, other))


def rows(words: List[str], folder: Path) -> Text:
    plain = build("plain_models", folder)
    bound()
    yield head("`refute` s", "MB", "plain s", "MB", "quotient")
    for name in SEARCHES:
        if name.startswith(tuple(words[:1])) or not words:
            yield row(name, plain, folder)
