"""How exported files are laid out: lines, lists, and chains of applications, which Coq reads faster than lists."""
from __future__ import annotations

import textwrap
from typing import Iterator, List

WIDTH = 120  # characters of a line, where its blanks allow it
LINKS = 200  # of a chain in one definition


def filled(text: str, indent: str = "") -> str:
    """The text in full lines."""
    return textwrap.fill(text, WIDTH, initial_indent=indent, subsequent_indent=indent, break_long_words=False, break_on_hyphens=False)


def comment(text: str) -> str:
    """The text as a comment in full lines."""
    return filled(f"(* {text.replace('(*', '( *').replace('*)', '* )')} *)", "")


def integer(value: int) -> str:
    """An integer, in brackets where it is negative."""
    return f"({value})" if value < 0 else str(value)


def listed(items: List[str], is_filled: bool = False) -> str:
    """A list, an item a line or in full lines. It has parts, as Coq reads long lists slowly."""
    parts = [items[start : start + LINKS] for start in range(0, len(items), LINKS)] or [[]]
    texts = (filled(f"[{'; '.join(part)}]", "  ") if is_filled else "  [" + ";\n   ".join(part) + "]" for part in parts)
    return " ++\n".join(texts)


def chained(name: str, kind: str, links: List[str], last: str) -> Iterator[str]:
    """Definitions of a list by what puts one more in front of it, the name that of the whole list."""
    parts = [links[start : start + LINKS] for start in range(0, len(links), LINKS)]
    for number in range(len(parts), 1, -1):
        yield f"Definition {name}_part_{number} : {kind} :="
        yield applied(parts[number - 1], last)
        last = f"{name}_part_{number}"
    yield f"Definition {name} : {kind} :="
    yield applied(parts[0] if parts else [], last)


def applied(links: List[str], last: str) -> str:
    """One link after another, applied to the last, a link a line."""
    return "".join(f"  ({link}\n" for link in links) + f"  {last}{')' * len(links)}."


def word(letters: List[str]) -> str:
    """A word, by its letters as functions on words."""
    return "".join(f"({letter} " for letter in letters) + "nothing" + ")" * len(letters)
