"""What the parts of why.py share: an explanation as data, how it is laid out on a screen, and words for lists of names."""
from __future__ import annotations

import difflib
import re
import textwrap
import unicodedata
from typing import Any, Callable, Iterable, Iterator, List, NamedTuple, Optional, Sequence, Tuple

from opprove.checkers.check import Refusal

LIMIT_OF_NUMBERS = 2**127 - 1


class Quote(NamedTuple):
    """A line of a file, and the column that a caret stands under: it counts characters from 1, and 0 is none."""

    path: str
    line: int
    text: str
    column: int = 0


class Told(NamedTuple):
    """What is told: a line of a file where there is one, a sentence, and paragraphs after it."""

    sentence: str
    quote: Optional[Quote] = None
    more: Tuple[str, ...] = ()  # those that begin with a blank are laid out already


class Rule(NamedTuple):
    """What a code says: the rule alone, and what tells more of a fault."""

    text: str
    tell: Callable[[Any], Any]  # a sentence, or what is `Told`

    def told(self, fault: object, quote: Optional[Quote], briefly: bool) -> Told:
        """What is told of a fault that stands in this line; the rule alone where no more is asked for, or can be told."""
        try:
            found = self.text if briefly else self.tell(fault)
        except (Refusal, LookupError, StopIteration, ValueError, AttributeError, TypeError, RecursionError):
            found = self.text
        return found if isinstance(found, Told) else Told(found, quote)


class Screen(NamedTuple):
    columns: int = 100
    rows: int = 40
    encoding: str = "utf-8"
    has_colour: bool = False


# ---- Words


def listed(names: Sequence[str], last: str = "and") -> str:
    """a, b and c"""
    return f" {last} ".join([", ".join(names[:-1]), names[-1]]) if len(names) > 1 else "".join(names)


def few(names: Sequence[str], most: int = 6) -> str:
    """The names, of which the first few are enough."""
    return listed(names) if len(names) <= most else f"{', '.join(names[:most])} and {len(names) - most} more"


def counted(number: int, noun: str) -> str:
    return f"{number:,} {noun}{'' if number == 1 else 's'}"


def is_are(number: int) -> str:
    return "is" if number == 1 else "are"


def article(noun: str) -> str:
    return f"an {noun}" if noun[0] in "aeiou" else f"a {noun}"


def ordinal(number: int) -> str:
    ending = "th" if number // 10 % 10 == 1 else {1: "st", 2: "nd", 3: "rd"}.get(number % 10, "th")
    return f"{number:,}{ending}"


def quoted(names: Iterable[str]) -> List[str]:
    return [f"'{name}'" for name in names]


def near(name: str, names: Iterable[str]) -> List[str]:
    """The names that may be meant: those like it, or all where there are few."""
    known = sorted(set(names) - {name})
    same = [other for other in known if other.lower() == name.lower()]
    return same or difflib.get_close_matches(name, known, 3) or (known if len(known) <= 4 and len(name) <= 2 else [])


def did_you_mean(name: str, names: Iterable[str]) -> str:
    found = near(name, names)
    return f" (did you mean {listed(quoted(found), 'or')}?)" if found else ""


def short(text: str, most: int = 60) -> str:
    """The text with one blank for each gap, and its middle left out where it is long."""
    text = " ".join(text.split())
    return text if len(text) <= most else f"{text[: most // 2].rstrip()} .. {text[-(most // 2) + 4 :].lstrip()}"


def without_controls(text: str) -> str:
    return "".join("\ufffd" if unicodedata.category(char) in ("Cc", "Cf", "Cs", "Zl", "Zp") else char for char in text)


# ---- Layout


def cells(text: str, encoding: str) -> Iterator[Tuple[str, int]]:
    """What is shown for each character, and how many columns of the screen it takes. Controls are shown, and do nothing."""
    at = 0
    for char in text:
        shown, width = char, 1
        if char == "\t":
            width = 8 - at % 8
            shown = " " * width
        elif without_controls(char) != char:
            shown = "\ufffd"
        elif unicodedata.category(char) in ("Mn", "Me") and at:
            width = 0
        elif unicodedata.east_asian_width(char) in "WF":
            width = 2
        if shown.encode(encoding, "replace").decode(encoding) != shown:
            shown, width = "?" * min(width, 1), min(width, 1)
        at += width
        yield shown, width


def line_and_caret(text: str, column: int, screen: Screen) -> List[str]:
    """The line as it is shown, cut where it is long, and a caret under the column."""
    shown = list(cells(text, screen.encoding)) + [("", 1)]
    place, room = max(min(column, len(shown)), 1) - 1, screen.columns - 10
    first = last = place
    used = shown[place][1]
    while used < room and (first > 0 or last + 1 < len(shown)):
        if first > 0 and (place - first <= (last - place) * 2 or last + 1 == len(shown)):
            first -= 1
            used += shown[first][1]
        else:
            last += 1
            used += shown[last][1]
    front, back = "  .. " if first else "    ", " .." if last + 1 < len(shown) else ""
    lines = [front + "".join(part for part, _ in shown[first : last + 1]).rstrip() + back]
    if column:
        lines.append(" " * (len(front) + sum(width for _, width in shown[first:place])) + "^")
    return lines


def painted(text: str, colour: int, screen: Screen) -> str:
    return f"\033[{colour}m{text}\033[0m" if screen.has_colour else text


def paragraph(text: str, screen: Screen) -> List[str]:
    if text.startswith(" "):  # matrices are cut, and commands to type are not
        lines = [without_controls(line.rstrip()) for line in text.split("\n")]
        return [line[: screen.columns] if line.startswith("    ") else line for line in lines]
    return textwrap.wrap(without_controls(text), screen.columns, break_long_words=True, break_on_hyphens=False) or [""]


def laid_out(told: Told, screen: Screen) -> List[str]:
    lines: List[str] = []
    if told.quote:
        path, number, text, column = told.quote
        place = f"{without_controls(path)}:{number}" + (f":{column}" if column else "")
        line, *caret = line_and_caret(text, column, screen)
        lines += [painted(place, 1, screen), line] + [painted(it, 32, screen) for it in caret]
    sentence = paragraph(told.sentence, screen)
    code = re.match(r"[A-Z][0-9]+:", sentence[0])
    if code:
        sentence[0] = painted(code.group(), 31, screen) + sentence[0][code.end() :]
    return lines + sentence + [line for text in told.more for line in paragraph(text, screen)]


def on_screen(parts: Iterable[Told], screen: Screen) -> List[str]:
    """All parts in lines, no more than fit."""
    lines = [line for told in parts for line in laid_out(told, screen)]
    return lines if len(lines) <= screen.rows else lines[: screen.rows - 1] + [f"(and {len(lines) - screen.rows + 1} lines more)"]
