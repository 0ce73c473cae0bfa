"""What the tools share: the words of a call, and how a tool ends.

    def main(words: List[str]) -> int:
        given = parser("chain", __doc__).parse_args(words)         # --help and wrong words end the call with status 0 and 2
        return ended(lambda: lines_of(given))                      # writes lines, or the line of a `Refusal` on standard error
"""
from __future__ import annotations

import argparse
import functools
import re
import shutil
import sys
import textwrap
from typing import Callable, Iterable, List, Optional, Tuple

from opprove.cli import BY_WORD
from opprove.checkers.check import DONE, NO_MEMORY, NO_OUTPUT, Refusal, Report, loaded, status_of, written

__all__ = ["answer", "ended", "parser", "say"]


class Words(argparse.ArgumentParser):
    """The words of a tool, whose page begins with what the table says of it."""

    summary = ""

    def format_help(self) -> str:
        return f"{self.prog}: {self.summary}\n\n{super().format_help()}"


def filled(text: str) -> str:
    """The paragraphs in lines as long as the terminal has them; one in which a line begins with a blank stays as it is."""
    width = min(shutil.get_terminal_size().columns, 120) - 2
    parts = re.split(r"\n\n+", text.strip())
    fill = functools.partial(textwrap.fill, width=width, break_on_hyphens=False, break_long_words=False)
    return "\n\n".join(part if re.search("(?m)^[ |]", part) else fill(" ".join(part.split())) for part in parts)


def parser(word: str, page: Optional[str]) -> argparse.ArgumentParser:
    """For the words of a tool. Its page has the line of the table, and what its module says after the first line."""
    text = filled((page or "").partition("\n")[2])
    made = Words(prog=f"opprove {word}", description=text or None, formatter_class=argparse.RawDescriptionHelpFormatter)
    made.summary = BY_WORD[word].summary
    return made


def ended(made: Callable[[], Iterable[str]]) -> int:
    """Writes the lines that are made, all of them or none, and gives the status; what is wrong is one line on standard error."""
    try:
        lines = list(made())
    except (Refusal, MemoryError) as fault:
        say(str(fault) or "# no memory")
        return NO_MEMORY if isinstance(fault, MemoryError) else status_of(str(fault))
    return DONE if written(lines) else NO_OUTPUT


def answer(report: Report, paths: List[str]) -> Tuple[int, List[str]]:
    """The status and the lines of a second checker's report on these files."""
    lines: List[str] = []
    try:
        for line in report(*loaded(paths)):
            lines.append(line)
    except Refusal as refusal:
        return status_of(str(refusal)), [*lines, str(refusal)]
    return DONE, lines


def say(line: str) -> None:
    """Writes a line to standard error."""
    sys.stderr.buffer.write(f"{line}\n".encode("utf-8", "surrogateescape"))
    sys.stderr.buffer.flush()
