"""Writes the manual page: manual

It is the page that `man opprove` shows where a package is installed; here `opprove manual | man -l -` does.
"""
from __future__ import annotations

import os
import re
import textwrap
import time
from typing import Iterator, List

from opprove.cli import TOOLS
from opprove.help import page
from opprove.tool import ended, parser
from opprove.version import VERSION
from opprove.words.calls import ALL_STATUSES, COMMANDS, LIMITS, OPTIONS, SAID_OF

WHAT = """\
decides statements about matrices and linear operators with different domains and codomains: whether a claimed equation is a
consequence of assumed ones. What it answers is evidence that any program can check, or names what stopped it. A first word that is
a command runs the program, which is proved; any other word is a tool around it."""
HEADS = (
    ("# claim N proved denominator D rows R", "A certificate follows: D times the claim is the sum of its rows."),
    ("# claim N not derivable rules R", "A basis follows: no positive multiple of the claim is a sum of rows over the assumptions."
     " For matrices of finite size the claim may hold all the same."),
    ("# claim N refuted", "A model follows: matrices that make all assumptions zero, and not the claim."),
    ("# claim N undecided CAUSE", "A budget was spent, or a number or a polynomial grew too large."),
    ("# claim N not refuted candidates R", "None of the R candidates of all shapes breaks the claim, which says nothing of it."),
)  # fmt: skip
VARIABLES = (
    ("OPPROVE", "The program to run in place of the one that is there."),
    ("OPPROVE_PROVED", "With the value 1 a program that isn't proved never answers: the status is 1."),
    ("OPPROVE_QUIET", "With the value 1 nothing is said on a terminal beside the answer."),
    ("OPPROVE_JOBS", "How many crates `opprove build` proves side by side at most."),
    ("NO_COLOR", "With any value the words have no colour."),
)
EXAMPLES = (
    ("Prove a statement, check what was written, and read it as a chain:",
     ("opprove prove examples/pasted_squares.op >report", "opprove check examples/pasted_squares.op report",
      "opprove chain examples/pasted_squares.op report")),
    ("Look for matrices, and check what was found:",
     ("opprove refute library/false/one_sided_inverse.op >report", "opprove model library/false/one_sided_inverse.op report")),
    ("A statement:",
     ("object U V", "map a : U -> V", "map x y : V -> U", "pinv a x", "pinv a y", "claim x = y")),
)  # fmt: skip


def shown(text: str) -> str:
    """Text as the page has it: no line of it is a request, and no sign of it has a meaning."""
    text = text.replace("\\", r"\e").replace("`", r"\(ga").replace("~", r"\(ti").replace("^", r"\(ha").replace("-", r"\-")
    return re.sub(r"(?m)^([.'])", r"\\&\1", text)


def said(text: str) -> Iterator[str]:
    """Sentences, each from a line of its own."""
    for sentence in re.split(r"(?<=[.:]) (?=[A-Z])", " ".join(text.split())):
        yield from map(shown, textwrap.wrap(re.sub("`([^`]*)`", r"\1", sentence), 78, break_on_hyphens=False))


def item(head: str, text: str) -> Iterator[str]:
    yield f".It {head}"
    yield from said(text)


def literal(lines: List[str]) -> Iterator[str]:
    yield from (".Bd -literal -offset indent", *map(shown, lines), ".Ed")


def commands() -> Iterator[str]:
    yield ".Bl -tag -width Ds"
    for name, command in COMMANDS.items():
        yield from item(f"Cm {name} " + " ".join(f"Ar {it}" for it in command.operands), command.about)
    yield from (".El", ".Pp", "Options of the commands stand anywhere among the words:", ".Bl -tag -width Ds")
    for name, text in SAID_OF.items():
        number = f" Ar N , No {OPTIONS[name][0]:,} to {OPTIONS[name][1]:,}" if name in OPTIONS else ""
        number = number.replace(f"{2**64 - 1:,}", "2^64 \\- 1")
        yield from item(f"Fl \\-{name[2:].replace('-', chr(92) + '-')}{number}", f"Of {', '.join(of(name))}: {text}.")
    for name, text in LIMITS.items():
        yield from item(f"Fl \\-{name[2:]} Ar N", f"Of all: {text}.")
    yield from (".El", ".Pp", "The head lines of a report are", ".Bl -tag -width Ds")
    for head, text in HEADS:
        yield from item(f"Li {shown(head)}", text)
    yield ".El"


def of(option: str) -> List[str]:
    """The commands that have it."""
    return [name for name, command in COMMANDS.items() if option in command.options + command.flags]


def tools() -> Iterator[str]:
    """A section for each tool, with its page."""
    for tool in TOOLS:
        yield f".Ss opprove {shown(tool.word)}"
        yield from said(f"{tool.summary[0].upper()}{tool.summary[1:]}.")
        for part in re.split(r"\n\n+", page(tool.word).strip()):
            is_text = part[0] != " " and not part.startswith("usage:") and "\n " not in part
            yield from (".Pp", *said(part)) if is_text else literal(part.split("\n"))


def statuses() -> Iterator[str]:
    rows = [(1, "a limit of the run is reached, or the program could not be built"), *ALL_STATUSES]
    rows += [(number, f"{name}: {text}") for name, command in COMMANDS.items() for number, text in command.statuses]
    rows.append((70, "a second program refuses what a program without proofs printed"))
    yield ".Bl -tag -width Ds -compact"
    for number, text in sorted(rows, key=lambda row: row[0]):
        yield from item(str(number), f"{text}.")
    yield ".El"


def lines() -> Iterator[str]:
    day = time.strftime("%B %d, %Y", time.gmtime(int(os.environ.get("SOURCE_DATE_EPOCH", time.time()))))
    yield from (r'.\" Written by: opprove manual', f".Dd {day}", ".Dt OPPROVE 1", f".Os opprove {VERSION}", ".Sh NAME", ".Nm opprove")
    yield from (".Nd decide identities of matrices and operators, and check what is found", ".Sh SYNOPSIS")
    for name, command in COMMANDS.items():
        words = [f".Ar {it}" for it in command.operands] + [f".Op Fl \\-{it[2:]} Ar N" for it in command.options]
        yield from (".Nm", f".Cm {name}", *words, *(f".Op Fl \\-{it[2:].replace('-', chr(92) + '-')}" for it in command.flags))
    yield from (".Nm", ".Ar TOOL", ".Op Ar WORDS", ".Sh DESCRIPTION", ".Nm", *said(WHAT), *commands(), ".Sh TOOLS", *tools())
    yield from (".Sh ENVIRONMENT", ".Bl -tag -width OPPROVE_PROVED")
    for name, text in VARIABLES:
        yield from item(f"Ev {name}", text)
    yield from (".El", ".Sh EXIT STATUS", *statuses(), ".Sh EXAMPLES")
    for number, (head, examples) in enumerate(EXAMPLES):
        yield from (*[".Pp"] * (number > 0), head, *literal(list(examples)))
    yield from (".Sh HISTORY", f"This page is of version {VERSION}.")


def main(words: List[str]) -> int:
    """Writes the page."""
    parser("manual", __doc__).parse_args(words)
    return ended(lines)
