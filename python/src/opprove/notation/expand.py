"""Expands a file of the notation into statements of language 2: prints them, or writes them to files

Of a file with several statements each is printed behind a line `# statement NAME`. Written are NAME.op, beside the file, into the folder
that is named, or into that of OPPROVE_EXPANSIONS, and never over a file that no expansion wrote. What is wrong with the file is one line on
standard error, with the line and column of the file that was written; so is each name that the expansion made.
"""
from __future__ import annotations

import argparse
import os
import re
from typing import Callable, List, NamedTuple, Tuple

from opprove.checkers import check
from opprove.checkers.check import Refusal
from opprove.notation.expansion import HEAD, Expanded, Expansion
from opprove.notation.parts import in_words
from opprove.notation.reader import TABLE
from opprove.tool import ended, parser, say

ENDING = ".opn"  # of the names of files of the notation


class Read(NamedTuple):
    """What a file of the notation stands for: its statements, and a line for each name that was made."""

    statements: List[Expanded]
    told: List[str]


def read(path: str, all_pairs: bool = False) -> Read:
    """Reads a file of the notation. Raises a `Refusal` whose line begins with `# load failed`, `# too long` or `# refused`."""
    source = check.loaded([path])[0]
    try:
        expansion = Expansion(path, source)
        statements = expansion.statements(all_pairs)
    except Refusal as refusal:
        raise in_words(refusal) from None
    return Read(statements, [f"# made {name} line {token.line} column {token.column}" for name, token in expansion.made.items()])


def expanded(path: str, folder: str = "", all_pairs: bool = False) -> List[Tuple[str, str]]:
    """Writes the statements of a file into this folder, or that of OPPROVE_EXPANSIONS, or beside it, says on standard error where they
    stand, and gives path and name of each. Raises a `Refusal`, whose line begins with `# not written` where a file can't be written."""
    found = read(path, all_pairs)
    folder = folder or os.environ.get("OPPROVE_EXPANSIONS", "") or os.path.dirname(path)
    paths = [(os.path.join(folder, f"{statement.name}.op"), statement.name) for statement in found.statements]
    for line in found.told:
        say(line)
    for (place, _), statement in zip(paths, found.statements):
        write(place, statement.text)
        say(f"# expanded {path}: {place}")
    return paths


def write(path: str, text: str) -> None:
    """Writes a statement, but never over a file that no expansion wrote."""
    try:
        os.makedirs(os.path.dirname(path) or ".", exist_ok=True)
        if os.path.exists(path):
            with open(path, "rb") as file:
                there = file.read()
            if not there.startswith(HEAD.encode()):
                raise Refusal(f"# not written {path}: it is there, and was written by hand")
            if there == text.encode():
                return
        with open(f"{path}.{os.getpid()}", "wb") as made:
            made.write(text.encode())
        os.replace(made.name, path)  # at once, for others that read it meanwhile
    except OSError as error:
        raise Refusal(f"# not written {path}: {error.strerror}") from None


def is_statement(text: bytes) -> bool:
    """Whether the first word of a text is `object` or `language`, so that it is read as a statement and not in the notation."""
    first = re.search(rb"^[ \t]*([^\s#]+)", text, re.MULTILINE)
    return first is not None and first.group(1) in (b"object", b"language")


def as_statement(text: bytes) -> bytes:
    """The statement that a text is, or else stands for in the notation, where it uses no files. Raises a `Refusal`."""
    if is_statement(text):
        return text
    try:
        found = Expansion("", text).statements()
    except Refusal as refusal:
        raise in_words(refusal) from None
    if len(found) > 1:
        raise Refusal(f"# not written: the text stands for {len(found)} statements, and expand writes them")
    return found[0].text.encode()


def opened(words: List[str]) -> List[List[str]]:
    """Words of a tool with the statements of files of the notation in the place of these files, once for each statement."""
    lists: List[List[str]] = [[]]
    for word in words:
        paths = [path for path, _ in expanded(word)] if word.endswith(ENDING) else [word]
        lists = [[*others, path] for others in lists for path in paths]
    return lists


def run_on(words: List[str], run: Callable[[List[str]], int]) -> int:
    """Runs a tool on each statement of the files of the notation among its words, and gives the greatest status."""
    lists: List[List[str]] = []

    def open_them() -> List[str]:
        lists.extend(opened(words))
        return []

    status = ended(open_them)
    for each in lists:
        if len(lists) > 1:
            status = max(status, ended(lambda: [f"# statement {' '.join(path for path, word in zip(each, words) if path != word)}"]))
        status = max(status, run(each))
    return status


def lines(given: argparse.Namespace) -> List[str]:
    """What is printed."""
    if given.words:
        return [text for _, text in check.read_lines(TABLE, "")][:-1]
    if given.beside or given.folder:
        return [path for path, _ in expanded(given.file, given.folder, given.pairs)]
    found = read(given.file, given.pairs)
    for line in found.told:
        say(line)
    chosen = [statement for statement in found.statements if given.only in ("", statement.name)]
    if not chosen:
        raise Refusal(f"# not written {given.only}: the file has {', '.join(statement.name for statement in found.statements)}")
    return [line for each in chosen for line in [f"# statement {each.name}"] * (len(chosen) > 1) + each.text.split("\n")[:-1]]


def main(words: List[str]) -> int:
    """Runs the tool. The status is 0, or 2 for other words, 3 for a fault, 4 for a file that isn't loaded, 5 for one that isn't written."""
    made = parser("expand", __doc__)
    made.add_argument("file", metavar="FILE.opn", nargs="?", help="a file of the notation")
    place = made.add_mutually_exclusive_group()
    place.add_argument("--beside", action="store_true", help="write the statements beside the file, and print their paths")
    place.add_argument("--folder", metavar="DIR", default="", help="write them into this folder, and print their paths")
    place.add_argument("--only", metavar="NAME", default="", help="print the statement of this name alone")
    made.add_argument("--pairs", action="store_true", help="of cases that are equivalent, all pairs instead of a circle")
    made.add_argument("--words", action="store_true", help="print the file of the words that every file has")
    given = made.parse_args(words)
    if not given.words and not given.file:
        made.error("the following arguments are required: FILE.opn")
    return ended(lambda: lines(given))
