"""What a statement says at a glance, for the page to work in: python3 -m opprove.page.looked [--expand] STATEMENT

Prints one object of JSON: the first fault with its line and column and what that means (`fault`), or the statement as formulas and
its quiver (`shown`), or why neither can be had (`trouble`). A text of the notation is looked at as the statement that it stands for,
which is printed with --expand.
"""
from __future__ import annotations

import json
import os
import re
import subprocess
import sys
from typing import Dict, List, Union

from opprove.checkers.check import Problem, Refusal, content
from opprove.notation.expand import as_statement, is_statement
from opprove.page.page import StatementWriter
from opprove.program import path as path_of_program
from opprove.tool import ended
from opprove.translations.chain import Reader
from opprove.words import why

Looked = Dict[str, Union[str, Dict[str, Union[int, str]]]]


def looked(path: str) -> Looked:
    text = content(path)
    if not is_statement(text):
        try:
            text = as_statement(text)
        except Refusal as refusal:
            return {"fault": fault_of(str(refusal))}
        path = f"{path}.expanded"
        with open(path, "wb") as file:
            file.write(text)
    try:
        done = subprocess.run([path_of_program(), "check", path, os.devnull], stdin=subprocess.DEVNULL, stdout=subprocess.PIPE)
    except OSError:
        return {"trouble": "the program opprove isn't there: OPPROVE may name it"}
    answer = why.Answer(done.returncode, done.stdout.decode(errors="surrogateescape"))
    if done.returncode == 3:
        told = why.in_time(["check", path, os.devnull], answer)[-1]
        _, line, _, column = told.quote or ("", 0, "", 0)
        return {"fault": {"line": line, "column": column, "told": told.sentence}}
    if done.returncode != 7:
        return {"trouble": f"the program ended with status {done.returncode}"}
    shown = StatementWriter(Reader(Problem(text)), text.decode())
    return {"shown": "\n".join(shown.glance())}


def fault_of(line: str) -> Dict[str, Union[int, str]]:
    """A fault of a text of the notation: its place, if it has one, and what it means."""
    found = re.match(r"# refused (\w+)(?: line ([0-9]+) column ([0-9]+))?[^:]*: (.*)", line)
    if not found:
        return {"line": 0, "column": 0, "told": line.lstrip("# ")}
    return {"line": int(found.group(2) or 0), "column": int(found.group(3) or 0), "told": f"{found.group(1)}: {found.group(4)}"}


def main(words: List[str]) -> int:
    if words[0] == "--expand":
        return ended(lambda: as_statement(content(words[1])).decode().split("\n")[:-1])
    try:
        found = looked(words[0])
    except (Refusal, MemoryError, RecursionError) as what:
        found = {"trouble": str(what) or "no memory"}
    print(json.dumps(found))
    return 0


if __name__ == "__main__":
    sys.exit(main(sys.argv[1:]))
