#!/usr/bin/env python3
"""How much shorter statements are in the notation: measure_shorten.py FOLDER [OPTIONS of prove]

Shortens each statement of a folder, which expands and compares it, proves the statement and its expansion by the same options, and prints a
row for each: its lines with tokens, those of the file of the notation, and whether all claims have the same answers, with the causes of
undecided ones and the denominators of proved ones. The program is that of OPPROVE. A statement with neither a definition nor a word of
several equations is marked by `-`.
"""
from __future__ import annotations

import os
import re
import subprocess
import sys
import tempfile
from typing import Dict, List

from opprove import program
from opprove.checkers.check import Problem
from opprove.notation.expand import read
from opprove.notation.parts import Word
from opprove.notation.reader import table
from opprove.notation.shorten import Shortener, either, equations, named

SECONDS = 300  # of a run


def line_count(text: str) -> int:
    return sum(1 for line in text.split("\n") if line.split("#")[0].strip())


def answers(path: str, options: List[str]) -> Dict[str, str]:
    """The answer to each claim by its polynomial, but for numbers that depend on the order of equations."""
    problem = Problem(path)
    with open(path, encoding="utf-8") as file:
        text = file.read()
    try:
        report = program.run(None, "prove", [text], tuple(options), SECONDS)
    except (program.Refused, subprocess.TimeoutExpired) as ended:
        return {"all": type(ended).__name__}
    heads = re.findall(r"^# claim [0-9]+ (.*)", report, re.MULTILINE)
    heads = [re.sub(r" rows [0-9]+| rules [0-9]+| at .*| least .*", "", head) for head in heads]
    claims = [str(min(sorted(poly) for poly in either(named(problem, claim)))) for claim in problem.claims]
    return dict(zip(claims, heads))


def has_word(word: Word, text: str) -> bool:
    opening = " ".join(word.opening())
    is_new = len(equations(word, 1)) > 1 and opening not in ("pinv", "inverse", "projection")
    return is_new and re.search(rf"(^|, |claim ){opening} ", text, re.MULTILINE) is not None


def row(path: str, options: List[str]) -> List[str]:
    """A row: the name, both numbers of lines, and whether the answers are the same."""
    text = Shortener(path).written()
    with tempfile.TemporaryDirectory() as folder:
        place, made = os.path.join(folder, "f.opn"), os.path.join(folder, "f.op")
        with open(place, "w", encoding="utf-8") as file:
            file.write(text)
        with open(made, "w", encoding="utf-8") as file:
            file.write(read(place).statements[0].text)
        before, after = answers(path, options), answers(made, options)
    with open(path, encoding="utf-8") as file:
        lines = line_count(file.read())
    is_marked = "define " in text or any(has_word(word, text) for word in table())
    said = "same" if before == after else f"{sorted(before.values())} {sorted(after.values())}"
    return [os.path.basename(path)[:-3] + " -" * (not is_marked), str(lines), str(line_count(text)), said]


def main(words: List[str]) -> int:
    if not words:
        sys.stderr.write("usage: measure_shorten.py FOLDER [OPTIONS of prove]\n")
        return 2
    print("| Statement | Lines | In the notation | Answers |\n|---|---|---|---|")
    rows = []
    for name in sorted(os.listdir(words[0])):
        if name.endswith(".op"):
            rows.append(row(os.path.join(words[0], name), words[1:]))
            print(f"| {' | '.join(rows[-1])} |", flush=True)
    for text, chosen in (("all", rows), ("with definitions or such words", [each for each in rows if " -" not in each[0]])):
        lines, short = (sum(int(each[column]) for each in chosen) for column in (1, 2))
        same = sum(each[3] == "same" for each in chosen)
        print(f"| {len(chosen)} {text} | {lines} | {short} | {same} the same |")
    return 0


if __name__ == "__main__":
    sys.exit(main(sys.argv[1:]))
