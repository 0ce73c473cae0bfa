"""Tries `opprove picture`: that pictures are as they should be, and that browsers' XML, Graphviz and TikZ read them."""
from __future__ import annotations

import re
import time
import xml.etree.ElementTree
from math import gcd
from pathlib import Path
from random import Random
from typing import Callable, List

from opprove.translations import picture
from opprove.checkers.check import Problem
from trying import EXAMPLES, STATEMENTS, Answer, Skipped, installed, need, run, tool, typeset, wrong_words


# Statements whose pictures are hard: names beyond ASCII and long ones, many maps with the same ends, objects with no map,
# loops on all sides, and more arrows than have a place beside objects.
HARD = [
    "object U\nclaim [U] = 0\n",
    "object \u03b1 \u05d0 \U0001d538 W\nmap \u4e2d \u6587 : \u03b1 -> \u05d0\nmap \u00fc : \u05d0 -> \u05d0\nclaim [W] = 0\n",
    f"object {'A' * 32} {'B' * 32}\nmap {'c' * 32} {'d' * 32} : {'A' * 32} -> {'B' * 32}\nclaim {'c' * 32} = {'d' * 32}\n",
    f"object U V\nmap {' '.join(f'a_{n}' for n in range(90))} : U -> V\nmap x_y __ : V -> U\nmap p : V -> V self\nclaim [U] = 0\n",
    "object A B C\n" + "".join(f"map {s}{t} : {s} -> {t}\n" for s in "ABC" for t in "ABC") + "claim [A] = 0\n",
    "object A B C D E F\n" + "".join(f"map {s}{t} : {s} -> {t}\n" for s in "ABCDEF" for t in "ABCDEF") + "claim [A] = 0\n",
]


def is_right(shown: picture.Picture) -> None:
    """No two objects share a cell, no straight arrow runs over one, and arrows that are there and back are bent."""
    cells = shown.cells
    need(len({*cells}) == len(shown.objects) == len(cells), shown)
    ends = [(arrow.source, arrow.target) for arrow in shown.arrows]
    need(len({*ends}) == len(ends), shown)
    for arrow in shown.arrows:
        (x, y), (u, v) = cells[arrow.source], cells[arrow.target]
        steps = gcd(u - x, v - y)
        over = {(x + (u - x) * step // steps, y + (v - y) * step // steps) for step in range(1, steps)}
        need(arrow.bend == 2 or not over & {*cells}, (shown, arrow))
        is_back = arrow.source != arrow.target and ends.count((arrow.target, arrow.source)) == 1
        need(arrow.bend > 0 or not is_back, (shown, arrow))


def hard(folder: Path) -> List[Path]:
    paths = [folder / f"hard{number}.op" for number, _ in enumerate(HARD)]
    for path, text in zip(paths, HARD):
        path.write_text(text, encoding="utf-8")
    return paths


def drawn(folder: Path) -> str:
    """All pictures as data, and in SVG as a program reads it."""
    paths = STATEMENTS + hard(folder)
    for path in paths:
        problem = Problem(str(path))
        shown = picture.picture_of(problem)
        is_right(shown)
        maps = [name for arrow in shown.arrows for name in arrow.names]
        declared = [name for name in problem.names if name[0] != "[" and name[-1] != "'"]
        need(sorted(maps) == sorted(declared), (path, shown))
        text = picture.svg(shown)
        found = xml.etree.ElementTree.fromstring(text)
        words = [word for part in found.iter() if part.tag.endswith("}text") for word in re.split(",? ", (part.text or "").rstrip(","))]
        need(sorted(words) == sorted(declared + shown.objects), (path, words))
        need(text == picture.svg(picture.picture_of(problem)), (path, "another picture the second time"))
    return f"{len(paths)} statements are drawn: what is drawn is XML, with no object twice in a place or below a straight arrow"


def known() -> str:
    """The places of two squares side by side, the stored picture of them, and what is wrong with words and statements."""
    path = EXAMPLES / "pasted_squares.op"
    cells = picture.picture_of(Problem(str(path))).cells
    need(cells == [(0, 0), (1, 0), (2, 0), (0, 1), (1, 1), (2, 1)], cells)
    stored = (EXAMPLES / "tools" / "pasted_squares.svg").read_text()
    call = tool("picture")
    need(run(*call, path) == Answer(0, stored, ""), "another picture than the stored one")
    wrong_words("picture", [], [path, path], [path, "--svg"], [path, "--dot", "--tikz"])
    answer = run(*call, EXAMPLES / "missing.op", "--dot")
    need(answer == Answer(4, "", f"# load failed {EXAMPLES / 'missing.op'}\n"), answer)
    return "two squares side by side are two rows of three, as stored"


def twelve() -> str:
    """The time for twelve objects with twenty arrows, and with forty."""
    random, objects = Random(5), [f"V{number}" for number in range(12)]
    longest = 0.0
    for count in (12, 20, 40):
        maps = [(f"a{number}", random.choice(objects), random.choice(objects)) for number in range(count)]
        start = time.process_time()
        is_right(picture.picture(objects, maps))
        longest = max(longest, time.process_time() - start)
    need(longest < 2, f"{longest:.1f} s for twelve objects")
    return "twelve objects have their places within 2 s of processor time"


def graphviz(folder: Path) -> str:
    program = installed("dot")
    for number, path in enumerate(STATEMENTS + hard(folder)):
        (folder / "graph.dot").write_text(picture.dot(picture.picture_of(Problem(str(path)))), encoding="utf-8")
        answer = run(program, "-Tsvg", folder / "graph.dot")
        need(answer.status == 0 and answer.out.rstrip().endswith("</svg>"), (path, answer))
    return f"{number + 1} graphs are read by dot"


def tikz(folder: Path) -> str:
    paths = [path for path in STATEMENTS + hard(folder) if path.read_text(encoding="utf-8").isascii()]
    pictures = [picture.tikz(picture.picture_of(Problem(str(path)))) for path in paths]
    if not Path("/usr/share/texlive/texmf-dist/tex/latex/pgf").exists() and run(installed("kpsewhich"), "tikz.sty").status:
        raise Skipped("TikZ is not installed")
    typeset(pictures, folder, "tikz")
    return f"{len(pictures)} pictures are typeset by pdflatex with TikZ"


CHECKS: List[Callable[[Path], str]] = [drawn, lambda folder: known(), lambda folder: twelve(), graphviz, tikz]
