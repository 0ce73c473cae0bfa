"""A graph of names as a picture in SVG: what leads to what, from left to right

Names stand in columns, each behind all that lead to it; an arrow for which others stand, one after another, is left out. In a column
names are in an order in which few arrows cross, and an arrow that passes a column has a row of its own there. Parts that no arrow joins
stand below one another, the largest first.
"""
from __future__ import annotations

from html import escape
from typing import Dict, Iterator, List, Mapping, NamedTuple, Sequence, Set, Tuple

ROW, GAP, CHARACTER, TIP = 21, 80, 6.5, 5  # between rows and between columns, of characters and of the tips of arrows, in pixels
SWEEPS = 12  # over the columns, in which names go to where their neighbours are
Cell = Tuple[int, int]  # a column, and a name by its number, or an arrow that passes by the number of its source less their count
Arrows = Dict[int, List[int]]


class Name(NamedTuple):
    """A name, where it leads to when it is clicked, and what is told of it when it is pointed at."""

    text: str
    address: str
    told: str


# ---- Arrows


def reached(arrows: Mapping[int, Sequence[int]], start: int) -> Set[int]:
    """What arrows lead to from a name, one after another."""
    found: Set[int] = set()
    waiting = [start]
    while waiting:
        new = set(arrows.get(waiting.pop(), ())) - found
        found |= new
        waiting += new
    return found


def without_detours(arrows: Mapping[int, Sequence[int]]) -> Arrows:
    """The arrows but for those for which others stand."""
    beyond = {start: set().union(*(reached(arrows, target) for target in targets)) for start, targets in arrows.items()}
    return {start: [target for target in targets if target not in beyond[start]] for start, targets in arrows.items()}


def turned(arrows: Mapping[int, Sequence[int]]) -> Arrows:
    found: Arrows = {}
    for start, targets in arrows.items():
        for target in targets:
            found.setdefault(target, []).append(start)
    return found


def parts_of(arrows: Mapping[int, Sequence[int]]) -> List[List[int]]:
    """The names that arrows join, the largest part first."""
    back = turned(arrows)
    both = {name: [*arrows.get(name, ()), *back.get(name, ())] for name in {*arrows, *back}}
    found: List[List[int]] = []
    for name in sorted(both):
        if not any(name in part for part in found):
            found.append(sorted(reached(both, name) | {name}))
    return sorted(found, key=lambda part: (-len(part), part))


# ---- Places


class Part:
    """Names that arrows join: the cells of each column in their order, and the arrows between neighbouring cells."""

    def __init__(self, names: Sequence[int], arrows: Mapping[int, Sequence[int]], count: int) -> None:
        back = turned(arrows)
        self.column: Dict[int, int] = {}
        for name in names:
            self.place(name, back)
        for name in names:  # what nothing leads to stands just before what it leads to
            if not back.get(name):
                self.column[name] = min(self.column[target] for target in arrows[name]) - 1
        self.columns: List[List[Cell]] = [[] for _ in range(1 + max(self.column.values()))]
        self.links: List[Tuple[Cell, Cell]] = []
        for name in names:
            self.columns[self.column[name]].append((self.column[name], name))
        for start in names:
            self.lead(start, arrows.get(start, ()), count)
        for sweep in range(SWEEPS):
            self.sweep(sweep % 2 == 0)
        self.rows = {cell: row for cell, row in self.placed()}

    def place(self, name: int, back: Mapping[int, Sequence[int]]) -> int:
        """The column of a name: one behind those of all that lead to it."""
        if name not in self.column:
            self.column[name] = 1 + max((self.place(other, back) for other in back.get(name, ())), default=-1)
        return self.column[name]

    def lead(self, start: int, targets: Sequence[int], count: int) -> None:
        """Has arrows lead from a name over the columns between, where they are one."""
        if not targets:
            return
        first, last = self.column[start], max(self.column[target] for target in targets)
        passing = [(first, start), *((column, start - count) for column in range(first + 1, last))]
        for column, cell in zip(range(first + 1, last), passing[1:]):
            self.columns[column].append(cell)
        self.links += zip(passing, passing[1:])
        self.links += [(passing[self.column[target] - first - 1], (self.column[target], target)) for target in targets]

    def sweep(self, is_forward: bool) -> None:
        """Orders each column by where the neighbours of its cells are in the one before, or behind."""
        near: Dict[Cell, List[Cell]] = {}
        for start, end in self.links:
            cell, other = (end, start) if is_forward else (start, end)
            near.setdefault(cell, []).append(other)
        order = range(len(self.columns)) if is_forward else range(len(self.columns) - 1, -1, -1)
        for column in order:
            at = {cell: place / len(cells) for cells in self.columns for place, cell in enumerate(cells)}
            means = {cell: sum(at[other] for other in near[cell]) / len(near[cell]) if cell in near else at[cell] for cell in self.columns[column]}
            self.columns[column].sort(key=lambda cell: means[cell])

    def placed(self) -> Iterator[Tuple[Cell, float]]:
        """The rows of cells: each column in the middle."""
        most = max(map(len, self.columns))
        for cells in self.columns:
            for place, cell in enumerate(cells):
                yield cell, place + (most - len(cells)) / 2

    def height(self) -> int:
        return max(map(len, self.columns))


# ---- The picture


class Drawing:
    """The picture of all parts. Columns have the same places in all of them."""

    def __init__(self, names: Sequence[Name], arrows: Mapping[int, Sequence[int]]) -> None:
        self.names = names
        kept = without_detours(arrows)
        self.parts = [Part(part, kept, len(names)) for part in parts_of(kept)]
        count = max((len(part.columns) for part in self.parts), default=0)
        wide = [0.0] * count
        for part in self.parts:
            for name, column in part.column.items():
                wide[column] = max(wide[column], CHARACTER * len(names[name].text))
        self.wide, self.left = wide, [8 + sum(wide[:column]) + GAP * column for column in range(count)]

    def svg(self) -> str:
        lines: List[str] = []
        top = 8.0
        for part in self.parts:
            lines += self.part(part, top)
            top += ROW * (part.height() + 0.6)
        width = self.left[-1] + self.wide[-1] + 8 if self.parts else 0
        size = f'viewBox="0 0 {width:.0f} {top:.0f}" width="{width:.0f}" height="{top:.0f}"'
        return "\n".join([f'<svg class="lemmas" xmlns="http://www.w3.org/2000/svg" {size}>', *lines, "</svg>"])

    def part(self, part: Part, top: float) -> Iterator[str]:
        """The names of a part, each with the arrows from it."""
        ways: Dict[int, List[str]] = {}
        for start, end in part.links:
            name = start[1] % len(self.names)
            ways.setdefault(name, []).append(self.way(part, start, end, top))
        for name, column in part.column.items():
            x, y = self.left[column], top + ROW * (part.rows[column, name] + 0.5)
            shown = self.names[name]
            text = f'<text x="{x:.0f}" y="{y + 4:.0f}">{escape(shown.text)}<title>{escape(shown.told)}</title></text>'
            drawn = f'<path d="{"".join(ways[name])}"/>' if name in ways else ""
            yield f'<g>{drawn}<a href="{escape(shown.address)}">{text}</a></g>'

    def way(self, part: Part, start: Cell, end: Cell, top: float) -> str:
        """From the right end of a cell to the left end of another one."""
        (x, y), (u, v) = ((self.left[cell[0]], top + ROW * (part.rows[cell] + 0.5)) for cell in (start, end))
        if start[1] >= 0:
            x += CHARACTER * len(self.names[start[1]].text) + 4
        is_name = end[1] >= 0
        edge, u = self.left[start[0]] + self.wide[start[0]], u - 4 * is_name
        passed = f"H{edge:.0f}" if edge > x else ""
        middle = (max(x, edge) + u) / 2
        tip = f"m{-TIP} {-TIP / 2}l{TIP} {TIP / 2}l{-TIP} {TIP / 2}" if is_name else ""
        return f"M{x:.0f} {y:.1f}{passed}C{middle:.0f} {y:.1f} {middle:.0f} {v:.1f} {u:.0f} {v:.1f}{tip}"
