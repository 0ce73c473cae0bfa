"""The quiver of a statement as a picture

Writes SVG, or a picture for a paper that loads tikz, or a graph for Graphviz, which places it anew. Objects stand on a grid,
where a search finds their places that goes the same way each time: long arrows are dear, and those to the left or up, askew,
that cross, or that run over objects. Maps with the same ends share an arrow; it is bent where there is one back, and where
there was no way around an object. What is wrong with the statement is told in one line on standard error.
"""
from __future__ import annotations

from html import escape
from math import gcd, hypot, isqrt
from random import Random
from typing import Callable, Dict, List, NamedTuple, Tuple

from opprove.checkers.check import Problem, loaded
from opprove.checkers.check_model import declared_maps
from opprove.checkers.tree import objects_of
from opprove.tool import ended, parser
from opprove.translations.latex import name_in_latex

Cell = Tuple[int, int]  # column and row; rows go down
Point = Tuple[float, float]
Edge = Tuple[int, int]
CELLS = 48  # of a grid on which crossings are looked at
LABEL = 18  # characters in a line of names, unless these are very many


class Arrow(NamedTuple):
    source: int  # objects by their numbers, from 0
    target: int
    names: List[str]
    bend: int  # 0 straight, 1 since there is one back, 2 since it would run over an object


class Picture(NamedTuple):
    objects: List[str]
    cells: List[Cell]
    arrows: List[Arrow]  # one for all maps with the same ends


# ---- Places


def between(start: Cell, end: Cell) -> List[Cell]:
    """The cells over which a straight arrow runs."""
    across, down = end[0] - start[0], end[1] - start[1]
    count = gcd(across, down)
    return [(start[0] + across * step // count, start[1] + down * step // count) for step in range(1, count)]


def side(start: Cell, end: Cell, cell: Cell) -> int:
    """On which side of the line the cell is: positive, negative or 0."""
    return (end[0] - start[0]) * (cell[1] - start[1]) - (end[1] - start[1]) * (cell[0] - start[0])


def ones(mask: int) -> int:
    return bin(mask).count("1")


class Grid:
    """Cells by their numbers, and pairs of cells, the lesser first, which are numbered too. Sets of both are masks of bits."""

    def __init__(self, columns: int, rows: int) -> None:
        self.cells = [(column, row) for row in range(rows) for column in range(columns)]
        numbers = range(len(self.cells))
        self.pairs = [(start, end) for end in numbers for start in range(end)]
        self.number = {pair: number for number, pair in enumerate(self.pairs)}
        self.number.update({(end, start): number for (start, end), number in self.number.items()})
        self.costs = {(start, end): self.cost(start, end) for start in numbers for end in numbers}
        self.over = [self.mask_between(start, end) for start, end in self.pairs]
        self.crossed: Dict[int, int] = {}  # by each pair, as far as that was asked for

    def cost(self, start: int, end: int) -> int:
        across, down = (self.cells[end][way] - self.cells[start][way] for way in (0, 1))
        return 10 * (across**2 + down**2) + 4 * (across < 0) + 4 * (down < 0) + 2 * (down != 0) + 4 * (across * down != 0)

    def mask_between(self, start: int, end: int) -> int:
        return sum(1 << self.cells.index(cell) for cell in between(self.cells[start], self.cells[end]))

    def crossing(self, pair: int) -> int:
        """The pairs whose lines cross that of this one, elsewhere than at an end. On a large grid none are told, for the time."""
        if pair not in self.crossed and len(self.cells) > CELLS:
            self.crossed[pair] = 0
        if pair not in self.crossed:
            mask, (start, end) = 0, (self.cells[number] for number in self.pairs[pair])
            sides = [side(start, end, cell) for cell in self.cells]
            for number, (first, last) in enumerate(self.pairs):
                if sides[first] * sides[last] < 0:
                    ends = self.cells[first], self.cells[last]
                    mask |= (side(*ends, start) * side(*ends, end) < 0) << number
            self.crossed[pair] = mask
        return self.crossed[pair]


class Layout:
    """Objects in cells of a grid, each by its number. Edges are pairs of objects, no two of them the same two."""

    def __init__(self, count: int, edges: List[Edge], grid: Grid) -> None:
        self.grid, self.edges = grid, edges
        self.cells, self.taken = list(range(count)), (1 << count) - 1
        self.at: Dict[int, int] = {cell: cell for cell in self.cells}
        self.of = [[number for number, edge in enumerate(edges) if place in edge] for place in range(count)]
        self.pairs = [grid.number[edge] for edge in edges]
        self.mask = sum(1 << pair for pair in self.pairs)

    def cost(self, places: List[int]) -> int:
        """What depends on the cells of these objects: of their edges, and of others that run over them."""
        grid, own = self.grid, {number for place in places for number in self.of[place]}
        mine, moved = (sum(1 << number for number in numbers) for numbers in ({self.pairs[n] for n in own}, self.cells_of(places)))
        total = sum(sum(grid.cells[cell]) for cell in self.cells_of(places))
        for number, pair in enumerate(self.pairs):
            if number in own:
                start, end = self.edges[number]
                crossed = grid.crossing(pair)
                total += grid.costs[self.cells[start], self.cells[end]] + 80 * ones(grid.over[pair] & self.taken)
                total += 60 * ones(crossed & self.mask) - 30 * ones(crossed & mine)  # once for each two edges
            elif grid.over[pair] & moved:
                total += 80 * ones(grid.over[pair] & moved)
        return total

    def cells_of(self, places: List[int]) -> List[int]:
        return [self.cells[place] for place in places]

    def move(self, place: int, cell: int, limit: float) -> bool:
        """Has an object go to a cell, and the one there to its own, unless that costs as much as the limit, or more."""
        old, other = self.cells[place], self.at.get(cell)
        if cell == old:
            return False
        places = [place] if other is None else [place, other]
        before = self.cost(places)
        self.exchange(places, cell)
        if self.cost(places) - before < limit:
            return True
        self.exchange(places, old)
        return False

    def exchange(self, places: List[int], cell: int) -> None:
        old = self.cells[places[0]]
        del self.at[old]
        for place, new in zip(places, (cell, old)):
            self.cells[place], self.at[new] = new, place
        self.taken = sum(1 << other for other in self.cells)
        for number in {number for place in places for number in self.of[place]}:
            start, end = self.edges[number]
            self.pairs[number] = self.grid.number[self.cells[start], self.cells[end]]
        self.mask = sum(1 << pair for pair in self.pairs)


def cells_of(count: int, edges: List[Edge]) -> List[Cell]:
    """The best of some searches, each of which begins with moves that may cost something."""
    random, least = Random(1), 0
    best: List[int] = []
    grid = Grid(min(count, isqrt(count - 1) + 3), isqrt(count - 1) + 1)
    numbers = range(len(grid.cells))
    moves = min(100 * count**2, 1200 + 50 * count) if edges else 0
    for _ in range(6 if count < 10 else 3 if count < 16 else 1):
        layout = Layout(count, edges, grid)
        for move in range(moves):
            place, cell = int(random.random() * count), int(random.random() * len(grid.cells))
            layout.move(place, cell, 60 * (1 - move / moves) ** 2 * random.random())
        while any([layout.move(place, cell, 0) for place in range(count) for cell in numbers]):
            pass
        total = layout.cost(list(range(count)))
        if not best or total < least:
            best, least = layout.cells, total
    cells = [grid.cells[cell] for cell in best]
    left, top = (min(cell[way] for cell in cells) for way in (0, 1))
    return [(column - left, row - top) for column, row in cells]


def picture(objects: List[str], maps: List[Tuple[str, str, str]]) -> Picture:
    """Of objects, one or more, and maps, each a name, a source and a target."""
    numbers = {name: number for number, name in enumerate(objects)}
    groups: Dict[Edge, List[str]] = {}
    for name, source, target in maps:
        groups.setdefault((numbers[source], numbers[target]), []).append(name)
    edges = [(source, target) for source, target in groups if source != target]
    edges = [edge for place, edge in enumerate(edges) if edge[::-1] not in edges[:place]]
    cells = cells_of(len(objects), edges)
    arrows = []
    for (start, end), names in groups.items():
        is_over = any(cell in cells for cell in between(cells[start], cells[end]))
        bend = 2 if is_over else int(start != end and (end, start) in groups)
        arrows.append(Arrow(start, end, names, bend))
    return Picture(objects, cells, arrows)


def picture_of(problem: Problem) -> Picture:
    objects, ends = objects_of(problem), {letter: problem.ends[letter] for letter in declared_maps(problem)}
    return picture(objects, [(problem.names[letter], objects[source], objects[target]) for letter, (source, target) in ends.items()])


# ---- Texts


def label_lines(names: List[str]) -> List[str]:
    """The names with commas, in lines."""
    lines: List[str] = []
    width = max(LABEL, 3 * isqrt(sum(map(len, names))))
    for place, name in enumerate(names):
        text = name + "," * (place + 1 < len(names))
        if lines and len(lines[-1]) + len(text) < width:
            lines[-1] += " " + text
        else:
            lines.append(text)
    return lines


def loop_way(shown: Picture, place: int) -> Cell:
    """Up, down, right or left: where the fewest arrows lead from an object."""
    column, row = shown.cells[place]
    others = {arrow.source for arrow in shown.arrows if arrow.target == place}
    others |= {arrow.target for arrow in shown.arrows if arrow.source == place}
    steps = [(shown.cells[other][0] - column, shown.cells[other][1] - row) for other in others]
    ways = [(0, -1), (0, 1), (1, 0), (-1, 0)]
    return min(ways, key=lambda way: sum(across * way[0] + down * way[1] > 0 for across, down in steps))


def longest(shown: Picture) -> int:
    """How many characters the longest label and the longest name of an object have together."""
    labels = [len(line) for arrow in shown.arrows for line in label_lines(arrow.names)]
    return max(labels, default=0) + max(map(len, shown.objects))


# In a page the colour is that of its text; by itself, as an image too, it is dark on light or light on dark as the reader has it.
STYLE = (
    ".quiver path{fill:none;stroke:currentColor}.quiver text{font:italic 14px serif;text-anchor:middle;fill:currentColor}"
    ".quiver .object{font-size:17px}@media (prefers-color-scheme:dark){.quiver:root{color:#ddd}}"
)
HEAD = (
    '<defs><marker id="head" viewBox="0 0 8 8" refX="7" refY="4" markerWidth="7" markerHeight="7" orient="auto">'
    '<path d="M0 0L8 4L0 8"/></marker></defs>'
)
CHARACTER, LINE = 7.5, 16  # how wide and high a character is taken to be, in pixels
POINTS = 24  # parts of a curve between the points at which it is looked at
PLACES = (12, 10, 14, 8, 16, 6, 18)  # on a curve, for its label


class Box(NamedTuple):
    """A text: its middle, its width and its height."""

    at: Point
    width: float
    height: float

    def holds(self, point: Point, margin: float) -> bool:
        """Whether a point is inside, or outside by less than the margin."""
        return abs(point[0] - self.at[0]) < self.width / 2 + margin and abs(point[1] - self.at[1]) < self.height / 2 + margin

    def meets(self, other: "Box") -> bool:
        across, down = abs(self.at[0] - other.at[0]), abs(self.at[1] - other.at[1])
        return across < (self.width + other.width) / 2 and down < (self.height + other.height) / 2


class Label(NamedTuple):
    """The names at an arrow: the points of its curve, and the side of it on which they are rather than on the other."""

    lines: List[str]
    curve: List[Point]
    way: Point


class Drawing:
    """A picture in SVG. Lengths are in pixels."""

    def __init__(self, shown: Picture) -> None:
        self.shown = shown
        self.parts: List[str] = []
        self.corners: List[Point] = []  # of all that is drawn
        self.boxes: List[Box] = []
        across = max(125.0, CHARACTER * longest(shown) + 50)
        self.at = [(across * column, 110.0 * row) for column, row in shown.cells]
        self.labels = [self.loop(arrow) if arrow.source == arrow.target else self.line(arrow) for arrow in shown.arrows]
        for name, at in zip(shown.objects, self.at):
            self.text([name], Box(at, CHARACTER * len(name), LINE), ' class="object"')
        # of each label: how far along its arrow, and whether it is on the other side
        self.places = [self.place(label) for label in self.labels]

    def edge(self, place: int, way: Point) -> Point:
        """Where an arrow that leads this way begins, beside the object's name."""
        half = CHARACTER * len(self.shown.objects[place]) / 2 + 6
        far = min(half / (abs(way[0]) or 1e-9), 13 / (abs(way[1]) or 1e-9))
        return self.at[place][0] + far * way[0], self.at[place][1] + far * way[1]

    def line(self, arrow: Arrow) -> Label:
        (x, y), (u, v) = self.at[arrow.source], self.at[arrow.target]
        far = hypot(u - x, v - y)
        normal = (v - y) / far, (x - u) / far  # to the left, as one goes along the arrow
        bend = (0, 22, 80)[arrow.bend]
        turn = (x + u) / 2 + bend * normal[0], (y + v) / 2 + bend * normal[1]
        ways = [((turn[0] - end[0]), (turn[1] - end[1])) for end in ((x, y), (u, v))]
        start, end = (
            self.edge(place, (way[0] / hypot(*way), way[1] / hypot(*way)))
            for place, way in zip((arrow.source, arrow.target), ways)
        )
        return self.path([start, turn, end], "Q", arrow, normal)

    def loop(self, arrow: Arrow) -> Label:
        way = loop_way(self.shown, arrow.source)
        x, y = self.edge(arrow.source, way)
        points = [
            (x + way[0] * far - way[1] * aside, y + way[1] * far + way[0] * aside)
            for far, aside in ((0, -7), (44, -26), (44, 26), (0, 7))
        ]
        return self.path(points, "C", arrow, way)

    def path(self, points: List[Point], kind: str, arrow: Arrow, way: Point) -> Label:
        """Draws a curve by its Bezier points."""
        texts = [f"{x:.1f} {y:.1f}" for x, y in points]
        self.parts.append(f'<path d="M{texts[0]}{kind}{" ".join(texts[1:])}" marker-end="url(#head)"/>')
        self.corners += points
        return Label(label_lines(arrow.names), [bezier(points, place / POINTS) for place in range(POINTS + 1)], way)

    def place(self, label: Label) -> Tuple[float, bool]:
        """Puts a label beside its arrow, where it covers least of what is drawn."""
        found: List[Tuple[float, int, Box, Tuple[float, bool]]] = []
        width, height = CHARACTER * max(map(len, label.lines)), LINE * len(label.lines)
        for place in PLACES:
            (x, y), (a, b), (c, d) = label.curve[place], label.curve[place - 1], label.curve[place + 1]
            far = hypot(c - a, d - b)
            normal = (d - b) / far, (a - c) / far
            for side in (1, -1):
                way = side * normal[0], side * normal[1]
                off = 5 + abs(way[0]) * width / 2 + abs(way[1]) * height / 2
                box = Box((x + off * way[0], y + off * way[1]), width, height)
                is_other = way[0] * label.way[0] + way[1] * label.way[1] < 0
                found.append((self.covered(box, label) + abs(place - 12) + 2 * is_other, len(found), box, (place / POINTS, is_other)))
        _, _, box, chosen = min(found)
        self.text(label.lines, box)
        return chosen

    def covered(self, box: Box, of: Label) -> int:
        """How much of what is drawn is inside, or near if it is another arrow."""
        inside = sum(box.holds(point, 1) for label in self.labels for point in label.curve)
        near = sum(box.holds(point, 6) for label in self.labels if label is not of for point in label.curve)
        return 8 * inside + 2 * near + 30 * sum(box.meets(other) for other in self.boxes)

    def text(self, lines: List[str], box: Box, kind: str = "") -> None:
        """Lines of text in a box."""
        (x, y), height = box.at, LINE * len(lines)
        for place, line in enumerate(lines):
            below = y - height / 2 + LINE * place + 13
            self.parts.append(f'<text{kind} x="{x:.1f}" y="{below:.1f}">{escape(line)}</text>')
        self.boxes.append(box)
        self.corners += [(x - box.width / 2, y - height / 2), (x + box.width / 2, y + height / 2)]


def bezier(points: List[Point], share: float) -> Point:
    """The point of a Bezier curve at this share of its way."""
    while len(points) > 1:
        points = [(x + share * (u - x), y + share * (v - y)) for (x, y), (u, v) in zip(points, points[1:])]
    return points[0]


def svg(shown: Picture) -> str:
    drawing = Drawing(shown)
    (left, right), (top, bottom) = ((min(found) - 8, max(found) + 8) for found in zip(*drawing.corners))
    box = f"{left:.0f} {top:.0f} {right - left:.0f} {bottom - top:.0f}"
    size = f'width="{right - left:.0f}" height="{bottom - top:.0f}"'
    lines = [f'<svg class="quiver" xmlns="http://www.w3.org/2000/svg" viewBox="{box}" {size}>', HEAD, f"<style>{STYLE}</style>"]
    return "\n".join([*lines, *drawing.parts, "</svg>"]) + "\n"


LOOPS = {(0, -1): "above", (0, 1): "below", (1, 0): "right", (-1, 0): "left"}


def tikz(shown: Picture) -> str:
    across = max(3.2, 0.2 * longest(shown) + 1.4)
    lines = [r"\begin{tikzpicture}"]
    for number, (name, (column, row)) in enumerate(zip(shown.objects, shown.cells)):
        lines.append(rf"  \node ({number}) at ({across * column:.1f}, {-2.6 * row:.1f}) {{${name_in_latex(name)}$}};")
    for arrow, (share, is_other) in zip(shown.arrows, Drawing(shown).places):
        way = ("", "[bend left=14]", "[bend left=40]")[arrow.bend]
        if arrow.source == arrow.target:
            way = f"[loop {LOOPS[loop_way(shown, arrow.source)]}]"
        label = r" \\ ".join(" ".join(map(word_in_latex, line.split())) for line in label_lines(arrow.names))
        place = "auto" + ", swap" * is_other + f", pos={share:.2f}" * (share != 0.5)
        lines.append(rf"  \draw[->] ({arrow.source}) to{way} node[{place}, align=center] {{{label}}} ({arrow.target});")
    return "\n".join([*lines, r"\end{tikzpicture}"]) + "\n"


def word_in_latex(word: str) -> str:
    """A name with the comma behind it, if there is one."""
    name = word.rstrip(",")
    return f"${name_in_latex(name)}${word[len(name) :]}"


def dot(shown: Picture) -> str:
    lines = ["digraph {", "  rankdir=LR;", *(f'  "{name}" [shape=plaintext];' for name in shown.objects)]
    for arrow in shown.arrows:
        label = r"\n".join(label_lines(arrow.names))
        lines.append(f'  "{shown.objects[arrow.source]}" -> "{shown.objects[arrow.target]}" [label="{label}"];')
    return "\n".join([*lines, "}"]) + "\n"


# ---- The command


def main(words: List[str]) -> int:
    """Writes the picture, and gives the status."""
    made = parser("picture", __doc__)
    made.add_argument("statement", metavar="STATEMENT", help="a statement")
    form = made.add_mutually_exclusive_group()
    form.add_argument("--tikz", dest="write", action="store_const", const=tikz, default=svg, help="for a paper that loads tikz")
    form.add_argument("--dot", dest="write", action="store_const", const=dot, help="for Graphviz")
    given = made.parse_args(words)
    write: Callable[[Picture], str] = given.write
    return ended(lambda: write(picture_of(Problem(*loaded([given.statement])))).splitlines())

