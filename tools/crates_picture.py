#!/usr/bin/env python3
"""Prints a picture of the layers of crates.txt: each is a box with its crates, and depends on those that its arrows lead to.

A comment line of crates.txt begins a layer (`# parts: what they are`). The picture leaves out arrows that follow from
others. docs/CRATES.md lists on which crates each crate depends.

Exit status:
  0  the picture was printed
  2  a refused command line

Examples:
  tools/crates_picture.py > docs/crates.svg
  tools/crates_picture.py --layers
"""
import re
import sys
from math import ceil
from typing import Dict, List, NamedTuple, Set, Tuple

sys.dont_write_bytecode = True
from command_line import parser_of  # noqa: E402  (it is in this folder)
from crates import CRATES, read_crates  # noqa: E402  (likewise)

MARGIN, GAP_X, GAP_Y, PAD, LINE = 24.0, 28.0, 40.0, 10.0, 18.0
# how wide a letter of a crate's name is at most, on the average, and one of a title
LETTER, TITLE = 7.0, 8.8
# the crates of a layer are in at most so many columns
COLUMNS = 3
SWEEPS = 40

Arrow = Tuple["Layer", "Layer"]


class Layer(NamedTuple):
    """A layer, with what it is and its crates."""

    name: str
    what: str
    crates: Tuple[str, ...]

    def column(self) -> float:
        """Returns the width of a column of its crates."""
        return LETTER * max(map(len, self.crates)) + 2 * PAD

    def lines(self) -> int:
        """Returns the number of crates in a column."""
        return ceil(len(self.crates) / COLUMNS)

    def width(self) -> float:
        return max(ceil(len(self.crates) / self.lines()) * self.column(), 2 * PAD + TITLE * len(self.name))

    def height(self) -> float:
        return 2 * PAD + LINE * (1 + self.lines())


class Node(NamedTuple):
    """A layer in a row, or the place where an arrow (its two ends) passes that row."""

    row: int
    layers: Tuple[Layer, ...]

    def is_box(self) -> bool:
        return len(self.layers) == 1

    def width(self) -> float:
        return self.layers[0].width() if self.is_box() else 0.0

    def height(self) -> float:
        return self.layers[0].height()


def read_layers(text: str) -> List[Layer]:
    """The layers, from the lowest on."""
    parts = re.split(r"^# (\w+): (.*)$", text, flags=re.M)
    return [
        Layer(name, what, tuple(read_crates(lines))) for name, what, lines in zip(parts[1::3], parts[2::3], parts[3::3])
    ]


def reduced(below: Dict[str, Set[str]]) -> Dict[str, Set[str]]:
    """Returns for each name those below it on which no other one below it depends."""
    found: Dict[str, Set[str]] = {}

    def all_below(name: str) -> Set[str]:
        if name not in found:
            found[name] = below[name].union(*map(all_below, below[name]))
        return found[name]

    return {
        name: {one for one in ones if not any(one in all_below(other) for other in ones)}
        for name, ones in below.items()
    }


def arrows_of(crates: Dict[str, List[str]], layers: List[Layer]) -> List[Arrow]:
    """The arrows from each layer to those on which its crates depend."""
    layer_of = {crate: layer for layer in layers for crate in layer.crates}
    below = {
        layer.name: {layer_of[library].name for crate in layer.crates for library in crates[crate]} - {layer.name}
        for layer in layers
    }
    lower = reduced(below)
    return [(upper, layer) for upper in layers for layer in layers if layer.name in lower[upper.name]]


def rows_of(layers: List[Layer], arrows: List[Arrow]) -> Dict[Layer, int]:
    """Returns the row of each layer, from the top: one below the lowest of those that depend on it."""
    rows: Dict[Layer, int] = {}
    for layer in reversed(layers):
        rows[layer] = max([rows[start] + 1 for start, end in arrows if end == layer], default=0)
    return rows


def ways_of(arrows: List[Arrow], rows: Dict[Layer, int]) -> List[List[Node]]:
    """The way of each arrow from row to row."""
    return [
        [
            Node(rows[start], (start,)),
            *(Node(row, (start, end)) for row in range(rows[start] + 1, rows[end])),
            Node(rows[end], (end,)),
        ]
        for start, end in arrows
    ]


def neighbours_of(ways: List[List[Node]]) -> Dict[Node, List[Node]]:
    found: Dict[Node, List[Node]] = {}
    for way in ways:
        for upper, lower in zip(way, way[1:]):
            found.setdefault(upper, []).append(lower)
            found.setdefault(lower, []).append(upper)
    return found


def spread(row: List[Node], wishes: Dict[Node, float]) -> Dict[Node, float]:
    """The middles of a row's nodes, in the order of their wishes: as near to these as their widths and gaps allow."""
    order = sorted(row, key=lambda node: wishes[node])
    middles: List[float] = []
    for node in order:
        least = middles[-1] + (order[len(middles) - 1].width() + node.width()) / 2 + GAP_X if middles else wishes[node]
        middles.append(max(least, wishes[node]))
    # what was pushed to the right is shared by all
    shift = sum(wishes[node] - middle for node, middle in zip(order, middles)) / len(order)
    return {node: middle + shift for node, middle in zip(order, middles)}


def middles_of(ways: List[List[Node]]) -> Dict[Node, float]:
    """Returns the middle of each node, which is moved next to its neighbours again and again."""
    near = neighbours_of(ways)
    count = max(node.row for node in near) + 1
    rows = [sorted((node for node in near if node.row == row), key=lambda node: node.layers) for row in range(count)]
    middles = {node: 100.0 * place for row in rows for place, node in enumerate(row)}
    for sweep in range(SWEEPS):
        for row in rows if sweep % 2 == 0 else reversed(rows):
            wishes = {node: sum(middles[other] for other in near[node]) / len(near[node]) for node in row}
            middles.update(spread(row, wishes))
    left = min(middle - node.width() / 2 for node, middle in middles.items())
    return {node: middle - left + MARGIN for node, middle in middles.items()}


def tops_of(nodes: List[Node]) -> List[float]:
    """The upper end of each row, and of one below the last."""
    tops = [MARGIN]
    for row in range(max(node.row for node in nodes) + 1):
        tops.append(tops[-1] + GAP_Y + max(node.height() for node in nodes if node.is_box() and node.row == row))
    return tops


def curve(x: float, y: float, to_x: float, to_y: float) -> str:
    middle = (y + to_y) / 2
    return f"C {x:.1f} {middle:.1f} {to_x:.1f} {middle:.1f} {to_x:.1f} {to_y:.1f}"


def end_x(way: List[Node], place: int, ways: List[List[Node]], middles: Dict[Node, float]) -> float:
    """Where an arrow meets the node at this place of its way: of several at one side of a box, side by side."""
    node = way[place]
    if not node.is_box():
        return middles[node]
    step = 1 if place == 0 else -2
    side = sorted(
        (other[step] for other in ways if other[0 if place == 0 else -1] == node), key=lambda other: middles[other]
    )
    part = (side.index(way[step]) + 1) / (len(side) + 1)
    return middles[node] + node.width() * (part - 0.5)


def drawn_arrow(way: List[Node], ways: List[List[Node]], middles: Dict[Node, float], tops: List[float]) -> str:
    xs = [end_x(way, place, ways, middles) for place in range(len(way))]
    y = tops[way[0].row] + way[0].height()
    parts = [f"M {xs[0]:.1f} {y:.1f}"]
    for x, node, to_x, below in zip(xs, way, xs[1:], way[1:]):
        bottom = tops[node.row + 1] - GAP_Y
        if bottom > y:
            parts.append(curve(x, y, x, bottom))
        y = tops[below.row]
        parts.append(curve(x, bottom, to_x, y))
    return f'<path class="arrow" d="{" ".join(parts)}"/>'


def drawn_box(layer: Layer, middle: float, top: float) -> List[str]:
    left = middle - layer.width() / 2
    box = f'<rect class="box" x="{left:.1f}" y="{top:.1f}" width="{layer.width():.1f}" height="{layer.height():.1f}" rx="6"/>'
    title = f'<text class="title" x="{left + PAD:.1f}" y="{top + PAD + 9:.1f}">{layer.name}</text>'
    places = ((divmod(place, layer.lines()), crate) for place, crate in enumerate(layer.crates))
    names = [
        f'<text class="line" x="{left + PAD + layer.column() * column:.1f}" y="{top + PAD + 9 + LINE * (row + 1):.1f}">'
        f"{crate}</text>"
        for (column, row), crate in places
    ]
    return [box, title, *names]


STYLE = """<style>
text { font-family: sans-serif; font-size: 12px; fill: #1f2937; }
.box { fill: #dbeafe; stroke: #3b6fb6; stroke-width: 1.5; }
.title { font-weight: bold; }
.arrow { fill: none; stroke: #4b5563; stroke-width: 1.2; marker-end: url(#head); }
</style>
<defs><marker id="head" viewBox="0 0 10 10" refX="10" refY="5" markerWidth="7" markerHeight="7" orient="auto">\
<path d="M 0 0 L 10 5 L 0 10 z" fill="#4b5563"/></marker></defs>"""


def picture(text: str) -> str:
    layers = read_layers(text)
    arrows = arrows_of(read_crates(text), layers)
    ways = ways_of(arrows, rows_of(layers, arrows))
    middles = middles_of(ways)
    tops = tops_of(list(middles))
    width = max(middle + node.width() / 2 for node, middle in middles.items()) + MARGIN
    height = tops[-1] - GAP_Y + MARGIN
    lines = [
        f'<svg xmlns="http://www.w3.org/2000/svg" width="{width:.0f}" height="{height:.0f}">',
        STYLE,
        f'<rect width="{width:.0f}" height="{height:.0f}" fill="#ffffff"/>',
    ]
    lines += [drawn_arrow(way, ways, middles, tops) for way in ways]
    for node, middle in middles.items():
        lines += drawn_box(node.layers[0], middle, tops[node.row]) if node.is_box() else []
    return "\n".join([*lines, "</svg>"])


def table(text: str) -> str:
    """The layers as rows of a table, from the highest on."""
    return "\n".join(
        f"| {layer.name} | {', '.join(f'`{crate}`' for crate in layer.crates)} | {layer.what} |"
        for layer in reversed(read_layers(text))
    )


if __name__ == "__main__":
    parser = parser_of("crates_picture.py", __doc__)
    parser.add_argument(
        "--layers", action="store_true", help="print the layers as rows of a table of docs/ARCHITECTURE.md"
    )
    print((table if parser.parse_args().layers else picture)(CRATES.read_text()))
    sys.exit(0)
