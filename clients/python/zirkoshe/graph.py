"""An audit as a graph: boxes for what its rows name, and arrows for what they refer to.

`graph_of` makes the graph of an audit, `dot` its text for Graphviz, `svg` a picture.
"""

from typing import Dict, List, NamedTuple, Sequence, Tuple
from xml.sax.saxutils import escape

from .rows import Audit, ClientRow, MasterRow, ObjectRow, flag_words


class Box(NamedTuple):
    """A box of the graph: its title, the lines below it, and its look."""

    title: str
    lines: Tuple[str, ...]
    look: str


class Arrow(NamedTuple):
    """An arrow from a box to another, by their titles; from a line if it has one."""

    start: str
    end: str
    line: str = ""


class Graph(NamedTuple):
    """Columns of boxes with their heads, and the arrows between boxes."""

    heads: Tuple[str, ...]
    columns: Tuple[List[Box], ...]
    arrows: List[Arrow]


#: How long a line of a box is at most.
WIDEST = 30


def wrap(first: str, words: List[str]) -> List[str]:
    """Returns a list of words after a first one, in lines that are short enough."""
    lines = [first]
    for place, word in enumerate(words):
        word += "," if place + 1 < len(words) else ""
        if len(lines[-1]) + 1 + len(word) > WIDEST:
            lines.append("   " + word)
        else:
            lines[-1] += " " + word
    return lines


def master_box(audit: Audit, row: MasterRow) -> Box:
    """Returns the box of a master."""
    lease = [audit.name_of(number) for number in audit.lease_of(row.master)]
    lines = (
        ["the device's master"]
        if any(device.master == row.master for device in audit.device)
        else []
    )
    if row.lessor:
        lines += [f"lessee {row.lessee_id} of master {row.lessor}"]
        lines += wrap("lease of", lease) if lease else ["its lease has ended"]
    if row.token:
        lines += [f"lease token {row.token} is open"]
    return Box(f"master {row.master}", tuple(lines), "master")


def client_box(audit: Audit, row: ClientRow) -> Box:
    """Returns the box of a client."""
    lines = ["this audit"] if row.client == audit.auditor else []
    lines += wrap("", flag_words(row.flags)) if row.flags else []
    lines += [f"magic {row.magic}"] if row.magic else []
    may_set = [audit.name_of(number) for number in audit.may_set(row)]
    lines += wrap("may set", may_set) if may_set else ["may set nothing"]
    lines += [
        f"handle {hold.handle}" for hold in audit.holds if hold.client == row.client
    ]
    look = "auditor" if row.client == audit.auditor else "client"
    return Box(f"client {row.client}", tuple(line.strip() for line in lines), look)


def buffer_box(audit: Audit, row: ObjectRow) -> Box:
    """Returns the box of a buffer."""
    lines = [f"{row.size} bytes"]
    lines += [f"name {name.name}" for name in audit.names if name.object == row.object]
    lines += [
        f"token {token.token} of client {token.exporter}"
        for token in audit.tokens
        if token.object == row.object
    ]
    return Box(f"buffer {row.object}", tuple(lines), "buffer")


def listed_numbers(first: str, numbers: List[int]) -> List[str]:
    """Returns numbers after a word, which has an s if there are several."""
    plural = "s" if len(numbers) > 1 else ""
    return wrap(first + plural, list(map(str, numbers)))


def connector_box(audit: Audit, number: int) -> Box:
    """Returns the box of a connector."""
    users = [row.client for row in audit.clients if number in audit.may_use(row)]
    routes = audit.routes.get(number, [])
    lines = listed_numbers("possible CRTC", routes) if routes else ["no possible CRTC"]
    lines += (
        listed_numbers("may be used by client", users)
        if users
        else ["may be used by no client"]
    )
    return Box(audit.name_of(number), tuple(lines), "connector")


def output_box(audit: Audit, number: int) -> Box:
    """Returns the box of a CRTC or plane."""
    setters = [row.client for row in audit.clients if number in audit.may_set(row)]
    shown = [row.framebuffer for row in audit.shown if row.mode_object == number]
    lines = [f"shows framebuffer {shown[0]}" if shown else "dark"]
    lines += (
        listed_numbers("may be set by client", setters)
        if setters
        else ["may be set by no client"]
    )
    return Box(audit.name_of(number), tuple(lines), "output" if shown else "dark")


def graph_of(audit: Audit) -> Graph:
    """Returns the graph of an audit: boxes in columns, and arrows between columns."""
    columns = (
        [master_box(audit, row) for row in audit.masters],
        [client_box(audit, row) for row in audit.clients],
        [buffer_box(audit, row) for row in audit.objects],
        [
            Box(
                f"framebuffer {row.framebuffer}",
                (f"of client {row.client}",),
                "framebuffer",
            )
            for row in audit.framebuffers
        ],
        [output_box(audit, number) for number in audit.outputs()],
        [connector_box(audit, number) for number in audit.routes],
    )
    arrows = [
        Arrow(f"master {row.master}", f"master {row.lessor}")
        for row in audit.masters
        if row.lessor
    ]
    arrows += [
        Arrow(f"client {row.client}", f"master {row.master}")
        for row in audit.clients
        if row.master
    ]
    arrows += [
        Arrow(f"client {row.client}", f"buffer {row.object}", f"handle {row.handle}")
        for row in audit.holds
    ]
    arrows += [
        Arrow(f"framebuffer {row.framebuffer}", f"buffer {row.object}")
        for row in audit.framebuffers
    ]
    arrows += [
        Arrow(audit.name_of(row.mode_object), f"framebuffer {row.framebuffer}")
        for row in audit.shown
    ]
    arrows += [
        Arrow(audit.name_of(number), audit.name_of(crtc))
        for number, crtcs in audit.routes.items()
        for crtc in crtcs
    ]
    there = {box.title for column in columns for box in column}
    # rows of two moments may name what no longer exists
    arrows = [arrow for arrow in arrows if arrow.start in there and arrow.end in there]
    return Graph(
        (
            "Masters",
            "Clients",
            "Buffers",
            "Framebuffers",
            "CRTCs and planes",
            "Connectors",
        ),
        columns,
        arrows,
    )


#: The fill and the border of each look.
LOOKS = {
    "master": ("#fdf0d5", "#c98a1b"),
    "client": ("#dbeafe", "#3b6fb6"),
    "auditor": ("#f3f4f6", "#9aa3af"),
    "buffer": ("#e7defa", "#7a5bb8"),
    "framebuffer": ("#fbe0ea", "#bb4c7c"),
    "output": ("#d8f3dc", "#3c8a55"),
    "dark": ("#e5e7eb", "#6b7280"),
    "connector": ("#cffafe", "#1f7f92"),
}
#: The colour of arrows and heads.
INK = "#4b5563"


def dot(graph: Graph) -> str:
    """Returns the graph for Graphviz, with the columns and colours of the picture."""
    lines = [
        "digraph audit {",
        "    rankdir=LR;",
        "    ranksep=0.8;",
        '    node [shape=box, style="rounded,filled", fontname="sans-serif"];',
        "    edge [constraint=false, "
        f'fontname="sans-serif", fontsize=12, color="{INK}"];',
    ]
    places = place(graph)
    for head, column in zip(graph.heads, graph.columns):
        titles = sorted((box.title for box in column), key=lambda it: places[it].top)
        lines += [f'    "{head}" [shape=plaintext, style="", fontcolor="{INK}"];']
        lines += map(dot_box, column)
        lines += dot_column([head, *titles])
    return "\n".join(
        [*lines, *dot_order(graph.heads), *map(dot_arrow, graph.arrows), "}"]
    )


def dot_column(titles: Sequence[str]) -> List[str]:
    """Returns the lines of a column for Graphviz: its boxes are in this order."""
    names = "; ".join(f'"{title}"' for title in titles)
    return [f"    {{ rank=same; {names} }}", *dot_order(titles)]


def dot_order(titles: Sequence[str]) -> List[str]:
    """Returns the line that has Graphviz place boxes in order, without arrows."""
    chain = " -> ".join(f'"{title}"' for title in titles)
    hidden = "style=invis, constraint=true"
    return [f"    {chain} [{hidden}];"] if len(titles) > 1 else []


def dot_box(box: Box) -> str:
    """Returns the line of a box for Graphviz."""
    fill, border = LOOKS[box.look]
    label = "\\l".join([box.title, *box.lines, ""])
    look = f'fillcolor="{fill}", color="{border}"'
    return f'    "{box.title}" [label="{label}", {look}];'


def dot_arrow(arrow: Arrow) -> str:
    """Returns the line of an arrow for Graphviz."""
    label = f' [label="{arrow.line}"]' if arrow.line else ""
    return f'    "{arrow.start}" -> "{arrow.end}"{label};'


# the graph as a picture

#: The columns whose boxes are in the order that makes the arrows shorter.
UNORDERED = ("Buffers", "Framebuffers")
MARGIN, TOP, GAP_X, GAP_Y, PAD, LINE, TITLE = 56, 64, 76, 22, 12, 18, 24
#: The width of a letter in the sizes 12 and 14: the most on the average of a line.
LETTER, TITLE_LETTER = 7.0, 8.8


class Place(NamedTuple):
    """The place of a box."""

    box: Box
    left: float
    top: float
    width: float
    height: float

    def right(self) -> float:
        """Returns the right edge."""
        return self.left + self.width

    def middle(self) -> float:
        """Returns the height of the middle."""
        return self.top + self.height / 2

    def baseline(self, number: int) -> float:
        """Returns the base line of a line of text."""
        return self.top + PAD + TITLE + LINE * number + 10


def width_of(box: Box) -> float:
    """Returns the width that a box needs."""
    return 2 * PAD + max(
        [TITLE_LETTER * len(box.title), *(LETTER * len(line) for line in box.lines)]
    )


def height_of(box: Box) -> float:
    """Returns the height that a box needs."""
    return 2 * PAD + TITLE - 4 + LINE * len(box.lines)


def wish(box: Box, graph: Graph, places: Dict[str, Place]) -> float:
    """Returns the best place for a box: next to those that it is joined to."""
    others = [
        arrow.end if arrow.start == box.title else arrow.start
        for arrow in graph.arrows
        if box.title in arrow[:2]
    ]
    middles = [places[other].middle() for other in others if other in places]
    return sum(middles) / len(middles) - height_of(box) / 2 if middles else TOP


def place(graph: Graph) -> Dict[str, Place]:
    """Returns a place for each box: column by column, one below the other."""
    places: Dict[str, Place] = {}
    left = float(MARGIN)
    for head, column in zip(graph.heads, graph.columns):
        width = max([TITLE_LETTER * len(head), *map(width_of, column)])
        wishes = {box.title: wish(box, graph, places) for box in column}
        order = (
            sorted(column, key=lambda box: wishes[box.title])
            if head in UNORDERED
            else column
        )
        places.update(stack(order, left, width, wishes))
        left += width + GAP_X
    return places


def stack(
    column: List[Box], left: float, width: float, wishes: Dict[str, float]
) -> Dict[str, Place]:
    """Places a column: each box no higher than its wish, and below the one before."""
    places: Dict[str, Place] = {}
    top = float(TOP)
    for box in column:
        top = max(top, wishes[box.title])
        places[box.title] = Place(box, left, top, width, height_of(box))
        top += height_of(box) + GAP_Y
    return places


def text(x: float, y: float, words: str, kind: str) -> str:
    """Returns a line of text."""
    return f'<text class="{kind}" x="{x:.1f}" y="{y:.1f}">{escape(words)}</text>'


def drawn_box(at: Place) -> List[str]:
    """Returns a box with its title and its lines."""
    parts = [
        f'<rect class="box {at.box.look}" x="{at.left:.1f}" y="{at.top:.1f}" '
        f'width="{at.width:.1f}" height="{at.height:.1f}" rx="7"/>',
        text(at.left + PAD, at.top + PAD + 12, at.box.title, "title"),
    ]
    parts += [
        text(at.left + PAD, at.baseline(number), line, "line")
        for number, line in enumerate(at.box.lines)
    ]
    return parts


def port(at: Place, arrow: Arrow, ends: List[Arrow]) -> float:
    """Returns where an arrow meets a box: at its line, or evenly among the others."""
    if arrow.line and arrow.start == at.box.title:
        return at.baseline(at.box.lines.index(arrow.line)) - 4
    return at.top + at.height * (ends.index(arrow) + 1) / (len(ends) + 1)


def meeting(
    graph: Graph, places: Dict[str, Place], title: str, arrow: Arrow
) -> List[Arrow]:
    """Returns the arrows that meet a box on the side of this one, from the top down."""

    def other(of: Arrow) -> Place:
        return places[of.end if of.start == title else of.start]

    def side(of: Arrow) -> bool:
        return other(of).left > places[title].left

    found = [of for of in graph.arrows if title in of[:2] and side(of) == side(arrow)]
    return sorted(found, key=lambda of: (other(of).top, of.line))


def drawn_arrow(graph: Graph, places: Dict[str, Place], arrow: Arrow) -> str:
    """Returns a curve from box to box, left of them if they are in one column."""
    start, end = places[arrow.start], places[arrow.end]
    y1 = port(start, arrow, meeting(graph, places, arrow.start, arrow))
    y2 = port(end, arrow, meeting(graph, places, arrow.end, arrow))
    x1 = start.right() if end.left > start.left else start.left
    x2 = end.right() if start.left > end.left else end.left
    bend = (x2 - x1) / 2
    c1, c2 = (x1 + bend, x2 - bend) if bend else (x1 - 44, x2 - 44)
    curve = f"C {c1:.1f} {y1:.1f} {c2:.1f} {y2:.1f} {x2:.1f} {y2:.1f}"
    return f'<path class="arrow" d="M {x1:.1f} {y1:.1f} {curve}"/>'


def style() -> str:
    """Returns the style of the picture."""
    lines = [
        "text { font-family: 'DejaVu Sans', Verdana, Arial, sans-serif; "
        "fill: #1f2937; }",
        ".line { font-size: 12px; }",
        ".title { font-size: 14px; font-weight: bold; }",
        ".head { font-size: 15px; fill: #4b5563; }",
        ".box { stroke-width: 1.5; }",
        ".arrow { fill: none; stroke: #4b5563; stroke-width: 1.4; "
        "marker-end: url(#tip); }",
    ]
    lines += [
        f".{look} {{ fill: {fill}; stroke: {stroke}; }}"
        for look, (fill, stroke) in LOOKS.items()
    ]
    return "\n".join(["<style>", *lines, "</style>"])


def svg(graph: Graph) -> str:
    """Returns the graph as a picture."""
    places = place(graph)
    widths = [
        max([TITLE_LETTER * len(head), *map(width_of, column)])
        for head, column in zip(graph.heads, graph.columns)
    ]
    width = 2 * MARGIN + sum(widths) + GAP_X * (len(widths) - 1)
    height = max([TOP, *(at.top + at.height for at in places.values())]) + MARGIN / 2
    parts = [
        f'<svg xmlns="http://www.w3.org/2000/svg" width="{width:.0f}" '
        f'height="{height:.0f}" viewBox="0 0 {width:.0f} {height:.0f}">',
        "<title>What a drm_server holds</title>",
        style(),
        '<defs><marker id="tip" viewBox="0 0 10 10" refX="9" refY="5" '
        'markerWidth="8" markerHeight="8" orient="auto">'
        '<path d="M 0 1 L 10 5 L 0 9 z" fill="#4b5563"/></marker></defs>',
        f'<rect width="{width:.0f}" height="{height:.0f}" fill="#ffffff"/>',
    ]
    lefts = [
        MARGIN + sum(widths[:number]) + GAP_X * number for number in range(len(widths))
    ]
    parts += [
        text(left, TOP - 24, head, "head") for head, left in zip(graph.heads, lefts)
    ]
    parts += [drawn_arrow(graph, places, arrow) for arrow in graph.arrows]
    for at in places.values():
        parts += drawn_box(at)
    return "\n".join([*parts, "</svg>"])
