"""What a picture of an audit looks like, for tests that its boxes, texts and arrows do not overlap."""
import xml.etree.ElementTree as ElementTree

from support import expect

SVG = "{http://www.w3.org/2000/svg}"


def edges_of(left, top, width, height):
    return left, top, left + width, top + height


def drawn(text):
    """The boxes of a picture as edges, its texts as place and extent, and its arrows as lists of points."""
    root = ElementTree.fromstring(text)
    boxes = [
        edges_of(*(float(box.get(name)) for name in ("x", "y", "width", "height")))
        for box in root.iter(SVG + "rect")
        if (box.get("class") or "").startswith("box")
    ]
    # letters are at most so wide, on the average of a line
    letter = {"title": 8.8, "line": 7.0, "head": 8.8}
    texts = [
        (
            shown.text,
            float(shown.get("x")),
            float(shown.get("y")),
            letter[shown.get("class")] * len(shown.text),
            shown.get("class"),
        )
        for shown in root.iter(SVG + "text")
    ]
    arrows = [
        [float(word) for word in path.get("d").split() if word not in "MC"]
        for path in root.iter(SVG + "path")
        if path.get("class") == "arrow"
    ]
    return float(root.get("width")), float(root.get("height")), boxes, texts, arrows


def pieces_of(arrow):
    """The curves that an arrow is made of, each begun where the one before ends."""
    return [arrow[start : start + 8] for start in range(0, len(arrow) - 2, 6)]


def overlap(one, other):
    return one[0] < other[2] and other[0] < one[2] and one[1] < other[3] and other[1] < one[3]


def overlapping(frames):
    """Those that overlap with one before them."""
    return [one for place, one in enumerate(frames) if any(overlap(one, other) for other in frames[:place])]


def is_inside(box, x, y):
    return box[0] + 0.5 < x < box[2] - 0.5 and box[1] + 0.5 < y < box[3] - 0.5


def point(arrow, part):
    """A point of a curve."""
    weights = ((1 - part) ** 3, 3 * part * (1 - part) ** 2, 3 * part**2 * (1 - part), part**3)
    return [sum(weight * value for weight, value in zip(weights, arrow[axis::2])) for axis in (0, 1)]


def expect_picture(text, count_boxes, count_arrows):
    """No two boxes and no two texts overlap, each text is in its box, and no arrow crosses a box."""
    width, height, boxes, texts, arrows = drawn(text)
    expect("boxes and arrows", (len(boxes), len(arrows)), (count_boxes, count_arrows))
    expect("boxes that overlap", overlapping(boxes), [])
    frames = [(x, y - 11, x + extent, y + 3) for _, x, y, extent, _ in texts]
    expect("texts that overlap", overlapping(frames), [])
    outside = [
        shown
        for (shown, *_, kind), (left, top, right, bottom) in zip(texts, frames)
        if kind != "head"
        and not any(box[0] < left and box[1] < top and right < box[2] and bottom < box[3] for box in boxes)
    ]
    expect("texts outside of boxes", outside, [])
    points = [point(piece, step / 50) for arrow in arrows for piece in pieces_of(arrow) for step in range(51)]
    expect("points of arrows in boxes", [at for at in points if any(is_inside(box, *at) for box in boxes)], [])
    expect(
        "what is outside of the picture", [at for at in points if not (0 < at[0] < width and 0 < at[1] < height)], []
    )
    expect(
        "boxes outside of the picture", [box for box in boxes if box[0] < 0 or box[2] > width or box[3] > height], []
    )
