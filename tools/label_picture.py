"""What a picture by `label` has to show, for tools/label_runs: all that the reference tells, and labels that keep the promises of docs/LABEL.md.

The places of labels are not compared with another program's: each label has to lie in the picture and on no other, and to say
by its place or by its leader lines what it is the label of.
"""

import html
import re

MARK = "<!-- A picture by label of Vumeskar -->\n"
SHAPES = {"<circle r='6'": 3, "<path d='M-6-6H6V6H-6Z'": 2, "<path d='M0-8L8 6H-8Z'": 1, "<path d='M-6-6L6 6M-6 6L6-6'": 0}
MOST_MARKS = 1000

LABEL = re.compile(r"<path class='leader' d='M(-?\d+) (-?\d+)L(-?\d+) (-?\d+)'/>|<text class='label' x='(-?\d+)' y='(-?\d+)'>([^<]*)</text>")


def pairs(text):
    return [tuple(pair) for pair in re.findall(r"(-?[\d.]+)[ ,](-?[\d.]+)", text)]


def seen(svg):
    """The faces, the edges and the marks of a picture, as the reference tells them."""
    faces = [pairs(points) for points in re.findall(r"<polygon fill='[^']*' points='([^']*)'", svg)]
    edges = sorted(tuple(sorted(pairs(line))) for line in re.findall(r"^M.*$", svg, re.M))
    marks = [(SHAPES[shape], html.unescape(title), (x, y)) for shape, x, y, title in re.findall(
        r"^(<(?:circle r='6'|path d='[^']*')) [^>]*transform='translate\((-?[\d.]+) (-?[\d.]+)\)'><title>([^<]*)</title>",
        svg, re.M)]
    return faces, edges, marks


class Box:
    """The area of a label."""

    def __init__(self, x, y, text):
        self.text = html.unescape(text)
        width = 12 * len(self.text) + 8
        self.left, self.bottom = x - 4, y + 6
        self.right, self.top = self.left + width, self.bottom - 24
        self.leaders = []

    def meets(self, other):
        return (self.left < other.right and other.left < self.right and self.top < other.bottom
                and other.top < self.bottom)


def boxes_of(svg):
    """The labels in their order, each with the ends of its leader lines; a line has to begin at its label's border."""
    found, leaders = [], []
    for a, b, c, d, x, y, text in LABEL.findall(svg):
        if not text:
            leaders.append(tuple(map(int, (a, b, c, d))))
            continue
        box = Box(int(x), int(y), text)
        for a, b, c, d in leaders:
            if not (box.left <= a <= box.right and box.top <= b <= box.bottom):
                return None
            box.leaders.append((c, d))
        found.append(box)
        leaders = []
    return None if leaders else found


class Drawing:
    """What the reference knows of a picture."""

    def __init__(self, label):
        self.label, self.sheet = label, label.sheet
        self.longer = max(self.sheet.width, self.sheet.height)
        self.across = max(1000 * self.sheet.width // self.longer + 250, 1040)
        self.down = 1000 * self.sheet.height // self.longer + 250

    def pixel(self, point):
        """The pixel of a point, at least 12 from the borders."""
        x, y, z = point
        unit = z * self.longer
        left = (1000 * x + 125 * unit) // unit
        top = max(1000 * self.sheet.height * z + 125 * unit - 1000 * y, 0) // unit
        return max(min(left, self.across - 12), 12), max(min(top, self.down - 12), 12)

    def holds(self, loop, left, top):
        """Whether a pixel is in the face of a loop."""
        x, y = (left - 125) * self.longer, 1000 * self.sheet.height - (top - 125) * self.longer
        if x < 0 or y < 0:
            return False
        found = self.label.board.place("rational", (x, y, 1000))
        return isinstance(found, tuple) and found[0] == (3, loop, 0)

    def is_label_of(self, box, loop):
        """Whether this can be the label of the face of a loop."""
        numeral, words = self.label.numeral(loop)
        if numeral is None or box.text not in (str(numeral), f"{numeral} {words}"):
            return False
        tips = [self.pixel(point) for point, kind, _, cell in self.label.marks[:MOST_MARKS] if kind == 3 and cell == loop]
        if tips or box.leaders:
            # Without tips one line leads to the face; its end is rounded, so a pixel beside it may hold it.
            (left, top), near = (box.leaders or [(0, 0)])[0], (-1, 0, 1)
            return (sorted(box.leaders) == sorted(tips) if tips else
                    len(box.leaders) == 1 and any(self.holds(loop, left + i, top + j) for i in near for j in near)
                    or self.is_small(loop))
        return all(self.holds(loop, *at) for at in ((box.left, box.top), (box.right, box.top), (box.left, box.bottom),
                                                    (box.right, box.bottom)))

    def is_small(self, loop):
        """Whether a face may lie between all pixels."""
        entry = self.sheet.loops[loop]
        points = [self.sheet.points[a] for a, _ in self.sheet.edges[entry.start:entry.start + entry.corners]]
        return any(1000 * (max(axis) - min(axis)) < 10 * self.longer for axis in zip(*points)) or len(points) > 4


def wrong_labels(svg, label):
    """What is wrong with the labels of a picture, or None."""
    drawing, boxes = Drawing(label), boxes_of(svg)
    if boxes is None:
        return "a leader line does not begin at a label"
    for i, box in enumerate(boxes):
        if box.left < 4 or box.top < 4 or box.right > drawing.across - 4 or box.bottom > drawing.down - 4:
            return f"the label {box.text} leaves the picture"
        if any(box.meets(other) for other in boxes[:i]):
            return f"the label {box.text} lies on another"
    room = re.search(r"labels without room: (\d+)<", svg)
    left_out, rest = 0, list(boxes)
    for loop in range(len(label.sheet.loops)):
        if label.numeral(loop)[0] is not None:
            if rest and drawing.is_label_of(rest[0], loop):
                rest.pop(0)
            else:
                left_out += 1
    for point, kind, _, name in label.marks[:MOST_MARKS]:
        if kind != 3:
            if rest and rest[0].text == name and rest[0].leaders == [drawing.pixel(point)]:
                rest.pop(0)
            else:
                left_out += 1
    if rest:
        return f"the label {rest[0].text} is of nothing"
    if left_out != (int(room.group(1)) if room else 0):
        return f"{left_out} labels are left out, and it is not told"
    return None


def wrong(svg, label):
    """What is wrong with a picture, or None."""
    if not svg.startswith(MARK + "<svg ") or not svg.endswith("</svg>\n"):
        return "it does not begin and end as a picture"
    faces, edges, marks = seen(svg)
    their_faces, their_edges, their_marks = label.drawn()
    if faces != their_faces:
        return "the faces differ"
    if edges != their_edges:
        return "the edges differ"
    # A refused tip may be far off, and is then drawn at the border.
    if [it[:2] for it in marks] != [it[:2] for it in their_marks]:
        return "the marks differ"
    if any(a != b for (kind, _, a), (_, _, b) in zip(marks, their_marks) if kind):
        return "the places of marks differ"
    return wrong_labels(svg, label)
