"""The walk of a tip from the top nodes down to a bottom node that holds it.

Written from docs/REFUSALS.md ("Layer 4: place and list"). Every number of the
nodes is held against its range when it is looked at, since a caller may have
altered it.
"""

from layers import MOST_CHILDREN
from sheetfile import EDGE, FACE, VERTEX
from tips import side

MOST_SIDES = 7


class Altered(Exception):
    """An entry or a node is not as it should be: its place."""

    def __init__(self, place):
        super().__init__(place)
        self.place = place


class Walk:
    """A tip on its way down; `tests` counts the sides that were tested."""

    def __init__(self, width, height, points, nodes, loops, tip):
        self.width, self.height = width, height
        self.points, self.nodes, self.loops = points, nodes, loops
        self.tip = tip
        self.tests = 0

    def place_of(self, v):
        """Where a vertex is. The corners of the sheet are known; an inner
        vertex is read, and lies strictly inside."""
        if v < 4:
            return [(0, 0), (self.width, 0), (self.width, self.height), (0, self.height)][v]
        x, y = self.points[v]
        if not (0 < x < self.width and 0 < y < self.height):
            raise Altered(v)
        return x, y

    def side(self, a, b):
        return side(self.tip, self.place_of(a), self.place_of(b))

    def holds(self, number):
        """All three corners are looked at, one after another, and then the sides."""
        a, b, c = self.nodes[number].corners
        for v in (a, b, c):
            if v >= len(self.points):
                raise Altered(number)
            self.place_of(v)
        for p, q in ((a, b), (b, c), (c, a)):
            self.tests += 1
            if self.side(p, q) == -1:
                return False
        return True

    def top(self, tops):
        """The first top node that holds the tip. Each entry that is come to names
        a node, and one above the entry before it."""
        for i, number in enumerate(tops):
            if number >= len(self.nodes) or i > 0 and number <= tops[i - 1]:
                raise Altered(i)
            if self.holds(number):
                return number
        raise Altered(0)

    def child(self, number):
        """The first child of a node that holds the tip."""
        node = self.nodes[number]
        if node.count > MOST_CHILDREN:
            raise Altered(number)
        for child in node.children[:node.count]:
            if child >= number:
                raise Altered(number)
            if self.holds(child):
                return child
        raise Altered(number)

    def bottom(self, tops):
        """The number of the bottom node that the walk comes to."""
        number = self.top(tops)
        while self.nodes[number].count > 0:
            number = self.child(number)
        return number

    def told(self, number):
        """The answer that a bottom node tells of a tip that it holds."""
        node = self.nodes[number]
        if node.loop >= self.loops or node.sides > MOST_SIDES:
            raise Altered(number)
        a, b, c = node.corners
        ab, bc, ca = (self.side(p, q) == 0 for p, q in ((a, b), (b, c), (c, a)))
        for corner, one, other in ((a, ab, ca), (b, ab, bc), (c, bc, ca)):
            if one and other:
                return VERTEX, corner, 0
        for value, on, p, q in ((1, ab, a, b), (2, bc, b, c), (4, ca, c, a)):
            if on and node.sides & value:
                return EDGE, min(p, q), max(p, q)
        return FACE, node.loop, 0


def walked(width, height, points, nodes, tops, loops, tip):
    """The answer and the count of tests; or the place that is wrong, as an int."""
    walk = Walk(width, height, points, nodes, loops, tip)
    try:
        return walk.told(walk.bottom(tops)), walk.tests
    except Altered as altered:
        return altered.place
